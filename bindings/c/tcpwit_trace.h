/* Writes the lines of a trace and of a witness from the hooks of a stack (docs/reference/formats.md,
 * docs/how-to/own-traces.md).
 *
 * C99. Allocates nothing and includes only fixed-width integers; it passes the bytes to your function. One line needs several calls of
 * that function, so if threads share a trace, hold a lock around each function of this file.
 *
 *     static void put(void *file, const char *bytes, size_t count) { fwrite(bytes, 1, count, file); }
 *     struct tcpwit trace = { put, file, 5 };
 *     tcpwit_header(&trace, 0, 60000000, 1000, 200000, 0, 5681);
 *     tcpwit_judged(&trace, 2, TCPWIT_FULL, 20000);
 *     tcpwit_begin_send(&trace, now, thread, socket, bytes, count);   before the call does anything
 *     tcpwit_end_number(&trace, now, thread, taken);                  after it: the number of accepted bytes
 *     tcpwit_out(&trace, now, 90 + host, host, header, 20, payload, n);
 *     tcpwit_finish(&trace, now);                                     when the recording stops
 *
 * Arguments of all functions:
 *   moment   microseconds on one clock for both hosts, from any start. A moment that goes back is written as the previous one.
 *   thread   a number for each calling thread, and different ones, for each host, for segments received, segments sent and timers.
 *            The lines of one thread keep their order, and a thread has at most one open call. TCPWIT_LAST_THREAD is taken.
 *   host     0 or 1. Always 0 if only host 0 is recorded (version 3, or a later one with hosts 1).
 *   socket   numbers from 1 that you choose: use each one only once in a trace, for a listener or an opened or accepted connection.
 *   segment  from the first byte of the TCP header to the last of the payload, without IP; in two parts, because stacks keep headers
 *            and payloads apart. The second part may be empty.
 * Each function of a trace returns the number of the line that it wrote. A witness refers to lines by these numbers.
 */
#ifndef TCPWIT_TRACE_H
#define TCPWIT_TRACE_H

#include <stddef.h>
#include <stdint.h>

struct tcpwit {
    void (*put)(void *to, const char *bytes, size_t count);
    void *to;
    int version;      /* of the format: 1, 2, 3, 5 or 6; 6 reads SACK blocks, and has no level TCPWIT_FULL */
    uint32_t line;    /* the last line that was written; 0 at first */
    uint64_t moment;  /* the last moment; 0 at first */
};

enum tcpwit_answer {
    TCPWIT_OK, TCPWIT_AGAIN, TCPWIT_EOF, TCPWIT_CLOSED, TCPWIT_NOTCONN, TCPWIT_REFUSED, TCPWIT_RESET, TCPWIT_TIMEOUT, TCPWIT_INUSE,
    TCPWIT_BADSOCKET
};

enum tcpwit_state {
    TCPWIT_IS_CLOSED, TCPWIT_LISTEN, TCPWIT_SYN_SENT, TCPWIT_SYN_RECEIVED, TCPWIT_ESTABLISHED, TCPWIT_FIN_WAIT_1, TCPWIT_FIN_WAIT_2,
    TCPWIT_CLOSE_WAIT, TCPWIT_CLOSING, TCPWIT_LAST_ACK, TCPWIT_TIME_WAIT
};

/* TCPWIT_PTO, the timer of a tail loss probe (RFC 8985, 7), is for version 6. */
enum tcpwit_timer { TCPWIT_RTO, TCPWIT_PERSIST, TCPWIT_2MSL, TCPWIT_GIVEUP, TCPWIT_PTO };

/* How much of congestion control is judged, from strict to lax. */
enum tcpwit_level { TCPWIT_FULL, TCPWIT_RECOVERY, TCPWIT_NONE };

/* A slack with which no duty and no limit is judged. */
#define TCPWIT_ANY UINT64_MAX
/* The thread of tcpwit_finish. */
#define TCPWIT_LAST_THREAD UINT32_MAX

/* ---- Pieces of a line ---- */

static inline void tcpwit_text(struct tcpwit *t, const char *text)
{
    size_t count = 0;
    while (text[count]) count++;
    t->put(t->to, text, count);
}

static inline void tcpwit_number(struct tcpwit *t, uint64_t number)
{
    char digits[20];
    size_t at = sizeof digits;
    do digits[--at] = (char)('0' + number % 10); while (number /= 10);
    t->put(t->to, digits + at, sizeof digits - at);
}

/* A space, and a number. */
static inline void tcpwit_field(struct tcpwit *t, uint64_t number)
{
    t->put(t->to, " ", 1);
    tcpwit_number(t, number);
}

static inline void tcpwit_hex(struct tcpwit *t, const void *bytes, size_t count)
{
    const unsigned char *from = (const unsigned char *)bytes;
    char digits[64];
    for (size_t at = 0; at < count;) {
        size_t filled = 0;
        for (; at < count && filled < sizeof digits; at++) {
            digits[filled++] = "0123456789abcdef"[from[at] >> 4];
            digits[filled++] = "0123456789abcdef"[from[at] & 15];
        }
        t->put(t->to, digits, filled);
    }
}

static inline uint32_t tcpwit_end_line(struct tcpwit *t)
{
    t->put(t->to, "\n", 1);
    return ++t->line;
}

static inline void tcpwit_start(struct tcpwit *t, uint64_t moment, uint32_t thread, const char *word)
{
    if (moment > t->moment) t->moment = moment;
    tcpwit_number(t, t->moment);
    tcpwit_field(t, thread);
    tcpwit_text(t, word);
}

static inline void tcpwit_header_line(struct tcpwit *t, const char *word, uint64_t number)
{
    tcpwit_text(t, word);
    tcpwit_number(t, number);
    (void)tcpwit_end_line(t);
}

/* ---- The header; before all else ---- */

/* skew: 0 if one clock stamps everything. msl: the maximum segment lifetime, half of the length of TIME-WAIT. grain: the tick of the timers'
 * clock. minrto: the minimum retransmission timeout. These are in microseconds. extra: how many children a queue holds beyond its backlog.
 * initial: 5681 or 6928, the RFC of the initial window; not written in version 1. If in doubt, a smaller minrto and a larger grain and extra
 * are less strict. From version 5 on, tcpwit_judged follows; an expiry may also be too late, so a minrto that is too small needs more slack. */
static inline void tcpwit_header(struct tcpwit *t, uint64_t skew, uint64_t msl, uint64_t grain, uint64_t minrto, uint32_t extra, unsigned initial)
{
    tcpwit_header_line(t, "trace ", (uint64_t)t->version);
    tcpwit_header_line(t, "skew ", skew);
    tcpwit_header_line(t, "msl ", msl);
    tcpwit_header_line(t, "grain ", grain);
    tcpwit_header_line(t, "minrto ", minrto);
    tcpwit_header_line(t, "extra ", extra);
    if (t->version > 1) tcpwit_header_line(t, "initial ", initial);
    if (t->version == 3) tcpwit_header_line(t, "half ", 0);
}

/* The rest of the header from version 5 on: what is judged. hosts: 2, or 1 if only host 0 is recorded. slack: by how many microseconds a host may be
 * late with what it has to do, such as an acknowledgment or a retransmission; TCPWIT_ANY if that isn't judged. On a simulated
 * clock, 20,000 is enough. Add the tick of your stack's slowest timer, and on a real clock how long it may wait until it runs. In version 6,
 * two lines follow that have no effect below TCPWIT_FULL. */
static inline void tcpwit_judged(struct tcpwit *t, int hosts, enum tcpwit_level level, uint64_t slack)
{
    static const char *const names[] = { "congestion full", "congestion recovery", "congestion none" };
    tcpwit_header_line(t, "hosts ", (uint64_t)hosts);
    tcpwit_text(t, names[level]);
    (void)tcpwit_end_line(t);
    if (slack != TCPWIT_ANY) {
        tcpwit_header_line(t, "slack ", slack);
    } else {
        tcpwit_text(t, "slack any");
        (void)tcpwit_end_line(t);
    }
    if (t->version == 6) {
        tcpwit_text(t, "sender cubic");
        (void)tcpwit_end_line(t);
        tcpwit_text(t, "growth any");
        (void)tcpwit_end_line(t);
    }
}

/* ---- Calls begin: before the stack does anything for them ---- */

static inline uint32_t tcpwit_begin_listen(struct tcpwit *t, uint64_t moment, uint32_t thread, int host, unsigned port, unsigned backlog)
{
    tcpwit_start(t, moment, thread, " B listen");
    tcpwit_field(t, (uint64_t)host);
    tcpwit_field(t, port);
    tcpwit_field(t, backlog);
    return tcpwit_end_line(t);
}

/* A connect, blocking or not. It ends at once with a number; use an await for whether the connection is established. */
static inline uint32_t tcpwit_begin_open(struct tcpwit *t, uint64_t moment, uint32_t thread, int host, unsigned local, unsigned remote)
{
    tcpwit_start(t, moment, thread, " B open");
    tcpwit_field(t, (uint64_t)host);
    tcpwit_field(t, local);
    tcpwit_field(t, remote);
    return tcpwit_end_line(t);
}

static inline uint32_t tcpwit_begin_on(struct tcpwit *t, uint64_t moment, uint32_t thread, const char *word, uint32_t socket)
{
    tcpwit_start(t, moment, thread, word);
    tcpwit_field(t, socket);
    return tcpwit_end_line(t);
}

static inline uint32_t tcpwit_begin_await(struct tcpwit *t, uint64_t moment, uint32_t thread, uint32_t socket)
{
    return tcpwit_begin_on(t, moment, thread, " B await", socket);
}

static inline uint32_t tcpwit_begin_accept(struct tcpwit *t, uint64_t moment, uint32_t thread, uint32_t listener)
{
    return tcpwit_begin_on(t, moment, thread, " B accept", listener);
}

/* Shuts down sending: shutdown(SHUT_WR). */
static inline uint32_t tcpwit_begin_shut(struct tcpwit *t, uint64_t moment, uint32_t thread, uint32_t socket)
{
    return tcpwit_begin_on(t, moment, thread, " B shut", socket);
}

static inline uint32_t tcpwit_begin_close(struct tcpwit *t, uint64_t moment, uint32_t thread, uint32_t socket)
{
    return tcpwit_begin_on(t, moment, thread, " B close", socket);
}

/* Aborts with a reset: SO_LINGER of 0 and close. */
static inline uint32_t tcpwit_begin_abort(struct tcpwit *t, uint64_t moment, uint32_t thread, uint32_t socket)
{
    return tcpwit_begin_on(t, moment, thread, " B abort", socket);
}

static inline uint32_t tcpwit_begin_status(struct tcpwit *t, uint64_t moment, uint32_t thread, uint32_t socket)
{
    return tcpwit_begin_on(t, moment, thread, " B status", socket);
}

/* 1 to 65,535 bytes to send. */
static inline uint32_t tcpwit_begin_send(struct tcpwit *t, uint64_t moment, uint32_t thread, uint32_t socket, const void *bytes, size_t count)
{
    tcpwit_start(t, moment, thread, " B send");
    tcpwit_field(t, socket);
    tcpwit_text(t, " ");
    tcpwit_hex(t, bytes, count);
    return tcpwit_end_line(t);
}

/* At most this many bytes are requested, 1 to 65,535. */
static inline uint32_t tcpwit_begin_recv(struct tcpwit *t, uint64_t moment, uint32_t thread, uint32_t socket, uint32_t most)
{
    tcpwit_start(t, moment, thread, " B recv");
    tcpwit_field(t, socket);
    tcpwit_field(t, most);
    return tcpwit_end_line(t);
}

/* ---- Calls end: once the answer is known. A call that still waits has no such line ---- */

static inline const char *tcpwit_word(enum tcpwit_answer answer)
{
    static const char *const words[] = {
        "ok", "again", "eof", "closed", "notconn", "refused", "reset", "timeout", "inuse", "badsocket"
    };
    return words[answer];
}

static inline const char *tcpwit_state_name(enum tcpwit_state state)
{
    static const char *const names[] = {
        "CLOSED", "LISTEN", "SYN-SENT", "SYN-RECEIVED", "ESTABLISHED", "FIN-WAIT-1", "FIN-WAIT-2", "CLOSE-WAIT", "CLOSING",
        "LAST-ACK", "TIME-WAIT"
    };
    return names[state];
}

/* An answer without a value: await, shut, close, abort, and every failure. If the system reports a fault only once, repeat it yourself. */
static inline uint32_t tcpwit_end(struct tcpwit *t, uint64_t moment, uint32_t thread, enum tcpwit_answer answer)
{
    tcpwit_start(t, moment, thread, " E ");
    tcpwit_text(t, tcpwit_word(answer));
    return tcpwit_end_line(t);
}

/* `ok` with a number: the socket of listen, open and accept, or how many bytes a send accepted, at least 1. */
static inline uint32_t tcpwit_end_number(struct tcpwit *t, uint64_t moment, uint32_t thread, uint32_t number)
{
    tcpwit_start(t, moment, thread, " E ok");
    tcpwit_field(t, number);
    return tcpwit_end_line(t);
}

/* A recv that returned bytes, at least 1. If it returned none because the peer's stream ended: tcpwit_end with TCPWIT_EOF. */
static inline uint32_t tcpwit_end_data(struct tcpwit *t, uint64_t moment, uint32_t thread, const void *bytes, size_t count)
{
    tcpwit_start(t, moment, thread, " E data ");
    tcpwit_hex(t, bytes, count);
    return tcpwit_end_line(t);
}

static inline uint32_t tcpwit_end_state(struct tcpwit *t, uint64_t moment, uint32_t thread, enum tcpwit_state state)
{
    tcpwit_start(t, moment, thread, " E state ");
    tcpwit_text(t, tcpwit_state_name(state));
    return tcpwit_end_line(t);
}

/* ---- The wire and the timers ---- */

static inline uint32_t tcpwit_segment(struct tcpwit *t, uint64_t moment, uint32_t thread, const char *word, int host, const void *header,
                                      size_t header_count, const void *payload, size_t payload_count)
{
    tcpwit_start(t, moment, thread, word);
    tcpwit_field(t, (uint64_t)host);
    tcpwit_text(t, " ");
    tcpwit_hex(t, header, header_count);
    tcpwit_hex(t, payload, payload_count);
    return tcpwit_end_line(t);
}

/* A segment is sent: call this where the stack passes it to IP, with the bytes that the peer will see. */
static inline uint32_t tcpwit_out(struct tcpwit *t, uint64_t moment, uint32_t thread, int host, const void *header, size_t header_count,
                                  const void *payload, size_t payload_count)
{
    return tcpwit_segment(t, moment, thread, " O", host, header, header_count, payload, payload_count);
}

/* A segment arrived: call this before the stack examines it, even if the stack will drop it. */
static inline uint32_t tcpwit_in(struct tcpwit *t, uint64_t moment, uint32_t thread, int host, const void *header, size_t header_count,
                                 const void *payload, size_t payload_count)
{
    return tcpwit_segment(t, moment, thread, " I", host, header, header_count, payload, payload_count);
}

/* A timer expired: the retransmission timer, the probe of a zero window, the end of TIME-WAIT, or giving up. Call this before its effects. */
static inline uint32_t tcpwit_expired(struct tcpwit *t, uint64_t moment, uint32_t thread, int host, unsigned local, unsigned remote,
                                      enum tcpwit_timer timer)
{
    static const char *const names[] = { " rto", " persist", " 2msl", " giveup", " pto" };
    tcpwit_start(t, moment, thread, " T");
    tcpwit_field(t, (uint64_t)host);
    tcpwit_field(t, local);
    tcpwit_field(t, remote);
    tcpwit_text(t, names[timer]);
    return tcpwit_end_line(t);
}

/* The recording stops: a call that changes nothing shows how long it lasted, without which nothing is late after the last event. Write no line
 * after it. It is on a thread of its own, and about socket 0, which must not exist. Returns the number of its second line. */
static inline uint32_t tcpwit_finish(struct tcpwit *t, uint64_t moment)
{
    (void)tcpwit_begin_status(t, moment, TCPWIT_LAST_THREAD, 0);
    return tcpwit_end(t, moment, TCPWIT_LAST_THREAD, TCPWIT_BADSOCKET);
}

/* ---- A witness, if your stack knows more than a trace shows. Write it to a separate place, and append it to the trace at the end ---- */

/* The first line. Write the others as things happen; each line of the trace needs a step of its own. */
static inline void tcpwit_witness(struct tcpwit *t) { tcpwit_header_line(t, "witness ", (uint64_t)t->version); }

static inline void tcpwit_step(struct tcpwit *t, uint64_t moment, const char *word)
{
    if (moment > t->moment) t->moment = moment;
    tcpwit_number(t, t->moment);
    tcpwit_text(t, word);
}

/* Places line `line` of the trace, with `count` numbers (0 to 2): none for B, E, and timers except rto; for an O line, the number of the made
 * segment, counted from 1 over both hosts; for an I line, the O line that it copies, or none if only host 0 is recorded; for rto, cwnd and ssthresh after it. */
static inline void tcpwit_step_line(struct tcpwit *t, uint64_t moment, uint32_t line, int count, uint32_t first, uint32_t second)
{
    tcpwit_step(t, moment, " L");
    tcpwit_field(t, line);
    if (count > 0) tcpwit_field(t, first);
    if (count > 1) tcpwit_field(t, second);
    (void)tcpwit_end_line(t);
}

/* The open call of a thread has its effect, with this answer in the words of a trace: "ok 5", "data 6869", "state LISTEN". */
static inline void tcpwit_step_effect(struct tcpwit *t, uint64_t moment, uint32_t thread, const char *answer)
{
    tcpwit_step(t, moment, " D");
    tcpwit_field(t, thread);
    tcpwit_text(t, " ");
    tcpwit_text(t, answer);
    (void)tcpwit_end_line(t);
}

/* The steps of tcpwit_finish, whose second line has this number. */
static inline void tcpwit_step_finish(struct tcpwit *t, uint64_t moment, uint32_t line)
{
    tcpwit_step_line(t, moment, line - 1, 0, 0, 0);
    tcpwit_step_effect(t, moment, TCPWIT_LAST_THREAD, "badsocket");
    tcpwit_step_line(t, moment, line, 0, 0, 0);
}

/* A segment is made: its ports; the position of its first sequence number, 0 for the SYN, 1 for the first byte; its length; its flags, letters of
 * ARSF or "-"; its window field. For the first SYN of an endpoint, `iss` is its sequence number, else -1; from version 2 on, also its shift, or -1. */
static inline void tcpwit_step_make(struct tcpwit *t, uint64_t moment, int host, unsigned local, unsigned remote, uint64_t position,
                                    unsigned length, const char *flags, unsigned window, int64_t iss, int shift)
{
    tcpwit_step(t, moment, " M");
    tcpwit_field(t, (uint64_t)host);
    tcpwit_field(t, local);
    tcpwit_field(t, remote);
    tcpwit_field(t, position);
    tcpwit_field(t, length);
    tcpwit_text(t, " ");
    tcpwit_text(t, flags);
    tcpwit_field(t, window);
    if (iss >= 0) tcpwit_field(t, (uint64_t)iss);
    if (iss >= 0 && shift >= 0) tcpwit_field(t, (uint64_t)shift);
    (void)tcpwit_end_line(t);
}

/* The segment of I line `line` is processed: the congestion window afterwards, whether its bytes were kept, whether the round trip was measured. */
static inline void tcpwit_step_take(struct tcpwit *t, uint64_t moment, int host, uint32_t line, uint32_t cwnd, int kept, int measured)
{
    tcpwit_step(t, moment, " T");
    tcpwit_field(t, (uint64_t)host);
    tcpwit_field(t, line);
    tcpwit_field(t, cwnd);
    tcpwit_field(t, kept ? 1 : 0);
    tcpwit_field(t, measured ? 1 : 0);
    (void)tcpwit_end_line(t);
}

/* The segment of I line `line` is dropped. */
static inline void tcpwit_step_drop(struct tcpwit *t, uint64_t moment, int host, uint32_t line)
{
    tcpwit_step(t, moment, " K");
    tcpwit_field(t, (uint64_t)host);
    tcpwit_field(t, line);
    (void)tcpwit_end_line(t);
}

/* The segment of I line `line` is answered with a reset, which counts as a made segment. */
static inline void tcpwit_step_reset(struct tcpwit *t, uint64_t moment, int host, uint32_t line)
{
    tcpwit_step(t, moment, " R");
    tcpwit_field(t, (uint64_t)host);
    tcpwit_field(t, line);
    (void)tcpwit_end_line(t);
}

/* Fast recovery begins, with this congestion window and threshold. */
static inline void tcpwit_step_recovery(struct tcpwit *t, uint64_t moment, int host, unsigned local, unsigned remote, uint32_t cwnd, uint32_t ssthresh)
{
    tcpwit_step(t, moment, " F");
    tcpwit_field(t, (uint64_t)host);
    tcpwit_field(t, local);
    tcpwit_field(t, remote);
    tcpwit_field(t, cwnd);
    tcpwit_field(t, ssthresh);
    (void)tcpwit_end_line(t);
}

#endif
