/* A small TCP that follows RFC 9293, 6298 and 5681, with window scaling (RFC 7323, 2). It acknowledges each segment at once. It has
 * room for 64 connections and never frees one. With the option `sack`, it also uses SACK (RFC 2018 and 6675) and tail loss probes
 * (RFC 8985, 7). With the option `timestamps`, it has timestamps and PAWS (RFC 7323, 3 to 5), but measures no round trips by them.
 *
 * The variable TOY_DEFECT turns on one of the defects below; the file `defects` lists each with the scenario that finds it, and the file
 * `missed` those that no scenario finds. Without the variable, the stack is correct.
 */
#define _POSIX_C_SOURCE 200809L
#include "../tcpwit_stack.h"
#include <stdio.h>
#include <stdlib.h>
#include <string.h>

enum { FIN = 1, SYN = 2, RST = 4, PSH = 8, ACK = 16 };
enum { CONNECTIONS = 64, SEND_ROOM = 1 << 16, OWN_WINDOW = 1 << 17, OWN_SHIFT = 10, HEADER = 20, STAMPS = 12, LONGEST = 66000, USUAL_MSS = 536 };
/* The most blocks of a segment without bytes; one less with timestamps. One with bytes has at most one block, if the peer's MSS isn't less
 * than ROOM_FOR_BLOCK. */
enum { MOST_BLOCKS = 4, ROOM_FOR_BLOCK = 40, MOST_OPTIONS = 40 };
enum { SECOND = 1000000, GRAIN = 1000, OVERRIDE = SECOND / 2 };
static const uint64_t NEVER = UINT64_MAX;
static const uint64_t LONGEST_RTO = 60 * (uint64_t)SECOND, GIVE_UP = 180 * (uint64_t)SECOND, TIME_WAIT_LASTS = 60 * (uint64_t)SECOND;

enum state { CLOSED, LISTEN, SYN_SENT, SYN_RECEIVED, ESTABLISHED, FIN_WAIT_1, FIN_WAIT_2, CLOSE_WAIT, CLOSING, LAST_ACK, TIME_WAIT };

enum defect {
    NONE, WINDOW_IGNORED, RTO_NOT_DOUBLED, RTO_TOO_EARLY, NO_SLOW_START, NO_COLLAPSE, FIN_NOT_RESENT, DUPLICATES_DELIVERED, HOLES_DELIVERED,
    ACK_BEYOND, ACK_OF_UNSENT, DATA_AFTER_FIN, ANY_RESET, NO_TIME_WAIT, MSS_IGNORED, NO_RETRANSMISSION, NO_PROBES, WINDOW_SHRUNK,
    KARN_IGNORED, SYN_NOT_BACKED_OFF, SCALE_IGNORED, ROOM_NOT_FREED, RING_OFF_BY_ONE, SENT_NOT_MODULO, RECEIVED_NOT_MODULO,
    SCALE_ASSUMED, SYN_SCALED, WINDOW_DOUBLED, RTO_KEPT_AFTER_SYN, TIME_WAIT_REOPENED, SEND_AFTER_SHUT, PROBE_UNANSWERED, GAP_ANSWERED_ONCE,
    ACK_LATE, HALF_OPEN_ACCEPTED, PROBES_STEADY, ACK_DELAY_RESTARTED, FIN_WAITS, WINDOW_OF_OLDER_SEGMENT, WINDOW_OF_OLDER_ACK,
    BACKLOG_LEAK, UNKNOWN_OPTION_STOPS, TIME_WAIT_NOT_RESTARTED, SYN_ACK_RESENT_ONCE, VARIANCE_UNUSED, ACCEPTED_BY_AGE,
    NO_FAST_RETRANSMIT, NO_WINDOW_UPDATE, ROUND_TRIP_UNUSED, SILLY_WINDOWS,
    BLOCK_TOO_WIDE, BLOCKS_UNPERMITTED, SACKED_RESENT, LOST_RESENT_TWICE, RECOVERY_AFTER_TWO, OLD_BLOCKS_COUNT, SCOREBOARD_KEPT,
    PROBE_TOO_EARLY, PROBE_REPEATED, ECHO_OF_THE_LAST_TO_COME, TIMESTAMP_BACK, NO_BLOCKS, OLDEST_BLOCK_FIRST, DEFECTS
};
static const char *const defect_names[DEFECTS] = {
    "none", "window-ignored", "rto-not-doubled", "rto-too-early", "no-slow-start", "no-collapse", "fin-not-resent", "duplicates-delivered",
    "holes-delivered", "ack-beyond", "ack-of-unsent", "data-after-fin", "any-reset", "no-time-wait", "mss-ignored", "no-retransmission",
    "no-probes", "window-shrunk", "karn-ignored", "syn-not-backed-off", "scale-ignored", "room-not-freed", "ring-off-by-one", "sent-not-modulo",
    "received-not-modulo", "scale-assumed", "syn-scaled", "window-doubled", "rto-kept-after-syn", "time-wait-reopened", "send-after-shut",
    "probe-unanswered", "gap-answered-once", "ack-late", "half-open-accepted", "probes-steady", "ack-delay-restarted", "fin-waits",
    "window-of-older-segment", "window-of-older-ack", "backlog-leak", "unknown-option-stops", "time-wait-not-restarted",
    "syn-ack-resent-once", "variance-unused", "accepted-by-age", "no-fast-retransmit", "no-window-update", "round-trip-unused",
    "silly-windows",
    "block-too-wide", "blocks-unpermitted", "sacked-resent", "lost-resent-twice", "recovery-after-two", "old-blocks-count",
    "scoreboard-kept", "probe-too-early", "probe-repeated", "echo-of-the-last-to-come", "timestamp-back", "no-blocks", "oldest-block-first"
};
static enum defect defect;

struct connection {
    enum state state;
    unsigned local, remote;
    long fault;                            /* 0, or STACK_REFUSED .. */
    struct connection *listener;           /* of a child: the listener at which it waits until it is accepted */
    unsigned backlog, order;               /* of a listener; of a connection: how many were established before it */
    int passive, dropped;                  /* opened by a listener; its socket was closed */
    /* Sending: `out` has the unacknowledged bytes, from `out_seq` on. A FIN follows once `shut` is set. */
    uint32_t iss, una, nxt, max;           /* `max`: one more than the greatest sequence number sent */
    uint32_t window, wl1, wl2, widest;     /* the peer's window, and the largest it offered */
    uint32_t mss, cwnd, ssthresh, recover; /* no fast recovery before `recover` is acknowledged */
    unsigned char *out;
    uint32_t out_seq, queued;
    int shut, duplicates, fast, send_shift, overridden;
    /* SACK, if both SYNs permit it. `marks`: of each position from `out_seq` on, and of the FIN; all unsacked ones before `lost` are lost. */
    int sack;
    unsigned char *marks;
    uint32_t lost, probe_end;              /* `probe_end`: until this is acknowledged, there is no other probe */
    enum { NO_PROBE, NEW_PROBE, OLD_PROBE } probe;
    /* Timestamps, if both SYNs have them: the peer's that is echoed, and the last acknowledgment number sent (RFC 7323, 4.3). */
    int stamped;
    uint32_t recent, last_ack;
    /* Receiving: `in` begins with the `unread` bytes; `have` marks the received bytes after them. */
    uint32_t irs, rcv_nxt, edge, room;     /* `edge`: the end of the window that was offered */
    unsigned char *in, *have;
    uint32_t unread, fin_at, farthest;     /* `farthest`: the end of the bytes received, whatever is missing before it */
    int fin_seen, fin_taken, rcv_shift, ack_due;
    uint32_t told[MOST_BLOCKS];            /* a number in each block of bytes after a gap, the latest first */
    unsigned blocks;
    /* Timers: the moments when they expire. */
    uint64_t rto_at, persist_at, override_at, end_at, ack_at, probe_at;
    uint64_t rto, srtt, rttvar, persist, timed_at, stuck_since;
    uint32_t timed;                        /* the number whose acknowledgment is a sample */
    int timing, expiries, sampled;
};

static struct connection connections[CONNECTIONS];
static int opened;
static unsigned established;
static struct stack_config config;
static int uses_sack, uses_timestamps;
enum mark { SACKED = 1, AGAIN = 2 };       /* AGAIN: sent again since the last timeout */

static int before(uint32_t a, uint32_t b) { return (int32_t)(a - b) < 0; }
static uint32_t least(uint32_t a, uint32_t b) { return a < b ? a : b; }
static uint32_t most_of(uint32_t a, uint32_t b) { return a > b ? a : b; }
static uint32_t number_at(const unsigned char *at) { return (uint32_t)at[0] << 24 | (uint32_t)at[1] << 16 | (uint32_t)at[2] << 8 | at[3]; }
static void put_number(unsigned char *at, uint32_t n) { for (int i = 0; i < 4; i++) at[i] = (unsigned char)(n >> (24 - 8 * i)); }
static void put_short(unsigned char *at, unsigned n) { at[0] = (unsigned char)(n >> 8); at[1] = (unsigned char)n; }

/* ---- Segments ---- */

struct segment {
    unsigned from, to, flags, window;
    uint32_t seq, ack, count, mss;
    int shift;                             /* -1: no such option */
    int permits;                           /* it permits SACK */
    int stamped;                           /* it has timestamps; `stamp` is its own */
    uint32_t stamp;
    uint32_t blocks[MOST_BLOCKS][2];
    unsigned block_count;
    const unsigned char *bytes;
};

static void read_blocks(struct segment *segment, const unsigned char *at)
{
    segment->block_count = 0;
    for (const unsigned char *block = at + 2; block < at + at[1] && segment->block_count < MOST_BLOCKS; block += 8) {
        segment->blocks[segment->block_count][0] = number_at(block);
        segment->blocks[segment->block_count++][1] = number_at(block + 4);
    }
}

static void read_options(struct segment *segment, const unsigned char *at, const unsigned char *end)
{
    while (at < end && *at) {
        if (*at == 1) { at++; continue; }
        if (at + 1 >= end || at[1] < 2 || at + at[1] > end) return;
        if (at[0] > 3 && defect == UNKNOWN_OPTION_STOPS) return;
        if (at[0] == 2 && at[1] == 4) segment->mss = (uint32_t)(at[2] << 8 | at[3]);
        if (at[0] == 3 && at[1] == 3) segment->shift = at[2] < 14 ? at[2] : 14;
        if (at[0] == 4 && at[1] == 2) segment->permits = 1;
        if (at[0] == 5 && at[1] % 8 == 2) read_blocks(segment, at);
        if (at[0] == 8 && at[1] == 10) {
            segment->stamped = 1;
            segment->stamp = number_at(at + 2);
        }
        at += at[1];
    }
}

static int read_segment(struct segment *segment, const unsigned char *at, size_t count)
{
    if (count < HEADER || (size_t)(at[12] >> 4) * 4 > count || at[12] >> 4 < 5) return 0;
    unsigned offset = (at[12] >> 4) * 4u;
    *segment = (struct segment){ .from = at[0] << 8u | at[1], .to = at[2] << 8u | at[3], .seq = number_at(at + 4), .ack = number_at(at + 8),
        .flags = at[13], .window = at[14] << 8u | at[15], .shift = -1, .bytes = at + offset, .count = (uint32_t)(count - offset) };
    read_options(segment, at + HEADER, at + offset);
    if (!segment->mss) segment->mss = USUAL_MSS;
    return 1;
}

static uint32_t length_of(const struct segment *s) { return s->count + !!(s->flags & SYN) + !!(s->flags & FIN); }

static void leave(unsigned local, unsigned remote, uint32_t seq, uint32_t ack, unsigned flags, unsigned window,
                  const unsigned char *options, unsigned option_bytes, const unsigned char *bytes, uint32_t count)
{
    static unsigned char segment[LONGEST];
    memset(segment, 0, HEADER);
    put_short(segment, local);
    put_short(segment + 2, remote);
    put_number(segment + 4, seq);
    put_number(segment + 8, ack);
    segment[12] = (unsigned char)((HEADER + option_bytes) / 4 << 4);
    segment[13] = (unsigned char)flags;
    put_short(segment + 14, window);
    if (option_bytes) memcpy(segment + HEADER, options, option_bytes);
    if (count) memcpy(segment + HEADER + option_bytes, bytes, count);
    stack_out(segment, HEADER + option_bytes + count);
}

/* RFC 9293, 3.10.7.1: a segment without a connection is answered with a reset. */
static void refuse(const struct segment *s)
{
    if (s->flags & RST) return;
    if (s->flags & ACK) leave(s->to, s->from, s->ack, 0, RST, 0, NULL, 0, NULL, 0);
    else leave(s->to, s->from, 0, s->seq + length_of(s), RST | ACK, 0, NULL, 0, NULL, 0);
}

/* ---- The offered window ---- */

/* The window field of a segment. The edge moves by at least a segment or half of the buffer (RFC 9293, 3.8.6.2.2), and never back. */
static unsigned offer(struct connection *c, int in_syn)
{
    uint32_t edge = c->rcv_nxt + c->room - c->unread;
    if (defect == WINDOW_SHRUNK && c->unread) edge = c->rcv_nxt + (c->room - c->unread) / 8;
    if (defect == WINDOW_SHRUNK || edge - c->edge >= (defect == SILLY_WINDOWS ? 1 : least(config.mss, c->room / 2))) c->edge = edge;
    uint32_t window = before(c->rcv_nxt, c->edge) ? c->edge - c->rcv_nxt : 0;
    if (in_syn) return least(window, 65535);
    return least(window >> (c->rcv_shift - (defect == WINDOW_DOUBLED && c->rcv_shift)), 65535);
}

/* ---- SACK: what the acknowledgments report (RFC 2018, 4) ---- */

/* The bounds of the received bytes around `seq`, which come after a gap. */
static void block_around(const struct connection *c, uint32_t seq, uint32_t *left, uint32_t *right)
{
    uint32_t base = c->rcv_nxt - c->unread, first = seq - base, last = first;
    while (first > c->unread && c->have[first - 1]) first--;
    while (last < c->room && c->have[last]) last++;
    *left = base + first;
    *right = base + last;
}

/* Bytes arrived after a gap, from `seq` on: the next acknowledgment reports their block first. */
static void note_block(struct connection *c, uint32_t seq)
{
    uint32_t left, right, told[MOST_BLOCKS] = { seq };
    unsigned kept = 1;
    block_around(c, seq, &left, &right);
    for (unsigned i = 0; i < c->blocks && kept < MOST_BLOCKS; i++)
        if (before(c->told[i], left) || !before(c->told[i], right)) told[kept++] = c->told[i];
    memcpy(c->told, told, sizeof told);
    c->blocks = kept;
}

/* Writes an option with at most `most` blocks. Returns its length, 0 without blocks. */
static unsigned put_blocks(const struct connection *c, unsigned char *options, unsigned most)
{
    unsigned count = 0, length;
    for (unsigned i = 0; i < c->blocks && count < most; i++) {
        uint32_t left, right, within = c->told[defect == OLDEST_BLOCK_FIRST ? c->blocks - 1 - i : i];
        if (!before(c->rcv_nxt, within)) continue;
        block_around(c, within, &left, &right);
        int known = 0;
        for (unsigned other = 0; other < count; other++) known |= number_at(options + 4 + 8 * other) == left;
        if (known) continue;
        put_number(options + 4 + 8 * count, left);
        put_number(options + 8 + 8 * count++, right + (defect == BLOCK_TOO_WIDE));
    }
    if (!count) return 0;
    length = 4 + 8 * count;
    memcpy(options, (unsigned char[]){ 1, 1, 5, (unsigned char)(length - 2) }, 4);
    return length;
}

/* ---- Timestamps (RFC 7323) ---- */

/* Writes the option: our clock, in milliseconds from the first sequence number on, and the timestamp that is echoed. Returns its length. */
static unsigned put_stamps(const struct connection *c, unsigned char *options)
{
    int set_back = defect == TIMESTAMP_BACK && c->una != c->iss;
    memcpy(options, (unsigned char[]){ 1, 1, 8, 10 }, 4);
    put_number(options + 4, c->iss + (uint32_t)(stack_now() / 1000) - (set_back ? 1000 : 0));
    put_number(options + 8, c->recent);
    return STAMPS;
}

/* RFC 7323, 4.3: a segment that begins at most at the last acknowledgment number, and isn't older, has the timestamp that is echoed. */
static void take_stamp(struct connection *c, const struct segment *s)
{
    if (!c->stamped || !s->stamped || before(s->stamp, c->recent)) return;
    if (!before(c->last_ack, s->seq) || defect == ECHO_OF_THE_LAST_TO_COME) c->recent = s->stamp;
}

/* The options of a segment with this many bytes, but for a SYN. */
static unsigned put_options(const struct connection *c, unsigned char *options, uint32_t count)
{
    unsigned length = c->stamped ? put_stamps(c, options) : 0;
    if (!c->sack || c->fin_taken || defect == NO_BLOCKS) return length;
    return length + put_blocks(c, options + length, !count ? MOST_BLOCKS - !!length : c->mss >= ROOM_FOR_BLOCK);
}

/* The most bytes of a segment: the peer's MSS without our options (RFC 9293, 3.7.1). */
static uint32_t segment_room(const struct connection *c)
{
    unsigned char options[MOST_OPTIONS];
    return c->mss - put_options(c, options, 1);
}

/* ---- Sending ---- */

static uint32_t end_of(const struct connection *c) { return c->out_seq + c->queued; }
static int fin_was_sent(const struct connection *c) { return c->shut && c->max == end_of(c) + 1; }

static uint32_t acknowledged_by(const struct connection *c)
{
    if (defect == ACK_BEYOND && before(c->rcv_nxt, c->farthest)) return c->farthest;
    return c->rcv_nxt + (defect == ACK_OF_UNSENT && c->unread ? 1000 : 0);
}

static void reply(struct connection *c, unsigned flags, uint32_t seq, uint32_t count)
{
    unsigned char options[MOST_OPTIONS];
    unsigned option_bytes = put_options(c, options, count);
    c->ack_due = 0;
    c->ack_at = NEVER;
    c->last_ack = acknowledged_by(c);
    leave(c->local, c->remote, seq, acknowledged_by(c), flags | ACK, offer(c, 0), options, option_bytes,
          count ? c->out + (seq - c->out_seq) : NULL, count);
}

static void acknowledge(struct connection *c) { reply(c, 0, c->max, 0); }

static void send_syn(struct connection *c)
{
    unsigned char options[MOST_OPTIONS] = { 2, 4, 0, 0, 1, 3, 3, (unsigned char)c->rcv_shift };
    put_short(options + 2, config.mss);
    int answers = c->state == SYN_RECEIVED, scaling = !answers || c->send_shift >= 0;
    unsigned length = scaling ? 8 : 4;
    if (uses_sack && (!answers || c->sack)) {
        memcpy(options + length, (unsigned char[]){ 1, 1, 4, 2 }, 4);
        length += 4;
    }
    if (uses_timestamps && (!answers || c->stamped)) length += put_stamps(c, options + length);
    c->last_ack = c->rcv_nxt;
    if (c->max != c->iss && defect != KARN_IGNORED) c->timing = 0;   /* it was sent before */
    leave(c->local, c->remote, c->iss, answers ? c->rcv_nxt : 0, SYN | (answers ? ACK : 0), offer(c, 1), options, length, NULL, 0);
}

static void start_rto(struct connection *c)
{
    uint64_t after = defect == RTO_TOO_EARLY ? c->rto / 4 : c->rto;
    c->rto_at = defect == NO_RETRANSMISSION ? NEVER : stack_now() + after;
}

/* ---- SACK: the scoreboard (RFC 6675) ---- */

static int is_marked(const struct connection *c, uint32_t at, unsigned marks) { return (c->marks[at - c->out_seq] & marks) != 0; }

/* How many bytes a segment may have from `seq` on, without one that has a mark of `marks`. */
static uint32_t unmarked(const struct connection *c, uint32_t seq, unsigned marks)
{
    uint32_t most = least(end_of(c) - seq, segment_room(c)), count = 0;
    while (count < most && !is_marked(c, seq + count, marks)) count++;
    return count;
}

/* RFC 6675, 4: SetPipe. What was sent again is at its own place. After a timeout, all is sent again, up to `nxt`. */
static uint32_t pipe_of(const struct connection *c)
{
    uint32_t pipe = 0;
    for (uint32_t at = c->una; before(at, c->nxt); at++) {
        if (is_marked(c, at, SACKED)) continue;
        pipe += !c->fast || !before(at, c->lost);
        pipe += c->fast && is_marked(c, at, AGAIN);
    }
    return pipe;
}

/* RFC 6675, 4: IsLost. A position is lost once more than two segments' bytes, or three blocks, are sacked after it. */
static void find_lost(struct connection *c)
{
    uint32_t bytes = 0, blocks = 0;
    for (c->lost = c->max; before(c->una, c->lost) && bytes <= 2 * c->mss && blocks < 3; c->lost--) {
        if (!is_marked(c, c->lost - 1, SACKED)) continue;
        bytes++;
        blocks += c->lost == c->max || !is_marked(c, c->lost, SACKED);
    }
    if (bytes <= 2 * c->mss && blocks < 3) c->lost = c->una;
}

/* Where the next segment begins that is lost and wasn't sent again; `max` if there is none (RFC 6675, 4: NextSeg, rule 1). */
static uint32_t next_lost(const struct connection *c)
{
    for (uint32_t at = c->una; before(at, c->lost); at++)
        if (!is_marked(c, at, AGAIN) && (!is_marked(c, at, SACKED) || defect == SACKED_RESENT)) return at;
    return c->max;
}

/* When a tail loss probe is due (RFC 8985, 7.2). */
static void start_probe(struct connection *c)
{
    int sacked = 0;
    c->probe_at = NEVER;
    if (!c->sack || c->fast || c->probe || c->rto_at == NEVER || before(c->una, c->recover)) return;
    for (uint32_t at = c->una; before(at, c->max); at++) sacked |= is_marked(c, at, SACKED);
    if (sacked) return;
    uint64_t after = c->sampled ? 2 * c->srtt : SECOND, at = stack_now() + (defect == PROBE_TOO_EARLY ? after / 4 : after);
    c->probe_at = at < c->rto_at ? at : c->rto_at;
}

/* ---- Sending data ---- */

/* Sends bytes from `seq` on, and a FIN after the last. A second transmission gives no sample (Karn's rule). */
static void send_piece(struct connection *c, uint32_t seq, uint32_t count)
{
    int fin = c->shut && seq + count == end_of(c) && !is_marked(c, end_of(c), SACKED);
    uint32_t next = seq + count + (uint32_t)fin, old = c->max;
    int again = before(seq, c->max);
    if (again && defect != KARN_IGNORED) c->timing = 0;
    else if (again || !c->timing) {
        c->timing = 1;
        c->timed = seq;
        c->timed_at = stack_now();
    }
    if (before(c->nxt, next)) c->nxt = next;
    if (before(c->max, next)) c->max = next;
    if (c->rto_at == NEVER) {
        c->stuck_since = stack_now();
        start_rto(c);
    }
    for (uint32_t at = seq; before(at, old) && before(at, next); at++) c->marks[at - c->out_seq] |= AGAIN;
    if (before(old, next)) start_probe(c);
    reply(c, (fin ? FIN : 0) | (count ? PSH : 0), seq, count);
}

/* Where the windows end: the peer's, and the one for congestion. With SACK, the latter counts what is in flight. */
static uint32_t window_end(const struct connection *c)
{
    uint32_t window = defect == WINDOW_IGNORED ? SEND_ROOM : c->window, end = c->una + window;
    if (!c->sack || before(end, c->nxt)) return c->una + least(window, c->sack ? window : c->cwnd);
    uint32_t pipe = pipe_of(c);
    return c->nxt + least(end - c->nxt, pipe < c->cwnd ? c->cwnd - pipe : 0);
}

/* How many bytes may be sent now from `nxt` on. RFC 9293, 3.8.6.2.1: a small segment only if it is the last, or half of the window. */
static uint32_t sendable(struct connection *c)
{
    uint32_t edge = window_end(c), left = end_of(c) - c->nxt;
    if (!before(c->nxt, edge)) return 0;
    uint32_t count = least(unmarked(c, c->nxt, SACKED), edge - c->nxt);
    return count == segment_room(c) || count == left || count >= c->widest / 2 || before(c->nxt, c->max) || c->overridden ? count : 0;
}

/* In a recovery with SACK, sends what is lost, once. Returns whether new data may follow. */
static int send_lost(struct connection *c)
{
    if (!c->sack || !c->fast) return 1;
    for (uint32_t at = next_lost(c); at != c->max; at = next_lost(c)) {
        if (pipe_of(c) + c->mss > c->cwnd) return 0;
        send_piece(c, at, unmarked(c, at, defect == SACKED_RESENT ? AGAIN : SACKED | AGAIN));
    }
    return 1;
}

/* After a timeout, what was sacked since then isn't sent again. */
static void skip_sacked(struct connection *c)
{
    while (before(c->nxt, c->max) && is_marked(c, c->nxt, SACKED)) c->nxt++;
}

static void output(struct connection *c)
{
    int may_send = c->state >= ESTABLISHED && c->state != FIN_WAIT_2 && c->state != TIME_WAIT;
    int goes_on = may_send && send_lost(c);
    if (may_send) skip_sacked(c);
    while (goes_on && before(c->nxt, end_of(c))) {
        uint32_t count = sendable(c);
        if (!count) break;
        send_piece(c, c->nxt, count);
        skip_sacked(c);
    }
    if (may_send && c->shut && c->nxt == end_of(c) && (c->window || defect != FIN_WAITS)) send_piece(c, c->nxt, 0);
    c->overridden = 0;
    int waits = may_send && before(c->nxt, end_of(c)) && c->nxt == c->una;
    if (!waits || c->window) c->persist_at = NEVER;
    else if (c->persist_at == NEVER && defect != NO_PROBES) c->persist_at = stack_now() + (c->persist = c->rto);
    if (!waits || !c->window) c->override_at = NEVER;
    else if (c->override_at == NEVER) c->override_at = stack_now() + OVERRIDE;
    if (c->ack_due) acknowledge(c);
}

/* ---- The timeout (RFC 6298), and congestion (RFC 5681) ---- */

static void sample(struct connection *c, uint64_t rtt)
{
    if (defect == ROUND_TRIP_UNUSED) return;
    uint64_t off = rtt > c->srtt ? rtt - c->srtt : c->srtt - rtt;
    c->rttvar = c->sampled ? (3 * c->rttvar + off) / 4 : rtt / 2;
    c->srtt = c->sampled ? (7 * c->srtt + rtt) / 8 : rtt;
    c->sampled = 1;
    uint64_t rto = c->srtt + (4 * c->rttvar > GRAIN && defect != VARIANCE_UNUSED ? 4 * c->rttvar : GRAIN);
    c->rto = rto < SECOND ? SECOND : rto > LONGEST_RTO ? LONGEST_RTO : rto;
}

static void back_off(struct connection *c)
{
    int in_syn = c->state == SYN_SENT || c->state == SYN_RECEIVED;
    if (defect != (in_syn ? SYN_NOT_BACKED_OFF : RTO_NOT_DOUBLED)) c->rto = c->rto * 2 < LONGEST_RTO ? c->rto * 2 : LONGEST_RTO;
    c->expiries++;
}

static uint32_t half_of_flight(const struct connection *c) { return most_of((c->max - c->una) / 2, 2 * c->mss); }

/* The initial window: RFC 5681, 3.1; one segment if a SYN was lost. */
static void begin_congestion(struct connection *c)
{
    c->cwnd = c->mss * (c->expiries ? 1 : c->mss > 2190 ? 2 : c->mss > 1095 ? 3 : 4);
    if (defect == NO_SLOW_START) c->cwnd = SEND_ROOM;
    c->ssthresh = UINT32_MAX;
    if (c->expiries && c->rto < 3 * SECOND && defect != RTO_KEPT_AFTER_SYN) c->rto = 3 * SECOND;
    c->recover = c->iss;
}

static void grow(struct connection *c, uint32_t acked)
{
    c->duplicates = 0;
    if (c->fast && c->sack && before(c->una, c->recover)) return;
    if (c->fast) c->cwnd = c->ssthresh;
    else if (c->cwnd < c->ssthresh) c->cwnd += least(acked, c->mss);
    else c->cwnd += most_of(c->mss * c->mss / c->cwnd, 1);
    c->fast = 0;
}

/* Retransmits the earliest segment, with the FIN if it was sent with it. */
static void resend(struct connection *c) { send_piece(c, c->una, least(unmarked(c, c->una, SACKED), c->max - c->una)); }

static void duplicate(struct connection *c)
{
    c->duplicates++;
    if (c->fast) c->cwnd += c->mss;
    if (c->duplicates != 3 || c->fast || before(c->una, c->recover)) return;
    if (defect == NO_RETRANSMISSION || defect == NO_FAST_RETRANSMIT) return;
    c->ssthresh = half_of_flight(c);
    c->cwnd = c->ssthresh + 3 * c->mss;
    c->fast = 1;
    c->recover = c->max;
    resend(c);
}

/* Marks what a segment's blocks report, if they end at most at `max`. Returns how many positions are newly sacked. */
static uint32_t take_blocks(struct connection *c, const struct segment *s)
{
    uint32_t fresh = 0;
    for (unsigned i = 0; i < s->block_count; i++) {
        uint32_t left = s->blocks[i][0], right = s->blocks[i][1];
        if (!before(left, right) || before(c->max, right)) continue;
        for (uint32_t at = before(left, c->una) ? c->una : left; before(at, right); at++) {
            fresh += !is_marked(c, at, SACKED);
            c->marks[at - c->out_seq] |= SACKED;
        }
        fresh += defect == OLD_BLOCKS_COUNT;
    }
    return fresh;
}

/* The blocks of an acknowledgment: RFC 6675, 5. A duplicate is one that reports something new. What an earlier recovery sent again isn't
 * lost again only because a new one begins. */
static void come_blocks(struct connection *c, const struct segment *s)
{
    if (!c->sack || !take_blocks(c, s)) return;
    find_lost(c);
    c->probe_at = NEVER;
    for (uint32_t at = c->una; before(at, c->max) && defect == LOST_RESENT_TWICE; at++) c->marks[at - c->out_seq] &= SACKED;
    if (c->fast) return;
    c->duplicates++;
    uint32_t first = next_lost(c);
    int starts = c->duplicates >= (defect == RECOVERY_AFTER_TWO ? 2 : 3) || first != c->max;
    if (!starts || before(c->una, c->recover)) return;
    c->ssthresh = c->cwnd = half_of_flight(c);
    c->fast = 1;
    c->recover = c->max;
    if (first == c->max) resend(c);
    else send_piece(c, first, unmarked(c, first, SACKED | AGAIN));
}

/* ---- Ends ---- */

static void stop_timers(struct connection *c) { c->rto_at = c->persist_at = c->override_at = c->end_at = c->ack_at = c->probe_at = NEVER; }

static void end(struct connection *c, long fault)
{
    if (defect != BACKLOG_LEAK || c->state != SYN_RECEIVED) c->listener = NULL;
    c->state = CLOSED;
    c->fault = fault;
    stop_timers(c);
}

static void reset(struct connection *c)
{
    leave(c->local, c->remote, c->max, 0, RST, 0, NULL, 0, NULL, 0);
    end(c, 0);
}

static void wait_out(struct connection *c)
{
    if (defect == NO_TIME_WAIT) {
        end(c, 0);
        return;
    }
    c->state = TIME_WAIT;
    stop_timers(c);
    c->end_at = stack_now() + TIME_WAIT_LASTS;
}

/* ---- Receiving ---- */

static struct connection *find(unsigned local, unsigned remote)
{
    for (int i = 0; i < opened; i++) {
        struct connection *c = &connections[i];
        if (c->local == local && c->remote == remote && c->state > LISTEN) return c;
    }
    return NULL;
}

static struct connection *listener_at(unsigned local)
{
    for (int i = 0; i < opened; i++)
        if (connections[i].local == local && connections[i].state == LISTEN) return &connections[i];
    return NULL;
}

static struct connection *new_connection(enum state state, unsigned local, unsigned remote)
{
    if (opened == CONNECTIONS) return NULL;
    struct connection *c = &connections[opened++];
    *c = (struct connection){ .state = state, .local = local, .remote = remote, .rto = SECOND, .send_shift = -1 };
    c->room = config.window ? config.window : OWN_WINDOW;
    c->rcv_shift = c->room > 65535 ? OWN_SHIFT : 0;
    stop_timers(c);
    if (state == LISTEN) return c;
    c->iss = stack_iss(config.seed * 2654435761u + local * 40503u + remote * 7919u + (uint32_t)(stack_now() / 4));
    c->una = c->nxt = c->max = c->iss;
    c->out_seq = c->iss + 1;
    c->out = malloc(SEND_ROOM);
    c->in = malloc(c->room);
    c->have = calloc(c->room, 1);
    c->marks = calloc(SEND_ROOM + 1, 1);
    if (!c->out || !c->in || !c->have || !c->marks) abort();
    return c;
}

static void begin_syn(struct connection *c)
{
    send_syn(c);
    c->nxt = c->max = c->iss + 1;
    c->timing = 1;
    c->timed = c->iss;
    c->timed_at = c->stuck_since = stack_now();
    start_rto(c);
}

static void take_syn(struct connection *c, const struct segment *s)
{
    c->irs = s->seq;
    c->rcv_nxt = c->edge = c->farthest = s->seq + 1;
    c->mss = defect == MSS_IGNORED ? most_of(config.mss, USUAL_MSS) : s->mss;
    c->send_shift = s->shift;
    c->sack = uses_sack && (s->permits || defect == BLOCKS_UNPERMITTED);
    c->stamped = uses_timestamps && s->stamped;
    c->recent = s->stamp;
    if (s->shift < 0) c->rcv_shift = 0;
}

static int shift_of(const struct connection *c, const struct segment *s)
{
    if (c->send_shift < 0 || defect == SCALE_IGNORED) return 0;
    if (s->flags & SYN && defect != SYN_SCALED) return 0;
    return c->send_shift && defect == SCALE_ASSUMED ? OWN_SHIFT : c->send_shift;
}

static void take_window(struct connection *c, const struct segment *s)
{
    c->window = (uint32_t)s->window << shift_of(c, s);
    c->widest = most_of(c->widest, c->window);
    c->wl1 = s->seq;
    c->wl2 = s->ack;
}

/* The acknowledgment of a probe. If that was sent again, it may have repaired a loss (RFC 8985, 7.4.2). */
static void end_probe(struct connection *c, uint32_t ack)
{
    if (!c->probe || before(ack, c->probe_end)) return;
    if (c->probe == OLD_PROBE) c->ssthresh = c->cwnd = least(c->cwnd, half_of_flight(c));
    c->probe = NO_PROBE;
}

static void take_acknowledged(struct connection *c, uint32_t ack)
{
    uint32_t acked = ack - c->una, bytes = before(c->out_seq, ack) ? least(ack - c->out_seq, c->queued) : 0;
    if (c->timing && before(c->timed, ack)) {
        sample(c, stack_now() - c->timed_at);
        c->timing = 0;
    }
    if (bytes) memmove(c->out, c->out + bytes, c->queued - bytes);
    memmove(c->marks, c->marks + bytes, SEND_ROOM + 1 - bytes);
    memset(c->marks + SEND_ROOM + 1 - bytes, 0, bytes);
    end_probe(c, ack);
    c->queued -= bytes;
    c->out_seq += bytes;
    c->una = ack;
    if (before(c->nxt, ack)) c->nxt = ack;
    if (c->cwnd) grow(c, acked);
    if (c->cwnd) c->expiries = 0;
    c->rto_at = NEVER;
    c->stuck_since = stack_now();
    if (c->una != c->max) start_rto(c);
    start_probe(c);
}

static unsigned waiting_at(const struct connection *listener)
{
    unsigned waiting = 0;
    for (int i = 0; i < opened; i++) waiting += connections[i].listener == listener;
    return waiting;
}

static void listen_for(struct connection *listener, const struct segment *s)
{
    if (s->flags & RST) return;
    if (s->flags & ACK) { refuse(s); return; }
    if (!(s->flags & SYN)) return;
    struct connection *c = waiting_at(listener) < listener->backlog ? new_connection(SYN_RECEIVED, s->to, s->from) : NULL;
    if (!c) return;
    c->listener = listener;
    c->passive = 1;
    take_syn(c, s);
    begin_syn(c);
}

static void establish(struct connection *c, const struct segment *s)
{
    take_acknowledged(c, s->ack);
    begin_congestion(c);
    c->expiries = 0;
    take_window(c, s);
    c->state = !c->shut ? ESTABLISHED : FIN_WAIT_1;
    c->order = defect == ACCEPTED_BY_AGE ? 0 : established++;
}

static void come_in_syn_sent(struct connection *c, const struct segment *s)
{
    int acks = s->flags & ACK;
    if (acks && s->ack != c->max) { refuse(s); return; }
    if (s->flags & RST) {
        if (acks) end(c, STACK_REFUSED);
        return;
    }
    if (!(s->flags & SYN)) return;
    take_syn(c, s);
    if (acks) {
        establish(c, s);
        c->ack_due = 1;
        output(c);
    } else {
        c->state = SYN_RECEIVED;
        send_syn(c);
    }
}

static int is_acceptable(const struct connection *c, const struct segment *s)
{
    uint32_t length = length_of(s), window = before(c->rcv_nxt, c->edge) ? c->edge - c->rcv_nxt : 0;
    if (s->seq == c->rcv_nxt) return 1;
    if (s->seq - c->rcv_nxt < window) return 1;
    return window && length && s->seq + length - 1 - c->rcv_nxt < window;
}

/* A reset or a SYN on an existing connection: RFC 9293, 3.10.7.4, second and fourth. */
static void come_reset(struct connection *c, const struct segment *s)
{
    if (s->seq != c->rcv_nxt && defect != ANY_RESET) acknowledge(c);
    else if (c->state == SYN_RECEIVED) end(c, c->passive ? 0 : STACK_REFUSED);
    else end(c, c->state < CLOSING ? STACK_RESET : 0);
}

/* A challenge (RFC 5961, 4). Without the option `sack`, SYN-RECEIVED sends its SYN ACK again instead, which only `full` permits. */
static void come_syn(struct connection *c)
{
    if (c->state == SYN_RECEIVED && !uses_sack) send_syn(c);
    else acknowledge(c);
}

/* The fifth check. Returns whether to process the segment further. */
static int come_acknowledgment(struct connection *c, const struct segment *s)
{
    if (!(s->flags & ACK)) return 0;
    if (c->state == SYN_RECEIVED) {
        if (s->ack != c->max) { refuse(s); return 0; }
        establish(c, s);
        return 1;
    }
    if (before(c->max, s->ack)) {
        acknowledge(c);
        return 0;
    }
    /* Older than any window: RFC 5961, 5.2. */
    if (before(s->ack, c->una - c->widest)) {
        acknowledge(c);
        return 0;
    }
    uint32_t window = c->window;
    int fin_sent = fin_was_sent(c), takes = !before(s->ack, c->una);
    int is_new = defect == SENT_NOT_MODULO ? c->una < s->ack : before(c->una, s->ack);
    int is_newer = before(c->wl1, s->seq) || (c->wl1 == s->seq && !before(s->ack, c->wl2));
    if ((takes && (is_newer || defect == WINDOW_OF_OLDER_SEGMENT)) || defect == WINDOW_OF_OLDER_ACK) take_window(c, s);
    if (is_new) take_acknowledged(c, s->ack);
    else if (!c->sack && s->ack == c->una && c->max != c->una && !length_of(s) && window == c->window && window) duplicate(c);
    come_blocks(c, s);
    if (!fin_sent || c->una != c->max) return 1;
    if (c->state == FIN_WAIT_1) c->state = FIN_WAIT_2;
    else if (c->state == CLOSING) wait_out(c);
    else if (c->state == LAST_ACK) end(c, 0);
    return c->state != CLOSED;
}

static void keep_bytes(struct connection *c, const struct segment *s)
{
    if (defect == HOLES_DELIVERED && before(c->rcv_nxt, s->seq)) c->rcv_nxt = s->seq;
    for (uint32_t i = 0; i < s->count; i++) {
        uint32_t at = s->seq + i, place = at - c->rcv_nxt + c->unread;
        int inside = !before(at, c->rcv_nxt) && before(at, c->edge);
        if (defect == RECEIVED_NOT_MODULO) inside = at >= c->rcv_nxt && at < c->edge;
        if (!inside || place >= c->room || c->have[place]) continue;
        c->in[place] = defect == RING_OFF_BY_ONE && (at - c->irs) % OWN_WINDOW == 0 ? 0 : s->bytes[i];
        c->have[place] = 1;
        if (before(c->farthest, at + 1)) c->farthest = at + 1;
    }
    while (c->unread < c->room && c->have[c->unread]) {
        c->unread++;
        c->rcv_nxt++;
    }
    if (c->sack && before(c->rcv_nxt, s->seq) && before(s->seq, c->edge) && s->count) note_block(c, s->seq);
}

static void deliver_again(struct connection *c, const struct segment *s)
{
    if (c->unread + s->count > c->room) return;
    memcpy(c->in + c->unread, s->bytes, s->count);
    memset(c->have + c->unread, 1, s->count);
    c->unread += s->count;
}

static void come_fin(struct connection *c)
{
    c->fin_taken = 1;
    c->rcv_nxt++;
    if (c->state == ESTABLISHED) c->state = CLOSE_WAIT;
    else if (c->state == FIN_WAIT_1) c->state = CLOSING;
    else if (c->state == FIN_WAIT_2) { wait_out(c); if (c->state == CLOSED) acknowledge(c); }
}

/* Whether a defect keeps a segment with text from being acknowledged now. */
static int is_ignored(struct connection *c, const struct segment *s)
{
    if (defect == GAP_ANSWERED_ONCE) return before(c->rcv_nxt, s->seq) && before(c->rcv_nxt, c->farthest);
    if (defect == ACK_DELAY_RESTARTED && s->count < c->mss && !(s->flags & FIN) && s->seq == c->rcv_nxt) {
        c->ack_at = stack_now() + SECOND * 2 / 10;
        return 1;
    }
    if (defect != ACK_LATE || s->flags & FIN || s->seq != c->rcv_nxt || c->ack_at != NEVER) return 0;
    c->ack_at = stack_now() + SECOND * 6 / 10;
    return 1;
}

/* The seventh and eighth checks. A host that closed its socket answers data with a reset (RFC 9293, 3.6.1). */
static void come_text(struct connection *c, const struct segment *s)
{
    if (!s->count && !(s->flags & FIN)) return;
    c->ack_due = !is_ignored(c, s);
    if (c->fin_taken && defect != DATA_AFTER_FIN) return;
    if (s->count && c->dropped) { reset(c); return; }
    keep_bytes(c, s);
    if (s->flags & FIN) {
        c->fin_seen = 1;
        c->fin_at = s->seq + s->count;
    }
    if (c->fin_seen && !c->fin_taken && c->fin_at == c->rcv_nxt) come_fin(c);
}

static void come(struct connection *c, const struct segment *given)
{
    struct segment segment = *given, *s = &segment;
    if (c->state == SYN_SENT) { come_in_syn_sent(c, s); return; }
    if (c->state == SYN_RECEIVED && s->flags & SYN && s->seq == c->irs) {
        take_stamp(c, s);
        if (!(s->flags & ACK)) { send_syn(c); return; }
        s->flags &= ~(unsigned)SYN;
        s->seq++;
        c->ack_due = 1;
    }
    if (s->flags & RST) {
        if (is_acceptable(c, s) || defect == ANY_RESET) come_reset(c, s);
        return;
    }
    /* PAWS (RFC 7323, 5.3, R1), and a segment without timestamps (3.2). */
    if (c->stamped && !s->stamped) return;
    if (c->stamped && before(s->stamp, c->recent)) { acknowledge(c); return; }
    if (s->flags & SYN) { come_syn(c); return; }
    if (defect == PROBE_UNANSWERED && s->count && c->edge == c->rcv_nxt) return;
    if (!is_acceptable(c, s)) {
        if (defect == DUPLICATES_DELIVERED) deliver_again(c, s);
        if (c->state == TIME_WAIT && s->flags & FIN && defect != TIME_WAIT_NOT_RESTARTED) wait_out(c);
        acknowledge(c);
        return;
    }
    take_stamp(c, s);
    if (!come_acknowledgment(c, s)) return;
    come_text(c, s);
    if (c->state != CLOSED) output(c);
}

void stack_input(const void *bytes, size_t count)
{
    struct segment s;
    if (!read_segment(&s, bytes, count)) return;
    struct connection *c = find(s.to, s.from), *listener = listener_at(s.to);
    if (c) come(c, &s);
    else if (listener) listen_for(listener, &s);
    else refuse(&s);
}

/* ---- Timers ---- */

static void expire_rto(struct connection *c)
{
    if (stack_now() - c->stuck_since >= GIVE_UP) {
        stack_expired(c->local, c->remote, "giveup");
        end(c, STACK_TIMEOUT);
        return;
    }
    stack_expired(c->local, c->remote, "rto");
    if (c->cwnd && !c->expiries) c->ssthresh = half_of_flight(c);
    back_off(c);
    start_rto(c);
    if (c->state == SYN_SENT || c->state == SYN_RECEIVED) {
        c->timing = c->timing && defect == KARN_IGNORED;
        if (defect == SYN_ACK_RESENT_ONCE && c->state == SYN_RECEIVED && c->expiries > 1) return;
        send_syn(c);
        return;
    }
    if (defect != NO_COLLAPSE) c->cwnd = c->mss;
    c->fast = c->duplicates = 0;
    c->recover = c->max;
    c->probe_at = NEVER;
    c->probe = NO_PROBE;
    /* RFC 2018, 8: the peer may have discarded what it reported. */
    if (defect != SCOREBOARD_KEPT) memset(c->marks, 0, SEND_ROOM + 1);
    if (c->una == end_of(c) && defect == FIN_NOT_RESENT) return;
    c->nxt = c->una;
    resend(c);
    output(c);
}

/* Probes a window of 0 with one byte (RFC 9293, 3.8.6.1). The rest of the code treats that byte as unsent. */
static void expire_persist(struct connection *c)
{
    stack_expired(c->local, c->remote, "persist");
    if (defect != PROBES_STEADY) c->persist = c->persist * 2 < LONGEST_RTO ? c->persist * 2 : LONGEST_RTO;
    c->persist_at = stack_now() + c->persist;
    c->timing = 0;
    reply(c, PSH, c->una, 1);
    if (before(c->max, c->una + 1)) c->max = c->una + 1;
}

/* RFC 8985, 7.3: a probe is new data, if the window has room for it, else the last segment. */
static void expire_probe(struct connection *c)
{
    uint32_t end = end_of(c), window = c->una + c->window;
    stack_expired(c->local, c->remote, "pto");
    c->probe_at = NEVER;
    start_rto(c);
    uint32_t count = before(c->nxt, end) && before(c->nxt, window) ? least(least(end - c->nxt, segment_room(c)), window - c->nxt) : 0;
    c->probe = count ? NEW_PROBE : OLD_PROBE;
    if (count) send_piece(c, c->nxt, count);
    else {
        uint32_t last = before(end, c->max) ? end : c->max;
        count = least(last - c->una, segment_room(c));
        send_piece(c, last - count, count);
    }
    c->probe_end = c->max;
    if (defect == PROBE_REPEATED) {
        c->probe = NO_PROBE;
        start_probe(c);
    }
}

void stack_tick(void)
{
    uint64_t now = stack_now();
    for (int i = 0; i < opened; i++) {
        struct connection *c = &connections[i];
        if (c->probe_at <= now) expire_probe(c);
        if (c->rto_at <= now) expire_rto(c);
        if (c->persist_at <= now) expire_persist(c);
        if (c->ack_at <= now) acknowledge(c);
        if (c->override_at <= now) {
            c->overridden = 1;
            c->override_at = NEVER;
            output(c);
        }
        if (c->end_at <= now) {
            stack_expired(c->local, c->remote, "2msl");
            end(c, 0);
        }
    }
}

uint64_t stack_next(void)
{
    uint64_t next = NEVER;
    for (int i = 0; i < opened; i++) {
        const struct connection *c = &connections[i];
        const uint64_t timers[] = { c->rto_at, c->persist_at, c->override_at, c->end_at, c->ack_at, c->probe_at };
        for (int t = 0; t < 6; t++)
            if (timers[t] < next) next = timers[t];
    }
    return next;
}

/* ---- Calls ---- */

long stack_start(const struct stack_config *wanted)
{
    const char *name = getenv("TOY_DEFECT");
    config = *wanted;
    uses_sack = strstr(wanted->options, "sack") != NULL;
    uses_timestamps = strstr(wanted->options, "timestamps") != NULL;
    if (!name || !*name) return STACK_OK;
    for (int i = 1; i < DEFECTS; i++)
        if (!strcmp(name, defect_names[i])) defect = (enum defect)i;
    if (defect) return STACK_OK;
    fprintf(stderr, "the toy stack has no defect %s\n", name);
    exit(2);
}

long stack_listen(unsigned port, unsigned backlog)
{
    if (listener_at(port)) return STACK_INUSE;
    struct connection *c = new_connection(LISTEN, port, 0);
    if (!c) return STACK_CANNOT;
    c->backlog = backlog;
    return c - connections;
}

long stack_open(unsigned local, unsigned remote)
{
    struct connection *old = find(local, remote);
    if (old && old->state == TIME_WAIT && defect == TIME_WAIT_REOPENED) end(old, 0);
    else if (old) return STACK_INUSE;
    struct connection *c = new_connection(SYN_SENT, local, remote);
    if (!c) return STACK_CANNOT;
    begin_syn(c);
    return c - connections;
}

long stack_await(long socket)
{
    struct connection *c = &connections[socket];
    if (c->state == LISTEN) return STACK_NOTCONN;
    if (c->fault) return c->fault;
    if (c->state == SYN_SENT || c->state == SYN_RECEIVED) return STACK_AGAIN;
    return c->cwnd ? STACK_OK : STACK_CLOSED;
}

long stack_accept(long socket)
{
    const struct connection *listener = &connections[socket];
    if (listener->state != LISTEN) return STACK_NOTCONN;
    int too_early = defect == HALF_OPEN_ACCEPTED && waiting_at(listener) == listener->backlog;
    struct connection *first = NULL;
    for (int i = 0; i < opened; i++) {
        struct connection *c = &connections[i];
        if (c->listener != listener || c->state < (too_early ? SYN_RECEIVED : ESTABLISHED)) continue;
        if (!first || c->order < first->order) first = c;
    }
    if (!first) return STACK_AGAIN;
    first->listener = NULL;
    return first - connections;
}

long stack_send(long socket, const void *bytes, size_t count)
{
    struct connection *c = &connections[socket];
    if (c->state == LISTEN) return STACK_NOTCONN;
    if (c->fault) return c->fault;
    if (c->shut) return defect == SEND_AFTER_SHUT && c->state != CLOSED ? (long)count : STACK_CLOSED;
    if (c->state == SYN_SENT || c->state == SYN_RECEIVED) return STACK_AGAIN;
    if (c->state != ESTABLISHED && c->state != CLOSE_WAIT) return STACK_CLOSED;
    uint32_t used = c->queued + (defect == ROOM_NOT_FREED ? (c->una - c->iss) / 2 : 0);
    if (count > SEND_ROOM - least(used, SEND_ROOM)) count = SEND_ROOM - least(used, SEND_ROOM);
    if (!count) return STACK_AGAIN;
    memcpy(c->out + c->queued, bytes, count);
    c->queued += (uint32_t)count;
    output(c);
    return (long)count;
}

long stack_recv(long socket, void *bytes, size_t most)
{
    struct connection *c = &connections[socket];
    if (c->state == LISTEN) return STACK_NOTCONN;
    if (!c->unread) {
        if (c->fin_taken) return STACK_EOF;
        if (c->fault) return c->fault;
        return c->state == CLOSED ? STACK_NOTCONN : STACK_AGAIN;
    }
    uint32_t count = least(c->unread, (uint32_t)most), edge = c->edge;
    memcpy(bytes, c->in, count);
    memmove(c->in, c->in + count, c->room - count);
    memmove(c->have, c->have + count, c->room - count);
    memset(c->have + c->room - count, 0, count);
    c->unread -= count;
    offer(c, 0);
    if (c->edge != edge && c->state >= ESTABLISHED && !c->fin_taken && defect != NO_WINDOW_UPDATE) acknowledge(c);
    return (long)count;
}

long stack_shut(long socket)
{
    struct connection *c = &connections[socket];
    if (c->fault) return c->fault;
    if (c->state == CLOSED || c->state == LISTEN || c->state == SYN_SENT) return STACK_NOTCONN;
    c->shut = 1;
    if (c->state == ESTABLISHED) c->state = FIN_WAIT_1;
    else if (c->state == CLOSE_WAIT) c->state = LAST_ACK;
    output(c);
    return STACK_OK;
}

long stack_abort(long socket)
{
    struct connection *c = &connections[socket];
    if (c->state == LISTEN)
        for (int i = 0; i < opened; i++)
            if (connections[i].listener == c) stack_abort(i);
    if (c->state >= SYN_RECEIVED && c->state <= CLOSE_WAIT) reset(c);
    else end(c, 0);
    return STACK_OK;
}

/* RFC 9293, 3.6.1: closing with unread bytes resets the connection. */
long stack_close(long socket)
{
    struct connection *c = &connections[socket];
    if (c->unread || c->state <= SYN_SENT) return stack_abort(socket);
    c->dropped = 1;
    stack_shut(socket);
    return STACK_OK;
}

const char *stack_state(long socket)
{
    static const char *const names[] = { "CLOSED", "LISTEN", "SYN-SENT", "SYN-RECEIVED", "ESTABLISHED", "FIN-WAIT-1", "FIN-WAIT-2",
                                         "CLOSE-WAIT", "CLOSING", "LAST-ACK", "TIME-WAIT" };
    return names[connections[socket].state];
}
