/* The functions that a stack provides to the runner, and those that the runner's driver provides to the stack.
 *
 * Write the functions of the second part for your stack, and link them with driver.c. `stacks/run` runs the resulting program, in one
 * process for each host, so a stack may have global state. Segments are TCP headers with their payloads, without IP. There are only
 * host 0 and host 1, whatever addresses the stack gives them. Don't read the machine's clock: stack_now is the only clock, in
 * microseconds, and it doesn't advance while a function runs.
 */
#ifndef TCPWIT_STACK_H
#define TCPWIT_STACK_H

#include <stddef.h>
#include <stdint.h>

#ifdef __cplusplus
extern "C" {
#endif

/* Answers below 0; the words of a trace, docs/reference/formats.md. */
enum stack_answer {
    STACK_OK = 0,
    STACK_AGAIN = -1,    /* not yet: the runner calls again later */
    STACK_EOF = -2,      /* recv: all bytes up to the peer's FIN were received */
    STACK_CLOSED = -3,   /* sending was shut down, or the connection is gone (EPIPE) */
    STACK_NOTCONN = -4,  /* there is no connection, or not yet (ENOTCONN) */
    STACK_REFUSED = -5,  /* failed: ECONNREFUSED */
    STACK_RESET = -6,    /* failed: ECONNRESET */
    STACK_TIMEOUT = -7,  /* failed: ETIMEDOUT */
    STACK_INUSE = -8,    /* the port is in use (EADDRINUSE) */
    STACK_CANNOT = -9    /* the adapter can't do this: the scenario is skipped */
};

struct stack_config {
    int host;            /* 0 or 1: which of the two this process is */
    uint32_t seed;       /* use it for all randomness, so that runs are repeatable */
    unsigned mss;        /* the MSS to send in SYNs; 536 unless the scenario sets it */
    unsigned window;     /* the largest receive window to offer; 0: the stack's own */
    const char *options; /* the line `options` of the profile, which only the adapter interprets */
};

/* ---- Provided by driver.c ---- */

uint64_t stack_now(void);
/* Returns the initial sequence number of a new connection: the scenario's for the first one, if it sets that, and `own`, the stack's
   choice, for all others. If the stack doesn't call this, scenarios that set the number are skipped. */
uint32_t stack_iss(uint32_t own);
/* Sends a segment: from the first byte of the TCP header to the last of the payload. */
void stack_out(const void *segment, size_t bytes);
/* Reports that a timer expired: "rto", "persist", "2msl", "giveup" or, for a tail loss probe, "pto". Call it before the segments that the
   timer causes. If a stack can't report expiries, leave this out; stacks/run then warns that its verdicts are less certain. */
void stack_expired(unsigned local_port, unsigned remote_port, const char *timer);

/* ---- Written for each stack ---- */

/* Starts the stack. STACK_OK, or STACK_CANNOT if the stack can't use this setup. */
long stack_start(const struct stack_config *config);
/* A segment arrives, in the form of stack_out. */
void stack_input(const void *segment, size_t bytes);
/* Runs the timers that are due at stack_now(). */
void stack_tick(void);
/* The moment of the next stack_tick that the stack needs; UINT64_MAX: none before another event. */
uint64_t stack_next(void);

/* Calls. None may block. A call that opens a socket returns its number, at least 0. */
long stack_listen(unsigned port, unsigned backlog);
long stack_open(unsigned local_port, unsigned remote_port);
long stack_await(long socket);                                          /* STACK_OK once connected, STACK_AGAIN, or the fault */
long stack_accept(long listener);                                       /* a socket, or STACK_AGAIN */
long stack_send(long socket, const void *bytes, size_t count);          /* how many were accepted, at least 1 */
long stack_recv(long socket, void *bytes, size_t most);                 /* how many were received, at least 1 */
long stack_shut(long socket);                                           /* shuts down sending */
long stack_close(long socket);
long stack_abort(long socket);
const char *stack_state(long socket);                                   /* "ESTABLISHED" and so on, as in RFC 9293, 3.3.2 */

#ifdef __cplusplus
}
#endif

#endif
