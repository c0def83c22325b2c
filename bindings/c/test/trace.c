/* Writes cases with tcpwit_trace.h: crates/test_cases/data/examples/handshake_and_five_bytes.case, a handshake and the five bytes of `hello`.
 * With the argument `unanswered`: unanswered.case, a SYN that is never retransmitted. With `any`: the end of a header without duties. With `six`:
 * a trace of version 6, in which the timer of a tail loss probe expires. */
#include "tcpwit_trace.h"
#include <stdio.h>
#include <string.h>

static void put(void *file, const char *bytes, size_t count) { fwrite(bytes, 1, count, file); }

static const unsigned char syn[] = { 0x0f, 0xa0, 0, 0x50, 0xff, 0xff, 0xff, 0xfe, 0, 0, 0, 0, 0x50, 0x02, 0xff, 0xff, 0, 0, 0, 0 };
static const unsigned char syn_ack[] = { 0, 0x50, 0x0f, 0xa0, 0, 0, 0, 0x64, 0xff, 0xff, 0xff, 0xff, 0x50, 0x12, 0xff, 0xff, 0, 0, 0, 0 };
static const unsigned char ack[] = { 0x0f, 0xa0, 0, 0x50, 0xff, 0xff, 0xff, 0xff, 0, 0, 0, 0x65, 0x50, 0x10, 0xff, 0xff, 0, 0, 0, 0 };
static const unsigned char data[] = { 0x0f, 0xa0, 0, 0x50, 0xff, 0xff, 0xff, 0xff, 0, 0, 0, 0x65, 0x50, 0x18, 0xff, 0xff, 0, 0, 0, 0 };

static void write_trace(struct tcpwit *t)
{
    tcpwit_header(t, 0, 120000000, 1000, 1000000, 0, 5681);
    tcpwit_begin_listen(t, 10, 1, 1, 80, 4);
    tcpwit_end_number(t, 11, 1, 5);
    tcpwit_begin_open(t, 20, 2, 0, 4000, 80);
    tcpwit_end_number(t, 21, 2, 6);
    tcpwit_out(t, 30, 3, 0, syn, 20, NULL, 0);
    tcpwit_in(t, 40, 4, 1, syn, 20, NULL, 0);
    tcpwit_out(t, 50, 4, 1, syn_ack, 20, NULL, 0);
    tcpwit_in(t, 60, 3, 0, syn_ack, 20, NULL, 0);
    tcpwit_out(t, 70, 3, 0, ack, 20, NULL, 0);
    tcpwit_in(t, 80, 4, 1, ack, 20, NULL, 0);
    tcpwit_begin_accept(t, 90, 1, 5);
    tcpwit_end_number(t, 91, 1, 7);
    tcpwit_begin_send(t, 100, 2, 6, "hello", 5);
    tcpwit_end_number(t, 101, 2, 5);
    tcpwit_out(t, 110, 3, 0, data, 20, "hello", 5);
    tcpwit_in(t, 120, 4, 1, data, 20, "hello", 5);
    tcpwit_begin_recv(t, 130, 1, 7, 100);
    tcpwit_end_data(t, 131, 1, "hello", 5);
}

static void write_handshake(struct tcpwit *w)
{
    tcpwit_witness(w);
    tcpwit_step_line(w, 10, 7, 0, 0, 0);
    tcpwit_step_effect(w, 10, 1, "ok 5");
    tcpwit_step_line(w, 11, 8, 0, 0, 0);
    tcpwit_step_line(w, 20, 9, 0, 0, 0);
    tcpwit_step_effect(w, 20, 2, "ok 6");
    tcpwit_step_line(w, 21, 10, 0, 0, 0);
    tcpwit_step_make(w, 30, 0, 4000, 80, 0, 0, "S", 65535, 4294967294, -1);
    tcpwit_step_line(w, 30, 11, 1, 1, 0);
    tcpwit_step_line(w, 40, 12, 1, 11, 0);
    tcpwit_step_take(w, 41, 1, 12, 0, 0, 0);
    tcpwit_step_make(w, 50, 1, 80, 4000, 0, 0, "AS", 65535, 100, -1);
    tcpwit_step_line(w, 50, 13, 1, 2, 0);
    tcpwit_step_line(w, 60, 14, 1, 13, 0);
    tcpwit_step_take(w, 61, 0, 14, 2144, 0, 1);
    tcpwit_step_make(w, 70, 0, 4000, 80, 1, 0, "A", 65535, -1, -1);
    tcpwit_step_line(w, 70, 15, 1, 3, 0);
    tcpwit_step_line(w, 80, 16, 1, 15, 0);
    tcpwit_step_take(w, 81, 1, 16, 2144, 0, 1);
}

static void write_data(struct tcpwit *w)
{
    tcpwit_step_line(w, 90, 17, 0, 0, 0);
    tcpwit_step_effect(w, 90, 1, "ok 7");
    tcpwit_step_line(w, 91, 18, 0, 0, 0);
    tcpwit_step_line(w, 100, 19, 0, 0, 0);
    tcpwit_step_effect(w, 100, 2, "ok 5");
    tcpwit_step_line(w, 101, 20, 0, 0, 0);
    tcpwit_step_make(w, 110, 0, 4000, 80, 1, 5, "A", 65535, -1, -1);
    tcpwit_step_line(w, 110, 21, 1, 4, 0);
    tcpwit_step_line(w, 120, 22, 1, 21, 0);
    tcpwit_step_take(w, 121, 1, 22, 2144, 1, 0);
    tcpwit_step_line(w, 130, 23, 0, 0, 0);
    tcpwit_step_effect(w, 130, 1, "data 68656c6c6f");
    tcpwit_step_line(w, 131, 24, 0, 0, 0);
}

static void write_unanswered(struct tcpwit *t, struct tcpwit *w)
{
    static const unsigned char first[] = { 0x0f, 0xa0, 0, 0x50, 0, 0, 0, 99, 0, 0, 0, 0, 0x50, 0x02, 0xff, 0xff, 0, 0, 0, 0 };
    tcpwit_header(t, 0, 120000000, 1000, 1000000, 0, 5681);
    tcpwit_judged(t, 1, TCPWIT_FULL, 20000);
    uint32_t begin = tcpwit_begin_open(t, 0, 1, 0, 4000, 80), end = tcpwit_end_number(t, 1, 1, 2);
    uint32_t syn_line = tcpwit_out(t, 10, 9, 0, first, sizeof first, NULL, 0), last = tcpwit_finish(t, 3020011);
    tcpwit_witness(w);
    tcpwit_step_line(w, 0, begin, 0, 0, 0);
    tcpwit_step_effect(w, 0, 1, "ok 2");
    tcpwit_step_line(w, 1, end, 0, 0, 0);
    tcpwit_step_make(w, 10, 0, 4000, 80, 0, 0, "S", 65535, 99, -1);
    tcpwit_step_line(w, 10, syn_line, 1, 1, 0);
    tcpwit_step_finish(w, 3020011, last);
}

static void write_six(struct tcpwit *t)
{
    tcpwit_header(t, 0, 120000000, 1000, 1000000, 0, 5681);
    tcpwit_judged(t, 1, TCPWIT_RECOVERY, 20000);
    tcpwit_expired(t, 10, 9, 0, 4000, 80, TCPWIT_PTO);
}

int main(int count, char **words)
{
    const char *what = count > 1 ? words[1] : "";
    int version = !strcmp(what, "six") ? 6 : *what ? 5 : 1;
    struct tcpwit trace = { put, stdout, version, 0, 0 }, witness = { put, stdout, version, 0, 0 };
    if (!strcmp(what, "any")) {
        tcpwit_judged(&trace, 2, TCPWIT_RECOVERY, TCPWIT_ANY);
    } else if (version == 6) {
        write_six(&trace);
    } else if (*what) {
        write_unanswered(&trace, &witness);
    } else {
        write_trace(&trace);
        write_handshake(&witness);
        write_data(&witness);
    }
    return 0;
}
