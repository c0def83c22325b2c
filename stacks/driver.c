/* Reads the runner's commands from standard input and calls the stack. Each command is one line; the answer is one or more lines, and
 * the last one begins with '='.
 *
 *     start HOST SEED MSS WINDOW OPTIONS      MOMENT iss NUMBER      MOMENT in HEX      MOMENT tick
 *     MOMENT listen PORT BACKLOG       MOMENT open LOCAL REMOTE
 *     MOMENT await|accept|shut|close|abort|status SOCKET
 *     MOMENT send SOCKET HEX           MOMENT recv SOCKET MOST
 *
 * The answer has the lines `out HEX` and `expired LOCAL REMOTE TIMER` as these events happen, then `= NEXT ANSWER`: the moment of the
 * next tick that the stack needs, or `-`, and the answer in the words of a trace.
 */
#define _POSIX_C_SOURCE 200809L
#include "tcpwit_stack.h"
#include <stdio.h>
#include <stdlib.h>
#include <string.h>
#include <unistd.h>

enum { LONGEST = 70000 };

/* The output that the runner reads. Anything that the stack prints goes to standard error. */
static FILE *runner;
static uint64_t moment;
static char line[2 * LONGEST + 200];
static unsigned char bytes[LONGEST];
static char options[200];
static uint32_t iss;
static int iss_is_set;

uint64_t stack_now(void) { return moment; }

uint32_t stack_iss(uint32_t own)
{
    uint32_t number = iss_is_set ? iss : own;
    iss_is_set = 0;
    return number;
}

static void print_hex(const unsigned char *from, size_t count)
{
    for (size_t i = 0; i < count; i++) {
        putc("0123456789abcdef"[from[i] >> 4], runner);
        putc("0123456789abcdef"[from[i] & 15], runner);
    }
}

void stack_out(const void *segment, size_t count)
{
    fputs("out ", runner);
    print_hex(segment, count);
    putc('\n', runner);
}

void stack_expired(unsigned local, unsigned remote, const char *timer)
{
    fprintf(runner, "expired %u %u %s\n", local, remote, timer);
}

static int digit(char c)
{
    if (c >= '0' && c <= '9') return c - '0';
    return c >= 'a' && c <= 'f' ? c - 'a' + 10 : -1;
}

/* Stores the bytes of hex digits in `bytes`. */
static size_t read_hex(const char *at)
{
    size_t count = 0;
    while (count < LONGEST && digit(at[0]) >= 0 && digit(at[1]) >= 0) {
        bytes[count++] = (unsigned char)(digit(at[0]) * 16 + digit(at[1]));
        at += 2;
    }
    return count;
}

static const char *word_of(long answer)
{
    static const char *const words[] = { "ok", "again", "eof", "closed", "notconn", "refused", "reset", "timeout", "inuse", "cannot" };
    return answer <= 0 && answer >= -9 ? words[-answer] : "cannot";
}

static void finish(const char *answer, long given)
{
    uint64_t next = stack_next();
    if (next == UINT64_MAX) fprintf(runner, "= - %s", answer);
    else fprintf(runner, "= %llu %s", (unsigned long long)next, answer);
    if (given >= 0) fprintf(runner, " %ld", given);
    putc('\n', runner);
    fflush(runner);
}

/* The answer of a call that returns a number. */
static void finish_number(long answer)
{
    if (answer >= 0) finish("ok", answer);
    else finish(word_of(answer), -1);
}

static void finish_recv(long answer)
{
    if (answer <= 0) {
        finish(word_of(answer), -1);
        return;
    }
    uint64_t next = stack_next();
    if (next == UINT64_MAX) fputs("= - data ", runner);
    else fprintf(runner, "= %llu data ", (unsigned long long)next);
    print_hex(bytes, (size_t)answer);
    putc('\n', runner);
    fflush(runner);
}

static void finish_state(long socket)
{
    char answer[40] = "state ";
    strncat(answer, stack_state(socket), 30);
    finish(answer, -1);
}

static void do_command(const char *word, const char *rest)
{
    char *end;
    unsigned long first = strtoul(rest, &end, 10), second = strtoul(end, NULL, 10);
    long socket = (long)first;
    if (!strcmp(word, "in")) { stack_input(bytes, read_hex(rest)); finish("ok", -1); }
    else if (!strcmp(word, "tick")) { stack_tick(); finish("ok", -1); }
    else if (!strcmp(word, "iss")) { iss = (uint32_t)first; iss_is_set = 1; finish("ok", -1); }
    else if (!strcmp(word, "listen")) finish_number(stack_listen((unsigned)first, (unsigned)second));
    else if (!strcmp(word, "open")) finish_number(stack_open((unsigned)first, (unsigned)second));
    else if (!strcmp(word, "await")) finish(word_of(stack_await(socket)), -1);
    else if (!strcmp(word, "accept")) finish_number(stack_accept(socket));
    else if (!strcmp(word, "send")) finish_number(stack_send(socket, bytes, read_hex(end + 1)));
    else if (!strcmp(word, "recv")) finish_recv(stack_recv(socket, bytes, second));
    else if (!strcmp(word, "shut")) finish(word_of(stack_shut(socket)), -1);
    else if (!strcmp(word, "close")) finish(word_of(stack_close(socket)), -1);
    else if (!strcmp(word, "abort")) finish(word_of(stack_abort(socket)), -1);
    else if (!strcmp(word, "status")) finish_state(socket);
    else finish("cannot", -1);
}

int main(void)
{
    struct stack_config config = { 0 };
    runner = fdopen(dup(1), "w");
    if (!runner || dup2(2, 1) < 0) return 1;
    while (fgets(line, sizeof line, stdin)) {
        line[strcspn(line, "\n")] = 0;
        int used = 0;
        if (sscanf(line, "start %d %u %u %u %n", &config.host, &config.seed, &config.mss, &config.window, &used) == 4) {
            strncpy(options, line + used, sizeof options - 1);
            config.options = options;
            finish(word_of(stack_start(&config)), -1);
            continue;
        }
        char *rest, *word = NULL;
        moment = strtoull(line, &rest, 10);
        if (*rest == ' ') {
            word = rest + 1;
            rest = word + strcspn(word, " ");
            if (*rest) *rest++ = 0;
        }
        if (word) do_command(word, rest);
        else finish("cannot", -1);
    }
    return 0;
}
