/* Refuses memory to each function of the library: at the Nth allocation alone, and from the Nth on, for each N until
 * the function needs no more. Each answer has to be the right one, or say that memory ran out. Linked with
 * -Wl,--wrap=malloc,--wrap=realloc. The arguments are a case and its trace. */
#include "tcpwit.h"
#include "tcpwit_trace.h" /* both can be included */

#include <stdio.h>
#include <stdlib.h>
#include <string.h>

void *__real_malloc(size_t size);
void *__real_realloc(void *block, size_t size);

static long long calls, refused_at = -1;
static bool refuses_on, was_refused;

static bool refuses(void) {
    long long call = calls++;
    bool is_refused = refused_at >= 0 && (call == refused_at || (refuses_on && call > refused_at));
    was_refused |= is_refused;
    return is_refused;
}

void *__wrap_malloc(size_t size) { return refuses() ? NULL : __real_malloc(size); }
void *__wrap_realloc(void *block, size_t size) { return refuses() ? NULL : __real_realloc(block, size); }

static char *text, *trace;
static size_t text_length, trace_length;

/* What a function answered, as bytes that can be compared. */
struct outcome {
    uint32_t status;
    char *said;
    size_t length;
};

static struct outcome outcome_of(uint32_t status, struct tcpwit_text *said) {
    struct outcome outcome = {status, (char *)said->bytes, said->length};
    return outcome;
}

static struct outcome of_answer(const struct tcpwit_result *answer) {
    struct outcome outcome = {answer->kind == TCPWIT_NO_MEMORY ? 4u : 0u, NULL, sizeof *answer};
    outcome.said = (char *)__real_malloc(sizeof *answer);
    memcpy(outcome.said, answer, sizeof *answer);
    return outcome;
}

static struct outcome call(int function) {
    struct tcpwit_text said = {NULL, 0};
    struct tcpwit_result answer;
    struct tcpwit_judgement judgement;
    uint32_t status;
    memset(&answer, 0, sizeof answer);
    switch (function) {
    case 0:
        tcpwit_check(text, text_length, &answer);
        return of_answer(&answer);
    case 1:
        tcpwit_check_two(trace, trace_length, text + trace_length, text_length - trace_length, &answer);
        return of_answer(&answer);
    case 2:
        status = tcpwit_explain(text, text_length, false, &said);
        return outcome_of(status, &said);
    case 3:
        status = tcpwit_remark(text, text_length, &said);
        return outcome_of(status, &said);
    case 4:
        status = tcpwit_find(trace, trace_length, 1000, &said);
        return outcome_of(status, &said);
    default:
        status = tcpwit_judge(trace, trace_length, TCPWIT_USUAL_SLACK, 1000, &judgement);
        if ((judgement.said.bytes == NULL) != (judgement.found.bytes == NULL)) {
            fprintf(stderr, "judge gave one text of two\n");
            exit(1);
        }
        tcpwit_text_free(&judgement.found);
        return outcome_of(status, &judgement.said);
    }
}

static void end(struct outcome *outcome) {
    struct tcpwit_text said = {outcome->said, outcome->length};
    tcpwit_text_free(&said);
}

static char *contents(const char *name, size_t *length) {
    FILE *file = fopen(name, "rb");
    char *all;
    if (file == NULL) {
        perror(name);
        exit(2);
    }
    fseek(file, 0, SEEK_END);
    *length = (size_t)ftell(file);
    rewind(file);
    all = (char *)__real_malloc(*length + 1);
    if (fread(all, 1, *length, file) != *length) {
        perror(name);
        exit(2);
    }
    fclose(file);
    return all;
}

int main(int argc, char **argv) {
    if (argc != 3) {
        return 2;
    }
    text = contents(argv[1], &text_length);
    trace = contents(argv[2], &trace_length);
    for (int function = 0; function < 6; function++) {
        struct outcome right = call(function);
        long long tried = 0, ran_out = 0;
        for (int mode = 0; mode < 2; mode++) {
            refuses_on = mode == 1;
            for (long long at = 0;; at++) {
                calls = 0;
                refused_at = at;
                was_refused = false;
                struct outcome outcome = call(function);
                refused_at = -1;
                bool is_right = outcome.status == right.status && outcome.length == right.length
                    && memcmp(outcome.said, right.said, right.length) == 0;
                bool is_memory = outcome.status == 4;
                if (!is_right && !is_memory) {
                    fprintf(stderr, "function %d: another answer at allocation %lld\n", function, at);
                    return 1;
                }
                ran_out += is_memory;
                end(&outcome);
                if (!was_refused) {
                    break;
                }
                tried++;
            }
        }
        end(&right);
        printf("%d: %lld refusals, %s ran out of memory\n", function, tried, ran_out > 0 ? "some" : "none");
    }
    free(text);
    free(trace);
    return 0;
}
