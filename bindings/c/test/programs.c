/* What the tests of the library run, by its first argument:
 *   lines FILE ..     the line of each case
 *   two TRACE WITNESS the line of a case in two files
 *   threads N FILE .. as `lines`, by N threads at once, each over all files; fails if two threads differ
 *   rules             the name of each rule
 *   lab FILE TRACE    explains and remarks on a case, judges a trace and looks for its witness; prints the sizes
 *   short             writes a line and a name into memory that is too small
 *   stack KIB FILE .. calls each function on each case, in a thread with so little stack
 *   copied            frees a text, and then a copy of it, which isn't allowed */
#include "tcpwit.h"

#include <pthread.h>
#include <stdio.h>
#include <stdlib.h>
#include <string.h>

struct bytes {
    char *text;
    size_t length;
};

static struct bytes contents(const char *name) {
    struct bytes all = {NULL, 0};
    FILE *file = fopen(name, "rb");
    long size;
    if (file == NULL || fseek(file, 0, SEEK_END) != 0 || (size = ftell(file)) < 0) {
        perror(name);
        exit(2);
    }
    rewind(file);
    all.length = (size_t)size;
    all.text = (char *)malloc(all.length + 1);
    if (all.text == NULL || fread(all.text, 1, all.length, file) != all.length) {
        perror(name);
        exit(2);
    }
    fclose(file);
    return all;
}

static void say(const struct tcpwit_result *answer) {
    char line[128];
    size_t length = tcpwit_answer_line(answer, line, sizeof line);
    if (length != strlen(line)) {
        exit(3);
    }
    fputs(line, stdout);
}

static int lines(int count, char **names) {
    for (int i = 0; i < count; i++) {
        struct bytes text = contents(names[i]);
        struct tcpwit_result answer;
        tcpwit_check(text.text, text.length, &answer);
        say(&answer);
        free(text.text);
    }
    return 0;
}

static int two(char **names) {
    struct bytes trace = contents(names[0]), witness = contents(names[1]);
    struct tcpwit_result answer;
    tcpwit_check_two(trace.text, trace.length, witness.text, witness.length, &answer);
    say(&answer);
    free(trace.text);
    free(witness.text);
    return 0;
}

struct work {
    const struct bytes *texts;
    size_t count;
    struct tcpwit_result *answers;
};

static void *check_all(void *given) {
    struct work *work = (struct work *)given;
    for (size_t i = 0; i < work->count; i++) {
        memset(&work->answers[i], 0, sizeof work->answers[i]);
        tcpwit_check(work->texts[i].text, work->texts[i].length, &work->answers[i]);
    }
    return NULL;
}

static int threads(size_t many, size_t count, char **names) {
    struct bytes *texts = (struct bytes *)calloc(count, sizeof *texts);
    struct work *works = (struct work *)calloc(many, sizeof *works);
    pthread_t *ids = (pthread_t *)calloc(many, sizeof *ids);
    int failed = 0;
    for (size_t i = 0; i < count; i++) {
        texts[i] = contents(names[i]);
    }
    for (size_t t = 0; t < many; t++) {
        works[t].texts = texts;
        works[t].count = count;
        works[t].answers = (struct tcpwit_result *)calloc(count, sizeof *works[t].answers);
        if (pthread_create(&ids[t], NULL, check_all, &works[t]) != 0) {
            return 2;
        }
    }
    for (size_t t = 0; t < many; t++) {
        pthread_join(ids[t], NULL);
        failed |= memcmp(works[t].answers, works[0].answers, count * sizeof *works[t].answers) != 0;
    }
    for (size_t i = 0; i < count; i++) {
        say(&works[0].answers[i]);
        free(texts[i].text);
    }
    for (size_t t = 0; t < many; t++) {
        free(works[t].answers);
    }
    free(ids);
    free(works);
    free(texts);
    return failed;
}

static int rules(void) {
    char name[32];
    for (uint32_t rule = 0; rule <= 58; rule++) {
        size_t length = tcpwit_rule_name(rule, name, sizeof name);
        printf("%u %u %s\n", (unsigned)rule, (unsigned)length, name);
    }
    return 0;
}

static int lab(char **names) {
    struct bytes text = contents(names[0]), trace = contents(names[1]);
    struct tcpwit_text said = {NULL, 0};
    struct tcpwit_judgement judgement;
    uint32_t status = tcpwit_explain(text.text, text.length, true, &said);
    printf("explain %u\n%s", (unsigned)status, said.bytes);
    tcpwit_text_free(&said);
    status = tcpwit_remark(text.text, text.length, &said);
    printf("remark %u\n%s", (unsigned)status, said.bytes);
    tcpwit_text_free(&said);
    status = tcpwit_find(trace.text, trace.length, TCPWIT_USUAL_BUDGET, &said);
    printf("find %u\n%s", (unsigned)status, said.bytes);
    tcpwit_text_free(&said);
    tcpwit_text_free(&said);
    status = tcpwit_judge(trace.text, trace.length, TCPWIT_USUAL_SLACK, TCPWIT_USUAL_BUDGET, &judgement);
    printf("judge %u %u\n%s%s", (unsigned)status, (unsigned)judgement.level, judgement.said.bytes, judgement.found.bytes);
    tcpwit_text_free(&judgement.said);
    tcpwit_text_free(&judgement.found);
    free(text.text);
    free(trace.text);
    return 0;
}

static int short_memory(void) {
    struct tcpwit_result answer;
    char room[8] = "1234567";
    tcpwit_check("trace 1\n", 8, &answer);
    printf("%u %s\n", (unsigned)tcpwit_answer_line(&answer, room, 0), room);
    printf("%u %s\n", (unsigned)tcpwit_answer_line(&answer, room, 5), room);
    printf("%u %s\n", (unsigned)tcpwit_rule_name(44, room, 1), room);
    memcpy(room, "1234567", 8);
    printf("%u %s\n", (unsigned)tcpwit_rule_name(44, room, 0), room);
    printf("%u %s\n", (unsigned)tcpwit_rule_name(44, room, 8), room);
    printf("%u %s\n", (unsigned)tcpwit_rule_name(44, room, 9 - 1), room);
    return 0;
}

struct files {
    int count;
    char **names;
};

/* Calls each function on a case and on its trace, which ends before `cut`. */
static void call_each(const struct bytes *text, size_t cut) {
    struct tcpwit_result answer;
    struct tcpwit_text said = {NULL, 0};
    struct tcpwit_judgement judgement;
    char name[32];
    tcpwit_check_two(text->text, cut, text->text + cut, text->length - cut, &answer);
    tcpwit_rule_name(answer.rule, name, sizeof name);
    tcpwit_check(text->text, text->length, &answer);
    say(&answer);
    tcpwit_explain(text->text, text->length, false, &said);
    tcpwit_text_free(&said);
    tcpwit_remark(text->text, text->length, &said);
    tcpwit_text_free(&said);
    tcpwit_find(text->text, cut, 1000, &said);
    tcpwit_text_free(&said);
    tcpwit_judge(text->text, cut, TCPWIT_USUAL_SLACK, 1000, &judgement);
    tcpwit_text_free(&judgement.said);
    tcpwit_text_free(&judgement.found);
}

static void *call_all(void *given) {
    const struct files *files = (const struct files *)given;
    for (int i = 0; i < files->count; i++) {
        struct bytes text = contents(files->names[i]);
        const char *witness;
        text.text[text.length] = 0;
        witness = strstr(text.text, "\nwitness ");
        call_each(&text, witness == NULL ? text.length : (size_t)(witness - text.text) + 1);
        free(text.text);
    }
    return NULL;
}

static int stack(size_t kib, int count, char **names) {
    struct files files = {count, names};
    pthread_attr_t attributes;
    pthread_t id;
    if (pthread_attr_init(&attributes) != 0 || pthread_attr_setstacksize(&attributes, kib * 1024) != 0
        || pthread_create(&id, &attributes, call_all, &files) != 0) {
        return 2;
    }
    pthread_join(id, NULL);
    return pthread_attr_destroy(&attributes);
}

static int copied(void) {
    struct tcpwit_text said = {NULL, 0}, copy;
    tcpwit_explain("trace 1\n", 8, true, &said);
    copy = said;
    tcpwit_text_free(&said);
    tcpwit_text_free(&said);
    tcpwit_text_free(&copy);
    return 0;
}

int main(int argc, char **argv) {
    const char *what = argc > 1 ? argv[1] : "";
    if (strcmp(what, "lines") == 0) {
        return lines(argc - 2, argv + 2);
    }
    if (strcmp(what, "two") == 0 && argc == 4) {
        return two(argv + 2);
    }
    if (strcmp(what, "threads") == 0 && argc > 3) {
        return threads((size_t)atoi(argv[2]), (size_t)argc - 3, argv + 3);
    }
    if (strcmp(what, "rules") == 0) {
        return rules();
    }
    if (strcmp(what, "lab") == 0 && argc == 4) {
        return lab(argv + 2);
    }
    if (strcmp(what, "short") == 0) {
        return short_memory();
    }
    if (strcmp(what, "stack") == 0 && argc > 3) {
        return stack((size_t)atoi(argv[2]), argc - 3, argv + 3);
    }
    if (strcmp(what, "copied") == 0) {
        return copied();
    }
    return 2;
}
