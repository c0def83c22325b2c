/* The tcpwit checker for C and C++: link with -ltcpwit.
 *
 * A case is a trace and its witness (formats.md). tcpwit_check gives the answer that the program `tcpwit check` gives;
 * contracts of both state it, and both are proved. tcpwit_check_two, tcpwit_rule_name and tcpwit_answer_line are
 * proved, too. The other functions do what the commands of `tcpwit_lab` do; they are proved to be safe and to return,
 * and no more. tcpwit_text_free is C.
 *
 * A text is passed as a pointer and its length in bytes; it needs no zero at its end. You must keep to this:
 * - No pointer is NULL, even if its length or `room` is 0. To ask for a length alone, pass any valid pointer.
 * - What a function writes to, such as `answer` or `line`, doesn't overlap anything else that you pass to it.
 * - Your thread has 256 KiB of free stack. If the stack is full, the process ends.
 * - A text is freed once. The same struct may be freed again, but a copy of it may not.
 *
 * Then any number of threads may call at once: nothing is shared between calls. No function prints, ends the process,
 * or keeps a pointer that it was given. If memory runs out, the answer says so; tcpwit_answer_line then gives an empty
 * string. */
#ifndef TCPWIT_H
#define TCPWIT_H

#include <stdbool.h>
#include <stddef.h>
#include <stdint.h>

#ifdef __cplusplus
extern "C" {
#endif

/* The kinds of answers. */
enum tcpwit_kind {
    TCPWIT_YES = 0,         /* the witness explains the trace */
    TCPWIT_NO = 1,          /* it doesn't: a step breaks a rule, or something is left at the end */
    TCPWIT_BAD_TRACE = 2,   /* the trace can't be read */
    TCPWIT_BAD_WITNESS = 3, /* the witness can't be read */
    TCPWIT_NO_MEMORY = 4    /* memory ran out */
};

/* An answer to a case. Numbers that its kind doesn't have are 0. */
struct tcpwit_result {
    uint32_t kind;         /* one of enum tcpwit_kind */
    uint32_t rule;         /* a no: the rule that is broken, by the numbers of rules.md: 1 to 57 */
    uint32_t fault;        /* a text that can't be read: one of enum tcpwit_fault */
    uint64_t lines;        /* a yes: how many event lines the trace has */
    uint64_t hidden;       /* a yes: how many steps use no line */
    uint64_t witness_line; /* a no: the step's line in the witness, from 1; 0 if no step breaks a rule */
    uint64_t trace_line;   /* a no: the line of the trace that the step names; 0 if it names none */
    uint64_t fault_line;   /* a text that can't be read: the line of the fault in this text, from 1 */
    uint64_t fault_start;  /* where the fault begins in that line, in bytes from 0 */
    uint64_t fault_stop;   /* where it ends */
};

/* Why a text can't be read. */
enum tcpwit_fault {
    TCPWIT_FAULT_HEADER = 1,                /* a line of the header has another word or count of fields, or is missing */
    TCPWIT_FAULT_FIELD = 2,                 /* a field is missing, empty or one too many, or its word is unknown */
    TCPWIT_FAULT_NUMBER = 3,                /* a number is badly written or outside its limits */
    TCPWIT_FAULT_HEX = 4,                   /* hex digits are wrong, or there are too many bytes */
    TCPWIT_FAULT_SEGMENT_SHORT = 5,         /* a segment has too few bytes for a header */
    TCPWIT_FAULT_SEGMENT_OFFSET = 6,        /* a data offset is below 5 or passes the end */
    TCPWIT_FAULT_SEGMENT_OPTION_LENGTH = 7, /* an option's length is missing, below 2 or passes the end */
    TCPWIT_FAULT_SEGMENT_TOO_LONG = 8,      /* a segment has more than 65,515 bytes */
    TCPWIT_FAULT_MOMENT_FALLS = 10,         /* a moment is below that of the line before */
    TCPWIT_FAULT_LINE_TOO_LONG = 11,        /* a line has more than 140,000 bytes */
    TCPWIT_FAULT_CUT = 12,                  /* the last line has no line feed */
    TCPWIT_FAULT_TOO_MANY_LINES = 13        /* there are more than 10,000,000 lines */
};

/* Checks a case whose trace and witness are one text. */
void tcpwit_check(const char *text, size_t length, struct tcpwit_result *answer);

/* Checks a case whose trace and witness are two texts. */
void tcpwit_check_two(const char *trace, size_t trace_length, const char *witness, size_t witness_length,
                      struct tcpwit_result *answer);

/* Writes the name of a rule, such as `ack-late`, as a C string, as much of it as `room` bytes hold, and returns how
 * many bytes the name has. A number that no rule has gives an empty string and 0. */
size_t tcpwit_rule_name(uint32_t rule, char *name, size_t room);

/* Writes the line that `tcpwit check` prints for an answer, with its line feed, in the same way. No line has more than
 * 127 bytes. Numbers that no answer has give an empty string and 0, and so does running out of memory. */
size_t tcpwit_answer_line(const struct tcpwit_result *answer, char *line, size_t room);

/* A text that this library made: `length` bytes and a zero after them. `bytes` is NULL if memory ran out. */
struct tcpwit_text {
    const char *bytes;
    size_t length;
};

/* Frees a text. The struct then has no bytes, and may be freed again; a copy of it still has them, and may not. */
void tcpwit_text_free(struct tcpwit_text *text);

/* What a function that makes a text returns: the exit status of the command of `tcpwit_lab`. */
enum tcpwit_status {
    TCPWIT_STATUS_DONE = 0,    /* done, or the answer is yes */
    TCPWIT_STATUS_NO = 1,      /* the answer is no, or there are remarks */
    TCPWIT_STATUS_REFUSED = 2, /* a text can't be read; the text says where and why */
    TCPWIT_STATUS_USAGE = 3,   /* the slack is too large */
    TCPWIT_STATUS_MEMORY = 4   /* memory ran out; there is no text */
};

/* Explains the verdict on a case, as `tcpwit_lab explain` does. If `simulated`, it leaves out causes that only captured
 * segments have. */
uint32_t tcpwit_explain(const char *text, size_t length, bool simulated, struct tcpwit_text *said);

/* Lists suspicious behavior in a case that breaks no rule, as `tcpwit_lab remark` does. */
uint32_t tcpwit_remark(const char *text, size_t length, struct tcpwit_text *said);

/* How many steps the search may spend on going back for one line, if nothing else is known. */
#define TCPWIT_USUAL_BUDGET UINT64_C(1000000)

/* Looks for a witness of a trace, as `tcpwit_lab find` does: `said` is the case. */
uint32_t tcpwit_find(const char *trace, size_t length, uint64_t budget, struct tcpwit_text *said);

/* The levels of congestion control, from strict to lax. */
enum tcpwit_judged_level {
    TCPWIT_LEVEL_FULL = 0,
    TCPWIT_LEVEL_RECOVERY = 1,
    TCPWIT_LEVEL_NONE = 2,
    TCPWIT_NO_LEVEL = 3 /* no level has a yes */
};

/* How a trace was judged. Free both texts. */
struct tcpwit_judgement {
    uint32_t level;           /* the strictest level with a yes: one of enum tcpwit_judged_level */
    struct tcpwit_text said;  /* what `tcpwit_lab judge` prints */
    struct tcpwit_text found; /* the case of the last level that was tried */
};

#define TCPWIT_USUAL_SLACK UINT64_MAX /* the slack of a trace of version 5 or 6, else a second */
#define TCPWIT_ANY_SLACK (UINT64_MAX - 1) /* duties aren't judged */

/* Judges a trace, as `tcpwit_lab judge` does. The slack is in microseconds, at most 10^18, or one of those above. */
uint32_t tcpwit_judge(const char *trace, size_t length, uint64_t slack, uint64_t budget, struct tcpwit_judgement *judgement);

#ifdef __cplusplus
}
#endif

#endif
