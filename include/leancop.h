/* leancop for C and for whatever calls C: the checker, and the whole program. What is promised is proved; docs/EMBEDDING.md
 * says how to build and link it, and what is trusted.
 *
 * Any bytes may be handed in. NULL with length 0 is an empty text, an empty list of words or files, or no room; no other pointer is
 * null. `room`, `length` and `judgement` overlap nothing else that is handed in. Nothing of the caller's is kept or freed, and all that
 * a call allocates, by malloc and realloc, is freed before it returns.
 *
 * Calls share nothing, so any number of threads may call at once, but no signal handler. Each wants a stack of 8 MB, which a thread is
 * given by its attributes; one with less than its problem needs ends by a segmentation fault. Measured, the least for all three calls:
 *
 *     a small problem                     28 kB
 *     499 nested ~                       1.1 MB
 *     500 nested brackets, the most      1.7 MB */
#ifndef LEANCOP_H
#define LEANCOP_H

/* The version of the program and of this header. */
#define LEANCOP_VERSION_MAJOR 1
#define LEANCOP_VERSION_MINOR 0
#define LEANCOP_VERSION_PATCH 0
#define LEANCOP_VERSION_NUMBER (LEANCOP_VERSION_MAJOR * 1000000 + LEANCOP_VERSION_MINOR * 1000 + LEANCOP_VERSION_PATCH)

#include <stddef.h>
#include <stdint.h>

#ifdef __cplusplus
extern "C" {
#endif

/* LEANCOP_VERSION_NUMBER of the library that is linked. */
uint32_t leancop_version(void);

/* Logics and domains. Domains are settled by the logic where it has no choice: classical ones are constant, intuitionistic ones
 * cumulative, and cumulative ones of S5 are constant. */
enum {
    LEANCOP_LOGIC_CLASSICAL = 0,
    LEANCOP_LOGIC_INTUITIONISTIC = 1,
    LEANCOP_LOGIC_D = 2,
    LEANCOP_LOGIC_T = 3,
    LEANCOP_LOGIC_S4 = 4,
    LEANCOP_LOGIC_S5 = 5
};
enum { LEANCOP_DOMAINS_CONSTANT = 0, LEANCOP_DOMAINS_CUMULATIVE = 1, LEANCOP_DOMAINS_VARYING = 2 };

/* The statuses of leancop_check and leancop_formula; those of leancop_run are the exit statuses of the program. */
enum {
    LEANCOP_STATUS_ACCEPTED = 0,   /* of leancop_formula: the formula is written */
    LEANCOP_STATUS_BAD_PROBLEM = 4,
    LEANCOP_STATUS_NO_SETTING = 5, /* the number of the logic or of the domains is none of the above */
    LEANCOP_STATUS_INCLUDES = 6,   /* the problem includes a file; leancop_run takes several */
    LEANCOP_STATUS_NO_MEMORY = 7,
    LEANCOP_STATUS_REJECTED = 8
};

/* Causes: why a problem is bad, in `fault` where the status is 4. The last four are told without a place. */
enum {
    LEANCOP_CAUSE_SYNTAX = 1,
    LEANCOP_CAUSE_UNSUPPORTED = 2,
    LEANCOP_CAUSE_RESERVED_WORD = 3,
    LEANCOP_CAUSE_WRONG_LANGUAGE = 4,
    LEANCOP_CAUSE_SECOND_CONJECTURE = 5,
    LEANCOP_CAUSE_UNKNOWN_ROLE = 6,
    LEANCOP_CAUSE_INCLUDE_TOO_DEEP = 7,
    LEANCOP_CAUSE_INCLUDE_NAME_ABSENT = 8,
    LEANCOP_CAUSE_NO_FORMULA = 9,
    LEANCOP_CAUSE_INPUT_TOO_LARGE = 10,
    LEANCOP_CAUSE_NESTING_TOO_DEEP = 11,
    LEANCOP_CAUSE_FORMULA_TOO_LARGE = 12,
    LEANCOP_CAUSE_TOO_MANY_SYMBOLS = 13
};

/* Faults: why a derivation is rejected, in `fault` where the status is 8: those of its text, then those of its steps. */
enum {
    LEANCOP_FAULT_VERSION = 1,
    LEANCOP_FAULT_SETTING = 2,
    LEANCOP_FAULT_FORMULA = 3,
    LEANCOP_FAULT_LIMIT = 4,
    LEANCOP_FAULT_NAME = 5,
    LEANCOP_FAULT_LINE = 6,
    LEANCOP_FAULT_TEXT_AFTER_END = 7,
    LEANCOP_FAULT_LABEL = 8,
    LEANCOP_FAULT_TERM = 9,
    LEANCOP_FAULT_TABLE = 10,
    LEANCOP_FAULT_NO_ENTRY = 21,
    LEANCOP_FAULT_NO_CONNECTION = 22,
    LEANCOP_FAULT_WRONG_ARGUMENTS = 23,
    LEANCOP_FAULT_UNKNOWN_NAME = 24,
    LEANCOP_FAULT_NOT_REACHABLE = 25,
    LEANCOP_FAULT_NOT_NEW = 26,
    LEANCOP_FAULT_WRONG_HOME = 27,
    LEANCOP_FAULT_NOT_ALLOWED = 28,
    LEANCOP_FAULT_ALL_CLOSED = 31,
    LEANCOP_FAULT_STILL_OPEN = 32
};

/* The words that the program prints for a fault or a cause, as "no connection", with a zero byte behind them; for a number that
 * is none, the empty text. They are copied: printf("%s", leancop_fault_name(told.fault).text). */
typedef struct {
    char text[32];
} leancop_name;

leancop_name leancop_fault_name(uint32_t fault);
leancop_name leancop_cause_name(uint32_t cause);

typedef struct {
    uint32_t status;
    uint32_t fault;  /* where the status is 4 or 8, else 0 */
    uint64_t line;   /* where it is 8: the first wrong line, from 1; else 0 */
    uint64_t offset; /* where it is 4: the byte of the problem, from 0; else, and where no place is told, UINT64_MAX */
    uint64_t reserved[4]; /* 0; room for what a later version tells, so that programs which know this one keep working */
} leancop_judgement;

/* Judges the second text as a derivation of the problem that the first one states without includes.
 *   0: the first text holds one problem in the setting, the second is the text of a derivation of it, and so the formula is
 *      true at the root of each structure of the setting, finite or over the natural numbers, and some tableau for it is closed;
 *   8: it is none, and `line` and `fault` are those of its one judgement;
 *   4: the first text holds no problem, and `offset` and `fault` are those of its one first refusal. */
void leancop_check(uint32_t logic, uint32_t domains, const uint8_t *problem, size_t problem_length,
                   const uint8_t *derivation, size_t derivation_length, leancop_judgement *judgement);

/* Writes the canonical formula of the problem that the text states: line 3 of its derivations is `formula `, this text and a
 * line feed. Answers 0, 4, 5, 6 or 7 as above. `*length` is the length of the formula, or 0 where there is none; where it is
 * more than `room_length`, nothing is written. There is no zero byte at the end. */
uint32_t leancop_formula(uint32_t logic, uint32_t domains, const uint8_t *problem, size_t problem_length,
                         uint8_t *room, size_t room_length, uint64_t *length);

typedef struct {
    const uint8_t *bytes;
    size_t length;
} leancop_bytes;

typedef struct {
    leancop_bytes name;
    leancop_bytes bytes;
} leancop_file;

/* Runs the program with these words, as `prove` and `m.p`, where these files and no others are there; of each name the first
 * one counts. Answers the exit status of the program, and writes what the program would write to its standard output.
 * `*length` is the length of the whole output; where it is more than `room_length`, nothing is written, and the call is to be
 * made again with more room. 7 says that memory ended, and 6 also that a word is not UTF-8; then the output is empty. */
uint32_t leancop_run(const leancop_bytes *words, size_t word_count, const leancop_file *files, size_t file_count,
                     uint8_t *room, size_t room_length, uint64_t *length);

#ifdef __cplusplus
}
#endif

#endif
