/* leancop in a program in C.
 *   check PROBLEM DERIVATION [LOGIC [DOMAINS]]   judges, with the numbers of logic and domains of leancop.h
 *   check --formula PROBLEM [LOGIC [DOMAINS]]    prints line 3 of a derivation of the problem
 *   check --run WORD..                           runs the program over the files that are named by words
 * It writes what the program writes, and ends with the same status. */
#include "leancop.h"
#include <inttypes.h>
#include <stdio.h>
#include <stdlib.h>
#include <string.h>

/* The bytes of a file; where it cannot be read, its `bytes` are NULL. */
static leancop_bytes read_file(const char *name) {
    leancop_bytes read = {NULL, 0};
    FILE *file = fopen(name, "rb");
    if (file == NULL) return read;
    size_t room = 0;
    uint8_t *bytes = NULL;
    for (;;) {
        if (read.length == room) {
            uint8_t *more = realloc(bytes, room = 2 * room + 4096);
            if (more == NULL) break;
            bytes = more;
        }
        size_t count = fread(bytes + read.length, 1, room - read.length, file);
        if (count == 0) {
            if (!ferror(file)) read.bytes = bytes;
            break;
        }
        read.length += count;
    }
    if (read.bytes == NULL) free(bytes);
    fclose(file);
    return read;
}

static leancop_bytes need_file(const char *name) {
    leancop_bytes read = read_file(name);
    if (read.bytes == NULL) perror(name);
    return read;
}

/* The exit status of the program where a file is not there. */
enum { NO_FILE = 6 };

static uint32_t number(int count, char **words, int place) {
    return count > place ? (uint32_t)strtoul(words[place], NULL, 10) : 0;
}

static int judge(int count, char **words) {
    leancop_bytes problem = need_file(words[1]), derivation = need_file(words[2]);
    leancop_judgement told = {.status = NO_FILE};
    if (problem.bytes != NULL && derivation.bytes != NULL)
        leancop_check(number(count, words, 3), number(count, words, 4), problem.bytes, problem.length, derivation.bytes,
                      derivation.length, &told);
    switch (told.status) {
    case LEANCOP_STATUS_ACCEPTED: puts("accepted"); break;
    case LEANCOP_STATUS_REJECTED: printf("rejected at line %" PRIu64 ": %s\n", told.line, leancop_fault_name(told.fault).text); break;
    case LEANCOP_STATUS_BAD_PROBLEM:
        if (told.offset != UINT64_MAX) printf("%s:%" PRIu64 ": ", words[1], told.offset);
        puts(leancop_cause_name(told.fault).text);
        break;
    default: break;
    }
    free((void *)problem.bytes);
    free((void *)derivation.bytes);
    return (int)told.status;
}

static int formula(int count, char **words) {
    leancop_bytes problem = need_file(words[2]);
    if (problem.bytes == NULL) return NO_FILE;
    uint32_t logic = number(count, words, 3), domains = number(count, words, 4);
    uint8_t small[64], *room = small;
    uint64_t length;
    uint32_t status = leancop_formula(logic, domains, problem.bytes, problem.length, room, sizeof small, &length);
    if (length > sizeof small) { /* nothing is written yet: once more, with the room that is needed */
        room = malloc(length);
        status = room == NULL ? LEANCOP_STATUS_NO_MEMORY
                              : leancop_formula(logic, domains, problem.bytes, problem.length, room, length, &length);
    }
    if (status == LEANCOP_STATUS_ACCEPTED) { /* may be longer than what %.*s takes, which is an int */
        fputs("formula ", stdout);
        fwrite(room, 1, length, stdout);
        putchar('\n');
    }
    if (room != small) free(room);
    free((void *)problem.bytes);
    return (int)status;
}

/* Each word that names a file gives one, also an operand that is not one; includes are no words, so a problem with includes
 * misses them. */
static int run(int count, char **words) {
    leancop_bytes *given = calloc(count + 1, sizeof *given);
    leancop_file *files = calloc(count + 1, sizeof *files);
    if (given == NULL || files == NULL) {
        free(files);
        free(given);
        return LEANCOP_STATUS_NO_MEMORY;
    }
    size_t word_count = 0, file_count = 0;
    for (int i = 2; i < count; i++) {
        leancop_bytes word = {(const uint8_t *)words[i], strlen(words[i])};
        leancop_bytes bytes = read_file(words[i]);
        given[word_count++] = word;
        if (bytes.bytes != NULL) files[file_count++] = (leancop_file){word, bytes};
    }
    uint64_t had = 65536, length = 0;
    uint8_t *room = malloc(had);
    uint32_t status = room == NULL ? LEANCOP_STATUS_NO_MEMORY : leancop_run(given, word_count, files, file_count, room, had, &length);
    if (length > had) { /* nothing is written yet: once more, with the room that is needed */
        free(room);
        room = malloc(had = length);
        status = room == NULL ? LEANCOP_STATUS_NO_MEMORY : leancop_run(given, word_count, files, file_count, room, had, &length);
    }
    if (room != NULL && length <= had) fwrite(room, 1, length, stdout);
    free(room);
    for (size_t i = 0; i < file_count; i++) free((void *)files[i].bytes.bytes);
    free(files);
    free(given);
    return (int)status;
}

int main(int count, char **words) {
    if (count > 2 && strcmp(words[1], "--formula") == 0) return formula(count, words);
    if (count > 1 && strcmp(words[1], "--run") == 0) return run(count, words);
    if (count > 2) return judge(count, words);
    fputs("check PROBLEM DERIVATION [LOGIC [DOMAINS]]\n", stderr);
    return LEANCOP_STATUS_NO_SETTING;
}
