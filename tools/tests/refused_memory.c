/* Refuses each allocation of a call of the library in turn, the first, the second and so on: each call ends with status 7, writes
 * nothing, and gives back what it took. refused_memory PROBLEM DERIVATION, linked with --wrap=malloc,--wrap=realloc,--wrap=free. */
#include "leancop.h"
#include <stdio.h>
#include <stdlib.h>
#include <string.h>

void *__real_malloc(size_t size);
void *__real_realloc(void *block, size_t size);
void __real_free(void *block);

static long left = -1, live = 0, calls = 0; /* how many are granted before one is refused; less than 0: all */

static int is_refused(void) {
    calls++;
    if (left == 0) return 1;
    if (left > 0) left--;
    return 0;
}

void *__wrap_malloc(size_t size) {
    void *block = is_refused() ? NULL : __real_malloc(size);
    if (block != NULL) live++;
    return block;
}

void *__wrap_realloc(void *block, size_t size) {
    void *moved = is_refused() ? NULL : __real_realloc(block, size);
    if (moved != NULL && block == NULL) live++;
    return moved;
}

void __wrap_free(void *block) {
    if (block != NULL) live--;
    __real_free(block);
}

static uint8_t problem[1 << 16], derivation[1 << 20], room[1 << 20];
static size_t problem_length, derivation_length;

static uint32_t check(uint64_t *length) {
    leancop_judgement told;
    leancop_check(0, 0, problem, problem_length, derivation, derivation_length, &told);
    *length = 0;
    return told.status;
}

static uint32_t formula(uint64_t *length) {
    return leancop_formula(0, 0, problem, problem_length, room, sizeof room, length);
}

static uint32_t run_of(const char *command, uint64_t *length) {
    leancop_bytes words[3] = {{(const uint8_t *)command, strlen(command)}, {(const uint8_t *)"m.p", 3}, {(const uint8_t *)"d", 1}};
    leancop_file files[2] = {{words[1], {problem, problem_length}}, {words[2], {derivation, derivation_length}}};
    return leancop_run(words, strcmp(command, "prove") == 0 ? 2 : 3, files, 2, room, sizeof room, length);
}

static uint32_t run_check(uint64_t *length) { return run_of("check", length); }
static uint32_t run_prove(uint64_t *length) { return run_of("prove", length); }

static int refuse_each(const char *name, uint32_t (*call)(uint64_t *)) {
    uint64_t length;
    long other = 0, leaks = 0, before = live;
    left = -1;
    calls = 0;
    uint32_t status = call(&length);
    long total = calls;
    if (live != before) leaks++;
    for (long granted = 0; granted < total; granted++) {
        before = live;
        left = granted;
        memset(room, 'x', sizeof room);
        if (call(&length) != 7 || length != 0 || room[0] != 'x') other++;
        left = -1;
        if (live != before) leaks++;
    }
    printf("%s: status %u with %ld allocations; where one is refused, other than 7: %ld, leaks: %ld\n", name, status, total, other, leaks);
    return status != 0 || other != 0 || leaks != 0;
}

static size_t read_into(const char *name, uint8_t *bytes, size_t size) {
    FILE *file = fopen(name, "rb");
    if (file == NULL) exit(6);
    size_t length = fread(bytes, 1, size, file);
    fclose(file);
    return length;
}

int main(int count, char **words) {
    if (count < 3) return 5;
    problem_length = read_into(words[1], problem, sizeof problem);
    derivation_length = read_into(words[2], derivation, sizeof derivation);
    return refuse_each("leancop_check", check) | refuse_each("leancop_formula", formula) | refuse_each("check by leancop_run", run_check)
           | refuse_each("prove by leancop_run", run_prove);
}
