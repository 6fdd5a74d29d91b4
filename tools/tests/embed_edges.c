/* What leancop.h says of NULL, of names, of the version and of what is reserved: writes a line for each number that has a name,
 * and one for each promise that is not kept. */
#include "leancop.h"
#include <stdio.h>
#include <string.h>

static void wanted(int kept, const char *what) {
    if (!kept) printf("not kept: %s\n", what);
}

/* The words end, and all bytes behind them are zeros. */
static int is_padded(leancop_name name) {
    const char *end = memchr(name.text, 0, sizeof name.text);
    if (end == NULL) return 0;
    while (end < name.text + sizeof name.text)
        if (*end++ != 0) return 0;
    return 1;
}

static int is_reserved(const leancop_judgement *told) {
    static const uint64_t zeros[4] = {0, 0, 0, 0};
    return memcmp(told->reserved, zeros, sizeof zeros) == 0;
}

static leancop_bytes text(const char *words) {
    leancop_bytes bytes = {(const uint8_t *)words, strlen(words)};
    return bytes;
}

int main(void) {
    leancop_bytes none = {NULL, 0}, problem = text("fof(c,conjecture,p => p).");
    leancop_judgement told, same;
    uint64_t length = 1;
    uint8_t room[4096];

    wanted(leancop_version() == LEANCOP_VERSION_NUMBER, "the version of the library is that of the header");
    for (uint32_t i = 0; i < 300; i++) {
        leancop_name fault = leancop_fault_name(i), cause = leancop_cause_name(i);
        wanted(is_padded(fault) && is_padded(cause), "zeros behind the words");
        if (fault.text[0] != 0) printf("fault %u %s\n", (unsigned)i, fault.text);
        if (cause.text[0] != 0) printf("cause %u %s\n", (unsigned)i, cause.text);
    }
    wanted(leancop_fault_name(UINT32_MAX).text[0] == 0 && leancop_cause_name(UINT32_MAX).text[0] == 0, "no name of a number that is none");

    memset(&told, 255, sizeof told);
    memset(&same, 255, sizeof same);
    leancop_check(0, 0, none.bytes, 0, none.bytes, 0, &told);
    leancop_check(0, 0, room, 0, room, 0, &same);
    wanted(memcmp(&told, &same, sizeof told) == 0, "NULL is an empty problem");
    wanted(told.status == LEANCOP_STATUS_BAD_PROBLEM && is_reserved(&told), "an empty problem has no formula");
    leancop_check(0, 0, problem.bytes, problem.length, none.bytes, 0, &told);
    leancop_check(0, 0, problem.bytes, problem.length, room, 0, &same);
    wanted(memcmp(&told, &same, sizeof told) == 0, "NULL is an empty derivation");
    wanted(told.status == LEANCOP_STATUS_REJECTED && told.line == 1 && is_reserved(&told), "an empty derivation is rejected");

    wanted(leancop_formula(0, 0, problem.bytes, problem.length, NULL, 0, &length) == 0 && length == 8, "NULL is no room: the length alone is told");
    wanted(leancop_formula(0, 0, NULL, 0, NULL, 0, &length) == LEANCOP_STATUS_BAD_PROBLEM && length == 0, "NULL is an empty problem of leancop_formula");

    length = 1;
    wanted(leancop_run(NULL, 0, NULL, 0, NULL, 0, &length) == leancop_run(&none, 0, NULL, 0, room, 0, &length), "NULL is an empty list of words");
    leancop_bytes words[3] = {text("check"), text("a.p"), text("a.txt")};
    leancop_file with_null[2] = {{text("a.p"), problem}, {text("a.txt"), none}};
    leancop_bytes empty = {room, 0};
    leancop_file with_empty[2] = {{text("a.p"), problem}, {text("a.txt"), empty}};
    uint64_t other = 0;
    uint8_t other_room[4096];
    uint32_t status = leancop_run(words, 3, with_null, 2, room, sizeof room, &length);
    wanted(status == LEANCOP_STATUS_REJECTED, "a file of NULL is an empty file");
    wanted(status == leancop_run(words, 3, with_empty, 2, other_room, sizeof other_room, &other), "a file of NULL ends a run as an empty file does");
    wanted(length == other && memcmp(room, other_room, length) == 0, "and has the same output");
    words[1] = none;
    status = leancop_run(words, 2, with_null, 2, NULL, 0, &length);
    words[1] = empty;
    wanted(status == leancop_run(words, 2, with_null, 2, NULL, 0, &other), "a word of NULL is an empty word");
    wanted(length == other, "and has an output of the same length");
    return 0;
}
