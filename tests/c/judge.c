/* The C interface on document 01's sample, `!!` on an Int, on a leaf of kind 22, on a class with an interface, and on a test
   load. From the repository's root:
   cc -Iinclude tests/c/judge.c crates/aura_c/out/libaura_c.a -o crates/aura_c/out/judge_c && crates/aura_c/out/judge_c */
#include "aura_judge.h"

#include <stdio.h>
#include <string.h>

static int wrong(const char *what) {
    printf("tests/c/judge.c: %s\n", what);
    return 1;
}

static int is_zero(const uint8_t *bytes, size_t length) {
    while (length > 0)
        if (bytes[--length] != 0) return 0;
    return 1;
}

/* A leaf of the type Array(Int, 4294967296): the answer's type has its bytes. */
static int large_array(void) {
    const uint8_t question[] = {255, 255, 255, 255, 0, 0, 22, 1, 0, 0, 0, 0, 1, 0, 0, 0, 0};
    uint8_t diagnostics[5], answer[AURA_JUDGE_ANSWER_SIZE];
    const size_t length = sizeof question - 6;

    memset(answer, 7, sizeof answer);
    if (aura_judge(question, 0, question, sizeof question, diagnostics, sizeof diagnostics, answer, sizeof answer) != 0)
        return wrong("a large Array is refused");
    if (answer[1] != 1 || answer[2] != length || answer[3] != 0 || memcmp(answer + 12, question + 6, length) != 0
        || !is_zero(answer + 12 + length, sizeof answer - 12 - length))
        return wrong("another type than a large Array");
    return 0;
}

/* A class `plus` with the interface `minus` in its second place, and a function `times` of one parameter, a `minus`, with the
   result Unit: a call of it with a `plus` passes. A class record of `minus` behind that of `plus` draws 6. */
static int interface(void) {
    const uint8_t class_plus[] = {2, 6, 0, 255, 255, 255, 255, 7, 0, 255, 255, 1};
    const uint8_t class_minus[] = {2, 7, 0, 255, 255, 255, 255, 255, 255, 255, 255, 1};
    const uint8_t function_times[] = {4, 255, 255, 8, 0, 0, 0, 1, 11, 20, 0, 0, 17, 7, 0};
    const uint8_t question[] = {255, 255, 255, 255, 0, 5, 8, 0, 1, 0, 17, 6, 0};
    uint8_t table[sizeof class_plus + sizeof class_minus + sizeof function_times];
    uint8_t diagnostics[5], answer[AURA_JUDGE_ANSWER_SIZE];

    memcpy(table, class_plus, sizeof class_plus);
    memcpy(table + sizeof class_plus, function_times, sizeof function_times);
    if (aura_judge(table, sizeof class_plus + sizeof function_times, question, sizeof question, diagnostics, sizeof diagnostics,
                   answer, sizeof answer) != 0)
        return wrong("a class with an interface is refused");
    if (answer[1] != 1 || answer[2] != 1 || answer[12] != 11) return wrong("an interface is not reached");

    memcpy(table + sizeof class_plus, class_minus, sizeof class_minus);
    memcpy(table + sizeof class_plus + sizeof class_minus, function_times, sizeof function_times);
    if (aura_judge(table, sizeof table, question, sizeof question, diagnostics, sizeof diagnostics, answer, sizeof answer) != 6
        || answer[0] != 6 || !is_zero(answer + 1, sizeof answer - 1))
        return wrong("an interface with a later record");
    return 0;
}

/* A load of two nodes, judged; then a node count and a buffer that are refused. */
static int load(void) {
    const uint8_t written[] = {255, 255, 255, 255, 0, 2, 0, 0, 4};
    uint8_t out[AURA_LOAD_LONGEST], diagnostics[320], answer[AURA_JUDGE_ANSWER_SIZE];
    size_t length = 7;

    memset(out, 7, sizeof out);
    if (aura_load(0, 2, out, sizeof out, &length) != 0 || length != sizeof written) return wrong("no load");
    if (memcmp(out, written, length) != 0 || !is_zero(out + length, sizeof out - length)) return wrong("another load");
    if (aura_judge(out, 0, out, length, diagnostics, sizeof diagnostics, answer, sizeof answer) != 0)
        return wrong("a load is refused");

    memset(out, 7, sizeof out);
    if (aura_load(0, 65, out, 8, &length) != AURA_LOAD_NODE_COUNT || length != 0 || !is_zero(out, 8) || out[8] != 7)
        return wrong("a load of 65 nodes");
    memset(out, 7, sizeof out);
    length = 7;
    if (aura_load(0, 2, out, 8, &length) != AURA_LOAD_TOO_SHORT || length != 0 || !is_zero(out, 8) || out[8] != 7)
        return wrong("a load in too few bytes");
    return 0;
}

int main(void) {
    const uint8_t question[] = {255, 255, 255, 255, 0, 2, 6, 0, 0};
    uint8_t diagnostics[12], answer[AURA_JUDGE_ANSWER_SIZE + 4];
    const uint8_t record[] = {13, 0, 0, 0, 0};

    if (aura_judge_answer_size() != AURA_JUDGE_ANSWER_SIZE) return wrong("the answer has another size");

    memset(diagnostics, 7, sizeof diagnostics);
    memset(answer, 7, sizeof answer);
    if (aura_judge(question, 0, question, sizeof question, diagnostics, sizeof diagnostics, answer, sizeof answer) != 0)
        return wrong("refused");
    if (memcmp(diagnostics, record, 5) != 0 || !is_zero(diagnostics + 5, sizeof diagnostics - 5))
        return wrong("other diagnostics");
    if (answer[0] != 0 || answer[1] != 0 || answer[2] != 1 || answer[3] != 0) return wrong("another number, mark or length");
    if (answer[4] != 1 || !is_zero(answer + 5, 7)) return wrong("another count");
    if (answer[12] != 21 || !is_zero(answer + 13, sizeof answer - 13)) return wrong("another type");

    /* 4 bytes are too few for the diagnostic: number 12 */
    if (aura_judge(question, 0, question, sizeof question, diagnostics, 4, answer, sizeof answer) != 12 || answer[0] != 12
        || !is_zero(diagnostics, 4) || !is_zero(answer + 1, sizeof answer - 1))
        return wrong("number 12");

    memset(diagnostics, 7, sizeof diagnostics);
    memset(answer, 7, sizeof answer);
    if (aura_judge(question, 0, question, sizeof question, diagnostics, sizeof diagnostics, answer,
                   AURA_JUDGE_ANSWER_SIZE - 1) != AURA_JUDGE_TOO_SHORT
        || !is_zero(diagnostics, sizeof diagnostics) || !is_zero(answer, AURA_JUDGE_ANSWER_SIZE - 1)
        || answer[AURA_JUDGE_ANSWER_SIZE - 1] != 7)
        return wrong("too short an answer");
    if (large_array() != 0 || interface() != 0 || load() != 0) return 1;
    printf("tests/c/judge.c: as the header says\n");
    return 0;
}
