/* Runs one call on many inputs, to be counted or to be compared.
 *
 *     driver calls CALL INPUT DEGREE COUNT      prepares COUNT inputs, then calls the function on each; writes nothing
 *     driver empty CALL INPUT DEGREE COUNT      the same, with an empty function in its place
 *     driver answers CALL INPUT DEGREE COUNT    writes the answer to each input, one a line
 *
 * The runs `calls` and `empty` differ in nothing but the address that the loop calls. What the first has more in
 * instructions is therefore exactly what the function executes, without its last one, the return. */
#include "driver.h"

#include <inttypes.h>
#include <stdio.h>
#include <stdlib.h>
#include <string.h>

uint64_t lent[32];
size_t sweep_length;

/* The empty function: one instruction, the return. */
any_function nothing;
__asm__(".text\n.globl nothing\n.type nothing, @function\nnothing:\n\tret\n");

/* ---- counting */

static uint64_t called(whole_function *function, const uint64_t *a) {
    return function(a[0], a[1], a[2], a[3], a[4], a[5], a[6], a[7], a[8], a[9], a[10], a[11]);
}

__attribute__((noinline)) static void call_all(whole_function *function, const struct input *inputs, size_t count) {
    for (size_t k = 0; k < count; k++) {
        called(function, inputs[k].argument);
    }
}

/* ---- answers */

static void write_float(const struct call *call, const uint64_t *a) {
    double answer = ((float_function *)call->function)(a[0], a[1], a[2], a[3], a[4], a[5]);
    uint64_t bits;
    memcpy(&bits, &answer, sizeof bits);
    printf("0x%016" PRIX64 "\n", bits);
}

static void write_lent(uint64_t count) {
    for (uint64_t k = 0; k < count && k < 12; k++) {
        printf(" 0x%016" PRIX64, lent[k]);
    }
    printf("\n");
}

static void write_answer(const struct call *call, const uint64_t *a) {
    if (call->answer == FLOAT) {
        write_float(call, a);
        return;
    }
    uint64_t answer = called((whole_function *)call->function, a);
    if (call->answer == WORD || call->answer == LENT_WORD) {
        printf("0x%016" PRIX64 "\n", call->answer == WORD ? answer : lent[0]);
        return;
    }
    printf("%" PRIu64, answer);
    write_lent(call->answer == CODES ? answer : answer == 0 ? 12 : 0);
}

/* ---- the program */

static void fail(const char *what, const char *which) {
    fprintf(stderr, "driver: %s %s\n", what, which);
    exit(2);
}

void *new_list(size_t count, size_t size) {
    void *list = calloc(count, size);
    if (list == NULL) {
        fail("no memory for", "a list");
    }
    return list;
}

/* After a name may stand - and the length of a sweep. */
static const struct call *call_named(const char *name) {
    size_t letters = strcspn(name, "123456789");
    sweep_length = strtoul(name + letters, NULL, 10);
    letters -= sweep_length > 0 && letters > 0 ? 1 : 0;
    for (size_t k = 0; k < calls_count; k++) {
        if (strlen(calls[k].name) == letters && strncmp(calls[k].name, name, letters) == 0) {
            return &calls[k];
        }
    }
    fail("no call", name);
    return NULL;
}

static struct input *prepared(const struct call *call, const char *kind, uint64_t degree, size_t count) {
    struct input *inputs = new_list(count, sizeof *inputs);
    for (size_t k = 0; k < count; k++) {
        if (!call->prepare(&inputs[k], kind, degree)) {
            fail("the call has no input", kind);
        }
    }
    return inputs;
}

int main(int count_of_words, char **words) {
    if (count_of_words != 6) {
        fail("write it as", "driver calls|empty|answers CALL INPUT DEGREE COUNT");
    }
    const struct call *call = call_named(words[2]);
    size_t count = strtoul(words[5], NULL, 10);
    struct input *inputs = prepared(call, words[3], strtoul(words[4], NULL, 10), count);
    if (strcmp(words[1], "calls") == 0) {
        call_all((whole_function *)call->function, inputs, count);
    } else if (strcmp(words[1], "empty") == 0) {
        call_all((whole_function *)nothing, inputs, count);
    } else if (strcmp(words[1], "answers") == 0) {
        for (size_t k = 0; k < count; k++) {
            write_answer(call, inputs[k].argument);
        }
    } else {
        fail("no such run:", words[1]);
    }
    return 0;
}
