/* One sweep of many directions, compared with single calls: on bytes, by the library for programs in C, and on
 * numbers, as crates/bench exports it.
 *
 *     sweep COUNT STEP    sweeps COUNT directions of the inputs of tests/bench/directions.c, of which every 1000th is
 *                         (0, 0, 0) and every 1001st too far, by one grid_sweep, and compares each STEPth code with
 *                         what grid_file answers for its direction, and the answer with what was swept; then
 *                         sweeps the same numbers by one bench_sweep, and compares all codes and the answer
 *
 * The status is 0; 1 where something differs, 2 where the arguments cannot be read, 3 where there is no memory. */
#include "dogrzewin.h"
#include "../bench/directions.h"

#include <inttypes.h>
#include <stdio.h>
#include <stdlib.h>
#include <string.h>

/* The sweep of crates/sweeps; it answers its four numbers in one, by exclusive or. */
uint64_t bench_sweep(uint64_t degree, const int32_t *dirs, size_t dirs_length, uint64_t *codes, size_t codes_length);

static const char *const kinds[] = {"random", "edge", "zero", "small", "axis", "near", "round"};

static void fail(int status, const char *what, size_t place) {
    fprintf(stderr, "sweep: %s, at place %zu\n", what, place);
    exit(status);
}

static struct direction direction_at(size_t place) {
    struct direction made = {{0, 0, 0}};
    if (place % 1001 == 1000) {
        made.at[2] = 1000000001;
    } else if (place % 1000 != 999) {
        make_direction(kinds[place % (sizeof kinds / sizeof kinds[0])], &made);
    }
    return made;
}

static void put_number(uint8_t *bytes, int32_t number) {
    for (int k = 0; k < 4; k++) {
        bytes[k] = (uint8_t)((uint32_t)number >> (24 - 8 * k));
    }
}

static int32_t number_at(const uint8_t *bytes) {
    uint32_t number = 0;
    for (int k = 0; k < 4; k++) {
        number = number << 8 | bytes[k];
    }
    return (int32_t)number;
}

static void *memory(size_t bytes) {
    void *all = malloc(bytes);
    if (all == NULL) {
        fail(3, "there is no memory", 0);
    }
    return all;
}

/* The single call's refusal, whose code is compared with the one that the sweep left. */
static uint64_t compare_one(uint64_t degree, const uint8_t *dir, const uint8_t *code, size_t place) {
    uint8_t out[GRID_FILE_BYTES] = {0};
    uint64_t refusal = grid_file(degree, number_at(dir), number_at(dir + 4), number_at(dir + 8), out, sizeof out);
    if (memcmp(out, code, sizeof out) != 0) {
        fail(1, "the sweep has another code than the single call", place);
    }
    return refusal;
}

/* How many are refused, by the codes; each stepth is compared. */
static uint64_t compare(uint64_t degree, const uint8_t *dirs, const uint8_t *codes, size_t count, size_t step,
                        const uint8_t *out) {
    uint64_t refused = 0;
    for (size_t k = 0; k < count; k++) {
        int is_refused = grid_number(codes + 8 * k) == 0;
        if (k % step == 0 || is_refused) {
            uint64_t refusal = compare_one(degree, dirs + 12 * k, codes + 8 * k, k);
            if (is_refused && refused == 0 && (grid_number(out + 8) != k || grid_number(out + 16) != refusal)) {
                fail(1, "another direction is said to be the first refused", k);
            }
        }
        refused += (uint64_t)is_refused;
    }
    return refused;
}

/* The same directions as numbers, whose codes and answer must be those of the bytes. */
static void compare_numbers(uint64_t degree, const uint8_t *dirs, const uint8_t *codes, size_t count,
                            const uint8_t *out) {
    int32_t *numbers = memory(3 * count * sizeof *numbers);
    uint64_t *words = memory(count * sizeof *words), answer;
    for (size_t k = 0; k < 3 * count; k++) {
        numbers[k] = number_at(dirs + 4 * k);
    }
    memset(words, 0xFF, count * sizeof *words);
    answer = bench_sweep(degree, numbers, 3 * count, words, count);
    if (answer != (grid_number(out) ^ grid_number(out + 8) ^ grid_number(out + 16))) {
        fail(1, "the sweep on numbers answers otherwise", 0);
    }
    for (size_t k = 0; k < count; k++) {
        if (words[k] != grid_number(codes + 8 * k)) {
            fail(1, "the sweep on numbers has another code", k);
        }
    }
    free(numbers);
    free(words);
}

int main(int argc, char **argv) {
    size_t count = argc == 3 ? strtoul(argv[1], NULL, 10) : 0, step = argc == 3 ? strtoul(argv[2], NULL, 10) : 0;
    uint64_t degree = 24, refusal, refused;
    uint8_t out[GRID_SWEEP_BYTES], *dirs, *codes;
    if (count == 0 || step == 0) {
        fail(2, "write it as sweep COUNT STEP", 0);
    }
    dirs = memory(12 * count);
    codes = memory(8 * count);
    for (size_t k = 0; k < count; k++) {
        struct direction made = direction_at(k);
        for (int j = 0; j < 3; j++) {
            put_number(dirs + 12 * k + 4 * j, made.at[j]);
        }
    }
    memset(codes, 0xFF, 8 * count);
    refusal = grid_sweep(degree, dirs, 12 * count, codes, 8 * count, out, sizeof out);
    if (refusal != GRID_ANSWERED) {
        fail(1, "the sweep is refused", (size_t)refusal);
    }
    refused = compare(degree, dirs, codes, count, step, out);
    if (refused != grid_number(out)) {
        fail(1, "another number of refused directions is answered", (size_t)grid_number(out));
    }
    compare_numbers(degree, dirs, codes, count, out);
    printf("%zu directions swept, %" PRIu64 " refused\n", count, refused);
    free(dirs);
    free(codes);
    return 0;
}
