/* The random numbers and the directions that every program of the benchmark is run on. */
#ifndef BENCH_DIRECTIONS_H
#define BENCH_DIRECTIONS_H

#include <stdint.h>

#ifdef __cplusplus
extern "C" {
#endif

struct direction {
    int32_t at[3];
};

/* A random whole number from 0 to count - 1. The generator and its seed stand in directions.c, so a run repeats. */
uint64_t below(uint64_t count);

/* Makes a direction of the named input, as "random" or "edge", never (0, 0, 0). Answers 0 where there is no such
 * input. */
int make_direction(const char *input, struct direction *made);

#ifdef __cplusplus
}
#endif

#endif
