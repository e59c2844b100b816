/* See mend.c. It answers a refusal, or both counts in one, by exclusive or. */
#ifndef BENCH_MEND_H
#define BENCH_MEND_H

#include <stddef.h>
#include <stdint.h>

uint64_t mend_in_c(const uint64_t *words, size_t n, uint64_t *out, size_t out_places, uint64_t *changed,
                   size_t changed_places, uint64_t *reasons, size_t reasons_places);

#endif
