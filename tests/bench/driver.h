/* What driver.c asks of the file that it is linked with (grid.c, s2.cc or healpix.c): a table of calls, and for each
 * how an input is prepared. */
#ifndef BENCH_DRIVER_H
#define BENCH_DRIVER_H

#include <stddef.h>
#include <stdint.h>

#ifdef __cplusplus
extern "C" {
#endif

/* A call takes at most twelve whole numbers or addresses. On x86-64 the first six go into registers, the others onto
 * the stack, and one that the function does not take does no harm: so one loop serves all calls. */
struct input {
    uint64_t argument[12];
    /* Memory that an argument may point to. */
    uint64_t weights[12];
    double at[3];
};

typedef uint64_t whole_function(uint64_t, uint64_t, uint64_t, uint64_t, uint64_t, uint64_t, uint64_t, uint64_t,
                                uint64_t, uint64_t, uint64_t, uint64_t);
/* Only calls of few arguments answer a float. */
typedef double float_function(uint64_t, uint64_t, uint64_t, uint64_t, uint64_t, uint64_t);
typedef void any_function(void);

/* What a call answers: a word; a word in the lent list; a float; a count, and so many codes in the lent list; a
 * refusal, or 0 and twelve weights, or bytes, in the lent list. */
enum answer { WORD, LENT_WORD, FLOAT, CODES, WEIGHTS };

struct call {
    const char *name;
    any_function *function;
    enum answer answer;
    /* Fills in an input of the named kind; 0 where the call has no such kind. */
    int (*prepare)(struct input *in, const char *kind, uint64_t degree);
};

extern const struct call calls[];
extern const size_t calls_count;

/* The list that is lent to calls that write one. */
extern uint64_t lent[32];

/* How many directions a sweep has: `sweep-1000` is the call `sweep` with 1000. */
extern size_t sweep_length;

/* Memory of zeros; the program ends where there is none. */
void *new_list(size_t count, size_t size);

#ifdef __cplusplus
}
#endif

#endif
