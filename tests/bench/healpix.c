/* HEALPix beside the grid: the cell of a direction in the nested order, where each of the twelve base cells is divided
 * into 2^degree by 2^degree. */
#include "directions.h"
#include "driver.h"

#include <chealpix.h>

/* HEALPix does not ask that a direction's length is 1. */
static int give_point(struct input *in, const char *kind, uint64_t degree) {
    struct direction made;
    if (!make_direction(kind, &made)) {
        return 0;
    }
    for (int k = 0; k < 3; k++) {
        in->at[k] = made.at[k];
    }
    in->argument[0] = (uint64_t)1 << degree;
    in->argument[1] = (uint64_t)in->at;
    in->argument[2] = (uint64_t)lent;
    return 1;
}

const struct call calls[] = {
    {"HEALPix", (any_function *)vec2pix_nest64, LENT_WORD, give_point},
};
const size_t calls_count = sizeof calls / sizeof calls[0];
