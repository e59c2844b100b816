/* The inputs of filing and listing. docs/PERFORMANCE.md says what each is for. */
#include "directions.h"

#include <stddef.h>
#include <string.h>

#define LARGEST 1000000000

/* ---- random numbers */

/* Marsaglia's xorshift with 64 bits. Every run of a program begins with this seed. */
static uint64_t generator = 88172645463325252u;

static uint64_t random_word(void) {
    generator ^= generator << 13;
    generator ^= generator >> 7;
    generator ^= generator << 17;
    return generator;
}

uint64_t below(uint64_t count) {
    return random_word() % count;
}

static int64_t between(int64_t least, int64_t most) {
    return least + (int64_t)below((uint64_t)(most - least + 1));
}

/* ---- making directions */

static struct direction direction_of(int64_t x, int64_t y, int64_t z) {
    struct direction made = {{(int32_t)x, (int32_t)y, (int32_t)z}};
    return made;
}

static struct direction within(int64_t most, int64_t unit) {
    int64_t x = unit * between(-most, most);
    int64_t y = unit * between(-most, most);
    int64_t z = unit * between(-most, most);
    return direction_of(x, y, z);
}

/* The coordinates turned cyclically and each with a random sign: the icosahedron is the same seen that way. */
static struct direction turned(int64_t x, int64_t y, int64_t z) {
    int64_t given[3] = {x, y, z};
    uint64_t turn = below(3);
    for (int k = 0; k < 3; k++) {
        given[k] = below(2) ? given[k] : -given[k];
    }
    return direction_of(given[turn], given[(turn + 1) % 3], given[(turn + 2) % 3]);
}

/* ---- the inputs */

static struct direction random_direction(void) {
    return within(LARGEST, 1);
}

/* On an edge of the icosahedron that lies in a coordinate plane, as the one from (φ, 0, 1) to (φ, 0, -1): y = 0 and
 * |x| > φ|z|. 618033988 / 10^9 is just below 1/φ. */
static struct direction on_edge(void) {
    int64_t x = between(1, LARGEST);
    int64_t z = between(0, x * 618033988 / LARGEST);
    return turned(x, 0, z);
}

static struct direction with_zero(void) {
    struct direction made = random_direction();
    made.at[below(3)] = 0;
    return made;
}

static struct direction small_direction(void) {
    return within(3, 1);
}

static struct direction on_axis(void) {
    return turned(between(1, LARGEST), 0, 0);
}

/* Next to a vertex, or to an edge between two sides. a / b is a quotient of Fibonacci numbers, so that (a, 0, b) lies
 * as close to the vertex (φ, 0, 1) as whole numbers of its size can. A sum of at most a such vertices, of one and of a
 * neighbour of it, is off their edge by about one unit at most; then one coordinate is moved by -1, 0 or 1. */
static struct direction near_edge(void) {
    int64_t a = 1;
    int64_t b = 1;
    for (uint64_t k = below(43); k > 0; k--) {
        int64_t next = a + b;
        b = a;
        a = next;
    }
    const int64_t vertex[3] = {a, 0, b};
    const int64_t neighbours[3][3] = {{a, 0, -b}, {0, b, a}, {b, a, 0}};
    const int64_t *neighbour = neighbours[below(3)];
    int64_t room = (LARGEST - 1) / a;
    int64_t total = between(1, room < a ? room : a);
    int64_t share = between(0, total);
    int64_t sum[3];
    for (int k = 0; k < 3; k++) {
        sum[k] = share * neighbour[k] + (total - share) * vertex[k];
    }
    sum[below(3)] += between(-1, 1);
    return turned(sum[0], sum[1], sum[2]);
}

static struct direction round_direction(void) {
    return within(1000, 1000000);
}

static const struct {
    const char *name;
    struct direction (*make)(void);
} inputs[] = {
    {"random", random_direction},
    {"edge", on_edge},
    {"zero", with_zero},
    {"small", small_direction},
    {"axis", on_axis},
    {"near", near_edge},
    {"round", round_direction},
};

static int is_zero(struct direction d) {
    return d.at[0] == 0 && d.at[1] == 0 && d.at[2] == 0;
}

int make_direction(const char *input, struct direction *made) {
    for (size_t k = 0; k < sizeof inputs / sizeof inputs[0]; k++) {
        if (strcmp(inputs[k].name, input) == 0) {
            do {
                *made = inputs[k].make();
            } while (is_zero(*made));
            return 1;
        }
    }
    return 0;
}
