/* The calls of document 01, the opposites, those on the paper's codes, those of a table of soundings, the marks, those
 * of a cell list, as crates/bench exports them, and those of the crate host: all of its own, and checking; and mending
 * in C. */
#include "../../include/dogrzewin.h"
#include "directions.h"
#include "driver.h"
#include "mend.h"

#include <string.h>

/* Those that inputs are prepared with, and those that are only run. */
uint64_t bench_name(uint64_t code, uint64_t corner);
uint64_t bench_file(uint64_t degree, int32_t x, int32_t y, int32_t z);
uint64_t bench_weights(uint64_t code, uint64_t corner, uint64_t *out, size_t places);
uint64_t bench_paper(uint64_t code, uint64_t *out, size_t places);
uint64_t bench_paper_name(uint64_t name, uint64_t *out, size_t places);
any_function bench_parent, bench_child, bench_opposite, bench_cross, bench_opposite_name, bench_back,
    bench_name_weights, bench_ring, bench_exact, bench_name_exact, bench_t, bench_name_t, bench_drawn, bench_name_drawn,
    bench_list, bench_sweep, bench_get, bench_take, bench_set, bench_clear, bench_give, bench_work_out,
    bench_check_cells, bench_cells_line, bench_mend_cells, bench_from_paper, bench_from_paper_vertex, bench_table_mark,
    bench_edge_mark;

/* ---- words */

static uint64_t word_of(uint64_t side, uint64_t degree, uint64_t path) {
    return side << 59 | degree << 54 | path << (54 - 2 * degree);
}

static uint64_t random_side(void) {
    return 4 + below(20);
}

static uint64_t random_code(uint64_t degree) {
    uint64_t side = random_side();
    return word_of(side, degree, below((uint64_t)1 << (2 * degree)));
}

/* A code whose step over this edge leaves the side: no digit is 0 or the edge's number. */
static uint64_t seam_code(uint64_t degree, uint64_t edge) {
    uint64_t side = random_side();
    uint64_t path = 0;
    for (uint64_t k = 0; k < degree; k++) {
        path = 4 * path + 1 + (edge + below(2)) % 3;
    }
    return word_of(side, degree, path);
}

static int is_random(const char *kind) {
    return strcmp(kind, "random") == 0;
}

/* ---- inputs */

static int give_code(struct input *in, const char *kind, uint64_t degree) {
    in->argument[0] = random_code(degree);
    return is_random(kind);
}

static int give_code_and_digit(struct input *in, const char *kind, uint64_t degree) {
    in->argument[0] = random_code(degree);
    in->argument[1] = below(4);
    return is_random(kind);
}

/* A code with the number of an edge or a corner. */
static int give_code_and_number(struct input *in, const char *kind, uint64_t degree) {
    int over_seam = strcmp(kind, "seam") == 0;
    uint64_t number = 1 + below(3);
    in->argument[0] = over_seam ? seam_code(degree, number) : random_code(degree);
    in->argument[1] = number;
    return over_seam || is_random(kind);
}

static int give_name(struct input *in, const char *kind, uint64_t degree) {
    int known = give_code_and_number(in, kind, degree);
    in->argument[0] = bench_name(in->argument[0], in->argument[1]);
    in->argument[1] = 0;
    return known;
}

static void give_list(struct input *in, int first, uint64_t *list, size_t places) {
    in->argument[first] = (uint64_t)list;
    in->argument[first + 1] = places;
}

static int give_code_and_list(struct input *in, const char *kind, uint64_t degree) {
    give_list(in, 2, lent, 12);
    return give_code_and_number(in, kind, degree);
}

static int give_name_and_list(struct input *in, const char *kind, uint64_t degree) {
    int known = give_name(in, kind, degree);
    give_list(in, 1, lent, 12);
    return known;
}

static int give_weights(struct input *in, const char *kind, uint64_t degree) {
    int known = give_code_and_number(in, kind, degree);
    bench_weights(in->argument[0], in->argument[1], in->weights, 12);
    in->argument[0] = degree;
    give_list(in, 1, in->weights, 12);
    return known;
}

/* The paper's codes: a list that has places for the longest one, and a list of just a code's digits. */
static int give_code_and_places(struct input *in, const char *kind, uint64_t degree) {
    give_list(in, 1, lent, 27);
    return give_code(in, kind, degree);
}

static int give_name_and_places(struct input *in, const char *kind, uint64_t degree) {
    int known = give_name(in, kind, degree);
    give_list(in, 1, lent, 26);
    return known;
}

static int give_domain(struct input *in, const char *kind, uint64_t degree) {
    uint64_t *digits = new_list(27, sizeof *digits);
    int known = give_code(in, kind, degree);
    give_list(in, 0, digits, bench_paper(in->argument[0], digits, 27));
    return known;
}

static int give_vertex(struct input *in, const char *kind, uint64_t degree) {
    uint64_t *digits = new_list(26, sizeof *digits);
    int known = give_name(in, kind, degree);
    give_list(in, 0, digits, bench_paper_name(in->argument[0], digits, 26));
    return known;
}

static int give_direction(struct input *in, const char *kind, uint64_t degree) {
    struct direction made;
    if (!make_direction(kind, &made)) {
        return 0;
    }
    in->argument[0] = degree;
    for (int k = 0; k < 3; k++) {
        in->argument[1 + k] = (uint64_t)(int64_t)made.at[k];
    }
    return 1;
}

static int give_direction_and_list(struct input *in, const char *kind, uint64_t degree) {
    give_list(in, 4, lent, 12);
    return give_direction(in, kind, degree);
}

/* The calls for a program in C have the same inputs, and lent bytes. */
static void give_bytes(struct input *in, int first) {
    give_list(in, first, lent, sizeof lent);
}

static int give_code_number_and_bytes(struct input *in, const char *kind, uint64_t degree) {
    give_bytes(in, 2);
    return give_code_and_number(in, kind, degree);
}

static int give_direction_and_bytes(struct input *in, const char *kind, uint64_t degree) {
    give_bytes(in, 4);
    return give_direction(in, kind, degree);
}

static int give_code_and_bytes(struct input *in, const char *kind, uint64_t degree) {
    give_bytes(in, 1);
    return give_code(in, kind, degree);
}

static int give_name_and_bytes(struct input *in, const char *kind, uint64_t degree) {
    int known = give_name(in, kind, degree);
    give_bytes(in, 1);
    return known;
}

/* The small word of a code of degree 11 or less: the digits begin 31 bits lower. */
static uint64_t small_word_of(uint64_t code) {
    return code >> 59 << 27 | (code >> 54 & 31) << 23 | (code & (((uint64_t)1 << 54) - 1)) >> 31;
}

static int give_small(struct input *in, const char *kind, uint64_t degree) {
    int known = give_code(in, kind, degree);
    in->argument[0] = small_word_of(in->argument[0]);
    return known;
}

static int give_small_and_bytes(struct input *in, const char *kind, uint64_t degree) {
    give_bytes(in, 1);
    return give_small(in, kind, degree);
}

static int give_small_number_and_bytes(struct input *in, const char *kind, uint64_t degree) {
    int known = give_code_number_and_bytes(in, kind, degree);
    in->argument[0] = small_word_of(in->argument[0]);
    return known;
}

/* ---- a table of soundings: a list of numbers, each a reading or -1, one of owners, and two of the coarse sums */

#define PLACES_OF_DEGREE_6 81920
static int32_t readings[PLACES_OF_DEGREE_6];
static uint8_t owners[PLACES_OF_DEGREE_6];
static uint64_t counts[PLACES_OF_DEGREE_6 / 4], sums[PLACES_OF_DEGREE_6 / 4];

static int32_t random_reading(void) {
    return (int32_t)below(100001);
}

/* The list of the degree, from an argument on: half of its places have a reading. It is filled once. */
static void give_readings(struct input *in, int first, uint64_t degree) {
    size_t places = (size_t)20 << (2 * degree);
    /* Its first place is filled last, and tells that it is. */
    for (size_t k = PLACES_OF_DEGREE_6; readings[0] == 0 && k-- > 0;) {
        readings[k] = k == 0 || below(2) == 0 ? -1 : random_reading();
    }
    in->argument[first] = (uint64_t)readings;
    in->argument[first + 1] = places;
}

static int give_table(struct input *in, const char *kind, uint64_t degree) {
    in->argument[0] = degree;
    in->argument[1] = random_code(degree);
    give_readings(in, 2, degree);
    return degree <= 6 && is_random(kind);
}

/* With the owners. Every triangle is the ice desk's, which makes the calls, so that each is answered. (Of a hundred
 * that are given back at degree 6 hardly one is given back twice.) */
static void give_both(struct input *in, int first, uint64_t degree) {
    give_readings(in, first, degree);
    if (owners[0] == 0) {
        memset(owners, 1, sizeof owners);
    }
    in->argument[first + 2] = (uint64_t)owners;
    in->argument[first + 3] = in->argument[first + 1];
}

/* The coarse sums, as they are of the readings; at degree 0 there are none. */
static void give_sums(struct input *in, int first, uint64_t degree) {
    static int worked_out = 0;
    for (size_t k = 0; !worked_out && k < PLACES_OF_DEGREE_6; k++) {
        counts[k / 4] += readings[k] >= 0;
        sums[k / 4] += readings[k] >= 0 ? (uint64_t)readings[k] : 0;
    }
    worked_out = 1;
    size_t parents = degree == 0 ? 0 : (size_t)5 << (2 * degree);
    give_list(in, first, counts, parents);
    give_list(in, first + 2, sums, parents);
}

static void give_lists(struct input *in, int first, uint64_t degree) {
    give_both(in, first, degree);
    give_sums(in, first + 4, degree);
}

static int give_desk(struct input *in, const char *kind, uint64_t degree) {
    in->argument[0] = 1;
    in->argument[1] = degree;
    in->argument[2] = random_code(degree);
    give_lists(in, 3, degree);
    return degree <= 6 && is_random(kind);
}

static int give_desk_and_reading(struct input *in, const char *kind, uint64_t degree) {
    in->argument[0] = 1;
    in->argument[1] = degree;
    in->argument[2] = random_code(degree);
    in->argument[3] = (uint64_t)random_reading();
    give_lists(in, 4, degree);
    return degree <= 6 && is_random(kind);
}

static int give_readings_alone(struct input *in, const char *kind, uint64_t degree) {
    give_readings(in, 0, degree);
    return degree <= 6 && is_random(kind);
}

static int give_both_alone(struct input *in, const char *kind, uint64_t degree) {
    give_both(in, 0, degree);
    return degree <= 6 && is_random(kind);
}

static int give_readings_and_sums(struct input *in, const char *kind, uint64_t degree) {
    in->argument[0] = degree;
    give_readings(in, 1, degree);
    give_sums(in, 3, degree);
    return degree <= 6 && is_random(kind);
}

/* What a call on a table is measured by: plain loops that add up the same memory, which the compiler may make as fast
 * as it can: the readings for get and for working the sums out, and the owners too for the others. */
__attribute__((noinline, optimize("O3"))) static int64_t add_up(const int32_t *list, size_t places) {
    int64_t sum = 0;
    for (size_t k = 0; k < places; k++) {
        sum += list[k];
    }
    return sum;
}

__attribute__((noinline, optimize("O3"))) static int64_t
add_up_both(const int32_t *list, size_t places, const uint8_t *bytes, size_t count) {
    int64_t sum = 0;
    for (size_t k = 0; k < places; k++) {
        sum += list[k];
    }
    for (size_t k = 0; k < count; k++) {
        sum += bytes[k];
    }
    return sum;
}

/* ---- sweeps: a list of as many directions as the call's name says, and one of codes that all calls share */

static uint64_t *codes;

static int give_sweep(struct input *in, const char *kind, uint64_t degree) {
    struct direction *dirs = new_list(sweep_length, sizeof *dirs);
    codes = codes == NULL ? new_list(sweep_length, sizeof *codes) : codes;
    for (size_t k = 0; k < sweep_length; k++) {
        if (!make_direction(kind, &dirs[k])) {
            return 0;
        }
    }
    in->argument[0] = degree;
    in->argument[1] = (uint64_t)dirs;
    in->argument[2] = 3 * sweep_length;
    give_list(in, 3, codes, sweep_length);
    return 1;
}

/* What a sweep is measured by: a loop that makes its single calls and comes to the same, the codes, how many are
 * refused, and the first one's place and refusal. (bench_file answers a code, or a refusal's number, which is below
 * 12.) */
__attribute__((noinline)) static uint64_t singles(uint64_t degree, const int32_t *dirs, size_t numbers,
                                                  uint64_t *codes, size_t places) {
    uint64_t refused = 0, place = 0, first = 0;
    for (size_t k = 0; k < numbers / 3 && k < places; k++) {
        uint64_t answer = bench_file(degree, dirs[3 * k], dirs[3 * k + 1], dirs[3 * k + 2]);
        codes[k] = answer < 12 ? 0 : answer;
        if (answer < 12 && refused++ == 0) {
            place = k;
            first = answer;
        }
    }
    return refused ^ place ^ first;
}

/* The same on bytes, for a program in C. */
static int give_sweep_in_bytes(struct input *in, const char *kind, uint64_t degree) {
    struct direction made;
    uint8_t *dirs = new_list(sweep_length, 12);
    codes = codes == NULL ? new_list(sweep_length, sizeof *codes) : codes;
    for (size_t k = 0; k < 3 * sweep_length; k++) {
        if (k % 3 == 0 && !make_direction(kind, &made)) {
            return 0;
        }
        for (int j = 0; j < 4; j++) {
            dirs[4 * k + j] = (uint8_t)((uint32_t)made.at[k % 3] >> (24 - 8 * j));
        }
    }
    in->argument[0] = degree;
    in->argument[1] = (uint64_t)dirs;
    in->argument[2] = 12 * sweep_length;
    give_list(in, 3, codes, 8 * sweep_length);
    return 1;
}

/* The seventh argument, a length, would not go into a register. */
__attribute__((noinline)) static uint64_t host_sweep(uint64_t degree, const uint8_t *dirs, size_t bytes, uint8_t *codes,
                                                     size_t places) {
    return grid_sweep(degree, dirs, bytes, codes, places, (uint8_t *)lent, 24);
}

static int32_t number_in(const uint8_t *bytes) {
    return (int32_t)((uint32_t)bytes[0] << 24 | (uint32_t)bytes[1] << 16 | (uint32_t)bytes[2] << 8 | bytes[3]);
}

__attribute__((noinline)) static uint64_t host_singles(uint64_t degree, const uint8_t *dirs, size_t bytes,
                                                       uint8_t *codes, size_t places) {
    uint64_t refused = 0, place = 0, first = 0;
    for (size_t k = 0; k < bytes / 12 && k < places / 8; k++) {
        const uint8_t *at = dirs + 12 * k;
        uint64_t refusal = grid_file(degree, number_in(at), number_in(at + 4), number_in(at + 8), codes + 8 * k, 8);
        if (refusal != 0) {
            memset(codes + 8 * k, 0, 8);
            place = refused == 0 ? k : place;
            first = refused == 0 ? refusal : first;
            refused++;
        }
    }
    return refused ^ place ^ first;
}

/* ---- cell lists: as many words as the call's name says, a list to accept. Each is the first triangle of its degree
 * from a multiple of one number of triangles of degree 24 on. */

static void put_word(uint8_t *bytes, uint64_t word) {
    for (int k = 0; k < 8; k++) {
        bytes[k] = (uint8_t)(word >> (56 - 8 * k));
    }
}

static uint64_t cell_at(size_t place, uint64_t degree) {
    uint64_t step = ((uint64_t)20 << 48) / sweep_length;
    uint64_t least = 0;
    while (least < degree && (uint64_t)2 << (48 - 2 * least) > step) {
        least++;
    }
    uint64_t n = least + below(degree - least + 1);
    uint64_t width = (uint64_t)1 << (48 - 2 * n);
    uint64_t index = (place * step + width - 1) / width;
    return word_of(4 + (index >> (2 * n)), n, index & (((uint64_t)1 << (2 * n)) - 1));
}

static int give_cells(struct input *in, const char *kind, uint64_t degree) {
    uint64_t *words = new_list(sweep_length, sizeof *words);
    for (size_t k = 0; k < sweep_length; k++) {
        words[k] = cell_at(k, degree);
    }
    give_list(in, 0, words, sweep_length);
    return is_random(kind);
}

/* The same as a file, with the two buffers that its line is made in. */
static int give_file(struct input *in, const char *kind, uint64_t degree) {
    uint8_t *bytes = new_list(sweep_length, 8);
    for (size_t k = 0; k < sweep_length; k++) {
        put_word(bytes + 8 * k, cell_at(k, degree));
    }
    give_list(in, 0, (uint64_t *)bytes, 8 * sweep_length);
    give_list(in, 2, new_list(4096, 8), 32768);
    give_list(in, 4, lent, sizeof lent);
    return is_random(kind);
}

/* A list to mend: codes of random degrees up to this one; `whole`: all of a degree of one side, shuffled, of which as
 * many are taken as the list has words; `falling`: codes of the degree, each less than the one before; `nested`: in
 * chains from the degree up, each code inside the one after it. */
static uint64_t cell_to_mend(const char *kind, size_t place, uint64_t degree) {
    uint64_t all = (uint64_t)1 << (2 * degree);
    if (strcmp(kind, "whole") == 0) {
        return word_of(4, degree, place % all);
    }
    if (strcmp(kind, "falling") == 0) {
        return word_of(23, degree, 5 * (sweep_length - place) % all);
    }
    if (strcmp(kind, "nested") == 0) {
        uint64_t depth = degree - place % degree, chain = place / degree;
        uint64_t deepest = chain * UINT64_C(0x9E3779B97F4A7C15) % all;
        return word_of(4 + chain % 20, depth, deepest >> (2 * (degree - depth)));
    }
    return random_code(below(degree + 1));
}

static void shuffle(uint64_t *words) {
    for (size_t k = sweep_length; k > 1; k--) {
        size_t other = below(k);
        uint64_t word = words[k - 1];
        words[k - 1] = words[other];
        words[other] = word;
    }
}

static int is_to_mend(const char *kind) {
    return is_random(kind) || strcmp(kind, "whole") == 0 || strcmp(kind, "falling") == 0 || strcmp(kind, "nested") == 0;
}

static uint64_t *cells_to_mend(const char *kind, uint64_t degree) {
    uint64_t *words = new_list(sweep_length, sizeof *words);
    for (size_t k = 0; k < sweep_length; k++) {
        words[k] = cell_to_mend(kind, k, degree);
    }
    if (strcmp(kind, "whole") == 0) {
        shuffle(words);
    }
    return words;
}

/* With the three lists that the answer goes to, which all calls share. */
static int give_mend(struct input *in, const char *kind, uint64_t degree) {
    static uint64_t *mended, *changed, *reasons;
    mended = mended == NULL ? new_list(sweep_length, sizeof *mended) : mended;
    changed = changed == NULL ? new_list(sweep_length, sizeof *changed) : changed;
    reasons = reasons == NULL ? new_list(sweep_length, sizeof *reasons) : reasons;
    give_list(in, 0, cells_to_mend(kind, degree), sweep_length);
    give_list(in, 2, mended, sweep_length);
    give_list(in, 4, changed, sweep_length);
    give_list(in, 6, reasons, sweep_length);
    return is_to_mend(kind);
}

/* The same lists in bytes, for a program in C. */
static int give_cells_in_bytes(struct input *in, const char *kind, uint64_t degree) {
    int known = give_file(in, kind, degree);
    give_bytes(in, 2);
    return known;
}

static int give_mend_in_bytes(struct input *in, const char *kind, uint64_t degree) {
    static uint8_t *mended, *changed, *reasons;
    uint64_t *words = cells_to_mend(kind, degree);
    uint8_t *bytes = new_list(sweep_length, 8);
    for (size_t k = 0; k < sweep_length; k++) {
        put_word(bytes + 8 * k, words[k]);
    }
    mended = mended == NULL ? new_list(sweep_length, 8) : mended;
    changed = changed == NULL ? new_list(sweep_length, 8) : changed;
    reasons = reasons == NULL ? new_list(sweep_length, 8) : reasons;
    give_list(in, 0, (uint64_t *)bytes, 8 * sweep_length);
    give_list(in, 2, (uint64_t *)mended, 8 * sweep_length);
    give_list(in, 4, (uint64_t *)changed, 8 * sweep_length);
    give_list(in, 6, (uint64_t *)reasons, 8 * sweep_length);
    give_list(in, 8, lent, sizeof lent);
    return is_to_mend(kind);
}

/* ---- the calls */

const struct call calls[] = {
    {"check", (any_function *)grid_check_triangle, WORD, give_code},
    {"check-name", (any_function *)grid_check_name, WORD, give_name},
    {"parent", bench_parent, WORD, give_code},
    {"child", bench_child, WORD, give_code_and_digit},
    {"opposite", bench_opposite, WORD, give_code},
    {"cross", bench_cross, WORD, give_code_and_number},
    {"name", (any_function *)bench_name, WORD, give_code_and_number},
    {"opposite-name", bench_opposite_name, WORD, give_name},
    {"paper", (any_function *)bench_paper, CODES, give_code_and_places},
    {"paper-name", (any_function *)bench_paper_name, CODES, give_name_and_places},
    {"from-paper", bench_from_paper, WORD, give_domain},
    {"from-paper-vertex", bench_from_paper_vertex, WORD, give_vertex},
    {"back", bench_back, WORD, give_weights},
    {"weights", (any_function *)bench_weights, WEIGHTS, give_code_and_list},
    {"name-weights", bench_name_weights, WEIGHTS, give_name_and_list},
    {"exact", bench_exact, WORD, give_code_and_number},
    {"name-exact", bench_name_exact, WORD, give_name},
    {"t", bench_t, WORD, give_code_and_number},
    {"name-t", bench_name_t, WORD, give_name},
    {"drawn", bench_drawn, FLOAT, give_code_and_number},
    {"name-drawn", bench_name_drawn, FLOAT, give_name},
    {"edge-mark", bench_edge_mark, FLOAT, give_code_and_number},
    {"ring", bench_ring, CODES, give_name_and_list},
    {"file", (any_function *)bench_file, WORD, give_direction},
    {"list", bench_list, CODES, give_direction_and_list},
    {"sweep", bench_sweep, WORD, give_sweep},
    {"singles", (any_function *)singles, WORD, give_sweep},
    {"table-get", bench_get, WORD, give_table},
    {"table-mark", bench_table_mark, FLOAT, give_table},
    {"table-take", bench_take, WORD, give_desk},
    {"table-set", bench_set, WORD, give_desk_and_reading},
    {"table-clear", bench_clear, WORD, give_desk},
    {"table-give", bench_give, WORD, give_desk},
    {"table-work-out", bench_work_out, WORD, give_readings_and_sums},
    {"check-cells", bench_check_cells, WORD, give_cells},
    {"cells-line", bench_cells_line, WORD, give_file},
    {"mend-cells", bench_mend_cells, WORD, give_mend},
    {"mend-in-c", (any_function *)mend_in_c, WORD, give_mend},
    {"add-up", (any_function *)add_up, WORD, give_readings_alone},
    {"add-up-both", (any_function *)add_up_both, WORD, give_both_alone},
    {"host-cross", (any_function *)grid_cross, WEIGHTS, give_code_number_and_bytes},
    {"host-file", (any_function *)grid_file, WEIGHTS, give_direction_and_bytes},
    {"host-sweep", (any_function *)host_sweep, WORD, give_sweep_in_bytes},
    {"host-singles", (any_function *)host_singles, WORD, give_sweep_in_bytes},
    {"host-list", (any_function *)grid_list, WEIGHTS, give_direction_and_bytes},
    {"host-check-cells", (any_function *)grid_check_cells, WORD, give_cells_in_bytes},
    {"host-mend-cells", (any_function *)grid_mend_cells, WORD, give_mend_in_bytes},
    {"host-check-small", (any_function *)grid_check_small, WORD, give_small},
    {"host-small", (any_function *)grid_small, WEIGHTS, give_code_and_bytes},
    {"host-large", (any_function *)grid_large, WEIGHTS, give_small_and_bytes},
    {"host-cross-small", (any_function *)grid_cross_small, WEIGHTS, give_small_number_and_bytes},
    {"host-file-small", (any_function *)grid_file_small, WEIGHTS, give_direction_and_bytes},
    {"host-opposite", (any_function *)grid_opposite, WEIGHTS, give_code_and_bytes},
    {"host-opposite-name", (any_function *)grid_opposite_name, WEIGHTS, give_name_and_bytes},
};
const size_t calls_count = sizeof calls / sizeof calls[0];
