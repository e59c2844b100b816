/* A small host: files a sounding, steps over the three edges of its triangle, and lists all triangles that hold it.
 *
 *     plotter                   the direction (0, 0, 1) at degree 2
 *     plotter DEGREE X Y Z      another one
 *
 * The status is 0; 1 where the grid refuses; 2 where an argument cannot be read; 3 where the output is lost. */
#include <dogrzewin.h>

#include <errno.h>
#include <inttypes.h>
#include <limits.h>
#include <stdio.h>
#include <stdlib.h>

enum { ANSWERED = 0, REFUSED = 1, UNREAD = 2, UNWRITTEN = 3 };

/* A refusal in words. The codes that are handed on come from the grid, so that the plotter can meet only these. */
static const char *reason(uint64_t refusal) {
    switch (refusal) {
    case GRID_DEGREE_TOO_HIGH:
        return "the degree is above 24";
    case GRID_ZERO_DIRECTION:
        return "the direction is (0, 0, 0)";
    case GRID_COORDINATE_TOO_FAR:
        return "a coordinate lies outside -1,000,000,000 to 1,000,000,000";
    default:
        return "this is a fault of the program";
    }
}

static int refuse(const char *call, uint64_t refusal) {
    fprintf(stderr, "plotter: %s: refused %" PRIu64 ": %s\n", call, refusal, reason(refusal));
    return REFUSED;
}

/* Steps over each edge of a triangle. */
static int show_neighbours(uint64_t code) {
    for (uint64_t edge = 1; edge <= 3; edge++) {
        uint8_t out[GRID_CROSS_BYTES];
        uint64_t refusal = grid_cross(code, edge, out, sizeof out);
        if (refusal != GRID_ANSWERED) {
            return refuse("grid_cross", refusal);
        }
        printf("across edge %" PRIu64 " lies 0x%016" PRIX64 ", where it is edge %" PRIu64 "\n", edge, grid_number(out),
               grid_number(out + 8));
    }
    return ANSWERED;
}

/* Files the sounding in the least code that holds it. */
static int show_filed(uint64_t degree, int32_t x, int32_t y, int32_t z) {
    uint8_t out[GRID_FILE_BYTES];
    uint64_t refusal = grid_file(degree, x, y, z, out, sizeof out);
    if (refusal != GRID_ANSWERED) {
        return refuse("grid_file", refusal);
    }
    printf("filed in 0x%016" PRIX64 "\n", grid_number(out));
    return show_neighbours(grid_number(out));
}

/* All triangles that hold it: more than one on an edge or at a corner. */
static int show_holders(uint64_t degree, int32_t x, int32_t y, int32_t z) {
    uint8_t out[GRID_LIST_BYTES];
    uint64_t refusal = grid_list(degree, x, y, z, out, sizeof out);
    if (refusal != GRID_ANSWERED) {
        return refuse("grid_list", refusal);
    }
    for (uint64_t k = 1; k <= grid_number(out); k++) {
        printf("held by 0x%016" PRIX64 "\n", grid_number(out + 8 * k));
    }
    return ANSWERED;
}

/* A whole number from `least` to `most`. */
static int read_number(const char *text, long long least, long long most, long long *number) {
    char *end;
    errno = 0;
    *number = strtoll(text, &end, 10);
    return end != text && *end == '\0' && errno == 0 && *number >= least && *number <= most;
}

int main(int argc, char **argv) {
    long long degree = 2, at[3] = {0, 0, 1};
    int is_read = argc == 1;
    if (argc == 5) {
        is_read = read_number(argv[1], 0, LLONG_MAX, &degree);
        for (int k = 0; k < 3; k++) {
            is_read &= read_number(argv[2 + k], INT32_MIN, INT32_MAX, &at[k]);
        }
    }
    if (!is_read) {
        fprintf(stderr, "usage: plotter [DEGREE X Y Z]: whole numbers; the direction's have 32 bits\n");
        return UNREAD;
    }
    int status = show_filed((uint64_t)degree, (int32_t)at[0], (int32_t)at[1], (int32_t)at[2]);
    if (status == ANSWERED) {
        status = show_holders((uint64_t)degree, (int32_t)at[0], (int32_t)at[1], (int32_t)at[2]);
    }
    if (fflush(stdout) != 0 || ferror(stdout)) {
        fprintf(stderr, "plotter: the output could not be written\n");
        return UNWRITTEN;
    }
    return status;
}
