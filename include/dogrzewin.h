/* Dogrzewin for a program in C or C++: a grid of the globe, with a machine-checked proof of what every call answers.
 *
 * The globe is an icosahedron whose twenty sides are cut again and again into four triangles, to degree 24. A triangle
 * has a code and a corner has a name; each is one 64-bit number, and a code is never a name. Edge k of a triangle, 1 to
 * 3, lies opposite its corner k. A direction is any point but (0, 0, 0) on the ray from the centre, in whole numbers.
 *
 * Each call returns 0 where it answers, else the number of its refusal, and writes its answer to bytes that the caller
 * lends: eight bytes for each number, the most significant first. grid_number reads them. (The small word of a code of
 * degree 11 or less has four bytes, which grid_small_number reads.)
 *
 *     uint8_t out[GRID_FILE_BYTES];
 *     if (grid_file(2, 0, 0, 1, out, sizeof out) == GRID_ANSWERED) {
 *         uint64_t code = grid_number(out);
 *     }
 *
 * What the caller owes. These cannot be checked by a call, and what is proved rests on them:
 *
 *     - The program is for x86-64 Linux: the toolchain makes static libraries for no other processor.
 *     - out points to out_length bytes that may be read and written, or it is any pointer, as NULL, with the length 0;
 *       so do codes, mended, words and reasons, each with its length, and dirs and list to bytes that may be read. No
 *       two of these overlap.
 *     - Nothing else touches these bytes before the call returns: no other thread and no signal handler, and where they
 *       lie in a mapped file or in shared memory no other process and no other mapping.
 *     - There is room on the stack: 300 KB for grid_mend_cells, a few KB for any other call. No proof speaks of the
 *       stack.
 *
 * What the caller may count on. Any numbers may be handed in; what does not fit is refused. A call that refuses writes
 * nothing. A call that answers writes just the bytes that are named at it; the rest of out stays, and a longer out is
 * allowed. An answer depends on nothing but the arguments. Every call returns. None allocates memory or keeps any
 * state, so that several threads may call at once, each with bytes of its own. */
#ifndef DOGRZEWIN_H
#define DOGRZEWIN_H

#include <stddef.h>
#include <stdint.h>

#define GRID_VERSION "1.0.0"

#ifdef __cplusplus
extern "C" {
#endif

/* What a call returns: 0, or a refusal number of the grid's rules. Where several refusals hold, the first in the order
 * 32, 1, 30, 2, 3, 4, 31, 10, 5, 6, 8, 7, 9, 11 is given: 32 is checked before all others. Each call below names its
 * own in that order. No call here gives 6 or 11. The calls on small words alone give 30 and 31. For 9 the lent list is
 * out, or one of a sweep's or of a cell list's, and what it needs stands at each call, in bytes. */
enum grid_refusal {
    /* answered */
    GRID_ANSWERED = 0,
    /* a degree, as field or argument, is above 24 */
    GRID_DEGREE_TOO_HIGH = 1,
    /* a is 0, 6 or 7 */
    GRID_NO_SUCH_SIDE = 2,
    /* a digit beyond the degree is not 0 */
    GRID_DIGIT_BEYOND_DEGREE = 3,
    /* the four zero bits are not zero, or the corner number does not fit the kind of word */
    GRID_WRONG_KIND = 4,
    /* an edge or corner argument is not 1 to 3, or a child digit is not 0 to 3 */
    GRID_ARGUMENT_OUT_OF_RANGE = 5,
    /* parent of degree 0, or child of degree 24 */
    GRID_NO_SUCH_DEGREE = 6,
    /* the direction is (0, 0, 0) */
    GRID_ZERO_DIRECTION = 7,
    /* a direction coordinate lies outside -1,000,000,000 to 1,000,000,000 */
    GRID_COORDINATE_TOO_FAR = 8,
    /* a lent list is too short: 12 for weights, 6 for triangles */
    GRID_TOO_SHORT = 9,
    /* a word passes 1 to 4 as a corner name and is not the canonical one */
    GRID_NOT_CANONICAL = 10,
    /* no corner of the degree has the twelve weights */
    GRID_NO_SUCH_CORNER = 11,
    /* a degree, as field or argument, is 12 to 24 */
    GRID_TOO_DEEP_FOR_SMALL = 30,
    /* the last bit is set */
    GRID_LAST_BIT_SET = 31,
    /* a list has more than 4,096 words */
    GRID_TOO_LONG = 32
};

/* The least out_length of each call that writes. */
enum grid_bytes {
    GRID_CROSS_BYTES = 16,
    GRID_FILE_BYTES = 8,
    GRID_LIST_BYTES = 56,
    GRID_SWEEP_BYTES = 24,
    GRID_CHECK_CELLS_BYTES = 16,
    GRID_MEND_CELLS_BYTES = 16,
    GRID_SMALL_BYTES = 4,
    GRID_LARGE_BYTES = 8,
    GRID_CROSS_SMALL_BYTES = 12,
    GRID_FILE_SMALL_BYTES = 4,
    GRID_OPPOSITE_BYTES = 8,
    GRID_OPPOSITE_NAME_BYTES = 8
};

/* The number in eight bytes, the most significant first: number k of an answer without a small word, from 0, is
 * grid_number(out + 8 * k). */
static inline uint64_t grid_number(const uint8_t *bytes) {
    uint64_t number = 0;
    int k;
    for (k = 0; k < 8; k++) {
        number = number << 8 | bytes[k];
    }
    return number;
}

/* The small word in four bytes, the most significant first. */
static inline uint32_t grid_small_number(const uint8_t *bytes) {
    return (uint32_t)bytes[0] << 24 | (uint32_t)bytes[1] << 16 | (uint32_t)bytes[2] << 8 | bytes[3];
}

/* Checks a word as the code of a triangle: 0 where it is one.
 *
 * Writes: nothing.
 * Refusals: 1, 2, 3, 4. */
uint64_t grid_check_triangle(uint64_t word);

/* Checks a word as the name of a corner: 0 where it is one. A corner has one name, whichever triangle it is seen from.
 *
 * Writes: nothing.
 * Refusals: 1, 2, 3, 4, 10. */
uint64_t grid_check_name(uint64_t word);

/* Crosses an edge, 1 to 3, of the triangle with this code.
 *
 * Writes: 16 bytes: the code of the triangle across the edge, and the number that the edge has there.
 * Refusals: 1, 2, 3, 4, 5, 9. (9 where out_length is below GRID_CROSS_BYTES.) */
uint64_t grid_cross(uint64_t code, uint64_t edge, uint8_t *out, size_t out_length);

/* Files the direction (x, y, z) at a degree. A triangle holds the directions on its edges and corners too.
 *
 * Writes: 8 bytes: the least code of that degree whose triangle holds the direction.
 * Refusals: 1, 8, 7, 9. (9 where out_length is below GRID_FILE_BYTES.) */
uint64_t grid_file(uint64_t degree, int32_t x, int32_t y, int32_t z, uint8_t *out, size_t out_length);

/* Lists all triangles of a degree that hold the direction (x, y, z): 1, or 2 on an edge, or 6 at a corner.
 *
 * Writes: 8 + 8 * count bytes: the count, and then the codes, rising. The rest of the 56 bytes stays as it is.
 * Refusals: 1, 8, 7, 9. (9 where out_length is below GRID_LIST_BYTES, whatever the count is.) */
uint64_t grid_list(uint64_t degree, int32_t x, int32_t y, int32_t z, uint8_t *out, size_t out_length);

/* Files many directions at once, each as grid_file does: a sweep. dirs has twelve bytes for each direction, x, y and z,
 * four bytes for each, in two's complement and the most significant first. A refused direction is no refusal of the
 * sweep: it has the code 0 in its place, and the sweep goes on.
 *
 * Writes: 8 bytes of codes for each direction, in their order; and 24 bytes of out: how many directions are refused,
 * and the first one's place, from 0, and its refusal, 7 or 8; all three are 0 where none is.
 * Refusals: 1, 9. (9 where dirs_length is no multiple of 12, or codes_length is below 8 for each direction, or
 * out_length below GRID_SWEEP_BYTES.) */
uint64_t grid_sweep(uint64_t degree, const uint8_t *dirs, size_t dirs_length, uint8_t *codes, size_t codes_length,
                    uint8_t *out, size_t out_length);

/* Checks a list of cells: it is accepted where every word is the code of a triangle, the words rise, and none lies
 * inside another. Codes of any degrees rise by side and then by digits, an ancestor before its descendants. list has
 * eight bytes for each word, the most significant first; there may be any number of them. A list that is not accepted
 * is no refusal.
 *
 * Writes: 16 bytes: the reason of the first word that offends, and its place, from 0; both are 0 where the list is
 * accepted. The reason is 1 for a word that is no code, 2 for one that is less than the word before, 3 for one that is
 * equal to it, 4 for one inside an earlier word; where several hold, the least.
 * Refusals: 9. (9 where list_length is no multiple of 8, or out_length is below GRID_CHECK_CELLS_BYTES.) */
uint64_t grid_check_cells(const uint8_t *list, size_t list_length, uint8_t *out, size_t out_length);

/* Mends a list of cells, at most 4,096 words: drops what is no code, repeats, and triangles inside others, puts the
 * rest in order, and replaces four whole children by their parent as long as any four remain. list is as for
 * grid_check_cells, which accepts the mended list.
 *
 * Writes: 8 bytes of mended for each code of the mended list; for each change 8 bytes of words and 8 of reasons; and 16
 * bytes of out: how many codes and how many changes. First of the changes comes each word that is dropped, in the order
 * of the list, with the reason 1 where it is no code, 3 where it is equal to an earlier word, 4 where it is inside
 * another; where several hold, the least. Then comes each parent that takes its children's place, with the reason 5,
 * the deepest first and rising within one degree. There are never more codes, nor more changes, than words of list.
 * Refusals: 32, 9. (32 where list has more than 4,096 whole words; 9 where list_length is no multiple of 8, or
 * mended_length, words_length or reasons_length is below list_length, or out_length below GRID_MEND_CELLS_BYTES.) */
uint64_t grid_mend_cells(const uint8_t *list, size_t list_length, uint8_t *mended, size_t mended_length, uint8_t *words,
                         size_t words_length, uint8_t *reasons, size_t reasons_length, uint8_t *out, size_t out_length);

/* The small word of a code, for units that store 32 bits: the same triangle, of degree 11 or less. grid_large gives the
 * code back.
 *
 * Writes: 4 bytes: the small word.
 * Refusals: 1, 30, 2, 3, 4, 9. (9 where out_length is below GRID_SMALL_BYTES.) */
uint64_t grid_small(uint64_t code, uint8_t *out, size_t out_length);

/* The code of a small word. grid_small gives the small word back.
 *
 * Writes: 8 bytes: the code.
 * Refusals: 30, 2, 3, 31, 9. (9 where out_length is below GRID_LARGE_BYTES.) */
uint64_t grid_large(uint32_t word, uint8_t *out, size_t out_length);

/* Checks a 32-bit word as the small word of a triangle: 0 where it is one.
 *
 * Writes: nothing.
 * Refusals: 30, 2, 3, 31. */
uint64_t grid_check_small(uint32_t word);

/* Crosses an edge, 1 to 3, of the triangle with this small word, as grid_cross does.
 *
 * Writes: 12 bytes: the small word of the triangle across the edge, which grid_small_number(out) reads, and the number
 * that the edge has there, which grid_number(out + 4) reads.
 * Refusals: 30, 2, 3, 31, 5, 9. (9 where out_length is below GRID_CROSS_SMALL_BYTES.) */
uint64_t grid_cross_small(uint32_t word, uint64_t edge, uint8_t *out, size_t out_length);

/* Files the direction (x, y, z) at a degree, as grid_file does.
 *
 * Writes: 4 bytes: the small word of the code that grid_file writes.
 * Refusals: 1, 30, 8, 7, 9. (9 where out_length is below GRID_FILE_SMALL_BYTES.) */
uint64_t grid_file_small(uint64_t degree, int32_t x, int32_t y, int32_t z, uint8_t *out, size_t out_length);

/* The triangle opposite on the globe: of the same degree, with the three opposite points for its corners. Its corner 1
 * is opposite to corner 1, its 2 to 3 and its 3 to 2. The opposite of the opposite is the triangle again.
 *
 * Writes: 8 bytes: the code of the opposite triangle.
 * Refusals: 1, 2, 3, 4, 9. (9 where out_length is below GRID_OPPOSITE_BYTES.) */
uint64_t grid_opposite(uint64_t code, uint8_t *out, size_t out_length);

/* The corner opposite on the globe, by its name. The triangle in the name need not be the opposite of the one in the
 * name handed in, since a corner is named by the least triangle that has it.
 *
 * Writes: 8 bytes: the name of the opposite corner.
 * Refusals: 1, 2, 3, 4, 10, 9. (9 where out_length is below GRID_OPPOSITE_NAME_BYTES.) */
uint64_t grid_opposite_name(uint64_t name, uint8_t *out, size_t out_length);

#ifdef __cplusplus
}
#endif

#endif
