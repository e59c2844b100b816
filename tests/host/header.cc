// The header in C++: each call once, so that a test can see by which names the program asks the library for them.
#include <dogrzewin.h>

uint64_t call_all(uint8_t *out, size_t out_length) {
    uint64_t refusal = grid_check_triangle(1) | grid_check_name(1) | grid_cross(1, 1, out, out_length) |
                       grid_file(1, 1, 1, 1, out, out_length) | grid_list(1, 1, 1, 1, out, out_length) |
                       grid_sweep(1, out, 0, out, 0, out, out_length) | grid_check_cells(out, 0, out, out_length) |
                       grid_mend_cells(out, 0, out, 0, out, 0, out, 0, out, out_length) |
                       grid_small(1, out, out_length) | grid_large(1, out, out_length) | grid_check_small(1) |
                       grid_cross_small(1, 1, out, out_length) | grid_file_small(1, 1, 1, 1, out, out_length) |
                       grid_opposite(1, out, out_length) | grid_opposite_name(1, out, out_length);
    return refusal == GRID_ANSWERED ? grid_number(out) + grid_small_number(out) : refusal;
}
