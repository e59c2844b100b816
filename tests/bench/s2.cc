// S2 beside the grid: the cell of a direction, and a cell's neighbours.
#include <s2/s2cell_id.h>
#include <s2/s2point.h>

#include <new>

#include "directions.h"
#include "driver.h"

namespace {

// The cell of this level that holds a direction. S2 does not ask that its length is 1.
uint64_t cell_of(uint64_t level, const S2Point *point) {
    return S2CellId(*point).parent(static_cast<int>(level)).id();
}

// The four cells across the edges of a cell, all by one call.
uint64_t neighbours_of(uint64_t cell) {
    S2CellId found[4];
    S2CellId(cell).GetEdgeNeighbors(found);
    for (int k = 0; k < 4; k++) {
        lent[k] = found[k].id();
    }
    return 4;
}

int give_point(input *in, const char *kind, uint64_t level) {
    direction made;
    if (!make_direction(kind, &made)) {
        return 0;
    }
    static_assert(sizeof(S2Point) <= sizeof in->at, "an S2Point is three doubles");
    const S2Point *point = new (in->at) S2Point(made.at[0], made.at[1], made.at[2]);
    in->argument[0] = level;
    in->argument[1] = reinterpret_cast<uint64_t>(point);
    return 1;
}

int give_cell(input *in, const char *kind, uint64_t level) {
    if (!give_point(in, kind, level)) {
        return 0;
    }
    in->argument[0] = cell_of(level, reinterpret_cast<const S2Point *>(in->argument[1]));
    return 1;
}

}  // namespace

extern "C" {
const call calls[] = {
    {"S2", reinterpret_cast<any_function *>(cell_of), WORD, give_point},
    {"S2-neighbours", reinterpret_cast<any_function *>(neighbours_of), CODES, give_cell},
};
const size_t calls_count = sizeof calls / sizeof calls[0];
}
