#!/usr/bin/env python3
"""A second program for the grid of document 01, "The grid, its words and its rules", written from that paper and the
requests of document 02 alone, and for request 2026-13 from source document 000, whose notation it is about.

It answers by literal search, in whole numbers: corners by the division rule on twelve weights; neighbours, names,
rings and opposites by comparing corners over the triangles of the degree; holders by the three determinants. A corner
is compared with those of every triangle of its degree to degree 5, a direction is tried in every triangle to degree 3.
Below that the search comes down from all twenty sides, and leaves out only triangles that can not have the corner, or
do not hold the direction. There are no rules for steps, seams, names or opposites here.

It calls for "every triangle to degree 5": check, parent and opposite; child, as far as degree 5 is the answer; cross,
name, weights, exact, t, drawn and bits with each number; file and list for a direction in its middle, and for one on
each edge and each corner that has a whole direction at all. Likewise every call on a name for every corner to degree 5.
The calls below that, and those to be refused, are a choice.

For the table of soundings of requests 2026-03, 2026-07 and 2026-08 the console has a state: the one open table, which
is four lists, of readings and of owners, and of counts and of sums for the triangles one degree up. A code's place is
its place among all codes of the degree in rising order. It calls for every place of the tables of degree 0 to 4, and
for some at 5 and 6; for long histories of both desks; for every refusal, alone and with each other one; and for bad
lists, and counts and sums that are off. All answers are then compared with those of "a simple map from code to reading
or nothing", and maps from code to the desk that has taken it and to the count and sum of its children; and the totals
of the counts and sums with the readings that the calls since a fresh table tell.

For the plotter host in C of request 2026-01 it writes the lines of the host's test bench, and answers them with the
same searches: every triangle to degree 4 is checked, and crossed over each edge; cross, file and list are lent slices
of every length from 0 to 64 and none, where they are answered and for each refusal.

For the sweep of request 2026-04 each direction is filed by the search for one. The console's call is made with every
count of numbers and of places that it can have; at every degree; and with refused directions in every place. The test
bench's is lent slices of every length about the least that is needed. All answers are then compared with those of file.
For the program ./sweep it writes cases: arguments and input, and what the program must write and its exit status.

For the cell lists of request 2026-09 two words are compared as their side and digits, number by number, and each
triangle that a word lies inside is looked for among the earlier words. The console's call is made with words of every
kind alone; with two triangles of every two degrees; with good lists; and with such lists damaged in every way, at the
first, a middle and the last place. All answers are then compared with the three conditions for a list, which must hold
before the place that is answered and not with it. For the program ./cells it writes cases: a file, and the line that
the program must write for it.

For the mending of request 2026-10 each word of a list is judged by itself, all other words being looked at; and the
words that are kept are searched for four whole children again and again, until none are found. The console's call is
made with four children at every degree and in every order; with parts that are divided evenly or along one path, whole
and with one missing; with nested lists, repeats and words of every damage; and with lent lists of every length about
the least that is needed. The test bench's calls, of 2026-09 and 2026-10, are lent such slices too, also for the longest
lists. Each answer is then compared with the request's promises: the intervals of triangles of degree 24 that are
covered before and after, the checker's answer, the merges undone, and the counts; and the number of words with the
least that covers as much, over all accepted lists on one side to degree 2. For ./cells each case has the mended list
and the report too.

For the small words of request 2026-11 the 32 bits are spelled out, field after field; crossing and filing are those of
the code. The console's calls are made with every code to degree 4: written small, checked and read back; over each edge
to degree 3, and for a share of degree 4; with codes of degree 5 to 24; with words that have one bit turned over, a
value that a field must not have, or two such; and with a share of the directions that are filed. The test bench's are
lent slices of every length too. Each answer is then compared with what check, cross and file answer for the code, which
is moved from one form to the other by shifts.

For the opposites of request 2026-12 the triangle is searched that has the three opposite corners, the second and the
third exchanged, and the least that has a name's opposite corner. The console's calls are made with every triangle and
every corner to degree 5; with some of degree 6 to 24, with what lies across their edges, and with all that hold some
directions and the negated ones; with words that have one bit turned over, a value that a field must not have, or two
such; and with other words for a corner than its name. The test bench's are made with every triangle to degree 4 and
every corner to degree 3, and are lent slices of every length too. Each answer is then compared with the request's
sentences: with the opposite of the opposite; with the exact coordinates, and the digits; with what cross answers on
either side, and what file and list answer to both directions; and with what check and check-name answer.

For the paper's notation of request 2026-13 the domains of source document 000 and their vertices are built by its
formulae (16) to (19) and (23) to (27), with the weights of document 01; the code of a triangle is that of the domain
that has its three corners, in whatever order, and the other way round. The code of a corner is the one that (45) gives
it in all domains that have it, by (46) to (60); that of a vertex leads to the corner by (35) and (38) to (43). The
console's calls are made, there and back, with every triangle and every corner to degree 5, and with some of degree 6 to
24, poles and seams among them; with words that are damaged, and other words than names; with lent lists of every
length; with all triangle codes of at most four digits and vertex codes of at most three, any digits; and with codes
that have too many digits, or digits that the paper's text does not allow. Each answer is then compared with the
request's sentences, the vertices being built from centres by (36) and (37); and the formulae with each other and with
the paper's sentences, to degree 3.

    second.py CALLS ANSWERS           writes the calls, one a line, and the answers that the console must give to them
    second.py --answer                answers the call lines of standard input, all but help, from no open table on
    second.py --host CALLS ANSWERS    writes the calls of the test bench in C, and the answers that it must give to them
    second.py --host-answer           answers the test bench's call lines of standard input; any other line is an error
    second.py --sweep FOLDER          writes for each case of ./sweep NAME.args, its arguments, one a line, and NAME.in,
                                      its standard input; and NAME.out, NAME.err and NAME.status, what must be on its
                                      standard output and standard error, neither a terminal, and its exit status
    second.py --cells FOLDER          writes for each case of ./cells NAME.bin, the file; NAME.line, the one line that
                                      check must write for it, and NAME.more, the second line that -v adds, or nothing;
                                      NAME.mended and NAME.report, what mend must write for it to standard output and
                                      to standard error
"""
import bisect
import gc
import itertools
import math
import operator
import os
import random
import re
import struct
import sys
from collections import Counter, namedtuple
from functools import lru_cache, reduce
from types import SimpleNamespace

DEEPEST = 24
WHOLE = 5  # Corners are compared over all triangles of a degree up to this one,
FULL = 3  # directions over all triangles of a degree up to this one.


def must(true, *what):
    """An internal check."""
    if not true:
        raise AssertionError(what)


# ==== Document 01, "Vertices and sides"

# "| vertex | direction | vertex | direction |"
DIRECTION_TABLE = """
    00  0  1  φ   01  0 -1 -φ
    10  0 -1  φ   11  1 -φ  0
    20  φ  0  1   21  φ  0 -1
    30  1  φ  0   31  0  1 -φ
    40 -1  φ  0   41 -φ  0 -1
    50 -φ  0  1   51 -1 -φ  0
"""

# A number u + vφ is the pair (u, v).
NUMBERS = {"0": (0, 0), "1": (1, 0), "-1": (-1, 0), "φ": (0, 1), "-φ": (0, -1)}


def read_directions():
    cells = DIRECTION_TABLE.split()
    return {cells[i]: tuple(NUMBERS[x] for x in cells[i + 1 : i + 4]) for i in range(0, len(cells), 4)}


DIRECTIONS = read_directions()


def after(a):
    # "a runs over 1 to 5; a+ and a- are next and previous, cyclic."
    return a % 5 + 1


def side_vertices(a, p, q):
    # "A side is named apq. Its corners 1, 2, 3, anticlockwise seen from outside"
    return {
        (0, 0): ("00", f"{a}0", f"{after(a)}0"),
        (0, 1): (f"{a}1", f"{after(a)}0", f"{a}0"),
        (1, 0): ("01", f"{after(a)}1", f"{a}1"),
        (1, 1): (f"{after(a)}0", f"{a}1", f"{after(a)}1"),
    }[p, q]


SIDES = [(a, p, q) for a in (1, 2, 3, 4, 5) for p in (0, 1) for q in (0, 1)]


# ==== Document 01, "Division and weights"

# "twelve whole weights, one for each vertex, in the order"
ORDER = "00 01 10 20 30 40 50 11 21 31 41 51".split()


def vertex_weights(vertex):
    # "At degree 0 one weight is 1 and the rest 0."
    return tuple(1 if v == vertex else 0 for v in ORDER)


def side_triangle(side):
    return tuple(vertex_weights(v) for v in side_vertices(*side))


def kept(x):
    # "At each step a kept corner's weights are doubled"
    return tuple(map(operator.add, x, x))


def middle(x, y):
    # "and a middle's weights are the sum of its two ends'."
    return tuple(map(operator.add, x, y))


@lru_cache(maxsize=1 << 14)
def children(triangle):
    # "digit 0: M1, M2, M3; digit 1: A1, M3, M2; digit 2: M3, A2, M1; digit 3: M2, M1, A3"
    a1, a2, a3 = triangle
    m1, m2, m3 = middle(a2, a3), middle(a3, a1), middle(a1, a2)
    return (m1, m2, m3), (kept(a1), m3, m2), (m3, kept(a2), m1), (m2, m1, kept(a3))


@lru_cache(maxsize=1 << 17)
def exact(weights):
    # "The exact coordinate is the weighted sum of the vertex directions, kept on each axis as two signed whole numbers
    # u, v"
    at = [[0, 0], [0, 0], [0, 0]]
    for vertex, k in zip(ORDER, weights):
        if k:
            for sum_, (u, v) in zip(at, DIRECTIONS[vertex]):
                sum_[0] += k * u
                sum_[1] += k * v
    return tuple(map(tuple, at))


# ==== Document 01, "The 64-bit words"


def make_code(side, digits):
    # "a (3 bits), p (1), q (1), degree (5), twenty-four digits of 2 bits with the first digit first, four zero bits,
    # corner number (2). A triangle code has corner number 0."
    a, p, q = side
    code = a << 61 | p << 60 | q << 59 | len(digits) << 54
    for place, digit in enumerate(digits):
        code |= digit << (52 - 2 * place)
    return code


def side_of(word):
    return word >> 61, word >> 60 & 1, word >> 59 & 1


def degree_of(word):
    return word >> 54 & 31


def digits_of(word):
    return [word >> (52 - 2 * place) & 3 for place in range(min(degree_of(word), 24))]


def digits_beyond(word):
    """Those beyond the degree, as one number."""
    return word >> 6 & 4 ** (24 - min(degree_of(word), 24)) - 1


def zero_bits(word):
    return word >> 2 & 15


def corner_number(word):
    return word & 3


def child_code(code, digit):
    """One degree more, and the digit after the last."""
    return code + (1 << 54) | digit << (52 - 2 * degree_of(code))


def parent_code(code):
    """One degree less, and no last digit. A side stays as it is."""
    n = degree_of(code)
    return code - (1 << 54) & ~(3 << (54 - 2 * n)) if n > 0 else code


def read_triangle(text):
    # "Codes are written apq then digits."
    return make_code(tuple(map(int, text[:3])), list(map(int, text[3:])))


@lru_cache(maxsize=1 << 17)
def triangle_text(code):
    return "".join(map(str, side_of(code))) + "".join(map(str, digits_of(code)))


# ==== All triangles of a degree, and the corners they have


@lru_cache(maxsize=None)
def whole_degree(n):
    """All triangles of a degree, code: corners, in rising order."""
    if n == 0:
        found = {make_code(side, []): side_triangle(side) for side in SIDES}
    else:
        found = {}
        for code, triangle in whole_degree(n - 1).items():
            for digit, child in enumerate(children(triangle)):
                found[child_code(code, digit)] = child
    return dict(sorted(found.items()))


@lru_cache(maxsize=None)
def whole_index(n):
    """The search over all triangles of a degree, indexed: each corner, with every (code, number) that has it,
    rising."""
    index = {}
    for code, triangle in whole_degree(n).items():
        for number in (1, 2, 3):
            index.setdefault(triangle[number - 1], []).append((code, number))
    return index


@lru_cache(maxsize=1 << 14)
def deep_corners(code):
    triangle = side_triangle(side_of(code))
    for digit in digits_of(code):
        triangle = children(triangle)[digit]
    return triangle


def corners(code):
    return whole_degree(degree_of(code))[code] if degree_of(code) <= WHOLE else deep_corners(code)


def with_numbers(level, p):
    return sorted((code, number) for code, triangle in level for number in (1, 2, 3) if triangle[number - 1] == p)


def come_down(level, left, keep):
    """The triangles `left` degrees below those of the level, through triangles that `keep`, asked with the degrees then
    left."""
    level = [(code, triangle) for code, triangle in level if keep(triangle, left)]
    while left > 0:
        left -= 1
        below = [(child_code(code, d), x) for code, triangle in level for d, x in enumerate(children(triangle))]
        level = [(code, triangle) for code, triangle in below if keep(triangle, left)]
    return level


def can_have(points):
    """Whether a triangle can have all these corners in triangles so many degrees below. A corner below a triangle is
    reached by middles of middles, so each of its weights lies between the least and the greatest of the three corners',
    doubled as often as there are degrees between."""

    def can(triangle, left):
        for p in points:
            for x, y, z, w in zip(*triangle, p):
                if not min(x, y, z) << left <= w <= max(x, y, z) << left:
                    return False
        return True

    return can


def deep_search(n, p):
    """Every triangle of degree n that has the corner p, by coming down from all sides."""
    return with_numbers(come_down(whole_degree(0).items(), n, can_have([p])), p)


@lru_cache(maxsize=1 << 15)
def deep_having(n, p):
    return deep_search(n, p)


def having(n, p):
    """Every triangle of degree n that has the corner p, as (code, number), rising."""
    return whole_index(n).get(p, []) if n <= WHOLE else deep_having(n, p)


def canonical(n, p):
    # "the least triangle code of that degree that has the corner, with the number the corner has in it"
    code, number = having(n, p)[0]
    return code | number


# ==== Numbers u + vφ


def times(x, y):
    # "φ is the positive root of φ² = φ + 1."
    (a, b), (c, d) = x, y
    return a * c + b * d, a * d + b * c + b * d


def minus(x, y):
    return x[0] - y[0], x[1] - y[1]


def plus(x, y):
    return x[0] + y[0], x[1] + y[1]


def at_least_zero(u, v):
    # "with w = 2u + v, u + vφ is at least 0 exactly when w and v are both at least 0, or w ≥ 0 > v and w² ≥ 5v²,
    # or v ≥ 0 > w and 5v² ≥ w²"
    w = 2 * u + v
    return (w >= 0 and v >= 0) or (w >= 0 > v and w * w >= 5 * v * v) or (v >= 0 > w and 5 * v * v >= w * w)


def above_zero(x):
    return x != (0, 0) and at_least_zero(*x)


def crossed(y, z):
    """The three two-by-two determinants of y and z, so that the determinant of x, y, z is x times them, axis by
    axis."""
    return (
        minus(times(y[1], z[2]), times(y[2], z[1])),
        minus(times(y[2], z[0]), times(y[0], z[2])),
        minus(times(y[0], z[1]), times(y[1], z[0])),
    )


def determinant(x, y, z):
    n = crossed(y, z)
    return plus(plus(times(x[0], n[0]), times(x[1], n[1])), times(x[2], n[2]))


# ==== Document 01, "Steps and rings"


@lru_cache(maxsize=1 << 17)
def neighbour(code, edge):
    # "Edge k lies opposite corner k." "Crossing an edge answers the neighbour's code and the number of the shared edge
    # there." The neighbour is the other triangle that has both corners of the edge.
    one, two = (p for number, p in enumerate(corners(code), 1) if number != edge)
    have_two = {other for other, _ in having(degree_of(code), two)}
    others = [other for other, _ in having(degree_of(code), one) if other in have_two and other != code]
    must(len(others) == 1, "one other triangle", code, edge, others)
    (shared,) = [number for number, p in enumerate(corners(others[0]), 1) if p not in (one, two)]
    return others[0], shared


@lru_cache(maxsize=1 << 17)
def both_numbers(code, edge):
    """The edge's two corners in rising number, each as (number here, number in the neighbour)."""
    # Document 02, 2026-06: "for the shared edge's two corners in rising number, their numbers in the neighbour".
    # Document 01: "Two corners of one degree are the same point exactly when all twelve weights agree."
    other, _ = neighbour(code, edge)
    ours = [(here, p) for here, p in enumerate(corners(code), 1) if here != edge]
    pairs = [(here, there) for here, p in ours for there, q in enumerate(corners(other), 1) if p == q]
    must(len(pairs) == 2, "each corner of the edge once", code, edge, pairs)
    return pairs


def ends_round(p, triangle):
    """The two other corners of a triangle that has the corner p, first and last when going anticlockwise round p: the
    determinant of p, first, last is above zero."""
    x, y = (c for c in triangle if c != p)
    return (x, y) if above_zero(determinant(exact(p), exact(x), exact(y))) else (y, x)


@lru_cache(maxsize=1 << 12)
def round_corner(name):
    # "its triangles, 5 if the corner has only one non-zero weight, else 6, anticlockwise seen from outside, beginning
    # with the triangle inside the corner's own name"
    start = name - corner_number(name)
    p = corners(start)[corner_number(name) - 1]
    ends = {code: ends_round(p, corners(code)) for code, _ in having(degree_of(name), p)}
    beginning = {first: code for code, (first, _) in ends.items()}
    ring = [start]
    while beginning[ends[ring[-1]][1]] != start:
        ring.append(beginning[ends[ring[-1]][1]])
    must(sorted(ring) == sorted(ends), "the ring has all triangles of the corner", name)
    must(len(ring) == (5 if sum(w != 0 for w in p) == 1 else 6), "5 or 6", name)
    return ring


# ==== Document 01, "Filing a direction"


def determinants(triangle, d):
    # "put the direction in place of corner 1, 2 or 3 among the triangle's three exact corner coordinates in order"
    a, b, c = map(exact, triangle)
    return determinant(d, b, c), determinant(a, d, c), determinant(a, b, d)


def whole_direction(d):
    """The direction as an exact coordinate."""
    return tuple((x, 0) for x in d)


@lru_cache(maxsize=1 << 15)
def walls(triangle):
    """The determinants, with the direction left open: they are d times these, axis by axis. For each of the three: the
    three u, and the three v."""
    a, b, c = map(exact, triangle)
    return [tuple(zip(*n)) for n in (crossed(b, c), crossed(c, a), crossed(a, b))]


def within_walls(three, d):
    # "the three determinants, each a u + vφ, are all at least 0"
    x, y, z = d
    for (xu, yu, zu), (xv, yv, zv) in three:
        if not at_least_zero(x * xu + y * yu + z * zu, x * xv + y * yv + z * zv):
            return False
    return True


def holds(triangle, d):
    return within_walls(walls(triangle), d)


@lru_cache(maxsize=None)
def whole_walls(n):
    """All that differ, and each triangle with the places of its three among them. Edges on one line have one wall, and
    it is asked once."""
    places, triangles = {}, []
    for code, triangle in whole_degree(n).items():
        triangles.append((code, *(places.setdefault(wall, len(places)) for wall in walls(triangle))))
    return list(places), triangles


def full_holders(n, d):
    """Every triangle of the degree is asked."""
    different, triangles = whole_walls(n)
    x, y, z = d
    inside = [at_least_zero(x * a + y * b + z * c, x * p + y * q + z * r) for (a, b, c), (p, q, r) in different]
    return [code for code, i, j, k in triangles if inside[i] and inside[j] and inside[k]]


@lru_cache(maxsize=1 << 14)
def deep_holders(n, d):
    """A child's corners are sums of its parent's, so what is "a sum of the three corner directions with multipliers
    that are zero or more" for the child is one for the parent: what a child holds its parent holds, and only children
    of holders are asked."""
    if n == 0:
        found = list(whole_degree(0).items())
    else:
        above = deep_holders(n - 1, d)
        found = [(child_code(code, k), x) for code, triangle in above for k, x in enumerate(children(triangle))]
    return [(code, triangle) for code, triangle in found if holds(triangle, d)]


@lru_cache(maxsize=1 << 14)
def holders(n, d):
    # "The list of all holders is in rising order"
    found = full_holders(n, d) if n <= FULL else sorted(code for code, _ in deep_holders(n, d))
    # "there are 1, 2 or 6 holders and never 5; at degree 0 there are 1 or 2"
    must(len(found) in ((1, 2) if n == 0 else (1, 2, 6)), "the count of holders", n, d)
    return found


# ==== Document 01, "Coordinates for drawing"


def tick(u, v):
    # Document 02, 2026-02: "From now on t is the whole number nearest to 65,536·(u + vφ)." Twice that quantity is
    # 65536(2u + v) + 65536v·√5. It lies between 2t - 1 and 2t + 1, so the greatest whole number not above it is
    # 2t - 1 or 2t.
    w, s = 65536 * (2 * u + v), 65536 * v
    root = math.isqrt(5 * s * s)
    t = (w + (root if s >= 0 else -root - 1) + 1) // 2
    # "The same rule says what t is." Twice the distance is at most 1 on either side.
    twice, below, above = (131072 * u, 131072 * v), (2 * t - 1, 0), (2 * t + 1, 0)
    must(at_least_zero(*minus(twice, below)), "t is at most a half above", u, v)
    must(at_least_zero(*minus(above, twice)), "t is at most a half below", u, v)
    # Document 02, 2026-02: "A tie can't occur: the quantity is whole when v is 0, else irrational." Twice the
    # distance is never just 1.
    must(not at_least_zero(*minus(below, twice)), "t is less than a half above", u, v)
    must(not at_least_zero(*minus(twice, above)), "t is less than a half below", u, v)
    must(t == 65536 * u if v == 0 else root * root != 5 * s * s, "whole when v is 0, else irrational", u, v)
    must(abs(t) < 2**53, "|t| stays below 2^53", u, v)
    return t


@lru_cache(maxsize=1 << 15)
def ticks(weights):
    return [tick(u, v) for u, v in exact(weights)]


def f64_bits(t, n):
    # "The drawn coordinate is the f64 equal to t divided by 65,536·2^N." "A zero ... is the positive zero."
    if t == 0:
        return 0
    top = abs(t).bit_length() - 1
    sign, exponent, fraction = int(t < 0), 1023 + top - 16 - n, (abs(t) << (52 - top)) - 2**52
    bits = (sign << 63) | (exponent << 52) | fraction
    (value,) = struct.unpack(">d", struct.pack(">Q", bits))
    above, below = value.as_integer_ratio()
    must(above * 65536 * 2**n == t * below, "the f64 is exact", t, n)
    return bits


def decimal(t, n):
    """The exact decimal of t / (65536·2^N)."""
    places = 16 + n
    whole, rest = divmod(abs(t), 2**places)
    digits = str(rest * 5**places).rjust(places, "0").rstrip("0")
    return ("-" if t < 0 else "") + str(whole) + ("." + digits if digits else "")


# ==== Document 02, 2026-02: "opposite points of the globe"


def negated(at):
    return tuple((-u, -v) for u, v in at)


OPPOSITE = {x: y for x in ORDER for y in ORDER if DIRECTIONS[y] == negated(DIRECTIONS[x])}


def opposite(p):
    """The weights of the opposite corner: each vertex has the weight that its opposite has in p."""
    weights = dict(zip(ORDER, p))
    return tuple(weights[OPPOSITE[vertex]] for vertex in ORDER)


# ==== Document 01, "Refusal numbers"

REFUSAL_TABLE = """
| 1 | a degree, as field or argument, is above 24 |
| 2 | a is 0, 6 or 7 |
| 3 | a digit beyond the degree is not 0 |
| 4 | the four zero bits are not zero, or the corner number does not fit the kind of word |
| 5 | an edge or corner argument is not 1 to 3, or a child digit is not 0 to 3 |
| 6 | parent of degree 0, or child of degree 24 |
| 7 | the direction is (0, 0, 0) |
| 8 | a direction coordinate lies outside -1,000,000,000 to 1,000,000,000 |
| 9 | a lent list is too short: 12 for weights, 6 for triangles |
| 10 | a word passes 1 to 4 as a corner name and is not the canonical one |
| 11 | no corner of the degree has the twelve weights |
"""
# Document 02, 2026-03: "New refusals, after those of 01". The console has an asterisk for the dot of "20·4^degree".
REFUSAL_TABLE += """
| 20 | wrong degree |
| 21 | reading out of range |
| 22 | the list's length isn't 20*4^degree |
| 23 | the list holds a number that is neither a reading nor -1 |
"""
# 2026-07: "New refusals after 23".
REFUSAL_TABLE += """
| 24 | not a desk |
| 25 | owner list malformed (wrong length or another number) |
| 26 | owned by the other desk |
| 27 | not owned |
"""
# 2026-08; the words are those of docs/CONSOLE.md.
REFUSAL_TABLE += """
| 28 | a list of counts or sums has the wrong length |
| 29 | the stored count or sum of the parent concerned differs from its children's readings |
"""
# 2026-10. docs/CONSOLE.md: "A line has no room for a list that is refused by 32."
REFUSAL_TABLE += """
| 32 | a list above 4,096 words |
"""
# 2026-11; the words are those of docs/CONSOLE.md.
REFUSAL_TABLE += """
| 30 | a degree, as field or argument, is 12 to 24 |
| 31 | the last bit is set |
"""
# 2026-13; the words are those of docs/CONSOLE.md.
REFUSAL_TABLE += """
| 33 | a code the paper's text doesn't allow |
"""
REFUSALS = {int(n): text for n, text in re.findall(r"\| (\d+) \| (.*) \|", REFUSAL_TABLE)}

# "Where several hold, the order is", and then of document 02: "They are checked in number order", "The new refusals are
# checked in number order after 23", "refusal 28, checked after 27", "refusal 29, checked last", "refusal 32, checked
# first", "30 directly after 1 and 31 directly after 4", "33, checked after it", which is 1.
REFUSAL_ORDER = [32, 1, 33, 30, 2, 3, 4, 31, 10, 5, 6, 8, 7, 9, 11, 20, 21, 22, 23, 24, 25, 26, 27, 28, 29]


def first(refusals):
    return min(refusals, key=REFUSAL_ORDER.index) if refusals else 0


NONE = frozenset()


def when(no, true):
    return {no} if true else NONE


def degree_refusals(n):
    return when(1, n > DEEPEST)


def word_refusals(word, numbers):
    return (
        degree_refusals(degree_of(word))
        | when(2, side_of(word)[0] in (0, 6, 7))
        | when(3, digits_beyond(word) != 0)
        | when(4, zero_bits(word) != 0 or corner_number(word) not in numbers)
    )


@lru_cache(maxsize=1 << 15)
def code_refusals(code):
    # "A triangle code has corner number 0."
    return word_refusals(code, (0,))


def named_corner(name):
    return corners(name - corner_number(name))[corner_number(name) - 1]


@lru_cache(maxsize=1 << 10)
def name_refusals(name):
    # "A corner name has corner number 1 to 3, and is canonical"
    wrong = word_refusals(name, (1, 2, 3))
    return wrong or when(10, canonical(degree_of(name), named_corner(name)) != name)


def number_refusals(number):
    """An edge or corner argument."""
    return when(5, number not in (1, 2, 3))


def list_refusals(places, least):
    return when(9, len(places) < least)


def direction_refusals(n, d):
    return degree_refusals(n) | when(8, any(abs(x) > 1_000_000_000 for x in d)) | when(7, d == (0, 0, 0))


SIDE_SETS = [set(side_vertices(*side)) for side in SIDES]


def back_refusals(n, weights):
    # "only its first 12 or 6 places are used"
    r = degree_refusals(n) | list_refusals(weights, 12)
    if not r:
        p = tuple(weights[:12])
        r = when(11, not having(n, p))
        # "Refusal 11 is given exactly when the weights do not add to 2^N or the vertices with non-zero weights are not
        # all corners of one side."
        used = {vertex for vertex, w in zip(ORDER, p) if w != 0}
        must((not r) == (sum(p) == 2**n and any(used <= one for one in SIDE_SETS)), "row 11", n, p)
    return r


# ==== Document 02, 2026-03, "A table of soundings", 2026-07, "Second desk ..", and 2026-08, "Keep the coarse sums"

# "It holds one reading for each triangle of one degree from 0 to 6, in a lent list of signed numbers". "Each triangle
# gets an owner: 0 nobody, 1 ice, 2 pilotage, in a lent list of the same length." "for each triangle one degree up, the
# count and sum of its present readings .. in lent lists beside the table". `bad` are the places of bad numbers among
# the readings, `others` the numbers among the owners that are none, as the lists are laid: no call changes them, since
# it is refused where there are any, and writes none.
Table = namedtuple("Table", "degree places owners counts sums bad others")
TABLE_DEEPEST = 6
NOTHING = -1  # "-1 means no reading"
NOBODY, DESKS = 0, (1, 2)


@lru_cache(maxsize=None)
def codes_of(n):
    """All codes of a degree, in rising order: those of the sides, then four for each code of the degree before."""
    if n == 0:
        return sorted(make_code(side, []) for side in SIDES)
    return sorted(child_code(code, digit) for code in codes_of(n - 1) for digit in (0, 1, 2, 3))


@lru_cache(maxsize=None)
def place_of_each(n):
    return {code: place for place, code in enumerate(codes_of(n))}


def place_of(code):
    # "ordered by code"; a place is "counted from 0"
    return place_of_each(degree_of(code))[code]


def is_reading(number):
    # "A reading is 0 to 100,000 millimetres"
    return 0 <= number <= 100_000


def bad_places(places):
    """Those with "a number that is neither a reading nor -1". There is none where all lie from -1 to 100,000."""
    if places and min(places) >= NOTHING and max(places) <= 100_000:
        return []
    return [place for place, x in enumerate(places) if not (0 <= x <= 100_000 or x == NOTHING)]


def other_owners_in(owners):
    return set(owners) - {NOBODY, *DESKS}


def table_degree_refusals(n):
    # "a table degree of 7 to 24 is also 20, above 24 it is 1"
    return degree_refusals(n) | when(20, TABLE_DEEPEST < n <= DEEPEST)


def has_length(n, places):
    """20·4^degree. Above degree 24 no list is that long, and the power is not worked out."""
    return n <= DEEPEST and len(places) == 20 * 4**n


def length_refusals(n, places):
    # "22 the list's length isn't 20·4^degree"
    return when(22, not has_length(n, places))


def reading_list_refusals(table):
    n, places = table.degree, table.places
    return table_degree_refusals(n) | length_refusals(n, places) | when(23, table.bad)


def sounding_refusals(table, code):
    # "Set, clear and get take a code of just that degree."
    return reading_list_refusals(table) | code_refusals(code) | when(20, degree_of(code) != table.degree)


def owner_list_refusals(table):
    # "25 owner list malformed (wrong length or another number)"
    return when(25, not has_length(table.degree, table.owners) or table.others)


def parent_list_refusals(table):
    # "Lists of wrong length are refusal 28". "For tables of degree 0 the lists are empty."
    n = table.degree
    return when(28, not all(has_length(n - 1, x) if n > 0 else x == [] for x in (table.counts, table.sums)))


def child_codes(code):
    return [child_code(code, digit) for digit in (0, 1, 2, 3)]


@lru_cache(maxsize=None)
def child_places(parent):
    return [place_of(code) for code in child_codes(parent)]


def count_and_sum(table, parent):
    """What the readings of the parent's four children give."""
    present = [x for x in map(table.places.__getitem__, child_places(parent)) if x != NOTHING]
    return len(present), sum(present)


def stored(table, parent):
    return table.counts[place_of(parent)], table.sums[place_of(parent)]


def store(table, parent):
    place = place_of(parent)
    table.counts[place], table.sums[place] = count_and_sum(table, parent)


def is_off(table, code):
    # "the stored count or sum of the parent concerned differs from its children's readings". At degree 0 there is none.
    parent = parent_code(code)
    return table.degree > 0 and stored(table, parent) != count_and_sum(table, parent)


def desk_refusals(table, desk, code, to_take=False):
    # "get stays as it was, with no desk or owner list"; all other calls are refused by these.
    refusals = sounding_refusals(table, code) | when(24, desk not in DESKS) | owner_list_refusals(table)
    if refusals:
        return refusals
    # "On another's triangle every call but get is 26; on a free one all but get and take are 27."
    owner = table.owners[place_of(code)]
    refusals = when(26, owner not in (NOBODY, desk)) | when(27, owner == NOBODY and not to_take)
    refusals |= parent_list_refusals(table)
    return refusals or when(29, is_off(table, code))


def set_refusals(table, desk, code, mm):
    return desk_refusals(table, desk, code) | when(21, not is_reading(mm))


# ==== Document 02, 2026-04, "Many directions at once"


def threes(numbers):
    # "a lent list of directions (three signed numbers each)"
    return list(zip(numbers[0::3], numbers[1::3], numbers[2::3]))


def sweep_refusals(n, numbers, places):
    # "For the whole call, writing nothing: refusal 1 for a degree above 24, then 9 if the input length isn't a multiple
    # of 3 or the code list is shorter than the number of directions."
    return degree_refusals(n) | when(9, len(numbers) % 3 != 0 or len(places) < len(numbers) // 3)


@lru_cache(maxsize=1 << 14)
def filed(n, d):
    """The single call: its refusal number and 0, or 0 and the code."""
    no = first(direction_refusals(n, d))
    return (no, 0) if no else (0, min(holders(n, d)))


Swept = namedtuple("Swept", "codes count place no")


def swept(n, directions):
    """The codes, how many directions are refused, and the first one's place and refusal."""
    # "Each result equals the single call's. A refused direction writes 0 in its own place and the sweep goes on".
    results = [filed(n, d) for d in directions]
    refused_at = [(place, no) for place, (no, _) in enumerate(results) if no]
    # "the number of refused directions and the first one's place (from 0) and refusal, all zeros if there is none". "An
    # empty sweep is answered with no refused directions."
    return Swept([code for _, code in results], len(refused_at), *(refused_at[0] if refused_at else (0, 0)))


# ==== Document 02, 2026-09, "Check another yard's cell list"

# "1 invalid, 2 less than the word before, 3 equal to it, 4 inside an earlier one", in the words of docs/CONSOLE.md.
REASONS = {1: "invalid", 2: "less than the word before", 3: "equal to the word before", 4: "inside an earlier one"}
Offence = namedtuple("Offence", "place reason")
MOST_WORDS = 4096


def words_of(data):
    # "Other yards send files of eight-byte codes, most significant byte first."
    return [word for (word,) in struct.iter_unpack(">Q", data)]


def file_of(words):
    return b"".join(word.to_bytes(8, "big") for word in words)


@lru_cache(maxsize=1 << 14)
def path(code):
    # "Codes of different degree compare by side, then by digits, an ancestor before its descendants." So are two tuples
    # compared: by the first number that differs; and one that is the beginning of the other comes before it.
    return (*side_of(code), *digits_of(code))


@lru_cache(maxsize=1 << 10)
def paths_above(code):
    """Those of the triangles that the code's lies inside: its side, and the beginnings of its digits but not all."""
    return [path(code)[:length] for length in range(3, len(path(code)))]


def reasons_at(word, before, earlier):
    """All that hold of a word, by the word before, if there is one, and the paths of all earlier words. None of these
    offends."""
    # Whether a word is less than an invalid one is never asked: the invalid one is at an earlier offending place.
    must(before is None or not code_refusals(before), "only valid words are compared", word, before)
    if code_refusals(word):
        # Nor whether an invalid one is less than another word: 1 is the least reason.
        return {1}
    if before is None:
        return set()
    less, equal, inside = path(word) < path(before), word == before, not earlier.isdisjoint(paths_above(word))
    return when(2, less) | when(3, equal) | when(4, inside)


def first_offence(words):
    # "The first offending place, from 0, and its reason are answered: .., the least deciding." "The empty list is
    # accepted."
    before, earlier = None, set()
    for place, word in enumerate(words):
        reasons = reasons_at(word, before, earlier)
        if reasons:
            return Offence(place, min(reasons))
        before = word
        earlier.add(path(word))
    return None


# ==== Document 02, 2026-10, "Mend it and say what was done"

# "1 invalid, 3 equal to an earlier word, 4 inside another word"; "each merge, as its parent with reason 5".
DROPS = {1: "invalid", 3: "equal to an earlier word", 4: "inside another word"}
MERGE = 5
# The mended list, the places of the dropped words, and the change list, "words in one list and reasons in another".
Mended = namedtuple("Mended", "codes places words reasons")


def many_refusals(many):
    # "a list above 4,096 words is refusal 32, checked first"
    return when(32, many > MOST_WORDS)


def mend_refusals(words, lent):
    # "and a result or change list shorter than the input is refusal 9"
    return many_refusals(len(words)) | when(9, any(len(x) < len(words) for x in lent))


def drop_reasons(words):
    """For each word of the list all that hold of it."""
    # "drop invalid words, .. drop repeats and triangles inside others". docs/CELLS.md: "equal to an earlier word, kept
    # or dropped", "inside another word, earlier or later, kept or dropped". An invalid word is no triangle: it is
    # inside no other, and none is inside it.
    all_invalid = [bool(code_refusals(word)) for word in words]
    there = {path(word) for word, invalid in zip(words, all_invalid) if not invalid}
    found, earlier = [], set()
    for word, invalid in zip(words, all_invalid):
        inside = not invalid and not there.isdisjoint(paths_above(word))
        found.append(when(1, invalid) | when(3, word in earlier) | when(4, inside))
        earlier.add(word)
    return found


def merged(paths):
    """The paths when no four whole children are among them any more, and those of the parents that took their
    places."""
    # "replace four whole children by their parent as long as any four remain"
    there, parents = set(paths), []
    while True:
        # A path of three numbers is a side's, and has no parent. A parent has four children.
        above = Counter(one[:-1] for one in there if len(one) > 3)
        whole = [parent for parent, many in above.items() if many == 4]
        if not whole:
            return there, parents
        for parent in whole:
            there -= {(*parent, digit) for digit in (0, 1, 2, 3)}
            there.add(parent)
        parents.extend(whole)


@lru_cache(maxsize=1 << 14)
def code_at(one):
    return make_code(one[:3], one[3:])


def codes_at(paths):
    return list(map(code_at, paths))


def mend(words):
    every = drop_reasons(words)
    # "names first each dropped word in input order: .., the least deciding"
    dropped = [(place, word, min(some)) for place, (word, some) in enumerate(zip(words, every)) if some]
    left, parents = merged(path(word) for word, some in zip(words, every) if not some)
    # "Then each merge, as its parent with reason 5, deepest first and rising within one degree."
    parents = codes_at(sorted(parents, key=lambda parent: (-len(parent), parent)))
    return Mended(
        codes_at(sorted(left)),  # "put the rest in order"
        [place for place, _, _ in dropped],
        [word for _, word, _ in dropped] + parents,
        [reason for _, _, reason in dropped] + [MERGE] * len(parents),
    )


# ==== Document 02, 2026-11, "Harbour profile"

SMALL_DEEPEST = 11  # "Small units store only degree 11 or less"
Small = namedtuple("Small", "side degree digits last")


@lru_cache(maxsize=1 << 13)
def small_of(code):
    # "in 32-bit words: a, p, q as before, a degree of 4 bits, eleven digits, and one zero bit, most significant first"
    a, p, q = side_of(code)
    digits = "".join(f"{digit:02b}" for digit in digits_of(code))
    return int(f"{a:03b}{p:b}{q:b}{degree_of(code):04b}{digits:0<22}0", 2)


@lru_cache(maxsize=1 << 13)
def small_fields(small):
    bits = f"{small:032b}"
    a, p, q, degree, last = (int(x, 2) for x in (bits[:3], bits[3], bits[4], bits[5:9], bits[31]))
    return Small((a, p, q), degree, [int(bits[k : k + 2], 2) for k in range(9, 31, 2)], last)


def code_of(small):
    fields = small_fields(small)
    return make_code(fields.side, fields.digits[: fields.degree])


def small_degree_refusals(n):
    # "Degree 12 to 24, as field or argument, is refusal 30"
    return when(30, SMALL_DEEPEST < n <= DEEPEST)


def small_refusals(small):
    # "a set last bit is 31; the rest as in 01". A degree of 4 bits is at most 15, and so not above 24, for 1; the four
    # zero bits and the corner number of 4 are not there.
    side, degree, digits, last = small_fields(small)
    r = small_degree_refusals(degree) | when(2, side[0] in (0, 6, 7))
    return r | when(3, any(digits[degree:])) | when(31, last != 0)


def writer_refusals(code):
    return code_refusals(code) | small_degree_refusals(degree_of(code))


def small_direction_refusals(n, d):
    return direction_refusals(n, d) | small_degree_refusals(n)


# ==== Document 02, 2026-12, "The opposite triangle"


@lru_cache(maxsize=1 << 15)
def opposite_code(code):
    # "keeps corner and edge 1, and exchanges 2 and 3"
    one, two, three = map(opposite, corners(code))
    found = [other for other, _ in having(degree_of(code), one) if corners(other) == (one, three, two)]
    must(len(found) == 1, "one opposite triangle", code, found)
    return found[0]


def opposite_name(name):
    # "the opposite name is canonical and has the coordinates negated"
    return canonical(degree_of(name), opposite(named_corner(name)))


# ==== Document 02, 2026-13, "The paper's notation": source document 000, "The maximally regular net on the sphere"

# "The paper's text decides its form". A code is its digits, as text: Σ of the domain S(Σ), which is a triangle, or T of
# the vertex V(T), which is a corner. Numbers in brackets are those of the paper's formulae.
# Section 2: "1+ = 2, 2+ = 3, 3+ = 4, 4+ = 5, 5+ = 1".
PLUS = dict(zip("12345", "23451"))


def first_vertices(sigma):
    """V1(apq), V2(apq), V3(apq)."""
    a, pq = sigma[0], sigma[1:]
    return {
        "00": ("00", a + "0", PLUS[a] + "0"),  # (16)
        "01": (a + "1", PLUS[a] + "0", a + "0"),  # (17)
        "10": ("01", PLUS[a] + "1", a + "1"),  # (18)
        "11": (PLUS[a] + "0", a + "1", PLUS[a] + "1"),  # (19)
    }[pq]


def centres(vertices):
    """C1(Σ), C2(Σ), C3(Σ)."""
    # (23): "Ci(Σ) = C(Vj(Σ), Vk(Σ))", for (i, j, k) = (1, 2, 3), (2, 3, 1), (3, 1, 2). Document 01: "Source 000 takes
    # the middles on the sphere; we take them on the flat sides .. the shapes differ, while which triangles touch does
    # not."
    v1, v2, v3 = vertices
    return middle(v2, v3), middle(v3, v1), middle(v1, v2)


def subdomains(vertices):
    """V1(Σr), V2(Σr), V3(Σr), by the digit r."""
    v1, v2, v3 = map(kept, vertices)
    c1, c2, c3 = centres(vertices)
    return {
        "0": (c1, c2, c3),  # (24)
        "1": (v1, c3, c2),  # (25)
        "2": (c3, v2, c1),  # (26)
        "3": (c2, c1, v3),  # (27)
    }


@lru_cache(maxsize=None)
def domains(n):
    """All domains of a degree, Σ: vertices."""
    if n == 0:
        # "a is a digit from among {1, 2, 3, 4, 5}, while p and q are digits from among {0, 1}"
        sides = map("".join, itertools.product("12345", "01", "01"))
        return {sigma: tuple(map(vertex_weights, first_vertices(sigma))) for sigma in sides}
    return {sigma + r: x for sigma, above in domains(n - 1).items() for r, x in subdomains(above).items()}


@lru_cache(maxsize=None)
def domains_at(n):
    """Each vertex of a degree, with all domains that have it."""
    found = {}
    for sigma, vertices in domains(n).items():
        for p in vertices:
            found.setdefault(p, []).append(sigma)
    return found


def vertices_of(sigma):
    n = len(sigma) - 3
    if n <= WHOLE:
        return domains(n)[sigma]
    vertices = domains(WHOLE)[sigma[: 3 + WHOLE]]
    for r in sigma[3 + WHOLE :]:
        vertices = subdomains(vertices)[r]
    return vertices


def domain_search(n, points):
    """Every domain of degree n that has these vertices, by coming down from all of degree 0."""
    can = can_have(points)
    level = [(sigma, x) for sigma, x in domains(0).items() if can(x, n)]
    for left in reversed(range(n)):
        level = [(sigma + r, x) for sigma, above in level for r, x in subdomains(above).items() if can(x, left)]
    return level


def domains_with(n, points):
    """Every domain of degree n that has these vertices, as (Σ, its vertices)."""
    if n <= WHOLE:
        found = [(sigma, domains(n)[sigma]) for sigma in domains_at(n)[points[0]]]
    else:
        found = domain_search(n, points)
    return [(sigma, vertices) for sigma, vertices in found if set(points) <= set(vertices)]


@lru_cache(maxsize=1 << 12)
def domain_code(code):
    """Σ of the domain whose vertices are the triangle's corners."""
    found = domains_with(degree_of(code), corners(code))
    must(len(found) == 1, "one domain", code, found)
    return found[0][0]


def triangle_search(n, three):
    """Every triangle of degree n that has the three corners."""
    if n <= WHOLE:
        return [code for code, _ in having(n, three[0]) if set(corners(code)) == set(three)]
    found = come_down(whole_degree(0).items(), n, can_have(three))
    return [code for code, triangle in found if set(triangle) == set(three)]


@lru_cache(maxsize=1 << 12)
def domain_triangle(sigma):
    """The code of the triangle whose corners are the vertices of S(Σ)."""
    # (30): "N(Σ0) = 0, N(Σr) = N(Σ) + 1", and Σ0 is apq.
    found = triangle_search(len(sigma) - 3, vertices_of(sigma))
    must(len(found) == 1, "one triangle", sigma, found)
    return found[0]


# (28), by p and q.
ORIENTATIONS = {"00": 0, "01": 1, "10": 1, "11": 0}
# By o and r: e(o, r) of (31) and (32), z(o, r) of (48) and (49), s(o, r) of (53) and (54). f2(x) of (57), by x; t(x, o)
# of (59), by x and o.
E_OF = ((0, 1, 2, 3), (0, 1, 3, 2))
Z_OF = ((0, 1, 0, 1), (0, 1, 1, 0))
S_OF = ((3, 3, 0, 1), (2, 2, 1, 0))
F2_OF = (1, 3)
T_OF = ((2, 3), (3, 2))
Coded = namedtuple("Coded", "o x2 x3 tau")


@lru_cache(maxsize=1 << 15)
def coded(sigma):
    """O(Σ), X2(Σ) and X3(Σ), and τ1(Σ), τ2(Σ), τ3(Σ)."""
    if len(sigma) == 3:
        a, p, q = sigma
        one = {"00": "00", "01": a + "1", "10": "01", "11": PLUS[a] + "0"}[p + q]  # (50)
        x = 1 if q == "0" else 0  # (46)
        return Coded(ORIENTATIONS[p + q], x, x, (one, a + p, PLUS[a] + p))  # (28), (51)
    (o, x2, x3, tau), r = coded(sigma[:-1]), int(sigma[-1])
    one, two, three = tau
    left, right = E_OF[o][2], E_OF[o][3]
    # The centre of the right edge. (58): "v(Σ) = f2(X3(Σ))". (60): "τ_v(Σ)(Σ)t(X3(Σ), O(Σ))".
    beyond = f"{tau[F2_OF[x3] - 1]}{T_OF[x3][o]}"
    ones = {1: one + "0", left: f"{two}{S_OF[o][1]}", 0: two + "1", right: beyond}  # (55), (56), (60)
    threes = {left: two + "1", right: three + "0", 0: beyond, 1: beyond}  # (56), (60)
    # (29); (47), where the first z has O(Σ)*; (52).
    x2, x3 = Z_OF[1 - o][r] * x2, Z_OF[o][r] * x3
    return Coded(o if r else 1 - o, x2, x3, (ones[r], f"{two}{S_OF[o][r]}", threes[r]))


@lru_cache(maxsize=1 << 14)
def vertex_code(n, p):
    """T of the vertex of degree n that has the weights, the same by every domain that has it."""
    found = set()
    for sigma, vertices in domains_with(n, [p]):
        # (45): "Vi(Σ) = V(τ_e(Σ))", where e is e(O(Σ), i).
        o, _, _, tau = coded(sigma)
        found.add(tau[E_OF[o][vertices.index(p) + 1] - 1])
    must(len(found) == 1, "one code", n, p, found)
    return found.pop()


# (38) and (39), by o and p: σ(o, ap) without its a. (40) to (43), by o and s: of σ(o, Ts) = σ(o', T)r both o' and r.
SIGMAS = {(0, "0"): "00", (1, "0"): "01", (0, "1"): "11", (1, "1"): "10"}
SIGMA_STEPS = {
    **{(0, "0"): (0, "2"), (1, "0"): (1, "3")},  # (40)
    **{(0, "1"): (0, "3"), (1, "1"): (1, "2")},  # (41)
    **{(0, "2"): (1, "0"), (1, "2"): (1, "1")},  # (42)
    **{(0, "3"): (0, "1"), (1, "3"): (0, "0")},  # (43)
}


def based(o, t):
    """σ(o, T): the domain with orientation o whose base vertex is V(T), which is not a polar one."""
    if len(t) == 2:
        return t[0] + SIGMAS[o, t[1]]
    o, r = SIGMA_STEPS[o, t[-1]]
    return based(o, t[:-1]) + r


def is_polar(t):
    # "if the vertex is a polar one, T0 is the sequence 0p"
    return t[0] == "0"


def polar_domain(a, t):
    # After (44): "if V(T) is the polar vertex of the domain S(Σ), then V(T0) is the polar vertex of the domain S(Σ1)".
    # By (16), (18) and (25) it is the first one, for any a.
    return a + t[1] + "0" + "1" * (len(t) - 2)


@lru_cache(maxsize=1 << 14)
def vertex_point(t):
    """The weights of V(T)."""
    if is_polar(t):
        return vertices_of(polar_domain("1", t))[0]
    # (34), (35): "V2(Σ(0)) = V3(Σ(1)) = V(T)", where Σ(o) is σ(o, T).
    p, q = vertices_of(based(0, t))[1], vertices_of(based(1, t))[2]
    must(p == q, "the base vertex of both", t)
    return p


def vertex_corner(t):
    """The corner's name."""
    # (33): "Nv(T0) = 0, Nv(Ts) = Nv(T) + 1", and T0 is ap or 0p.
    return canonical(len(t) - 2, vertex_point(t))


LONGEST_DOMAIN, LONGEST_VERTEX = 3 + DEEPEST, 2 + DEEPEST


def domain_refusals(sigma):
    # "A paper code above degree 24 is refusal 1; one the paper's text doesn't allow is 33". Section 4: "Σ0 is the
    # sequence apq as defined above, while Σe is a (possibly empty) sequence of digits from among {0, 1, 2, 3}".
    a, p, q, rest = sigma[:1], sigma[1:2], sigma[2:3], sigma[3:]
    allowed = a in set("12345") and p in set("01") and q in set("01") and set(rest) <= set("0123")
    return when(1, len(rest) > DEEPEST) | when(33, not allowed)


def vertex_refusals(t):
    # Section 5: "if the vertex is not a polar one, T0 is the sequence ap as defined above, while Te is a (possibly
    # empty) sequence of digits from among {0, 1, 2, 3}; if the vertex is a polar one, T0 is the sequence 0p, while Te
    # is a (possibly empty) sequence of digits 0".
    a, p, rest = t[:1], t[1:2], t[2:]
    allowed = a in set("012345") and p in set("01") and set(rest) <= set("0" if is_polar(t) else "0123")
    return when(1, len(rest) > DEEPEST) | when(33, not allowed)


# ==== The console's answers


def word_text(word):
    return f"0x{word:016X}"


def code_text(code):
    return f"{triangle_text(code)} {word_text(code)}"


def name_text(name):
    number = corner_number(name)
    return f"{word_text(name)} corner {number} of {triangle_text(name - number)}"


def refused(no):
    return f"refused {no}: {REFUSALS[no]}"


def either(refusals, say):
    """The refusal, or else the answer."""
    no = first(refusals)
    return refused(no) if no else say()


def axes(values):
    return " ".join(f"{axis} {value}" for axis, value in zip("xyz", values))


def lent_list(places, usual):
    # "whose places hold 1, 2, 3, .. before the call"
    return list(range(1, (usual if places is None else places) + 1))


def with_places(text, places, lent, form):
    return text if places is None else text + " |" + "".join(" " + form(x) for x in lent)


def call_check(code):
    return either(code_refusals(code), lambda: "ok")


def call_check_name(name):
    return either(name_refusals(name), lambda: "ok")


def call_parent(code):
    r = code_refusals(code) | when(6, degree_of(code) == 0)
    return either(r, lambda: code_text(parent_code(code)))


def call_child(code, digit):
    r = code_refusals(code) | when(5, digit not in (0, 1, 2, 3)) | when(6, degree_of(code) == DEEPEST)
    return either(r, lambda: code_text(child_code(code, digit)))


def cross_text(code, edge, form):
    # Document 02, 2026-06: "The crossing call shall also answer" the two numbers, in the order of our corners.
    other, shared = neighbour(code, edge)
    numbers = " ".join(str(there) for _, there in both_numbers(code, edge))
    return f"{form(other)} edge {shared} corners {numbers}"


def call_cross(code, edge):
    # Document 02, 2026-06: "The refusals are as before".
    return either(code_refusals(code) | number_refusals(edge), lambda: cross_text(code, edge, code_text))


def call_name(code, number):
    r = code_refusals(code) | number_refusals(number)
    return either(r, lambda: name_text(canonical(degree_of(code), corners(code)[number - 1])))


def call_back(n, weights):
    return either(back_refusals(n, weights), lambda: name_text(canonical(n, tuple(weights[:12]))))


def answer_weights(refusals, corner_of, word, places):
    lent = lent_list(places, 12)
    no = first(refusals | list_refusals(lent, 12))
    if not no:
        lent[:12] = corner_of(word)
    return with_places(refused(no) if no else " ".join(map(str, lent[:12])), places, lent, str)


def call_weights(code, number, places=None):
    return answer_weights(code_refusals(code) | number_refusals(number), lambda w: corners(w)[number - 1], code, places)


def call_name_weights(name, places=None):
    return answer_weights(name_refusals(name), named_corner, name, places)


def of_corner(say):
    """A call on a code with a corner number, that says something of the degree and the corner's weights."""

    def call(code, number):
        r = code_refusals(code) | number_refusals(number)
        return either(r, lambda: say(degree_of(code), corners(code)[number - 1]))

    return call


def of_name(say):
    """The same on a corner name."""
    return lambda name: either(name_refusals(name), lambda: say(degree_of(name), named_corner(name)))


def say_exact(n, p):
    return axes(f"{u} {v}" for u, v in exact(p))


def say_t(n, p):
    return axes(ticks(p))


def say_drawn(n, p):
    return axes(decimal(t, n) for t in ticks(p))


def say_bits(n, p):
    return axes(word_text(f64_bits(t, n)) for t in ticks(p))


def answer_triangles(refusals, search, places):
    lent = lent_list(places, 6)
    no = first(refusals | list_refusals(lent, 6))
    if no:
        return with_places(refused(no), places, lent, word_text)
    found = search()
    lent[: len(found)] = found
    return with_places(f"{len(found)}: " + ", ".join(map(code_text, found)), places, lent, word_text)


def call_ring(name, places=None):
    return answer_triangles(name_refusals(name), lambda: round_corner(name), places)


def call_file(n, x, y, z):
    # "The answer is the least code that holds it"
    return either(direction_refusals(n, (x, y, z)), lambda: code_text(min(holders(n, (x, y, z)))))


def call_list(n, x, y, z, places=None):
    return answer_triangles(direction_refusals(n, (x, y, z)), lambda: holders(n, (x, y, z)), places)


def sweep_text(found):
    # "N ` refused`, and where N is not 0 `, first at place ` P ` with ` R"
    return f"{found.count} refused" + (f", first at place {found.place} with {found.no}" if found.count else "")


def call_sweep(n, places, numbers):
    lent = lent_list(places, 0)
    no = first(sweep_refusals(n, numbers, lent))
    if no:
        return with_places(refused(no), places, lent, word_text)
    found = swept(n, threes(numbers))
    # "Code places after the last direction stay unchanged."
    lent[: len(found.codes)] = found.codes
    return with_places(sweep_text(found), places, lent, word_text)


def cells_text(found):
    # "The program writes one line: "accepted", or "place P reason R" in decimal"
    return "accepted" if found is None else f"place {found.place} reason {found.reason}"


def call_check_cells(words):
    # "`accepted`, or `place ` P ` reason ` R `: ` and the reason in words". "Nothing is refused."
    found = first_offence(words)
    return cells_text(found) + ("" if found is None else f": {REASONS[found.reason]}")


def call_mend_cells(mended, changed, reasons, words):
    lent = [lent_list(length, 0) for length in (mended, changed, reasons)]
    no = first(mend_refusals(words, lent))
    text = refused(no) if no else ""
    if not no:
        done = mend(words)
        text = f"words {len(done.codes)}, changes {len(done.words)}"
        # "Both counts are answered; later places stay unchanged."
        for places, numbers in zip(lent, (done.codes, done.words, done.reasons)):
            places[: len(numbers)] = numbers
    # "those of the first two as with sweep, those of the reasons in decimal"
    for places, form in zip(lent, (word_text, word_text, str)):
        text = with_places(text, len(places), places, form)
    return text


def small_text(code):
    # "the code, a space, and the small word as 0x and 8 upper-case hexadecimal digits"
    return f"{triangle_text(code)} 0x{small_of(code):08X}"


def call_small(code):
    return either(writer_refusals(code), lambda: small_text(code))


def call_large(small):
    return either(small_refusals(small), lambda: code_text(code_of(small)))


def call_check_small(small):
    return either(small_refusals(small), lambda: "ok")


def call_cross_small(small, edge):
    # "Crossing and filing on the small form give the small form of the large answer."
    r = small_refusals(small) | number_refusals(edge)
    return either(r, lambda: cross_text(code_of(small), edge, small_text))


def call_file_small(n, x, y, z):
    return either(small_direction_refusals(n, (x, y, z)), lambda: small_text(min(holders(n, (x, y, z)))))


def call_opposite(code):
    return either(code_refusals(code), lambda: code_text(opposite_code(code)))


def call_opposite_name(name):
    return either(name_refusals(name), lambda: name_text(opposite_name(name)))


def answer_digits(refusals, digits_of_it, longest, places):
    """The digits of a paper's code, one a place at the front of the list; later places stay. The list must have room
    for the longest code of the kind."""
    lent = lent_list(places, longest)
    no = first(refusals | list_refusals(lent, longest))
    if no:
        return with_places(refused(no), places, lent, str)
    digits = digits_of_it()
    lent[: len(digits)] = map(int, digits)
    return with_places(digits, places, lent, str)


def call_paper(code, places=None):
    return answer_digits(code_refusals(code), lambda: domain_code(code), LONGEST_DOMAIN, places)


def call_paper_name(name, places=None):
    r = name_refusals(name)
    return answer_digits(r, lambda: vertex_code(degree_of(name), named_corner(name)), LONGEST_VERTEX, places)


def call_from_paper(sigma):
    return either(domain_refusals(sigma), lambda: code_text(domain_triangle(sigma)))


def call_from_paper_vertex(t):
    return either(vertex_refusals(t), lambda: name_text(vertex_corner(t)))


# ==== The console's table: docs/CONSOLE.md, "A table of soundings"

# "The console holds one table (document 02, 2026-03, 2026-07 and 2026-08), from the line that opens it to the next one
# that does, or the end of the input". "It has four lists: of readings and of owners, and of counts and of sums for the
# triangles one degree up." This is all that is carried from line to line.
CONSOLE = SimpleNamespace(table=None)
NO_TABLE = "error: no table is open; table DEGREE opens one"


def call_table(n, places=None):
    """A fresh table, or one with the list that is given."""

    def say():
        numbers = [NOTHING] * (20 * 4**n) if places is None else places
        # "Both lay a list of owners of the same length, in which all is nobody's, and lists of counts and of sums that
        # hold 0: 20*4^(DEGREE-1) places each for a degree of 1 to 6, and none for any other."
        parents = 20 * 4 ** (n - 1) if 1 <= n <= TABLE_DEEPEST else 0
        bad = [] if places is None else bad_places(places)
        CONSOLE.table = Table(n, numbers, [NOBODY] * len(numbers), [0] * parents, [0] * parents, bad, set())
        return f"degree {n}, {len(numbers)} places"

    # "The degree may be any number, and nothing is refused", if a list is given. Of a fresh table: "A degree of 7 to 24
    # is refused with 20, one above 24 with 1." "A line that lays a list .. and is refused .. leaves the open table as
    # it is, all four lists."
    return either(table_degree_refusals(n) if places is None else set(), say)


def on_table(call):
    """A call on the open table, if there is one."""
    return lambda *values: NO_TABLE if CONSOLE.table is None else call(CONSOLE.table, *values)


def refused_with_place(table, no):
    # "Refusal 23 alone answers, besides its number, the least bad place, counted from 0."
    return refused(no) + (f"; place {table.bad[0]}" if no == 23 else "")


def write_place(table, refusals, code, number=None, owner=None):
    # "None changes the list."
    no = first(refusals)
    if no:
        return refused_with_place(table, no)
    if number is not None:
        must(is_reading(number) or number == NOTHING, "no bad number", number)
        table.places[place_of(code)] = number
    if owner is not None:
        must(owner in (NOBODY, *DESKS), "no other owner", owner)
        table.owners[place_of(code)] = owner
    # "keep them true through set, clear, take and give back"
    if table.degree > 0:
        store(table, parent_code(code))
    return "ok"


def call_take(table, desk, code):
    # "Taking one's own changes nothing, taking a free one keeps its reading"
    return write_place(table, desk_refusals(table, desk, code, to_take=True), code, owner=desk)


def call_set(table, desk, code, mm):
    return write_place(table, set_refusals(table, desk, code, mm), code, mm)


def call_clear(table, desk, code):
    return write_place(table, desk_refusals(table, desk, code), code, NOTHING)


def call_give(table, desk, code):
    # "giving back clears it"
    return write_place(table, desk_refusals(table, desk, code), code, NOTHING, NOBODY)


def call_get(table, code):
    no = first(sounding_refusals(table, code))
    if no:
        return refused_with_place(table, no)
    number = table.places[place_of(code)]
    return "no reading" if number == NOTHING else f"{number} mm"


def place_text(code, number):
    # "A number that is neither a reading nor -1 is shown as `CODE holds VALUE`"
    return f"{triangle_text(code)} {number} mm" if is_reading(number) else f"{triangle_text(code)} holds {number}"


def list_text(counted, shown):
    # "and if there is anything to show `: ` and each .., separated by `, `"
    return counted + (": " + ", ".join(shown) if shown else "")


def readings_text(count, shown):
    # "It says `1 reading`, and `readings` after any other count."
    return list_text(f"{count} reading{'' if count == 1 else 's'}", shown)


def call_readings(table):
    n, places = table.degree, table.places

    def say():
        held = [(code, x) for code, x in zip(codes_of(n), places) if x != NOTHING]
        return readings_text(sum(is_reading(x) for _, x in held), [place_text(code, x) for code, x in held])

    # "it is refused, in this order: 1 for a degree above 24, 20 for one of 7 to 24, 22 for the length"
    return either(table_degree_refusals(n) | length_refusals(n, places), say)


def owner_text(code, owner):
    # "as its triangle and the desk, `CODE desk DESK`. A number other than 0, 1 and 2 is shown as `CODE holds OWNER`"
    return f"{triangle_text(code)} {'desk' if owner in DESKS else 'holds'} {owner}"


def owners_text(count, shown):
    return list_text(f"{count} owned", shown)


def lay(table, kind, numbers):
    # "The other lists stay, the degree may be any number, and nothing is refused"
    CONSOLE.table = table._replace(**{kind: numbers})
    return f"{len(numbers)} places"


def call_owners(table, owners=None):
    """The owners, or a list of them for the open table."""
    if owners is not None:
        return lay(table._replace(others=other_owners_in(owners)), "owners", owners)
    n = table.degree

    def say():
        shown = [owner_text(code, x) for code, x in zip(codes_of(n), table.owners) if x != NOBODY]
        return owners_text(sum(map(table.owners.count, DESKS)), shown)

    # "It is refused with 1 and 20 as `readings` is, and then with 25 where the list of owners has not 20*4^DEGREE
    # places."
    return either(table_degree_refusals(n) | when(25, not has_length(n, table.owners)), say)


def coarse_text(count, sum_):
    return f"count {count} sum {sum_}"


def parents_text(shown):
    # "It says `1 parent`, and `parents` after any other count."
    return list_text(f"{len(shown)} parent{'' if len(shown) == 1 else 's'}", shown)


def parents_of(n):
    """The codes one degree up; a table of degree 0 has none."""
    return codes_of(n - 1) if n > 0 else []


def call_coarse(table, code=None):
    """What is stored for one triangle one degree up, or for all of them."""
    n = table.degree
    refusals = table_degree_refusals(n) | parent_list_refusals(table)

    def say_all():
        numbers = zip(parents_of(n), table.counts, table.sums)
        return parents_text([f"{triangle_text(parent)} {coarse_text(x, y)}" for parent, x, y in numbers if x or y])

    if code is None:
        return either(refusals, say_all)
    # "1 to 4 as `check CODE` is; 20 for a table's degree of 7 to 24, and where CODE's degree is not one less than the
    # table's"
    refusals |= code_refusals(code) | when(20, degree_of(code) != n - 1)
    return either(refusals, lambda: coarse_text(*stored(table, code)))


def call_work_out(table):
    # "It is refused with 1, 20, 22, 23 (with its place) and 28, and does not look at the owners."
    no = first(reading_list_refusals(table) | parent_list_refusals(table))
    if no:
        return refused_with_place(table, no)
    for parent in parents_of(table.degree):
        store(table, parent)
    return "ok"


# ==== The console's lines

HEX = re.compile("0x([0-9A-Fa-f]{1,16})")
SMALL_HEX = re.compile("0x([0-9A-Fa-f]{1,8})")
TRIANGLE = re.compile("[0-7][01][01][0-3]{0,24}")
WHOLE_NUMBER = re.compile("[0-9]+")
SIGNED_NUMBER = re.compile("-?[0-9]+")
PART = re.compile("[^ \t\r]+")  # "words separated by spaces, tabs or carriage returns"
MOST_PLACES, MOST_NUMBERS, MOST_LENT, MOST_DIGITS = 16, 48, 64, 32


class Unreadable(Exception):
    pass


def within(number, least, most):
    if not least <= number <= most:
        raise Unreadable
    return number


@lru_cache(maxsize=1 << 12)
def read_hex(text):
    found = HEX.fullmatch(text)
    if not found:
        raise Unreadable
    return int(found[1], 16)


def read_small(text):
    # "0x and 1 to 8 hexadecimal digits, either case: any 32-bit number"
    if not SMALL_HEX.fullmatch(text):
        raise Unreadable
    return read_hex(text)


@lru_cache(maxsize=1 << 12)
def read_code(text):
    return read_triangle(text) if TRIANGLE.fullmatch(text) else read_hex(text)


@lru_cache(maxsize=1 << 12)
def read_number(text):
    return within(int(text), 0, 2**64 - 1) if WHOLE_NUMBER.fullmatch(text) else read_hex(text)


@lru_cache(maxsize=1 << 12)
def read_signed(text):
    if not SIGNED_NUMBER.fullmatch(text):
        raise Unreadable
    return within(int(text), -(2**31), 2**31 - 1)


def read_places(text):
    return within(read_number(text), 0, MOST_PLACES)


def read_lent_length(text):
    # "MENDED, WORDS and REASONS (0 to 64) are the lengths of the three lent lists"
    return within(read_number(text), 0, MOST_LENT)


def read_digit_places(text):
    # A list for the digits of a paper's code has 0 to 32 places.
    return within(read_number(text), 0, MOST_DIGITS)


def read_digits(text):
    # One or more characters 0 to 9, as many as the line has room for.
    if not WHOLE_NUMBER.fullmatch(text):
        raise Unreadable
    return text


def read_owner(text):
    # "an N of at most 255. So is FILL in an owners line"
    return within(read_number(text), 0, 255)


SIGNED = dict.fromkeys("XYZ", read_signed)
READERS = {"CODE": read_code, "NAME": read_hex, **SIGNED, "MM": read_signed}
READERS.update({"PLACES": read_places, "[PLACES]": read_places, "[CODE]": read_code, "SMALL": read_small})
LENT_LISTS = ("MENDED", "WORDS", "REASONS")
READERS.update(dict.fromkeys(LENT_LISTS, read_lent_length))
DIGIT_PLACES = "[PLACES] of digits"  # The forms write it as [PLACES] too.
READERS.update({DIGIT_PLACES: read_digit_places, "DIGITS": read_digits})
PAPER_CALLS = ["paper", "paper-name", "from-paper", "from-paper-vertex"]

ANSWERS = {
    "check CODE": call_check,
    "check-name NAME": call_check_name,
    "parent CODE": call_parent,
    "child CODE DIGIT": call_child,
    "cross CODE EDGE": call_cross,
    "name CODE CORNER": call_name,
    "back DEGREE WEIGHTS": call_back,
    "weights CODE CORNER [PLACES]": call_weights,
    "name-weights NAME [PLACES]": call_name_weights,
    "exact CODE CORNER": of_corner(say_exact),
    "name-exact NAME": of_name(say_exact),
    "t CODE CORNER": of_corner(say_t),
    "name-t NAME": of_name(say_t),
    "drawn CODE CORNER": of_corner(say_drawn),
    "name-drawn NAME": of_name(say_drawn),
    "bits CODE CORNER": of_corner(say_bits),
    "name-bits NAME": of_name(say_bits),
    "ring NAME [PLACES]": call_ring,
    "file DEGREE X Y Z": call_file,
    "list DEGREE X Y Z [PLACES]": call_list,
    "sweep DEGREE PLACES [NUMBER]..": call_sweep,
    "check-cells [CODE]..": call_check_cells,
    "mend-cells MENDED WORDS REASONS [CODE]..": call_mend_cells,
    "small CODE": call_small,
    "large SMALL": call_large,
    "check-small SMALL": call_check_small,
    "cross-small SMALL EDGE": call_cross_small,
    "file-small DEGREE X Y Z": call_file_small,
    "opposite CODE": call_opposite,
    "opposite-name NAME": call_opposite_name,
    "paper CODE [PLACES]": call_paper,
    "paper-name NAME [PLACES]": call_paper_name,
    "from-paper DIGITS": call_from_paper,
    "from-paper-vertex DIGITS": call_from_paper_vertex,
}
TABLE_ANSWERS = {
    "table DEGREE [LENGTH FILL [PLACE VALUE]..]": call_table,
    "take DESK CODE": on_table(call_take),
    "set DESK CODE MM": on_table(call_set),
    "clear DESK CODE": on_table(call_clear),
    "give DESK CODE": on_table(call_give),
    "get CODE": on_table(call_get),
    "readings": on_table(call_readings),
    "owners [LENGTH FILL [PLACE OWNER]..]": on_table(call_owners),
    "coarse [CODE]": on_table(call_coarse),
    "work-out": on_table(call_work_out),
    "counts LENGTH FILL [PLACE N]..": on_table(lambda table, numbers: lay(table, "counts", numbers)),
    "sums LENGTH FILL [PLACE N]..": on_table(lambda table, numbers: lay(table, "sums", numbers)),
}


def kinds_of(form):
    """What kinds of arguments a call takes."""
    call, *kinds = form.split()
    return [DIGIT_PLACES if kind == "[PLACES]" and call in PAPER_CALLS else kind for kind in kinds]


def forms_of(answers):
    return {form.split()[0]: (form, kinds_of(form), call) for form, call in answers.items()}


GRID_FORMS, TABLE_FORMS = forms_of(ANSWERS), forms_of(TABLE_ANSWERS)
FORMS = {**GRID_FORMS, **TABLE_FORMS}
LONGEST_TABLE, LONGEST_PARENTS = 81921, 20481


def read_list(given, read, longest=LONGEST_TABLE):
    """The list that is laid by LENGTH, FILL, and each PLACE with its number."""
    within(len(given), 2, len(given) - len(given) % 2)
    # "LENGTH places (0 to 81921, ..) that all hold FILL, but at each PLACE, which is below LENGTH, its VALUE; of two
    # for one PLACE the later holds"
    length = within(read_number(given[0]), 0, longest)
    places = [read(given[1])] * length
    for place, number in zip(given[2::2], given[3::2]):
        places[within(read_number(place), 0, length - 1)] = read(number)
    return places


def read_table(given):
    """The degree, and the list if one is given."""
    within(len(given), 1, len(given))
    return [read_number(given[0])] + ([read_list(given[1:], read_signed)] if len(given) > 1 else [])


def read_owners(given):
    """The list, if one is given."""
    return [read_list(given, read_owner)] if given else []


def read_parents(given):
    """A list of counts or of sums."""
    # "LENGTH places (0 to 20481, ..)". "(FILL in a counts or a sums line is an N)"
    return [read_list(given, read_number, LONGEST_PARENTS)]


def read_weights(given):
    # "(0 to 16 weights)"
    within(len(given), 1, 17)
    return [read_number(given[0]), [read_number(x) for x in given[1:]]]


def read_sweep(given):
    # "(0 to 48 numbers)"
    within(len(given), 2, 2 + MOST_NUMBERS)
    return [read_number(given[0]), read_places(given[1]), [read_signed(x) for x in given[2:]]]


LIST_READERS = {"WEIGHTS": read_weights, "[NUMBER]..": read_sweep}
LIST_READERS.update({"VALUE]..]": read_table, "OWNER]..]": read_owners, "N]..": read_parents})


def read_arguments(kinds, given):
    last = kinds[-1] if kinds else ""
    if last in LIST_READERS:
        return LIST_READERS[last](given)
    if last == "[CODE]..":  # "(as many as the line has room for)"
        many = len(kinds) - 1
        return read_arguments(kinds[:-1], given[:many]) + [[read_code(x) for x in given[many:]]]
    within(len(given), len(kinds) - (last in ("[PLACES]", DIGIT_PLACES, "[CODE]")), len(kinds))
    return [READERS.get(kind, read_number)(x) for kind, x in zip(kinds, given)]


def parts_of(line):
    return PART.findall(line)


def answer(line):
    """The answer to one line, a character for each byte, and what it does to the open table."""
    if len(line) > 1000:
        return "error: a line has at most 1000 bytes"
    parts = parts_of(line)
    if not parts or parts[0].startswith("#"):
        return ""
    if parts[0] not in FORMS:
        must(parts[0] != "help", "help is not answered here")
        return "error: no such call; help shows them"
    form, kinds, call = FORMS[parts[0]]
    try:
        values = read_arguments(kinds, parts[1:])
    except Unreadable:
        return "error: write it as " + form
    return call(*values)


def answers_to(lines):
    """The answers of one run, from no open table on."""
    CONSOLE.table = None
    return [answer(line) for line in lines]


# ==== Internal checks


def check_crossing(code, edge):
    other, shared = neighbour(code, edge)
    must(neighbour(other, shared) == (code, edge), "there and back", code, edge)
    # Document 02, 2026-06: "Tell me how the corners turned."
    pairs = both_numbers(code, edge)
    turned = sorted((there, here) for here, there in pairs)
    must(turned == both_numbers(other, shared), "the pairs turned round", code, edge)
    must({1, 2, 3} - {there for _, there in pairs} == {shared}, "the third number is the edge's", code, edge)
    for here, there in pairs:
        p = corners(code)[here - 1]
        must((other, there) in having(degree_of(code), p), "the same corner", code, edge, here, there)


def check_degree(n):
    # "There are 20·4^N triangles, 30·4^N edges and 10·4^N + 2 corners."
    triangles, index = whole_degree(n), whole_index(n)
    edges = {}
    for code, triangle in triangles.items():
        must(above_zero(determinant(*map(exact, triangle))), "anticlockwise seen from outside", code)
        for two in itertools.combinations(triangle, 2):
            edges.setdefault(frozenset(two), []).append(code)
    must(len(triangles) == 20 * 4**n, "20·4^N triangles", n)
    must(len(edges) == 30 * 4**n, "30·4^N edges", n)
    must(len(index) == 10 * 4**n + 2, "10·4^N + 2 corners", n)
    must(all(len(two) == 2 for two in edges.values()), "each edge has two triangles", n)
    must(all(sum(p) == 2**n for p in index), "So they add to 2^N", n)
    must(len({exact(p) for p in index}) == len(index), "equal exact coordinates mean equal weights", n)
    for code in triangles:
        for edge in (1, 2, 3):
            check_crossing(code, edge)


def check_child_codes():
    """The code of each child has the digit in addition, and the child's parent is the code."""
    chance = random.Random(140)
    for n, digit in itertools.product(range(DEEPEST), (0, 1, 2, 3)):
        for code in {random_code(chance, n) for _ in range(9)}:
            child = child_code(code, digit)
            must(child == make_code(side_of(code), digits_of(code) + [digit]), "the child", code, digit)
            must(parent_code(child) == code == make_code(side_of(child), digits_of(child)[:-1]), "its parent", child)
    must(all(parent_code(code) == code for code in whole_degree(0)), "sides")


def search_by_determinants(n, p):
    """Every triangle of degree n that has the corner p, by coming down through triangles that hold its exact
    coordinate."""

    def holds_it(triangle, left):
        return all(at_least_zero(*x) for x in determinants(triangle, exact(p)))

    return with_numbers(come_down(whole_degree(0).items(), n, holds_it), p)


def check_search():
    """Coming down against the search over all triangles, and against coming down by determinants."""
    for n in range(WHOLE + 1):
        for at, (p, found) in enumerate(whole_index(n).items()):
            if n <= 3 or at % 23 == 0:
                must(deep_search(n, p) == found, "coming down", n, p)
            if n <= 1 or at % 97 == 0:
                must(search_by_determinants(n, p) == found, "coming down by determinants", n, p)
    chance = random.Random(11)
    for n in range(WHOLE + 1, DEEPEST + 1):
        p = chance.choice(corners(random_code(chance, n)))
        must(deep_search(n, p) == search_by_determinants(n, p) != [], "the two ways of coming down", n, p)


def literal_holds(triangle, d):
    return all(at_least_zero(*x) for x in determinants(triangle, whole_direction(d)))


def check_holders():
    """Coming down against the search over all triangles: for directions of all kinds to degree 4, and for a share of
    them and of those in the middle of triangles and on edges at degrees 4 and 5, where all answers come from coming
    down. And the determinants written out."""
    chance = random.Random(15)
    for n in range(WHOLE + 1):
        some = all_directions() if n <= FULL + 1 else chance.sample(all_directions(), 30)
        if n > FULL:
            some = some + chance.sample(list(middle_directions(n).values()), 30) + list(edge_directions(n))[::9]
        for d in some:
            must(full_holders(n, d) == sorted(code for code, _ in deep_holders(n, d)), "coming down", n, d)
    for d in all_directions()[::8]:
        for code, triangle in whole_degree(2).items():
            must(literal_holds(triangle, d) == holds(triangle, d), "the determinants", code, d)


def check_signs():
    """F(k+1) - φF(k) is above zero exactly for even k, and comes as close to zero as whole numbers of its size can."""
    a, b = 0, 1
    for k in range(120):
        must(at_least_zero(b, -a) == (k % 2 == 0), "the sign rule", k)
        must(at_least_zero(-b, a) == (k % 2 == 1), "the sign rule", k)
        a, b = b, a + b
    must(at_least_zero(0, 0) and not above_zero((0, 0)), "the sign of zero")
    must(times((0, 1), (0, 1)) == (1, 1), "φ² = φ + 1")


def check_opposite(n, p):
    # Document 02, 2026-02: "t of the opposite corner is the negative, on all three axes".
    for t, other in zip(ticks(p), ticks(opposite(p))):
        must(other == -t, "the negative", n, p)
        # "A zero ... is the positive zero."
        bits, other_bits = f64_bits(t, n), f64_bits(other, n)
        must(bits ^ other_bits == 1 << 63 if t else bits == other_bits == 0, "the same bits but for the sign", n, p)


def check_opposites():
    """All corners to degree 5, the opposite one found by its exact coordinates, and some below."""
    for n in range(WHOLE + 1):
        found = {exact(p): p for p in whole_index(n)}
        for p in whole_index(n):
            must(found.get(negated(exact(p))) == opposite(p), "the opposite corner", n, p)
            check_opposite(n, p)
    chance = random.Random(12)
    for n in range(WHOLE + 1, DEEPEST + 1):
        for p in corners(random_code(chance, n)):
            must(exact(opposite(p)) == negated(exact(p)) and having(n, opposite(p)), "the opposite corner", n, p)
            check_opposite(n, p)


def check_closest():
    """The search for close calls against the search over every v, and on which side of the quantity t then lies."""
    for goal, sides in ((0, [True, True, False, False]), (HALF, [False, False, True, True])):
        for n in (6, 12, 13, 14):
            every = sorted(range(1, 2**n + 1), key=lambda v: beyond(v, goal))
            must(closest(n, goal) == every[:2] + every[-2:], "the closest", n, goal)
        for n in range(WHOLE + 1, DEEPEST + 1):
            must([at_least_zero(-tick(0, v), 65536 * v) for v in closest(n, goal)] == sides, "the side of it", n, goal)


def check_examples():
    # "Examples, proved together as one tabled statement (E1 to E12)"
    word = read_triangle
    must(word("100") == 0x2000000000000000 and answer("check 0x2000000000000000") == "ok", "E1")
    must(word("1001") == 0x2050000000000000 and answer("child 100 1") == "1001 0x2050000000000000", "E2")
    must(answer("file 2 0 0 1") == "10003 0x208C000000000000", "E3")
    must(answer("file 3 1 1 1") == code_text(word("200000")), "E4")
    must(answer("file 3 -1 -1 -1") == code_text(word("410000")), "E5")
    must(answer("file 2 1 0 0") == code_text(word("11102")), "E6")
    must(answer("file 2 0 0 -1") == code_text(word("21003")), "E7")
    # Document 02, 2026-06: "For E8 corners 1 and 3 become 1 and 2." By the division rule corners 2 and 3 of E9 are
    # 2·V(10) and V(10) + V(20), there 3 and 2; corners 1 and 3 of E10 are 2·V(11) and V(10) + V(11), there 3 and 1.
    must(answer("cross 1001 2") == code_text(word("2001")) + " edge 3 corners 1 2", "E8")
    must(answer("cross 1002 1") == code_text(word("1013")) + " edge 1 corners 3 2", "E9")
    must(answer("cross 1011 2") == code_text(word("5113")) + " edge 2 corners 3 1", "E10")
    must(canonical(0, vertex_weights("20")) == 0x2000000000000003, "E11")
    must(answer("name 100 3") == "0x2000000000000003 corner 3 of 100", "E11 again")
    # Document 02, 2026-02: "E12 becomes -106039, 0, -65536." Its opposite is V(20), which has kept its t.
    must(ticks(vertex_weights("41")) == [-106039, 0, -65536], "E12")
    must(corners(word("410"))[2] == vertex_weights("41") and answer("t 410 3") == "x -106039 y 0 z -65536", "E12 again")
    must(ticks(vertex_weights("20")) == [106039, 0, 65536], "the opposite of E12")
    must(answer("name-t 0x2000000000000003") == "x 106039 y 0 z 65536", "the opposite of E12 again")
    must(answer("list 0 0 0 1") == "2: 100 0x2000000000000000, 500 0xA000000000000000", "all holders of (0,0,1)")


def check_places():
    """A code's place rises with the code, and each place has its code."""
    for n in range(TABLE_DEEPEST + 1):
        places = [place_of(code) for code in codes_of(n)]
        must(places == list(range(20 * 4**n)), "each place once, and rising", n)
        must(all(x < y for x, y in zip(codes_of(n), codes_of(n)[1:])), "rising codes", n)
        must(not any(map(code_refusals, codes_of(n))), "codes", n)
        must(n > WHOLE or codes_of(n) == list(whole_degree(n)), "the triangles of the degree", n)
        must(len(set(map(mm_of, places))) == len(places), "a reading of its own for each place", n)


def check_table_lines():
    """The lines that can not be read are all answered by the call's form, and open no table."""
    lines = list(unreadable_table_lines())
    for line, text in zip(lines, answers_to(lines)):
        must(text == "error: write it as " + FORMS[line.split()[0]][0], "unreadable", line, text)
    must(CONSOLE.table is None, "no table")


def check_by_hand():
    for some in (ICE_DESK, BOTH_DESKS, COARSE):
        for (line, text), found in zip(some, answers_to(line for line, _ in some)):
            must(found == text, "by hand", line, text, found)
    must(answers_to(["table 0", "get 0x2050000000000001"])[1] == refused(4), "4 before 20")


def internal_checks():
    must(sorted(DIRECTIONS) == sorted(ORDER) and sorted(REFUSALS) == sorted(REFUSAL_ORDER), "the tables")
    must(sorted(OPPOSITE) == sorted(OPPOSITE.values()) == sorted(ORDER), "each vertex has its opposite")
    check_signs()
    check_child_codes()
    for n in range(WHOLE + 1):
        check_degree(n)
    check_search()
    check_holders()
    check_opposites()
    check_closest()
    check_examples()
    check_places()
    check_table_lines()
    check_by_hand()
    check_between()
    check_sweep_lines()
    check_cell_order()
    check_cell_lines()
    check_mend_lines()
    check_least()
    check_small_lines()
    check_opposite_lines()
    check_paper()
    check_paper_lines()


# ==== Internal checks of what file and list are answered to degree 5


def directions_answered(calls, answers):
    """The codes answered to file and to list, each by degree and direction."""
    found = {"file": {}, "list": {}}
    for line, text in zip(calls, answers):
        if line.startswith(("file ", "list ")) and not text.startswith(("refused", "error")):
            call, n, x, y, z = line.split()[:5]
            codes = [int(word, 16) for word in re.findall("0x[0-9A-F]{16}", text.split("|")[0])]
            found[call][read_number(n), (read_signed(x), read_signed(y), read_signed(z))] = codes
    return found["file"], found["list"]


def zeros(code, d):
    """The numbers of the determinants that are 0: the direction lies on the edges with these numbers."""
    three = determinants(corners(code), whole_direction(d))
    return {number for number, x in enumerate(three, 1) if x == (0, 0)}


def check_middles(n, filed, listed):
    """Each triangle is an answer of file and of list: to a direction strictly inside, that no other triangle holds."""
    for code, d in middle_directions(n).items():
        must(all(map(above_zero, determinants(corners(code), whole_direction(d)))), "strictly inside", code, d)
        must(filed[n, d] == listed[n, d] == [code], "the triangle is the answer", code, d)


def check_edges(n, filed, listed):
    """To a whole direction on an edge or a corner list answers the triangles that have it, and file the least. No
    direction of any other call lies on an edge that was held to have none."""
    for d, places in edge_directions(n).items():
        must(all(edge in zeros(code, d) for code, edge in places), "on the edge", n, d)
    for d, places in corner_directions(n).items():
        must(all(zeros(code, d) == {1, 2, 3} - {number} for code, number in places), "on the corner", n, d)
    for d, places in [*edge_directions(n).items(), *corner_directions(n).items()]:
        codes = sorted({code for code, _ in places})
        must(all(literal_holds(corners(code), d) for code in codes), "the triangles hold it", n, d)
        must(listed[n, d] == codes and filed[n, d] == codes[:1], "the triangles are the answer", n, d)
    known = set(itertools.chain.from_iterable(edge_directions(n).values()))
    for d in (d for m, d in listed if m == n and len(listed[m, d]) > 1):
        must({(code, edge) for code in listed[n, d] for edge in zeros(code, d)} <= known, "on other edges", n, d)


def check_answers(filed, listed):
    for n in range(WHOLE + 1):
        check_middles(n, filed, listed)
        check_edges(n, filed, listed)


# ==== The calls: examples, and every triangle to degree 5

MOST = 2**64 - 1


def example_calls():
    yield from ["check 0x2000000000000000", "check 100", "check 1001", "check 0x2050000000000000"]
    yield from ["child 100 1", "parent 1001"]
    yield from ["file 2 0 0 1", "file 3 1 1 1", "file 3 -1 -1 -1", "file 2 1 0 0", "file 2 0 0 -1"]
    yield from ["cross 1001 2", "cross 1002 1", "cross 1011 2", "name 100 3", "t 410 3", "name-t 0x2000000000000003"]
    yield from ["list 0 0 0 1", "list 0 0 0 1 6", "list 0 0 0 1 8"]


def some_form(code, at):
    """A code as document 01 writes it, or as a word in upper or lower case."""
    return [triangle_text(code), f"0x{code:016X}", triangle_text(code), f"0x{code:016x}"][at % 4]


def triangle_calls(n):
    for at, code in enumerate(whole_degree(n)):
        c = some_form(code, at)
        yield f"check {c}"
        for i in (1, 2, 3):
            yield from (f"{call} {c} {i}" for call in ("weights", "exact", "t", "name", "cross"))


def corner_calls(n):
    for at, p in enumerate(whole_index(n)):
        name = f"0x{canonical(n, p):016{'xX'[at % 2]}}"
        yield f"check-name {name}"
        yield f"ring {name}" + ["", " 6", "", " 7", "", ""][at % 6]
        yield f"back {n} {' '.join(map(str, p))}"
        yield f"name-weights {name}" + ["", "", " 12", "", "", " 14", ""][at % 7]
        yield f"name-exact {name}"
        yield f"name-t {name}"


def every_triangle():
    for n in range(WHOLE + 1):
        yield from triangle_calls(n)


def every_corner():
    for n in range(WHOLE + 1):
        yield from corner_calls(n)


def other_words():
    """Words that pass 1 to 4 as a corner name and are not the canonical one: all to degree 2, a share of the others."""
    for n in range(WHOLE + 1):
        at = 0
        for found in whole_index(n).values():
            for code, number in found[1:]:
                at += 1
                if n <= 2 or at % 9 == 0:
                    yield f"check-name {word_text(code | number)}"
                if at % 401 == 0:
                    calls = ["name-weights", "name-exact", "name-t", "name-drawn", "name-bits", "ring", "opposite-name"]
                    yield from (f"{call} {word_text(code | number)}" for call in calls + ["paper-name"])


def every_drawing():
    for n in range(WHOLE + 1):
        for at, code in enumerate(whole_degree(n)):
            for i in (1, 2, 3):
                yield f"drawn {some_form(code, at)} {i}"
                yield f"bits {some_form(code, at + 1)} {i}"
        for p in whole_index(n):
            yield f"name-drawn {word_text(canonical(n, p))}"
            yield f"name-bits {word_text(canonical(n, p))}"


def every_step():
    """Each triangle of degree 5 is asked for its parent, and is the answer to a child of degree 4."""
    for n in range(WHOLE + 1):
        for at, code in enumerate(whole_degree(n)):
            yield f"parent {some_form(code, at)}"
            for digit in range(4) if n < WHOLE else ():
                yield f"child {some_form(code, at)} {digit}"


# ==== The calls: directions

FAR = 1_000_000_000
LEAST_SIGNED, MOST_SIGNED = -(2**31), 2**31 - 1


def fits(d):
    return any(d) and all(abs(x) <= FAR for x in d)


def shortened(d):
    g = math.gcd(*d)
    return tuple(x // g for x in d) if g else d


def small_directions():
    return [d for d in itertools.product((-2, -1, 0, 1, 2), repeat=3) if any(d)]


def far_directions():
    ends = itertools.product((-FAR, 0, FAR), repeat=3)
    near = [(FAR, FAR - 1, -FAR), (-FAR, 1, FAR), (1, -FAR, -1), (FAR - 1, FAR, FAR)]
    near += [(0, 1, FAR), (1, 0, -FAR), (FAR, -1, -1)]
    return [d for d in ends if any(d)] + near


def random_directions(chance):
    return [tuple(chance.randint(-most, most) for _ in range(3)) for most in [10] * 20 + [10**5] * 20 + [FAR] * 50]


def plain_crossed(y, z):
    return y[1] * z[2] - y[2] * z[1], y[2] * z[0] - y[0] * z[2], y[0] * z[1] - y[1] * z[0]


def both_ways(d):
    return d, tuple(-x for x in d)


def on_corner(triangle, number):
    """The whole direction of the corner, if there is one: the u and the v of the three axes are in proportion."""
    u, v = zip(*exact(triangle[number - 1]))
    if plain_crossed(u, v) != (0, 0, 0):
        return []
    return [d for d in both_ways(shortened(u if any(u) else v)) if fits(d) and holds(triangle, d)]


def on_corners():
    return list(dict.fromkeys(itertools.chain.from_iterable(corner_directions(n) for n in range(WHOLE + 1))))


def on_edges(chance):
    """Whole directions on edges inside a side. A line of degree n through a side runs between a point of one edge and a
    point of another; a whole direction lies in its plane exactly when its products with the u and the v of the plane
    are both zero."""
    found = []
    for n in (n for n in range(1, 15) for _ in range(30)):
        side = side_triangle(chance.choice(SIDES))
        a, b, c = chance.sample(side, 3)
        j = chance.randrange(1, 2**n, 2)
        p, q = (tuple((2**n - j) * x + j * y for x, y in zip(a, end)) for end in (b, c))
        d = shortened(plain_crossed(*zip(*crossed(exact(p), exact(q)))))
        found += [e for e in both_ways(d) if fits(e) and holds(side, e)]
    return list(dict.fromkeys(found))


def beside_edges(chance, directions):
    """One step beside them, as far out as the bounds allow."""
    found = []
    for d in directions:
        scale = (FAR - 1) // max(map(abs, d))
        found.append(tuple(scale * x + e for x, e in zip(d, chance.sample((-1, 0, 1), 3))))
    return found


def fibonacci_pairs():
    a, b = 1, 1
    while b <= 2 * FAR:
        yield a, b
        a, b = b, a + b


def close_to(at):
    """Whole directions ever closer to an exact coordinate: u + vφ times F(k) is almost uF(k) + vF(k+1)."""
    return [d for d in (tuple(u * a + v * b for u, v in at) for a, b in fibonacci_pairs()) if fits(d)]


def close_directions(chance):
    """Close to vertices, to corners and to points of edges, as close as the bounds allow and less, and one step
    beside."""
    points = [vertex_weights(v) for v in ORDER]
    for n in (1, 2, 3, 4, 5, 6, 8, 10):
        for _ in range(2):
            x, y = chance.sample(corners(random_code(chance, n)), 2)
            g, h = chance.randint(1, 4), chance.randint(1, 4)
            points += [x, tuple(g * j + h * k for j, k in zip(x, y))]
    found = []
    for p in points:
        some = close_to(exact(p))
        if some:
            beside = tuple(x + chance.randint(-1, 1) for x in some[-1])
            found += some[-2:] + [chance.choice(some)] + ([beside] if fits(beside) else [])
    return found


def planes_of_zero():
    """Directions with one coordinate 0, close to φ : 1 and to 1 : φ, and their turns and signs."""
    found = []
    for a, b in [(610, 987), (832040, 1346269), (1346269, 832040), (433494437, 701408733), (701408733, 433494437)]:
        for d in [(a, 0, b), (-a, 0, -b), (0, -a, b), (b, a, 0), (a, 1, b), (-b, -1, a)]:
            found.append(d)
    return found


@lru_cache(maxsize=None)
def all_directions():
    chance = random.Random(2)
    kinds = [small_directions(), far_directions(), random_directions(chance), on_corners(), on_edges(chance)]
    kinds += [beside_edges(chance, kinds[-1]), planes_of_zero(), close_directions(chance)]
    return list(dict.fromkeys(itertools.chain.from_iterable(kinds)))


def direction_calls():
    """The list for degrees 0 to 4, and list and file for a share of all degrees; for some directions both for all
    degrees."""
    chance = random.Random(3)
    for at, (x, y, z) in enumerate(all_directions()):
        every = at % 14 == 0
        for n in range(DEEPEST + 1):
            if every or n <= FULL + 1 or chance.random() < 0.18:
                yield f"list {n} {x} {y} {z}" + chance.choice(["", "", " 6", " 9"])
            if every or chance.random() < 0.15:
                yield f"file {n} {x} {y} {z}"


# ==== The calls: directions in, on the edges and on the corners of every triangle to degree 5

FIBONACCI = list(fibonacci_pairs())


def closest_to(at):
    """The last, and so the closest, of the directions close to it."""
    return next(d for d in (tuple(u * a + v * b for u, v in at) for a, b in reversed(FIBONACCI)) if fits(d))


@lru_cache(maxsize=None)
def middle_directions(n):
    """For each triangle, by its code, a whole direction close to the sum of its three corners."""

    def in_middle(triangle):
        return closest_to(tuple(plus(plus(x, y), z) for x, y, z in zip(*map(exact, triangle))))

    return {code: in_middle(triangle) for code, triangle in whole_degree(n).items()}


def on_edge(triangle, edge):
    """A whole direction on the edge, its ends included, if there is one within the bounds. In the edge's plane the
    determinant with its number, a u + vφ, is 0. φ is irrational, so u and v are both 0: two equations for three whole
    numbers. They leave one ray and its opposite, unless both say the same. Then the plane's one equation is in whole
    numbers. It is true of the u and of the v of the edge's middle, and so of the directions close to the middle."""
    u, v = walls(triangle)[edge - 1]
    ray = shortened(plain_crossed(u, v))
    if any(ray):
        return [d for d in both_ways(ray) if fits(d) and holds(triangle, d)]
    p, q = (p for number, p in enumerate(triangle, 1) if number != edge)
    return [closest_to(exact(middle(p, q)))]


def places_on(n, some_on):
    """The directions that are found on a number of a triangle of degree n, each with all (code, number)."""
    found = {}
    for code, triangle in whole_degree(n).items():
        for number in (1, 2, 3):
            for d in some_on(triangle, number):
                found.setdefault(d, []).append((code, number))
    return found


@lru_cache(maxsize=None)
def edge_directions(n):
    return places_on(n, on_edge)


@lru_cache(maxsize=None)
def corner_directions(n):
    return places_on(n, on_corner)


def file_and_list(n, directions):
    for x, y, z in directions:
        yield f"file {n} {x} {y} {z}"
        yield f"list {n} {x} {y} {z}"


def every_middle():
    for n in range(WHOLE + 1):
        yield from file_and_list(n, middle_directions(n).values())


def every_edge():
    """On every edge and every corner that has a whole direction, and one step beside."""
    chance = random.Random(16)
    for n in range(WHOLE + 1):
        found = list(dict.fromkeys([*corner_directions(n), *edge_directions(n)]))
        yield from file_and_list(n, found + beside_edges(chance, found))


# ==== The calls: degrees 6 to 24


def random_code(chance, n):
    """Digits of every kind: any, along one edge, towards one corner, into the middle, and mixtures."""
    kinds = [(0, 1, 2, 3), (0, 1, 2, 3), (1, 2), (2, 3), (1, 3), (1,), (2,), (3,), (0,), (0, chance.randrange(1, 4))]
    some = chance.choice(kinds)
    turn = chance.choice([0, 0, 1, 2, n // 2, n - 1])
    digits = [chance.randrange(4) if at < turn else chance.choice(some) for at in range(n)]
    return make_code(chance.choice(SIDES), digits)


def deep_calls():
    chance = random.Random(4)
    for n in range(WHOLE + 1, DEEPEST + 1):
        for at in range(19):
            code = random_code(chance, n)
            c, i = some_form(code, at), chance.randrange(1, 4)
            yield from deep_triangle_calls(c, i, chance.randrange(4))
            yield from deep_corner_calls(n, corners(code)[i - 1], chance)
        for vertex in chance.sample(ORDER, 3):
            p = tuple(w << n for w in vertex_weights(vertex))
            yield f"ring {word_text(canonical(n, p))} {chance.choice([6, 7])}"


def deep_triangle_calls(c, i, digit):
    yield f"check {c}"
    for call in ("weights", "exact", "t", "drawn", "bits"):
        yield f"{call} {c} {i}"
    for k in (1, 2, 3):
        yield f"name {c} {k}"
        yield f"cross {c} {k}"
    yield f"parent {c}"
    yield f"child {c} {digit}"


def deep_corner_calls(n, p, chance):
    name = word_text(canonical(n, p))
    code, number = chance.choice(having(n, p))
    yield f"back {n} {' '.join(map(str, p))}"
    yield f"ring {name}"
    yield f"check-name {name}"
    yield f"check-name {word_text(code | number)}"
    yield f"{chance.choice(['name-weights', 'name-exact', 'name-t', 'name-drawn', 'name-bits'])} {name}"


# ==== The calls: refusals

# The calls of 2026-11, 2026-12 and 2026-13 on a code or a name have their own, below.
CODE_CALLS = {
    "check": [""],
    "parent": [""],
    "child": [" 1", " 4", f" {MOST}"],
    "cross": [" 2", " 0", " 4", f" {MOST}"],
    "name": [" 3", " 0", " 4", f" {MOST}"],
    "weights": [" 1", " 0", " 4", f" {MOST}", " 2 11", " 3 12", " 1 13", " 2 0", " 4 11", " 0 12"],
    "exact": [" 2", " 0", " 4", f" {MOST}"],
    "t": [" 3", " 0", " 4", f" {MOST}"],
    "drawn": [" 1", " 0", " 4", f" {MOST}"],
    "bits": [" 2", " 0", " 4", f" {MOST}"],
}
NAME_CALLS = {
    "check-name": [""],
    "name-weights": ["", " 11", " 12", " 13", " 0"],
    "name-exact": [""],
    "name-t": [""],
    "name-drawn": [""],
    "name-bits": [""],
    "ring": ["", " 5", " 6", " 7", " 0"],
}


def break_degree(word, chance):
    return word & ~(31 << 54) | chance.choice([25, 31, chance.randrange(25, 32)]) << 54


def break_a(word, chance):
    return word & ~(7 << 61) | chance.choice([0, 6, 7]) << 61


def break_digit(word, chance):
    """A digit beyond the degree, the next one or the last one among them."""
    beyond = range(degree_of(word), 24)
    if not beyond:
        return word
    place = chance.choice([beyond[0], beyond[-1], chance.choice(beyond)])
    return word | chance.randrange(1, 4) << (52 - 2 * place)


def break_zero_bits(word, chance):
    return word | 1 << chance.randrange(2, 6)


def break_code_number(word, chance):
    return word | chance.randrange(1, 4)


def break_name_number(word, chance):
    return word & ~3


def break_canonical(word, chance):
    """Another triangle that has the corner, in place of the least."""
    if first(name_refusals(word)):
        return word
    code, number = chance.choice(having(degree_of(word), named_corner(word))[1:])
    return code | number


FIELD_BREAKS = [break_degree, break_a, break_digit, break_zero_bits]
CODE_BREAKS = FIELD_BREAKS + [break_code_number]
NAME_BREAKS = [break_canonical, break_name_number] + FIELD_BREAKS  # canonical first: the others spoil the search for it


def broken(word, breaks, chance):
    for one in breaks:
        word = one(word, chance)
    return word


def alone_and_in_pairs(breaks):
    return itertools.chain.from_iterable(itertools.combinations(breaks, k) for k in (0, 1, 2))


def random_name(chance, n):
    return canonical(n, chance.choice(corners(random_code(chance, n))))


def broken_calls():
    """Every call, with every field broken alone and in pairs, with good and bad arguments and lists."""
    chance = random.Random(5)
    for n in (0, chance.randrange(1, 6), chance.randrange(6, 24), 24):
        for call, arguments in CODE_CALLS.items():
            for breaks in alone_and_in_pairs(CODE_BREAKS):
                word = broken(random_code(chance, n), breaks, chance)
                yield from (f"{call} {word_text(word)}{x}" for x in arguments)
        for call, arguments in NAME_CALLS.items():
            for breaks in alone_and_in_pairs(NAME_BREAKS):
                word = broken(random_name(chance, n), breaks, chance)
                yield from (f"{call} {word_text(word)}{x}" for x in arguments)


def random_words():
    """Every call with words of three kinds: any 64 bits, and good words with one field and with two fields broken."""
    chance = random.Random(6)
    for calls, make, breaks in ((CODE_CALLS, random_code, CODE_BREAKS), (NAME_CALLS, random_name, NAME_BREAKS)):
        for call, arguments in calls.items():
            for at in range(150):
                word = chance.getrandbits(64)
                if at % 3:
                    few = sorted(chance.sample(breaks, at % 3), key=breaks.index)
                    word = broken(make(chance, chance.randrange(25)), few, chance)
                yield f"{call} {word_text(word)}{chance.choice(arguments)}"


def fixed_words():
    """Words at the ends of the fields, as both kinds."""
    words = [0, 1, 2, 3, 4, 0x40, MOST, MOST - 3, 1 << 63, 1 << 61, 5 << 61, 6 << 61, 7 << 61, 0x27C0000000000000]
    words += [0x2600000000000000 | i for i in range(4)] + [0x2640000000000000 | i for i in range(4)]
    words += [0xB800000000000000 | i for i in range(4)] + [0x2000000000000000 | 1 << k for k in range(64)]
    for word in dict.fromkeys(words):
        for call in ("check", "check-name", "parent", "ring", "opposite", "opposite-name", "paper", "paper-name"):
            yield f"{call} {word_text(word)}"


def list_lengths():
    # "list lengths 5 and 6, 11 and 12", and others, for a corner with 5 and one with 6 triangles, and directions with
    # 1, 2, 6.
    names = [0x2000000000000001, 0x2000000000000002, 0x2040000000000001, 0x2600000000000001]
    names.append(canonical(3, corners(read_triangle("210123"))[0]))
    codes = ["100", "511", "3010123", "2113120312", "100111111111111111111111111", "000", "600", "0x2000000000000001"]
    for places in (0, 1, 5, 6, 7, 8, 11, 12, 13, 15, 16):
        for one in names:
            yield f"ring {word_text(one)} {places}"
            yield f"name-weights {word_text(one)} {places}"
        for code in codes:
            for i in (0, 1, 3, 4):
                yield f"weights {code} {i} {places}"
        for n in (0, 1, 7, 24, 25):
            for d in ("1 2 3", "0 0 1", "0 1 3", "0 0 0", "1000000001 0 0"):
                yield f"list {n} {d} {places}"


def direction_refusal_calls():
    most = [FAR, FAR + 1, -FAR, -FAR - 1, -(2**31), 2**31 - 1]
    directions = [(0, 0, 0), (1, -2, 3), (FAR, -FAR, FAR)]
    directions += [(FAR + 1, -FAR - 1, 2**31 - 1), (-(2**31),) * 3, (2**31 - 1, 0, -(2**31))]
    directions += [d for x in most for d in ((x, 0, 0), (5, x, 0), (-7, 1, x), (0, x, 0), (0, 0, x))]
    for n in (0, 2, 24, 25, 31, 2**32, 2**63, MOST):
        for x, y, z in directions:
            yield f"file {n} {x} {y} {z}"
            for places in ("", " 5"):
                yield f"list {n} {x} {y} {z}{places}"


def spread(parts):
    """Twelve weights from vertex: weight."""
    return [parts.get(v, 0) for v in ORDER]


def wrong_weights(n, chance):
    """Weights that do not add up, add up only modulo 2^64 or 2^32, or lie on no common side; and lists of other
    lengths."""
    one = 2**n
    a, b, c = side_vertices(*chance.choice(SIDES))
    good = spread({a: one})
    yield from (good[:k] for k in (0, 1, 11))
    yield from (good, good + [0], good + [MOST], good + [7, 8, 9, 10])
    yield spread({})
    yield spread({a: one + 1})
    yield spread({a: one - 1})
    yield spread({a: one, b: 1})
    yield spread({a: 2 * one})
    yield spread({a: 2**63, b: 2**63, c: one})
    yield spread({a: 2**63 + one, b: 2**63})
    yield spread({a: MOST, b: 1, c: one})
    yield spread({a: MOST, b: one + 1})
    yield spread({a: MOST})
    yield spread({a: 2**32 + one})
    yield spread({a: 2**31, b: 2**31, c: one})
    yield [MOST] * 12
    yield [MOST] * 16
    yield [one] * 12
    yield [MOST] * 11
    yield spread({"00": one - one // 2, "01": one // 2})
    yield spread({"00": one, "11": MOST, "31": 1})


def back_refusal_calls():
    chance = random.Random(7)
    for n in (0, 1, 2, 5, 6, 13, 23, 24, 25, 31, 32, 63, 64, 2**32 + 1, MOST):
        for weights in wrong_weights(min(n, 24), chance):
            yield f"back {n} {' '.join(map(str, weights))}".rstrip()


def back_calls():
    """Any weights on a side, then every pair and every three of vertices, of one side or not."""
    chance = random.Random(8)
    for n in range(DEEPEST + 1):
        for _ in range(5):
            x, y = sorted(chance.randint(0, 2**n) for _ in range(2))
            a, b, c = chance.sample(side_vertices(*chance.choice(SIDES)), 3)
            yield f"back {n} {' '.join(map(str, spread({a: x, b: y - x, c: 2**n - y})))}"
    for two in itertools.combinations(ORDER, 2):
        for n in (1, 24):
            yield f"back {n} {' '.join(map(str, spread(dict.fromkeys(two, 2 ** (n - 1)))))}"
    for a, b, c in itertools.combinations(ORDER, 3):
        yield f"back 2 {' '.join(map(str, spread({a: 1, b: 2, c: 1})))}"
    for four in itertools.combinations(ORDER[:8], 4):
        yield f"back 2 {' '.join(map(str, spread(dict.fromkeys(four, 1))))}"


def refusal_calls():
    yield from broken_calls()
    yield from random_words()
    yield from fixed_words()
    yield from list_lengths()
    yield from direction_refusal_calls()
    yield from back_refusal_calls()
    yield from back_calls()


# ==== The calls: lines that cannot be read, and lines that can, just


def good_arguments(kinds):
    good = {"CODE": "100", "NAME": "0x2000000000000001", "DEGREE": "0", "[PLACES]": "12"}
    good.update({"WEIGHTS": "1 0 0 0 0 0 0 0 0 0 0 0", "PLACES": "1", "[NUMBER]..": "1 2 3", "[CODE]..": "100"})
    good.update({"SMALL": "0x20A00000", DIGIT_PLACES: "27", "DIGITS": "1003"})
    return [good.get(kind, "1") for kind in kinds]


BAD_NUMBERS = """
    18446744073709551616 99999999999999999999999999 0x10000000000000000 0x00000000000000001 -1 +1 1.0 0x x1 1x 1, 0xG
    1_0 ٣
""".split()
BAD_CODES = """
    10 1 800 120 102 1004 10O 100- -100 1000000000000000000000000000 0x 0xg1 0x20000000000000000 0X2000000000000000 100,
    2000000000000000 E1
""".split()
BAD_NAMES = """
    100 10003 1 0x 0x1G 2000000000000001 0x20000000000000001 0x00000000000000000 -0x1 x2
""".split()
BAD_SIGNED = """
    2147483648 -2147483649 4294967296 18446744073709551615 -18446744073709551617 0x1 +1 --1 - 1- 1.5 1e3 −1 1,000
""".split()
BAD_PLACES = "17 18446744073709551615 18446744073709551616 -1 six 0x11 0x 12.0".split()
BAD = {"CODE": BAD_CODES, "NAME": BAD_NAMES, "X": BAD_SIGNED, "Y": BAD_SIGNED, "Z": BAD_SIGNED, "[PLACES]": BAD_PLACES}
BAD.update({"PLACES": BAD_PLACES, "[NUMBER]..": BAD_SIGNED, "[CODE]..": BAD_CODES})
BAD_LENT = BAD_NUMBERS + "65 100 256 257 320 4294967297 18446744073709551615 0x41 0x100 00065 six - #".split()
BAD.update(dict.fromkeys(LENT_LISTS, BAD_LENT))
BAD["SMALL"] = """
    100 1001 20A00000 0x 0x020A00000 0x000000000 0x2050000000000000 0X20A00000 0x20A0000G 0x20A0_0000 x1 -0x1 +0x1 0x-1
    0x20A00000, 0x20A00000. 547356672 1 0 -1 E2
""".split()
BAD[DIGIT_PLACES] = "33 64 256 283 4294967323 18446744073709551616 -1 +27 27.0 0x21 0x 0033 x1B".split()
BAD["DIGITS"] = "x 0x1003 0x1 -1003 +1003 1003. 100.3 1,003 1003, 1_003 10O3 1003x x1003 - . S(1003) ١٠٠٣ 100³".split()
ONE_TOO_MANY = {"WEIGHTS": ["0"] * 5, "[NUMBER]..": ["0"] * 46}


def as_bytes(text):
    """A character for each byte."""
    return text.encode().decode("latin-1")


def written(text):
    """Lines written in a block: one after the other, with a semicolon between."""
    return [as_bytes(x.strip(" ")) for x in text.strip().replace("\n", ";").split(";")]


# What can not be read is said before any refusal.
UNREADABLE_AND_REFUSED = """
    child 600 x; child 000 18446744073709551616; weights 000 9 17; weights 100 4 x; ring 0x0 17
    ring 0xFFFFFFFFFFFFFFFF -1; file 25 0 0 2147483648; file 25 0 0; list 25 0 0 0 17; list 99 -2147483649 0 0
    name-weights 0x0 17; cross 700 0 1; back 25 x
    back 25 0 0 0 0 0 0 0 0 0 0 0 0 0 0 0 0 0; parent 100 1; check-name 100
"""


def unreadable_calls():
    """Every call with arguments missing, one too many, and each argument unreadable."""
    chance = random.Random(9)
    with_all = ["check", "check-name", "child", "file", "list", "ring", "sweep", "check-cells", "mend-cells"]
    with_all += SMALL_CALLS + OPPOSITE_CALLS + PAPER_CALLS
    for call, (_, kinds, _) in GRID_FORMS.items():
        good = good_arguments(kinds)
        least = len(kinds) - (kinds[-1] in ("[PLACES]", DIGIT_PLACES, "WEIGHTS", "[NUMBER]..", "[CODE].."))
        yield from (" ".join([call] + good[:k]) for k in range(least))
        yield " ".join([call] + good + ONE_TOO_MANY.get(kinds[-1], ["1"]))
        yield " ".join([call] + good + ["x"])
        yield " ".join([call] + good + ["# note"])
        for at, kind in enumerate(kinds):
            bad = BAD.get(kind, BAD_NUMBERS)
            for word in bad if call in with_all else chance.sample(bad, 4):
                yield as_bytes(" ".join([call] + good[:at] + [word] + good[at + 1 :]))
    for at, word in enumerate(BAD_NUMBERS):
        yield as_bytes("back 1 " + " ".join(["0"] * at + [word] + ["0"] * (13 - at)))
    yield from written(UNREADABLE_AND_REFUSED)


UNKNOWN = """
    foo; Check 100; CHECK 100; checks 100; chec 100; check100; check:100; 100; 0x2000000000000000; -; --help; Help; HELP
    helpme; ?; exit; quit; check_name 0x2000000000000001; name_weights 1; names 100 1; names; crossing 1001 2; T 100 1
    t1 100 1; tt; rings; Ring 0x2000000000000001; filed 0 1 1 1; lists 0 1 1 1; weight 100 1; backs 0 1; bit 100 1
    sweeps 2 0; Sweep 2 0; SWEEP 2 0; sweep2 0; swee 2 0; sweep: 2 0; ./sweep 2; --packed 2; sweep\u00a02 0
    check-cell 100; check_cells 100; checkcells 100; Check-cells 100; CHECK-CELLS 100; check-Cells; cells; cells check
    cells 100; ./cells check; check-cells: 100; check-cells, 100; check-cells100; check-cellss; check-; -cells 100
    check-cells\u00a0100; check-list 100; check-cells-100; check-cells#
    mend-cell 1 1 1 100; mend_cells 1 1 1; mendcells 1 1 1; Mend-cells 1 1 1; MEND-CELLS 1 1 1; mend-Cells; mend; mend-
    cells mend; ./cells mend; mend 1 1 1 100; mend-cells: 1 1 1; mend-cells1 1 1; mend-cellss 1 1 1; -mend-cells 1 1 1
    mend-cells\u00a01 1 1; mend-cells#; mend-list 1 1 1 100; mend-cells-1 1 1
    Small 100; SMALL 100; smal 100; smalls 100; small100; small: 100; small-code 100; small\u00a0100; Large 0x20000000
    larg 0x20000000; largest 0x20000000; large: 0x20000000; check_small 0x20000000; checksmall 0x20000000; check-smal
    check-large 0x20000000; Check-small 0x20000000; check-small-name 0x20000001; small-check 0x20000000; cross-large 100
    cross_small 0x20000000 1; cross-smal 0x20000000 1; Cross-Small 0x20000000 1; small-cross 0x20000000 1; crosssmall 1
    file_small 2 0 0 1; filesmall 2 0 0 1; file-smal 2 0 0 1; File-small 2 0 0 1; small-file 2 0 0 1; file-large 2 0 0 1
    list-small 2 0 0 1; name-small 0x20000000 1; parent-small 0x20A00000; child-small 0x20000000 1; ring-small 0x2000001
    sweep-small 2 0; -small 100; small-; large-; file-; cross-; small#; large#; check-small#; 0x20A00000; harbour 100
    Opposite 100; OPPOSITE 100; opposit 100; opposites 100; oposite 100; opposite100; opposite: 100; opposite, 100
    opposite\u00a0100; opposite#; opposite-; -opposite 100; opposite-code 100; opposite-triangle 100; opposite- 100
    opposite-100; opposite-corner 100 1; opposite-small 0x20000000; small-opposite 0x20000000; parent-opposite 1001
    opposite_name 0x2000000000000001; oppositename 0x2000000000000001; opposite-names 0x2000000000000001
    opposite-nam 0x2000000000000001; Opposite-name 0x2000000000000001; opposite-Name 0x2000000000000001
    OPPOSITE-NAME 0x2000000000000001; name-opposite 0x2000000000000001; opposit-name 0x2000000000000001
    opposites-name 0x2000000000000001; opposite-name: 0x2000000000000001; opposite-name\u00a00x2000000000000001
    opposite--name 0x2000000000000001; opposite-name- 0x2000000000000001; opposite-name#; -opposite-name; opposite.name
    check-opposite 100; cross-opposite 1001 2; file-opposite 2 0 0 1; list-opposite 2 0 0 1; ring-opposite 0x2000000001
    opposite-opposite 100; antipode 100; antipodal 100; negate 100; negated 2 0 0 1; antenna 100
    Paper 100; PAPER 100; pape 100; papers 100; paper100; paper: 100; paper, 100; paper#; paper-; -paper 100; paper- 100
    paper-100; paper-code 100; paper-triangle 100; paper-vertex 0x2000000000000001; paper-corner 100 1; to-paper 100
    paper_name 0x2000000000000001; papername 0x2000000000000001; paper-names 0x2000000000000001; paper-nam 0x1
    paper\u00a0100; Paper-name 0x2000000000000001; paper-Name 0x1; PAPER-NAME 0x1; name-paper 0x2000000000000001
    paper-name: 0x1; paper-name#; paper--name 0x1; paper-name- 0x1; paper.name 0x1; paper-name\u00a00x1
    paper-small 0x20000000; domain 100; From-paper 100; from-Paper 100; FROM-PAPER 100; from 100; from- 100
    from-pape 100; from-papers 100; frompaper 100; from_paper 100; from-paper: 100; from-paper100; from-paper, 100
    from-paper#; -from-paper 100; from--paper 100; from-paper- 100; from-paper-name 20; from-paper-domain 100
    from-paper-triangle 100; from-paper-code 100; code 100; from-paper\u00a0100; from-paper-vertices 20
    from-paper-verte 20; from-paper-Vertex 20; From-paper-vertex 20; FROM-PAPER-VERTEX 20; from-paper_vertex 20
    from_paper_vertex 20; frompapervertex 20; from-papervertex 20; from-paper-vertex20; from-paper-vertex: 20
    from-paper-vertex#; from-paper-vertex- 20; from-vertex 20; vertex 20; from-paper-vertex\u00a020
    vertex-from-paper 20; paper-from 100; S(100); V(20)
    drawn-name 100 1; exact-name 100 1; name-; -name; name-name 1; check#; check, 100; chéck 100; check\u00a0100
    \u2003check 100; \ufeffcheck 100; φ
"""


def unknown_calls():
    """Only spaces, tabs and carriage returns stand between words; any other byte belongs to a word."""
    yield from written(UNKNOWN)
    yield from ["check\x0b100", "\x0bcheck 100", "check\x0c 100", "check\x00 100", "\x00", "\x1acheck 100"]
    yield from ["\x7f", "\xff\xfe", "\x80check 100", "check 100\x0b", "check \x0c100", "check 100\x00"]
    yield from ["file 0 1 1 1\x0c", "child 100 \x001", "sweep\x002 1", "sweep\x0b2 1"]
    yield from ["check-cells\x0b100", "check-cells\x00", "\x0ccheck-cells 100", "check-cells\xff"]
    yield from ["mend-cells\x0b1 1 1", "mend-cells\x00 1 1 1", "\x0cmend-cells 1 1 1", "mend-cells\xff"]
    yield from ["small\x0b100", "large\x000x20000000", "\x0ccheck-small 0x20000000", "cross-small\xff"]
    yield from ["opposite\x0b100", "opposite\x00", "\x0copposite 100", "opposite\x0c-name 0x2000000000000001"]
    yield from ["opposite-name\x0b0x2000000000000001", "\x00opposite-name 0x2000000000000001", "opposite-name\xff"]
    yield from ["paper\x0b100", "paper\x00", "\x0cpaper 100", "paper\x0c-name 0x1", "paper-name\x0b0x1"]
    yield from ["paper-name\xff", "from-paper\x0b100", "\x00from-paper 100", "from-paper\xff", "from\x00paper 100"]
    yield from ["from-paper\x0c-vertex 20", "from-paper-vertex\x0b20", "\x00from-paper-vertex 20"]
    yield "from-paper-vertex\xff"
    yield as_bytes("check 100\u00a0")


def empty_lines():
    yield from ["", " ", "\t", "\r", "  \t \r ", "\r\r", " " * 80, "", "", "\t\t\t"]
    yield from ["#", "# a note", "#check 100", "  # check 100", "\t#\t", "\r# x", "##", "#\x00", "# 100 1"]
    yield from ["#error", "   #", "# " + "x" * 500, " \t# 0x2000000000000000 \r", "#\xff", "\r \t#"]


READABLE = """
    child 100 0x1; child 100 0x0000000000000003; child 100 000000000000000000000000000000000003; child 100 0x4
    cross 1001 0x2; cross 1001 00002; cross 0x2050000000000000 2; name 100 03; weights 100 1 0x0c; weights 100 0x2 0x0C
    weights 100 1 0012; ring 0x2000000000000001 0x06; ring 0x2000000000000001 0x10; ring 0x2000000000000001 016
    ring 0x2000000000000001 0x5; ring 0x2000000000000001 0x0000000000000005
    file 0x2 0 0 1; file 0x18 0 0 1; file 0x19 0 0 1; file 024 0 0 1
    file 2 -0 -000 0001; file 2 -0 0 -0; file 2 00 -0001 0; list 2 000 0 -00001 0x7; file 2 -0000000002147483648 0 0
    file 18446744073709551615 1 1 1; file 0xFFFFFFFFFFFFFFFF 1 1 1; file 0xffffffffffffffff 0 0 0
    list 018446744073709551615 1 1 1 5; file 0000000000000000000000000025 1 1 1; check 0x0; check 0x1
    check 0xa000000000000000; check 0xA000000000000000; check 0xaBcDeF0123456789; check-name 0x3; check-name 0x0
    check-name 0xbE00000000000003; check 000; check 0003; check 6001; check 711; check 711333333333333333333333333
    check 511333333333333333333333333
    parent 600; parent 7013; child 000 4; back 0 0x1 0 0 0 0 0 0 0 0 0 0 0x0; back 0x0 01 00 0 0 0 0 0 0 0 0 0 0; back 0
    back 25; back 0x18; back 1 2 0 0 0 0 0 0 0 0 0 0 0 0xFFFFFFFFFFFFFFFF; weights 100 18446744073709551615
    weights 100 0xFFFFFFFFFFFFFFFF 3; name-drawn 0x2000000000000003
"""


def spaced_lines():
    """Lines that can be read: tabs, carriage returns, leading zeros, and either case."""
    yield from written(READABLE)
    yield from ["check 100\r", "\tcheck\t100\t", "  check   100  ", "check\r100", "\rcheck \t\r 100", "child\t100\t1\r"]
    yield from ["list 0\t0 0\r1 \t6", "exact 100 2 ", " t 100 3", "drawn 410 3\r", "bits 410 3\t"]


def filled(text, length, filling=" "):
    return text + filling * (length - len(text))


def long_lines():
    """Lines of at most and of more than 1000 bytes, each kind followed by a line that must be answered as ever."""
    starts = ["check 100", "check 100 ", "foo", "# ", "", "file 2 0 0 1", "list 0 0 0 1 8\t", "check", "back 0 1 0"]
    for length in (998, 999, 1000, 1001, 1002, 1003, 1023, 1024, 1025, 2000, 2001, 4096, 65536, 100_000):
        for start in starts if length in (1000, 1001) else starts[length % 4 :: 3]:
            yield filled(start, length)
        yield filled("# ", length, "x")
        yield filled("check 100", length, "0")
        yield filled("", length, "check 100 ")[:length]
        yield "child 100 " + "0" * (length - 11) + "2"
        yield " " * (length - len("cross 1001 2")) + "cross 1001 2"
        yield "\t" * (length - len("name 100 3")) + "name 100 3"
        yield "check 1001"


def last_without_table():
    yield "file 24 1 2 3"


# ==== The calls: t, the nearest whole number

ONE = 2**96  # What goes beyond a whole number is counted in 2^96ths. It serves to choose calls; no answer uses it.
HALF = ONE // 2
FEW = 2**12


@lru_cache(maxsize=1 << 15)
def part(v):
    """What goes beyond a whole number in 65,536·vφ, which is (65536v + 65536v·√5) / 2, for v at least 0."""
    s = 65536 * v * ONE
    return (s + math.isqrt(5 * s * s)) // 2 % ONE


def beyond(v, goal):
    """How far one goes up from the goal to the part of v, through the next whole number if need be."""
    return (part(v) - goal) % ONE


@lru_cache(maxsize=None)
def first_parts(few):
    return sorted((part(v), v) for v in range(1, few + 1))


@lru_cache(maxsize=None)
def closest(n, goal):
    """The two v from 1 to 2^n whose part lies closest above the goal, and the two closest below it. The first few v
    are sorted by their parts, so that among the few after any other start those round the goal are found at once."""
    firsts = first_parts(min(2**n, FEW))
    found = []
    for start in range(0, 2**n, len(firsts)):
        at = bisect.bisect(firsts, ((goal - part(start)) % ONE, 0))
        found += [start + firsts[k % len(firsts)][1] for k in range(at - 2, at + 2)]
    found.sort(key=lambda v: beyond(v, goal))
    return found[:2] + found[-2:]


def corner_with(chance, n, axis, v):
    """A corner of degree n with u + vφ on the axis: the vertices of a side that have φ there share the weight v, the
    others the rest. Often one of two has it all, so that the corner lies on an edge."""
    v_of = {vertex: at[axis][1] for vertex, at in DIRECTIONS.items()}
    threes = itertools.starmap(side_vertices, SIDES)
    three = chance.choice([three for three in threes if any(v_of[x] == 1 for x in three)])
    parts = dict.fromkeys(three, 0)
    for there, weight in ((1, v), (0, 2**n - v)):
        some = [x for x in three if v_of[x] == there]
        share = chance.choice([0, chance.randint(0, weight), weight])
        parts[some[0]] += share
        parts[some[-1]] += weight - share
    p = tuple(spread(parts))
    must(exact(p)[axis][1] == v, "the v of the axis", n, axis, v, p)
    return p


def pair_calls(chance, n, p):
    """t and the drawing of a corner and of the opposite one, by a triangle that has it or by its name."""
    for q in (p, opposite(p)):
        code, number = chance.choice(having(n, q))
        for call in ("t", chance.choice(["drawn", "drawn", "bits"])):
            by_code = f"{call} {some_form(code, chance.randrange(4))} {number}"
            yield chance.choice([by_code, f"name-{call} {word_text(canonical(n, q))}"])


def opposite_calls():
    chance = random.Random(13)
    for n in range(WHOLE + 1, DEEPEST + 1):
        for _ in range(4):
            yield from pair_calls(chance, n, chance.choice(corners(random_code(chance, n))))


def close_calls():
    """Corners with a coordinate whose 65,536·(u + vφ) lies as close as the degree allows to a half between two whole
    numbers, or to a whole number, on either side; the opposite corner's lies on the other. u adds a whole number."""
    chance = random.Random(14)
    for n in range(WHOLE + 1, DEEPEST + 1):
        for goal in (HALF, 0):
            for v in closest(n, goal):
                yield from pair_calls(chance, n, corner_with(chance, n, chance.randrange(3), v))


# ==== The calls: a table of soundings, lines

ICE_DESK_TEXT = """
    table 1 -> degree 1, 80 places
    readings -> 0 readings
    owners -> 0 owned
    get 1001 -> no reading
    clear 1 1001 -> refused 27: not owned
    set 1 1001 1250 -> refused 27: not owned
    take 1 1001 -> ok
    get 1001 -> no reading
    clear 1 1001 -> ok
    set 1 1001 1250 -> ok
    get 1001 -> 1250 mm
    readings -> 1 reading: 1001 1250 mm
    take 1 1002 -> ok
    set 1 1002 0 -> ok
    get 1002 -> 0 mm
    readings -> 2 readings: 1001 1250 mm, 1002 0 mm
    owners -> 2 owned: 1001 desk 1, 1002 desk 1
    set 1 1001 0 -> ok
    get 0x2050000000000000 -> 0 mm
    set 1 0x2050000000000000 100000 -> ok
    get 1001 -> 100000 mm
    set 1 1001 100001 -> refused 21: reading out of range
    set 1 1001 -1 -> refused 21: reading out of range
    get 1001 -> 100000 mm
    clear 1 1001 -> ok
    get 1001 -> no reading
    clear 1 1001 -> ok
    get 1001 -> no reading
    readings -> 1 reading: 1002 0 mm
    owners -> 2 owned: 1001 desk 1, 1002 desk 1
    get 100 -> refused 20: wrong degree
    set 1 10003 5 -> refused 20: wrong degree
    clear 1 10003 -> refused 20: wrong degree
    take 1 10003 -> refused 20: wrong degree
    give 1 10003 -> refused 20: wrong degree
    get 6001 -> refused 2: a is 0, 6 or 7
    get 600 -> refused 2: a is 0, 6 or 7
    set 1 10003 -1 -> refused 20: wrong degree
    set 1 600 -1 -> refused 2: a is 0, 6 or 7
    take 3 600 -> refused 2: a is 0, 6 or 7
    file 1 0 0 1 -> 1000 0x2040000000000000
    take 1 1000 -> ok
    set 1 1000 15 -> ok
    cross 1001 2 -> 2001 0x4050000000000000 edge 3 corners 1 2
    take 2 2001 -> ok
    set 2 2001 16 -> ok
    take 2 5113 -> ok
    set 2 5113 7 -> ok
    readings -> 4 readings: 1000 15 mm, 1002 0 mm, 2001 16 mm, 5113 7 mm
    owners -> 5 owned: 1000 desk 1, 1001 desk 1, 1002 desk 1, 2001 desk 2, 5113 desk 2
    table 7 -> refused 20: wrong degree
    table 24 -> refused 20: wrong degree
    table 25 -> refused 1: a degree, as field or argument, is above 24
    readings -> 4 readings: 1000 15 mm, 1002 0 mm, 2001 16 mm, 5113 7 mm
    owners -> 5 owned: 1000 desk 1, 1001 desk 1, 1002 desk 1, 2001 desk 2, 5113 desk 2
    table 2 -> degree 2, 320 places
    readings -> 0 readings
    owners -> 0 owned
    get 1000 -> refused 20: wrong degree
    take 2 10003 -> ok
    set 2 10003 2500 -> ok
    readings -> 1 reading: 10003 2500 mm
    owners -> 1 owned: 10003 desk 2
    table 2 320 -1 3 2500 319 0 -> degree 2, 320 places
    owners -> 0 owned
    get 10003 -> 2500 mm
    get 51133 -> 0 mm
    table 0 20 -1 0 5 3 -2 -> degree 0, 20 places
    readings -> 1 reading: 100 5 mm, 111 holds -2
    get 100 -> refused 23: the list holds a number that is neither a reading nor -1; place 3
    set 1 111 5 -> refused 23: the list holds a number that is neither a reading nor -1; place 3
    clear 1 111 -> refused 23: the list holds a number that is neither a reading nor -1; place 3
    take 3 100 -> refused 23: the list holds a number that is neither a reading nor -1; place 3
    give 0 100 -> refused 23: the list holds a number that is neither a reading nor -1; place 3
    set 1 111 100001 -> refused 21: reading out of range
    readings -> 1 reading: 100 5 mm, 111 holds -2
    table 0 20 -1 3 -2 -> degree 0, 20 places
    readings -> 0 readings: 111 holds -2
    table 0 20 100001 1 0 -> degree 0, 20 places
    clear 1 511 -> refused 23: the list holds a number that is neither a reading nor -1; place 0
    table 0 19 -2 -> degree 0, 19 places
    get 100 -> refused 22: the list's length isn't 20*4^degree
    take 3 100 -> refused 22: the list's length isn't 20*4^degree
    readings -> refused 22: the list's length isn't 20*4^degree
    owners -> refused 25: owner list malformed (wrong length or another number)
    set 1 100 100001 -> refused 21: reading out of range
    set 1 1001 100001 -> refused 20: wrong degree
    set 1 0x2050000000000041 -1 -> refused 3: a digit beyond the degree is not 0
    set 1 0xC050000000000041 -1 -> refused 2: a is 0, 6 or 7
    set 1 0xC650000000000041 -1 -> refused 1: a degree, as field or argument, is above 24
    owners 20 2 -> 20 places
    take 1 100 -> refused 22: the list's length isn't 20*4^degree
    table 7 3 -1 2 500 -> degree 7, 3 places
    get 1000000000 -> refused 20: wrong degree
    give 1 1000000000 -> refused 20: wrong degree
    readings -> refused 20: wrong degree
    owners -> refused 20: wrong degree
    owners 2 255 -> 2 places
    owners -> refused 20: wrong degree
    table 25 0 0 -> degree 25, 0 places
    get 100 -> refused 1: a degree, as field or argument, is above 24
    take 1 100 -> refused 1: a degree, as field or argument, is above 24
    readings -> refused 1: a degree, as field or argument, is above 24
    owners -> refused 1: a degree, as field or argument, is above 24
    table 0 -> degree 0, 20 places
    take 1 100 -> ok
    set 1 100 9 -> ok
    owners 20 0 0 2 19 1 -> 20 places
    readings -> 1 reading: 100 9 mm
    owners -> 2 owned: 100 desk 2, 511 desk 1
    set 1 100 8 -> refused 26: owned by the other desk
    set 2 100 8 -> ok
    get 100 -> 8 mm
    set 1 101 8 -> refused 27: not owned
    take 4294967297 101 -> refused 24: not a desk
    take 18446744073709551615 100 -> refused 24: not a desk
    give 0 101 -> refused 24: not a desk
    give 2 100 -> ok
    owners -> 1 owned: 511 desk 1
    readings -> 0 readings
    owners 20 255 1 1 1 2 -> 20 places
    take 255 100 -> refused 24: not a desk
    take 2 101 -> refused 25: owner list malformed (wrong length or another number)
    get 101 -> no reading
    owners 21 0 -> 21 places
    give 1 100 -> refused 25: owner list malformed (wrong length or another number)
    owners 0 0 -> 0 places
    clear 2 511 -> refused 25: owner list malformed (wrong length or another number)
    set 2 511 100001 -> refused 21: reading out of range
    set 3 511 100000 -> refused 24: not a desk
"""

# docs/CONSOLE.md: "A day at the ice desk, each call with its answer."
DAY_TEXT = """
    table 1 -> degree 1, 80 places
    get 1001 -> no reading
    take 1 1001 -> ok
    get 1001 -> no reading
    set 1 1001 1250 -> ok
    get 1001 -> 1250 mm
    set 1 1001 0 -> ok
    get 1001 -> 0 mm
    set 1 1001 100001 -> refused 21: reading out of range
    set 1 1001 -1 -> refused 21: reading out of range
    get 1001 -> 0 mm
    get 10003 -> refused 20: wrong degree
    take 1 5113 -> ok
    set 1 5113 100000 -> ok
    readings -> 2 readings: 1001 0 mm, 5113 100000 mm
    clear 1 1001 -> ok
    get 1001 -> no reading
    clear 1 1001 -> ok
    readings -> 1 reading: 5113 100000 mm
    table 1 80 -1 79 100000 3 -2 -> degree 1, 80 places
    get 5113 -> refused 23: the list holds a number that is neither a reading nor -1; place 3
    set 1 1003 0 -> refused 23: the list holds a number that is neither a reading nor -1; place 3
    readings -> 1 reading: 1003 holds -2, 5113 100000 mm
    table 1 79 -1 -> degree 1, 79 places
    get 1001 -> refused 22: the list's length isn't 20*4^degree
    table 1 -> degree 1, 80 places
    owners 80 0 1 1 4 2 -> 80 places
    owners -> 2 owned: 1001 desk 1, 1010 desk 2
"""

# docs/DESKS.md: "This is one morning, call by call".
MORNING_TEXT = """
    table 1 -> degree 1, 80 places
    owners -> 0 owned
    take 1 1001 -> ok
    take 1 1002 -> ok
    set 1 1001 1250 -> ok
    get 1001 -> 1250 mm
    take 2 1001 -> refused 26: owned by the other desk
    set 2 1001 900 -> refused 26: owned by the other desk
    clear 2 1001 -> refused 26: owned by the other desk
    give 2 1001 -> refused 26: owned by the other desk
    get 1001 -> 1250 mm
    set 2 1003 400 -> refused 27: not owned
    clear 2 1003 -> refused 27: not owned
    give 2 1003 -> refused 27: not owned
    take 2 1003 -> ok
    set 2 1003 400 -> ok
    take 2 1003 -> ok
    get 1003 -> 400 mm
    owners -> 3 owned: 1001 desk 1, 1002 desk 1, 1003 desk 2
    readings -> 2 readings: 1001 1250 mm, 1003 400 mm
    give 1 1001 -> ok
    get 1001 -> no reading
    give 1 1001 -> refused 27: not owned
    take 2 1001 -> ok
    get 1001 -> no reading
    set 1 1001 1300 -> refused 26: owned by the other desk
    take 0 1010 -> refused 24: not a desk
    take 3 1010 -> refused 24: not a desk
    set 3 1001 100001 -> refused 21: reading out of range
    set 1 1001 100001 -> refused 21: reading out of range
    table 1 80 -1 1 700 2 800 -> degree 1, 80 places
    work-out -> ok
    take 2 1001 -> ok
    give 2 1001 -> ok
    take 1 1001 -> ok
    get 1001 -> no reading
    take 1 1002 -> ok
    get 1002 -> 800 mm
    owners 80 0 5 3 -> 80 places
    take 1 1001 -> refused 25: owner list malformed (wrong length or another number)
    owners -> 0 owned: 1011 holds 3
    owners 79 0 -> 79 places
    give 1 1002 -> refused 25: owner list malformed (wrong length or another number)
    owners -> refused 25: owner list malformed (wrong length or another number)
    get 1002 -> 800 mm
"""

# docs/COARSE.md: "This is how they go, call by call".
COARSE_TEXT = """
    table 1 -> degree 1, 80 places
    coarse -> 0 parents
    take 1 1000 -> ok
    take 1 1002 -> ok
    take 1 1003 -> ok
    take 1 1011 -> ok
    coarse 100 -> count 0 sum 0
    set 1 1000 10 -> ok
    set 1 1002 0 -> ok
    set 1 1003 100000 -> ok
    set 1 1011 7 -> ok
    coarse 100 -> count 3 sum 100010
    coarse -> 2 parents: 100 count 3 sum 100010, 101 count 1 sum 7
    set 1 1000 4 -> ok
    coarse 100 -> count 3 sum 100004
    clear 1 1003 -> ok
    coarse 100 -> count 2 sum 4
    give 1 1011 -> ok
    coarse 101 -> count 0 sum 0
    set 2 1000 9 -> refused 26: owned by the other desk
    set 1 1001 9 -> refused 27: not owned
    coarse -> 1 parent: 100 count 2 sum 4
    readings -> 2 readings: 1000 4 mm, 1002 0 mm
    coarse 1000 -> refused 20: wrong degree
    counts 20 0 0 3 -> 20 places
    take 1 1001 -> refused 29: the stored count or sum of the parent concerned differs from its children's readings
    set 1 1000 5 -> refused 29: the stored count or sum of the parent concerned differs from its children's readings
    clear 1 1000 -> refused 29: the stored count or sum of the parent concerned differs from its children's readings
    give 1 1000 -> refused 29: the stored count or sum of the parent concerned differs from its children's readings
    get 1000 -> 4 mm
    coarse 100 -> count 3 sum 4
    take 2 1010 -> ok
    work-out -> ok
    coarse 100 -> count 2 sum 4
    set 1 1000 5 -> ok
    sums 20 0 0 6 -> 20 places
    set 1 1000 4 -> refused 29: the stored count or sum of the parent concerned differs from its children's readings
    work-out -> ok
    set 1 1000 4 -> ok
    sums 19 0 -> 19 places
    set 1 1000 4 -> refused 28: a list of counts or sums has the wrong length
    give 2 1000 -> refused 26: owned by the other desk
    work-out -> refused 28: a list of counts or sums has the wrong length
    coarse 100 -> refused 28: a list of counts or sums has the wrong length
    table 1 80 -1 0 700 1 800 -> degree 1, 80 places
    take 1 1000 -> refused 29: the stored count or sum of the parent concerned differs from its children's readings
    work-out -> ok
    take 1 1000 -> ok
    coarse 100 -> count 2 sum 1500
    table 0 -> degree 0, 20 places
    take 1 100 -> ok
    set 1 100 5 -> ok
    coarse -> 0 parents
    coarse 100 -> refused 20: wrong degree
    counts 1 0 -> 1 places
    set 1 100 5 -> refused 28: a list of counts or sums has the wrong length
"""
SECOND_COARSE_TEXT = """
    table 2 320 -1 0 1 3 2 317 100000 318 100000 319 100000 316 100000 -> degree 2, 320 places
    coarse -> 0 parents
    coarse 1000 -> count 0 sum 0
    get 10000 -> 1 mm
    take 1 10001 -> refused 29: the stored count or sum of the parent concerned differs from its children's readings
    take 1 10010 -> ok
    work-out -> ok
    coarse -> 2 parents: 1000 count 2 sum 3, 5113 count 4 sum 400000
    coarse 0xB870000000000000 -> count 4 sum 400000
    take 1 10001 -> ok
    take 1 51131 -> ok
    clear 1 51131 -> ok
    coarse 5113 -> count 3 sum 300000
    counts 80 0 0 2 79 18446744073709551615 -> 80 places
    clear 1 51131 -> refused 29: the stored count or sum of the parent concerned differs from its children's readings
    set 2 51131 5 -> refused 26: owned by the other desk
    set 1 10001 5 -> ok
    coarse -> 2 parents: 1000 count 3 sum 8, 5113 count 18446744073709551615 sum 300000
    owners 320 3 -> 320 places
    coarse 5113 -> count 18446744073709551615 sum 300000
    work-out -> ok
    coarse -> 2 parents: 1000 count 3 sum 8, 5113 count 3 sum 300000
    sums 80 0 1 7 -> 80 places
    coarse -> 3 parents: 1000 count 3 sum 0, 1001 count 0 sum 7, 5113 count 3 sum 0
    coarse 600 -> refused 2: a is 0, 6 or 7
    coarse 10001 -> refused 20: wrong degree
    coarse 100 -> refused 20: wrong degree
    table 1 80 -1 3 -2 -> degree 1, 80 places
    work-out -> refused 23: the list holds a number that is neither a reading nor -1; place 3
    coarse 100 -> count 0 sum 0
    counts 19 0 -> 19 places
    work-out -> refused 23: the list holds a number that is neither a reading nor -1; place 3
    coarse -> refused 28: a list of counts or sums has the wrong length
    table 1 79 -2 -> degree 1, 79 places
    work-out -> refused 22: the list's length isn't 20*4^degree
    coarse -> 0 parents
    table 7 3 5 -> degree 7, 3 places
    work-out -> refused 20: wrong degree
    coarse -> refused 20: wrong degree
    coarse 100000000 -> refused 20: wrong degree
    coarse 7 -> error: write it as coarse [CODE]
    counts 20482 0 -> error: write it as counts LENGTH FILL [PLACE N]..
    counts 20481 0 -> 20481 places
    table 25 0 0 -> degree 25, 0 places
    work-out -> refused 1: a degree, as field or argument, is above 24
    coarse -> refused 1: a degree, as field or argument, is above 24
    coarse 600 -> refused 1: a degree, as field or argument, is above 24
    table 0 20 -1 3 9 -> degree 0, 20 places
    take 1 111 -> ok
    work-out -> ok
    sums 1 0 -> 1 places
    coarse -> refused 28: a list of counts or sums has the wrong length
    coarse 111 -> refused 20: wrong degree
    take 1 111 -> refused 28: a list of counts or sums has the wrong length
    take 2 111 -> refused 26: owned by the other desk
    set 1 100 5 -> refused 27: not owned
    work-out -> refused 28: a list of counts or sums has the wrong length
    sums 0 9 -> 0 places
    give 1 111 -> ok
    readings -> 0 readings
"""


def by_hand(text):
    """Lines with the answers to them."""
    return [tuple(line.strip().split(" -> ")) for line in text.strip().split("\n")]


ICE_DESK = by_hand(ICE_DESK_TEXT) + by_hand(DAY_TEXT)
BOTH_DESKS = by_hand(MORNING_TEXT)
COARSE = by_hand(COARSE_TEXT) + by_hand(SECOND_COARSE_TEXT)

# Readable lines, with no table to be called on.
WITHOUT_TABLE = """
    readings; get 1001; set 1 1001 1250; clear 1 1001; get 100; set 2 100 0; clear 2 51133; get 0x2050000000000000
    get 600; get 0x0; set 1 0xFFFFFFFFFFFFFFFF 2147483647; set 1 600 -1; set 1 1001 100001; set 1 1001 -2147483648
    clear 1 7013; clear 2 0x1; get 100000000; get 100000000000000000000000000; owners; owners 80 0; owners 0 255
    owners 20 3 19 1; owners 81921 0 81920 2; take 1 1001; take 2 100; take 0 1001; take 3 600; take 4294967297 100
    give 1 1001; give 2 0x1; give 18446744073709551615 7013; set 0 600 -1; set 0xFFFFFFFFFFFFFFFF 0x0 -2; clear 256 100
    coarse; coarse 100; coarse 1001; coarse 600; coarse 0xFFFFFFFFFFFFFFFF; work-out; counts 20 0; counts 0 0; sums 20 0
    counts 20481 18446744073709551615 20480 0; sums 0 5; sums 20 0 19 0xFFFFFFFFFFFFFFFF
"""
UNREADABLE_ON_TABLE = """
    table; table 0 20; table 0 20 -1 3; table 0 20 -1 3 5 4; table 0 20 -1 3 5 4 6 19; table x; table 7 3; table 25 x
    table 0 0 -1 0 5; table 0 20 -1 20 5; table 0 20 -1 3 5 20 5; table 0 20 -1 19 5 19; table 0 1 -1 1 0; table 1 1
    table -1; table 0 -1 0; table 0 81922 0; table 7 81922 0; table 25 81922 0; table 0 20 -1 -1 5; table 0 20 x
    table 6 81921 -1 81921 5; table 6 81920 -1 81920 5; table 0 20 -1 # note; table 0 #; table # 0; table 0 20 -1 3 5 #
    table DEGREE; table 0 LENGTH; table 0 [20 -1]; table 0, 20 -1; table degree 0; table 0 20 no reading; table 0 20 0 x
    set; set 1; set 100; set 100 5; set 1001 1250; set 1 100; set 1 100 5 6; set 1 100 5 mm; set 1 100 5mm; set 100 1 5
    set 1 5 100; set 1 100 0x5; set 1 100 5 # note; set 1 600 x; set 3 600 x; set 1 600 2147483648; set 1 600
    set 0 100 -2147483649
    set 1 100 no reading; set 1 100 nothing; set 1 100=5; set 1 100, 5; set 1, 100 5; set 1:100 5; set ice 100 5
    set desk 1 100 5; set 1 20 5; set 1 0x2000000000000000; set 0x2000000000000000 5; set DESK CODE MM; set CODE MM
    set 1 100 -; set 1 100 5 101 6; set 1 100 1e3; set 1 100 1250.0; set 1 100 +0; set -1 100 5; set +1 100 5
    set -0 100 5; set 1.0 100 5; set 18446744073709551616 100 5; set 0x10000000000000000 100 5; set 100 5 1
    set 1 2 100 5
    get; get 100 101; get 100 5; get all; get 3; get 0; get 100 # note; get 600 1; get CODE; get 1001 x; get 100 0
    get 1 100; get 2 1001; get 1 100 5; get DESK CODE
    clear; clear 1; clear 100; clear 1001; clear 600; clear 1 100 101; clear 1 100 5; clear all; clear 1 all; clear 1 3
    clear 1 0; clear 100 1; clear 1 100 # note; clear 1 600 1; clear DESK CODE; clear CODE; clear ice 100; clear -1 100
    clear 1, 100; clear 18446744073709551616 100; clear 0x2000000000000000; clear 100 2; clear 1 2 100
    take; take 1; take 100; take 1001; take 1 all; take all; take 1 1; take 100 1; take 1 100 5; take 1 100 101
    take 1 100 # note; take 1 600 1; take DESK CODE; take CODE; take pilotage 100; take -1 100; take -0 100; take 1, 100
    take 18446744073709551616 100; take 0x 100; take 0x2000000000000000; take 3 x; take 0 600 600; take 2 1.0; take 1 2
    give; give 1; give 100; give 1001; give 1 all; give back; give back 1 100; give 1 back 100; give 100 1; give 1 100 0
    give 1 100 2; give 1 100 # note; give 1 600 1; give DESK CODE; give CODE; give ice 100; give -1 100; give +2 100
    give 18446744073709551616 100; give 3 x; give 0 600 600; give 1 1004; give 1, 100; give 0x2000000000000000
    readings 1; readings 100; readings x; readings all; readings # note; readings #; readings 0 0; readings readings
    owners 20; owners 0; owners x; owners 20 x; owners x 0; owners 20 0 3; owners 20 0 3 1 4; owners 20 0 3 1 4 2 5
    owners 20 256; owners 20 257; owners 20 -1; owners 20 -0; owners 20 +1; owners 20 0 3 256; owners 20 0 3 -1
    owners 20 0 20 1; owners 20 0 3 1 20 1; owners 0 0 0 1; owners 1 0 1 1; owners 19 0 19 1; owners 20 0 -1 1
    owners 81922 0; owners 81921 0 81921 1; owners 81920 0 81920 1; owners -1 0; owners -0 0; owners 20 0 3 4294967297
    owners 20 4294967296; owners 20 18446744073709551615; owners 18446744073709551616 0; owners 20 0x100
    owners 0x14002 0
    owners all; owners 1 x; owners # note; owners #; owners 20 0 #; owners 20 0 3 1 # note; owners LENGTH FILL
    owners [20 0]; owners 20, 0; owners 20 0, 3 1; owners 20 0 100 1; owners 20 0 3 desk 1; owners 20 nobody
    owners 20 0 3 ice; owners desk 1; owners owners; owners 20 1.0; owners 20 0 3 0x; owners 20 0 0x14 1
    coarse x; coarse all; coarse 1; coarse 0; coarse 100 101; coarse 100 5; coarse 1 100; coarse 100 # note; coarse #
    coarse # note; coarse CODE; coarse [CODE]; coarse 600 1; coarse 100 x; coarse coarse; coarse 20 0; coarse 20 0 3 1
    coarse 1004; coarse 100,; coarse -100; coarse count 1; coarse 0 0
    work-out 1; work-out 100; work-out x; work-out all; work-out # note; work-out #; work-out work-out; work-out 20 0
    counts; counts 20; counts 0; counts x; counts 20 x; counts x 0; counts 20 0 3; counts 20 0 3 1 4; counts 100
    counts 20 0 3 1 4 2 5; counts 20 -1; counts 20 -0; counts 20 0 3 -1; counts 20 0 -1 1; counts -1 0; counts 20 0 20 1
    counts 20 0 3 1 20 1; counts 0 0 0 1; counts 1 0 1 1; counts 19 0 19 1; counts 20482 0; counts 20481 0 20481 1
    counts 20480 0 20480 1; counts 81920 0; counts 81921 0; counts 0x5002 0; counts 20 18446744073709551616; counts all
    counts 20 0 3 18446744073709551616; counts 20 0 0x14 1; counts 20 0 100 1; counts LENGTH FILL; counts [20 0]
    counts 20, 0; counts #; counts 20 0 # note; counts # note; counts 20 1.0; counts 20 0 3 0x; counts 20 0 3 1 x
    sums; sums 20; sums 0; sums x; sums 20 x; sums x 0; sums 20 0 3; sums 20 0 3 1 4; sums 100; sums #; sums all
    sums 20 0 3 1 4 2 5; sums 20 -1; sums 20 -0; sums 20 0 3 -1; sums 20 0 -1 1; sums -1 0; sums 20 0 20 1
    sums 20 0 3 1 20 1; sums 0 0 0 1; sums 1 0 1 1; sums 19 0 19 1; sums 20482 0; sums 20481 0 20481 1; sums 0x5002 0
    sums 20480 0 20480 1; sums 81920 0; sums 81921 0; sums 20 18446744073709551616; sums 20 0 3 18446744073709551616
    sums 20 0 0x14 1; sums 20 0 100 1; sums LENGTH FILL; sums [20 0]; sums 20, 0; sums 20 0 # note; sums # note
    sums 20 1250 mm; sums 20 0 3 1250 mm; sums 20 1.0; sums 20 0 3 0x; sums 20 0 3 1 x; sums sums
"""
UNKNOWN_ON_TABLE = """
    Table 0; TABLE 0; tables 0; tabl 0; table0; table:0; table, 0; Set 1 100 5; SET 1 100 5; sets 1 100 5; se 1 100 5
    set1 100 5; set, 1 100 5; Get 100; GET 100; gets 100; got 100; ge 100; get100; Clear 1 100; CLEAR 1 100
    clears 1 100; clear1 100; clea; clear-all; reading; Readings; READINGS; readings:; readings,; open 0; close
    unset 1 100; put 1 100 5; fresh 0; table\u00a00; set\u00a01 100 5; get\u00a0100; readings\u00a0; holds 100
    1001 1250 mm; degree 1, 80 places; 1 take 100; 1 set 100 5; desk 1; desk 1 take 100; ice take 100; Take 1 100
    TAKE 1 100; takes 1 100; took 1 100; tak 1 100; take1 100; take, 1 100; take:; Give 1 100; GIVE 1 100; gives 1 100
    give-back 1 100; giveback 1 100; gave 1 100; giv 1 100; give1 100; return 1 100; free 1 100; own 1 100; owner; owned
    owner 100; Owners; OWNERS; owners:; owners,; owners20 0; owners\u00a0; owner 20 0; take\u00a01 100; give\u00a01 100
    Coarse; COARSE; coarse100; coarse:; coarser; coars; coarse-sums; coarse\u00a0100; parents; parents 100; count 100
    workout; work out; work_out; work -out; Work-out; WORK-OUT; work-out:; work-out100; work; -out; work-out\u00a0
    count; count 20 0; Counts 20 0; COUNTS 20 0; counts20 0; counts: 20 0; counts\u00a020 0; sum; sum 20 0; Sums 20 0
    SUMS 20 0; sums20 0; sums: 20 0; sums\u00a020 0; count 1 sum 5; 100 count 1 sum 5
"""
BAD_LENGTHS = BAD_NUMBERS + "81922 163840 4294967296 4294967316 18446744073709551615 0x14002 000081922".split()
BAD_PLACE_NUMBERS = BAD_NUMBERS + "20 21 0x14 00020 81920 4294967296 4294967299 18446744073709551615".split()
BAD_OWNERS = BAD_NUMBERS + "256 257 258 511 65536 4294967296 4294967297 18446744073709551615 0x100 00256".split()
BAD_PARENT_LENGTHS = BAD_LENGTHS + "20482 81920 81921 0x5002 00020482 65536 65556".split()
BAD_TABLE_CODES = [word for word in BAD_CODES if not TRIANGLE.fullmatch(word)]
# Good arguments, and for each of them bad ones in its place.
TABLE_ARGUMENTS = [
    ("table", ["0"], [BAD_NUMBERS]),
    ("table", ["0", "20", "-1"], [BAD_NUMBERS, BAD_LENGTHS, BAD_SIGNED]),
    ("table", ["0", "20", "-1", "3", "5"], [BAD_NUMBERS, BAD_LENGTHS, BAD_SIGNED, BAD_PLACE_NUMBERS, BAD_SIGNED]),
    ("set", ["1", "100", "5"], [BAD_NUMBERS, BAD_TABLE_CODES, BAD_SIGNED]),
    ("get", ["100"], [BAD_TABLE_CODES]),
    ("clear", ["1", "100"], [BAD_NUMBERS, BAD_TABLE_CODES]),
    ("take", ["1", "100"], [BAD_NUMBERS, BAD_TABLE_CODES]),
    ("give", ["2", "111"], [BAD_NUMBERS, BAD_TABLE_CODES]),
    ("owners", ["20", "0"], [BAD_LENGTHS, BAD_OWNERS]),
    ("owners", ["20", "0", "3", "1"], [BAD_LENGTHS, BAD_OWNERS, BAD_PLACE_NUMBERS, BAD_OWNERS]),
    ("coarse", ["100"], [BAD_TABLE_CODES]),
    ("counts", ["20", "0"], [BAD_PARENT_LENGTHS, BAD_NUMBERS]),
    ("counts", ["20", "0", "3", "1"], [BAD_NUMBERS, BAD_NUMBERS, BAD_PLACE_NUMBERS, BAD_NUMBERS]),
    ("sums", ["20", "0"], [BAD_PARENT_LENGTHS, BAD_NUMBERS]),
    ("sums", ["20", "0", "3", "1"], [BAD_NUMBERS, BAD_NUMBERS, BAD_PLACE_NUMBERS, BAD_NUMBERS]),
]
SHOWN = ["readings", "owners", "coarse"]  # All that the table holds.


def unreadable_table_lines():
    """The calls on a table with arguments missing, too many, and each argument unreadable."""
    yield from written(UNREADABLE_ON_TABLE)
    for call, good, bad in TABLE_ARGUMENTS:
        for at, some in enumerate(bad):
            yield from (as_bytes(" ".join([call] + good[:at] + [word] + good[at + 1 :])) for word in some)


def unknown_table_lines():
    yield from written(UNKNOWN_ON_TABLE)
    yield from ["readings\x0b", "\x0breadings", "table\x0b0", "set\x0b1 100 5", "get\x0c100", "clear\x001 100"]
    yield from ["readings\x00", "", " \t", "# table 0", "#readings", " # set 1 100 5"]
    yield from ["take\x0b1 100", "give\x0c1 100", "owners\x00", "owners\x0b20 0", "#owners", "# take 1 100"]
    yield from ["coarse\x0b100", "coarse\x00", "work-out\x0c", "counts\x0b20 0", "sums\x0020 0", "#coarse", "#work-out"]


def before_any_table():
    # "Where no table is open, a line that can be read as one of these is answered before anything is refused". What can
    # not be read is said before that, and opens no table; nor does a table that is refused.
    yield from written(WITHOUT_TABLE)
    for line in [*unreadable_table_lines(), *unknown_table_lines()]:
        yield line
        if line.startswith(("table ", "owners ", "counts ", "sums ")):
            yield "readings"
    for n in (7, 8, 23, 24, 25, 26, 31, 32, 255, 256, 2**32, 2**32 + 1, 2**63, MOST - 1, MOST):
        yield f"table {n}"
        yield from ["readings", "get 1001", "set 1 1001 5", "clear 2 1001", "get 1001 5"]
        yield from ["owners", "take 1 1001", "give 2 1001", "owners 80 0", "set 1001 5", "clear 1001", "take 1001"]
        yield from ["coarse", "coarse 100", "work-out", "counts 20 0", "sums 20 0", "counts 20", "sums 20482 0"]
    yield from written(WITHOUT_TABLE)


def unreadable_on_table():
    """The same lines while a table is open, and what the table holds after each."""
    yield from ["table 1 80 -1 3 1250 79 0", "owners 80 0 0 1 3 2 79 1", "counts 20 0 0 1 7 9 19 1", "sums 20 0 0 1250"]
    for line in [*unreadable_table_lines(), *unknown_table_lines()]:
        yield from [line, *SHOWN]
    yield from ["get 1003", "get 5113", "get 1000", "set 1 1000 1", "clear 2 1003", "give 1 5113", *SHOWN]


READABLE_ON_TABLE = """
    table 0x0; table 00; table 0x0000000000000001; table 000000000000000000000000000000000002; table 0x6; table 006
    table 0 0x14 -1 0x13 5; table 0 020 -01 019 0005; table 0 20 -0; table 0 0x0000000000000014 -1 0x0000000000000000 -0
    table 0 20 -0000000002147483648 3 00000000002147483647; table 0 20 -2147483648 0 2147483647 1 100001 2 100000 3 -2
    table 18446744073709551615 0 0; table 0xffffffffffffffff 1 2147483647 0 -2147483648; table 0xFFFFFFFFFFFFFFFF 20 -1
    table 0x19 0x0 -0; table 0x18 1 1; table 7 0 -1; table 7 1 -1; table 0 0 0; table 0 1 0; table 0 2 0 1 7
    table 0 20 -1; owners 20 0 0 1 1 1 3 1 19 2; set 1 100 -0; set 1 101 00005; set 1 0x3000000000000000 100000
    set 1 0x2000000000000000 -0001; set 1 111 0000000000000000000000100000; set 1 111 -00000; set 1 111 0100001
    set 2 511 2147483647; set 2 511 -2147483648; get 0x2000000000000000; get 0xb800000000000000; get 0xB800000000000000
    set 2 0xb800000000000000 8; clear 2 0xB800000000000000; clear 1 0x2000000000000000; get 100; clear 1 100
    set 1 600 5; get 000; clear 1 711; set 2 0x0 0; get 0x1; clear 2 0xaBcDeF0123456789; get 1001
    set 1 0x2000000000000001 5; take 1 000; give 2 0x1; take 0xaBcDeF0123456789 0xaBcDeF0123456789
    set 0x1 100 6; set 01 100 7; set 0x0000000000000001 100 8; set 000000000000000000000000000000000001 100 9
    set 0x2 511 6; set 002 511 7; set 0x0000000000000002 511 8; set 00000000000000000000000000000000002 511 9
    take 0x01 200; take 0x02 201; take 0000000000000000000000000000000000000000002 210; take 0x0000000000000001 211
    give 0x01 200; give 002 201; clear 0x2 210; clear 0001 211; give 0x2 210; give 0x1 211; take 00 200; take 0x0 200
    take 0x3 200; take 03 200; take 0x100 200; take 0x101 200; take 257 200; take 258 200; take 65537 200
    take 65538 200
    take 0x100000001 200; take 4294967298 200; take 0xFFFFFFFFFFFFFFFF 200; take 0xffffffffffffffff 200
    take 18446744073709551615 200; take 00018446744073709551615 200; give 100 100; set 100 100 5; clear 100 100
    set 100 111 100; take 100 100; set 511 511 511; take 0x2000000000000000 0x2000000000000000; give 20 200
    clear 18446744073709551615 511; set 9223372036854775809 100 1; give 0x8000000000000002 511
    owners 0x14 0x0 0x13 0x2; owners 020 00 019 001; owners 20 00000000000000000000000000002 3 0000000000000000000001
    owners 20 255; owners 20 0xff; owners 20 0xFF 3 0xFe 4 0x0; owners 20 0 3 255; owners 20 0 3 0x00000000000000FF
    owners 20 0x0000000000000001; owners 0x0000000000000014 0x0000000000000002 0x0000000000000000 0x0000000000000000
    owners 20 0 3 00255; owners 0 0; owners 0 255; owners 1 255 0 0; owners 1 0; owners 2 1 1 2; owners 19 0 18 1
    owners 21 0 20 2; owners 80 1; owners 81920 0; owners 81921 0; owners 81921 0 81920 255; owners 0x14001 0 0x14000 1
    owners 00081921 2; owners 20 3; owners 20 0 0 3 0 1; owners 20 1; owners 20 2 0 1; owners 20 0
    coarse 100; coarse 0x2000000000000000; coarse 000; coarse 0x0; coarse 0xaBcDeF0123456789; coarse 1001; work-out
    counts 0 0; counts 0 18446744073709551615; sums 0x0 0xFFFFFFFFFFFFFFFF; counts 1 0; sums 1 1 0 0; counts 20 0
    table 1 80 -1 0 1 1 2 79 3; coarse 100; coarse 0xB800000000000000; coarse 0xb800000000000000; work-out; coarse 511
    counts 0x14 0x0 0x13 0x2; counts 020 00 019 001; sums 20 00000000000000000000000000002 3 0000000000000000000000001
    counts 20 18446744073709551615; sums 20 0xFFFFFFFFFFFFFFFF; counts 20 0 3 0xffffffffffffffff 4 0x0; coarse 111
    sums 20 0 3 00018446744073709551615; counts 0x0000000000000014 0x8000000000000000 0x0000000000000000 0x000000000000
    sums 20 4294967296 19 9223372036854775808; counts 20 0 0 3 0 1; sums 20 5 0 3 0 0; coarse 100; coarse 101
    counts 19 0 18 1; counts 21 0 20 2; counts 80 1; counts 20480 0; counts 20481 0; counts 20481 0 20480 255
    counts 0x5001 0 0x5000 1; counts 00020481 2; counts 0 0; counts 1 7 0 8; counts 20 0; sums 19 0 18 1; sums 21 0 20 2
    sums 80 1; sums 20480 0; sums 20481 0; sums 20481 0 20480 255; sums 0x5001 0 0x5000 1; sums 00020481 2; sums 0 0
    sums 20 256 4 65536; work-out; coarse 0x2000000000000001; coarse 0x2000000000000004; coarse 1000; coarse 711
    table 2; coarse 1001; coarse 0x2050000000000000; coarse 100; coarse 10011; coarse 6001
"""


def readable_on_table():
    """Leading zeros, either case, tabs and carriage returns, and lines of 1000 bytes and more."""
    lines = written(READABLE_ON_TABLE)
    lines += ["\ttable\t0\r", " take 1\t100 ", "take\r1\r101", "\ttake\t2\t200\t", "take 2 201\r"]
    lines += ["  set   1 100\t7  ", "get 100\r", "\rget\r\t100", "set\t1\t101\r100000", "clear\t1\t100\r"]
    lines += ["give\t1\r100 ", "  give  1  101", "\rowners\t", "owners\r", "\towners 20\r0\t3 1  4\t2 "]
    lines += ["table 0\t20 -1\r3 \t7", "\treadings\t", "readings\r", "   readings   ", "\r \treadings"]
    lines += ["table 1", "\tcounts 20\r0\t3 1  4\t2 ", "sums\t20  0 3\r9\t", "coarse\r", "\tcoarse\t", "\rwork-out\t"]
    lines += [" coarse \t111\r", "coarse\r100", "work-out\r", "   work-out   ", "table 0"]
    for length in (999, 1000, 1001, 1002, 5000):
        lines += [filled("table 0 20 -1 4 44", length), "table 0 20 -1 5 " + "0" * (length - 18) + "55"]
        lines += [filled("take 2 200", length), "take " + "0" * (length - 10) + "2 201"]
        lines += [" " * (length - len("set 2 200 9")) + "set 2 200 9", "set 2 201 " + "0" * (length - 11) + "8"]
        lines += ["set " + "0" * (length - 11) + "2 200 7", "clear " + "0" * (length - 11) + "2 201"]
        lines += [filled("get 111", length), filled("clear 2 200", length, "\t"), filled("readings", length)]
        lines += [filled("give 2 200", length, "\r"), "give " + "0" * (length - 10) + "2 201", filled("owners", length)]
        lines += [filled("owners 20 0 4 1", length), "owners 20 0 5 " + "0" * (length - 15) + "2"]
        lines += ["owners 20 " + "0" * (length - 15) + "1 6 2", " " * (length - len("owners")) + "owners"]
        lines += ["table 1", filled("counts 20 0 4 1", length), "sums 20 0 5 " + "0" * (length - 13) + "2"]
        lines += ["counts 20 " + "0" * (length - 15) + "1 6 2", filled("sums 20 0 6 3", length, "\r")]
        lines += [filled("coarse 201", length), filled("coarse", length, "\t"), filled("work-out", length)]
    for line in lines:
        yield from [line, *SHOWN]


def ice_desk_calls():
    yield from (line for line, _ in ICE_DESK)


def both_desks_calls():
    yield from (line for line, _ in BOTH_DESKS)


def coarse_story_calls():
    yield from (line for line, _ in COARSE)


def last_line():
    # "The last line may lack its line end."
    yield from ["table 1", "take 1 1001", "set 1 1001 1250", "get 1001"]


# ==== The calls: a table of soundings, every place


def mm_of(place):
    """A reading for each place, no two the same: 7919 is a prime that does not divide 100001."""
    return (7919 * place + 13) % 100_001


def desk_of(place):
    """A desk for each place, now the one and now the other."""
    return 1 + bin(place).count("1") % 2


def sounding_line(call, desk, word, mm):
    words = [call] + ([] if call in ("get", "coarse") else [desk]) + [word] + ([mm] if call == "set" else [])
    return " ".join(map(str, words))


def own_line(call, code, at):
    """The call, by the place's desk and with the place's reading."""
    place = place_of(code)
    return sounding_line(call, desk_of(place), some_form(code, at), mm_of(place))


def own_lines(calls, code, at):
    return [own_line(call, code, at + k) for k, call in enumerate(calls.split())]


def laid(length, fill, numbers=()):
    """A list: its length, what fills it, and then each (place, number)."""
    return f"{length} {fill}" + "".join(f" {place} {number}" for place, number in numbers)


def opened(n, length, fill, numbers=()):
    """A table with a list."""
    return f"table {n} {laid(length, fill, numbers)}"


def owned(length, fill, numbers=()):
    """A list of owners."""
    return f"owners {laid(length, fill, numbers)}"


def asked_parents(n):
    """What is stored for each triangle one degree up."""
    return [f"coarse {some_form(parent, at)}" for at, parent in enumerate(parents_of(n))]


def mostly_worked_out(at):
    """Where readings came with the table; now and then it is left out, and calls are 29."""
    return ["work-out"] if at % 8 else []


def place_by_place(chance, n, order):
    """Each place is taken and set in this order, and asked for; cleared and asked for again in another order; and given
    back in a third, some set once more before."""
    often = [1, 1, 16, 128][n]
    yield f"table {n}"
    for at, code in enumerate(order):
        yield from own_lines("take set", code, at)
        if at % often == 0:
            yield from SHOWN
    yield from (f"get {some_form(code, at)}" for at, code in enumerate(codes_of(n)))
    yield from [*asked_parents(n), *SHOWN]
    for call in ("clear", "give"):
        for at, code in enumerate(chance.sample(order, len(order))):
            yield from own_lines(f"set {call}" if call == "give" and at % 3 == 0 else call, code, at)
            if n <= 2:
                yield f"get {some_form(code, at + 1)}"
            if at % often == 0:
                yield from SHOWN
        yield from SHOWN


def every_place():
    chance = random.Random(28)
    for n in range(4):
        if n <= 2:
            yield from place_by_place(chance, n, codes_of(n))
        yield from place_by_place(chance, n, chance.sample(codes_of(n), len(codes_of(n))))


def every_place_of_four():
    """Taken in any order and set in another, and some thousands of readings and of owners in one line each."""
    chance = random.Random(29)
    order = chance.sample(codes_of(4), len(codes_of(4)))
    yield "table 4"
    yield from (own_line("take", code, at) for at, code in enumerate(order))
    yield from (own_line("set", code, at) for at, code in enumerate(chance.sample(order, len(order))))
    yield from SHOWN
    yield from (f"get {some_form(code, at)}" for at, code in enumerate(codes_of(4)[::8]))
    yield from (own_line("clear", code, at) for at, code in enumerate(order[::30]))
    yield from (own_line("give", code, at) for at, code in enumerate(order[::40]))
    yield from [*asked_parents(4)[::5], *SHOWN]


def alone(n, place):
    """A list with one reading, which is found again by its code, and the same by a call; the next code has none. And a
    list with one owner, who may set this place and not the next one."""
    length, desk = 20 * 4**n, desk_of(place)
    code, beside = codes_of(n)[place], codes_of(n)[(place + 1) % length]
    yield opened(n, length, NOTHING, [(place, mm_of(place))])
    yield from [f"get {some_form(code, place)}", f"get {some_form(beside, place)}", "readings"]
    yield from [*mostly_worked_out(place), owned(length, NOBODY, [(place, desk)])]
    yield from (f"set {desk} {some_form(x, place)} 77" for x in (beside, code))
    yield from SHOWN
    yield from [f"table {n}", *own_lines("take set", code, place + 1), *SHOWN]


def lone_places():
    for n in range(3):
        for place in range(len(codes_of(n))):
            yield from alone(n, place)


def chosen_places(chance, n, many):
    """The first and the last places of the table and of its sides, and any others, as many as are asked for."""
    each = 4**n
    ends = [place for side in range(20) for place in (side * each, side * each + each - 1)]
    some = [0, 20 * each - 1] + chance.sample(ends[1:-1], many // 2) + chance.sample(range(20 * each), many)
    return list(dict.fromkeys(some))[:many]


def some_places():
    chance = random.Random(30)
    for n, many in ((3, 60), (4, 60), (5, 40), (6, 12)):
        places = chosen_places(chance, n, many)
        yield f"table {n}"
        for place in places:
            yield from own_lines("take set", codes_of(n)[place], place)
            for near in (place - 1, place, (place + 1) % (20 * 4**n)):
                yield f"get {some_form(codes_of(n)[near], near)}"
        yield from SHOWN
        for at, place in enumerate(places):
            yield own_line("clear" if at % 2 else "give", codes_of(n)[place], at)
        yield from SHOWN
        for place in places[: many // 4]:
            yield from alone(n, place)


# ==== The calls: a table of soundings, histories

READING_BOUNDS = [-(2**31), -2, -1, 0, 1, 99_999, 100_000, 100_001, 2**31 - 1]
HISTORY_LENGTHS = [4000, 4000, 3000, 2000, 1300, 700, 220]
OTHER_DESKS = [0, 3, 4, 127, 128, 255, 256, 257, 258, 2**16 + 1, 2**16 + 2, 2**31, 2**31 + 1, 2**32 - 1, 2**32]
OTHER_DESKS += [2**32 + 1, 2**32 + 2, 2**63, 2**63 + 1, 2**63 + 2, MOST - 2, MOST - 1, MOST]
CALLS = ["take", "set", "clear", "give", "get"]  # The calls for a place, all but get by a desk.


def any_form(chance, word):
    """Any 64-bit number, written as a code where it is one."""
    return word_text(word) if code_refusals(word) else some_form(word, chance.randrange(4))


def history_word(chance, n, pool):
    """Mostly a code of the pool; else one of another degree, a broken one, or any 64 bits."""
    code = chance.choice(pool)
    kind = chance.randrange(40)
    if kind == 0:
        return parent_code(code) if n > 0 else child_code(code, chance.randrange(4))
    if kind == 1:
        return child_code(code, chance.randrange(4))
    if kind == 2:
        return random_code(chance, chance.randrange(DEEPEST + 1))
    if kind in (3, 4):
        return broken(code, chance.sample(CODE_BREAKS, kind - 2), chance)
    return chance.getrandbits(64) if kind == 5 else code


def history_reading(chance):
    return chance.choice(READING_BOUNDS) if chance.randrange(4) == 0 else chance.randint(0, 100_000)


def history_desk(chance):
    """One of the two, in one of the forms of a number; seldom another."""
    desk = chance.choice(OTHER_DESKS) if chance.randrange(40) == 0 else chance.choice(DESKS)
    return chance.choice([desk] * 8 + [f"0x{desk:X}", f"0x{desk:x}", f"0x{desk:016X}", f"00{desk}"])


def other_line(chance, word):
    """A line that has nothing to do with the table."""
    some = [f"check {word}", f"parent {word}", f"child {word} 2", "file 6 1 2 3", "list 1 0 0 1 8", "", "# set 1 100 5"]
    some += [f"take {word}", f"give {word}", "set 100 5", "clear 100", "owners 20", "owners 81922 0", "owners 20 256"]
    some += ["counts 20", "counts 20482 0", "sums 20 -1", "sums 20 0 20 1", "work-out 1", "coarse 1"]
    return chance.choice(some + ["set 100", "readings all", "table", "table 7", "table 25", "close"])


def history_coarse(chance, n, pool):
    """Mostly the parent of a code of the pool."""
    code = chance.choice(pool)
    return "coarse " + any_form(chance, history_word(chance, n - 1, [parent_code(code)]) if n > 0 else code)


def any_calls(chance, n, pool, many):
    """Many calls on the codes of the pool, by both desks, and now and then what the table holds."""
    for _ in range(many):
        call = chance.choice(["take"] * 5 + ["set"] * 8 + ["get"] * 6 + ["clear"] * 3 + ["give"] * 2)
        word = any_form(chance, history_word(chance, n, pool))
        yield sounding_line(call, history_desk(chance), word, history_reading(chance))
        if chance.randrange(16) == 0:
            parent = history_coarse(chance, n, pool)
            yield chance.choice([*SHOWN, *SHOWN, parent, parent, other_line(chance, word)])
    yield from SHOWN


def history(chance, n, many):
    """Many calls on one table, most of them on a few codes, so that each is taken, set, cleared, given back and asked
    for many times."""
    pool = [codes_of(n)[place] for place in chosen_places(chance, n, min(40, 20 * 4**n))]
    yield from [f"table {n}", f"take 1 {triangle_text(pool[0])}"]
    for mm in READING_BOUNDS:
        yield from [f"set 1 {triangle_text(pool[0])} {mm}", f"get {triangle_text(pool[0])}"]
    yield from any_calls(chance, n, pool, many)


def history_from_elsewhere(chance, n, many):
    """Many calls on a few codes of a table that has readings and owners before them."""
    length = 20 * 4**n
    places = chosen_places(chance, n, min(12, length))
    readings = [(place, chance.choice([NOTHING, 0, 100_000, chance.randint(1, 99_999)])) for place in places]
    yield opened(n, length, chance.choice([NOTHING, 31]) if n <= 2 else NOTHING, readings)
    fill = chance.choice([NOBODY, *DESKS]) if n <= 2 else NOBODY
    yield owned(length, fill, [(place, chance.choice([NOBODY, *DESKS])) for place in places])
    pool = [codes_of(n)[place] for place in places]
    # Now and then a third of the calls comes before the sums are worked out.
    before = many // 3 if chance.randrange(4) == 0 else 0
    yield from any_calls(chance, n, pool, before)
    yield from ["work-out", "coarse"]
    yield from any_calls(chance, n, pool, many - before)


def coarse_history(chance, n, many):
    """Many calls on the children of a few triangles one degree up, and after each what is stored for its parent."""
    chosen = parents_of(n) and [parents_of(n)[place] for place in chosen_places(chance, n - 1, 4)]
    pool = [code for parent in chosen for code in child_codes(parent)] or codes_of(0)[:6]
    yield f"table {n}"
    for at in range(many):
        code = chance.choice(pool)
        call = chance.choice(["take"] * 5 + ["set"] * 8 + ["clear"] * 3 + ["give"] * 2)
        yield sounding_line(call, chance.choice(DESKS), any_form(chance, code), history_reading(chance))
        yield f"coarse {any_form(chance, parent_code(code))}"
        if at % 8 == 0:
            yield "coarse"
        if at % 60 == 59:
            yield from ["work-out", "coarse"]
    yield from SHOWN


def history_calls():
    chance = random.Random(31)
    for n, many in enumerate(HISTORY_LENGTHS):
        yield from history(chance, n, many)
    for n, many, again in ((0, 150, 12), (1, 150, 12), (2, 150, 8), (3, 120, 4), (4, 60, 2), (5, 50, 2), (6, 40, 2)):
        for _ in range(again):
            yield from history_from_elsewhere(chance, n, many)
    for n, many in ((0, 60), (1, 400), (2, 400), (3, 400), (6, 60)):
        yield from coarse_history(chance, n, many)


# ==== The calls: a table of soundings, refusals

OUTSIDE_READINGS = [x for x in READING_BOUNDS if not is_reading(x)]
BAD_READINGS = [-2, 100_001, -(2**31), 2**31 - 1, -3, -100_000, 100_002, 2**16 + 100_000, -(2**16) + 1]

# The rows of document 01's table and of 02's that each call can give. A degree, "as field or argument", and a word are
# given to all five, with a table and its list; only set is given a reading. All but get are given a desk and the lists
# of owners, counts and sums, and all but get and take are 27 on a free triangle.
SOUNDING_NUMBERS = {
    "take": [1, 2, 3, 4, 20, 22, 23, 24, 25, 26, 28, 29],
    "set": [1, 2, 3, 4, 20, 21, 22, 23, 24, 25, 26, 27, 28, 29],
    "clear": [1, 2, 3, 4, 20, 22, 23, 24, 25, 26, 27, 28, 29],
    "give": [1, 2, 3, 4, 20, 22, 23, 24, 25, 26, 27, 28, 29],
    "get": [1, 2, 3, 4, 20, 22, 23],
}
# Likewise for the calls on the counts and sums. `coarse` is the one with a code here.
COARSE_NUMBERS = {"coarse": [1, 2, 3, 4, 20, 28], "work-out": [1, 20, 22, 23, 28]}
PARENT_LISTS = ["counts", "sums"]
# What a stored number may be off by, modulo 2^64, so that MOST is one too few.
OFF_BY = [1, 2, 4, 2**8, 2**16, 2**31, 2**32, 2**32 + 1, 2**63, MOST, MOST - 1, MOST - 3, 100_000, MOST - 99_999]


def tallied(numbers):
    """The counts and the sums of the readings among (place, number), by the place of the parent: the four children of
    one lie side by side."""
    found = {"counts": {}, "sums": {}}
    for place, x in numbers:
        if is_reading(x):
            found["counts"][place // 4] = found["counts"].get(place // 4, 0) + 1
            found["sums"][place // 4] = found["sums"].get(place // 4, 0) + x
    return found


def parents_laid(kind, length, fill, true, more=()):
    """A list of counts or of sums: those that are true, as far as it goes, and with something more at some places."""
    numbers = {place: x for place, x in true.items() if place < length}
    for place, off in dict(more).items():
        if place < length:
            numbers[place] = (numbers.get(place, fill) + off) % 2**64
    return f"{kind} {laid(length, fill, numbers.items())}"


def good_trial(chance, n, call):
    """A table with some readings and owners, true counts and sums of the parent concerned, a desk, a code and a
    reading: the call is not refused."""
    length, desk = 20 * 4**n, chance.choice(DESKS)
    readings = {place: chance.randint(0, 100_000) for place in chance.sample(range(length), 3)}
    own = chance.choice([*readings, chance.randrange(length)])
    owners = {place: chance.choice([NOBODY, *DESKS]) for place in chance.sample(range(length), 3)}
    owners[own] = chance.choice([NOBODY, desk]) if call == "take" else desk
    trial = SimpleNamespace(n=n, length=length, numbers=readings, word=codes_of(n)[own], own=own, desk=desk)
    trial.mm = chance.choice([0, 7, 100_000])
    trial.owners, trial.owner_length = owners, length
    trial.owner_fill = chance.choice([NOBODY, *DESKS]) if n <= 1 else NOBODY
    parents = len(parents_of(n))
    trial.parents, trial.parent_fill = dict.fromkeys(PARENT_LISTS, parents), dict.fromkeys(PARENT_LISTS, 0)
    # Another parent does not matter.
    others = [place for place in range(parents) if place != own // 4 and chance.randrange(parents) == 0]
    trial.more = {kind: {place: chance.choice(OFF_BY) for place in others} for kind in PARENT_LISTS}
    if call in COARSE_NUMBERS:
        # Nor do the owners.
        trial.owner_fill = chance.choice([NOBODY, 3])
        trial.word = parents_of(n)[own // 4] if n > 0 else trial.word
    return trial


def on_word(break_one):
    def spoil(trial, chance):
        trial.word = break_one(trial.word, chance)

    return spoil


def spoil_code_degree(trial, chance):
    trial.word = random_code(chance, chance.choice([m for m in range(DEEPEST) if m != degree_of(trial.word)]))


def spoil_deep_table(trial, chance):
    """A table degree of 7 to 23, and a code of that degree, or of one up as before. No list that the console opens is
    long enough for it."""
    up = trial.n - degree_of(trial.word)
    trial.n = chance.randrange(TABLE_DEEPEST + 1, DEEPEST)
    trial.word = random_code(chance, trial.n - up)


def spoil_table_degree(trial, chance):
    trial.n = chance.choice([25, 26, 31, 2**32 + trial.n, 2**63, MOST])


def spoil_reading(trial, chance):
    trial.mm = chance.choice(OUTSIDE_READINGS)


def set_length(trial, length):
    trial.length = length
    trial.numbers = {place: number for place, number in trial.numbers.items() if place < length}


def spoil_short(trial, chance):
    set_length(trial, trial.length - 1)


def spoil_long(trial, chance):
    set_length(trial, trial.length + 1)


def spoil_length(trial, chance):
    set_length(trial, chance.choice([20 * 4**m for m in range(5) if 20 * 4**m != trial.length]))


def spoil_numbers(trial, chance):
    """One bad number or several, in places of readings or others."""
    for place in chance.sample(range(trial.length), chance.choice([1, 1, 2, 5])):
        trial.numbers[place] = chance.choice(BAD_READINGS)


def spoil_desk(trial, chance):
    trial.desk = chance.choice(OTHER_DESKS)


def other_desk(trial, chance):
    return chance.choice([desk for desk in DESKS if desk != trial.desk])


def spoil_others(trial, chance):
    """The place is another desk's."""
    trial.owners[trial.own] = other_desk(trial, chance)


def spoil_all_others(trial, chance):
    """Every place is another desk's, so that it is whatever place the word might be taken for."""
    trial.owners, trial.owner_fill = {}, other_desk(trial, chance)


def spoil_free(trial, chance):
    trial.owners[trial.own] = NOBODY


def spoil_all_free(trial, chance):
    trial.owners, trial.owner_fill = {}, NOBODY


def set_owner_length(trial, length):
    trial.owner_length = length
    trial.owners = {place: owner for place, owner in trial.owners.items() if place < length}


def spoil_owners_short(trial, chance):
    set_owner_length(trial, trial.owner_length - 1)


def spoil_owners_long(trial, chance):
    set_owner_length(trial, trial.owner_length + 1)


def spoil_owners_length(trial, chance):
    set_owner_length(trial, chance.choice([20 * 4**m for m in range(5) if 20 * 4**m != trial.owner_length]))


def spoil_owners(trial, chance):
    """Another number or several, in other places than the code's."""
    others = [place for place in range(trial.owner_length) if place != trial.own]
    for place in chance.sample(others, chance.choice([1, 1, 2, 5])):
        trial.owners[place] = chance.choice([3, 4, 255, chance.randrange(3, 256)])


def on_parents(kind, spoil_one):
    return lambda trial, chance: spoil_one(trial, chance, kind)


def spoil_parents_length(trial, chance, kind):
    right = trial.parents[kind]
    lengths = [0, 1, max(right - 1, 0), right + 1, 20, 80, right * 4, LONGEST_PARENTS]
    trial.parents[kind] = chance.choice([x for x in lengths if x != right])


def spoil_stored(trial, chance, kind):
    trial.more[kind][trial.own // 4] = chance.choice(OFF_BY)


def spoil_all_stored(trial, chance):
    """Every parent has a count and a sum that no readings can have, whatever parent the word might be taken to have."""
    trial.parent_fill = {"counts": chance.choice([5, 6, MOST]), "sums": chance.choice([400_001, 2**32, MOST])}
    trial.more = {kind: {} for kind in PARENT_LISTS}


# The ways to make each refusal hold. 20 comes first since it takes another word, which 1 to 4 then spoil; 23 comes
# after 22, and 25 last, since their places are those of a list whose length is fixed.
SPOIL_WORD_DEGREE = on_word(break_degree)
SPOIL_PARENTS_LENGTHS = [on_parents(kind, spoil_parents_length) for kind in PARENT_LISTS]
SPOIL_STORED = [on_parents(kind, spoil_stored) for kind in PARENT_LISTS]
WAYS = {
    28: SPOIL_PARENTS_LENGTHS,
    29: [*SPOIL_STORED, spoil_all_stored],
    20: [spoil_code_degree, spoil_deep_table],
    1: [SPOIL_WORD_DEGREE, spoil_table_degree],
    2: [on_word(break_a)],
    3: [on_word(break_digit)],
    4: [on_word(break_zero_bits), on_word(break_code_number)],
    21: [spoil_reading],
    22: [spoil_short, spoil_long, spoil_length],
    23: [spoil_numbers],
    24: [spoil_desk],
    26: [spoil_others, spoil_all_others],
    27: [spoil_free, spoil_all_free],
    25: [spoil_owners_short, spoil_owners_long, spoil_owners_length, spoil_owners],
}
FOR_ONE_PLACE = {spoil_others, spoil_free}
FOR_OWNERS_LENGTH = {spoil_owners_short, spoil_owners_long, spoil_owners_length}


def can_be(call, numbers, some):
    """In a word with a degree above 24 no digit is beyond it, for 3. A word that is no code of the table's degree has
    no place of its own, nor has any where the list of owners is too short; and no parent of its own, nor are there
    children's readings where the list has the wrong length. To work out takes no word, and the table's degree is not 1
    and 20 at once."""
    if 3 in numbers and SPOIL_WORD_DEGREE in some:
        return False
    if call == "work-out" and ({SPOIL_WORD_DEGREE, spoil_code_degree} & set(some) or {1, 20} <= set(numbers)):
        return False
    no_place = {1, 2, 3, 4, 20} & set(numbers)
    if set(SPOIL_STORED) & set(some) and (no_place or {22, 28} & set(numbers)):
        return False
    return not (FOR_ONE_PLACE & set(some) and (no_place or FOR_OWNERS_LENGTH & set(some)))


def ways_to(chance, call, numbers):
    """Every way to make all the numbers hold; for more than two of them, some."""
    ways = itertools.product(*(WAYS[no] for no in WAYS if no in numbers))
    ways = [some for some in ways if can_be(call, numbers, some)]
    return ways if len(numbers) <= 2 else chance.sample(ways, min(len(ways), 12))


def trial_calls(call, numbers, trial):
    """The call on its table, and what the table holds after it. The numbers hold, and the earliest of them is
    answered."""
    lines = [opened(trial.n, trial.length, NOTHING, trial.numbers.items())]
    lines.append(owned(trial.owner_length, trial.owner_fill, trial.owners.items()))
    table = Soundings(*read_table(parts_of(lines[0])[1:]))
    table.lay(*read_owners(parts_of(lines[1])[1:]))
    # get looks at neither list.
    for kind, true in tallied(trial.numbers.items()).items() if call != "get" else ():
        if trial.parent_fill[kind]:
            true = {}
        if trial.n != 0 or trial.parents[kind]:
            lines.append(parents_laid(kind, trial.parents[kind], trial.parent_fill[kind], true, trial.more[kind]))
            table.lay_parents(kind, *read_parents(parts_of(lines[-1])[1:]))
    held = table.refusals(call, trial.desk, trial.word, trial.mm)
    must(set(numbers) <= held and first(held) == first(numbers), "meant to hold", call, numbers, held, trial)
    line = call if call == "work-out" else sounding_line(call, trial.desk, word_text(trial.word), trial.mm)
    yield from [*lines, line, *SHOWN]


def number_sets(numbers):
    """None, each alone, each two, all of them, and all from each one on; but a free triangle, for 27, is not another's,
    for 26."""
    yield from (some for some in alone_and_in_pairs(numbers) if not {26, 27} <= set(some))
    for k in range(len(numbers) - 2):
        for left_out in [26, 27] if 27 in numbers else [0]:
            yield tuple(no for no in numbers[k:] if no != left_out)


def table_refusal_calls():
    chance = random.Random(32)
    for call, can_hold in {**SOUNDING_NUMBERS, **COARSE_NUMBERS}.items():
        for numbers in number_sets(can_hold):
            for ways in ways_to(chance, call, numbers):
                # At degree 0 there are no triangles one degree up.
                for n in [0] * (29 not in numbers and call != "coarse") + [chance.choice([1, 1, 1, 2, 2, 3])]:
                    trial = good_trial(chance, n, call)
                    for spoil in ways:
                        spoil(trial, chance)
                    yield from trial_calls(call, numbers, trial)


# ==== The calls: a table of soundings, other lists


def all_calls(chance, codes):
    """Every call for each code, by one of the desks: first get, and then in the order in which all are answered."""
    for code in codes:
        desk = chance.choice(DESKS)
        for call in ("get", "take", "set", "get", "clear", "give"):
            yield sounding_line(call, desk, any_form(chance, code), chance.choice([0, 1, 1250, 100_000]))


def asked_for(chance, codes):
    """The calls for each code, and then the whole table."""
    yield from all_calls(chance, codes)
    yield from SHOWN


def bad_places_of(chance, n):
    """A code, and each place of the list that may matter to it: its own, those beside it, the first and the last."""
    place = chance.randrange(2, 20 * 4**n - 2)
    return codes_of(n)[place], [0, place - 1, place, place + 1, 20 * 4**n - 1]


def one_bad_number(chance, n, values):
    code, places = bad_places_of(chance, n)
    for value in values:
        for place in places:
            fill = chance.choice([NOTHING, NOTHING, 0, 777] if n <= 1 else [NOTHING])
            yield opened(n, 20 * 4**n, fill, [(place, value)])
            yield from asked_for(chance, [code])


def several_bad_numbers(chance, n):
    """In any order in the line, some of them between readings."""
    length = 20 * 4**n
    numbers = [(place, chance.choice(BAD_READINGS)) for place in chance.sample(range(length), chance.randint(2, 6))]
    numbers += [(place, chance.randint(0, 100_000)) for place in chance.sample(range(length), 3)]
    yield opened(n, length, NOTHING, chance.sample(numbers, len(numbers)))
    yield from asked_for(chance, chance.sample(codes_of(n), 2))


def bad_fill(chance, n, value):
    """All places are bad; then all but the first, all but the first and second, and all but the last."""
    length = 20 * 4**n
    for good in ([], [0], [0, 1], [length - 1]):
        yield opened(n, length, value, [(place, chance.choice([NOTHING, 0, 100_000])) for place in good])
        yield from asked_for(chance, [codes_of(n)[chance.randrange(length)]])


def bad_number_calls():
    chance = random.Random(33)
    for n in range(TABLE_DEEPEST + 1):
        values = BAD_READINGS if n <= 1 else BAD_READINGS[:4] if n <= 3 else [chance.choice(BAD_READINGS)]
        yield from one_bad_number(chance, n, values)
        for _ in range(12 if n <= 3 else 2):
            yield from several_bad_numbers(chance, n)
        for value in BAD_READINGS if n == 0 else BAD_READINGS[:4] if n == 1 else []:
            yield from bad_fill(chance, n, value)
    for n in range(3):
        for place in range(20 * 4**n):
            yield opened(n, 20 * 4**n, chance.choice([NOTHING, 5]), [(place, chance.choice(BAD_READINGS))])
            code = chance.choice(codes_of(n))
            yield sounding_line(chance.choice(CALLS), chance.choice(DESKS), triangle_text(code), 5)


def other_lengths():
    """One too short and one too long, none and one, another degree's, the longest; with and without a bad number, or
    filled with them. Then the right one."""
    chance = random.Random(34)
    for n in range(TABLE_DEEPEST + 1):
        right = 20 * 4**n
        lengths = [0, 1, right - 1, right + 1, right // 4, right * 4, LONGEST_TABLE, 81920]
        for length in dict.fromkeys(x for x in lengths if x <= LONGEST_TABLE and x != right):
            numbers = chance.choice([[], [(length - 1, 1250)], [(0, -2)], [(length // 2, 100_001)]]) if length else []
            yield opened(n, length, chance.choice([NOTHING, 0, 100_000, -2]), numbers)
            yield from asked_for(chance, [codes_of(n)[0], chance.choice(codes_of(n))][: 2 if n <= 4 else 1])
            if n <= 4:
                yield owned(right, chance.choice([NOBODY, 1, 2, 3]))
                yield from asked_for(chance, [codes_of(n)[0]])
        yield from [opened(n, right, NOTHING, [(right - 1, 1250)]), "work-out"]
        yield from asked_for(chance, [codes_of(n)[0], codes_of(n)[-1]])


ABOVE_TABLES = [7, 8, 15, 23, 24]
ABOVE_ALL = [25, 26, 31, 32, 33, 255, 256, 258, 2**16 + 1, 2**31, 2**32, 2**32 + 1, 2**32 + 6, 2**63, MOST - 1, MOST]


def with_degree(code, n):
    """The code with another number in the field of its degree."""
    return code & ~(31 << 54) | (n & 31) << 54


def other_degrees():
    """Codes of the table's degree, as far as a word's field goes, and of another one."""
    chance = random.Random(35)
    for n in ABOVE_TABLES + ABOVE_ALL:
        for length in (0, 1, 20, 80) + ((81920, LONGEST_TABLE) if n in (7, 24, 25, MOST) else ()):
            fill = chance.choice([NOTHING, 0, 100_000, -2, 2**31 - 1])
            yield opened(n, length, fill, [(length - 1, 100_001)] if length == 80 else [])
            like = random_code(chance, n) if n <= DEEPEST else with_degree(random_code(chance, 3), n) & ~(2**54 - 1)
            yield from asked_for(chance, [like, random_code(chance, chance.randrange(TABLE_DEEPEST + 1))])


def filled_line(line, numbers):
    """As many of the places and numbers as a line of 1000 bytes has room for."""
    for place, number in numbers:
        longer = f"{line} {place} {number}"
        if len(longer) > 1000:
            return line
        line = longer
    return line


def many_numbers(chance, length, values):
    return [(chance.randrange(length), chance.choice(values)) for _ in range(250)]


def many_places():
    # "of two for one PLACE the later holds"
    chance = random.Random(36)
    for n in range(TABLE_DEEPEST + 1):
        length = 20 * 4**n
        for values in ([0, 7, 100_000, NOTHING], [0, NOTHING, 5, 6, 7, 8, -2], [-2, 100_001, 3]):
            yield filled_line(opened(n, length, NOTHING), many_numbers(chance, length, values))
            yield from ["readings", "work-out", "coarse"]
            yield from asked_for(chance, [codes_of(n)[chance.choice([0, 1, 2, 3, length - 1])]])
        for values in ([0, 1, 2], [1, 2, 0, 1, 2, 3, 255], [3, 77, 255]):
            yield f"table {n}"
            yield from [filled_line(owned(length, NOBODY), many_numbers(chance, length, values)), "owners"]
            yield from asked_for(chance, [codes_of(n)[chance.choice([0, 1, 2, 3, length - 1])]])
    for fill, one, two in itertools.product((NOTHING, 4), (7, -2, NOTHING, 100_001), (7, -2, NOTHING, 100_001)):
        yield opened(0, 20, fill, [(5, one), (5, two)])
        yield from ["get 201", "readings"]
    yield "table 0"
    for fill, one, two in itertools.product((0, 1, 2, 7), (0, 1, 2, 3, 255), (0, 1, 2, 3, 255)):
        yield owned(20, fill, [(5, one), (5, two)])
        yield from ["owners", f"{chance.choice(CALLS[:4])} 1 201".replace("set 1 201", "set 1 201 9"), "owners"]


def staying_calls():
    """Tables that are refused or can not be read, and other lists that can not be read, while another table stays open
    as it is, good or bad; and a fresh table in place of one with readings and owners."""
    chance = random.Random(37)
    codes = [read_triangle("100"), read_triangle("1001")]
    unreadable = [line for line in written(UNREADABLE_ON_TABLE) if line.startswith(("owners ", "counts ", "sums "))]
    for line in ("table 1 80 -1 1 1250", "table 0 20 -1 3 -2", "table 0 19 5", "table 7 3 500", "table 25 20 -1"):
        yield from [line, chance.choice(["owners 80 0 1 1 2 2", "owners 20 2 1 0", "owners 20 1 0 3"]), "work-out"]
        for n in ABOVE_TABLES + ABOVE_ALL:
            yield from [f"table {n}", *SHOWN, f"get {triangle_text(chance.choice(codes))}"]
        for other in written(UNREADABLE_ON_TABLE)[:12] + [filled("table 0 20 -1", 1001)]:
            yield from [other, *SHOWN]
        for other in chance.sample(unreadable, 16) + [filled(f"{x} 20 0", 1001) for x in ("owners", "counts", "sums")]:
            yield from [other, "owners", "coarse"]
        yield from asked_for(chance, codes)
    for n in range(TABLE_DEEPEST + 1):
        code = codes_of(n)[-1]
        for line in (f"table {n}", opened(n, 20 * 4**n, NOTHING)):
            yield from [f"table {n}", *own_lines("take set", code, n), f"get {triangle_text(code)}", "owners"]
            yield from [line, *SHOWN, f"get {triangle_text(code)}", own_line("set", code, n), own_line("take", code, n)]


def full_tables():
    """A reading, or a bad number, in every place of a table of degree 5 or 6; and an owner."""
    chance = random.Random(38)
    yield from ["table 5 20480 1", "readings", "work-out", "coarse"]
    yield from ["table 6 81920 0", "owners 81920 1", "readings", "work-out", "coarse"]
    for place in chosen_places(chance, 6, 30):
        code = codes_of(6)[place]
        yield sounding_line(chance.choice(["clear", "set", "give"]), 1, any_form(chance, code), mm_of(place))
        yield from (f"get {any_form(chance, codes_of(6)[near])}" for near in (place - 1, place))
    yield from SHOWN
    yield from ["table 6 81920 -2", "readings"]
    lists = [(-2, []), (-2, [(81919, NOTHING)]), (-2, [(0, 0), (1, NOTHING), (2, 100_000)]), (0, [(81919, -2)])]
    lists += [(NOTHING, [(81919, 100_001)]), (100_000, [(40960, 2**31 - 1)])]
    for fill, numbers in lists:
        yield opened(6, 81920, fill, numbers)
        yield from all_calls(chance, [codes_of(6)[0], codes_of(6)[40960], codes_of(6)[-1]])
    for n, fill in ((5, 2), (5, 255), (6, 2)):
        yield from [f"table {n}", filled_line(owned(20 * 4**n, fill), many_numbers(chance, 20 * 4**n, [0, 1, 2, 3]))]
        yield from ["owners", *all_calls(chance, [codes_of(n)[0]]), "owners 0 1"]


# ==== The calls: two desks at one table

OTHER_OWNERS = list(range(3, 256))  # These a list can hold, and they are no owners.


def desk_rights():
    """Each call of each desk on a place that is nobody's, its own or the other's, with a reading and without; and what
    the table holds after it."""
    for n in range(TABLE_DEEPEST + 1):
        length = 20 * 4**n
        places = [0, 1, length // 2 - 1, length - 1]
        readings = [NOTHING, 0, 1250, 100_000] if n <= 3 else [1250]
        for at, (mm, owner, desk, call) in enumerate(itertools.product(readings, (NOBODY, *DESKS), DESKS, CALLS)):
            place = places[at % len(places)]
            word = some_form(codes_of(n)[place], at)
            yield from [opened(n, length, NOTHING, [(place, mm)]), owned(length, NOBODY, [(place, owner)])]
            if n > 0 and mm != NOTHING:
                yield from ["work-out"] if n <= 4 else both_laid(n, tallied([(place, mm)]), {})
            yield from [sounding_line(call, desk, word, 700 + at), f"get {word}", *SHOWN[n // 5 :]]


def turns():
    """A place goes from desk to desk: what the one has given back the other may take, and finds no reading."""
    chance = random.Random(50)
    for n in range(TABLE_DEEPEST + 1):
        for place in chosen_places(chance, n, 8 if n <= 3 else 2):
            word = some_form(codes_of(n)[place], place)
            yield from [opened(n, 20 * 4**n, NOTHING, [(place, 9)]), f"take 1 {word}", "work-out"]
            for desk, other in ((1, 2), (2, 1), (2, 1), (1, 2))[: 4 if n <= 4 else 2]:
                yield from [f"take {desk} {word}", f"get {word}", f"take {other} {word}"]
                yield from [f"set {desk} {word} {mm_of(place)}", f"set {other} {word} 5", f"take {desk} {word}"]
                yield from [f"clear {other} {word}", f"give {other} {word}", f"get {word}", *SHOWN]
                yield from [f"give {desk} {word}", f"get {word}"]
                yield from [f"set {desk} {word} 6", f"give {other} {word}", *SHOWN]


def no_desks():
    """Numbers that are no desk's, for a place that is nobody's or a desk's, and for one that holds the same number."""
    chance = random.Random(51)
    for desk in OTHER_DESKS:
        for n in (0, chance.choice([1, 2, 3])):
            place = chance.randrange(20 * 4**n)
            word = any_form(chance, codes_of(n)[place])
            yield from [opened(n, 20 * 4**n, NOTHING, [(place, 1250)]), *mostly_worked_out(place)]
            for owner in dict.fromkeys([NOBODY, *DESKS, desk & 255]):
                yield owned(20 * 4**n, NOBODY, [(place, owner)])
                yield from (sounding_line(call, desk, word, 5) for call in CALLS)
                yield from SHOWN
    for n in (4, 5, 6):
        yield f"table {n}"
        for desk in (0, 3, 2**32 + 1, MOST):
            yield from (sounding_line(call, desk, triangle_text(codes_of(n)[desk % 20]), 5) for call in CALLS[:4])
        yield "owners"


def owner_lengths():
    """Lists of owners of other lengths: one too short and one too long, none and one, another degree's, the longest.
    Then the right one."""
    chance = random.Random(52)
    for n in range(TABLE_DEEPEST + 1):
        right = 20 * 4**n
        lengths = [0, 1, 2, 19, 20, 21, 79, 80, 81, 256, 81919, 81920, 81921]
        lengths += [right - 1, right + 1, right // 4, right * 4]
        for length in dict.fromkeys(x for x in lengths if x <= LONGEST_TABLE and x != right):
            places = [0, min(length, right) - 1] if length and n <= 4 else [chance.randrange(right)]
            for place in dict.fromkeys(places):
                yield opened(n, right, NOTHING, [(place, 1250)])
                fill, desk = chance.choice([NOBODY, NOBODY, 1, 2, 3]), chance.choice(DESKS)
                here = [(place, chance.choice([NOBODY, desk, 3 - desk]))] if place < length else []
                yield owned(length, fill, here)
                yield from (sounding_line(call, desk, any_form(chance, codes_of(n)[place]), 9) for call in CALLS)
                yield from SHOWN if length < 81919 or n == 6 else ["owners"]
        yield from [owned(right, 2, [(0, 0)] if n <= 4 else []), "work-out"]
        yield from all_calls(chance, [codes_of(n)[0], codes_of(n)[-1]])


def one_other_owner(chance, n, values):
    code, places = bad_places_of(chance, n)
    for value in values:
        for place in places:
            desk = chance.choice(DESKS)
            owners = [(place_of(code), chance.choice([NOBODY, desk, 3 - desk])), (place, value)]
            yield owned(20 * 4**n, chance.choice([NOBODY, NOBODY, 1, 2]) if n <= 1 else NOBODY, owners)
            yield from (sounding_line(call, desk, any_form(chance, code), 9) for call in CALLS)
            yield from SHOWN


def other_owners():
    """Another number among the owners: in the code's place, beside it, in the first and in the last, in every place of
    a table of degree 0 to 2; each other number; several of them, and all."""
    chance = random.Random(53)
    for n in range(TABLE_DEEPEST + 1):
        values = [3, 4, 127, 128, 254, 255] if n <= 1 else [3, 255] if n <= 3 else [chance.choice(OTHER_OWNERS)]
        yield opened(n, 20 * 4**n, NOTHING, [(0, 4), (20 * 4**n - 1, 5)])
        yield from one_other_owner(chance, n, values)
    for n in range(3):
        yield f"table {n}"
        for place in range(20 * 4**n):
            yield owned(20 * 4**n, chance.choice([NOBODY, 1, 2]), [(place, chance.choice(OTHER_OWNERS))])
            word = triangle_text(chance.choice(codes_of(n)))
            yield from (sounding_line(call, chance.choice(DESKS), word, 5) for call in chance.sample(CALLS, 2))
    yield "table 0 20 7"
    for value in OTHER_OWNERS:
        for own, place in ((value % 20, value % 20), (value % 20, (value + 7) % 20)):
            yield owned(20, chance.choice([NOBODY, 1, 2]), [(place, value)])
            word = some_form(codes_of(0)[own], value)
            yield from [sounding_line(chance.choice(CALLS[:4]), chance.choice(DESKS), word, 5), "owners"]
        yield from [owned(20, value), sounding_line(chance.choice(CALLS[:4]), 1, "100", 5)]
        yield from [owned(20, value, [(0, 1)]), sounding_line(chance.choice(CALLS[:4]), 1, "100", 5), "owners"]


# ==== The calls: counts and sums


def family(chance, n, place):
    """Readings of a parent's four children, one of them none, and of some others; the place of a child with a reading
    and of the one without."""
    readings = [0, 100_000, chance.randint(1, 99_999), NOTHING]
    numbers = dict(enumerate(chance.sample(readings, 4), 4 * place))
    child = next(at for at, x in numbers.items() if x > 0)
    empty = next(at for at, x in numbers.items() if x == NOTHING)
    for other in chance.sample(range(20 * 4**n), 3):
        numbers.setdefault(other, chance.randint(0, 100_000))
    return numbers, child, empty


def on_family(chance, n, numbers, child, empty, lists):
    """A table with these readings and with lists of counts and of sums as given; and each call, on the child with a
    reading or on the one without, by its owner. Then the sums are worked out, and a call is made again."""
    length, desk = 20 * 4**n, chance.choice(DESKS)
    calls = [("take", child), ("set", empty), ("set", child), ("get", child), ("clear", child), ("give", empty)]
    yield from [opened(n, length, NOTHING, numbers.items()), owned(length, NOBODY, [(child, desk), (empty, desk)])]
    yield from lists
    for call, place in chance.sample(calls, 6) if n <= 4 else calls[:1] + calls[2:3] + calls[4:]:
        yield sounding_line(call, desk, any_form(chance, codes_of(n)[place]), 700)
    yield from [*SHOWN, "work-out", sounding_line("set", desk, any_form(chance, codes_of(n)[child]), 9), "coarse"]


def both_laid(n, true, more):
    """Both lists, true but for what there is more of counts and of sums at a place."""
    length = len(parents_of(n))
    return [parents_laid(kind, length, 0, true[kind], more.get(kind, {})) for kind in PARENT_LISTS]


def stored_otherwise(chance, n, place, numbers, child):
    """Lists of counts and of sums that differ from the readings, or that only look as if."""
    true = tallied(numbers.items())
    parents = len(parents_of(n))
    # The parent concerned; another one, which does not matter; all others.
    beside = [(place + 1) % parents], [(place - 1) % parents], *([set(range(parents)) - {place}] if n <= 2 else [])
    for places, kinds in itertools.product(([place], *beside), (["counts"], ["sums"], PARENT_LISTS)):
        yield both_laid(n, true, {kind: {at: chance.choice(OFF_BY[:5]) for at in places} for kind in kinds})
    for off in OFF_BY:
        yield both_laid(n, true, {chance.choice(PARENT_LISTS): {place: off}})
    # As the lists will be when the reading is cleared or given back, when 700 is set there, and when 700 is set beside.
    for count, sum_ in ((-1, -numbers[child]), (0, 700 - numbers[child]), (1, 700)):
        yield both_laid(n, true, {"counts": {place: count}, "sums": {place: sum_}})
    # As if -1 were a reading, the other way round, and as if a reading of 0 did not count.
    for count, sum_ in ((1, -1), (-1, 1), (-1, 0)):
        yield both_laid(n, true, {"counts": {place: count}, "sums": {place: sum_}})
    # The one for the other, one place further, and none at all.
    yield [parents_laid("counts", parents, 0, true["sums"]), parents_laid("sums", parents, 0, true["counts"])]
    yield [parents_laid(kind, parents, 0, {(at + 1) % parents: x for at, x in true[kind].items()}) for kind in true]
    yield []


def off_calls():
    chance = random.Random(71)
    for n in range(1, TABLE_DEEPEST + 1):
        last = len(parents_of(n)) - 1
        for place in [0, last, chance.randint(1, last - 1)][: 3 if n <= 4 else 2]:
            numbers, child, empty = family(chance, n, place)
            some = list(stored_otherwise(chance, n, place, numbers, child))
            for lists in some if n <= 3 else some[:3] + chance.sample(some[3:], 10 if n == 4 else 3):
                yield from on_family(chance, n, numbers, child, empty, lists)


def parent_lengths():
    """Lists of counts or of sums of other lengths, the other one right or wrong too: none and one, one too short and
    one too long, another degree's, the longest; with a table that is good. Then the right ones."""
    chance = random.Random(72)
    for n in range(TABLE_DEEPEST + 1):
        right = len(parents_of(n))
        place = chance.randrange(20 * 4**n)
        code = codes_of(n)[place]
        desk, word, parent = desk_of(place), triangle_text(code), triangle_text(parent_code(code))
        lengths = [0, 1, 19, 20, 21, 79, 80, 81, right - 1, right + 1, right * 4, 20479, 20480, 20481]
        lengths = [x for x in dict.fromkeys(lengths) if 0 <= x <= LONGEST_PARENTS]
        yield from [f"table {n}", *own_lines("take set", code, place)]
        for kind, length in itertools.product(PARENT_LISTS, [x for x in lengths if x != right]):
            fill = chance.choice([0, 0, 1, MOST])
            yield f"{kind} {laid(length, fill, [(length - 1, chance.choice(OFF_BY))] if length else [])}"
            some = CALLS if n <= 4 or abs(length - right) == 1 else chance.sample(CALLS[:4], 1)
            yield from (sounding_line(call, desk, word, 700) for call in some)
            yield from [f"coarse {parent}", "coarse", f"get {word}", "work-out"]
            yield from [f"coarse {parent}", *SHOWN[:2]] if n <= 2 else []
            # Its right length again, so that the other list alone is wrong next; filled with 0, and so off.
            yield f"{kind} {laid(right, 0)}"
        for one, two in zip(chance.sample(lengths, 6), chance.sample(lengths, 6)):
            yield from [f"counts {one} 0", f"sums {two} 0", "work-out", f"coarse {parent}"]
            yield from [sounding_line(chance.choice(CALLS[:4]), desk, word, 7), f"coarse {parent}", "coarse"]
        yield from [f"counts {right} 5", f"sums {right} 7", "coarse" if n <= 3 else f"coarse {parent}", "work-out"]
        yield from ["coarse", *(sounding_line(call, desk, word, 701) for call in CALLS), *SHOWN]


def parents_of_other_degrees():
    """At the degrees that no table has: lists that would do for another degree."""
    chance = random.Random(73)
    for n in ABOVE_TABLES + ABOVE_ALL:
        like = random_code(chance, n - 1) if n <= DEEPEST else with_degree(random_code(chance, 3), n - 1) & ~(2**54 - 1)
        yield opened(n, chance.choice([0, 20, 80]), chance.choice([NOTHING, 5, -2]))
        for length in chance.sample([0, 1, 20, 80, 20480, 20481], 2):
            yield from [f"counts {length} 1", f"sums {length} 2", "coarse", "work-out"]
            other = random_code(chance, chance.randrange(TABLE_DEEPEST + 1))
            yield from (f"coarse {any_form(chance, x)}" for x in (like, other, break_a(like, chance)))
            yield from (sounding_line(call, 1, any_form(chance, like), 5) for call in chance.sample(CALLS, 2))


def many_parents():
    # "of two for one PLACE the later holds"
    chance = random.Random(74)
    for n in range(1, TABLE_DEEPEST + 1):
        length, numbers = len(parents_of(n)), [0, 1, 2, 3, 4, 5, 1250, 400_000, 2**32, MOST]
        yield opened(n, 20 * 4**n, NOTHING, [(place, mm_of(place)) for place in chosen_places(chance, n, 12)])
        for kind in PARENT_LISTS:
            for fill in (0, 1) if n <= 3 else (0,):
                yield from [filled_line(f"{kind} {length} {fill}", many_numbers(chance, length, numbers)), "coarse"]
                yield from (f"coarse {any_form(chance, chance.choice(parents_of(n)))}" for _ in range(3))
        yield from ["work-out", "coarse", *asked_parents(n)[:: 1 + length // 40]]
        yield from all_calls(chance, chance.sample(codes_of(n), 2))
    yield "table 1"
    for kind, fill, one, two in itertools.product(PARENT_LISTS, (0, MOST), (0, 7, MOST), (0, 7, MOST)):
        yield from [f"{kind} {laid(20, fill, [(5, one), (5, two)])}", "coarse 201", f"{kind} 20 0"]


# ==== Internal checks of what the calls on a table are answered

TABLE_CALLS = "|".join(TABLE_FORMS)
TABLE_LINE = re.compile(rf"[ \t\r]*({TABLE_CALLS})(?![^ \t\r])")
UNREAD = ("error: write it as ", "error: a line has ")


class Soundings:
    """An open table as "a simple map from code to reading or nothing", a map from code to the desk that has taken it,
    and maps from the code of a parent to the count and to the sum, which each call changes by its own reading. No call
    changes what is wrong with the lists of readings and owners, or with a length."""

    def __init__(self, n, numbers=None):
        self.n = n
        self.map = {}
        self.bad = []
        if numbers and (min(numbers) < -1 or max(numbers) > 100_000):
            self.bad = [place for place, x in enumerate(numbers) if x < -1 or x > 100_000]
        self.right_length = numbers is None or self.has_right_length(numbers)
        if numbers and self.right_length:
            self.map = {code: x for code, x in zip(codes_of(n), numbers) if x != -1}
        self.lay([0] * (20 * 4**n if numbers is None else len(numbers)))
        self.stored, self.many_parents, self.beyond = {}, {}, {}
        for kind in PARENT_LISTS:
            self.lay_parents(kind, [0] * (len(parents_of(n)) if n <= TABLE_DEEPEST else 0))

    def has_right_length(self, numbers):
        return self.n <= TABLE_DEEPEST and len(numbers) == len(codes_of(self.n))

    def lay(self, owners):
        """A list of owners; `desk` has those that are not 0, as far as there are codes for them."""
        self.many_owners = len(owners)
        self.right_owners = self.has_right_length(owners)
        kinds = set(owners)
        self.others = [place for place, x in enumerate(owners) if x > 2] if max(kinds, default=0) > 2 else []
        self.desk = {}
        if self.n <= TABLE_DEEPEST and any(kinds):
            self.desk = {code: x for code, x in zip(codes_of(self.n), owners) if x}
        kinds = {x for x in kinds if x <= 2}
        self.only_kind = kinds.pop() if len(kinds) == 1 else None

    def lay_parents(self, kind, numbers):
        """A list of counts or of sums; `stored` has those that are not 0, as far as there are codes for them. `beyond`:
        no four readings come to any of them."""
        self.many_parents[kind] = len(numbers)
        self.stored[kind] = {}
        kinds = set(numbers)
        if self.n <= TABLE_DEEPEST and any(kinds):
            self.stored[kind] = {code: x for code, x in zip(parents_of(self.n), numbers) if x}
        self.beyond[kind] = min(kinds, default=0) > {"counts": 4, "sums": 4 * 100_000}[kind]

    def right_parents(self):
        return self.n <= TABLE_DEEPEST and set(self.many_parents.values()) == {len(parents_of(self.n))}

    def stored_for(self, parent):
        return tuple(self.stored[kind].get(parent, 0) for kind in PARENT_LISTS)

    def off_by(self, code):
        """How far what is stored for the code's parent is from its children's readings; nothing, where there is no such
        parent or the lists are not those of a table."""
        if self.n == 0 or not (self.right_length and self.right_parents()) or code not in place_of_each(self.n):
            return None
        count, sum_ = self.stored_for(parent_code(code))
        for place in child_places(parent_code(code)):
            x = self.map.get(codes_of(self.n)[place], -1)
            if is_reading(x):
                count, sum_ = count - 1, sum_ - x
        return count, sum_

    def is_off(self, code):
        off = self.off_by(code)
        return self.n > 0 and (any(self.beyond.values()) if off is None else off != (0, 0))

    def add(self, code, count, sum_):
        """One reading more or less, or another one, for the code's parent."""
        for kind, more in zip(PARENT_LISTS, (count, sum_)) if self.n > 0 else ():
            self.stored[kind][parent_code(code)] = self.stored[kind].get(parent_code(code), 0) + more

    def own_refusals(self):
        return when(1, self.n > 24) | when(20, 7 <= self.n <= 24)

    def owner_of(self, code):
        """Whose the code is; if it has no place in the list of owners, whose all places are, if they are one's."""
        if self.n <= TABLE_DEEPEST and place_of_each(self.n).get(code, self.many_owners) < self.many_owners:
            return self.desk.get(code, 0)
        return self.only_kind

    def refusals(self, call, desk, code, mm):
        wrong = self.own_refusals()
        if call != "work-out":
            wrong |= code_refusals(code) | when(20, degree_of(code) != self.n - (call == "coarse"))
        if call != "coarse":
            wrong |= when(22, not self.right_length) | when(23, self.bad)
        if call != "get":
            wrong |= when(28, not self.right_parents())
        if call not in CALLS[:4]:
            return wrong
        owner = self.owner_of(code)
        wrong |= when(21, call == "set" and mm not in range(100_001)) | when(24, desk != 1 and desk != 2)
        wrong |= when(25, self.others or not self.right_owners) | when(26, owner not in (None, 0, desk))
        return wrong | when(27, owner == 0 and call != "take") | when(29, self.is_off(code))

    def work_out(self):
        self.stored = {kind: {} for kind in PARENT_LISTS}
        for code, x in self.map.items():
            self.add(code, 1, x)

    def answer(self, call, desk, code, mm):
        if call == "get":
            return f"{self.map[code]} mm" if code in self.map else "no reading"
        if call == "coarse":
            return coarse_text(*self.stored_for(code))
        if call == "work-out":
            self.work_out()
        elif call == "take":
            self.desk[code], self.only_kind = desk, None
        elif call == "set":
            self.add(code, code not in self.map, mm - self.map.get(code, 0))
            self.map[code] = mm
        elif code in self.map:
            self.add(code, -1, -self.map.pop(code))
        if call == "give":
            del self.desk[code]
            self.only_kind = None
        return "ok"

    def readings(self):
        count = sum(x in range(100_001) for x in self.map.values())
        shown = [place_text(code, x) for code, x in sorted(self.map.items())]
        return readings_text(count, shown)

    def owners(self):
        count = sum(x in (1, 2) for x in self.desk.values())
        return owners_text(count, [owner_text(code, x) for code, x in sorted(self.desk.items())])

    def parents(self):
        shown = sorted({code for numbers in self.stored.values() for code, x in numbers.items() if x})
        return parents_text([f"{triangle_text(code)} {coarse_text(*self.stored_for(code))}" for code in shown])


# What was asked, what holds, what the table had in the code's place before the call (a reading or nothing, and the
# owner), the least bad place of the readings, and what is wrong with the owners: the first place with another number,
# and how many there are; and how many counts and sums there are, and how far the parent's are off.
SOUNDED = "call n no held desk code mm had owner bad other many_owners many_parents off"
Sounded = namedtuple("Sounded", SOUNDED, defaults=[0, 0, 0, None, None, [], [], 0, (), None])


def refused_text(no, bad):
    return f"refused {no}: {REFUSALS[no]}" + (f"; place {min(bad)}" if no == 23 else "")


def read_sounding(call, words):
    """The desk, the code and the reading, zeros where there are none."""
    if call == "work-out":
        return 0, 0, 0
    desk, *words = [0] + words if call in ("get", "coarse") else [read_number(words[0])] + words[1:]
    return desk, read_code(words[0]), read_signed(words[1]) if call == "set" else 0


def shown_refusals(table, call):
    """Of a call that shows a whole list."""
    wrong = {
        "readings": when(22, not table.right_length),
        "owners": when(25, not table.right_owners),
        "parents": when(28, not table.right_parents()),
    }
    return table.own_refusals() | wrong[call]


def watched_call(table, call, words, text):
    """A call on the open table, compared with the map's answer. `coarse` without a code shows the parents."""
    shows = call in SHOWN and not words
    if shows:
        call = "parents" if call == "coarse" else call
    asked = (0, 0, 0) if shows else read_sounding(call, words)
    held = shown_refusals(table, call) if shows else table.refusals(call, *asked)
    no, code = first(held), asked[1]
    before = [table.map.get(code), table.owner_of(code), table.bad[:1], table.others[:1], table.many_owners]
    before += [tuple(table.many_parents.values()), table.off_by(code)]
    if no:
        found = refused_text(no, table.bad)
    else:
        found = getattr(table, call)() if shows else table.answer(call, *asked)
    must(text == found, "as the map answers", call, words, text[:200], found[:200])
    return Sounded(call, table.n, no, frozenset(held), *asked, *before)


def watched_calls(calls, answers):
    """Every readable call on a table, with what it was answered."""
    table = None
    for line, text in zip(calls, answers):
        if TABLE_LINE.match(line) and not text.startswith(UNREAD):
            call, *words = parts_of(line)
            if call != "table":
                must((text == NO_TABLE) == (table is None), "no table is open", line)
            if call == "table":
                n, *numbers = read_table(words)
                held = when(1, n > 24) | when(20, 7 <= n <= 24) if not numbers else set()
                must(text.startswith(f"refused {first(held)}: " if held else f"degree {n}, "), "opened", line, text)
                table = table if held else Soundings(n, *numbers)
                yield Sounded(call, n, first(held), frozenset(held))
            elif table is not None and call == "owners" and words:
                (owners,) = read_owners(words)
                must(text == f"{len(owners)} places", "laid", line, text)
                table.lay(owners)
                yield Sounded("lay", table.n, 0, frozenset(), other=table.others[:1], many_owners=len(owners))
            elif table is not None and call in PARENT_LISTS:
                (numbers,) = read_parents(words)
                must(text == f"{len(numbers)} places", "laid", line, text)
                table.lay_parents(call, numbers)
            elif table is not None:
                yield watched_call(table, call, words, text)


def check_sounding_numbers(call, numbers, seen):
    """Each refusal that the call can give is given, and no other. Each is seen alone, and each two hold at once and the
    earlier one is answered, but for 26 and 27, which can not. All without a third, but for 1: where that holds the
    code's degree is not the table's, for 20, or the lists are too short for the table's degree, for 22, 25 and 28; for
    20, if only the table's degree is given; and for 24: what is no desk owns nothing, for 26 and 27."""
    must({x.no for x in seen} == {0, *numbers}, "just these refusals, and answers", call)
    held = {x.held for x in seen}
    never = {(26, 27), (1, 20)} if call == "work-out" else {(26, 27)}
    for some in [set(x) for x in alone_and_in_pairs(numbers) if x and x not in never]:
        must(any(x.held >= some and x.no == first(some) for x in seen), "at once", call, some)
        may = {20, 22, 25, 28} if 1 in some else {22, 28} if 20 in some and call == "work-out" else set()
        may |= {26, 27} if 24 in some and call != "take" else set()
        must(any(some <= x <= some | may for x in held), "without a third", call, some)
    must(all(x & {20, 22, 28} for x in held if 1 in x), "1 is not alone", call)
    must(not any({26, 27} <= x for x in held), "26 and 27 at once", call)


def beside(found, n, places, own):
    """Notes where a bad place lies: the first, the last, before or after the code's own, or there."""
    for bad in places:
        found |= {(n, "first", bad == 0), (n, "last", bad == 20 * 4**n - 1)}
        found.add((n, "beside", (bad > own) - (bad < own)))


def check_bad_places(call, no, seen):
    """23 is answered at every degree, with the first place, the last, the code's own, and one on either side of it; so
    is 25, for the first place with another number."""
    found = set()
    for x in (x for x in seen if x.no == no):
        beside(found, x.n, x.bad if no == 23 else x.other, place_of(x.code))
    for n in range(TABLE_DEEPEST + 1):
        must({(n, "first", True), (n, "last", True)} <= found, "the first and the last", call, no, n)
        must({(n, "beside", side) for side in (-1, 0, 1)} <= found, "its own, before and after", call, no, n)


def check_sounded_codes(seen):
    """Every place to degree 4 is taken and set, and to degree 3 asked for, cleared and given back; each call is
    answered at every degree; and each bound of the readings is tried at every degree."""
    answered = {(x.call, x.code) for x in seen if x.no == 0}
    for n in range(TABLE_DEEPEST + 1):
        for call in SOUNDING_NUMBERS:
            if n <= (4 if call in ("take", "set") else 3):
                must(all((call, code) in answered for code in codes_of(n)), "every place", call, n)
            must(any(x.call == call and x.n == n and x.no == 0 for x in seen), "answered", call, n)
        tried = {x.mm: x.no for x in seen if x.call == "set" and x.n == n and x.held <= {21}}
        must(all(tried.get(mm) == (0 if is_reading(mm) else 21) for mm in READING_BOUNDS), "the bounds", n)


def check_desks(call, seen):
    """At every degree each desk calls for what is nobody's, its own and the other's, with a reading and without, and at
    the first and the last place. Each number that is no desk is refused, on a free place and on an owned one; and lists
    of owners of every length about the right one."""
    for n in range(TABLE_DEEPEST + 1):
        here = [x for x in seen if x.n == n and x.held <= {26, 27}]
        met = {(x.desk, x.owner, x.had is None) for x in here}
        all_kinds = itertools.product(DESKS, (NOBODY, *DESKS), (False, True) if n <= 3 else (False,))
        must(met >= set(all_kinds), "desks and owners", call, n)
        must({place_of(x.code) for x in here} >= {0, 20 * 4**n - 1}, "the first and the last place", call, n)
        lengths = {x.many_owners for x in seen if x.n == n and x.no == 25}
        right = 20 * 4**n
        must(lengths - {right} >= {0, 1, right - 1, right + 1} | {81920, LONGEST_TABLE} - {right}, "lengths", call, n)
    for desk in OTHER_DESKS:
        owners = {x.owner for x in seen if x.desk == desk and x.no == 24}
        must(owners >= {NOBODY, *DESKS}, "no desk", call, desk)


def check_parents(call, seen):
    """29 is answered at every degree from 1 on, at the first place and the last, for the count alone, the sum alone and
    both, too many and too few, and as far off as can be; 28 at every degree, for each list alone, at every length about
    the right one."""
    must(not any(29 in x.held for x in seen if x.n == 0), "no parents at degree 0", call)
    for n in range(1, TABLE_DEEPEST + 1):
        off = [x for x in seen if x.n == n and x.no == 29]
        signs = {tuple((y > 0) - (y < 0) for y in x.off) for x in off}
        must(n > 3 or signs >= {(1, 0), (-1, 0), (0, 1), (0, -1)}, "too many and too few", call, n, signs)
        must(len({(x != 0, y != 0) for x, y in signs}) == 3, "the count, the sum and both", call, n, signs)
        places = {place_of(parent_code(x.code)) for x in off}
        must(places >= {0, len(parents_of(n)) - 1}, "the first and the last parent", call, n)
    for n in range(TABLE_DEEPEST + 1):
        right = len(parents_of(n))
        wrong = {x.many_parents for x in seen if x.n == n and x.no == 28}
        least = {max(right - 1, 0), right + 1, *((0, 1, 20480, LONGEST_PARENTS) if n <= 4 else ())} - {right}
        must(wrong >= {(x, right) for x in least} | {(right, x) for x in least}, "lengths of counts and sums", call, n)
    must(max(max(x.off) for x in seen if x.no == 29) > 2**63, "far off", call)


def check_soundings(calls, answers):
    # "Any sequence of calls answers as a simple map from code to reading or nothing."
    seen = list(watched_calls(calls, answers))
    for call, numbers in SOUNDING_NUMBERS.items():
        some = [x for x in seen if x.call == call]
        check_sounding_numbers(call, numbers, some)
        check_bad_places(call, 23, some)
        if call != "get":
            check_bad_places(call, 25, some)
            check_desks(call, some)
            check_parents(call, some)
    for call, numbers in COARSE_NUMBERS.items():
        check_sounding_numbers(call, numbers, [x for x in seen if x.call == call])
    check_sounded_codes(seen)
    must({x.no for x in seen if x.call == "table"} == {0, 1, 20}, "tables refused")
    must({x.no for x in seen if x.call == "readings"} == {0, 1, 20, 22}, "readings refused")
    must({x.no for x in seen if x.call == "owners"} == {0, 1, 20, 25}, "owners refused")
    must({x.no for x in seen if x.call == "parents"} == {0, 1, 20, 28}, "parents refused")


def check_totals(calls, answers):
    """The counts that `coarse` shows come to as many as there are readings by the answered calls since a fresh table,
    and the sums to what these come to."""
    # "the total over all parents equals the count and sum of readings present according to the history of calls from a
    # fresh table (no readings, no owners, sums 0)"
    compared = dict.fromkeys(range(TABLE_DEEPEST + 1), 0)
    n, present = 0, None
    for line, text in zip(calls, answers):
        if not TABLE_LINE.match(line) or text.startswith(("error: ", "refused ")):
            continue
        call, *words = parts_of(line)
        if call in ("table", "owners", "counts", "sums") and (words or call == "table"):
            # Where a list is laid, it is no history of calls from a fresh table.
            n, present = (read_number(words[0]), {}) if len(words) == 1 else (0, None)
        elif present is not None and call == "set":
            present[read_code(words[1])] = int(words[2])
        elif present is not None and call in ("clear", "give"):
            present.pop(read_code(words[1]), None)
        elif present is not None and call == "coarse" and not words and n > 0:
            shown = re.findall(r" count (\d+) sum (\d+)", text)
            total = sum(int(count) for count, _ in shown), sum(int(sum_) for _, sum_ in shown)
            told = len(present), sum(present.values())
            must(total == told, "the totals are those of the calls", n, total, told, text[:200])
            compared[n] += told[0] > 1
    must(all(compared[n] > (100 if n <= 3 else 3) for n in range(1, TABLE_DEEPEST + 1)), "totals compared", compared)


def kept_apart(chance, n):
    """A history; and for each time that desk 1 has a triangle, the same without the calls that desk 2 makes meanwhile:
    all that desk 1 is answered there, and that anyone is who asks for the triangle, stays the same."""
    pool = chance.sample(codes_of(n), 3)
    first_lines = [opened(n, 20 * 4**n, NOTHING, [(place_of(pool[0]), 5), (place_of(pool[1]), 6)]), "work-out"]
    asked = [(chance.choice(CALLS), chance.choice(DESKS), chance.choice(pool)) for _ in range(120)]
    lines = [sounding_line(call, desk, triangle_text(code), at) for at, (call, desk, code) in enumerate(asked)]
    answers = answers_to(first_lines + lines)[2:]
    count = 0
    for start, (call, desk, code) in enumerate(asked):
        if (call, desk, answers[start]) == ("take", 1, "ok"):
            gives = (at for at in range(start, len(asked)) if asked[at] == ("give", 1, code) and answers[at] == "ok")
            end = next(gives, len(asked))
            own = [at for at in range(start + 1, end) if asked[at][0] == "get" or asked[at][1] == 1]
            found = answers_to(first_lines + lines[: start + 1] + [lines[at] for at in own])[start + 3 :]
            for at, text in zip(own, found):
                must(asked[at][2] != code or text == answers[at], "apart from desk 2", asked, start, at)
            count += end - start - 1 - len(own)
    return count


def check_between():
    # "What desk 1 sees of its own triangles doesn't depend on desk 2's calls between its taking one and giving it back"
    chance = random.Random(54)
    must(min(kept_apart(chance, n) for n in (0, 0, 0, 1, 1, 2) for _ in range(4)) > 0, "calls of desk 2 left out")


# ==== The calls: sweeps, examples with the answers written out by hand

SHORT = "refused 9: a lent list is too short: 12 for weights, 6 for triangles"
DEEP = "refused 1: a degree, as field or argument, is above 24"
SWEEP_TEXT = """
    sweep 2 4 0 0 1 0 0 0 1 0 0 -> 1 refused, first at place 1 with 7 | 208C000000000000 0 3888000000000000 4
    sweep 2 0 -> 0 refused |
    sweep 2 1 0 0 -> SHORT | 1
    sweep 2 3 0 0 1 1 0 0 0 0 -1 -> 0 refused | 208C000000000000 3888000000000000 508C000000000000
    sweep 3 3 1 1 1 -1 -1 -1 -> 0 refused | 40C0000000000000 90C0000000000000 3
    sweep 0 1 0 0 1 -> 0 refused | 2000000000000000
    sweep 2 2 0 0 1000000000 0 0 1000000001 -> 1 refused, first at place 1 with 8 | 208C000000000000 0
    sweep 2 2 0 0 0 2147483647 0 0 -> 2 refused, first at place 0 with 7 | 0 0
    sweep 2 2 0 -2147483648 0 0 0 0 -> 2 refused, first at place 0 with 8 | 0 0
    sweep 2 3 0 0 1 0 0 1 -0 0 0 -> 1 refused, first at place 2 with 7 | 208C000000000000 208C000000000000 0
    sweep 24 0 -> 0 refused |
    sweep 24 2 -> 0 refused | 1 2
    sweep 2 0 0 0 1 -> SHORT |
    sweep 2 1 0 0 1 1 0 0 -> SHORT | 1
    sweep 2 3 0 0 1 1 -> SHORT | 1 2 3
    sweep 2 0 0 -> SHORT |
    sweep 2 1 0 0 0 0 -> SHORT | 1
    sweep 25 2 -> DEEP | 1 2
    sweep 25 0 0 0 1 -> DEEP |
    sweep 25 1 0 0 -> DEEP | 1
    sweep 25 1 0 0 0 -> DEEP | 1
    sweep 18446744073709551615 1 0 0 1 -> DEEP | 1
    sweep 4294967298 1 0 0 1 -> DEEP | 1
"""


def sweep_example(line):
    """A line, and its answer with each place as a word."""
    call, text = line.strip().split(" -> ")
    told, _, places = text.partition(" |")
    words = "".join(" " + word_text(int(x, 16)) for x in places.split())
    return call, told.replace("SHORT", SHORT).replace("DEEP", DEEP) + " |" + words


# E3 to E7, 100 for (0,0,1) at degree 0, and the examples of docs/CONSOLE.md.
SWEEP_EXAMPLES = dict(map(sweep_example, SWEEP_TEXT.strip().split("\n")))


# ==== The calls: sweeps of every length, and at every degree


@lru_cache(maxsize=None)
def some_directions():
    """Some 300 that are filed: a share of those of all kinds, and some at random."""
    chance = random.Random(41)
    found = all_directions()[::3] + [(0, 0, 1), (1, 1, 1), (-1, -1, -1), (1, 0, 0), (0, 0, -1)]
    most = [3] * 30 + [10**4] * 30 + [FAR] * 80
    return [d for d in dict.fromkeys(found + [tuple(chance.randint(-m, m) for _ in "xyz") for m in most]) if fits(d)]


def outside(chance):
    """A direction with one coordinate or more outside the bounds, by one or as far as a number goes."""
    d = list(chance.choice([(0, 0, 0), (FAR, -FAR, FAR), chance.choice(some_directions())]))
    for axis in chance.sample((0, 1, 2), chance.choice([1, 1, 1, 2, 3])):
        d[axis] = chance.choice([FAR + 1, -FAR - 1, LEAST_SIGNED, MOST_SIGNED])
    return tuple(d)


def of_kind(chance, no):
    """A direction that is refused by the number, or for 0 filed."""
    return {0: lambda: chance.choice(some_directions()), 7: lambda: (0, 0, 0), 8: lambda: outside(chance)}[no]()


def of_kinds(chance, nos):
    return [of_kind(chance, no) for no in nos]


def some_kinds(chance, many):
    """Filed or refused: none, some, or most of them."""
    return of_kinds(chance, chance.choices((0, 7, 8), weights=chance.choice([(1, 0, 0), (8, 1, 1), (1, 1, 2)]), k=many))


def sweep_line(n, places, numbers):
    return " ".join(map(str, ["sweep", n, places, *numbers]))


def flat(directions):
    return list(itertools.chain.from_iterable(directions))


def enough_places(chance, many):
    """Just enough places for the directions, or more."""
    return chance.choice([many, many, chance.randint(many, MOST_PLACES)])


def good_sweep(chance, directions, n=None):
    n = chance.randint(0, DEEPEST) if n is None else n
    return sweep_line(n, enough_places(chance, len(directions)), flat(directions))


def sweep_lengths():
    """Every count of numbers with every count of places: with directions that are all filed; and filed or refused."""
    chance, degrees = random.Random(42), itertools.cycle(range(DEEPEST + 1))
    for make in (lambda: of_kinds(chance, [0] * 16), lambda: some_kinds(chance, 16)):
        for count in range(MOST_NUMBERS + 1):
            for places in range(MOST_PLACES + 1):
                yield sweep_line(next(degrees), places, flat(make())[:count])


def sweep_degrees():
    """All of some 300 directions at each degree, in sweeps of any length."""
    chance = random.Random(43)
    for n in range(DEEPEST + 1):
        left = chance.sample(some_directions(), len(some_directions()))
        while left:
            many = chance.choice([1, 2, 3, 15, 16, chance.randint(1, 16)])
            yield good_sweep(chance, left[:many], n)
            left = left[many:]


def sweep_parts():
    # "hand later parts of the sweep on as parts that start in the middle of the lent list"
    chance = random.Random(44)
    for n in (0, 2, 5, 13, 24):
        some = some_kinds(chance, 16)
        for at in range(17):
            yield from (good_sweep(chance, one, n) for one in (some[:at], some[at:]))
    for _ in range(30):
        yield good_sweep(chance, [chance.choice(some_directions())] * chance.randint(2, 16))


# ==== The calls: sweeps with refused directions, and refused sweeps


def refused_places():
    """One refused direction in each place of every count of directions, and two in each two places of sixteen, 7 and 8
    in both orders. All of them, all but one, and every choice to five directions."""
    chance = random.Random(45)
    for many in range(1, 17):
        for place in range(many):
            yield from (good_sweep(chance, of_kinds(chance, [no * (k == place) for k in range(many)])) for no in (7, 8))
        for two in itertools.product((7, 8), repeat=2):
            yield good_sweep(chance, of_kinds(chance, (two * 8)[:many]))
    for one, other in itertools.combinations(range(16), 2):
        for nos in itertools.product((7, 8), repeat=2):
            kinds = dict(zip((one, other), nos))
            yield good_sweep(chance, of_kinds(chance, [kinds.get(k, 0) for k in range(16)]))
    for place in range(16):
        yield good_sweep(chance, of_kinds(chance, [(k != place) * chance.choice((7, 8)) for k in range(16)]))
    for many in range(1, 6):
        yield from (good_sweep(chance, of_kinds(chance, nos)) for nos in itertools.product((0, 7, 8), repeat=many))


SWEPT_BOUNDS = [0, 5, FAR, FAR + 1, -FAR, -FAR - 1, LEAST_SIGNED, MOST_SIGNED]


def swept_bounds():
    """Each of the numbers at the bounds on each axis, with each other one on the others."""
    chance = random.Random(46)
    every = list(itertools.product(SWEPT_BOUNDS, repeat=3))
    for n in (0, 3, 24):
        chance.shuffle(every)
        yield from (good_sweep(chance, every[k : k + 16], n) for k in range(0, len(every), 16))
        for x in SWEPT_BOUNDS:
            yield from (good_sweep(chance, [d], n) for d in ((x, 0, 0), (0, x, 0), (0, 0, x), (x, x, x), (5, -7, x)))


def refused_sweeps():
    """A degree above 24 with lists of good and of bad lengths; and a bad length with refused directions in it."""
    chance = random.Random(47)
    for n in ABOVE_ALL:
        for count in (0, 1, 3, 5, 6, 48):
            yield from (sweep_line(n, places, flat(some_kinds(chance, 16))[:count]) for places in (0, 1, 2, 16))
    for nos in ([7] * 16, [8] * 16, [7, 8] * 8):
        for count in (1, 2, 3, 4, 8, 46, 47, 48):
            yield from (sweep_line(24, places, flat(of_kinds(chance, nos))[:count]) for places in (0, 15))


# ==== The calls: lines of a sweep that cannot be read, and lines that can, just

UNREADABLE_SWEEPS = """
    sweep; sweep 2; sweep x; sweep 25; sweep 2 17; sweep 25 17; sweep 25 17 0 0; sweep 2 -1; sweep 2 0x11; sweep 2 00017
    sweep 2 18446744073709551615; sweep 2 4294967296; sweep 2 256; sweep 2 -0; sweep -0 1; sweep 18446744073709551616 1
    sweep 2 1 0 0 1x; sweep 2 1 0x0 0 1; sweep 2 1 0 0 +1; sweep 2 1 0,0,1; sweep 2 1 0, 0, 1; sweep 2 1 (0 0 1)
    sweep 2 1 0 0 2147483648; sweep 2 1 -2147483649 0 0; sweep 2 1 0 4294967297 0; sweep 25 1 0 0 2147483648
    sweep 25 0 0 0 x; sweep 2 0 x; sweep 2 0 0 x; sweep 2 1 0 0 1 # note; sweep 2 1 #; sweep # 2 1; sweep 2 1 0 0 1 |
    sweep 2 1 0 0 0 x; sweep 2 1 0 0 18446744073709551617; sweep 2 1 - 0 1; sweep 2 1 0 0 --1; sweep DEGREE PLACES
    sweep 2 1 NUMBER; sweep 2 [1]; sweep --packed 2; sweep 2 --packed; sweep 2.0 1; sweep 2 1.0; sweep 2 1 0 0 1.0
    sweep 2 1 0 0 −1; sweep 2 1 ٣ 0 0; sweep ٣ 1 0 0 1; sweep 2 1 0 0 1\u00a0; sweep 2 1 0\u00a00 1; sweep 2 0X0f
"""
READABLE_SWEEPS = """
    sweep 0x2 0x1 0 0 1; sweep 0x18 0x10 0 0 1; sweep 024 016 0 0 1; sweep 0x19 1 0 0 1; sweep 025 1 0 0 1
    sweep 0x0000000000000002 0x0000000000000001 0 0 1; sweep 2 1 -0 -000 0001; sweep 2 1 -0 0 -00; sweep 2 1 00 -0001 0
    sweep 0xFFFFFFFFFFFFFFFF 1 0 0 1; sweep 0xffffffffffffffff 0x0 0; sweep 018446744073709551615 1 0 0 0
    sweep 2 1 -0000000002147483648 0 0; sweep 2 1 0 00000000002147483647 0; sweep 2 2 0001000000000 0 0 0 -01000000000 0
    sweep 0000000000000000000000000024 0000000000000000000000000001 1 2 3; sweep 2 0x0f 1 2 3; sweep 2 0x0F 1 2 3
"""


def unreadable_sweeps():
    """What can not be read is said before any refusal."""
    chance = random.Random(48)
    yield from written(UNREADABLE_SWEEPS)
    for count in (49, 50, 51, 52, 54, 64, 96, 300):
        for n, places in ((0, 0), (24, 16), (24, 17), (25, 16)):
            yield sweep_line(n, places, [chance.randint(-9, 9) for _ in range(count)])
    for at in range(MOST_NUMBERS):
        numbers = flat(some_kinds(chance, 16))
        for count in sorted({at + 1, MOST_NUMBERS}):
            words = numbers[:at] + [chance.choice(BAD_SIGNED)] + numbers[at + 1 : count]
            yield as_bytes(sweep_line(chance.choice((0, 24, 25)), chance.choice((0, 16)), words))
    yield from ["sweep 2 1 0 0 1\x00", "sweep 2 1 0 0\x0b1", "sweep 2 1\x0c0 0 1", "sweep 2 1 0 0 \xff"]


def spaced_sweeps():
    """Leading zeros, either case, tabs and carriage returns, and lines of 1000 bytes and more."""
    yield from written(READABLE_SWEEPS)
    yield from ["\tsweep\t2\t1\t0\t0\t1\t", "sweep 2 1 0 0 1\r", "  sweep   2 1  0 0  1  ", "\rsweep\r2\r1 \t\r 0 0 1"]
    yield from ["sweep 2 0\r", " sweep 2 0", "sweep\t2\t0\t", "sweep 2 1 0 0\t\r"]
    for length in (998, 999, 1000, 1001, 1002, 2000, 65536):
        yield filled("sweep 2 3 0 0 1 0 0 0 1 0 0", length)
        yield "sweep 2 1 0 0 " + "0" * (length - 15) + "1"
        yield "sweep 2 1 0 -" + "0" * (length - 16) + "1 0"
        yield " " * (length - len("sweep 2 0")) + "sweep 2 0"
        start = sweep_line(24, 16, [-FAR] * 47)
        yield start + " -" + "0" * (length - len(start) - 12) + str(FAR)
        yield "sweep 2 1 1 0 0"


def sweeps_on_table():
    """A sweep leaves the open table as it is, also one that is refused or can not be read."""
    chance = random.Random(49)
    for line in ("table 1 80 -1 1 1250 79 0", "table 0 20 -1 3 -2", "table 7 3 500"):
        yield line
        for _ in range(6):
            yield from [good_sweep(chance, some_kinds(chance, chance.randint(0, 16))), "get 1001", "readings"]
        for other in ("sweep 25 1", "sweep 1 0 1", "sweep 1"):
            yield from [other, "readings"]


# ==== Internal checks of what sweeps are answered

SWEEP_LINE = re.compile(r"[ \t\r]*sweep(?![^ \t\r])")
SWEEP_ANSWER = re.compile(r"(\d+) refused(?:, first at place (\d+) with (\d))?")
SweepSeen = namedtuple("SweepSeen", "n places numbers held nos")


def check_codes(n, directions, words, told):
    """The codes and what is told of them, against what file answers to each direction: its refusals, in order."""
    single = [call_file(n, *d) for d in directions]
    nos = [int(text.split()[1][:-1]) if text.startswith("refused ") else 0 for text in single]
    must(words == [0 if no else int(text.split()[1], 16) for no, text in zip(nos, single)], "as file", n, directions)
    count, place, no = told
    must(count == sum(x != 0 for x in nos), "how many are refused", n, directions, told)
    if count == 0:
        must(place == no == 0, "all zeros if there is none", n, directions, told)
    else:
        must(nos[place] == no != 0 and not any(nos[:place]), "the first", n, directions, told)
    return tuple(nos)


def seen_sweep(line, text):
    """A sweep that can be read: its answer, or else its refusal, and every place after the call."""
    _, *given = parts_of(line)
    n, places, numbers = read_arguments(["[NUMBER].."], given)
    told, shown = text.split(" |")
    words, before = [int(x, 16) for x in shown.split()], list(range(1, places + 1))
    must(shown == "".join(f" 0x{x:016X}" for x in words) and len(words) == places, "all places", line, text)
    many, left_over = divmod(len(numbers), 3)
    held = {what for what, true in (("1", n > 24), ("length", left_over), ("short", places < many)) if true}
    if held:
        must(told == (DEEP if "1" in held else SHORT) and words == before, "refused, writing nothing", line, text)
        return SweepSeen(n, places, numbers, frozenset(held), ())
    must(words[many:] == before[many:], "later places", line, text)
    answered = tuple(int(x or 0) for x in SWEEP_ANSWER.fullmatch(told).groups())
    directions = [tuple(numbers[k : k + 3]) for k in range(0, len(numbers), 3)]
    return SweepSeen(n, places, numbers, frozenset(), check_codes(n, directions, words[:many], answered))


def check_refused_places(nos_seen, most):
    """Each place of every count of directions is the only refused one, by 7 and by 8. All are refused. And the first
    two that are refused are so by 7 and 8 in both orders."""
    for many in range(1, most + 1):
        for place, no in itertools.product(range(many), (7, 8)):
            must(tuple(no * (k == place) for k in range(many)) in nos_seen, "one refused", many, place, no)
        must(any(len(nos) == many and all(nos) for nos in nos_seen), "all refused", many)
    orders = {tuple(no for no in nos if no)[:2] for nos in nos_seen}
    must({(7, 7), (7, 8), (8, 7), (8, 8)} <= orders, "both orders")


def check_sweeps(calls, answers):
    """Every count of numbers with every count of places, each degree, and every refusal of the whole call, alone and
    with each other one."""
    lines = [(line, text) for line, text in zip(calls, answers) if SWEEP_LINE.match(line)]
    seen = [seen_sweep(line, text) for line, text in lines if not text.startswith(UNREAD)]
    met = {(len(x.numbers), x.places) for x in seen if x.n <= DEEPEST}
    must(met == set(itertools.product(range(MOST_NUMBERS + 1), range(MOST_PLACES + 1))), "every count")
    for n in range(DEEPEST + 1):
        filed_there = {d for x in seen if x.n == n and not x.held for d in threes(x.numbers)}
        must(filed_there >= set(some_directions()), "all of these at every degree", n)
    must({x.held for x in seen} == {frozenset(x) for x in powers(("1", "length", "short"))}, "refused sweeps")
    must({x.n for x in seen if "1" in x.held} >= set(ABOVE_ALL), "the degrees outside")
    check_refused_places({x.nos for x in seen}, MOST_PLACES)


def powers(some):
    return itertools.chain.from_iterable(itertools.combinations(some, k) for k in range(len(some) + 1))


def check_sweep_lines():
    """The answers by hand. And lines that can not be read are all answered by the call's form."""
    for line, text in SWEEP_EXAMPLES.items():
        must(answer(line) == text, "by hand", line, text, answer(line))
    for line in unreadable_sweeps():
        must(answer(line) == "error: write it as sweep DEGREE PLACES [NUMBER]..", "unreadable", line)


# ==== The calls: lists of cells, examples with the answers written out by hand

CELLS_WORDS = {
    "INVALID": "reason 1: invalid",
    "LESS": "reason 2: less than the word before",
    "EQUAL": "reason 3: equal to the word before",
    "INSIDE": "reason 4: inside an earlier one",
}
CELLS_TEXT = """
    check-cells 10003 1001 101 -> accepted
    check-cells 1001 10012 -> place 1 INSIDE
    check-cells -> accepted
    check-cells 100 -> accepted
    check-cells 0x2000000000000000 -> accepted
    check-cells 511333333333333333333333333 -> accepted
    check-cells 0x0 -> place 0 INVALID
    check-cells 0xFFFFFFFFFFFFFFFF -> place 0 INVALID
    check-cells 600 -> place 0 INVALID
    check-cells 0x2000000000000001 -> place 0 INVALID
    check-cells 1001 10003 -> place 1 LESS
    check-cells 0x2050000000000000 0x208C000000000000 -> place 1 LESS
    check-cells 0x208C000000000000 0x2050000000000000 -> accepted
    check-cells 1001 1001 -> place 1 EQUAL
    check-cells 1001 0x2050000000000000 -> place 1 EQUAL
    check-cells 100 1000 -> place 1 INSIDE
    check-cells 1000 100 -> place 1 LESS
    check-cells 100 101 110 111 200 -> accepted
    check-cells 101 111 110 -> place 2 LESS
    check-cells 200 111 -> place 1 LESS
    check-cells 511 100 -> place 1 LESS
    check-cells 100 1013 -> accepted
    check-cells 1000 1001 1002 1003 -> accepted
    check-cells 100 1000 1001 1002 1003 -> place 1 INSIDE
    check-cells 1000 1001 1002 1003 100 -> place 4 LESS
    check-cells 100 1000 10003 1001 10012 1003 101 -> place 1 INSIDE
    check-cells 1000 10003 -> place 1 INSIDE
    check-cells 10003 1000 -> place 1 LESS
    check-cells 10003 1001 10012 -> place 2 INSIDE
    check-cells 10003 1001 1003 101 -> accepted
    check-cells 1001 1003 10012 -> place 2 LESS
    check-cells 1001 1003 1001 -> place 2 LESS
    check-cells 1001 10012 10012 -> place 1 INSIDE
    check-cells 1001 1001 10012 -> place 1 EQUAL
    check-cells 1001 1001 0x0 -> place 1 EQUAL
    check-cells 1001 0x0 -> place 1 INVALID
    check-cells 0x0 0x0 -> place 0 INVALID
    check-cells 0x0 1001 1001 -> place 0 INVALID
    check-cells 1001 0x2050000000000001 -> place 1 INVALID
    check-cells 1001 0x2098000000000001 -> place 1 INVALID
    check-cells 1001 0x208C000000000004 -> place 1 INVALID
    check-cells 1001 1003 6001 -> place 2 INVALID
    check-cells 100333333333333333333333333 101000000000000000000000000 -> accepted
    check-cells 100000000000000000000000000 100000000000000000000000001 -> accepted
    check-cells 100 100000000000000000000000000 -> place 1 INSIDE
    check-cells 100000000000000000000000000 100 -> place 1 LESS
    check-cells 10000000000000000000000000 100000000000000000000000001 -> place 1 INSIDE
    check-cells 10000000000000000000000001 100000000000000000000000003 -> place 1 LESS
"""


def cells_example(line):
    """A line, and its answer with the reason in words."""
    call, text = line.strip().split(" -> ")
    told, _, reason = text.rpartition(" ")
    return call, f"{told} {CELLS_WORDS[reason]}" if reason in CELLS_WORDS else text


# The examples of docs/CONSOLE.md and docs/CELLS.md are among them.
CELLS_EXAMPLES = dict(map(cells_example, CELLS_TEXT.strip().split("\n")))


# ==== The calls: one cell, and two


def cell_form(chance, word):
    """As document 01 writes it, if it can be read so, or as a word; else as a word, also without the zeros at its
    beginning."""
    text, words = triangle_text(word), [f"0x{word:016X}", f"0x{word:016x}"]
    return chance.choice([text, text, *words] if shortest_form(word) == text else [*words, f"0x{word:x}"])


def cells_line(chance, words):
    return " ".join(["check-cells", *(cell_form(chance, word) for word in words)])


def one_cell():
    """Codes of every degree, also with each field broken, alone and in pairs; some with each value that a field must
    not have, and with each bit turned over; the least and the greatest words, single bits, and any 64 bits."""
    chance = random.Random(81)
    words = [0, 3, 60, 63, MOST - 63, MOST - 3, MOST] + [1 << bit for bit in range(64)]
    for n in range(DEEPEST + 1):
        words += [random_code(chance, n) for _ in range(8)]
        for breaks in alone_and_in_pairs(CODE_BREAKS):
            words += [broken(random_code(chance, n), breaks, chance) for _ in range(2)]
    for n in (0, 1, 5, 12, 23, 24):
        words += damaged_fields(random_code(chance, n))
    for n in (0, 3, 24):
        words += [random_code(chance, n) ^ 1 << bit for bit in range(64)]
    words += [chance.getrandbits(64) for _ in range(100)]
    yield from (cells_line(chance, [word]) for word in words)


def walk(code, n):
    """The code and all inside it to degree n: a parent before its children, and these by digit."""
    found = [code]
    for child in child_codes(code) if degree_of(code) < n else ():
        found += walk(child, n)
    return found


def walk_all(n):
    return [code for side in codes_of(0) for code in walk(side, n)]


def two_cells():
    """Every two sides; every two triangles of one side to degree 2, and of each side to degree 1; and a share of all
    to degree 2. The same digits on two sides, at every degree."""
    chance = random.Random(82)
    pairs = list(itertools.product(codes_of(0), repeat=2))
    for some in [walk(codes_of(0)[0], 2), *(walk(side, 1) for side in codes_of(0))]:
        pairs += itertools.product(some, repeat=2)
    every = walk_all(2)
    pairs += [chance.choices(every, k=2) for _ in range(900)]
    for n in range(DEEPEST + 1):
        for one, other in (chance.sample(SIDES, 2) for _ in range(6)):
            code = random_code(chance, n)
            pairs.append([make_code(one, digits_of(code)), make_code(other, digits_of(code))])
    yield from (cells_line(chance, pair) for pair in pairs)


def tail(chance, digit, length):
    """Digits that begin with the one, if there are any."""
    return [digit, *chance.choices(chance.choice([(0,), (3,), (0, 1, 2, 3)]), k=length)][:length]


def parted(chance, m, n, shared):
    """Codes of degrees m and n on one side that part after the shared digits. One that has no more of them is above the
    other, or the same."""
    side, digits = chance.choice(SIDES), digits_of(random_code(chance, shared))
    ends = zip(chance.sample(range(4), 2), (m, n))
    return [make_code(side, digits + tail(chance, digit, degree - shared)) for digit, degree in ends]


def two_degrees():
    """Codes of every two degrees, on two sides that rise and on two that fall; and on one side, parted at once, at the
    last, in between, or not; and where one has only zeros after the digits of the other."""
    chance = random.Random(83)
    for m, n in itertools.product(range(DEEPEST + 1), repeat=2):
        two = sorted(chance.sample(SIDES, 2))
        for sides in (two, two[::-1]):
            codes = [make_code(side, digits_of(random_code(chance, k))) for side, k in zip(sides, (m, n))]
            yield cells_line(chance, codes)
        least = min(m, n)
        for shared in sorted({0, max(least - 1, 0), least, chance.randint(0, least)}):
            yield cells_line(chance, parted(chance, m, n, shared))
        side, digits = chance.choice(SIDES), digits_of(random_code(chance, least))
        yield cells_line(chance, [make_code(side, digits + [0] * (k - least)) for k in (m, n)])


def every_digit():
    """Codes that part at each place, with every two digits there: of degree 24, and of any other degrees."""
    chance = random.Random(94)
    for place in range(DEEPEST):
        side, digits = chance.choice(SIDES), digits_of(random_code(chance, place))
        for two in itertools.permutations(range(4), 2):
            for degrees in ((DEEPEST, DEEPEST), chance.choices(range(place + 1, DEEPEST + 1), k=2)):
                ends = [tail(chance, digit, n - place) for digit, n in zip(two, degrees)]
                yield cells_line(chance, [make_code(side, digits + end) for end in ends])


def every_three():
    """Every list of three of the codes in the picture of docs/CELLS.md and an invalid word."""
    return itertools.product("100 1000 10003 1001 10012 1003 101 0x0".split(), repeat=3)


def every_few():
    """These; and every list of four of five codes."""
    for some in every_three():
        yield "check-cells " + " ".join(some)
    for some in itertools.product("100 1000 10003 1001 101".split(), repeat=4):
        yield "check-cells " + " ".join(some)


# ==== The calls: good lists of cells


def by_path(codes):
    return sorted(codes, key=path)


def beside_path(chance, code, deepest):
    """A triangle that parts from the code's after some of its digits."""
    digits = digits_of(code)
    at = chance.randrange(len(digits))
    most = deepest - at
    length = min(most, chance.choice([1, 1, 2, 3, chance.randint(1, most)]))
    return make_code(side_of(code), digits[:at] + tail(chance, (digits[at] + chance.randrange(1, 4)) % 4, length))


def good_list(chance, many, deepest=DEEPEST):
    """A list that is accepted: triangles anywhere and close to others, of which none is inside another."""
    found, there, above = [], set(), set()
    while len(found) < many:
        code = random_code(chance, chance.choice([deepest, chance.randint(0, deepest)]))
        if found and chance.randrange(3):
            near = chance.choice(found)
            code = beside_path(chance, near, deepest) if degree_of(near) else code
        ups = set(paths_above(code))
        if path(code) not in there and path(code) not in above and not ups & there:
            found.append(code)
            there.add(path(code))
            above |= ups
    found = by_path(found)
    must(first_offence(found) is None, "a good list", found)
    return found


def covering(chance, code, n):
    """Triangles that together are the code's, divided along one path down to degree n."""
    if degree_of(code) == n:
        return [code]
    four, at = child_codes(code), chance.randrange(4)
    return four[:at] + covering(chance, four[at], n) + four[at + 1 :]


MANY_CELLS = 33  # So many, and two more, have room in a line in any form.


def good_cells():
    """Of each greatest degree, lists of some lengths. Four children, and what else is one triangle together. The sides
    in order, and all triangles of degree 1."""
    chance = random.Random(84)
    for deepest in range(DEEPEST + 1):
        for many in (1, 2, 3, 4, 6, 10, 20 if deepest < 2 else MANY_CELLS):
            yield from (cells_line(chance, good_list(chance, many, deepest)) for _ in range(3))
    for n in range(DEEPEST):
        code = random_code(chance, n)
        yield cells_line(chance, child_codes(code))
        yield from (cells_line(chance, covering(chance, code, min(n + k, DEEPEST))) for k in (2, 3, 10))
    for n in (0, 1):
        yield "check-cells " + " ".join(map(triangle_text, codes_of(n)))


# ==== The calls: damaged lists of cells

# Each damage is done to a good list at a place. It tells the list then and what offends, or None if it can't be done.


def put_in(words, place, word):
    return words[:place] + [word] + words[place:]


def invalid_word(chance, word):
    """With one field broken."""
    return chance.choice([x for x in (one(word, chance) for one in CODE_BREAKS) if x != word])


def descendant(chance, code):
    """One inside the code's, which is not of degree 24."""
    most = DEEPEST - degree_of(code)
    more = tail(chance, chance.randrange(4), chance.choice([1, 1, most, chance.randint(1, most)]))
    return make_code(side_of(code), digits_of(code) + more)


def ancestor(chance, code):
    """One that the code's is inside, which is not of degree 0."""
    n = degree_of(code)
    return make_code(side_of(code), digits_of(code)[: chance.choice([0, n - 1, n - 1, chance.randrange(n)])])


def make_invalid(chance, words, place):
    return words[:place] + [invalid_word(chance, words[place])] + words[place + 1 :], Offence(place, 1)


def put_invalid(chance, words, place):
    word = chance.choice([0, MOST, invalid_word(chance, random_code(chance, chance.randint(0, DEEPEST)))])
    return put_in(words, place, word), Offence(place, 1)


def repeat(chance, words, place):
    return put_in(words, place + 1, words[place]), Offence(place + 1, 3)


def exchange(chance, words, place):
    """With the next one."""
    if place + 1 == len(words):
        return None
    return words[:place] + [words[place + 1], words[place]] + words[place + 2 :], Offence(place + 1, 2)


def put_inside(chance, words, place):
    """After the word, one inside it."""
    if degree_of(words[place]) == DEEPEST:
        return None
    return put_in(words, place + 1, descendant(chance, words[place])), Offence(place + 1, 4)


def put_inside_before(chance, words, place):
    if degree_of(words[place]) == DEEPEST:
        return None
    return put_in(words, place, descendant(chance, words[place])), Offence(place + 1, 2)


def put_above(chance, words, place):
    """After the word, one that it is inside."""
    if degree_of(words[place]) == 0:
        return None
    return put_in(words, place + 1, ancestor(chance, words[place])), Offence(place + 1, 2)


def put_above_before(chance, words, place):
    """Where the word before is inside it too, it is less than that."""
    if degree_of(words[place]) == 0:
        return None
    above = ancestor(chance, words[place])
    too = place > 0 and path(above) in paths_above(words[place - 1])
    return put_in(words, place, above), Offence(place, 2) if too else Offence(place + 1, 4)


def repeat_later(chance, words, place):
    """After the word, an earlier one again."""
    return (put_in(words, place + 1, chance.choice(words[:place])), Offence(place + 1, 2)) if place else None


def put_inside_later(chance, words, place):
    """After the word, one inside an earlier one: 2 and 4 hold, and 2 decides."""
    some = [code for code in words[:place] if degree_of(code) < DEEPEST]
    if not some:
        return None
    return put_in(words, place + 1, descendant(chance, chance.choice(some))), Offence(place + 1, 2)


def put_above_later(chance, words, place):
    some = [code for code in words[:place] if degree_of(code) > 0]
    if not some:
        return None
    return put_in(words, place + 1, ancestor(chance, chance.choice(some))), Offence(place + 1, 2)


ORDER_DAMAGES = [repeat, exchange, put_inside, put_inside_before, put_above, put_above_before]
ORDER_DAMAGES += [repeat_later, put_inside_later, put_above_later]
DAMAGES = [put_invalid, make_invalid, *ORDER_DAMAGES]


def damaged(chance, words, place, damage):
    """The list that is damaged at the place, and what offends, or None."""
    done = damage(chance, words, place)
    if done is not None:
        must(first_offence(done[0]) == done[1], "what offends", damage.__name__, *done)
    return done


def damaged_often(chance, words, times):
    """In several ways, one after the other. The invalid words come last, since the other ways need codes."""
    for damage in sorted(chance.choices(DAMAGES, k=times), key=DAMAGES.index, reverse=True):
        done = damage(chance, words, chance.randrange(len(words)))
        words = words if done is None else done[0]
    return words


def ends_and_middle(many):
    return sorted({0, 1, many // 2, many - 2, many - 1} & set(range(many)))


def damaged_cells():
    """Good lists of some lengths, damaged in each way at the first, a middle and the last place."""
    chance = random.Random(85)
    for many in (1, 2, 3, 5, 8, 14, MANY_CELLS):
        for place, damage in itertools.product(ends_and_middle(many), DAMAGES):
            for _ in range(4):
                done = damaged(chance, good_list(chance, many, chance.randint(2, DEEPEST)), place, damage)
                if done is not None:
                    yield cells_line(chance, done[0])


def also_invalid(chance, done, break_one):
    """The offending word is invalid too, if it can be broken so."""
    words, found = done
    word = break_one(words[found.place], chance)
    words = words[: found.place] + [word] + words[found.place + 1 :]
    if word != done[0][found.place]:
        must(first_offence(words) == Offence(found.place, 1), "1 is the least", words)
    return words


def several_reasons():
    """Each damage, with the offending word broken in each way; or put in twice, of which the first offends."""
    chance = random.Random(86)
    for many in (2, 3, 9):
        for place, damage in itertools.product(ends_and_middle(many), ORDER_DAMAGES):
            for break_one in CODE_BREAKS:
                done = damaged(chance, good_list(chance, many), place, damage)
                if done is not None:
                    yield cells_line(chance, also_invalid(chance, done, break_one))
            if done is not None:
                words, found = done
                twice = put_in(words, found.place, words[found.place])
                must(first_offence(twice) == found, "the first one offends", twice)
                yield cells_line(chance, twice)


def several_offences():
    """Lists damaged in some ways, one after the other; turned round; shuffled; and any words."""
    chance = random.Random(87)
    for at in range(500):
        words = good_list(chance, chance.randint(2, 24), chance.randint(2, DEEPEST))
        yield cells_line(chance, damaged_often(chance, words, 2 + at % 4))
    for _ in range(60):
        words = good_list(chance, chance.randint(2, 30))
        yield cells_line(chance, words[::-1])
        yield cells_line(chance, sorted(words))
        yield cells_line(chance, chance.sample(words, len(words)))
        yield cells_line(chance, [random_code(chance, chance.randint(0, 3)) for _ in range(chance.randint(2, 6))])
        yield cells_line(chance, [chance.getrandbits(64) for _ in range(chance.randint(2, 30))])


# ==== The calls: lists of cells as long as a line, lines that cannot be read, and lines that can, just


@lru_cache(maxsize=1 << 14)
def shortest_form(word):
    text = triangle_text(word)
    return text if read_triangle(text) == word else f"0x{word:x}"


def shortest_line(words):
    return " ".join(["check-cells", *map(shortest_form, words)])


def as_many_as_fit(words, room=1000):
    while len(shortest_line(words)) > room:
        words = words[:-1]
    return words


def long_cell_lists(chance):
    """Good lists that fill a line: of degree 2; of degree 1 with some of them divided; of degree 24; and of any."""
    yield codes_of(2)
    some = set(chance.sample(codes_of(1), 31))
    yield by_path(x for code in codes_of(1) for x in (child_codes(code) if code in some else [code]))
    yield covering(chance, codes_of(0)[7], DEEPEST)
    yield by_path({random_code(chance, DEEPEST) for _ in range(60)})
    yield from (good_list(chance, 150, deepest) for deepest in (3, 5, 9))


def one_word_often(line, text):
    """As often as the line has room, and once more; and filled up to 1000 bytes, and to 1001."""
    while len(line) + 1 + len(text) <= 1000:
        line += " " + text
    return [line, line + " " + text, filled(line, 1000, "\t"), filled(line, 1001)]


def long_cells():
    """Filled up with spaces to 1000 bytes, and to 1001. Damaged close to the end and at the beginning. And one word as
    often as the line has room."""
    chance = random.Random(88)
    for long_list in long_cell_lists(chance):
        words = as_many_as_fit(long_list)
        yield from (filled(shortest_line(words), length) for length in (1000, 1001))
        few = as_many_as_fit(words, 1000 - 28)
        for place, damage in itertools.product(ends_and_middle(len(few)), DAMAGES):
            done = damaged(chance, few, place, damage)
            if done is not None:
                yield shortest_line(done[0])
    for text in ("100", "511333333333333333333333333", "0x0", "0x2000000000000000", "0xffffffffffffffff"):
        yield from one_word_often("check-cells", text)


UNREADABLE_CELLS = """
    check-cells x; check-cells 0; check-cells 1; check-cells 10; check-cells 100 10; check-cells 100 x 101
    check-cells x 100 101; check-cells 100 101 x; check-cells 0x0 x; check-cells 600 600 x; check-cells 1001 1001 1004
    check-cells 100 1000 10000 800; check-cells 1001 10003 120; check-cells 100,101; check-cells 100, 101
    check-cells 100.; check-cells 100 101,; check-cells [100]; check-cells [100 101]; check-cells (100)
    check-cells 100 # note; check-cells # 100; check-cells #; check-cells 100 #101; check-cells CODE
    check-cells [CODE]..; check-cells 100 ..; check-cells -v; check-cells -v 100; check-cells 100 -v; check-cells --
    check-cells -- 100; check-cells -100; check-cells examples/cells/good; check-cells check 100
    check-cells check-cells; check-cells 100 check-cells 101; check-cells 0x; check-cells 100 0x
    check-cells 0x20000000000000000; check-cells 0x00000000000000000; check-cells 100 0x20000000000000000
    check-cells 0X2000000000000000; check-cells 2305843009213693952; check-cells 100 2050000000000000
    check-cells 0x200000000000000g; check-cells 0x2000_0000_0000_0000; check-cells 1000000000000000000000000000
    check-cells 100 1010000000000000000000000000; check-cells 100 1O1; check-cells 10003 0x2050000000000000,
    check-cells "100"; check-cells 100\u00a0101; check-cells 100 101\u00a0; check-cells ١٠٠; check-cells 100 φ
    check-cells é; check-cells accepted; check-cells place 1 reason 4
"""


def unreadable_cells():
    """What can not be read is said before anything that offends."""
    chance = random.Random(89)
    yield from written(UNREADABLE_CELLS)
    for many in (1, 2, 3, 7, MANY_CELLS):
        for at in range(many):
            for word in chance.sample(BAD_TABLE_CODES, 3 if many > 7 else 8):
                words = good_list(chance, many) if chance.randrange(2) else [random_code(chance, 2)] * many
                forms = [cell_form(chance, x) for x in words]
                yield as_bytes(" ".join(["check-cells", *forms[:at], word, *forms[at + 1 :]]))
    yield from ["check-cells 100\x00", "check-cells 100\x0b101", "check-cells\t100\x0c", "check-cells \xff"]
    yield filled(shortest_line(as_many_as_fit(codes_of(2), 990)), 998) + " x"


READABLE_CELLS = """
    check-cells 0x0 0x00; check-cells 0x00 0x0000000000000000; check-cells 0x1; check-cells 0x2000000000000000 0x1
    check-cells 0xa000000000000000 0xA800000000000000; check-cells 0xA800000000000000 0xa800000000000000
    check-cells 0x208c000000000000 0x2050000000000000 101; check-cells 000 100; check-cells 100 2000000000000000
    check-cells 000; check-cells 0003; check-cells 6001; check-cells 711; check-cells 711333333333333333333333333
    check-cells 100 600; check-cells 100 000; check-cells 511 600; check-cells 511 711; check-cells 600 700
    check-cells 0x20000000000000; check-cells 0xfffffffffffffff; check-cells 0xaBcDeF0123456789 100
    check-cells 0xaBc0000000000000; check-cells 0xB800000000000000 0xbE00000000000000
"""


def spaced_cells():
    """Either case, tabs and carriage returns, and lines of 1000 bytes and more."""
    yield from written(READABLE_CELLS)
    yield from ["\tcheck-cells\t10003\t1001\t101\t", "check-cells 1001 10012\r", "  check-cells   1001  10012  "]
    yield from ["\rcheck-cells\r1001\r1001", "check-cells\r", "\tcheck-cells\t", "  check-cells  ", "check-cells \t\r "]
    for length in (998, 999, 1000, 1001, 1002, 2000, 65536):
        yield filled("check-cells", length)
        yield filled("check-cells 1001 10012", length, "\r")
        yield " " * (length - len("check-cells 1001 10003")) + "check-cells 1001 10003"
        yield "check-cells 1001" + " " * (length - 20) + "1001"
        yield "check-cells 10003 1001 101"


def cells_on_table():
    """A list of cells leaves the open table as it is, also one that offends or can not be read."""
    chance = random.Random(90)
    for line in ("table 1 80 -1 1 1250 79 0", "table 0 20 -1 3 -2", "table 7 3 500"):
        yield line
        for damage in (None, *DAMAGES, None):
            words = good_list(chance, chance.randint(1, 9))
            done = damage and damaged(chance, words, chance.randrange(len(words)), damage)
            yield from [cells_line(chance, done[0] if done else words), "get 1001", "readings"]
        for other in ("check-cells", "check-cells x", "check-cells 100 1"):
            yield from [other, "readings"]


# ==== Internal checks of the order of cells, and of what lists of them are answered

CELLS_LINE = re.compile(r"[ \t\r]*check-cells(?![^ \t\r])")
CELLS_ANSWER = re.compile("accepted|place ([0-9]+) (reason ([1-4]): .*)")
CellsSeen = namedtuple("CellsSeen", "words place reason")
LITERAL_CELLS = 64  # To this length of a list, each word is asked whether it is inside each other one.


def aligned(code):
    """The order in another way: by side; by all twenty-four digits as one number, zeros beyond the degree; then by
    degree."""
    return code >> 59, code >> 6 & 2**48 - 1, degree_of(code)


@lru_cache(maxsize=1 << 14)
def climbed(code):
    """Its parent, the parent's parent, and so on."""
    found = []
    while degree_of(code) > 0:
        code = parent_code(code)
        found.append(code)
    return tuple(found)


def is_inside(code, other):
    """The other has the same side, and a beginning of the code's digits but not all."""
    length = len(path(other))
    return length < len(path(code)) and path(code)[:length] == path(other)


def inside_others(codes):
    """Those that are inside another one: as written, that one is the beginning of them, but not all."""
    texts = tuple(map(triangle_text, codes))
    return {code for code, text in zip(codes, texts) if text[:-1].startswith(texts)}


def corners_inside(code, other):
    """Another triangle, that holds all three corners of the code's."""
    three = [exact(p) for p in corners(code)]
    return code != other and all(at_least_zero(*x) for p in three for x in determinants(corners(other), p))


def check_pair(x, y):
    """The order in two ways; and inside in four."""
    must((path(x) < path(y)) == (aligned(x) < aligned(y)), "the order", x, y)
    must((path(x) == path(y)) == (aligned(x) == aligned(y)) == (x == y), "equal", x, y)
    must((path(x) in paths_above(y)) == is_inside(y, x) == (x in climbed(y)), "inside", x, y)
    must(inside_others([x, y]) == when(x, is_inside(x, y)) | when(y, is_inside(y, x)), "inside another", x, y)
    # Document 01: "codes of one degree being compared as 64-bit words"
    must(degree_of(x) != degree_of(y) or (path(x) < path(y)) == (x < y), "codes of one degree", x, y)


def check_cell_order():
    """The order of all triangles to degree 3 is that of a walk through the tree, and those inside another come next
    after it. A choice of pairs at all degrees."""
    every = walk_all(3)
    must(by_path(reversed(every)) == every and sorted(every, key=aligned) == every, "the order of the walk")
    must(all(path(x) < path(y) for x, y in zip(every, every[1:])), "rising")
    few = walk_all(2)
    for i, x in enumerate(few):
        next_after = i + len(walk(x, 2))
        for j, y in enumerate(few):
            must((path(x) < path(y)) == (i < j), "the place in the walk", x, y)
            must(is_inside(y, x) == (i < j < next_after), "inside", x, y)
    for x, y in itertools.product(walk_all(1) + few[3::17], repeat=2):
        must(corners_inside(y, x) == is_inside(y, x), "inside by the corners", x, y)
    chance = random.Random(91)
    for x, y in itertools.product(chance.sample(every, 200), repeat=2):
        check_pair(x, y)
    for m, n in itertools.product(range(DEEPEST + 1), repeat=2):
        check_pair(random_code(chance, m), random_code(chance, n))
        for shared in range(0, min(m, n) + 1, 3):
            check_pair(*parted(chance, m, n, shared))


@lru_cache(maxsize=1 << 14)
def is_code(word):
    """The word that its own side and digits make."""
    return degree_of(word) <= 24 and side_of(word) in SIDES and make_code(side_of(word), digits_of(word)) == word


def three_hold(words):
    # "accept a list exactly when every word is a valid triangle code, the words rise without repeats, and none lies
    # inside another"
    if not all(map(is_code, words)):
        return False
    there = set(words)
    apart = all(there.isdisjoint(climbed(code)) for code in words)
    if len(words) <= LITERAL_CELLS:
        must(apart == (not inside_others(words)), "inside another", words)
    return all(aligned(x) < aligned(y) for x, y in zip(words, words[1:])) and apart


def reason_again(word, before):
    """At a place where nothing earlier offends."""
    if not is_code(word):
        return 1
    if aligned(word) <= aligned(before):
        return 2 if aligned(word) < aligned(before) else 3
    # docs/CELLS.md: "Where a word is inside an earlier one and offends in nothing else, that one is the word before".
    must(before in climbed(word), "the word before", word, before)
    return 4


def check_offence(words, place, reason):
    """A list is accepted exactly when the three conditions hold. Else they hold up to the place that is answered, and
    not with it."""
    if place is None:
        must(three_hold(words), "accepted", words)
        return
    must(three_hold(words[:place]) and not three_hold(words[: place + 1]), "the first offending place", words, place)
    must(not three_hold(words), "not accepted", words)
    again = reason_again(words[place], words[place - 1] if place else None)
    must(reason == again, "the least reason", words, place, reason, again)


def seen_cells(line, text):
    (words,) = read_arguments(["[CODE].."], parts_of(line)[1:])
    place, told, reason = CELLS_ANSWER.fullmatch(text).groups()
    must(told is None or told in CELLS_WORDS.values(), "in words", line, text)
    seen = CellsSeen(words, *(x and int(x) for x in (place, reason)))
    check_offence(*seen)
    return seen


def which_place(seen):
    """The first place that a reason can have, the last one, or between them."""
    names = set()
    if seen.place == (0 if seen.reason == 1 else 1):
        names.add("first")
    if seen.place == len(seen.words) - 1:
        names.add("last")
    return names or {"middle"}


def check_cells_met(lists):
    """Each reason at the first, a middle and the last place, and each refusal of a word likewise. With 1, words that
    would be less, equal and inside too; and with 2, ones that are inside an earlier one."""
    met = {(x.reason, name) for x in lists if x.reason for name in which_place(x)}
    must(met == set(itertools.product((1, 2, 3, 4), ("first", "middle", "last"))), "every reason", met)
    invalid = [(x, x.words[x.place]) for x in lists if x.reason == 1]
    met = {(first(code_refusals(word)), name) for x, word in invalid for name in which_place(x)}
    must(met == set(itertools.product((1, 2, 3, 4), ("first", "middle", "last"))), "every refusal", met)
    met = set()
    for x, word in invalid:
        if x.place:
            own, before = path(word), path(x.words[x.place - 1])
            met |= when("less", own < before) | when("equal", own == before) | when("more", own > before)
            met |= when("inside", before in paths_above(word))
    must(met == {"less", "equal", "more", "inside"}, "invalid, and more", met)
    less = [x for x in lists if x.reason == 2]
    both = {any(is_inside(x.words[x.place], y) for y in x.words[: x.place]) for x in less}
    must(both == {False, True}, "less, and inside or not")
    must({x.words[x.place] in x.words[: x.place - 1] for x in less} == {False, True}, "less, and repeated or not")


def check_pairs_met(lists):
    """Of lists of two: every answer for every two degrees, and for every two sides. And what is not in the order of the
    64-bit words, both ways."""
    pairs = [(x.words, x.reason) for x in lists if len(x.words) == 2 and x.reason != 1]
    met = {(*map(degree_of, words), reason) for words, reason in pairs}
    for m, n in itertools.product(range(DEEPEST + 1), repeat=2):
        for reason in (None, 2, *when(3, m == n), *when(4, m < n)):
            must((m, n, reason) in met, "every two degrees", m, n, reason)
    met = {tuple(map(side_of, words)) for words, _ in pairs}
    must(met == set(itertools.product(SIDES, repeat=2)), "every two sides")
    met = {(one < other, reason) for (one, other), reason in pairs if one != other}
    must(met == {(True, None), (False, None), (True, 2), (False, 2), (True, 4)}, "not as 64-bit words", met)


def check_cell_lists(calls, answers):
    lines = [(line, text) for line, text in zip(calls, answers) if CELLS_LINE.match(line)]
    lists = [seen_cells(line, text) for line, text in lines if not text.startswith(UNREAD)]
    check_cells_met(lists)
    check_pairs_met(lists)
    accepted = {len(x.words) for x in lists if x.reason is None}
    must(accepted >= {0, 1, 2, 3, 4, 6, 10, 20, MANY_CELLS, 80} and max(accepted) > 150, "accepted", accepted)


def check_cell_lines():
    """The answers by hand. And lines that can not be read are all answered by the call's form."""
    for line, text in CELLS_EXAMPLES.items():
        must(answer(line) == text, "by hand", line, text, answer(line))
    for line in unreadable_cells():
        must(answer(line) == "error: write it as check-cells [CODE]..", "unreadable", line)


# ==== The calls: lists to be mended, examples with the answers written out by hand

# After the arrow the two counts, and the places of the three lists: a code as document 01 writes it, a word, or a
# number. 3..13 are the numbers from 3 to 13.
MEND_TEXT = """
    mend-cells 5 5 5 1003 1001 1000 1002 1003 -> 1 2 | 100 2..5 | 1003 100 3 4 5 | 3 5 3 4 5
    mend-cells 0 0 0 -> 0 0 | | |
    mend-cells 1 0 1 100 -> SHORT | 1 | | 1
    mend-cells 0 1 1 100 -> SHORT | | 1 | 1
    mend-cells 1 1 0 100 -> SHORT | 1 | 1 |
    mend-cells 0 0 0 0x0 -> SHORT | | |
    mend-cells 0 0 0 100 -> SHORT | | |
    mend-cells 64 64 64 -> 0 0 | 1..64 | 1..64 | 1..64
    mend-cells 1 1 1 100 -> 1 0 | 100 | 1 | 1
    mend-cells 3 2 1 100 -> 1 0 | 100 2 3 | 1 2 | 1
    mend-cells 1 2 3 511333333333333333333333333 -> 1 0 | 511333333333333333333333333 | 1 2 | 1 2 3
    mend-cells 1 1 1 0x0 -> 0 1 | 1 | 0x0 | 1
    mend-cells 2 2 2 0x0 0x0 -> 0 2 | 1 2 | 0x0 0x0 | 1 1
    mend-cells 3 4 5 600 600 000 -> 0 3 | 1 2 3 | 0xC000000000000000 0xC000000000000000 0x0 4 | 1 1 1 4 5
    mend-cells 4 4 4 0x2640000000000000 0xFFFFFFFFFFFFFFFF 0x2010000000000000 0x2000000000000040 -> 0 4 | 1..4
        | 0x2640000000000000 0xFFFFFFFFFFFFFFFF 0x2010000000000000 0x2000000000000040 | 1 1 1 1
    mend-cells 2 2 2 101 100 -> 2 0 | 100 101 | 1 2 | 1 2
    mend-cells 2 2 2 1001 10003 -> 2 0 | 10003 1001 | 1 2 | 1 2
    mend-cells 2 2 2 10003 1001 -> 2 0 | 10003 1001 | 1 2 | 1 2
    mend-cells 3 3 3 511 1013 10103 -> 3 0 | 10103 1013 511 | 1 2 3 | 1 2 3
    mend-cells 2 2 2 100 100 -> 1 1 | 100 2 | 100 2 | 3 2
    mend-cells 3 3 3 100 0x2000000000000000 100 -> 1 2 | 100 2 3 | 100 100 3 | 3 3 3
    mend-cells 2 2 2 100 1003 -> 1 1 | 100 2 | 1003 2 | 4 2
    mend-cells 2 2 2 1003 100 -> 1 1 | 100 2 | 1003 2 | 4 2
    mend-cells 2 2 2 100333333333333333333333333 100 -> 1 1 | 100 2 | 100333333333333333333333333 2 | 4 2
    mend-cells 3 3 3 1003 1003 100 -> 1 2 | 100 2 3 | 1003 1003 3 | 4 3 3
    mend-cells 3 3 3 1003 100 1003 -> 1 2 | 100 2 3 | 1003 1003 3 | 4 3 3
    mend-cells 3 3 3 100 1003 1003 -> 1 2 | 100 2 3 | 1003 1003 3 | 4 3 3
    mend-cells 3 3 3 10003 1000 100 -> 1 2 | 100 2 3 | 10003 1000 3 | 4 4 3
    mend-cells 3 3 3 100 1000 10003 -> 1 2 | 100 2 3 | 1000 10003 3 | 4 4 3
    mend-cells 3 3 3 10003 10003 1000 -> 1 2 | 1000 2 3 | 10003 10003 3 | 4 3 3
    mend-cells 3 3 3 0x2000000000000001 1003 0x2000000000000001 -> 1 2 | 1003 2 3
        | 0x2000000000000001 0x2000000000000001 3 | 1 1 3
    mend-cells 4 4 4 1000 1001 1002 1003 -> 1 1 | 100 2 3 4 | 100 2 3 4 | 5 2 3 4
    mend-cells 4 4 4 1003 1002 1001 1000 -> 1 1 | 100 2 3 4 | 100 2 3 4 | 5 2 3 4
    mend-cells 4 5 6 1002 1000 1003 1001 -> 1 1 | 100 2 3 4 | 100 2 3 4 5 | 5 2 3 4 5 6
    mend-cells 4 4 3 1000 1001 1002 1003 -> SHORT | 1 2 3 4 | 1 2 3 4 | 1 2 3
    mend-cells 1 1 1 1000 1001 1002 1003 -> SHORT | 1 | 1 | 1
    mend-cells 3 3 3 1000 1001 1002 -> 3 0 | 1000 1001 1002 | 1 2 3 | 1 2 3
    mend-cells 4 4 4 1000 1001 1002 1013 -> 4 0 | 1000 1001 1002 1013 | 1..4 | 1..4
    mend-cells 4 4 4 1000 1001 1002 1002 -> 3 1 | 1000 1001 1002 4 | 1002 2 3 4 | 3 2 3 4
    mend-cells 4 4 4 1000 1001 1002 0x2070000000000001 -> 3 1 | 1000 1001 1002 4 | 0x2070000000000001 2 3 4 | 1 2 3 4
    mend-cells 4 4 4 100 101 110 111 -> 4 0 | 100 101 110 111 | 1..4 | 1..4
    mend-cells 5 5 5 100 1000 1001 1002 1003 -> 1 4 | 100 2..5 | 1000 1001 1002 1003 5 | 4 4 4 4 5
    mend-cells 5 5 5 1000 1001 1002 1003 100 -> 1 4 | 100 2..5 | 1000 1001 1002 1003 5 | 4 4 4 4 5
    mend-cells 5 5 5 1000 1001 1002 1003 0x2000000000000001 -> 1 2 | 100 2..5 | 0x2000000000000001 100 3 4 5 | 1 5 3 4 5
    mend-cells 5 5 5 1000 1001 1002 1003 10003 -> 1 2 | 100 2..5 | 10003 100 3 4 5 | 4 5 3 4 5
    mend-cells 5 5 5 1000 1001 1002 1003 101 -> 2 1 | 100 101 3 4 5 | 100 2..5 | 5 2..5
    mend-cells 6 6 6 1000 1001 1002 10030 10031 10032 -> 6 0 | 1000 1001 1002 10030 10031 10032 | 1..6 | 1..6
    mend-cells 7 7 7 1000 1001 1002 10030 10031 10032 10033 -> 1 2 | 100 2..7 | 1003 100 3..7 | 5 5 3..7
    mend-cells 7 7 7 10003 1003 10001 1001 10002 1002 10000 -> 1 2 | 100 2..7 | 1000 100 3..7 | 5 5 3..7
    mend-cells 8 8 8 1000 1000 1001 1001 1002 1002 1003 1003 -> 1 5 | 100 2..8 | 1000 1001 1002 1003 100 6 7 8
        | 3 3 3 3 5 6 7 8
    mend-cells 8 8 8 2013 2012 2011 2010 1003 1002 1001 1000 -> 2 2 | 100 201 3..8 | 100 201 3..8 | 5 5 3..8
    mend-cells 8 8 8 1000 1001 1002 1003 51100 51101 51102 51103 -> 2 2 | 100 5110 3..8 | 5110 100 3..8 | 5 5 3..8
    mend-cells 8 8 8 51100 51101 51102 51103 1000 1001 1002 1003 -> 2 2 | 100 5110 3..8 | 5110 100 3..8 | 5 5 3..8
    mend-cells 8 8 8 10000 10001 10002 10003 10010 10011 10012 10013 -> 2 2 | 1000 1001 3..8 | 1000 1001 3..8 | 5 5 3..8
    mend-cells 4 4 4 100111111111111111111111112 100111111111111111111111110 100111111111111111111111113
        100111111111111111111111111 -> 1 1 | 10011111111111111111111111 2..4 | 10011111111111111111111111 2..4 | 5 2..4
    mend-cells 13 13 13 511 10012 1001 0x0 10023 10012 1000 10020 1001 0x2010000000000000 10022 1003 10021 -> 2 7
        | 100 511 3..13 | 10012 0x0 10012 1001 0x2010000000000000 1002 100 8..13 | 4 1 3 3 1 5 5 8..13
"""


def blocks(text):
    """The entries of a text, each with its lines in one: those that are set in belong to the one before."""
    return [" ".join(entry.split()) for entry in re.split(r"\n    (?! )", text.strip("\n "))]


def mend_place(text):
    """A place's number, or all the numbers from one to another."""
    least, dots, most = text.partition("..")
    if dots:
        return list(range(int(least), int(most) + 1))
    return [read_code(text) if len(text) > 2 else int(text)]


def mend_example(entry):
    """A line, and its answer with each place as it is shown."""
    call, text = entry.split(" -> ")
    told, *lists = (x.strip() for x in text.split("|"))
    answered = SHORT if told == "SHORT" else "words {}, changes {}".format(*told.split())
    for places, form in zip(lists, (word_text, word_text, str)):
        answered += " |" + "".join(" " + form(x) for place in places.split() for x in mend_place(place))
    return call, answered


# The examples of docs/CONSOLE.md and the one of docs/CELLS.md are among them.
MEND_EXAMPLES = dict(map(mend_example, blocks(MEND_TEXT)))


# ==== The calls: lists to be mended, of every kind

# Each kind makes lists of words, most of which have room in a line.


def shuffled(chance, words):
    return chance.sample(words, len(words))


def all_below(code, n):
    """All triangles of degree n in the code's."""
    return [x for x in walk(code, n) if degree_of(x) == n]


def four_in_order(chance):
    """Four children, of a parent of every degree, in every order."""
    for n, order in itertools.product(range(DEEPEST), itertools.permutations((0, 1, 2, 3))):
        code = random_code(chance, n)
        yield [child_code(code, digit) for digit in order]


def close_to_four(chance):
    """Each three of four children alone; and with the fourth twice; with a second one of the three, the parent, or a
    child of another parent in its place; with the fourth and a triangle above it; with all its children or three of
    them in its place; and with it and a triangle inside it."""
    for n, digit in itertools.product(range(DEEPEST), (0, 1, 2, 3)):
        code = random_code(chance, n)
        fourth = child_code(code, digit)
        three = [x for x in child_codes(code) if x != fourth]
        more = [[], [fourth, fourth], [chance.choice(three)], [code], [fourth, ancestor(chance, fourth)]]
        more.append([child_code(random_code(chance, n), digit)])
        if degree_of(fourth) < DEEPEST:
            inner = child_codes(fourth)
            more += [inner, chance.sample(inner, 3), [fourth, descendant(chance, fourth)]]
        yield from (shuffled(chance, three + some) for some in more)


def whole_parts(chance):
    """All triangles of one degree in a triangle, two or three degrees down; with one missing; with one twice. All
    sides, which are never merged, and all triangles of degree 1 on some sides."""
    for n in range(DEEPEST - 1):
        for down in (2, 2, 3) if n <= 8 else (2, 2):
            words = all_below(random_code(chance, n), n + down)
            place = chance.randrange(len(words))
            yield from (words, words[::-1], shuffled(chance, words))
            yield shuffled(chance, words[:place] + words[place + 1 :])
            yield shuffled(chance, words + [words[place]])
    for many in (1, 3, 4, 16, 20):
        sides = chance.sample(codes_of(0), many)
        yield sides
        yield shuffled(chance, flat(map(child_codes, sides)))


def cascades(chance):
    """What is one triangle together, divided along one path: from every degree to every deeper one. And with one
    missing, at any of the degrees, so that merging stops below it."""
    for n, deepest in itertools.combinations(range(DEEPEST + 1), 2):
        words = covering(chance, random_code(chance, n), deepest)
        place = chance.randrange(len(words))
        yield shuffled(chance, words)
        yield shuffled(chance, words[:place] + words[place + 1 :])


def divided(chance, code, many):
    """At most so many triangles that together are the code's: one of them is divided again and again, any or the last
    one."""
    found = [code]
    while len(found) + 3 <= many:
        some = [place for place, x in enumerate(found) if degree_of(x) < DEEPEST]
        if not some:
            break
        found += shuffled(chance, child_codes(found.pop(chance.choice([some[-1], chance.choice(some)]))))
    return found


def spoiled(chance, codes, times):
    """So many times one of the codes is left out, or repeated, or one inside it or above it, an invalid word or any
    triangle comes in addition; and shuffled."""
    words = list(codes)
    for _ in range(times):
        code = chance.choice(codes)
        some = [code, random_code(chance, chance.randint(0, DEEPEST)), invalid_word(chance, code)]
        some += [descendant(chance, code)] if degree_of(code) < DEEPEST else []
        some += [ancestor(chance, code)] if degree_of(code) > 0 else []
        if chance.randrange(6):
            words.append(chance.choice(some))
        elif code in words:
            words.remove(code)
    return shuffled(chance, words)


def divided_parts(chance):
    """One to three parts, each divided again and again; and then spoiled, or not."""
    for at in range(1300):
        n = chance.randrange(DEEPEST)
        many = chance.choice([4, 7, 10, 13, 16, 22] if at % 3 else [31, 40, 52, 64])
        code = random_code(chance, n)
        tops = chance.choice([[code], [code, random_code(chance, n)], chance.sample(child_codes(code), 3)])
        codes = flat(divided(chance, top, many // len(tops)) for top in tops)
        yield spoiled(chance, codes, chance.choice([0, 0, 1, 1, 2, 3, 8]))


def nested_parts(chance):
    """All triangles on a path from a side down: rising, falling, shuffled, and some of them, repeated. A triangle and
    all inside it two degrees down; all but itself; and any of these, repeated."""
    for n in range(1, DEEPEST + 1):
        code = random_code(chance, n)
        down = [*climbed(code)[::-1], code]
        yield from (down, down[::-1], shuffled(chance, down), chance.choices(down, k=chance.randint(2, n + 3)))
    for n in range(DEEPEST - 1):
        tree = walk(random_code(chance, n), n + 2)
        yield from (tree, tree[::-1], shuffled(chance, tree), shuffled(chance, tree[1:]))
        yield from (chance.choices(tree[chance.randrange(2) :], k=chance.randint(2, 30)) for _ in range(24))
        yield from (chance.choices(tree[1:], k=chance.randint(24, 48)) for _ in range(6))


def damaged_parts(chance):
    """Each value that a field must not have: in a word among the sisters of the triangle that it damages, above the
    triangle's children or a triangle inside it, and beside the triangle itself, twice."""
    for n in (0, 1, 5, 12, 23, 24):
        code = random_code(chance, n)
        for word in damaged_fields(code):
            ways = [[word, code, word]]
            if n > 0:
                ways.append([word, *(x for x in child_codes(parent_code(code)) if x != code)])
            if n < DEEPEST:
                ways += [[word, *child_codes(code)], [word, descendant(chance, code)]]
            yield from (shuffled(chance, some) for some in chance.sample(ways, 2))


def any_parts(chance):
    """Triangles of any degree anywhere; of low degrees on one side or two; good lists that are damaged in some ways;
    and any words."""
    for _ in range(150):
        yield [random_code(chance, chance.randint(0, DEEPEST)) for _ in range(chance.randint(1, 30))]
    for at in range(300):
        every = flat(walk(side, 2 + at % 2) for side in chance.sample(codes_of(0), chance.randint(1, 2)))
        yield chance.choices(every, k=chance.randint(2, 60))
    for at in range(200):
        words = good_list(chance, chance.randint(2, 24), chance.randint(2, DEEPEST))
        yield shuffled(chance, damaged_often(chance, words, at % 6))
    for _ in range(60):
        yield [chance.getrandbits(64) for _ in range(chance.randint(1, 30))]


MEND_KINDS = {
    "four children in every order": four_in_order,
    "close to four children": close_to_four,
    "all triangles of one degree in a part": whole_parts,
    "parts divided along one path": cascades,
    "parts divided again and again": divided_parts,
    "nested lists": nested_parts,
    "words of damaged fields": damaged_parts,
    "any lists": any_parts,
}


# ==== The calls: lists to be mended, with lent lists of every length


def least_form(word):
    return min(shortest_form(word), f"0x{word:x}", key=len)


def mend_start(lengths):
    return " ".join(map(str, ["mend-cells", *lengths]))


def has_room(words):
    """In a line, and the lent lists can be long enough."""
    line = " ".join([mend_start([MOST_LENT] * 3), *map(least_form, words)])
    return len(words) <= MOST_LENT and len(line) <= 1000


def mend_line(chance, words, lengths=None):
    """With just as many places in each lent list as are needed, or more, if not given."""
    if lengths is None:
        many = len(words)
        lengths = [chance.choice([many, many, chance.randint(many, MOST_LENT)]) for _ in LENT_LISTS]
    line = " ".join([mend_start(lengths), *(cell_form(chance, word) for word in words)])
    return line if len(line) <= 1000 else " ".join([mend_start(lengths), *map(least_form, words)])


def mend_lines(kind, seed):
    """What makes the lines of one kind of lists."""

    def make():
        chance = random.Random(seed)
        return (mend_line(chance, words) for words in kind(chance) if has_room(words))

    return make


def mended_few():
    """Every list of three as for check-cells; and every list of four of a triangle and its children."""
    chance = random.Random(101)
    for some in [*every_three(), *itertools.product("100 1000 1001 1002 1003".split(), repeat=4)]:
        yield mend_line(chance, list(map(read_code, some)))


def one_short(many, places):
    """The lent lists at these places have one place less than is needed, the others just enough."""
    return [many - (place in places) for place in range(3)]


def mend_lengths():
    """Lists of every length to 64: with just enough places; with one or more of the three lent lists shorter by one,
    and by more; with each of them longer. For a few lists every length about the least with every other."""
    chance = random.Random(102)
    for many in range(MOST_LENT + 1):
        words = chance.choices(walk_all(2), k=many)
        longer = [[many] * place + [length] + [many] * (2 - place) for place in range(3) for length in (many + 1, 64)]
        found = [[many] * 3, [MOST_LENT] * 3, *(x for x in longer if max(x) <= MOST_LENT)]
        for places in filter(None, powers(range(3)) if many else ()):
            found.append(one_short(many, places))
            found.append([x if x == many else chance.randrange(many) for x in one_short(many, places)])
        yield from (mend_line(chance, words, lengths) for lengths in found)
    for words in ([], ["100"], ["0x0"], "1000 1001 1002 1003".split()):
        lengths = {0, len(words) - 1, len(words), len(words) + 1, MOST_LENT} - {-1}
        for some in itertools.product(sorted(lengths), repeat=3):
            yield mend_line(chance, list(map(read_code, words)), some)


# ==== The calls: lists to be mended as long as a line, lines that cannot be read, and lines that can, just


def cut_to_room(words):
    while not has_room(words):
        words = words[:-1]
    return words


def long_mends():
    """Good lists that fill a line, and such that are divided and nested: shuffled, filled up with spaces to 1000 bytes,
    and to 1001. And more words than a lent list can be long for, up to as many as the line has room for."""
    chance = random.Random(103)
    trees = [walk(codes_of(0)[4], 3), all_below(codes_of(0)[9], 3), divided(chance, codes_of(0)[11], 64)]
    for words in [*long_cell_lists(chance), *trees]:
        few = cut_to_room(shuffled(chance, words))
        line = " ".join([mend_start([len(few), MOST_LENT, len(few)]), *map(least_form, few)])
        yield from (filled(line, length) for length in (1000, 1001))
    for many in (65, 66, 80, 127, 128, 129, 200):
        for text in ("100", "0x0"):
            yield " ".join([mend_start([MOST_LENT] * 3), *[text] * many])
    for text in ("100", "0x0", "511333333333333333333333333", "0xffffffffffffffff"):
        yield from one_word_often(mend_start([MOST_LENT] * 3), text)


UNREADABLE_MENDS = """
    mend-cells; mend-cells 1; mend-cells 1 1; mend-cells 100; mend-cells 100 101; mend-cells 100 101 110 111
    mend-cells 1 1 100; mend-cells 1 100 100; mend-cells 1000 1001 1002 1003; mend-cells 65 1 1 100
    mend-cells 1 65 1 100; mend-cells 1 1 65 100; mend-cells 65 65 65; mend-cells 65 0 0 100; mend-cells 0 65 0 x
    mend-cells 0x41 1 1 100; mend-cells 1 0x41 1 100; mend-cells 1 1 0x0000000000000041 100; mend-cells 00065 1 1 100
    mend-cells -1 1 1 100; mend-cells 1 -1 1 100; mend-cells 1 1 -1 100; mend-cells -0 1 1 100; mend-cells 1 1 -0 100
    mend-cells +1 1 1 100; mend-cells 1.0 1 1 100; mend-cells 1, 1, 1 100; mend-cells 1,1,1 100; mend-cells x 1 1 100
    mend-cells 1 x 1 100; mend-cells 1 1 x 100; mend-cells 1 1 1 x; mend-cells 1 1 1 1; mend-cells 1 1 1 10
    mend-cells 256 1 1 100; mend-cells 1 320 1 100; mend-cells 1 1 4294967297 100; mend-cells 18446744073709551615 1 1
    mend-cells 1 18446744073709551616 1 100; mend-cells 1 1 18446744073709551617 100; mend-cells 4096 4096 4096 100
    mend-cells 1 1 1 0; mend-cells 1 1 1 100 10; mend-cells 2 2 2 100 x 101; mend-cells 2 2 2 x 100 101
    mend-cells 2 2 2 100 101 x; mend-cells 0 0 0 100 x; mend-cells 1 1 1 0x0 x; mend-cells 2 2 2 1001 1001 1004
    mend-cells 1 1 1 100,101; mend-cells 2 2 2 100, 101; mend-cells 1 1 1 100.; mend-cells 1 1 1 [100]
    mend-cells 1 1 1 100 # note; mend-cells 1 1 1 # 100; mend-cells #; mend-cells 1 1 #; mend-cells 1 1 1 #101
    mend-cells MENDED WORDS REASONS; mend-cells 1 1 1 CODE; mend-cells 1 1 1 [CODE]..; mend-cells 1 1 1 100 ..
    mend-cells -n 1 1 1 100; mend-cells 1 1 1 -n; mend-cells 1 1 1 -n 100; mend-cells 1 1 1 --; mend-cells -- 1 1 1
    mend-cells 1 1 1 -100; mend-cells examples/cells/damaged; mend-cells 1 1 1 mend-cells; mend-cells mend-cells 1 1 1
    mend-cells 1 1 1 | 100; mend-cells 1 | 1 | 1 | 100; mend-cells 1 1 1 0x; mend-cells 1 1 1 100 0x
    mend-cells 1 1 1 0x20000000000000000; mend-cells 0x 0x 0x 100; mend-cells 1 1 1 0X2000000000000000
    mend-cells 1 1 1 2050000000000000; mend-cells 1 1 1 0x200000000000000g; mend-cells 1 1 1 1O1
    mend-cells 1 1 1 1000000000000000000000000000; mend-cells 1 1 1 "100"; mend-cells 1 1 1 100\u00a0101
    mend-cells 1\u00a01 1 1 100; mend-cells ١ 1 1 100; mend-cells 1 1 1 ١٠٠; mend-cells 1 1 1 φ; mend-cells é 1 1 100
"""


def unreadable_mends():
    """What can not be read is said before any refusal."""
    chance = random.Random(104)
    yield from written(UNREADABLE_MENDS)
    for many in (1, 2, 3, 7, 30):
        for at in range(3 + many):
            for word in chance.sample(BAD_LENT if at < 3 else BAD_TABLE_CODES, 2 if many > 7 else 5):
                forms = mend_line(chance, good_list(chance, many), [chance.choice([0, many, 64])] * 3).split()
                yield as_bytes(" ".join([*forms[: at + 1], word, *forms[at + 2 :]]))
    yield from ["mend-cells 1 1 1 100\x00", "mend-cells 1\x0b1 1 100", "mend-cells\t1 1 1\x0c", "mend-cells 1 1 1 \xff"]
    yield filled(" ".join([mend_start([64] * 3), *["100"] * 64]), 998) + " x"


READABLE_MENDS = """
    mend-cells 0x1 0x01 0x0000000000000001 100; mend-cells 01 0000000000000000000000000001 1 100; mend-cells 0x0 00 0
    mend-cells 0x40 64 064 100; mend-cells 0x3f 0x3F 63 100; mend-cells 000 1 1 100; mend-cells 001 1 1 100
    mend-cells 010 011 012 100; mend-cells 2 2 2 000 100; mend-cells 2 2 2 0x0 0x00; mend-cells 1 1 1 0x1
    mend-cells 2 2 2 0xa000000000000000 0xA000000000000000; mend-cells 2 2 2 0x00 0x0000000000000000
    mend-cells 2 2 2 0x2050000000000000 0x208c000000000000; mend-cells 2 2 2 100 600; mend-cells 2 2 2 711 6001
    mend-cells 1 1 1 711333333333333333333333333; mend-cells 1 1 1 0x20000000000000; mend-cells 1 1 1 0xaBcDeF0123456789
    mend-cells 4 4 4 0xB870000000000000 0xb840000000000000 5111 0xB860000000000000; mend-cells 3 3 3 0x1 0x10 0x100
"""


def spaced_mends():
    """Leading zeros, either case, tabs and carriage returns, and lines of 1000 bytes and more."""
    yield from written(READABLE_MENDS)
    yield from ["\tmend-cells\t2\t2\t2\t101\t100\t", "mend-cells 2 2 2 1001 1001\r", "  mend-cells   1 1  1 1001  "]
    yield from ["\rmend-cells\r2\r2\r2\r1001\r100", "mend-cells 0 0 0\r", "\tmend-cells 1 1 1", "mend-cells 0 0 0 \t\r"]
    for length in (998, 999, 1000, 1001, 1002, 2000, 65536):
        yield filled("mend-cells 0 0 0", length)
        yield filled("mend-cells 4 4 4 1000 1003 1002 1001", length, "\r")
        yield " " * (length - len("mend-cells 2 2 2 1001 100")) + "mend-cells 2 2 2 1001 100"
        yield "mend-cells 2 2 " + "0" * (length - 20) + "2 100"
        yield "mend-cells 2 2 2 1001" + " " * (length - 25) + "1001"
        yield "mend-cells 2 2 2 1001 10003"


def mends_on_table():
    """A list that is mended leaves the open table as it is, also one that is refused or can not be read."""
    chance = random.Random(105)
    for line in ("table 1 80 -1 1 1250 79 0", "table 0 20 -1 3 -2", "table 7 3 500"):
        yield line
        for many in (1, 4, 7, 13, 22):
            words = spoiled(chance, divided(chance, random_code(chance, 3), many), 3)
            yield from [mend_line(chance, words), "get 1001", "readings"]
        for other in ("mend-cells 0 0 0", "mend-cells 1 1 0 100", "mend-cells x", "mend-cells 1 1 1 1"):
            yield from [other, "readings"]


# ==== Internal checks of what is mended

MEND_LINE = re.compile(r"[ \t\r]*mend-cells(?![^ \t\r])")
MEND_ANSWER = re.compile("words (0|[1-9][0-9]*), changes (0|[1-9][0-9]*)")
# A list, why each of its words is dropped, or 0, and the parents of the merges.
MendSeen = namedtuple("MendSeen", "words drops parents")


def run_of(code):
    """The triangles of degree 24 in the code's: the number of the first one, and the number after the last one's. They
    are numbered through all sides, in the order of the tree."""
    start = code >> 59 << 48 | code >> 6 & 2**48 - 1
    return start, start + 4 ** (24 - degree_of(code))


def covered(codes):
    """All that the codes cover, as runs that do not touch."""
    found = []
    for start, end in sorted(map(run_of, codes)):
        if found and start <= found[-1][1]:
            found[-1][1] = max(found[-1][1], end)
        else:
            found.append([start, end])
    return found


FOURS = [4**up for up in range(25)]


def greatest_within(runs):
    """The greatest triangle that begins with a run and does not go beyond it, and so on from its end."""
    found = []
    for start, end in runs:
        while start < end:
            up = max(k for k, four in enumerate(FOURS) if start % four == 0 and start + four <= end)
            found.append(start >> 48 << 59 | (24 - up) << 54 | (start & 2**48 - 1) << 6)
            start += FOURS[up]
    return found


@lru_cache(maxsize=None)
def whole_below(code):
    """The triangles of degree 5 in the code's, which is of degree 5 at most: a bit for each of the 1,024 on a side."""
    if degree_of(code) == WHOLE:
        return 1 << place_of(code) % 1024
    return reduce(operator.or_, map(whole_below, child_codes(code)))


def whole_covered(codes):
    """The triangles of degree 5 in all of these, by side."""
    found = dict.fromkeys(SIDES, 0)
    for code in codes:
        found[side_of(code)] |= whole_below(code)
    return found


def check_covered(valid, codes):
    # "covers exactly the same triangles of degree 24 as the valid words did .. and no shorter list of triangles covers
    # the same"
    runs = covered(valid)
    must(covered(codes) == runs, "covers the same", valid, codes)
    must(greatest_within(runs) == codes, "the greatest triangles", valid, codes)
    if all(degree_of(code) <= WHOLE for code in valid):
        must(whole_covered(valid) == whole_covered(codes), "covers the same triangles of degree 5", valid, codes)


def all_inside(valid):
    """Those that are inside others. In the order of the tree a triangle comes after those that it is inside; and of two
    runs one has all of the other, or nothing of it."""
    found, furthest = set(), 0
    for code in sorted(valid, key=aligned):
        _, end = run_of(code)
        if end <= furthest:
            found.add(code)
        furthest = max(furthest, end)
    if len(valid) <= LITERAL_CELLS:
        must(found == inside_others(valid), "inside another", valid)
    return found


def dropped_again(words):
    """For each word why it is dropped, or 0."""
    inside = all_inside({word for word in words if is_code(word)})
    found, earlier = [], set()
    for word in words:
        found.append(1 if not is_code(word) else 3 if word in earlier else 4 if word in inside else 0)
        earlier.add(word)
    return found


def undone(codes, parents):
    """The codes before the merges: from the last one on, each parent leaves its place to its four children again."""
    there = set(codes)
    for parent in reversed(parents):
        must(parent in there, "the parent takes the place", parent)
        there.remove(parent)
        there.update(child_codes(parent))
    return there


def has_four_whole(codes):
    """Some four children are among the codes."""
    there = set(codes)
    lasts = ((code, 54 - 2 * degree_of(code)) for code in codes if degree_of(code) > 0)
    return any(there.issuperset(code & ~(3 << last) | digit << last for digit in (0, 1, 2, 3)) for code, last in lasts)


def check_mended(words, codes, changed, reasons):
    """All that is promised of a mended list and its change list. It tells why each word is dropped, and the parents."""
    drops = dropped_again(words)
    dropped = [(word, reason) for word, reason in zip(words, drops) if reason]
    many = len(dropped)
    must(list(zip(changed, reasons))[:many] == dropped, "first each dropped word", words, changed, reasons)
    parents = changed[many:]
    must(reasons[many:] == [5] * len(parents) and len(changed) == len(reasons), "then each merge", words, reasons)
    order = [(-degree_of(parent), parent) for parent in parents]
    must(order == sorted(set(order)), "deepest first and rising within one degree", words, parents)
    left = [word for word, reason in zip(words, drops) if not reason]
    must(undone(codes, parents) == set(left), "the words that are not dropped", words, codes, parents)
    must(len(words) - many - 3 * len(parents) == len(codes), "the counts", words, codes, parents)
    # "The mended list passes the checker .., mending it again changes nothing"
    must(first_offence(codes) is None, "the checker of 2026-09", words, codes)
    must(len(codes) > LITERAL_CELLS or three_hold(codes), "the three conditions", words, codes)
    must(codes == words or mend(codes) == Mended(codes, [], [], []), "mended again", words, codes)
    must(not has_four_whole(codes), "no four whole children", words, codes)
    check_covered([word for word in words if is_code(word)], codes)
    return drops, parents


def where_dropped(seen):
    """Each reason with the first place that it can have, the last one, or one between them."""
    for place, reason in enumerate(seen.drops):
        if reason:
            ends = {"first": place == (1 if reason == 3 else 0), "last": place == len(seen.words) - 1}
            yield from ((reason, name) for name in [x for x, true in ends.items() if true] or ["middle"])


def how_dropped(seen):
    """An invalid word's refusal, and whether it comes again; whether a repeated one is inside another too; whether the
    ones that a word is inside come earlier, later, or both."""
    at = {word: place for place, word in reversed(list(enumerate(seen.words)))}
    last = {word: place for place, word in enumerate(seen.words)}
    for place, (word, reason) in enumerate(zip(seen.words, seen.drops)):
        if reason == 1:
            yield "refused", first(code_refusals(word)), at[word] < place
        elif reason:
            outer = [x for x in climbed(word) if x in at]
            earlier, later = any(at[x] < place for x in outer), any(last[x] > place for x in outer)
            yield ("repeated", bool(outer)) if reason == 3 else ("inside", earlier, later)


def longest_cascade(parents):
    """How many of the merges there are above each other, each of which needs the one below."""
    depth = {}
    for parent in sorted(parents, key=degree_of):
        depth[parent] = 1 + (depth.get(parent_code(parent), 0) if degree_of(parent) > 0 else 0)
    return max(depth.values(), default=0)


def check_mends_met(lists, deepest):
    """Every reason at the first, a middle and the last place, in each way; merges at every degree, one, several in one
    degree, and in so many degrees one above the other."""
    met = {x for seen in lists for x in where_dropped(seen)}
    must(met == set(itertools.product((1, 3, 4), ("first", "middle", "last"))), "every reason", met)
    met = {x for seen in lists for x in how_dropped(seen)}
    every = {("refused", no, again) for no in (1, 2, 3, 4) for again in (False, True)}
    every |= {("repeated", False), ("repeated", True)}
    must(met == every | {("inside", *x) for x in ((True, False), (False, True), (True, True))}, "in each way", met)
    met = {degree_of(parent) for seen in lists for parent in seen.parents}
    must(met == set(range(DEEPEST)), "merges at every degree", met)
    met = {(len(seen.parents) > 1, len(set(map(degree_of, seen.parents)))) for seen in lists}
    must({(False, 0), (False, 1), (True, 1), (True, 2), (True, 3)} <= met, "one merge and several", met)
    must(max(longest_cascade(seen.parents) for seen in lists) == deepest, "merges above each other", deepest)


LentSeen = namedtuple("LentSeen", "words lengths short mended")


def seen_mend(line, text):
    """A line that can be read: its answer, or else its refusal, and every place of the three lists after the call."""
    *lengths, words = read_arguments([*LENT_LISTS, "[CODE].."], parts_of(line)[1:])
    told, *shown = text.split(" |")
    forms = (word_text, word_text, str)
    must(len(shown) == 3, "three lists", line, text)
    lists = [[int(x, 0) for x in places.split()] for places in shown]
    must(shown == ["".join(" " + form(x) for x in one) for one, form in zip(lists, forms)], "as shown", line, text)
    before = [list(range(1, length + 1)) for length in lengths]
    must(list(map(len, lists)) == lengths, "all places", line, text)
    short = frozenset(name for name, length in zip(LENT_LISTS, lengths) if length < len(words))
    if short:
        must(told == SHORT and lists == before, "refused, writing nothing", line, text)
        return LentSeen(words, lengths, short, None)
    count, changes = map(int, MEND_ANSWER.fullmatch(told).groups())
    counts = (count, changes, changes)
    must([x[k:] for x, k in zip(lists, counts)] == [x[k:] for x, k in zip(before, counts)], "later places", line, text)
    done = check_mended(words, *(x[:k] for x, k in zip(lists, counts)))
    return LentSeen(words, lengths, short, MendSeen(words, *done))


def check_children_met(lists):
    """Four children of one parent, in every order, and each three of them, in a list of their own, at every degree."""
    met = {3: set(), 4: set()}
    for words in (x.words for x in lists if len(x.words) in met):
        if all(is_code(word) and degree_of(word) > 0 for word in words) and len(set(map(parent_code, words))) == 1:
            met[len(words)].add((degree_of(words[0]), *(digits_of(word)[-1] for word in words)))
    four, three = ({(n, *x) for n in range(1, 25) for x in itertools.permutations(range(4), k)} for k in (4, 3))
    must(four <= met[4], "four children in every order")
    met = {(n, frozenset(x)) for n, *x in met[3]}
    must({(n, frozenset(x)) for n, *x in three} <= met, "all children but one")


def check_mend_lengths(seen):
    """For every length of a list just enough places; each lent list one shorter, alone, and longer; every choice of
    lent lists that are too short. And longer lists."""
    met = {(len(x.words), *x.lengths) for x in seen}
    for many in range(MOST_LENT + 1):
        must((many, many, many, many) in met and (many, 64, 64, 64) in met, "just enough, and more", many)
        for place in range(3) if many else ():
            must((many, *one_short(many, [place])) in met, "one shorter", many, place)
        for place in range(3) if many < MOST_LENT else ():
            must((many, *(many + (k == place) for k in range(3))) in met, "one longer", many, place)
    must({x.short for x in seen} == {frozenset(x) for x in powers(LENT_LISTS)}, "refused lists")
    must(max(len(x.words) for x in seen) > 240, "as many words as a line has room for")


def check_mend_lists(calls, answers):
    lines = [(line, text) for line, text in zip(calls, answers) if MEND_LINE.match(line)]
    seen = [seen_mend(line, text) for line, text in lines if not text.startswith(UNREAD)]
    lists = [x.mended for x in seen if x.mended]
    check_mends_met(lists, 21)
    check_children_met(lists)
    check_mend_lengths(seen)


def check_mend_lines():
    """The answers by hand. And lines that can not be read are all answered by the call's form."""
    for line, text in MEND_EXAMPLES.items():
        must(answer(line) == text, "by hand", line, text, answer(line))
    for line in unreadable_mends():
        must(answer(line) == "error: write it as mend-cells MENDED WORDS REASONS [CODE]..", "unreadable", line)


def least_counts(some):
    """For each set of numbers that is the union of some of these, how many of them it takes at the least."""
    found, level = {}, {0}
    for count in itertools.count():
        found.update(dict.fromkeys(level, count))
        level = {x | y for x in level for y in some} - found.keys()
        if not level:
            return found


def accepted_lists(code, n):
    """Every list of triangles in the code's, to degree n, of which none is inside another, in order."""
    if degree_of(code) == n:
        return [[], [code]]
    below = itertools.product(*(accepted_lists(child, n) for child in child_codes(code)))
    return [[code], *map(flat, below)]


def check_least():
    """Over one side: every accepted list of triangles to degree 2, shuffled, and every list of at most five to degree
    1. Deeper triangles make no list shorter: in place of each the one of that degree above it can stand."""
    # "no shorter list of triangles covers the same"
    chance = random.Random(106)
    for n, side in ((1, "310"), (2, "201")):
        side = read_triangle(side)
        every = walk(side, n)
        bits = {code: 1 << at for at, code in enumerate(all_below(side, n))}
        sets = {code: sum(bits[x] for x in all_below(code, n)) for code in every}
        least = least_counts(sets.values())
        must(len(least) == 2 ** (4**n), "every set", n)
        lists = accepted_lists(side, n)
        if n == 1:
            lists += [list(x) for many in range(6) for x in itertools.product(every, repeat=many)]
        for words in lists:
            codes = mend(shuffled(chance, words)).codes
            both = [reduce(operator.or_, map(sets.__getitem__, some), 0) for some in (words, codes)]
            must(both[0] == both[1] and len(codes) == least[both[0]], "no shorter list", words, codes)


# ==== The calls: small words, examples with the answers written out by hand

SMALL_CALLS = ["small", "large", "check-small", "cross-small", "file-small"]
# In bits 1001 is 001 0 0 0001 01 and zeros; 10003 is 001 0 0 0010 00 11 and zeros; 511 with eleven digits 3 is
# 101 1 1 1011, 22 ones and the zero bit. The examples of docs/CONSOLE.md and E3 to E10 are among them.
SMALL_TEXT = """
    small 1001 -> 1001 0x20A00000
    large 0x20A00000 -> 1001 0x2050000000000000
    cross-small 0x20A00000 2 -> 2001 0x40A00000 edge 3 corners 1 2
    file-small 2 0 0 1 -> 10003 0x21180000
    check-small 0x20A00001 -> refused 31
    small 100000000000000 -> refused 30
    check-small 0x20A00000 -> ok
    small 100 -> 100 0x20000000
    large 0x20000000 -> 100 0x2000000000000000
    small 511 -> 511 0xB8000000
    small 10003 -> 10003 0x21180000
    small 0x208C000000000000 -> 10003 0x21180000
    large 0x21180000 -> 10003 0x208C000000000000
    small 51133333333333 -> 51133333333333 0xBDFFFFFE
    large 0xBDFFFFFE -> 51133333333333 0xBAFFFFFF00000000
    large 0xBDFFFFFF -> refused 31
    check-small 0xBDFFFFFE -> ok
    small 511333333333333 -> refused 30
    small 511333333333333333333333333 -> refused 30
    small 0x2640000000000000 -> refused 1
    small 0xC640000000000001 -> refused 1
    small 0x2600000000000000 -> refused 30
    small 0xC300000000000001 -> refused 30
    small 0x2300000000000040 -> refused 30
    small 0x2300000000000001 -> refused 30
    small 0xC2C0000000000041 -> refused 2
    small 000 -> refused 2
    small 0x0 -> refused 2
    small 0x20A00000 -> refused 2
    small 0x2010000000000001 -> refused 3
    small 0x22C0000000000041 -> refused 3
    small 0x2050000000000001 -> refused 4
    small 0x2050000000000004 -> refused 4
    check-small 0x0 -> refused 2
    check-small 0x1 -> refused 2
    check-small 0xC0000000 -> refused 2
    check-small 0xE0000000 -> refused 2
    check-small 0xFFFFFFFF -> refused 30
    check-small 0x25800000 -> ok
    check-small 0x26000000 -> refused 30
    check-small 0x27800000 -> refused 30
    check-small 0x06000000 -> refused 30
    check-small 0x26000001 -> refused 30
    check-small 0x00200001 -> refused 2
    check-small 0x20200000 -> refused 3
    check-small 0x20000002 -> refused 3
    check-small 0x25000002 -> refused 3
    check-small 0x25000008 -> ok
    check-small 0x20000003 -> refused 3
    check-small 0x25800001 -> refused 31
    large 0x26000001 -> refused 30
    large 0x00000001 -> refused 2
    large 0x20000003 -> refused 3
    cross-small 0x20C00000 1 -> 1013 0x28E00000 edge 1 corners 3 2
    cross-small 0x28A00000 2 -> 5113 0xB8E00000 edge 2 corners 3 1
    cross-small 0x20000000 3 -> 500 0xA0000000 edge 2 corners 1 3
    cross-small 0x25AAAAAA 3 -> 50011111111111 0xA5AAAAAA edge 2 corners 1 3
    cross-small 0x20A00000 0 -> refused 5
    cross-small 0x20A00000 4 -> refused 5
    cross-small 0x20A00000 257 -> refused 5
    cross-small 0x20A00001 0 -> refused 31
    cross-small 0x20200001 0 -> refused 3
    cross-small 0x00A00001 0 -> refused 2
    cross-small 0x26000001 4 -> refused 30
    file-small 3 1 1 1 -> 200000 0x41800000
    file-small 3 -1 -1 -1 -> 410000 0x91800000
    file-small 2 1 0 0 -> 11102 0x39100000
    file-small 2 0 0 -1 -> 21003 0x51180000
    file-small 0 0 0 1 -> 100 0x20000000
    file-small 11 0 0 1 -> 10003333333333 0x259FFFFE
    file-small 11 0 0 0 -> refused 7
    file-small 11 0 -1000000001 0 -> refused 8
    file-small 12 0 0 1 -> refused 30
    file-small 12 0 0 0 -> refused 30
    file-small 24 1000000001 0 0 -> refused 30
    file-small 25 0 0 0 -> refused 1
    file-small 4294967298 0 0 1 -> refused 1
    file-small 18446744073709551615 0 0 1 -> refused 1
"""


def in_words(line):
    """A line, and its answer with the refusal in words; a lent list stays as it is."""
    call, text = line.strip().split(" -> ")
    told, *lists = text.split(" |")
    told = refused(int(told.split()[1])) if told.startswith("refused ") else told
    return call, " |".join([told, *lists])


SMALL_EXAMPLES = dict(map(in_words, SMALL_TEXT.strip().split("\n")))


# ==== The calls: small words of every code to degree 4, and of some below

SMALL_WHOLE = 4


def small_word(small, at):
    """In upper or lower case."""
    return f"0x{small:08{'Xx'[at % 2]}}"


def some_small(chance, small):
    # "0x and 1 to 8 hexadecimal digits, either case"
    return chance.choice([f"0x{small:08X}", f"0x{small:08x}", f"0x{small:X}"])


def every_small():
    """Every code to degree 4 is written small, checked as a small word, and read back."""
    for n in range(SMALL_WHOLE + 1):
        for at, code in enumerate(whole_degree(n)):
            small = small_word(small_of(code), at)
            yield from (f"small {some_form(code, at)}", f"check-small {small}", f"large {small}")


def small_crossings():
    """Every code to degree 3, over each edge, and a share of degree 4."""
    codes = flat(map(whole_degree, range(FULL + 1)))
    codes += random.Random(141).sample(list(whole_degree(SMALL_WHOLE)), 150)
    for at, code in enumerate(codes):
        yield from (f"cross-small {small_word(small_of(code), at)} {edge}" for edge in (1, 2, 3))


def deep_smalls():
    """Degrees 5 to 11; and 12 to 24, which no small word has."""
    chance = random.Random(142)
    for n in range(WHOLE, DEEPEST + 1):
        for at in range(9 if n <= SMALL_DEEPEST else 6):
            code = (random_code, random_code, seam_code)[at % 3](chance, n)
            yield f"small {some_form(code, at)}"
            if n <= SMALL_DEEPEST:
                small = some_small(chance, small_of(code))
                yield from (f"check-small {small}", f"large {small}")
                yield from (f"cross-small {small} {edge}" for edge in (1, 2, 3))


# ==== The calls: small words that are refused


def break_small_degree(small, chance):
    return small & ~(15 << 23) | chance.randint(12, 15) << 23


def break_small_a(small, chance):
    return small & ~(7 << 29) | chance.choice([0, 6, 7]) << 29


def break_small_digit(small, chance):
    """A digit beyond the degree, the next one or the last one among them."""
    beyond = range(small_fields(small).degree, 11)
    if not beyond:
        return small
    place = chance.choice([beyond[0], beyond[-1], chance.choice(beyond)])
    return small | chance.randrange(1, 4) << (21 - 2 * place)


def break_last_bit(small, chance):
    return small | 1


SMALL_BREAKS = [break_small_degree, break_small_a, break_small_digit, break_last_bit]


def damaged_small_fields(small):
    """Each value that a field must not have, alone."""
    yield from (small & ~(15 << 23) | n << 23 for n in range(12, 16))
    yield from (small & ~(7 << 29) | a << 29 for a in (0, 6, 7))
    for place in range(small_fields(small).degree, 11):
        yield from (small | digit << (21 - 2 * place) for digit in (1, 2, 3))
    yield small | 1


def small_bounds():
    """Small words without digits: with each a and degree about a bound, the last bit set or not."""
    some = itertools.product((0, 1, 5, 6, 7), (0, 1, 10, 11, 12, 13, 14, 15), (0, 1))
    return [a << 29 | n << 23 | last for a, n, last in some]


def word_bounds():
    """Such words."""
    some = itertools.product((0, 1, 5, 6, 7), (0, 1, 10, 11, 12, 13, 15, 16, 23, 24, 25, 26, 31), (0, 1))
    return [a << 61 | n << 54 | last for a, n, last in some]


def any_small_crossing(chance, small, edges=(1, 2, 3)):
    return f"cross-small {some_small(chance, small)} {chance.choice(edges)}"


def small_calls(chance, small):
    """The three calls on a small word."""
    yield from (f"{call} {some_small(chance, small)}" for call in ("check-small", "large"))
    yield any_small_crossing(chance, small)


def two_small_calls(chance, small):
    """Checked; and read, or crossed over an edge."""
    few = list(small_calls(chance, small))
    yield from (few[0], chance.choice(few[1:]))


def turned_small_bits():
    """Small words with each of the 32 bits turned over, alone."""
    chance = random.Random(143)
    for n in range(SMALL_DEEPEST + 1):
        small = small_of(random_code(chance, n))
        yield from (x for bit in range(32) for x in two_small_calls(chance, small ^ 1 << bit))


def damaged_smalls():
    """Each value that a field must not have; each field broken, alone and in pairs, over good edges and others; the
    bounds of the fields; and edges outside."""
    chance = random.Random(144)
    for n in (0, 1, 5, 10, 11):
        for small in damaged_small_fields(small_of(random_code(chance, n))):
            yield from small_calls(chance, small)
    for n in range(SMALL_DEEPEST + 1):
        for breaks in alone_and_in_pairs(SMALL_BREAKS):
            small = broken(small_of(random_code(chance, n)), breaks, chance)
            yield from small_calls(chance, small)
            yield any_small_crossing(chance, small, OUTSIDE_EDGES)
    for small in small_bounds():
        yield from two_small_calls(chance, small)
    for edge in OUTSIDE_EDGES:
        yield any_small_crossing(chance, small_of(random_code(chance, chance.randint(0, 11))), [edge])


def any_small_words(chance, many):
    """The least and the greatest small words and single bits. So often any 32 bits; the same with the last bit 0; and
    at degree 11, as a small word but for a."""
    yield from [0, 3, 2**32 - 4, 2**32 - 3, 2**32 - 2, 2**32 - 1] + [1 << bit for bit in range(32)]
    for _ in range(many):
        bits = chance.getrandbits(32)
        yield from (bits, bits & ~1, bits & ~(15 << 23 | 1) | SMALL_DEEPEST << 23)


def any_smalls():
    chance = random.Random(145)
    for small in any_small_words(chance, 50):
        yield from two_small_calls(chance, small)


def words_of_all_kinds(chance, degrees, turned, make=random_code, breaks=tuple(CODE_BREAKS)):
    """The bounds of the fields; words that are made, with each value that a field must not have; of the first degrees
    with each field broken, alone and in pairs, of the others with each bit turned over; and any 64 bits."""
    yield from word_bounds()
    for n in (0, 11, 12, 24):
        yield from damaged_fields(make(chance, n))
    for n in degrees:
        yield from (broken(make(chance, n), some, chance) for some in alone_and_in_pairs(breaks))
    for n in turned:
        word = make(chance, n)
        yield from (word ^ 1 << bit for bit in range(64))
    yield from (chance.getrandbits(64) for _ in range(50))


def written_small():
    chance = random.Random(146)
    for word in words_of_all_kinds(chance, (0, 1, 4, 7, 10, 11, 12, 13, 18, 23, 24), (11, 12)):
        yield f"small {cell_form(chance, word)}"


# ==== The calls: directions filed small


def directions_to_file(chance):
    """Each direction at a degree from 0 to 11; some in the middle of triangles and on edges, of each degree to 5; and a
    few at each degree."""
    yield from ((chance.randint(0, SMALL_DEEPEST), d) for d in all_directions())
    for n in range(WHOLE + 1):
        yield from ((n, d) for d in chance.sample(list(middle_directions(n).values()), 20))
        yield from ((n, d) for d in chance.sample(list(edge_directions(n)), 6))
    for d in all_directions()[::45]:
        yield from ((n, d) for n in range(DEEPEST + 1))


SMALL_OUTSIDE = [12, 13, 15, 16, 17, 23, 24]


def outside_to_file(chance, many):
    """Directions at the bounds, all at degree 11, and so many at each degree that is refused."""
    yield from ((SMALL_DEEPEST, d) for d in at_the_bounds())
    for n in [0, *SMALL_OUTSIDE, *OUTSIDE_DEGREES, 2**32 + 11]:
        yield from ((n, d) for d in [(0, 0, 0), (FAR + 1, 0, 0), (1, -2, 3), *chance.sample(at_the_bounds(), many)])


def filed_small():
    chance = random.Random(147)
    for n, (x, y, z) in [*directions_to_file(chance), *outside_to_file(chance, 6)]:
        yield f"file-small {n} {x} {y} {z}"


# ==== The calls: lines with small words that cannot be read, and lines that can, just

UNREADABLE_SMALLS = """
    small; large; check-small; cross-small; file-small; small x; small 1; small 10; small 800; small 1004
    small 0x; small 0x20500000000000000; small 100 101; small 100 1; small 0x20A00000 0x20A00000; small 100 # note
    small 1000000000000000000000000000; small SMALL; small 2050000000000000; small 0X2050000000000000; small -100
    large 100; large 1001; large 20A00000; large 0x; large 0x020A00000; large 0x000000000; large 0x100000000
    large 0x2050000000000000; large 0X20A00000; large 0x20A0000G; large 0x20A00000 1; large 0x20A00000 0x20A00000
    large 0x20A00000,; large 0x20A00000 # note; large #; large 547356672; large 0; large -0x1; large x; large SMALL
    large 1001 0x20A00000; large 0x20a00000.; large 0x20A0 0000; large 0x0000000020A00000
    check-small 1001; check-small 100; check-small 10003; check-small 0x; check-small 0x020A00000; check-small 20A00000
    check-small 0x00000000020A00000; check-small 0x2050000000000000; check-small 0x100000000; check-small 0x20A00000 2
    check-small 0x20A00000 0x20A00000; check-small 0xg; check-small 0X0; check-small 0; check-small 4294967295
    check-small 51133333333333; check-small 100 # note; check-small CODE; check-small "0x20A00000"
    cross-small 0x20A00000; cross-small 1001 2; cross-small 0x20A00000 x; cross-small 0x20A00000 2 3
    cross-small 0x020A00000 2; cross-small 20A00000 2; cross-small 0x2050000000000000 2; cross-small 2 0x20A00000
    cross-small 0x20A00000 -1; cross-small 0x20A00000 +2; cross-small 0x20A00000 2.0; cross-small 0x20A00000 0x
    cross-small 0x20A00000 18446744073709551616; cross-small 0x20A00000 0x10000000000000000; cross-small 0x20A00000 EDGE
    cross-small 0x20A00000 two; cross-small 0x20A00000 2 # note; cross-small 0x20A00000, 2; cross-small 0xFFFFFFFFF 0
    cross-small 0x0 x; cross-small 0x26000000 -1; cross-small 600 4; cross-small 0x20A00000 2 16
    file-small 2; file-small 2 0; file-small 2 0 0; file-small 2 0 0 1 4; file-small 2 0 0 1 x; file-small x 0 0 1
    file-small -1 0 0 1; file-small 2 0 0 2147483648; file-small 2 -2147483649 0 0; file-small 2 0 0x0 1
    file-small 2 0 +0 1; file-small 25 0 0; file-small 25 0 0 2147483648; file-small 12 0 0 x; file-small 12 0 0 0 0
    file-small 18446744073709551616 0 0 1; file-small 0x10000000000000000 0 0 1; file-small 2 0,0,1; file-small 2 0 0 1.
    file-small 2 0 0 1 # note; file-small DEGREE X Y Z; file-small 1001; file-small 2.0 0 0 1; file-small 2 0 0 1 6
    small ١٠٠; large 0x٢; check-small φ; cross-small 0x20A00000 ٢; file-small 2 0 0 −1; small 100\u00a0
    large 0x20A00000\u00a0; check-small\u0020\u00a00x20A00000; cross-small 0x20A00000\u00a02; file-small 2\u00a00 0 1
"""


def unreadable_smalls():
    """What can not be read is said before any refusal."""
    yield from written(UNREADABLE_SMALLS)
    yield from ["small 100\x00", "large 0x20A00000\x0b", "check-small \x0c0x20A00000", "cross-small 0x20A00000 2\xff"]
    yield from ["file-small 2 0\x0b0 1", "large 0x20A00000 \x00", filled("check-small 0x20A00000", 998) + " 1"]


READABLE_SMALLS = """
    large 0x20a00000; large 0xbdfffffe; large 0xBdFfFfFe; large 0x0; large 0x00; large 0x00000000; large 0x1
    large 0x20000; large 0x0020A000; check-small 0x20a00000; check-small 0xaBcDeF01; check-small 0xABCDEF0
    check-small 0x2; check-small 0xb8000000; check-small 0xA; check-small 0xFFFFFFFF; check-small 0xffffffff
    check-small 0x7FFFFFFF
    cross-small 0x20a00000 0x2; cross-small 0x20A00000 002; cross-small 0x20A00000 0x0000000000000003
    cross-small 0x20A00000 0000000000000000000000000000000000001; cross-small 0xa5aaaaaa 0x1; cross-small 0x0 0
    cross-small 0x20A00000 0xFFFFFFFFFFFFFFFF; cross-small 0x20A00000 018446744073709551615; cross-small 0x20A00000 0x4
    file-small 0x2 0 0 1; file-small 0xb 0 0 1; file-small 0xB 1 2 3; file-small 0xc 0 0 1; file-small 011 0 0 1
    file-small 012 0 0 1; file-small 0x18 0 0 1; file-small 0x19 0 0 1; file-small 2 -0 -000 0001; file-small 2 -0 0 -0
    file-small 0000000000000000000000000011 1 1 1; file-small 2 0 -0000000002147483648 0; file-small 0x0 00 -0001 0
    file-small 0xffffffffffffffff 0 0 0; small 0x20a00000; small 0x2050000000000000; small 0xb800000000000000; small 000
    small 0xaBcDeF0123456789; small 711; small 6001; small 0x20000000000000; small 0x22fFfFfF00000000; small 0003
    small 711333333333333333333333333
"""


def spaced_smalls():
    """Leading zeros, either case, tabs and carriage returns, and lines of 1000 bytes and more."""
    yield from written(READABLE_SMALLS)
    yield from ["\tsmall\t1001\t", "large 0x20A00000\r", "  check-small   0x20A00000  ", "\rcross-small\r0x20A00000\r2"]
    yield from ["file-small\t2\t0\t0\t1\r", " \tsmall \r 511", "check-small\r0x1", "cross-small 0x20A00000 \t 4 \r"]
    for length in (999, 1000, 1001, 2000):
        yield filled("small 1001", length)
        yield filled("check-small 0x20A00000", length, "\r")
        yield " " * (length - len("large 0x20A00000")) + "large 0x20A00000"
        yield "cross-small 0x20A00000 " + "0" * (length - 24) + "2"
        yield "file-small 2 0 0 " + "0" * (length - 18) + "1"


def smalls_on_table():
    """A call on a small word leaves the open table as it is, also one that is refused or can not be read."""
    for line in ("table 1 80 -1 1 1250 79 0", "table 7 3 500"):
        yield line
        for other in ("small 1001", "large 0x20A00000", "check-small 0x20A00000", "cross-small 0x20A00000 2"):
            yield from [other, "get 1001", "readings"]
        for other in ("file-small 1 0 0 1", "small 100000000000000", "check-small 0x20A00001", "large 1001"):
            yield from [other, "readings"]


# ==== Internal checks of what is answered to small words

SMALL_LINE = re.compile(rf"[ \t\r]*({'|'.join(SMALL_CALLS)})(?![^ \t\r])")
# 1 is a word's degree or an argument's; 4 only a word has; 31 only a small word.
SMALL_NUMBERS = {
    "small": {1, 30, 2, 3, 4},
    "large": {30, 2, 3, 31},
    "check-small": {30, 2, 3, 31},
    "cross-small": {30, 2, 3, 31, 5},
    "file-small": {1, 30, 8, 7},
}
SmallSeen = namedtuple("SmallSeen", "call arguments held no")


def shifted(code):
    """The small word, by shifts: a, p and q as one, the degree, and the first eleven digits."""
    return code >> 59 << 27 | degree_of(code) << 23 | (code >> 32 & 2**22 - 1) << 1


def shifted_back(small):
    """The word of the same fields, without the last bit."""
    return small >> 27 << 59 | (small >> 23 & 15) << 54 | (small >> 1 & 2**22 - 1) << 32


def small_held(call, arguments):
    """All refusals that hold, by what holds of the word, but for slices."""
    if call == "file-small":
        n, *d = arguments
        return direction_refusals(n, tuple(d)) | when(30, n in range(12, 25))
    word = arguments[0] if call == "small" else shifted_back(arguments[0])
    held = code_refusals(word) | when(30, 12 <= degree_of(word) <= 24)
    if call != "small":
        must(not held & {1, 4}, "1 and 4 come from words", arguments)
        held |= when(31, arguments[0] % 2)
    return held | when(5, call == "cross-small" and arguments[1] not in (1, 2, 3))


def in_small_form(text):
    """An answer with a code's word, with the small word in its place."""
    code, word, *others = text.split(" ")
    return " ".join([code, f"0x{shifted(int(word, 16)):08X}", *others])


def small_again(call, arguments):
    """The answer, by those of the calls on words."""
    if call == "small":
        (code,) = arguments
        must(shifted(code) < 2**32 and shifted_back(shifted(code)) == code, "there and back", code)
        return in_small_form(code_text(code))
    if call == "file-small":
        return in_small_form(call_file(*arguments))
    code = shifted_back(arguments[0])
    must(call_check(code) == "ok" and shifted(code) == arguments[0], "back and there", arguments)
    if call == "cross-small":
        return in_small_form(call_cross(code, arguments[1]))
    return "ok" if call == "check-small" else code_text(code)


def seen_small(line, text):
    call, *words = parts_of(line)
    arguments = read_arguments(FORMS[call][1], words)
    held = small_held(call, arguments)
    # "the rest as in 01, checked in its order, 30 directly after 1 and 31 directly after 4"
    no = next((no for no in (1, 30, 2, 3, 4, 31, 5, 8, 7) if no in held), 0)
    must(text == (f"refused {no}: {REFUSALS[no]}" if no else small_again(call, arguments)), "again", line, text)
    return SmallSeen(call, tuple(arguments), frozenset(held), no)


def check_small_whole(seen):
    """Every code to degree 4 is written, checked and read, and is crossed over each edge to degree 3. Small words
    compare as the codes of one degree do."""
    given = {(x.call, *x.arguments) for x in seen if x.no == 0}
    for n in range(SMALL_WHOLE + 1):
        for code in whole_degree(n):
            small = shifted(code)
            must({("small", code), ("check-small", small), ("large", small)} <= given, "every code", code)
            must(n > FULL or all(("cross-small", small, k) in given for k in (1, 2, 3)), "over each edge", code)
    codes = {x.arguments[0] for x in seen if x.call == "small" and x.no == 0}
    for n in range(SMALL_DEEPEST + 1):
        here = sorted(code for code in codes if degree_of(code) == n)
        smalls = [small_of(code) for code in here]
        must(all(x < y for x, y in zip(smalls, smalls[1:])), "compared alike", n)


def check_small_numbers(seen):
    """Each refusal that a call can give is given, and no other, and each two that can hold at once do; each call is
    answered at each degree, and each degree beyond is refused."""
    for call, numbers in SMALL_NUMBERS.items():
        here = [x for x in seen if x.call == call]
        must({x.no for x in here} == numbers | {0}, "just these refusals, and answers", call)
        at_once = {frozenset(two) for x in here for two in itertools.combinations(x.held, 2)}
        must(at_once == together(call, numbers), "just these at once", call, at_once)
        degree = {"small": degree_of, "file-small": int}.get(call, lambda small: small_fields(small).degree)
        met = {(degree(x.arguments[0]), x.no) for x in here}
        must(met >= {(n, 0) for n in range(12)}, "answered at each degree", call)
        beyond = range(12, 25 if call in ("small", "file-small") else 16)
        must({n for n, no in met if no == 30} == set(beyond), "refused at each degree beyond", call)
        must(not any(no in (0, 30) for n, no in met if n > 24), "above 24", call)


def check_smalls(calls, answers):
    lines = [(line, text) for line, text in zip(calls, answers) if SMALL_LINE.match(line)]
    seen = [seen_small(line, text) for line, text in lines if not text.startswith(UNREAD)]
    check_small_whole(seen)
    check_small_numbers(seen)


def check_small_lines():
    """The answers by hand. And lines that can not be read are all answered by the call's form."""
    for line, text in SMALL_EXAMPLES.items():
        must(answer(line) == text, "by hand", line, text, answer(line))
    for line in unreadable_smalls():
        must(answer(line) == "error: write it as " + FORMS[line.split(" ")[0]][0], "unreadable", line)


# ==== The calls: opposites, examples with the answers written out by hand

OPPOSITE_CALLS = ["opposite", "opposite-name"]
# By the table of directions V(00) and V(01) are opposite, and so are V(10) and V(31), V(20) and V(41), V(30) and V(51),
# V(40) and V(11), V(50) and V(21). Side 100 is V(00), V(10), V(20); opposite to its corners 1, 3, 2 are V(01), V(41),
# V(31): 310. Side 101 is V(11), V(20), V(10); opposite to its corners 1, 3, 2 are V(40), V(31), V(41): 311. And so on,
# with the next a for all. Where the corners of the opposite triangle are B1, B2, B3, and the middles of its edges N1,
# N2, N3, the corners A1, A2, A3 are opposite to B1, B3, B2, and the middles M1, M2, M3 to N1, N3, N2. Then child 2, M3,
# A2, M1, has its corners 1, 3, 2 opposite to N2, N1, B3: child 3; and child 0 has them opposite to N1, N2, N3.
#
# The holders of (0, 0, 1) at degree 2 are the six triangles at the middle of V(00) and V(10), three in each of sides
# 100 and 500; those of (0, 0, -1) are three in each of 310 and 210. E3 and E7 file them in the least: 10003 and 21003.
# The opposite of 10003 is 31002, which holds (0, 0, -1) too; 21003 is the opposite of 50002. (1, 0, 0) is held by six
# in sides 111 and 201, (-1, 0, 0) by six in 401 and 411: E6's 11102 and its opposite are the least. E4 and E5 are held
# by one triangle each.
#
# The least side with V(01) is 110, with V(31) 210, with V(11) 101, and with V(41), V(51), V(21) 310, 410, 110; and the
# least with V(00), V(10), V(20) is 100, with V(30), V(40), V(50) 200, 300, 400. So corner 1 of 100 is not named by the
# opposite triangle 310, and corner 3 is.
OPPOSITE_TEXT = """
    opposite 100 -> 310 0x7000000000000000
    opposite 200 -> 410 0x9000000000000000
    opposite 300 -> 510 0xB000000000000000
    opposite 400 -> 110 0x3000000000000000
    opposite 500 -> 210 0x5000000000000000
    opposite 101 -> 311 0x7800000000000000
    opposite 201 -> 411 0x9800000000000000
    opposite 301 -> 511 0xB800000000000000
    opposite 401 -> 111 0x3800000000000000
    opposite 501 -> 211 0x5800000000000000
    opposite 110 -> 400 0x8000000000000000
    opposite 210 -> 500 0xA000000000000000
    opposite 310 -> 100 0x2000000000000000
    opposite 410 -> 200 0x4000000000000000
    opposite 510 -> 300 0x6000000000000000
    opposite 111 -> 401 0x8800000000000000
    opposite 211 -> 501 0xA800000000000000
    opposite 311 -> 101 0x2800000000000000
    opposite 411 -> 201 0x4800000000000000
    opposite 511 -> 301 0x6800000000000000
    opposite 1000 -> 3100 0x7040000000000000
    opposite 1001 -> 3101 0x7050000000000000
    opposite 1002 -> 3103 0x7070000000000000
    opposite 1003 -> 3102 0x7060000000000000
    file 2 0 0 1 -> 10003 0x208C000000000000
    file 2 0 0 -1 -> 21003 0x508C000000000000
    opposite 10003 -> 31002 0x7088000000000000
    opposite 0x208C000000000000 -> 31002 0x7088000000000000
    opposite 31002 -> 10003 0x208C000000000000
    opposite 21003 -> 50002 0xA088000000000000
    opposite 50002 -> 21003 0x508C000000000000
    list 0 0 0 1 -> 2: 100 0x2000000000000000, 500 0xA000000000000000
    list 0 0 0 -1 -> 2: 210 0x5000000000000000, 310 0x7000000000000000
    opposite 200000 -> 410000 0x90C0000000000000
    opposite 410000 -> 200000 0x40C0000000000000
    opposite 11102 -> 40103 0x888C000000000000
    file 2 -1 0 0 -> 40103 0x888C000000000000
    opposite 10001230123 -> 31001320132 0x7207878000000000
    opposite 100111111111111111111111111 -> 310111111111111111111111111 0x7615555555555540
    opposite 511333333333333333333333333 -> 301222222222222222222222222 0x6E2AAAAAAAAAAA80
    opposite 0xBE3FFFFFFFFFFFC0 -> 301222222222222222222222222 0x6E2AAAAAAAAAAA80
    opposite 301222222222222222222222222 -> 511333333333333333333333333 0xBE3FFFFFFFFFFFC0
    opposite 0x2640000000000000 -> refused 1
    opposite 0xC640000000000001 -> refused 1
    opposite 000 -> refused 2
    opposite 600 -> refused 2
    opposite 0x0 -> refused 2
    opposite 0xC010000000000001 -> refused 2
    opposite 0x2010000000000000 -> refused 3
    opposite 0x2050000000000040 -> refused 3
    opposite 0x2010000000000001 -> refused 3
    opposite 0x2050000000000004 -> refused 4
    opposite 0x2000000000000001 -> refused 4
    opposite-name 0x2000000000000001 -> 0x3000000000000001 corner 1 of 110
    opposite-name 0x3000000000000001 -> 0x2000000000000001 corner 1 of 100
    opposite-name 0x2000000000000002 -> 0x5000000000000002 corner 2 of 210
    opposite-name 0x5000000000000002 -> 0x2000000000000002 corner 2 of 100
    opposite-name 0x2000000000000003 -> 0x7000000000000002 corner 2 of 310
    opposite-name 0x7000000000000002 -> 0x2000000000000003 corner 3 of 100
    opposite-name 0x4000000000000003 -> 0x9000000000000002 corner 2 of 410
    opposite-name 0x9000000000000002 -> 0x4000000000000003 corner 3 of 200
    opposite-name 0x6000000000000003 -> 0x2800000000000001 corner 1 of 101
    opposite-name 0x2800000000000001 -> 0x6000000000000003 corner 3 of 300
    opposite-name 0x8000000000000003 -> 0x3000000000000002 corner 2 of 110
    opposite-name 0x3000000000000002 -> 0x8000000000000003 corner 3 of 400
    opposite-name 0x2040000000000001 -> 0x7040000000000001 corner 1 of 3100
    opposite-name 0x2040000000000003 -> 0x5040000000000003 corner 3 of 2100
    opposite-name 0x208C000000000003 -> 0x508C000000000003 corner 3 of 21003
    opposite-name 0x2080000000000001 -> 0x7080000000000001 corner 1 of 31000
    opposite-name 0x2080000000000002 -> 0x7080000000000003 corner 3 of 31000
    opposite-name 0x2615555555555541 -> 0x3615555555555541 corner 1 of 110111111111111111111111111
    opposite-name 0x262AAAAAAAAAAA82 -> 0x562AAAAAAAAAAA82 corner 2 of 210222222222222222222222222
    opposite-name 0x263FFFFFFFFFFFC3 -> 0x762AAAAAAAAAAA82 corner 2 of 310222222222222222222222222
    opposite-name 0x2640000000000001 -> refused 1
    opposite-name 0xC640000000000000 -> refused 1
    opposite-name 0x0 -> refused 2
    opposite-name 0x3 -> refused 2
    opposite-name 0xC010000000000000 -> refused 2
    opposite-name 0x2010000000000001 -> refused 3
    opposite-name 0x2010000000000000 -> refused 3
    opposite-name 0x2000000000000000 -> refused 4
    opposite-name 0x2000000000000005 -> refused 4
    opposite-name 0x4000000000000005 -> refused 4
    opposite-name 0x4000000000000001 -> refused 10
    opposite-name 0x4000000000000002 -> refused 10
    opposite-name 0x7000000000000001 -> refused 10
    opposite-name 0x7000000000000003 -> refused 10
    opposite-name 0x7040000000000002 -> refused 10
    opposite-name 0xBE3FFFFFFFFFFFC3 -> refused 10
"""
OPPOSITE_EXAMPLES = dict(map(in_words, OPPOSITE_TEXT.strip().split("\n")))


# ==== The calls: opposites of every triangle and every corner to degree 5, and of some below


def every_opposite():
    for n in range(WHOLE + 1):
        yield from (f"opposite {some_form(code, at)}" for at, code in enumerate(whole_degree(n)))
        yield from (f"opposite-name 0x{canonical(n, p):016{'xX'[at % 2]}}" for at, p in enumerate(whole_index(n)))


def deep_opposites():
    """A triangle and its opposite. Of both the triangles across the edges, and the corners."""
    chance = random.Random(161)
    for n in range(WHOLE + 1, DEEPEST + 1):
        for at in range(6):
            code = (random_code, random_code, seam_code)[at % 3](chance, n)
            for one in (code, opposite_code(code)):
                yield f"opposite {any_form(chance, one)}"
                for edge in (1, 2, 3):
                    yield f"cross {any_form(chance, one)} {edge}"
                    yield f"opposite {any_form(chance, neighbour(one, edge)[0])}"
                yield from (f"opposite-name {some_word(chance, canonical(n, p))}" for p in corners(one))


def opposite_directions():
    """Directions and the negated ones, and the opposites of all that hold them: E3's direction, which is never filed in
    an opposite, another one on a corner, two on edges, and any."""
    chance = random.Random(162)
    on_no_corner = [d for d in edge_directions(WHOLE) if d not in corner_directions(WHOLE)]
    for n in range(WHOLE + 1, DEEPEST + 1):
        some = [(0, 0, 1), chance.choice(on_corners()), *chance.sample(on_no_corner, 2)]
        for d in flat(map(both_ways, some + chance.sample(all_directions(), 3))):
            yield from file_and_list(n, [d])
            yield from (f"opposite {any_form(chance, code)}" for code in holders(n, d))


# ==== The calls: opposites that are refused

# What makes a good word for each call, and what breaks it.
OPPOSITE_KINDS = {"opposite": (random_code, CODE_BREAKS), "opposite-name": (random_name, NAME_BREAKS)}


def damaged_opposites():
    chance = random.Random(163)
    for call, (make, breaks) in OPPOSITE_KINDS.items():
        form = cell_form if call == "opposite" else some_word
        for word in words_of_all_kinds(chance, (0, 1, 5, 14, 23, 24), (0, 4, 24), make, breaks):
            yield f"{call} {form(chance, word)}"


def words_for_corners(chance, whole, many):
    """Every word for a corner, its name first: for all corners to a degree, and so many of each degree below."""
    for n in range(DEEPEST + 1):
        some = whole_index(n) if n <= whole else [chance.choice(corners(random_code(chance, n))) for _ in range(many)]
        yield from (code | number for p in some for code, number in having(n, p))


def opposites_of_others():
    chance = random.Random(164)
    yield from (f"opposite-name {some_word(chance, word)}" for word in words_for_corners(chance, 2, 3))


# ==== The calls: lines with opposites that cannot be read, and lines that can, just

UNREADABLE_OPPOSITES = """
    opposite; opposite-name; opposite x; opposite 1; opposite 10; opposite 800; opposite 1004; opposite 120
    opposite 102; opposite 0x; opposite 0x20500000000000000; opposite 0X2050000000000000; opposite 2050000000000000
    opposite -100; opposite +100; opposite 100,; opposite 100.; opposite 10O; opposite 100 1; opposite 100 101
    opposite 100 100; opposite 100 # note; opposite #; opposite CODE; opposite NAME; opposite of 100; opposite - 100
    opposite 1000000000000000000000000000; opposite name 0x2000000000000001; opposite -name 0x2000000000000001
    opposite corner 100 1; opposite 100 2 3; opposite 0 0 1; opposite 2 0 0 1; opposite 600 1; opposite 0x0 0x0
    opposite 0x2640000000000000 x; opposite 0x200000000000000g; opposite 0x2000_0000_0000_0000; opposite "100"
    opposite 0x2000000000000000 0x2000000000000001; opposite 2305843009213693952; opposite opposite 100
    opposite-name 100; opposite-name 10003; opposite-name 1; opposite-name 0; opposite-name 000; opposite-name 600
    opposite-name 100 1; opposite-name 600 4; opposite-name x; opposite-name 0x; opposite-name 2000000000000001
    opposite-name 0x20000000000000001; opposite-name 0x00000000000000001; opposite-name 0X2000000000000001
    opposite-name -0x1; opposite-name +0x1; opposite-name 0x-1; opposite-name 0x1G; opposite-name 2305843009213693953
    opposite-name 0x2000000000000001 1; opposite-name 0x2000000000000001 0x2000000000000001; opposite-name NAME
    opposite-name 0x2000000000000001 # note; opposite-name #; opposite-name 0x2000000000000001,; opposite-name CODE
    opposite-name 0x0 0; opposite-name 0x4000000000000001 x; opposite-name 0x2000000000000001 corner 1 of 100
    opposite-name corner 1 of 110; opposite-name name; opposite-name V(00); opposite-name 00; opposite-name "0x1"
    opposite ١٠٠; opposite φ; opposite −100; opposite 100\u00a0; opposite \u00a0100; opposite 100\u00a01
    opposite-name 0x٢; opposite-name φ; opposite-name 0x2000000000000001\u00a0; opposite-name \u00a00x2000000000000001
"""


def unreadable_opposites():
    """What can not be read is said before any refusal."""
    yield from written(UNREADABLE_OPPOSITES)
    yield from ["opposite 100\x00", "opposite \x0c100", "opposite 100\x0b", "opposite 0x0 \x00", "opposite \xff"]
    yield from ["opposite-name 0x2000000000000001\x00", "opposite-name \x0b0x1", "opposite-name 0x1 \xff"]
    yield from [filled("opposite 100", 998) + " 1", filled("opposite-name 0x2000000000000001", 998) + " x"]


READABLE_OPPOSITES = """
    opposite 0x2000000000000000; opposite 0xb800000000000000; opposite 0xB800000000000000; opposite 0x208c000000000000
    opposite 0x208C000000000000; opposite 0x1; opposite 0x00; opposite 0x0000000000000000; opposite 0003; opposite 6001
    opposite 711; opposite 711333333333333333333333333; opposite 511333333333333333333333333; opposite 0x20000000000000
    opposite 0xaBcDeF0123456789; opposite 0xFFFFFFFFFFFFFFFF; opposite 0xffffffffffffffff; opposite 0xbe3FffFfffFFFFc0
    opposite-name 0x1; opposite-name 0x00; opposite-name 0x0000000000000003; opposite-name 0x208c000000000003
    opposite-name 0x263fffffffffffc3; opposite-name 0x263FFfffffffFFc3; opposite-name 0xbE00000000000003
    opposite-name 0xaBcDeF0123456789; opposite-name 0x20000000000001; opposite-name 0xFFFFFFFFFFFFFFFF
    opposite-name 0xffffffffffffffff; opposite-name 0xfffffffffffffff
"""


def spaced_opposites():
    """Either case, tabs and carriage returns, and lines of 1000 bytes and more."""
    yield from written(READABLE_OPPOSITES)
    yield from ["\topposite\t1001\t", "opposite 10003\r", "  opposite   511  ", "\ropposite\r100"]
    yield from ["\topposite-name\t0x2000000000000001\t", "opposite-name 0x2000000000000001\r", "\ropposite-name\r0x1"]
    yield from ["  opposite-name   0x4000000000000001  ", "opposite \t\r 100 \r", "opposite-name \t\r 0x1 \r"]
    for length in (999, 1000, 1001, 2000):
        yield filled("opposite 1001", length)
        yield " " * (length - len("opposite 100")) + "opposite 100"
        yield filled("opposite 0x2000000000000001", length, "\t")
        yield filled("opposite-name 0x2000000000000001", length, "\r")
        yield "opposite-name" + " " * (length - 31) + "0x4000000000000001"
        yield "opposite 10003"


def opposites_on_table():
    """An opposite leaves the open table as it is, also one that is refused or can not be read."""
    for line in ("table 1 80 -1 1 1250 79 0", "table 7 3 500"):
        yield line
        for other in ("opposite 1001", "opposite-name 0x2040000000000003", "opposite 600"):
            yield from [other, "get 1001", "get 3101", "readings"]
        for other in ("opposite-name 0x4000000000000001", "opposite", "opposite 1001 1", "opposite-name 1001"):
            yield from [other, "readings"]


# ==== Internal checks of what is answered to opposites

OPPOSITE_LINE = re.compile(rf"[ \t\r]*({'|'.join(OPPOSITE_CALLS)})(?![^ \t\r])")
OPPOSITE_NUMBERS = {"opposite": {1, 2, 3, 4}, "opposite-name": {1, 2, 3, 4, 10}}
OppositeSeen = namedtuple("OppositeSeen", "call word held no other")
CROSS_ANSWER = re.compile("[^ ]+ 0x([0-9A-F]{16}) edge ([123]) corners ([123]) ([123])")
# "keeps corner and edge 1, and exchanges 2 and 3, in digits too". Digit 0 has none to be exchanged with.
EXCHANGED = (0, 1, 3, 2)


def check_opposite_triangle(code, other):
    """A code of the degree; its corners, by their exact coordinates; and its digits."""
    must(not code_refusals(other) and degree_of(other) == degree_of(code), "a code of the degree", code, other)
    ours, theirs = ([exact(p) for p in corners(x)] for x in (code, other))
    must(theirs == [negated(ours[EXCHANGED[k] - 1]) for k in (1, 2, 3)], "the negated corners", code, other)
    must(digits_of(other) == [EXCHANGED[digit] for digit in digits_of(code)], "exchanged in digits too", code, other)


def check_opposite_corner(name, other):
    # "For every corner, the opposite name is canonical and has the coordinates negated."
    must(call_check_name(other) == "ok" and degree_of(other) == degree_of(name), "a name of the degree", name, other)
    must(exact(named_corner(other)) == negated(exact(named_corner(name))), "the coordinates negated", name, other)


def checked_number(call, word):
    """That with which the word is refused when it is checked, or 0."""
    text = (call_check_name if call.endswith("-name") else call_check)(word)
    return 0 if text == "ok" else int(re.match("refused ([0-9]+): ", text)[1])


def seen_opposite(line, text):
    call, *words = parts_of(line)
    (word,) = read_arguments(FORMS[call][1], words)
    held, no = (code_refusals if call == "opposite" else name_refusals)(word), checked_number(call, word)
    if no:
        must(text == refused(no), "refused as it is checked", line, text)
        return OppositeSeen(call, word, held, no, None)
    shown = re.search("0x([0-9A-F]{16})", text)
    must(shown, "a word is answered", line, text)
    other = int(shown[1], 16)
    if call == "opposite":
        must(text == code_text(other), "a triangle", line, text)
        check_opposite_triangle(word, other)
    else:
        must(text == name_text(other), "a corner", line, text)
        check_opposite_corner(word, other)
    return OppositeSeen(call, word, held, no, other)


def check_twice(found):
    """All to degree 3, and some of each degree below, are asked together with what is answered."""
    # "Opposite twice is the identity"
    for call, others in found.items():
        met = Counter()
        for word, other in others.items():
            must(others.get(other, word) == word, "twice", call, word, other)
            met[degree_of(word)] += other in others
        for n in range(DEEPEST + 1):
            every = 20 * 4**n if call == "opposite" else 10 * 4**n + 2
            must(met[n] == every if n <= FULL else met[n] > 0, "twice at every degree", call, n, met[n])


def check_opposite_whole(found):
    """Every triangle and every corner to degree 5 is asked. The opposite of a triangle lies in that of its side. The
    opposite corner's name is the least word that the opposites of the corner's triangles have for it; it is not always
    the one that the opposite of the least of them has."""
    triangles, names = found["opposite"], found["opposite-name"]
    for code, other in triangles.items():
        must(side_of(other) == side_of(triangles[make_code(side_of(code), [])]), "the opposite side", code, other)
    for n in range(WHOLE + 1):
        must(all(code in triangles for code in whole_degree(n)), "every triangle", n)
        of_least = set()
        for places in whole_index(n).values():
            words = [triangles[code] | EXCHANGED[number] for code, number in places]
            name = places[0][0] | places[0][1]
            must(names.get(name) == min(words), "every corner, and the least", n, name)
            of_least.add(names[name] == words[0])
        must(of_least == {True, False}, "by the opposite of the least, and not", n)


def crossings_answered(calls, answers):
    """By code and edge: the code, the edge's number there, and the numbers there of its two corners."""
    found = {}
    for line, text in zip(calls, answers):
        across = CROSS_ANSWER.fullmatch(text) if line.startswith("cross ") else None
        if across:
            _, code, edge = parts_of(line)
            shared, one, two = map(int, across.group(2, 3, 4))
            found[read_code(code), read_number(edge)] = int(across[1], 16), shared, (one, two)
    return found


def exchanged_crossing(edge, shared, turned):
    """The edge, its number in the neighbour, and how the corners turned, with 2 and 3 exchanged here and there; the
    corners are again in rising number."""
    here = [k for k in (1, 2, 3) if k != edge]
    pairs = sorted((EXCHANGED[x], EXCHANGED[there]) for x, there in zip(here, turned))
    return EXCHANGED[edge], EXCHANGED[shared], tuple(there for _, there in pairs)


def check_opposite_crossings(crossings, triangles):
    """Every triangle to degree 5, and some of each degree below, over each edge."""
    # "it carries neighbours to neighbours, keeps corner and edge 1, and exchanges 2 and 3"
    met = Counter()
    for (code, edge), (across, shared, turned) in crossings.items():
        if code in triangles and across in triangles:
            k, there, corners_there = exchanged_crossing(edge, shared, turned)
            found = crossings.get((triangles[code], k))
            must(found in (None, (triangles[across], there, corners_there)), "neighbours to neighbours", code, edge)
            met[degree_of(code), edge] += found is not None
    for n, edge in itertools.product(range(DEEPEST + 1), (1, 2, 3)):
        must(met[n, edge] == 20 * 4**n if n <= WHOLE else met[n, edge] > 0, "over each edge", n, edge, met[n, edge])


def check_opposite_holders(filed, listed, triangles):
    """Of each degree directions with 1, 2 and 6 holders; and such that are filed in opposites, and that are not."""
    met = set()
    for (n, d), codes in listed.items():
        negative = (n, both_ways(d)[1])
        if negative in listed and all(code in triangles for code in codes):
            # "The set of holders of the negated direction is the set of opposites of the holders."
            must(listed[negative] == sorted(triangles[code] for code in codes), "the opposites hold", n, d)
            met.add((n, len(codes)))
            if (n, d) in filed and negative in filed:
                # "The filed code need not be the opposite, ties going to the least code."
                is_opposite = filed[negative] == [triangles[codes[0]]]
                must(filed[n, d] == codes[:1] and (is_opposite or len(codes) > 1), "filed", n, d)
                met.add((n, is_opposite, "filed"))
    for n in range(DEEPEST + 1):
        # "at degree 0 there are 1 or 2"
        must({(n, many) for many in ((1, 2, 6) if n > 0 else (1, 2))} <= met, "held by each count", n)
        must({(n, true, "filed") for true in (True, False)} <= met, "filed in opposites, and not", n)


def check_opposite_numbers(seen):
    """Each refusal that a call can give is given, and no other, and each two that can hold at once do."""
    for call, numbers in OPPOSITE_NUMBERS.items():
        here = [x for x in seen if x.call == call]
        must({x.no for x in here} == numbers | {0}, "just these refusals, and answers", call)
        at_once = {frozenset(two) for x in here for two in itertools.combinations(x.held, 2)}
        must(at_once == together(call, numbers), "just these at once", call, at_once)
        for n in range(DEEPEST + 1):
            nos = {x.no for x in here if degree_of(x.word) == n}
            must(nos >= ({0, 10} if call == "opposite-name" else {0}), "at each degree", call, n, nos)


def check_opposite_answers(calls, answers, filed, listed):
    lines = [(line, text) for line, text in zip(calls, answers) if OPPOSITE_LINE.match(line)]
    seen = [seen_opposite(line, text) for line, text in lines if not text.startswith(UNREAD)]
    found = {call: {x.word: x.other for x in seen if x.call == call and x.no == 0} for call in OPPOSITE_CALLS}
    check_twice(found)
    check_opposite_whole(found)
    check_opposite_crossings(crossings_answered(calls, answers), found["opposite"])
    check_opposite_holders(filed, listed, found["opposite"])
    check_opposite_numbers(seen)


def check_opposite_lines():
    """The answers by hand. Of those that hold E3's direction and E7's, each is opposite to one, and the least are not
    opposite. And lines that can not be read are all answered by the call's form."""
    for line, text in OPPOSITE_EXAMPLES.items():
        must(answer(line) == text, "by hand", line, text, answer(line))
    up, down = "10003 10012 10021 50002 50013 50031".split(), "31002 31013 31031 21003 21012 21021".split()
    must(holders(2, (0, 0, 1)) == [read_triangle(x) for x in up], "the holders of E3's direction")
    must(holders(2, (0, 0, -1)) == sorted(read_triangle(x) for x in down), "the holders of E7's direction")
    for x, y in zip(up, down):
        must(answer(f"opposite {x}") == code_text(read_triangle(y)), "opposite to the other", x, y)
    for line in unreadable_opposites():
        must(answer(line) == "error: write it as " + FORMS[line.split(" ")[0]][0], "unreadable", line)


# ==== The calls: the paper's codes, examples with the answers written out by hand

# (16) to (19) are document 01's sides, with their corners in its order, and (24) to (27) its children: a triangle's
# code reads the same. V(20) is corner 3 of 100 and corner 2 of 200; the first is its name. By (63) to (68) V(101) lies
# between V(10) and V(20), on edge 1 of 100, and so is corner 1 of 1000; V(102) between V(10) and V(11), edge 2 of 101;
# V(103) between V(10) and V(00), edge 3 of 100; V(203) between V(20) and V(00), edge 2 of 100; V(111) between V(11) and
# V(21), edge 1 of 110; V(112) between V(11) and V(01), edge 2 of 110; V(113) between V(11) and V(20), edge 3 of 101.
# V(101) is the base vertex of 1003 and 1012, by (41). Then by (36) and (37) V(1011) is C1(1003), between V(101) and
# V(20): corner 1 of 10030. V(1012) is C2(1012), between V(101) and V(113), on edge 2 of 1010; V(1013) is C3(1003),
# between V(203) and V(101), on edge 3 of 1000. V(203) is the base vertex of 2001 and 2000, by (43), and V(2033) is
# C3(2001), between V(00) and V(203), on edge 2 of 1001. V(112) is the base vertex of 1100 and 1101, by (42), and
# V(1122) is C2(1101), between V(112) and V(01), on edge 2 of 1101. A last digit 0 keeps the point, one degree further:
# V(200) is V(20), the base vertex of 2002 and 2013, by (40), and V(2003) is C3(2002), between V(203) and V(20), on edge
# 2 of 1003; V(2102) is C2(2103), between V(21) and V(212), on edge 3 of 1102. Both edges are extraordinary.
PAPER_TEXT = """
    paper 100 -> 100
    paper 1003 -> 1003
    paper 10003 -> 10003
    paper 0x208C000000000000 -> 10003
    paper 21003 -> 21003
    paper 511 -> 511
    paper 110 -> 110
    paper 1012 -> 1012
    paper 1103 -> 1103
    paper 41012301230123 -> 41012301230123
    paper 511333333333333333333333333 -> 511333333333333333333333333
    paper 100000000000000000000000000 -> 100000000000000000000000000
    paper 10003 27 -> 10003 | 1 0 0 0 3 6 7 8 9 10 11 12 13 14 15 16 17 18 19 20 21 22 23 24 25 26 27
    paper 3112 28 -> 3112 | 3 1 1 2 5 6 7 8 9 10 11 12 13 14 15 16 17 18 19 20 21 22 23 24 25 26 27 28
    paper 200 26 -> refused 9 | 1 2 3 4 5 6 7 8 9 10 11 12 13 14 15 16 17 18 19 20 21 22 23 24 25 26
    paper 200 3 -> refused 9 | 1 2 3
    paper 200 0 -> refused 9 |
    paper 600 2 -> refused 2 | 1 2
    paper 600 27 -> refused 2 | 1 2 3 4 5 6 7 8 9 10 11 12 13 14 15 16 17 18 19 20 21 22 23 24 25 26 27
    paper 0x2640000000000000 0 -> refused 1 |
    paper 0x2640000000000001 -> refused 1
    paper 000 -> refused 2
    paper 0x0 -> refused 2
    paper 0x2010000000000000 -> refused 3
    paper 0x2000000000000001 -> refused 4
    paper 0x2050000000000004 1 -> refused 4 | 1
    paper-name 0x2000000000000001 -> 00
    paper-name 0x2000000000000002 -> 10
    paper-name 0x2000000000000003 -> 20
    paper-name 0x4000000000000003 -> 30
    paper-name 0x6000000000000003 -> 40
    paper-name 0x8000000000000003 -> 50
    paper-name 0x3000000000000001 -> 01
    paper-name 0x2800000000000001 -> 11
    paper-name 0x3000000000000002 -> 21
    paper-name 0x5000000000000002 -> 31
    paper-name 0x7000000000000002 -> 41
    paper-name 0x9000000000000002 -> 51
    paper-name 0x2040000000000001 -> 101
    paper-name 0x2840000000000002 -> 102
    paper-name 0x2040000000000003 -> 103
    paper-name 0x2040000000000002 -> 203
    paper-name 0x3040000000000001 -> 111
    paper-name 0x3040000000000002 -> 112
    paper-name 0x2840000000000003 -> 113
    paper-name 0x2050000000000001 -> 000
    paper-name 0x3050000000000001 -> 010
    paper-name 0x2060000000000002 -> 100
    paper-name 0x20B0000000000001 -> 1011
    paper-name 0x2880000000000002 -> 1012
    paper-name 0x2080000000000003 -> 1013
    paper-name 0x2090000000000002 -> 2033
    paper-name 0x3090000000000002 -> 1122
    paper-name 0x20B0000000000002 -> 2003
    paper-name 0x30A0000000000003 -> 2102
    paper-name 0x2615555555555541 -> 00000000000000000000000000
    paper-name 0x3615555555555541 -> 01000000000000000000000000
    paper-name 0x262AAAAAAAAAAA82 -> 10000000000000000000000000
    paper-name 0x263FFFFFFFFFFFC3 -> 20000000000000000000000000
    paper-name 0x2040000000000001 26 -> 101 | 1 0 1 4 5 6 7 8 9 10 11 12 13 14 15 16 17 18 19 20 21 22 23 24 25 26
    paper-name 0x2050000000000001 27 -> 000 | 0 0 0 4 5 6 7 8 9 10 11 12 13 14 15 16 17 18 19 20 21 22 23 24 25 26 27
    paper-name 0x2040000000000001 25 -> refused 9 | 1 2 3 4 5 6 7 8 9 10 11 12 13 14 15 16 17 18 19 20 21 22 23 24 25
    paper-name 0x2000000000000001 0 -> refused 9 |
    paper-name 0x4000000000000001 -> refused 10
    paper-name 0x4000000000000002 2 -> refused 10 | 1 2
    paper-name 0x2640000000000001 -> refused 1
    paper-name 0x0 1 -> refused 2 | 1
    paper-name 0x2010000000000001 -> refused 3
    paper-name 0x2000000000000000 -> refused 4
    from-paper 100 -> 100 0x2000000000000000
    from-paper 1003 -> 1003 0x2070000000000000
    from-paper 10003 -> 10003 0x208C000000000000
    from-paper 511 -> 511 0xB800000000000000
    from-paper 1012 -> 1012 0x2860000000000000
    from-paper 1103 -> 1103 0x3070000000000000
    from-paper 511333333333333333333333333 -> 511333333333333333333333333 0xBE3FFFFFFFFFFFC0
    from-paper 100111111111111111111111111 -> 100111111111111111111111111 0x2615555555555540
    from-paper 0 -> refused 33
    from-paper 1 -> refused 33
    from-paper 10 -> refused 33
    from-paper 00 -> refused 33
    from-paper 000 -> refused 33
    from-paper 600 -> refused 33
    from-paper 900 -> refused 33
    from-paper 120 -> refused 33
    from-paper 102 -> refused 33
    from-paper 1004 -> refused 33
    from-paper 0100 -> refused 33
    from-paper 511333333333333333333333334 -> refused 33
    from-paper 999999999999999999999999999 -> refused 33
    from-paper 5113333333333333333333333333 -> refused 1
    from-paper 9999999999999999999999999999 -> refused 1
    from-paper 0000000000000000000000000000 -> refused 1
    from-paper-vertex 00 -> 0x2000000000000001 corner 1 of 100
    from-paper-vertex 01 -> 0x3000000000000001 corner 1 of 110
    from-paper-vertex 20 -> 0x2000000000000003 corner 3 of 100
    from-paper-vertex 51 -> 0x9000000000000002 corner 2 of 410
    from-paper-vertex 101 -> 0x2040000000000001 corner 1 of 1000
    from-paper-vertex 102 -> 0x2840000000000002 corner 2 of 1010
    from-paper-vertex 103 -> 0x2040000000000003 corner 3 of 1000
    from-paper-vertex 203 -> 0x2040000000000002 corner 2 of 1000
    from-paper-vertex 111 -> 0x3040000000000001 corner 1 of 1100
    from-paper-vertex 112 -> 0x3040000000000002 corner 2 of 1100
    from-paper-vertex 113 -> 0x2840000000000003 corner 3 of 1010
    from-paper-vertex 000 -> 0x2050000000000001 corner 1 of 1001
    from-paper-vertex 010 -> 0x3050000000000001 corner 1 of 1101
    from-paper-vertex 100 -> 0x2060000000000002 corner 2 of 1002
    from-paper-vertex 1011 -> 0x20B0000000000001 corner 1 of 10030
    from-paper-vertex 1012 -> 0x2880000000000002 corner 2 of 10100
    from-paper-vertex 1013 -> 0x2080000000000003 corner 3 of 10000
    from-paper-vertex 2033 -> 0x2090000000000002 corner 2 of 10010
    from-paper-vertex 1122 -> 0x3090000000000002 corner 2 of 11010
    from-paper-vertex 2003 -> 0x20B0000000000002 corner 2 of 10030
    from-paper-vertex 2102 -> 0x30A0000000000003 corner 3 of 11020
    from-paper-vertex 00000000000000000000000000 -> 0x2615555555555541 corner 1 of 100111111111111111111111111
    from-paper-vertex 10000000000000000000000000 -> 0x262AAAAAAAAAAA82 corner 2 of 100222222222222222222222222
    from-paper-vertex 0 -> refused 33
    from-paper-vertex 5 -> refused 33
    from-paper-vertex 02 -> refused 33
    from-paper-vertex 60 -> refused 33
    from-paper-vertex 12 -> refused 33
    from-paper-vertex 104 -> refused 33
    from-paper-vertex 001 -> refused 33
    from-paper-vertex 013 -> refused 33
    from-paper-vertex 00000000000000000000000001 -> refused 33
    from-paper-vertex 99999999999999999999999999 -> refused 33
    from-paper-vertex 000000000000000000000000000 -> refused 1
    from-paper-vertex 000000000000000000000000001 -> refused 1
    from-paper-vertex 511333333333333333333333333 -> refused 1
    from-paper-vertex 999999999999999999999999999 -> refused 1
"""
PAPER_EXAMPLES = dict(map(in_words, PAPER_TEXT.strip().split("\n")))


# ==== The calls: the paper's codes of every triangle and every corner to degree 5, and of some below, there and back


def lent_digits(chance, longest):
    """Mostly none is shown; else just as long as it must be, or longer."""
    return chance.choice(["", "", "", "", f" {longest}", f" {chance.randint(longest, MOST_DIGITS)}"])


def domain_calls(chance, code):
    yield f"paper {any_form(chance, code)}{lent_digits(chance, LONGEST_DOMAIN)}"
    yield f"from-paper {domain_code(code)}"


def vertex_calls(chance, n, p):
    yield f"paper-name {some_word(chance, canonical(n, p))}{lent_digits(chance, LONGEST_VERTEX)}"
    yield f"from-paper-vertex {vertex_code(n, p)}"


def every_paper():
    chance = random.Random(181)
    for n in range(WHOLE + 1):
        yield from (line for code in whole_degree(n) for line in domain_calls(chance, code))
        yield from (line for p in whole_index(n) for line in vertex_calls(chance, n, p))


def polar_seam_code(chance, n):
    """On an edge that ends in a pole: by (46) to (49) only such have extraordinary edges."""
    some = chance.choice([(1, 2), (1, 3)])
    return make_code((chance.randint(1, 5), chance.randrange(2), 0), [chance.choice(some) for _ in range(n)])


def deep_papers():
    """Triangles of every kind, all digits alike among them, with a corner of each; the poles, and other vertices of the
    icosahedron. Of degree 24 all triangles with all digits alike."""
    chance = random.Random(182)
    for n in range(WHOLE + 1, DEEPEST + 1):
        kinds = (random_code, seam_code, random_code, polar_seam_code)
        codes = [kinds[at % 4](chance, n) for at in range(12)]
        sides = SIDES if n == DEEPEST else chance.sample(SIDES, 1)
        codes += [make_code(side, [digit] * n) for side in sides for digit in (0, 1, 2, 3)]
        for code in codes:
            yield from domain_calls(chance, code)
            yield from vertex_calls(chance, n, chance.choice(corners(code)))
        for vertex in ["00", "01", *chance.sample(ORDER[2:], 2)]:
            yield from vertex_calls(chance, n, tuple(w << n for w in vertex_weights(vertex)))


# ==== The calls: the paper's codes of words that are refused, and lists that are too short

# What makes a good word for each call, what breaks it, and the length of the longest code.
PAPER_KINDS = {
    "paper": (random_code, CODE_BREAKS, LONGEST_DOMAIN),
    "paper-name": (random_name, NAME_BREAKS, LONGEST_VERTEX),
}


def any_lent_digits(chance, longest):
    """None is shown; or just as long as it must be, one place too short, or of any length."""
    some = [longest, longest - 1, chance.randrange(MOST_DIGITS + 1)]
    return chance.choice(["", *(f" {places}" for places in some)])


def damaged_for_paper():
    chance = random.Random(183)
    for call, (make, breaks, longest) in PAPER_KINDS.items():
        form = cell_form if call == "paper" else some_word
        for word in words_of_all_kinds(chance, (0, 1, 5, 14, 23, 24), (0, 4, 24), make, breaks):
            yield f"{call} {form(chance, word)}{any_lent_digits(chance, longest)}"


def others_for_paper():
    chance = random.Random(184)
    for word in words_for_corners(chance, 2, 2):
        yield f"paper-name {some_word(chance, word)}{any_lent_digits(chance, LONGEST_VERTEX)}"


def paper_places():
    """Every length with words that are answered, and with one word for each refusal."""
    chance = random.Random(185)
    for places in range(MOST_DIGITS + 1):
        for call, (make, breaks, _) in PAPER_KINDS.items():
            words = [make(chance, n) for n in (0, 1, 5, 23, 24)] + [one(make(chance, 2), chance) for one in breaks]
            yield from (f"{call} {word_text(word)} {places}" for word in words)


# ==== The calls: codes of the paper, good and bad

# What the paper's text allows for each digit of a code that is not a pole's: for a, p and q, or a and p, and for all
# after them.
ALLOWED = {"from-paper": ["12345", "01", "01", "0123"], "from-paper-vertex": ["12345", "01", "0123"]}


def allowed_at(call, place):
    return ALLOWED[call][min(place, len(ALLOWED[call]) - 1)]


def random_digits(chance, call, length):
    """Such a code, or what it begins with."""
    return "".join(chance.choice(allowed_at(call, place)) for place in range(length))


def short_papers():
    """All digits: of a triangle code to four of them, of a vertex code to three."""
    for call, longest in (("from-paper", 4), ("from-paper-vertex", 3)):
        for many in range(1, longest + 1):
            yield from (f"{call} {''.join(digits)}" for digits in itertools.product("0123456789", repeat=many))


PAPER_LENGTHS = [*range(1, 36), 51, 52, 53, 54, 59, 60, 61, 64, 65, 100, 127, 128, 200, 255, 256, 257, 258, 259, 260]
PAPER_LENGTHS += [281, 282, 283, 284, 300, 511, 512, 514, 515, 538, 539, 540, 768, 771, 900, 980]


def paper_lengths():
    """Codes that are allowed, or would be if they were longer or shorter; the same with a last or a first digit that is
    not; all digits alike; any digits. As many as the line has room for, and one more."""
    chance = random.Random(186)
    for call in ALLOWED:
        room = 1000 - len(call) - 1
        for length in [*PAPER_LENGTHS, room - 1, room, room + 1]:
            good = random_digits(chance, call, length)
            yield from (f"{call} {x}" for x in (good, good[:-1] + chance.choice("456789"), "6" + good[1:]))
            yield from (f"{call} {digit * length}" for digit in "019")
            yield f"{call} {'1' + '0' * (length - 1)}"
            yield f"{call} {''.join(chance.choice('0123456789') for _ in range(length))}"


def damaged_papers():
    """At each place each digit that the text does not allow there; then two such at once."""
    chance = random.Random(187)
    for call, allowed in ALLOWED.items():
        for n in (0, 1, 2, 5, 13, 23, 24):
            length = len(allowed) - 1 + n
            for place in range(length):
                for bad in sorted(set("0123456789") - set(allowed_at(call, place))):
                    good = random_digits(chance, call, length)
                    # With digits after it that are not 0 a pole's a is not allowed either.
                    rest = good[place + 1 : -1] + "3" if place == 0 and n > 0 else good[place + 1 :]
                    if (call, place, n, bad) != ("from-paper-vertex", 0, 0, "0"):
                        yield f"{call} {good[:place]}{bad}{rest}"
            for one, two in itertools.combinations(range(length), 2) if n in (2, 24) else ():
                digits = list(random_digits(chance, call, length))
                digits[one], digits[two] = chance.choice("6789"), chance.choice("456789")
                yield f"{call} {''.join(digits)}"


def damaged_poles():
    """Of every degree the two poles; with a digit from 1 to 3, or from 4 to 9, at each place, alone; with digits from 0
    to 3; with another p; and with another a, which makes another vertex of the icosahedron, or none."""
    chance = random.Random(188)
    for n, p in itertools.product(range(DEEPEST + 3), "01"):
        yield f"from-paper-vertex 0{p}{'0' * n}"
        for place in range(n):
            some = "123" if n in (1, 2, DEEPEST) else chance.choice("123")
            for digit in some + chance.choice("456789"):
                yield f"from-paper-vertex 0{p}{'0' * place}{digit}{'0' * (n - place - 1)}"
        yield f"from-paper-vertex 0{chance.choice('23456789')}{'0' * n}"
        yield from (f"from-paper-vertex {a}{p}{'0' * n}" for a in ("1", chance.choice("2345"), chance.choice("6789")))
        if n > 0:
            yield f"from-paper-vertex 0{p}{''.join(chance.choice('0123') for _ in range(n - 1))}{chance.choice('123')}"


# ==== The calls: lines with the paper's codes that cannot be read, and lines that can, just

UNREADABLE_PAPERS = """
    paper; paper-name; from-paper; from-paper-vertex; paper x; paper 1; paper 10; paper 800; paper 1004; paper 120
    paper 102; paper 0x; paper 0x20500000000000000; paper 0X2050000000000000; paper 2050000000000000; paper -100
    paper +100; paper 100,; paper 100.; paper 10O; paper 100 x; paper 100 33; paper 100 34; paper 100 64; paper 100 -1
    paper 100 +27; paper 100 27.0; paper 100 0x21; paper 100 0x; paper 100 18446744073709551616; paper 100 4294967323
    paper 100 256; paper 100 283; paper 100 27 27; paper 100 27 x; paper 100 # note; paper #; paper CODE; paper NAME
    paper 100 101; paper of 100; paper - 100; paper 1000000000000000000000000000; paper name 0x2000000000000001
    paper 100 0x10000000000000000; paper 100 27 # note; paper "100"; paper S(100); paper 100 [27]; paper 100 27,
    paper 600 33; paper 0x2640000000000000 33; paper 0x0 x; paper 000 -1; paper 100 000000033; paper 100 twenty-seven
    paper 100 PLACES; paper 100 0x00000000000000021; paper 1 0 0; paper 1 0 0 27; paper paper 100
    paper 2305843009213693952; paper-name 100; paper-name 10003; paper-name 1; paper-name 0; paper-name 20
    paper-name 00; paper-name 100 1; paper-name x; paper-name 0x; paper-name 2000000000000001
    paper-name 0x20000000000000001; paper-name V(20); paper-name 0x00000000000000001; paper-name 0X2000000000000001
    paper-name -0x1; paper-name 0x1G; paper-name NAME; paper-name 0x2000000000000001 33; paper-name 0x2000000000000001 x
    paper-name 0x2000000000000001 -1; paper-name 0x2000000000000001 26 26; paper-name 0x2000000000000001 0x21
    paper-name 0x2000000000000001 # note; paper-name 0x2000000000000001 0x2000000000000001
    paper-name 0x2000000000000001 18446744073709551615; paper-name 0x2000000000000001, 26
    paper-name 0x2000000000000001 26.; paper-name #; paper-name 0x0 33; paper-name 0x4000000000000001 33
    paper-name 0x2640000000000001 x; paper-name 0x2000000000000001 corner 1 of 100; from-paper x
    from-paper 0x2000000000000000; from-paper 0x100; from-paper 0x1; from-paper 0x; from-paper -100; from-paper +100
    from-paper -1; from-paper 100 1; from-paper 100 27; from-paper 100 x; from-paper 1 0 0; from-paper 1,0,0
    from-paper 100,; from-paper 100.; from-paper 1.0; from-paper 10O; from-paper l00; from-paper 100a; from-paper a00
    from-paper 1000a; from-paper 100-; from-paper 10-0; from-paper 1_00; from-paper "100"; from-paper '100'
    from-paper S(100); from-paper (100); from-paper 100#; from-paper #100; from-paper # 100; from-paper 100 # note
    from-paper DIGITS; from-paper CODE; from-paper vertex 20; from-paper -vertex 20; from-paper of 100; from-paper - 100
    from-paper 100 100; from-paper 1003 0x2070000000000000; from-paper 9 x; from-paper 999 999; from-paper 1e2
    from-paper 51133333333333333333333333x; from-paper 5113333333333333333333333333x; from-paper 99999999999999999999x
    from-paper-vertex x; from-paper-vertex 0x2000000000000001; from-paper-vertex 0x0; from-paper-vertex 0x20
    from-paper-vertex -20; from-paper-vertex +20; from-paper-vertex 20 1; from-paper-vertex 20 26; from-paper-vertex 2 0
    from-paper-vertex 20,; from-paper-vertex 20.; from-paper-vertex 2O; from-paper-vertex 20a; from-paper-vertex a0
    from-paper-vertex V(20); from-paper-vertex (20); from-paper-vertex 20#; from-paper-vertex # 20; from-paper-vertex #
    from-paper-vertex DIGITS; from-paper-vertex NAME; from-paper-vertex 20 # note; from-paper-vertex "20"
    from-paper-vertex 20 x; from-paper-vertex 00 00; from-paper-vertex 99 x; from-paper-vertex 2_0; from-paper-vertex -
    from-paper-vertex 00000000000000000000000000x; from-paper-vertex 000000000000000000000000000x; paper ١٠٠; paper φ
    paper −100; paper 100\u00a0; paper \u00a0100; paper 100 ٢٧; paper 100\u00a027; paper-name 0x٢; paper-name φ
    paper-name 0x2000000000000001\u00a0; paper-name 0x2000000000000001 ٢٦; from-paper ١٠٠; from-paper 10³
    from-paper 100\u00a0; from-paper \u00a0100; from-paper １００; from-paper φ; from-paper −100; from-paper Σ
    from-paper-vertex ٢٠; from-paper-vertex 20\u00a0; from-paper-vertex ２０; from-paper-vertex 2⁰; from-paper-vertex Τ
"""


def unreadable_papers():
    """What can not be read is said before any refusal."""
    yield from written(UNREADABLE_PAPERS)
    yield from ["paper 100\x00", "paper \x0c100", "paper 100 27\x0b", "paper 0x0 \x00", "paper \xff", "paper 100 \xff"]
    yield from (f"paper-name {x}" for x in ("0x2000000000000001\x00", "\x0b0x1", "0x1 \xff", "0x1 26\x0c"))
    yield from ["from-paper 100\x00", "from-paper \x0c100", "from-paper 10\x0b0", "from-paper \xff", "from-paper \x00"]
    yield from (f"from-paper-vertex {x}" for x in ("20\x00", "\x0b20", "2\x0c0", "\xb2"))
    yield from [f"from-paper 100{x}" for x in "/:;<=>?@ABFGZ[`{|}~!*"]
    yield from [f"from-paper-vertex {x}0" for x in "/:;<=>?@ABFGZ[`{|}~!*"]
    yield from [filled("paper 100", 996) + " 33", filled("paper-name 0x2000000000000001", 998) + " x"]
    yield from [filled("from-paper 100", 998) + " 1", filled("from-paper-vertex 20", 998) + " x"]
    yield from ["from-paper " + "1" * 988 + "x", "from-paper-vertex x" + "0" * 981, "from-paper " + "9" * 500 + " 9"]


READABLE_PAPERS = """
    paper 0x2000000000000000; paper 0xb800000000000000; paper 0xB800000000000000; paper 0x208c000000000000; paper 0x1
    paper 0x00; paper 0003; paper 6001; paper 711; paper 711333333333333333333333333; paper 0x20000000000000
    paper 0xaBcDeF0123456789; paper 0xFFFFFFFFFFFFFFFF; paper 0xbe3FffFfffFFFFc0; paper 100 0x1b; paper 100 0x1B
    paper 100 027; paper 100 0x1a; paper 100 0x20; paper 100 032; paper 100 00000000000000000000000000000027
    paper 100 0x0; paper 100 000; paper 100 0x000000000000001c; paper 0xbe3fffffffffffc0 0x20; paper 600 0x20
    paper 0x0 00; paper-name 0x1; paper-name 0x00; paper-name 0x208c000000000003; paper-name 0x263fffffffffffc3
    paper-name 0xFFFFFFFFFFFFFFFF; paper-name 0x263FFfffffffFFc3; paper-name 0xbE00000000000003
    paper-name 0xaBcDeF0123456789; paper-name 0x20000000000001; paper-name 0x2000000000000001 0x1a
    paper-name 0x2000000000000001 0x1A; paper-name 0x2000000000000001 026; paper-name 0x2000000000000001 0x19
    paper-name 0x2000000000000001 0x20; paper-name 0x2000000000000001 0000
    paper-name 0x2000000000000001 0000000000000000000000000000000000000032; paper-name 0x0 0x1; from-paper 100
    from-paper 1001; from-paper 0001; from-paper 00100; from-paper 18446744073709551616; from-paper 18446744073709551615
    from-paper 4294967396; from-paper 2305843009213693952; from-paper 10010110; from-paper-vertex 0000
    from-paper-vertex 0100; from-paper-vertex 0020; from-paper-vertex 18446744073709551616; from-paper-vertex 4294967316
    from-paper-vertex 2305843009213693953; from-paper-vertex 10010110
"""


def spaced_papers():
    """Either case, leading zeros, tabs and carriage returns, and lines of 1000 bytes and more."""
    yield from written(READABLE_PAPERS)
    yield from ["\tpaper\t1001\t", "paper 10003\r", "  paper   511  ", "\rpaper\r100\r27", "paper \t\r 100 \r 27 \t"]
    yield from ["\tpaper-name\t0x2000000000000001\t", "paper-name 0x2000000000000001\r", "\rpaper-name\r0x1\r26"]
    yield from ["\tfrom-paper\t1001\t", "from-paper 10003\r", "  from-paper   511  ", "\rfrom-paper\r99"]
    yield from ["from-paper \t 10", "\tfrom-paper-vertex\t20\t", "from-paper-vertex 2033\r", "  from-paper-vertex   51"]
    yield "\rfrom-paper-vertex\r0"
    for length in (999, 1000, 1001, 2000):
        yield filled("paper 1001", length)
        yield "paper 1001 " + "0" * (length - 13) + "28"
        yield filled("paper 1001 27", length, "\t")
        yield filled("paper-name 0x2000000000000001", length, "\r")
        yield "paper-name" + " " * (length - 31) + "0x4000000000000001 1"
        yield " " * (length - len("from-paper 1003")) + "from-paper 1003"
        yield filled("from-paper 1009", length)
        yield "from-paper-vertex" + "\t" * (length - 21) + "2033"
        yield filled("from-paper ", length, "3")
        yield filled("from-paper-vertex ", length, "0")
        yield "from-paper 10003"


def papers_on_table():
    """A call on the paper's codes leaves the open table as it is, also one that is refused or can not be read."""
    for line in ("table 1 80 -1 1 1250 79 0", "table 7 3 500"):
        yield line
        for other in ("paper 1001", "paper 1001 28", "paper-name 0x2040000000000003", "from-paper 1001"):
            yield from [other, "get 1001", "readings"]
        for other in ("from-paper-vertex 2033", "paper 600 1", "from-paper 1009", "from-paper-vertex 001"):
            yield from [other, "get 1001", "readings"]
        for other in ("paper", "paper 1001 33", "paper-name 20", "from-paper x", "from-paper-vertex 20 1"):
            yield from [other, "readings"]


# ==== Internal checks of the paper's formulae, to degree 3

# Section 5, the list before (38): the two domains, of both orientations, whose base vertex is V(Ts), each as o and r of
# Σ(o)r.
BASE_DOMAINS = {
    "0": ((0, "2"), (1, "3")),
    "1": ((0, "3"), (1, "2")),
    "2": ((1, "0"), (1, "1")),
    "3": ((0, "1"), (0, "0")),
}
Built = namedtuple("Built", "point pair")


def point_below(above, s):
    """The weights of V(Ts)."""
    # (36): "V(T0) = V(T), V(T1) = C1(Σ(0)) = C1(Σ(1))"; (37): "V(T2) = C2(Σ(1)), V(T3) = C3(Σ(0))".
    zero, one = map(centres, above.pair)
    must(zero[0] == one[0], "(36)", above)
    return {"0": kept(above.point), "1": zero[0], "2": one[1], "3": zero[2]}[s]


@lru_cache(maxsize=1 << 13)
def built(t):
    """The weights of V(T), which is not a polar one, and the vertices of both domains whose base vertex it is: from
    the centres, not by σ."""
    if len(t) == 2:
        # "each vertex V(ap) is the base vertex of the domains S(ap0) and S(ap1)"
        pair = sorted((t + "0", t + "1"), key=lambda sigma: ORIENTATIONS[sigma[1:]])
        return Built(vertex_weights(t), tuple(domains(0)[sigma] for sigma in pair))
    above, s = built(t[:-1]), t[-1]
    return Built(point_below(above, s), tuple(subdomains(above.pair[o])[r] for o, r in BASE_DOMAINS[s]))


def built_point(t):
    """The same weights; a pole stays where it is."""
    if is_polar(t) or len(t) == 2:
        return tuple(w << len(t) - 2 for w in vertex_weights(t[:2]))
    return point_below(built(t[:-1]), t[-1])


def check_domain_edges(sigma, vertices):
    """X1, X2 and X3 by their definition, and (P)."""
    o, x2, x3, _ = coded(sigma)
    for i in (1, 2, 3):
        ends = [p for p in vertices if p != vertices[i - 1]]
        ((across, others),) = [x for x in domains_with(len(sigma) - 3, ends) if x[0] != sigma]
        (there,) = [k for k in (1, 2, 3) if others[k - 1] not in ends]
        # "the number e(O(Σ)*, i) will be called the e-index of the i-th edge". "ordinary (extraordinary) just if the
        # orientations of these two domains are mutually opposite (equal)".
        e, e_there = E_OF[1 - o][i], E_OF[1 - coded(across).o][there]
        extraordinary = o == coded(across).o
        must(extraordinary == (0, x2, x3)[e - 1], "extraordinary", sigma, i)
        # "if this edge is ordinary, its indices in both domains are equal; if this edge is extraordinary and it has
        # index i in one domain, then it has index e(1, i) in the other domain and i ≠ 1"; "if this edge has e-index e
        # in one domain, then it has e-index e(1, e) in the other domain".
        must(there == (E_OF[1][i] if extraordinary else i) and (i != 1 or not extraordinary), "(P)", sigma, i)
        must(e_there == E_OF[1][e], "(P)", sigma, i)


def check_domain(sigma, vertices):
    o, x2, x3, tau = coded(sigma)
    # "the domain S(Σ) has orientation 0 (orientation 1) just if the number of zeros in its denotation is even (odd)"
    must(o == sigma.count("0") % 2, "the orientation", sigma)
    # (45), and what τ gives against the centres.
    must([built_point(tau[E_OF[o][i] - 1]) for i in (1, 2, 3)] == list(vertices), "(45)", sigma)
    check_domain_edges(sigma, vertices)
    # What follows from (46) to (49). The sentence after (49) has {1, 2} in all four places; section 7, before (152) and
    # before (164), agrees with the formulae.
    must(x2 == bool(re.fullmatch("[1-5](00[12]*|10[13]*)", sigma)), "X2", sigma)
    must(x3 == bool(re.fullmatch("[1-5](00[13]*|10[12]*)", sigma)), "X3", sigma)


def check_vertex(t):
    pair = based(0, t), based(1, t)
    # (44), (35), and "it is always T = τ2(σ(o, T))".
    must([coded(sigma).o for sigma in pair] == [0, 1], "(44)", t)
    must(all(coded(sigma).tau[1] == t for sigma in pair), "τ2(σ(o, T))", t)
    zero, one = map(vertices_of, pair)
    must(zero[1] == one[2] == vertex_point(t) and zero[2] == one[1], "(35)", t)
    # (36), (37), and the list before (38).
    must(vertex_point(t) == built(t).point and (zero, one) == built(t).pair, "from the centres", t)
    below = [vertex_point(t + s) for s in "0123"]
    must(below == [kept(zero[1]), centres(zero)[0], centres(one)[1], centres(zero)[2]], "(36), (37)", t)
    # Section 7, before (152) and before (164).
    a_p, rest = t[1], set(t[2:])
    for o, some in ((0, "13"), (1, "12")):
        must(coded(pair[o]).x3 == (a_p == str(o) and rest <= set(some)), "X3(σ(o, T))", t)
    for o, some in ((0, "03"), (1, "02")):
        must(coded(pair[o]).x2 == (a_p == str(o) and rest <= set(some)), "X2(σ(o, T))", t)


def vertex_codes(n):
    """All vertex codes of a degree, the poles' last."""
    some = itertools.product("12345", "01", *["0123"] * n)
    return [*map("".join, some), *(f"0{p}{'0' * n}" for p in "01")]


def check_poles(n):
    for t in vertex_codes(n)[-2:]:
        must({vertices_of(polar_domain(a, t))[0] for a in PLUS} == {built_point(t)}, "the pole of five", t)
        # Section 7, at its end: "if T has the form 00T{0}, the neighbouring vertices are V(a0T{3}) for all a ..,
        # where T{3} contains N digits 3", "if T has the form 01T{0}, .. V(a1T{2})".
        near = {p for _, vertices in domains_with(n, [built_point(t)]) for p in vertices} - {built_point(t)}
        must(near == {vertex_point(a + t[1] + "32"[int(t[1])] * n) for a in PLUS}, "next to the pole", t)


def check_first_centres():
    """The vertices of degree 1 as the end of section 5 has them."""
    for a, plus in PLUS.items():
        ends = {"01": (a + "0", plus + "0"), "02": (a + "0", a + "1"), "03": (a + "0", "00")}  # (63) to (65)
        ends |= {"11": (a + "1", plus + "1"), "12": (a + "1", "01"), "13": (a + "1", plus + "0")}  # (66) to (68)
        for t, (one, two) in ends.items():
            must(vertex_point(a + t) == middle(vertex_weights(one), vertex_weights(two)), "(63) to (68)", a + t)
        # The poles of the circles in the table after (76), "mutually antipodal".
        for t, other in (("03", "12"), ("01", "11"), ("02", "13")):
            must(opposite(vertex_point(a + t)) == vertex_point(PLUS[plus] + other), "antipodal", a + t)


def check_paper():
    must(all(E_OF[o][E_OF[o][r]] == r for o in (0, 1) for r in (0, 1, 2, 3)), "e(o, e(o, r)) = r")
    check_first_centres()
    for n in range(FULL + 1):
        must(len(domains(n)) == 20 * 4**n and set(domains_at(n)) == set(whole_index(n)), "the domains", n)
        for sigma, vertices in domains(n).items():
            must(dict(domain_search(n, vertices)).get(sigma) == vertices, "coming down", sigma)
            check_domain(sigma, vertices)
        for t in vertex_codes(n)[:-2]:
            check_vertex(t)
        check_poles(n)
        # "an unique coding of each vertex of the net"
        found = {vertex_code(n, p) for p in whole_index(n)}
        must(found == set(vertex_codes(n)) and len(found) == len(whole_index(n)), "each code once", n)


# ==== Internal checks of what is answered with the paper's codes

PAPER_LINE = re.compile(rf"[ \t\r]*({'|'.join(PAPER_CALLS)})(?![^ \t\r])")
PAPER_NUMBERS = {"paper": {1, 2, 3, 4, 9}, "paper-name": {1, 2, 3, 4, 10, 9}}
PAPER_NUMBERS.update({"from-paper": {1, 33}, "from-paper-vertex": {1, 33}})
DOMAIN_DIGITS, VERTEX_DIGITS = re.compile("[1-5][01][01][0-3]*"), re.compile("[1-5][01][0-3]*|0[01]0*")
DAMAGED_POLE = re.compile("0([01])(0*)[123](0*)")
PaperSeen = namedtuple("PaperSeen", "call asked places held no found")


def check_domain_digits(code, digits):
    # "translated corners have the same weights". Since the corners come in document 01's order, so do the digits.
    must(DOMAIN_DIGITS.fullmatch(digits) and len(digits) == 3 + degree_of(code), "a code of the degree", code, digits)
    must(vertices_of(digits) == corners(code) and digits == triangle_text(code), "the same weights", code, digits)


def check_vertex_digits(name, digits):
    must(VERTEX_DIGITS.fullmatch(digits) and len(digits) == 2 + degree_of(name), "a code of the degree", name, digits)
    must(built_point(digits) == named_corner(name), "the same weights", name, digits)


def seen_to_paper(call, text, word, places=None):
    short = places is not None and places < (27 if call == "paper" else 26)
    held = (code_refusals if call == "paper" else name_refusals)(word) | when(9, short)
    no = checked_number(call, word) or (9 if 9 in held else 0)
    told, bar, shown = text.partition(" |")
    must(bool(bar) == (places is not None), "a list is shown, or not", call, word, text)
    after_call = list(range(1, (places or 0) + 1))
    if no:
        must(told == refused(no), "refused as it is checked, then by the list", call, word, text)
    else:
        (check_domain_digits if call == "paper" else check_vertex_digits)(word, told)
        after_call = [int(digit) for digit in told] + after_call[len(told) :] if bar else []
    must(shown == "".join(f" {x}" for x in after_call), "the list", call, word, text)
    return PaperSeen(call, word, places, held, no, None if no else told)


def seen_from_paper(call, text, digits):
    vertex = call == "from-paper-vertex"
    allowed = (VERTEX_DIGITS if vertex else DOMAIN_DIGITS).fullmatch(digits)
    held = when(1, len(digits) > (26 if vertex else 27)) | when(33, not allowed)
    # "one the paper's text doesn't allow is 33, checked after it"
    no = min(held, default=0)
    if no:
        must(text == refused(no), "refused", call, digits, text)
        return PaperSeen(call, digits, None, held, no, None)
    word = int(re.search("0x([0-9A-F]{16})", text)[1], 16)
    must(text == (name_text if vertex else code_text)(word), "as it is written", call, digits, text)
    must(checked_number("check-name" if vertex else "check", word) == 0, "a good word", call, digits, text)
    (check_vertex_digits if vertex else check_domain_digits)(word, digits)
    return PaperSeen(call, digits, None, held, no, word)


def seen_paper(line, text):
    call, *words = parts_of(line)
    arguments = read_arguments(FORMS[call][1], words)
    return (seen_from_paper if call.startswith("from-") else seen_to_paper)(call, text, *arguments)


def corner_kind(p):
    """How the weights lie: on a vertex of the icosahedron, on an edge that ends in one, or inside a side."""
    used = [vertex for vertex, w in zip(ORDER, p) if w != 0]
    return len(used), any(vertex in ("00", "01") for vertex in used)


def check_there_and_back(found):
    """Each triangle and each corner to degree 5; below that some of every kind, at each degree."""
    # "There and back gives the same code"
    of_degree = {(call, n): {} for call in ("paper", "paper-name") for n in range(DEEPEST + 1)}
    for call in ("paper", "paper-name"):
        for word, digits in found[call].items():
            of_degree[call, degree_of(word)][word] = digits
    for (call, n), here in of_degree.items():
        back = found["from-paper" if call == "paper" else "from-paper-vertex"]
        must(all(back.get(digits, word) == word for word, digits in here.items()), "back", call, n)
        met = {word for word, digits in here.items() if digits in back}
        if n <= WHOLE:
            every = whole_degree(n) if call == "paper" else {canonical(n, p) for p in whole_index(n)}
            must(met == set(every), "each one", call, n)
        must(len(set(here.values())) == len(here) and len(met) >= 12, "a code for each", call, n)
        if call == "paper-name":
            kinds = set(itertools.product((1, 2, 3)[: n + 1], (True, False)))
            must({corner_kind(named_corner(word)) for word in met} == kinds, "every kind", n)
        else:
            alike = {digits[-1] for word, digits in here.items() if word in met and len(set(digits[3:])) == 1}
            must(n == 0 or alike == set("0123"), "all digits alike", n)


def check_paper_numbers(seen):
    """Each refusal that a call can give is given, and no other, and each two that can hold at once do."""
    for call, numbers in PAPER_NUMBERS.items():
        here = [x for x in seen if x.call == call]
        must({x.no for x in here} == numbers | {0}, "just these refusals, and answers", call)
        at_once = {frozenset(two) for x in here for two in itertools.combinations(x.held, 2)}
        must(at_once == together(call, numbers), "just these at once", call, at_once)
        if call in ("paper", "paper-name"):
            met = {(x.places, x.no) for x in here}
            longest = 27 if call == "paper" else 26
            for places in range(MOST_DIGITS + 1):
                nos = numbers - {9} | {9 if places < longest else 0}
                must({(places, no) for no in nos} <= met, "a list of every length", call, places)
            answered = [places for places, no in met if no == 0 and places is not None]
            must(min(answered) == longest and max(answered) == MOST_DIGITS, "answered", call)
        else:
            least, longest = (3, 27) if call == "from-paper" else (2, 26)
            met = {(len(x.asked), x.no) for x in here}
            must({many for many, no in met if no == 0} == set(range(least, longest + 1)), "answered", call)
            must({many for many, no in met if no == 33} == set(range(1, longest + 1)), "not allowed", call)
            must(all((no == 1) == (many > longest) for many, no in met), "above degree 24", call)
            must(max(many for many, _ in met) == 1000 - len(call) - 1, "as many as the line has room for", call)


def check_damaged_digits(seen):
    """Codes of degree 24 with every digit that is not allowed at each place, alone; and of every degree poles with one
    digit from 1 to 3 at each place."""
    bad = [x for x in seen if x.call in ALLOWED and x.no == 33]
    for call, longest in (("from-paper", 27), ("from-paper-vertex", 26)):
        met = set()
        for digits in (x.asked for x in bad if x.call == call and len(x.asked) == longest):
            places = [place for place, digit in enumerate(digits) if digit not in allowed_at(call, place)]
            met |= {(places[0], digits[places[0]])} if len(places) == 1 else set()
        every = {(k, digit) for k in range(longest) for digit in set("0123456789") - set(allowed_at(call, k))}
        must(met == every, "every digit at every place", call, every - met)
    found = (DAMAGED_POLE.fullmatch(x.asked) for x in bad if x.call == "from-paper-vertex")
    met = {(x[1], len(x[2]), len(x[3])) for x in found if x}
    every = {(p, k, n - 1 - k) for p in "01" for n in range(1, DEEPEST + 1) for k in range(n)}
    must(met == every, "poles with one digit", every - met)


def check_paper_answers(calls, answers):
    lines = [(line, text) for line, text in zip(calls, answers) if PAPER_LINE.match(line)]
    seen = [seen_paper(line, text) for line, text in lines if not text.startswith(UNREAD)]
    found = {call: {x.asked: x.found for x in seen if x.call == call and x.no == 0} for call in PAPER_CALLS}
    check_there_and_back(found)
    check_paper_numbers(seen)
    check_damaged_digits(seen)


def check_paper_lines():
    """The answers by hand. And lines that can not be read are all answered by the call's form."""
    for line, text in PAPER_EXAMPLES.items():
        must(answer(line) == text, "by hand", line, text, answer(line))
    for line in unreadable_papers():
        must(answer(line) == "error: write it as " + FORMS[line.split(" ")[0]][0], "unreadable", line)


# ==== Document 02, 2026-01, "Plotter host in C": the answers

# "It needs check, cross, file and list as calls exported to a C host, on plain numbers and byte slices." "cross writes
# code and edge number (16 bytes), file the code (8), list the count and then its codes (56)". "Check comes for both
# kinds of word." Document 01: "Checking a word, as the one kind or the other, answers only its refusal number." The
# sweep of 2026-04 writes, beside the codes, how many directions are refused and the first one's place and refusal (24).
# tests/host/LINES.md: "check-cells writes 16 bytes of OUT, the reason and the place"; mend-cells "16 bytes of OUT, the
# number of codes and of changes"; "small writes the small word (4 bytes of OUT), large the code (8), cross-small the
# neighbour's small word and then the edge's number there (4 + 8 = 12 bytes; ..), file-small the small word (4);
# check-small writes nothing"; "opposite writes the code (8 bytes of OUT), opposite-name the name (8)".
NEEDED = {"check-triangle": 0, "check-name": 0, "cross": 16, "file": 8, "list": 56, "sweep": 24}
NEEDED.update({"check-cells": 16, "mend-cells": 16})
NEEDED.update({"small": 4, "large": 8, "check-small": 0, "cross-small": 12, "file-small": 4})
NEEDED.update({"opposite": 8, "opposite-name": 8})
LONGEST = 64
LONGEST_SWEEP = 384
LONGEST_LIST = 32_800


def host_check_triangle(word):
    return code_refusals(word), tuple


def host_check_name(word):
    return name_refusals(word), tuple


def host_cross(code, edge):
    # Document 02, 2026-06: "All callers pass this on or drop it knowingly; the exported call drops it."
    return code_refusals(code) | number_refusals(edge), lambda: [neighbour(code, edge)]


def host_file(n, *d):
    return direction_refusals(n, d), lambda: [[min(holders(n, d))]]


def host_list(n, *d):
    return direction_refusals(n, d), lambda: [[len(holders(n, d)), *holders(n, d)]]


def whole_directions(data):
    """Twelve bytes a direction: x, y and z, four bytes each, two's complement, most significant first; as far as they
    are whole."""
    return list(struct.iter_unpack(">3i", data[: len(data) // 12 * 12]))


def host_sweep(n, data):
    # Document 02, 2026-04: "9 if the input length isn't a multiple of 3" numbers of four bytes.
    def numbers():
        found = swept(n, whole_directions(data))
        return [found.codes, [found.count, found.place, found.no]]

    return degree_refusals(n) | when(9, len(data) % 12 != 0), numbers


def host_check_cells(data):
    # tests/host/LINES.md: "both 0 where the list is accepted; it refuses 9 where the length of LIST is no multiple of
    # 8".
    def numbers():
        found = first_offence(words_of(data))
        return [[0, 0] if found is None else [found.reason, found.place]]

    return when(9, len(data) % 8 != 0), numbers


def host_mend_cells(data):
    # tests/host/LINES.md: "It refuses 32 where LIST has more than 4,096 whole words, and then 9 where its length is no
    # multiple of 8".
    def numbers():
        done = mend(words_of(data))
        return [done.codes, done.words, done.reasons, [len(done.codes), len(done.words)]]

    return many_refusals(len(data) // 8) | when(9, len(data) % 8 != 0), numbers


def small_bytes(code):
    # tests/host/LINES.md: "and write one as four bytes, the most significant first"
    return small_of(code).to_bytes(4, "big")


def host_small(code):
    return writer_refusals(code), lambda: [[small_bytes(code)]]


def host_large(small):
    return small_refusals(small), lambda: [[code_of(small)]]


def host_check_small(small):
    return small_refusals(small), tuple


def host_cross_small(small, edge):
    # "how the corners turned is dropped, as cross does"
    def numbers():
        other, shared = neighbour(code_of(small), edge)
        return [[small_bytes(other), shared]]

    return small_refusals(small) | number_refusals(edge), numbers


def host_file_small(n, *d):
    return small_direction_refusals(n, d), lambda: [[small_bytes(min(holders(n, d)))]]


def host_opposite(code):
    return code_refusals(code), lambda: [[opposite_code(code)]]


def host_opposite_name(name):
    return name_refusals(name), lambda: [[opposite_name(name)]]


def least_lengths(call, arguments):
    """How long each slice must be that is lent to the call, if any is."""
    # Document 02, 2026-04: "or the code list is shorter than the number of directions".
    if call == "sweep":
        return [8 * (len(arguments[1]) // 12), NEEDED[call]]
    # Document 02, 2026-10: "a result or change list shorter than the input is refusal 9".
    if call == "mend-cells":
        return [len(arguments[0])] * 3 + [NEEDED[call]]
    return [NEEDED[call]]


def slice_refusals(call, arguments, lent):
    # "a shorter slice is refusal 9". Document 01: "A longer list is allowed".
    return when(9, any(len(x) < least for x, least in zip(lent, least_lengths(call, arguments))))


def written_into(lent, numbers):
    # "Answers go to lent bytes, eight for each number, most significant first"; a small word comes in its bytes.
    # Document 01: "places after the count are unchanged".
    answered = b"".join(x if isinstance(x, bytes) else x.to_bytes(8, "big") for x in numbers)
    return answered + lent[len(answered) :]


# ==== The plotter host's lines: tests/host/LINES.md, "The lines of the test bench in C"

HOST_ANSWERS = {
    "check-triangle WORD": host_check_triangle,
    "check-name WORD": host_check_name,
    "cross CODE EDGE OUT": host_cross,
    "file DEGREE X Y Z OUT": host_file,
    "list DEGREE X Y Z OUT": host_list,
    "sweep DEGREE BYTES CODES OUT": host_sweep,
    "check-cells LIST OUT": host_check_cells,
    "mend-cells LIST MENDED WORDS REASONS OUT": host_mend_cells,
    "small CODE OUT": host_small,
    "large SMALL OUT": host_large,
    "check-small SMALL": host_check_small,
    "cross-small SMALL EDGE OUT": host_cross_small,
    "file-small DEGREE X Y Z OUT": host_file_small,
    "opposite CODE OUT": host_opposite,
    "opposite-name WORD OUT": host_opposite_name,
}
HOST_FORMS = {form.split()[0]: (form.split()[1:], call) for form, call in HOST_ANSWERS.items()}


@lru_cache(maxsize=1 << 12)
def read_decimal(text):
    # "EDGE and DEGREE are decimal, 0 to 2^64 - 1."
    if not WHOLE_NUMBER.fullmatch(text):
        raise Unreadable
    return within(int(text), 0, 2**64 - 1)


HEX_BYTES = re.compile("([0-9A-Fa-f]{2})+")


def read_bytes(text, most):
    # "two hexadecimal digits for each byte, .., without anything between them; `empty` for a slice of no bytes; or
    # `null`, a NULL pointer with length 0"
    if text in ("empty", "null"):
        return b""
    if not HEX_BYTES.fullmatch(text):
        raise Unreadable
    within(len(text) // 2, 1, most)
    return bytes.fromhex(text)


HOST_READERS = {"WORD": read_hex, "CODE": read_hex, "EDGE": read_decimal, "DEGREE": read_decimal, **SIGNED}
HOST_READERS["SMALL"] = read_small
# "at most 384 bytes"; "as BYTES is, with at most 32800 bytes"
HOST_READERS["BYTES"] = lambda text: read_bytes(text, LONGEST_SWEEP)
HOST_READERS["LIST"] = lambda text: read_bytes(text, LONGEST_LIST)
# "LENGTH 0 to 64", "LENGTH 0 to 384", "with LENGTH 0 to 32800"
LENT = {"OUT": LONGEST, "CODES": LONGEST_SWEEP, **dict.fromkeys(LENT_LISTS, LONGEST_LIST)}


@lru_cache(maxsize=None)
def lent_bytes(length, start):
    # "before the call the slice has LENGTH bytes, the first of which is FIRST and each later one is one more than the
    # byte before it, 255 being followed by 0"
    return (bytes(range(256)) * (length // 256 + 2))[start : start + length]


def read_lent(kind, words):
    # "Or OUT is the single word `null`: the slice is a NULL pointer with length 0." "CODES is a lent byte slice as OUT
    # is". "MENDED, WORDS and REASONS are lent byte slices as OUT is".
    if words == ["null"]:
        return b""
    within(len(words), 2, 2)
    length, start = map(read_decimal, words)
    return lent_bytes(within(length, 0, LENT[kind]), within(start, 0, 255))


def read_host_arguments(kinds, words):
    """The arguments, and the lent slices before the call."""
    arguments, lent = [], []
    for kind in kinds:
        many = 2 if kind in LENT and words[:1] != ["null"] else 1
        taken, words = words[:many], words[many:]
        within(len(taken), many, many)
        if kind in LENT:
            lent.append(read_lent(kind, taken))
        else:
            arguments.append(HOST_READERS[kind](*taken))
    within(len(words), 0, 0)
    return arguments, lent


Asked = namedtuple("Asked", "call arguments lent refusals numbers")


def read_host_line(line):
    call, *words = line.split(" ")
    try:
        kinds, asked = HOST_FORMS[call]
        arguments, lent = read_host_arguments(kinds, words)
    except (KeyError, Unreadable):
        raise Unreadable(line) from None
    refusals, numbers = asked(*arguments)
    return Asked(call, arguments, lent, refusals | slice_refusals(call, arguments, lent), numbers)


def host_text(asked):
    # "Each call returns its refusal number." Document 01: "Every refusal returns only its number and zeros; lent memory
    # keeps its contents."
    no = first(asked.refusals)
    lent = asked.lent if no else map(written_into, asked.lent, asked.numbers())
    # "For each lent slice of at least one byte, in the order of the line, a space follows and then all LENGTH bytes of
    # the slice as they are after the call, two lower case hexadecimal digits each". "For `null` and for LENGTH 0
    # nothing follows."
    return str(no) + "".join(" " + x.hex() for x in lent if x)


def host_answer(line):
    return host_text(read_host_line(line))


# ==== The plotter host's calls: examples, with the answers written out by hand


def answered_bytes(no, *slices):
    return " ".join([str(no), *(x.replace(" ", "") for x in slices)])


# The directions of E3, E6 and E7, and (0, 0, 0), in bytes; and a slice of 24 bytes from 0.
E3, E6, E7 = "000000000000000000000001", "000000010000000000000000", "0000000000000000ffffffff"
NOWHERE = "000000000000000000000000"
COUNTED = "00 01 02 03 04 05 06 07 08 09 0a 0b 0c 0d 0e 0f 10 11 12 13 14 15 16 17"
HOST_EXAMPLES = {
    # "For example, `file 2 0 0 1 10 200` is answered by `0 208c000000000000d0d1`, and `file 2 0 0 1 7 200` by
    # `9 c8c9cacbcccdce`; `sweep 2 000000000000000000000001 9 0 24 0` by" the line below.
    "file 2 0 0 1 10 200": "0 208c000000000000d0d1",
    "file 2 0 0 1 7 200": "9 c8c9cacbcccdce",
    "sweep 2 000000000000000000000001 9 0 24 0": f"0 208c00000000000008 {'00' * 24}",
    # E3: "10003, word 0x208C000000000000"; E4 to E7: 200000, 410000, 11102, 21003.
    "file 2 0 0 1 8 0": answered_bytes(0, "20 8c 00 00 00 00 00 00"),
    "file 3 1 1 1 8 1": answered_bytes(0, "40 c0 00 00 00 00 00 00"),
    "file 3 -1 -1 -1 8 2": answered_bytes(0, "90 c0 00 00 00 00 00 00"),
    "file 2 1 0 0 8 3": answered_bytes(0, "38 88 00 00 00 00 00 00"),
    "file 2 0 0 -1 9 4": answered_bytes(0, "50 8c 00 00 00 00 00 00 0c"),
    # E8: "1001 across 2" is "2001, edge 3"; E9: 1002 across 1 is 1013, edge 1; E10: 1011 across 2 is 5113, edge 2.
    "cross 0x2050000000000000 2 16 0": answered_bytes(0, "40 50 00 00 00 00 00 00 00 00 00 00 00 00 00 03"),
    "cross 0x2060000000000000 1 16 9": answered_bytes(0, "28 70 00 00 00 00 00 00 00 00 00 00 00 00 00 01"),
    "cross 0x2850000000000000 2 18 98": answered_bytes(0, "b8 70 00 00 00 00 00 00 00 00 00 00 00 00 00 02 72 73"),
    # "All holders of (0,0,1) at degree 0, whole: 100, 500; count 2." The rest stays: 200 and 24 is 224, 0xe0.
    "list 0 0 0 1 56 200": answered_bytes(
        0,
        "00 00 00 00 00 00 00 02 20 00 00 00 00 00 00 00 a0 00 00 00 00 00 00 00"
        "e0 e1 e2 e3 e4 e5 e6 e7 e8 e9 ea eb ec ed ee ef f0 f1 f2 f3 f4 f5 f6 f7 f8 f9 fa fb fc fd fe ff",
    ),
    # One byte less than is needed: "a shorter slice is refusal 9".
    "list 0 0 0 1 55 202": answered_bytes(
        9,
        "ca cb cc cd ce cf d0 d1 d2 d3 d4 d5 d6 d7 d8 d9 da db dc dd de df"
        "e0 e1 e2 e3 e4 e5 e6 e7 e8 e9 ea eb ec ed ee ef f0 f1 f2 f3 f4 f5 f6 f7 f8 f9 fa fb fc fd fe ff 00",
    ),
    "cross 0x2050000000000000 2 15 250": answered_bytes(9, "fa fb fc fd fe ff 00 01 02 03 04 05 06 07 08"),
    "cross 0x2050000000000000 2 0 7": "9",
    "cross 0x2050000000000000 2 null": "9",
    "list 0 0 0 1 null": "9",
    # "Where several hold, the order is 1, 2, 3, 4, 10, 5, 6, 8, 7, 9, 11."
    "cross 0x2050000000000000 0 2 255": "5 ff00",
    "cross 0x2050000000000001 0 2 254": "4 feff",
    "cross 0x2050000000000041 0 null": "3",
    "cross 0xc050000000000041 0 null": "2",
    "cross 0xc650000000000041 0 null": "1",
    "list 0 0 0 0 3 4": "7 040506",
    "list 24 0 -1000000001 0 1 0": "8 00",
    "list 25 0 0 0 null": "1",
    "file 18446744073709551615 -2147483648 0 0 null": "1",
    # No number is cut short: 257 is not edge 1, and 2^32 + 2 is not degree 2.
    "cross 0x2050000000000000 257 1 1": "5 01",
    "file 4294967298 0 0 1 8 0": answered_bytes(1, "00 01 02 03 04 05 06 07"),
    # E1 and E2 are codes. E11: "name of V(20), degree 0" is 0x2000000000000003; V(20) is also corner 2 of side 200.
    "check-triangle 0x2000000000000000": "0",
    "check-triangle 0x2050000000000000": "0",
    "check-triangle 0x2000000000000003": "4",
    "check-name 0x2000000000000003": "0",
    "check-name 0x4000000000000002": "10",
    "check-name 0x2000000000000000": "4",
    # "The word 0 is neither."
    "check-triangle 0x0": "2",
    "check-name 0x0": "2",
    # Document 02, 2026-04: "A refused direction writes 0 in its own place and the sweep goes on". One is refused, in
    # place 1, with 7. The rest stays: 24 bytes after 255 comes 23, 0x17, and after 1 comes 25, 0x19.
    f"sweep 2 {E3}{NOWHERE}{E6} 25 255 26 1": answered_bytes(
        0,
        "20 8c 00 00 00 00 00 00 00 00 00 00 00 00 00 00 38 88 00 00 00 00 00 00 17",
        "00 00 00 00 00 00 00 01 00 00 00 00 00 00 00 01 00 00 00 00 00 00 00 07 19 1a",
    ),
    # E7 and E3; E4 and E5.
    f"sweep 2 {E7}{E3} 16 3 24 4": answered_bytes(0, "50 8c 00 00 00 00 00 00 20 8c 00 00 00 00 00 00", "00" * 24),
    f"sweep 3 {'00000001' * 3}{'ffffffff' * 3} 16 3 24 4": answered_bytes(
        0, "40 c0 00 00 00 00 00 00 90 c0 00 00 00 00 00 00", "00" * 24
    ),
    # The bounds on the third axis: 10^9, 10^9 + 1; -10^9 - 1, -10^9; and -2^31, 2^31 - 1.
    f"sweep 2 {'3b9aca00':0>24}{'3b9aca01':0>24} 16 0 24 0": answered_bytes(
        0,
        "20 8c 00 00 00 00 00 00 00 00 00 00 00 00 00 00",
        "00 00 00 00 00 00 00 01 00 00 00 00 00 00 00 01 00 00 00 00 00 00 00 08",
    ),
    f"sweep 2 {'c46535ff':0>24}{'c4653600':0>24} 16 0 24 0": answered_bytes(
        0,
        "00 00 00 00 00 00 00 00 50 8c 00 00 00 00 00 00",
        "00 00 00 00 00 00 00 01 00 00 00 00 00 00 00 00 00 00 00 00 00 00 00 08",
    ),
    f"sweep 0 {E3}{'80000000':0>24}{NOWHERE}{'7fffffff':0>24} 32 0 24 0": answered_bytes(
        0,
        "20 00 00 00 00 00 00 00 00 00 00 00 00 00 00 00 00 00 00 00 00 00 00 00 00 00 00 00 00 00 00 00",
        "00 00 00 00 00 00 00 03 00 00 00 00 00 00 00 01 00 00 00 00 00 00 00 08",
    ),
    # "An empty sweep is answered with no refused directions."
    "sweep 2 empty null 24 5": answered_bytes(0, "00" * 24),
    "sweep 2 null 0 7 25 5": answered_bytes(0, "00" * 24 + "1d"),
    "sweep 2 null 3 250 24 5": answered_bytes(0, "fa fb fc", "00" * 24),
    # One byte less than is needed, in each of the three slices; and none.
    f"sweep 2 {E3[:-2]} 8 200 24 0": answered_bytes(9, "c8 c9 ca cb cc cd ce cf", COUNTED),
    f"sweep 2 {E3} 7 200 24 0": answered_bytes(9, "c8 c9 ca cb cc cd ce", COUNTED),
    f"sweep 2 {E3} 8 200 23 0": answered_bytes(9, "c8 c9 ca cb cc cd ce cf", COUNTED[:-3]),
    f"sweep 2 {E3}{E6} 15 250 24 0": answered_bytes(9, "fa fb fc fd fe ff 00 01 02 03 04 05 06 07 08", COUNTED),
    f"sweep 2 {E3} null 24 0": answered_bytes(9, COUNTED),
    f"sweep 2 {E3} 8 200 null": answered_bytes(9, "c8 c9 ca cb cc cd ce cf"),
    "sweep 2 empty null null": "9",
    "sweep 2 00 0 0 0 0": "9",
    # "refusal 1 for a degree above 24, then 9"
    "sweep 25 00 null null": "1",
    f"sweep 25 {NOWHERE} 8 200 24 0": answered_bytes(1, "c8 c9 ca cb cc cd ce cf", COUNTED),
    f"sweep 4294967298 {E3} 8 200 24 0": answered_bytes(1, "c8 c9 ca cb cc cd ce cf", COUNTED),
    "sweep 18446744073709551615 null null 24 0": answered_bytes(1, COUNTED),
    # "`check-cells 20500000000000002098000000000000 16 0` is answered by" the line below. 1001 and 10003; 1001 twice;
    # 10003 and 1001; 100 and a word that is not valid; 0. The rest stays: 98 and 16 is 114, 0x72.
    "check-cells 20500000000000002098000000000000 16 0": "0 00000000000000040000000000000001",
    "check-cells 2050000000000000208c000000000000 18 98": "0 000000000000000200000000000000017273",
    "check-cells 20500000000000002050000000000000 16 255": "0 00000000000000030000000000000001",
    "check-cells 208C0000000000002050000000000000 16 7": "0 00000000000000000000000000000000",
    "check-cells 20000000000000002800000000000001 64 0": answered_bytes(
        0,
        "00 00 00 00 00 00 00 01 00 00 00 00 00 00 00 01 10 11 12 13 14 15 16 17 18 19 1a 1b 1c 1d 1e 1f"
        "20 21 22 23 24 25 26 27 28 29 2a 2b 2c 2d 2e 2f 30 31 32 33 34 35 36 37 38 39 3a 3b 3c 3d 3e 3f",
    ),
    "check-cells 0000000000000000 16 0": "0 00000000000000010000000000000000",
    # "The empty list is accepted."
    "check-cells empty 16 9": answered_bytes(0, "00" * 16),
    "check-cells null 17 250": answered_bytes(0, "00" * 16 + "0a"),
    # "it refuses 9 where the length of LIST is no multiple of 8 or OUT has fewer than 16 bytes"
    "check-cells 20 16 0": answered_bytes(9, COUNTED[:47]),
    "check-cells 20500000000000 16 0": answered_bytes(9, COUNTED[:47]),
    "check-cells 205000000000000020 16 0": answered_bytes(9, COUNTED[:47]),
    "check-cells 2050000000000000 15 0": answered_bytes(9, COUNTED[:44]),
    "check-cells 2050000000000000 null": "9",
    "check-cells null null": "9",
    "check-cells 20 0 0": "9",
    # Longer lists than a file may be: 4,097 zeros are refused by mend-cells alone.
    f"check-cells {'00' * 32_776} 16 0": "0 00000000000000010000000000000000",
    f"mend-cells {'00' * 32_776} 1 9 null 0 9 2 0": "32 09 0001",
    # "`mend-cells 2050000000000000 9 0 8 0 8 0 16 0` by" the line below.
    "mend-cells 2050000000000000 9 0 8 0 8 0 16 0": answered_bytes(
        0,
        "20 50 00 00 00 00 00 00 08",
        "00 01 02 03 04 05 06 07",
        "00 01 02 03 04 05 06 07",
        "00 00 00 00 00 00 00 01 00 00 00 00 00 00 00 00",
    ),
    # An empty list.
    "mend-cells empty null null null 16 3": answered_bytes(0, "00" * 16),
    "mend-cells null 1 7 2 7 3 7 17 3": answered_bytes(0, "07", "07 08", "07 08 09", "00" * 16 + "13"),
    # 1003, 1001, 1000, 1002 and 1003 again are 100: the second 1003 is dropped, and there is one merge.
    "mend-cells 20700000000000002050000000000000204000000000000020600000000000002070000000000000 40 0 41 0 42 0 16 0": (
        answered_bytes(
            0,
            "20 00 00 00 00 00 00 00 08 09 0a 0b 0c 0d 0e 0f 10 11 12 13 14 15 16 17 18 19 1a 1b 1c 1d 1e 1f"
            "20 21 22 23 24 25 26 27",
            "20 70 00 00 00 00 00 00 20 00 00 00 00 00 00 00 10 11 12 13 14 15 16 17 18 19 1a 1b 1c 1d 1e 1f"
            "20 21 22 23 24 25 26 27 28",
            "00 00 00 00 00 00 00 03 00 00 00 00 00 00 00 05 10 11 12 13 14 15 16 17 18 19 1a 1b 1c 1d 1e 1f"
            "20 21 22 23 24 25 26 27 28 29",
            "00 00 00 00 00 00 00 01 00 00 00 00 00 00 00 02",
        )
    ),
    # 10012 inside 1001, which comes later; and a word that is not valid.
    "mend-cells 209800000000000020500000000000002050000000000001 24 0 24 0 24 0 16 0": answered_bytes(
        0,
        "20 50 00 00 00 00 00 00 08 09 0a 0b 0c 0d 0e 0f 10 11 12 13 14 15 16 17",
        "20 98 00 00 00 00 00 00 20 50 00 00 00 00 00 01 10 11 12 13 14 15 16 17",
        "00 00 00 00 00 00 00 04 00 00 00 00 00 00 00 01 10 11 12 13 14 15 16 17",
        "00 00 00 00 00 00 00 01 00 00 00 00 00 00 00 02",
    ),
    # One byte less than is needed, in each of the slices; and none.
    "mend-cells 20500000000000 8 0 8 0 8 0 16 0": answered_bytes(9, *[COUNTED[:23]] * 3, COUNTED[:47]),
    "mend-cells 2050000000000000 7 0 8 0 8 0 16 0": answered_bytes(9, COUNTED[:20], *[COUNTED[:23]] * 2, COUNTED[:47]),
    "mend-cells 2050000000000000 8 0 7 0 8 0 16 0": answered_bytes(
        9, COUNTED[:23], COUNTED[:20], COUNTED[:23], COUNTED[:47]
    ),
    "mend-cells 2050000000000000 8 0 8 0 7 0 16 0": answered_bytes(9, *[COUNTED[:23]] * 2, COUNTED[:20], COUNTED[:47]),
    "mend-cells 2050000000000000 8 0 8 0 8 0 15 0": answered_bytes(9, *[COUNTED[:23]] * 3, COUNTED[:44]),
    "mend-cells 0000000000000000 null 8 0 8 0 16 0": answered_bytes(9, *[COUNTED[:23]] * 2, COUNTED[:47]),
    "mend-cells 2050000000000000 8 0 0 0 8 0 16 0": answered_bytes(9, *[COUNTED[:23]] * 2, COUNTED[:47]),
    "mend-cells 2050000000000000 8 0 8 0 null 16 0": answered_bytes(9, *[COUNTED[:23]] * 2, COUNTED[:47]),
    "mend-cells 2050000000000000 8 0 8 0 8 0 null": answered_bytes(9, *[COUNTED[:23]] * 3),
    "mend-cells null null null null null": "9",
    "mend-cells 20 null 0 0 null 16 0": answered_bytes(9, COUNTED[:47]),
    # 4,096 whole words and some bytes are no multiple of 8; 4,097 whole words are too many, also with some bytes.
    **{f"mend-cells {'20' * length} null null null null": "9" for length in (32_768, 32_769, 32_775)},
    **{f"mend-cells {'20' * length} null null null null": "32" for length in (32_776, 32_777, 32_783, 32_800)},
    # 4,096 zeros are all dropped, and the mended list stays as it was.
    f"mend-cells {'00' * 32_768} 32768 0 32768 1 32768 2 16 0": answered_bytes(
        0,
        bytes(range(256)).hex() * 128,
        "00" * 32_768,
        "0000000000000001" * 4096,
        "00 00 00 00 00 00 00 00 00 00 00 00 00 00 10 00",
    ),
    # The examples of the five calls on small words. 1001, and 511 with eleven digits 3.
    "small 0x2050000000000000 5 0": "0 20a0000004",
    "large 0x20A00000 8 0": "0 2050000000000000",
    "cross-small 0x20A00000 2 12 0": "0 40a000000000000000000003",
    "file-small 2 0 0 1 3 0": "9 000102",
    "check-small 0x20A00001": "31",
    "check-small 0x20a00000": "0",
    "small 0x2050000000000000 4 9": "0 20a00000",
    "small 0xbaffffff00000000 4 0": "0 bdfffffe",
    "large 0xBDFFFFFE 9 248": answered_bytes(0, "ba ff ff ff 00 00 00 00 00"),
    # E9 and E10; E3, also at degree 11, where ten digits 3 come after the 0. 254 and 4 is 258, and so 2.
    "cross-small 0x20C00000 1 13 244": answered_bytes(0, "28 e0 00 00 00 00 00 00 00 00 00 01 00"),
    "cross-small 0x28A00000 2 12 7": answered_bytes(0, "b8 e0 00 00 00 00 00 00 00 00 00 02"),
    "file-small 2 0 0 1 5 254": "0 2118000002",
    "file-small 11 0 0 1 4 0": "0 259ffffe",
    # One byte less than is needed, and none.
    "small 0x2050000000000000 3 9": "9 090a0b",
    "small 0x2050000000000000 0 9": "9",
    "small 0x2050000000000000 null": "9",
    "large 0x20A00000 7 0": answered_bytes(9, COUNTED[:20]),
    "large 0x20A00000 null": "9",
    "cross-small 0x20A00000 2 11 0": answered_bytes(9, COUNTED[:32]),
    "cross-small 0x20A00000 2 null": "9",
    "file-small 2 0 0 1 0 0": "9",
    "file-small 2 0 0 1 null": "9",
    # "30 directly after 1 and 31 directly after 4"
    "small 0xc640000000000041 null": "1",
    "small 0xc300000000000041 null": "30",
    "small 0xc050000000000041 null": "2",
    "small 0x2050000000000041 1 5": "3 05",
    "small 0x2050000000000001 null": "4",
    "large 0x06000001 null": "30",
    "large 0x00200001 2 7": "2 0708",
    "large 0x20200001 null": "3",
    "large 0x20A00001 null": "31",
    "cross-small 0x06000001 0 null": "30",
    "cross-small 0x00200001 0 null": "2",
    "cross-small 0x20200001 0 null": "3",
    "cross-small 0x20A00001 0 null": "31",
    "cross-small 0x20A00000 0 1 1": "5 01",
    "cross-small 0x20A00000 4294967298 null": "5",
    "file-small 25 0 0 0 null": "1",
    "file-small 4294967298 0 0 1 4 0": "1 00010203",
    "file-small 24 1000000001 0 0 1 5": "30 05",
    "file-small 12 0 0 0 null": "30",
    "file-small 11 0 -1000000001 0 null": "8",
    "file-small 11 0 0 0 null": "7",
    "check-small 0x06000001": "30",
    "check-small 0x0": "2",
    "check-small 0x20000003": "3",
    # The examples of the two calls for opposites. 10003, whose opposite is 31002; and V(00), which is corner 1 of 100
    # and of 200, and whose opposite V(01) is corner 1 of 110.
    "opposite 0x208C000000000000 8 0": "0 7088000000000000",
    "opposite-name 0x2000000000000001 10 0": "0 30000000000000010809",
    "opposite 0x208C000000000000 7 0": "9 00010203040506",
    "opposite-name 0x4000000000000001 8 0": "10 0001020304050607",
    # E7's 21003, whose opposite is 50002; 511 with 24 digits 3, and 301 with 24 digits 2. V(20), of E11, and V(41).
    "opposite 0x508c000000000000 8 9": answered_bytes(0, "a0 88 00 00 00 00 00 00"),
    "opposite 0xbe3fffffffffffc0 9 248": answered_bytes(0, "6e 2a aa aa aa aa aa 80 00"),
    "opposite 0x6E2AAAAAAAAAAA80 8 0": answered_bytes(0, "be 3f ff ff ff ff ff c0"),
    "opposite-name 0x2000000000000003 8 7": answered_bytes(0, "70 00 00 00 00 00 00 02"),
    "opposite-name 0x7000000000000002 10 0": answered_bytes(0, "20 00 00 00 00 00 00 03 08 09"),
    # One byte less than is needed, and none.
    "opposite 0x2050000000000000 0 9": "9",
    "opposite 0x2050000000000000 null": "9",
    "opposite-name 0x2000000000000001 7 250": answered_bytes(9, "fa fb fc fd fe ff 00"),
    "opposite-name 0x2000000000000001 null": "9",
    # "Where several hold, the order is 1, 2, 3, 4, 10, 5, 6, 8, 7, 9, 11."
    "opposite 0xc640000000000001 null": "1",
    "opposite 0xc010000000000001 null": "2",
    "opposite 0x2010000000000001 1 5": "3 05",
    "opposite 0x2050000000000001 null": "4",
    "opposite-name 0xc640000000000000 null": "1",
    "opposite-name 0xc010000000000000 null": "2",
    "opposite-name 0x2010000000000000 2 254": "3 feff",
    "opposite-name 0x2000000000000000 null": "4",
    "opposite-name 0x4000000000000005 null": "4",
    "opposite-name 0x4000000000000001 null": "10",
    "opposite-name 0x7000000000000001 3 7": "10 070809",
    "opposite 0x0 null": "2",
    "opposite-name 0x0 null": "2",
}


# ==== The plotter host's calls: words

HOST_WHOLE = 4  # Every triangle and every word for a corner to this degree is called for.
OUTSIDE_EDGES = [0, 4, 5, 255, 256, 257, 258, 2**16 + 3, 2**32, 2**32 + 1, 2**32 + 2, 2**32 + 3]
OUTSIDE_EDGES += [2**63, 2**63 + 1, MOST - 1, MOST]


def some_word(chance, word):
    # "`0x` and 1 to 16 hexadecimal digits"
    return chance.choice([f"0x{word:016x}", f"0x{word:016X}", f"0x{word:x}"])


def out(chance, length):
    return f"{length} {chance.choice([0, 255, chance.randrange(256), chance.randrange(256)])}"


def some_out(chance, call):
    """Mostly just long enough, or longer; at times too short, or none."""
    if chance.randrange(16) == 0:
        return "null"
    need = NEEDED[call]
    return out(chance, chance.choice([need] * 8 + [chance.randint(need, LONGEST)] * 6 + [chance.randrange(need)]))


def just_enough(chance, call):
    return out(chance, NEEDED[call])


def tight_outs(chance, call):
    """The least length and the one below it, the ends, and none."""
    need = NEEDED[call]
    return [out(chance, length) for length in (0, need - 1, need, need + 1, LONGEST)] + ["null"]


def host_crossings():
    """Every triangle to degree 4, over each edge."""
    starts = itertools.cycle(range(256))
    for n in range(HOST_WHOLE + 1):
        for code in whole_degree(n):
            yield from (f"cross {word_text(code)} {edge} 16 {next(starts)}" for edge in (1, 2, 3))


def host_words():
    """Every triangle to degree 4, and every word made of one and a corner number: canonical or not."""
    for n in range(HOST_WHOLE + 1):
        for code in whole_degree(n):
            yield f"check-triangle {word_text(code)}"
            yield from (f"check-name {word_text(code | number)}" for number in (1, 2, 3))
            if n <= 2:
                yield f"check-name {word_text(code)}"
                yield from (f"check-triangle {word_text(code | number)}" for number in (1, 2, 3))


def seam_code(chance, n):
    """On an edge of a side: its digits leave one corner out."""
    some = chance.choice([(1, 2), (2, 3), (1, 3)])
    return make_code(chance.choice(SIDES), [chance.choice(some) for _ in range(n)])


def round_calls(chance, code):
    """Over each edge and back again, and every word for each corner."""
    yield f"check-triangle {some_word(chance, code)}"
    for edge in (1, 2, 3):
        other, shared = neighbour(code, edge)
        yield f"check-triangle {some_word(chance, other)}"
        yield f"cross {some_word(chance, code)} {edge} {some_out(chance, 'cross')}"
        yield f"cross {some_word(chance, other)} {shared} {some_out(chance, 'cross')}"
    for p in corners(code):
        yield from (f"check-name {some_word(chance, c | number)}" for c, number in having(degree_of(code), p))


def host_rounds():
    chance = random.Random(17)
    for n in range(DEEPEST + 1):
        for at in range(30):
            yield from round_calls(chance, (random_code, random_code, seam_code)[at % 3](chance, n))


def any_crossing(chance, word):
    return f"cross {some_word(chance, word)} {chance.randint(1, 3)} {some_out(chance, 'cross')}"


def word_calls(chance, word):
    """The three calls on a word."""
    yield f"check-triangle {some_word(chance, word)}"
    yield f"check-name {some_word(chance, word)}"
    yield any_crossing(chance, word)


def turned_bits():
    """Codes and names with each of the 64 bits turned over, alone."""
    chance = random.Random(18)
    for n in range(DEEPEST + 1):
        codes, name = [random_code(chance, n) for _ in range(4)], random_name(chance, n)
        for bit in range(64):
            yield any_crossing(chance, codes[0] ^ 1 << bit)
            yield f"check-name {some_word(chance, name ^ 1 << bit)}"
            yield from (f"check-triangle {some_word(chance, word ^ 1 << bit)}" for word in [*codes, name])


def damaged_fields(word):
    """Each value that a field must not have, alone, and each corner number."""
    yield from (word & ~(31 << 54) | n << 54 for n in range(25, 32))
    yield from (word & ~(7 << 61) | a << 61 for a in (0, 6, 7))
    for place in range(degree_of(word), 24):
        yield from (word | digit << (52 - 2 * place) for digit in (1, 2, 3))
    yield from (word | bits << 2 for bits in range(1, 16))
    yield from (word & ~3 | number for number in range(4))


def damaged_words():
    chance = random.Random(19)
    for n in (0, 1, 2, 5, 12, 23, 24):
        for make in (random_code, seam_code, random_name):
            for word in damaged_fields(make(chance, n)):
                yield from word_calls(chance, word)
    for n in range(DEEPEST + 1):
        for make, breaks in ((random_code, CODE_BREAKS), (random_name, NAME_BREAKS)):
            for some in alone_and_in_pairs(breaks):
                word = broken(make(chance, n), some, chance)
                yield from word_calls(chance, word)
                edge = chance.choice(OUTSIDE_EDGES)
                yield from (f"cross {some_word(chance, word)} {edge} {x}" for x in tight_outs(chance, "cross"))


def any_words():
    """The least and the greatest words and single bits. Any 64 bits; the same with the low bits of a code; and at
    degree 24, as a code or a name but for a."""
    chance = random.Random(20)
    for word in [0, 3, 60, 63, MOST - 63, MOST - 3, MOST] + [1 << bit for bit in range(64)]:
        yield from word_calls(chance, word)
    for _ in range(500):
        bits = chance.getrandbits(64)
        yield from word_calls(chance, bits)
        yield from word_calls(chance, bits & ~63)
        yield from word_calls(chance, bits & ~(31 << 54 | 60) | DEEPEST << 54)


def outside_edges():
    chance = random.Random(21)
    for n in (0, 1, 2, 3, 8, 16, 23, 24):
        for breaks in [()] * 3 + [(one,) for one in CODE_BREAKS]:
            word = broken(random_code(chance, n), breaks, chance)
            for edge in OUTSIDE_EDGES:
                yield from (f"cross {some_word(chance, word)} {edge} {x}" for x in tight_outs(chance, "cross"))


# ==== The plotter host's calls: directions

OUTSIDE_DEGREES = [25, 26, 31, 32, 33, 255, 256, 258, 2**16 + 1, 2**31, 2**32, 2**32 + 2, 2**32 + 24]
OUTSIDE_DEGREES += [2**63, 2**63 + 1, MOST - 1, MOST]


def direction_pair(chance, n, d, lend=some_out):
    for call in ("file", "list"):
        yield f"{call} {n} {' '.join(map(str, d))} {lend(chance, call)}"


def host_directions():
    """Directions of all kinds, and any, at every degree."""
    chance = random.Random(22)
    most = [30] * 50 + [10**6] * 50 + [FAR] * 100
    for d in all_directions() + [tuple(chance.randint(-m, m) for _ in range(3)) for m in most]:
        for n in range(DEEPEST + 1):
            yield from direction_pair(chance, n, d)


def host_places():
    """Every triangle to degree 3 is an answer. And directions on the edges and corners to degree 5, there and one
    degree below."""
    chance = random.Random(23)
    for n in range(FULL + 1):
        for d in middle_directions(n).values():
            yield from direction_pair(chance, n, d, just_enough)
    for n in range(WHOLE + 1):
        for d in dict.fromkeys([*corner_directions(n), *edge_directions(n)]):
            yield from direction_pair(chance, n, d, just_enough)
            yield from direction_pair(chance, n + 1, d)


def at_the_bounds():
    """Coordinates on both sides of the bounds, and at the ends of the signed 32-bit numbers, on each axis."""
    most = [FAR, FAR + 1, -FAR, -FAR - 1, LEAST_SIGNED, LEAST_SIGNED + 1, MOST_SIGNED]
    found = [(0, 0, 0), (1, -2, 3), (FAR, -FAR, FAR), (FAR + 1, -FAR - 1, FAR), (LEAST_SIGNED,) * 3, (MOST_SIGNED,) * 3]
    return found + [d for x in most for d in ((x, 0, 0), (0, x, 0), (0, 0, x), (x, 5, -7), (-7, x, 5), (5, -7, x))]


def outside_directions():
    chance = random.Random(24)
    for n in [0, 1, 2, 23, 24] + OUTSIDE_DEGREES:
        for d in at_the_bounds():
            for call in ("file", "list"):
                where = f"{call} {n} {' '.join(map(str, d))}"
                yield from (f"{where} {x}" for x in chance.sample(tight_outs(chance, call), 4))


# ==== The plotter host's calls: slices of every length


def crossings_to_lend():
    """Answered ones, then each refusal alone and two together."""
    chance = random.Random(25)
    for n in (0, 1, 4, 11, 24):
        for make in (random_code, seam_code):
            yield f"cross {word_text(make(chance, n))} {chance.randint(1, 3)}"
    for n in (0, 3, 23):
        for breaks in alone_and_in_pairs(CODE_BREAKS):
            edges = (chance.choice(OUTSIDE_EDGES),) + ((chance.randint(1, 3),) if breaks else ())
            word = broken(random_code(chance, n), breaks, chance)
            yield from (f"cross {word_text(word)} {edge}" for edge in edges)


def with_holders(chance, n, count):
    """A direction with that many holders."""
    some = all_directions()
    return next(d for d in chance.sample(some, len(some)) if len(holders(n, d)) == count)


def directions_to_lend():
    """Directions with 1, 2 and 6 holders, then each refusal alone and two together."""
    chance = random.Random(26)
    # "at degree 0 there are 1 or 2"
    yield from ((0, with_holders(chance, 0, count)) for count in (1, 2))
    yield from ((n, with_holders(chance, n, count)) for n in (1, 2, 3, 9, 24) for count in (1, 2, 6))
    yield from itertools.product((0, 24), [(0, 0, 0), (0, -FAR - 1, 0), (LEAST_SIGNED, 1, MOST_SIGNED)])
    yield from itertools.product((25, 256, 2**32 + 2, MOST), [(1, 2, 3), (0, 0, 0), (FAR + 1, 0, -FAR)])


def every_length(chance):
    # "LENGTH 0 to 64"
    for length in range(LONGEST + 1):
        yield from (f"{length} {start}" for start in (0, 255, chance.randrange(1, 255)))
    yield "null"


def every_slice():
    chance = random.Random(27)
    calls = list(crossings_to_lend())
    calls += [f"{call} {n} {' '.join(map(str, d))}" for n, d in directions_to_lend() for call in ("file", "list")]
    for call in calls:
        yield from (f"{call} {x}" for x in every_length(chance))


def every_first():
    """Slices filled in each of the 256 ways."""
    for start in range(256):
        yield from (f"cross 0x2050000000000000 {edge} {length} {start}" for edge in (2, 4) for length in (15, 16, 64))
        for n, d in ((0, "0 0 1"), (2, "0 0 1"), (24, "1 2 3"), (25, "0 0 1"), (3, "0 0 0")):
            yield from (f"file {n} {d} {length} {start}" for length in (7, 8, 64))
            yield from (f"list {n} {d} {length} {start}" for length in (55, 56, 64))


# ==== The plotter host's calls: sweeps


def packed(directions):
    return b"".join(struct.pack(">3i", *d) for d in directions)


def bytes_text(chance, data):
    """As hexadecimal digits, at times upper case ones; or if there are none one of the two words."""
    digits = chance.choice([data.hex()] * 7 + [data.hex().upper()])
    return digits or chance.choice(["empty", "null"])


def enough(chance, need, most, given=None):
    """A slice of just as many bytes as are needed, or more, if none is given."""
    return out(chance, chance.choice([need, need, chance.randint(need, most)])) if given is None else given


def tight_slices(chance, need, most):
    """The least length, the ones beside it, one code less and one more, the ends, and none."""
    lengths = {0, need - 8, need - 1, need, need + 1, need + 8, most}
    return [out(chance, length) for length in sorted(lengths) if length >= 0] + ["null"]


def host_sweep_line(chance, n, data, codes=None, lent=None):
    codes = enough(chance, 8 * (len(data) // 12), LONGEST_SWEEP, codes)
    lent = enough(chance, 24, LONGEST, lent)
    return f"sweep {n} {bytes_text(chance, data)} {codes} {lent}"


def tight_codes(chance, data):
    return tight_slices(chance, 8 * (len(data) // 12), LONGEST_SWEEP)


HOST_SWEPT = [*range(61), *range(361, 385)]  # These lengths of BYTES are called for.


def host_sweep_lengths():
    chance = random.Random(51)
    for length in HOST_SWEPT:
        data = packed(some_kinds(chance, 32))[:length]
        for codes in tight_codes(chance, data):
            n = chance.choice([2, 24, chance.randint(0, DEEPEST)])
            yield host_sweep_line(chance, n, data, codes)
            short = chance.choice([out(chance, 23), out(chance, chance.randrange(24)), "null"])
            yield host_sweep_line(chance, chance.choice([n, n, n, 25]), data, codes, short)


def host_sweep_slices():
    """OUT of every length; and CODES of every length to 64, and of those about what 32 directions need."""
    chance = random.Random(52)
    three, whole = packed(of_kinds(chance, [0, 0, 0])), packed(some_kinds(chance, 32))
    two_refused, none = packed(of_kinds(chance, [0, 8, 7])), b""
    lent = [out(chance, length) for length in range(LONGEST + 1)] + ["null"]
    for x in lent:
        yield from (host_sweep_line(chance, 5, data, None, x) for data in (three, two_refused, none, three[:-1]))
        yield host_sweep_line(chance, 5, three, out(chance, 23), x)
        yield host_sweep_line(chance, 25, three, None, x)
    for x in lent:
        yield from (host_sweep_line(chance, n, data, x) for n, data in ((24, three), (0, two_refused)))
    for length in [*range(247, 266), *range(380, 385)]:
        yield host_sweep_line(chance, 11, whole, out(chance, length))


def host_sweep_degrees():
    """All of some 300 directions at each degree, in sweeps of any length; then filed and refused ones."""
    chance = random.Random(53)
    for n in range(DEEPEST + 1):
        left = chance.sample(some_directions(), len(some_directions()))
        while left:
            many = chance.choice([32, 32, chance.randint(16, 32)])
            yield host_sweep_line(chance, n, packed(left[:many]))
            left = left[many:]
        yield host_sweep_line(chance, n, packed(some_kinds(chance, 32)))


def host_sweep_places():
    """One refused direction in each place of every count to 16, and of 32; all of them; and at the bounds."""
    chance = random.Random(54)
    for many in range(1, 33):
        for place in range(many if many <= 16 or many == 32 else 0):
            for no in (7, 8):
                data = packed(of_kinds(chance, [no * (k == place) for k in range(many)]))
                yield host_sweep_line(chance, chance.randint(0, DEEPEST), data)
        for two in ((7, 8), (8, 7)):
            yield host_sweep_line(chance, chance.randint(0, DEEPEST), packed(of_kinds(chance, (two * 16)[:many])))
    every = list(itertools.product(SWEPT_BOUNDS, repeat=3))
    for n in (0, 24):
        chance.shuffle(every)
        yield from (host_sweep_line(chance, n, packed(every[k : k + 32])) for k in range(0, len(every), 32))


def host_sweep_refusals():
    """The degrees outside, with good and bad lengths of each slice."""
    chance = random.Random(55)
    for n in OUTSIDE_DEGREES:
        for length in (0, 11, 12, 24, 384):
            data = packed(some_kinds(chance, 32))[:length]
            yield host_sweep_line(chance, n, data)
            for codes, lent in chance.sample(list(itertools.product(("null", "7 0"), ("null", "23 9", "24 5"))), 3):
                yield host_sweep_line(chance, n, data, codes, lent)
    for _ in range(60):
        data = packed(some_kinds(chance, 32))[: chance.choice([0, 12, 12, 13, 36, 47])]
        codes, lent = chance.choice(tight_codes(chance, data)), chance.choice([None, "null", "23 9", "24 5"])
        yield host_sweep_line(chance, chance.choice([6, 24, 25]), data, codes, lent)


def host_sweep_first():
    """Slices filled in each of the 256 ways, answered and refused."""
    for start in range(256):
        yield f"sweep 2 {E3}{NOWHERE} 18 {start} 26 {255 - start}"
        yield f"sweep 2 {E3}{E7} 15 {start} 26 {255 - start}"


# ==== The plotter host's calls: lists of cells


def host_cells_line(chance, words, lent=None):
    lent = some_out(chance, "check-cells") if lent is None else lent
    return f"check-cells {bytes_text(chance, file_of(words))} {lent}"


def host_cell_lists():
    """Good lists of each greatest degree; such damaged in each way at the first, a middle and the last place; and each
    value that a field must not have, alone and after a good word."""
    chance = random.Random(121)
    for deepest in range(DEEPEST + 1):
        for many in (1, 2, 5, 20, 20 if deepest < 2 else 48):
            yield host_cells_line(chance, good_list(chance, many, deepest))
    for many in (1, 2, 3, 8, 48):
        for place, damage in itertools.product(ends_and_middle(many), DAMAGES):
            for _ in range(2):
                done = damaged(chance, good_list(chance, many, chance.randint(2, DEEPEST)), place, damage)
                if done is not None:
                    yield host_cells_line(chance, done[0])
    for n in (0, 5, 24):
        for word in damaged_fields(random_code(chance, n)):
            yield host_cells_line(chance, [word])
            yield host_cells_line(chance, [codes_of(0)[0], word])


def host_cell_slices():
    """LIST of every length to 40 bytes, with OUT about the least length; OUT of every length, for a list that is
    accepted, one that offends, one with bytes over and none."""
    chance = random.Random(122)
    for length in range(41):
        data = file_of(chance.choice([codes_of(1), codes_of(1)[::-1]])[:5])[:length]
        yield from (f"check-cells {bytes_text(chance, data)} {x}" for x in tight_outs(chance, "check-cells"))
    good, bad = file_of(codes_of(0)[:3]), file_of([*codes_of(0)[:3], 0])
    for lent in [out(chance, length) for length in range(LONGEST + 1)] + ["null"]:
        yield from (f"check-cells {bytes_text(chance, data)} {lent}" for data in (good, bad, bad[:-3], b""))


def host_long_lists():
    """About 4,096 words, which is no bound here, and the longest list: accepted, damaged at the end, or with bytes
    over."""
    chance = random.Random(123)
    for many in (4095, 4096, 4097, 4100):
        words = part_of_pool(chance, many)
        yield host_cells_line(chance, words, "16 0")
        yield host_cells_line(chance, words[:-1] + [invalid_word(chance, words[-1])], "17 1")
        yield host_cells_line(chance, words[:-2] + words[:-3:-1], "16 2")
        over = file_of(words)[: -chance.randint(1, 7)]
        yield f"check-cells {bytes_text(chance, over)} 16 3"


def host_mend_line(chance, data, lent=(None, None, None), last=None):
    need = len(data)
    lent = [enough(chance, need, min(need + 24, LONGEST_LIST), x) for x in lent]
    return " ".join(["mend-cells", bytes_text(chance, data), *lent, enough(chance, 16, LONGEST, last)])


def host_mends():
    """Some 400 lists of each kind, of at most 60 words."""
    chance = random.Random(124)
    for kind in MEND_KINDS.values():
        lists = [words for words in kind(chance) if len(words) <= 60]
        yield from (host_mend_line(chance, file_of(words)) for words in shuffled(chance, lists)[:400])


HOST_MENDED = [*range(34), 63, 64, 65]  # These lengths of LIST are called for.


def host_mend_slices():
    """Each lent slice with lengths about the least one; OUT of every length."""
    chance = random.Random(125)
    for length in HOST_MENDED:
        data = file_of(chance.choices(walk(codes_of(0)[13], 1), k=9))[:length]
        for place in range(3):
            for one in tight_slices(chance, length, length + 16):
                yield host_mend_line(chance, data, [one if k == place else None for k in range(3)])
        yield from (host_mend_line(chance, data, last=x) for x in tight_outs(chance, "mend-cells"))
    four = file_of(child_codes(codes_of(1)[17]))
    for last in [out(chance, length) for length in range(LONGEST + 1)] + ["null"]:
        yield from (host_mend_line(chance, data, last=last) for data in (four, four[:-1], b""))


def host_mend_refusals():
    """Every choice of what is wrong: each of the four slices that is too short, and the length of LIST; and with more
    than 4,096 words."""
    chance = random.Random(126)
    for length in (24, 27, 32_776, 32_777 + chance.randrange(7)):
        data = any_file(chance, length)
        for short in powers(range(4)):
            need = [length] * 3 + [16]
            lent = [out(chance, need[k]) if k not in short else chance.choice(["null", "0 0", "1 9"]) for k in range(4)]
            yield host_mend_line(chance, data, lent[:3], lent[3])


def host_long_mends():
    """Some of the longest lists; one with slices that are just as long as the list, longer, and one byte or one code
    shorter; and bytes over 4,096 words, and over 4,095."""
    chance = random.Random(127)
    for _, words in itertools.islice(long_mend_lists(chance), 1, None, 2):
        yield host_mend_line(chance, file_of(words))
    data = file_of(chance.choices(cell_pool(), k=MOST_WORDS))
    for length in (len(data), len(data) + 1, LONGEST_LIST):
        yield host_mend_line(chance, data, [out(chance, length)] * 3)
    for place, less in itertools.product(range(3), (1, 8)):
        yield host_mend_line(chance, data, [out(chance, len(data) - less * (k == place)) for k in range(3)])
    for length in (*range(32_761, 32_768), *range(32_769, 32_778)):
        lent = chance.choice([["null"] * 3, [out(chance, LONGEST_LIST), "null", "8 1"]])
        yield host_mend_line(chance, (data + data)[:length], lent, "16 0")


def host_cells_first():
    """Slices filled in each of the 256 ways, answered and refused."""
    four = file_of(child_codes(codes_of(1)[5])).hex()
    for start in range(256):
        yield from (f"check-cells {four} {length} {start}" for length in (15, 18))
        starts = [(start + 64 * k) % 256 for k in range(4)]
        for lengths in ((32, 33, 34, 17), (32, 32, 31, 16)):
            yield " ".join(map(str, ["mend-cells", four, *flat(zip(lengths, starts))]))


# ==== The plotter host's calls: small words

HOST_SMALL_WHOLE = 2  # Every triangle to this degree is called for.


def host_small_words():
    """Every triangle to degree 2, and a share of degree 3: written small, checked, read back, and over the edges."""
    starts = itertools.cycle(range(256))
    for n in range(HOST_SMALL_WHOLE + 2):
        for at, code in enumerate(whole_degree(n)):
            if n <= HOST_SMALL_WHOLE or at % 4 == 1:
                small = small_word(small_of(code), at)
                yield f"small {word_text(code)} 4 {next(starts)}"
                yield f"large {small} 8 {next(starts)}"
                if n <= HOST_SMALL_WHOLE:
                    yield f"check-small {small}"
                for edge in (1, 2, 3) if n <= HOST_SMALL_WHOLE else (at // 4 % 3 + 1,):
                    yield f"cross-small {small} {edge} 12 {next(starts)}"


def host_small_crossing(chance, small, edge=None):
    edge = chance.randint(1, 3) if edge is None else edge
    return f"cross-small {some_small(chance, small)} {edge} {some_out(chance, 'cross-small')}"


def host_small_calls(chance, small):
    """The three calls on a small word."""
    yield f"check-small {some_small(chance, small)}"
    yield f"large {some_small(chance, small)} {some_out(chance, 'large')}"
    yield host_small_crossing(chance, small)


def host_two_small_calls(chance, small):
    few = list(host_small_calls(chance, small))
    yield from (few[0], chance.choice(few[1:]))


def host_small_rounds():
    """Degrees 3 to 11, over each edge too; and 12 to 24, which no small word has."""
    chance = random.Random(151)
    for n in range(HOST_SMALL_WHOLE + 1, DEEPEST + 1):
        for at in range(12 if n <= SMALL_DEEPEST else 4):
            code = (random_code, random_code, seam_code)[at % 3](chance, n)
            yield f"small {some_word(chance, code)} {some_out(chance, 'small')}"
            if n <= SMALL_DEEPEST:
                small = small_of(code)
                yield f"check-small {some_small(chance, small)}"
                yield f"large {some_small(chance, small)} {some_out(chance, 'large')}"
                yield from (host_small_crossing(chance, small, edge) for edge in (1, 2, 3))


def host_turned_smalls():
    """Small words with each of the 32 bits turned over, alone."""
    chance = random.Random(152)
    for n in range(SMALL_DEEPEST + 1):
        small = small_of(random_code(chance, n))
        yield from (x for bit in range(32) for x in host_two_small_calls(chance, small ^ 1 << bit))


def host_damaged_smalls():
    """Each value that a field must not have; each field broken, alone and in pairs, over good edges and others; the
    bounds of the fields; edges outside; and any small words."""
    chance = random.Random(153)
    for n in (0, 5, 10, 11):
        for small in damaged_small_fields(small_of(random_code(chance, n))):
            yield from host_small_calls(chance, small)
    for n in range(SMALL_DEEPEST + 1):
        for breaks in alone_and_in_pairs(SMALL_BREAKS):
            small = broken(small_of(random_code(chance, n)), breaks, chance)
            yield from host_small_calls(chance, small)
            start = f"cross-small {some_small(chance, small)} {chance.choice(OUTSIDE_EDGES)}"
            yield from (f"{start} {x}" for x in chance.sample(tight_outs(chance, "cross-small"), 2))
    for edge in OUTSIDE_EDGES:
        for n in (0, 2, 11):
            yield host_small_crossing(chance, small_of(random_code(chance, n)), edge)
    for small in [*small_bounds(), *any_small_words(chance, 40)]:
        yield from host_two_small_calls(chance, small)


def host_written_small():
    chance = random.Random(154)
    for word in words_of_all_kinds(chance, (0, 1, 5, 10, 11, 12, 13, 18, 24), (11,)):
        yield f"small {some_word(chance, word)} {some_out(chance, 'small')}"


def host_filed_small():
    chance = random.Random(155)
    for n, d in [*directions_to_file(chance), *outside_to_file(chance, 3)]:
        yield f"file-small {n} {' '.join(map(str, d))} {some_out(chance, 'file-small')}"


def smalls_to_lend():
    """Answered ones, and each refusal."""
    chance = random.Random(156)
    for breaks in [(), *((one,) for one in CODE_BREAKS)]:
        yield f"small {word_text(broken(random_code(chance, 7), breaks, chance))}"
    yield f"small {word_text(random_code(chance, 12))}"
    for breaks in [(), *((one,) for one in SMALL_BREAKS)]:
        small = small_word(broken(small_of(random_code(chance, 7)), breaks, chance), 0)
        yield from (f"large {small}", f"cross-small {small} {chance.randint(1, 3)}")
    yield f"cross-small {small_word(small_of(random_code(chance, 11)), 0)} {chance.choice(OUTSIDE_EDGES)}"
    yield from (f"file-small {x}" for x in ("11 1 2 3", "25 1 2 3", "12 1 2 3", "0 0 -1000000001 0", "11 0 0 0"))


def with_every_length(chance, calls):
    for call in calls:
        yield from (f"{call} {out(chance, length)}" for length in range(LONGEST + 1))
        yield f"{call} null"


def host_small_slices():
    yield from with_every_length(random.Random(157), smalls_to_lend())


def host_small_first():
    """Slices filled in each of the 256 ways, answered and refused."""
    for start in range(256):
        yield from (f"small 0x2050000000000000 {length} {start}" for length in (3, 5))
        yield f"large 0x20A00001 9 {start}"
        yield f"cross-small 0x20A00000 2 11 {start}"
        yield from (f"file-small {n} 0 0 1 5 {start}" for n in (11, 12))


# ==== The plotter host's calls: opposites


def host_opposite_words():
    """Every triangle to degree 4, and the name of every corner to degree 3."""
    for n in range(HOST_WHOLE + 1):
        yield from whole_degree(n)
    for n in range(FULL + 1):
        yield from (canonical(n, p) for p in whole_index(n))


def opposite_call(word):
    return "opposite-name" if corner_number(word) else "opposite"


def host_opposites():
    starts = itertools.cycle(range(256))
    yield from (f"{opposite_call(word)} {word_text(word)} 8 {next(starts)}" for word in host_opposite_words())


def host_opposite_line(chance, call, word):
    return f"{call} {some_word(chance, word)} {some_out(chance, call)}"


def host_deep_opposites():
    """Triangles, corners, and their opposites; and every word for a corner."""
    chance = random.Random(171)
    for n in range(DEEPEST + 1):
        for at in range(6):
            code, name = (random_code, random_code, seam_code)[at % 3](chance, n), random_name(chance, n)
            for word in (code, opposite_code(code), name, opposite_name(name)):
                yield host_opposite_line(chance, opposite_call(word), word)
    for word in words_for_corners(chance, 0, 2):
        yield host_opposite_line(chance, "opposite-name", word)


def host_damaged_opposites():
    """With slices of any length, and of those about what is needed."""
    chance = random.Random(172)
    for call, (make, breaks) in OPPOSITE_KINDS.items():
        for word in words_of_all_kinds(chance, (0, 1, 9, 24), (0, 13), make, breaks):
            yield host_opposite_line(chance, call, word)
        for n in (0, 6, 23):
            for some in alone_and_in_pairs(breaks):
                start = f"{call} {some_word(chance, broken(make(chance, n), some, chance))}"
                yield from (f"{start} {x}" for x in tight_outs(chance, call))


def opposites_to_lend():
    """Answered ones, and each refusal."""
    chance = random.Random(173)
    for call, (make, breaks) in OPPOSITE_KINDS.items():
        for some in [(), *((one,) for one in breaks)]:
            yield f"{call} {word_text(broken(make(chance, 7), some, chance))}"


def host_opposite_slices():
    yield from with_every_length(random.Random(174), opposites_to_lend())


def host_opposite_first():
    """Slices filled in each of the 256 ways, answered and refused."""
    for start in range(256):
        yield from (f"opposite 0x208C000000000000 {length} {start}" for length in (7, 9))
        yield from (f"opposite-name {word} 9 {start}" for word in ("0x2000000000000001", "0x4000000000000001"))


# ==== Internal checks of the plotter host's answers

# The rows of document 01's table that each call can give, and 02's 9. 1 to 4 are a word's, 10 a corner name's; 5 takes
# an edge argument, and a degree argument 1; 8 and 7 are a direction's. There is no parent or child, and so no 6; there
# are no weights to be found again, and so no 11. 32 is for lists that are mended, 30 and 31 are for small words.
HOST_NUMBERS = {
    "check-triangle": {1, 2, 3, 4},
    "check-name": {1, 2, 3, 4, 10},
    "cross": {1, 2, 3, 4, 5, 9},
    "file": {1, 7, 8, 9},
    "list": {1, 7, 8, 9},
    "sweep": {1, 9},  # 8 and 7 are told in its answer
    "check-cells": {9},
    "mend-cells": {9, 32},  # 1 to 4 are told as reason 1
    **{call: numbers | {9} if NEEDED[call] else numbers for call, numbers in SMALL_NUMBERS.items()},
    **{call: numbers | {9} for call, numbers in OPPOSITE_NUMBERS.items()},
}
CELLS_CALLS = ("check-cells", "mend-cells")


def together(call, numbers):
    """Each two of the numbers that can hold at once. After a degree above 24 there are no digits, for 3, and in a small
    word after one above 11; it is not 12 to 24, for 30; a word that has one of 1 to 4 has no 10; and a coordinate of
    (0, 0, 0) is not outside, for 8."""
    two = (set(x) for x in itertools.combinations(numbers, 2))
    never = [{1, 3}, {7, 8}, {1, 30}] + ([{3, 30}] if call != "small" else []) + [{no, 10} for no in (1, 2, 3, 4)]
    return {frozenset(x) for x in two if x not in never}


def check_host_numbers(records):
    """Each refusal that a call can give is given, and no other; and each two that can hold at once do, so that their
    order is seen."""
    given = {call: set() for call in HOST_NUMBERS}
    at_once = {call: set() for call in HOST_NUMBERS}
    for asked, text in records:
        given[asked.call].add(int(text.split(" ")[0]))
        at_once[asked.call].update(map(frozenset, itertools.combinations(asked.refusals, 2)))
    for call, numbers in HOST_NUMBERS.items():
        must(given[call] == numbers | {0}, "just these refusals, and answers", call, given[call])
        must(at_once[call] == together(call, numbers), "just these at once", call, at_once[call])


def numbers_in(text):
    """The numbers of eight bytes, most significant first."""
    return [int(text[k : k + 16], 16) for k in range(0, len(text), 16)]


def check_cross_bytes(arguments, after_call):
    """The triangle across is another one that has the edge's two corners, and its own third corner has the number."""
    code, edge = arguments
    other, shared = numbers_in(after_call[:32])
    must(other != code and degree_of(other) == degree_of(code), "another code of the degree", code, edge)
    must(not code_refusals(other) and shared in (1, 2, 3), "a code and an edge number", code, edge)
    ours, theirs = (set(corners(x)) - {corners(x)[k - 1]} for x, k in ((code, edge), (other, shared)))
    must(ours == theirs, "the edge's two corners", code, edge)
    return 16


def check_file_bytes(arguments, after_call):
    n, *d = arguments
    (code,) = numbers_in(after_call[:16])
    must(degree_of(code) == n and not code_refusals(code), "a code of the degree", n, d)
    return 8


def check_list_bytes(arguments, after_call):
    n, *d = arguments
    count, *codes = numbers_in(after_call[:112])
    codes = codes[:count]
    must(count in (1, 2, 6) and codes == sorted(set(codes)), "the count, and codes in rising order", n, d)
    must(all(degree_of(code) == n and not code_refusals(code) for code in codes), "codes of the degree", n, d)
    return 8 + 8 * count


def check_small_bytes(arguments, after_call):
    must(int(after_call[:8], 16) == shifted(*arguments), "the small word", arguments)
    return 4


def check_large_bytes(arguments, after_call):
    must(numbers_in(after_call[:16]) == [shifted_back(*arguments)], "the code", arguments)
    return 8


def check_cross_small_bytes(arguments, after_call):
    """As for cross, with the codes of the small words."""
    small, edge = arguments
    other = int(after_call[:8], 16)
    must(other % 2 == 0, "the last bit", arguments, after_call)
    check_cross_bytes([shifted_back(small), edge], f"{shifted_back(other):016x}{after_call[8:24]}")
    return 12


def check_file_small_bytes(arguments, after_call):
    n, *d = arguments
    must(int(after_call[:8], 16) == shifted(min(holders(n, tuple(d)))), "the small word", n, d)
    return 4


def check_opposite_bytes(arguments, after_call):
    check_opposite_triangle(*arguments, *numbers_in(after_call[:16]))
    return 8


def check_opposite_name_bytes(arguments, after_call):
    check_opposite_corner(*arguments, *numbers_in(after_call[:16]))
    return 8


BYTE_CHECKS = {"cross": check_cross_bytes, "file": check_file_bytes, "list": check_list_bytes}
BYTE_CHECKS.update({"small": check_small_bytes, "large": check_large_bytes})
BYTE_CHECKS.update({"cross-small": check_cross_small_bytes, "file-small": check_file_small_bytes})
BYTE_CHECKS.update({"opposite": check_opposite_bytes, "opposite-name": check_opposite_name_bytes})


def check_host_bytes(records):
    """Each slice after its call: what was answered, and then, or when refused, the bytes that were there before."""
    for asked, text in (x for x in records if x[0].call not in ("sweep", *CELLS_CALLS)):
        no, after_call = (text + " ").split(" ")[:2]
        before = b"".join(asked.lent).hex()
        must(no == str(int(no)) and len(after_call) == len(before), "all LENGTH bytes", asked, text)
        many = BYTE_CHECKS[asked.call](asked.arguments, after_call) if no == "0" and NEEDED[asked.call] else 0
        must(many <= NEEDED[asked.call], "no more bytes than needed", asked, text)
        must(after_call[2 * many :] == before[2 * many :], "the others stay as they were", asked, text)


def host_found(records):
    """The codes that file and list answered, by degree and direction."""
    found = {"file": {}, "list": {}}
    for asked, text in records:
        if asked.call in found and text.startswith("0 "):
            numbers = numbers_in(text[2:114])
            codes = numbers[:1] if asked.call == "file" else numbers[1 : numbers[0] + 1]
            n, *d = asked.arguments
            old = found[asked.call].setdefault((n, tuple(d)), codes)
            must(old == codes, "the same answer to the same question", n, d)
    return found["file"], found["list"]


def check_host_holders(records):
    """The middles of every triangle to degree 3, and the edges and corners to degree 5, as for the console. What file
    answers is the first that list answers, or else holds, and the parents of holders hold. Of a share, by the
    determinants: those that list answers hold the direction, and the others that have a corner with them do not."""
    filed, listed = host_found(records)
    for n in range(FULL + 1):
        check_middles(n, filed, listed)
    for n in range(WHOLE + 1):
        check_edges(n, filed, listed)
    for n, d in filed.keys() - listed.keys():
        must(literal_holds(corners(filed[n, d][0]), d), "it holds", n, d)
    for at, ((n, d), codes) in enumerate(listed.items()):
        must(filed.get((n, d), codes[:1]) == codes[:1], "the least", n, d)
        above = listed.get((n - 1, d))
        if above:
            must({parent_code(code) for code in codes} <= set(above), "the parents hold", n, d)
        if at % 40 == 0:
            must(all(literal_holds(corners(code), d) for code in codes), "they hold", n, d)
            near = {other for code in codes for p in corners(code) for other, _ in having(n, p)} - set(codes)
            must(not any(literal_holds(corners(code), d) for code in near), "the others do not", n, d)


def check_host_lengths(calls, records):
    """For each call with a slice, each refusal but 9 is given with every length and with null; 9 is given with each
    length that is too short and with null; and with each other length the call is answered, by list with 1, 2 and 6
    holders."""
    found = {}
    for line, (asked, text) in zip(calls, records):
        kind = (asked.call, int(text.split(" ")[0]))
        kind += tuple(numbers_in(text[2:18])) if kind == ("list", 0) else ()
        found.setdefault(kind, set()).add("null" if line.endswith(" null") else len(b"".join(asked.lent)))
    every = {"null", *range(LONGEST + 1)}
    for call in BYTE_CHECKS:
        enough = set(range(NEEDED[call], LONGEST + 1))
        for kind in [("list", 0, count) for count in (1, 2, 6)] if call == "list" else [(call, 0)]:
            must(found[kind] == enough, "answered with every length that is long enough", kind, found[kind])
        for no in HOST_NUMBERS[call]:
            must(found[call, no] == (every - enough if no == 9 else every), "refused", call, no, found[call, no])


def degrees_asked(asked):
    """The degree that a call is for, or those of the triangles in its list."""
    if asked.call in CELLS_CALLS:
        return set(map(degree_of, filter(is_code, numbers_in(asked.arguments[0].hex()))))
    if asked.call in ("large", "check-small", "cross-small"):
        return {degree_of(shifted_back(asked.arguments[0]))}
    is_argument = asked.call in ("file", "list", "sweep", "file-small")
    return {asked.arguments[0] if is_argument else degree_of(asked.arguments[0])}


def check_host_degrees(records):
    """Every call is answered at every degree, those on small words to degree 11; a word is refused there as not
    canonical; and there are crossings from side to side, and within one."""
    found = set()
    for asked, text in records:
        no = text.split(" ")[0]
        found.update((asked.call, n, no) for n in degrees_asked(asked))
        if asked.call == "cross" and no == "0":
            n = degree_of(asked.arguments[0])
            found.add((n, side_of(asked.arguments[0]) == side_of(numbers_in(text[2:18])[0])))
    for n in range(DEEPEST + 1):
        calls = [call for call in HOST_NUMBERS if n <= SMALL_DEEPEST or call not in SMALL_CALLS]
        must(all((call, n, "0") in found for call in calls), "answered", n)
        deep = {(call, n, "30") for call in ("small", "file-small")}
        must(deep <= found if n > SMALL_DEEPEST else deep.isdisjoint(found), "too deep for a small word", n)
        must({(call, n, "10") for call in ("check-name", "opposite-name")} <= found, "not canonical", n)
        must((n, False) in found and ((n, True) in found) == (n > 0), "from side to side, and within one", n)


def check_host_whole(records):
    """Every triangle to degree 4 is checked and crossed over each edge, every word for a corner there is checked; so
    are the small words to degree 2, and written and read; opposites are asked of every triangle to degree 4 and every
    corner to degree 3; the edges and degrees outside are refused as such; and slices are filled in each of the 256
    ways."""
    given = {(asked.call, *asked.arguments[:2], text.split(" ")[0]) for asked, text in records}
    for code in itertools.chain.from_iterable(map(whole_degree, range(HOST_WHOLE + 1))):
        must(("check-triangle", code, "0") in given, "every triangle", code)
        for k in (1, 2, 3):
            must(("cross", code, k, "0") in given, "over each edge", code, k)
            must(not given.isdisjoint({("check-name", code | k, no) for no in ("0", "10")}), "every word", code, k)
    for code in itertools.chain.from_iterable(map(whole_degree, range(HOST_SMALL_WHOLE + 1))):
        small = shifted(code)
        calls = {("small", code, "0"), ("large", small, "0"), ("check-small", small, "0")}
        must(calls | {("cross-small", small, k, "0") for k in (1, 2, 3)} <= given, "every small word", code)
    for word in host_opposite_words():
        call = "opposite-name" if corner_number(word) else "opposite"
        must((call, word, "0") in given, "every opposite", word)
    crossing = ("cross", "cross-small")
    refused_as = {(call, values[-1] if call in crossing else values[0], no) for call, *values, no in given}
    must(refused_as >= {(call, edge, "5") for call in crossing for edge in OUTSIDE_EDGES}, "the edges outside")
    filing = ("file", "list", "file-small")
    must(refused_as >= {(call, n, "1") for call in filing for n in OUTSIDE_DEGREES}, "the degrees outside")
    must(given >= {("file-small", n, 1, "30") for n in SMALL_OUTSIDE}, "the degrees outside of small words")
    filled_with = {(x.call, text[0] == "0", k, one[0]) for x, text in records for k, one in enumerate(x.lent) if one}
    slices = [(call, kind) for call, (kinds, _) in HOST_FORMS.items() for kind in kinds if kind in LENT]
    must(len(filled_with) == len(slices) * 2 * 256, "answered and refused, filled in each way")


HostSwept = namedtuple("HostSwept", "n data codes out held nos")


def directions_of(data):
    """Each number from its four bytes, one by one."""
    bits = [int.from_bytes(data[k : k + 4], "big") for k in range(0, len(data), 4)]
    numbers = [x - 2**32 if x >= 2**31 else x for x in bits]
    return [tuple(numbers[k : k + 3]) for k in range(0, len(numbers), 3)]


def seen_host_sweep(asked, text):
    """Its answer, or else its refusal, and both slices after the call."""
    (n, data), (codes, lent) = asked.arguments, asked.lent
    no, *slices = text.split(" ")
    must(len(slices) == bool(codes) + bool(lent), "each slice of at least one byte", asked, text)
    codes_after, lent_after = slices[0] if codes else "", slices[-1] if lent else ""
    many, left_over = divmod(len(data), 12)
    wrong = (("1", n > 24), ("bytes", left_over), ("codes", len(codes) < 8 * many), ("out", len(lent) < 24))
    held = frozenset(what for what, true in wrong if true)
    if held:
        must(no == ("1" if "1" in held else "9"), "refused", asked, text)
        must((codes_after, lent_after) == (codes.hex(), lent.hex()), "nothing is changed", asked, text)
        return HostSwept(n, data, len(codes), len(lent), held, ())
    must(no == "0" and len(codes_after) == 2 * len(codes), "answered", asked, text)
    must(codes_after[16 * many :] == codes.hex()[16 * many :], "later bytes of the codes", asked, text)
    must(lent_after[48:] == lent.hex()[48:], "later bytes of the answer", asked, text)
    nos = check_codes(n, directions_of(data), numbers_in(codes_after[: 16 * many]), numbers_in(lent_after[:48]))
    return HostSwept(n, data, len(codes), len(lent), held, nos)


def check_host_sweeps(calls, records):
    """Every length of BYTES that is called for, with CODES of just enough bytes, one less and one more, and none; OUT
    of every length; each refusal alone and with each other one; refused directions in every place; each degree."""
    lines = [(line, x) for line, x in zip(calls, records) if x[0].call == "sweep"]
    seen = [seen_host_sweep(*x) for _, x in lines]
    met = {(len(x.data), x.codes - 8 * (len(x.data) // 12)) for x in seen if x.held <= {"bytes", "codes"}}
    for length in HOST_SWEPT:
        need = 8 * (length // 12)
        must(all((length, x) in met for x in (-need, -1 if need else 0, 0, 1)), "about what is needed", length)
    must({x.out for x in seen if x.held <= {"out"}} == set(range(LONGEST + 1)), "OUT of every length")
    given = [(line.split(" ")[2], line.split(" ")[3], line.split(" ")[-1]) for line, _ in lines]
    must({"empty", "null"} <= {data for data, _, _ in given}, "BYTES of both kinds of none")
    must("null" in {codes for _, codes, _ in given} & {lent for _, _, lent in given}, "CODES and OUT of none")
    must({x.held for x in seen} == {frozenset(x) for x in powers(("1", "bytes", "codes", "out"))}, "refused sweeps")
    must({x.n for x in seen if "1" in x.held} == set(OUTSIDE_DEGREES), "the degrees outside")
    for n in range(DEEPEST + 1):
        filed_there = {d for x in seen if x.n == n and not x.held for d in directions_of(x.data)}
        must(filed_there >= set(some_directions()), "all of these at every degree", n)
    check_refused_places({x.nos for x in seen}, 16)


def seen_host_cells(asked, text):
    """Its answer, or else its refusal, and the slice after the call. It tells what was wrong, and the length of OUT."""
    (data,), (lent,) = asked.arguments, asked.lent
    no, after_call = (text + " ").split(" ")[:2]
    held = frozenset(what for what, true in (("bytes", len(data) % 8), ("out", len(lent) < 16)) if true)
    if held:
        must(no == "9" and after_call == lent.hex(), "refused, writing nothing", asked, text)
    else:
        must(no == "0" and after_call[32:] == lent.hex()[32:], "answered, and later bytes", asked, text)
        reason, place = numbers_in(after_call[:32])
        must(reason or place == 0, "both 0 where the list is accepted", asked, text)
        check_offence(numbers_in(data.hex()), *((place, reason) if reason else (None, None)))
    return len(data), len(lent), held


def check_host_cell_lists(calls, records):
    """LIST of every length to 40 bytes, and about 4,096 words and to the longest, with OUT of 15 and 16 bytes; OUT of
    every length; and both kinds of none."""
    lines = [(line, x) for line, x in zip(calls, records) if x[0].call == "check-cells"]
    seen = [seen_host_cells(*x) for _, x in lines]
    met = {(length, lent) for length, lent, _ in seen}
    must(met >= set(itertools.product(range(41), (0, 15, 16, 17, LONGEST))), "about what is needed")
    must({length for length, _ in met} >= {8 * many for many in (4095, 4096, 4097, 4100)}, "the longest lists")
    must({lent for _, lent, held in seen if held <= {"out"}} == set(range(LONGEST + 1)), "OUT of every length")
    must({held for *_, held in seen} == {frozenset(x) for x in powers(("bytes", "out"))}, "refused lists")
    given = {word for line, _ in lines for word in (line.split(" ")[1], line.split(" ")[-1]) if not word.isdigit()}
    must({"empty", "null"} <= given, "both kinds of none")


HostMended = namedtuple("HostMended", "data lent held mended")


def seen_host_mend(asked, text):
    """Its answer, or else its refusal, and the four slices after the call."""
    (data,), lent = asked.arguments, asked.lent
    no, *slices = text.split(" ")
    must(len(slices) == sum(map(bool, lent)), "each slice of at least one byte", asked.call, text[:99])
    left = iter(slices)
    after_call = [next(left) if one else "" for one in lent]
    short = [len(one) < least for one, least in zip(lent, (len(data), len(data), len(data), 16))]
    wrong = {"32": len(data) >= 32_776, "bytes": len(data) % 8, **dict(zip((*LENT_LISTS, "OUT"), short))}
    held = frozenset(what for what, true in wrong.items() if true)
    if held:
        must(no == ("32" if "32" in held else "9"), "refused", asked.call, held, no)
        must(after_call == [one.hex() for one in lent], "nothing is changed", asked.call, held)
        return HostMended(len(data), list(map(len, lent)), held, None)
    must(no == "0", "answered", asked.call, text[:99])
    many, changes = numbers_in(after_call[3][:32])
    ends = [16 * many, 16 * changes, 16 * changes, 32]
    later = [[x[end:] for x, end in zip(some, ends)] for some in (after_call, [one.hex() for one in lent])]
    must(later[0] == later[1] and list(map(len, after_call)) == [2 * len(x) for x in lent], "later bytes", text)
    words = numbers_in(data.hex())
    done = check_mended(words, *(numbers_in(x[:end]) for x, end in zip(after_call[:3], ends)))
    return HostMended(len(data), list(map(len, lent)), held, MendSeen(words, *done))


def check_host_mends(calls, records):
    """Every length of LIST that is called for, with each lent slice of just enough bytes, one less and one more, and
    none; OUT of every length; the longest lists; and everything that can be wrong, alone and with each other."""
    lines = [(line, x) for line, x in zip(calls, records) if x[0].call == "mend-cells"]
    seen = [seen_host_mend(*x) for _, x in lines]
    met = {(x.data, place, x.lent[place] - x.data) for x in seen for place in range(3)}
    for length, place in itertools.product(HOST_MENDED, range(3)):
        beside = {-length, -1 if length else 0, 0, 1, 8}
        must(all((length, place, x) in met for x in beside), "about what is needed", length, place)
    must({x.lent[3] for x in seen if x.held <= {"OUT"}} == set(range(LONGEST + 1)), "OUT of every length")
    for many in (4095, 4096):
        must(any(x.mended and x.data == 8 * many for x in seen), "the longest lists", many)
    must({x.data for x in seen} >= {*range(32_761, 32_778)}, "bytes over")
    wrong = {frozenset(x) for x in powers(("32", "bytes", *LENT_LISTS, "OUT"))}
    must({x.held for x in seen} == wrong, "refused lists")
    given = [(line.split(" ")[1], line) for line, _ in lines]
    must({"empty", "null"} <= {data for data, _ in given}, "LIST of both kinds of none")
    must({line.count(" null") for _, line in given} >= set(range(6)), "lent slices of none")
    check_mends_met([x.mended for x in seen if x.mended], 24)


def check_host_smalls(records):
    """The refusals, by what holds of the word of the same fields, and 9 after all."""
    for asked, text in (x for x in records if x[0].call in SMALL_CALLS):
        held = small_held(asked.call, asked.arguments)
        short = sum(map(len, asked.lent)) < NEEDED[asked.call]
        no = next((no for no in (1, 30, 2, 3, 4, 31, 5, 8, 7) if no in held), 9 * short)
        must(text.split(" ")[0] == str(no), "refused", asked, text)


def check_host_opposites(records):
    """The refusals are those that check and check-name answer, and 9 after all; and twice is the identity."""
    found = {call: {} for call in OPPOSITE_CALLS}
    for asked, text in (x for x in records if x[0].call in OPPOSITE_CALLS):
        (word,) = asked.arguments
        short = sum(map(len, asked.lent)) < NEEDED[asked.call]
        no = checked_number(asked.call, word) or 9 * short
        must(text.split(" ")[0] == str(no), "refused", asked, text)
        if no == 0:
            found[asked.call][word] = numbers_in(text[2:18])[0]
    check_twice(found)


def check_host_examples():
    for line, text in HOST_EXAMPLES.items():
        must(host_answer(line) == text, "by hand", line, text, host_answer(line))


def check_host_answers(calls, records):
    check_host_numbers(records)
    check_host_bytes(records)
    check_host_holders(records)
    check_host_lengths(calls, records)
    check_host_degrees(records)
    check_host_whole(records)
    check_host_sweeps(calls, records)
    check_host_cell_lists(calls, records)
    check_host_mends(calls, records)
    check_host_smalls(records)
    check_host_opposites(records)


# ==== The program ./sweep: docs/SWEEP.md, "Filing a file of directions"

# Arguments are a list. Texts, and the bytes of the input, have a character for each byte.
Case = namedtuple("Case", "arguments data")
Ran = namedtuple("Ran", "out err status")
LONGEST_LINE = 1000


def read_sweep_arguments(arguments):
    """Whether the input is packed, and the degree."""
    # "./sweep DEGREE" or "./sweep --packed DEGREE". "DEGREE is a number below 2^64: decimal digits, or 0x and 1 to 16
    # hexadecimal digits."
    is_packed = arguments[:1] == ["--packed"]
    within(len(arguments), 1 + is_packed, 1 + is_packed)
    return is_packed, read_number(arguments[-1])


def read_direction(line):
    """The line's direction, or None where it is not read."""
    # "Any other line is not read: one with fewer or more than three words, an empty one, one with a word that is no
    # such number, and one of more than 1000 bytes (without its line end)."
    words = parts_of(line)
    if len(line) > LONGEST_LINE or len(words) != 3:
        return None
    try:
        return tuple(map(read_signed, words))
    except Unreadable:
        return None


def text_directions(data):
    # "The last line may lack its line end."
    lines = data.split("\n")
    return [read_direction(line) for line in (lines if lines[-1] else lines[:-1])]


def packed_directions(data):
    # "Where the input ends within a direction, after 1 to 11 bytes of it, that last one is not read."
    return whole_directions(data.encode("latin-1")) + [None] * (len(data) % 12 != 0)


def result_text(result):
    if result is None:
        return "not read"
    no, code = result
    return f"refused {no}" if no else word_text(code)


def summary(count, refused_at, unread):
    # "It is `direction` after 1, and `directions` after any other number; the refusals have document 01's words".
    text = f"sweep: {count} direction{'' if count == 1 else 's'}, {len(refused_at)} refused"
    if refused_at:
        place, no = refused_at[0]
        text += f", the first at place {place} with {no}: {REFUSALS[no]}"
    return text + (f"; {len(unread)} not read, the first at place {unread[0]}" if unread else "")


def file_all(n, directions):
    results = [None if d is None else filed(n, d) for d in directions]
    refused_at = [(place, x[0]) for place, x in enumerate(results) if x is not None and x[0]]
    unread = [place for place, x in enumerate(results) if x is None]
    # "Where some are refused and some not read it is 2."
    status = 2 if unread else 1 if refused_at else 0
    written_out = "".join(result_text(x) + "\n" for x in results)
    return Ran(written_out, summary(len(results), refused_at, unread) + "\n", status)


def run_sweep(case):
    try:
        is_packed, n = read_sweep_arguments(case.arguments)
    except Unreadable:
        return Ran("", "sweep: write it as ./sweep [--packed] DEGREE\n", 2)
    # "A degree above 24 is refusal 1 of the whole sweep": "nothing is then read or written".
    if degree_refusals(n):
        return Ran("", f"sweep: {refused(1)}\n", 1)
    return file_all(n, packed_directions(case.data) if is_packed else text_directions(case.data))


# ==== The cases of ./sweep: examples, with what is written by hand

UP, EAST = "0x208C000000000000\n", "0x3888000000000000\n"  # E3 and E6
PAGE_CASES = {
    "page": (
        Case(["2"], "0 0 1\n0 0 0\n1 0 0\n1 0\n0 0 1000000001\n"),
        Ran(
            UP + "refused 7\n" + EAST + "not read\nrefused 8\n",
            "sweep: 5 directions, 2 refused, the first at place 1 with 7: the direction is (0, 0, 0); 1 not read, the "
            "first at place 3\n",
            2,
        ),
    ),
    "page-three": (
        Case(["2"], "0 0 1\n1 0 0\n0 0 1000000000\n"),
        Ran(UP + EAST + UP, "sweep: 3 directions, 0 refused\n", 0),
    ),
    "page-one": (
        Case(["--packed", "2"], "\0\0\0\0\0\0\0\0\x80\0\0\0"),
        Ran(
            "refused 8\n",
            "sweep: 1 direction, 1 refused, the first at place 0 with 8: a direction coordinate lies outside "
            "-1,000,000,000 to 1,000,000,000\n",
            1,
        ),
    ),
    "page-two": (
        Case(["--packed", "2"], "\0\0\0\1\0\0\0\0\0\0\0\0\0\0\0"),
        Ran(EAST + "not read\n", "sweep: 2 directions, 0 refused; 1 not read, the first at place 1\n", 2),
    ),
    "empty": (Case(["7"], ""), Ran("", "sweep: 0 directions, 0 refused\n", 0)),
    "empty-packed": (Case(["--packed", "7"], ""), Ran("", "sweep: 0 directions, 0 refused\n", 0)),
    "line-end-alone": (
        Case(["7"], "\n"),
        Ran("not read\n", "sweep: 1 direction, 0 refused; 1 not read, the first at place 0\n", 2),
    ),
    "degree-25": (Case(["25"], "0 0 1\n"), Ran("", f"sweep: {DEEP}\n", 1)),
    "arguments-none": (Case([], "0 0 1\n"), Ran("", "sweep: write it as ./sweep [--packed] DEGREE\n", 2)),
}


# ==== The cases of ./sweep: lines that are not read, and lines that are


def line_of(d):
    return " ".join(map(str, d)) + "\n"


def lines_of(directions):
    return "".join(map(line_of, directions))


def any_number(chance, x):
    """With leading zeros, or a 0 with a sign."""
    zeros_before = "0" * chance.choice([0, 0, 0, 1, 2, 20])
    return chance.choice(["-", ""] if x == 0 else ["-"] if x < 0 else [""]) + zeros_before + str(abs(x))


def any_line(chance, d):
    """In any way that is read."""
    between = [chance.choice([" ", "\t", "\r", "  ", " \t\r "]) for _ in range(2)]
    before, after_it = (chance.choice(["", "", " ", "\t", "\r", "   "]) for _ in range(2))
    x, y, z = (any_number(chance, k) for k in d)
    return before + x + between[0] + y + between[1] + z + after_it + "\n"


# Between a line and the next one there is a semicolon.
UNREAD_LINES = """
    1; 1 2; 1 2 3 4; 1 2 3 4 5; 1 2 3 4 5 6; 1 2 3 #; # 1 2 3; # note; #; 1,2,3; 1, 2, 3; (1 2 3); 1 2 3,; x; x y z
    X Y Z; file 2 0 0 1; sweep 2 1 0 0 1; 0x208C000000000000; refused 7; not read; 1 2 - 3; - 1 2; 1 2 -; - - -; -; +
    + 1 2; 1 + 2; +1 2 3; 1 +2 3; 1 2 +3; --1 2 3; 1 --2 3; 1 2 --3; -+1 2 3; +-1 2 3; 1- 2 3; 1 2- 3; 1 2 3-; 1-2 3 4
    2147483648 0 0; 0 2147483648 0; 0 0 2147483648; -2147483649 0 0; 0 -2147483649 0; 0 0 -2147483649; 4294967296 0 1
    0 4294967297 0; 0 0 -4294967295; 18446744073709551616 0 1; 18446744073709551617 0 0; 0 -18446744073709551617 0
    340282366920938463463374607431768211457 0 0; 99999999999999999999999999999999999999999999999999 0 0
    0000000002147483648 0 0; 0 -00000000002147483649 0; 0x1 0 0; 0 0x0 1; 0 0 0x1; 0X1 0 0; 1h 0 0; 1.0 0 0; 0 1. 0
    0 0 .5; 1e3 0 0; 0 1e0 0; 1_0 0 0; 1'000 0 0; 0 0 1,000; 0 0 −1; ٣ 0 0; 0 0 １; 0 0 1\u00a0; 0\u00a00 1 2
    \u2003 0 0 1; \ufeff0 0 1; 0 0 φ; 1 2 3 é; NaN 0 0; inf 0 0; "0" 0 1; 0 0 1 .; --packed; -1 -2; -1 -2 -3 -4
"""
UNREAD_BYTES = ["\0", "0 0 1\0", "\0000 0 1", "0 0\0 1", "0 \0 1", "0 0 1 \0", "0\0000 1", "0 0\x0b1", "0\x0c0 1"]
UNREAD_BYTES += ["0 0 1\x1a", "\x7f0 0 1", "\xff", "\xff\xfe0 0 1", "0 0 1\x80", "\x800 0 1", "0 0 \xb9", "0\xa00 1"]
UNREAD_BYTES += ["\x0b", "\x0c0 0 1", "0 0 1\x0b", "0 0 1\x85", "\xc3", "0 0 1 \x1b[0m", "\0" * 12, "0 0 1\x1c", "\x1f"]
BLANK_LINES = ["", " ", "\t", "\r", "   ", " \t\r ", "\r\r", " " * 999, " " * 1000, " " * 1001, "\t" * 5000, ""]
READ_LINES = ["0 0 1", "0\t0\t1", "0\r0\r1", " 0 0 1", "0 0 1 ", "  0   0\t \r1\t\t", "0 0 1\r", "\r0 0 1", "\t\t0 0 1"]
READ_LINES += ["-0 0 1", "-0 -0 -0", "00 000 0001", "-00 0 -0001", "0 0 -1", "1 1 1", "-1 -1 -1", "1 0 0", "-5 07 -009"]
READ_LINES += ["1000000000 0 0", "0 -1000000000 0", "0 0 01000000000", "1000000001 0 0", "0 -1000000001 0", "0 0 0"]
READ_LINES += ["2147483647 0 0", "-2147483648 0 0", "0 2147483647 0", "0 -2147483648 0", "0 0 2147483647"]
READ_LINES += ["0 0 -2147483648", "-0000000002147483648 1 1", "00000000002147483647 1 1"]
READ_LINES += ["0 0 " + "0" * 300 + "1", "-" + "0" * 900 + "7 -5 3", "0" * 500 + " -" + "0" * 490 + " 1"]


def unread_lines():
    """Lines that are not read, for one reason each."""
    return written(UNREAD_LINES) + UNREAD_BYTES


def with_good_lines(chance, lines):
    """Each of the lines, and after it one that is filed."""
    return "".join(line + "\n" + line_of(chance.choice(some_directions())) for line in lines)


def long_line_forms(length):
    """Lines of the length: three words among spaces; one number with many zeros; too many words; and no words."""
    yield filled("0 0 1", length)
    yield " " * (length - 5) + "1 0 0"
    yield "0 0 " + "0" * (length - 5) + "1"
    yield "-" + "0" * (length - 6) + "7 0 1"
    yield filled("0", length - 4, "\t") + "\r0 1"
    yield filled("", length, "0 0 1 ")[:length]
    yield "x" * length


def long_lines_data(chance):
    few, many = [998, 999, 1000, 1001, 1002, 1023, 1024, 1025], [2000, 4095, 4096, 4097, 8192, 65_536, 100_003]
    lines = [line for length in few for line in long_line_forms(length)]
    lines += [line for length in many for line in list(long_line_forms(length))[length % 3 :: 3]]
    # A carriage return is a byte of its line.
    lines += [filled("0 0 1", 999) + "\r", filled("0 0 1", 1000) + "\r"]
    return with_good_lines(chance, lines)


def line_cases(chance):
    some = some_directions()
    yield "unread-lines", Case(["3"], with_good_lines(chance, unread_lines()))
    yield "blank-lines", Case(["11"], with_good_lines(chance, BLANK_LINES))
    yield "read-lines", Case(["2"], "".join(line + "\n" for line in READ_LINES))
    yield "read-any-way", Case(["9"], "".join(any_line(chance, d) for d in some))
    yield "line-ends-of-two-bytes", Case(["6"], lines_of(some[:50]).replace("\n", "\r\n"))
    yield "long-lines", Case(["2"], long_lines_data(chance))
    for name, last in {"read": "0 0 1", "unread": "0 0", "blank": "\r"}.items():
        yield f"last-{name}", Case(["2"], lines_of(some[7:10]) + last)
    for length in (1000, 1001, 70_000):
        yield f"last-of-{length}", Case(["2"], lines_of(some[20:22]) + filled("1 0 0", length))


# ==== The cases of ./sweep: packed directions, refused ones, degrees and arguments


def packed_text(directions):
    return packed(directions).decode("latin-1")


def packed_cases(chance):
    some = chance.sample(some_directions(), 100)
    yield "packed", Case(["--packed", "4"], packed_text(some))
    for left_over in range(1, 12):
        data = packed_text(some[:left_over])
        yield f"packed-left-{left_over}", Case(["--packed", "8"], data[: 12 * (left_over - 1) + left_over])
    # Four times the same byte: line ends, spaces and others that mean something in a text.
    signs = [int.from_bytes(sign * 4, "big", signed=True) for sign in (b"\n", b"\r", b" ", b"\t", b"0", b"-", b"\xff")]
    yield "packed-signs", Case(["--packed", "5"], packed_text(itertools.product(signs, repeat=3)))


def refused_cases(chance):
    every = list(itertools.product(SWEPT_BOUNDS, repeat=3))
    chance.shuffle(every)
    yield "bounds", Case(["24"], lines_of(every))
    yield "bounds-packed", Case(["--packed", "24"], packed_text(every))
    for name, nos in {"first": [7, 0, 0, 0], "middle": [0, 0, 8, 0], "7-before-8": [0, 7, 0, 8]}.items():
        yield f"refused-{name}", Case(["13"], lines_of(of_kinds(chance, nos)))
    for name, nos in {"last": [0, 0, 0, 7], "8-before-7": [8, 7, 0]}.items():
        yield f"refused-{name}-packed", Case(["--packed", "13"], packed_text(of_kinds(chance, nos)))
    one, other = (lines_of(of_kinds(chance, nos)) for nos in ([0, 8, 0], [7, 0]))
    yield "refused-then-unread", Case(["1"], one + "0 0\n" + other)
    yield "unread-then-refused", Case(["1"], "x\n" + one + "0 0 1 x\n" + other + "\n")


def argument_cases(chance):
    some = chance.sample(some_directions(), 40)
    for degree in ("0", "24", "0x10", "024", "18446744073709551615", "18446744073709551616", "-1", "0x"):
        yield f"degree-{degree}", Case([degree], lines_of(some))
    yield "degree-25-packed", Case(["--packed", "0x19"], packed_text(some))
    wrong = {"two": ["2", "3"], "unknown": ["--text", "2"], "packed-alone": ["--packed"], "empty": [""]}
    wrong |= {"packed-last": ["2", "--packed"], "packed-two": ["--packed", "2", "3"]}
    for name, arguments in wrong.items():
        yield f"arguments-{name}", Case(arguments, lines_of(some))


# ==== The cases of ./sweep: many directions


def every_97th(directions, others):
    """Each 97th one is replaced by the next of the others."""
    return [next(others) if place % 97 == 96 else x for place, x in enumerate(directions)]


def many_cases(chance):
    some = some_directions()
    many = chance.choices(some, k=20_000)
    yield "many", Case(["24"], lines_of(many))
    yield "many-packed", Case(["--packed", "24"], packed_text(many))
    yield "many-any-way", Case(["10"], "".join(any_line(chance, d) for d in many[:6000]))
    refused_ones = itertools.cycle(of_kinds(chance, [8, 7, 8, 8, 7]))
    yield "many-refused", Case(["17"], lines_of(every_97th(many[:3000], refused_ones)))
    yield "many-refused-packed", Case(["--packed", "17"], packed_text(every_97th(many[:3000], refused_ones)))
    unread = itertools.cycle(line + "\n" for line in unread_lines())
    yield "many-unread", Case(["17"], "".join(every_97th(map(line_of, many[:3000]), unread)))
    either_one = itertools.cycle(itertools.chain.from_iterable(zip(map(line_of, of_kinds(chance, [7, 8, 8])), unread)))
    yield "many-refused-and-unread", Case(["3"], "".join(every_97th(map(line_of, many[:3000]), either_one)))
    none = of_kinds(chance, chance.choices((7, 8), k=3000))
    yield "all-refused", Case(["21"], lines_of(none))
    yield "all-refused-packed", Case(["--packed", "21"], packed_text(none) + "\0" * 11)
    lines = chance.choices(unread_lines() + BLANK_LINES[:7], k=3000)
    yield "all-unread", Case(["21"], "".join(line + "\n" for line in lines))


def sweep_cases():
    chance = random.Random(61)
    found = {name: case for name, (case, _) in PAGE_CASES.items()}
    for make in (line_cases, packed_cases, refused_cases, argument_cases, many_cases):
        for name, case in make(chance):
            must(name not in found and re.fullmatch("[-0-9a-z]+", name), "a name of its own", name)
            found[name] = case
    return found


# ==== Internal checks of what ./sweep writes

READ_LINE = re.compile(rb"[ \t\r]*(-?[0-9]+)[ \t\r]+(-?[0-9]+)[ \t\r]+(-?[0-9]+)[ \t\r]*")
LAST_LINE = re.compile(
    r"sweep: (\d+) (directions?), (\d+) refused(?:, the first at place (\d+) with (\d): (.*?))?"
    r"(?:; (\d+) not read, the first at place (\d+))?\n"
)


def read_again(line):
    found = READ_LINE.fullmatch(line) if len(line) <= LONGEST_LINE else None
    d = tuple(map(int, found.groups())) if found else ()
    return d if d and all(x in range(LEAST_SIGNED, MOST_SIGNED + 1) for x in d) else None


def all_read_again(is_packed, data):
    if is_packed:
        whole = len(data) - len(data) % 12
        return directions_of(data[:whole]) + ([None] if data[whole:] else [])
    return [read_again(line) for line in data.removesuffix(b"\n").split(b"\n")] if data else []


def check_last_line(lines, ran):
    """What the last line counts, and the first places that it tells, are those of the lines."""
    count, word, refusals, place, no, words, unread, unread_place = LAST_LINE.fullmatch(ran.err).groups()
    must(int(count) == len(lines) and word == ("direction" if len(lines) == 1 else "directions"), "directions", ran.err)
    numbers = [line for line in lines if line.startswith("refused ")]
    must(int(refusals) == len(numbers) and (place is None) == (not numbers), "refused", ran.err)
    if numbers:
        must(lines.index(numbers[0]) == int(place) and numbers[0] == f"refused {no}", "the first refused", ran.err)
        must(words == REFUSALS[int(no)], "document 01's words", ran.err)
    must(int(unread or 0) == lines.count("not read") and (unread != "0"), "not read", ran.err)
    if unread:
        must(lines.index("not read") == int(unread_place), "the first not read", ran.err)
    must(ran.status == (2 if unread else 1 if numbers else 0), "the status", ran.err)


def line_again(n, d):
    """What the console answers to file, as a line of ./sweep."""
    if d is None:
        return "not read"
    text = answer(f"file {n} {d[0]} {d[1]} {d[2]}")
    return text.split(":")[0] if text.startswith("refused ") else text.split(" ")[1]


def check_case(case, ran):
    """Each line against what the console answers, of directions that are read in another way."""
    if ran.err.startswith(("sweep: write", "sweep: refused")):
        must(ran.out == "" and ran.status == (2 if "write" in ran.err else 1), "nothing is written", case.arguments)
        return
    n = case.arguments[-1]
    lines = ran.out.split("\n")
    must(lines.pop() == "", "each line has its end", case.arguments)
    directions = all_read_again(len(case.arguments) == 2, case.data.encode("latin-1"))
    must(len(lines) == len(directions), "a line for each direction", case.arguments)
    for d, line in zip(directions, lines):
        must(line == line_again(n, d), "as file", case.arguments, d, line)
    check_last_line(lines, ran)


def check_page():
    for name, (case, ran) in PAGE_CASES.items():
        must(run_sweep(case) == ran, "by hand", name, run_sweep(case))
    for line in unread_lines() + BLANK_LINES:
        must(read_direction(line) is None and "\n" not in line, "not read", line)
    must(all(map(read_direction, READ_LINES)), "read")


# ==== The program ./cells: docs/CELLS.md, "Checking and mending another yard's cell list"

CellsRan = namedtuple("CellsRan", "line more")
MendRan = namedtuple("MendRan", "mended report")


def invalid_text(word):
    # "After `invalid` stand the words that `./plot check` has for the refusal."
    return f"{REASONS[1]}: {REFUSALS[first(code_refusals(word))]}"


def offence_text(words, found):
    """What the second line says: "A word is shown as `./plot` shows it, as document 01 writes the code and as a number;
    one that is no code only as a number"."""
    word, reason = words[found.place], REASONS[found.reason]
    if found.reason == 1:
        return f"{word_text(word)} is {invalid_text(word)}"
    # The word before; for 4 "an earlier one", which is any that the word is inside.
    others = [words[found.place - 1]]
    if found.reason == 4:
        others = [x for x in words[: found.place] if path(x) in paths_above(word)]
        # "that one is the word before"
        must(others == [words[found.place - 1]], "the word before", words[: found.place + 1])
    return f"{code_text(word)} is {reason}, {code_text(others[0])}"


def length_line(data):
    """The line for a file whose length is not allowed, or nothing."""
    # "A file whose length isn't a multiple of 8 is "bad length", checked first; one above 4,096 words is "too long"."
    if len(data) % 8 != 0:
        return "bad length\n"
    return "too long\n" if len(data) // 8 > MOST_WORDS else ""


LENGTH_MORE = {"bad length\n": "its length is not a multiple of 8", "too long\n": "it has more than 4096 words"}


def run_cells(data):
    """The line for a file, and the second one that `-v` adds, or nothing."""
    line = length_line(data)
    if line:
        return CellsRan(line, f"  {LENGTH_MORE[line]}\n")
    words = words_of(data)
    found = first_offence(words)
    # "To `accepted` no second line is added."
    more = "" if found is None else f"  {offence_text(words, found)}\n"
    return CellsRan(cells_text(found) + "\n", more)


def drop_text(word, reason):
    # "the words after it are those of `./plot check`"
    if reason == 1:
        return f"{word_text(word)} is dropped: {invalid_text(word)}"
    return f"{code_text(word)} is dropped: {DROPS[reason]}"


def report_text(many, done):
    """What is told of a list of so many words."""
    # "The place of a dropped word is where it stood in the file, from 0. The changes stand in the order of the call's
    # change list". "A merge is told as the parent, which takes the place of its four children."
    changes = list(zip(done.words, done.reasons))
    lines = [f"place {place}: {drop_text(*change)}" for place, change in zip(done.places, changes)]
    lines += [f"{code_text(parent)} takes the place of its four children" for parent in done.words[len(lines) :]]
    # "The last line counts. Where nothing is changed it stands alone."
    dropped = ", ".join(f"{text} {done.reasons.count(reason)}" for reason, text in DROPS.items())
    counts = f"words in {many}, words out {len(done.codes)}; dropped: {dropped}; merges {done.reasons.count(MERGE)}"
    return "".join(line + "\n" for line in [*lines, counts])


def run_mend(data):
    """The bytes of the mended list, and the report."""
    # "Then nothing goes to standard output, and the report is the one line that `./cells check` has for it".
    line = length_line(data)
    if line:
        return MendRan(b"", line)
    done = mend(words_of(data))
    return MendRan(file_of(done.codes), report_text(len(data) // 8, done))


# ==== The cases of ./cells: examples, with what is written by hand

# The file's bytes in hexadecimal digits, the line, and the second one.
CELLS_PAGE_TEXT = """
    page-good -> 208C000000000000 2050000000000000 2800000000000000 -> accepted ->
    page-inside -> 2050000000000000 2098000000000000 -> place 1 reason 4
        -> 10012 0x2098000000000000 is inside an earlier one, 1001 0x2050000000000000
    page-invalid -> 0000000000000000 -> place 0 reason 1 -> 0x0000000000000000 is invalid: a is 0, 6 or 7
    page-less -> 2050000000000000 208C000000000000 -> place 1 reason 2
        -> 10003 0x208C000000000000 is less than the word before, 1001 0x2050000000000000
    page-equal -> 2050000000000000 2050000000000000 -> place 1 reason 3
        -> 1001 0x2050000000000000 is equal to the word before, 1001 0x2050000000000000
    page-length -> 205000000000000020 -> bad length -> its length is not a multiple of 8
    page-children -> 2040000000000000 2050000000000000 2060000000000000 2070000000000000 -> accepted ->
    page-alone -> 2000000000000000 -> accepted ->
    page-never-both -> 2000000000000000 2040000000000000 2050000000000000 2060000000000000 2070000000000000
        -> place 1 reason 4 -> 1000 0x2040000000000000 is inside an earlier one, 100 0x2000000000000000
    page-picture -> 208C000000000000 2050000000000000 2070000000000000 2800000000000000 -> accepted ->
    empty -> -> accepted ->
    degree-25 -> 2000000000000000 2840000000000000 2E40000000000000 -> place 2 reason 1
        -> 0x2E40000000000000 is invalid: a degree, as field or argument, is above 24
    side-600 -> C000000000000000 -> place 0 reason 1 -> 0xC000000000000000 is invalid: a is 0, 6 or 7
    digit-beyond -> 2000000000000000 2850000000000000 3010000000000000 -> place 2 reason 1
        -> 0x3010000000000000 is invalid: a digit beyond the degree is not 0
    corner-name -> 2000000000000003 -> place 0 reason 1 -> 0x2000000000000003 is invalid: the four zero bits are not
        zero, or the corner number does not fit the kind of word
    ancestor-after -> 2040000000000000 2000000000000000 -> place 1 reason 2
        -> 100 0x2000000000000000 is less than the word before, 1000 0x2040000000000000
    less-and-inside -> 2050000000000000 2070000000000000 2098000000000000 -> place 2 reason 2
        -> 10012 0x2098000000000000 is less than the word before, 1003 0x2070000000000000
"""


def cells_page_cases():
    found = {}
    for entry in blocks(CELLS_PAGE_TEXT):
        name, data, line, more = (x.strip() for x in entry.split("->"))
        found[name] = (bytes.fromhex(data), CellsRan(line + "\n", more and f"  {more}\n"))
    return found


CELLS_PAGE = cells_page_cases()

# The file's bytes in hexadecimal digits, those of the mended list, and the lines of the report.
MEND_PAGE_TEXT = """
    mend-page -> B800000000000000 2098000000000000 2050000000000000 0000000000000000 20AC000000000000 2098000000000000
        2040000000000000 20A0000000000000 2050000000000000 2010000000000000 20A8000000000000 2070000000000000
        20A4000000000000
        -> 2000000000000000 B800000000000000
        -> place 1: 10012 0x2098000000000000 is dropped: inside another word
        / place 3: 0x0000000000000000 is dropped: invalid: a is 0, 6 or 7
        / place 5: 10012 0x2098000000000000 is dropped: equal to an earlier word
        / place 8: 1001 0x2050000000000000 is dropped: equal to an earlier word
        / place 9: 0x2010000000000000 is dropped: invalid: a digit beyond the degree is not 0
        / 1002 0x2060000000000000 takes the place of its four children
        / 100 0x2000000000000000 takes the place of its four children
        / words in 13, words out 2; dropped: invalid 2, equal to an earlier word 2, inside another word 1; merges 2
    mend-nothing -> -> -> words in 0, words out 0; dropped: invalid 0, equal to an earlier word 0, inside another word
        0; merges 0
    mend-good -> 208C000000000000 2050000000000000 2070000000000000 2800000000000000
        -> 208C000000000000 2050000000000000 2070000000000000 2800000000000000
        -> words in 4, words out 4; dropped: invalid 0, equal to an earlier word 0, inside another word 0; merges 0
    mend-order -> 2050000000000000 208C000000000000 -> 208C000000000000 2050000000000000
        -> words in 2, words out 2; dropped: invalid 0, equal to an earlier word 0, inside another word 0; merges 0
    mend-length -> 20500000000000002050000000000000 20 -> -> bad length
    mend-four -> 2070000000000000 2060000000000000 2050000000000000 2040000000000000 -> 2000000000000000
        -> 100 0x2000000000000000 takes the place of its four children
        / words in 4, words out 1; dropped: invalid 0, equal to an earlier word 0, inside another word 0; merges 1
    mend-invalid -> 2E40000000000000 C000000000000000 3010000000000000 2000000000000003 C000000000000000 ->
        -> place 0: 0x2E40000000000000 is dropped: invalid: a degree, as field or argument, is above 24
        / place 1: 0xC000000000000000 is dropped: invalid: a is 0, 6 or 7
        / place 2: 0x3010000000000000 is dropped: invalid: a digit beyond the degree is not 0
        / place 3: 0x2000000000000003 is dropped: invalid: the four zero bits are not zero, or the corner number does
        not fit the kind of word
        / place 4: 0xC000000000000000 is dropped: invalid: a is 0, 6 or 7
        / words in 5, words out 0; dropped: invalid 5, equal to an earlier word 0, inside another word 0; merges 0
    mend-copies-inside -> 2070000000000000 2070000000000000 2000000000000000 2070000000000000 2000000000000000
        -> 2000000000000000
        -> place 0: 1003 0x2070000000000000 is dropped: inside another word
        / place 1: 1003 0x2070000000000000 is dropped: equal to an earlier word
        / place 3: 1003 0x2070000000000000 is dropped: equal to an earlier word
        / place 4: 100 0x2000000000000000 is dropped: equal to an earlier word
        / words in 5, words out 1; dropped: invalid 0, equal to an earlier word 3, inside another word 1; merges 0
    mend-deepest-first -> 2070000000000000 2060000000000000 2050000000000000 2040000000000000 B88C000000000000
        B888000000000000 B884000000000000 B880000000000000
        -> 2000000000000000 B840000000000000
        -> 5110 0xB840000000000000 takes the place of its four children
        / 100 0x2000000000000000 takes the place of its four children
        / words in 8, words out 2; dropped: invalid 0, equal to an earlier word 0, inside another word 0; merges 2
    mend-sides -> 3800000000000000 3000000000000000 2800000000000000 2000000000000000
        -> 2000000000000000 2800000000000000 3000000000000000 3800000000000000
        -> words in 4, words out 4; dropped: invalid 0, equal to an earlier word 0, inside another word 0; merges 0
"""


def mend_page_cases():
    found = {}
    for entry in blocks(MEND_PAGE_TEXT):
        name, data, mended, report = (x.strip() for x in entry.split("->"))
        lines = "".join(line + "\n" for line in report.split(" / "))
        found[name] = (bytes.fromhex(data), MendRan(bytes.fromhex(mended), lines))
    return found


MEND_PAGE = mend_page_cases()


# ==== The cases of ./cells: good lists, and such with an offending word


@lru_cache(maxsize=None)
def cell_pool():
    """A long good list. A part of a good list is good too."""
    return good_list(random.Random(92), 9000)


def part_of_pool(chance, many):
    """Words of the pool one after the other, or here and there."""
    start = chance.randint(0, len(cell_pool()) - many)
    here_and_there = sorted(chance.sample(range(len(cell_pool())), many))
    return chance.choice([cell_pool()[start : start + many], [cell_pool()[place] for place in here_and_there]])


# For each reason the damages that can have it, with how many words each adds, and how far before the offending place it
# is done.
OFFENCE_WAYS = {
    1: [(make_invalid, 0, 0), (put_invalid, 1, 0)],
    2: [(exchange, 0, 1), (put_above, 1, 1), (put_inside_before, 1, 1), (repeat_later, 1, 1), (put_inside_later, 1, 1)],
    3: [(repeat, 1, 1)],
    4: [(put_inside, 1, 1), (put_above_before, 1, 1)],
}


def with_offence(chance, many, place, reason):
    """A list of so many words with the reason at the place."""
    while True:
        damage, more, after_it = chance.choice(OFFENCE_WAYS[reason])
        if many > more and 0 <= place - after_it < many - more:
            done = damaged(chance, part_of_pool(chance, many - more), place - after_it, damage)
            if done is not None and done[1] == Offence(place, reason):
                must(len(done[0]) == many, "so many words", many, place, reason)
                return done[0]


def good_cases(chance):
    for many in (1, 2, 3, 10, 64, 500, 511, 512, 513, 1023, 1024, 1025, 2048, 3000, 4094, 4095, 4096):
        yield f"good-{many}", part_of_pool(chance, many)
    for n in (0, 1, 2, 3):
        yield f"whole-degree-{n}", codes_of(n)
    yield "degree-4-but-1024", codes_of(4)[512:4608]
    yield "degree-24", by_path({random_code(chance, DEEPEST) for _ in range(1500)})
    every = [code for side in codes_of(0) for code in covering(chance, side, chance.choice([0, 3, 11, DEEPEST]))]
    yield "whole-globe", every
    words = [make_code((1, 0, 0), [0] * n + [1]) for n in range(DEEPEST)][::-1]
    must(sorted(words, reverse=True) == words, "they fall as 64-bit words", words)
    yield "words-fall", words


PLACE_COUNTS = (1, 2, 3, 10, 500, 4095, 4096)


def place_cases(chance):
    """Each reason at the first place that it can have, a middle and the last one."""
    for many, reason in itertools.product(PLACE_COUNTS, (1, 2, 3, 4)):
        least = 0 if reason == 1 else 1
        if many > least:
            for place, name in {(many + least) // 2: "middle", least: "first", many - 1: "last"}.items():
                yield f"reason-{reason}-{name}-of-{many}", with_offence(chance, many, place, reason)
    # Where a buffer may end.
    for place, reason in itertools.product((512, 1024, 2048), (1, 2, 3, 4)):
        yield f"reason-{reason}-at-{place}", with_offence(chance, 3000, place, reason)


def invalid_cases(chance):
    """Each field broken, alone at the first, a middle and the last place, and with each other one."""
    for breaks in alone_and_in_pairs(CODE_BREAKS):
        for place in ((), (0, 5, 10), (5,))[len(breaks)]:
            words = part_of_pool(chance, 11)
            words[place] = broken(random_code(chance, chance.randrange(DEEPEST)), breaks, chance)
            name = "-".join(one.__name__.replace("break_", "").replace("_", "-") for one in breaks)
            yield f"invalid-{name}-at-{place}", words


def reason_cases(chance):
    """Several reasons at one place, and several offending places."""
    for damage in ORDER_DAMAGES:
        name = damage.__name__.replace("_", "-")
        done = None
        while done is None:
            done = damaged(chance, part_of_pool(chance, 20), chance.randrange(2, 19), damage)
        yield f"invalid-and-{name}", also_invalid(chance, done, chance.choice([break_a, break_zero_bits]))
        words, found = done
        yield f"twice-{name}", put_in(words, found.place, words[found.place])
        yield f"after-zero-{name}", [0] + words
    for at in range(40):
        words = part_of_pool(chance, chance.choice([2, 5, 30, 600]))
        yield f"damaged-{at}", damaged_often(chance, words, 1 + at % 4)


def order_cases(chance):
    """Lists that rise as 64-bit words, which is not the order of the tree, also with the only offence in the last
    place. Lists turned round, and shuffled; and one word often."""
    for many in (3, 20, 700, 4096):
        words = part_of_pool(chance, many)
        while sorted(words) == words:
            words = part_of_pool(chance, many)
        yield f"as-64-bit-words-{many}", sorted(words)
        yield f"turned-round-{many}", words[::-1]
        yield f"shuffled-{many}", chance.sample(words, many)
    yield "as-64-bit-words-to-degree-3", sorted(walk_all(3))
    for reason, last in {2: "51100", 4: "51130"}.items():
        words = [*codes_of(3)[:-64], *map(read_triangle, ("5113", last))]
        must(sorted(words) == words, "as 64-bit words", words)
        yield f"as-64-bit-words-reason-{reason}-last", words
    yield "walk-to-degree-3", walk_all(3)
    yield "walk-turned-round", walk_all(3)[::-1]
    yield "one-word-4096", [chance.choice(cell_pool())] * 4096
    yield "list-twice", part_of_pool(chance, 50) * 2
    down = [make_code((1, 1, 1), [2] * n) for n in range(DEEPEST + 1)]
    yield from [("down-one-path", down), ("up-one-path", down[::-1])]


# ==== The cases of ./cells: lengths, and any bytes


def any_bytes(chance, length):
    return bytes(chance.getrandbits(8) for _ in range(length))


def any_file(chance, length):
    """So many bytes: of a good list, of one with an offending word at its beginning, any, zeros, or all bits set."""
    many = length // 8 + 1
    good = (cell_pool() if many <= len(cell_pool()) else codes_of(6))[:many]
    some = [file_of(good), file_of(good[1::-1] + good[2:]), any_bytes(chance, 64) * (length // 64 + 1)]
    return chance.choice([*some[:1], *some, bytes(length), b"\xff" * length])[:length]


def length_cases(chance):
    """1 to 7 bytes over a whole number of words; and more than 4,096 words, whatever they are."""
    for many in (0, 1, 2, 4095, 4096, 4097, 5000):
        for over in range(1, 8):
            yield f"words-{many}-and-{over}-bytes", any_file(chance, 8 * many + over)
    pool = cell_pool()
    yield "good-4097", file_of(pool[:4097])
    yield "good-4098", file_of(pool[-4098:])
    yield "good-5000", file_of(pool[1000:6000])
    yield "good-8192", file_of(pool[:8192])
    yield "good-9000", file_of(pool)
    yield "whole-degree-4", file_of(codes_of(4))
    yield "whole-degree-5", file_of(codes_of(5))
    for place, reason in itertools.product((1, 4096), (1, 2, 3, 4)):
        yield f"words-4097-reason-{reason}-at-{place}", file_of(with_offence(chance, 4097, place, reason))
    for name, byte in {"zeros": b"\0", "all-bits": b"\xff"}.items():
        for length in (8, 80, 32_768, 32_775, 32_776):
            yield f"{name}-{length}", byte * length
    for length in (32_760, 32_768, 32_776, *(65_536 + k for k in (-8, -7, -4, -1, 0, 1, 4, 7, 8))):
        yield f"bytes-{length}", any_file(chance, length)
    for over in range(8):
        yield f"bytes-{300_000 + over}", any_file(chance, 300_000 + over)


def byte_cases(chance):
    """Random bytes, also with a code's low bits in each word. Lists with the last byte of each word first. Texts."""
    for length in (8, 16, 24, 80, 800, 8000, 32_768):
        yield f"random-{length}", any_bytes(chance, length)
    for length in (1, 5, 12, 801, 8004, 32_775):
        yield f"random-{length}", any_bytes(chance, length)
    for many in (1, 10, 400):
        words = [chance.getrandbits(64) & ~63 & ~(31 << 54) | DEEPEST << 54 for _ in range(many)]
        yield f"random-degree-24-{many}", file_of(words)
    for many in (1, 2, 10, 500, 4096):
        yield f"last-byte-first-{many}", b"".join(word.to_bytes(8, "little") for word in part_of_pool(chance, many))
    halves = [(word & 2**32 - 1) << 32 | word >> 32 for word in part_of_pool(chance, 100)]
    yield "last-half-first", file_of(halves)
    words = part_of_pool(chance, 12)
    yield "one-byte-late", b"\0" + file_of(words)[:-1]
    yield "one-byte-early", file_of(words)[1:] + b"\0"
    yield "line-end-after", file_of(words) + b"\n"
    yield "text-of-codes", "".join(triangle_text(word) + "\n" for word in words).encode()
    yield "text-of-words", "".join(word_text(word) + "\n" for word in words).encode()
    yield "text-of-digits", "".join(f"{word:016X}" for word in words).encode()
    yield "eight-line-ends", b"\n" * 8
    yield "accepted", b"accepted"


# ==== The cases of ./cells: lists to be mended


def long_mend_lists(chance):
    """Of 4,096 words, or almost as many: all that one triangle is, evenly divided, with none missing, one, or one that
    is replaced by another again; anything of degree 24; copies; nothing valid; nested lists; parts divided along one
    path, or again and again, and spoiled."""
    six, deep = all_below(chance.choice(codes_of(0)), 6), all_below(random_code(chance, 18), DEEPEST)
    yield "degree-6-shuffled", shuffled(chance, six)
    yield "degree-6-falling", six[::-1]
    yield "degree-6-but-one", shuffled(chance, six)[1:]
    yield "degree-6-one-again", shuffled(chance, six[1:] + [six[700]])
    yield "degree-6-one-invalid", shuffled(chance, six[1:] + [invalid_word(chance, six[0])])
    yield "degree-24-shuffled", shuffled(chance, deep)
    yield "degree-24-but-one", shuffled(chance, deep)[1:]
    some = [make_code(chance.choice(SIDES), chance.choices(range(4), k=DEEPEST)) for _ in range(MOST_WORDS)]
    yield "degree-24-any", some
    yield "degree-24-any-falling", by_path(some)[::-1]
    yield "any-falling", part_of_pool(chance, MOST_WORDS)[::-1]
    yield "copies-of-five", chance.choices(part_of_pool(chance, 5), k=MOST_WORDS)
    yield "each-word-twice", shuffled(chance, part_of_pool(chance, MOST_WORDS // 2) * 2)
    yield "nothing-valid", [invalid_word(chance, code) for code in part_of_pool(chance, MOST_WORDS)]
    yield "nothing-valid-copies", [invalid_word(chance, random_code(chance, 9))] * MOST_WORDS
    yield "any-words", [chance.getrandbits(64) for _ in range(MOST_WORDS)]
    chains = [[*climbed(code), code] for code in (random_code(chance, DEEPEST) for _ in range(163))]
    yield "chains-shuffled", shuffled(chance, flat(chains))
    yield "chains-falling", flat(chains)
    trees = flat(walk(side, 5) for side in chance.sample(codes_of(0), 3))
    yield "all-to-degree-5", shuffled(chance, trees)
    yield "all-but-sides-to-degree-5", shuffled(chance, [code for code in trees if degree_of(code) > 0])
    ones = flat(map(child_codes, chance.sample(codes_of(0), 14)))
    paths = flat(covering(chance, code, DEEPEST) for code in ones)
    yield "paths-to-degree-24", shuffled(chance, paths)
    yield "paths-to-degree-24-but-some", shuffled(chance, paths)[40:]
    globe = flat(divided(chance, side, 202) for side in codes_of(0))
    yield "divided-globe", shuffled(chance, globe)
    yield "divided-globe-spoiled", spoiled(chance, globe[:3900], 150)
    good = [code for code in part_of_pool(chance, MOST_WORDS // 2) if degree_of(code) < DEEPEST]
    yield "all-with-one-inside", shuffled(chance, good + [descendant(chance, code) for code in good])


def through_all_degrees(chance):
    """A side divided along one path to degree 24, which is merged at every degree; and with something else, or with one
    missing, at the deepest, some or the shallowest degree."""
    side = chance.choice(codes_of(0))
    words = covering(chance, side, DEEPEST)
    yield "rising", words
    yield "falling", words[::-1]
    yield "shuffled", shuffled(chance, words)
    yield "twice", shuffled(chance, words * 2)
    yield "with-the-side", shuffled(chance, words + [side])
    yield "with-all-above", shuffled(chance, words + list(climbed(max(words, key=degree_of))))
    yield "with-one-inside", shuffled(chance, words + [descendant(chance, min(words, key=degree_of))])
    for n in (1, 2, 6, 12, 23, 24):
        one = chance.choice([code for code in words if degree_of(code) == n])
        rest = [code for code in words if code != one]
        yield f"but-one-of-degree-{n}", shuffled(chance, rest)
        yield f"one-of-degree-{n}-invalid", shuffled(chance, rest + [invalid_word(chance, one)])
    for digit in range(4):
        down = [make_code((4, 0, 1), [digit] * n) for n in range(DEEPEST + 1)]
        beside = [code for top in down[:-1] for code in child_codes(top) if code not in down]
        yield f"digit-{digit}-always", shuffled(chance, beside + down[-1:])


def mend_cases(chance):
    """The longest lists; all degrees; and some lists of each kind."""
    yield from ((f"mend-{name}", words) for name, words in long_mend_lists(chance))
    yield from ((f"mend-all-degrees-{name}", words) for name, words in through_all_degrees(chance))
    for kind in MEND_KINDS.values():
        name = kind.__name__.replace("_", "-")
        lists = sorted(chance.sample(list(kind(chance)), 6), key=len)
        yield from ((f"mend-{name}-{at}", words) for at, words in enumerate(lists))
    for many in (1, 2, 3, 5, 17, 64, 1000):
        yield f"mend-spoiled-{many}", spoiled(chance, part_of_pool(chance, many), many)


def cells_cases():
    chance = random.Random(93)
    found = {name: data for name, (data, _) in (CELLS_PAGE | MEND_PAGE).items()}
    of_words = (good_cases, place_cases, invalid_cases, reason_cases, order_cases)
    made = [(name, file_of(words)) for make in of_words for name, words in make(chance)]
    others = [*length_cases(chance), *byte_cases(chance)]
    others += [(name, file_of(words)) for name, words in mend_cases(random.Random(131))]
    for name, data in [*made, *others]:
        must(name not in found and re.fullmatch("[-0-9a-z]+", name), "a name of its own", name)
        found[name] = data
    return found


# ==== Internal checks of what ./cells writes

CELLS_PLACE = re.compile("place (0|[1-9][0-9]*) reason ([1-4])\n")
CELLS_MORE = re.compile(
    "  (?:([1-5][01][01][0-3]*) )?0x([0-9A-F]{16}) is (invalid|less than the word before|equal to the word before|"
    "inside an earlier one)(?:: (.*)|, ([1-5][01][01][0-3]*) 0x([0-9A-F]{16}))\n"
)


def check_more(words, place, reason, more):
    """The second line tells the word at the place, and the word before or its refusal."""
    text, word, told, refusal, before_text, before = CELLS_MORE.fullmatch(more).groups()
    must(int(word, 16) == words[place] and told == REASONS[reason], "the word", more)
    if reason == 1:
        must(text is None and answer(f"check 0x{word}").split(": ", 1)[1] == refusal, "as check says it", more)
        return
    must(answer(f"check {text}") == answer(f"check {before_text}") == "ok", "codes", more)
    must(read_code(text) == words[place] and read_code(before_text) == words[place - 1], "as document 01 writes", more)
    must(int(before, 16) == words[place - 1], "the word before", more)


def check_cells_case(data, ran):
    """A file is accepted exactly when it has at most 4,096 whole words and the three conditions hold of them."""
    words = [int.from_bytes(data[k : k + 8], "big") for k in range(0, len(data), 8)]
    is_good = len(data) in range(0, 32_769, 8) and three_hold(words)
    must((ran.line == "accepted\n") == is_good == (ran.more == ""), "accepted", len(data), ran)
    if not is_good:
        told = CELLS_PLACE.fullmatch(ran.line)
        if told is None:
            must(ran.line == ("bad length\n" if len(data) & 7 else "too long\n"), "the length", len(data), ran)
            must(len(data) & 7 or len(data) > 32_768, "the length", len(data), ran)
        else:
            place, reason = map(int, told.groups())
            check_offence(words, place, reason)
            check_more(words, place, reason, ran.more)


def check_cases_met(cases, ran):
    """Each line, with every place and reason that a list of 4,096 words ends with or begins with; the words of every
    refusal; and each number of bytes beyond whole words, in short and in long files."""
    lines = {(len(data) // 8, ran[name].line) for name, data in cases.items()}
    for reason in (1, 2, 3, 4):
        ends = {(4096, f"place {place} reason {reason}\n") for place in (1 - (reason == 1), 2048, 4095)}
        must(ends | {(1, "place 0 reason 1\n")} <= lines, "every reason", reason)
    must({(many, "accepted\n") for many in (0, 1, 4095, 4096)} | {(4097, "too long\n")} <= lines, "every length")
    for many in (0, 1, 4095, 4096, 4097, 37_500):
        over = {len(data) % 8 for data in cases.values() if len(data) // 8 == many}
        must(over == set(range(8)), "bytes beyond whole words", many, over)
    told = {x.more.split(": ", 1)[1] for x in ran.values() if "invalid" in x.more}
    must(told == {REFUSALS[no] + "\n" for no in (1, 2, 3, 4)}, "every refusal", told)


MEND_DROPPED = re.compile(
    "place (0|[1-9][0-9]*): (?:([1-5][01][01][0-3]*) )?0x([0-9A-F]{16}) is dropped: "
    "(?:invalid: (.*)|(equal to an earlier word|inside another word))"
)
MEND_MERGED = re.compile("([1-5][01][01][0-3]*) 0x([0-9A-F]{16}) takes the place of its four children")
MEND_COUNTS = re.compile(
    "words in N, words out N; dropped: invalid N, equal to an earlier word N, inside another word N; merges N".replace(
        "N", "(0|[1-9][0-9]*)"
    )
)
REASON_OF = {"equal to an earlier word": 3, "inside another word": 4}


def read_dropped(words, line):
    """The place and the reason, of a line that tells a dropped word as it stands there."""
    place, text, word, refusal, told = MEND_DROPPED.fullmatch(line).groups()
    must(int(word, 16) == words[int(place)], "the word at the place", line)
    if told is None:
        must(text is None and answer(f"check 0x{word}").split(": ", 1)[1] == refusal, "as check says it", line)
    else:
        must(read_code(text) == int(word, 16) and answer(f"check {text}") == "ok", "as document 01 writes it", line)
    return int(place), REASON_OF.get(told, 1)


def check_mend_case(data, ran):
    """The report, line by line, and what is promised of the mended list; if there is one."""
    if len(data) & 7 or len(data) > 32_768:
        must(ran == MendRan(b"", "bad length\n" if len(data) & 7 else "too long\n"), "the length", len(data), ran)
        return None
    words = numbers_in(data.hex())
    *lines, last = ran.report.removesuffix("\n").split("\n")
    many = sum(line.startswith("place ") for line in lines)
    dropped = [read_dropped(words, line) for line in lines[:many]]
    must([place for place, _ in dropped] == sorted({place for place, _ in dropped}), "in the order of the file", ran)
    parents = []
    for line in lines[many:]:
        text, word = MEND_MERGED.fullmatch(line).groups()
        must(read_code(text) == int(word, 16), "as document 01 writes it", line)
        parents.append(int(word, 16))
    codes, reasons = numbers_in(ran.mended.hex()), [reason for _, reason in dropped]
    counts = [len(words), len(codes), *map(reasons.count, (1, 3, 4)), len(parents)]
    must(list(map(int, MEND_COUNTS.fullmatch(last).groups())) == counts, "the counts", last)
    changed = [words[place] for place, _ in dropped] + parents
    return MendSeen(words, *check_mended(words, codes, changed, reasons + [5] * len(parents)))


def check_mend_cases(cases, mended):
    """Every case; what is met by them; and that a list that is accepted and has no four children stays as it is."""
    seen = [x for x in (check_mend_case(data, mended[name]) for name, data in cases.items()) if x]
    check_mends_met(seen, 24)
    must({len(x.words) for x in seen} >= {0, 1, 4095, 4096}, "every length")
    must({len(ran.mended) // 8 for ran in mended.values()} >= {0, 1, 4096}, "every length of a mended list")
    must({len(x.parents) for x in seen} >= {0, 1, 24, 1365}, "how many merges")


def check_cells_page():
    for name, (data, ran) in CELLS_PAGE.items():
        must(run_cells(data) == ran, "by hand", name, run_cells(data))
    for name, (data, ran) in MEND_PAGE.items():
        must(run_mend(data) == ran, "by hand", name, run_mend(data))
    # The last one that docs/CELLS.md shows; the file is too long to be written by hand.
    must(run_cells(bytes(32_776)) == CellsRan("too long\n", "  it has more than 4096 words\n"), "by hand")
    must(run_mend(bytes(32_776)) == MendRan(b"", "too long\n"), "by hand")
    must(run_mend(bytes(32_777)) == MendRan(b"", "bad length\n"), "by hand")
    must(three_hold(cell_pool()) and first_offence(cell_pool()) is None, "the pool is good")


# ==== Writing the two files

SECTIONS = {
    "examples": example_calls,
    "every triangle to degree 5": every_triangle,
    "every corner to degree 5": every_corner,
    "other words than names": other_words,
    "drawing to degree 5": every_drawing,
    "parent to degree 5, child to degree 4": every_step,
    "directions": direction_calls,
    "in the middle of every triangle to degree 5": every_middle,
    "on edges and corners to degree 5": every_edge,
    "degrees 6 to 24": deep_calls,
    "refusals": refusal_calls,
    "unreadable arguments": unreadable_calls,
    "unknown calls": unknown_calls,
    "empty lines": empty_lines,
    "spaced lines": spaced_lines,
    "long lines": long_lines,
    "opposite corners, degrees 6 to 24": opposite_calls,
    "t close to a half or a whole number": close_calls,
    "sweeps, examples": SWEEP_EXAMPLES.keys,
    "sweeps of every length": sweep_lengths,
    "sweeps at every degree": sweep_degrees,
    "sweeps in parts": sweep_parts,
    "sweeps with refused directions": refused_places,
    "sweeps at the bounds of coordinates": swept_bounds,
    "refused sweeps": refused_sweeps,
    "unreadable sweeps": unreadable_sweeps,
    "spaced sweeps": spaced_sweeps,
    "lists of cells, examples": CELLS_EXAMPLES.keys,
    "one cell": one_cell,
    "two cells": two_cells,
    "two cells of every two degrees": two_degrees,
    "two cells that part at every digit": every_digit,
    "every list of a few cells": every_few,
    "good lists of cells": good_cells,
    "lists of cells damaged in one place": damaged_cells,
    "several reasons at one place": several_reasons,
    "several offending places": several_offences,
    "lists of cells as long as a line": long_cells,
    "unreadable lists of cells": unreadable_cells,
    "spaced lists of cells": spaced_cells,
    "lists to be mended, examples": MEND_EXAMPLES.keys,
    "every list of a few cells, mended": mended_few,
    **{f"to be mended: {name}": mend_lines(kind, 111 + at) for at, (name, kind) in enumerate(MEND_KINDS.items())},
    "lists to be mended and lent lists of every length": mend_lengths,
    "lists to be mended as long as a line": long_mends,
    "unreadable lists to be mended": unreadable_mends,
    "spaced lists to be mended": spaced_mends,
    "small words, examples": SMALL_EXAMPLES.keys,
    "small words of every code to degree 4": every_small,
    "small words over the edges": small_crossings,
    "small words of degrees 5 to 24": deep_smalls,
    "small words with one bit turned over": turned_small_bits,
    "damaged small words": damaged_smalls,
    "any small words": any_smalls,
    "words to be written small": written_small,
    "directions filed small": filed_small,
    "unreadable small words": unreadable_smalls,
    "spaced small words": spaced_smalls,
    "opposites, examples": OPPOSITE_EXAMPLES.keys,
    "opposites of every triangle and every corner to degree 5": every_opposite,
    "opposites of degrees 6 to 24, and across the edges": deep_opposites,
    "opposites of all that hold a direction": opposite_directions,
    "opposites of damaged words": damaged_opposites,
    "opposites of other words than names": opposites_of_others,
    "unreadable opposites": unreadable_opposites,
    "spaced opposites": spaced_opposites,
    "the paper's codes, examples": PAPER_EXAMPLES.keys,
    "the paper's codes of every triangle and every corner to degree 5": every_paper,
    "the paper's codes of degrees 6 to 24": deep_papers,
    "the paper's codes of damaged words": damaged_for_paper,
    "the paper's codes of other words than names": others_for_paper,
    "the paper's codes and lent lists of every length": paper_places,
    "all short codes of the paper": short_papers,
    "codes of the paper of every length": paper_lengths,
    "codes of the paper with one digit damaged": damaged_papers,
    "damaged codes of poles": damaged_poles,
    "unreadable codes of the paper": unreadable_papers,
    "spaced codes of the paper": spaced_papers,
    "the last line without a table": last_without_table,
    "no table is open": before_any_table,
    "unreadable lines on a table": unreadable_on_table,
    "readable lines on a table": readable_on_table,
    "a day at the ice desk": ice_desk_calls,
    "a morning of both desks": both_desks_calls,
    "the wide chart's counts and sums": coarse_story_calls,
    "every place of the tables of degree 0 to 3": every_place,
    "every place of a table of degree 4": every_place_of_four,
    "one place alone": lone_places,
    "some places of the tables of degree 3 to 6": some_places,
    "histories": history_calls,
    "refusals of a table, alone and in pairs": table_refusal_calls,
    "bad numbers": bad_number_calls,
    "other lengths": other_lengths,
    "other degrees": other_degrees,
    "many places in one line": many_places,
    "a table that stays open": staying_calls,
    "what each desk may do": desk_rights,
    "a place that goes from desk to desk": turns,
    "numbers that are no desks": no_desks,
    "other lengths of owners": owner_lengths,
    "other numbers among the owners": other_owners,
    "counts and sums that are off": off_calls,
    "other lengths of counts and sums": parent_lengths,
    "counts and sums at other degrees": parents_of_other_degrees,
    "many parents in one line": many_parents,
    "sweeps while a table is open": sweeps_on_table,
    "lists of cells while a table is open": cells_on_table,
    "lists to be mended while a table is open": mends_on_table,
    "small words while a table is open": smalls_on_table,
    "opposites while a table is open": opposites_on_table,
    "the paper's codes while a table is open": papers_on_table,
    "full tables": full_tables,
    "the last line": last_line,
}


def write_bytes(path, text):
    with open(path, "wb") as out:
        out.write(text.encode("latin-1"))


def calls_of(sections):
    calls = []
    for section, make in sections.items():
        lines = list(make())
        calls += lines
        print(f"{len(lines):8} {section}")
    print(f"{len(calls):8} lines")
    must(not any("\n" in line for line in calls), "one line each")
    return calls


def write_files(calls_path, answers_path):
    internal_checks()
    calls = calls_of(SECTIONS)
    answers = answers_to(calls)
    filed, listed = directions_answered(calls, answers)
    check_answers(filed, listed)
    check_soundings(calls, answers)
    check_totals(calls, answers)
    check_sweeps(calls, answers)
    check_cell_lists(calls, answers)
    check_mend_lists(calls, answers)
    check_smalls(calls, answers)
    check_opposite_answers(calls, answers, filed, listed)
    check_paper_answers(calls, answers)
    write_bytes(calls_path, "\n".join(calls))
    write_bytes(answers_path, "\n".join([*answers, ""]))


def answer_input(answer_line):
    text = sys.stdin.buffer.read().decode("latin-1")
    lines = text.split("\n")
    for line in lines if lines[-1] else lines[:-1]:
        sys.stdout.buffer.write((answer_line(line) + "\n").encode("latin-1"))


# ==== Writing the plotter host's two files

HOST_SECTIONS = {
    "examples": HOST_EXAMPLES.keys,
    "every triangle to degree 4 over each edge": host_crossings,
    "every code, and every word for a corner, to degree 4": host_words,
    "over the edges and round the corners, degrees 0 to 24": host_rounds,
    "one bit turned over": turned_bits,
    "damaged words": damaged_words,
    "any words": any_words,
    "outside edges": outside_edges,
    "directions": host_directions,
    "in the middle of triangles, on edges and corners": host_places,
    "outside degrees and directions": outside_directions,
    "slices of every length": every_slice,
    "slices filled in every way": every_first,
    "sweeps of every length": host_sweep_lengths,
    "sweeps into slices of every length": host_sweep_slices,
    "sweeps at every degree": host_sweep_degrees,
    "sweeps with refused directions": host_sweep_places,
    "refused sweeps": host_sweep_refusals,
    "sweeps into slices filled in every way": host_sweep_first,
    "lists of cells": host_cell_lists,
    "lists of cells and slices of every length": host_cell_slices,
    "the longest lists of cells": host_long_lists,
    "lists to be mended": host_mends,
    "lists to be mended and slices of every length": host_mend_slices,
    "lists to be mended that are refused": host_mend_refusals,
    "the longest lists to be mended": host_long_mends,
    "lists of cells and slices filled in every way": host_cells_first,
    "small words to degree 3": host_small_words,
    "small words of degrees 3 to 24": host_small_rounds,
    "small words with one bit turned over": host_turned_smalls,
    "damaged and any small words": host_damaged_smalls,
    "words to be written small": host_written_small,
    "directions filed small": host_filed_small,
    "small words and slices of every length": host_small_slices,
    "small words and slices filled in every way": host_small_first,
    "opposites of every triangle to degree 4 and every corner to degree 3": host_opposites,
    "opposites, degrees 0 to 24": host_deep_opposites,
    "opposites of damaged and any words": host_damaged_opposites,
    "opposites and slices of every length": host_opposite_slices,
    "opposites and slices filled in every way": host_opposite_first,
}


def write_host_files(calls_path, answers_path):
    # The holders are searched as for the console, whose internal checks compare the two ways of searching them.
    check_signs()
    check_child_codes()
    for n in range(HOST_WHOLE + 1):
        check_degree(n)
    check_search()
    check_examples()
    check_host_examples()
    calls = calls_of(HOST_SECTIONS)
    records = [(asked, host_text(asked)) for asked in map(read_host_line, calls)]
    check_host_answers(calls, records)
    write_bytes(calls_path, "\n".join([*calls, ""]))
    write_bytes(answers_path, "\n".join([*(text for _, text in records), ""]))


# ==== Writing the cases of ./sweep


def write_cases(folder):
    # The holders are searched as for the console, whose internal checks compare the two ways of searching them.
    check_signs()
    check_examples()
    check_sweep_lines()
    check_page()
    os.makedirs(folder, exist_ok=True)
    cases = sweep_cases()
    for name, case in cases.items():
        ran = run_sweep(case)
        check_case(case, ran)
        parts = {"args": "".join(x + "\n" for x in case.arguments), "in": case.data}
        parts |= {"out": ran.out, "err": ran.err, "status": f"{ran.status}\n"}
        for end, text in parts.items():
            write_bytes(os.path.join(folder, f"{name}.{end}"), text)
        lines = ran.out.count("\n")
        print(f"{lines:8} {name}")
    print(f"{len(cases):8} cases")


# ==== Writing the cases of ./cells


def write_cells_cases(folder):
    check_cell_order()
    check_cell_lines()
    check_mend_lines()
    check_cells_page()
    os.makedirs(folder, exist_ok=True)
    cases = cells_cases()
    ran = {name: run_cells(data) for name, data in cases.items()}
    mended = {name: run_mend(data) for name, data in cases.items()}
    check_cases_met(cases, ran)
    check_mend_cases(cases, mended)
    for name, data in cases.items():
        check_cells_case(data, ran[name])
        parts = {"bin": data.decode("latin-1"), **ran[name]._asdict()}
        parts |= {"mended": mended[name].mended.decode("latin-1"), "report": mended[name].report}
        for end, text in parts.items():
            write_bytes(os.path.join(folder, f"{name}.{end}"), text)
    print(f"{len(cases):8} cases of ./cells")


if __name__ == "__main__":
    gc.disable()  # There is next to nothing to be found: all that is made here is freed by its count, or stays.
    if sys.argv[1:] == ["--answer"]:
        answer_input(answer)
    elif sys.argv[1:] == ["--host-answer"]:
        answer_input(host_answer)
    elif len(sys.argv) == 4 and sys.argv[1] == "--host":
        write_host_files(sys.argv[2], sys.argv[3])
    elif len(sys.argv) == 3 and sys.argv[1] == "--sweep":
        write_cases(sys.argv[2])
    elif len(sys.argv) == 3 and sys.argv[1] == "--cells":
        write_cells_cases(sys.argv[2])
    elif len(sys.argv) == 3:
        write_files(sys.argv[1], sys.argv[2])
    else:
        sys.exit(__doc__)
