"""The instrument and its numbers: kinds, sizes, fixed points, neighbours, Laplacian, stability.

A grid is written (kind, columns, rows), settings are written (q, m, s).
"""

from functools import lru_cache

# "Settings are whole numbers over D = 65536", "Each is 0..65536".
D = 65536
# "The ceiling is 32767 x 2^28".
CEILING = 32767 * 2**28

KINDS = range(1, 8)
LINE_KINDS = range(1, 5)
# The drumheads and the plate: the kinds with more than one row.
GRID_KINDS = range(5, 8)
# "rectangular membrane"; "thin rectangular plates": "sizes as kind 5", "its outer ring fixed".
RECTANGULAR_KINDS = (5, 7)
# "Only kind 4 may have m above 0"; for kind 7 "m may now be above 0 here too".
STIFF_KINDS = (4, 7)
# "Stable means: kinds 1 to 3, q <= 65536; kind 4, q + 4m <= 65536; kinds 5 and 6, 2q <= 65536";
# for kind 7 "Stable is 2q + 16m <= 65536". By kind: how often q and m count.
STABILITY = {1: (1, 0), 2: (1, 0), 3: (1, 0), 4: (1, 4), 5: (2, 0), 6: (2, 0), 7: (2, 16)}


def size_in_table(kind, columns, rows):
    """The table's column "columns x rows", for a known kind."""
    if kind in LINE_KINDS:
        return 3 <= columns <= 1024 and rows == 1
    if kind in RECTANGULAR_KINDS:
        return 3 <= columns <= 64 and 3 <= rows <= 64
    return 3 <= columns <= 64 and rows == columns


def is_fixed(kind, columns, rows, point):
    """"Fixed points are the ends named above, the outer ring of kind 5, and in kind 6 ..."; kind 7: "its outer ring fixed"."""
    column, row = point % columns, point // columns
    if kind in (1, 4):
        return point in (0, columns - 1)
    if kind == 2:
        return point == 0
    if kind == 3:
        return False
    if kind in RECTANGULAR_KINDS:
        return column in (0, columns - 1) or row in (0, rows - 1)
    return (2 * column - columns + 1) ** 2 + (2 * row - columns + 1) ** 2 >= (columns - 1) ** 2


def free_ends(kind, columns):
    """Kind 2: "point 0 fixed, last free"; kind 3: "both ends free"."""
    return {2: (columns - 1,), 3: (0, columns - 1)}.get(kind, ())


def neighbours(columns, rows, point):
    """The grid points beside, above and below; "point numbers count from 0, row by row"."""
    column, row = point % columns, point // columns
    near = []
    if row > 0:
        near.append(point - columns)
    if column > 0:
        near.append(point - 1)
    if column < columns - 1:
        near.append(point + 1)
    if row < rows - 1:
        near.append(point + columns)
    return tuple(near)


@lru_cache(maxsize=256)
def moving(kind, columns, rows):
    """The moving points with their neighbours: "The rest move"."""
    return tuple((point, neighbours(columns, rows, point))
                 for point in range(columns * rows) if not is_fixed(kind, columns, rows, point))


@lru_cache(maxsize=256)
def moving_set(kind, columns, rows):
    return frozenset(point for point, _ in moving(kind, columns, rows))


@lru_cache(maxsize=256)
def moving_neighbours(kind, columns, rows):
    """{moving point: its neighbours}."""
    return dict(moving(kind, columns, rows))


@lru_cache(maxsize=256)
def fixed_points(kind, columns, rows):
    return tuple(point for point in range(columns * rows) if is_fixed(kind, columns, rows, point))


@lru_cache(maxsize=256)
def pairs(columns, rows):
    """The neighbouring pairs of the whole grid: "Pairs include fixed points"."""
    return tuple((point, other) for point in range(columns * rows)
                 for other in neighbours(columns, rows, point) if other > point)


def laplacian(level, point, near):
    """"L is the sum of the neighbours minus their count times u"; a free end has one neighbour."""
    u = level[point]
    if len(near) == 1:
        # "At a free end L is twice (the one neighbour minus u)".
        return 2 * (level[near[0]] - u)
    total = 0
    for other in near:
        total += level[other]
    return total - len(near) * u


def laplacians(grid, level):
    """L at every moving point, and 0 at the fixed ones."""
    result = [0] * len(level)
    for point, near in moving(*grid):
        result[point] = laplacian(level, point, near)
    return result


def laplacian_at(grid, level, point):
    """L at one point, 0 at a fixed one."""
    near = moving_neighbours(*grid).get(point)
    return laplacian(level, point, near) if near else 0


def laplacian_twice_at(grid, level, point):
    """L taken of L at one moving point: L of the point and of its neighbours is all that is held."""
    near = moving_neighbours(*grid)[point]
    first = {other: laplacian_at(grid, level, other) for other in (point, *near)}
    return laplacian(first, point, near)


def stable(kind, q, m):
    """"Stable means: ..."."""
    times_q, times_m = STABILITY[kind]
    return times_q * q + times_m * m <= D
