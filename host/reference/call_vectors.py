"""The records of calls.txt; Records and some cases serve in_place.txt too."""

import calls
from draws import EDGES, SIGNED_EDGES, U64, Draws, largest_m, largest_q, same_size_grids, to_bits
from instrument import CEILING, D, KINDS, LINE_KINDS, STIFF_KINDS, fixed_points, moving

HIGH, LOW = CEILING + 1, -CEILING - 1
LOWEST, HIGHEST = -2**63, 2**63 - 1
PLATES = ((7, 3, 3), (7, 6, 5))
SMALL = ((1, 3, 1), (1, 4, 1), (1, 7, 1), (2, 3, 1), (2, 6, 1), (2, 9, 1), (3, 3, 1), (3, 5, 1), (3, 8, 1),
         (4, 3, 1), (4, 4, 1), (4, 5, 1), (4, 11, 1), (5, 3, 3), (5, 3, 4), (5, 5, 3), (5, 7, 4), (5, 6, 6),
         (6, 3, 3), (6, 4, 4), (6, 5, 5), (6, 7, 7), (6, 8, 8), (6, 9, 9), *PLATES)
LARGE = ((1, 1023, 1), (2, 1023, 1), (3, 1023, 1), (4, 1023, 1), (5, 64, 3), (5, 3, 64), (5, 63, 64), (6, 63, 63),
         (7, 64, 3), (7, 3, 64), (7, 64, 64))
LARGEST = ((1, 1024, 1), (2, 1024, 1), (3, 1024, 1), (4, 1024, 1), (5, 64, 64), (6, 64, 64))


class Records(list):
    """Records, the lent buffers as they stand after them, and the last block's count of inexact points."""

    def __init__(self):
        self.lent = [[], [], [], []]
        self.inexact = None

    def lend(self, *buffers):
        """older, newer, work, samples; only those that differ are written."""
        for which, values in enumerate(buffers):
            if values is not None and values != self.lent[which]:
                self.lent[which] = list(values)
                self.append((1, which, len(values), *values))

    def check(self, buffers=range(4)):
        for which in buffers:
            self.append((2, which, len(self.lent[which]), *self.lent[which]))

    def played(self, opcode, instrument, pick_up, hit, unused, answer, buffers):
        """The record of a block and of the buffers that it took; (steps, refusal)."""
        self.append((opcode, *instrument, pick_up, int(hit is not None), *(hit or unused), *answer))
        self.check(buffers)
        steps, self.inexact, refusal = answer
        return steps, refusal

    def block(self, kind, columns, rows, q, m, s, pick_up, hit=None, unused=(0, 0)):
        """A block with the lent buffers; (steps, refusal). unused: point and force written when there is no hit."""
        instrument = kind, columns, rows, q, m, s
        answer, *self.lent = calls.block(*instrument, *self.lent, pick_up, hit)
        return self.played(3, instrument, pick_up, hit, unused, answer, range(4))

    def block_in_place(self, kind, columns, rows, q, m, s, pick_up, hit=None, unused=(0, 0)):
        """The same without work."""
        instrument, (older, newer, work, samples) = (kind, columns, rows, q, m, s), self.lent
        answer, older, newer, samples = calls.block_in_place(*instrument, older, newer, samples, pick_up, hit)
        self.lent = [older, newer, work, samples]
        return self.played(7, instrument, pick_up, hit, unused, answer, (0, 1, 3))

    def pluck(self, kind, columns, rows, centre, half_width, height):
        refusal, *self.lent[:2] = calls.pluck(kind, columns, rows, *self.lent[:2], centre, half_width, height)
        self.append((4, kind, columns, rows, centre, half_width, height, refusal))
        self.check()
        return refusal

    def reading(self, kind, columns, rows, pick_up):
        refusal, value = calls.reading(kind, columns, rows, self.lent[1], pick_up)
        self.append((5, kind, columns, rows, pick_up, to_bits(value), refusal))
        return refusal


def moving_points(grid):
    return [point for point, _ in moving(*grid)]


def filled(grid, value):
    """A level with value(point) at moving points."""
    level = [0] * (grid[1] * grid[2])
    for point in moving_points(grid):
        level[point] = value(point)
    return level


def examples(records):
    """The paper's table, the slip at free ends, the plates of test_reference.py, the limits of stability, the listing of ring."""
    middle = lambda value: [0, 0, 0, 0, value, 0, 0, 0, 0]
    for grid, settings, older, newer, inexact in (
            ((1, 3, 1), (65536, 0, 0), [0, 1000, 0], [0, 1000, 0], 0),
            ((5, 3, 3), (32768, 0, 0), middle(1000), middle(1000), 0),
            ((1, 3, 1), (16384, 0, 0), [0, 1, 0], [0, 1, 0], 1),
            ((1, 3, 1), (16384, 0, 0), [0, -1, 0], [0, -1, 0], 1),
            ((1, 3, 1), (0, 0, 65536), [0, 7, 0], [0, 3, 0], 0),
            ((3, 3, 1), (65536, 0, 0), [0, 0, 0], [4, 0, 0], 0),
            ((3, 3, 1), (65536, 0, 0), [0, 0, 0], [0, 4, 0], 0),
            ((2, 3, 1), (65536, 0, 0), [0, 0, 0], [0, 4, 0], 0),
            ((4, 5, 1), (0, 16384, 0), [0] * 5, [0, 0, 8, 0, 0], 0),
            ((4, 5, 1), (0, 16384, 0), [0] * 5, [0, 8, 0, 0, 0], 0),
            ((6, 3, 3), (32768, 0, 0), middle(1000), middle(1000), 0),
            ((7, 3, 3), (16384, 2048, 0), middle(1000), middle(1000), 0),
            ((7, 3, 3), (0, 2048, 0), middle(0), middle(-1), 1),
            ((7, 5, 5), (0, 4096, 0), [0] * 25, with_value([0] * 25, 6, 16), 0),
            ((7, 5, 5), (0, 4096, 0), [0] * 25, with_value([0] * 25, 12, 16), 0),
            ((7, 4, 3), (16384, 2048, 0), [0] * 12, with_value([0] * 12, 5, 16), 1),
            ((7, 3, 4), (16384, 2048, 0), [0] * 12, with_value([0] * 12, 7, -16), 1)):
        records.lend(older, newer, [9] * len(newer), [5])
        assert (records.block(*grid, *settings, 1), records.inexact) == ((1, 0), inexact)
    for kind, q, m in ((4, 65532, 1), (4, 65533, 1), (5, 32768, 0), (5, 32769, 0), (6, 32769, 0), (5, 0, 1), (6, 0, 1),
                       (7, 32768, 0), (7, 32769, 0), (7, 0, 4096), (7, 0, 4097), (7, 1, 4096), (7, 16384, 2048),
                       (7, 16385, 2048), (7, 16384, 2049)):
        size = 3 if kind in LINE_KINDS else 9
        records.lend([0] * size, [0] * size, [1] * size, [])
        records.block(kind, 3, size // 3, q, m, 0, 0)
    records.lend([0] * 3, [0] * 3, [0] * 3, [0] * 4)
    assert records.block(1, 3, 1, 65536, 0, 0, 1, (1, 268435456)) == (4, 0)


def rounding(records):
    """Numerators around every half, both signs; samples on both sides of zero."""
    for s in (0, 1, 2, 65535, 65536):
        for q in (0, 1, 16384, 32768, 65535):
            for value in (1, -1, 2, -3, 2**28 - 1, 2**28, -2**28, -2**28 - 1):
                for older in (value, 0):
                    records.lend([0, older, 0], [0, value, 0], [7, 7, 7], [9, 9])
                    records.block(1, 3, 1, q, 0, s, 1)


def sample_corners(records):
    """Samples at and beside halves and at the ceiling, both signs; with q 0, s 0 and older as newer the level stays."""
    for value in (1, 3, 2**27 - 1, 2**27, 2**27 + 1, 2**28 - 1, 2**28, 2**28 + 1, 3 * 2**27 - 1, 3 * 2**27,
                  3 * 2**27 + 1, 5 * 2**27, 8 * 10**12, CEILING - 2**27 - 1, CEILING - 2**27, CEILING - 1, CEILING):
        for level in ([0, value, 0], [0, -value, 0]):
            records.lend(level, level, [7, 7, 7], [9])
            assert records.block(1, 3, 1, 0, 0, 0, 1) == (1, 0)
            assert records.lent[1] == level


def fading(records):
    """A hit string fades to a few units above or below zero and stays there: its samples end in zeros."""
    for force, level in ((-100 * 2**28, [0, 2, 0]), (100 * 2**28, [0, -2, 0])):
        records.lend([0] * 3, [0] * 3, [7] * 3, [9] * 150)
        assert records.block(1, 3, 1, 8192, 0, 12000, 1, (1, force)) == (150, 0)
        assert records.lent[:2] == [level, level] and records.lent[3][50:] == [0] * 100


def remainders(records):
    """Point 1 has the numerator that stands at point 2: multiples of D and of D+s, halves, and beside them."""
    for s in (0, 1, 2, 255, D // 2, D - 1, D):
        near = {0, D, D + s, 3 * (D + s), (D + s) // 2, 5 * (D + s) + (D + s) // 2}
        for value in sorted({value + change for value in near for change in (-1, 0, 1, 2)}):
            sign = -1 if value % 3 else 1
            records.lend([0] * 4, [0, 0, sign * value, 0], [7] * 4, [9])
            assert records.block(1, 4, 1, 1, 0, s, 1) == (1, 0)
            assert records.inexact == (value % (D + s) != 0) + (2 * (D - 1) * value % (D + s) != 0)


def never_inexact(records):
    """R = 1 without loss, at rest but for the hit; levels that are multiples of (D+s)^2, for two steps."""
    for kind in (1, 2, 3):
        size = 7 + kind
        records.lend([0] * size, [0] * size, [7] * size, [9] * 60)
        assert records.block(kind, size, 1, D, 0, 0, 2, (3, 12345677)) == (60, 0)
        assert records.inexact == 0 and any(records.lent[0]) and any(records.lent[1])
    for grid in ((2, 6, 1), (4, 6, 1), (5, 4, 5), (6, 5, 5), (7, 4, 4)):
        for s in (1, 30, D - 1):
            m = 99 if grid[0] in STIFF_KINDS else 0
            level = filled(grid, lambda point: (point % 3 - 1) * (D + s) ** 2)
            for steps in (2, 3):
                records.lend(level, level, [7] * len(level), [9] * steps)
                assert records.block(*grid, largest_q(grid[0], m) - 3, m, s, 0) == (steps, 0)
                assert (records.inexact > 0) == (steps == 3)


def inexact_later(records):
    """Each step takes so many factors 2 from the levels: the first steps are exact, later ones are not."""
    for grid, settings, factors, exact in (
            ((5, 5, 5), (32768, 0, 0), 1, 7), ((6, 7, 7), (32768, 0, 0), 1, 5), ((4, 7, 1), (0, 16384, 0), 2, 5),
            ((7, 5, 6), (0, 4096, 0), 4, 3), ((1, 6, 1), (16384, 0, 0), 2, 4), ((3, 5, 1), (32768, 0, D), 2, 4)):
        unit = 2 ** (factors * exact)
        level = filled(grid, lambda point: point * point % 7 * unit)
        for steps in (exact, 24):
            records.lend([0] * len(level), level, [7] * len(level), [9] * steps)
            assert records.block(*grid, *settings, 1, (moving_points(grid)[1], unit)) == (steps, 0)
            assert (records.inexact > 0) == (steps == 24)


def counts(records):
    """Every moving point inexact and no fixed one counted, over 0, 1 and 5 steps; 13 after 0, 3 and 5 inexact steps."""
    for grid in ((1, 3, 1), (1, 6, 1), (2, 3, 1), (2, 6, 1), (3, 6, 1), (4, 6, 1), (5, 3, 3), (5, 5, 4), (6, 3, 3),
                 (6, 7, 7), (7, 3, 3), (7, 4, 5)):
        size, grow, loud = grid[1] * grid[2], CEILING // 9, moving_points(grid)[-1]
        uneven = filled(grid, lambda point: 1000 + 7 * point * point)
        for steps in (0, 1, 5):
            records.lend([0] * size, uneven, [7] * size, [9] * steps)
            assert records.block(*grid, 3, 0, D - 1, 0) == (steps, 0)
            assert records.inexact == steps * len(moving_points(grid))
        for done in (0, 3, 5):
            newer = CEILING - 5 - done * grow
            records.lend(with_value(uneven, loud, newer - grow), with_value(uneven, loud, newer), [7] * size, [9] * 6)
            assert records.block(*grid, 1, 0, 0, loud) == (done, 13)
            assert records.inexact == done * len(moving_points(grid))


def small_sizes(records, draw):
    for grid in SMALL:
        kind, columns, rows = grid
        for reach in (3, 10**6, CEILING // 4):
            draw.odds = 0.0
            older = filled(grid, lambda _: draw.randint(-reach, reach))
            newer = filled(grid, lambda point: older[point] + draw.randint(-1 - reach // 50, 1 + reach // 50))
            records.lend(older, newer, [draw.randint(-9, 9) for _ in older], [1] * draw.randint(1, 4))
            hit = (draw.choice(moving_points(grid)), draw.randint(-reach, reach))
            records.block(*grid, *draw.settings(kind), draw.randrange(columns * rows), hit)
            records.reading(*grid, draw.choice(moving_points(grid)))


def large_sizes(records, draw):
    for grid in LARGE + LARGEST:
        kind, columns, rows = grid
        reach = 9 if kind in (6, 7) or columns == 63 else 99 if kind == 5 or columns == 1023 else 10**6
        size = columns * rows
        older = filled(grid, lambda _: draw.randint(-reach, reach))
        newer = filled(grid, lambda _: draw.randint(-reach, reach))
        records.lend(older, newer, [1] * size, [3, 3, 3])
        m = largest_m(kind) // 3 if kind in STIFF_KINDS else 0
        records.block(*grid, largest_q(kind, m) - 1, m, 7, size // 2, (moving_points(grid)[-1], -reach))
        records.reading(*grid, size - 1)
        records.reading(*grid, size)
    for grid in LARGEST:
        # At rest but for one point, over many steps; the pick-up at the last grid point.
        kind, columns, rows = grid
        size = columns * rows
        records.lend([0] * size, [0] * size, [0] * size, [3] * 12)
        records.block(*grid, largest_q(kind), 0, 1, size - 1, (moving_points(grid)[0], 2**20))
    # Wrong lengths at the largest size, and the largest lengths.
    records.lend([0] * 4095, [0] * 4096, [0] * 4096, [1])
    assert records.block(5, 64, 64, 0, 0, 0, 0) == (0, 6)
    records.lend([], [0] * 4100, [])
    assert records.reading(5, 64, 64, 0) == 6
    records.lend([0, 2**30, 0], [0, 2**30, 0], [0] * 3, [1] * 4100)
    assert records.block(1, 3, 1, 700, 0, 1, 1, (1, 12345)) == (4100, 0)


def extremes(records, draw):
    """Levels at the ceiling on both sides: alternating, equal, random signs."""
    for grid in SMALL:
        kind, columns, rows = grid
        if columns * rows > 30:
            continue
        sign = lambda point: -1 if (point % columns + point // columns) % 2 else 1
        for m in (0, largest_m(kind)) if kind in STIFF_KINDS else (0,):
            for older_sign, newer_sign in ((-1, 1), (1, 1)):
                for value in (lambda point: CEILING * sign(point), lambda point: CEILING,
                              lambda point: -CEILING, lambda point: CEILING * draw.choice((-1, 1))):
                    records.lend(filled(grid, lambda point: older_sign * value(point)),
                                 filled(grid, lambda point: newer_sign * value(point)),
                                 [3] * (columns * rows), [8, 8])
                    records.reading(*grid, moving_points(grid)[0])
                    s = draw.choice((0, 0, 1, D))
                    hit = draw.choice((None, (moving_points(grid)[-1], draw.choice((-CEILING, CEILING)))))
                    records.block(*grid, largest_q(kind, m), m, s, moving_points(grid)[0], hit)


def thirteen(records, draw):
    """13 at the first, a middle and the last of 5 steps, and just not; at the first and last moving point."""
    for grid in (*SMALL[1:21:2], PLATES[-1]):
        kind, columns, rows = grid
        for place in (0, -1):
            for sign in (1, -1):
                for done in (0, 2, 4, 5):
                    grow, loud = CEILING // 9, moving_points(grid)[place]
                    newer = filled(grid, lambda _: draw.randint(-999, 999))
                    older = filled(grid, lambda point: newer[point] + draw.randint(-9, 9))
                    newer[loud] = sign * (CEILING - done * grow)
                    older[loud] = newer[loud] - sign * grow
                    records.lend(older, newer, [4] * (columns * rows), [77] * 5)
                    answer = records.block(*grid, 0, 0, 0, draw.choice(moving_points(grid)))
                    assert answer == ((5, 0) if done == 5 else (done, 13))
    # By the hit, exactly at the ceiling and one beyond.
    for force in (CEILING - 10, CEILING - 9, -CEILING - 10 + 20, -CEILING):
        records.lend([0, 0, 0, 0], [0, 5, 5, 0], [1] * 4, [7, 7])
        records.block(1, 4, 1, 0, 0, 0, 1, (2, force))


BLOCK_BASE = dict(kind=1, columns=9, rows=1, q=1000, m=0, s=3, older=[0, 5, 6, 1, -2, 3, 9, -8, 0],
                  newer=[0, 7, 8, 2, -1, 3, 9, -9, 0], work=[1, 2, 3, 4, 5, 6, 7, 8, 9], samples=[11, 12],
                  pick_up=1, hit=(4, 100))
MEMBRANE_BASE = dict(BLOCK_BASE, kind=5, columns=3, rows=3, older=[0, 0, 0, 0, -2, 0, 0, 0, 0],
                     newer=[0, 0, 0, 0, 7, 0, 0, 0, 0])


def with_value(level, point, value):
    return [*level[:point], value, *level[point + 1:]]


def block_causes(base):
    """(refusal, changes) for a base of nine points, point 0 fixed and point 4 moving."""
    older, newer = base["older"], base["newer"]
    line = base["kind"] == 1
    yield from ((1, dict(kind=kind)) for kind in (0, 8, U64 - 1))
    yield from ((2, dict(columns=columns)) for columns in (2, 0, 1025, 65 if not line else 2**63))
    yield from ((2, dict(rows=rows)) for rows in (0, 2, 65, 2**64 - 1))
    yield 2, dict(columns=2**32, rows=2**32)
    yield from ((4, {name: value}) for name in "qms" for value in (D + 1, U64 - 1))
    yield 5, dict(m=1)
    yield 5, dict(kind=4, columns=9, rows=1, q=D - 3, m=1)
    yield 5, dict(kind=6, columns=3, rows=3, q=D // 2 + 1)
    for name in ("older", "newer", "work"):
        yield from ((6, {name: value}) for value in ([], base[name][:8], [*base[name], 0]))
    yield from ((7, dict(hit=(point, 1))) for point in (0, 8, 9, U64 - 1))
    yield from ((8, dict(hit=(4, force))) for force in (HIGH, LOW, HIGHEST, LOWEST))
    yield 7, dict(hit=(0, HIGH))
    yield from ((9, dict(pick_up=point)) for point in (9, U64 - 1))
    for value in (HIGH, LOW, HIGHEST, LOWEST):
        yield 11, dict(older=with_value(older, 4, value))
        yield 11, dict(newer=with_value(newer, 0, value))
    yield 11, dict(older=with_value(older, 0, 1), newer=with_value(newer, 4, LOW))
    yield from ((12, {name: with_value(base[name], point, value)})
                for name in ("older", "newer") for point, value in ((0, 1), (8, -1), (0, CEILING)))
    yield 13, dict(newer=with_value(newer, 4, CEILING), older=with_value(older, 4, -CEILING))


def given_block(records, case):
    records.lend(case["older"], case["newer"], case["work"], case["samples"])
    return records.block(*(case[name] for name in ("kind", "columns", "rows", "q", "m", "s", "pick_up", "hit")))


def block_refusals(records):
    for base in (BLOCK_BASE, MEMBRANE_BASE):
        causes = list(block_causes(base))
        assert given_block(records, base) == (2, 0) and records.inexact > 0
        for low, first in causes:
            assert given_block(records, {**base, **first}) == (0, low)
            empty = given_block(records, {**base, **first, "samples": []})
            assert empty == (0, 0 if low == 13 else low)
        one_each = {number: change for number, change in causes}
        for low, first in causes:
            for high, second in one_each.items():
                if low < high and not set(first) & set(second):
                    assert given_block(records, {**base, **second, **first})[1] == low
    # Without a hit its point and force are not looked at, and 7 and 8 are not met.
    for unused in ((0, HIGH), (U64 - 1, LOWEST)):
        records.lend(*(BLOCK_BASE[name] for name in ("older", "newer", "work", "samples")))
        assert records.block(1, 9, 1, 1000, 0, 3, 9, None, unused) == (0, 9)
        assert records.block(1, 9, 1, 1000, 0, 3, 1, None, unused) == (2, 0)


def fixed_in_each_kind(records):
    """A 1 at each point in turn: 12 exactly at the fixed points; 7 for a hit there."""
    for grid in ((1, 4, 1), (2, 4, 1), (3, 4, 1), (4, 4, 1), (5, 3, 4), (6, 5, 5), (6, 7, 7), (6, 8, 8), (7, 4, 3)):
        kind, columns, rows = grid
        size = columns * rows
        fixed = fixed_points(*grid)
        for point in range(size):
            records.lend(None, with_value([0] * size, point, 1))
            assert records.reading(*grid, 0) == (12 if point in fixed else 0)
        records.lend([0] * size, [0] * size, [0] * size, [])
        for point in range(size + 1):
            if size < 30 or point % 3 == 0:
                answer = records.block(*grid, 0, 0, 0, 0, (point, 1))
                assert answer == (0, 7 if point in fixed or point == size else 0)


PLUCK_BASE = dict(kind=1, columns=5, rows=1, older=[LOWEST, 3, HIGHEST, 5, 6], newer=[1, 2, 3, 4, 5], centre=2,
                  half_width=2, height=1000)


def pluck_causes():
    yield from ((1, dict(kind=kind)) for kind in (0, 5, 6, 7, U64 - 1))
    yield 1, dict(kind=5, columns=5, rows=5)
    yield 1, dict(kind=7, columns=5, rows=5, older=[0] * 25, newer=[0] * 25, centre=12)
    yield from ((2, dict(columns=columns)) for columns in (0, 2, 1025, U64 - 1))
    yield from ((2, dict(rows=rows)) for rows in (0, 2, 5, U64 - 1))
    yield 2, dict(columns=2**63, rows=2)
    yield from ((6, {name: value}) for name in ("older", "newer") for value in ([], [1] * 4, [1] * 6))
    yield from ((7, dict(centre=centre)) for centre in (0, 4, 5, U64 - 1))
    yield from ((8, dict(height=height)) for height in (HIGH, LOW, HIGHEST, LOWEST))
    yield from ((10, dict(half_width=width)) for width in (0, 5, U64 - 1))


def given_pluck(records, case):
    records.lend(case["older"], case["newer"])
    return records.pluck(*(case[name] for name in ("kind", "columns", "rows", "centre", "half_width", "height")))


def pluck_refusals(records):
    records.lend(None, None, [1, 2], [3])
    assert given_pluck(records, PLUCK_BASE) == 0
    for low, first in pluck_causes():
        assert given_pluck(records, {**PLUCK_BASE, **first}) == low
        for high, second in {number: change for number, change in pluck_causes()}.items():
            if low < high and not set(first) & set(second):
                assert given_pluck(records, {**PLUCK_BASE, **second, **first}) == low


def plucks(records, draw):
    """Every kind and width on small lines; nearly all of T on 1024 columns, and its mirror."""
    for kind in LINE_KINDS:
        for columns in (3, 4, 7, 10):
            ends = moving_points((kind, columns, 1))
            records.lend([1] * columns, [2] * columns, [], [])
            for half_width in range(1, columns):
                height = draw.choice((1, -1, 3, -3, 65536, -65537, CEILING, -CEILING, draw.randint(-CEILING, CEILING)))
                for centre in {ends[0], ends[-1], draw.choice(ends)}:
                    assert records.pluck(kind, columns, 1, centre, half_width, height) == 0
    records.lend([1] * 1024, [2] * 1024)
    for kind, centre, half_width, height in (
            (3, 0, 1023, 65536), (3, 1023, 1023, -65536), (1, 1, 1023, 65536), (4, 1022, 1023, -65537),
            (2, 1023, 1022, 65536), (2, 1, 1, 65536), (1, 512, 511, CEILING)):
        assert records.pluck(kind, 1024, 1, centre, half_width, height) == 0
    records.lend(None, None, [5] * 1024, [4, 4])
    records.block(1, 1024, 1, 60000, 0, 5, 512, (3, 10**6))


def reading_refusals(records):
    base = dict(kind=2, columns=4, rows=1, newer=[0, 5, -CEILING, CEILING], pick_up=3)
    causes = ((1, dict(kind=0)), (1, dict(kind=8)), (2, dict(columns=2)), (2, dict(rows=2**64 - 1)),
              (2, dict(columns=2**62, rows=4)), (6, dict(newer=[])), (6, dict(newer=[0] * 3)),
              (6, dict(newer=[0] * 5)), (9, dict(pick_up=4)), (9, dict(pick_up=U64 - 1)),
              (11, dict(newer=[0, 0, 0, HIGH])), (11, dict(newer=[LOWEST, 0, 0, 0])), (12, dict(newer=[-1, 0, 0, 0])))

    def given(case):
        records.lend(None, case["newer"])
        return records.reading(case["kind"], case["columns"], case["rows"], case["pick_up"])

    for low, first in causes:
        assert given({**base, **first}) == low
        for high, second in causes:
            if low < high and not set(first) & set(second):
                assert given({**base, **second, **first}) == low
    for value in (0, 1, -1, 2**28, -2**28 - 1, CEILING, -CEILING, 123456789012):
        for point in range(4):
            assert given({**base, "newer": [0, value, -value, value // 3], "pick_up": point}) == 0


def plate_sizes(records):
    """Both sides of each limit; a size that passes answers 6, but for 3 x 3."""
    records.lend(None, [0] * 9)
    for columns, rows, refusal in ((3, 3, 0), (64, 3, 6), (3, 64, 6), (64, 64, 6), (4, 3, 6), (3, 4, 6), (2, 3, 2), (3, 2, 2),
                                   (65, 3, 2), (3, 65, 2), (64, 65, 2), (65, 64, 2), (64, 2, 2), (2, 64, 2), (9, 1, 2)):
        assert records.reading(7, columns, rows, 4) == refusal


def argument_extremes(records):
    """64-bit edge values in every argument of each call."""
    for base in (BLOCK_BASE, MEMBRANE_BASE):
        for name in ("kind", "columns", "rows", "q", "m", "s", "pick_up"):
            for value in EDGES:
                given_block(records, {**base, name: value})
        for value in EDGES:
            given_block(records, {**base, "hit": (value, 1)})
        for value in SIGNED_EDGES:
            given_block(records, {**base, "hit": (4, value)})
            given_block(records, {**base, "newer": with_value(base["newer"], 4, value)})
    for name in ("kind", "columns", "rows", "centre", "half_width"):
        for value in EDGES:
            given_pluck(records, {**PLUCK_BASE, name: value})
    for value in SIGNED_EDGES:
        given_pluck(records, {**PLUCK_BASE, "height": value})
    records.lend(None, [0, 1, 2, 3, 0])
    for place in range(4):
        for value in EDGES:
            arguments = [1, 5, 1, 2]
            arguments[place] = value
            records.reading(*arguments)


def lists(records, draw, count):
    """Lists of blocks and plucks with changes of kind, grid and settings, the levels carried over."""
    for _ in range(count):
        draw.odds = 0.0
        kind = draw.choice(KINDS)
        grid, settings = (kind, *draw.size(kind, large=0.0)), draw.settings(kind)
        if grid[1] * grid[2] > 25:
            continue
        older, newer = draw.levels(grid)
        records.lend(older, newer, [6] * len(newer), [])
        for _ in range(draw.randint(3, 9)):
            draw.odds = 0.02
            if draw.rarely(0.3):
                grid = draw.choice(same_size_grids(grid))
                settings = draw.settings(grid[0])
            if draw.rarely(0.15):
                records.pluck(*grid, draw.point(grid, True), draw.half_width(grid[1]), draw.force())
                continue
            records.lend(None, None, None, [draw.randint(-99, 99)] * draw.randint(0, 6))
            records.block(*grid, *settings, draw.point(grid), draw.hit(grid))
            if draw.rarely(0.2):
                records.reading(*grid, draw.point(grid))


def call_records():
    records, draw = Records(), Draws("calls.txt")
    examples(records)
    rounding(records)
    sample_corners(records)
    fading(records)
    remainders(records)
    never_inexact(records)
    inexact_later(records)
    counts(records)
    small_sizes(records, draw)
    extremes(records, draw)
    thirteen(records, draw)
    block_refusals(records)
    fixed_in_each_kind(records)
    pluck_refusals(records)
    plucks(records, draw)
    reading_refusals(records)
    plate_sizes(records)
    argument_extremes(records)
    lists(records, draw, 120)
    large_sizes(records, draw)
    return records
