"""Random arguments for the calls: mostly sensible, some edge values, some wild 64-bit numbers."""

import math
import random
import struct

from instrument import (CEILING, D, GRID_KINDS, KINDS, LINE_KINDS, RECTANGULAR_KINDS, STABILITY, STIFF_KINDS, fixed_points,
                        moving, moving_set, size_in_table)
from pluck import cut_toward_zero
from sheet import Sheet, nearest
from tables import BUILT_IN, LARGEST, TOP, changed, dip, doubled, ending, longer, lowered, peak, pool, raised, shorter

U64 = 2**64
EDGES = (0, 1, 2, 3, 2**15, 2**16, 2**31 - 1, 2**31, 2**32 - 1, 2**32, 2**32 + 1, 2**62, 2**62 + 1,
         2**63 - 1, 2**63, 2**63 + 1, U64 - 2, U64 - 1)
SIGNED_EDGES = (0, 1, -1, CEILING, -CEILING, CEILING + 1, -CEILING - 1, 2**31, -2**31, 2**43, -2**43,
                2**62, -2**62, 2**63 - 1, -2**63, -2**63 + 1)
SIDES = (3, 3, 4, 4, 5, 6, 7, 8, 11)
LARGE_SIDES = (31, 63, 64)
# Sizes around 64, 128 and 192 points, for implementations that work in pieces of 64.
LONG_LINES = (63, 64, 65, 66, 127, 128, 129, 130, 191, 192, 193)
LONG_GRIDS = ((8, 8), (9, 7), (16, 4), (13, 5), (5, 13), (22, 3), (3, 22), (9, 8), (8, 9), (11, 11), (16, 8), (43, 3), (13, 10))
LONG_SQUARES = (8, 9, 10, 11, 12)
# The points where a piece ends and the next begins.
SEAMS = (*range(62, 67), *range(126, 131))
TABLES = pool("tables")


def from_bits(bits):
    return struct.unpack("<d", struct.pack("<Q", bits))[0]


def to_bits(x):
    return struct.unpack("<Q", struct.pack("<d", x))[0]


FLOAT_EDGES = (0.0, -0.0, 5e-324, -5e-324, 2.2250738585072014e-308, 2.225073858507201e-308,
               1.7976931348623157e308, -1.7976931348623157e308, math.inf, -math.inf, math.nan,
               1.0, -1.0, 0.5, 2.0, 65536.0, 1.0 / 65536, 0.5 / 65536, 1e-160, 1e160, 1.5e154, 1e-154)


def largest_m(kind):
    """The largest stable m of a stiff kind."""
    return D // STABILITY[kind][1]


def largest_q(kind, m=0):
    """The largest stable q beside m, 0 if there is none; an unknown kind is taken for kind 1."""
    times_q, times_m = STABILITY.get(kind, STABILITY[1])
    return max(D - times_m * m, 0) // times_q


def is_known(grid):
    """Whether 1 and 2 let the grid pass."""
    return grid[0] in KINDS and size_in_table(*grid)


class Draws(random.Random):
    """A seeded source; odds is the share of spoiled arguments, unit what points and forces are multiples of.

    long is the share of sizes around 64 points and a few times as many; 0, as for the stored vectors, draws nothing for it.
    """

    odds = 0.02
    unit = 1
    long = 0.0

    def rarely(self, share=None):
        return self.random() < (self.odds if share is None else share)

    def wild(self):
        """An unsigned 64-bit number."""
        if self.rarely(0.5):
            return self.choice(EDGES)
        return self.getrandbits(self.randint(1, 64))

    def wild_signed(self):
        if self.rarely(0.5):
            return self.choice(SIGNED_EDGES)
        return self.getrandbits(self.randint(1, 64)) - 2**63 if self.rarely(0.5) else \
            self.randint(-CEILING - 2, CEILING + 2)

    def kind(self, kinds=KINDS):
        if self.rarely():
            return self.choice((0, KINDS[-1] + 1, *GRID_KINDS, self.wild()))
        return self.choice(kinds)

    def size(self, kind, large=0.008):
        """(columns, rows), right for the kind most of the time."""
        if self.rarely():
            return self.wrong_size(kind)
        if self.long and self.rarely(self.long):
            return self.long_size(kind)
        if kind in GRID_KINDS:
            is_large = self.rarely(large)
            side = self.choice(LARGE_SIDES if is_large else SIDES)
            other = 3 if is_large else self.choice(SIDES)
            return self.choice(((side, side), (side, other), (other, side))) if kind in RECTANGULAR_KINDS else (side, side)
        if self.rarely(large):
            return self.choice((255, 512, 1023, 1024)), 1
        return (self.randint(3, 12) if self.rarely(0.9) else self.randint(3, 70)), 1

    def long_size(self, kind):
        """(columns, rows) for the kind, around a multiple of 64 points or any line of 71 to 254."""
        if kind in RECTANGULAR_KINDS:
            return self.choice(LONG_GRIDS)
        if kind in GRID_KINDS:
            side = self.choice(LONG_SQUARES)
            return side, side
        return (self.choice(LONG_LINES) if self.rarely(0.7) else self.randint(71, 254)), 1

    def wrong_size(self, kind):
        columns, rows = self.choice(((2, 1), (1025, 1), (3, 0), (3, 2), (0, 0), (2, 2), (65, 65), (65, 3),
                                     (3, 65), (3, 4), (4, 3), (2**32, 2**32), (2**63, 2),
                                     (self.wild(), 1), (5, self.wild()), (self.wild(), self.wild())))
        return columns, rows

    def settings(self, kind):
        """(q, m, s), accepted most of the time, often at the limit of stability."""
        s = self.choice((0, 0, 1, 8, 65535, 65536, self.randint(0, D), self.randint(0, 300)))
        m = 0
        if kind in STIFF_KINDS:
            most = largest_m(kind)
            m = self.choice((0, 1, most, self.randint(0, most), self.randint(0, most)))
        limit = largest_q(kind, m)
        q = self.choice((0, limit, limit, self.randint(0, limit), self.randint(0, limit)))
        if self.rarely():
            q = self.choice((limit + 1, D + 1, D, self.wild()))
        if self.rarely():
            m = self.choice((1, m + 1, D // 4 + 1, D, D + 1, self.wild()))
        if self.rarely():
            s = self.choice((D + 1, self.wild()))
        return q, m, s

    def even_settings(self, kind):
        """(q, m, s), accepted, of high powers of two: a step takes few factors 2 from the levels."""
        m = self.choice((0, largest_m(kind), largest_m(kind) // 2)) if kind in STIFF_KINDS else 0
        limit = largest_q(kind, m)
        return self.choice((0, limit, limit, limit // 2)), m, self.choice((0, 0, 0, D))

    def unit_of(self, settings):
        """A power of two or of D+s, within the ceiling; with the k-th power of D+s the first k steps are exact."""
        divisor = D + min(settings[2], D)
        return self.choice((2**20, 2**30, 2**36, divisor, divisor**2, divisor**2))

    def in_units(self, value):
        """Cut toward zero to a multiple of the unit."""
        return cut_toward_zero(value, self.unit) * self.unit

    def wrong_length(self, length):
        """Another length than this, but for 0 and 1 now and then the same."""
        return self.choice((0, 1, max(length - 1, 0), length + 1, length + 2))

    def level(self, grid, length=None):
        """A level, most of the time of the right length, within the ceiling and 0 at fixed points."""
        _, columns, rows = grid
        known = is_known(grid)
        if length is None:
            length = columns * rows if known else self.randint(0, 12)
            if self.rarely(self.odds / 2):
                length = self.wrong_length(length)
        reach = self.choice((0, 1, 3, 1000, 2**28, 2**40, CEILING // 8, CEILING // 3, CEILING))
        reach = max(reach // self.unit, int(self.unit > 1))
        if self.rarely(0.2):
            level = [self.choice((-reach, reach, 0)) * self.unit for _ in range(length)]
        else:
            level = [self.randint(-reach, reach) * self.unit for _ in range(length)]
        if known and length == columns * rows:
            for point in fixed_points(*grid):
                level[point] = 0
        if length and self.rarely(self.odds / 2):
            level[self.randrange(length)] = self.choice((1, -1, CEILING + 1, -CEILING - 1, self.wild_signed()))
        return level

    def levels(self, grid):
        """Older and newer; often close to each other, so that blocks go on for long."""
        older = self.level(grid)
        if self.rarely(0.4):
            return older, self.level(grid)
        step = self.choice((0, 1, 5, 2**20, 2**36))
        newer = [self.in_units(value + self.randint(-step, step)) if value else 0 for value in older]
        return older, [max(-2**63, min(2**63 - 1, value)) for value in newer]

    def loud_at_the_end(self, grid):
        """Settings and two levels of a known grid: without a hit the last moving point alone passes the ceiling, after 0 to 4 steps."""
        older, last = [0] * (grid[1] * grid[2]), moving(*grid)[-1][0]
        for point, _ in moving(*grid):
            older[point] = self.randint(-999, 999)
        newer = [value + self.randint(-9, 9) if value else 0 for value in older]
        grow, sign = self.randint(CEILING // 12, CEILING // 6), self.choice((-1, 1))
        newer[last] = sign * (CEILING - self.randint(0, 4) * grow)
        older[last] = newer[last] - sign * grow
        m = self.randint(0, 3) if grid[0] in STIFF_KINDS else 0
        return (self.randint(0, 9), m, 0), older, newer

    def point(self, grid, must_move=False):
        _, columns, rows = grid
        if self.rarely():
            return self.choice((0, columns - 1 & U64 - 1, columns * rows % U64, self.wild()))
        if is_known(grid):
            if self.long and columns * rows > 62 and self.rarely(0.4):
                return self.seam(grid, must_move)
            if must_move:
                return self.choice(moving(*grid))[0]
            return self.randrange(columns * rows)
        return self.randint(0, 20)

    def seam(self, grid, must_move):
        """A point of a known grid where a piece ends or begins; any moving one where none of those moves."""
        points = moving_set(*grid) if must_move else range(grid[1] * grid[2])
        return self.choice([point for point in SEAMS if point in points] or [point for point, _ in moving(*grid)])

    def force(self):
        if self.rarely():
            return self.wild_signed()
        reach = self.choice((0, 1, 1000, 2**28, 2**36, CEILING // 2, CEILING))
        return self.in_units(self.choice((reach, -reach, self.randint(-reach, reach))))

    def hit(self, grid):
        return None if self.rarely(0.4) else (self.point(grid, True), self.force())

    def samples(self, most=8):
        count = self.choice((0, 1, 1, 2, 3, self.randint(0, most), self.randint(0, most)))
        if self.rarely(0.02):
            count = self.choice((20, 60, 200)) + self.randint(0, 20)
        return [self.randint(-32768, 32767) for _ in range(count)]

    def half_width(self, columns):
        if self.rarely():
            return self.choice((0, columns % U64, self.wild()))
        return self.randint(1, columns - 1) if 3 <= columns <= 1024 else self.randint(1, 9)

    def table(self):
        """A table for a pluck: one that keeps the rule, every third time T, or a broken one."""
        table = BUILT_IN if self.rarely(0.3) else self.choice(TABLES)
        return self.broken_table(table) if self.rarely(0.3) else table

    def broken_table(self, table):
        """Broken in one way alone, but for some that have another length or another beginning."""
        return self.choice((self.table_of_another_length, self.table_of_another_beginning, self.table_of_another_end,
                            self.table_that_falls, self.table_beyond))(table)

    def entry(self, ends):
        """The place of an entry between the ends, ends for both of them too."""
        return self.choice((1 - ends, 2, 512, 1022, 1023 + ends, self.randint(1 - ends, 1023 + ends)))

    def table_of_another_length(self, table):
        place = self.entry(1)
        return self.choice((
            lambda: [], lambda: [self.choice((0, TOP))], lambda: [0, self.randint(0, TOP), TOP], lambda: table[:place],
            lambda: table[:1024], lambda: table[1:], lambda: shorter(table, place), lambda: shorter(table, self.entry(0)),
            lambda: longer(table, place), lambda: [*table, self.choice((0, TOP, LARGEST))], lambda: doubled(table),
            lambda: table + table))()

    def table_of_another_beginning(self, table):
        if self.rarely(0.3):
            return changed(table, 0, self.choice((1, table[1] or 1, TOP, LARGEST, self.randint(1, LARGEST))))
        return raised(table, self.choice((1, 2, table[1] or 1, TOP, self.randint(1, TOP))))

    def table_of_another_end(self, table):
        if self.rarely(0.5):
            return ending(table, self.beyond())
        return lowered(table, self.choice((TOP - 1, TOP - 2, 0, 1, self.randint(0, TOP - 1))))

    def table_that_falls(self, table):
        place = self.entry(0)
        if place > 1 and table[place - 1] and self.rarely(0.6):
            return dip(table, place, self.choice((1, 1, table[place - 1], self.randint(1, table[place - 1]))))
        return peak(table, place, self.choice((1, 1, self.randint(1, TOP))))

    def table_beyond(self, table):
        """An entry between the ends above 65536."""
        return changed(table, self.entry(0), self.beyond())

    def beyond(self):
        """A number of 32 bits above 65536."""
        return self.choice((TOP + 1, 2 * TOP, 2**31, 2**31 + TOP, LARGEST, self.randint(TOP + 1, LARGEST)))

    def float(self, low, high):
        """A number of the sheet between about 10^low and 10^high, or an edge, or any 64 bits."""
        if self.rarely():
            return self.choice(FLOAT_EDGES)
        if self.rarely():
            return from_bits(self.getrandbits(64))
        x = math.ldexp(self.uniform(1.0, 2.0), self.randint(math.floor(3.33 * low), math.floor(3.33 * high)))
        return float(round(x)) if x > 100.0 and self.rarely(0.3) else x

    def nudge(self, x, reach=2):
        """x, or a float a few places beside it."""
        return from_bits(min(max(to_bits(abs(x)) + self.randint(-reach, reach), 0), to_bits(1.7e308)))

    def half(self, limit):
        """A half over 65536, most often below limit/65536, or a float beside it."""
        k = self.choice((0, 1, limit - 1, limit, limit + 1, self.randint(0, limit), self.randint(0, limit)))
        return self.nudge((max(k, 0) + 0.5) / D, 1)

    def targets(self, kind):
        """R, mu^2 and the loss to aim at: at or beside halves."""
        m = 0.0
        if kind in STIFF_KINDS:
            m = self.choice((0.0, self.half(self.choice((1, 10, largest_m(kind))))))
        elif self.rarely():
            m = self.half(self.choice((1, 10, D // 4)))
        return self.half(largest_q(kind, nearest(m))), m, self.half(D)

    def is_in_hertz(self, kind):
        """For every other sheet of a line, and a few of a grid, which refuses it."""
        return self.rarely(0.05 if kind in GRID_KINDS else 0.5)

    def plain_sheet(self, kind, columns):
        """Rate 1 and spacing 1: the coefficients are the sheet's own numbers."""
        r, m, loss = self.targets(kind)
        return Sheet(1.0, float(columns - 1), m, ("tension", r, 1.0), ("per second", loss))

    def aimed_sheet(self, kind, columns):
        """Random rate, length and density; the rest aimed at halves, so that the order of operations shows."""
        r, m, loss = self.targets(kind)
        rate, length, density = self.uniform(1000, 96000), self.uniform(0.1, 3), self.uniform(0.001, 9)
        h = length / (columns - 1)
        speed = ("tension", self.nudge(r * rate * rate * h * h * density), density)
        if self.is_in_hertz(kind):
            speed = ("hertz", self.nudge(math.sqrt(r) * rate / (2 * (columns - 1))))
        per_second = self.nudge(loss * rate)
        losses = self.choice((("per second", per_second), ("seconds", self.nudge(6.907755278982137 / (loss * rate)))))
        return Sheet(rate, length, self.nudge(m * rate * rate * h * h * h * h) if m else 0.0, speed, losses)

    def sensible_sheet(self, kind):
        speed = ("tension", self.float(-1, 3), self.float(-4, 0))
        if self.is_in_hertz(kind):
            speed = ("hertz", self.float(0, 3.5))
        bending = 0.0 if kind not in STIFF_KINDS or self.rarely(0.3) else self.float(-3, 3)
        loss = self.choice((("per second", self.float(-2, 3)), ("seconds", self.float(-2, 2)),
                            ("per second", 0.0)))
        return Sheet(self.float(3.5, 5.5), self.float(-1, 1), bending, speed, loss)

    def wild_float(self):
        return self.choice((self.choice(FLOAT_EDGES), from_bits(self.getrandbits(64)),
                            from_bits(self.getrandbits(63)), 1.0, self.float(-5, 5)))

    def wild_sheet(self):
        rate, length, bending, one, two, three = (self.wild_float() for _ in range(6))
        return Sheet(rate, length, bending, self.choice((("hertz", one), ("tension", one, two))),
                     self.choice((("per second", three), ("seconds", three))))

    def sheet(self, kind, columns):
        if self.rarely(0.1) or not 3 <= columns <= 1024:
            return self.wild_sheet()
        sheet = self.choice((self.plain_sheet, self.aimed_sheet, self.aimed_sheet))(kind, columns) \
            if self.rarely(0.7) else self.sensible_sheet(kind)
        return self.spoiled(sheet) if self.rarely(2 * self.odds) else sheet

    def spoiled(self, sheet):
        """One number of the sheet replaced by an edge or any 64 bits."""
        x = self.wild_float()
        place = self.choice(("rate", "length", "bending", "speed", "density", "loss"))
        if place == "loss":
            return sheet._replace(loss=(sheet.loss[0], x))
        if place == "density" and sheet.speed[0] == "tension":
            return sheet._replace(speed=(*sheet.speed[:2], x))
        if place in ("speed", "density"):
            return sheet._replace(speed=(sheet.speed[0], x, *sheet.speed[2:]))
        return sheet._replace(**{place: x})


def same_size_grids(grid):
    """Grids (kind, columns, rows) with as many points as this one."""
    kind, columns, rows = grid
    size = columns * rows
    found = [(k, size, 1) for k in LINE_KINDS if size_in_table(k, size, 1)]
    for side in range(3, 65):
        if size % side == 0:
            found += [(k, side, size // side) for k in GRID_KINDS if size_in_table(k, side, size // side)]
    return found

