"""Tests of the reference: the paper's examples, its rules for T, lent tables, energy, distance and counts, each refusal,
both blocks, mirror images; and of the lists and calls of run.py."""

import math
import multiprocessing
import unittest
from fractions import Fraction
from unittest import mock

import book
import calls
import draws
import in_place
import instrument
import mirror
import must_fail
import pluck
import run
import sheet
import step
import tables
from arguments import run_tests
from instrument import CEILING, D, KINDS, LINE_KINDS
from library import Reference, stand_in, wrong_stand_in
from sheet import Sheet

PLAIN = Sheet(1.0, 2.0, 0.0, ("tension", 0.25, 1.0), ("per second", 0.0))


def one_step(grid, settings, older, newer, hit=None):
    """The level after one accepted step."""
    size = len(newer)
    (steps, _, refusal), left, new, work, samples = calls.block(
        *grid, *settings, older, newer, [7] * size, [5], 0, hit)
    assert (steps, refusal, left, work) == (1, 0, newer, [0] * size)
    return new


def away_from_zero(exact):
    """The nearest whole number to a fraction, halves away from zero."""
    return math.floor(abs(exact) + Fraction(1, 2)) * (1 if exact >= 0 else -1)


def on_grid(columns, rows, values):
    """A level with these values by point, 0 elsewhere."""
    return [values.get(point, 0) for point in range(columns * rows)]


def refusal_at_rest(kind, columns, rows, q, m):
    """The refusal of a block of no steps, all levels 0."""
    level = [0] * (columns * rows)
    return calls.block(kind, columns, rows, q, m, 0, level, level, level, [], 0, None)[0][2]


def beside(case):
    """The outcomes of block, without work, and of block_in_place for the arguments of a block by name."""
    answer, older, newer, _, samples = calls.block(**case)
    return (answer, older, newer, samples), calls.block_in_place(**without_work(case))


def without_work(case):
    return {name: value for name, value in case.items() if name != "work"}


class Examples(unittest.TestCase):
    """The table of examples, the slip at free ends, the sheet and the listing of ring."""

    def middle(self, q, s, older, newer):
        return one_step((1, 3, 1), (q, 0, s), [0, older, 0], [0, newer, 0])[1]

    def test_a_to_e(self):
        self.assertEqual(one_step((1, 3, 1), (65536, 0, 0), [0, 1000, 0], [0, 1000, 0]), [0, -1000, 0])
        level = [0, 0, 0, 0, 1000, 0, 0, 0, 0]
        self.assertEqual(one_step((5, 3, 3), (32768, 0, 0), level, level)[4], -1000)
        self.assertEqual(self.middle(16384, 0, 1, 1), 1)
        self.assertEqual(self.middle(16384, 0, -1, -1), -1)
        self.assertEqual(self.middle(0, 65536, 7, 3), 3)

    def test_f_and_the_slip(self):
        zeros = [0, 0, 0]
        self.assertEqual(one_step((3, 3, 1), (65536, 0, 0), zeros, [4, 0, 0]), [0, 4, 0])
        self.assertEqual(one_step((3, 3, 1), (65536, 0, 0), zeros, [0, 4, 0]), [8, 0, 8])
        self.assertEqual(one_step((2, 3, 1), (65536, 0, 0), zeros, [0, 4, 0]), [0, 0, 8])

    def test_g(self):
        self.assertEqual(one_step((4, 5, 1), (0, 16384, 0), [0] * 5, [0, 0, 8, 0, 0]), [0, 8, 4, 8, 0])

    def test_supported_ends(self):
        # L is 0 at point 0, so B at point 1 is L(2) - 2 L(1) = 8 + 2*16 = 40; 2*8 - 40/4 = 6.
        self.assertEqual(one_step((4, 5, 1), (0, 16384, 0), [0] * 5, [0, 8, 0, 0, 0]), [0, 6, 8, -2, 0])

    def test_h_and_i(self):
        self.assertEqual([refusal_at_rest(4, 3, 1, q, 1) for q in (65532, 65533)], [0, 5])
        for kind in (5, 6):
            self.assertEqual([refusal_at_rest(kind, 3, 3, q, 0) for q in (32768, 32769)], [0, 5])

    def test_j(self):
        self.assertEqual(len(instrument.moving(6, 7, 7)), 25)
        self.assertEqual(len(instrument.moving(6, 8, 8)), 32)

    def test_moving_points_have_two_or_four_neighbours(self):
        for kind, columns, rows, counts in ((1, 9, 1, {2}), (2, 9, 1, {1, 2}), (3, 9, 1, {1, 2}),
                                            (4, 9, 1, {2}), (5, 5, 4, {4}), (6, 16, 16, {4}), (7, 5, 4, {4})):
            found = {len(near) for _, near in instrument.moving(kind, columns, rows)}
            self.assertEqual(found, counts)

    def test_bound_of_the_paper(self):
        """"with N = 100 the bound is below one sample unit squared (2^56) up to n = 10,361"."""
        below = lambda n: 100 * n**2 * (n + 1) ** 2 < 16 * 2**56
        self.assertTrue(below(10361))
        self.assertFalse(below(10362))

    def test_sheet(self):
        record = Sheet(48000.0, 1.0, 0.0, ("hertz", 100.0), ("per second", 6.0))
        self.assertEqual(calls.sheet(1, 101, 1, record), (0, (11378, 0, 8)))

    def test_ring(self):
        kind, columns, rows, q, m, s, pick_up, steps, point, force = map(
            int, "1 3 1 65536 0 0 1 4 1 268435456".split())
        rest = [0] * (columns * rows)
        (done, inexact, refusal), _, _, _, samples = calls.block(
            kind, columns, rows, q, m, s, rest, rest, rest, [0] * steps, pick_up, (point, force))
        self.assertEqual(inexact, 0)
        lines = [f"{number} {value}" for number, value in enumerate(samples[:done], 1)]
        lines.append(f"done {done} {refusal}")
        self.assertEqual(lines, ["1 1", "2 0", "3 -1", "4 0", "done 4 0"])


class Steps(unittest.TestCase):
    def test_rounding_against_fractions(self):
        draw = draws.Draws("rounding")
        for _ in range(2000):
            denominator = draw.randint(D, 2 * D)
            numerator = draw.choice((draw.randint(-9, 9) * denominator + denominator // 2,
                                     draw.randint(-10**20, 10**20)))
            away = away_from_zero(Fraction(numerator, denominator))
            self.assertEqual(step.round_half_away(numerator, denominator)[0], away)

    def test_sample_and_reading(self):
        grid, level = (3, 3, 1), [-1, CEILING, -CEILING]
        values = [calls.reading(*grid, level, point) for point in range(3)]
        self.assertEqual(values, [(0, -2.0**-43), (0, 32767 / 32768), (0, -32767 / 32768)])
        for point, expected in enumerate((0, 32767, -32767)):
            answer, _, newer, _, samples = calls.block(
                *grid, 0, 0, 0, level, level, [0] * 3, [9, 9], point, None)
            self.assertEqual((answer, newer, samples), ((2, 0, 0), level, [expected] * 2))

    def test_hit_acts_once(self):
        answer, older, newer, _, _ = calls.block(
            1, 3, 1, 0, 0, 0, [0] * 3, [0] * 3, [0] * 3, [0] * 3, 1, (1, 10))
        self.assertEqual((answer, older, newer), ((3, 0, 0), [0, 20, 0], [0, 30, 0]))

    def test_loss(self):
        # (2D*100 - (D-s)*40) / (D+s) with s = D/2: (200 - 20) / 1.5 = 120.
        self.assertEqual(one_step((1, 3, 1), (0, 0, D // 2), [0, 40, 0], [0, 100, 0]), [0, 120, 0])

    def test_hit_with_loss(self):
        self.assertEqual(one_step((1, 3, 1), (0, 0, D), [0] * 3, [0] * 3, (1, 10)), [0, 5, 0])

    def test_no_steps(self):
        level = [0, CEILING, 0]
        answer = calls.block(1, 3, 1, D, 0, 0, [0] * 3, level, [1, 2, 3], [], 1, (1, CEILING))
        self.assertEqual(answer, ((0, 0, 0), [0] * 3, level, [0] * 3, []))

    def test_thirteen(self):
        # With q 0 and s 0 the middle grows by a fixed amount; the ceiling is met exactly, then passed.
        grow = CEILING // 7
        for steps_before in (0, 1, 3):
            newer = CEILING - steps_before * grow
            older = [0, newer - grow, 0]
            answer, left, new, work, samples = calls.block(
                1, 3, 1, 0, 0, 0, older, [0, newer, 0], [4, 5, 6], [77] * 5, 1, None)
            self.assertEqual(answer, (steps_before, 0, 13))
            self.assertEqual(new, [0, CEILING, 0])
            self.assertEqual(left, [0, CEILING - grow, 0])
            self.assertEqual(work, [0] * 3)
            self.assertEqual(samples[steps_before:], [77] * (5 - steps_before))
            self.assertEqual(samples[:steps_before],
                             [away_from_zero(Fraction(newer + (k + 1) * grow, 2**28)) for k in range(steps_before)])


class Samples(unittest.TestCase):
    """Request 2: "the sample is the nearest whole number, halves away from zero, in place of rounding down"."""

    def heard(self, value):
        """The sample of a step that leaves value at the pick-up: q, m and s 0, older as newer."""
        level = [0, value, 0]
        answer, older, newer, _, samples = calls.block(1, 3, 1, 0, 0, 0, level, level, [0] * 3, [9], 1, None)
        self.assertEqual((answer, older, newer), ((1, 0, 0), level, level))
        return samples[0]

    def test_corners(self):
        """"The ceiling still maps to 32767"."""
        for value, expected in (
                (0, 0), (1, 0), (3, 0), (2**27 - 1, 0), (2**27, 1), (2**27 + 1, 1), (2**28 - 1, 1), (2**28, 1),
                (2**28 + 1, 1), (3 * 2**27 - 1, 1), (3 * 2**27, 2), (3 * 2**27 + 1, 2), (5 * 2**27 - 1, 2),
                (5 * 2**27, 3), (8 * 10**12, 29802), (CEILING - 2**27 - 1, 32766), (CEILING - 2**27, 32767),
                (CEILING - 1, 32767), (CEILING, 32767)):
            for sign in (1, -1):
                self.assertEqual(step.sample(sign * value), sign * expected, sign * value)
                self.assertEqual(self.heard(sign * value), sign * expected, sign * value)

    def values(self):
        """Random values within the ceiling, every other one at a half or beside it."""
        draw = draws.Draws("samples")
        for _ in range(1000):
            yield draw.randint(-CEILING, CEILING)
            yield draw.choice((-1, 1)) * ((2 * draw.randint(0, 32766) + 1) * 2**27 + draw.randint(-1, 1))

    def test_odd(self):
        for value in self.values():
            self.assertEqual(step.sample(-value), -step.sample(value), value)

    def test_nearest_against_fractions(self):
        halves = 0
        for value in self.values():
            exact, found = Fraction(value, 2**28), self.heard(value)
            off = abs(found - exact)
            self.assertLessEqual(off, Fraction(1, 2), value)
            if off == Fraction(1, 2):
                self.assertGreater(abs(found), abs(exact), value)
                halves += 1
        self.assertGreater(halves, 200)

    def faded(self, grid, settings, pick_up, hit):
        """The level for ever at the pick-up after a hit at rest, and the samples before."""
        rest = [0] * (grid[1] * grid[2])
        (steps, _, refusal), older, newer, _, samples = calls.block(
            *grid, *settings, rest, rest, rest, [9] * 200, pick_up, hit)
        self.assertEqual((steps, refusal, older), (200, 0, newer))
        self.assertEqual(one_step(grid, settings, newer, newer), newer)
        return newer[pick_up], samples

    def test_fading(self):
        """"A fading voice sits a few units below zero", or above: the samples end in zeros."""
        for grid, settings, pick_up, point, level in (
                ((1, 3, 1), (8192, 0, 12000), 1, 1, -2), ((1, 5, 1), (8192, 0, 10000), 1, 2, -3),
                ((4, 7, 1), (16384, 1000, 14000), 2, 4, -3), ((7, 5, 5), (6000, 1000, 12000), 7, 12, 2)):
            for sign in (1, -1):
                found, samples = self.faded(grid, settings, pick_up, (point, sign * 100 * 2**28))
                self.assertEqual(found, sign * level)
                # Rounding down reads -1 below zero.
                self.assertEqual(found // 2**28, 0 if found > 0 else -1)
                self.assertEqual(samples[50:], [0] * 150)
                self.assertGreater(max(map(abs, samples)), 30)


class Plate(unittest.TestCase):
    """Request 1, kind 7. With m 4096 = D/16 the term m x B over D is B/16."""

    def step(self, columns, rows, settings, newer, older=None):
        """The values that are not 0 after a step of a plate with these values."""
        level = one_step((7, columns, rows), settings, on_grid(columns, rows, older or {}), on_grid(columns, rows, newer))
        return {point: value for point, value in enumerate(level) if value}

    def test_middle(self):
        # L is -64 at 12 and 16 beside it. B: at 12, 4*16 + 4*64 = 320; beside it, -64 - 4*16 = -128; at the inner
        # corners, 16 + 16 = 32. 32 - 320/16 = 12.
        self.assertEqual(self.step(5, 5, (0, 4096, 0), {12: 16}),
                         {6: -2, 7: 8, 8: -2, 11: 8, 12: 12, 13: 8, 16: -2, 17: 8, 18: -2})

    def test_inner_corner(self):
        # L is -64 at 6, 16 at 7 and 11, and counts as 0 at 1 and 5. B: at 6, 16 + 16 + 4*64 = 288; at 7 and 11,
        # -64 - 4*16 = -128; at 8 and 16, 16; at 12, 16 + 16 = 32. 32 - 288/16 = 14.
        self.assertEqual(self.step(5, 5, (0, 4096, 0), {6: 16}), {6: 14, 7: 8, 8: -1, 11: 8, 12: -2, 16: -1})

    def test_beside_the_ring(self):
        # L is -64 at 7, 16 at 6, 8 and 12, and counts as 0 at 2. B: at 7, 3*16 + 4*64 = 304; at 6 and 8,
        # -64 - 4*16 = -128; at 12 the same; at 11 and 13, 16 + 16 = 32; at 17, 16. 32 - 304/16 = 13.
        self.assertEqual(self.step(5, 5, (0, 4096, 0), {7: 16}), {6: 8, 7: 13, 8: 8, 11: -2, 12: 8, 13: -2, 17: -1})

    def test_one_moving_point(self):
        # L = -4u, B = 16u. 32 - 16 = 16; 2000 - 4000/4 - 16000/32 - 1000 = -500.
        self.assertEqual(self.step(3, 3, (0, 4096, 0), {4: 16}), {4: 16})
        self.assertEqual(self.step(3, 3, (16384, 2048, 0), {4: 1000}, {4: 1000}), {4: -500})

    def test_not_square(self):
        # At the value, L = -64, B = 16 + 4*64 = 272; beside it, L = 16, B = -64 - 4*16 = -128.
        # 32 - 64/4 - 272/32 = 7.5, away from zero 8; 16/4 + 128/32 = 8.
        for sign in (1, -1):
            self.assertEqual(self.step(4, 3, (16384, 2048, 0), {5: sign * 16}), {5: sign * 8, 6: sign * 8})
            self.assertEqual(self.step(3, 4, (16384, 2048, 0), {7: sign * 16}), {4: sign * 8, 7: sign * 8})

    def test_rounding(self):
        # 2 - 16*2048/65536 = 1.5.
        for value in (1, -1):
            self.assertEqual(self.step(3, 3, (0, 2048, 0), {4: value}), {4: 2 * value})

    def test_loss(self):
        # (2*12 - 48/8 - 192/64 - 8/2) / 1.5 = 11/1.5 = 7.33.
        self.assertEqual(self.step(3, 3, (8192, 1024, D // 2), {4: 12}, {4: 8}), {4: 7})

    def test_without_stiffness(self):
        # As a drumhead: 2*16 - 64/2 = 0 at 12, 16/2 beside it.
        self.assertEqual(self.step(5, 5, (32768, 0, 0), {12: 16}), {7: 8, 11: 8, 13: 8, 17: 8})

    def test_outer_ring(self):
        """5 x 4: points 6 to 8 and 11 to 13 move."""
        rest = [0] * 20
        for point in range(20):
            moves = point in (6, 7, 8, 11, 12, 13)
            self.assertEqual(calls.reading(7, 5, 4, on_grid(5, 4, {point: 1}), 0)[0], 0 if moves else 12)
            hit = calls.block(7, 5, 4, 0, 4096, 0, rest, rest, rest, [0], point, (point, 2**28))
            self.assertEqual((hit[0], hit[4]), ((1, 0, 0), [1]) if moves else ((0, 0, 7), [0]))

    def test_sizes(self):
        for columns, rows in ((3, 3), (64, 3), (3, 64), (64, 64), (5, 4), (4, 5)):
            self.assertEqual(refusal_at_rest(7, columns, rows, 0, 4096), 0, (columns, rows))
        for columns, rows in ((2, 3), (65, 3), (3, 2), (3, 65), (2, 64), (65, 64), (64, 2), (64, 65), (9, 1)):
            self.assertEqual(refusal_at_rest(7, columns, rows, 0, 0), 2, (columns, rows))

    def test_stable(self):
        for q, m in ((32768, 0), (0, 4096), (16384, 2048), (32760, 1), (8, 4095)):
            self.assertEqual(refusal_at_rest(7, 3, 4, q, m), 0, (q, m))
            self.assertEqual(refusal_at_rest(7, 3, 4, q + 1, m), 5, (q, m))
            self.assertEqual(refusal_at_rest(7, 3, 4, q, m + 1), 5, (q, m))

    def test_stiffness_of_other_kinds(self):
        for kind, rows, refusal in ((1, 1, 5), (2, 1, 5), (3, 1, 5), (4, 1, 0), (5, 3, 5), (6, 3, 5), (7, 3, 0)):
            self.assertEqual(refusal_at_rest(kind, 3, rows, 0, 1), refusal, kind)

    def test_kind_8(self):
        self.assertEqual(refusal_at_rest(8, 3, 3, 0, 0), 1)

    def test_pluck(self):
        """"1 now admits kind 7 except for plucks"."""
        level = [9] * 16
        self.assertEqual(calls.pluck(7, 4, 4, level, level, 5, 1, 100), (1, level, level))

    def test_sheet(self):
        """"The sheet's bending number serves unchanged"; rate 1 and spacing 1."""
        record = Sheet(1.0, 4.0, 0.03125, ("tension", 0.25, 1.0), ("per second", 0.5))
        self.assertEqual(calls.sheet(7, 5, 4, record), (0, (16384, 2048, 32768)))
        self.assertEqual(calls.sheet(7, 5, 4, record._replace(bending=0.0)), (0, (16384, 0, 32768)))
        for refusal, change in ((3, dict(speed=("hertz", 0.0))), (3, dict(speed=("hertz", 0.0), bending=2.0)),
                                (4, dict(bending=2.0)), (5, dict(bending=2049 / D)), (5, dict(speed=("tension", 16385 / D, 1.0)))):
            self.assertEqual(calls.sheet(7, 5, 4, record._replace(**change)), (refusal, (0, 0, 0)), change)
        # Half the spacing: the bending counts 16 times, the tension 4 times; by columns, not by rows.
        fine = record._replace(bending=2**-9, speed=("tension", 0.0625, 1.0))
        self.assertEqual(calls.sheet(7, 9, 3, fine), (0, (16384, 2048, 32768)))


class Pluck(unittest.TestCase):
    def test_rule_of_t(self):
        t = pluck.T
        self.assertEqual((len(t), t[0], t[1024]), (1025, 0, 65536))
        self.assertEqual(sorted(t), list(t))
        self.assertTrue(all(t[j] + t[1024 - j] == 65536 for j in range(1025)))

    def test_t_is_not_in_doubt(self):
        """The nearest half is at least 2^-20 away; the error is below 2^-120 (see pluck.py)."""
        bits, more = pluck.BITS, 2 * pluck.BITS
        pi, finer_pi = pluck.pi_units(bits), pluck.pi_units(more)
        for j in range(1025):
            value, finer = pluck.entry_units(j, bits, pi), pluck.entry_units(j, more, finer_pi)
            self.assertLess(abs((value << bits) - finer), 2 ** (more - 120))
            to_half = abs(value % 2**bits - 2 ** (bits - 1))
            self.assertGreater(to_half, 2 ** (bits - 20))
            self.assertLess(abs(pluck.T[j] * 2**bits - value), 2 ** (bits - 1))
            self.assertLess(abs(pluck.T[j] - 32768 * (1 - math.cos(math.pi * j / 1024))), 0.50001)

    def test_levels(self):
        # Entry 512 of T is 32768: -3/2 is cut to -1.
        refusal, older, newer = calls.pluck(1, 5, 1, [9] * 5, [-(2**63)] * 5, 2, 2, -3)
        self.assertEqual((refusal, older, newer), (0, [0, -1, -3, -1, 0], [0, -1, -3, -1, 0]))
        _, older, newer = calls.pluck(3, 4, 1, [9] * 4, [9] * 4, 0, 3, 65536)
        self.assertEqual(older, [65536, pluck.T[682], pluck.T[341], 0])
        self.assertEqual(older, newer)

    def test_nearly_all_of_t(self):
        _, older, _ = calls.pluck(3, 1024, 1, [0] * 1024, [0] * 1024, 0, 1023, 65536)
        self.assertEqual(older, [65536] + list(pluck.T[1022::-1]))
        _, mirrored, _ = calls.pluck(3, 1024, 1, [0] * 1024, [0] * 1024, 1023, 1023, 65536)
        self.assertEqual(mirrored, older[::-1])


def breaks(table):
    """The rules of a lent table that a table breaks: "begin at 0, end at 65536 and never fall", 1025 numbers."""
    falls = sum(table[j] > table[j + 1] for j in range(len(table) - 1))
    found = {"length": len(table) != 1025, "begin": table[:1] != [0], "end": table[-1:] != [65536], "fall": falls == 1,
             "falls": falls > 1}
    return {name for name, is_so in found.items() if is_so}


class LentTable(unittest.TestCase):
    """Request 7: "A pluck may take a lent table of 1025 numbers in place of T"."""

    base = dict(kind=1, columns=5, rows=1, older=[9, -2**63, 7, 2**63 - 1, 5], newer=[1, 2, 3, 4, 5], centre=2, half_width=3,
                height=1000)
    # The numbers that a pluck meets, and what gives each; none of them is a table.
    causes = ((1, dict(kind=0)), (1, dict(kind=5, columns=5, rows=5, older=[0] * 25, newer=[0] * 25, centre=12)),
              (1, dict(kind=6)), (1, dict(kind=7)), (1, dict(kind=8)), (1, dict(kind=2**64 - 1)), (2, dict(columns=2)),
              (2, dict(columns=1025)), (2, dict(rows=2)), (2, dict(rows=0)), (6, dict(older=[3] * 4)), (6, dict(newer=[3] * 6)),
              (6, dict(older=[], newer=[])), (7, dict(centre=0)), (7, dict(centre=4)), (7, dict(centre=5)),
              (8, dict(height=CEILING + 1)), (8, dict(height=-CEILING - 1)), (8, dict(height=-2**63)), (10, dict(half_width=0)),
              (10, dict(half_width=5)), (10, dict(half_width=2**64 - 1)))

    def filled(self, table, **change):
        """The level that an accepted pluck by a table puts in both places."""
        refusal, older, newer = calls.pluck_with(**{**self.base, **change}, table=list(table))
        self.assertEqual((refusal, older), (0, newer))
        self.assertIsNot(older, newer)
        return older

    def assert_refused(self, refusal, table, **change):
        """"it returns and leaves what 1 to 12 do": both levels as they were lent, and the table."""
        case, lent = {**self.base, **change}, list(table)
        self.assertEqual(calls.pluck_with(**case, table=lent), (refusal, case["older"], case["newer"]), (change, breaks(table)))
        self.assertEqual(lent, list(table))

    def test_worked_case(self):
        self.assertEqual(self.filled(pluck.T), [0, 749, 1000, 749, 0])
        self.assertEqual(self.filled(tables.STRAIGHT), [0, 666, 1000, 666, 0])
        self.assertEqual(self.filled(tables.STRAIGHT, height=-1000), [0, -666, -1000, -666, 0])

    def test_by_hand(self):
        """Distances 0 to 4 of half width 4 take entries 1024, 768, 512, 256 and 0; the ends of kind 3 move."""
        line = dict(kind=3, centre=0, half_width=4)
        table = [0] * 256 + [100] * 256 + [200] * 256 + [65535] * 256 + [65536]
        self.assertEqual(self.filled(table, **line, height=65536), [65536, 65535, 200, 100, 0])
        self.assertEqual(self.filled(table, **line, height=-700), [-700, -699, -2, -1, 0])
        self.assertEqual(self.filled(tables.LATE, **line, height=CEILING), [CEILING, 0, 0, 0, 0])
        self.assertEqual(self.filled(tables.EARLY, **line, height=-CEILING), [-CEILING] * 4 + [0])
        self.assertEqual(self.filled(tables.EARLY, **line, height=0), [0] * 5)

    def test_nearly_every_entry(self):
        """With height 65536 and half width 1023 the points are the entries themselves."""
        rest, line = [0] * 1024, dict(kind=3, columns=1024, half_width=1023, height=65536)
        for table in tables.pool("every entry"):
            level = self.filled(table, older=rest, newer=rest, centre=0, **line)
            self.assertEqual(level, [65536, *table[1022::-1]])
            self.assertEqual(self.filled(table, older=rest, newer=rest, centre=1023, **line), level[::-1])

    def plucks(self, draw, count):
        """The arguments of accepted plucks on small lines."""
        draw.odds = 0.0
        for _ in range(count):
            grid = (draw.choice(LINE_KINDS), draw.randint(3, 20), 1)
            yield dict(kind=grid[0], columns=grid[1], older=draw.level(grid), newer=draw.level(grid), centre=draw.point(grid, True),
                       half_width=draw.half_width(grid[1]), height=draw.force())

    def test_rule_against_fractions(self):
        """"Points are filled by the same rule as before"."""
        draw = draws.Draws("lent tables")
        for case in self.plucks(draw, 400):
            table, width = draw.choice(draws.TABLES), case["half_width"]
            for point, value in enumerate(self.filled(table, **case)):
                exact, distance = Fraction(0), abs(point - case["centre"])
                if distance <= width and point in instrument.moving_set(case["kind"], case["columns"], 1):
                    exact = Fraction(case["height"] * table[math.floor(Fraction(1024 * (width - distance), width))], 65536)
                self.assertEqual(value, math.trunc(exact))

    def test_shape(self):
        """The centre gets the height, and away from it no point is higher than the one before."""
        draw = draws.Draws("shapes")
        for case in self.plucks(draw, 400):
            level, centre = self.filled(draw.choice(draws.TABLES), **case), case["centre"]
            self.assertEqual(level[centre], case["height"])
            for side in (level[centre:], level[centre::-1]):
                self.assertEqual(sorted(map(abs, side), reverse=True), list(map(abs, side)))
                self.assertTrue(all(value * case["height"] >= 0 for value in side))

    def test_copy_of_t(self):
        """"A loaded copy of T must pluck exactly as the built-in one does", refused or not."""
        for case in self.plucks(draws.Draws("copies of T"), 300):
            self.assertEqual(self.filled(pluck.T, **case), calls.pluck(**{**self.base, **case})[1])
        for refusal, change in self.causes:
            self.assertEqual(calls.pluck(**{**self.base, **change})[0], refusal)
            self.assert_refused(refusal, pluck.T, **change)

    def test_mirrored_sum(self):
        """"the mirrored sum is not required of it"; nor must it rise."""
        has_sum = lambda table: all(table[j] + table[1024 - j] == 65536 for j in range(1025))
        self.assertTrue(has_sum(pluck.T) and has_sum(tables.STRAIGHT))
        for table in (tables.LATE, tables.EARLY, tables.stairs(3), [j * j // 16 for j in range(1025)],
                      tables.changed(pluck.T, 1, 1), tables.changed(tables.LATE, 1023, 1), tables.jump(512)):
            self.assertFalse(has_sum(table))
            self.assertEqual(self.filled(table)[2], 1000)

    def test_lengths(self):
        """"or has another length", whatever else holds of the table."""
        for table in tables.pool("lengths")[::3]:
            for place in (1, 2, 300, 512, 1022, 1023):
                for other in (tables.shorter(table, place), tables.longer(table, place)):
                    self.assertEqual(breaks(other), {"length"})
                    self.assert_refused(14, other)
            for other in (tables.doubled(table), [0, *table], [*table, 65536]):
                self.assertEqual(breaks(other), {"length"})
                self.assert_refused(14, other)
            for other in ([], [0], [65536], [0, 65536], [0, 5, 65536], table[:1024], table[1:], table[:-2], [*table, 0],
                          [*table, 2**32 - 1], table + table):
                self.assertIn("length", breaks(other))
                self.assert_refused(14, other)

    def test_beginning(self):
        for table in tables.pool("beginnings"):
            for least in (1, 2, 64, 32768, 65535, 65536):
                other = tables.raised(table, least)
                self.assertEqual((breaks(other), other[0]), ({"begin"}, least))
                self.assert_refused(14, other)

    def test_end(self):
        for table in tables.pool("ends"):
            for most in (0, 1, 32768, 65535):
                self.assertEqual(breaks(tables.lowered(table, most)), {"end"})
                self.assert_refused(14, tables.lowered(table, most))
            for entry in (65537, 2 * 65536, 2**31, 2**31 + 65536, 2**32 - 1):
                self.assertEqual(breaks(tables.ending(table, entry)), {"end"})
                self.assert_refused(14, tables.ending(table, entry))

    def test_one_fall(self):
        """At every place where one can be alone, by 1, also where no entry is above 65536."""
        for place in range(1, 1024):
            for table in (tables.LATE, pluck.T):
                other = tables.peak(table, place)
                self.assertEqual(breaks(other), {"fall"})
                self.assert_refused(14, other)
            if place > 1:
                other = tables.dip(tables.EARLY, place)
                self.assertEqual((breaks(other), max(other)), ({"fall"}, 65536))
                self.assert_refused(14, other)
        for by in (2, 500, 65536):
            self.assert_refused(14, tables.dip(tables.EARLY, 600, by))

    def test_entry_above_the_end(self):
        for place in (1, 2, 511, 512, 513, 1022, 1023):
            for entry in (65537, 2 * 65536, 2**31 - 1, 2**31, 2**32 - 65536, 2**32 - 1):
                for table in (tables.BUILT_IN, tables.LATE, tables.EARLY):
                    self.assertEqual(breaks(tables.changed(table, place, entry)), {"fall"})
                    self.assert_refused(14, tables.changed(table, place, entry))

    def broken(self):
        """One table of each break."""
        late = tables.LATE
        return ([], late[1:], [*late, 65536], tables.raised(late, 1), tables.lowered(late, 65535), tables.ending(late, 65537),
                tables.peak(late, 512), tables.changed(late, 1023, 2**32 - 1))

    def test_refused_by_14(self):
        """With nothing else wrong, for every kind of a line and whatever the levels hold."""
        for table in self.broken():
            for change in ({}, dict(kind=2), dict(kind=3, centre=4), dict(kind=4, half_width=1), dict(height=0),
                           dict(height=-CEILING), dict(older=[CEILING + 1] * 5, newer=[0] * 5)):
                self.assert_refused(14, table, **change)

    def test_order(self):
        """"checked after 10": 1, 2, 6, 7, 8 and 10 answer before it."""
        for refusal, change in self.causes:
            for table in (*self.broken(), tables.LATE):
                self.assert_refused(refusal, table, **change)

    def test_pairs_of_refusals(self):
        for low, first in self.causes:
            for high, second in self.causes:
                if low < high and not set(first) & set(second):
                    for table in (tables.STRAIGHT, []):
                        self.assert_refused(low, table, **{**second, **first})

    def test_accepted(self):
        """At the limits of the other numbers."""
        for change in (dict(height=CEILING), dict(height=-CEILING), dict(half_width=1), dict(half_width=4), dict(centre=1),
                       dict(centre=3), dict(kind=2, centre=4), dict(kind=3, centre=0), dict(kind=4),
                       dict(columns=3, older=[5] * 3, newer=[5] * 3, centre=1, half_width=2),
                       dict(columns=1024, older=[5] * 1024, newer=[5] * 1024, centre=1022, half_width=1023)):
            case = {**self.base, **change}
            self.assertEqual(self.filled(tables.STRAIGHT, **change)[case["centre"]], case["height"])


class DrawnTables(unittest.TestCase):
    """The tables of the comparison."""

    def test_pool(self):
        """All keep the rule; some have long equal stretches, others nearly none."""
        self.assertTrue(all(breaks(table) == set() for table in draws.TABLES))
        self.assertGreater(len({tuple(table) for table in draws.TABLES}), 40)
        long = [table for table in draws.TABLES if len(set(table)) < 10]
        self.assertGreater(len(long), 10)
        self.assertGreater(sum(len(set(table)) > 900 for table in draws.TABLES), 10)

    def test_draws(self):
        """Often T, often another one that keeps the rule, often one that breaks one rule alone."""
        draw, found, lengths = draws.Draws("tables"), {}, set()
        for _ in range(3000):
            table = draw.table()
            self.assertTrue(all(0 <= entry < 2**32 for entry in table))
            key = "T" if table == tables.BUILT_IN else frozenset(breaks(table))
            found[key] = found.get(key, 0) + 1
            lengths.add(len(table))
        self.assertGreater(found["T"], 400)
        self.assertGreater(found[frozenset()], 1000)
        for rule in ("length", "begin", "end", "fall"):
            self.assertGreater(found[frozenset({rule})], 60, rule)
        self.assertLessEqual({0, 1, 3, 1024, 1025, 1026, 2050}, lengths)


def as_float(x):
    """The double nearest to an exact fraction: whole-number division in Python rounds correctly."""
    return x.numerator / x.denominator


class SheetNumbers(unittest.TestCase):
    def test_order_against_fractions(self):
        """Each operation exactly in fractions, then rounded to the nearest double, in the paper's order."""
        draw = draws.Draws("sheet")
        over = lambda x, y: as_float(Fraction(x) / Fraction(y))
        times = lambda x, y: as_float(Fraction(x) * Fraction(y))
        for _ in range(300):
            columns = draw.randint(3, 1024)
            rate, length, bending, pitch, tension, density, number = (
                draw.uniform(1.0, 1000.0) for _ in range(7))
            g = columns - 1
            h = over(length, g)
            hertz = Sheet(rate, length, bending, ("hertz", pitch), ("per second", number))
            z = over(times(times(2, pitch), g), rate)
            self.assertEqual(sheet.squared_courant(columns, hertz), times(z, z))
            tight = Sheet(rate, length, bending, ("tension", tension, density), ("seconds", number))
            expected = over(over(over(tension, density), times(rate, rate)), times(h, h))
            self.assertEqual(sheet.squared_courant(columns, tight), expected)
            expected = over(over(over(bending, times(rate, rate)), times(h, h)), times(h, h))
            self.assertEqual(sheet.stiffness(columns, tight), expected)
            self.assertEqual(sheet.loss(hertz), over(number, rate))
            self.assertEqual(sheet.loss(tight), over(over(6.907755278982137, number), rate))

    def test_nearest(self):
        half = 0.5 / 65536
        self.assertEqual([sheet.nearest(x) for x in (0.0, -0.0, 5e-324, 1.0, 1.7976931348623157e308)],
                         [0, 0, 0, 65536, int(1.7976931348623157e308) * 65536])
        self.assertEqual([sheet.nearest(x) for x in (math.inf, -math.inf, math.nan)], [None] * 3)
        for k in (0, 1, 2, 7, 65535, 65536):
            x = k / 65536 + half
            found = [sheet.nearest(v) for v in (math.nextafter(x, 0.0), x, math.nextafter(x, 9.0))]
            self.assertEqual(found, [k, k + 1, k + 1])

    def test_division(self):
        d = sheet.divide
        self.assertEqual([d(1.0, 0.0), d(-1.0, 0.0), d(1.0, -0.0), d(math.inf, 0.0), d(1e308, 1e-308)],
                         [math.inf, -math.inf, -math.inf, math.inf, math.inf])
        self.assertTrue(all(math.isnan(x) for x in (d(0.0, 0.0), d(math.nan, 0.0), d(1.0, math.nan))))

    def answer(self, kind=1, columns=3, rows=1, **changes):
        return calls.sheet(kind, columns, rows, PLAIN._replace(**changes))

    def test_accepted(self):
        self.assertEqual(self.answer(), (0, (16384, 0, 0)))
        self.assertEqual(self.answer(bending=-0.0, loss=("per second", -0.0)), (0, (16384, 0, 0)))
        self.assertEqual(self.answer(speed=("tension", -0.0, 1.0)), (0, (0, 0, 0)))
        self.assertEqual(self.answer(kind=4, bending=0.125), (0, (16384, 8192, 0)))
        self.assertEqual(self.answer(kind=6, rows=3), (0, (16384, 0, 0)))
        self.assertEqual(self.answer(loss=("per second", 1.0)), (0, (16384, 0, 65536)))

    def test_refused(self):
        for refusal, changes in (
                (1, {"kind": 0}), (1, {"kind": 8}), (2, {"columns": 2}), (2, {"rows": 2}),
                (2, {"kind": 6, "rows": 4}), (3, {"rate": 0.0}), (3, {"rate": -0.0}),
                (3, {"length": 0.0}), (3, {"length": -1.0}), (3, {"bending": -5e-324}),
                (3, {"bending": math.inf}), (3, {"speed": ("hertz", math.nan)}),
                (3, {"speed": ("tension", 1.0, 0.0)}), (3, {"speed": ("tension", -1.0, 1.0)}),
                (3, {"loss": ("seconds", 0.0)}), (3, {"loss": ("seconds", -0.0)}),
                (3, {"loss": ("per second", -1.0)}), (3, {"kind": 5, "rows": 3, "speed": ("hertz", 0.0)}),
                (3, {"kind": 6, "rows": 3, "speed": ("hertz", 0.0)}),
                (4, {"speed": ("tension", 2.0, 1.0)}), (4, {"loss": ("per second", 1.0 + 0.5 / 65536)}),
                (4, {"length": 5e-324}), (4, {"rate": 5e-324}), (4, {"bending": 1.5}),
                (5, {"bending": 0.125}), (5, {"kind": 5, "rows": 3, "speed": ("tension", 0.75, 1.0)}),
                (5, {"kind": 4, "bending": 0.25, "speed": ("tension", 0.25, 1.0)})):
            self.assertEqual(self.answer(**changes), (refusal, (0, 0, 0)), changes)


class Refusals(unittest.TestCase):
    """Each number of block, pluck and reading; a refused call leaves everything as it was."""

    block_base = dict(kind=1, columns=4, rows=1, q=D, m=0, s=3, older=[0, 5, 6, 0], newer=[0, 7, 8, 0],
                      work=[1, 2, 3, 4], samples=[11, 12], pick_up=1, hit=(1, 100))
    high, low = CEILING + 1, -CEILING - 1

    def block_causes(self):
        return ((1, dict(kind=0)), (1, dict(kind=8)), (2, dict(columns=2)), (2, dict(rows=2)),
                (2, dict(columns=2**32, rows=2**32)), (4, dict(q=D + 1)), (4, dict(m=2**64 - 1)),
                (4, dict(s=D + 1)), (5, dict(m=1)), (5, dict(kind=4, m=1)),
                (6, dict(work=[0] * 3)), (6, dict(older=[0] * 5)), (6, dict(newer=[])),
                (7, dict(hit=(0, 1))), (7, dict(hit=(4, 1))), (7, dict(hit=(2**64 - 1, 1))),
                (8, dict(hit=(1, self.high))), (8, dict(hit=(2, -2**63))), (9, dict(pick_up=4)),
                (9, dict(pick_up=2**64 - 1)), (11, dict(older=[0, self.low, 0, 0])),
                (11, dict(newer=[0, 0, 0, self.high])), (12, dict(older=[1, 0, 0, 0])),
                (12, dict(newer=[0, 0, 0, -1])))

    def test_block(self):
        for refusal, change in self.block_causes():
            case = {**self.block_base, **change}
            expected = ((0, 0, refusal), case["older"], case["newer"], case["work"], case["samples"])
            self.assertEqual(calls.block(**case), expected, change)
            self.assertEqual(calls.block(**{**case, "samples": []})[0], (0, 0, refusal), change)

    def test_block_accepted(self):
        for change in ({}, dict(hit=None), dict(pick_up=0), dict(hit=(1, CEILING - 200)), dict(s=D),
                       dict(hit=(1, -CEILING + 200)), dict(kind=4), dict(kind=4, m=D // 4, q=0)):
            (steps, inexact, refusal), *_, work, _ = calls.block(**{**self.block_base, **change})
            self.assertEqual((steps, refusal, work), (2, 0, [0] * 4), change)
            # A refused one counts nothing of this.
            self.assertGreater(inexact, 0, change)

    def test_block_pairs(self):
        for low, first in self.block_causes():
            for high, second in self.block_causes():
                if low < high and not set(first) & set(second):
                    answer = calls.block(**{**self.block_base, **second, **first})[0]
                    self.assertEqual(answer, (0, 0, low), (first, second))

    def test_no_hit_no_7_or_8(self):
        case = {**self.block_base, "hit": None, "pick_up": 9}
        self.assertEqual(calls.block(**case)[0], (0, 0, 9))

    def test_pluck(self):
        base = dict(kind=4, columns=4, rows=1, older=[9] * 4, newer=[8] * 4, centre=1, half_width=2, height=5)
        for refusal, change in ((1, dict(kind=5)), (1, dict(kind=0)), (1, dict(kind=6, columns=4, rows=4)),
                                (1, dict(kind=8)), (2, dict(columns=1025)), (2, dict(rows=0)), (6, dict(older=[0] * 3)),
                                (6, dict(newer=[0] * 5)), (7, dict(centre=0)), (7, dict(centre=4)),
                                (8, dict(height=self.high)), (8, dict(height=-2**63)),
                                (10, dict(half_width=0)), (10, dict(half_width=4)),
                                (8, dict(height=self.low, half_width=0)), (7, dict(centre=3, height=self.low))):
            case = {**base, **change}
            self.assertEqual(calls.pluck(**case), (refusal, case["older"], case["newer"]), change)
        for change in (dict(height=CEILING), dict(height=-CEILING), dict(half_width=3), dict(half_width=1)):
            self.assertEqual(calls.pluck(**{**base, **change})[0], 0)

    def test_reading(self):
        base = dict(kind=2, columns=3, rows=1, newer=[0, 2**43 - 2**28, -2**42], pick_up=2)
        self.assertEqual(calls.reading(**base), (0, -0.5))
        for refusal, change in ((1, dict(kind=8)), (2, dict(columns=2)), (6, dict(newer=[0] * 4)),
                                (9, dict(pick_up=3)), (11, dict(newer=[0, 0, self.low])),
                                (11, dict(newer=[self.high, 0, 0])), (12, dict(newer=[1, 0, 0])),
                                (9, dict(pick_up=3, newer=[1, 0, self.high]))):
            self.assertEqual(calls.reading(**{**base, **change}), (refusal, 0.0), change)

    def test_fixed_points_of_each_kind(self):
        for grid in ((1, 5, 1), (2, 5, 1), (3, 5, 1), (4, 5, 1), (5, 4, 5), (6, 7, 7)):
            size = grid[1] * grid[2]
            moving = instrument.moving_set(*grid)
            for point in range(size):
                level = [0] * size
                level[point] = 1
                self.assertEqual(calls.reading(*grid, level, 0)[0], 0 if point in moving else 12)


def accepted_start(draw, kinds):
    """A grid, settings and two levels that 1, 2, 4, 5, 11 and 12 let pass."""
    draw.odds = 0.0
    kind = draw.choice(kinds)
    grid = (kind, *draw.size(kind, large=0.0))
    return grid, draw.settings(kind), *draw.levels(grid)


def even_start(draw, kinds):
    """The same; often the first steps from there are exact."""
    draw.odds = 0.0
    kind = draw.choice(kinds)
    grid = (kind, *draw.size(kind, large=0.0))
    settings = draw.choice((draw.settings, draw.even_settings))(kind)
    draw.unit = draw.choice((1, draw.unit_of(settings)))
    return grid, settings, *draw.levels(grid)


def exact_step(grid, settings, older, newer, hit=None):
    """One step in fractions: (2u + R L - mu^2 B - (1 - loss) p + f) / (1 + loss) at moving points, 0 at fixed ones."""
    r, stiffness, loss = (Fraction(x, D) for x in settings)
    first = instrument.laplacians(grid, newer)
    second = instrument.laplacians(grid, first)
    level = [Fraction(0)] * len(newer)
    for point in instrument.moving_set(*grid):
        force = hit[1] if hit is not None and hit[0] == point else 0
        level[point] = (2 * newer[point] + r * first[point] - stiffness * second[point]
                        - (1 - loss) * older[point] + force) / (1 + loss)
    return level


class Inexact(unittest.TestCase):
    """Request 3: "moving points whose numerator was not a multiple of D+s"."""

    def test_remainder(self):
        """"numerator less whole number x (D+s)", at most half of it, and 0 exactly for its multiples."""
        draw = draws.Draws("remainders")
        cases = [(n, d) for d in range(1, 24) for n in range(-80, 81)]
        for _ in range(3000):
            d = draw.choice((D, D + 1, 2 * D - 1, 2 * D, 2**28, draw.randint(D, 2 * D)))
            whole = draw.randint(-9, 9) if draw.rarely(0.5) else draw.randint(-2**50, 2**50)
            cases.append((whole * d + draw.choice((0, 1, -1, d // 2, -(d // 2), d // 2 + 1, draw.randint(-d, d))), d))
        exact = 0
        for n, d in cases:
            whole, remainder = step.round_half_away(n, d)
            self.assertEqual(whole, away_from_zero(Fraction(n, d)), (n, d))
            self.assertEqual(remainder, n - whole * d, (n, d))
            self.assertLessEqual(2 * abs(remainder), d, (n, d))
            self.assertEqual(remainder == 0, Fraction(n, d).denominator == 1, (n, d))
            exact += remainder == 0
        self.assertGreater(exact, 300)

    def test_remainder_by_hand(self):
        for n, d, whole, remainder in ((32768, D, 1, -32768), (-32768, D, -1, 32768), (32767, D, 0, 32767),
                                       (-32767, D, 0, -32767), (32769, D, 1, -32767), (0, D, 0, 0), (-D, D, -1, 0),
                                       (32768, D + 1, 0, 32768), (32769, D + 1, 1, -32768), (D + 1, D + 1, 1, 0),
                                       (D, D + 1, 1, -1), (-D, D + 1, -1, 1), (D, 2 * D, 1, -D), (-D, 2 * D, -1, D)):
            self.assertEqual(step.round_half_away(n, d), (whole, remainder), (n, d))

    def test_examples(self):
        """A to G; in C and D the numerators are 32768 and -32768."""
        middle = lambda value: on_grid(3, 3, {4: value})
        for grid, settings, older, newer, following, inexact in (
                ((1, 3, 1), (65536, 0, 0), [0, 1000, 0], [0, 1000, 0], [0, -1000, 0], 0),
                ((5, 3, 3), (32768, 0, 0), middle(1000), middle(1000), middle(-1000), 0),
                ((1, 3, 1), (16384, 0, 0), [0, 1, 0], [0, 1, 0], [0, 1, 0], 1),
                ((1, 3, 1), (16384, 0, 0), [0, -1, 0], [0, -1, 0], [0, -1, 0], 1),
                ((1, 3, 1), (0, 0, 65536), [0, 7, 0], [0, 3, 0], [0, 3, 0], 0),
                ((3, 3, 1), (65536, 0, 0), [0, 0, 0], [4, 0, 0], [0, 4, 0], 0),
                ((4, 5, 1), (0, 16384, 0), [0] * 5, [0, 0, 8, 0, 0], [0, 8, 4, 8, 0], 0)):
            self.assertEqual(step.one_step(grid, settings, older, newer, None), (following, inexact))
            answer = calls.block(*grid, *settings, older, newer, [7] * len(newer), [5], 0, None)
            self.assertEqual(answer, ((1, inexact, 0), newer, following, [0] * len(newer), [0]))
        for value in (1, -1):
            level = [0, value, 0]
            self.assertEqual(step.numerators((1, 3, 1), (16384, 0, 0), level, level, None), [0, 32768 * value, 0])

    def test_remainders_of_one(self):
        """With q 1 point 1 has the numerator that stands at point 2, here a multiple of D+s or beside it."""
        for s in (0, 1, 2, D - 1, D):
            for value, inexact in ((D + s, 0), (D + s - 1, 1), (D + s + 1, 1), (3 * (D + s), 0), (-(D + s), 0)):
                _, count = step.one_step((1, 4, 1), (1, 0, s), [0] * 4, [0, 0, value, 0], None)
                self.assertEqual(count, inexact + (2 * (D - 1) * value % (D + s) != 0), (s, value))

    def test_multiples_of_d(self):
        """With s D/2 twice D is no multiple of 3/2 D; with s D a hit of 1 is half of D+s, one of 2 is D+s."""
        rest = [0] * 3
        self.assertEqual(step.one_step((1, 3, 1), (0, 0, D // 2), rest, [0, 1, 0], None), ([0, 1, 0], 1))
        self.assertEqual(step.one_step((1, 3, 1), (0, 0, D // 2), rest, [0, 3, 0], None), ([0, 4, 0], 0))
        self.assertEqual(step.one_step((1, 3, 1), (0, 0, D), rest, rest, (1, 1)), ([0, 1, 0], 1))
        self.assertEqual(step.one_step((1, 3, 1), (0, 0, D), rest, rest, (1, 2)), ([0, 1, 0], 0))

    def uneven(self, grid):
        return on_grid(*grid[1:], {point: 1000 + 7 * point * point for point in instrument.moving_set(*grid)})

    def test_fixed_points_are_not_counted(self):
        """q 3 and s D-1: every moving point is inexact, and so would be the fixed ones beside them."""
        for grid, moving in (((1, 6, 1), 4), ((2, 6, 1), 5), ((3, 6, 1), 6), ((4, 6, 1), 4), ((5, 3, 3), 1),
                             ((5, 5, 4), 6), ((6, 7, 7), 25), ((6, 8, 8), 32), ((7, 4, 5), 6)):
            level = self.uneven(grid)
            rest = [0] * len(level)
            for steps in (0, 1, 5):
                answer = calls.block(*grid, 3, 0, D - 1, rest, level, rest, [9] * steps, 0, None)
                self.assertEqual(answer[0], (steps, steps * moving, 0), grid)

    def test_thirteen(self):
        """The step that would pass the ceiling adds nothing, inexact as it is."""
        for grid, moving in (((1, 6, 1), 4), ((3, 4, 1), 4), ((5, 4, 4), 4), ((7, 3, 3), 1)):
            for done in (0, 3, 5):
                older, newer, grow = self.uneven(grid), self.uneven(grid), CEILING // 9
                loud = max(instrument.moving_set(*grid))
                newer[loud] = CEILING - 5 - done * grow
                older[loud] = newer[loud] - grow
                answer, older, newer, _, _ = calls.block(
                    *grid, 1, 0, 0, older, newer, [7] * len(newer), [9] * 6, loud, None)
                self.assertEqual(answer, (done, done * moving, 13))
                following, count = step.one_step(grid, (1, 0, 0), older, newer, None)
                self.assertGreater(following[loud], CEILING)
                self.assertEqual(count, moving)

    def test_sum_held(self):
        """"held at 2^64 - 1 once it would pass that"."""
        most = 2**64 - 1
        for so_far, count, expected in (
                (0, 0, 0), (0, 4096, 4096), (5, 6, 11), (2**63 - 1, 1, 2**63), (2**63, 2**63 - 1, most),
                (2**63, 2**63, most), (most - 1, 0, most - 1), (most - 1, 1, most), (most - 1, 2, most),
                (most, 0, most), (most, 1, most), (most, 4096, most), (most - 4096, 4095, most - 1),
                (most - 4096, 4096, most)):
            self.assertEqual(step.sum_held(so_far, count), expected)

    def test_sum_of_a_block_is_held(self):
        """A block whose steps count as given, for no real one comes near."""
        level = [0, 5, 0]
        for given, expected in (([2**63, 2**63 - 2], 2**64 - 2), ([2**63, 2**63 - 1], 2**64 - 1),
                                ([2**63, 2**63], 2**64 - 1), ([2**64 - 1, 0, 7], 2**64 - 1),
                                ([2**62] * 3, 3 * 2**62), ([2**62] * 9, 2**64 - 1)):
            with mock.patch.object(calls, "one_step", side_effect=[(level, count) for count in given]):
                answer = calls.block(1, 3, 1, 0, 0, 0, level, level, level, [0] * len(given), 1, None)
            self.assertEqual(answer[0], (len(given), expected, 0))

    def test_sum_over_the_steps(self):
        """A block counts what its steps one by one count, and each what the fractions show that are not whole."""
        draw, larger = draws.Draws("sums"), 0
        for _ in range(150):
            grid, settings, older, newer = even_start(draw, KINDS)
            hit, samples, size = draw.hit(grid), draw.samples(), len(newer)
            (steps, inexact, _), after_older, after_newer, _, _ = calls.block(
                *grid, *settings, older, newer, [7] * size, samples, 0, hit)
            counts = []
            for _ in range(steps):
                exact = exact_step(grid, settings, older, newer, hit)
                answer, older, newer, _, _ = calls.block(*grid, *settings, older, newer, [7] * size, [0], 0, hit)
                self.assertEqual(answer, (1, sum(value.denominator > 1 for value in exact), 0))
                self.assertEqual(newer, [away_from_zero(value) for value in exact])
                counts.append(answer[1])
                hit = None
            self.assertEqual((inexact, after_older, after_newer), (sum(counts), older, newer))
            larger += inexact > max(counts, default=0)
        self.assertGreater(larger, 30)

    def test_string_without_loss(self):
        """R = 1, no loss: never inexact, and the levels are those of the fractions."""
        for kind in (1, 2, 3):
            grid, settings = (kind, 9, 1), (D, 0, 0)
            older, newer = self.uneven(grid), self.uneven(grid)[::-1] if kind != 2 else [0] * 9
            hit = (4, 12345677)
            answer, after_older, after_newer, _, _ = calls.block(
                *grid, *settings, older, newer, [7] * 9, [0] * 200, 0, hit)
            self.assertEqual(answer, (200, 0, 0))
            for _ in range(200):
                older, newer, hit = newer, exact_step(grid, settings, older, newer, hit), None
            self.assertEqual((after_older, after_newer), (older, newer))
            self.assertTrue(any(older) and any(newer))

    def test_first_inexact_step(self):
        """Before the first inexact step the levels are the fractions'; there as many points as counted leave them."""
        draw, exact_steps, with_loss, left = draws.Draws("first inexact"), 0, 0, 0
        for _ in range(200):
            grid, settings, older, newer = even_start(draw, KINDS)
            exact_older, exact_newer = older, newer
            for number in range(12):
                hit = draw.hit(grid) if draw.rarely(0.2) else None
                answer, after_older, after_newer, _, _ = calls.block(
                    *grid, *settings, older, newer, [7] * len(newer), [0], 0, hit)
                if answer[2]:
                    break
                older, newer = after_older, after_newer
                exact_older, exact_newer = exact_newer, exact_step(grid, settings, exact_older, exact_newer, hit)
                self.assertEqual(older, exact_older)
                self.assertEqual(sum(a != b for a, b in zip(newer, exact_newer)), answer[1])
                if answer[1]:
                    left += number > 0
                    break
                exact_steps += any(newer)
                with_loss += any(newer) and settings[2] > 0
        self.assertGreater(exact_steps, 300)
        self.assertGreater(with_loss, 30)
        self.assertGreater(left, 20)

    def test_step_of_count_0(self):
        """Where no point is inexact the step is the fraction's; else it is not."""
        draw, found = draws.Draws("count 0"), [0, 0]
        for _ in range(300):
            grid, settings, older, newer = even_start(draw, KINDS)
            hit = draw.hit(grid)
            level, count = step.one_step(grid, settings, older, newer, hit)
            self.assertEqual(level == exact_step(grid, settings, older, newer, hit), count == 0)
            found[count > 0] += any(level)
        self.assertGreater(min(found), 80)


class InPlace(unittest.TestCase):
    """Request 4: "the same samples, counts, refusals and levels as the three-level one"."""

    grids = (1, 6, 1), (2, 6, 1), (3, 6, 1), (4, 6, 1), (5, 5, 4), (6, 6, 6), (7, 5, 4)

    def played(self, grid, settings, older, newer, samples, pick_up=0, hit=None):
        """What both blocks answer and leave, after a look that it is the same and that the lent lists are not changed."""
        names = "kind", "columns", "rows", "q", "m", "s", "older", "newer", "samples", "pick_up", "hit", "work"
        values = *grid, *settings, list(older), list(newer), list(samples), pick_up, hit, [7] * len(newer)
        case = dict(zip(names, values))
        three, two = beside(case)
        self.assertEqual(two, three)
        self.assertEqual((case["older"], case["newer"], case["samples"]), (list(older), list(newer), list(samples)))
        return two

    def test_worked_case(self):
        """Point 2 would pass the ceiling in the second step, when point 1 has been tested."""
        outcome = self.played((1, 4, 1), (0, 0, 0), [0, -1, 6 * 10**12, 0], [0, 1, 7 * 10**12, 0], [99] * 3, 2)
        self.assertEqual(outcome, ((1, 0, 13), [0, 1, 7 * 10**12, 0], [0, 3, 8 * 10**12, 0], [29802, 99, 99]))

    def test_numbers_of_steps(self):
        """With q 0 the middle goes 4 3 2 .., a hit of 2 goes on as 2 more a step."""
        for steps, older, newer in ((0, 5, 4), (1, 4, 3), (2, 3, 2), (3, 2, 1), (4, 1, 0), (5, 0, -1)):
            outcome = self.played((1, 3, 1), (0, 0, 0), [0, 5, 0], [0, 4, 0], [99] * steps, 1)
            self.assertEqual(outcome, ((steps, 0, 0), [0, older, 0], [0, newer, 0], [0] * steps))
            outcome = self.played((1, 3, 1), (0, 0, 0), [0, 5, 0], [0, 4, 0], [99] * steps, 1, (1, 2))
            more = 2 * max(steps - 1, 0), 2 * steps
            self.assertEqual(outcome[1:3], ([0, older + more[0], 0], [0, newer + more[1], 0]))

    def test_samples(self):
        unit = 2**28
        outcome = self.played((3, 3, 1), (0, 0, 0), [0] * 3, [unit, 5 * unit, 9 * unit], [99] * 4, 1)
        self.assertEqual(outcome[3], [10, 15, 20, 25])

    def test_examples(self):
        """F and its slip, G, and a plate: as they stand in the paper and in Plate."""
        for grid, settings, newer, following in (
                ((3, 3, 1), (D, 0, 0), [4, 0, 0], [0, 4, 0]), ((3, 3, 1), (D, 0, 0), [0, 4, 0], [8, 0, 8]),
                ((4, 5, 1), (0, 16384, 0), [0, 0, 8, 0, 0], [0, 8, 4, 8, 0]),
                ((4, 5, 1), (0, 16384, 0), [0, 8, 0, 0, 0], [0, 6, 8, -2, 0]),
                ((7, 5, 5), (0, 4096, 0), on_grid(5, 5, {6: 16}),
                 on_grid(5, 5, {6: 14, 7: 8, 8: -1, 11: 8, 12: -2, 16: -1}))):
            outcome = self.played(grid, settings, [0] * len(newer), newer, [99])
            self.assertEqual(outcome[:3], ((1, 0, 0), newer, following))

    def test_laplacians_of_one_point(self):
        draw = draws.Draws("one point")
        for grid in self.grids:
            level = draw.level(grid)
            first = instrument.laplacians(grid, level)
            second = instrument.laplacians(grid, first)
            self.assertEqual([instrument.laplacian_at(grid, level, point) for point in range(len(level))], first)
            for point in instrument.moving_set(*grid):
                self.assertEqual(instrument.laplacian_twice_at(grid, level, point), second[point])

    def test_thirteen(self):
        """In step 1, 2, 3 or 4, at the first and at the last moving point alone, above and below zero, each kind."""
        grow = CEILING // 9
        for grid in self.grids:
            points = sorted(instrument.moving_set(*grid))
            for done in range(4):
                for loud in (points[0], points[-1]):
                    for sign in (1, -1):
                        newer = on_grid(*grid[1:], {point: point for point in points})
                        newer[loud] = sign * (CEILING - done * grow)
                        older = [0] * len(newer)
                        older[loud] = newer[loud] - sign * grow
                        outcome = self.played(grid, (0, 0, 0), older, newer, [99] * 6, points[1])
                        self.assertEqual(outcome[0], (done, 0, 13))
                        rest = [point for point in points if point != loud]
                        self.assertEqual([outcome[1][point] for point in rest], [done * point for point in rest])
                        self.assertEqual([outcome[2][point] for point in rest], [(done + 1) * point for point in rest])
                        self.assertEqual((outcome[2][loud], outcome[3][done:]), (sign * CEILING, [99] * (6 - done)))

    def test_thirteen_by_the_hit(self):
        """Point 2 becomes 10 and the force, exactly at the ceiling or one beyond; it would go on growing."""
        for force, steps in ((CEILING - 10, 1), (CEILING - 9, 0), (-CEILING, 1), (-CEILING // 3, 3)):
            outcome = self.played((1, 4, 1), (0, 0, 0), [0, 3, 0, 0], [0, 4, 5, 0], [99] * 4, 1, (2, force))
            self.assertEqual((outcome[0], outcome[1][1], outcome[2][1]), ((steps, 0, 13), 3 + steps, 4 + steps))

    def test_thirteen_is_not_counted(self):
        """Every moving point is inexact in every step, the one ended by 13 too."""
        grow = CEILING // 9
        for grid in self.grids:
            points = sorted(instrument.moving_set(*grid))
            for done in range(4):
                older = on_grid(*grid[1:], {point: 1000 + 7 * point * point for point in points})
                newer = list(older)
                newer[points[-1]] = CEILING - 5 - done * grow
                older[points[-1]] = newer[points[-1]] - grow
                outcome = self.played(grid, (1, 0, 0), older, newer, [99] * 6)
                self.assertEqual(outcome[0], (done, done * len(points), 13))

    def test_refusals(self):
        """Each number beside block; work, of whatever length, is not looked at."""
        base = Refusals.block_base
        for refusal, change in Refusals().block_causes():
            case = {**base, **change}
            for samples in ([], base["samples"]):
                three, two = beside({**case, "samples": samples})
                self.assertEqual(three[0], (0, 0, refusal))
                if "work" in change:
                    self.assertEqual(two, beside({**base, "samples": samples})[0])
                    self.assertEqual((two[0][0], two[0][2]), (len(samples), 0))
                else:
                    self.assertEqual(two, three, change)
                    self.assertEqual(two[1:], (case["older"], case["newer"], samples))

    def test_lengths(self):
        """"Refusal 6 looks at the two lengths only"."""
        base = without_work(Refusals.block_base)
        for name in ("older", "newer"):
            for length in (0, 1, 3, 5, 8):
                case = {**base, name: [0] * length}
                outcome = calls.block_in_place(**case)
                self.assertEqual(outcome, ((0, 0, 6), case["older"], case["newer"], case["samples"]), (name, length))
        self.assertEqual(calls.block_in_place(**{**base, "older": [0] * 3, "newer": [0] * 3})[0], (0, 0, 6))

    def test_pairs_of_refusals(self):
        causes = [(number, change) for number, change in Refusals().block_causes() if "work" not in change]
        for low, first in causes:
            for high, second in causes:
                if low < high and not set(first) & set(second):
                    three, two = beside({**Refusals.block_base, **second, **first})
                    self.assertEqual(two[0], (0, 0, low), (first, second))
                    self.assertEqual(two, three, (first, second))

    def test_sum_is_held(self):
        """A block whose steps count as given, for no real one comes near."""
        level = [0, 5, 0]
        for given, expected in (([2**63, 2**63 - 2], 2**64 - 2), ([2**63, 2**63], 2**64 - 1), ([2**62] * 9, 2**64 - 1)):
            with mock.patch.object(in_place, "overwrite", side_effect=given):
                answer = calls.block_in_place(1, 3, 1, 0, 0, 0, level, level, [0] * len(given), 1, None)
            self.assertEqual(answer[0], (len(given), expected, 0))

    def test_random_input(self):
        """Every kind, accepted and refused, with 13 in the first step and later; also with more than 64 points."""
        draw, found, long = draws.Draws("in place"), {}, {}
        draw.long = 0.1
        for number in range(1500):
            grid, settings, older, newer = (even_start if number % 2 else accepted_start)(draw, KINDS)
            if number % 5 == 0:
                settings, older, newer = draw.loud_at_the_end(grid)
            draw.odds = 0.03
            (steps, _, refusal), *_ = self.played(
                grid, settings, older, newer, draw.samples(), draw.point(grid), draw.hit(grid))
            key = grid[0], refusal, min(steps, 3)
            found[key] = found.get(key, 0) + 1
            if grid[1] * grid[2] > 64:
                long[key] = long.get(key, 0) + 1
        self.assertGreater(sum(count for (_, refusal, steps), count in long.items() if refusal == 0 and steps), 50)
        self.assertGreater(sum(count for (_, refusal, _), count in long.items() if refusal == 13), 20)
        for kind in KINDS:
            for refusal, steps in ((0, 0), (0, 1), (0, 2), (0, 3), (13, 0), (13, 1), (13, 2)):
                self.assertGreater(found.get((kind, refusal, steps), 0), 0, (kind, refusal, steps))
        self.assertLessEqual({7, 8, 9}, {refusal for _, refusal, _ in found})


class Book(unittest.TestCase):
    def watch_energy(self, draw, kinds, starts):
        """Never negative, never raised without a hit, kept without loss."""
        for _ in range(starts):
            grid, settings, older, newer = accepted_start(draw, kinds)
            scale, divisor = 1, D + settings[2]
            before = book.energy(grid, settings, older, newer)
            self.assertGreaterEqual(before, 0)
            for _ in range(6):
                hit = draw.hit(grid) if draw.rarely(0.3) else None
                older, newer, scale = book.unrounded_step(grid, settings, older, newer, scale, hit)
                after = book.energy(grid, settings, older, newer)
                self.assertGreaterEqual(after, 0)
                if hit is None:
                    self.assertLessEqual(after, before * divisor**2)
                    if settings[2] == 0:
                        self.assertEqual(after, before * divisor**2)
                before = after

    def test_energy(self):
        self.watch_energy(draws.Draws("energy"), KINDS, 250)

    def test_energy_of_plates(self):
        self.watch_energy(draws.Draws("energy of plates"), (7,), 100)

    def test_energy_by_hand(self):
        # Kind 3, newer "1 0 0", older zeros: only the first sum, and the free end counts half.
        self.assertEqual(book.energy((3, 3, 1), (D, 0, 0), [0, 0, 0], [1, 0, 0]), D)
        # Kind 4, both "0 1 0": two pairs and L = -2.
        self.assertEqual(book.energy((4, 3, 1), (5, 7, 0), [0, 1, 0], [0, 1, 0]), 2 * 5 * 2 + 2 * 7 * 4)
        # Kind 7, 4 x 3, a 1 at the first of its two moving points in both: four pairs, L = -4 and 1, 0 on the outer ring.
        plate = on_grid(4, 3, {5: 1})
        self.assertEqual(book.energy((7, 4, 3), (5, 7, 0), plate, plate), 2 * 5 * 4 + 2 * 7 * (16 + 1))

    def test_distance_by_hand(self):
        kept = book.Book([0] * 3, [0] * 3)
        kept.block(3, 3, 1, 0, 0, 0, [0] * 3, [0] * 3, None, 1, 0)
        self.assertEqual((kept.n, kept.scale, kept.newer), (1, D, [0] * 3))
        self.assertEqual(kept.distance([2, 3, 0]), (4 + 2 * 9) * D**2)
        # The bound is 3 * 1 * 4 / 16 = 3/4: a free end may be 1 away, the middle may not.
        self.assertTrue(kept.within_bound([1, 0, 0]))
        self.assertFalse(kept.within_bound([0, 1, 0]))

    def test_rules(self):
        zeros, ones = [0] * 3, [0, 1, 0]
        kept = book.Book(zeros, ones)
        self.assertTrue(kept.within_bound(ones))
        self.assertFalse(kept.within_bound(zeros))
        kept.block(1, 3, 1, D, 0, 0, zeros, zeros, (1, 5), 0, 0)
        self.assertEqual((kept.n, kept.last, kept.newer), (0, None, ones))
        kept.block(1, 3, 1, D, 0, 1, zeros, ones, (1, 5), 2, 2)
        self.assertEqual((kept.n, kept.scale), (2, (D + 1) ** 2))
        # u1 = 5 D/(D+1); u2 = 0 - (D-1)/(D+1), both times (D+1)^2.
        self.assertEqual((kept.older, kept.newer), ([0, 5 * D * (D + 1), 0], [0, -(D - 1) * (D + 1), 0]))
        kept.pluck(1, 3, 1, zeros, zeros, 0, 1, 9)
        self.assertEqual(kept.n, 2)
        kept.block(1, 3, 1, D, 0, 1, [0, 9, 0], [0, 9, 0], None, 1, 1)
        self.assertEqual(kept.n, 3)
        kept.block(1, 3, 1, D, 0, 2, [0, 4, 0], [0, 3, 0], None, 1, 1)
        self.assertEqual((kept.n, kept.newer), (1, [0, -(D - 2) * 4, 0]))
        kept.block(3, 3, 1, D, 0, 2, zeros, zeros, None, 1, 0)
        self.assertEqual((kept.n, kept.last), (1, ((3, 3, 1), (D, 0, 2))))
        kept.pluck(3, 3, 1, zeros, zeros, 0, 1, 9)
        self.assertEqual((kept.n, kept.scale, kept.older, kept.newer), (0, 1, [9, 0, 0], [9, 0, 0]))

    def test_pluck_by_a_lent_table(self):
        """An accepted one puts its levels into the book, with n 0; one refused by 14 or before changes nothing."""
        zeros = [0] * 5
        kept = book.Book(zeros, zeros)
        kept.block(1, 5, 1, 999, 0, 8, zeros, zeros, (2, 77), 3, 4)
        before = dict(vars(kept))
        for table, centre in ((tables.peak(tables.LATE, 512), 2), ([], 2), (tables.STRAIGHT, 0)):
            kept.pluck_with(1, 5, 1, zeros, zeros, centre, 3, 1000, table)
            self.assertEqual(vars(kept), before)
        kept.pluck_with(1, 5, 1, zeros, zeros, 2, 3, 1000, tables.STRAIGHT)
        level = [0, 666, 1000, 666, 0]
        self.assertEqual((kept.n, kept.scale, kept.inexact, kept.older, kept.newer), (0, 1, 0, level, level))
        self.assertEqual(kept.last, before["last"])
        self.assertTrue(kept.within_bound(level))
        self.assertFalse(kept.within_bound([0, 749, 1000, 749, 0]))

    def test_sum(self):
        """The counts since the book last took its levels: at its start, a pluck, a change of kind, grid or settings."""
        rest = [0] * 12
        plate, other = (7, 4, 3, 100, 10, 1), (7, 3, 4, 100, 10, 1)
        kept = book.Book(rest, rest)
        self.assertEqual(kept.inexact, 0)
        kept.block(*plate, rest, rest, None, 1, 2)
        kept.block(*plate, rest, rest, None, 2, 3)
        kept.block(*plate, rest, rest, None, 1, 0)
        self.assertEqual(kept.inexact, 5)
        # Nothing is taken: no step, or a refused pluck.
        kept.block(*plate, rest, rest, None, 0, 0)
        kept.block(*other, rest, rest, None, 0, 0)
        kept.pluck(1, 12, 1, rest, rest, 0, 1, 9)
        self.assertEqual(kept.inexact, 5)
        for used, count in ((other, 4), ((7, 4, 3, 101, 10, 1), 2), ((7, 4, 3, 101, 11, 1), 0),
                            ((7, 4, 3, 101, 11, 2), 1), ((7, 4, 3, 101, 0, 2), 3), ((5, 4, 3, 101, 0, 2), 2),
                            (plate, 3)):
            kept.block(*used, rest, rest, None, 1, count)
            self.assertEqual(kept.inexact, count, used)
        kept.pluck(1, 12, 1, rest, rest, 1, 1, 9)
        self.assertEqual(kept.inexact, 0)
        # The same settings as before the pluck.
        kept.block(*plate, rest, rest, None, 1, 1)
        self.assertEqual(kept.inexact, 1)

    def test_as_counted(self):
        """With a sum of 0 both levels times (D+s)^n must be the book's, with another sum need not."""
        zeros, ones, string = [0] * 3, [0, 1, 0], (1, 3, 1, D, 0, 0)
        for count in (0, 1):
            kept = book.Book(zeros, ones)
            self.assertFalse(kept.count_tells(zeros, ones))
            kept.block(*string, zeros, ones, (1, 5), 1, count)
            self.assertTrue(kept.as_counted(ones, [0, 5, 0]))
            self.assertEqual(kept.count_tells(ones, [0, 5, 0]), count == 0)
            for older, newer in ((ones, [0, 4, 0]), (zeros, [0, 5, 0]), (ones, [0, 5, 1]), ([0, 5, 0], ones),
                                 (ones, [0, 5])):
                self.assertEqual(kept.as_counted(older, newer), count > 0)
        kept = book.Book(zeros, zeros)
        kept.block(*string, zeros, zeros, None, 3, 0)
        self.assertTrue(kept.as_counted(zeros, zeros))
        self.assertFalse(kept.count_tells(zeros, zeros))
        kept.block(1, 3, 1, 0, 0, 1, zeros, [0, D + 1, 0], None, 1, 0)
        self.assertTrue(kept.as_counted([0, D + 1, 0], [0, 2 * D, 0]))
        self.assertTrue(kept.count_tells([0, D + 1, 0], [0, 2 * D, 0]))

    def keep_lists(self, draw, kinds, lists, start=accepted_start):
        """Random lists within the bound; the calls with the book at a distance, and those whose counts are 0."""
        far = exact = 0
        for _ in range(lists):
            grid, settings, older, newer = start(draw, kinds)
            kept = book.Book(older, newer)
            for _ in range(6):
                if draw.rarely(0.25):
                    grid = draw.choice([other for other in draws.same_size_grids(grid) if other[0] in kinds])
                    settings = draw.settings(grid[0])
                draw.odds = 0.02
                if draw.rarely(0.15):
                    args = (*grid, older, newer, draw.point(grid, True), draw.half_width(grid[1]), draw.force())
                    kept.pluck(*args)
                    _, older, newer = calls.pluck(*args)
                elif draw.rarely(0.1):
                    args = (*grid, older, newer, draw.point(grid, True), draw.half_width(grid[1]), draw.force(), draw.table())
                    kept.pluck_with(*args)
                    _, older, newer = calls.pluck_with(*args)
                else:
                    hit = draw.hit(grid)
                    answer, after_older, after_newer, _, _ = calls.block(
                        *grid, *settings, older, newer, [0] * len(newer), draw.samples(), 0, hit)
                    kept.block(*grid, *settings, older, newer, hit, *answer[:2])
                    older, newer = after_older, after_newer
                self.assertTrue(kept.within_bound(newer))
                self.assertTrue(kept.as_counted(older, newer))
                far += kept.n > 0 and kept.distance(newer) > 0
                exact += kept.count_tells(older, newer)
        return far, exact

    def test_bound_on_random_lists(self):
        self.assertGreater(self.keep_lists(draws.Draws("lists"), KINDS, 150)[0], 50)

    def test_bound_on_random_lists_of_plates(self):
        self.assertGreater(self.keep_lists(draws.Draws("lists of plates"), (7,), 100)[0], 50)

    def test_counts_on_random_lists(self):
        self.assertGreater(min(self.keep_lists(draws.Draws("counts"), KINDS, 150, even_start)), 100)


class Counting(Reference):
    """A reference whose blocks answer another count of inexact points."""

    def __init__(self, count):
        super().__init__()
        self.count = count

    def either_block(self, *arguments):
        refusal, steps, inexact, *after = super().either_block(*arguments)
        return (refusal, steps, self.count(inexact), *after)


class Parted(Reference):
    """A reference whose block in place gives something else than its block."""

    def __init__(self, other):
        super().__init__()
        self.other = other

    def block_in_place(self, *arguments):
        return self.other(*super().block_in_place(*arguments))


class OtherPluck(Reference):
    """A reference whose pluck by a copy of T gives something else."""

    def __init__(self, other):
        super().__init__()
        self.other = other

    def pluck_with(self, *arguments):
        outcome = super().pluck_with(*arguments)
        return self.other(*outcome) if arguments[-1] == tables.BUILT_IN else outcome


def play(library, lists=200, singles=0, odds=0.0, stop_at=None):
    """The counts of a comparison with so many lists and single calls."""
    playing = run.Run(library, "comparison", multiprocessing.Value("Q", 0, lock=False), stop_at)
    playing.draw.odds = odds
    for _ in range(lists):
        playing.one_list()
    for _ in range(singles):
        playing.one_call()
    return playing.counts


# Every list of the comparison with its mirror image.
all_mirrored = mock.patch.object(run, "MIRRORED", 1.0)


class Comparison(unittest.TestCase):
    """run.py: the lists and the single calls of the comparison."""

    def test_draws(self):
        """Lists whose counts stay 0 over steps, mirrored lists, blocks with inexact points are drawn often enough."""
        counts = play(Reference())
        self.assertTrue(counts["lists"] / 3 < counts["mirrored lists"] < counts["lists"] / 1.5)
        self.assertGreater(counts["exact lists"], counts["lists"] // 5)
        self.assertGreater(counts["exact calls"], counts["exact lists"])
        self.assertGreater(counts["inexact blocks"], 300)
        self.assertGreater(counts["inexact points"], 3 * counts["inexact blocks"])

    def test_long_sizes(self):
        """Around 64 points and a few times as many, right for the kind, with points where a piece of 64 ends or begins."""
        draw = draws.Draws("long sizes")
        draw.odds, draw.long = 0.0, 1.0
        for kind in KINDS:
            grids = [(kind, *draw.size(kind)) for _ in range(300)]
            self.assertTrue(all(draws.is_known(grid) for grid in grids))
            if kind in LINE_KINDS:
                self.assertLessEqual(set(draws.LONG_LINES), {columns for _, columns, _ in grids})
                self.assertGreater(sum(columns not in draws.LONG_LINES for _, columns, _ in grids), 30)
            self.assertGreater(sum(columns * rows > 64 for _, columns, rows in grids), 150)
            for grid in grids:
                self.assertIn(draw.point(grid, True), instrument.moving_set(*grid))
                self.assertLess(draw.point(grid), grid[1] * grid[2])
        points = [draw.point((3, 130, 1), True) for _ in range(500)]
        self.assertLessEqual({*range(62, 67), *range(126, 130)}, set(points))
        self.assertGreater(sum(point in draws.SEAMS for point in points), 150)

    def test_draws_of_both_blocks(self):
        """Lists use each block and both; single blocks are given to both, with 13 at every place, and with work of a wrong length."""
        counts = play(Reference())
        blocks, in_place = (sum(counts[key] for key in counts if key[0] == name) for name in ("block", "block_in_place"))
        self.assertGreater(min(blocks, in_place), 400)
        self.assertTrue(100 < counts["both"] < min(blocks, in_place) / 2)
        counts = play(Reference(), 0, 2500, 0.05)
        blocks, in_place = (sum(counts[key] for key in counts if key[0] == name) for name in ("block", "block_in_place"))
        self.assertEqual((blocks, in_place), (counts["both"], counts["both"]))
        for what, least in (("both, 13 first", 20), ("both, 13 later", 10), ("both, 13 last point", 10),
                            ("both, work of a wrong length", 10)):
            self.assertGreater(counts[what], least, what)

    def test_blocks_that_do_not_agree(self):
        """Where both sides agree on a block in place that is not as the block, the inputs given to both find it."""
        for other in (lambda refusal, steps, *rest: (refusal, steps + 1, *rest),
                      lambda refusal, steps, inexact, *rest: (refusal, steps, inexact + 1, *rest),
                      lambda refusal, steps, inexact, older, newer, samples: (refusal, steps, inexact, older, older, samples),
                      lambda refusal, steps, inexact, older, newer, samples: (refusal, steps, inexact, newer, newer, samples),
                      lambda *rest: (*rest[:5], [0] * len(rest[5])),
                      lambda refusal, *rest: (0 if refusal == 13 else refusal, *rest)):
            with mock.patch.object(run, "REFERENCE", Parted(other)), self.assertRaisesRegex(run.Difference, "^both blocks"):
                play(Parted(other), 0, 300)

    def test_stand_in(self):
        """The reference behind C functions, and its count of 0 written where a block is refused."""
        play(stand_in(), 40)
        arguments = 1, 3, 1, 16384, 0, 0, [0, 1, 0], [0, 1, 0], [7] * 3, [9] * 2
        self.assertEqual(stand_in().block(*arguments, 1, 0, 0, 0), (0, 2, 2, [0, 1, 0], [0, 1, 0], [0] * 3, [0] * 2))
        self.assertEqual(stand_in().block(*arguments, 3, 0, 0, 0), (9, 0, 0, *arguments[6:]))
        arguments = run.without_work(arguments)
        self.assertEqual(stand_in().block_in_place(*arguments, 1, 0, 0, 0), (0, 2, 2, [0, 1, 0], [0, 1, 0], [0] * 2))
        self.assertEqual(stand_in().block_in_place(*arguments, 3, 0, 0, 0), (9, 0, 0, *arguments[6:]))

    def test_stand_in_of_a_pluck_by_a_lent_table(self):
        arguments, level = (1, 5, 1, [9] * 5, [8] * 5, 2, 3, 1000), [0, 666, 1000, 666, 0]
        self.assertEqual(stand_in().pluck_with(*arguments, tables.STRAIGHT), (0, level, level, tables.STRAIGHT))
        for table in ([], [2**32 - 1] * 7, tables.ending(tables.LATE, 2**32 - 1)):
            self.assertEqual(stand_in().pluck_with(*arguments, table), (14, [9] * 5, [8] * 5, table))

    def test_draws_of_plucks(self):
        """Plucks by lent tables in lists and alone, accepted and refused by 14, copies of T beside the built-in pluck."""
        for lists, singles, odds in ((200, 0, 0.0), (0, 1500, 0.05)):
            counts = play(Reference(), lists, singles, odds)
            plucks, by_tables = (sum(counts[key] for key in counts if key[0] == name) for name in ("pluck", "pluck_with"))
            self.assertGreater(min(plucks, by_tables), 80)
            self.assertGreater(2 * by_tables, plucks)
            self.assertGreater(counts["pluck_with", 0], 30)
            self.assertGreater(counts["pluck_with", 14], 10)
            self.assertGreater(counts["copies of T"], 15)
        self.assertLessEqual({1, 2, 6, 7, 8, 10}, {key[1] for key in counts if key[0] == "pluck_with"})

    def test_copy_of_t_that_does_not_agree(self):
        """Where both sides agree on a pluck that by a copy of T is not as the built-in one, that is found."""
        for other in (lambda refusal, *rest: (refusal and 7, *rest),
                      lambda refusal, older, newer, table: (refusal, [0] * len(older), newer, table),
                      lambda refusal, older, newer, table: (refusal, older, [0] * len(newer), table)):
            for lists, singles, odds in ((300, 0, 0.1), (0, 600, 0.1)):
                with mock.patch.object(run, "REFERENCE", OtherPluck(other)), self.assertRaisesRegex(run.Difference, "^both plucks"):
                    play(OtherPluck(other), lists, singles, odds)

    def test_table_that_is_written_to(self):
        """A library that leaves a lent table otherwise than it was is found, also where the call is refused."""
        for change in (lambda table: table.append(table.pop() - 1), lambda table: table.sort(), list.reverse):
            def pluck_with(*arguments):
                outcome = calls.pluck_with(*arguments)
                if arguments[-1]:
                    change(arguments[-1])
                return outcome

            writing = stand_in(mock.Mock(wraps=calls, pluck_with=pluck_with))
            for lists, singles in ((300, 0), (0, 300)):
                with self.assertRaisesRegex(run.Difference, "^pluck_with"):
                    play(writing, lists, singles)

    def test_book_that_is_not_told_of_a_lent_table(self):
        with mock.patch.object(book.Book, "pluck_with"), self.assertRaisesRegex(run.Difference, "^distance beyond the bound"):
            play(Reference())

    def test_another_count_is_found(self):
        for count in (lambda inexact: 0, lambda inexact: inexact + 1, lambda inexact: min(inexact, 9),
                      lambda inexact: int(inexact > 0)):
            with self.assertRaisesRegex(run.Difference, "^block"):
                play(Counting(count))

    def test_levels_that_are_not_as_counted(self):
        """Where both sides agree on too small a count, the lists find it."""
        for count in (lambda inexact: 0, lambda inexact: max(inexact - 1, 0), lambda inexact: inexact // 3):
            with mock.patch.object(run, "REFERENCE", Counting(count)), \
                    self.assertRaisesRegex(run.Difference, "^no inexact point counted"):
                play(Counting(count))


class UpAndDown(unittest.TestCase):
    """Request 5: "negated levels, negated samples for the steps done, equal counts and equal refusals, all along"."""

    # By call: an outcome and its mirror image. In the first a later place is 0, its own negative.
    outcomes = (("block", (13, 2, 3, [0, 5, 0], [0, 6, -7], [4, 0, -4], [7, -8, 0, 9]),
                 (13, 2, 3, [0, -5, 0], [0, -6, 7], [4, 0, -4], [-7, 8, 0, 9])),
                ("block_in_place", (0, 1, 2, [0, 5, 0], [0, 6, -7], [7]), (0, 1, 2, [0, -5, 0], [0, -6, 7], [-7])),
                ("block_in_place", (8, 0, 0, [0, 5], [6], [7, 9]), (8, 0, 0, [0, -5], [-6], [7, 9])),
                ("pluck", (0, [0, 3, 1], [0, 3, 1]), (0, [0, -3, -1], [0, -3, -1])),
                ("pluck_with", (0, [0, 3, 1], [0, 3, 1], [0, 9]), (0, [0, -3, -1], [0, -3, -1], [0, 9])),
                ("pluck_with", (14, [0, 3], [0, 4, 1], [5]), (14, [0, -3], [0, -4, -1], [5])))

    def pair(self, name, *arguments):
        """The outcomes of a call and of its mirror image, after a look that one is the mirror image of the other."""
        call, image = getattr(Reference(), name), mirror.of_arguments(name, arguments)
        first, second = call(*arguments), call(*image)
        self.assertTrue(mirror.is_image(name, first, second), arguments)
        return first, second

    def blocks(self, *arguments):
        """Those of a block, without work; those of the block in place are the same."""
        three = tuple(run.left_without_work(outcome) for outcome in self.pair("block", *arguments))
        self.assertEqual(self.pair("block_in_place", *run.without_work(arguments)), three)
        return three

    def test_arguments(self):
        """Levels, force and height negated; all else the same, and the force without a hit."""
        before, lent = (4, 4, 1, 16384, 5, 8), ([1, -2, 3, -4], [11, -12], 3)
        levels, image = ([0, 5, -6, 0], [0, 7, 8, 0]), ([0, -5, 6, 0], [0, -7, -8, 0])
        for hit, force, negative in ((1, 100, -100), (2**64 - 1, -7, 7), (0, 100, 100)):
            self.assertEqual(mirror.of_arguments("block", (*before, *levels, *lent, hit, 2, force)),
                             (*before, *image, *lent, hit, 2, negative))
            self.assertEqual(mirror.of_arguments("block_in_place", (*before, *levels, *lent[1:], hit, 2, force)),
                             (*before, *image, *lent[1:], hit, 2, negative))
        for centre in (0, 2):
            self.assertEqual(mirror.of_arguments("pluck", (4, 4, 1, *levels, centre, 3, -77)),
                             (4, 4, 1, *image, centre, 3, 77))
            for table in (tables.LATE, [], [0, 2**32 - 1]):
                self.assertEqual(mirror.of_arguments("pluck_with", (4, 4, 1, *levels, centre, 3, -77, table)),
                                 (4, 4, 1, *image, centre, 3, 77, table))

    def test_arguments_without_negative(self):
        """-2^63 at a point of older or newer, as a force or a height; not in work, nor as the force without a hit."""
        low, rest = -2**63, [0, 0, 0]
        for older, newer, work, hit, strength, is_there in (
                (rest, rest, rest, 1, 5, True), ([low + 1, 0, 0], [0, low + 1, 0], rest, 1, low + 1, True),
                ([0, low, 0], rest, rest, 1, 5, False), (rest, [0, 0, low], rest, 1, 5, False),
                (rest, rest, rest, 1, low, False), (rest, rest, rest, 0, low, True),
                (rest, rest, [low, 0, 0], 1, 5, True)):
            block = 1, 3, 1, 0, 0, 0, older, newer, work, [9], 1, hit, 1, strength
            self.assertEqual(mirror.of_arguments("block", block) is not None, is_there)
            self.assertEqual(mirror.of_arguments("block_in_place", run.without_work(block)) is not None, is_there)
            pluck = 1, 3, 1, older, newer, 1, 1, strength
            self.assertEqual(mirror.of_arguments("pluck", pluck) is not None, is_there and strength != low)
            found = mirror.of_arguments("pluck_with", (*pluck, tables.LATE))
            self.assertEqual(found is not None, is_there and strength != low)

    def test_outcome(self):
        for name, outcome, image in self.outcomes:
            self.assertEqual(mirror.of_outcome(name, outcome), image)

    def test_outcome_in_every_part(self):
        for name, outcome, image in self.outcomes:
            self.assertTrue(mirror.is_image(name, outcome, image))
            for place, part in enumerate(image):
                other = [*part[:-1], part[-1] + 1] if isinstance(part, list) else part + 1
                found = *image[:place], other, *image[place + 1:]
                self.assertFalse(mirror.is_image(name, outcome, found), (name, found))

    def books(self):
        """The book of a list (a pluck, three steps, a hit in the first), its newer, the book of its mirror image."""
        kept = []
        for sign in (1, -1):
            start, level, hit = [7 * sign] * 5, [sign * value for value in (0, 1, 3, 1, 0)], (1, 5 * sign)
            kept.append(book.Book(start, start))
            kept[-1].pluck(1, 5, 1, start, start, 2, 2, 3 * sign)
            answer, _, newer, _ = calls.block_in_place(1, 5, 1, 999, 0, 8, level, level, [9] * 3, 1, hit)
            kept[-1].block(1, 5, 1, 999, 0, 8, level, level, hit, *answer[:2])
        return kept[0], [-value for value in newer], kept[1]

    def test_books(self):
        """n, last step, sum, energy and distance are those of the list's book, the levels their negatives."""
        first, newer, second = self.books()
        self.assertTrue(mirror.is_image_book(first, newer, second))
        self.assertEqual((second.n, second.last), (3, ((1, 5, 1), (999, 0, 8))))
        self.assertEqual((second.older, second.newer), ([-x for x in first.older], [-x for x in first.newer]))
        self.assertEqual(second.energy(), first.energy())
        self.assertEqual(second.distance([-x for x in newer]), first.distance(newer))
        self.assertGreater(min(second.inexact, second.energy(), first.distance(newer)), 0)
        self.assertTrue(mirror.is_image_book(book.Book([3], [4]), [4], book.Book([-3], [-4])))

    def test_books_in_every_part(self):
        """Energy and distance, which levels and last step give, answer 7 here, so that each part is seen alone."""
        for name, other in (("older", [0] * 5), ("newer", [0] * 5), ("n", 2), ("scale", 1), ("inexact", 0),
                            ("last", ((4, 5, 1), (999, 0, 8))), ("energy", lambda: 8), ("distance", lambda newer: 8)):
            first, newer, second = self.books()
            with mock.patch.multiple(book.Book, energy=lambda kept: 7, distance=lambda kept, newer: 7):
                self.assertTrue(mirror.is_image_book(first, newer, second))
                setattr(second, name, other)
                self.assertFalse(mirror.is_image_book(first, newer, second), name)

    def test_c_and_d(self):
        c, d = self.pair("block", 1, 3, 1, 16384, 0, 0, [0, 1, 0], [0, 1, 0], [7] * 3, [5], 1, 0, 0, 0)
        self.assertEqual(c, (0, 1, 1, [0, 1, 0], [0, 1, 0], [0] * 3, [0]))
        self.assertEqual(d, (0, 1, 1, [0, -1, 0], [0, -1, 0], [0] * 3, [0]))

    def test_hit(self):
        """The listing of ring, struck from above and from below."""
        rest = [0] * 3
        first, second = self.blocks(1, 3, 1, D, 0, 0, rest, rest, rest, [9] * 4, 1, 1, 1, 268435456)
        self.assertEqual((first[:2], first[5]), ((0, 4), [1, 0, -1, 0]))
        self.assertEqual((second[:2], second[5]), ((0, 4), [-1, 0, 1, 0]))

    def test_pluck(self):
        """Entry 512 of T is 32768: 3/2 and -3/2 are cut to 1 and -1."""
        above, below = [0, 1, 3, 1, 0], [0, -1, -3, -1, 0]
        self.assertEqual(self.pair("pluck", 1, 5, 1, [9] * 5, [8] * 5, 2, 2, 3), ((0, above, above), (0, below, below)))

    def test_pluck_by_a_lent_table(self):
        """"It covers plucks of negated height too": by the same table, refused by 14 or not."""
        for table, height, above in ((tables.STRAIGHT, 1000, [0, 666, 1000, 666, 0]), (tables.STRAIGHT, 1, [0, 0, 1, 0, 0]),
                                     (tables.LATE, CEILING, [0, 0, CEILING, 0, 0])):
            below = [-value for value in above]
            self.assertEqual(self.pair("pluck_with", 1, 5, 1, [9] * 5, [8] * 5, 2, 3, height, table),
                             ((0, above, above, table), (0, below, below, table)))
        table = tables.peak(tables.LATE, 9)
        self.assertEqual(self.pair("pluck_with", 1, 5, 1, [9] * 5, [8] * 5, 2, 3, 7, table),
                         ((14, [9] * 5, [8] * 5, table), (14, [-9] * 5, [-8] * 5, table)))

    def test_samples(self):
        """"This rests on the read-out rounding to nearest"; q, m and s 0, older as newer."""
        for value, sample in ((3, 0), (2**27 - 1, 0), (2**27, 1), (3 * 2**27, 2), (CEILING, 32767)):
            level = [0, value, 0]
            first, second = self.blocks(1, 3, 1, 0, 0, 0, level, level, [7] * 3, [9, 9], 1, 0, 0, 0)
            self.assertEqual((first[5], second[5]), ([sample] * 2, [-sample] * 2))

    def test_thirteen(self):
        """With q 0 the middle grows by 9362 sample units a step; from the step not done on the lent places stay."""
        grow = 9362 * 2**28
        for steps, above, below in ((0, [7, 8, 9], [7, 8, 9]), (1, [32767, 8, 9], [-32767, 8, 9]),
                                    (2, [23405, 32767, 9], [-23405, -32767, 9])):
            newer = CEILING - steps * grow
            levels = [0, newer - grow, 0], [0, newer, 0], [4] * 3
            first, second = self.blocks(1, 3, 1, 0, 0, 0, *levels, [7, 8, 9], 1, 0, 0, 0)
            self.assertEqual(first, (13, steps, 0, [0, CEILING - grow, 0], [0, CEILING, 0], above))
            self.assertEqual(second, (13, steps, 0, [0, grow - CEILING, 0], [0, -CEILING, 0], below))

    def test_refused(self):
        """7, 8, 11 and 12, by a number above zero and by one below."""
        for sign in (1, -1):
            rest, beyond = [0] * 4, sign * (CEILING + 1)
            for refusal, older, newer, point, force in (
                    (7, rest, rest, 0, sign), (7, rest, rest, 3, sign * CEILING), (8, rest, rest, 1, beyond),
                    (11, [0, beyond, 0, 0], rest, 1, 5), (11, rest, [0, 0, 0, beyond], 1, 5),
                    (12, [sign, 0, 0, 0], rest, 1, 5), (12, rest, [0, 0, 0, sign], 1, 5)):
                first, second = self.blocks(1, 4, 1, D, 0, 0, older, newer, [4] * 4, [7, 8], 1, 1, point, force)
                self.assertEqual(first, (refusal, 0, 0, older, newer, [7, 8]))
                self.assertEqual(second, (refusal, 0, 0, [-x for x in older], [-x for x in newer], [7, 8]))
            for refusal, centre, height in ((7, 0, sign), (8, 1, beyond)):
                lent = [sign, 2, 3, 4], [5, 6, 7, beyond]
                first, second = self.pair("pluck", 1, 4, 1, *lent, centre, 1, height)
                self.assertEqual(first, (refusal, *lent))
                self.assertEqual(second, (refusal, *([-x for x in level] for level in lent)))

    def recorded(self, lists):
        """The counts of lists of the comparison, and the calls that were made, each a name and arguments."""
        library = mock.Mock(wraps=Reference())
        counts = play(library, lists)
        return counts, [(name, arguments) for name, arguments, _ in library.method_calls]

    @all_mirrored
    def test_random_lists(self):
        """Every kind, plucks, hits, refused calls and 13; after each call its mirror image, which is counted too."""
        counts, made = self.recorded(150)
        for (name, arguments), image in zip(made[::2], made[1::2]):
            self.assertEqual(image, (name, mirror.of_arguments(name, arguments)))
        self.assertEqual((counts["mirrored lists"], 2 * counts["mirrored calls"]), (150, len(made)))
        self.assertEqual(sum(counts[key] for key in counts if isinstance(key, tuple)), len(made))
        for what in ("mirrored lists with hits", "mirrored, refused", "mirrored, 13 first", "mirrored, 13 later",
                     "mirrored plucks", "mirrored plucks by lent tables", *(f"kind {kind}" for kind in KINDS)):
            self.assertGreater(counts[what], 3, what)
        self.assertGreater(counts["mirrored plucks"], counts["mirrored plucks by lent tables"])

    @all_mirrored
    def test_random_lists_without_negative(self):
        """The mirror image of a list ends before a call that has none."""
        counts = play(Reference(), odds=0.3)
        self.assertGreater(counts["mirror images ended"], 0)
        self.assertEqual(counts["mirrored lists"] + counts["mirror images ended"], counts["lists"])

    def test_same_calls_again(self):
        """The call during which a process ended is found by its number, the mirror image of a call too."""
        _, made = self.recorded(20)
        for number in range(1, 60, 7):
            with self.assertRaises(run.Difference) as ended:
                play(Reference(), 20, stop_at=number)
            self.assertTrue(str(ended.exception).startswith(run.written(*made[number - 1])))

    @all_mirrored
    def test_wrong_calls(self):
        """A wrong copy of the calls, on both sides, beside its own mirror image; both calls are told."""
        for edit in must_fail.ONE_SIDED:
            wrong = wrong_stand_in(edit)
            with self.subTest(edit[0]), mock.patch.object(run, "REFERENCE", wrong), \
                    self.assertRaisesRegex(run.Difference, r"^not the mirror image\n(\w+)\(.*\)\n\1\(.*\)\n"):
                play(wrong, 1000, odds=0.1)

    @all_mirrored
    def test_book_that_is_not_alike(self):
        with mock.patch.object(mirror, "is_image_book", return_value=False), \
                self.assertRaisesRegex(run.Difference, "^not the book of the mirror image"):
            play(Reference(), 1)


if __name__ == "__main__":
    run_tests(__doc__)
