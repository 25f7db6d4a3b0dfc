"""The formulas of bounds.py: on runs that come near them, and against wrong formulas, which these runs pass.

    python3 test_bounds.py
"""

import math
import unittest
from fractions import Fraction

import bounds
from arguments import run_tests
from book import Book, energy
from instrument import D, GRID_KINDS, free_ends, moving_set
from step import one_step, round_half_away, sample


def run(grid, settings, older, newer, steps, hits=lambda book, older, newer: None):
    """(S, book, newer) after so many steps, with S the squared distances summed, a free end counted half."""
    book = Book(older, newer)
    book.last = grid, settings
    for _ in range(steps):
        hit = hits(book, older, newer)
        older, newer = newer, one_step(grid, settings, older, newer, hit)[0]
        book.step(hit)
    return Fraction(book.distance(newer), 2 * book.scale**2), book, newer


def resonance(book, older, newer):
    """Kind 1, 3 points, q D - 1, s 0: a hit after which the next step rounds away from the error of now."""
    error = newer[1] * book.scale - book.newer[1]
    wanted = 16384 if error <= 0 else 16383
    return 1, wanted - round_half_away(2 * newer[1] - D * older[1], D)[0]


class Bounds(unittest.TestCase):
    def held(self, found):
        """S of a run whose bounds all hold."""
        total, book, newer = found
        self.assertEqual(bounds.passed(book, newer), [])
        return total

    def test_string_at_rest(self):
        """The engine rests on a parabola that the unrounded string leaves: steps not squared, no growth with n."""
        grid, settings = (1, 64, 1), (32767, 0, 0)
        level = [k * (63 - k) // 2 for k in range(64)]
        total = self.held(run(grid, settings, level, level, 89))
        bound = bounds.linear(bounds.by_tension, grid, settings, 89)
        self.assertGreater(total, bound / 63)
        self.assertGreater(total, bound / 89**2)

    def test_free_string(self):
        """No edge holds kind 3."""
        grid, settings = (3, 3, 1), (D, 0, 1)
        total = self.held(run(grid, settings, [0] * 3, [16384] * 3, 200))
        self.assertGreater(total, bounds.linear(bounds.by_tension, (1, 3, 1), settings, 200))

    def test_condition_of_for_ever(self):
        total = self.held(run((1, 3, 1), (1, 0, 8192), [0, 18431, 0], [0, 18431, 0], 30000))
        self.assertGreater(total, Fraction(D * 3 * (D + 8192) ** 2, 4 * 8192**2))

    def test_condition_of_heavy_loss(self):
        """Without loss hits can drive the error on and on."""
        total = self.held(run((1, 3, 1), (D - 1, 0, 0), [0, 16384, 0], [0, 16384, 0], 400, resonance))
        self.assertGreater(total, Fraction(4 * 3 * D**2, (D - 1) ** 2))

    def test_one_step(self):
        """A point that is off by a half: 64 for 16, and 64 for 4 in the linear bound by loss."""
        total = self.held(run((1, 3, 1), (1, 0, 0), [0, 16384, 0], [0, 16384, 0], 1))
        self.assertGreater(total, bounds.demanded((1, 3, 1), (1, 0, 0), 1) / 4)
        total = self.held(run((1, 3, 1), (D // 2, 0, D), [0] * 3, [0, 1, 0], 1))
        self.assertGreater(total, bounds.loss_linear((1, 3, 1), (D // 2, 0, D), 1) / 16)

    def part_taken(self, holding, grid, settings, level):
        """The part of what the energy allows that the squares of a level take, newer and older the same."""
        free = sum(level[k] ** 2 for k in free_ends(*grid[:2]))
        squares = 2 * (2 * sum(x * x for x in level) - free)
        hold, far = holding(grid, settings)
        return Fraction(hold * squares, far * energy(grid, settings, level, level))

    def level_held(self, holding, settings, kinds, waves):
        """A point alone between fixed ones takes all that is allowed; half a wave, a quarter where an end is free, takes nearly all."""
        for kind in kinds:
            grid = kind, 3, 3 if kind in GRID_KINDS else 1
            level = [0] * (grid[1] * grid[2])
            level[len(level) // 2] = 1
            self.assertEqual(self.part_taken(holding, grid, settings, level), 1)
        for kind, columns, rows in waves:
            across = [math.sin(math.pi * k / (columns - 1) / (2 if kind == 2 else 1)) for k in range(columns)]
            down = [math.sin(math.pi * k / (rows - 1)) for k in range(rows)] if rows > 1 else [1]
            level = [round(10**6 * x * y) for y in down for x in across]
            part = self.part_taken(holding, (kind, columns, rows), settings, level)
            self.assertLessEqual(part, 1)
            self.assertGreater(part, Fraction(9, 10))

    def test_levels_held_by_tension(self):
        self.level_held(bounds.by_tension, (16384, 0, 0), (1, 4, 5, 6, 7),
                        ((1, 32, 1), (2, 32, 1), (4, 32, 1), (5, 32, 21), (7, 21, 32)))

    def test_levels_held_by_stiffness(self):
        self.level_held(bounds.by_stiffness, (0, 4096, 0), (4, 7), ((4, 32, 1), (7, 32, 21), (7, 21, 32)))

    def test_plate(self):
        """Its edge holds it, by tension and by stiffness."""
        grid, settings = (7, 6, 8), (8192, 3072, 0)
        level = [1000 * (point % 7) if point in moving_set(*grid) else 0 for point in range(48)]
        self.held(run(grid, settings, level, level, 300))
        found = bounds.all_bounds(grid, settings, 300)
        self.assertLess(found["linear"], found["demanded"])
        self.assertLess(found["stiffLinear"], found["demanded"])

    def test_example_voice(self):
        """VoiceForEver: a 50th of a sample unit; VoiceSamples: with the read-out 26/50."""
        bound = bounds.for_ever(bounds.by_tension, (1, 101, 1), (11378, 0, 8))
        self.assertLessEqual(bound, Fraction(2**56, 50**2))
        self.assertGreater(bound, Fraction(2**56, 60**2))
        self.assertLessEqual(bound, ((Fraction(26, 50) - Fraction(1, 2)) * 2**28) ** 2)

    def error(self, found, pick_up):
        """How far the sample of a run lies from the unrounded scheme, in sample units; all its bounds hold."""
        _, book, newer = found
        self.assertEqual(bounds.sample_passed(book, pick_up, sample(newer[pick_up])), [])
        return abs(sample(newer[pick_up]) - Fraction(book.newer[pick_up], 2**28 * book.scale))

    def test_half_of_a_sample_unit(self):
        """A level at a half, exact: the read-out alone takes half a sample unit, so half of that is too little."""
        for value in (2**27, -(2**27), 3 * 2**27):
            level = [0, value, 0]
            self.assertEqual(self.error(run((1, 3, 1), (0, 0, 0), level, level, 1), 1), Fraction(1, 2))

    def test_sample_beyond_half(self):
        """2^27 - 1/2 becomes 2^27, and that reads 1: half a unit more than half a sample unit."""
        u = (2**28 - 1) // 3
        error = self.error(run((1, 3, 1), (D // 4, 0, 0), [0] * 3, [0, u, 0], 1), 1)
        self.assertEqual(error, Fraction(1, 2) + Fraction(1, 2**29))

    def test_voice_within_24_of_50(self):
        """The read-out alone takes a sample of the example voice further."""
        level = [0] * 101
        level[50] = 81217611
        error = self.error(run((1, 101, 1), (11378, 0, 8), [0] * 101, level, 1), 50)
        self.assertGreater(error, Fraction(24, 50))
        self.assertLess(error, Fraction(26, 50))

    def test_sample_beside_the_last_step(self):
        """Two steps of the paper's listing, 0 and -1: the first sample passes every bound beside the book of the second."""
        run_of = (1, 3, 1), (D, 0, 0), [0] * 3, [0, 2**28, 0]
        _, book, newer = run(*run_of, 1)
        _, later, _ = run(*run_of, 2)
        self.assertEqual(sample(newer[1]), 0)
        self.assertEqual(bounds.sample_passed(book, 1, 0), [])
        self.assertEqual(bounds.sample_passed(later, 1, 0), list(bounds.all_bounds(*later.last, 2)))

    def test_wrong_sample_passes(self):
        """The next sample, or the one before, passes every bound; at a free end more is allowed."""
        for grid, pick_up in (((1, 3, 1), 1), ((3, 3, 1), 0)):
            _, book, newer = run(grid, (D // 4, 0, D // 8), [0] * 3, [0, 5 * 2**28, 0], 4)
            right = sample(newer[pick_up])
            for wrong in (right - 1, right + 1):
                self.assertEqual(bounds.sample_passed(book, pick_up, wrong), list(bounds.all_bounds(*book.last, 4)))

    def test_free_end_counts_half(self):
        """A sample whose square beyond half lies between the bound and twice it passes away from a free end only."""
        for grid, expected in (((1, 3, 1), ["demanded"]), ((3, 3, 1), [])):
            book = Book([0] * 3, [0] * 3)
            book.last, book.n = (grid, (0, 0, 0)), 1
            # One unit beyond half: its square lies between the bound, 3/4, and twice it.
            book.newer[0] = 2**27 + 1
            self.assertEqual(bounds.sample_passed(book, 0, 0), expected)


if __name__ == "__main__":
    run_tests(__doc__)
