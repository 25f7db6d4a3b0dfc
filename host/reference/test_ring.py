"""Tests of ring.py: the paper's listing, both sides of each rule of its passage."""

import unittest

import calls
from arguments import run_tests
from instrument import CEILING
from ring import request, ring
from ring_runs import RUNS

PAPER = b"1 3 1 65536 0 0 1 4 1 268435456"


def line(kind=1, columns=3, rows=1, q=65536, m=0, s=0, pick_up=1, steps=4, point=1, force=2**28):
    """A line, by default the paper's."""
    return f"{kind} {columns} {rows} {q} {m} {s} {pick_up} {steps} {point} {force}".encode()


class Listing(unittest.TestCase):
    def test_paper(self):
        self.assertEqual(line(), PAPER)
        for end in (b"", b"\n", b"\nmore", b"\n" + PAPER):
            self.assertEqual(ring(PAPER + end), "1 1\n2 0\n3 -1\n4 0\ndone 4 0\n")

    def test_hit_is_always_given(self):
        """Point 0 is fixed: a hit there is refused 7, "force 0 too"."""
        self.assertEqual(ring(line(point=0, force=0)), "done 0 7\n")
        self.assertEqual(ring(line(force=0, steps=2)), "1 0\n2 0\ndone 2 0\n")
        self.assertEqual(ring(line(force="-0", steps=1)), "1 0\ndone 1 0\n")

    def test_sample(self):
        """"the nearest whole number, halves away from zero"; the first step puts the force at the hit point."""
        for force, sample in ((1, 0), (3, 0), (2**27 - 1, 0), (2**27, 1), (2**27 + 1, 1), (2**28, 1),
                              (3 * 2**27 - 1, 1), (3 * 2**27, 2), (5 * 2**27, 3), (8 * 10**12, 29802),
                              (CEILING, 32767)):
            for sign in (1, -1):
                self.assertEqual(ring(line(force=sign * force, steps=1)), f"1 {sign * sample}\ndone 1 0\n")

    def test_fading(self):
        """The stored runs that fade: they end in zeros, the pick-up 3 units above or below zero for ever."""
        for name, level in (("fading_from_above", 3), ("fading_from_below", -3)):
            *given, pick_up, steps, point, force = request(RUNS[name])
            rest = [0] * (given[1] * given[2])
            _, older, newer, _, _ = calls.block(*given, rest, rest, rest, [0] * steps, pick_up, (point, force))
            self.assertEqual((newer[pick_up], older), (level, newer))
            self.assertEqual(calls.block(*given, older, newer, rest, [0], pick_up, None)[2], newer)
            listed = ring(RUNS[name]).splitlines()
            self.assertNotEqual(listed[36], "37 0")
            self.assertEqual(listed[37:], [f"{number} 0" for number in range(38, 201)] + ["done 200 0"])

    def test_no_steps(self):
        self.assertEqual(ring(line(steps=0)), "done 0 0\n")
        self.assertEqual(ring(line(steps=0, pick_up=3)), "done 0 9\n")

    def test_thirteen_after_some_steps(self):
        # With q 0 and s 0 the middle grows by the force in each step.
        self.assertEqual(ring(line(q=0, steps=8192, force=CEILING)), "1 32767\ndone 1 13\n")
        self.assertEqual(ring(line(q=0, steps=8192, force=-(CEILING // 2))), "1 -16384\n2 -32767\ndone 2 13\n")

    def test_plate(self):
        """3 x 3, m 4096: next is 2u - 16u/16 - p, after the hit 1 1 0 -1 -1 0."""
        text = line(kind=7, rows=3, q=0, m=4096, pick_up=4, steps=6, point=4)
        self.assertEqual(ring(text), "1 1\n2 1\n3 0\n4 -1\n5 -1\n6 0\ndone 6 0\n")

    def test_more_than_1024_points(self):
        self.assertEqual(ring(line(kind=5, columns=32, rows=32, q=0, point=33, steps=1)), "1 0\ndone 1 0\n")
        self.assertEqual(ring(line(kind=5, columns=41, rows=25, q=0, point=42, steps=1)), "done 0 2\n")
        self.assertEqual(ring(line(kind=6, columns=33, rows=33, q=65537)), "done 0 2\n")
        self.assertEqual(ring(line(kind=7, columns=64, rows=16, q=0, m=4096, point=65, steps=1)), "1 0\ndone 1 0\n")
        for side in (33, 64):
            self.assertEqual(ring(line(kind=7, columns=side, rows=side, q=0, m=4096, point=65, steps=1)), "done 0 2\n")
        self.assertEqual(ring(line(columns=1024, steps=0)), "done 0 0\n")
        self.assertEqual(ring(line(columns=1025, steps=0)), "done 0 2\n")
        self.assertEqual(ring(line(columns=2**32, rows=2**32)), "done 0 2\n")

    def test_unknown_kind_of_any_size(self):
        for kind in (0, 8, 2**63 - 1):
            for columns, rows in ((3, 1), (0, 0), (2**63 - 1, 2**63 - 1)):
                self.assertEqual(ring(line(kind=kind, columns=columns, rows=rows)), "done 0 1\n")

    def test_refusals(self):
        for number, text in ((2, line(rows=2)), (4, line(q=65537)), (5, line(m=1)), (5, line(kind=7, rows=3, q=1, m=4096)),
                             (7, line(kind=7, rows=3, q=0, point=1)), (7, line(point=3)),
                             (8, line(force=CEILING + 1)), (8, line(force=-(2**63))), (9, line(pick_up=3))):
            self.assertEqual(ring(text), f"done 0 {number}\n")


class Input(unittest.TestCase):
    def assert_input(self, *texts):
        for text in texts:
            self.assertEqual(ring(text), "input\n", text)

    def test_fields(self):
        self.assert_input(b"", b"\n", b"\n" + PAPER, PAPER[2:], PAPER + b" 0", b" " + PAPER, PAPER + b" ",
                          PAPER.replace(b" ", b"  ", 1), PAPER.replace(b" ", b"\t", 1), PAPER + b"\r\n", PAPER + b"\0")

    def test_digits_only(self):
        self.assert_input(line(force="+1"), line(force="-"), line(force="--1"), line(force="1-"), line(force="1.0"),
                          line(force="0x1"), line(force="1_0"), line(force=""), line(kind="-1"), line(point="-0"),
                          line(force="\u0661"))

    def test_signed_64_bits(self):
        self.assertEqual(ring(line(force=2**63 - 1)), "done 0 8\n")
        self.assertEqual(ring(line(columns=2**63 - 1)), "done 0 2\n")
        self.assert_input(line(force=2**63), line(force=-(2**63) - 1), line(kind=2**63), line(steps=2**64 + 4))

    def test_steps(self):
        self.assertEqual(ring(line(steps=8192, pick_up=3)), "done 0 9\n")
        self.assert_input(line(steps=8193), line(steps=8193, kind=0))

    def test_bytes_of_the_line(self):
        for end in (b"", b"\n", b"\n" * 9):
            self.assertEqual(ring(b"0" * 224 + PAPER + end), ring(PAPER))
            self.assert_input(b"0" * 225 + PAPER + end)


if __name__ == "__main__":
    run_tests(__doc__)
