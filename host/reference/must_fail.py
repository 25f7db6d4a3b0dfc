"""Wrong edits: each is applied to a copy of the modules, and the tests must fail there.

    python3 must_fail.py
"""

import os
import pathlib
import shutil
import subprocess
import sys
import tempfile
from concurrent.futures import ThreadPoolExecutor

from arguments import parser_of

HERE = pathlib.Path(__file__).resolve().parent

# (what is wrong, file, text, text in its place)
# No call shows these: none answers a remainder, and no sample buffer is long enough for such a sum.
UNSEEN = (
    ("remainder of the other sign", "step.py", "numerator - whole * denominator", "whole * denominator - numerator"),
    ("remainder without its sign", "step.py", "whole, numerator - whole", "whole, abs(numerator) - abs(whole)"),
    ("remainder of rounding down", "step.py", "whole, numerator - whole * denominator",
     "whole, numerator % denominator"),
    ("sum held at 2^63 - 1", "step.py", "LARGEST_SUM = 2**64 - 1", "LARGEST_SUM = 2**63 - 1"),
    ("sum held at 2^32 - 1", "step.py", "LARGEST_SUM = 2**64 - 1", "LARGEST_SUM = 2**32 - 1"),
    ("sum held at 2^64 - 2", "step.py", "LARGEST_SUM = 2**64 - 1", "LARGEST_SUM = 2**64 - 2"),
    ("sum that wraps", "step.py", "min(so_far + count, LARGEST_SUM)", "(so_far + count) % 2**64"),
    ("sum not held", "step.py", "min(so_far + count, LARGEST_SUM)", "so_far + count"),
    ("sum held at what it was before", "step.py", "min(so_far + count, LARGEST_SUM)",
     "so_far + count if so_far + count <= LARGEST_SUM else so_far"),
    ("sum begun again after 2^64 - 1", "step.py", "min(so_far + count, LARGEST_SUM)",
     "min(so_far + count, LARGEST_SUM) if so_far < LARGEST_SUM else 0"),
    ("sum of a block not held", "calls.py", "inexact = sum_held(inexact, count)", "inexact += count"),
    ("in place: sum not held", "in_place.py", "inexact = sum_held(inexact, count)", "inexact += count"),
)

# The step of a block in place: the test, then the writing.
IN_PLACE_STEP = """        if passes_ceiling(grid, settings, older, newer, acting):
            refusal = 13
            break
        count = overwrite(grid, settings, older, newer, acting)
"""

# What is alike in the books of a list and of its mirror image.
ALIKE = ("book.n", "book.scale", "book.last", "book.inexact", "energy", "distance")

# With these a call and its mirror image do not agree: that alone finds each of them, without another program beside it.
ONE_SIDED = (
    ("negative halves upward", "step.py", "-magnitude if numerator < 0 else magnitude",
     "(2 * numerator + denominator) // (2 * denominator)"),
    ("sample rounded down", "step.py", "return round_half_away(value, 2**28)[0]", "return value // 2**28"),
    ("sample's negative halves upward", "step.py", "return round_half_away(value, 2**28)[0]",
     "return (value + 2**27) >> 28"),
    ("only remainders above 0 counted", "step.py", "sum(values[point] % divisor != 0 for",
     "sum(round_half_away(values[point], divisor)[1] > 0 for"),
    ("force without its sign", "step.py", "return hit[1] if", "return abs(hit[1]) if"),
    ("pluck rounded down", "pluck.py", "cut_toward_zero(height * table[i], 65536)", "height * table[i] // 65536"),
    ("height without its sign", "calls.py", "level = pluck_level(kind, columns, centre, half_width, height, table)",
     "level = pluck_level(kind, columns, centre, half_width, abs(height), table)"),
    ("the ceiling itself is beyond", "refusals.py", "max(level) > CEILING", "max(level) >= CEILING"),
    ("down to -32768 x 2^28", "refusals.py", "min(level) < -CEILING", "min(level) < -32768 * 2**28"),
    ("force at 2^63 passes", "refusals.py", "return abs(value) > CEILING", "return value > CEILING"),
    ("8 above zero alone, for a hit", "refusals.py", "beyond(hit[1])", "beyond(max(hit[1], 0))"),
    ("8 above zero alone, for a pluck", "calls.py", "r.beyond(height)", "r.beyond(max(height, 0))"),
    ("11 above zero alone", "refusals.py", "11: lambda: some_beyond(levels[:2])",
     "11: lambda: any(max(level) > CEILING for level in levels[:2])"),
    ("12 above zero alone", "refusals.py", "level[point] != 0 for", "level[point] > 0 for"),
    ("13 above zero alone", "calls.py", "if r.some_beyond((following,)):", "if max(following) > r.CEILING:"),
    ("in place: only points above zero tested", "in_place.py",
     "r.beyond(next_value(grid, settings, older, newer, hit, point)[0])",
     "r.beyond(max(next_value(grid, settings, older, newer, hit, point)[0], 0))"),
)

# A lent table: its rule, what a pluck does with it, and what becomes of it in lists.
FALLS = "any(after < before for before, after in zip(table, table[1:]))"
TABLE_TEST = "    tests = {14: lambda: r.bad_table(table)}\n"
LENT_TABLE = (
    ("table: first entry not looked at", "refusals.py", "table[0] != 0 or ", ""),
    ("table: first entry may be 1", "refusals.py", "table[0] != 0", "table[0] > 1"),
    ("table: last entry not looked at", "refusals.py", "table[1024] != 65536 or ", ""),
    ("table: last entry may be less", "refusals.py", "table[1024] != 65536", "table[1024] > 65536"),
    ("table: last entry may be more", "refusals.py", "table[1024] != 65536", "table[1024] < 65536"),
    ("table: last entry any multiple of 65536", "refusals.py", "table[1024] != 65536", "table[1024] % 65536 != 0"),
    ("table: must rise", "refusals.py", "after < before for", "after <= before for"),
    ("table: falls by 1 let pass", "refusals.py", "after < before for", "after < before - 1 for"),
    ("table: falls not looked at", "refusals.py", FALLS, "False"),
    ("table: only entries above 65536 looked at", "refusals.py", FALLS, "max(table) > 65536"),
    ("table: falls of the first half alone", "refusals.py", "zip(table, table[1:])", "zip(table[:512], table[1:513])"),
    ("table: falls of the second half alone", "refusals.py", "zip(table, table[1:])", "zip(table[512:], table[513:])"),
    ("table: fall to the last entry not looked at", "refusals.py", "zip(table, table[1:])", "zip(table[:1023], table[1:])"),
    # A fall from entry 0 to entry 1 is none to look for: with entry 0 at 0 there is nothing below it.
    ("table: fall from entry 1 to entry 2 not looked at", "refusals.py", "zip(table, table[1:])", "zip(table[2:], table[3:])"),
    ("table: every other pair looked at", "refusals.py", "zip(table, table[1:])", "zip(table[::2], table[1::2])"),
    ("table: entries two apart compared", "refusals.py", "zip(table, table[1:])", "zip(table, table[2:])"),
    ("table: mirrored sum demanded", "refusals.py", "table[0] != 0 or",
     "any(table[j] + table[1024 - j] != 65536 for j in range(1025)) or table[0] != 0 or"),
    ("table: 1024 entries taken", "calls.py", TABLE_TEST,
     "    table = [*table, 65536] if len(table) == 1024 else table\n" + TABLE_TEST),
    ("table: 1026 entries taken", "refusals.py", "len(table) != 1025", "len(table) not in (1025, 1026)"),
    ("table: longer ones taken", "refusals.py", "len(table) != 1025", "len(table) < 1025"),
    ("table: longer ones cut", "calls.py", "r.bad_table(table)", "r.bad_table(table[:1025])"),
    ("table: entries of 31 bits", "calls.py", "r.bad_table(table)", "r.bad_table([entry % 2**31 for entry in table])"),
    ("table: always refused", "calls.py", "r.bad_table(table)", "True"),
    ("table: refused by 11", "calls.py", "{14: lambda: r.bad_table", "{11: lambda: r.bad_table"),
    *((f"table: 14 answers before {number}", "refusals.py", "in sorted(tests):",
       f"in sorted(tests, key=lambda number: {number} - 0.5 if number == 14 else number):") for number in (1, 2, 6, 7, 8, 10)),
    ("table: levels cleared by 14", "calls.py", "return refusal, *levels",
     "return refusal, *([0] * len(level) if refusal == 14 else level for level in levels)"),
    ("table: levels filled nonetheless by 14", "calls.py", "        return refusal, *levels\n",
     "        if refusal == 14 and len(table) == 1025:\n"
     "            levels = [pluck_level(kind, columns, centre, half_width, height, T)] * 2\n"
     "        return refusal, *levels\n"),
    ("table: older alone filled", "calls.py", "return 0, level, list(level)",
     "return 0, level, levels[1] if further else list(level)"),
    ("table: newer alone filled", "calls.py", "return 0, level, list(level)",
     "return 0, levels[0] if further else level, list(level)"),
    ("table: T in its place", "pluck.py", "height * table[i]", "height * T[i]"),
    ("table: read from its end, by the mirrored sum", "pluck.py", "height * table[i]", "height * (65536 - table[1024 - i])"),
    ("table: written to", "calls.py", TABLE_TEST, TABLE_TEST + "    table[1:2] = table[:1]\n"),
    ("book not told of a pluck by a lent table", "book.py", "self.take_plucked(*calls.pluck_with(*arguments))", "pass"),
    ("book plucks by T in place of a lent table", "book.py", "calls.pluck_with(*arguments)", "calls.pluck(*arguments[:-1])"),
    ("lists tell the book of T in place of a lent table", "run.py", "getattr(book, name)(*arguments)",
     "book.pluck(*arguments[:8])"),
    ("no pluck by a lent table in lists", "run.py", "if self.draw.rarely(0.5):", "if False:"),
    ("no pluck by a lent table alone", "run.py", "\"pluck\", \"pluck_with\", \"reading\"", "\"pluck\", \"reading\""),
    ("no copy of T beside the built-in pluck", "run.py", "if arguments[-1] == BUILT_IN:", "if False:"),
    ("copies of T not compared", "run.py", "if outcome[:3] != built_in:", "if False:"),
    ("refusals alone of copies of T compared", "run.py", "if outcome[:3] != built_in:", "if outcome[0] != built_in[0]:"),
    ("newer of copies of T not compared", "run.py", "if outcome[:3] != built_in:", "if outcome[:2] != built_in[:2]:"),
    ("lent table not looked at afterwards", "library.py", "b.values(), c.values()", "b.values(), table"),
    ("no broken tables drawn", "draws.py", "self.broken_table(table) if self.rarely(0.3) else table", "table"),
    ("no copies of T drawn", "draws.py", "BUILT_IN if self.rarely(0.3) else self.choice(TABLES)", "self.choice(TABLES[1:])"),
    ("mirror image: height not negated by a lent table", "mirror.py", "if name in PLUCKS or arguments[-3]:",
     "if name != \"pluck_with\" and (name == \"pluck\" or arguments[-3]):"),
    ("mirror image: lent table turned round", "mirror.py", "return *image, strength, *table",
     "return *image, strength, *(entries[::-1] for entries in table)"),
)

EDITS = (
    *ONE_SIDED,
    *LENT_TABLE,
    ("halves toward zero", "step.py", "(2 * abs(numerator) + denominator) //",
     "(2 * abs(numerator) + denominator - 1) //"),
    ("divided by D", "step.py", "round_half_away(value, divisor)", "round_half_away(value, D)"),
    ("D+s for D-s", "step.py", "- (D - s) * p", "- (D + s) * p"),
    ("B added", "step.py", "- m * second", "+ m * second"),
    ("B without its second Laplacian", "step.py", "laplacians(grid, first) if settings[1] else first", "first"),
    ("force divided by D", "step.py", "+ D * force", "+ force"),
    ("sample toward zero", "step.py", "return round_half_away(value, 2**28)[0]", "return int(value / 2**28)"),
    ("sample's halves toward zero", "step.py", "return round_half_away(value, 2**28)[0]",
     "return (abs(value) + 2**27 - 1) // 2**28 * (-1 if value < 0 else 1)"),
    ("sample's halves to even", "step.py", "return round_half_away(value, 2**28)[0]", "return round(value / 2**28)"),
    ("sample over 2^27", "step.py", "round_half_away(value, 2**28)", "round_half_away(value, 2**27)"),
    ("reading over 2^42", "step.py", "2.0**43", "2.0**42"),
    ("free end takes its neighbour once", "instrument.py", "return 2 * (level[near[0]] - u)",
     "return level[near[0]] - 2 * u"),
    ("free end not doubled", "instrument.py", "return 2 * (level[near[0]] - u)", "return level[near[0]] - u"),
    ("membrane factor 2(1-R)", "instrument.py", "total - len(near) * u", "total - 2 * u"),
    ("round edge moves", "instrument.py", ">= (columns - 1) ** 2", "> (columns - 1) ** 2"),
    ("stiffness counted twice, not four times", "instrument.py", "4: (1, 4)", "4: (1, 2)"),
    ("membrane stable up to D", "instrument.py", "5: (2, 0), 6: (2, 0)", "5: (1, 0), 6: (1, 0)"),
    ("plate's stiffness counted 15 times, not 16 times", "instrument.py", "7: (2, 16)", "7: (2, 15)"),
    ("plate's tension counted once, not twice", "instrument.py", "7: (2, 16)", "7: (1, 16)"),
    ("plate's L on the outer ring as computed", "instrument.py", "in moving(*grid):",
     "in moving(*grid) if grid[0] != 7 else ((k, neighbours(*grid[1:], k)) for k in range(len(level))):"),
    ("only square plates", "instrument.py", "3 <= columns <= 64 and 3 <= rows <= 64",
     "3 <= columns <= 64 and 3 <= rows <= 64 and (kind == 5 or rows == columns)"),
    ("plate without stiffness", "refusals.py", "kind not in STIFF_KINDS", "kind != 4"),
    ("rectangular membrane with stiffness", "refusals.py", "kind not in STIFF_KINDS", "kind not in (*STIFF_KINDS, 5)"),
    ("kind 2 free at point 0", "instrument.py", "return point == 0", "return point == columns - 1"),
    # A test may take for granted that lower numbers do not apply: 1 to 6 stay before the others.
    ("highest number answers, from 7 on", "refusals.py", "in sorted(tests):",
     "in sorted(tests, key=lambda number: -number if number > 6 else number - 99):"),
    ("2 answers before 1", "refusals.py", "in sorted(tests):",
     "in sorted(tests, key=lambda number: 0 if number == 2 else number):"),
    ("6 answers before 4 and 5", "refusals.py", "in sorted(tests):",
     "in sorted(tests, key=lambda number: 3 if number == 6 else number):"),
    ("minus zero is negative", "refusals.py", "x < 0.0 for x", "math.copysign(1.0, x) < 0.0 for x"),
    ("density may be zero", "refusals.py", "above_zero.append(sheet.speed[2])", "pass"),
    ("hertz for membranes", "refusals.py", "kind in GRID_KINDS", "kind == 7"),
    ("hertz for plates", "refusals.py", "kind in GRID_KINDS", "kind in (5, 6)"),
    ("plucks of plates", "refusals.py", "kind not in LINE_KINDS", "kind not in (*LINE_KINDS, 7)"),
    ("pick-up one too far", "refusals.py", "return point >= columns * rows", "return point > columns * rows"),
    ("half width up to columns", "refusals.py", "<= columns - 1", "<= columns"),
    ("work not cleared", "calls.py", "[0] * len(work), samples", "work, samples"),
    ("work's length not looked at", "calls.py", "(older, newer, work), pick_up", "(older, newer), pick_up"),
    ("hit in each step", "calls.py", "hit if place == 0 else None", "hit"),
    ("levels of the failed step kept", "calls.py", "refusal = 13\n", "refusal, newer = 13, following\n"),
    ("sample written before the ceiling is tested", "calls.py", "        if r.some_beyond((following,)):",
     "        samples[place] = sample(following[pick_up])\n        if r.some_beyond((following,)):"),
    ("one sample for ever", "calls.py", "samples[place] = sample", "samples[0] = sample"),
    ("steps once and repeats its sample", "calls.py", "older, newer = newer, following",
     "older, newer = (older, newer) if place else (newer, following)"),
    ("count of steps not that of the levels", "calls.py", "steps += 1", "steps = len(samples)"),
    ("13 before the first step", "calls.py", "if r.some_beyond((following,)):", "if True:"),
    ("levels never touched", "calls.py", "older, newer = newer, following", "pass"),
    ("refusal of everything", "refusals.py", "return kind not in KINDS", "return True"),
    ("pluck leaves older", "calls.py", "return 0, level, list(level)", "return 0, levels[0], level"),
    ("pluck leaves newer", "calls.py", "return 0, level, list(level)", "return 0, level, levels[1]"),
    ("entries of T rounded down", "pluck.py", "half = 2 ** (bits - 1)", "half = 0"),
    ("entry i rounded up", "pluck.py", "i = 1024 * (half_width - distance) // half_width",
     "i = -(-1024 * (half_width - distance) // half_width)"),
    ("sheet's halves down", "sheet.py", "numerator + denominator) //", "numerator + denominator - 1) //"),
    ("sheet rounded by a float addition", "sheet.py", "return (2 * 65536 * numerator + denominator) // (2 * denominator)",
     "return int(min(x * 65536.0, 1e6) + 0.5)"),
    ("tension divided in another order", "sheet.py", "divide(divide(tension, density), sheet.rate * sheet.rate)",
     "divide(tension, density * (sheet.rate * sheet.rate))"),
    ("hertz multiplied in another order", "sheet.py", "(2.0 * sheet.speed[1]) * g, sheet.rate)",
     "2.0 * g, sheet.rate) * sheet.speed[1]"),
    ("another decay constant", "sheet.py", "6.907755278982137, number", "6.907755278982136, number"),
    ("book goes on after a change of settings", "book.py", "if used != self.last:", "if self.last is None:"),
    ("book takes a refused pluck", "book.py", "if refusal == 0:", "if True:"),
    ("plate's stiffness left out of the energy", "book.py", "    if m:\n", "    if m and kind == 4:\n"),
    ("free end counts whole in the energy", "book.py", "first -= sum(", "first -= 0 * sum("),
    ("free end counts whole in the distance", "book.py", "2 * sum(squares) - sum(", "2 * sum(squares) - 0 * sum("),
    ("bound of n + 1 steps", "book.py", "(self.n * (self.n + 1) * self.scale)",
     "((self.n + 1) * (self.n + 2) * self.scale)"),
    ("steps not squared", "bounds.py", "5 * steps**2 + 4", "5 * steps + 4"),
    ("span with 3", "bounds.py", "5 * steps**2 + 4", "5 * steps**2 + 3"),
    ("free string held", "bounds.py", "kind == 3:", "kind == 0:"),
    ("line held by 25", "bounds.py", "return 24, span", "return 25, span"),
    ("free end held as a fixed one", "bounds.py", "span(2 * across if kind == 2 else across)", "span(across)"),
    ("grid held by 25", "bounds.py", "24 * (span(across) + span(down))", "25 * (span(across) + span(down))"),
    ("grid held by its rows alone, its columns' grip counted", "bounds.py", "span(across) * span(down)", "span(across)"),
    ("tension counted twice", "bounds.py", "return grip * settings[0]", "return grip * 2 * settings[0]"),
    ("stiffness counted twice", "bounds.py", "grip**2 * 2 * settings[1]", "grip**2 * 4 * settings[1]"),
    ("reach not squared for stiffness", "bounds.py", ", reach**2", ", reach"),
    ("a fourth of the demanded bound", "bounds.py", "(n * (n + 1)) ** 2, 16)", "(n * (n + 1)) ** 2, 64)"),
    ("linear bound that does not grow", "bounds.py", "size(grid) * n**2, 4 * hold)", "size(grid), 4 * hold)"),
    ("a sixteenth of the linear bound by loss", "bounds.py", "* n) ** 2, 4 * s**2)", "* n) ** 2, 64 * s**2)"),
    ("for ever without its condition", "bounds.py", " and far * s**2 <= hold * D:", ":"),
    ("heavy loss without its condition", "bounds.py", " and hold * D <= far * s**2:", ":"),
    ("half of the half of a sample unit", "bounds.py", "2**27 * book.scale", "2**26 * book.scale"),
    ("a sample allowed half a unit alone", "bounds.py", "> 2 * bound.numerator", "> 0 * bound.numerator"),
    ("free end counts whole at a sample", "bounds.py", "weight = 1 if", "weight = 2 if"),
    ("fixed points counted", "step.py", "sum(values[point] % divisor != 0 for",
     "len(values) - sum(values[point] % divisor == 0 for"),
    ("fixed points counted by numerators of their own", "step.py",
     "return level, inexact_points(grid, divisor, values)",
     "free = (3, *grid[1:])\n"
     "    return level, inexact_points(free, divisor, numerators(free, settings, older, newer, hit))"),
    ("multiples of D in the place of D+s", "step.py", "level, inexact_points(grid, divisor, values)",
     "level, inexact_points(grid, D, values)"),
    ("only remainders beyond 1 counted", "step.py", "sum(values[point] % divisor != 0 for",
     "sum(abs(round_half_away(values[point], divisor)[1]) > 1 for"),
    ("only halves counted", "step.py", "sum(values[point] % divisor != 0 for",
     "sum(2 * abs(values[point]) % (2 * divisor) == divisor for"),
    ("exact points counted", "step.py", "% divisor != 0 for", "% divisor == 0 for"),
    ("multiples of 2(D+s) in the place of D+s", "step.py", "% divisor != 0 for", "% (2 * divisor) != 0 for"),
    ("remainders summed, not counted", "step.py", "sum(values[point] % divisor != 0 for",
     "sum(abs(round_half_away(values[point], divisor)[1]) for"),
    ("at most one point of a step counted", "step.py", "return sum(values[point] %", "return any(values[point] %"),
    ("hit left out of the numerators counted", "step.py", "level, inexact_points(grid, divisor, values)",
     "level, inexact_points(grid, divisor, numerators(grid, settings, older, newer, None))"),
    ("points counted twice", "calls.py", "inexact = sum_held(inexact, count)",
     "inexact = sum_held(inexact, 2 * count)"),
    ("step ended by 13 counted", "calls.py", "refusal = 13\n", "refusal, inexact = 13, sum_held(inexact, count)\n"),
    ("nothing counted after 13", "calls.py", "return (steps, inexact, refusal)",
     "return (steps, 0 if refusal else inexact, refusal)"),
    ("only the last step counted", "calls.py", "inexact = sum_held(inexact, count)", "inexact = count"),
    ("only the first step counted", "calls.py", "inexact = sum_held(inexact, count)",
     "inexact = inexact if place else count"),
    ("only the worst step counted", "calls.py", "inexact = sum_held(inexact, count)", "inexact = max(inexact, count)"),
    ("inexact steps counted, not points", "calls.py", "sum_held(inexact, count)", "sum_held(inexact, int(count > 0))"),
    ("step left out of the count where the hit acts", "calls.py", "sum_held(inexact, count)",
     "sum_held(inexact, count if place or hit is None else 0)"),
    ("refused blocks count", "calls.py", "return (0, 0, refusal)", "return (0, len(newer), refusal)"),
    ("blocks refused by 11 and 12 count the step not done", "calls.py", "return (0, 0, refusal)",
     "return (0, one_step(grid, settings, older, newer, hit)[1] if refusal > 10 else 0, refusal)"),
    ("blocks of no steps count the step not done", "calls.py", "steps = inexact = 0\n",
     "steps, inexact = 0, 0 if samples else one_step(grid, settings, older, newer, hit)[1]\n"),
    ("counts of steps and points in each other's place", "calls.py", "return (steps, inexact, refusal)",
     "return (inexact, steps, refusal)"),
    ("in place: one pass that tests and overwrites", "in_place.py", IN_PLACE_STEP,
     """        count = 0
        for point, _ in moving(*grid):
            value, remainder = next_value(grid, settings, older, newer, acting, point)
            if r.beyond(value):
                refusal = 13
                break
            older[point] = value
            count += remainder != 0
        if refusal:
            break
"""),
    ("in place: overwritten before the test", "in_place.py", IN_PLACE_STEP,
     """        count = overwrite(grid, settings, older, newer, acting)
        if r.some_beyond((older,)):
            refusal = 13
            break
"""),
    ("in place: tested and overwritten in pieces of 64", "in_place.py", IN_PLACE_STEP,
     """        count = 0
        points = [point for point, _ in moving(*grid)]
        for start in range(0, len(points), 64):
            piece = points[start:start + 64]
            values = [next_value(grid, settings, older, newer, acting, point) for point in piece]
            if any(r.beyond(value) for value, _ in values):
                refusal = 13
                break
            for point, (value, remainder) in zip(piece, values):
                older[point] = value
                count += remainder != 0
        if refusal:
            break
"""),
    ("in place: only the first 64 moving points tested", "in_place.py", "in moving(*grid))", "in moving(*grid)[:64])"),
    ("in place: only the last piece of 64 tested", "in_place.py", "in moving(*grid))",
     "in moving(*grid)[(len(moving(*grid)) - 1) // 64 * 64:])"),
    ("in place: hit beyond 64 not written", "in_place.py", "count = overwrite(grid, settings, older, newer, acting)",
     "count = overwrite(grid, settings, older, newer, acting if acting and acting[0] < 64 else None)"),
    ("in place: only the first 64 moving points counted", "in_place.py", "count += remainder != 0",
     "count += remainder != 0 and point in [moved for moved, _ in moving(*grid)[:64]]"),
    ("in place: last moving point not tested", "in_place.py", "in moving(*grid))", "in moving(*grid)[:-1])"),
    ("in place: first moving point not tested", "in_place.py", "in moving(*grid))", "in moving(*grid)[1:])"),
    ("in place: hit not tested", "in_place.py", "if passes_ceiling(grid, settings, older, newer, acting)",
     "if passes_ceiling(grid, settings, older, newer, None)"),
    ("in place: hit tested and not written", "in_place.py", "count = overwrite(grid, settings, older, newer, acting)",
     "count = overwrite(grid, settings, older, newer, None)"),
    ("in place: hit in each step", "in_place.py", "hit if place == 0 else None", "hit"),
    ("in place: last moving point not written", "in_place.py", "in moving(*grid):", "in moving(*grid)[:-1]:"),
    ("in place: roles not changed after an odd number of steps", "in_place.py",
     "return (steps, inexact, refusal), older, newer, samples",
     "return (steps, inexact, refusal), *((newer, older) if steps % 2 else (older, newer)), samples"),
    ("in place: roles never changed", "in_place.py", "older, newer = newer, older", "pass"),
    ("in place: levels in each other's place after 13", "in_place.py", "refusal = 13\n",
     "refusal, older, newer = 13, newer, older\n"),
    ("in place: 13 leaves the levels of one step more", "in_place.py", "refusal = 13\n",
     "refusal = 13\n            overwrite(grid, settings, older, newer, acting)\n            older, newer = newer, older\n"),
    ("in place: 13 answers 0 steps", "in_place.py", "refusal = 13\n", "refusal, steps = 13, 0\n"),
    ("in place: sample of the step ended by 13", "in_place.py", "refusal = 13\n",
     "refusal, samples[place] = 13, sample(newer[pick_up])\n"),
    ("in place: older all zeros afterwards, as work", "in_place.py",
     "return (steps, inexact, refusal), older, newer, samples",
     "return (steps, inexact, refusal), [0] * len(older), newer, samples"),
    ("in place: sample of the older level", "in_place.py", "sample(newer[pick_up])", "sample(older[pick_up])"),
    ("in place: step ended by 13 counted", "in_place.py", "refusal = 13\n",
     "refusal = 13\n"
     "            inexact += overwrite(grid, settings, list(older), newer, acting)\n"),
    ("in place: points counted in both passes", "in_place.py", "inexact = sum_held(inexact, count)",
     "inexact = sum_held(inexact, 2 * count)"),
    ("in place: only the last step counted", "in_place.py", "inexact = sum_held(inexact, count)", "inexact = count"),
    ("in place: refused blocks count", "in_place.py", "return (0, 0, refusal)", "return (0, len(newer), refusal)"),
    ("in place: 6 blind to newer", "in_place.py", "(older, newer), pick_up",
     "(older, [*newer, *[0] * len(older)][:len(older)]), pick_up"),
    ("in place: 6 blind to older", "in_place.py", "(older, newer), pick_up",
     "([*older, *[0] * len(newer)][:len(newer)], newer), pick_up"),
    ("in place: L of the older level", "in_place.py", "laplacian_at(grid, newer, point), second",
     "laplacian_at(grid, older, point), second"),
    ("in place: B of the older level", "in_place.py", "laplacian_twice_at(grid, newer, point)",
     "laplacian_twice_at(grid, older, point)"),
    ("in place: B left out", "in_place.py", "if m else 0", "if False else 0"),
    ("in place: L of a fixed point as computed", "instrument.py", "laplacian(level, point, near) if near else 0",
     "laplacian(level, point, near or neighbours(*grid[1:], point))"),
    ("the two blocks not compared", "run.py", "if two != left_without_work(three):", "if False:"),
    ("the levels of the two blocks not compared", "run.py", "if two != left_without_work(three):",
     "if two[:3] != three[:3]:"),
    ("work of a wrong length held against the block in place", "run.py", "if work_alone_is_wrong(arguments):", "if False:"),
    ("no block in place in lists", "run.py", "if share < 0.6:", "if False:"),
    ("the two blocks never beside each other in lists", "run.py", "if share < 0.2:", "if False:"),
    ("book takes a block of no steps", "book.py", "if steps == 0:", "if steps < 0:"),
    ("sum kept at a pluck", "book.py", "if refusal == 0:\n            self.take(older, newer)\n",
     "if refusal == 0:\n            kept = self.inexact\n            self.take(older, newer)\n"
     "            self.inexact = kept\n"),
    ("sum kept at a change of settings", "book.py",
     "            self.take(older, newer)\n            self.last = used\n",
     "            kept = self.inexact\n            self.take(older, newer)\n            self.inexact = kept\n"
     "            self.last = used\n"),
    ("sum set to 0 by every block", "book.py", "self.inexact += inexact", "self.inexact = inexact"),
    ("sum of the steps", "book.py", "self.inexact += inexact", "self.inexact += steps"),
    ("newer alone beside the book", "book.py", "((older, self.older), (newer, self.newer))",
     "((newer, self.newer),)"),
    ("older alone beside the book", "book.py", "((older, self.older), (newer, self.newer))", "((older, self.older),)"),
    ("levels times D^n beside the book's", "book.py", "value * self.scale for value in level",
     "value * D**self.n for value in level"),
    ("levels that moved need not be the book's", "book.py", "self.inexact > 0 or", "self.n > 0 or"),
    ("levels never need be the book's", "book.py", "self.inexact > 0 or", "True or"),
    ("levels at rest taken for a check", "book.py", " and any((*older, *newer))", ""),
    ("counts not looked at in lists", "run.py", "self.counted(book, older, newer)", "book.count_tells(older, newer)"),
    ("count read at the place of the steps", "library.py", "inexact.values()[0], *", "steps.values()[0], *"),
    ("steps for counts in lists", "run.py", "*outcome[1:3], *each_step", "outcome[1], outcome[1], *each_step"),
    ("no list mirrored", "run.py", "if draw.rarely(MIRRORED) else None", "if False else None"),
    ("mirror images not given to the library", "run.py", "found = self.agreed(name, image)",
     "found = mirror.of_outcome(name, outcome)"),
    ("mirror images given to the reference alone", "run.py", "found = self.agreed(name, image)",
     "found = getattr(REFERENCE, name)(*image)"),
    ("mirror images not compared", "run.py", "if not mirror.is_image(name, outcome, found):", "if False:"),
    ("book of the mirror image not compared", "run.py", "if not mirror.is_image_book(book, newer, self.image):",
     "if False:"),
    ("book of the mirror image told of the list", "run.py",
     "tell(self.image, name, mirror.of_arguments(name, arguments)", "tell(self.image, name, arguments"),
    ("mirror image: hit not negated", "mirror.py", "if name in PLUCKS or arguments[-3]:", "if name in PLUCKS:"),
    ("mirror image: height not negated", "mirror.py", "if name in PLUCKS or arguments[-3]:",
     "if name not in PLUCKS and arguments[-3]:"),
    ("mirror image: force negated without a hit", "mirror.py", "if name in PLUCKS or arguments[-3]:", "if True:"),
    ("mirror image: newer alone negated", "mirror.py", "negated(older), negated(newer), *", "older, negated(newer), *"),
    ("mirror image: older alone negated", "mirror.py", "negated(older), negated(newer), *", "negated(older), newer, *"),
    ("mirror image: -2^63 in older taken", "mirror.py", "(*image[place], *image[place + 1], strength)",
     "(*image[place + 1], strength)"),
    ("mirror image: -2^63 in newer taken", "mirror.py", "(*image[place], *image[place + 1], strength)",
     "(*image[place], strength)"),
    ("mirror image: -2^63 as force or height taken", "mirror.py", "(*image[place], *image[place + 1], strength)",
     "(*image[place], *image[place + 1])"),
    ("mirror image: later places negated", "mirror.py", "negated(samples[:steps]) + samples[steps:]",
     "negated(samples)"),
    ("mirror image: samples not negated", "mirror.py", "negated(samples[:steps]) + samples[steps:]", "samples"),
    ("mirror image: first sample alone negated", "mirror.py", "negated(samples[:steps]) + samples[steps:]",
     "negated(samples[:1]) + samples[1:]"),
    ("mirror image: newer alone compared", "mirror.py", "return found == of_outcome(name, outcome)",
     "return found[4:5] == of_outcome(name, outcome)[4:5]"),
    *((f"mirror image: {part} not compared", "mirror.py", "return found == of_outcome(name, outcome)",
       "image = list(of_outcome(name, outcome))\n"
       f"    image[{place}:{place + 1}] = found[{place}:{place + 1}]\n"
       "    return found == tuple(image)")
      for place, part in enumerate(("refusal", "steps", "inexact points", "older", "newer", "work", "samples"))),
    ("mirror image: the book's older not compared", "mirror.py",
     "(found.older, found.newer) == (negated(book.older), negated(book.newer))", "found.newer == negated(book.newer)"),
    ("mirror image: the book's newer not compared", "mirror.py",
     "(found.older, found.newer) == (negated(book.older), negated(book.newer))", "found.older == negated(book.older)"),
    *((f"mirror image: {part} not compared", "mirror.py", f"return {', '.join(ALIKE)}",
       f"return {', '.join(other for other in ALIKE if other != part)}") for part in ALIKE),
    ("256 bytes taken", "ring.py", "len(line) > 255", "len(line) > 256"),
    ("two spaces taken", "ring.py", "[0-9]+ )", "[0-9]+ +)"),
    ("minus on every number", "ring.py", "(?:[0-9]+ )", "(?:-?[0-9]+ )"),
    ("plus taken", "ring.py", "-?[0-9]+\")", "[-+]?[0-9]+\")"),
    ("match at the start alone", "ring.py", "TEN_DECIMALS.fullmatch", "TEN_DECIMALS.match"),
    ("8193 steps taken", "ring.py", "numbers[7] > 8192", "numbers[7] > 8193"),
    ("2^63 taken", "ring.py", "number < 2**63", "number <= 2**63"),
    ("-2^63 is input", "ring.py", "-2**63 <= number", "-2**63 < number"),
    ("no hit for force 0", "ring.py", "pick_up, (point, force))", "pick_up, (point, force) if force else None)"),
    ("1025 points admitted", "ring.py", "points > 1024", "points > 1025"),
    ("unknown kind answered 2", "ring.py", "columns * rows if kind in KINDS else 0", "columns * rows"),
    ("numbered from 0", "ring.py", "f\"{number} {samples", "f\"{number - 1} {samples"),
    ("steps asked for the count", "ring.py", "done {count} ", "done {numbers[7]} "),
    *UNSEEN,
)

# The files that a library has no part in.
BESIDE = ("book.py", "bounds.py", "draws.py", "library.py", "mirror.py", "ring.py", "run.py")


def seen_by_calls():
    """The edits that a library's answers can show."""
    return [edit for edit in EDITS if edit[1] not in BESIDE and edit not in UNSEEN]


def wrong_copy(edit, folder):
    """Copies the modules to folder with one edit applied; the text must stand there once."""
    _, name, old, new = edit
    for path in HERE.glob("*.py"):
        shutil.copy(path, folder)
    path = pathlib.Path(folder) / name
    text = path.read_text()
    if text.count(old) != 1:
        raise SystemExit(f"{name}: {text.count(old)} places for {old!r}")
    path.write_text(text.replace(old, new))


def tests_of(file):
    """The file of the tests; for mirror.py the class of its own tests alone."""
    return {"ring.py": ["test_ring.py"], "bounds.py": ["test_bounds.py"],
            "mirror.py": ["test_reference.py", "UpAndDown"]}.get(file, ["test_reference.py"])


def tests_pass(folder, tests):
    environment = {**os.environ, "PYTHONDONTWRITEBYTECODE": "1"}
    run = subprocess.run([sys.executable, *tests, "--failfast"], cwd=folder,
                         env=environment, capture_output=True)
    # "places for": the edit stands in the way of another, which the tests apply.
    if any(word in run.stderr for word in (b"SyntaxError", b"NameError", b"ImportError", b"TypeError", b"usage:", b"places for")):
        raise SystemExit(run.stderr.decode() + "the edit does not run")
    return run.returncode == 0


def survives(edit):
    with tempfile.TemporaryDirectory() as folder:
        wrong_copy(edit, folder)
        return tests_pass(folder, tests_of(edit[1]))


def main():
    parser_of(__doc__).parse_args()
    for tests in ("test_reference.py", "test_ring.py", "test_bounds.py"):
        if not tests_pass(HERE, [tests]):
            raise SystemExit(f"{tests} fails without any edit")
    with ThreadPoolExecutor(os.cpu_count()) as pool:
        survived = [edit[0] for edit, passed in zip(EDITS, pool.map(survives, EDITS)) if passed]
    for name in survived:
        print("survived:", name)
    print(len(EDITS) - len(survived), "wrong edits refused")
    return 1 if survived else 0


if __name__ == "__main__":
    sys.exit(main())
