"""The six calls as functions of their arguments and the lent levels.

Each gives back its answer and the lent levels, work and samples afterwards; the lists handed over
are not changed. kind, columns, rows, q, m, s, pick-up, point, centre and half width are whole
numbers 0..2^64-1; force, height and the points of levels are signed 64-bit, the entries of a lent
table 0..2^32-1; a level or table may have any length. A refused call gives back what it was lent,
except for 13. The block in place is in in_place.py.
"""

import refusals as r
import sheet as sheets
from in_place import block_in_place
from pluck import T, pluck_level
from step import one_step, reading as float_reading, sample, sum_held


def block(kind, columns, rows, q, m, s, older, newer, work, samples, pick_up, hit):
    """((steps, inexact, refusal), older, newer, work, samples); hit is None or (point, force)."""
    grid, settings = (kind, columns, rows), (q, m, s)
    refusal = r.of_block(grid, settings, (older, newer, work), pick_up, hit)
    if refusal:
        # "For 1 to 12: zero steps, ... every lent level and sample unchanged."
        return (0, 0, refusal), older, newer, work, samples
    # "A block has as many steps as the lent sample buffer has places".
    samples = list(samples)
    steps = inexact = 0
    for place in range(len(samples)):
        # "the hit, if any, acts in its first step".
        following, count = one_step(grid, settings, older, newer, hit if place == 0 else None)
        if r.some_beyond((following,)):
            # "For 13: the count of steps done, the levels after exactly those".
            refusal = 13
            break
        older, newer = newer, following
        samples[place] = sample(newer[pick_up])
        steps += 1
        # "A block reports the sum over its steps done".
        inexact = sum_held(inexact, count)
    # "Work is all zeros after 13 and after every accepted block."
    return (steps, inexact, refusal), older, newer, [0] * len(work), samples


def pluck(kind, columns, rows, older, newer, centre, half_width, height):
    """(refusal, older, newer)."""
    return plucked((kind, columns, rows), (older, newer), (centre, half_width, height), T, {})


def pluck_with(kind, columns, rows, older, newer, centre, half_width, height, table):
    """Request 7: "A pluck may take a lent table of 1025 numbers in place of T"; (refusal, older, newer)."""
    # "14, the table breaks a rule or has another length, checked after 10".
    tests = {14: lambda: r.bad_table(table)}
    return plucked((kind, columns, rows), (older, newer), (centre, half_width, height), table, tests)


def plucked(grid, levels, shape, table, further):
    """(refusal, older, newer) of a pluck by a table; further: the tests it meets beside those of every pluck."""
    (kind, columns, rows), (centre, half_width, height) = grid, shape
    refusal = r.lowest({
        1: lambda: r.unknown_pluck_kind(kind),
        2: lambda: r.outside_table(kind, columns, rows),
        6: lambda: r.bad_length(columns, rows, levels),
        7: lambda: r.not_moving(grid, centre),
        8: lambda: r.beyond(height),
        10: lambda: r.bad_half_width(columns, half_width),
        **further,
    })
    if refusal:
        # "every lent level and sample unchanged"; 14 "returns and leaves what 1 to 12 do".
        return refusal, *levels
    # "Both levels are overwritten."
    level = pluck_level(kind, columns, centre, half_width, height, table)
    return 0, level, list(level)


def reading(kind, columns, rows, newer, pick_up):
    """(refusal, value)."""
    grid = (kind, columns, rows)
    refusal = r.lowest({
        1: lambda: r.unknown_kind(kind),
        2: lambda: r.outside_table(*grid),
        6: lambda: r.bad_length(columns, rows, (newer,)),
        9: lambda: r.not_a_point(columns, rows, pick_up),
        11: lambda: r.some_beyond((newer,)),
        12: lambda: r.fixed_not_zero(grid, (newer,)),
    })
    # "and answers 0 when refused".
    return (refusal, 0.0) if refusal else (0, float_reading(newer[pick_up]))


def sheet(kind, columns, rows, record):
    """(refusal, (q, m, s))."""
    # The operations are total, but columns is a size only after 1 and 2.
    work_out = lambda: sheets.coefficients(columns, record)
    refusal = r.lowest({
        1: lambda: r.unknown_kind(kind),
        2: lambda: r.outside_table(kind, columns, rows),
        3: lambda: r.bad_sheet(kind, record),
        # "with 4 and 5 on the coefficients it works out".
        4: lambda: r.bad_coefficient(work_out()),
        5: lambda: r.not_stable(kind, work_out()),
    })
    # "a sheet's answer all zeros".
    return (refusal, (0, 0, 0)) if refusal else (0, work_out())
