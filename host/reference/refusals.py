"""The refusals, numbered as in the paper. Each test says whether its number applies.

A test may take for granted that the lower numbers which the call meets do not apply.
"""

import math

from instrument import (CEILING, D, GRID_KINDS, KINDS, LINE_KINDS, STIFF_KINDS, fixed_points, moving_set, size_in_table,
                        stable)


def lowest(tests):
    """"The lowest number that applies answers"; 0 for none. tests: {number: test}."""
    for number in sorted(tests):
        if tests[number]():
            return number
    return 0


def of_block(grid, settings, levels, pick_up, hit):
    """The refusal of a block before its first step; levels are older, newer and, where it is lent, work."""
    kind, columns, rows = grid
    return lowest({
        1: lambda: unknown_kind(kind),
        2: lambda: outside_table(*grid),
        4: lambda: bad_coefficient(settings),
        5: lambda: not_stable(kind, settings),
        6: lambda: bad_length(columns, rows, levels),
        # "with 7 and 8 only if a hit is given".
        7: lambda: hit is not None and not_moving(grid, hit[0]),
        8: lambda: hit is not None and beyond(hit[1]),
        9: lambda: not_a_point(columns, rows, pick_up),
        # "The old content of work plays no part."
        11: lambda: some_beyond(levels[:2]),
        12: lambda: fixed_not_zero(grid, levels[:2]),
    })


def unknown_kind(kind):  # 1, "1 now admits kind 7 except for plucks"
    return kind not in KINDS


def unknown_pluck_kind(kind):  # 1, "for a pluck not 1..4"
    return kind not in LINE_KINDS


def outside_table(kind, columns, rows):  # 2
    return not size_in_table(kind, columns, rows)


def bad_sheet(kind, sheet):  # 3
    numbers = [sheet.rate, sheet.length, sheet.bending, *sheet.speed[1:], sheet.loss[1]]
    # "not finite, is negative (minus zero counts as zero)".
    if any(not math.isfinite(x) or x < 0.0 for x in numbers):
        return True
    # "or is zero where it is the sample rate, length, density or decay time".
    above_zero = [sheet.rate, sheet.length]
    if sheet.speed[0] == "tension":
        above_zero.append(sheet.speed[2])
    if sheet.loss[0] == "seconds":
        above_zero.append(sheet.loss[1])
    if any(x == 0.0 for x in above_zero):
        return True
    # "or a pitch in hertz for kinds 5 and 6"; "3 refuses a pitch in hertz for it as for drumheads".
    return sheet.speed[0] == "hertz" and kind in GRID_KINDS


def bad_coefficient(settings):  # 4
    return any(x is None or not 0 <= x <= D for x in settings)


def not_stable(kind, settings):  # 5
    q, m, _ = settings
    return not stable(kind, q, m) or (m > 0 and kind not in STIFF_KINDS)


def bad_length(columns, rows, levels):  # 6
    return any(len(level) != columns * rows for level in levels)


def not_moving(grid, point):  # 7
    return point not in moving_set(*grid)


def beyond(value):  # 8, and 13 for one point, "beyond the ceiling", on either side of zero
    return abs(value) > CEILING


def not_a_point(columns, rows, point):  # 9
    return point >= columns * rows


def bad_half_width(columns, half_width):  # 10
    return not 1 <= half_width <= columns - 1


def some_beyond(levels):  # 11, and 13 for the level after the next step
    return any(max(level) > CEILING or min(level) < -CEILING for level in levels)


def fixed_not_zero(grid, levels):  # 12
    return any(level[point] != 0 for level in levels for point in fixed_points(*grid))


def bad_table(table):  # 14, "the table breaks a rule or has another length"
    # "a lent table of 1025 numbers".
    if len(table) != 1025:
        return True
    # "it must begin at 0, end at 65536 and never fall; the mirrored sum is not required of it".
    return table[0] != 0 or table[1024] != 65536 or any(after < before for before, after in zip(table, table[1:]))
