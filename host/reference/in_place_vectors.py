"""The records of in_place.txt: the blocks of calls.txt in place, and more; small ones beside the block with three levels."""

from itertools import cycle

import calls
from call_vectors import LARGEST, Records, filled, moving_points, with_value
from draws import largest_m, largest_q
from in_place import next_value
from instrument import CEILING, D, LINE_KINDS, STIFF_KINDS
from refusals import beyond

SMALL = ((1, 4, 1), (2, 4, 1), (3, 4, 1), (4, 5, 1), (5, 4, 4), (6, 5, 5), (7, 4, 4))
# Of the blocks of calls.txt with at most so many points, one in so many is given to both blocks.
BESIDE, ONE_IN = 9, 7
GROW = CEILING // 9
# 64 points and more, for implementations that work in pieces of 64.
LONG_LINES = tuple((kind, columns, 1) for columns in (64, 65, 66, 128, 129, 130) for kind in LINE_KINDS)
LONG_GRIDS = ((5, 9, 8), (7, 9, 8), (6, 9, 9), (5, 11, 11), (7, 11, 11), (7, 13, 12))
LONG = LONG_LINES + LONG_GRIDS
# Where a piece ends and the next begins.
SEAMS = (63, 64, 65, 127, 128)


def inputs(records):
    """The lent buffers and the arguments of every block of calls.txt."""
    lent = [[], [], [], []]
    for opcode, *numbers in records:
        if opcode in (1, 2):
            lent[numbers[0]] = list(numbers[2:])
        elif opcode == 3:
            *plain, hit, point, force = numbers[:10]
            yield list(lent), (*plain, (point, force) if hit else None, (point, force))


def in_place(records, lent, arguments):
    """(steps, refusal) of a block in place; work is not lent."""
    older, newer, _, samples = lent
    records.lend(older, newer, None, samples)
    return records.block_in_place(*arguments)


def as_with_three(records, lent, arguments):
    """(steps, refusal) of a block in place that is as the block with three levels, which is not written; None stays as left."""
    older, newer, _, samples = (left if given is None else given for given, left in zip(lent, records.lent))
    *plain, pick_up, hit = arguments
    answer = in_place(records, (older, newer, None, samples), arguments)
    three, *after = calls.block(*plain, older, newer, [5] * len(newer), samples, pick_up, hit)
    assert (*answer, records.inexact) == (three[0], three[2], three[1])
    assert [*records.lent[:2], records.lent[3]] == [*after[:2], after[3]]
    return answer


def both(records, lent, arguments):
    """What the block in place and the block with three levels answer and leave, on the same input."""
    outcomes = []
    for block in (records.block_in_place, records.block):
        records.lend(*lent)
        answer = block(*arguments)
        outcomes.append((answer, records.inexact, *records.lent[:2], records.lent[3]))
    return outcomes


def agreed(records, lent, arguments):
    """(steps, refusal) of both blocks."""
    two, three = both(records, lent, arguments)
    assert two == three
    return two[0]


def blocks_of_calls(records, call_records):
    """Every block of calls.txt once more."""
    for number, (lent, arguments) in enumerate(inputs(call_records)):
        if len(lent[1]) > BESIDE or number % ONE_IN:
            in_place(records, lent, arguments)
        else:
            two, three = both(records, lent, arguments)
            assert two == three or three[0] == (0, 6)


def worked_case(records):
    """One step, then point 2 would pass the ceiling, when point 1 has been tested."""
    lent = [0, -1, 6 * 10**12, 0], [0, 1, 7 * 10**12, 0], [5] * 4, [99] * 3
    assert agreed(records, lent, (1, 4, 1, 0, 0, 0, 2)) == (1, 13)
    assert records.lent == [[0, 1, 7 * 10**12, 0], [0, 3, 8 * 10**12, 0], [0] * 4, [29802, 99, 99]]


def numbers_of_steps(records):
    """0 to 5 steps in each kind, with a hit and without."""
    for grid in SMALL:
        size, last = grid[1] * grid[2], moving_points(grid)[-1]
        m = largest_m(grid[0]) // 2 if grid[0] in STIFF_KINDS else 0
        older, newer = filled(grid, lambda point: 9 - point), filled(grid, lambda point: point * point - 7)
        for steps in range(6):
            for hit in (None, (last, 1234567)):
                lent = older, newer, [5] * size, [99] * steps
                assert agreed(records, lent, (*grid, largest_q(grid[0], m) - 1, m, 3, last, hit)) == (steps, 0)


def loud(grid, point, done):
    """Older and newer: after so many steps the point alone passes the ceiling, where q, m and s are 0."""
    newer = CEILING - done * GROW
    return with_value([0] * (grid[1] * grid[2]), point, newer - GROW), with_value(filled(grid, lambda _: 1), point, newer)


def thirteen(records):
    """After 0 to 3 of 5 steps, at the first and at the last moving point alone."""
    for grid in SMALL:
        for point in (moving_points(grid)[0], moving_points(grid)[-1]):
            for done in range(4):
                lent = *loud(grid, point, done), [5] * (grid[1] * grid[2]), [99] * 5
                assert agreed(records, lent, (*grid, 0, 0, 0, point)) == (done, 13)


def thirteen_on_the_largest(records):
    """At the last moving point alone, after 2 steps; then once more from the levels left, in the first step."""
    for grid in (*LARGEST, (7, 64, 64)):
        point = moving_points(grid)[-1]
        older, newer = loud(grid, point, 2)
        assert in_place(records, (older, newer, None, [99] * 4), (*grid, 0, 0, 0, point)) == (2, 13)
        assert in_place(records, (None, None, None, [99] * 3), (*grid, 0, 0, 0, point)) == (0, 13)


def seams(grid):
    """The moving points where a piece ends or begins."""
    return [point for point in moving_points(grid) if point in SEAMS]


def settings_of(grid):
    """q, m where the kind has it, and s above 0; levels of small numbers show each of them."""
    m = largest_m(grid[0]) // 3 if grid[0] in STIFF_KINDS else 0
    return largest_q(grid[0], m) - 5, m, 2000


def long_numbers_of_steps(records):
    """0 to 5 steps, one block after the other on the same levels; a hit in each, on lines at 63, 64 and 65."""
    for grid in LONG:
        points = [point for point in (63, 64, 65) if point in moving_points(grid)] or moving_points(grid)[-2:]
        lent = filled(grid, lambda point: point * point % 61 - 30), filled(grid, lambda point: point * point % 59 - 28)
        for steps, point in zip((1, 2, 3, 0, 5, 4), cycle(points)):
            assert as_with_three(records, (*lent, None, [99] * steps),
                                 (*grid, *settings_of(grid), points[steps % len(points)], (point, 500 - 7 * steps))) == (steps, 0)
            lent = None, None


def passing(grid, settings, older, newer):
    """The points that the next step without a hit would put beyond the ceiling."""
    return [point for point in moving_points(grid) if beyond(next_value(grid, settings, older, newer, None, point)[0])]


def long_thirteen(records):
    """In the first, second and third of 4 steps: at the first and at the last moving point alone, and at each seam once."""
    dones = cycle((1, 0, 2))
    for grid in LONG:
        settings = 2, 1 if grid[0] in STIFF_KINDS else 0, 3
        ends = moving_points(grid)[0], moving_points(grid)[-1]
        cases = [(point, done) for point in ends for done in (1, 2)]
        cases += [(point, next(dones)) for point in seams(grid) if point not in ends]
        for point, done in cases:
            sign = -1 if (point + done) % 2 else 1
            lent = ([sign * value for value in level] for level in loud(grid, point, done))
            arguments = *grid, *settings, point, None
            assert as_with_three(records, (*lent, None, [99] * 4), arguments) == (done, 13)
            assert passing(grid, settings, *records.lent[:2]) == [point]
            if point in ends and done == 2:
                # Once more from the levels left: in the first step.
                assert as_with_three(records, (None, None, None, [99] * 4), arguments) == (0, 13)


def force_to_the_ceiling(grid, settings, older, newer, point):
    """The largest force that the ceiling lets pass at a point."""
    whole, remainder = next_value(grid, settings, older, newer, None, point)
    numerator = whole * (D + settings[2]) + remainder
    return ((2 * CEILING + 1) * (D + settings[2]) - 2 * numerator - 1) // (2 * D)


def long_thirteen_by_the_hit(records):
    """At one seam: a force of one unit too many, then from the same levels the largest that passes."""
    for number, grid in enumerate(LONG):
        settings = settings_of(grid)
        point = (seams(grid) or moving_points(grid)[-1:])[number % max(len(seams(grid)), 1)]
        near = CEILING // 16
        older, newer = (with_value(filled(grid, lambda _: 1), point, value) for value in (-near * 15, near))
        force = force_to_the_ceiling(grid, settings, older, newer, point)
        assert 0 < force < CEILING
        arguments = *grid, *settings, point
        assert as_with_three(records, (older, newer, None, [99] * 2), (*arguments, (point, force + 1))) == (0, 13)
        assert as_with_three(records, (older, newer, None, [99]), (*arguments, (point, force))) == (1, 0)
        assert records.lent[1][point] == CEILING


def refused_in_a_later_piece(records):
    """6 by one point too few or too many, 7 at the last fixed point, 11 and 12 by the last point alone, in older or in newer."""
    for grid in ((1, 66, 1), (4, 129, 1), (7, 11, 11)):
        size, last = grid[1] * grid[2], moving_points(grid)[-1]
        rest, arguments = [0] * size, (*grid, 1, 0, 1, size - 1)
        for level, refusal in ((rest[1:], 6), ([*rest, 0], 6), (with_value(rest, last, CEILING + 1), 11),
                               (with_value(rest, size - 1, -1), 12)):
            for lent in ((level, rest), (rest, level)):
                assert as_with_three(records, (*lent, None, [99]), (*arguments, None)) == (0, refusal)
        assert as_with_three(records, (rest, rest, None, [99]), (*arguments, (size - 1, 1))) == (0, 7)


def wrong_lengths(records):
    """6 by older and by newer alone; work of a wrong length, and work that is not lent, play no part."""
    for grid in SMALL:
        size = grid[1] * grid[2]
        right = dict(older=[0] * size, newer=filled(grid, lambda _: 1), work=[5] * size, samples=[99] * 2)
        for length in (0, size - 1, size + 1):
            for name in ("older", "newer", "work"):
                lent = {**right, name: [0] * length}.values()
                answers = [outcome[0] for outcome in both(records, list(lent), (*grid, 0, 0, 0, 0))]
                assert answers == [(2, 0) if name == "work" else (0, 6), (0, 6)]
    for length in (1023, 1025):
        assert in_place(records, ([0] * 1024, [0] * length, None, [99]), (4, 1024, 1, 0, 0, 0, 0)) == (0, 6)


def in_place_records(call_records):
    records = Records()
    worked_case(records)
    numbers_of_steps(records)
    thirteen(records)
    wrong_lengths(records)
    long_numbers_of_steps(records)
    long_thirteen(records)
    long_thirteen_by_the_hit(records)
    refused_in_a_later_piece(records)
    blocks_of_calls(records, call_records)
    thirteen_on_the_largest(records)
    return records
