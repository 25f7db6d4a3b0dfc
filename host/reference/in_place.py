"""Request 4: "a block that takes only older and newer". It holds no third level."""

import refusals as r
from instrument import D, laplacian_at, laplacian_twice_at, moving
from step import force_at, numerator_of, round_half_away, sample, sum_held


def next_value(grid, settings, older, newer, hit, point):
    """(value after the step, remainder) at one moving point; of older the point itself is all that is read."""
    _, m, s = settings
    second = laplacian_twice_at(grid, newer, point) if m else 0
    numerator = numerator_of(
        settings, newer[point], older[point], laplacian_at(grid, newer, point), second, force_at(hit, point))
    return round_half_away(numerator, D + s)


def passes_ceiling(grid, settings, older, newer, hit):
    """Whether the step would put some moving point beyond the ceiling; writes nothing."""
    return any(r.beyond(next_value(grid, settings, older, newer, hit, point)[0]) for point, _ in moving(*grid))


def overwrite(grid, settings, older, newer, hit):
    """Writes the step over older, point by point; its count of inexact points."""
    count = 0
    for point, _ in moving(*grid):
        older[point], remainder = next_value(grid, settings, older, newer, hit, point)
        count += remainder != 0
    return count


def block_in_place(kind, columns, rows, q, m, s, older, newer, samples, pick_up, hit):
    """((steps, inexact, refusal), older, newer, samples); hit is None or (point, force)."""
    grid, settings = (kind, columns, rows), (q, m, s)
    # "Refusal 6 looks at the two lengths only."
    refusal = r.of_block(grid, settings, (older, newer), pick_up, hit)
    if refusal:
        return (0, 0, refusal), older, newer, samples
    older, newer, samples = list(older), list(newer), list(samples)
    steps = inexact = 0
    for place in range(len(samples)):
        acting = hit if place == 0 else None
        # "A step that would exceed the ceiling must be found before any point is overwritten."
        if passes_ceiling(grid, settings, older, newer, acting):
            refusal = 13
            break
        count = overwrite(grid, settings, older, newer, acting)
        # "Newer becomes older": the two levels change their roles.
        older, newer = newer, older
        samples[place] = sample(newer[pick_up])
        steps += 1
        inexact = sum_held(inexact, count)
    return (steps, inexact, refusal), older, newer, samples
