"""One step: the numerator, its rounding, the count of inexact points and their sum, the sample and the float reading."""

from instrument import D, laplacians, moving

# "held at 2^64 - 1 once it would pass that".
LARGEST_SUM = 2**64 - 1


def force_at(hit, point):
    """"f is the hit's force in units at the hit point, else 0"; hit is None or (point, force)."""
    return hit[1] if hit is not None and hit[0] == point else 0


def numerator_of(settings, u, p, first, second, force):
    """"2D x u + q x L - m x B - (D-s) x p + D x f" of one point, L first and B second."""
    q, m, s = settings
    return 2 * D * u + q * first - m * second - (D - s) * p + D * force


def numerators(grid, settings, older, newer, hit):
    """The numerators at moving points, 0 at fixed ones."""
    first = laplacians(grid, newer)
    # "B is L taken of L, where L counts as 0 at the supported ends"; for kind 7 "B is L taken of L on the grid, with L
    # counted 0 on the outer ring": laplacians gives 0 there.
    second = laplacians(grid, first) if settings[1] else first
    result = [0] * len(newer)
    for point, _ in moving(*grid):
        result[point] = numerator_of(settings, newer[point], older[point], first[point], second[point], force_at(hit, point))
    return result


def round_half_away(numerator, denominator):
    """(whole number, remainder): "rounded to nearest, halves away from zero", for a denominator above 0.

    Request 3: "its remainder (numerator less whole number x (D+s)) as well as the whole number".
    """
    magnitude = (2 * abs(numerator) + denominator) // (2 * denominator)
    whole = -magnitude if numerator < 0 else magnitude
    return whole, numerator - whole * denominator


def inexact_points(grid, divisor, values):
    """"the count: moving points whose numerator was not a multiple of D+s"; values has the numerators."""
    return sum(values[point] % divisor != 0 for point, _ in moving(*grid))


def one_step(grid, settings, older, newer, hit):
    """(the next level, the count of inexact points): "divided by D+s and rounded"; "Fixed points remain 0"."""
    divisor = D + settings[2]
    values = numerators(grid, settings, older, newer, hit)
    level = [round_half_away(value, divisor)[0] for value in values]
    return level, inexact_points(grid, divisor, values)


def sum_held(so_far, count):
    """The sum of the counts so far and of one more step."""
    return min(so_far + count, LARGEST_SUM)


def sample(value):
    """"newer at the pick-up point divided by 2^28"; request 2: "the nearest whole number, halves away from zero"."""
    return round_half_away(value, 2**28)[0]


def reading(value):
    """"the point converted to f64 and divided once by 2^43"."""
    return float(value) / 2.0**43
