"""The proved bounds on the squared distances summed, as fractions: demand 3's and those of crates/tighter. Each is one on every sample too.

Each takes a grid (kind, columns, rows), settings (q, m, s) and the steps n, and answers None where it says nothing.
"""

from fractions import Fraction

from instrument import D, GRID_KINDS, free_ends


def span(steps):
    """48 x the squares of a row of so many steps that is 0 at both ends <= span x its squared differences."""
    return 5 * steps**2 + 4


def held(grid):
    """(grip, reach): 2 grip x the squares of a level, a free end counted half, <= reach x the squared differences over the pairs."""
    kind, across, down = grid[0], grid[1] - 1, grid[2] - 1
    if kind == 3:
        return 0, 1
    if kind in GRID_KINDS:
        return 24 * (span(across) + span(down)), span(across) * span(down)
    return 24, span(2 * across if kind == 2 else across)


def by_tension(grid, settings):
    """(hold, far)."""
    grip, reach = held(grid)
    return grip * settings[0], reach


def by_stiffness(grid, settings):
    grip, reach = held(grid)
    return grip**2 * 2 * settings[1], reach**2


def size(grid):
    return grid[1] * grid[2]


def demanded(grid, settings, n):
    """DistanceBound."""
    return Fraction(size(grid) * (n * (n + 1)) ** 2, 16)


def linear(holding, grid, settings, n):
    """linear, stiffLinear: 4 hold S <= far D N n^2."""
    hold, far = holding(grid, settings)
    if hold:
        return Fraction(far * D * size(grid) * n**2, 4 * hold)


def loss_linear(grid, settings, n):
    """lossLinear: 4 s^2 S <= N (D+s)^2 n^2."""
    s = settings[2]
    if s:
        return Fraction(size(grid) * ((D + s) * n) ** 2, 4 * s**2)


def for_ever(holding, grid, settings):
    """forEver, stiffForEver: 4 s^2 hold S <= far D N (D+s)^2 where far s^2 <= hold D."""
    (hold, far), s = holding(grid, settings), settings[2]
    if s and hold and far * s**2 <= hold * D:
        return Fraction(far * D * size(grid) * (D + s) ** 2, 4 * s**2 * hold)


def heavy_loss(holding, grid, settings):
    """heavyLoss, stiffHeavyLoss: hold^2 S <= 4 far^2 N (D+s)^2 where hold D <= far s^2."""
    (hold, far), s = holding(grid, settings), settings[2]
    if hold and hold * D <= far * s**2:
        return Fraction(4 * far**2 * size(grid) * (D + s) ** 2, hold**2)


def all_bounds(grid, settings, n):
    """Every bound that says something, by its row in crates/tighter/specs/Bounds.antt."""
    found = {
        "demanded": demanded(grid, settings, n),
        "linear": linear(by_tension, grid, settings, n),
        "stiffLinear": linear(by_stiffness, grid, settings, n),
        "lossLinear": loss_linear(grid, settings, n),
        "forEver": for_ever(by_tension, grid, settings),
        "stiffForEver": for_ever(by_stiffness, grid, settings),
        "heavyLoss": heavy_loss(by_tension, grid, settings),
        "stiffHeavyLoss": heavy_loss(by_stiffness, grid, settings),
    }
    return {name: bound for name, bound in found.items() if bound is not None}


def sample_passed(book, pick_up, sample):
    """SampleBounds: the names of the bounds that a sample passes, half a sample unit being the read-out's, the book's n above 0.

    With weight w (1 at a free end, else 2): w x beyond^2 <= 2 x bound x scale^2.
    """
    beyond = abs(2**28 * book.scale * sample - book.newer[pick_up]) - 2**27 * book.scale
    if beyond <= 0:
        return []
    (kind, columns, _), _ = book.last
    weight = 1 if pick_up in free_ends(kind, columns) else 2
    return [name for name, bound in all_bounds(*book.last, book.n).items()
            if weight * beyond**2 * bound.denominator > 2 * bound.numerator * book.scale**2]


def passed(book, newer):
    """The names of the bounds that newer passes, with the book's n above 0: none, if what is proved is so."""
    distance, twice = book.distance(newer), 2 * book.scale**2
    return [name for name, bound in all_bounds(*book.last, book.n).items()
            if distance * bound.denominator > bound.numerator * twice]
