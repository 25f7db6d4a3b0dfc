"""Energy and distance: the energy, the book of the unrounded scheme and the distance's bound.

All in whole numbers: after n steps the book's levels hold the scheme's values times (D+s)^n.
"""

import calls
from instrument import D, free_ends, laplacians, pairs
from step import numerators


def unrounded_step(grid, settings, older, newer, scale, hit):
    """(older, newer, scale) after a step of the unrounded scheme, all values times scale."""
    if hit is not None:
        hit = (hit[0], hit[1] * scale)
    # "every moving point becomes the numerator of "One step" over D+s, not rounded".
    following = numerators(grid, settings, older, newer, hit)
    divisor = D + settings[2]
    return [value * divisor for value in newer], following, scale * divisor


def energy(grid, settings, older, newer):
    """2D times the energy of newer a and older b."""
    kind, columns, rows = grid
    q, m, _ = settings
    # "the sum of (a-b)^2"; "In the first sum a free end counts half."
    first = 2 * sum((a - b) ** 2 for a, b in zip(newer, older))
    first -= sum((newer[end] - older[end]) ** 2 for end in free_ends(kind, columns))
    # "the sum over neighbouring pairs of (difference in a) x (difference in b)".
    second = sum((newer[i] - newer[j]) * (older[i] - older[j]) for i, j in pairs(columns, rows))
    # "the sum of L(a) x L(b)".
    third = 0
    if m:
        third = sum(x * y for x, y in zip(laplacians(grid, newer), laplacians(grid, older)))
    return D * first + 2 * q * second + 2 * m * third


class Book:
    """"Beside it runs a book of the unrounded scheme."

    inexact is the sum of the blocks' answered counts of inexact points since the book last took its levels.
    """

    def __init__(self, older, newer):
        # "It starts with n 0, no last step, and the two levels that the list starts from."
        self.last = None
        self.take(older, newer)

    def take(self, older, newer):
        self.n = self.inexact = 0
        self.scale = 1
        self.older, self.newer = list(older), list(newer)

    def step(self, hit):
        grid, settings = self.last
        self.older, self.newer, self.scale = unrounded_step(
            grid, settings, self.older, self.newer, self.scale, hit)
        self.n += 1

    def block(self, kind, columns, rows, q, m, s, older, newer, hit, steps, inexact, each_step=lambda number: None):
        """A block's arguments, the two levels lent to it and its answered counts of steps and of inexact points."""
        if steps == 0:
            # "A block with no step done, refused or not, changes nothing in the book".
            return
        used = ((kind, columns, rows), (q, m, s))
        if used != self.last:
            self.take(older, newer)
            self.last = used
        for number in range(steps):
            # "the block's hit in the first of them".
            self.step(hit if number == 0 else None)
            each_step(number)
        self.inexact += inexact

    def pluck(self, *arguments):
        self.take_plucked(*calls.pluck(*arguments))

    def pluck_with(self, *arguments):
        """By a lent table, the last argument."""
        self.take_plucked(*calls.pluck_with(*arguments))

    def take_plucked(self, refusal, older, newer):
        """"An accepted pluck puts the levels its rule gives into the book, with n 0. A refused one changes nothing."""
        if refusal == 0:
            self.take(older, newer)

    def energy(self):
        """2D times the energy of the book's levels, times scale^2; needs a last step."""
        grid, settings = self.last
        return energy(grid, settings, self.older, self.newer)

    def distance(self, newer):
        """Twice the squared distance of newer to the book's newer, times scale^2; n above 0.

        A free end of the book's last step counts half, as in the energy's first sum.
        """
        (kind, columns, _), _ = self.last
        squares = [(a * self.scale - b) ** 2 for a, b in zip(newer, self.newer)]
        return 2 * sum(squares) - sum(squares[end] for end in free_ends(kind, columns))

    def within_bound(self, newer):
        """Squared distance at most N n^2 (n+1)^2 / 16; "with n 0 the two agree at every point"."""
        if self.n == 0:
            return list(newer) == self.newer
        (_, columns, rows), _ = self.last
        size = columns * rows
        return (len(newer) == size and
                8 * self.distance(newer) <= size * (self.n * (self.n + 1) * self.scale) ** 2)

    def is_exact(self, older, newer):
        """Both levels times (D+s)^n are the book's, point by point."""
        return all([value * self.scale for value in level] == own
                   for level, own in ((older, self.older), (newer, self.newer)))

    def as_counted(self, older, newer):
        """Request 3: "A user whose sum stays 0 from the start may read the levels as the unrounded scheme itself"."""
        return self.inexact > 0 or self.is_exact(older, newer)

    def count_tells(self, older, newer):
        """Whether as_counted says something: steps done, the sum 0 and a level that is not all zeros."""
        return self.n > 0 and self.inexact == 0 and any((*older, *newer))
