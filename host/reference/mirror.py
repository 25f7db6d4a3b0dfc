"""Request 5, "Up and down alike": the mirror image of a call, of its outcome and of a list's book.

For both blocks and both plucks, with arguments and outcomes in the form of library.py. -2^63 has no negative in
signed 64 bits: a call with such a point of older or newer, force or height has no mirror image.
"""

PLUCKS = ("pluck", "pluck_with")
# By call: the place of older among the arguments and its place in the outcome; newer stands after it.
OLDER = {"block": (6, 3), "block_in_place": (6, 3), "pluck": (3, 1), "pluck_with": (3, 1)}


def negated(values):
    return [-value for value in values]


def with_negated_levels(values, place):
    """The same values with both levels negated point by point, older at this place."""
    older, newer = values[place:place + 2]
    return *values[:place], negated(older), negated(newer), *values[place + 2:]


def of_arguments(name, arguments):
    """"two starts whose points are negatives, with calls otherwise the same and hits that are negatives"; or None.

    The last argument is the force or the height: "It covers plucks of negated height too". Without a hit it stays. A lent
    table, which stands after the height, is the same.
    """
    place, _ = OLDER[name]
    arguments, table = (arguments[:-1], arguments[-1:]) if name == "pluck_with" else (arguments, ())
    *image, strength = with_negated_levels(arguments, place)
    if name in PLUCKS or arguments[-3]:
        strength = -strength
    if 2**63 in (*image[place], *image[place + 1], strength):
        return None
    return *image, strength, *table


def of_outcome(name, outcome):
    """"negated levels, negated samples for the steps done, equal counts and equal refusals"; the rest is equal too."""
    image = with_negated_levels(outcome, OLDER[name][1])
    if name in PLUCKS:
        return image
    steps, *_, samples = image[1:]
    return *image[:-1], negated(samples[:steps]) + samples[steps:]


def is_image(name, outcome, found):
    """Whether an outcome is the mirror image of another."""
    return found == of_outcome(name, outcome)


def alike(book, newer):
    """What the book of a list with this newer level has in common with the book of the list's mirror image."""
    energy = book.energy() if book.last else None
    distance = book.distance(newer) if book.n else None
    return book.n, book.scale, book.last, book.inexact, energy, distance


def is_image_book(book, newer, found):
    """Whether a book is that of the mirror image of a list, given the list's book and its newer level."""
    return ((found.older, found.newer) == (negated(book.older), negated(book.newer)) and
            alike(found, negated(newer)) == alike(book, newer))
