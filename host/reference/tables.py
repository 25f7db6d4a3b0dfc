"""Tables for plucks: some that keep the rule of a lent table, and the ways to break it, each alone.

A break takes a table that keeps the rule and gives another one, where all else that the rule asks still holds. A fall from
entry 0 to entry 1 is never alone: entry 0 is then above 0.
"""

import random

from pluck import T

# "begin at 0, end at 65536"; the largest number of 32 bits.
TOP, LARGEST = 65536, 2**32 - 1


def jump(place):
    """0 before this entry, 65536 from there on."""
    return [0] * place + [TOP] * (1025 - place)


def stairs(count):
    """So many steps of the same height, of the same width within one entry."""
    return [TOP * (j * count // 1024) // count for j in range(1025)]


BUILT_IN, STRAIGHT, LATE, EARLY = list(T), [64 * j for j in range(1025)], jump(1024), jump(1)


def changed(table, place, entry):
    return [*table[:place], entry, *table[place + 1:]]


def raised(table, least):
    """It begins at this number, above 0."""
    return [max(entry, least) for entry in table]


def lowered(table, most):
    """It ends at this number, below 65536."""
    return [min(entry, most) for entry in table]


def ending(table, entry):
    """It ends at this number, above 65536."""
    return changed(table, 1024, entry)


def dip(table, place, by=1):
    """It falls to this entry, 2 to 1023, by so much; the entry before is no less than that."""
    return changed(table, place, table[place - 1] - by)


def peak(table, place, by=1):
    """It falls after this entry, 1 to 1023, by so much."""
    return changed(table, place, table[place + 1] + by)


def shorter(table, place):
    """1024 entries: without this one. For a place 1 to 1023 it keeps the rule but for the length."""
    return [*table[:place], *table[place + 1:]]


def longer(table, place):
    """1026 entries: this one twice."""
    return [*table[:place], *table[place:place + 1], *table[place:]]


def doubled(table):
    """2050 entries: each twice."""
    return [entry for entry in table for _ in range(2)]


def rising(draw):
    """1023 numbers between the ends."""
    return [0, *sorted(draw.randint(0, TOP) for _ in range(1023)), TOP]


def in_stretches(draw):
    """A few numbers, each for as long as it comes."""
    entries = [draw.choice((0, TOP, draw.randint(0, TOP))) for _ in range(draw.randint(1, 6))]
    return [0, *sorted(draw.choice(entries) for _ in range(1023)), TOP]


def near_t(draw):
    """T with one entry changed as far as its neighbours let it."""
    place = draw.choice([j for j in range(1, 1024) if T[j - 1] < T[j + 1]])
    return changed(T, place, draw.choice([entry for entry in (T[place - 1], T[place + 1]) if entry != T[place]]))


def pool(seed):
    """Tables that keep the rule, made once, for each has 1025 entries."""
    draw = random.Random(seed)
    drawn = [make(draw) for make in (rising, in_stretches, near_t) for _ in range(12)]
    return [BUILT_IN, STRAIGHT, LATE, EARLY, *map(jump, (2, 512, 683, 1022, 1023)), *map(stairs, (2, 3, 7, 100, 500)), *drawn]
