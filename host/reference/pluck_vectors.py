"""The records of plucks.txt: plucks by lent tables, those by a copy of T beside the built-in pluck."""

import calls
from call_vectors import HIGHEST, LOWEST, PLUCK_BASE, Records, moving_points, pluck_causes
from draws import EDGES, SIGNED_EDGES, U64, Draws
from instrument import CEILING, LINE_KINDS
from tables import (BUILT_IN, EARLY, LARGEST, LATE, STRAIGHT, TOP, changed, dip, doubled, ending, jump, longer, lowered, peak,
                    raised, shorter, stairs)

HEIGHTS = (1, -1, 3, -3, 1000, 65535, -65536, 65537, CEILING, -CEILING, CEILING - 1, 123456789012)
ALL_PLACES = (1, 2, 3, 511, 512, 513, 1021, 1022, 1023)
SQUARES = [j * j // 16 for j in range(1025)]


class TableRecords(Records):
    """Records with a lent table, buffer 4."""

    def __init__(self):
        super().__init__()
        self.table = []

    def lend_table(self, table):
        if table != self.table:
            self.table = list(table)
            self.append((1, 4, len(table), *table))

    def check_table(self):
        """No pluck writes to its table."""
        self.append((2, 4, len(self.table), *self.table))

    def pluck_with(self, kind, columns, rows, centre, half_width, height):
        refusal, *self.lent[:2] = calls.pluck_with(
            kind, columns, rows, *self.lent[:2], centre, half_width, height, self.table)
        self.append((8, kind, columns, rows, centre, half_width, height, refusal))
        self.check((0, 1))
        return refusal


def outcome(records, pluck, levels, arguments):
    """What one of the two plucks answers and leaves."""
    records.lend(*levels)
    return pluck(*arguments), *records.lent[:2]


def beside_built_in(records, levels, arguments):
    """The refusal of a pluck by a copy of T: "A loaded copy of T must pluck exactly as the built-in one does"."""
    assert records.table == BUILT_IN
    own = outcome(records, records.pluck_with, levels, arguments)
    assert own == outcome(records, records.pluck, levels, arguments)
    return own[0]


def of_case(case):
    """The levels and the other arguments of a pluck whose arguments have names."""
    names = "kind", "columns", "rows", "centre", "half_width", "height"
    return (case["older"], case["newer"]), tuple(case[name] for name in names)


def given(records, case):
    """The refusal of such a pluck by the lent table."""
    return outcome(records, records.pluck_with, *of_case(case))[0]


def worked_case(records):
    """By T and by the straight table, from levels of any content."""
    for table, level in ((BUILT_IN, [0, 749, 1000, 749, 0]), (STRAIGHT, [0, 666, 1000, 666, 0])):
        records.lend_table(table)
        for sign in (1, -1):
            records.lend([LOWEST, 3, HIGHEST, 5, 6], [9] * 5)
            assert records.pluck_with(1, 5, 1, 2, 3, sign * 1000) == 0
            assert records.lent[:2] == [[sign * value for value in level]] * 2
        records.check_table()


def small_lines(records, draw, table, columns_of, pluck):
    """Every kind and half width, the first, the last and another moving point as centre."""
    records.lend_table(table)
    for kind in LINE_KINDS:
        for columns in columns_of:
            points = moving_points((kind, columns, 1))
            for half_width in range(1, columns):
                for centre in sorted({points[0], points[-1], draw.choice(points)}):
                    records.lend([1] * columns, [2] * columns)
                    assert pluck(records, (kind, columns, 1, centre, half_width, draw.choice(HEIGHTS))) == 0


def by_lent_table(records, arguments):
    return records.pluck_with(*arguments)


def by_both(records, arguments):
    return beside_built_in(records, [list(level) for level in records.lent[:2]], arguments)


def copy_of_t(records, draw):
    """Small lines, every refusal of a pluck, and the largest lines, each beside the built-in pluck."""
    small_lines(records, draw, BUILT_IN, (3, 4, 5, 8), by_both)
    for low, cause in pluck_causes():
        assert beside_built_in(records, *of_case({**PLUCK_BASE, **cause})) == low
    for height in SIGNED_EDGES:
        beside_built_in(records, *of_case({**PLUCK_BASE, "height": height}))
    for arguments in ((3, 1024, 1, 0, 1023, 65536), (1, 1024, 1, 512, 511, -CEILING), (2, 1023, 1, 1022, 700, 65537)):
        assert beside_built_in(records, ([1] * arguments[1], [2] * arguments[1]), arguments) == 0
    records.check_table()


def kept_tables(draw):
    """Tables that keep the rule; "the mirrored sum is not required", and only the straight one has it."""
    rising = sorted(draw.randint(0, TOP) for _ in range(1023))
    few = sorted(draw.choice((0, 1, 77, 30000, TOP - 1, TOP)) for _ in range(1023))
    yield from (STRAIGHT, LATE, EARLY, *map(jump, (2, 512, 683, 1023)), *map(stairs, (2, 3, 7, 500)))
    yield from ([0, *rising, TOP], [0, *few, TOP], SQUARES)
    yield from (changed(LATE, 1023, 1), changed(EARLY, 1, TOP - 1), changed(BUILT_IN, 1, 1))


def other_tables(records, draw):
    """Each on small lines."""
    for number, table in enumerate(kept_tables(draw)):
        small_lines(records, draw, table, ((3, 5, 6), (4,), (7,))[number % 3], by_lent_table)
        if number % 4 == 0:
            records.check_table()


def largest_lines(records, draw):
    """Nearly all entries of an uneven table, each for itself, on 1024 columns; then its mirror, and half of it."""
    table = [0, *sorted(draw.randint(0, TOP) for _ in range(1023)), TOP]
    records.lend_table(table)
    records.lend([1] * 1024, [2] * 1024)
    for kind, centre, half_width, height in (
            (3, 0, 1023, 65536), (3, 1023, 1023, -65536), (4, 1022, 1022, 131073), (1, 512, 511, 65536), (2, 1023, 1, CEILING),
            (2, 1, 300, 9)):
        assert records.pluck_with(kind, 1024, 1, centre, half_width, height) == 0
        if (kind, centre) == (3, 0):
            assert records.lent[0] == [TOP, *table[1022::-1]]
    assert records.pluck_with(3, 1024, 1, 1024, 1023, 1) == 7
    assert records.pluck_with(3, 1024, 1, 1023, 1024, 1) == 10
    records.lend_table(peak(LATE, 1022))
    assert records.pluck_with(3, 1024, 1, 0, 1023, 65536) == 14


def wrong_lengths():
    """14 by the length: most break nothing else, some end elsewhere or fall besides, some begin with a whole table that keeps the rule."""
    yield from ([], [0], [TOP], [0, TOP], [0, 32768, TOP])
    yield from (BUILT_IN[:1024], BUILT_IN[1:], shorter(BUILT_IN, 512), shorter(LATE, 1), shorter(EARLY, 1023), LATE[2:])
    yield from (longer(BUILT_IN, 512), longer(LATE, 0), longer(EARLY, 1024), [*LATE, 0], [*LATE, LARGEST], [0, *BUILT_IN])
    yield from (doubled(LATE), LATE + LATE, LATE + [TOP] * 1025, [0] * 4099 + [TOP], LATE + [TOP] * 3075)


def wrong_ends():
    """14 by the first or by the last entry alone."""
    yield from (raised(LATE, 1), raised(EARLY, 1), raised(EARLY, TOP), raised(BUILT_IN, 1), raised(STRAIGHT, 64), raised(stairs(2), 32768))
    yield changed(STRAIGHT, 0, 1)
    yield from (lowered(LATE, 0), lowered(LATE, 1), lowered(LATE, TOP - 1), lowered(EARLY, 32768), lowered(EARLY, TOP - 1))
    yield from (lowered(BUILT_IN, TOP - 1), changed(STRAIGHT, 1024, TOP - 64), changed(STRAIGHT, 1024, TOP - 1))
    yield from (ending(LATE, entry) for entry in (TOP + 1, 2 * TOP, 2**31, 2**31 + TOP, LARGEST - TOP + 1, LARGEST))
    yield from (ending(EARLY, TOP + 1), ending(BUILT_IN, TOP + 1))


def falls():
    """14 by one fall: by 1 from the first place to the last, and to 0; then by an entry above 65536 before it."""
    yield from (peak(LATE, place) for place in ALL_PLACES if place < 1023)
    yield from (dip(EARLY, place) for place in ALL_PLACES if place > 1)
    yield from (dip(EARLY, place, TOP) for place in (2, 700, 1023))
    yield from (dip(STRAIGHT, place) for place in (2, 257, 512, 1023))
    yield from (dip(BUILT_IN, place) for place in (3, 512, 1023))
    yield from (changed(LATE, place, entry) for place, entry in (
        (1, TOP + 1), (512, TOP + 1), (1022, TOP + 1), (1023, TOP + 1), (1, LARGEST), (700, LARGEST), (1023, LARGEST),
        (1023, 2**31), (1023, 2 * TOP), (300, 2**31 - 1)))
    yield from (peak(EARLY, place) for place in (1, 2, 511, 1022, 1023))
    yield peak(BUILT_IN, 1023)
    # From 0 to 65536 twice.
    yield [*LATE[512:], *LATE[513:]]


def broken(records):
    """Each break, to an accepted pluck but for it; the levels stay whatever they are, and the table too."""
    for number, table in enumerate((*wrong_lengths(), *wrong_ends(), *falls())):
        records.lend_table(table)
        records.lend([LOWEST, number, HIGHEST, 5, 6], [number, 2, 3, 4, -number])
        assert records.pluck_with(1 + number % 4, 5, 1, 2, 1 + number % 3, HEIGHTS[number % 11]) == 14
        assert records.pluck_with(3, 5, 1, 4, 4, 0) == 14
        if number % 6 == 0:
            records.check_table()
            # The built-in pluck takes no notice of it.
            assert records.pluck(1, 5, 1, 2, 3, 1000) == 0


def order_of_refusals(records):
    """14 after each other number, for one table of each break; with nothing else wrong it answers."""
    for table in ([], LATE[1:], longer(LATE, 1024), raised(LATE, 1), lowered(LATE, TOP - 1), ending(LATE, TOP + 1), peak(LATE, 512)):
        records.lend_table(table)
        assert given(records, PLUCK_BASE) == 14
        for low, cause in pluck_causes():
            assert given(records, {**PLUCK_BASE, **cause}) == low
    records.lend_table(LATE)
    assert given(records, PLUCK_BASE) == 0
    for low, first in pluck_causes():
        assert given(records, {**PLUCK_BASE, **first}) == low
        for high, second in {number: change for number, change in pluck_causes()}.items():
            if low < high and not set(first) & set(second):
                assert given(records, {**PLUCK_BASE, **second, **first}) == low


def every_kind(records):
    """0 to 8 and the largest number, with a table that keeps the rule and one that does not."""
    for table in (STRAIGHT, peak(LATE, 700)):
        records.lend_table(table)
        for kind in (*range(9), U64 - 1):
            for columns, rows in ((9, 1), (3, 3)):
                records.lend([kind % 10] * 9, [-1] * 9)
                refusal = records.pluck_with(kind, columns, rows, 4, 2, 70000)
                assert refusal == (1 if kind not in LINE_KINDS else 2 if rows == 3 else 0 if table == STRAIGHT else 14)


def argument_extremes(records):
    """64-bit edge values in every argument, heights at the ceiling and beyond: by a table of 65536 from entry 1 on, and a broken one."""
    for table in (EARLY, raised(LATE, 1)):
        records.lend_table(table)
        for name in ("kind", "columns", "rows", "centre", "half_width"):
            for value in EDGES:
                given(records, {**PLUCK_BASE, name: value})
        for height in (*SIGNED_EDGES, CEILING - 1, 1 - CEILING):
            refusal = given(records, {**PLUCK_BASE, "height": height})
            assert refusal == (8 if abs(height) > CEILING else 0 if table == EARLY else 14)
            if refusal == 0:
                assert records.lent[0] == [0, height, height, height, 0]


def lists(records):
    """A pluck by a lent table, blocks on its levels, a refused one between them, another table."""
    for kind in LINE_KINDS:
        records.lend([7] * 9, [7] * 9, [5] * 9, [99] * 3)
        for lent, refusal in ((SQUARES, 0), (peak(LATE, 3, 2), 14), (EARLY, 0), (EARLY[:1024], 14), (BUILT_IN, 0)):
            records.lend_table(lent)
            assert records.pluck_with(kind, 9, 1, 4, 7, kind * 10**10) == refusal
            assert records.block(kind, 9, 1, 60000, 0, 300, 4, (3, -5)) == (3, 0)
            records.reading(kind, 9, 1, 5)


def pluck_records():
    records, draw = TableRecords(), Draws("plucks.txt")
    worked_case(records)
    copy_of_t(records, draw)
    other_tables(records, draw)
    broken(records)
    order_of_refusals(records)
    every_kind(records)
    argument_extremes(records)
    lists(records)
    largest_lines(records, draw)
    return records
