"""The records of sheets.txt."""

import math

import calls
from draws import EDGES, FLOAT_EDGES, Draws, from_bits, to_bits
from instrument import D, GRID_KINDS, KINDS, LINE_KINDS
from sheet import Sheet

LARGEST = 1.7976931348623157e308
NANS = tuple(from_bits(bits) for bits in (0x7FF8000000000000, 0xFFF8000000000000, 0x7FF0000000000001,
                                          0x7FFFFFFFFFFFFFFF, 0xFFF0000000000001))
ROWS = {kind: 1 if kind in LINE_KINDS else 3 for kind in KINDS}
HALVES = (0, 1, 2, 3, 8191, 16383, 16384, 32766, 32767, 32768, 49151, 65531, 65534, 65535, 65536, 65537)
# Rate 1 and, with 3 columns, spacing 1: the coefficients are the tension, the bending and the loss.
PLAIN = Sheet(1.0, 2.0, 0.0, ("tension", 0.25, 1.0), ("per second", 0.0))


def around(x):
    return math.nextafter(x, 0.0), x, math.nextafter(x, LARGEST)


class Records(list):
    def sheet(self, kind, columns, rows, sheet):
        """One record; the answer's refusal."""
        refusal, settings = calls.sheet(kind, columns, rows, sheet)
        hertz = sheet.speed[0] == "hertz"
        speed, density = sheet.speed[1], 0.0 if hertz else sheet.speed[2]
        self.append((6, kind, columns, rows, to_bits(sheet.rate), to_bits(sheet.length), to_bits(sheet.bending),
                     int(not hertz), to_bits(speed), to_bits(density), int(sheet.loss[0] == "seconds"),
                     to_bits(sheet.loss[1]), *settings, refusal))
        return refusal

    def plain(self, kind, **changes):
        return self.sheet(kind, 3, ROWS[kind], PLAIN._replace(**changes))


def examples(records):
    example = Sheet(48000.0, 1.0, 0.0, ("hertz", 100.0), ("per second", 6.0))
    assert records.sheet(1, 101, 1, example) == 0
    for kind in LINE_KINDS:
        for columns in (3, 101, 1023, 1024):
            records.sheet(kind, columns, 1, example)
            records.sheet(kind, columns, 1, example._replace(loss=("seconds", 2.5)))
            records.sheet(kind, columns, 1, example._replace(bending=2.0, speed=("tension", 60.0, 0.006)))


def plates(records):
    """A sheet of steel, 1 mm thick: its sizes on both sides of each limit; in hertz it is refused."""
    steel = Sheet(48000.0, 0.75, 2.3, ("tension", 0.0, 7.8), ("per second", 3.0))
    for columns, rows, refusal in ((3, 3, 0), (64, 3, 0), (3, 64, 0), (64, 48, 0), (48, 64, 0), (64, 64, 0), (2, 3, 2), (3, 2, 2),
                                   (65, 3, 2), (3, 65, 2)):
        assert records.sheet(7, columns, rows, steel) == refusal
        assert records.sheet(7, columns, rows, steel._replace(loss=("seconds", 2.5), speed=("tension", 500.0, 7.8))) == refusal
        assert records.sheet(7, columns, rows, steel._replace(speed=("hertz", 100.0))) == (refusal or 3)


def halves(records):
    """Exact halves after x 65536 and their neighbours, in each coefficient."""
    for k in HALVES:
        for x in (*around((k + 0.5) / D), *around(k / D)):
            for kind in ROWS:
                records.plain(kind, speed=("tension", x, 1.0))
            records.plain(4, bending=x, speed=("tension", 0.0, 1.0))
            records.plain(4, bending=x / 4, speed=("tension", 0.0, 1.0))
            records.plain(2, loss=("per second", x))
            records.plain(5, loss=("per second", x))
            records.plain(3, bending=x)
            records.sheet(1, 5, 1, Sheet(0.5, 3.0, 0.0, ("tension", x / 4, 1.0), ("per second", x / 2)))
            if x:
                records.plain(1, loss=("seconds", 6.907755278982137 / x))
        # With 3 columns and rate 4 the hertz number is z itself.
        for z in beside(math.sqrt((k + 0.5) / D), 2):
            records.sheet(1, 3, 1, Sheet(4.0, 2.0, 0.0, ("hertz", z), ("per second", 0.0)))


def beside(x, reach):
    return [from_bits(to_bits(x) + change) for change in range(-reach, reach + 1)]


def squares_at_halves(records):
    """Hertz whose square is rounded to an exact half."""
    found = 0
    for k in range(0, 65536, 97):
        half = (k + 0.5) / D
        for z in beside(math.sqrt(half), 1):
            if z * z == half and found < 60:
                found += 1
                for x in around(z):
                    records.sheet(3, 3, 1, Sheet(4.0, 2.0, 0.0, ("hertz", x), ("per second", 0.0)))
    assert found == 60


def each_place(sheet, x):
    """The sheet with x in each of its places."""
    yield sheet._replace(rate=x)
    yield sheet._replace(length=x)
    yield sheet._replace(bending=x)
    yield sheet._replace(speed=(sheet.speed[0], x, *sheet.speed[2:]))
    if sheet.speed[0] == "tension":
        yield sheet._replace(speed=(*sheet.speed[:2], x))
    yield sheet._replace(loss=(sheet.loss[0], x))


def edges(records):
    """Zeros, subnormals, largest floats, infinities, NaNs in each place."""
    bases = (Sheet(48000.0, 1.0, 0.0, ("hertz", 100.0), ("per second", 6.0)),
             Sheet(48000.0, 1.0, 0.5, ("tension", 40.0, 0.01), ("seconds", 3.0)))
    for x in (*FLOAT_EDGES, *NANS):
        for base in bases:
            for sheet in each_place(base, x):
                for kind in (1, 4, 5):
                    records.sheet(kind, 21, 21 if kind == 5 else 1, sheet)
    for x in (1e-170, 1e-162, 1e-154, 1e-81, 1e-77, 1e77, 1e81, 1.3e154, 1.4e154, LARGEST):
        for base in (PLAIN, PLAIN._replace(speed=("hertz", 1.0), loss=("seconds", 1.0)),
                     PLAIN._replace(bending=x), PLAIN._replace(bending=1.0, speed=("tension", x, x))):
            for sheet in each_place(base, x):
                for kind in (1, 4, 6):
                    records.sheet(kind, 3, ROWS[kind], sheet)


# (q, m, refusal)
BAR_LIMITS = ((65532, 1, 0), (65533, 1, 5), (0, 16384, 0), (1, 16384, 5), (0, 16385, 5), (65536, 0, 0), (65537, 0, 4), (0, 65536, 5),
              (0, 65537, 4), (65536, 65536, 5), (32768, 8192, 0), (32769, 8192, 5), (32768, 8193, 5), (3, 16383, 0),
              (4, 16383, 0), (5, 16383, 5))
PLATE_LIMITS = ((32768, 0, 0), (32769, 0, 5), (32760, 1, 0), (32761, 1, 5), (0, 4096, 0), (1, 4096, 5), (0, 4097, 5),
                (8, 4095, 0), (9, 4095, 5), (16384, 2048, 0), (16385, 2048, 5), (16384, 2049, 5), (65537, 0, 4), (0, 65536, 5),
                (0, 65537, 4))


def limits(records):
    """65536 exactly and just beyond; the limits of stability; hertz for drumheads and plates."""
    for kind, on_both_sides in ((4, BAR_LIMITS), (7, PLATE_LIMITS)):
        for q, m, refusal in on_both_sides:
            for x, y in ((q / D, m / D), ((q + 0.25) / D, (m + 0.25) / D), (max(q - 0.5, 0.0) / D, max(m - 0.5, 0.0) / D)):
                assert records.plain(kind, speed=("tension", x, 1.0), bending=y) == refusal
    for kind in GRID_KINDS:
        for q, refusal in ((32767.0, 0), (32768.0, 0), (32768.4, 0), (32768.5, 5), (32769.0, 5), (65536.0, 5),
                           (65536.5, 4)):
            assert records.plain(kind, speed=("tension", q / D, 1.0)) == refusal
        for x in (0.0, -0.0, 1.0, 1e-3):
            assert records.plain(kind, speed=("hertz", x)) == 3
    for kind in (5, 6):
        for x, refusal in ((0.25, 5), (0.4999 / D, 0), (0.5 / D, 5), (1.1, 4)):
            assert records.plain(kind, bending=x) == refusal
    for x, refusal in ((1.0, 0), ((D + 0.5) / D, 4), (math.nextafter((D + 0.5) / D, 0.0), 0)):
        for kind in (1, 2, 3):
            assert records.plain(kind, speed=("tension", x, 1.0)) == refusal
            assert records.plain(kind, loss=("per second", x)) == refusal


def causes():
    """(refusal, changes of a plain sheet call); a cause takes its own places."""
    return ((1, dict(kind=0)), (1, dict(kind=8)), (1, dict(kind=2**64 - 1)), (2, dict(columns=2)),
            (2, dict(columns=1025)), (2, dict(rows=0)), (2, dict(rows=2**64 - 1)), (3, dict(rate=-1.0)),
            (3, dict(rate=0.0)), (3, dict(length=math.inf)), (3, dict(loss=("seconds", -0.0))),
            (3, dict(loss=("per second", math.nan))), (4, dict(speed=("tension", 1.5, 1.0))),
            (4, dict(bending=2.0)), (4, dict(loss=("per second", 1.00001))), (5, dict(bending=0.125)))


def refusals(records):
    base = dict(kind=1, columns=3, rows=1, rate=1.0, length=2.0, bending=0.0, speed=("tension", 0.25, 1.0),
                loss=("per second", 0.0))

    def given(*changes):
        merged = dict(base)
        for change in changes:
            merged.update(change)
        return records.sheet(merged.pop("kind"), merged.pop("columns"), merged.pop("rows"), Sheet(**merged))

    assert given() == 0
    for low, first in causes():
        assert given(first) == low
        for high, second in causes():
            if low < high and not set(first) & set(second):
                assert given(second, first) == low
    for value in EDGES:
        for place in ("kind", "columns", "rows"):
            for kind in (1, 5, 6):
                given(dict(kind=kind, rows=1 if kind == 1 else 3), {place: value})
    given(dict(columns=2**32, rows=2**32))


def drawn(records, count):
    draw = Draws("sheets.txt")
    for _ in range(count):
        draw.odds = draw.choice((0.0, 0.02, 0.05))
        kind = draw.kind()
        columns, rows = draw.size(kind)
        records.sheet(kind, columns, rows, draw.sheet(kind, columns))


def sheet_records():
    records = Records()
    for part in (examples, plates, halves, squares_at_halves, edges, limits, refusals):
        part(records)
    drawn(records, 800)
    return records
