"""The C library through ctypes, the reference in the same form, and stand-ins for the library.

Both sides take the C functions' plain arguments, with buffers as lists, and give back
    block:          (refusal, steps, inexact, older, newer, work, samples)
    block_in_place: (refusal, steps, inexact, older, newer, samples)
    pluck:          (refusal, older, newer)
    pluck_with:     (refusal, older, newer, table)
    reading:        (refusal, bits of the value, newer)
    sheet:          (refusal, q, m, s)
"""

import ctypes
import importlib
import sys
import tempfile
from array import array

import calls
import must_fail
from draws import to_bits
from sheet import Sheet

U64, I64, U32, SIZE, F64, PLACE = (ctypes.c_uint64, ctypes.c_int64, ctypes.c_uint32, ctypes.c_size_t, ctypes.c_double,
                                   ctypes.c_void_p)
LEVEL = TABLE = (PLACE, SIZE)
INSTRUMENT = (U64, SIZE, SIZE, U64, U64, U64)
# The samples, the pick-up, the hit with its point and force, the counts of steps and of inexact points.
PLAYED = (PLACE, SIZE, SIZE, U64, SIZE, I64, PLACE, PLACE)
PLUCK = (U64, SIZE, SIZE, *LEVEL, *LEVEL, SIZE, SIZE, I64)
SIGNATURES = {
    "block": (*INSTRUMENT, *LEVEL, *LEVEL, *LEVEL, *PLAYED),
    "block_in_place": (*INSTRUMENT, *LEVEL, *LEVEL, *PLAYED),
    "pluck": PLUCK,
    "pluck_with": (*PLUCK, *TABLE),
    "reading": (U64, SIZE, SIZE, *LEVEL, SIZE, PLACE),
    "sheet": (U64, SIZE, SIZE, F64, F64, F64, U64, F64, F64, U64, F64, PLACE, PLACE, PLACE),
}
GUARD = 21930
MODULES = ("instrument", "step", "pluck", "sheet", "refusals", "in_place", "calls")


class Overwritten(Exception):
    """The library wrote outside a lent buffer."""


class Lent:
    """A buffer between two guards; code is the array's type code."""

    def __init__(self, code, values):
        self.cells = array(code, (GUARD, *values, GUARD))
        self.place = self.cells.buffer_info()[0] + self.cells.itemsize
        self.length = len(values)

    def values(self):
        first, *values, last = self.cells.tolist()
        if (first, last) != (GUARD, GUARD):
            raise Overwritten
        return values


class Library:
    """The six functions of a library, given as {name: C function}."""

    def __init__(self, functions):
        self.functions = functions

    def either_block(self, name, instrument, levels, samples, rest):
        """instrument: kind to s; rest: pick-up, hit, point and force."""
        lent = [*(Lent("q", level) for level in levels), Lent("h", samples)]
        steps, inexact = Lent("Q", [GUARD]), Lent("Q", [GUARD])
        places = [number for buffer in lent for number in (buffer.place, buffer.length)]
        refusal = self.functions[name](*instrument, *places, *rest, steps.place, inexact.place)
        return refusal, steps.values()[0], inexact.values()[0], *(buffer.values() for buffer in lent)

    def block(self, *arguments):
        return self.either_block("block", arguments[:6], arguments[6:9], arguments[9], arguments[10:])

    def block_in_place(self, *arguments):
        return self.either_block("block_in_place", arguments[:6], arguments[6:8], arguments[8], arguments[9:])

    def pluck(self, kind, columns, rows, older, newer, centre, half_width, height):
        a, b = Lent("q", older), Lent("q", newer)
        refusal = self.functions["pluck"](kind, columns, rows, a.place, a.length, b.place, b.length,
                                          centre, half_width, height)
        return refusal, a.values(), b.values()

    def pluck_with(self, kind, columns, rows, older, newer, centre, half_width, height, table):
        """The table is given back as the library left it."""
        a, b, c = Lent("q", older), Lent("q", newer), Lent("I", table)
        refusal = self.functions["pluck_with"](kind, columns, rows, a.place, a.length, b.place, b.length,
                                               centre, half_width, height, c.place, c.length)
        return refusal, a.values(), b.values(), c.values()

    def reading(self, kind, columns, rows, newer, pick_up):
        a, value = Lent("q", newer), Lent("Q", [GUARD])
        refusal = self.functions["reading"](kind, columns, rows, a.place, a.length, pick_up, value.place)
        return refusal, value.values()[0], a.values()

    def sheet(self, kind, columns, rows, *numbers):
        q, m, s = (Lent("Q", [GUARD]) for _ in range(3))
        refusal = self.functions["sheet"](kind, columns, rows, *numbers, q.place, m.place, s.place)
        return refusal, q.values()[0], m.values()[0], s.values()[0]


def open_library(path):
    """The library at path, its functions named buvcsolta_..."""
    handle = ctypes.CDLL(path)
    functions = {}
    for name, signature in SIGNATURES.items():
        function = getattr(handle, "buvcsolta_" + name)
        function.argtypes, function.restype = signature, U64
        functions[name] = function
    return Library(functions)


class Reference:
    """A calls module in the form of a library."""

    def __init__(self, module=calls):
        self.calls = module

    def either_block(self, call, *arguments):
        *before, hit, point, force = arguments
        (steps, inexact, refusal), *after = call(*before, (point, force) if hit else None)
        return (refusal, steps, inexact, *after)

    def block(self, *arguments):
        return self.either_block(self.calls.block, *arguments)

    def block_in_place(self, *arguments):
        return self.either_block(self.calls.block_in_place, *arguments)

    def pluck(self, *arguments):
        return self.calls.pluck(*arguments)

    def pluck_with(self, *arguments):
        return *self.calls.pluck_with(*arguments), arguments[-1]

    def reading(self, kind, columns, rows, newer, pick_up):
        refusal, value = self.calls.reading(kind, columns, rows, newer, pick_up)
        return refusal, to_bits(value), newer

    def sheet(self, kind, columns, rows, rate, length, bending, speed_kind, speed, density, loss_kind, loss):
        record = Sheet(rate, length, bending,
                       ("tension", speed, density) if speed_kind else ("hertz", speed),
                       ("seconds" if loss_kind else "per second", loss))
        refusal, settings = self.calls.sheet(kind, columns, rows, record)
        return (refusal, *settings)


def cells(code, place, length):
    return (code * length).from_address(place)


def stand_in(module=calls):
    """A library made of the calls of a module, behind C functions of the same signatures."""
    reference = Reference(module)

    def block_of(call, levels):
        """The C function of a block that takes so many levels."""
        codes = (*[I64] * levels, ctypes.c_int16)

        def block(*arguments):
            instrument, lent, rest = arguments[:6], arguments[6:6 + 2 * len(codes)], arguments[6 + 2 * len(codes):-2]
            buffers = [cells(code, *lent[2 * k:2 * k + 2]) for k, code in enumerate(codes)]
            steps, inexact = arguments[-2:]
            refusal, cells(SIZE, steps, 1)[0], cells(U64, inexact, 1)[0], *after = call(
                *instrument, *map(list, buffers), *rest)
            for buffer, values in zip(buffers, after):
                buffer[:] = values
            return refusal

        return block

    def pluck_of(call):
        """The C function of a pluck, by a lent table or by T."""

        def pluck(*arguments):
            grid, lent, shape, table = arguments[:3], arguments[3:7], arguments[7:10], arguments[10:]
            levels = [cells(I64, *lent[:2]), cells(I64, *lent[2:])]
            tables = [cells(U32, *table)] if table else []
            refusal, *after = call(*grid, *map(list, levels), *shape, *map(list, tables))
            for buffer, values in zip((*levels, *tables), after):
                buffer[:] = values
            return refusal

        return pluck

    def reading(kind, columns, rows, newer, length, pick_up, value):
        refusal, cells(U64, value, 1)[0], _ = reference.reading(
            kind, columns, rows, list(cells(I64, newer, length)), pick_up)
        return refusal

    def sheet(*arguments):
        *plain, q, m, s = arguments
        refusal, cells(U64, q, 1)[0], cells(U64, m, 1)[0], cells(U64, s, 1)[0] = reference.sheet(*plain)
        return refusal

    def total(function):
        """A wrong stand-in may fail; 99 is no refusal number."""
        def answer(*arguments):
            try:
                return function(*arguments)
            except (IndexError, ValueError, TypeError, ZeroDivisionError, AssertionError):
                return 99
        return answer

    functions = {"block": block_of(reference.block, 3), "block_in_place": block_of(reference.block_in_place, 2),
                 "pluck": pluck_of(reference.pluck), "pluck_with": pluck_of(reference.pluck_with),
                 "reading": reading, "sheet": sheet}
    return Library({name: ctypes.CFUNCTYPE(U64, *SIGNATURES[name])(total(function))
                    for name, function in functions.items()})


def calls_from(folder):
    """The calls module of another copy of these files."""
    ours = {name: sys.modules.pop(name) for name in MODULES if name in sys.modules}
    sys.path.insert(0, str(folder))
    try:
        return importlib.import_module("calls")
    finally:
        sys.path.pop(0)
        sys.modules.update(ours)


def wrong_stand_in(edit):
    """A stand-in with one of the wrong edits of must_fail.py."""
    with tempfile.TemporaryDirectory() as folder:
        must_fail.wrong_copy(edit, folder)
        return stand_in(calls_from(folder))
