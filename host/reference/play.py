"""Plays a vector file of generate.py to a C library: the file's own check from Python.

    python3 play.py LIBRARY.so FILE
    python3 play.py --wrong DIR     each wrong edit of must_fail.py behind C functions must be found
"""

import argparse
import sys

import must_fail
from arguments import file, folder, parser_of
from draws import from_bits
from library import open_library, wrong_stand_in

# By opcode: the block and the lent buffers that it takes.
BLOCKS = {3: ("block", (0, 1, 2, 3)), 7: ("block_in_place", (0, 1, 3))}


def play(library, numbers):
    """None, or the record that does not hold."""
    take = lambda count: [next(numbers) for _ in range(count)]
    lent = [[], [], [], [], []]
    played = 0
    for opcode in numbers:
        played += 1
        if opcode == 0:
            assert next(numbers, None) is None
            return None
        if opcode in (1, 2):
            which, length = take(2)
            values = take(length)
            if opcode == 1:
                lent[which] = values
            holds = lent[which] == values
        elif opcode in BLOCKS:
            name, buffers = BLOCKS[opcode]
            *arguments, steps, inexact, refusal = take(13)
            found = getattr(library, name)(*arguments[:6], *(lent[which] for which in buffers), *arguments[6:])
            for which, values in zip(buffers, found[3:]):
                lent[which] = values
            holds = found[:3] == (refusal, steps, inexact)
        elif opcode == 4:
            *arguments, refusal = take(7)
            found, lent[0], lent[1] = library.pluck(*arguments[:3], lent[0], lent[1], *arguments[3:])
            holds = found == refusal
        elif opcode == 8:
            *arguments, refusal = take(7)
            found, lent[0], lent[1], lent[4] = library.pluck_with(*arguments[:3], lent[0], lent[1], *arguments[3:], lent[4])
            holds = found == refusal
        elif opcode == 5:
            kind, columns, rows, pick_up, bits, refusal = take(6)
            holds = library.reading(kind, columns, rows, lent[1], pick_up)[:2] == (refusal, bits)
        else:
            kind, columns, rows, rate, length, bending, form, one, two, loss_form, loss, *answer = take(15)
            *settings, refusal = answer
            floats = [from_bits(bits) for bits in (rate, length, bending, one, two, loss)]
            found = library.sheet(kind, columns, rows, *floats[:3], form, *floats[3:5], loss_form, floats[5])
            holds = found == (refusal, *settings)
        if not holds:
            return f"record {played}, opcode {opcode}"
    return "no end"


def vectors(text):
    """The numbers of a vector file."""
    try:
        return [int(number) for number in file(text).read_text(encoding="ascii").split()]
    except ValueError:
        raise argparse.ArgumentTypeError(f"{text} is no vector file") from None


def main():
    parser = parser_of(__doc__)
    parser.add_argument("library", metavar="LIBRARY.so", nargs="?")
    parser.add_argument("vectors", metavar="FILE", nargs="?", type=vectors)
    parser.add_argument("--wrong", metavar="DIR", type=folder)
    options = parser.parse_args()
    if (options.wrong is None) != (options.vectors is not None) or (options.wrong and options.library):
        parser.error("a library and a file, or --wrong and a folder")
    if options.wrong is None:
        try:
            library = open_library(options.library)
        except (OSError, AttributeError) as fault:
            parser.error(f"cannot open the library: {fault}")
        try:
            fault = play(library, iter(options.vectors))
        except (AssertionError, IndexError, StopIteration):
            parser.error("the file's records are not those of generate.py")
        print(fault or "every record holds")
        return 1 if fault else 0
    edits = must_fail.seen_by_calls()
    try:
        files = [vectors(f"{options.wrong}/{name}.txt") for name in ("calls", "sheets", "in_place", "plucks")]
    except argparse.ArgumentTypeError as fault:
        parser.error(str(fault))
    survived = [edit[0] for edit in edits if not any(play(wrong_stand_in(edit), iter(numbers)) for numbers in files)]
    print(*(f"not found: {name}" for name in survived), sep="\n", end="\n" if survived else "")
    print(len(edits) - len(survived), "wrong stand-ins found by the vectors")
    return 1 if survived else 0


if __name__ == "__main__":
    sys.exit(main())
