"""Whether the example inexact.c prints the reference's count of inexact points of each step, refusals in words, and its usage on misuse.

    python3 check_inexact.py PROGRAM HEADER.h
"""

import re
import subprocess
import sys

from check_header import enumerators
from arguments import file, parser_of, program
from instrument import CEILING
from library import Reference

MOST = 2**64 - 1
UNIT = 2**28
STRING = (1, 101, 1, 11378, 0, 8)
NO_LOSS = (1, 101, 1, 65536, 0, 0)

# what, (kind, columns, rows, q, m, s), steps, point, force
RUNS = (
    ("a string", STRING, 40, 50, UNIT),
    ("a string hit from below", STRING, 20, 3, -8000 * UNIT - 1),
    ("a string without loss at R = 1", NO_LOSS, 500, 37, 8000 * UNIT),
    ("the same, hit by an odd force", NO_LOSS, 100, 50, 12345),
    ("a string without loss", (1, 64, 1, 30000, 0, 0), 40, 31, UNIT),
    ("an even divisor", (1, 33, 1, 40000, 0, 10000), 40, 16, 3 * UNIT),
    ("all is lost", (1, 9, 1, 65536, 0, 65536), 20, 4, 77777),
    ("one end free", (2, 50, 1, 60000, 0, 3), 40, 49, UNIT),
    ("both ends free", (3, 7, 1, 50000, 0, 5), 40, 0, UNIT),
    ("the least bar", (4, 3, 1, 100, 9000, 1), 20, 1, UNIT),
    ("a bar", (4, 40, 1, 20000, 9000, 4), 40, 20, UNIT),
    ("a membrane", (5, 8, 6, 30000, 0, 2), 30, 9, UNIT),
    ("a round membrane", (6, 9, 9, 32768, 0, 1), 30, 40, UNIT),
    ("a plate", (7, 8, 7, 1000, 2000, 7), 30, 18, UNIT),
    ("a plate without loss", (7, 5, 5, 0, 4096, 0), 10, 12, 16 * UNIT),
    ("the largest grid", (7, 64, 64, 20000, 1500, 3), 2, 64 * 32 + 32, UNIT),
    ("no force", STRING, 3, 50, 0),
    ("no steps", STRING, 0, 50, UNIT),
    ("beyond the ceiling", STRING, 10, 50, CEILING),
    ("beyond it later", (3, 3, 1, 0, 0, 0), 10, 1, 10000 * UNIT),
    ("an unknown kind", (0, *STRING[1:]), 5, 50, UNIT),
    ("the largest kind", (MOST, *STRING[1:]), 5, 50, UNIT),
    ("no columns", (1, 0, 1, 0, 0, 0), 5, 0, 1),
    ("no rows", (5, 8, 0, 0, 0, 0), 5, 9, 1),
    ("too many columns", (1, 4097, 1, 0, 0, 0), 5, 1, 1),
    ("too many rows", (5, 64, 2**40, 0, 0, 0), 5, 65, 1),
    ("more points than 64 bits count", (5, 2**32 + 1, 2**32, 0, 0, 0), 5, 1, 1),
    ("the most of both", (5, MOST, MOST, 0, 0, 0), 5, 1, 1),
    ("a coefficient", (1, 101, 1, 65537, 0, 0), 5, 50, 1),
    ("the largest coefficient", (1, 101, 1, 0, 0, MOST), 5, 50, 1),
    ("not stable", (4, 101, 1, 65536, 1, 0), 5, 50, 1),
    ("a fixed point", STRING, 5, 0, 1),
    ("no point", STRING, 5, MOST, 1),
    ("too strong", STRING, 5, 50, CEILING + 1),
    ("the least force", STRING, 5, 50, -2**63),
    ("refused without a step", STRING, 0, 100, 1),
)

# one argument in the place of another, by its number from 0, or a wrong count of them
WRONG = (*((place, text) for place in range(9) for text in ("", "-", "x", "+1", " 1", "1 ", "1.0", "0x1", "1e3", "--1")),
         *((place, text) for place in range(8) for text in ("-1", str(MOST + 1), "9" * 40)),
         (8, str(2**63)), (8, str(-2**63 - 1)), (8, "-" + "9" * 40))


def words(header):
    """{number: text} of the refusals that a header tells in words."""
    numbers = enumerators(header, "buvcsolta_refusal")
    return {numbers[name]: text for name, text in re.findall(r'case (\w+): return "(.*)";', header)}


def wanted(instrument, steps, point, force, text):
    """What the reference makes of a run: status, lines."""
    kind, columns, rows, *_ = instrument
    levels = [[0] * (columns * rows if columns * rows <= 4096 else 0) for _ in range(3)]
    lines, total = [], 0
    # "no step" first, and then blocks of one: the hit acts in the first of them.
    for step, samples in enumerate([[], *([0] for _ in range(steps))]):
        refusal, _, inexact, *levels, _ = Reference().block(*instrument, *levels, samples, 0, int(step < 2), point, force)
        if refusal:
            return 1, [*lines, f"sum {total}", f"refused: {text[refusal]}"]
        lines += [f"{step} {inexact}"] if step else []
        total += inexact
    return 0, [*lines, f"sum {total}"]


def said_by(example, arguments):
    said = subprocess.run([example, *map(str, arguments)], capture_output=True, text=True, timeout=60)
    return said.returncode, said.stdout.splitlines(), said.stderr


def counts(lines):
    return [int(line.split()[1]) for line in lines if line[0].isdigit()]


def faults_of_runs(example, text):
    """What is wrong, and the counts of each run."""
    faults, seen = [], {}
    for what, instrument, *rest in RUNS:
        status, lines, error = said_by(example, (*instrument, *rest))
        seen[what] = counts(lines)
        if (status, lines) != wanted(instrument, *rest, text) or error:
            faults.append(f"{what}: status {status}\n" + "\n".join(lines) + error)
    if seen["a string without loss at R = 1"] != [0] * 500:
        faults.append("R = 1 without loss: not 500 counts of 0")
    if not any(seen["a string"]) or not seen["beyond it later"]:
        faults.append("the runs show no count above 0, or no step before the ceiling")
    return faults


def faults_of_misuse(example):
    good = [*map(str, STRING), "1", "50", "1"]
    uses = [[], good[:-1], [*good, "1"], *([*good[:place], text, *good[place + 1:]] for place, text in WRONG)]
    faults = []
    for use in uses:
        status, lines, error = said_by(example, use)
        if status != 2 or lines or not error.startswith("usage: inexact "):
            faults.append(f"{use}: status {status}, not 2 with the usage\n" + "\n".join(lines) + error)
    return faults, len(uses)


def main():
    parser = parser_of(__doc__)
    parser.add_argument("example", metavar="PROGRAM", type=program)
    parser.add_argument("header", metavar="HEADER.h", type=file)
    options = parser.parse_args()
    text = words(options.header.read_text(encoding="utf-8"))
    misuses, uses = faults_of_misuse(options.example)
    faults = [*faults_of_runs(options.example, text), *misuses]
    print(*faults or [f"{len(RUNS)} runs as the reference's, {uses} misuses refused"], sep="\n")
    return 1 if faults else 0


if __name__ == "__main__":
    sys.exit(main())
