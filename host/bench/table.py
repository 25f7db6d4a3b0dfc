"""The tables of host/bench/run, in Markdown, from the lines of the bench and callgrind's counts.

    target/host/bench | python3 table.py [FOLDER]       FOLDER has callgrind's dumps dump.1, dump.2, .. of `bench count`
"""

import itertools
import pathlib
import re
import sys

sys.path.append(str(pathlib.Path(__file__).resolve().parent.parent / "reference"))

from arguments import folder, parser_of

CALLS_COUNTED = 20
PLAIN = ("gcc", "clang")
THREE = "three levels"  # whom a row in place has beside it

# What stands above a table, its first head and its further columns of nanoseconds, by whether its rows are told for a point and step, and
# whether they are in place.
TABLES = {
    (True, False): ("A point and step of blocks of 64 steps:", "block", ("reciprocal", "double")),
    (True, True): ("The same in place:", "block in place", ()),
    (False, False): ("A call:", "call", ("reciprocal",)),
    (False, True): ("A call in place:", "call in place", ()),
}


def rows_of(lines):
    """what, grid, units of a call, same, {who: nanoseconds}"""
    for line in lines:
        what, grid, units, same, *times = line.rstrip("\n").split(";")
        yield what, grid, int(units), same, {who: float(time) for who, time in (text.rsplit(" ", 1) for text in times)}


def counts_of(folder):
    """The instructions of each dump, in order."""
    for number in itertools.count(1):
        path = pathlib.Path(folder, f"dump.{number}")
        if not path.is_file():
            return
        yield int(re.search(r"^summary: (\d+)", path.read_text(), re.M)[1])


def shown(value):
    return f"{value:.2f}" if value < 10 else f"{value:.1f}" if value < 100 else f"{value:.0f}"


def ratio(values):
    """The proved one over the least of plain C."""
    return values["proved"] / min(values[who] for who in PLAIN if who in values)


def instructions(values):
    least = min(values[who] for who in PLAIN if who in values)
    return f"{shown(values['proved'])} / {shown(least)} = {ratio(values):.2f}"


def beside_three(values):
    """In place over three levels, where a row has both."""
    return [f"{values['proved'] / values[THREE]:.2f}"] if THREE in values else []


def row(what, grid, units, times, counts, others):
    cells = [what, grid]
    for who in ("proved", *PLAIN):
        cells.append(shown(times[who] / units) if who in times else "")
    cells.append(f"{ratio(times):.2f}")
    cells += [shown(times[who] / units) if who in times else "" for who in others]
    cells += beside_three(times)
    if counts:
        cells.append(instructions({who: count / units / CALLS_COUNTED for who, count in counts.items()}))
        cells += beside_three(counts)
    return "| " + " | ".join(cells) + " |"


def table(rows, first, others, is_in_place, has_counts):
    heads = [first, "grid", "proved, ns", "gcc, ns", "clang, ns", "proved / better C", *(f"{who}, ns" for who in others)]
    heads += ["in place / three levels"] if is_in_place else []
    heads += ["instructions, proved / fewer C"] if has_counts else []
    heads += ["instructions, in place / three levels"] if has_counts and is_in_place else []
    return ["| " + " | ".join(heads) + " |", "|" + "---|" * len(heads), *rows]


def main():
    parser = parser_of(__doc__)
    parser.add_argument("folder", metavar="FOLDER", nargs="?", type=folder)
    options = parser.parse_args()
    try:
        measured = list(rows_of(sys.stdin))
        if not measured:
            raise ValueError
    except ValueError:
        parser.error("standard input is not what the bench prints")
    counts, wanted = None, sum(len(times) for *_, times in measured)
    if options.folder:
        found = list(counts_of(options.folder))
        if len(found) != wanted:
            parser.error(f"{options.folder} has {len(found)} dumps, not {wanted}")
        counts = iter(found)
    rows, wrong = {key: [] for key in TABLES}, []
    for what, grid, units, same, times in measured:
        counted = {who: next(counts) for who in times} if counts else {}
        key = units > 1, THREE in times
        rows[key].append(row(what, grid, units, times, counted, TABLES[key][2]))
        wrong += [] if same == "yes" else [f"{what}, {grid}{' in place' if key[1] else ''}"]
    for key, (above, first, others) in TABLES.items():
        print(above, "", *table(rows[key], first, others, key[1], counts), "", sep="\n")
    print("NOT THE SAME: " + "; ".join(wrong) if wrong else "All left the same levels, samples and results in every row.")
    return 1 if wrong or not all(rows.values()) else 0


if __name__ == "__main__":
    sys.exit(main())
