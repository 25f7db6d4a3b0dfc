"""The table T of the engine's source against the reference's.

    python3 check_table.py ../../crates/pluck/src/table.rt
"""

import re
import sys

from arguments import file, parser_of
from pluck import T


def table_in(source):
    """The numbers between the brackets of the constant TABLE; None where there is no such constant."""
    text = re.sub(r"//.*", "", source)
    body = re.search(r"TABLE: \[\w+; \d+\] = \[([\d,\s]*)\];", text)
    return [int(number) for number in body.group(1).split(",") if number.strip()] if body else None


def main():
    parser = parser_of(__doc__)
    parser.add_argument("source", metavar="SOURCE.rt", type=file)
    source = parser.parse_args().source
    found = table_in(source.read_text(encoding="utf-8", errors="replace"))
    if found is None:
        parser.error(f"{source} has no constant TABLE")
    wrong = [j for j, (a, b) in enumerate(zip(found, T)) if a != b]
    if wrong or len(found) != len(T):
        print("T differs at", wrong, "of", len(found))
        return 1
    print("T:", len(found), "entries as in the reference")
    return 0


if __name__ == "__main__":
    sys.exit(main())
