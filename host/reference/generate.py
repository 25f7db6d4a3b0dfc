"""Vector files for a program that interprets them: calls.txt, sheets.txt, in_place.txt and plucks.txt.

    python3 generate.py DIR          writes them
    python3 generate.py --check DIR  says whether the files there are what it would write

A file is a sequence of decimal numbers, one record per line, ended by 0:
    1 which length v0 v1 ..   the lent buffer (0 older, 1 newer, 2 work, 3 samples, 4 table) is now this
    2 which length v0 v1 ..   the lent buffer must be this now
    3 kind columns rows q m s pickup hit point force steps inexact refusal
    4 kind columns rows centre halfwidth height refusal
    5 kind columns rows pickup valuebits refusal
    6 kind columns rows rate length bending speedkind speed1 speed2 losskind loss q m s refusal
    7 kind columns rows q m s pickup hit point force steps inexact refusal
    8 kind columns rows centre halfwidth height refusal
3 is a block with older, newer, work and samples, 7 a block in place without work; 4 is a pluck with older and newer, 8 one by the
lent table.
"""

import sys

from arguments import folder, parser_of
from call_vectors import call_records
from in_place_vectors import in_place_records
from pluck_vectors import pluck_records
from sheet_vectors import sheet_records


def text(records):
    return "".join(" ".join(map(str, record)) + "\n" for record in (*records, (0,)))


def main():
    parser = parser_of(__doc__)
    parser.add_argument("--check", action="store_true")
    parser.add_argument("folder", metavar="DIR", type=folder)
    options = parser.parse_args()
    status = 0
    calls = call_records()
    for name, records in (("calls.txt", calls), ("sheets.txt", sheet_records()), ("in_place.txt", in_place_records(calls)),
                          ("plucks.txt", pluck_records())):
        written = text(records).encode("ascii")
        path = options.folder / name
        if not options.check:
            path.write_bytes(written)
            print(f"{name}: {len(records)} records, {len(written)} bytes")
        elif path.is_file() and path.read_bytes() == written:
            print(f"{name}: as generated")
        else:
            print(f"{name}: not as generated")
            status = 1
    return status


if __name__ == "__main__":
    sys.exit(main())
