"""Wrong headers that check_header.py must find.

    python3 test_check_header.py HEADER.h c_api/src/lib.rt c_api_in_place/src/lib.rt types/src/lib.rt
"""

import sys

from check_header import add_sources, differences, exported, sources
from arguments import parser_of

# How the lines of the two blocks' arguments begin.
BLOCK, IN_PLACE = ("\n" + len(f"uint64_t {name}(") * " " for name in ("buvcsolta_block", "buvcsolta_block_in_place"))

# (what is wrong, text of the header, text in its place)
EDITS = (
    ("a function left out", "uint64_t buvcsolta_pluck(uint64_t kind, size_t columns", "uint64_t other(uint64_t kind, size_t columns"),
    ("a wrong name", "uint64_t buvcsolta_reading(uint64_t", "uint64_t buvcsolta_read(uint64_t"),
    ("an argument left out", f"{BLOCK}size_t pick_up, uint64_t hit, ", f"{BLOCK}size_t pick_up, "),
    ("an argument too many", "double *value);", "double *value, size_t more);"),
    ("the count of inexact points left out", ", uint64_t *inexact);\n\n/* A block in place", ");\n\n/* A block in place"),
    ("a count of 32 bits", "uint64_t *inexact);\n\n/* A pluck", "uint32_t *inexact);\n\n/* A pluck"),
    ("arguments exchanged", f"uint64_t q, uint64_t m, uint64_t s,{BLOCK}int", f"uint64_t m, uint64_t q, uint64_t s,{BLOCK}int"),
    ("samples of 32 bits", f"int16_t *samples, size_t samples_length,{BLOCK}size", f"int32_t *samples, size_t samples_length,{BLOCK}size"),
    ("a block in place with work", f"{IN_PLACE}int16_t *samples", f"{IN_PLACE}int64_t *work, size_t work_length, int16_t *samples"),
    ("a signed kind", "uint64_t buvcsolta_sheet(uint64_t kind", "uint64_t buvcsolta_sheet(int64_t kind"),
    ("a number for a pointer", "uint64_t *q, uint64_t *m, uint64_t *s);", "uint64_t *q, uint64_t *m, uint64_t s);"),
    ("a float of 32 bits", "double loss,\n", "float loss,\n"),
    ("newer may be written", "const int64_t *newer", "int64_t *newer"),
    ("a table that may be written", "const uint32_t *table, size_t table_length);", "uint32_t *table, size_t table_length);"),
    ("a table of 64 bits", "const uint32_t *table, size_t table_length);", "const uint64_t *table, size_t table_length);"),
    ("a table without its length", "const uint32_t *table, size_t table_length);", "const uint32_t *table);"),
    ("an answer of 32 bits", "uint64_t buvcsolta_block(", "uint32_t buvcsolta_block("),
    ("a wrong refusal", "BUVCSOLTA_PICK_UP = 9", "BUVCSOLTA_PICK_UP = 10"),
    ("the last refusal by another number", "BUVCSOLTA_BROKEN_TABLE = 14", "BUVCSOLTA_BROKEN_TABLE = 15"),
    ("a refusal without words", "case BUVCSOLTA_HALF_WIDTH: return", "case 10: return"),
    ("a wrong kind", "BUVCSOLTA_BAR = 4", "BUVCSOLTA_BAR = 5"),
    ("a kind left out",
     "BUVCSOLTA_MEMBRANE_ROUND = 6,       /* fixed edge                             3..64, square */\n    BUVCSOLTA_PLATE = 7",
     "BUVCSOLTA_MEMBRANE_ROUND = 6"),
    ("a wrong ceiling", "INT64_C(32767)", "INT64_C(32768)"),
    ("wrong units", "(INT64_C(1) << 28)", "(INT64_C(1) << 27)"),
)


def main():
    parser = parser_of(__doc__)
    add_sources(parser)
    header, exports, scheme = sources(vars(parser.parse_args()).values())
    names = set(exported(exports))
    faults = [f"the header itself: {wrong}" for wrong in differences(header, exports, scheme, names)]
    for what, text, other in EDITS:
        if header.count(text) != 1:
            faults.append(f"not once in the header: {text!r}")
        elif not differences(header.replace(text, other), exports, scheme, names):
            faults.append(f"not found: {what}")
    if not differences(header, exports, scheme, names - {"buvcsolta_sheet"}):
        faults.append("not found: a library without buvcsolta_sheet")
    print(*faults or [f"{len(EDITS) + 1} wrong headers and libraries found"], sep="\n")
    return 1 if faults else 0


if __name__ == "__main__":
    sys.exit(main())
