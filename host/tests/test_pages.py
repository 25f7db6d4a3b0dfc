"""Wrong pages that check_lines.py and check_names.py must find, and right ones that they must not.

    python3 test_pages.py
"""

import sys

import check_lines
import check_names
from pages import ROOT, all_pages

from arguments import parser_of

LONG = "word " * 30
A = LONG + "ends here."

# (what it is, text of the page, the lines that are wrong)
LINES = (
    ("a short page", "# Title\n\nOne. Two. Three.\n", []),
    ("a long sentence", f"# Title\n\n{A}\n{A}\nShort.\n", []),
    ("two sentences in a long line", f"{A} Another begins.\n", [1]),
    ("one that begins by code", f"{A} `block` is one.\n", [1]),
    ("one that begins by a number", f"{A} 13 is one.\n", [1]),
    ("one after a bracket", f"({A}) Another.\n", [1]),
    ("a list", f"- {A}\n- **A title** {A}\n1. {A}\n", []),
    ("two in a list", f"- Short.\n- {A} Two.\n", [2]),
    ("a piece at the beginning", f"{LONG}\nends here.\n", [1]),
    ("a piece at the end", f"It begins\n{A}\n", [2]),
    ("a sentence after a sentence", f"It begins. It ends.\n{A}\n", []),
    ("marks after a sentence", f"- {A} **[proved: `Name`]**\n- {A} **[proved: `Name`]** Another. **[explanation]**\n", [2]),
    ("dots inside", f"{LONG} 0..65536, 3 .. 7, A.b, `c. D` and `e. F` here.\n", []),
    ("after a line of code", f"- Short.\n  `x`\n  {A}\n", []),
    ("after a line that ends by code", f"- It begins by `x`\n  {A}\n", [2]),
    ("a table", f"| {A} Two. | {A} |\n|---|---|\n", []),
    ("code", f"```\n{A} Two.\n```\n\n    {A} Two.\n\nText.\n", []),
    ("after code", f"```\nx\n```\n{A} Two.\n", [4]),
    ("a comment", f"<!-- {A} Two. -->\n", []),
    ("a link", f"See [this](docs/{'x' * 200}.md). And that.\n", []),
    ("code alone", f"- `{LONG}. And`\n", []),
    ("a paragraph that ends without a stop", f"{LONG}\n\nNext.\n", []),
)

# (text of the page, what is found)
NAMES = (
    ("`block` of `crates/block/src/lib.rt`, `Calls.block`, `scheme/specs/Calls`, `host/test --calls 1`", []),
    ("`no_such_function`", ["no_such_function"]),
    ("`block::no_such_part`, `next_at` and `noSuch`", ["no_such_part", "noSuch"]),
    ("`crates/no_such/src`", ["crates/no_such/src"]),
    ("`scheme/specs/NoSuch.antt` and `no_such.py`", ["scheme/specs/NoSuch.antt", "no_such.py"]),
    ("`block (g no-such-law)`", ["no-such-law"]),
    ("`crates/NAME/must-fail/*.edit`, `target/host/nothing.so`, `-0`, `65536 + s`, `_pluck_with`", []),
    ("`crates/NAME/no-such/*.edit`", ["crates/NAME/no-such/*.edit"]),
    ("`_no_such_end`", ["_no_such_end"]),
    ("[here](README.md) and [there](docs/no-such.md#a)", ["link to docs/no-such.md#a"]),
    ("```\n`no_such_function`\n```\n", []),
)


def faults():
    for what, text, wanted in LINES:
        found = [number for number, _ in check_lines.faults_of(text)]
        if found != wanted:
            yield f"lines, {what}: {found}, not {wanted}"
    for text, wanted in NAMES:
        found = [name for _, name in check_names.faults_of(text, "page.md")]
        if found != wanted:
            yield f"names, {text!r}: {found}, not {wanted}"
    if list(check_names.faults_of("`returns-no-such` `no-such-law`", "docs/EDITS.md")) != [(1, "no-such-law")]:
        yield "names, the page of edits: goals of the prover's alone are not looked for"
    if list(check_names.faults_of("`returns-no-such`", "page.md")) != [(1, "returns-no-such")]:
        yield "names, another page: its goals are looked for"
    if list(check_names.faults_of("`no_such_function` [x](no-such.md)", "docs/landings/x.md")) != [(1, "link to no-such.md")]:
        yield "names, a landing's note: its links alone are looked at"
    if "README.md" not in all_pages() or "docs/STATEMENT.md" not in all_pages() or not (ROOT / "README.md").is_file():
        yield "not all pages are found"


def main():
    parser_of(__doc__).parse_args()
    wrong = list(faults())
    print(*wrong or [f"{len(LINES) + len(NAMES)} pages: what is wrong in them is found, and nothing else"], sep="\n")
    return 1 if wrong else 0


if __name__ == "__main__":
    sys.exit(main())
