"""Whether docs/LAYOUT.md has every crate, and every file of specs/ is to be believed by its table, has examples, or says in its first
line that it is vocabulary.

    python3 check_layout.py
"""

import re
import sys

from pages import ROOT

sys.path.append(str(ROOT / "host" / "reference"))

from arguments import parser_of


def crates(text):
    """The crates that crates.txt lists."""
    return [line.partition(":")[0].split()[0] for line in text.splitlines() if ":" in line and not line.startswith("#")]


def believed(page):
    """{crate: names of files, or None for all} of the rows [crate/specs](..): `Name`, `Name`."""
    found = {}
    for crate, names in re.findall(r"\[(\w+)/specs\]\([^)]*\)((?:[:,] `\w+`)*)", page):
        files = re.findall(r"`(\w+)`", names)
        found[crate] = None if not files or found.get(crate, ()) is None else {*found.get(crate, ()), *files}
    return found


def faults(page, list_of_crates, specs):
    """specs: {(crate, name of the file): its first line}."""
    for crate in list_of_crates:
        if f"`crates/{crate}`" not in page:
            yield f"not in the page: crates/{crate}"
    named = believed(page)
    for (crate, name), first in specs.items():
        files = named.get(crate, ())
        if name == "Lib" or name.endswith("Examples") or files is None or name in files or "Vocabulary" in first:
            continue
        yield f"crates/{crate}/specs/{name}.antt: not to be believed by the page, and its first line does not say that it is vocabulary"
    for crate, files in named.items():
        for name in files or ():
            if (crate, name) not in specs:
                yield f"to be believed, and not there: crates/{crate}/specs/{name}.antt"


def main():
    parser_of(__doc__).parse_args()
    page = (ROOT / "docs" / "LAYOUT.md").read_text(encoding="utf-8")
    files = sorted(ROOT.glob("crates/*/specs/*.antt"))
    specs = {(path.parts[-3], path.stem): path.read_text(encoding="utf-8").partition("\n")[0] for path in files}
    wrong = list(faults(page, crates((ROOT / "crates.txt").read_text(encoding="utf-8")), specs))
    print(*wrong or [f"docs/LAYOUT.md has every crate, and {len(specs)} files of specs/ are what it says"], sep="\n")
    return 1 if wrong else 0


if __name__ == "__main__":
    sys.exit(main())
