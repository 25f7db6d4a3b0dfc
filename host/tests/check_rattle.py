"""Whether the pages' snippets in Rattle are proved over the engine: each becomes a module of one crate, beside this repository's crates.
That a wrong snippet is refused is tried too.

    python3 check_rattle.py PAGE.md ..

A snippet is the fenced block behind its marker. The crate stands in target/host/snippets, a folder with copies of the crates that it uses
and of what their checks kept, so that `rt check` proves nothing else where the engine is proved.
"""

import re
import shutil
import subprocess
import sys

from pages import ROOT

sys.path.append(str(ROOT / "host" / "reference"))

from arguments import file, parser_of
from copies import copy_crates

MARKER = "<!-- host/test proves this snippet -->\n"
CRATE = "snippets"
USES = "types sheet engine"
# In the first snippet: text, and text in its place by which a call has an argument too few.
WRONG = (", Some(hit))", ")")


def snippets_in(text):
    return re.findall(re.escape(MARKER) + r"```rust\n(.*?)^```$", text, re.S | re.M)


def checked(place, snippets):
    """Whether they are proved, and what was said."""
    crate = place / "crates" / CRATE
    shutil.rmtree(crate, ignore_errors=True)
    source = crate / "src"
    source.mkdir(parents=True)
    (source / "lib.rt").write_text("#![tactic(auto)]\n\n" + "".join(f"mod snippet_{number};\n" for number, _ in enumerate(snippets)))
    for number, text in enumerate(snippets):
        (source / f"snippet_{number}.rt").write_text(text)
    said = subprocess.run(["rt", "check"], cwd=crate, capture_output=True, text=True)
    return said.returncode == 0, said.stdout + said.stderr


def faults(place, snippets):
    """What is wrong: snippets that are not proved, and a wrong one that is."""
    copy_crates(ROOT, place, USES.split(), f"{CRATE}: {USES}\n")
    is_proved, said = checked(place, snippets)
    if not is_proved:
        return said.splitlines()[-20:]
    is_proved, said = checked(place, [snippets[0].replace(*WRONG)])
    return ["a wrong snippet is proved"] if is_proved else []


def main():
    parser = parser_of(__doc__)
    parser.add_argument("pages", metavar="PAGE.md", nargs="+", type=file)
    pages = parser.parse_args().pages
    if not shutil.which("rt"):
        parser.error("rt is missing: the Rattle toolchain proves the snippets")
    found = [snippets_in(page.read_text(encoding="utf-8")) for page in pages]
    snippets = [snippet for one in found for snippet in one]
    if not all(found) or snippets[0].count(WRONG[0]) != 1:
        print("a page without a snippet, or the first one has not once", repr(WRONG[0]))
        return 1
    place = ROOT / "target" / "host" / CRATE
    shutil.rmtree(place, ignore_errors=True)
    try:
        wrong = faults(place, snippets)
    finally:
        shutil.rmtree(place, ignore_errors=True)
    print(*wrong or [f"{len(snippets)} snippets in Rattle are proved, and a wrong one is refused"], sep="\n")
    return 1 if wrong else 0


if __name__ == "__main__":
    sys.exit(main())
