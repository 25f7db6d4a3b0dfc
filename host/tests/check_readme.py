"""Whether the pages' program in C prints what they say, their table of loudness is what the example prints, and their table of stacks has
the header's numbers.

    python3 check_readme.py INCLUDE_FOLDER LIBRARY.a LOUDNESS_PROGRAM PAGE.md ..

Each of these stands once in the pages, behind its marker.
"""

import re
import subprocess
import sys
import tempfile
import pathlib

sys.path.append(str(pathlib.Path(__file__).resolve().parent.parent / "reference"))

from arguments import file, folder, parser_of, program

PROGRAM = "<!-- host/test compiles and runs this program -->"
PRINTED = "<!-- what it prints -->"
TABLE = "<!-- host/examples/loudness.c prints this table -->"
STACKS = "<!-- the numbers are those of the header, and host/test measures them -->"


class Wrong(Exception):
    """What cannot be compiled, run or found."""


def after(text, marker):
    """The lines between a marker and the first empty line after its text, without a fence."""
    if text.count(marker) != 1:
        raise Wrong(f"not once in the pages: {marker}")
    rest = text.split(marker, 1)[1].lstrip("\n")
    fenced = re.match(r"```\w*\n(.*?)^```$", rest, re.S | re.M)
    return fenced[1] if fenced else rest.split("\n\n", 1)[0] + "\n"


def run(*command):
    said = subprocess.run(command, capture_output=True, text=True)
    if said.returncode:
        raise Wrong(f"{' '.join(map(str, command))}: status {said.returncode}\n{said.stdout}{said.stderr}")
    return said.stdout


def printed_by(source_text, include, library):
    with tempfile.TemporaryDirectory() as place:
        source, binary = pathlib.Path(place, "first.c"), pathlib.Path(place, "first")
        source.write_text(source_text, encoding="utf-8")
        run("gcc", "-std=c99", "-Wall", "-Wextra", "-Wpedantic", "-Werror", f"-I{include}", source, library, "-o", binary)
        return run(binary)


def stacks_of(text):
    """{macro: bytes} of #define lines, or of a table's rows."""
    return {name: int(number) for name, number in re.findall(r"(BUVCSOLTA_STACK_\w+)`?[ |]+(\d+)", text)}


def faults(text, include, library, loudness):
    for what, said, wanted in (("the program", printed_by(after(text, PROGRAM), include, library), after(text, PRINTED)),
                               ("the table of loudness", run(loudness), after(text, TABLE))):
        if said != wanted:
            yield f"{what} prints\n{said}and the page has\n{wanted}"
    header = stacks_of((include / "buvcsolta.h").read_text(encoding="utf-8"))
    if not header or stacks_of(after(text, STACKS)) != header:
        yield f"the table of stacks does not have the header's numbers, {header}"


def main():
    parser = parser_of(__doc__)
    parser.add_argument("include", metavar="INCLUDE_FOLDER", type=folder)
    parser.add_argument("library", metavar="LIBRARY.a", type=file)
    parser.add_argument("loudness", metavar="LOUDNESS_PROGRAM", type=program)
    parser.add_argument("pages", metavar="PAGE.md", nargs="+", type=file)
    options = parser.parse_args()
    text = "\n".join(page.read_text(encoding="utf-8") for page in options.pages)
    try:
        wrong = list(faults(text, options.include, options.library, options.loudness))
    except Wrong as fault:
        wrong = [str(fault)]
    print(*wrong or ["the pages' program and tables are what is printed"], sep="\n")
    return 1 if wrong else 0


if __name__ == "__main__":
    sys.exit(main())
