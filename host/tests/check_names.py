"""Whether the names and paths that the pages mention in `code` exist, and the targets of their links.

    python3 check_names.py [PAGE.md ..]     without a page all

A span of code with a slash, or that ends as a file does, is a path: from the root, the page's folder, crates/, a crate, or a folder of
host/. NAME, LABEL, FILE and * stand for any name, and .antt, .rt, .edit and .md may be left out. What is built is not looked for: target/,
out/, .so, .a and .wav files.
Of every other span each word of three letters or more must stand in some file of crates/ or host/, comments left out, or be the name of a
file, folder or edit there; parts joined by :: or . are looked up one by one, and a word that begins by _ is the end of a name.
A landing's note names what it took away, and the page of the port what had another spelling: of these only the links are looked at. The
page of edits has names of the prover's goals.
"""

import functools
import glob
import re
import sys

from pages import ROOT, chosen, code_spans, link_targets, outside_code

sys.path.append(str(ROOT / "host" / "reference"))

from arguments import file, parser_of

# What is no name of this repository, and why it may stand there all the same.
EXCEPTIONS = {
    "Name": "stands for the name of a proposition", "antt": "the prover",
    "rt": "the toolchain",
    "gcc": "a compiler", "clang": "a compiler", "g++": "a compiler",
    "valgrind": "a program", "callgrind": "a tool of valgrind", "sox": "a program", "python3": "a program", "echo": "a program",
    "memmove": "a function of the C library",
    "ensures": "a word of Rattle", "requires": "a word of Rattle",
    "tidy": "a command of the toolchain", "staticlib": "a word of crates.txt",
}
FILE = re.compile(r"\.(antt|rt|py|c|h|md|txt|edit|sh)$")
BUILT = re.compile(r"^target/|(^|/)out/|\.(so|a|wav)(\.\d+)?$")
# Goals have names of the prover's, which stand in no file where it finds the proof itself; docs/EDITS.md has them from its log.
GOAL = re.compile(r"(returns|loop|(offset_|slice_)?bounds)(-\w+)+")
GOALS_OF = "docs/EDITS.md"
PORT = "docs/PORT.md"
DESIGN = "docs/DESIGN-PASS.md"
WORD = re.compile(r"[A-Za-z_0-9][\w'′-]*")
COMMENT = {".rt": r"//.*", ".antt": r"(?:^|(?<=\s))--(?=\s|$).*"}
TEXTS = (".rt", ".antt", ".edit", ".py", ".c", ".h", ".sh", "")
PLACES = ("", "crates/", "crates/*/", "crates/*/specs/", "crates/*/proofs/", "crates/*/src/", "crates/*/must-fail/", "host/", "host/*/",
          "docs/", "docs/landings/")
ENDINGS = ("", ".antt", ".rt", ".edit", ".md")


@functools.cache
def words():
    """Every word of the sources, comments of Rattle and its logic left out, and every name of a file, folder and edit."""
    found = set()
    for path in [ROOT / "crates.txt", *ROOT.glob("crates/**/*"), *ROOT.glob("host/**/*")]:
        # a crate's out/ is built, and the test of this check has names that do not exist
        if "out" in path.relative_to(ROOT).parts:
            continue
        found.update((path.name, path.stem))
        if path.is_file() and path.suffix in TEXTS and "data" not in path.parts and path.name != "test_pages.py":
            text = re.sub(COMMENT.get(path.suffix, r"$^"), "", path.read_text(encoding="utf-8", errors="replace"), flags=re.M)
            found.update(WORD.findall(text))
    return found


@functools.cache
def is_path(text, folder):
    """Whether a file or folder is there; NAME, LABEL and FILE are any name."""
    pattern = re.sub(r"\b(NAME|LABEL|FILE)\b", "*", text.rstrip("/"))
    return any(glob.glob(str(ROOT / (place + pattern + ending)))
               for place in (*PLACES, folder + "/") for ending in ENDINGS)


def is_word(word):
    if word in EXCEPTIONS or len(re.sub(r"[\d_'′-]", "", word)) < 3:
        return True
    if word.startswith("_"):
        return any(name.endswith(word) for name in words())
    return word in words()


def missing_in(span, folder):
    """The paths and words of a span of code that do not exist."""
    for piece in span.split():
        text = piece.strip("(){}[],;:\"'=&…")
        if BUILT.search(text) or text.startswith(("/", "-", "$", "<")) or "|" in text:
            continue
        is_like_path = "/" in text and not re.search(r"[∧∨+=(]|^\W+$|^\d+/\d+$", text)
        if is_like_path or (FILE.search(text) and not text.startswith(".")):
            if not is_path(text, folder):
                yield text
            continue
        for part in re.split(r"::|\.", piece):
            yield from (word for word in WORD.findall(part) if not is_word(word) and not is_word(word.strip("-'")))


def faults_of(text, page):
    """(number, what does not exist) of each line of a page."""
    folder = page.rpartition("/")[0]
    is_note = folder == "docs/landings" or page in (PORT, DESIGN)
    for number, line in outside_code(text):
        if line is None:
            continue
        for target in link_targets(line):
            path = target.partition("#")[0]
            if not re.match(r"https?:", target) and path and not (ROOT / folder / path).exists():
                yield number, f"link to {target}"
        for span in () if is_note else code_spans(line):
            if page != GOALS_OF or not GOAL.fullmatch(span):
                yield from ((number, name) for name in missing_in(span, folder))


def main():
    parser = parser_of(__doc__)
    parser.add_argument("pages", metavar="PAGE.md", nargs="*", type=file)
    options = parser.parse_args()
    pages = [str(page) for page in chosen(options.pages)]
    wrong = [f"{page}:{number}: does not exist: {what}"
             for page in pages for number, what in faults_of((ROOT / page).read_text(encoding="utf-8"), page)]
    print(*wrong or [f"the names, paths and links of {len(pages)} pages exist"], sep="\n")
    return 1 if wrong else 0


if __name__ == "__main__":
    sys.exit(main())
