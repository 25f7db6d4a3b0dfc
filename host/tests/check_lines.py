"""Whether the pages in Markdown are easy to compare line by line: a line of prose has at most 120 characters, or is one sentence.

    python3 check_lines.py [PAGE.md ..]     without a page all

Prose is what is no table, heading, comment or code block. The target of a link does not count, nor does a line that is one span of code or
one link. A longer line must begin and end with its sentence: it stands first in its paragraph or list item, or after a line that ends a
sentence or does not count; it ends by . ! ? : or ; or its paragraph ends there; and no other sentence begins in it. A bold title before the
sentence and a mark **[..]** after it belong to it.
"""

import re
import sys

from pages import ROOT, chosen, outside_code, without_code

sys.path.append(str(ROOT / "host" / "reference"))

from arguments import file, parser_of

MOST = 120
ITEM = r"^ *(?:[-*+]|\d+\.) +|^> +"
CLOSING = r"[)*_\"”'\]]*"
ENDS = re.compile(rf"[.!?:;]{CLOSING}$")
ANOTHER = re.compile(rf"(?<![.])[.!?]{CLOSING}\s+[*_(\[\"“]*(?:\d|[^\W\d_a-zß-öø-ÿ])")
NO_PROSE = ("|", "#")


def plain(line):
    """The line without its list mark, bold title, marks **[..]** and link targets; code is capitals."""
    text = without_code(line.rstrip())
    text = re.sub(ITEM, "", text).strip()
    text = re.sub(r"^\*\*[^*]+\*\*", "", text)
    text = re.sub(r"\s*\*\*\[[^\]]*\]\*\*", "", text)
    return re.sub(r"\]\([^)\s]+\)", "]", text).strip()


def is_one_piece(line):
    """One span of code or one link, with its list mark and a stop."""
    text = re.sub(ITEM, "", line).strip()
    return bool(re.fullmatch(r"`[^`]+`[.,:;]?|\[[^\]]*\]\([^)\s]+\)[.,:;]?", text))


def shown_length(line):
    return len(re.sub(r"\]\([^)\s]+\)", "]", line.rstrip()))


def is_prose(line):
    return line is not None and bool(line.strip()) and not line.lstrip().startswith(NO_PROSE)


def faults_of(text):
    """(number, what is wrong) of each line."""
    lines = [(0, None), *outside_code(text), (0, None)]
    for (_, before), (number, line), (_, after) in zip(lines, lines[1:], lines[2:]):
        if not is_prose(line) or shown_length(line) <= MOST or is_one_piece(line):
            continue
        begins = not is_prose(before) or re.match(ITEM, line) or is_one_piece(before) or ENDS.search(plain(before))
        ends = not is_prose(after) or re.match(ITEM, after) or ENDS.search(plain(line))
        if not begins or not ends:
            yield number, f"{shown_length(line)} characters, and a piece of a sentence"
        elif ANOTHER.search(plain(line)):
            yield number, f"{shown_length(line)} characters, and more than one sentence"


def main():
    parser = parser_of(__doc__)
    parser.add_argument("pages", metavar="PAGE.md", nargs="*", type=file)
    options = parser.parse_args()
    pages = chosen(options.pages)
    wrong = [f"{page}:{number}: {what}" for page in pages for number, what in faults_of((ROOT / page).read_text(encoding="utf-8"))]
    print(*wrong or [f"the lines of {len(pages)} pages are sentences or at most {MOST} characters"], sep="\n")
    return 1 if wrong else 0


if __name__ == "__main__":
    sys.exit(main())
