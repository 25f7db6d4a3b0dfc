"""The pages in Markdown, and what of them is prose, code and links."""

import pathlib
import re

ROOT = pathlib.Path(__file__).resolve().parent.parent.parent
SPAN = re.compile(r"(`+)(.+?)(?<!`)\1(?!`)")


def all_pages():
    """Every page of the repository, by its path from the root."""
    found = [ROOT / "README.md", *ROOT.glob("docs/**/*.md"), *ROOT.glob("host/**/*.md")]
    return sorted(path.relative_to(ROOT).as_posix() for path in found)


def chosen(names):
    """The pages named; without a name all."""
    return names or all_pages()


def outside_code(text):
    """(number from 1, line) of each line; None in the place of a line of a code block, fenced or indented, and of a comment."""
    is_fenced, is_indented, before = False, False, ""
    for number, line in enumerate(text.splitlines(), 1):
        fence = re.match(r" *```", line)
        # an indented block follows an empty line, outside of lists
        is_indented = bool(re.match(r" {4}\S", line)) and (is_indented or not before.strip())
        is_shown = not (is_fenced or fence or is_indented or line.startswith("<!--"))
        is_fenced ^= bool(fence)
        yield number, line if is_shown else None
        before = line


def code_spans(line):
    """The texts between backticks."""
    return [found[2].strip() for found in SPAN.finditer(line)]


def without_code(line, placeholder="C"):
    """The line with each code span a run of placeholders as long as it."""
    return SPAN.sub(lambda found: placeholder * len(found[0]), line)


def link_targets(line):
    return re.findall(r"\]\(([^)\s]+)\)", without_code(line))
