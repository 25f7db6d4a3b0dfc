#!/usr/bin/env python3
"""Brings must-fail/*.edit and true-variants/*.edit over from an older commit's spelling to today's: the same wrong change of the same place.

usage: tools/respell_edits.py COMMIT [NAME..]         writes the edits of all crates, or those named; lists what is left to do by hand
       tools/respell_edits.py check COMMIT [NAME..]   writes nothing: each edit applies, and its change is COMMIT's change, token by token

A text's words go by a map that is read off the files themselves: the file that the edit changes, as COMMIT has it, set beside today's, token
by token; where that tells nothing, by what most files of the repository say. Projections are tight (`x .f` is `x.f`), operators in imports
are `◌+◌`. Where the respelled old text does not stand once in today's file, the edit is left as it is and listed.
"""
import collections
import difflib
import glob
import os
import re
import subprocess
import sys

TOP = os.path.join(os.path.dirname(os.path.abspath(__file__)), "..")
TOKEN = re.compile(r"[^\s(){}\[\]:;.,@\"`«»]+|[(){}\[\]:;.,@\"`«»]")
# What the library calls otherwise, by its full path.
PATHS = {
    "Prim.Native.Nat._-_": "Rattle.std.specs.Prelude.◌-◌",
    "lib.Signed.ltZ": "Rattle.std.specs.Int.Signed.lt_z",
    "lib.Signed.shrZ": "Rattle.std.specs.Int.Signed.shr_z",
    "lib.Signed.quotZ": "Rattle.std.specs.Int.Signed.quot_z",
    "lib.IntN.pos": "Rattle.std.specs.Prelude.pos",
}
# The one import that takes the names of every older import of the library.
PRELUDE = "use Rattle.std.specs.Prelude.{"
# By hand: where a text is laid out otherwise, or a word is of another name. Edit -> pairs (file, old, new).
BY_HAND = {
    "crates/pluck/must-fail/point_after_the_run_put.edit": [
        ("src/shape.rt", "let inside = d < shape.run.to", "let inside = d <= shape.run.to"),
    ],
    "crates/pluck/true-variants/point_after_the_run_put.edit": [
        ("src/shape.rt", "let inside = d < shape.run.to - shape.centre;", "let inside = shape.run.to - shape.centre > d;"),
    ],
    "crates/ring_decimals/must-fail/empty_field_as_0.edit": [
        ("src/lib.rt", "let empty = digits.len() == 0;", "let empty = digits.len() < 0;"),
    ],
    "crates/steps/must-fail/beyond_let_pass.edit": [
        ("src/points.rt", "let beyond = !is_below_limit(plan, n);", "let beyond = is_below_limit(plan, n);"),
    ],
    "crates/block/must-fail/all_refused.edit": [
        ("src/lib.rt", "use types::{BlockAnswer, Hit, Instrument};", "use types::{BlockAnswer, Hit, Instrument, Refusal};"),
        ("src/lib.rt", "let refusal = told.refusal;", "let refusal = Refusal::WrongLength;"),
    ],
    "crates/ring_line/must-fail/two_spaces_as_one.edit": [
        ("specs/Requests.antt", PRELUDE + "Bool,", PRELUDE + "◌∷◌, Bool,"),
        ("specs/Requests.antt", PRELUDE + "◌∷◌,", PRELUDE + "ltb, ◌∷◌,"),
        ("specs/Requests.antt", "fields line = split_on space line",
         "fields line = mathlib.Core.List.foldr (λ f fs. cond (ltb 0 (length f)) (f ∷ fs) fs) [] (split_on space line)"),
    ],
}


def git_show(commit, path):
    return subprocess.run(["git", "-C", TOP, "show", f"{commit}:{path}"], capture_output=True, check=True).stdout.decode()


def today(path):
    with open(os.path.join(TOP, path), encoding="utf-8") as f:
        return f.read()


def tokens(text):
    return TOKEN.findall(text)


def pairs_of(a, b):
    """Words of a that stand for words of b: replaced one for one between equal neighbours."""
    found = collections.defaultdict(collections.Counter)
    for x, y in zip_lines(a, b):
        s, t = plain(x), plain(y)
        if len(s) == len(t):
            for v, w in zip(s, t):
                if re.search(r"\w", v) and re.search(r"\w", w):
                    found[v][w] += 1
    return found


def plain(line):
    """Tokens without brackets and dots, which a projection gains or loses."""
    return [t for t in tokens(line) if t not in "()."]


def zip_lines(a, b):
    xs, ys = a.splitlines(), b.splitlines()
    rough = [re.sub(r"[\W_]", "", x).lower() for x in xs], [re.sub(r"[\W_]", "", y).lower() for y in ys]
    for op, i, j, k, l in difflib.SequenceMatcher(None, *rough, autojunk=False).get_opcodes():
        if op == "equal" or (op == "replace" and j - i == l - k):
            yield from zip(xs[i:j], ys[k:l])


def best(found):
    return {v: c.most_common(1)[0][0] for v, c in found.items()}


def tight(text):
    """`(x .f .g)` and `x .f` as `x.f.g` and `x.f`."""
    text = re.sub(r"(?<=[\w'′)]) \.(?=[a-z])", ".", text)
    while True:
        less = re.sub(r"(?<![\w])\(([\w'′]+(?:\.[\w'′]+)+)\)", r"\1", text)
        if less == text:
            return text
        text = less


def respelled(text, words, ghost):
    for path, name in PATHS.items():
        text = re.sub(re.escape(path) + r"(?![\w'-])", name, text)
    text = re.sub(r"Rattle·\w+·specs\.specs\.(\w+)\.", r"Rattle.scheme.specs.\1.", text) if ghost else text
    out = TOKEN.sub(lambda m: words.get(m[0], m[0]), text)
    return tight(out) if ghost else out


def imported(old, new, text):
    """An import with names more: the import of the library takes them, where today's file has not got them."""
    more = [t for t in tokens(new) if t not in tokens(old) and t != ","]
    more = [re.sub(r"(?<!\w)_|_(?!\w)", "◌", t) for t in more]
    has = re.findall(r"[^\s,{}]+", next(x for x in text.splitlines() if x.startswith(PRELUDE))[len(PRELUDE):])
    return f"{PRELUDE}{has[0]},", PRELUDE + "".join(t + ", " for t in more if t not in has) + has[0] + ","


def read(text):
    """[(file, old, new)]"""
    out, file, old = [], None, None
    for line in text.splitlines():
        if line.startswith("file: "):
            file = line[6:].strip()
        elif line.startswith("old: "):
            old = line[5:]
        elif line.startswith("new: "):
            out.append((file, old, line[5:]))
        elif line.startswith("new:"):
            out.append((file, old, ""))
    return out


def changes(before, after, words):
    """What becomes what, token by token, without brackets and dots: [(tokens gone, tokens come, the token before, the token after)]."""
    a = [words.get(t, t) for t in plain(joined(before))]
    b = [words.get(t, t) for t in plain(joined(after))]
    out = []
    for op, i, j, k, l in difflib.SequenceMatcher(None, a, b, autojunk=False).get_opcodes():
        if op != "equal":
            out.append((a[i:j], b[k:l], a[i - 1:i], a[j:j + 1]))
    return out


def joined(text):
    """Without the paths that both spellings write out."""
    for path, name in PATHS.items():
        text = re.sub(re.escape(path) + r"(?![\w'-])", name, text)
    return text


def compare(e, was, now, whole, local, commit):
    """Whether today's edit makes of today's files what COMMIT's made of COMMIT's; what differs is printed."""
    crate = "/".join(e.split("/")[:2])
    ends = []
    for pairs, text_of in ((was, lambda p: git_show(commit, p)), (now, today)):
        made, begun = {}, {}
        for file, old, new in pairs:
            p = f"{crate}/{file}"
            text = made[p] if p in made else begun.setdefault(p, text_of(p))
            if text.count(old) != 1:
                print(f"{e}: {text.count(old)} times: {old}")
                return False
            made[p] = text.replace(old, new)
            if text == made[p] or new.count("\n"):
                print(f"{e}: changes nothing: {old}")
        ends.append((begun, made))
    if list(ends[0][0]) != list(ends[1][0]):
        print(f"{e}: other files: {list(ends[0][0])}, {list(ends[1][0])}")
        return False
    good = True
    for p in ends[0][0]:
        words = dict(whole)
        words.update(best(local.get(p, {})))
        a = lines_changed(ends[0][0][p], ends[0][1][p], words)
        b = lines_changed(ends[1][0][p], ends[1][1][p], {})
        if a != b:
            good = False
            print(f"{e}: {p}\n    was {a}\n    now {b}")
    return good


def lines_changed(before, after, words):
    out = []
    for x, y in zip(before.splitlines(), after.splitlines()):
        if x != y:
            out += [(" ".join(g), " ".join(c), " ".join(l), " ".join(r)) for g, c, l, r in changes(x, y, words)]
    return out


def main():
    args = sys.argv[1:]
    check = args[:1] == ["check"]
    args = args[check:]
    commit, names = args[0], args[1:]
    paths = subprocess.run(["git", "-C", TOP, "ls-tree", "-r", "--name-only", commit], capture_output=True, check=True).stdout.decode().split("\n")
    edits = [p for p in paths if re.match(r"crates/[^/]+/(?:must-fail|true-variants)/.*\.edit$", p) and (not names or p.split("/")[1] in names)]
    whole = collections.defaultdict(collections.Counter)
    local = {}
    sources = [p for p in paths if re.match(r"crates/[^/]+/(specs|src)/", p) and p.endswith((".antt", ".rt"))]
    for p in sources:
        if os.path.exists(os.path.join(TOP, p)):
            found = pairs_of(git_show(commit, p), today(p))
            local[p] = found
            for v, c in found.items():
                whole[v].update(c)
    whole = best(whole)
    left = 0
    for e in edits:
        crate = "/".join(e.split("/")[:2])
        was = read(git_show(commit, e))
        if check:
            left += not compare(e, was, read(today(e)), whole, local, commit)
            continue
        lines, bad, made = [], [], {}
        said = None
        for k, (file, old, new) in enumerate(was):
            p = f"{crate}/{file}"
            words = dict(whole)
            words.update(best(local.get(p, {})))
            ghost = file.endswith(".antt")
            text = made.get(p) or today(p)
            o, n = respelled(old, words, ghost), respelled(new, words, ghost)
            if ghost and old.startswith("use "):
                o, n = imported(old, new, text)
            if e in BY_HAND:
                file, o, n = BY_HAND[e][k]
            count = text.count(o)
            if count != 1 or o == n:
                bad.append(f"{count} times: {o!r}   (was {old!r} -> {new!r}, new {n!r})")
            made[p] = text.replace(o, n)
            if file != said or git_show(commit, e).count("file: ") == len(was):
                lines.append(f"file: {file}")
                said = file
            lines += [f"old: {o}", f"new: {n}"]
        if bad:
            left += 1
            print(e)
            for b in bad:
                print("    " + b)
        else:
            with open(os.path.join(TOP, e), "w", encoding="utf-8") as f:
                f.write("\n".join(lines) + "\n")
    print(f"{len(edits)} edits, {left} left")


if __name__ == "__main__":
    main()
