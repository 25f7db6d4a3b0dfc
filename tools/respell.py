#!/usr/bin/env python3
"""Respells this repository's own names, once, after the kit's port.py: definitions, record fields and constructors in snake case; lemmas in
snake case, with a dash where it joins two names.

usage: tools/respell.py [FOLDER]     FOLDER holds crates/ (the repository's top by default); prints names that fall together

Names are those declared in specs/ and in the lemma files of proofs/. They are respelled as whole words in .antt files, in the ghost text of
.rt files and in the texts of must-fail/*.edit. Functions of src/, strings and comments' prose keep their spelling.
"""
import collections
import glob
import os
import re
import sys

WORD = r"[^\s(){}\[\]:;.,@\"`«»]+"
# Words of the library that lemmas are named after, beside the repository's own definitions.
LIBRARY = set("add mul sub neg length take append map zero suc pos cond replicate tabulate nat_abs not xor".split())


def snake(name):
    """Types and facts, which begin with a capital, keep their spelling."""
    if name[:1].isupper():
        return name
    name = re.sub(r"([a-z0-9])([A-Z])", lambda m: m[1] + "_" + m[2].lower(), name)
    return name


def declared(top):
    """Name -> set of kinds (def, field, lemma) of what specs/ and the lemma files of proofs/ declare."""
    kinds = collections.defaultdict(set)
    paths = glob.glob(f"{top}/crates/*/specs/**/*.antt", recursive=True) + glob.glob(f"{top}/crates/*/proofs/**/*.antt", recursive=True)
    for path in sorted(paths):
        if path.endswith(("/Proof.antt", "/Invariants.antt", "/Answers.antt")):
            continue
        inside = None
        for line in open(path, encoding="utf-8"):
            m = re.match(rf"^(\s*)(?:abbrev |unfoldable |pub )*(record|data|module|ruleset) ({WORD})?", line)
            if m:
                inside = m[2] if not m[1] else inside
                if m[2] in ("record", "data", "ruleset") and m[3]:
                    kinds[m[3]].add("type" if m[2] != "ruleset" else "lemma")
                continue
            m = re.match(rf"^(\s*)((?:abbrev |unfoldable |pub )*)({WORD}) :(?:\s|$)", line)
            if not m or line.lstrip().startswith("--") or m[3] in ("use", "unfolding"):
                continue
            if not m[1]:
                inside = None
            if m[1] and inside == "record":
                kinds[m[3]].add("field")
            elif inside == "data" or "/specs/" in path or "abbrev" in m[2] or "unfoldable" in m[2]:
                kinds[m[3]].add("def")
            else:
                kinds[m[3]].add("lemma")
    return kinds


def mapping(top):
    kinds = declared(top)
    known = set(LIBRARY)
    for name, k in kinds.items():
        if "def" in k and "-" not in name:
            known.add(snake(name))
    new = {}
    for name, k in kinds.items():
        if "type" in k:
            continue
        parts = [snake(p) for p in name.split("-")] if name.strip("-") == name else [name]
        out = parts[0]
        for part in parts[1:]:
            operators = not re.search(r"[A-Za-z]", part) or not re.search(r"[A-Za-z]", out)
            joins = k == {"lemma"} and ((out.split("-")[-1] in known and part in known) or (operators and not part.isdigit() and not re.match(r"[a-z]", part)))
            out += ("-" if joins else "_") + part
        if out != name:
            new[name] = out
    # Names of the library that the same files take.
    if "of-fields" in new:
        new["of-fields"] = "of_fields_lem"
    new.pop("not-true", None)
    # A lemma that would have a definition's name gets _lem.
    definitions = {new.get(n, n) for n, k in kinds.items() if "def" in k}
    for name, k in kinds.items():
        if k == {"lemma"} and new.get(name, name) in definitions:
            new[name] = new.get(name, name) + "_lem"
            print(f"a definition's name: {name} -> {new[name]}")
    olds = collections.defaultdict(set)
    for name in kinds:
        olds[new.get(name, name)].add(name)
    for n, o in olds.items():
        if len(o) > 1:
            print(f"falls together: {sorted((x, sorted(kinds[x])) for x in o)} -> {n}")
    return new


def main():
    top = sys.argv[1] if len(sys.argv) > 1 else os.path.join(os.path.dirname(os.path.abspath(__file__)), "..")
    new = mapping(top)
    token = re.compile(rf"{WORD}")

    def word(m):
        return new.get(m[0], m[0])

    def ghost(text):
        return token.sub(word, text)

    def source(text):
        """Only clauses, ghost items and attributes of a source file."""
        out = []
        for line in text.splitlines(keepends=True):
            code, slash, comment = line.partition("//")
            # functions of src/ keep their names
            code = token.sub(lambda m: m[0] if re.fullmatch(r"[a-z_][a-z0-9_]*", m[0]) else word(m), code)
            out.append(code + slash + ghost_in_ticks(comment))
        return "".join(out)

    def ghost_in_ticks(comment):
        # port.py reads a product m·B in a comment as a path
        comment = re.sub(r"\btypeof\.(\w+)\.(\w)", r"\1·\2", comment)
        comment = re.sub(r"\b([DK])-as-G\b", r"\1·G", comment)
        return re.sub(r"`[^`]*`", lambda m: ghost(m[0]), comment)

    def antt(text):
        out = []
        for line in text.splitlines(keepends=True):
            if line.lstrip().startswith("--"):
                out.append(ghost_in_ticks(line))
            else:
                code, dashes, comment = line.partition(" -- ")
                out.append(ghost(code) + dashes + ghost_in_ticks(comment))
        return "".join(out)

    for pattern, turn in (("crates/*/specs/**/*.antt", antt), ("crates/*/proofs/**/*.antt", antt), ("crates/*/src/**/*.rt", source)):
        for path in glob.glob(f"{top}/{pattern}", recursive=True):
            before = open(path, encoding="utf-8").read()
            words = collections.defaultdict(set)
            for w in token.findall(before):
                words[new.get(w, w)].add(w)
            for n, olds in words.items():
                if len(olds) > 1:
                    print(f"in one file: {os.path.relpath(path, top)}: {sorted(olds)} -> {n}")
            after = turn(before)
            if after != before:
                open(path, "w", encoding="utf-8").write(after)
    for a in sorted(new):
        print(f"name {a} {new[a]}", file=sys.stderr)


if __name__ == "__main__":
    main()
