"""Copies of crates beside the repository, for scripts that prove something over them: sources, and what earlier checks kept."""

import os
import shutil


def listed(root):
    """{crate: the crates and libraries that it uses} of crates.txt, in its order."""
    found = {}
    for line in (root / "crates.txt").read_text(encoding="utf-8").splitlines():
        head, colon, uses = line.partition(":")
        if colon and not line.startswith("#"):
            found[head.split()[0]] = uses.split()
    return found


def with_those_below(root, names):
    """The crates of these names, and all of the repository that they stand on."""
    crates = listed(root)
    wanted, left = set(), list(names)
    while left:
        name = left.pop()
        if name in crates and name not in wanted:
            wanted.add(name)
            left += crates[name]
    return [name for name in crates if name in wanted]


def linked_or_copied(old, new):
    """What a check proved is replaced and not changed, so a link does where one can be made; all else is copied."""
    if old.endswith(".oantt"):
        try:
            return os.link(old, new)
        except OSError:
            pass
    return shutil.copy2(old, new)


def copy_crates(root, place, names, lines=""):
    """Makes place/crates of the crates of these names and those below them, and place/crates.txt, with further lines at its end."""
    chosen = with_those_below(root, names)
    for name in chosen:
        shutil.copytree(root / "crates" / name, place / "crates" / name, symlinks=True, copy_function=linked_or_copied)
    kept = [line for line in (root / "crates.txt").read_text(encoding="utf-8").splitlines()
            if line.partition(":")[0].split()[:1] in [[name] for name in chosen]]
    (place / "crates.txt").write_text("\n".join(kept) + "\n" + lines, encoding="utf-8")
