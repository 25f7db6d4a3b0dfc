"""Whether host/include/buvcsolta.h declares what the library exports: names, arguments and their types, refusal
numbers, kinds, units and ceiling. example.c uses the other constants.

    python3 check_header.py HEADER.h c_api/src/lib.rt c_api_in_place/src/lib.rt types/src/lib.rt LIBRARY.so
"""

import pathlib
import re
import shutil
import subprocess
import sys

sys.path.append(str(pathlib.Path(__file__).resolve().parent.parent / "reference"))

from arguments import file, parser_of

TYPES = {"u64": "uint64_t", "u32": "uint32_t", "i64": "int64_t", "i16": "int16_t", "usize": "size_t", "f64": "double"}


def c_arguments(name, rattle):
    """The C arguments of one Rattle argument: a slice is a pointer and a length."""
    form = re.fullmatch(r"(&mut |&)?(\[)?(\w+)\]?", rattle)
    if not form or form[3] not in TYPES:
        raise SystemExit(f"no C type for {name}: {rattle}")
    if not form[1]:
        return [f"{TYPES[form[3]]} {name}"]
    pointer = f"{'const ' if form[1] == '&' else ''}{TYPES[form[3]]} *{name}"
    return [pointer, f"size_t {name}_length"] if form[2] else [pointer]


def exported(source):
    """{name: prototype} of the extern functions of a Rattle source."""
    found = {}
    for name, arguments, answer in re.findall(r'extern "C" fn (\w+)\((.*?)\) -> (\w+)', source, re.S):
        pairs = [part.strip().split(": ", 1) for part in arguments.split(",") if part.strip()]
        listed = [argument for pair in pairs for argument in c_arguments(*pair)]
        found[name] = f"{TYPES[answer]} {name}({', '.join(listed)})"
    return found


def declared(header):
    """{name: prototype} of the functions that a header declares but does not define."""
    plain = re.sub(r"/\*.*?\*/", " ", header, flags=re.S)
    plain = " ".join(line for line in plain.splitlines() if not line.startswith("#"))
    plain = re.sub(r'^.*?extern "C" \{', "", " ".join(plain.split()))
    return {name: f"{answer.strip()} {name}({arguments})"
            for answer, name, arguments in re.findall(r"([\w ]+?)\b(\w+)\(([^()]*)\);", plain) if "return" not in answer}


def cases(source, name):
    """{case: number} of an enum in Rattle: a number is one more than that before it where none is given."""
    body = re.search(rf"^pub enum {name} \{{(.*?)^\}}", source, re.M | re.S)
    found, number = {}, 0
    for case, given in re.findall(r"(\w+)(?: = (\d+))?,", body[1] if body else ""):
        number = int(given) if given else number
        found[case] = number
        number += 1
    return found


def refusals(source):
    """{enumerator: number} of the enum of refusals in Rattle, and of an outcome that is none."""
    found = {"BUVCSOLTA" + re.sub(r"([A-Z])", r"_\1", name).upper(): number for name, number in cases(source, "Refusal").items()}
    none = re.search(r"Ok\(\(\)\) => (\d+),", source)
    return {"BUVCSOLTA_NOTHING": int(none[1]), **found} if none and found else {}


def kinds(source):
    """{enumerator: number} of the constants of Grid that are a kind's number."""
    grid = re.search(r"^impl Grid \{(.*?)^\}", source, re.M | re.S)
    numbers = cases(source, "Kind")
    pairs = re.findall(r"const (\w+): u64 = Kind::(\w+) as u64;", grid[1] if grid else "")
    return {f"BUVCSOLTA_{name}": numbers.get(case) for name, case in pairs}


def enumerators(header, name):
    body = re.search(rf"enum {name} \{{(.*?)\}};", re.sub(r"/\*.*?\*/", "", header, flags=re.S), re.S)
    return {key: int(value) for key, value in re.findall(r"(\w+) = (\d+)", body[1])} if body else {}


def texts(header):
    """The enumerators that buvcsolta_refusal_text tells in words."""
    return re.findall(r'case (\w+): return "', header)


def constant(header, name):
    """The value of a constant that is whole numbers, *, << and other constants."""
    found = re.search(rf"#define BUVCSOLTA_{name} \((.*)\)", header)
    parts = re.sub(r"INT64_C\((\d+)\)", r"\1", found[1] if found else "0").split()
    value = None
    for sign, part in zip(["", *parts[1::2]], parts[::2]):
        number = int(part) if part.isdigit() else constant(header, part.removeprefix("BUVCSOLTA_"))
        value = number if value is None else value * number if sign == "*" else value << number
    return value


def symbols(library):
    """The exported names; none where it is no shared library."""
    said = subprocess.run(["nm", "-D", "--defined-only", library], capture_output=True, text=True).stdout
    return {line.split()[2] for line in said.splitlines() if " T " in line}


def sources(paths):
    """The header, the sources of the two libraries of exports as one, the types; `paths` are those four."""
    header, *exports, types = (pathlib.Path(path).read_text(encoding="utf-8") for path in paths)
    return header, "\n".join(exports), types


def differences(header, exports, scheme, names):
    """What does not agree, a line each."""
    ours, theirs = exported(exports), declared(header)
    wrong = []
    for name in sorted({*ours, *theirs, *names}):
        if name not in names:
            wrong.append(f"{name} is not in the library")
        if ours.get(name) != theirs.get(name):
            wrong.append(f"{name}:\n  source {ours.get(name)}\n  header {theirs.get(name)}")
    numbers, listed = refusals(scheme), enumerators(header, "buvcsolta_refusal")
    if numbers != listed:
        wrong.append(f"refusals: {sorted(set(numbers.items()) ^ set(listed.items()))}")
    if sorted(texts(header)) != sorted(numbers):
        wrong.append("refusals in words are not those of the source")
    if not kinds(scheme) or enumerators(header, "buvcsolta_kind") != kinds(scheme):
        wrong.append("kinds are not those of the source")
    unit = re.search(r"const UNITS_PER_SAMPLE: i64 = (\d+);", scheme)
    ceiling = re.search(r"const CEILING: i64 = (\d+) \* Settings::UNITS_PER_SAMPLE;", scheme)
    units, most = (constant(header, name) for name in ("UNITS_PER_SAMPLE", "CEILING"))
    if not unit or not ceiling or (units, most) != (int(unit[1]), int(ceiling[1]) * int(unit[1])):
        wrong.append(f"the ceiling {most} and the units per sample {units} are not those of the source")
    return wrong if ours and numbers else ["the sources have no exported function or no refusal"]


def add_sources(parser):
    """The arguments that `sources` takes."""
    for name in ("header", "c_api", "c_api_in_place", "types"):
        parser.add_argument(name, type=file)


def main():
    parser = parser_of(__doc__)
    add_sources(parser)
    parser.add_argument("library", metavar="LIBRARY.so", type=file)
    options = parser.parse_args()
    if not shutil.which("nm"):
        parser.error("nm is missing: it lists what the library exports")
    header, exports, scheme = sources((options.header, options.c_api, options.c_api_in_place, options.types))
    wrong = differences(header, exports, scheme, symbols(options.library))
    held = f"the header declares the {len(exported(exports))} functions and {len(refusals(scheme))} refusals of the library"
    print(*wrong or [held], sep="\n")
    return 1 if wrong else 0


if __name__ == "__main__":
    sys.exit(main())
