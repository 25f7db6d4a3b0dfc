"""The use of every script of host/: wrong arguments, files that are not there or are something else, missing programs and missing
libraries end at once, with status 2 and the reason on stderr; --help answers the usage with status 0.

    python3 test_scripts.py
"""

import os
import pathlib
import shutil
import subprocess
import sys
import tempfile

ROOT = pathlib.Path(__file__).resolve().parent.parent.parent
sys.path.append(str(ROOT / "host" / "reference"))

from arguments import parser_of

TESTS, REFERENCE, BENCH = (f"host/{folder}/" for folder in ("tests", "reference", "bench"))
COMPARE = ("python3", REFERENCE + "compare.py")
HEADER = "host/include/buvcsolta.h"
SOURCES = ("crates/c_api/src/lib.rt", "crates/c_api_in_place/src/lib.rt", "crates/types/src/lib.rt")

# (command, programs that are there or None for all, what it says)
CASES = (
    (("host/compare", "--calls", "0"), None, "0 is not 1 or more"),
    (("host/compare", "--calls", "-5"), None, "-5 is not 1 or more"),
    (("host/compare", "--calls", "many"), None, "invalid count value"),
    (("host/compare", "--minutes", "0"), None, "0 is not above 0"),
    (("host/compare", "--jobs", "0"), None, "0 is not 1 or more"),
    (("host/compare", "--sed", "1", "--minute"), None, "expected one argument"),
    (("host/compare", "--calls", "10", "--minutes", "1"), None, "not allowed with argument --calls"),
    (("host/compare", "--minutes", "1", "--calls", "10"), None, "not allowed with argument --minutes"),
    ((*COMPARE, "no-such.so", "--calls", "10"), None, "cannot open the library"),
    ((*COMPARE, "README.md", "--calls", "10"), None, "cannot open the library"),
    ((*COMPARE, "--self", "--minutes", "1e-12"), None, "no calls were compared"),
    (("host/test", "--calls", "0"), None, "usage: host/test"),
    (("host/test", "all"), None, "usage: host/test"),
    (("host/build", "all"), None, "usage: host/build"),
    (("host/bench/run", "all"), None, "usage: host/bench/run"),
    (("host/bench/build", "all"), None, "usage: host/bench/build"),
    (("host/hear", "a.wav", "b.wav"), None, "usage: host/hear"),
    (("host/hear", ""), None, "usage: host/hear"),
    (("host/variants", "no_such"), None, "no true-variants in crates/no_such"),
    (("host/variants", "../scheme"), None, "no true-variants in crates/../scheme"),
    (("host/drift", "--check"), None, "expected one argument"),
    (("host/drift", "--check", "no-such.md"), None, "cannot read no-such.md"),
    (("host/drift", "--check", "docs"), None, "cannot read docs"),
    (("host/drift", "docs/STATEMENT.md"), None, "unrecognized arguments"),
    (("host/edits",), None, "one of the arguments LOG --check is required"),
    (("host/edits", "no-such.log"), None, "cannot read no-such.log"),
    (("host/edits", "--check", "no-such.md"), None, "cannot read no-such.md"),
    (("host/edits", "docs/EDITS.md", "--check", "docs/EDITS.md"), None, "not allowed with argument"),
    (("python3", TESTS + "check_wav.py"), None, "arguments are required"),
    (("python3", TESTS + "check_wav.py", "no-such.wav"), None, "cannot read no-such.wav"),
    (("python3", TESTS + "check_header.py", HEADER), None, "arguments are required"),
    (("python3", TESTS + "check_header.py", HEADER, *SOURCES, "no-such.so"), None, "cannot read no-such.so"),
    (("python3", TESTS + "test_check_header.py", "no-such.h", *SOURCES), None, "cannot read no-such.h"),
    (("python3", TESTS + "check_inexact.py", "no-such", HEADER), None, "no such program"),
    (("python3", TESTS + "check_inexact.py", "README.md", HEADER), None, "no such program"),
    (("python3", TESTS + "check_readme.py", "host/include", "no-such.a", "host/test", "README.md"), None, "cannot read no-such.a"),
    (("python3", TESTS + "check_readme.py", "no-such", "README.md", "host/test", "README.md"), None, "no such folder"),
    (("python3", TESTS + "check_rattle.py"), None, "arguments are required"),
    (("python3", TESTS + "check_rattle.py", "no-such.md"), None, "cannot read no-such.md"),
    (("python3", TESTS + "check_lines.py", "no-such.md"), None, "cannot read no-such.md"),
    (("python3", TESTS + "check_names.py", "no-such.md"), None, "cannot read no-such.md"),
    (("python3", REFERENCE + "check_table.py"), None, "arguments are required"),
    (("python3", REFERENCE + "check_table.py", "no-such.rt"), None, "cannot read no-such.rt"),
    (("python3", REFERENCE + "check_table.py", "README.md"), None, "has no constant TABLE"),
    (("python3", REFERENCE + "generate.py"), None, "arguments are required"),
    (("python3", REFERENCE + "generate.py", "no-such"), None, "no such folder"),
    (("python3", REFERENCE + "generate.py", "--check", "README.md"), None, "no such folder"),
    (("python3", REFERENCE + "generate.py", "docs", "docs"), None, "unrecognized arguments"),
    (("python3", REFERENCE + "ring_runs.py"), None, "is required"),
    (("python3", REFERENCE + "ring_runs.py", "--program", "no-such"), None, "no such program"),
    (("python3", REFERENCE + "ring_runs.py", "--check", "no-such"), None, "no such folder"),
    (("python3", REFERENCE + "ring_runs.py", "--check", "docs"), None, "is no crate of a program"),
    (("python3", REFERENCE + "ring_runs.py", "docs"), None, "is no crate of a program"),
    (("python3", REFERENCE + "ring_runs.py", "docs", "docs"), None, "unrecognized arguments"),
    (("python3", REFERENCE + "ring.py"), None, "arguments are required"),
    (("python3", REFERENCE + "ring.py", "no-such"), None, "cannot read no-such"),
    (("python3", REFERENCE + "play.py", "no-such.so"), None, "a library and a file"),
    (("python3", REFERENCE + "play.py", "no-such.so", "README.md"), None, "no vector file"),
    (("python3", REFERENCE + "play.py", "no-such.so", "crates/vectors/data/sheets.txt"), None, "cannot open the library"),
    (("python3", REFERENCE + "play.py", "--wrong", "docs"), None, "cannot read docs/calls.txt"),
    (("python3", REFERENCE + "test_ring.py", "NoSuch"), None, "no such test: NoSuch"),
    (("python3", BENCH + "table.py"), None, "not what the bench prints"),
    (("python3", BENCH + "table.py", "no-such"), None, "no such folder"),
    (("host/test",), ("python3", "rt"), "gcc is missing"),
    (("host/build",), ("python3", "rt"), "gcc is missing"),
    (("host/bench/build",), ("python3", "rt"), "gcc is missing"),
    (("host/hear",), ("python3", "rt"), "gcc is missing"),
    (("host/test",), ("gcc", "rt"), "python3 is missing"),
    (("host/compare",), ("gcc", "rt"), "python3 is missing"),
    (("host/build",), ("gcc",), "rt is missing"),
    (("host/variants",), ("gcc", "python3"), "rt is missing"),
)


def scripts():
    """The command of each script of host/: what can be run, and what Python runs by its name."""
    for path in sorted(ROOT.glob("host/**/*")):
        name = path.relative_to(ROOT).as_posix()
        if path.is_file() and path.suffix == ".py":
            if '__name__ == "__main__"' in path.read_text(encoding="utf-8"):
                yield ("python3", name)
        elif path.is_file() and os.access(path, os.X_OK):
            yield (name,)


def said_by(command, programs):
    """The status and what was printed on stdout and stderr, with these programs alone beside the shell's."""
    with tempfile.TemporaryDirectory() as folder:
        for name in ("env", "bash", "dirname", *(programs or ())):
            os.symlink(sys.executable if name == "python3" else shutil.which(name), pathlib.Path(folder, name))
        path = folder if programs else os.environ["PATH"]
        said = subprocess.run(command, cwd=ROOT, env={**os.environ, "PATH": path}, stdin=subprocess.DEVNULL, capture_output=True,
                              text=True, timeout=60)
    return said.returncode, said.stdout, said.stderr


def fault_of(command, programs, status, wanted):
    """What is wrong with a run that must end with this status and say so: on stderr for 2, on stdout alone for 0."""
    try:
        found, said, error = said_by(command, programs)
    except subprocess.TimeoutExpired:
        return f"{' '.join(command)}: works on"
    if found != status or wanted not in (error if status else said) or (status == 0 and error) or "Traceback" in said + error \
            or "DIFFERENCE" in said + error:
        return f"{' '.join(command)}: status {found}, not {status} with {wanted!r}\n{said}{error}"
    return None


def main():
    parser_of(__doc__).parse_args()
    every = list(scripts())
    uses = [*((command, programs, 2, wanted) for command, programs, wanted in CASES),
            *(((*command, "--no-such-option"), None, 2, "usage: ") for command in every),
            *(((*command, "--help"), None, 0, "usage: ") for command in every)]
    faults = [fault for fault in (fault_of(*use) for use in uses) if fault]
    if len(every) < 25:
        faults.append(f"only {len(every)} scripts found")
    print(*faults or [f"{len(CASES) + len(every)} wrong uses are refused at once, {len(every)} scripts tell their usage"], sep="\n")
    return 1 if faults else 0


if __name__ == "__main__":
    sys.exit(main())
