"""Random comparison of a C library with the reference.

    python3 compare.py LIBRARY.so [--calls N | --minutes M] [--seed S] [--jobs J]
    python3 compare.py --self [...]         the reference behind C functions in place of the library
    python3 compare.py --wrong [NAME] [...] the same with a wrong edit of must_fail.py; without a name
                                            each edit in turn, and each must be found

Ends after N calls or M minutes, those of mirrored lists counted; every 10 seconds it says how far it is. Exit status 1
at the first difference, which is printed with all arguments; 2 where nothing could be compared. The same seed, jobs
and version of Python give the same calls. --arguments looks at the arguments and does nothing else.
"""

import argparse
import collections
import math
import multiprocessing
import multiprocessing.connection
import os
import sys
import time
import traceback

import must_fail
from library import open_library, stand_in, wrong_stand_in
from run import REFERENCE, Difference, Run

NAMES = ("block", "block_in_place", "pluck", "pluck_with", "reading", "sheet")
PROGRESS = 10  # seconds


class Broken(Exception):
    """The comparison itself failed: no difference was found."""


def job(make_library, seed, progress, calls, seconds, pipe):
    """One process: sends its counts, the difference, or what broke."""
    try:
        pipe.send(("agreed", Run(make_library(), seed, progress).go(calls, seconds)))
    except Difference as difference:
        pipe.send(("difference", str(difference)))
    except Exception:
        pipe.send(("broken", traceback.format_exc()))


def call_that_ended(seed, progress):
    """The call during which a process ended: the same calls once more, without the library."""
    if progress.value == 0:
        raise Broken(f"job {seed} ended before its first call")
    again = multiprocessing.Value("Q", 0, lock=False)
    try:
        Run(REFERENCE, seed, again, stop_at=progress.value).go(float("inf"), float("inf"))
    except Difference as difference:
        return str(difference)


def start_job(make_library, seed, calls, seconds):
    """(its end of the pipe, the process, the calls made so far, its seed)"""
    progress = multiprocessing.Value("Q", 0, lock=False)
    here, there = multiprocessing.Pipe(duplex=False)
    process = multiprocessing.Process(target=job, args=(make_library, seed, progress, calls, seconds, there))
    process.start()
    there.close()
    return here, process, progress, seed


def result_of(entry):
    """(counts, None) or (no counts, difference) of a job that has sent something or ended."""
    here, process, progress, seed = entry
    try:
        what, result = here.recv()
    except EOFError:
        what, result = "difference", call_that_ended(seed, progress)
    process.join()
    if what == "broken":
        raise Broken(f"job {seed}, call {progress.value}\n{result}")
    if what == "difference":
        return collections.Counter(), f"job {seed}, call {progress.value}\n{result}"
    return result, None


def compare(make_library, seed, jobs, calls, seconds, is_shown=False):
    """(counts, None) or (counts so far, difference)."""
    counts, difference, start = collections.Counter(), None, time.monotonic()
    started = [start_job(make_library, f"{seed}/{number}", calls / jobs, seconds) for number in range(jobs)]
    running = list(started)
    try:
        while running and difference is None:
            ready = multiprocessing.connection.wait([entry[0] for entry in running], PROGRESS)
            if not ready and is_shown:
                made, spent = sum(entry[2].value for entry in started), time.monotonic() - start
                print(f"{made} calls in {spent:.0f} s, {made / spent:.0f} a second, seed {seed}", flush=True)
            for entry in [entry for entry in running if entry[0] in ready]:
                running.remove(entry)
                more, found = result_of(entry)
                counts += more
                difference = difference or found
    finally:
        for _, process, _, _ in running:
            process.terminate()
            process.join()
    return counts, difference


def compared(counts):
    """How many calls were compared."""
    return sum(counts[key] for key in counts if isinstance(key, tuple))


def plucks_by_tables(counts):
    return sum(counts[key] for key in counts if isinstance(key, tuple) and key[0] == "pluck_with")


def summary(counts, seconds, jobs):
    total = compared(counts)
    print(f"{total} calls agree, in {seconds:.1f} s with {jobs} jobs: {60 * total / max(seconds, 0.001):.0f} a minute")
    for name in NAMES:
        numbers = sorted(number for key in counts if isinstance(key, tuple) for number in key[1:] if key[0] == name)
        print(name, sum(counts[name, number] for number in numbers), "by refusal:",
              " ".join(f"{number}:{counts[name, number]}" for number in numbers))
    kinds = sorted(key for key in counts if isinstance(key, str) and key.startswith("kind "))
    print("blocks carried out:", "; ".join(f"{kind}: {counts[kind]}" for kind in kinds))
    print(f"{counts['lists']} lists, {counts['calls in lists']} calls in lists "
          f"({counts['far']} with the book at a distance), {counts['samples beside the book']} samples beside the book, "
          f"energy watched at {counts['energy watched']} steps")
    print(f"{counts['inexact points']} inexact points in {counts['inexact blocks']} blocks; after steps without any, "
          f"both levels the book's and not all 0: {counts['exact calls']} calls in {counts['exact lists']} lists")
    print(f"{counts['both']} inputs given to both blocks: 13 in the first step of {counts['both, 13 first']}, in a later step of "
          f"{counts['both, 13 later']}, by the last moving point alone in {counts['both, 13 last point']}; "
          f"work alone of a wrong length in {counts['both, work of a wrong length']}")
    print(f"{plucks_by_tables(counts)} plucks by lent tables: {counts['pluck_with', 0]} accepted, {counts['pluck_with', 14]} refused by "
          f"14; {counts['copies of T']} by a copy of T beside the built-in pluck")
    print(f"{counts['mirrored lists']} lists also as their mirror image, {counts['mirrored lists with hits']} of them "
          f"with hits in steps done, {counts['mirror images ended']} more up to a number without a negative; "
          f"{counts['mirrored calls']} calls in them: {counts['mirrored, refused']} refused by 1 to 12 or 14, "
          f"13 in the first step of {counts['mirrored, 13 first']}, in a later step of {counts['mirrored, 13 later']}, "
          f"{counts['mirrored plucks']} plucks accepted, {counts['mirrored plucks by lent tables']} of them by lent tables")


def each_wrong_edit(seed, jobs, calls, seconds):
    """Every wrong edit of the engine must be found."""
    survived = []
    edits = must_fail.seen_by_calls()
    for edit in edits:
        _, difference = compare(lambda: wrong_stand_in(edit), seed, jobs, calls, seconds)
        if difference is None:
            survived.append(edit[0])
            print("not found:", edit[0])
    print(len(edits) - len(survived), "wrong stand-ins found")
    return 1 if survived else 0


def count(text):
    number = int(text)
    if number < 1:
        raise argparse.ArgumentTypeError(f"{text} is not 1 or more")
    return number


def duration(text):
    number = float(text)
    if not 0 < number < math.inf:
        raise argparse.ArgumentTypeError(f"{text} is not above 0")
    return number


def options_of(arguments):
    parser = argparse.ArgumentParser(description=__doc__, formatter_class=argparse.RawDescriptionHelpFormatter)
    parser.add_argument("library", nargs="?")
    parser.add_argument("--self", action="store_true", dest="itself")
    parser.add_argument("--wrong", nargs="?", const="")
    until = parser.add_mutually_exclusive_group()
    until.add_argument("--calls", type=count)
    until.add_argument("--minutes", type=duration)
    parser.add_argument("--seed", type=int)
    parser.add_argument("--jobs", type=count, default=2)
    parser.add_argument("--arguments", action="store_true")
    options = parser.parse_args(arguments)
    if sum((options.library is not None, options.itself, options.wrong is not None)) != 1:
        parser.error("one of a library, --self and --wrong")
    if options.wrong and options.wrong not in [edit[0] for edit in must_fail.EDITS]:
        parser.error("no such wrong edit: " + options.wrong)
    return options


def library_maker(options):
    """What opens the library, once tried."""
    if options.itself:
        return stand_in
    if options.wrong is not None:
        edit = next(edit for edit in must_fail.EDITS if edit[0] == options.wrong)
        return lambda: wrong_stand_in(edit)
    path = os.path.abspath(options.library)
    try:
        open_library(path)
    except (OSError, AttributeError) as fault:
        raise Broken(f"cannot open the library: {fault}") from None
    return lambda: open_library(path)


def run(options):
    seed = options.seed if options.seed is not None else int.from_bytes(os.urandom(4), "big")
    print("seed", seed, flush=True)
    seconds = math.inf if options.minutes is None else 60 * options.minutes
    calls = options.calls or (100000 if options.minutes is None else math.inf)
    if options.wrong == "":
        return each_wrong_edit(seed, options.jobs, calls, seconds)
    start = time.monotonic()
    counts, difference = compare(library_maker(options), seed, options.jobs, calls, seconds, is_shown=True)
    if difference is not None:
        print("DIFFERENCE", difference)
        return 1
    if compared(counts) == 0:
        raise Broken("no calls were compared")
    summary(counts, time.monotonic() - start, options.jobs)
    return 0


def main():
    options = options_of(sys.argv[1:])
    sys.set_int_max_str_digits(0)
    try:
        return 0 if options.arguments else run(options)
    except Broken as fault:
        print("compare.py:", fault, file=sys.stderr)
        return 2


if __name__ == "__main__":
    sys.exit(main())
