"""Arguments of the scripts of host/ in Python: wrong use answers the usage on stderr and status 2, --help the usage and status 0."""

import argparse
import os
import pathlib
import sys
import unittest


def parser_of(text):
    """A parser whose help ends with the script's own text."""
    return argparse.ArgumentParser(description=text, formatter_class=argparse.RawDescriptionHelpFormatter, allow_abbrev=False)


def file(text):
    """A file that can be read."""
    try:
        with open(text, "rb"):
            return pathlib.Path(text)
    except OSError as fault:
        raise argparse.ArgumentTypeError(f"cannot read {text}: {fault.strerror}") from None


def folder(text):
    if not os.path.isdir(text):
        raise argparse.ArgumentTypeError(f"no such folder: {text}")
    return pathlib.Path(text)


def program(text):
    """A file that can be run."""
    if not (os.path.isfile(text) and os.access(text, os.X_OK)):
        raise argparse.ArgumentTypeError(f"no such program: {text}")
    return pathlib.Path(text).resolve()


def run_tests(text):
    """The tests of the script that runs, or those of them that its arguments name: Class or Class.test."""
    parser = parser_of(text)
    parser.add_argument("tests", metavar="TEST", nargs="*")
    parser.add_argument("--failfast", action="store_true")
    options = parser.parse_args()
    for name in options.tests:
        found = sys.modules["__main__"]
        for part in name.split("."):
            found = getattr(found, part, None)
        if found is None:
            parser.error(f"no such test: {name}")
    unittest.main(argv=[sys.argv[0], *options.tests], failfast=options.failfast)
