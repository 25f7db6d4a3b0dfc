"""The program `ring`: what it prints for a standard input.

    python3 ring.py FILE..      for each file its name on a line, and what ring prints for its bytes
"""

import re

import calls
from arguments import file, parser_of
from instrument import KINDS

# "ten decimals, digits only, single spaces between"; "only force may be negative, by one leading minus".
TEN_DECIMALS = re.compile(rb"(?:[0-9]+ ){9}-?[0-9]+")


def request(data):
    """The ten numbers of the first line, or None for `input`."""
    # "the first line of standard input, at most 255 bytes up to a line feed or the end".
    line = data.split(b"\n")[0]
    if len(line) > 255 or not TEN_DECIMALS.fullmatch(line):
        return None
    numbers = [int(field) for field in line.split(b" ")]
    # "steps above 8192, or a number outside signed 64 bits".
    if numbers[7] > 8192 or not all(-2**63 <= number < 2**63 for number in numbers):
        return None
    return numbers


def played(kind, columns, rows, q, m, s, pick_up, steps, point, force):
    """(count, refusal, samples) of the block at rest."""
    points = columns * rows if kind in KINDS else 0
    # "A known kind with more than 1024 points answers `done 0 2`."
    if points > 1024:
        return 0, 2, []
    # "It starts at rest, always gives the hit, force 0 too".
    rest = [0] * points
    (count, _, refusal), _, _, _, samples = calls.block(
        kind, columns, rows, q, m, s, rest, rest, rest, [0] * steps, pick_up, (point, force))
    return count, refusal, samples


def ring(data):
    """What is printed, for the bytes of standard input."""
    numbers = request(data)
    if numbers is None:
        return "input\n"
    count, refusal, samples = played(*numbers)
    # "prints the step's number from 1 and its sample for each step done".
    lines = [f"{number} {samples[number - 1]}\n" for number in range(1, count + 1)]
    return "".join(lines) + f"done {count} {refusal}\n"


def main():
    parser = parser_of(__doc__)
    parser.add_argument("inputs", metavar="FILE", nargs="+", type=file)
    for path in parser.parse_args().inputs:
        print(path.name, ring(path.read_bytes()), sep="\n", end="")


if __name__ == "__main__":
    main()
