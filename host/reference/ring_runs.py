"""The stored runs of the program `ring`: standard inputs, and what it must print for them.

    python3 ring_runs.py CRATE              writes data/, args and stdout of the crate ring_runs
    python3 ring_runs.py --check CRATE      says whether they are what would be written
    python3 ring_runs.py --program RING     runs the program on each of them and says what differs
"""

import subprocess
import sys

from arguments import folder, parser_of, program
from instrument import CEILING
from ring import ring

PAPER = b"1 3 1 65536 0 0 1 4 1 268435456"


def line(kind=1, columns=3, rows=1, q=65536, m=0, s=0, pick_up=1, steps=4, point=1, force=2**28):
    return f"{kind} {columns} {rows} {q} {m} {s} {pick_up} {steps} {point} {force}\n".encode()


HIT = 1000 * 2**28
LARGEST = 2**63 - 1

RUNS = {
    # ---- played
    "paper": PAPER + b"\n",
    "kind_1": line(1, 9, 1, 60000, 0, 100, 2, 20, 4, HIT),
    "kind_2": line(2, 9, 1, 60000, 0, 100, 8, 20, 8, HIT),
    "kind_3": line(3, 9, 1, 60000, 0, 100, 0, 20, 0, HIT),
    "kind_4": line(4, 9, 1, 20000, 10000, 100, 2, 20, 4, HIT),
    "kind_5": line(5, 5, 4, 32768, 0, 100, 7, 20, 12, HIT),
    "kind_6": line(6, 8, 8, 30000, 0, 100, 19, 20, 27, HIT),
    "kind_7": line(7, 5, 5, 8192, 2048, 100, 7, 20, 12, HIT),
    "kind_7_not_square": line(7, 6, 4, 0, 4096, 100, 8, 20, 15, HIT),
    "kind_7_without_stiffness": line(7, 4, 6, 32768, 0, 0, 5, 20, 18, HIT),
    "kind_1_of_1024_points": line(1, 1024, 1, 65536, 0, 0, 1022, 5, 1022, HIT),
    "kind_5_of_1024_points": line(5, 32, 32, 32768, 0, 0, 33, 5, 34, HIT),
    "kind_5_of_16_times_64_points": line(5, 16, 64, 32768, 0, 0, 17, 5, 18, HIT),
    "kind_6_of_1024_points": line(6, 32, 32, 32768, 0, 0, 528, 5, 527, HIT),
    "kind_7_of_1024_points": line(7, 32, 32, 16384, 2048, 0, 33, 5, 34, HIT),
    "kind_7_of_64_times_16_points": line(7, 64, 16, 0, 4096, 0, 958, 5, 957, HIT),
    "pick_up_at_a_fixed_point": line(pick_up=0),
    "loss_alone": line(q=0, s=65536, force=CEILING),
    "force_0": line(force=0),
    "force_minus_0": line(force="-0"),
    "force_1": line(force=1),
    "force_minus_1": line(force=-1),
    "force_negative": line(1, 9, 1, 60000, 0, 100, 2, 20, 4, -HIT),
    "force_at_the_ceiling": line(steps=3, force=CEILING),
    "force_at_minus_the_ceiling": line(steps=3, force=-CEILING),
    "steps_0": line(steps=0),
    "steps_1": line(steps=1),
    "steps_300": line(1, 17, 1, 50000, 0, 20, 3, 300, 5, 12345 * 2**28),
    "fading_from_above": line(1, 5, 1, 8192, 0, 10000, 1, 200, 2, -100 * 2**28),
    "fading_from_below": line(1, 5, 1, 8192, 0, 10000, 1, 200, 2, 100 * 2**28),
    "leading_zeros": b"01 003 1 0065536 00 0 000000000000000000000000000001 04 1 -000268435456\n",
    "no_line_feed": PAPER,
    "text_after_the_line": PAPER + b"\n1 3 1\n\0and so on, " + b"more " * 80,
    "line_of_255_bytes": b"0" * 224 + PAPER + b"\n",
    "line_of_255_bytes_to_the_end": b"0" * 224 + PAPER,
    "line_of_255_bytes_and_text": b"0" * 224 + PAPER + b"\n" + PAPER,
    # ---- refused
    "refused_1_kind_0": line(kind=0),
    "refused_1_kind_8": line(kind=8),
    "refused_1_kind_largest": line(kind=LARGEST),
    "refused_1_before_all_others": line(8, LARGEST, LARGEST, LARGEST, 1, 1, LARGEST, 4, LARGEST, LARGEST),
    "refused_1_of_1025_points": line(kind=8, columns=1025),
    "refused_1_of_2_to_64_points": line(kind=0, columns=2**32, rows=2**32),
    "refused_2_two_columns": line(columns=2),
    "refused_2_two_rows": line(rows=2),
    "refused_2_no_columns": line(columns=0),
    "refused_2_no_rows": line(rows=0),
    "refused_2_kind_5_two_rows": line(kind=5, rows=2),
    "refused_2_kind_5_of_65_columns": line(kind=5, columns=65, rows=3),
    "refused_2_kind_6_not_square": line(kind=6, columns=3, rows=4),
    "refused_2_kind_7_two_columns": line(kind=7, columns=2, rows=3),
    "refused_2_kind_7_of_65_rows": line(kind=7, columns=3, rows=65),
    "refused_2_kind_1_of_1025_points": line(columns=1025),
    "refused_2_kind_5_of_1025_points": line(5, 41, 25, 32768, 0, 0, 42, 4, 42, HIT),
    "refused_2_kind_5_of_4096_points": line(5, 64, 64, 32768, 0, 0, 65, 4, 65, HIT),
    "refused_2_kind_6_of_1089_points": line(6, 33, 33, 32768, 0, 0, 544, 4, 544, HIT),
    "refused_2_kind_7_of_1089_points": line(7, 33, 33, 16384, 2048, 0, 544, 4, 544, HIT),
    "refused_2_kind_7_of_4096_points": line(7, 64, 64, 16384, 2048, 0, 65, 4, 65, HIT),
    "refused_2_before_4": line(5, 64, 64, 65537, 0, 0, 65, 4, 65, HIT),
    "refused_2_of_2_to_64_points": line(kind=5, columns=2**32, rows=2**32),
    "refused_2_of_2_to_64_and_9_points": line(kind=5, columns=5, rows=3689348814741910325),
    "refused_2_largest_size": line(kind=6, columns=LARGEST, rows=LARGEST),
    "refused_4_q": line(q=65537),
    "refused_4_m": line(kind=4, q=0, m=65537),
    "refused_4_s": line(s=65537),
    "refused_4_s_largest": line(s=LARGEST),
    "refused_5_m_of_kind_1": line(m=1),
    "refused_5_kind_4": line(kind=4, q=65533, m=1),
    "refused_5_m_of_kind_5": line(kind=5, rows=3, q=0, m=1),
    "refused_5_kind_5": line(kind=5, rows=3, q=32769),
    "refused_5_kind_7": line(kind=7, rows=3, q=16385, m=2048),
    "refused_5_m_of_kind_7": line(kind=7, rows=3, q=0, m=4097),
    "refused_7_first_end": line(point=0),
    "refused_7_last_end": line(point=2),
    "refused_7_force_0": line(point=0, force=0),
    "refused_7_past_the_last": line(kind=3, point=3),
    "refused_7_largest_point": line(kind=3, point=LARGEST),
    "refused_7_edge_of_kind_5": line(kind=5, rows=3, q=0, point=1),
    "refused_7_edge_of_kind_6": line(kind=6, columns=8, rows=8, q=0, point=9),
    "refused_7_edge_of_kind_7": line(kind=7, rows=3, q=0, point=1),
    "refused_8_above": line(force=CEILING + 1),
    "refused_8_below": line(force=-CEILING - 1),
    "refused_8_largest": line(force=LARGEST),
    "refused_8_lowest": line(force=-(2**63)),
    "refused_9": line(pick_up=3),
    "refused_9_largest": line(pick_up=LARGEST),
    "refused_9_steps_0": line(pick_up=3, steps=0),
    "refused_13_after_1_step": line(q=0, force=CEILING),
    "refused_13_after_7_steps": line(q=0, steps=8192, force=CEILING // 7),
    "refused_13_below": line(kind=3, q=0, pick_up=0, steps=10, point=0, force=-(CEILING // 2)),
    # ---- input
    "input_empty_file": b"",
    "input_empty_line": b"\n" + PAPER + b"\n",
    "input_one_space": b" \n",
    "input_nine_numbers": b"1 3 1 65536 0 0 1 4 1\n",
    "input_nine_numbers_and_a_line": b"1 3 1 65536 0 0 1 4 1\n268435456\n",
    "input_eleven_numbers": PAPER + b" 0\n",
    "input_two_spaces": b"1 3  1 65536 0 0 1 4 1 268435456\n",
    "input_two_spaces_before_force": b"1 3 1 65536 0 0 1 4 1  268435456\n",
    "input_leading_space": b" " + PAPER + b"\n",
    "input_trailing_space": PAPER + b" \n",
    "input_tab": b"1\t3 1 65536 0 0 1 4 1 268435456\n",
    "input_carriage_return": PAPER + b"\r\n",
    "input_nul": PAPER + b"\0\n",
    "input_letter": line(force="2684x5456"),
    "input_hexadecimal": line(force="0x10000000"),
    "input_point": line(force="268435456.0"),
    "input_byte_after_9": line(force="26843545:"),
    "input_byte_before_0": line(force="/268435456"),
    "input_plus": line(force="+268435456"),
    "input_minus_on_kind": line(kind="-1"),
    "input_minus_on_point": line(point="-1"),
    "input_lone_minus": line(force="-"),
    "input_two_minus": line(force="--1"),
    "input_minus_after": line(force="1-"),
    "input_2_to_63": line(force=2**63),
    "input_minus_2_to_63_less_1": line(force=-(2**63) - 1),
    "input_kind_2_to_63": line(kind=2**63),
    "input_columns_2_to_64_and_3": line(columns=2**64 + 3),
    "input_steps_2_to_64_and_4": line(steps=2**64 + 4),
    "input_steps_8193": line(steps=8193),
    "input_steps_8193_of_kind_0": line(kind=0, steps=8193),
    "input_line_of_256_bytes": b"0" * 225 + PAPER + b"\n",
    "input_line_of_256_bytes_to_the_end": b"0" * 225 + PAPER,
    "input_line_of_300_bytes": b"0" * 269 + PAPER + b"\n",
}


def files():
    """The crate's files and their bytes."""
    written = {f"data/{name}": data for name, data in RUNS.items()}
    written["args"] = "".join(f"{name}\n" for name in RUNS).encode()
    written["stdout"] = "".join(f"{name}\n{ring(data)}" for name, data in RUNS.items()).encode()
    return written


def write(crate):
    (crate / "data").mkdir(exist_ok=True)
    for name, data in files().items():
        (crate / name).write_bytes(data)
    return []


def differing_files(crate):
    there = [path.relative_to(crate).as_posix() for path in (crate / "data").glob("*")]
    return [name for name, data in files().items() if not (crate / name).is_file() or (crate / name).read_bytes() != data] + \
        [name for name in there if name not in files()]


def differing_runs(ring_program):
    return [name for name, data in RUNS.items()
            if subprocess.run([ring_program], input=data, stdout=subprocess.PIPE, check=False).stdout != ring(data).encode()]


def main():
    parser = parser_of(__doc__)
    group = parser.add_mutually_exclusive_group(required=True)
    group.add_argument("crate", metavar="CRATE", nargs="?", type=folder)
    group.add_argument("--check", metavar="CRATE", type=folder)
    group.add_argument("--program", metavar="RING", type=program)
    options = parser.parse_args()
    crate = options.crate or options.check
    if crate and not (crate / "src" / "main.rt").is_file():
        parser.error(f"{crate} is no crate of a program")
    wrong = differing_runs(options.program) if options.program else (write if options.crate else differing_files)(crate)
    for name in wrong:
        print("differs:", name)
    print(len(RUNS), "runs of ring,", len(wrong), "differences")
    return 1 if wrong else 0


if __name__ == "__main__":
    sys.exit(main())
