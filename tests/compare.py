"""Compares a program with the reader, case by case.

    compare.py PROGRAM [--seed N] [--cases N]
    compare.py --self [--seed N] [--cases N]

The program is run once for each case in a folder of its own, with the case as
the file `scheme`; it must print the right line and end with status 0.  The
cases are the edges, against lines written by hand, and random schemes, against
the reader.  With --self no program is run: the reader is held against the
edges and against the lawful schemes, which are lawful by how they are made.
"""

from __future__ import annotations

import argparse
import os
import subprocess
import sys
import tempfile
from collections import Counter
from typing import Callable, Iterator, NamedTuple, Optional

from edges import edges
from reader import judge
from schemes import random_case

DEFAULT_SEED = 1
DEFAULT_CASES = 1500
MOST_MISMATCHES = 5
LEAST_OF_EACH = 5
ANSWERS = ["scheme"] + [f"no {n}" for n in (1, 2, 3, 4, 5, 6, 7, 8, 10, 11, 12, 13, 14, 15, 16)]
SECONDS_FOR_ONE_CASE = 20


class Case(NamedTuple):
    name: str
    data: Optional[bytes]  # None: there is no file
    line: str


def answer_of(line: str) -> str:
    """The line without what it names: `scheme`, or `no` and the number."""
    words = line.split()
    return " ".join(words[:2]) if words[0] == "no" else words[0]


def edge_cases() -> Iterator[Case]:
    for name, data, line in edges():
        yield Case(name, data, line)


def random_cases(seed: int, count: int) -> Iterator[Case]:
    for number in range(count):
        case = random_case(seed, number)
        line = case.line_if_lawful if case.is_lawful else judge(case.data)
        # An input without bytes is every second time one without a file.
        without_file = not case.data and number % 2 == 1
        yield Case(case.name, None if without_file else case.data, line)


# ------------------------------------------------------------- who answers


def reader_answer(data: Optional[bytes]) -> str:
    return judge(data or b"") + "\n"


def program_answer(program: str, folder: str, data: Optional[bytes]) -> str:
    """What the program prints, with a remark if it does not end as it must."""
    path = os.path.join(folder, "scheme")
    if data is None:
        if os.path.exists(path):
            os.remove(path)
    else:
        with open(path, "wb") as file:
            file.write(data)
    try:
        run = subprocess.run(
            [program],
            cwd=folder,
            stdin=subprocess.DEVNULL,
            stdout=subprocess.PIPE,
            stderr=subprocess.DEVNULL,
            timeout=SECONDS_FOR_ONE_CASE,
        )
    except subprocess.TimeoutExpired:
        return "(not ended in time)"
    printed = run.stdout.decode("utf-8", "backslashreplace")
    return printed if run.returncode == 0 else f"{printed}(status {run.returncode})"


# -------------------------------------------------------------- comparison


def in_hex(data: Optional[bytes]) -> str:
    if data is None:
        return "(no file)"
    shown = [data[i : i + 4].hex() for i in range(0, len(data), 4)]
    return " ".join(shown) or "(no bytes)"


def compare(cases: Iterator[Case], answer: Callable[[Optional[bytes]], str], tally: Counter) -> int:
    """Counts the expected answers; gives how many cases went wrong."""
    mismatches = 0
    for case in cases:
        tally[answer_of(case.line)] += 1
        given = answer(case.data)
        if given != case.line + "\n":
            mismatches += 1
            print(f"MISMATCH in {case.name}")
            print(f"  words:    {in_hex(case.data)}")
            print(f"  expected: {case.line + chr(10)!r}")
            print(f"  given:    {given!r}")
            if mismatches == MOST_MISMATCHES:
                print("further cases are left out")
                break
    return mismatches


def print_tally(title: str, tally: Counter) -> None:
    print(f"{title}: {sum(tally.values())} cases")
    print("  " + ", ".join(f"{answer}: {tally[answer]}" for answer in ANSWERS))


def main() -> int:
    parser = argparse.ArgumentParser(description="Compares a program with the reader.")
    parser.add_argument("program", nargs="?", help="path of the program")
    parser.add_argument("--self", action="store_true", dest="on_itself", help="run no program")
    parser.add_argument("--seed", type=int, default=DEFAULT_SEED)
    parser.add_argument("--cases", type=int, default=DEFAULT_CASES, help="how many random cases")
    arguments = parser.parse_args()
    if arguments.on_itself == (arguments.program is not None):
        parser.error("give either a program or --self")

    from_edges: Counter = Counter()
    from_random: Counter = Counter()
    with tempfile.TemporaryDirectory() as folder:
        if arguments.on_itself:
            answer = reader_answer
        else:
            program = os.path.abspath(arguments.program)
            if not os.access(program, os.X_OK):
                parser.error(f"{arguments.program} cannot be run")

            def answer(data: Optional[bytes]) -> str:
                return program_answer(program, folder, data)

        mismatches = compare(edge_cases(), answer, from_edges)
        if mismatches < MOST_MISMATCHES:
            mismatches += compare(random_cases(arguments.seed, arguments.cases), answer, from_random)

    print_tally("edges", from_edges)
    print_tally(f"random, seed {arguments.seed}", from_random)
    if mismatches:
        print(f"not the same: {mismatches} of the cases differ")
        return 1
    total = from_edges + from_random
    rare = [answer for answer in ANSWERS if total[answer] < LEAST_OF_EACH]
    if rare:
        print(f"too few cases that give: {', '.join(rare)}")
        return 1
    print(f"the same in all {sum(total.values())} cases")
    return 0


if __name__ == "__main__":
    sys.exit(main())
