"""Compares a program with the reader and the planner, case by case.

    compare.py PROGRAM [--seed N] [--cases N]
    compare.py --self [--seed N] [--cases N]

The program is run once for each case in a folder of its own, with the case as
the file `scheme`; it must print the right line and end with status 0.  The
cases are the edges, against lines written by hand, and random and shaped
schemes, against the reader and the planner.  A scheme that is lawful by how it
is made has to be planned, with a letter for each attribute.

With --self no program is run: the reader and the planner are held against the
edges and the lawful schemes, and the ways to decide a letter against each other.
"""

from __future__ import annotations

import argparse
import os
import re
import subprocess
import sys
import tempfile
from collections import Counter
from functools import cache
from typing import Callable, Iterable, Iterator, NamedTuple, Optional

# the reader and the maker of schemes stand one folder up; what stands here under the same name comes first
sys.path.append(os.path.dirname(os.path.dirname(os.path.abspath(__file__))))

import planner
from edges import edges
from reader import Refusal, check
from shapes import SHAPES, SMALL_SHAPES, shaped_cases
from sketches import RandomCase, random_case

DEFAULT_SEED = 1
DEFAULT_CASES = 1500
MOST_MISMATCHES = 5
LEAST_OF_EACH = 5
LEAST_SHARE = 0.1  # of the lawful schemes, for each letter
DEPTH, MOST_MARKS = 8, 20_000  # of the walks that are written out
ANSWERS = ["plan"] + [f"no {n}" for n in (1, 2, 3, 4, 5, 6, 7, 8, 10, 11, 12, 13, 14, 15, 16)]
SECONDS_FOR_ONE_CASE = 20


class Case(NamedTuple):
    name: str
    data: Optional[bytes]  # None: there is no file
    line: str
    letters: str = ""  # those of a scheme made lawful, but for symbol 0's


judge = cache(planner.judge)


def answer_of(line: str) -> str:
    """The line without what it names: `plan`, or `no` and the number."""
    words = line.split()
    return " ".join(words[:2]) if words[0] == "no" else words[0]


def edge_cases() -> Iterator[Case]:
    for name, data, line in edges():
        yield Case(name, data, line)


def made_cases(made: Iterable[RandomCase]) -> Iterator[Case]:
    for number, case in enumerate(made):
        line, letters = judge(case.data), ""
        if case.lawful:
            attrs = [len(sym.attrs) for sym in case.lawful.syms]
            if re.fullmatch(f"plan [CSK]{{{sum(attrs)}}}", line):
                letters = line.removeprefix("plan ")[attrs[0] :]
            else:
                line = f"plan (made lawful, but gives {line})"  # no answer is this line
        # An input without bytes is every second time one without a file.
        without_file = not case.data and number % 2 == 1
        yield Case(case.name, None if without_file else case.data, line, letters)


# ------------------------------------------------------------- who answers


def reader_answer(data: Optional[bytes]) -> str:
    return judge(data or b"") + "\n"


def program_answer(program: str, folder: str, data: Optional[bytes]) -> str:
    """What the program prints, with a remark if it does not end as it must."""
    path = os.path.join(folder, "scheme")
    if data is None:
        if os.path.exists(path):
            os.remove(path)
    else:
        with open(path, "wb") as file:
            file.write(data)
    try:
        run = subprocess.run(
            [program],
            cwd=folder,
            stdin=subprocess.DEVNULL,
            stdout=subprocess.PIPE,
            stderr=subprocess.DEVNULL,
            timeout=SECONDS_FOR_ONE_CASE,
        )
    except subprocess.TimeoutExpired:
        return "(not ended in time)"
    printed = run.stdout.decode("utf-8", "backslashreplace")
    return printed if run.returncode == 0 else f"{printed}(status {run.returncode})"


# -------------------------------------------------------------- comparison


def in_hex(data: Optional[bytes]) -> str:
    if data is None:
        return "(no file)"
    shown = [data[i : i + 4].hex() for i in range(0, len(data), 4)]
    return " ".join(shown) or "(no bytes)"


class Tally:
    """The expected answers, and how many of the schemes made lawful have each letter."""

    def __init__(self) -> None:
        self.answers: Counter = Counter()
        self.letters: Counter = Counter()
        self.lettered = 0

    def add(self, case: Case) -> None:
        self.answers[answer_of(case.line)] += 1
        self.letters.update(set(case.letters))
        self.lettered += bool(case.letters)

    def join(self, other: Tally) -> None:
        self.answers += other.answers
        self.letters += other.letters
        self.lettered += other.lettered

    def cases(self) -> int:
        return sum(self.answers.values())

    def is_mixed(self) -> bool:
        least = max(LEAST_OF_EACH, LEAST_SHARE * self.lettered)
        return all(self.letters[letter] >= least for letter in "CSK")

    def report(self, title: str) -> None:
        print(f"{title}: {self.cases()} cases")
        print("  " + ", ".join(f"{answer}: {self.answers[answer]}" for answer in ANSWERS if self.answers[answer]))
        if self.lettered:
            shares = ", ".join(f"{letter} in {self.letters[letter]}" for letter in "CSK")
            print(f"  letters of {self.lettered} schemes made lawful: {shares}")


def compare(cases: Iterator[Case], answer: Callable[[Optional[bytes]], str], tally: Tally) -> int:
    """Counts the expected answers; gives how many cases went wrong."""
    mismatches = 0
    for case in cases:
        tally.add(case)
        given = answer(case.data)
        if given != case.line + "\n":
            mismatches += 1
            print(f"MISMATCH in {case.name}")
            print(f"  words:    {in_hex(case.data)}")
            print(f"  expected: {case.line + chr(10)!r}")
            print(f"  given:    {given!r}")
            if mismatches == MOST_MISMATCHES:
                print("further cases are left out")
                break
    return mismatches


# --------------------------------------------------- ways to decide a letter


def disagreement(data: bytes) -> Optional[str]:
    """What two ways to decide say differently of an attribute that is not symbol 0's."""
    scheme = check(data)
    cells = planner.Cells(scheme)
    for attribute, about in enumerate(scheme.attributes):
        if about.symbol == 0:
            continue
        is_cell = cells.is_cell(attribute)
        depth = planner.depth_of_break(scheme, attribute, DEPTH, MOST_MARKS)
        if is_cell != (depth is None):
            return f"attribute {attribute}: a cell is {is_cell}, walks break at depth {depth}"
        is_stack = planner.is_stack(scheme, attribute)
        if is_stack != planner.runs_as_stack(scheme, attribute):
            return f"attribute {attribute}: a stack by its spans is {is_stack}, by its steps {not is_stack}"
    return None


def compare_ways(cases: Iterable[Case], tally: Tally) -> int:
    """Gives how many cases went wrong."""
    mismatches = 0
    for case in cases:
        tally.add(case)
        try:
            found = disagreement(case.data or b"")
        except Refusal as refusal:
            found = refusal.line()
        if found:
            mismatches += 1
            print(f"DISAGREEMENT in {case.name}: {found}")
            print(f"  words:    {in_hex(case.data)}")
            if mismatches == MOST_MISMATCHES:
                break
    return mismatches


# -------------------------------------------------------------------- main


def main() -> int:
    parser = argparse.ArgumentParser(description="Compares a program with the reader and the planner.")
    parser.add_argument("program", nargs="?", help="path of the program")
    parser.add_argument("--self", action="store_true", dest="on_itself", help="run no program")
    parser.add_argument("--seed", type=int, default=DEFAULT_SEED)
    parser.add_argument("--cases", type=int, default=DEFAULT_CASES, help="how many random cases")
    arguments = parser.parse_args()
    if arguments.on_itself == (arguments.program is not None):
        parser.error("give either a program or --self")
    seed = arguments.seed

    groups = {
        "edges": edge_cases(),
        f"random, seed {seed}": made_cases(random_case(seed, n) for n in range(arguments.cases)),
        f"shaped, seed {seed}": made_cases(shaped_cases(seed, SHAPES)),
    }
    total = Tally()
    mismatches = 0
    with tempfile.TemporaryDirectory() as folder:
        if arguments.on_itself:
            answer = reader_answer
        else:
            program = os.path.abspath(arguments.program)
            if not os.access(program, os.X_OK):
                parser.error(f"{arguments.program} cannot be run")

            def answer(data: Optional[bytes]) -> str:
                return program_answer(program, folder, data)

        for title, cases in groups.items():
            if mismatches < MOST_MISMATCHES:
                tally = Tally()
                mismatches += compare(cases, answer, tally)
                tally.report(title)
                total.join(tally)
    small = Tally()
    if arguments.on_itself and mismatches < MOST_MISMATCHES:
        planned = [case for case in edge_cases() if case.line.startswith("plan ") and len(case.data) < 1000]
        mismatches += compare_ways([*planned, *made_cases(shaped_cases(seed, SMALL_SHAPES))], small)
        small.report(f"two ways, seed {seed}")

    if mismatches:
        print(f"not the same: {mismatches} of the cases differ")
        return 1
    rare = [answer for answer in ANSWERS if total.answers[answer] < LEAST_OF_EACH]
    if rare:
        print(f"too few cases that give: {', '.join(rare)}")
        return 1
    if not total.is_mixed() or (arguments.on_itself and not small.is_mixed()):
        print("too few schemes that have some letter")
        return 1
    print(f"the same in all {total.cases()} cases")
    return 0


if __name__ == "__main__":
    sys.exit(main())
