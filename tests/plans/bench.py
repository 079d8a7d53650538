"""How long the program takes to open and plan a full scheme, beside one that it refuses at once.

    bench.py PROGRAM [--runs N]

Each figure is the median over the runs of the program, its start included; what
opening and planning cost is the difference.  The full scheme has 4,096 words and is lawful.
Beside it stands what the analyses of alternation come to: how many there are, the events of the
tape that each plays three times a round, and their rounds, counted as the program goes.
"""

from __future__ import annotations

import argparse
import os
import statistics
import subprocess
import sys
import tempfile
import time
from collections import defaultdict

# the reader and the maker of schemes stand one folder up; what stands here under the same name comes first
sys.path.append(os.path.dirname(os.path.dirname(os.path.abspath(__file__))))

from edges import HOUSE, tokens_to_bytes
from planner import BROKEN, EMPTY, HELD, Walk, parts_of
from reader import Production, Scheme, check
from schemes import full, to_bytes


def median_ms(program: str, folder: str, runs: int) -> float:
    spent = []
    for _ in range(runs):
        start = time.perf_counter()
        subprocess.run([program], cwd=folder, stdout=subprocess.DEVNULL, check=True)
        spent.append(time.perf_counter() - start)
    return statistics.median(spent) * 1000


def rounds_of(sections: list, attribute: int) -> int:
    """The rounds over the sections until one adds nothing, or the lives do not alternate."""
    ends: dict = defaultdict(set)
    rounds, grown = 0, True
    while grown and ends[Walk(0, 1), EMPTY] <= {EMPTY}:
        rounds, grown = rounds + 1, False
        for begin in (EMPTY, HELD, BROKEN):
            for walk, parts in sections:
                states = {begin}
                for part in parts:
                    if isinstance(part, Walk):
                        states = {end for state in states for end in ends[part, state]}
                    elif part.attribute == attribute:
                        states = {part.after[state] for state in states}
                grown |= not states <= ends[walk, begin]
                ends[walk, begin] |= states
    return rounds


def sections_of(scheme: Scheme, production: Production) -> list:
    return [(Walk(production.left, n), parts) for n, parts in enumerate(parts_of(scheme, production), start=1)]


def analyses(data: bytes) -> str:
    scheme = check(data)
    sections = [section for production in scheme.productions for section in sections_of(scheme, production)]
    events = len(scheme.productions) + sum(len(parts) + 1 for _, parts in sections)
    rounds = [rounds_of(sections, a) for a, about in enumerate(scheme.attributes) if about.symbol != 0]
    return f"{len(rounds)} analyses of {events} events, {min(rounds)} to {max(rounds)} rounds, {sum(rounds)} in all"


def main() -> None:
    parser = argparse.ArgumentParser(description="Times the program on a full scheme.")
    parser.add_argument("program")
    parser.add_argument("--runs", type=int, default=200)
    arguments = parser.parse_args()
    program = os.path.abspath(arguments.program)
    inputs = {"no file": None, "house, 30 words": tokens_to_bytes(HOUSE), "full, 4,096 words": to_bytes(full().words())}
    for name, data in inputs.items():
        with tempfile.TemporaryDirectory() as folder:
            if data is not None:
                with open(os.path.join(folder, "scheme"), "wb") as file:
                    file.write(data)
            print(f"{name}: {median_ms(program, folder, arguments.runs):.2f} ms")
        if data is not None:
            print(f"  {analyses(data)}")


if __name__ == "__main__":
    main()
