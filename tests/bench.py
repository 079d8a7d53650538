"""How long the program takes to open a full scheme, beside one that it refuses at once.

    bench.py PROGRAM [--runs N]

Each figure is the median over the runs of the program, its start included; what
opening costs is the difference.  The full scheme has 4,096 words and is lawful.
"""

from __future__ import annotations

import argparse
import os
import statistics
import subprocess
import tempfile
import time

from edges import HOUSE, tokens_to_bytes
from schemes import full, to_bytes


def median_ms(program: str, folder: str, runs: int) -> float:
    spent = []
    for _ in range(runs):
        start = time.perf_counter()
        subprocess.run([program], cwd=folder, stdout=subprocess.DEVNULL, check=True)
        spent.append(time.perf_counter() - start)
    return statistics.median(spent) * 1000


def main() -> None:
    parser = argparse.ArgumentParser(description="Times the program on a full scheme.")
    parser.add_argument("program")
    parser.add_argument("--runs", type=int, default=200)
    arguments = parser.parse_args()
    program = os.path.abspath(arguments.program)
    inputs = {"no file": None, "house, 30 words": tokens_to_bytes(HOUSE), "full, 4,096 words": to_bytes(full().words())}
    for name, data in inputs.items():
        with tempfile.TemporaryDirectory() as folder:
            if data is not None:
                with open(os.path.join(folder, "scheme"), "wb") as file:
                    file.write(data)
            print(f"{name}: {median_ms(program, folder, arguments.runs):.2f} ms")


if __name__ == "__main__":
    main()
