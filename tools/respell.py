#!/usr/bin/env python3
"""Gives this repository's own definitions and lemmas the spelling of today's Rattle: types in camel case, all else in snake case.

usage: python3 tools/respell.py, once, at the top of the repository, after /opt/rattle/port/port.py

The names stand in tools/spelling.tsv, old, a tab, new. A dash stays where it joins the names of two functions, or a type to a word.
The kit's snake.py turns whole words of .antt files and of the clauses of .rt files, and leaves functions, strings and must-fail edits as they are.
"""

import pathlib
import subprocess
import sys

HERE = pathlib.Path(__file__).resolve().parent
SNAKE = "/opt/rattle/port/notes/2026-11-18-names-are-in-snake-case/snake.py"

crates = sorted(str(d) for d in pathlib.Path("crates").iterdir() if d.is_dir())
folders = [f"{c}/{part}" for c in crates for part in ("src", "specs", "proofs") if pathlib.Path(c, part).is_dir()]
sys.exit(subprocess.run([sys.executable, SNAKE, "--table", str(HERE / "spelling.tsv"), *folders]).returncode)
