#!/usr/bin/env python3
"""Counts the places in crates/*/src of which docs/DESIGN-PASS.md speaks: places.py [--list] [FOLDER].

Each rule is a pattern over the lines of the source, or over the signatures of its functions. A count says where to look; what stays has its reason beside it."""
import re
import sys
from collections import Counter
from pathlib import Path

LINES = [
    (1, "a number for a kind of word", r">> 28|\ballows\(\d+\)|\bkind == \d+|kind word ≡ \d+"),
    (1, "a flag that is handed on", r"\b(changed|before|found): bool\b"),
    (1, "a field that is a flag", r"^    pub \w+: bool,"),
    (3, "a loop over numbers", r"\bfor \w+ in [^{]*\.\."),
    (3, "a loop that gathers a test or a count", r"[|&]= |\+= usize::from|\bn \+= "),
    (3, "a loop that cuts or counts by hand", r"\bwhile let\b"),
    (4, "a test written as a match", r"=> (true|false),"),
    (4, "a look-up with its own test of the length", r"\bif \w+( - 1)? < [\w.]+\.len\(\)"),
    (4, "a match whose None only stands for nothing", r"\bNone => (true|false|None|0|Ok\()"),
    (4, "equality, conversion or printing by a method of its own", r"\bfn (same_as|number|mark|counts_of|side|is_of|is_member|is_inherited)\("),
    (6, "a place computed by hand in a row of rows", r"\* (54|9|6|3) \+|\+ section\) \* 9|OUTCOMES \*|\* 3 \+ to"),
    (6, "rows that run side by side", r"\b(letters|sections): (Vec<|&\[)"),
    (7, "a switch on which step to run", r"\b(Spread|Change)::\w+ =>"),
]
PAIRS = [
    ("the grammar and the production", [r"\bg: &Grammar", r"\bp: &Production"]),
    ("the number, the attribute and its sections", [r"\ba: usize", r"\bb: Attribute"]),
    ("the table and its symbols", [r"\btable: &", r"\bsymbols?: usize"]),
    ("the lives and the flags", [r"\blives: &mut", r"\bflags: &mut"]),
    ("the sections and what else the tables need", [r"\bsections: &\[", r"\b(held|letters): &\["]),
    ("a step and its place", [r"\bp: &Production", r"\bt: usize"]),
]


def code(text):
    """The lines without comments."""
    return [line for line in text.splitlines() if not line.lstrip().startswith("//")]


def signatures(text):
    return re.findall(r"\bfn \w+(?:<[^>]*>)?\((.*?)\)\s*(?:->[^{]*?)?\n? *(?:requires|ensures|\{)", "\n".join(code(text)), re.S)


def main():
    args = [a for a in sys.argv[1:] if a != "--list"]
    listing = "--list" in sys.argv
    root = Path(args[0] if args else ".")
    files = sorted(root.glob("crates/*/src/**/*.rt"))
    texts = {f: f.read_text() for f in files}
    for point, name, pattern in LINES:
        hits = [(f, line.strip()) for f in files for line in code(texts[f]) if re.search(pattern, line)]
        print(f"{point}  {len(hits):4}  {name}")
        if listing:
            for f, line in hits:
                print(f"           {f.relative_to(root)}: {line}")
    clauses = Counter()
    for f in files:
        for clause in re.findall(r"requires(?: \w+)? \{(.*)\}", "\n".join(code(texts[f]))):
            clauses[clause.strip()] += 1
    often = [(n, c) for c, n in clauses.most_common() if n >= 3]
    print(f"5  {len(often):4}  a fact in three contracts or more, {sum(n for n, _ in often)} contracts")
    if listing:
        for n, c in often:
            print(f"           {n} times: {c}")
    for name, wanted in PAIRS:
        n = sum(all(re.search(w, s) for w in wanted) for t in texts.values() for s in signatures(t))
        print(f"5  {n:4}  functions that take {name}")
    proofs = [line for f in root.glob("crates/*/proofs/**/*.antt") for line in f.read_text().splitlines()]
    answers = list(root.glob("crates/*/proofs/**/Answers.antt"))
    print(f"8  {len(proofs):4}  lines of proofs; {len(answers)} functions with answers")


main()
