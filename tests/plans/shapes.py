"""Makes lawful schemes of several shapes from seeds, for plans.

A shape says how many symbols, visits, children and attributes there are.  In
each production the VISITs and LEAVEs are chosen one by one; what one of them
needs is evaluated at the latest right before it, other rules at times earlier.
A rule's arguments are chosen where it is evaluated, out of what is known there.
"""

from __future__ import annotations

from dataclasses import dataclass
from random import Random
from typing import Iterator

from schemes import MAX_WORDS, Attr, Eval, Leave, Place, Prod, Rule, Sym, Visit, to_bytes
from schemes import Plan as Sketch
from sketches import RandomCase


@dataclass(frozen=True)
class Shape:
    symbols: tuple[int, int]
    visits: tuple[int, int]
    attributes: tuple[int, int]  # of one symbol
    children: tuple[int, int]  # of a production that is not a leaf
    branches: tuple[int, int]  # such productions of one symbol
    same: float  # how often a child is the left symbol again


# How many schemes of each shape there are, and the shape.
SHAPES = {
    "chain": (150, Shape((2, 4), (1, 3), (1, 3), (1, 1), (1, 2), 0.5)),
    "fork": (200, Shape((2, 3), (1, 2), (1, 3), (2, 3), (1, 2), 0.7)),
    "visits": (200, Shape((2, 3), (2, 4), (2, 5), (1, 2), (1, 2), 0.5)),
    "wide": (100, Shape((2, 5), (1, 3), (1, 3), (3, 6), (1, 2), 0.4)),
    "deep": (100, Shape((6, 14), (1, 2), (1, 3), (1, 2), (1, 2), 0.1)),
    "large": (12, Shape((20, 32), (1, 4), (2, 6), (1, 6), (1, 1), 0.3)),
    "fullest": (3, Shape((21, 21), (3, 4), (6, 8), (4, 6), (2, 2), 0.3)),
}
# Small enough to write out their walks.
SMALL_SHAPES = {
    "small chain": (150, Shape((2, 3), (1, 2), (1, 2), (1, 1), (1, 1), 0.5)),
    "small fork": (200, Shape((2, 3), (1, 2), (1, 2), (1, 2), (1, 1), 0.6)),
    "small visits": (200, Shape((2, 2), (2, 3), (1, 2), (1, 2), (1, 1), 0.5)),
}


def within(rng: Random, bounds: tuple[int, int]) -> int:
    return rng.randint(*bounds)


def make_syms(rng: Random, shape: Shape) -> list[Sym]:
    likes_synthesized = rng.choice([0.3, 0.5, 0.7])
    syms = [Sym(1, [Attr(True, 1) for _ in range(rng.choice([0, 1, 1, 2]))])]
    room = 128 - len(syms[0].attrs)
    for _ in range(within(rng, shape.symbols) - 1):
        sym = Sym(within(rng, shape.visits))
        for _ in range(min(room, within(rng, shape.attributes))):
            sym.attrs.append(Attr(rng.random() < likes_synthesized, rng.randint(1, sym.visits)))
            room -= 1
        syms.append(sym)
    return syms


def make_prods(rng: Random, shape: Shape, syms: list[Sym]) -> list[Prod]:
    """Every symbol but the first has a leaf, and every one but the last the next as a child."""
    prods = []
    for number, sym in enumerate(syms):
        near = syms[max(1, number - 1) : number + 2]
        for branch in range(within(rng, shape.branches)):
            prod = Prod(sym, syms[number + 1 : number + 2] if branch == 0 else [])
            for _ in range(within(rng, shape.children) - len(prod.children)):
                prod.children.append(sym if number and rng.random() < shape.same else rng.choice(near))
                if len(prod.places(defined=True)) > 32:
                    prod.children.pop()
            rng.shuffle(prod.children)
            prods.append(prod)
        if number > 0:
            prods.append(Prod(sym))
    for _ in range(min(rng.choice([0, 0, 1, 2]), 64 - len(prods))):
        prods.append(Prod(rng.choice(syms)))
    rng.shuffle(prods)
    return prods


def add_rules_and_steps(rng: Random, prod: Prod) -> None:
    to_do = [Rule(place) for place in prod.places(defined=True)]
    prod.rules = rng.sample(to_do, len(to_do))
    order = rng.choice(["child by child", "visit by visit", "any"])
    early = rng.choice([0, 0, 0, 0.1, 0.4])
    leaving = rng.choice([0.05, 0.3, 0.8])
    counts = rng.choice([[0, 1, 1], [0, 1, 2, 3], [1, 2, 3], [3]])
    once = rng.choice([0, 0.5, 0.9, 1])  # how often only what is not yet used is taken
    used = prod.places(defined=False)
    known: list[Place] = []
    fresh: list[Place] = []

    def learn(position: int, visit: int) -> None:
        new = [p for p in used if p.position == position and p.attr.visit == visit]
        known.extend(new)
        fresh.extend(new)

    def evaluate(rule: Rule) -> None:
        to_do.remove(rule)
        for _ in range(rng.choice(counts)):
            choices = fresh if rng.random() < once else known
            if choices:
                rule.arguments.append(rng.choice(choices[-4:]))
        for place in set(rule.arguments) & set(fresh):
            fresh.remove(place)
        if len(rule.arguments) != 1 or rng.random() < 0.5:
            rule.number = rng.randint(1, 255)
        prod.steps.append(Eval(rule))

    def prepare(position: int, visit: int) -> None:
        for rule in rng.sample(to_do, len(to_do)):
            is_needed = rule.target.position == position and rule.target.attr.visit == visit
            if is_needed or rng.random() < early:
                evaluate(rule)

    left = {child: list(range(1, sym.visits + 1)) for child, sym in enumerate(prod.children, 1)}
    section = 1
    learn(0, 1)
    while section <= prod.left.visits:
        children = [child for child, visits in left.items() if visits]
        if not children or (section < prod.left.visits and rng.random() < leaving):
            prepare(0, section)
            prod.steps.append(Leave(section))
            section += 1
            learn(0, section)
            continue
        if order == "child by child":
            child = children[0]
        elif order == "visit by visit":
            child = min(children, key=lambda c: left[c][0])
        else:
            child = rng.choice(children)
        visit = left[child].pop(0)
        prepare(child, visit)
        prod.steps.append(Visit(child, visit))
        learn(child, visit)


def shaped(rng: Random, shape: Shape) -> Sketch:
    while True:
        sketch = Sketch(make_syms(rng, shape))
        sketch.prods = make_prods(rng, shape, sketch.syms)
        for prod in sketch.prods:
            add_rules_and_steps(rng, prod)
        if len(sketch.words()) <= MAX_WORDS:
            return sketch


def shaped_cases(seed: int, shapes: dict[str, tuple[int, Shape]]) -> Iterator[RandomCase]:
    for name, (count, shape) in shapes.items():
        for number in range(count):
            title = f"{name} {seed}/{number}"
            sketch = shaped(Random(title), shape)
            yield RandomCase(title, to_bytes(sketch.words()), sketch)
