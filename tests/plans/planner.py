"""Plans a scheme: a letter for each attribute, C, S or K.

`judge` takes the bytes of a scheme and gives the line that the program under
test must print: `plan` and the letters, or the refusal.

A life of an attribute goes from the EVAL of an occurrence to its last use.  C
says that in every loose walk from symbol 0 each life of the attribute ends
before the next begins.  S says that in every production the spans of the
attribute at the children open and close like a stack.  K is for all others, and
for the attributes of symbol 0.

C and S are decided in two ways each.  The letters come from the first; the
second is slow and is there to hold the first against it.
"""

from __future__ import annotations

from collections import defaultdict
from typing import NamedTuple

from reader import Eval, Leave, Occurrence, Production, Refusal, Scheme, Visit, check

EMPTY, HELD, BROKEN = "empty", "held", "broken"
BEGIN, END = "begin", "end"
AFTER_BEGIN = {EMPTY: HELD, HELD: BROKEN, BROKEN: BROKEN}
AFTER_END = {EMPTY: BROKEN, HELD: EMPTY, BROKEN: BROKEN}


def sections(production: Production) -> list[int]:
    """The section of each step."""
    found, section = [], 1
    for step in production.steps:
        found.append(section)
        section += isinstance(step, Leave)
    return found


# ------------------------------------------------------ C, by what can come out


class Walk(NamedTuple):
    symbol: int
    section: int


class Mark(NamedTuple):
    attribute: int
    after: dict[str, str]


def parts_of(scheme: Scheme, production: Production) -> list[list[Walk | Mark]]:
    """What a walk meets in each section of a production."""
    attributes = scheme.attributes
    last_use: dict[Occurrence, int] = {}
    for number, step in enumerate(production.steps):
        if isinstance(step, Eval):
            for argument in production.rules[step.rule].arguments:
                last_use[argument] = number
    ended_at = defaultdict(list)
    for occurrence, number in last_use.items():
        ended_at[number].append(occurrence.attribute)

    def unused(position: int, visit: int) -> list[Walk | Mark]:
        own = scheme.symbols[production.symbol_at(position)].attributes
        return [
            Mark(a, AFTER_END)
            for a in own
            if attributes[a].synthesized == (position > 0)
            and attributes[a].visit == visit
            and Occurrence(position, a) not in last_use
        ]

    found: list[list[Walk | Mark]] = [unused(0, 1)]
    for number, step in enumerate(production.steps):
        if isinstance(step, Eval):
            found[-1] += [Mark(a, AFTER_END) for a in ended_at[number]]
            found[-1].append(Mark(production.rules[step.rule].target.attribute, AFTER_BEGIN))
        elif isinstance(step, Visit):
            found[-1].append(Walk(production.symbol_at(step.child), step.visit))
            found[-1] += unused(step.child, step.visit)
        else:
            found.append(unused(0, step.visit + 1))
    return found[:-1]


class Cells:
    """Decides C by a fixpoint: where the walks of a section end, by where they begin."""

    def __init__(self, scheme: Scheme):
        self.sections = [
            (Walk(production.left, number), parts)
            for production in scheme.productions
            for number, parts in enumerate(parts_of(scheme, production), start=1)
        ]
        # The walks that meet a walk, or an attribute's life, at once.
        self.meeting: dict[Walk | int, set[Walk]] = defaultdict(set)
        for walk, parts in self.sections:
            for part in parts:
                self.meeting[part if isinstance(part, Walk) else part.attribute].add(walk)

    def about(self, attribute: int) -> list[tuple[Walk, list[Walk | Mark]]]:
        """The sections with only what can meet a life of the attribute."""
        met = set(self.meeting[attribute])
        to_look_at = list(met)
        while to_look_at:
            new = self.meeting[to_look_at.pop()] - met
            met |= new
            to_look_at += new

        def meets(part: Walk | Mark) -> bool:
            return part in met if isinstance(part, Walk) else part.attribute == attribute

        return [(walk, list(filter(meets, parts))) for walk, parts in self.sections if walk in met]

    def is_cell(self, attribute: int) -> bool:
        """Whether all walks of symbol 0's section 1 go from empty to empty."""
        sections = self.about(attribute)
        ends: dict[tuple[Walk, str], set[str]] = defaultdict(set)
        for walk, _ in sections:
            ends[walk, BROKEN] = {BROKEN}
        start = Walk(0, 1), EMPTY
        grown = True
        while grown and ends[start] <= {EMPTY}:
            grown = False
            for walk, parts in sections:
                for begin in (EMPTY, HELD):
                    states = {begin}
                    for part in parts:
                        if isinstance(part, Walk):
                            states = {end for state in states for end in ends[part, state]}
                        else:
                            states = {part.after[state] for state in states}
                    if not states <= ends[walk, begin]:
                        ends[walk, begin] |= states
                        grown = True
        return ends[start] <= {EMPTY}


# ------------------------------------------------------- C, walk by walk


class TooMany(Exception):
    """There are more walks than may be written out."""


def is_used(production: Production, occurrence: Occurrence, first: int = 0) -> bool:
    """Whether an EVAL uses the occurrence, from a step on."""
    return any(
        occurrence in production.rules[step.rule].arguments
        for step in production.steps[first:]
        if isinstance(step, Eval)
    )


class WrittenWalks:
    """The loose walks up to a depth, each as the begins and ends of one attribute."""

    def __init__(self, scheme: Scheme, attribute: int, most: int):
        self.scheme = scheme
        self.attribute = attribute
        self.most = most
        self.known: dict[tuple[int, int, int], set[tuple[str, ...]]] = {}

    def of(self, symbol: int, section: int, depth: int) -> set[tuple[str, ...]]:
        key = symbol, section, depth
        if key not in self.known:
            self.known[key] = {
                walk
                for production in self.scheme.productions
                if production.left == symbol and depth > 0
                for walk in self.of_production(production, section, depth)
            }
        return self.known[key]

    def of_production(self, production: Production, section: int, depth: int) -> set[tuple[str, ...]]:
        a = self.attribute
        visit, symbol = self.scheme.attributes[a].visit, self.scheme.attributes[a].symbol
        synthesized = self.scheme.attributes[a].synthesized
        walks: set[tuple[str, ...]] = {()}

        def go_on(*continuations: tuple[str, ...]) -> None:
            nonlocal walks
            walks = {walk + more for walk in walks for more in continuations}
            if sum(map(len, walks)) > self.most:
                raise TooMany

        if not synthesized and symbol == production.left and visit == section:
            if not is_used(production, Occurrence(0, a)):
                go_on((END,))
        for number, step in enumerate(production.steps):
            if 1 + sum(isinstance(s, Leave) for s in production.steps[:number]) != section:
                continue
            if isinstance(step, Eval):
                rule = production.rules[step.rule]
                for argument in set(rule.arguments):
                    if argument.attribute == a and not is_used(production, argument, number + 1):
                        go_on((END,))
                if rule.target.attribute == a:
                    go_on((BEGIN,))
            elif isinstance(step, Visit):
                child = production.symbol_at(step.child)
                go_on(*self.of(child, step.visit, depth - 1))
                if synthesized and symbol == child and visit == step.visit:
                    if not is_used(production, Occurrence(step.child, a)):
                        go_on((END,))
        return walks


def is_sound(walk: tuple[str, ...]) -> bool:
    """Begins and ends come by turns, from a begin to an end."""
    return walk == (BEGIN, END) * (len(walk) // 2)


def depth_of_break(scheme: Scheme, attribute: int, depth: int, most: int) -> int | None:
    """The least depth at which a walk of symbol 0 breaks or ends held; None if none is found."""
    walks = WrittenWalks(scheme, attribute, most)
    for d in range(1, depth + 1):
        try:
            if not all(map(is_sound, walks.of(0, 1, d))):
                return d
        except TooMany:
            return None
    return None


# ------------------------------------------------------------------- S


class Span(NamedTuple):
    child: int
    opens: int
    closes: int


def before_visit(step: int) -> int:
    return 3 * step


def closing_at(step: int) -> int:
    return 3 * step + 1


def opening_at_eval(step: int) -> int:
    return 3 * step + 2


def farthest_section(scheme: Scheme, attribute: int) -> int:
    """The last section that uses an inherited attribute, or the first that evaluates a synthesized one."""
    about = scheme.attributes[attribute]
    here = Occurrence(0, attribute)
    found = []
    for production in scheme.productions:
        if production.left == about.symbol:
            for step, section in zip(production.steps, sections(production)):
                if isinstance(step, Eval):
                    rule = production.rules[step.rule]
                    if here == rule.target or here in rule.arguments:
                        found.append(section)
    return min(found) if about.synthesized else max(found, default=about.visit)


def spans(scheme: Scheme, production: Production, attribute: int, farthest: int) -> list[Span]:
    """The spans of the attribute at the children, in the order of opening."""
    about = scheme.attributes[attribute]
    evals = [(n, production.rules[s.rule]) for n, s in enumerate(production.steps) if isinstance(s, Eval)]
    found = []
    for child, symbol in enumerate(production.children, start=1):
        if symbol != about.symbol:
            continue
        here = Occurrence(child, attribute)

        def visited(visit: int) -> int:
            return production.steps.index(Visit(child, visit))

        if about.synthesized:
            uses = [number for number, rule in evals if here in rule.arguments]
            opens = before_visit(visited(farthest))
            closes = closing_at(max(uses, default=visited(about.visit)))
        else:
            (evaluated,) = [number for number, rule in evals if here == rule.target]
            opens = opening_at_eval(evaluated)
            closes = closing_at(visited(farthest))
        found.append(Span(child, opens, closes))
    return sorted(found, key=lambda span: span.opens)


def stacks_in(production: Production, spans: list[Span]) -> bool:
    section = sections(production)
    for number, span in enumerate(spans):
        later = spans[number + 1 :]
        if section[span.opens // 3] != section[span.closes // 3]:
            return False
        if any(other.opens < span.closes < other.closes for other in later):
            return False
        for t, step in enumerate(production.steps):
            if isinstance(step, Visit) and step.child == span.child and span.opens <= 3 * t < span.closes:
                if any(other.opens <= 3 * t < other.closes for other in later):
                    return False
    return True


def is_stack(scheme: Scheme, attribute: int) -> bool:
    farthest = farthest_section(scheme, attribute)
    return all(stacks_in(p, spans(scheme, p, attribute, farthest)) for p in scheme.productions)


# --------------------------------------------------------- S, step by step


def runs_as_stack(scheme: Scheme, attribute: int) -> bool:
    """Goes through every production with the children whose spans are open, the newest last."""
    about = scheme.attributes[attribute]
    farthest = about.visit
    for production in scheme.productions:
        section = 1
        for step in production.steps:
            if isinstance(step, Leave):
                section += 1
            elif isinstance(step, Eval):
                rule = production.rules[step.rule]
                if rule.target == Occurrence(0, attribute):
                    farthest = min(farthest, section)
                if Occurrence(0, attribute) in rule.arguments:
                    farthest = max(farthest, section)

    for production in scheme.productions:
        are_open: list[int] = []
        for number, step in enumerate(production.steps):
            closing: set[int] = set()
            if isinstance(step, Leave):
                if are_open:
                    return False
            elif isinstance(step, Eval):
                rule = production.rules[step.rule]
                closing = {
                    o.position
                    for o in rule.arguments
                    if o.attribute == attribute and o.position > 0 and not is_used(production, o, number + 1)
                }
            elif production.symbol_at(step.child) == about.symbol:
                child = step.child
                if about.synthesized and step.visit == farthest:
                    are_open.append(child)
                if child in are_open[:-1]:
                    return False
                if about.synthesized:
                    if step.visit == about.visit and not is_used(production, Occurrence(child, attribute)):
                        closing = {child}
                elif step.visit == farthest:
                    closing = {child}
            for _ in range(len(closing)):
                if are_open.pop() not in closing:
                    return False
            if isinstance(step, Eval) and rule.target.attribute == attribute and rule.target.position > 0:
                are_open.append(rule.target.position)
    return True


# --------------------------------------------------------------- letters


def letters(scheme: Scheme) -> str:
    cells = Cells(scheme)
    found = ""
    for attribute, about in enumerate(scheme.attributes):
        if about.symbol == 0:
            found += "K"
        elif cells.is_cell(attribute):
            found += "C"
        elif is_stack(scheme, attribute):
            found += "S"
        else:
            found += "K"
    return found


def judge(data: bytes) -> str:
    """The line for a scheme of these bytes (no file is the same as no bytes)."""
    try:
        return "plan " + letters(check(data))
    except Refusal as refusal:
        return refusal.line()
