"""Schemes built by hand, each with its plan, worked out from the rules.

A scheme is written as `1 s1, 2 i1 s2; 0>1: .. ; 1>11: .. ; 1>: ..`: the symbols
with their visits and attributes (side and visit), then the productions with
left symbol, children and steps.  Attributes are called a, b, c .. through the
scheme, `2b` is attribute b at position 2.  `V21` is VISIT 2 1, `L1` is LEAVE 1,
and `0a=1b2b` the EVAL of a rule for 0a with the arguments 1b and 2b.
"""

from __future__ import annotations

from schemes import Attr, Eval, Leave, Place, Prod, Rule, Sym, Visit
from schemes import Plan as Sketch


def written(text: str) -> Sketch:
    head, *prods = text.split(";")
    sketch = Sketch()
    attrs: list[Attr] = []
    for sym in head.split(","):
        visits, *own = sym.split()
        new = [Attr(side == "s", int(visit)) for side, visit in own]
        sketch.syms.append(Sym(int(visits), new))
        attrs += new

    def places(pairs: str) -> list[Place]:
        return [Place(int(p), attrs[ord(a) - ord("a")]) for p, a in zip(pairs[::2], pairs[1::2])]

    for text in prods:
        symbols, steps = text.split(":")
        left, children = symbols.split(">")
        prod = Prod(sketch.syms[int(left)], [sketch.syms[int(c)] for c in children.strip()])
        for step in steps.split():
            if step[0] == "V":
                prod.steps.append(Visit(int(step[1]), int(step[2])))
            elif step[0] == "L":
                prod.steps.append(Leave(int(step[1])))
            else:
                target, arguments = map(places, step.split("="))
                # Rule number 0 copies its one argument.
                prod.rules.append(Rule(target[0], arguments, 0 if len(arguments) == 1 else 2))
                prod.steps.append(Eval(prod.rules[-1]))
        sketch.prods.append(prod)
    return sketch


# Title, scheme, letters, and why.
PLANS: list[tuple[str, str, str, str]] = [
    # ---- lives
    ("handed down", "1, 1 i1; 0>1: 1a= V11 L1; 1>1: 1a=0a V11 L1; 1>: L1", "C",
     "an EVAL ends its argument before its target begins; the leaf ends it unused"),
    ("handed up", "1 s1, 1 s1; 0>1: V11 0a=1b L1; 1>1: V11 0b=1b L1; 1>: 0b= L1", "KC",
     "the same from below; symbol 0's is K"),
    ("handed down and used later", "1, 1 i1 s1; 0>1: 1a= V11 L1; 1>1: 1a=0a V11 0b=0a L1; 1>: 0b= L1", "SC",
     "the child's a begins while the node's own is to be used again; b ends unused after V11"),
    ("used only after the child's begins", "1, 1 i1 s1; 0>1: 1a= V11 L1; 1>1: 1a= V11 0b=0a L1; 1>: 0b= L1", "SC",
     "the node's own a still lives where the child's begins"),
    ("used before the child's begins", "1, 1 i1 s1; 0>1: 1a= V11 L1; 1>1: 0b=0a 1a= V11 L1; 1>: 0b= L1", "CS",
     "a ends in time; the node's b lives while the child's begins"),
    ("handed up and used later", "1, 1 s1 s1; 0>1: V11 L1; 1>1: V11 0a=1a 0b=1a L1; 1>: 0a= 0b= L1", "SC",
     "the child's a lives on where the node's begins; b is unused and ends after V11"),
    ("handed up at its last use", "1, 1 s1 s1; 0>1: V11 L1; 1>1: V11 0b=1a 0a=1a L1; 1>: 0a= 0b= L1", "CC",
     "only the last of two uses ends a life"),
    ("used once in a later section", "1, 2 i1 s2; 0>1: 1a= V11 V12 L1; 1>: L1 0b=0a L2", "CC",
     "a lives from before V11 into section 2"),
    # ---- a life that nothing uses
    ("inherited and never used", "1, 1 i1; 0>1: 1a= V11 L1; 1>1: 1a= V11 L1; 1>: L1", "C",
     "an unused a ends before all steps of its section"),
    ("inherited, unused, of visit 2", "1, 2 i2; 0>1: 1a= V11 V12 L1; 1>1: V11 L1 1a= V12 L2; 1>: L1 L2", "C",
     "it ends at the start of section 2, before the child's begins there"),
    ("inherited, unused, of visit 2, child's early", "1, 2 i2; 0>1: V11 1a= V12 L1; 1>1: 1a= V11 L1 V12 L2; 1>: L1 L2", "K",
     "begun in section 1 and again before V12; the span crosses the sections"),
    ("inherited, unused in one leaf", "1, 1 i1 s1; 0>1: 1a= V11 L1; 1>1: 1a=0a V11 0b=1b L1; 1>: 0b= L1; 1>: 0b=0a L1", "CC",
     "one leaf ends it at its start, the other by its use"),
    ("inherited, unused beside a child", "1, 1 i1, 1; 0>1: 1a= V11 L1; 1>2: V11 L1; 2>1: 1a= V11 L1; 2>: L1", "C",
     "it ends before V11, below which the next begins"),
    ("inherited, used behind a child", "1, 1 i1 s1, 1; 0>1: 1a= V11 L1; 1>2: V11 0b=0a L1; 2>1: 1a= V11 L1; 2>: L1", "SC",
     "the use after V11 keeps it alive while the next begins below; b ends unused"),
    ("synthesized and never used", "1, 1 s1; 0>11: V11 V21 L1; 1>: 0a= L1", "C",
     "an unused a ends right after its VISIT, before the next begins"),
    ("synthesized, the first of two used", "1 s1, 1 s1; 0>11: V11 V21 0a=1b L1; 1>: 0b= L1", "KS",
     "child 1's lives over V21; child 2's closes right after V21, inside"),
    ("synthesized, the second of two used", "1 s1, 1 s1; 0>11: V11 V21 0a=2b L1; 1>: 0b= L1", "KC",
     "child 1's ends right after V11"),
    ("synthesized of visit 2, unused, by turns of child", "1, 2 s2; 0>11: V11 V12 V21 V22 L1; 1>: 0a= L1 L2", "C",
     "evaluated in section 1, it ends after V12 and not before V21 is it begun again"),
    ("synthesized of visit 2, unused, crossing", "1, 2 s2; 0>11: V11 V21 V12 V22 L1; 1>: 0a= L1 L2", "K",
     "spans V11-V12 and V21-V22: the later opened closes later"),
    ("synthesized of visit 2, unused, nested", "1, 2 s2; 0>11: V11 V21 V22 V12 L1; 1>: 0a= L1 L2", "S",
     "V21-V22 lies in V11-V12 and is closed at V12"),
    ("synthesized of visit 1, unused, crossing", "1, 2 s1; 0>11: V11 V21 V12 V22 L1; 1>: 0a= L1 L2", "C",
     "it ends after V11, not after V12"),
    # ---- an argument listed twice
    ("argument twice", "1 s1, 1 s1; 0>1: V11 0a=1b1b L1; 1>: 0b= L1", "KC", "it ends once"),
    ("argument three times, inherited", "1, 1 i1 s1; 0>1: 1a= V11 L1; 1>1: 1a=0a0a0a V11 0b=1b1b L1; 1>: 0b=0a0a L1", "CC",
     "each ends once"),
    ("argument twice and used later", "1 s1 s1, 1 s1; 0>1: V11 0a=1c1c 0b=1c L1; 1>: 0c= L1", "KKC", "it ends at the later EVAL only"),
    ("one attribute at two children", "1 s1, 1 s1; 0>11: V11 V21 0a=1b2b1b L1; 1>: 0b= L1", "KS",
     "two occurrences are two lives"),
    # ---- loose walks
    ("leaves that end it in different sections", "1, 2 i1 s2; 0>1: 1a= V11 V12 L1; 1>: 0b=0a L1 L2; 1>: L1 0b=0a L2", "SS",
     "visit 1 of one leaf and visit 2 of the other: a ends twice or never, b begins twice or never"),
    ("leaves that begin it in different sections", "1, 2 s2; 0>1: V11 V12 L1; 1>: 0a= L1 L2; 1>: L1 0a= L2", "S",
     "visits of different leaves begin it twice or never"),
    ("leaves that begin it in the same section", "1, 2 s2; 0>1: V11 V12 L1; 1>: 0a= L1 L2; 1>: 0a= L1 L2", "C",
     "every walk begins it at V11 and ends it after V12"),
    ("begun early through a chain", "1, 2 s2; 0>1: V11 V12 L1; 1>1: V11 L1 V12 0a=1a L2; 1>: 0a= L1 L2", "C",
     "every walk of visit 1 begins it, every walk of visit 2 hands it on"),
    ("handed on in one production, begun anew in another", "1, 2 s2; 0>1: V11 V12 L1; 1>1: V11 L1 V12 0a=1a L2; 1>: 0a= L1 L2; 1>: L1 0a= L2", "K",
     "the second leaf breaks it; with V11 opening the span crosses the sections"),
    ("break three symbols down", "1, 1, 1, 1 s1; 0>1: V11 L1; 1>2: V11 L1; 1>: L1; 2>3: V11 L1; 3>33: V11 V21 0a=1a2a L1; 3>: 0a= L1", "S",
     "only a walk down to two children of symbol 3 has two lives"),
    ("held over a visit to another symbol", "1 s1, 1 s1, 1; 0>12: V11 V21 0a=1b L1; 1>: 0b= L1; 2>: L1; 2>1: V11 L1", "KS",
     "below V21 b begins again while child 1's lives"),
    ("held over a visit that cannot meet it", "1 s1, 1 s1, 1; 0>12: V11 V21 0a=1b L1; 1>: 0b= L1; 2>: L1; 2>2: V11 L1", "KC",
     "nothing below V21 begins b"),
    ("ended before the visit to another symbol", "1 s1, 1 s1, 1; 0>12: V11 0a=1b V21 L1; 1>: 0b= L1; 2>: L1; 2>1: V11 L1", "KC",
     "b has ended where it begins again below V21"),
    ("mutual recursion", "1 s1, 1 i1 s1, 1 i1 s1; 0>1: 1b= V11 0a=1c L1; 1>2: 1d=0b V11 0c=1e L1; 2>1: 1b=0d V11 0e=1c L1; 2>: 0e=0d L1", "KCCCC",
     "everything is handed straight on"),
    ("mutual recursion with a late use", "1 s1, 1 i1 s1, 1 i1 s1; 0>1: 1b= V11 0a=1c L1; 1>2: 1d=0b V11 0c=1e L1; 2>1: 1b=0d V11 0e=1c0d L1; 2>: 0e=0d L1", "KCCSC",
     "d is used after V11, below which it begins again"),
    # ---- inherited, two children
    ("fork, each handed down at its visit", "1, 1 i1; 0>1: 1a= V11 L1; 1>11: 1a=0a V11 2a= V21 L1; 1>: L1", "C",
     "child 1's has ended before child 2's begins"),
    ("fork, both from the node, each at its visit", "1, 1 i1; 0>1: 1a= V11 L1; 1>11: 1a=0a V11 2a=0a V21 L1; 1>: L1", "S",
     "the node's own lives on; the spans are disjoint: closed by V11, opened by the EVAL right after it"),
    ("fork, both before both visits", "1, 1 i1; 0>1: 1a= V11 L1; 1>11: 1a=0a 2a=0a V11 V21 L1; 1>: L1", "K",
     "child 2's opens later and closes later"),
    ("fork, both before both visits, visited backwards", "1, 1 i1; 0>1: 1a= V11 L1; 1>11: 1a=0a 2a=0a V21 V11 L1; 1>: L1", "S",
     "child 2's lies in child 1's"),
    ("fork, evaluated and visited backwards", "1, 1 i1; 0>1: 1a= V11 L1; 1>11: 2a=0a 1a=0a V21 V11 L1; 1>: L1", "K",
     "child 1's opens later and closes later"),
    ("three children, the middle one crossing", "1, 1 i1; 0>111: 1a= 2a= 3a= V31 V11 V21 L1; 1>: L1", "K",
     "child 2's opens after child 1's and closes after it"),
    ("three children nested", "1, 1 i1; 0>111: 1a= 2a= 3a= V31 V21 V11 L1; 1>: L1", "S", "each closes before the one opened before it"),
    ("three children, two inside one after the other", "1, 1 i1; 0>111: 1a= 2a= V21 3a= V31 V11 L1; 1>: L1", "S",
     "children 2 and 3 are disjoint and lie in child 1's"),
    # ---- S, a span in one section
    ("inherited across a LEAVE", "1, 2 i2; 0>1: 1a= V11 V12 L1; 1>1: 1a= V11 L1 V12 L2; 1>: L1 L2", "K",
     "opens in section 1, closes by V12 in section 2"),
    ("inherited right after a LEAVE", "1, 2 i2 s2; 0>1: 1a= V11 V12 L1; 1>1: V11 L1 1a= V12 0b=0a L2; 1>: L1 0b= L2", "SC",
     "opened and closed in section 2; the node's own lives on"),
    ("inherited right before a LEAVE", "1, 2 i2 s2; 0>1: 1a= V11 V12 L1; 1>1: V11 1a= L1 V12 0b=0a L2; 1>: L1 0b= L2", "KC",
     "the EVAL before the LEAVE opens it in section 1"),
    ("inherited closed right before a LEAVE", "1, 2 i1 s1; 0>1: 1a= V11 V12 L1; 1>1: 1a= V11 0b=0a L1 V12 L2; 1>: 0b= L1 L2", "SC",
     "V11 closes it in section 1, as no section 2 uses it"),
    ("inherited used in section 2 of a leaf", "1, 2 i1 s2; 0>1: 1a= V11 V12 L1; 1>1: 1a=0a V11 L1 V12 0b=1b L2; 1>: L1 0b=0a L2", "CC",
     "every visit 1 leaves a held and every visit 2 ends it"),
    ("inherited used in both sections", "1, 2 i1 s2; 0>1: 1a= V11 V12 L1; 1>1: 1a=0a V11 L1 V12 0b=0a L2; 1>: L1 0b=0a L2", "KC",
     "two lives at once; it closes by V12, in section 2"),
    ("synthesized across a LEAVE", "1, 2 s1 s2; 0>1: V11 V12 L1; 1>1: V11 0a= L1 V12 0b=1a L2; 1>: 0a= L1 0b= L2", "KC",
     "opens at V11 in section 1, closes at the EVAL in section 2"),
    ("synthesized used right after a LEAVE", "1, 2 s1 s2; 0>1: V11 V12 L1; 1>1: V11 0a= L1 0b=1a V12 L2; 1>: 0a= L1 0b= L2", "KS",
     "the first step of section 2 closes it; b begins at the node and then below"),
    ("synthesized used right before a LEAVE", "1, 2 s1 s2; 0>1: V11 V12 L1; 1>1: V11 0a= 0b=1a L1 V12 L2; 1>: 0a= L1 0b= L2", "SK",
     "the last EVAL of section 1 closes a; b is now first evaluated in section 1 and goes from V11 to V12"),
    ("only the last production crosses", "1, 2 s1 s2; 0>1: V11 V12 L1; 1>: 0a= L1 0b= L2; 1>11: V11 V21 0a=1a2a L1 V12 V22 0b=1b L2; 1>1: V11 0a= L1 V12 0b=1a L2", "KS",
     "every production has to keep its spans in one section"),
    ("only the first production crosses", "1, 2 s1 s2; 1>1: V11 0a= L1 V12 0b=1a L2; 1>: 0a= L1 0b= L2; 1>11: V11 V21 0a=1a2a L1 V12 V22 0b=1b L2; 0>1: V11 V12 L1", "KS",
     "the same with the productions the other way"),
    # ---- S, later opened closes no later
    ("closed in the order of opening", "1 s1 s1, 1 s1; 0>11: V11 V21 0a=1c 0b=2c L1; 1>: 0c= L1", "KKK",
     "child 2's opens later and closes later"),
    ("closed against the order of opening", "1 s1 s1, 1 s1; 0>11: V11 V21 0a=2c 0b=1c L1; 1>: 0c= L1", "KKS",
     "child 2's lies in child 1's"),
    ("closed at one EVAL", "1 s1 s1, 1 s1; 0>11: V11 V21 0a=1c2c 0b= L1; 1>: 0c= L1", "KKS",
     "closing at the same EVAL is no later"),
    ("closed at one EVAL, the later also used before", "1 s1 s1, 1 s1; 0>11: V11 V21 0a=2c 0b=1c2c L1; 1>: 0c= L1", "KKS",
     "both close at the second EVAL"),
    ("three closed at one EVAL", "1 s1, 1 s1; 0>111: V21 V31 V11 0a=1b2b3b L1; 1>: 0b= L1", "KS", "all close at the same EVAL"),
    ("two of three closed at one EVAL, the newest later", "1 s1 s1, 1 s1; 0>111: V11 V21 V31 0a=1c2c 0b=3c L1; 1>: 0c= L1", "KKK",
     "child 3's opens last and closes last"),
    ("two of three closed at one EVAL, the oldest later", "1 s1 s1, 1 s1; 0>111: V11 V21 V31 0a=2c3c 0b=1c L1; 1>: 0c= L1", "KKS",
     "child 1's opens first and closes last"),
    ("two of three closed at one EVAL, the middle one later", "1 s1 s1, 1 s1; 0>111: V11 V21 V31 0a=1c3c 0b=2c L1; 1>: 0c= L1", "KKK",
     "child 2's opens after child 1's and closes after it"),
    ("closed right before the next VISIT", "1 s1 s1, 1 s1; 0>11: V11 0a=1c V21 0b=2c L1; 1>: 0c= L1; 1>11: V11 V21 0c=1c2c L1", "KKS",
     "disjoint: an EVAL closes one, the VISIT after it opens the other"),
    ("closed one step after the next VISIT", "1 s1 s1, 1 s1; 0>11: V11 V21 0a=1c 0b=2c L1; 1>: 0c= L1; 1>11: V11 V21 0c=1c2c L1", "KKK",
     "one step later it lies across"),
    ("closed by its VISIT right before the next", "1 s1, 1 s1; 0>11: V11 V21 0a=2b L1; 1>: 0b= L1; 1>11: V11 V21 0b=1b2b L1", "KS",
     "disjoint: nothing uses child 1's, V11 closes it and V21 opens the other"),
    ("one bad production is enough", "1, 1 i1; 0>1: 1a= V11 L1; 1>11: 1a=0a 2a=0a V21 V11 L1; 1>11: 1a=0a 2a=0a V11 V21 L1; 1>: L1", "K",
     "the second production of symbol 1 has them across"),
    # ---- S, at the VISITs of a child with an open span
    ("child 1 visited again below child 2's", "1 s1, 2 s1; 0>11: V11 V21 V12 V22 0a=1b2b L1; 1>: 0b= L1 L2", "KK",
     "at V12 child 2's, opened later, is open"),
    ("each child's visits together", "1 s1, 2 s1; 0>11: V11 V12 V21 V22 0a=1b2b L1; 1>: 0b= L1 L2", "KS",
     "at V12 only child 1's is open, at V21 and V22 child 2's is the newest"),
    ("child 2's visits inside", "1 s1, 2 s1; 0>11: V11 V21 V22 V12 0a=1b2b L1; 1>: 0b= L1 L2", "KK", "at V12 child 2's is still open"),
    ("child 2's closed right before V12", "1 s1 s1, 2 s1; 0>11: V11 V21 V22 0a=2c V12 0b=1c L1; 1>: 0c= L1 L2", "KKS",
     "the EVAL before V12 closes child 2's"),
    ("child 2's closed right after V12", "1 s1 s1, 2 s1; 0>11: V11 V21 V22 V12 0a=2c 0b=1c L1; 1>: 0c= L1 L2", "KKK",
     "nested, but at V12 child 2's is still open"),
    ("child 2's closed by V21 itself", "1 s1, 2 s1; 0>11: V11 V21 V12 V22 0a=1b L1; 1>: 0b= L1 L2", "KS",
     "nothing uses child 2's, V21 closes it before V12"),
    ("both closed before the visits go on", "1 s1, 2 s1; 0>11: V11 V21 0a=1b2b V12 V22 L1; 1>: 0b= L1 L2", "KS",
     "at V12 and V22 no span is open"),
    ("child 1 visited after its own is closed", "1 s1 s1, 2 s1; 0>11: V11 0a=1c V21 V12 0b=2c V22 L1; 1>: 0c= L1 L2; 1>11: V11 V12 V21 V22 0c=1c2c L1 L2", "KKS",
     "at V12 child 2's is open, but child 1's is closed"),
    ("inherited, V11 below child 2's", "1, 2 i1 s2; 0>11: 1a= 2a= V11 V21 V22 V12 L1; 1>: L1 0b=0a L2", "KC",
     "nested (closed by V22, V12), but at V11 child 2's is open"),
    ("inherited, child 2's opened right after V11", "1, 2 i1 s2; 0>11: 1a= V11 2a= V21 V22 V12 L1; 1>: L1 0b=0a L2", "SC",
     "child 2's opens after V11 and closes by V22, right before V12"),
    ("inherited, child 2's closed after V12", "1, 2 i1 s2; 0>11: 1a= V11 2a= V21 V12 V22 L1; 1>: L1 0b=0a L2", "KC",
     "child 2's opens later and closes later"),
    ("inherited, child 2 before child 1 in all", "1, 2 i1 s2; 0>11: 1a= 2a= V21 V22 V11 V12 L1; 1>: L1 0b=0a L2", "SC",
     "child 2's has closed by V22, right before V11"),
    # ---- which section opens and which closes
    ("inherited, last used in section 1", "1, 2 i1 s1; 0>11: 1a= 2a= V21 V11 V22 V12 L1; 1>: 0b=0a L1 L2", "SC",
     "V21 and V11 close, nested"),
    ("inherited, last used in section 2 by one leaf", "1, 2 i1 s2; 0>11: 1a= 2a= V21 V11 V22 V12 L1; 1>: 0b=0a L1 L2; 1>: L1 0b=0a L2", "KK",
     "V22 and V12 close; at V11 child 2's is open; b: V21-V22 and V11-V12 lie across"),
    ("inherited, never used", "1, 2 i1; 0>11: 1a= 2a= V21 V11 V22 V12 L1; 1>: L1 L2", "S", "its own visits V21 and V11 close, nested"),
    ("inherited of visit 2, never used", "1, 2 i2; 0>11: 1a= 2a= V21 V11 V22 V12 L1; 1>: L1 L2", "K",
     "V22 and V12 close; at V11 child 2's is open"),
    ("inherited of visit 2, never used, visits apart", "1, 2 i2; 0>11: V21 V11 1a= 2a= V22 V12 L1; 1>: L1 L2", "S",
     "V22 and V12 close, nested, and V11 was before"),
    ("of four visits, last used in 3", "1, 4 i1 s4; 0>11: 1a= V11 V12 V13 2a= V21 V22 V23 V14 V24 L1; 1>: 0b=0a L1 L2 L3 L4; 1>: L1 L2 0b=0a L3 L4", "SK",
     "a: V13 closes before the EVAL opens; b: opens at V11 and V21, closes by V14 and V24, across"),
    ("of four visits, last used in 4", "1, 4 i1 s4; 0>11: 1a= V11 V12 V13 2a= V21 V22 V23 V14 V24 L1; 1>: 0b=0a L1 L2 L3 L4; 1>: L1 L2 0b=0a L3 L4; 1>: L1 L2 L3 0b=0a L4", "KK",
     "now V14 and V24 close a, across"),
    ("of four visits, first evaluated in 2", "1 s1, 4 s4; 0>11: V11 V21 V12 V13 V14 V22 V23 V24 0a=1b2b L1; 1>: L1 0b= L2 L3 L4; 1>: L1 L2 L3 0b= L4", "KS",
     "V12 opens, V22 opens after V14"),
    ("of four visits, first evaluated in 1", "1 s1, 4 s4; 0>11: V11 V21 V12 V13 V14 V22 V23 V24 0a=1b2b L1; 1>: L1 0b= L2 L3 L4; 1>: L1 L2 L3 0b= L4; 1>: 0b= L1 L2 L3 L4", "KK",
     "V11 and V21 open; at V12 child 2's is open"),
    ("of four visits, V13 below child 2's", "1 s1, 4 s4; 0>11: V11 V21 V12 V22 V13 V14 V23 V24 0a=1b2b L1; 1>: L1 0b= L2 L3 L4", "KK",
     "V12 and V22 open; at V13 child 2's is open"),
    ("of four visits, evaluated last", "1 s1, 4 s4; 0>11: V11 V21 V12 V22 V13 V23 V14 V24 0a=1b2b L1; 1>: L1 L2 L3 0b= L4", "KS",
     "V14 and V24 open, and both close at the EVAL"),
    ("of three visits, each early", "1, 3 i1 i2 i3; 0>1: 1c= 1b= 1a= V11 V12 V13 L1; 1>: L1 L2 L3", "CCC",
     "each lives once, from its EVAL to the start of its section"),
    ("of three visits, each early in a chain", "1, 3 i1 i2 i3; 0>1: 1c= 1b= 1a= V11 V12 V13 L1; 1>1: 1c=0a 1b= 1a= V11 L1 V12 L2 V13 L3; 1>: L1 L2 L3", "CKK",
     "a ends at 1c's EVAL; b and c begin below before they end, and cross a LEAVE"),
    ("of three visits, all in the last section", "1, 3 i1 i2 i3 s3; 0>1: 1c= 1b= 1a= V11 V12 V13 L1; 1>1: L1 L2 1c= 1b= 1a= V11 V12 V13 0d=0a0b L3; 1>: L1 L2 0d= L3", "SSCC",
     "a and b are used after the children's begin; c ends at the start of section 3"),
    ("of three visits, synthesized early", "1, 3 s1 s2 s3; 0>1: V11 V12 V13 L1; 1>1: 0c= V11 0a=1a L1 V12 0b=1b L2 V13 L3; 1>: 0c= 0b= 0a= L1 L2 L3", "CCK",
     "every visit 1 begins b and every visit 2 hands it on; c begins above and below, its span crosses two LEAVEs"),
    ("of two visits, used in the second only", "1 s1, 2 s1 s2; 0>1: V11 V12 0a=1b1c L1; 1>: 0b= L1 0c= L2", "KCC", "each begins and ends once"),
    # ---- symbol 0, and others beside
    ("symbol 0 alone", "1 s1 s1; 0>: 0a= 0b= L1", "KK", "symbol 0's are K"),
    ("symbol 0 in two productions", "1 s1, 1 s1; 0>: 0a= L1; 0>1: V11 0a=1b L1; 1>: 0b= L1", "KC", "a walk may miss b altogether"),
    ("a symbol beside another", "1, 1 s1, 1 s1; 0>1212: V11 V21 V31 V41 L1; 1>: 0a= L1; 2>12: V11 V21 0b= L1; 2>: 0b= L1", "CC",
     "nothing uses them: each ends right after its VISIT"),
    ("six children used by threes", "1 s1 s1, 1 s1; 0>111111: V11 V21 V31 0a=1c2c3c V41 V51 V61 0b=4c5c6c L1; 1>: 0c= L1", "KKS",
     "three close at one EVAL, then three at the other"),
    ("six children, one kept to the end", "1 s1 s1, 1 s1; 0>111111: V11 V21 V31 0a=1c2c V41 V51 V61 0b=3c4c5c L1; 1>: 0c= L1", "KKK",
     "child 3's opens after child 2's and closes after it"),
]
