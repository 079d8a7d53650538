"""Cases built by hand, each with the line that it must give.

Words are written in hexadecimal with their trailing zeros left off, so `211`
stands for 0x21100000.  The lines are written down from the rules of a scheme,
not taken from a reader.
"""

from __future__ import annotations

import struct
from typing import NamedTuple, Optional

from plans import PLANS, written
from schemes import full, to_bytes


class Edge(NamedTuple):
    name: str
    data: Optional[bytes]  # None: there is no file
    line: str


def tokens_to_bytes(tokens: list[str]) -> bytes:
    return struct.pack(f">{len(tokens)}I", *(int(t.ljust(8, "0"), 16) for t in tokens))


def scheme(text: str) -> bytes:
    return tokens_to_bytes(text.split())


def edited(tokens: list[str], edits: dict[int, str]) -> bytes:
    """The words with some replaced; a replacement is none, one or more words."""
    new: list[str] = []
    for number, token in enumerate(tokens):
        new += edits[number].split() if number in edits else [token]
    return tokens_to_bytes(new)


# Symbol 0 has attribute 0 (synthesized); symbol 1 has attributes 1 (inherited)
# and 2 (synthesized); all visits are 1.
HOUSE = (
    "11 211 11 201 211 "  # 0-4
    "3001 401 501101 5000001 6102 7 811 701 91 "  # 5-13
    "3011 401 5031011 6001 5000021 6102 7 811 701 91 "  # 14-23
    "301 5000021 6001 7 91 F"  # 24-29
).split()

# Symbol 1 has two visits, with attributes 0 and 1 (inherited, visits 1 and 2)
# and 2 and 3 (synthesized, visits 1 and 2).
TWICE = (
    "11 12 201 202 211 212 "  # 0-5
    "3001 401 5001 5001011 6102 7 811 701 812 91 "  # 6-15
    "301 5000021 6 5000032 6 6001 7 91 701 92 F"  # 16-26
).split()

# Symbol 1 has four visits, with attributes 0 to 3 (inherited, visits 1 to 4)
# and 4 to 7 (synthesized, visits 1 to 4).
FOUR = (
    "11 14 201 202 203 204 211 212 213 214 "  # 0-9
    "3001 401 5001 5001011 6104 5001021 6105 5001031 6106 "  # 10-18
    "7 811 701 812 702 813 703 814 91 "  # 19-27
    "301 5000041 6 5000051 6001 5000061 6002 5000071 6003 "  # 28-36
    "7 91 701 92 702 93 703 94 F"  # 37-45
).split()

# Six children; symbol 1 has attributes 1 (inherited) and 2 (synthesized).
SIX = (
    "11 211 11 201 211 "  # 0-4
    "3006 401 401 401 401 401 401 "  # 5-11
    "500101 500201 500301 500401 500501 500601 "  # 12-17
    "5000003 6102 6402 6602 "  # 18-21
    "7 701 702 703 704 705 811 821 831 841 851 861 706 91 "  # 22-35
    "301 500002 7 91 F"  # 36-40
).split()

# Symbol 0 has 16 synthesized attributes, symbol 1 has 16 inherited ones.
RULES_HEAD = ["11"] + ["211"] * 16 + ["11"] + ["201"] * 16 + ["3001", "401"]  # 0-35
RULES_32 = [f"5000{a:02x}" for a in range(16)] + [f"5001{a:02x}" for a in range(16, 32)]  # 36-67
EVALS_32 = [f"7{r:02x}" for r in range(32)]  # 68-99
RULES_TAIL = ["811", "91", "301", "91", "F"]  # 100-104

# Symbol 1 has 4 visits, attributes 0-4 inherited at visit 1 and attributes 5
# and 6 synthesized at visit 4.  A leaf production has 9 words; the production
# with 6 children has 32 rules and 60 steps.
LONG_HEAD = (
    "11 14 201 201 201 201 201 214 214 "
    "3001 401 5001 500101 500102 500103 500104 7 701 702 703 704 811 812 813 814 91"
).split()
LONG_LEAF = "301 500005 500006 7 701 91 92 93 94".split()
LONG_RULES = (
    ["3016"]
    + ["401"] * 6
    + [f"500{child}{a:02x}" for child in range(1, 7) for a in range(5)]
    + ["500005", "5000061", "6606"]
)
LONG_STEPS = (
    [f"7{r:02x}" for r in range(31)]  # 0-30
    + ["91", "92", "93"]  # 31-33
    + [f"8{child}{visit}" for child in range(1, 7) for visit in range(1, 5)]  # 34-57
    + ["71F", "94"]  # 58-59
)


# A fork: symbols 0 and 1 have one synthesized attribute each.
FORK = (
    "11 211 11 211 "
    "3001 401 5000001 6101 811 7 91 "
    "3012 401 401 5040012 6101 6201 811 821 7 91 "
    "301 502001 7 91 F"
)

# The full scheme has 7 symbols that fork, each with 4 inherited and 12
# synthesized attributes, and then a giver with 16 synthesized ones.  A leaf of
# the first uses its inherited ones of visits 1 to 3 up to section 4.  The
# giver's attributes 8 to 10 and 12 to 14 are used once more in the section
# after their own.  These spans cross a LEAVE; all other lives end before the
# next VISIT or EVAL that could begin another.
FULL_LETTERS = "KKK" + "C" * 117 + "KKKC" * 2


def chain(symbols: int) -> list[str]:
    """Each symbol has the next one as its only child."""
    words = ["11"] * symbols
    for left in range(symbols - 1):
        words += [f"3{left:02x}1", f"4{left + 1:02x}", "811", "91"]
    return words + [f"3{symbols - 1:02x}", "91", "F"]


def many_attributes(extra: list[str]) -> list[str]:
    """Eight symbols of 16 attributes, then more words before the productions.

    Attributes 0-15 are synthesized; those of symbols 1 to 7 too.
    """
    words = (["11"] + ["211"] * 16) * 8 + extra
    for left in range(8):
        here = range(16 * left, 16 * left + 16)
        last = left == 7
        words += [f"3{left:02x}{'0' if last else '1'}"] + [f"4{left + 1:02x}"] * (not last)
        words += [f"5000{a:02x}" for a in here] + [f"7{r:02x}" for r in range(16)]
        words += ["811"] * (not last) + ["91"]
    return words + ["F"]


# ------------------------------------------------------------ the size


def size_edges() -> list[Edge]:
    fullest = full().words()
    house = edited(HOUSE, {})
    return [
        Edge("no file", None, "no 1"),
        Edge("no bytes", b"", "no 1"),
        Edge("1 byte", b"\x11", "no 8"),
        Edge("2 bytes", b"\x11\x00", "no 8"),
        Edge("3 bytes", b"\x11\x00\x00", "no 8"),
        Edge("4 bytes", b"\x11\x00\x00\x00", "no 3 1"),
        Edge("5 bytes", b"\x11\x00\x00\x00\x00", "no 8"),
        Edge("house without its last byte", house[:-1], "no 8"),
        Edge("house without its last 2 bytes", house[:-2], "no 8"),
        Edge("house without its last 3 bytes", house[:-3], "no 8"),
        Edge("house and a byte", house + b"\xf0", "no 8"),
        Edge("house low byte first", b"".join(house[i : i + 4][::-1] for i in range(0, 120, 4)), "no 3 0"),
        Edge("16,383 bytes", to_bytes(fullest)[:-1], "no 8"),
        Edge("16,384 zero bytes", bytes(16384), "no 3 0"),
        Edge("16,385 bytes", to_bytes(fullest) + b"\x00", "no 8"),
        Edge("16,386 bytes", bytes(16386), "no 8"),
        Edge("16,387 bytes", bytes(16387), "no 8"),
        Edge("16,388 zero bytes", bytes(16388), "no 2"),
        Edge("16,389 bytes", bytes(16389), "no 8"),
        Edge("4,096 words", to_bytes(fullest), "plan " + FULL_LETTERS),
        Edge("4,096 words and an end", to_bytes(fullest + [0xF0000000]), "no 2"),
        Edge("4,097 words that begin with a bad one", to_bytes([0] + fullest), "no 2"),
        Edge("4,096 words without an end", to_bytes(fullest[:-1] + [0x91000000]), "no 3 4096"),
        Edge("4,095 words without an end", to_bytes(fullest[:-1]), "no 3 4095"),
        Edge("4,096 words, the last of no kind", to_bytes(fullest[:-1] + [0]), "no 3 4095"),
        Edge("4,096 words, the last with a stray bit", to_bytes(fullest[:-1] + [0xF0000001]), "no 5 4095"),
        Edge("100,000 words", bytes(400000), "no 2"),
        Edge("the shortest", scheme("11 3 91 F"), "plan "),
    ]


# -------------------------------------------------------- order of kinds

SAMPLES = "0 11 211 3 401 501101 6102 7 811 91 A B C D E F".split()

# What has been read, the kinds that may come next, and what those give other
# than the end of the words after them.
ORDER = [
    ("nothing", [], "1", {}),
    ("a symbol", HOUSE[:1], "123", {}),
    ("an attribute", HOUSE[:2], "123", {}),
    ("a second symbol", HOUSE[:3], "123", {}),
    ("a second symbol's attribute", HOUSE[:4], "123", {}),
    ("a production with a child", HOUSE[:6], "4", {}),
    ("its last child", HOUSE[:7], "5789", {"7": "no 6 7"}),
    ("one child of two", [*HOUSE[:5], "3002", "401"], "4", {}),
    ("a production without children", "11 11 201 301".split(), "5789", {"5": "no 6 4", "7": "no 6 4", "8": "no 6 4"}),
    ("a rule without arguments", HOUSE[:8], "5789", {}),
    ("a rule with an argument", HOUSE[:9], "6", {}),
    ("its last argument", HOUSE[:10], "5789", {}),
    ("one argument of two", [*HOUSE[:8], "5000002", "6102"], "6", {}),
    ("an EVAL", HOUSE[:11], "3789F", {"F": "no 11 0"}),
    ("a VISIT", HOUSE[:12], "3789F", {"F": "no 11 0"}),
    ("a LEAVE", HOUSE[:14], "3789F", {"F": "no 11 0"}),
    ("the last LEAVE", HOUSE[:29], "3789F", {"8": "no 6 29", "F": "plan KCC"}),
    ("the end", HOUSE, "", {}),
]


def order_edges() -> list[Edge]:
    edges = []
    for name, before, allowed, others in ORDER:
        for kind, word in zip("0123456789ABCDEF", SAMPLES):
            at = len(before)
            line = f"no 3 {at + 1}" if kind in allowed else f"no 3 {at}"
            edges.append(
                Edge(
                    f"kind {kind} after {name}",
                    tokens_to_bytes([*before, word]),
                    others.get(kind, line),
                )
            )
    return edges


# ---------------------------------------------------------- one word each

HOUSE_EDITS: list[tuple[str, dict[int, str], str]] = [
    ("nothing changed", {}, "plan KCC"),
    # symbols
    ("symbol with 0 visits", {0: "10"}, "no 5 0"),
    ("symbol with 5 visits", {0: "15"}, "no 5 0"),
    ("symbol with 15 visits", {0: "1F"}, "no 5 0"),
    ("symbol with its highest stray bit", {0: "118"}, "no 5 0"),
    ("symbol with its lowest stray bit", {0: "11000001"}, "no 5 0"),
    ("first symbol with 2 visits", {0: "12"}, "no 10 0"),
    ("first symbol with 4 visits", {0: "14"}, "no 10 0"),
    ("second symbol with 0 visits", {2: "1"}, "no 5 2"),
    ("second symbol with 2 visits", {2: "12"}, "no 15 0"),
    ("second symbol with 4 visits", {2: "14"}, "no 15 0"),
    ("second symbol with 5 visits", {2: "15"}, "no 5 2"),
    ("second symbol with 8 visits", {2: "18"}, "no 5 2"),
    # attributes
    ("attribute of side 2", {1: "221"}, "no 5 1"),
    ("attribute of side 3", {1: "231"}, "no 5 1"),
    ("attribute of side 8", {1: "281"}, "no 5 1"),
    ("attribute of side 15", {1: "2F1"}, "no 5 1"),
    ("attribute of visit 0", {1: "21"}, "no 5 1"),
    ("attribute of visit 2 of 1", {1: "212"}, "no 6 1"),
    ("attribute of visit 4 of 1", {1: "214"}, "no 6 1"),
    ("attribute of visit 5", {1: "215"}, "no 5 1"),
    ("attribute of visit 15", {1: "21F"}, "no 5 1"),
    ("attribute with its highest stray bit", {1: "2118"}, "no 5 1"),
    ("attribute with its lowest stray bit", {1: "21100001"}, "no 5 1"),
    ("attribute with stray bit and high visit", {1: "21200001"}, "no 5 1"),
    ("attribute of side 2 with high visit", {4: "222"}, "no 5 4"),
    ("inherited attribute of visit 2 of 1", {3: "202"}, "no 6 3"),
    ("target turned inherited", {1: "201"}, "no 7 8"),
    ("target turned synthesized", {3: "211"}, "no 7 7"),
    ("argument turned inherited", {4: "201"}, "no 7 9"),
    # productions
    ("child count 7", {5: "3007"}, "no 5 5"),
    ("child count 8", {5: "3008"}, "no 5 5"),
    ("child count 15", {5: "300F"}, "no 5 5"),
    ("production with its highest stray bit", {5: "30018"}, "no 5 5"),
    ("production with its lowest stray bit", {5: "30010001"}, "no 5 5"),
    ("left symbol 2 of 2", {5: "3021"}, "no 6 5"),
    ("left symbol 16", {5: "3101"}, "no 6 5"),
    ("left symbol 255", {5: "3FF1"}, "no 6 5"),
    ("left symbol 255 and child count 7", {5: "3FF7"}, "no 5 5"),
    ("left symbol 2 and a stray bit", {24: "30200001"}, "no 5 24"),
    ("child count 0 with a child", {5: "3"}, "no 3 6"),
    ("child count 2 with one child", {5: "3002"}, "no 3 7"),
    ("child count 6 with one child", {5: "3006"}, "no 3 7"),
    ("another left symbol", {5: "3011"}, "no 6 8"),
    ("another left symbol in the last", {24: "3"}, "no 6 25"),
    ("absent left symbol in the last", {24: "302"}, "no 6 24"),
    # children
    ("child with its highest stray bit", {6: "4018"}, "no 5 6"),
    ("child with its lowest stray bit", {6: "40100001"}, "no 5 6"),
    ("child symbol 2 of 2", {6: "402"}, "no 6 6"),
    ("child symbol 255", {6: "4FF"}, "no 6 6"),
    ("child symbol 255 and a stray bit", {6: "4FF00001"}, "no 5 6"),
    ("child symbol 0 with rules of another", {6: "4"}, "no 6 7"),
    ("child symbol 0 in a recursion", {15: "4"}, "no 6 16"),
    # rules
    ("rule number 0", {7: "500101"}, "plan KCC"),
    ("rule number 255", {7: "5FF101"}, "plan KCC"),
    ("rule position 7", {7: "501701"}, "no 5 7"),
    ("rule position 8", {7: "501801"}, "no 5 7"),
    ("rule position 15", {7: "501F01"}, "no 5 7"),
    ("rule with 4 arguments", {7: "5011014"}, "no 5 7"),
    ("rule with 15 arguments", {7: "501101F"}, "no 5 7"),
    ("rule with its highest stray bit", {7: "50110108"}, "no 5 7"),
    ("rule with its lowest stray bit", {7: "50110101"}, "no 5 7"),
    ("rule with an argument too few", {7: "5011011"}, "no 3 8"),
    ("rule with an argument too many", {8: "5"}, "no 3 9"),
    ("rule with 1 argument of 2", {8: "5000002"}, "no 3 10"),
    ("rule with the same argument twice", {8: "5000002", 9: "6102 6102"}, "plan KCC"),
    ("rule with the same argument three times", {8: "5000003", 9: "6102 6102 6102"}, "plan KCC"),
    ("rule with 4 arguments given", {8: "5000004", 9: "6102 6102 6102 6102"}, "no 5 8"),
    ("rule with a fourth argument after 3", {8: "5000003", 9: "6102 6102 6102 6102"}, "no 3 12"),
    ("rule position above the children", {7: "501201"}, "no 6 7"),
    ("rule position 6 of 1 child", {7: "501601"}, "no 6 7"),
    ("rule position 1 without children", {25: "5001021"}, "no 6 25"),
    ("rule attribute 3 of 3", {7: "501103"}, "no 6 7"),
    ("rule attribute 128", {7: "501180"}, "no 6 7"),
    ("rule attribute 255", {7: "5011FF"}, "no 6 7"),
    ("rule attribute of another symbol", {7: "5011"}, "no 6 7"),
    ("rule attribute of the child at the left", {7: "501001"}, "no 6 7"),
    ("rule for synthesized at a child", {7: "501102"}, "no 7 7"),
    ("rule for inherited at the left", {16: "5030011"}, "no 7 16"),
    ("rule for inherited at the left of the last", {25: "5000011"}, "no 7 25"),
    ("rule position 7 and attribute 3", {7: "501703"}, "no 5 7"),
    ("rule position 2 and a stray bit", {7: "50120101"}, "no 5 7"),
    ("rule with 4 arguments for a used place", {7: "5011024"}, "no 5 7"),
    ("rule for a place that has one", {7: "501"}, "no 13 0"),
    ("two rules for the child, none for the left", {8: "5001011"}, "no 13 0"),
    # arguments
    ("argument position 7", {9: "6702"}, "no 5 9"),
    ("argument position 8", {9: "6802"}, "no 5 9"),
    ("argument position 15", {9: "6F02"}, "no 5 9"),
    ("argument with its highest stray bit", {9: "61028"}, "no 5 9"),
    ("argument with its lowest stray bit", {9: "61020001"}, "no 5 9"),
    ("argument position above the children", {9: "6202"}, "no 6 9"),
    ("argument position 6 of 1 child", {9: "6602"}, "no 6 9"),
    ("argument position 1 without children", {26: "6102"}, "no 6 26"),
    ("argument attribute 3 of 3", {9: "6103"}, "no 6 9"),
    ("argument attribute 255", {9: "61FF"}, "no 6 9"),
    ("argument attribute of another symbol", {9: "61"}, "no 6 9"),
    ("argument attribute of the child at the left", {9: "6002"}, "no 6 9"),
    ("argument attribute of the first at the left", {26: "6"}, "no 6 26"),
    ("argument synthesized at the left", {9: "6"}, "no 7 9"),
    ("argument inherited at a child", {9: "6101"}, "no 7 9"),
    ("argument synthesized at the left of the last", {26: "6002"}, "no 7 26"),
    ("argument position 7 of a defined place", {9: "6701"}, "no 5 9"),
    ("second argument defined", {8: "5000002", 9: "6102 6101"}, "no 7 10"),
    ("third argument absent", {8: "5000003", 9: "6102 6102 6202"}, "no 6 11"),
    ("argument from the left for the left", {19: "6001"}, "plan KSC"),
    ("argument from the child for its own visit", {17: "6102"}, "no 16 1 0"),
    # EVAL
    ("EVAL with its highest stray bit", {10: "7008"}, "no 5 10"),
    ("EVAL with its lowest stray bit", {10: "70000001"}, "no 5 10"),
    ("EVAL of rule 2 of 2", {10: "702"}, "no 6 10"),
    ("EVAL of rule 255", {10: "7FF"}, "no 6 10"),
    ("EVAL of rule 2 with a stray bit", {10: "70200001"}, "no 5 10"),
    ("EVAL of rule 1 of 1", {27: "701"}, "no 6 27"),
    ("EVAL of rule 1 twice", {10: "701"}, "no 14 0"),
    ("EVAL of rule 0 twice", {12: "7"}, "no 14 0"),
    ("EVAL of the last rule left out", {27: ""}, "no 14 2"),
    ("EVAL twice in the last", {27: "7 7"}, "no 14 2"),
    ("EVAL twice in all", {10: "7 7"}, "no 14 0"),
    ("EVAL in place of the VISIT", {11: "7"}, "no 14 0"),
    ("EVAL in place of the LEAVE", {28: "7"}, "no 14 2"),
    # VISIT
    ("VISIT of child 0", {11: "801"}, "no 5 11"),
    ("VISIT of child 7", {11: "871"}, "no 5 11"),
    ("VISIT of child 15", {11: "8F1"}, "no 5 11"),
    ("VISIT of visit 0", {11: "81"}, "no 5 11"),
    ("VISIT of visit 5", {11: "815"}, "no 5 11"),
    ("VISIT of visit 15", {11: "81F"}, "no 5 11"),
    ("VISIT with its highest stray bit", {11: "8118"}, "no 5 11"),
    ("VISIT with its lowest stray bit", {11: "81100001"}, "no 5 11"),
    ("VISIT of child 2 of 1", {11: "821"}, "no 6 11"),
    ("VISIT of child 6 of 1", {11: "861"}, "no 6 11"),
    ("VISIT of child 1 of 0", {27: "811"}, "no 6 27"),
    ("VISIT of visit 2 of 1", {11: "812"}, "no 6 11"),
    ("VISIT of visit 4 of 1", {11: "814"}, "no 6 11"),
    ("VISIT of child 2 and visit 5", {11: "825"}, "no 5 11"),
    ("VISIT of child 0 and visit 2", {11: "802"}, "no 5 11"),
    ("VISIT left out", {11: ""}, "no 15 0"),
    ("VISIT twice", {11: "811 811"}, "no 15 0"),
    ("VISIT after the LEAVE", {11: "", 13: "91 811"}, "no 15 0"),
    ("VISIT in place of the LEAVE", {13: "811"}, "no 15 0"),
    # LEAVE
    ("LEAVE of visit 0", {13: "9"}, "no 5 13"),
    ("LEAVE of visit 5", {13: "95"}, "no 5 13"),
    ("LEAVE of visit 15", {13: "9F"}, "no 5 13"),
    ("LEAVE with its highest stray bit", {13: "918"}, "no 5 13"),
    ("LEAVE with its lowest stray bit", {13: "91000001"}, "no 5 13"),
    ("LEAVE of visit 2 of 1", {13: "92"}, "no 6 13"),
    ("LEAVE of visit 4 of 1", {13: "94"}, "no 6 13"),
    ("LEAVE of visit 2 with a stray bit", {13: "92000001"}, "no 5 13"),
    ("LEAVE left out of the first", {13: ""}, "no 15 0"),
    ("LEAVE left out of the last", {28: ""}, "no 15 2"),
    ("LEAVE twice in the first", {13: "91 91"}, "no 15 0"),
    ("LEAVE twice in the last", {28: "91 91"}, "no 15 2"),
    ("LEAVE first in the last", {27: "91", 28: "7"}, "no 15 2"),
    ("LEAVE in place of the VISIT", {11: "91"}, "no 15 0"),
    # the end
    ("end with its highest stray bit", {29: "F8"}, "no 5 29"),
    ("end with its lowest stray bit", {29: "F0000001"}, "no 5 29"),
    ("end left out", {29: ""}, "no 3 29"),
    ("end twice", {29: "F F"}, "no 3 30"),
    ("end with a stray bit and a word after it", {29: "F0000001 F"}, "no 5 29"),
    ("end in place of the last LEAVE", {28: "F", 29: ""}, "no 15 2"),
    ("end in place of the last steps", {27: "F", 28: "", 29: ""}, "no 3 27"),
    # the first bad word is the one that is said
    ("bad word before a worse one", {4: "215", 5: "0"}, "no 5 4"),
    ("wrong sort before a bad kind", {9: "6101", 10: "0"}, "no 7 9"),
    ("bad kind before a wrong sort", {7: "0", 9: "6101"}, "no 3 7"),
    ("bad last word before the scheme's faults", {0: "12", 29: "0"}, "no 3 29"),
    # order of steps
    ("visited before its inherited one", {10: "811", 11: "7"}, "no 16 0 0"),
    ("evaluated before the visit it needs", {11: "701", 12: "811"}, "no 16 0 1"),
    ("left before the last evaluation", {12: "91", 13: "701"}, "no 15 0"),
    ("evaluations exchanged", {10: "701", 12: "7"}, "no 16 0 0"),
    ("second: visited before its inherited one", {20: "811", 21: "7"}, "no 16 1 0"),
    ("second: evaluated before the visit", {21: "701", 22: "811"}, "no 16 1 1"),
    ("second: left before the last evaluation", {22: "91", 23: "701"}, "no 15 1"),
    ("first and second in bad order", {11: "701", 12: "811", 20: "811", 21: "7"}, "no 16 0 1"),
    ("order in the first, rule in the second", {10: "811", 11: "7", 16: "50300210 6001", 17: ""}, "no 16 0 0"),
    ("eval in the first, rule in the second", {10: "701", 16: "5030021"}, "no 14 0"),
    ("rule in the second, order in the last", {16: "5030021", 27: "91", 28: "7"}, "no 13 1"),
    # rules missing or twice
    ("rule of the child left out", {7: "", 10: "", 12: "7"}, "no 13 0"),
    ("rule of the left left out", {8: "", 9: "", 12: ""}, "no 13 0"),
    ("rule of the last left out", {25: "", 26: "", 27: ""}, "no 13 2"),
    ("rule of the last twice", {25: "5000021 6001 500002", 26: "", 27: "7 701"}, "no 13 2"),
    ("no rules at all in the second", {16: "", 17: "", 18: "", 19: "", 20: "", 22: ""}, "no 13 1"),
    ("an attribute more, later numbers not moved", {1: "211 211", 7: "501102", 9: "6103"}, "no 6 17"),
    (
        "an attribute more, without a rule",
        {1: "211 211", 7: "501102", 9: "6103", 16: "5031021", 17: "6002", 18: "5000031", 19: "6103", 25: "5000031", 26: "6002"},
        "no 13 0",
    ),
]

TWICE_EDITS: list[tuple[str, dict[int, str], str]] = [
    ("nothing changed", {}, "plan CCCC"),
    ("argument of visit 2 in section 1", {18: "6001"}, "no 16 1 0"),
    ("evaluations exchanged", {22: "701", 24: "7"}, "no 16 1 0"),
    ("second argument of visit 2 in section 1", {23: "701", 24: "91"}, "no 16 1 1"),
    ("synthesized of visit 2 in section 1", {21: "6", 23: "701", 24: "91"}, "plan CCCC"),
    ("synthesized of visit 2 first of all", {21: "6", 22: "701", 23: "7", 24: "91"}, "plan CCCC"),
    ("argument of visit 1 in section 2", {21: "6"}, "plan CCCC"),
    ("synthesized of visit 1 in section 2", {22: "91", 23: "7"}, "no 16 1 0"),
    ("evaluated after the last LEAVE", {24: "92", 25: "701"}, "no 15 1"),
    ("LEAVE 2 1", {23: "92", 25: "91"}, "no 15 1"),
    ("LEAVE 1 1", {25: "91"}, "no 15 1"),
    ("LEAVE 2 2", {23: "92"}, "no 15 1"),
    ("LEAVE 1 only", {24: "", 25: "", 23: "701 91"}, "no 15 1"),
    ("LEAVE 2 only", {23: ""}, "no 15 1"),
    ("LEAVE 1 2 1", {25: "92 91"}, "no 15 1"),
    ("LEAVE 1 2 2", {25: "92 92"}, "no 15 1"),
    ("LEAVE 3 of 2", {25: "93"}, "no 6 25"),
    ("VISIT 2 1", {12: "812", 14: "811"}, "no 15 0"),
    ("VISIT 1 1", {14: "811"}, "no 15 0"),
    ("VISIT 2 2", {12: "812"}, "no 15 0"),
    ("VISIT 1 only", {14: ""}, "no 15 0"),
    ("VISIT 2 only", {12: ""}, "no 15 0"),
    ("VISIT 1 2 1", {14: "812 811"}, "no 15 0"),
    ("VISIT 3 of 2", {14: "813"}, "no 6 14"),
    ("VISIT 2 before its inherited one", {13: "812", 14: "701"}, "no 16 0 2"),
    ("VISIT 1 before its inherited one", {11: "811", 12: "7"}, "no 16 0 0"),
    ("evaluated before the VISIT it needs", {12: "701", 13: "811"}, "no 16 0 1"),
    ("argument of the coming VISIT", {10: "6103"}, "no 16 0 2"),
    ("inherited of visit 2 before VISIT 1", {9: "500101", 10: "", 12: "701", 13: "811"}, "plan CCCC"),
    ("inherited of visit 2 first of all", {9: "500101", 10: "", 11: "701", 12: "7", 13: "811"}, "plan CCCC"),
    ("symbol with one visit", {1: "11"}, "no 6 3"),
    ("symbol with three visits", {1: "13"}, "no 15 0"),
    ("inherited turned to visit 1", {3: "201"}, "no 16 0 1"),
    ("inherited turned to visit 2", {2: "202"}, "no 16 1 0"),
    ("synthesized turned to visit 2", {4: "212"}, "no 16 0 2"),
    ("synthesized turned to visit 1", {5: "211"}, "no 16 1 1"),
    ("attribute of visit 3 of 2", {5: "213"}, "no 6 5"),
    ("two breaks in one production", {5: "211", 18: "6001"}, "no 16 1 0"),
    ("order in the first, evals in the second", {10: "6103", 24: "7"}, "no 16 0 2"),
    ("evals in the second", {24: "7"}, "no 14 1"),
    ("evals before the sequence", {24: "7", 25: "91"}, "no 14 1"),
    ("sequence before the order", {18: "6001", 23: "92", 25: "91"}, "no 15 1"),
    ("rules in the second", {19: "5000022"}, "no 13 1"),
    ("rules before evals", {19: "5000022", 24: "7"}, "no 13 1"),
    ("start before rules", {0: "12", 19: "5000022"}, "no 10 0"),
    ("no finite tree before rules", {9: "5001001", 16: "3011 401"}, "no 11 0"),
    ("visited after the last LEAVE", {14: "91", 15: "812"}, "no 15 0"),
]

FOUR_EDITS: list[tuple[str, dict[int, str], str]] = [
    ("nothing changed", {}, "plan CCCCCCCC"),
    ("visit 2 used in section 1", {30: "6001"}, "no 16 1 0"),
    ("visit 4 used in section 1", {30: "6003"}, "no 16 1 0"),
    ("visit 3 used in section 2", {32: "6002"}, "no 16 1 2"),
    ("visit 4 used in section 2", {32: "6003"}, "no 16 1 2"),
    ("visit 4 used in section 3", {34: "6003"}, "no 16 1 4"),
    ("visit 1 used in section 4", {36: "6"}, "plan CCCCCCCC"),
    ("visits 1 to 3 used in section 4", {35: "5000073", 36: "6 6001 6002"}, "plan CCCCCCCC"),
    ("third argument of visit 4 in section 3", {33: "5000063", 34: "6 6001 6003"}, "no 16 1 4"),
    ("second argument of visit 4 in section 3", {33: "5000063", 34: "6 6003 6001"}, "no 16 1 4"),
    ("child's visit 2 used before it", {14: "6105"}, "no 16 0 2"),
    ("child's visit 3 used before it", {16: "6106"}, "no 16 0 4"),
    ("child's visit 4 used before it", {18: "6107"}, "no 16 0 6"),
    ("child's visit 4 used before all", {14: "6107"}, "no 16 0 2"),
    ("child's visit 1 used for visit 4", {18: "6104"}, "plan CCCCCCCC"),
    ("third argument of the child not known", {17: "5001033", 18: "6104 6105 6107"}, "no 16 0 6"),
    ("LEAVE 1 before its EVAL", {37: "91", 38: "7"}, "no 16 1 0"),
    ("LEAVE 2 before its EVAL", {39: "92", 40: "701"}, "no 16 1 2"),
    ("LEAVE 3 before its EVAL", {41: "93", 42: "702"}, "no 16 1 4"),
    ("LEAVE 4 before its EVAL", {43: "94", 44: "703"}, "no 15 1"),
    ("VISIT 1 before its EVAL", {19: "811", 20: "7"}, "no 16 0 0"),
    ("VISIT 3 before its EVAL", {23: "813", 24: "702"}, "no 16 0 4"),
    ("VISIT 4 before its EVAL", {25: "814", 26: "703"}, "no 16 0 6"),
    ("inherited of 4 turned to 3", {5: "203"}, "no 16 0 5"),
    ("inherited of 4 turned to 1", {5: "201"}, "no 16 0 1"),
    ("inherited of 3 turned to 4", {4: "204"}, "no 16 1 4"),
    ("synthesized of 4 turned to 3", {9: "213"}, "no 16 1 5"),
    ("synthesized of 3 turned to 1", {8: "211"}, "no 16 1 1"),
    ("synthesized of 3 turned to 4", {8: "214"}, "no 16 0 6"),
    ("LEAVE 1 3 2 4", {40: "93", 42: "92"}, "no 15 1"),
    ("LEAVE 1 2 4 3", {42: "94", 44: "93"}, "no 15 1"),
    ("LEAVE 1 2 3 only", {44: ""}, "no 15 1"),
    ("LEAVE 1 2 4 only", {42: ""}, "no 15 1"),
    ("LEAVE 2 3 4 only", {38: ""}, "no 15 1"),
    ("VISIT 1 3 2 4", {22: "813", 24: "812"}, "no 15 0"),
    ("VISIT 1 2 4 3", {24: "814", 26: "813"}, "no 15 0"),
    ("VISIT 1 2 3 only", {26: ""}, "no 15 0"),
    ("VISIT 2 3 4 only", {20: ""}, "no 15 0"),
    ("three visits", {1: "13"}, "no 6 5"),
    ("attribute of visit 5", {5: "205"}, "no 5 5"),
    ("LEAVE 5", {44: "95"}, "no 5 44"),
    ("VISIT 5", {26: "815"}, "no 5 26"),
]

SIX_EDITS: list[tuple[str, dict[int, str], str]] = [
    ("nothing changed", {}, "plan KKS"),
    ("child 6 not visited", {33: ""}, "no 15 0"),
    ("child 6 visited twice", {33: "861 861"}, "no 15 0"),
    ("child 5 visited for 6", {33: "851"}, "no 15 0"),
    ("child 1 not visited", {28: ""}, "no 15 0"),
    ("child 6 visited before its inherited one", {27: "861", 33: "705"}, "no 16 0 5"),
    ("child 6 evaluated at its visit", {27: "811", 28: "821", 29: "831", 30: "841", 31: "851", 32: "705"}, "plan KKS"),
    ("third argument not visited", {33: "706", 34: "861"}, "no 16 0 11"),
    ("second argument not visited", {31: "851", 32: "861", 33: "706", 34: "841"}, "no 16 0 11"),
    ("first argument not visited", {28: "821", 29: "831", 30: "841", 31: "851", 32: "861", 33: "706", 34: "811"}, "no 16 0 11"),
    ("children visited the other way", {28: "861", 29: "851", 30: "841", 31: "831", 32: "821", 33: "811"}, "plan KSS"),
    ("no rule for child 6", {17: "500501"}, "no 13 0"),
    ("rules the other way", {12: "500601", 17: "500101"}, "plan KKS"),
    ("rule position 7", {17: "500701"}, "no 5 17"),
    ("argument position 7", {21: "6702"}, "no 5 21"),
    ("count 5 and six children", {5: "3005"}, "no 3 11"),
    ("position 6 of 5 children", {5: "3005", 11: ""}, "no 6 16"),
    ("VISIT of child 6 of 5", {5: "3005", 11: "", 17: "", 18: "5000002", 21: "", 27: "", 34: "705"}, "no 6 29"),
    ("a seventh child", {11: "401 401"}, "no 3 12"),
]


# ------------------------------------------------------- whole schemes

WHOLE: list[tuple[str, str, str]] = [
    # 10
    ("start with 2 visits", "12 3 91 92 F", "no 10 0"),
    ("start with 3 visits", "13 3 91 F", "no 10 0"),
    ("start with an inherited attribute", "11 201 3 91 F", "no 10 0"),
    ("start with an inherited attribute, used", "11 201 211 3 5000011 6 7 91 F", "no 10 0"),
    ("start with an inherited attribute last", "11 211 211 201 3 5 500001 7 701 91 F", "no 10 0"),
    ("start as its own child", "11 3001 4 811 91 3 91 F", "no 10 0"),
    ("start as a child out of reach", "11 11 3 91 3011 4 811 91 301 91 F", "no 10 0"),
    ("start as the last child", "11 11 3 91 3016 401 401 401 401 401 4 91 F", "no 10 0"),
    ("start wrong and a symbol without productions", "12 11 3 91 F", "no 10 0"),
    ("start as a child and no finite tree", "11 3001 4 811 91 F", "no 10 0"),
    ("start wrong and rules missing", "12 211 3 91 F", "no 10 0"),
    # 11
    ("a child without productions", "11 11 3001 401 811 91 F", "no 11 0"),
    ("a child without productions, start finite", "11 11 3001 401 811 91 3 91 F", "no 11 1"),
    ("a symbol without productions", "11 11 3 91 F", "no 11 1"),
    ("start without productions", "11 11 301 91 F", "no 11 0"),
    ("a child that needs itself", "11 11 3001 401 811 91 3011 401 811 91 F", "no 11 0"),
    ("a child that needs itself, start finite", "11 11 3001 401 811 91 3 91 3011 401 811 91 F", "no 11 1"),
    ("two that need each other", "11 11 11 3 91 3001 401 811 91 3011 402 811 91 3021 401 811 91 F", "no 11 1"),
    ("one finite and one endless child", "11 11 11 3002 401 402 811 821 91 301 91 3021 402 811 91 F", "no 11 0"),
    ("endless and out of reach", "11 11 11 3 91 301 91 3021 402 811 91 F", "no 11 2"),
    ("endless after out of reach", "11 11 11 3 91 301 91 F", "no 11 2"),
    ("endless and rules missing", "11 211 11 3 91 F", "no 11 1"),
    # 12
    ("out of reach", "11 11 3 91 301 91 F", "no 12 1"),
    ("out of reach with itself", "11 11 3 91 301 91 3011 401 811 91 F", "no 12 1"),
    ("out of reach together", "11 11 11 3 91 3011 402 811 91 3021 401 811 91 301 91 F", "no 12 1"),
    ("out of reach between", "11 11 11 3001 402 811 91 302 91 301 91 F", "no 12 1"),
    ("out of reach last", "11 11 11 3001 401 811 91 301 91 302 91 F", "no 12 2"),
    ("child of one out of reach", "11 11 11 3 91 301 91 3021 401 811 91 F", "no 12 1"),
    ("one out of reach has a reached child", "11 11 11 3001 401 811 91 301 91 3021 401 811 91 F", "no 12 2"),
    ("out of reach and rules missing", "11 211 11 3 91 301 91 F", "no 12 1"),
    ("out of reach with broken steps", "11 11 3 91 301 91 91 F", "no 12 1"),
    # granted
    ("a fork", FORK, "plan KS"),
    ("a chain", "11 11 11 3001 401 811 91 3011 402 811 91 302 91 F", "plan "),
    ("a chain from its end", "11 11 11 302 91 3011 402 811 91 3001 401 811 91 F", "plan "),
    ("finite in its second production", "11 11 3001 401 811 91 3011 401 811 91 301 91 F", "plan "),
    ("reached by a second production", "11 11 11 3 91 3001 402 811 91 3021 401 811 91 301 91 F", "plan "),
    ("the same production twice", "11 3 91 3 91 F", "plan "),
    ("four visits", "11 14 3001 401 811 812 813 814 91 301 91 92 93 94 F", "plan "),
    ("two children by turns", "11 12 3002 401 401 821 811 822 812 91 301 91 92 F", "plan "),
    ("two children, one out of turn", "11 12 3002 401 401 821 812 822 811 91 301 91 92 F", "no 15 0"),
    ("visits in the second section", "11 12 3001 401 811 812 91 3011 401 91 811 812 92 301 91 92 F", "plan "),
    ("visits across the sections", "11 12 3001 401 811 812 91 3011 401 811 91 812 92 301 91 92 F", "plan "),
    # 15
    ("no VISIT in the last production", "11 11 3001 401 811 91 301 91 3011 401 91 F", "no 15 2"),
    ("LEAVE twice", "11 3 91 91 F", "no 15 0"),
    ("LEAVE twice in the second", "11 3 91 3 91 91 F", "no 15 1"),
    ("only an EVAL", "11 211 3 5 7 F", "no 15 0"),
    ("only a VISIT", "11 11 3001 401 811 301 91 F", "no 15 0"),
    ("last step a VISIT", "11 11 3001 401 91 811 301 91 F", "no 15 0"),
    ("last step an EVAL", "11 211 3 5 91 7 F", "no 15 0"),
    # 13, 14 on the least
    ("an attribute without a rule", "11 211 3 91 F", "no 13 0"),
    ("an attribute without a rule in the second", "11 211 3 5 7 91 3 91 F", "no 13 1"),
    ("a rule without an EVAL", "11 211 3 5 91 F", "no 14 0"),
    ("a rule with two EVALs", "11 211 3 5 7 7 91 F", "no 14 0"),
    ("two rules for one", "11 211 3 5 5 7 701 91 F", "no 13 0"),
    ("two rules for one, one EVAL", "11 211 3 5 5 7 91 F", "no 13 0"),
]


# Small schemes with random damage, worked out by hand.
DAMAGED: list[tuple[str, str]] = [
    ("11 911 211 211 211 211 211 3 500002 503 507001 5AC004 500003 7 702 704 703 91 701 91 F", "no 3 1"),
    ("11 211 211 11 211 3015 401 401 401 401 401 500002 7 821 841 811 851 91 831 F", "no 11 0"),
    ("11 211 211 3 502001 504 701 7 91 F", "plan KK"),
    ("13 12 11 301 91 92 3002 402 401 821 822 811 91 3021 401 811 812 91 F", "no 10 0"),
    ("11 211 211 3 59D 5F9001 701 7 91 F", "plan KK"),
    ("11 11 11 3021 401 811 91 301 91 3013 401 402 401 821 831 811 91 3001 401 811 91 3001 402 811 91 F", "plan "),
    ("11 211 211 14 201 301 92 91 93 94 3001 401 505 502102 503001 701 811 812 7 702 813 814 91 F", "no 15 0"),
    ("11 211 211 3 3 504 565001 701 7 91 3", "no 3 4"),
    ("11 211 211 211 211 3 506002 50E 505001 503003 7 702 701 703 91 3 5 5AD002 5 50D003 703 701 7 702 91 F", "no 13 1"),
    ("11 201 211 211 3 500001 500002 91 7 701 F", "no 10 0"),
    ("11 211 211 211 211 211 211 3 501001 57D002 5F2004 55F001 589005 5F2004 5 7 703 702 7 706 704 701 91 F", "no 13 0"),
    ("11 211 211 211 211 211 3 500003 5E4001 57D002 568004 5 701 704 702 703 703 7 91 F", "no 14 0"),
    ("11 211 211 3 5ED 503001 701005 7 91 3 5E4 5AE001 701 91 3 501001 7 91 3 5 501001 7", "no 5 6"),
    ("11 211 3 507 7 91 3 5A5001 3 91 3 54C 7 91 F", "no 6 7"),
    ("11 211 211 211 3 500002 527001 501001 701 7 702 91 F", "no 13 0"),
    ("11 211 211 211 3 506 5E8002 512001 702 7 706 91 F", "no 6 10"),
    ("11 211 211 3 517001 55B 701 7008 91 F", "no 5 7"),
    ("11 201 211 211 3 500002 7 91 F", "no 10 0"),
    ("11 11 301 91 3001 401 811 91 3016 401 401 401 401 405 401 831 861 851 841 811 821 91 F", "no 6 13"),
    ("11 211 11 211 3003 401 401 401 5C20001 6201 831 811 811 7 91 301 507001 7 91 F", "no 15 0"),
    ("11 211 211 12 202 3001 401 5D6 501102 500001 91 811 701 812 7 702 3 572 500001 7 701 91 301 91 92 F", "no 15 0"),
    ("11 211 13 202 3001 401 5 507101 811 701 812 7 7 813 301 91 92 93 F", "no 14 0"),
    ("11 211 3 5040001 6 7 91 F", "no 7 4"),
    ("11 211 201 3 502001 501 7 701 91 3 500001 52E0011 6 7 701 91 F", "no 7 4"),
    ("11 211 11 201 201 3002 401 401 507 504202 5FD201 52D102 501101 702 704 7 701 821 811 703 91 301 91 F", "no 16 0 5"),
    ("11 211 211 211 211 201 211 3 5ED005 500004 56C002 552001 5 500003 702 701 7 705 704 703 91 F", "no 7 9"),
    ("11 211 12 202 201 3001 401 5B6102 5EA101 505 811 7 702 701 812 91 301 91 92 F", "no 16 0 0"),
    ("11 211 211 3 5 500001 701 7 91 3 506001 503 7 91 F", "no 14 1"),
    ("11 11 3 91 301 91 3 91 3011 401 811 91 F", "no 12 1"),
    ("11 11 3 91 3 91 3 91 301 91 3011 401 811 91 F", "no 12 1"),
    ("11 211 211 211 11 211 13 14 3002 401 401 500002 5 5FC001 702 701 7 821 811 91 301 507003 7 91 F", "no 11 2"),
    ("11 14 11 302 91 3 91 3003 402 402 402 811 831 821 91 F", "no 11 1"),
    ("11 12 11 3 91 302 91 3 91 301 91 92 3021 401 811 812 F", "no 12 1"),
    ("11 211 211 11 201 3001 401 597102 5CA001 505 811 7 701 702 91 301 91 F", "no 16 0 0"),
    ("11 211 11 201 211 3001 401 5 500101 811 7 701 91 3 50D 7 91 301 5020021 6001 7 91 F", "no 16 0 0"),
    ("11 211 211 11 211 211 211 3001 401 5030011 6103 5 701 7 811 91 301 500002 501003 500004 702 701 7 91 F", "no 16 0 1"),
]


# ------------------------------------------------------------- the limits


def limit_edges() -> list[Edge]:
    rules = [*RULES_HEAD, *RULES_32]
    leaves = LONG_LEAF * 62
    long_steps_broken = [*LONG_STEPS[:57], "71F", "864", "94"]
    table = [
        ("32 symbols", chain(32), "plan "),
        ("33 symbols", chain(33), "no 4 32"),
        ("33rd symbol with 0 visits", ["11"] * 32 + ["1"], "no 4 32"),
        ("33rd symbol with a stray bit", ["11"] * 32 + ["11000001"], "no 4 32"),
        ("32nd symbol with 0 visits", ["11"] * 31 + ["1"], "no 5 31"),
        ("32 symbols and no more", ["11"] * 32, "no 3 32"),
        ("32nd symbol out of reach", ["11"] + chain(31)[:-1] + ["31F", "91", "F"], "no 12 31"),
        ("32nd symbol without productions", ["11"] + chain(31), "no 11 31"),
        ("32nd symbol endless in a chain", chain(32)[:-3] + ["31F1", "41F", "811", "91", "F"], "no 11 0"),
        ("left symbol 32 of 32", ["11"] * 32 + ["320", "91", "F"], "no 6 32"),
        ("left symbol 31 of 32", ["11"] * 32 + ["31F", "91", "F"], "no 11 0"),
        ("child symbol 32 of 32", ["11"] * 32 + ["3001", "420"], "no 6 33"),
        ("16 attributes", ["11"] + ["211"] * 16 + ["3"] + RULES_32[:16] + EVALS_32[:16] + ["91", "F"], "plan " + "K" * 16),
        ("17 attributes", ["11"] + ["211"] * 17 + ["3", "91", "F"], "no 4 17"),
        ("17th attribute of side 2", ["11"] + ["211"] * 16 + ["221"], "no 4 17"),
        ("17th attribute of visit 2 of 1", ["11"] + ["211"] * 16 + ["212"], "no 4 17"),
        ("17th attribute of a second symbol", ["11", "11"] + ["211"] * 17, "no 4 18"),
        ("16 and 16 attributes", ["11"] + ["211"] * 16 + ["11"] + ["211"] * 16, "no 3 34"),
        ("128 attributes", many_attributes([]), "plan " + "K" * 16 + "C" * 112),
        ("128 attributes and a symbol", many_attributes(["11"]), "no 11 8"),
        ("129 attributes", many_attributes(["11", "211"]), "no 4 137"),
        ("129th attribute of visit 0", many_attributes(["11", "21"]), "no 4 137"),
        ("129th attribute, 17th of its symbol", many_attributes(["211"]), "no 4 136"),
        ("129th attribute by fours", (["11"] + ["211"] * 4) * 32 + ["211"], "no 4 160"),
        ("128 attributes by fours", (["11"] + ["211"] * 4) * 32 + ["3", "91", "F"], "no 11 1"),
        ("rule attribute 127 of 128", many_attributes([])[:136] + ["307", "50007F", "7", "91", "F"], "no 11 0"),
        ("64 productions", ["11"] + ["3", "91"] * 64 + ["F"], "plan "),
        ("65 productions", ["11"] + ["3", "91"] * 65 + ["F"], "no 4 129"),
        ("65th production with child count 7", ["11"] + ["3", "91"] * 64 + ["3007"], "no 4 129"),
        ("65th production of an absent symbol", ["11"] + ["3", "91"] * 64 + ["3FF"], "no 4 129"),
        ("64th production with child count 7", ["11"] + ["3", "91"] * 63 + ["3007"], "no 5 127"),
        ("64th production without steps", ["11"] + ["3", "91"] * 63 + ["3", "F"], "no 3 128"),
        ("65th production in place of a step", ["11"] + ["3", "91"] * 63 + ["3", "3"], "no 3 128"),
        ("fault 15 in the 64th production", ["11"] + ["3", "91"] * 64 + ["91", "F"], "no 15 63"),
        ("fault 13 in the 64th production", ["11", "211"] + ["3", "5", "7", "91"] * 63 + ["3", "91", "F"], "no 13 63"),
        ("fault 14 in the 64th production", ["11", "211"] + ["3", "5", "7", "91"] * 63 + ["3", "5", "91", "F"], "no 14 63"),
        ("32 rules", [*rules, *EVALS_32, *RULES_TAIL], "plan " + "K" * 16 + "C" * 16),
        ("33 rules", [*rules, "5", *EVALS_32, *RULES_TAIL], "no 4 68"),
        ("33rd rule at position 7", [*rules, "5007"], "no 4 68"),
        ("33rd rule for a used place", [*rules, "500110"], "no 4 68"),
        ("33rd rule with a stray bit", [*rules, "50000001"], "no 4 68"),
        ("32nd rule for a place that has one", [*rules[:-1], "5", *EVALS_32, *RULES_TAIL], "no 13 0"),
        ("32nd rule without its EVAL", [*rules, *EVALS_32[:31], *RULES_TAIL], "no 14 0"),
        ("32nd rule at position 7", [*rules[:-1], "5007"], "no 5 67"),
        ("EVAL of rule 32 of 32", [*rules, "720"], "no 6 68"),
        ("EVAL of rule 31 of 32", [*rules, "71F"], "no 3 69"),
        ("64 steps, EVALs twice", [*rules, *EVALS_32, *EVALS_32, "F"], "no 11 0"),
        ("64 steps, EVALs twice, all finite", [*rules, *EVALS_32, *EVALS_32[:30], *RULES_TAIL], "no 14 0"),
        ("65 steps, the last an EVAL", [*rules, *EVALS_32, *EVALS_32, "7"], "no 4 132"),
        ("65 steps, the last a LEAVE", [*rules, *EVALS_32, *EVALS_32[:31], "811", "91", "F"], "no 4 132"),
        ("64 LEAVEs", ["11", "3"] + ["91"] * 64 + ["F"], "no 15 0"),
        ("65 LEAVEs", ["11", "3"] + ["91"] * 65 + ["F"], "no 4 66"),
        ("65th step a LEAVE of visit 0", ["11", "3"] + ["91"] * 64 + ["9"], "no 4 66"),
        ("65th step an EVAL of an absent rule", ["11", "3"] + ["91"] * 64 + ["7"], "no 4 66"),
        ("65th step a VISIT of child 0", ["11", "3"] + ["91"] * 64 + ["8"], "no 4 66"),
        ("65th step a VISIT of an absent child", ["11", "3"] + ["91"] * 64 + ["811"], "no 4 66"),
        ("64th step a LEAVE of visit 0", ["11", "3"] + ["91"] * 63 + ["9"], "no 5 65"),
        ("a rule after 64 steps", ["11", "3"] + ["91"] * 64 + ["5"], "no 3 66"),
        ("64 steps in each of two", ["11"] + (["3"] + ["91"] * 64) * 2 + ["F"], "no 15 0"),
        ("65th step in the second", ["11"] + ["3", "91"] + ["3"] + ["91"] * 65 + ["F"], "no 4 68"),
        ("64 VISITs", ["11", "11", "3001", "401"] + ["811"] * 64 + ["301", "91", "F"], "no 15 0"),
        ("65 VISITs", ["11", "11", "3001", "401"] + ["811"] * 65, "no 4 68"),
        ("60 steps", [*LONG_HEAD, *LONG_LEAF, *LONG_RULES, *LONG_STEPS, "F"], "plan KKKKKSS"),
        ("60 steps in the 64th", [*LONG_HEAD, *leaves, *LONG_RULES, *LONG_STEPS, "F"], "plan KKKKKSS"),
        ("last step that can be broken", [*LONG_HEAD, *LONG_LEAF, *LONG_RULES, *long_steps_broken, "F"], "no 16 2 57"),
        ("the same in the 64th", [*LONG_HEAD, *leaves, *LONG_RULES, *long_steps_broken, "F"], "no 16 63 57"),
        ("61 steps", [*LONG_HEAD, *LONG_LEAF, *LONG_RULES, *LONG_STEPS, "94", "F"], "no 15 2"),
        ("64 steps in the largest", [*LONG_HEAD, *LONG_LEAF, *LONG_RULES, *LONG_STEPS, "91", "92", "93", "94", "F"], "no 15 2"),
        ("65 steps in the largest", [*LONG_HEAD, *LONG_RULES, *LONG_STEPS, "91", "92", "93", "94", "94"], "no 4 130"),
    ]
    return [Edge(name, tokens_to_bytes(words), line) for name, words, line in table]


def edges() -> list[Edge]:
    found = size_edges() + order_edges() + limit_edges()
    for title, tokens, edits in (
        ("house", HOUSE, HOUSE_EDITS),
        ("twice", TWICE, TWICE_EDITS),
        ("four", FOUR, FOUR_EDITS),
        ("six", SIX, SIX_EDITS),
    ):
        found += [Edge(f"{title}: {name}", edited(tokens, e), line) for name, e, line in edits]
    found += [Edge(name, scheme(text), line) for name, text, line in WHOLE]
    found += [
        Edge(f"{title} ({reason})", to_bytes(written(text).words()), f"plan {letters}")
        for title, text, letters, reason in PLANS
    ]
    found += [
        Edge(f"damaged {number}", scheme(text), line) for number, (text, line) in enumerate(DAMAGED)
    ]
    return found
