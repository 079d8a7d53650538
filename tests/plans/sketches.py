"""The schemes of `schemes.py`, each with its sketch where it is lawful by how it is made."""

from __future__ import annotations

from dataclasses import dataclass
from random import Random
from typing import Optional

from schemes import Plan as Sketch
from schemes import damaged, lawful, to_bytes


@dataclass
class RandomCase:
    name: str
    data: bytes
    lawful: Optional[Sketch] = None  # the scheme if it is lawful by how it is made


def random_case(seed: int, number: int) -> RandomCase:
    """The bytes of `schemes.random_case`: every third case is lawful, the others are damaged."""
    rng = Random(seed * 1_000_003 + number)
    name = f"random {seed}/{number}"
    if number % 3 == 0:
        sketch = lawful(rng)
        return RandomCase(name, to_bytes(sketch.words()), sketch)
    return RandomCase(name, damaged(rng))
