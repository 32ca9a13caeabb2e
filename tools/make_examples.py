#!/usr/bin/env python3
"""Writes the plan files of examples/, and the input and expected output of plancheck in the gate.

Run it from the repository's root: python3 tools/make_examples.py
Everything is made from fixed seeds, so a second run writes the same bytes.
"""
import random
from pathlib import Path

from plan_model import encode, plancheck

NINE = [
    (0, 1, 500, 100),
    (1, 2, 700, 50),
    (2, 3, 400, 100),
    (3, 4, 900, 100),
    (4, 5, 300, 75),
    (5, 6, 600, 100),
    (6, 7, 200, 100),
    (0, 7, 800, 40),
    (3, 8, 250, 60),
]


def ring(n):
    """A ring of n pits: each joined to the next, and the last to the first."""
    ducts = [(i, i + 1, 1000 + 10 * i, 100) for i in range(n - 1)]
    return n, ducts + [(0, n - 1, 1500, 100)]


def district():
    """512 pits: a grid of 12 by 16 crossings with 16 streets left out, and trees of house pits joined to the crossings."""
    rng = random.Random(20261117)
    rows, columns, pits = 12, 16, 512
    number = list(range(pits))
    rng.shuffle(number)
    streets = []
    for r in range(rows):
        for c in range(columns):
            here = r * columns + c
            if c + 1 < columns:
                streets.append((here, here + 1))
            if r + 1 < rows:
                streets.append((here, here + columns))
    broken = set(rng.sample(range(len(streets)), 16))
    pairs = {tuple(sorted(s)) for i, s in enumerate(streets) if i not in broken}
    members = {}
    for house in range(rows * columns, pits):
        crossing = rng.randrange(rows * columns)
        close = members.setdefault(crossing, [crossing])
        pairs.add(tuple(sorted((rng.choice(close[-3:]), house))))
        close.append(house)
    for close in members.values():
        if len(close) > 2:
            pairs.add(tuple(sorted(rng.sample(close, 2))))
    ducts = []
    for a, b in sorted(pairs):
        first, second = sorted((number[a], number[b]))
        ducts.append((first, second, rng.randrange(300, 9000), rng.choice((50, 75, 100, 110, 150))))
    rng.shuffle(ducts)
    return pits, ducts


def main():
    ring_pits, ring_ducts = ring(64)
    plans = {
        "two-pits": (2, [(0, 1, 500, 100)]),
        "nine-pits": (9, NINE),
        "ring-64": ring(64),
        "ring-65": ring(65),
        "ring-64-and-one": (ring_pits + 1, ring_ducts + [(10, 64, 400, 50)]),
        "district-512": district(),
    }
    for name, (pits, ducts) in plans.items():
        data = encode(pits, ducts)
        Path(f"examples/{name}.plan").write_bytes(data)
        print(f"examples/{name}.plan: {pits} pits, {len(ducts)} ducts, {len(data)} bytes")
    nine = encode(*plans["nine-pits"])
    Path("crates/plancheck/stdin").write_bytes(nine)
    Path("crates/plancheck/stdout").write_text(plancheck(nine))


main()
