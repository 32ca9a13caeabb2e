#!/usr/bin/env python3
"""Writes the file trials: plan files, good and damaged, each with the verdict of the second model, plan_model.py.

Run it from the repository's root: python3 tools/make_file_vectors.py
It writes crates/trials/stdin, which the program trials reads in the gate, and the stdout that it must give: all agree. A trial is
  the file's size in 4 bytes, the file, then the verdict in numbers of 4 bytes: the refusal's number (0: accepted), its two
  figures, and of an accepted file the pit count, the duct count, and for each duct its ends, its length and its bore,
all with the low byte first. The seed is fixed, so a second run writes the same bytes.
"""
import random
from collections import Counter
from pathlib import Path

from plan_model import MAX_DUCTS, MAX_PITS, Refused, decode, encode

RNG = random.Random(64)


def plan(pits, count):
    """A random plan that keeps the rules."""
    most = pits * (pits - 1) // 2
    pairs = set()
    while len(pairs) < min(count, most):
        a, b = RNG.randrange(pits), RNG.randrange(pits)
        if a != b:
            pairs.add((min(a, b), max(a, b)))
    pairs = list(pairs)
    RNG.shuffle(pairs)
    lengths = (1, 2, 255, 256, 65_535, 65_536, 999_999, 1_000_000)
    bores = (10, 11, 255, 256, 299, 300)
    return pits, [
        (
            a,
            b,
            RNG.choice(lengths) if RNG.random() < 0.3 else RNG.randrange(1, 1_000_001),
            RNG.choice(bores) if RNG.random() < 0.3 else RNG.randrange(10, 301),
        )
        for a, b in pairs
    ]


def break_duct(pits, ducts, place):
    """The ducts with one rule broken at a place."""
    first, second, length, bore = ducts[place]
    kind = RNG.randrange(7)
    if kind == 0:
        broken = (second, first, length, bore)
    elif kind == 1:
        broken = (first, first, length, bore)
    elif kind == 2:
        broken = (first, RNG.choice((pits, pits + 1, 65_535)), length, bore)
    elif kind == 3:
        broken = (first, second, RNG.choice((0, 1_000_001, 16_777_216, 4_294_967_295)), bore)
    elif kind == 4:
        broken = (first, second, length, RNG.choice((0, 9, 301, 65_535)))
    else:
        earlier = ducts[RNG.randrange(place + 1)]
        broken = (earlier[0], earlier[1], length, bore)
    return ducts[:place] + [broken] + ducts[place + 1 :]


def good():
    for example in sorted(Path("examples").glob("*.plan")):
        yield example.read_bytes()
    yield b"\x01\x00\x00\x00"
    yield encode(*plan(MAX_PITS, MAX_DUCTS))
    yield encode(MAX_PITS, [])
    for _ in range(120):
        pits = RNG.randrange(1, 60)
        yield encode(*plan(pits, RNG.randrange(0, 40)))


def damaged():
    yield b""
    yield b"\x01\x00\x00"
    yield b"\x00\x00\x00\x00"
    # several sizes wrong at once: the first question decides
    yield b"\x00\x00\xff\xff"
    yield b"\x00\x00\x01\x00"
    yield b"\x01\x02\xff\xff\x00"
    yield (MAX_PITS + 1).to_bytes(2, "little") + b"\x00\x00"
    yield b"\x02\x00" + (MAX_DUCTS + 1).to_bytes(2, "little")
    yield b"\x02\x00" + (MAX_DUCTS + 1).to_bytes(2, "little") + bytes(10 * (MAX_DUCTS + 1))
    pits, ducts = plan(MAX_PITS, MAX_DUCTS)
    yield encode(pits, ducts[:-1] + [ducts[0]])
    for _ in range(500):
        pits, ducts = plan(RNG.randrange(3, 60), RNG.randrange(2, 40))
        for _ in range(RNG.randrange(1, 4)):
            ducts = break_duct(pits, ducts, RNG.randrange(len(ducts)))
        yield encode(pits, ducts)
    for _ in range(120):
        data = bytearray(encode(*plan(RNG.randrange(2, 60), RNG.randrange(1, 30))))
        kind = RNG.randrange(4)
        if kind == 0:
            data = data[: RNG.randrange(len(data))]
        elif kind == 1:
            data += bytes(RNG.randrange(1, 12))
        elif kind == 2:
            data[RNG.randrange(4)] = RNG.randrange(256)
        else:
            data[RNG.randrange(len(data))] ^= 1 << RNG.randrange(8)
        yield bytes(data)


def main():
    out = b""
    verdicts = Counter()
    for data in [*good(), *damaged()]:
        try:
            pits, ducts = decode(data)
            verdict = [0, 0, 0, pits, len(ducts), *(number for duct in ducts for number in duct)]
        except Refused as r:
            verdict = [r.number, r.first, r.second]
        verdicts[verdict[0]] += 1
        out += len(data).to_bytes(4, "little") + data
        out += b"".join(number.to_bytes(4, "little") for number in verdict)
    total = sum(verdicts.values())
    Path("crates/trials/stdin").write_bytes(out)
    Path("crates/trials/stdout").write_text(f"files: {total} tried, {total} agree\n")
    print(f"{total} files, {len(out)} bytes; by number:", dict(sorted(verdicts.items())))


main()
