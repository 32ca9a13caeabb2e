"""A second model of plans, their files and what plancheck prints, in Python.

It follows the rules that docs/RULES.md states and shares no code with the planner, so that the two can be compared.
The same people wrote both, so it guards against slips, not against a rule that both misread.
A plan is a pair (pits, ducts), a duct a tuple (first, second, length, bore).
"""

MAX_PITS = 512
MAX_DUCTS = 1024
MAX_LENGTH = 1_000_000
MIN_BORE, MAX_BORE = 10, 300

RULES = {
    1: "a plan file has at least 4 bytes",
    2: "a plan has 1 to 512 pits",
    3: "a plan has at most 1024 ducts",
    4: "a plan file has exactly 4 bytes and 10 more for each duct",
    5: "a duct's first end is below its second, and both are pits of the plan",
    6: "a duct is 1 to 1000000 centimetres long",
    7: "a duct's bore is 10 to 300 millimetres",
    8: "no two ducts join the same two pits",
}


class Refused(Exception):
    """A refusal: its number and its two figures."""

    def __init__(self, number, first=0, second=0):
        super().__init__(number, first, second)
        self.number, self.first, self.second = number, first, second


def encode(pits, ducts):
    """The file of a plan."""
    out = pits.to_bytes(2, "little") + len(ducts).to_bytes(2, "little")
    for first, second, _, _ in ducts:
        out += first.to_bytes(2, "little") + second.to_bytes(2, "little")
    for _, _, length, bore in ducts:
        out += length.to_bytes(4, "little") + bore.to_bytes(2, "little")
    return out


def decode(data):
    """The plan of a file; raises Refused with the first question that gets a no."""
    if len(data) < 4:
        raise Refused(1)
    pits = int.from_bytes(data[0:2], "little")
    if not 1 <= pits <= MAX_PITS:
        raise Refused(2)
    count = int.from_bytes(data[2:4], "little")
    if count > MAX_DUCTS:
        raise Refused(3)
    if len(data) != 4 + 10 * count:
        raise Refused(4)
    ducts = []
    seen = set()
    for place in range(count):
        ends = data[4 + 4 * place : 8 + 4 * place]
        sizes = data[4 + 4 * count + 6 * place : 10 + 4 * count + 6 * place]
        first, second = int.from_bytes(ends[:2], "little"), int.from_bytes(ends[2:], "little")
        length, bore = int.from_bytes(sizes[:4], "little"), int.from_bytes(sizes[4:], "little")
        if not first < second < pits:
            raise Refused(5, place)
        if not 1 <= length <= MAX_LENGTH:
            raise Refused(6, place)
        if not MIN_BORE <= bore <= MAX_BORE:
            raise Refused(7, place)
        if (first, second) in seen:
            raise Refused(8, place)
        seen.add((first, second))
        ducts.append((first, second, length, bore))
    return pits, ducts


def plancheck(data):
    """What the program plancheck prints for a file."""
    lines = [f"read {len(data)} bytes"]
    try:
        pits, ducts = decode(data)
    except Refused as r:
        at = f" at duct {r.first}" if 5 <= r.number <= 8 else ""
        lines.append(f"refused {r.number}{at}: {RULES[r.number]}")
    else:
        lines += ["accepted", f"pits: {pits}", f"ducts: {len(ducts)}"]
        for i, (first, second, length, bore) in enumerate(ducts):
            lines.append(f"duct {i}: {first}-{second}, {length} cm, {bore} mm")
        again = encode(pits, ducts)
        lines.append(f"saved again: {len(again)} bytes, {'the same' if again == data else 'not the same'}")
    return "".join(line + "\n" for line in lines)
