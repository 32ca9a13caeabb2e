#!/usr/bin/python3
"""Writes the cost trials: plans of many shapes and sizes, each with best costs by NetworkX (outside_costs.py).

Run it from the repository's root, with Debian's python3-networkx installed (apt-get install python3-networkx):
    /usr/bin/python3 tools/make_cost_vectors.py
It writes crates/cost_trials/stdin, which the program cost_trials reads in the gate, and the stdout that it must give: all agree.
A trial is
  the size of the plan's file in 4 bytes, the file, the number of questions in 4 bytes, and for each question a byte for each pit
  (1 where it is allowed), the goal in 4 bytes, then for each pit the best length from it to the goal in 4 bytes, and for each
  pit the best bore in 4 bytes; 4,294,967,295 says that there is no way,
all with the low byte first. The seed is fixed, so a second run writes the same bytes.
"""
import random
from pathlib import Path

import networkx as nx

from outside_costs import best_bores, best_lengths
from plan_model import MAX_DUCTS, MAX_PITS, decode, encode

RNG = random.Random(512)
NO_WAY = 4_294_967_295


def any_size():
    return RNG.randrange(1, 1_000_001), RNG.randrange(10, 301)


def few_sizes():
    """Many equal lengths and bores."""
    return RNG.choice((100, 100, 200)), RNG.choice((50, 100))


def one_size():
    return 1_000, 100


def longest():
    return 1_000_000, 300


def least():
    return 1, 10


def plan(g, sizes, pits=None):
    """The graph as a plan: its nodes numbered at random, its edges in random order."""
    nodes = list(g.nodes)
    number = list(range(pits or len(nodes)))
    RNG.shuffle(number)
    place = dict(zip(nodes, number))
    pairs = [tuple(sorted((place[a], place[b]))) for a, b in g.edges if a != b]
    pairs = list(dict.fromkeys(pairs))
    RNG.shuffle(pairs)
    assert len(number) <= MAX_PITS and len(pairs) <= MAX_DUCTS
    return len(number), [(a, b, *sizes()) for a, b in pairs]


def parts(*graphs):
    return nx.disjoint_union_all(graphs)


def random_graph(pits, ducts):
    return nx.gnm_random_graph(pits, ducts, seed=RNG.randrange(2**32))


def random_tree(pits):
    return nx.random_tree(pits, seed=RNG.randrange(2**32))


def grid(rows, columns):
    return nx.grid_2d_graph(rows, columns)


def plans():
    for name in ("two-pits", "nine-pits", "ring-64", "ring-65", "ring-64-and-one", "district-512"):
        yield decode(open(f"examples/{name}.plan", "rb").read())
    # one pit, no ducts, pits without ducts beside others
    for pits in (1, 2, 7, MAX_PITS):
        yield pits, []
    yield plan(nx.path_graph(3), any_size, pits=9)
    for n in (2, 3, 17, 64, MAX_PITS):
        yield plan(nx.path_graph(n), any_size)
    yield plan(nx.path_graph(MAX_PITS), longest)
    for n in (3, 4, 5, 33, MAX_PITS):
        yield plan(nx.cycle_graph(n), any_size)
    yield plan(nx.cycle_graph(128), one_size)
    for n in (5, 100, MAX_PITS):
        yield plan(nx.star_graph(n - 1), any_size)
    for n in (4, 10, 45):
        yield plan(nx.complete_graph(n), any_size)
    yield plan(nx.complete_graph(20), one_size)
    yield plan(nx.complete_bipartite_graph(32, 32), few_sizes)
    for n in (10, 60, 200, MAX_PITS):
        yield plan(random_tree(n), any_size)
    yield plan(grid(8, 8), few_sizes)
    yield plan(grid(16, 32), any_size)
    yield plan(grid(16, 32), one_size)
    yield plan(grid(2, 100), least)
    yield plan(nx.petersen_graph(), few_sizes)
    yield plan(nx.hypercube_graph(7), any_size)
    yield plan(nx.wheel_graph(40), any_size)
    yield plan(nx.lollipop_graph(12, 30), any_size)
    yield plan(nx.barbell_graph(10, 12), few_sizes)
    yield plan(nx.ladder_graph(50), any_size)
    yield plan(random_graph(MAX_PITS, MAX_DUCTS), any_size)
    yield plan(random_graph(MAX_PITS, MAX_DUCTS), few_sizes)
    yield plan(random_graph(MAX_PITS, 400), any_size)
    yield plan(parts(nx.cycle_graph(9), random_tree(20), nx.path_graph(1), nx.complete_graph(6)), any_size)
    yield plan(parts(grid(5, 5), nx.star_graph(30), random_graph(40, 60)), few_sizes)
    for _ in range(12):
        pits = RNG.randrange(5, 40)
        yield plan(random_graph(pits, RNG.randrange(0, 2 * pits)), RNG.choice((any_size, few_sizes)))


def questions(pits):
    """Which pits are allowed, and the goal."""
    everyone = [True] * pits
    goals = range(pits) if pits <= 10 else [0, pits - 1, *RNG.sample(range(1, pits - 1), 2)]
    for goal in goals:
        yield everyone, goal
    for goal in RNG.sample(range(pits), min(2, pits)):
        allowed = [RNG.random() < 0.8 or pit == goal for pit in range(pits)]
        yield allowed, goal
    # a goal that is not allowed itself
    goal = RNG.randrange(pits)
    yield [pit != goal for pit in range(pits)], goal


def main():
    out = b""
    tried, costs, reached = 0, 0, 0
    for p in plans():
        data = encode(*p)
        asked = list(questions(p[0]))
        out += len(data).to_bytes(4, "little") + data + len(asked).to_bytes(4, "little")
        for allowed, goal in asked:
            out += bytes(allowed) + goal.to_bytes(4, "little")
            for found in (best_lengths(p, allowed, goal), best_bores(p, allowed, goal)):
                out += b"".join((NO_WAY if cost is None else cost).to_bytes(4, "little") for cost in found)
                costs += len(found)
                reached += sum(cost is not None for cost in found)
        tried += 1
    print(f"{tried} plans, {costs} costs, of which {reached} are not 'no way', {len(out)} bytes")
    Path("crates/cost_trials/stdin").write_bytes(out)
    Path("crates/cost_trials/stdout").write_text(f"plans: {tried} searched\ncosts: {costs} tried, {costs} agree\n")


main()
