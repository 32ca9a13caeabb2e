"""Best costs by another team's code: NetworkX 2.8.8, which is Debian's package python3-networkx.

Best lengths come from NetworkX's Dijkstra. NetworkX has no search by bore, so the best bore between two pits is the largest
bore w for which NetworkX's connected components of the ducts of at least w join the two; its maximum spanning forest must say
the same. A plan is a pair (pits, ducts), a duct a tuple (first, second, length, bore).
"""
import networkx as nx

VERSION = "2.8.8"
STILL_BORE = 65_535

if nx.__version__ != VERSION:
    raise SystemExit(f"NetworkX {VERSION} is wanted (apt-get install python3-networkx), and this is {nx.__version__}")


def graph(plan, allowed):
    """The allowed pits and the ducts between them."""
    pits, ducts = plan
    g = nx.Graph()
    g.add_nodes_from(pit for pit in range(pits) if allowed[pit])
    for first, second, length, bore in ducts:
        if allowed[first] and allowed[second]:
            g.add_edge(first, second, length=length, bore=bore)
    return g


def best_lengths(plan, allowed, goal):
    """For each pit the best length from it to the goal through allowed pits, or None where there is no way."""
    found = {}
    if allowed[goal]:
        found = nx.single_source_dijkstra_path_length(graph(plan, allowed), goal, weight="length")
    return [found.get(pit) for pit in range(plan[0])]


def bores_by_components(g, goal):
    found = {}
    for least in sorted({bore for _, _, bore in g.edges(data="bore")}, reverse=True):
        wide = nx.Graph((a, b) for a, b, bore in g.edges(data="bore") if bore >= least)
        if goal in wide:
            for pit in nx.node_connected_component(wide, goal):
                found.setdefault(pit, least)
    return found


def bores_by_forest(g, goal):
    forest = nx.maximum_spanning_tree(g, weight="bore")
    found = {}
    for pit, way in nx.single_source_shortest_path(forest, goal).items():
        if len(way) > 1:
            found[pit] = min(forest[a][b]["bore"] for a, b in zip(way, way[1:]))
    return found


def best_bores(plan, allowed, goal):
    """The same for the bore. Standing still has the greatest bore, by the rules."""
    found = {}
    if allowed[goal]:
        g = graph(plan, allowed)
        found = bores_by_components(g, goal)
        found.pop(goal, None)
        assert found == bores_by_forest(g, goal), "NetworkX against itself"
        found[goal] = STILL_BORE
    return [found.get(pit) for pit in range(plan[0])]
