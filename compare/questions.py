"""What is asked of each function: the words of pgr, the query of pgRouting, how rows of each are read, and what is right.

A row is a list of words. A reader has two arguments, the rows and whether they are those of pgr.
"""
import collections

import judge

Question = collections.namedtuple("Question", "function words query right read accepts asked tables name")

E = "$$SELECT * FROM edges$$"
F = "$$SELECT id, source, target, cost::bigint AS capacity, reverse_cost::bigint AS reverse_capacity FROM edges$$"
P = "$$SELECT * FROM points$$"
# a way that meets a restriction costs so much more in pgRouting, and counts as none
PENALTY = 10 ** 9
R = "$$SELECT path, %d::float8 AS cost FROM restrictions$$" % PENALTY
PLACED = ("$$SELECT edges.*, a.x AS x1, a.y AS y1, b.x AS x2, b.y AS y2 FROM edges"
          " JOIN places a ON a.id = edges.source JOIN places b ON b.id = edges.target$$")


def number(word):
    if word.lstrip("-").isdigit():
        return int(word)
    value = float(word)
    return int(value) if value == int(value) else value


def in_order(columns):
    return lambda rows, _: sorted(tuple(number(row[c]) for c in columns) for row in rows)


def by_class(rows, _):
    """Classes named by their least member, whatever they were called."""
    members = {}
    for _, name, member in rows:
        members.setdefault(name, []).append(int(member))
    return sorted((min(of), member) for of in members.values() for member in of)


def ids(rows, _):
    return sorted(int(row[0]) for row in rows)


def read_routes(rows, _):
    found = {}
    for _, _, start, end, node, edge, cost, agg in rows:
        found.setdefault((int(start), int(end)), []).append((int(node), int(edge), number(cost), number(agg)))
    return found


def read_turns(rows, ours):
    routes = read_routes(rows, ours)
    return {pair: route for pair, route in routes.items() if ours or route[-1][3] < PENALTY}


def read_ksp(rows, ours):
    # pgr: seq,path_id,path_seq,start_vid,end_vid,node,edge,cost,agg_cost; pgRouting: without the two ends
    found = {}
    for row in rows:
        node, edge, cost, agg = row[5:] if ours else row[3:]
        found.setdefault(int(row[1]), []).append((int(node), int(edge), number(cost), number(agg)))
    return found


def read_reach(rows, ours):
    # pgr: seq,depth,start_vid,pred,node,edge,cost,agg_cost; pgRouting 3.4: seq,from_v,node,edge,cost,agg_cost
    return in_order((2, 4, 7) if ours else (1, 2, 5))(rows, ours)


def read_value(rows, _):
    return int(rows[0][0])


def read_cut(rows, ours):
    return in_order((1, 2, 3, 4))(rows, ours) if ours else read_value(rows, ours)


def read_contraction(rows, ours):
    found = []
    for kind, name, inside, source, target, cost in rows:
        held = tuple(sorted(int(v) for v in inside.strip("{}").replace(",", " ").split()))
        found.append((kind, int(name), held, int(source), int(target), number(cost)))
    return ours, found


def joined(ids_):
    return ",".join(map(str, ids_))


def array(ids_):
    return "ARRAY[%s]::bigint[]" % joined(ids_)


def flag(value):
    return "true" if value else "false"


def question(function, asked=(), name=None):
    """A question, with its tables besides that of the edges; what is asked of each function is what its maker below takes."""
    return MAKERS[function](function, asked, name or function)


def pairs(right, read, accepts, edges=E, tables=(), table=None):
    """The maker of questions about (starts, ends, directed)."""
    def make(function, asked, name):
        starts, ends, directed = asked
        words = ["--start=" + joined(starts), "--end=" + joined(ends), "--directed=" + flag(directed)]
        texts = edges if table is None else "%s, %s" % (edges, table)
        query = "SELECT * FROM %s(%s, %s, %s, directed => %s)" % (function, texts, array(starts), array(ends), flag(directed))
        return Question(function, words, query, right, read, accepts, asked, tables, name)
    return make


def matrix(function, asked, name):
    vids, directed = asked
    words = ["--vids=" + joined(vids), "--directed=" + flag(directed)]
    query = "SELECT * FROM %s(%s, %s, directed => %s)" % (function, E, array(vids), flag(directed))
    return Question(function, words, query, judge.right_costs, in_order((0, 1, 2)), judge.equal, (vids, vids, directed), (), name)


def reach(function, asked, name):
    starts, distance, directed = asked
    words = ["--start=" + joined(starts), "--distance=%d" % distance, "--directed=" + flag(directed)]
    query = "SELECT * FROM %s(%s, %s, %d, directed => %s)" % (function, E, array(starts), distance, flag(directed))
    return Question(function, words, query, judge.right_reach, read_reach, judge.equal, asked, (), name)


def a_star(function, asked, name):
    starts, ends, directed, heuristic = asked
    words = ["--start=" + joined(starts), "--end=" + joined(ends), "--directed=" + flag(directed), "--heuristic=%d" % heuristic]
    query = "SELECT * FROM %s(%s, %s, %s, directed => %s, heuristic => %d)" % (
        function, PLACED, array(starts), array(ends), flag(directed), heuristic)
    return Question(function, words, query, judge.right_routes, read_routes, judge.accepts_routes, asked, ("places",), name)


def with_points(function, asked, name):
    starts, ends, directed, driving, details = asked
    words = ["--start=" + joined(starts), "--end=" + joined(ends), "--directed=" + flag(directed), "--driving_side=" + driving,
             "--details=" + flag(details)]
    query = "SELECT * FROM %s(%s, %s, %s, %s, directed => %s, driving_side => '%s', details => %s)" % (
        function, E, P, array(starts), array(ends), flag(directed), driving, flag(details))
    return Question(function, words, query, judge.right_points, read_routes, judge.accepts_routes, asked, ("points",), name)


def ksp(function, asked, name):
    start, end, count, directed = asked
    words = ["--start=%d" % start, "--end=%d" % end, "--K=%d" % count, "--directed=" + flag(directed)]
    query = "SELECT * FROM %s(%s, %d, %d, %d, directed => %s)" % (function, E, start, end, count, flag(directed))
    return Question(function, words, query, judge.right_ksp, read_ksp, judge.accepts_ksp, asked, (), name)


def flow(read, accepts, call=None):
    def make(function, asked, name):
        starts, ends = asked
        words = ["--start=" + joined(starts), "--end=" + joined(ends)]
        query = "SELECT * FROM %s(%s, %s, %s)" % (call or function, F, array(starts), array(ends))
        return Question(function, words, query, judge.right_cut, read, accepts, asked, ("capacities",), name)
    return make


def contraction(function, asked, name):
    order, cycles, forbidden, directed = asked
    words = ["--order=" + joined(order), "--max_cycles=%d" % cycles, "--directed=" + flag(directed)]
    words += ["--forbidden=" + joined(forbidden)] if forbidden else []
    query = "SELECT type, id, array_to_string(contracted_vertices, ' '), source, target, cost FROM %s(%s, %s, %d, %s, %s)" % (
        function, E, array(order), cycles, array(forbidden), flag(directed))
    return Question(function, words, query, judge.right_contraction, read_contraction, judge.accepts_contraction, asked, (), name)


def whole(right, read):
    return lambda function, asked, name: Question(
        function, [], "SELECT * FROM %s(%s)" % (function, E), right, read, judge.equal, asked, (), name)


MAKERS = {
    "pgr_dijkstra": pairs(judge.right_routes, read_routes, judge.accepts_routes),
    "pgr_dijkstraCost": pairs(judge.right_costs, in_order((0, 1, 2)), judge.equal),
    "pgr_dijkstraCostMatrix": matrix,
    "pgr_aStar": a_star,
    "pgr_withPoints": with_points,
    "pgr_trsp": pairs(judge.right_turns, read_turns, judge.accepts_routes, tables=("restrictions",), table=R),
    "pgr_KSP": ksp,
    "pgr_drivingDistance": reach,
    "pgr_maxFlow": flow(read_value, judge.accepts_value),
    "pgr_edmondsKarp": flow(in_order((1, 2, 3, 4, 5)), judge.accepts_flow),
    "minCut": flow(read_cut, judge.accepts_cut, "pgr_maxFlow"),
    "pgr_contraction": contraction,
    "pgr_connectedComponents": whole(judge.right_connected, by_class),
    "pgr_strongComponents": whole(judge.right_strong, by_class),
    "pgr_biconnectedComponents": whole(judge.right_blocks, by_class),
    "pgr_articulationPoints": whole(judge.right_articulation, ids),
    "pgr_bridges": whole(judge.right_bridges, ids),
}
WHOLE = ("pgr_connectedComponents", "pgr_strongComponents", "pgr_biconnectedComponents", "pgr_articulationPoints", "pgr_bridges")


def chain(edges, count, r):
    """So many edges, each with an end of the one before it."""
    found = [r.choice(edges)]
    while len(found) < count:
        found.append(r.choice([edge for edge in edges if set(edge[1:3]) & set(found[-1][1:3])]))
    return [edge[0] for edge in found]


def simple(edges):
    """Of the edges one for each two different vertices, with its greater cost both ways, or one way where the other is closed."""
    kept = {}
    for i, a, b, c, d in edges:
        if a != b:
            kept.setdefault(frozenset((a, b)), (i, a, b, c if c < 0 else max(c, d), d if d < 0 else max(c, d)))
    return list(kept.values()) or [(1, 1, 2, 1, 1)]


def random_tables(r, plain):
    """A table of up to nine edges over up to six vertices, with parallel edges, loops and one-way edges; and one with points.

    The costs of the second are multiples of four and its fractions are quarters, so that no place on an edge is rounded.
    An edge that leads one way has points on both sides alone: pgRouting lets all of them be seen there.
    """
    count = r.randint(2, 6)
    cost = lambda: r.choice([-1, 0, 1, 1, 2, 3, 5])
    edges = [(i, r.randint(1, count), r.randint(1, count), cost(), cost()) for i in range(1, r.randint(1, 9) + 1)]
    edges = simple(edges) if plain else edges
    paths = [chain(edges, r.choice([2, 2, 3]), r) for _ in range(r.randint(1, 4))]
    places = {v: (r.randint(0, 3), r.randint(0, 3)) for v in range(1, count + 1)}
    wide = [(i, a, b, c * 4, d * 4) for i, a, b, c, d in edges]
    points = []
    for pid in range(1, r.randint(1, 5) + 1):
        on = r.choice(wide)
        side = r.choice("brl") if on[3] >= 0 and on[4] >= 0 else "b"
        points.append((pid, on[0], r.choice(["0.25", "0.5", "0.75"]), side))
    return judge.Table(edges, (), paths, places), judge.Table(wide, points)


def far_enough(table):
    """The table with each cost raised by how far the ends are, so that each heuristic but 3 estimates no cost too high."""
    def raised(edge, a, b, *costs):
        far = sum(abs(p - q) for p, q in zip(table.places[a], table.places[b]))
        return (edge, a, b, *[c if c < 0 else c + far for c in costs])
    return table._replace(edges=[raised(*row) for row in table.edges])


def questions(r, plain=False):
    """One question of each function, each with the table that it is about."""
    table, pointed = random_tables(r, plain)
    some = lambda least=1, most=7: sorted(r.sample(range(least, most + 1), r.randint(1, 3)))
    flip = lambda: r.random() < 0.5
    yield table, question("pgr_dijkstra", (some(), some(), flip()))
    yield table, question("pgr_dijkstraCost", (some(), some(), flip()))
    yield table, question("pgr_dijkstraCostMatrix", (some(), flip()))
    names = judge.vertices(judge.links(table.edges, False))
    if names:
        roots = sorted(r.sample(names, min(len(names), r.randint(1, 3))))
        yield table, question("pgr_drivingDistance", (roots, r.randint(0, 6), flip()))
    for name in WHOLE:
        yield table, question(name)
    yield table, question("pgr_trsp", (some(), some(), flip()))
    ends = r.sample(names, 2) if len(names) > 1 else [1, 2]
    yield table, question("pgr_KSP", (*ends, r.randint(1, 8), flip()))
    among = r.sample(range(1, 8), r.randint(2, 4))
    ends = (sorted(among[:len(among) // 2]), sorted(among[len(among) // 2:]))
    for name in ("pgr_maxFlow", "pgr_edmondsKarp", "minCut"):
        yield table, question(name, ends)
    order = [r.randint(1, 2) for _ in range(r.randint(1, 3))]
    yield table, question("pgr_contraction", (order, r.randint(1, 2), r.sample(range(1, 8), r.randint(0, 2)), flip()))
    yield table, question("pgr_aStar", (some(), some(), flip(), r.randint(0, 5)), "pgr_aStar, any costs")
    yield far_enough(table), question("pgr_aStar", (some(), some(), flip(), r.choice([0, 1, 2, 4, 5])), "pgr_aStar, costs as far as places")
    ids_ = [-pid for pid, *_ in pointed.points] + list(range(1, 7))
    yield pointed, question("pgr_withPoints", (sorted(r.sample(ids_, 2)), sorted(r.sample(ids_, 2)), flip(), r.choice("brl"), flip()))
