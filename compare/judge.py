"""What the answers are, from the definitions alone, over tables so small that everything can be tried.

No search by a queue and no depth-first pass: least costs are what is left unchanged by going through any third vertex, an
edge or a vertex cuts where two vertices that were joined no longer are, once it is taken away, and a least cut is found among
all sets of vertices. Each `right_` function says what is right of a question about a table, and each `accepts_` function
whether an answer is.
"""
import collections
import fractions
import itertools

# edges: (id, source, target, cost, reverse_cost), whose costs are capacities where flows are asked for; points: (pid, edge_id,
# fraction, side); restrictions: lists of edges; places: the coordinates (x, y) of each vertex
Table = collections.namedtuple("Table", "edges points restrictions places", defaults=((), (), None))


def links(edges, directed):
    """The links of a table: (from, edge, cost, to)."""
    found = set()
    for edge, source, target, cost, reverse in edges:
        for a, b, c in ((source, target, cost), (target, source, reverse)):
            if c >= 0:
                found.add((a, edge, c, b))
                if not directed:
                    found.add((b, edge, c, a))
    return found


def vertices(of):
    return sorted({v for a, _, _, b in of for v in (a, b)})


def least_costs(of):
    """The least cost of each pair of vertices that a route joins."""
    names = vertices(of)
    best = {(v, v): 0 for v in names}
    for a, _, cost, b in of:
        best[a, b] = min(cost, best.get((a, b), cost))
    for middle in names:
        for a in names:
            for b in names:
                if (a, middle) in best and (middle, b) in best:
                    through = best[a, middle] + best[middle, b]
                    best[a, b] = min(through, best.get((a, b), through))
    return best


def asked_of(best, starts, ends):
    """The pairs of two different vertices that are asked for and joined, each with its cost."""
    return sorted((s, t, best[s, t]) for s in starts for t in ends if s != t and (s, t) in best)


def right_costs(table, asked):
    starts, ends, directed = asked
    return asked_of(least_costs(links(table.edges, directed)), starts, ends)


# Routes: which of several of equal cost is left free.

Routes = collections.namedtuple("Routes", "costs links details restrictions", defaults=(True, ()))


def right_routes(table, asked):
    starts, ends, directed = asked[:3]
    of = links(table.edges, directed)
    return Routes(asked_of(least_costs(of), starts, ends), of)


def is_route(rows, of, start, end, cost):
    """The rows (node, edge, cost, agg_cost) are a route of this cost, each link with its own cost."""
    if not rows or rows[0][0] != start or rows[-1][0] != end or rows[-1][1] != -1 or rows[-1][3] != cost:
        return False
    total = 0
    for (node, edge, c, agg), after in zip(rows, rows[1:]):
        if agg != total or (node, edge, c, after[0]) not in of:
            return False
        total += c
    return total == cost


def meets(edges, restrictions):
    """Some restriction stands among these edges, one right after another."""
    places = range(len(edges))
    return any(list(edges[k:k + len(r)]) == list(r) for r in restrictions if r for k in places)


def accepts_routes(rows, right):
    """Each pair that has a route has one of the least cost, any among equals, and no other pair has one."""
    if isinstance(rows, str) or sorted(rows) != [(s, t) for s, t, _ in right.costs]:
        return False
    if any(meets([row[1] for row in route], right.restrictions) for route in rows.values()):
        return False
    if not right.details and any(row[0] < 0 for route in rows.values() for row in route[1:-1]):
        return False
    return all(is_route(rows[s, t], right.links, s, t, cost) for s, t, cost in right.costs)


# Points on edges.


def pointed(table, driving, directed):
    """The links of a table whose edges are cut at the points that they see."""
    found = set()
    other = {"r": "l", "l": "r", "b": "b"}[driving]
    for edge, source, target, cost, reverse in table.edges:
        for c, forward in ((cost, True), (reverse, False)):
            allowed = "brl" if not directed or driving == "b" else "b" + (driving if forward else other)
            seen = sorted((fractions.Fraction(at), pid) for pid, on, at, side in table.points if on == edge and side in allowed)
            stops = [(source, 0)] + [(-pid, c * at // 1) for at, pid in seen] + [(target, c)]
            for (a, begins), (b, ends) in zip(stops, stops[1:]) if c >= 0 else ():
                if forward or not directed:
                    found.add((a, edge, ends - begins, b))
                if not forward or not directed:
                    found.add((b, edge, ends - begins, a))
    return found


def over_points(of):
    """The links, and what a row shows of each way on over points alone: where it begins, its first edge, its cost and its end."""
    found = set(of)
    ways = [(a, edge, cost, b, {a, b}) for a, edge, cost, b in of]
    while ways:
        a, edge, cost, b, seen = ways.pop()
        found.add((a, edge, cost, b))
        if b < 0:
            ways += [(a, edge, cost + more, c, seen | {c}) for d, _, more, c in of if d == b and c not in seen]
    return found


def right_points(table, asked):
    starts, ends, directed, driving, details = asked
    of = pointed(table, driving, directed)
    return Routes(asked_of(least_costs(of), starts, ends), of if details else over_points(of), details)


# Restrictions.


def least_allowed(of, restrictions, start):
    """The least cost to each vertex over walks that meet no restriction, where those that came over the same edges last are one."""
    kept = max([len(r) for r in restrictions] + [1]) - 1
    best = {(start, ()): 0}
    changed = True
    while changed:
        changed = False
        for (v, last), total in list(best.items()):
            for a, edge, cost, b in of:
                way = last + (edge,)
                if a != v or any(r and way[-len(r):] == tuple(r) for r in restrictions):
                    continue
                state = (b, way[len(way) - min(kept, len(way)):])
                if total + cost < best.get(state, total + cost + 1):
                    best[state] = total + cost
                    changed = True
    costs = {}
    for (v, _), total in best.items():
        costs[start, v] = min(total, costs.get((start, v), total))
    return costs


def right_turns(table, asked):
    starts, ends, directed = asked
    of = links(table.edges, directed)
    best = {}
    for start in set(starts) & set(vertices(of)):
        best.update(least_allowed(of, table.restrictions, start))
    return Routes(asked_of(best, starts, [t for t in ends if t in vertices(of)]), of, True, table.restrictions)


# Several routes of a pair.


def loopless(of, start, end):
    """The cost of each route from the one to the other that comes to no vertex twice."""
    found = []
    ways = [(start, 0, (start,))]
    while ways:
        v, total, seen = ways.pop()
        if v == end:
            found.append(total)
            continue
        ways += [(b, total + cost, seen + (b,)) for a, _, cost, b in of if a == v and b not in seen]
    return sorted(found)


def right_ksp(table, asked):
    start, end, count, directed = asked
    of = links(table.edges, directed)
    there = start != end and {start, end} <= set(vertices(of))
    return {"costs": loopless(of, start, end)[:count] if there else [], "links": of, "start": start, "end": end}


def accepts_ksp(paths, right):
    """So many different routes as there are up to K, none twice at a vertex, by rising cost, with the costs of the first."""
    if isinstance(paths, str) or sorted(paths) != list(range(1, len(right["costs"]) + 1)):
        return False
    routes = [paths[k] for k in sorted(paths)]
    if len({tuple(route) for route in routes}) != len(routes):
        return False
    if any(len({row[0] for row in route}) != len(route) for route in routes):
        return False
    return all(is_route(route, right["links"], right["start"], right["end"], cost) for route, cost in zip(routes, right["costs"]))


# Reach and classes.


def right_reach(table, asked):
    starts, distance, directed = asked
    of = links(table.edges, directed)
    best = least_costs(of)
    names = vertices(of)
    return sorted((s, v, best[s, v]) for s in starts for v in names if s in names and best.get((s, v), distance + 1) <= distance)


def classes(names, joined):
    """Each vertex with the least one of its class."""
    return {v: min(w for w in names if v == w or joined(v, w)) for v in names}


def connected(edges, without_edge=None, without_vertex=None):
    of = {link for link in links(edges, False) if link[1] != without_edge and without_vertex not in (link[0], link[3])}
    return least_costs(of)


def right_connected(table, _):
    best = connected(table.edges)
    return sorted((name, v) for v, name in classes(vertices(links(table.edges, False)), lambda v, w: (v, w) in best).items())


def right_strong(table, _):
    of = links(table.edges, True)
    best = least_costs(of)
    return sorted((name, v) for v, name in classes(vertices(of), lambda v, w: (v, w) in best and (w, v) in best).items())


def right_articulation(table, _):
    whole = connected(table.edges)
    found = []
    for v in vertices(links(table.edges, False)):
        left = connected(table.edges, without_vertex=v)
        if any(v not in pair and pair not in left and pair[0] != pair[1] for pair in whole):
            found.append(v)
    return found


def right_bridges(table, _):
    return sorted(edge for edge, a, b, cost, reverse in table.edges
                  if a != b and (cost >= 0 or reverse >= 0) and (a, b) not in connected(table.edges, without_edge=edge))


def right_blocks(table, _):
    """Each edge with the least one of its block: edges that no vertex separates."""
    kept = {edge: {a, b} for edge, a, b, cost, reverse in table.edges if cost >= 0 or reverse >= 0}
    names = {v for ends in kept.values() for v in ends}

    def chained(without):
        """The pairs of edges that a chain joins whose neighbours share an end other than this vertex."""
        group = {edge: edge for edge in kept}
        for _ in kept:
            for e in kept:
                for f in kept:
                    if (kept[e] & kept[f]) - {without}:
                        group[e] = group[f] = min(group[e], group[f])
        return group

    groups = [chained(v) for v in names]
    return sorted((min(f for f in kept if f == e or all(g[e] == g[f] for g in groups)), e) for e in kept)


# Flows and cuts: no flow passes a cut, so a flow whose value is the capacity of a cut is a greatest one.


def arcs(edges):
    """The links of a network of flows: (edge, from, to, capacity)."""
    both = ((edge, a, b, c) for edge, s, t, there, back in edges for a, b, c in ((s, t, there), (t, s, back)))
    return [arc for arc in both if arc[1] != arc[2] and arc[3] > 0]


def right_cut(table, asked):
    """The capacity of a least cut, and the links that lead out of the least set among those of all least cuts."""
    of = arcs(table.edges)
    names = {v for _, a, b, _ in of for v in (a, b)}
    sources, sinks = set(asked[0]) & names, set(asked[1]) & names
    right = {"sources": sources, "sinks": sinks, "arcs": of, "value": 0, "out": []}
    if sources & sinks:
        return {**right, "arcs": []}
    free = sorted(names - sources - sinks)
    sides = [sources | set(more) for n in range(len(free) + 1) for more in itertools.combinations(free, n)]
    out = lambda side: sorted(arc for arc in of if arc[1] in side and arc[2] not in side)
    capacity = lambda side: sum(arc[3] for arc in out(side))
    least = min(map(capacity, sides))
    side = set.intersection(*[side for side in sides if capacity(side) == least])
    assert capacity(side) == least
    return {**right, "value": least, "out": out(side)}


def accepts_value(value, right):
    return value == right["value"]


def accepts_flow(rows, right):
    """Each link at most once, some flow over it and the rest left, as much out of each other vertex as into it, and the greatest value."""
    if isinstance(rows, str):
        return False
    capacities = {arc[:3]: arc[3] for arc in right["arcs"]}
    gain = collections.Counter()
    for edge, a, b, flow, left in rows:
        if flow < 1 or left < 0 or capacities.pop((edge, a, b), None) != flow + left:
            return False
        gain[a] += flow
        gain[b] -= flow
    kept = all(not more for v, more in gain.items() if v not in right["sources"] | right["sinks"])
    return kept and sum(gain[v] for v in right["sources"]) == right["value"]


def accepts_cut(answer, right):
    """The links out of the least set; of pgRouting, which has no such function, the value of a greatest flow."""
    return answer == (right["value"] if isinstance(answer, int) else right["out"])


# Contraction.


def step(method, state, forbidden, directed):
    """What becomes of a state where the least vertex goes that may go by this method; whether there is one."""
    of, inside, made = state
    for v in vertices(of):
        near = sorted({w for a, _, _, b in of for w in (a, b) if v in (a, b)} - {v})
        least = lambda a, b: min([link[2] for link in of if link[0] == a and link[3] == b], default=None)
        add = lambda c, d: None if c is None or d is None else c + d
        if v in forbidden or len(near) != method:
            continue
        made_there = [inside[link[1]] for link in of if v in (link[0], link[3]) and link[1] < 0]
        held = {v} | inside.get(v, set()).union(*made_there)
        left = {link for link in of if v not in (link[0], link[3])}
        ways = [(near[0], near[-1]), (near[-1], near[0])]
        ways = [(a, add(least(a, v), least(v, b)), b) for a, b in ways if add(least(a, v), least(v, b)) is not None]
        if method == 1:
            inside.setdefault(near[0], set()).update(held)
        elif not ways:
            continue
        elif not directed:
            (a, cost, b), made = ways[0], made + 1
            left |= {(a, -made, cost, b), (b, -made, cost, a)}
            inside[-made] = held
        for a, cost, b in ways if method == 2 and directed else ():
            made += 1
            left.add((a, -made, cost, b))
            inside[-made] = set(held)
        inside.pop(v, None)
        return (left, inside, made), True
    return state, False


def right_contraction(table, asked):
    """The rows of the run in which the least vertex goes first, and what keeps the distances of the vertices that are left."""
    order, cycles, forbidden, directed = asked
    whole = links(table.edges, directed)
    state = (whole, {}, 0)
    for method in order * cycles:
        more = True
        while more:
            state, more = step(method, state, forbidden, directed)
    of, inside, _ = state
    rows = [("v", v, tuple(sorted(held)), -1, -1, -1) for v, held in sorted(inside.items()) if v > 0]
    ends = {}
    for a, edge, cost, b in sorted(of):
        if edge < 0:
            ends.setdefault(edge, (a, b, cost))
    for k, edge in enumerate(sorted(ends, reverse=True), 1):
        rows.append(("e", -k, tuple(sorted(inside[edge])), *ends[edge]))
    return {"rows": rows, "links": whole, "forbidden": set(forbidden), "directed": directed}


def keeps_distances(rows, right):
    """No forbidden vertex went, and those that are left have the distances that they had, over edges between them and shortcuts."""
    gone = {v for row in rows for v in row[2]}
    left = set(vertices(right["links"])) - gone
    of = {link for link in right["links"] if not gone & {link[0], link[3]}}
    for kind, edge, _, a, b, cost in rows:
        if kind == "e":
            of |= {(a, edge, cost, b)} | (set() if right["directed"] else {(b, edge, cost, a)})
    both = [least_costs(links_) for links_ in (right["links"], of)]
    kept = [{pair: cost for pair, cost in best.items() if set(pair) <= left and pair[0] != pair[1]} for best in both]
    return not gone & right["forbidden"] and kept[0] == kept[1]


def accepts_contraction(answer, right):
    """The distances are kept; of pgr also the very rows, since its order of vertices is a rule and that of pgRouting isn't."""
    if isinstance(answer, str):
        return False
    ours, rows = answer
    return keeps_distances(rows, right) and (not ours or rows == right["rows"])


def equal(answer, right):
    return answer == right
