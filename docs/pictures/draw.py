#!/usr/bin/env python3
"""Draws the pictures of the docs from the tables of the examples: docs/pictures/draw.py writes the SVG files beside it.

The places of vertices are chosen by hand; edges, costs and which edges are drawn strongly come from the tables. The least
route is found here by trying all routes, and a cut and a contraction by compare/judge.py, so a picture shows no more than the
table gives. Colours suit light and dark.
"""
import csv
import io
import itertools
import math
import os
import sys

HERE = os.path.dirname(os.path.realpath(__file__))
TOP = os.path.join(HERE, "..", "..")
EXAMPLE = os.path.join(TOP, "crates", "pgr_cli", "data", "a.csv")
sys.dont_write_bytecode = True
sys.path.insert(0, os.path.join(TOP, "compare"))
import judge
STYLE = """<style>
  text { font: 14px sans-serif; fill: #1f2328; } .id { font-weight: bold; } .cost { fill: #57606a; }
  circle { fill: #ffffff; stroke: #1f2328; stroke-width: 1.5; } .cut { fill: #ffd8a8; }
  path { fill: none; stroke: #57606a; stroke-width: 1.5; } path.strong { stroke: #0969da; stroke-width: 4; }
  path.made { stroke-dasharray: 7 4; } path.tip { fill: #57606a; stroke: none; } path.strong.tip { fill: #0969da; }
  @media (prefers-color-scheme: dark) {
    text { fill: #e6edf3; } .cost { fill: #9da7b1; } circle { fill: #22272e; stroke: #e6edf3; } .cut { fill: #7a4a10; }
    path { stroke: #9da7b1; } path.strong { stroke: #58a6ff; } path.tip { fill: #9da7b1; } path.strong.tip { fill: #58a6ff; }
  }
</style>"""


def read(text):
    return [{name: int(value) for name, value in row.items()} for row in csv.DictReader(io.StringIO(text))]


def links(rows):
    for row in rows:
        if row["cost"] >= 0:
            yield row["source"], row["id"], row["cost"], row["target"]
        if row.get("reverse_cost", -1) >= 0:
            yield row["target"], row["id"], row["reverse_cost"], row["source"]


def least_route(rows, start, end):
    """The edges of the first route in the order of cost, number of links, and links."""
    found = []
    of = sorted(links(rows))
    for count in range(1, len(rows) + 1):
        for route in itertools.permutations(of, count):
            ends = [start] + [link[3] for link in route]
            if ends[-1] == end and all(a == link[0] for a, link in zip(ends, route)):
                found.append((sum(link[2] for link in route), count, [link[1:] for link in route]))
    return {link[0] for link in min(found)[2]}


def arrow(shape, control, target, size=15):
    """A tip at the edge of the circle of the vertex that a link leads to."""
    (cx, cy), (x, y) = control, target
    far = math.hypot(x - cx, y - cy)
    dx, dy = (x - cx) / far, (y - cy) / far
    at = lambda along, aside: "%.1f %.1f" % (x - along * dx - aside * dy, y - along * dy + aside * dx)
    return '<path class="%stip" d="M%s L%s L%s Z"/>' % (shape + " " if shape else "", at(size, 0), at(size + 12, 6), at(size + 12, -6))


def drawn_edge(row, places, shape, bend, tip):
    """An edge with its id and costs, and with a tip where it leads one way."""
    (ax, ay), (bx, by) = places[row["source"]], places[row["target"]]
    parts, named = [], 'class="%s" ' % shape if shape else ""
    if row["source"] == row["target"]:
        parts.append('<path %sd="M%d %d C%d %d %d %d %d %d"/>' % (named, ax - 8, ay, ax - 45, ay - 70, ax + 45, ay - 70, ax + 8, ay))
        label = (ax, ay - 58)
    else:
        mx, my = (ax + bx) / 2, (ay + by) / 2 + bend
        parts.append('<path %sd="M%d %d Q%d %d %d %d"/>' % (named, ax, ay, mx, my, bx, by))
        parts += [arrow(shape, (mx, my), (bx, by))] if tip else []
        label = (mx + 24, my + 5) if ax == bx else (mx, (my + (ay + by) / 2) / 2 - 8)
    costs = "%d" % row["cost"] + (", back %d" % row["reverse_cost"] if row.get("reverse_cost", -1) >= 0 else "")
    parts.append('<text x="%d" y="%d" text-anchor="middle">%d <tspan class="cost">(%s)</tspan></text>' % (*label, row["id"], costs))
    return parts


def graph(rows, places, strong=(), cut=(), bend=None, tips=False):
    """The edges and vertices of a table; `strong` are edges, `cut` are vertices, and `bend` says how far an edge is bent down."""
    parts = []
    for row in rows:
        shape = "strong" if row["id"] in strong else "made" if row["id"] < 0 else ""
        parts += drawn_edge(row, places, shape, (bend or {}).get(row["id"], 0), tips)
    for vertex, (x, y) in places.items():
        parts.append('<circle %scx="%d" cy="%d" r="15"/>' % ('class="cut" ' if vertex in cut else "", x, y))
        parts.append('<text class="id" x="%d" y="%d" text-anchor="middle">%d</text>' % (x, y + 5, vertex))
    return parts


def write(name, title, parts, size=(420, 220)):
    head = '<svg xmlns="http://www.w3.org/2000/svg" viewBox="0 0 %d %d" width="%d" height="%d" role="img" aria-label="%s">' % (*size, *size, title)
    with open(os.path.join(HERE, name), "w", encoding="utf-8") as file:
        file.write("\n".join([head, "<title>%s</title>" % title, STYLE, *parts, "</svg>"]) + "\n")


def picture(name, title, rows, places, strong=(), cut=(), bend=None, size=(420, 220), tips=False):
    write(name, title, graph(rows, places, strong, cut, bend, tips), size)


def judged(rows):
    """A table as compare/judge.py has it."""
    return judge.Table([(row["id"], row["source"], row["target"], row["cost"], row.get("reverse_cost", -1)) for row in rows])


def least_cut():
    capacities = read("id,source,target,cost\n1,1,2,1\n2,1,3,1\n3,2,3,1\n4,2,4,1\n5,3,4,1\n")
    links = judge.right_cut(judged(capacities), ([1], [4]))["out"]
    side = {1} | {v for link in links for v in link[1:2]}
    picture("cut.svg", "The least cut between 1 and 4: the links over the edges 1 and 2 lead out of the set of 1", capacities,
            {1: (40, 110), 2: (200, 40), 3: (200, 180), 4: (360, 110)}, {link[0] for link in links}, side, tips=True)


def contraction():
    before = read("id,source,target,cost\n1,1,2,1\n2,2,3,2\n3,2,4,3\n4,4,5,1\n")
    rows = judge.right_contraction(judged(before), ([1, 2], 1, [1, 3], False))["rows"]
    after = [{"id": row[1], "source": row[3], "target": row[4], "cost": row[5]} for row in rows if row[0] == "e"]
    gone = {v for row in rows for v in row[2]}
    places = {1: (40, 70), 2: (150, 70), 3: (260, 70), 4: (150, 150), 5: (260, 150)}
    left = {v: (x + 330, y) for v, (x, y) in places.items() if v not in gone}
    parts = graph(before, places, cut=gone) + graph(after, left)
    parts += ['<text class="cost" x="%d" y="25" text-anchor="middle">%s</text>' % at for at in ((150, "before"), (480, "after"))]
    for row in rows:
        held = "{%s}" % ",".join(map(str, row[2]))
        parts.append('<text class="cost" x="480" y="92" text-anchor="middle">holds %s</text>' % held)
    write("contraction.svg", "Before and after a contraction: a shortcut of cost 3 between 1 and 3 holds 2, 4 and 5", parts, (630, 190))


def joined(rows, without_edge=None, without_vertex=None):
    """The pairs of vertices that edges join."""
    group = {v: v for row in rows for v in (row["source"], row["target"]) if v != without_vertex}
    for _ in rows:
        for row in rows:
            a, b = row["source"], row["target"]
            if row["id"] != without_edge and without_vertex not in (a, b):
                group[a] = group[b] = min(group[a], group[b])
    return {(v, w) for v in group for w in group if group[v] == group[w]}


def main():
    with open(EXAMPLE, encoding="utf-8") as file:
        example = read(file.read())
    picture("route.svg", "The least route from 1 to 4 over the edges 1, 2 and 4", example,
            {1: (40, 150), 2: (150, 50), 3: (260, 150), 4: (380, 150)}, least_route(example, 1, 4), bend={3: 40})
    blocks = read("id,source,target,cost\n1,1,2,1\n2,2,3,1\n3,1,3,1\n4,3,4,1\n5,4,4,1\n6,4,5,1\n7,4,5,1\n")
    whole = joined(blocks)
    bridges = {row["id"] for row in blocks if (row["source"], row["target"]) not in joined(blocks, without_edge=row["id"])}
    names = {v for pair in whole for v in pair}
    cut = {v for v in names if any(v not in pair and pair not in joined(blocks, without_vertex=v) for pair in whole)}
    picture("blocks.svg", "The bridge 4, and the articulation points 3 and 4", blocks,
            {1: (40, 60), 2: (40, 180), 3: (150, 120), 4: (270, 120), 5: (390, 120)}, bridges, cut, bend={6: -50, 7: 60})
    street = read("id,source,target,cost\n1,1,-1,1\n1,-1,2,2\n")
    picture("points.svg", "Edge 1 of cost 3 with the point 1 at one half: parts of cost 1 and 2", street,
            {1: (40, 90), -1: (153, 90), 2: (380, 90)}, cut={-1}, size=(420, 150))
    least_cut()
    contraction()


main()
