#!/usr/bin/env python3
"""The time of pgr against a twin in C++ over the same tables, as ratios by size, with memory and growth.

    bench/bench.py [--pgr PROGRAM] [--sizes 10000,100000] [--kinds grid,random] [--best 3] [--seed 1] [--limit 600] [--only NAME]
    bench/bench.py --check [--pgr PROGRAM]      compares the answers of the two over small networks, and times nothing

Give the built program, crates/pgr_cli/out/pgr_cli: bin/pgr looks for changed sources at each run. Wanted are g++, python3 and, for memory, Debian's time.
Each time is the least of some runs of a whole process, from the table to its rows on /dev/null. Only ratios within one run
count. Memory is the greatest resident set of a process.
"""
import argparse
import math
import os
import random
import subprocess
import sys
import tempfile
import time

HERE = os.path.dirname(os.path.realpath(__file__))
WHOLE = ["pgr_connectedComponents", "pgr_strongComponents", "pgr_biconnectedComponents", "pgr_articulationPoints", "pgr_bridges"]


def grid(size, r):
    """A square of streets with about so many edges, one in fifteen of them one-way; the ends of a long way, and some places."""
    side = max(2, round(math.sqrt(size / 2)))
    pairs = []
    for y in range(side):
        for x in range(side):
            v = y * side + x + 1
            pairs += [(v, v + 1)] if x + 1 < side else []
            pairs += [(v, v + side)] if y + 1 < side else []
    at = lambda y, x: int(y * (side - 1)) * side + int(x * (side - 1)) + 1
    return pairs, at(.2, .2), at(.8, .8), sorted({at(k / 7, .5) for k in range(8)})


def random_network(size, r):
    """A network with about so many edges over half as many vertices, ends drawn at random."""
    count = max(2, size // 2)
    pairs = [(r.randint(1, count), r.randint(1, count)) for _ in range(size)]
    places = sorted({r.choice(pairs)[0] for _ in range(8)})
    return pairs, pairs[0][0], pairs[-1][1], places


def write(path, header, rows):
    with open(path, "w", encoding="utf-8") as file:
        file.write(header + "\n")
        file.writelines(row + "\n" for row in rows)


def located(kind, pairs, r):
    """The place of each vertex: ten apart along the streets of a grid, and drawn at random in a network at random."""
    count = max(max(pair) for pair in pairs)
    if kind == "grid":
        side = round(math.sqrt(count))
        return {v: (10 * ((v - 1) % side), 10 * ((v - 1) // side)) for v in range(1, count + 1)}
    return {v: (r.randint(0, 1000), r.randint(0, 1000)) for v in range(1, count + 1)}


def tables(kind, size, seed, folder):
    """Writes the files of a network, each named for the option or the function that reads it, and draws what is asked over it."""
    r = random.Random("%s %d %d" % (kind, size, seed))
    pairs, start, end, places = (grid if kind == "grid" else random_network)(size, r)
    path = lambda name: os.path.join(folder, "%s%d_%s.csv" % (kind, size, name))
    rows = []
    for edge, (a, b) in enumerate(pairs, 1):
        cost = r.randint(1, 100)
        rows.append((edge, a, b, cost, cost if r.random() < 14 / 15 else -1))
    write(path("edges"), "id,source,target,cost,reverse_cost", ("%d,%d,%d,%d,%d" % row for row in rows))
    write(path("capacities"), "id,source,target,capacity,reverse_capacity", ("%d,%d,%d,%d,%d" % row for row in rows))
    at = located(kind, pairs, r)
    lines = []
    for edge, a, b, cost, back in rows:
        far = abs(at[a][0] - at[b][0]) + abs(at[a][1] - at[b][1])
        lines.append("%d,%d,%d,%d,%d,%d,%d,%d,%d" % (edge, a, b, far + cost // 10, far + back // 10 if back >= 0 else -1, *at[a], *at[b]))
    write(path("placed"), "id,source,target,cost,reverse_cost,x1,y1,x2,y2", lines)
    points = [(pid, r.randint(1, len(rows)), r.randint(1, 99), r.choice("brl")) for pid in range(1, max(4, len(rows) // 20))]
    write(path("points"), "pid,edge_id,fraction,side", ("%d,%d,0.%02d,%s" % point for point in points))
    meeting = {}
    for edge, a, b, *_ in rows:
        meeting.setdefault(a, []).append(edge)
        meeting.setdefault(b, []).append(edge)
    corners = list(meeting.values())
    turns = [r.choice(corners) for _ in range(max(4, len(rows) // 100))]
    write(path("restrictions"), "path", ('"{%d,%d}"' % (r.choice(met), r.choice(met)) for met in turns))
    return path, start, end, places


def jobs(path, start, end, places):
    """What is asked of each function over a network: a function is a line here and an arm in twin.cpp."""
    edges, some = "--edges=" + path("edges"), ",".join(map(str, places))
    pair, capacities = ["--start=%d" % start, "--end=%d" % end], "--edges=" + path("capacities")
    yield ["pgr_dijkstra", edges, *pair]
    yield ["pgr_dijkstraCost", edges, "--start=" + some, "--end=%d,%d" % (start, end)]
    yield ["pgr_dijkstraCostMatrix", edges, "--vids=" + some]
    yield ["pgr_aStar", "--edges=" + path("placed"), *pair]
    yield ["pgr_withPoints", edges, "--points=" + path("points"), "--start=-1,-2", "--end=%d,-3" % end, "--driving_side=r", "--details=true"]
    yield ["pgr_trsp", edges, "--restrictions=" + path("restrictions"), *pair]
    yield ["pgr_KSP", edges, *pair, "--K=4"]
    yield ["pgr_drivingDistance", edges, "--start=%d" % start, "--distance=1000"]
    yield ["pgr_maxFlow", capacities, *pair]
    yield ["pgr_edmondsKarp", capacities, *pair]
    yield ["minCut", capacities, *pair]
    yield ["pgr_contraction", edges, "--order=1,2"]
    yield ["pgr_contraction", edges, "--order=2,1", "--max_cycles=2", "--directed=false", "--forbidden=%d,%d" % (start, end)]
    for name in WHOLE:
        yield [name, edges]


def run(words, limit):
    """Milliseconds and greatest resident kilobytes of a process, or none where it passes the limit of seconds or fails.

    A process of ours would count what this one holds too, so GNU time tells the memory; without it, it is 0."""
    with open(os.devnull, "wb") as nothing, tempfile.NamedTemporaryFile("r") as told:
        timed = ["/usr/bin/time", "-f", "%M", "-o", told.name] if os.path.exists("/usr/bin/time") else []
        began = time.perf_counter()
        status = subprocess.call([*timed, "timeout", str(limit), *words], stdout=nothing, stderr=nothing)
        lasted = (time.perf_counter() - began) * 1e3
        return (lasted, int(told.read().split()[-1]) if timed else 0) if status == 0 else None


def best(words, count, limit):
    runs = [run(words, limit) for _ in range(count)]
    return None if None in runs else (min(ms for ms, _ in runs), max(kb for _, kb in runs))


def growth(points):
    """The exponent of time over size, from the first to the last size."""
    points = [(size, ms) for size, ms in points if ms]
    if len(points) < 2:
        return "-"
    (a, s), (b, t) = points[0], points[-1]
    return "%.2f" % (math.log(t / s) / math.log(b / a))


def measure(given, twin, folder):
    sizes = [int(size) for size in given.sizes.split(",")]
    for kind in given.kinds.split(","):
        times = {}
        print("\n| %s, function | edges | pgr / twin | pgr / reading | memory, pgr / twin |\n|---|---|---|---|---|" % kind)
        for size in sizes:
            made = tables(kind, size, given.seed, folder)
            reading = best([twin, "read", "--edges=" + made[0]("edges")], given.best, given.limit)
            for words in [words for words in jobs(*made) if given.only in words[0]]:
                ours, theirs = best([given.pgr, *words], given.best, given.limit), best([twin, *words], given.best, given.limit)
                name = " ".join([words[0]] + [word for word in words[1:] if word.startswith("--order")])
                times.setdefault(name, []).append((size, ours and ours[0]))
                ratios = ["over the limit"] * 3
                if ours and theirs:
                    ratios = ["%.1f" % (ours[0] / theirs[0]), "%.1f" % (ours[0] / reading[0]), "%.1f" % (ours[1] / theirs[1]) if theirs[1] else "-"]
                print("| `%s` | %d | %s |" % (name, size, " | ".join(ratios)), flush=True)
        print("\n| %s, function | growth: exponent of the time of pgr over edges |\n|---|---|" % kind)
        for name, points in times.items():
            print("| `%s` | %s |" % (name, growth(points)))


def output(words):
    return subprocess.run(words, stdout=subprocess.PIPE, check=True, text=True).stdout


def compared(words, rows):
    """What of an answer is the same for all: of routes their ends and costs, of a reach all but the tree, of a flow what leaves its source."""
    rows = [row.split(",") for row in rows]
    if words[0] in ("pgr_dijkstra", "pgr_aStar", "pgr_withPoints", "pgr_trsp", "pgr_KSP"):
        return [(row[1:2] if words[0] == "pgr_KSP" else []) + row[-6:-4] + row[-1:] for row in rows if row[-3] == "-1"]
    if words[0] == "pgr_drivingDistance":
        return [[row[k] for k in (0, 2, 4, 7)] for row in rows]
    if words[0] == "pgr_edmondsKarp":
        start = words[2].split("=")[1]
        return sum(int(row[4]) * ((row[2] == start) - (row[3] == start)) for row in rows)
    return rows


def check(given, twin, folder):
    """The answers of the two are the same, as far as they are said."""
    differ = count = 0
    for kind in given.kinds.split(","):
        for size in (2, 8, 60):
            for words in [words for words in jobs(*tables(kind, size, given.seed, folder)) if given.only in words[0]]:
                answers = [compared(words, output([program, *words]).splitlines()[1:]) for program in (given.pgr, twin)]
                count += 1
                if answers[0] != answers[1]:
                    differ += 1
                    print("differ: %s\n  pgr:  %s\n  twin: %s" % (" ".join(words), *answers))
    print("%d questions, %d answered differently" % (count, differ))
    return 1 if differ else 0


def main():
    options = argparse.ArgumentParser(description=__doc__, formatter_class=argparse.RawDescriptionHelpFormatter)
    options.add_argument("--pgr", default=os.path.join(HERE, "..", "crates", "pgr_cli", "out", "pgr_cli"))
    options.add_argument("--sizes", default="10000,100000")
    options.add_argument("--kinds", default="grid,random")
    options.add_argument("--best", type=int, default=3)
    options.add_argument("--seed", type=int, default=1)
    options.add_argument("--limit", type=int, default=600)
    options.add_argument("--only", default="")
    options.add_argument("--check", action="store_true")
    given = options.parse_args()
    with tempfile.TemporaryDirectory(prefix="pgr_bench_") as folder:
        twin = os.path.join(folder, "twin")
        subprocess.run(["g++", "-O2", "-std=c++17", "-o", twin, os.path.join(HERE, "twin.cpp")], check=True)
        sys.exit(check(given, twin, folder) if given.check else measure(given, twin, folder))


main()
