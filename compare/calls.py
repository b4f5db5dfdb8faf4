#!/usr/bin/env python3
"""The lines and the table of calls of docs/FROM-PGROUTING.md, run on the sample tables of pgRouting's documentation.

    compare/calls.py [--pgr PROGRAM] [--show]

It loads sample.sql into a cluster of its own, as compare.py does, runs each line of export, then each command of the table of
calls over the files that came out, and the call of pgRouting beside it. Printed is how many rows each has, or the message, and how
many rows are in both, by the columns that both have but the numbers of rows; costs of placed.csv are a hundred times as great.
Status 1 where a line or a command fails, or has other columns than the page says.
"""
import argparse
import csv
import os
import re
import shlex
import subprocess
import sys
import tempfile

from compare import HERE, Cluster

PAGE = os.path.join(HERE, "..", "docs", "FROM-PGROUTING.md")
TEXTS = {
    "edges": "$$SELECT * FROM edges$$", "combinations": "$$SELECT * FROM combinations$$",
    "restrictions": "$$SELECT path, cost FROM restrictions$$",
    "points": "$$SELECT pid, edge_id, fraction, side FROM pointsofinterest$$",
    "capacities": "$$SELECT id, source, target, capacity, reverse_capacity FROM edges$$",
}


def export(cluster, line, folder):
    """Runs a line of the page in the folder; what psql says of it, which is nothing where all is well."""
    command = ["psql", "-X", "-q", "-h", cluster.folder, "-U", "asker", "-d", "postgres", "-v", "ON_ERROR_STOP=1"]
    return subprocess.run(command, input=line + "\n", text=True, capture_output=True, cwd=folder).stderr.strip()


def calls(page):
    """The rows of the table of calls: the call, the command, the columns."""
    before, of = "", {}
    for call, command, columns in re.findall(r"^\| (`pgr_.*?`|no such call) \| `pgr (.*?)` \| (.*?) \|$", page, re.M):
        named = re.match(r"(?:those of )?`([\w,]+)`$", columns)
        before = of.get(named.group(1), named.group(1)) if named else before
        of.setdefault(command.split()[0], before)
        yield call.strip("`"), command, before


def ours(program, command, folder):
    """The header and the rows of pgr, or its message."""
    run = subprocess.run([program, *shlex.split(command)], text=True, capture_output=True, cwd=folder)
    if run.returncode:
        return run.stderr.strip(), None
    lines = run.stdout.splitlines()
    return lines[0], list(csv.reader(lines[1:]))


def theirs(cluster, call):
    """The header and the rows of pgRouting, or its message."""
    text = re.sub(r"(?<=[(, ])(%s)(?=[,)])" % "|".join(TEXTS), lambda found: TEXTS[found.group(1)], call)
    command = ["psql", "-X", "-q", "-h", cluster.folder, "-U", "asker", "-d", "postgres", "--csv", "-v", "ON_ERROR_STOP=1"]
    run = subprocess.run(command, input="SELECT * FROM " + text, text=True, capture_output=True)
    if run.returncode:
        return run.stderr.strip(), None
    lines = list(csv.reader(run.stdout.splitlines()))
    return ["start_vid" if name == "from_v" else name.replace("pgr_maxflow", "max_flow") for name in lines[0]], lines[1:]


def in_both(columns, rows, other, others, scale):
    """The columns that both have, and how many rows are in both by these."""
    shared = [name for name in columns if name in other and name != "seq"]

    def values(header, row, by):
        for name in shared:
            word = row[header.index(name)]
            number = re.match(r"-?[0-9.]+$", word)
            yield round(float(word) / (by if name in ("cost", "agg_cost") else 1), 9) if number else word

    left = [tuple(values(other, row, 1)) for row in others]
    count = 0
    for row in rows:
        found = tuple(values(columns, row, scale))
        if found in left:
            left.remove(found)
            count += 1
    return shared, count


def main():
    options = argparse.ArgumentParser(description=__doc__, formatter_class=argparse.RawDescriptionHelpFormatter)
    options.add_argument("--pgr", default=os.path.join(HERE, "..", "bin", "pgr"))
    options.add_argument("--show", action="store_true", help="print the rows of both")
    given = options.parse_args()
    program, failed = os.path.realpath(given.pgr), 0
    with open(PAGE, encoding="utf-8") as file:
        page = file.read()
    with Cluster() as cluster, tempfile.TemporaryDirectory(prefix="pgr_calls_") as folder:
        cluster.ask("DROP TABLE IF EXISTS edges, points, restrictions, places, vertices, combinations, pointsofinterest")
        with open(os.path.join(HERE, "sample.sql"), encoding="utf-8") as file:
            said = cluster.ask(file.read())
        print("the sample tables: %s" % (said if isinstance(said, str) else "loaded"))
        for line in re.findall(r"^\\copy \(.*$", page, re.M):
            said = export(cluster, line, folder)
            failed += bool(said)
            print("%-17s %s" % (re.search(r"'(\w+\.csv)'", line).group(1), said or "written"))
        print("\n| Command | Rows of `pgr` | Rows of pgRouting | Rows in both | by |\n|---|---|---|---|---|")
        for call, command, columns in calls(page):
            header, rows = ours(program, command, folder)
            right = header == columns
            failed += not right
            other, others = theirs(cluster, call) if call.startswith("pgr_") else ("no such call", None)
            shared, count = [], ""
            if right and others is not None:
                shared, count = in_both(columns.split(","), rows, other, others, 100 if "placed.csv" in command else 1)
            print("| `%s` | %s | %s | %s | %s |" % (command, len(rows) if right else "WRONG: " + header,
                                               other if others is None else len(others), count, ",".join(shared)))
            if given.show:
                print("  pgr:       %s\n  pgRouting: %s" % (rows, others))
    sys.exit(1 if failed else 0)


main()
