#!/usr/bin/env python3
"""The same questions to pgr and to pgRouting, over small tables, judged by a third program.

    compare/compare.py [--pgr PROGRAM] [--trials N] [--seed N] [--only NAME] [--show N] [--simple]

It makes a cluster of PostgreSQL under a temporary folder, which it ends and removes, and needs no running server. Wanted
are Debian's postgresql-15-pgrouting and psql; as root it runs the server as the user postgres. The judge is judge.py,
which reads no code of the other two: it looks at all vertices and edges of tables so small that no search is needed.
Printed is a line for each function, with how many answers agree, and the smallest tables where the two differ.
"""
import argparse
import csv
import os
import pwd
import random
import shutil
import signal
import subprocess
import sys
import tempfile
import time

import questions
from cases import CASES
from judge import Table

HERE = os.path.dirname(os.path.realpath(__file__))
SERVER = "/usr/lib/postgresql/15/bin"


class Cluster:
    """A cluster of its own in a folder, reached by a socket there."""

    def __init__(self):
        self.folder = tempfile.mkdtemp(prefix="pgr_compare_")
        self.data = os.path.join(self.folder, "data")
        self.user = "postgres" if os.getuid() == 0 else None
        if self.user:
            entry = pwd.getpwnam(self.user)
            os.chown(self.folder, entry.pw_uid, entry.pw_gid)

    def __enter__(self):
        try:
            self.tool("initdb", "-D", self.data, "-A", "trust", "-N", "-U", "asker")
            options = "-k %s -c listen_addresses='' -c fsync=off" % self.folder
            self.tool("pg_ctl", "-D", self.data, "-o", options, "-l", os.path.join(self.folder, "log"), "-w", "start")
            self.ask("CREATE EXTENSION postgis")
            self.ask("CREATE EXTENSION pgrouting")
            self.ask("CREATE TABLE edges (id bigint, source bigint, target bigint, cost float8, reverse_cost float8)")
            self.ask("CREATE TABLE points (pid bigint, edge_id bigint, fraction float8, side char)")
            self.ask("CREATE TABLE restrictions (path bigint[])")
            self.ask("CREATE TABLE places (id bigint, x float8, y float8)")
        except BaseException:
            self.__exit__()
            raise
        return self

    def __exit__(self, *_):
        if os.path.exists(os.path.join(self.data, "postmaster.pid")):
            try:
                self.tool("pg_ctl", "-D", self.data, "-m", "immediate", "stop")
            except subprocess.CalledProcessError:
                print("the cluster in %s could not be ended" % self.folder, file=sys.stderr)
        shutil.rmtree(self.folder, ignore_errors=True)

    def tool(self, name, *words):
        command = ["nice", "-n", "19", os.path.join(SERVER, name), *words]
        subprocess.run(command, check=True, stdin=subprocess.DEVNULL, stdout=subprocess.DEVNULL,
                       stderr=subprocess.DEVNULL, user=self.user, cwd=self.folder)

    def ask(self, text):
        """The rows of a query as lists of words, or the text of its error in a line."""
        command = ["psql", "-X", "-q", "-h", self.folder, "-U", "asker", "-d", "postgres", "-AtF,", "-v", "ON_ERROR_STOP=1"]
        for _ in range(50):
            run = subprocess.run(command, input=text, text=True, capture_output=True)
            if "connection to server on socket" not in run.stderr:
                break
            time.sleep(0.2)  # a query before this one ended the server, which begins again
        if run.returncode:
            return "error: " + (run.stderr.strip().splitlines() or ["no answer"])[0].split("ERROR:")[-1].strip()
        return [line.split(",") for line in run.stdout.splitlines()]

    def ask_all(self, texts):
        """What `ask` says of each query, by one call of psql where none of them is refused."""
        parts = [[]]
        for row in self.ask("\n\\echo ;;\n".join(text + ";" for text in texts)):
            if isinstance(row, str):
                return [self.ask(text) for text in texts]
            if row == [";;"]:
                parts.append([])
            else:
                parts[-1].append(row)
        return parts if len(parts) == len(texts) else [self.ask(text) for text in texts]

    def load(self, table):
        text = ["TRUNCATE edges, points, restrictions, places;"]
        text += ["INSERT INTO edges VALUES (%d,%d,%d,%d,%d);" % row for row in table.edges]
        text += ["INSERT INTO points VALUES (%d,%d,%s,'%s');" % row for row in table.points]
        text += ["INSERT INTO restrictions VALUES ('{%s}');" % questions.joined(path) for path in table.restrictions]
        text += ["INSERT INTO places VALUES (%d,%d,%d);" % (v, x, y) for v, (x, y) in (table.places or {}).items()]
        self.ask("\n".join(text))


def write(folder, name, header, rows):
    path = os.path.join(folder, name)
    with open(path, "w", encoding="utf-8") as file:
        file.write("\n".join([header] + [",".join(map(str, row)) for row in rows]) + "\n")
    return path


def ask_pgr(program, folder, table, question):
    """The rows of pgr as lists of words, or its message."""
    header, rows = "id,source,target,cost,reverse_cost", table.edges
    if "capacities" in question.tables:
        header = header.replace("cost", "capacity")
    if "places" in question.tables:
        header, rows = header + ",x1,y1,x2,y2", [(*row, *table.places[row[1]], *table.places[row[2]]) for row in rows]
    words = [question.function, "--edges=" + write(folder, "edges.csv", header, rows)]
    if "points" in question.tables:
        words.append("--points=" + write(folder, "points.csv", "pid,edge_id,fraction,side", table.points))
    if "restrictions" in question.tables:
        paths = [('"{%s}"' % questions.joined(path),) for path in table.restrictions]
        words.append("--restrictions=" + write(folder, "restrictions.csv", "path", paths))
    run = subprocess.run([program, *words, *question.words], text=True, capture_output=True)
    if run.returncode:
        return "status %d: %s" % (run.returncode, run.stderr.strip())
    return list(csv.reader(run.stdout.splitlines()))[1:]


def verdict(question, table, ours, theirs):
    right = question.right(table, question.asked)
    us = ours if isinstance(ours, str) else question.read(ours, True)
    them = theirs if isinstance(theirs, str) else question.read(theirs, False)
    return question.accepts(us, right), question.accepts(them, right), us, them, right


def trials(program, cluster, given):
    """How many questions of each name there were and how many were answered rightly by each, and those where some answer is wrong."""
    r = random.Random(given.seed)
    agree, differ = {}, {}
    folder = tempfile.mkdtemp(prefix="pgr_compare_")
    for _ in range(given.trials):
        asked = [(table, question) for table, question in questions.questions(r, given.simple) if given.only in question.name]
        for table in {id(table): table for table, _ in asked}.values():
            about = [question for of, question in asked if of is table]
            cluster.load(table)
            for question, theirs in zip(about, cluster.ask_all([question.query for question in about])):
                ours = ask_pgr(program, folder, table, question)
                our, their, us, them, right = verdict(question, table, ours, theirs)
                counts = agree.setdefault(question.name, [0, 0, 0])
                counts[0] += 1
                counts[1] += our
                counts[2] += their
                if not (our and their):
                    kept = differ.setdefault((question.name, our, their), [])
                    kept.append((len(table.edges), table, question, us, them, right))
    shutil.rmtree(folder)
    return agree, differ


def show(table, question, us, them, right):
    name = "edges (id,source,target,%s): " % ("capacity,reverse_capacity" if "capacities" in question.tables else "cost,reverse_cost")
    print("  " + name + " ".join("(%d,%d,%d,%d,%d)" % row for row in table.edges))
    if "points" in question.tables:
        print("  points (pid,edge_id,fraction,side): " + " ".join("(%d,%d,%s,%s)" % row for row in table.points))
    if "restrictions" in question.tables:
        print("  restrictions: " + " ".join("{%s}" % questions.joined(path) for path in table.restrictions))
    if "places" in question.tables:
        print("  places:     " + " ".join("%d at (%d,%d)" % (v, x, y) for v, (x, y) in table.places.items()))
    print("  asked:      %s %s" % (question.function, " ".join(question.words)))
    print("  judge:      %s" % (right,))
    print("  pgr:        %s" % (us,))
    print("  pgRouting:  %s" % (them,))


def known(program, cluster, only):
    """The cases that are kept: each with its sentence and both answers."""
    folder = tempfile.mkdtemp(prefix="pgr_compare_")
    for case in [case for case in CASES if only in case["function"]]:
        question = questions.question(case["function"], case["asked"])
        table = Table(case["edges"], case.get("points", ()), case.get("restrictions", ()), case.get("places"))
        cluster.load(table)
        answers = [cluster.ask(question.query) for _ in range(5)]
        ours = ask_pgr(program, folder, table, question)
        our, their, us, them, right = verdict(question, table, ours, answers[0])
        state = "the same as the judge" if their else "not the answer of the judge"
        varies = "" if all(answer == answers[0] for answer in answers) else ", and not the same at each of five runs"
        print("\n%s\n  pgr is %s, pgRouting is %s%s" % (case["says"], "as the judge" if our else "NOT as the judge", state, varies))
        show(table, question, us, them, right)
    shutil.rmtree(folder)


def order_of_rows(cluster):
    """Two routes of equal cost: which one pgRouting answers, by the order of the rows of the table."""
    rows = [(1, 1, 2, 1, -1), (2, 2, 4, 1, -1), (3, 1, 3, 1, -1), (4, 3, 4, 1, -1)]
    cluster.load(Table(rows))
    answers = []
    for order in ("ASC", "DESC"):
        query = "SELECT * FROM pgr_dijkstra($$SELECT * FROM edges ORDER BY id %s$$, 1, 4)" % order
        answers.append([row[3] for row in cluster.ask(query)])
    print("\nTwo routes of equal cost, over the edges 1 and 2, and 3 and 4. pgRouting's edges are %s where the rows rise by id and %s"
          " where they fall; pgr has one answer, the first in its order." % tuple(" ".join(edges) for edges in answers))


def main():
    options = argparse.ArgumentParser(description=__doc__, formatter_class=argparse.RawDescriptionHelpFormatter)
    options.add_argument("--pgr", default=os.path.join(HERE, "..", "bin", "pgr"))
    options.add_argument("--trials", type=int, default=100)
    options.add_argument("--seed", type=int, default=1)
    options.add_argument("--only", default="", help="ask only the functions with this in their names")
    options.add_argument("--show", type=int, default=1, help="how many tables to show of each kind of difference")
    options.add_argument("--simple", action="store_true", help="no self loops, no parallel edges, and one cost for each edge")
    given = options.parse_args()
    signal.signal(signal.SIGTERM, lambda *_: sys.exit(1))
    with Cluster() as cluster:
        print("pgRouting %s, %d tables, seed %d" % (cluster.ask("SELECT pgr_version()")[0][0], given.trials, given.seed))
        agree, differ = trials(given.pgr, cluster, given)
        print("\n| Function | Questions | pgr as the judge | pgRouting as the judge |\n|---|---|---|---|")
        for name, (asked, ours, theirs) in sorted(agree.items()):
            print("| `%s` | %d | %d | %d |" % (name, asked, ours, theirs))
        for (name, our, their), kept in sorted(differ.items()):
            kept.sort(key=lambda entry: entry[0])
            print("\n%s: pgr is %s, pgRouting is %s; %d times. The smallest:" % (
                name, "right" if our else "WRONG", "right" if their else "wrong", len(kept)))
            for entry in kept[:given.show]:
                show(*entry[1:])
        known(given.pgr, cluster, given.only)
        order_of_rows(cluster)


if __name__ == "__main__":
    main()
