"""Cases that are kept: each with a sentence on what is seen there, its table, and what is asked.

Edges are (id, source, target, cost, reverse_cost), points (pid, edge_id, fraction, side). What is asked of a function is as its
maker in questions.py takes it.
"""

CASES = [
    {
        "says": "A bridge whose two costs differ: pgRouting puts two parallel edges in the place of the one, and then finds no bridge.",
        "function": "pgr_bridges", "asked": (),
        "edges": [(1, 1, 2, 0, 1)],
    },
    {
        "says": "The same edge among blocks: pgRouting has a row for each of the two, so that the edge stands twice.",
        "function": "pgr_biconnectedComponents", "asked": (),
        "edges": [(1, 1, 2, 0, 1)],
    },
    {
        "says": "A bridge at the end of which there is a self loop: pgRouting doesn't find it.",
        "function": "pgr_bridges", "asked": (),
        "edges": [(1, 1, 1, 1, -1), (2, 1, 2, 1, -1), (3, 2, 3, 1, -1)],
    },
    {
        "says": "Two edges between the same vertices close a circle and are one block; pgRouting puts them into different ones.",
        "function": "pgr_biconnectedComponents", "asked": (),
        "edges": [(1, 1, 2, 1, -1), (2, 1, 2, 1, -1), (3, 2, 3, 1, -1)],
    },
    {
        "says": "A start that no edge has: pgRouting answers that it reaches itself, pgr that there is no such vertex.",
        "function": "pgr_drivingDistance", "asked": ([1, 9], 1, True),
        "edges": [(1, 1, 2, 1, -1)],
    },
    {
        "says": "Costs beyond 2^53: numbers of floating point have no 9007199254740993, so the sum of 2^53 and 1 is one too low.",
        "function": "pgr_dijkstraCost", "asked": ([1], [3], True),
        "edges": [(1, 1, 2, 9007199254740992, -1), (2, 2, 3, 1, -1)],
    },
    {
        "says": "One self loop: pgRouting ends the server by a segmentation fault; a self loop is a block of its own.",
        "function": "pgr_biconnectedComponents", "asked": (),
        "edges": [(1, 1, 1, 1, -1)],
    },
    {
        "says": "An undirected edge with two costs: the route of pgr_aStar shows it twice at one vertex, and costs the sum of both.",
        "function": "pgr_aStar", "asked": ([1], [2], False, 0),
        "edges": [(1, 1, 2, 2, 1)], "places": {1: (0, 0), 2: (1, 0)},
    },
    {
        "says": "An estimate that is too high: pgRouting's route costs 3, where one of cost 2 leads over a vertex that lies far off.",
        "function": "pgr_aStar", "asked": ([1], [4], True, 5),
        "edges": [(1, 1, 2, 1, -1), (2, 2, 4, 1, -1), (3, 1, 3, 1, -1), (4, 3, 4, 2, -1)],
        "places": {1: (0, 0), 2: (9, 9), 3: (0, 1), 4: (1, 1)},
    },
    {
        "says": "Two parallel edges: pgRouting has one route of the two, so fewer than K though there are more.",
        "function": "pgr_KSP", "asked": (1, 2, 2, True),
        "edges": [(1, 1, 2, 1, -1), (2, 1, 2, 2, -1)],
    },
    {
        "says": "A way round that turns at a dead end, over edge 3 and back: pgRouting doesn't find it.",
        "function": "pgr_trsp", "asked": ([1], [3], True),
        "edges": [(1, 1, 2, 1, -1), (2, 2, 3, 1, -1), (3, 2, 5, 1, 1)], "restrictions": [[1, 2]],
    },
    {
        "says": "An undirected edge with two costs, where the least route meets a restriction: pgRouting then takes the dearer one.",
        "function": "pgr_trsp", "asked": ([1], [3], False),
        "edges": [(1, 1, 2, 1, 1), (2, 2, 3, 1, 1), (3, 1, 3, 5, 4)], "restrictions": [[1, 2]],
    },
    {
        "says": "A restriction of one edge: pgRouting takes the edge all the same.",
        "function": "pgr_trsp", "asked": ([1], [3], True),
        "edges": [(1, 1, 2, 1, -1), (2, 2, 3, 1, -1), (3, 1, 3, 4, -1)], "restrictions": [[1]],
    },
    {
        "says": "A point on the left that no link on its side passes, since the edge leads one way: pgRouting lets it be reached from the right.",
        "function": "pgr_withPoints", "asked": ([1], [-1], True, "r", True),
        "edges": [(1, 1, 2, 4, -1)], "points": [(1, 1, "0.5", "l")],
    },
    {
        "says": "Without details pgRouting leaves out a vertex too, where a route turns onto the edge that it came over.",
        "function": "pgr_withPoints", "asked": ([1], [-1], True, "r", False),
        "edges": [(1, 1, 2, 4, 8)], "points": [(1, 1, "0.5", "l")],
    },
    {
        "says": "From point 2 back to 1 costs 2; pgRouting lets this link lead to point 1 in place of vertex 1, though it is on the other side.",
        "function": "pgr_withPoints", "asked": ([2], [-1], True, "l", True),
        "edges": [(1, 1, 2, 4, 4)], "points": [(1, 1, "0.25", "l"), (2, 1, "0.5", "b")],
    },
    {
        "says": "A point at half of a cost of 3: pgRouting's parts cost 1.5 each, those of pgr are whole numbers, 1 and 2.",
        "function": "pgr_withPoints", "asked": ([1], [-1, 2], True, "b", True),
        "edges": [(1, 1, 2, 3, 3)], "points": [(1, 1, "0.5", "b")],
    },
    {
        "says": "A vertex that is source and sink: pgRouting ends with an error; pgr answers 0.",
        "function": "pgr_maxFlow", "asked": ([1, 2], [2]),
        "edges": [(1, 1, 2, 3, -1)],
    },
]
