#!/usr/bin/env python3
"""Writes OPB instances of problems from the literature into this folder, within the limits of Dalelead's reader.

The problems are those on which aggregate solvers are usually tried: the pigeonhole problem, magic series, social golfer and
weight-bounded dominating set, each as linear constraints over 0-1 variables. The same program writes the same bytes: run it here, and
`git diff` shows nothing.
"""

import os

HERE = os.path.dirname(os.path.abspath(__file__))


class Plan:
    """Variables by name, numbered as they are first asked for, and constraints."""

    def __init__(self, comment):
        self.comment = comment
        self.numbers = {}
        self.lines = []
        self.sentences = 0
        self.entries = 0

    def var(self, *name):
        return self.numbers.setdefault(name, len(self.numbers) + 1)

    def add(self, terms, relation, right):
        """Terms are pairs of a weight and a variable; relation is '>=', '=' or '<=', which is written as '>=' negated."""
        assert terms
        if relation == "<=":
            terms, relation, right = [(-w, x) for w, x in terms], ">=", -right
        copies = 2 if relation == "=" else 1
        self.sentences += copies
        self.entries += copies * len(terms)
        written = " ".join("%+d x%d" % term for term in terms)
        self.lines.append("%s %s %d ;\n" % (written, relation, right))

    def write(self, name):
        variables, constraints = len(self.numbers), len(self.lines)
        text = "* #variable= %d #constraint= %d\n* %s\n%s" % (variables, constraints, self.comment, "".join(self.lines))
        assert variables + constraints <= 1024, (name, variables + constraints)
        assert self.sentences <= 256, (name, self.sentences)
        assert self.entries <= 4096, (name, self.entries)
        assert len(text) <= 65536, (name, len(text))
        with open(os.path.join(HERE, name), "w", newline="\n") as out:
            out.write(text)


def pigeonhole(pigeons, holes):
    """Every pigeon in a hole, and no two in one."""
    plan = Plan("pigeonhole: %d pigeons, %d holes" % (pigeons, holes))
    at = [[plan.var(p, h) for h in range(holes)] for p in range(pigeons)]
    for p in range(pigeons):
        plan.add([(1, at[p][h]) for h in range(holes)], ">=", 1)
    for h in range(holes):
        plan.add([(1, at[p][h]) for p in range(pigeons)], "<=", 1)
    plan.write("pigeonhole-%d-%d.opb" % (pigeons, holes))


def magic_series(n):
    """f from 0 to n - 1, where f(i) is how many k have f(k) = i. The variable of f(i) = i stands twice in a constraint."""
    plan = Plan("magic series of length %d" % n)
    f = [[plan.var(i, j) for j in range(n)] for i in range(n)]
    for i in range(n):
        plan.add([(1, f[i][j]) for j in range(n)], "=", 1)
    for i in range(n):
        plan.add([(1, f[k][i]) for k in range(n)] + [(-j, f[i][j]) for j in range(n)], "=", 0)
    plan.write("magic-series-%d.opb" % n)


def social_golfer(weeks, groups, size):
    """Every golfer in one group each week, groups of that size, and no two golfers together more than once. The first week is set."""
    golfers = groups * size
    plan = Plan("social golfer: %d weeks, %d groups of %d" % (weeks, groups, size))
    plays = [[[plan.var("plays", w, g, p) for p in range(golfers)] for g in range(groups)] for w in range(weeks)]
    for w in range(weeks):
        for p in range(golfers):
            plan.add([(1, plays[w][g][p]) for g in range(groups)], "=", 1)
        for g in range(groups):
            plan.add([(1, plays[w][g][p]) for p in range(golfers)], "=", size)
    # The first week's groups in order, as one constraint that leaves no choice.
    plan.add([(1, plays[0][p // size][p]) for p in range(golfers)], ">=", golfers)
    for p in range(golfers):
        for q in range(p + 1, golfers):
            meet = [plan.var("meet", w, p, q) for w in range(weeks)]
            for w in range(weeks):
                for g in range(groups):
                    plan.add([(1, meet[w]), (-1, plays[w][g][p]), (-1, plays[w][g][q])], ">=", -1)
            plan.add([(1, meet[w]) for w in range(weeks)], "<=", 1)
    plan.write("social-golfer-%d-%d-%d.opb" % (weeks, groups, size))


def dominating_set(nodes, edges, most, weight, seed):
    """At most so many nodes, such that each node is chosen, or the chosen ones reach the weight over its edges in, or over those out."""
    plan = Plan("weight-bounded dominating set: %d nodes, %d edges, at most %d, weight %d" % (nodes, edges, most, weight))
    state = seed

    def below(many):
        nonlocal state
        state = (state * 6364136223846793005 + 1442695040888963407) % 2**64
        return (state >> 33) % many

    weights = {}
    while len(weights) < edges:
        a, b = below(nodes), below(nodes)
        if a != b and (a, b) not in weights:
            weights[a, b] = 1 + below(9)
    chosen = [plan.var("chosen", v) for v in range(nodes)]
    plan.add([(1, chosen[v]) for v in range(nodes)], "<=", most)
    for v in range(nodes):
        into, out = plan.var("in", v), plan.var("out", v)
        plan.add([(w, chosen[a]) for (a, b), w in weights.items() if b == v] + [(-weight, into)], ">=", 0)
        plan.add([(w, chosen[b]) for (a, b), w in weights.items() if a == v] + [(-weight, out)], ">=", 0)
        plan.add([(1, chosen[v]), (1, into), (1, out)], ">=", 1)
    plan.write("dominating-set-%d-%d-%d-%d.opb" % (nodes, edges, most, weight))


pigeonhole(3, 2)
pigeonhole(8, 7)
pigeonhole(31, 30)
magic_series(4)
magic_series(10)
magic_series(26)
social_golfer(2, 2, 2)
social_golfer(3, 3, 2)
social_golfer(2, 2, 4)
dominating_set(6, 12, 2, 5, 1)
dominating_set(30, 120, 8, 9, 2)
dominating_set(85, 340, 12, 20, 3)
