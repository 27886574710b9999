#!/usr/bin/env python3
"""The engine that is named is the one that runs: `--stats` tells the work of each, which differs where there
are several pivots. Each number is counted by hand from what the words of the line mean."""
import sys

sys.dont_write_bytecode = True
from rows import MODES, Rows, run, running_example, searches, write

rows = Rows()


def stats(nodes, parts, candidates):
    return f"desq: nodes {nodes} parts {parts} candidates {candidates}\n".encode()


def check(name, words, answer, works):
    """Rows: each engine gives the answer and tells its own work, with any number of workers, and simulated.
    """
    def ends(how, more, engine):
        rows.ends(f"{name}, {how}", run(*words, *more, "--stats"), (0, answer, stats(*works[engine])))
    simulated = [f"{engine} --simulate {seed}" for engine in ("dfs", "pivot") for seed in (0, 7)]
    for search, by in searches((*MODES, *simulated)):
        ends(by, search, search[1])
    ends("no engine is named", [], "dfs")
    ends("no engine is named, with a seed", ["--simulate", "7"], "dfs")


# Each x begins a pattern alone and one with its y, twice. A sequence has two candidates. The root has 40
# kids, each with one. The pivot of `x` is x, with the prefixes of no item and of x; that of `x y` is y, with
# three prefixes: all items are as frequent, so the pivot is the last by name. Both sequences of a pivot have the
# same candidates with it.
pairs = write("pairs", "".join(f"x{number} y{number}\n" * 2 for number in range(40)))
numbers = sorted(map(str, range(40)))
check("40 pairs", ["--support", "2", "(.)[(.)|.]", pairs],
      "".join(f"2\tx{number}\n2\tx{number} y{number}\n" for number in numbers).encode(),
      {"count": (0, 0, 160), "dfs": (81, 1, 0), "pivot": (200, 80, 0), "cand": (0, 80, 0)})
# Here the second item is written alone as well: a sequence has three candidates, the root has 80 kids, and
# the pivot y has the prefixes of no item, of y, of x and of `x y`.
check("40 pairs under a gap", ["--support", "2", "--max-gap", "0", "--max-length", "2", pairs],
      "".join(sorted([f"2\tx{number}\n2\tx{number} y{number}\n" for number in numbers])
              + [f"2\ty{number}\n" for number in numbers]).encode(),
      {"count": (0, 0, 240), "dfs": (121, 1, 0), "pivot": (240, 80, 0), "cand": (0, 80, 0)})
# The pivots are b, of `a b`, and c. Count has a candidate of each sequence but `d`, which is not frequent.
# The prefixes are those of no item, `a`, `a b` and `c`; by pivots that of no item is there twice. Of
# each pivot the sequences have one set of candidates.
few = write("few", "a b\na b\nc\nc\nd\n")
check("two pivots", ["--support", "2", "(.)(.)?", few], b"2\ta b\n2\tc\n",
      {"count": (0, 0, 4), "dfs": (4, 1, 0), "pivot": (5, 2, 0), "cand": (0, 2, 0)})
# All patterns have the pivot a1, since b and A are in more lines. One line has `a1 b` alone, and two have all three.
kinds, running = running_example()
check("two sets with one pivot", ["--support", "2", "--hierarchy", kinds, ".*(A)[(.^)|.]*(b).*", running],
      b"3\ta1 b\n2\ta1 A b\n2\ta1 a1 b\n",
      {"count": (0, 0, 13), "dfs": (7, 1, 0), "pivot": (7, 1, 0), "cand": (0, 2, 0)})
# A set for each of two lines with the pivot b, which have nothing in common: the pivot has enough lines, no pattern has.
turned = write("turned", "a b\nb a\n")
check("two sets with nothing in common", ["--support", "2", "(.)(.)", turned], b"",
      {"count": (0, 0, 2), "dfs": (1, 1, 0), "pivot": (1, 1, 0), "cand": (0, 2, 0)})
# Weights reach the support, and are no pairs: one line of `a b`, one of `c`.
weighted = write("weighted", "3 a b\n2 c\n1 d\n")
check("two pivots of weighted lines", ["--support", "2", "--weighted", "(.)(.)?", weighted],
      b"3\ta b\n2\tc\n",
      {"count": (0, 0, 2), "dfs": (4, 1, 0), "pivot": (5, 2, 0), "cand": (0, 2, 0)})
# Nothing is frequent: no prefix, no part, no pair.
check("no pattern", ["--support", "3", "(.)(.)?", few], b"",
      {"count": (0, 0, 0), "dfs": (0, 0, 0), "pivot": (0, 0, 0), "cand": (0, 0, 0)})
rows.finish()
