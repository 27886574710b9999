#!/usr/bin/env python3
"""Runs on made input: what a plain program gives for small numbers of sequences, for each engine, and what is refused."""
import functools
import itertools
import sys

sys.dont_write_bytecode = True
from rows import ENGINES, Rows, run, searches, write

USAGE = b"desq: usage: desq --support N [options] EXPR [FILE]\n"
WRITE_FAULT = b"desq: write fault\n"


class Draws:
    """A linear congruential generator: each draw steps on and takes the upper 31 bits."""

    def __init__(self, state):
        self.state = state

    def draw(self, most):
        self.state = (6364136223846793005 * self.state + 1442695040888963407) % 2**64
        return (self.state >> 33) % most


def made(count):
    """The made sequences, as the numbers of their words."""
    draws = Draws(count)
    return [[min(draws.draw(100), draws.draw(100)) for _ in range(1 + draws.draw(12))] for _ in range(count)]


def classes(word):
    """The classes right above a word."""
    return {f"c{word % 10}"} | ({f"c{word // 10}"} if word % 3 == 0 else set())


def above(word):
    """The word and all that stands above it, by name."""
    return {f"w{word}", "top"} | classes(word)


def beside(words):
    """What `.*(.^)(c3).*` generates: an item above a word, and the word behind it where that is of the class c3."""
    return {(over, f"w{second}") for first, second in itertools.pairwise(words) if "c3" in classes(second)
            for over in above(first)}


def apart(words):
    """What `.*(c1^).*(c5^=).*` generates: a word of c1 or c1 itself, and c5 where a word of c5 stands behind it."""
    return {(over, "c5") for first, second in itertools.combinations(words, 2)
            if "c1" in classes(first) and "c5" in classes(second) for over in (f"w{first}", "c1")}


def ends(words):
    """What `(.).*(.)` generates: the first word and the last one, of two or more."""
    return {(f"w{words[0]}", f"w{words[-1]}")} if len(words) > 1 else set()


@functools.lru_cache(maxsize=None)
def summary(count, support, generated):
    """The summary of the answer, from what each sequence generates."""
    supports = {}
    for words in made(count):
        for pattern in generated(words):
            supports[pattern] = supports.get(pattern, 0) + 1
    frequent = {pattern: number for pattern, number in supports.items() if number >= support}
    longest = max(map(len, frequent), default=0)
    return f"generated {count} patterns {len(frequent)} support {sum(frequent.values())} longest {longest}\n".encode()


rows = Rows()
many = (0, summary(100_000, 1_000, beside), b"")
simulated = [f"{engine} --simulate 7" for engine in ("dfs", "pivot")]
for search, by in (*searches((*ENGINES, *simulated)), ([], "by no engine that is named")):
    def made_by(support, count, expression):
        return run("--support", str(support), "--generated", str(count), expression, *search)

    rows.ends(f"each of seven sequences is under top, {by}", made_by(7, 7, ".*(top^=).*"),
              (0, b"generated 7 patterns 1 support 7 longest 1\n", b""))
    rows.ends(f"no pattern reaches the support, {by}", made_by(6, 5, "(.)"),
              (0, b"generated 5 patterns 0 support 0 longest 0\n", b""))
    rows.ends(f"one sequence, {by}", made_by(1, 1, ".*(top^=).*"),
              (0, b"generated 1 patterns 1 support 1 longest 1\n", b""))
    rows.ends(f"a million sequences, {by}", made_by(1_000_000, 1_000_000, ".*(top^=).*"),
              (0, b"generated 1000000 patterns 1 support 1000000 longest 1\n", b""))
    for expression, generated in ((".*(.^)(c3).*", beside), (".*(c1^).*(c5^=).*", apart), ("(.).*(.)", ends)):
        for count, support in ((1, 1), (2, 1), (12, 1), (12, 2), (100, 3), (1_000, 5)):
            rows.ends(f"{count} sequences with support {support}, {expression}, {by}",
                      made_by(support, count, expression), (0, summary(count, support, generated), b""))
    for which in ("first", "second"):
        rows.ends(f"a hundred thousand sequences, {by}, the {which} run", made_by(1_000, 100_000, ".*(.^)(c3).*"), many)
rows.hold("a hundred thousand sequences have patterns", b" patterns 0 " not in many[1])
rows.ends("the work of counting", run("--support", "7", "--generated", "7", ".*(top^=).*", "--engine", "count", "--stats"),
          (0, b"generated 7 patterns 1 support 7 longest 1\n", b"desq: nodes 0 parts 0 candidates 7\n"))
rows.ends("the work of counting sets",
          run("--support", "7", "--generated", "7", ".*(top^=).*", "--engine", "cand", "--stats"),
          (0, b"generated 7 patterns 1 support 7 longest 1\n", b"desq: nodes 0 parts 1 candidates 0\n"))
rows.ends("the work of a search", run("--support", "7", "--generated", "7", ".*(top^=).*", "--stats"),
          (0, b"generated 7 patterns 1 support 7 longest 1\n", b"desq: nodes 2 parts 1 candidates 0\n"))

# Each item has its name, and no other name is known.
for name in ("w0", "w99", "c0", "c9", "top"):
    rows.ends(f"the item {name}", run("--support", "9", "--generated", "3", f".*({name}).*"),
              (0, b"generated 3 patterns 0 support 0 longest 0\n", b""))
for name in ("w100", "w00", "c10", "c", "Top", "w-1"):
    end = run("--support", "1", "--generated", "3", f"({name})")
    rows.hold(f"no item {name}", end[:2] == (3, b"") and b": column " in end[2], repr(end))
rows.ends("an unknown name", run("--support", "1", "--generated", "3", "(w100)"),
          (3, b"", b"desq: expression: column 2: unknown name\n"))
rows.ends("an expression that ends too early", run("--support", "1", "--generated", "3", "("),
          (3, b"", b"desq: expression: column 2: unexpected\n"))
with open("/dev/full", "wb") as full:
    rows.ends("a device that is full", run("--support", "1", "--generated", "3", "(.)", stdout=full), (6, b"", WRITE_FAULT))

# What is refused.
lines = write("lines", "a b\n")
for words in ("--generated 0 (.)", "--generated 1000001 (.)", "--generated -1 (.)", "--generated= (.)", "--generated x (.)",
              "--generated 1.0 (.)", "(.) --generated", "--generated 3", "--generated 3 --generated 3 (.)",
              f"--generated 3 (.) {lines}", f"--generated 3 --hierarchy {lines} (.)", "--generated 3 --weighted (.)",
              "--generated 3 --max-gap 1 (.)", "--generated 3 --max-gap 1", "--generated 3 --min-length 1 (.)",
              "--generated 3 --max-length 5 (.)", "--generated 3 --generalize (.)",
              "--generated 3 --engine count --simulate 7 (.)", "--generated 3 --engine cand --simulate 7 (.)"):
    rows.ends(f"no command: {words}", run("--support", "1", *words.split()), (2, b"", USAGE))
rows.ends("zeros in front of a number", run("--support", "007", "--generated", "0007", ".*(top^=).*"),
          (0, b"generated 7 patterns 1 support 7 longest 1\n", b""))
rows.finish()
