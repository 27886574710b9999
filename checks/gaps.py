#!/usr/bin/env python3
"""Runs under a gap and lengths: what the definition by positions gives, for each engine, and what is refused."""
import itertools
import random
import sys

sys.dont_write_bytecode = True
from rows import Rows, run, write

USAGE = b"desq: usage: desq --support N [options] EXPR [FILE]\n"
ENGINES = ("count", "dfs", "pivot", "cand")


def above(links, item):
    """The item and all that stands above it."""
    found, left = {item}, [item]
    while left:
        more = {parent for child, parent in links if child == left[-1]} - found
        left[-1:] = more
        found |= more
    return found


def answer(links, sequences, support, gap, least, most, generalize):
    """The text of the answer: each pattern with items at rising positions, with at most so many between neighbours."""
    supports = {}
    for weight, items in sequences:
        written = [above(links, item) if generalize else {item} for item in items]
        embedded = set()
        for length in range(least, most + 1):
            for positions in itertools.combinations(range(len(items)), length):
                if all(after - before <= gap + 1 for before, after in itertools.pairwise(positions)):
                    embedded.update(itertools.product(*(written[position] for position in positions)))
        for pattern in embedded:
            supports[pattern] = supports.get(pattern, 0) + weight
    frequent = sorted((-number, pattern) for pattern, number in supports.items() if number >= support)
    return "".join(f"{-number}\t{' '.join(pattern)}\n" for number, pattern in frequent).encode()


rows = Rows()
abc = write("abc", "a b c\na x x b\n")
kinds = write("kinds", "a1 A\na2 A\n")
two = write("two", "a1 b\na2 b\n")
for engine in ENGINES:
    rows.ends(f"pairs with at most one item between, by {engine}",
              run("--support", "1", "--max-gap", "1", "--min-length", "2", "--max-length", "2", "--engine", engine, abc),
              (0, b"1\ta b\n1\ta c\n1\ta x\n1\tb c\n1\tx b\n1\tx x\n", b""))
    rows.ends(f"a pair with two items between, by {engine}",
              run("--support", "2", "--max-gap", "2", "--min-length", "2", "--max-length", "2", "--engine", engine, abc),
              (0, b"2\ta b\n", b""))
    rows.ends(f"a pair of a kind, by {engine}",
              run("--support", "2", "--max-gap", "0", "--min-length", "2", "--max-length", "2", "--generalize",
                  "--hierarchy", kinds, "--engine", engine, two), (0, b"2\tA b\n", b""))
rows.ends("lengths from 1 to 5 where none is given", run("--support", "1", "--max-gap", "0", write("six", "a a a a a a\n")),
          (0, b"1\ta\n1\ta a\n1\ta a a\n1\ta a a a\n1\ta a a a a\n", b""))

# What is refused. 1,024 item expressions are the most, and no rule has exactly so many.
for words, leaves in (("1000 --max-length 4", 3006), ("510 --max-length 3", 1025), ("1 --max-length 512", 1025),
                      ("1000 --max-length 1000", 1000000)):
    rows.ends(f"{leaves} item expressions, with a gap of {words}",
              run("--support", "1", "--max-gap", *words.split(), abc),
              (4, b"", f"desq: expression: {leaves} leaves, over 1024\n".encode()))
rows.ends("a file that is missing is not opened where there are too many",
          run("--support", "1", "--max-gap", "510", "--max-length", "3", f"{abc}.absent"),
          (4, b"", b"desq: expression: 1025 leaves, over 1024\n"))
for words in ("509 --max-length 3", "1 --max-length 511", "0 --max-length 1000", "1000 --max-length 2"):
    rows.ends(f"no more than 1,023, with a gap of {words}", run("--support", "9", "--max-gap", *words.split(), abc),
              (0, b"", b""))
for words in ("--max-gap 1 --min-length 3 --max-length 2", "--max-gap 1 --min-length 6", "--max-gap 1001", "--max-gap -1",
              "--max-gap 1 --min-length 0", "--max-gap 1 --max-length 0", "--max-gap 1 --max-length 1001",
              "--max-gap 1 --max-gap 1", "--max-gap 1 (.)", "(.) --min-length 1", "(.) --max-length 5", "(.) --generalize"):
    rows.ends(f"no command: {words}", run("--support", "1", *words.split(), abc), (2, b"", USAGE))

# Small hierarchies and sequences, with the expression that says the same beside the words.
rng = random.Random(7)
LINKS = [("a", "A"), ("b", "A"), ("c", "A"), ("c", "B"), ("A", "T"), ("B", "T")]
patterns = 0
for number in range(120):
    links = [link for link in LINKS if rng.random() < 0.6]
    sequences = [(rng.randint(1, 3), [rng.choice("abcd") for _ in range(rng.randint(0, 7))]) for _ in range(rng.randint(1, 6))]
    hierarchy = write("links", "".join(f"{child} {parent}\n" for child, parent in links))
    lines = write("lines", "".join(" ".join([str(weight), *items]) + "\n" for weight, items in sequences))
    gap, least, support, generalize = rng.randint(0, 3), rng.randint(1, 3), rng.randint(1, 5), rng.random() < 0.5
    most = rng.randint(least, 4)
    wanted = answer(links, sequences, support, gap, least, most, generalize)
    patterns += wanted.count(b"\n")
    words = ["--support", str(support), "--hierarchy", hierarchy, "--weighted", "--engine", ENGINES[number % len(ENGINES)]]
    rows.ends(f"small sequences {number}, with a gap of {gap} and lengths of {least} to {most}",
              run(*words, "--max-gap", str(gap), "--min-length", str(least), "--max-length", str(most),
                  *["--generalize"] * generalize, lines), (0, wanted, b""))
    item = "(.^)" if generalize else "(.)"
    rows.ends(f"small sequences {number}, as an expression",
              run(*words, f".*{item}[.{{0,{gap}}}{item}]{{{least - 1},{most - 1}}}.*", lines), (0, wanted, b""))
rows.hold("small sequences have patterns", patterns > 1000)
rows.finish()
