#!/usr/bin/env python3
"""Long lines, long answers and long chains of prefixes, by each engine, of which some within 4 GB of memory."""
import resource
import sys

sys.dont_write_bytecode = True
from rows import MODES, Rows, run, searches, write

SPACE = 4_000_000 * 1024


def run_within(*words):
    """A run within 4 GB."""
    return run(*words, preexec_fn=lambda: resource.setrlimit(resource.RLIMIT_AS, (SPACE, SPACE)))


def repeated(item, times):
    return " ".join([item] * times) + "\n"


rows = Rows()
long = write("long", repeated("a", 30_000))
late = write("late", "a " * 30_000 + "\nb\n")
longer = write("longer", repeated("a", 60_000))
longest = write("longest", repeated("a", 65_535))
behind = write("behind", "b " * 65_534 + "a\n")


def once(times):
    return 0, b"1\t" + repeated("a", times).encode(), b""


for search, by in searches():
    words = ["--support", "1", *search]
    rows.ends(f"a line of 30,000 items with one output, by 64 pieces, {by}",
              run(*words, "(a)*" * 64, long), once(30_000))
    with open(long, "rb") as file:
        rows.ends(f"30,000 items on standard input, {by}", run(*words, "(a)*", "-", stdin=file), once(30_000))
    rows.ends(f"30,000 items of which none leads to an output, within 4 GB, {by}",
              run_within(*words, "(a)*.*b", late), (0, b"", b""))
    rows.ends(f"an answer above 64 KiB is whole, {by}", run(*words, "(a)*", longer), once(60_000))
for search, by in searches((*MODES[1:], "dfs --simulate 0", "pivot --simulate 0")):
    words = ["--support", "1", *search]
    rows.ends(f"the longest line of one item, each written alone, {by}",
              run(*words, ".*(a).*", longest), (0, b"1\ta\n", b""))
    rows.ends(f"a chain of 65,536 prefixes, within 4 GB, {by}", run_within(*words, "(a)*", longest), once(65_535))
    rows.ends(f"places that many silent paths reach, {by}", run(*words, "--stats", "[.*]{8}(a)", behind),
              (0, b"1\ta\n", b"desq: nodes %d parts 1 candidates 0\n" % (0 if search[1] == "cand" else 2)))
rows.finish()
