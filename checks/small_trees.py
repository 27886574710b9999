#!/usr/bin/env python3
"""The program against the definition of what an expression generates, on all words of up to four items over two items and all
trees of up to four leaves over them, by concatenation and choice, in which each node stands bare or once under a sign: with
one or two leaves captured or under `*`, `+`, `?`, `{2}`, `{1,2}` or `{2,}`, with three captured or under `*` or `{1,2}`,
with four each leaf captured and each other node under `*`, or, over `(a)` and `b`, one node under any sign. Then on all words
of up to two of the five items of a hierarchy of two levels, in which b has two parents, and all trees of one captured leaf
under any sign, or of two of which one or both are captured: their leaves are all item expressions, `w`, `w=`, `w^`, `w^=`,
`!w`, `!w=`, `.` and `.^`, over each item. Trees stand side by side in an expression, each behind an item of its own. Each expression is mined by `count`, by `dfs` with workers and
simulated, and by `pivot` in one of these two ways, since it has a part for each tree, and by `cand`."""
import functools
import itertools
import multiprocessing
import os
import sys

sys.dont_write_bytecode = True
from rows import Rows, processors, run, write

TREES = 182_928
GENERALISING_TREES = 4_352
LINKS = ("aA", "bA", "bB", "AT")
ABOVE = {"a": "aAT", "b": "bABT", "A": "AT", "B": "B", "T": "T"}


class Words:
    """All words of up to so many of these items, each with what it is cut into."""

    def __init__(self, items, most):
        self.most = most
        self.all = ["".join(word) for number in range(most + 1) for word in itertools.product(items, repeat=number)]
        self.cuts = {word: [(word[:cut], word[cut:]) for cut in range(len(word) + 1)] for word in self.all}


FLAT, ORDERED = Words("ab", 4), Words("abABT", 2)
BOUNDS = {"*": (0, None), "+": (1, None), "?": (0, 1), "{2}": (2, 2), "{1,2}": (1, 2), "{2,}": (2, None)}
SIGNS = ["()", *BOUNDS]
ITEMS = [("leaf", "a"), ("leaf", "b")]
# What an item expression is of an item: whether it matches another, and what it may write for that.
KINDS = {"{}": lambda w, t: t if w in ABOVE[t] else None,
         "{}=": lambda w, t: t if t == w else None,
         "{}^": lambda w, t: [v for v in ABOVE[t] if w in ABOVE[v]] if w in ABOVE[t] else None,
         "{}^=": lambda w, t: w if w in ABOVE[t] else None,
         "!{}": lambda w, t: t if w not in ABOVE[t] else None,
         "!{}=": lambda w, t: t if t != w else None,
         ".": lambda w, t: t,
         ".^": lambda w, t: ABOVE[t]}
LEAVES = [("item", kind, w) for kind in KINDS for w in ("abABT" if "{}" in kind else " ")]


def under(sign, tree):
    return tree if sign == "" else ("cap", tree) if sign == "()" else ("rep", tree, sign)


def trees(leaves, items, over_leaves, over_others):
    """The trees over these of so many leaves, with one of these signs, or none, over each leaf and over each other node."""
    if leaves == 1:
        bare, signs = items, ["", *over_leaves]
    else:
        bare, signs = joins(leaves, items, over_leaves, over_others), ["", *over_others]
    for tree in bare:
        for sign in signs:
            yield under(sign, tree)


def joins(leaves, items, *signs):
    for front in range(1, leaves):
        for left in trees(front, items, *signs):
            for right in trees(leaves - front, items, *signs):
                yield from (("cat", left, right), ("alt", left, right))


def signed_once(tree):
    """The tree with a sign over one of its nodes."""
    yield from (under(sign, tree) for sign in SIGNS)
    if tree[0] in ("cat", "alt"):
        for side in (1, 2):
            for part in signed_once(tree[side]):
                yield tree[:side] + (part,) + tree[side + 1:]


def table():
    yield from trees(1, ITEMS, SIGNS, [])
    yield from trees(2, ITEMS, SIGNS, SIGNS)
    yield from trees(3, ITEMS, ["()", "*", "{1,2}"], ["()", "*", "{1,2}"])
    yield from trees(4, ITEMS, ["()"], ["*"])
    for tree in trees(4, [("cap", ITEMS[0]), ITEMS[1]], [], []):
        yield from signed_once(tree)


def generalising_table():
    for leaf in LEAVES:
        for sign in ["", *SIGNS]:
            yield under(sign, ("cap", leaf))
    for first, second in itertools.product(LEAVES, repeat=2):
        for join in ("cat", "alt"):
            yield ("cap", (join, first, second))
            yield (join, ("cap", first), second)


def text(tree):
    kind = tree[0]
    if kind == "item":
        return tree[1].format(tree[2])
    if kind == "leaf":
        return tree[1]
    if kind == "rep":
        return text(tree[1]) + tree[2]
    if kind == "cap":
        return f"({text(tree[1])})"
    return f"[{text(tree[1])}{' ' if kind == 'cat' else '|'}{text(tree[2])}]"


def unfolded_leaves(tree):
    kind = tree[0]
    if kind in ("leaf", "item"):
        return 1
    if kind == "cap":
        return unfolded_leaves(tree[1])
    if kind == "rep":
        least, most = BOUNDS[tree[2]]
        return unfolded_leaves(tree[1]) * (max(least, 1) if most is None else most)
    return unfolded_leaves(tree[1]) + unfolded_leaves(tree[2])


# What a tree generates, inside a capture or outside: the outputs of each word that it takes. A word is cut in two in
# every way.
def either(first, second):
    return {word: first.get(word, set()) | second.get(word, set()) for word in {**first, **second}}


def joined(words, first, second):
    made = {}
    for word in words.all:
        outputs = {output + more for front, back in words.cuts[word] if front in first and back in second
                   for output in first[front] for more in second[back]}
        if outputs:
            made[word] = outputs
    return made


@functools.lru_cache(maxsize=1 << 14)
def generated(words, tree, captured):
    kind = tree[0]
    if kind == "item":
        written = {item: KINDS[tree[1]](tree[2], item) for item in ABOVE}
        return {item: set(outputs) if captured else {""} for item, outputs in written.items() if outputs is not None}
    if kind == "leaf":
        return {tree[1]: {tree[1] if captured else ""}}
    if kind == "cap":
        return generated(words, tree[1], True)
    first = generated(words, tree[1], captured)
    if kind == "rep":
        least, most = BOUNDS[tree[2]]
        turns, made = {"": {""}}, {}
        for number in range((least + words.most if most is None else most) + 1):
            made = either(made, turns) if number >= least else made
            turns = joined(words, turns, first)
        return made
    second = generated(words, tree[2], captured)
    return either(first, second) if kind == "alt" else joined(words, first, second)


def parts():
    """The trees in parts that one expression holds, by its bytes and by its leaves, each with whether it has a hierarchy."""
    for has_hierarchy, trees_of_words in ((False, table()), (True, generalising_table())):
        part, leaves, size = [], 0, 0
        for tree in trees_of_words:
            more, longer = unfolded_leaves(tree) + 1, len(text(tree)) + 6
            if leaves + more > 1024 or size + longer > 4096:
                yield has_hierarchy, part
                part, leaves, size = [], 0, 0
            part.append(tree)
            leaves, size = leaves + more, size + longer
        yield has_hierarchy, part


def compared(task):
    """How many trees the part has, and the searches whose answer is not the definition's, with their ends."""
    has_hierarchy, part = task
    words = ORDERED if has_hierarchy else FLAT
    supports = {}
    lines = []
    for number, tree in enumerate(part):
        lines += [" ".join([str(number), *word]) + "\n" for word in words.all]
        for outputs in generated(words, tree, False).values():
            for output in outputs:
                pattern = (str(number), *output)
                supports[pattern] = supports.get(pattern, 0) + 1
    expression = "|".join(f"({number}){text(tree)}" for number, tree in enumerate(part))
    answer = sorted(supports.items(), key=lambda row: (-row[1], row[0]))
    wanted = "".join(f"{support}\t{' '.join(pattern)}\n" for pattern, support in answer).encode()
    file = write(f"words{os.getpid()}", "".join(lines))
    above = ["--hierarchy", LINKS_FILE] if has_hierarchy else []
    seed = ["--simulate", str(len(part))]
    differing = []
    for engine in (["count"], ["dfs"], ["dfs", *seed], ["pivot", *seed] if len(part) % 2 else ["pivot"], ["cand"]):
        status, output, message = run("--support", "1", "--engine", *engine, *above, expression, file)
        if (status, output, message) != (0, wanted, b""):
            differing.append(f"{' '.join(engine)}: status {status} {message} {expression}")
    return len(part), differing


rows = Rows()
LINKS_FILE = write("links", "".join(f"{child} {parent}\n" for child, parent in LINKS))
compared_trees = 0
with multiprocessing.get_context("fork").Pool(processors()) as pool:
    for number, (trees_of_part, differing) in enumerate(pool.imap(compared, parts())):
        compared_trees += trees_of_part
        rows.hold(f"the trees of expression {number} mean what they say", not differing, "\n".join(differing))
wanted = TREES + GENERALISING_TREES
rows.hold(f"{wanted} trees were compared", compared_trees == wanted, f"and not {compared_trees}")
rows.finish()
