#!/usr/bin/env python3
"""Nothing gives up at sizes: want of memory may come at any time by the contracts, so only runs show that it does not come
without cause. By each engine, with 1, 4 and 64 workers, the answers are those that the definition gives. Each size is above those with which the tables begin. A part for each of thousands of pivots
over one long line costs `pivot` the square of their number, so there its line has as many items, but few of them frequent."""
import os
import resource
import sys

sys.dont_write_bytecode = True
from rows import MODES, Rows, WORKERS, run, searches, write

SPACE = 512 << 20

rows = Rows()


def named(number):
    return f"{number:06d}"


def lines_of(sequences):
    return "".join(" ".join(sequence) + "\n" for sequence in sequences)


def answer(supports):
    """The text of the answer that has these patterns, each a list of names with its support."""
    ordered = sorted((-support, pattern) for pattern, support in supports)
    return "".join(f"{-support}\t{' '.join(pattern)}\n" for support, pattern in ordered).encode()


def within(space):
    return {"preexec_fn": lambda: resource.setrlimit(resource.RLIMIT_AS, (space, space))} if space else {}


def by_each(name, support, words, wanted, modes=MODES, space=None):
    """A row for each way to mine and each number of workers. Where addresses are few, the stacks of 64 threads would take them.
    """
    for search, by in searches(modes, WORKERS[:2] if space else WORKERS):
        rows.ends(f"{name}, {by}", run("--support", str(support), *search, *words, **within(space)), (0, wanted, b""))


def subsets(items):
    """Each list that is left of these items where some are left out, but not all."""
    for number, item in enumerate(items):
        yield [item]
        for behind in subsets(items[number + 1:]):
            yield [item, *behind]


# Many lines.
for count in (20_000, 400_000):
    pairs = write("pairs", "a b\n" * count)
    by_each(f"{count} lines of one pair", 1, [".*(.)[(.)]?.*", pairs],
            answer([(["a"], count), (["a", "b"], count), (["b"], count)]))

# Many names, each on a line of its own.
names = [named(number) for number in range(20_000)]
own = write("own", lines_of([name] for name in names))
each_once = answer(([name], 1) for name in names)
by_each("20,000 names", 1, ["(.)", own], each_once)
by_each("20,000 names, simulated", 1, ["(.)", own], each_once,
        [f"{engine} --simulate {seed}" for engine in ("dfs", "pivot") for seed in (0, 18446744073709551615)])

# Many candidates: of one line, and of many lines that have none in common.
line = [named(number) for number in range(19)]
by_each("a line with 524,287 candidates", 1, ["[(.)|.]*", write("candidates", lines_of([line]))],
        answer((pattern, 1) for pattern in subsets(line)))
lines = [[named(10 * number + place) for place in range(10)] for number in range(1_024)]
by_each("1,047,552 different candidates", 1, ["[(.)|.]*", write("different", lines_of(lines))],
        answer((pattern, 1) for line in lines for pattern in subsets(line)))

# A node with many kids, each with a kid.
pairs = [[f"x{name}", f"y{name}"] for name in names]
by_each("20,000 kids of one node, each with a kid, within 512 MB", 1, ["(.)(.)", write("kids", lines_of(pairs))],
        answer((pair, 1) for pair in pairs), space=SPACE)

# The longest line. For `pivot` a second line makes every 256th of its items frequent.
line = [named(number) for number in range(65_535)]
longest = write("longest", lines_of([line]))
by_each("65,535 different items in a line, and their pairs", 1, [".*(.)[(.)]?.*", longest],
        answer([([item], 1) for item in line] + [(line[place:place + 2], 1) for place in range(65_534)]),
        ("count", "dfs"))
by_each("65,535 different items in a line, of which 256 are frequent", 2,
        [".*(.)[(.)]?.*", write("longest_of_two", lines_of([line, line[::256]]))],
        answer(([item], 2) for item in line[::256]))

# A part for each of many items of one line. What it costs is the square of their number: for `pivot` a look at each place,
# and for `cand` at each edge of one graph.
by_each("2,000 different items in a line", 1, [".*(.).*", write("many_parts", lines_of([line[:2_000]]))],
        answer(([item], 1) for item in line[:2_000]))
many_sets, wanted = write("many_sets", lines_of([line[:30_000]])), answer(([item], 1) for item in line[:30_000])
by_each("30,000 different items in a line, within 512 MB", 1, [".*(.).*", many_sets], wanted, ("cand",), space=SPACE)
rows.ends("30,000 different items in a line, within 200 MB",
          run("--support", "1", "--engine", "cand", "--workers", "1", ".*(.).*", many_sets, **within(200_000_000)), (0, wanted, b""))

# A candidate for each number of items of a line.
alike = write("alike", lines_of([["a"] * 2_000]))
by_each("2,000 candidates of one item", 1, ["[(a)|.]*", alike], answer((["a"] * length, 1) for length in range(1, 2_001)))

# A million names. `desq-rival`, the same search without proofs, needs 504 to 522 MB of addresses with one worker and 848 to
# 950 MB with four for `.*(fffff).*`: the least N with which `(ulimit -v N; desq-rival --support 1 --engine dfs --workers 4
# '.*(fffff).*' FILE)` has status 0. So a run that needs twice as much as it breaks here, and one that needs as much.
million = write("million", lines_of([f"{16 * number + place:x}" for place in range(16)] for number in range(65_536)))
by_each("1,048,576 names, within 512 MB", 1, [".*(fffff).*", million], b"1\tfffff\n", space=SPACE)
os.remove(million)

# As many ancestors as may be: a chain of 8,191, of which the lowest stands below all. And as many parents of one item.
chain = [named(number) for number in range(8_191)]
above, lowest = write("chain", lines_of(zip(chain[1:], chain))), write("lowest", chain[-1] + "\n")
by_each("33,550,336 ancestors", 1, ["--hierarchy", above, "(.^)", lowest], answer(([name], 1) for name in chain), ("dfs",))
by_each("the highest of 33,550,336 ancestors", 1, ["--hierarchy", above, f"({chain[0]}^=)", lowest],
        answer([([chain[0]], 1)]))
parents = [f"p{number}" for number in range(10_000)]
by_each("10,000 parents of one item", 1,
        ["--hierarchy", write("parents", lines_of([["x", *parents]])), "(.^)", write("below", "x\n")],
        answer(([name], 1) for name in ["x", *parents]))

# Merges of as many rows as there may be names, and of a row as long as a sequence may be.
halves = [write(f"half{first}", lines_of([f"1\t{number:06x}"] for number in range(first, 1 << 20, 2))) for first in (0, 1)]
rows.ends("1,048,576 rows of two files are merged", run("--support", "1", "--merge", *halves),
          (0, lines_of([f"1\t{number:06x}"] for number in range(1 << 20)).encode(), b""))
rows.ends("a name more in a third file", run("--support", "1", "--merge", *halves, write("third", "1\tz\n")),
          (4, b"", b"desq: file 3: line 1: more than 1048576 items\n"))
for half in halves:
    os.remove(half)
long_row = "1\t" + " ".join(line) + "\n"
rows.ends("a row of 65,535 names is merged", run("--support", "1", "--merge", write("long_row", long_row)),
          (0, long_row.encode(), b""))

# Long names, which the table of names finds by a hash and not by their bytes.
long_names = [named(number) + "x" * 40 for number in range(100_000)]
by_each("100,000 names of 46 bytes", 2,
        [".*(.).*", write("long_names", lines_of([[name] for name in long_names] + [[name] for name in long_names[::100]]))],
        answer(([name], 2) for name in long_names[::100]))

# The largest expression: 1,024 written names in 4,096 bytes.
written = ["aa"] + [f"b{number:02x}" if number < 256 else f"{number:03x}" for number in range(1_023)]
for sign, sequences, patterns in (("|", [[name] for name in written], [[name] for name in written]),
                                  (" ", [written], [written])):
    expression = f"({sign.join(written)})"
    assert len(expression) == 4_096 and len(set(written)) == 1_024
    by_each(f"1,024 written names with '{sign}' between", 1, [expression, write("written", lines_of(sequences))],
            answer((pattern, 1) for pattern in patterns))

# A rule of 1,023 item expressions over a line. `dfs` walks the line once for each length, so it has 1,500 items.
alike = write("alike", lines_of([["a"] * 1_500]))
by_each("a gap of 1, lengths to 511, and 1,500 items", 1, ["--max-gap", "1", "--max-length", "511", alike],
        answer((["a"] * length, 1) for length in range(1, 512)))
turns = write("turns", lines_of([list("abcd") * 750]))
by_each("a gap of 509, lengths of 2 to 3, and 3,000 items", 1,
        ["--max-gap", "509", "--min-length", "2", "--max-length", "3", turns],
        answer((list(first + second + third), 1) for first in "abcd" for second in "abcd" for third in ["", *"abcd"]))

# Paths that stand in states from the 64th on, so their stands take eight bytes. The lines have four, five and two different items
# where one is written, so 20 different ones, each twice, and 420 items between.
far = [[f"p{number % 4}", *["x"] * 210, f"q{number % 5}", *["x"] * 210, f"r{number % 2}"] for number in range(40)]
by_each("items that are 210 places apart", 2, ["(.).{210}(.).{210}(.)", write("far", lines_of(far))],
        answer(([line[0], line[211], line[422]], 2) for line in far[:20]))
# More than a million of them behind one item: each line stands at three places behind its first a. Where lines weigh more than
# 1, what follows is not counted ahead, and the prefix waits as bytes.
for name, more, line, weight in (("1,200,000 stands of eight bytes", [], "a a a b\n", 1),
                                 ("the same in lines that weigh 2", ["--weighted"], "2 a a a b\n", 2)):
    by_each(name, 400_000 * weight, [*more, "[b{64}]?.*(.).*(.).*", write("waiting", line * 400_000)],
            answer((pattern, 400_000 * weight) for pattern in (["a", "a"], ["a", "b"])))

# Every option at once. x is not frequent, and b ranks before A, and A before a.
kinds = write("kinds", "a A\n")
weighted = write("weighted", "2 a b\n3 a x b\n1 b\n")
for mode, told in (("count", b"nodes 0 parts 0 candidates 4"), ("cand", b"nodes 0 parts 2 candidates 0"),
                   ("dfs --simulate 7", b"nodes 5 parts 1 candidates 0"),
                   ("pivot --simulate 7", b"nodes 6 parts 2 candidates 0"), ("pivot --split 1/1", b"nodes 6 parts 2 candidates 0")):
    for search, by in searches([mode]):
        words = ["--stats", "--support=5", *search, "--weighted", f"--hierarchy={kinds}"]
        ends = (0, b"5\tA b\n5\ta b\n", b"desq: " + told + b"\n")
        rows.ends(f"every option and an expression, {by}", run(*words, "--", ".*(.^).{0,1}(.^).*", weighted), ends)
        rows.ends(f"every option and a gap, {by}",
                  run(weighted, "--generalize", "--max-gap=1", *words, "--max-length", "2", "--min-length", "2"), ends)

# What is too long is refused, and told by its own message.
for search, by in searches():
    words = ["--support", "1", *search]
    rows.ends(f"a quoted name of 300 bytes, {by}", run(*words, f"(a|'{'n' * 300}')", kinds),
              (3, b"", b"desq: expression: column 4: unknown name\n"))
    rows.ends(f"an expression of 4,097 bytes, {by}", run(*words, f"({'a ' * 2_047} )", kinds),
              (4, b"", b"desq: expression: more than 4096 bytes\n"))
    rows.ends(f"a file name of 5,000 bytes, {by}", run(*words, "(a)", "f" * 5_000),
              (5, b"", b"desq: sequences: read fault\n"))
    rows.ends(f"a hierarchy's file name of 5,000 bytes, {by}", run(*words, "--hierarchy", "f" * 5_000, "(a)", kinds),
              (5, b"", b"desq: hierarchy: read fault\n"))

# An expression is refused before anything is read: nobody writes to these, so a run that reads first has no end.
fifo = f"{os.environ['WORK']}/fifo"
os.mkfifo(fifo)
reading, writing = os.pipe()
for words, status, told in (([], 2, "usage: desq --support N [options] EXPR [FILE]"),
                            (["(a);"], 3, "expression: column 4: bad token"),
                            (["(a){2,1}"], 3, "expression: column 4: bad repeat"),
                            (["(a"], 3, "expression: column 3: unexpected"),
                            (["(a){1025}"], 4, "expression: column 4: repeat over 1024"),
                            (["[" * 129 + "a" + "]" * 129], 4, "expression: column 129: nested over 128"),
                            (["(a){1024}a"], 4, "expression: 1025 leaves, over 1024"),
                            (["a" * 4_097], 4, "expression: more than 4096 bytes"),
                            (["--max-gap", "1", "--max-length", "512"], 4, "expression: 1025 leaves, over 1024")):
    ends = (status, b"", f"desq: {told}\n".encode())
    for search, by in searches():
        rows.ends(f"refused before a file is opened, {by}: {told}",
                  run("--support", "1", *search, "--hierarchy", fifo, *words, fifo), ends)
        rows.ends(f"refused before standard input is read, {by}: {told}",
                  run("--support", "1", *search, *words, "-", stdin=reading), ends)
os.close(reading)
os.close(writing)


# Lines of a plane over the numbers below 101: each of 10,201 points is on one line of each slope, and no two points are
# together on two. So each prefix of one item has all its lines to walk, and nothing below it.
def plane(slopes):
    return [[f"{place}_{(slope * place + start) % 101}" for place in range(101)] for slope in range(slopes) for start in range(101)]


points = [[f"{place}_{height}"] for place in range(101) for height in range(101)]
few = write("few", lines_of(plane(8)))
by_each("10,201 prefixes that end", 8, [".*(.)[.*(.)]?.*", few], answer((point, 8) for point in points), MODES[1:])
rows.finish()
