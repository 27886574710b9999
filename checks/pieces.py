#!/usr/bin/env python3
"""Sequence files that are read by blocks, and by several workers in pieces of them. Whatever a line holds, in the first, a middle or
the last piece or block or at a border between two, the answer is that of the file and a refusal tells its place in it, with one
worker as with many."""
import sys
from collections import Counter

sys.dont_write_bytecode = True
from rows import WORKERS, Rows, run, write

# A file of so many bytes or more is read in pieces.
LEAST_BYTES = 1 << 20
LINES = 120_000
MOST_NAMES, MOST_SEQUENCES, MOST_ITEMS = 1_048_576, 4_194_304, 65_535

rows = Rows()
lines = [f"w{number % 977} v{number % 13} u{number % 7}" for number in range(LINES)]
rows.hold("the file is read in pieces", len("\n".join(lines)) > LEAST_BYTES)


def answer(texts, weighted=False):
    """The rows of the frequent items of these lines, in any order."""
    weights = Counter()
    for text in texts:
        words = text.split(" ")
        weight = int(words.pop(0)) if weighted else 1
        for name in {word for word in words if word}:
            weights[name] += weight
    return sorted(f"{weight}\t{name}".encode() for name, weight in weights.items() if weight >= 3)


def accepts(name, text, wanted, *options):
    """A row for each number of workers: the answer has these rows."""
    path = write("text", text)
    for workers in WORKERS:
        status, out, told = run("--support", "3", "--workers", workers, *options, ".*(.).*", path)
        rows.hold(f"{name}, {workers} workers", (status, sorted(out.splitlines()), told) == (0, wanted, b""),
                  f"status {status}, {len(out.splitlines())} rows where {len(wanted)} are wanted, {told!r}")


def refuses(name, text, status, message, *options):
    """A row for each number of workers: the file is refused so."""
    path = write("text", text)
    for workers in WORKERS:
        rows.ends(f"{name}, {workers} workers", run("--support", "3", "--workers", workers, *options, ".*(.).*", path),
                  (status, b"", f"desq: sequences: {message}\n".encode()))


def with_line(at, text, others=lines):
    """The file with one more line at this place."""
    return "\n".join([*others[:at], text, *others[at:]]) + "\n"


def border(share, text, others=lines):
    """The place at which this line, as one more, has the first byte behind a border: where it would stand for so many bytes in all."""
    size = share(sum(map(len, others)) + len(others) + len(text) + 1)
    low, high = 0, len(others)
    while low < high:
        middle = (low + high) // 2
        begin = sum(map(len, others[:middle])) + middle
        low, high = (middle + 1, high) if begin + len(text) + 1 <= size else (low, middle)
    return low


# Four workers read a block in four pieces: the calling thread reads the last, five of 32 parts, and the others a third of the rest each.
def first_border(count):
    return count // 32 * 27 // 3 + 1


def last_border(count):
    return count // 32 * 27


# Of each kind of refusal a line, and behind its number what is told of it.
LONG_NAME = "n" * 256
REFUSED = (("a \x01 b", 3, " column 3: bad byte"), ("a\rb", 3, " column 2: bad byte"),
           (LONG_NAME, 4, " column 256: name over 255 bytes"),
           ("i " * (MOST_ITEMS + 1), 4, f": more than {MOST_ITEMS} items in a sequence"))
for text, status, told in REFUSED:
    at_first, at_last = border(first_border, text), border(last_border, text)
    for place, at in (("first", 0), ("in the first piece", 7), ("before a border", at_first - 1), ("at a border", at_first),
                      ("behind a border", at_first + 1), ("in a middle piece", LINES // 2 + 40), ("before the last border", at_last - 1),
                      ("at the last border", at_last), ("behind the last border", at_last + 1), ("last", LINES)):
        refuses(f"{told[1:].strip()}, {place}", with_line(at, text), status, f"line {at + 1}{told}")
heavy = [f"{number % 5 + 1} {text}" for number, text in enumerate(lines)]
for place, at in (("first", 0), ("at a border", border(first_border, "0 a", heavy)), ("at the last border", border(last_border, "0 a", heavy)),
                  ("last", LINES)):
    refuses(f"bad weight, {place}", with_line(at, "0 a", heavy), 3, f"line {at + 1} column 1: bad weight", "--weighted")
refuses("of two refusals the first", with_line(LINES // 3, "\x02") + "\x03\n", 3, f"line {LINES // 3 + 1} column 1: bad byte")

# Each form of a line.
whole = "\n".join(lines) + "\n"
wanted = answer(lines)
accepts("all lines end", whole, wanted)
accepts("the last line has no end", whole[:-1], wanted)
accepts("lines end with two bytes", whole.replace("\n", "\r\n"), wanted)
accepts("a carriage return is last", whole[:-1] + "\r", wanted)
accepts("a mark is first", "\ufeff" + whole, wanted)
middle = "\ufeffx y"
accepts("a mark elsewhere is of a name", with_line(LINES // 2, middle), answer([*lines, middle]))
accepts("empty lines before all others", "\n" * LEAST_BYTES + whole, wanted)
accepts("empty lines behind all others", whole + "\n" * LEAST_BYTES, wanted)
accepts("one line of two million blanks", " " * 2_000_000 + "\n" + whole, wanted)
accepts("weights", "\n".join(heavy) + "\n", answer(heavy, True), "--weighted")

# A file is read by blocks of so many bytes: by one worker, and by several. A line that a border of blocks cuts at each of its bytes,
# or just before it or behind it, in a file of three blocks.
BLOCKS = (1 << 20, 4 << 20)


def cut_by_block(size, cut, text):
    """A file in which the first block ends behind so many bytes of this line, and the number of lines before it."""
    begin = size - cut
    count = (begin - 1) // 4
    return "q w\n" * count + " " * (begin - 1 - 4 * count) + "\n" + text + "q w\n" * (size // 3), count + 1


for size in BLOCKS:
    for text, status, told in (("q zz\n", 0, ""), ("w zz\r\n", 0, ""), ("\r\n", 0, ""), ("q \x01\n", 3, " column 3: bad byte"),
                               ("a\rb\n", 3, " column 2: bad byte"), (LONG_NAME + "\n", 4, " column 256: name over 255 bytes")):
        for cut in {-1, 0, 1, len(text) // 2, *range(len(text) - 3, len(text) + 2)}:
            file, before = cut_by_block(size, cut, text)
            name = f"{text!r:.12} of which {cut} bytes stand in a block of {size}"
            if status:
                refuses(name, file, status, f"line {before + 1}{told}")
            else:
                accepts(name, file, sorted(f"{file.count(item)}\t{item}".encode() for item in "qw"))
whole_blocks = "q w\n" * (BLOCKS[1] // 2)
refuses("a bad byte in the last block alone", whole_blocks + "\x01\n", 3, f"line {BLOCKS[1] // 2 + 1} column 1: bad byte")
refuses("a bad byte in the first block, and one in the last", "\x01\n" + whole_blocks + "\x01\n", 3, "line 1 column 1: bad byte")
accepts("a line longer than a block", "q w\n" + " " * (3 * BLOCKS[1]) + "q w\n" * 3, [b"4\tq", b"4\tw"])

# Names that the hierarchy has are known before the first piece, and the others are new in some of them.
for name, first, step in (("each second name", 0, 2), ("all names of one form", 0, 1), ("one name alone", 976, 1)):
    kinds = write("kinds", "".join(f"w{number} kind\n" for number in range(first, 977, step)))
    held = {f"w{number}" for number in range(first, 977, step)}
    general = sum(not held.isdisjoint(text.split(" ")) for text in lines)
    accepts(f"the hierarchy has {name}", whole, wanted, "--hierarchy", kinds)
    path = write("text", whole)
    for workers in WORKERS:
        status, out, told = run("--support", "3", "--workers", workers, "--hierarchy", kinds, ".*(.^).*", path)
        rows.hold(f"the hierarchy has {name}, kinds, {workers} workers",
                  (status, sorted(out.splitlines()), told) == (0, sorted([*wanted, f"{general}\tkind".encode()]), b""),
                  f"status {status}, {len(out.splitlines())} rows, {told!r}")

# Limits that only the pieces together meet.
names = [f"n{number:x}" for number in range(MOST_NAMES + 1)]
accepts("as many names as may be", "\n".join(names[:-1]) + "\n", [])
refuses("one name more in the last line", "\n".join(names) + "\n", 4, f"line {MOST_NAMES + 1}: more than {MOST_NAMES} items")
refuses("one name more in a middle line, and a bad byte behind it", "\n".join([*names, *names[:MOST_NAMES // 4]]) + "\n\x01\n", 4,
        f"line {MOST_NAMES + 1}: more than {MOST_NAMES} items")
accepts("pieces with the same names", "\n".join(names[:200_000] * 4) + "\n", answer(names[:200_000] * 4))
accepts("as many sequences as may be", "\n" * MOST_SEQUENCES, [])
refuses("one sequence more", "\n" * (MOST_SEQUENCES + 1), 4, f"line {MOST_SEQUENCES + 1}: more than {MOST_SEQUENCES} sequences")
rows.finish()
