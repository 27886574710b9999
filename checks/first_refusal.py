#!/usr/bin/env python3
"""Of two refusals that stand together the first is told: of the words, the expression, the hierarchy, the sequences, an unknown
name, and a proof that is checked, in this order, which is also that in which files are opened. A hierarchy is refused whatever the
sequences hold, also where they never come, and all is refused before a proof that never comes. In an expression the kind decides,
in a file first its size, then the line, and in a line the bytes before the line as a whole. Of a merge the files stand in the order
of the words. A row for each pair that can be."""
import os
import sys

sys.dont_write_bytecode = True
from rows import Rows, WORK, run, write

USAGE = (2, "usage: desq --support N [options] EXPR [FILE]")
MOST_BYTES, MOST_NAMES, MOST_SEQUENCES, MOST_ITEMS = 67_108_864, 1_048_576, 4_194_304, 65_535

rows = Rows()


def refuses(name, words, status, message, **options):
    """A row: a run of these words has this status and message, and writes nothing."""
    rows.ends(name, run("--support", "1", *words, **options), (status, b"", f"desq: {message}\n".encode()))


def of_size(path, size):
    """The file, made so long with zeros, which are bad bytes."""
    os.truncate(path, size)
    return path


def names(count):
    """So many names, each in a line."""
    return "".join(f"{number:x}\n" for number in range(count))


# In an expression: a text of each kind, in the order in which they are looked for, and which byte of it is told.
KINDS = ((",", 1, 3, "bad token"), ("a{2,1}", 2, 3, "bad repeat"), ("a{1025}", 2, 4, "repeat over 1024"),
         ("()", 2, 3, "unexpected"), ("[" * 129 + "a" + "]" * 129, 129, 4, "nested over 128"))
LEAVES = "a{1024}a"
absent = f"{WORK}/absent"
expressions = []
for text, column, status, told in KINDS:
    expressions.append((text, status, f"expression: column {column}: {told}"))
expressions.append((LEAVES, 4, "expression: 1025 leaves, over 1024"))
expressions.append(("a" + " " * 4_096, 4, "expression: more than 4096 bytes"))
for text, status, message in expressions:
    refuses(f"{message}, alone", [text, absent], status, message)
    refuses(f"{message}, and usage", [text, absent, "--help"], *USAGE)
    if len(text) <= 4_096:
        for long in (text + " " * 4_096, " " * 4_096 + text):
            refuses(f"more than 4096 bytes, and {message}", [long, absent], 4, "expression: more than 4096 bytes")
for number, (text, column, status, told) in enumerate(KINDS):
    for later in [other[0] for other in KINDS[number + 1:]] + [LEAVES]:
        for before, behind in (("", later), (f"{later} ", "")):
            refuses(f"{told}, {'before' if behind else 'behind'} {later[:20]}", [f"{before}{text} {behind}", absent], status,
                    f"expression: column {len(before) + column}: {told}")

# The refusals of a file by its own words: the options, the file, and the status and message behind the file's name. A file that
# never comes is a named pipe to which nobody writes; a run that opens it has no end.
never = f"{WORK}/never"
os.mkfifo(never)
good = write("good", "a A\n")
lines = write("lines", "a b\n")
long_name = "n" * 256
of_hierarchies = (
    (absent, 5, "read fault"), (WORK, 5, "read fault"),
    (of_size(write("large", ""), MOST_BYTES + 1), 4, f"more than {MOST_BYTES} bytes"),
    (write("bad_byte", "a A\nb\x01\n"), 3, "line 2 column 2: bad byte"),
    (write("long_name", f"a A\n{long_name}\n"), 4, "line 2 column 256: name over 255 bytes"),
    (write("names", names(MOST_NAMES + 1)), 4, f"line {MOST_NAMES + 1}: more than {MOST_NAMES} items"),
    (write("cycle", "a b\nb c\nc a\n"), 3, "line 3: cycle"),
    (write("chain", "".join(f"i{number} i{number + 1}\n" for number in range(8_191))), 4, "more than 33554432 ancestors"))
of_sequences = (
    ([], absent, 5, "read fault"), ([], WORK, 5, "read fault"), ([], f"{WORK}/large", 4, f"more than {MOST_BYTES} bytes"),
    ([], f"{WORK}/bad_byte", 3, "line 2 column 2: bad byte"),
    ([], f"{WORK}/long_name", 4, "line 2 column 256: name over 255 bytes"),
    ([], write("sequences", "\n" * (MOST_SEQUENCES + 1)), 4, f"line {MOST_SEQUENCES + 1}: more than {MOST_SEQUENCES} sequences"),
    (["--weighted"], lines, 3, "line 1 column 1: bad weight"),
    ([], write("items", "a " * (MOST_ITEMS + 1)), 4, f"line 1: more than {MOST_ITEMS} items in a sequence"),
    ([], f"{WORK}/names", 4, f"line {MOST_NAMES + 1}: more than {MOST_NAMES} items"))
unknown = (3, "expression: column 2: unknown name")
refuses("an unknown name, alone", ["--hierarchy", good, "(z)", lines], *unknown)
for path, status, told in of_hierarchies:
    above = ["--hierarchy", path]
    for text, before, message in expressions:
        refuses(f"{message}, and hierarchy: {told}", [*above, text, never], before, message)
    refuses(f"usage, and hierarchy: {told}", [*above, "(a)", never, "--help"], *USAGE)
    refuses(f"hierarchy: {told}, and an unknown name", [*above, "(z)", lines], status, f"hierarchy: {told}")
    refuses(f"hierarchy: {told}, under a gap", [*above, "--max-gap", "1", absent], status, f"hierarchy: {told}")
    refuses(f"hierarchy: {told}, and sequences that never come", [*above, "(a)", never], status, f"hierarchy: {told}")
    for options, other, _, behind in of_sequences:
        refuses(f"hierarchy: {told}, and sequences: {behind}", [*above, *options, "(a)", other], status, f"hierarchy: {told}")
for options, path, status, told in of_sequences:
    for text, before, message in expressions:
        refuses(f"{message}, and sequences: {told}", ["--hierarchy", never, *options, text, path], before, message)
    refuses(f"usage, and sequences: {told}", ["--hierarchy", never, *options, "(a)", path, "--help"], *USAGE)
    refuses(f"sequences: {told}, and an unknown name", [*options, "(z)", path], status, f"sequences: {told}")

# A proof that never comes, and whatever is refused before it.
of_proof = ["--check", never]
refuses("usage, and a proof", [*of_proof, "(a)", lines, "--help"], *USAGE)
for text, status, message in expressions:
    refuses(f"{message}, and a proof", [*of_proof, text, never], status, message)
for path, status, told in of_hierarchies:
    refuses(f"hierarchy: {told}, and a proof", [*of_proof, "--hierarchy", path, "(a)", never], status,
            f"hierarchy: {told}")
for options, path, status, told in of_sequences:
    refuses(f"sequences: {told}, and a proof", [*of_proof, *options, "(a)", path], status,
            f"sequences: {told}")
refuses("an unknown name, and a proof", [*of_proof, "(z)", lines], *unknown)
for text, status, told in (("\x01\n", 3, "line 1 column 1: bad byte"),
                           (f"{long_name}\n", 4, "line 1 column 256: name over 255 bytes"),
                           ("1\tb\n", 3, "line 1: refused"), ("1\ta\n\t1 2\n", 3, "line 2: refused")):
    proof = write("proof", text)
    refuses(f"proof: {told}", ["--check", proof, "(a)", lines], status, f"proof: {told}")
    refuses(f"an unknown name, and proof: {told}", ["--check", proof, "(z)", lines], *unknown)
    refuses(f"proof: {told}, and too large", ["--check", of_size(proof, MOST_BYTES + 1), "(a)", lines], 4,
            f"proof: more than {MOST_BYTES} bytes")

# What is refused is no fault of an output that takes nothing, and no fault of standard input that is closed.
for (status, message), words in ((USAGE, []), ((3, "expression: column 3: unexpected"), ["(a", "-"]),
                                 ((3, "hierarchy: line 3: cycle"), ["--hierarchy", f"{WORK}/cycle", "(a)", "-"]),
                                 ((3, "sequences: line 2 column 2: bad byte"), ["(a)", f"{WORK}/bad_byte"]),
                                 (unknown, ["(z)", lines])):
    with open("/dev/full", "wb") as full:
        refuses(f"{message}, and an output that is full", words, status, message, stdout=full)
    refuses(f"{message}, and no input and no output", words, status, message, preexec_fn=lambda: [os.close(0), os.close(1)])

# In one file: its size before what stands in it. The lines in their order, and in a line the bytes before what it is as a whole,
# and then too many sequences, its weight, its length and its names. A cycle behind all lines, and too many ancestors behind a
# cycle.
full, silent = names(MOST_NAMES), "\n" * MOST_SEQUENCES
chain = "".join(f"i{number} i{number + 1}\n" for number in range(8_191))
MANY_NAMES, MANY_ITEMS = f"more than {MOST_NAMES} items", f"more than {MOST_ITEMS} items in a sequence"
MANY_SEQUENCES = f"line {MOST_SEQUENCES + 1}: more than {MOST_SEQUENCES} sequences"
many_items = "0 " * (MOST_ITEMS + 1)
OF_BOTH = (
    (f"0\na\x01\n{long_name}\n", 3, "line 2 column 2: bad byte"),
    (f"0\n{long_name}\na\x01\n", 4, "line 2 column 256: name over 255 bytes"),
    (f"a\x01 {long_name}\n", 3, "line 1 column 2: bad byte"),
    (f"{long_name} a\x01\n", 4, "line 1 column 256: name over 255 bytes"),
    (f"{long_name[1:]}\x01\n", 3, "line 1 column 256: bad byte"),
    (f"{long_name}\x01\n", 4, "line 1 column 256: name over 255 bytes"),
    (f"{full}z\na\x01\n", 4, f"line {MOST_NAMES + 1}: {MANY_NAMES}"),
    (f"{full}0 z a\x01\n", 3, f"line {MOST_NAMES + 1} column 6: bad byte"),
    (f"{full}0 z {long_name}\n", 4, f"line {MOST_NAMES + 1} column 260: name over 255 bytes"))
OF_HIERARCHY = (
    ("x x\na\x01\n", 3, "line 2 column 2: bad byte"), (f"x x\n{long_name}\n", 4, "line 2 column 256: name over 255 bytes"),
    (f"0 0\n{full}z\n", 4, f"line {MOST_NAMES + 2}: {MANY_NAMES}"), (f"0 0\n{full}", 3, "line 1: cycle"),
    (f"{chain}a\x01\n", 3, "line 8192 column 2: bad byte"), (f"{chain}i8191 i0\n", 3, "line 8192: cycle"),
    (f"x x\n{chain}", 3, "line 1: cycle"))
OF_SEQUENCES = (
    ("", f"{silent}a\x01\n", 3, f"line {MOST_SEQUENCES + 1} column 2: bad byte"),
    ("", f"{silent}{long_name}\n", 4, f"line {MOST_SEQUENCES + 1} column 256: name over 255 bytes"),
    ("", f"{silent}{many_items}\n", 4, MANY_SEQUENCES), ("", f"{full}{silent[MOST_NAMES:]}z\n", 4, MANY_SEQUENCES),
    ("--weighted", "1\n" * MOST_SEQUENCES + "a\n", 4, MANY_SEQUENCES), ("", f"{silent}\na\x01\n", 4, MANY_SEQUENCES),
    ("", f"{many_items}\n{silent}", 4, f"line 1: {MANY_ITEMS}"),
    ("", f"{full}z\n{silent}", 4, f"line {MOST_NAMES + 1}: {MANY_NAMES}"),
    ("--weighted", "a\n" + "1\n" * MOST_SEQUENCES, 3, "line 1 column 1: bad weight"),
    ("--weighted", " a a\x01\n", 3, "line 1 column 5: bad byte"),
    ("--weighted", f" a {long_name}\n", 4, "line 1 column 259: name over 255 bytes"),
    ("--weighted", f" a {many_items}\n", 3, "line 1 column 2: bad weight"),
    ("--weighted", f"1 {full[:-1]}\na z\n".replace("\n", "\n1 ", MOST_NAMES - 1), 3,
     f"line {MOST_NAMES + 1} column 1: bad weight"),
    ("--weighted", "1\n\n1 a\x01\n", 3, "line 2 column 1: bad weight"),
    ("", f"{many_items}a\x01\n", 3, f"line 1 column {2 * MOST_ITEMS + 4}: bad byte"),
    ("", f"{many_items}{long_name}\n", 4, f"line 1 column {2 * MOST_ITEMS + 258}: name over 255 bytes"),
    ("", f"{many_items}\na\x01\n", 4, f"line 1: {MANY_ITEMS}"),
    ("", f"{full}z {many_items}\n", 4, f"line {MOST_NAMES + 1}: {MANY_ITEMS}"),
    ("", f"{full}z\n{many_items}\n", 4, f"line {MOST_NAMES + 1}: {MANY_NAMES}"))
for text, status, message in OF_BOTH + OF_HIERARCHY:
    above = write("text", text)
    refuses(f"a hierarchy of {text[:12]!r} .. {text[-12:]!r}", ["--hierarchy", above, "(a)", never], status,
            f"hierarchy: {message}")
for option, text, status, message in (*(("", *row) for row in OF_BOTH), *OF_SEQUENCES):
    refuses(f"sequences of {text[:12]!r} .. {text[-12:]!r}", [*option.split(), "(a)", write("text", text)], status,
            f"sequences: {message}")
refuses("a name more than there may be, of which the hierarchy has all others",
        ["--hierarchy", write("above", full), "(a)", write("text", "0\nz\n")], 4, f"sequences: line 2: {MANY_NAMES}")
for text in ("a\x01\n", f"{long_name}\n", "x x\n", "a\n"):
    large = of_size(write("large", text), MOST_BYTES + 1)
    refuses(f"a hierarchy of {text[:12]!r}, and too large", ["--hierarchy", large, "(a)", never], 4,
            f"hierarchy: more than {MOST_BYTES} bytes")
    refuses(f"sequences of {text[:12]!r}, and too large", ["--weighted", "(a)", large], 4,
            f"sequences: more than {MOST_BYTES} bytes")

# Of the files of a merge the first that is refused is told, and those behind it are not opened. In one file its size comes
# before its lines, in one line its text before the row, and the row before its names.
merged = ((absent, 5, "read fault"), (WORK, 5, "read fault"),
          (of_size(write("large_rows", "1\ta\n"), MOST_BYTES + 1), 4, f"more than {MOST_BYTES} bytes"),
          (write("bad_byte_rows", "1\ta\n1\tb\x01\n"), 3, "line 2 column 4: bad byte"),
          (write("long_name_rows", f"1\ta\n1\t{long_name}\n"), 4, "line 2 column 258: name over 255 bytes"),
          (write("bad_rows", "1\ta\n1\ta b\n1\ta\n"), 3, "line 3: bad row"))
one = write("one", "7\tone\n")
for path, status, told in merged:
    refuses(f"usage, and file 1: {told}", ["--merge", path, never, "--help"], *USAGE)
    refuses(f"file 1: {told}, and one that never comes", ["--merge", path, never], status, f"file 1: {told}")
    refuses(f"file 2: {told}, and one that never comes", ["--merge", one, path, never], status, f"file 2: {told}")
    for other, _, behind in merged:
        refuses(f"file 1: {told}, and file 2: {behind}", ["--merge", path, other], status, f"file 1: {told}")
full = "".join(f"1\t{name}\n" for name in sorted(f"{number:x}" for number in range(MOST_NAMES)))
for line, status, told in (("1\tz", 4, f": {MANY_NAMES}"), ("1\tz\x01", 3, " column 4: bad byte"), ("2\tz", 3, ": bad row"),
                           (f"1\tz {long_name}", 4, " column 260: name over 255 bytes"), ("1\tz ", 3, ": bad row"),
                           ("1\tz\nx\x01", 4, f": {MANY_NAMES}"), ("1\t0\n1\tz", 3, ": bad row")):
    refuses(f"{line[:6]!r} behind as many names as may be", ["--merge", write("text", f"{full}{line}\n"), never], status,
            f"file 1: line {MOST_NAMES + 1}{told}")
refuses("a bad byte before a bad row in a line", ["--merge", write("text", "x\x01\n")], 3, "file 1: line 1 column 2: bad byte")
refuses("a bad row before a bad byte in the next line", ["--merge", write("text", "x\n1\ta\x01\n")], 3, "file 1: line 1: bad row")
rows.finish()
