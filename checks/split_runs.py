#!/usr/bin/env python3
"""Runs for shares of the pivots: together they write the lines of one run, each line once, whatever the number of shares. The
merge of their outputs, in any order of the files, has the bytes of one run; what is no output is refused at its line."""
import os
import random
import re
import resource
import sys

sys.dont_write_bytecode = True
from rows import WORK, WORKERS, Rows, run, running_example, write

USAGE = b"desq: usage: desq --support N [options] EXPR [FILE]\n"
COUNTS = (1, 2, 3, 7, 64)

rows = Rows()


def shares(words, of, *more):
    """How the runs of all shares end."""
    return [run(*words, "--engine", "pivot", "--split", f"{index}/{of}", *more) for index in range(1, of + 1)]


def in_order(lines):
    """Lines of rows by falling support and then by names."""
    return sorted(lines, key=lambda line: (-int(line.split(b"\t")[0]), line.rstrip(b"\n").split(b"\t")[1].split(b" ")))


def merged(parts, support, *more):
    """How a merge of files that hold these bytes ends."""
    return run("--support", support, "--merge", *more, *[write(f"part{number}", part) for number, part in enumerate(parts, 1)])


def check(name, words, of, workers):
    """Rows: the shares end well, each in its order, and together have the lines of one run, and its work. Merged in any order
    they have its bytes."""
    whole = run(*words, "--engine", "pivot", "--stats")
    ends = shares(words, of, "--workers", workers, "--stats")
    what = f"{name}, {of} shares with {workers} workers"
    rows.hold(f"{what}: status 0", whole[0] == 0 and all(end[0] == 0 for end in ends))
    parts = [end[1].splitlines(keepends=True) for end in ends]
    rows.hold(f"{what}: each is in order", all(in_order(part) == part for part in parts))
    rows.hold(f"{what}: together they are the answer",
              b"".join(in_order([line for part in parts for line in part])) == whole[1])
    work = [[int(number) for number in re.findall(rb"\d+", end[2])] for end in [whole, *ends]]
    rows.hold(f"{what}: together they have its work", work[0] == [sum(column) for column in zip(*work[1:])])
    support = words[words.index("--support") + 1]
    outputs = [end[1] for end in ends]
    for order, files in (("", outputs), (", the last first", outputs[::-1]), (", in another order", outputs[1::2] + outputs[::2])):
        rows.ends(f"{what}: merged{order}", merged(files, support), (0, whole[1], b""))


# The ranks are b 1, a 2, c 3.
three = write("three", "a b\nb\nb c\n")
pairs = [".*(.)[.*(.)]?.*", three, "--support", "1"]
for workers in WORKERS:
    for split, answer in ((None, b"3\tb\n1\ta\n1\ta b\n1\tb c\n1\tc\n"), ("1/2", b"3\tb\n1\tb c\n1\tc\n"),
                          ("2/2", b"1\ta\n1\ta b\n"), ("64/64", b""), ("1/64", b"3\tb\n"), ("3/64", b"1\tb c\n1\tc\n"),
                          ("1/1", b"3\tb\n1\ta\n1\ta b\n1\tb c\n1\tc\n"), ("01/002", b"3\tb\n1\tb c\n1\tc\n")):
        rows.ends(f"the share {split} of three sequences with {workers} workers",
                  run(*pairs, "--engine", "pivot", "--workers", workers, *(["--split", split] if split else [])),
                  (0, answer, b""))
    # The prefixes visited for the pivot b are none and b, for a none, a and `a b`, and for c none, b, c and `b c`.
    for split, told in (("1/2", b"nodes 6 parts 2 candidates 0"), ("2/2", b"nodes 3 parts 1 candidates 0"),
                        ("64/64", b"nodes 0 parts 0 candidates 0")):
        rows.hold(f"the work of the share {split} with {workers} workers", run(
            *pairs, "--engine", "pivot", "--workers", workers, "--split", split, "--stats")[2] == b"desq: " + told + b"\n")

kinds, running = running_example()
medium = write("medium", "".join(" ".join(f"i{(line * line + place * (line % 17) * 7) % 97}" for place in range(3 + line % 9)) + "\n"
                                 for line in range(2_000)))
weighted = write("weighted", "3 a b\n2 c a\n1 d\n7 b a\n")
for workers in WORKERS:
    for of in COUNTS:
        check("the running example", ["--support", "2", "--hierarchy", kinds, ".*(.^)[.{0,2}(.^)]?.*", running],
              of, workers)
        check("three sequences", pairs, of, workers)
        check("weighted lines", ["--support", "2", "--weighted", ".*(.)[.*(.)]?.*", weighted], of, workers)
        check("a medium file under a gap", ["--support", "20", "--max-gap", "1", "--max-length", "3", medium], of, workers)
        check("a medium file", ["--support", "30", ".*(.)[.{0,2}(.)]{0,2}.*", medium], of, workers)

# A share mines its own parts alone, so all of them together take little more than one run, and not each as much. What a
# processor takes depends on what else it does, so this is tried three times.
numbers = random.Random(7)
busy = write("busy", "".join(" ".join(f"n{int(numbers.random() ** 2 * 60)}" for _ in range(24)) + "\n" for _ in range(2_000)))


def seconds(*more):
    """The processor time of such a run."""
    before = resource.getrusage(resource.RUSAGE_CHILDREN)
    run("--support", "12", "--engine", "pivot", "--workers", "1", *more, ".*(.)[.{0,3}(.)]{1,4}.*", busy)
    after = resource.getrusage(resource.RUSAGE_CHILDREN)
    return after.ru_utime + after.ru_stime - before.ru_utime - before.ru_stime


tried = []
while len(tried) < 3 and not any(together < 3 * alone for alone, together in tried):
    tried.append((seconds(), sum(seconds("--split", f"{index}/7") for index in range(1, 8))))
rows.hold("seven shares together take less than three times the processor time of one run",
          any(together < 3 * alone for alone, together in tried), f"seconds of one run, and of all shares: {tried}")

# What is no command.
for split in ("0/2", "3/2", "1/65", "1", "1/2/3", "/2", "1/", "/", "", "-1/2", "1 /2", "1/0", "a/2", "1:2"):
    rows.ends(f"no share: {split!r}", run(*pairs, "--engine", "pivot", f"--split={split}"), (2, b"", USAGE))
for words in ("--engine dfs", "--engine count", "--engine cand", "", "--engine pivot --simulate 7", "--engine pivot --split 1/2"):
    rows.ends(f"no share beside: {words}", run(*pairs, "--split", "1/2", *words.split()), (2, b"", USAGE))
rows.ends("no share of made input", run("--support", "1", "--generated", "3", "(.)", "--engine", "pivot", "--split", "1/2"),
          (2, b"", USAGE))

# Merges.
FIRST, SECOND = b"3\tb\n1\tb c\n1\tc\n", b"1\ta\n1\ta b\n"
WHOLE = b"3\tb\n1\ta\n1\ta b\n1\tb c\n1\tc\n"


def refused(place, what, status=3):
    return status, b"", f"desq: {place}: {what}\n".encode()


LONG = b"n" * 256
for name, parts, support, wanted in (
        ("the second and the first", [SECOND, FIRST], "1", (0, WHOLE, b"")),
        ("the first twice", [FIRST, FIRST], "1", refused("file 2: line 1", "bad row")),
        ("one file", [FIRST], "1", (0, FIRST, b"")),
        ("an empty file", [b""], "1", (0, b"", b"")),
        ("an empty file and one that is not", [b"", SECOND], "1", (0, SECOND, b"")),
        ("no line feed at the end", [FIRST[:-1], SECOND[:-1]], "1", (0, WHOLE, b"")),
        ("carriage returns and a mark", [b"\xef\xbb\xbf" + FIRST.replace(b"\n", b"\r\n"), SECOND], "1", (0, WHOLE, b"")),
        ("leading zeros", [b"003\tb\n"], "1", (0, b"3\tb\n", b"")),
        ("lines out of order", [b"1\tb\n3\ta\n"], "1", refused("file 1: line 2", "bad row")),
        ("names out of order", [SECOND, b"1\tc\n1\tb\n"], "1", refused("file 2: line 2", "bad row")),
        ("a line twice", [b"3\tb\n3\tb\n"], "1", refused("file 1: line 2", "bad row")),
        ("a pattern twice in one file", [b"3\tb\n1\tb\n"], "1", refused("file 1: line 2", "bad row")),
        ("a pattern in two files", [FIRST, b"2\tb c\n"], "1", refused("file 2: line 1", "bad row")),
        ("a support below the threshold", [FIRST], "2", refused("file 1: line 2", "bad row")),
        ("the greatest support", [b"1000000000000000000\ta\n"], "1", (0, b"1000000000000000000\ta\n", b"")),
        ("a support above it", [b"1000000000000000001\ta\n"], "1", refused("file 1: line 1", "bad row")),
        ("a support of none", [b"0\ta\n"], "1", refused("file 1: line 1", "bad row")),
        ("no support", [b"\ta\n"], "1", refused("file 1: line 1", "bad row")),
        ("no names", [b"3\t\n"], "1", refused("file 1: line 1", "bad row")),
        ("no tab", [b"3 a\n"], "1", refused("file 1: line 1", "bad row")),
        ("a doubled blank", [b"3\ta  b\n"], "1", refused("file 1: line 1", "bad row")),
        ("a blank at the end", [b"3\ta \n"], "1", refused("file 1: line 1", "bad row")),
        ("a second tab", [b"3\ta\tb\n"], "1", refused("file 1: line 1", "bad row")),
        ("an empty line", [b"3\ta\n\n2\tb\n"], "1", refused("file 1: line 2", "bad row")),
        ("a bad byte", [FIRST, b"1\ta\n1\ta\x01\n"], "1", refused("file 2: line 2 column 4", "bad byte")),
        ("a name too long", [b"1\t" + LONG + b"\n"], "1", refused("file 1: line 1 column 258", "name over 255 bytes", 4)),
        ("a bad byte behind a bad row", [b"x\n\x01\n"], "1", refused("file 1: line 1", "bad row")),
        ("a bad byte in the line of a bad row", [b"x\x01\n"], "1", refused("file 1: line 1 column 2", "bad byte")),
        ("two files that are refused", [b"3\ta\nx\n", b"y\n"], "1", refused("file 1: line 2", "bad row")),
        ("a later file's row before one of an earlier file", [b"1\tz\n", b"9\ty\n1\ta\n"], "1",
         (0, b"9\ty\n1\ta\n1\tz\n", b"")),
        ("a shorter name first", [b"2\ta b\n2\ta b c\n", b"2\ta\n2\tab\n"], "1",
         (0, b"2\ta\n2\ta b\n2\ta b c\n2\tab\n", b"")),
        ("names of numbers, in the order of bytes", [b"2\t10\n2\t9\n", b"2\t2\n"], "1", (0, b"2\t10\n2\t2\n2\t9\n", b"")),
        ("64 files", [b"1\tn%02d\n" % number for number in range(64)], "1",
         (0, b"".join(b"1\tn%02d\n" % number for number in range(64)), b"")),
        ("64 files, the last refused", [b"1\tn%02d\n" % number for number in range(63)] + [b"1\tn00\n"], "1",
         refused("file 64: line 1", "bad row"))):
    rows.ends(f"merge: {name}", merged(parts, support), wanted)


def wanted_of(parts, support):
    """How a merge of files that hold these bytes is to end, where their bytes are those of names, blanks and line feeds."""
    supports, patterns = {}, set()
    for number, part in enumerate(parts, 1):
        last = None
        for line, text in enumerate(part.split(b"\n")[:-1] if part.endswith(b"\n") or not part else part.split(b"\n"), 1):
            row = re.fullmatch(rb"([0-9]+)\t([^ \t]+(?: [^ \t]+)*)", text)
            place = row and (-int(row[1]), row[2].split(b" "))
            if not row or int(row[1]) < support or (last and place <= last) or row[2] in patterns:
                return refused(f"file {number}: line {line}", "bad row")
            last = place
            patterns.add(row[2])
            supports[text.split(b"\t")[1]] = int(row[1])
    ordered = sorted((-count, names.split(b" ")) for names, count in supports.items())
    return 0, b"".join(b"%d\t%s\n" % (-count, b" ".join(names)) for count, names in ordered), b""


# Outputs that are cut, and outputs with a byte more or another one.
for which, whole in enumerate((FIRST, SECOND)):
    changed = [whole[:cut] for cut in range(len(whole))]
    for byte in b"\t\n 0ab":
        changed += [whole[:at] + bytes([byte]) + whole[at + more:] for at in range(len(whole)) for more in (0, 1)]
    for text in dict.fromkeys(changed):
        parts = [text, SECOND] if which == 0 else [FIRST, text]
        rows.ends(f"merge: {text!r} in the place of {whole!r}", merged(parts, "1"), wanted_of(parts, 1))
rows.ends("merge: 65 files", merged([b"1\tn%02d\n" % number for number in range(65)], "1"), (2, b"", USAGE))
rows.ends("merge: a file that is missing", run("--support", "1", "--merge", write("there", FIRST), f"{WORK}/missing"),
          (5, b"", b"desq: file 2: read fault\n"))
rows.ends("merge: a refused file before one that is missing", run("--support", "1", "--merge", write("bad", b"x\n"), f"{WORK}/missing"),
          (3, b"", b"desq: file 1: line 1: bad row\n"))
rows.ends("merge: a file too large", run("--support", "1", "--merge", write("large", b" " * 67_108_865)),
          (4, b"", b"desq: file 1: more than 67108864 bytes\n"))
os.remove(f"{WORK}/large")
rows.ends("merge: standard input", run("--support", "1", "--merge", "-", write("there", SECOND), input=FIRST), (0, WHOLE, b""))
rows.ends("merge: the same file named twice", run("--support", "1", "--merge", write("there", FIRST), f"{WORK}/there"),
          (3, b"", b"desq: file 2: line 1: bad row\n"))
one = write("one", FIRST)
for words in ("--engine pivot", "--engine dfs", "--workers 1", "--stats", "--weighted", f"--hierarchy {one}", "--simulate 1",
              "--split 1/2", "--max-gap 1", "--min-length 1", "--max-length 1", "--generalize", "--generated 1", "--merge", "--none"):
    rows.ends(f"no merge beside: {words}", run("--support", "1", "--merge", *words.split(), one), (2, b"", USAGE))
rows.ends("no merge of no file", run("--support", "1", "--merge"), (2, b"", USAGE))
rows.ends("no merge without a support", run("--merge", one), (2, b"", USAGE))
rows.ends("two files without a merge", run("--support", "1", "(.)", three, three), (2, b"", USAGE))
rows.finish()
