#!/usr/bin/env python3
"""Words, files and ends of the real program: status, output and message of each, byte for byte."""
import itertools
import os
import random
import subprocess
import sys

sys.dont_write_bytecode = True
from rows import PROGRAM, Rows, SECONDS, WORK, run, searches, write

USAGE = b"desq: usage: desq --support N [options] EXPR [FILE]\n"
READ_FAULT = b"desq: sequences: read fault\n"
WRITE_FAULT = b"desq: write fault\n"
PAIRS = ".*(a)(b).*"

rows = Rows()
lines = write("lines", "a b\na b\na c\n")
above = write("above", "b B\n")
weighted = write("weighted", "2 a b\n3 a c\n")
blank = write("lines ", "a b\na b\na c\n")
os.mkdir(f"{WORK}/folder")

rows.ends("the example on a file", run("--support", "2", PAIRS, lines), (0, b"2\ta b\n", b""))
rows.ends("no pattern reaches the support", run("--support", "4", "(.)", lines), (0, b"", b""))
with open(lines, "rb") as file:
    rows.ends("the example on standard input", run("--support", "2", PAIRS, "-", stdin=file), (0, b"2\ta b\n", b""))
rows.ends("a file named from another folder", run("--support", "2", PAIRS, "lines", cwd=WORK), (0, b"2\ta b\n", b""))
rows.ends("a hierarchy, and words in another order",
          run(".*(a)(B^=).*", "--hierarchy", above, lines, "--support=2"), (0, b"2\ta B\n", b""))
rows.ends("weights", run("--support", "1", "--weighted", "(a)(.)", weighted), (0, b"3\ta c\n2\ta b\n", b""))
rows.ends("an unknown name", run("--support", "1", "(a)[d]", lines),
          (3, b"", b"desq: expression: column 5: unknown name\n"))
rows.ends("a file that is missing", run("--support", "2", PAIRS, f"{WORK}/absent"), (5, b"", READ_FAULT))
rows.ends("a folder in place of a file", run("--support", "2", PAIRS, f"{WORK}/folder"), (5, b"", READ_FAULT))
rows.ends("a missing file whose name ends in a blank", run("--support", "2", PAIRS, f"{WORK}/absent "),
          (5, b"", READ_FAULT))
rows.ends("a file whose name ends in a blank", run("--support", "2", PAIRS, blank), (0, b"2\ta b\n", b""))
rows.ends("no words", run(), (2, b"", USAGE))
rows.ends("an empty word stays a word", run("--support", "1", "", lines),
          (3, b"", b"desq: expression: column 1: unexpected\n"))
rows.ends("a word that is no UTF-8", run("--support", "1", b"\xff", lines), (2, b"", USAGE))
with open("/dev/full", "wb") as full:
    rows.ends("a device that is full", run("--support", "2", PAIRS, lines, stdout=full), (6, b"", WRITE_FAULT))

# A pipe of which the reading end is closed. Python's children ignore the signal of such a pipe unless it is restored.
reading, writing = os.pipe()
os.close(reading)
ran = subprocess.run([PROGRAM, "--support", "2", PAIRS, lines], stdout=writing, stderr=subprocess.PIPE,
                     stdin=subprocess.DEVNULL, timeout=SECONDS, restore_signals=True)
os.close(writing)
rows.ends("a pipe whose reader is gone", (ran.returncode, b"", ran.stderr), (6, b"", WRITE_FAULT))

# Small hierarchies and sequences: the words before the expression, the expression, both files, and the answer.
KINDS, EXAMPLE = "a1 A\na2 A\n", "a1 c d c b\ne e a1 e a1 e b\nc d c b\na2 d b\na1 a1 b\n"
DIAMOND = "x P Q\nP R\nQ R\n"
RELATIONS = "Obama ENTITY\nMerkel ENTITY\nHawaii ENTITY\nHamburg ENTITY\nwas VERB\nborn VERB\nin PREP\ncity NOUN\n"
ANSWERS = (
    ("2", ".*(A)[(.^)|.]*(b).*", KINDS, EXAMPLE, "3\ta1 b\n2\ta1 A b\n2\ta1 a1 b\n"),
    ("3", ".*(A)[(.^)|.]*(b).*", KINDS, EXAMPLE, "3\ta1 b\n"),
    ("6", ".*(A)[(.^)|.]*(b).*", KINDS, EXAMPLE, ""),
    ("1", ".*", KINDS, EXAMPLE, ""),
    ("2", "(.^)", DIAMOND, "x\nx\n", "2\tP\n2\tQ\n2\tR\n2\tx\n"),
    ("2", "(P^)", DIAMOND, "x\nx\n", "2\tP\n2\tx\n"),
    ("2", "(P^=)", DIAMOND, "x\nx\n", "2\tP\n"),
    ("2", "(P)", DIAMOND, "x\nx\n", "2\tx\n"),
    ("2", "(P=)", DIAMOND, "x\nx\n", ""),
    ("2", ".*ENTITY (VERB+ NOUN+? PREP?) ENTITY.*", RELATIONS,
     "Obama was born in Hawaii .\nMerkel was born in Hamburg .\n", "2\twas born in\n"),
    ("1", "(b^=)", "a b\n", "a\n", "1\tb\n"),
    ("1", "(A).*", "a1 A\n", "a1 b\nc b\n", "1\ta1\n"),
    ("1", "(!A).*", "a1 A\n", "a1 b\nc b\n", "1\tc\n"),
    ("1", "(!A=).*", "a1 A\n", "a1 b\nc b\n", "1\ta1\n1\tc\n"),
    ("1", "(!a1=).*", "a1 A\n", "a1 b\nc b\n", "1\tc\n"),
    ("2", ".*(A)!A*(b).*", KINDS, EXAMPLE, "3\ta1 b\n"),
    ("1", "(.)", "", "", ""),
    ("1", "(.)", "", "\n\n\n", ""),
    ("1", "[(a)*]*", "", "a a\n", "1\ta a\n"),
    ("1", ".*(a){2}.*", "", "a a a\n", "1\ta a\n"),
    ("1", "(a){0}(b)", "", "b\na\n", "1\tb\n"),
    # 76 states, so that stands take eight bytes.
    ("2", ".{0,70}(.){4}.*", "", "a b c d\nx a b c d\n", "2\ta b c d\n"),
    ("2", ".*(a)(b).*", "", "a b\na b\na c\n", "2\ta b\n"),
    ("2", "(a)[(b)|.]", "", "a b\na b\n", "2\ta\n2\ta b\n"),
    ("1", "('it''s')('.')", "", "it's .\n", "1\tit's .\n"),
    ("1", "(a)[b]", "", "a b\n", "1\ta\n"),
    ("2", "(a)(b)", "", "\ufeffa b\r\na b", "2\ta b\n"),
    ("1", "[" * 128 + "a" + "]" * 128, "", "a\n", ""),
    ("1", "(" * 128 + "a" + ")" * 128, "", "a\n", "1\ta\n"),
)
WEIGHED = (
    ("4", ".*(a)(b).*", "3 a b\n2 a c\n1 a b\n", "4\ta b\n"),
    ("5", ".*(a)(b).*", "3 a b\n2 a c\n1 a b\n", ""),
    ("1", "(a)", "7\n002 a\n", "2\ta\n"),
    ("1", "(a)", "00000000000000000000000001 a\n", "1\ta\n"),
)


def leaves(words, hierarchy, sequences, wanted):
    """A row: the words leave this on the files `h` and `f`."""
    write("h", hierarchy)
    write("f", sequences)
    status, out, err = wanted
    rows.ends(f"{words} on {hierarchy!r} and {sequences[:40]!r}", run(*words, cwd=WORK),
              (status, out.encode(), f"desq: {err}\n".encode() if err else b""))


SEARCHES = [search for search, _ in searches()]
for search in SEARCHES:
    for support, expression, hierarchy, sequences, answer in ANSWERS:
        leaves([*search, "--support", support, "--hierarchy", "h", expression, "f"], hierarchy, sequences, (0, answer, ""))
    for support, expression, sequences, answer in WEIGHED:
        leaves([*search, "--weighted", "--support", support, expression, "f"], "", sequences, (0, answer, ""))


def answer_of(sequences):
    """The answer to `.*(A)[(.^)|.]*(b).*` with the threshold 2, where a1 and a2 are below A: of each pair of an item below A and
    a b behind it, the item, then any of those between, each as it stands or as what is above it, and the b."""
    supports = {}
    for line in sequences.split("\n"):
        items, generated = line.split(), set()
        for first, last in itertools.combinations(range(len(items)), 2):
            if items[first] in ("a1", "a2") and items[last] == "b":
                between = [["", item, "A"] if item in ("a1", "a2") else ["", item] for item in items[first + 1:last]]
                generated.update((items[first], *filter(None, written), "b") for written in itertools.product(*between))
        for pattern in generated:
            supports[pattern] = supports.get(pattern, 0) + 1
    ordered = sorted((-support, pattern) for pattern, support in supports.items() if support >= 2)
    return "".join(f"{-support}\t{' '.join(pattern)}\n" for support, pattern in ordered)


# The sequences cut behind each byte. A cut name is another name, and without a b the expression names an unknown item.
for search in SEARCHES:
    for length in range(len(EXAMPLE) + 1):
        cut = EXAMPLE[:length]
        leaves([*search, "--support", "2", "--hierarchy", "h", ".*(A)[(.^)|.]*(b).*", "f"], KINDS, cut,
               (0, answer_of(cut), "") if "b" in cut else (3, "", "expression: column 16: unknown name"))

# What is refused: expressions with their columns, files with their lines.
UNEXPECTED = (("", 1), (" ", 2), ("()", 2), ("[]", 2), ("a|", 3), ("|a", 1), ("a||b", 3), ("(a", 3), ("(a]", 3), ("a)", 2),
              ("*", 1), ("a*=", 3), (".^=", 3), ("!.", 2), ("!a^", 3), ("!!a", 2), ("!", 2), ("(" * 129, 130))
BAD_TOKEN = (("'a", 1), ("'a''", 1), ("a,b", 2), (") ~", 3), ("{} ~", 4))
BAD_REPEAT = (("a{,}", 2), ("a{1", 2), ("a{1,2", 2), ("a{}", 2), ("a{1,2,3}", 2), ("a{1 2}", 2), ("{", 1), ("a{3,2}", 2),
              ("a{1025}{2,1}", 8), ("){2,1}", 2))
UNKNOWN = (("(!zz)", 3), ("(zz)", 2), ("('')", 2), ("''", 1), ("(a)[b]", 5), ("a y 'z' y", 3), ("a" * 4096, 1))
REPEAT_LIMIT = (("a{1025}", 2), ("a{1025,1}", 2), ("a{,99999999999999999999}", 2), (")a{1025}", 3))
TOO_DEEP = (("[" * 129 + "a" + "]" * 129, 129), ("a" + "?" * 129, 130), ("a" + " +" * 129, 259))
LEAVES = (("[a{32}]{33}", 1056), ("a{1024}b", 1025), ("[a{1024}]{977}", 1000000),
          ("[[[a{1024}]{1024}]{1024}]{1024}", 1000000), ("a " * 1025, 1025), ("." * 4096, 4096))
for expressions, status, told in ((UNEXPECTED, 3, "unexpected"), (BAD_TOKEN, 3, "bad token"), (BAD_REPEAT, 3, "bad repeat"),
                                  (UNKNOWN, 3, "unknown name"), (REPEAT_LIMIT, 4, "repeat over 1024"),
                                  (TOO_DEEP, 4, "nested over 128")):
    for expression, column in expressions:
        leaves(["--support", "1", expression, "f"], "", "a\n", (status, "", f"expression: column {column}: {told}"))
for expression, count in LEAVES:
    leaves(["--support", "1", expression, "f"], "", "a\n", (4, "", f"expression: {count} leaves, over 1024"))
for expression in ("a" * 4097, "~" * 4097):
    leaves(["--support", "1", expression, "f"], "", "a\n", (4, "", "expression: more than 4096 bytes"))
for expression in ("[a{32}]{32}", "a{1024}", "[[a{1024}]{1024}]{0}", "a{1024,}", "[" * 128 + "a" + "]" * 128, "[a]" * 129,
                   "a" + "?" * 128, "[a*]" + "*" * 128, "[" * 128 + "a" + "+]" * 128, "a " * 1024):
    leaves(["--support", "1", expression, "f"], "", "a\n", (0, "", ""))
HIERARCHIES = (("x y\ny z\nz x\n", "line 3: cycle"), ("x x\n", "line 1: cycle"), ("a b\na c\nc a", "line 3: cycle"),
               ("b a\na c\na b\nc a", "line 3: cycle"), ("a b\nb a\nc c", "line 2: cycle"),
               ("x x\n\x01", "line 2 column 1: bad byte"), ("a\x01b\n", "line 1 column 2: bad byte"))
for hierarchy, told in HIERARCHIES:
    leaves(["--support", "1", "--hierarchy", "h", "(.)", "f"], hierarchy, "a\x01\n", (3, "", f"hierarchy: {told}"))
leaves(["--support", "1", "--hierarchy", "h", "(zz)", "f"], "a b\n", "\x7f\n",
       (3, "", "sequences: line 1 column 1: bad byte"))
BAD_BYTES = (("a\x01b\n", 1, 2), ("a\r\r\n", 1, 2), ("a\rb", 1, 2), ("\ufeff\x01", 1, 1), ("a\nb \x7f\x01\n", 2, 3),
             ("\r\n\0", 2, 1), ("\r\r", 1, 1), ("a\ufeff\x0b", 1, 5), ("a\n\ufeff\x7f", 2, 4))
for sequences, line, column in BAD_BYTES:
    leaves(["--support", "1", "(.)", "f"], "", sequences, (3, "", f"sequences: line {line} column {column}: bad byte"))
BAD_WEIGHTS = (("0 a\n", 1, 1), (" 1000000001 a\n", 1, 2), ("1 a\n\n", 2, 1), ("1 a\na 1", 2, 1),
               ("18446744073709551617 a", 1, 1), ("1\nb\n\x02", 2, 1), ("1 a\n0 a b\n", 2, 1))
for sequences, line, column in BAD_WEIGHTS:
    leaves(["--weighted", "--support", "1", "(a)", "f"], "", sequences,
           (3, "", f"sequences: line {line} column {column}: bad weight"))
leaves(["--weighted", "--support", "1", "(a)", "f"], "", "x a \x01\n", (3, "", "sequences: line 1 column 5: bad byte"))
leaves(["--support", "1", "--hierarchy", "g", "(.)", "f"], "", "", (5, "", "hierarchy: read fault"))

# Words that are a command, whose answer is `2 a`, and words that are none, with one blank between.
for words in ("(a) f --support 2", "(a) --support 2 f", "--support 2 -- (a) f", "--support=2 (a) f",
              "--support 000000000000000000000000000000000000000002 (a) f", "--support 2 --engine count (a) f",
              "--engine=pivot (a) f --support 2", "--workers=064 --engine count --support 2 (a) f",
              "--support 2 --workers 1 (a) f", "--simulate=007 (a) --support 2 f --engine=pivot",
              "--support 2 --engine dfs --simulate 0 (a) f", "--engine cand (a) --support 2 --workers 2 f",
              "--support 2 --engine pivot --simulate 18446744073709551615 (a) f",
              "f --generalize --max-gap=1000 --support 2 --max-length=1",
              "--max-length 1 --support 2 f --min-length 1 --max-gap 003"):
    leaves(words.split(" "), "", "a\na\n", (0, "2\ta\n", ""))
for words in ("--support 2 -- (a) -", "--support 2 (a) -"):
    rows.ends(words, run(*words.split(" "), input=b"a\na\n"), (0, b"2\ta\n", b""))
leaves(["--support", "2", "--", "-a", "f"], "", "-a\n-a\n", (0, "", ""))
leaves(["--support", "1000000000000000000", "(a)", "f"], "", "a\n", (0, "", ""))
leaves(["--support", "2", "", "f"], "", "a\n", (3, "", "expression: column 1: unexpected"))
NUMBERS = ("--support 0", "--support 000", "--support 1000000000000000001", "--support 18446744073709551618",
           "--support 99999999999999999999999999999999999999999999", "--support x", "--support 2x", "--support +2",
           "--support=", "--support ", "--support -1", "--sup 2", "--support 2 --support 2")
OPTIONS = ("--workers 0", "--workers 65", "--workers 18446744073709551617", "--workers +1", "--workers=", "--workers x",
           "--workers", "--workers 2 --workers 2", "--engine Count", "--engine counts", "--engine pivots", "--engine=",
           "--engine", "--engine count --engine count", "--stats --stats", "--stats=true", "--engine count --simulate 7",
           "--engine count --simulate 0", "--engine cand --simulate 7", "--engine cands",
           "--simulate 18446744073709551616", "--simulate -1", "--simulate=", "--simulate x",
           "--simulate 7 --simulate 7", "--simulate", "--other", "--hierarchy", "--hierarchy h --hierarchy h",
           "--weighted --weighted", "--weighted=true", "--max-gap 1", "--min-length 1", "--max-length 5", "--generalize",
           "g", "--proof --proof", "--proof=true", "--check", "--check p --check p", "--proof --check p",
           "--check p --stats", "--check p --simulate 7", "--engine pivot --split 1/2 --proof",
           "--engine pivot --split 1/2 --check p")
RULES = ("", "--max-gap 1001", "--max-gap -1", "--max-gap=", "--max-gap", "--max-gap 1 --max-gap 1", "--generalize",
         "--max-gap 1 --min-length 0", "--max-gap 1 --min-length 1001 --max-length 1001", "--max-gap 1 --min-length 6",
         "--max-gap 1 --min-length 3 --max-length 2", "--max-gap 1 --min-length", "--max-gap 1 --max-length 0",
         "--max-gap 1 --min-length 1 --min-length 1", "--max-gap 1 --max-length 1001", "--max-gap 1 --max-length",
         "--max-gap 1 --max-length 5 --max-length 5", "--max-gap 1 --generalize --generalize",
         "--max-gap 1 --generalize=true")
OTHERS = ("--support 2", "--support 2 -- (a) f --stats", "-- (a) f --support 2", "(a) f", "--support 2 (a)", "(a) f --support",
          "--support 2 -a f", "--engine --support 1 (a) f", "--support 2 --max-gap 1",
          *(f"--support 2 {task} {input}" for task in ("--proof", "--check p")
            for input in ("--max-gap 1 f", "--generated 1 (a)", "--merge f")))
for words in (*(f"{number} (a) f" for number in NUMBERS), *(f"--support 2 (a) f {option}" for option in OPTIONS),
              *(f"--support 2 f {rule}".rstrip() for rule in RULES), *OTHERS):
    rows.ends(f"no command: {words}", run(*words.split(" "), cwd=WORK), (2, b"", USAGE))

# Each option stands anywhere, and none twice. These commands have all options, and a flag is one without a value.
write("h", "a A\n")
write("f", "2 a b\n3 a b\n")
PROOF = "5\tA b\n\t1 1 2\n\t2 1 2\n"
write("p", PROOF)
COMMANDS = (
    ({"support": "5", "hierarchy": "h", "weighted": "", "engine": "dfs", "workers": "3", "simulate": "7", "stats": ""},
     ["(A^=)(b)", "f"], (0, b"5\tA b\n", b"desq: nodes 3 parts 1 candidates 0\n")),
    ({"max-gap": "0", "support": "5", "min-length": "2", "generalize": "", "max-length": "2", "weighted": "", "hierarchy": "h"},
     ["f"], (0, b"5\tA b\n5\ta b\n", b"")),
    ({"support": "7", "stats": "", "generated": "7", "engine": "pivot", "workers": "2", "simulate": "7"}, [".*(top^=).*"],
     (0, b"generated 7 patterns 1 support 7 longest 1\n", b"desq: nodes 2 parts 1 candidates 0\n")),
    ({"support": "5", "hierarchy": "h", "weighted": "", "proof": ""}, ["(A^=)(b)", "f"], (0, PROOF.encode(), b"")),
    ({"support": "5", "hierarchy": "h", "weighted": "", "engine": "count", "workers": "2", "check": "p"}, ["(A^=)(b)", "f"],
     (0, b"checked 1 rows\n", b"")))
HELP = ("--help", "-h", "--version", "-V", "--help=x", "--stats=x", "--no-stats")


def forms(option, value):
    """An option with its value as a word of its own, and behind an equals sign; a flag alone."""
    return [[f"--{option}", value], [f"--{option}={value}"]] if value else [[f"--{option}"]]


def placed(parts, more=None, place=0):
    """The words of these parts, with one more at a place."""
    return sum(parts[:place] + ([more] if more else []) + parts[place:], [])


for word in HELP:
    rows.ends(f"{word} alone", run(word), (2, b"", USAGE))
rng = random.Random(7)
for options, plain, ends in COMMANDS:
    parts = {option: forms(option, value)[0] for option, value in options.items()}
    whole = [*list(parts.values())[:3], *([word] for word in plain), *list(parts.values())[3:]]
    for option, value in options.items():
        others = [part for part in whole if part != parts[option]]
        for form in forms(option, value):
            for place in range(len(others) + 1):
                words = placed(others, form, place)
                rows.ends(f"--{option} at place {place}: {words}", run(*words, cwd=WORK), ends)
            for place in range(len(whole) + 1):
                words = placed(whole, form, place)
                rows.ends(f"--{option} twice: {words}", run(*words, cwd=WORK), (2, b"", USAGE))
    for word in HELP:
        for place in range(len(whole) + 1):
            words = placed(whole, [word], place)
            rows.ends(f"{word} is no word of a command: {words}", run(*words, cwd=WORK), (2, b"", USAGE))
    for _ in range(40):
        shuffled = [rng.choice(forms(*option)) for option in options.items()]
        rng.shuffle(shuffled)
        for word, place in zip(plain[::-1], sorted(rng.choices(range(len(shuffled) + 1), k=len(plain)))[::-1]):
            shuffled.insert(place, [word])
        words = placed(shuffled)
        rows.ends(f"in another order: {words}", run(*words, cwd=WORK), ends)

# Many words, and long ones.
for name, words in (("20,000 words", ["a"] * 20_000), ("20,000 flags", ["--stats"] * 20_000),
                    ("20,000 signs of the end of options", ["--"] * 20_000),
                    ("an option of 100,000 bytes", [f"--{'a' * 100_000}", "(a)", "f"])):
    rows.ends(name, run("--support", "1", *words, cwd=WORK), (2, b"", USAGE))
rows.ends("a number of 100,001 digits", run("--support", f"{'0' * 100_000}2", PAIRS, lines), (0, b"2\ta b\n", b""))
rows.ends("an expression of 100,000 bytes", run("--support", "1", "(a" * 50_000, lines),
          (4, b"", b"desq: expression: more than 4096 bytes\n"))
rows.ends("a file name of 100,000 bytes", run("--support", "1", "(a)", "f" * 100_000), (5, b"", READ_FAULT))

# Behind `--` they are words like others.
write("--help", "--help\n")
for words, answer in ((["--support", "1", "--", "(--help)", "--help"], b"1\t--help\n"),
                      (["--support", "1", "(--help)", "--", "--help"], b"1\t--help\n"),
                      (["--support", "1", "--", "--help", "--help"], b"")):
    rows.ends(f"behind two signs: {words}", run(*words, cwd=WORK), (0, answer, b""))
rows.finish()
