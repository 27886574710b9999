#!/usr/bin/env python3
"""Proof files. What `--proof` writes has the lines of the answer, and below each a path over each sequence
that supports it, whatever the engine and the number of workers; which sequences these are is found here by
what an expression means, without a path. What `--check` accepts and refuses, and at which line, is compared
with the judge of examples/proofs, which reads files and expressions by itself: on proofs by the program and
by another hand, on a table of lines, and on random changes of one byte."""
import os
import random
import re
import resource
import signal
import sys

sys.dont_write_bytecode = True
sys.path.insert(0, "examples/proofs")
from judge import MOST_BYTES, Data, Refused, judged
from rows import ENGINES, WORK, WORKERS, Rows, run, running_example, searches, shown, write

USAGE = (2, b"", b"desq: usage: desq --support N [options] EXPR [FILE]\n")
CHANGES = 1_000
NUMBER = rb"(?:0|[1-9][0-9]*)"
# Lines as they are written, with no zero in front of a number.
WRITTEN = re.compile(rb"%s\t[^\t\n]+|\t%s(?: %s)+" % (NUMBER, NUMBER, NUMBER))

rows = Rows()


def refused(what, status=3):
    return status, b"", f"desq: proof: {what}\n".encode()


def at(line):
    return refused(f"line {line}: refused")


def bad_byte(line, column):
    return refused(f"line {line} column {column}: bad byte")


def long_name(line, column):
    return refused(f"line {line} column {column}: name over 255 bytes", 4)


def checked(count):
    return 0, f"checked {count} rows\n".encode(), b""


class Question:
    """What a run is asked: the words of its run, and what they mean."""

    def __init__(self, name, support, expression, sequences, hierarchy="", is_weighted=False):
        self.name = name
        self.words = ["--support", str(support)]
        if hierarchy:
            self.words += ["--hierarchy", write(f"{name}.above", hierarchy)]
        if is_weighted:
            self.words += ["--weighted"]
        self.words += [expression, write(f"{name}.lines", sequences)]
        self.data = Data(hierarchy.encode(), sequences.encode(), is_weighted, expression.encode(), support)
        self.answer, self.supporters = answer_of(self.data)

    def proved(self, *more):
        """How a run that writes a proof ends."""
        return run("--proof", *more, *self.words)

    def checks(self, proof, *more):
        """How a run that judges this proof ends."""
        return run(*more, "--check", write(f"{self.name}.proof", proof), *self.words)

    def judges(self, proof):
        """How it is to end."""
        try:
            return checked(judged(proof, self.data))
        except Refused as refusal:
            status, text = refusal.args
            return status, b"", f"desq: {text}\n".encode()

    def astray(self, proof):
        """What of a text is no proof of the answer."""
        if proof and not proof.endswith(b"\n"):
            return "the last line has no end"
        lines = proof.split(b"\n")[:-1]
        for number, line in enumerate(lines, 1):
            if not WRITTEN.fullmatch(line):
                return f"line {number} is not written so: {line!r}"
        answer, numbers = [], []
        for line in lines:
            if line.startswith(b"\t"):
                numbers[-1].append(int(line.split()[0]))
            else:
                answer.append(line)
                numbers.append([])
        if answer != self.answer:
            return f"wanted the rows {self.answer[:8]} and got {answer[:8]}"
        if numbers != self.supporters:
            return f"wanted the sequences {self.supporters[:8]} and got {numbers[:8]}"
        return "" if self.judges(proof) == checked(len(answer)) else f"refused: {self.judges(proof)}"

    def by_another_hand(self, chosen):
        """A proof of the answer, in which another function picks the next state."""
        lines = []
        for row, numbers in zip(self.answer, self.supporters):
            lines.append(row)
            for number in numbers:
                pattern = row.split(b"\t")[1].split(b" ")
                states = path(self.data, self.data.sequences[number - 1], pattern, chosen)
                lines.append(b"\t" + b" ".join(b"%d" % part for part in [number, *states]))
        return b"".join(line + b"\n" for line in lines)


# What an expression means: the pieces that it takes of a sequence, each with what it writes. No path stands
# here.
LEAVES = {"w": lambda w, t, above: [t] if w in above(t) else [],
          "w=": lambda w, t, above: [t] if t == w else [],
          "w^": lambda w, t, above: [v for v in above(t) if w in above(v)],
          "w^=": lambda w, t, above: [w] if w in above(t) else [],
          "!w": lambda w, t, above: [t] if w not in above(t) else [],
          "!w=": lambda w, t, above: [t] if t != w else [],
          ".": lambda w, t, above: [t],
          ".^": lambda w, t, above: above(t)}


def pieces(data, items, tree, captured, begin, known):
    """The ends of the pieces from there on that the tree takes, and for each what it may write."""
    key = id(tree), captured, begin
    if key not in known:
        known[key] = all_pieces(data, items, tree, captured, begin, known)
    return known[key]


def all_pieces(data, items, tree, captured, begin, known):
    kind, *parts = tree
    made = {}
    if kind == "leaf":
        written = LEAVES[parts[0]](parts[1], items[begin], data.above) if begin < len(items) else []
        return {begin + 1: {(v,) for v in written} if captured else {()}} if written else {}
    if kind == "capture":
        return pieces(data, items, parts[0], True, begin, known)
    if kind == "choice":
        for part in parts[0]:
            add(made, pieces(data, items, part, captured, begin, known))
        return made
    if kind == "row":
        made = {begin: {()}}
        for part in parts[0]:
            made = with_more(data, items, part, captured, made, known)
        return made
    inner, least, most = parts
    turns = {begin: {()}}
    for number in range(1 + (least + len(items) if most is None else most)):
        if number >= least:
            add(made, turns)
        turns = with_more(data, items, inner, captured, turns, known)
    return made


def add(made, more):
    for end, outputs in more.items():
        made[end] = made.get(end, set()) | outputs


def with_more(data, items, tree, captured, made, known):
    """The pieces, each with one more behind it that the tree takes."""
    longer = {}
    for middle, outputs in made.items():
        for end, others in pieces(data, items, tree, captured, middle, known).items():
            longer.setdefault(end, set()).update(output + other for output in outputs for other in others)
    return longer


def answer_of(data):
    """The lines of the answer, and for each the numbers of the sequences that support it."""
    supporters = {}
    for number, items in enumerate(data.sequences, 1):
        for pattern in pieces(data, items, data.tree, False, 0, {}).get(len(items), set()) - {()}:
            supporters.setdefault(pattern, []).append(number)
    found = []
    for pattern, numbers in supporters.items():
        support = sum(data.weights[number - 1] for number in numbers)
        if support >= data.threshold:
            found.append((-support, pattern, numbers))
    found.sort()
    return ([b"%d\t%s" % (-support, b" ".join(pattern)) for support, pattern, _ in found],
            [numbers for _, _, numbers in found])


def path(data, items, pattern, chosen):
    """A path over the items that writes the pattern, whose states are chosen so where there are several."""
    ends, size = {}, len(items)

    def can_end(at, read, wrote):
        key = at, read, wrote
        if key not in ends:
            ends[key] = (at in data.ends and wrote == len(pattern)) if read == size else bool(nexts(*key))
        return ends[key]

    def nexts(at, read, wrote):
        found = []
        for state in sorted(data.follows[at]):
            writes = data.leaves[state][2]
            written = pattern[wrote] if writes and wrote < len(pattern) else None
            if writes and written is None or not data.may_write(state, items[read], written):
                continue
            if can_end(state, read + 1, wrote + writes):
                found.append(state)
        return found

    at, wrote, states = 0, 0, []
    for read in range(size):
        at = chosen(nexts(at, read, wrote))
        wrote += data.leaves[at][2]
        states.append(at)
    return states


# The worked rows: data of three lines, of which two have `a b`.
PAIRS = "a b\na b\na c\n"
GOOD = b"2\ta b\n\t1 2 3\n\t2 2 3\n"
pairs = Question("pairs", 2, ".*(a)(b).*", PAIRS)
rows.ends("the proof of two lines", pairs.proved(), (0, GOOD, b""))
rows.ends("its check", pairs.checks(GOOD), checked(1))
rows.ends("its check, with the last line as 2 2 4", pairs.checks(b"2\ta b\n\t1 2 3\n\t2 2 4\n"), at(3))
rows.ends("its check, with the last line left out", pairs.checks(b"2\ta b\n\t1 2 3\n"), at(1))
rows.ends("its check, with the last line as 1 2 3", pairs.checks(b"2\ta b\n\t1 2 3\n\t1 2 3\n"), at(3))
rows.ends("the check of an empty proof file", pairs.checks(b""), checked(0))

# Small questions.
KINDS, RUNNING = "a1 A\na2 A\n", "a1 c d c b\ne e a1 e a1 e b\nc d c b\na2 d b\na1 a1 b\n"
with open(running_example()[1], encoding="utf-8") as file:
    rows.hold("the running example is the one that is written here", file.read() == RUNNING)
running = ".*(A)[(.^)|.]*(b).*"
WEIGHTS = "3 a b\n2 c a\n1\n1 d\n7 b a\n007 b d a\n1000000000 a a\n"
dice = random.Random(19)
REPEATS = "".join(" ".join(dice.choices("abcd", k=dice.randrange(9))) + "\n" for _ in range(60))
smalls = [
    pairs, Question("running", 2, running, RUNNING, KINDS),
    Question("more of running", 1, running, RUNNING, KINDS),
    Question("none of running", 6, running, RUNNING, KINDS),
    Question("climbing", 2, ".*(.^)[.{0,2}(.^)]?.*", RUNNING, KINDS),
    Question("up to A", 1, ".*(A^)[.*(A^=)|(a2=)]{0,2}[!A*(!A=)]?.*", RUNNING, KINDS),
    Question("two parents", 2, "(.^)", "x\nx\n", "x P Q\nP R\nQ R\n"),
    Question("one of two parents", 1, "(P^)(Q^=)(!R=)?", "x x\nx x P\nx x y\n", "x P Q\nP R\nQ R\n"),
    Question("weights", 2, ".*(.)[.*(.)]?.*", WEIGHTS, is_weighted=True),
    Question("repeats", 1, "[(a){2}|b]{1,2} c{0} .{,2}[[(d)|.]{2,}]?[(a)?(b)*]{0,3}", REPEATS),
    Question("nothing inside", 1, "[[(a)*]*|[b?]+(c){0,2}]{2,3}.*", REPEATS),
    Question("choices", 3, ".*[(a)|(b)c|[(c)|.](d)]+[(.)|.].*", REPEATS),
    Question("quotes", 1, "('it''s')('.')?", "it's .\nit's\n. .\n"),
    Question("ends of lines", 1, "(a)(.)?", "\ufeffa b\r\n\n\ta\t c \r\na\r"),
    Question("no sequence", 1, "(.)", ""), Question("nothing written", 1, ".*", RUNNING)]


def proves(name, question, ended, told=b""):
    """A row: the run has written a proof of the answer, and nothing but this on its error output."""
    lost = question.astray(ended[1])
    rows.hold(f"a proof of the answer: {question.name}, {name}", ended[::2] == (0, told) and not lost,
              lost or shown(ended[::2]))


def accepts(name, question, ended):
    """A row: the run has accepted a proof of the answer."""
    rows.ends(f"a proof is accepted: {question.name}, {name}", ended, checked(len(question.answer)))


HANDS = {"the first": min, "the last": max, "any": dice.choice}
for question in smalls:
    for search, by in searches(ENGINES):
        ended = question.proved(*search)
        proves(by, question, ended)
        accepts(by, question, question.checks(ended[1], *search))
    rows.ends(f"the answer has the same rows: {question.name}", run(*question.words),
              (0, b"".join(row + b"\n" for row in question.answer), b""))
    for hand, chosen in HANDS.items():
        accepts(f"by {hand} states", question, question.checks(question.by_another_hand(chosen)))
for question in (smalls[1], smalls[4]):
    for engine in ENGINES:
        work = run(*question.words, "--stats", "--engine", engine)[2]
        rows.hold(f"work is told: {question.name}, {engine}", work.startswith(b"desq: nodes "))
        proves(f"with the work of {engine}", question, question.proved("--stats", "--engine", engine), work)
        for seed in ("0", "7", "18446744073709551615") if engine in ("dfs", "pivot") else ():
            proves(f"by {engine} simulated with {seed}", question,
                   question.proved("--engine", engine, "--simulate", seed))

# The numbers of item expressions are those of the text once all repetitions are written out: the copies of
# `[(a){2}|b]` have 1 to 3 and 4 to 6, and those of `(d){2,}` have 7 and 8, of which the last may come again.
numbered = Question("numbered", 1, "[(a){2}|b]{1,2} b{0} (d){2,}", "b a a d d d\n")
rows.ends("numbers of item expressions", numbered.proved(), (0, b"1\ta a d d d\n\t1 3 4 5 7 8 8\n", b""))

# Long sequences and patterns, and as many item expressions as there may be.
MANY = 20_000
for name, expression, sequences in (
        ("a long pattern", "(a)*", "a " * MANY), ("a long sequence", ".*(a)(b)", "a " * MANY + "b"),
        ("most item expressions", "[(a)(b)]{512}", "a b " * 512),
        ("a pattern of half a sequence", "[(a)b]*", "a b " * 2_000)):
    words = ["--support", "1", expression, write("long", sequences)]
    status, proof, told = run("--proof", *words)
    good = judged(proof, Data(b"", sequences.encode(), False, expression.encode(), 1))
    rows.hold(f"{name}: its proof is good", (status, told, good) == (0, b"", 1), shown([told]))
    rows.ends(f"{name}: its proof is accepted", run("--check", write("proof", proof), *words), checked(1))

# 2,000 sequences.
above = "".join(f"w{number} k{number % 12}\n" for number in range(150))
above += "".join(f"k{number} top\n" for number in range(12))
lines = []
for _ in range(2_000):
    words = [min(dice.randrange(150), dice.randrange(150)) for _ in range(dice.randrange(3, 10))]
    lines.append(" ".join(f"w{number}" for number in words) + "\n")
weighted = "".join(f"{1 + number % 3} {line}" for number, line in enumerate(lines))
for medium in (Question("heavy medium", 8, ".*(k1)[.{0,2}(.)]{0,2}.*", weighted, above, is_weighted=True),
               Question("medium", 10, ".*(.^)[.{0,1}(k3^)]{1,2}.*", "".join(lines), above)):
    rows.hold(f"there is much to prove: {medium.name}", len(medium.answer) > 50, f"{len(medium.answer)} rows")
    for search, by in searches(ENGINES, WORKERS[:2]):
        ended = medium.proved(*search)
        proves(by, medium, ended)
    accepts("by the program", medium, medium.checks(ended[1]))
    for hand, chosen in HANDS.items():
        accepts(f"by {hand} states", medium, medium.checks(medium.by_another_hand(chosen)))

# Lines, and how their check ends. The answer to `one` has `3 a`, `2 a b` and `1 a c`, and its threshold is 1.
one = Question("one", 1, ".*(a)[(.)|.].*", PAIRS)
heavy = Question("heavy", 5, "(a)[(.)]?", "3 a b\n2 a\n4 a b\n", "b B\nz\n", is_weighted=True)
BIG = b"1" + b"0" * 30
LONG = b"n" * 256
FIRST, SECOND = b"\t1 2 3\n", b"\t2 2 3\n"
OF_A = b"3\ta\n\t1 2 4\n\t2 2 4\n\t3 2 4\n"
ZEROS = b"0" * 250
for name, asked, proof, wanted in (
        ("leading zeros", pairs, b"002\ta b\n\t01 0002 3\n\t002 2 03\n", checked(1)),
        ("250 leading zeros", pairs, b"%s2\ta b\n\t%s1 2 3\n\t2 2 %s3\n" % (ZEROS, ZEROS, ZEROS), checked(1)),
        ("255 zeros before a digit", pairs, ZEROS + b"00000" + GOOD, long_name(1, 256)),
        ("carriage returns", pairs, GOOD.replace(b"\n", b"\r\n"), checked(1)),
        ("a carriage return at the end", pairs, GOOD[:-1] + b"\r", checked(1)),
        ("two carriage returns", pairs, GOOD.replace(b"\n", b"\r\r\n", 1), bad_byte(1, 6)),
        ("a carriage return inside", pairs, b"2\ta\r b\n" + FIRST + SECOND, bad_byte(1, 4)),
        ("a carriage return behind the last line feed", pairs, GOOD + b"\r", at(4)),
        ("a mark", pairs, b"\xef\xbb\xbf" + GOOD, checked(1)),
        ("a mark alone", pairs, b"\xef\xbb\xbf", checked(0)),
        ("two marks", pairs, b"\xef\xbb\xbf" * 2 + GOOD, at(1)),
        ("a mark in the second line", pairs, b"2\ta b\n\xef\xbb\xbf" + FIRST + SECOND, at(1)),
        ("no last line feed", pairs, GOOD[:-1], checked(1)),
        ("one empty line", pairs, b"\n", at(1)),
        ("an empty line in front", pairs, b"\n" + GOOD, at(1)),
        ("an empty line at the end", pairs, GOOD + b"\n", at(4)),
        ("an empty line behind a row, whose claim is judged there", pairs, b"2\ta b\n\n" + FIRST + SECOND,
         at(1)),
        ("a path under no row", pairs, FIRST + GOOD, at(1)),
        ("a row of nothing but a tab", pairs, b"\t\n" + GOOD, at(1)),
        ("a row that needs no path, and none", pairs, b"0\ta b\n", at(1)),
        ("all rows", one, OF_A + GOOD + b"1\ta c\n\t3 2 3\n", checked(3)),
        ("rows left out", one, b"1\ta c\n\t3 2 3\n", checked(1)),
        ("rows in the wrong order", one, GOOD + OF_A, at(4)),
        ("names in the wrong order", one, b"1\ta c\n\t3 2 3\n1\ta b\n" + FIRST, at(3)),
        ("a longer pattern before a shorter one", one, b"1\ta b\n" + FIRST + b"1\ta\n\t1 2 4\n", at(3)),
        ("a shorter pattern before a longer one", one, b"1\ta\n\t1 2 4\n1\ta b\n" + FIRST, checked(2)),
        ("a row twice", pairs, GOOD + GOOD, at(4)),
        ("a row twice, the first without paths", pairs, b"2\ta b\n" + GOOD, at(1)),
        ("a pattern with two claims", one, GOOD + b"1\ta b\n" + SECOND, checked(2)),
        ("a claim below the truth", one, b"1\ta b\n" + FIRST + SECOND, checked(1)),
        ("a claim above the truth", pairs, b"3\ta b\n" + FIRST + SECOND, at(1)),
        ("a claim above the truth, behind a row that is good", one, OF_A + b"2\ta c\n\t3 2 3\n", at(5)),
        ("a claim below the threshold", pairs, b"1\ta b\n" + FIRST, at(1)),
        ("a claim of none", one, b"0\ta b\n" + FIRST, at(1)),
        ("the greatest claim", one, b"%d\ta b\n" % 10 ** 18 + FIRST, at(1)),
        ("the greatest claim, behind a path that is refused", one, b"%d\ta b\n\t1 9 9\n" % 10 ** 18, at(2)),
        ("a claim above 10^18, told before its path", one, b"1000000000000000001\ta b\n\t1 9 9\n", at(1)),
        ("a claim of 2^64 + 1", one, b"18446744073709551617\ta b\n" + FIRST, at(1)),
        ("a claim of 31 digits", one, BIG + b"\ta b\n" + FIRST, at(1)),
        ("no claim", one, b" \ta b\n" + FIRST, at(1)),
        ("a claim with a sign", one, b"+1\ta b\n" + FIRST, at(1)),
        ("a claim with a letter", one, b"1x\ta b\n" + FIRST, at(1)),
        ("a state that is none", one, b"1\ta b\n\t1 2 6\n", at(2)),
        ("the state 0", one, b"1\ta b\n\t1 0 2\n", at(2)),
        ("a state of 2^32 + 2", one, b"1\ta b\n\t1 4294967298 3\n", at(2)),
        ("a state of 2^64 + 2", one, b"1\ta b\n\t1 18446744073709551618 3\n", at(2)),
        ("a state of 31 digits", one, b"1\ta b\n\t1 2 " + BIG + b"\n", at(2)),
        ("a state with a sign", one, b"1\ta b\n\t1 +2 3\n", at(2)),
        ("a state with a letter", one, b"1\ta b\n\t1 2 3x\n", at(2)),
        ("one state too few", one, b"1\ta b\n\t1 2\n", at(2)),
        ("no state", one, b"1\ta b\n\t1\n", at(2)),
        ("one state too many", one, b"1\ta b\n\t1 2 3 5\n", at(2)),
        ("states that may not follow each other", one, b"1\ta b\n\t1 1 3\n", at(2)),
        ("a state that may not come first", one, b"1\ta b\n\t1 3 5\n", at(2)),
        ("a state that does not match", one, b"1\ta c\n\t1 2 3\n", at(2)),
        ("states that do not end", one, b"1\ta\n\t1 1 2\n", at(2)),
        ("states that end too early", one, b"1\ta\n\t1 1 1\n", at(2)),
        ("states that write too little", one, b"1\ta b\n\t1 2 4\n", at(2)),
        ("states that write too much", one, b"1\ta\n\t1 2 3\n", at(2)),
        ("states that write something else", one, b"1\tb a\n\t1 2 3\n", at(2)),
        ("the sequence 0", one, b"1\ta b\n\t0 2 3\n", at(2)),
        ("a sequence beyond the last", one, b"1\ta b\n\t4 2 3\n", at(2)),
        ("the sequence 2^32", one, b"1\ta b\n\t4294967296 2 3\n", at(2)),
        ("the sequence 2^32 + 1", one, b"1\ta b\n\t4294967297 2 3\n", at(2)),
        ("the sequence 2^64 + 1", one, b"1\ta b\n\t18446744073709551617 2 3\n", at(2)),
        ("a sequence of 31 digits", one, b"1\ta b\n\t" + BIG + b" 2 3\n", at(2)),
        ("the same sequence twice", pairs, b"2\ta b\n" + FIRST + FIRST, at(3)),
        ("the same sequence once more than is needed", one, b"1\ta b\n" + FIRST + FIRST, at(3)),
        ("the same sequence by two numbers", pairs, b"2\ta b\n" + FIRST + b"\t01 2 3\n", at(3)),
        ("falling numbers", pairs, b"2\ta b\n" + SECOND + FIRST, at(3)),
        ("each row has its own numbers", one, b"1\ta\n\t2 2 4\n1\ta b\n" + FIRST, checked(2)),
        ("an unknown name", one, b"1\ta z\n" + FIRST, at(1)),
        ("an unknown name that is longer", one, b"1\taa\n" + FIRST, at(1)),
        ("a known name that is no pattern", one, b"1\tb\n", at(1)),
        ("no name", one, b"1\t\n" + FIRST, at(1)),
        ("no tab", one, b"1 a b\n" + FIRST, at(1)),
        ("a support alone", one, b"1\n" + FIRST, at(1)),
        ("a blank doubled", one, b"1\ta  b\n" + FIRST, at(1)),
        ("a blank behind the names", one, b"1\ta b \n" + FIRST, at(1)),
        ("a blank before the names", one, b"1\t a b\n" + FIRST, at(1)),
        ("a blank before the row", one, b" 1\ta b\n" + FIRST, at(1)),
        ("a tab too many", one, b"1\t\ta b\n" + FIRST, at(1)),
        ("a tab between names", one, b"1\ta\tb\n" + FIRST, at(1)),
        ("a tab too many before a path", one, b"1\ta b\n\t\t1 2 3\n", at(2)),
        ("a tab between states", one, b"1\ta b\n\t1 2\t3\n", at(2)),
        ("a blank doubled in a path", one, b"1\ta b\n\t1  2 3\n", at(2)),
        ("a blank behind a path", one, b"1\ta b\n\t1 2 3 \n", at(2)),
        ("a blank before a path, which is a row line then", one, b"1\ta b\n \t1 2 3\n", at(1)),
        ("a blank before a path behind a row that is good", one, b"1\ta b\n" + FIRST + b" " + SECOND, at(3)),
        ("a bad byte", pairs, b"2\ta\x01b\n", bad_byte(1, 4)),
        ("a byte 0", pairs, GOOD + b"\0", bad_byte(4, 1)),
        ("a byte 127", pairs, b"2\ta b\n\t1 2\x7f3\n", bad_byte(2, 5)),
        ("a bad byte behind a mark", pairs, b"\xef\xbb\xbf\x01", bad_byte(1, 1)),
        ("a bad byte in the row behind one that is short", pairs, b"2\ta b\n" + FIRST + b"2\ta\x01\n",
         bad_byte(3, 4)),
        ("a bad byte in a path of a row that is short", pairs, b"2\ta b\n\t\x01\n", bad_byte(2, 2)),
        ("a bad byte two lines behind a row that is short", pairs, b"2\ta b\n\t1 2 3\n2\ta c\n\x01\n", at(1)),
        ("a row that is no row behind one that is short", pairs, b"2\ta b\n" + FIRST + b"x\n", at(1)),
        ("a path that is refused under a row that is short", pairs, b"2\ta b\n\t9 2 3\n", at(2)),
        ("a name too long", pairs, b"2\ta " + LONG + b"\n", long_name(1, 260)),
        ("a name of 255 bytes, which is unknown", pairs, b"2\ta " + LONG[1:] + b"\n", at(1)),
        ("a state too long", pairs, b"2\ta b\n\t1 " + LONG + b"\n", long_name(2, 259)),
        ("a name too long in the row behind one that is short", pairs, b"2\ta b\n" + FIRST + LONG + b"\n",
         long_name(3, 256)),
        ("a bad byte before a name too long", pairs, b"\x01" + LONG + b"\n", bad_byte(1, 1)),
        ("a name too long before a bad byte", pairs, LONG + b"\x01\n", long_name(1, 256)),
        ("paths that weigh just enough", heavy, b"7\ta b\n\t1 1 2\n\t3 1 2\n", checked(1)),
        ("paths that weigh one too little", heavy, b"8\ta b\n\t1 1 2\n\t3 1 2\n", at(1)),
        ("paths that weigh more", heavy, b"5\ta b\n\t1 1 2\n\t3 1 2\n", checked(1)),
        ("a path that weighs too little", heavy, b"5\ta b\n\t3 1 2\n", at(1)),
        ("a sequence of one item under weights", heavy, b"5\ta\n\t2 1\n", at(1)),
        ("a weight is no item", heavy, b"5\t3 b\n\t1 1 2\n", at(1)),
        ("an item of the hierarchy alone is known, but is no pattern", heavy, b"5\tz\n", at(1)),
        ("what stands above an item is known, but is not written", heavy, b"5\ta B\n\t1 1 2\n", at(2))):
    rows.ends(f"lines: {name}", asked.checks(proof), wanted)
    rows.ends(f"lines, by the judge of examples/proofs: {name}", asked.judges(proof), wanted)

# How the proof is named, and words that are not looked at.
good, folder = write("good", GOOD), WORK
rows.ends("standard input is the proof", run("--check", "-", *pairs.words, input=GOOD), checked(1))
rows.ends("standard input is the proof, and is refused",
          run("--check=-", *pairs.words, input=GOOD[:-2] + b"4\n"), at(3))
with open(good, "rb") as file:
    rows.ends("standard input by its name in /dev", run("--check", "/dev/stdin", *pairs.words, stdin=file),
              checked(1))
for name, proof, wanted in (("a file", good, checked(1)), ("what is left of it", "-", checked(0))):
    with open(pairs.words[-1], "rb") as file:
        rows.ends(f"standard input is the sequences, and the proof is {name}",
                  run("--check", proof, *pairs.words[:-1], "-", stdin=file), wanted)
for search, by in searches(ENGINES):
    rows.ends(f"a check does not look at words of the search: {by}", pairs.checks(GOOD, *search), checked(1))
rows.ends("words in another order",
          run(pairs.words[2], pairs.words[3], "--support=2", f"--check={good}"), checked(1))

# Files that are none, and files of the most bytes.
for name, proof in (("missing", f"{WORK}/absent"), ("a folder", folder), ("of no name", ""),
                    ("below a file", f"{good}/f")):
    rows.ends(f"a proof that is {name}", run("--check", proof, *pairs.words), refused("read fault", 5))
rows.ends("standard input that is closed as the proof",
          run("--check", "-", *pairs.words, preexec_fn=lambda: os.close(0)), refused("read fault", 5))
too_large = refused(f"more than {MOST_BYTES} bytes", 4)
for device in ("/dev/zero", "/dev/full"):
    rows.ends(f"{device} as the proof", run("--check", device, *pairs.words), too_large)
rows.ends("/dev/null as the proof", run("--check", "/dev/null", *pairs.words), checked(0))
large = write("large", GOOD)
for more, wanted in ((1, too_large), (0, bad_byte(4, 1))):
    os.truncate(large, MOST_BYTES + more)
    rows.ends(f"{more} bytes more than there may be, as no text", run("--check", large, *pairs.words), wanted)
os.unlink(large)
# Rows of falling claims, with zeros in front of all numbers.
most = Question("most", 1, "(a)", "1000000000 a\n", is_weighted=True)


def padded(claim, zeros):
    return b"%s%d\ta\n\t%s1 %s1\n" % (b"0" * (zeros - 5), claim, b"0" * zeros, b"0" * zeros)


count, rest = divmod(MOST_BYTES, len(padded(999_999, 254)))
proof = b"".join(padded(999_999 - number, 254) for number in range(count))
proof += b"0" * (rest - len(padded(100_000, 5))) + padded(100_000, 5)
rows.hold("it has the most bytes", len(proof) == MOST_BYTES)
rows.ends("a good proof of the most bytes", most.checks(proof), checked(count + 1))
rows.ends("a byte more, which is an empty line", most.checks(proof + b"\n"), too_large)
os.unlink(f"{WORK}/most.proof")

# What cannot be written.
unwritten = (6, b"", b"desq: write fault\n")
with open("/dev/full", "wb") as device:
    for search, by in searches(ENGINES):
        rows.ends(f"a proof onto a full device, {by}",
                  run("--proof", *search, *smalls[1].words, stdout=device), unwritten)
    rows.ends("a check onto a full device", run("--check", good, *pairs.words, stdout=device), unwritten)
    rows.ends("an empty proof onto a full device", run("--proof", *smalls[3].words, stdout=device),
              (0, b"", b""))
    rows.ends("a refused check, and a full device", run("--check", folder, *pairs.words, stdout=device),
              refused("read fault", 5))

# The last `medium` has a proof of several pieces.
whole = medium.proved()[1]
for most_bytes in (1, 65_536, 65_537, len(whole) - 1):
    def limited(limit=most_bytes):
        signal.signal(signal.SIGXFSZ, signal.SIG_IGN)
        resource.setrlimit(resource.RLIMIT_FSIZE, (limit, limit))
    with open(f"{WORK}/cut", "wb") as out:
        ended = run("--proof", *medium.words, stdout=out, preexec_fn=limited)
    with open(f"{WORK}/cut", "rb") as file:
        rows.hold(f"a proof into a file of at most {most_bytes} bytes",
                  ended == unwritten and file.read() == whole[:most_bytes] != whole, shown(ended))

# What is no command.
for words in ("--proof --check good", "--check good --proof", "--proof --proof", "--check good --check good",
              "--proof=1", "--proof=", "--check", "--prove", "--check good --none", "--check good --stats",
              "--check good --simulate 7", "--check good --engine pivot --simulate 7",
              "--check good --engine pivot --split 1/1", "--proof --engine pivot --split 1/1",
              "--proof --engine count --simulate 7", "--proof --engine cand --simulate 7",
              "--check good --engine none", "--check good --workers 0",
              "--check good --workers 65", "--check good --support 2", "--proof --generalize",
              "--check good --min-length 1"):
    rows.ends(f"no command: {words}", run(*pairs.words, *words.split(), cwd=WORK), USAGE)
sequences = pairs.words[-1]
for word in ("--proof", "--check=good"):
    for words in (["--support", "7", "--generated", "7", ".*(top^=).*"],
                  ["--support", "2", "--max-gap", "1", sequences],
                  ["--support", "1", "--merge", write("output", "2\ta b\n")], ["--support", "2", "(a)"],
                  ["(a)", sequences], ["--support", "0", "(a)", sequences],
                  ["--support", "2", "(a)", sequences, sequences]):
        rows.ends(f"no command: {word} beside {' '.join(words[:4])}", run(word, *words, cwd=WORK), USAGE)

# Changes of one byte.
random_bytes = random.Random(418)
lines = "2 a1 c d c b\n1 e e a1 e a1 e b\n3 c d c b\n10 a2 d b\n1 a1 a1 b\n1 b a1 b b\n"
changing = Question("changing", 2, ".*(A^)[(.^)|.]*(b).*", lines, "a1 A\na2 A\n10 2\n", is_weighted=True)
proof = changing.by_another_hand(random_bytes.choice)
accepted = 0
for number in range(CHANGES):
    place = random_bytes.randrange(len(proof))
    byte = bytes([random_bytes.choice((random_bytes.randrange(256), *b"0123456789\t\n \r"))])
    kind = number % 4
    changed = proof[:place] + (b"" if kind == 3 else byte) + proof[place + (kind != 2):]
    wanted = changing.judges(changed)
    accepted += wanted[0] == 0
    rows.ends(f"change {number}: {byte!r} {('for', 'for', 'before', 'gone')[kind]} byte {place}",
              run("--check", "-", *changing.words, input=changed), wanted)
rows.hold("some changes leave a proof good, and more do not", CHANGES // 50 < accepted < CHANGES // 2,
          f"{accepted} do")
rows.finish()
