#!/usr/bin/env python3
"""Judges a proof file of desq with nothing of desq: it reads the files and the expression by itself, mines
nothing, and follows the paths that the proof cites.

usage: judge.py --support N [--hierarchy FILE] [--weighted] PROOF EXPR FILE

The expression, the hierarchy and the sequences are taken as good, as the run has found them that wrote the
proof; what is judged is the proof. It ends as `desq --support N --check PROOF ..` does, with `checked R rows`
or with the first refusal.
"""
import argparse
import os
import re
import sys

MOST_BYTES, MOST_SUPPORT = 67_108_864, 10**18


# The files.
def lines_of(text):
    """A byte order mark at the front and a carriage return at the end of a line are dropped."""
    lines = text.removeprefix(b"\xef\xbb\xbf").split(b"\n")
    return [line.removesuffix(b"\r") for line in (lines if lines[-1] else lines[:-1])]


def fields_of(line):
    return re.findall(rb"[^\t ]+", line)


# The expression, as a tree: a leaf has a kind and a name, and the others have parts.
BARE = rb"[A-Za-z0-9_@/:#%&\x80-\xff-]+"
TOKEN = re.compile(rb"[ \t\n\r]*(" + BARE + rb"|'(?:[^']|'')*'|\{[^}]*\}|[=^.()\[\]|!*+?])")
SIGNS = {b"*": (0, None), b"+": (1, None), b"?": (0, 1)}


def tree_of(text):
    left = [match[1] for match in TOKEN.finditer(text)][::-1]  # the next token is the last

    def next_is(*tokens):
        return bool(left) and left[-1] in tokens

    def choice():
        parts = [row()]
        while next_is(b"|"):
            left.pop()
            parts.append(row())
        return ("choice", parts)

    def row():
        parts = [repeated()]
        while left and not next_is(b"|", b")", b"]"):
            parts.append(repeated())
        return ("row", parts)

    def repeated():
        part = atom()
        while left and (left[-1] in SIGNS or left[-1].startswith(b"{")):
            part = ("repeat", part, *bounds(left.pop()))
        return part

    def bounds(sign):
        if sign in SIGNS:
            return SIGNS[sign]
        least, comma, most = sign.strip(b"{}").partition(b",")
        least = int(least.strip() or 0)
        return least, (int(most) if most.strip() else None) if comma else least

    def atom():
        token = left.pop()
        if token in (b"(", b"["):
            part = choice()
            left.pop()
            return ("capture", part) if token == b"(" else part
        if token == b".":
            return ("leaf", "." + climbs(), b"")
        excluded = "!" if token == b"!" else ""
        token = left.pop() if excluded else token
        name = token[1:-1].replace(b"''", b"'") if token.startswith(b"'") else token
        return ("leaf", excluded + "w" + ("" if excluded else climbs()) + exact(), name)

    def climbs():
        return left.pop().decode() if next_is(b"^") else ""

    def exact():
        return left.pop().decode() if next_is(b"=") else ""

    return choice()


class Data:
    """What a run is given: the files, the expression and the threshold."""

    def __init__(self, hierarchy, sequences, is_weighted, expression, threshold):
        self.parents, self.threshold = {}, threshold
        for line in lines_of(hierarchy):
            for child, *parents in [fields_of(line)] if fields_of(line) else []:
                self.parents.setdefault(child, set()).update(parents)
                for parent in parents:
                    self.parents.setdefault(parent, set())
        self.sequences = [fields_of(line) for line in lines_of(sequences)]
        self.weights = [int(line.pop(0)) if is_weighted else 1 for line in self.sequences]
        self.names = set(self.parents).union(*self.sequences)
        self.lists_above = {}
        self.tree = tree_of(expression)
        # The item expressions by their numbers, from 1 on, in the order of the text once all repetitions are
        # written out, each with whether it stands inside round brackets; and which may follow each. What
        # follows 0 may come first.
        self.leaves, self.follows = [None], [set()]
        first, last, is_empty = self.written_out(self.tree, False)
        self.follows[0] = first
        self.ends = last | ({0} if is_empty else set())

    def above(self, item):
        """The item and all that stands above it."""
        if item not in self.lists_above:
            found, left = {item}, [item]
            while left:
                more = self.parents.get(left.pop(), set()) - found
                found |= more
                left += more
            self.lists_above[item] = found
        return self.lists_above[item]

    def written_out(self, tree, captured):
        """Numbers the item expressions of the tree. The answer has those that may come first in it, those
        that may come last, and whether it may be nothing at all."""
        kind, *parts = tree
        if kind == "leaf":
            self.leaves.append((*parts, captured))
            self.follows.append(set())
            number = len(self.leaves) - 1
            return {number}, {number}, False
        if kind == "capture":
            return self.written_out(parts[0], True)
        if kind == "choice":
            made = [self.written_out(part, captured) for part in parts[0]]
            firsts, lasts, empties = zip(*made)
            return set().union(*firsts), set().union(*lasts), any(empties)
        if kind == "row":
            return self.in_order([self.written_out(part, captured) for part in parts[0]])
        inner, least, most = parts
        times = max(least, 1) if most is None else most
        copies = [self.written_out(inner, captured) for _ in range(times)]
        if most is None:
            first, last, _ = copies[-1]
            for number in last:
                self.follows[number] |= first
        return self.in_order(copies, least)

    def in_order(self, parts, least=None):
        """The parts one behind another. Behind so many of them all others may be left out together."""
        all_first, all_last, may_be_empty = set(), set(), True
        for number, (first, last, is_empty) in reversed(list(enumerate(parts))):
            for before in last:
                self.follows[before] |= all_first
            all_first = first | (all_first if is_empty else set())
            all_last = all_last | (last if may_be_empty else set())
            may_be_empty = (may_be_empty and is_empty) or (least is not None and number >= least)
        return all_first, all_last, may_be_empty

    def may_write(self, number, item, written):
        """Whether the item expression matches the item, and may write this for it."""
        kind, name, captured = self.leaves[number]
        above = self.above(item)
        matches = {"w": name in above, "w^": name in above, "w^=": name in above, "w=": item == name,
                   "!w": name not in above, "!w=": item != name}.get(kind, True)
        if not captured:
            return matches and written is None
        outputs = {"w^": {v for v in above if name in self.above(v)}, "w^=": {name}, ".^": above}
        return matches and written in outputs.get(kind, {item})

    def shows(self, number, states, pattern):
        """Whether the states are a path over the sequence with this number, from 1 on, that writes the
        pattern."""
        items = self.sequences[number - 1] if 1 <= number <= len(self.sequences) else []
        if len(states) != len(items):
            return False
        at, left = 0, list(pattern)[::-1]
        for state, item in zip(states, items):
            if state not in self.follows[at]:
                return False
            written = (left.pop() if left else b"") if self.leaves[state][2] else None
            if not self.may_write(state, item, written):
                return False
            at = state
        return at in self.ends and not left


class Refused(Exception):
    """A refusal: its status and its text."""


# Of the bytes of a line: a control byte, or a name with a byte too many. Then what a line may say.
FAULT = re.compile(rb"[\x00-\x08\x0a-\x1f\x7f]|[^\x00-\x20\x7f]{256}")
ROW = re.compile(rb"([0-9]+)\t(.*)", re.DOTALL)
PATH = re.compile(rb"\t([0-9]+)((?: [0-9]+)*)")


def judged(proof, data):
    """The number of rows of a good proof."""
    if len(proof) > MOST_BYTES:
        raise Refused(4, f"proof: more than {MOST_BYTES} bytes")
    rows, row, place, weight, last = 0, None, 0, 0, 0

    def hold(line, holds):
        if not holds:
            raise Refused(3, f"proof: line {line}: refused")

    for number, line in enumerate(lines_of(proof), 1):
        fault = FAULT.search(line)
        if fault and len(fault[0]) == 1:
            raise Refused(3, f"proof: line {number} column {fault.end()}: bad byte")
        if fault:
            raise Refused(4, f"proof: line {number} column {fault.end()}: name over 255 bytes")
        if line.startswith(b"\t"):
            said = PATH.fullmatch(line)
            hold(number, row and said)
            states = [int(state) for state in said[2].split()]
            hold(number, int(said[1]) > last and data.shows(int(said[1]), states, row[1]))
            last = int(said[1])
            weight += data.weights[last - 1]
        else:
            # The row before this one has all its paths.
            hold(place, row is None or weight >= -row[0])
            said = ROW.fullmatch(line)
            hold(number, said and set(said[2].split(b" ")) <= data.names)
            hold(number, data.threshold <= int(said[1]) <= MOST_SUPPORT)
            # Rows rise by falling support, and then by their names, in the order of bytes.
            before, row = row, (-int(said[1]), said[2].split(b" "))
            hold(number, before is None or before < row)
            rows, place, weight, last = rows + 1, number, 0, 0
    hold(place, row is None or weight >= -row[0])
    return rows


def bytes_of(path):
    if path == "-":
        return sys.stdin.buffer.read()
    with open(path, "rb") as file:
        return file.read()


def main():
    words = argparse.ArgumentParser(description="Judges a proof file of desq.")
    words.add_argument("--support", type=int, required=True)
    words.add_argument("--hierarchy", default=os.devnull)
    words.add_argument("--weighted", action="store_true")
    for name in ("proof", "expression", "file"):
        words.add_argument(name)
    said = words.parse_args()
    data = Data(bytes_of(said.hierarchy), bytes_of(said.file), said.weighted, os.fsencode(said.expression),
                said.support)
    try:
        print(f"checked {judged(bytes_of(said.proof), data)} rows")
    except Refused as refusal:
        status, text = refusal.args
        print(f"judge: {text}", file=sys.stderr)
        sys.exit(status)


if __name__ == "__main__":
    main()
