#!/usr/bin/env python3
"""A long run tells its progress to a terminal behind standard error, and to nothing else.

A pseudo terminal is given to the program, and its screen is kept: each line of progress is written over the
last, and none stands when other bytes come or the run is done. Through a pipe comes no byte of it.
"""
import os
import pty
import random
import re
import resource
import subprocess
import sys
import time

DESQ = os.environ["DESQ"]
WORK = os.environ["WORK"]
LINE = re.compile(rb"\rdesq: (\d+) (nodes grown|blocks gone over|parts counted)\x1b\[K")

held = rows = 0


def hold(what, holds, shown=""):
    global held, rows
    rows += 1
    if holds:
        held += 1
    else:
        print(f"FAILED: {what}: {str(shown)[:600]}")


def on_terminal(words, out):
    """A run with a terminal for standard error: its status, its bytes with their times, and how long it took.

    `out` is a file for standard output, or None for the terminal.
    """
    reader, terminal = pty.openpty()
    begun = time.monotonic()
    child = subprocess.Popen([DESQ, *words], stdin=subprocess.DEVNULL,
                             stdout=terminal if out is None else out, stderr=terminal)
    os.close(terminal)
    pieces = []
    while True:
        try:
            piece = os.read(reader, 65536)
        except OSError:
            break
        if not piece:
            break
        pieces.append((time.monotonic() - begun, piece))
    os.close(reader)
    return child.wait(), pieces, time.monotonic() - begun


def screen(text):
    """The lines that stand on a terminal after these bytes."""
    lines, column = [b""], 0
    for part in re.findall(rb"\x1b\[K|\r|\n|[^\x1b\r\n]+|\x1b", text):
        if part == b"\r":
            column = 0
        elif part == b"\n":
            lines.append(b"")
        elif part == b"\x1b[K":
            lines[-1] = lines[-1][:column]
        else:
            lines[-1] = lines[-1][:column] + part + lines[-1][column + len(part):]
            column += len(part)
    return [line.decode() for line in lines]


def write_lines(count):
    numbers = random.Random(7)
    path = f"{WORK}/lines"
    with open(path, "w") as file:
        for _ in range(count):
            file.write(" ".join(f"n{int(numbers.random() ** 2 * 60)}" for _ in range(24)) + "\n")
    return path


def words_of(engine, path):
    gaps = ".*(.)[.{0,2}(.)]{1,3}.*" if engine in ("count", "cand") else ".*(.)[.{0,3}(.)]{1,4}.*"
    return ["--support", "12", "--workers", "2", "--engine", engine, gaps, path]


def text_of(pieces):
    return b"".join(piece for _, piece in pieces)


def processor_seconds():
    return resource.getrusage(resource.RUSAGE_CHILDREN).ru_utime


def long_run(engine, least):
    """Words of a run of so many processor seconds in which a line is seen three times, and what was seen."""
    count = 3000
    while True:
        words = words_of(engine, write_lines(count))
        before = processor_seconds()
        with open(f"{WORK}/out", "wb") as out:
            status, pieces, seconds = on_terminal([*words, "--stats"], out)
        is_long = processor_seconds() - before >= least
        if len(LINE.findall(text_of(pieces))) >= 3 and is_long or seconds > 10:
            return words, status, pieces, seconds
        count += count // 2


def check_engine(engine, what, least=0):
    words, status, pieces, seconds = long_run(engine, least)
    text = text_of(pieces)
    shown = LINE.findall(text)
    hold(f"{engine} is done", status == 0, status)
    hold(f"{engine} shows lines", len(shown) >= 3, text)
    hold(f"{engine} says what is counted", {name.decode() for _, name in shown} == {what}, shown[:3])
    hold(f"{engine} shows nothing in the first second", bool(pieces) and pieces[0][0] >= 1, pieces[:1])
    hold(f"{engine} shows at most ten a second", len(shown) <= 10 * seconds + 1, (len(shown), seconds))
    counts = [int(number) for number, _ in shown]
    hold(f"{engine} goes on", counts[-1:] > counts[:1], counts)
    told = subprocess.run([DESQ, *words, "--stats"], stdin=subprocess.DEVNULL, capture_output=True,
                          timeout=600)
    with open(f"{WORK}/out", "rb") as out:
        hold(f"{engine} writes the answer that it writes without a terminal", out.read() == told.stdout)
    hold(f"{engine} writes its work alone to a pipe",
         re.fullmatch(rb"desq: nodes \d+ parts \d+ candidates \d+\n", told.stderr),
         told.stderr)
    hold(f"{engine} leaves the line of its work alone", screen(text) == [told.stderr.decode().strip(), ""],
         screen(text))
    if engine != "count":
        # A part of `cand` is worked once, and has a set of candidates or more.
        most = int(told.stderr.split()[4 if engine == "cand" else 2])
        hold(f"{engine} tells no more than there are", max(counts, default=0) <= most, (counts, most))
    return words, told


def main():
    check_engine("count", "blocks gone over")
    check_engine("pivot", "nodes grown")
    check_engine("cand", "parts counted")
    # So long that on two processors, and on faster ones than now, it takes more than a second each time.
    words, told = check_engine("dfs", "nodes grown", least=3)

    status, pieces, _ = on_terminal(words, None)
    text = text_of(pieces)
    hold("progress is shown where the answer goes to the terminal too", LINE.search(text), text[:300])
    hold("then the answer alone stands there",
         (status, screen(text)) == (0, [*told.stdout.decode().split("\n")]), text[:300])
    with open("/dev/full", "wb") as full:
        status, pieces, _ = on_terminal(words, full)
    text = text_of(pieces)
    hold("progress is shown before a write fault", LINE.search(text), text)
    hold("then its message alone stands there", (status, screen(text)) == (6, ["desq: write fault", ""]),
         text)
    with open(f"{WORK}/out", "wb") as out:
        status, pieces, _ = on_terminal(words, out)
    hold("nothing stands after a run without a message", (status, screen(text_of(pieces))) == (0, [""]),
         text_of(pieces))
    plain = subprocess.run([DESQ, *words], stdin=subprocess.DEVNULL, capture_output=True, timeout=600)
    hold("no byte comes through a pipe", (plain.returncode, plain.stderr) == (0, b""), plain.stderr)
    with open(f"{WORK}/few", "w") as few:
        few.write("a b\n")
    status, pieces, _ = on_terminal(["--support", "1", "(a)(b)", f"{WORK}/few"], None)
    hold("a short run shows nothing", (status, text_of(pieces)) == (0, b"1\ta b\r\n"), text_of(pieces))
    print(f"{held} of {rows} rows hold")
    return 0 if held == rows and rows > 0 else 1


sys.exit(main())
