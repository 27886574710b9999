#!/usr/bin/env python3
"""More workers than processors share the work in whatever order comes: 1,000 runs of 64 workers by each engine give one
answer. And what is cut into pieces before there are workers is done by several threads, which are seen at work."""
import multiprocessing
import os
import subprocess
import sys
import time

sys.dont_write_bytecode = True
from rows import MODES, PROGRAM, Rows, SECONDS, processors, run, running_example, shown, write

RUNS = 1_000
ANSWER = (0, b"3\ta1 b\n2\ta1 A b\n2\ta1 a1 b\n", b"")
kinds, running = running_example()


def end(mode):
    return run("--support", "2", "--workers", "64", "--engine", *mode.split(), "--hierarchy", kinds, ".*(A)[(.^)|.]*(b).*", running)


rows = Rows()
with multiprocessing.get_context("fork").Pool(processors()) as pool:
    for mode in MODES:
        others = [ran for ran in pool.imap(end, [mode] * RUNS) if ran != ANSWER]
        rows.hold(f"{RUNS} runs of 64 workers by {mode} give one answer", not others,
                  f"{len(others)} do not, and the first of them is {shown(others[0])}" if others else "")


def shares(words):
    """The status and the output of a run, and which of its threads were seen side by side, the calling thread first: for how many
    nanoseconds each used a processor, in all."""
    ran = subprocess.Popen([PROGRAM, *words], stdin=subprocess.DEVNULL, stdout=subprocess.PIPE, stderr=subprocess.DEVNULL)
    used, seen, give_up = {}, set(), time.monotonic() + SECONDS
    while ran.poll() is None and time.monotonic() < give_up:
        live = []
        try:
            for thread in os.listdir(f"/proc/{ran.pid}/task"):
                with open(f"/proc/{ran.pid}/task/{thread}/schedstat", encoding="utf-8") as file:
                    used[thread] = int(file.read().split()[0])
                live.append(thread)
        except OSError:
            pass
        seen.add(tuple(sorted(live, key=lambda thread: thread != str(ran.pid))))
        time.sleep(0.002)
    ran.kill()
    return ran.wait(), ran.stdout.read(), [[used[thread] for thread in live] for live in seen if live]


def at_work(used):
    """How many of these threads are at work: none with less than a tenth of another's time, but that the calling thread, which
    works all the time, may have up to a hundred times as much. A thread that does nothing has none of it."""
    most = max(used[1:], default=0)
    return sum(time * 10 >= most and time * 100 >= used[0] for time in used)


def shared(name, words, answer, threads):
    """A row: the answer comes, and so many threads are seen at work side by side. What a thread does at last may be missed, and
    one that begins late may find less to do, so a run is tried five times."""
    tried = []
    for _ in range(5):
        status, out, seen = shares(words)
        most = max(seen, key=at_work)
        tried.append([time // 1_000_000 for time in most])
        if (status, out) != (0, answer) or at_work(most) >= threads:
            break
    rows.hold(name, (status, out) == (0, answer) and at_work(most) >= threads,
              f"status {status}, milliseconds of each thread {tried}")


# Little but the frequencies of the items above the one that each line has.
chain = write("chain", "".join(f"i{number} i{number + 1}\n" for number in range(1_999)))
alike = write("alike", "i0\n" * 100_000)
for workers in (2, 4):
    shared(f"frequencies are counted by {workers} threads, where there are as many processors",
           ["--support", "1000000000000000000", "--workers", str(workers), "--hierarchy", chain, "(i5=)", alike], b"",
           min(workers, processors()))
# Little but the pivots of all lines. Each item stands in all lines, of which all but the last generate patterns. So each is
# frequent, and no pivot has enough lines.
line = [f"n{number}" for number in range(24)]
turned = [["m", *line[turn % 24:], *line[:turn % 24]] for turn in range(14_999)] + [line]
lines = write("lines", "".join(" ".join(items) + "\n" for items in turned))
for workers in (2, 4):
    shared(f"pivots are looked for by {workers} threads, where there are as many processors",
           ["--support", "15000", "--engine", "pivot", "--workers", str(workers), "m .*(.)[.{0,3}(.)]{1,4}.*", lines], b"",
           min(workers, processors()))
# Little but the reading of lines in which no item stands.
blanks = write("blanks", (" " * 999 + "\n") * 60_000)
for workers in (2, 4):
    shared(f"a file is read by {workers} threads, where there are as many processors",
           ["--support", "1", "--workers", str(workers), "(.)", blanks], b"", min(workers, processors()))
rows.finish()
