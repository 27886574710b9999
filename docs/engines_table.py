#!/usr/bin/env python3
"""Measures the engines, and writes the figures into docs/ENGINES.md. Typed at the top of the repository:

    docs/engines_table.py [--program ./desq] [--built WORDS] [--data FOLDER] [--limit SECONDS]

The questions are asked of lines that this script makes, always the same, into try/engines, and, where --data
names a folder with the files news-medium.hier, news-medium.seq, packages-medium.hier and packages-medium.seq, of
these too. Each figure is the median of three runs, or of one or two where the last took more than five seconds.
--built says how the program was built, in the words that the page has."""
import argparse
import os
import random
import resource
import statistics
import subprocess
import tempfile
import time

PAGE, MADE = "docs/ENGINES.md", "try/engines"
BEGIN, END = "<!-- figures: begin, written by docs/engines_table.py -->\n", "<!-- figures: end -->\n"
# a name, the set, the expression, the threshold
MADE_QUESTIONS = [
    ("narrow", "made", ".*(g1) g2* (g3).*", 3),
    ("three", "made", ".*(.^){3}.*", 100),
    ("gap", "made", ".*(.^)[.{0,1}(.^)]{1,2}.*", 300),
    ("long", "made", ".*(k1)[.{0,2}(.)]{1,4}.*", 30),
]
REAL_QUESTIONS = [
    ("phrases", "news", ".*ENTITY (VERB+ NOUN+? PREP?) ENTITY.*", 2),
    ("three", "news", ".*(.^){3} NOUN.*", 50),
    ("category", "packages", ".*(@section/python)[.{0,2}(@section/python)]{1,4}.*", 50),
    ("follows", "packages", ".*@section/games [.{0,3}(.^)]{1,3}.*", 300),
]
THRESHOLDS = ("gap", [3000, 1000, 300, 100, 30])
ENGINES, WORKERS = ["dfs", "pivot", "count", "cand"], [1, 4]


def make_data():
    """20,000 lines of 4 to 20 words; the k-th word comes about as often as 1/k says. Words stand below 200 kinds,
    kinds below 20 groups, and a word in five below a second kind."""
    draw = random.Random(1)
    os.makedirs(MADE, exist_ok=True)
    words = [f"w{number}" for number in range(1, 5001)]
    shares = [1 / (number + 3) for number in range(1, 5001)]
    with open(f"{MADE}/kinds", "w", encoding="utf-8") as file:
        for number, word in enumerate(words):
            kinds = {f"k{draw.randint(1, 200)}" for _ in range(2 if number % 5 == 0 else 1)}
            print(word, *sorted(kinds), file=file)
        for number in range(1, 201):
            print(f"k{number} g{number % 20 + 1}", file=file)
    with open(f"{MADE}/lines", "w", encoding="utf-8") as file:
        for _ in range(20000):
            print(*draw.choices(words, shares, k=draw.randint(4, 20)), file=file)


def one_run(words, limit):
    with tempfile.TemporaryFile() as out, tempfile.TemporaryFile() as err:
        begin = time.perf_counter()
        child = subprocess.Popen(["timeout", str(limit)] + words, stdin=subprocess.DEVNULL, stdout=out, stderr=err)
        _, status, usage = os.wait4(child.pid, 0)
        wall = time.perf_counter() - begin
        child.returncode = os.waitstatus_to_exitcode(status)
        out.seek(0)
        err.seek(0)
        return {"status": child.returncode, "wall": wall, "cpu": usage.ru_utime + usage.ru_stime,
                "mb": usage.ru_maxrss / 1024, "rows": sum(1 for _ in out),
                "told": err.read().decode().split()}


def measured(options, question, support, engine, workers):
    _, data, expression, _ = question
    kinds, lines = files_of(options, data)
    words = [options.program, "--support", str(support), "--engine", engine, "--workers", str(workers),
             "--stats", "--hierarchy", kinds, expression, lines]
    runs = []
    while len(runs) < 3:
        runs.append(one_run(words, options.limit))
        if runs[-1]["status"] == 124:
            return None
        if runs[-1]["status"] != 0:
            raise SystemExit(f"status {runs[-1]['status']}: {' '.join(words)}")
        if runs[-1]["wall"] > 5:
            break
    best = {key: statistics.median(run[key] for run in runs) for key in ["wall", "cpu", "mb", "rows"]}
    return {**best, "told": runs[0]["told"]}


def files_of(options, data):
    if data == "made":
        return f"{MADE}/kinds", f"{MADE}/lines"
    return f"{options.data}/{data}-medium.hier", f"{options.data}/{data}-medium.seq"


def work_of(told):
    """From `desq: nodes X parts Y candidates Z`."""
    nodes, parts, candidates = (f"{int(number):,}" for number in told[2::2])
    if nodes == "0":
        return f"candidates {candidates}" if parts == "0" else f"parts {parts}"
    return f"nodes {nodes}, parts {parts}"


def peak_of(found):
    """A run counts the memory of this script too, from which it was started, so less than that is not told."""
    own = resource.getrusage(resource.RUSAGE_SELF).ru_maxrss / 1024
    return f"{found['mb']:.0f}" if found["mb"] > own + 1 else f"below {own + 1:.0f}"


def cells(options, found):
    if found is None:
        return f"over {options.limit} | | | | "
    times = f"{found['wall']:.2f} | {found['cpu']:.2f}"
    return f"{times} | {peak_of(found)} | {found['rows']:.0f} | {work_of(found['told'])}"


def tables(options):
    questions = MADE_QUESTIONS + (REAL_QUESTIONS if options.data else [])
    yield f"Measured on {os.cpu_count()} processors with {options.built}.\n"
    yield f"Beside it ran other work of {os.getloadavg()[0]:.1f} threads on the average of the minute before.\n\n"
    yield "| Question | Threshold | Expression |\n|---|---|---|\n"
    for name, data, expression, support in questions:
        yield f"| {data}: {name} | {support} | `{expression.replace('|', chr(92) + '|')}` |\n"
    yield "\n| Question | Engine | Workers | Seconds | Of processors | Peak MB | Patterns | Work, by `--stats` |\n"
    yield "|---|---|---|---|---|---|---|---|\n"
    for question in questions:
        for engine in ENGINES:
            for workers in WORKERS:
                found = measured(options, question, question[3], engine, workers)
                row = f"| {question[1]}: {question[0]} | `{engine}` | {workers} | {cells(options, found)} |\n"
                print(row, end="", flush=True)
                yield row
    question = next(question for question in MADE_QUESTIONS if question[0] == THRESHOLDS[0])
    yield f"\nThe question `made: {question[0]}` at other thresholds, by `dfs` with 4 workers:\n\n"
    yield "| Threshold | Seconds | Of processors | Peak MB | Patterns | Work, by `--stats` |\n"
    yield "|---|---|---|---|---|---|\n"
    for support in THRESHOLDS[1]:
        row = f"| {support} | {cells(options, measured(options, question, support, 'dfs', 4))} |\n"
        print(row, end="", flush=True)
        yield row


def main():
    parser = argparse.ArgumentParser(description=__doc__,
                                     formatter_class=argparse.RawDescriptionHelpFormatter)
    parser.add_argument("--program", default="./desq")
    parser.add_argument("--built", default="the program as `./desq` builds it, with all proofs")
    parser.add_argument("--data")
    parser.add_argument("--limit", type=int, default=60)
    options = parser.parse_args()
    make_data()
    figures = "".join(tables(options))
    with open(PAGE, encoding="utf-8") as file:
        page = file.read()
    front, back = page.split(BEGIN)[0], page.split(END)[1]
    with open(PAGE, "w", encoding="utf-8") as file:
        file.write(front + BEGIN + "\n" + figures + "\n" + END + back)


main()
