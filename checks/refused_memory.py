#!/usr/bin/env python3
"""Want of memory anywhere: malloc, calloc and realloc of the C library are replaced by ones that refuse one
call, or all calls from one on, for each call of a run, those of the C library itself among them, one by one.
A run that met no refusal is the last. Each run ends as it would with ample memory, or writes nothing and says
that there is not enough memory; it never hangs, also where one worker finds no memory while others hold nodes
of the search.

The library that refuses also makes the runs: before the program begins it parts, by fork, into one process
for each number, which goes on as the program and is told by a record. A run takes a millisecond so, or
several where it has 64 threads."""
import concurrent.futures
import os
import struct
import subprocess
import sys

sys.dont_write_bytecode = True
from rows import (ENGINES, PROGRAM, Rows, SECONDS, WORK, WORKERS, processors, run, running_example, searches,
                  shown, write)

REFUSING = r"""
#include <errno.h>
#include <stdatomic.h>
#include <stdlib.h>
#include <sys/mman.h>
#include <sys/wait.h>
#include <unistd.h>
extern void *__libc_malloc(size_t);
extern void *__libc_calloc(size_t, size_t);
extern void *__libc_realloc(void *, size_t);
static atomic_ulong calls;
static unsigned long first = -1UL, last;
static atomic_ulong *refused;
static int records;
static int number_of(const char *name) { return atoi(getenv(name)); }
static void tell(const void *bytes, size_t size) {
    if (write(records, bytes, size) != (ssize_t)size)
        abort();
}
static void tell_text(int file, size_t size) {
    char piece[4096];
    for (off_t at = 0; at < (off_t)size; at += sizeof piece) {
        size_t length = size - at < sizeof piece ? size - at : sizeof piece;
        if (pread(file, piece, length, at) != (ssize_t)length)
            abort();
        tell(piece, length);
    }
}
static void tell_end(unsigned long number, int status) {
    unsigned long record[] = {number, status, *refused, lseek(1, 0, SEEK_END), lseek(2, 0, SEEK_END)};
    tell(record, sizeof record);
    for (int file = 1; file <= 2; file++) {
        tell_text(file, record[2 + file]);
        if (ftruncate(file, 0) || lseek(file, 0, SEEK_SET))
            abort();
    }
}
__attribute__((constructor)) static void run_each(void) {
    records = number_of("RECORDS");
    refused = mmap(0, sizeof *refused, PROT_READ | PROT_WRITE, MAP_SHARED | MAP_ANONYMOUS, -1, 0);
    int unmet = 0, status = 0;
    for (unsigned long number = 1; unmet < number_of("UNMET") && !WIFSIGNALED(status); number++) {
        *refused = 0;
        pid_t run = fork();
        if (run == 0) {
            alarm(number_of("SECONDS"));
            last = number_of("IS_ALONE") ? number : -1UL;
            first = number;
            atomic_store(&calls, 0);
            return;
        }
        if (run < 0 || waitpid(run, &status, 0) != run)
            abort();
        tell_end(number, status);
        unmet = *refused ? 0 : unmet + 1;
    }
    _exit(0);
}
static int is_refused(void) {
    unsigned long number = atomic_fetch_add(&calls, 1) + 1;
    if (number < first || last < number)
        return 0;
    atomic_fetch_add(refused, 1);
    errno = ENOMEM;
    return 1;
}
void *malloc(size_t size) { return is_refused() ? 0 : __libc_malloc(size); }
void *calloc(size_t count, size_t size) { return is_refused() ? 0 : __libc_calloc(count, size); }
void *realloc(void *old, size_t size) { return is_refused() ? 0 : __libc_realloc(old, size); }
"""
# Number, status as the system tells it, refusals, and the lengths of output and error output.
RECORD = struct.Struct("@5L")
# Where threads run, the calls of two runs are not the same: so many in a row meet no refusal at the end.
UNMET = 16
NO_MEMORY = (7, b"", b"desq: out of memory\n")

library = f"{WORK}/refuse.so"
subprocess.run(["cc", "-O1", "-shared", "-fPIC", "-o", library, write("refuse.c", REFUSING)], check=True)


def stats(nodes, parts, candidates):
    return f"desq: nodes {nodes} parts {parts} candidates {candidates}\n".encode()


def works(dfs, pivot, count, sets):
    """What is told of the work by each way to mine: the nodes and parts of the searches, the candidates, and the
    sets of them."""
    searched = {"dfs": stats(*dfs, 0), "pivot": stats(*pivot, 0)}
    return {"count": stats(0, 0, count), "cand": stats(0, sets, 0), **searched,
            **{f"{engine} --simulate 7": told for engine, told in searched.items()}}


def pieced():
    """A file that is so long that workers read it in pieces, of which 64 have a line or two each."""
    return write("pieced", ("a b" + " " * 16_000 + "\n") * 66)


def modes():
    """What is mined: its name, with how many workers, the words, the answer, and by each way to mine what is told.
    One more is a line here. Runs that differ from others only before there are workers are not made with 64."""
    kinds, running = running_example()
    expression, answer = ".*(A)[(.^)|.]*(b).*", b"3\ta1 b\n2\ta1 A b\n2\ta1 a1 b\n"
    of_all = works((7, 1), (7, 1), 13, 2)
    yield ("a hierarchy", WORKERS, ["--stats", "--support", "2", "--hierarchy", kinds, expression, running], answer, of_all)
    yield ("a hierarchy, and no work is told", WORKERS[:2], ["--support", "2", "--hierarchy", kinds, expression, running],
           answer, {"dfs": b"", "count": b""})
    twice = write("twice", "2 a1 c d c b\n2 e e a1 e a1 e b\n2 c d c b\n2 a2 d b\n2 a1 a1 b\n")
    yield ("weights", WORKERS, ["--stats", "--support", "4", "--hierarchy", kinds, "--weighted", expression, twice],
           b"6\ta1 b\n4\ta1 A b\n4\ta1 a1 b\n", {**of_all, "pivot --split 1/1": of_all["pivot"]})
    # Frequent are A and b, and each line has A, b and `A b`. The pivot A has the prefixes of no item and of
    # A; b has those of no item, b, A and `A b`. Both lines have the same candidates.
    near = write("near", "a1 b\na2 b\n")
    yield ("a gap", WORKERS[:2], ["--stats", "--support", "2", "--hierarchy", kinds, "--max-gap", "0", "--max-length", "2",
                                  "--generalize", near], b"2\tA\n2\tA b\n2\tb\n", works((4, 1), (6, 2), 6, 2))
    # Each made sequence has a word, and `top` stands above all words.
    yield ("made input", WORKERS, ["--stats", "--support", "7", "--generated", "7", ".*(top^=).*"],
           b"generated 7 patterns 1 support 7 longest 1\n", works((2, 1), (2, 1), 7, 1))
    # Files that are read by several calls, and so many sequences that several threads count frequencies, and
    # each worker of `pivot` and of `cand` looks for pivots. All lines have a name of each kind.
    above = write("above", "".join(f"n{number % 40} N\nm{number % 39} M\n" for number in range(500)))
    many = write("many", "".join(f"n{number % 40} m{number % 39}\n" for number in range(1_100)))
    told = works((3, 1), (3, 1), 1_100, 1)
    for workers, by in ((WORKERS[:2], told), (WORKERS[2:], {way: told[way] for way in ("pivot", "cand")})):
        yield ("files of many pieces", workers, ["--stats", "--support", "1100", "--hierarchy", above, "(N^)(M^)", many],
               b"1100\tN M\n", by)
    # A file that several workers read in pieces. With 64 of them a name that is looked up behind it is unknown:
    # so each piece is read, and no engine begins.
    yield ("a file that is read in pieces", WORKERS[:2], ["--stats", "--support", "66", "(a)(b)", pieced()], b"66\ta b\n",
           works((3, 1), (3, 1), 66, 1))
    # A root with 12 kids, each with a kid of its own, and a part for each name: while one worker finds no
    # memory, others hold nodes.
    pairs = write("pairs", "".join(f"x{number} y{number}\n" * 2 for number in range(12)))
    answer = "".join(f"2\tx{number}\n2\tx{number} y{number}\n" for number in sorted(map(str, range(12))))
    yield ("12 kids of one node", WORKERS, ["--stats", "--support", "2", "(.)[(.)|.]", pairs], answer.encode(),
           works((25, 1), (60, 24), 48, 24))
    # The ranks are b 1, a 2, c 3: the share has b and c.
    three = write("three", "a b\nb\nb c\n")
    yield ("a share of the pivots", WORKERS, ["--stats", "--support", "1", ".*(.)[.*(.)]?.*", three],
           b"3\tb\n1\tb c\n1\tc\n", {"pivot --split 1/2": stats(6, 2, 0)})


def merges():
    """Merges, and what each leaves: of many rows, which their table holds only once it has grown several times, and of files
    that are refused."""
    many = [write(f"rows{first}", "".join(f"2\tn{number:02d} m\n" for number in range(first, 60, 3))) for first in range(3)]
    none, first = write("none", ""), write("first", "3\tb\n1\tb c\n")
    answer = "".join(f"2\tn{number:02d} m\n" for number in range(60)).encode()
    for name, words, status, out, message in (
            ("four files are merged", ["--support", "2", "--merge", none, *many[::-1]], 0, answer, b""),
            ("a file is given twice", ["--support", "1", "--merge", first, none, first], 3, b"",
             b"desq: file 3: line 1: bad row\n"),
            ("a row is below the support", ["--support", "2", "--merge", many[0], first], 3, b"",
             b"desq: file 2: line 2: bad row\n"),
            ("a file of a merge is missing", ["--support", "1", "--merge", first, f"{WORK}/absent"], 5, b"",
             b"desq: file 2: read fault\n")):
        yield name, words, (status, out, message)


def refusals():
    """Runs that are refused, and what each leaves."""
    kinds, running = running_example()
    for search, by in searches(works((0, 0), (0, 0), 0, 0), WORKERS[2:]):
        yield (f"an unknown name behind a file that is read in pieces, {by}", [*search, "--support", "66", "(z)", pieced()],
               (3, b"", b"desq: expression: column 2: unknown name\n"))
    above, expression, absent = ["--hierarchy", kinds], "(A)", f"{WORK}/absent"
    cycle = write("cycle", "x y\ny x\n")
    for name, words, status, message in (
            ("no support", ["--support", "0", expression, running], 2, "usage: desq --support N [options] EXPR [FILE]"),
            ("a bracket too few", ["(a", running], 3, "expression: column 3: unexpected"),
            ("a cycle", ["--hierarchy", cycle, expression, running], 3, "hierarchy: line 2: cycle"),
            ("no weights", ["--weighted", expression, running], 3, "sequences: line 1 column 1: bad weight"),
            ("an unknown name", [expression, running], 3, "expression: column 2: unknown name"),
            ("too many item expressions", ["--max-gap", "1000", "--max-length", "4", running], 4,
             "expression: 3006 leaves, over 1024"),
            ("no hierarchy", ["--hierarchy", absent, expression, running], 5, "hierarchy: read fault"),
            ("no sequences", [*above, expression, absent], 5, "sequences: read fault")):
        words = words if status == 2 else ["--support", "2", *words]
        yield name, words, (status, b"", f"desq: {message}\n".encode())


def proofs():
    """Runs that write a proof or check one, and what each leaves. Which path stands in a proof is free, so it
    is taken from a run that is let alone."""
    kinds, running = running_example()
    words = ["--support", "2", "--hierarchy", kinds, ".*(A)[(.^)|.]*(b).*", running]
    for search, by in searches(ENGINES, WORKERS[:2]):
        ample = run("--proof", "--stats", *search, *words)
        proof = write("proof", ample[1])
        rows.ends(f"the proof, {by}, is good", run("--check", proof, *words), (0, b"checked 3 rows\n", b""))
        yield f"a proof, {by}", ["--proof", "--stats", *search, *words], ample
    # A proof that is written in several pieces, of lines in which many items write nothing.
    gaps = write("gaps", ("a " + "c " * 60 + "b\n") * 700)
    asked = ["--workers", "1", "--support", "700", ".*(a).*(b)", gaps]
    ample = run("--proof", *asked)
    rows.hold("there are pieces", ample[0] == 0 and len(ample[1]) > 1 << 16)
    yield "a proof of many pieces", ["--proof", *asked], ample
    long = write("long_proof", ample[1])
    for workers in WORKERS[:2]:
        more = ["--workers", workers]
        yield f"a check with {workers} workers", [*more, "--check", proof, *words], (0, b"checked 3 rows\n", b"")
        yield f"a check of a long proof with {workers} workers", ["--check", long, *more, *asked[2:]], (
            0, b"checked 1 rows\n", b"")
    short = write("short_proof", ample[1][:-1].rpartition(b"\n")[0])
    yield "a check of a proof that is refused", ["--check", short, *asked], (3, b"", b"desq: proof: line 1: refused\n")


def tried(mode, workers):
    """With how many workers this is run. By `count` each worker asks for memory a hundred times and fills buckets of half a
    MiB, so that 64 would take as long as all else: there 8 stand for them."""
    return ["8" if mode == "count" and number == WORKERS[-1] else number for number in workers]


def endings():
    """The words of each run, by its name, and what it leaves with ample memory. Those with most threads come first."""
    mined = [(f"{name}, {by}", [*search, *words], (0, answer, told[mode]))
             for name, workers, words, answer, told in modes() for mode in told
             for search, by in searches([mode], tried(mode, workers))]
    return [*sorted(mined, key=lambda run: -int(run[1][3])), *merges(), *refusals(), *proofs()]


def records(text):
    """The number of each run, how many refusals it met, and its end."""
    while text:
        number, status, refused, *lengths = RECORD.unpack_from(text)
        out, told = (sum(lengths[:count], RECORD.size) for count in (0, 1))
        end = sum(lengths, RECORD.size)
        yield number, refused, (os.waitstatus_to_exitcode(status), bytes(text[out:told]), bytes(text[told:end]))
        text = text[end:]


def memory_file():
    """A file that is on no disk, which might be full."""
    return open(os.memfd_create("runs"), "w+b", buffering=0)


def left(words, is_alone):
    """What the runs leave, each with another allocation refused, alone or with all later ones."""
    with memory_file() as out, memory_file() as told, memory_file() as runs:
        ran = subprocess.run([PROGRAM, *words], stdin=subprocess.DEVNULL, stdout=out, stderr=told,
                             pass_fds=[runs.fileno()],
                             env={"LD_PRELOAD": library, "RECORDS": str(runs.fileno()), "UNMET": str(UNMET),
                                  "SECONDS": str(SECONDS), "IS_ALONE": str(int(is_alone))})
        runs.seek(0)
        return ran.returncode, list(records(memoryview(runs.read())))


rows = Rows()
# All files are written before the first run.
all_endings = list(endings())
with concurrent.futures.ThreadPoolExecutor(processors()) as pool:
    tasks = [(name, is_alone, ample, pool.submit(left, words, is_alone))
             for name, words, ample in all_endings for is_alone in (True, False)]
    for name, is_alone, ample, task in tasks:
        status, runs = task.result()
        wrong = [f"allocation {number}, {met} refused: {shown(end)}" for number, met, end in runs
                 if end != ample and not (met and end == NO_MEMORY)]
        ends = {end for _, _, end in runs}
        rows.hold(f"{name}, an allocation refused {'alone' if is_alone else 'and all later ones'}: ends as ever, or"
                  " tells that memory is missing", status == 0 and not wrong and ends == {ample, NO_MEMORY},
                  "\n".join(wrong[:8]) or f"status {status}, and the ends are {ends}")
rows.finish()
