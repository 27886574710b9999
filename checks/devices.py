#!/usr/bin/env python3
"""What stands at the ends of a run may be anything: files that are folders, devices, pipes or that grow;
streams that are closed, full, cut or lose their reader; calls of the system that fail or are interrupted, one
by one; ends behind which more would come; limits of the process; signals. Each run is done with the whole
answer, or ends with the status and message of what failed, and never tells what is half written as done.

Calls fail by a library that is put before the C library: it counts the calls that are named by letters, and
gives a fault to those from one number to another. It also cuts reads and writes, and lets a file grow or
shrink while it is read.
"""
import contextlib
import errno
import fcntl
import os
import pty
import resource
import signal
import socket
import subprocess
import sys
import time

sys.dont_write_bytecode = True
from rows import ENGINES, PROGRAM, Rows, SECONDS, WORK, run, running_example, searches, shown, write

FAULTY = r"""
#define _GNU_SOURCE
#include <dlfcn.h>
#include <errno.h>
#include <fcntl.h>
#include <pthread.h>
#include <sched.h>
#include <stdarg.h>
#include <stdatomic.h>
#include <stdlib.h>
#include <string.h>
#include <sys/syscall.h>
#include <unistd.h>
static atomic_ulong calls;
static unsigned long first, last, cut, reads;
static int fault, told;
static const char *named, *grows, *shrinks;
static unsigned long number_of(const char *name) {
    const char *text = getenv(name);
    return text ? strtoul(text, 0, 10) : 0;
}
__attribute__((constructor)) static void read_environment(void) {
    named = getenv("NAMED");
    first = number_of("FIRST");
    last = number_of("LAST");
    fault = number_of("FAULT");
    cut = number_of("CUT");
    told = number_of("TOLD_ON");
    grows = getenv("GROWS");
    shrinks = getenv("SHRINKS");
}
static int fails(char letter) {
    if (!named || !strchr(named, letter))
        return 0;
    unsigned long number = atomic_fetch_add(&calls, 1) + 1;
    if (number < first || last < number)
        return 0;
    syscall(SYS_write, told, "!", 1);
    errno = fault;
    return 1;
}
static size_t less(size_t size) { return cut && cut < size ? cut : size; }
int open(const char *path, int flags, ...) {
    va_list more;
    va_start(more, flags);
    mode_t mode = flags & O_CREAT ? va_arg(more, mode_t) : 0;
    va_end(more);
    return fails('o') ? -1 : syscall(SYS_openat, AT_FDCWD, path, flags, mode);
}
ssize_t read(int fd, void *buffer, size_t size) {
    if (fails('r'))
        return -1;
    ssize_t count = syscall(SYS_read, fd, buffer, less(size));
    reads++;
    if (grows && reads <= 5) {
        int file = syscall(SYS_openat, AT_FDCWD, grows, O_WRONLY | O_APPEND, 0);
        syscall(SYS_write, file, "a\n", 2);
        syscall(SYS_close, file);
    }
    if (shrinks && reads == 1)
        syscall(SYS_truncate, shrinks, 0);
    return count;
}
ssize_t write(int fd, const void *buffer, size_t size) {
    if ((fd == 1 || fd == 2) && fails(fd == 1 ? '1' : '2'))
        return fault ? -1 : 0;
    return syscall(SYS_write, fd, buffer, less(size));
}
int close(int fd) {
    long status = syscall(SYS_close, fd);
    return fails('c') ? -1 : status;
}
int pthread_create(pthread_t *thread, const pthread_attr_t *how, void *(*body)(void *), void *with) {
    static int (*real)(pthread_t *, const pthread_attr_t *, void *(*)(void *), void *);
    if (!real)
        real = dlsym(RTLD_NEXT, "pthread_create");
    return fails('t') ? EAGAIN : real(thread, how, body, with);
}
int sched_getaffinity(pid_t pid, size_t size, cpu_set_t *set) {
    return fails('a') ? -1 : syscall(SYS_sched_getaffinity, pid, size, set) < 0 ? -1 : 0;
}
"""
EXPRESSION = ".*(A)[(.^)|.]*(b).*"
ANSWER = b"3\ta1 b\n2\ta1 A b\n2\ta1 a1 b\n"
WORKS = {"count": b"desq: nodes 0 parts 0 candidates 13\n",
         "dfs": b"desq: nodes 7 parts 1 candidates 0\n",
         "pivot": b"desq: nodes 7 parts 1 candidates 0\n",
         "cand": b"desq: nodes 0 parts 2 candidates 0\n"}
DONE = (0, ANSWER, b"")
FILES = ("hierarchy", "sequences")
READ_FAULT = {file: (5, b"", f"desq: {file}: read fault\n".encode()) for file in FILES}
TOO_LARGE = {file: (4, b"", f"desq: {file}: more than 67108864 bytes\n".encode()) for file in FILES}
WRITE_FAULT = b"desq: write fault\n"
NO_MEMORY = (7, b"", b"desq: out of memory\n")
MOST_FILE_BYTES = 67_108_864
# The most bytes of a hierarchy, and of sequences, that are read at once.
MOST_READ = 16_384
MOST_BLOCK = 1 << 20
LONG = 60_000
LONG_ANSWER = b"1\t" + b" ".join([b"a"] * LONG) + b"\n"
ENDLESS = 1 << 62
# An interrupted call is made 64 times, and is a fault then.
TRIES = 64
# A stack of 256 KiB has room for so many item expressions in a row, choices, brackets or signs of repetition.
IN_A_ROW = 128

kinds, running = running_example()
long = write("long", b"a " * LONG + b"\n")
first_bytes = {path: open(path, "rb").read() for path in (kinds, running, long)}
library = os.path.join(WORK, "faulty.so")
subprocess.run(["cc", "-O1", "-shared", "-fPIC", "-o", library, write("faulty.c", FAULTY)], check=True)
rows = Rows()


def example(*more, hierarchy=kinds, sequences=running):
    """The words of the running example."""
    return ["--support", "2", "--hierarchy", hierarchy, *more, EXPRESSION, sequences]


def faulty(words, named="", first=1, last=None, fault=errno.EIO, **more):
    """What a run leaves whose named calls have a fault from the first to the last, and how many faults it
    met."""
    path = os.path.join(WORK, "told")
    with open(path, "wb") as told:
        settings = {"LD_PRELOAD": library, "TOLD_ON": told.fileno(), "NAMED": named, "FAULT": fault,
                    "FIRST": first, "LAST": first if last is None else last, **more}
        ran = run(*words, pass_fds=[told.fileno()],
                  env={name: str(value) for name, value in settings.items()})
    return ran, os.path.getsize(path)


def faults(name, words, wanted, times, **how):
    """A row: a run with faults leaves this, and met so many of them."""
    ran, met = faulty(words, **how)
    rows.hold(name, ran == wanted and met == times,
              f"wanted {times} faults and {shown(wanted)}\nand got {met} and {shown(ran)}")


def started(words, **options):
    """A run that has begun, with pipes behind its output and error output."""
    return subprocess.Popen([PROGRAM, *words], stdin=subprocess.DEVNULL, stdout=subprocess.PIPE,
                            stderr=subprocess.PIPE, bufsize=0, **options)


def ended(ran):
    """What a run that has begun leaves. One that does not end has no status."""
    try:
        out, told = ran.communicate(timeout=SECONDS)
    except subprocess.TimeoutExpired:
        ran.kill()
        ran.communicate()
        return None, b"", b""
    return ran.returncode, out, told


def feed(ran, path):
    """The writing end of a named pipe, which this run has opened unless it is over."""
    while ran.poll() is None:
        try:
            return open(os.open(path, os.O_WRONLY | os.O_NONBLOCK), "wb", buffering=0)
        except OSError:
            time.sleep(0.001)
    return open(os.open(path, os.O_RDWR), "wb", buffering=0)


def fed(words, feeds):
    """What a run leaves while named pipes are fed, one after the other, each with its pieces."""
    ran = started(words)
    for path, pieces in feeds:
        with feed(ran, path) as pipe, contextlib.suppress(BrokenPipeError):
            for piece in pieces:
                pipe.write(piece)
    return ended(ran)


def named_pipe(name):
    path = os.path.join(WORK, name)
    os.mkfifo(path)
    return path


def single_bytes(path):
    return [bytes([byte]) for byte in first_bytes[path]]


def odd_files():
    """Folders, devices, pipes and files of the kernel in place of files."""
    above, below = named_pipe("above"), named_pipe("below")
    absent = [("a folder", WORK), ("a path through a file", f"{running}/f"), ("a name of no bytes", ""),
              ("a name of 5,000 bytes", "n" * 5_000), ("memory at its first byte", "/proc/self/mem")]
    loop = os.path.join(WORK, "loop")
    os.symlink(loop, loop)
    absent.append(("a link to itself", loop))
    listener = socket.socket(socket.AF_UNIX)
    here = os.getcwd()
    os.chdir(WORK)
    listener.bind("socket")
    os.chdir(here)
    absent.append(("a socket", f"{WORK}/socket"))
    most = write("most", b"")
    os.truncate(most, MOST_FILE_BYTES)
    above_most = write("above_most", b"")
    os.truncate(above_most, MOST_FILE_BYTES + 1)
    column = len(os.fsencode(PROGRAM)) + 1
    for search, by in searches():
        for name, path in absent:
            rows.ends(f"{name} as hierarchy, {by}", run(*example(*search, hierarchy=path)),
                      READ_FAULT["hierarchy"])
            rows.ends(f"{name} as sequences, {by}", run(*example(*search, sequences=path)),
                      READ_FAULT["sequences"])
        rows.ends(f"a terminal where there is none, {by}",
                  run(*example(*search, sequences="/dev/tty"), start_new_session=True), READ_FAULT["sequences"])
        for device in ("/dev/zero", "/dev/full", "/dev/urandom"):
            rows.ends(f"{device} as hierarchy, {by}", run(*example(*search, hierarchy=device)),
                      TOO_LARGE["hierarchy"])
            rows.ends(f"{device} as sequences, {by}", run(*example(*search, sequences=device)),
                      TOO_LARGE["sequences"])
        rows.ends(f"the most bytes, which are no text, {by}", run(*example(*search, sequences=most)),
                  (3, b"", b"desq: sequences: line 1 column 1: bad byte\n"))
        rows.ends(f"a byte more, {by}", run(*example(*search, sequences=above_most)), TOO_LARGE["sequences"])
        rows.ends(f"the program's own words, of which a byte 0 ends each, as sequences, {by}",
                  run(*example(*search, sequences="/proc/self/cmdline")),
                  (3, b"", f"desq: sequences: line 1 column {column}: bad byte\n".encode()))
    listener.close()
    os.unlink(most)
    os.unlink(above_most)
    of_kernel = "/proc/sys/kernel/ostype"
    with open(of_kernel, "rb") as file:
        system = file.read().strip()
    for search, by in searches():
        rows.ends(f"/dev/null as sequences, {by}",
                  run("--support", "1", *search, "(.)", "/dev/null"), (0, b"", b""))
        rows.ends(f"/dev/null as hierarchy, {by}",
                  run("--support", "3", "--hierarchy", "/dev/null", *search, ".*(a1).*(b)", running),
                  (0, b"3\ta1 b\n", b""))
        rows.ends(f"a file of the kernel whose size is 0, as both, {by}",
                  run("--support", "1", "--hierarchy", of_kernel, *search, "(.)", of_kernel),
                  (0, b"1\t" + system + b"\n", b""))
        rows.ends(f"named pipes that give a byte at a time, {by}",
                  fed(example(*search, hierarchy=above, sequences=below),
                      [(above, single_bytes(kinds)), (below, single_bytes(running))]), DONE)
        rows.ends(f"a named pipe that gives nothing, {by}",
                  fed(["--support", "1", *search, "(.)", below], [(below, [])]), (0, b"", b""))
        with open(running, "rb") as file:
            rows.ends(f"standard input by its name in /dev, {by}",
                      run(*example(*search, sequences="/dev/stdin"), stdin=file), DONE)
        grown = write("grown", b"a\n" * 3_000)
        rows.ends(f"a file that gains a line at each of five reads, {by}",
                  faulty(["--support", "1", *search, "(a)", grown], GROWS=grown)[0], (0, b"3005\ta\n", b""))
        shrunk = write("shrunk", b"a\n" * MOST_BLOCK)
        rows.ends(f"a file that is emptied after {MOST_BLOCK:,} bytes were read, {by}",
                  faulty(["--support", "1", *search, "(a)", shrunk], SHRINKS=shrunk)[0],
                  (0, f"{MOST_BLOCK // 2}\ta\n".encode(), b""))
        both = write("both", first_bytes[running])
        with open(both, "ab") as out:
            ran = run(*example(*search, sequences=both), stdout=out)
        with open(both, "rb") as file:
            rows.ends(f"the answer behind the sequences in their file, {by}", (ran, file.read()),
                      ((0, b"", b""), first_bytes[running] + ANSWER))


def without(closed, *words):
    """What a run leaves in which these streams are closed."""
    return run(*words, preexec_fn=lambda: [os.close(stream) for stream in closed])


def onto(output, *words):
    """What a run leaves whose output is this descriptor, but for what it wrote there."""
    ran = run(*words, stdout=output)
    os.close(output)
    return ran


def untold(error_output, *words):
    """What a run leaves whose error output is this descriptor, but for what it wrote there."""
    ran = subprocess.run([PROGRAM, *words], stdin=subprocess.DEVNULL, stdout=subprocess.PIPE,
                         stderr=error_output, timeout=SECONDS)
    os.close(error_output)
    return ran.returncode, ran.stdout, b""


def lost_pipe():
    """A pipe to write to whose reader is gone."""
    reading, writing = os.pipe()
    os.close(reading)
    return writing


def streams():
    """Standard streams that are closed, full, without a reader, or of the wrong kind."""
    for search, by in searches():
        words = example(*search)
        for name, output in (("a full device", os.open("/dev/full", os.O_WRONLY)),
                             ("a pipe whose reader is gone", lost_pipe()),
                             ("a file that is open to read alone", os.open(running, os.O_RDONLY))):
            rows.ends(f"{name}, {by}", onto(output, *words), (6, b"", WRITE_FAULT))
        rows.ends(f"no output, {by}", without([1], *words), (6, b"", WRITE_FAULT))
        rows.ends(f"no output, and no answer, {by}",
                  without([1], "--support", "6", *search, "(.)", running), (0, b"", b""))
        rows.ends(f"no input, which is not named, {by}", without([0], *words), DONE)
        rows.ends(f"no input, which is named, {by}", without([0], *example(*search, sequences="-")),
                  READ_FAULT["sequences"])
        rows.ends(f"no error output, {by}", without([2], *words, "--stats"), DONE)
        rows.ends(f"no stream at all, {by}", without([0, 1, 2], *words, "--stats"), (6, b"", b""))
        rows.ends(f"error output that is full, {by}",
                  untold(os.open("/dev/full", os.O_WRONLY), *words, "--stats"), DONE)
        for status, name, words in (
                (2, "no support", [*search, "(a)", running]),
                (3, "an expression that is malformed", ["--support", "1", *search, "(a", running]),
                (4, "too many item expressions", ["--support", "1", *search, "[a{32}]{33}", running]),
                (5, "a hierarchy that cannot be read", example(*search, hierarchy=WORK)),
                (5, "sequences that cannot be read", example(*search, sequences=f"{WORK}/absent"))):
            rows.ends(f"{name}, and no error output, {by}", without([2], *words), (status, b"", b""))
            rows.ends(f"{name}, and error output whose reader is gone, {by}", untold(lost_pipe(), *words),
                      (status, b"", b""))
        rows.ends(f"neither output nor error output, {by}", without([1, 2], *example(*search)), (6, b"", b""))
        with open(kinds, "rb") as file:
            rows.ends(f"a hierarchy on standard input, {by}", run(*example(*search, hierarchy="-"), stdin=file),
                      DONE)
        with open(kinds, "rb") as file:
            rows.ends(f"both on standard input: the hierarchy takes all, {by}",
                      run("--support", "1", *search, "--hierarchy", "-", "(A)", "-", stdin=file), (0, b"", b""))


def is_cut(text):
    """Whether this is the beginning of the long answer, and not all of it."""
    return 0 < len(text) < len(LONG_ANSWER) and LONG_ANSWER.startswith(text)


def lost_readers():
    """Answers that are longer than a pipe holds, of which the reader takes the first bytes alone."""
    for search, by in searches():
        words = ["--support", "1", *search, "(a)*", long]
        ran = started(words)
        begun = ran.stdout.read(1)
        ran.stdout.close()
        status, _, told = ended(ran)
        rows.ends(f"a reader that leaves after one byte, {by}", (status, begun, told), (6, b"1", WRITE_FAULT))
        reading, writing = os.pipe()
        fcntl.fcntl(writing, fcntl.F_SETFL, os.O_NONBLOCK)
        ran = onto(writing, *words)
        with open(reading, "rb") as pipe:
            text = pipe.read()
        rows.hold(f"a pipe that takes no more and does not wait, {by}",
                  ran == (6, b"", WRITE_FAULT) and is_cut(text), f"{shown(ran)} and {len(text)} bytes")


def failing_calls():
    """Opens, reads, writes, closes and starts of threads that fail or are interrupted, one by one."""
    usage = b"desq: usage: desq --support N [options] EXPR [FILE]\n"
    for call in range(1, len(usage) + 1):
        faults(f"write {call} of a message fails", [], (2, b"", usage[:call - 1]), 1,
               named="2", first=call, CUT=1)
    for search, by in searches():
        failing_reads(search, by)
        failing_writes(search, by)
        interrupted_calls(search, by)
        failing_threads(search, by)


def failing_reads(search, by):
    """Cut by four bytes, the hierarchy takes an open and four reads, the sequences an open and fourteen."""
    words = example(*search)
    for call in range(1, 21):
        faults(f"call {call} of those that open and read fails, {by}", words,
               READ_FAULT["hierarchy" if call <= 5 else "sequences"], 1, named="or", first=call, CUT=4)
    # The system is then asked in a file of its own how many processors there are.
    rows.ends(f"each later call of those that open and read fails, {by}",
              faulty(words, named="or", first=21, last=ENDLESS, CUT=4)[0], DONE)
    for fault in (errno.EAGAIN, errno.EBADF, errno.EISDIR, errno.EMFILE, errno.ENOENT, errno.EPERM):
        name = errno.errorcode[fault]
        for call, which in ((1, "hierarchy"), (3, "hierarchy"), (6, "sequences"), (20, "sequences")):
            faults(f"call {call} of those that open and read answers {name}, {by}", words, READ_FAULT[which], 1,
                   named="or", first=call, fault=fault, CUT=4)
    # Each of these files is read by two reads, and by one that finds its end.
    malformed = write("malformed", b"\x01\n" * MOST_READ)
    longer = write("longer", b"\x01\n" * MOST_BLOCK)
    for call in (2, 3, 4):
        faults(f"read {call - 1} of a malformed hierarchy fails, {by}", example(*search, hierarchy=malformed),
               READ_FAULT["hierarchy"], 1, named="or", first=call)
        faults(f"read {call - 1} of malformed sequences fails, {by}",
               ["--support", "1", *search, "(a)", longer], READ_FAULT["sequences"], 1, named="or", first=call)


def failing_writes(search, by):
    """The answer and the line of `--stats` are written by calls that take a byte."""
    words = example(*search)
    for call in (*range(1, 27), 27):
        wanted = (6, ANSWER[:call - 1], WRITE_FAULT) if call <= 26 else DONE
        faults(f"write {call} of single bytes fails, {by}", words, wanted, call <= 26,
               named="1", first=call, CUT=1)
    told = WORKS[search[1]]
    for call in range(1, len(told) + 1 if search[3] == "4" else 2):
        faults(f"write {call} of the line of --stats fails, {by}", [*words, "--stats"],
               (0, ANSWER, told[:call - 1]), 1, named="2", first=call, CUT=1)
    for fault in (0, errno.EAGAIN, errno.EBADF, errno.EDQUOT, errno.EFBIG, errno.ENOSPC, errno.EPIPE):
        name = errno.errorcode.get(fault, "that it took nothing")
        for call in (1, 2, 26):
            faults(f"write {call} of single bytes answers {name}, {by}", words,
                   (6, ANSWER[:call - 1], WRITE_FAULT), 1, named="1", first=call, fault=fault, CUT=1)


def interrupted_calls(search, by):
    """An interrupted call is made again, and is a fault where it always is."""
    words = example(*search)
    for call in (1, 2):
        faults(f"open {call} is interrupted 1,000 times, {by}", words, DONE, 1_000,
               named="o", first=call, last=call + 999, fault=errno.EINTR)
    for call in range(1, 19):
        for times in (1, TRIES - 1):
            faults(f"read {call} is interrupted {times} times, {by}", words, DONE, times,
                   named="r", first=call, last=call + times - 1, fault=errno.EINTR, CUT=4)
        faults(f"read {call} is always interrupted, {by}", words,
               READ_FAULT["hierarchy" if call <= 4 else "sequences"], TRIES,
               named="r", first=call, last=ENDLESS, fault=errno.EINTR, CUT=4)
    for call in range(1, 27):
        for times in (1, TRIES - 1):
            faults(f"write {call} of single bytes is interrupted {times} times, {by}", words, DONE, times,
                   named="1", first=call, last=call + times - 1, fault=errno.EINTR, CUT=1)
        faults(f"write {call} of single bytes is always interrupted, {by}", words,
               (6, ANSWER[:call - 1], WRITE_FAULT), TRIES,
               named="1", first=call, last=ENDLESS, fault=errno.EINTR, CUT=1)


def failing_threads(search, by):
    """Threads that cannot be started, processors that are not told, and files that cannot be closed."""
    done = (0, ANSWER, WORKS[search[1]])
    words = example(*search, "--stats")
    rows.ends(f"reads and writes of single bytes, {by}", faulty(words, CUT=1)[0], done)
    ran, met = faulty(words, named="c", last=ENDLESS)
    rows.hold(f"files that cannot be closed, {by}", ran == done and met >= 2,
              f"{met} faults and {shown(ran)}")
    rows.ends(f"processors that are not told, {by}",
              faulty(words, named="a", last=ENDLESS, fault=errno.EPERM)[0], done)
    # There is a thread for each worker but the first, and others that may count frequencies.
    for first in (1, 2, 3, 33, 63):
        for last, later in ((first, ""), (ENDLESS, " and all later ones")):
            ran, met = faulty(words, named="t", first=first, last=last)
            rows.hold(f"thread {first}{later} cannot be started, {by}",
                      ran == done and (met > 0 or first >= int(search[3])),
                      f"{met} faults and {shown(ran)}")


def read_to_the_end():
    """A file is opened once and read to its end, and not behind it, however its bytes are cut."""
    for search, by in searches():
        words = example(*search)
        for cut in range(1, len(first_bytes[running]) + 2):
            # Of the reads of a file the last finds its end.
            above, below = (-(-len(first_bytes[path]) // cut) + 1 for path in (kinds, running))
            for name, call, which in (("the read that finds the end of the hierarchy", 1 + above, "hierarchy"),
                                      ("the open of the sequences behind it", 2 + above, "sequences"),
                                      ("the read that finds their end", 2 + above + below, "sequences")):
                faults(f"{name} fails, by {cut} bytes at a time, {by}", words, READ_FAULT[which], 1,
                       named="or", first=call, CUT=cut)
            rows.ends(f"each call of those that open and read behind that fails, by {cut} bytes at a time, {by}",
                      faulty(words, named="or", first=3 + above + below, last=ENDLESS, CUT=cut)[0], DONE)


def typed(text, words, rest):
    """What a run leaves for which this is typed at a terminal, and what it leaves there of the rest. Behind an
    end a terminal gives what is typed then, and waits for more: a run that reads on has no end."""
    typing, terminal = pty.openpty()
    os.write(typing, text + rest)
    words = [os.ttyname(terminal) if word == "terminal" else word for word in words]
    ran = run(*words, stdin=terminal)
    os.set_blocking(terminal, False)
    left = b""
    with contextlib.suppress(BlockingIOError):
        while piece := os.read(terminal, 4_096):
            left += piece
    os.close(typing)
    os.close(terminal)
    return ran, left


def terminals():
    """Ends that are typed at a terminal, each by a byte of its own."""
    end, more = b"\x04", b"a1 b\n"
    above, below = first_bytes[kinds], first_bytes[running]
    for search, by in searches():
        for name, text, words in (
                ("the sequences", below + end, example(*search, sequences="-")),
                ("the sequences, by the name of the terminal", below + end,
                 example(*search, sequences="terminal")),
                ("sequences whose last line has no end of its own", below[:-1] + end + end,
                 example(*search, sequences="-")),
                ("the hierarchy", above + end, example(*search, hierarchy="-")),
                ("the hierarchy, and behind its end the sequences", above + end + below + end,
                 example(*search, hierarchy="-", sequences="-"))):
            rows.ends(f"{name} typed at a terminal, of which no more is read, {by}", typed(text, words, more),
                      (DONE, more))


def made_input():
    """Made input opens and reads nothing, and its summary is cut where a write fails."""
    summary = b"generated 7 patterns 1 support 7 longest 1\n"
    for search, by in searches(ENGINES):
        words = ["--support", "7", *search, "--generated", "7", ".*(top^=).*"]
        rows.ends(f"made input where nothing can be opened or read, {by}",
                  faulty(words, named="or", last=ENDLESS)[0], (0, summary, b""))
        rows.ends(f"made input, and no input, {by}", without([0], *words), (0, summary, b""))
        rows.ends(f"made input, and no output, {by}", without([1], *words), (6, b"", WRITE_FAULT))
        for call in range(1, len(summary) + 1 if search[3] == "4" else 2):
            faults(f"write {call} of the summary of made input fails, {by}", words,
                   (6, summary[:call - 1], WRITE_FAULT), 1, named="1", first=call, CUT=1)


def merges():
    """Merges of files that are odd, that fail, or whose rows come by bytes; their output is one like any other."""
    first, second = b"3\tb\n1\tb c\n", b"1\ta\n1\ta b\n"
    paths = [write("first_rows", first), write("second_rows", second)]
    words = ["--support", "1", "--merge", *paths]
    answer = b"3\tb\n1\ta\n1\ta b\n1\tb c\n"
    done = (0, answer, b"")

    def refused(number, status, text):
        return status, b"", f"desq: file {number}: {text}\n".encode()

    def in_place(number, path):
        """The words in which this path stands in the place of a file."""
        return ["--support", "1", "--merge", *paths[:number - 1], path, *paths[number:]]

    for name, path in (("a folder", WORK), ("a file that is missing", f"{WORK}/absent"), ("a name of no bytes", ""),
                       ("a path through a file", f"{running}/f"), ("a name of 5,000 bytes", "n" * 5_000)):
        for number in (1, 2):
            rows.ends(f"{name} as file {number} of a merge", run(*in_place(number, path)), refused(number, 5, "read fault"))
    for device in ("/dev/zero", "/dev/urandom"):
        rows.ends(f"{device} as a file of a merge", run(*in_place(2, device)),
                  refused(2, 4, f"more than {MOST_FILE_BYTES} bytes"))
    rows.ends("a file of the kernel whose size is 0 as a file of a merge", run(*in_place(2, "/proc/sys/kernel/ostype")),
              refused(2, 3, "line 1: bad row"))
    rows.ends("/dev/null as a file of a merge", run(*words, "/dev/null"), done)
    above, below = named_pipe("merged_first"), named_pipe("merged_second")
    rows.ends("named pipes that give rows a byte at a time",
              fed(["--support", "1", "--merge", above, below],
                  [(above, [bytes([byte]) for byte in first]), (below, [bytes([byte]) for byte in second])]), done)
    grown = write("grown_rows", b"1\ta\n")
    ran = faulty(["--support", "1", "--merge", grown], GROWS=grown)[0]
    rows.ends("a file of a merge that gains a line that is no row", ran, refused(1, 3, "line 2: bad row"))
    rows.ends("no input, which is merged", without([0], *words, "-"), refused(3, 5, "read fault"))
    rows.ends("two files of a merge typed at a terminal",
              typed(first + b"\x04" + second + b"\x04", ["--support", "1", "--merge", "-", "-"], b"1\tz\n"),
              (done, b"1\tz\n"))
    # Cut by four bytes, each file takes an open and four reads.
    for call in range(1, 11):
        number = 1 if call <= 5 else 2
        faults(f"call {call} of those that open and read fails in a merge", words, refused(number, 5, "read fault"), 1,
               named="or", first=call, CUT=4)
    rows.ends("each later call of those that open and read fails in a merge",
              faulty(words, named="or", first=11, last=ENDLESS, CUT=4)[0], done)
    for call in range(1, 9):
        faults(f"read {call} of a merge is interrupted {TRIES - 1} times", words, done, TRIES - 1,
               named="r", first=call, last=call + TRIES - 2, fault=errno.EINTR, CUT=4)
        faults(f"read {call} of a merge is always interrupted", words, refused(1 if call <= 4 else 2, 5, "read fault"),
               TRIES, named="r", first=call, last=ENDLESS, fault=errno.EINTR, CUT=4)
    for call in range(1, len(answer) + 1):
        faults(f"write {call} of a merge fails", words, (6, answer[:call - 1], WRITE_FAULT), 1,
               named="1", first=call, CUT=1)
    rows.ends("a merge onto a full device", onto(os.open("/dev/full", os.O_WRONLY), *words), (6, b"", WRITE_FAULT))
    rows.ends("a merge into a pipe whose reader is gone", onto(lost_pipe(), *words), (6, b"", WRITE_FAULT))
    rows.ends("a merge, and no output", without([1], *words), (6, b"", WRITE_FAULT))
    rows.ends("a merge of no rows, and no output", without([1], "--support", "9", "--merge", "/dev/null"), (0, b"", b""))
    rows.ends("a merge, and no stream at all", without([0, 1, 2], *words), (6, b"", b""))
    rows.ends("a merge that is refused, and no error output", without([2], *words, paths[0]), (3, b"", b""))
    many = [write(f"rows{number:02d}", b"1\tn%02d\n" % number) for number in range(64)]
    rows.ends("64 files and four descriptors",
              within(resource.RLIMIT_NOFILE, 4, "--support", "1", "--merge", *many),
              (0, b"".join(b"1\tn%02d\n" % number for number in range(64)), b""))
    rows.ends("a merge in a stack of 64 KiB", within(resource.RLIMIT_STACK, 64 << 10, *words), done)
    for path, text in zip(paths, (first, second)):
        with open(path, "rb") as file:
            rows.hold(f"the merged file {os.path.basename(path)} is as it was", file.read() == text)


def within(kind, most, *words, **options):
    """What a run leaves in which this limit of the process is so much, or what may be had at most."""
    greatest = resource.getrlimit(kind)[1]
    if greatest != resource.RLIM_INFINITY:
        most = greatest if most == resource.RLIM_INFINITY else min(most, greatest)
    return run(*words, preexec_fn=lambda: resource.setrlimit(kind, (most, most)), **options)


def limits():
    """Descriptors, sizes of files, stack and address space."""
    in_a_row = write("in_a_row", b"a " * IN_A_ROW)
    for search, by in searches():
        words = example(*search)
        rows.ends(f"four descriptors, {by}", within(resource.RLIMIT_NOFILE, 4, *words), DONE)
        rows.ends(f"a stack of 256 KiB, {by}", within(resource.RLIMIT_STACK, 256 << 10, *words), DONE)
        rows.ends(f"a stack without a limit, {by}",
                  within(resource.RLIMIT_STACK, resource.RLIM_INFINITY, *words), DONE)
        for name, expression in (("captures in a row", "(a)" * IN_A_ROW),
                                 ("choices", f"[{'|'.join(['(a)'] * IN_A_ROW)}]*"),
                                 ("captures, each in the next", f"{'(' * IN_A_ROW}a{')' * IN_A_ROW}*"),
                                 ("signs of repetition", f"(a){'*' * IN_A_ROW}")):
            rows.ends(f"{IN_A_ROW} {name} in a stack of 256 KiB, {by}",
                      within(resource.RLIMIT_STACK, 256 << 10, "--support", "1", *search, expression, in_a_row),
                      (0, b"1\t" + b" ".join([b"a"] * IN_A_ROW) + b"\n", b""))
        for name, action, wanted in (
                ("the signal of it ends the run", signal.SIG_DFL, (-signal.SIGXFSZ, ANSWER[:10], b"")),
                ("the signal of it is ignored", signal.SIG_IGN, (6, ANSWER[:10], WRITE_FAULT))):
            def limit(action=action):
                signal.signal(signal.SIGXFSZ, action)
                resource.setrlimit(resource.RLIMIT_FSIZE, (10, 10))
            path = os.path.join(WORK, "ten")
            with open(path, "wb") as out:
                ran = run(*words, stdout=out, preexec_fn=limit)
            with open(path, "rb") as file:
                rows.ends(f"files of ten bytes at most, and {name}, {by}", (ran[0], file.read(), ran[2]),
                          wanted)
    above = named_pipe("kinds_pipe")
    for search, by in searches():
        ran = started(example(*search, hierarchy=above))
        with feed(ran, above) as pipe, contextlib.suppress(ProcessLookupError):
            resource.prlimit(ran.pid, resource.RLIMIT_NOFILE, (3, 3))
            pipe.write(first_bytes[kinds])
        rows.ends(f"no descriptor is left for the sequences, {by}", ended(ran), READ_FAULT["sequences"])
    # The deepest expressions: dots in a repetition that is there no time, items, choices, signs of repetition,
    # and dots that are too many, but are counted and dropped. Each runs in half of the default stack. In a
    # small one it may end by a signal.
    deep = {"4,091 dots": ("[" + "." * 4_091 + "]{0}", (0, b"", b"")),
            "1,024 items": ("a " * 1_024, (0, b"", b"")),
            "1,024 choices": ("|".join("a" * 1_024), (0, b"", b"")),
            "128 signs of repetition": ("a" + "?" * 128, (0, b"", b"")),
            "4,096 dots": ("." * 4_096, (4, b"", b"desq: expression: 4096 leaves, over 1024\n"))}
    one = write("one", b"a\n")
    for search, by in searches():
        for name, (expression, wanted) in deep.items():
            words = ["--support", "1", *search, expression, one]
            for mebibytes in (4, 8):
                rows.ends(f"{name} in a stack of {mebibytes} MiB, {by}",
                          within(resource.RLIMIT_STACK, mebibytes << 20, *words), wanted)
            for kibibytes in (64, 256):
                ran = within(resource.RLIMIT_STACK, kibibytes << 10, *words)
                rows.hold(f"{name} in a stack of {kibibytes} KiB: done, or ended by the signal with nothing"
                          f" written, {by}", ran in (wanted, (-signal.SIGSEGV, b"", b"")), shown(ran))
    address_space()


def address_space():
    """From what the C library itself needs on, each limit of address space gives the answer or want of
    memory."""
    loaded = (size for size in range(1 << 20, 64 << 20, 64 << 10)
              if within(resource.RLIMIT_AS, size, "--support", "0")[0] in (2, 7))
    least = next(loaded, 64 << 20)
    line = write("line", b"a " * 10_000)
    pairs = write("pairs", "".join(f"x{number:04d} y{number:04d}\n" for number in range(4_000)))
    small = [*range(0, 1 << 20, 32 << 10)]
    # The last holds the stacks of 64 workers, and the 64 MiB that the C library sets aside for each, many times.
    large = [more << 20 for more in (1, 2, 3, 4, 6, 8, 16, 64, 128, 256, 512, 16 << 10)]
    for search, by in searches():
        for name, words, done, sizes in (
                ("the running example", example(*search), DONE, [*small, *large]),
                ("a long line", ["--support", "1", *search, "(a)*", line],
                 (0, b"1\t" + b" ".join([b"a"] * 10_000) + b"\n", b""), [0, *large]),
                ("a root with 4,000 kids, each with a kid", ["--support", "1", *search, "(.)(.)", pairs],
                 (0, b"".join(b"1\tx%04d y%04d\n" % (number, number) for number in range(4_000)), b""), [0, *large]),
                ("made input", ["--support", "9000", *search, "--generated", "9000", ".*(top^=).*"],
                 (0, b"generated 9000 patterns 1 support 9000 longest 1\n", b""), [0, *large])):
            if "--split" in search and "--generated" in words:
                continue
            wrong, ends = [], set()
            for more in sizes:
                ran = within(resource.RLIMIT_AS, least + more, *words)
                ends.add(ran)
                if ran not in (done, NO_MEMORY):
                    wrong.append(f"{least + more} bytes: {shown(ran)}")
            rows.hold(f"{name} in any address space, {by}", not wrong and ends == {done, NO_MEMORY},
                      "\n".join(wrong[:4]) or f"there are {len(ends)} ends")
    merge_in_any_space(least)


def merge_in_any_space(least):
    """The same of a merge of 40,000 rows."""
    names = [b"n%05d" % number for number in range(40_000)]
    halves = [write(f"half{first}", b"".join(b"1\t" + name + b"\n" for name in names[first::2])) for first in (0, 1)]
    done = (0, b"".join(b"1\t" + name + b"\n" for name in names), b"")
    ends = {within(resource.RLIMIT_AS, least + more, "--support", "1", "--merge", *halves)
            for more in (0, *(1 << power for power in range(20, 30)))}
    rows.hold("a merge in any address space", ends == {done, NO_MEMORY}, f"there are {len(ends)} ends")


def default_signals():
    """What makes the signals act as in a process that nobody prepared."""
    for number in (signal.SIGINT, signal.SIGTERM):
        signal.signal(number, signal.SIG_DFL)


def used_ticks(pid):
    with open(f"/proc/{pid}/stat", encoding="utf-8") as file:
        return sum(map(int, file.read().rpartition(")")[2].split()[11:13]))


def stopped(number, when, words, below, what):
    """A row: the signal ends a run of these words while it reads from the named pipe, mines or writes."""
    ran = started(words, preexec_fn=default_signals)
    begun, pipe = b"", None
    if when.startswith("reads"):
        pipe = feed(ran, below)
        pipe.write(first_bytes[running])
    elif when.startswith("mines"):
        give_up = time.monotonic() + SECONDS
        while ran.poll() is None and used_ticks(ran.pid) < 5 and time.monotonic() < give_up:
            time.sleep(0.005)
    else:
        begun = ran.stdout.read(1)
    ran.send_signal(number)
    # What it waits for comes only after its end.
    try:
        ran.wait(SECONDS)
    except subprocess.TimeoutExpired:
        ran.kill()
    out, told = ran.communicate()
    if pipe:
        pipe.close()
    text = begun + out
    holds = (ran.returncode, told) == (-number, b"") and (is_cut(text) if when.startswith("writes") else text == b"")
    rows.hold(what, holds, f"status {ran.returncode}, {len(text)} bytes and {shown([told])}")


def signals():
    """A signal ends a run while it reads, mines or writes: the status tells the signal, and what is written
    is no more than the first bytes of the answer."""
    many = write("many", b"".join(b" ".join(b"n%d" % (line * place % 97) for place in range(1, 40)) + b"\n"
                                  for line in range(1, 400)))
    below, merged = named_pipe("below_signals"), ["--support", "1", "--merge"]
    long_rows = write("long_rows", LONG_ANSWER)
    for number in (signal.SIGINT, signal.SIGTERM):
        name = signal.Signals(number).name
        for when, words in (("reads merged files", [*merged, long_rows, below]), ("writes merged rows", [*merged, long_rows])):
            stopped(number, when, words, below, f"{name} while it {when}")
        for search, by in searches():
            mines = ["--support", "1", *search, ".*(.)[.*(.)]{1,6}.*"]
            runs = [("reads", example(*search, sequences=below)), ("mines", [*mines, many]),
                    ("writes", ["--support", "1", *search, "(a)*", long])]
            if "--split" not in search:
                runs.append(("mines made input", [*mines, "--generated", "1000000"]))
            if search[1] in ("dfs", "pivot") and "--split" not in search:
                runs.append(("mines simulated", [*mines, "--simulate", "7", many]))
            for when, words in runs:
                stopped(number, when, words, below, f"{name} while it {when}, {by}")


for part in (odd_files, streams, lost_readers, failing_calls, read_to_the_end, terminals, made_input, merges,
             limits, signals):
    part()
for path, text in first_bytes.items():
    with open(path, "rb") as file:
        rows.hold(f"the file {os.path.basename(path)} is as it was", file.read() == text)
rows.finish()
