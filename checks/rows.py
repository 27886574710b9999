"""What the subjects share: rows that hold or not, and runs of the program. It is no subject itself."""
import os
import subprocess
import sys

PROGRAM = os.environ["DESQ"]
WORK = os.environ["WORK"]
SECONDS = 120
MOST_TOLD = 4_000
ENGINES = ("count", "dfs", "pivot", "cand")
# The ways to mine, each by an engine and more words; one more is a word here. The first share of one has all pivots, so it
# leaves the whole answer, with its work.
MODES = (*ENGINES, "pivot --split 1/1")
WORKERS = ("1", "4", "64")


class Rows:
    """The rows of a subject, each told where it does not hold."""

    def __init__(self):
        self.held = 0
        self.rows = 0

    def hold(self, name, holds, told=""):
        """A row; `told` says more where it does not hold."""
        self.rows += 1
        self.held += bool(holds)
        if not holds:
            print(f"FAILED: {name}" + (f"\n{told[:MOST_TOLD]}" if told else ""), flush=True)

    def ends(self, name, ran, wanted):
        """A row: the run left exactly this status, output and error output."""
        self.hold(name, ran == wanted, f"wanted {shown(wanted)}\nand got {shown(ran)}")

    def finish(self):
        print(f"{self.held} of {self.rows} rows hold")
        sys.exit(0 if self.held == self.rows > 0 else 1)


def shown(end):
    return " ".join(repr(part if not isinstance(part, bytes) or len(part) <= 400 else part[:400] + b"..") for part in end)


def run(*words, **options):
    """What a run of the program leaves: its status, output and error output. A run that does not end has no status."""
    options.setdefault("stdin", None if "input" in options else subprocess.DEVNULL)
    try:
        ran = subprocess.run([PROGRAM, *words], stdout=options.pop("stdout", subprocess.PIPE), stderr=subprocess.PIPE,
                             timeout=SECONDS, **options)
    except subprocess.TimeoutExpired:
        return None, b"", b""
    return ran.returncode, ran.stdout or b"", ran.stderr


def searches(modes=MODES, workers=WORKERS):
    """Each of these ways to mine with each number of workers: the words, of which the second is the engine and the fourth the
    number, and how it is told."""
    for mode in modes:
        engine, *more = mode.split()
        for number in workers:
            yield ["--engine", engine, "--workers", number, *more], f"by {mode} with {number} workers"


def write(name, text):
    """A file of the subject's folder, and its path."""
    path = os.path.join(WORK, name)
    with open(path, "wb") as file:
        file.write(text if isinstance(text, bytes) else text.encode())
    return path


def processors():
    return len(os.sched_getaffinity(0))


def running_example():
    """Two kinds of an A and five sequences: the paths of the hierarchy and of the sequence file."""
    return (write("kinds", "a1 A\na2 A\n"),
            write("running", "a1 c d c b\ne e a1 e a1 e b\nc d c b\na2 d b\na1 a1 b\n"))
