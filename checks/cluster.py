#!/usr/bin/env python3
"""The recipes of examples/cluster, which mine in shares and merge them: by GNU parallel, by make, and by Slurm, whose daemons are
started here for it where they can be; over ssh and by Spark with something in their place. Each writes the answer of one run, and
runs a share that failed again alone."""
import ctypes
import os
import shutil
import signal
import socket
import subprocess
import sys
import time

sys.dont_write_bytecode = True
from rows import PROGRAM, Rows, SECONDS, WORK, run, write

HERE = "examples/cluster"
PR_SET_PDEATHSIG = 1
EXPRESSION = ".*(goods^)[.*(goods^)]?.*(pay).*"
WORDS = ["--hierarchy", f"{HERE}/hierarchy", EXPRESSION, f"{HERE}/sequences"]
rows = Rows()
answer = run("--support", "3", *WORDS)[1]
rows.hold("one run has an answer", answer.count(b"\n") == 9)

# A program that fails once, for the share that the file `bad` names, and notes the shares that it is asked for.
flaky = write("flaky", f"""#!/bin/sh
for word; do case $word in */*[0-9]) split=$word ;; esac; done
case "$*" in *--split*) echo "${{split%/*}}" >> "{WORK}/asked" ;; esac
if [ -f "{WORK}/bad" ] && [ "${{split%/*}}" = "$(cat "{WORK}/bad")" ]; then rm "{WORK}/bad"; exit 7; fi
exec "{PROGRAM}" "$@"
""")
os.chmod(flaky, 0o755)


def typed(words, **more):
    """What a recipe leaves: its status and output, and the shares that it ran, which are told in their order."""
    write("asked", "")
    try:
        ran = subprocess.run(words, stdin=subprocess.DEVNULL, capture_output=True, timeout=SECONDS,
                             env={**os.environ, "DESQ": flaky, "PARALLEL_HOME": f"{WORK}/parallel", **more})
    except subprocess.TimeoutExpired:
        return None, b"", []
    with open(f"{WORK}/asked", encoding="utf-8") as file:
        return ran.returncode, ran.stdout, sorted(file.read().split())


# GNU parallel.
os.makedirs(f"{WORK}/parallel", exist_ok=True)
for of in (1, 3, 7):
    rows.hold(f"parallel, {of} shares",
              typed([f"{HERE}/parallel.sh", str(of), f"{WORK}/by{of}", "3", *WORDS])
              == (0, answer, sorted(str(index) for index in range(1, of + 1))))
write("bad", "2")
first = typed([f"{HERE}/parallel.sh", "3", f"{WORK}/lost", "3", *WORDS])
rows.hold("parallel, a share that fails: no answer", first[0] not in (0, None) and first[1:] == (b"", ["1", "2", "3"]))
rows.hold("parallel, the share alone is run again",
          typed([f"{HERE}/parallel.sh", "3", f"{WORK}/lost", "3", *WORDS]) == (0, answer, ["2"]))

# The same over hosts, with a command in the place of ssh that notes the host and runs what it is given here, with the SHELL
# that a login sets.
HOST = """#!/bin/sh
export SHELL=/bin/sh
while :; do
    case $1 in -[bcDEeFIiJLlmOopQRSWw]) shift 2 ;; -*) shift ;; *) break ;; esac
done
echo "$1" >> "$HOSTS_ASKED"
shift
[ "$1" != -- ] || shift
exec sh -c "$*"
"""
os.mkdir(f"{WORK}/bin")
os.chmod(write("bin/ssh", HOST), 0o755)
over = {"PATH": f"{WORK}/bin:{os.environ['PATH']}", "HOSTS": write("hosts", "one\ntwo\n"), "HOSTS_ASKED": f"{WORK}/hosts_asked"}
rows.hold("parallel over two hosts, which stand in for ssh's",
          typed([f"{HERE}/parallel.sh", "5", f"{WORK}/over", "3", *WORDS], **over) == (0, answer, list("12345")))
with open(f"{WORK}/hosts_asked", encoding="utf-8") as file:
    rows.hold("parallel over two hosts: each has a share", set(file.read().split()) == {"one", "two"})
write("bad", "4")
first = typed([f"{HERE}/parallel.sh", "5", f"{WORK}/over_lost", "3", *WORDS], **over)
rows.hold("parallel over two hosts, a share that fails: no answer", first[0] not in (0, None) and first[1] == b"")
rows.hold("parallel over two hosts, the share alone is run again",
          typed([f"{HERE}/parallel.sh", "5", f"{WORK}/over_lost", "3", *WORDS], **over) == (0, answer, ["4"]))

# Spark's script, with a module in the place of Spark's that runs each task here.
os.makedirs(f"{WORK}/python/pyspark")
write("python/pyspark/__init__.py", """class SparkContext:
    def __init__(self, appName):
        self.tasks = []

    def parallelize(self, tasks, number):
        self.tasks = list(tasks)
        assert number == len(self.tasks)
        return self

    def map(self, task):
        self.task = task
        return self

    def collect(self):
        return [self.task(it) for it in reversed(self.tasks)]
""")
spark = [sys.executable, f"{HERE}/spark.py"]
stand_in = {"PYTHONPATH": f"{WORK}/python", "PYTHONDONTWRITEBYTECODE": "1"}
rows.hold("Spark's script, 3 shares", typed([*spark, "3", f"{WORK}/by_tasks", "3", *WORDS], **stand_in) == (0, answer, list("123")))
write("bad", "2")
first = typed([*spark, "3", f"{WORK}/by_tasks_lost", "3", *WORDS], **stand_in)
rows.hold("Spark's script, a share that fails: no answer", first[0] not in (0, None) and first[1] == b"")

# make.
MAKE = ["make", "-s", "-j", "3", "-f", f"{HERE}/Makefile", f"DESQ={flaky}", "SHARES=3", "SUPPORT=3",
        f"OPTIONS=--hierarchy {HERE}/hierarchy", f"EXPRESSION={EXPRESSION}", f"FILE={HERE}/sequences"]


def made(folder):
    status, _, asked = typed([*MAKE, f"WORK={WORK}/{folder}"])
    try:
        with open(f"{WORK}/{folder}/answer", "rb") as file:
            return status, file.read(), asked
    except OSError:
        return status, b"", asked


rows.hold("make", made("made") == (0, answer, ["1", "2", "3"]))
rows.hold("make, made already", made("made") == (0, answer, []))
write("bad", "3")
first = made("unmade")
rows.hold("make, a share that fails: no answer", first[0] not in (0, None) and first[1] == b"")
again = made("unmade")
rows.hold("make, the share that failed is made again", again[:2] == (0, answer) and "3" in again[2]
          and sorted(first[2] + again[2]).count("3") == 2)

# Slurm: munge, which knows its users, a controller and one node, all in the subject's own folder.
daemons = []


def start(*words):
    """Starts a daemon, which the system ends where this process was killed outright."""
    log = open(f"{WORK}/slurm/{os.path.basename(words[0])}.out", "wb")
    daemons.append(subprocess.Popen(words, stdin=subprocess.DEVNULL, stdout=log, stderr=log, start_new_session=True,
                                    preexec_fn=lambda: ctypes.CDLL(None).prctl(PR_SET_PDEATHSIG, signal.SIGKILL),
                                    env={**os.environ, "SLURM_CONF": f"{WORK}/slurm/slurm.conf"}))


def free_port():
    with socket.socket() as it:
        it.bind(("127.0.0.1", 0))
        return it.getsockname()[1]


def slurm_starts():
    """Why Slurm cannot be started here, or None once its node is idle."""
    # The daemons are in the folder sbin beside the one that has the commands.
    os.environ["PATH"] += f":{os.path.dirname(os.path.dirname(shutil.which('sbatch') or ''))}/sbin"
    lacking = [name for name in ("munged", "slurmctld", "slurmd", "sbatch", "sinfo") if not shutil.which(name)]
    if lacking or os.geteuid():
        return f"there is no {' '.join(lacking)}" if lacking else "its daemons want root"
    folder, host = f"{WORK}/slurm", socket.gethostname().split(".")[0]
    for part in ("", "/state", "/spool"):
        os.mkdir(folder + part)
    os.chmod(WORK, 0o755)
    with open(f"{folder}/key", "wb") as file:
        file.write(os.urandom(1024))
    os.chmod(f"{folder}/key", 0o400)
    write("slurm/slurm.conf", f"""ClusterName=one
SlurmctldHost={host}(127.0.0.1)
SlurmctldPort={free_port()}
SlurmdPort={free_port()}
AuthType=auth/munge
AuthInfo=socket={folder}/munge
SlurmUser=root
SlurmdUser=root
StateSaveLocation={folder}/state
SlurmdSpoolDir={folder}/spool
SlurmctldPidFile={folder}/slurmctld.pid
SlurmdPidFile={folder}/slurmd.pid
ProctrackType=proctrack/pgid
TaskPlugin=task/none
ReturnToService=2
MpiDefault=none
SwitchType=switch/none
NodeName={host} NodeAddr=127.0.0.1 CPUs=1 State=UNKNOWN
PartitionName=all Nodes=ALL Default=YES MaxTime=INFINITE State=UP
""")
    os.environ["SLURM_CONF"] = f"{folder}/slurm.conf"
    start("munged", "--foreground", "--force", f"--key-file={folder}/key", f"--socket={folder}/munge",
          f"--pid-file={folder}/munge.pid", f"--seed-file={folder}/munge.seed", f"--log-file={folder}/munge.log")
    time.sleep(1)
    start("slurmctld", "-D", "-c", "-f", f"{folder}/slurm.conf")
    start("slurmd", "-D", "-N", host, "-f", f"{folder}/slurm.conf")
    for _ in range(60):
        told = subprocess.run(["sinfo", "--noheader", "--format=%t"], stdin=subprocess.DEVNULL, capture_output=True, text=True)
        if told.stdout.strip() == "idle":
            return None
        time.sleep(0.5)
    return f"its node does not come up: {told.stdout}{told.stderr}"


def in_time(path):
    """What the file holds once it is there."""
    for _ in range(SECONDS * 2):
        if os.path.exists(path):
            with open(path, "rb") as file:
                return file.read()
        time.sleep(0.5)
    return None


try:
    why = slurm_starts()
    if why is not None:
        print(f"Slurm was not tried: {why}")
    else:
        status, _, _ = typed([f"{HERE}/slurm.sh", "3", f"{WORK}/queued", "3", *WORDS])
        rows.hold("Slurm takes the shares and their merge", status == 0)
        rows.hold("Slurm writes the answer", in_time(f"{WORK}/queued/answer") == answer)
        write("bad", "2")
        status, number, _ = typed([f"{HERE}/slurm.sh", "3", f"{WORK}/requeued", "3", *WORDS])
        for index in (1, 3):
            in_time(f"{WORK}/requeued/{index}")
        for _ in range(SECONDS):
            if not subprocess.run(["squeue", "--noheader"], capture_output=True).stdout:
                break
            time.sleep(0.5)
        rows.hold("Slurm, a share that fails: no answer",
                  status == 0 and not os.path.exists(f"{WORK}/requeued/2") and not os.path.exists(f"{WORK}/requeued/answer"))
        write("asked", "")
        for words in (["--array=2", f"{WORK}/requeued/share"], [f"{WORK}/requeued/merge"]):
            subprocess.run(["sbatch", "--wait", f"--output={WORK}/again", *words], capture_output=True, timeout=SECONDS)
        with open(f"{WORK}/asked", encoding="utf-8") as file:
            rows.hold("Slurm, the share alone is run again", file.read() == "2\n")
        rows.hold("Slurm writes the answer then", in_time(f"{WORK}/requeued/answer") == answer)
finally:
    for daemon in daemons:
        try:
            os.killpg(daemon.pid, signal.SIGKILL)
        except OSError:
            pass
rows.finish()
