#!/usr/bin/env python3
"""The launcher `desq` in a small repository of its own, with an `rt` in the kit's place that records its calls and makes a
program: when it builds and when not, what it says, and what it leaves behind."""
import os
import select
import shutil
import signal
import subprocess
import sys
import time

sys.dont_write_bytecode = True
from rows import Rows, SECONDS, WORK

CRATES = "# The crates.\nlow:\nmiddle: low thiserror\nbeside: low\ndesq_program: middle beside\n"
# Records the call, waits where it is told to, fails where it is told to, and makes a program that tells its words.
KIT = r"""#!/bin/sh
here=$(dirname "$0")
crate=$(basename "$PWD")
echo "$crate $*" >> "$here/calls"
cat > /dev/null
while [ -e "$here/wait_at_$crate" ]; do sleep 0.05; done
if [ -e "$here/fail_at_$crate" ]; then echo "goals are open in $crate"; exit 1; fi
if [ "$1" = run ]; then
    mkdir -p out
    printf '#!/bin/sh\necho "%s"\nfor word; do echo "[$word]"; done\ncat\nexit 3\n' "$(cat src/main.rt)" > out/desq_program
    chmod +x out/desq_program
fi
"""
MIDDLE = "crates/middle/src/lib.rt"
top, kit, temporary = f"{WORK}/a repository", f"{WORK}/kit", f"{WORK}/temporary"


def write(path, text):
    os.makedirs(os.path.dirname(path), exist_ok=True)
    with open(path, "w", encoding="utf-8") as file:
        file.write(text)


def anew():
    """The repository and the kit as at first."""
    for folder in (top, kit, temporary):
        shutil.rmtree(folder, ignore_errors=True)
    os.makedirs(temporary)
    os.makedirs(top)
    for name in ("desq", "build"):
        shutil.copy(name, top)
    write(f"{top}/crates.txt", CRATES)
    for crate in ("low", "middle", "beside"):
        write(f"{top}/crates/{crate}/src/lib.rt", f"//! {crate}\n")
    write(f"{top}/crates/desq_program/src/main.rt", "first")
    write(f"{kit}/rt", KIT)
    os.chmod(f"{kit}/rt", 0o755)


def begun(*words, command=None, path=kit, **options):
    environment = dict(os.environ, PATH=f"{path}:{os.environ['PATH']}" if path else without_kit, TMPDIR=temporary)
    return subprocess.Popen([command or f"{top}/desq", *words], env=environment, stdin=subprocess.PIPE, stdout=subprocess.PIPE,
                            stderr=subprocess.PIPE, text=True, **options)


def ended(ran, text=""):
    output, message = ran.communicate(text, timeout=SECONDS)
    return ran.returncode, output, message


def calls():
    """The calls of the kit since the last look."""
    path = f"{kit}/calls"
    if not os.path.exists(path):
        return []
    with open(path, encoding="utf-8") as file:
        found = file.read().split("\n")[:-1]
    os.remove(path)
    return found


def until(holds):
    end = time.monotonic() + SECONDS
    while not holds():
        if time.monotonic() > end:
            return False
        time.sleep(0.02)
    return True


def is_at(crate):
    def holds():
        try:
            with open(f"{kit}/calls", encoding="utf-8") as file:
                return f"\n{crate} " in "\n" + file.read()
        except OSError:
            return False
    return until(holds)


def is_tidy():
    """Whether no copy is left and no call of the kit runs any more."""
    def runs():
        found = subprocess.run(["ps", "-eo", "args"], capture_output=True, text=True).stdout
        return any(f"{kit}/rt" in line and "python" not in line for line in found.split("\n"))
    return not os.listdir(temporary) and until(lambda: not runs())


# The commands of the system without a kit.
without_kit = f"{WORK}/commands"
os.mkdir(without_kit)
for command in ("sh", "env", "python3", "readlink", "stat", "cat", "find", "dirname"):
    os.symlink(os.path.realpath(shutil.which(command)) if command != "python3" else sys.executable, f"{without_kit}/{command}")

BUILT = {"low lib", "middle lib", "beside lib", "desq_program run"}
rows = Rows()

anew()
end = ended(begun("--support", "2", "a b", "-"), "line\n")
made = calls()
names = [call.split()[0] for call in made]
rows.hold("a first run builds each crate once, those below first, and the program last",
          {" ".join(call.split()[:2]) for call in made} == BUILT and len(made) == 4
          and names[0] == "low" and names[3] == "desq_program", f"the calls are {made}")
rows.hold("the program has the words and the standard input, and gives the output and the status",
          end[:2] == (3, "first\n[--support]\n[2]\n[a b]\n[-]\nline\n"), f"the end is {end}")
rows.hold("a first run tells that it builds, and nothing is left of its copies", "desq: building" in end[2] and is_tidy())
end = ended(begun("once again", ""))
rows.hold("a second run builds nothing and tells nothing", end == (3, "first\n[once again]\n[]\n", "") and not calls(), f"the end is {end}")
os.utime(f"{top}/{MIDDLE}")
end = ended(begun())
rows.hold("a file that is touched and has the same bytes builds nothing", end == (3, "first\n", "") and not calls())
end = ended(begun(path=None))
rows.hold("a program that is built runs where there is no kit", end == (3, "first\n", ""), f"the end is {end}")

os.symlink(f"{top}/desq", f"{WORK}/link")
os.symlink("link", f"{WORK}/link_to_link")
end = ended(begun("x", command=f"{WORK}/link_to_link", cwd="/"))
rows.hold("a symbolic link leads to the program", end == (3, "first\n[x]\n", "") and not calls(), f"the end is {end}")
end = ended(begun("x", command="./link", cwd=WORK))
rows.hold("and one with a relative name", end == (3, "first\n[x]\n", "") and not calls(), f"the end is {end}")

for number, (what, change) in enumerate([
        ("changed", lambda: write(f"{top}/{MIDDLE}", "//! changed\n")),
        ("new", lambda: write(f"{top}/crates/middle/proofs/New.antt", "-- new\n")),
        ("removed", lambda: os.remove(f"{top}/crates/middle/proofs/New.antt"))]):
    change()
    write(f"{top}/crates/desq_program/src/main.rt", f"after {number}")
    end = ended(begun())
    rows.hold(f"a source that is {what} builds again", end[:2] == (3, f"after {number}\n") and len(calls()) == 4, f"the end is {end}")


def builds(name, times):
    """A row: a run is the program's, and makes so many calls of the kit."""
    end, made = ended(begun()), calls()
    rows.hold(name, end[0] == 3 and len(made) == times, f"the end is {end}, the calls {made}")


write(f"{kit}/rt", KIT + "# A newer one.\n")
builds("a new kit builds again", 4)
builds("and once", 0)
write(f"{kit}/rattle", "a checker")
builds("a new checker of the kit builds again", 4)
shutil.copytree(kit, f"{WORK}/kit 2")
end = ended(begun(path=f"{WORK}/kit 2"))
rows.hold("a kit in another place builds again", end[0] == 3 and os.path.exists(f"{WORK}/kit 2/calls"), f"the end is {end}")

for crate in ("middle", "desq_program"):
    anew()
    write(f"{kit}/fail_at_{crate}", "")
    end = ended(begun())
    rows.hold(f"a build that fails at {crate} is told, with status 1, and runs nothing",
              end[:2] == (1, "") and f"goals are open in {crate}" in end[2]
              and f"desq: the program could not be built: {crate} failed" in end[2], f"the end is {end}")
    rows.hold(f"and leaves nothing behind where it fails at {crate}", is_tidy())
    os.remove(f"{kit}/fail_at_{crate}")
    calls()
    builds(f"and the next run builds again after {crate} failed", 4)

anew()
end = ended(begun(path=None))
rows.hold("that there is no kit to build with is told, with status 1", end[:2] == (1, "") and "rt, the command" in end[2],
          f"the end is {end}")
os.makedirs(f"{top}/out", exist_ok=True)
if os.path.isfile(f"{top}/out/lock"):
    os.remove(f"{top}/out/lock")
os.mkdir(f"{top}/out/lock")
end = ended(begun())
rows.hold("a lock that cannot be taken is told, with status 1", end[:2] == (1, "") and "cannot be taken" in end[2] and not calls(),
          f"the end is {end}")

anew()
write(f"{kit}/wait_at_low", "")
ran = begun()
reached = is_at("low")
time.sleep(0.5)
made = calls()
os.remove(f"{kit}/wait_at_low")
rows.hold("a crate waits until those below it are built", reached and len(made) == 1 and ended(ran)[0] == 3, f"the calls are {made}")

anew()
write(f"{kit}/wait_at_middle", "")
first = begun("one")
reached = is_at("middle")
second = begun("two")
told = second.stderr.readline() if select.select([second.stderr], [], [], SECONDS)[0] else "nothing"
rows.hold("who waits for another's build is told so", reached and "waiting" in told, f"told {told!r}")
os.remove(f"{kit}/wait_at_middle")
ends = ended(first)[:2], ended(second)[:2]
rows.hold("of two first runs one builds, and both run", ends == ((3, "first\n[one]\n"), (3, "first\n[two]\n"))
          and len(calls()) == 4, f"the ends are {ends}")

anew()
write(f"{kit}/wait_at_middle", "")
ran = begun()
reached = is_at("middle")
write(f"{top}/crates/desq_program/src/main.rt", "second")
os.remove(f"{kit}/wait_at_middle")
end = ended(ran)
made = calls()
rows.hold("a file that changes while it is built is built again", reached and end[:2] == (3, "second\n") and len(made) == 8
          and "building again" in end[2], f"the end is {end}, the calls {made}")

for number in (signal.SIGTERM, signal.SIGINT, signal.SIGHUP):
    anew()
    write(f"{kit}/wait_at_middle", "")
    ran = begun()
    reached = is_at("middle")
    ran.send_signal(number)
    end = ended(ran)
    rows.hold(f"a build that {number.name} ends leaves nothing behind", reached and end[0] == 128 + number and end[1] == ""
              and is_tidy(), f"the end is {end}, left are {os.listdir(temporary)}")
anew()
write(f"{kit}/wait_at_middle", "")
ran = begun()
reached = is_at("middle")
ran.kill()
ended(ran)
left = os.listdir(temporary)
os.remove(f"{kit}/wait_at_middle")
end = ended(begun())
rows.hold("what a build left that was killed outright, the next removes", reached and left and end[:2] == (3, "first\n")
          and is_tidy(), f"the end is {end}, left are {os.listdir(temporary)}")


def gated(*, changed=False, older=False):
    """A gate between the two calls of `build`, which makes a program; then a run, and the calls of the kit for it."""
    anew()
    made = f"{top}/crates/desq_program/out/desq_program"
    statuses = [ended(begun("--gate-begins", command=f"{top}/build"))[0]]
    write(made, "#!/bin/sh\necho of the gate\nexit 3\n")
    os.chmod(made, 0o755)
    if older:
        os.utime(made, (1, 1))
    if changed:
        write(f"{top}/{MIDDLE}", "//! changed\n")
    statuses.append(ended(begun("--gate-ended", command=f"{top}/build"))[0])
    return statuses, ended(begun())[:2], len(calls())


found = gated()
rows.hold("the program of a gate is taken over", found == ([0, 0], (3, "of the gate\n"), 0), f"found {found}")
builds("and runs again with no build", 0)
write(f"{top}/{MIDDLE}", "//! changed\n")
builds("until a source changes", 4)
found = gated(changed=True)
rows.hold("not where a source changed meanwhile", found == ([0, 0], (3, "first\n"), 4), f"found {found}")
found = gated(older=True)
rows.hold("nor where it is from before the gate", found == ([0, 0], (3, "first\n"), 4), f"found {found}")
rows.finish()
