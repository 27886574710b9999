#!/usr/bin/env python3
"""The commands that the pages show, run as they are typed at the top of the repository: each example of real use writes what
it says, its page shows both, and the commands of the README run."""
import os
import re
import shlex
import subprocess
import sys

sys.dont_write_bytecode = True
from rows import PROGRAM, Rows, SECONDS, WORK

PARTS = ["README.md", "command", "expected", "hierarchy", "sequences"]
# What the README says in words of the commands that it shows.
README_WRITES = {r"printf 'a b\na b\na c\n' | ./desq --support 2 '.*(a)(b).*' -": b"2\ta b\n"}

# A folder in which `./desq` is the program that is checked, and all else is the repository's.
top = f"{WORK}/top"
os.mkdir(top)
os.symlink(PROGRAM, f"{top}/desq")
os.symlink(os.path.abspath("examples"), f"{top}/examples")


def typed(command):
    try:
        ran = subprocess.run(["sh", "-c", command], cwd=top, stdin=subprocess.DEVNULL, capture_output=True, timeout=SECONDS)
    except subprocess.TimeoutExpired:
        return None, b"", b""
    return ran.returncode, ran.stdout, ran.stderr


def text_of(path):
    with open(path, encoding="utf-8") as file:
        return file.read()


def blocks_of(page):
    """The indented blocks of a page, without their indents."""
    blocks = [""]
    for line in page.split("\n"):
        if line.startswith("    "):
            blocks[-1] += line[4:] + "\n"
        elif blocks[-1]:
            blocks.append("")
    return [block for block in blocks if block]


rows = Rows()
folders = sorted(entry.path for entry in os.scandir("examples") if entry.is_dir())
rows.hold("there are examples of real use", folders)
for folder in folders:
    lacking = [part for part in PARTS if not os.path.isfile(f"{folder}/{part}") or not os.path.getsize(f"{folder}/{part}")]
    rows.hold(f"{folder} is whole", not lacking, f"it has no {lacking}, or nothing in them")
    if lacking:
        continue
    command, expected = text_of(f"{folder}/command"), text_of(f"{folder}/expected")
    rows.hold(f"the command of {folder} is one of desq", command.startswith("./desq "))
    rows.ends(f"{folder} writes what it says", typed(command), (0, expected.encode(), b""))
    blocks = blocks_of(text_of(f"{folder}/README.md"))
    rows.hold(f"the page of {folder} shows its command and its output", command in blocks and expected in blocks)
readme = text_of("README.md")
rows.hold("the README names each example",
          sorted(set(re.findall(r"\]\((examples/\w+)\)", readme))) == folders)
shown = [line for block in blocks_of(readme) for line in block.split("\n") if "./desq " in line]
rows.hold("the README shows the commands that are known here", sorted(shown) == sorted(README_WRITES), f"it shows {shown}")
for command in shown:
    rows.ends(f"the README's {shlex.quote(command)}", typed(command), (0, README_WRITES.get(command), b""))
rows.finish()
