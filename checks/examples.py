#!/usr/bin/env python3
"""The examples and the pages for users: every command that they show writes what they show.

The convention of these pages, which `examples/README.md` tells their readers: indented blocks, cut at blank
lines and at prose, come in pairs, a command as it is typed at the top of the repository and then what it writes
to standard output and standard error, with a last line `[status N]` where its status is not 0, or `(nothing)`.
The commands of a page run in their order, in one fresh folder that has `desq`, `examples` and `docs`. Fenced
blocks are not run."""
import glob
import os
import re
import shutil
import subprocess
import sys

PROGRAM, WORK = os.path.abspath(os.environ["DESQ"]), os.environ["WORK"]
FOLDERS = sorted(os.path.dirname(page) for page in glob.glob("examples/*/README.md"))
GUIDES = ["docs/COMING_FROM.md", "docs/ENGINES.md", "docs/EXPRESSIONS.md", "docs/GAPS.md", "docs/PROOFS.md"]
# One order for `sort`, that of bytes. The programs of the system come first, as its python3 has pandas.
ENVIRONMENT = {**os.environ, "LC_ALL": "C.UTF-8", "PATH": f"{os.defpath}:{os.environ['PATH']}"}
rows = []


def hold(name, holds, *told):
    rows.append(bool(holds))
    if not holds:
        print(f"FAILED: {name}", *told, sep="\n")


def text_of(path):
    try:
        with open(path, encoding="utf-8") as file:
            return file.read()
    except OSError:
        return ""


def blocks_of(page):
    """The indented blocks of a page, each with the line where it begins."""
    blocks, is_fenced, is_open = [], False, False
    for number, line in enumerate(text_of(page).split("\n"), 1):
        is_fenced ^= line.startswith("```")
        if line.startswith("    ") and not is_fenced:
            if not is_open:
                blocks.append((number, ""))
            blocks[-1] = (blocks[-1][0], blocks[-1][1] + line[4:] + "\n")
            is_open = True
        else:
            is_open = False
    return blocks


def pairs_of(page):
    blocks = blocks_of(page)
    return [(line, command, shown) for (line, command), (_, shown) in zip(blocks[::2], blocks[1::2])]


def written(command, folder):
    try:
        ran = subprocess.run(["sh", "-c", command], cwd=folder, env=ENVIRONMENT, stdin=subprocess.DEVNULL,
                             stdout=subprocess.PIPE, stderr=subprocess.STDOUT, timeout=120)
    except subprocess.TimeoutExpired:
        return "[no end within two minutes]\n"
    text = ran.stdout.decode("utf-8", "replace")
    if ran.returncode != 0:
        text += f"[status {ran.returncode}]\n"
    return text or "(nothing)\n"


def folder_of(page):
    return os.path.join(WORK, page.replace("/", "_"))


def fresh_folder(page):
    folder = folder_of(page)
    os.makedirs(folder)
    os.symlink(PROGRAM, os.path.join(folder, "desq"))
    for name in ["examples", "docs"]:
        shutil.copytree(name, os.path.join(folder, name))
    return folder


def page_holds(page):
    hold(f"{page}: its indented blocks are pairs of a command and what it writes",
         pairs_of(page) and len(blocks_of(page)) % 2 == 0)
    folder = fresh_folder(page)
    for line, command, shown in pairs_of(page):
        told = written(command, folder)
        hold(f"{page}:{line}: the command writes what is shown", told == shown, command + "writes", told)
    for link in re.findall(r"\]\(([^)#:]+)(?:#[^)]*)?\)", text_of(page)):
        place = os.path.join(os.path.dirname(page), link)
        hold(f"{page}: the link {link} leads somewhere", os.path.exists(place))


def example_holds(folder):
    names = ["README.md", "command", "expected", "hierarchy", "sequences"]
    parts = {name: text_of(f"{folder}/{name}") for name in names}
    for name, text in parts.items():
        hold(f"{folder} has a file {name} with something in it", text)
    hold(f"the command of {folder} runs the program", parts["command"].startswith("./desq "))
    shown = [(command, output) for _, command, output in pairs_of(f"{folder}/README.md")]
    hold(f"the page of {folder} shows its command and, below it, its output",
         (parts["command"], parts["expected"]) in shown)
    link = f"]({os.path.basename(folder)})"
    hold(f"examples/README.md speaks of {folder}", link in text_of("examples/README.md"))


def words_of_picture(path):
    return re.findall(r"<text>(.*?)</text>", text_of(path))


def refusals_are_shown():
    """Each message on an expression, as the definitions have it, is what a command of the page writes."""
    definitions = text_of("crates/mine_model/specs/Status.antt")
    columns = re.findall(r'at_column column \(codes "([^"]+)"\)', definitions)
    others = re.findall(r'codes "(expression: more[^"]+| leaves[^"]+)"', definitions)
    shown = "".join(output for _, _, output in pairs_of("docs/EXPRESSIONS.md"))
    hold("the definitions have messages on expressions", len(columns) >= 6 and len(others) >= 2)
    for message in columns:
        hold(f"docs/EXPRESSIONS.md shows '{message}'",
             re.search(rf"^desq: expression: column \d+{re.escape(message)}$", shown, re.M))
    for message in others:
        hold(f"docs/EXPRESSIONS.md shows '{message}'",
             re.search(rf"^desq: .*{re.escape(message)}$", shown, re.M))


for folder in FOLDERS:
    example_holds(folder)
for page in [f"{folder}/README.md" for folder in FOLDERS] + GUIDES:
    page_holds(page)
pictures = glob.glob("examples/*/*.svg")
hold("there is a picture of an answer", pictures)
for picture in pictures:
    page = f"{os.path.dirname(picture)}/README.md"
    made = os.path.join(folder_of(page), "try", os.path.basename(picture))
    hold(f"{picture} has the words of the picture that the page makes",
         words_of_picture(picture) and words_of_picture(picture) == words_of_picture(made))
refusals_are_shown()
hold("there are examples of real use", len(FOLDERS) >= 7)
print(f"{sum(rows)} of {len(rows)} rows hold")
sys.exit(0 if rows and all(rows) else 1)
