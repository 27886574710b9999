#!/usr/bin/env python3
"""What a look at the files shows: the rules of the repository, and what its pages say of it."""
import glob
import os
import re
import subprocess
import sys

sys.dont_write_bytecode = True
from rows import Rows

COLUMNS = 110


def text_of(path):
    with open(path, encoding="utf-8") as file:
        return file.read()


def cells_of(line):
    return [cell.strip() for cell in line.strip().strip("|").split("|")]


def rows_behind(page, head):
    """The cells of the rows of the table with this head."""
    table = page.split(head, 1)[1].split("\n\n", 1)[0] if head in page else ""
    return [cells_of(line) for line in table.split("\n")[2:]]


rows = Rows()
try:
    tracked = subprocess.run(["git", "ls-files", "-z"], capture_output=True, text=True, check=True).stdout.split("\0")[:-1]
except (OSError, subprocess.CalledProcessError):
    tracked = []
files = [path for path in tracked if os.path.isfile(path)]
rows.hold("the files of the repository are listed", files)
rows.hold("no folder out/ is kept in the repository", not [path for path in files if "out" in path.split("/")[:-1]])

# The crates.
listed = {}
for line in text_of("crates.txt").split("\n"):
    name, colon, below = line.partition(":")
    if colon and not line.startswith("#"):
        listed[name.split()[0]] = below.split()
readme, map_page = text_of("README.md"), text_of("docs/ARCHITECTURE.md")
definitions_page = text_of("docs/DEFINITIONS.md")
proved = [row[0].strip("`") for row in rows_behind(readme, "| Crate | The contract that carries it |")]
mapped = {row[0].strip("`"): row[1] for row in rows_behind(map_page, "| Crate | Stands on |")}
folders = sorted(entry.name for entry in os.scandir("crates") if entry.is_dir())
rows.hold("each crate is listed, and each that is listed is there", folders == sorted(listed),
          f"in one of both alone: {set(folders) ^ set(listed)}")
rows.hold("the README says of each crate what is proved, and of no other", sorted(proved) == sorted(listed),
          f"in one of both alone: {set(proved) ^ set(listed)}")
rows.hold("the map has each crate, and no other", sorted(mapped) == sorted(listed),
          f"in one of both alone: {set(mapped) ^ set(listed)}")
for name, below in listed.items():
    own = [crate for crate in below if crate in listed]
    told = [] if mapped.get(name) == "none" else re.findall(r"\w+", mapped.get(name, ""))
    rows.hold(f"the map tells what {name} stands on", sorted(own) == sorted(told), f"it stands on {own}, told {told}")
tests = {"layer_tests", "reader_tests", "run_tests", "structure_tests", "test_facts"}
wanting = [name for row in rows_behind(map_page, "| Crate | What could give up |") for name in re.findall(r"`(\w+)`", row[0])]
rows.hold("the map says of each crate but those of tests what could want memory without cause",
          sorted(wanting) == sorted(set(listed) - tests), f"in one of both alone: {set(wanting) ^ (set(listed) - tests)}")
rows.hold("the handles", text_of("HANDLES") == "Handles allowed: Threads, Wait.\n")
versions = re.findall(r"`(rattle-kit-\S+ logic \w+)`", readme)
ran = subprocess.run(["rt", "version"], capture_output=True, text=True)
rows.hold("the README names the kit that is here", ran.stdout.strip() in versions, f"here is {ran.stdout.strip()}")

# Each edit that must fail speaks of a text that stands once in its file, so that it is tried as it is meant.
for crate in sorted(listed):
    astray = []
    edits = sorted(glob.glob(f"crates/{crate}/must-fail/*.edit"))
    for edit in edits:
        text, changes = None, 0
        for line in text_of(edit).split("\n"):
            kind, _, words = line.partition(": ")
            if kind == "file":
                text = text_of(f"crates/{crate}/{words}") if os.path.isfile(f"crates/{crate}/{words}") else None
            elif kind == "old":
                old = words
                if text is None or text.count(old) != 1:
                    astray.append(f"{edit}: stands {0 if text is None else text.count(old)} times: {old}")
            elif kind == "new" and text is not None:
                changes += old != words
                text = text.replace(old, words)
        if not changes:
            astray.append(f"{edit}: changes nothing")
    if edits:
        rows.hold(f"each edit of {crate} speaks of one place", not astray, "\n".join(astray))
rows.hold("there are edits that must fail", glob.glob("crates/*/must-fail/*.edit"))


# The definitions of the promise: those that the contract of run cites, and those that they cite in turn. A module of Rust
# types is no definition.
def imports_of(text):
    """What a text imports from definitions: from the name that it uses to the crate, the module and the name there."""
    found = {}
    for crate, path, names in re.findall(r"use Rattle\.(\w+)\.specs\.([\w.]+)\.\{([^}]*)\}", text):
        for name in names.split(","):
            word, _, known = name.strip().partition(" as ")
            found[known or word] = (crate, path, word)
    return found


modules = {}
page = subprocess.run(["rt", "doc"], capture_output=True, text=True).stdout.strip()
SPECS = {"clap": f"{os.path.dirname(page)}/rattle/clap/specs", **{crate: f"crates/{crate}/specs" for crate in listed}}


def module_of(crate, path):
    """The imports of a module, its definitions by name, and which type has which constructor."""
    if (crate, path) not in modules:
        text = text_of(f"{SPECS[crate]}/{path.replace('.', '/')}.antt")
        blocks, owner, current = {}, {}, None
        for line in text.split("\n"):
            if not line.strip() or line.startswith(("use ", "--", "pub use ", "pub mod ")):
                continue
            head = re.match(r"(?:abbrev pub|unfoldable pub|pub data|pub record) (\w+)", line)
            if head:
                current = head.group(1)
                blocks[current] = []
            if current is None:
                continue
            blocks[current].append(line.split("  -- ")[0])
            parts = re.match(r"  (\w+) :", line)
            if parts and blocks[current][0].startswith("pub data"):
                owner[parts.group(1)] = current
        modules[crate, path] = imports_of(text), blocks, owner
    return modules[crate, path]


def cited(text, imports, blocks, owner, here):
    for word in re.findall(r"[A-Za-z_][\w']*", text):
        if word in blocks:
            yield (*here, word)
        elif word in owner:
            yield (*here, owner[word])
        elif word in imports:
            yield imports[word]


running = text_of("crates/desq_run/src/running.rt")
contract = running[running.index("requires {"):running.index("\n{\n")]
promise, left = {}, list(cited(contract, imports_of(running), {}, {}, None))
while left:
    crate, path, word = left.pop()
    if crate not in SPECS or path.startswith("declared"):
        continue
    imports, blocks, owner = module_of(crate, path)
    word = owner.get(word, word)
    if word not in blocks:
        left.append(imports[word])
    elif (crate, path, word) not in promise:
        promise[crate, path, word] = len(blocks[word])
        left += cited(" ".join(blocks[word]), imports, blocks, owner, (crate, path))
counted = {}
for (crate, path, word), lines in promise.items():
    file = f"{crate}/specs/{path.replace('.', '/')}.antt" if crate in listed else crate
    words_before, lines_before = counted.get(file, (0, 0))
    counted[file] = words_before + 1, lines_before + lines
own = {file: counts for file, counts in counted.items() if file != "clap"}
table = [(file, *counts) for file, counts in sorted(own.items())]
table.append(("all of these", *(sum(counts[at] for counts in own.values()) for at in (0, 1))))
table.append(("clap", *counted.get("clap", (0, 0))))
wanted = [[f"`{file}`" if "/" in file or file == "clap" else file, str(words), str(lines)] for file, words, lines in table]
told = rows_behind(definitions_page, "| File | Words | Lines |")
rows.hold("docs/DEFINITIONS.md tells how many words and lines of each file stand in the promise", told == wanted,
          "it is to have these rows:\n" + "\n".join(f"| {' | '.join(row)} |" for row in wanted if row not in told)
          + "\nand not these:\n" + "\n".join(f"| {' | '.join(row)} |" for row in told if row not in wanted))
named = set(re.findall(r"[A-Za-z_][\w']*", " ".join(re.findall(r"`([^`]*)`", definitions_page))))
unnamed = [word for word, (crate, _, _) in imports_of(running).items()
           if crate in listed and re.search(rf"(?<!\w){word}(?!\w)", contract) and word not in named]
rows.hold("docs/DEFINITIONS.md names each word that the contract of run cites", not unnamed, f"it does not name {unnamed}")

# The labels of the clauses of run are those of the README's table.
labels = set(re.findall(r"ensures (\w+) \{", contract))
told = {label for row in rows_behind(readme, "| Clause of `run` |") for label in re.findall(r"`(\w+)`", row[0])}
rows.hold("the README tells each clause of run, and no other", labels == told != set(), f"in one of both alone: {labels ^ told}")

# The options of the command are those that the README's usage names, and each has a word of its own there.
options = set(re.findall(r'(?:value|flag) \(codes "([\w-]+)"\)', text_of("crates/command_line/specs/Options.antt")))
usage = "\n".join(line for line in readme.split("\n") if line.startswith("    desq --support"))
rows.hold("the usage of the README has each option, and no other", set(re.findall(r"--([\w-]+)", usage)) == options != set(),
          f"the options are {sorted(options)}")

# Each word that the tables on the definitions name stands in the file that they name.
definition = r"^(?:abbrev pub|unfoldable pub|pub data|pub record) {}(?![\w'])"
astray, seen, folder = [], 0, None
for line in definitions_page.split("\n"):
    if line.startswith("## "):
        head = re.match(r"## .*\(`(crates/\w+/specs)`\)", line)
        folder = head and head.group(1)
    cells = cells_of(line)
    if folder and len(cells) == 3 and "`" in cells[0]:
        first, second = re.findall(r"`(\w+)`", cells[0]), re.findall(r"`(\w+)`", cells[1])
        modules_named, words = (first, second) if folder == "crates/mine_model/specs" else (second, first)
        text = "".join(text_of(f"{folder}/{name}.antt") for name in modules_named)
        seen += len(words)
        astray += [f"{word} does not stand in {modules_named}" for word in words
                   if not re.search(definition.format(word), text, re.M)]
rows.hold("the words of docs/DEFINITIONS.md stand where it says", seen and not astray, "\n".join(astray))

# What pages name is there: links, paths with or without the folder crates/ and an ending, lines of files, and code.
code = {}
for path in glob.glob("crates/*/*/**/*", recursive=True):
    if path.endswith((".rt", ".antt")) and "/out/" not in path:
        code[path] = text_of(path)
known = set(re.findall(r"[A-Za-z_][\w']*", " ".join(code.values())))
pages = sorted(path for path in files if path.endswith(".md"))


def lines_of_path(path, near):
    """The number of lines of the file or folder that a page names, None where there is none."""
    tries = [f"{top}{path}{end}" for top in (f"{near}/" if near else "", "", "crates/") for end in ("", ".antt", ".rt")]
    tries += glob.glob(f"crates/*/{path}") if re.match(r"(?:src|specs|proofs|must-fail)/", path) else []
    for found in tries:
        if os.path.isdir(found):
            return 0
        if os.path.isfile(found):
            return text_of(found).count("\n")
    return None


for page in pages:
    text, near, lost = text_of(page), os.path.dirname(page), []
    spans = re.findall(r"`([^`\n]+)`", text)
    for link in re.findall(r"\]\(([^)#\s]+)[^)\s]*\)", text):
        if "://" not in link and not os.path.exists(os.path.normpath(os.path.join(near, link))):
            lost.append(f"the link {link}")
    for path, line in re.findall(r"`((?:[\w.-]+/)+[\w.-]*)(?::(\d+))?`", text):
        # Built folders are there only once something was built, and events of the examples have names with a dash.
        if path.startswith(("out/", "crates/")) and "/out" in f"/{path}":
            continue
        count = lines_of_path(path, near)
        in_data = near.startswith("examples/") and path in text_of(f"{near}/sequences")
        if (count is None or int(line or 0) > count) and not in_data:
            lost.append(f"the path {path}{':' * bool(line)}{line}")
    if page in ("README.md", "docs/DEFINITIONS.md", "docs/ARCHITECTURE.md", "docs/DECISIONS.md"):
        mine = set(re.findall(r"[A-Za-z_][\w']*", " ".join(text_of(path) for path in files if path.startswith(("check", "desq", "build")))))
        lost += [f"the name {span}" for span in spans if re.fullmatch(r"[A-Za-z_][\w']*", span)
                 and span not in known | mine | {*listed, *sum(listed.values(), [])}]
    rows.hold(f"what {page} names is there", not lost, "\n".join(lost))

# What the pages name as a definition is one, and the map's contracts are those of public items of the linked files.
defined = {word for text in code.values() for word in re.findall(
    r"(?m)^\s*(?:pub(?:\(crate\))? )?(?:unsafe )?(?:fn|struct|enum|trait|mod|ensures|requires) (\w+)|^\s*ghost (\w+):"
    r"|^ *(?:abbrev pub|unfoldable pub|pub data|pub record) (\w+)|^ *(?:pub )?(\w+) :", text) for word in word if word}
defined |= {re.sub(r"\.\w+$", "", os.path.basename(path)) for path in code} | set(listed) | {"clap", "std"}
defined |= set(imports_of(text_of("crates/command_line/specs/Options.antt")))
stray = sorted(set(re.findall(r"`([A-Za-z_][\w']*)`", definitions_page)) - defined)
rows.hold("what docs/DEFINITIONS.md names is defined", not stray, f"{stray} is not")
lost = []
for word, path in re.findall(r"\[`(\w+)`\]\(\.\./(crates/[^)]*)\)", map_page):
    if not re.search(rf"pub (?:fn|struct|enum|trait) {word}\b", code.get(path, "")):
        lost.append(f"{word} is no public item of {path}")
rows.hold("the contracts of the map are those of public items", not lost, "\n".join(lost))

# In the tables of answers and their causes each clause is one of a call that its row names, or of `run`, or it is a law.
clauses = {}
for text in code.values():
    name = None
    for function, label in re.findall(r"(?m)^\s*(?:pub(?:\(crate\))? )?fn (\w+)|^\s*ensures (\w+) \{", text):
        name = function or name
        clauses.setdefault(name, set()).update({label} - {""})
of_ends = set(re.findall(r"(?m)^  (\w+) :", text_of("crates/desq_run/specs/Ends.antt")))
answers, calls = (rows_behind(definitions_page, head) for head in ("| Answer of `run` | Comes | Clauses |",
                                                                   "| Call | Answer | Comes | Clauses |"))
lost = [f"{word} is no clause of run" for row in answers for word in re.findall(r"`(\w+)`", row[-1])
        if word not in labels | of_ends | {"IsReported"}]
for row in calls:
    named = re.findall(r"`(\w+)`", row[0])
    lost += [f"{word} is no clause of {named}" for word in re.findall(r"`(\w+)`", row[-1])
             if word not in clauses and not any(word in clauses.get(name, ()) for name in named)]
rows.hold("the tables of answers name clauses of their calls", answers and calls and not lost, "\n".join(lost))

# The repository stands alone: no citation by number, no absolute path.
CITED = re.compile(r"(?i)\b(?:issue|paper|demand|theorem|proposition|corollary|section|chapter|footnote|requirement)s? #?\d"
                   r"|(?<![\w&'\"])#\d|§|\bet al\b|\[\d+\]\(|\barXiv\b|\bdoi\b")
ABSOLUTE = re.compile(r"(?<![\w.~)}\"'*/])/(?:home|root|work|opt|tmp|usr|var|etc|mnt|srv|Users)(?:/|\b)")
texts = [path for path in files if path.endswith((".rt", ".antt", ".md", ".edit", ".txt", ".py", ".sh")) or "." not in os.path.basename(path)]
texts = [path for path in texts if path != "checks/repository.py" and not path.startswith("examples/") or path.endswith(".md")]
for name, pattern in (("citation by number", CITED), ("absolute path", ABSOLUTE)):
    found = [f"{path}:{number}: {line.strip()[:COLUMNS]}" for path in texts
             for number, line in enumerate(text_of(path).split("\n"), 1)
             if not line.startswith("#!") and pattern.search(line)]
    rows.hold(f"no {name}", texts and not found, "\n".join(found))

# Lines, but for imports.
for crate in sorted(listed):
    wide = [f"{path}:{number}: {len(line)} columns" for path, text in sorted(code.items())
            if path.startswith((f"crates/{crate}/src/", f"crates/{crate}/specs/"))
            for number, line in enumerate(text.split("\n"), 1)
            if len(line) > COLUMNS and not re.match(r"(?:ghost |pub )*use ", line)]
    rows.hold(f"the lines of {crate} have at most {COLUMNS} columns", not wide, "\n".join(wide))
rows.finish()
