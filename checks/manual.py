#!/usr/bin/env python3
"""The manual page says what the program does.

Its options, defaults, ranges, statuses, messages, limits and examples are held against the sources that
define them, and provoked in the program one by one.
"""
import os
import re
import resource
import subprocess
import sys

DESQ = os.environ["DESQ"]
WORK = os.environ["WORK"]
PAGE = "docs/desq.1"

held = rows = 0


def hold(what, got, want):
    global held, rows
    rows += 1
    if got == want:
        held += 1
    else:
        print(f"FAILED: {what}: {str(got)[:600]}, wanted {str(want)[:600]}")


def runs(words, data=b"", out=subprocess.PIPE, memory=None):
    """The status, the output and the message of a run."""
    def narrow():
        if memory is not None:
            resource.setrlimit(resource.RLIMIT_AS, (memory, memory))
    ran = subprocess.run([DESQ, *words], input=data, stdout=out, stderr=subprocess.PIPE, timeout=300,
                         preexec_fn=narrow)
    return ran.returncode, ran.stdout or b"", ran.stderr.decode()


def sections():
    """The lines of each section of the page."""
    found = {}
    for line in open(PAGE, encoding="utf-8").read().splitlines():
        if line.startswith(".Sh "):
            lines = found.setdefault(line[4:], [])
        elif found:
            lines.append(line)
    return found


def entries(lines):
    """The entries of a tagged list: the tag, and the text below it."""
    found = []
    for line in lines:
        if line.startswith(".It "):
            found.append((line[4:], []))
        elif line.startswith((".El", ".Sh")):
            found.append((None, []))
        elif found:
            found[-1][1].append(line)
    return [(tag, " ".join(text)) for tag, text in found if tag]


def constants(path):
    """The numbers that a file of definitions names."""
    text = open(path, encoding="utf-8").read()
    return {name: int(value) for name, value in re.findall(r"^(most_\w+) = (\d+)$", text, re.M)}


LIMITS = constants("crates/mine_model/specs/Limits.antt")
WORDS = open("crates/command_line/specs/Words.antt", encoding="utf-8").read()
SECTIONS = sections()
OPTIONS = {}
for tag, text in entries(SECTIONS["OPTIONS"]):
    OPTIONS[re.match(r"Fl -([\w-]+)", tag).group(1)] = (tag, text)


def write(name, data):
    with open(f"{WORK}/{name}", "wb") as file:
        file.write(data)
    return f"{WORK}/{name}"


LINES = write("lines", b"a b\na b\na c\n")
ABOVE = write("above", b"b B\nc B\n")
ROWS = write("rows", b"2\ta\n")
EMPTY = write("empty", b"")


def check_form():
    """Both readers of manual pages are silent."""
    ran = subprocess.run(["mandoc", "-Tlint", PAGE], capture_output=True, text=True)
    hold("mandoc", (ran.returncode, ran.stdout + ran.stderr), (0, ""))
    ran = subprocess.run(["man", "--warnings", "-E", "UTF-8", "-l", PAGE], stdout=subprocess.DEVNULL,
                         stderr=subprocess.PIPE, text=True, env=dict(os.environ, LC_ALL="C.UTF-8"))
    hold("man", (ran.returncode, ran.stderr), (0, ""))


def check_options():
    """The options are those of the sources, with values where they have them, and stand in the synopsis."""
    source = open("crates/command_line/src/options.rt", encoding="utf-8").read()
    table = source.partition("static ARGUMENTS")[2].partition("];")[0]
    kinds = {name: kind for kind, name in re.findall(r'Argument::(\w+)\("([\w-]+)"\)', table)}
    options = {name: kind for name, kind in kinds.items() if not kind.endswith(("Word", "Words"))}
    hold("the options", list(OPTIONS), list(options))
    synopsis = "\n".join(SECTIONS["SYNOPSIS"])
    for name, (tag, _) in OPTIONS.items():
        hold(f"the value of {name}", " Ar " in tag or " Cm " in tag,
             options.get(name) in ("Value", "NeededValue"))
        hold(f"{name} in the synopsis", bool(re.search(rf"^\.(Op )?Fl -{name}( |$)", synopsis, re.M)), True)
        hold(f"{name} is needed", bool(re.search(rf"^\.Fl -{name}( |$)", synopsis, re.M)),
             options.get(name) == "NeededValue" or name in ("max-gap", "generated", "merge", "check"))
    engines = re.findall(r'^engine_name \w+ = codes "(\w+)"', WORDS, re.M)
    told = re.match(r"Fl -engine Cm (.*)", OPTIONS["engine"][0]).group(1).split(" | ")
    hold("the engines", sorted(told), sorted(engines))


# Words with which an option with this value is accepted.
USES = {
    "support": lambda value: ["--support", value, "(a).*", LINES],
    "hierarchy": lambda value: ["--support", "1", "--hierarchy", value, "(a).*", LINES],
    "weighted": lambda: ["--support", "1", "--weighted", "(a).*", write("weights", b"2 a\n")],
    "engine": lambda value: ["--support", "1", "--engine", value, "(a).*", LINES],
    "workers": lambda value: ["--support", "1", "--workers", value, "(a).*", LINES],
    "simulate": lambda value: ["--support", "1", "--simulate", value, "(a).*", LINES],
    "stats": lambda: ["--support", "1", "--stats", "(a).*", LINES],
    "max-gap": lambda value: ["--support", "1", "--max-gap", value, "--max-length", "1", LINES],
    "min-length": lambda value: ["--support", "1", "--max-gap", "0", "--min-length", value, "--max-length",
                                 "1000", LINES],
    "max-length": lambda value: ["--support", "1", "--max-gap", "0", "--max-length", value, LINES],
    "generalize": lambda: ["--support", "1", "--max-gap", "0", "--generalize", LINES],
    "generated": lambda value: ["--support", "1000000", "--generated", value, ".*(top^=).*"],
    "split": lambda value: ["--support", "1", "--engine", "pivot", "--split", f"1/{value}", "(a).*", LINES],
    "merge": lambda: ["--support", "1", "--merge", ROWS],
    "proof": lambda: ["--support", "1", "--proof", "(a).*", LINES],
    "check": lambda value: ["--support", "1", "--check", value, "(a).*", LINES],
}


def check_uses():
    """The program takes each option, at both ends of its range and not beyond, and none twice."""
    hold("uses of all options", sorted(USES), sorted(OPTIONS))
    for name, (tag, text) in OPTIONS.items():
        if name not in USES:
            continue
        values = re.search(r"(\d+) to (\d+)", text)
        if values:
            least, most = int(values.group(1)), int(values.group(2))
            hold(f"{name} takes its least", runs(USES[name](str(least)))[0], 0)
            hold(f"{name} takes its most", runs(USES[name](str(most)))[0], 0)
            hold(f"{name} takes no more", runs(USES[name](str(most + 1)))[0], 2)
            below = str(least - 1) if least else "-1"
            hold(f"{name} takes no less", runs(USES[name](below))[0], 2)
            words = USES[name](str(least))
        elif name == "engine":
            for value in re.match(r"Fl -engine Cm (.*)", tag).group(1).split(" | "):
                hold(f"engine {value}", runs(USES[name](value))[0], 0)
            hold("another engine", runs(USES[name]("bfs"))[0], 2)
            words = USES[name]("dfs")
        elif name == "hierarchy":
            words = USES[name](ABOVE)
            hold("hierarchy", runs(words)[0], 0)
        elif name == "check":
            words = USES[name](EMPTY)
            hold("check", runs(words), (0, b"checked 0 rows\n", ""))
        else:
            words = USES[name]()
            hold(name, runs(words)[0], 0)
        at = words.index(f"--{name}")
        has_value = " Ar " in tag or " Cm " in tag
        given = words[at:at + 2] if has_value else words[at:at + 1]
        hold(f"{name} twice", runs([*given, *words])[0], 2)
        if has_value:
            hold(f"{name} by an equals sign", runs([*words[:at], "=".join(given), *words[at + 2:]])[0], 0)
        hold(f"{name} at the end", runs([*words[:at], *words[at + len(given):], *given])[0], 0)
    hold("no support", runs(["(a).*", LINES])[0], 2)
    for engine in ("count", "cand"):
        hold(f"a seed with {engine}",
             runs(["--support", "1", "--engine", engine, "--simulate", "1", "(a)", LINES])[0], 2)
    hold("an expression behind dashes", runs(["--support", "1", "--", "-", LINES])[2],
         "desq: expression: column 1: unknown name\n")
    hold("standard input", runs(["--support", "2", ".*(a)(b).*", "-"], b"a b\na b\n")[:2], (0, b"2\ta b\n"))
    if "max-gap" in OPTIONS:
        for name in {"min-length", "max-length", "generalize"} & set(OPTIONS):
            given = [f"--{name}", "1"] if " Ar " in OPTIONS[name][0] else [f"--{name}"]
            hold(f"{name} without max-gap", runs(["--support", "1", *given, "(a).*", LINES])[0], 2)
        gap = ["--support", "1", "--max-gap", "0"]
        hold("least above most", runs([*gap, "--min-length", "3", "--max-length", "2", LINES])[0], 2)
        hold("least above the default of most", runs([*gap, "--min-length", "6", LINES])[0], 2)
        hold("an expression beside max-gap", runs([*gap, "(a).*", LINES])[0], 2)
    if "generated" in OPTIONS:
        for given in (["--hierarchy", ABOVE], ["--weighted"], ["--max-gap", "0"], [LINES]):
            hold(f"{given[0]} beside generated", runs(["--support", "1", "--generated", "1", "(.)", *given])[0], 2)

    check_merges()
    check_proofs()


def check_proofs():
    """A proof is checked, and no option stands beside either that the page says does not."""
    whole = runs(USES["proof"]())
    hold("a proof", whole, (0, b"3\ta\n\t1 1 2\n\t2 1 2\n\t3 1 2\n", ""))
    hold("its check", runs(USES["check"]("-"), whole[1]), (0, b"checked 1 rows\n", ""))
    values = {"check": EMPTY, "split": "1/1", "simulate": "1"}
    for name in ("proof", "check"):
        beside = re.search(r"Neither (.*) stands beside it", OPTIONS[name][1]).group(1)
        for other in re.findall(r"Fl -([\w-]+)", beside):
            words = [f"--{other}", values.get(other, "1")] if " Ar " in OPTIONS[other][0] else [f"--{other}"]
            words += ["--engine", "pivot"] if other == "split" else []
            given = [f"--{name}", EMPTY] if name == "check" else [f"--{name}"]
            places = {"max-gap": [LINES], "generated": ["(.)"]}.get(other, ["(a).*", LINES])
            hold(f"{other} beside {name}", runs(["--support", "1", *given, *words, *places])[0], 2)
            hold(f"{other} without {name}", runs(["--support", "1", *words, *places])[0], 0)


def check_merges():
    """A merge takes so many files as the page says, and no other option but the support."""
    most = told("merge", "the most files of a merge", r"at most (\d+) of them")[0] or "0"
    hold("the most files of a merge", most, str(constants("crates/command_line/specs/Words.antt")["most_merged"]))
    merge = ["--support", "1", "--merge"]
    hold("as many files", runs([*merge, ROWS, *[EMPTY] * (int(most) - 1)]), (0, b"2\ta\n", ""))
    hold("one more", runs([*merge, ROWS, *[EMPTY] * int(most)])[0], 2)
    hold("no file", runs(merge)[0], 2)
    values = {"hierarchy": ABOVE, "engine": "dfs", "split": "1/1", "check": EMPTY}
    for name in set(OPTIONS) - {"support", "merge"}:
        has_value = " Ar " in OPTIONS[name][0] or " Cm " in OPTIONS[name][0]
        given = [f"--{name}", values.get(name, "1")] if has_value else [f"--{name}"]
        hold(f"{name} beside merge", runs([*merge, *given, ROWS])[0], 2)


def told(name, what, pattern):
    found = re.search(pattern, OPTIONS.get(name, ("", ""))[1])
    hold(f"the page tells {what}", bool(found), True)
    return found.groups() if found else (None, None)


def check_defaults():
    """Defaults and ranges are those of the definitions, and of the program where it shows them."""
    hold("support", told("support", "the range of support", r"(\d+) to (\d+)"),
         ("1", str(LIMITS["most_support"])))
    hold("workers", told("workers", "the range of workers", r"(\d+) to (\d+)"),
         ("1", str(LIMITS["most_workers"])))
    hold("made sequences", told("generated", "the range of made sequences", r"(\d+) to (\d+)"),
         ("1", str(constants("crates/made_input/specs/Made.antt")["most_made"])))
    hold("seeds", told("simulate", "the range of seeds", r"(\d+) to (\d+)"),
         ("0", str(constants("crates/command_line/specs/Words.antt")["most_seed"])))
    default = re.search(r'codes "workers"\) found\) \(codes "(\d+)"\)', WORDS).group(1)
    hold("the default of workers", told("workers", "the default of workers", r"default (\d+)"), (default,))
    default = re.search(r'codes "engine"\) found\) \(codes "(\w+)"\)', WORDS).group(1)
    hold("the default engine", told("engine", "the default engine", r"default \.Cm (\w+)"), (default,))
    by = {engine: runs(["--support", "1", "--stats", *engine, ".*(.)(.).*", LINES])[2]
          for engine in [(), ("--engine", "dfs"), ("--engine", "pivot"), ("--engine", "count"), ("--engine", "cand")]}
    hold("the engine of a run that names none", [e for e in by if e and by[e] == by[()]],
         [("--engine", default)])
    least = told("min-length", "the default of the least length", r"default (\d+)")
    most = told("max-length", "the default of the greatest length", r"default (\d+)")
    _, out, _ = runs(["--support", "1", "--max-gap", "0", "-"], b"a b c d e f g h\n")
    lengths = sorted({len(line.split(b"\t")[1].split()) for line in out.splitlines()})
    hold("the lengths of a run that names none", lengths[:1] + lengths[-1:],
         [int(least[0] or 0), int(most[0] or 0)])


# What provokes each message: words, standard input, the least memory in which the program may work.
def name_lines(count):
    return b"".join(b"%x\n" % n for n in range(count))


def chain(count):
    return b"".join(b"%x %x\n" % (n + 1, n) for n in range(count - 1))


def expression(text):
    return ["--support", "1", text, "-"], b"a\n"


def sequences(data, *words):
    return ["--support", "1000000000", *words, "(.)", "-"], data


def hierarchy(data):
    return ["--support", "1", "--hierarchy", "-", "(.)", LINES], data


# Each message, where the page's N and FILE are given; what brings it; and for a limit what stands just at it.
MESSAGES = [
    ("expression: column N: bad token", lambda: expression("(a);"), None),
    ("expression: column N: bad repeat", lambda: expression("(a){2,1}"), None),
    ("expression: column N: unexpected", lambda: expression("(a))"), None),
    ("expression: column N: unknown name", lambda: expression("(b)"), None),
    ("FILE: line N column N: bad byte", lambda: sequences(b"a\0\n"), None),
    ("sequences: line N column N: bad weight", lambda: sequences(b"1000000001 a\n", "--weighted"),
     lambda: sequences(b"1000000000 a\n", "--weighted")),
    ("hierarchy: line N: cycle", lambda: hierarchy(b"a b\nb a\n"), None),
    ("FILE: line N: bad row", lambda: (["--support", "1", "--merge", "-"], b"1\ta\n2\tb\n"), None),
    ("proof: line N: refused", lambda: (["--support", "1", "--check", "-", "(a).*", LINES], b"1\ta\n"), None),
    ("expression: more than 4096 bytes", lambda: expression("(a)" + " " * 4094),
     lambda: expression("(a)" + " " * 4093)),
    ("expression: column N: repeat over 1024", lambda: expression("(a){1025}"),
     lambda: expression("(a){1024}")),
    ("expression: column N: nested over 128", lambda: expression("[" * 129 + "(a)" + "]" * 129),
     lambda: expression("[" * 127 + "(a)" + "]" * 127)),
    ("expression: N leaves, over 1024", lambda: expression("(a){1024} a"), lambda: expression("(a){1023} a")),
    ("FILE: more than 67108864 bytes", lambda: sequences((b"a" * 63 + b"\n") * 2**20 + b"a"),
     lambda: sequences((b"a" * 63 + b"\n") * 2**20)),
    ("FILE: line N column N: name over 255 bytes", lambda: sequences(b"a" * 256 + b"\n"),
     lambda: sequences(b"a" * 255 + b"\n")),
    ("FILE: line N: more than 1048576 items", lambda: sequences(name_lines(2**20 + 1)),
     lambda: sequences(name_lines(2**20))),
    ("hierarchy: more than 33554432 ancestors", lambda: hierarchy(chain(8192)),
     lambda: hierarchy(chain(8191))),
    ("sequences: line N: more than 4194304 sequences", lambda: sequences(b"a\n" * (2**22 + 1)),
     lambda: sequences(b"a\n" * 2**22)),
    ("sequences: line N: more than 65535 items in a sequence", lambda: sequences(b"a " * 65536 + b"\n"),
     lambda: sequences(b"a " * 65535 + b"\n")),
]


def pattern(message):
    """What the message looks like, with numbers and the name of a file for the page's words."""
    text = re.escape(f"desq: {message}\n").replace("FILE", r"(hierarchy|sequences|proof|file \d+)")
    return re.sub(r"\bN\b", r"\\d+", text)


def defined_messages():
    """Each message by its status, as the definitions spell them."""
    text = open("crates/mine_model/specs/Status.antt", encoding="utf-8").read()
    statuses = dict(re.findall(r"^fault_status \(?(\w+)[^=]*= (\d)$", text, re.M))
    found = {}
    for name, body in re.findall(r"^fault_text \(?(\w+)[^=]*= (.*)$", text, re.M):
        body = re.sub(r"at_column column \(codes \"(.*)\"\)", r'codes "expression: column N\1"', body)
        body = re.sub(r"at_place (\S+) line column \(codes \"(.*)\"\)", r'\1: codes "line N column N\2"',
                      body)
        body = re.sub(r"at_line (\S+) line \(codes \"(.*)\"\)", r'\1: codes "line N\2"', body)
        body = re.sub(r"file_text file \+\+ codes", "FILE codes", body).replace("file:", "FILE: ")
        body = body.replace("Sequences: ", "sequences: ").replace("Hierarchy: ", "hierarchy: ")
        body = body.replace("Proof: ", "proof: ")
        body = re.sub(r"decimal \w+", '"N"', body)
        body = body.replace("FILE codes ", "FILE")
        words = re.sub(r' ?\+\+ ?|codes |"', "", body)
        found.setdefault(int(statuses.get(name, "4")), set()).add("desq: " + re.sub(" +", " ", words))
    return found


def page_messages():
    """Each message of the page by the statuses that stand before it."""
    found, statuses = {}, ()
    for line in SECTIONS["DIAGNOSTICS"]:
        if line.startswith("With status "):
            statuses = tuple(int(n) for n in re.findall(r"\d", line))
        item = re.match(r'\.It Li "(.*)"$', line)
        if item:
            found.setdefault(statuses, set()).add(item.group(1))
    return found


def check_messages():
    """The messages are those of the definitions, and the program gives each."""
    defined = defined_messages()
    page = page_messages()
    hold("all statuses have messages", sorted(n for statuses in page for n in statuses), sorted(defined))
    for statuses, texts in page.items():
        hold(f"the messages of {statuses}", sorted(texts),
             sorted(set().union(*(defined[n] for n in statuses))))
    by_text = {text: n for n, texts in defined.items() for text in texts}
    for message, brings, at_limit in MESSAGES:
        status, out, err = runs(*brings())
        wanted = by_text.get(f"desq: {message}")
        hold(f"'{message}' has its status", (status, out), (wanted, b""))
        hold(f"'{message}' is written", bool(re.fullmatch(pattern(message), err)), True)
        if at_limit:
            hold(f"just at the limit of '{message}'", runs(*at_limit())[0], 0)
    hold("all messages but those of statuses 2, 5, 6 and 7 are provoked",
         {f"desq: {message}" for message, _, _ in MESSAGES},
         defined[3] | defined[4])


def check_statuses():
    """Each status of the page comes, with its message, and no other is there."""
    table = {int(tag): text for tag, text in entries(SECTIONS["EXIT STATUS"])}
    hold("the statuses", sorted(table), [0, 2, 3, 4, 5, 6, 7])
    hold("status 0", runs(["--support", "2", ".*(a)(b).*", LINES]), (0, b"2\ta b\n", ""))
    hold("status 2", runs([]), (2, b"", "desq: usage: desq --support N [options] EXPR [FILE]\n"))
    hold("status 3", runs(*expression("(a))")), (3, b"", "desq: expression: column 4: unexpected\n"))
    hold("status 4", runs(*expression("(a){1025}")),
         (4, b"", "desq: expression: column 4: repeat over 1024\n"))
    hold("status 5", runs(["--support", "1", "(a)", f"{WORK}/absent"]),
         (5, b"", "desq: sequences: read fault\n"))
    hold("status 5 of a hierarchy", runs(["--support", "1", "--hierarchy", f"{WORK}/absent", "(a)", LINES]),
         (5, b"", "desq: hierarchy: read fault\n"))
    with open("/dev/full", "wb") as full:
        hold("status 6", runs(["--support", "2", ".*(a)(b).*", LINES], out=full),
             (6, b"", "desq: write fault\n"))
    many = b"".join(b"%x %x\n" % (n, n + 1) for n in range(10**6))
    hold("status 7", runs(["--support", "1", ".*(.).*", "-"], many, memory=40 * 2**20),
         (7, b"", "desq: out of memory\n"))


def check_limits():
    """The table of limits has the numbers of the definitions."""
    names = {
        "bytes of a file": "most_file_bytes",
        "bytes of a name in a file": "most_name_bytes",
        "different names in all files": "most_items",
        "ancestors of all items, each its own": "most_ancestors",
        "sequences": "most_sequences",
        "items of a sequence": "most_length",
        "bytes of an expression": "most_expression_bytes",
        "a number of a repeat": "most_times",
        "item expressions, repetitions written out": "most_leaves",
        "brackets open at once": "most_nested",
        "signs of repetition in a row": "most_nested",
    }
    lines = [tag.split(" Ta ") for tag, _ in entries(SECTIONS["LIMITS"]) if not tag.startswith("Sy ")]
    table = {what: most for what, most in lines}
    hold("the limits", table, {what: str(LIMITS[name]) for what, name in names.items()})
    weights = re.search(r"its weight, (\d+) to (\d+)", " ".join(SECTIONS["FILES"]))
    hold("weights", weights and weights.groups(), ("1", str(LIMITS["most_weight"])))
    hold("a weight of 0", runs(*sequences(b"0 a\n", "--weighted"))[0], 3)
    hold("129 signs of repetition", runs(*expression("(a)" + "*" * 129))[0], 4)
    hold("128 signs of repetition", runs(*expression("(a)" + "*" * 128))[0], 0)
    hold("128 brackets", runs(*expression("[" * 127 + "(a)" + "]" * 127))[0], 0)
    if "max-gap" in OPTIONS:
        formula = re.search(r"has 3 \+ \(B - 1\)\(G \+ 1\) item expressions, which are also at most (\d+)",
                            " ".join(SECTIONS["LIMITS"]))
        hold("item expressions with max-gap", formula and formula.group(1), str(LIMITS["most_leaves"]))
        gap = ["--support", "1", "--max-gap"]
        hold("1,023 of them", runs([*gap, "1", "--max-length", "511", LINES])[0], 0)
        hold("1,025 of them", runs([*gap, "1", "--max-length", "512", LINES]),
             (4, b"", "desq: expression: 1025 leaves, over 1024\n"))
        hold("3,006 of them", runs([*gap, "1000", "--max-length", "4", LINES]),
             (4, b"", "desq: expression: 3006 leaves, over 1024\n"))


def check_examples():
    """Each example, typed into a shell, writes what the page shows."""
    os.makedirs(f"{WORK}/bin")
    os.symlink(DESQ, f"{WORK}/bin/desq")
    environment = dict(os.environ, PATH=f"{WORK}/bin:{os.environ['PATH']}")
    text = "\n".join(SECTIONS["EXAMPLES"])
    examples = re.findall(r"^\.Bd -literal.*?\n(.*?)\n\.Ed", text, re.M | re.S)
    hold("there are examples", len(examples) >= 4, True)
    for example in examples:
        example = example.replace("\\e", "\\")
        lines = example.split("\n")
        output_at = max(n for n, line in enumerate(lines) if line.startswith(("$ ", "    "))) + 1
        script = "\n".join(line.removeprefix("$ ") for line in lines[:output_at])
        ran = subprocess.run(["sh", "-c", script], cwd=WORK, env=environment, capture_output=True, text=True)
        hold(f"the example {script!r}", (ran.returncode, ran.stdout, ran.stderr),
             (0, "\n".join(lines[output_at:]) + "\n", ""))


check_form()
check_options()
check_uses()
check_defaults()
check_messages()
check_statuses()
check_limits()
check_examples()
print(f"{held} of {rows} rows hold")
sys.exit(0 if held == rows and rows > 0 else 1)
