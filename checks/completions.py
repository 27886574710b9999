#!/usr/bin/env python3
"""The completions of bash, zsh and fish offer the options, engines and files, each where it may come.

Each shell is asked itself. The options are those of the sources of `command_line`, the engines those of its
words.
"""
import os
import re
import subprocess
import sys

TOP = os.getcwd()
WORK = os.environ["WORK"]

# Prints what zsh offers at the end of a line that is typed into a shell of its own.
ZSH = r"""
zmodload zsh/zpty
zpty shell zsh -f -i
zpty -w shell 'PS1= PS2= RPS1='
zpty -w shell "fpath=(${(q)1} \$fpath)"
zpty -w shell 'autoload -Uz compinit; compinit -u -D'
zpty -w shell 'setopt no_beep; zstyle ":completion:*" list-grouped false'
zpty -w shell 'compadd() {
    if [[ ${@[1,(i)(-|--)]} == *-(O|A|D)\ * ]]; then builtin compadd "$@"; return $?; fi
    local -a hits
    builtin compadd -A hits "$@"
    local hit
    for hit in $hits; do print -r -- "<<$hit>>"; done
}'
zpty -w shell 'told() { print -r -- "<<<end>>>"; exit }; comppostfuncs=(told)'
zpty -w shell 'bindkey "^I" complete-word; print "<<<""ready>>>"'
while zpty -r shell line; do [[ $line == *'<<<ready>>>'* ]] && break; done
zpty -w -n shell "$2"$'\t'
while zpty -r shell line; do
    [[ $line == *'<<<end>>>'* ]] && break
    [[ $line == *'<<'*'>>'* ]] && print -r -- ${${line##*<<}%%>>*}
done
zpty -d shell
"""

# Prints what bash offers where the cursor stands in the last of the words.
BASH = r"""
source "$1"
shift
[[ $(complete -p desq) == "complete -F _desq desq" ]] || exit 1
COMP_WORDS=("$@")
COMP_CWORD=$(($# - 1))
_desq
[[ ${#COMPREPLY[@]} == 0 ]] || printf '%s\n' "${COMPREPLY[@]}"
"""


def told(words):
    """The lines that a shell prints, or None where it fails."""
    environment = dict(os.environ, HOME=WORK, XDG_CONFIG_HOME=f"{WORK}/config", TERM="dumb", LC_ALL="C.UTF-8")
    ran = subprocess.run(words, cwd=f"{WORK}/data", env=environment, capture_output=True, text=True,
                         timeout=120,
                         stdin=subprocess.DEVNULL)
    return ran.stdout.split("\n")[:-1] if ran.returncode == 0 else [f"status {ran.returncode}: {ran.stderr}"]


def in_bash(line):
    # Bash cuts the words of a line at equals signs too.
    words = [part for word in line.split(" ") for part in re.split("(=)", word) if part or part == word]
    return set(told(["bash", "--norc", "-c", BASH, "bash", f"{TOP}/completions/desq.bash", *words]))


def in_zsh(line):
    return {word.replace("\\ ",
                         " ") for word in told(["zsh", "-f", "-c", ZSH, "zsh", f"{TOP}/completions", line])}


def in_fish(line):
    script = f"source {TOP}/completions/desq.fish; complete -C$argv[1]"
    lines = told(["fish", "--no-config", "-c", script, line])
    # A hint stands behind a tab; a value behind an equals sign comes with its option; a folder has a slash.
    return {re.sub("^--[a-z-]+=", "", offered.split("\t")[0]).rstrip("/") for offered in lines}


def main():
    options, flags, valued = [], set(), set()
    source = open("crates/command_line/src/options.rt").read()
    table = source.partition("static ARGUMENTS")[2].partition("];")[0]
    for kind, name in re.findall(r'Argument::(\w+)\("([\w-]+)"\)', table):
        if kind in ("Value", "NeededValue", "Flag"):
            options.append(f"--{name}")
            (flags if kind == "Flag" else valued).add(f"--{name}")
    engines = set(re.findall(r'^engine_name \w+ = codes "(\w+)"',
                             open("crates/command_line/specs/Words.antt").read(), re.M))
    files = {"alpha.seq", "beta.hier", "with blank", "folder"}
    os.makedirs(f"{WORK}/data/folder")
    for name in files - {"folder"}:
        open(f"{WORK}/data/{name}", "w").close()

    table = [
        ("desq --", set(options)),
        ("desq --engine ", engines),
        ("desq --engine=", engines),
        ("desq --engine=p", {"pivot"}),
        ("desq --stats --engine c", {"count", "cand"}),
        ("desq --stats --engine co", {"count"}),
        ("desq --hierarchy al", {"alpha.seq"}),
        ("desq --hierarchy=be", {"beta.hier"}),
        ("desq ", set()),
        ("desq --support 2 x ", files),
        ("desq --support=2 x al", {"alpha.seq"}),
        ("desq x --support 2 be", {"beta.hier"}),
        ("desq --support 2 x alpha.seq be", set()),
        ("desq -- x be", {"beta.hier"}),
        ("desq --support ", set()),
        ("desq --workers ", set()),
        ("desq --simulate ", set()),
    ]
    if "--max-gap" in valued:
        table += [("desq --max-gap 1 ", files), ("desq --max-gap=1 al", {"alpha.seq"}),
                  ("desq --max-gap 1 alpha.seq be", set())]
    if "--generated" in valued:
        table += [("desq --generated 1 ", set()), ("desq --generated 1 x be", set())]
    if "--merge" in flags:
        table += [("desq --support 2 --merge ", files), ("desq --merge --support=2 alpha.seq be", {"beta.hier"}),
                  ("desq alpha.seq with --merge be", {"beta.hier"})]
    if "--check" in valued:
        table += [("desq --check al", {"alpha.seq"}), ("desq --check=be", {"beta.hier"}),
                  ("desq --check=alpha.seq --support 2 x be", {"beta.hier"}), ("desq --proof x be", {"beta.hier"})]
    # An option is offered by its beginning, and no second time.
    for option in options:
        table.append((f"desq {option}", {other for other in options if other.startswith(option)}))
        given = option if option in flags else f"{option} 1"
        table.append((f"desq {given} --", set(options) - {option}))

    held = rows = 0
    for name, ask in (("bash", in_bash), ("zsh", in_zsh), ("fish", in_fish)):
        for line, want in table:
            rows += 1
            offered = ask(line)
            if offered == want:
                held += 1
            else:
                print(f"FAILED: {name} offers at '{line}' {sorted(offered)}, wanted {sorted(want)}")
    print(f"{held} of {rows} rows hold")
    return 0 if held == rows and rows > 0 else 1


sys.exit(main())
