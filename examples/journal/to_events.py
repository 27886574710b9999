#!/usr/bin/env python3
"""The journal's export format on standard input to the files of desq. `to_events.py lines` writes the events of
each boot as one line, and `to_events.py kinds` each event and its kinds.

An event is a unit that started, stopped or failed, as `nginx.service/failed`, or a program that warned or met an
error, as `kernel/error`; its kinds are what happened, and the unit or program. Other entries are left out."""
import sys

UNIT_EVENTS = {
    "39f53479d3a045ac8e11786248231fbf": "started",
    "9d1aaa27d60140bd96365438aad20286": "stopped",
    "d9b373ed55a64feb8242e02dbe79a49c": "failed",
}


def entries(file):
    """Entries end with an empty line. A field is `NAME=value`; where the value has control bytes, it is a line
    with the name alone, then the value's length, eight bytes from the lowest up, the value, and a line's end."""
    entry = {}
    while line := file.readline():
        key, is_text, value = line.rstrip(b"\n").partition(b"=")
        if line == b"\n":
            yield entry
            entry = {}
        elif is_text:
            entry[key.decode()] = value.decode("utf-8", "replace")
        else:
            value = file.read(int.from_bytes(file.read(8), "little"))
            file.read(1)
            entry[key.decode()] = value.decode("utf-8", "replace")
    if entry:
        yield entry


def event(entry):
    what = UNIT_EVENTS.get(entry.get("MESSAGE_ID"))
    if what and "UNIT" in entry:
        who = entry["UNIT"]
    elif (priority := int(entry.get("PRIORITY", 6))) <= 4 and "SYSLOG_IDENTIFIER" in entry:
        who, what = entry["SYSLOG_IDENTIFIER"], "warning" if priority == 4 else "error"
    else:
        return None
    return "_".join(who.split()), what


boots, kinds = {}, {}
for entry in entries(sys.stdin.buffer):
    if found := event(entry):
        who, what = found
        boots.setdefault(entry["_BOOT_ID"], []).append(f"{who}/{what}")
        kinds[f"{who}/{what}"] = (what, who)
if sys.argv[1:] == ["kinds"]:
    for name in sorted(kinds):
        print(name, *kinds[name])
else:
    for names in boots.values():
        print(*names)
