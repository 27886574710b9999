#!/usr/bin/env python3
"""CSV to the files of desq: `from_csv.py baskets FILE` writes each customer's purchases, by date, as one line,
and `from_csv.py kinds FILE` each item and its kind. A name of desq has no blank, so blanks become `_`."""
import csv
import sys


def name(words):
    return "_".join(words.split())


what, path = sys.argv[1:]
with open(path, encoding="utf-8", newline="") as file:
    rows = list(csv.DictReader(file))
if what == "kinds":
    for row in rows:
        print(name(row["item"]), name(row["kind"]))
else:
    baskets = {}
    for row in sorted(rows, key=lambda row: row["date"]):
        baskets.setdefault(row["customer"], []).append(name(row["item"]))
    for customer in sorted(baskets):
        print(*baskets[customer])
