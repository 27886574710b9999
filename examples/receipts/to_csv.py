#!/usr/bin/env python3
"""An answer of desq on standard input to CSV on standard output: the support, and each name in a cell of its
own. A cell with a comma or a quote stands in double quotes, and a quote in it is doubled, as spreadsheets read
it."""
import csv
import sys

rows = csv.writer(sys.stdout, lineterminator="\n")
for line in sys.stdin:
    support, names = line.rstrip("\n").split("\t")
    rows.writerow([support, *names.split(" ")])
