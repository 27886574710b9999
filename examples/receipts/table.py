"""Reads an answer of desq of patterns of two names with pandas, and writes a table: the first name down, the
second across, and the support in each cell."""
import csv
import sys

import pandas

answer = pandas.read_csv(sys.stdin, sep="\t", names=["support", "pattern"], quoting=csv.QUOTE_NONE)
answer[["bought", "then"]] = answer["pattern"].str.split(" ", expand=True)
table = answer.pivot(index="bought", columns="then", values="support").fillna(0).astype(int)
print(table.rename_axis(index=None, columns=None).to_string())
