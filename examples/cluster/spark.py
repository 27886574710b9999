#!/usr/bin/env python3
"""Mines N shares on the workers of Spark and merges them: spark-submit spark.py N FOLDER SUPPORT WORD..

The words behind the support are those of one run, but for --engine and --split. Each worker has desq, by the name that DESQ
tells, and the files at the same paths. FOLDER, on the driver, gets the output of each share, and the answer goes to standard output.
Spark runs a share again whose task was lost; one that desq refuses ends the job with its message.
"""
import os
import subprocess
import sys

from pyspark import SparkContext

DESQ = os.environ.get("DESQ", "desq")
of, folder, support, words = int(sys.argv[1]), sys.argv[2], sys.argv[3], sys.argv[4:]


def mined(index):
    ran = subprocess.run([DESQ, "--support", support, "--engine", "pivot", "--split", f"{index}/{of}", *words],
                         stdin=subprocess.DEVNULL, capture_output=True)
    if ran.returncode != 0:
        raise RuntimeError(f"share {index} of {of}: {ran.stderr.decode(errors='replace')}")
    return index, ran.stdout


os.makedirs(folder, exist_ok=True)
parts = [f"{folder}/{index}" for index in range(1, of + 1)]
for index, output in SparkContext(appName="desq").parallelize(range(1, of + 1), of).map(mined).collect():
    with open(parts[index - 1], "wb") as file:
        file.write(output)
sys.exit(subprocess.run([DESQ, "--support", support, "--merge", *parts]).returncode)
