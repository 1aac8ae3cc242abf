#!/usr/bin/env python3
"""Put the tables of several processes together.

    summary.py TABLE.. > SUMMARY

The TABLEs are what the program bench prints, each in a process of its own. Every number of SUMMARY is
the median of the processes; `low` and `high` are the lowest and the highest of their ratios.
"""

import csv
import statistics
import sys

MEDIANS = ["rust ns/B", "ours ns/B", "ratio", "pass low", "pass high", "text low", "text high"]


def read(path):
    with open(path, encoding="utf-8") as file:
        return list(csv.DictReader(file, delimiter="\t"))


def summary(rows):
    """Of the rows of one call and group, one of each process."""
    whole = dict(rows[0])
    for name in MEDIANS:
        whole[name] = f"{statistics.median(float(row[name]) for row in rows):.3f}"
    ratios = [float(row["ratio"]) for row in rows]
    whole["low"], whole["high"] = f"{min(ratios):.3f}", f"{max(ratios):.3f}"
    return whole


def main():
    names = ["call", "group", "bytes", "n", *MEDIANS[:3], "low", "high", *MEDIANS[3:]]
    out = csv.DictWriter(sys.stdout, names, delimiter="\t", lineterminator="\n")
    out.writeheader()
    tables = [read(path) for path in sys.argv[1:]]
    out.writerows(summary(rows) for rows in zip(*tables, strict=True))


main()
