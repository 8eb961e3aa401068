#!/usr/bin/env python3
"""Judges two histories at document 01's limits, and 4,096 lines of ordinary work, beside the Rust reference and beside `wc`.

    bench/judge.py      (it builds both first, as ./zoribhat does)
"""
import random
import sys

import beside

RUNS = 30
random.seed(1)


def one_reader():
    lines = []
    for i in range(1, 512):
        lines += ["s\t%d" % i, "w\t%d\t5" % i, "c\t%d" % i]
    # Bounds that nothing breaks, so that every rule is walked to its end.
    return lines + ["s\t9999", "k\t9999\t65535\t65535\t65535"] + ["r\t9999\t5\t%d" % random.randint(1, 511) for _ in range(2500)] + ["c\t9999"]


def all_open():
    lines = ["s\t%d" % i for i in range(1, 512)] + ["w\t%d\t%d" % (i, i % 64) for i in range(1, 512)]
    for i in range(1, 512):
        lines += ["r\t%d\t%d\t0" % (i, (i + j) % 64) for j in range(4)]
    return lines + ["c\t%d" % i for i in range(1, 512)]


def ordinary():
    """Four transactions at a time; each is tuned, reads the newest versions of two keys, writes two, reads one of its own, and commits."""
    lines, newest = [], [0] * 64
    for first in range(1, 513, 4):
        group = range(first, first + 4)
        keys = {i: random.sample(range(64), 4) for i in group}
        lines += ["s\t%d" % i for i in group] + ["k\t%d\t2\t1\t1" % i for i in group]
        for place in (0, 1):
            lines += ["r\t%d\t%d\t%d" % (i, keys[i][place], newest[keys[i][place]]) for i in group]
        for place in (2, 3):
            lines += ["w\t%d\t%d" % (i, keys[i][place]) for i in group]
        lines += ["r\t%d\t%d\t%d" % (i, keys[i][2], i) for i in group] + ["c\t%d" % i for i in group]
        for i in group:
            newest[keys[i][2]] = newest[keys[i][3]] = i
    return lines


HISTORIES = (("one transaction, 2,500 reads over 511 versions", one_reader()), ("511 open at once, four reads each", all_open()), ("4,096 lines of ordinary work", ordinary()), ("no lines", []))

WC = beside.tool("wc")
beside.build()
print("%s; milliseconds with the start of the process, the best of %d runs" % (beside.machine(), RUNS))
for name, lines in HISTORIES:
    text = "".join(line + "\n" for line in lines).encode()
    (proved, reference, wc), (verdicts, others, _) = beside.best([beside.proved("judge"), beside.reference("judge"), WC], text, RUNS)
    if not verdicts.split(b"\n")[-2].startswith(b"total ") or verdicts != others:
        sys.exit("%s: not judged to its end, or the two judge differently" % name)
    rates = (proved * 1000, len(lines) / proved, reference * 1000, len(lines) / reference, wc * 1000, proved / wc)
    print("%-47s proved %5.2f, %8.0f lines a second; reference %6.2f, %8.0f lines a second; wc %5.2f, ratio %.1f" % ((name,) + rates))
