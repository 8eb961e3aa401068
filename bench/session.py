#!/usr/bin/env python3
"""Plays two sessions with the proved program and with the Rust reference, and prints the steps a second of each.

    bench/session.py      (it builds both first, as ./zoribhat does)
"""
import sys

import beside

RUNS = 5


def full_log():
    """A million steps of start, write, commit and read, the log full most of the time and then reopened."""
    steps = []
    while len(steps) < 1000000:
        steps.append("open 0")
        name = 1
        for i in range(4096):
            steps += ["start", "write %d %d %d" % (name, i % 64, i), "commit %d" % name]
            name += 2
        for i in range(60000):
            steps += ["start", "read %d %d" % (name, i % 64), "read %d %d" % (name, (i * 7) % 64), "commit %d" % name]
            name += 2
    return "".join(step + "\n" for step in steps[:1000000]).encode()


def made_up():
    """A thousand sessions of the comparison, all words and refusals among them, most with a short log."""
    return b"".join(beside.output(beside.reference("generate") + ["session", str(seed)]) for seed in range(1, 1001))


beside.build()
print("%s; the best of %d runs" % (beside.machine(), RUNS))
for name, text in (("log full most of the time", full_log()), ("1,000 made-up sessions", made_up())):
    (proved, reference), (replies, others) = beside.best([beside.proved("session"), beside.reference("session")], text, RUNS)
    if replies != others:
        sys.exit("%s: the two reply differently" % name)
    steps = text.count(b"\n")
    print("%-30s %9d steps: proved %6.2f s, %7.0f a second; reference %6.2f s, %7.0f a second" % (name, steps, proved, steps / proved, reference, steps / reference))
