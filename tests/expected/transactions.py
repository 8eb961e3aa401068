#!/usr/bin/env python3
"""The stored runs of crates/transactions and what document 01 says that each gives.

    tests/expected/transactions.py runs     writes crates/transactions/stdin
    tests/expected/transactions.py output   writes crates/transactions/stdout

Transaction i starts, reads keys i and 7 i, writes -1 - i to key 5 i, and commits (keys modulo 64, i in the value modulo 65,536). One
at a time, no rule is broken: each read answers the newest version, and nothing is committed between a start and its commit.
"""
import sys

# The last two: a log that becomes full (refusal 6) and then a desk of transactions that can't commit (refusal 3); a line that is no run.
RUNS = [(0, 1), (2000, 100), (8000, 4000), (4200, 4200), (12, 0)]


def run(count, every):
    answers, granted = [], 0
    for i in range(count):
        if i % every == 0:
            clock, still_open, log = 0, 0, []
        if still_open == 32:
            answers.append(3)
            continue
        clock += 1
        answers.append(clock)
        for key in (i % 64, 7 * i % 64):
            versions = [(stamp, value) for k, stamp, value in log if k == key]
            stamp, value = versions[-1] if versions else (0, 0)
            answers += [len(versions), stamp, value % 2 ** 32]
        if len(log) == 4096:
            answers.append(6)
            still_open += 1
            continue
        clock += 1
        answers.append(clock)
        log.append((5 * i % 64, clock, -1 - i % 65536))
        granted += 1
    total = 0
    for answer in answers:
        total = total % 2 ** 32 * 31 + answer
    return "%d %d" % (granted, total)


if sys.argv[1:] == ["runs"]:
    sys.stdout.write("".join("%d\t%d\n" % r for r in RUNS))
elif sys.argv[1:] == ["output"]:
    sys.stdout.write("".join((run(*r) if r[1] else "unknown") + "\n" for r in RUNS))
else:
    sys.exit(__doc__)
