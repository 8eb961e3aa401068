#!/usr/bin/env python3
"""Plays one transaction (start, two reads, a write, commit) over and over, with the proved program and with SQLite in memory, and prints the
microseconds a transaction of each: on a log opened anew every 100 transactions, and every 4,000.

    bench/transactions.py      (it builds both first; SQLite's side wants a C compiler and Debian's libsqlite3-dev)
"""
import sys

import beside

RUNS = 25
# Two lengths of a run, so that the start of the process falls out.
FEW, MANY = 20000, 100000

SQLITE = beside.compiled("transactions", ["sqlite3"], "SQLite's sqlite3.h, which is Debian's libsqlite3-dev")
beside.prove("transactions")
PROGRAMS = [beside.proved("transactions"), SQLITE]
print("%s; microseconds a transaction, the best of %d runs of %d less the best of %d of %d" % (beside.machine(), RUNS, MANY, RUNS, FEW))
for every in (100, 4000):
    (few, _), (many, sums) = (beside.best(PROGRAMS, b"%d\t%d\n" % (count, every), RUNS) for count in (FEW, MANY))
    if sums[0] != sums[1] or not sums[0].startswith(b"%d " % MANY):
        sys.exit("opened anew every %d: not all are granted, or the two answer differently" % every)
    proved, sqlite = ((m - f) / (MANY - FEW) * 1000000 for m, f in zip(many, few))
    print("opened anew every %5d: proved %5.2f, SQLite %5.2f, ratio %.2f" % (every, proved, sqlite, proved / sqlite))
