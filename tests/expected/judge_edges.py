#!/usr/bin/env python3
"""The stored histories of crates/judge_edges and what document 01, with the landed requests of document 02, says is printed of each.

    tests/expected/judge_edges.py histories   writes crates/judge_edges/stdin
    tests/expected/judge_edges.py output      writes crates/judge_edges/stdout

Each output stands beside its history, by the sentence that gives it; nothing here judges.
"""
import sys

LAST = 4294967295
ROOM = 8192


def line(*fields):
    return "\t".join(str(f) for f in fields) + "\n"


def judged(verdicts, totals):
    return "judge %d\n" % len(verdicts) + "".join("%d %s\n" % v for v in verdicts) + "total %d %d %d %d\n" % totals


def second(verdict):
    """Of two that commit, the first ok."""
    return judged([(1, "ok"), (2, verdict)], (2, 2, 0, 0))


P10 = line("s", 1) + line("s", 2) + line("w", 1, 5) + line("c", 1) + line("r", 2, 5, 1) + line("c", 2)
P10_OUT = "judge 2\n1 ok\n2 FV\ntotal 2 2 0 0\n"
EMPTY_OUT = "judge 0\ntotal 0 0 0 0\n"

# 2 starts behind a version of key 5; it reads the start version, and commits
STALE = line("s", 1) + line("w", 1, 5) + line("c", 1) + line("s", 2)
STALE_END = line("r", 2, 5, 0) + line("c", 2)
# P7 without its tune and without 1's commit
TORN = line("s", 1) + line("s", 2) + line("w", 2, 5) + line("c", 2) + line("s", 4) + line("w", 4, 6) + line("c", 4) + line("r", 1, 5, 0) + line("r", 1, 6, 4)

# the longest lines of the form, 27 bytes each, after a start of 13 bytes
START = line("s", LAST)
READ = line("r", LAST, 63, LAST)


def long_history(length):
    """Of that many bytes: one transaction that tunes and reads, and is still open at the end."""
    text = START
    while length - len(text) >= 2 * len(READ):
        text += READ
    # what is missing is from 27 to 53 bytes: a tune with numbers of the length that fits, and then another
    rest = length - len(text)
    for a in range(5):
        for b in range(5):
            for c in range(5):
                tune = line("k", LAST, 10 ** a, 10 ** b, 10 ** c)
                if len(tune) == rest:
                    return text + tune
                if len(tune) + len(READ) == rest:
                    return text + tune + READ
    raise ValueError(rest)


def lines(count):
    """One transaction that writes key 5 again and again until its commit line, the last."""
    return line("s", 1) + line("w", 1, 5) * (count - 2) + line("c", 1)


def starts(count):
    return "".join(line("s", n) for n in range(1, count + 1))


CASES = [
    # "Empty input"; and P10, "Whole output"
    (ROOM, "", EMPTY_OUT),
    (ROOM, P10, P10_OUT),
    # "the last one counts": 2 read one version behind its start, which k1 = 1 forbids and k1 = 2 allows
    (ROOM, STALE + line("k", 2, 2, 0, 0) + line("k", 2, 1, 0, 0) + STALE_END, second("BV")),
    (ROOM, STALE + line("k", 2, 1, 0, 0) + line("k", 2, 2, 0, 0) + STALE_END, second("ok")),
    # "until its commit": also where it stands behind the read
    (ROOM, STALE + line("k", 2, 1, 0, 0) + line("r", 2, 5, 0) + line("k", 2, 2, 0, 0) + line("c", 2), second("ok")),
    # the same of k2 in P10, where 2 read one version past its start
    (ROOM, P10.replace("r", line("k", 2, 1, 1, 0) + line("k", 2, 1, 0, 0) + "r"), P10_OUT),
    (ROOM, P10.replace("r", line("k", 2, 1, 0, 0) + line("k", 2, 1, 1, 0) + "r"), second("ok")),
    # the same of k3 in P7 as a history: one version of key 5 lies between the two versions that 1 read
    (ROOM, TORN + line("k", 1, 1, 1, 1) + line("k", 1, 1, 1, 0) + line("c", 1), judged([(2, "ok"), (4, "ok"), (1, "SV")], (3, 3, 0, 0))),
    (ROOM, TORN + line("k", 1, 1, 1, 0) + line("k", 1, 1, 1, 1) + line("c", 1), judged([(2, "ok"), (4, "ok"), (1, "ok")], (3, 3, 0, 0))),
    # M-100: "the judge keeps (1, 0, 0) for a transaction without a `k` line": one version behind is too old, which the master's default (2, 0, 1) allows
    (ROOM, STALE + STALE_END, second("BV")),
    # the same where 3 has a `k` line before and behind the start of 2, and 2 has none; then each has its own, and 3's stands last
    (ROOM, line("s", 3) + line("k", 3, 2, 0, 0) + STALE + line("k", 3, 2, 0, 0) + STALE_END + line("c", 3), judged([(1, "ok"), (2, "BV"), (3, "ok")], (3, 3, 0, 0))),
    (ROOM, line("s", 3) + STALE + line("k", 2, 1, 0, 0) + line("k", 3, 2, 0, 0) + STALE_END + line("c", 3), judged([(1, "ok"), (2, "BV"), (3, "ok")], (3, 3, 0, 0))),
    # 12: "history longer than 65,536 bytes"
    (ROOM, long_history(65536), judged([], (1, 0, 0, 1))),
    (ROOM, long_history(65537), "refused 12 0\n"),
    # 12 stands before every line's refusal, and before 17
    (0, "x" * 65537, "refused 12 0\n"),
    # 14: "line 4,097 reached"
    (ROOM, lines(4096), judged([(1, "ok")], (1, 1, 0, 0))),
    (ROOM, lines(4097), "refused 14 4097\n"),
    # at a line 14 stands before 13, 15 and 16: line 4,097 is not of the form, of a number not started, unended, a 513th `s`
    (ROOM, lines(4096) + "x\n", "refused 14 4097\n"),
    (ROOM, lines(4096) + line("c", 7), "refused 14 4097\n"),
    (ROOM, lines(4096) + "c", "refused 14 4097\n"),
    (ROOM, starts(512) + line("w", 1, 5) * 3584 + line("s", 513), "refused 14 4097\n"),
    # an earlier line's refusal stands before a later line's
    (ROOM, line("s", 1) + "x\n" + line("w", 1, 5) * 4095, "refused 13 2\n"),
    # 13: "history line not of the form, or last line unended"
    (ROOM, P10[:-1], "refused 13 6\n"),
    (ROOM, P10 + "\n", "refused 13 7\n"),
    (ROOM, P10.replace("w\t1\t5", "w\t1\t64"), "refused 13 3\n"),
    (ROOM, P10.replace("w\t1\t5", "w\t1\t05"), "refused 13 3\n"),
    (ROOM, line("s", 1) + line("k", 1, 0, 0, 0), "refused 13 2\n"),
    (ROOM, line("s", 1) + line("k", 1, 1, 0, 65536), "refused 13 2\n"),
    (ROOM, line("s", 0), "refused 13 1\n"),
    (ROOM, line("s", LAST + 1), "refused 13 1\n"),
    # 13 stands before 15: not of the form, and of a number not started
    (ROOM, line("w", 1, 64), "refused 13 1\n"),
    # 15: "`s` of a number used before; another record of one not started or already ended"
    (ROOM, line("s", 1) + line("s", 1), "refused 15 2\n"),
    (ROOM, line("s", 1) + line("c", 1) + line("s", 1), "refused 15 3\n"),
    (ROOM, line("s", 1) + line("a", 1) + line("s", 1), "refused 15 3\n"),
    (ROOM, line("r", 1, 5, 0), "refused 15 1\n"),
    (ROOM, line("s", 1) + line("w", 2, 5), "refused 15 2\n"),
    (ROOM, line("s", 1) + line("c", 1) + line("k", 1, 1, 0, 0), "refused 15 3\n"),
    (ROOM, line("s", 1) + line("a", 1) + line("c", 1), "refused 15 3\n"),
    (ROOM, line("s", 1) + line("c", 1) + line("a", 1), "refused 15 3\n"),
    # 16: "513th `s`"
    (ROOM, starts(512), judged([], (512, 0, 0, 512))),
    (ROOM, starts(513), "refused 16 513\n"),
    # 13 stands before 16, and so does 15: the 513th `s` is not of the form, or has a number used before
    (ROOM, starts(512) + line("s", 0), "refused 13 513\n"),
    (ROOM, starts(512) + line("s", 7), "refused 15 513\n"),
    # 17: "the whole output or message is longer than the lent room"; a line's refusal stands before it
    (len(P10_OUT), P10, P10_OUT),
    (len(P10_OUT) - 1, P10, "refused 17 0\n"),
    (len(EMPTY_OUT), "", EMPTY_OUT),
    (len(EMPTY_OUT) - 1, "", "refused 17 0\n"),
    (0, P10[:-1], "refused 13 6\n"),
    (0, starts(513), "refused 16 513\n"),
]


def head(room, length):
    return ("%d %d" % (room, length)).ljust(15) + "\n"


if sys.argv[1:] == ["histories"]:
    sys.stdout.write("".join(head(room, len(text)) + text for room, text, _ in CASES))
elif sys.argv[1:] == ["output"]:
    sys.stdout.write("".join(out for _, _, out in CASES))
else:
    sys.exit(__doc__)
