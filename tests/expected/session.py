#!/usr/bin/env python3
"""The stored session of crates/session and its expected replies, from document 01, the landed requests of document 02 and docs/SESSION.md alone.

    tests/expected/session.py steps     writes the steps (crates/session/stdin)
    tests/expected/session.py replies   reads steps on standard input and writes the replies that document 01 gives them

It shares nothing with the proved code: versions are kept as a list of commits, and each rule is the sentence of the document.
"""
import re
import sys

LAST = 4294967295
# M-100: "The default becomes (2, 0, 1)."
DEFAULT = (2, 0, 1)
NUM = r"(0|[1-9][0-9]*)"


class Master:
    def __init__(self, clock):
        self.clock, self.log, self.open = clock, [], {}

    # log entries are (key, ordinal, stamp, value) in log order
    def versions(self, key):
        return [(0, 0, 0)] + [(o, s, v) for (k, o, s, v) in self.log if k == key]

    def upto(self, key, t):
        return sum(1 for (k, o, s, v) in self.log if k == key and s <= t)

    def distance(self, start, read):
        key, ordinal, stamp = read
        return self.upto(key, start) - self.upto(key, stamp)

    def broken(self, name):
        t = self.open[name]
        k1, k2, k3 = t["bounds"]
        for i, r in enumerate(t["reads"]):
            if not self.distance(name, r) < k1:
                return "aborted BV %d" % i
        for i, r in enumerate(t["reads"]):
            if not -self.distance(name, r) <= k2:
                return "aborted FV %d" % i
        for i, (x, _, cj) in enumerate(t["reads"]):
            for j, (_, _, cl) in enumerate(t["reads"]):
                if sum(1 for (k, o, s, v) in self.log if k == x and cj < s < cl) > k3:
                    return "aborted SV %d %d" % (i, j)
        for i, key in enumerate(t["writes"]):
            if any(k == key and s > name for (k, o, s, v) in self.log):
                return "aborted WC %d" % i
        return None


class Session:
    def __init__(self):
        self.m = Master(0)
        self.copy = [(0, 0, 0)] * 64

    def play(self, line):
        if len(line) > 400:
            return "unknown"
        text = line.decode("latin-1")
        words = text.split(" ")
        name, args = words[0], words[1:]
        if name == "take" and len(words) > 1:
            return self.take(text[5:] + "\n")
        shape = {"open": "N", "start": "", "read": "NN", "note": "NNN", "write": "NNV", "tune": "NKKK", "distance": "NN", "abort": "N",
                 "commit": "N", "message": "NN", "newest": "N", "copy": "", "look": "N", "compare": ""}.get(name)
        if shape is None or len(args) != len(shape):
            return "unknown"
        numbers = []
        for kind, arg in zip(shape, args):
            if not re.fullmatch(NUM if kind != "V" else "(0|-?[1-9][0-9]*)", arg):
                return "unknown"
            n = int(arg)
            low, high = {"N": (0, LAST), "K": (0, 65535), "V": (-2147483648, 2147483647)}[kind]
            if not low <= n <= high:
                return "unknown"
            numbers.append(n)
        return getattr(self, "do_" + name)(*numbers)

    def refuse(self, n):
        return "refused %d" % n

    def do_open(self, n):
        self.m = Master(n)
        return "open %d" % n

    def do_start(self):
        m = self.m
        if len(m.open) == 32:
            return self.refuse(3)
        if m.clock == LAST:
            return self.refuse(5)
        m.clock += 1
        m.open[m.clock] = {"bounds": DEFAULT, "reads": [], "writes": {}}
        return "start %d" % m.clock

    # "Read, write: 1, 2, ..", "Note: 1, 2, .."
    def barred(self, t, key):
        if t not in self.m.open:
            return self.refuse(1)
        if key > 63:
            return self.refuse(2)
        return None

    def do_read(self, t, key):
        m, barred = self.m, self.barred(t, key)
        if barred:
            return barred
        if key in m.open[t]["writes"]:
            return "own %d" % m.open[t]["writes"][key]
        if len(m.open[t]["reads"]) == 16:
            return self.refuse(4)
        o, s, v = m.versions(key)[-1]
        m.open[t]["reads"].append((key, o, s))
        return "read %d %d %d" % (o, s, v)

    def do_note(self, t, key, ordinal):
        m, barred = self.m, self.barred(t, key)
        if barred:
            return barred
        if key in m.open[t]["writes"]:
            return self.refuse(8)
        if ordinal >= len(m.versions(key)):
            return self.refuse(7)
        if len(m.open[t]["reads"]) == 16:
            return self.refuse(4)
        o, s, v = m.versions(key)[ordinal]
        m.open[t]["reads"].append((key, o, s))
        return "note %d %d %d" % (o, s, v)

    def do_write(self, t, key, value):
        m, barred = self.m, self.barred(t, key)
        if barred:
            return barred
        if key not in m.open[t]["writes"] and len(m.open[t]["writes"]) == 16:
            return self.refuse(4)
        m.open[t]["writes"][key] = value
        return "write"

    def do_tune(self, t, k1, k2, k3):
        if t not in self.m.open:
            return self.refuse(1)
        if k1 == 0:
            return self.refuse(9)
        self.m.open[t]["bounds"] = (k1, k2, k3)
        return "tune"

    def do_distance(self, t, place):
        m = self.m
        if t not in m.open:
            return self.refuse(1)
        if place >= len(m.open[t]["reads"]):
            return self.refuse(9)
        return "distance %d" % m.distance(t, m.open[t]["reads"][place])

    def do_abort(self, t):
        if t not in self.m.open:
            return self.refuse(1)
        del self.m.open[t]
        return "abort"

    def do_commit(self, t):
        m = self.m
        if t not in m.open:
            return self.refuse(1)
        broken = m.broken(t)
        if broken:
            del m.open[t]
            return broken
        writes = m.open[t]["writes"]
        if len(m.log) + len(writes) > 4096:
            return self.refuse(6)
        if m.clock == LAST:
            return self.refuse(5)
        m.clock += 1
        for key, value in writes.items():
            m.log.append((key, len(m.versions(key)), m.clock, value))
        del m.open[t]
        return "commit %d" % m.clock

    def do_message(self, stamp, room):
        made = [(k, o, v) for (k, o, s, v) in self.m.log if s == stamp]
        if not made:
            return self.refuse(18)
        line = "\t".join(["p", str(stamp)] + [str(x) for m in made for x in m])
        if len(line) + 1 > room:
            return self.refuse(17)
        return line

    def do_newest(self, key):
        if key > 63:
            return self.refuse(2)
        return "newest %d" % self.m.versions(key)[-1][1]

    def do_copy(self):
        self.copy = [(0, 0, 0)] * 64
        return "copy"

    def do_look(self, key):
        if key > 63:
            return self.refuse(2)
        return "look %d %d %d" % self.copy[key]

    def do_compare(self):
        newest = [self.m.versions(k)[-1][0] for k in range(64)]
        held = [c[0] for c in self.copy]
        if any(h > n for h, n in zip(held, newest)):
            return self.refuse(11)
        behind = [k for k in range(64) if held[k] < newest[k]]
        return "compare %d %d %d" % (sum(1 << k for k in behind), len(behind), behind[0] if behind else 64)

    def take(self, line):
        fields = line[:-1].split("\t")
        if "\n" in line[:-1] or fields[0] != "p" or len(fields) < 5 or (len(fields) - 2) % 3 or len(fields) > 50:
            return self.refuse(10)
        if not re.fullmatch(NUM, fields[1]) or not 1 <= int(fields[1]) <= LAST:
            return self.refuse(10)
        items = []
        for i in range(2, len(fields), 3):
            k, o, v = fields[i:i + 3]
            if not (re.fullmatch(NUM, k) and re.fullmatch(NUM, o) and re.fullmatch("(0|-?[1-9][0-9]*)", v)):
                return self.refuse(10)
            if int(k) > 63 or not 1 <= int(o) <= 4096 or not -2147483648 <= int(v) <= 2147483647:
                return self.refuse(10)
            items.append((int(k), int(o), int(v)))
        if len({k for k, _, _ in items}) != len(items):
            return self.refuse(10)
        for k, o, v in items:
            if o > self.copy[k][0]:
                self.copy[k] = (o, int(fields[1]), v)
        return "take"


def steps():
    out = []
    say = out.append

    def commit(t, *writes):
        for key, value in writes:
            say("write %d %d %d" % (t, key, value))
        say("commit %d" % t)

    # P1, P2
    for tune in ([], ["tune 2 1 1 0"]):
        out.extend(["open 0", "start", "start", "write 1 5 -2048", "commit 1"] + tune + ["read 2 5", "distance 2 0", "commit 2"])
    # P3, which by M-100 commits; its answer of document 01, with (1, 0, 0) tuned; P4
    for tune in ([], ["tune 3 1 0 0"], ["tune 3 2 0 0"]):
        out.extend(["open 0", "start", "write 1 5 7", "commit 1", "start"] + tune + ["note 3 5 0", "distance 3 0", "commit 3"])
    # P5, P6
    out.extend(["open 0", "start", "start", "write 1 5 7", "write 2 5 8", "commit 1", "commit 2"])
    out.extend(["open 0", "start", "write 1 5 7", "commit 1", "start", "write 3 5 8", "commit 3"])
    # P7, P8
    for k3 in (0, 1):
        out.extend(["open 0", "start", "start", "write 2 5 7", "commit 2", "start", "write 4 6 8", "commit 4", "tune 1 1 1 %d" % k3, "note 1 5 0", "note 1 6 1", "commit 1"])
    # P9
    out.extend(["open 0", "start", "start", "write 2 5 7", "write 2 6 8", "commit 2", "tune 1 1 1 0", "note 1 5 0", "note 1 6 1", "commit 1"])
    # 200 versions behind is 200
    say("open 0")
    for i in range(200):
        say("start")
        commit(2 * i + 1, (5, i))
    out.extend(["start", "note 401 5 0", "distance 401 0", "tune 401 200 0 0", "commit 401", "start", "note 402 5 0", "distance 402 0", "tune 402 201 0 0", "commit 402"])
    # the 32nd open start is taken, the 33rd gets 3; a place freed is used again
    say("open 0")
    out.extend(["start"] * 33)
    out.extend(["abort 7", "start", "start", "abort 7", "commit 33"])
    # the desk's last place, every call that names a transaction: 31 others are open all the time, so each start below takes the 32nd place
    say("open 0")
    out.extend(["start"] * 31)
    # own read, the second write of a key, a granted commit that writes
    out.extend(["start", "start", "tune 32 1 0 0", "write 32 5 7", "read 32 5", "note 32 5 0", "write 32 5 8", "read 32 5", "commit 32", "read 32 5"])
    # one version recorded four times stands at four places, and the start version at a fifth; a granted commit by the bounds that were tuned
    out.extend(["start", "read 34 5", "read 34 5", "note 34 5 1", "note 34 5 1", "note 34 5 0", "note 34 5 2", "tune 34 2 0 0", "tune 34 0 0 0", "write 34 6 -1", "read 34 64", "write 34 64 1"])
    out.extend(["distance 34 %d" % i for i in range(6)] + ["commit 34", "distance 34 0"])
    # one version fills all 16 places, and the 17th read of it gets 4; an abort, and the place is free
    out.extend(["start"] + ["read 36 5"] * 17 + ["note 36 5 1", "distance 36 15", "abort 36", "abort 36"])
    # aborted by BV under calibration's (1, 0, 0), the place free again; then by FV and WC, the other that commits meanwhile being followed by one more at its own place
    out.extend(["start", "tune 37 1 0 0", "note 37 5 1", "note 37 5 0", "distance 37 1", "commit 37", "commit 37"])
    out.extend(["start", "start", "write 1 9 1", "commit 1", "start", "start", "read 38 9", "distance 38 0", "commit 38"])
    out.extend(["start", "write 2 7 1", "commit 2", "start", "tune 41 1 0 65535", "write 41 20 1", "write 41 7 2", "commit 41", "start", "start"])
    # M-100's default, each number by the read or the pair that it just lets through and the one that it does not: key 5 has versions 1 and 2 before
    # the start and 3 behind it, key 6 one before it that is later than key 5's second. One behind commits; so does one behind torn from key 6, which
    # (2, 0, 0) aborts; two behind is aborted by BV, one past the start by FV; and a tuning that is refused leaves the default
    history = ["open 0", "start", "write 1 5 1", "commit 1", "start", "write 3 5 2", "commit 3", "start", "write 5 6 3", "commit 5", "start", "start", "write 8 5 4", "commit 8"]
    for notes in (["note 7 5 1"], ["note 7 5 1", "note 7 6 1"], ["note 7 6 1", "tune 7 2 0 0", "note 7 5 1"], ["note 7 6 1", "note 7 5 0"], ["note 7 6 1", "note 7 5 3"], ["tune 7 0 9 9", "note 7 5 1"]):
        out.extend(history + notes + ["distance 7 0", "distance 7 1", "commit 7"])
    # a start at the last clock but one gets the last stamp, the next gets 5; so does a commit, and its transaction stays open
    out.extend(["open 4294967294", "start", "start", "write 4294967295 5 1", "commit 4294967295", "read 4294967295 5", "abort 4294967295", "commit 4294967295"])
    out.extend(["open 4294967295", "start", "open 4294967293", "start", "write 4294967294 5 1", "commit 4294967294", "newest 5"])
    # 3 before 5: 32 open, and the last stamp taken
    out.append("open 4294967263")
    out.extend(["start"] * 33)
    out.extend(["abort 4294967264", "start"])
    # an abort before 5: the clock stands at the last stamp
    out.extend(["open 4294967292", "start", "start", "write 4294967293 5 1", "commit 4294967293", "read 4294967294 5", "commit 4294967294"])
    # the aborts in their order, each at its lowest place: 5 has read key 5 two versions behind, and keys 6, 7 and 8 of later commits, and
    # writes keys that later commits wrote; each tuning lets one rule more hold
    for tune, overwrites in (("1 0 0", 1), ("2 0 0", 1), ("3 0 0", 1), ("3 1 1", 1), ("3 1 2", 1), ("3 1 2", 0)):
        out.extend(["open 0", "start", "write 1 5 1", "commit 1", "start", "write 3 5 2", "commit 3", "start", "start"])
        out.extend(["write 6 6 3", "write 6 7 4", "commit 6", "start", "write 8 5 5", "write 8 8 6", "commit 8", "tune 5 " + tune])
        out.extend(["read 5 6", "note 5 5 0", "note 5 5 1", "read 5 7", "read 5 8", "note 5 5 2"] + ["distance 5 %d" % i for i in range(6)])
        out.extend((["write 5 20 1", "write 5 8 1", "write 5 6 1"] if overwrites else ["write 5 20 1"]) + ["commit 5"])
    # 1, 2, 9: in the order of checks
    out.extend(["open 0", "read 1 64", "note 1 64 9", "write 1 64 1", "tune 1 0 0 0", "distance 1 0", "abort 1", "commit 1", "start", "read 1 64", "note 1 64 9", "write 1 64 1", "tune 1 0 0 0", "distance 1 0", "newest 64", "look 64"])
    # 2 before 8, 8 before 7 and 4, 7 before 4; the own pending value is no record
    out.extend(["write 1 5 3", "note 1 5 9", "read 1 5", "write 1 5 -4", "read 1 5"])
    out.extend(["read 1 %d" % k for k in range(6, 22)])
    out.extend(["note 1 64 9", "note 1 5 0", "note 1 30 9", "note 1 30 0", "read 1 30", "read 1 5", "read 1 64"])
    # the 17th key; a second write of a key takes no place
    out.extend(["write 1 %d 1" % k for k in range(40, 55)])
    out.extend(["write 1 60 1", "write 1 5 6", "write 1 64 1", "commit 1", "commit 1", "newest 5", "newest 54", "newest 63"])
    # messages, 18 and 17, and one byte more of room; 18 also where there is no room at all
    out.extend(["message 1 512", "message 1 0", "message 2 10", "message 2 145", "message 2 146", "message 3 512"])
    # a full log: 4,096 versions
    def fill(clock):
        say("open %d" % clock)
        for i in range(256):
            say("start")
            commit(clock + 2 * i + 1, *[(k, i) for k in range(16)])

    # 6 before 5: the log is full when the last stamp is taken; 5 where nothing is written
    fill(LAST - 514)
    out.extend(["start", "start", "write %d 20 1" % LAST, "commit %d" % LAST, "commit %d" % (LAST - 1), "abort %d" % LAST])
    # the abort before 6
    fill(0)
    out.extend(["start", "write 513 20 1", "read 513 3", "commit 513", "start", "note 514 3 0", "write 514 20 1", "commit 514", "start", "commit 515"])
    out.extend(["tune 513 1 0 65535", "commit 513", "abort 513", "message 512 333", "message 512 1"])
    # lost, repeated and reordered messages: the copy holds the newest taken, and ends equal
    out.extend(["open 0", "copy", "compare"])
    for t, writes in ((1, [(5, -1), (63, 10)]), (3, [(5, 2)]), (5, [(0, 4), (5, -2147483648)]), (7, [(63, 2147483647)])):
        say("start")
        commit(t, *writes)
    out.extend(["message 2 400", "message 4 400", "message 6 400", "message 8 400", "compare"])
    m2, m4, m6, m8 = "p\t2\t5\t1\t-1\t63\t1\t10", "p\t4\t5\t2\t2", "p\t6\t0\t1\t4\t5\t3\t-2147483648", "p\t8\t63\t2\t2147483647"
    out.extend(["take " + m6, "look 5", "take " + m2, "look 5", "look 63", "take " + m6, "compare", "take " + m2, "take " + m4, "look 5", "compare", "newest 63"])
    out.extend(["take " + m8, "compare", "look 63", "look 0", "look 1"])
    # a line that is no message changes nothing
    for bad in ("p\t9", "p\t9\t5\t4", "p\t09\t5\t4\t1", "p\t9\t5\t4\t01", "p\t9\t5\t4\t-0", "p\t9\t64\t4\t1", "p\t9\t5\t0\t1", "p\t9\t5\t4097\t1", "p\t0\t5\t4\t1", "p\t9\t5\t4\t1\t5\t5\t1", "p\t9\t5\t4\t2147483648", "q\t9\t5\t4\t1", "p 9 5 4 1", "p\t9\t5\t4\t1\t", ""):
        say("take " + bad)
    out.extend(["look 5", "compare"])
    # a copy ahead of a newly opened master
    out.extend(["open 0", "compare", "copy", "compare"])
    # what is no step
    out.extend(["", " ", "start ", " start", "starts", "read 1", "read 1 5 6", "read  1 5", "read 01 5", "read +1 5", "read 4294967296 5", "write 1 5 2147483648", "write 1 5 -0", "tune 1 65536 0 0", "tune 1 1 0", "take", "compare 1", "COPY", "x" * 400, "x" * 401, "start"])
    return "".join(line + "\n" for line in out) + "start"


if sys.argv[1:] == ["steps"]:
    sys.stdout.write(steps())
elif sys.argv[1:] == ["replies"]:
    session = Session()
    for line in sys.stdin.buffer.read().split(b"\n")[:-1]:
        sys.stdout.write(session.play(line) + "\n")
else:
    sys.exit(__doc__)
