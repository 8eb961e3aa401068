#!/usr/bin/env python3
"""Looks up each name and each path in backquotes of docs/STATEMENTS.md in the crates, and prints those that stand nowhere; and each wrong
answer that is kept as a file, and prints those that docs/STATEMENTS.md does not name.

    tests/statements.py
"""
import glob
import os
import re
import sys

top = os.path.dirname(os.path.dirname(os.path.abspath(__file__)))
os.chdir(top)

names = set()
for path in glob.glob("crates/*/*/**/*.antt", recursive=True):
    for word in re.findall(r"^\s*(?:(?:unfoldable|abbrev|pub|data|record)\s+)*(\S+)\s*(?::|\(|\{)", open(path).read(), re.M):
        names.add(word.strip("«»"))
for path in glob.glob("crates/*/src/*.rt"):
    text = open(path).read()
    names.update(re.findall(r"\b(?:fn|struct|enum|const|mod)\s+(\w+)", text))
    names.update(re.findall(r"^\s+([A-Z]\w*)\b", text, re.M))
edits = sorted(glob.glob("crates/*/must-fail/*.edit") + glob.glob("tests/wrong/*/*.edit"))
names.update(os.path.basename(p)[:-5] for p in edits)
names.update(os.listdir("crates"))

# words of Rattle, of what is printed, and of parameters
WORDS = ("requires", "ensures", "specs", "proofs", "refused", "judge", "total", "own", "u16", "i32", "bad-", "libc::read", "libc::write", "since", "opening")

lost = 0
for number, line in enumerate(open("docs/STATEMENTS.md"), 1):
    for quoted in re.findall(r"`([^`]+)`", line):
        if " " in quoted:
            found = True
        elif "/" in quoted or quoted.endswith((".antt", ".rt", ".py")):
            found = glob.glob(quoted) or glob.glob("crates/*/" + quoted) or glob.glob("crates/*/*/" + quoted) or quoted.endswith("NAME.edit")
        elif re.fullmatch(r"[\w·-]{3,}(::[\w-]+)*", quoted):
            found = all(part in names for part in quoted.split("::")) or quoted in WORDS
        else:
            found = True
        if not found:
            lost += 1
            print("docs/STATEMENTS.md:%d: %s" % (number, quoted))
text = open("docs/STATEMENTS.md").read()
for path in edits:
    if "`%s`" % os.path.basename(path)[:-5] not in text:
        lost += 1
        print("docs/STATEMENTS.md does not name %s" % path)
sys.exit(1 if lost else 0)
