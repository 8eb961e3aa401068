#!/usr/bin/env python3
"""places.py [ROOT]: the places of the eight points of docs/DESIGN-PASS.md in crates/*/src, one a line behind its point, and how many.

It goes by text: what it lists is read by hand afterwards, and the page says what each is."""
import glob
import os
import re
import sys

root = sys.argv[1] if len(sys.argv) > 1 else '.'
files = sorted(glob.glob(f'{root}/crates/*/src/*.rt'))
text = {f: open(f).read() for f in files}


def at(f, i):
    return f'{os.path.relpath(f, root)}:{text[f].count(chr(10), 0, i) + 1}'


def every(pattern, flags=re.M):
    for f in files:
        for m in re.finditer(pattern, text[f], flags):
            yield f, m


def show(point, what, places):
    places = list(places)
    print(f'{point} {what}: {len(places)}')
    for p in places:
        print('   ', p)


def enums():
    for f, m in every(r'^(?:pub )?enum (\w+) \{\n(.*?)^\}', re.M | re.S):
        names = re.findall(r'^    (\w+)', m.group(2), re.M)
        if len(names) == 2 or any(n in ('Refused', 'Bad', 'Full', 'Absent', 'Nothing', 'Whole', 'End') for n in names):
            yield f'{at(f, m.start())} {m.group(1)} ({", ".join(names)})'


show('1a', 'enums of two variants, or with one for a refusal or for nothing', enums())
show('1b', 'flags in a struct', (f'{at(f, m.start())} {m.group(0).strip()}' for f, m in every(r'^    (?:pub(?:\(crate\))? )?\w+: bool,')))
show('1c', 'numbers for kinds: a const of letters, a match or a chain of tests on a code, a code given back',
     (f'{at(f, m.start())} {m.group(0).strip()}' for f, m in every(r'^(?:pub(?:\(crate\))? )?const \w+: u64 = 0x\w+;|^ *if rank == \d.*$|^fn (?:rank_of|far_by|first_broken|code_of|word_of)\([^)]*\) -> (?:u8|u32|\[u8; 2\])')))


def families():
    """Functions of one crate or of several that have one shape when names, numbers and types are put aside."""
    shapes = {}
    for f, m in every(r'^(?: {4})?(?:pub(?:\(crate\))? )?fn (\w+)(.*?)^(?: {4})?\}', re.M | re.S):
        body = re.sub(r'//.*', '', m.group(2))
        body = re.sub(r'(?:requires|ensures)[^\n]*\n', '', body)
        body = re.sub(r'\b(?!(?:if|else|while|for|in|return|match|let|mut|loop|as)\b)\w+(?:::\w+)*\b', 'x', body)
        body = re.sub(r'\s+', ' ', body)
        if body.count('x') > 3:
            shapes.setdefault(body, []).append(f'{at(f, m.start())} {m.group(1)}')
    return [' ~ '.join(v) for v in shapes.values() if len(v) > 1]


show('2', 'functions of one shape', families())
show('3', 'loops that are no for', (f'{at(f, m.start())} {m.group(0).strip()}' for f, m in every(r'^ *(?:while|loop)\b.*')))
HAND = r'at_most|at_least|later|sooner|lesser|more|less|longer|wide|short|short_of|bound_of|word_of_bound|word_of_flag|word_of|value_of|flag_of|byte_of|one_if_\w+|bit_if|below|earlier|difference|low_of|high_of|keys_of|newer|is_start|number|code_of|next|after|put_letters|letters_of|start|none|empty|no_row|fresh_row'
show('4', 'conversions, comparisons and constants as functions by hand', (f'{at(f, m.start())} {m.group(1)}' for f, m in every(r'^(?: {4})?(?:pub(?:\(crate\))? )?fn (' + HAND + r')\(')))
show('5', 'functions that ask something of their caller', (f'{at(f, m.start())} {m.group(0).strip()[:110]}' for f, m in every(r'^ *requires .*')))
show('6', 'arrays, and counts and places beside them', (f'{at(f, m.start())} {m.group(0).strip()}' for f, m in every(r'^    (?:pub(?:\(crate\))? )?(?:items|count|reads|recorded|writes|written|read|line|out|at|text|versions): (?:\[.*|usize|u32|&.*),')))
show('7', 'switches on which step to run', (f'{at(f, m.start())} {m.group(0).strip()}' for f, m in every(r'^ *Test::\w+\(\w+\) =>|^ *(?:word::)?[A-Z]{4,} => .*')))
answers = glob.glob(f'{root}/crates/*/proofs/**/Answers.antt', recursive=True)
print('8 Answers.antt:', len(answers), 'files,', sum(len(open(f).read().split('\n')) - 1 for f in answers), 'lines,',
      sum(len(re.findall(r'^pub ', open(f).read(), re.M)) for f in answers), 'answers')
