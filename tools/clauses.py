#!/usr/bin/env python3
"""Which facts stand in the contracts of three functions or more, and which two parameters in the heads of four or more.

    tools/clauses.py [facts | pairs]      at the top of the repository

A clause is taken apart at its `×`; `.now`, `.old`, `.new`, `.entry` and `self.` are taken off, so that a fact of a value counts as one.
"""
import collections, glob, itertools, re, sys


def parts(text):
    out, depth, part = [], 0, ''
    for c in text:
        depth += (c in '({') - (c in ')}')
        if c == '×' and depth == 0:
            out.append(part)
            part = ''
        else:
            part += c
    out.append(part)
    flat = []
    for p in (o.strip() for o in out):
        flat += parts(p[1:-1]) if whole(p) else [p]
    return flat


def whole(p):
    """Whether one pair of brackets is around all of it."""
    if not (p.startswith('(') and p.endswith(')')):
        return False
    depth = 0
    for k, c in enumerate(p):
        depth += (c == '(') - (c == ')')
        if depth == 0 and k < len(p) - 1:
            return False
    return True


def facts():
    found = collections.defaultdict(set)
    for path in sorted(glob.glob('crates/*/src/*.rt')):
        function = None
        for line in open(path):
            head = re.match(r'\s*(?:pub(?:\(crate\))? )?fn (\w+)', line)
            if head:
                function = path + ':' + head.group(1)
            clause = re.match(r'\s*(requires|ensures)\s*\w*\s*\{ (.*) \}\s*$', line)
            if clause and function:
                for p in parts(clause.group(2)):
                    p = re.sub(r'\bself\.', '', re.sub(r'\b(\w+)\.(now|old|new|entry)\b', r'\1', p))
                    found[p].add(function)
    return {fact: len(at) for fact, at in found.items() if len(at) >= 3}


def pairs():
    found = collections.Counter()
    for path in glob.glob('crates/*/src/*.rt'):
        for head in re.finditer(r'fn (\w+)(?:<[^>]*>)?\(([^)]*)\)', open(path).read()):
            names = [re.sub(r'^mut ', '', p.split(':')[0].strip()) for p in head.group(2).split(',') if ':' in p]
            for pair in itertools.combinations(names, 2):
                found[pair] += 1
    return {' and '.join(pair): n for pair, n in found.items() if n >= 4}


for name, table in (('facts', facts), ('pairs', pairs)):
    if len(sys.argv) < 2 or sys.argv[1] == name:
        rows = table()
        print(len(rows), name)
        for row, n in sorted(rows.items(), key=lambda r: (-r[1], r[0])):
            print(n, row)
