#!/usr/bin/env python3
"""Counts the places in src/ that the design pass looks at, at a commit.

    tools/count_places.py COMMIT [POINT]

Prints each place with its point, and at the end how many there are of each.
"""
import collections
import itertools
import re
import subprocess
import sys


def git(*args):
    return subprocess.check_output(['git', *args], text=True)


commit = sys.argv[1] if len(sys.argv) > 1 else 'HEAD'
only = sys.argv[2] if len(sys.argv) > 2 else None
listed = git('ls-tree', '-r', '--name-only', commit, 'crates').split()
text = {f: git('show', f'{commit}:{f}') for f in listed}
sources = {f: t for f, t in text.items() if '/src/' in f and f.endswith('.rt')}
code = {f: '\n'.join(re.sub(r'^\s*//.*|^\s*(ghost use|ghost|requires|ensures)\b.*', '', l) for l in t.split('\n'))
        for f, t in sources.items()}
found = collections.OrderedDict((str(p), []) for p in range(1, 9))


def crate(f):
    return f.split('/')[1]


def lines(point, what, pattern, but=None):
    for f, t in code.items():
        for n, line in enumerate(t.split('\n'), 1):
            if re.search(pattern, line) and not (but and re.search(but, line)):
                found[point].append(f'{what}: {f}:{n}: {line.strip()}')


# 1: enums of two variants of which one holds a value; flags; numbers for kinds and refusals
for f, t in code.items():
    for m in re.finditer(r'enum (\w+)(?:<[^>]*>)? \{(.*?)\n\}', t, re.S):
        variants = re.findall(r'^    (\w+)(\(.*?\)| \{.*?\})?(?: = \d+)?,$', m.group(2), re.M)
        if len(variants) == 2 and any(v[1] for v in variants):
            found['1'].append(f'two variants: {f}: {m.group(1)}')
lines('1', 'flag', r'\b\w+: bool\b|\(bool\)')
lines('1', 'number', r'-> u8( |$)|fn kind\(\) -> u32|\b(number|layer): u8')
lines('1', 'number', r'\[\d+, \.\.\] =>')

# 2: bodies and structs of one shape, and constants of one name
shapes = collections.defaultdict(list)
for f, t in code.items():
    for m in re.finditer(r'^( *)(?:pub(?:\(crate\))? )?(?:const )?fn (\w+).*?^\1\{\n(.*?)^\1\}', t, re.S | re.M):
        body = m.group(3)
        shape = re.sub(r'\b\w+\b', 'x', re.sub(r'\s+', ' ', body)).strip()
        if len(shape) > 12:
            shapes['fn', shape].append(f'{f}: {m.group(2)}')
    for m in re.finditer(r'struct (\w+)(?:<[^>]*>)? \{(.*?)\n\}', t, re.S):
        names = tuple(re.findall(r'(\w+):', m.group(2)))
        shapes['struct', crate(f), len(names), names[-1:]].append(f'{f}: {m.group(1)}')
    for m in re.finditer(r'^(?:pub(?:\(crate\))? )?const (\w+):', t, re.M):
        shapes['const', m.group(1)].append(f'{f}: {m.group(1)}')
for key, places in shapes.items():
    if len(places) > 1:
        found['2'] += [f'one {key[0]} shape with {len(places) - 1} more: {p}' for p in places]

# 3: loops over a range, and loops that go on by their own test
lines('3', 'loop', r'(^|[^a-z_])(while|loop)\b|\bfor \w+ in [^{]*\.\.')

# 4: equality, order, conversion and printing in functions of the crates' own
lines('4', 'own function', r'fn (\w*compare\w*|same|\w*text|of|number|junction|image_in|images_in|decoded|coded|digit_value|byte|words|pack|unpack)[(<]')

# 5: parameters that stand together in three signatures or more; facts in three requires or more
groups, facts = collections.defaultdict(list), collections.Counter()
for f, t in sources.items():
    for m in re.finditer(r'\bfn (\w+)(?:<[^(]*>)?\(([^)]*)\)', t):
        names = sorted(set(re.findall(r'(\w+):', m.group(2))))
        for r in range(2, len(names) + 1):
            for k in itertools.combinations(names, r):
                groups[crate(f), k].append(m.group(1))
    for m in re.finditer(r'^\s*requires(?: \w+)? \{ (.*) \}$', t, re.M):
        facts.update((crate(f), part.strip('() ')) for part in m.group(1).split(' × '))
often = {k: v for k, v in groups.items() if len(v) > 2}
for (c, k), v in sorted(often.items()):
    if not any(c == d and set(k) < set(j) and set(v) == set(w) for (d, j), w in often.items()):
        found['5'].append(f'together: {c}: {" ".join(k)}: {" ".join(v)}')
found['5'] += [f'fact: {c}: {p}: {n} times' for (c, p), n in sorted(facts.items()) if n > 2]

# 6: fixed buffers, and lengths and places beside a slice
lines('6', 'array', r'\[[\w ]+; ?\w+\]', r'^\s*(const|static)|vec!')
lines('6', 'beside a slice', r'\b(lines|used|width|next|place|from|to|under): usize')

# 7: switches on which step to run
lines('7', 'switch', r'match \(?(self|call|state|storage|kind|word|bytes|at|number|k|quarters_of\(k\))\b', r'match (self)\.')

# 8: proof files and what is in them
for f, t in text.items():
    if '/proofs/' in f and f.endswith(('Answers.antt', 'Invariants.antt')):
        for name in re.findall(r'^(?:abbrev |unfoldable )*pub (\S+) : goal\.', t, re.M):
            found['8'].append(f'answer: {f}: {name}')

for point, places in found.items():
    if only in (None, point):
        for p in places:
            print(point, p)
for point, places in found.items():
    print(f'point {point}: {len(places)}')
