#!/usr/bin/env python3
"""Counts the places of the design pass, by pattern: tools/places.py [COMMIT] [-v]. Every line found is one candidate."""
import collections
import re
import subprocess
import sys

rev = next((a for a in sys.argv[1:] if not a.startswith('-')), 'HEAD')
verbose = '-v' in sys.argv


def run(*args):
    return subprocess.run(args, capture_output=True, text=True).stdout


files = [f for f in run('git', 'ls-tree', '-r', '--name-only', rev, 'crates').split() if '/src/' in f and f.endswith('.rt')]
text = {f: run('git', 'show', f'{rev}:{f}') for f in files}


def found(pattern, flags=re.M):
    return [f'{f}:{text[f].count(chr(10), 0, m.start()) + 1}: {m.group(0).strip()}' for f in files for m in re.finditer(pattern, text[f], flags)]


def show(name, places):
    print(f'{name}: {len(places)}')
    if verbose:
        for p in places:
            print('   ', p)


show('1a numbers matched to variants', found(r'^.*=> \d+,$'))
show('1b values that stand for none', found(r'^.*(else \{ (0|0xFF) \}|_ => 0,|Ok\((\(\)|_)\) => (0|\(0, 0\)),|Err\(_\) => 0,|return Ok\(0\)).*$'))
show('1c flags beside other fields', found(r'^ +(pub )?[a-z_]+: bool,$'))
show('1d results handed on by hand', found(r'^.*\b(Ok|Err)\((\w+)\) => (return )?(Ok|Err)\(.*$'))
show('3 loops over an index or a place', found(r'^ *(while (?!let)|loop |for \w+ in \S*\.\.).*$'))
show('4a impls by hand', found(r'^impl.* (PartialEq|Eq|PartialOrd|Ord|Clone|Copy|fmt::Display|Display|Debug) for .*$'))
show('4b conversions by hand', found(r'^ *(pub )?fn (number|from_\w+|to_\w+)\(.*$'))
show('6 buffers beside a length', found(r'^ +(pub )?\w+: \[u\d+; \d+\],\n +(pub )?len: usize,$'))
show('7 steps chosen by a value, function tables', found(r'^.*(\bfn\(|dyn |== Part::|match (?:self\.)?part).*$'))

bodies = collections.defaultdict(list)
pairs = collections.defaultdict(list)
facts = collections.defaultdict(list)
for f in files:
    for m in re.finditer(r'^( *)(?:pub )?fn (\w+)(?:<[^(]*>)?\(([^)]*)\)(.*?)^\1\{\n(.*?)^\1\}$', text[f], re.M | re.S):
        name = f"{f.split('/')[1]}::{m.group(2)}"
        shape = re.sub(r'\b(0x[0-9A-Fa-f_]+|\d[\d_]*|[a-z_]\w*)\b', '_', re.sub(r'\s+', ' ', m.group(5)))
        if len(shape) > 24 and '_tests' not in f:
            bodies[shape].append(name)
        params = sorted(re.sub(r'\s+', ' ', p.strip()).lstrip('_') for p in m.group(3).split(',') if ':' in p)
        for i, a in enumerate(params):
            for b in params[i + 1:]:
                pairs[(a, b)].append(name)
        for r in re.finditer(r'^\s*requires(?: \w+)? \{ (.*) \}$', m.group(4), re.M):
            for fact in re.findall(r'\(([^()×]*)\)|^([^()×]*)$', r.group(1)):
                fact = ''.join(fact)
                if fact:
                    facts[fact].append(name)
show('2 functions of one shape', [', '.join(v) for v in bodies.values() if len(v) > 1])
show('5a facts required by three functions or more', [f'{k}: {", ".join(v)}' for k, v in facts.items() if len(v) > 2])
show('5b parameters together in three functions or more', [f'{a}, {b}: {", ".join(v)}' for (a, b), v in pairs.items() if len(v) > 2 and not any('_tests' in x for x in v)])

antt = [f for f in run('git', 'ls-tree', '-r', '--name-only', rev, 'crates').split() if '/proofs/' in f and f.endswith('.antt')]
answers = [f for f in antt if f.endswith('Answers.antt')]
print('8 files of answers:', len(answers), '; answers:', sum(len(re.findall(r'^(?:pub )?\S+ : goal\.', run('git', 'show', f'{rev}:{f}'), re.M)) for f in answers),
      '; lines of proofs:', sum(run('git', 'show', f'{rev}:{f}').count('\n') for f in antt))
