#!/usr/bin/env python3
"""Counts the places in crates/*/src that today's Rattle may say better, point by point.

usage: tools/places.py [POINT..]        (no POINT: all of them)

It goes by text alone: what it prints is to be read, and docs/DESIGN-PASS.md says of each line what became of it.
"""
import collections
import difflib
import glob
import re
import sys

FILES = sorted(glob.glob('crates/*/src/**/*.rt', recursive=True))

PATTERNS = {
    'results': (r'\bErr\((e|why)\) =>|^ *None => None|-> u8$|\bfn code\(|test_tables\(.*!= 0', 'point 1: results by hand, numbers of refusals'),
    'loops': (r'^ *for \w+ in 0\.\.|\.enumerate\(\)|^ *while |^ *loop ', 'point 3: loops that count'),
    'casts': (r'[\w)\]] as (usize|u8|u16|u32|u64)\b', 'point 4: conversions by `as`'),
    'printing': (r'\bfn (print_\w+|push_number|numbered|text|push_text)\b', 'point 4: printing by hand'),
    'converting': (r'\bfn (number|code|granted|loaded|numbered)\b', 'point 4: conversions by hand'),
    'comparing': (r'\bfn is_(black|gray|white|purple)\b|^ *_ => false', 'point 4: equality by hand'),
    'copying': (r'\bused: self\.used', 'point 4: a whole value copied field by field'),
    'buffers': (r"\blen: usize,$|\blisted: usize,$|\bn: usize,$|: &'a mut \[", 'point 6: lengths beside buffers, tables beside tables'),
    'steps': (r'\bdyn |\bBox<|: fn\(|match (step|phase|stage|mode)\b', 'point 7: a switch on a step, tables of functions'),
}


def code(path):
    """The lines of a file without its comments and imports."""
    for n, line in enumerate(open(path, encoding='utf-8'), 1):
        line = line.rstrip('\n')
        if not re.match(r' *(//|(pub )?(ghost )?use )', line):
            yield n, line


def by_pattern(name):
    pattern, title = PATTERNS[name]
    hits = [(p, n, l.strip()) for p in FILES for n, l in code(p) if re.search(pattern, l)]
    print(f'== {name}: {title}: {len(hits)}')
    for p, n, l in hits:
        print(f'  {p}:{n}: {l}')


def bodies():
    """Each function with its body, names and numbers made alike."""
    for p in FILES:
        lines = list(code(p))
        owner = ''
        for k, (n, l) in enumerate(lines):
            m = re.match(r"impl.*\{$", l)
            if m:
                owner = l
            m = re.match(r'( *)(pub(\(crate\))? )?fn (\w+)', l)
            if not m:
                continue
            indent = m.group(1)
            body = []
            inside = False
            for _, b in lines[k + 1:]:
                if b == indent + '{}' or l.endswith('{}') or l.endswith(';'):
                    break
                if b == indent + '{' or (not inside and b.startswith(indent + ') ') and b.endswith('{')):
                    inside = True
                    continue
                if b == indent + '}':
                    break
                if inside or l.endswith('{'):
                    body.append(b.strip())
            yield f'{p}:{n}: {m.group(4)}', body


def twins():
    """Functions whose bodies are alike in nine parts of ten once numbers and the names of colours and kinds are made alike."""
    def plain(body):
        text = ' '.join(body)
        text = re.sub(r'\b\d[\d_]*\b', '0', text)
        return re.sub(r'\b(Black|White|Gray|Purple|Card|Pair|black|white|gray|purple)\b', 'X', text)

    made = [(n, plain(b)) for n, b in bodies() if len(b) >= 2]
    pairs = []
    for i, (a, x) in enumerate(made):
        for b, y in made[i + 1:]:
            if difflib.SequenceMatcher(None, x, y, autojunk=False).ratio() >= 0.9:
                pairs.append((a, b))
    print(f'== twins: point 2: pairs of functions with bodies alike: {len(pairs)}')
    for a, b in pairs:
        print(f'  {a} | {b}')


def clauses():
    """Clauses that stand in three functions or more, the name of the value and its time made alike."""
    count = collections.Counter()
    for p in FILES:
        for _, l in code(p):
            m = re.match(r' *(requires|ensures) ', l)
            if m:
                l = re.sub(r'\b(self|store|host)\.(old|new|now|entry)\b', 'x', l.strip().rstrip(';'))
                l = re.sub(r'\b(self|store|host)\b', 'x', l)
                count[re.sub(r'\b(Self|S)\.', '', l)] += 1
    hits = [(c, n) for c, n in count.most_common() if n >= 3]
    print(f'== clauses: point 5: facts that stand in three contracts or more: {len(hits)} facts in {sum(n for _, n in hits)} clauses')
    for c, n in hits:
        print(f'  {n:3} {c}')


def answers():
    """Answers that proofs give, and lemmas of the crates' own."""
    print('== answers: point 8: answers and lemmas, by crate')
    for crate in sorted(glob.glob('crates/*')):
        own = glob.glob(crate + '/proofs/**/Answers.antt', recursive=True)
        a = sum(len(re.findall(r'^(?:pub )?[\w-]+ : goal\.', open(f, encoding='utf-8').read(), re.M)) for f in own)
        lemmas = [f for f in glob.glob(crate + '/proofs/**/*.antt', recursive=True) if f not in own]
        k = sum(len(re.findall(r"^ *(?:pub )?[\w'-]+ :\s", open(f, encoding='utf-8').read(), re.M)) for f in lemmas)
        if a or k:
            print(f'  {crate[7:]}: {a} answers, {k} lemmas and invariants')


EXTRA = {'twins': twins, 'clauses': clauses, 'answers': answers}

for name in sys.argv[1:] or [*PATTERNS, *EXTRA]:
    if name in EXTRA:
        EXTRA[name]()
    else:
        by_pattern(name)
