#!/usr/bin/env python3
"""Counts the places in src/ that may be written in a newer form, by point.
usage: tools/places.py [--list] [CHECKOUT]     the checkout is . if none is named; --list prints each place
What it prints is a list to read, not a verdict: docs/DESIGN-PASS.md says of each kind which of them are places."""
import collections, glob, os, re, sys

listing = '--list' in sys.argv
rest = [x for x in sys.argv[1:] if x != '--list']
os.chdir(rest[0] if rest else '.')
FILES = sorted(glob.glob('crates/*/src/**/*.rt', recursive=True))
LINES = [(f, k + 1, l) for f in FILES for k, l in enumerate(open(f, encoding='utf-8').read().split('\n'))]
CODE = [(f, k, l) for f, k, l in LINES if not l.strip().startswith('//') and not l.startswith('ghost use')]


def tell(kind, places):
    print(f'{len(places):5}  {kind}')
    if listing:
        for p in places:
            print('         ' + p)


def lines(kind, pattern, without=None):
    tell(kind, [f'{f}:{k}: {l.strip()}' for f, k, l in CODE
                if re.search(pattern, l) and not (without and re.search(without, l))])


def functions():
    """(file, line, name, parameters, requires) of each function, from its text."""
    for f in FILES:
        s = open(f, encoding='utf-8').read()
        for m in re.finditer(r'(?m)^ *(?:pub(?:\(crate\))? |final )*fn (\w+)[^(]*\(', s):
            depth, e = 1, m.end()
            while depth:
                depth += {'(': 1, ')': -1}.get(s[e], 0)
                e += 1
            params = [' '.join(p.split()) for p in re.split(r',(?![^<\[(]*[>\])])', s[m.end():e - 1]) if p.strip()]
            body = re.search(r'(?m)^ *\{|;$|\{$', s[e:])
            head = s[e:e + body.start()] if body else ''
            needs = [' '.join(x.split()) for x in re.findall(r'(?s)requires \w* ?\{(.*?)\}(?=\s*(?:requires|ensures|$))', head)]
            yield f, s.count('\n', 0, m.start()) + 1, m[1], params, needs


FUNCTIONS = list(functions())

print('1. shapes of Option and Result, flags and numbers in their place')
lines('enums', r'^\s*(pub )?enum ')
lines('faults handed on by hand', r'Err\(\w+\) => (return )?Err\(|Err\(\w+\) => \{|=> return Err\(\w+\.\w+\)')
lines('numbers that stand for what is absent', r'\bLOST\b|\b65536\b|4294967295|\belse \{ (0|65535|65536) \}|None => 65535')
lines('functions that answer a bool', r'fn .*-> bool')
print('2. twins')
names = collections.defaultdict(set)
for f, k, name, p, r in FUNCTIONS:
    names[name].add(f'{f}:{k}')
free = {n: p for n, p in names.items() if len({x.split('/')[1] for x in p}) > 1 and n not in ('main', 'fmt', 'new')}
tell('names of functions that stand in more than one crate',
     [f'{n}: ' + ', '.join(sorted(p)) for n, p in sorted(free.items())])
print('3. loops')
lines('loops over a range', r'^\s*for \w+ in .*\.\.')
by_index = []
for f in FILES:
    s = open(f, encoding='utf-8').read()
    for m in re.finditer(r'(?m)^( *)for (\w+) in [^\n]*\.\.[^\n]*\{$', s):
        body = s[m.end():s.index('\n' + m[1] + '}', m.end())]
        v = re.escape(m[2])
        if re.search(r'\[[^\]\n]*\b' + v + r'\b|\b(get|put|place|cell|number_at|set_number|cell_at)\([^;]*\b' + v + r'\b', body):
            by_index.append(f'{f}:' + str(s.count('\n', 0, m.start()) + 1) + ': ' + m[0].strip())
tell('of them, those whose variable stands in an index or in a place', by_index)
lines('loops over something else', r'^\s*for ', r'^\s*for \w+ in .*\.\.')
lines('while and loop', r'^\s*(while|loop)\b')
print('4. equality, order, copying, conversion and printing')
lines('implementations of Display', r'impl.* Display for|impl.* fmt::Display for')
lines('conversions by as', r'\bas (u8|u16|u32|u64|usize)\b')
tell('types that derive nothing, or Drop alone',
     [f'{f}:{k}: {l.strip()}' for (f, k, l), (_, _, before) in zip(LINES[1:], LINES)
      if re.match(r'(pub(\(crate\))? )?(struct|enum) ', l) and not re.search(r'derive\((?!Drop\))', before)])
print('5. facts and parameters that go together')
facts = collections.defaultdict(set)
for f, k, name, p, r in FUNCTIONS:
    for x in r:
        facts[(f.split('/')[1], x)].add(f'{f}:{k} {name}')
tell('facts that three functions or more of a crate require',
     [f'{c}: {x} ({len(p)})' for (c, x), p in sorted(facts.items()) if len(p) >= 3])
tell('requires in all', [f'{f}:{k} {name}: {x}' for f, k, name, p, r in FUNCTIONS for x in r])
pairs = collections.defaultdict(set)
for f, k, name, p, r in FUNCTIONS:
    plain = [x for x in p if 'self' not in x]
    for i, x in enumerate(plain):
        for y in plain[i + 1:]:
            pairs[(f.split('/')[1], re.sub(r'^mut ', '', x), y)].add(name)
tell('pairs of parameters that three functions or more of a crate share',
     [f'{c}: {x}; {y} ({len(p)})' for (c, x, y), p in sorted(pairs.items()) if len(p) >= 3])
print('6. buffers')
lines('arrays of a fixed size made', r'= \[[^;\]]+; ?\w+\]')
lines('get and put by a place', r'\b(get|put|place|number_at|set_number)\(')
print('7. steps')
lines('function pointers, dyn', r'\bfn\(|\bdyn ')
lines('closures', r'\|[a-z_, ()*]*\| ')
print('8. proofs')
answers = glob.glob('crates/*/proofs/**/Answers.antt', recursive=True)
total = sum(len(re.findall(r'(?m)^pub \S+ : goal\.', open(a, encoding='utf-8').read())) for a in answers)
count = lambda p: sum(open(x, encoding='utf-8').read().count('\n') for x in glob.glob(p, recursive=True))
print(f'{len(answers):5}  files of answers, with {total} answers')
for kind, p in (('src', 'crates/*/src/**/*.rt'), ('specs', 'crates/*/specs/**/*.antt'), ('proofs', 'crates/*/proofs/**/*.antt')):
    print(f'{count(p):5}  lines of {kind}/')
