#!/usr/bin/env python3
"""Lists, for each point of docs/DESIGN-PASS.md, the lines of crates/*/src that may be a place, and counts them.

    tools/count_places.py [--list] [POINT ..]

A line is a candidate: the page says which candidates are places. It reads the tree that it stands in and writes nothing.
"""
import glob, os, re, sys
from collections import defaultdict

TOP = os.path.dirname(os.path.dirname(os.path.abspath(__file__)))
FILES = sorted(glob.glob(TOP + '/crates/*/src/**/*.rt', recursive=True))
TEXT = {f: open(f, encoding='utf-8').read() for f in FILES}

def lines(pattern, tests=True):
    found = []
    for f, text in TEXT.items():
        if not tests and '_cases/' in f:
            continue
        for n, line in enumerate(text.split('\n'), 1):
            if re.search(pattern, line) and not line.lstrip().startswith(('//', 'ensures', 'requires', 'ghost')):
                found.append(f'{os.path.relpath(f, TOP)}:{n}: {line.strip()}')
    return found

def functions():
    """Each function: its file, name, parameters, clauses and body."""
    for f, text in TEXT.items():
        for m in re.finditer(r'^( *)(?:pub(?:\(crate\))? )?fn (\w+)[^(]*\(', text, re.M):
            depth, i = 1, m.end()
            while depth:
                depth += {'(': 1, ')': -1}.get(text[i], 0)
                i += 1
            params = re.findall(r'(?:^|,)\s*(?:mut )?(\w+):', text[m.end():i - 1])
            rest = text[i:]
            body = re.search(r'^' + m.group(1) + r'\{\n(.*?)\n' + m.group(1) + r'\}$', rest, re.M | re.S)
            one = re.match(r'[^\n{;]*\{\n(.*?)\n' + m.group(1) + r'\}$', rest, re.M | re.S)
            if one and (not body or one.start(1) < body.start(1)):
                body = one
            head = rest[:body.start(1)] if body else rest.split(';')[0]
            clauses = re.findall(r'(?:ensures|requires)(?: \w+)? \{ (.*?) \}$', head, re.M | re.S)
            yield os.path.relpath(f, TOP), m.group(2), params, clauses, body.group(1) if body else ''

def shape(body):
    body = re.sub(r'//[^\n]*', '', body)
    body = re.sub(r'\b\d\w*|\b(true|false)\b', '0', body)
    return re.sub(r'\s+', ' ', re.sub(r'\b[A-Za-z_]\w*(::[A-Za-z_]\w*)*\b', lambda m: m.group(0) if m.group(0) in
        ('match', 'if', 'else', 'let', 'return', 'for', 'in', 'while', 'Ok', 'Err', 'Some', 'None') else 'x', body)).strip()

def twins():
    groups = defaultdict(list)
    for f, name, _, _, body in functions():
        if '_cases/' not in f and len(shape(body)) > 12:
            groups[shape(body)].append(f'{f}: {name}')
    return [' ~ '.join(g) for g in groups.values() if len(g) > 1]

def together():
    pairs = defaultdict(set)
    facts = defaultdict(set)
    alone = defaultdict(set)
    for f, name, params, clauses, _ in functions():
        if '_cases/' in f:
            continue
        for a in params:
            alone[a].add(f'{f}:{name}')
            for b in params:
                if a < b:
                    pairs[a, b].add(f'{f}:{name}')
        for c in clauses:
            facts[os.path.dirname(f), re.sub(r'\s+', ' ', c)].add(f'{f}:{name}')
    # always together: no function of the crate has the first without the second
    found = [f'parameters {a}, {b}: {len(g)} functions' for (a, b), g in sorted(pairs.items())
             if len(g) > 2 and len(g) in (len(alone[a]), len(alone[b]))]
    return found + [f'fact in {len(g)} functions of {d}: {c}' for (d, c), g in sorted(facts.items()) if len(g) > 2]

def proofs():
    return [f'{os.path.relpath(f, TOP)}: {len(open(f, encoding="utf-8").readlines())} lines'
            for f in sorted(glob.glob(TOP + '/crates/*/proofs/**/*.antt', recursive=True))]

POINTS = {
    '1 enums': lambda: lines(r'^ *(pub(\(crate\))? )?enum '),
    '1 flags': lambda: lines(r'(: |-> )bool\b', False),
    '1 numbers': lambda: lines(r'^ *[0-9]+( if .*)? =>|=> \(?[0-9]+[,)]', False),
    '2 twins': twins,
    '3 loops': lambda: lines(r'\b(while|loop)\b.*\{|for \w+ in \(?[0-9a-z_]+\.\.|[^.]count - 1|, f \+ 1', True),
    '4 by hand': lambda: lines(r'fn \w+_(of|number)\(|fn (told|number|place|same_kind|has_result|name_of)\(|impl (Clone|Copy|PartialEq|Eq|PartialOrd|Ord|Default)\b', False),
    '5 together': together,
    '6 buffers': lambda: lines(r'\[[^\[\]]+; *[0-9A-Z_]+\]', False),
    '7 tables of functions': lambda: lines(r'\bdyn |\bfn\(|\bFn(Mut|Once)?\('),
    '8 proof files': proofs,
}

def main():
    wanted = [a for a in sys.argv[1:] if a != '--list']
    for point, find in POINTS.items():
        if wanted and point[0] not in wanted:
            continue
        found = find()
        print(f'{point}: {len(found)}')
        if '--list' in sys.argv:
            print(''.join(f'  {row}\n' for row in found), end='')

main()
