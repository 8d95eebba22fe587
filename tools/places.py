#!/usr/bin/env python3
"""Where the sources have an older form: the places of docs/DESIGN-PASS.md, point by point.

    python3 tools/places.py [COMMIT] [--count]

reads crates/*/src/*.rt of COMMIT, or of the work tree, and prints each place as file:line and its text; with --count only the number of each kind.
It goes by patterns: a line is a place to look at, and docs/DESIGN-PASS.md says of each what became of it.
"""
import glob
import re
import subprocess
import sys
from collections import Counter

args = [a for a in sys.argv[1:] if a != '--count']
count_only = '--count' in sys.argv[1:]
commit = args[0] if args else None


def git(*words):
    return subprocess.run(['git', *words], capture_output=True, text=True, check=True).stdout


def files():
    if commit:
        names = git('ls-tree', '-r', '--name-only', commit, 'crates').split()
        names = [n for n in names if re.fullmatch(r'crates/\w+/src/.*\.rt', n)]
        return {n: git('show', f'{commit}:{n}') for n in sorted(names)}
    return {n: open(n).read() for n in sorted(glob.glob('crates/*/src/**/*.rt', recursive=True))}


KINDS = [
    # point, kind, pattern of a line
    ('1', 'a flag, or a number for a refusal, beside a value',
     r'^ +(pub )?(code|found|sent|held|good|whole|begun|store|write|going|failed|puts|echo|wrong|inside|mighty): (bool|u8|usize),$'),
    ('1', 'a function that answers a number for a refusal or an error', r'^(pub )?fn \w*code\w*\(.*-> u(8|16)$'),
    ('1', 'a constant number for a refusal, a mode, an error or a tag', r'^(pub )?const \w+: u(8|16) = \w+;$'),
    ('1', 'a variant for nothing', r'^    (Zero|Unused|Nothing),$'),
    ('1', 'a choice by a number', r'^ +(match (n\[0\]|tag|op|code|x|which|r\.code) \{|(if|let \w+ =) .*\b(n\[0\]|tag|op|mode|code|which) *(==|<|!=) *\d+)'),
    ('3', 'a loop that is no for', r'^ +(while|loop)\b'),
    ('4', 'a conversion by hand',
     r'^(pub )?fn (\w+_numbered|kind_number|parity_number|form_number|turn_number|service_number|number|bit|mark|flag|kind_of|order_of|order_tag|stored_byte)\('),
    ('4', 'a function that prints', r'^(pub )?fn (say|print)\w*\('),
    ('6', 'an array in a struct', r'^ +(pub )?\w+: \[\w+; \d+\],$'),
    ('7', 'a switch on which step to run', r'^ +if (p\.puts|!?\w+\.puts)\b'),
]


def clauses(text):
    return re.findall(r'^ +requires(?: \w+)? \{ (.*) \}$', text, re.M)




def functions(text):
    """Each function: its line, its name, its body."""
    name = body = None
    for i, line in enumerate(text.split('\n'), 1):
        head = re.match(r'(?:pub )?fn (\w+)', line)
        if head:
            at, name, body = i, head.group(1), None
        elif name and line == '{':
            body = []
        elif name and line == '}' and body is not None:
            yield at, name, body
            name = None
        elif body is not None:
            body.append(line)


def twins(sources):
    """Functions of one shape: the same body once every name, number and string is one sign."""
    shapes = {}
    for path, text in sources.items():
        for at, name, body in functions(text):
            if len(body) < 3:
                continue
            shape = '\n'.join(re.sub(r'b?"[^"]*"|\b\w+\b', '_', line) for line in body if not line.strip().startswith('//'))
            shapes.setdefault(shape, []).append(f'{path}:{at}: {name}')
    return [v for v in shapes.values() if len(v) > 1]


sources = files()
for point, kind, pattern in KINDS:
    found = [f'{n}:{i}: {line.strip()}' for n, text in sources.items()
             for i, line in enumerate(text.split('\n'), 1) if re.search(pattern, line)]
    print(f'point {point}, {kind}: {len(found)}')
    if not count_only:
        print(''.join(f'    {f}\n' for f in found), end='')

groups = twins(sources)
print(f'point 2, functions of one shape: {sum(map(len, groups))} in {len(groups)} groups')
if not count_only:
    for g in groups:
        print('    ' + ' | '.join(g))
made = [f'{path}:{at}: {name}' for path, text in sources.items() for at, name, body in functions(text)
        if len(body) > 2 and re.fullmatch(r' +let mut (\w) = \w+;(\n +\1\.[\w.\[\]]+ = .*;)+\n +\1', '\n'.join(body))]
print(f'point 2, functions that copy a struct and write its fields: {len(made)}')
if not count_only:
    print(''.join(f'    {m}\n' for m in made), end='')
facts = Counter((n.split('/')[1], c) for n, text in sources.items() for c in clauses(text))
often = [(k, v) for k, v in sorted(facts.items()) if v >= 3]
print(f'point 5, facts that three or more contracts of a crate require: {len(often)}, in {sum(v for _, v in often)} contracts')
if not count_only:
    print(''.join(f'    {c}: {f}: {v}\n' for (c, f), v in often), end='')
