#!/usr/bin/env python3
"""Counts the places in src/ that docs/DESIGN-PASS.md speaks of, point by point. `tools/design_places.py [FOLDER] [-v]`: the
repository at FOLDER (here, if none is named); -v lists each place."""
import collections, glob, os, re, sys

root = next((a for a in sys.argv[1:] if not a.startswith('-')), '.')
files = {os.path.relpath(p, root): open(p).read() for p in sorted(glob.glob(root + '/crates/*/src/*.rt'))}


def code(text):
    """The lines without comments and ghost imports."""
    return '\n'.join('' if re.match(r'\s*(//|ghost use)', l) else l for l in text.split('\n'))


def matches(pattern, flags=re.M):
    return [f'{p}:{t[:m.start()].count(chr(10)) + 1}: {m.group(0).strip().splitlines()[0]}'
            for p, t in ((p, code(t)) for p, t in files.items()) for m in re.finditer(pattern, t, flags)]


def functions():
    """Each function: where it stands, its head with its clauses, and its body."""
    for p, t in files.items():
        lines = code(t).split('\n')
        for i, l in enumerate(lines):
            m = re.match(r'( *)(pub |pub\(crate\) )?fn (\w+)', l)
            if not m:
                continue
            end = next((j for j in range(i + 1, len(lines)) if lines[j] == m.group(1) + '}'), i)
            open_at = next((j for j in range(i, end) if lines[j].rstrip() == m.group(1) + '{' or lines[j].endswith(' {')), i)
            yield f'{p}:{i + 1}', m.group(3), '\n'.join(lines[i:open_at + 1]), '\n'.join(lines[open_at + 1:end])


def shape(body):
    """A body with its names and numbers left out."""
    body = re.sub(r'\s+', ' ', body)
    body = re.sub(r'b?"[^"]*"|b\'[^\']*\'', '"', body)
    return re.sub(r'\b\w+\b', lambda m: m.group(0) if m.group(0) in KEPT else 'x', body).strip()


KEPT = {'if', 'else', 'match', 'for', 'in', 'while', 'let', 'mut', 'return', 'Ok', 'Err', 'as'}


def twins():
    """Functions of three lines or more, of the same shape as another."""
    groups = collections.defaultdict(list)
    for where, name, head, body in functions():
        if len([l for l in body.split('\n') if l.strip()]) >= 3:
            groups[shape(body)].append(f'{where}: {name}')
    return [' ~ '.join(g) for g in groups.values() if len(g) > 1]


def facts():
    """Facts of a requires that three functions of a crate or more ask."""
    seen = collections.defaultdict(set)
    for where, name, head, body in functions():
        for m in re.finditer(r'requires\s*\w*\s*\{(.*)\}', head):
            for fact in re.split(r' × ', m.group(1)):
                fact = re.sub(r'\.(now|old)\b', '', fact).strip(' ()')
                seen[where.split('/')[1], fact].add(name)
    return [f'{c}: {f}: {", ".join(sorted(n))}' for (c, f), n in sorted(seen.items()) if len(n) >= 3]


POINTS = [
    ('1 enums of a value and a refusal or an erasure', matches(r'enum \w+ \{[^}]*\bRefused\b[^}]*\}|enum \w+ \{\s*\w+\([^)]*\),\s*Erased,\s*\}')),
    ('1 structs with the number of a refusal beside values', matches(r'struct \w+ \{[^}]*\brefusal: u8[^}]*\}')),
    ('1 functions that answer a number for a refusal, a line or a part', matches(r'fn (\w*refusal\w*|bad_line|part_of|refused)\([^{]*-> (u8|u16)\b')),
    ('1 matches on a number of a kind', matches(r'match kind \{')),
    ('2 groups of functions of one shape', twins()),
    ('3 loops over an index or a condition', matches(r'^ *(for \w+ in [^{]*\.\.|while )[^{]*')),
    ('4 a bit as a number, smaller, larger and distance by hand', matches(r'if (\w+|\w+ < \w+|\w+ < \w+|\w+ == \d+) \{\s*[\w\' -]+\s*\} else \{\s*[\w\' -]+\s*\}')),
    ('5 facts that three functions of a crate or more ask', facts()),
    ('6 a buffer and how much of it counts, as two parameters', matches(r'(input|lsf|magnitudes|text|buffer): &\[\w+(; \d+)?\],\s*(size|n|l|m): usize')),
    ('7 a function that a number or a kind chooses', matches(r'^ *(\d+( \| \d+)*|_) => \w+(::\w+)?\(.*\),$')),
]

if __name__ == '__main__':
    for name, places in POINTS:
        print(f'{len(places):4} {name}')
        if '-v' in sys.argv:
            print(*('       ' + p for p in places), sep='\n')
    proofs = glob.glob(root + '/crates/*/proofs/**/*.antt', recursive=True)
    answers = sum(len(re.findall(r'^(pub )?[\w-]+ : goal\.', open(p).read(), re.M)) for p in proofs if p.endswith('Answers.antt'))
    print(f'{answers:4} 8 answers in {sum(p.endswith("Answers.antt") for p in proofs)} files, {sum(1 for p in proofs for _ in open(p))} lines of proofs')
