#!/usr/bin/env python3
"""The sources' part of the move to today's Rattle that its own script leaves: `#![tactic(auto)]` at the head of each root file, and in clauses
`old x`, `new x` as `x.old`, `x.now` and `x.new`. Run once, after the kit's own port script (docs/PORT.md)."""
import glob
import re

for f in sorted(glob.glob('crates/*/src/lib.rt') + glob.glob('crates/*/src/main.rt')):
    t = open(f).read()
    if 'tactic(auto)' not in t:
        lines = t.split('\n')
        i = 0
        while i < len(lines) and lines[i].startswith('//'):
            i += 1
        lines[i:i] = ['#![tactic(auto)]'] + ([''] if i < len(lines) and lines[i].strip() else [])
        open(f, 'w').write('\n'.join(lines))


def turned(seg, params):
    def one(m):
        kind = params.get(m.group(2).strip('«»'))
        if kind is None:
            return m.group(0)
        word = m.group(1) if kind == 'mut' else 'now'
        return f'{m.group(2)}.{word}'
    seg = re.sub(r'\((old|new) («?\w+»?)\)', one, seg)
    return re.sub(r'(?<![.\w])(old|new) («?\w+»?)', one, seg)


for f in sorted(glob.glob('crates/*/src/**/*.rt', recursive=True)):
    t = open(f).read()
    found = []
    for m in re.finditer(r'(?m)^(\s*)(pub )?(extern "C" )?fn (\w+)(<[^>]*>)?\(', t):
        i, depth = m.end(), 1
        while depth:
            depth += {'(': 1, ')': -1}.get(t[i], 0)
            i += 1
        params = {p.group(1): 'mut' if p.group(2) else 'ref' for p in re.finditer(r"(\w+): &(?:'\w+ )?(mut )?", t[m.end():i - 1])}
        end = t.find('\n{\n', i)
        after = re.search(r'(?m)^\s*(pub )?(extern "C" )?fn ', t[i:])
        if end < 0 or (after and i + after.start() < end) or 'ensures' not in t[i:end]:
            continue
        found.append((i, end, turned(t[i:end], params)))
    for a, b, s in reversed(found):
        t = t[:a] + s + t[b:]
    open(f, 'w').write(t)
