#!/usr/bin/env python3
"""Brings the repository's own definitions, lemmas, fields and constructors to snake case, as today's Rattle spells them. Run once, after
the kit's own port script and tools/port-sources.py (docs/PORT.md). Types, functions of src/, exported names and strings keep theirs."""
import glob
import re
import sys

NAME = r"[A-Za-z_·'«»₀-₉][\w\-·'«»₀-₉ᴰ]*"
specs = sorted(glob.glob('crates/*/specs/**/*.antt', recursive=True))
lemmas = sorted(glob.glob('crates/*/proofs/*.antt'))
inner = sorted(set(glob.glob('crates/*/proofs/**/*.antt', recursive=True)) - set(lemmas))
sources = sorted(glob.glob('crates/*/src/**/*.rt', recursive=True))
edits = sorted(glob.glob('crates/*/must-fail/*.edit'))


def snake(n):
    n = n.replace('getD', 'get_or').replace('-', '_')
    n = re.sub(r'(?<=[a-z0-9₀-₉])([A-Z])', lambda m: '_' + m.group(1).lower(), n)
    return n


def old_style(n):
    return n[0].islower() and ('-' in n or re.search('[A-Z]', n)) and not n.startswith('«')


declared = {}
for f in specs + lemmas:
    for line in open(f).read().split('\n'):
        m = re.match(r'^\s*((?:abbrev|unfoldable|pub|mutual|ruleset|data|record) )*(' + NAME + r')(?: \{[^}]*\})? :(?=\s|$)', line)
        if m and not re.match(r'^\s*(data|record|pub data|pub record) ', line):
            for n in [m.group(2)]:
                if old_style(n):
                    declared.setdefault(n, set()).add(f)

new = {n: snake(n) for n in declared}

# A lemma that would have its definition's name, or that of a word of the library, gets `_lem`; so does one that the other script had turned already.
text = {f: open(f).read() for f in specs + lemmas + inner + sources + edits}
TOKEN = re.compile(r"[A-Za-z_«»₀-₉][\w\-'«»₀-₉ᴰ]*")
together = {}
for n, s in new.items():
    together.setdefault(s, []).append(n)
for s, ns in together.items():
    for n in ns:
        if len(ns) > 1 and '-' in n:
            new[n] = s + '_lem'
LEMMAS = 'block-check flat-map items-of value-at word-bytes'.split()
TURNED = 'first_short hands_out insert_all list_at node_in numbers_of offset_at one_by_one'.split()
new.update({n: snake(n) + '_lem' for n in LEMMAS})
new.update({n: n + '_lem' for n in TURNED})
new.update({n: n.replace('get_d', 'get_or') for n in ('get_d_after', 'get_d_front', 'get_d_map')})
new.update({'countAt': 'count_list_at', 'maxFieldsLen': 'max_fields_len_of', 'numTerms': 'num_terms_of', 'numVars': 'num_vars_of'})
if len(set(new.values())) != len(new):
    sys.exit('names fall together')


def turn(t):
    return TOKEN.sub(lambda m: new.get(m.group(0), m.group(0)), t)


def turn_comment(t):
    return re.sub(r'`[^`]*`', lambda m: turn(m.group(0)), t)


for f in specs + lemmas + inner:
    out = []
    for line in text[f].split('\n'):
        k = line.find('--')
        if line.lstrip().startswith('--'):
            out.append(turn_comment(line))
        elif k >= 0 and line[k - 1:k] in ('', ' '):
            out.append(turn(line[:k]) + turn_comment(line[k:]))
        else:
            out.append(turn(line))
    open(f, 'w').write('\n'.join(out))
for f in sources:
    out = []
    for line in text[f].split('\n'):
        k = line.find('//')
        out.append(turn(line) if k < 0 else turn(line[:k]) + line[k:])
    open(f, 'w').write('\n'.join(out))
for f in edits:
    out = [turn(l) if l.startswith(('old: ', 'new: ')) else l for l in text[f].split('\n')]
    open(f, 'w').write('\n'.join(out))
