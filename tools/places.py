#!/usr/bin/env python3
"""places.py [FOLDER]: finds in crates/*/src the places that an older way of writing leaves, by the eight points of docs/DESIGN-PASS.md, and counts them.

What a line finds is a place to look at: docs/DESIGN-PASS.md says of each that is left why it stays.
"""
import glob
import os
import re
import sys
from collections import defaultdict

top = sys.argv[1] if len(sys.argv) > 1 else '.'
names = sorted(glob.glob(top + '/crates/*/src/**/*.rt', recursive=True))
sources = {os.path.relpath(f, top + '/crates').replace('/src/', '/'): re.sub(r'//[^\n]*', '', re.sub(r'#\[error\("[^\n]*"\)\]', '', open(f).read())) for f in names}
KEYWORDS = set('as break const continue else enum fn for if impl in let loop match mod mut pub ref return self Self struct trait use where while Some None Ok Err true false'.split())


def functions(text):
    """Each function as (name, signature with clauses, body)."""
    for m in re.finditer(r'^( *)(?:pub(?:\(crate\))? )?fn (\w+)', text, re.M):
        body = re.compile(r'^%s\{\n(.*?)^%s\}' % (m.group(1), m.group(1)), re.M | re.S).search(text, m.end())
        plain = re.compile(r'\{\n(.*?)^%s\}' % m.group(1), re.M | re.S).search(text, m.end())
        found = min((b for b in (body, plain) if b), key=lambda b: b.start(), default=None)
        if found:
            yield m.group(2), text[m.start():found.start()], found.group(1)


def lines(pattern, only='', tests=True):
    """The lines that match, by file."""
    for f, text in sources.items():
        if f.startswith(only) and (tests or 'tests/' not in f):
            for m in re.finditer(pattern, text, re.M):
                yield f, ' '.join(m.group(0).split())


def enums():
    """Enums that have a case of refusal, or that are of two cases, one of them bare."""
    for f, text in sources.items():
        for m in re.finditer(r'enum (\w+)[^{]*\{\n(.*?)^\}', text, re.M | re.S):
            cases = re.findall(r'^    ([A-Z]\w*)( \{|\(|,)', m.group(2), re.M)
            if any(c[0] in ('Refused', 'None', 'Nothing', 'Err') for c in cases) or (len(cases) == 2 and any(c[1] == ',' for c in cases)):
                yield f, 'enum ' + m.group(1) + ': ' + ', '.join(c[0] for c in cases)


def shape(text):
    """The words of a text with names, numbers and comparisons alike."""
    out = []
    for w in re.findall(r'[A-Za-z_]\w*|\d[\d_]*|<=|>=|==|=>|->|::|\.\.|\S', text):
        if re.match(r'\d', w):
            out.append('0')
        elif re.match(r'[A-Za-z_]', w):
            out.append(w if w in KEYWORDS else 'x')
        else:
            out.append({'<': '?', '>': '?', '<=': '?', '>=': '?', '+': '+', '-': '+'}.get(w, w))
    return ' '.join(out)


def twins():
    """Functions whose bodies have one shape, of at least twenty words."""
    groups = defaultdict(list)
    for f, text in sources.items():
        if 'tests/' not in f:
            for name, head, body in functions(text):
                s = shape(body)
                if len(s.split()) >= 20:
                    groups[s].append(f + ' ' + name)
    for s, found in groups.items():
        for extra in found[1:]:
            yield extra.split()[0], found[0] + ' and ' + extra


def clauses():
    """Clauses that stand in three functions or more, and parameters that three or more have together."""
    stand, travel = defaultdict(set), defaultdict(set)
    for f, text in sources.items():
        if 'tests/' in f:
            continue
        for name, head, body in functions(text):
            for c in re.findall(r'^ *(?:ensures|requires)(?: \w+)? (\{.*\})$', head, re.M):
                same = re.sub(r'call\.\w+(?: [a-z.]+)*|\(call\.[^)]*\)|result(?:\.\d)?|\bof_\w+\b', '_', c)
                stand[same].add(f + ' ' + name)
            parameters = re.findall(r'(\w+): ([^,()]+(?:\([^)]*\))?[^,()]*)', head.split('->')[0].split('ensures')[0].split('requires')[0])
            mine = sorted({n + ': ' + ' '.join(t.split()) for n, t in parameters if n not in ('S', 'R', 'W', 'T')})
            for i, a in enumerate(mine):
                for b in mine[i + 1:]:
                    travel[a + ', ' + b].add(f + ' ' + name)
    for found, what in ((stand, 'clause'), (travel, 'parameters')):
        for c, where in sorted(found.items()):
            if len(where) >= 3:
                yield sorted(where)[0].split()[0], '%s in %d functions: %s' % (what, len(where), c)


def buffers():
    """Structs with an array and a count, and a buffer or a tape with a place in it."""
    for f, text in sources.items():
        for m in re.finditer(r'struct (\w+)[^{;]*\{\n(.*?)^\}', text, re.M | re.S):
            if re.search(r'(count|length|len|position): (usize|u32)', m.group(2)) and re.search(r'\[\w+; \d+\]|&.*\[u8\]', m.group(2)):
                yield f, 'struct ' + m.group(1)
        for name, head, body in functions(text):
            if re.search(r'&mut \[u8\]', head) and re.search(r'\bat: usize', head):
                yield f, 'fn ' + name + ', a buffer and a place in it'


POINTS = [
    ('1 own enums of the shape of Option or Result', enums),
    ('1 numbers for refusals', lambda: lines(r'\bnumber: (u8|\d+)|\bfn number\(', tests=False)),
    ('1 refusals and absences handed on by hand', lambda: lines(r'Err\(\w+\) =>\s*(return )?(Err\(|Answer::Refused)|\} else \{\n\s*return None;|else \{\n\s*return None;')),
    ('1 one cause told by the enum of all', lambda: (p for c in ('stage', 'bounded', 'step', 'band') for p in lines(r'fn \w+.*Result<.*, Refusal>', c + '/'))),
    ('2 functions of one shape', twins),
    ('3 loops that count an index, or end by hand', lambda: lines(r'for \(?[a-z_]+(, &?[a-z]+\))? in [^{]*(\.\.[^{]*|\.enumerate\(\)[^{]*)\{|\bwhile [^{]*\{|\bloop \{|mut count = 0')),
    ('4 order, equality, copies, conversion by hand', lambda: lines(r'^impl(<[^>]*>)? (Order|Ord|PartialOrd|PartialEq|Eq|Clone|Copy|From<\w+>|TryFrom<\w+>|Display|Debug|Default) for [^{]*')),
    ('4 numbers put together or written by hand', lambda: lines(r'fn put_\w+|.*\b256 \* .*|.* 2 \* SIGN.*')),
    ('5 facts in three contracts or more, parameters that travel together', clauses),
    ('6 buffers with a length or a place beside', buffers),
    ('6 slices cut to a length that is kept beside', lambda: lines(r'.*\[0?\.\.(self\.)?[a-z]+\].*')),
    ('7 a switch on which step to run', lambda: lines(r'^\s+\d+ => \w+\(.*|.*\bfn\(.*')),
]
for title, find in POINTS:
    found = list(find())
    print('%s: %d' % (title, len(found)))
    for f, what in found:
        print('    %s: %s' % (f, what[:200]))
proofs = [f for f in glob.glob(top + '/crates/*/proofs/**/*.antt', recursive=True)]
print('8 proofs: %d lines in %d files, %d answers' % (
    sum(len(open(f).read().splitlines()) for f in proofs), len(proofs),
    sum(len(re.findall(r'^pub [\w-]+ : goal\.', open(f).read(), re.M)) for f in proofs)))
