#!/usr/bin/env python3
"""Counts the places of each point of docs/DESIGN-PASS.md in the crates' code.

    tools/design_count.py [ROOT] [POINT]

ROOT is a checkout (this one where it is left out). With POINT, a number from 1 to 8, it lists the places, one a line; else it prints
the counts of all points. Tests and comments are not counted. It reads the text alone, so it finds candidates: what is kept stands in
docs/DESIGN-PASS.md with its reason.
"""
import collections
import glob
import os
import re
import sys

here = os.path.dirname(os.path.dirname(os.path.abspath(__file__)))
root = sys.argv[1] if len(sys.argv) > 1 and not sys.argv[1].isdigit() else here
point = next((a for a in sys.argv[1:] if a.isdigit()), None)


def code_of(path):
    """The text without comments, ghost imports and test modules."""
    text = open(path, encoding='utf-8').read()
    text = re.sub(r'//[^\n]*', '', text)
    text = re.sub(r'^ghost use [^;]*;', '', text, flags=re.M)
    return re.sub(r'#\[cfg\(test\)\]\s*mod \w+ \{.*', '', text, flags=re.S)


def block(text, start):
    """The text from the brace at `start` to the one that closes it."""
    depth = 0
    for i in range(start, len(text)):
        depth += {'{': 1, '}': -1}.get(text[i], 0)
        if depth == 0:
            return text[start:i + 1]
    return text[start:]


def without_clauses(text):
    """A function's text without its clauses."""
    while True:
        m = re.search(r'\b(requires|ensures)\b[^{]*\{', text)
        if not m:
            return text
        text = text[:m.start()] + text[m.end() - 1 + len(block(text, m.end() - 1)):]


files = {}
for path in sorted(glob.glob(os.path.join(root, 'crates', '*', 'src', '**', '*.rt'), recursive=True)):
    if os.path.basename(path) != 'tests.rt':
        files[os.path.relpath(path, os.path.join(root, 'crates')).replace('/src/', '::')[:-3]] = code_of(path)

functions = []  # (place, name, parameters, clauses and body)
for place, text in files.items():
    for m in re.finditer(r'\bfn (\w+)(<[^(]*>)?\(', text):
        end = m.end()
        depth = 1
        while depth:
            depth += {'(': 1, ')': -1}.get(text[end], 0)
            end += 1
        rest = without_clauses(text[end:])
        brace = rest.find('{')
        if brace < 0 or ';' in rest[:brace].replace('; ', ''):
            continue
        functions.append((f'{place} {m.group(1)}', m.group(1), text[m.end():end - 1], block(rest, brace), text[m.start():end] + rest[:brace]))

found = collections.defaultdict(list)

# 1: enums of the shape of Option or Result, flags with a value beside, numbers for kinds.
for place, text in files.items():
    for m in re.finditer(r'\benum (\w+)(<[^{]*>)? \{', text):
        variants = [v for v in re.findall(r'^\s*(\w+)(?:\s*[({][^\n]*)?,$', block(text, m.end() - 1), re.M)]
        bad = [v for v in variants if re.match(r'(Refused|Missing|Off|Bad|NoFit|Malformed|FaultAfter|Short|None)', v)]
        if bad and len(variants) - len(bad) == 1:
            found['1 enum like Option or Result'].append(f'{place} {m.group(1)}')
    for m in re.finditer(r'\b(ok|has|found|valid): bool,', text):
        found['1 flag with values beside it'].append(f'{place} {m.group(1)}')
    for m in re.finditer(r'\bconst (\w+): (u8|u16|usize) = (\d+);', text):
        if int(m.group(3)) <= 12 and not re.search(r'(LENGTH|LIMIT|BUCKETS|HEADS|COUNT|START|SIZE|UNIT)$', m.group(1)):
            found['1 number for a kind'].append(f'{place} {m.group(1)}')
for where, name, params, body, head in functions:
    if re.search(r'\bmatch [^{]*\{\s*0 =>', body):
        found['1 match on numbers of a kind'].append(where)

# 2: functions, and structs, that are the same but for names, types and constants.
shapes = collections.defaultdict(list)
for where, name, params, body, head in functions:
    words = re.findall(r'\w+|[^\w\s]', f'({params}){body}')
    if len(words) < 12:
        continue
    seen, shape = {}, []
    for w in words:
        if re.match(r'\d', w):
            shape.append('0')
        elif re.match(r'\w', w) and w not in ('let', 'mut', 'if', 'else', 'while', 'for', 'in', 'return', 'match', 'as', 'self'):
            shape.append(seen.setdefault(w, f'w{len(seen)}'))
        else:
            shape.append(w)
    shapes[' '.join(shape)].append(where)
for same in shapes.values():
    if len(same) > 1:
        for where in same[1:]:
            found['2 function equal to another but for names'].append(f'{where} (as {same[0]})')

# 3: loops that count an index by hand.
for where, name, params, body, head in functions:
    for m in re.finditer(r'\bwhile ([^{]*)\{', body):
        inner = block(body, m.end() - 1)
        if any(re.search(r'\b%s\b' % re.escape(x), m.group(1)) for x in re.findall(r'\b(\w+) [+-]= 1;', inner)):
            found['3 loop that counts an index'].append(where)

# 4: comparisons and conversions by hand.
for where, name, params, body, head in functions:
    if re.match(r'\{\s*match \w+ \{(\s*[\w:]+(\([^)]*\))? => [^,{]*,)+\s*\}\s*\}$', body):
        found['4 conversion by a match'].append(where)
    if re.search(r'!= (\w+)\[', body) and 'while' in body:
        found['4 comparison by a loop'].append(where)

# 5: parameters that travel together.
groups = [('bytes', 'ends'), ('types', 'ops'), ('functions', 'area', 'base'), ('types', 'last'), ('sheet', 'ops', 'names'), ('out', 'at')]
for where, name, params, body, head in functions:
    names = re.findall(r'\b(\w+):', params)
    for g in groups:
        if all(x in names for x in g):
            found[f'5 {", ".join(g)}'].append(where)

# 6: a buffer with a position beside it.
for where, name, params, body, head in functions:
    if re.search(r'\w+: &mut \[u8\],\s*(at|k|to): usize', params):
        found['6 buffer with a position beside it'].append(where)

# 7: a flag that says which step to run.
for where, name, params, body, head in functions:
    for m in re.finditer(r'\b(\w+): bool\b', params):
        if re.search(r'\bif !?%s\b' % m.group(1), body) or re.search(r'\b%s\b' % m.group(1), body):
            found['7 flag as a parameter'].append(f'{where} {m.group(1)}')

# 8: answers that only search, and helper proofs inside of answers.
for path in sorted(glob.glob(os.path.join(root, 'crates', '*', 'proofs', '**', 'Answers.antt'), recursive=True)):
    text = open(path, encoding='utf-8').read()
    name = os.path.relpath(path, os.path.join(root, 'crates'))
    for m in re.finditer(r'^([\w-]+) c = search rules$', text, re.M):
        found['8 answer that only searches'].append(f'{name} {m.group(1)}')
    for m in re.finditer(r'\(let (\w+) : ', text):
        found['8 helper proof inside of an answer'].append(f'{name} {m.group(1)}')

for kind in sorted(found):
    if point is None:
        print(f'{len(found[kind]):5}  {kind}')
    elif kind.startswith(point):
        for place in found[kind]:
            print(f'{kind}: {place}')
