#!/usr/bin/env python3
"""Turns a crate's Proof.antt files, each a list of answers to an older Rattle's goals, to Invariants.antt and Answers.antt.

    tools/answers_from_ties.py CRATE NAMES.json [MODULE/FUNCTION..]

NAMES.json is what `rt check --generated FOLDER --old-names` writes for the crate: each goal, step and loop by its old and its new name.
Answers that the check finds by itself (`search rules`) are left out. A proof of another shape is named and stays as it is.
"""
import json
import os
import re
import sys

ROOT = os.path.dirname(os.path.dirname(os.path.abspath(__file__)))
WORD = r"[^\s(){}.;,@\"«»]+"
GENERATED = re.compile(r'\.(Tie|Lts|Reads|Statement)(\.\{[^}]*\})?( as \S+)?$')
TRIVIAL = {'search rules', 'search (rules)'}


with open(os.path.join(ROOT, 'tools', 'snake-names.tsv'), encoding='utf-8') as _f:
    WAS = {line.split('\t')[1].strip(): line.split('\t')[0] for line in _f}


def same(a, b):
    """Whether two spellings are of one generated name: some were taken for a lemma's, and respelled."""
    def spellings(x):
        return {re.sub('[-_]', '', re.sub('_lem$', '', y)).lower() for y in (x, WAS.get(x, x))}
    return bool(spellings(a) & spellings(b))


def clause_names(crate):
    """For each function of the crates, the names of its requires and ensures clauses, in order."""
    found = {}
    for folder, _, files in os.walk(os.path.join(ROOT, 'crates')):
        for name in files:
            if not name.endswith('.rt') or '/out' in folder:
                continue
            with open(os.path.join(folder, name), encoding='utf-8') as f:
                text = f.read()
            rel = os.path.relpath(os.path.join(folder, name), os.path.join(ROOT, 'crates')).split(os.sep)
            module = [rel[0]] + [p for p in '/'.join(rel[2:])[:-3].split('/') if p not in ('lib', 'main')]
            owner = None
            current = None
            for line in text.split('\n'):
                m = re.match(r'impl(?:<[^>]*>)? (\w+)', line)
                if m:
                    owner = m[1]
                elif line.startswith('}'):
                    owner = None
                m = re.match(r'(\s*)(?:#\[[^\]]*\] )?(?:pub(?:\([^)]*\))? )?(?:unsafe )?(?:extern "C" )?fn (\w+)', line)
                if m:
                    current = '::'.join(module + ([owner] if m[1] and owner else []) + [m[2]])
                    found[current] = {'requires': [], 'ensures': []}
                m = re.match(r'\s*(requires|ensures)\*? (?:(\w+) )?\{', line)
                if m and current:
                    found[current][m[1]].append(m[2])
    return found


def clause_path(names, rest):
    """The clauses of a contract were a product, nested to the right; now each has its name."""
    if len(names) < 2 or not all(names):
        return rest
    i = 0
    while i < len(names) - 1 and i < len(rest) and rest[i] == '1':
        i += 1
    if i == len(names) - 1:
        return [names[i]] + rest[i:]
    if i < len(rest) and rest[i] == '0':
        return [names[i]] + rest[i + 1:]
    return rest


def parameter_path(names, rest):
    """What is known of each parameter after a call, of old by its number, nested to the right."""
    i = 0
    while i < len(rest) and rest[i] == '1':
        i += 1
    if i < len(rest) and rest[i] == '0' and i < len(names):
        return [names[i]] + rest[i + 1:]
    return rest


def without_aliases(text, var):
    """A name for an earlier step is that step: today every step is a field of one record."""
    while m := re.search(rf'let ({WORD}) = ({re.escape(var)}(?:\.before)*(?:\.{WORD}\.given(?:\.0)?)?) in\s*', text):
        text = text[:m.start()] + re.sub(rf"(?<![^\s(){{}};,\[]){re.escape(m[1])}(?=[\s.();,]|$)", m[2], text[m.end():])
    return text


class Function:
    def __init__(self, key, data, clauses, path):
        self.data = data
        self.clauses = clauses
        self.path = path
        self.places = {p[0]: (i, p) for i, p in enumerate(data['places'])}
        self.unknown = []

    def chain(self, place):
        while place is not None:
            i, p = self.places[place]
            yield i, p
            place = p[1]

    def arg(self, kind, name):
        for old, new in self.data['args']:
            if old.replace(' ', '') == f'.{kind}.{name}':
                return new.split('.')[-1].strip()
        return name

    def numbered(self, callee, kind, rest):
        """Numbers of clauses become their names."""
        return clause_path(self.clauses.get(callee, {}).get(kind, []), rest)

    def step(self, place, back, parts):
        """The new path of a step's field, as seen from a place; None where it is not known."""
        first = parts[0]
        if first in ('args', 'ranges'):
            return [first] + ([self.arg(first, parts[1])] + parts[2:] if len(parts) > 1 else [])
        if first == 'requires':
            return [first] + self.numbered(self.own, 'requires', parts[1:])
        for i, p in self.chain(place):
            arm = self.data['arms'][i]
            if arm:
                for new, old, fields in arm[2]:
                    if same(old, first) and parts[1:1 + len(fields)] == fields:
                        return [arm[0], new] + parts[1 + len(fields):]
        for i, p in self.chain(place):
            if same(p[2][0], first):
                rest = parts[1:]
                if rest:
                    for old, new in p[4]:
                        if rest[0] == old:
                            rest = [new] + rest[1:]
                            break
                    if rest[0] in ('ensures', 'requires') and p[3]:
                        rest = [rest[0]] + self.numbered(p[3], rest[0], rest[1:])
                    if rest[0] in ('auto', 'new') and len(rest) > 1:
                        rest = [rest[0]] + parameter_path(self.data['params'].get(p[3], []), rest[1:])
                return [p[2][1]] + rest
        self.unknown.append('.'.join(parts))
        return None

    def turn(self, text, place, var='c'):
        text = without_aliases(text, var)

        def path(m):
            parts = m[0].split('.')[1:]
            back = 0
            while parts and parts[0] == 'before':
                parts = parts[1:]
                back += 1
            if not parts:
                return var
            new = self.step(place, back, parts)
            return '.'.join([var] + (new or parts))
        text = re.sub(rf"(?<![^\s(){{}};,\[]){re.escape(var)}(?:\.{WORD})+", path, text)
        for m in list(re.finditer(rf'let ({WORD}) = {re.escape(var)}\.({WORD}) in', text)):
            callee = next((p[3] for p in self.data['places'] if p[2][1] == m[2] and p[3]), None)
            names = self.clauses.get(callee, {}).get('ensures', [])
            start = rf"(?<![^\s(){{}};,\[]){re.escape(m[1])}"
            if len(names) > 1:
                text = re.sub(rf'{start}\.ensures((?:\.[01])+)(?![\w])', lambda k: '.'.join([m[1], 'ensures'] + clause_path(names, k[1].split('.')[1:])), text)
            given = self.data['params'].get(callee, [])
            text = re.sub(rf'{start}\.(auto|new)((?:\.[01])+)(?![\w])', lambda k: '.'.join([m[1], k[1]] + parameter_path(given, k[2].split('.')[1:])), text)
        # What a call ensures, under a name of its own: its clauses have names too.
        for m in list(re.finditer(rf'let ({WORD}) = {re.escape(var)}\.({WORD})\.ensures in', text)):
            callee = next((p[3] for p in self.data['places'] if p[2][1] == m[2] and p[3]), None)
            names = self.clauses.get(callee, {}).get('ensures', [])
            if len(names) > 1:
                start = rf"(?<![^\s(){{}};,\[]){re.escape(m[1])}"
                text = re.sub(rf'{start}((?:\.[01])+)(?![\w])', lambda k: '.'.join([m[1]] + clause_path(names, k[1].split('.')[1:])), text)
        for m in list(re.finditer(rf'let ({WORD}) = {re.escape(var)}\.(args|requires) in', text)):
            start = rf"(?<![^\s(){{}};,\[]){re.escape(m[1])}"
            if m[2] == 'args':
                text = re.sub(rf'{start}\.(t\d+)(?![\w])', lambda k: f'{m[1]}.{self.arg("args", k[1])}', text)
            else:
                text = re.sub(rf'{start}((?:\.[01])+)(?![\w])', lambda k: '.'.join([m[1]] + clause_path(self.clauses.get(self.own, {}).get('requires', []), k[1].split('.')[1:])), text)
        return text


class Helper:
    """A lemma at a step: NAME : tie.STEP → TYPE, or NAME : (c : tie.STEP) → TYPE, with one clause."""

    def __init__(self, d):
        rows = d.split('\n')
        text = '\n'.join(r for r in rows if not r.startswith(('unfolding', '--')))
        self.unfolding = [r for r in rows if r.startswith('unfolding')]
        m = re.match(rf'(?P<pre>(?:abbrev |pub )*)(?P<name>{WORD}) : (?:\((?P<var>{WORD}) : tie\.(?P<place>{WORD})(?P<inv>(?: {WORD})*)\)|tie\.(?P<place2>{WORD})(?P<inv2>(?: {WORD})*))\s*→', text)
        self.ok = bool(m)
        if not m:
            return
        self.name = m['name']
        self.place = m['place'] or m['place2']
        rest = text[m.end():]
        c = re.search(rf'^{re.escape(self.name)} ({WORD})((?: {WORD})*?) =', rest, re.M)
        self.ok = bool(c)
        if not c:
            return
        self.type = rest[:c.start()].strip()
        self.var = m['var'] or c[1]
        self.clause_var = c[1]
        self.more = c[2].split()
        self.body = rest[c.end():].strip()
        self.data = m['pre'].startswith('abbrev')


def one_line(text):
    return re.sub(r'\s*\n\s*', ' ', text.strip())


def blocks(text):
    """The header's use lines, and the declarations."""
    uses, decls, current = [], [], []
    for line in text.split('\n'):
        if line.startswith('use '):
            uses.append(line)
        elif not line.strip():
            if current:
                decls.append('\n'.join(current))
            current = []
        else:
            current.append(line)
    if current:
        decls.append('\n'.join(current))
    return uses, decls


def substitute(body, names):
    return re.sub(r"(?<![^\s(){};,\[]|«)(?:«([^»]+)»|(" + WORD + r"))(?! = )", lambda m: names.get(m[1] or m[2], m[0]), body)


def top_commas(text):
    """The parts of a text between its commas that stand in no bracket."""
    parts, depth, last = [], 0, 0
    for i, ch in enumerate(text):
        if ch in '([{':
            depth += 1
        elif ch in ')]}':
            depth -= 1
        elif ch == ',' and depth == 0:
            parts.append(text[last:i])
            last = i + 1
    return parts + [text[last:]]


def as_record(text, goal, own, clauses, data, place, f):
    """Where a contract has several named clauses, a tuple of proofs becomes a record by their names."""
    names = None
    if goal.startswith('returns'):
        names = clauses.get(own, {}).get('ensures', [])
    elif '-requires' in goal:
        stem = goal.split('-requires')[0]
        for p in data['places']:
            if p[3] and (p[2][1] == stem or p[3].split('::')[-1] == stem.split('-')[0]):
                names = clauses.get(p[3], {}).get('requires', [])
                if p[2][1] == stem:
                    break
    if not names or len(names) < 2 or not all(names):
        return text
    body = text.rstrip()
    if not body.endswith(')'):
        return text
    depth = 0
    for i in range(len(body) - 1, -1, -1):
        if body[i] == ')':
            depth += 1
        elif body[i] == '(':
            depth -= 1
            if depth == 0:
                break
    before = body[:i].rstrip()
    if before and not re.search(r'( in|=|^)$', before):
        return text
    parts = [p for p in top_commas(body[i + 1:-1]) if p.strip()]
    while len(parts) < len(names) and parts[-1].strip().startswith('(') and parts[-1].strip().endswith(')'):
        inner = [p for p in top_commas(parts[-1].strip()[1:-1]) if p.strip()]
        if len(inner) < 2:
            break
        parts = parts[:-1] + inner
    if len(parts) < len(names):
        return text
    last = ','.join(parts[len(names) - 1:]).strip()
    if len(parts) > len(names):
        last = f'({last})'
    values = [p.strip() for p in parts[:len(names) - 1]] + [last]
    return body[:i] + 'record { ' + '; '.join(f'{n} = {v}' for n, v in zip(names, values)) + ' }'


def convert(folder, key, data, clauses, own):
    path = os.path.join(folder, 'Proof.antt')
    with open(path, encoding='utf-8') as f:
        uses, decls = blocks(f.read())
    f = Function(key, data, clauses, path)
    f.own = own
    goals, invariants, others, order = [], {}, [], None
    remarks = {}
    for d in decls:
        rows = d.split('\n')
        while rows and rows[0].startswith('--'):
            if not rows[0].startswith('-- src/'):
                remarks.setdefault(len(goals), []).append(rows[0])
            rows = rows[1:]
        if not rows:
            continue
        head = re.match(rf'(pub |abbrev )*({WORD}) :', rows[0])
        if not re.search(r'tie\.Need-|: tie\.(invariant|decreases)-', rows[0]):
            rows = remarks.pop(len(goals), []) + rows
        d = '\n'.join(rows)
        name = head[2] if head else None
        sig = d.split('\n')[0]
        if re.search(r': tie\.(invariant|decreases)-', sig):
            invariants[name] = d
        elif re.search(r'tie\.Need-', sig):
            goals.append((name, re.search(r'tie\.Need-(\S+)', sig)[1].rstrip(')'), d, remarks.get(len(goals), [])))
        elif re.match(r'pub \S+[-_]spec :', d):
            order = d
        elif head or d.startswith(('--', 'module ', ' ', 'infix')):
            others.append(d)
        else:
            return f'another shape: {d[:60]!r}'
    if order is None or 'tie.spec' not in order:
        return 'no tie.spec'
    listed = order.split('tie.spec', 1)[1].replace(')', ' ').split()
    listed = [w for w in listed if w not in invariants]
    names = [g[0] for g in goals]
    # A slice made of an array is a goal no more.
    needs_of = {g[0]: g[1] for g in goals}
    gone = [w for w in listed if needs_of.get(w, '').startswith('slice-aggregate')]
    if len(listed) > len(data['needs']):
        listed = [w for w in listed if w not in gone]
        names = [n for n in names if n not in gone]
    if sorted(listed) != sorted(names):
        return f'goals {sorted(set(listed) ^ set(names))} are not as listed'
    needs = list(data['needs'])
    asked_at = list(data['asked_at'])
    if len(needs) > len(listed):
        kept = [i for i, n in enumerate(needs) if not n[0].startswith('slice_aggregate')]
        needs, asked_at = [needs[i] for i in kept], [asked_at[i] for i in kept]
    if len(needs) != len(listed):
        return f'{len(listed)} goals listed, {len(needs)} known: {[n[0] for n in needs]} {listed}'
    loops = data['loops']
    inv_text = []
    kinds = {}
    for name, d in invariants.items():
        m = re.search(r': tie\.((?:invariant|decreases)-\S+)', d)
        old = m[1]
        kind, loop = old.split('-', 1)
        kinds.setdefault(kind, []).append((loop, name, d))
    for kind, items in kinds.items():
        for n, (loop, name, d) in enumerate(items):
            match = [i for i, l in enumerate(loops) if same(l[0][0], loop)]
            i = match[0] if match else n
            (old, new), variables = loops[i]
            changed = data['changed'][i]
            rows = d.split('\n')
            unfolding = [r for r in rows[1:] if r.startswith('unfolding')]
            clause = '\n'.join(r for r in rows[1:] if not r.startswith('unfolding'))
            left, body = clause.split(' =', 1)
            binders = [b.strip('«»') for b in left.split()[1:]]
            moving = [v for v, c in zip(variables, changed) if c]
            if len(binders) != len(variables) + len(moving):
                return f'{name}: {binders} against {variables} {changed}'
            table = {}
            for b, v, c in zip(binders, variables, changed):
                table[b] = f'l.initial.{v}' if c else f'l.{v}'
            for b, v in zip(binders[len(variables):], moving):
                table[b] = f'l.{v}'
            table.pop('_', None)
            # A variable that the body binds itself is that one.
            for bound in re.findall(rf'λ \(?({WORD}) *[:.]|\(({WORD}) : [^()]*\) →', body):
                table.pop(bound[0] or bound[1], None)
            text = substitute(body, table)
            inv_text.append('\n'.join([f'abbrev pub {kind}-{new} : goal.{kind}-{new}'] + unfolding + [f'{kind}-{new} l =' + text]))
    out = []
    helpers = {}
    for d in list(others):
        if re.search(r'tie\.', d):
            h = Helper(d)
            if h.ok:
                helpers[h.name] = h
                others.remove(d)

    def inline(text, var, depth=0):
        """Puts in the place of each use of a helper its statement and its proof."""
        if depth > 20:
            return text
        text = without_aliases(text, var)
        for h in helpers.values():
            pattern = re.compile(rf"(?<![^\s(){{}};,\[]){re.escape(h.name)} ({re.escape(var)}(?:\.before)*)(?![^\s(){{}};,\]])")
            while m := pattern.search(text):
                place = next((n for n in f.places if same(n, h.place) or same(n.replace('After-', ''), h.place.replace('After-', ''))), None)
                if place is None:
                    f.unknown.append(h.place)
                    place = 'Start'
                body = f.turn(inline(h.body, h.clause_var, depth + 1), place, h.clause_var)
                kind = f.turn(inline(h.type, h.var, depth + 1), place, h.var)
                if h.data:
                    new = f'({one_line(body)})'
                else:
                    new = f'(let {h.name} : {one_line(kind)} = ' + (f'λ {" ".join(h.more)}. ' if h.more else '') + f'{one_line(body)} in {h.name})'
                # what is turned already is kept from being turned again
                new = re.sub(r"(?<![^\s(){};,\[])c\.", 'c!', new)
                text = text[:m.start()] + new + text[m.end():]
                h.used = True
        return text

    by_name = {g[0]: g for g in goals}
    for at, listed_name in enumerate(listed):
        name, need, d, remark = by_name[listed_name]
        rows = d.split('\n')
        first = next(i for i, r in enumerate(rows) if re.match(rf'{re.escape(name)}( |$)', r) and i > 0)
        unfolding = [r for r in rows[1:first] if r.startswith('unfolding')]
        clause = '\n'.join(rows[first:])
        left, body = clause.split(' =', 1)
        words = left.split()[1:]
        if not words:
            return f'{name}: no variable'
        if body.strip() in TRIVIAL and not unfolding:
            continue
        new = needs[at][1]
        place = asked_at[at][0]
        var = words[0]
        if var.startswith('('):
            return f'{name}: {left}'
        more = [w for w in words[1:] if w != 'κs']
        text = f.turn(inline(body, var), place, var).replace('c!', 'c.')
        opened = [w for u in unfolding for w in u.split()[1:]]
        for h in helpers.values():
            if h.unfolding and re.search(rf'(?<![\w-]){re.escape(h.name)} ', body + ' '.join(o.body for o in helpers.values() if o.name in body)):
                opened += [w for u in h.unfolding for w in u.split()[1:] if w not in opened]
        unfolding = ['unfolding ' + ' '.join(opened)] if opened else []
        text = as_record(text, new, own, clauses, data, place, f)
        out.append('\n'.join(remark + [f'pub {new} : goal.{new}'] + unfolding + [' '.join([new, var] + more) + ' =' + text]))
    if any('tie.' in o for o in others):
        return f'a helper over a step stays: {[o.split(" :")[0] for o in others if "tie." in o]}'
    kept = [u for u in uses if not GENERATED.search(u)]
    module = f'Rattle.{own.split("::")[0]}.proofs.' + '.'.join(own.split('::')[1:])
    if inv_text:
        with open(os.path.join(folder, 'Invariants.antt'), 'w', encoding='utf-8') as g:
            g.write('\n'.join(kept + [f'use {module}.Given as goal', '']) + '\n' + '\n\n'.join(inv_text) + '\n')
    if out:
        with open(os.path.join(folder, 'Answers.antt'), 'w', encoding='utf-8') as g:
            g.write('\n'.join(kept + [f'use {module}.Goals as goal', '']) + '\n' + '\n\n'.join(others + out) + '\n')
    elif others:
        print(f'{own}: left out: {len(others)} helpers')
    os.remove(path)
    return ('unknown ' + ', '.join(f.unknown)) if f.unknown else None


def main():
    crate, names = sys.argv[1:3]
    only = sys.argv[3:]
    with open(names, encoding='utf-8') as f:
        data = json.load(f)
    clauses = clause_names(crate)
    proofs = os.path.join(ROOT, 'crates', crate, 'proofs')
    done = 0
    seen = set()
    for key, d in sorted(data.items()):
        m = re.match(rf'Rattle-{crate}-proofs\.(.*)\.Lts$', key)
        if not m:
            continue
        steps = m[1].split('.')
        folder = os.path.join(proofs, *steps)
        seen.add(folder)
        if only and '/'.join(steps) not in only:
            continue
        if not os.path.exists(os.path.join(folder, 'Proof.antt')):
            continue
        said = convert(folder, key, d, clauses, '::'.join([crate] + steps))
        done += said is None
        if said:
            print(f'{"::".join(steps)}: {said}')
    for folder, _, files in os.walk(proofs):
        if 'Proof.antt' in files:
            print('stays:', os.path.relpath(folder, proofs))
    print(f'{done} turned')


if __name__ == '__main__':
    main()
