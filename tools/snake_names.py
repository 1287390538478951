#!/usr/bin/env python3
"""Spells the repository's own definitions and lemmas as Rattle's names are spelled today: words in snake case.

    tools/snake_names.py            writes crates/, and tools/snake-names.tsv with each old and new name
    tools/snake_names.py --list     prints the table alone

Run once, behind the kit's port.py. Names of types, facts and modules begin with a capital and stay. A lemma that would have the name
of a definition in the same file gets `_lem`. What a library declares stays as it is.
"""
import collections
import glob
import os
import re
import sys

ROOT = os.path.dirname(os.path.dirname(os.path.abspath(__file__)))
NAME = r'[^\s(){}.;,@"«»:]+'
TOKEN = re.compile(r'[^\s(){}.;,@"«»]+')
DECLARED = re.compile(r'^(\s*)((?:pub |abbrev |unfoldable )*)(' + NAME + r')((?: \{[^{}\n]*\}| \([^()\n]*\))*) :(?= )')
NOT_NAMES = {'use', 'let', 'λ', 'module', 'with', 'where', 'mod', '→', '--'}
IMPORT = re.compile(r'^\s*(?:ghost |pub )*use ([^\s;{]+)\{([^}]*)\}', re.M)
# Where the plain spelling is taken by a function and a lemma.
CHOSEN = {'tooLarge': 'is_too_large'}
RUST_NAME = re.compile(r'\b(\w+)\s*:(?!:)|\blet (?:mut )?(\w+)|\bfor (\w+) in')


def paths(*kinds):
    for path in sorted(glob.glob(os.path.join(ROOT, 'crates', '**', '*'), recursive=True)):
        if path.endswith(kinds) and '/out/' not in path:
            yield path


def read(path):
    with open(path, encoding='utf-8') as f:
        return f.read()


def snake(name):
    return re.sub(r'(?<=[a-z0-9])[A-Z]', lambda m: '_' + m[0].lower(), name).replace('-', '_')


def is_own(module):
    return module.startswith('Rattle.') and not re.match(r'Rattle\.(std|core)\b', module)


def ghost(text):
    """What a file of Rust imports for its clauses."""
    return '\n'.join(line for line in text.split('\n') if line.startswith('ghost use'))


def table():
    texts = {p: read(p) for p in paths('.antt', '.rt')}
    tokens = {p: set(TOKEN.findall(t if p.endswith('.antt') else ghost(t))) for p, t in texts.items()}
    declared = set()
    for path, text in texts.items():
        if path.endswith('.antt') and os.path.basename(path) != 'Proof.antt':
            for line in text.split('\n'):
                m = DECLARED.match(line)
                if m and m[3] not in NOT_NAMES:
                    declared.add(m[3])
    library = collections.defaultdict(set)
    for path, text in texts.items():
        for module, names in IMPORT.findall(text):
            if not is_own(module) and '::' not in module:
                for name in names.split(','):
                    library[name.strip()].add(path)
    variables = {p: {x for m in RUST_NAME.findall(t) for x in m if x} for p, t in texts.items() if p.endswith('.rt')}
    turned = {n: CHOSEN.get(n) or snake(n) for n in declared if not n[0].isupper() and snake(n) != n and n not in library}

    def meets(name, new, others):
        for path, words in tokens.items():
            if name in words:
                if path.endswith('.rt') and new in variables[path]:
                    return f'variable in {path}'
                if any(o in words for o in others):
                    return f'{others} in {path}'
        return None

    by_new = collections.defaultdict(set)
    for name, new in turned.items():
        by_new[new].add(name)
    for new, names in sorted(by_new.items()):
        others = names | ({new} if new in declared or new in library else set())
        for name in sorted(names):
            why = meets(name, new, others - {name})
            if not why:
                continue
            if '-' in name:
                turned[name] = new + '_lem'
            elif 'variable' in why:
                turned[name] = new + '_of'
                print(f'look: {name} is {turned[name]}: {why}', file=sys.stderr)
            elif new in declared and not any('-' in o for o in others - {name}):
                turned[new] = new + '_lem'
                print(f'look: {new} is {turned[new]}: {why}', file=sys.stderr)
    return turned


def turn(text, turned):
    return TOKEN.sub(lambda m: turned.get(m[0], m[0]), text)


def main():
    turned = table()
    if '--list' not in sys.argv:
        for path in paths('.antt', '.rt', '.edit', '.further'):
            text = read(path)
            new = turn(text, turned)
            if new != text:
                with open(path, 'w', encoding='utf-8') as f:
                    f.write(new)
        with open(os.path.join(ROOT, 'tools', 'snake-names.tsv'), 'w', encoding='utf-8') as f:
            f.writelines(f'{a}\t{b}\n' for a, b in sorted(turned.items()))
    else:
        for a, b in sorted(turned.items()):
            print(a, b, sep='\t')


if __name__ == '__main__':
    main()
