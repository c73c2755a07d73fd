#!/usr/bin/env python3
"""Respells this repository's own definitions, lemmas, fields and constructors in specs/ and proofs/:
words in snake case, facts and types in upper camel case; a dash stays only between the names of two functions.

    python3 tools/respell.py            run once at the top, after port.py
    python3 tools/respell.py --dry      print what it would do

Names of src/ (functions, structs, fields, variants), of the library and of goals keep their spelling.
"""
import os
import re
import sys

DRY = '--dry' in sys.argv
STD = {'length', 'take', 'drop', 'map', 'append', 'reverse', 'replicate', 'bit_xor', 'get_or'}
# where two names would fall together, or a piece is the older name of a function of the library
BY_HAND = {
    'getD-backward': 'get_or-backward',
    'getD-onward': 'get_or-onward',
    'getD-onward-last': 'get_or-onward_last',
    'fault-of': 'number_of_fault',
    'Missing-zero': 'ZeroIsMissing',
    'is-of': 'is_of_here',
    'of-group': 'of_group_filters',
    'open-one': 'open_is_one',
}
TOKEN = re.compile(r"[^\s(){}\[\].,;:=|\\«»`\"]+")
SIGNATURE = re.compile(r'^((?:(?:abbrev|unfoldable|pub|data|record)\s+)*)([^\s:(){},;]+)((?:\s+[({].*?[)}])*)\s*:\s(.*)$')
FIELD = re.compile(r'^  (?:pub )?([^\s:(){},;]+)\s+:\s')


def files(suffix, folders=('specs', 'proofs', 'src')):
    for d, _, names in os.walk('crates'):
        parts = d.split(os.sep)
        if len(parts) < 3 or parts[2] not in folders:
            continue
        for name in sorted(names):
            if name.endswith(suffix):
                yield os.path.join(d, name)


def read(path):
    with open(path, encoding='utf-8') as f:
        return f.read()


def foreign(text):
    """names that a file takes from outside the repository"""
    out = set()
    for m in re.finditer(r'use ([^\s{};]+)\.\{([^}]*)\}', text):
        crate = re.match(r'Rattle\.(\w+)\.', m.group(1))
        own = crate and os.path.isdir(os.path.join('crates', crate.group(1)))
        if not own or '.Goals' in m.group(1) or '.declared.' in m.group(1):
            out |= {x.split(' as ')[0].strip() for x in m.group(2).split(',')}
    return out


def snake(word):
    return re.sub(r'(?<=[a-z0-9])([A-Z])', lambda m: '_' + m.group(1).lower(), word)


def main():
    declared, functions = {}, set()
    for path in files('.antt', ('specs', 'proofs')):
        for line in read(path).split('\n'):
            m = SIGNATURE.match(line)
            if m and not m.group(4).startswith('goal.'):
                declared.setdefault(m.group(2), set()).add(path)
                if 'abbrev' in m.group(1) or 'unfoldable' in m.group(1):
                    functions.add(snake(m.group(2)))
            m = FIELD.match(line)
            if m:
                declared.setdefault(m.group(1), set()).add(path)
    functions |= STD
    rename = {}
    for name in declared:
        if name in BY_HAND:
            new = BY_HAND[name]
        elif name[0].isupper():
            new = ''.join(w[0].upper() + w[1:] for w in name.split('-'))
        else:
            words = [snake(w) for w in name.split('-')]
            new = words[0]
            for a, b in zip(words, words[1:]):
                new += ('-' if a in functions and b in functions else '_') + b
        if new != name:
            rename[name] = new
    everything = set()
    for path in list(files('.antt')) + list(files('.rt')):
        everything |= set(TOKEN.findall(read(path)))
    seen = {}
    for name, new in sorted(rename.items()):
        if new in everything:
            print('falls together with a name that stands:', name, new)
        if new in seen:
            print('fall together:', name, seen[new], new)
        seen[new] = name
    print(len(rename), 'names')
    if DRY:
        for name, new in sorted(rename.items()):
            print(name, '->', new)
        return
    for path in list(files('.antt')) + list(files('.rt', ('src',))):
        text = read(path)
        skip = foreign(text)
        if path.endswith('.rt'):
            imported = set()
            for m in re.finditer(r'ghost use ([^\s{};]+)\.\{([^}]*)\}', text):
                imported |= {x.split(' as ')[0].strip() for x in m.group(2).split(',')}
            here = {k: v for k, v in rename.items() if k in imported and k not in skip}
        else:
            here = {k: v for k, v in rename.items() if k not in skip}
        new = TOKEN.sub(lambda m: here.get(m.group(0), m.group(0)), text)
        if new != text:
            with open(path, 'w', encoding='utf-8') as f:
                f.write(new)
    for name in sorted(os.listdir('docs')) + ['../README.md']:
        path = os.path.join('docs', name)
        if not name.endswith('.md') or name == 'PORT.md':
            continue
        text = read(path)
        new = re.sub(r'`[^`\n]+`', lambda c: TOKEN.sub(lambda m: rename.get(m.group(0), m.group(0)), c.group(0)), text)
        if new != text:
            with open(path, 'w', encoding='utf-8') as f:
                f.write(new)


main()
