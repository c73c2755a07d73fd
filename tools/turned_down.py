#!/usr/bin/env python3
"""Tries the edits crates/NAME/turned-down/*.edit: programs that the language itself must turn down, before any proof.

    python3 tools/turned_down.py        at the top of the repository

An edit is written as a must-fail edit is, and ends in a line 'error: NAME', the error that the edited program must give, and no other.
Each is applied to a copy of the repository. The program without the edit is proved and run by the gate.
"""
import glob
import os
import re
import shutil
import subprocess
import sys
import tempfile


def read_edit(path):
    """the file, the pairs of texts and the name of the error"""
    name, pairs, error = None, [], None
    for line in open(path, encoding='utf-8').read().splitlines():
        key, _, text = line.partition(': ')
        if key == 'file':
            name = text
        elif key == 'old':
            pairs.append([text, None])
        elif key == 'new':
            pairs[-1][1] = text
        elif key == 'error':
            error = text
    return name, pairs, error


def tried(crate, path):
    """what is wrong with how the edited program was turned down, or nothing"""
    name, pairs, error = read_edit(path)
    with tempfile.TemporaryDirectory() as copy:
        shutil.copytree('crates', f'{copy}/crates', ignore=shutil.ignore_patterns('out'))
        shutil.copy('crates.txt', copy)
        file = f'{copy}/{crate}/{name}'
        text = open(file, encoding='utf-8').read()
        for old, new in pairs:
            if text.count(old) != 1:
                return f'{old!r} stands {text.count(old)} times in {name}'
            text = text.replace(old, new)
        open(file, 'w', encoding='utf-8').write(text)
        ran = subprocess.run(['rt', 'try'], cwd=f'{copy}/{crate}', capture_output=True, text=True, stdin=subprocess.DEVNULL)
    errors = set(re.findall(r'\berror\[([\w-]+)\]', ran.stdout + ran.stderr))
    if ran.returncode != 1 or errors != {error}:
        return f'status {ran.returncode}, errors {sorted(errors)}, and not 1 and {error}'
    return ''


def main():
    paths = sorted(glob.glob('crates/*/turned-down/*.edit'))
    if not paths:
        sys.exit('no crates/NAME/turned-down/*.edit to try')
    bad = 0
    for path in paths:
        wrong = tried(path.rsplit('/', 2)[0], path)
        bad += bool(wrong)
        print(f'turned down {path}: {wrong or "as it must be"}', flush=True)
    sys.exit(1 if bad else 0)


main()
