#!/usr/bin/env python3
"""Tries the edits that the gate doesn't: the prover must refuse each.

usage: edits.py [--dry] [--all] [--part=I/N] [CRATE.. | CRATE/EDIT..]     at the top of the repository

The gate tries the edits of `crates/CRATE/must-fail/`. All others stand in `bench/edits/CRATE/`, in the
same form. This program copies the crates that are named, and those below them. It lays those edits
(with --all, those of both folders) into the copy's must-fail folders, and has `rt ci` try them there.
Those of a crate are told when all of them are done. With --part=I/N it tries the I-th of N parts alone,
so that a long run can be done in pieces; each piece proves the crates of its edits once more. With
--dry it tries nothing, and only says of each edit of both folders whether it can be applied: whether
each of its `old:` texts stands once in its file. CRATE/EDIT names one edit of either folder. Without
such words all are tried.

The last line is 'N passed, M failed'.
"""
import os
import re
import shutil
import subprocess
import sys
import tempfile

FOLDERS = ('crates/{}/must-fail', 'bench/edits/{}')


def edits_in(folder):
    """The files of the edits in a folder, if there is one."""
    names = sorted(os.listdir(folder)) if os.path.isdir(folder) else []
    return [f'{folder}/{name}' for name in names if name.endswith('.edit')]


def edits_of(crate):
    """The edits of a crate in both folders."""
    return [edit for folder in FOLDERS for edit in edits_in(folder.format(crate))]


def why_not(crate, edit):
    """Why an edit can't be applied, or None: each pair applies to what those before it made."""
    texts, path, old, pairs = {}, None, None, 0
    with open(edit, encoding='utf-8') as file:
        lines = file.read().split('\n')
    for line in lines:
        word, _, text = line.partition(': ')
        if word == 'file':
            path = text.strip()
            with open(f'crates/{crate}/{path}', encoding='utf-8') as file:
                texts.setdefault(path, file.read())
        elif word == 'old':
            old = text
        elif word in ('new', 'new:') and old is not None:
            count = texts[path].count(old)
            if count != 1:
                return f'an old text stands {count} times in {path}'
            texts[path], old, pairs = texts[path].replace(old, text), None, pairs + 1
    return None if pairs else 'it has no pair of an old and a new text'


def look(crates):
    """Says of each edit that can't be applied why, and counts."""
    passed, failed = 0, 0
    for crate in crates:
        for edit in edits_of(crate):
            try:
                why = why_not(crate, edit)
            except (OSError, KeyError) as error:
                why = str(error)
            if why:
                print(f'{edit}: {why}')
            passed, failed = passed + (not why), failed + bool(why)
    return passed, failed


def named(words):
    """The edits that are named one by one, each of which has to be there."""
    edits = []
    for crate, _, name in (word.partition('/') for word in words):
        found = [(crate, edit) for edit in edits_of(crate) if edit.endswith(f'/{name}.edit')]
        if not found:
            sys.exit(f'{crate} has no edit {name}')
        edits += found
    return edits


def chosen_of(crates, both, part, parts):
    """The edits of these crates that are tried: those of one of so many parts."""
    edits = [(crate, edit) for crate in crates
             for edit in (edits_of(crate) if both else edits_in(FOLDERS[1].format(crate)))]
    return edits[part * len(edits) // parts:(part + 1) * len(edits) // parts]


def lines_of(crates):
    """The lines of crates.txt of these crates and of all below them."""
    with open('crates.txt', encoding='utf-8') as file:
        lines = {line.split()[0].rstrip(':'): line for line in file if ':' in line}
    wanted, open_ends = set(), list(crates)
    while open_ends:
        crate = open_ends.pop()
        if crate in lines and crate not in wanted:
            wanted.add(crate)
            open_ends += lines[crate].partition(':')[2].split()
    return {crate: line for crate, line in lines.items() if crate in wanted}


def copy_to(room, crates):
    """Copies what git knows of these crates and of those below them, but for the edits of the gate."""
    lines = lines_of(crates)
    with open(f'{room}/crates.txt', 'w', encoding='utf-8') as file:
        file.writelines(lines.values())
    shutil.copy('HANDLES', room)
    files = subprocess.run(['git', 'ls-files', '-z', 'crates'], stdout=subprocess.PIPE, check=True).stdout
    for name in filter(None, files.decode().split('\0')):
        if os.path.isfile(name) and '/must-fail/' not in name and name.split('/')[1] in lines:
            os.makedirs(os.path.dirname(f'{room}/{name}'), exist_ok=True)
            shutil.copy(name, f'{room}/{name}')


def try_all(edits):
    """Has the prover try the edits in a copy of the tree, and counts those that it refused."""
    with tempfile.TemporaryDirectory(prefix='edits-') as room:
        copy_to(room, {crate for crate, _ in edits})
        for crate, edit in edits:
            folder = f'{room}/{FOLDERS[0].format(crate)}'
            os.makedirs(folder, exist_ok=True)
            shutil.copy(edit, folder)
        refused = 0
        with subprocess.Popen(['rt', 'ci'], cwd=room, stdout=subprocess.PIPE, text=True) as run:
            for line in run.stdout:
                if 'must-fail ' in line or 'NOT PROVED' in line:
                    print(line, end='', flush=True)
                refused += ': refused, as it must be' in line
        return refused, len(edits) - refused


def main():
    flags = [word for word in sys.argv[1:] if word.startswith('--')]
    words = [word for word in sys.argv[1:] if not word.startswith('--')]
    alone = [word for word in words if '/' in word]
    crates = [word for word in words if '/' not in word]
    known = sorted(os.listdir('crates'))
    unknown = [word for word in crates if word not in known]
    part, parts = 0, 1
    for flag in flags:
        if found := re.fullmatch(r'--part=(\d+)/(\d+)', flag):
            part, parts = int(found[1]) - 1, int(found[2])
        elif flag not in ('--dry', '--all'):
            unknown.append(flag)
    if unknown or not 0 <= part < parts or alone and (crates or flags):
        print(__doc__)
        return 2
    crates = crates or known
    if '--dry' in flags:
        passed, failed = look(crates)
    else:
        passed, failed = try_all(named(alone) if alone else chosen_of(crates, '--all' in flags, part, parts))
    print(f'{passed} passed, {failed} failed')
    return 1 if failed else 0


if __name__ == '__main__':
    sys.exit(main())
