#!/usr/bin/env python3
"""Joins the expected lines of the cases of crates/protocases into its stdout, or compares them.

usage: case_files.py [--write]        at the top of the repository

A case is a source, `data/NAME.proto`, and beside it `data/NAME.expected`: the lines that the program has
to print of it. The program reads the sources in the order of `args`, and its whole output is in `stdout`,
where a line `== NAME.proto` stands before the lines of each case. What it prints for `--fronts`,
`--returns` and `--large` has no file of its own; it stands in `stdout` alone.

Without --write each case is compared with its part of `stdout`, and each that differs is told. The gate
does so. With --write a case whose files are there and whose name isn't in `args` gets a line there, behind
the others of its kind, and `stdout` gets the lines of all cases. The last line is 'N passed, M failed'.
"""
import os
import sys

FOLDER = 'crates/protocases'
DATA = f'{FOLDER}/data'
HEAD = '== '


def read(path):
    """The lines of a file."""
    with open(path, encoding='utf-8') as file:
        return file.read().splitlines()


def write(path, lines):
    with open(path, 'w', encoding='utf-8') as file:
        file.write(''.join(f'{line}\n' for line in lines))


def is_case(word):
    return word.endswith('.proto')


def groups_of(words):
    """The words of `args`, apart: the files of whole sources, those for the lexer, and the rest."""
    lexemes, fronts = words.index('--lexemes'), words.index('--fronts')
    return words[:lexemes], words[lexemes + 1:fronts], words[fronts:]


def expected_path(name):
    return f'{DATA}/{name.removesuffix(".proto")}.expected'


def names_in(folder):
    """The sources that stand beside an expected file, by their names in `args`."""
    files = sorted(os.listdir(f'{DATA}/{folder}'))
    stems = [name.removesuffix('.expected') for name in files if name.endswith('.expected')]
    return [f'{folder}{stem}.proto' for stem in stems if f'{stem}.proto' in files]


def parts_of(lines):
    """The lines of each part of `stdout` behind its head, in order."""
    parts = []
    for line in lines:
        if line.startswith(HEAD):
            parts.append((line.removeprefix(HEAD), []))
        elif parts:
            parts[-1][1].append(line)
    return parts


def compare(names, parts):
    """Tells each case whose part of `stdout` differs, and counts."""
    failed = 0
    for number, name in enumerate(names):
        part = parts[number] if number < len(parts) else ('nothing', [])
        if not os.path.isfile(expected_path(name)):
            print(f'{name}: {expected_path(name)} is missing')
        elif part[0] != name:
            print(f'{name}: in {FOLDER}/stdout {part[0]} stands in its place')
        elif part[1] != read(expected_path(name)):
            print(f'{name}: {FOLDER}/stdout has other lines than {expected_path(name)}')
        else:
            continue
        failed += 1
    return len(names) - failed, failed


def join(words):
    """Adds the cases that `args` doesn't have, and writes `args` and `stdout`."""
    whole, lexemes, rest = groups_of(words)
    whole += [name for name in names_in('') if name not in whole]
    lexemes += [name for name in names_in('lexemes/') if name not in lexemes]
    kept = parts_of(read(f'{FOLDER}/stdout'))[len(groups_of(words)[0]) + len(groups_of(words)[1]):]
    lines = []
    for name in whole + lexemes:
        lines += [f'{HEAD}{name}', *read(expected_path(name))]
    for head, part in kept:
        lines += [f'{HEAD}{head}', *part]
    write(f'{FOLDER}/args', whole + ['--lexemes'] + lexemes + rest)
    write(f'{FOLDER}/stdout', lines)


def main():
    if sys.argv[1:] not in ([], ['--write']):
        print(__doc__)
        return 2
    if sys.argv[1:] == ['--write']:
        join(read(f'{FOLDER}/args'))
    whole, lexemes, _ = groups_of(read(f'{FOLDER}/args'))
    unnamed = [name for name in names_in('') + names_in('lexemes/') if name not in whole + lexemes]
    for name in unnamed:
        print(f'{name}: {FOLDER}/args has no line for it')
    passed, failed = compare(whole + lexemes, parts_of(read(f'{FOLDER}/stdout')))
    print(f'{passed} passed, {failed + len(unnamed)} failed')
    return 1 if failed or unnamed else 0


if __name__ == '__main__':
    sys.exit(main())
