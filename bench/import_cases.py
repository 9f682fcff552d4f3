#!/usr/bin/env python3
"""Asks protoc about sets of files that import each other, and compares `importcases` with it.

usage: import_cases.py PROTOC [--count N] [--seed S]     at the top of the repository
       import_cases.py PROTOC --write FOLDER             writes the cases of `importcases`

Without --write, it compares the answers of crates/importcases/out/importcases for the sets below and
for N that are made by chance (200, from seed 1). The last line is 'N passed, M failed'. With --write,
it writes `stdin` and `stdout`: the sets below, and some by chance.

protoc gives the order, the imports, what is missing and what a file sees. Of a set with a cycle it
gives the cycle alone. Where it has no answer, the lines below were worked out by hand from these
rules: of equal names the first file counts, a public index that is none of an import is left out,
and a file sees itself, its imports and what those pass on. It was written for protoc 3.21.12.
"""
import argparse
import os
import random
import re
import subprocess
import sys
import tempfile

PROGRAM = 'crates/importcases/out/importcases'
LOST = ': File not found.'

# Sets of which protoc gives all lines. Files are parted by ';'. All names end in `.proto`.
SETS = [
    ('one file', 'file a'),
    ('a chain', 'file c, import b; file b, import a; file a'),
    ('a chain, given from below', 'file a; file b, import a; file c, import b'),
    ('a chain, given in disorder', 'file b, import a; file d, import c; file a; file c, import b'),
    ('a diamond', 'file top, import left, import right; file left, import base;'
     'file right, import base; file base'),
    ('imports in another order than the files',
     'file top, import d, import b, import c; file b; file c; file d, import c'),
    ('files that share nothing', 'file d, import c; file b, import a; file a; file c'),
    ('public imports over several steps', 'file user, import a; file a, public b; file b, public c;'
     'file c, public d; file d, import e; file e'),
    ('a private import is not passed on', 'file user, import a; file a, import b, public c;'
     'file b, public d; file c; file d'),
    ('a private import between public ones', 'file user, import a; file a, public b; file b, import c;'
     'file c, public d; file d'),
    ('what a file imports publicly it sees itself', 'file a, public b; file b, import c, public d;'
     'file c; file d'),
    ('a diamond of public imports', 'file user, import top; file top, public left, public right;'
     'file left, public base; file right, import base; file base'),
    ('a weak import is seen, and not passed on', 'file user, import a; file a, weak b; file b, public c;'
     'file c'),
    ('a missing import', 'file a, import gone; file b, import a'),
    ('missing imports among others', 'file top, import gone, import a, public lost, public b, weak away;'
     'file a, import lost; file b; file user, import top'),
    ('names that are alike', 'file ab, import a, import abc; file abc, import A; file A;'
     'file a, import d/a; file d/a, public e/a; file e/a'),
]

# Sets with a cycle: protoc gives the cycle. The other lines were worked out by hand.
CYCLES = [
    ('a cycle of one', 'file a, import a', 'a imports: a; a sees: a'),
    ('a cycle of two', 'file a, import b; file b, import a',
     'a imports: b; a sees: a b; b imports: a; b sees: a b'),
    ('a cycle of three', 'file c, import a; file a, import b; file b, import c',
     'c imports: a; c sees: c a; a imports: b; a sees: a b; b imports: c; b sees: c b'),
    ('a cycle behind a chain', 'file free; file top, import free, import on; file on, import a;'
     'file a, import free, import b; file b, import c; file c, import a',
     'free sees: free; top imports: free on; top sees: free top on; on imports: a; on sees: on a;'
     'a imports: free b; a sees: free a b; b imports: c; b sees: b c; c imports: a; c sees: a c'),
    ('a cycle of public imports', 'file user, import a; file a, public b; file b, public c;'
     'file c, public a, import user',
     'user imports: a; user sees: user a b c; a imports: b; a passes on: b; a sees: a b c;'
     'b imports: c; b passes on: c; b sees: a b c; c imports: a user; c passes on: a;'
     'c sees: user a b c'),
]

# Sets that no source has, or that protoc doesn't take. All lines were worked out by hand.
BY_HAND = [
    ('no file', '', 'no files'),
    ('no file, but an import', ', import a', 'no files'),
    ('two files of one name: the first counts', 'file user, import a; file a, public b; file a, public c;'
     'file b; file c',
     'files: 5; order: b a user c a; user imports: a; user sees: user a b; a imports: b; a passes on: b;'
     'a sees: a b; a imports: c; a passes on: c; a sees: a c; b sees: b; c sees: c'),
    ('two files of one name, of which the second imports the first', 'file a; file a, import a',
     'files: 2; order: a a; a sees: a; a imports: a; a sees: a a'),
    ('a file without a name', 'file user, import a; file, public a; file a',
     'files: 3; order: a user (no name); user imports: a; user sees: user a; (no name) imports: a;'
     '(no name) passes on: a; (no name) sees: (no name) a; a sees: a'),
    ('no import names a file without a name', 'file; file user, import (no name)',
     'files: 2; order: (no name) user; (no name) sees: (no name); user misses: (no name);'
     'user sees: user'),
    ('an index that is none of an import', 'file user, import a; file a, import b, public c, index 2,'
     'index -1, index 2147483647, index -2147483648; file b; file c',
     'files: 4; order: b c a user; user imports: a; user sees: user a c; a imports: b c;'
     'a passes on: c; a sees: a b c; b sees: b; c sees: c'),
    ('an index before its import, and one twice', 'file user, import a; file a, index 1, import b,'
     'import c, index 0, index 1; file b; file c',
     'files: 4; order: b c a user; user imports: a; user sees: user a b c; a imports: b c;'
     'a passes on: c b c; a sees: a b c; b sees: b; c sees: c'),
    ('an index of a missing import', 'file user, import a; file a, import gone, import b, index 0,'
     'index 1; file b',
     'files: 3; order: b a user; user imports: a; user sees: user a b; a imports: b; a passes on: b;'
     'a misses: gone; a sees: a b; b sees: b'),
    ('one file twice', 'file user, import a, import b, public a, import gone, import gone; file a;'
     'file b; file far, import user',
     'files: 4; order: a b user far; user imports: a b a; user passes on: a; user misses: gone gone;'
     'user sees: user a b; a sees: a; b sees: b; far imports: user; far sees: user a far'),
]


def full(name):
    return name if name == '(no name)' else name + '.proto'


class File:
    """A file of a set: its name, and its imports with their verbs."""

    def __init__(self, name):
        self.name, self.imports = name, []

    def text(self, number, without, uses):
        """Its source, with a message of its own, and with fields of the messages of other files."""
        lines = ['syntax = "proto2";']
        for verb, name in self.imports:
            if name not in without:
                lines.append(f'import {verb} "{name}";' if verb != 'import' else f'import "{name}";')
        lines += [f'message M{number} {{\n}}', 'message Uses {' if uses else '']
        first = '\n'.join(lines).count('\n') + 2
        lines += [f'optional .M{other} f{other} = {other + 1};' for other in range(uses)]
        return '\n'.join(lines + ['}' if uses else '']) + '\n', first


def lines_of(text):
    """The lines of a set that is written in short."""
    for file in text.split(';'):
        for line in file.split(','):
            verb, _, rest = line.strip().partition(' ')
            if verb:
                yield f'{verb} {rest if verb == "index" else full(rest)}' if rest else verb


def hand(text):
    """Lines of an answer that is written in short."""
    for line in text.split(';'):
        found = re.fullmatch(r'\s*(.*?) ?(order|cycle|imports|passes on|misses|sees):(.*)', line)
        if not found:
            yield line.strip()
            continue
        names = [full(name) for name in re.findall(r'\(no name\)|\S+', found[3])]
        head = full(found[1]) + ' ' if found[1] else ''
        yield ' '.join([f'{head}{found[2]}:'] + names)


def files_of(lines):
    files = []
    for line in lines:
        verb, _, name = line.partition(' ')
        if verb == 'file':
            files.append(File(name))
        else:
            files[-1].imports.append((verb, name))
    return files


def wire(data):
    """The fields of a serialized message, as numbers and values."""
    def number(at):
        value = shift = 0
        while True:
            value |= (data[at] & 127) << shift
            shift, at = shift + 7, at + 1
            if data[at - 1] < 128:
                return value, at
    at, fields = 0, []
    while at < len(data):
        tag, at = number(at)
        size, at = number(at)
        value = size
        if tag & 7 == 2:
            value, at = data[at:at + size], at + size
        fields.append((tag >> 3, value))
    return fields


class Protoc:
    def __init__(self, program, folder):
        self.program, self.folder = program, folder

    def write(self, file, number, without=(), uses=0):
        path = os.path.join(self.folder, file.name)
        os.makedirs(os.path.dirname(path), exist_ok=True)
        text, first = file.text(number, without, uses)
        with open(path, 'w', encoding='utf-8') as out:
            out.write(text)
        return first

    def errors(self, names):
        done = subprocess.run([self.program, f'-I{self.folder}', '--include_imports',
                               f'-o{self.folder}/set', *names],
                              capture_output=True, text=True, check=False)
        return [line for line in done.stderr.split('\n') if line and 'warning:' not in line]

    def set(self):
        """Name, imports and indices of public imports of each file, in protoc's order."""
        with open(os.path.join(self.folder, 'set'), 'rb') as data:
            files = [wire(value) for _, value in wire(data.read())]
        return [([v.decode() for t, v in file if t == 1][0], [v.decode() for t, v in file if t == 3],
                 [v for t, v in file if t == 10]) for file in files]

    def seen(self, files, number, without):
        """The files whose messages a file may use."""
        first = self.write(files[number], number, without, len(files))
        hidden = set()
        for error in self.errors([files[number].name]):
            found = re.fullmatch(r'[^:]+:(\d+):\d+: (.*)', error)
            if not found or not ('is not defined.' in error or 'seems to be defined in' in error):
                sys.exit(error)
            hidden.add(int(found[1]) - first)
        self.write(files[number], number, without)
        return [file.name for other, file in enumerate(files) if other not in hidden]

    def missing(self, files, names):
        """The errors of files without their missing imports, and the names of those."""
        gone = set()
        while True:
            for number, file in enumerate(files):
                self.write(file, number, gone)
            errors = self.errors(names)
            found = {error[:-len(LOST)] for error in errors if error.endswith(LOST)}
            if not found:
                return errors, gone
            gone |= found

    def ask(self, lines):
        """The lines that a set of files is answered with, and whether that is all of them."""
        files = files_of(lines)
        names = [file.name for file in files]
        errors, gone = self.missing(files, names)
        answer = [f'files: {len(files)}']
        for error in errors:
            if found := re.search('File recursively imports itself: (.*)', error):
                return answer + [' '.join(['cycle:'] + found[1].split(' -> ')[:-1])], False
        if errors:
            sys.exit('\n'.join(errors))
        made = self.set()
        answer.append(' '.join(['order:'] + [name for name, _, _ in made]))
        made = {name: (imports, public) for name, imports, public in made}
        for number, file in enumerate(files):
            imports, public = made[file.name]
            for word, found in (('imports:', imports), ('passes on:', [imports[n] for n in public]),
                                ('misses:', [name for _, name in file.imports if name in gone]),
                                ('sees:', self.seen(files, number, gone))):
                answer += [' '.join([file.name, word] + found)] if found else []
        return answer, True


def by_chance(seed):
    """A set of files by chance, where few have a cycle."""
    rng = random.Random(seed)
    names = [f'{letter}.proto' for letter in 'abcdefgh'[:rng.randint(2, 8)]]
    given = rng.sample(names, len(names))
    lines = []
    for name in given:
        lines.append(f'file {name}')
        others = names if rng.random() < 0.05 else names[:names.index(name)]
        chosen = rng.sample(others, min(len(others), rng.choice([0, 1, 1, 2, 2, 3])))
        if rng.random() < 0.08:
            chosen.insert(rng.randint(0, len(chosen)), f'gone_{rng.choice("ab")}.proto')
        lines += [f'{rng.choice(["import", "import", "public", "public", "weak"])} {it}' for it in chosen]
    return lines


def cases(program, chosen, whole):
    """For each set its title, its lines, and its answer; and whether the answer is all of it."""
    def asked(lines):
        with tempfile.TemporaryDirectory() as folder:
            return Protoc(program, folder).ask(lines)

    for title, text in SETS:
        answer, all_of_it = asked(list(lines_of(text)))
        if not all_of_it:
            sys.exit(f'{title}: a cycle')
        yield title, list(lines_of(text)), answer, True
    for title, text, more in CYCLES:
        answer, all_of_it = asked(list(lines_of(text)))
        if all_of_it:
            sys.exit(f'{title}: no cycle')
        yield title, list(lines_of(text)), answer + list(hand(more)), True
    for title, text, more in BY_HAND:
        yield title, list(lines_of(text)), list(hand(more)), True
    for seed in chosen:
        lines = by_chance(seed)
        answer, all_of_it = asked(lines)
        if all_of_it or not whole:
            yield f'by chance {seed}', lines, answer, all_of_it


def answers_of(read):
    """What the program says of each set."""
    if not os.path.exists(PROGRAM):
        sys.exit(f'{PROGRAM} is not there: `rt run` in crates/importcases makes it')
    done = subprocess.run([PROGRAM], input=read, capture_output=True, text=True, check=True)
    answers = [block.split('\n') for block in done.stdout.split('set ')[1:]]
    return {block[0]: block[1:-1] for block in answers}


def main():
    words = argparse.ArgumentParser()
    words.add_argument('protoc')
    words.add_argument('--count', type=int, default=200)
    words.add_argument('--seed', type=int, default=1)
    words.add_argument('--write')
    words = words.parse_args()
    count = 6 if words.write else words.count
    sets = list(cases(words.protoc, range(words.seed, words.seed + count), words.write is not None))
    read = ''.join('\n'.join([f'set {title}', *lines, 'end\n']) for title, lines, _, _ in sets)
    if words.write:
        wanted = ''.join('\n'.join([f'set {title}', *answer]) + '\n' for title, _, answer, _ in sets)
        for name, text in (('stdin', read), ('stdout', wanted)):
            with open(os.path.join(words.write, name), 'w', encoding='utf-8') as out:
                out.write(text)
        return
    found = answers_of(read)
    wrong = 0
    for title, lines, answer, all_of_it in sets:
        here = found.get(title, [])
        if (here if all_of_it else here[:len(answer)]) != answer:
            wrong += 1
            print('\n'.join([f'set {title}', *lines, 'end', '-- wanted', *answer, '-- here', *here]))
    print(f'{len(sets) - wrong} passed, {wrong} failed')
    sys.exit(1 if wrong else 0)


main()
