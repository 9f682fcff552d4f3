#!/usr/bin/env python3
"""Asks protoc what linking makes of sets of files, and compares `linkcases` with it.

usage: link_cases.py PROTOC PARSED [--count N] [--seed S]     compares, at the top of the repository
       link_cases.py PROTOC PARSED --write FOLDER             writes FOLDER/stdout

The sets are those of crates/linkcases/stdin: add sets there. With --write, FOLDER/stdout gets protoc's
answers to the sets of FOLDER/stdin. Without, the answers of crates/linkcases/out/linkcases are compared
with protoc's, for the same sets and for those that come of N that are made by chance (200, from seed
1). The last line is 'N passed, M failed'. PARSED is the program of bench/parsed.cc: by what it says
protoc's lines and columns become paths. It needs python3-protobuf, and was written for protoc 3.21.12.

A few things are told otherwise than by protoc. Faults are in the order of the files and of their
parts. A circle is told alone. Nothing is said of imports that are there and faulty, so in no set a
file uses what a faulty one declares. The type of an extension is looked at also where it extends no
message, so in no set both are wrong.

Of equal names in one file protoc takes that of a oneof first, then those of fields, enums, messages and
extensions, and here it is the first in the order of paths; so of such sets that are made by chance the
names that are used and the defaults aren't compared. Of equal names in two files protoc takes that of the file that is
read first, and here it is that of the file that is given first; so in no set a file stands before one
that it imports and that has a name of it. Of the parts of a package that are something else, protoc tells
the longest alone.
"""
import argparse
import os
import random
import re
import subprocess
import sys
import tempfile

from link_sets import LIKE_ANOTHER, Protoc, Unclear, linked_lines, sets_of, within, written

PROGRAM = 'crates/linkcases/out/linkcases'
PACKAGES = ['', 'a', 'b', 'a.b', 'b.a', 'a.b.c', 'c.a']
# A line of one declaration that uses names.
USE = re.compile(r'(optional .*;|[\w.]+ \w+ = \d+;|map<.*;|rpc .*;|extend .*|oneof .*|import .*)')
# What is wrong in proto3 alone.
PROTO3 = ('first value not zero', 'extensions in proto3', 'not of options', LIKE_ANOTHER)
# A fault of a name that is declared twice in a file, and one of a name that is used or of a default.
TWICE = re.compile(r'(\S+) \S+ already defined: \S+ in \1')
USED = re.compile(r'\S+ \S+ (not (defined|a type|a message): .*|no such value|default of a message|bad default'
                  r'|in no extension range|extension number used before|not of options)')


class Chance:
    """A file by chance, of few names, so that many of them are alike."""

    def __init__(self, rng, name, others, taken):
        self.rng, self.taken, self.number, self.in_maps = rng, taken, 0, set()
        self.twice = rng.random() < 0.2
        self.proto3 = rng.random() < 0.2
        package = rng.choice(PACKAGES)
        self.lines = [f'syntax = "proto{3 if self.proto3 else 2}";'] + ([f'package {package};'] if package else [])
        for other in others:
            if rng.random() < 0.6:
                self.lines.append(f'import {rng.choice(["", "", "public ", "weak "])}"{other}";')
        self.name = name
        parts = package.split('.') if package else []
        self.taken |= {'.'.join(parts[:n + 1]) for n in range(len(parts))}
        for _ in range(rng.randint(1, 3)):
            rng.choice([self.message, self.message, self.message, self.enum, self.service])(package)
        self.extend(package)

    def text(self):
        return '\n'.join(self.lines) + '\n'

    def own(self, scope, letters='abcd'):
        """A name of its own; in some files it may be taken."""
        names = [self.rng.choice(letters) for _ in range(6)] + [f'n{len(self.taken)}_{self.name[0]}']
        name = next(name for name in names if self.twice or within(scope, name) not in self.taken)
        self.taken.add(within(scope, name))
        return name

    def used(self):
        """A name that is used: by chance alone, or the end of one that is there."""
        if self.rng.random() < 0.3:
            name = '.'.join(self.rng.choice('abcd') for _ in range(self.rng.choice([1, 1, 2, 3])))
        else:
            parts = self.rng.choice(sorted(self.taken | {'a'})).split('.')
            name = '.'.join(parts[-self.rng.randint(1, len(parts)):])
            if name == '.'.join(parts) and self.rng.random() < 0.5:
                return '.' + name
        return '.' + name if self.rng.random() < 0.1 else name

    def used_in_map(self):
        """Of no other map, since protoc tells no place of it."""
        name = self.used()
        while name in self.in_maps:
            name = self.rng.choice('abcd') + '.' + name.lstrip('.')
        self.in_maps.add(name)
        return name

    def default(self):
        """A default, which may be that of no type."""
        if self.proto3 or self.rng.random() < 0.7:
            return ''
        return f' [default = {self.rng.choice("abcd")}]'

    def next(self):
        self.number += 1
        return self.number

    def message(self, scope, depth=0):
        full = within(scope, self.own(scope))
        self.lines.append(f'message {full.rpartition(".")[2]} {{')
        if not self.proto3 or self.rng.random() < 0.1:
            self.lines.append('extensions 1000 to max;')
        optional = '' if self.proto3 else 'optional '
        if depth < 3:
            for _ in range(self.rng.choice([0, 0, 1, 1, 2])):
                self.message(full, depth + 1)
        for _ in range(self.rng.randint(0, 3)):
            letters = 'abcdAB' if self.proto3 else 'abcd'
            name = self.own(full, letters) if self.rng.random() < 0.4 else f'f_{self.next()}'
            self.lines.append(self.rng.choice([
                f'{optional}{self.used()} {name} = {self.next()};',
                f'{optional}{self.used()} {name} = {self.next()}{self.default()};',
                f'map<string, {self.used_in_map()}> {name} = {self.next()};',
                f'oneof {self.own(full)} {{ {self.used()} {name} = {self.next()}; }}']))
        if self.rng.random() < 0.3:
            self.enum(full)
        if self.rng.random() < 0.2:
            self.lines.append(f'reserved "{self.rng.choice("abcd")}", "f_{self.number}";')
        self.extend(full)
        self.lines.append('}')

    def enum(self, scope):
        number = self.rng.choice([0, 0, 0, 0, 7]) if self.proto3 else 0
        name, values = self.own(scope), [f'{self.own(scope)} = {number};']
        if self.proto3 and self.rng.random() < 0.3:
            values += [f'{self.own(scope, ["A", "B", f"{name}_a", f"_{name}B"])} = {n};' for n in range(1, 3)]
        self.lines.append(f'enum {name} {{ {" ".join(values)} }}')

    def service(self, scope):
        full = within(scope, self.own(scope))
        self.lines.append(f'service {full.rpartition(".")[2]} {{')
        for _ in range(self.rng.randint(0, 3)):
            self.lines.append(f'rpc {self.own(full)}({self.used()}) returns ({self.used()});')
        self.lines.append('}')

    def extend(self, scope):
        for _ in range(self.rng.choice([0, 0, 0, 1, 2])):
            if self.proto3 and self.rng.random() < 0.8:
                continue
            number = self.rng.choice([999, 1000, 1001, self.rng.randint(1000, 400000000)])
            optional = '' if self.proto3 else 'optional '
            self.lines.append(f'extend {self.used()} {{ {optional}int32 {self.own(scope)} = {number}; }}')


def by_chance(protoc, seed):
    """Sets of files, each with protoc's answer. A file that is wrong is the last one of a set, and then loses
    the lines that are wrong."""
    rng, files, taken = random.Random(seed), [], set()
    for number in range(rng.randint(1, 4)):
        name = f'file{number}.proto'
        before = set(taken)
        text = Chance(rng, name, [other for other, _ in files], taken).text()
        names = [other for other, _ in files] + [name]
        protoc.write([(name, text)])
        if errors := protoc.run(names):
            yield f'by chance {seed}, {number}', files + [(name, text)], protoc.faults_of(name, errors, names)
            wrong = {int(error.split(':')[1]) for error in errors if error.split(':')[1].isdigit()}
            lines = [line for at, line in enumerate(text.split('\n'), 1) if at not in wrong or not USE.fullmatch(line)]
            text = '\n'.join(lines)
            protoc.write([(name, text)])
        if protoc.run(names):
            taken -= taken - before
        else:
            files.append((name, text))
    if files:
        names = [name for name, _ in files]
        if protoc.run(names):
            sys.exit(f'errors are left in {seed}')
        yield f'by chance {seed}', files, linked_lines(protoc.set(), names)


def comparable(lines):
    """What is compared of the lines of a set that is made by chance: faults with their texts. What is
    wrong in proto3 alone is told by protoc only where nothing else is wrong, but for values that are alike."""
    faults = []
    for line in lines:
        if line.startswith('  '):
            faults[-1].append(line)
        else:
            faults.append([line])
    if any(TWICE.fullmatch(fault[0]) for fault in faults):
        faults = [fault for fault in faults if not USED.fullmatch(fault[0])]
    values = [fault for fault in faults if fault[1:] and fault[1].startswith('  Enum name ')]
    faults = [fault for fault in faults if not fault[0].endswith(PROTO3)] or values or faults
    packages = [fault for fault in faults if ' not a package: ' in fault[0]]
    return [line for fault in faults if fault not in packages[1:] for line in fault]


def asked(words, sets, count):
    """Sets with protoc's answers: these, and some by chance."""
    for title, files in sets:
        with tempfile.TemporaryDirectory() as folder:
            yield title, files, Protoc(words.protoc, words.parsed, folder).ask(files)
    for seed in range(words.seed, words.seed + count):
        with tempfile.TemporaryDirectory() as folder:
            try:
                yield from by_chance(Protoc(words.protoc, words.parsed, folder), seed)
            except Unclear as why:
                print(f'the rest of seed {seed} is left out: {why}')


def answers_of(read):
    """What the program says of each set."""
    if not os.path.exists(PROGRAM):
        sys.exit(f'{PROGRAM} is not there: `rt run` in crates/linkcases makes it')
    done = subprocess.run([PROGRAM], input=read, capture_output=True, text=True, check=True)
    return [block.splitlines()[1:] for block in done.stdout.split('== set ')[1:]]


def main():
    words = argparse.ArgumentParser()
    words.add_argument('protoc')
    words.add_argument('parsed')
    words.add_argument('--count', type=int, default=200)
    words.add_argument('--seed', type=int, default=1)
    words.add_argument('--write')
    words = words.parse_args()
    folder = words.write or 'crates/linkcases'
    with open(os.path.join(folder, 'stdin'), encoding='utf-8') as lines:
        sets = sets_of(lines.read())
    cases = list(asked(words, sets, 0 if words.write else words.count))
    if words.write:
        with open(os.path.join(folder, 'stdout'), 'w', encoding='utf-8') as out:
            out.writelines('\n'.join([f'== set {title}', *answer]) + '\n' for title, _, answer in cases)
        return
    found = answers_of(''.join(written(title, files) for title, files, _ in cases))
    if len(found) != len(cases):
        sys.exit(f'{len(found)} of {len(cases)} sets are answered')
    wrong = lines = 0
    for index, ((title, files, answer), here) in enumerate(zip(cases, found)):
        if index >= len(sets):
            answer, here = comparable(answer), comparable(here)
        lines += len(answer)
        if here != answer:
            wrong += 1
            print(written(title, files) + '\n'.join(['-- protoc', *answer, '-- here', *here]))
    print(f'{lines} lines')
    print(f'{len(cases) - wrong} passed, {wrong} failed')
    sys.exit(1 if wrong else 0)


main()
