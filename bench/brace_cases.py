#!/usr/bin/env python3
"""Compares what texts in braces say with protoc, for texts that are made by chance.

usage: brace_cases.py PROTOC [--count N] [--seed S]     at the top of the repository

It makes N statements of options (500, from seed 1) whose value stands in braces, for the messages of
`braces.proto` and `anys.proto` in crates/settingcases/stdin: right ones, and such with a value of another type, a
field that is told twice or a name that no field has. It compares the answers of
crates/settingcases/out/settingcases with those of protoc, as setting_cases.py does: the bytes, or that the text is
refused. It was written for protoc 3.21.12. The last line is 'N passed, M failed'.
"""
import argparse
import concurrent.futures
import random
import subprocess
import sys

from setting_cases import FOLDER, PROGRAM, answers, sets

# Values by what a field holds; those in front are of the type.
VALUES = {
    'integer': (4, '0 1 7 300 -1 -5 2147483647 -2147483648 2147483648 4294967295 9223372036854775807 '
                   '-9223372036854775808 18446744073709551615 0x1F 017 1.5 x "s"'.split()),
    'float': (18, '0 -0 1 -1 1.5 -2.5e10 1e-45 1e400 inf -inf nan infinity INF 1e39 .5 5. 16777217 0.1 '
                  'true "1" x'.split()),
    'truth': (8, 'true false True False t f 1 0 2 x "true" -1 TRUE 00 01'.split()),
    'enum': (4, 'A B 0 1 NEG -5 2 C "A" -1 ZERO3'.split()),
    'string': (5, ['"a"', '"\\001\\xff"', '"a" "b"', "'q'", '""', 'x', '1', '"\\u00e9"']),
}
INTEGERS = 'i32 i64 u32 u64 s32 s64 f32 f64 sf32 sf64 ca [b.x] [b.T.inx] [x] nope'
# The fields of each message: its name, what it holds or which message it is, and whether it is repeated.
FIELDS = {
    'T': [(name, 'integer', False) for name in INTEGERS.split()] + [
        ('f', 'float', False), ('d', 'float', False), ('b', 'truth', False), ('s', 'string', False),
        ('by', 'string', False), ('e', 'enum', False), ('m', 'T', False), ('rm', 'T', True), ('ri', 'integer', True),
        ('pi', 'integer', True), ('rs', 'string', True), ('Gr', 'Gr', False), ('Rg', 'Rg', True), ('cm', 'T', False),
        ('mp', 'mp', True), ('mm', 'mm', True), ('me', 'me', True), ('md', 'md', True), ('mb', 'mb', True),
        ('re', 'enum', True), ('pd', 'float', True), ('pe', 'enum', True), ('t3', 'T3', False), ('ps', 'integer', True),
        ('pb', 'truth', True), ('pf', 'integer', True), ('[b.xr]', 'string', True), ('[b.xm]', 'T', False),
        ('[b.xp]', 'integer', True)],
    'T3': [('n', 'integer', False), ('s', 'string', False), ('r', 'integer', True), ('u', 'integer', True),
           ('e', 'enum', False), ('o', 'integer', False), ('m', 'T3', False), ('ca', 'integer', False),
           ('cb', 'string', False), ('mp', 'mp', True), ('by', 'string', False), ('d', 'float', False),
           ('b', 'truth', False), ('re', 'enum', True)],
    'R': [('a', 'integer', False), ('m', 'R', False), ('b', 'string', False)],
    'Og': [('q', 'integer', False)],
    'A': [('any', 'Any', False), ('anys', 'Any', True), ('n', 'integer', False), ('many', 'many', True),
          ('ca', 'Any', False), ('cn', 'integer', False), ('[y.xany]', 'Any', False), ('[y.xn]', 'integer', False)],
    'Any': [('[type.googleapis.com/b.T]', 'T', False), ('[type.googleapis.com/y.A]', 'A', False),
            ('[type.googleapis.com/b.R]', 'R', False), ('[type.googleprod.com/t.T3]', 'T3', False),
            ('[type.googleapis.com/google.protobuf.Any]', 'Any', False), ('type_url', 'string', False),
            ('value', 'string', False), ('[y.xn]', 'integer', False), ('[example.com/b.T]', 'T', False)],
    'many': [('key', 'string', False), ('value', 'Any', False)],
    'Gr': [('g', 'integer', False)],
    'Rg': [('h', 'string', False)],
    'mp': [('key', 'string', False), ('value', 'integer', False)],
    'mm': [('key', 'integer', False), ('value', 'T', False)],
    'me': [('key', 'truth', False), ('value', 'enum', False)],
    'md': [('key', 'integer', False), ('value', 'float', False)],
    'mb': [('key', 'integer', False), ('value', 'string', False)],
}
OPTIONS = {'(b.t)': 'T', '(b.rt)': 'T', '(b.t).m': 'T', '(b.t).t3': 'T3', '(b.top3)': 'T3', '(b.r)': 'R',
           '(b.og)': 'Og', '(y.a)': 'A', '(y.direct)': 'Any'}


def value(chance, holds, depth, right):
    if holds in FIELDS:
        begin, end = chance.choice(('{}', '<>'))
        return f'{begin} {message(chance, holds, depth - 1, right) if depth else ""} {end}'
    of_type, values = VALUES[holds]
    return chance.choice(values[:of_type] if right else values)


def field(chance, name, holds, repeated, depth, right):
    """A field with its values: in a list, or each for itself."""
    colon = ':' if holds not in FIELDS or chance.random() < 0.5 else ''
    if repeated and chance.random() < 0.4:
        values = ', '.join(value(chance, holds, depth, right) for _ in range(chance.randrange(4)))
        return f'{name}{colon} [{values}]'
    if '/' in name:
        return f'{name}{colon} {value(chance, holds, depth, right)}'
    times = chance.choice((1, 1, 2)) if repeated or chance.random() < 0.05 else 1
    return ' '.join(f'{name}{colon} {value(chance, holds, depth, right)}{chance.choice(("", " ,", " ;"))}'
                    for _ in range(times))


def message(chance, name, depth, right):
    fields = FIELDS[name]
    if name == 'Any':
        fields = chance.sample(fields[:5] if right else fields, 1 if right else chance.choice((1, 2)))
    elif len(fields) > 5:
        fields = chance.sample(fields, chance.choice((0, 1, 2, 3, 5)))
    return ' '.join(field(chance, *one, depth, right) for one in fields if chance.random() < 0.8)


def made(count, seed):
    """Sets of files as the program reads them, each with one statement."""
    chance = random.Random(seed)
    for i in range(count):
        option = chance.choice(tuple(OPTIONS))
        text = message(chance, OPTIONS[option], 3, chance.random() < 0.8)
        yield (f'== set {i}\n== file main.proto\nsyntax = "proto2";\nimport "braces.proto";\n'
               'import "three.proto";\nimport "google/protobuf/any.proto";\nimport "anys.proto";\n'
               f'option {option} = {{ {text} }};\n== end\n')


def main():
    parser = argparse.ArgumentParser(usage=__doc__.split('\n\n')[1])
    parser.add_argument('protoc')
    parser.add_argument('--count', type=int, default=500)
    parser.add_argument('--seed', type=int, default=1)
    words = parser.parse_args()
    with open(f'{FOLDER}/stdin') as file:
        base = file.read().split('== set ')[0]
    given = base + ''.join(made(words.count, words.seed))
    ours = subprocess.run([PROGRAM], input=given, capture_output=True, text=True, check=True).stdout.splitlines()
    with concurrent.futures.ThreadPoolExecutor(4) as pool:
        theirs = list(pool.map(lambda one: answers(words.protoc, one[1], False), sets(given)))
    failed = [(head, one, other) for head, one, other in zip(sets(given), theirs, zip(ours[1::3], ours[2::3])) if one != list(other)]
    for (_, files), one, other in failed:
        print(f'{files[-1][1]}  protoc: {one}\n  ours:   {other}')
    print(f'{len(theirs) - len(failed)} passed, {len(failed)} failed')
    sys.exit(bool(failed) or len(ours) != 3 * len(theirs))


if __name__ == '__main__':
    main()
