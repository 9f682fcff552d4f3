#!/usr/bin/env python3
"""Asks protoc what messages in text format say, for `textcases`.

usage: text_cases.py PROTOC [--count N] [--seed S]     at the top of the repository
       text_cases.py PROTOC --write                    writes the cases of `textcases`

Without --write, it makes N texts by chance (300, from seed 1), right ones and such with a token too many, too
few or changed, and compares the answers of crates/textcases/out/textcases with those of protoc, which encodes the
text and prints it again. With --write, it writes `stdin` and `stdout`: the texts below, and protoc's answers. protoc
knows the types of fields, so a text with a value of another type is passed over. It was written for protoc 3.21.12.
The last line is 'N passed, M failed'.
"""
import argparse
import os
import random
import re
import subprocess
import sys
import tempfile

FOLDER = 'crates/textcases'
PROGRAM = f'{FOLDER}/out/textcases'
SCHEMA = '''syntax = "proto2";
package a;
message M {
  repeated M m = 1; repeated string s = 2; repeated int32 i = 3; repeated double f = 4;
  extensions 100 to max;
}
extend M { repeated int32 x = 100; repeated M y = 101; }
'''
# Fields are in the order of their numbers, since protoc prints them so.
CASES = (
    '', 'i: 1', 'i: 1 i: -2', 'i:1,i:2;i:3', 'i: [1, 2, 3]', 'i: []', 'm { }', 'm: { }', 'm < >', 'm: < >', 'm {} m: {} m <>',
    'm [ { }, < >, { i: 1 } ]', 'm: [ { }, { m < i: 1 > } ]', 'm [] s: []', 's: "a" "b" \'c\'', 's: ["a" "b", "c"]', 's: "a" s: "b"',
    'm { m { m { i: 1 } i: 2 } i: 3 } i: 4', 'm { s: "x"; i: 1, f: 1.5 }', 'f: -inf', 'f: inf f: -1.5', 'f: [0.25, -inf]',
    '[a.x]: 5', '[a.y] { i: 1 }', '[ a . x ] : 5', '[a.x]: [1, 2] [a.y]: [{ i: 1 }]', 'i: 1 # a comment', 'i: 0x10 i: 010',
    # what is wrong
    '}', '>', ']', '5', '5: 1', '"i": 1', 'm', 'm:', 'm {', 'm { i: 1', 'm { i: 1 >', 'm < i: 1 }', 'm { } }', 'm { < }', 'm { m { }',
    'i:', 'i: }', 'i: ,', 'i: -', 'i: - -', 'i: [', 'i: [1', 'i: [1,', 'i: [1,]', 'i: [,1]', 'i: [1 2]', 'i: [1; 2]', 'i: [[1]]',
    'm [ { }; ]', 'm [ { } { } ]', 'm: [ { i: 1 } ', '[', '[a', '[a.', '[a.]: 1', '[]: 1', '[.a]: 1', '[a.x: 1', '[a x]: 1', '[5]: 1',
    'i: 1;;', 'i: 1,;', 'i: 1 : 2', ': 1', ', i: 1', 'm { , }', 's: "a" + "b"', 'm { i: 1 } = 2', 'i: 1 / 2', 'i: (1)', 's: -"a"',
)
VALUE = re.compile(r'Expected (integer|double|string), got: (.*)')
OTHER_VALUE = re.compile(r'''["'\w.{<]''')
# What protoc says of a value of another type, and of the name of a type where no type is wanted.
BY_TYPE = re.compile(r'Expected ":", found .*|Expected "]", found "/".|Expected "{", found .*|Message type .*|Extension .*')


def ask(protoc, folder, text):
    """protoc's answer for a text, or None where it rests on the types of fields."""
    def run(how, data):
        words = [protoc, f'--{how}=a.M', f'-I{folder}', f'{folder}/text.proto']
        return subprocess.run(words, input=data, capture_output=True)
    encoded = run('encode', text.encode())
    if encoded.returncode:
        column, said = re.match(r'input:1:(\d+): (.*)', encoded.stderr.decode()).groups()
        return wrong(column, said)
    return ' '.join(run('decode', encoded.stdout).stdout.decode().split() + ['.'])


def wrong(column, said):
    """What protoc says is wrong. A value is wanted, whatever the type of the field."""
    if BY_TYPE.fullmatch(said):
        return None
    found = VALUE.fullmatch(said)
    if found:
        is_typed = OTHER_VALUE.match(found[2]) or found[1] == 'string' and found[2] == '-'
        return None if is_typed else f'{column}: Expected value, got: {found[2]}'
    return f'{column}: {said}'


def message(chance, depth):
    """The tokens of a message. Its fields are in the order of their numbers."""
    tokens = []
    for name in ('m', 's', 'i', 'f', '[ a . x ]', '[ a . y ]'):
        for _ in range(chance.choice((0, 0, 1, 1, 2))):
            tokens += name.split() + field(chance, name, depth) + chance.choice(([], [], [','], [';']))
    return tokens


def field(chance, name, depth):
    """The tokens behind the name of a field."""
    colon = [':'] if name not in ('m', '[ a . y ]') or chance.random() < 0.5 else []
    if chance.random() < 0.7:
        return colon + value(chance, name, depth)
    values = [value(chance, name, depth) for _ in range(chance.randrange(4))]
    return colon + ['['] + [token for i, v in enumerate(values) for token in ([','] if i else []) + v] + [']']


def value(chance, name, depth):
    if name in ('m', '[ a . y ]'):
        begin, end = chance.choice(('{}', '<>'))
        return [begin] + (message(chance, depth - 1) if depth else []) + [end]
    if name == 's':
        return [f'"{chance.choice("abc")}"' for _ in range(chance.choice((1, 1, 2)))]
    if name == 'f':
        return chance.choice((['1.5'], ['-', 'inf'], ['0.25']))
    return chance.choice((['7'], ['-', '3'], ['0']))


def changed(chance, tokens):
    """The same with a token too many, too few or another one, or as they are."""
    at = chance.randrange(len(tokens) + 1)
    how = chance.randrange(4)
    other = chance.choice('{ } < > [ ] , ; : - . / m i "a" 5'.split())
    return tokens[:at] + ([other] if how in (1, 2) else []) + tokens[at + (how in (2, 3)):]


def by_chance(count, seed):
    chance = random.Random(seed)
    for _ in range(count):
        yield ' '.join(changed(chance, message(chance, 2)))


def main():
    parser = argparse.ArgumentParser(usage=__doc__.split('\n\n')[1])
    parser.add_argument('protoc')
    parser.add_argument('--count', type=int, default=300)
    parser.add_argument('--seed', type=int, default=1)
    parser.add_argument('--write', action='store_true')
    words = parser.parse_args()
    with tempfile.TemporaryDirectory() as folder:
        with open(f'{folder}/text.proto', 'w') as out:
            out.write(SCHEMA)
        texts = CASES if words.write else list(CASES) + list(by_chance(words.count, words.seed))
        answers = [(text, ask(words.protoc, folder, text)) for text in texts]
    answers = [(text, answer) for text, answer in answers if answer is not None]
    if words.write:
        with open(f'{FOLDER}/stdin', 'w') as out:
            out.writelines(text + '\n' for text, _ in answers)
        with open(f'{FOLDER}/stdout', 'w') as out:
            out.writelines(answer + '\n' for _, answer in answers)
        return
    given = ''.join(text + '\n' for text, _ in answers)
    program = os.environ.get('TEXTCASES', PROGRAM)
    found = subprocess.run([program], input=given, capture_output=True, text=True, check=True).stdout.splitlines()
    failed = [(text, answer, ours) for (text, answer), ours in zip(answers, found) if answer != ours]
    for text, answer, ours in failed:
        print(f'{text}\n  protoc: {answer}\n  ours:   {ours}')
    print(f'{len(answers) - len(failed)} passed, {len(failed)} failed')
    sys.exit(bool(failed) or len(found) != len(answers))


if __name__ == '__main__':
    main()
