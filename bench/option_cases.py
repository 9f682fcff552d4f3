#!/usr/bin/env python3
"""Asks protoc what statements of options set, for `optioncases`.

usage: option_cases.py PROTOC [--write]     at the top of the repository

Each line of crates/optioncases/stdin is made a file that imports the options in the head of
crates/optioncases/src/schema.rt, and given to protoc. With --write, stdout there gets protoc's answers.
Without, the answers of crates/optioncases/out/optioncases are compared with them. Of what is wrong protoc's
first line is taken, and of a text in braces only that it is wrong. It was written for protoc 3.21.12. The
last line is 'N passed, M failed'.
"""
import os
import re
import subprocess
import sys
import tempfile

from setting_cases import wrong

FOLDER = 'crates/optioncases'
PROGRAM = f'{FOLDER}/out/optioncases'


def schema():
    with open(f'{FOLDER}/src/schema.rt', encoding='utf-8') as source:
        head = source.read().split('//! ```proto\n')[1].split('//! ```\n')[0]
    return ''.join(line.removeprefix('//! ') + '\n' for line in head.splitlines())


def entry_of(data):
    """The bytes of the one file of a set."""
    at = 1
    while data[at] > 127:
        at += 1
    return data[at + 1:]


def answer(protoc, line):
    """protoc's lines for a line of statements."""
    statements = [words.strip().split(' = ', 1) for words in line.split('|')]
    source = ['syntax = "proto2"; import "google/protobuf/descriptor.proto";']
    source += [f'option {name.replace("/", ".")} = {value};' for name, value in statements]
    with tempfile.TemporaryDirectory() as folder:
        os.makedirs(os.path.join(folder, 'google/protobuf'))
        for name, text in (('google/protobuf/descriptor.proto', schema()), ('user.proto', '\n'.join(source))):
            with open(os.path.join(folder, name), 'w', encoding='utf-8') as file:
                file.write(text)
        out = os.path.join(folder, 'set')
        run = subprocess.run([protoc, '-I' + folder, '-o', out, 'user.proto'], capture_output=True, text=True, check=False)
        if run.returncode == 0:
            with open(out, 'rb') as file:
                data = file.read()
            return [f'file {entry_of(data).hex()}', f'set {data.hex()}']
        for said in run.stderr.splitlines():
            found = re.fullmatch(r'\S+?:(\d+):\d+: (.*)', said)
            if found and not found[2].startswith('warning: '):
                return [f'{int(found[1]) - 2}: {wrong(found[2])}']
        sys.exit(run.stderr)


def main():
    with open(f'{FOLDER}/stdin', encoding='utf-8') as file:
        lines = [told for line in file.read().splitlines() for told in answer(sys.argv[1], line)]
    if '--write' in sys.argv:
        with open(f'{FOLDER}/stdout', 'w', encoding='utf-8') as file:
            file.write('\n'.join(lines) + '\n')
        return
    with open(f'{FOLDER}/stdin', encoding='utf-8') as given:
        ours = subprocess.run([PROGRAM], stdin=given, capture_output=True, text=True, check=True).stdout.splitlines()
    failed = [(one, other) for one, other in zip(lines, ours) if one != other]
    for one, other in failed:
        print(f'protoc: {one}\nours:   {other}')
    wrong_count = len(failed) + abs(len(lines) - len(ours))
    print(f'{max(len(lines), len(ours)) - wrong_count} passed, {wrong_count} failed')
    sys.exit(wrong_count > 0)


if __name__ == '__main__':
    main()
