#!/usr/bin/env python3
"""Links .proto files by protoc and by `linkcases`, and compares the order of the files, and types, their
names, extendees and names in JSON of all fields, extensions and methods.

usage: compare_link.py PROTOC PROGRAM [--each] [--seed S] -I FOLDER.. FILE..

PROGRAM is crates/linkcases/out/linkcases. FILE is a name within one of the folders, as in an import, or
a path to a file in one. The files and all that they import are one set; with --each, those of each FILE
are one. The files of a set are given to both in an order by chance. What protoc refuses is counted,
and not compared. The last line is 'N passed, M failed'. It needs python3-protobuf.
"""
import argparse
import os
import random
import subprocess
import sys
import tempfile

from google.protobuf import descriptor_pb2
from link_sets import linked_lines, written


def compiled(protoc, folders, names):
    """What protoc makes of the files and of what they import; None if it refuses them."""
    with tempfile.TemporaryDirectory() as folder:
        out = os.path.join(folder, 'set')
        done = subprocess.run([protoc, *(f'-I{part}' for part in folders), '--include_imports', f'-o{out}', *names],
                              capture_output=True, check=False)
        if done.returncode:
            return None
        with open(out, 'rb') as data:
            return descriptor_pb2.FileDescriptorSet.FromString(data.read())


def read(folders, name):
    path = next(path for path in (os.path.join(folder, name) for folder in folders) if os.path.exists(path))
    with open(path, encoding='utf-8') as text:
        return text.read()


def virtual(folders, file):
    """The name of a file in an import."""
    for folder in folders:
        path = os.path.relpath(file, folder)
        if os.path.exists(file) and not path.startswith('..'):
            return path
    return file


def answers_of(program, text):
    done = subprocess.run([program], input=text, capture_output=True, text=True, check=True)
    return [block.splitlines()[1:] for block in ('\n' + done.stdout).split('\n== set ')[1:]]


def main():
    words = argparse.ArgumentParser()
    words.add_argument('protoc')
    words.add_argument('program')
    words.add_argument('--each', action='store_true')
    words.add_argument('--seed', type=int, default=1)
    words.add_argument('-I', dest='folders', action='append', required=True)
    words.add_argument('files', nargs='+')
    words = words.parse_args()
    rng = random.Random(words.seed)
    names = [virtual(words.folders, file) for file in words.files]
    sets, refused = [], 0
    for group in [[name] for name in names] if words.each else [names]:
        if (made := compiled(words.protoc, words.folders, group)) is None:
            refused += 1
            continue
        order = [file.name for file in made.file]
        rng.shuffle(order)
        made = compiled(words.protoc, words.folders, order)
        files = [(name, read(words.folders, name)) for name in order]
        if any(line.startswith('== ') for _, text in files for line in text.split('\n')):
            sys.exit(f'a line of {group} begins as those that part files')
        sets.append((group, made, order, files))
    found = answers_of(words.program, ''.join(written(group[0], files) for group, _, _, files in sets))
    if len(found) != len(sets):
        sys.exit(f'{words.program} answers to {len(found)} of {len(sets)} sets')
    wrong = lines = 0
    for (group, made, order, _), here in zip(sets, found):
        answer = linked_lines(made, order)
        lines += len(answer)
        if here != answer:
            wrong += 1
            print(f'{group[0]}: differs')
            pairs = [(one, other) for one, other in zip(answer, here) if one != other]
            for one, other in pairs[:5]:
                print(f'  protoc: {one}\n  here:   {other}')
            if not pairs:
                print('\n'.join(here[:5]))
    print(f'{sum(len(files) for _, _, _, files in sets)} files and {lines} lines in {len(sets)} sets;'
          f' protoc refuses {refused}')
    print(f'{len(sets) - wrong} passed, {wrong} failed')
    sys.exit(1 if wrong else 0)


main()
