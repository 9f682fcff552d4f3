#!/usr/bin/env python3
"""Asks protoc what linking makes of sets of files, for `setcases`.

usage: set_cases.py PROTOC [--write]      at the top of the repository

The sets are those of crates/setcases/stdin: add sets there. With --write, stdout there gets protoc's answers: the
bytes of each set, with locations sorted by path, or its complaints in the order of the files. Without, the answers of crates/setcases/out/setcases
are compared with them. What protoc says otherwise, faults of syntax, stands in ALONE, by hand, and so do the places of statements of options: protoc
tells the name or the value. The last line is 'N passed, M failed'.
"""
import os
import re
import subprocess
import sys
import tempfile

from google.protobuf.descriptor_pb2 import FileDescriptorSet

FOLDER = 'crates/setcases'
PROGRAM = f'{FOLDER}/out/setcases'
# What is printed of sets in which protoc's words differ, or which it doesn't take.
ALONE = {
    '== set no file': [],
    # faults of syntax alone, of both files; as in crates/protocases/stdout
    '== set faults of syntax': [
        "a.proto:2:31: message numbers must be between 1 and 536870911",
        "c.proto:1:10: unknown syntax 'proto4'",
    ],
    # protoc's words, each at its statement, a message's own before those of its fields
    '== set with options wrong statements': [
        'a.proto:7:3: Option "nothing" unknown. Ensure that your proto definition file imports the proto which defines the option.',
        'a.proto:8:25: Option "lazy" was already set.',
        'a.proto:9:12: Error while parsing option value for "r": Message type "R" has no field named "m".',
        'a.proto:10:12: Error while parsing option value for "r": Expected integer, got: "x"',
        'a.proto:11:12: Error while parsing option value for "r": Expected ":", found "1".',
        'a.proto:3:1: Value must be quoted string for string option "google.protobuf.FileOptions.java_package".',
    ],
    # protoc reads options by its own descriptor.proto
    '== set with options no descriptor.proto': ['a.proto:3:3: no file declares what options there are here'],
}


def sets(text):
    """The head of each set, and its files."""
    found = []
    for line in text.splitlines():
        if line.startswith('== set'):
            found.append((line, []))
        elif line.startswith('== file '):
            found[-1][1].append((line[len('== file '):], []))
        elif line != '== end':
            found[-1][1][-1][1].append(line + '\n')
    return [(head, [(name, ''.join(lines)) for name, lines in files]) for head, files in found]


def complaints(names, said):
    """The lines of protoc that tell of a place, in the order of the files, without what only follows."""
    told = []
    for line in said.splitlines():
        found = re.fullmatch(r'([^:\s]+):\d+:\d+: (.*)', line)
        follows = found and re.fullmatch(r'Import "(.*)" was not found or had errors\.', found[2])
        if not found or found[2].startswith("warning: ") or line in told:
            continue
        if found[1] in names and not (follows and follows[1] in names):
            told.append(line)
    return sorted(told, key=lambda line: names.index(line.split(':')[0]))


def sorted_by_path(data):
    """The bytes of a set with the locations of each file in the order of their paths."""
    files = FileDescriptorSet.FromString(data)
    for file in files.file:
        locations = sorted(file.source_code_info.location, key=lambda it: (list(it.path), list(it.span[:2])))
        del file.source_code_info.location[:]
        file.source_code_info.location.extend(locations)
    return files.SerializeToString()


def answer(protoc, files):
    names = [name for name, _ in files]
    with tempfile.TemporaryDirectory() as folder:
        for name, source in files:
            os.makedirs(os.path.dirname(os.path.join(folder, name)), exist_ok=True)
            with open(os.path.join(folder, name), 'w', encoding='utf-8') as file:
                file.write(source)
        words = [protoc, '-I.', '--include_imports', '--include_source_info', '--descriptor_set_out=set', *names]
        done = subprocess.run(words, cwd=folder, stderr=subprocess.PIPE, check=False)
        if done.returncode:
            return complaints(names, done.stderr.decode())
        with open(os.path.join(folder, 'set'), 'rb') as file:
            digits = sorted_by_path(file.read()).hex()
    return [digits[at:at + 64] for at in range(0, len(digits), 64)]


def answers(protoc, text):
    return [[head, *(ALONE[head] if head in ALONE else answer(protoc, files))] for head, files in sets(text)]


def main():
    protoc, write = sys.argv[1], '--write' in sys.argv
    with open(f'{FOLDER}/stdin', encoding='utf-8') as file:
        text = file.read()
    wanted = answers(protoc, text)
    if write:
        with open(f'{FOLDER}/stdout', 'w', encoding='utf-8') as file:
            file.write(''.join(line + '\n' for lines in wanted for line in lines))
        return 0
    said = subprocess.run([PROGRAM], input=text.encode(), stdout=subprocess.PIPE, check=True).stdout.decode()
    found = re.split(r'^(?=== set)', said, flags=re.M)[1:]
    failed = [lines[0] for lines, there in zip(wanted, found) if there.splitlines() != lines]
    failed += [lines[0] for lines in wanted[len(found):]]
    print(*failed, sep='\n', end='\n' if failed else '')
    print(f'{len(wanted) - len(failed)} passed, {len(failed)} failed')
    return 1 if failed else 0


if __name__ == '__main__':
    sys.exit(main())
