#!/usr/bin/env python3
"""Asks protoc what statements of options set, for `settingcases`.

usage: setting_cases.py PROTOC [--write]      at the top of the repository

The sets are those of crates/settingcases/stdin: add sets there, each with one statement in its last file. With
--write, stdout there gets protoc's answers. Without, the answers of crates/settingcases/out/settingcases are compared
with them. What a statement sets is in the options that protoc writes, and what is wrong with it is in what protoc
says. It was written for protoc 3.21.12. The last line is 'N passed, M failed'.
"""
import os
import re
import subprocess
import sys
import tempfile

from google.protobuf.descriptor_pb2 import FileDescriptorSet
from value_cases import fields, varint

FOLDER = 'crates/settingcases'
PROGRAM = f'{FOLDER}/out/settingcases'
KINDS = {0: 'varint', 1: 'eight', 5: 'four'}
GROUP = 3
# What protoc says of a text in braces. Why it says so isn't compared.
IN_BRACES = re.compile(r'(Error while parsing option value for ".*?"): .*')
# What protoc says where the first part of a name is found in a scope and the others aren't. The text of
# `NameFaultText` has no such scope, so it is held beside what protoc says of other unknown names.
IN_SCOPE = re.compile(r'Option "(.*?)" is resolved to "\(.*\)", which is not defined\. .*')
UNKNOWN = 'Option "{}" unknown. Ensure that your proto definition file imports the proto which defines the option.'


def sets(text):
    """The head of each set, and its files behind those that all sets have."""
    base, found, files = [], [], None
    for line in text.splitlines():
        if line.startswith(('== set', '== whole')):
            found.append((line, []))
        elif line.startswith(('== file ', '== base ')):
            files = base if line.startswith('== base ') else found[-1][1]
            files.append((line.split(' ', 2)[2], []))
        elif line != '== end':
            files[-1][1].append(line + '\n')
    joined = lambda files: [(name, ''.join(lines)) for name, lines in files]
    return [(head, joined(base) + joined(files)) for head, files in found]


def parts(name):
    """How many parts the name of an option has."""
    return len(re.sub(r'\([^)]*\)', 'x', name).split('.'))


def statement(source):
    """The name of the one option that a source sets, and whether its value stands in braces."""
    found = re.findall(r'(?:\boption\s+|\[)(\S+)\s*=\s*(\S+)', source)
    assert len(found) == 1, source
    return found[0][0], found[0][1].startswith('{')


def inner(data):
    """The number of the one field of a message, its kind and what it holds; of a group, what is in it."""
    header, at = varint(data, 0)
    if header & 7 == GROUP:
        end = len(data) - len(encoded(header + 1))
        return header >> 3, GROUP, data[at:end]
    found = list(fields(data))
    assert len(found) == 1, data
    return found[0]


def encoded(n):
    return bytes([n]) if n < 128 else bytes([n % 128 + 128]) + encoded(n // 128)


def all_options(file):
    """All options of a file and of what it declares."""
    yield file.options
    def of_enum(enum):
        yield enum.options
        yield from (value.options for value in enum.value)
    def of_message(message):
        yield message.options
        yield from (field.options for field in list(message.field) + list(message.extension))
        yield from (oneof.options for oneof in message.oneof_decl)
        for enum in message.enum_type:
            yield from of_enum(enum)
        for nested in message.nested_type:
            yield from of_message(nested)
    for message in file.message_type:
        yield from of_message(message)
    for enum in file.enum_type:
        yield from of_enum(enum)
    for service in file.service:
        yield service.options
        yield from (method.options for method in service.method)
    yield from (field.options for field in file.extension)


def said(data, source):
    """What the statement of a source sets, in the set that protoc writes."""
    files = FileDescriptorSet.FromString(data).file
    name, in_braces = statement(source)
    held, = [options.SerializeToString() for options in all_options(files[-1]) if options.ByteSize()]
    path = []
    for part in range(parts(name)):
        number, kind, held = inner(held)
        path.append(str(number))
    if in_braces:
        return f"{'.'.join(path)} aggregate {held.hex()}"
    value = 'bytes ' + held.hex() if kind == 2 else f'{KINDS[kind]} {held}'
    return f"{'.'.join(path)} {value}"


def wrong(text):
    """What is wrong, in protoc's words."""
    in_scope, in_braces = IN_SCOPE.fullmatch(text), IN_BRACES.fullmatch(text)
    if in_scope:
        return UNKNOWN.format(in_scope[1])
    return in_braces[1] if in_braces else text


def last_entry(data):
    """The bytes of the last file of a set."""
    at = 0
    while at < len(data):
        length, shift, at = 0, 0, at + 1
        while True:
            byte, at = data[at], at + 1
            length, shift = length | (byte & 127) << shift, shift + 7
            if byte < 128:
                break
        found, at = data[at:at + length], at + length
    return found


def answers(protoc, files, whole):
    """protoc's answers for a set of files: what its statement sets, and what the whole has."""
    with tempfile.TemporaryDirectory() as folder:
        for name, text in files:
            path = os.path.join(folder, name)
            os.makedirs(os.path.dirname(path), exist_ok=True)
            with open(path, 'w') as file:
                file.write(text)
        out = os.path.join(folder, 'set')
        run = subprocess.run([protoc, '-I' + folder, '--include_imports', '-o', out, files[-1][0]],
                             capture_output=True, text=True)
        if run.returncode == 0:
            with open(out, 'rb') as file:
                data = file.read()
            return [*([] if whole else [said(data, files[-1][1])]), '= ' + last_entry(data).hex()]
        told = [re.fullmatch(r'\S+?:\d+:\d+: (.*)', line) for line in run.stderr.splitlines()]
        told = [wrong(found[1]) for found in told if found and not found[1].startswith('warning: ')]
        return [*([] if whole else told[:1]), f'wrong: {len(told)}']


def main():
    with open(f'{FOLDER}/stdin') as file:
        given = file.read()
    lines = []
    for head, files in sets(given):
        lines += [head, *answers(sys.argv[1], files, head.startswith('== whole'))]
    if '--write' in sys.argv:
        with open(f'{FOLDER}/stdout', 'w') as file:
            file.write('\n'.join(lines) + '\n')
        return
    ours = subprocess.run([PROGRAM], input=given, capture_output=True, text=True).stdout.splitlines()
    passed = sum(1 for one, other in zip(lines, ours) if one == other)
    for one, other in zip(lines, ours):
        if one != other:
            print(f'protoc: {one}\nours:   {other}')
    failed = max(len(lines), len(ours)) - passed
    print(f'{passed} passed, {failed} failed')
    sys.exit(failed > 0)


if __name__ == '__main__':
    main()
