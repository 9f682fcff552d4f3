#!/usr/bin/env python3
"""Compares the bytes of descriptors with those of protobuf's own library.

usage: compare_bytes.py PROTOPARSE                  at the top of the repository
       compare_bytes.py PROTOPARSE PARSED FILE..    PARSED is built from bench/parsed.cc

It needs protobuf for Python (Debian: python3-protobuf). The first form takes each accepted case of
crates/protocases: its lines in `stdout`, which don't come from this parser, are read by protobuf as
text format, written by protobuf as bytes, and compared with the bytes of the file. The second form
compares the bytes of any files with those of protobuf's parser, source information aside, and says
of those that differ in what. The last line is 'N passed, M failed'.
"""
import os
import subprocess
import sys

from google.protobuf import descriptor_pb2, text_format

CASES = 'crates/protocases'


def bytes_of(program, file, *flags):
    """The bytes of the file's descriptor in the set that the program writes, or none."""
    folder, name = os.path.split(os.path.abspath(file))
    words = [program, '--descriptor-set-out=-', *flags, name]
    ran = subprocess.run(words, cwd=folder, capture_output=True, check=False)
    if ran.returncode:
        return None
    files = descriptor_pb2.FileDescriptorSet.FromString(ran.stdout)
    again = files.SerializeToString()
    if again != ran.stdout:
        raise ValueError(f'{name}: protobuf writes the set that it read in other bytes')
    return files.file[0].SerializeToString()


def cases():
    """The lines of each case, by its name."""
    found, name = {}, None
    with open(f'{CASES}/stdout', encoding='utf-8') as file:
        for line in file.read().split('\n'):
            if line.startswith('== '):
                name = line[3:]
                found[name] = []
            elif name is not None:
                found[name].append(line)
    return found


def add_location(file, line):
    """A line such as `4.0.1 2,8,9`."""
    path, span = line.split(' ')
    location = file.source_code_info.location.add()
    location.path.extend([] if path == '.' else [int(it) for it in path.split('.')])
    location.span.extend(int(it) for it in span.split(','))
    return location


def described(lines):
    """The descriptor that the lines of a case say, or none where the file is refused."""
    if not lines or not lines[0].startswith('name: '):
        return None
    end = next(i for i, line in enumerate(lines) if line and line[0] in '.0123456789')
    file = text_format.Parse('\n'.join(lines[:end]), descriptor_pb2.FileDescriptorProto())
    location = None
    for line in lines[end:]:
        if line.startswith('  '):
            text_format.Merge(line, location)
        elif line:
            location = add_location(file, line)
    return file


def compare_cases(program):
    passed, failed = 0, []
    for name, lines in cases().items():
        expected = described(lines) if os.path.exists(f'{CASES}/data/{name}') else None
        if expected is None:
            continue
        if bytes_of(program, f'{CASES}/data/{name}') == expected.SerializeToString():
            passed += 1
        else:
            failed.append(name)
    return passed, failed


def without_known(file):
    """The descriptor without what protobuf's parser is known to do otherwise."""
    def number(field):
        floats = (field.TYPE_FLOAT, field.TYPE_DOUBLE)
        if field.default_value and field.HasField('type') and field.type in floats:
            text = str(float(field.default_value))
            field.default_value = text.replace('-nan', 'nan')

    def message(it):
        if it.options.map_entry:
            for field in it.field:
                field.ClearField('json_name')
        for field in [*it.field, *it.extension]:
            if field.type_name:
                field.ClearField('type')
            number(field)
        for inner in it.nested_type:
            message(inner)
    for it in file.message_type:
        message(it)
    for service in file.service:
        for method in service.method:
            if method.HasField('options') and not method.options.ByteSize():
                method.ClearField('options')
    for field in file.extension:
        number(field)
    if file.syntax == 'proto2':
        file.ClearField('syntax')
    file.ClearField('source_code_info')
    return file


def read_without_known(data):
    return without_known(descriptor_pb2.FileDescriptorProto.FromString(data))


def compare_parsed(program, parser, names):
    same, known, alone, failed = 0, 0, 0, []
    for name in names:
        theirs = subprocess.run([parser, name], capture_output=True, check=False)
        ours = bytes_of(program, name, '--no-source-info')
        if theirs.returncode or ours is None:
            alone += (theirs.returncode == 0) != (ours is not None)
            continue
        if ours == theirs.stdout:
            same += 1
            continue
        if read_without_known(ours) == read_without_known(theirs.stdout):
            known += 1
        else:
            failed.append(f'{name}: other bytes')
    print(f'{same} files have the same bytes, {known} more but for the known differences; '
          f'{alone} are accepted by one parser alone')
    return same + known, failed


def main():
    programs = [os.path.abspath(it) for it in sys.argv[1:3]]
    if len(programs) == 1:
        passed, failed = compare_cases(programs[0])
    else:
        passed, failed = compare_parsed(*programs, sys.argv[3:])
    for line in failed:
        print(line)
    print(f'{passed} passed, {len(failed)} failed')
    return 1 if failed else 0


if __name__ == '__main__':
    sys.exit(main())
