#!/usr/bin/env python3
"""Measures what options cost that are made to cost much: time, memory, and how both grow.

usage: option_times.py PROTOLINK [PROTOC] [SHAPE..] [--times T]

PROTOLINK is crates/protolink/out/protolink. Each shape is a file that imports descriptor.proto (of
/usr/include) and sets options. A line for each: its bytes, the seconds and megabytes that protolink takes
for its set, and how many times as many instructions a file of twice the count takes (by valgrind); with
PROTOC (a path with a slash) its seconds, too. The counts are multiplied by T. The last line is 'N passed,
M failed': twice the count should take at most 2.3 times the instructions, and less than half a second.
"""
import argparse
import os
import re
import subprocess
import sys
import tempfile
import time

HEAD = '''syntax = "proto2";
package p;
import "google/protobuf/descriptor.proto";
message M { optional M m = 1; optional int32 i = 2; repeated int32 r = 3; repeated M s = 4; optional string t = 5; }
extend google.protobuf.FileOptions { optional M one = 50000; repeated int32 many = 50001; repeated M more = 50002; }
'''


def fields(n):
    """n options, each of a field of its own."""
    return (HEAD + 'extend google.protobuf.FileOptions {\n' + ''.join(f'  optional int32 f{k} = {60000 + k};\n' for k in range(n))
            + '}\n' + ''.join(f'option (f{k}) = {k};\n' for k in range(n)))


SHAPES = {
    'nested braces, refused': (100000, lambda n: HEAD + 'option (one) = ' + '{ m ' * n + '{}' + ' }' * n + ';\n'),
    'a name of many parts': (10000, lambda n: HEAD + 'option (one)' + '.m' * n + '.i = 1;\n'),
    'two names of many parts': (5000, lambda n: HEAD + 'option (one)' + '.m' * n + '.i = 1;\noption (one)' + '.m' * n + '.t = "t";\n'),
    'messages in braces': (70000, lambda n: HEAD + 'option (one) = { ' + 's { i: 1000 } ' * n + '};\n'),
    'numbers in braces': (150000, lambda n: HEAD + 'option (one) = { r: [' + ', '.join(['1000'] * n) + '] };\n'),
    'statements of one option': (100000, lambda n: HEAD + 'option (many) = 1000;\n' * n),
    'statements of one option, in braces': (50000, lambda n: HEAD + 'option (more) = { i: 1 };\n' * n),
    'fields of one option': (20000, lambda n: HEAD + 'option (one).s = { i: 1 };\n' * n),
    'an option each': (10000, fields),
    'a field with options, and many fields': (20000, lambda n: HEAD + 'extend google.protobuf.FieldOptions { optional M f = 50000; }\nmessage N {\n'
                                              + ''.join(f'  optional int32 f{k} = {k + 1} [(f) = {{ i: {k} }}, deprecated = true];\n' for k in range(n)) + '}\n'),
    'a text': (1000000, lambda n: HEAD + 'option (one).t = "' + 'x' * n + '";\n'),
}


def timed(words, folder):
    """Seconds, and megabytes at most."""
    start = time.monotonic()
    with subprocess.Popen(words, cwd=folder, stdout=subprocess.DEVNULL, stderr=subprocess.DEVNULL) as run:
        _, status, usage = os.wait4(run.pid, 0)
        run.returncode = os.waitstatus_to_exitcode(status)
    return time.monotonic() - start, usage.ru_maxrss / 1024, run.returncode


def instructions(words, folder):
    with tempfile.NamedTemporaryFile() as out:
        done = subprocess.run(['valgrind', '--tool=callgrind', f'--callgrind-out-file={out.name}', *words], cwd=folder,
                              capture_output=True, text=True, check=False)
    return int(re.search(r'Collected : (\d+)', done.stderr)[1])


def main():
    words = argparse.ArgumentParser()
    words.add_argument('protolink')
    words.add_argument('rest', nargs='*')
    words.add_argument('--times', type=float, default=1)
    words = words.parse_args()
    protoc = [word for word in words.rest if '/' in word]
    shapes = [word for word in words.rest if '/' not in word] or SHAPES
    program, wrong = os.path.abspath(words.protolink), 0
    print('| Options | Bytes | Time and memory | protoc | Twice |\n|---|---|---|---|---|')
    for shape in shapes:
        count, make = SHAPES[shape]
        count = int(count * words.times)
        with tempfile.TemporaryDirectory() as folder:
            for name, n in (('one', count), ('two', 2 * count)):
                with open(os.path.join(folder, f'{name}.proto'), 'w', encoding='utf-8') as out:
                    out.write(make(n))
            flags = ['-I.', '-I/usr/include', '-o/dev/null']
            seconds, size, _ = min(timed([program, *flags, 'one.proto'], folder) for _ in range(3))
            theirs = ['-']
            for path in protoc:
                took, _, status = min(timed([path, *flags, 'one.proto'], folder) for _ in range(2))
                theirs = [f'{took:.2f} s' + (f', status {status}' if status not in (0, 1) else '')]
            ratio = instructions([program, *flags, 'two.proto'], folder) / instructions([program, *flags, 'one.proto'], folder)
            length = os.path.getsize(os.path.join(folder, 'one.proto'))
        wrong += ratio > 2.3 or seconds > 0.5
        print(f'| {count:,} {shape} | {length:,} | {seconds:.2f} s, {size:.0f} MB | {theirs[0]} | {ratio:.2f} |', flush=True)
    print(f'{len(shapes) - wrong} passed, {wrong} failed')
    return 1 if wrong else 0


if __name__ == '__main__':
    sys.exit(main())
