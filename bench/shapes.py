#!/usr/bin/env python3
"""Holds two built checkouts beside one another on sources of awkward shapes, and prints a table.

usage: shapes.py [--jobs N] [--megabytes M ..] OLD NEW [NAME..]
       shapes.py --sources FOLDER [NAME..]      only writes the sources

The program is crates/parsecount/out/parsecount of each checkout, as `rt run` leaves it there. Its
instructions are counted by callgrind: of one parse, less those of a run that only reads the file. They
depend on no other work, so N jobs run at a time (2 if none is given). Of the shapes in PRINTED the
program is crates/protoparse/out/protoparse, and all its instructions count. The sources have 1 and 4 MiB
and a little more, or the sizes that their shape has in SIZES. A NAME is a shape.

Each shape is a function from a size to a source of about so many bytes. The language accepts those in
ACCEPTED and no other: if a program says otherwise, the run ends with an error.

Memory is the largest of a run, in MB. The system counts at least what the process takes that starts the
program: a small one, and the first line says how much. A value near it says only that the program takes
no more. The last line counts the rows in which NEW takes more than 1.1 times what OLD takes.
"""
import argparse
import concurrent.futures
import os
import re
import subprocess
import sys
import tempfile

sys.dont_write_bytecode = True
from hostile import fields_of_extendee, ranges_with_options
from make_proto import BLOCKS

LIMIT = 1.1
MEGABYTES = [1.06, 4.24]
# Those of make_proto.py.
KINDS = {'plain': 'read', 'commented': 'notes', 'whole': 'whole'}
HEAD = 'syntax = "proto3";\n\nimport "google/type/latlng.proto";\n'
COMMENT = '// some words of a comment\n'
# Runs a program in a small process, and prints the largest memory in KB.
SMALL = '''import os, sys
quiet = [(os.POSIX_SPAWN_OPEN, 1, '/dev/null', os.O_WRONLY, 0)]
child = os.posix_spawn(sys.argv[1], sys.argv[1:], {}, file_actions=quiet)
print(os.wait4(child, 0)[2].ru_maxrss)'''
HASH = 'option (o) = { a: 1 # a comment\n b: 2 };\n'


def many(front, part, back=''):
    """The part again and again, between two texts."""
    return lambda size: front + part * (size // len(part)) + back


def each(part):
    """The parts with the numbers from 0 on."""
    def source(size):
        parts, length = [], 0
        while length < size:
            parts.append(part(len(parts)))
            length += len(parts[-1])
        return parts
    return source


def made(kind, front='', middle='', back='', between=lambda n: ''):
    """A file of make_proto.py, with texts in front of it, in its middle, behind it and behind each block."""
    def source(size):
        parts = each(lambda n: BLOCKS[kind].format(n=n) + between(n))(size)
        half = len(parts) // 2
        return ''.join([front, HEAD, *parts[:half], middle, *parts[half:], back])
    return source


def behind(shape, back):
    """The same source with a text behind it."""
    return lambda size: shape(size) + back


def fields(size):
    return ''.join(each(lambda n: f'  optional int32 field_number_{n} = {n + 1 if n < 18000 else n + 2001};\n')(size))


def one_message(size):
    return 'message M {\n' + fields(size) + '}\n'


def messages_of_66_kilobytes(size):
    return ''.join(each(lambda n: f'message M{n} {{\n{fields(67_000)}}}\n')(size))


def unclosed(size):
    """The first message has no `}`."""
    return made('read')(size).replace('\n}\n', '\n', 1)


def tabs(size):
    """A fault in each line, which begins with tabs."""
    return 'message M {\n' + '\t\toptional int32 a = 0;\n' * (size // 24) + '}\n'


one_comment = many('/*', 'words of a comment ', '*/\nmessage M {}\n')
one_string = many("option java_package = '", 'abcdefghi ', "';\n")

ACCEPTED = {
    **{name: made(kind) for name, kind in KINDS.items()},
    'one_comment': one_comment,
    'one_string': one_string,
    'one_message': one_message,
    'newlines': many('', '\n'),
    'semicolons': many('', ';'),
    'import_last': made('read', back='import "a/b.proto";\n'),
    'import_behind_each': made('read', between=lambda n: f'import "a/b{n}.proto";\n'),
    'hash_last': made('read', back=HASH),
    'messages_of_66_kilobytes': messages_of_66_kilobytes,
    'escapes': many("option java_package = '", '\\x41', "';\n"),
    'ranges': ranges_with_options,
    'extendee': fields_of_extendee,
}
REFUSED = {
    **{f'{name}_first': made(kind, front='x ') for name, kind in KINDS.items()},
    **{f'{name}_middle': made(kind, middle='x\n') for name, kind in KINDS.items()},
    **{f'{name}_last': made(kind, back='x') for name, kind in KINDS.items()},
    'unclosed': unclosed,
    'syntax_and_comments': many('syntax = "proto3"\n', COMMENT),
    'syntax_and_strings': many('syntax = ', "'a' "),
    'one_comment_last': behind(one_comment, 'x'),
    'one_string_last': behind(one_string, 'x'),
    'one_message_last': behind(one_message, 'x'),
    'newlines_last': behind(many('', '\n'), 'x'),
    'semicolons_last': behind(many('', ';'), 'x'),
    'import_behind_each_last': made('read', between=lambda n: f'import "a/b{n}.proto";\n', back='x'),
    'hash_and_last': made('read', back=HASH + 'x'),
    'messages_of_66_kilobytes_last': behind(messages_of_66_kilobytes, 'x'),
    'escapes_last': behind(many("option java_package = '", '\\x41', "';\n"), 'x'),
    'dollar_and_newlines': many('$', '\n'),
    'ranges_last': behind(ranges_with_options, 'x'),
    'extendee_last': behind(fields_of_extendee, 'x'),
    'tabs': tabs,
}
SIZES = {
    'ranges': [3_000, 6_000, 12_000],
    'ranges_last': [3_000, 6_000, 12_000],
    'extendee': [50_000, 100_000, 200_000],
    'extendee_last': [50_000, 100_000, 200_000],
    'tabs': [72_000],
}
PRINTED = ('tabs',)


def sources(names, sizes):
    """The shape and the size of each source."""
    return [(name, size) for name in names for size in SIZES.get(name) or [int(m * 1e6) for m in sizes]]


def write(folder, names, sizes):
    for name, size in sources(names, sizes):
        with open(f'{folder}/{name}.{size}.proto', 'w', encoding='utf-8') as file:
            file.write({**ACCEPTED, **REFUSED}[name](size))


def program(checkout, name):
    crate = 'protoparse' if name in PRINTED else 'parsecount'
    return os.path.abspath(f'{checkout}/crates/{crate}/out/{crate}')


def instructions(words, statuses):
    """The instructions of a run that ends with one of these statuses."""
    line = ['valgrind', '--tool=callgrind', '--callgrind-out-file=/dev/null', *words]
    ran = subprocess.run(line, stdout=subprocess.DEVNULL, stderr=subprocess.PIPE, text=True, check=False)
    found = re.search(r'Collected : (\d+)', ran.stderr)
    if ran.returncode not in statuses or not found:
        raise RuntimeError(f'{" ".join(words)}: status {ran.returncode}\n{ran.stderr[-500:]}')
    return int(found[1])


def megabytes(words):
    line = [sys.executable, '-I', '-S', '-c', SMALL, *words]
    ran = subprocess.run(line, stdout=subprocess.PIPE, stderr=subprocess.DEVNULL, check=True)
    return int(ran.stdout) / 1000


def measured(checkout, name, path):
    """The instructions of a parse in this checkout, and the megabytes that it takes."""
    words = [program(checkout, name), path]
    status = 0 if name in ACCEPTED else 1
    if name in PRINTED:
        count = instructions(words, [status])
    else:
        count = instructions([*words, '1'], [status]) - instructions([*words, '0'], [0])
        words.append('1')
    return count, megabytes(words)


def compare(asked, names):
    """Prints the table, and counts the rows with more instructions and with more memory."""
    above = [0, 0]
    with tempfile.TemporaryDirectory() as folder:
        # Another process makes the sources, so that this one stays small.
        subprocess.run([sys.executable, __file__, '--sources', folder, '--megabytes',
                        *map(str, asked.megabytes), '--', *names], check=True)

        def row(source):
            path = f'{folder}/{source[0]}.{source[1]}.proto'
            return source[0], os.path.getsize(path), [measured(it, source[0], path) for it in (asked.old, asked.new)]

        print(f'memory counts from {megabytes(["/bin/true"]):.1f} MB on\n')
        print('| shape | bytes | millions, OLD | NEW | NEW over OLD | MB, OLD | NEW |\n|---|---|---|---|---|---|---|')
        with concurrent.futures.ThreadPoolExecutor(asked.jobs) as jobs:
            for name, size, (old, new) in jobs.map(row, sources(names, asked.megabytes)):
                print(f'| {name} | {size} | {old[0] / 1e6:.2f} | {new[0] / 1e6:.2f} | {new[0] / old[0]:.2f} '
                      f'| {old[1]:.1f} | {new[1]:.1f} |', flush=True)
                above = [count + (new[k] > LIMIT * old[k]) for k, count in enumerate(above)]
    print(f'above {LIMIT}: {above[0]} of {len(sources(names, asked.megabytes))} in instructions, {above[1]} in memory')


def main():
    asked = argparse.ArgumentParser(description='two built checkouts on awkward sources')
    asked.add_argument('--jobs', type=int, default=2)
    asked.add_argument('--megabytes', type=float, nargs='+', default=MEGABYTES)
    asked.add_argument('--sources')
    asked.add_argument('words', nargs='*')
    asked = asked.parse_args()
    asked.old, asked.new = (None, None) if asked.sources else asked.words[:2]
    given = asked.words if asked.sources else asked.words[2:]
    unknown = [name for name in given if name not in {**ACCEPTED, **REFUSED}]
    if unknown:
        sys.exit(f'no shape: {" ".join(unknown)}')
    names = given or [*ACCEPTED, *REFUSED]
    if asked.sources:
        os.makedirs(asked.sources, exist_ok=True)
        return write(asked.sources, names, asked.megabytes)
    missing = sorted({program(it, name) for it in (asked.old, asked.new) for name in names
                      if not os.access(program(it, name), os.X_OK)})
    if missing:
        sys.exit(f'not built: {" ".join(missing)}')
    return compare(asked, names)


if __name__ == '__main__':
    main()
