#!/usr/bin/env python3
"""Writes what the gate's program `runcases` has to print of the command lines of `protolink`.

usage: link_runs.py PROTOC [--write]     at the top of the repository

It gives each line of crates/runcases/data/links.txt to protoc, in a copy of that folder in which
locked.proto can't be read, and prints the lines that `runcases --links` has to print. With `--write` it
puts them at the end of crates/runcases/stdout. protoc's line of a fault comes first; the excerpt behind it
is made here from the source. The answers where protoc does something else are written by hand below.
As root it runs protoc as nobody.
"""
import os
import re
import shutil
import subprocess
import sys
import tempfile

FOLDER = 'crates/runcases'
OPTIONS = ('set: warning: Options stay uninterpreted.  protoc --descriptor_set_in reads them so, and checks them.  '
           'Readers of the set that look for the value of an option don\'t find it.')
# What protobuf for Python writes for a file `options.proto` of proto3 with the uninterpreted option java_package = "made".
SET_WITH_OPTION = bytes.fromhex('0a340a0d6f7074696f6e732e70726f746f421bba3e1812100a0c6a6176615f7061636b61676510003a046d616465620670726f746f33')
# Command lines of which protoc has no such answer: the lines that are said, the status, and what is written.
BY_HAND = {
    '-Ilinks/a -oset --dependency_out=full links/a/base.proto': (['full: No space left on device'], 1, {}),
    '-Ilinks/a -ofull links/a/base.proto': (['full: No space left on device'], 1, {}),
    '-Ilinks/a -oset links/a/latin.proto': (['latin.proto:3:7: not UTF-8', '    3 | // caf', '      |       ^'], 1, {}),
    '-Ilinks/bare -oset links/bare/options.proto': ([OPTIONS], 0, {'set': SET_WITH_OPTION}),
}
PLACE = re.compile(r'(.*?):(\d+):(\d+): .*')
AS_NOBODY = {'user': 65534, 'group': 65534, 'extra_groups': []} if os.geteuid() == 0 else {}


def excerpt(folder, line):
    """The lines behind a line with a place: that line of the source, and marks under an import or a word.
    `folder` holds the source."""
    found = PLACE.fullmatch(line)
    if not found:
        return []
    name, row, column = found[1], int(found[2]), int(found[3])
    with open(os.path.join(folder, os.path.basename(name)), encoding='utf-8') as source:
        text = source.read().split('\n')[row - 1]
    width = len(re.match(r'import.*?;|[\w.]+', text[column - 1:])[0])
    return [f'{row:>5} | {text}', '      | ' + ' ' * (column - 1) + '^' * width]


def answer(protoc, folder, line):
    """What protoc says, its status, and what it writes."""
    before = set(os.listdir(folder))
    words = line.split()
    # protoc wants to be asked for something
    asked = words if '-o' in line else [*words, '-o', os.devnull]
    done = subprocess.run([protoc, *asked], cwd=folder, capture_output=True, check=False, **AS_NOBODY)
    said = [told for told in done.stderr.decode().split('\n')[:-1] if not told.startswith('[libprotobuf WARNING ')]
    if '--error_format' not in line:
        said = [one for told in said for one in [told, *excerpt(os.path.join(folder, os.path.dirname(words[-1]) or 'links/a'), told)]]
    written = {}
    for name in sorted(set(os.listdir(folder)) - before):
        with open(os.path.join(folder, name), 'rb') as data:
            written[name] = data.read()
        os.remove(os.path.join(folder, name))
    return said, done.returncode, written


def lines_of(protoc, folder, line):
    """The lines of one command line."""
    said, status, written = BY_HAND[line] if line in BY_HAND else answer(protoc, folder, line)
    yield f'$ {line}'
    for name, data in written.items():
        yield f'+ {name}'
        yield from (data[at:at + 40].hex() for at in range(0, len(data), 40))
    yield from (f'! {told}' for told in said)
    yield f'= {status}'


def main():
    if len(sys.argv) < 2:
        sys.exit(__doc__)
    with tempfile.TemporaryDirectory() as top:
        folder = os.path.join(top, 'data')
        shutil.copytree(os.path.join(FOLDER, 'data'), folder)
        os.chmod(os.path.join(folder, 'links/a/locked.proto'), 0)
        os.chmod(top, 0o755)
        os.chmod(folder, 0o777)
        with open(os.path.join(folder, 'links.txt'), encoding='utf-8') as cases:
            lines = [told for line in cases.read().splitlines() for told in lines_of(sys.argv[1], folder, line)]
    text = '\n'.join(['== links.txt', *lines, ''])
    if '--write' not in sys.argv:
        print(text, end='')
        return
    path = os.path.join(FOLDER, 'stdout')
    with open(path, encoding='utf-8') as old:
        kept = old.read().split('== links.txt\n')[0]
    with open(path, 'w', encoding='utf-8') as out:
        out.write(kept + text)


main()
