#!/usr/bin/env python3
"""Measures the parser beside protobuf's on made files and on small real ones, and prints tables.

usage: beside.py [--pool] PARSECOUNT PROTOBUF [read|whole|notes|small ..]

PARSECOUNT is what `rt run` leaves in crates/parsecount/out, and PROTOBUF is built from
protobuf.cc. `read`, `whole` and `notes` are files of make_proto.py. `small` are the files that come
with protobuf (Debian: libprotobuf-dev), of 2 to 38 KB, each parsed often. With --pool the parser is
`parse_pooled`.

A parse is one in process, with the drop of its result: the difference between several turns and
one, over their number. Instructions are counted by valgrind, on 1 MB of a made file, and are the
same each time. Times are of processor time, on 10 MB of a made file: the shortest of 7 runs in
turns. Memory is the largest of one turn.
"""
import glob
import os
import subprocess
import sys
import tempfile

from time_runs import run

ROUNDS = 7
TURNS = 6
SMALL_TURNS = 401
REAL = '/usr/include/google/protobuf/**/*.proto'


def make(folder, megabytes, kind):
    name = os.path.join(folder, f'{kind}{megabytes}.proto')
    maker = os.path.join(os.path.dirname(os.path.abspath(__file__)), 'make_proto.py')
    with open(name, 'wb') as out:
        subprocess.run([sys.executable, maker, str(megabytes), kind], stdout=out, check=True)
    return name


def instructions(folder, words):
    counts = os.path.join(folder, 'counts')
    subprocess.run(['valgrind', '--tool=callgrind', f'--callgrind-out-file={counts}', *words],
                   check=True, stdout=subprocess.DEVNULL, stderr=subprocess.DEVNULL)
    with open(counts) as lines:
        return next(int(line.split()[1]) for line in lines if line.startswith('summary:'))


def seconds(words):
    _, status, used = run(words)
    if status != 0:
        sys.exit(f'{words[0]} failed')
    return used.ru_utime + used.ru_stime


def megabytes_used(words):
    return run(words)[2].ru_maxrss / 1000


def size_of(files):
    return sum(os.path.getsize(name) for name in files)


def instructions_a_byte(folder, words, files, turns):
    """Instructions of one parse, a byte of these files. WORDS stand before and behind a file's."""
    before, behind = words
    counts = [[instructions(folder, [*before, name, str(n), *behind]) for n in (1, turns)]
              for name in files]
    return sum(last - first for first, last in counts) / (turns - 1) / size_of(files)


def shortest(parsers, files, turns):
    """The shortest milliseconds in which each parser parses these files, in turns."""
    times = {name: [] for name in parsers}
    for _ in range(ROUNDS):
        for name, (before, behind) in parsers.items():
            took = [seconds([*before, file, str(n), *behind]) for file in files for n in (1, turns)]
            times[name].append(sum(took[1::2]) - sum(took[::2]))
    return {name: min(found) * 1000 / (turns - 1) for name, found in times.items()}


def row(kind, what, numbers, digits):
    here, theirs = numbers
    print(f'| {kind} | {what} | {here:.{digits}f} | {theirs:.{digits}f} | {theirs / here:.2f} |')


def measure(folder, parsers, kind):
    if kind == 'small':
        counted = timed = sorted(glob.glob(REAL, recursive=True))
        turns, many = 11, SMALL_TURNS
    else:
        counted, timed = ([make(folder, size, kind)] for size in (1, 10))
        turns, many = 3, TURNS
    counts = [instructions_a_byte(folder, words, counted, turns) for words in parsers.values()]
    row(kind, 'instructions a byte', counts, 1)
    times = shortest(parsers, timed, many)
    row(kind, f'milliseconds for {size_of(timed) / 1e6:.1f} MB', list(times.values()),
        2 if kind == 'small' else 0)
    if kind != 'small':
        row(kind, 'largest memory, MB', [megabytes_used([*before, timed[0], '1', *behind])
                                         for before, behind in parsers.values()], 0)


def main():
    words = sys.argv[1:]
    behind = ['pool'] if '--pool' in words else []
    parsecount, protobuf, *kinds = [word for word in words if word != '--pool']
    parsers = {'here': ([parsecount], behind), 'protobuf': ([protobuf, 'parse'], [])}
    print('| files | a parse | here | protobuf | protobuf over here |\n|---|---|---|---|---|')
    with tempfile.TemporaryDirectory() as folder:
        for kind in kinds or ['read', 'notes', 'whole', 'small']:
            measure(folder, parsers, kind)


if __name__ == '__main__':
    main()
