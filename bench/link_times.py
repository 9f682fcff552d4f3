#!/usr/bin/env python3
"""Counts the instructions that linking takes for the sets of bench/make_link.py, by valgrind.

usage: link_times.py PROGRAM [SHAPE..] [--times T]     at the top of the repository

PROGRAM is crates/linkcases/out/linkcases. A line for each shape: the bytes of a set, the instructions for
a byte of it to read and parse, and those to link besides; and how many times as many a set of twice the
count takes to link. With --times the counts are T times those below. The last line is 'N passed, M
failed': linking a set of twice the count should take at most 2.3 times the instructions.
"""
import argparse
import concurrent.futures
import os
import re
import subprocess
import sys
import tempfile

# Counts that take a second or two.
COUNTS = {
    'tree': 50, 'tree3': 50, 'name': 20000, 'absolute': 20000, 'fields': 2500, 'nested': 600, 'values': 2000, 'twice': 1000,
    'reserved': 2000, 'defaults': 2000, 'alike': 2000, 'extended': 2000,
    'chain': 1000, 'public': 1000, 'ladder': 1000, 'packages': 250, 'star': 1000, 'alone': 250, 'parts': 500,
    'cycle': 2000, 'gone': 2000,
}
MAKE = os.path.join(os.path.dirname(os.path.abspath(__file__)), 'make_link.py')


def instructions(program, mode, path):
    with tempfile.NamedTemporaryFile() as out, open(path, encoding='utf-8') as text:
        done = subprocess.run(['valgrind', '--tool=callgrind', f'--callgrind-out-file={out.name}', program, mode],
                              stdin=text, capture_output=True, text=True, check=True)
    return int(re.search(r'Collected : (\d+)', done.stderr)[1])


def measured(program, shape, count):
    """The bytes of a set, and the instructions to parse it and to link it."""
    with tempfile.NamedTemporaryFile('w', encoding='utf-8') as made:
        made.write(subprocess.run([sys.executable, MAKE, shape, str(count)], capture_output=True, text=True,
                                  check=True).stdout)
        made.flush()
        parse, link = (instructions(program, mode, made.name) for mode in ('--parse', '--link'))
        return os.path.getsize(made.name), parse, link - parse


def main():
    words = argparse.ArgumentParser()
    words.add_argument('program')
    words.add_argument('shapes', nargs='*')
    words.add_argument('--times', type=int, default=1)
    words = words.parse_args()
    counts = {shape: COUNTS[shape] * words.times for shape in words.shapes or COUNTS}
    wrong = 0
    with concurrent.futures.ThreadPoolExecutor(2) as pool:
        runs = {shape: [pool.submit(measured, words.program, shape, count * n) for n in (1, 2)]
                for shape, count in counts.items()}
        print('shape count bytes parse/byte link/byte twice')
        for shape, (one, two) in runs.items():
            (size, parse, link), (_, _, more) = one.result(), two.result()
            wrong += more > 2.3 * link
            print(f'{shape} {counts[shape]} {size} {parse / size:.1f} {link / size:.1f} {more / link:.2f}', flush=True)
    print(f'{len(counts) - wrong} passed, {wrong} failed')
    sys.exit(1 if wrong else 0)


main()
