#!/usr/bin/env python3
"""Holds the output of `protoparse --text`, with both streams in one file, beside what it must be.

usage: streams.py [PROTOPARSE]      at the top of the repository

PROTOPARSE is by default the program that the gate built. It gathers standard output in a buffer of
8192 bytes, and writes faults to standard error at once. So in one file the order of both follows
from the pieces of the text: a piece for which the buffer has no room empties it first. This program
runs PROTOPARSE for each sample alone, cuts each text into its pieces, and fills such a buffer with
them. Then PROTOPARSE runs with all samples, in three orders, and the file must be the same.

The last line is 'N passed, M failed'.
"""
import glob
import os
import re
import subprocess
import sys
import tempfile

ROOM = 8192
# Samples of which some are accepted and some refused. The deep and large ones say nothing new.
SAMPLES = ['examples/*.proto', 'crates/protocases/data/*.proto']
LEFT_OUT = re.compile(r'deep|large')
LINE = re.compile(rb'(?P<blanks>(?:  )*)(?:}|(?P<name>\w+)(?P<end> {|: "|: )(?P<value>.*))')
# In a literal an escape of one letter is a piece, and so is each other character.
UNITS = re.compile(rb'\\[^0-9]|.')


def pieces_of(line):
    """The pieces of a line of the text format, in which it goes to the buffer."""
    found = LINE.fullmatch(line)
    blanks = [b'  '] * (len(found['blanks']) // 2)
    if found['name'] is None:
        return blanks + [b'}\n']
    front = blanks + [found['name']]
    if found['end'] == b' {':
        return front + [b' {\n']
    if found['end'] == b': "':
        return front + [b': "'] + UNITS.findall(found['value'][:-1]) + [b'"\n']
    return front + [b': ', found['value'], b'\n']


def joined(answers):
    """What stands in one file after these answers, each of a text and of what is told of faults."""
    file, buffer = b'', b''
    for text, faults in answers:
        for line in text.splitlines():
            for piece in pieces_of(line):
                if len(buffer) + len(piece) > ROOM:
                    file, buffer = file + buffer, b''
                buffer += piece
        file += faults
    return file + buffer


def answer_of(program, name):
    """The text of a file, and what is told of its faults."""
    done = subprocess.run([program, '--text', name], capture_output=True, check=False)
    return done.stdout, done.stderr


def in_one_file(program, names):
    """What a run leaves in a file to which both streams go."""
    with tempfile.TemporaryFile() as file:
        subprocess.run([program, '--text', *names], stdout=file, stderr=file, check=False)
        file.seek(0)
        return file.read()


def main():
    program = os.path.abspath((sys.argv[1:] or ['crates/protoparse/out/protoparse'])[0])
    names = sorted(name for sample in SAMPLES for name in glob.glob(sample) if not LEFT_OUT.search(name))
    answers = {name: answer_of(program, name) for name in names}
    orders = {'sorted': names, 'backwards': names[::-1], 'every second first': names[::2] + names[1::2]}
    failed = 0
    for order, listed in orders.items():
        if in_one_file(program, listed) != joined(answers[name] for name in listed):
            print(f'{order}: the file differs')
            failed += 1
    accepted = sum(bool(text) for text, _ in answers.values())
    size = sum(len(text) for text, _ in answers.values())
    print(f'{len(names)} samples, {accepted} with a text, {size} bytes of text')
    print(f'{len(orders) - failed} passed, {failed} failed')
    return failed > 0 or accepted in (0, len(names))


if __name__ == '__main__':
    sys.exit(main())
