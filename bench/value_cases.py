#!/usr/bin/env python3
"""Asks protoc what statements say to options, and compares `valuecases` with it.

usage: value_cases.py PROTOC [--count N] [--seed S]     at the top of the repository
       value_cases.py PROTOC --write FOLDER             writes the cases of `valuecases`

Without --write, it makes N statements by chance (200, from seed 1) and compares the answers of
crates/valuecases/out/valuecases. The last line is 'N passed, M failed'. With --write, it writes `stdin`
and `stdout`: the statements below, with protoc's answers. Each statement is a file that sets an option
of one type; its bytes are in the descriptor that protoc writes, and its fault in what protoc says. It
was written for protoc 3.21.12, which reads descriptor.proto from its own folder.
"""
import argparse
import os
import random
import subprocess
import sys
import tempfile

PROGRAM = 'crates/valuecases/out/valuecases'
SCALARS = ('double', 'float', 'int64', 'uint64', 'int32', 'fixed64', 'fixed32', 'bool', 'string', 'bytes',
           'uint32', 'sfixed32', 'sfixed64', 'sint32', 'sint64')
VALUES = {'ZERO': 0, 'ONE': 1, 'LESS': -1, 'LEAST': -2147483648, 'GREATEST': 2147483647, 'true': 5}
NUMBER = 50001
INTEGERS = (0, 1, 127, 128, 2147483647, 2147483648, 4294967295, 4294967296, 9223372036854775807,
            9223372036854775808, 18446744073709551615)
NEGATIVE = (0, 1, 2, 64, 2147483648, 2147483649, 4294967296, 9223372036854775807, 9223372036854775808)
# the limits of floats, and numbers that lie between two of them
FLOATS = ('0.0', '-0.0', '1.5', '-1.5', '.5', '5.', '1e3', '1E-3', '16777217.0', '16777219.0', '3.4028234e38',
          '3.4028235677973366e38', '3.4028235677973367e38', '3.40282357e38', '1e39', '-1e39', '1e-45', '7e-46',
          '7.1e-46', '1.1754943e-38', '1e308', '1.7976931348623157e308', '1e309', '-1e400', '5e-324', '2e-324',
          '3e-324', '0.1',
          '1.00000017881393421514957253748434595763683319091796875001', '1.0000001788139343',
          '9007199254740993.0', '123456789.125')
WORDS = ('true', 'false', 'True', 'TRUE', 'tru', 'truer', 'inf', 'nan', 'ZERO', 'ONE', 'LESS', 'LEAST', 'GREATEST',
         'zero', 'NONE', 'p', 'E')
STRINGS = (b'', b'a', b'true', b'ZERO', b'5', b'\x00', b'\xff\xfe', 'ü'.encode(), b'"\\\'\n', b'x' * 200)
# integers nearest to which there is no float of 32 or of 64 bits
ODD = (16777217, 16777219, 33554435, 9007199254740993, 9007199254740995, 18446744073709551615, 9223372036854775809,
       18446742974197923840, 18446742974197923841, 18446742974197923839)


def statements():
    """The statements of the cases: a type, the part of the value, and its text."""
    for scalar in SCALARS + ('enum',):
        yield from ((scalar, 'positive', str(n)) for n in INTEGERS)
        yield from ((scalar, 'negative', str(-n)) for n in NEGATIVE)
        yield from ((scalar, 'double', text) for text in FLOATS[:3])
        yield from ((scalar, 'identifier', word) for word in WORDS)
        yield from ((scalar, 'string', text.hex()) for text in STRINGS)
        yield (scalar, 'aggregate', 'a : 1')
    for scalar in ('float', 'double'):
        yield from ((scalar, 'double', text) for text in FLOATS[3:])
        yield from ((scalar, 'positive', str(n)) for n in ODD)
        yield from ((scalar, 'negative', str(-n)) for n in ODD if n < 2 ** 63)


def by_chance(seed, count):
    """Statements by chance: integers of any length, and floats with any digits."""
    chance = random.Random(seed)
    for _ in range(count):
        scalar = chance.choice(SCALARS + ('float', 'double', 'float'))
        part = chance.choice(('positive', 'negative', 'double'))
        n = chance.getrandbits(chance.randint(1, 64))
        if part == 'double':
            sign, places = chance.choice(('', '-')), chance.randint(1, 25)
            digits = ''.join(chance.choice('0123456789') for _ in range(places))
            exponent = chance.choice((0, 1, 10, 38, 60, 310)) - chance.randint(0, 20)
            yield scalar, part, f'{sign}{chance.randint(0, 9)}.{digits}e{exponent}'
        else:
            yield scalar, part, str(n) if part == 'positive' else str(-min(n, 2 ** 63))


def source_of(part, text):
    """The text of a value in a source."""
    if part == 'string':
        return '"' + ''.join(f'\\x{byte:02x}' for byte in bytes.fromhex(text)) + '"'
    if part == 'aggregate':
        return '{ ' + text + ' }'
    return '-0' if (part, text) == ('negative', '0') else text


def varint(data, at):
    """A number in groups of seven bits, and where it ends."""
    number = shift = 0
    while True:
        number |= (data[at] & 127) << shift
        shift, at = shift + 7, at + 1
        if data[at - 1] < 128:
            return number, at


def fields(data):
    """The fields of a message: the number of each, its kind on the wire, and what it holds."""
    at = 0
    while at < len(data):
        header, at = varint(data, at)
        kind, start = header & 7, at
        if kind == 0:
            held, at = varint(data, at)
        elif kind == 2:
            length, start = varint(data, at)
            at = start + length
            held = data[start:at]
        else:
            at += 8 if kind == 1 else 4
            held = int.from_bytes(data[start:at], 'little')
        yield header >> 3, kind, held


def payload(data):
    """The value of the option, in the descriptors of a set."""
    file = [held for number, _, held in fields(data) if number == 1][-1]
    options = [held for number, _, held in fields(file) if number == 8][-1]
    kind, held = [(kind, held) for number, kind, held in fields(options) if number == NUMBER][0]
    if kind == 2:
        return ('bytes ' + held.hex())
    return {0: 'varint', 1: 'eight', 5: 'four'}[kind] + f' {held}'


class Asked:
    """A folder with the declaration of an option for each type, where protoc is asked."""

    def __init__(self, protoc, folder):
        self.protoc, self.folder = protoc, folder
        for name in SCALARS + ('enum',):
            typed = 'E' if name == 'enum' else name
            values = ' '.join(f'{word} = {n};' for word, n in VALUES.items())
            field = f'optional {typed} an_{name} = {NUMBER};'
            self.write(f'{name}.proto', 'import "google/protobuf/descriptor.proto";\npackage p;\n'
                       + f'enum E {{ {values} }}\n'
                       + f'message M {{ extend google.protobuf.FileOptions {{ {field} }} }}\n')

    def write(self, name, text):
        with open(os.path.join(self.folder, name), 'w', encoding='utf-8') as file:
            file.write('syntax = "proto2";\n' + text)

    def answer(self, name, part, text):
        """What protoc makes of a statement."""
        self.write('set.proto', f'import "{name}.proto";\noption (p.M.an_{name}) = {source_of(part, text)};\n')
        run = subprocess.run([self.protoc, '-I.', '-I/usr/include', '--descriptor_set_out=out', 'set.proto'],
                             cwd=self.folder, stderr=subprocess.PIPE, check=False)
        if run.returncode:
            return run.stderr.decode().splitlines()[0].split(': ', 1)[1]
        with open(os.path.join(self.folder, 'out'), 'rb') as file:
            return payload(file.read())


def lines_of(asked, cases):
    """The lines for the program, and protoc's answers to them."""
    words = ' '.join(f'{word}={n}' for word, n in VALUES.items())
    given, wanted = [f'values p.E {words}'], []
    for name, part, text in cases:
        given.append(f'{name} p.M.an_{name} {part} {text}')
        wanted.append(asked.answer(name, part, text))
    return given, wanted


def write(folder, given, wanted):
    for name, lines in (('stdin', given), ('stdout', wanted)):
        with open(os.path.join(folder, name), 'w', encoding='utf-8') as file:
            file.write('\n'.join(lines) + '\n')


def compare(given, wanted):
    run = subprocess.run([PROGRAM], input='\n'.join(given) + '\n', stdout=subprocess.PIPE, encoding='utf-8',
                         check=True)
    answers = run.stdout.splitlines()
    failed = [(line, want, got) for line, want, got in zip(given[1:], wanted, answers) if want != got]
    for line, want, got in failed:
        print(f'{line}\n  protoc: {want}\n  valuecases: {got}')
    missing = abs(len(wanted) - len(answers))
    print(f'{len(wanted) - len(failed) - missing} passed, {len(failed) + missing} failed')
    return 1 if failed or missing else 0


def main():
    parser = argparse.ArgumentParser(usage=__doc__.split('usage: ')[1].split('\n\n')[0])
    parser.add_argument('protoc')
    parser.add_argument('--write')
    parser.add_argument('--count', type=int, default=200)
    parser.add_argument('--seed', type=int, default=1)
    args = parser.parse_args()
    with tempfile.TemporaryDirectory() as folder:
        asked = Asked(args.protoc, folder)
        if args.write:
            write(args.write, *lines_of(asked, statements()))
            return 0
        return compare(*lines_of(asked, by_chance(args.seed, args.count)))


if __name__ == '__main__':
    sys.exit(main())
