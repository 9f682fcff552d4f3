#!/usr/bin/env python3
"""Works out the texts of floats as protobuf's C++ prints them, and compares `decimalcases` with them.

usage: decimal_cases.py [--count N] [--seed S] [--protoc PROTOC]     at the top of the repository
       decimal_cases.py --write FOLDER                               writes the cases of `decimalcases`

Without --write, it takes the cases below and N floats by chance (2000, from seed 1) and compares the
answers of crates/decimalcases/out/decimalcases. The last line is 'N passed, M failed'. With --write, it
writes `stdin` and `stdout`: the cases below, with their texts. The texts come from Python's `%`, which
rounds exactly, and from C's `strtod` and `strtof`. With --protoc, each text must also be the one that
protoc prints for the float in a message (it was written for protoc 3.21.12).
"""
import argparse
import ctypes
import os
import random
import struct
import subprocess
import sys
import tempfile

PROGRAM = 'crates/decimalcases/out/decimalcases'
LIBC = ctypes.CDLL(None, use_errno=True)
LIBC.strtod.restype, LIBC.strtof.restype = ctypes.c_double, ctypes.c_float

DOUBLES = (0.0, 1.0, 0.1, 1 / 3, 2 / 3, 0.5, 1.5, 100.0, 123456.0, 0.3, 0.7, 2.5e-5, 9.5, 1e22, 1e23, 123456789012345678.0,
           5e-324, 1e-323, 2.2250738585072009e-308, 2.2250738585072014e-308, 1.7976931348623157e308, 1e-310,
           # where the exponent begins to be written, on both sides
           0.0001, 0.00099999999999999999, 0.00012345, 9.9999999999999e-5, 9.99999999999999e-5, 1e-5,
           1e14, 1e15, 1e16, 1e17, 99999999999999.9, 999999999999999.0, 999999999999999.9, 9999999999999998.0,
           123456789012345.0, 1234567890123456.0, 12345678901234567.0, 100000000000000000.0, 100000000000000016.0,
           # ties of 15 digits, and of 17
           1000000000000000.5, 1000000000000001.5, 100000000000000.25, 100000000000000.75, 0.500000000000000444,
           4503599627370497.5, 4503599627370496.5, 1125899906842624.125, 1125899906842624.375,
           3.141592653589793, 2.718281828459045, 6.02214076e23, 6.62607015e-34, 1e100, 1e-100, 1e308, 1e-308,
           4.35, 0.1 + 0.2, 9007199254740993.0, 18446744073709551616.0, 4294967296.0)
# powers of ten, and what lies beside them
TENS = (-300, -22, -5, -4, -1, 1, 14, 15, 16, 17, 22, 23, 200)
FLOATS = (0x00000000, 0x80000000, 0x3f800000, 0xbf800000, 0x3dcccccd, 0x3eaaaaab, 0x40490fdb, 0x7f7fffff, 0xff7fffff,
          0x00000001, 0x00000002, 0x007fffff, 0x00800000, 0x00800001, 0x00400000, 0x80000001, 0x00012345,
          0x7f800000, 0xff800000, 0x7fc00000, 0x38d1b717, 0x38d1b716, 0x3727c5ac, 0x49742400, 0x497423f0, 0x49742408,
          0x4b800000, 0x4b7fffff, 0x4cbebc20, 0x501502f9, 0x60ad78ec, 0x47c35000, 0x461c4000, 0x48f42410, 0x48f42430,
          0x3f7fffff, 0x3f7ffffe, 0x42f6e979, 0x1e3ce508, 0x4a000001, 0x4a800003)


def bits_of(x):
    return struct.unpack('<Q', struct.pack('<d', x))[0]


def double_of(bits):
    return struct.unpack('<d', struct.pack('<Q', bits))[0]


def float_of(bits):
    return struct.unpack('<f', struct.pack('<I', bits))[0]


def word(x):
    """The text of what is not finite, else nothing."""
    return 'nan' if x != x else ('inf' if x > 0 else '-inf') if abs(x) == float('inf') else None


def double_text(x):
    short = word(x) or '%.15g' % x
    return short if word(x) or LIBC.strtod(short.encode(), None) == x else '%.17g' % x


def float_text(x):
    """As SimpleFtoa has it: a text for which strtof reports a range error isn't read."""
    if word(x):
        return word(x)
    short = '%.6g' % x
    ctypes.set_errno(0)
    read = LIBC.strtof(short.encode(), None)
    return short if ctypes.get_errno() == 0 and read == x else '%.9g' % x


def fixed():
    for x in DOUBLES:
        yield 'double', bits_of(x)
    for x in (-0.0, -1.5, float('inf'), float('-inf'), float('nan')):
        yield 'double', bits_of(x)
    for power in TENS:
        bits = bits_of(float(f'1e{power}'))
        yield from (('double', near) for near in (bits - 1, bits, bits + 1))
    yield from (('float', bits) for bits in FLOATS)


def by_chance(seed, count):
    """Floats with any bits, and floats with few digits."""
    chance = random.Random(seed)
    for _ in range(count):
        yield 'double', chance.getrandbits(64)
        yield 'float', chance.getrandbits(32)
        digits, power = chance.randint(1, 10 ** chance.randint(1, 17)), chance.randint(-30, 30)
        yield 'double', bits_of(float(f'{digits}e{power}'))
        yield 'double', bits_of(chance.randint(1, 2 ** 60) / 2 ** chance.randint(0, 60))
        yield 'float', struct.unpack('<I', struct.pack('<f', float(f'{digits}e{chance.randint(-40, 15)}')))[0]


def text_of(kind, bits):
    return double_text(double_of(bits)) if kind == 'double' else float_text(float_of(bits))


def told(protoc, cases):
    """What protoc prints for the floats, in the fields of a message."""
    with tempfile.TemporaryDirectory() as folder:
        with open(os.path.join(folder, 'm.proto'), 'w', encoding='utf-8') as file:
            file.write('syntax = "proto2"; message M { repeated double d = 1; repeated float f = 2; }\n')
        answers = {}
        for kind, header, width in (('double', b'\x09', 8), ('float', b'\x15', 4)):
            asked = [bits for of, bits in cases if of == kind]
            data = b''.join(header + bits.to_bytes(width, 'little') for bits in asked)
            run = subprocess.run([protoc, '--decode=M', 'm.proto'], cwd=folder, input=data, stdout=subprocess.PIPE,
                                 check=True)
            lines = [line.split(': ')[1] for line in run.stdout.decode().splitlines()]
            assert len(lines) == len(asked)
            answers.update({(kind, bits): line for bits, line in zip(asked, lines)})
    return [answers[case] for case in cases]


def lines_of(cases):
    return [f'{kind} {bits:0{16 if kind == "double" else 8}x}' for kind, bits in cases]


def count_differing(of, cases, wanted, answers):
    failed = [(line, want, got) for line, want, got in zip(lines_of(cases), wanted, answers) if want != got]
    for line, want, got in failed[:20]:
        print(f'{line}\n  wanted: {want}\n  {of}: {got}')
    return len(failed) + abs(len(wanted) - len(answers))


def main():
    parser = argparse.ArgumentParser(usage=__doc__.split('usage: ')[1].split('\n\n')[0])
    parser.add_argument('--write')
    parser.add_argument('--protoc')
    parser.add_argument('--count', type=int, default=2000)
    parser.add_argument('--seed', type=int, default=1)
    args = parser.parse_args()
    cases = list(fixed()) if args.write else list(fixed()) + list(by_chance(args.seed, args.count))
    wanted = [text_of(*case) for case in cases]
    failed = count_differing('protoc', cases, wanted, told(args.protoc, cases)) if args.protoc else 0
    if args.write:
        for name, lines in (('stdin', lines_of(cases)), ('stdout', wanted)):
            with open(os.path.join(args.write, name), 'w', encoding='utf-8') as file:
                file.write('\n'.join(lines) + '\n')
    else:
        run = subprocess.run([PROGRAM], input='\n'.join(lines_of(cases)) + '\n', stdout=subprocess.PIPE,
                             encoding='utf-8', check=True)
        failed += count_differing('decimalcases', cases, wanted, run.stdout.splitlines())
    print(f'{len(cases) - failed} passed, {failed} failed')
    return 1 if failed else 0


if __name__ == '__main__':
    sys.exit(main())
