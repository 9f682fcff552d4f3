#!/usr/bin/env python3
"""Measures programs on sources that are made to be dear: deep, long, or full of faults.

usage: hostile.py BYTES PROGRAM [ARGUMENT..]

Each source has about BYTES bytes, and then twice as many; those whose answer grows with their square
have few. A line for each: its name, its bytes, the seconds and the largest memory of the program on
it, and by how much both grow when the source doubles. A factor of 2 is growth in line with the source,
and one of 4 with its square. The program is run as PROGRAM FILE ARGUMENT.., for
example crates/parsecount/out/parsecount, which parses and prints a number; it may refuse the file.
"""
import os
import sys
import tempfile

from time_runs import run


def many(front, part, back=''):
    """A source of so many bytes: the part again and again, between two texts."""
    return lambda size: front + part * (size // len(part)) + back


def joined(front, part, between, back):
    """The same with a text between each two parts."""
    return lambda size: front + between.join([part] * (size // len(part + between))) + back


def nested(front, opened, closed, back):
    """A source in which something is opened so often, and then closed as often."""
    def source(size):
        levels = size // len(opened + closed)
        return front + opened * levels + closed * levels + back
    return source


def ranges_with_options(size):
    """Each range of the statement has each option: the descriptor grows with the square of the source."""
    count = size // 6
    return f'message M {{ extensions {",".join(["1"] * count)} to 2 [{",".join(["a=1"] * count)}]; }}'


def fields_of_extendee(size):
    """Each field of the statement has the extended name: the descriptor grows with the square too."""
    count = size // 2
    return f'extend {"A" * count} {{ {"optional a b=1;" * (count // 15)} }}'


DEEP = 'message M{' * 31
SOURCES = {
    'openers of comments': many('', '/*'),
    'openers of comments, closed': nested('', '/*', '*/', ''),
    'open braces': many('', '{'),
    'braces in an aggregate': nested('option o = {', '{ ', '} ', '};'),
    'messages in messages': nested('', 'message M { ', '} ', ''),
    'messages in the 31st': many(DEEP, 'message N{}', '}' * 31),
    'a name': many('message ', 'a', ' {}'),
    'parts of an option': joined('option ', 'a', '.', ' = 1;'),
    'parts of a type': joined('message M { optional ', 'a', '.', ' x = 1; }'),
    'parts of a package': joined('package ', 'a', '.', ';'),
    'escapes': many("option o = '", '\\x41', "';"),
    'wrong escapes': many("option o = '", '\\q ', "';"),
    'strings side by side': many('option o = ', "''", ';'),
    'strings without end': many('', '"\n'),
    'newlines': many('', '\n'),
    'semicolons': many('', ';'),
    'characters of no token': many('', '$'),
    'comments of a line': many('', '// x\n', ';'),
    'comments with #': many('message M { } ', '# x\n'),
    'floats with f': many('option o = ', '1f ', ';'),
    'integers with letters': many('', '1a '),
    'statements at fault': many('', 'message 1;\n'),
    'packages': many('', 'package a;'),
    'imports': many('', "import 'a';"),
    'messages': many('', 'message M{}\n'),
    'fields': many('message M{', 'optional a b=1;', '}'),
    'fields with an option': many('message M{', 'optional a b=1[c=1];', '}'),
    'default values': many('message M{', 'optional int32 a=1[default=1];', '}'),
    'maps': many('message M{', 'map<int32,a>b=1;', '}'),
    'groups': many('message M{', 'optional group A=1{}', '}'),
    'oneofs': many('message M{', 'oneof a{b c=1;}', '}'),
    'values of an enum': many('enum E{', 'A=1;', '}'),
    'values with an option': many('enum E{', 'A=1[a=1];', '}'),
    'reserved numbers in the 31st': joined(DEEP + 'reserved ', '1', ',', ';' + '}' * 31),
    'ranges with one option there': joined(DEEP + 'extensions ', '1', ',', ' to 2[a=1];' + '}' * 31),
    'options': many('', 'option a=1;'),
    'options in a list': joined('message M{optional a b=1[', 'a=1', ',', '];}'),
    'methods': many('service S{', 'rpc a(b)returns(c);', '}'),
}
# These have so many bytes.
SHORT = {
    'ranges with options': (ranges_with_options, 6000),
    'fields of one extendee': (fields_of_extendee, 100000),
}


def measured(words, source):
    """Bytes of the source, seconds and kilobytes of a run."""
    with tempfile.NamedTemporaryFile('w', suffix='.proto', encoding='utf-8') as file:
        size = file.write(source)
        file.flush()
        seconds, status, used = run([words[0], file.name, *words[1:]])
    if os.WIFSIGNALED(status):
        sys.exit(f'the program was stopped by signal {os.WTERMSIG(status)}')
    return size, seconds, used.ru_maxrss


def main():
    size, words = int(sys.argv[1]), sys.argv[2:]
    _, _, least = measured(words, '')
    print('source\tbytes\tseconds\tMB\tof twice the bytes: seconds times\tMB times')
    for name, (made, count) in {**{name: (made, size) for name, made in SOURCES.items()}, **SHORT}.items():
        one, two = measured(words, made(count)), measured(words, made(2 * count))
        memory = max(two[2] - least, 1) / max(one[2] - least, 1)
        print(f'{name}\t{one[0]}\t{one[1]:.2f}\t{one[2] / 1000:.0f}\t{two[1] / one[1]:.1f}\t{memory:.1f}', flush=True)


if __name__ == '__main__':
    main()
