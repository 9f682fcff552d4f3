#!/usr/bin/env python3
"""Writes a set of .proto files as `linkcases` reads it, to measure linking.

usage: make_link.py SHAPE COUNT [SEED] > FILE

`tree` has COUNT files of about 20 KB, which import one another and use names with dots. The other shapes
are those that a linker may be slow for; COUNT is a number of files or of parts, or of letters:
  tree3    the same in proto3
  name     a message with a name of COUNT letters, and a field for each 20 letters
  absolute the same, where the types of fields begin with a dot
  fields   a message with COUNT fields of one type
  nested   messages in messages, 30 deep, COUNT of them, each with a field of the outermost one
  values   an enum with COUNT values, and one of COUNT names that are wrong
  twice    a message that is defined COUNT times
  reserved a message that reserves COUNT names, each twice, and has fields of half of them
  defaults an enum with COUNT values, and a field with each as its default
  alike    in proto3, a message with COUNT fields and an enum with COUNT values, all alike but for case
  chain    COUNT files, each of which imports the one before it
  public   the same, where the imports are public
  ladder   COUNT files, each of which imports the two before it publicly
  packages a chain of public imports, where each file has a package of 50 parts of its own
  star     COUNT files, and one that imports all of them
  alone    COUNT files of 20 messages each, which import nothing
  parts    a package of COUNT parts, and a field for each 10 of them whose type is nothing
  cycle    COUNT files that import one another in a circle
  gone     a file with COUNT imports that are missing
"""
import random
import sys

HEAD = 'syntax = "proto2";\n'


def tree(count, rng):
    """Packages of some files each; a file imports some of those before it, one of them publicly."""
    messages = []
    for number in range(count):
        package = f'tree.part{number // 8}.v{number % 3 + 1}'
        chosen = sorted(rng.sample(range(number), min(number, rng.randint(2, 8))))
        lines = [HEAD, f'package {package};\n']
        for index, other in enumerate(chosen):
            lines.append(f'import {"public " if index == 0 else ""}"tree/file{other}.proto";\n')
        own = [(package, f'Message{number}x{n}') for n in range(26)]
        known = own + [each for other in chosen for each in messages[other]]
        lines += [text for _, name in own for text in message(rng, package, name, known)]
        messages.append(own)
        yield f'tree/file{number}.proto', ''.join(lines)


def used(rng, package, known):
    other, name = rng.choice(known)
    if other == package and rng.random() < 0.6:
        return rng.choice(['', '', f'{other.split(".")[-1]}.']) + name
    return rng.choice(['', '', '.']) + f'{other}.{name}' + rng.choice(['', '', '.Inner', '.Kind'])


def message(rng, package, name, known):
    lines = [f'\n// What {name} is for, in a line.\nmessage {name} {{\n  message Inner {{\n',
             '    optional string first_name = 1;\n    optional Inner next_inner = 2;\n  }\n',
             '  enum Kind {\n    NONE = 0;\n    SOME = 1;\n  }\n  optional Kind kind = 1;\n']
    for number in range(2, 14):
        kind = rng.choice(['int32', 'string', 'bool', 'uint64', None, None, None])
        kind = kind or used(rng, package, known)
        lines.append(f'  {rng.choice(["optional", "repeated"])} {kind} some_field_{number} = {number};\n')
    return lines + ['}\n']


def tree3(count, rng):
    """The same in proto3."""
    for name, text in tree(count, rng):
        yield name, text.replace('"proto2"', '"proto3"').replace('optional ', '')


def in_one(text, syntax='proto2'):
    return [('a.proto', f'syntax = "{syntax}";\n{text}')]


def cased(name, number):
    """The name with capitals where the number has bits, of which each letter has one."""
    made = ''
    for letter in name:
        made += letter.upper() if letter.isalpha() and number & 1 else letter
        number >>= letter.isalpha()
    return made


def named(count, used):
    fields = ''.join(f'optional {used} f{n} = {n + 1};\n' for n in range(count // 20))
    return in_one(f'package p;\nmessage M {{}}\nmessage {"n" * count} {{\n{fields}}}\n')


def nested(count):
    depth, text = 30, ''
    for number in range(max(1, count // depth)):
        text += ''.join(f'message M{number}x{level} {{ optional M{number}x0 f = 1;\n' for level in range(depth))
        text += '}' * depth + '\n'
    return in_one(text)


def linked_files(count, verb, back):
    for number in range(count):
        imports = ''.join(f'import {verb}"f{other}.proto";\n' for other in range(max(0, number - back), number))
        field = f'optional M{number - 1} f = 1;' if number else ''
        yield f'f{number}.proto', f'{HEAD}{imports}message M{number} {{ {field} }}\n'


def packages(count):
    for number in range(count):
        package = '.'.join([f'p{number}'] + ['q'] * 49)
        imports = f'import public "f{number - 1}.proto";\n' if number else ''
        yield f'f{number}.proto', f'{HEAD}package {package};\n{imports}message M {{}}\n'


def alone(count):
    for number in range(count):
        yield f'f{number}.proto', HEAD + ''.join(f'message M{number}x{n} {{}}\n' for n in range(20))


def parts(count):
    fields = ''.join(f'optional Gone f{n} = {n + 1};\n' for n in range(count // 10))
    return in_one(f'package {".".join(["p"] * count)};\nmessage M {{\n{fields}}}\n')


def star(count):
    files = [(f'f{n}.proto', f'{HEAD}message M{n} {{}}\n') for n in range(count)]
    imports = ''.join(f'import "f{n}.proto";\n' for n in range(count))
    fields = ''.join(f'optional M{n} f{n} = {n + 1};\n' for n in range(count))
    return files + [('star.proto', f'{HEAD}{imports}message Star {{\n{fields}}}\n')]


def cycle(count):
    return [(f'f{n}.proto', f'{HEAD}import "f{(n + 1) % count}.proto";\n') for n in range(count)]


def values(count):
    enum = ''.join(f'V{n} = {n};\n' for n in range(count))
    fields = ''.join(f'optional Gone{n} f{n} = {n + 1};\n' for n in range(count))
    return in_one(f'enum E {{\n{enum}}}\nmessage M {{\n{fields}}}\n')


def reserved(count):
    names = ''.join(f'reserved "a_long_name_of_a_field_{n}", "a_long_name_of_a_field_{n}";\n' for n in range(count))
    fields = ''.join(f'optional int32 a_long_name_of_a_field_{n} = {n + 1};\n' for n in range(0, 2 * count, 2))
    return in_one(f'message M {{\n{names}{fields}}}\n')


def extended(count):
    ranges = ''.join(f'  extensions {3 * n + 1} to {3 * n + 2};\n' for n in range(count))
    fields = ''.join(f'  optional int32 e{n} = {2 * n + 1};\n' for n in range(count))
    return in_one(f'message M {{\n{ranges}}}\nextend M {{\n{fields}}}\n')


def alike(count):
    fields = ''.join(f'  int32 {cased("field_of_a_message", n)} = {n + 1};\n' for n in range(count))
    values = ''.join(f'  {cased("value_of_an_enum", n)} = {n};\n' for n in range(count))
    return in_one(f'message M {{\n{fields}}}\nenum E {{\n{values}}}\n', 'proto3')


def defaults(count):
    enum = ''.join(f'V{n} = {n};\n' for n in range(count))
    fields = ''.join(f'optional E f{n} = {n + 1} [default = V{n}];\n' for n in range(count))
    return in_one(f'enum E {{\n{enum}}}\nmessage M {{\n{fields}}}\n')


SHAPES = {
    'tree': tree,
    'tree3': tree3,
    'name': lambda count, _: named(count, 'p.M'),
    'absolute': lambda count, _: named(count, '.p.M'),
    'fields': lambda count, _: in_one('message M {\n' + ''.join(
        f'optional M f{n} = {n + 1};\n' for n in range(count)) + '}\n'),
    'nested': lambda count, _: nested(count),
    'values': lambda count, _: values(count),
    'reserved': lambda count, _: reserved(count),
    'extended': lambda count, _: extended(count),
    'defaults': lambda count, _: defaults(count),
    'alike': lambda count, _: alike(count),
    'twice': lambda count, _: in_one('message M { optional M m = 1; }\n' * count),
    'chain': lambda count, _: linked_files(count, '', 1),
    'public': lambda count, _: linked_files(count, 'public ', 1),
    'ladder': lambda count, _: linked_files(count, 'public ', 2),
    'packages': lambda count, _: packages(count),
    'star': lambda count, _: star(count),
    'alone': lambda count, _: alone(count),
    'parts': lambda count, _: parts(count),
    'cycle': lambda count, _: cycle(count),
    'gone': lambda count, _: in_one(''.join(f'import "gone{n}.proto";\n' for n in range(count))),
}


def main():
    if len(sys.argv) < 3 or sys.argv[1] not in SHAPES:
        sys.exit(__doc__)
    shape, count = sys.argv[1], int(sys.argv[2])
    seed = int(sys.argv[3]) if len(sys.argv) > 3 else 1
    sys.stdout.write(f'== set {shape} {count}\n')
    for name, text in SHAPES[shape](count, random.Random(seed)):
        sys.stdout.write(f'== file {name}\n{text}')
    sys.stdout.write('== end\n')


main()
