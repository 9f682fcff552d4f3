#!/usr/bin/env python3
"""Asks protoc what names stand for, and compares `scopecases` with it.

usage: scope_cases.py PROTOC [--count N] [--seed S]     at the top of the repository
       scope_cases.py PROTOC --write FOLDER             writes the cases of `scopecases`

Without --write, it makes N sets of files by chance (200, from seed 1) and compares the answers of
crates/scopecases/out/scopecases for each name that a set uses. The last line is
'N passed, M failed'. With --write, it writes `stdin` and `stdout`: the sets below, and some by chance,
with protoc's answers. It was written for protoc 3.21.12.
"""
import argparse
import os
import random
import re
import subprocess
import sys
import tempfile

PROGRAM = 'crates/scopecases/out/scopecases'
SYNTAX = 'syntax = "proto2";'
FIRST = 'message Dummy {\n}'
# Each set: files, of which each one imports those before it. The names of the last one are asked for.
SETS = [
    # an inner message hides an outer one, also where the rest of the name is in the outer one alone
    ['package p;\nmessage Bar {\nmessage Baz {\n}\n}\nmessage Foo {\nmessage Bar {\n}\n'
     'optional Bar a = 1;\noptional Bar.Baz b = 2;\noptional p.Bar.Baz c = 3;\n'
     'optional .p.Bar.Baz d = 4;\noptional Foo.Bar e = 5;\noptional .Bar f = 6;\n}'],
    # a field of the type's name is passed by, and a method of it is not
    ['package p;\nmessage Foo {\nmessage Foo {\n}\n}\nmessage M {\noptional Foo Foo = 1;\n'
     'optional Foo.Foo a = 2;\noptional M.Foo b = 3;\n}\nservice S {\n'
     'rpc Foo(Foo) returns (.Dummy);\nrpc Go(Foo.Foo) returns (.Dummy);\nrpc M(.p.M) returns (.Dummy);\n}'],
    # the front of a package hides another package
    ['package google.protobuf;\nmessage Any {\n}',
     'package a.google.b;\nmessage M {\noptional google.protobuf.Any x = 1;\n'
     'optional .google.protobuf.Any y = 2;\noptional google.b.M z = 3;\noptional b.M w = 4;\n}'],
    # in the nameless scope nothing is passed by
    ['message M {\noptional int a = 1;\noptional S b = 2;\noptional V c = 3;\noptional E d = 4;\n'
     'optional M.E e = 5;\noptional E.V f = 6;\n}\nservice S {\nrpc M(M) returns (.Dummy);\n'
     'rpc E(E) returns (.Dummy);\n}\nenum E { V = 0; }'],
    # values of enums stand beside the enum, which holds names all the same
    ['package p;\nmessage M {\nenum E { V = 0; }\noptional E a = 1;\noptional V b = 2;\n'
     'optional E.V c = 3;\noptional M.V d = 4;\noptional p.M.E e = 5;\n}\nmessage V {\n}\nmessage E {\n'
     'message V {\n}\n}'],
    # a service is no type, and holds names; a oneof holds none
    ['package p;\nmessage A {\nmessage B {\n}\n}\nmessage M {\noneof A {\nA a = 1;\nA.B b = 2;\n}\n'
     'optional S c = 3;\noptional S.Go d = 4;\noptional p e = 5;\noptional p.p f = 6;\n}\nservice S {\n'
     'rpc Go(S) returns (.Dummy);\nrpc A(A.B) returns (.Dummy);\n}'],
    # nested deep, with digits and case in names
    ['package a.b.c;\nmessage a {\nmessage b {\nmessage c {\noptional a x = 1;\noptional b y = 2;\n'
     'optional a.b z = 3;\noptional b.c w = 4;\noptional a.b.c v = 5;\noptional .a.b.c u = 6;\n'
     'optional .a.b.c.a.b t = 7;\noptional A s = 8;\noptional c.c r = 9;\n}\n}\n}'],
]
JSON = ['foo', 'foo_bar', 'fooBar', '_foo', 'foo_', 'foo__bar', '_', '__a', 'FOO_BAR', 'a_1b', 'a1_b2',
        'foo_Bar_bAZ', '_1', 'x_y_z']
ALIKE = [('foo_bar', 'fooBar'), ('foo_bar', 'foobar'), ('FOO', 'foo'), ('a_1', 'a1'), ('ab', 'a_c'),
         ('_', '__'), ('_a', 'a_'), ('aB', 'ba')]


class File:
    """What one file declares and which names it uses, each use in a line of its own."""

    def __init__(self, text, imports):
        self.lines = [SYNTAX] + [f'import "{name}";' for name in imports] + text.split('\n')
        self.declared, self.uses = [], {}
        stack = []
        for number, line in enumerate(self.lines, 1):
            self.read(number, line, stack)

    def read(self, number, line, stack):
        def full(name):
            return '.'.join([part for part in stack if part] + [name])

        if found := re.fullmatch(r'package (\S+);', line):
            stack += found[1].split('.')
            self.declared += [('package', '.'.join(stack[:n + 1])) for n in range(len(stack))]
        elif found := re.fullmatch(r'(message|service) (\w+) \{', line):
            self.declared.append((found[1], full(found[2])))
            stack.append(found[2])
        elif found := re.fullmatch(r'oneof (\w+) \{', line):
            self.declared.append(('member', full(found[1])))
            stack.append('')
        elif found := re.fullmatch(r'enum (\w+) \{ (\w+) = 0; \}', line):
            self.declared += [('enum', full(found[1])), ('member', full(found[2]))]
        elif found := re.fullmatch(r'rpc (\w+)\((\S+)\) returns \(.Dummy\);', line):
            self.use(number, 'anything', found[2], full(found[1]))
        elif found := re.fullmatch(r'(?:optional )?(\S+) (\w+) = \d+;', line):
            self.use(number, 'type', found[1], full(found[2]))
        elif line == '}':
            stack.pop()

    def use(self, number, wanted, name, user):
        self.declared.append(('member', user))
        self.uses[number] = (wanted, name, user)

    def text(self, without):
        """The file, where some of the lines use other names."""
        lines = list(self.lines)
        for number in without:
            wanted, name, _ = self.uses[number]
            old, new = (f'({name})', '(.Dummy)') if wanted == 'anything' else (f'{name} ', 'int32 ')
            lines[number - 1] = lines[number - 1].replace(old, new, 1)
        return '\n'.join(lines) + '\n'


def wire(data):
    """The fields of a serialized message, as numbers and values."""
    def number(at):
        value = shift = 0
        while True:
            value |= (data[at] & 127) << shift
            shift, at = shift + 7, at + 1
            if data[at - 1] < 128:
                return value, at
    at, fields = 0, []
    while at < len(data):
        tag, at = number(at)
        size, at = number(at)
        value = size
        if tag & 7 == 2:
            value, at = data[at:at + size], at + size
        fields.append((tag >> 3, value))
    return fields


def of(fields, number):
    return next((value for found, value in fields if found == number), b'').decode()


def linked(data, name):
    """The names that a set has for the types of each field and method of a file, by full name."""
    found = {}

    def members(fields, number, at, scope):
        for tag, value in fields:
            if tag == number:
                member = wire(value)
                found[f'{scope}.{of(member, 1)}'] = of(member, at)

    def message(fields, scope):
        scope = f'{scope}.{of(fields, 1)}' if scope else of(fields, 1)
        members(fields, 2, 6, scope)
        for tag, value in fields:
            if tag == 3:
                message(wire(value), scope)

    for _, file in wire(data):
        fields = wire(file)
        if of(fields, 1) != name:
            continue
        scope = of(fields, 2)
        for tag, value in fields:
            if tag == 4:
                message(wire(value), scope)
            elif tag == 6:
                service = wire(value)
                full = f'{scope}.{of(service, 1)}' if scope else of(service, 1)
                members(service, 2, 2, full)
    return found


class Protoc:
    def __init__(self, program, folder):
        self.program, self.folder = program, folder

    def write(self, name, text):
        with open(os.path.join(self.folder, name), 'w', encoding='utf-8') as out:
            out.write(text)

    def errors(self, name):
        """Runs protoc on a file: its errors by line."""
        done = subprocess.run([self.program, f'-I{self.folder}', f'-o{self.folder}/set', name],
                              capture_output=True, text=True, check=False)
        lines = [line for line in done.stderr.split('\n') if line and 'warning:' not in line]
        parts = [line.split(':', 3) for line in lines]
        if not all(len(part) == 4 and part[1].isdigit() for part in parts):
            sys.exit(done.stderr)
        return {int(part[1]): part[3] for part in parts}

    def set(self):
        with open(os.path.join(self.folder, 'set'), 'rb') as data:
            return data.read()

    def ask(self, texts):
        """The lines that declare and ask, and protoc's answers to those that ask."""
        files, names = [File(FIRST, [])], ['dummy.proto']
        for number, text in enumerate(texts):
            files.append(File(text, names))
            names.append(f'file{number}.proto')
        for name, file in zip(names[:-1], files):
            self.write(name, file.text(file.uses))
        file, name = files[-1], names[-1]
        self.write(name, file.text([]))
        wrong = self.errors(name)
        self.write(name, file.text(wrong))
        if self.errors(name):
            sys.exit(f'errors are left in\n{file.text(wrong)}')
        types = linked(self.set(), name)
        lines = [f'{kind} {full}' for each in files for kind, full in each.declared]
        answers = [(f'{wanted} {used} in {user}', said(wrong[at]) if at in wrong else types[user])
                   for at, (wanted, used, user) in file.uses.items()]
        return lines, answers

    def json(self, names):
        fields = '\n'.join(f'optional int32 {name} = {n};' for n, name in enumerate(names, 1))
        self.write('json.proto', f'{SYNTAX}\nmessage M {{\n{fields}\n}}\n')
        if self.errors('json.proto'):
            sys.exit('errors in names of fields')
        fields = [wire(v) for _, file in wire(self.set()) for t, m in wire(file) if t == 4
                  for f, v in wire(m) if f == 2]
        return [(f'json {of(field, 1)}', of(field, 10)) for field in fields]

    def alike(self, pairs):
        text = '\n'.join(f'message M{n} {{ int32 {one} = 1; int32 {other} = 2; }}'
                         for n, (one, other) in enumerate(pairs))
        self.write('alike.proto', f'syntax = "proto3";\n{text}\n')
        wrong = self.errors('alike.proto')
        return [(f'alike {one} {other}', 'alike' if n + 2 in wrong else 'different')
                for n, (one, other) in enumerate(pairs)]


def said(error):
    """What an error of protoc says of a name."""
    for words, answer in (('not defined', 'not defined'), ('is not a type.', 'not a type'),
                          ('is not a message type.', 'not a message')):
        if words in error:
            return answer
    sys.exit(error)


class Chance:
    """A file by chance, of few names, so that many of them are alike."""

    def __init__(self, rng):
        self.rng, self.lines, self.taken, self.count = rng, [], {'Dummy'}, 0
        package = rng.choice(['', 'a', 'a.b', 'b', 'b.c', 'a.b.c'])
        if package:
            self.lines.append(f'package {package};')
            parts = package.split('.')
            self.taken |= {'.'.join(parts[:n + 1]) for n in range(len(parts))}
        for _ in range(rng.randint(1, 4)):
            self.message(package, 0)
        for _ in range(rng.randint(0, 2)):
            self.enum(package)
            self.service(package)

    def text(self):
        return '\n'.join(self.lines)

    def name(self, scope):
        """A name that is free in the scope."""
        names = [self.rng.choice('abcd') for _ in range(6)]
        while True:
            name = names.pop() if names else f'n{self.count}'
            self.count += 1
            full = f'{scope}.{name}' if scope else name
            if full not in self.taken:
                self.taken.add(full)
                return name, full

    def used(self):
        name = '.'.join(self.rng.choice('abcd') for _ in range(self.rng.choice([1, 1, 2, 2, 3])))
        return '.' + name if self.rng.random() < 0.12 else name

    def message(self, scope, depth):
        name, full = self.name(scope)
        self.lines.append(f'message {name} {{')
        for _ in range(self.rng.randint(0, 2) if depth < 3 else 0):
            self.message(full, depth + 1)
        if self.rng.random() < 0.4:
            self.enum(full)
        for number in range(self.rng.randint(1, 4)):
            field = self.name(full)[0] if self.rng.random() < 0.4 else f'f{number}'
            self.lines.append(f'optional {self.used()} {field} = {number + 1};')
        self.lines.append('}')

    def enum(self, scope):
        self.lines.append(f'enum {self.name(scope)[0]} {{ {self.name(scope)[0]} = 0; }}')

    def service(self, scope):
        name, full = self.name(scope)
        self.lines.append(f'service {name} {{')
        for _ in range(self.rng.randint(1, 3)):
            self.lines.append(f'rpc {self.name(full)[0]}({self.used()}) returns (.Dummy);')
        self.lines.append('}')


def cases(protoc, sets):
    """What `scopecases` reads, and what it has to write."""
    read, wanted = [], []
    for texts in sets:
        lines, answers = protoc.ask(texts)
        read += lines + [question for question, _ in answers] + ['']
        wanted += [f'{question}: {answer}' for question, answer in answers]
    answers = protoc.json(JSON) + protoc.alike(ALIKE)
    read += [question for question, _ in answers]
    wanted += [f'{question}: {answer}' for question, answer in answers]
    return '\n'.join(read) + '\n', wanted


def main():
    words = argparse.ArgumentParser()
    words.add_argument('protoc')
    words.add_argument('--count', type=int, default=200)
    words.add_argument('--seed', type=int, default=1)
    words.add_argument('--write')
    words = words.parse_args()
    count = 6 if words.write else words.count
    by_chance = [[Chance(random.Random(words.seed + n)).text()] for n in range(count)]
    with tempfile.TemporaryDirectory() as folder:
        read, wanted = cases(Protoc(words.protoc, folder), SETS + by_chance)
    if words.write:
        for name, text in (('stdin', read), ('stdout', '\n'.join(wanted) + '\n')):
            with open(os.path.join(words.write, name), 'w', encoding='utf-8') as out:
                out.write(text)
        return
    if not os.path.exists(PROGRAM):
        sys.exit(f'{PROGRAM} is not there: `rt run` in crates/scopecases makes it')
    done = subprocess.run([PROGRAM], input=read, capture_output=True, text=True, check=True)
    wrong = [(line, answer) for line, answer in zip(wanted, done.stdout.split('\n')) if line != answer]
    for line, answer in wrong[:20]:
        print(f'protoc: {line}\nhere:   {answer}')
    print(f'{len(wanted) - len(wrong)} passed, {len(wrong)} failed')
    sys.exit(1 if wrong else 0)


main()
