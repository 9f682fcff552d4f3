#!/usr/bin/env python3
"""Compares the program `protolink` with protoc: what both say, their statuses, and the sets they write.

usage: link_program.py PROTOC [PROGRAM]     at the top of the repository

PROGRAM is crates/protolink/out/protolink. Each command line below is given to both, in a folder of its
own with the same files, with `--error_format=gcc` in front. Of what is said the lines are compared, in
any order, but for protoc's lines on a syntax that isn't said, `protolink`'s line on options, and what
protoc also says of files that import one another in a circle: that each had errors. Control characters
are shown here, and protoc writes them as they are. Sets are compared byte for byte; with source
information, locations are compared as sets of path and span.

Then each is given to `protolink` alone without that word: it has to say the same, and behind each line
with a place in a source come that line of the source and a mark under that column.

The last command lines are given to `protolink` alone, where protoc does something else. The last line is
'N passed, M failed'. It needs python3-protobuf, and was written for protoc 3.21.12. As root it runs both
programs as nobody, so that a file can be unreadable.
"""
import os
import re
import subprocess
import sys
import tempfile

from google.protobuf import descriptor_pb2

PROGRAM = 'crates/protolink/out/protolink'
FILES = {
    'a/x.proto': 'syntax = "proto3";\nimport "y.proto";\nimport "sub/z.proto";\nmessage X { Y y = 1; Z z = 2; }\n',
    'a/y.proto': 'syntax = "proto3";\nmessage Y {}\n',
    'b/y.proto': 'syntax = "proto3";\nmessage Y { int32 other = 1; }\n',
    'b/sub/z.proto': 'syntax = "proto3";\nmessage Z {}\n',
    'a/gone.proto': 'syntax = "proto2";\nimport "none.proto";\nmessage G { optional Gone a = 1; }\n',
    'a/self.proto': 'syntax = "proto2";\nimport "self.proto";\n',
    'a/bad.proto': 'syntax = "proto2";\nmessage B {\n  optional Nope n = 1;\n  optional int32 m = 1;\n}\n',
    'a/dots.proto': 'syntax = "proto2";\nimport "sub/../y.proto";\n',
    'a/empty.proto': '',
    'a/p1.proto': 'syntax = "proto2";\nimport "y.proto";\nimport "p2.proto";\n',
    'a/p2.proto': 'syntax = "proto2";\n\n  import "p3.proto";\n',
    'a/p3.proto': 'syntax = "proto2";\n\n\nimport "y.proto"; import "p1.proto";\n',
    'a/top.proto': 'syntax = "proto2";\n import "p1.proto";\n',
    'a/folder.proto/q.proto': 'syntax = "proto2";\n',
    'b/folder.proto': 'syntax = "proto2";\nmessage Found {}\n',
    'a/of_folder.proto': 'syntax = "proto2";\nimport "folder.proto";\nmessage O { optional Found f = 1; }\n',
    'a/locked.proto': 'syntax = "proto2";\n',
    'a/of_locked.proto': 'syntax = "proto2";\nimport "locked.proto";\n',
    'a/latin.proto': b'syntax = "proto2";\n// caf\xe9\n',
    'a/\x1b[1m.proto': 'syntax = "proto2";\nmessage B {\n  optional Nope n = 1;\n}\n',
    'a/tab.proto': 'syntax = "proto2";\nmessage B { /* \x1b[1m */ optional Nope n = 1; }\n',
    'a/syntax.proto': 'syntax = "proto2";\nmessage B {\n  optional int32 n = 1\n}\n',
    'u/base.proto': 'syntax = "proto3";\npackage foo.bar;\nmessage Base {}\n',
    'u/deep.proto': 'syntax = "proto3";\npackage foo.bar.baz;\nmessage Deep {}\n',
    'u/deep2.proto': 'syntax = "proto3";\npackage foo.bar.baz;\nmessage Deep2 {}\n',
    'u/pub.proto': 'syntax = "proto3";\nimport public "base.proto";\nmessage Pub {}\n',
    'u/unused.proto': 'syntax = "proto3";\npackage foo.bar;\nimport "base.proto";\nmessage A {}\n',
    'u/way.proto': 'syntax = "proto3";\npackage foo.bar;\nimport "deep.proto";\nimport "deep2.proto";\nmessage W { baz.Deep2 d = 1; }\n',
    'u/way2.proto': 'syntax = "proto3";\npackage foo.bar;\nimport "deep2.proto";\nimport "deep.proto";\nmessage W2 { baz.Deep d = 1; }\n',
    'u/of_pub.proto': 'syntax = "proto3";\nimport "pub.proto";\nmessage C {}\n',
    'u/public.proto': 'syntax = "proto3";\nimport public "base.proto";\nmessage D {}\n',
    'u/both.proto': 'syntax = "proto3";\nimport "base.proto";\n  import "deep.proto";\nmessage F { foo.bar.Base b = 1; }\n',
    'u/weak.proto': 'syntax = "proto3";\nimport weak "base.proto";\n',
    'u/methods.proto': 'syntax = "proto3";\nimport "base.proto"; import "deep.proto"; import "deep2.proto";\n'
                       'service S { rpc Go(foo.bar.Base) returns (stream .foo.bar.baz.Deep); }\n',
    'u/of_unused.proto': 'syntax = "proto3";\nimport "unused.proto";\nmessage G { foo.bar.A a = 1; }\n',
    'u/extends.proto': 'syntax = "proto2";\nimport "open.proto"; import "base.proto";\nextend Open { optional int32 more = 100; }\n',
    'u/open.proto': 'syntax = "proto2";\nmessage Open { extensions 100 to 200; }\n',
    'u/chain_a.proto': 'syntax = "proto3";\nimport "chain_b.proto";\nmessage Ca { Cb b = 1; }\n',
    'u/chain_b.proto': 'syntax = "proto3";\nimport "chain_c.proto";\nmessage Cb { Cc c = 1; }\n',
    'u/chain_c.proto': 'syntax = "proto3";\nmessage Cc {}\n',
    'u/alike.proto': 'syntax = "proto2";\nenum Kind {\n  KIND_A = 0;\n  A = 1; a = 2;\n}\n'
                     'message M { enum E { X = 0; E_x = 1; } optional int32 foo_bar = 1; optional int32 fooBar = 2; }\n',
    'u/of_alike.proto': 'syntax = "proto2";\nimport "alike.proto";\nmessage O { optional M m = 1; }\n',
    'words': '-Ia\n-Ib\na/x.proto\n',
}
SET = ['-oset', '--include_imports']
# Command lines; each is told by its words.
LINES = [
    ['-Ia', '-Ib', *SET, 'a/x.proto'], ['-Ia:b', *SET, 'x.proto'], ['-I', 'a', '-I', 'b', *SET, 'a/x.proto'],
    ['--proto_path=a', '--proto_path', 'b', '--descriptor_set_out=set', 'a/x.proto'],
    ['-Ia', '-Ib', '-o', 'set', 'a/y.proto', 'a/x.proto'], ['-Ia', '-Ib', *SET, 'a/y.proto', 'a/x.proto', 'a/y.proto'],
    ['-Iq=a', '-oset', 'a/y.proto'], ['-Iq=a', '-oset', 'q/y.proto'], ['-I.', '-oset', 'a/y.proto'],
    ['-oset', 'a/y.proto'], ['-oset', './a//y.proto'], ['-Ia', '-Ib', *SET, '--include_source_info', 'a/x.proto'],
    ['-Ia', '-Ib', *SET, '--dependency_out=deps', 'a/x.proto'], [*SET, '@words'],
    ['-Ia', '-Ib', '-oset', 'b/y.proto'], ['-Ia', '-oset', 'b/y.proto'], ['-Ia', '-oset', 'none.proto'],
    ['-Ia', '-oset', 'a'], ['-Ia', '-oset', '-'], ['-Inone', '-Ia', '-oset', 'a/y.proto'],
    ['-Ia', '-oset', 'a/gone.proto'], ['-Ia', '-oset', 'a/self.proto'], ['-Ia', '-oset', 'a/bad.proto'],
    ['-Ia', '-oset', '--error_format=msvs', 'a/bad.proto'], ['-Ia', '-oset', 'a/empty.proto'],
    ['-Ia', '-onone/set', 'a/y.proto'], ['-Ia'], ['-o'], ['-Ia', '-oset', '-oset', 'a/y.proto'], ['--bogus', 'x'],
    ['--bogus', '-Ia'], ['--error_format=zz', 'x'], ['-I='], ['@none'],
    ['-Ia', '-oset', 'a/p1.proto'], ['-Ia', '-oset', 'a/p2.proto'], ['-Ia', '-oset', 'a/p3.proto'], ['-Ia', '-oset', 'a/top.proto'],
    ['-Ia', '-oset', '--error_format=msvs', 'a/top.proto'], ['-Ia', '-Ib', *SET, 'a/of_folder.proto'],
    ['-Ia', '-oset', 'a/of_folder.proto'], ['-Ia', '-oset', 'a/of_locked.proto'], ['-Ia', '-oset', 'a/\x1b[1m.proto'],
    ['-Ia', '-oset', 'a/tab.proto'], ['-I.', '-Ia', '-oset', 'a/y.proto', 'y.proto'], ['-Ia', '-o/dev/full', 'a/y.proto'],
    ['-Ia', '-oa', 'a/y.proto'],
    ['-Iu', '-oset', 'unused.proto'], ['-Iu', '-oset', 'way.proto'], ['-Iu', '-oset', 'way2.proto'], ['-Iu', '-oset', 'of_pub.proto'],
    ['-Iu', '-oset', 'public.proto'], ['-Iu', '-oset', 'both.proto'], ['-Iu', '-oset', 'weak.proto'], ['-Iu', '-oset', 'methods.proto'],
    ['-Iu', '-oset', 'of_unused.proto'], ['-Iu', '-oset', 'of_unused.proto', 'unused.proto'], ['-Iu', '-oset', 'extends.proto'],
    ['-Iu', '-oset', 'way.proto', 'deep2.proto', 'way2.proto'], ['-Iu', '-oset', 'way2.proto', 'way.proto'],
    ['-Iu', '-oset', 'chain_a.proto', 'chain_c.proto'], ['-Iu', '-oset', 'chain_a.proto', 'chain_c.proto', 'chain_b.proto'],
    ['-Iu', '-oset', 'alike.proto'], ['-Iu', '-oset', 'of_alike.proto'], ['-Iu', '-oset', '--fatal_warnings', 'of_alike.proto'],
    ['-Iu', '-oset', '--error_format=msvs', 'unused.proto'], ['-Iu', '-oset', '--fatal_warnings', 'unused.proto'],
    ['-Iu', '-oset', '--fatal_warnings', 'way.proto'], ['-Iu', '-Inone', '-oset', '--fatal_warnings', 'way.proto'],
    ['--include_imports', '--include_imports', 'a/y.proto'], ['-Ia', '-oset', '--dependency_out=deps', 'a/y.proto', 'a/x.proto'],
]
# Command lines for `protolink` alone: the words, what standard output is, and then the status and what is said.
ALONE = [
    (['-Ia', '-oset', 'a/latin.proto'], None, 1, ['latin.proto:2:7: not UTF-8']),
    (['-Ia', '-oset', 'a/locked.proto'], None, 1, ['locked.proto: Read access is denied for file: a/locked.proto']),
    (['-Ia', '-o-', 'a/y.proto'], '/dev/full', 2, ['protolink: cannot write: No space left on device']),
    (['-Ia', '-o-', 'a/y.proto'], 'closed', 2, ['protolink: cannot write: Broken pipe']),
    (['-Ia', '-oset', '--dependency_out=/dev/full', 'a/y.proto'], None, 1, ['/dev/full: No space left on device']),
    (['-Ia', '-onone/set', '--dependency_out=deps', 'a/y.proto'], None, 1, ['none/set: No such file or directory']),
]
UNTOLD = re.compile(r'\[libprotobuf WARNING .*|.*: warning: Options stay uninterpreted\..*')
OF_CIRCLE = re.compile(r'.*: Import "(p1|p2|p3|self)\.proto" was not found or had errors\.')
PLACE = re.compile(r'(.*?):(\d+):(\d+): (.*)')
AS_NOBODY = {'user': 65534, 'group': 65534, 'extra_groups': []} if os.geteuid() == 0 else {}


def comparable(data):
    """A set with places: the files without them, and the places as sets."""
    made = descriptor_pb2.FileDescriptorSet.FromString(data)
    places = [{(tuple(at.path), tuple(at.span)) for at in file.source_code_info.location} for file in made.file]
    for file in made.file:
        file.ClearField('source_code_info')
    return made.SerializeToString(), places


def make(folder):
    """The files below, in a folder that nobody can write to and that has one file which nobody can read."""
    for name, text in FILES.items():
        path = os.path.join(folder, name)
        os.makedirs(os.path.dirname(path), exist_ok=True)
        with open(path, 'wb') as out:
            out.write(text if isinstance(text, bytes) else text.encode())
    os.chmod(os.path.join(folder, 'a/locked.proto'), 0)
    os.chmod(folder, 0o777)


def shown(text):
    """A line as `protolink` shows it, where protoc writes it as it is."""
    return re.sub(r'[\x00-\x1f]', lambda c: '    ' if c[0] == '\t' else f'\\u{{{ord(c[0]):x}}}', text)


def run(program, words, out=None):
    """The status, the lines that are said, and what is written."""
    with tempfile.TemporaryDirectory() as folder:
        make(folder)
        before = set(os.listdir(folder))
        said = subprocess.run([program, *words], cwd=folder, stdout=out, stderr=subprocess.PIPE, check=False, **AS_NOBODY)
        lines = [shown(line) for line in said.stderr.decode().split('\n')[:-1] if not UNTOLD.fullmatch(line)]
        written = {}
        for name in set(os.listdir(folder)) - before:
            with open(os.path.join(folder, name), 'rb') as data:
                written[name] = data.read()
        if '--include_source_info' in words and 'set' in written:
            written['set'] = comparable(written['set'])
        return said.returncode, lines, written


def compared(answer):
    """What is compared of an answer: the lines in any order, without what is said of each file of a circle."""
    status, lines, written = answer
    circle = any('File recursively imports itself' in line for line in lines)
    return status, sorted(line for line in lines if not (circle and OF_CIRCLE.fullmatch(line))), written


def excerpt_is_right(title, line, marks):
    """Whether two lines show the place that a line names. Columns count bytes, and the sources here have one byte a column."""
    name, row, column, _ = PLACE.fullmatch(title).groups()
    names = [key for key in FILES if shown(key).endswith('/' + name)]
    sources = [FILES[key] if isinstance(FILES[key], str) else FILES[key].decode('latin-1') for key in names]
    whole = [source.split('\n')[int(row) - 1] for source in sources if source.count('\n') >= int(row)]
    ahead = [' ' * len(shown(text[:int(column) - 1])) + '^' for text in whole]
    fits = [line == f'{row:>5} | {shown(text)}' or text.startswith(line[8:]) for text in whole]
    return any(fits) and any(marks.startswith(f'      | {front}') for front in ahead)


def without_excerpts(lines):
    """The lines of a report without the excerpts, or None where a line with a place has no right excerpt."""
    titles, rest = [], list(lines)
    while rest:
        title = rest.pop(0)
        titles.append(title)
        if PLACE.fullmatch(title):
            if len(rest) < 2 or not excerpt_is_right(title, rest.pop(0), rest.pop(0)):
                return None
    return titles


def alone(program, words, out, status, said):
    """Whether `protolink` alone says what it has to, and leaves no set."""
    if out == 'closed':
        reader, writer = os.pipe()
        os.close(reader)
    else:
        writer = os.open(out or os.devnull, os.O_WRONLY)
    found = run(program, ['--error_format=gcc', *words], writer)
    os.close(writer)
    return (found[0], found[1], 'set' in found[2]) == (status, said, False), found


def main():
    if len(sys.argv) < 2:
        sys.exit(__doc__)
    protoc, program = sys.argv[1], os.path.abspath(sys.argv[2] if len(sys.argv) > 2 else PROGRAM)
    passed, failed = 0, 0

    def judge(right, *told):
        nonlocal passed, failed
        if right:
            passed += 1
        else:
            failed += 1
            print(*told, sep='\n')

    for words in LINES:
        gcc = ['--error_format=gcc', *words]
        there, here, report = run(protoc, gcc), run(program, gcc), run(program, words)
        judge(compared(there) == compared(here), f'{words}\n-- protoc {there[0]} {sorted(there[2])}', *there[1],
              f'-- here {here[0]} {sorted(here[2])}', *here[1])
        if not any(word.startswith('--error_format') for word in words):
            judge((here[0], here[1], here[2]) == (report[0], without_excerpts(report[1]), report[2]),
                  f'{words} in reports', *report[1])
    for words, out, status, said in ALONE:
        right, found = alone(program, words, out, status, said)
        judge(right, f'{words} alone: {found[0]} {sorted(found[2])}', *found[1])
    print(f'{passed} passed, {failed} failed')
    sys.exit(1 if failed else 0)


main()
