#!/usr/bin/env python3
"""Compares what `movedcases` makes of a file's locations with what protoc makes of them.

usage: moved_protoc.py PROTOC PARSED [FILE..]     at the top of the repository

PARSED is bench/parsed.cc, built: it gives the locations as protoc's parser leaves them. PROTOC gives them
once the options are interpreted. A statement and the option that it sets have one span, so the moves are
found by spans. Made by crates/movedcases/out/movedcases in the parser's locations, sorted by path, they are
to give protoc's locations, sorted by path: the same paths, spans and comments. Without a FILE it compares
the file below. The last line is 'N passed, M failed'. It was written for protoc 3.21.12, which reads
descriptor.proto from its own folder.
"""
import os
import subprocess
import sys
import tempfile

PROGRAM = 'crates/movedcases/out/movedcases'
SOURCE = '''// About the file.
syntax = "proto2";
package p;
import "google/protobuf/descriptor.proto";
option java_package = "a";  // Of the package.
option (fo) = 5;
option (fm).x = 1;
// About a part.
option (fm).n.y = 2;
option (fr) = 1;
option (fr) = 2;
option (fm2) = { x: 3 n { y: 7 } };
option optimize_for = SPEED;
message N { optional int32 y = 1; repeated int32 z = 2; }
message M { optional int32 x = 1; optional N n = 2; }
extend google.protobuf.FileOptions {
  optional int32 fo = 50001; optional M fm = 50002; repeated int32 fr = 50003; optional M fm2 = 50004;
}
extend google.protobuf.MessageOptions { optional M mo = 50001; repeated int32 mr = 50002; }
extend google.protobuf.FieldOptions {
  optional int32 o1 = 50001; repeated string o2 = 50002; optional M o3 = 50003;
}
extend google.protobuf.EnumOptions { optional int32 eo = 50001; }
extend google.protobuf.EnumValueOptions { optional int32 ev = 50001; }
extend google.protobuf.ServiceOptions { optional int32 so = 50001; }
extend google.protobuf.MethodOptions { optional int32 me = 50001; repeated M mm = 50002; }
extend google.protobuf.OneofOptions { optional int32 oo = 50001; }
extend google.protobuf.ExtensionRangeOptions { optional int32 er = 50001; repeated int32 es = 50002; }
message A {
  // About a statement.
  option deprecated = true;
  option (mo).n.z = 4;
  option (mr) = 1;
  option (mo).n.z = 5;
  option (mr) = 2;
  option (mo).x = 5;
  optional int32 f = 1 [deprecated = true, (o1) = 3, (o2) = "a", default = 4, (o2) = "b",
                        json_name = "q", (o3) = { x: 1 }];
  repeated int32 g = 2 [packed = true];
  extensions 100 to 110, 120 to 130 [(er) = 4, (es) = 1, (es) = 2];
  oneof k { option (oo) = 3; int32 a = 5; string b = 6 [(o3).x = 3, (o3).n.y = 4]; }
  message B {
    option (mo).x = 1;
    enum E {
      option allow_alias = true; option (eo) = 1;
      X = 0 [(ev) = 1]; Y = 0 [deprecated = true, (ev) = 2];
    }
    optional group Grp = 3 [(o1) = 1] { optional int32 u = 1 [(o1) = 2]; }
  }
  extend A { optional int32 aa = 100 [(o1) = 6]; }
}
service S {
  option (so) = 1; option deprecated = true;
  rpc R (A) returns (A) {
    option (me) = 1; option deprecated = true; option (mm) = { x: 1 }; option (mm) = { x: 2 };
    option idempotency_level = IDEMPOTENT;
  }
}
'''


def varint(data, at):
    number = shift = 0
    while True:
        byte = data[at]
        at += 1
        number |= (byte & 127) << shift
        shift += 7
        if byte < 128:
            return number, at


def fields(data):
    """The numbers and values of a message of varints and of parts with a length."""
    at = 0
    while at < len(data):
        tag, at = varint(data, at)
        value, at = varint(data, at)
        if tag & 7 == 2:
            value, at = data[at:at + value], at + value
        yield tag >> 3, value


def numbers(data):
    found, at = [], 0
    while at < len(data):
        number, at = varint(data, at)
        found.append(number)
    return tuple(found)


def locations(file):
    """Path, span and all else of each location, sorted by path."""
    found = []
    for info in (value for field, value in fields(file) if field == 9):
        for _, location in fields(info):
            parts = list(fields(location))
            path = next((numbers(value) for field, value in parts if field == 1), ())
            span = next((numbers(value) for field, value in parts if field == 2), ())
            found.append((path, span, tuple(part for part in parts if part[0] > 2)))
    return sorted(found, key=lambda location: location[0])


def word_of(path):
    return ','.join(str(number) for number in path) or '-'


def moves_by_span(before, after):
    old = {path for path, _, _ in before}
    moves = {}
    for path, span, _ in before:
        if len(path) > 1 and path[-2] == 999:
            front = path[:-2]
            moves[path] = next(new for new, place, _ in after if place == span and new not in old
                               and new[:len(front)] == front and new not in moves.values())
    return moves


def compare(protoc, parsed, path):
    folder, name = os.path.split(path)
    with tempfile.TemporaryDirectory() as out:
        written = os.path.join(out, 'set')
        subprocess.run([protoc, '-I' + (folder or '.'), '-I/usr/include', '--include_source_info', '-o', written, name],
                       check=True)
        with open(written, 'rb') as file:
            after = locations(next(value for field, value in fields(file.read()) if field == 1))
    before = locations(subprocess.run([parsed, path, '--places'], stdout=subprocess.PIPE, check=True).stdout)
    moves = moves_by_span(before, after)
    line = (' '.join(word_of(path) for path, _, _ in before) + '|'
            + ' '.join(f'{word_of(old)}>{word_of(new)}' for old, new in moves.items()))
    answer = subprocess.run([PROGRAM], input=line + '\n', stdout=subprocess.PIPE, encoding='utf-8', check=True).stdout
    got = [(path, *before[int(place)][1:]) for path, place in (word.split(':') for word in answer.split())]
    same = got == [(word_of(path), span, more) for path, span, more in after]
    print(f'{path}: {len(before)} locations, {len(moves)} moves, {len(after)} left: {"same" if same else "other"}')
    return same


def main():
    if len(sys.argv) < 3:
        sys.exit(__doc__.split('\n\n')[1])
    with tempfile.TemporaryDirectory() as folder:
        files = sys.argv[3:]
        if not files:
            files = [os.path.join(folder, 'options.proto')]
            with open(files[0], 'w', encoding='utf-8') as file:
                file.write(SOURCE)
        answers = [compare(sys.argv[1], sys.argv[2], path) for path in files]
    print(f'{answers.count(True)} passed, {answers.count(False)} failed')
    return 1 if False in answers else 0


if __name__ == '__main__':
    sys.exit(main())
