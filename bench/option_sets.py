#!/usr/bin/env python3
"""Compares the sets that `protolink` writes of files with options with those of protoc, byte for byte.

usage: option_sets.py PROTOC PROTOLINK [--count N] [--seed S] [--into FOLDER] [-I FOLDER FILE..]

PROTOLINK is crates/protolink/out/protolink. It makes a tree of files: the shapes of well-known options
(http rules, names of resources, behaviour of fields, rules of validation), and files that use them.
Then it makes N files (100) by chance, by SEED: options of each kind of declaration, standard ones and
custom ones of each type, values right and wrong, messages in braces, names of several parts. Each file
is given to both, and so is each .proto file that Debian's protoc comes with, in /usr/include. What
protoc refuses must be refused, too, with the same faults at the same places;
else the sets must have the same bytes, with imports and without. With source info they must be the
same in all else, and each file must have the same locations, in any order: paths, spans and comments.
With -I the files that follow are compared, too. It needs Python's google.protobuf.

With --into nothing is run: the files, and what protoc answers, are put into FOLDER.
The last line is 'N passed, M failed'.
"""
import argparse
import os
import random
import re
import subprocess
import sys
import tempfile

from google.protobuf import descriptor_pb2

INCLUDE = '/usr/include'
VARIANTS = ([], ['--include_imports'], ['--include_source_info'])
SCALARS = ('int32', 'int64', 'uint32', 'uint64', 'sint32', 'sint64', 'fixed32', 'fixed64', 'sfixed32',
           'sfixed64', 'bool', 'string', 'bytes', 'float', 'double')
KINDS = ('File', 'Message', 'Field', 'Oneof', 'Enum', 'EnumValue', 'Service', 'Method', 'ExtensionRange')
# Options that descriptor.proto declares, by kind, each with values of which some are wrong.
STANDARD = {
    'File': (('java_package', '"a.b"'), ('optimize_for', 'SPEED', 'CODE_SIZE', 'FAST'), ('go_package', '"x/y"'),
             ('java_multiple_files', 'true', 'false', '1'), ('cc_enable_arenas', 'true'), ('deprecated', 'false')),
    'Message': (('deprecated', 'true', 'false', 'yes'), ('no_standard_descriptor_accessor', 'true')),
    'Field': (('deprecated', 'true', '"true"'), ('lazy', 'false'), ('weak', 'false')),
    'Oneof': (), 'ExtensionRange': (),
    'Enum': (('deprecated', 'true'),), 'EnumValue': (('deprecated', 'true', 'false'),),
    'Service': (('deprecated', 'true', '3'),),
    'Method': (('deprecated', 'true'), ('idempotency_level', 'IDEMPOTENT', 'NO_SIDE_EFFECTS', 'NEVER')),
}

TREE = {
    'shapes/http.proto': '''syntax = "proto3";
package shapes.api;
message Http { repeated HttpRule rules = 1; bool fully_decode = 2; }
message HttpRule {
  string selector = 1;
  oneof pattern { string get = 2; string put = 3; string post = 4; string delete = 5; Custom custom = 8; }
  string body = 7;
  string response_body = 12;
  repeated HttpRule additional_bindings = 11;
}
message Custom { string kind = 1; string path = 2; }
''',
    'shapes/annotations.proto': '''syntax = "proto3";
package shapes.api;
import "shapes/http.proto";
import "google/protobuf/descriptor.proto";
extend google.protobuf.MethodOptions { HttpRule http = 72295728; }
extend google.protobuf.MethodOptions { repeated string method_signature = 1051; }
extend google.protobuf.ServiceOptions { string default_host = 1049; string scopes = 1050; }
''',
    'shapes/behavior.proto': '''syntax = "proto3";
package shapes.api;
import "google/protobuf/descriptor.proto";
extend google.protobuf.FieldOptions { repeated Behavior behavior = 1052; }
enum Behavior { UNSPECIFIED = 0; OPTIONAL = 1; REQUIRED = 2; OUTPUT_ONLY = 3; IMMUTABLE = 5; }
extend google.protobuf.FieldOptions { Reference reference = 1055; }
extend google.protobuf.FileOptions { repeated Resource definition = 1053; }
extend google.protobuf.MessageOptions { Resource resource = 1053; }
message Resource {
  enum History { NONE = 0; ONE = 1; }
  string type = 1; repeated string pattern = 2; string name_field = 3; History history = 4; string plural = 5;
}
message Reference { string type = 1; string child_type = 2; }
''',
    'shapes/rules.proto': '''syntax = "proto2";
package shapes.rules;
import "google/protobuf/descriptor.proto";
import "google/protobuf/duration.proto";
extend google.protobuf.MessageOptions { optional bool disabled = 1071; }
extend google.protobuf.OneofOptions { optional bool required = 1071; }
extend google.protobuf.FieldOptions { optional FieldRules rules = 1071; }
message FieldRules {
  optional MessageRules message = 17;
  oneof type { FloatRules float = 1; UInt64Rules uint64 = 6; StringRules string = 14; RepeatedRules repeated = 18; MapRules map = 19; DurationRules duration = 21; }
}
message FloatRules { optional float const = 1; optional float lt = 2; repeated float in = 6; }
message UInt64Rules { optional uint64 lte = 3; repeated uint64 in = 6 [packed = true]; }
message StringRules { optional uint64 min_len = 2; optional string pattern = 6; repeated string in = 10; oneof well_known { bool email = 12; bool uuid = 22; } optional bool strict = 25 [default = true]; }
message MessageRules { optional bool skip = 1; optional bool required = 2; }
message RepeatedRules { optional uint64 min_items = 1; optional bool unique = 3; optional FieldRules items = 4; }
message MapRules { optional FieldRules keys = 4; optional FieldRules values = 5; }
message DurationRules { optional google.protobuf.Duration lt = 3; }
''',
    'use/library.proto': '''syntax = "proto3";
package use.library;
import "shapes/annotations.proto";
import "shapes/behavior.proto";
import "shapes/rules.proto";
option go_package = "use/library;library";
option java_multiple_files = true;
option (shapes.api.definition) = { type: "use/Project" pattern: "projects/{project}" };
option (shapes.api.definition) = { type: "use/Folder", pattern: ["folders/{folder}", "*"], history: ONE };
service Library {
  option (shapes.api.default_host) = "library.example";
  option (shapes.api.scopes) = "a,"
                               "b";
  rpc GetBook(GetBookRequest) returns (Book) {
    option (shapes.api.http) = { get: "/v1/{name=shelves/*/books/*}" additional_bindings { get: "/v1/{name=books/*}" } };
    option (shapes.api.method_signature) = "name";
    option (shapes.api.method_signature) = "";
    option deprecated = true;
  }
  rpc MoveBook(GetBookRequest) returns (Book) {
    option (shapes.api.http).post = "/v1/{name}:move";
    option (shapes.api.http).body = "*";
    option idempotency_level = IDEMPOTENT;
  }
}
message Book {
  option (shapes.api.resource) = {
    type: "use/Book"
    pattern: "shelves/{shelf}/books/{book}"
    plural: 'books'
  };
  option (shapes.rules.disabled) = false;
  string name = 1 [(shapes.api.behavior) = IMMUTABLE, (shapes.api.behavior) = REQUIRED];
  string author = 2 [(shapes.rules.rules).string = { min_len: 1 in: ["a", "b"] email: true }];
  float price = 3 [(shapes.rules.rules).float.lt = 1e3, (shapes.rules.rules).message.required = true];
  repeated uint64 pages = 4 [(shapes.rules.rules).repeated = { min_items: 2 items { uint64 { lte: 9 in: [1, 2, 300] } } }];
  map<string, string> notes = 5 [(shapes.rules.rules) = { map: { keys <string: {uuid: true}>, values: {} } }];
  oneof cover { option (shapes.rules.required) = true; string paper = 6; string board = 7; }
}
message GetBookRequest { string name = 1 [(shapes.api.reference) = { type: "use/Book" }, (shapes.api.behavior) = REQUIRED]; }
''',
    'shapes/any.proto': '''syntax = "proto3";
package shapes.any;
import "google/protobuf/any.proto";
import "google/protobuf/descriptor.proto";
message Holder { google.protobuf.Any any = 1; repeated google.protobuf.Any anys = 2; map<string, google.protobuf.Any> map = 3; Holder next = 4; int32 n = 5; }
message Held { int32 n = 1; string s = 2; repeated int32 r = 3; Held held = 4; google.protobuf.Any any = 5; message Inner { bool b = 1; } }
extend google.protobuf.FileOptions { Holder file_holder = 52001; google.protobuf.Any file_any = 52002; }
extend google.protobuf.MessageOptions { Holder holder = 52001; google.protobuf.Any any = 52002; repeated google.protobuf.Any anys = 52003; }
''',
    'use/any.proto': '''syntax = "proto2";
package use.any;
import "shapes/any.proto";
import "google/protobuf/any.proto";
option (shapes.any.file_holder) = { any { [type.googleapis.com/shapes.any.Held] { s: "x" n: 1 r: [1, 2] held {} } }, anys: [{}, { [type.googleapis.com/use.any.Needs]: < a: 1 > }] };
option (shapes.any.file_any) = { [type.googleapis.com/google.protobuf.Any] { [type.googleprod.com/use.any.Needs.In] {} } };
message Needs { required int32 a = 1; optional Needs more = 2; message In { optional int32 n = 1; } }
message Empty { option (shapes.any.any) = { [type.googleapis.com/shapes.any.Held] {} }; }
message Zero { option (shapes.any.any) = { [type.googleapis.com/shapes.any.Held] { n: 0 } }; }
message Zero2 { option (shapes.any.any) = { [type.googleapis.com/use.any.Needs.In] { n: 0 } }; }
message Bytes { option (shapes.any.any) = { [type.googleapis.com/shapes.any.Held.Inner] {} value: "x" }; }
message Map { option (shapes.any.holder) = { map { key: "a" value { [type.googleapis.com/shapes.any.Held.Inner] { b: true } } } map [{}, { key: "b" }] next { any {} } }; }
message Parts { option (shapes.any.holder).any.type_url = "u"; option (shapes.any.holder).next = { any { [type.googleapis.com/shapes.any.Held] { any { [type.googleapis.com/shapes.any.Held] { n: 3 } } } } }; }
message More { option (shapes.any.anys) = { [type.googleapis.com/shapes.any.Held] { n: 1 } }; option (shapes.any.anys) = { [type.googleapis.com/shapes.any.Held] { n: 2 } }; }
''',
    'use/wrong_any.proto': '''syntax = "proto2";
package use.wrong_any;
import "shapes/any.proto";
message Needs { required int32 a = 1; optional Needs more = 2; }
message A { option (shapes.any.any) = { [type.googleapis.com/shapes.any.Nope] { n: 1 } }; }
message B { option (shapes.any.any) = { [example.com / shapes.any.Held] { n: 1 } }; }
message C { option (shapes.any.any) = { [shapes.any.Held] { n: 1 } }; }
message D { option (shapes.any.any) = { [type.googleapis.com/shapes.any.Held]: 1 }; }
message E { option (shapes.any.any) = { [type.googleapis.com/shapes.any.Held]: [{ n: 1 }] }; }
message F { option (shapes.any.any) = { [type.googleapis.com/shapes.any.Held] "x" }; }
message G { option (shapes.any.any) = { [type.googleapis.com/shapes.any.Held] { n: 1 } [type.googleapis.com/shapes.any.Held] {} }; }
message H { option (shapes.any.any) = { value: "x" [type.googleapis.com/shapes.any.Held] {} }; }
message I { option (shapes.any.any) = { [type.googleapis.com/shapes.any.Held] { n: 1 } value: "x" }; }
message J { option (shapes.any.any) = { [type.googleapis.com/shapes.any.Held] {} type_url: "x" }; }
message K { option (shapes.any.any) = { value: "x" [type.googleapis.com/shapes.any.Held] { bad: 1 } }; }
message L { option (shapes.any.any) = { [type.googleapis.com/use.wrong_any.Needs] {} }; }
message M { option (shapes.any.holder) = { anys { [type.googleapis.com/use.wrong_any.Needs] { a: 1 more {} } } }; }
message N { option (shapes.any.holder) = { [type.googleapis.com/use.wrong_any.Needs] { a: 1 } }; }
message O { option (shapes.any.any) = { [type.googleapis.com/google.protobuf.Any] {} }; }
message P { option (shapes.any.holder) = { any { [type.googleapis.com/shapes.any.Held] {} } }; option (shapes.any.holder).any.value = "x"; }
message Q { option (shapes.any.holder) = { any { [type.googleapis.com/shapes.any.Held] {} } }; option (shapes.any.holder).any.type_url = "x"; }
message R { option (shapes.any.any) = { [type.googleapis.com/shapes.any.Held] { any { [type.googleapis.com/use.wrong_any.Needs] {} } } }; }
message S { option (shapes.any.any) = { [type.googleapis.com/shapes.any] {} }; }
message T { option (shapes.any.any) = { [type.googleapis.com/shapes.any.any] {} }; }
''',
    'use/own_any.proto': '''syntax = "proto2";
package google.protobuf;
import "google/protobuf/descriptor.proto";
message Any { optional string u = 1; optional bytes v = 2; required int32 more = 3; }
message Held { optional int32 n = 1; }
extend MessageOptions { optional Any any = 52001; }
message A { option (any) = { [type.googleapis.com/google.protobuf.Held] {} more: 1 }; }
message B { option (any) = { more: 1 [type.googleapis.com/google.protobuf.Held] { n: 0 } }; }
message C { option (any) = { more: 1 [type.googleapis.com/google.protobuf.Any] { more: 2 [type.googleapis.com/google.protobuf.Any] { more: 3 u: "x" } } }; }
''',
    'use/wrong_own_any.proto': '''syntax = "proto2";
package google.protobuf;
import "google/protobuf/descriptor.proto";
message Any { optional string u = 1; optional bytes v = 2; required int32 more = 3; }
message Held { optional int32 n = 1; }
extend MessageOptions { optional Any any = 52001; }
message A { option (any) = { [type.googleapis.com/google.protobuf.Held] {} }; }
message B { option (any) = { u: "" [type.googleapis.com/google.protobuf.Held] {} more: 1 }; }
message C { option (any) = { [type.googleapis.com/google.protobuf.Held] {} v: "" more: 1 }; }
message D { option (any) = { more: 1 [type.googleapis.com/google.protobuf.Any] { u: "x" } }; }
''',
    'use/no_any.proto': '''syntax = "proto2";
package google.protobuf;
import "google/protobuf/descriptor.proto";
message Any { optional string u = 1; optional string v = 2; extensions 100 to 200; }
extend Any { optional Any any = 100; }
extend MessageOptions { optional Any option = 52001; }
message A { option (option) = { [google.protobuf.any] { u: "x" } }; }
message B { option (option) = { u: "x" [any] { [any] {} } }; }
''',
    'use/wrong_no_any.proto': '''syntax = "proto2";
package google.protobuf;
import "google/protobuf/descriptor.proto";
message Any { optional string u = 1; optional bytes v = 4; }
extend MessageOptions { optional Any option = 52001; }
message A { option (option) = { [type.googleapis.com/google.protobuf.Any] {} }; }
''',
    'use/wrong_needs.proto': '''syntax = "proto2";
package use.wrong_needs;
import "google/protobuf/descriptor.proto";
message Needs { required int32 a = 1; optional Needs more = 2; optional int32 n = 3; }
extend google.protobuf.MessageOptions { optional Needs needs = 52010; }
message A { option (needs) = { more {} n: "x" }; }
message B { option (needs) = { a: 1 more {} bad: 1 }; }
message C { option (needs) = { a: 1 more {} n: 1 }; }
message D { option (needs) = { more { a: 1 } }; }
message E { option (needs) = { more { more { a: 1 } } a: 2 more {} }; }
message F { option (needs) = { more { a: 1 } a: 2 }; }
''',
    'use/plain.proto': '''syntax = "proto3";
package use.plain;
option java_package = "use";
option optimize_for = LITE_RUNTIME;
option deprecated = true;
message M { repeated int32 a = 1 [packed = false]; int32 b = 2 [deprecated = true, json_name = "bee"]; }
enum E { option allow_alias = true; A = 0; B = 0 [deprecated = true]; }
''',
}


def made_schema():
    """Declares custom options of each kind of declaration, of each type."""
    text = ['syntax = "proto2";', 'package made.opt;', 'import "google/protobuf/descriptor.proto";',
            'enum Way { NO = 0; YES = 1; FAR = -7; }',
            'message Inner {', *(f'  optional {scalar} f_{scalar} = {n};' for n, scalar in enumerate(SCALARS, 1)),
            '  repeated int32 many = 20; repeated sint64 packed = 21 [packed = true]; optional Inner next = 22;',
            '  repeated Inner inners = 23; optional Way way = 24; repeated Way ways = 25; map<string, Inner> map = 26;',
            '  optional group Part = 27 { optional int32 a = 1; } oneof one { int32 x = 28; string y = 29; }',
            '  extensions 100 to 200;', '}', 'extend Inner { optional int32 extra = 100; repeated Inner extras = 101; }']
    for at, kind in enumerate(KINDS):
        base = 50000 + 100 * at
        text.append(f'extend google.protobuf.{kind}Options {{')
        text += [f'  optional {scalar} {kind.lower()}_{scalar} = {base + n};' for n, scalar in enumerate(SCALARS)]
        text.append(f'  repeated {SCALARS[at]} {kind.lower()}_list = {base + 20}; optional Way {kind.lower()}_way = {base + 21};')
        text.append(f'  optional Inner {kind.lower()}_inner = {base + 22}; repeated Inner {kind.lower()}_inners = {base + 23};')
        text.append(f'  optional group {kind}Group = {base + 24} {{ optional int32 g = 1; optional Inner i = 2; }}')
        text.append('}')
    return '\n'.join([*text, ''])


class Maker:
    def __init__(self, rng):
        self.rng = rng

    def pick(self, *words):
        return self.rng.choice(words)

    def scalar(self, scalar, braces=False):
        """The text of a value, of which few are wrong."""
        rng = self.rng
        if rng.random() < 0.01:
            return self.pick('x', '"s"', '1.5', '-3', '99999999999', 'true', 'NO')
        if scalar == 'bool':
            return self.pick('true', 'false')
        if scalar in ('string', 'bytes'):
            return self.pick('""', '"a"', '"\\000\\377"' if scalar == 'bytes' else '"\\303\\251"', "'q'", '"a" "b"')
        if scalar in ('float', 'double'):
            return self.pick('0', '1', '-1', '1.5', '1e10', '-2.25', '3.4028235e38', '1e-50', '123456789')
        low = 0 if scalar[0] == 'u' or scalar.startswith('fixed') else -2 ** 31
        high = 2 ** 32 - 1 if low == 0 else 2 ** 31 - 1
        if '64' in scalar:
            low, high = low * 2 ** 32, high * 2 ** 32
        return str(self.pick(0, 1, 127, 128, low, high, rng.randint(low, high)))

    def inner(self, depth):
        """Fields of the message Inner in braces."""
        parts = []
        used = set()
        for _ in range(self.rng.randrange(5)):
            part = self.field(depth)
            name = re.match(r'[^ :]*', part)[0]
            if name in ('many:', 'inners:', 'packed:') or name not in used or self.rng.random() < 0.02:
                parts.append(part + self.pick('', ' ', ';', ','))
            used.add({'y': 'x'}.get(name, name))
        return ' '.join(parts)

    def field(self, depth):
        kind = self.rng.randrange(12)
        if kind < 4 or depth == 0:
            scalar = self.pick(*SCALARS)
            return f'f_{scalar}: {self.scalar(scalar, True)}'
        value = self.pick('{', '<')
        message = f'{value} {self.inner(depth - 1)} ' + ('}' if value == '{' else '>')
        return {4: f'many: [{", ".join(self.scalar("int32") for _ in range(self.rng.randrange(1, 4)))}]',
                5: f'packed: {self.scalar("sint64")} packed: 3', 6: f'next {message}', 7: f'inners: [{message}, {{}}]',
                8: f'way: {self.pick("NO", "YES", "FAR", "1")}', 9: f'map {{ key: "{self.pick("k", "l")}" value: {message} }}',
                10: self.pick('x: 1', 'y: "w"', 'Part { a: 2 }'), 11: self.pick('[made.opt.extra]: 5', f'[made.opt.extras]: {message}')}[kind]

    def statement(self, kind):
        """The name and the value of an option."""
        if STANDARD[kind] and self.rng.random() < 0.4:
            name, *values = self.pick(*STANDARD[kind])
            return name, self.pick(*values) if self.rng.random() < 0.1 else values[0]
        low = kind.lower()
        front = self.pick('made.opt.', '.made.opt.', 'opt.')
        what = self.rng.randrange(10)
        if what < 4:
            scalar = self.pick(*SCALARS)
            return f'({front}{low}_{scalar})', self.scalar(scalar)
        if what == 4:
            return f'({front}{low}_list)', self.scalar(SCALARS[KINDS.index(kind)])
        if what == 5:
            return f'({front}{low}_way)', self.pick(*['NO', 'YES', 'FAR'] * 8, 'GONE')
        if what == 6:
            return f'({front}{low}_{self.pick("inner", "inners")})', '{ ' + self.inner(2) + ' }'
        if what == 7:
            scalar = self.pick(*SCALARS)
            return f'({front}{low}_inner).f_{scalar}', self.scalar(scalar)
        if what == 8:
            return f'({front}{low}_inner).next.{self.pick("next.", "")}f_int32', self.scalar('int32')
        return self.pick((f'({front}{low}group).g', '3'), (f'({front}{low}group)', '{ g: 4 i { many: 1 } }'),
                         (f'({front}{low}_inner).(made.opt.extra)', '8'), (f'({front}{low}_inner).part.a', '9'))

    def statements(self, kind, most):
        """Names and values; few names come twice."""
        found, used = [], set()
        for _ in range(self.rng.randrange(most + 1)):
            name, value = self.statement(kind)
            if 'list' in name or name not in used or self.rng.random() < 0.02:
                found.append((name, value))
            used.add(name)
        return found

    def lines(self, kind, indent=''):
        return [f'{indent}option {name} = {value};' for name, value in self.statements(kind, 3)]

    def brackets(self, kind):
        found = [f'{name} = {value}' for name, value in self.statements(kind, 2)]
        return f' [{", ".join(found)}]' if found else ''

    def file(self, number):
        return '\n'.join([
            'syntax = "proto2";', f'package made.user{number % 7};', 'import "made/opt.proto";', *self.lines('File'),
            'message M {', *self.lines('Message', '  '), f'  optional int32 a = 1{self.brackets("Field")};',
            f'  repeated int64 b = 2{self.brackets("Field")};', '  oneof o {', *self.lines('Oneof', '    '),
            f'    string c = 3{self.brackets("Field")};', '  }', f'  extensions 100 to 150{self.brackets("ExtensionRange")};',
            '  message N {', *self.lines('Message', '    '), '  }', f'  extend M {{ optional int32 e = 120{self.brackets("Field")}; }}', '}',
            'enum E {', *self.lines('Enum', '  '), f'  Z = 0{self.brackets("EnumValue")};', '}',
            'service S {', *self.lines('Service', '  '), '  rpc R(M) returns (M) {', *(self.lines('Method', '    ') or ['    option deprecated = false;']), '  }', '}', ''])


def tree_of(count, seed):
    """The files by name, and those of them that are to be compared."""
    files = dict(TREE)
    files['made/opt.proto'] = made_schema()
    maker = Maker(random.Random(seed))
    for number in range(count):
        files[f'made/user{number}.proto'] = maker.file(number)
    return files, [name for name in files if name != 'made/opt.proto'] + ['made/opt.proto']


def comparable(data):
    """A set with locations: the files without them, and the locations in an order of their own."""
    made = descriptor_pb2.FileDescriptorSet.FromString(data)
    found = [sorted((list(at.path), list(at.span), at.leading_comments, at.trailing_comments, list(at.leading_detached_comments))
                    for at in file.source_code_info.location) for file in made.file]
    for file in made.file:
        file.ClearField('source_code_info')
    return made.SerializeToString(), found


def asked(program, folder, name, words, flags):
    """The set, or the lines of what is wrong."""
    with tempfile.TemporaryDirectory() as out:
        path = os.path.join(out, 'set')
        done = subprocess.run([program, *words, *flags, f'-o{path}', name], cwd=folder, capture_output=True, check=False)
        if done.returncode:
            return None, done.stderr.decode().splitlines()
        with open(path, 'rb') as data:
            made = data.read()
        return comparable(made) if '--include_source_info' in flags else made, done.stderr.decode().splitlines()


PLACE = re.compile(r'([^:]*):(\d+):(\d+): (.*)')


def told(lines):
    """The faults: file, place and text of each. Of fields that are missing in braces the names are left out."""
    found = [PLACE.fullmatch(line) for line in lines]
    return sorted((*at.groups()[:3], re.sub(r'(Message missing required fields: ).*', r'\1', at[4]))
                  for at in found if at and not at[4].startswith('warning: '))


def compare(protoc, program, folder, words, names):
    failed = refused = 0
    for name in names:
        for flags in VARIANTS:
            want, wrong = asked(protoc, folder, name, words, flags)
            got, said = asked(program, folder, name, [*words, '--error_format=gcc'], flags)
            refused += want is None
            if want != got or (want is None and told(wrong) != told(said)):
                failed += 1
                print(f'{name} {" ".join(flags)}: differs', *(wrong or ['accepted']), '--', *(said or ['accepted']), sep='\n  ')
                break
    print(f'{len(names)} files; protoc refuses {refused} of {len(VARIANTS) * len(names)} command lines')
    return failed


def included():
    """The .proto files that Debian's protoc comes with."""
    top = os.path.join(INCLUDE, 'google/protobuf')
    found = [os.path.join(at, name) for at, _, names in os.walk(top) for name in names if name.endswith('.proto')]
    return sorted(os.path.relpath(path, INCLUDE) for path in found)


def main():
    words = argparse.ArgumentParser(usage=__doc__)
    words.add_argument('protoc')
    words.add_argument('protolink')
    words.add_argument('--count', type=int, default=100)
    words.add_argument('--seed', type=int, default=1)
    words.add_argument('--into')
    words.add_argument('-I', dest='folder')
    words.add_argument('files', nargs='*')
    words = words.parse_args()
    files, names = tree_of(words.count, words.seed)
    with tempfile.TemporaryDirectory() as made:
        folder = words.into or made
        for name, text in files.items():
            path = os.path.join(folder, name)
            os.makedirs(os.path.dirname(path), exist_ok=True)
            with open(path, 'w', encoding='utf-8') as out:
                out.write(text)
        if words.into:
            return
        program, more = os.path.abspath(words.protolink), ['-I.', f'-I{INCLUDE}']
        failed = compare(words.protoc, program, folder, more, names)
        theirs = included()
        failed += compare(words.protoc, program, INCLUDE, ['-I.'], theirs)
        names = names + theirs
        if words.folder:
            failed += compare(words.protoc, program, words.folder, ['-I.'], words.files)
            names = names + words.files
    print(f'{len(names) - failed} passed, {failed} failed')
    sys.exit(1 if failed else 0)


if __name__ == '__main__':
    main()
