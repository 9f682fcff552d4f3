"""Tests of protox.py."""
import os
import shutil
import subprocess
import tempfile
import unittest

from google.protobuf import descriptor_pool
from google.protobuf.descriptor_pb2 import FileDescriptorSet

import protox

GOOD = "// A.\nmessage A {\n  optional int32 b = 1 [default = 2];\n}\n"
WRONG = "message A { optional int32 b = 0; }\n"
DESCRIPTOR = "/usr/include/google/protobuf/descriptor.proto"
OPTIONS = """syntax = "proto2";
package p;
import "google/protobuf/descriptor.proto";
option java_package = "com.p";
message Rule { optional string name = 1; repeated int32 sizes = 2; optional Rule inner = 3; }
extend google.protobuf.FieldOptions {
  optional Rule rule = 50000;
  repeated int32 size = 50001;
}
message M {
  option deprecated = true;
  repeated int32 a = 1 [packed = true, (rule) = {name: "x" sizes: [1, 2] inner {}}, (size) = 3];
  optional M b = 2 [(rule).inner.name = "y", (size) = 4, (size) = 5, lazy = true];
}
enum E { option allow_alias = true; A = 0; B = 0; }
"""
CHAIN = {
    "a.proto": 'import "b.proto";\nmessage A {\n  optional p.B b = 1;\n'
    "  repeated p.C some_cs = 2;\n}\n",
    "b.proto": 'package p;\nimport public "c.proto";\nmessage B {\n  optional C c = 1;\n}\n',
    "c.proto": "package p;\nmessage C {}\n",
}
TWICE = "package a;\n\n package b;\n"


class Calls(unittest.TestCase):
    def test_descriptor(self):
        file = protox.parse("dir/a.proto", GOOD)
        self.assertEqual(file.name, "dir/a.proto")
        self.assertEqual([it.name for it in file.message_type], ["A"])
        self.assertEqual(file.message_type[0].field[0].default_value, "2")
        found = {tuple(it.path): it.leading_comments for it in file.source_code_info.location}
        self.assertEqual(found[(4, 0)], " A.\n")

    def test_messages(self):
        source = "package p.q;\n" + GOOD + "message B {\n  // C.\n  message C {}\n}\n"
        found = list(protox.messages(protox.parse("a.proto", source)))
        self.assertEqual(found, [("p.q.A", "A."), ("p.q.B", ""), ("p.q.B.C", "C.")])
        self.assertEqual(list(protox.messages(protox.parse("a.proto", GOOD))), [("A", "A.")])

    def test_comments(self):
        found = protox.comments(protox.parse("a.proto", GOOD))
        self.assertEqual((found[(4, 0)], found[(4, 0, 2, 0)]), (" A.\n", ""))

    def test_file(self):
        with tempfile.TemporaryDirectory() as folder:
            path = os.path.join(folder, "a.proto")
            with open(path, "w") as file:
                file.write(GOOD)
            self.assertEqual(protox.parse_file(path), protox.parse(path, GOOD))

    def test_fault(self):
        with self.assertRaises(protox.ParseError) as caught:
            protox.parse("a.proto", WRONG)
        (fault,) = caught.exception.faults
        self.assertEqual((fault.kind, fault.place.line, fault.place.column), (19, 0, 31))
        self.assertEqual((fault.place.start, fault.place.end), (31, 32))
        self.assertEqual(fault.message, "message numbers must be between 1 and 536870911")
        self.assertEqual((fault.place.label, fault.help, fault.others), ("defined here", "", []))
        self.assertEqual(str(caught.exception), "a.proto:1:32: " + fault.message)

    def test_two_places(self):
        (fault,) = protox.report("a.proto", TWICE)
        self.assertEqual((fault.kind, fault.place.start, fault.place.end), (12, 0, 10))
        self.assertEqual((fault.place.line, fault.place.column), (0, 0))
        (other,) = fault.others
        self.assertEqual((other.line, other.column, other.start, other.end), (2, 1, 13, 23))

    def test_columns_are_in_bytes(self):
        (fault,) = protox.report("a.proto", 'syntax = "proto3";\n/* äöü */ ?')
        self.assertEqual((fault.place.line, fault.place.column), (1, 13))

    def test_nothing_wrong(self):
        self.assertEqual(protox.report("a.proto", GOOD), [])

    def test_not_utf8(self):
        with self.assertRaises(UnicodeError):
            protox.parse("a.proto", b"\xff")

    def test_link(self):
        found = protox.link(CHAIN)
        self.assertEqual([it.name for it in found.file], ["c.proto", "b.proto", "a.proto"])
        fields = found.file[2].message_type[0].field
        self.assertEqual([it.type for it in fields], [11, 11])
        self.assertEqual([it.type_name for it in fields], [".p.B", ".p.C"])
        self.assertEqual([it.json_name for it in fields], ["b", "someCs"])
        self.assertEqual(found, protox.link(dict(reversed(CHAIN.items()))))

    def test_linked_files_make_classes(self):
        pool = descriptor_pool.DescriptorPool()
        for file in protox.link(CHAIN).file:
            pool.AddSerializedFile(file.SerializeToString())
        message = pool.FindMessageTypeByName("A")
        self.assertEqual(message.fields_by_name["b"].message_type.full_name, "p.B")

    @unittest.skipUnless(shutil.which("protoc"), "protoc is not there")
    def test_link_as_protoc(self):
        with tempfile.TemporaryDirectory() as folder:
            for name, source in CHAIN.items():
                with open(os.path.join(folder, name), "w") as file:
                    file.write(source)
            words = ["protoc", "-I.", "--include_imports", "--include_source_info"]
            words += ["--descriptor_set_out=set", "a.proto"]
            subprocess.run(words, cwd=folder, check=True, stderr=subprocess.DEVNULL)
            with open(os.path.join(folder, "set"), "rb") as file:
                files = FileDescriptorSet.FromString(file.read())
        for file in files.file:
            file.source_code_info.location.sort(key=lambda it: list(it.path))
        self.assertEqual(protox.link(CHAIN), files)

    @unittest.skipUnless(shutil.which("protoc") and os.path.exists(DESCRIPTOR), "protoc is not there")
    def test_link_options_as_protoc(self):
        with open(DESCRIPTOR) as file:
            files = {"a.proto": OPTIONS, "google/protobuf/descriptor.proto": file.read()}
        with tempfile.TemporaryDirectory() as folder:
            with open(os.path.join(folder, "a.proto"), "w") as file:
                file.write(OPTIONS)
            words = ["protoc", "-I.", "-I/usr/include", "--include_imports", "--include_source_info"]
            words += ["--descriptor_set_out=set", "a.proto"]
            subprocess.run(words, cwd=folder, check=True)
            with open(os.path.join(folder, "set"), "rb") as file:
                wanted = FileDescriptorSet.FromString(file.read())
        found = protox.link(files, options=True)
        for file in (*found.file, *wanted.file):
            # protoc lists locations as it reads
            file.source_code_info.location.sort(key=lambda it: (list(it.path), list(it.span)))
        self.assertEqual(found, wanted)

    def test_link_options_error(self):
        with self.assertRaises(protox.LinkError) as caught:
            protox.link({"a.proto": "option no = 1;"}, options=True)
        (fault,) = caught.exception.faults
        # PROTOX_OPTION_NO_TYPE
        self.assertEqual((fault.file, fault.kind, fault.place.line), ("a.proto", 201, 0))

    def test_link_error(self):
        wrong = CHAIN["b.proto"].replace("C c", "Gone c").replace("public ", "")
        files = {**CHAIN, "b.proto": wrong}
        with self.assertRaises(protox.LinkError) as caught:
            protox.link(files)
        first, second = caught.exception.faults
        # PROTOX_LINK_NOT_IMPORTED and PROTOX_LINK_NOT_DEFINED
        self.assertEqual((first.file, first.kind), ("a.proto", 113))
        self.assertEqual((second.file, second.kind), ("b.proto", 112))
        self.assertEqual((second.place.line, second.place.column), (3, 11))
        self.assertEqual((second.place.start, second.place.end), (52, 56))
        self.assertEqual(second.message, '"Gone" is not defined.')
        error = caught.exception
        self.assertEqual((error.file, error.line, error.column), ("a.proto", 3, 11))

    def test_link_syntax(self):
        with self.assertRaises(protox.LinkError) as caught:
            protox.link({"a.proto": GOOD, "b.proto": WRONG})
        (fault,) = caught.exception.faults
        self.assertEqual((fault.file, fault.kind, fault.place.column), ("b.proto", 19, 31))
        self.assertEqual(str(caught.exception), "b.proto:1:32: " + fault.message)

    def test_link_nothing(self):
        self.assertEqual(list(protox.link({}).file), [])

    def test_link_not_utf8(self):
        with self.assertRaises(UnicodeError):
            protox.link({"a.proto": GOOD, "b.proto": b"\xff"})

    def test_room(self):
        many = "".join(f"message M{i} {{}}\n" for i in range(3000))
        self.assertEqual(len(protox.parse("a.proto", many).message_type), 3000)


unittest.main()
