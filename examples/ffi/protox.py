"""A parser of Protocol Buffers source files, by the C library libprotox.

`parse(name, source)` and `parse_file(path)` return a FileDescriptorProto or raise ParseError, and
`report(name, source)` returns what is wrong. `link(files)` returns a FileDescriptorSet with all
names resolved, or raises LinkError; `link(files, options=True)` reads options, too.
`messages(file)` lists the messages of a descriptor with their comments:

    import protox
    for name, comment in protox.messages(protox.parse_file("foo.proto")):
        print(name, comment)

It needs protobuf (python3-protobuf) and the shared library libprotox.so. PROTOX_LIBRARY says where
that is, if it is neither beside this file nor in the folder `out` there, where build.sh makes it.
"""
import ctypes
import os
import struct
from dataclasses import dataclass, field
from typing import Any, Callable, Dict, Iterable, Iterator, List, Mapping, Tuple, Union

from google.protobuf.descriptor_pb2 import (
    DescriptorProto,
    FileDescriptorProto,
    FileDescriptorSet,
)

VERSION = 1
ACCEPTED, REFUSED, OUT_OF_MEMORY, TOO_SHORT, NOT_UTF8, TOO_LARGE, NOT_A_FLOAT = range(7)
WORDS = {TOO_LARGE: "the answer takes 2 GiB or more", NOT_A_FLOAT: "an option's value is no float"}
Text = Union[str, bytes]


def _library_path() -> str:
    here = os.path.dirname(os.path.abspath(__file__))
    beside = os.path.join(here, "libprotox.so")
    made = beside if os.path.exists(beside) else os.path.join(here, "out", "libprotox.so")
    return os.environ.get("PROTOX_LIBRARY") or made


_library = ctypes.CDLL(_library_path())
_calls = _library.protox_parse_to_descriptor, _library.protox_report
for _each in _calls:
    _each.restype = ctypes.c_uint32
    _each.argtypes = [
        ctypes.c_char_p, ctypes.c_size_t, ctypes.c_char_p, ctypes.c_size_t,
        ctypes.c_char_p, ctypes.c_size_t, ctypes.POINTER(ctypes.c_size_t),
    ]
_library.protox_version.restype = ctypes.c_uint32
_library.protox_version.argtypes = []
if _library.protox_version() != VERSION:
    raise ImportError("libprotox.so is of another version than protox.py")


class _File(ctypes.Structure):
    """struct protox_file"""

    _fields_ = [
        ("name", ctypes.c_char_p), ("name_len", ctypes.c_size_t),
        ("source", ctypes.c_char_p), ("source_len", ctypes.c_size_t),
    ]


@dataclass
class Place:
    """Offsets in bytes; line and column from 0, columns in bytes."""

    start: int
    end: int
    line: int
    column: int
    label: str = ""


@dataclass
class Fault:
    """One thing that is wrong. `kind` is a number of one of the enums of kinds in protox.h.

    `file` is the name of the file, if `link` tells it.
    """

    kind: int
    place: Place
    message: str
    help: str
    others: List[Place] = field(default_factory=list)
    file: str = ""


class ParseError(Exception):
    """What is wrong with a source: `faults`, and `line` and `column` of the first, from 0."""

    def __init__(self, name: str, faults: List[Fault]) -> None:
        self.name, self.faults = name, faults
        self.line, self.column = faults[0].place.line, faults[0].place.column
        super().__init__(f"{name}:{self.line + 1}:{self.column + 1}: {faults[0].message}")


class LinkError(Exception):
    """What is wrong with files: `faults`, and `file`, `line` and `column` of the first, from 0."""

    def __init__(self, faults: List[Fault]) -> None:
        self.faults, self.file = faults, faults[0].file
        self.line, self.column = faults[0].place.line, faults[0].place.column
        super().__init__(f"{self.file}:{self.line + 1}:{self.column + 1}: {faults[0].message}")


def _call_with_room(
    call: Callable[..., int], given: Tuple[Any, ...], room: int
) -> Tuple[int, bytes]:
    while True:
        out, length = ctypes.create_string_buffer(room), ctypes.c_size_t()
        status = call(*given, out, room, ctypes.byref(length))
        if status != TOO_SHORT:
            return status, out[: length.value]
        room = length.value


class _Reader:
    """Reads records, as protox.h describes them."""

    def __init__(self, data: bytes) -> None:
        self.data, self.at = data, 0

    def numbers(self, count: int) -> Tuple[Any, ...]:
        self.at += 4 * count
        return struct.unpack_from(f"<{count}I", self.data, self.at - 4 * count)

    def text(self) -> str:
        (length,) = self.numbers(1)
        self.at += length
        return self.data[self.at - length : self.at].decode()

    def fault(self) -> Fault:
        (kind,), place = self.numbers(1), Place(*self.numbers(4))
        message, place.label = self.text(), self.text()
        fault = Fault(kind, place, message, self.text())
        for _ in range(*self.numbers(1)):
            fault.others.append(Place(*self.numbers(4), self.text()))
        return fault


def _raise_unless_good(status: int) -> None:
    if status == OUT_OF_MEMORY:
        raise MemoryError
    if status == NOT_UTF8:
        raise UnicodeError("a name or a source is not UTF-8")
    if status in WORDS:
        raise ValueError(WORDS[status])


def report(name: Text, source: Text) -> List[Fault]:
    """The faults of a source, which is bytes or a str; an empty list where nothing is wrong."""
    name, source = _as_bytes(name), _as_bytes(source)
    status, data = _call_with_room(_calls[1], _given(name, source), 1 << 14)
    _raise_unless_good(status)
    reader, faults = _Reader(data), []
    while reader.at < len(data):
        faults.append(reader.fault())
    return faults


def parse(name: Text, source: Text) -> FileDescriptorProto:
    """The descriptor of a source, which is bytes or a str, or ParseError with what is wrong."""
    name, source = _as_bytes(name), _as_bytes(source)
    room = 8 * len(source) + (1 << 14)
    status, data = _call_with_room(_calls[0], _given(name, source), room)
    if status == REFUSED:
        raise ParseError(name.decode(), report(name, source))
    _raise_unless_good(status)
    return FileDescriptorProto.FromString(data)


def _link_call(name: str) -> Callable[..., int]:
    try:
        call: Callable[..., int] = getattr(_library, name)
    except AttributeError:
        raise NotImplementedError(f"this libprotox.so has no {name}") from None
    call.restype = ctypes.c_uint32
    call.argtypes = [
        ctypes.POINTER(_File), ctypes.c_size_t,
        ctypes.c_char_p, ctypes.c_size_t, ctypes.POINTER(ctypes.c_size_t),
    ]
    return call


def link(files: Mapping[str, Text], options: bool = False) -> FileDescriptorSet:
    """The files, by name and source, with all names resolved; each behind what it imports.

    Give each file that one of them imports. LinkError says what is wrong: the faults of syntax of
    all files, or else what is wrong with the names and numbers in them.

    With `options` their options are read, as protoc does. Then give
    google/protobuf/descriptor.proto, too. LinkError also says what is wrong with options. Without
    it they stay `uninterpreted_option`.
    """
    names = list(files)
    texts = [(name.encode(), _as_bytes(files[name])) for name in names]
    array = (_File * len(texts))(*(_given(name, source) for name, source in texts))
    room = 8 * sum(len(source) for _, source in texts) + (1 << 14)
    call = _link_call("protox_link_with_options" if options else "protox_link")
    status, data = _call_with_room(call, (array, len(texts)), room)
    _raise_unless_good(status)
    if status == REFUSED:
        raise LinkError(_link_faults(names, data))
    return FileDescriptorSet.FromString(data)


def _link_faults(names: List[str], data: bytes) -> List[Fault]:
    reader, faults = _Reader(data), []
    while reader.at < len(data):
        (number,) = reader.numbers(1)
        fault = reader.fault()
        fault.file = names[number]
        faults.append(fault)
    return faults


def build() -> Union[str, None]:
    """The version, the kit, what proved the library, and the commit, as a line of text.

    Only the library of a package has it: else None.
    """
    try:
        text = ctypes.c_char.in_dll(_library, "protox_build")
    except ValueError:
        return None
    return ctypes.string_at(ctypes.addressof(text)).decode()


def parse_file(path: Union[str, "os.PathLike[str]"]) -> FileDescriptorProto:
    """The descriptor of the file at this path, under this name; errors as of `parse` and `open`."""
    with open(path, "rb") as source:
        return parse(os.fspath(path), source.read())


def comments(file: FileDescriptorProto) -> Dict[Tuple[int, ...], str]:
    """The comment that stands before each declaration, by the declaration's path.

    It is empty where there is no comment. Names, types and numbers have paths too.
    """
    return {tuple(it.path): it.leading_comments for it in file.source_code_info.location}


def messages(file: FileDescriptorProto) -> Iterator[Tuple[str, str]]:
    """Each message of a file: its full name, such as `foo.Bar.Baz`, and the comment before it.

    A message comes before those in it. Groups and the entries of maps are messages too.
    """
    front = f"{file.package}." if file.package else ""
    return _messages(file.message_type, (4,), front, comments(file))


def _messages(
    found: Iterable[DescriptorProto],
    path: Tuple[int, ...],
    front: str,
    known: Dict[Tuple[int, ...], str],
) -> Iterator[Tuple[str, str]]:
    for index, message in enumerate(found):
        at, name = (*path, index), front + message.name
        yield name, known.get(at, "").strip()
        yield from _messages(message.nested_type, (*at, 3), name + ".", known)


def _given(name: bytes, source: bytes) -> Tuple[bytes, int, bytes, int]:
    return name, len(name), source, len(source)


def _as_bytes(text: Text) -> bytes:
    return text.encode() if isinstance(text, str) else bytes(text)
