#!/usr/bin/env python3
"""compare_protoc.py PROTOSCAN FILE.. : the locations that protoscan prints of each file beside those of protoc, which must be
installed with its Python library (Debian: protobuf-compiler, python3-protobuf). Where an option isn't interpreted here, its path ends
with 999 and a number, and protoc has the option's own number in their stead; such pairs of equal span are counted by themselves."""
import os
import subprocess
import sys
import tempfile

from google.protobuf import descriptor_pb2


def printed(program, file):
    lines = subprocess.run([program, file], capture_output=True, text=True, check=True).stdout.splitlines()
    return {tuple(line.rsplit(" ", 1)) for line in lines}


def compiled(file):
    folder, name = os.path.split(os.path.abspath(file))
    with tempfile.NamedTemporaryFile() as out:
        subprocess.run(["protoc", "-I", folder, "-I", "/usr/include", "--include_source_info", "-o", out.name, name], check=True, cwd=folder)
        files = descriptor_pb2.FileDescriptorSet.FromString(open(out.name, "rb").read()).file
    locations = next(f for f in files if f.name == name).source_code_info.location
    return {(".".join(map(str, l.path)) or ".", ",".join(map(str, l.span))) for l in locations}


for file in sys.argv[2:]:
    ours, theirs = printed(sys.argv[1], file), compiled(file)
    common = ours & theirs
    options = sorted(span for path, span in ours - common if ".999." in "." + path)
    paired = options == sorted(span for path, span in theirs - common)
    print(f"{file}: {len(common)} locations are the same, {len(options)} options have another path, {'nothing else' if paired else 'MORE'} differs")
