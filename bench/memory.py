#!/usr/bin/env python3
"""Bounds the memory that a parse takes of long files of small statements.

usage: memory.py [PARSECOUNT]   at the top of the repository; PARSECOUNT is by default the program that
                                the gate built

Each kind is a source of 10 MB, the same each time. `read`, `notes` and `whole` are those of
make_proto.py. The others have one short statement a line: messages, enums, or imports and options,
which stay in the tree to the end. PARSECOUNT parses each source once. Its largest memory, in bytes a
byte of the source, may be at most what BOUNDS says. A line for each kind says what it took.

The last line is 'N passed, M failed'. The status is 2 where the program isn't there.
"""
import os
import subprocess
import sys
import tempfile

sys.dont_write_bytecode = True
from make_proto import BLOCKS

BYTES = 10_000_000
# The bytes of memory that a byte of the source may take.
BOUNDS = {
    'read': 14.0,
    'notes': 8.5,
    'whole': 20.0,
    'messages': 22.0,
    'enums': 22.0,
    'imports': 27.0,
}

HEAD = 'syntax = "proto3";\n\nimport "google/type/latlng.proto";\n'
STATEMENTS = {
    **BLOCKS,
    'messages': 'message Account{n} {{}}\n',
    'enums': 'enum State{n} {{ STATE_{n} = 0; }}\n',
    'imports': 'import "a/account_{n}.proto";\noption (o) = {n};\n',
}
# Runs a program in a small process, since the system counts at least what the process takes that
# starts it. Prints the status, and the largest memory in KB.
SMALL = '''import os, sys
quiet = [(os.POSIX_SPAWN_OPEN, 1, '/dev/null', os.O_WRONLY, 0)]
child = os.posix_spawn(sys.argv[1], sys.argv[1:], {}, file_actions=quiet)
_, status, used = os.wait4(child, 0)
print(os.WEXITSTATUS(status) if os.WIFEXITED(status) else -os.WTERMSIG(status), used.ru_maxrss)'''


def write(path, kind):
    """Writes the source of a kind, and answers its length."""
    with open(path, 'w', encoding='ascii', newline='') as file:
        written, number = file.write(HEAD), 0
        while written < BYTES:
            written += file.write(STATEMENTS[kind].format(n=number))
            number += 1
    return written


def taken(program, path):
    """The status of a run, and the largest memory that it took, in bytes."""
    line = [sys.executable, '-I', '-S', '-c', SMALL, program, path, '1']
    ran = subprocess.run(line, stdout=subprocess.PIPE, check=True)
    status, kilobytes = ran.stdout.split()
    return int(status), int(kilobytes) * 1024


def keeps(program, folder, kind):
    """Whether a parse of this kind keeps its bound. Prints what it takes."""
    path = f'{folder}/{kind}.proto'
    length = write(path, kind)
    status, memory = taken(program, path)
    os.remove(path)
    if status != 0:
        print(f'{kind}: {program} ended with status {status}, and not 0')
        return False
    a_byte = memory / length
    well = a_byte <= BOUNDS[kind]
    print(f'{kind}: {a_byte:.1f} bytes a byte of source, at most {BOUNDS[kind]:.1f} are allowed'
          + ('' if well else ': too much'))
    return well


def main():
    program = os.path.abspath((sys.argv[1:] or ['crates/parsecount/out/parsecount'])[0])
    if not os.access(program, os.X_OK):
        print(f'{program} is not there: `rt ci` or `rt run` in crates/parsecount builds it')
        return 2
    with tempfile.TemporaryDirectory() as folder:
        well = [keeps(program, folder, kind) for kind in BOUNDS]
    print(f'{well.count(True)} passed, {well.count(False)} failed')
    return 0 if all(well) else 1


if __name__ == '__main__':
    sys.exit(main())
