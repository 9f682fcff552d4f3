#!/usr/bin/env python3
"""Runs the cases of crates/protocases without proving anything, and shows the lines that differ.

usage: cases.py [NAME..]        at the top of the repository; a NAME is a line of args, as foo.proto
       cases.py --calls         the same of crates/callcases: calls other than `parse`
       cases.py --runs          the same of crates/runcases: bytes, and what the programs do

Each call is one `rt try`, which builds the program and runs all cases: one to three minutes. If `rt run`
or `rt ci` left the proved program in the crate's folder `out/`, and no source of the crate or of one
below it is newer, this program runs instead, in a second. A case is a line of `stdout` that begins with
`== `, and the lines below it. All cases run, and of each whose lines or whose place differ from those in
`stdout` it shows how. With a NAME only its cases are looked at. The large sources take too long in a
build without proofs: they are left to the gate. The last line is 'N passed, M failed'.
"""
import glob
import itertools
import os
import subprocess
import sys

sys.dont_write_bytecode = True
sys.path.insert(0, os.path.dirname(os.path.abspath(__file__)))
from edits import lines_of

FOLDERS = {'--calls': 'crates/callcases', '--runs': 'crates/runcases'}
NAMES = [word for word in sys.argv[1:] if word not in FOLDERS]
FOLDER = next((FOLDERS[word] for word in sys.argv[1:] if word in FOLDERS), 'crates/protocases')
LARGE = '--large'


def cases_in(text):
    """The lines of each case, by its name."""
    cases, name = {}, None
    for line in text.split('\n'):
        if line.startswith('== '):
            name = line[3:]
            cases[name] = []
        elif name is not None:
            cases[name].append(line)
    return cases


def words_of():
    """The words of the program, but for the large sources."""
    if not os.path.isfile(f'{FOLDER}/args'):
        return []
    with open(f'{FOLDER}/args', encoding='utf-8') as file:
        words = [word for word in file.read().split() if word != LARGE]
    missing = [word for word in words if not word.startswith('--') and not os.path.isfile(f'{FOLDER}/data/{word}')]
    if missing:
        sys.exit(f'not in {FOLDER}/data: {" ".join(dict.fromkeys(missing))}')
    unknown = [name for name in NAMES if name not in words]
    if unknown:
        sys.exit(f'not in {FOLDER}/args: {" ".join(unknown)}')
    return words


def files_below(folder):
    """The files of a folder and of those in it, by their paths from it."""
    return sorted(os.path.relpath(f'{at}/{name}', folder) for at, _, names in os.walk(folder) for name in names)


def is_fresh(program):
    """Whether the program is there, and no source of it has changed since it was built."""
    crates = lines_of([os.path.basename(FOLDER)])
    sources = [name for crate in crates for name in glob.glob(f'crates/{crate}/src/**/*.rt', recursive=True)]
    return os.path.isfile(program) and os.path.getmtime(program) > max(map(os.path.getmtime, sources))


def command(words):
    """What to run, and in which folder: the proved program, or a build of its own without proofs."""
    program = os.path.abspath(f'{FOLDER}/out/{os.path.basename(FOLDER)}')
    if is_fresh(program):
        print(f'by {os.path.relpath(program)}')
        return [program, *words], f'{FOLDER}/data' if os.path.isdir(f'{FOLDER}/data') else FOLDER
    flags = [word for name in files_below(f'{FOLDER}/data') for word in ('--data', f'{name}=data/{name}')]
    return ['rt', 'try', *flags, '--', *words], FOLDER


def run(words):
    """What the program prints."""
    line, folder = command(words)
    ran = subprocess.run(line, cwd=folder, capture_output=True, text=True, check=False)
    if ran.returncode:
        sys.exit(f'{ran.stdout[-2000:]}{ran.stderr[-2000:]}\nthe program ended with status {ran.returncode}')
    return ran.stdout


def difference(name, found, wanted):
    """How a case differs from what is wanted: None, or a text."""
    if name not in found:
        return f'the program prints no case {name}'
    if name not in wanted:
        return f'no line of stdout is `== {name}`'
    pairs = itertools.zip_longest(found[name], wanted[name], fillvalue='(no line)')
    differing = [pair for pair in pairs if pair[0] != pair[1] and pair != ('', '(no line)')]
    if differing:
        return f'found  {differing[0][0]}\n{" " * len(name)}  wanted {differing[0][1]}'
    return None


def misplaced(found, wanted):
    """The first case that stands at another place in stdout than the program prints it at, if any."""
    printed = [name for name in found if name in wanted]
    standing = [name for name in wanted if name in found]
    pairs = [(there, here) for there, here in zip(standing, printed) if there != here]
    return f'{pairs[0][0]} stands in stdout where {pairs[0][1]} is printed' if pairs else None


def main():
    words = words_of()
    with open(f'{FOLDER}/stdout', encoding='utf-8') as file:
        wanted = cases_in(file.read())
    found = cases_in(run(words))
    cases = [case for case in dict.fromkeys([*wanted, *found]) if case != LARGE]
    chosen = [case for case in cases if not NAMES or set(case.split()) & set(NAMES)]
    if not chosen:
        sys.exit(f'no case has the name {" ".join(NAMES)}')
    told = {case: difference(case, found, wanted) for case in chosen}
    differing = [f'{case}: {how}' for case, how in told.items() if how]
    order = misplaced(found, wanted)
    print('\n'.join(differing + ([order] if order else [])), end='\n' if differing or order else '')
    print(f'{len(chosen) - len(differing)} passed, {len(differing) + bool(order)} failed')
    return 1 if differing or order else 0


if __name__ == '__main__':
    sys.exit(main())
