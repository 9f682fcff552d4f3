#!/usr/bin/env python3
"""Looks for what README and docs/ name and show that is not there: files, links, edits, programs.

usage: docs.py        at the top of the repository

A name of a file is a text between backquotes that ends like one, as `Order.antt` or `bench/gate.py`:
some file of the repository has to end so. A link has to lead to a file, and to a heading in it. Each
edit of the gate has to stand in docs/WRONG_BODIES.md just once, and no other. README's program has to be
that of the gate. Each block of Rust in docs/LIBRARY.md has to stand to the letter in a source that the
gate builds: of the example programs, or of the tests. The last line is 'N passed, M failed'.
"""
import glob
import os
import re
import subprocess
import sys

# Files of others that the docs speak of.
OUTSIDE = ('descriptor.proto',)
# Sources that docs/LIBRARY.md quotes.
QUOTED = ('crates/example_programs/src/*.rt', 'crates/callcases/src/calls/*.rt', 'crates/runcases/src/*.rt',
          'crates/linkcases/src/*.rt')
ENDINGS = ('.antt', '.rt', '.py', '.sh', '.cc', '.c', '.md', '.proto', '.txt', '.edit')


def read(path):
    with open(path, encoding='utf-8') as file:
        return file.read()


def files():
    listed = subprocess.run(['git', 'ls-files', '-co', '--exclude-standard'], stdout=subprocess.PIPE, check=True)
    return listed.stdout.decode().split('\n')


def names_in(text):
    """The texts between backquotes that name a file."""
    outside = re.sub(r'```.*?```', '', text, flags=re.S)
    names = re.findall(r'`([^`\s]+)`', outside)
    named = [name for name in names if name.endswith(ENDINGS) and name not in OUTSIDE]
    return [name for name in named if '*' not in name and not re.search('[A-Z]{3}', name)]


def missing_names(path, text, known):
    return [f'{path}: no file ends with {name}' for name in names_in(text)
            if not any(('/' + file).endswith('/' + name) for file in known)]


def missing_links(path, text):
    wrong, folder = [], os.path.dirname(path)
    for link, part in re.findall(r'\]\(([^)#:]*)(?:#([^)]*))?\)', text):
        file = os.path.join(folder, link) if link else path
        if not os.path.exists(file):
            wrong.append(f'{path}: no file {link}')
        elif part and part not in headings(file):
            wrong.append(f'{path}: {link} has no heading {part}')
    return wrong


def headings(path):
    """The headings of a page, as links name them."""
    lines = [line.lstrip('#').strip().lower() for line in read(path).split('\n') if line.startswith('#')]
    return [re.sub(r'[^\w -]', '', line).replace(' ', '-') for line in lines]


def wrong_edits():
    """Edits of the gate that docs/WRONG_BODIES.md doesn't name once, and others that it names."""
    named = re.findall(r'`(\w+/\w+)` \|$', read('docs/WRONG_BODIES.md'), flags=re.M)
    there = [re.sub(r'crates/(\w+)/must-fail/(\w+)\.edit', r'\1/\2', it) for it in glob.glob('crates/*/must-fail/*.edit')]
    wrong = [f'docs/WRONG_BODIES.md names {it} {named.count(it)} times' for it in there if named.count(it) != 1]
    return wrong + [f'docs/WRONG_BODIES.md names {it}, which the gate does not try' for it in named if it not in there]


def unquoted_blocks():
    """Blocks of Rust in docs/LIBRARY.md that stand in none of the sources that it quotes."""
    blocks = re.findall(r'^```rust\n(.*?)^```$', read('docs/LIBRARY.md'), flags=re.S | re.M)
    sources = [read(path) for pattern in QUOTED for path in sorted(glob.glob(pattern))]
    if not blocks:
        return ['docs/LIBRARY.md quotes nothing']
    return [f'docs/LIBRARY.md: no source has the block that begins with {block.splitlines()[0]!r}'
            for block in blocks if not any(block in source for source in sources)]


def other_programs():
    """README's program, if crates/example_hello, which the gate builds and runs, is another."""
    shown = re.findall(r'```rust\n(.*?)```', read('README.md'), flags=re.S)
    program = read('crates/example_hello/src/main.rt')
    return [] if shown == [program] else ['README.md: its program is not crates/example_hello/src/main.rt']


def main():
    known, passed, failed = files(), 0, []
    for path in ['README.md', *sorted(glob.glob('docs/*.md'))]:
        text = read(path)
        found = missing_names(path, text, known) + missing_links(path, text)
        failed += found
        passed += not found
    for found in (wrong_edits(), other_programs(), unquoted_blocks()):
        failed, passed = failed + found, passed + (not found)
    print(*failed, sep='\n', end='\n' if failed else '')
    print(f'{passed} passed, {len(failed)} failed')
    return 1 if failed else 0


if __name__ == '__main__':
    sys.exit(main())
