#!/usr/bin/env python3
"""Counts the lines of definitions that the contract of a public call rests on: what a reader must believe.

usage: believe.py [--list] [--unused]        at the top of the repository

Each file of `crates/*/specs/` is cut into its definitions, each with the comment before it; what is
shared by some, `module _`, counts with the first of them. A contract rests on the definitions that it
names (for a type: that its file imports), and on all that those name. For each of the public calls below,
the first table has the number of files, definitions and lines (with comments, and without), and how many
of the lines without comments `parse` doesn't rest on. The second has the lines of `parse` by crate, and
the third what `link` rests on besides. --list names the definitions of `parse`; --unused names those that
no contract of any crate rests on, so that only proofs name them, or nothing does.
"""
import collections
import functools
import glob
import re
import sys

CALLS = {
    'parse': ('protox_parse/src/lib.rt', 'parse'),
    'parse_file': ('protox_syntax/src/parse.rt', 'parse_file'),
    'generate_file': ('protox_generate/src/generate.rt', 'generate_file'),
    'Lexer': ('protox_lexeme/src/lexer.rt', None),
    'TokenTable': ('protox_lex/src/token_table.rt', None),
    'laws of the grammar': ('protox_grammar/src/lib.rt', None),
    'link': ('protox_link/src/linking.rt', 'link'),
    'check': ('protox_link/src/checking.rt', 'check'),
}
HEAD = re.compile(r'^(?:(?:pub|abbrev|unfoldable|record|data|syntax|instance)\b ?)+(\S+)')
IMPORT = re.compile(r'^(?:pub )?use Rattle\.(\w+)\.specs\.([\w.+]+?)(?:\.\{([^}]*)\}| as (\S+?))?;?\s*$')
WORD = re.compile(r"[^\s(){}\[\],;:⟨⟩]+")


class File:
    """A file of definitions: its imports by the names that they have there, and its definitions."""

    def __init__(self, crate, name, text):
        self.crate, self.name, self.imports, self.aliases = crate, name, {}, {}
        self.blocks = collections.OrderedDict()
        # of each definition the lines of the modules that it stands in
        self.around = {}
        self.read_imports(text)
        comment, block, modules = [], None, []
        for whole in text.split('\n'):
            indent = len(whole) - len(whole.lstrip())
            if whole.strip():
                modules = [module for module in modules if module[0] < indent]
            level = modules[-1][0] + 2 if modules else 0
            line = whole[level:]
            head = HEAD.match(line)
            if line.startswith(('use ', 'pub use ', 'pub mod', 'mod ')):
                comment, block = [], None
            elif line.startswith('module _'):
                modules.append((indent, line))
                comment, block = comment + [line], None
            elif head:
                block = self.blocks.setdefault(head[1], [])
                self.around[head[1]] = [module[1] for module in modules]
                block += comment + [line]
                comment = []
            elif line.startswith('--') or (block is None and not line.strip()):
                comment = comment + [line] if line.startswith('--') or modules and not block else []
            elif block is not None and (line.strip() or not comment):
                block.append(line)

    def read_imports(self, text):
        for line in text.split('\n'):
            found = IMPORT.match(line)
            if not found:
                continue
            crate, file, names, alias = found.groups()
            if names is None:
                self.aliases[alias or file.split('.')[-1]] = (crate, file)
            for name in filter(None, (it.strip() for it in (names or '').split(','))):
                one, _, other = name.partition(' as ')
                self.imports[other or one] = (crate, file, one)


def read_all():
    files = {}
    for path in glob.glob('crates/*/specs/**/*.antt', recursive=True):
        parts = path[:-len('.antt')].split('/')
        name = '.'.join(parts[3:])
        with open(path, encoding='utf-8') as file:
            files[parts[1], name] = File(parts[1], name, file.read())
    return files


class Definitions:
    def __init__(self):
        self.files = read_all()

    @functools.cache
    def find(self, crate, file, name, seen=()):
        """The definition of that name in a file, or in one whose names the file passes on."""
        at = self.files.get((crate, file))
        if at is None or (crate, file) in seen:
            return None
        if name in at.blocks:
            return crate, file, name
        if name in at.imports:
            return self.find(*at.imports[name], seen=(*seen, (crate, file)))
        # a case or a field of a definition
        for block, lines in at.blocks.items():
            if any(re.match(rf'\s+(?:pub )?{re.escape(name)} :', line) for line in lines):
                return crate, file, block
        return None

    def named(self, at, text):
        """The definitions that a text in a file names."""
        text = re.sub(r'--.*', '', text)
        operators = [it for it in [*at.blocks, *at.imports] if '◌' in it and all(p in text for p in it.split('◌') if p)]
        for word in {*WORD.findall(text), *operators}:
            first, _, rest = word.partition('.')
            if first in at.aliases and rest:
                found = self.find(*at.aliases[first], rest.split('.')[0])
            else:
                places = [at.imports.get(name) or (at.crate, at.name, name) for name in (word, first)]
                found = next((it for it in (self.find(*place) for place in places) if it), None)
            if found:
                yield found

    def closure(self, roots):
        seen, todo = set(), list(roots)
        while todo:
            key = todo.pop()
            if key not in seen:
                seen.add(key)
                at = self.files[key[:2]]
                todo += self.named(at, '\n'.join(at.around[key[2]] + at.blocks[key[2]]))
        return seen

    def of_contracts(self, path, function=None):
        """What the contracts of a file of code name, or that of a public function in it."""
        with open(path, encoding='utf-8') as file:
            text = file.read()
        uses = '\n'.join(line.removeprefix('ghost ').strip() for line in text.split('\n') if 'ghost use ' in line)
        at = File(path.split('/')[1], '(code)', uses)
        if function:
            text = re.search(rf'^pub fn {function}\b.*?^\{{$', text, re.M | re.S)[0]
            return list(self.named(at, re.sub(r'//.*', '', text)))
        found = [self.find(*it) for it in at.imports.values()]
        for alias, file in at.aliases.items():
            found += [self.find(*file, name) for name in re.findall(rf'\b{re.escape(alias)}\.(\w+)', text)]
        return [it for it in found if it]

    def lines(self, keys):
        blocks = [self.files[key[:2]].blocks[key[2]] for key in keys]
        bare = [line for block in blocks for line in block if line.strip() and not line.strip().startswith('--')]
        return sum(map(len, blocks)), len(bare)


def main():
    words = sys.argv[1:]
    if any(word not in ('--list', '--unused') for word in words):
        print(__doc__)
        return 2
    made = Definitions()
    print(f'{"a contract rests on":22}   files  definitions  lines  without comments  not for parse')
    rests = {name: made.closure(made.of_contracts(f'crates/{path}', function))
             for name, (path, function) in CALLS.items()}
    of_parse = rests['parse']
    for name, keys in rests.items():
        lines, more = made.lines(keys), made.lines(keys - of_parse)[1]
        print(f'{name:22}{len({key[:2] for key in keys}):8}{len(keys):13}{lines[0]:7}{lines[1]:18}{more:15}')
    for keys in (of_parse, rests['link'] - of_parse):
        print()
        for crate in sorted({key[0] for key in keys}):
            own = [key for key in keys if key[0] == crate]
            lines = made.lines(own)
            print(f'{crate:22}{len({key[1] for key in own}):8}{len(own):13}{lines[0]:7}{lines[1]:18}')
    if '--list' in words:
        print('\n'.join(sorted('.'.join(key) for key in of_parse)))
    if '--unused' in words:
        roots = [key for path in glob.glob('crates/*/src/**/*.rt', recursive=True) for key in made.of_contracts(path)]
        used = made.closure(roots)
        every = {(*file, name) for file, at in made.files.items() for name in at.blocks}
        print('\n'.join(sorted('.'.join(key) for key in every - used if '.formers.' not in f'.{key[1]}')))
        print(f'{len(every - used)} of {len(every)} are in no contract')
    return 0


if __name__ == '__main__':
    sys.exit(main())
