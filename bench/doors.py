#!/usr/bin/env python3
"""Prints what crates import of one another's proofs and inner definitions past a door.

usage: doors.py [--mend] [CRATE..]     at the top of the repository

A crate hands out its code, the definitions in specs/ but not those in specs/inner, and what stands in
proofs/Lemmas.antt: lemmas that other crates need, passed on by `pub use`. These are its doors. What else
others import of it can't be moved or renamed without them. For each crate, or for those that are named,
a line says how many such names there are, and in how many files; with a CRATE the names follow. The last
line is 'N names past a door'.

With --mend the proofs of these crates get their door: each name that others import is passed on by
proofs/Lemmas.antt, and the others import it from there. A name that stands in several modules is told, and
nothing is changed: it wants a name of its own first. A file that had several modules of a crate under
names of its own then has the door under several names, where one is allowed: that is mended by hand.
"""
import collections
import glob
import os
import re
import sys

IMPORT = re.compile(r'^((?:pub |ghost )*)use Rattle\.(\w+)\.(proofs|specs\.inner)\.([^ {;]+?)'
                    r'(?:\.\{(.*)\})?(?: as ([^ ;]+))?;?$')
# of code: `using(protox_lexeme::proofs::Cut::cut_is_cut)`
USING = re.compile(r'(?<![\w:])(\w+)::proofs::(\w+)::([\w-]+)')
HEAD = '-- What other crates need of these proofs.\n'
WIDTH = 100


def names_by(alias, text):
    """The names that a text looks up in a module by this other name of it."""
    return set(re.findall(rf'(?<![\w.-]){re.escape(alias)}\.([^\s(){{}}\[\],;]+)', text))


def imports_of(text):
    """Of each import of a proof or of an inner definition: its crate, its module and its name."""
    for found in filter(None, (IMPORT.match(line.strip()) for line in text.split('\n'))):
        _, crate, folder, module, names, alias = found.groups()
        words = names.split(',') if names is not None else names_by(alias or module.split('.')[-1], text)
        for word in words:
            yield crate, f'{folder}.{module}', word.strip().split(' as ')[0]
    for crate, module, name in USING.findall(text):
        yield crate, f'proofs.{module}', name


def read(path):
    with open(path, encoding='utf-8') as file:
        return file.read()


def write(path, text):
    with open(path, 'w', encoding='utf-8') as file:
        file.write(text)


def sources():
    """Each file of code, of definitions and of proofs, with the crate that it belongs to."""
    for path in sorted(glob.glob('crates/*/**/*', recursive=True)):
        if '/out/' not in path and path.endswith(('.antt', '.rt')):
            yield path, path.split(os.sep)[1]


def past_doors():
    """For each crate the names that others import past its doors, by module, and the files that do."""
    names, files = collections.defaultdict(lambda: collections.defaultdict(set)), collections.defaultdict(set)
    crates = set(os.listdir('crates'))
    for path, own in sources():
        for crate, module, name in imports_of(read(path)):
            if crate in crates and crate != own and module != 'proofs.Lemmas':
                names[crate][module].add(name)
                files[crate].add(path)
    return names, files


def lines_of(front, names, back='}'):
    """Imports of these names, as many to a line as there is room for."""
    lines, line = [], ''
    for name in sorted(names):
        more = f'{line}, {name}' if line else name
        if line and len(front) + len(more) + len(back) > WIDTH:
            lines.append(f'{front}{line}{back}')
            more = name
        line = more
    return lines + [f'{front}{line}{back}']


def clashes(modules):
    """The names that stand in several of the modules."""
    places = collections.defaultdict(list)
    for module, names in modules.items():
        for name in names:
            places[name].append(module)
    return {name: sorted(places[name]) for name in places if len(places[name]) > 1}


def passed_on(crate):
    """What the door of a crate passes on already, by module."""
    path, own = f'crates/{crate}/proofs/Lemmas.antt', collections.defaultdict(set)
    if os.path.exists(path):
        for _, module, name in imports_of(read(path)):
            own[module].add(name)
    return own


def make_door(crate, modules):
    """Writes the door of a crate, and puts it into the list of its modules."""
    lib = f'crates/{crate}/proofs/Lib.antt'
    order = [line.split()[-1] for line in read(lib).split('\n') if line.startswith('pub mod ')]
    if 'Lemmas' not in order:
        write(lib, read(lib).rstrip('\n') + '\npub mod Lemmas\n')
    place = {name: at for at, name in enumerate(order)}
    lines = []
    for module in sorted(modules, key=lambda it: (place.get(it.split('.')[1], len(place)), it)):
        lines += lines_of(f'pub use Rattle.{crate}.{module}.{{', modules[module])
    write(f'crates/{crate}/proofs/Lemmas.antt', HEAD + '\n'.join(lines) + '\n')


def through_door(text, own, crates):
    """The text of a file of crate `own` that imports proofs of these crates through their doors."""
    lines, at = [], {}
    for line in text.split('\n'):
        found = IMPORT.match(line.strip())
        if not found or found[3] != 'proofs' or found[2] not in crates or found[2] == own:
            lines.append(line)
            continue
        front, crate, _, _, names, alias = found.groups()
        end = ';' if line.rstrip().endswith(';') else ''
        if names is None:
            lines.append(f'{front}use Rattle.{crate}.proofs.Lemmas as {alias or found[4].split(".")[-1]}{end}')
            continue
        key = (front, crate, end)
        if key not in at:
            at[key] = (len(lines), [])
            lines.append('')
        at[key][1].extend(name.strip() for name in names.split(','))
    for (front, crate, end), (index, names) in at.items():
        lines[index] = '\n'.join(lines_of(f'{front}use Rattle.{crate}.proofs.Lemmas.{{', set(names), '}' + end))
    text = '\n'.join(lines)
    return USING.sub(lambda it: f'{it[1]}::proofs::Lemmas::{it[3]}' if it[1] in crates and it[1] != own else it[0], text)


def mend(names, chosen):
    """Gives the proofs of these crates their door."""
    doors = {}
    for crate in chosen:
        modules = passed_on(crate)
        for module, own in names[crate].items():
            if module.startswith('proofs.'):
                modules[module] |= own
        if modules:
            doors[crate] = modules
    wrong = {crate: clashes(modules) for crate, modules in doors.items() if clashes(modules)}
    for crate, found in wrong.items():
        print(*(f'{crate}: {name} stands in {" and ".join(modules)}' for name, modules in found.items()), sep='\n')
    if wrong:
        sys.exit(1)
    for crate, modules in doors.items():
        make_door(crate, modules)
    for path, own in sources():
        text = read(path)
        new = through_door(text, own, doors)
        if new != text:
            write(path, new)


def main():
    words = [word for word in sys.argv[1:] if word != '--mend']
    if any(word.startswith('-') for word in words) or not os.path.isdir('crates'):
        sys.exit(__doc__.strip())
    names, files = past_doors()
    if '--mend' in sys.argv:
        mend(names, words or sorted(names))
        names, files = past_doors()
    counts = {crate: sum(map(len, names[crate].values())) for crate in words or names}
    for crate in words or sorted(counts, key=lambda it: (-counts[it], it)):
        print(f'{crate}: {counts[crate]} names, in {len(files[crate])} files')
        if words:
            told = sorted(f'  {module} {name}' for module in names[crate] for name in names[crate][module])
            print('\n'.join(told), end='\n' if told else '')
    print(f'{sum(counts.values())} names past a door')


if __name__ == '__main__':
    main()
