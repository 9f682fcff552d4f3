"""Sets of .proto files for `linkcases`, and what protoc makes of them. It needs python3-protobuf."""
import collections
import os
import re
import subprocess
import sys

from google.protobuf import descriptor_pb2

TYPES = {number: name[5:].lower() for name, number in descriptor_pb2.FieldDescriptorProto.Type.items()}
PLACED = re.compile(r'([^:]+):(\d+):(\d+): (.*)')
CYCLE = re.compile(r'[^:]+:\d+:\d+: File recursively imports itself: (.*)')
# The numbers that begin or end a path.
NAME, PACKAGE, IMPORTS = 1, 2, 3
NUMBER = 3
DEFAULT = 7
# What is wrong with extensions, behind all else.
OF_EXTENSIONS = [(3, 'in no extension range'), (3, 'extension number used before'), (2, 'not of options')]
# The list of the reserved ranges of an enum.
IN_ENUM = 4
# What protoc says of a name that is used, and the words for it here.
OF_USES = [(re.compile(text), words) for text, words in (
    (r'"(.*)" is not defined\.', 'not defined'),
    (r'"(.*)" seems to be defined in ".*", which is not imported by ".*"\..*', 'not defined'),
    (r'"(.*)" is resolved to ".*", which is not defined\..*', 'not defined'),
    (r'"(.*)" is not a type\.', 'not a type'),
    (r'"(.*)" is not a message type\.', 'not a message'),
)]
# What protoc says at the place of a number or a range, and the words for it here.
OF_NUMBERS = [(re.compile(text), words) for text, words in (
    (r'Field number \d+ has already been used in ".*" by field ".*"\.', 'number used before'),
    (r'Extension range end number must be greater than start number\.', 'empty range'),
    (r'Field numbers 19000 through 19999 are reserved for .*\.', 'number for the implementation'),
    (r'Enums must contain at least one value\.', 'no value'),
    (r"Messages can't have default values\.", 'default of a message'),
    (r'Default value for an enum field must be an identifier\.', 'bad default'),
    (r'Enum type ".*" has no value named ".*"\.', 'no such value'),
    (r'Package name is too long', 'long package'),
    (r'Exceeds Maximum Package Depth', 'deep package'),
    (r'The first enum value must be zero in proto3\.', 'first value not zero'),
    (r'Extension ranges are not allowed in proto3\.', 'extensions in proto3'),
    (r'".*" does not declare \d+ as an extension number\.', 'in no extension range'),
    (r'Extension number \d+ has already been used in ".*" by extension ".*"\.', 'extension number used before'),
    (r'Extensions in proto3 are only allowed for defining options\.', 'not of options'),
)]
# What it says without a place, or at that of another part.
FOR_EXTENSIONS = re.compile(r'Extension range .* includes field "(.*)" \((\d+)\)\.')
RESERVED = re.compile(r'(?:Field|Enum value) "(.*)" uses reserved number (-?\d+)\.')
OVERLAPS = re.compile(r'(Reserved|Extension) range (-?\d+) to (-?\d+) overlaps with (already-defined|reserved) range .*\.')
BACKWARD = re.compile(r'Reserved range end number must be greater than start number\.')
# What it says in proto3 of names that are like others, at the name.
ALIKE = re.compile(r'The JSON camel-case name of field ".*" conflicts with field ".*"\. This is not allowed in proto3\.'
                   r'|Enum name .* has the same name as .* if you ignore case and strip out .*')
LIKE_ANOTHER = 'like another name'
# What it says of reserved names: of one that is reserved again, at the name of what reserves it.
RESERVED_AGAIN = re.compile(r'(?:Field name|Enum value) ".*" is reserved multiple times\.')
RESERVED_NAME = re.compile(r'(?:Field name|Enum value) ".*" is reserved\.')
AGAIN = 'name reserved before'
TWICE_ELSEWHERE = re.compile(r'"(.*)" is already defined in file "(.*)"\.')
TWICE_WITHIN = re.compile(r'"(.*)" is already defined in "(.*)"\.')
TWICE = re.compile(r'"(.*)" is already defined\.')
NO_PACKAGE = re.compile(r'"(.*)" is already defined \(as something other than a package\) in file "(.*)"\.')
NO_IMPORT = re.compile(r'Import "(.*)" was not found or had errors\.')
IMPORT_TWICE = re.compile(r'Import "(.*)" was listed twice\.')
# Told of a value besides, and of what nothing is told here.
SIBLINGS = ('Note that enum values use C++ scoping rules, meaning that enum values are siblings of their type, '
            'not children of it. ')
# What isn't checked here yet.
NOT_YET = re.compile(r'Enum type ".*" is not a proto3 enum, .*|Enum value in map must define 0 as the first value\.')
MORE = re.compile(r'Expanded map entry type .*|Suggested field numbers for .*')


class Unclear(Exception):
    """protoc tells a fault of one of several parts, and not of which; or one that isn't checked here yet."""


def within(scope, name):
    return f'{scope}.{name}' if scope else name


def is_told_again(error, after):
    """Whether the error behind this one tells the same of the same name in other words."""
    one = re.search(r'^(\S+) "(.*)" seems to be defined in', error)
    other = re.search(r'^(\S+) ".*" is resolved to "(.*)", which is not defined', after)
    return one and other and one[1] == other[1] and f'{other[2]}.'.startswith(f'{one[2]}.')


def sets_of(text):
    """Titles, and files as pairs of names and texts."""
    sets = []
    for line in text.splitlines():
        if line.startswith('== set '):
            sets.append((line[7:], []))
        elif line.startswith('== file '):
            sets[-1][1].append((line[8:], []))
        elif line != '== end':
            sets[-1][1][-1][1].append(line)
    return [(title, [(name, '\n'.join(lines + [''])) for name, lines in files]) for title, files in sets]


def written(title, files):
    """A set as `linkcases` reads it."""
    parts = [f'== set {title}\n']
    for name, text in files:
        parts += [f'== file {name}\n', text, '' if not text or text.endswith('\n') else '\n']
    return ''.join(parts + ['== end\n'])


# ---- declarations

# The lists of declarations in a descriptor, in the order of paths.
LISTS = {
    'FileDescriptorProto': ('message_type', 'enum_type', 'service', 'extension'),
    'DescriptorProto': ('field', 'nested_type', 'enum_type', 'extension', 'oneof_decl'),
    'EnumDescriptorProto': ('value',),
    'ServiceDescriptorProto': ('method',),
}
# The names that a declaration uses, in the order in which they are looked at.
USES = {'FieldDescriptorProto': ('type_name', 'extendee'), 'MethodDescriptorProto': ('input_type', 'output_type')}


def declarations(descriptor, scope, path=()):
    """All that is declared in a descriptor, in the order of paths: path, full name and descriptor."""
    for part in LISTS.get(descriptor.DESCRIPTOR.name, ()):
        number = descriptor.DESCRIPTOR.fields_by_name[part].number
        for index, inner in enumerate(getattr(descriptor, part)):
            inside, full = path + (number, index), within(scope, inner.name)
            yield inside, full, inner
            # the full name of a value is in the scope of its enum
            yield from declarations(inner, scope if part == 'enum_type' else full, inside)


def member(full, part):
    """The line of a linked field, an extension or a method; None for anything else."""
    kind = part.DESCRIPTOR.name
    if kind == 'MethodDescriptorProto':
        return f'method {full}: {part.input_type} to {part.output_type}'
    if kind != 'FieldDescriptorProto':
        return None
    line = f'{"extension" if part.HasField("extendee") else "field"} {full}: {TYPES[part.type]}'
    for word, name in (('', 'type_name'), ('extends ', 'extendee'), ('json ', 'json_name')):
        line += f' {word}{getattr(part, name)}' if part.HasField(name) else ''
    return line


def names_used(file):
    """How many names a file uses."""
    parts = [part for _, _, part in declarations(file, file.package)]
    return sum(part.HasField(name) for part in parts for name in USES.get(part.DESCRIPTOR.name, ()))


def linked_lines(made, names):
    """The lines of a set that protoc made, for files in the order of these names."""
    by_name = {file.name: file for file in made.file}
    lines = [' '.join(['order:'] + [file.name for file in made.file])]
    for name in names:
        file = by_name[name]
        members = (member(full, part) for _, full, part in declarations(file, file.package))
        lines += [f'file {name}', *(line for line in members if line)]
    count = sum(names_used(by_name[name]) for name in names)
    return lines + [f'names: {count} alike, 0 otherwise']


# ---- faults

# The faults of numbers and ranges that a declaration may have, in order: the list, the rest of the path, and
# the words.
NUMBERS = {
    'DescriptorProto': (
        ('field', (3,), 'number used before'), ('field', (3,), 'reserved number'),
        ('field', (3,), 'number for extensions'), ('extension_range', (), 'empty range'),
        ('reserved_range', (), 'range overlaps'),
        ('extension_range', (), 'range overlaps'), ('extension_range', (), 'reserved range')),
    'EnumDescriptorProto': (
        ('reserved_range', (), 'empty range'), ('value', (2,), 'reserved number'),
        ('reserved_range', (), 'range overlaps')),
}


# The part of a descriptor that is its number.
NUMBER_OF = {'FieldDescriptorProto': 3, 'EnumValueDescriptorProto': 2}


def numbers_in(path, part):
    """The faults of numbers and ranges that a declaration may have: paths and words."""
    yield path + (NAME,), 'no value'
    for name, rest, words in NUMBERS.get(part.DESCRIPTOR.name, ()):
        number = part.DESCRIPTOR.fields_by_name[name].number
        yield from ((path + (number, index) + rest, words) for index in range(len(getattr(part, name))))
    yield path + (NUMBER,), 'number for the implementation'


# The lists of what may have a reserved name.
NAMED = {'DescriptorProto': 'field', 'EnumDescriptorProto': 'value'}


def reserved_in(path, part):
    """The faults of reserved names that a declaration may have: paths and words."""
    yield path + (NAME,), AGAIN
    if name := NAMED.get(part.DESCRIPTOR.name):
        number = part.DESCRIPTOR.fields_by_name[name].number
        yield from ((path + (number, index, NAME), 'reserved name') for index in range(len(getattr(part, name))))


def in_proto3(path, part):
    """What may be wrong with a declaration in proto3 alone: paths and words."""
    if part.DESCRIPTOR.name == 'EnumDescriptorProto':
        yield path + (2, 0, 2), 'first value not zero'
    elif part.DESCRIPTOR.name == 'DescriptorProto':
        yield path + (5, 0), 'extensions in proto3'
    if name := NAMED.get(part.DESCRIPTOR.name):
        number = part.DESCRIPTOR.fields_by_name[name].number
        yield from ((path + (number, index, NAME), LIKE_ANOTHER) for index in range(len(getattr(part, name))))


class Faults:
    """Makes lines of what protoc tells of one file. What protobuf's parser makes of the file has the paths
    of parts by their places. Where protoc gives no place, as for a map's entry, paths are found by the
    name."""

    def __init__(self, parser, folder, name, known):
        done = subprocess.run([parser, os.path.join(folder, name), '--places'], capture_output=True, check=False)
        if done.returncode:
            sys.exit(f'{name} is refused by the parser')
        self.name, self.known = name, known
        self.file = descriptor_pb2.FileDescriptorProto.FromString(done.stdout)
        self.declared = list(declarations(self.file, self.file.package))
        self.places = {tuple(location.path): tuple(location.span[:2])
                       for location in self.file.source_code_info.location}
        self.uses = {}
        for path, _, part in self.declared:
            for name in USES.get(part.DESCRIPTOR.name, ()):
                if part.HasField(name):
                    self.uses[path + (part.DESCRIPTOR.fields_by_name[name].number,)] = getattr(part, name)
        self.twice, self.nowhere = collections.Counter(), collections.Counter()
        self.several = collections.Counter()
        # what protoc tells of each fault
        self.texts = collections.defaultdict(list)
        self.notes = set()

    def add(self, path, words, text):
        """Adds a fault. Of one name protoc may say two things."""
        texts = self.texts[path, words]
        if text not in texts and not (texts and 'overlaps' in text):
            texts.append(text)

    def add_imports(self, name, words, first, text):
        """Adds a fault of the imports of this name, but for the first ones. protoc has the place of the
        last of them alone."""
        paths = [(IMPORTS, index) for index, other in enumerate(self.file.dependency) if other == name]
        for path in paths[first:]:
            self.add(path, words, text)

    def use_at(self, place):
        """The first path of a use at a place. Of extensions of one block protoc has the place of what the
        first one extends. The value of a map has none, or that of something else."""
        return next((path for path in self.uses if self.places.get(path) == place), None) if place else None

    def is_meant(self, path, name, is_full):
        """Whether what is told of a name may be told of a use. A full name may be told of its first part."""
        used = self.uses[path]
        parts = used.lstrip('.').split('.')
        fronts = ('.' + '.'.join(parts[:n + 1]) for n in range(len(parts)))
        return any(f'.{name}'.endswith(front) for front in fronts) if is_full else used == name

    def part_at(self, place):
        """The shortest path of a part at a place."""
        return min((path for path, start in self.places.items() if start == place), key=len)

    def name_at(self, place):
        """The shortest path of a name at a place. A path of even length ends with an index."""
        return min((path for path, start in self.places.items()
                    if start == place and path[-1:] == (NAME,) and len(path) % 2), key=len)

    def numbered(self, name, number):
        """The paths of the numbers of the fields and values with a name and a number."""
        for path, _, part in self.declared:
            kind = part.DESCRIPTOR.name
            if kind in NUMBER_OF and (part.name, part.number) == (name, number):
                yield path + (NUMBER_OF[kind],)

    def ranges(self, kind):
        """The ranges of a kind: path, first number and last number."""
        for path, _, part in self.declared:
            field = part.DESCRIPTOR.fields_by_name.get(f'{kind}_range')
            beyond = 1 if part.DESCRIPTOR.name == 'DescriptorProto' else 0
            for index, range_ in enumerate(getattr(part, field.name) if field else ()):
                yield path + (field.number, index), range_.start, range_.end - beyond

    def among(self, place, text):
        """The words for what is told of a number or a range without its place, and the paths that it may be
        told of."""
        if found := FOR_EXTENSIONS.fullmatch(text) or RESERVED.fullmatch(text):
            words = 'number for extensions' if place else 'reserved number'
            return words, list(self.numbered(found[1], int(found[2])))
        if found := OVERLAPS.fullmatch(text):
            words = 'reserved range' if found[4] == 'reserved' else 'range overlaps'
            return words, [path for path, first, last in self.ranges(found[1].lower())
                           if (first, last) == (int(found[2]), int(found[3]))]
        return 'empty range', [path for path, first, last in self.ranges('reserved')
                               if last < first and BACKWARD.fullmatch(text) and path[-2] == IN_ENUM]

    def take(self, place, text, before):
        """Takes an error; the place is None where protoc tells none. `before` has what was told of the same
        name just before."""
        for rule, words in OF_USES:
            if found := rule.fullmatch(text):
                path, is_full = self.use_at(place), 'seems to be' in text
                if path and self.is_meant(path, found[1], is_full):
                    for told in before + [text]:
                        self.add(path, f'{words}: {self.uses[path]}', told)
                else:
                    self.nowhere[words, found[1], is_full, tuple(before + [text])] += 1
                return
        for rule, words in OF_NUMBERS:
            if rule.fullmatch(text):
                return self.add(self.part_at(place), words, text)
        if RESERVED_AGAIN.fullmatch(text):
            # one name may be told several times
            return self.texts[self.name_at(place), AGAIN].append(text)
        if ALIKE.fullmatch(text):
            return self.add(self.name_at(place), LIKE_ANOTHER, text)
        if RESERVED_NAME.fullmatch(text):
            return self.add(self.name_at(place), 'reserved name', text)
        words, paths = self.among(place, text)
        if paths:
            self.several[text, words, tuple(paths)] += 1
        elif found := TWICE_ELSEWHERE.fullmatch(text):
            self.twice[found[1], found[2], text] += 1
        elif found := TWICE_WITHIN.fullmatch(text):
            self.twice[f'{found[2]}.{found[1]}', self.name, text] += 1
        elif found := TWICE.fullmatch(text):
            self.twice[found[1], self.name, text] += 1
        elif text.startswith(SIBLINGS):
            self.notes.add(text)
        else:
            self.take_import(text)

    def take_import(self, text):
        """Takes an error of an import or of the package."""
        if found := NO_PACKAGE.fullmatch(text):
            self.add((PACKAGE,), f'not a package: .{found[1]} in {found[2]}', text)
        elif found := NO_IMPORT.fullmatch(text):
            if found[1] not in self.known:
                self.add_imports(found[1], 'missing import', 0, text)
        elif found := IMPORT_TWICE.fullmatch(text):
            # a missing file is told missing alone
            if found[1] in self.known:
                self.add_imports(found[1], 'repeated import', 1, text)
        elif NOT_YET.fullmatch(text):
            raise Unclear(f'{self.name}: not checked yet: {text}')
        elif not MORE.fullmatch(text):
            sys.exit(f'{self.name}: no rule for: {text}')

    def add_twice(self):
        """Of equal names protoc tells all but the one that it takes first: oneofs, fields, enums and then
        messages. Here it is the first in the order of paths."""
        for (full, file, text), count in self.twice.items():
            paths = [path for path, name, _ in self.declared if name == full]
            paths = paths[1:] if file == self.name else paths
            if len(paths) != count:
                sys.exit(f'{self.name}: {full} is told {count} times')
            for path in paths:
                self.add(path + (NAME,), f'already defined: .{full} in {file}', text)
        self.add_notes()

    def add_notes(self):
        """Adds why a value clashes, unless it does with another value of its enum. protoc tells this of the
        values that it tells twice. Where a name is declared as a value and as something else, that may be
        another part than here, and then the text is made here, in protoc's words. Else it has to be
        protoc's own."""
        made = {}
        for path, full, part in self.declared:
            if part.DESCRIPTOR.name != 'EnumDescriptorProto':
                continue
            number = part.DESCRIPTOR.fields_by_name['value'].number
            scope, names = full[:-len(part.name)].rstrip('.'), [value.name for value in part.value]
            where = f'"{scope}"' if scope else 'the global scope'
            for index, name in enumerate(names):
                texts = [texts for (at, words), texts in self.texts.items()
                         if at == path + (number, index, NAME) and words.startswith('already defined')]
                note = f'{SIBLINGS} Therefore, "{name}" must be unique within {where}, not just within "{part.name}".'
                if name in names[:index]:
                    continue
                made[note] = (within(scope, name), bool(texts))
                if texts:
                    texts[0].append(note)
        for note, (full, is_told) in made.items():
            kinds = {part.DESCRIPTOR.name for _, name, part in self.declared if name == full}
            if is_told != (note in self.notes) and kinds == {'EnumValueDescriptorProto'}:
                sys.exit(f'{self.name}: protoc tells otherwise: {note}')
        if unknown := self.notes - set(made):
            sys.exit(f'{self.name}: no such value: {unknown}')

    def add_several(self):
        """What is told as often as there are parts that it may be told of is told of each."""
        for (text, words, paths), count in self.several.items():
            if len(paths) != count:
                raise Unclear(f'{self.name}: {count} times without a place: {text}')
            for path in paths:
                self.add(path, words, text)

    def add_nowhere(self):
        told = {path for path, _ in self.texts}
        for (words, name, is_full, texts), count in sorted(self.nowhere.items(), key=lambda item: item[0][2]):
            paths = [path for path in self.uses if self.is_meant(path, name, is_full)
                     and path not in told and path != self.use_at(self.places.get(path))]
            if len(paths) != count:
                raise Unclear(f'{self.name}: {name} is told {count} times without a place')
            for path in paths:
                for text in texts:
                    self.add(path, f'{words}: {self.uses[path]}', text)
                told.add(path)

    def lines(self):
        """The lines in the order of imports, the package, and declarations: first the name of each, then
        its numbers, the names that it reserves, and then what it uses. Then comes what is wrong in proto3
        alone, and at the end what is wrong with extensions. Below each line stands what protoc tells."""
        self.add_twice()
        self.add_several()
        self.add_nowhere()
        order = [(IMPORTS, index) for index in range(len(self.file.dependency))] + [(PACKAGE,)]
        for path, _, part in self.declared:
            order += [path + (NAME,), *numbers_in(path, part), *reserved_in(path, part)]
            order += [use for use in self.uses if use[:-1] == path] + [path + (DEFAULT,)]
        for path, _, part in self.declared:
            order += in_proto3(path, part)
        extensions = [path for path, _, part in self.declared if hasattr(part, 'extendee') and part.extendee]
        for tag, words in OF_EXTENSIONS:
            order += [(path + (tag,), words) for path in extensions]
        place = {path: index for index, path in enumerate(order)}
        lines = []
        for path, words in sorted(self.texts, key=lambda fault: place.get(fault, place.get(fault[0]))):
            fault, texts = f'{self.name} {".".join(map(str, path))} {words}', self.texts[path, words]
            for told in [texts[n:n + 1] for n in range(len(texts))] if words == AGAIN else [texts]:
                lines += [fault, *(f'  {text}' for text in told)]
        return lines


class Protoc:
    """Runs protoc on a set in a folder."""

    def __init__(self, program, parser, folder):
        self.program, self.parser, self.folder = program, parser, folder

    def write(self, files):
        for name, text in files:
            path = os.path.join(self.folder, name)
            os.makedirs(os.path.dirname(path), exist_ok=True)
            with open(path, 'w', encoding='utf-8') as out:
                out.write(text)

    def run(self, names):
        """The errors for files that are given in this order. Without any there is a set."""
        done = subprocess.run([self.program, f'-I{self.folder}', '--include_imports', f'-o{self.folder}/set', *names],
                              capture_output=True, text=True, check=False)
        lines = [line for line in done.stderr.split('\n')
                 if line and 'warning:' not in line and not line.startswith('[libprotobuf WARNING')]
        if done.returncode and not lines:
            sys.exit(f'protoc ends with {done.returncode} and says nothing')
        return lines

    def set(self):
        with open(os.path.join(self.folder, 'set'), 'rb') as data:
            return descriptor_pb2.FileDescriptorSet.FromString(data.read())

    def faults_of(self, name, errors, known):
        """The lines of the faults of one file."""
        faults, before = Faults(self.parser, self.folder, name, known), []
        for error, after in zip(errors, errors[1:] + ['']):
            if error.endswith(': File not found.'):
                continue
            part = PLACED.fullmatch(error)
            if is_told_again(error, after):
                if not part:
                    raise Unclear(f'{name}: without a place: {error}')
                before = [part[4]]
            elif part:
                if part[1] == name:
                    faults.take((int(part[2]) - 1, int(part[3]) - 1), part[4], before)
                before = []
            elif error.startswith(f'{name}: '):
                faults.take(None, error[len(name) + 2:], before)
                before = []
            elif not any(error.startswith(f'{other}: ') for other in known):
                sys.exit(f'no file: {error}')
        return faults.lines()

    def faults(self, names):
        """The lines of faults. protoc ends at the first file that is faulty, so it is run for each file
        with those before it that are not."""
        right, lines = [], []
        for name in names:
            if errors := self.run(right + [name]):
                lines += self.faults_of(name, errors, names)
            else:
                right.append(name)
        return lines

    def ask(self, files):
        """The lines that a set is answered with."""
        names = [name for name, _ in files]
        self.write(files)
        errors = self.run(names)
        if not errors:
            return linked_lines(self.set(), names)
        for error in errors:
            if found := CYCLE.fullmatch(error):
                # a circle is told alone, at the imports of its last file; protoc tells it at an import of
                # the first one, and then that each import of the circle has errors
                circle = found[1].split(' -> ')[:-1]
                return [f'{circle[-1]} {IMPORTS} cycle: {" ".join(circle)}',
                        f'  File recursively imports itself: {found[1]}']
        return self.faults(names)
