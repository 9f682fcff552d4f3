#!/usr/bin/env python3
"""Lays what two checkouts offer side by side, and prints what is gone or changed in the new one.

usage: surface.py [--private] OLD NEW

Of each crate: the `pub` items of src/ (functions with their clauses; structs with their public fields;
enums, traits, constants, types, re-exports, modules), its derives, its `impl Trait for Type` with their
clauses and models; and the definitions of specs/. Of a function each `ensures` is an item of its own, so
a new one is not a change; a new `requires` is. `pub(crate)` is private. What no caller sees is left out:
an item of a private module that no `pub use` of the crate hands out, and a definition that no public item
and no other definition cites. With --private it is shown too, marked `(private module)` and `(not cited)`.
A definition without `pub` is marked `(not pub)`. Texts are compared word for word, without comments, white space and trailing commas. A word
may be the same and yet mean another thing: so of each file it is compared where the imported words come
from that its items use. Of the edits (crates/*/must-fail, bench/edits) the names are compared.

What stands elsewhere with the same text is said to be moved, and counts as changed. What is new is
not printed. The last line is 'N gone, M changed'.
"""
import collections
import glob
import os
import re
import sys

CLAUSE = re.compile(r'(requires|ensures)\*?(\s+[^\s{}();,]+)?\s*$')
STRING_OR_COMMENT = re.compile(r'''//[^\n]*|/\*.*?\*/|b?"(?:\\.|[^"\\])*"|b?'(?:\\[^']+|[^'\\])\'''', re.S)
CLOSED = {'(': ')', '[': ']', '{': '}'}
WORD = re.compile(r'[^\s(){}\[\],;:.&<>=]+')
PRIVATE, NOT_CITED = ' (private module)', ' (not cited)'


def normal(text):
    """The text with white space made equal, and no comma before a bracket that closes."""
    return re.sub(r',\s*([)}\]>])', r'\1', ' '.join(re.sub(r'([(){}\[\],;])', r' \1 ', text).split()))


def without_comments(text):
    return STRING_OR_COMMENT.sub(lambda it: ' ' if it[0][:2] in ('//', '/*') else it[0], text)


def masked(text):
    """The text with each string and character as blanks, so that brackets in it don't count."""
    return STRING_OR_COMMENT.sub(lambda it: ' ' * len(it[0]), text)


def behind(mask, at):
    """The place behind the bracket that closes the one here."""
    depth = 0
    while True:
        depth += (mask[at] in CLOSED) - (mask[at] in CLOSED.values())
        at += 1
        if depth == 0:
            return at


def items(text):
    """The items of a file or of a block: for each its attributes, its head, and its body if it has one."""
    mask, at = masked(text), 0
    while True:
        attributes = []
        while mask[at:at + 1].isspace() or mask[at:at + 1] == '#':
            start = at
            at = at + 1 if mask[at].isspace() else behind(mask, mask.index('[', at))
            attributes.append(text[start:at].strip())
        if at >= len(text):
            return
        start, body = at, None
        word = re.match(r'(?:pub(?:\([^)]*\))?\s+)?(\w+)', text[at:])
        closes_by_mark = word and word[1] in ('use', 'ghost', 'const', 'static', 'type')
        while at < len(text) and mask[at] != ';':
            if mask[at] == '{' and not closes_by_mark and not CLAUSE.search(text[start:at]):
                body = at
                break
            at = behind(mask, at) if mask[at] in CLOSED else at + 1
        end = at if body is None else behind(mask, body)
        yield attributes, text[start:at], None if body is None else text[body + 1:end - 1]
        at = end + 1 if body is None else end


def leaves(text, before=''):
    """The names that an import brings in, and the path of each."""
    text = text.strip()
    if '{' in text:
        front, _, rest = text.partition('{')
        inner, mask, start, depth = rest[:rest.rindex('}')], masked(rest), 0, 0
        for at, mark in enumerate(inner + ','):
            depth += (mark == '{') - (mark == '}')
            if mark == ',' and depth == 0:
                if inner[start:at].strip():
                    yield from leaves(inner[start:at], before + front.strip())
                start = at + 1
        return
    path, _, name = text.partition(' as ')
    path = (before + path.strip()).removesuffix('::self')
    yield name.strip() or re.split(r'::|\.', path)[-1], path


class Surface:
    """What a checkout offers: for each key its texts."""

    def __init__(self, top):
        self.texts = collections.defaultdict(list)
        # Where each definition is, the paths that a text cites, and the paths that a `pub use` hands on.
        self.defined, self.cited, self.handed_on = {}, set(), {}
        for crate in sorted(os.listdir(f'{top}/crates')):
            if os.path.isdir(f'{top}/crates/{crate}/src'):
                self.sources(top, crate)
            for path in sorted(glob.glob(f'{top}/crates/{crate}/specs/**/*.antt', recursive=True)):
                self.definitions(crate, os.path.relpath(path, f'{top}/crates/{crate}'), path)
        edits = glob.glob(f'{top}/crates/*/must-fail/*.edit') + glob.glob(f'{top}/bench/edits/*/*.edit')
        self.edits = {os.path.relpath(path, top) for path in edits}

    def add(self, key, text):
        if normal(text) not in self.texts[key]:
            self.texts[key].append(normal(text))

    # ---- specs/

    def definitions(self, crate, place, path):
        with open(path, encoding='utf-8') as file:
            text = re.sub(r'(^|\s)--.*', '', file.read())
        head = r'^(?=(?:abbrev|unfoldable|opaque|pub|data|record|use|module)\b|  (?:abbrev|unfoldable|opaque)\b)'
        parts, front = re.split(head, text, flags=re.M), ''
        words = dict(leaf for part in parts if part.startswith('use') for leaf in leaves(part[4:]))
        for part in parts:
            # What stands in a module with parameters has them before it.
            front = part if part.startswith('module') else front if part.startswith(' ') else ''
            part = part.strip()
            if re.match(r'(\w+ )?mutual\b', part):
                kind, *inner = re.split(r'^  (?=(?:pub )?[^\s(]+ : )', part, flags=re.M)
                for one in inner:
                    self.definition(f'{crate}/{place}', kind.split()[0] + ' ' + one, words, front)
            elif part and not part.startswith(('use', 'module')):
                self.definition(f'{crate}/{place}', part, words, front)

    def definition(self, place, part, words, front):
        head = re.match(r'(?:(?:abbrev|unfoldable|opaque)\s+)?(pub\s+)?((?:data|record|use|mod)\s+)?(\S+)', part)
        if not head:
            return
        name = f'{head[2] or ""}{head[3]}' if head[2] in ('use ', 'mod ') else head[3]
        key = f'{place} {name}' + ('' if head[1] else ' (not pub)')
        self.add(key, f'{front} {part}')
        module = 'Rattle.' + place.removesuffix('.antt').replace('/', '.').removesuffix('.Lib')
        if head[2] == 'use ':
            self.handed_on.update({f'{module}.{it}': path for it, path in leaves(part.split(None, 2)[2])})
        elif head[2] != 'mod ':
            self.defined[key] = f'{module}.{name}'
        self.words(place, part, words)
        # A definition of the same file is cited by its name alone; the one that is defined here isn't cited.
        self.cited |= {f'{module}.{word}' for word in set(WORD.findall(part)) - {name} - set(words)}

    def words(self, place, text, words):
        """Where the imported words come from that stand in the text."""
        found = set(WORD.findall(text))
        for word in found & set(words):
            self.add(f'{place} [the word {word}]', words[word])
            self.cited.add(words[word])
        for front, word in re.findall(r'([^\s(){}\[\],;:.&<>=]+)\.([^\s(){}\[\],;:.&<>=]+)', text):
            if front in words:
                self.cited.add(f'{words[front]}.{word}')

    def not_cited(self):
        """The keys of the definitions that no public item and no other definition cites."""
        cited = set()
        for path in self.cited:
            while path not in cited:
                cited.add(path)
                module, _, word = path.rpartition('.')
                path = self.handed_on.get(path) or f'{self.handed_on.get(module, module)}.{word}'
        return {key for key, path in self.defined.items() if path not in cited}

    # ---- src/

    def sources(self, top, crate):
        modules, folder = {}, f'{top}/crates/{crate}/src'
        for path in sorted(glob.glob(f'{folder}/**/*.rt', recursive=True)):
            place = os.path.relpath(path, folder)[:-3].split('/')
            place = tuple(place[:-1] if place[-1] in ('lib', 'main', 'mod') else place)
            with open(path, encoding='utf-8') as file:
                modules[place] = list(items(without_comments(file.read())))
        shown = {place + (head.split()[-1],) for place, inner in modules.items()
                 for _, head, body in inner if re.match(r'pub\s+mod\s', head)}
        is_open = {place: all(place[:n] in shown for n in range(1, len(place) + 1)) for place in modules}
        handed = collections.defaultdict(set)
        for place, inner in modules.items():
            for _, head, _ in inner:
                if re.match(r'pub\s+use\s', head) and is_open[place]:
                    for name, path in leaves(head.split(None, 2)[2]):
                        handed[tuple(path.split('::')[-2:])].add('::'.join((crate, *place, name)))
        self.hidden = hidden_in(modules, is_open, handed)
        for place, inner in modules.items():
            for item in inner:
                self.item(crate, place, is_open[place], handed, *item)
            words = {name: path for _, head, _ in inner for name, path in imports(head)}
            public = ' '.join(head for _, head, body in inner for head in promises(head, body))
            self.words('::'.join((crate, *place)), public, words)

    def item(self, crate, place, is_open, handed, attributes, head, body):
        """Adds an item of a module, under each name by which other crates reach it."""
        head = ' '.join(head.split())
        implements = re.match(r'(?:unsafe )?impl\b', head)
        named = re.match(r'pub (?:unsafe |const |extern "C" )*(fn|struct|enum|trait|const|static|type|mod) (\w+)', head)
        use = re.match(r'pub use (.*)', head)
        if use:
            for name, path in leaves(use[1]):
                self.add('::'.join((crate, *place, name)) + ('' if is_open else PRIVATE) + ' (use)',
                         path.split('::')[-1] if path.split('::')[0] in ('crate', 'self', 'super') or path in handed
                         else path)
        elif implements:
            self.implementation('::'.join((crate, *place)), head, body)
        elif named:
            names = ['::'.join((crate, *place, named[2]))] if is_open else []
            names += handed_out(handed, place, named[2])
            for name in names or ['::'.join((crate, *place, named[2])) + PRIVATE]:
                self.named(re.sub(r'\*(?=$| )', named[2], name), named[1], attributes, head, body)

    def named(self, name, kind, attributes, head, body):
        if kind == 'fn':
            self.function(name, head)
        elif kind == 'trait':
            self.add(f'{name} (trait)', head)
            for _, inner, _ in items(body or ''):
                self.function(f'{name}::{name_of(inner)}', inner)
        elif kind == 'struct':
            fields = fields_of(body) if body is not None else []
            public = [field for field in fields if re.match(r'pub\s', field)]
            shown = public + ['..'] * (len(public) < len(fields))
            self.add(f'{name} (struct)', f'{head} {{ {", ".join(shown)} }}')
        else:
            self.add(f'{name} ({kind})', head if body is None else f'{head} {{ {body} }}')
        for derived in re.findall(r'derive\((.*?)\)', ' '.join(attributes), flags=re.S):
            for one in filter(None, map(str.strip, derived.split(','))):
                self.add(f'{name} (derive {one})', '')

    def implementation(self, place, head, body):
        of_trait = re.search(r' for (?!<)', head)
        # The crate is enough of a place: it doesn't matter in which module an impl stands.
        name = f'{place.split("::")[0]} {normal(head)}'
        if self.hidden & set(re.findall(r'\w+', head.partition(' where ')[0])):
            name += PRIVATE
        if of_trait:
            self.add(name, '')
        for _, inner, block in items(body):
            inner = ' '.join(inner.split())
            if of_trait or re.match(r'pub\s', inner):
                if not re.match(r'ghost use\b', inner):
                    self.function(f'{name} :: {name_of(inner)}', inner)

    def function(self, name, head):
        """Adds a function: what it asks as one item, and each promise as one of its own."""
        mask, at, start, asked, count = masked(head), 0, 0, '', 0
        while at < len(head):
            clause = CLAUSE.search(head[start:at]) if mask[at] == '{' else None
            if clause:
                begin, end = start + clause.start(), behind(mask, at)
                asked += head[start:begin]
                if clause[1] == 'ensures':
                    count += 1
                    self.add(f'{name} ensures{clause[2] or ""}', head[begin:end])
                else:
                    asked += head[begin:end]
                start = at = end
            else:
                at = behind(mask, at) if mask[at] in CLOSED else at + 1
        self.add(name, asked + head[start:])


def handed_out(handed, place, name):
    """The public names that `pub use` lines give to an item of a module."""
    tail = place[-1] if place else 'crate'
    return sorted(handed.get((tail, name), set()) | handed.get((tail, '*'), set()))


def hidden_in(modules, is_open, handed):
    """The types and traits of a crate that other crates can't name."""
    hidden, shown = set(), set()
    for place, inner in modules.items():
        for _, head, _ in inner:
            named = re.match(r'(pub\s+)?(?:pub\([^)]*\)\s+)?(?:unsafe\s+)?(?:struct|enum|trait|type)\s+(\w+)', head)
            if named:
                reached = named[1] and (is_open[place] or handed_out(handed, place, named[2]))
                (shown if reached else hidden).add(named[2])
    return hidden - shown


def name_of(head):
    found = re.search(r'\b(?:fn|type|const|ghost)\s+([^\s(<=:]+)', head)
    return found[1] if found else head


def fields_of(body):
    return [field.strip() for field in re.split(r',(?![^<(\[]*[>)\]])', re.sub(r'#\[.*?\]', '', body)) if field.strip()]


def imports(head):
    found = re.match(r'(?:pub\s+)?(?:ghost\s+)?use\s+(.*)', head, re.S)
    return leaves(found[1]) if found else []


def promises(head, body):
    """The texts of an item that a caller reads."""
    if re.match(r'(?:unsafe\s+)?impl\b', head):
        inner = [one for _, one, _ in items(body)]
        return [head] + [one for one in inner if ' for ' in head or re.match(r'pub\s', one)]
    return [head + (body or '' if ' fn ' not in f'{head} ' else '')] if re.match(r'pub\s+(?!use)', head) else []


def elsewhere(surface, key, texts):
    """Where the new checkout has this text under the same last name, if anywhere."""
    last = re.split(r'::|(?<=\.antt) ', key)[-1]
    if key.endswith(('(mod)', '(use)')) or ' mod ' in key:
        return []
    return [it for it, found in surface.texts.items() if it != key and re.split(r'::|(?<=\.antt) ', it)[-1] == last
            and set(texts) <= set(found) and any(texts)]


def say(what, key, old, new):
    print(f'{what} {key}')
    for name, texts in (('old', old), ('new', new)):
        for text in filter(None, texts):
            print(f'  {name}: {text}')


def compare(old, new, with_private):
    gone, changed, not_cited = 0, 0, old.not_cited()
    for key, texts in old.texts.items():
        if not with_private and (PRIVATE in key or key in not_cited):
            continue
        lost = [text for text in texts if text not in new.texts.get(key, [])]
        if not lost or ('[the word' in key and key not in new.texts):
            continue
        moved = [] if key in new.texts else elsewhere(new, key, texts)
        if key in new.texts:
            say('CHANGED', key, lost, [text for text in new.texts[key] if text not in texts])
        else:
            mark = NOT_CITED if key in not_cited else ''
            say(f'MOVED to {moved[0]}:' if moved else 'GONE', key + mark, lost, [])
        gone, changed = gone + (key not in new.texts and not moved), changed + (key in new.texts or bool(moved))
    for edit in sorted(old.edits - new.edits):
        moved = [it for it in new.edits if os.path.basename(it) == os.path.basename(edit)]
        print(f'MOVED to {moved[0]}: {edit}' if moved else f'GONE {edit}')
        gone, changed = gone + (not moved), changed + bool(moved)
    print(f'{gone} gone, {changed} changed')
    return 1 if gone or changed else 0


if __name__ == '__main__':
    checkouts = [word for word in sys.argv[1:] if word != '--private']
    if len(checkouts) != 2:
        sys.exit(__doc__)
    sys.exit(compare(*map(Surface, checkouts), '--private' in sys.argv))
