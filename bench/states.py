#!/usr/bin/env python3
"""Prints the states of the grammar, and sources that hold each of them with each token behind it.

usage: states.py                            prints for each state a shortest text that leads there
       states.py --sources FOLDER [--bad]   writes sources into the folder, and prints how many

A state is a place in a rule of the grammar: what stands before it is read, and what stands behind
it is wanted. A rule that others name has its places once for each place where it is named. Places
with one text before them are one state. For each state there is a source that ends there, and one
for each token behind it: each keyword, another name, each mark, an integer, a float and a string.
With --bad there are more, in which an invalid character follows. Their names are numbers;
FOLDER/index.txt has a line for each.

So the answers of this parser can be held beside those of another one: of `protoscan FILE`, say, and
of `protoc --descriptor_set_out=/dev/null FILE`.

The grammar is that of the language's specifications of proto2 and proto3. Keyword rules are left
out: the texts have names that are no keywords.
"""
import os
import re
import sys

GRAMMAR = r"""
file       = syntax? statement*
syntax     = "syntax" "=" string+ ";"
statement  = ";" | import | package | option | extend | message | enum | service
import     = "import" ("weak" | "public")? string+ ";"
package    = "package" fullident ";"
fullident  = ident ("." ident)*
typename   = "."? fullident
option     = "option" body ";"
body       = part ("." part)* "=" value
part       = ident | "(" typename ")"
value      = "-"? (ident | integer | float) | string+ | "{" balanced* "}"
balanced   = ident | "{" balanced* "}"
list       = "[" body ("," body)* "]"
int        = "-"? integer
message    = "message" ident mbody
mbody      = "{" element* "}"
element    = ";" | field | oneof | enum | message | extend | option | reserved | extensions
field      = ("optional" | "required" | "repeated")? (normal | map | group)
normal     = type ident "=" int list? ";"
map        = "map" "<" type "," type ">" ident "=" int list? ";"
group      = "group" ident "=" int list? mbody
type       = scalar | typename
oneof      = "oneof" ident "{" (";" | option | field)* "}"
extend     = "extend" typename "{" (";" | field)* "}"
enum       = "enum" ident "{" (";" | option | ereserved | evalue)* "}"
evalue     = ident "=" int list? ";"
reserved   = "reserved" (range ("," range)* | string+ ("," string+)*) ";"
ereserved  = "reserved" (range ("," range)* | string+ ("," string+)*) ";"
extensions = "extensions" range ("," range)* list? ";"
range      = int ("to" (int | "max"))?
service    = "service" ident "{" (";" | option | rpc)* "}"
rpc        = "rpc" ident "(" "stream"? typename ")" "returns" "(" "stream"? typename ")" rpcend
rpcend     = ";" | "{" (";" | option)* "}"
"""
# How a token of each kind is written; `scalar` is one of the 15 words from `double` to `bytes`.
WRITTEN = {'ident': 'x', 'integer': '1', 'float': '1.5', 'string': "'a'", 'scalar': 'int32'}
MARKS = '. - + ( ) { } [ ] < > , = : ; /'.split()
WORDS = """syntax package import weak public enum option service rpc stream returns extend message optional
required repeated map oneof group double float int32 int64 uint32 uint64 sint32 sint64 fixed32 fixed64
sfixed32 sfixed64 bool string bytes reserved extensions to max""".split()
NEXT = list(dict.fromkeys(WORDS + MARKS + list(WRITTEN.values())))
PART = re.compile(r'"[^"]*"|[a-z]+|[()|?*+]')


def choice(parts):
    """Reads alternatives: each is a list of pairs of a symbol and how often it stands (``, ?, *, +)."""
    found = [[]]
    while parts and parts[0] != ')':
        part = parts.pop(0)
        if part == '|':
            found.append([])
            continue
        if part == '(':
            part = choice(parts)
            parts.pop(0)
        often = parts.pop(0) if parts and parts[0] in '?*+' else ''
        found[-1].append((part, often))
    return found


def rules():
    texts = re.split(r'^([a-z]+) +=', GRAMMAR, flags=re.M)[1:]
    return {name: choice(PART.findall(text)) for name, text in zip(texts[::2], texts[1::2])}


def shorter(one, other):
    """The shorter of two lists of tokens, where None is longer than any."""
    return other if one is None or (other is not None and len(other) < len(one)) else one


class Grammar:
    """The rules, the shortest spelling of each, and the shortest beginning that leads to each."""

    def __init__(self):
        self.rules, self.spelled, self.fronts = rules(), {}, {'file': []}
        before = None
        while before != (self.spelled, self.fronts):
            before = dict(self.spelled), dict(self.fronts)
            self.spelled.update({name: self.spell(self.rules[name]) for name in self.rules})
            for name, front in list(self.fronts.items()):
                for symbol, place in self.places(self.rules[name], front):
                    if symbol in self.rules:
                        self.fronts[symbol] = shorter(self.fronts.get(symbol), place)

    def spell(self, symbol):
        """The shortest tokens of a symbol, or None as long as they are not known."""
        if isinstance(symbol, list):
            best = None
            for alternative in symbol:
                parts = [[] if often in ('?', '*') else self.spell(it) for it, often in alternative]
                best = shorter(best, None if None in parts else sum(parts, []))
            return best
        if symbol.startswith('"'):
            return [symbol.strip('"')]
        return [WRITTEN[symbol]] if symbol in WRITTEN else self.spelled.get(symbol)

    def places(self, alternatives, front):
        """Yields each place behind a front: what is wanted there, or None, and what stands before."""
        for alternative in alternatives:
            before = front
            for symbol, often in alternative:
                tokens = self.spell(symbol)
                if isinstance(symbol, list):
                    yield from self.places(symbol, before)
                else:
                    yield symbol, before
                if tokens is None:
                    break
                if often:
                    yield None, before + tokens
                if often in ('', '+'):
                    before = before + tokens
            else:
                yield None, before


def states():
    """The beginning of each state, the shortest first."""
    grammar, found = Grammar(), set()
    for name, front in grammar.fronts.items():
        for symbol, place in grammar.places(grammar.rules[name], front):
            found.add(' '.join(place))
            found.update(' '.join(it) for _, it in grammar.places(grammar.rules.get(symbol, []), place))
    return sorted(found, key=lambda front: (len(front.split()), front))


def write(folder, is_bad):
    os.makedirs(folder, exist_ok=True)
    tails = [''] + NEXT + ([f'{it} $' for it in [''] + NEXT] if is_bad else [])
    sources = [f'{front} {tail}'.strip() for front in states() for tail in tails]
    sources = list(dict.fromkeys(sources))
    with open(f'{folder}/index.txt', 'w', encoding='utf-8') as index:
        for number, source in enumerate(sources):
            with open(f'{folder}/{number}.proto', 'w', encoding='utf-8') as file:
                file.write(source)
            index.write(f'{number}.proto {source}\n')
    print(f'{len(sources)} sources of {len(states())} states')


def main():
    words = sys.argv[1:]
    if not words:
        print('\n'.join(states()))
    elif words[0] == '--sources' and len(words) in (2, 3) and words[2:] in ([], ['--bad']):
        write(words[1], words[2:] == ['--bad'])
    else:
        print(__doc__)
        return 2
    return 0


if __name__ == '__main__':
    sys.exit(main())
