#!/usr/bin/env python3
"""Holds the words `expected ..` of faults beside what the parser takes at the same place.

usage: expected.py [PROTOPARSE] [--list]      at the top of the repository

Each state of the grammar (see states.py) is tried with each token behind it, and with none:
PROTOPARSE, by default the one that the gate built, says whether that is unexpected there. So for
each state the tokens that are taken are known, and the words that it says of all else. The words
must name exactly the tokens that are taken, but for what UNNAMED says. --list prints both for each state.
The last line is `N passed, M failed`: of the states in which some token is refused.
"""
import os
import re
import subprocess
import sys
import tempfile

sys.dont_write_bytecode = True
sys.path.insert(0, os.path.dirname(os.path.abspath(__file__)))
import states

IDENTS = set(states.WORDS) | {'x'}
FAULT = re.compile(r"^(\d+)\.proto:1:(\d+): expected (.*), but (?:found|reached) ")
# What words without quotes name.
NAMED = {
    'an identifier': IDENTS,
    'an integer': {'1'},
    'a positive integer': {'1'},
    'a string': {"'a'"},
    'string': {"'a'"},
    'a string literal': {"'a'"},
    'a type name': IDENTS | {'.'},
    'a field type': IDENTS | {'.'},
    'a numeric literal': {'1', '1.5'},
    'a constant': IDENTS | {'1', '1.5', "'a'", '-', '{'},
    'a message field': IDENTS | {'.'},
    'reserved range': {'reserved'},
}
# What the words leave out, since they are those of protox-parse: each may be taken beside what they
# name. A sign before a number, a further string of a run, `;` alone, `syntax` at the start of a file,
# the name behind a sign (`-inf`; other names are refused later), and any token in an aggregate.
UNNAMED = {
    "an integer": {'-'},
    "an integer or 'max'": {'-'},
    "a positive integer or string": {'-'},
    "a numeric literal": IDENTS,
    "';'": {"'a'"},
    "',' or ';'": {"'a'"},
    "a message field, oneof, reserved range, enum, message, option or '}'": {';'},
    "a message field, option or '}'": {';'},
    "an identifier, '}', 'reserved' or 'option'": {';'},
    "'enum', 'extend', 'import', 'message', 'option', 'service', 'package' or ';'": {'syntax'},
    "'}'": set(states.NEXT),
}


def tokens_of(words):
    """The tokens that the words name, or None if they hold a word that isn't known."""
    found = set()
    for part in re.split(r", | or ", words):
        quoted = re.fullmatch(r"'(.+)'", part)
        if part in NAMED:
            found |= NAMED[part]
        elif quoted or part in states.WORDS:
            found.add(quoted[1] if quoted else part)
        else:
            return None
    return found


def is_right(words, taken):
    """Whether the words name exactly what is taken, but for what they may leave out."""
    named = tokens_of(words)
    return named is not None and named <= taken and taken - named <= UNNAMED.get(words, set())


def answers(program, sources):
    """The first fault of each source: its place in the line, from 0, and its words; or None."""
    with tempfile.TemporaryDirectory() as folder:
        names = [f'{number}.proto' for number in range(len(sources))]
        for name, source in zip(names, sources):
            with open(f'{folder}/{name}', 'w', encoding='utf-8') as file:
                file.write(source)
        found = {}
        for first in range(0, len(names), 2000):
            run = subprocess.run([program, *names[first:first + 2000]], cwd=folder, capture_output=True, text=True)
            for line in (run.stdout + run.stderr).split('\n'):
                fault = FAULT.match(line)
                if fault:
                    found.setdefault(int(fault[1]), (int(fault[2]) - 1, fault[3]))
                elif re.match(r'^\d+\.proto:', line):
                    found.setdefault(int(line.split('.')[0]), (-1, line))
        return [found.get(number) for number in range(len(sources))]


def main():
    words = [word for word in sys.argv[1:] if word != '--list']
    program = os.path.abspath(words[0] if words else 'crates/protoparse/out/protoparse')
    fronts, count = states.states(), len(states.NEXT) + 1
    said = answers(program, [f'{front} {token}'.strip() for front in fronts for token in [*states.NEXT, '']])
    passed, failed = 0, 0
    for number, front in enumerate(fronts):
        place = len(front) + 1 if front else 0
        faults = said[number * count:(number + 1) * count]
        refused = {token: fault[1] for token, fault in zip(states.NEXT, faults) if fault and fault[0] == place}
        taken = set(states.NEXT) - set(refused)
        if faults[-1] and faults[-1][0] == len(front):
            refused[''] = faults[-1][1]
        wrong = [it for it in sorted(set(refused.values())) if not is_right(it, taken)]
        passed += bool(refused) and not wrong
        failed += bool(wrong)
        for expected in sorted(set(refused.values())) if '--list' in sys.argv else wrong:
            print(f'{front or "(start)"}\n    words: {expected}\n    taken: {" ".join(sorted(taken))}')
    print(f'{passed} passed, {failed} failed')
    return failed > 0


if __name__ == '__main__':
    sys.exit(main())
