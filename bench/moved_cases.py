#!/usr/bin/env python3
"""What becomes of locations when statements of options are interpreted: the cases of `movedcases`.

usage: moved_cases.py [--count N] [--seed S]     at the top of the repository
       moved_cases.py --write FOLDER             writes the cases of `movedcases`

Without --write, it makes N cases by chance (2000, from seed 1) and compares the answers of
crates/movedcases/out/movedcases. The last line is 'N passed, M failed'. With --write, it writes `stdin`
and `stdout`: the cases below and some by chance, with what they are to give.

The expected values come from the loop in this file. It goes over the locations in their order, as
protoc's OptionInterpreter::UpdateSourceCodeInfo does (protobuf 3.21.12): at a location that has the path
of a statement it writes the new path, and skips those below it that follow. It differs from protoc's in
three ways, which no list of locations that protoc's parser makes tells apart. Locations in any order are
sorted first, so that what lies below a path follows it. A second location with the very path of a
statement is moved, too, and not skipped. What lies below the path of a statement is skipped even if no
location has that path.
"""
import argparse
import os
import random
import subprocess
import sys

PROGRAM = 'crates/movedcases/out/movedcases'

# The locations and the moves of each case, as the program reads them.
CASES = (
    '|',
    '-|',
    '-|->1',
    '- 2 3,0 4,0 4,0,1|',
    '4,0,1 4,0 3,0 2 -|',
    # one statement of a file, with its parts
    '- 2 8 8,999,0|8,999,0>8,1',
    '- 8 8,999,0 8,999,0,2 8,999,0,2,0 8,999,0,2,0,1 8,999,0,7|8,999,0>8,1',
    # two statements of a file: each has a location for all options, and one of its own
    '- 2 8 8 8,999,0 8,999,1 12|8,999,0>8,1 8,999,1>8,10',
    '- 2 8 8 8,999,0 8,999,1 12|8,999,0>8,10 8,999,1>8,1',
    '8 8,999,0 8,999,1|8,999,0>8,50001 8,999,1>8,50001,3',
    # of a field, a message, an enum value, a method, a range and an oneof
    '4,0,2,0 4,0,2,0,1 4,0,2,0,8 4,0,2,0,8,999,0 4,0,2,0,8,999,0,2|4,0,2,0,8,999,0>4,0,2,0,8,3',
    '4,0 4,0,1 4,0,7 4,0,7,999,0 4,0,7,999,0,2,0|4,0,7,999,0>4,0,7,2',
    '5,0,2,0 5,0,2,0,3 5,0,2,0,3,999,0 5,0,2,1|5,0,2,0,3,999,0>5,0,2,0,3,1',
    '6,0,2,0 6,0,2,0,4 6,0,2,0,4,999,0 6,0,2,0,4,999,0,3|6,0,2,0,4,999,0>6,0,2,0,4,33',
    '4,0,5,0,3,999,0 4,0,5,1,3,999,0|4,0,5,0,3,999,0>4,0,5,0,3,7 4,0,5,1,3,999,0>4,0,5,1,3,7',
    '4,0,8,0,2,999,0|4,0,8,0,2,999,0>4,0,8,0,2,50000',
    # of a message in a message in a message
    '4,0,3,1,3,0,7,999,0 4,0,3,1,3,0,7,999,0,7|4,0,3,1,3,0,7,999,0>4,0,3,1,3,0,7,50001,2,9',
    # repeated options, which have an index
    '8,999,0 8,999,1 8,999,2|8,999,0>8,50001,0 8,999,1>8,50001,1 8,999,2>8,50001,2',
    '8,999,0 8,999,1 8,999,2|8,999,2>8,50001,0 8,999,1>8,50001,1 8,999,0>8,50001,2',
    # a part of an option, behind an option with a smaller number
    '8 8,999,0 8,999,1 8,999,2 9|8,999,0>8,50003,1 8,999,1>8,50002 8,999,2>8,50003,2',
    # some statements stay, with their parts
    '8 8,999,0 8,999,0,2 8,999,1 8,999,1,2 8,999,2 8,999,2,2|8,999,1>8,1',
    '8 8,999,0 8,999,0,2 8,999,1 8,999,1,2 8,999,2 8,999,2,2|8,999,0>8,1 8,999,2>8,2',
    # a move of which nothing is found
    '8 8,999,0 8,999,0,2|8,999,1>8,1',
    '8 8,999,0 8,999,0,2|8,999>8,1',
    '8,999,10 8,999,1 8,99 8,9990|8,999,1>8,1',
    '4,0 4,1|4,2>4,3',
    # a path that another begins with, where no move begins
    '8 8,999 8,999,0 8,999,0,2|8,999,0,2>8,7',
    '1 1,2 1,2,3 1,2,3,4|1,2,3>9',
    # statements with parts that go on past numbers of one digit, below zero and the greatest
    '8,999,9 8,999,9,2 8,999,10 8,999,10,2 8,999,100|8,999,10>8,20 8,999,9>8,-1',
    '8,2147483647 8,-2147483648,1 8,-2147483648|8,-2147483648>8,2147483647',
    # locations of one path stay in their order, also those that come together by moves
    '4 4 4 4,0|',
    '8,1 8,999,0 8,999,0,2 8,1|8,999,0>8,1',
    '8,999,0 8,999,1 8,999,2|8,999,2>8,1 8,999,0>8,1 8,999,1>8,1',
    '8,999,0 8,999,0 8,999,0,1 8,999,0|8,999,0>8,1',
    '9 8 9 8 9 8|8>9',
    # several moves from one path: the first counts
    '8,999,0 8,999,0,2|8,999,0>8,1 8,999,0>8,2',
    '8,999,0 8,999,0,2|8,999,0>8,2 8,999,0>8,1 8,999,0>8,0',
    # a move that begins below the start of another, or where another leads to
    '8 8,999,0 8,999,0,2 8,999,0,2,1|8,999,0>8,1 8,999,0,2>8,2',
    '8 8,999,0 8,999,0,2 8,999,0,2,1|8,999,0,2>8,2 8,999,0>8,1',
    '1 2 3|1>2 2>3 3>1',
    '1,1 2,2|1,1>2 2>1,1',
    # parts without their statement
    '8 8,999,0,2 8,999,0,7|8,999,0>8,1',
    # nothing is left but what no move begins with
    '- 1 1,1|->5',
    # parts before their statement
    '8,999,0,2 8,999,1,2 8,999,1 8,999,0 8|8,999,0>8,1',
    # paths of more numbers than a location holds without a vector
    '4,0,3,0,3,0,3,0,2,0,8,999,0 4,0,3,0,3,0,3,0,2,0,8,999,0,2'
    '|4,0,3,0,3,0,3,0,2,0,8,999,0>4,0,3,0,3,0,3,0,2,0,8,50001,1,2,3',
)


def path_of(word):
    return tuple(int(digits) for digits in word.split(',')) if word != '-' else ()


def word_of(path):
    return ','.join(str(number) for number in path) or '-'


def starts_with(path, front):
    return path[:len(front)] == front


def after(locations, moves):
    """The paths of the locations that are left, with their places in the list that was given."""
    new_paths = {}
    for old, new in moves:
        new_paths.setdefault(old, new)
    # At its own place each statement stands before the locations with its path.
    items = [(path, place) for place, path in enumerate(locations)] + [(old, -1) for old in new_paths]
    left, above = [], None
    for path, place in sorted(items):
        if above is not None and starts_with(path, above) and path != above:
            continue
        if place < 0:
            above = path
        else:
            left.append((new_paths.get(path, path), place))
    return left


def answer(line):
    words, moves = line.split('|')
    locations = [path_of(word) for word in words.split()]
    pairs = [tuple(path_of(word) for word in move.split('>')) for move in moves.split()]
    left = sorted(after(locations, pairs), key=lambda item: item[1])
    left.sort(key=lambda item: item[0])
    return ' '.join(f'{word_of(path)}:{place}' for path, place in left)


def by_chance(seed, count):
    chance = random.Random(seed)
    for _ in range(count):
        numbers = chance.choice(((0, 1), (0, 1, 2, 3), (-1, 8, 999, 50001)))
        longest = chance.choice((2, 4, 9))

        def path(low=0):
            return tuple(chance.choice(numbers) for _ in range(chance.randint(low, longest)))
        moves = [(path(), path()) for _ in range(chance.randint(0, 6))]
        locations = [path() for _ in range(chance.choice((3, 12, 60)))]
        for old, _ in moves:
            if chance.random() < 0.8:
                locations.append(old)
                locations.extend(old + path(1) for _ in range(chance.randint(0, 3)))
        if chance.random() < 0.5:
            locations.sort()
        else:
            chance.shuffle(locations)
        yield (' '.join(word_of(one) for one in locations) + '|'
               + ' '.join(f'{word_of(old)}>{word_of(new)}' for old, new in moves))


def write(folder, lines):
    for name, texts in (('stdin', lines), ('stdout', [answer(line) for line in lines])):
        with open(os.path.join(folder, name), 'w', encoding='utf-8') as file:
            file.write('\n'.join(texts) + '\n')


def compare(lines):
    run = subprocess.run([PROGRAM], input='\n'.join(lines) + '\n', stdout=subprocess.PIPE, encoding='utf-8',
                         check=True)
    answers = run.stdout.split('\n')[:-1]
    failed = 0
    for line, got in zip(lines, answers):
        if answer(line) != got:
            failed += 1
            print(f'{line}\n  wanted: {answer(line)}\n  movedcases: {got}')
    failed += abs(len(lines) - len(answers))
    print(f'{len(lines) - failed} passed, {failed} failed')
    return 1 if failed else 0


def main():
    parser = argparse.ArgumentParser(usage=__doc__.split('usage: ')[1].split('\n\n')[0])
    parser.add_argument('--write')
    parser.add_argument('--count', type=int, default=2000)
    parser.add_argument('--seed', type=int, default=1)
    args = parser.parse_args()
    if args.write:
        write(args.write, list(CASES) + list(by_chance(7, 60)))
        return 0
    return compare(list(by_chance(args.seed, args.count)))


if __name__ == '__main__':
    sys.exit(main())
