#!/usr/bin/env python3
"""Refuses each request for memory of a program in turn: that one alone, and all from it on.

usage: refuse.py [FOLDER]       at the top of the repository; FOLDER holds the programs, if they are
                                not where `rt ci` leaves them, at crates/NAME/out/NAME

A run with a refusal has to end as the run without one, or to say that memory ran out where the answer
would stand, or behind what it said already: nothing else may change. A line for each program says how
many requests it makes and how the runs ended. Then come words and an output that protoscan can't use,
and a bound on memory that its answer would pass. The last line is 'N passed, M failed'. It needs a C
compiler.
"""
import collections
import concurrent.futures
import itertools
import os
import resource
import shutil
import subprocess
import sys
import tempfile

CASES = 'crates/protocases/data'
PARSED = ['foo.proto', 'brace_for_name.proto', 'comments_of_imports.proto', 'aggregate.proto',
          'json_name_alone.proto', 'group.proto']
LEXED = ['lexemes/faults_of_gap_and_rows.proto', 'lexemes/escapes.proto', 'lexemes/float_suffixes.proto',
         'lexemes/comment_of_each_kind.proto']
RUNS = [('protocases', [name]) for name in PARSED]
RUNS += [('protocases', ['--lexemes', name]) for name in LEXED]
RUNS += [('callcases', [])]
RUNS += [('protoscan', words) for words in (['foo.proto'], ['foo.proto', '4.0'], ['brace_for_name.proto'])]
RUNS += [('protoscan', [f'../../../examples/{name}.proto']) for name in ('library', 'store')]
# A last word <FILE is the standard input.
RUNS += [('linkcases', ['<../../../bench/two_files.txt'])]
RUNS += [('setcases', [f'<../../../bench/{name}.txt']) for name in ('two_files', 'option_files')]
RUNS += [('protolink', ['-I../../protolink/data', '-o-', '--include_imports', '../../protolink/data/shop.proto'])]
RUNS += [('protolink', ['-I../../../examples/linked', 'shop/wrong.proto'])]

End = collections.namedtuple('End', 'status out err')


def run(library, words, **wanted):
    """How the program ends, and how many requests it makes."""
    env = dict(os.environ, LD_PRELOAD=library, **{name: str(n) for name, n in wanted.items()})
    given = os.path.join(CASES, words[-1][1:]) if words[-1].startswith('<') else os.devnull
    with open(given, 'rb') as text:
        words = words if given == os.devnull else words[:-1]
        done = subprocess.run(words, env=env, cwd=CASES, stdin=text, capture_output=True, check=False)
    lines = done.stderr.decode(errors='replace').splitlines()
    requests = [int(line.split()[1]) for line in lines if line.startswith('requests ')]
    said = [line for line in lines if not line.startswith('requests ')]
    return End(done.returncode, done.stdout, said), (requests or [0])[-1]


def is_want(line):
    return line == b'out of memory' or line.endswith(b': out of memory')


def behind(line, wanted):
    """The lines that are wanted behind a line which says that memory ran out in the place of an answer."""
    if line == b'out of memory':
        return list(itertools.dropwhile(lambda other: not other.startswith(b'== '), wanted))
    return wanted[1:]


def changes_nothing(found, wanted, whole=True):
    """Whether each line is the wanted one, or says that memory ran out in its place. If the run need not be
    whole, the last lines may be missing."""
    while found:
        if wanted and found[0] == wanted[0]:
            wanted = wanted[1:]
        elif wanted and is_want(found[0]):
            wanted = behind(found[0], wanted)
        else:
            return False
        found = found[1:]
    return not (whole and wanted)


def kind_of(program, end, without):
    """How a run ended, or None where it may not end so."""
    if end == without:
        return 'as without'
    told = end.err[:-1] == without.err[:len(end.err) - 1]
    said = told and (end.status, end.err[-1:]) in ((2, [f'{program}: out of memory']), (1, ['Error: Kind(OutOfMemory)']))
    if said and (without.out.startswith(end.out)
                 or changes_nothing(end.out.splitlines(), without.out.splitlines(), whole=False)):
        return 'out of memory'
    if end.status == 0 and not end.err and changes_nothing(end.out.splitlines(), without.out.splitlines()):
        return 'out of memory in the place of an answer'
    return None


def refuse(library, place, program, words, pool):
    """Runs the program with each refusal, prints how that ended, and answers whether all is well."""
    command = [os.path.abspath(place(program)), *words]
    without, requests = run(library, command)
    cases = [{name: n} for name in ('FAIL_AT', 'FAIL_FROM') for n in range(1, requests + 1)]
    ends = list(pool.map(lambda wanted: run(library, command, **wanted)[0], cases))
    kinds = [kind_of(program, end, without) for end in ends]
    counts = collections.Counter(kind for kind in kinds if kind)
    print(f'{program} {" ".join(words)}: {requests} requests, {len(ends)} runs: '
          + ', '.join(f'{count} {kind}' for kind, count in counts.most_common()))
    for wanted, end, kind in zip(cases, ends, kinds):
        if kind is None:
            print(f'  {wanted} ended otherwise: status {end.status}, {end.err}, {end.out[-300:]}')
    return requests > 0 and None not in kinds


def ends_so(place, words, status, said, out=subprocess.DEVNULL, bound=resource.RLIM_INFINITY):
    """Whether protoscan ends so on these words, with so many bytes of memory."""
    done = subprocess.run([os.path.abspath(place('protoscan')), *words], cwd=CASES, stdout=out,
                          stderr=subprocess.PIPE, check=False,
                          preexec_fn=lambda: resource.setrlimit(resource.RLIMIT_AS, (bound, bound)))
    well = (done.returncode, done.stderr) == (status, said)
    print(f'protoscan {words}: status {done.returncode}, {done.stderr}' + ('' if well else f', and not {status}, {said}'))
    return well


def strange_runs(place):
    """Words that are no UTF-8 or that a terminal would obey, an output that is full, and too little memory."""
    yield ends_so(place, [b'\xff'], 2, b'protoscan: an argument is not UTF-8\n')
    yield ends_so(place, [b'foo.proto', b'8\xc3'], 2, b'protoscan: an argument is not UTF-8\n')
    yield ends_so(place, [b'\x1b[31mno'], 2, b'protoscan: cannot read \\u{1b}[31mno\n')
    yield ends_so(place, [b'foo.proto', b'\xe2\x80\xae'], 2, b'protoscan: bad path \\u{202e}\n')
    with open('/dev/full', 'wb') as full:
        yield ends_so(place, ['foo.proto'], 2, b'', full)
    with tempfile.NamedTemporaryFile('w', suffix='.proto') as file:
        # 6 KB, whose descriptor takes more than 300 MB
        file.write(f'message M {{ extensions {",".join(["1"] * 1000)} to 2 [{",".join(["a=1"] * 1000)}]; }}')
        file.flush()
        yield ends_so(place, [file.name], 2, b'protoscan: out of memory\n', bound=200_000_000)


def main():
    folder = sys.argv[1] if sys.argv[1:] else None
    place = (lambda name: f'{folder}/{name}') if folder else (lambda name: f'crates/{name}/out/{name}')
    with tempfile.TemporaryDirectory() as room, concurrent.futures.ThreadPoolExecutor(os.cpu_count()) as pool:
        library = f'{room}/refuse.so'
        compiler = next(filter(shutil.which, (os.environ.get('CC', 'gcc'), 'cc', 'clang')), 'gcc')
        subprocess.run([compiler, '-O2', '-shared', '-fPIC', '-o', library, 'bench/refuse.c'], check=True)
        well = [refuse(library, place, program, words, pool) for program, words in RUNS]
    well += strange_runs(place)
    print(f'{well.count(True)} passed, {well.count(False)} failed')
    return 0 if all(well) else 1


if __name__ == '__main__':
    sys.exit(main())
