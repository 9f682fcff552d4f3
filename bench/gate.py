#!/usr/bin/env python3
"""Runs the gate crate by crate and says what each crate took: wall clock and processor time.

usage: gate.py [--edits] LOG [CRATE..]      at the top of the repository; LOG is a file out of the tree

It runs `rt ci CRATE` for each crate in the order of crates.txt, where each stands below those that it
uses. What passes is kept on this machine, so each call costs its crate, the reading of what is below
it, and the programs and tests below it. A crate that an earlier run proved says `kept`: its time says
nothing of its proof. At the end it runs `rt ci`, the gate itself. With a CRATE only these crates run,
and not the gate. All that the commands print goes to LOG. A crate that fails ends the run.

The processor time is what the system says of a command once it has ended, with all that it started and
waited for (os.wait4). The provers are among these: of small crates it was within a tenth of the wall
clock, also above it. A process that outlives the command would be missing.

`rt ci` proves and tries edits in one command, so their times are one number. With --edits the edits of
each crate that has some are tried once more, by `rt must-fail --anew CRATE`, and their own time stands
beside. It has a proof of the crate in it, unless `rt check` kept one. The number of edits stands behind.

A last line says what the gate takes on two cores: half of the processor time, or the longest chain of
crates if that is more. (In a chain the edits of a crate count, though nothing waits for these.)
"""
import argparse
import glob
import os
import subprocess
import sys
import time

# A machine of two cores is to be done by then, in minutes.
LIMIT = 100


def crates_below():
    """The crates of the repository in the order of crates.txt, and which of them each names."""
    with open('crates.txt', encoding='utf-8') as file:
        lines = [line.partition('#')[0].partition(':') for line in file]
    below = {name.split()[0]: rest.split() for name, _, rest in lines if name.strip()}
    return {name: [it for it in rest if it in below] for name, rest in below.items()}


def timed(words, log):
    """The minutes of a command by the wall clock and of processors, its status, and what it printed."""
    print(f'$ {" ".join(words)}', file=log, flush=True)
    start, began = log.tell(), time.time()
    started = subprocess.Popen(words, stdout=log, stderr=subprocess.STDOUT)
    _, status, used = os.wait4(started.pid, 0)
    started.returncode = os.waitstatus_to_exitcode(status)
    wall = time.time() - began
    log.seek(start)
    printed = log.read()
    return wall / 60, (used.ru_utime + used.ru_stime) / 60, started.returncode, printed


def must_pass(words, log):
    wall, spent, status, printed = timed(words, log)
    if status:
        sys.exit(f'{" ".join(words)}: status {status}\n{printed[-2000:]}')
    return wall, spent, printed


def run_crate(crate, log, again):
    """Runs the gate's work for a crate, and prints its line. The minutes of processor time."""
    wall, spent, printed = must_pass(['rt', 'ci', crate], log)
    edits = len(glob.glob(f'crates/{crate}/must-fail/*.edit'))
    alone = f'{must_pass(["rt", "must-fail", "--anew", crate], log)[1]:8.1f}' if again and edits else ' ' * 8
    kept = 'kept' if f'rt: {crate} is kept' in printed else ''
    print(f'{crate:24}{wall:8.1f}{spent:11.1f}{alone if again else ""}{edits or "":7} {kept}'.rstrip(), flush=True)
    return spent


def longest_chain(below, spent):
    """The minutes of the longest chain: crates below one another."""
    chains = {}
    for crate, under in below.items():
        if crate in spent:
            chains[crate] = spent[crate] + max((chains.get(it, 0) for it in under), default=0)
    return max(chains.values())


def say_two_cores(below, spent):
    """Says what the gate takes on two cores, and warns where that is too long."""
    half, chain = sum(spent.values()) / 2, longest_chain(below, spent)
    print(f'{max(half, chain):.1f} minutes on two cores (half of the sum: {half:.1f}, longest chain: {chain:.1f})')
    if max(half, chain) > LIMIT:
        print(f'WARNING: that is more than {LIMIT} minutes: make the dearest crates cheaper')


def main():
    asked = argparse.ArgumentParser(description='what the gate takes, crate by crate')
    asked.add_argument('--edits', action='store_true', help='time the edits alone, too')
    asked.add_argument('log')
    asked.add_argument('crates', nargs='*')
    asked = asked.parse_args()
    below, began = crates_below(), time.time()
    unknown = [crate for crate in asked.crates if crate not in below]
    if unknown:
        sys.exit(f'not in crates.txt: {" ".join(unknown)}')
    head = f'{"minutes":24}{"wall":>8}{"processor":>11}' + (f'{"alone":>8}' if asked.edits else '') + f'{"edits":>7}'
    print(head, flush=True)
    with open(asked.log, 'w+', encoding='utf-8') as log:
        chosen = [crate for crate in below if not asked.crates or crate in asked.crates]
        spent = {crate: run_crate(crate, log, asked.edits) for crate in chosen}
        if not asked.crates:
            wall, whole, _ = must_pass(['rt', 'ci'], log)
            print(f'{"rt ci, over what is kept":24}{wall:8.1f}{whole:11.1f}')
    print(f'{"all":24}{(time.time() - began) / 60:8.1f}{sum(spent.values()):11.1f}')
    say_two_cores(below, spent)


if __name__ == '__main__':
    main()
