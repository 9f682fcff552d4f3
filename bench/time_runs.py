#!/usr/bin/env python3
"""Runs a program some times, and prints how long it took and how much memory.

usage: time_runs.py RUNS PROGRAM [ARGUMENT..]

Times are in milliseconds from start to end, with what the start of a process takes: the shortest, and the
median. Those in the program and in the system are of the run of the median.
"""
import os
import sys
import time


def run(words):
    start = time.perf_counter()
    child = os.posix_spawn(words[0], words, os.environ, file_actions=[
        (os.POSIX_SPAWN_OPEN, 1, '/dev/null', os.O_WRONLY, 0)])
    _, status, used = os.wait4(child, 0)
    return time.perf_counter() - start, status, used


def main():
    runs = sorted((run(sys.argv[2:]) for _ in range(int(sys.argv[1]))), key=lambda r: r[0])
    if any(status != 0 for _, status, _ in runs):
        sys.exit('a run failed')
    median, _, used = runs[len(runs) // 2]
    print(f'shortest {runs[0][0] * 1000:.1f} ms, median {median * 1000:.1f} ms '
          f'({used.ru_utime * 1000:.0f} in the program, {used.ru_stime * 1000:.0f} in the system), '
          f'{used.ru_maxrss} KB, {used.ru_minflt} page faults')


if __name__ == '__main__':
    main()
