#!/usr/bin/env python3
"""Counts what a call costs in instructions: the tape program beside the same written in plain Rust (trials/plain.rs), in one run.

    python3 trials/cost.py [PROGRAM]      after `make run`, which builds crates/tape/out/tape; wants rustc and valgrind

Each figure is the difference between two tapes, one with 200 of a call and one with 100, over 100; so starting and the measurements
before the call do not count, and reading its frame and printing its line do. The counts are callgrind's, the same at each run.
"""
import re
import subprocess
import sys
import tempfile
from pathlib import Path

VERDICT, SLOPE, TALLIES = b'\x51', b'\x52', b'\x54'


def value(argument):
    return b'\x53' + (argument & 0xffff).to_bytes(2, 'big')


def load(argument):
    return b'\x10' + (argument & 0xffff).to_bytes(2, 'big')


def reading(number):
    return (2 << 28 | number & 0xfffffff).to_bytes(4, 'big')


def sheet(count, spoil=0):
    """Readings at different arguments that one line meets; the last is put off by `spoil`."""
    points = [(7 * k - 200, 3 * (7 * k - 200) + k % 3) for k in range(count)]
    if spoil:
        points[-1] = (points[-1][0], points[-1][1] + spoil)
    return b''.join(load(x) + reading(y) for x, y in points)


def instructions(program, tape):
    with tempfile.NamedTemporaryFile() as kept:
        said = subprocess.run(['valgrind', '--tool=callgrind', f'--callgrind-out-file={kept.name}', program],
                              input=tape, capture_output=True, check=True).stderr.decode()
    return int(re.search(r'Collected : (\d+)', said)[1])


def cost(program, before, call):
    return (instructions(program, before + 200 * call) - instructions(program, before + 100 * call)) / 100


def main():
    program = sys.argv[1] if len(sys.argv) > 1 else 'crates/tape/out/tape'
    with tempfile.TemporaryDirectory() as folder:
        plain = str(Path(folder) / 'plain')
        subprocess.run(['rustc', '-O', '-C', 'target-cpu=x86-64-v2', '-o', plain, Path(__file__).with_name('plain.rs')], check=True)
        calls = [(f'verdict, {n} on a line', sheet(n), VERDICT) for n in (2, 8, 64)]
        calls += [(f'verdict, {n} that conflict', sheet(n, 4000), VERDICT) for n in (8, 64)]
        calls += [(f'slope, {n} held', sheet(n), SLOPE) for n in (2, 8, 64)]
        calls += [(f'value, {n} held', sheet(n), value(50)) for n in (2, 8, 64)]
        calls += [('tallies, 64 held', sheet(64), TALLIES)]
        calls += [('load and abort, none held', b'', load(5) + b'\x30')]
        calls += [('load, reading and clearing', b'', load(5) + reading(100) + b'\x60')]
        print(f'{"instructions for one":36}{"tape":>10}{"plain":>10}{"times":>8}')
        for name, before, call in calls:
            ours, theirs = cost(program, before, call), cost(plain, before, call)
            print(f'{name:36}{ours:10,.0f}{theirs:10,.0f}{ours / theirs:8.2f}')


main()
