#!/usr/bin/env python3
"""Plays random tapes with the tape program and compares every line with a slow evaluator that tests every pair and every triple.

    python3 trials/compare.py [TAPES] [SEED] [PROGRAM]      after `make run`, which builds crates/tape/out/tape, the program where none is named

The slow evaluator shares nothing with the program: readings, places and tallies in plain lists, lines as vertices of what is admissible,
all numbers exact fractions. Of a conflict it checks that the named serials are held, rise and conflict, and that a third is named only
where no two conflict; everything else has to be the same to the byte.
"""
import random
import subprocess
import sys
from fractions import Fraction
from itertools import combinations
from math import ceil, floor

LIMIT = 100_000_000


def step(r):
    return (10 * r - 5, 10 * r + 5)


def bounded(r):
    low, high = r - 20, r + 20
    return (floor(Fraction(low * 10**6, 10**6 + 1000 if low >= 0 else 10**6 - 1000)),
            ceil(Fraction(high * 10**6, 10**6 - 1000 if high >= 0 else 10**6 + 1000)))


def taken(ends):
    return all(-LIMIT <= e <= LIMIT for e in ends)


def chain(r):
    upper = step(r)
    if not taken(upper):
        return None, (1, r)
    for end in upper:
        if not taken(bounded(end)):
            return None, (2, end)
    return (bounded(upper[0])[0], bounded(upper[1])[1]), None


def meets(line, m):
    a, b = line
    return m[2] <= a * m[1] + b <= m[3]


def vertices(ms):
    """Lines through an end of each of two measurements at different arguments that meet all."""
    found = []
    for m, n in combinations(ms, 2):
        if m[1] == n[1]:
            continue
        for e in m[2:]:
            for f in n[2:]:
                a = Fraction(f - e, n[1] - m[1])
                line = (a, e - a * m[1])
                if all(meets(line, k) for k in ms):
                    found.append(line)
    return found


def consistent(ms):
    if len({m[1] for m in ms}) <= 1:
        return not ms or max(m[2] for m in ms) <= min(m[3] for m in ms)
    return bool(vertices(ms))


def conflict(ms):
    """The least number of measurements that conflict: 0, 2 or 3."""
    if any(not consistent(p) for p in combinations(ms, 2)):
        return 2
    if any(not consistent(t) for t in combinations(ms, 3)):
        return 3
    return 0


def thousandths(low, high):
    return f'{floor(1000 * low)} {ceil(1000 * high)}'


class Bench:
    def __init__(self):
        self.places, self.last, self.counts = [None] * 64, 0, [0, 0, 0, 0]

    def held(self):
        return [p for p in self.places if p and len(p) == 4]

    def open(self, x):
        if not -10000 <= x <= 10000:
            return None, 1
        free = [i for i, p in enumerate(self.places) if p is None]
        if not free:
            return None, 2
        self.last += 1
        self.counts[0] += 1
        self.places[free[0]] = (self.last, x)
        return self.last, None

    def at(self, serial, length):
        return next((i for i, p in enumerate(self.places) if p and len(p) == length and p[0] == serial), None)

    def question(self, kind, x=None):
        ms = self.held()
        if kind == 'value' and not -10000 <= x <= 10000:
            return 'refused 1'
        if not ms:
            return 'refused 7'
        size = conflict(ms)
        if kind == 'verdict':
            return ('conflict', size, ms) if size else 'line'
        if size:
            return 'refused 8'
        if len({m[1] for m in ms}) == 1:
            if kind == 'value' and ms[0][1] == x:
                return 'value ' + thousandths(max(m[2] for m in ms), min(m[3] for m in ms))
            return 'refused 9'
        lines = vertices(ms)
        told = [a for a, b in lines] if kind == 'slope' else [a * x + b for a, b in lines]
        return f'{kind} ' + thousandths(min(told), max(told))


def expected(frames):
    bench, point, lines = Bench(), None, []

    def aborted(reason=''):
        nonlocal point
        bench.places[bench.at(point, 2)] = None
        bench.counts[3] += 1
        lines.append(f'aborted {point}' + (f' {reason}' if reason else ''))
        point = None

    for kind, data in frames:
        if point is not None and kind not in ('reading', 'abort'):
            aborted()
        if kind == 'load':
            point, why = bench.open(data)
            lines.append(f'refused {why}' if why else f'load {point} {data}')
        elif kind in ('reading', 'abort') and point is None:
            lines.append('refused 13')
        elif kind == 'reading':
            ends, why = chain(data)
            i = bench.at(point, 2)
            if ends:
                bench.places[i] = (point, bench.places[i][1]) + ends
                bench.counts[1] += 1
                lines.append(f'set {point} {ends[0]} {ends[1]}')
            else:
                bench.places[i] = None
                bench.counts[2] += 1
                lines.append(f'spoiled {point} 5 {why[0]} {why[1]}')
            point = None
        elif kind == 'abort':
            aborted(''.join(chr(b) if 32 <= b <= 126 else '?' for b in data))
        elif kind == 'withdraw':
            i = bench.at(data, 4)
            if i is None:
                lines.append('refused 6')
            else:
                bench.places[i] = None
                lines.append(f'withdrawn {data}')
        elif kind == 'tallies':
            opened = sum(1 for p in bench.places if p and len(p) == 2)
            lines.append('tallies ' + ' '.join(map(str, bench.counts + [opened, len(bench.held())])))
        elif kind == 'clear':
            bench.places, bench.counts = [None] * 64, [0, 0, 0, 0]
            lines.append('cleared')
        elif kind == 'unknown':
            lines.append('refused 12')
            break
        elif kind == 'short':
            lines.append('refused 11')
            break
        else:
            lines.append(bench.question(kind, data))
    else:
        if point is not None:
            aborted()
    return lines


def encode(kind, data):
    if kind in ('load', 'value'):
        return bytes([0x10 if kind == 'load' else 0x53]) + (data & 0xffff).to_bytes(2, 'big')
    if kind in ('reading', 'withdraw'):
        return ((2 if kind == 'reading' else 4) << 28 | data & 0xfffffff).to_bytes(4, 'big')
    if kind == 'abort':
        return bytes([0x30 | len(data)]) + data
    return {'verdict': b'\x51', 'slope': b'\x52', 'tallies': b'\x54', 'clear': b'\x60', 'unknown': b'\x00', 'short': b'\x20\x00'}[kind]


def tape(rng):
    frames, serial = [], 0
    slope, spread = rng.randint(-30, 30), rng.choice([0, 1, 3, 6, 50])
    for _ in range(rng.randint(1, 60)):
        kind = rng.choices(['load', 'reading', 'abort', 'withdraw', 'verdict', 'slope', 'value', 'tallies', 'clear'],
                           [5, 1, 1, 1, 3, 3, 3, 1, 0.3])[0]
        if kind == 'load':
            x = rng.choice([rng.randint(-12, 12), rng.randint(-100, 100), rng.choice([-10000, 10000, 10001, -10001])])
            frames.append(('load', x))
            serial += 1
            if rng.random() < 0.9:
                far = rng.choice([9989998, -9989998, 10000000, 134217727, -134217728])
                frames.append(('reading', far if rng.random() < 0.03 else max(-9000000, min(9000000, slope * x + rng.randint(-spread, spread)))))
        elif kind == 'reading':
            frames.append(('reading', rng.randint(-500, 500)))
        elif kind == 'abort':
            frames.append(('abort', bytes(rng.choice([32, 65, 126, 127, 10, 200]) for _ in range(rng.randint(0, 15)))))
        elif kind == 'withdraw':
            frames.append(('withdraw', rng.randint(0, serial + 1)))
        elif kind == 'value':
            frames.append(('value', rng.choice([rng.randint(-15, 15), rng.randint(-200, 200), 10000, -10000, 20000])))
        else:
            frames.append((kind, None))
    if rng.random() < 0.2:
        frames.append((rng.choice(['unknown', 'short']), None))
    return frames


def same(line, want):
    if isinstance(want, str):
        return line == want
    _, size, ms = want
    words = line.split()
    named = [m for s in words[1:] for m in ms if m[0] == int(s)]
    return (words[0] == 'conflict' and len(words) == size + 1 and len(named) == size
            and [m[0] for m in named] == sorted({m[0] for m in named}) and not consistent(named))


def main():
    tapes = int(sys.argv[1]) if len(sys.argv) > 1 else 500
    rng = random.Random(int(sys.argv[2]) if len(sys.argv) > 2 else 1)
    program = sys.argv[3] if len(sys.argv) > 3 else 'crates/tape/out/tape'
    compared = 0
    for k in range(tapes):
        frames = tape(rng)
        data = b''.join(encode(*f) for f in frames)
        lines = subprocess.run([program], input=data, capture_output=True, check=True).stdout.decode().splitlines()
        want = expected(frames)
        if len(lines) != len(want) or not all(map(same, lines, want)):
            print(f'tape {k} differs: {data.hex(" ")}')
            for line, w in zip(lines, want):
                print('  ' if same(line, w) else '! ', line, '|', w if isinstance(w, str) else w[:2])
            sys.exit(1)
        compared += len(lines)
    print(f'{tapes} tapes, {compared} lines, all as the slow evaluator has them')


main()
