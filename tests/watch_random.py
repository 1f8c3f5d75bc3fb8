#!/usr/bin/env python3
"""Runs the watch program (`rt run` in crates/watch builds it) on random patterns and records, and compares its output with the rules.

    python3 tests/watch_random.py [CASES]

The rules are those of make_vectors.py: brute force over all instances. Some records have a line that is refused, by
the table of docs/RULES.md. Every fourth input comes through the pipe in small pieces, so that chunks end anywhere in a line.
Every eighth record is longer than the program takes at once.
"""
import random
import subprocess
import sys
import time

from make_vectors import TYPES, instances, latest, pattern, text, word

SEED = 20261115
WATCH = 'crates/watch/out/watch'


def events(w):
    return ''.join(TYPES[k] for k in range(32) if w >> k & 1)


def fault(rng, t, allowed, w):
    """A line that is refused where ticks from `allowed` on may follow, as t may; and its number."""
    good = '%d %s' % (t, events(w))
    return rng.choice([
        ('', 14), ('0' + good, 14), (good + ' ', 14), (good.replace(' ', '  '), 14), (good + 'g', 14), (str(t), 14), (' ' + good, 14),
        (good + events(w)[-1], 14), ('4294967296 ' + events(w), 10), ('9' * rng.randrange(11, 60) + ' ' + events(w), 10),
        ('%s %s' % ('1' * 1030, events(w)), 14),
    ] + ([('%d %s' % (rng.randrange(allowed), events(w)), 11)] if allowed else []))


def case(rng, long):
    """An input and its output."""
    kinds = rng.randrange(1, 8)
    e = pattern(rng, rng.randrange(1, 6 if long else 12), kinds)
    lines, record, t = [text(e)], {}, rng.choice([0, 0, 7, 4294900000])
    for _ in range(rng.randrange(60, 200) if long else rng.randrange(0, 24)):
        w = word(rng, kinds, 0.4) or 1
        record[t] = w
        lines.append('%d %s' % (t, events(w)))
        t += rng.choice([1, 1, 1, 2, 5, 300])
    found = instances(e, record)
    windows = [(latest(found, u) - 1, u) for u in record if latest(found, u)]
    out = ['%d %d' % p for p in windows]
    if rng.random() < 0.3:
        line, code = fault(rng, t, max(record, default=-1) + 1, 1 << rng.randrange(kinds))
        lines += [line] + ['%d A' % (t + 1)] * rng.randrange(3)
        out.append('refused line %d code %d' % (len(record) + 2, code))
    else:
        out.append('windows %d ticks %d' % (len(windows), sum(v - u + 1 for u, v in windows)))
    end = '\n' if rng.random() < 0.5 or lines[-1] == '' else ''
    return '\n'.join(lines) + end, '\n'.join(out) + '\n'


def run(rng, given, pieces):
    p = subprocess.Popen([WATCH], stdin=subprocess.PIPE, stdout=subprocess.PIPE)
    if not pieces:
        return p.communicate(given.encode())[0].decode()
    at, data = 0, given.encode()
    try:
        while at < len(data):
            n = rng.randrange(1, 40)
            p.stdin.write(data[at:at + n])
            p.stdin.flush()
            at += n
            time.sleep(0.0005)
        p.stdin.close()
    except BrokenPipeError:
        pass
    out = p.stdout.read().decode()
    p.wait()
    return out


def main():
    cases = int(sys.argv[1]) if len(sys.argv) > 1 else 400
    rng = random.Random(SEED)
    for i in range(cases):
        given, wanted = case(rng, i % 8 == 5)
        wrote = run(rng, given, i % 4 == 3)
        if wrote != wanted:
            print('case %d: for\n%s\nwritten:\n%snot:\n%s' % (i, given, wrote, wanted))
            return 1
    print('%d cases as the rules say (seed %d)' % (cases, SEED))
    return 0


if __name__ == '__main__':
    sys.exit(main())
