#!/usr/bin/env python3
"""Writes crates/replay/stdin and crates/replay/stdout, whole: the input of the program `replay`, and what it must print.

    python3 tests/make_vectors.py crates/replay/stdin crates/replay/stdout

The input has random patterns and records; the output is what the rules of docs/RULES.md ("The algebra") say of each, by
brute force over all instances, as sets of (start, end) pairs. This script shares nothing with the code under test.
tests/run makes both files again and compares them with the stored ones.

One vector is its length in bytes, as five digits on a line, and three lines: the pattern's text; the ticks for the
watcher, as `tick:events` in hexadecimal; the event words for the plain evaluator, in hexadecimal. For each vector the
program prints three lines: the watcher's answers (start + 1, or 0), the latest starts of the rows of the whole pattern
(start + 1, or 0), and how many instances each row has.
"""
import random
import sys

SEED = 20261115
CASES = 2400
TYPES = 'ABCDEFGHIJKLMNOPQRSTUVWXYZabcdef'


def letter(n):
    return ('l', n)


def size(e):
    if e[0] == 'l':
        return 1
    if e[0] == '@':
        return size(e[1]) + 1
    return size(e[1]) + size(e[2]) + 1


def text(e):
    if e[0] == 'l':
        return TYPES[e[1]]
    if e[0] == '@':
        return '(%s@%d)' % (text(e[1]), e[2])
    return '(%s%s%s)' % (text(e[1]), e[0], text(e[2]))


def instances(e, record):
    """All instances of e in a record, a dictionary from ticks to words of events."""
    if e[0] == 'l':
        return {(t, t) for t, w in record.items() if w >> e[1] & 1}
    if e[0] == '@':
        return {(s, t) for s, t in instances(e[1], record) if t - s <= e[2]}
    x, y = instances(e[1], record), instances(e[2], record)
    if e[0] == '|':
        return x | y
    if e[0] == '+':
        return {(min(s, u), max(t, v)) for s, t in x for u, v in y}
    if e[0] == '-':
        return {(s, t) for s, t in x if not any(s <= u and v <= t for u, v in y)}
    return {(s, v) for s, t in x for u, v in y if t < u}


def pattern(rng, entries, kinds):
    """A random pattern of exactly `entries` entries over `kinds` letters, nested on both sides."""
    if entries == 1:
        return letter(rng.randrange(kinds))
    if entries == 2 or rng.random() < 0.15:
        limit = rng.choice([0, 1, 2, 3, 5, 9, 20, 63, 600, 4294967295])
        return ('@', pattern(rng, entries - 1, kinds), limit)
    left = rng.randrange(1, entries - 1)
    op = rng.choice(';;;+|-')
    return (op, pattern(rng, left, kinds), pattern(rng, entries - 1 - left, kinds))


def word(rng, kinds, dense):
    return sum(1 << k for k in range(kinds) if rng.random() < dense)


def latest(pairs, t):
    return max((s + 1 for s, u in pairs if u == t), default=0)


def main():
    rng = random.Random(SEED)
    vectors, answers = [], []
    while len(vectors) < CASES:
        entries = rng.choice([1, 2, 3, 3, 4, 5, 5, 6, 7, 7, 8, 9, 11, 13, 15, 20, 25, 31, 40, 50, 63])
        kinds = rng.choice([1, 2, 2, 3, 3, 4, 5])
        e = pattern(rng, entries, kinds)
        ticks = rng.randrange(1, 65)
        dense = rng.choice([0.1, 0.2, 0.3, 0.5])
        words = [word(rng, kinds, dense) for _ in range(ticks)]
        plain = instances(e, dict(enumerate(words)))
        # the watcher is given rising ticks with gaps; some start high, up to the last tick there is
        step, at, given = rng.choice([1, 1, 3, 50]), rng.choice([0, 0, 1, 7, 4294967295 - 64 * 50]), []
        for w in words:
            given.append((at, w))
            at += rng.randrange(1, step + 1)
        watched = instances(e, dict(given))
        vectors.append('%s\n%s\n%s\n' % (text(e), ' '.join('%x:%x' % g for g in given), ' '.join('%x' % w for w in words)))
        rows = [[s for s, t in plain if t == u] for u in range(ticks)]
        answers.append('%s\n%s\n%s\n' % (
            ' '.join(str(latest(watched, t)) for t, _ in given),
            ' '.join(str(latest(plain, t)) for t in range(ticks)),
            ' '.join(str(len(r)) for r in rows)))
    with open(sys.argv[1], 'w') as given, open(sys.argv[2], 'w') as expected:
        given.write(''.join('%05d\n%s' % (len(v), v) for v in vectors))
        expected.write(''.join(answers))
    print('%d vectors, seed %d' % (CASES, SEED))


if __name__ == '__main__':
    main()
