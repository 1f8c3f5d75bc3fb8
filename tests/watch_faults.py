#!/usr/bin/env python3
"""Runs the watch program (`rt run` in crates/watch builds it) where a read or a write fails or stalls.

    python3 tests/watch_faults.py

In each case, what the program wrote must be the beginning of the right output, byte for byte, so that a tally never
follows a gap. Where a read or a write failed, there is one line on standard error; otherwise there is none and the
output is whole. The right output comes from the rules of make_vectors.py: brute force over all instances.
"""
import fcntl
import os
import random
import re
import signal
import subprocess
import sys
import tempfile
import threading
import time

from make_vectors import instances, latest, letter, text
from watch_random import WATCH, events

SEED = 20261115
S, P, Y = 18, 15, 24
FAILED = re.compile(rb'(read|write): [^\n]+\n')


def record(rng, blocks):
    """An input and its output. A window has at most 7 ticks, so each block of 8 ticks, far from the next, has its own."""
    e = ('@', ('-', (';', letter(S), letter(P)), letter(Y)), 6)
    lines, windows = [text(e)], []
    for block in range(blocks):
        words = {1000 * block + t: 1 << rng.choice([S, S, P, P, Y]) for t in range(8)}
        lines += ['%d %s' % (t, events(w)) for t, w in words.items()]
        found = instances(e, words)
        windows += [(latest(found, t) - 1, t) for t in words if latest(found, t)]
    out = ['%d %d' % w for w in windows] + ['windows %d ticks %d' % (len(windows), sum(t - s + 1 for s, t in windows))]
    return ('\n'.join(lines) + '\n').encode(), ('\n'.join(out) + '\n').encode()


def unblocked(fd):
    fcntl.fcntl(fd, fcntl.F_SETFL, fcntl.fcntl(fd, fcntl.F_GETFL) | os.O_NONBLOCK)
    return fd


def drained(fd, pause, limit=None):
    """What can be read, 4,096 bytes at a time with a pause before each read, up to a limit where the reader leaves."""
    got = b''
    while limit is None or len(got) < limit:
        time.sleep(pause)
        piece = os.read(fd, 4096)
        if not piece:
            break
        got += piece
    os.close(fd)
    return got


def ended(p):
    """Waits until the program has ended, 30 seconds at most."""
    last = time.monotonic() + 30
    while p.poll() is None and time.monotonic() < last:
        time.sleep(0.01)


class Case:
    """A run of the program: its standard input, and how its output is read."""

    def __init__(self, given):
        self.given = tempfile.TemporaryFile()
        self.given.write(given)
        self.given.flush()

    def run(self, stdin=None, stdout=None, pause=0, limit=None, late=False, feed=None, **options):
        """What was written, what stands on standard error, and the exit status (negative for a signal). A late reader
        begins when the program has ended; feed runs beside it."""
        if stdin is None:
            self.given.seek(0)
            stdin = self.given
        source, sink = os.pipe()
        if stdout == 'unblocked':
            unblocked(sink)
        p = subprocess.Popen([WATCH], stdin=stdin, stdout=sink if stdout in (None, 'unblocked') else stdout,
                             stderr=subprocess.PIPE, **options)
        os.close(sink)
        feeder = threading.Thread(target=feed, args=(p,)) if feed else None
        if feeder:
            feeder.start()
        if late:
            ended(p)
        got = drained(source, pause, limit)
        error = p.stderr.read()
        p.stderr.close()
        status = p.wait(timeout=60)
        if feeder:
            feeder.join()
        return got, error, status


failures = 0


def judged(name, ran, wanted, fault):
    """Judges what a run wrote, where a 'read' or a 'write' must have failed, 'any' may have failed or none (None)."""
    global failures
    got, error, status = ran
    faults = []
    if not wanted.startswith(got):
        at = next((i for i, (a, b) in enumerate(zip(got, wanted)) if a != b), min(len(got), len(wanted)))
        faults.append('the output goes wrong at byte %d: %r' % (at, got[max(0, at - 40):at + 40]))
    said = FAILED.fullmatch(error)
    if error and not said:
        faults.append('on standard error: %r' % error)
    if status < 0:
        faults.append('ended by signal %d' % -status)
    if got != wanted and not said:
        faults.append('%d of %d bytes came out, and no fault was reported' % (len(got), len(wanted)))
    if fault in ('read', 'write') and not (said and said.group(1).decode() == fault):
        faults.append('no %s fault was reported: %r' % (fault, error))
    if not fault and error:
        faults.append('a fault was reported where there was none: %r' % error)
    for line in faults:
        print('%s: %s' % (name, line))
    failures += bool(faults)


def pausing(case, data, places, non_blocking=True):
    """Runs the program on a pipe whose writer pauses at each of these places: for a moment, or where the pipe is
    non-blocking until the program has ended, as it must."""
    source, sink = os.pipe()
    if non_blocking:
        unblocked(source)

    def feed(p):
        os.close(source)
        at = 0
        try:
            for place in places + [len(data)]:
                while at < place:
                    at += os.write(sink, data[at:place])
                if place < len(data):
                    ended(p) if non_blocking else time.sleep(0.1)
        except BrokenPipeError:
            pass
        os.close(sink)
    return case.run(stdin=source, feed=feed)


def main():
    rng = random.Random(SEED)
    data, wanted = record(rng, 20000)
    short, short_wanted = record(rng, 40)
    case, brief = Case(data), Case(short)

    judged('a plain run', case.run(), wanted, None)
    judged('a slow reader', case.run(pause=0.001), wanted, None)
    judged('a slow reader of a non-blocking pipe', case.run(stdout='unblocked', pause=0.003), wanted, 'any')
    judged('a late reader of a non-blocking pipe', case.run(stdout='unblocked', late=True), wanted, 'write')
    judged('a reader of a non-blocking pipe', brief.run(stdout='unblocked'), short_wanted, None)

    judged('a reader that leaves', case.run(limit=10000), wanted, 'write')
    judged('a reader that leaves, SIGPIPE ignored', case.run(limit=10000, restore_signals=False), wanted, 'write')
    judged('a reader that leaves at once', case.run(limit=0, restore_signals=False), wanted, 'write')

    with open('/dev/full', 'wb') as full:
        judged('/dev/full', case.run(stdout=full), wanted, 'write')
        judged('/dev/full, little output', brief.run(stdout=full), short_wanted, 'write')
    judged('standard output closed', brief.run(preexec_fn=lambda: os.close(1)), short_wanted, 'write')

    folder = os.open('.', os.O_RDONLY)
    judged('a directory as input', brief.run(stdin=folder), short_wanted, 'read')
    os.close(folder)
    judged('standard input closed', brief.run(preexec_fn=lambda: os.close(0)), short_wanted, 'read')

    places = [len(short) // 3, len(short) // 3 + 1, 2 * len(short) // 3]
    judged('a writer that pauses', pausing(brief, short, places, non_blocking=False), short_wanted, None)
    judged('a writer that pauses before the first byte, non-blocking', pausing(brief, short, [0]), short_wanted, 'read')
    for place in [5, 18, 19, 20] + [rng.randrange(len(short)) for _ in range(4)]:
        judged('a writer that pauses at byte %d, non-blocking' % place, pausing(brief, short, [place]), short_wanted, 'read')

    def stopped(p):
        for _ in range(20):
            time.sleep(0.01)
            p.send_signal(signal.SIGSTOP)
            time.sleep(0.01)
            p.send_signal(signal.SIGCONT)
    judged('a program that is stopped and goes on', case.run(pause=0.002, feed=stopped), wanted, None)

    print('%d failed' % failures if failures else 'nothing false was written, and each fault was reported')
    return 1 if failures else 0


if __name__ == '__main__':
    sys.exit(main())
