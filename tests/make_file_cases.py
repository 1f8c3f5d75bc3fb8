#!/usr/bin/env python3
"""Prints the lines of crates/cases/stdout that begin with `file cut:` or `file byte `, all of them and in their order.

    diff <(grep -E '^file (cut:|byte) ' crates/cases/stdout) <(python3 tests/make_file_cases.py)

must find no difference; tests/run does that. The lines say how a pattern file is judged when it is cut at each length,
and when each of its bytes has each other value: `number.place.entry` for each value, 0.0.0 where nothing is refused.
This is an independent implementation of docs/RULES.md ("Pattern files", and the table of
refusals). To change a case, change this script and the program `cases`, and replace those lines of stdout.
"""

LIMIT = 1 << 32


def entry(op, argument):
    return bytes([op]) + argument.to_bytes(4, 'little')


def body_fault(body):
    """The lowest entry that breaks a rule, the number of entries if several trees are left, None if none."""
    trees = 0
    for i in range(0, len(body), 5):
        op, argument = body[i], int.from_bytes(body[i + 1:i + 5], 'little')
        if op == 0 and argument < 32:
            trees += 1
        elif 1 <= op <= 4 and argument == 0 and trees >= 2:
            trees -= 1
        elif op == 5 and argument < LIMIT and trees >= 1:
            pass
        else:
            return i // 5
    return None if trees == 1 else len(body) // 5


def name_kept(name):
    bare = name.rstrip(b' ')
    return len(name) == 8 and len(bare) > 0 and all(65 <= c <= 90 or 48 <= c <= 57 for c in bare)


def fault(file):
    """(number, place, entry) of the refusal of a file, (0, 0, 0) if it is sound."""
    if not file or not 1 <= file[0] <= 16 or len(file) < 1 + 12 * file[0]:
        return (4, 0, 0)
    count, bodies, begin, before = file[0], [], 1 + 12 * file[0], b''
    for i in range(count):
        c = file[1 + 12 * i:13 + 12 * i]
        entries = c[10]
        if not (name_kept(c[:8]) and c[:8] > before and 1 <= entries <= 63
                and int.from_bytes(c[8:10], 'little') == begin and c[11] == 0):
            return (5, i, 0)
        bodies.append((begin, 5 * entries))
        begin, before = begin + 5 * entries, c[:8]
    if begin != len(file):
        return (6, 0, 0)
    for i, (at, size) in enumerate(bodies):
        bad = body_fault(file[at:at + size])
        if bad is not None:
            return (7, i, bad)
    return (0, 0, 0)


def two_patterns():
    """`(A;B)` under the name STEP and `C` under the name W2."""
    first = entry(0, 0) + entry(0, 1) + entry(4, 0)
    second = entry(0, 2)
    head = bytes([2]) + b'STEP    ' + (25).to_bytes(2, 'little') + bytes([3, 0]) + b'W2      ' + (40).to_bytes(2, 'little') + bytes([1, 0])
    return head + first + second


def main():
    file = two_patterns()
    for n in range(len(file) + 1):
        print('file cut: %d %d %d' % fault(file[:n]))
    for at in range(len(file)):
        print('file byte' + ''.join(' %d.%d.%d' % fault(file[:at] + bytes([v]) + file[at + 1:]) for v in range(256)))


main()
