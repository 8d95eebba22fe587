"""Compares what a driver printed with what it must print, up to the first difference.

    compare.py TEXT EXPECTED GOT

TEXT is the sessions' text, so that the difference can be named: session, call
in the session, the order, both lines. Exit status 0 only where all lines agree.
"""

import sys
from itertools import zip_longest

import drive


def first_difference(text, expected, got):
    """What to say of the first line that differs, or None. Sessions and calls count from 1."""
    expected, got = iter(expected), iter(got)
    session, call = 1, 0
    for order in text:
        op = int(order.split()[0])
        call += op in drive.CALLS
        if op in drive.PRINTED:
            want, have = next(expected, None), next(got, None)
            if want != have or want is None:
                return (f'session {session}, call {call}: {drive.NAMES[op]}: {order}\n'
                        f'expected {want}\ngot      {have}')
        if op == drive.END:
            session, call = session + 1, 0
    for want, have in zip_longest(expected, got):
        return f'after the last session\nexpected {want}\ngot      {have}'
    return None


def lines(name):
    with open(name) as file:
        for line in file:
            yield line.rstrip('\n')


def main():
    if len(sys.argv) != 4:
        sys.exit(__doc__)
    difference = first_difference(*map(lines, sys.argv[1:]))
    if difference:
        sys.exit(difference)
    print('all lines agree')


if __name__ == '__main__':
    main()
