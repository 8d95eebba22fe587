"""Writes sessions and what a driver must print for them; counts the branches they reach.

    run_second.py [--seed N] [--sessions N] [--text FILE] [--expected FILE] [--quiet]

Without numbers it is the fixed set of the gate. That set fails if it never
reaches some branch of the second program, or is smaller than promised: half of the
calls of a unit, which leaves out those on a line's cells, serve a port.
"""

import argparse
import sys
import time

import mux2
import sessions
import wire2

LEAST_SESSIONS, LEAST_CALLS = 200, 200000


def arguments():
    parser = argparse.ArgumentParser()
    parser.add_argument('--seed', type=int, default=sessions.SEED)
    parser.add_argument('--sessions', type=int, default=sessions.SESSIONS)
    parser.add_argument('--text', default='/dev/null')
    parser.add_argument('--expected', default='/dev/null')
    parser.add_argument('--quiet', action='store_true', help='no count for each branch')
    return parser.parse_args()


def main():
    args = arguments()
    began = time.time()
    reached = dict.fromkeys((*mux2.BRANCHES, *wire2.BRANCHES), 0)
    written = calls = framed = serving = lines = 0
    with open(args.text, 'w') as text, open(args.expected, 'w') as expected:
        for author, branches in sessions.fixed_set(args.seed, args.sessions):
            for order in author.orders:
                print(*order, file=text)
            for line in author.printed:
                print(line, file=expected)
            for branch, count in branches.items():
                reached[branch] += count
            written += 1
            calls += author.calls
            framed += author.framed
            serving += author.serving
            lines += len(author.orders)

    if not args.quiet:
        for branch, count in reached.items():
            print(f'{count:9}  {branch}')
    print(f'{written} sessions, {lines} lines, {calls} calls, {framed} of them on cells and {serving} inspections or '
          f'sweeps that serve a port; {time.time() - began:.1f} s')

    faults = [f'never reached: {branch}' for branch, count in reached.items() if count == 0]
    if written < LEAST_SESSIONS or calls < LEAST_CALLS or 2 * serving < calls - framed:
        faults.append('fewer sessions, calls or services than promised')
    for fault in faults:
        print(fault)
    fixed = (args.seed, args.sessions) == (sessions.SEED, sessions.SESSIONS)
    sys.exit(1 if faults and fixed else 0)


if __name__ == '__main__':
    main()
