"""Writes the small text that every check of a program runs, and what the program must print: its crate's stdin and stdout.

    small.py FOLDER                 of the program `compared`: crates/compared
    small.py --picture FOLDER       of the hobbyist's program `picture`: crates/picture

For `compared` it is a short session of sets of special codes, one of the stack and of bases for one kind alone, one of the
wire, the first orders of four sessions of the fixed set, each with a whole digest and an end, and the session of the speeds;
every order is in them. For `picture` it is a dozen lines, with every parity and number of stops and every wrong one.
"""

import pathlib
import sys

import drive
import picture2
import sessions

NUMBERS, ORDERS = (0, 5, 8, 10), 260


def parts():
    """The orders of each part."""
    begun = [sessions.write_session(sessions.SEED, number)[0].orders[:ORDERS] for number in NUMBERS]
    first = [sessions.small_sets_session()[0].orders, sessions.small_stack_session()[0].orders,
             sessions.small_wire_session()[0].orders]
    return first + [orders + [(drive.DIGEST,), (drive.END,)] for orders in begun] + [sessions.speeds_session()[0].orders]


def of_compared():
    """The sessions' text, and the lines to print."""
    text, lines = [], []
    for orders in parts():
        driver = drive.Driver()
        for order in orders:
            text.append(' '.join(map(str, order)))
            line = driver.drive(order)
            if line is not None:
                lines.append(line)
    return '\n'.join(text) + '\n', '\n'.join(lines) + '\n'


def main():
    *order, folder = sys.argv[1:] or ['']
    if order not in ([], ['--picture']) or not folder:
        sys.exit(__doc__)
    text, lines = (picture2.SMALL_TEXT, picture2.printed(picture2.SMALL_TEXT)) if order else of_compared()
    (pathlib.Path(folder) / 'stdin').write_text(text)
    (pathlib.Path(folder) / 'stdout').write_text(lines)


if __name__ == '__main__':
    main()
