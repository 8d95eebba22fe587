"""Checks the answers of `picture`, the hobbyist's program, against the second program's frames (02, K3).

    picture2.py --write FILE                writes the fixed text that is typed
    picture2.py --last                      prints how many short texts there are: 20, with the numbers 0 to 19
    picture2.py --last N FILE               writes short text N, which is there for its last line
    picture2.py --check FILE GOT [--some]   compares what the program printed for a text, GOT, with what it must print

A typed line is four decimal numbers: data bits (5 to 8), parity (0 none, 1 odd, 2 even), stop cells (2, 3 or 4) and a character
(0 to 255). Each byte that is no digit ends a number, and so does the end of the line: one space stands between two numbers, a
second one makes a number without digits, which is 0. Numbers are taken modulo 2^32. The first four count, and what follows them
is ignored. A line is answered by a picture of the frame, four lines,

    124 in 7 bits, even parity, 1 stop
    mark        --------------
    space ------
          S 0 1 2 3 4 5 6 P T

with one character for each cell: a dash in the line of its level and a space in the other, and below the first cell of each bit
its letter (S start, 0 to 7 the data bit, the lowest is 0, P parity, T each stop). Spaces at the end of a line are printed, which
is not shown here. The character is told as the number that was read, not cut to its length. Where there are fewer numbers than
four, or one of the four is out of its range, the answer is

    please type data bits (5 to 8), parity (0 none, 1 odd, 2 even), stop cells (2, 3 or 4) and a character (0 to 255)

A last line without a newline is answered as if it had one, unless it is empty. Exit status 0 only where all lines agree and,
without --some, every kind of answer was among them.
"""

import re

import typed2
import wire2

WIDTH = 2 ** 32
PLEASE = ('please type data bits (5 to 8), parity (0 none, 1 odd, 2 even), stop cells (2, 3 or 4) and a character (0 to 255)')
RANGES = {'data bits': range(5, 9), 'parity': range(3), 'stop cells': range(2, 5), 'character': range(256)}

FEW, MORE, EMPTY, HIGH, ZEROS = ('fewer numbers than four', 'more numbers than four', 'a number without digits',
                                 'a number of 2^32 or more', 'a number with zeros in front')
KINDS = (*map(wire2.said_of, wire2.FORMS), *(f'parity bit {bit}' for bit in (0, 1)), 'character cut to its length',
         *(f'picture, {what}' for what in (MORE, EMPTY, HIGH, ZEROS)),
         *(f'please, {what}' for what in (FEW, *(f'{name} out of range alone' for name in RANGES))))


# What the program must say.

def words(line):
    """The digits of each number typed: every other byte ends one, and the end of the line does."""
    return re.split('[^0-9]', line)


def number(digits):
    """A number modulo 2^32, digit by digit, so that no length is too long to read."""
    value = 0
    for digit in digits:
        value = (value * 10 + int(digit)) % WIDTH
    return value


def typed(line):
    """The four numbers that count, fewer if there are fewer, and what is out of its range."""
    numbers = [number(digits) for digits in words(line)[:4]]
    return numbers, [name for value, (name, allowed) in zip(numbers, RANGES.items()) if value not in allowed]


def letters(form):
    """The letter of each bit below its first cell."""
    bits = ['S', *map(str, range(form.bits)), *['P'] * (form.parity != wire2.NONE), 'T', 'T']
    return ''.join(bit + ' ' for bit in bits)[:wire2.length(form)]


def picture(form, character):
    """The four lines of a frame's picture."""
    cells = wire2.frame(form, character)
    marks, spaces = (''.join('-' if cell == level else ' ' for cell in cells) for level in (wire2.MARK, wire2.SPACE))
    return [f'{character} in {wire2.said_of(form)}', f'mark  {marks}', f'space {spaces}', f'      {letters(form)}']


def answer_and_kinds(line):
    """The lines that answer one typed line, and the kinds of answer that they are."""
    numbers, wrong = typed(line)
    if len(numbers) < 4:
        return [PLEASE], [f'please, {FEW}']
    if wrong:
        return [PLEASE], [f'please, {name} out of range alone' for name in wrong if len(wrong) == 1]
    *of_form, character = numbers
    form = wire2.Form(*of_form)
    first = words(line)[:4]
    met = {MORE: len(words(line)) > 4, EMPTY: '' in first, HIGH: any(int(digits[-20:] or 0) >= WIDTH for digits in first),
           ZEROS: any(digits.startswith('0') and digits != '0' for digits in first)}
    kinds = [wire2.said_of(form), *(f'picture, {what}' for what, is_met in met.items() if is_met)]
    if character >= 2 ** form.bits:
        kinds.append('character cut to its length')
    kinds += [f'parity bit {bit}' for bit in wire2.parity_bits(form, wire2.cut(form, character))]
    return picture(form, character), kinds


def answered_lines(text):
    """The typed lines that are answered: what stands after the last newline is one only if there is anything."""
    *ended, last = text.split('\n')
    return ended + [last] if last else ended


def printed(text):
    """All that a right program prints for a text."""
    return ''.join(said + '\n' for line in answered_lines(text) for said in answer_and_kinds(line)[0])


# Comparing.

def check(text, got, some=False):
    """Whether all lines agree and every kind is reached, or only some need be, and what to say."""
    return typed2.compared(KINDS, answered_lines(text), answer_and_kinds, got, some)


# The texts.

# One text has one last line only, so each way that it may end without a newline is a text.
SHORT_TEXTS = (
    '',                                     # nothing typed at all
    '\n',                                   # an empty line
    '\n\n',
    ' ',                                    # two numbers without digits
    '   ',                                  # four of them
    '7 2 2 124',
    '7 2 2 124\n',                          # the newline is the last byte: nothing is left to answer
    '7 2 2 124\n\n',
    '7 2 2 124 ',
    '7 2 2 124\r',
    '7 2 2',                                # not yet four
    '7 2 2 ',                               # the fourth has no digits
    '7 2 2 256',
    '7',
    '7 2 2 124\n5 0 3 31',
    '7 2 2 124\n5 0 3',                     # nothing of the line before counts
    '7 2 2 124\n5',
    '7 2 2\n124',                           # a newline ends the line
    '7 2 2 124\n\r',
    '7 2 2 4294967420',
)

# The text that every check of the program runs (small.py).
SMALL_TEXT = '\n'.join((
    '7 2 2 124', '5 0 3 31', '8 1 4 0', '8 2 2 255', '6 1 3 65', '5 2 4 230', '7 2 2', '9 2 2 124', '7 3 2 124', '7 2 5 124',
    '7 2 2 256', '', '8 0 2 85', ''))


class Typist(typed2.Typist):
    """Writes the lines."""

    def good(self):
        """The numbers of some frame."""
        return [str(self.one_of(allowed)) for allowed in RANGES.values()]

    def form_lines(self):
        """Every form with characters of no ones, of ones alone, of one and of many."""
        for at, form in enumerate(wire2.FORMS):
            for character in (0, 255, 124, 2 ** (at % 8), self.below(256)):
                yield f'{form.bits} {form.parity} {form.stops} {character}'

    def range_lines(self):
        """Each number around its range and far from it; cut to eight or sixteen bits, or with a sign, some would be good ones."""
        for place, allowed in enumerate(RANGES.values()):
            for value in (0, 1, allowed[0] - 1, allowed[-1] + 1, allowed[-1] + 2, 10 * allowed[-1], allowed[0] + 256,
                          allowed[0] + 65536, allowed[0] + 2147483648, WIDTH - 1, WIDTH - allowed[0]):
                numbers = self.good()
                numbers[place] = str(value % WIDTH)
                yield ' '.join(numbers)
        yield from ('0 0 0 0', '9 3 5 256', '8 2 4 255', '5 0 2 0', '4 3 2 0', '8 0 5 256')

    def high_lines(self):
        """Numbers of 2^32 and more in each place, most of them good ones modulo 2^32."""
        for place, allowed in enumerate(RANGES.values()):
            for high in (WIDTH, 10 * WIDTH, 2 ** 33, 2 ** 63, 2 ** 64, 2 ** 64 + WIDTH, 10 ** 30 * WIDTH):
                numbers = self.good()
                numbers[place] = str(high + self.one_of(allowed))
                yield ' '.join(numbers)
            for value in (WIDTH + allowed[-1] + 1, 2 * WIDTH - 1, 10 ** 10, 99999999999):
                numbers = self.good()
                numbers[place] = str(value)
                yield ' '.join(numbers)

    def zero_lines(self):
        """Zeros in front, few and many, and numbers without digits."""
        for place in range(4):
            for zeros in (1, 10, 300):
                numbers = self.good()
                numbers[place] = '0' * zeros + numbers[place]
                yield ' '.join(numbers)
        yield from ('7 2 2 ', '7  2 124', '7 2  124', ' 7 2 2 124', '  7 2 2', '7 2 2  124', '7  2 ', '   ', '    ', '7   ',
                    '8 0 4 \t', '8  4 ', '8\t\t4\t', '7 2 2 00', '000 2 2 124')

    def count_lines(self):
        """Fewer numbers than four and more, with what may stand after the fourth."""
        yield from ('', '7', '7 2', '7 2 2', '124', '7 22 124', '722124', '7 2 2124', ' ', '  ', '\r', '\t', '7 2 2\r', '7 2\r')
        for rest in (' ', '  ', ' 0', ' 124', ' 999', '\r', '\t', ' \r', '.', ',', ' x', ' 7 2 2 124', ' 4294967296', '\0', ';;'):
            yield '7 2 2 124' + rest
            yield ' '.join(self.good()) + rest

    def byte_lines(self):
        """Each byte that is no digit between two numbers, after them, or inside one."""
        for code in range(256):
            sign = chr(code)
            if sign not in '\n0123456789':
                numbers, where = self.good(), self.below(6)
                if where < 3:
                    yield ' '.join(numbers[:where + 1]) + sign + ' '.join(numbers[where + 1:])
                elif where == 3:
                    yield ' '.join(numbers) + sign
                elif where == 4:
                    yield sign + ' '.join(numbers)
                else:
                    yield sign.join(numbers)
        yield from ('7,2,2,124', '7\t2\t2\t124\r', '-7 2 2 124', '7 -2 2 124', '7 2 2 -5', '7 2 2 +5', '7.0 2 2 124',
                    '7 2 2 12.4', '0x7 2 2 124', '7 2 2 0x7c', '7 2 2 1e2', 'seven two two', '"7 2 2 124"', '7/2/2/124',
                    '\x807 2 2 124')

    def lines(self):
        """All the lines, mixed, so that each kind comes after each other kind."""
        lines = [*self.form_lines(), *self.range_lines(), *self.high_lines(), *self.zero_lines(), *self.count_lines(),
                 *self.byte_lines()]
        return self.mixed(lines)


def fixed_text():
    """The text that is typed: one byte a character; the last line has no newline and is answered all the same."""
    return ''.join(line + '\n' for line in Typist().lines()) + '5 0 3 31'


# The orders.

if __name__ == '__main__':
    typed2.obey(__doc__, fixed_text, SHORT_TEXTS, check, 2)
