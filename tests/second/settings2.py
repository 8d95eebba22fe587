"""Checks the answers of `settings`, the caretakers' program, against the second program's setup.

    settings2.py --write FILE               writes the fixed text that is typed
    settings2.py --last                     prints how many short texts there are: 20, with the numbers 0 to 19
    settings2.py --last N FILE              writes short text N, which is there for its last line
    settings2.py --check FILE GOT PAGE [--some]
                                            compares what the program printed for a text, GOT, with what it must print

A typed line is three decimal numbers, block size, ports and base, with blanks before and after as
one likes and one or more between two numbers. A blank is a space, a tab (9) or a carriage return
(13), all three alike. After the third number there may be one letter m (109), with or without blanks
before it and with only blanks after it: then the setting is a Mighty Mux's, and without it an
EDS-8's, whatever was typed before. The line is answered by `accepted`, by two lines

    refused, N: SENTENCE
    type instead: B P A

the second of which ends with a space and an m for a Mighty Mux, or, where it is no such line or a
number is 2^32 or more, by

    please type three decimal numbers below 4294967296: block size, ports, base; then m for a Mighty Mux

SENTENCE is what the caretaker's page, PAGE, has for the number. A last line without a newline is
answered as if it had one, unless it is empty or has only blanks: then it is not answered.

B is the typed block size if that is 8, 16 or 32, else 32. P is the typed number of ports if that is
1 to 128; 0 becomes 1, and more than 128 become 128. A is the largest base at or below the typed one
that setup of that kind takes with B and P, so the base is kept where it can stay; 0 is always taken.
Exit status 0 only where all lines agree and, without --some, every kind of answer was among them, for
each kind of unit.
"""

import re
from functools import lru_cache

import mux2
import typed2

MOST = 4294967295
HIGHEST = 32767                             # the last word of memory
LEAST = 64                                  # every base that setup takes is a multiple of this: 8b where b is 8
PLEASE = 'please type three decimal numbers below 4294967296: block size, ports, base; then m for a Mighty Mux'
ADVICE = 'type instead: '
LETTERS = {None: mux2.EDS_8, 'm': mux2.MIGHTY_MUX}      # the kind by the letter that follows the numbers

# An entry of the caretaker's page: its number, its sentence, the lines below.
ENTRY = re.compile(r'^ {4,5}(\d+)   (.*)\n((?: {9}.*\n)+)', re.M)

# Only the digits 0 to 9, three blanks and one m: no other control code, no sign, no digit of another script, no other letter.
BLANKS = ' \t\r'
TYPED = re.compile('[ \t\r]*([0-9]+)[ \t\r]+([0-9]+)[ \t\r]+([0-9]+)[ \t\r]*(?:(m)[ \t\r]*)?')

LAST, FURTHER = 'base down to the last multiple', 'base further down, as the area would cross'
ABOVE = ', from above 32767'
WAYS = ('base kept', LAST, LAST + ABOVE, FURTHER, FURTHER + ABOVE)
SIZES = ('block size kept', 'block size becomes 32', 'ports kept', 'ports become 1', 'ports become 128')


def of_kind(kind, what):
    """The name of a kind of answer to a setting of this kind of unit."""
    return f'{mux2.KIND_NAMES[kind]}: {what}'


KINDS = ('please', *(
    of_kind(kind, what) for kind in LETTERS.values()
    for what in ('accepted', *(f'refused, {code}' for code in mux2.SETUP_ROWS), *SIZES, *WAYS)
    if (kind, what) != (mux2.EDS_8, 'refused, 12')))    # row 12 is a Mighty Mux's alone

# What the program must say.

UNIT = mux2.Mux2()                          # setup touches no old record, so one unit answers for all


def refusal(b, ports, base, kind=mux2.EDS_8):
    """What setup says of a setting."""
    return UNIT.setup(b, ports, base, kind=kind)[0]


def setting(line):
    """The three numbers typed and the kind, or None. Zeros in front go first, so that no length is too long to read."""
    typed = TYPED.fullmatch(line)
    if typed is None:
        return None
    *words, letter = typed.groups()
    digits = [word.lstrip('0') or '0' for word in words]
    if any(len(word) > len(str(MOST)) or int(word) > MOST for word in digits):
        return None
    return [*map(int, digits), LETTERS[letter]]


def mended_sizes(b, ports):
    """The block size and ports to type instead, and how each was found."""
    block, how = (b, 'block size kept') if b in mux2.BLOCKS else (32, 'block size becomes 32')
    if ports == 0:
        return block, 1, (how, 'ports become 1')
    if ports > 128:
        return block, 128, (how, 'ports become 128')
    return block, ports, (how, 'ports kept')


def mended_base(b, ports, base, kind=mux2.EDS_8):
    """The largest base at or below the typed one that setup takes, for sizes that are right, and how it was found: by a search
    downwards. The last multiple is that of 8b, and of a Mighty Mux of 256."""
    if refusal(b, ports, base, kind) == 0:
        return base, 'base kept'
    top = min(base, HIGHEST)
    lower = next(a for a in range(top // LEAST * LEAST, -1, -LEAST) if refusal(b, ports, a, kind) == 0)
    multiple = 256 if kind == mux2.MIGHTY_MUX else 8 * b
    return lower, (LAST if top - lower < multiple else FURTHER) + (ABOVE if base > HIGHEST else '')


@lru_cache(maxsize=None)
def answer_and_kinds(line):
    """The lines that answer one typed line, without the sentence, and the kinds of answer they are."""
    typed = setting(line)
    if typed is None:
        return [PLEASE], ('please',)
    b, ports, base, kind = typed
    code = refusal(b, ports, base, kind)
    if code == 0:
        return ['accepted'], (of_kind(kind, 'accepted'),)
    b, ports, sizes = mended_sizes(b, ports)
    base, way = mended_base(b, ports, base, kind)
    letter = ' m' if kind == mux2.MIGHTY_MUX else ''
    return ([f'refused, {code}:', f'{ADVICE}{b} {ports} {base}{letter}'],
            tuple(of_kind(kind, what) for what in (f'refused, {code}', *sizes, way)))


def answer(line):
    """The lines that answer one typed line; of a refusal, without its sentence."""
    return answer_and_kinds(line)[0]


def answered_lines(text):
    """The typed lines that are answered: what stands after the last newline is one only if it is more than blanks."""
    *ended, last = text.split('\n')
    return ended + [last] if last.strip(BLANKS) else ended


# Comparing.

def sentences(page):
    """The sentence that the caretaker's page has for each number."""
    return {number: sentence for number, sentence, _ in ENTRY.findall(page)}


def full(line, told):
    """An expected line with its sentence, if it is a refusal."""
    number = re.fullmatch('refused, ([0-9]+):', line)
    return f'{line} {told.get(number[1])}' if number else line


def bad_advice(line):
    """What is wrong with a setting that one is told to type, whatever was expected, or None."""
    if line is None or not line.startswith(ADVICE):
        return None
    typed = setting(line[len(ADVICE):])
    if typed is None:
        return 'no setting is told'
    code = refusal(*typed)
    return f'setup refuses what one is told to type with {code}' if code else None


def check(text, got, told, some=False):
    """Whether all lines agree and every kind is reached, or only some need be, and what to say."""

    def wanted(line):
        lines, kinds = answer_and_kinds(line)
        return [full(line, told) for line in lines], kinds

    return typed2.compared(KINDS, answered_lines(text), wanted, got, some, bad_advice)


# The texts.

WRONG_BLOCKS = (0, 1, 4, 7, 9, 15, 17, 24, 31, 33, 64, 128, 264, 65544, 2147483680, MOST)
PORTS = (0, 1, 2, 7, 8, 9, 64, 127, 128, 129, 136, 256, 65537, MOST)
FEW_PORTS = (0, 1, 9, 128, 129, MOST)

# One text has one last line only, so each way that it may end without a newline is a text.
SHORT_TEXTS = (
    '',                                     # nothing typed at all
    '   ',
    '  \t\r',
    '8 1 64',
    '8 121 64',                             # refused
    '8,1,64',                               # not three numbers
    '8 1',                                  # not yet three
    '8 1 64 ',
    '8 1 64\n',                             # the newline is the last byte: nothing is left to answer
    '8 8 256 m',                            # a Mighty Mux's
    '8 8 256m',
    '8 8 256 m ',
    '8 8 256\tm\r',
    '8 8 64 m',                             # refused, 12
    '8 8 m',                                # not yet three numbers
    'm',
    '8 8 256 mm',
    '8 8 256 m\n',
    '8 8 256 m\n8 8 64',                    # an EDS-8's after a Mighty Mux's
    '8 8 256 m\n  ',
)


def edges(b):
    """Bases at which setup's answer may change, for blocks of b words."""
    eight, area = 8 * b, 128 * b
    near = (0, eight, area, 2 * area, 32768 - area, 32768, 65536, 2147483648, MOST + 1)
    bases = {edge + by for edge in near for by in (-eight, -1, 0, 1, eight)}
    return sorted(base for base in bases | {4 * b, area - b, 32767, 33000, MOST} if 0 <= base <= MOST)


def mighty_edges(b):
    """Bases at which the answer of a Mighty Mux's setup may change, beside those."""
    near = (0, 256, 512, 128 * b, 32768, 65536, MOST + 1)
    bases = {edge + by for edge in near for by in (-256, -8 * b, -1, 0, 1, 64, 8 * b, 192)}
    return sorted(base for base in bases | {400, 1600, 15360, 15424, 33024, MOST} if 0 <= base <= MOST)


class Typist(typed2.Typist):
    """Writes the lines."""

    def plain(self, *setting):
        return ' '.join(map(str, setting))

    def edge_lines(self):
        """Each block size at each of its edges with few ports, and each number of ports at some of them."""
        for b in mux2.BLOCKS:
            for base in edges(b):
                for ports in FEW_PORTS:
                    yield self.plain(b, ports, base)
            for ports in PORTS:
                for _ in range(8):
                    yield self.plain(b, ports, self.one_of(edges(b)))

    def wrong_block_lines(self):
        """Each wrong block size with each number of ports, at the edges of blocks of 32 and of its own."""
        for b in WRONG_BLOCKS:
            for ports in FEW_PORTS:
                for base in (0, 32767, 32768, self.one_of(edges(32)), self.one_of(edges(b))):
                    yield self.plain(b, ports, base)

    def pair_lines(self):
        """Every two faults of a setting, once for each block size, and all of them."""
        for b in mux2.BLOCKS:
            eight, area = 8 * b, 128 * b
            crossing = area - eight
            for wrong_b, ports, base in (
                    (7, 0, 0), (7, 1, 1), (7, 1, 32768), (7, 9, crossing), (b, 0, 1), (b, 129, 32768),
                    (b, 129, crossing), (b, 1, 32769), (b, 9, crossing + 1), (b, 9, 32768 + crossing),
                    (b, 128, 32768 + crossing), (7, 129, 32769), (b, 0, MOST), (0, 0, MOST)):
                yield self.plain(wrong_b, ports, base)

    def random_lines(self, count):
        """Settings of every size, most of them near to good ones."""
        for _ in range(count):
            b = self.one_of((8, 16, 32))
            base = self.below(self.one_of((32768, 32768, 70000, MOST + 1)))
            if self.below(4):
                base = base // (8 * b) * 8 * b
            yield self.plain(b, 1 + self.below(self.one_of((8, 128, 132))), base)

    def crossing_lines(self):
        """Areas that cross by little, so that the base to type lies at every place in a stretch of 128 blocks."""
        yield from ('32 33 15360', '8 121 64', '16 100 2047')
        for b in mux2.BLOCKS:
            for place in range(1, 16):
                base, room = (place % 8 * 16 + place) * 8 * b, 128 - 8 * place
                for ports in (room + 1, room + 8, room + 9):
                    yield self.plain(b, ports, base)
                    yield self.plain(b, ports, base + 8 * b - 1)

    def good_numbers(self):
        b = self.one_of(mux2.BLOCKS)
        return [str(x) for x in (b, self.one_of((1, 8, 128)), self.one_of((0, 8 * b, 128 * b, 100, 32768)))]

    def spaced_lines(self, count):
        """Lines that are well formed, with more spaces and zeros than needed."""
        for _ in range(count):
            front, *between, back = (' ' * self.one_of((0, 1, 2, 9)) for _ in range(4))
            words = ['0' * self.one_of((0, 0, 1, 2, 12)) + word for word in self.good_numbers()]
            yield front + words[0] + ' ' + between[0] + words[1] + ' ' + between[1] + words[2] + back
        for long in (64, 255, 256, 1000, 5000):
            yield ' ' * long + '8 1 64'
            yield '8 1 64' + ' ' * long
            yield '8' + ' ' * long + '1 64'
            yield '8 1 ' + '0' * long + '64'
            yield '0' * long + '8 1 65'
            yield '0' * long + ' 0 0'

    def too_big_lines(self):
        """Numbers that do not fit, in each place; cut to a width, most of them would be good ones."""
        for place in range(3):
            for add in (0, 1, 8, 32, 64, 128):
                for width in (32, 33, 63, 64, 65, 128):
                    words = ['8', '1', '64']
                    words[place] = self.one_of(('', '', '0', '000')) + str(2 ** width + add)
                    yield ' '.join(words)
            for big in ('4294967295', '4294967296', '4294967299', '4294967300', '9999999999', '10000000000',
                        '42949672960', '9' * 11, '9' * 20, '1' + '0' * 40, '8' * 300, '8' * 5000):
                words = ['8', '1', '64']
                words[place] = big
                yield ' '.join(words)

    def ill_formed_lines(self):
        """Lines that are not three numbers, of each kind, with good ones around the fault; tab and CR may be none."""
        yield from ('', ' ', '    ', '0', '8', '8 1', '8  1 ', ' 8 1', '8164', '8 1 64 0', '8 1 64 64', '8 1 64 0 0',
                    'accepted', 'eight one sixty-four', '8,1,64', '8, 1, 64', '8 1 64.', '8/1/64', '8-1-64', '- - -',
                    '0x8 1 64', '8 1 0x40', '8 1 100o', '8 1 6e1', '8 1 64.0', '8. 1 64', '8 1 1_024', '8 1 1,024',
                    '+8 +1 +64', '-8 1 64', '8 -1 64', '8 1 -64', '8 1 -0', '8 1 +0', '8 1 - 64', '"8 1 64"',
                    '(8 1 64)', '#8 1 64', '8 1 64 # base', '8 1 64;', '8 1 64 please', 'b 8 1 64', '8b 1 64',
                    '8 1p 64', '8 1 a64')
        odd = [chr(code) for code in range(256) if chr(code) not in ' \n0123456789']
        for sign in odd:                    # each other byte once inside, before or after a number, or for a space
            words = self.good_numbers()
            place, where = self.below(3), self.below(5)
            if where == 0:
                words[place] = sign + words[place]
            elif where == 1:
                words[place] += sign
            elif where == 2:
                words[place] = words[place][:1] + sign + words[place][1:] + '0'
            elif where == 3:
                words[place] = sign
            else:
                yield words[0] + sign + words[1] + ' ' + words[2]
                continue
            yield ' '.join(words)
        for sign in '\t\r\0\v\f\x1a\x1c\x7f\x85\xa0\xff+-.,:;/a':     # a blank, or what may pass for one or a number
            yield from (sign, sign + '8 1 64', '8 1 64' + sign, '8 1 64 ' + sign, '8 1' + sign + '64',
                        '8 1 ' + sign + '64', '8 1 6' + sign + '4')
        for word in ('\u0668', '\uff18', '\u00b2', '\u2003', '\ufeff', '\u00bd'):    # of other scripts
            written = word.encode().decode('latin-1')
            yield from (written + ' 1 64', '8 1 64' + written, '8 ' + written + '1 64', '8' + written + '1 64')

    def blank_lines(self):
        """Tabs and carriage returns in each place, alone and mixed with spaces, and next to what is no blank."""
        for blank in ('\t', '\r', '\t\t', '\r\r', ' \t', '\t ', ' \r', '\r ', '\t\r', '\r\t', ' \t\r', '\r\t \t\r'):
            yield from (blank, blank + '8 1 64', '8' + blank + '1 64', '8 1' + blank + '64', '8 1 64' + blank,
                        blank.join(('8', '1', '64')), blank.join(('', '8', '1', '65', '')), '8 1' + blank,
                        blank.join(('', '8', '1', '')), blank.join(('', '8', '1', '6', '4', '')))
        for setting in ('7 0 0', '8 0 64', '8 1 32768', '8 9 960', '8 1 4294967296'):
            yield from (setting + '\r', setting.replace(' ', '\t'))
        for long in (255, 256, 5000):
            yield from ('\t' * long + '8 1 64', '8 1' + '\t\r' * long + '64', '8 1 64' + '\r' * long, '\t' * long)
        for sign in '\b\v\f\x0e\x1f!\x89\x8d':      # next to a blank by its number, or one without its top bit
            yield from (sign + '8\t1\t64\r', '8\t1' + sign + '64\r', '8\t1\t64\r' + sign, '8\t' + sign + '\r1 64')

    def lettered(self, lines):
        """The same lines for a Mighty Mux, with one blank or none before the letter."""
        for line in lines:
            yield line + self.one_of((' m', ' m', ' m', 'm', '\tm'))

    def mighty_edge_lines(self):
        """Each block size at each edge of a Mighty Mux, for both kinds, with ports that just fit and one more."""
        for b in mux2.BLOCKS:
            for base in mighty_edges(b):
                room = 128 - base // b % 128
                for ports in (1, room, room + 1):
                    yield self.plain(b, ports, base) + ' m'
                yield self.plain(b, self.one_of((1, 8, room)), base)

    def mighty_pair_lines(self):
        """Row 12 beside each other fault, and by itself, and next to what is taken."""
        for numbers in ('8 8 64', '16 8 128', '8 1 192', '8 8 320', '8 1 960', '8 1 32704', '16 1 32640',
                        '8 120 64', '8 121 64', '16 121 128', '8 1 32832', '16 1 32896', '8 128 32832', '8 0 64',
                        '8 129 64', '16 0 128', '7 1 56', '24 1 192', '7 0 56', '24 128 192', '8 8 32', '8 8 65',
                        '16 8 64', '32 8 128', '32 8 64', '8 8 257', '8 8 100', '8 8 400', '8 8 1600', '16 8 3200',
                        '8 96 256', '8 97 256', '16 112 256', '16 113 256', '32 120 256', '32 121 256', '8 8 256',
                        '8 8 512', '8 128 0', '8 32 32512', '8 33 32512', '8 8 32767', '8 8 32768', '8 8 33024',
                        '8 33 33024', '8 8 4294967040', '8 8 4294967232', '32 32 15360', '8 8 15424'):
            yield numbers + ' m'
            yield numbers

    def spaced_letters(self):
        """The letter with every sort of blanks before and after it, and many."""
        for blank in ('', ' ', '\t', '\r', '  ', ' \t', '\r ', '\t\r', '\r\t \t\r', ' ' * 255, '\t' * 256, '\r' * 5000):
            for after in ('', ' ', '\t', '\r', ' \t\r', '\r\r'):
                yield '8 8 256' + blank + 'm' + after
                yield '8 8 64' + blank + 'm' + after
            yield from (blank + '8\t8\r256m', '8 8 256m' + blank, '8 8' + blank + 'm', blank + 'm', 'm' + blank,
                        '8 8 256' + blank + 'm' + blank + 'm', '8 8 256' + blank + 'm' + blank + '5',
                        '8 8 256' + blank + 'm' + blank + '0', '8 8' + blank + 'm' + blank + '256', 'm' + blank + '8 8 256',
                        '8' + blank + 'm' + blank + '8 256')
        for zeros in (1, 12, 300):
            yield '0' * zeros + '8 8 ' + '0' * zeros + '256m'

    def wrong_letters(self):
        """Another byte in the letter's place, before it and after it; the letter in every other place."""
        for code in range(256):
            if chr(code) not in '\n':
                yield from ('8 8 256 ' + chr(code), '8 8 256 m' + chr(code), '8 8 256' + chr(code) + 'm')
        yield from ('m', 'm ', ' m', 'mm', 'm 8 8 256', 'm8 8 256', '8m 8 256', '8 m 8 256', '8 8m 256', '8 8 m 256', '8 8 m256',
                    '8m8 256', '8 8m256', '8 8 2m56', '8 8 m', '8 8m', '8 m', '8m', '8 8 256 mm', '8 8 256 m m', '8 8 256mm',
                    '8 8 256m m', '8 8 256 m 5', '8 8 256m5', '8 8 256 m 0', '8 8 256 M', '8 8 256M', '8 8 256 mM', '8 8 256 Mm',
                    '8 8 256 m.', '8 8 256 -m', '8 8 256,m', '8 8 256, m', '8 8 256 "m"', '8 8 256 mighty', '8 8 256 Mighty Mux',
                    '8 8 256 m 8 8 256 m', '8 8 256 m 8 8 256', '8 8 256 8 m', '8 8 256 0m', '-8 8 256 m', '8 8 +256 m')
        for written in ('\uff4d', '\u043c', '\u1e41'):     # letters of other scripts, and one with a dot
            yield '8 8 256 ' + written.encode().decode('latin-1')

    def too_big_lettered(self):
        """Numbers that do not fit, and the largest that do, before the letter."""
        for place in range(3):
            for big in ('4294967295', '4294967296', '4294967552', '18446744073709551872', '9' * 11, '8' * 300):
                words = ['8', '8', '256']
                words[place] = big
                yield ' '.join(words) + ' m'
                yield ' '.join(words) + 'm'

    def mighty_lines(self):
        """The lines for a Mighty Mux; those for an EDS-8 are written before them, by the numbers that they always had."""
        yield from self.lettered([*self.edge_lines(), *self.wrong_block_lines(), *self.pair_lines(), *self.random_lines(300),
                                  *self.crossing_lines()])
        yield from self.mighty_edge_lines()
        yield from self.mighty_pair_lines()
        yield from self.spaced_letters()
        yield from self.wrong_letters()
        yield from self.too_big_lettered()

    def nothing_carried_over(self):
        """After each sort of line with the letter one without it, which a Mighty Mux would be refused, and the other way round."""
        for line in ('8 8 256 m', '8 8 256m', '8 8 64 m', '7 0 56 m', '8 129 64 m', '8 1 32832 m', '8 97 256 m', '8 8 m', 'm',
                     '8 8 256 mm', '8 8 256 m 5', '8 8 4294967296 m', '8 8 256 M'):
            yield from (line, '8 8 64', line, '', '8 8 64', line, '16 8 384', line, '8 121 64')
        for line in ('8 8 64', '8 8 65', '8 8', ''):
            yield from (line, '8 8 64 m', line, '8 8 64m')

    def lines(self):
        """All the lines, mixed, so that each kind comes after each other kind; then some in their order."""
        lines = [*self.edge_lines(), *self.wrong_block_lines(), *self.pair_lines(), *self.random_lines(500),
                 *self.spaced_lines(150), *self.too_big_lines(), *self.ill_formed_lines(), *self.crossing_lines(),
                 *self.blank_lines()]
        lines += self.mighty_lines()
        return self.mixed(lines) + list(self.nothing_carried_over())


def fixed_text():
    """The text that is typed: one byte a character; the last line has no newline and is answered all the same."""
    return ''.join(line + '\n' for line in Typist().lines()) + '8 1 65'


# The orders.

def check_by_page(text, got, page, some):
    return check(text, got, sentences(page), some)


if __name__ == '__main__':
    typed2.obey(__doc__, fixed_text, SHORT_TEXTS, check_by_page, 3)
