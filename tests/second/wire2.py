"""Frames on a sampled line (02, K3), for comparison with the proved ones.

Written from the words of request K3 of document 02, the readings that settle it and section 4.2 of the manual of 1974 (001),
without sight of the definitions or the code. It takes the words as they stand: a frame is a list of bauds, each a space or a
mark; each of them is sounded for two cells, and the whole is cut to the number of cells that the frame has, as a last stop may
be half a baud. The reader takes the cells apart in pairs, a baud each, and asks of the pairs what the request asks. The four
functions `length`, `frame`, `read` and `form_of` say it all; `Wire` is the line that a driver keeps, 512 cells of which a part is
lent, with one method for each order. Each branch has a name, and `reached` counts how often it was taken.
"""

from collections import namedtuple
from functools import lru_cache

import mux2

CELLS = 512                                             # of the line that a driver keeps
SPACE, MARK = 0, 1
NONE, ODD, EVEN = range(3)                              # what parity may be
ONE, ONE_AND_A_HALF, TWO = 2, 3, 4                      # what the stops may be, in cells
NO_ROOM, TOO_SHORT, NO_FRAME = 18, 19, 20               # the refusals: of writing, of reading, of reading

Form = namedtuple('Form', 'bits parity stops')
FORMS = [Form(bits, parity, stops) for stops in (ONE, ONE_AND_A_HALF, TWO) for parity in (NONE, ODD, EVEN)
         for bits in (5, 6, 7, 8)]                      # by their numbers, bits + 4 * parity + 12 * stops (FORMAT.md)

Reading = namedtuple('Reading', 'code byte parity brk')     # the refusal number; the character and its two marks


# Writing.

def length(form):
    """How many cells a frame has: two for the start, for each data bit and for a parity bit, then those of the stops."""
    return 2 * (1 + form.bits + (form.parity != NONE)) + form.stops


def cut(form, character):
    """The character's data bits, lowest first; bits above its length are not sent."""
    return [character // 2 ** place % 2 for place in range(form.bits)]


def parity_bits(form, data):
    """The parity bit, if there is one: that with which the ones of data and parity bit together are odd, or even."""
    if form.parity == NONE:
        return []
    asked = {ODD: 1, EVEN: 0}[form.parity]
    return [bit for bit in (0, 1) if (data.count(1) + bit) % 2 == asked]


def frame(form, character):
    """The cells of a frame: start, data, parity and two stops, each for two cells; one stop, or one and a half, are cut off."""
    data = cut(form, character)
    bauds = [SPACE] + data + parity_bits(form, data) + [MARK, MARK]
    return [level for baud in bauds for level in (baud, baud)][:length(form)]


# Reading.

def taken_apart(form, cells):
    """The pairs of levels of the start, of the data bits, of the parity bit, if there is one, and of the first stop."""
    levels = [SPACE if cell == 0 else MARK for cell in cells[:length(form)]]
    pairs = zip(levels[::2], levels[1::2])
    start = next(pairs)
    data = [next(pairs) for _ in range(form.bits)]
    parity = [next(pairs)] if form.parity != NONE else []
    return start, data, parity, next(pairs)


def read(form, cells):
    """What a list of cells is read as; it may be longer than the frame."""
    if len(cells) < length(form):
        return Reading(TOO_SHORT, 0, 0, 0)
    start, data, parity, stop = taken_apart(form, cells)
    if start != (SPACE, SPACE) or any(first != second for first, second in data + parity):
        return Reading(NO_FRAME, 0, 0, 0)
    bits = [first for first, second in data]
    byte = sum(bit * 2 ** place for place, bit in enumerate(bits))
    wrong = [first for first, second in parity] != parity_bits(form, bits)
    return Reading(0, byte, int(wrong), int(SPACE in stop))


# The EDS-8's control bits.

def form_of(control):
    """The form that eight control bits, in their order, ask for (001, 4.2)."""
    bit = dict(enumerate(control, 8))                   # by the manual's numbers
    bits = {(0, 0): 5, (0, 1): 6, (1, 0): 7, (1, 1): 8}[bit[10], bit[11]]
    parity = NONE if bit[8] == 1 else {0: ODD, 1: EVEN}[bit[12]]
    return Form(bits, parity, {0: ONE, 1: TWO}[bit[9]])


# Names of branches.

PARITY_NAMES = {NONE: 'no parity', ODD: 'odd parity', EVEN: 'even parity'}
STOP_NAMES = {ONE: '1 stop', ONE_AND_A_HALF: '1.5 stops', TWO: '2 stops'}
MARKS = {(0, 0): 'unmarked', (1, 0): 'parity mark', (0, 1): 'break mark', (1, 1): 'both marks'}
HALVES = {(0, 1): 'the first half', (1, 0): 'the second half', (0, 0): 'both halves'}      # those that are spaces
PAIRS = {(1, 0): 'mark and space', (0, 1): 'space and mark'}
MISSING = {1: 'one cell short', 2: 'two cells short', 3: 'three cells short'}
HOW_SHORT = (*MISSING.values(), 'more cells short', 'nothing lent', 'all but the later stops', 'all but the stops')


def said_of(form):
    """A form in words."""
    return f'{form.bits} bits, {PARITY_NAMES[form.parity]}, {STOP_NAMES[form.stops]}'


BRANCHES = (
    [f'{said_of(form)}: {what}' for form in FORMS for what in (
        'written', 'refused 18', 'refused 19', 'refused 20', *(
            name for (parity, _), name in MARKS.items() if form.parity != NONE or not parity))]
    + [f'write: {what}' for what in ('just room enough', 'room left', 'up to the last cell of the line')]
    + [f'write: parity bit {bit}, {PARITY_NAMES[parity]}' for parity in (ODD, EVEN) for bit in (0, 1)]
    + [f'write: cut to {bits}{what}' for bits in (5, 6, 7) for what in ('', ', ones above it would turn the parity bit')]
    + [f'{what}: {how}' for what in ('write refused 18', 'read refused 19') for how in HOW_SHORT]
    + [f'read refused 19: {what}' for what in (
        'the start is wrong as well', 'halves differ as well', 'nothing else is wrong',
        'nothing else is wrong, stops alone missing')]
    + [f'read refused 20: marks in the start, {half}' for half in HALVES.values()]
    + [f'read refused 20: data bit {place} alone, {pair}' for place in range(8) for pair in PAIRS.values()]
    + [f'read refused 20: parity bit alone, {pair}, {PARITY_NAMES[parity]}' for parity in (ODD, EVEN) for pair in PAIRS.values()]
    + [f'read refused 20: {what}' for what in (
        'start and halves', 'halves of more bits than one', 'start by another byte than 1')]
    + [f'read: {what}' for what in ('list of just its length', 'longer list')]
    + [f'read: break by {half} of the first stop' for half in HALVES.values()]
    + [f'read: later stop cell {place} is a space, {marks}' for place in (3, 4) for marks in MARKS.values()]
    + [f'read: wrong parity bit {bit}, {PARITY_NAMES[parity]}' for parity in (ODD, EVEN) for bit in (0, 1)]
    + [f'read: a mark by another byte than 1 in {where}' for where in (
        'the data', 'the parity bit', 'the first stop', 'later stops')]
    + [f'read: halves alike in level alone in {where}' for where in ('the data', 'the parity bit')]
    + [f'control bits ask for {said_of(form)}' for form in FORMS if form.stops != ONE_AND_A_HALF]
    + ['control bits: parity mode without effect']
    + [f'from the wire, {kind}: {what}' for kind in mux2.KIND_NAMES for what in (
        *MARKS.values(), 'replaces a character', 'in a stopped unit', 'reading refused 19', 'reading refused 20',
        'reading refused of an unsound record', 'reading refused at no port', 'arrival refused 6', 'arrival refused 8',
        'arrival refused 8, port 128 or above')])
NONE_REACHED = dict.fromkeys(BRANCHES, 0)


@lru_cache(maxsize=None)
def filling(x, m):
    """The cells that order 18 makes."""
    cells = bytearray()
    for _ in range(CELLS):
        x = x * 48271 % 2147483647
        cells.append(x // 16 % m)
    return bytes(cells)


class Wire:
    """The line's cells, those of them that are lent, and what the orders do with them."""

    def __init__(self):
        self.cells = bytearray(CELLS)
        self.first = self.count = 0                     # where the cells lent begin, and how many are asked for
        self.reached = NONE_REACHED.copy()

    def hit(self, branch):
        self.reached[branch] += 1

    # The host.

    def put(self, place, word):
        """Four cells, the word's highest byte first; none past the end."""
        for at, byte in enumerate(word.to_bytes(4, 'big'), place):
            if at < CELLS:
                self.cells[at] = byte

    def fill(self, x, m):
        self.cells[:] = filling(x, m)

    def lend(self, first, count):
        self.first, self.count = first, count

    def lent(self):
        """The cells lent; none past the end."""
        return self.cells[self.first:self.first + self.count]

    # Frames.

    def write(self, number, byte):
        """A frame of the character, put into the first of the cells lent: the refusal number, and how many cells it has."""
        form, room = FORMS[number], len(self.lent())
        if room < length(form):
            self.note_short('write', NO_ROOM, form, room)
            return NO_ROOM, 0
        self.note_written(form, byte, room)
        cells = frame(form, byte)
        self.cells[self.first:self.first + len(cells)] = bytes(cells)
        return 0, len(cells)

    def read(self, number):
        """A frame, read from the first of the cells lent: the refusal number, the character, both marks, the cells it has."""
        form = FORMS[number]
        reading = self.reading(form)
        return (*reading, 0 if reading.code else length(form))

    def reading(self, form):
        """A frame of this form, read from the cells lent."""
        cells = self.lent()
        reading = read(form, cells)
        self.note_reading(form, cells, reading)
        return reading

    def form(self, control):
        """The number of the form that a control byte asks for."""
        form = form_of(mux2.BYTE_BITS[control])
        self.note_form(form, mux2.BYTE_BITS[control])
        return FORMS.index(form)

    def arrive(self, mux, port):
        """A frame, read by the control bits of a port of the unit; what is read arrives there: the refusal number of the reading,
        the character, both marks, the refusal number of the arrival."""
        form = form_of(mux.record.port[port % mux2.ARRAY].control)
        reading = self.reading(form)
        self.note_arrival(mux, port, reading)
        called = 0
        if reading.code == 0:
            called = mux.arrival(port, reading.byte, reading.parity, reading.brk)
            self.note_called(mux, port, called)
        return (*reading, called)

    # Counts alone; none of these changes anything.

    def note_short(self, call, code, form, room):
        """A list that is shorter than the frame."""
        self.hit(f'{said_of(form)}: refused {code}')
        missing = length(form) - room
        self.hit(f'{call} refused {code}: {MISSING.get(missing, "more cells short")}')
        if room == 0:
            self.hit(f'{call} refused {code}: nothing lent')
        if 0 < missing <= form.stops - 2:
            self.hit(f'{call} refused {code}: all but the later stops')
        if missing == form.stops:
            self.hit(f'{call} refused {code}: all but the stops')

    def note_written(self, form, byte, room):
        self.hit(f'{said_of(form)}: written')
        self.hit('write: just room enough' if room == length(form) else 'write: room left')
        if self.first + length(form) == CELLS:
            self.hit('write: up to the last cell of the line')
        above = bin(byte >> form.bits).count('1')
        if above:
            self.hit(f'write: cut to {form.bits}')
        if form.parity != NONE:
            self.hit(f'write: parity bit {parity_bits(form, cut(form, byte))[0]}, {PARITY_NAMES[form.parity]}')
            if above % 2:
                self.hit(f'write: cut to {form.bits}, ones above it would turn the parity bit')

    def note_reading(self, form, cells, reading):
        if reading.code == TOO_SHORT:
            self.note_short('read', TOO_SHORT, form, len(cells))
            self.note_else(form, cells)
        elif reading.code == NO_FRAME:
            self.hit(f'{said_of(form)}: refused 20')
            self.note_no_frame(form, cells)
        else:
            self.hit(f'{said_of(form)}: {MARKS[reading.parity, reading.brk]}')
            self.note_read(form, cells, reading)

    def note_else(self, form, cells):
        """What else is wrong with a list that is too short, if the half and the bauds that are missing are taken as right."""
        there = [*cells, *cells[len(cells) // 2 * 2:]] or [SPACE, SPACE]
        start, data, parity, _ = taken_apart(form, there + [MARK] * (length(form) - len(there)))
        if start != (SPACE, SPACE):
            self.hit('read refused 19: the start is wrong as well')
        if any(first != second for first, second in data + parity):
            self.hit('read refused 19: halves differ as well')
        elif start == (SPACE, SPACE):
            self.hit('read refused 19: nothing else is wrong')
            if len(cells) >= length(form) - form.stops:
                self.hit('read refused 19: nothing else is wrong, stops alone missing')

    def note_no_frame(self, form, cells):
        start, data, parity, _ = taken_apart(form, cells)
        differ = [place for place, (first, second) in enumerate(data + parity) if first != second]
        if start != (SPACE, SPACE):
            half = HALVES[1 - start[0], 1 - start[1]]
            self.hit(f'read refused 20: marks in the start, {half}')
            if max(cells[:2]) > 1:
                self.hit('read refused 20: start by another byte than 1')
            if differ:
                self.hit('read refused 20: start and halves')
        elif len(differ) > 1:
            self.hit('read refused 20: halves of more bits than one')
        elif differ[0] < form.bits:
            self.hit(f'read refused 20: data bit {differ[0]} alone, {PAIRS[data[differ[0]]]}')
        else:
            self.hit(f'read refused 20: parity bit alone, {PAIRS[parity[0]]}, {PARITY_NAMES[form.parity]}')

    def note_read(self, form, cells, reading):
        self.hit('read: list of just its length' if len(cells) == length(form) else 'read: longer list')
        *_, parity, stop = taken_apart(form, cells)
        if reading.parity:
            self.hit(f'read: wrong parity bit {parity[0][0]}, {PARITY_NAMES[form.parity]}')
        if reading.brk:
            self.hit(f'read: break by {HALVES[stop]} of the first stop')
        after_data, stops = 2 + 2 * form.bits, length(form) - form.stops
        parts = {'the data': cells[2:after_data], 'the parity bit': cells[after_data:stops],
                 'the first stop': cells[stops:stops + 2], 'later stops': cells[stops + 2:length(form)]}
        for where, part in parts.items():
            if max(part, default=0) > 1:
                self.hit(f'read: a mark by another byte than 1 in {where}')
            if part[::2] != part[1::2] and where in ('the data', 'the parity bit'):
                self.hit(f'read: halves alike in level alone in {where}')
        for place, cell in enumerate(parts['later stops'], 3):
            if cell == SPACE:
                self.hit(f'read: later stop cell {place} is a space, {MARKS[reading.parity, reading.brk]}')

    def note_form(self, form, control):
        self.hit(f'control bits ask for {said_of(form)}')
        if form.parity == NONE and control[4]:
            self.hit('control bits: parity mode without effect')

    def note_arrival(self, mux, port, reading):
        """What is read for an arrival; the unit is as it was before."""
        kind, r = mux2.KIND_NAMES[mux.record.kind], mux.record
        if reading.code:
            self.hit(f'from the wire, {kind}: reading refused {reading.code}')
            if r.ports == 0 or r.fill > mux2.STACK:
                self.hit(f'from the wire, {kind}: reading refused of an unsound record')
            elif port >= r.ports:
                self.hit(f'from the wire, {kind}: reading refused at no port')
            return
        self.hit(f'from the wire, {kind}: {MARKS[reading.parity, reading.brk]}')
        if port < r.ports and r.port[port].held:
            self.hit(f'from the wire, {kind}: replaces a character')
        if not r.runs:
            self.hit(f'from the wire, {kind}: in a stopped unit')

    def note_called(self, mux, port, called):
        if called:
            kind = mux2.KIND_NAMES[mux.record.kind]
            self.hit(f'from the wire, {kind}: arrival refused {called}')
            if called == 8 and port >= mux2.ARRAY:
                self.hit(f'from the wire, {kind}: arrival refused 8, port 128 or above')
