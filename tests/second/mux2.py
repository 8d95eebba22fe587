"""A second EDS-8 and Mighty Mux, for comparison with the proved ones.

Written from document 01, requests K1, K2, K5, K6, K7 and K10 of document 02 (K3 is in wire2.py, and K4 asks nothing of
it), the manuals of 1974 (001) and 1982 (000) and the readings of docs/DECISIONS.md, without sight of the definitions or
the code. It takes another road than the proved program: a word is a list of sixteen 0s and 1s indexed by the
manual's bit numbers, a port is an immutable object, a stack is a tuple, and memory is a bytearray
in which a byte pointer is simply an index. Each branch of document 01, of K6 and of K7 has a
name, and `reached` counts how often it was taken.
"""

from collections import namedtuple

WORDS = 32768                   # the host's memory, in words
ROOM = 40000                    # words kept here, so that other lengths can be lent
PLACES = 4200                   # places kept for a sweep's list
ARRAY = 128                     # places in the record's array of ports
CODES = 128                     # the seven-bit codes
STACK = 40                      # places of a Mighty Mux's stack (000, 2.4.7)

EDS_8, MIGHTY_MUX = range(2)                            # the kinds of unit (02, K6)
KIND_NAMES = ('EDS-8', 'Mighty Mux')
NOTHING, IDLE, INPUT, OUTPUT = range(4)                 # what a turn may be
Answer = namedtuple('Answer', 'turn port sent byte raised')
NO_ANSWER = Answer(NOTHING, 0, 0, 0, 0)

# Bits: index 0 is the top bit, as in the manuals.
BYTE_BITS = [tuple(int(d) for d in format(n, '08b')) for n in range(256)]
BYTE_OF = {bits: n for n, bits in enumerate(BYTE_BITS)}


def bits_of(word):
    return list(BYTE_BITS[word // 256] + BYTE_BITS[word % 256])


def word_of(bits):
    return BYTE_OF[tuple(bits[:8])] * 256 + BYTE_OF[tuple(bits[8:])]


# Bits 4 and 5 of ICW (001, 4.1).
NONE, PARITY, OVERLOAD, BREAK = [0, 0], [0, 1], [1, 0], [1, 1]

# A port: the held character with its marks, then the transmitter and the lines.
# `control` holds the control bits 8 to 15 as a tuple of eight.
Port = namedtuple('Port', 'held byte parity brk overload empty control level line')
ZERO_PORT = Port(0, 0, 0, 0, 0, 0, BYTE_BITS[0], 0, 0)
FRESH_PORT = ZERO_PORT._replace(empty=1, level=1)


def set_of(special):
    """The set of special codes (02, K5) that has these: a 1 for each special code and a 0 for each ordinary one, in order."""
    return tuple(int(code in special) for code in range(CODES))


def with_code(codes, code, yes):
    """A set with this word on this code and every other as it was."""
    return codes[:code] + (yes,) + codes[code + 1:]


def special_1974(low):
    """Document 01's rule: below octal 40 or above octal 173."""
    return low < 0o40 or low > 0o173


def low_seven(character):
    """The code that a set is asked about: the character's low seven bits."""
    return BYTE_OF[(0,) + character[1:]]


GLOTTAL_STOP = 0o174                                    # as the dictionary writes it
SET_1974 = set_of([low for low in range(CODES) if special_1974(low)])
DICTIONARY = with_code(SET_1974, GLOTTAL_STOP, 0)
EVERY_CODE, NO_CODE = set_of(range(CODES)), set_of(())


EMPTY_STACK = (0,) * STACK


def with_word(stack, place, word):
    """A stack with this word in this place and every other as it was."""
    return stack[:place] + (word,) + stack[place + 1:]


class Record:
    """What the unit remembers; as made here, the record of zeros."""

    def __init__(self):
        self.block = self.ports = self.base = self.pos = 0
        self.runs = self.clock = self.irq = self.status = 0
        self.kind = EDS_8
        self.lost = self.fill = 0       # the lost mark and the number of entries
        self.stack = EMPTY_STACK        # the oldest entry in place 0; those past the last entry are free
        self.codes = NO_CODE            # the set of special codes
        self.port = [ZERO_PORT] * ARRAY


class Memory:
    """The host's words, kept as bytes: an even pointer is a left half."""

    def __init__(self):
        self.halves = bytearray(2 * ROOM)
        self.lent = WORDS

    def word(self, address):
        return self.halves[2 * address] * 256 + self.halves[2 * address + 1]

    def put(self, address, word):
        self.halves[2 * address] = word // 256
        self.halves[2 * address + 1] = word % 256

    def byte(self, pointer):
        return self.halves[pointer]

    def put_byte(self, pointer, byte):
        self.halves[pointer] = byte


BLOCKS = (8, 16, 32)            # the sizes of a control block, in words

# The rows of document 01's table that setup asks, in their order (02, K1: 11 right after 3; K7: 12 after 3 and 11, before 4;
# K10: no row 5): each number, and when it is given if no row above it was. Row 12 is a Mighty Mux's alone (000, 3.7.7). A
# sound record (6) passes the same rows, with the kind that it has.
SETUP_ROWS = {
    1: lambda b, ports, base, kind: b not in BLOCKS,
    2: lambda b, ports, base, kind: ports == 0 or ports > 128,
    3: lambda b, ports, base, kind: base % (8 * b) != 0,
    11: lambda b, ports, base, kind: base > 32767,
    12: lambda b, ports, base, kind: kind == MIGHTY_MUX and base % 0o400 != 0,
    4: lambda b, ports, base, kind: base // (128 * b) != (base + ports * b - 1) // (128 * b),
}

SETUP_CALLS = {'setup': tuple(SETUP_ROWS)}
PLAIN_CALLS = ('reset', 'iopls', 'start', 'doc', 'dob', 'dia', 'dias', 'tick')
LINE_CALLS = ('arrival', 'transmitted', 'device_status')
REFUSALS = {**SETUP_CALLS, **{call: (6,) for call in PLAIN_CALLS},
            **{call: (6, 8) for call in LINE_CALLS},
            'inspect': (6, 7), 'sweep': (6, 7, 9, 10)}

# How an old pointer may stand to the end that its automatic buffer reaches (02, K2), for input and output each.
ENDS = ('end reached exactly', 'last place of memory: 65534, end 65535',
        'pointer already at the end', 'pointer already past the end',
        'done from 65535 to 0, end 65535', 'done from 65535 to 0, end 0', 'done from 65535 to 0, end between',
        'done, end 0')

# The sets that a setup may be given (02, K5).
SETS = {SET_1974: 'the 1974 set', DICTIONARY: "the dictionary's set", EVERY_CODE: 'every code special',
        NO_CODE: 'no code special'}
ANOTHER = 'another set'

# What a set may say, for input in 7-bit ASCII mode and for output with the special request each, and of which code.
SAID = ('input 5: special', 'input 6: ordinary in 7-bit ASCII',
        'output 01: special, asked for', 'output 01: ordinary, special asked for')
SAID_OF = ('unlike 1974', 'glottal stop', 'top bit 1')

# What the stack of a Mighty Mux may meet (02, K6), and what an EDS-8 or a reset may find of one.
SERVICES = {2: 'input', 3: 'output'}
CALLS = (*PLAIN_CALLS, *LINE_CALLS, 'inspect', 'sweep')
OVERFULL = {STACK + 1: 'one', 4294967295: 'all'}        # how many entries too many
REMOVALS = ('none there', 'none there, lost mark cleared', 'entries remain', 'entries remain, lost mark kept',
            'the last', 'the last, lost mark cleared')
STACK_BRANCHES = (
    [f'setup {verdict} as {kind}' for verdict in ('accepted', 'refused') for kind in KIND_NAMES]
    + [f'{call} {verdict}, {kind}' for call in CALLS for kind in KIND_NAMES
       for verdict in ('accepted with 40 entries', 'refused 6 with too many entries')]
    + [f'unsound: too many entries by {count}, {kind}' for count in (*OVERFULL.values(), 'some') for kind in KIND_NAMES]
    + [f'stack: {service} queued in {place}' for service in SERVICES.values()
       for place in ('the first place', 'a place between', 'the last place')]
    + [f'stack: {service} lost, {mark}' for service in SERVICES.values() for mark in ('the first', 'a further one')]
    + [f'stack: address unlike the port number, b {b}' for b in BLOCKS]
    + ['stack: address like the port number', 'stack: freed place used again', 'stack: last place used again',
       'stack: queued beside the lost mark', 'stack: queued over a word that is not 0',
       'stack: queued before words that are not 0', 'stack: raised beside a tick', 'stack: raised beside status bits 1 to 15',
       'stack: raised with the flag off beside entries']
    + [f'{call}: {entry}, {mark}, bit 0 {bit}' for call in ('dia', 'dias') for entry in ('an entry', 'no entry')
       for mark in ('lost mark', 'no lost mark') for bit in ('on', 'off')]
    + [f'{call}: {what}' for call in ('dia', 'dias') for what in (
        'bits 0 and 1 of an entry not shown', 'status bits 1 to 15 not shown', 'place 0 not shown without an entry')]
    + [f'{call} removes: {what}' for call in ('start', 'dias') for what in REMOVALS]
    + [f'{call} on a Mighty Mux: {what}' for call in ('start', 'dias') for what in (
        'flag goes off', 'flag stays on', 'flag goes on', 'flag stays off', 'bit 0 cleared, entries remain',
        'bit 0 cleared, none remain', 'status bits 1 to 15 cleared', 'words past the last entry move down',
        'words stay without an entry')]
    + [f'tick with the clock on, {kind}, {entry}' for kind in KIND_NAMES for entry in ('entries', 'no entry')]
    + [f'EDS-8 with entries or the lost mark: {what}' for what in ('interrupt', 'start', 'dia', 'dias')]
    + [f'reset, {kind}: {what}' for kind in KIND_NAMES for what in (
        'entries dropped', 'lost mark cleared', 'words past the last entry cleared', 'stack empty')]
    + [f'sweep: {where} a lost interrupt' for where in ('stops at', 'ends with')]
    + ['sweep: stops at a queued interrupt'])

# What a base that an EDS-8 may have and a Mighty Mux may not meets (02, K7): no multiple of octal 400, and all else right.
SMALL_BLOCKS = (8, 16)          # in blocks of 32 row 3 asks as much
BASE_BRANCHES = (
    [f'{call} {verdict}' for call in CALLS for verdict in (
        'accepted at a base for an EDS-8 alone', 'refused 6 for the base of a Mighty Mux alone')]
    + [f'setup {verdict}, b {b}' for b in SMALL_BLOCKS for verdict in (
        'refused 12 for the base alone', 'refused 12 before 4', 'refused 11 before 12',
        'accepted as EDS-8 at a base for it alone', 'refused 4 as EDS-8 at a base for it alone')]
    + [f'setup {verdict} of a Mighty Mux, b {b}' for b in BLOCKS for verdict in (
        'refused 2 before 12', 'refused 3 before 12', 'refused 4 at a multiple of 256')]
    + [f'setup accepted of a Mighty Mux, b {b}, at {where}' for b in BLOCKS for where in (
        '0', 'a multiple of 512', 'another multiple of 256', 'the last one')]
    + ['setup refused 1 before 12']
    + [f'unsound: setup gives 12, {what}' for what in (
        'sound as an EDS-8', 'the area of an EDS-8 would cross', 'position as well', 'too many entries as well')])

BRANCHES = (
    [f'{call} refused {code}' for call, codes in REFUSALS.items() for code in codes]
    + [f'{call} accepted' for call in REFUSALS]
    + [f'unsound: setup gives {code}' for code in SETUP_ROWS]
    + [f'setup refused 11, b {b}: {where}' for b in BLOCKS for where in ('at 32768', 'far from it')]
    + [f'setup refused {code} before 11' for code in (1, 2, 3)]
    + [f'setup accepted, b {b}: area ends at 32768' for b in BLOCKS]
    + [f'setup refused 4, b {b}: area would end past 32768' for b in BLOCKS]
    + [f'{service}: in the last block of memory, b {b}' for service in ('input', 'output') for b in BLOCKS]
    + ['setup refused 11 before 4', 'unsound: position', 'sweep refused 9 before 10',
       'arrival at a free port', 'arrival replaces a character', 'arrival replaces a marked one',
       'arrival is cut to 5', 'arrival is cut to 6', 'arrival is cut to 7', 'arrival of 8',
       'arrival in a stopped unit', 'transmitter becomes empty', 'transmitter already empty',
       'line changes', 'line keeps its level',
       'reset drops a character', 'reset empties a transmitter', 'reset clears speed bits',
       'tick with the clock on', 'tick with the clock off',
       'turn: stopped', 'turn: input', 'turn: input before output', 'turn: output', 'turn: idle',
       'turn: position steps', 'turn: position starts again',
       'code: overload', 'code: overload before break', 'code: break', 'code: break before parity',
       'code: parity', 'code: parity inhibited', 'code: none',
       'input 1: INDONE already set', 'input 2: no input asked', 'input 3: single',
       'input 4: error', 'input 5: special', 'input 6: stored',
       'input: top bit set in ICW', 'input: top bit set in the buffer',
       'input 6: ordinary in 7-bit ASCII', 'input 6: special code outside 7-bit ASCII',
       'input 6: left half', 'input 6: right half',
       'input 6: last byte', 'input 6: not last', 'input 6: no echo asked',
       'input 6: echoed', 'input 6: last byte echoed',
       'input 6: transmitter busy', 'input 6: last byte, transmitter busy',
       'input 6: buffer on ICW, done', 'input 6: buffer on ICW, not done',
       'input 6: buffer on IBP', 'input 6: buffer on LIB', 'input: done', 'input: ICW not written',
       'output: OUTDONE already set', 'output: OUTDONE set, bit 7 becomes 1',
       'output 00: nothing', 'output 01: automatic', 'output 01: last byte', 'output 01: not last',
       'output 01: special, asked for', 'output 01: special, not asked for',
       'output 01: neither', 'output 01: last byte and special', 'output 01: byte fetched from OBP',
       'output 10: port control', 'output 11: single',
       'output: line differs', 'output: line as read', 'output: bit 7 kept at 1',
       'output: bit 7 alone makes it done', 'output: bit 7 and mode make it done',
       'output: bit 7 was 1, line differs', 'output: bit 6 cleared', 'output: bit 6 kept',
       'output: done', 'output: not done',
       'pointer steps', 'pointer steps from 65535 to 0',
       'interrupt: first', 'interrupt: more than one', 'interrupt beside a tick',
       'interrupt: base below 128 blocks', 'interrupt: base of 128 blocks or more',
       'sweep: stopped unit', 'sweep of none', 'sweep: stops on an interrupt', 'sweep: all made',
       'sweep: interrupt at the last one', 'sweep of 4096', 'sweep: byte listed', 'sweep: no byte']
    + [f'{rule}: {where}' for rule in ('input 6', 'output 01') for where in ENDS]
    + [f'setup {verdict} with {name}' for verdict in ('accepted', 'refused') for name in (*SETS.values(), ANOTHER)]
    + [f'{said}, {which}' for said in SAID for which in SAID_OF]
    + [f'input 6: glottal stop in 7-bit ASCII, {what}' for what in (
        'not reported', 'fills the buffer', 'echoed', 'transmitter busy')]
    + ['reset keeps the 1974 set', 'reset keeps another set', 'input 6: five bits in 7-bit ASCII',
       'output 01: ordinary, special asked for', 'output 01: glottal stop passes the special request']
    + [f'speed {code:03b}' for code in range(8)]
    + STACK_BRANCHES + BASE_BRANCHES)
NONE_REACHED = dict.fromkeys(BRANCHES, 0)               # copied for each unit, as that is faster


class Mux2:
    """The unit, the host's memory and the list, with one method for each call."""

    set_1974 = SET_1974                 # for a driver, which hands a set over at each setup

    def __init__(self, memory=None):
        self.record = Record()
        self.memory = memory or Memory()
        self.places = [0] * PLACES      # the sweep's list
        self.lent_places = 0            # how many of them are lent
        self.reached = NONE_REACHED.copy()
        self.services = 0
        self.highest = 0                # most entries since setup or reset, for a count alone

    def hit(self, branch):
        self.reached[branch] += 1

    def change(self, p, **fields):
        self.record.port[p] = self.record.port[p]._replace(**fields)

    # Refusals, in the order of the table.

    def setup_refusal(self, b, ports, base, kind):
        for number, applies in SETUP_ROWS.items():
            if applies(b, ports, base, kind):
                return number
        return 0

    def unsound(self):
        r = self.record
        code = self.setup_refusal(r.block, r.ports, r.base, r.kind)
        if code:
            self.hit(f'unsound: setup gives {code}')
            if code == 12:
                self.note_unsound_base()
            return True
        if r.pos >= r.ports:
            self.hit('unsound: position')
            return True
        if r.fill > STACK:
            self.hit(f'unsound: too many entries by {OVERFULL.get(r.fill, "some")}, {KIND_NAMES[r.kind]}')
            return True
        return False

    def table(self, memory, port, inspections):
        if self.unsound():
            return 6
        if memory and self.memory.lent != WORDS:
            return 7
        if port is not None and port >= self.record.ports:
            return 8
        if inspections is not None and inspections > 4096:
            return 9
        if inspections is not None and self.lent_places < inspections:
            return 10
        return 0

    def refusal(self, call, memory=False, port=None, inspections=None):
        code = self.table(memory, port, inspections)
        self.hit(f'{call} refused {code}' if code else f'{call} accepted')
        if code == 9 and self.lent_places < inspections:
            self.hit('sweep refused 9 before 10')
        if self.record.fill >= STACK:
            self.note_entries(call, code)
        if self.record.base % 0o400:
            self.note_base(call, code)
        return code

    def note_entries(self, call, code):
        """Counts the calls that find as many entries as there may be, or more; changes nothing."""
        kind = KIND_NAMES[self.record.kind]
        if code == 0:
            self.hit(f'{call} accepted with 40 entries, {kind}')
        elif code == 6 and self.record.fill > STACK:
            self.hit(f'{call} refused 6 with too many entries, {kind}')

    def beside_base(self):
        """What is wrong with a record beside a base that a Mighty Mux may not have, or that nothing is; changes nothing."""
        r = self.record
        met = {'the area of an EDS-8 would cross': self.setup_refusal(r.block, r.ports, r.base, EDS_8),
               'position as well': r.pos >= r.ports, 'too many entries as well': r.fill > STACK}
        return next((what for what, is_met in met.items() if is_met), 'sound as an EDS-8')

    def note_unsound_base(self):
        """Counts what else is wrong with a Mighty Mux whose base is (02, K7); changes nothing."""
        self.hit(f'unsound: setup gives 12, {self.beside_base()}')

    def note_base(self, call, code):
        """Counts the calls at a base that an EDS-8 alone may have (02, K7); changes nothing."""
        if code == 0:
            self.hit(f'{call} accepted at a base for an EDS-8 alone')
        elif code == 6 and self.record.kind == MIGHTY_MUX and self.beside_base() == 'sound as an EDS-8':
            self.hit(f'{call} refused 6 for the base of a Mighty Mux alone')

    # Setup gives a new record and leaves the old one.

    def setup(self, b, ports, base, codes=SET_1974, kind=EDS_8):
        """A new unit of this kind (02, K6) with this set of special codes; neither is refused by itself (02, K5, K7)."""
        code = self.setup_refusal(b, ports, base, kind)
        self.hit(f'setup refused {code}' if code else 'setup accepted')
        self.note_set(code, tuple(codes))
        self.note_kind(code, kind)
        if base > 32767:
            self.note_high_base(code, b, ports, base)
        self.note_area(code, b, base + ports * b)
        if base % 0o400:
            self.note_small_base(code, b, ports, base, kind)
        elif kind == MIGHTY_MUX and b in BLOCKS:
            self.note_mighty_base(code, b, base)
        made = Record()
        if code == 0:
            made.block, made.ports, made.base = b, ports, base
            made.codes = tuple(codes)
            made.kind = kind
            made.port = [FRESH_PORT] * ARRAY
        return code, made

    def note_set(self, code, codes):
        """Counts the sets that setups are given; changes nothing."""
        self.hit(f'setup {"refused" if code else "accepted"} with {SETS.get(codes, ANOTHER)}')

    def note_kind(self, code, kind):
        """Counts the kinds that setups are given; changes nothing."""
        self.hit(f'setup {"refused" if code else "accepted"} as {KIND_NAMES[kind]}')
        if code == 0:
            self.highest = 0

    def note_high_base(self, code, b, ports, base):
        """Counts what stood beside a base that is too high; changes nothing."""
        if code in (1, 2, 3):
            self.hit(f'setup refused {code} before 11')
        elif code == 11 and b in BLOCKS:
            if base == 32768:
                self.hit(f'setup refused 11, b {b}: at 32768')
            elif base >= 2147483648:
                self.hit(f'setup refused 11, b {b}: far from it')
            if SETUP_ROWS[4](b, ports, base, EDS_8):
                self.hit('setup refused 11 before 4')

    def note_area(self, code, b, end):
        """Counts areas that end with the memory (02, K10) and those that would end past it; changes nothing."""
        if code == 0 and end == WORDS:
            self.hit(f'setup accepted, b {b}: area ends at 32768')
        elif code == 4 and end > WORDS:
            self.hit(f'setup refused 4, b {b}: area would end past 32768')

    def note_small_base(self, code, b, ports, base, kind):
        """Counts setups at a base that is no multiple of octal 400 (02, K7), and what stood beside it; changes nothing."""
        if kind == EDS_8:
            if b in SMALL_BLOCKS and code in (0, 4):
                self.hit(f'setup {"refused 4" if code else "accepted"} as EDS-8 at a base for it alone, b {b}')
        elif code == 1:
            self.hit('setup refused 1 before 12')
        elif b in BLOCKS and code in (2, 3):
            self.hit(f'setup refused {code} before 12 of a Mighty Mux, b {b}')
        elif b in SMALL_BLOCKS and code == 11:
            self.hit(f'setup refused 11 before 12, b {b}')
        elif b in SMALL_BLOCKS and code == 12:
            crosses = SETUP_ROWS[4](b, ports, base, kind)
            self.hit(f'setup refused 12 {"before 4" if crosses else "for the base alone"}, b {b}')

    def note_mighty_base(self, code, b, base):
        """Counts the bases that a Mighty Mux may have (02, K7), and where they are too high for its ports; changes nothing."""
        if code == 4:
            self.hit(f'setup refused 4 at a multiple of 256 of a Mighty Mux, b {b}')
        elif code == 0:
            where = 'another multiple of 256' if base % 512 else 'a multiple of 512'
            where = {0: '0', WORDS - 256: 'the last one'}.get(base, where)
            self.hit(f'setup accepted of a Mighty Mux, b {b}, at {where}')

    # What the lines do.

    def arrival(self, p, byte, parity, brk):
        code = self.refusal('arrival', port=p)
        if code:
            return code
        port = self.record.port[p]
        length = 5 + 2 * port.control[2] + port.control[3]     # control bits 10 and 11
        self.hit(f'arrival is cut to {length}' if length < 8 else 'arrival of 8')
        if port.held:
            self.hit('arrival replaces a marked one' if port.overload
                     else 'arrival replaces a character')
        else:
            self.hit('arrival at a free port')
        if not self.record.runs:
            self.hit('arrival in a stopped unit')
        kept = (0,) * (8 - length) + BYTE_BITS[byte][8 - length:]
        self.change(p, held=1, byte=BYTE_OF[kept], parity=parity, brk=brk, overload=port.held)
        return 0

    def transmitted(self, p):
        code = self.refusal('transmitted', port=p)
        if code:
            return code
        self.hit('transmitter already empty' if self.record.port[p].empty
                 else 'transmitter becomes empty')
        self.change(p, empty=1)
        return 0

    def device_status(self, p, level):
        code = self.refusal('device_status', port=p)
        if code:
            return code
        self.hit('line keeps its level' if self.record.port[p].line == level else 'line changes')
        self.change(p, line=level)
        return 0

    # What the processor does.

    def reset(self):
        code = self.refusal('reset')
        if code:
            return code
        r = self.record
        self.hit('reset keeps the 1974 set' if r.codes == SET_1974 else 'reset keeps another set')
        self.note_reset()
        r.runs = r.clock = r.irq = r.status = r.pos = 0
        r.lost = r.fill = 0             # 02, K6: reset empties the stack and clears the lost mark
        r.stack = EMPTY_STACK
        for p in range(ARRAY):
            port = r.port[p]
            if port.held:
                self.hit('reset drops a character')
            if not port.empty:
                self.hit('reset empties a transmitter')
            if 1 in port.control[5:]:
                self.hit('reset clears speed bits')
            r.port[p] = FRESH_PORT._replace(control=port.control[:5] + (0, 0, 0), line=port.line)
        return 0

    def note_reset(self):
        """Counts what a reset finds of a stack; changes nothing."""
        r = self.record
        met = {'entries dropped': r.fill, 'lost mark cleared': r.lost, 'words past the last entry cleared': any(r.stack[r.fill:]),
               'stack empty': not r.fill}
        for what in [what for what, is_met in met.items() if is_met]:
            self.hit(f'reset, {KIND_NAMES[r.kind]}: {what}')
        self.highest = 0

    def iopls(self):
        code = self.refusal('iopls')
        if code == 0:
            self.record.clock = 1
        return code

    def start(self):
        code = self.refusal('start')
        if code == 0:
            self.clear_status('start')
        return code

    def clear_status(self, call):
        """What START does, and DIAS after its reading."""
        r = self.record
        if r.kind == MIGHTY_MUX:
            self.remove_oldest(call)
            return
        self.note_unused(call)
        r.irq = r.status = 0

    def doc(self):
        code = self.refusal('doc')
        if code == 0:
            self.record.runs = 1
        return code

    def dob(self):
        code = self.refusal('dob')
        if code == 0:
            self.record.runs = 0
        return code

    def dia(self):
        code = self.refusal('dia')
        return (code, 0) if code else (0, self.read_status('dia'))

    def dias(self):
        code = self.refusal('dias')
        if code:
            return code, 0
        value = self.read_status('dias')
        self.clear_status('dias')
        return 0, value

    def read_status(self, call):
        """What DIA returns, and DIAS before its START."""
        r = self.record
        if r.kind == MIGHTY_MUX:
            return self.oldest(call)
        self.note_unused(call)
        return r.status

    def note_unused(self, what):
        """Counts what an EDS-8 does beside entries or a lost mark, which it leaves alone; changes nothing."""
        if self.record.fill or self.record.lost:
            self.hit(f'EDS-8 with entries or the lost mark: {what}')

    def tick(self):
        code = self.refusal('tick')
        if code:
            return code
        if self.record.clock:
            self.hit('tick with the clock on')
            self.hit(f'tick with the clock on, {KIND_NAMES[self.record.kind]}, '
                     + ('entries' if self.record.fill else 'no entry'))
            status = bits_of(self.record.status)
            status[0] = 1
            self.record.status = word_of(status)
            self.record.irq = 1
        else:
            self.hit('tick with the clock off')
        return 0

    # One inspection.

    def inspect(self):
        code = self.refusal('inspect', memory=True)
        return (code, NO_ANSWER) if code else (0, self.turn())

    def turn(self):
        r = self.record
        if not r.runs:
            self.hit('turn: stopped')
            return NO_ANSWER
        p = r.pos
        r.pos = (p + 1) % r.ports
        self.hit('turn: position steps' if r.pos else 'turn: position starts again')
        port = r.port[p]
        if port.held:
            self.hit('turn: input')
            if port.empty:
                self.hit('turn: input before output')
            return self.input(p)
        if port.empty:
            self.hit('turn: output')
            return self.output(p)
        self.hit('turn: idle')
        return Answer(IDLE, p, 0, 0, 0)

    def block_of(self, p):
        return self.record.base + p * self.record.block

    def note_service(self, service, p):
        """Counts a service, and whether the port's block is the last of the memory; changes nothing."""
        self.services += 1
        b = self.record.block
        if self.block_of(p) + b == WORDS:
            self.hit(f'{service}: in the last block of memory, b {b}')

    def step(self, pointer):
        """The next byte pointer, for input and output alike."""
        if pointer == 65535:
            self.hit('pointer steps from 65535 to 0')
            return 0
        self.hit('pointer steps')
        return pointer + 1

    def ends(self, pointer, end):
        """Whether old pointer + 1, taken without the step from 65535 to 0, is at least the end (02, K2)."""
        return pointer + 1 >= end

    def note_end(self, rule, pointer, end):
        """Counts how the old pointer stood to the end that is reached; changes nothing."""
        if pointer == 65535:
            where = 'done from 65535 to 0, end ' + {0: '0', 65535: '65535'}.get(end, 'between')
        elif pointer < end:
            where = 'end reached exactly'
        else:
            where = 'pointer already at the end' if pointer == end else 'pointer already past the end'
        self.hit(f'{rule}: {where}')
        if (pointer, end) == (65534, 65535):
            self.hit(f'{rule}: last place of memory: 65534, end 65535')
        if end == 0:
            self.hit(f'{rule}: done, end 0')

    def special(self, character):
        """What the record's set says of the character's low seven bits (02, K5), for input and output alike."""
        return self.record.codes[low_seven(character)] == 1

    def note_said(self, said, special, character):
        """Counts what a set said: of a code that it takes otherwise than the 1974 set, of the glottal stop, of a character
        with its top bit 1; changes nothing."""
        low = low_seven(character)
        if special != special_1974(low):
            self.hit(f'{said}, unlike 1974')
        if low == GLOTTAL_STOP:
            self.hit(f'{said}, glottal stop')
        if character[0]:
            self.hit(f'{said}, top bit 1')

    def error_code(self, port):
        if port.overload:
            self.hit('code: overload before break' if port.brk else 'code: overload')
            return OVERLOAD
        if port.brk:
            self.hit('code: break before parity' if port.parity else 'code: break')
            return BREAK
        if port.parity and port.control[0] == 0:
            self.hit('code: parity')
            return PARITY
        self.hit('code: parity inhibited' if port.parity else 'code: none')
        return NONE

    def input(self, p):
        self.note_service('input', p)
        memory, block, port = self.memory, self.block_of(p), self.record.port[p]
        icw, ibp, lib = (memory.word(block + place) for place in (0, 4, 6))
        icw = bits_of(icw)
        self.change(p, held=0, byte=0, parity=0, brk=0, overload=0)
        code = self.error_code(port)
        character = BYTE_BITS[port.byte]
        ascii7 = icw[3] == 1
        stored = (1,) + character[1:] if ascii7 else character      # 001, 4.1 bit 3
        mode = icw[1:3]
        echo_mark, sent, byte = 0, 0, 0

        if icw[0]:
            self.hit('input 1: INDONE already set')
            icw[4:6], icw[7], icw[8:16] = code, 1, stored
            memory.put(block, word_of(icw))
            return Answer(INPUT, p, 0, 0, 0)
        if mode == [0, 1]:
            self.hit('input 2: no input asked')
            return Answer(INPUT, p, 0, 0, 0)
        if mode == [0, 0]:
            self.hit('input 3: single')
            done = True
        elif code != NONE:
            self.hit('input 4: error')
            done = True
        elif ascii7 and self.special(character):
            self.hit('input 5: special')
            self.note_said('input 5: special', True, character)
            done = True
        else:
            self.hit('input 6: stored')
            pointer = self.step(ibp)
            memory.put(block + 4, pointer)
            memory.put_byte(pointer, BYTE_OF[stored])
            done = last = self.ends(ibp, lib)
            if mode == [1, 1]:
                if port.empty:
                    sent, byte = 1, BYTE_OF[character]
                    self.change(p, empty=0)
                else:
                    echo_mark, done = 1, True
            self.note_store(block, pointer, last, mode, port, done, ascii7, character)
            if ascii7:
                self.note_ascii(last, mode, port, done, character)
            if last:
                self.note_end('input 6', ibp, lib)
        if done:
            self.hit('input: done')
            if stored != character:
                self.hit('input: top bit set in ICW')
            icw[0], icw[4:6], icw[6], icw[8:16] = 1, code, echo_mark, stored
            memory.put(block, word_of(icw))
            self.interrupt(p, 2)
        else:
            self.hit('input: ICW not written')
        return Answer(INPUT, p, sent, byte, int(done))

    def note_store(self, block, pointer, last, mode, port, done, ascii7, character):
        """Counts what rule 6 met; changes nothing."""
        self.hit('input 6: right half' if pointer % 2 else 'input 6: left half')
        self.hit('input 6: last byte' if last else 'input 6: not last')
        if ascii7:
            self.hit('input 6: ordinary in 7-bit ASCII')
            if character[0] == 0:
                self.hit('input: top bit set in the buffer')
        elif self.special(character):
            self.hit('input 6: special code outside 7-bit ASCII')
        if mode == [1, 0]:
            self.hit('input 6: no echo asked')
        elif port.empty:
            self.hit('input 6: last byte echoed' if last else 'input 6: echoed')
        else:
            self.hit('input 6: last byte, transmitter busy' if last
                     else 'input 6: transmitter busy')
        place = pointer // 2 - block
        if place == 0:
            self.hit('input 6: buffer on ICW, done' if done
                     else 'input 6: buffer on ICW, not done')
        elif place == 4:
            self.hit('input 6: buffer on IBP')
        elif place == 6:
            self.hit('input 6: buffer on LIB')

    def note_ascii(self, last, mode, port, done, character):
        """Counts what 7-bit ASCII mode let pass, a glottal stop above all; changes nothing."""
        self.note_said('input 6: ordinary in 7-bit ASCII', False, character)
        if port.control[2:4] == (0, 0):                 # length 5, at which every code is special in 1974
            self.hit('input 6: five bits in 7-bit ASCII')
        if low_seven(character) == GLOTTAL_STOP:
            met = {'not reported': not done, 'fills the buffer': last, 'echoed': mode == [1, 1] and port.empty,
                   'transmitter busy': mode == [1, 1] and not port.empty}
            for what in [what for what, is_met in met.items() if is_met]:
                self.hit(f'input 6: glottal stop in 7-bit ASCII, {what}')

    def output(self, p):
        self.note_service('output', p)
        memory, block, port = self.memory, self.block_of(p), self.record.port[p]
        ocw, obp, lob = (memory.word(block + place) for place in (1, 5, 7))
        ocw = bits_of(ocw)
        outdone, mode, asks_special = ocw[0], ocw[1:3], ocw[3]
        differs = port.line != ocw[4]
        becomes = differs and ocw[7] == 0
        self.hit('output: line differs' if differs else 'output: line as read')
        if ocw[7]:
            self.hit('output: bit 7 was 1, line differs' if differs else 'output: bit 7 kept at 1')
        ocw[5] = ocw[4]
        ocw[4] = port.line
        if differs:
            ocw[7] = 1

        if outdone:
            self.hit('output: OUTDONE already set')
            if becomes:
                self.hit('output: OUTDONE set, bit 7 becomes 1')
            if ocw[6]:
                self.hit('output: bit 6 kept')
            memory.put(block + 1, word_of(ocw))
            return Answer(OUTPUT, p, 0, 0, 0)

        sent, byte, done = 0, 0, False
        if mode == [0, 0]:
            self.hit('output 00: nothing')
        elif mode == [0, 1]:
            self.hit('output 01: automatic')
            pointer = self.step(obp)
            memory.put(block + 5, pointer)
            sent, byte = 1, memory.byte(pointer)
            last, special = self.ends(obp, lob), self.special(BYTE_BITS[byte])
            done = last or (asks_special == 1 and special)
            self.note_fetch(block, pointer, last, special, asks_special)
            if asks_special:
                self.note_asked(last, special, BYTE_BITS[byte])
            if last:
                self.note_end('output 01', obp, lob)
        elif mode == [1, 0]:
            self.hit('output 10: port control')
            self.change(p, level=ocw[3], control=tuple(ocw[8:16]))
            done = True
        else:
            self.hit('output 11: single')
            sent, byte, done = 1, BYTE_OF[tuple(ocw[8:16])], True
        if sent:
            self.change(p, empty=0)
        if becomes:
            self.hit('output: bit 7 and mode make it done' if done
                     else 'output: bit 7 alone makes it done')
            done = True
        if ocw[6]:
            self.hit('output: bit 6 cleared')
        ocw[6] = 0
        if done:
            ocw[0] = 1
        memory.put(block + 1, word_of(ocw))
        self.hit('output: done' if done else 'output: not done')
        if done:
            self.interrupt(p, 3)
        return Answer(OUTPUT, p, sent, byte, int(done))

    def note_fetch(self, block, pointer, last, special, asks_special):
        """Counts what automatic output met; changes nothing."""
        self.hit('output 01: last byte' if last else 'output 01: not last')
        if special:
            self.hit('output 01: special, asked for' if asks_special
                     else 'output 01: special, not asked for')
        if last and special and asks_special:
            self.hit('output 01: last byte and special')
        if not last and not special:
            self.hit('output 01: neither')
        if pointer // 2 == block + 5:
            self.hit('output 01: byte fetched from OBP')

    def note_asked(self, last, special, character):
        """Counts what the special request met; changes nothing."""
        if special:
            self.note_said('output 01: special, asked for', True, character)
            return
        self.hit('output 01: ordinary, special asked for')
        self.note_said('output 01: ordinary, special asked for', False, character)
        if low_seven(character) == GLOTTAL_STOP and not last:
            self.hit('output 01: glottal stop passes the special request')

    def address(self, p):
        """What bits 4 to 10 say of port p, in a status word (document 01) and in an entry (000, Table 2-3) alike."""
        r = self.record
        return (r.base // r.block + p) % 128

    def interrupt(self, p, bit):
        """Raises an interrupt; `bit` is the one that tells it, 2 for input and 3 for output."""
        r = self.record
        self.hit('interrupt: base below 128 blocks' if r.base // r.block < 128
                 else 'interrupt: base of 128 blocks or more')
        if r.kind == MIGHTY_MUX:
            self.queue(p, bit)
            return
        self.note_unused('interrupt')
        status = bits_of(r.status)
        if status[2] or status[3]:
            self.hit('interrupt: more than one')
            status[1] = 1
        else:
            self.hit('interrupt: first')
        if status[0]:
            self.hit('interrupt beside a tick')
        status[bit] = 1
        status[4:11] = BYTE_BITS[self.address(p)][1:]
        status[11:16] = [0] * 5
        r.status = word_of(status)
        r.irq = 1

    # The stack of a Mighty Mux (02, K6; 000, 2.4.7).

    def entry(self, p, bit):
        """The entry of an interrupt (000, Table 2-3): bit 2 or 3, the address in bits 4 to 10, all others 0."""
        entry = [0] * 16
        entry[bit] = 1
        entry[4:11] = BYTE_BITS[self.address(p)][1:]
        return word_of(entry)

    def queue(self, p, bit):
        """An interrupt (02, K6): the flag on, and an entry in the next place; one that finds 40 sets the lost mark instead."""
        r = self.record
        self.note_queue(p, bit)
        r.irq = 1
        if r.fill < STACK:
            r.stack = with_word(r.stack, r.fill, self.entry(p, bit))
            r.fill += 1
        else:
            r.lost = 1

    def oldest(self, call):
        """What DIA reads (02, K6): bit 0 beside the stack; with an entry, the lost mark (000, Table 2-3) and the oldest one."""
        r = self.record
        self.note_read(call)
        word = [0] * 16
        word[0] = bits_of(r.status)[0]
        if r.fill > 0:
            word[1] = r.lost
            word[2:16] = bits_of(r.stack[0])[2:16]
        return word_of(word)

    def remove_oldest(self, call):
        """What START does (02, K6): bit 0 cleared, the oldest entry removed, the flag on while any remain, the lost mark cleared
        where none does."""
        r = self.record
        self.note_removal(call)
        r.status = 0
        if r.fill > 0:
            r.stack = r.stack[1:] + (0,)
            r.fill -= 1
        r.irq = int(r.fill > 0)
        if r.fill == 0:
            r.lost = 0

    def note_queue(self, p, bit):
        """Counts what an interrupt of a Mighty Mux meets; changes nothing."""
        r, service = self.record, SERVICES[bit]
        if r.fill < STACK:
            places = {0: 'the first place', STACK - 1: 'the last place'}
            self.hit(f'stack: {service} queued in {places.get(r.fill, "a place between")}')
            met = {'freed place used again': r.fill < self.highest, 'last place used again': STACK - 1 == r.fill < self.highest,
                   'queued beside the lost mark': r.lost, 'queued over a word that is not 0': r.stack[r.fill],
                   'queued before words that are not 0': any(r.stack[r.fill + 1:])}
            self.highest = max(self.highest, r.fill + 1)
        else:
            self.hit(f'stack: {service} lost, ' + ('a further one' if r.lost else 'the first'))
            met = {}
        met.update({'raised beside a tick': r.status >= 32768, 'raised beside status bits 1 to 15': r.status % 32768,
                    'raised with the flag off beside entries': r.fill and not r.irq,
                    'address like the port number': self.address(p) == p,
                    f'address unlike the port number, b {r.block}': self.address(p) != p})
        for what in [what for what, is_met in met.items() if is_met]:
            self.hit(f'stack: {what}')

    def note_read(self, call):
        """Counts what a reading of the stack meets; changes nothing."""
        r = self.record
        self.hit(f'{call}: {"an entry" if r.fill else "no entry"}, {"lost mark" if r.lost else "no lost mark"}, '
                 f'bit 0 {"on" if r.status >= 32768 else "off"}')
        met = {'bits 0 and 1 of an entry not shown': r.fill and r.stack[0] // 16384 == 3,
               'status bits 1 to 15 not shown': r.status % 32768,
               'place 0 not shown without an entry': not r.fill and r.stack[0]}
        for what in [what for what, is_met in met.items() if is_met]:
            self.hit(f'{call}: {what}')

    def note_removal(self, call):
        """Counts what a START finds; changes nothing."""
        r = self.record
        what, mark = {0: ('none there', 'cleared'), 1: ('the last', 'cleared')}.get(r.fill, ('entries remain', 'kept'))
        self.hit(f'{call} removes: {what}' + (f', lost mark {mark}' if r.lost else ''))
        remain = r.fill > 1
        flag = ('stays on' if remain else 'goes off') if r.irq else ('goes on' if remain else 'stays off')
        met = {f'flag {flag}': True, 'status bits 1 to 15 cleared': r.status % 32768,
               f'bit 0 cleared, {"entries" if remain else "none"} remain': r.status >= 32768,
               'words past the last entry move down': r.fill and any(r.stack[r.fill:]),
               'words stay without an entry': not r.fill and any(r.stack)}
        for what in [what for what, is_met in met.items() if is_met]:
            self.hit(f'{call} on a Mighty Mux: {what}')

    # The sweep.

    def sweep(self, n):
        code = self.refusal('sweep', memory=True, inspections=n)
        if code:
            return code, 0, 0
        if not self.record.runs:
            self.hit('sweep: stopped unit')
            return 0, 0, 0
        if n == 0:
            self.hit('sweep of none')
        if n == 4096:
            self.hit('sweep of 4096')
        made = used = 0
        while made < n:
            full = self.record.fill == STACK
            answer = self.turn()
            made += 1
            if answer.sent:
                self.hit('sweep: byte listed')
                self.places[used] = answer.port * 256 + answer.byte
                used += 1
            else:
                self.hit('sweep: no byte')
            if answer.raised:
                self.hit('sweep: interrupt at the last one' if made == n
                         else 'sweep: stops on an interrupt')
                self.note_stop(full, made == n)
                break
        else:
            self.hit('sweep: all made')
        return 0, made, used

    def note_stop(self, full, last):
        """Counts what a Mighty Mux's stack makes of the interrupt that a sweep stops at; changes nothing."""
        if self.record.kind == MIGHTY_MUX:
            self.hit('sweep: stops at a queued interrupt' if not full else
                     f'sweep: {"ends with" if last else "stops at"} a lost interrupt')

    # The host.

    def host_write(self, address, word):
        self.memory.put(address, word)

    # The speeds.

    def speed(self, control):
        """The line speed, in baud, that these eight control bits ask for."""
        first, second, third = BYTE_BITS[control][5:]          # control bits 13 to 15
        self.hit(f'speed {first}{second}{third}')
        return SPEEDS[4 * first + 2 * second + third]


# The line speeds by control bits 13 to 15, 000 first (001, 4.2).
SPEEDS = (110, 150, 300, 600, 1200, 2400, 4800, 9600)
