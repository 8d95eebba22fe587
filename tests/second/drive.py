"""Drives the text of a session (FORMAT.md) on a second program and gives the lines to print.

Every digest is a sum of numbers times fixed weights, so it is kept up to date
at each change instead of being computed anew.
"""

from functools import lru_cache

import mux2
import wire2

MODULUS, FACTOR = 2147483647, 65599
SETUP, ARRIVAL, TRANSMITTED, DEVICE_STATUS = 1, 2, 3, 4
RESET, IOPLS, START, DOC, DOB, DIA, DIAS, TICK = range(5, 13)
INSPECT, SWEEP = 13, 14
KIND, POKE_STACK = 15, 16
CELLS, FILL_CELLS, LEND = 17, 18, 19
WRITE, FILL, WORDS, PLACES, POKE, POKE_PORT, SPEED = range(20, 27)
CODE, CODES, POKE_CODE = range(27, 30)
DIGEST, END = 30, 31
FRAME, READ, FORM, FROM_WIRE = range(32, 36)
UNIT_CALLS = range(SETUP, SWEEP + 1)
CALLS = (*UNIT_CALLS, FRAME, READ, FROM_WIRE)
PRINTED = (*CALLS, SPEED, DIGEST, END, FORM)      # the orders that print a line
NAMES = {1: 'setup', 2: 'arrival', 3: 'transmitted', 4: 'device_status', 5: 'reset', 6: 'iopls',
         7: 'start', 8: 'doc', 9: 'dob', 10: 'dia', 11: 'dias', 12: 'tick', 13: 'inspect',
         14: 'sweep', 15: 'kind', 16: 'poke stack', 17: 'four cells', 18: 'fill cells', 19: 'cells lent',
         20: 'host write', 21: 'fill memory', 22: 'memory lent', 23: 'list lent',
         24: 'poke', 25: 'poke port', 26: 'speed', 27: 'code of the set', 28: 'whole set', 29: 'poke code',
         30: 'whole digest', 31: 'end of session', 32: 'frame written', 33: 'frame read', 34: 'form',
         35: 'arrival from the wire'}
FIELDS = ('block', 'ports', 'base', 'pos', 'runs', 'clock', 'irq', 'status', 'kind', 'lost', 'fill')
PORT_FIELDS = mux2.Port._fields


def weights(count):
    """The weight of each of `count` numbers in their digest, and what h = 1 becomes."""
    powers = [1]
    for _ in range(count):
        powers.append(powers[-1] * FACTOR % MODULUS)
    return powers[count - 1::-1] if count else [], powers[count]


MEMORY_WEIGHTS, MEMORY_START = weights(mux2.ROOM)
FIRST_CODE = len(FIELDS) + mux2.STACK             # what stands before the set: the scalars and the stack
FIRST_PORT = FIRST_CODE + mux2.CODES
RECORD_WEIGHTS, RECORD_START = weights(FIRST_PORT + len(PORT_FIELDS) * mux2.ARRAY)
SCALAR_WEIGHTS, STACK_WEIGHTS = RECORD_WEIGHTS[:len(FIELDS)], RECORD_WEIGHTS[len(FIELDS):FIRST_CODE]
SET_WEIGHTS = RECORD_WEIGHTS[FIRST_CODE:FIRST_PORT]
PORT_WEIGHTS = [RECORD_WEIGHTS[k:k + len(PORT_FIELDS)]
                for k in range(FIRST_PORT, len(RECORD_WEIGHTS), len(PORT_FIELDS))]


def digest(numbers):
    h = 1
    for x in numbers:
        h = (h * FACTOR + x) % MODULUS
    return h


class WatchedMemory(mux2.Memory):
    """Memory that keeps the digest of all its words."""

    def __init__(self):
        super().__init__()
        self.sum = MEMORY_START

    def put(self, address, word):
        self.sum += (word - self.word(address)) * MEMORY_WEIGHTS[address]
        super().put(address, word)

    def put_byte(self, pointer, byte):
        change = (byte - self.halves[pointer]) * (1 if pointer % 2 else 256)
        self.sum += change * MEMORY_WEIGHTS[pointer // 2]
        super().put_byte(pointer, byte)

    def digest(self):
        self.sum %= MODULUS
        return self.sum


class RecordDigest:
    """The digest of a record; only ports that changed are looked at again."""

    def __init__(self):
        self.seen = [None] * mux2.ARRAY
        self.parts = [0] * mux2.ARRAY

    def of(self, record):
        if record.port != self.seen:
            for p, port in enumerate(record.port):
                if port is not self.seen[p]:
                    self.parts[p] = sum(w * x for w, x in zip(PORT_WEIGHTS[p], numbers_of(port)))
            self.seen = list(record.port)
            self.ports = sum(self.parts)
        scalars = (record.block, record.ports, record.base, record.pos, record.runs, record.clock, record.irq,
                   record.status, record.kind, record.lost, record.fill)
        return (RECORD_START + stack_part(record.stack) + set_part(record.codes) + self.ports
                + sum(w * x for w, x in zip(SCALAR_WEIGHTS, scalars))) % MODULUS

    ports = 0


@lru_cache(maxsize=1024)
def stack_part(stack):
    """A stack's part of the digest; most calls leave it as it is."""
    return sum(w * word for w, word in zip(STACK_WEIGHTS, stack))


@lru_cache(maxsize=1024)
def set_part(codes):
    """A set's part of the digest; sets are few and change seldom."""
    return sum(w * yes for w, yes in zip(SET_WEIGHTS, codes))


@lru_cache(maxsize=32768)
def cells_digest(cells):
    """The digest of the cells; reading leaves them as they are, and a session that is driven again has the same ones."""
    return digest(cells)


def numbers_of(port):
    return port[:6] + (mux2.BYTE_OF[port.control],) + port[7:]


class Driver:
    """A second program, the digests of what it holds, the kind and the set that a setup is given, and a line with its cells."""

    def __init__(self, program=mux2.Mux2, wire=wire2.Wire):
        self.program, self.wire_program = program, wire
        self.new_session()

    def new_session(self):
        self.mux = self.program(WatchedMemory())
        self.wire = self.wire_program()
        self.record_digest = RecordDigest()
        self.codes = self.program.set_1974
        self.kind = mux2.EDS_8

    def drive(self, order):
        """Carries one order out; the line to print, or None."""
        op, rest = order[0], order[1:]
        mux, memory, wire = self.mux, self.mux.memory, self.wire
        if op == INSPECT:
            code, answer = mux.inspect()
            return self.line(op, code, *answer, self.record(), self.window(rest[0]))
        if op == SWEEP:
            code, made, used = mux.sweep(rest[0])
            return self.line(op, code, made, used, self.record(), self.window(rest[1]),
                             digest(mux.places[:mux.lent_places]))
        if op == SETUP:
            code, made = mux.setup(*rest[:3], self.codes, self.kind)
            if code == 0 or rest[3]:
                mux.record = made
            return self.line(op, code, RecordDigest().of(made), self.record())
        if op in (DIA, DIAS):
            code, value = getattr(mux, NAMES[op])()
            return self.line(op, code, value, self.record())
        if op in UNIT_CALLS:
            return self.line(op, getattr(mux, NAMES[op])(*rest), self.record())
        if op == WRITE:
            mux.host_write(*rest)
        elif op == KIND:
            self.kind = rest[0]
        elif op == POKE_STACK:
            mux.record.stack = mux2.with_word(mux.record.stack, *rest)
        elif op == FILL:
            self.fill(rest[0])
        elif op == WORDS:
            memory.lent = rest[0]
        elif op == PLACES:
            mux.lent_places = rest[0]
            mux.places = [rest[1]] * mux2.PLACES
        elif op == POKE:
            setattr(mux.record, FIELDS[rest[0]], rest[1])
        elif op == POKE_PORT:
            p, field, value = rest
            name = PORT_FIELDS[field]
            mux.change(p, **{name: mux2.BYTE_BITS[value] if name == 'control' else value})
        elif op == SPEED:
            return self.line(op, mux.speed(rest[0]))
        elif op == CODE:
            self.codes = mux2.with_code(self.codes, *rest)
        elif op == CODES:
            self.codes = (mux2.NO_CODE, mux2.EVERY_CODE, self.program.set_1974)[rest[0]]
        elif op == POKE_CODE:
            mux.record.codes = mux2.with_code(mux.record.codes, *rest)
        elif op == CELLS:
            wire.put(*rest)
        elif op == FILL_CELLS:
            wire.fill(*rest)
        elif op == LEND:
            wire.lend(*rest)
        elif op in (FRAME, READ):
            told = wire.write(*rest) if op == FRAME else wire.read(*rest)
            return self.line(op, *told, cells_digest(bytes(wire.cells)))
        elif op == FORM:
            return self.line(op, wire.form(*rest))
        elif op == FROM_WIRE:
            return self.line(op, *wire.arrive(mux, *rest), self.record())
        elif op in (DIGEST, END):
            line = self.line(op, memory.digest(), digest(mux.places))
            if op == END:
                self.new_session()
            return line
        return None

    @staticmethod
    def line(*numbers):
        return ' '.join(map(str, numbers))

    def record(self):
        return self.record_digest.of(self.mux.record)

    def window(self, look):
        word = self.mux.memory.word
        words = [word(look + k) for k in range(8)]
        return digest(words + [word(words[4] // 2), word(words[5] // 2)])

    def fill(self, x):
        halves, self.mux.memory.sum = filling(x)
        self.mux.memory.halves[:] = halves


@lru_cache(maxsize=None)
def filling(x):
    """The bytes that order 21 puts into memory, and their digest."""
    halves, total = bytearray(), MEMORY_START
    for weight in MEMORY_WEIGHTS:
        x = x * 48271 % MODULUS
        word = x // 16 % 65536
        halves += bytes((word // 256, word % 256))
        total += word * weight
    return halves, total % MODULUS
