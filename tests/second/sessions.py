"""Writes sessions from a seed: long runs of calls and host writes that look for trouble.

An author drives each order on the second program as it writes it, so that it
knows which port comes next, whether a transmitter is busy, where a buffer lies.
Only `Random.random` is used: its sequence is the same in every Python.
"""

from random import Random

import drive
import mux2
import wire2

SEED, SESSIONS = 1974, 220          # the fixed set of the gate
DIGEST_EVERY = 256                  # printed lines between two whole digests
KIND_CALLS = 60                     # of the second part of a random session, in which setups choose the kind

MANY, HIGH = 4294967295, 4294967040     # the largest number, and a multiple of every 8b below it
CODES = (0, 13, 31, 32, 65, 123, 124, 125, 127)         # around the special codes
RECEIVING = (0o40000, 0o60000, 0o50000, 0o70000)        # automatic, then with an echo; the same in 7-bit ASCII mode
SENDING = (0o20000, 0o30000)                            # automatic, then with an interrupt at a special code
EDGES = (65533, 65534, 65535, 0, 1)

# Old pointers and ends of an automatic buffer (02, K2): around an end, far from it, around 32768 and around 0.
AROUND = [(pointer, 2003) for pointer in (2001, 2002, 2003, 2004, 2005, 2258, 2259, 30000, 36000)]
FAR = [(10000, 60000), (60000, 10000), (100, 32868), (100, 32869), (32868, 100), (32869, 100)]
MIDDLE = [(pointer, end) for pointer in (32766, 32767, 32768, 32769) for end in (32767, 32768)]
NEAR_0 = [(65530, 5), (65529, 65530), (65530, 65535), (1, 0), (2, 1), (5, 2), (5, 5), (4, 5)]
AT_0 = [(pointer, end) for pointer in (65533, 65534, 65535, 0) for end in (0, 1, 2, 5, 65533, 65534, 65535)]
SHORT = AROUND + FAR + MIDDLE + NEAR_0 + AT_0
LENGTHS = (1, 2, 3, 8)                                  # of buffers that run to their end

# Sets of special codes (02, K5): those of order 28, and those that the Mighty Mux could take (000, 3.7.9.1), by the octal codes
# that are special.
WHOLE = (mux2.NO_CODE, mux2.EVERY_CODE, mux2.SET_1974)
OPTIONS = {
    '#1': (0o3, 0o4, 0o31),
    '#1a': (0o3, 0o12, 0o15, 0o177),
    '#2': (0o0, 0o4, 0o15, 0o21, 0o23),
    '#2a': (0o136,),
    '#3, input': (0o0, 0o3, 0o4, 0o5, 0o6, 0o10, 0o14, 0o15, 0o25, 0o27, 0o30, 0o31, 0o32, 0o33),
    '#3, output': (0o0, 0o3, 0o4, 0o5, 0o6, 0o14, 0o15, 0o25, 0o27, 0o30, 0o31),
}
FOUR_SETS = (mux2.SET_1974, mux2.DICTIONARY, mux2.EVERY_CODE, mux2.NO_CODE)
MAIN_SETS = (*FOUR_SETS, *map(mux2.set_of, OPTIONS.values()))
NAME = tuple(b'ma|ohi')                                 # a name of the dictionary, its glottal stop an octal 174
STOP_AT = NAME.index(mux2.GLOTTAL_STOP)

# How often a setup of a random session is given each set.
CHOSEN = {mux2.SET_1974: 6, mux2.DICTIONARY: 2, mux2.EVERY_CODE: 1, mux2.NO_CODE: 1, 'random': 2}

# How often a setup of a random session's second part is given each kind (02, K6).
CHOSEN_KINDS = {mux2.MIGHTY_MUX: 4, mux2.EDS_8: 1}

# How often each action is chosen, by the kind of session.
USUAL = dict(turn=60, sweep=14, processor=8, host=4, lend_list=2, poke=2, stopped=2,
             bad_setup=0.4, bad_record=1, bad_memory=1, bad_port=1, bad_sweep=1, reset=0.4)
KINDS = {
    'mixed': {},
    'input': dict(inputs=0.85),
    'output': dict(inputs=0.15),
    'overlap': dict(own=0.7, inputs=0.7),
    'edges': dict(edge=0.6),
    'echo': dict(inputs=0.8, busy=0.6),
    'sweeps': dict(sweep=60, turn=30, lend_list=6),
    'flips': dict(inputs=0.25, flip=0.5),
    'refusals': dict(bad_setup=4, bad_record=6, bad_memory=6, bad_port=6, bad_sweep=6, stopped=6),
    'pokes': dict(poke=20),
    'resets': dict(reset=4, processor=16),
    'quiet': dict(filled=0, sweep=40, turn=10, bad_sweep=6, lend_list=6),
}
TRAITS = dict(inputs=0.5, own=0.15, edge=0.15, busy=0.2, flip=0.12, filled=0.7)


def step_of(b, kind):
    """What a base of this kind is a multiple of, in blocks of b words: 8b, and of a Mighty Mux octal 400 as well (02, K7)."""
    return 0o400 if kind == mux2.MIGHTY_MUX else 8 * b


class Author:
    """Writes one session; `orders` and `printed` are its text and what must be printed."""

    def __init__(self, seed, number):
        self.random = Random(seed * 1000003 + number).random
        self.second = Random(seed * 1000003 + number + 1000000007).random     # of the second part
        self.chooses_kinds = False
        self.kind = list(KINDS)[number % len(KINDS)]
        settings = {**USUAL, **TRAITS, **KINDS[self.kind]}
        self.traits = {name: settings[name] for name in TRAITS}
        self.actions = {name: settings[name] for name in USUAL}
        self.driver = drive.Driver()
        self.mux = self.driver.mux
        self.orders, self.printed = [], []
        self.calls = self.framed = self.serving = 0     # all calls; those on the cells; those that serve a port

    # Chance.

    def below(self, n):
        return int(self.random() * n)

    def one_of(self, *choices):
        return choices[self.below(len(choices))]

    def chance(self, part):
        return self.random() < part

    def trait(self, name):
        return self.chance(self.traits[name])

    def weighted(self, weights):
        at = self.random() * sum(weights.values())
        for name, weight in weights.items():
            at -= weight
            if at < 0:
                return name
        return name

    # Orders.

    @property
    def unit(self):
        return self.mux.record

    @property
    def wire(self):
        return self.driver.wire

    def do(self, *order):
        before = self.mux.services
        line = self.driver.drive(order)
        self.orders.append(order)
        if order[0] in drive.CALLS:
            self.calls += 1
            self.framed += order[0] not in drive.UNIT_CALLS
            self.serving += self.mux.services > before
        if line is not None:
            self.printed.append(line)
            if order[0] not in (drive.DIGEST, drive.END) and len(self.printed) % DIGEST_EVERY == 0:
                self.do(drive.DIGEST)

    def block(self, p):
        return self.unit.base + p * self.unit.block

    def unsound(self):
        u = self.unit
        return self.mux.setup_refusal(u.block, u.ports, u.base, u.kind) != 0 or u.pos >= u.ports or u.fill > mux2.STACK

    def look(self, ahead=0):
        """The block of the port `ahead` turns from now, cut to an address that may be looked at."""
        u = self.unit
        address = self.block((u.pos + ahead) % u.ports) if u.ports else u.base
        return min(address, 32760)

    def inspect(self):
        self.do(drive.INSPECT, self.look())

    def write(self, address, word):
        self.do(drive.WRITE, address, word)

    # Numbers that make trouble.

    def byte(self):
        return self.one_of(*CODES) + self.one_of(0, 128) if self.chance(0.6) else self.below(256)

    def pointer(self, p):
        if self.trait('own'):       # the step lands on ICW, IBP, OBP or LIB, or near them
            return (2 * self.block(p) - 1 + self.one_of(0, 1, 8, 9, 10, 11, 12, 13,
                                                        self.below(17))) % 65536
        if self.trait('edge'):
            return self.one_of(*EDGES)
        if self.chance(0.1):
            return (2 * self.block(self.below(self.unit.ports)) - 1 + self.below(17)) % 65536
        return self.below(65536)

    def end(self, pointer):
        """A buffer's end: ahead of the pointer, at it, behind it near or far, or at an edge of memory."""
        if self.chance(0.06):
            return self.one_of(*EDGES)
        if self.chance(0.12):
            return self.below(65536)
        ahead, behind = (1, 1, 2, 2, 3, 3, 8, 8, 40, 40, 300, 300), (0, -1, -2, -40)
        return (pointer + self.one_of(*ahead, *behind)) % 65536

    def icw(self):
        mode = self.weighted({0: 2, 1: 1, 2: 4, 3: 5})
        return (self.chance(0.15) * 32768 + mode * 8192 + self.below(2) * 4096
                + self.below(16) * 256 + self.byte())

    def ocw(self, p):
        mode = self.weighted({0: 1, 1: 6, 2: 2, 3: 3})
        line = self.unit.port[p].line ^ self.chance(0.1)
        low = self.control() if mode == 2 else self.byte()
        return (self.chance(0.15) * 32768 + mode * 8192 + self.below(2) * 4096
                + line * 2048 + self.below(4) * 512 + self.chance(0.2) * 256 + low)

    def control(self):
        """Eight control bits, most often of length 7 or 8: at 5 every code is special in 1974."""
        length = self.one_of(0, 1, 2, 2, 3, 3, 3)
        return self.below(4) * 64 + length * 16 + self.below(16)

    # Sets of special codes.

    def give_set(self, wanted):
        """Setups are from now on given this set: by order 28 if that is nearer than the set that stands, then by 27."""
        def apart(codes):
            return [code for code in range(mux2.CODES) if codes[code] != wanted[code]]

        nearest = min(WHOLE, key=lambda codes: len(apart(codes)))
        if len(apart(nearest)) < len(apart(self.driver.codes)):
            self.do(drive.CODES, WHOLE.index(nearest))
        for code in apart(self.driver.codes):
            self.do(drive.CODE, code, wanted[code])

    def random_set(self):
        """A set with few special codes, about half of them, or all but few."""
        part = self.one_of(0.05, 0.5, 0.95)
        return tuple(int(self.chance(part)) for _ in range(mux2.CODES))

    def choose_set(self):
        """The set of the next setup, about every second time that of 1974."""
        wanted = self.weighted(CHOSEN)
        self.give_set(self.random_set() if wanted == 'random' else wanted)

    # Kinds of unit and their stacks.

    def give_kind(self, kind):
        """Setups are from now on given this kind."""
        if self.driver.kind != kind:
            self.do(drive.KIND, kind)

    def choose_kind(self):
        """The kind of the next setup; the first part of a session has EDS-8s alone."""
        if self.chooses_kinds:
            self.give_kind(self.weighted(CHOSEN_KINDS))

    def poke_words(self, places):
        """Any words in these places of the stack."""
        for place in places:
            self.do(drive.POKE_STACK, place, self.below(65536))

    def poke_stack(self, what):
        """A kind or a stack that no call would make, but a sound one in the end."""
        if what == 0:
            self.poke_kind(self.below(2))
        elif what == 1:
            self.do(drive.POKE, 9, self.below(2))
        elif what == 2:
            self.do(drive.POKE, 10, self.one_of(0, 1, 2, 38, 39, 40, self.below(41)))
        else:
            self.poke_words([self.one_of(0, 1, 39, self.below(40))])

    def poke_kind(self, kind):
        """The kind is poked. A Mighty Mux at a base for an EDS-8 alone (02, K7) is unsound until its kind or its base is poked
        again; a base that is lowered to a multiple of 256 stays in its stretch of 128 blocks."""
        u = self.unit
        self.do(drive.POKE, 8, kind)
        if self.unsound():
            self.some_calls()
            self.do(drive.POKE, *self.one_of((8, mux2.EDS_8), (2, u.base // 256 * 256)))

    def poke_depth(self):
        """A stack that is full or nearly so, or has a few entries."""
        if self.chance(0.7):
            depth = self.one_of(1, 5, 35, 38, 39, 40)
            self.poke_words(range(depth))
            self.do(drive.POKE, 10, depth)
            self.do(drive.POKE, 6, 1)

    # Preparing a port for its turn.

    def set_input(self, p):
        block = self.block(p)
        self.write(block, self.icw())
        if self.chance(0.6):
            pointer = self.pointer(p)
            self.write(block + 4, pointer)
            self.write(block + 6, self.end(pointer))

    def set_output(self, p):
        block = self.block(p)
        self.write(block + 1, self.ocw(p))
        if self.chance(0.6):
            pointer = self.pointer(p)
            if self.chance(0.3):
                self.write((pointer + 1) % 65536 // 2, self.byte() * 256 + self.byte())
            self.write(block + 5, pointer)
            self.write(block + 7, self.end(pointer))

    def arrival(self, p):
        self.do(drive.ARRIVAL, p, self.byte(), int(self.chance(0.15)), int(self.chance(0.1)))

    def done(self, p, word):
        return self.mux.memory.word(self.block(p) + word) >= 32768

    def prepare(self, p):
        port = self.unit.port[p]
        if self.trait('inputs'):
            if self.chance(0.9 if self.done(p, 0) else 0.5):
                self.set_input(p)
            if not port.empty and not self.trait('busy'):
                self.do(drive.TRANSMITTED, p)
            if not port.held or self.chance(0.1):
                self.arrival(p)
            while self.chance(0.06):
                self.arrival(p)
        else:
            if self.chance(0.9 if self.done(p, 1) else 0.5):
                self.set_output(p)
            if not port.empty:
                self.do(drive.TRANSMITTED, p)
            if self.trait('flip'):
                self.do(drive.DEVICE_STATUS, p, port.line ^ self.chance(0.8))

    # Actions.

    def turn(self):
        if self.chance(0.85):
            self.prepare(self.unit.pos)
        self.inspect()
        if self.unit.irq and self.chance(0.1):
            self.do(drive.DIAS)

    def plain_turn(self):
        """A turn that serves a port with no other call before it."""
        p = self.unit.pos
        port = self.unit.port[p]
        if port.held:
            self.set_input(p)
        elif port.empty:
            self.set_output(p)
        else:
            self.do(drive.POKE_PORT, p, 5, 1)
        self.inspect()

    def printing(self, p):
        """A port in the middle of automatic output, its transmitter empty."""
        pointer = self.pointer(p)
        self.write(self.block(p) + 1, 0o20000 + self.unit.port[p].line * 2048 + self.byte())
        self.write(self.block(p) + 5, pointer)
        self.write(self.block(p) + 7, (pointer + 2 + self.below(60)) % 65536)
        self.do(drive.POKE_PORT, p, 5, 1)

    def sweep(self):
        ports = self.unit.ports
        for ahead in range(min(self.below(8), ports)):
            p = (self.unit.pos + ahead) % ports
            if self.chance(0.7):
                self.printing(p)
            else:
                self.prepare(p)
        lent = self.mux.lent_places
        n = min(lent, self.one_of(0, 1, 2, 3, ports, 2 * ports, lent, self.below(200)))
        self.do(drive.SWEEP, n, self.look(self.below(4)))

    def processor(self):
        self.do(self.one_of(drive.IOPLS, drive.START, drive.DOC, drive.DIA, drive.DIAS, drive.TICK,
                            drive.TICK, drive.DIAS))

    def reset(self):
        self.do(drive.RESET)
        if self.chance(0.3):
            self.any_call()
        self.go()

    def go(self):
        if self.chance(0.6):
            for p in range(min(self.unit.ports, 16)):
                self.write(self.block(p) + 1, 0o40000 + self.below(2) * 4096 + self.control())
        self.do(drive.DOC)
        if self.chance(0.5):
            self.do(drive.IOPLS)

    def host(self):
        u = self.unit
        if self.chance(0.6):
            self.write(self.block(self.below(u.ports)) + self.one_of(0, 1, 4, 5, 6, 7),
                       self.below(65536))
        else:
            self.write(self.below(mux2.ROOM), self.below(65536))

    def lend_list(self):
        long = self.kind == 'quiet' and self.chance(0.3)
        self.do(drive.PLACES, 4096 + self.below(104) if long
                else self.one_of(0, 1, 2, 3, 8, self.unit.ports, 64, 200), self.below(65536))

    def poke(self):
        """A record that no call would make, but a sound one."""
        u = self.unit
        what = self.below(11 if self.chooses_kinds else 7)
        if what > 6:
            self.poke_stack(what - 7)
        elif what == 0:
            self.do(drive.POKE, 3, self.below(u.ports))
        elif what == 1:
            self.do(drive.POKE, 7, self.below(65536))
        elif what == 2:
            self.do(drive.POKE, self.one_of(5, 6), self.below(2))
        elif what == 3:
            _, ports, base = self.sound_place(u.block, u.kind)
            self.do(drive.POKE, 1, ports)
            self.do(drive.POKE, 2, base)
            self.do(drive.POKE, 3, self.below(ports))
        elif what == 4:
            self.do(drive.POKE_CODE, self.byte() % 128, self.below(2))
        else:
            p = self.one_of(self.below(mux2.ARRAY), u.pos, u.pos, u.pos)
            field = self.below(9)
            self.do(drive.POKE_PORT, p, field, self.below(256) if field in (1, 6) else self.below(2))

    def any_call(self):
        """One call of any kind, with any arguments."""
        op = 2 + self.below(13)
        port = self.one_of(0, self.below(128), self.unit.ports, MANY)
        if op == drive.ARRIVAL:
            self.arrival(port)
        elif op == drive.TRANSMITTED:
            self.do(op, port)
        elif op == drive.DEVICE_STATUS:
            self.do(op, port, self.below(2))
        elif op == drive.INSPECT:
            self.inspect()
        elif op == drive.SWEEP:
            lent = self.mux.lent_places
            self.do(op, self.one_of(0, min(lent, 5), lent + 1, 4097, MANY), self.look())
        else:
            self.do(op)

    def some_calls(self):
        for _ in range(1 + self.below(5)):
            self.any_call()

    def stopped(self):
        self.do(drive.DOB)
        self.some_calls()
        self.do(drive.DOC)

    def bad_record(self):
        u = self.unit
        area = 128 * u.block
        field, value = self.one_of(
            (0, self.one_of(0, 7, 9, 24, 64, MANY)), (1, self.one_of(0, 129, MANY)),
            (2, self.one_of(u.base + 1, u.base + 4 * u.block, 32768, 32768 + u.base, HIGH, MANY)),
            (2, (u.base // area + 1) * area - 8 * u.block), (1, 128),
            (3, self.one_of(u.ports, u.ports + 1, 128, MANY)))
        if self.chooses_kinds and self.chance(0.3):
            field, value = self.one_of((10, self.one_of(41, 42, 256, 65576, MANY)), (2, u.base + self.one_of(64, 128, 192)))
        good = getattr(u, drive.FIELDS[field])
        self.do(drive.POKE, field, value)
        words = self.one_of(32768, 32768, 32767)
        self.do(drive.WORDS, words)
        if self.unsound():
            self.some_calls()
        self.do(drive.WORDS, 32768)
        self.do(drive.POKE, field, good)
        if self.unsound():
            self.good_setup()

    def bad_memory(self):
        self.do(drive.WORDS, self.one_of(0, 1, 32767, 32769, 40000))
        lent = self.mux.lent_places
        self.inspect()
        self.do(drive.SWEEP, self.one_of(0, lent, lent + 1, 4097), self.look())
        if self.chance(0.3):
            self.any_call()
        self.do(drive.WORDS, 32768)

    def bad_port(self):
        port = self.unit.ports + self.one_of(0, 0, 1, 128 - self.unit.ports, 256)
        port = self.one_of(port, port, MANY)
        op = self.one_of(drive.ARRIVAL, drive.TRANSMITTED, drive.DEVICE_STATUS)
        if op == drive.ARRIVAL:
            self.arrival(port)
        elif op == drive.TRANSMITTED:
            self.do(op, port)
        else:
            self.do(op, port, self.below(2))

    def bad_sweep(self):
        if self.chance(0.2):
            self.do(drive.PLACES, 4097, self.below(65536))
        lent = self.mux.lent_places
        self.do(drive.SWEEP, self.one_of(4097, MANY, lent + 1, lent + 1), self.look())
        if lent == 4097:
            self.do(drive.PLACES, self.one_of(4096, 200, 3), self.below(65536))

    def bad_setup(self):
        b = self.one_of(8, 16, 32, 32, self.one_of(0, 7, 24, 64, MANY))
        ports = self.one_of(1, 8, 128, self.below(128), self.one_of(0, 129, MANY))
        base = self.below(2 + 32768 // (8 * max(b % 64, 1))) * 8 * (b % 64)
        base = self.one_of(base, base, base, min(base + self.one_of(1, b // 2, 4 * b), MANY),
                           self.one_of(HIGH, MANY))
        self.choose_set()
        self.choose_kind()
        self.do(drive.SETUP, b, ports, base, self.below(2))
        if self.unsound():
            self.some_calls()
            self.good_setup()
        elif not self.unit.runs:
            self.go()

    # Starting.

    def sound_place(self, b, kind):
        """Ports and a base that setup accepts for this kind."""
        step = step_of(b, kind)
        base = self.below(32768 // step) * step
        room = 128 - base // b % 128
        if self.kind == 'mixed' or self.chance(0.1):
            base, room = base // (128 * b) * 128 * b, 128
        elif self.chance(0.2):          # at either end of memory, where pointers start again
            base, room = self.one_of((0, 128), (32768 - step, step // b))
        ports = self.one_of(1, 2, 3, 4, min(8, room), 1 + self.below(room), room)
        return b, ports, base

    def good_setup(self):
        self.choose_set()
        self.choose_kind()
        self.do(drive.SETUP, *self.sound_place(self.one_of(8, 16, 32), self.driver.kind), self.below(2))
        for p in range(self.unit.ports):
            if self.chance(0.8):
                self.do(drive.POKE_PORT, p, 6, self.control())
        self.go()

    def small_base(self):
        """A setup at a base for an EDS-8 alone (02, K7), of either kind; a sound unit that it leaves becomes a Mighty Mux."""
        self.choose_kind()
        b = self.one_of(8, 16)
        base = 256 * self.below(128) + 8 * b * (1 + self.below(256 // (8 * b) - 1))
        self.do(drive.SETUP, b, self.one_of(1, 4, 1 + self.below(128)), base, self.below(2))
        if not self.unsound():
            self.poke_kind(mux2.MIGHTY_MUX)
        self.some_calls()

    def session(self, calls):
        if self.trait('filled'):
            self.do(drive.FILL, 1 + self.below(2000000000))
        self.good_setup()
        self.do(drive.PLACES, 200, self.below(65536))
        self.act(calls)
        self.random, self.chooses_kinds = self.second, True
        self.actions['poke'] += 4                       # the stack is poked as well
        self.small_base()
        self.good_setup()
        self.poke_depth()
        self.act(self.calls + KIND_CALLS)
        reached = self.mux.reached
        self.do(drive.END)
        return reached

    def act(self, calls):
        """Actions until so many calls are made."""
        while self.calls < calls:
            if not self.unit.runs:
                self.do(drive.DOC)
            elif self.serving < 0.53 * (self.calls - self.framed):
                self.plain_turn()
            else:
                getattr(self, self.weighted(self.actions))()


def write_session(seed, number):
    """One session: its author, with orders, printed lines and counts, and the branches reached."""
    author = Author(seed, number)
    reached = author.session(author.one_of(500, 900, 900, 1300))
    return author, reached


def speeds_session():
    """The session of order 26: every control byte, so each code with the other bits set and clear."""
    author = Author(SEED, 0)
    author.kind = 'speeds'
    for control in range(256):
        author.do(drive.SPEED, control)
    reached = author.mux.reached
    author.do(drive.END)
    return author, reached


def high_bases(b):
    """Bases that setup refuses with 11: at the edge, past each width that might cut them short, far away."""
    eight, area, top = 8 * b, 128 * b, MANY + 1
    return (32768, 32768 + eight, 32768 + area - eight, 65536 - eight, 65536, 65536 + eight,
            2147483648 - eight, 2147483648, 2147483648 + eight, top - area, top - eight)


def bad_bases(author, b):
    """Setups with a base above 32767, alone and beside each other fault; the unit stays as it is."""
    eight = 8 * b
    for base in (32767, 32769):
        author.do(drive.SETUP, b, 1, base, 0)
    for base in high_bases(b):
        for ports in (1, 8, 9, 128):                    # 9 and 128 may cross as well: 11 before 4
            author.do(drive.SETUP, b, ports, base, 0)
        for wrong in (1, b, 4 * b, eight - 1):          # 3 before 11, with 4 or without
            author.do(drive.SETUP, b, 1, base + wrong, 0)
            author.do(drive.SETUP, b, 128, base + wrong, 0)
        for ports in (0, 129, MANY):                    # 2 before 11, with 3 or without
            author.do(drive.SETUP, b, ports, base, 0)
            author.do(drive.SETUP, b, ports, base + 1, 0)
        for wrong in (0, 1, 7, b + 1, b // 2 * 3, 64, MANY):    # 1 before 11, with 2 or 3 or without
            author.do(drive.SETUP, wrong, 1, base, 0)
            author.do(drive.SETUP, wrong, 0, base, 0)
            author.do(drive.SETUP, wrong, 1, base + 1, 0)


def unsound_record(author, field, value):
    """A unit with work waiting whose ports or base are poked too high: every call is refused with 6 and changes nothing."""
    good = getattr(author.unit, drive.FIELDS[field])
    author.do(drive.ARRIVAL, 0, 65, 0, 0)
    author.do(drive.TICK)
    author.do(drive.POKE, field, value)
    for op in (drive.DIA, drive.START, drive.DIAS, drive.TICK, drive.IOPLS, drive.DOB, drive.DOC, drive.RESET):
        author.do(op)
    author.do(drive.ARRIVAL, 0, 66, 0, 0)
    author.do(drive.TRANSMITTED, 0)
    author.do(drive.DEVICE_STATUS, 0, 1)
    author.inspect()
    author.do(drive.SWEEP, 1, author.look())
    author.do(drive.POKE, field, good)
    author.do(drive.DIAS)
    author.inspect()


def last_turn(author):
    """The turns before the last port's, by a sweep, and then its own."""
    before = author.unit.ports - 1 - author.unit.pos
    author.do(drive.SWEEP, before, author.look(before))
    author.inspect()


def serve_last_port(author):
    """The last port is served: control bits, two characters, two bytes, done with the second; then a byte in a sweep."""
    p = author.unit.ports - 1
    author.write(author.block(p) + 1, 0o40060)          # port control: characters of eight bits
    last_turn(author)
    set_buffer(author, (0, 4, 6), 0o40000, 2000, 2002, p)
    for code in (65, 66):
        author.do(drive.ARRIVAL, p, code, 0, 0)
        last_turn(author)
    set_buffer(author, (1, 5, 7), 0o20000, 2000, 2002, p)
    for _ in range(2):
        last_turn(author)
        author.do(drive.TRANSMITTED, p)
    author.write(author.block(p) + 1, 0o60103)          # a single byte
    author.do(drive.SWEEP, p + 1, author.look(p))
    author.do(drive.DIAS)


def last_areas(author, b):
    """Every area that ends with the memory (02, K10), and settings beside it; its last port is served."""
    for ports in range(8, 129, 8):
        base = 32768 - ports * b
        for other in (1, ports - 1, ports + 1, ports + 8, 128, 129):    # more ports would end past the memory
            author.do(drive.SETUP, b, other, base, 0)
        for other in (base - 8 * b, base + b, base + 8 * b):
            author.do(drive.SETUP, b, ports, other, 0)
        author.do(drive.SETUP, b, ports, base, 0)
        author.do(drive.IOPLS)
        author.do(drive.DOC)
        serve_last_port(author)
        unsound_record(author, 1, ports + 1)
        unsound_record(author, 2, base + 8 * b)


def bases_session():
    """The session of the last bases: one above 32767 by itself, beside each other fault and in a poked record; then every
    area that ends with the memory."""
    author = Author(SEED, 0)
    author.kind = 'bases'
    for b in mux2.BLOCKS:
        author.do(drive.SETUP, b, 1, 32768 - 8 * b, 0)  # the last base that is taken
        author.do(drive.IOPLS)
        author.do(drive.DOC)
        bad_bases(author, b)
        author.do(drive.PLACES, 1, b)
        for base in high_bases(b):
            unsound_record(author, 2, base)
        author.do(drive.SETUP, b, 1, 32768, 1)          # the record of zeros becomes the unit
        author.do(drive.DIA)
        author.do(drive.SETUP, b, 8, 32768 - 8 * b, 0)
        author.do(drive.SETUP, b, 9, 32768 - 8 * b, 0)
    author.do(drive.PLACES, 128, 65535)
    for b in mux2.BLOCKS:
        last_areas(author, b)
    for b in (7, 12, 24, 48):                           # 1 alone keeps these areas from ending past the memory
        author.do(drive.SETUP, b, 128, 32767 // (128 * b) * 128 * b, 0)
    reached = author.mux.reached
    author.do(drive.END)
    return author, reached


def code_received(author, icw, code):
    """A character of this code, served under this ICW into the middle of a buffer; what it echoes is sent."""
    block = author.block(0)
    for at, word in ((0, icw), (4, 2000), (6, 3000)):
        author.write(block + at, word)
    author.do(drive.ARRIVAL, 0, code, 0, 0)
    author.inspect()
    author.do(drive.TRANSMITTED, 0)


def code_sent(author, ocw, code):
    """A byte of this code, sent under this OCW from the middle of a buffer."""
    block = author.block(0)
    for at, word in ((1, ocw), (5, 2001), (7, 3000)):
        author.write(block + at, word)
    author.write(1001, code * 256)
    author.inspect()
    author.do(drive.TRANSMITTED, 0)


def running(author, ports, base, control, b=8):
    """A running unit whose ports have these control bits, by calls and host writes alone."""
    author.do(drive.SETUP, b, ports, base, 0)
    author.do(drive.DOC)
    for p in range(ports):
        author.write(author.block(p) + 1, 0o40000 + control)
        author.inspect()


def one_port(author, base):
    """A running unit of one port, for characters of eight bits."""
    running(author, 1, base, 0o60)


def codes_session():
    """The session of the special codes, by calls and host writes alone: each of the 256 received under each of RECEIVING and
    sent under each of SENDING."""
    author = Author(SEED, 0)
    author.kind = 'codes'
    one_port(author, 64)
    for code in range(256):
        for icw in RECEIVING:
            code_received(author, icw, code)
        for ocw in SENDING:
            code_sent(author, ocw, code)
    reached = author.mux.reached
    author.do(drive.END)
    return author, reached


def host_byte(author, pointer, byte):
    """The host puts a byte and keeps the other half of its word."""
    left, right = divmod(author.mux.memory.word(pointer // 2), 256)
    author.write(pointer // 2, left * 256 + byte if pointer % 2 else byte * 256 + right)


def set_buffer(author, words, control, pointer, end, p=0):
    """The host writes a control word of port p, its pointer and its end; `words` are their places in the block."""
    for place, word in zip(words, (control, pointer, end)):
        author.write(author.block(p) + place, word)


def receive(author, code):
    """A character is served, and the transmitter is then empty."""
    author.do(drive.ARRIVAL, 0, code, 0, 0)
    send(author)


def send(author):
    """A port is served, and its transmitter is then empty."""
    author.inspect()
    if not author.unit.port[0].empty:
        author.do(drive.TRANSMITTED, 0)


def received(author, icw, pointer, end, codes, again=False):
    """Characters for a buffer of this pointer and end; if `again`, two more after INDONE alone is cleared."""
    set_buffer(author, (0, 4, 6), icw, pointer, end)
    for code in codes:
        receive(author, code)
    if again:
        author.write(author.block(0), icw)
        receive(author, 72)
        receive(author, 73)
    author.do(drive.DIAS)


def sent(author, ocw, pointer, end, codes, again=False):
    """Bytes out of a buffer of this pointer and end; if `again`, two more after OUTDONE alone is cleared."""
    for place, code in enumerate(codes, pointer + 1):
        host_byte(author, place % 65536, code)
    set_buffer(author, (1, 5, 7), ocw, pointer, end)
    for _ in codes:
        send(author)
    if again:
        author.write(author.block(0) + 1, ocw)
        send(author)
        send(author)
    author.do(drive.DIAS)


def busy(author):
    """The transmitter is filled by a single character."""
    author.write(author.block(0) + 1, 0o60101)
    author.inspect()


def short_buffers(author, pairs):
    """Buffers of these pointers and ends, in every automatic mode: a character or byte, then a further one."""
    for pointer, end in pairs:
        for icw in RECEIVING:
            received(author, icw, pointer, end, (65, 66))
            if icw & 0o20000:                           # with an echo
                busy(author)
                received(author, icw, pointer, end, (65, 66))
        for ocw in SENDING:
            sent(author, ocw, pointer, end, (65, 66))
            sent(author, ocw, pointer, end, (13, 66))   # a special byte first


def running_buffers(author):
    """Buffers that run to their end, in every automatic mode, and what follows it with the pointers as left."""
    buffers = [(first, first + length) for first in (3000, 3001, 32767) for length in LENGTHS]
    for pointer, end in buffers + [(65530, 65535), (65534, 65535)]:
        codes = range(65, 66 + end - pointer)
        for icw in RECEIVING:
            received(author, icw, pointer, end, codes, again=True)
        for ocw in SENDING:
            sent(author, ocw, pointer, end, codes, again=True)


def buffers_on_own_words(author):
    """Input buffers on the port's own LIB and IBP: what is compared was read before the byte is stored."""
    for word in (6, 4):
        for place in (2 * (author.block(0) + word), 2 * (author.block(0) + word) + 1):
            for end in (0, place - 1, place, place + 1, place + 2, place ^ 255, 60000, 65535):
                for icw in RECEIVING[:2]:
                    received(author, icw, place - 1, end, (0, 66))
                    received(author, icw, place - 1, end, (255, 66))


def input_on_lob(author):
    """Between two bytes of an output buffer a character lands on LOB: the end moves ahead, to OBP, behind it."""
    last = 2 * (author.block(0) + 7)
    for place, codes in ((last, (0, 6, 7, 8, 255)), (last + 1, (0, 208, 209, 210, 211, 212, 255))):
        for code in codes:
            for ocw in SENDING:
                set_buffer(author, (1, 5, 7), ocw, 2000, 2010)
                for byte in range(4):
                    host_byte(author, 2001 + byte, 65 + byte)
                send(author)
                set_buffer(author, (0, 4, 6), 0o40000, place - 1, 65535)
                receive(author, code)
                for _ in range(3):
                    send(author)
                author.do(drive.DIAS)


def short_session():
    """The session of buffers set up too short (02, K2), by calls and host writes alone."""
    author = Author(SEED, 0)
    author.kind = 'short'
    one_port(author, 15360)
    short_buffers(author, SHORT)
    running_buffers(author)
    buffers_on_own_words(author)
    input_on_lob(author)
    one_port(author, 0)                                 # the byte after 65535 is ICW's left half
    short_buffers(author, [(pointer, end) for pointer in (65534, 65535, 0) for end in (0, 9, 65535)])
    buffers_on_own_words(author)
    reached = author.mux.reached
    author.do(drive.END)
    return author, reached


# The session of the sets (02, K5).

def restart(author):
    """A reset empties every transmitter and keeps the set; the unit then runs again."""
    author.do(drive.RESET)
    author.do(drive.DOC)


def each_port_receives(author, icw, codes):
    """Each port receives one of these codes under this ICW."""
    for p, code in enumerate(codes):
        author.write(author.block(p), icw)
        author.do(drive.ARRIVAL, p, code, 0, 0)
    for _ in codes:
        author.inspect()
    restart(author)


def put_next(author, p, code):
    """The host puts the byte that port p's automatic output sends next."""
    host_byte(author, author.mux.memory.word(author.block(p) + 5) + 1, code)


def each_port_sends(author, ocw, codes):
    """Each port sends one of these codes under this OCW."""
    for p, code in enumerate(codes):
        author.write(author.block(p) + 1, ocw)
        put_next(author, p, code)
    for _ in codes:
        author.inspect()
    restart(author)


def thirty_two_ports(author, b):
    """A running unit of 32 ports with the set that stands; the buffers of each have room for what is to come."""
    running(author, 32, 128 * b, 0o60, b)
    for p in range(32):
        set_buffer(author, (0, 4, 6), RECEIVING[0], 20000 + 256 * p, 20255 + 256 * p, p)
        set_buffer(author, (1, 5, 7), SENDING[0], 40000 + 256 * p, 40255 + 256 * p, p)


def every_code(author, receiving, sending):
    """Each of the 256 codes is received under each of these modes, and sent under each of those."""
    for first in range(0, 256, 32):
        codes = range(first, first + 32)
        for icw in receiving:
            each_port_receives(author, icw, codes)
        for ocw in sending:
            each_port_sends(author, ocw, codes)


def swept(author):
    """A turn for each of 32 ports, by sweeps."""
    left = 32
    while left:
        author.do(drive.SWEEP, left, author.look())
        left = -author.unit.pos % 32
    restart(author)


def swept_codes(author):
    """Letters, glottal stops and returns at 32 ports, received and then sent: a sweep stops where a code is special."""
    codes = [NAME[p % len(NAME)] if p % 8 else 0o15 for p in range(32)]
    for p, code in enumerate(codes):
        author.write(author.block(p), RECEIVING[3])
        author.do(drive.ARRIVAL, p, code, 0, 0)
    swept(author)
    for p, code in enumerate(codes):
        author.write(author.block(p) + 1, SENDING[1])
        put_next(author, p, code)
    swept(author)


def name_typed(author, icw, end, still_busy=False):
    """A name is typed letter by letter into a buffer for its first `end` letters; the host takes each report and goes on.
    If `still_busy`, the letter before the glottal stop is still being echoed when the stop comes."""
    set_buffer(author, (0, 4, 6), icw, 2000, 2000 + end)
    for place, code in enumerate(NAME):
        if author.done(0, 0):
            author.write(author.block(0), icw)
        author.do(drive.ARRIVAL, 0, code, 0, 0)
        author.inspect()
        if not author.unit.port[0].empty and not (still_busy and place == STOP_AT - 1):
            author.do(drive.TRANSMITTED, 0)
    author.do(drive.DIAS)


def name_sent(author, ocw):
    """A name is sent as 7-bit ASCII mode keeps it, each top bit 1; the host takes each report and goes on."""
    for place, code in enumerate(NAME, 2001):
        host_byte(author, place, code + 128)
    set_buffer(author, (1, 5, 7), ocw, 2000, 2000 + len(NAME))
    for _ in NAME:
        if author.done(0, 1):
            author.write(author.block(0) + 1, ocw)
        send(author)
    author.do(drive.DIAS)


def names(author):
    """Names in buffers that end with the last letter, with the glottal stop and later, without an echo and with one."""
    for icw in RECEIVING[2:]:
        for end in (STOP_AT + 1, 100, len(NAME)):
            name_typed(author, icw, end)
    for end in (STOP_AT + 1, len(NAME)):
        name_typed(author, RECEIVING[3], end, still_busy=True)
    for ocw in SENDING:
        name_sent(author, ocw)


def other_rules(author):
    """Codes where another rule comes before rule 5: marked characters, single mode, mode 01, INDONE set."""
    for code in (mux2.GLOTTAL_STOP, 0o101, 0o15):
        for parity, broken in ((1, 0), (0, 1)):
            set_buffer(author, (0, 4, 6), 0o70000, 2000, 2100)
            author.do(drive.ARRIVAL, 0, code, parity, broken)
            author.inspect()
        for icw in (0o70000, 0o10000, 0o30000, 0o170000):
            author.write(author.block(0), icw)
            author.do(drive.ARRIVAL, 0, code, 0, 0)
            if icw == 0o70000:
                author.do(drive.ARRIVAL, 0, code, 0, 0)     # the overload mark
            author.inspect()


def main_sets(author):
    """Each of the main sets in new units: every code in every automatic mode, sweeps, names, the other rules."""
    for number, codes in enumerate(MAIN_SETS):
        author.give_set(codes)
        thirty_two_ports(author, mux2.BLOCKS[number % 3])
        swept_codes(author)
        every_code(author, RECEIVING, SENDING)
        one_port(author, 64)
        names(author)
        other_rules(author)


def random_sets(author):
    """Random sets, and every code in the two modes that ask them."""
    for b in mux2.BLOCKS:
        author.give_set(author.random_set())
        thirty_two_ports(author, b)
        every_code(author, RECEIVING[3:], SENDING[1:])


def received_and_sent(author, code):
    """A code is received in 7-bit ASCII mode and sent with the special request."""
    set_buffer(author, (0, 4, 6), 0o50000, 2000, 3000)
    receive(author, code)
    set_buffer(author, (1, 5, 7), 0o30000, 4000, 5000)
    host_byte(author, 4001, code)
    send(author)


def near(author, code):
    """A code is received and sent, with its top bit 1 too, and the codes beside it."""
    for other in (code, code + 128, (code + 1) % 128, (code - 1) % 128):
        received_and_sent(author, other)


def single_codes(author):
    """For each code a set in which it alone is special, by a setup, and one in which it alone is ordinary, by pokes: no
    other code's word can stand in for its own."""
    for code in range(mux2.CODES):
        author.give_set(mux2.set_of((code,)))
        one_port(author, 64)
        near(author, code)
    author.give_set(mux2.EVERY_CODE)
    one_port(author, 64)
    for code in range(mux2.CODES):
        author.do(drive.POKE_CODE, code, 0)
        near(author, code)
        author.do(drive.POKE_CODE, code, 1)


def lengths(author):
    """Characters of five to eight bits, under a random set and the dictionary's: the code is looked up after the cut. What
    is sent is not cut."""
    for codes in (author.random_set(), mux2.DICTIONARY):
        author.give_set(codes)
        for length in (5, 6, 7, 8):
            running(author, 1, 64, (length - 5) * 16)
            for code in range(length, 256, 6):
                received_and_sent(author, code)


def poked_sets(author):
    """A code's word is poked between two services, and while a character and a byte of this code wait for theirs."""
    author.give_set(mux2.DICTIONARY)
    one_port(author, 64)
    for code in (mux2.GLOTTAL_STOP, 0o101, 0o15, 0o173, 0o0, 0o177):
        for yes in (1, 0, 1, 1, 0, 0):
            author.do(drive.POKE_CODE, code, yes)
            received_and_sent(author, code)
        for yes in (1, 0):
            set_buffer(author, (0, 4, 6), 0o70000, 2000, 3000)
            author.do(drive.ARRIVAL, 0, code, 0, 0)
            author.do(drive.POKE_CODE, code, yes)
            send(author)
            set_buffer(author, (1, 5, 7), 0o30000, 4000, 5000)
            host_byte(author, 4001, code)
            author.do(drive.DEVICE_STATUS, 0, 0)
            author.do(drive.POKE_CODE, code, 1 - yes)
            send(author)


def every_other_call(author):
    """Every call that is no setup, in units with a set of their own that must keep it; the set is asked after each."""
    for codes in (mux2.DICTIONARY, mux2.EVERY_CODE, author.random_set()):
        author.give_set(codes)
        one_port(author, 64)
        for order in ((drive.TRANSMITTED, 0), (drive.DEVICE_STATUS, 0, 1), (drive.DEVICE_STATUS, 0, 0), (drive.IOPLS,),
                      (drive.TICK,), (drive.DIA,), (drive.DIAS,), (drive.START,), (drive.DOB,), (drive.DOC,),
                      (drive.RESET,), (drive.DOC,), (drive.SWEEP, 0, 64), (drive.SWEEP, 3, 64), (drive.DOB,),
                      (drive.INSPECT, 64), (drive.SWEEP, 3, 64), (drive.DOC,), (drive.ARRIVAL, 1, 65, 0, 0),
                      (drive.SWEEP, 33, 64)):
            author.do(*order)
            if author.unit.runs:
                received_and_sent(author, mux2.GLOTTAL_STOP)
                received_and_sent(author, 0o101)


def setups_between(author):
    """Setups with another set in mid-session, while a character waits: one that is refused leaves the unit and its set, or
    gives the record of zeros, whose set a poke can change; one that is accepted has the new set."""
    wrong = ((7, 1, 64), (8, 0, 64), (8, 1, 65), (8, 1, 32768), (8, 121, 64))       # 1, 2, 3, 11 and 4
    sets = (*FOUR_SETS, author.random_set())
    for number, setting in enumerate(wrong):
        author.give_set(sets[number])
        one_port(author, 64)
        for given in (*sets[number + 1:], *sets[:number + 1]):
            author.do(drive.ARRIVAL, 0, mux2.GLOTTAL_STOP, 0, 0)
            author.give_set(given)
            author.do(drive.SETUP, *setting, 0)
            set_buffer(author, (0, 4, 6), 0o70000, 2000, 3000)
            send(author)
            received_and_sent(author, mux2.GLOTTAL_STOP)
            received_and_sent(author, 0o101)
        for given in sets:
            author.give_set(given)
            author.do(drive.SETUP, *setting, 1)
            author.do(drive.DIA)
            author.do(drive.POKE_CODE, number, 1)
            author.do(drive.RESET)
            author.do(drive.SETUP, *setting, 0)
        for given in sets:
            author.give_set(given)
            one_port(author, 64)
            received_and_sent(author, mux2.GLOTTAL_STOP)
            author.do(drive.ARRIVAL, 0, mux2.GLOTTAL_STOP, 0, 0)


def sets_session():
    """The session of the sets (02, K5), by calls, host writes and orders 27 to 29."""
    author = Author(SEED, 0)
    author.kind = 'sets'
    author.do(drive.PLACES, 32, 65535)
    setups_between(author)
    poked_sets(author)
    every_other_call(author)
    lengths(author)
    single_codes(author)
    main_sets(author)
    random_sets(author)
    reached = author.mux.reached
    author.do(drive.END)
    return author, reached


def small_sets_session():
    """A short session of four sets, for small.py: a name is typed and sent with the glottal stop's word poked to the other one
    and, after a second setup, to its own. The set that is given stands through setups and pokes, and the unit keeps its own."""
    author = Author(SEED, 0)
    author.kind = 'small sets'
    for codes in FOUR_SETS:
        author.give_set(codes)
        author.do(drive.DIA)
        for word in (1 - codes[mux2.GLOTTAL_STOP], codes[mux2.GLOTTAL_STOP]):
            one_port(author, 64)
            author.do(drive.POKE_CODE, mux2.GLOTTAL_STOP, word)
            name_typed(author, RECEIVING[3], len(NAME))
            name_sent(author, SENDING[1])
    reached = author.mux.reached
    author.do(drive.END)
    return author, reached


# The sessions of the stack (02, K6).

OF_THE_STACK = ('poked stacks', 'stack', 'both kinds')  # their kinds
PLACES_OF = {8: (48, 256), 16: (64, 2304), 32: (41, 14848)}     # by the block size: ports, and a base for both kinds whose
                                                                # address is not 0

# How a stack is filled and drained: interrupts, then STARTs. It is overfilled, the lost mark is kept and cleared, freed places
# are used again, and some STARTs find no entry.
STEPS = ((1, 1), (1, 2), (3, 1), (2, 3), (39, 0), (0, 39), (40, 1), (1, 1), (1, 40), (41, 1), (1, 0), (1, 1), (2, 39), (1, 1),
         (5, 5), (40, 0), (4, 41), (1, 1), (40, 20), (20, 0), (0, 41))


def raise_input(author):
    """The port whose turn it is takes a character, which is done."""
    p = author.unit.pos
    author.write(author.block(p), 0)
    author.do(drive.ARRIVAL, p, 65 + p % 26, 0, 0)
    author.inspect()


def raise_output(author):
    """The port whose turn it is takes control bits, which is done and leaves its transmitter empty."""
    author.write(author.block(author.unit.pos) + 1, 0o40060)
    author.inspect()


def no_interrupt(author):
    """The port whose turn it is finds OUTDONE set."""
    author.write(author.block(author.unit.pos) + 1, 0o140060)
    author.inspect()


BY = ((raise_input,), (raise_output,), (raise_input, raise_output), (raise_output, raise_output, raise_input))
STARTS = ((drive.DIA, drive.START), (drive.DIAS,), (drive.START,), (drive.DIAS, drive.DIA, drive.START))


def raised(author, count, by):
    """So many interrupts, by these in turn."""
    for number in range(count):
        by[number % len(by)](author)


def started(author, count, orders):
    """So many STARTs, by these orders in turn; those that do none count for nothing."""
    done = turn = 0
    while done < count:
        op = orders[turn % len(orders)]
        author.do(op)
        done += op != drive.DIA
        turn += 1


def empty_unit(author, ports, base, b):
    """A running unit whose stack is empty, with its clock on, for characters of eight bits."""
    running(author, ports, base, 0o60, b)
    for op in (drive.RESET, drive.DOC, drive.IOPLS):
        author.do(op)


def filled_and_drained(author, by, starts):
    """The steps above, with a tick in every second one: before the STARTs, after the first or after all."""
    for number, (more, fewer) in enumerate(STEPS):
        raised(author, more, by)
        author.do(drive.DIA)
        if number % 6 == 1:
            author.do(drive.TICK)
        started(author, min(fewer, 1), starts)
        if number % 6 == 3:
            author.do(drive.TICK)
        started(author, max(fewer - 1, 0), starts)
        if number % 6 == 5:
            author.do(drive.TICK)
        author.do(drive.DIA)


def fresh_stack(author):
    """A fresh unit's calls of the interrupt side: no entry, with the clock off and on, bit 0 off and on."""
    for op in (drive.DIA, drive.DIAS, drive.START, drive.TICK, drive.DIA, drive.IOPLS, drive.TICK, drive.DIA, drive.START,
               drive.DIA, drive.TICK, drive.TICK, drive.DIAS, drive.DIAS, drive.TICK, drive.RESET, drive.DIA):
        author.do(op)


def resets(author, by):
    """Resets of stacks with no entry, one, many, all and lost ones, with bit 0 off and on; then the stack is used again."""
    for number, depth in enumerate((0, 1, 2, 39, 40, 41, 43, 42, 1)):
        raised(author, depth, by)
        if number % 2:
            author.do(drive.TICK)
        for op in (drive.DIA, drive.RESET, drive.DIA, drive.START, drive.DOC, drive.IOPLS, drive.TICK):
            author.do(op)
        raised(author, 2, by)
        started(author, 3, (drive.DIAS,))


def reset_after_reset(author):
    """A reset of a full stack whose places are all taken again afterwards: none may have kept its word."""
    for count in (41, 3, 40):
        raised(author, count, BY[2])
        author.do(drive.RESET)
        author.do(drive.RESET)
        author.do(drive.DOC)
    for count in range(1, 4):
        raised(author, count, BY[3])
        started(author, count + 1, (drive.DIAS,))


def every_end(author):
    """Everything that makes an input or an output done, on a stack with room and on a full one: names, marked characters, short
    buffers, a change of the line."""
    for depth in (0, 40):
        one_port(author, 256)
        raised(author, depth, BY[1])
        names(author)
        raised(author, depth, BY[0])
        other_rules(author)
        raised(author, depth, BY[1])
        for level in (1, 0):
            author.write(author.block(0) + 1, 2048 * (1 - level))
            author.do(drive.DEVICE_STATUS, 0, level)
            author.inspect()
            author.do(drive.DIAS)
        for icw in (RECEIVING[0], RECEIVING[3]):
            received(author, icw, 2000, 2002, (65, 66, 67))
        for ocw in SENDING:
            sent(author, ocw, 2000, 2002, (65, 66, 67))


def ready(author, each):
    """Ports with work for sweeps: every `each`th has an interrupt to raise, by input and by output in turn; of the others some
    send a byte of a long buffer, and some have OUTDONE set."""
    for p in range(author.unit.ports):
        block = author.block(p)
        if p % each == each - 1:
            if p // each % 2:
                author.write(block, 0)
                author.do(drive.ARRIVAL, p, 97 + p % 26, 0, 0)
            else:
                author.write(block + 1, 0o40060)
        elif p % 2:
            set_buffer(author, (1, 5, 7), 0o20000, 3000 + p, 9000, p)
        else:
            author.write(block + 1, 0o140060)


def swept_stack(author, each):
    """Sweeps over such ports on a stack with room and on a full one: each stops at an interrupt, queued or lost, whose control
    word is then looked at; some end with it."""
    ports = author.unit.ports
    for lengths_of in ((ports,), (each, each + 1, 1), (2 * each, each - 1, ports)):
        ready(author, each)
        left, turn = ports, 0
        while left > 0:
            to_interrupt = each - 1 - author.unit.pos % each
            n = min(lengths_of[turn % len(lengths_of)], left)
            before = author.unit.pos
            author.do(drive.SWEEP, n, author.look(min(to_interrupt, left - 1)))
            left -= (author.unit.pos - before) % ports or n
            turn += 1
        author.do(drive.DIA)
        for p in range(ports):
            if not author.unit.port[p].empty:
                author.do(drive.TRANSMITTED, p)
        while author.unit.pos:
            no_interrupt(author)


def some_sweep(author):
    """A sweep over a few ports, one of which may have an interrupt to raise."""
    ahead = author.below(4)
    p = (author.unit.pos + ahead) % author.unit.ports
    author.write(author.block(p) + 1, author.one_of(0o40060, 0o60101, 0o140060))
    if author.chance(0.5):
        author.do(drive.ARRIVAL, p, author.below(256), 0, 0)
    author.do(drive.SWEEP, author.below(6), author.look(ahead))


def every_call(author):
    """Each call once, accepted, and the refusals that come after 6."""
    for op in (drive.DIA, drive.TICK, drive.IOPLS, drive.DOB, drive.DOC):
        author.do(op)
    author.do(drive.TRANSMITTED, 0)
    author.do(drive.DEVICE_STATUS, 0, 0)
    author.do(drive.ARRIVAL, author.unit.ports, 65, 0, 0)
    author.do(drive.WORDS, 32767)
    author.inspect()
    author.do(drive.WORDS, 32768)
    author.do(drive.SWEEP, 4097, author.look())
    author.do(drive.SWEEP, 7, author.look())
    raised(author, 2, BY[2])
    some_sweep(author)


def between_other_calls(author):
    """Few entries, and all with lost ones, beside every call that leaves them alone, in a stopped unit too."""
    for depth in (2, 41):
        raised(author, depth, BY[2])
        every_call(author)
        for op in (drive.DOB, drive.DIA, drive.TICK, drive.DIAS, drive.START, drive.DIA, drive.DOC, drive.RESET, drive.DOC):
            author.do(op)


def kinds_between(author):
    """Setups of both kinds in mid-session, with entries, lost ones and a tick waiting: one that is refused leaves the unit, its
    kind and its stack, or gives the record of zeros; one that is accepted is fresh and has the new kind."""
    wrong = ((7, 1, 256), (8, 0, 256), (8, 1, 257), (8, 1, 32768), (8, 97, 256))    # 1, 2, 3, 11 and 4, of either kind
    for number, setting in enumerate(wrong):
        for of_unit in (1, 0):
            for given in (1, 0):
                author.give_kind(of_unit)
                empty_unit(author, *PLACES_OF[8], 8)
                raised(author, (3, 41)[number // 2 % 2], BY[2])
                author.do(drive.TICK)
                author.give_kind(given)
                author.do(drive.SETUP, *setting, 0)
                author.do(drive.DIAS)
                raised(author, 1, BY[0])
                author.do(drive.TICK)
                author.do(drive.DIA)
                if number % 2:                          # every second time the unit is the record of zeros by then
                    author.do(drive.SETUP, *setting, 1)
                    author.do(drive.DIA)
                author.do(drive.SETUP, 8, 8, 256, 1)
                for op in (drive.DIA, drive.START, drive.DOC, drive.IOPLS):
                    author.do(op)
                raised(author, 2, BY[2])
                started(author, 3, (drive.DIAS,))
                author.do(drive.SETUP, *setting, 1)


def stack_session():
    """The session of the stack by calls, host writes and order 15 alone."""
    author = Author(SEED, 0)
    author.kind = 'stack'
    author.do(drive.PLACES, 64, 65535)
    author.do(drive.DIA)                                # of the record of zeros
    kinds_between(author)
    author.give_kind(mux2.MIGHTY_MUX)
    one_port(author, 0)                                 # address 0: entries that tell input or output alone
    filled_and_drained(author, BY[2], STARTS[1])
    for number, (b, (ports, base)) in enumerate(PLACES_OF.items()):
        author.do(drive.SETUP, b, ports, base, 0)
        fresh_stack(author)
        for way in range(3):
            empty_unit(author, ports, base, b)
            filled_and_drained(author, BY[(number + way) % 4], STARTS[(number + 2 * way) % 4])
        resets(author, BY[number])
        reset_after_reset(author)
        between_other_calls(author)
        empty_unit(author, ports, base, b)
        swept_stack(author, 2 + number)
    running(author, 128, 4096, 0o60, 32)                # the highest address, and more lost than queued
    started(author, 42, (drive.DIAS,))
    every_end(author)
    reached = author.mux.reached
    author.do(drive.END)
    return author, reached


# How often each event of the session of both kinds is chosen, by what its part is to do.
EVENTS = {
    'fill': dict(raise_input=8, raise_output=8, no_interrupt=3, tick=1, dia=1, start=0.5, dias=0.5, some_sweep=2),
    'drain': dict(raise_input=1, raise_output=1, no_interrupt=1, tick=1, dia=2, start=4, dias=4, some_sweep=0.5),
    'even': dict(raise_input=3, raise_output=3, no_interrupt=2, tick=1, dia=1, start=2.5, dias=2.5, some_sweep=1, reset=0.1),
}
PARTS = ('drain', 'fill', 'even', 'drain', 'fill', 'fill', 'even', 'drain', 'drain')


def events(author, seed, parts):
    """Events from a generator of their own, whatever the kind of the unit."""
    author.random = Random(seed).random
    by_name = dict(raise_input=raise_input, raise_output=raise_output, no_interrupt=no_interrupt, some_sweep=some_sweep)
    for part in parts:
        for _ in range(40):
            event = author.weighted(EVENTS[part])
            if event in by_name:
                by_name[event](author)
            elif event == 'reset':
                for op in (drive.RESET, drive.DOC, drive.IOPLS):
                    author.do(op)
            else:
                author.do(dict(tick=drive.TICK, dia=drive.DIA, start=drive.START, dias=drive.DIAS)[event])


def kinds_session():
    """The session of both kinds: the same events at an EDS-8 and at a Mighty Mux."""
    author = Author(SEED, 0)
    author.kind = 'both kinds'
    author.do(drive.PLACES, 6, 65535)
    for b, (ports, base) in PLACES_OF.items():
        for kind in (mux2.EDS_8, mux2.MIGHTY_MUX):
            author.give_kind(kind)
            author.do(drive.FILL, b)
            running(author, ports, base, 0o60, b)
            author.do(drive.IOPLS)
            events(author, b, PARTS)
    reached = author.mux.reached
    author.do(drive.END)
    return author, reached


# Poked stacks: their words, and what may stand beside them.
WORDS_OF = [(65535, 49152, 0, 11264, 32768, 16384, 31, 20000)[place % 8] ^ place for place in range(40)]
STATUS_WORDS = (0, 32768, 32767, 65535, 31776)
TOO_MANY = (41, 42, 64, 255, 256, 296, 65535, 65536, 65576, 2147483648, 2147483688, MANY - 1, MANY)


def poke_all(author, **fields):
    """Fields of the record by their names."""
    for name, value in fields.items():
        author.do(drive.POKE, drive.FIELDS.index(name), value)


def poke_entries(author, words=WORDS_OF):
    """These words in the places of the stack, by pokes where others stand."""
    for place, word in enumerate(words):
        if author.unit.stack[place] != word:
            author.do(drive.POKE_STACK, place, word)


def interrupt_side(author, **fields):
    """Each call of the interrupt side, and an interrupt of each kind, at a record that is poked so before it."""
    for what in (drive.DIA, drive.START, drive.DIAS, drive.TICK, raise_input, raise_output, drive.RESET):
        poke_entries(author)
        poke_all(author, clock=1, **fields)
        if callable(what):
            what(author)
        else:
            author.do(what)
        author.do(drive.DIA)
        if what == drive.RESET:
            author.do(drive.DOC)


def poked_sides(author):
    """Interrupt sides that no call would make: of either kind, with every flag and lost mark beside every number of entries."""
    for kind in (mux2.MIGHTY_MUX, mux2.EDS_8):
        for fill in (0, 1, 2, 39, 40):
            for number, status in enumerate(STATUS_WORDS):
                for lost, irq in ((number % 2, 0), (1 - number % 2, 1)) if kind == mux2.EDS_8 else (
                        (0, 0), (0, 1), (1, 0), (1, 1)):
                    interrupt_side(author, kind=kind, fill=fill, lost=lost, status=status, irq=irq)


def free_words(author):
    """Fewer entries than words: those past the last entry move down and are written over, and without an entry they stay."""
    poke_entries(author)
    poke_all(author, kind=mux2.MIGHTY_MUX, fill=3, lost=0, status=0)
    started(author, 2, (drive.DIAS,))
    raised(author, 3, BY[2])
    started(author, 6, (drive.DIAS,))
    raised(author, 1, BY[0])
    started(author, 2, (drive.START, drive.DIA))
    for fill in (0, 5, 40, 39, 1, 0, 40):
        poke_all(author, fill=fill)
        author.do(drive.DIA)
        raised(author, 1, BY[1])
        author.do(drive.DIAS)
    author.do(drive.RESET)
    author.do(drive.DOC)


def marked_without_entries(author):
    """A lost mark with no entry: it is not shown, an entry that comes shows it, and a START that leaves none clears it."""
    for op in (drive.DIA, drive.START, drive.DIAS, drive.TICK, drive.RESET):
        poke_all(author, kind=mux2.MIGHTY_MUX, fill=0, lost=1, status=0, irq=0)
        for order in (drive.DIA, op, drive.DIA, drive.DOC):
            author.do(order)
        raised(author, 2, BY[2])
        started(author, 3, (drive.DIAS,))
        raised(author, 1, BY[0])
        started(author, 1, (drive.DIAS,))


def kind_under_way(author):
    """The kind is poked while entries, a lost mark and a status word stand: each kind keeps what the other has."""
    for depth in (0, 2, 39, 41):
        poke_all(author, kind=mux2.MIGHTY_MUX)
        author.do(drive.RESET)
        author.do(drive.DOC)
        author.do(drive.IOPLS)
        raised(author, depth, BY[2])
        for kind in (mux2.EDS_8, mux2.MIGHTY_MUX) * 3:
            poke_all(author, kind=kind)
            author.do(drive.DIA)
            raised(author, 2, BY[2])
            for op in (drive.DIA, drive.TICK, drive.DIAS, drive.DIA, drive.TICK):
                author.do(op)
            raised(author, 1, BY[1])
            author.do(drive.START)
            raised(author, 1, BY[0])
        poke_all(author, kind=mux2.EDS_8)
        author.do(drive.RESET)
        author.do(drive.DOC)
        poke_all(author, kind=mux2.MIGHTY_MUX)
        author.do(drive.DIA)


def as_many_as_there_may_be(author):
    """40 entries of either kind are sound, and more are not: every call is refused with 6, before any other number."""
    for kind in (mux2.MIGHTY_MUX, mux2.EDS_8):
        for op in (drive.START, drive.DIAS, drive.RESET):
            poke_entries(author)
            poke_all(author, kind=kind, fill=40, lost=int(op != drive.START), status=0, irq=1, clock=1)
            every_call(author)
            author.do(op)
            author.do(drive.DOC)
        for fill in TOO_MANY:
            poke_entries(author, WORDS_OF[::-1])
            poke_all(author, fill=author.one_of(0, 1, 40), clock=1)
            unsound_record(author, 10, fill)
            good = author.unit.fill
            poke_all(author, fill=fill)
            author.do(drive.WORDS, 32767)
            author.inspect()
            author.do(drive.SWEEP, 4097, author.look())
            author.do(drive.WORDS, 32768)
            author.do(drive.ARRIVAL, author.unit.ports, 65, 0, 0)
            author.do(drive.SETUP, 8, 0, 64, 0)
            poke_all(author, fill=good)
            author.do(drive.DIAS)
        poke_all(author, fill=41)                       # a setup looks at no old record
        author.do(drive.SETUP, 8, *PLACES_OF[8], 0)
        author.do(drive.DOC)
        author.do(drive.DIA)


def poked_session():
    """The session of poked stacks."""
    author = Author(SEED, 0)
    author.kind = 'poked stacks'
    author.do(drive.PLACES, 6, 65535)
    for kind, b in zip((mux2.MIGHTY_MUX, mux2.EDS_8, mux2.MIGHTY_MUX), mux2.BLOCKS):
        author.give_kind(kind)
        empty_unit(author, *PLACES_OF[b], b)
        free_words(author)
        marked_without_entries(author)
        kind_under_way(author)
        if b < 32:
            as_many_as_there_may_be(author)
    poked_sides(author)
    reached = author.mux.reached
    author.do(drive.END)
    return author, reached


# The session of the bases of a Mighty Mux (02, K7).

OF_THE_BASES = 'bases of a Mighty Mux'                  # its kind
NEAR_400 = (0, 1, 63, 64, 65, 100, 127, 128, 192, 200, 255, 256, 257, 264, 320, 384, 400, 448, 512, 640, 768, 896, 960, 1024,
            1152, 1600, 3200, 4096)                     # around octal 400, and multiples of decimal 400
LAST_ONES = (32256, 32320, 32512, 32576, 32640, 32704, 32767)
PAST_THEM = (32768, 32832, 32896, 33024, 33152, 65472, 65536, 65600, 65664, 65792, 2147483584, 2147483648, 2147483712,
             2147483776, 2147483904, HIGH - 64, HIGH, HIGH + 64, HIGH + 128, MANY)
SMALL_BASES = {8: (64, 128, 192, 320, 448, 960, 1600, 32576, 32704), 16: (128, 384, 896, 3200, 32640),
               32: ()}                                  # by the block size: bases that an EDS-8 alone may have
OTHER_BLOCKS = (7, 24)


def faults(setting, kind):
    """The numbers of all rows that apply to a setting, whichever is given."""
    return tuple(number for number, applies in mux2.SETUP_ROWS.items() if applies(*setting, kind))


def every_fault(author, kind):
    """A setting for each set of faults that one can have, in each block size and in wrong ones: refused with the unit left, then
    with the record of zeros in its place."""
    author.give_kind(kind)
    for b in (*mux2.BLOCKS, *OTHER_BLOCKS):
        bases = (256, 512, 768, 0, 64, 128, 257, 8 * b, 24 * b, 256 * b, 32832, 32896, 33024, 32769, 34048, 8 * b * 4111,
                 257 * 256 * b)
        met = {}
        for setting in [(b, ports, base) for base in bases for ports in (1, 128, 0, 129)]:
            met.setdefault(faults(setting, kind), setting)
        for setting in met.values():
            for take in (0, 1):
                author.do(drive.SETUP, *setting, take)
                author.do(drive.DIA)
            author.do(drive.SETUP, 32, 8, 256, 0)


def every_base(author, kind):
    """Setups at every base above, with ports that just fit and one more; some leave the unit, and others do not."""
    author.give_kind(kind)
    for b in mux2.BLOCKS:
        for number, base in enumerate(NEAR_400 + LAST_ONES + PAST_THEM):
            room = 128 - base // b % 128
            for ports in (1, room, room + 1) if base < 32768 else (1, 128):
                author.do(drive.SETUP, b, ports, base, number % 2)
        for base in (0, 64, 128, 256, 320, 384, 32768, 32832, 32896):
            for ports in (0, 8, 96, 97, 128, 129, MANY):
                author.do(drive.SETUP, b, ports, base, 0)


def used(author, ports, base, b):
    """A unit of the kind that stands is set up here and used: interrupts, a tick, characters, bytes and sweeps."""
    empty_unit(author, ports, base, b)
    raised(author, 3, BY[2])
    author.do(drive.TICK)
    started(author, 2, (drive.DIAS,))
    serve_last_port(author)
    author.do(drive.ARRIVAL, 0, 65, 0, 0)
    author.do(drive.SWEEP, ports, author.look())
    started(author, 4, (drive.DIAS,))


def used_places(author):
    """Units of both kinds at bases that either may have, with as many ports as fit, and EDS-8s at bases of their own."""
    for b in mux2.BLOCKS:
        for kind in (mux2.MIGHTY_MUX, mux2.EDS_8):
            author.give_kind(kind)
            for ports, base in ((8, 0), (3, 256), (5, 512), (1, 768), (2, 15360), (256 // b, 32512)):
                used(author, ports, base, b)
        used(author, 128 - 256 // b, 256, b)
        for base in SMALL_BASES[b][:3]:
            used(author, 8, base, b)


def refused_between(author):
    """Setups that 12 refuses in mid-session, with entries and a tick waiting: the unit goes on, of whichever kind it is, or is
    the record of zeros. The same numbers for an EDS-8 are accepted, of whichever kind the unit was."""
    for b in mux2.SMALL_BLOCKS:
        for of_unit in (mux2.MIGHTY_MUX, mux2.EDS_8):
            for base in SMALL_BASES[b][:3]:
                author.give_kind(of_unit)
                empty_unit(author, 8, 256, b)
                raised(author, 3, BY[2])
                author.do(drive.TICK)
                author.give_kind(mux2.MIGHTY_MUX)
                author.do(drive.SETUP, b, 8, base, 0)
                author.do(drive.DIAS)
                raised(author, 2, BY[2])
                author.give_kind(mux2.EDS_8)
                author.do(drive.SETUP, b, 8, base, 0)
                author.do(drive.DOC)
                raised(author, 2, BY[2])
                author.give_kind(mux2.MIGHTY_MUX)
                author.do(drive.SETUP, b, 8, base, 0)   # what the unit is does not count
                author.do(drive.DIAS)
                author.do(drive.SETUP, b, 8, base, 1)
                author.do(drive.DIA)
                author.do(drive.POKE, 8, mux2.MIGHTY_MUX)
                author.do(drive.SETUP, b, 8, base, 0)
                author.give_kind(mux2.EDS_8)
                author.do(drive.SETUP, b, 8, base, 0)


def poked_bases(author):
    """A Mighty Mux whose base is poked: every call is refused with 6 at one for an EDS-8 alone, and none at another multiple of
    octal 400."""
    for b in mux2.BLOCKS:
        author.give_kind(mux2.MIGHTY_MUX)
        empty_unit(author, 8, 256, b)
        for number, base in enumerate(SMALL_BASES[b] + (257, 264, 32832, 33024)):
            unsound_record(author, 2, base)
            poke_all(author, base=(0, 512, 768, 32512)[number % 4])
            raised(author, 2, BY[2])


def poked_kinds(author):
    """An EDS-8 whose kind is poked: every call is refused with 6 at a base for it alone, and none after it is poked back; at a
    multiple of octal 400 the unit goes on as either."""
    author.give_kind(mux2.EDS_8)
    for b in mux2.BLOCKS:
        for base in (*SMALL_BASES[b], 256, 768):
            empty_unit(author, 8, base, b)
            raised(author, 2, BY[2])
            unsound_record(author, 8, mux2.MIGHTY_MUX)
            every_call(author)
            author.do(drive.START)


def kind_and_base(author):
    """Kind and base are poked in turn: such a base is unsound with the one kind and sound with the other, and the kind that the
    last setup was given does not count."""
    for b in mux2.SMALL_BLOCKS:
        for given in (mux2.MIGHTY_MUX, mux2.EDS_8):
            author.give_kind(given)
            empty_unit(author, 8, 256, b)
            for base in SMALL_BASES[b]:
                poke_all(author, kind=mux2.MIGHTY_MUX, base=base)
                author.do(drive.TICK)
                author.inspect()
                poke_all(author, kind=mux2.EDS_8)
                raised(author, 2, BY[2])
                author.do(drive.DIAS)
                poke_all(author, kind=mux2.MIGHTY_MUX)
                author.do(drive.DIAS)
                author.do(drive.ARRIVAL, 0, 65, 0, 0)
                poke_all(author, base=base // 256 * 256)
                raised(author, 2, BY[2])
                author.do(drive.DIAS)


def beside_the_base(author):
    """What else may be wrong beside such a base: 6 comes before any other number, whatever else makes a record unsound, in a
    stopped unit too; a setup looks at no old record."""
    author.give_kind(mux2.MIGHTY_MUX)
    for b, base in ((8, 64), (8, 320), (16, 128), (16, 32640)):
        empty_unit(author, 8, 256, b)
        raised(author, 2, BY[2])
        poke_all(author, base=base)
        author.do(drive.ARRIVAL, 8, 65, 0, 0)
        author.do(drive.TRANSMITTED, MANY)
        author.do(drive.DEVICE_STATUS, 128, 1)
        author.do(drive.SWEEP, 4097, author.look())
        author.do(drive.SWEEP, 4096, author.look())
        author.do(drive.WORDS, 32767)
        author.inspect()
        author.do(drive.SWEEP, 0, author.look())
        author.do(drive.WORDS, 32768)
        for field, value in (('pos', 8), ('ports', 121), ('fill', 41), ('ports', 0), ('block', 7), ('runs', 0)):
            good = getattr(author.unit, field)
            poke_all(author, **{field: value})
            for kind in (mux2.MIGHTY_MUX, mux2.EDS_8, mux2.MIGHTY_MUX):
                poke_all(author, kind=kind)
                author.do(drive.DIA)
                author.inspect()
                author.do(drive.DOC)
            poke_all(author, **{field: good})
        for kind, ports in ((mux2.MIGHTY_MUX, 0), (mux2.MIGHTY_MUX, 8), (mux2.EDS_8, 8)):
            author.give_kind(kind)
            author.do(drive.SETUP, b, ports, base, 0)
        author.give_kind(mux2.MIGHTY_MUX)
        author.do(drive.DOC)
        author.inspect()


def mighty_bases_session():
    """The session of the bases of a Mighty Mux, and of an EDS-8 at the same ones."""
    author = Author(SEED, 0)
    author.kind = OF_THE_BASES
    author.do(drive.PLACES, 128, 65535)
    poked_bases(author)
    poked_kinds(author)
    kind_and_base(author)
    beside_the_base(author)
    refused_between(author)
    for kind in (mux2.MIGHTY_MUX, mux2.EDS_8):
        every_fault(author, kind)
        every_base(author, kind)
    used_places(author)
    reached = author.mux.reached
    author.do(drive.END)
    return author, reached


def small_stack_session():
    """A short session of the stack, for small.py: filled, overfilled, drained, poked and reset, with a sweep at a full stack;
    then a base for an EDS-8 alone, given to either kind and poked."""
    author = Author(SEED, 0)
    author.kind = 'small stack'
    author.do(drive.PLACES, 4, 65535)
    author.give_kind(mux2.MIGHTY_MUX)
    empty_unit(author, 2, 15360, 32)
    raised(author, 3, BY[2])
    author.do(drive.TICK)
    started(author, 4, (drive.DIAS,))
    poke_entries(author)
    poke_all(author, fill=39, irq=1)
    raised(author, 2, BY[0])
    author.write(author.block(author.unit.pos) + 1, 0o40060)
    author.do(drive.SWEEP, 4, author.look())
    started(author, 3, STARTS[0])
    poke_all(author, kind=mux2.EDS_8)
    raised(author, 2, BY[2])
    started(author, 2, STARTS[3])
    poke_all(author, kind=mux2.MIGHTY_MUX, lost=0)
    started(author, 38, (drive.DIAS,))
    unsound_record(author, 10, 41)
    author.do(drive.RESET)
    author.do(drive.SETUP, 7, 1, 64, 1)
    for kind in (mux2.MIGHTY_MUX, mux2.EDS_8):
        author.give_kind(kind)
        author.do(drive.SETUP, 8, 2, 64, 0)
    for field, value in ((8, mux2.MIGHTY_MUX), (2, 256), (2, 320), (8, mux2.EDS_8)):
        author.do(drive.POKE, field, value)
        author.do(drive.DIA)
    reached = author.mux.reached
    author.do(drive.END)
    return author, reached


# The sessions of the wire (02, K3).

OF_FRAMES, OF_ARRIVALS = ('frames', 'wrong frames', 'noise'), ('characters from the wire', 'wire and unit')     # their kinds
FORMS = range(len(wire2.FORMS))                         # the numbers of the forms
CHARACTERS = (0, 255, mux2.GLOTTAL_STOP, 0o125, 0o252, *(2 ** place for place in range(8)))
MARKS = (2, 255)                                        # bytes that read as marks, beside 1
PAST_THE_END = 170                                      # put where no cell is
FILLS = ((2, 1), (3, 2), (256, 3), (1, 4))              # what noise is cut to, and where it starts
PORTS_PAST = (8, 9, 100, 127, 128, 129, 133, 255, 256, 261, 65541, 2147483653, MANY - 127, MANY)    # no ports of a unit of 8


def cells_of(number):
    """How many cells a frame of this form has."""
    return wire2.length(wire2.FORMS[number])


def lend(author, first, count):
    """The cells from this place on are lent, by an order where others are."""
    if (author.wire.first, author.wire.count) != (first, count):
        author.do(drive.LEND, first, count)


def lend_some(author, number, more=0):
    """Cells somewhere on the line are lent, as many as a frame of this form has and so many more."""
    count = cells_of(number) + more
    lend(author, author.below(wire2.CELLS - count + 1), count)


def fill_cells(author, m):
    """All the cells become noise below m."""
    author.do(drive.FILL_CELLS, 1 + author.below(2000000000), m)


def put_cells(author, first, wanted):
    """The cells from this place on become these, by words of four where others stand."""
    for at, byte in enumerate(wanted, first):
        if author.wire.cells[at] != byte:
            four = [*wanted[at - first:at - first + 4]]
            beyond = [*author.wire.cells[at + len(four):at + 4], *[PAST_THE_END] * 3]
            author.do(drive.CELLS, at, int.from_bytes(bytes((four + beyond)[:4]), 'big'))


def written(author, number, byte):
    """A frame is written into the cells lent; the cells it has."""
    author.do(drive.FRAME, number, byte)
    return list(author.wire.lent()[:cells_of(number)])


# Frames that are right.

def every_room(author, number):
    """A form's frames into lists of every length up to three cells more than it has, over noise; each list is then read."""
    fill_cells(author, 256)
    most = cells_of(number) + 3
    first = author.below(wire2.CELLS - most + 1)
    for count in range(most + 1):
        lend(author, first, count)
        author.do(drive.FRAME, number, author.below(256))
        author.do(drive.READ, number)


def characters(author, number):
    """Frames of characters that show each data bit, and of random ones, anywhere on the line, each read back."""
    fill_cells(author, 256)
    for byte in (*CHARACTERS, author.below(256), author.below(256), author.below(256)):
        lend_some(author, number, author.one_of(0, 0, 1, 2, 3))
        author.do(drive.FRAME, number, byte)
        author.do(drive.READ, number)


def at_the_end(author, number):
    """Lists that end with the line, and lists that would end past it."""
    fill_cells(author, 256)
    n = cells_of(number)
    for first, count in ((wire2.CELLS - n, n), (wire2.CELLS - n, wire2.CELLS), (wire2.CELLS - n + 1, n), (0, wire2.CELLS),
                         (wire2.CELLS, n), (wire2.CELLS - 1, wire2.CELLS)):
        lend(author, first, count)
        author.do(drive.FRAME, number, author.below(256))
        author.do(drive.READ, number)


def by_every_form(author, number):
    """A frame of this form is read by every form, as one that is not agreed upon would be."""
    fill_cells(author, 2)
    lend_some(author, number, 12)
    author.do(drive.FRAME, number, author.below(256))
    for other in FORMS:
        author.do(drive.READ, other)


def sampled(author, number):
    """A name is sent on an idle line, with no pause, a short one and a longer one after a frame, and is read along the line."""
    put_cells(author, 0, [1] * wire2.CELLS)
    places, first = [], 0
    for letter, code in enumerate(NAME):
        lend(author, first, cells_of(number))
        author.do(drive.FRAME, number, code)
        places.append(first)
        first += cells_of(number) + letter % 3
    for first in places:
        lend(author, first, wire2.CELLS)
        author.do(drive.READ, number)


def frames_session():
    """The session of frames that are right: each form with many characters, in lists of every length."""
    author = Author(SEED, 0)
    author.kind = OF_FRAMES[0]
    for number in FORMS:                                # the cells are 0, and nothing is lent at first
        author.do(drive.FRAME, number, 255)
        author.do(drive.READ, number)
    for number in FORMS:
        every_room(author, number)
    for number in FORMS:
        characters(author, number)
        at_the_end(author, number)
        by_every_form(author, number)
    for number in FORMS[::5]:
        sampled(author, number)
    return ended(author)


def ended(author):
    """The end of a session: its author, and the branches of the unit and of the wire that it reached."""
    reached = {**author.mux.reached, **author.wire.reached}
    author.do(drive.END)
    return author, reached


# Frames that are wrong.

def spoiled(author, number, good, changes):
    """A frame with some cells changed, by their places in it, is read."""
    put_cells(author, author.wire.first, [changes.get(place, cell) for place, cell in enumerate(good)])
    author.do(drive.READ, number)


def turned(good, *places):
    """These cells of a frame, each with the other level."""
    return {place: 1 - good[place] for place in places}


def places_of(number):
    """The places of a form's parts in its frame: start, each data bit, the parity bit or none, the first stop, later stops."""
    form = wire2.FORMS[number]
    pairs = [(place, place + 1) for place in range(0, cells_of(number) - form.stops, 2)]
    start, data, parity = pairs[0], pairs[1:1 + form.bits], pairs[1 + form.bits:]
    stops = range(cells_of(number) - form.stops, cells_of(number))
    return start, data, parity, stops[:2], stops[2:]


def every_cell(author, number, good):
    """Each cell of a frame by itself becomes a space, a mark, and a mark by other bytes."""
    for place, cell in enumerate(good):
        for byte in (0, 1, *MARKS):
            if byte != cell:
                spoiled(author, number, good, {place: byte})


def wrong_bits(author, number, good):
    """Both halves of the start, of each data bit and of the parity bit, with the other level, alone and beside a break."""
    start, data, parity, (stop, half), later = places_of(number)
    for pair in (start, *data, *parity):
        spoiled(author, number, good, turned(good, *pair))
    for pair in (data[0], data[-1], *parity):
        for places in ((stop,), (half,), (stop, half)):
            spoiled(author, number, good, turned(good, *pair, *places))
    for pair in parity:
        spoiled(author, number, good, turned(good, *pair, *data[0]))       # a parity bit that is right again
        spoiled(author, number, good, turned(good, *pair, *data[0], *data[1]))
        spoiled(author, number, good, turned(good, *pair, *later))


def wrong_stops(author, number, good):
    """Either and both halves of the first stop, with later stops as they are and as spaces, and later stops alone."""
    *_, (stop, half), later = places_of(number)
    others = sorted({(), tuple(later[:1]), tuple(later[1:]), tuple(later)})
    for places in ((stop,), (half,), (stop, half)):
        for also in others:
            spoiled(author, number, good, turned(good, *places, *also))
    for also in others[1:]:
        spoiled(author, number, good, turned(good, *also))


def wrong_starts(author, number, good):
    """Marks in the start, by 1 and by another byte, in a frame that is right otherwise and beside other faults."""
    start, data, parity, (stop, half), _ = places_of(number)
    for mark in (1, 200):
        for places in (start[:1], start[1:], start):
            spoiled(author, number, good, dict.fromkeys(places, mark))
    for other in (turned(good, data[0][0]), turned(good, data[-1][1]), turned(good, half),
                  *(turned(good, *pair) for pair in parity)):
        spoiled(author, number, good, {start[0]: 1, **other})
        spoiled(author, number, good, {start[1]: 200, **other})


def wrong_halves(author, number, good):
    """Halves that differ in more bits than one, and beside a wrong parity bit or a break."""
    start, data, parity, (stop, half), _ = places_of(number)
    for changes in (turned(good, data[0][0], data[1][0]), turned(good, data[0][1], data[-1][0]),
                    turned(good, data[2][0], stop), turned(good, data[-1][1], half),
                    *(turned(good, *pair, data[1][0]) for pair in parity),
                    *(turned(good, pair[0], data[1][1]) for pair in parity),
                    *(turned(good, pair[1], stop, half) for pair in parity)):
        spoiled(author, number, good, changes)


def other_marks(author, number, good):
    """Every mark by another byte, by the same one and by many, in a frame that is right and in one with each mark."""
    start, data, parity, (stop, half), later = places_of(number)
    right = {place: author.one_of(1, 2, 77, 128, 254, 255, 1 + author.below(255)) for place, cell in enumerate(good) if cell}
    for byte in (2, 128, 255):
        spoiled(author, number, good, dict.fromkeys(right, byte))
    spoiled(author, number, good, right)
    spoiled(author, number, good, {**right, stop: 0})
    spoiled(author, number, good, {**right, half: 0, **dict.fromkeys(later, 0)})
    for pair in parity:
        bit = [0, 0] if good[pair[0]] else [2, 254]
        spoiled(author, number, good, {**right, **dict(zip(pair, bit))})
        spoiled(author, number, good, {**right, **dict(zip(pair, bit)), stop: 0})


def short_lists(author, number, good):
    """Lists of a frame's first cells, too few by one to three: of a right frame and of wrong ones."""
    start, data, parity, (stop, half), later = places_of(number)
    first, n = author.wire.first, cells_of(number)
    frames = [{}, {start[0]: 1}, {start[1]: 200}, turned(good, data[0][0]), turned(good, stop),
              *(turned(good, *pair) for pair in parity), *(turned(good, pair[1]) for pair in parity)]
    for changes in frames:
        put_cells(author, first, [changes.get(place, cell) for place, cell in enumerate(good)])
        for missing in (1, 2, 3):
            lend(author, first, n - missing)
            author.do(drive.READ, number)
        lend(author, first, n)
    put_cells(author, first, good)
    for count in (0, 1, 2, 3, len(good) // 2):
        lend(author, first, count)
        author.do(drive.READ, number)


def wrong_frames_session():
    """The session of frames that are wrong: every cell of every form, and what may be wrong in more cells than one."""
    author = Author(SEED, 1)
    author.kind = OF_FRAMES[1]
    for number in FORMS:
        fill_cells(author, 256)
        for turn, byte in enumerate((CHARACTERS[number % len(CHARACTERS)], author.below(256))):
            lend_some(author, number, turn)
            good = written(author, number, byte)
            wrong_bits(author, number, good)
            wrong_stops(author, number, good)
            spoiled(author, number, good, {})           # right again
        every_cell(author, number, good)
        wrong_starts(author, number, good)
        wrong_halves(author, number, good)
        other_marks(author, number, good)
        short_lists(author, number, good)
    return ended(author)


# Noise.

def everywhere(author, turn):
    """The line is read at every place, by every form in turn, in a list of a frame's length and in a longer one in turn."""
    for first in range(wire2.CELLS):
        number = (first + turn) % len(FORMS)
        lend(author, first, (cells_of(number), wire2.CELLS)[first // len(FORMS) % 2])
        author.do(drive.READ, number)


def sounded_line(author):
    """A line whose levels change at every second cell alone, so that most of what is read there is some frame."""
    def byte(level):
        return level and author.one_of(1, 1, 2, 255)

    levels = [author.below(2) for _ in range(wire2.CELLS // 2)]
    put_cells(author, 0, [byte(level) for level in levels for _ in range(2)])


def noise_session():
    """The session of noise: lines of random bytes, and lines of random levels for two cells each, read at every place."""
    author = Author(SEED, 2)
    author.kind = OF_FRAMES[2]
    for turn, (m, x) in enumerate(FILLS):
        author.do(drive.FILL_CELLS, x, m)
        everywhere(author, 7 * turn)
    for turn in range(2):
        sounded_line(author)
        everywhere(author, turn)
    return ended(author)


# Characters that come from the wire to a unit.

def form_at(author, port):
    """The number of the form that the control bits ask for by which a frame for this port is read."""
    return wire2.FORMS.index(wire2.form_of(author.unit.port[port % mux2.ARRAY].control))


def with_control(author, port, control):
    """A port's control bits are poked; cells for a frame of their form are lent."""
    author.do(drive.POKE_PORT, port, 6, control)
    lend_some(author, form_at(author, port))


def marked_changes(number, good, parity, brk):
    """What is to be changed in a right frame so that it is read with these marks, if the form has a parity bit."""
    *_, pairs, stop, _ = places_of(number)
    places = [place for pair in pairs if parity for place in pair] + [stop[brk - 1]] * (brk > 0)
    return turned(good, *places)


def from_the_wire(author, port, byte, parity=0, brk=0):
    """A frame for a port, with a wrong parity bit, or a break in either half of the stop, or both; it arrives at the port."""
    number = form_at(author, port)
    good = written(author, number, byte)
    changes = marked_changes(number, good, parity, brk)
    put_cells(author, author.wire.first, [changes.get(place, cell) for place, cell in enumerate(good)])
    author.do(drive.FROM_WIRE, port)


def every_control(author, controls):
    """A port with each of these control bytes: a right frame arrives and is served; then one with marks, some of them twice."""
    for control in controls:
        with_control(author, 0, control)
        from_the_wire(author, 0, author.below(256))
        author.write(author.block(0), 0)
        author.inspect()
        from_the_wire(author, 0, author.below(256), parity=control // 2 % 2, brk=control % 3)
        if control % 5 == 0:
            author.do(drive.FROM_WIRE, 0)
        author.inspect()                                # INDONE is set by now
    author.do(drive.DIAS)


def refused_readings(author, port):
    """Lists that are too short for a port's frames, and frames that are none: the unit stays as it is, whatever it holds."""
    number, first = form_at(author, port), author.wire.first
    n = cells_of(number)
    start, data, parity, *_ = places_of(number)
    good = written(author, number, author.below(256))
    for count in (n - 1, n - 2, 1, 0):
        lend(author, first, count)
        author.do(drive.FROM_WIRE, port)
    lend(author, first, n)
    for changes in ({start[0]: 1}, {start[1]: 200}, turned(good, data[0][1]), *(turned(good, pair[0]) for pair in parity)):
        put_cells(author, first, [changes.get(place, cell) for place, cell in enumerate(good)])
        author.do(drive.FROM_WIRE, port)
    put_cells(author, first, good)
    author.do(drive.READ, number)                       # the cells are digested: no reading changed them


def no_ports(author):
    """Ports that a unit of 8 has not: frames by the control bits of the place that each has, and what else may be refused."""
    for place in (0, 1, 5, 8, 9, 100, 127):
        author.do(drive.POKE_PORT, place, 6, (place * 37 + 16) % 256)
    for port in PORTS_PAST:
        lend_some(author, form_at(author, port))
        from_the_wire(author, port, 255, parity=port % 2, brk=port // 2 % 2)
        lend(author, author.wire.first, 7)
        author.do(drive.FROM_WIRE, port)
    for port in (0, 1, 5, 7):
        lend_some(author, form_at(author, port))
        from_the_wire(author, port, 255)


def unsound_unit(author):
    """Arrivals from the wire at a record that is unsound: 6 after a frame that is read, and the reading's number before it."""
    for port in (0, 7, 8, 128, MANY):
        lend_some(author, form_at(author, port))
        from_the_wire(author, port, author.below(256), brk=port % 2)
        put_cells(author, author.wire.first, [1])
        author.do(drive.FROM_WIRE, port)
        lend(author, author.wire.first, 3)
        author.do(drive.FROM_WIRE, port)


def held_and_stopped(author):
    """Frames for ports that hold a character already, of a unit that runs and of one that is stopped; then all are served."""
    for runs in (drive.DOC, drive.DOB):
        author.do(runs)
        for p in range(author.unit.ports):
            with_control(author, p, author.below(256))
            for _ in range(1 + p % 3):
                from_the_wire(author, p, author.below(256), parity=author.below(2), brk=author.below(3))
            refused_readings(author, p)
        author.do(drive.DOC)
        for p in range(author.unit.ports):
            author.write(author.block(author.unit.pos), 0)
            author.inspect()


def typed_on_the_wire(author, icw):
    """A name comes over the wire into a buffer, letter by letter; the host takes each report and goes on."""
    set_buffer(author, (0, 4, 6), icw, 2000, 2000 + len(NAME))
    for code in NAME:
        if author.done(0, 0):
            author.write(author.block(0), icw)
        from_the_wire(author, 0, code)
        send(author)
    author.do(drive.DIAS)


def from_wire_session():
    """The session of characters that come from the wire, to units of both kinds; at first the unit is the record of zeros."""
    author = Author(SEED, 3)
    author.kind = OF_ARRIVALS[0]
    unsound_unit(author)
    for control in range(256):
        author.do(drive.FORM, control)
    for kind, step in ((mux2.EDS_8, 1), (mux2.MIGHTY_MUX, 3)):
        author.give_kind(kind)
        one_port(author, 256)
        every_control(author, range(0, 256, step))
        for icw in RECEIVING:
            for control in (0o60, 0o50, 0o340):         # eight bits and odd parity; seven and even; seven, none and two stops
                with_control(author, 0, control)
                typed_on_the_wire(author, icw)
        empty_unit(author, 8, 256, 8)
        held_and_stopped(author)
        no_ports(author)
        author.do(drive.POKE, 10, 41)
        unsound_unit(author)
        author.do(drive.POKE, 10, 40)
        lend_some(author, form_at(author, 0))
        from_the_wire(author, 0, 65)
        running(author, 128, 0, 0o60, 8)
        for p in (0, 1, 63, 64, 126, 127):
            with_control(author, p, author.below(256))
            from_the_wire(author, p, author.below(256))
        for port in (128, 191, 255):
            lend_some(author, form_at(author, port))
            from_the_wire(author, port, author.below(256))
    return ended(author)


class Wired(Author):
    """Writes a session as the others are, but most characters come over the wire, and frames of every form between them."""

    def __init__(self, seed, number):
        super().__init__(seed, number)
        self.kind = OF_ARRIVALS[1]
        self.actions['on_the_wire'] = 12

    def arrival(self, p):
        """A character comes over the wire, most often by a right frame."""
        if self.chance(0.1):
            super().arrival(p)
            return
        number = form_at(self, p)
        lend_some(self, number, self.one_of(0, 0, 0, 1, 5))
        good = written(self, number, self.byte())
        if self.chance(0.35):
            self.spoil(number, good)
        self.do(drive.FROM_WIRE, p)

    def spoil(self, number, good):
        """A wrong parity bit, a break, both, later stops that are spaces, other marks, any cells, or a cell too few."""
        *_, later = places_of(number)
        what = self.below(8)
        changes = {}
        if what < 4:
            changes = marked_changes(number, good, what % 2, self.one_of(0, 1, 2) if what > 1 else 0)
        elif what == 4:
            changes = dict.fromkeys(later, 0)
        elif what == 5:
            changes = {place: 1 + self.below(255) for place, cell in enumerate(good) if cell}
        elif what == 6:
            changes = {self.below(len(good)): self.below(3), self.below(len(good)): self.below(256)}
        else:
            lend(self, self.wire.first, len(good) - 1 - self.below(4))
        put_cells(self, self.wire.first, [changes.get(place, cell) for place, cell in enumerate(good)])

    def on_the_wire(self):
        """Frames of any form between the unit's calls: written, read back, read by another form, read from noise."""
        number = self.below(len(FORMS))
        if self.chance(0.2):
            fill_cells(self, self.one_of(1, 2, 2, 3, 256))
        if self.chance(0.2):
            lend(self, self.below(wire2.CELLS + 1), self.one_of(self.below(30), wire2.CELLS))
        else:
            lend_some(self, number, self.one_of(-1, 0, 1, 8))
        if self.chance(0.6):
            self.do(drive.FRAME, number, self.byte())
        self.do(drive.READ, self.one_of(number, number, self.below(len(FORMS))))
        if self.chance(0.3):
            self.do(drive.FORM, self.below(256))


FIRST_WIRED, WIRED, WIRED_CALLS = 504, 5, 500           # the first number is a multiple of the kinds of random sessions


def wired_session(seed, number):
    """One session of a unit and a wire."""
    author = Wired(seed, FIRST_WIRED + number)
    wire = author.wire                                  # the end of the session puts a new one in its place
    reached = author.session(WIRED_CALLS)
    return author, {**reached, **wire.reached}


def small_wire_session():
    """A short session of the wire, for small.py: frames written, spoiled and read, a list that is too short, and characters that
    come from the wire to a unit of either kind and to ports that it has not."""
    author = Author(SEED, 4)
    author.kind = 'small wire'
    author.do(drive.FROM_WIRE, 0)
    fill_cells(author, 256)
    for number, byte in ((10, mux2.GLOTTAL_STOP), (12, 255), (31, 0o252)):
        lend_some(author, number, 2)
        good = written(author, number, byte)
        start, data, parity, (stop, half), later = places_of(number)
        for places in ((), (stop,), (half,), later, start, start[1:], data[0][1:], *parity, *(pair[1:] for pair in parity)):
            spoiled(author, number, good, turned(good, *places))
        lend(author, author.wire.first, cells_of(number) - 1)
        author.do(drive.FRAME, number, byte)
        author.do(drive.READ, number)
    for control in (0, 0o50, 0o370):
        author.do(drive.FORM, control)
    for kind in (mux2.EDS_8, mux2.MIGHTY_MUX):
        author.give_kind(kind)
        one_port(author, 256)
        with_control(author, 0, 0o50)
        author.write(author.block(0), RECEIVING[2])
        from_the_wire(author, 0, 65)
        author.inspect()
        from_the_wire(author, 0, 66, parity=1, brk=2)
        put_cells(author, author.wire.first, [1])
        author.do(drive.FROM_WIRE, 0)
        from_the_wire(author, 0, 67, parity=1)
        author.inspect()
    for port in (128, MANY):
        lend_some(author, form_at(author, port))
        from_the_wire(author, port, 255)
    return ended(author)


def fixed_set(seed=SEED, sessions=SESSIONS):
    yield speeds_session()
    yield short_session()
    yield codes_session()
    yield bases_session()
    yield sets_session()
    yield poked_session()
    yield stack_session()
    yield kinds_session()
    yield mighty_bases_session()
    yield frames_session()
    yield wrong_frames_session()
    yield noise_session()
    yield from_wire_session()
    for number in range(WIRED):
        yield wired_session(seed, number)
    for number in range(sessions):
        yield write_session(seed, number)
