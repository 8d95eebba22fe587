"""Checks the second program by document 01's settled examples, K1 to K7 and K10 of document 02 and the manuals.

It also checks that the digests are those of FORMAT.md, that a written session
can be read and driven again, that compare.py finds a changed line and that
settings2.py and picture2.py find a wrong answer. Exit status 0 only where every check passes.
"""

import bisect
import re
import sys
import traceback
from functools import lru_cache
from random import Random

import compare
import drive
import mutants
import mux2
import picture2
import sessions
import settings2
import small
import wire2
from mux2 import IDLE, INPUT, NOTHING, OUTPUT, Answer, Mux2
from wire2 import Wire


def unit(b=8, ports=8, base=64, control=0o60, **given):
    """A running unit whose ports have length 8, with parity checked, unless told otherwise; with a set of special codes and
    of a kind if one is given."""
    mux = Mux2()
    code, mux.record = mux.setup(b, ports, base, **given)
    assert code == 0
    for p in range(ports):
        mux.change(p, control=mux2.BYTE_BITS[control])
    mux.doc()
    return mux


def setup_code(b, ports, base, **given):
    return Mux2().setup(b, ports, base, **given)[0]


def give(mux, p, byte, parity=0, brk=0):
    assert mux.arrival(p, byte, parity, brk) == 0
    return mux.inspect()[1]


def block(mux, **words):
    """Puts words into port 0's control block, and reads ICW, OCW, IBP and OBP back."""
    for name, word in words.items():
        mux.host_write(mux.record.base + 'icw ocw - - ibp obp lib lob'.split().index(name), word)
    return [mux.memory.word(mux.record.base + place) for place in (0, 1, 4, 5)]


# Document 01.

def test_setup_examples():
    assert setup_code(32, 120, 256) == 0 and setup_code(32, 121, 256) == 4
    assert setup_code(8, 8, 64) == 0 and setup_code(8, 8, 32) == 3
    assert setup_code(32, 32, 15360) == 0 and setup_code(32, 33, 15360) == 4
    assert setup_code(7, 0, 0) == 1


def test_refused_setup_gives_zeros():
    code, made = Mux2().setup(8, 0, 64)
    assert code == 2 and vars(made) == vars(mux2.Record())
    assert made.port == [mux2.ZERO_PORT] * 128


def test_special_codes():
    mux = unit()
    for low in range(128):
        for top in (0, 128):
            wanted = low < 32 or low > 123
            assert mux.special(mux2.BYTE_BITS[low + top]) == wanted


def test_every_code_is_received_and_sent():
    author, _ = sessions.codes_session()
    lines = [[int(word) for word in line.split()] for line in author.printed]
    turns = iter([Answer(*line[2:7]) for line in lines if line[0] == drive.INSPECT][1:])
    for code in range(256):
        special = int(not 32 <= code % 128 <= 123)
        assert next(turns) == Answer(INPUT, 0, 0, 0, 0)
        assert next(turns) == Answer(INPUT, 0, 1, code, 0)
        assert next(turns) == Answer(INPUT, 0, 0, 0, special)
        assert next(turns) == (Answer(INPUT, 0, 0, 0, 1) if special else Answer(INPUT, 0, 1, code, 0))
        assert next(turns) == Answer(OUTPUT, 0, 1, code, 0)
        assert next(turns) == Answer(OUTPUT, 0, 1, code, special)
    assert not list(turns)


def test_three_bytes_into_a_buffer():
    mux = unit(ports=1)
    block(mux, icw=0o40000, ibp=2000, lib=2003)
    assert [give(mux, 0, byte).raised for byte in (65, 66, 67)] == [0, 0, 1]
    assert mux.memory.word(1000) == 65 and mux.memory.word(1001) == 66 * 256 + 67
    assert block(mux)[::2] == [0o140000 + 67, 2003]


def test_three_bytes_out_of_a_buffer():
    mux = unit(ports=1)
    mux.host_write(1000, 64 * 256 + 65)
    mux.host_write(1001, 66 * 256 + 67)
    block(mux, ocw=0o20000, obp=2000, lob=2003)
    for byte in (65, 66, 67):
        assert mux.inspect()[1] == Answer(OUTPUT, 0, 1, byte, int(byte == 67))
        mux.transmitted(0)
    assert block(mux)[1::2] == [0o120000, 2003]


def test_pointer_after_65535():
    mux = unit(ports=1)
    mux.host_write(0, 0x1234)
    block(mux, icw=0o40000, ibp=65535, lib=9)
    give(mux, 0, 0xab)
    assert mux.memory.word(0) == 0xab34 and block(mux)[2] == 0


def test_status_words():
    mux = unit(32, 32, 15360)
    give(mux, 0, 65)
    assert mux.dia() == (0, 11264)
    mux.host_write(15360 + 32 + 1, 0o60101)
    assert mux.inspect() == (0, Answer(OUTPUT, 1, 1, 0o101, 1))
    assert mux.record.irq == 1 and mux.dias() == (0, 31776) and mux.dia() == (0, 0)
    mux.iopls()
    mux.tick()
    assert mux.dia() == (0, 32768)


def test_turn_of_a_waiting_character():
    mux = unit(ports=4)
    mux.inspect()
    mux.arrival(0, 65, 0, 0)
    assert [mux.inspect()[1].turn for _ in range(4)].index(INPUT) == 3
    mux.arrival(0, 65, 0, 0)
    mux.record.pos = 0
    assert mux.inspect()[1].turn == INPUT


def test_sweep_lengths():
    mux = unit()
    mux.lent_places = 4200
    assert mux.sweep(0) == (0, 0, 0)
    assert mux.sweep(4096) == (0, 4096, 0)
    assert mux.sweep(4097) == (9, 0, 0)
    mux.lent_places = 7
    assert mux.sweep(8) == (10, 0, 0) and mux.sweep(4097) == (9, 0, 0)
    mux.dob()
    assert mux.sweep(7) == (0, 0, 0) and mux.sweep(8) == (10, 0, 0)


def test_sweep_lists_bytes_and_stops():
    mux = unit(ports=4)
    mux.places, mux.lent_places = [9] * 10, 10
    for p, ocw in enumerate((0o20000, 0, 0o60102, 0o60103)):
        mux.host_write(mux.block_of(p) + 1, ocw)
    mux.host_write(0, 0o101)                            # port 0's OBP is 0: the right half is next
    mux.host_write(mux.block_of(0) + 7, 9)              # LOB: more bytes are to come
    assert mux.sweep(10) == (0, 3, 2)
    assert mux.places == [0o101, 2 * 256 + 0o102] + [9] * 8
    assert mux.record.pos == 3


def test_speeds():
    assert mux2.SPEEDS == (110, 150, 300, 600, 1200, 2400, 4800, 9600)
    rows = {'000': 110, '001': 150, '010': 300, '011': 600,     # bits 13, 14, 15 (001, 4.2)
            '100': 1200, '101': 2400, '110': 4800, '111': 9600}
    mux = unit()
    before = {**vars(mux.record), 'port': list(mux.record.port)}
    for control in range(256):
        ocw = format(0o50000 + control, '016b')         # indexed by the manual's bit numbers
        assert mux.speed(control) == rows[ocw[13] + ocw[14] + ocw[15]]
    assert vars(mux.record) == before and not any(mux.memory.halves)
    assert all(mux.reached[f'speed {code}'] == 32 for code in rows)
    assert mux.speed(0o360) == 110                      # section 6's port control word


# Document 02, K1.

def test_high_base():
    for b, last, top in ((8, 32704, 4294967232), (16, 32640, 4294967168), (32, 32512, 4294967040)):
        assert setup_code(b, 1, last) == 0 and setup_code(b, 8, last) == 0
        assert setup_code(b, 1, 32767) == 3 and setup_code(b, 1, 32768) == 11
        assert setup_code(b, 1, 32768 + 8 * b) == 11 and setup_code(b, 1, 65536) == 11
        assert setup_code(b, 1, top) == 11 and setup_code(b, 1, 4294967295) == 3
    assert setup_code(16, 1, 4294967232) == setup_code(32, 1, 4294967232) == 3


def test_order_of_11():
    assert list(mux2.SETUP_ROWS) == [1, 2, 3, 11, 12, 4]
    for b in mux2.BLOCKS:
        crosses = 32768 + 128 * b - 8 * b               # with 9 ports
        for base in (32768, crosses):
            assert setup_code(b - 1, 1, base) == setup_code(0, 0, base + 1) == 1
            assert setup_code(b, 0, base) == setup_code(b, 129, base) == setup_code(b, 0, base + 1) == 2
            assert setup_code(b, 1, base + 1) == setup_code(b, 128, base + 4 * b) == 3
        assert setup_code(b, 9, crosses - 32768) == 4 and setup_code(b, 9, crosses) == 11
        assert setup_code(b, 128, 32768) == setup_code(b, 128, crosses) == 11


def test_high_base_is_unsound():
    for b, base in ((8, 32768), (16, 65536), (32, 4294967040), (8, 32769), (32, 4294967295)):
        mux = unit(b, 8, 0)
        mux.record.base, mux.record.status = base, 5
        before = {**vars(mux.record), 'port': list(mux.record.port)}
        assert mux.arrival(0, 65, 0, 0) == mux.transmitted(9) == mux.device_status(0, 1) == 6
        assert mux.reset() == mux.iopls() == mux.start() == mux.doc() == mux.dob() == mux.tick() == 6
        assert mux.dia() == mux.dias() == (6, 0) and mux.sweep(0) == (6, 0, 0)
        assert mux.inspect() == (6, Answer(NOTHING, 0, 0, 0, 0)) and vars(mux.record) == before
        assert mux.reached[f'unsound: setup gives {3 if base % 2 else 11}'] == 13


class AsItWas(Mux2):
    """Document 01's rows, for one comparison alone: 3 stood for both faults of a base, and 5 was asked."""

    def setup_refusal(self, b, ports, base, kind):
        if b not in (8, 16, 32):
            return 1
        if ports == 0 or ports > 128:
            return 2
        if base % (8 * b) != 0 or base > 32767:
            return 3
        if base // (128 * b) != (base + ports * b - 1) // (128 * b):
            return 4
        if base + ports * b > 32768:
            return 5
        return 0


def settings():
    """A few thousand settings: the edges with each other, then random ones of every size."""
    for b in (0, 7, 8, 9, 16, 24, 32, 33, 64, 4294967295):
        for ports in (0, 1, 8, 9, 127, 128, 129, 4294967295):
            for edge in (0, 8 * b, 128 * b, 32768, 65536, 2147483648, 4294967296):
                for base in (edge - 8 * b, edge - 1, edge, edge + 1, edge + 4 * b, edge + 8 * b):
                    if 0 <= base < 4294967296:
                        yield b, ports, base
    random = Random(1974).random
    for _ in range(4000):
        b = (8, 16, 32, int(random() * 70))[int(random() * 4)]
        most = (32768, 65536, 4294967296)[int(random() * 3)]
        step = (1, b, 8 * b, 8 * b, 128 * b)[int(random() * 5)] or 1
        yield b, int(random() * 131), int(random() * (most / step)) * step


def test_only_3_becomes_11():
    counts = {}
    for b, ports, base in settings():
        old, old_record = AsItWas().setup(b, ports, base)
        new, record = Mux2().setup(b, ports, base)
        high = b in (8, 16, 32) and 1 <= ports <= 128 and base > 32767 and base % (8 * b) == 0
        assert (old, new) == (3, 11) if high else old == new
        assert vars(record) == vars(old_record)
        counts[old, new] = counts.get((old, new), 0) + 1
        poked = AsItWas(), Mux2()
        for mux in poked:
            mux.record.block, mux.record.ports, mux.record.base = b, ports, base
        assert [mux.dia() for mux in poked] == [(6, 0) if new else (0, 0)] * 2
    assert set(counts) == {(0, 0), (1, 1), (2, 2), (3, 3), (3, 11), (4, 4)}
    assert min(counts.values()) > 100 and sum(counts.values()) > 5000


# Document 02, K2, for input and output each.

KINDS = (INPUT, OUTPUT)
EDGES = (0, 1, 2, 5, 127, 128, 255, 256, 2002, 2003, 2004, 32766, 32767, 32768, 32769,
         65279, 65280, 65530, 65533, 65534, 65535)


def set_buffer(mux, kind, pointer, end, bits=0):
    """Port 0's automatic buffer, with done clear; `bits` are the echo, 7-bit ASCII or special request."""
    if kind == INPUT:
        block(mux, icw=0o40000 + bits, ibp=pointer, lib=end)
    else:
        block(mux, ocw=0o20000 + bits, obp=pointer, lob=end)


def one_turn(mux, kind, character=0o101):
    """Port 0 takes a character, or the transmitter is empty and asks for a byte: the answer."""
    answer = give(mux, 0, character) if kind == INPUT else mux.inspect()[1]
    mux.transmitted(0)
    return answer


def serve(mux, kind, character=0o101):
    """One turn of port 0's buffer: whether it is done, by answer, control word and flag alike."""
    mux.start()
    answer = one_turn(mux, kind, character)
    word = block(mux)[0 if kind == INPUT else 1]
    assert answer.turn == kind and answer.raised == mux.record.irq == (word >= 0o100000)
    return answer.raised == 1


def pointer_of(mux, kind):
    return block(mux)[2 if kind == INPUT else 3]


def test_pointer_at_the_end():
    mux = unit(ports=1)
    mux.host_write(1002, 0x1234)
    set_buffer(mux, INPUT, 2003, 2003)
    assert give(mux, 0, 0xab) == Answer(INPUT, 0, 0, 0, 1) and mux.dias() == (0, 0o20400)
    assert mux.memory.word(1002) == 0xab34 and block(mux)[::2] == [0o140000 + 0xab, 2004]
    set_buffer(mux, OUTPUT, 2003, 2003)
    assert mux.inspect()[1] == Answer(OUTPUT, 0, 1, 0xab, 1) and mux.dias() == (0, 0o10400)
    assert block(mux)[1::2] == [0o120000, 2004]


def test_65535_is_always_done():
    for kind in KINDS:
        mux = unit(ports=1)
        for end in range(65536):
            mux.host_write(0, 0x1234)
            set_buffer(mux, kind, 65535, end)
            answer = one_turn(mux, kind, 0xab)
            assert answer == (Answer(INPUT, 0, 0, 0, 1) if kind == INPUT else Answer(OUTPUT, 0, 1, 0x12, 1))
            assert mux.memory.word(0) == (0xab34 if kind == INPUT else 0x1234) and pointer_of(mux, kind) == 0


def test_end_of_0():
    for kind in KINDS:
        mux = unit(ports=1)
        for pointer in (*EDGES, *range(0, 65536, 5)):
            set_buffer(mux, kind, pointer, 0)
            assert serve(mux, kind)


def test_wrapping_buffer():
    for kind in KINDS:
        mux = unit(ports=1)
        set_buffer(mux, kind, 65530, 5)
        assert serve(mux, kind) and pointer_of(mux, kind) == 65531
        assert one_turn(mux, kind) == Answer(kind, 0, 0, 0, 0)          # no further byte until the host asks
        assert pointer_of(mux, kind) == 65531


def test_pointer_left_at_the_end():
    for kind in KINDS:
        mux = unit(ports=1)
        set_buffer(mux, kind, 2000, 2002)
        assert [serve(mux, kind), serve(mux, kind)] == [False, True]
        for pointer in range(2003, 2010):               # the host clears the control word alone
            block(mux, **({'icw': 0o40000} if kind == INPUT else {'ocw': 0o20000}))
            assert serve(mux, kind) and pointer_of(mux, kind) == pointer


def test_pointer_and_end_as_read_first():
    place = 2 * (16384 + 6)                             # LIB's own left half
    for lib, byte, done in ((60000, 0, False), (0, 255, True), (place, 255, True), (place + 1, 0, False)):
        mux = unit(ports=1, base=16384)
        set_buffer(mux, INPUT, place - 1, lib)
        assert serve(mux, INPUT, byte) == done and mux.memory.word(place // 2) == byte * 256 + lib % 256
        assert done or serve(mux, INPUT, 65)            # LIB is now far behind the pointer
    place = 2 * (16384 + 4)                             # IBP's own left half
    for lib, byte, done in ((60000, 255, False), (2003, 0, True), (place, 0, True), (place + 1, 255, False)):
        mux = unit(ports=1, base=16384)
        set_buffer(mux, INPUT, place - 1, lib)
        assert serve(mux, INPUT, byte) == done and pointer_of(mux, INPUT) == byte * 256 + place % 256
        assert done or serve(mux, INPUT, 65)            # IBP is now far past the end


def test_echo_at_the_end():
    for pointer in (2002, 2003, 2004, 65535):
        for empty in (1, 0):
            mux = unit(ports=1)
            mux.change(0, empty=empty)
            set_buffer(mux, INPUT, pointer, 2003, bits=0o20000)
            assert give(mux, 0, 65) == (Answer(INPUT, 0, 1, 65, 1) if empty else Answer(INPUT, 0, 0, 0, 1))
            assert block(mux)[0] == 0o160000 + (0 if empty else 0o1000) + 65        # bit 6: not echoed


def buffers():
    """Pointers and ends: the end behind the pointer, at it or ahead, near and far; then the edges together."""
    random = Random(1982).random
    for _ in range(300):
        pointer = int(random() * 65536)
        yield pointer, int(random() * (pointer + 1))
        yield pointer, max(pointer - int(random() * 40), 0)
        yield pointer, min(pointer + int(random() * 40), 65535)
    for _ in range(10):
        pointer = int(random() * 65536)
        yield pointer, min(pointer + int(random() * 4000), 65535)
    for pointer in EDGES:
        for end in EDGES:
            if end < pointer + 400:
                yield pointer, end


def base_beside(first, last):
    """A base whose first block these bytes do not touch."""
    return next(base for base in (64, 16384, 0) if last < 2 * base or first >= 2 * (base + 8))


def test_a_buffer_ends():
    longest = 0
    for number, (pointer, end) in enumerate(buffers()):
        count = max(1, end - pointer)
        longest = max(longest, count)
        places = [(pointer + k) % 65536 for k in range(1, count + 1)]
        codes = [32 + (pointer + k) % 92 for k in range(count)]         # none is special
        for kind, bits in ((INPUT, number % 4 * 0o10000), (OUTPUT, number % 2 * 0o10000)):
            mux = unit(ports=1, base=base_beside(min(places), max(places)))
            if kind == OUTPUT:
                for place, code in zip(places, codes):
                    mux.memory.put_byte(place, code)
            set_buffer(mux, kind, pointer, end, bits)
            for served, code in enumerate(codes, 1):
                assert serve(mux, kind, code) == (served == count)
            top = 128 if kind == INPUT and bits & 0o10000 else 0
            assert [mux.memory.byte(place) for place in places] == [top + code for code in codes]
            assert pointer_of(mux, kind) == places[-1]
    assert number > 1000 and longest > 2000


def test_only_short_buffers_change():
    random = Random(2003).random
    pairs = [(pointer, end) for pointer in EDGES for end in EDGES]
    pairs += [(int(random() * 65536), int(random() * 65536)) for _ in range(3000)]
    pairs += [(end + k, end) for end in range(100, 65000, 997) for k in range(-3, 4)]
    for kind in KINDS:
        mux = unit(ports=1)
        for pointer, end in pairs:
            set_buffer(mux, kind, pointer, end)
            before = (pointer + 1) % 65536 == end       # document 01: the new pointer equals the end
            changes = pointer >= end and (pointer, end) != (65535, 0)
            assert (serve(mux, kind) != before) == changes


def test_appendix_b_with_data_coming_in():
    mux = unit(ports=8, control=0)
    for address in range(32768):
        mux.host_write(address, 0o40000)                # PCON output or auto input
    for p in range(8):
        assert give(mux, p, 0o21 + p) == Answer(INPUT, p, 0, 0, 1)
    words = enumerate(map(mux.memory.word, range(32768)))
    changed = {address: word for address, word in words if word != 0o40000}
    wanted = {64 + 8 * p: 0o140021 + p for p in range(8)}
    wanted.update({64 + 8 * p + 4: 0o40001 for p in range(8)})
    assert changed == {**wanted, 0o20000: 0o40030}      # the byte at 40001: a right half


def failing(check, program, name='Mux2'):
    """Whether a check fails with another program in the second one's place, or in that of its line."""
    right = globals()[name]
    globals()[name] = program
    try:
        check()
    except AssertionError:
        return True
    finally:
        globals()[name] = right
    return False


def with_the_old_rule():
    """The second program with document 01's old rule: for input alone, for output alone, for both."""
    found = {name: (old, new) for name, old, new in mutants.MUTANTS}
    return [mutants.program(*found[f'{kind}buffer ends: the old rule']) for kind in ('input ', 'output ', '')]


def test_the_old_rule_fails():
    for_input, for_output, for_both = with_the_old_rule()
    for check in (test_pointer_at_the_end, test_65535_is_always_done, test_end_of_0, test_wrapping_buffer,
                  test_pointer_left_at_the_end, test_a_buffer_ends, test_only_short_buffers_change):
        assert failing(check, for_input) and failing(check, for_output) and failing(check, for_both)
    for check in (test_pointer_and_end_as_read_first, test_echo_at_the_end,
                  test_appendix_b_with_data_coming_in):
        assert failing(check, for_input) and failing(check, for_both) and not failing(check, for_output)
    for check in (test_three_bytes_into_a_buffer, test_three_bytes_out_of_a_buffer, test_pointer_after_65535):
        assert not failing(check, for_both)


def test_random_sessions_tell_the_old_rule():
    wrong = with_the_old_rule()
    for number in range(len(sessions.KINDS)):
        author, reached = sessions.write_session(sessions.SEED, number)
        assert all(mutants.first_difference(program, author) is not None for program in wrong)
        assert reached['input 6: not last'] and reached['output 01: not last']


# Document 02, K3.

NONE, ODD, EVEN = range(3)
EVERY_FORM = [(bits, parity, stops) for stops in (2, 3, 4) for parity in (NONE, ODD, EVEN) for bits in (5, 6, 7, 8)]
SOME_BYTES = (0, 255, 124, 85, 170, 1, 2, 4, 8, 16, 32, 64, 128, 251, 96, 7)


def form_number(bits, parity, stops):
    """The number of a form (FORMAT.md); its stops are given in cells."""
    return bits - 5 + 4 * parity + 12 * (stops - 2)


def frame_length(bits, parity, stops):
    return 2 + 2 * bits + 2 * (parity > 0) + stops


def line_of(cells, first=0, count=None):
    """A line that begins with these cells, which are lent unless told otherwise; the cells after them are 170."""
    wire = Wire()
    wire.cells[:] = bytes(cells) + b'\252' * (512 - len(cells))
    wire.lend(first, len(cells) - first if count is None else count)
    return wire


def read_cells(form, cells):
    """What a list of cells is read as by a form: refusal number, character, both marks, cells."""
    return line_of(cells).read(form_number(*form))


def frame_of(form, byte):
    """The cells of a frame, as they are written."""
    wire = line_of([170] * frame_length(*form))
    assert wire.write(form_number(*form), byte) == (0, frame_length(*form))
    return list(wire.lent())


def every_frame():
    """Every character in every form, and the cells of its frame."""
    for byte in range(256):
        for form in EVERY_FORM:
            yield form, byte, frame_of(form, byte)


def some_frames():
    """Characters that show each bit in every form."""
    for byte in SOME_BYTES:
        for form in EVERY_FORM:
            yield form, byte, frame_of(form, byte)


def with_cells(cells, *places, level=None):
    """Cells with those at these places turned, or made this level."""
    return [(1 - cell if level is None else level) if place in places else cell for place, cell in enumerate(cells)]


def bit_places(form):
    """The places of both halves of each data bit, and those of the parity bit, if there is one."""
    pairs = [(2 + 2 * bit, 3 + 2 * bit) for bit in range(form[0] + (form[1] > 0))]
    return pairs[:form[0]], pairs[form[0]:]


def test_worked_frame():
    # 7 bits, even parity, one stop: octal 174 has the bits 1111100, five ones, so the parity bit is a sixth.
    cells = [0, 0, 0, 0, 0, 0, 1, 1, 1, 1, 1, 1, 1, 1, 1, 1, 1, 1, 1, 1]
    wire = line_of([9] * 23)
    assert wire.write(10, 0o174) == (0, 20) and list(wire.cells) == cells + [9] * 3 + [170] * 489
    assert wire.read(10) == (0, 0o174, 0, 0, 20)
    odd = line_of(cells[:16] + [0, 0, 1, 1])
    assert odd.read(6) == (0, 0o174, 0, 0, 20) and odd.read(10) == (0, 0o174, 1, 0, 20)


def test_worked_frames():
    for form, byte, bits in (                           # a level for each bit, and the stop cells
            ((5, NONE, 3), 31, '0 11111 -'), ((5, NONE, 2), 0o340, '0 00000 -'), ((8, ODD, 4), 0, '0 00000000 1'),
            ((8, EVEN, 2), 255, '0 11111111 0'), ((8, ODD, 2), 255, '0 11111111 1'), ((6, ODD, 2), 0o101, '0 100000 0'),
            ((5, EVEN, 4), 0b11100110, '0 01100 0'), ((7, EVEN, 2), 0b11000000, '0 0000001 1'),
            ((8, NONE, 4), 0o252, '0 01010101 -'), ((8, EVEN, 3), 128, '0 00000001 1'), ((5, ODD, 3), 0b1000001, '0 10000 0')):
        levels = bits.replace(' ', '').replace('-', '')
        cells = [int(level) for level in levels for _ in range(2)] + [1] * form[2]
        assert frame_of(form, byte) == cells
        assert read_cells(form, cells) == (0, byte % 2 ** form[0], 0, 0, len(cells))


def test_forms_by_their_numbers():
    assert [tuple(form) for form in wire2.FORMS] == EVERY_FORM and len(EVERY_FORM) == 36
    for number, form in enumerate(EVERY_FORM):
        assert form_number(*form) == number and wire2.length(wire2.FORMS[number]) == frame_length(*form)
    assert frame_length(5, NONE, 2) == 14 and frame_length(8, EVEN, 4) == 24 and frame_length(5, NONE, 3) == 15


def test_a_frame_reads_back():
    for form, byte, cells in every_frame():
        n = frame_length(*form)
        assert len(cells) == n and set(cells) <= {0, 1} and cells[:2] == [0, 0] and cells[-form[2]:] == [1] * form[2]
        assert read_cells(form, cells) == (0, byte % 2 ** form[0], 0, 0, n)


def test_ones_of_data_and_parity_bit():
    for form, byte, cells in every_frame():
        data, parity = bit_places(form)
        assert [cells[first] for first, _ in data] == [int(digit) for digit in format(byte, '08b')[::-1][:form[0]]]
        ones = bin(byte % 2 ** form[0]).count('1') + sum(cells[first] for first, _ in parity)
        assert form[1] == NONE or ones % 2 == {ODD: 1, EVEN: 0}[form[1]]
        assert all(cells[first] == cells[second] for first, second in data + parity)


def test_bits_above_the_length_do_not_count():
    for form in EVERY_FORM:
        for byte in range(256):
            assert frame_of(form, byte) == frame_of(form, byte % 2 ** form[0])


def test_a_wrong_parity_bit_alone():
    for form, byte, cells in every_frame():
        for pair in bit_places(form)[1]:
            assert read_cells(form, with_cells(cells, *pair)) == (0, byte % 2 ** form[0], 1, 0, len(cells))


def test_one_wrong_data_bit():
    for form, byte, cells in some_frames():
        for bit, pair in enumerate(bit_places(form)[0]):
            got = read_cells(form, with_cells(cells, *pair))
            assert got == (0, byte % 2 ** form[0] ^ 1 << bit, int(form[1] != NONE), 0, len(cells))


def test_a_space_in_the_first_stop():
    for form, byte, cells in some_frames():
        stop = len(cells) - form[2]
        for places in ((stop,), (stop + 1,), (stop, stop + 1)):
            assert read_cells(form, with_cells(cells, *places)) == (0, byte % 2 ** form[0], 0, 1, len(cells))
            for pair in bit_places(form)[1]:            # both marks
                assert read_cells(form, with_cells(cells, *places, *pair)) == (0, byte % 2 ** form[0], 1, 1, len(cells))


def test_later_stops_are_not_looked_at():
    for form, _, cells in some_frames():
        later = len(cells) - form[2] + 2
        for wrong in (cells, with_cells(cells, later - 1), with_cells(cells, 3), with_cells(cells, 0)):
            got = read_cells(form, wrong)
            for byte in (0, 1, 2, 255):
                for place in range(later, len(cells)):
                    assert read_cells(form, [*wrong[:place], byte, *wrong[place + 1:]]) == got
                assert read_cells(form, wrong[:later] + [byte] * (len(cells) - later)) == got
                assert read_cells(form, wrong + [byte] * 3) == got


def test_halves_that_differ():
    for form, _, cells in some_frames():
        data, parity = bit_places(form)
        for pair in data + parity:
            for place in pair:
                assert read_cells(form, with_cells(cells, place)) == (20, 0, 0, 0, 0)
                assert read_cells(form, with_cells(cells, place, len(cells) - form[2])) == (20, 0, 0, 0, 0)


def test_a_start_that_is_not_two_spaces():
    for form, _, cells in some_frames():
        for mark in (1, 2, 200, 255):
            for places in ((0,), (1,), (0, 1)):
                assert read_cells(form, with_cells(cells, *places, level=mark)) == (20, 0, 0, 0, 0)


def test_every_byte_but_0_is_a_mark():
    random = Random(3).random
    for form, byte, cells in some_frames():
        right = (0, byte % 2 ** form[0], 0, 0, len(cells))
        assert read_cells(form, [cell * (1 + int(random() * 255)) for cell in cells]) == right
    cells = frame_of((8, EVEN, 2), 0b10101011)
    for mark in range(1, 256):
        for place, cell in enumerate(cells):
            got = read_cells((8, EVEN, 2), [*cells[:place], mark, *cells[place + 1:]])
            assert got == ((0, 0b10101011, 0, 0, 22) if cell else (20, 0, 0, 0, 0))


def test_too_short_a_list_to_write():
    for form in EVERY_FORM:
        n = frame_length(*form)
        for first in (0, 1, 100, 512 - n - 3):
            for count in range(n + 4):
                wire = line_of([(7 * place + 3) % 256 for place in range(512)], first, count)
                before = bytes(wire.cells)
                if count < n:
                    assert wire.write(form_number(*form), 77) == (18, 0) and wire.cells == before
                else:
                    assert wire.write(form_number(*form), 77) == (0, n)
                    assert wire.cells == before[:first] + bytes(frame_of(form, 77)) + before[first + n:]
        assert line_of([0] * 512, 513 - n, 512).write(form_number(*form), 0) == (18, 0)     # none past the end of the line
        assert line_of([0] * 512, 512 - n, 512).write(form_number(*form), 0) == (0, n)


def test_too_short_a_list_to_read():
    for form, _, cells in some_frames():
        for wrong in (cells, with_cells(cells, 0), with_cells(cells, 3), with_cells(cells, len(cells) - form[2]), [1] * 24):
            for count in range(len(cells) - 1, -1, -1):
                assert read_cells(form, wrong[:count]) == (19, 0, 0, 0, 0)
        assert read_cells(form, cells)[0] == 0 and read_cells(form, with_cells(cells, 0))[0] == 20


def test_the_refusals_are_18_19_and_20():
    assert (wire2.NO_ROOM, wire2.TOO_SHORT, wire2.NO_FRAME) == (18, 19, 20)
    wire = line_of([1] * 19)
    assert wire.write(10, 0) == (18, 0) and wire.read(10)[0] == 19 and line_of([1] * 20).read(10)[0] == 20


def by_pattern(form, cells):
    """What a list of cells is read as, by a pattern over its levels."""
    bits, parity, stops = form
    levels = ''.join('m' if cell else 's' for cell in cells)
    pattern = f'ss((?:ss|mm){{{bits}}})' + ('(ss|mm)' if parity else '()') + '(..)' + '.' * (stops - 2)
    if len(cells) < frame_length(*form):
        return 19, 0, 0, 0, 0
    frame = re.match(pattern, levels)
    if frame is None:
        return 20, 0, 0, 0, 0
    data, sent, stop = frame.groups()
    byte = int(data[::-2].replace('m', '1').replace('s', '0'), 2)
    ones = (data + sent)[::2].count('m')
    wrong = parity != NONE and ones % 2 != {ODD: 1, EVEN: 0}[parity]
    return 0, byte, int(wrong), int('s' in stop), frame_length(*form)


def lists_of_cells(count, seed=5):
    """Lists of cells: noise of few and of many bytes, and right and spoiled frames of any form."""
    random = Random(seed).random
    for _ in range(count):
        length, sort = int(random() * 30), int(random() * 4)
        if sort == 0:
            yield [int(random() * 2) for _ in range(length)]
        elif sort == 1:
            yield [int(random() * 256) * int(random() * 2) for _ in range(length)]
        else:
            levels = [0, *(int(random() * 2) for _ in range(12))]
            cells = [level for level in levels for _ in range(2)]
            for _ in range(int(random() * sort)):
                cells[int(random() * len(cells))] = int(random() * 3)
            yield cells[:max(length, 14)]


def test_every_list_is_read_as_by_a_pattern():
    met = {}
    for cells in lists_of_cells(1500):
        for form in EVERY_FORM:
            got = read_cells(form, cells)
            assert got == by_pattern(form, cells)
            met[got[0], got[2], got[3]] = met.get((got[0], got[2], got[3]), 0) + 1
    assert set(met) == {(0, 0, 0), (0, 1, 0), (0, 0, 1), (0, 1, 1), (19, 0, 0), (20, 0, 0)} and min(met.values()) > 300


def test_lists_alike_up_to_the_first_stop_read_alike():
    random = Random(6).random
    for cells in lists_of_cells(500, seed=7):
        for form in EVERY_FORM:
            n, stop = frame_length(*form), frame_length(*form) - form[2] + 2
            if len(cells) >= n:
                other = [*cells[:stop], *(int(random() * 3) for _ in range(n - stop + int(random() * 4)))]
                levels = [cell and 1 + int(random() * 255) for cell in cells]
                assert read_cells(form, other) == read_cells(form, cells) == read_cells(form, levels)


def test_reading_changes_no_cell():
    for form, _, cells in some_frames():
        for wrong in (cells, with_cells(cells, 0), with_cells(cells, 3), with_cells(cells, len(cells) - form[2]), cells[:-1],
                      with_cells(cells, len(cells) - 1), [77 * cell for cell in cells]):
            for first in (0, 3):
                wire = line_of([5] * first + wrong, first)
                before = bytes(wire.cells)
                wire.read(form_number(*form))
                assert wire.cells == before and (wire.first, wire.count) == (first, len(wrong))


def test_a_frame_stands_where_the_list_begins():
    for form in EVERY_FORM:
        number, n = form_number(*form), frame_length(*form)
        wire = line_of([0] * 3 + frame_of(form, 21) + frame_of(form, 10) + [0] * 5)
        for first, count, got in ((3, n, (0, 21, 0, 0, n)), (3 + n, n, (0, 10, 0, 0, n)), (3 + n, 512, (0, 10, 0, 0, n)),
                                  (3, n - 1, (19, 0, 0, 0, 0)), (512 - n + 1, n, (19, 0, 0, 0, 0))):
            wire.lend(first, count)
            assert wire.read(number) == got


def test_forms_of_control_bits():
    lengths, mux = {'00': 5, '01': 6, '10': 7, '11': 8}, unit()
    before = state(mux)
    for control in range(256):
        ocw = format(0o50000 + control, '016b')         # indexed by the manual's bit numbers (001, 4.2)
        parity = NONE if ocw[8] == '1' else {'0': ODD, '1': EVEN}[ocw[12]]
        form = lengths[ocw[10:12]], parity, {'0': 2, '1': 4}[ocw[9]]
        wire = Wire()
        assert wire.form(control) == form_number(*form) and not any(wire.cells)
    assert state(mux) == before
    assert Wire().form(0o360) == form_number(8, NONE, 4)    # section 6's port control word
    assert Wire().form(0) == form_number(5, ODD, 2) and Wire().form(0o50) == form_number(7, EVEN, 2)


def test_every_form_has_a_read_frame_that_arrives():
    """A character that comes from the wire arrives as the same one does by itself, with the same marks."""
    for kind, base in ((0, 64), (1, 256)):
        for control in range(256):
            form, byte = EVERY_FORM[Wire().form(control)], control * 7 % 256
            cells = frame_of(form, byte)
            stop = len(cells) - form[2]
            for brk in (0, 1):
                for parity in (0, 1) if form[1] else (0,):
                    pair = bit_places(form)[1][0] if parity else ()
                    wire = line_of(with_cells(cells, *pair, *[stop + control % 2] * brk))
                    one, other = unit(base=base, control=control, kind=kind), unit(base=base, control=control, kind=kind)
                    line = bytes(wire.cells)
                    for mux in (one, other):
                        mux.change(3, empty=0)
                    for stopped in (False, True):       # the second one is marked: it replaces the first
                        if stopped:
                            one.dob(), other.dob()
                        assert wire.arrive(one, 3) == (0, byte % 2 ** form[0], parity, brk, 0)
                        assert other.arrival(3, byte, parity, brk) == 0
                        assert state(one) == state(other) and wire.cells == line and wire.first == 0
                    assert one.record.port[3].overload == 1 and one.record.port[3].byte == byte % 2 ** form[0]


def test_a_refused_reading_is_no_arrival():
    for control, form in ((0o50, (7, EVEN, 2)), (0o110, (5, EVEN, 4))):
        cells = frame_of(form, 65)
        parity = bit_places(form)[1][0][0]
        for wrong, code in ((cells[:-1], 19), (cells[:-2], 19), ([], 19), ([1] * (len(cells) - 1), 19), ([1] * 30, 20),
                            (with_cells(cells, 1), 20), (with_cells(cells, 3), 20), (with_cells(cells, parity), 20)):
            for held in (0, 1):
                mux = unit(control=control)
                mux.change(100, control=mux2.BYTE_BITS[control])
                if held:
                    mux.arrival(0, 66, 1, 0)
                before = state(mux)
                for port in (0, 100, 128, 4294967268):  # the last two are by the places 0 and 100
                    wire = line_of(wrong)
                    line = bytes(wire.cells)
                    assert wire.arrive(mux, port) == (code, 0, 0, 0, 0)
                    assert state(mux) == before and wire.cells == line and wire.first == 0
    unsound = Mux2()
    assert line_of([0] * 13).arrive(unsound, 0) == (19, 0, 0, 0, 0) and line_of([1] * 24).arrive(unsound, 0) == (20, 0, 0, 0, 0)


def test_a_refused_arrival_after_a_reading():
    mux = unit(control=0o60)
    mux.change(5, control=mux2.BYTE_BITS[0o50])
    mux.change(100, control=mux2.BYTE_BITS[0o320])
    before = state(mux)
    for port, form in ((8, (5, ODD, 2)), (127, (5, ODD, 2)), (100, (6, NONE, 4)), (128, (8, ODD, 2)), (133, (7, EVEN, 2)),
                       (228, (6, NONE, 4)), (4294967295, (5, ODD, 2)), (4294967295 - 122, (7, EVEN, 2)), (65541, (7, EVEN, 2))):
        cells = frame_of(form, 0o52)
        assert line_of(cells).arrive(mux, port) == (0, 0o52 % 2 ** form[0], 0, 0, 8) and state(mux) == before
        broken = with_cells(cells, len(cells) - form[2])
        assert line_of(broken).arrive(mux, port) == (0, 0o52 % 2 ** form[0], 0, 1, 8) and state(mux) == before
    for mux in (Mux2(), mighty(fill=41)):               # the record of zeros; a stack with too many entries
        before = state(mux)
        form = EVERY_FORM[Wire().form(mux2.BYTE_OF[mux.record.port[0].control])]
        for port in (0, 128, 4294967168):
            assert line_of(frame_of(form, 9)).arrive(mux, port) == (0, 9, 0, 0, 6) and state(mux) == before


def test_a_name_comes_over_the_wire():
    mux = unit(ports=1, control=0o50, codes=DICTIONARY)
    block(mux, icw=0o50000, ibp=2000, lib=2006)
    raised = []
    for code in b'ma|ohi':
        assert line_of(frame_of((7, EVEN, 2), code)).arrive(mux, 0) == (0, code, 0, 0, 0)
        raised.append(mux.inspect()[1].raised)
    assert raised == [0, 0, 0, 0, 0, 1] and bytes(mux.memory.halves[2001:2007]) == bytes(code + 128 for code in b'ma|ohi')
    block(mux, icw=0o40000, ibp=2000, lib=2006)
    broken = with_cells(frame_of((7, EVEN, 2), 65), 18, 16, 17)
    assert line_of(broken).arrive(mux, 0) == (0, 65, 1, 1, 0)
    assert mux.inspect()[1].raised == 1 and block(mux)[0] == 0o140000 + 0o6000 + 65     # break before parity


def test_orders_of_the_wire():
    driver = drive.Driver()

    def told(*order):
        line = driver.drive(order)
        return line and [int(word) for word in line.split()]

    cells = [0] * 512
    assert told(drive.FRAME, 0, 1) == [32, 18, 0, drive.digest(cells)]
    assert told(drive.READ, 0) == [33, 19, 0, 0, 0, 0, drive.digest(cells)]
    for place, word in ((0, 0x01020304), (510, 0xfffefdfc), (2, 255)):
        assert told(drive.CELLS, place, word) is None
    cells[:6], cells[510:] = [1, 2, 0, 0, 0, 255], [255, 254]
    assert told(drive.LEND, 6, 20) is None and told(drive.FRAME, 10, 124)[:3] == [32, 0, 20]
    cells[6:26] = [0] * 6 + [1] * 14
    assert list(driver.wire.cells) == cells and told(drive.READ, 10) == [33, 0, 124, 0, 0, 20, drive.digest(cells)]
    told(drive.CELLS, 22, 0x00000001)
    cells[22:26] = [0, 0, 0, 1]
    assert told(drive.READ, 10) == [33, 0, 124, 1, 1, 20, drive.digest(cells)]
    told(drive.LEND, 6, 19)
    assert told(drive.READ, 10) == [33, 19, 0, 0, 0, 0, drive.digest(cells)]
    told(drive.LEND, 500, 512)                          # twelve cells, up to the end
    assert len(driver.wire.lent()) == 12 and told(drive.FRAME, 0, 0)[:3] == [32, 18, 0]
    told(drive.LEND, 512, 512)
    assert driver.wire.lent() == b''
    assert told(drive.FORM, 0o50) == [34, 10] and told(drive.FORM, 255) == [34, 27]
    zeros = drive.digest([0] * 1331)
    told(drive.LEND, 6, 20)
    assert told(drive.FROM_WIRE, 0) == [35, 0, 28, 1, 0, 6, zeros]      # by five bits and odd parity, of the record of zeros
    told(drive.SETUP, 8, 1, 64, 0)
    told(drive.POKE_PORT, 0, 6, 0o50)
    line = told(drive.FROM_WIRE, 0)
    assert line[:6] == [35, 0, 124, 1, 1, 0] and line[6] == driver.record() == told(drive.DIA)[3]
    assert driver.mux.record.port[0][:5] == (1, 124, 1, 1, 0)
    told(drive.LEND, 6, 19)
    assert told(drive.FROM_WIRE, 0) == [35, 19, 0, 0, 0, 0, line[6]] and told(drive.FROM_WIRE, 1) == [35, 0, 28, 1, 0, 8, line[6]]
    told(drive.END)
    assert driver.wire.cells == bytes(512) and (driver.wire.first, driver.wire.count) == (0, 0)


def test_filled_cells():
    for m in (1, 2, 3, 255, 256):
        driver, x = drive.Driver(), 99
        driver.drive((drive.FILL_CELLS, x, m))
        for cell in driver.wire.cells:
            x = x * 48271 % 2147483647
            assert cell == x // 16 % m
        assert len(driver.wire.cells) == 512


@lru_cache(maxsize=None)
def sessions_of_the_wire():
    return [sessions.frames_session(), sessions.wrong_frames_session(), sessions.noise_session(), sessions.from_wire_session(),
            *(sessions.wired_session(sessions.SEED, number) for number in range(sessions.WIRED))]


def test_sessions_of_the_wire():
    written = sessions_of_the_wire()
    kinds = [*sessions.OF_FRAMES, sessions.OF_ARRIVALS[0], *[sessions.OF_ARRIVALS[1]] * sessions.WIRED]
    assert [author.kind for author, _ in written] == kinds
    assert sum(len(author.orders) for author, _ in written) < 41000
    assert [branch for branch in wire2.BRANCHES if not any(reached[branch] for _, reached in written)] == []
    assert not any(author.calls != author.framed for author, _ in written[:3])
    frames, rooms, wrote, read_by, offsets, lent = written[0][0], {}, {}, set(), set(), (0, 0)
    for op, *rest in frames.orders:
        if op == drive.LEND:
            lent = rest
            offsets.add(rest[0])
        elif op == drive.FRAME:
            rooms.setdefault(rest[0], set()).add(min(lent[1], 512 - lent[0]))
            wrote.setdefault(rest[0], set()).add(rest[1])
            last = rest[0]
        elif op == drive.READ:
            read_by.add((last, rest[0]))
    for number, form in enumerate(EVERY_FORM):
        assert rooms[number] >= set(range(frame_length(*form) + 4))
        assert wrote[number] >= {0, 255, 124, 85, 170, *(1 << bit for bit in range(8))}
        assert {(number, other) for other in range(36)} <= read_by
    assert len(offsets) > 200
    noise = written[2][0].orders
    assert {order[1] for order in noise if order[0] == drive.LEND} == set(range(512))
    assert {order[2] for order in noise if order[0] == drive.FILL_CELLS} >= {2, 3, 256}


def test_wrong_frames_session_changes_every_cell():
    """Each cell of a right frame of each form is once a space, once a mark and once a mark by 2 and by 255, and nothing else."""
    driver, frames, seen = drive.Driver(), {}, set()
    for order in sessions_of_the_wire()[1][0].orders:
        driver.drive(order)
        if order[0] == drive.FRAME:
            frames[order[1]] = bytes(driver.wire.lent()[:frame_length(*EVERY_FORM[order[1]])])
        elif order[0] == drive.READ:
            right, cells = frames[order[1]], driver.wire.lent()[:len(frames[order[1]])]
            differ = [place for place in range(min(len(right), len(cells))) if right[place] != cells[place]]
            if len(cells) == len(right) and len(differ) == 1:
                seen.add((order[1], differ[0], cells[differ[0]]))
    for number, form in enumerate(EVERY_FORM):
        for place in range(frame_length(*form)):
            assert all((number, place, byte) in seen for byte in (0, 1, 2, 255) if byte != frames[number][place])


def test_arrivals_from_the_wire_are_served():
    author, reached = sessions_of_the_wire()[3]
    controls, ports, lines = set(), set(), iter(author.printed)
    marks = {}
    for op, *rest in author.orders:
        line = next(lines).split() if op in drive.PRINTED else None
        if op == drive.POKE_PORT and rest[1] == 6:
            controls.add(rest[2])
        elif op == drive.FROM_WIRE:
            ports.add(rest[0])
            key = int(line[1]), int(line[5])
            marks[key] = marks.get(key, 0) + 1
    assert controls == set(range(256)) and {order[1] for order in author.orders if order[0] == drive.FORM} == controls
    assert set(marks) == {(0, 0), (0, 6), (0, 8), (19, 0), (20, 0)} and min(marks.values()) > 10
    assert ports >= {0, 7, 8, 127, 128, 133, 4294967295} and reached['code: break before parity'] and reached['code: overload']
    for author, reached in sessions_of_the_wire()[4:]:
        arrivals = sum(order[0] == drive.FROM_WIRE for order in author.orders)
        assert author.serving > 100 and arrivals > 25 and 2 * author.serving > author.calls - author.framed
    other = sessions.wired_session(sessions.SEED + 1, 0)[0]
    assert other.orders != sessions_of_the_wire()[4][0].orders


def test_wrong_frames_fail():
    found = {name: mutants.wire(*texts) for name, *texts in mutants.FRAME_MUTANTS + mutants.ARRIVAL_MUTANTS}
    told = set()
    for check, *patterns in (
            (test_worked_frame, '^written parity: (odd and even|odd always|always a space|a count)', '^parity:'),
            (test_worked_frames, '^frame:', '^parity:', (
                '^written: (highest bit first$|all eight|the character cut|bits turned|parity|even parity|odd parity|no|'
                'a mark for|two starts|spaces for|a space for|one cell a bit|three cells|second halves|first halves|'
                'marks written|spaces written|one cell too few|later stops|stops not|marks alone|spaces alone|cells used|bits used)')),
            (test_a_frame_reads_back, '^read parity:', '^read: (highest|character|cells read told)',
             '^read: parity bit (read|over)', '^read: (parity mark where there is no|break mark (always|turned))'),
            (test_ones_of_data_and_parity_bit, '^written parity:', '^written: (highest|the top bit|bits turned)'),
            (test_bits_above_the_length_do_not_count, '^written: (parity over eight|parity over seven|the character cut)'),
            (test_a_wrong_parity_bit_alone, '^read: parity mark (never|turned|of a|refused)', '^read: parity bit (over|taken)',
             '^read: (no character where the parity|both marks|break mark where)'),
            (test_one_wrong_data_bit, '^read parity: (always|wrong of (ODD|EVEN))', '^read: highest', '^read: parity mark never'),
            (test_a_space_in_the_first_stop, '^read: (parity mark (lost|where there is a)|no character where there|both marks)',
             '^read: break mark (never|by (the first|the second|both|halves|later|all)|of|lost|turned|not|refused)',
             '^read: (break with|halves: of the first stop)'),
            (test_later_stops_are_not_looked_at, '^read: break mark by (every|the third|the fourth|the last|later|the cell)'),
            (test_halves_that_differ, '^read: halves: (not|of data|of the parity|of the first data|of the last|of one)',
             '^read: halves: (of the first bit|space and|mark and)', '^read: halves of the parity bit that',
             '^read: (second halves|marks in either|second half of|refused reading (gives|with 20|tells))'),
            (test_a_start_that_is_not_two_spaces, '^read: start: (first|second|not|either|halves|refused)'),
            (test_every_byte_but_0_is_a_mark, '^read: (a byte read|halves compared|break mark by bytes)',
             '^read: halves of the parity bit compared'),
            (test_too_short_a_list_to_write, '^written: (18|refused writing|a mark set|a space set|the list|the cell|the rest)',
             '^written: (written|room|marks alone|spaces alone)'),
            (test_too_short_a_list_to_read, '^read: (19|20|too short)'),
            (test_the_refusals_are_18_19_and_20, '^refusals'),
            (test_every_list_is_read_as_by_a_pattern, '^read: (start|parity mark|19|refused reading|too short|no character)',
             '^read: halves: of all'),
            (test_lists_alike_up_to_the_first_stop_read_alike, '^read: break mark by (every|the third|the fourth|the last)'),
            (test_reading_changes_no_cell, '^read: reading '),
            (test_a_frame_stands_where_the_list_begins, '^read: (reads|list for)', '^read: reading clears'),
            (test_forms_of_control_bits, '^form'),
            (test_every_form_has_a_read_frame_that_arrives, '^from the wire: (given|cells cleared once read|list taken)',
             '^from the wire: made (at (port 0|the next|the position)|never|without|where|of|in)',
             '^from the wire: and (made|served|its overload|what is read|the transmitter)',
             '^from the wire: frame read (with (eight|two|one and|even)|without|by those of the place)'),
            (test_a_refused_reading_is_no_arrival, '^from the wire: (made though|refusal of a reading|refused reading)',
             '^from the wire: (arrival asked|cells cleared once refused|frame read with one stop)'),
            (test_a_refused_arrival_after_a_reading, '^from the wire: made at (the port|the last|ports)',
             '^from the wire: and (its refusal|8 given|nothing told)', '^from the wire: frame read by (those|the control)',
             '^from the wire: arrival asked'),
            (test_a_name_comes_over_the_wire, '^from the wire: given (without marks|as 0$)')):
        for pattern in patterns:
            names = [name for name in found if re.search(pattern, name)]
            assert names, pattern
            for name in names:
                assert failing(check, found[name], 'Wire'), (check.__name__, name)
            told.update(names)
    assert told == set(found)                           # each of them fails some check


# Document 02, K5.

# The options of the Mighty Mux (000, 3.7.9.1), their codes in decimal.
OPTIONS = {'#1': {3, 4, 25}, '#1a': {3, 10, 13, 127}, '#2': {0, 4, 13, 17, 19}, '#2a': {94},
           '#3, input': {0, 3, 4, 5, 6, 8, 12, 13, 21, 23, 24, 25, 26, 27},
           '#3, output': {0, 3, 4, 5, 6, 12, 13, 21, 23, 24, 25}}


def set_of(codes):
    return [int(code in codes) for code in range(128)]


ORDINARY_1974 = set(range(32, 124))                     # document 01: codes 32 to 123
SET_1974 = set_of(set(range(128)) - ORDINARY_1974)
DICTIONARY = set_of(set(range(128)) - ORDINARY_1974 - {0o174})
RECEIVING, SENDING = (0o40000, 0o60000, 0o50000, 0o70000), (0o20000, 0o30000)


def random_sets(count, seed=174):
    random = Random(seed).random
    for _ in range(count):
        part = (0.1, 0.5, 0.9)[int(random() * 3)]
        yield [int(random() < part) for _ in range(128)]


def many_sets():
    """The sets that this page names, each with one code alone that is special or ordinary, and random ones."""
    yield from (SET_1974, DICTIONARY, [0] * 128, [1] * 128, *map(set_of, OPTIONS.values()))
    for code in range(128):
        yield set_of({code})
        yield set_of(set(range(128)) - {code})
    yield from random_sets(20)


def state(mux):
    """All that a unit holds but its set."""
    return {**vars(mux.record), 'codes': None, 'port': list(mux.record.port)}, bytes(mux.memory.halves)


def received(mux, icw, character, parity=0, brk=0):
    """Port 0 receives a character under this ICW, its transmitter empty: the answer."""
    mux.transmitted(0)
    block(mux, icw=icw, ibp=2000, lib=3000)
    return give(mux, 0, character, parity, brk)


def sent(mux, ocw, byte):
    """Port 0 sends a byte under this OCW: the answer."""
    mux.transmitted(0)
    mux.memory.put_byte(4001, byte)
    block(mux, ocw=ocw, obp=4000, lob=5000)
    return mux.inspect()[1]


def outcome(codes, service, *how):
    """A service in a fresh unit with this set: its answer and all that the unit holds afterwards but its set."""
    mux = unit(ports=1, codes=codes)
    return service(mux, *how), state(mux)


def special_both_ways(mux, code):
    """Whether a code is special, by input in 7-bit ASCII mode and output with the special request alike."""
    answer = received(mux, 0o70000, code)
    pointer = block(mux)[2]
    assert answer == (Answer(INPUT, 0, 0, 0, 1) if answer.raised else Answer(INPUT, 0, 1, code, 0))
    assert pointer == (2000 if answer.raised else 2001)
    stops = sent(mux, 0o30000, code)
    assert stops == Answer(OUTPUT, 0, 1, code, answer.raised)
    return answer.raised == 1


def test_default_set():
    for code in range(128):
        assert mux2.SET_1974[code] == (1 if code < 0o40 or code > 0o173 else 0)
    for made in (Mux2().setup(8, 1, 64)[1], Mux2().setup(8, 1, 64, SET_1974)[1]):
        assert made.codes == mux2.SET_1974 == Mux2.set_1974 and len(made.codes) == 128
    for mux in (unit(ports=1), unit(ports=1, codes=SET_1974)):
        for code in range(256):
            assert special_both_ways(mux, code) == mux.special(mux2.BYTE_BITS[code]) == (code % 128 not in ORDINARY_1974)


class WithTheOldRule(Mux2):
    """Document 01's rule, which asks no set, for these comparisons alone."""

    def special(self, character):
        low = mux2.word_of((0,) * 9 + character[1:])
        return low < 0o40 or low > 0o173


def without_sets(author):
    """A session's orders but those of sets, so that its units have the 1974 set."""
    return [order for order in author.orders if order[0] not in (drive.CODE, drive.CODES, drive.POKE_CODE)]


def lines_of(program, orders):
    driver = drive.Driver(program)
    return [driver.drive(order) for order in orders]


def test_default_set_changes_no_answer():
    written = [sessions.write_session(5, number)[0] for number in range(2 * len(sessions.KINDS))]
    fixed = [sessions.codes_session()[0], sessions.bases_session()[0], sessions.short_session()[0]]
    assert sum(author.calls for author in written + fixed) > 35000
    for author in fixed:                                # these have no other set
        assert mutants.first_difference(WithTheOldRule, author) is None
    for author in written:
        orders = without_sets(author)
        assert lines_of(Mux2, orders) == lines_of(WithTheOldRule, orders)
    told = [mutants.first_difference(WithTheOldRule, author) for author in written]
    assert len([call for call in told if call is not None]) > 10        # with other sets the old rule differs


def test_dictionary_set():
    assert mux2.DICTIONARY == tuple(DICTIONARY)
    assert [code for code in range(128) if mux2.DICTIONARY[code] != mux2.SET_1974[code]] == [0o174]


def test_glottal_stop_is_kept_with_its_word():
    for icw in (0o50000, 0o70000):
        for pointer in (2000, 2001):
            for character in (0o174, 0o374):
                mux = unit(ports=1, codes=DICTIONARY)
                sound = 1 if icw == 0o70000 else 0
                for place, code in enumerate((0o141, character, 0o142), pointer):
                    mux.transmitted(0)
                    block(mux, icw=icw, ibp=place, lib=pointer + 9)
                    before = bytearray(mux.memory.halves)
                    assert give(mux, 0, code) == Answer(INPUT, 0, sound, code * sound, 0)
                    before[place + 1] = 128 + code % 128                # once, in the next place, its top bit 1
                    before[2 * 68:2 * 69] = (place + 1).to_bytes(2, 'big')      # IBP
                    assert mux.memory.halves == before and mux.record.irq == 0 and mux.dia() == (0, 0)
                assert bytes(mux.memory.halves[pointer + 1:pointer + 4]) == b'\xe1\xfc\xe2'


def test_glottal_stop_is_reported_where_a_letter_is():
    for codes, ordinary in ((DICTIONARY, True), (SET_1974, False)):
        for icw in (0o50000, 0o70000):
            for empty in (1, 0):
                for pointer, end in ((2000, 2001), (2000, 2009), (2001, 2000), (65535, 0), (65535, 9)):
                    mux = unit(ports=1, base=1024, codes=codes)
                    block(mux, icw=icw, ibp=pointer, lib=end)
                    mux.change(0, empty=empty)
                    full, busy = pointer + 1 >= end, icw == 0o70000 and not empty
                    echo = ordinary and icw == 0o70000 and empty
                    done = not ordinary or full or busy
                    assert give(mux, 0, 0o174) == Answer(INPUT, 0, *((1, 0o174) if echo else (0, 0)), done)
                    mark = 0o1000 if ordinary and busy else 0           # bit 6: not echoed
                    assert block(mux)[0] == (icw + 0o100000 + mark + 0o374 if done else icw)
                    assert mux.memory.byte((pointer + 1) % 65536) == (0o374 if ordinary else 0)
                    assert block(mux)[2] == ((pointer + 1) % 65536 if ordinary else pointer)
                    assert mux.record.irq == done


def test_glottal_stop_does_not_stop_output():
    name = bytes(code + 128 for code in b'ma|ohi\r.')   # a name, a return, a full stop at the end
    for codes, ocw, reports in ((DICTIONARY, 0o30000, [6, 7]), (DICTIONARY, 0o20000, [7]),
                                (SET_1974, 0o30000, [2, 6, 7]), (SET_1974, 0o20000, [7])):
        mux = unit(ports=1, codes=codes)
        mux.memory.halves[2001:2009] = name
        block(mux, ocw=ocw, obp=2000, lob=2008)
        raised = []
        for place, byte in enumerate(name):
            answer = mux.inspect()[1]
            assert answer[:4] == (OUTPUT, 0, 1, byte)
            if answer.raised:
                raised.append(place)
                assert block(mux)[1::2] == [0o100000 + ocw, 2001 + place]
                block(mux, ocw=ocw)
            mux.transmitted(0)
        assert raised == reports


def test_every_other_code_is_as_before():
    services = [(received, icw, code, *marks) for icw in RECEIVING for code in range(256)
                for marks in ((0, 0), (1, 0), (0, 1))]
    services += [(sent, ocw, code) for ocw in SENDING for code in range(256)]
    differ = {how for how in services if outcome(DICTIONARY, *how) != outcome(SET_1974, *how)}
    assert differ == {how for code in (0o174, 0o374) for how in (
        (received, 0o50000, code, 0, 0), (received, 0o70000, code, 0, 0), (sent, 0o30000, code))}


def test_the_set_is_asked_in_its_modes_alone():
    every, none = [1] * 128, [0] * 128
    for code in range(256):
        for icw in (0o00000, 0o10000, 0o20000, 0o30000, 0o40000, 0o60000, 0o150000, 0o170000):
            assert outcome(every, received, icw, code) == outcome(none, received, icw, code)
        for ocw in (0o00000, 0o20000, 0o50000 + code, 0o60000 + code, 0o70000 + code, 0o130000):
            assert outcome(every, sent, ocw, code) == outcome(none, sent, ocw, code)
        assert outcome(every, special_both_ways, code)[0] and not outcome(none, special_both_ways, code)[0]


def test_every_set_is_taken():
    seen = set()
    for codes in many_sets():
        for setting in ((8, 8, 64), (32, 32, 15360), (7, 1, 64), (8, 0, 64), (8, 1, 65), (8, 1, 32768), (8, 121, 64)):
            mux = unit(codes=codes)
            before = vars(mux.record).copy()
            code, made = mux.setup(*setting, codes)
            old_code, old = mux.setup(*setting)
            assert code == old_code and {**vars(made), 'codes': None} == {**vars(old), 'codes': None}
            assert made.codes == (tuple(codes) if code == 0 else (0,) * 128)
            assert vars(mux.record) == before and mux.record.codes == tuple(codes)
            if code:
                assert vars(made) == vars(mux2.Record())
            seen.add(code)
    assert seen == {0, 1, 2, 3, 4, 11}


def test_a_set_is_not_shared():
    codes = list(DICTIONARY)
    mux = unit(ports=1, codes=codes)
    codes[0o174], codes[0o101] = 1, 1                   # the list that was lent is changed afterwards
    assert mux.record.codes == tuple(DICTIONARY)
    mux.setup(8, 1, 64, [1] * 128)                      # setup touches no old record
    mux.setup(8, 0, 64, [1] * 128)
    assert mux.record.codes == tuple(DICTIONARY)
    assert not special_both_ways(mux, 0o174) and not special_both_ways(mux, 0o101) and special_both_ways(mux, 0o15)
    assert mux2.Record().codes == (0,) * 128


def calls_of_every_kind(mux):
    """Each call once and more, accepted and refused, as names and functions without arguments."""
    def with_words(call, **words):
        block(mux, **words)
        return call()

    yield from ((name, getattr(mux, name)) for name in mux2.PLAIN_CALLS)
    yield from (('doc', mux.doc), ('tick', mux.tick), ('start', mux.start))
    for character, parity, brk in ((0o174, 0, 0), (0o15, 0, 0), (0o101, 1, 0), (0o101, 0, 1)):
        yield 'arrival', lambda: mux.arrival(0, character, parity, brk)
        yield 'input', lambda: with_words(mux.inspect, icw=0o70000, ibp=2000, lib=2001)
    yield 'arrival at no port', lambda: mux.arrival(9, 0o174, 0, 0)
    yield 'transmitted', lambda: mux.transmitted(0)
    for ocw in (0, 0o30000, 0o40377, 0o60101, 0o140000):
        yield 'output', lambda: with_words(mux.inspect, ocw=ocw, obp=2000, lob=2001)
        yield 'transmitted', lambda: mux.transmitted(0)
    for level in (1, 0):
        yield 'device_status', lambda: mux.device_status(0, level)
    yield 'sweep', lambda: with_words(lambda: mux.sweep(5), ocw=0o30000, obp=2000, lob=2009)
    yield 'sweep refused', lambda: mux.sweep(4097)
    yield from (('dob', mux.dob), ('inspect', mux.inspect), ('sweep', lambda: mux.sweep(5)), ('reset', mux.reset))


def test_a_set_is_kept():
    for codes in (SET_1974, DICTIONARY, [1] * 128, [0] * 128, *random_sets(20)):
        mux = unit(ports=1, codes=codes)
        mux.lent_places = 10
        for name, call in calls_of_every_kind(mux):
            call()
            assert mux.record.codes == tuple(codes), name
        assert all(mux.reached[f'{call} accepted'] for call in mux2.REFUSALS)
        mux.doc()
        mux.change(0, control=mux2.BYTE_BITS[0o60])
        for code in (0o174, 0o101, 0o15):
            assert special_both_ways(mux, code) == (codes[code] == 1)


def test_no_set_is_unsound():
    for codes in many_sets():
        mux = unit(ports=1)
        mux.record.codes, mux.record.status = tuple(codes), 5
        assert mux.dia() == (0, 5) and mux.reset() == 0 and mux.record.codes == tuple(codes)
        mux.record.pos = 1
        assert mux.dia() == (6, 0) and mux.reset() == 6 and mux.record.codes == tuple(codes)


def test_a_set_is_asked_by_seven_bits():
    for code in range(128):
        alone, others = set_of({code}), set_of(set(range(128)) - {code})
        for codes in (alone, others):
            mux = unit(ports=1, codes=codes)
            answers = [mux.special(mux2.BYTE_BITS[character]) for character in range(256)]
            assert answers == [codes[character % 128] == 1 for character in range(256)]
            for near in (code, code + 128, code ^ 64, (code + 1) % 128, (code + 127) % 128, code // 2, code * 2 % 256):
                assert special_both_ways(mux, near) == (codes[near % 128] == 1)


def test_a_set_is_asked_after_the_cut():
    for length, code in ((5, 0o34), (6, 0o74), (7, 0o174), (8, 0o174)):
        for character in (0o174, 0o374):
            for codes in (set_of({code}), set_of(set(range(128)) - {code}), set_of({0o174}), set_of({0o34, 0o74}),
                          DICTIONARY):
                mux = unit(ports=1, control=(length - 5) * 16, codes=codes)
                special = codes[code]
                answer = received(mux, 0o50000, character)
                assert answer == Answer(INPUT, 0, 0, 0, special)
                assert mux.memory.byte(2001) == (0 if special else 0o200 + code)
                assert block(mux)[0] == (0o150200 + code if special else 0o50000)
                # What is sent is not cut, so its own code is asked.
                assert sent(mux, 0o30000, character) == Answer(OUTPUT, 0, 1, character, codes[0o174])


def test_five_bits_with_ordinary_codes():
    mux = unit(ports=1, control=0, codes=set_of(OPTIONS['#2a']))
    assert not any(received(mux, 0o50000, code).raised for code in range(256))
    assert all(received(unit(ports=1, control=0), 0o50000, code).raised for code in range(256))       # in 1974


def test_options_of_the_mighty_mux():
    assert {name: set(codes) for name, codes in sessions.OPTIONS.items()} == OPTIONS
    for special in OPTIONS.values():
        mux = unit(ports=1, codes=set_of(special))
        for code in range(256):
            assert special_both_ways(mux, code) == (code % 128 in special)


def test_errors_before_the_set():
    for codes in (DICTIONARY, SET_1974, [1] * 128, [0] * 128):
        mux = unit(ports=1, codes=codes)
        for code in (0o174, 0o101, 0o15):
            for parity, brk, bits in ((1, 0, 0o2000), (0, 1, 0o6000)):
                block(mux, icw=0o70000, ibp=2000, lib=2001)
                assert give(mux, 0, code, parity, brk) == Answer(INPUT, 0, 0, 0, 1)
                assert block(mux)[::2] == [0o170200 + bits + code, 2000] and mux.memory.byte(2001) == 0


def test_a_poked_set():
    mux = unit(ports=1, codes=DICTIONARY)
    for word in (0, 1, 1, 0):
        mux.arrival(0, 0o174, 0, 0)                     # held while its word is poked
        mux.record.codes = mux2.with_code(mux.record.codes, 0o174, word)
        block(mux, icw=0o50000, ibp=2000, lib=2009)
        assert mux.inspect()[1].raised == word and special_both_ways(mux, 0o174) == (word == 1)
        assert [code for code in range(128) if mux.record.codes[code] != DICTIONARY[code]] == [0o174] * word


def test_wrong_sets_fail():
    found = {name: texts for name, *texts in mutants.SET_MUTANTS}
    for check, names in (
            (test_default_set, (
                'setup gives yes and no exchanged', 'both ask yes and no exchanged', 'input asks six bits of the code',
                'output asks no for yes and yes for no of 123', 'setup gives the set without code 0')),
            (test_glottal_stop_is_kept_with_its_word, (
                'input asks the 1974 set', 'setup gives the 1974 set', 'ordinary unlike 1974 not echoed',
                'glottal stop stored twice', 'glottal stop stored as a space', 'glottal stop stored with its top bit 0',
                'seen: ordinary unlike 1974 stored and reported as well')),
            (test_glottal_stop_is_reported_where_a_letter_is, (
                'input asks the 1974 set', "input asks the dictionary's set",
                'glottal stop that fills the buffer not reported',
                'glottal stop that finds the transmitter busy not reported',
                'glottal stop that finds the transmitter busy not marked')),
            (test_glottal_stop_does_not_stop_output, (
                'output asks the 1974 set', "output asks the dictionary's set", 'glottal stop not sent where it is ordinary',
                'special request ignored with another set', 'special request not needed with another set')),
            (test_every_other_code_is_as_before, (
                'input asks the 1974 set', 'output asks the 1974 set', 'input asks all eight bits, the 1974 set past the set',
                'output asks all eight bits, the 1974 set past the set', 'another set asked outside 7-bit ASCII',
                'ordinary code unlike 1974 stored with its error', 'special request not needed with another set')),
            (test_the_set_is_asked_in_its_modes_alone, (
                'another set asked outside 7-bit ASCII', 'special request not needed with another set',
                'special by another set alone, asked outside 7-bit ASCII', 'special request ignored with another set',
                'input asks the 1974 set where no code is special', 'output asks the 1974 set where every code is special')),
            (test_every_set_is_taken, (
                'refused setup keeps the set', 'refused setup gives the 1974 set',
                'refused setup gives the set of the unit', 'refused setup changes the set of the unit',
                'setup gives the set turned round', 'setup gives the 1974 set in blocks of 32', 'one set for every record',
                'set without a special code refused', 'set with a special letter refused')),
            (test_a_set_is_not_shared, (
                'setup gives the set that the unit has', 'refused setup changes what is asked',
                'setup gives the 1974 set beside the other')),
            (test_a_set_is_kept, [f'{call} {loses}' for call in mutants.CHANGES
                                  for loses in ('puts the 1974 set back', 'clears the set')]),
            (test_no_set_is_unsound, [name for name in found if name.endswith('unsound')]),
            (test_a_set_is_asked_by_seven_bits, [
                name for name in found if re.match('(input|output) asks ', name)
                and not re.search('before the cut|arrives|cut to|1974 set (where|past)|top bit 1$', name)]),
            (test_a_set_is_asked_after_the_cut, ('input asks before the cut', 'output asks for the byte cut to the length')),
            (test_five_bits_with_ordinary_codes, ('input asks the 1974 set', 'input asks the 1974 set beside it')),
            (test_options_of_the_mighty_mux, ('input asks the 1974 set', 'output asks the word of the next code')),
            (test_errors_before_the_set, (
                'special asked before an error, and hides it', 'ordinary code stored with its error')),
            (test_a_poked_set, (
                'input asks when the character arrives', 'set kept from setup, whatever the record has since'))):
        for name in names:
            assert failing(check, mutants.program(*found[name])), name


def test_orders_of_sets():
    driver = drive.Driver()

    def drive_all(*orders):
        return [line for line in map(driver.drive, orders) if line is not None]

    setup, dia = (drive.SETUP, 8, 1, 64, 0), (drive.DIA,)
    assert driver.codes == tuple(SET_1974) and driver.mux.record.codes == (0,) * 128
    for which, codes in enumerate(([0] * 128, [1] * 128, SET_1974)):
        drive_all((drive.CODES, 1 - which // 2), (drive.CODES, which), setup)
        assert driver.mux.record.codes == driver.codes == tuple(codes)
    drive_all((drive.CODE, 0o174, 0))                   # the unit stays as it is
    assert driver.codes == tuple(DICTIONARY) and driver.mux.record.codes == tuple(SET_1974)
    drive_all((drive.CODE, 0o174, 0), setup, (drive.POKE_CODE, 0o101, 1), (drive.POKE_CODE, 0, 0))
    assert driver.codes == tuple(DICTIONARY)            # the set that is given stays too
    poked = [*DICTIONARY]
    poked[0o101], poked[0] = 1, 0
    assert driver.mux.record.codes == tuple(poked)
    setups = drive_all((drive.SETUP, 8, 0, 64, 0), setup)
    assert setups[0].split()[2] == str(drive.digest([0] * 1331)) and driver.codes == tuple(DICTIONARY)
    one, other = drive_all(dia, (drive.POKE_CODE, 127, 0), dia)
    numbers = [8, 1, 64] + [0] * 8 + [0] * 40 + DICTIONARY + [0, 0, 0, 0, 0, 1, 0, 1, 0] * 128
    assert one == f'{drive.DIA} 0 0 {drive.digest(numbers)}' and setups[1].split()[2] == one.split()[3]
    numbers[11 + 40 + 127] = 0
    assert other == f'{drive.DIA} 0 0 {drive.digest(numbers)}'
    drive_all((drive.END,))
    assert driver.codes == tuple(SET_1974) and driver.mux.record.codes == (0,) * 128


@lru_cache(maxsize=None)
def session_of_the_sets():
    return sessions.sets_session()


def services_under_sets(author):
    """What the services of a session met: the set, the mode with bit 3, the character or the byte that is next."""
    met = set()

    class Watching(Mux2):
        def input(self, p):
            met.add((self.record.codes, self.memory.word(self.block_of(p)) & 0o70000, self.record.port[p].byte))
            return super().input(p)

        def output(self, p):
            answer = super().output(p)
            met.add((self.record.codes, self.memory.word(self.block_of(p) + 1) & 0o70000, answer.byte))
            return answer

    lines_of(Watching, author.orders)
    return met


def test_session_of_the_sets():
    author, reached = session_of_the_sets()
    assert author.calls <= 40000 and 2 * author.serving > author.calls
    first, last = map(mux2.BRANCHES.index, ('setup accepted with the 1974 set', 'speed 000'))
    assert all(reached[branch] for branch in mux2.BRANCHES[first:last])
    met = services_under_sets(author)
    main = [SET_1974, DICTIONARY, [0] * 128, [1] * 128, *map(set_of, OPTIONS.values())]
    for codes in main:
        for mode in RECEIVING + SENDING:
            assert all((tuple(codes), mode, code) in met for code in range(256))
    for code in range(128):
        for codes in (set_of({code}), set_of(set(range(128)) - {code})):
            for near in (code, code + 128, (code + 1) % 128, (code + 127) % 128):
                assert (tuple(codes), 0o50000, near) in met and (tuple(codes), 0o30000, near) in met
    others = {codes for codes, _, _ in met} - {tuple(codes) for codes in main}
    assert len(others) > 2 * 128 + 5


def test_random_sessions_choose_sets():
    counts, pokes = dict.fromkeys((*mux2.SETS.values(), mux2.ANOTHER), 0), 0
    for number in range(2 * len(sessions.KINDS)):
        author, reached = sessions.write_session(sessions.SEED, number)
        for name in counts:
            counts[name] += reached[f'setup accepted with {name}'] + reached[f'setup refused with {name}']
        pokes += sum(order[0] == drive.POKE_CODE for order in author.orders)
    assert min(counts.values()) > 4 and pokes > 10
    assert 0.35 < counts['the 1974 set'] / sum(counts.values()) < 0.65


# Document 02, K6.

EDS_8, MIGHTY_MUX = 0, 1
KINDS_OF_UNIT = (EDS_8, MIGHTY_MUX)
PLACES = ((8, 48, 256), (16, 64, 2304), (32, 41, 14848), (32, 128, 4096), (8, 8, 0))    # settings of units with stacks


def mighty(b=32, ports=32, base=15360, **fields):
    """A running Mighty Mux, with these fields of its record."""
    mux = unit(b, ports, base, kind=MIGHTY_MUX)
    vars(mux.record).update(fields)
    return mux


def side(mux):
    """The interrupt side: flag, status word, lost mark, number of entries, and the entries with the free places."""
    r = mux.record
    return r.irq, r.status, r.lost, r.fill, r.stack


def places(*words):
    """A stack with these words in its first places."""
    return words + (0,) * (40 - len(words))


def input_done(mux):
    """The port whose turn it is takes a character and raises an interrupt; its ICW is written."""
    p = mux.record.pos
    mux.host_write(mux.block_of(p), 0)
    assert mux.arrival(p, 0o101, 0, 0) == 0
    assert mux.inspect() == (0, Answer(INPUT, p, 0, 0, 1)) and mux.memory.word(mux.block_of(p)) == 0o100101


def output_done(mux):
    """The port whose turn it is takes control bits and raises an interrupt; its OCW is written."""
    p = mux.record.pos
    mux.host_write(mux.block_of(p) + 1, 0o40060)
    assert mux.inspect() == (0, Answer(OUTPUT, p, 0, 0, 1)) and mux.memory.word(mux.block_of(p) + 1) == 0o140060


def entry_of(mux, done):
    """The entry of such an interrupt by its bits' weights (000, Table 2-3): 8192 or 4096, and 32 times the address."""
    address = (mux.record.base // mux.record.block + mux.record.pos) % 128
    return (8192 if done == input_done else 4096) + 32 * address


def words(count, seed=40):
    random = Random(seed).random
    return tuple(int(random() * 65536) for _ in range(count))


def poked_records(kinds=KINDS_OF_UNIT):
    """Interrupt sides that the calls would make and others, with words in every place."""
    for kind in kinds:
        for fill in (0, 1, 2, 39, 40):
            for status in (0, 32768, 32767, 65535):
                for lost in (0, 1):
                    for irq in (0, 1):
                        for stack in (words(40), places(*words(fill, 1)), (65535,) * 40, places()):
                            yield dict(kind=kind, fill=fill, status=status, lost=lost, irq=irq, stack=stack)


def test_fresh_units_of_both_kinds():
    assert Mux2().setup(8, 1, 64)[1].kind == EDS_8
    for kind in KINDS_OF_UNIT:
        for codes in (SET_1974, DICTIONARY):
            mux = Mux2()
            mux.record = mighty(fill=3, lost=1, irq=1, status=32768, stack=words(40)).record
            code, made = mux.setup(8, 8, 256, codes, kind)
            assert code == 0 and made.kind == kind and made.codes == tuple(codes)
            assert (made.irq, made.status, made.lost, made.fill, made.stack) == (0, 0, 0, 0, (0,) * 40)
            assert made.runs == made.clock == made.pos == 0 and made.port == [mux2.FRESH_PORT] * 128
            assert side(mux) == (1, 32768, 1, 3, words(40))         # setup touches no old record
            mux.record = made
            assert mux.dia() == (0, 0) and mux.dias() == (0, 0) and mux.start() == 0 and side(mux) == (0, 0, 0, 0, (0,) * 40)


def test_kind_changes_no_other_refusal():
    mux, seen = Mux2(), set()
    for setting in settings():
        code, record = mux.setup(*setting, SET_1974, EDS_8)
        other, made = mux.setup(*setting, SET_1974, MIGHTY_MUX)
        if other != 12:                                 # K7's
            assert code == other and {**vars(made), 'kind': EDS_8} == vars(record)
        assert made.kind == (MIGHTY_MUX if other == 0 else EDS_8)
        if other:
            assert vars(made) == vars(mux2.Record())
        seen.add((code, other))
    assert seen == {(code, code) for code in (0, 1, 2, 3, 4, 11)} | {(0, 12), (4, 12)}


def test_stacked_status_words():
    mux = mighty()                                      # base 15360, b 32: port 0 has address 96
    input_done(mux)
    assert side(mux) == (1, 0, 0, 1, places(11264)) and mux.dia() == (0, 11264)
    mux.host_write(15360 + 32 + 1, 0o60101)
    assert mux.inspect() == (0, Answer(OUTPUT, 1, 1, 0o101, 1))
    assert side(mux) == (1, 0, 0, 2, places(11264, 7200))           # 4096 + 97 * 32, and no bit 1
    mux.iopls()
    mux.tick()
    assert side(mux) == (1, 32768, 0, 2, places(11264, 7200))
    assert mux.dia() == (0, 32768 + 11264) and mux.dias() == (0, 32768 + 11264)
    assert side(mux) == (1, 0, 0, 1, places(7200)) and mux.dias() == (0, 7200)
    assert side(mux) == (0, 0, 0, 0, places()) and mux.dia() == mux.dias() == (0, 0)
    mux.tick()
    assert mux.dia() == (0, 32768) and side(mux) == (1, 32768, 0, 0, places())
    assert mux.start() == 0 and side(mux) == (0, 0, 0, 0, places())


def test_entries_have_the_address():
    for b, base, first in ((8, 0, 0), (8, 256, 32), (8, 768, 96), (8, 32512, 96), (16, 256, 16), (16, 2304, 16),
                           (16, 32512, 112), (32, 256, 8), (32, 14848, 80), (32, 15360, 96), (32, 32512, 120), (8, 1024, 0)):
        mux = mighty(b, 8, base)
        for p in range(8):
            input_done(mux)
        for p in range(8):
            output_done(mux)
        assert mux.record.stack == places(*[kind + (first + p) * 32 for kind in (8192, 4096) for p in range(8)])


def test_every_end_of_a_service_is_queued():
    for codes, character in ((SET_1974, 0o15), (DICTIONARY, 0o101)):
        mux = unit(ports=1, base=256, codes=codes, kind=MIGHTY_MUX)             # port 0 has address 32
        set_buffer(mux, INPUT, 2000, 2001, bits=0o30000)            # a special code, or the end of the buffer
        assert give(mux, 0, character).raised == 1 and mux.dias() == (0, 8192 + 1024)
        set_buffer(mux, OUTPUT, 2000, 2001)
        mux.transmitted(0)
        assert mux.inspect()[1].raised == 1 and mux.dias() == (0, 4096 + 1024)
        mux.transmitted(0)
        block(mux, ocw=0)
        mux.device_status(0, 1)                         # bit 7 becomes 1
        assert mux.inspect()[1].raised == 1 and side(mux) == (1, 0, 0, 1, places(4096 + 1024))
        for icw, ocw in ((0o20000, 0), (0o100000, 0o100000), (0o120000, 0o140000)):     # not done, or done before
            block(mux, icw=icw, ocw=ocw + 2048)
            assert give(mux, 0, 0o101).raised == 0 and mux.inspect()[1].raised == 0
            assert side(mux) == (1, 0, 0, 1, places(4096 + 1024))


def test_first_in_first_out():
    for b, ports, base in PLACES:
        for done in ((input_done,), (output_done,), (input_done, output_done, output_done)):
            mux = mighty(b, ports, base)
            accepted = []
            for number in range(40):
                accepted.append(entry_of(mux, done[number % len(done)]))
                done[number % len(done)](mux)
                assert side(mux) == (1, 0, 0, number + 1, places(*accepted)) and mux.dia() == (0, accepted[0])
            for number in range(1, 41):
                assert mux.dias() == (0, accepted[number - 1]) if number % 2 else mux.start() == 0
                assert side(mux) == (int(number < 40), 0, 0, 40 - number, places(*accepted[number:]))
            assert mux.dias() == (0, 0) and side(mux) == (0, 0, 0, 0, places())


def test_an_interrupt_that_finds_40():
    for done in (input_done, output_done):
        mux = mighty(8, 48, 256)
        for _ in range(40):
            input_done(mux)
        full = mux.record.stack
        assert side(mux) == (1, 0, 0, 40, full) and mux.dia() == (0, full[0])
        for _ in range(3):
            done(mux)                                   # the answer says raised, the control word is written
            assert side(mux) == (1, 0, 1, 40, full) and mux.dia() == (0, 16384 + full[0])
        assert mux.dias() == (0, 16384 + full[0]) and side(mux) == (1, 0, 1, 39, full[1:] + (0,))
        entry = entry_of(mux, done)
        done(mux)                                       # the freed place
        assert side(mux) == (1, 0, 1, 40, full[1:] + (entry,))
        done(mux)
        for left in range(39, 0, -1):                   # the mark stays while entries remain
            assert mux.dias()[1] >= 16384 and mux.record.lost == 1 and mux.record.fill == left and mux.record.irq == 1
        assert mux.record.stack == places(entry)
        assert mux.dias() == (0, 16384 + entry) and side(mux) == (0, 0, 0, 0, places())
        entry = entry_of(mux, done)
        done(mux)
        assert side(mux) == (1, 0, 0, 1, places(entry)) and mux.dia() == (0, entry)


def test_a_lost_interrupt_leaves_all_else():
    stack = words(40)
    for status in (0, 32768, 65535):
        for irq in (0, 1):
            for lost in (0, 1):
                mux = mighty(fill=40, stack=stack, status=status, irq=irq, lost=lost)
                input_done(mux)
                assert side(mux) == (1, status, 1, 40, stack)


def test_an_interrupt_leaves_the_status_word():
    for fields in poked_records([MIGHTY_MUX]):
        for done in (input_done, output_done):
            mux = mighty(**fields)
            mux.record.pos = 5
            entry, fill, stack = entry_of(mux, done), fields['fill'], list(fields['stack'])
            done(mux)
            if fill < 40:
                stack[fill] = entry
                assert side(mux) == (1, fields['status'], fields['lost'], fill + 1, tuple(stack))
            else:
                assert side(mux) == (1, fields['status'], 1, 40, tuple(stack))


def test_what_dia_shows():
    for fields in poked_records([MIGHTY_MUX]):
        shown = format(fields['status'], '016b')[0]     # indexed by the manual's bit numbers
        if fields['fill']:
            shown += str(fields['lost']) + format(fields['stack'][0], '016b')[2:]
        else:
            shown += '0' * 15
        mux = mighty(**fields)
        before = {**vars(mux.record), 'port': list(mux.record.port)}
        assert mux.dia() == (0, int(shown, 2)) and vars(mux.record) == before
        assert mux.dias() == (0, int(shown, 2))


def test_what_start_does():
    for fields in poked_records([MIGHTY_MUX]):
        fill, stack = fields['fill'], fields['stack']
        for call in ('start', 'dias'):
            mux = mighty(**fields)
            before = {**vars(mux.record), 'port': list(mux.record.port)}
            getattr(mux, call)()
            left = max(fill - 1, 0)
            assert side(mux) == (int(left > 0), 0, fields['lost'] if left else 0, left, stack[1:] + (0,) if fill else stack)
            changed = dict(irq=0, status=0, lost=0, fill=0, stack=0)
            assert {**vars(mux.record), **changed} == {**before, **changed}


def test_tick_beside_the_stack():
    for fields in poked_records():
        mux = mighty(clock=1, **fields)
        assert mux.tick() == 0
        assert side(mux) == (1, fields['status'] % 32768 + 32768, fields['lost'], fields['fill'], fields['stack'])
        mux = mighty(clock=0, **fields)
        assert mux.tick() == 0
        assert side(mux) == tuple(fields[name] for name in ('irq', 'status', 'lost', 'fill', 'stack'))


def test_reset_empties_the_stack():
    for fields in poked_records():
        mux = mighty(clock=1, **fields)
        assert mux.reset() == 0 and side(mux) == (0, 0, 0, 0, (0,) * 40) and mux.record.kind == fields['kind']
        assert mux.record.clock == mux.record.runs == 0
    mux = mighty()
    for _ in range(41):
        output_done(mux)
    mux.reset()
    mux.doc()
    entry = entry_of(mux, input_done)
    input_done(mux)
    assert side(mux) == (1, 0, 0, 1, places(entry)) and mux.dias() == (0, entry) and mux.dia() == (0, 0)


def test_an_eds_8_leaves_the_stack():
    for fields in poked_records([EDS_8]):
        mux, plain = mighty(clock=1, **fields), mighty(clock=1, **fields)
        plain.record.lost, plain.record.fill, plain.record.stack = 0, 0, places()
        for call in (Mux2.dia, Mux2.tick, input_done, Mux2.dia, output_done, Mux2.dias, Mux2.dia, Mux2.tick, output_done,
                     Mux2.start, Mux2.dia, input_done):
            assert call(mux) == call(plain) and side(mux)[:2] == side(plain)[:2]
            assert side(mux)[2:] == (fields['lost'], fields['fill'], fields['stack'])
        assert side(plain)[2:] == (0, 0, places())
    mux = mighty(kind=EDS_8, fill=2, stack=places(5, 6))            # document 01's status words
    input_done(mux)
    assert mux.dia() == (0, 11264)
    output_done(mux)
    assert mux.dias() == (0, 31776) and side(mux) == (0, 0, 0, 2, places(5, 6))


def test_too_many_entries_are_unsound():
    for kind in KINDS_OF_UNIT:
        for fill in (41, 42, 255, 256, 296, 65536, 65576, 2147483648, 4294967295):
            mux = mighty(kind=kind, fill=fill, status=5, irq=1, stack=words(40))
            before = {**vars(mux.record), 'port': list(mux.record.port)}
            assert mux.arrival(0, 65, 0, 0) == mux.transmitted(99) == mux.device_status(0, 1) == 6
            assert mux.reset() == mux.iopls() == mux.start() == mux.doc() == mux.dob() == mux.tick() == 6
            assert mux.dia() == mux.dias() == (6, 0) and mux.sweep(0) == mux.sweep(4097) == (6, 0, 0)
            mux.memory.lent = 5
            assert mux.inspect() == (6, Answer(NOTHING, 0, 0, 0, 0)) and vars(mux.record) == before
            assert mux.setup(8, 8, 64)[0] == 0          # it looks at no old record


def test_no_other_stack_is_unsound():
    for fields in poked_records():
        mux = mighty(**fields)
        mux.lent_places = 1
        assert mux.arrival(0, 65, 0, 0) == mux.transmitted(0) == mux.device_status(0, 1) == 0
        assert mux.iopls() == mux.doc() == mux.dob() == mux.tick() == mux.start() == mux.reset() == 0
        assert mux.dia()[0] == mux.dias()[0] == mux.inspect()[0] == mux.sweep(1)[0] == 0


def test_sweeps_and_lost_interrupts():
    for fill, lost in ((39, 0), (40, 1)):
        mux = mighty(8, 6, 256, fill=fill, stack=places(*words(fill)), irq=1)
        mux.places, mux.lent_places = [9] * 10, 10
        for p, ocw in enumerate((0o20000, 0, 0o60102, 0o60103, 0o40060, 0)):
            mux.host_write(mux.block_of(p) + 1, ocw)
        mux.host_write(0, 0o101)                        # port 0's OBP is 0: the right half is next
        mux.host_write(mux.block_of(0) + 7, 9)          # LOB: more bytes are to come
        assert mux.sweep(10) == (0, 3, 2) and mux.places == [0o101, 2 * 256 + 0o102] + [9] * 8
        assert mux.record.pos == 3 and mux.memory.word(mux.block_of(2) + 1) == 0o160102
        assert side(mux)[2:4] == (lost, 40) and mux.memory.word(mux.block_of(3) + 1) == 0o60103
        assert mux.sweep(1) == (0, 1, 1) and mux.memory.word(mux.block_of(3) + 1) == 0o160103
        assert side(mux)[2:4] == (1, 40) and mux.sweep(0) == (0, 0, 0)
        mux.arrival(5, 65, 0, 0)
        assert mux.sweep(10) == (0, 1, 0) and mux.sweep(10) == (0, 1, 0) and mux.memory.word(mux.block_of(5)) == 0o100101
        assert side(mux)[:4] == (1, 0, 1, 40) and mux.record.stack[:fill] == words(fill)
    mux = mighty(8, 2, 256)
    mux.lent_places = 2
    for number in range(1, 43):                         # each sweep stops at one, queued or lost
        for p in range(2):
            mux.host_write(mux.block_of(p) + 1, 0o40060)
        assert mux.sweep(2) == (0, 1, 0) and side(mux)[2:4] == (int(number > 40), min(number, 40))


class Expected:
    """What 02's words say of the interrupt side of a Mighty Mux, for runs since setup or reset."""

    def __init__(self):
        self.accepted, self.removed = [], 0
        self.lost = self.tick = self.flag = 0

    def waiting(self):
        return self.accepted[self.removed:]

    def interrupt(self, entry):
        self.flag = 1
        if len(self.waiting()) == 40:
            self.lost = 1
        else:
            self.accepted.append(entry)

    def word(self):
        return 32768 * self.tick + (16384 * self.lost + self.waiting()[0] if self.waiting() else 0)

    def start(self):
        self.removed += 1 if self.waiting() else 0
        self.tick, self.flag = 0, int(len(self.waiting()) > 0)
        self.lost = self.lost if self.waiting() else 0

    def side(self):
        return self.flag, 32768 * self.tick, self.lost, len(self.waiting()), places(*self.waiting())


def test_removed_and_stacked_are_those_accepted():
    met = dict.fromkeys(('lost', 'empty', 'again', 'reset'), 0)
    for seed, (b, ports, base) in enumerate(PLACES):
        random = Random(seed).random
        mux, expected, removed = mighty(b, ports, base), Expected(), []
        mux.iopls()
        for step in range(2500):
            at = random() * (6 if step % 500 < 200 else 12)
            if at < 4:
                done = input_done if at < 2 else output_done
                met['again'] += 0 < expected.removed and len(expected.waiting()) == 39
                met['lost'] += len(expected.waiting()) == 40
                expected.interrupt(entry_of(mux, done))
                done(mux)
            elif at < 4.5:
                mux.tick()
                expected.tick = expected.flag = 1
            elif at < 4.51:
                mux.reset()
                mux.doc()
                mux.iopls()
                expected, removed = Expected(), []
                met['reset'] += 1
            elif at < 5:
                assert mux.dia() == (0, expected.word())
            else:
                met['empty'] += not expected.waiting()
                if mux.record.fill:
                    removed.append(mux.record.stack[0])
                if at < 6:
                    assert mux.dias() == (0, expected.word())
                else:
                    assert mux.start() == 0
                expected.start()
            assert side(mux) == expected.side()
            assert removed + list(mux.record.stack[:mux.record.fill]) == expected.accepted
    assert min(met.values()) > 5, met


def test_a_kind_is_kept():
    for kind in KINDS_OF_UNIT:
        mux = unit(ports=1, base=256, kind=kind)
        mux.lent_places = 10
        for name, call in calls_of_every_kind(mux):
            call()
            assert mux.record.kind == kind, name
        mux.setup(8, 1, 256, SET_1974, 1 - kind)
        mux.setup(8, 0, 256, SET_1974, 1 - kind)
        assert mux.record.kind == kind


def test_other_calls_leave_the_stack():
    for fields in poked_records():
        if fields['fill'] in (2, 40) and fields['status'] == 65535:
            mux = mighty(8, 2, 256, **fields)
            for call in (lambda: mux.arrival(0, 65, 1, 1), lambda: mux.arrival(0, 66, 0, 0), lambda: mux.transmitted(0),
                         lambda: mux.device_status(0, 1), mux.iopls, mux.dob, mux.inspect, lambda: mux.sweep(0), mux.doc,
                         lambda: mux.sweep(0), lambda: mux.arrival(2, 65, 0, 0), lambda: mux.sweep(9), lambda: mux.speed(5)):
                call()
                assert side(mux) == tuple(fields[name] for name in ('irq', 'status', 'lost', 'fill', 'stack'))
                assert mux.record.kind == fields['kind']


def seen_of_both_kinds(lines):
    """What a session prints but the record's digests and the words of DIA and DIAS."""
    hidden = {drive.SETUP: (2, 3), drive.DIA: (2, 3), drive.DIAS: (2, 3), drive.INSPECT: (7,), drive.SWEEP: (4,)}
    for line in lines:
        numbers = line.split()
        op = int(numbers[0])
        left_out = hidden.get(op, (2,) if op in drive.CALLS else ())
        yield [number for place, number in enumerate(numbers) if place not in left_out]


class OnMultiples(sessions.Author):
    """Writes sessions with no base for an EDS-8 alone (02, K7): one that it would give or poke is lowered to a multiple of 256."""

    def do(self, *order):
        if order[0] == drive.SETUP and order[1] in (8, 16) and order[3] % (8 * order[1]) == 0:
            order = (*order[:3], order[3] // 256 * 256, order[4])
        elif order[:2] == (drive.POKE, 2) and self.unit.block in (8, 16) and order[2] % (8 * self.unit.block) == 0:
            order = (*order[:2], order[2] // 256 * 256)
        super().do(*order)


def test_all_else_is_the_same_for_both_kinds():
    for number in range(len(sessions.KINDS)):
        author = OnMultiples(6, number)
        author.session(900)
        orders = [order for order in author.orders if order[0] != drive.KIND and order[:2] != (drive.POKE, 8)]
        both = [[line for line in lines_of(Mux2, [(drive.KIND, kind), *orders]) if line is not None] for kind in KINDS_OF_UNIT]
        assert both[0] != both[1] and len(both[0]) == len(both[1]) > 500
        assert list(seen_of_both_kinds(both[0])) == list(seen_of_both_kinds(both[1]))


def test_orders_of_kinds():
    driver = drive.Driver()

    def drive_all(*orders):
        return [line for line in map(driver.drive, orders) if line is not None]

    setup, dia = (drive.SETUP, 8, 1, 256, 0), (drive.DIA,)
    assert driver.kind == driver.mux.record.kind == EDS_8 and drive.KIND == 15 and drive.POKE_STACK == 16
    assert not drive_all((drive.KIND, 1)) and driver.mux.record.kind == EDS_8
    setups = drive_all(setup, (drive.SETUP, 8, 0, 64, 0), (drive.SETUP, 8, 0, 64, 1))
    fresh = [8, 1, 256, 0, 0, 0, 0, 0, 1, 0, 0] + [0] * 40 + SET_1974 + [0, 0, 0, 0, 0, 1, 0, 1, 0] * 128
    zeros = drive.digest([0] * 1331)
    assert len(fresh) == 1331 and setups[0] == f'1 0 {drive.digest(fresh)} {drive.digest(fresh)}'
    assert setups[1:] == [f'1 2 {zeros} {drive.digest(fresh)}', f'1 2 {zeros} {zeros}'] and driver.kind == MIGHTY_MUX
    drive_all(setup)
    for field, name, value in ((7, 'status', 65535), (8, 'kind', 0), (8, 'kind', 1), (9, 'lost', 1), (10, 'fill', 4294967295),
                               (10, 'fill', 40)):
        assert not drive_all((drive.POKE, field, value)) and getattr(driver.mux.record, name) == value
        fresh[field] = value
        assert drive_all(dia)[0].split()[3] == str(drive.digest(fresh))
    for place in (0, 39, 7):
        assert not drive_all((drive.POKE_STACK, place, 60000 + place))
        fresh[11 + place] = 60000 + place
        assert driver.mux.record.fill == 40 and driver.mux.record.stack == tuple(fresh[11:51])
    assert drive_all(dia) == [f'10 0 {32768 + 16384 + 60000 % 16384} {drive.digest(fresh)}']
    drive_all((drive.END,))
    assert driver.kind == driver.mux.record.kind == EDS_8 and driver.mux.record.stack == (0,) * 40


def test_sessions_of_the_stack():
    written = [sessions.poked_session(), sessions.stack_session(), sessions.kinds_session()]
    assert [author.kind for author, _ in written] == list(sessions.OF_THE_STACK)
    assert sum(author.calls for author, _ in written) < 25000
    assert [branch for branch in mux2.STACK_BRANCHES if not any(reached[branch] for _, reached in written)] == []
    by_calls = written[1][1]                            # the session of the stack has no pokes
    for kind in mux2.KIND_NAMES:
        assert by_calls[f'setup accepted as {kind}'] and by_calls[f'setup refused as {kind}']
    for branch in ('stack: input lost, the first', 'stack: output lost, a further one', 'stack: last place used again',
                   'sweep: stops at a lost interrupt', 'sweep: ends with a lost interrupt',
                   'reset, Mighty Mux: lost mark cleared', 'start removes: entries remain, lost mark kept',
                   'dias removes: the last, lost mark cleared',
                   'start on a Mighty Mux: bit 0 cleared, entries remain', 'dia: an entry, lost mark, bit 0 on',
                   'tick with the clock on, Mighty Mux, entries', 'dias: no entry, no lost mark, bit 0 on'):
        assert by_calls[branch], branch


def test_both_kinds_meet_the_same():
    orders = sessions.kinds_session()[0].orders
    at = [number for number, order in enumerate(orders) if order[0] == drive.FILL]
    runs = [[order for order in orders[first:last] if order[0] not in (drive.KIND, drive.DIGEST, drive.END)]
            for first, last in zip(at, [*at[1:], len(orders)])]
    assert len(runs) == 6 and all(len(run) > 500 for run in runs)
    assert runs[::2] == runs[1::2] and orders.count((drive.KIND, 1)) == 3 and orders.count((drive.KIND, 0)) == 2


def test_random_sessions_choose_kinds():
    counts, pokes, places_poked = dict.fromkeys(KINDS_OF_UNIT, 0), dict.fromkeys((8, 9, 10), 0), 0
    of_bases = dict.fromkeys(('setup refused 12', 'unsound: setup gives 12', 'dia accepted at a base for an EDS-8 alone'), 0)
    for number in range(2 * len(sessions.KINDS)):
        author, reached = sessions.write_session(sessions.SEED, number)
        for kind in KINDS_OF_UNIT:
            counts[kind] += reached[f'setup accepted as {mux2.KIND_NAMES[kind]}']
        for branch in of_bases:
            of_bases[branch] += reached[branch]
        for order in author.orders:
            places_poked += order[0] == drive.POKE_STACK
            if order[0] == drive.POKE and order[1] in pokes:
                pokes[order[1]] += 1
        kinds = [order for order in author.orders if order[0] in (drive.KIND, drive.POKE_STACK)]
        first = author.orders.index(kinds[0]) if kinds else 500
        assert first > 300                              # the first part has EDS-8s alone, and nothing of a stack
    assert counts[MIGHTY_MUX] > 15 and counts[EDS_8] > 24 and min(pokes.values()) > 2 and places_poked > 100
    assert min(of_bases.values()) > 2                   # K7's bases as well


def test_wrong_stacks_fail():
    found = {name: texts for name, *texts in mutants.STACK_MUTANTS}

    def named(start, *without):
        return [name for name in found if name.startswith(start) and not any(part in name for part in without)]

    starts = [f'START {name}' for name in mutants.WRONG_STARTS if name != 'makes an EDS-8']
    for check, names in (
            (test_fresh_units_of_both_kinds, [
                name for name in named('setup gives') if 'in blocks' not in name and 'one port' not in name]),
            (test_kind_changes_no_other_refusal, (
                'refused setup keeps the kind', 'refused setup gives a Mighty Mux', 'setup gives an EDS-8',
                'setup gives a Mighty Mux', 'setup gives an EDS-8 in blocks of 32', 'setup gives an EDS-8 of one port',
                'setup of a Mighty Mux refused', 'setup of a Mighty Mux asks no row 3')),
            (test_stacked_status_words, (
                'last in, first out', 'inputs have the port number', 'outputs have no bit 2 or 3', 'DIA clears bit 0',
                'DIAS does START before reading', 'DIAS does no START', 'START keeps bit 0', 'tick pushes an entry',
                'START leaves the flag without an entry', 'DIAS turns the flag off while entries remain',
                'outputs have bit 1 where another is stacked', 'Mighty Mux has the merged status word')),
            (test_entries_have_the_address, [name for name in named('inputs have') + named('outputs have') if not re.search(
                'tick stands|one is lost', name)]),
            (test_first_in_first_out, (
                'last in, first out', 'inputs are put before the others', 'outputs are put over the newest', 'START removes none',
                'START removes two', 'DIAS empties the stack', 'START only counts', 'START leaves the flag on after the last',
                'inputs find 39 places', 'outputs find 20 places', 'stack of 39 places', 'outputs set status bit 1 beside others',
                'DIA shows the newest', 'DIA removes the oldest', 'outputs that take the last place are marked as lost')),
            (test_an_interrupt_that_finds_40, (
                *named('inputs that find 40', 'leave the flag'), *named('outputs that find 40', 'leave the flag'),
                'inputs find 41 places', 'DIAS always clears the lost mark', 'DIAS never clears the lost mark',
                'DIA never shows bit 1',
                'DIAS, reading, never shows bit 1', 'lost input not raised in the answer', 'lost output not raised in the answer',
                "lost input's ICW not written", "lost output's OCW not written", "lost input's ICW written without INDONE",
                "lost output's OCW written without OUTDONE", 'service waits while the stack is full',
                'DIAS leaves the last place', 'inputs find no place while the mark is set',
                'outputs find no freed place until the stack is empty', 'DIAS empties a stack that lost one',
                'DIAS clears the lost mark when a place is free')),
            (test_a_lost_interrupt_leaves_all_else, (
                'inputs that find 40 leave the flag', 'inputs that find 40 set status bit 1', 'inputs clear bit 0',
                'inputs that find 40 turn the mark round')),
            (test_an_interrupt_leaves_the_status_word, (
                'inputs change the status word as well', 'outputs clear the status word', 'outputs clear status bits 1 to 15',
                'inputs leave the flag beside others', 'outputs clear the places behind', 'inputs clear the mark',
                'inputs are merged with the word that is there', 'Mighty Mux interrupt as both')),
            (test_what_dia_shows, named('DIA shows') + named('DIA never') + named('DIA clears') + [
                'DIA sets the flag beside entries', 'DIAS, reading, shows the newest',
                'DIAS, reading, shows bit 1 of the entry']),
            (test_what_start_does, starts),
            (test_tick_beside_the_stack, [name for name in named('tick ') if not re.search(
                'makes|words|drops|lost mark$|removes|accepted', name)]),
            (test_reset_empties_the_stack, named('reset ', 'accepted')),
            (test_an_eds_8_leaves_the_stack, named('EDS-8 ')),
            (test_too_many_entries_are_unsound, (
                '41 entries sound', '42 entries sound', 'any number of entries sound', 'all entries sound',
                'too many entries mended by a refused call', *named('too many entries unsound in'),
                *named('number of entries'), *named('too many entries asked'),
                'setup asks the old record', *[name for name in found if name.endswith('accepted with too many entries')])),
            (test_no_other_stack_is_unsound, [name for name in found if re.search(' unsound', name) and 'too many' not in name]),
            (test_sweeps_and_lost_interrupts, [
                name for name in named('sweep ') if re.search('goes on|makes none|counts|stops where', name)]),
            (test_removed_and_stacked_are_those_accepted, (
                'last in, first out', 'START removes two', 'DIAS removes none beside bit 0',
                'inputs like one that waits are not queued', 'START clears the lost mark when 38 entries remain',
                'reset keeps one entry', 'reset keeps the words',
                'outputs find no freed place until the stack is empty', 'START keeps bit 0 without an entry')),
            (test_a_kind_is_kept, ('reset loses the kind', 'refused setup changes the kind of the unit', 'DOC makes a Mighty Mux',
                                   'arrival makes an EDS-8', 'inputs make an EDS-8', 'START makes an EDS-8')),
            (test_other_calls_leave_the_stack, [
                f'{call} {loses}' for call in ('arrival', 'transmitter empty', 'Device Status', 'IOPLS', 'DOC', 'DOB', 'sweep')
                for loses in ('makes an EDS-8', 'drops the entries', 'clears the words', 'clears the lost mark',
                              'sets the lost mark', 'removes an entry')])):
        assert names
        for name in names:
            assert failing(check, mutants.program(*found[name])), (check.__name__, name)


# Document 02, K7.

SMALL_BASES = ((8, 64), (8, 128), (8, 192), (8, 320), (8, 960), (8, 32576), (8, 32704), (16, 128), (16, 384), (16, 896),
               (16, 32640))                             # block sizes and bases for an EDS-8 alone


def both_codes(b, ports, base):
    """What setup says of these numbers for an EDS-8, and for a Mighty Mux."""
    return tuple(setup_code(b, ports, base, kind=kind) for kind in KINDS_OF_UNIT)


def test_bases_of_a_mighty_mux():
    assert both_codes(8, 8, 64) == (0, 12) and both_codes(16, 8, 128) == (0, 12) and both_codes(8, 1, 32832) == (11, 11)
    assert both_codes(8, 96, 256) == (0, 0) and both_codes(8, 97, 256) == (4, 4)
    assert both_codes(8, 120, 64) == (0, 12) and both_codes(8, 121, 64) == (4, 12)
    assert both_codes(32, 32, 0o36000) == (0, 0) and both_codes(32, 33, 0o36000) == (4, 4)      # the standard one (000, 3.7.7)
    assert both_codes(8, 8, 0o66000) == (0, 0) and both_codes(8, 8, 0o36100) == (0, 12)         # the manual's example
    assert both_codes(8, 8, 100) == both_codes(8, 8, 32) == both_codes(16, 8, 64) == both_codes(32, 8, 128) == (3, 3)
    assert both_codes(8, 8, 400) == (3, 3) and both_codes(8, 8, 1600) == (0, 12)                # octal 400, not decimal
    for b in mux2.BLOCKS:
        for base in range(0, 32768, 64):
            eds_8, mighty_mux = both_codes(b, 1, base)
            assert eds_8 == (3 if base % (8 * b) else 0)
            assert mighty_mux == (3 if base % (8 * b) else 12 if base % 256 else 0) and (b < 32 or mighty_mux != 12)


def rows_of_a_mighty_mux(b, ports, base):
    """The numbers of all rows that apply to a Mighty Mux, in their order, in other words than the second program's; row 3 is
    asked only of a block size that divides."""
    pages, left = divmod(base, 256)
    return [number for number, applies in (
        (1, not (b in (8, 16, 32))), (2, not 0 < ports < 129), (3, b and base % b + base // b % 8), (11, base >= 1 << 15),
        (12, left), (4, b and base % (128 * b) + ports * b > 128 * b)) if applies]


def test_order_of_12():
    met = {}
    for b, ports, base in settings():
        for near in (base, base // 64 * 64, base // 256 * 256):
            rows = rows_of_a_mighty_mux(b, ports, near)
            assert setup_code(b, ports, near, kind=MIGHTY_MUX) == (rows[0] if rows else 0)
            met[tuple(rows)] = met.get(tuple(rows), 0) + 1
    # 12 beside each other row, and both sides of 3, which never comes without it in blocks of 8, 16 or 32.
    for rows in ((12,), (12, 4), (11, 12), (11, 12, 4), (3, 12), (3, 12, 4), (3, 11, 12), (2, 12), (2, 11, 12), (2, 3, 12),
                 (2, 12, 4), (1, 12), (1, 2, 12), (1, 3, 12), (1, 11, 12), (1, 2, 3, 11, 12, 4), (11,), (4,), ()):
        assert met.get(rows), rows
    assert not [rows for rows in met if rows[:1] == (3,) and 12 not in rows]


def test_an_eds_8_answers_as_before():
    mux = Mux2()
    for b, ports, base in settings():
        code, record = mux.setup(b, ports, base)
        assert code == first_row(b, ports, base) != 12
        mux.record.block, mux.record.ports, mux.record.base = b, ports, base
        assert mux.dia() == ((6, 0) if code else (0, 0)) and record.kind == EDS_8


def refuses_everything(mux):
    """Whether every call is refused with 6, before any other number, and changes nothing."""
    before, words = {**vars(mux.record), 'port': list(mux.record.port)}, bytes(mux.memory.halves)
    codes = [mux.arrival(0, 65, 0, 0), mux.arrival(99, 65, 0, 0), mux.transmitted(0), mux.transmitted(99),
             mux.device_status(0, 1), mux.reset(), mux.iopls(), mux.start(), mux.doc(), mux.dob(), mux.tick()]
    answers = [mux.dia(), mux.dias(), mux.sweep(0)[:2], mux.sweep(1)[:2], mux.sweep(4097)[:2]]
    mux.memory.lent = 5
    answers.append(mux.sweep(0)[:2])
    seen = [mux.inspect()]
    mux.memory.lent = 32768
    seen.append(mux.inspect())
    assert vars(mux.record) == before and bytes(mux.memory.halves) == words
    return set(codes) == {6} and set(answers) == {(6, 0)} and set(seen) == {(6, Answer(NOTHING, 0, 0, 0, 0))}


def takes_everything(mux):
    """Whether every call is accepted, and an input and an output are served."""
    mux.lent_places = 1
    codes = [mux.arrival(7, 65, 0, 0), mux.transmitted(0), mux.device_status(0, 0), mux.iopls(), mux.tick(), mux.dob(), mux.doc(),
             mux.dia()[0], mux.start(), mux.dias()[0]]
    if any(codes):
        return False
    input_done(mux)
    output_done(mux)
    return mux.sweep(1)[0] == mux.reset() == mux.doc() == 0


def test_such_a_base_is_unsound_in_a_mighty_mux():
    for b, base in SMALL_BASES:
        for runs in (1, 0):
            mux = mighty(b, 8, 256, status=5, irq=1, fill=3, stack=words(40), runs=runs)
            mux.record.base = base
            assert refuses_everything(mux)
            mux.record.kind = EDS_8                     # sound with the other kind
            assert takes_everything(mux)
            mux.record.kind = MIGHTY_MUX
            assert refuses_everything(mux)
            mux.record.base = base // 256 * 256         # and with a multiple of octal 400
            assert takes_everything(mux)
            assert all(mux.reached[f'{call} refused 6 for the base of a Mighty Mux alone'] for call in mux2.CALLS)


def test_a_poked_kind_at_such_a_base():
    for b in mux2.BLOCKS:
        for base in (0, 256, 512, 768, 32512, *[base for of, base in SMALL_BASES if of == b]):
            mux = unit(b, 8, base)                      # an EDS-8
            assert takes_everything(mux)
            mux.record.kind = MIGHTY_MUX
            assert takes_everything(mux) if base % 256 == 0 else refuses_everything(mux)
            mux.record.kind = EDS_8
            assert takes_everything(mux)


def test_setup_reads_the_kind_that_it_is_given():
    for b, base in SMALL_BASES:
        for of_unit in KINDS_OF_UNIT:
            mux = unit(b, 8, 256, kind=of_unit)
            input_done(mux)
            before = {**vars(mux.record), 'port': list(mux.record.port)}
            for kind in (MIGHTY_MUX, EDS_8, MIGHTY_MUX):
                code, made = mux.setup(b, 8, base, SET_1974, kind)
                assert code == (12 if kind == MIGHTY_MUX else 0) and vars(mux.record) == before
                assert vars(made) == vars(mux2.Record()) if code else (made.base, made.kind) == (base, EDS_8)


def test_session_of_the_bases_of_a_mighty_mux():
    author, reached = sessions.mighty_bases_session()
    assert author.kind == sessions.OF_THE_BASES and author.calls < 8000
    assert [branch for branch in mux2.BASE_BRANCHES if not reached[branch]] == []
    kind, seen = EDS_8, {}
    for order in author.orders:
        if order[0] == drive.KIND:
            kind = order[1]
        elif order[0] == drive.SETUP:
            seen.setdefault((kind, order[1], order[4]), set()).add(order[1:4])
    for b in mux2.BLOCKS:
        for of_unit in KINDS_OF_UNIT:
            settings_seen = seen[of_unit, b, 0] | seen[of_unit, b, 1]
            assert {base for _, _, base in settings_seen} >= {0, 64, 128, 192, 256, 257, 320, 384, 512, 32512, 32704, 32767, 32768,
                                                              32832, 33024, 2147483648, 4294967040, 4294967295}
            assert {ports for _, ports, _ in settings_seen} >= {0, 1, 8, 96, 97, 128, 129, 4294967295}
        rows = {tuple(rows_of_a_mighty_mux(*setting)) for setting in seen[MIGHTY_MUX, b, 0] & seen[MIGHTY_MUX, b, 1]}
        assert rows >= {(11,), (4,), (2,), (11, 4), (2, 11), (2, 4), (3, 12), (3, 12, 4), (3, 11, 12), (2, 3, 12)}
        assert b == 32 or rows >= {(12,), (12, 4), (11, 12), (11, 12, 4), (2, 12), (2, 11, 12)}
    for b in sessions.OTHER_BLOCKS:
        rows = {tuple(rows_of_a_mighty_mux(*setting)) for setting in seen[MIGHTY_MUX, b, 0]}
        assert rows >= {(1,), (1, 3, 12), (1, 12), (1, 11, 12), (1, 2, 12), (1, 11)}


def test_wrong_bases_fail():
    found = {name: texts for name, *texts in mutants.BASE_MUTANTS}

    def named(pattern):
        return [name for name in found if re.search(pattern, name)]

    for check, names in (
            (test_bases_of_a_mighty_mux, [
                '12 for both kinds', '12 never', '12 for an EDS-8 alone', *named('^12 by (octal|decimal|hexa|8b|the base|half)'),
                *named('^12 only (above|below|in|elsewhere)'), *named('^12 also (at|in)'),
                *named('^12 given as'), '12 asked after 4', '12 asked before 11', '12 asked before 3', '3 stricter for a Mighty Mux',
                '12 by the end of the area', '12 by the last block', 'such a base lowered', 'such a unit set up as an EDS-8',
                '12 given for 3', '12 given for 4', '12 given for 11', '12 given for 3, in blocks of 32',
                *named('^setup takes every unit for (an EDS-8|a Mighty Mux|the other kind)$')]),
            (test_order_of_12, [
                *named('^12 asked'), '11 asked after 12 and 4', *named('^12 given for [0-9]+$'), *named('^12 not before 4'),
                *named('not asked of a Mighty'), *named('^(2|11|4) of a Mighty Mux'), '12 given as 3', '12 given as 11',
                '11 and 12 exchanged', '12 only of one port', '12 only of more ports than one', '12 only of fewer ports than 128',
                '12 also of more ports than 64']),
            (test_an_eds_8_answers_as_before, [
                '12 for both kinds', '12 for an EDS-8 alone', 'setup takes every unit for a Mighty Mux',
                'soundness takes every record for a Mighty Mux', '12 given for 3, of an EDS-8',
                'dia refused of an EDS-8 at such a base']),
            (test_such_a_base_is_unsound_in_a_mighty_mux, [
                '12 never', *named('^soundness (forgets|takes|refuses|by)'), *named('^12 of a record asked'),
                *named('accepted of a Mighty Mux at such'), 'base lowered by a refused call', 'EDS-8 made by a refused call']),
            (test_a_poked_kind_at_such_a_base, [
                '12 never', '12 for both kinds', '12 for an EDS-8 alone', 'soundness takes every record for an EDS-8',
                'soundness takes every record for a Mighty Mux', 'soundness asks the kind of the last setup',
                '12 also at 768', '12 by octal 1000', *named('refused of an EDS-8 at such')]),
            (test_setup_reads_the_kind_that_it_is_given, [
                *named('^setup takes every unit'), *named('^12 (gives|makes|stops|empties|moves)'), 'such a base raised'])):
        assert names
        for name in names:
            assert failing(check, mutants.program(*found[name])), (check.__name__, name)


# Document 02, K10.

# Setup's rows before K10, for these comparisons alone: 5 stood last.
ROWS_WITH_5 = {
    1: lambda b, ports, base: b not in (8, 16, 32),
    2: lambda b, ports, base: not 1 <= ports <= 128,
    3: lambda b, ports, base: base % (8 * b) > 0,
    11: lambda b, ports, base: base >= 32768,
    4: lambda b, ports, base: base // (128 * b) != (base + ports * b - 1) // (128 * b),
    5: lambda b, ports, base: base + ports * b > 32768,
}


def first_row(b, ports, base, left_out=()):
    """The number of the first of these rows that applies, some rows being left out."""
    for number, applies in ROWS_WITH_5.items():
        if number not in left_out and applies(b, ports, base):
            return number
    return 0


class WithRow5(Mux2):
    """The second program with row 5 as it was."""

    def setup_refusal(self, b, ports, base, kind):
        return first_row(b, ports, base)


def areas():
    """The settings above, and then every one that rows 1, 2, 3 and 11 let pass."""
    yield from settings()
    for b in (8, 16, 32):
        for base in range(0, 32768, 8 * b):
            for ports in range(1, 129):
                yield b, ports, base


def test_area_ends_inside_the_memory():
    mux, whole = Mux2(), set()
    for b, ports, base in areas():
        if mux.setup(b, ports, base)[0] == 0:
            end = base + ports * b
            assert end <= 32768
            whole |= {(b, ports)} if end == 32768 else set()
    assert whole == {(b, ports) for b in (8, 16, 32) for ports in range(8, 129, 8)}


def test_setup_answers_as_with_row_5():
    old, new = WithRow5(), Mux2()
    for setting in areas():
        code, record = new.setup(*setting)
        old_code, old_record = old.setup(*setting)
        assert code == old_code and vars(record) == vars(old_record)
        for mux in (old, new):
            mux.record.block, mux.record.ports, mux.record.base = setting
        assert old.dia() == new.dia() == ((6, 0) if code else (0, 0))


def test_5_is_no_number():
    assert {code for codes in mux2.REFUSALS.values() for code in codes} == {1, 2, 3, 11, 12, 4, 6, 7, 8, 9, 10}
    # `hit` fails at a branch that is not listed.
    assert not [branch for branch in mux2.BRANCHES if re.search(r'(refused|gives) 5\b', branch)]
    mux = Mux2()
    assert {mux.setup(*setting)[0] for setting in areas()} == {0, 1, 2, 3, 11, 4}
    written = [sessions.write_session(sessions.SEED, number)[0] for number in range(len(sessions.KINDS))]
    for author in [sessions.bases_session()[0], *written]:
        answers = [[int(word) for word in line.split()[:2]] for line in author.printed]
        assert not [op for op, code in answers if op in drive.CALLS and code == 5]


def test_rows_that_keep_the_area_inside():
    for number, setting in ((11, (8, 1, 32768)), (4, (8, 9, 32704)), (1, (24, 128, 30720))):
        assert setup_code(*setting) == first_row(*setting) == number
        assert first_row(*setting, left_out=(number, 5)) == 0 and first_row(*setting, left_out=(number,)) == 5
    needless = {2: 0, 3: 0}                             # the area ends inside without these rows as well
    near = [(b, ports, base) for b in (8, 16, 32) for ports in range(140) for base in range(28600, 32800, 31)]
    for setting in [*settings(), *near]:
        rest, number = first_row(*setting, left_out=(2, 3)), first_row(*setting)
        assert rest != 5
        if rest == 0 and number:
            needless[number] += 1
    assert min(needless.values()) > 400                 # of wrong ports only 0 passes the rest: above 128 the area crosses


def test_wrong_ends_fail():
    found = {name: (old, new) for name, old, new in mutants.MUTANTS}
    for check, names in (
            (test_area_ends_inside_the_memory, (
                '11 left out', '11 only above 32768', '11 for a base cut to 16 bits', 'area may cross',
                'area may end past the memory', 'area may end one port past the memory',
                'area that ends with the memory refused with 4', '5 asked, one word too strict')),
            (test_setup_answers_as_with_row_5, (
                '11 left out', '11 given as 5', '4 given as 5', '5 asked before 4', '5 asked before 11',
                '5 asked after 4, 11 left out', '5 asked, one word too strict', '11 by the end of the area',
                'soundness refuses an area that ends with the memory', 'soundness forgets row 11',
                'soundness forgets row 4 past the memory'))):
        for name in names:
            assert failing(check, mutants.program(*found[name])), name


def test_last_block_of_memory():
    for b in mux2.BLOCKS:
        for ports in range(8, 129, 8):
            mux = unit(b, ports, 32768 - ports * b)
            mux.record.pos = p = ports - 1
            mux.arrival(p, 65, 0, 0)
            assert mux.inspect() == (0, Answer(INPUT, p, 0, 0, 1)) and mux.dias() == (0, 0o20000 + 127 * 32)
            mux.record.pos = p
            mux.host_write(32768 - b + 1, 0o60102)
            assert mux.inspect() == (0, Answer(OUTPUT, p, 1, 66, 1)) and mux.dias() == (0, 0o10000 + 127 * 32)
            words = {address: mux.memory.word(address) for address in range(mux2.ROOM)}
            assert {address: word for address, word in words.items() if word} == {
                32768 - b: 0o100101, 32768 - b + 1: 0o160102}


def test_session_of_the_last_bases():
    author, reached = sessions.bases_session()
    setups = {order[1:4] for order in author.orders if order[0] == drive.SETUP}
    for b in mux2.BLOCKS:
        for ports in range(8, 129, 8):
            assert {(b, ports, 32768 - ports * b), (b, ports + 1, 32768 - ports * b)} <= setups
        assert reached[f'setup accepted, b {b}: area ends at 32768'] >= 16
        assert reached[f'setup refused 4, b {b}: area would end past 32768'] >= 15     # 129 ports give 2
        assert reached[f'input: in the last block of memory, b {b}'] == 2 * 16
        assert reached[f'output: in the last block of memory, b {b}'] == 4 * 16


# The caretakers' program.

def test_settings_answers():
    please = ['please type three decimal numbers below 4294967296: block size, ports, base; then m for a Mighty Mux']
    for typed in ('8 1 64', ' 008  1 0064 ', '32 120 256', '8 8 32704', '0' * 9999 + '8 1 0', '8\t1\r64', '8 1 64\r',
                  '\t8 1 64', '\r8 1 64', '\r\t 8\t\t1 \r 64 \t\r'):
        assert settings2.answer(typed) == ['accepted']
    for typed in ('', ' ', '\t', '\r', ' \t\r', '8 1', '8\t1\r', '8 1 64 0', '8 1 6\t4', '8 1\v64', '8 1 64\f',
                  '\b8 1 64', '8 1 64\n', '\x0e8 1 64', '8\x851 64', '8 1 64\xa0', '8 1 64\0', '8 1 +64',
                  '8 1 4294967296', '8 1 \u0668', '8 1 ' + '9' * 9999, '18446744073709551624 1 64'):
        assert settings2.answer(typed) == please
    for typed, code, advice in (
            ('7 0 0', 1, '32 1 0'), ('7 200 4294967295', 1, '32 128 28672'), ('8 0 64', 2, '8 1 64'),
            ('8 129 64', 2, '8 128 0'), ('8 8 32', 3, '8 8 0'), ('8 1 32767', 3, '8 1 32704'),
            ('8 1 32768', 11, '8 1 32704'), ('16 8 4294967168', 11, '16 8 32640'), ('8 9 32768', 11, '8 9 32640'),
            ('32 33 15360', 4, '32 33 15104'), ('32 121 256', 4, '32 121 0'), ('8 121 64', 4, '8 121 0'),
            ('8 9 960', 4, '8 9 896'), ('16 100 2047', 3, '16 100 384'), ('\t8\r0\t64\r', 2, '8 1 64')):
        assert settings2.answer(typed) == [f'refused, {code}:', f'type instead: {advice}']


def test_settings_answers_for_a_mighty_mux():
    for typed in ('8 8 256 m', '8 8 256m', '8 8 256 m ', '\t8\r8 0256\tm\r', '8 8 256' + ' ' * 999 + 'm', '8 96 256 m', '8 128 0m',
                  '16 8 256 m', '32 120 256 m', '32 32 15360 m', '8 32 32512 m', '8 8 64', '16 8 128', '8 8 256'):
        assert settings2.answer(typed) == ['accepted']
    for typed in ('m 8 8 256', '8 m 8 256', '8 8 m 256', '8 8 256 m 5', '8 8 256m5', '8 8 256 mm', '8 8 256 m m', '8 8 256 M',
                  '8 8 m', 'm', '8m 8 256', '8 8 256 n', '8 8 256 l', '8 8 256 \xed', '8 8 256 -m', '8 8 256\vm', '8 8 256 m\n',
                  '8 8 256 m\0',
                  '8 8 4294967296 m', '4294967304 8 256m', 'mm', '8 8 2m56', '8 8 256 \uff4d'):
        assert settings2.answer(typed) == [settings2.PLEASE]
    for typed, code, advice in (
            ('8 8 64 m', 12, '8 8 0'), ('16 8 128m', 12, '16 8 0'), ('8 8 320 m', 12, '8 8 256'), ('8 121 64 m', 12, '8 121 0'),
            ('8 97 320 m', 12, '8 97 0'), ('16 8 32640 m', 12, '16 8 32512'), ('8 1 32704 m', 12, '8 1 32512'),
            ('8 97 256 m', 4, '8 97 0'), ('32 33 15360 m', 4, '32 33 15104'), ('16 113 256 m', 4, '16 113 0'),
            ('8 8 32 m', 3, '8 8 0'), ('8 8 300 m', 3, '8 8 256'), ('16 8 320m', 3, '16 8 256'), ('32 8 300 m', 3, '32 8 256'),
            ('8 8 32832 m', 11, '8 8 32512'), ('8 33 4294967040 m', 11, '8 33 32256'), ('8 0 64 m', 2, '8 1 0'),
            ('8 129 1000 m', 2, '8 128 0'), ('7 0 56 m', 1, '32 1 0'), ('7 200 4294967295\tm\r', 1, '32 128 28672'),
            ('24 8 32704 m', 1, '32 8 32512')):
        assert settings2.answer(typed) == [f'refused, {code}:', f'type instead: {advice} m']


def test_settings_advice():
    refused = Mux2().setup_refusal
    for kind in KINDS_OF_UNIT:
        for b in mux2.BLOCKS:
            for ports in (1, 8, 9, 33, 100, 121, 128):
                taken = [a for a in range(32768) if refused(b, ports, a, kind) == 0]
                for base in (*settings2.edges(b), *settings2.mighty_edges(b), *range(0, 33000, 4 * b)):
                    below = taken[bisect.bisect_right(taken, base) - 1]
                    assert settings2.mended_base(b, ports, base, kind)[0] == below
    ways = [settings2.mended_base(8, *asked)[1] for asked in ((8, 64), (8, 65), (8, 32768), (9, 960), (9, 32768))]
    assert ways == list(settings2.WAYS)
    asked = ((8, 256), (8, 320), (8, 32768), (33, 768), (33, 32768))
    assert [settings2.mended_base(8, *each, MIGHTY_MUX)[1] for each in asked] == list(settings2.WAYS)


# A page with a sentence for each number, one of them with a colon.
TOLD = settings2.sentences('\n'.join(f'     {n}   sentence {n}: its own\n         an example\n' for n in mux2.SETUP_ROWS))


def printed(text):
    """What a right program prints for a typed text."""
    return [settings2.full(line, TOLD) for typed in settings2.answered_lines(text) for line in settings2.answer(typed)]


def test_settings_sentences():
    assert TOLD == {str(n): f'sentence {n}: its own' for n in mux2.SETUP_ROWS}
    assert settings2.full('refused, 11:', TOLD) == 'refused, 11: sentence 11: its own'
    for line in ('accepted', settings2.PLEASE, 'type instead: 8 1 64', 'type instead: 8 1 256 m'):
        assert settings2.full(line, TOLD) == line


def test_settings_lines():
    for text, lines in (('', []), (' ', []), (' \t\r', []), ('\n', ['']), ('\n\n', ['', '']), (' \n\t', [' ']),
                        ('\r\n\r', ['\r']), ('8 1\n', ['8 1']), ('8 1', ['8 1']), ('8 1\n8 ', ['8 1', '8 ']),
                        ('8 1 64\r\n8 1 65\r', ['8 1 64\r', '8 1 65\r']), ('\v', ['\v']), ('\n\xa0', ['', '\xa0'])):
        assert settings2.answered_lines(text) == lines


def wrong_patterns():
    """What a program may read instead: wrong about the blanks in one place alone, or about the letter."""
    for place, count in enumerate('*++**'):
        wrong = [f'[{signs}]{count}' for signs in (
            r' ', r' \t', r' \r', r'\t\r', r' \b\t\r', r' \t\r\v', r' \t\r\f', r' \t\r\x0e', r' \x1f\t\r', r' !\t\r',
            r' \t\r\x89', r' \t\r\x8d', r'\s', r'\0- ')]
        wrong += [f'(?: {count}|\t{count}|\r{count})', f'[ \t]{count}\r?', '[ \t\r]?' if count == '*' else '[ \t\r]']
        for blanks in wrong:
            parts = [f'[ \t\r]{each}' for each in '*++**']
            parts[place] = blanks
            yield '([0-9]+)'.join(parts[:4]) + f'(?:m{parts[4]})?'
    blanks, digits = '[ \t\r]*', '[0-9]+'
    first = f'{blanks}{digits}[ \t\r]+{digits}[ \t\r]+'
    for letter in ('', '[ \t\r]+m', 'm', ' ?m', *(blanks + wrong for wrong in (
            '[mM]', '[lm]', '[mn]', '[m\xed]', '[-m]', '[a-z]', 'mm?', f'm{blanks}m?', 'm[0-9]*', f'm{blanks}[0-9]*', 'm[^m]*', 'm.*',
            'm[a-z]*', '0?m'))):
        yield f'{first}{digits}(?:{letter})?{blanks}'
    yield f'{first}{digits}{blanks}m{blanks}'           # the letter needed, or in another place as well
    yield f'{first}(?:{digits}|m){blanks}(?:m{blanks})?'
    for place in range(3):
        words = [f'(?:m{blanks})?{digits}' if at == place else digits for at in range(3)]
        yield blanks + '[ \t\r]+'.join(words) + f'{blanks}(?:m{blanks})?'


def test_settings_text_tells_lines():
    lines = settings2.answered_lines(settings2.fixed_text())
    for pattern in map(re.compile, wrong_patterns()):
        assert any(bool(pattern.fullmatch(line)) != bool(settings2.TYPED.fullmatch(line)) for line in lines), pattern


def test_settings_text_reaches_the_end_of_memory():
    lines = settings2.answered_lines(settings2.fixed_text())
    typed = [setting for setting in map(settings2.setting, lines) if setting]
    ends = {(kind, settings2.refusal(b, ports, base, kind), b, base + ports * b) for b, ports, base, kind in typed}
    for kind in KINDS_OF_UNIT:
        for b in mux2.BLOCKS:
            assert (kind, 0, b, 32768) in ends and (kind, 4, b, 32768 + b) in ends


def wrong_kinds():
    """Wrong readings of the letter, as functions that give the kinds of a list of settings from the right ones."""
    yield lambda kinds: [EDS_8] * len(kinds)
    yield lambda kinds: [MIGHTY_MUX] * len(kinds)
    yield lambda kinds: [1 - kind for kind in kinds]
    yield lambda kinds: [EDS_8, *kinds[:-1]]            # the letter of the line before
    yield lambda kinds: [max(kinds[:number + 1]) for number in range(len(kinds))]       # it stays once typed
    yield lambda kinds: [max(kinds[max(number - 1, 0):number + 1]) for number in range(len(kinds))]     # for one more line


def test_settings_text_tells_kinds():
    typed = [setting for setting in map(settings2.setting, settings2.answered_lines(settings2.fixed_text())) if setting]
    right = [settings2.refusal(*setting) for setting in typed]
    for wrong in wrong_kinds():
        kinds = wrong([kind for *_, kind in typed])
        assert [settings2.refusal(*numbers, kind) for (*numbers, _), kind in zip(typed, kinds)] != right
    answers = {(b, ports, base, kind): settings2.refusal(b, ports, base, kind) for b, ports, base, kind in typed}
    both = [(answers[b, ports, base, EDS_8], code) for (b, ports, base, kind), code in answers.items()
            if kind == MIGHTY_MUX and (b, ports, base, EDS_8) in answers]
    assert {(0, 0), (0, 12), (4, 12), (4, 4), (3, 3), (11, 11), (2, 2), (1, 1)} == set(both)


def test_settings_check():
    text = settings2.fixed_text()
    right = printed(text)

    def agrees(lines, end='\n'):
        return settings2.check(text, '\n'.join(lines) + end, TOLD)[0]

    def wrong(old, new, lines=1):
        at = next(number for number, line in enumerate(right) if line.startswith(old))
        return right[:at] + new + right[at + lines:]

    assert 6000 < text.count('\n') < 8000 and agrees(right)
    assert {'32 33 15360', '8 121 64', '8 9 960', '16 100 2047', '8\t1 64', '8 1 64\r', '', '8 8 64 m', '8 8 256m', '8 8 256\tm\r',
            '8 8 256 M', '8 8 m 256'} <= set(text.split('\n'))
    assert text.endswith('\n8 1 65') and right[-2:] == printed('8 1 65\n')
    advice = next(line for line in right if re.fullmatch('type instead: 8 [0-9]+ [0-9]+', line))
    for_mighty = next(line for line in right if re.fullmatch('type instead: 8 [0-9]+ 256 m', line))
    for lines in (wrong('refused, 11:', printed('8 1 1\n')[:1]), wrong('refused, 3:', printed('8 1 32768\n')[:1]),
                  wrong('refused, 11:', ['refused, 11: ' + TOLD['3']]), wrong('refused, 3:', ['refused, 3: ' + TOLD['11']]),
                  wrong('refused, 4:', ['refused, 5: ' + TOLD['4']]), wrong('refused, 11:', ['refused, 5: ' + TOLD['11']]),
                  wrong('refused, 1:', ['refused, 1']),
                  wrong('refused, 1:', ['refused, 1: ']), wrong('refused, 2:', []), wrong('refused, 2:', printed('8 0 64\n')[:1] * 2),
                  wrong(advice, ['type instead: 8 1 32767']), wrong(advice, ['type instead: 16 1 0']),
                  wrong(advice, [advice.replace('8', '08', 1)]), wrong(advice, []), wrong(advice, [advice] * 2),
                  wrong('type instead: 32 33 15104', ['type instead: 32 33 12288']),
                  wrong('type instead: 16 100 384', ['type instead: 16 100 256']),
                  wrong('accepted', ['please']), wrong('accepted', []), wrong('accepted', ['accepted', advice]),
                  wrong('please', ['accepted']), wrong('please', []), wrong('please', [settings2.PLEASE + ' ']),
                  wrong('please', ['please type three numbers: block size, ports, base']),
                  wrong('please', ['please type three decimal numbers below 4294967296: block size, ports, base']),
                  wrong('refused, 12:', ['refused, 12: ' + TOLD['3']]), wrong('refused, 12:', ['refused, 3: ' + TOLD['3']]),
                  wrong('refused, 12:', ['refused, 12: None']), wrong('refused, 12:', ['accepted'], 2),
                  *[wrong(for_mighty, new) for new in (
                      [], [for_mighty[:-2]], [for_mighty[:-2] + 'm'], [for_mighty + ' '], [for_mighty.replace('256', '0')],
                      [for_mighty.replace('256', '64')], [for_mighty.replace('m', 'M')])],
                  right[:right.index(advice)] + [advice + ' m'] + right[right.index(advice) + 1:],
                  right[:-1], right[:-2], right + ['accepted'], right + [settings2.PLEASE],
                  right + printed('8 1 65\n'), right + [''], right[1:], []):
        assert not agrees(lines)
    assert not agrees(right, end='') and not agrees(right, end='\n\n')
    assert 'told to type with 3' in settings2.check(text, '\n'.join(wrong(advice, ['type instead: 8 1 1'])), TOLD)[1]
    assert 'told to type with 12' in settings2.check(text, '\n'.join(wrong(for_mighty, ['type instead: 8 1 64 m'])), TOLD)[1]


def test_settings_kinds():
    typed = settings2.answered_lines(settings2.fixed_text())
    kinds = {line: settings2.answer_and_kinds(line)[1] for line in typed}
    for missing in settings2.KINDS:
        text = ''.join(line + '\n' for line in typed if missing not in kinds[line])
        agrees, said = settings2.check(text, ''.join(line + '\n' for line in printed(text)), TOLD)
        assert not agrees and f'never reached: {missing}' in said


def test_settings_short_texts():
    accepted, please = 'accepted\n', settings2.PLEASE + '\n'
    refused = f'refused, 4: {TOLD["4"]}\ntype instead: 8 121 0\n'
    by_12 = f'refused, 12: {TOLD["12"]}\ntype instead: 8 8 0 m\n'
    wanted = ('', '', '', accepted, refused, please, please, accepted, accepted,
              accepted, accepted, accepted, accepted, by_12, please, please, please, accepted, accepted * 2, accepted)
    assert len(settings2.SHORT_TEXTS) == len(set(settings2.SHORT_TEXTS)) == len(wanted)
    assert f'there are: {len(wanted)}, with the numbers 0 to {len(wanted) - 1}\n' in settings2.__doc__
    for text, lines in zip(settings2.SHORT_TEXTS, wanted):
        assert settings2.check(text, lines, TOLD, some=True)[0] and not settings2.check(text, lines, TOLD)[0]
        for wrong in {'', accepted, refused, please, by_12, lines + please, lines + accepted, lines[:-1] or '\n'} - {lines}:
            assert not settings2.check(text, wrong, TOLD, some=True)[0]


# The hobbyist's program.

WORKED = ['124 in 7 bits, even parity, 1 stop', 'mark        --------------', 'space ------              ',
          '      S 0 1 2 3 4 5 6 P T ']


def answer(line):
    return picture2.answer_and_kinds(line)[0]


def test_pictures():
    assert answer('7 2 2 124') == WORKED
    assert answer('5 0 3 31') == ['31 in 5 bits, no parity, 1.5 stops', 'mark    -------------', 'space --             ',
                                  '      S 0 1 2 3 4 T T']
    assert answer('8 1 4 0') == ['0 in 8 bits, odd parity, 2 stops', 'mark                    ------',
                                 'space ------------------      ', '      S 0 1 2 3 4 5 6 7 P T T ']
    assert answer('6 0 2 255') == ['255 in 6 bits, no parity, 1 stop', 'mark    --------------', 'space --              ',
                                   '      S 0 1 2 3 4 5 T ']
    for form in EVERY_FORM:
        for byte in SOME_BYTES:
            title, marks, spaces, below = answer(' '.join(map(str, (*form, byte))))
            assert title.startswith(f'{byte} in {form[0]} bits, ') and below[:7] == '      S'
            assert [int(sign == '-') for sign in marks[6:]] == [int(sign == ' ') for sign in spaces[6:]] == frame_of(form, byte)
            assert (marks[:6], spaces[:6], below[:6]) == ('mark  ', 'space ', '      ') and len(below) == len(marks)
            signs = 'S' + '01234567'[:form[0]] + 'P' * (form[1] > 0) + 'T' * (form[2] - form[2] // 2)
            assert below[6::2] == signs and set(below[7::2]) == {' '}


def test_picture_lines():
    for line in ('7 2 2 124', '7 2 2 124 ', '7 2 2 124 9', '7 2 2 124\r', '7\t2\t2\t124', '7,2,2,124', '07 02 002 0124',
                 '4294967303 2 2 124', '7 4294967298 4294967298 4294967420', '18446744073709551623 2 2 124', '7x2y2z124',
                 '7 2 2 124-5', '7 2 2 124 x y', '0' * 9999 + '7 2 2 124', '7\x802\xff2\x00124'):
        assert answer(line) == WORKED
    for line, same in (('7 2 2 ', '7 2 2 0'), ('7  2 124', '7 0 2 124'), ('8  4 ', '8 0 4 0'), ('7 2 2 -5', '7 2 2 0'),
                       ('7 2 2 12.4', '7 2 2 12'), ('8 0 4 \t', '8 0 4 0'), ('7 2 2,', '7 2 2 0'), ('7.0 2 2 124', '7 0 2 2')):
        assert answer(line) == answer(same) and len(answer(line)) == 4
    for line in ('', ' ', '   ', '7', '7 2', '7 2 2', '124', ' 7 2 2 124', '-7 2 2 124', '7 2  124', '4 2 2 124', '9 2 2 124',
                 '7 3 2 124', '7 2 1 124', '7 2 5 124', '7 2 2 256', '7 2 2 4294967295', '7 2 2 4294967552', '7 22 124',
                 '263 2 2 124'):
        assert answer(line) == [picture2.PLEASE]
    assert picture2.PLEASE == ('please type data bits (5 to 8), parity (0 none, 1 odd, 2 even), stop cells (2, 3 or 4) and a '
                               'character (0 to 255)')
    for text, lines in (('', []), (' ', [' ']), ('\n', ['']), ('\n\n', ['', '']), ('7\n', ['7']), ('7', ['7']),
                        ('7\n2', ['7', '2']), ('7 2 2 124\r\n5 0 3 31\r', ['7 2 2 124\r', '5 0 3 31\r'])):
        assert picture2.answered_lines(text) == lines


def wrong_numbers():
    """Wrong readings of a line, as functions from it to its numbers."""
    def split(pattern, cut):
        return lambda line: [cut(digits) for digits in re.split(pattern, line)]

    for pattern in ('[^0-9]+', '[ \t]', '[ \r]', ' ', '[^0-9A-Za-z]', r'[^0-9\0]', '[^0-9\x80-\xff]', '[^0-9-]', '[^0-9.]',
                    '[^0-9,]', r'[^0-9\t]', r'[^0-9\r]'):
        yield split(pattern, lambda digits: picture2.number(re.sub('[^0-9]', '', digits)))
    for cut in (lambda digits: int(digits[-4000:] or 0), lambda digits: min(int(digits[-4000:] or 0), 2 ** 32 - 1),
                lambda digits: int(digits[-10:] or 0) % 2 ** 32, lambda digits: int(digits[:10] or 0) % 2 ** 32,
                lambda digits: picture2.number(digits) % 256, lambda digits: picture2.number(digits) % 65536,
                lambda digits: picture2.number(digits) % 2 ** 31, lambda digits: int(digits[-4000:] or 0) % 2 ** 64,
                lambda digits: int(digits, 8) if re.fullmatch('0[0-7]+', digits) else picture2.number(digits)):
        yield split('[^0-9]', cut)
    yield lambda line: [picture2.number(digits) for digits in picture2.words(line.strip())]
    yield lambda line: [picture2.number(digits) for digits in picture2.words(line.rstrip())]
    yield lambda line: [picture2.number(digits) for digits in picture2.words(line) if digits]
    yield lambda line: [picture2.number(digits) for digits in picture2.words(line)][-4:]


def test_picture_text_tells_lines():
    def pictured(numbers):
        right = len(numbers) > 3 and all(value in allowed for value, allowed in zip(numbers, picture2.RANGES.values()))
        return tuple(numbers[:4]) if right else None

    lines = picture2.answered_lines(picture2.fixed_text())
    typed = [picture2.typed(line)[0] for line in lines]
    right = list(map(pictured, typed))
    for wrong in wrong_numbers():
        assert [pictured(wrong(line)) for line in lines] != right
    for at, allowed in enumerate(picture2.RANGES.values()):     # a range that is one too wide or too narrow
        seen = {numbers[at] for numbers in typed
                if len(numbers) == 4 and pictured(numbers[:at] + [allowed[0]] + numbers[at + 1:])}
        assert seen >= {value for value in (allowed[0] - 1, allowed[0], allowed[-1], allowed[-1] + 1) if value >= 0}


def test_picture_check():
    text = picture2.fixed_text()
    right = picture2.printed(text).split('\n')[:-1]

    def agrees(lines, end='\n'):
        return picture2.check(text, '\n'.join(lines) + end)[0]

    def wrong(old, new):
        at = next(number for number, line in enumerate(right) if line.startswith(old))
        return right[:at] + new + right[at + 1:]

    assert 550 < text.count('\n') < 650 and agrees(right) and text.endswith('\n5 0 3 31') and right[-4:] == answer('5 0 3 31')
    below = '      S 0 1 2 3 4 5 6 P T '
    for lines in (wrong('please', []), wrong('please', [picture2.PLEASE + ' ']), wrong('please', WORKED), wrong('mark', ['mark']),
                  wrong(WORKED[0], [WORKED[0] + 's']), wrong(WORKED[0], ['0' + WORKED[0]]), wrong(WORKED[1], [WORKED[1] + ' ']),
                  wrong(WORKED[1], [WORKED[2]]), wrong('space --', [WORKED[2].rstrip()]), wrong(below, [below[:-1]]),
                  wrong(below, [below.replace('P', 'p')]), wrong(below, [below.replace('T', 'E')]), wrong(below, []),
                  right[1:], right[:-1], right + [''], right + [picture2.PLEASE], right + WORKED, []):
        assert lines != right and not agrees(lines)
    assert not agrees(right, end='') and not agrees(right, end='\n\n')


def test_picture_kinds():
    typed = picture2.answered_lines(picture2.fixed_text())
    kinds = {line: picture2.answer_and_kinds(line)[1] for line in typed}
    for missing in picture2.KINDS:
        text = ''.join(line + '\n' for line in typed if missing not in kinds[line])
        agrees, said = picture2.check(text, picture2.printed(text))
        assert not agrees and f'never reached: {missing}' in said


def test_picture_short_texts():
    please, worked, other = picture2.PLEASE + '\n', ''.join(line + '\n' for line in WORKED), picture2.printed('5 0 3 31\n')
    zero = picture2.printed('7 2 2 0\n')
    wanted = ('', please, please * 2, please, please, worked, worked, worked + please, worked, worked, please, zero, please,
              please, worked + other, worked + please, worked + please, please * 2, worked + please, worked)
    assert len(picture2.SHORT_TEXTS) == len(set(picture2.SHORT_TEXTS)) == len(wanted)
    assert f'there are: {len(wanted)}, with the numbers 0 to {len(wanted) - 1}\n' in picture2.__doc__
    for text, lines in zip(picture2.SHORT_TEXTS, wanted):
        assert picture2.check(text, lines, some=True)[0] and not picture2.check(text, lines)[0]
        for wrong in {'', please, worked, zero, lines + please, lines + worked, lines[:-1] or '\n'} - {lines}:
            assert not picture2.check(text, wrong, some=True)[0]


def test_small_picture_text():
    text = picture2.SMALL_TEXT
    lines = picture2.answered_lines(text)
    met = {kind for line in lines for kind in picture2.answer_and_kinds(line)[1]}
    assert text.endswith('\n') and len(lines) < 20
    assert {kind for kind in picture2.KINDS if kind.startswith(('please', 'parity'))} <= met
    forms = {form for form in wire2.FORMS if wire2.said_of(form) in met}
    assert {form.bits for form in forms} == {5, 6, 7, 8} and {form.parity for form in forms} == {NONE, ODD, EVEN}
    assert {form.stops for form in forms} == {2, 3, 4}


# Errors that document 01 has seen.

def test_vertical_bar_is_reported_and_not_stored():
    mux = unit(ports=1)
    block(mux, icw=0o70000, ibp=2000, lib=2009)
    assert give(mux, 0, 0o174) == Answer(INPUT, 0, 0, 0, 1)
    assert block(mux)[::2] == [0o170374, 2000] and mux.memory.word(1000) == 0


def test_no_port_starves():
    mux = unit(ports=4)
    for p in range(4):
        mux.arrival(p, 65, 0, 0)
    served = []
    for _ in range(4):
        served.append(mux.inspect()[1].port)
        mux.arrival(0, 66, 0, 0)
    assert served == [0, 1, 2, 3]


def test_pointer_written_before_the_byte():
    mux = unit(ports=1)
    place = 2 * (64 + 4)                                # IBP's own left half
    block(mux, icw=0o40000, ibp=place - 1, lib=0)
    give(mux, 0, 0xee)
    assert block(mux)[2] == 0xee00 + place % 256


def test_replacement_is_marked():
    mux = unit(ports=1)
    for byte, brk, mark in ((1, 1, 0), (2, 0, 1), (3, 0, 1)):
        mux.arrival(0, byte, 0, brk)
        port = mux.record.port[0]
        assert (port.byte, port.brk, port.overload) == (byte, brk, mark)
    mux.inspect()
    assert block(mux)[0] == 0o100000 + 0o4000 + 3       # code 10, overload


# The decisions on open points.

def test_indone_already_set():
    mux = unit(ports=1)
    block(mux, icw=0o173000)                            # 7-bit ASCII, bits 5 and 6 as left
    assert give(mux, 0, 0o101, brk=1) == Answer(INPUT, 0, 0, 0, 0)
    assert block(mux)[0] == 0o177701 and mux.record.irq == 0


def test_mode_01_drops():
    mux = unit(ports=1)
    block(mux, icw=0o20000, ibp=5)
    assert give(mux, 0, 65) == Answer(INPUT, 0, 0, 0, 0)
    assert block(mux) == [0o20000, 0, 5, 0] and mux.record.port[0].held == 0


def test_echo():
    mux = unit(ports=1)
    block(mux, icw=0o70000, ibp=1999, lib=2001)
    assert give(mux, 0, 0o101) == Answer(INPUT, 0, 1, 0o101, 0)
    assert mux.memory.word(1000) == 0o301 * 256 and mux.record.port[0].empty == 0
    assert mux.inspect()[1] == Answer(IDLE, 0, 0, 0, 0)
    assert give(mux, 0, 0o102) == Answer(INPUT, 0, 0, 0, 1)
    assert block(mux)[0] == 0o170000 + 0o1000 + 0o302   # bit 6: not echoed


def test_parity_only_where_it_is_checked():
    for control, icw in ((0o60, 0o102101), (0o260, 0o100101)):
        mux = unit(ports=1, control=control)
        give(mux, 0, 0o101, parity=1)
        assert block(mux)[0] == icw


def test_stopped_and_refused_answers():
    mux = unit()
    mux.dob()
    assert mux.inspect() == (0, Answer(NOTHING, 0, 0, 0, 0))
    mux.memory.lent = 32767
    assert mux.inspect() == (7, Answer(NOTHING, 0, 0, 0, 0)) and mux.sweep(0) == (7, 0, 0)
    assert mux.arrival(8, 0, 0, 0) == 8
    mux.record.pos, mux.record.status = 8, 5
    assert mux.inspect()[0] == 6 and mux.arrival(8, 0, 0, 0) == 6
    assert mux.dias() == (6, 0) and mux.record.status == 5


def test_reset_keeps_lines_and_other_control_bits():
    mux = unit(control=0o377)
    mux.device_status(3, 1)
    mux.arrival(3, 65, 1, 1)
    mux.change(127, empty=0, level=0, control=mux2.BYTE_BITS[0o17])
    mux.reset()
    kept = mux2.FRESH_PORT._replace
    assert mux.record.port[3] == kept(control=mux2.BYTE_BITS[0o370], line=1)
    assert mux.record.port[127] == kept(control=mux2.BYTE_BITS[0o10])
    assert mux.record.runs == 0


# The manual.

def test_section_6_port_control_word():
    mux = unit(ports=1, control=0)
    mux.change(0, level=0)
    block(mux, ocw=0o50360)
    assert mux.inspect()[1] == Answer(OUTPUT, 0, 0, 0, 1)
    port = mux.record.port[0]
    assert block(mux)[1] == 0o150360 and port.level == 1 and port.empty == 1
    assert port.control == (1, 1, 1, 1, 0, 0, 0, 0)     # no parity, two stops, 8 bits, 110 baud


def test_appendix_b_with_the_line_down():
    mux = unit(ports=1, control=0)
    block(mux, ocw=0o40000)
    for _ in range(3):
        mux.inspect()
        assert block(mux)[:2] == [0, 0o140000]


def test_appendix_b_with_the_line_up():
    mux = unit(ports=1, control=0)
    mux.device_status(0, 1)
    block(mux, ocw=0o40000)
    assert mux.inspect()[1].raised == 1 and block(mux)[1] == 0o144400
    for _ in range(2):
        assert mux.inspect()[1].raised == 0 and block(mux)[1] == 0o146400


def test_appendix_b_all_ones():
    mux = unit(ports=1)
    give(mux, 0, 0o377)
    assert give(mux, 0, 0o377).raised == 0 and block(mux)[0] == 0o100777


def test_section_7_special_output():
    mux = unit(ports=1)
    mux.host_write(1000, 0o101 * 256 + 0o215)           # a letter, then return with its top bit
    block(mux, ocw=0o30240, obp=1999, lob=2009)
    assert mux.inspect()[1] == Answer(OUTPUT, 0, 1, 0o101, 0)
    mux.transmitted(0)
    assert mux.inspect()[1] == Answer(OUTPUT, 0, 1, 0o215, 1)
    assert block(mux)[1::2] == [0o130240, 2001]


# The text of a session.

def test_digests_are_those_of_the_format():
    author, _ = sessions.write_session(7, 0)
    driver = drive.Driver()
    for order in author.orders[:-1]:
        driver.drive(order)
        if order[0] == drive.DIGEST:
            mux = driver.mux
            u, memory = mux.record, mux.memory
            numbers = [getattr(u, field) for field in drive.FIELDS] + [*u.stack, *u.codes]
            for port in u.port:
                numbers += [*port[:6], mux2.BYTE_OF[port.control], *port[7:]]
            assert len(numbers) == 1331 and driver.record() == drive.digest(numbers)
            assert memory.digest() == drive.digest(map(memory.word, range(mux2.ROOM)))


def test_filled_memory():
    driver, x = drive.Driver(), 77
    driver.drive((drive.FILL, x))
    for address in range(mux2.ROOM):
        x = x * 48271 % 2147483647
        assert driver.mux.memory.word(address) == x // 16 % 65536


def test_orders_keep_the_format():
    word, number, port_field = 65535, 4294967295, [1, 255, 1, 1, 1, 1, 255, 1, 1]
    field = [number] * 4 + [1, 1, 1, word, 1, 1, number]
    most = {1: (number, number, number, 1), 2: (number, 255, 1, 1), 3: (number,), 4: (number, 1),
            13: (32760,), 14: (number, 32760), 15: (1,), 16: (39, word), 17: (511, number), 18: (2147483646, 256), 19: (512, 512),
            20: (39999, word), 21: (2147483646,), 22: (40000,), 23: (4200, word), 24: (10, number), 25: (127, 8, 255), 26: (255,),
            27: (127, 1), 28: (2,), 29: (127, 1), 32: (35, 255), 33: (35,), 34: (255,), 35: (number,)}
    written = [sessions.write_session(7, number)[0] for number in range(len(sessions.KINDS))]
    by_calls = [sessions.codes_session()[0], sessions.short_session()[0], session_of_the_sets()[0],
                sessions.small_sets_session()[0], sessions.stack_session()[0], sessions.kinds_session()[0]]
    pokes = (drive.POKE, drive.POKE_PORT, drive.POKE_STACK)
    assert not any(order[0] in pokes for author in by_calls for order in author.orders)
    by_pokes = [sessions.bases_session()[0], sessions.poked_session()[0], sessions.small_stack_session()[0],
                sessions.mighty_bases_session()[0], sessions.small_wire_session()[0],
                *(author for author, _ in sessions_of_the_wire())]
    for author in written + by_calls + by_pokes + [sessions.speeds_session()[0]]:
        for op, *rest in author.orders:
            limits = most.get(op, ())
            assert op in drive.NAMES and len(rest) == len(limits)
            assert all(type(x) is int and 0 <= x <= limit for x, limit in zip(rest, limits))
            assert op != drive.FILL_CELLS or min(rest) > 0
            assert op != drive.POKE or rest[1] <= field[rest[0]]
            assert op != drive.POKE_PORT or rest[2] <= port_field[rest[1]]


def test_whole_digests_are_near():
    for author in (sessions.write_session(7, 2)[0], sessions.mighty_bases_session()[0],
                   *(author for author, _ in sessions_of_the_wire())):
        since = 0
        for op, *_ in author.orders:
            since = 0 if op == drive.DIGEST else since + (op in drive.PRINTED)
            assert since <= 256


def test_small_session_has_every_order():
    orders = [order for part in small.parts() for order in part]
    assert {order[0] for order in orders} == set(drive.NAMES) and 1000 < len(orders) < 2000


def test_a_text_can_be_driven_again():
    for author, _ in (sessions.write_session(7, 1), sessions.small_wire_session(), sessions.wired_session(7, 1)):
        driver = drive.Driver()
        text = [' '.join(map(str, order)) for order in author.orders]
        again = [driver.drive([int(word) for word in line.split()]) for line in text]
        assert [line for line in again if line is not None] == author.printed
        assert compare.first_difference(text, author.printed, author.printed) is None
        for wrong in (author.printed[:-1], author.printed + ['0'],
                      author.printed[:50] + ['0'] + author.printed[51:]):
            assert compare.first_difference(text, author.printed, wrong)


def main():
    tests = {name: test for name, test in globals().items() if name.startswith('test_')}
    failed = 0
    for name, test in tests.items():
        try:
            test()
        except Exception:
            failed += 1
            print(f'{name} fails')
            traceback.print_exc()
    print(f'{len(tests) - failed} checks hold, {failed} fail')
    sys.exit(1 if failed else 0)


if __name__ == '__main__':
    main()
