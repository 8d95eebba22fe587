"""Wrong second programs, each with one error, that the fixed sessions must tell from the right one.

A mutant is mux2.py, or wire2.py, with one piece of its text replaced, seldom more. The test fails if a
mutant prints every line of the fixed set as the right program does. Those marked `seen` are the
errors that document 01 has seen other emulators make. Those of K3 must be told apart by the sessions
of the wire, those of K5 by the session of the sets, those of K6 by the sessions of the stack, those of
K7 by the session of the bases of a Mighty Mux, the others by the other sessions.

    mutants.py [--quiet]
"""

import pathlib
import sys
import time
import types

import drive
import mux2
import sessions

SOURCE, WIRE_SOURCE = (pathlib.Path(__file__).with_name(name).read_text() for name in ('mux2.py', 'wire2.py'))

# The line of mux2.py that holds each row of setup's table, by its number.
ROWS = {int(line.split(':')[0]): line for line in SOURCE.splitlines(keepends=True)
        if line.split(':')[0].strip().isdigit() and ': lambda b, ports, base, kind: ' in line}

# Row 11 where row 3, or 2 and 3, do not apply, so that it may stand above them and err in one pair of faults alone.
NOT_3 = "    11: lambda b, ports, base, kind: b and base % (8 * b) == 0 and base > 32767,\n"
NOT_2_3 = NOT_3.replace("b and", "b and 0 < ports <= 128 and")

# Document 01's row 5, which K10 takes out; the same one word too strict; the start of row 4, to put a further fault into.
ROW_5 = "    5: lambda b, ports, base, kind: base + ports * b > 32768,\n"
STRICT_5 = ROW_5.replace(">", ">=")
ROW_4 = "    4: lambda b, ports, base, kind: "

# The rule of a buffer's end (02, K2), and where input and output ask it.
ENDS, INPUT_ENDS, OUTPUT_ENDS = "return pointer + 1 >= end", "self.ends(ibp, lib)", "self.ends(obp, lob)"

# Wrong rules of a buffer's end, each put in for input alone and for output alone.
OLD_RULE = "(pointer + 1) % 65536 == end"               # document 01's, before K2
WRONG_ENDS = {
    'the old rule': OLD_RULE,
    'the step to 0 taken before the comparison': "(pointer + 1) % 65536 >= end",
    'above the end for at least': "pointer + 1 > end",
    'one early, at the last place alone': "pointer + 1 >= min(end, 65534)",
    'pointer and end taken with a sign': "(pointer + 32768) % 65536 + 1 >= (end + 32768) % 65536",
    'new pointer and end taken with a sign': "(pointer + 32769) % 65536 >= (end + 32768) % 65536",
    'difference taken with a sign': "(pointer + 1 - end) % 65536 < 32768",
    'cut to 15 bits': "(pointer + 1) % 32768 >= end % 32768",
    'words compared': "(pointer + 1) // 2 >= end // 2",
    'left halves compared': "(pointer + 1) // 256 > end // 256 or pointer + 1 == end",
    'not at the end': "pointer + 1 >= end and pointer != end",
    'not past the end': "pointer in (end, end - 1)",
    'not far past the end': "end <= pointer + 1 <= end + 256",
    'end 0 read as 65536': "pointer + 1 >= (end or 65536)",
    'end 0 never reached': "end > 0 and pointer + 1 >= end",
    'end 65535 never reached': "pointer + 1 >= end != 65535",
    '65535 never done': "pointer < 65535 and pointer + 1 >= end",
    '65535 not done with end 65535': "pointer + 1 >= end and (pointer, end) != (65535, 65535)",
    '65535 not done with end 0': "pointer + 1 >= end and (pointer, end) != (65535, 0)",
    'wrapping buffers run on': "pointer + 1 >= end and not (pointer > 65500 and 0 < end < 100)",
}


def of(pointer, end, rule):
    """A rule of `pointer` and `end`, written for the names that a service has for them."""
    return '(' + rule.replace('pointer', pointer).replace('end', end) + ')'


# What asks a set (02, K5): the one method, and input and output, which call it; where setup takes the set.
ASKS, INPUT_ASKS, OUTPUT_ASKS = (
    "self.record.codes[low_seven(character)] == 1", "ascii7 and self.special(character)", "self.special(BYTE_BITS[byte])")
TAKES = "made.codes = tuple(codes)"

# Wrong answers of a set `said` about a character `code` of eight bits, each put in for input alone and for output alone.
WRONG_SETS = {
    'the 1974 set': "special_1974(code % 128)",
    "the dictionary's set": "DICTIONARY[code % 128] == 1",
    'the 1974 set beside it': "said[code % 128] == 1 or special_1974(code % 128)",
    'the 1974 set against it': "said[code % 128] == 1 and special_1974(code % 128)",
    'the 1974 set where no code is special': "(said if 1 in said else SET_1974)[code % 128] == 1",
    'the 1974 set where every code is special': "(said if 0 in said else SET_1974)[code % 128] == 1",
    'the word of the next code': "said[(code + 1) % 128] == 1",
    'the word of the code before': "said[(code - 1) % 128] == 1",
    'the last word for the first': "said[code % 128 - (code % 128 == 0)] == 1",
    'the words from the last to the first': "said[127 - code % 128] == 1",
    'a code read backwards': "said[int(format(code % 128, '07b')[::-1], 2)] == 1",
    'six bits of the code': "said[code % 64] == 1",
    'letters of one case': "said[code % 128 - 32 * (code % 128 > 95)] == 1",
    'all eight bits, ordinary past the set': "code < 128 and said[code] == 1",
    'all eight bits, special past the set': "code > 127 or said[code] == 1",
    'all eight bits, the 1974 set past the set': "(said + SET_1974)[code] == 1",
    'all eight bits held to the last code': "said[min(code, 127)] == 1",
    'all eight bits folded': "said[code // 2] == 1",
    'the byte with its top bit 1, ordinary past the set': "(said + NO_CODE)[code % 128 + 128] == 1",
    'the byte with its top bit 1, special past the set': "(said + EVERY_CODE)[code % 128 + 128] == 1",
    'the byte with its top bit 1, held to the last code': "said[min(code % 128 + 128, 127)] == 1",
    'the byte with its top bit 1, folded': "said[(code % 128 + 128) // 2] == 1",
    'yes and no exchanged': "said[code % 128] == 0",
    'yes for more than half of the codes': "sum(said) > 64",
    **{f'no for yes and yes for no of {code}': f"said[code % 128] != (code % 128 == {code})"
       for code in (0, 27, 31, 32, 64, 65, 123, 124, 125, 126, 127)},
    **{f'no for yes and yes for no of {code}, top bit 1': f"said[code % 128] != (code == {code})"
       for code in (128, 160, 193, 252, 255)},
}


def said(code, wrong):
    """A wrong answer about `code`, written for the name that a service has for the character's byte."""
    return '(' + wrong.replace('code', code).replace('said', 'self.record.codes') + ')'


MUTANTS = [
    # Document 01, errors seen.
    ('seen: special stored and reported as well',
     "            self.hit('input 5: special')\n",
     "            memory.put(block + 4, self.step(ibp))\n"
     "            memory.put_byte(self.step(ibp), BYTE_OF[stored])\n"),
    ('seen: scan from port 0 after each input',
     "            return self.input(p)\n",
     "            r.pos = 0\n            return self.input(p)\n"),
    ('seen: scan from port 0 after each output',
     "            return self.output(p)\n",
     "            r.pos = 0\n            return self.output(p)\n"),
    ('seen: port number for the address',
     "return (r.base // r.block + p) % 128", "return p"),
    ('seen: byte stored before the pointer',
     "            memory.put(block + 4, pointer)\n"
     "            memory.put_byte(pointer, BYTE_OF[stored])\n",
     "            memory.put_byte(pointer, BYTE_OF[stored])\n"
     "            memory.put(block + 4, pointer)\n"),
    ('seen: replacement without its mark', "overload=port.held)", "overload=0)"),

    # Setup and refusals.
    ('P checked before b',
     ROWS[1] + ROWS[2], ROWS[2] + ROWS[1]),
    ('128 ports refused', "ports > 128,", "ports > 127,"),
    ('base a multiple of b only', "base % (8 * b) != 0", "base % b != 0"),
    ('11 asked before 3', ROWS[3] + ROWS[11], ROWS[11] + ROWS[3]),
    ('11 asked before 2', ROWS[2] + ROWS[3] + ROWS[11], ROWS[11] + ROWS[2] + ROWS[3]),
    ('11 asked before 2, after 3', ROWS[2] + ROWS[3] + ROWS[11], NOT_3 + ROWS[2] + ROWS[3]),
    ('11 asked before 1, after 2 and 3',
     ROWS[1] + ROWS[2] + ROWS[3] + ROWS[11], NOT_2_3 + ROWS[1] + ROWS[2] + ROWS[3]),
    ('11 asked after 4', ROWS[11] + ROWS[12] + ROWS[4], ROWS[12] + ROWS[4] + ROWS[11]),
    ('3 for both faults of a base', "base % (8 * b) != 0,", "base % (8 * b) != 0 or base > 32767,"),
    ('11 for both faults of a base', ROWS[3] + ROWS[11],
     "    11: lambda b, ports, base, kind: base % (8 * b) != 0 or base > 32767,\n    3: lambda b, ports, base, kind: False,\n"),
    ('11 only above 32768', "kind: base > 32767", "kind: base > 32768"),
    ('11 from the last base on', "kind: base > 32767", "kind: base >= 32768 - 8 * b"),
    ('11 for a base cut to 16 bits', "kind: base > 32767", "kind: base % 65536 > 32767"),
    ('11 for a base taken with a sign', "kind: base > 32767", "kind: 32767 < base < 2147483648"),
    ('11 only in blocks of 8', "kind: base > 32767", "kind: base > 32767 and b == 8"),
    ('11 not in blocks of 32', "kind: base > 32767", "kind: base > 32767 and b != 32"),
    ('soundness forgets row 11',
     "        if code:\n            self.hit(f'unsound: setup",
     "        if code and code != 11:\n            self.hit(f'unsound: setup"),
    ('soundness forgets row 11 far from the edge',
     "        if code:\n            self.hit(f'unsound: setup",
     "        if code and not (code == 11 and r.base >= 65536):\n            self.hit(f'unsound: setup"),
    ('soundness cuts the base to 15 bits',
     "self.setup_refusal(r.block, r.ports, r.base, r.kind)", "self.setup_refusal(r.block, r.ports, r.base % 32768, r.kind)"),
    ('area may cross', "(base + ports * b - 1) // (128 * b)", "base // (128 * b)"),
    ('area may not reach its end', "(base + ports * b - 1) // (128 * b)",
     "(base + ports * b) // (128 * b)"),
    ('refused setup gives a fresh record',
     "made = Record()\n", "made = Record()\n        made.port = [FRESH_PORT] * ARRAY\n"),
    ('setup makes only P ports', "made.port = [FRESH_PORT] * ARRAY",
     "made.port = [FRESH_PORT] * ports + [ZERO_PORT] * (ARRAY - ports)"),
    ('position P is sound', "if r.pos >= r.ports:", "if r.pos > r.ports:"),
    ('memory checked before the record',
     "        if self.unsound():\n            return 6\n"
     "        if memory and self.memory.lent != WORDS:\n            return 7\n",
     "        if memory and self.memory.lent != WORDS:\n            return 7\n"
     "        if self.unsound():\n            return 6\n"),
    ('longer memory accepted', "self.memory.lent != WORDS", "self.memory.lent < WORDS"),
    ('port P accepted', "port >= self.record.ports", "port > min(self.record.ports, ARRAY - 1)"),
    ('sweep of 4097 accepted', "inspections > 4096:", "inspections > 4097:"),
    ('sweep of 4096 refused', "inspections > 4096:", "inspections > 4095:"),
    ('list checked before the count',
     "        if inspections is not None and inspections > 4096:\n            return 9\n"
     "        if inspections is not None and self.lent_places < inspections:\n            return 10\n",
     "        if inspections is not None and self.lent_places < inspections:\n            return 10\n"
     "        if inspections is not None and inspections > 4096:\n            return 9\n"),
    ('list of one place too few accepted',
     "and self.lent_places < inspections:\n            return 10",
     "and self.lent_places + 1 < inspections:\n            return 10"),
    ('stopped sweep not checked',
     "        code = self.refusal('sweep', memory=True, inspections=n)\n",
     "        code = self.record.runs and self.refusal('sweep', memory=True, inspections=n)\n"),
    ('refuses everything', "        code = self.table(memory, port, inspections)\n",
     "        code = 6\n"),

    # The end of the memory (02, K10).
    ('11 left out', ROWS[11], ""),
    ('4 for a base above 32767', ROWS[11] + ROWS[12] + ROW_4, ROWS[12] + ROW_4 + "base > 32767 or "),
    ('11 by the end of the area', "kind: base > 32767", "kind: base + ports * b > 32768"),
    ('11 by the end of the area, one word too strict', "kind: base > 32767", "kind: base + ports * b > 32767"),
    ('5 asked, one word too strict', ROWS[4], ROWS[4] + STRICT_5),
    *[(f'5 asked, one word too strict, {where}', ROWS[4], ROWS[4] + STRICT_5.replace("base +", f"{where} and base +"))
      for where in ("b == 8", "b == 16", "b == 32", "ports == 8", "8 < ports < 128", "ports == 128")],
    ('5 asked before 4', ROWS[4], ROW_5 + ROWS[4]),
    *[(f'5 asked before 4, b {b}', ROWS[4], ROW_5.replace("base +", f"b == {b} and base +") + ROWS[4])
      for b in (8, 16, 32)],
    ('5 asked before 4, one port past the end alone', ROWS[4],
     ROW_5.replace("ports * b > 32768", "ports * b == 32768 + b") + ROWS[4]),
    ('5 asked before 11', ROWS[11], ROW_5 + ROWS[11]),
    ('5 asked before 3', ROWS[3], ROW_5 + ROWS[3]),
    ('5 asked before 2', ROWS[2], ROW_5 + ROWS[2]),
    ('5 asked before 1', ROWS[1], ROW_5 + ROWS[1]),
    ('5 asked after 4, 11 left out', ROWS[11] + ROWS[12] + ROWS[4], ROWS[12] + ROWS[4] + ROW_5),
    ('11 given as 5', "    11: lambda", "    5: lambda"),
    ('4 given as 5', ROWS[4], ROWS[4].replace("4:", "5:") + ROWS[4]),
    ('area that ends with the memory refused with 4', ROW_4, ROW_4 + "base + ports * b == 32768 or "),
    *[(f'area that ends with the memory refused with 4, b {b}', ROW_4,
       ROW_4 + f"(b == {b} and base + ports * b == 32768) or ") for b in (8, 16, 32)],
    ('area that ends with the memory refused with 11', "kind: base > 32767",
     "kind: base > 32767 or base + ports * b == 32768"),
    ('area may end past the memory', ROW_4, ROW_4 + "base + ports * b <= 32768 and "),
    *[(f'area may end past the memory, b {b}', ROW_4, ROW_4 + f"not (b == {b} and base + ports * b > 32768) and ")
      for b in (8, 16, 32)],
    ('area may end one port past the memory', ROW_4, ROW_4 + "base + ports * b != 32768 + b and "),
    ('soundness refuses an area that ends with the memory',
     "if r.pos >= r.ports:", "if r.pos >= r.ports or r.base + r.ports * r.block >= WORDS:"),
    *[(f'soundness refuses an area that ends with the memory, b {b}', "if r.pos >= r.ports:",
       f"if r.pos >= r.ports or (r.block == {b} and r.base + r.ports * {b} >= WORDS):")
      for b in (8, 16, 32)],
    ('soundness forgets row 4 past the memory',
     "        if code:\n            self.hit(f'unsound: setup",
     "        if code and (code != 4 or r.base + r.ports * r.block <= WORDS):\n            self.hit(f'unsound: setup"),
    ('blocks of 24 accepted', "b not in BLOCKS,", "b not in BLOCKS + (24,),"),
    *[(f'last block of memory not served, b {b}', "        if port.held:\n            self.hit('turn: input')",
       f"        if (r.block, self.block_of(p)) == ({b}, WORDS - {b}):\n            return Answer(IDLE, p, 0, 0, 0)\n"
       "        if port.held:\n            self.hit('turn: input')") for b in (8, 16, 32)],
    ('last block of memory one word early', "return self.record.base + p * self.record.block",
     "return min(self.record.base + p * self.record.block, WORDS - 1 - self.record.block)"),
    ('last block of memory at word 0', "return self.record.base + p * self.record.block",
     "return (self.record.base + p * self.record.block) % (WORDS - self.record.block)"),
    ('LIB in the last words of memory read as 0', INPUT_ENDS, "self.ends(ibp, lib if block + 8 < WORDS else 0)"),
    ('LOB in the last word of memory read as 0', OUTPUT_ENDS, "self.ends(obp, lob if block + 8 < WORDS else 0)"),

    # Lines and processor.
    ('character not cut', "kept = (0,) * (8 - length) + BYTE_BITS[byte][8 - length:]",
     "kept = BYTE_BITS[byte]"),
    ('control bits 10 and 11 exchanged', "5 + 2 * port.control[2] + port.control[3]",
     "5 + port.control[2] + 2 * port.control[3]"),
    ('mark of the replaced one lost', "overload=port.held)",
     "overload=int(port.held and not port.overload))"),
    ('transmitted does nothing', "self.change(p, empty=1)\n", "pass\n"),
    ('Device Status line upside down',
     "self.change(p, line=level)", "self.change(p, line=1 - level)"),
    ('reset keeps the position', "r.runs = r.clock = r.irq = r.status = r.pos = 0",
     "r.runs = r.clock = r.irq = r.status = 0"),
    ('reset keeps the clock', "r.runs = r.clock = r.irq = r.status = r.pos = 0",
     "r.runs = r.irq = r.status = r.pos = 0"),
    ('reset forgets the last port', "for p in range(ARRAY):",
     "for p in [q for q in range(ARRAY) if q != r.ports - 1]:"),
    ('reset forgets places past P', "for p in range(ARRAY):", "for p in range(r.ports):"),
    ('reset clears all control bits', "control=port.control[:5] + (0, 0, 0), ", ""),
    ('reset keeps the speed', "control=port.control[:5] + (0, 0, 0)", "control=port.control"),
    ('reset drops the Device Status line', ", line=port.line)", ")"),
    ('DIAS reads after the clear',
     "        value = self.read_status('dias')\n        self.clear_status('dias')\n",
     "        self.clear_status('dias')\n        value = self.read_status('dias')\n"),
    ('DIA clears', "return (code, 0) if code else (0, self.read_status('dia'))",
     "return (code, 0) if code else self.dias()"),
    ('START keeps the flag', "        r.irq = r.status = 0\n", "        r.status = 0\n"),
    ('tick without the clock', "        if self.record.clock:\n", "        if True:\n"),
    ('tick clears the status word',
     "            status = bits_of(self.record.status)\n            status[0] = 1\n",
     "            status = bits_of(32768)\n"),
    ('DOC starts at port 0', "            self.record.runs = 1\n",
     "            self.record.runs = 1\n            self.record.pos = 0\n"),

    # The turn.
    ('output before input', "        if port.held:\n            self.hit('turn: input')",
     "        if port.held and not port.empty:\n            self.hit('turn: input')"),
    ('position stays on an idle turn', "        self.hit('turn: idle')\n",
     "        r.pos = p\n"),
    ('idle turn names no port',
     "return Answer(IDLE, p, 0, 0, 0)", "return Answer(IDLE, 0, 0, 0, 0)"),
    ('only the first inspection serves',
     "        port = r.port[p]\n        if port.held:\n            self.hit('turn: input')",
     "        port = r.port[p]\n        if self.services:\n            return Answer(IDLE, p, 0, 0, 0)\n"
     "        if port.held:\n            self.hit('turn: input')"),
    ('answers nothing each time', "return (code, NO_ANSWER) if code else (0, self.turn())",
     "return code, NO_ANSWER"),
    ('block of the next port', "self.record.base + p * self.record.block",
     "self.record.base + (p + 1) % self.record.ports * self.record.block"),
    ('pointer sticks at 65535',
     "65535 to 0')\n            return 0", "65535 to 0')\n            return 65535"),
    ('special looks at eight bits', ASKS, "(self.record.codes + NO_CODE)[BYTE_OF[character]] == 1"),
    ('124 is ordinary', "low > 0o173", "low > 0o174"),
    ('123 is special', "low > 0o173", "low >= 0o173"),
    ('32 is special', "low < 0o40", "low <= 0o40"),
    ('31 is ordinary', "low < 0o40", "low < 0o37"),
    ('127 is ordinary', "low > 0o173", "0o177 > low > 0o173"),
    ('0 is ordinary', "low < 0o40", "0 < low < 0o40"),
    ('escape is ordinary', "low < 0o40", "low < 0o40 and low != 0o33"),
    ('126 is ordinary', "low > 0o173", "(low > 0o173 and low != 0o176)"),
    ('at sign is special', "return low < 0o40", "return low == 0o100 or low < 0o40"),
    ('special and ordinary exchanged',
     "return low < 0o40 or low > 0o173", "return not (low < 0o40 or low > 0o173)"),
    ('input looks at eight bits', INPUT_ASKS,
     "ascii7 and (BYTE_OF[character] < 0o40 or BYTE_OF[character] > 0o173)"),
    ('output looks at eight bits', OUTPUT_ASKS, "(byte < 0o40 or byte > 0o173)"),

    # Input.
    ('parity and overload codes exchanged',
     "= [0, 0], [0, 1], [1, 0], [1, 1]", "= [0, 0], [1, 0], [0, 1], [1, 1]"),
    ('break before overload',
     "        if port.overload:\n            self.hit('code: overload before",
     "        if port.overload and not port.brk:\n            self.hit('code: overload before"),
    ('parity reported though inhibited', "port.parity and port.control[0] == 0", "port.parity"),
    ('marks stay after the service', "held=0, byte=0, parity=0, brk=0, overload=0)", "held=0)"),
    ('top bit not set in the buffer', "memory.put_byte(pointer, BYTE_OF[stored])",
     "memory.put_byte(pointer, BYTE_OF[character])"),
    ('top bit set in the echo',
     "sent, byte = 1, BYTE_OF[character]", "sent, byte = 1, BYTE_OF[stored]"),
    ('top bit not set in ICW', "echo_mark, stored\n", "echo_mark, character\n"),
    ('top bit not set where INDONE is', "= code, 1, stored", "= code, 1, character"),
    ('bit 7 not set where INDONE is', "icw[4:6], icw[7], icw[8:16] = code, 1, stored",
     "icw[4:6], icw[8:16] = code, stored"),
    ('INDONE does not matter', "        if icw[0]:\n", "        if False:\n"),
    ('interrupt again where INDONE is',
     "= code, 1, stored\n            memory.put(block, word_of(icw))\n            return Answer(INPUT, p, 0, 0, 0)",
     "= code, 1, stored\n            memory.put(block, word_of(icw))\n            self.interrupt(p, 2)\n"
     "            return Answer(INPUT, p, 0, 0, 1)"),
    ('mode 01 is single',
     "if mode == [0, 1]:\n            self.hit('input 2",
     "if False:\n            self.hit('input 2"),
    ('error stored in the buffer', "elif code != NONE:", "elif False:"),
    ('special outside 7-bit ASCII',
     "elif ascii7 and self.special(character):", "elif self.special(character):"),
    ('halves exchanged on input', "memory.put_byte(pointer, BYTE_OF[stored])",
     "memory.put_byte(pointer ^ 1, BYTE_OF[stored])"),
    ('byte stored where IBP was', "memory.put_byte(pointer, BYTE_OF[stored])",
     "memory.put_byte(ibp, BYTE_OF[stored])"),
    ('stray store far from the port', "memory.put_byte(pointer, BYTE_OF[stored])",
     "memory.put_byte(pointer, BYTE_OF[stored])\n            memory.put(WORDS - 1 - pointer // 2, 0)"),
    ('input done one early', INPUT_ENDS, "self.ends(ibp + 1, lib)"),
    ('input done one late', INPUT_ENDS, "self.ends(ibp - 1, lib)"),
    ('LIB read after the store', INPUT_ENDS, "self.ends(ibp, memory.word(block + 6))"),
    ('ICW read again after the store', "            icw[0], icw[4:6], icw[6], icw[8:16] =",
     "            icw = bits_of(memory.word(block))\n            icw[0], icw[4:6], icw[6], icw[8:16] ="),
    ('echo into a full transmitter', "                if port.empty:\n                    sent",
     "                if True:\n                    sent"),
    ('echo leaves the transmitter empty',
     "                    self.change(p, empty=0)\n                else:",
     "                    pass\n                else:"),
    ('busy echo is not done', "echo_mark, done = 1, True", "echo_mark = 1"),
    ('old echo mark kept', "icw[0], icw[4:6], icw[6], icw[8:16] = 1, code, echo_mark, stored",
     "icw[0], icw[4:6], icw[6], icw[8:16] = 1, code, icw[6] | echo_mark, stored"),
    ('bit 7 of ICW cleared when done', "            icw[0], icw[4:6], icw[6], icw[8:16] =",
     "            icw[7] = 0\n            icw[0], icw[4:6], icw[6], icw[8:16] ="),
    ('ICW written when not done', "            self.hit('input: ICW not written')\n",
     "            memory.put(block, word_of(icw))\n"),

    # Output.
    ('bit 5 takes the line', "        ocw[5] = ocw[4]\n", "        ocw[5] = port.line\n"),
    ('bit 7 cleared where the line is as read', "        if differs:\n            ocw[7] = 1\n",
     "        ocw[7] = int(differs)\n"),
    ('bit 7 always interrupts', "becomes = differs and ocw[7] == 0", "becomes = differs"),
    ('bit 7 never interrupts', "        if becomes:\n            self.hit('output: bit 7 and",
     "        if False:\n            self.hit('output: bit 7 and"),
    ('OUTDONE ignored', "        if outdone:\n", "        if False:\n"),
    ('status bits not written where OUTDONE is',
     "memory.put(block + 1, word_of(ocw))\n            return", "return"),
    ('bit 6 cleared where OUTDONE is',
     "            memory.put(block + 1, word_of(ocw))\n            return",
     "            ocw[6] = 0\n            memory.put(block + 1, word_of(ocw))\n            return"),
    ('bit 6 kept', "        ocw[6] = 0\n", ""),
    ('OBP not written', "            memory.put(block + 5, pointer)\n", ""),
    ('byte fetched before OBP is written',
     "            memory.put(block + 5, pointer)\n            sent, byte = 1, memory.byte(pointer)\n",
     "            sent, byte = 1, memory.byte(pointer)\n            memory.put(block + 5, pointer)\n"),
    ('halves exchanged on output', "memory.byte(pointer)", "memory.byte(pointer ^ 1)"),
    ('output done one early', OUTPUT_ENDS, "self.ends(obp + 1, lob)"),
    ('output done one late', OUTPUT_ENDS, "self.ends(obp - 1, lob)"),
    ('special always ends output', "(asks_special == 1 and special)", "special"),
    ('special byte reported in OCW', "            self.note_fetch(block,",
     "            ocw[8:16] = BYTE_BITS[byte] if asks_special and special else ocw[8:16]\n"
     "            self.note_fetch(block,"),
    ('Device Control not set', "self.change(p, level=ocw[3], control=", "self.change(p, control="),
    ('port control fills the transmitter', "self.change(p, level=ocw[3], control=",
     "self.change(p, empty=0, level=ocw[3], control="),
    ('single output leaves the transmitter empty',
     "        if sent:\n            self.change(p, empty=0)\n",
     "        if sent and mode == [0, 1]:\n            self.change(p, empty=0)\n"),

    # The end of a buffer (02, K2).
    ('buffer ends: the old rule', ENDS, f"return {OLD_RULE}"),
    *[(f'input buffer ends: {name}', INPUT_ENDS, of('ibp', 'lib', rule))
      for name, rule in WRONG_ENDS.items()],
    *[(f'output buffer ends: {name}', OUTPUT_ENDS, of('obp', 'lob', rule))
      for name, rule in WRONG_ENDS.items()],
    ('IBP stops at 65535', "pointer = self.step(ibp)", "pointer = min(ibp + 1, 65535)"),
    ('OBP stops at 65535', "pointer = self.step(obp)", "pointer = min(obp + 1, 65535)"),
    ('IBP past the end goes back to it', "pointer = self.step(ibp)", "pointer = min(self.step(ibp), lib)"),
    ('OBP past the end goes back to it', "pointer = self.step(obp)", "pointer = min(self.step(obp), lob)"),
    ('IBP read after the store', INPUT_ENDS, "self.ends((memory.word(block + 4) - 1) % 65536, lib)"),
    ('IBP and LIB exchanged', INPUT_ENDS, "self.ends(lib, ibp)"),
    ('OBP and LOB exchanged', OUTPUT_ENDS, "self.ends(lob, obp)"),
    ('input asks for LOB', INPUT_ENDS, "self.ends(ibp, memory.word(block + 7))"),
    ('output asks for LIB', OUTPUT_ENDS, "self.ends(obp, memory.word(block + 6))"),
    ('LOB kept while a buffer runs on', f"last, special = {OUTPUT_ENDS}, ",
     "last = self.ends(obp, getattr(self, 'kept', {}).get(obp, lob))\n"
     "            self.kept = {} if last else {pointer: lob}\n            special = "),
    ('no byte stored at or past the end', "            memory.put_byte(pointer, BYTE_OF[stored])\n",
     "            if ibp < lib:\n                memory.put_byte(pointer, BYTE_OF[stored])\n"),
    ('no byte sent at or past the end', "sent, byte = 1, memory.byte(pointer)",
     "sent, byte = (1, memory.byte(pointer)) if obp < lob else (0, 0)"),
    ('IBP not written at or past the end', "            memory.put(block + 4, pointer)\n",
     "            if ibp < lib:\n                memory.put(block + 4, pointer)\n"),
    ('OBP not written at or past the end', "            memory.put(block + 5, pointer)\n",
     "            if obp < lob:\n                memory.put(block + 5, pointer)\n"),
    ('no echo at or past the end', "            if mode == [1, 1]:\n",
     "            if mode == [1, 1] and ibp < lib:\n"),
    ('no echo mark at or past the end',
     "echo_mark, done = 1, True", "echo_mark, done = int(ibp < lib), True"),
    ('no interrupt past the end of input', "            self.interrupt(p, 2)\n",
     "            if ibp <= lib:\n                self.interrupt(p, 2)\n"),
    ('short buffer with the special request ends at a special byte alone',
     "done = last or (asks_special == 1 and special)",
     "done = special if asks_special and obp >= lob else last or (asks_special == 1 and special)"),

    # Interrupt and sweep.
    ('status bit 1 never set', "            status[1] = 1\n", ""),
    ('status bit 1 only for the other kind',
     "        if status[2] or status[3]:", "        if status[5 - bit]:"),
    ('status bits 2 and 3 exchanged',
     "        status[bit] = 1\n", "        status[5 - bit] = 1\n"),
    ('old address bits stay', "status[4:11] = BYTE_BITS[self.address(p)][1:]",
     "status[4:11] = [a | b for a, b in zip(status[4:11], BYTE_BITS[self.address(p)][1:])]"),
    ('status bits 11 to 15 kept', "        status[11:16] = [0] * 5\n", ""),
    ('flag not raised',
     "        r.status = word_of(status)\n        r.irq = 1\n",
     "        r.status = word_of(status)\n"),
    ('sweep does not stop on an interrupt',
     "                self.note_stop(full, made == n)\n                break\n",
     "                self.note_stop(full, made == n)\n"),
    ('sweep stops on a byte',
     "            if answer.raised:\n", "            if answer.raised or answer.sent:\n"),
    ('list place skipped', "self.places[used] =", "self.places[used + 1] ="),
    ('list has byte and port exchanged',
     "answer.port * 256 + answer.byte", "answer.byte * 256 + answer.port"),
    ('echo not listed',
     "            if answer.sent:\n", "            if answer.sent and answer.turn == OUTPUT:\n"),
    ('places past the last one cleared', "        return 0, made, used\n",
     "        self.places[used:n] = [0] * (n - used)\n        return 0, made, used\n"),
    ('sweep invents its count', "        return 0, made, used\n", "        return 0, n, used\n"),

    # Speeds.
    ('speed by control bits 12 to 14', "BYTE_BITS[control][5:]", "BYTE_BITS[control][4:7]"),
    ('speed bits read backwards', "SPEEDS[4 * first + 2 * second + third]",
     "SPEEDS[first + 2 * second + 4 * third]"),
    ('speeds 1200 and 2400 exchanged', "1200, 2400", "2400, 1200"),
]

# Where each call and service changes the record, so that it may lose the set there as well.
CHANGES = {
    'arrival': "        self.change(p, held=1, byte=",
    'transmitter empty': "        self.change(p, empty=1)\n",
    'Device Status': "        self.change(p, line=level)\n",
    'reset': "        r.runs = r.clock = r.irq = r.status = r.pos = 0\n",
    'IOPLS': "            self.record.clock = 1\n",
    'START': "        r.irq = r.status = 0\n",
    'DOC': "            self.record.runs = 1\n",
    'DOB': "            self.record.runs = 0\n",
    'tick': "            self.record.irq = 1\n",
    'inspection': "        p = r.pos\n",
    'input': "        self.change(p, held=0, byte=0,",
    'output': "        ocw[5] = ocw[4]\n",
    'port control': "            self.change(p, level=ocw[3], control=",
    'interrupt': "        status[11:16] = [0] * 5\n",
    'sweep': "        made = used = 0\n",
}
SETUP_ASKS = "        code = self.setup_refusal(b, ports, base, kind)\n"
MADE = "        made = Record()\n"
UNSOUND = "if r.pos >= r.ports:"
STORES = "            memory.put_byte(pointer, BYTE_OF[stored])\n"
RULES_4_5 = (
    "        elif code != NONE:\n            self.hit('input 4: error')\n            done = True\n"
    "        elif ascii7 and self.special(character):\n            self.hit('input 5: special')\n")

# Of the special codes that a school chooses (02, K5).
SET_MUTANTS = [
    *[(f'input asks {name}', INPUT_ASKS, 'ascii7 and ' + said('BYTE_OF[character]', wrong))
      for name, wrong in WRONG_SETS.items()],
    *[(f'output asks {name}', OUTPUT_ASKS, said('byte', wrong)) for name, wrong in WRONG_SETS.items()],
    ('both ask all eight bits, special past the set', ASKS, "(self.record.codes + EVERY_CODE)[BYTE_OF[character]] == 1"),
    ('both ask all eight bits folded', ASKS, "self.record.codes[BYTE_OF[character] // 2] == 1"),
    ('both ask the 1974 set', ASKS, "special_1974(low_seven(character))"),
    ('both ask yes and no exchanged', ASKS, ASKS.replace("1", "0")),
    ('input asks before the cut', CHANGES['arrival'],
     "        self.uncut = {**getattr(self, 'uncut', {}), p: BYTE_BITS[byte]}\n" + CHANGES['arrival'],
     INPUT_ASKS, "ascii7 and self.special(self.uncut[p])"),
    ('input asks when the character arrives', CHANGES['arrival'],
     "        self.told = {**getattr(self, 'told', {}), p: self.special(kept)}\n" + CHANGES['arrival'],
     INPUT_ASKS, "ascii7 and self.told[p]"),
    ('output asks for the byte cut to the length', OUTPUT_ASKS,
     "self.special(BYTE_BITS[byte % 2 ** (5 + 2 * port.control[2] + port.control[3])])"),
    ('output asks for the byte of the pointer as it was', OUTPUT_ASKS, "self.special(BYTE_BITS[memory.byte(obp)])"),

    # Setup and the record.
    *[(f'setup gives {name}', TAKES, f"made.codes = {wrong}") for name, wrong in (
        ('the 1974 set', "SET_1974"), ("the dictionary's set", "DICTIONARY"), ('no special code', "NO_CODE"),
        ('special codes alone', "EVERY_CODE"), ('the set that the unit has', "self.record.codes"),
        ('the set turned round', "tuple(codes)[::-1]"), ('the set moved by one', "tuple(codes)[1:] + tuple(codes)[:1]"),
        ('the set without its last code', "tuple(codes)[:-1] + (0,)"), ('the set without code 0', "(0,) + tuple(codes)[1:]"),
        ('yes and no exchanged', "tuple(1 - yes for yes in codes)"),
        ('the 1974 set for no special code', "tuple(codes) if 1 in codes else SET_1974"),
        ('the 1974 set for special codes alone', "tuple(codes) if 0 in codes else SET_1974"),
        ('the 1974 set beside the other', "tuple(map(max, codes, SET_1974))"),
        ('the 1974 set in blocks of 32', "SET_1974 if b == 32 else tuple(codes)"),
        ('the 1974 set where it has more ports than one', "SET_1974 if ports > 1 else tuple(codes)"))],
    ('refused setup keeps the set', MADE, MADE + "        made.codes = tuple(codes)\n"),
    ('refused setup gives the set of the unit', MADE, MADE + "        made.codes = self.record.codes\n"),
    ('refused setup gives the 1974 set', "self.codes = NO_CODE ", "self.codes = SET_1974 "),
    ('refused setup gives special codes alone', "self.codes = NO_CODE ", "self.codes = EVERY_CODE "),
    ('refused setup changes the set of the unit', SETUP_ASKS,
     SETUP_ASKS + "        self.record.codes = tuple(codes) if code else self.record.codes\n"),
    ('refused setup changes what is asked', SETUP_ASKS,
     SETUP_ASKS + "        self.given = tuple(codes) if code else None\n",
     ASKS, "(getattr(self, 'given', None) or self.record.codes)[low_seven(character)] == 1"),
    ('set kept from setup, whatever the record has since', TAKES, TAKES + "\n            self.given = made.codes",
     ASKS, "getattr(self, 'given', self.record.codes)[low_seven(character)] == 1"),
    ('one set for every record', TAKES, "Record.codes = tuple(codes)",
     "        self.codes = NO_CODE ", "        pass ", "class Record:\n", "class Record:\n    codes = NO_CODE\n"),
    ('set without a special code refused', SETUP_ASKS, SETUP_ASKS + "        code = code or (0 if 1 in codes else 4)\n"),
    ('set of special codes alone refused', SETUP_ASKS, SETUP_ASKS + "        code = code or (0 if 0 in codes else 4)\n"),
    ('set with an ordinary return refused', SETUP_ASKS, SETUP_ASKS + "        code = code or (0 if codes[13] else 4)\n"),
    ('set with a special letter refused', SETUP_ASKS, SETUP_ASKS + "        code = code or (4 if codes[65] else 0)\n"),
    ('record without a special code unsound', UNSOUND, "if r.pos >= r.ports or 1 not in r.codes:"),
    ('record of special codes alone unsound', UNSOUND, "if r.pos >= r.ports or 0 not in r.codes:"),
    ('record with an ordinary glottal stop unsound', UNSOUND, "if r.pos >= r.ports or r.codes[0o174] == 0:"),
    ('record with a special letter unsound', UNSOUND, "if r.pos >= r.ports or r.codes[0o101]:"),
    *[(f'{call} {loses}', change, f"{change[:len(change) - len(change.lstrip())]}self.record.codes = {wrong}\n{change}")
      for call, change in CHANGES.items() for loses, wrong in (
          ('puts the 1974 set back', "SET_1974"), ('clears the set', "NO_CODE"))],

    # What follows from an answer.
    ('special asked before an error, and hides it', RULES_4_5,
     "        elif ascii7 and self.special(character):\n            code, done = NONE, True\n"
     "        elif code != NONE:\n            self.hit('input 4: error')\n            done = True\n"
     "        elif False:\n"),
    ('ordinary code stored with its error', "elif code != NONE:",
     "elif code != NONE and (not ascii7 or self.special(character)):"),
    ('ordinary code unlike 1974 stored with its error', "elif code != NONE:",
     "elif code != NONE and (not ascii7 or self.special(character) or not special_1974(low_seven(character))):"),
    ('another set asked outside 7-bit ASCII', INPUT_ASKS,
     "(ascii7 or self.record.codes != SET_1974) and self.special(character)"),
    ('special by another set alone, asked outside 7-bit ASCII', INPUT_ASKS,
     "(ascii7 or not special_1974(low_seven(character))) and self.special(character)"),
    ('another set not asked on input', INPUT_ASKS, "ascii7 and self.record.codes == SET_1974 and self.special(character)"),
    ('special request ignored with another set', "(asks_special == 1 and special)",
     "(asks_special == 1 and special and self.record.codes == SET_1974)"),
    ('special request not needed with another set', "(asks_special == 1 and special)",
     "(special and (asks_special == 1 or self.record.codes != SET_1974))"),
    ('special request turned round where special unlike 1974', "(asks_special == 1 and special)",
     "(special and asks_special == int(special_1974(byte % 128)))"),
    ('seen: ordinary unlike 1974 stored and reported as well', "done = last = self.ends(ibp, lib)",
     "last = self.ends(ibp, lib)\n"
     "            done = last or (ascii7 and special_1974(low_seven(character)))"),
    ('seen: special unlike 1974 stored and reported as well', "            self.hit('input 5: special')\n",
     "            if not special_1974(low_seven(character)):\n                memory.put(block + 4, self.step(ibp))\n"
     "                memory.put_byte(self.step(ibp), BYTE_OF[stored])\n"),
    ('special unlike 1974 echoed', "            self.hit('input 5: special')\n",
     "            if not special_1974(low_seven(character)) and mode == [1, 1] and port.empty:\n"
     "                sent, byte = 1, BYTE_OF[character]\n                self.change(p, empty=0)\n"),
    ('ordinary unlike 1974 not echoed', "            if mode == [1, 1]:\n",
     "            if mode == [1, 1] and not (ascii7 and special_1974(low_seven(character))):\n"),
    ('glottal stop stored twice', STORES,
     STORES + "            if ascii7 and low_seven(character) == GLOTTAL_STOP and not self.ends(ibp, lib):\n"
     "                pointer = self.step(pointer)\n                memory.put(block + 4, pointer)\n    " + STORES),
    ('glottal stop stored with its top bit 0', STORES,
     STORES.replace("stored]", "stored if low_seven(character) != GLOTTAL_STOP else character]")),
    ('glottal stop stored as a space', STORES,
     STORES.replace("BYTE_OF[stored]", "0o240 if ascii7 and low_seven(character) == GLOTTAL_STOP else BYTE_OF[stored]")),
    ('glottal stop that fills the buffer not reported', "done = last = self.ends(ibp, lib)",
     "last = self.ends(ibp, lib)\n"
     "            done = last and not (ascii7 and low_seven(character) == GLOTTAL_STOP)"),
    ('glottal stop that finds the transmitter busy not reported', "echo_mark, done = 1, True",
     "echo_mark, done = 1, last or not ascii7 or low_seven(character) != GLOTTAL_STOP"),
    ('glottal stop that finds the transmitter busy not marked', "echo_mark, done = 1, True",
     "echo_mark, done = int(not ascii7 or low_seven(character) != GLOTTAL_STOP), True"),
    ('glottal stop not sent where it is ordinary', "            self.note_fetch(block,",
     "            sent = int(special or byte % 128 != GLOTTAL_STOP)\n            self.note_fetch(block,"),
]


# The Mighty Mux's rules (02, K6), as mux2.py has them: an interrupt, its entry, a reading, a START; what a reset does.
QUEUES = """\
        r.irq = 1
        if r.fill < STACK:
            r.stack = with_word(r.stack, r.fill, self.entry(p, bit))
            r.fill += 1
        else:
            r.lost = 1
"""
ENTRY = """\
        entry[bit] = 1
        entry[4:11] = BYTE_BITS[self.address(p)][1:]
        return word_of(entry)
"""
READS = """\
        word[0] = bits_of(r.status)[0]
        if r.fill > 0:
            word[1] = r.lost
            word[2:16] = bits_of(r.stack[0])[2:16]
        return word_of(word)
"""
REMOVES = """\
        r.status = 0
        if r.fill > 0:
            r.stack = r.stack[1:] + (0,)
            r.fill -= 1
        r.irq = int(r.fill > 0)
        if r.fill == 0:
            r.lost = 0
"""
RESETS, RESETS_STACK = "        r.lost = r.fill = 0 ", "        r.stack = EMPTY_STACK\n"
TOO_MANY, ASKED_LATE = "        if r.fill > STACK:\n", "        if self.record.fill > STACK:\n            return 6\n"
MIGHTY = "self.record.kind == MIGHTY_MUX"
FULL = f"({MIGHTY} and self.record.fill == STACK)"
QUEUED, LOST = "with_word(r.stack, r.fill, self.entry(p, bit))", "            r.lost = 1\n"
MOVED, FLAG = "r.stack[1:] + (0,)", "        r.irq = int(r.fill > 0)\n"
CLEARED = "        if r.fill == 0:\n            r.lost = 0\n"

# Wrong interrupts: a piece of the rule and what stands in its place.
WRONG_QUEUES = {
    'are put before the others': (QUEUED, "(self.entry(p, bit),) + r.stack[:-1]"),
    'are put behind the oldest': (QUEUED, "r.stack[:1] + (self.entry(p, bit),) + r.stack[1:-1] if r.fill else "
                                  "(self.entry(p, bit),) + r.stack[1:]"),
    'are put in order of their words': (
        QUEUED, "tuple(sorted(r.stack[:r.fill] + (self.entry(p, bit),))) + r.stack[r.fill + 1:]"),
    'are put over the newest': (QUEUED, "with_word(r.stack, max(r.fill - 1, 0), self.entry(p, bit))"),
    'clear the places behind': (QUEUED, "r.stack[:r.fill] + (self.entry(p, bit),) + EMPTY_STACK[r.fill + 1:]"),
    'are merged with the word that is there': (QUEUED, "with_word(r.stack, r.fill, r.stack[r.fill] | self.entry(p, bit))"),
    'that find 40 overwrite the last': (LOST, LOST + "            r.stack = r.stack[:-1] + (self.entry(p, bit),)\n"),
    'that find 40 overwrite the first': (LOST, LOST + "            r.stack = (self.entry(p, bit),) + r.stack[1:]\n"),
    'that find 40 push the oldest out': (LOST, LOST + "            r.stack = r.stack[1:] + (self.entry(p, bit),)\n"),
    'that find 40 push the oldest out without a mark': (LOST, "            r.stack = r.stack[1:] + (self.entry(p, bit),)\n"),
    'that find 40 empty the stack': (LOST, LOST + "            r.stack, r.fill = EMPTY_STACK, 0\n"),
    'that find 40 are counted': (LOST, LOST + "            r.fill += 1\n"),
    'that find 40 leave no mark': (LOST, "            pass\n"),
    'that find 40 leave their mark in the oldest entry': (
        LOST, "            r.stack = (r.stack[0] | 16384,) + r.stack[1:]\n"),
    'that find 40 turn the mark round': (LOST, "            r.lost = 1 - r.lost\n"),
    'that find 40 leave the flag': ("        r.irq = 1\n        if r.fill < STACK:\n",
                                    "        if r.fill < STACK:\n            r.irq = 1\n"),
    'leave the flag': ("        r.irq = 1\n", ""),
    'leave the flag beside others': ("        r.irq = 1\n", "        r.irq = r.irq if r.fill else 1\n"),
    'clear the mark': ("            r.fill += 1\n", "            r.fill += 1\n            r.lost = 0\n"),
    'that take the last place are marked as lost': ("            r.fill += 1\n",
                                                    "            r.fill += 1\n            r.lost |= int(r.fill == STACK)\n"),
    'find 39 places': ("if r.fill < STACK:", "if r.fill < STACK - 1:"),
    'find 41 places': ("if r.fill < STACK:", "if r.fill < STACK + 1:"),
    'find 20 places': ("if r.fill < STACK:", "if r.fill < STACK // 2:"),
    'find no place while the mark is set': ("if r.fill < STACK:", "if r.fill < STACK and not r.lost:"),
    'find no freed place until the stack is empty': (
        "        if r.fill < STACK:\n",
        "        self.filled = r.fill and (r.fill == STACK or getattr(self, 'filled', 0))\n"
        "        if r.fill < STACK and not self.filled:\n"),
    'like one that waits are not queued': (
        "        if r.fill < STACK:\n", "        if self.entry(p, bit) in r.stack[:r.fill]:\n            pass\n"
        "        elif r.fill < STACK:\n"),
    'like the newest are not queued': (
        "        if r.fill < STACK:\n", "        if r.fill and self.entry(p, bit) == r.stack[r.fill - 1]:\n            pass\n"
        "        elif r.fill < STACK:\n"),
    'of a port that waits are merged': (
        "        if r.fill < STACK:\n",
        "        if r.fill and self.entry(p, 0) % 4096 == r.stack[r.fill - 1] % 4096:\n"
        "            r.stack = with_word(r.stack, r.fill - 1, r.stack[r.fill - 1] | self.entry(p, bit))\n"
        "        elif r.fill < STACK:\n"),
    'change the status word as well': (
        "        r.irq = 1\n", "        r.irq = 1\n        r.status = r.status // 32768 * 32768 + self.entry(p, bit)\n"),
    'clear the status word': ("        r.irq = 1\n", "        r.irq, r.status = 1, 0\n"),
    'clear bit 0': ("        r.irq = 1\n", "        r.irq = 1\n        r.status %= 32768\n"),
    'clear status bits 1 to 15': ("        r.irq = 1\n", "        r.irq = 1\n        r.status -= r.status % 32768\n"),
    'set status bit 1 beside others': (
        "        r.irq = 1\n", "        r.irq = 1\n        r.status |= 16384 if r.fill else 0\n"),
    'make an EDS-8': ("        r.irq = 1\n", "        r.irq, r.kind = 1, EDS_8\n"),
    'that find 40 set status bit 1': (LOST, LOST + "            r.status |= 16384\n"),
}

# Wrong entries: a piece of the rule and what stands in its place.
ADDRESS = "BYTE_BITS[self.address(p)][1:]"
WRONG_ENTRIES = {
    'have the port number': (ADDRESS, "BYTE_BITS[p][1:]"),
    'have the address of the next port': (ADDRESS, "BYTE_BITS[self.address(p + 1)][1:]"),
    'have the address of port 0': (ADDRESS, "BYTE_BITS[self.address(0)][1:]"),
    'have no address': (ADDRESS, "[0] * 7"),
    'have six bits of the address': (ADDRESS, "BYTE_BITS[self.address(p) % 64][1:]"),
    'have the address of blocks of 32': (ADDRESS, "BYTE_BITS[(self.record.base // 32 + p) % 128][1:]"),
    'have the address backwards': (ADDRESS, ADDRESS.replace("[1:]", "[:0:-1]")),
    'have the address in bits 9 to 15': ("entry[4:11]", "entry[9:16]"),
    'have the address in bits 5 to 11': ("entry[4:11]", "entry[5:12]"),
    'have no bit 2 or 3': ("        entry[bit] = 1\n", ""),
    'have both bits 2 and 3': ("entry[bit] = 1", "entry[2] = entry[3] = 1"),
    'have bits 2 and 3 exchanged': ("entry[bit]", "entry[5 - bit]"),
    'have bit 1 where another is stacked': ("        entry[bit] = 1\n",
                                            "        entry[bit] = 1\n        entry[1] = int(self.record.fill > 0)\n"),
    'have bit 1 where one is lost': (
        "        entry[bit] = 1\n", "        entry[bit] = 1\n        entry[1] = self.record.lost\n"),
    'have bit 0 where a tick stands': ("        entry[bit] = 1\n",
                                       "        entry[bit] = 1\n        entry[0] = self.record.status // 32768\n"),
    'have bit 15': ("        entry[bit] = 1\n", "        entry[bit] = entry[15] = 1\n"),
    'have the number of entries in bits 11 to 15': (
        "        entry[bit] = 1\n", "        entry[bit] = 1\n        entry[11:16] = BYTE_BITS[self.record.fill % 32][3:]\n"),
}

# Wrong readings: a piece of the rule and what stands in its place.
OLDEST = "bits_of(r.stack[0])[2:16]"
RETURNED = "        return word_of(word)\n"
WRONG_READINGS = {
    'shows the newest': (OLDEST, "bits_of(r.stack[r.fill - 1])[2:16]"),
    'shows the second': (OLDEST, "bits_of(r.stack[1])[2:16]"),
    'shows the last place': (OLDEST, "bits_of(r.stack[39])[2:16]"),
    'shows all entries merged': (OLDEST, "[int(any(bits)) for bits in zip(*map(bits_of, r.stack[:r.fill]))][2:16]"),
    'shows no entry': ("        if r.fill > 0:\n", "        if False:\n"),
    'shows no single entry': ("        if r.fill > 0:\n", "        if r.fill > 1:\n"),
    'shows no entry without the flag': ("        if r.fill > 0:\n", "        if r.fill > 0 and r.irq:\n"),
    'shows no entry beside bit 0': ("        if r.fill > 0:\n", "        if r.fill > 0 and not word[0]:\n"),
    'shows no entry beside the lost mark': (OLDEST, f"[0] * 14 if r.lost else {OLDEST}"),
    'shows place 0 without an entry': ("        if r.fill > 0:\n", "        if True:\n"),
    'shows the address of place 0 without an entry': (
        RETURNED, "        word[4:11] = bits_of(r.stack[0])[4:11]\n" + RETURNED),
    'never shows bit 1': ("word[1] = r.lost", "word[1] = 0"),
    'shows bit 1 without an entry': ("            word[1] = r.lost\n", "", RETURNED, "        word[1] = r.lost\n" + RETURNED),
    'shows bit 1 of the entry': ("word[1] = r.lost", "word[1] = bits_of(r.stack[0])[1]"),
    'shows bit 1 of the entry as well': ("word[1] = r.lost", "word[1] = r.lost | bits_of(r.stack[0])[1]"),
    'shows bit 1 for more than one entry': ("word[1] = r.lost", "word[1] = int(r.fill > 1)"),
    'shows bit 1 for a full stack': ("word[1] = r.lost", "word[1] = int(r.fill == STACK)"),
    'shows bit 1 of a full stack alone': ("word[1] = r.lost", "word[1] = int(r.lost and r.fill == STACK)"),
    'shows bit 1 with the last entry alone': ("word[1] = r.lost", "word[1] = int(r.lost and r.fill == 1)"),
    'shows bit 1 of the status word': ("word[1] = r.lost", "word[1] = bits_of(r.status)[1]"),
    'never shows bit 0': ("word[0] = bits_of(r.status)[0]", "word[0] = 0"),
    'shows bit 0 of the entry': (
        "            word[1] = r.lost\n", "            word[0] = bits_of(r.stack[0])[0]\n            word[1] = r.lost\n"),
    'shows bit 0 of the entry as well': (
        "            word[1] = r.lost\n", "            word[0] |= bits_of(r.stack[0])[0]\n            word[1] = r.lost\n"),
    'shows bit 0 with an entry alone': (RETURNED, "        word[0] = word[0] if r.fill else 0\n" + RETURNED),
    'shows bit 0 without an entry alone': (RETURNED, "        word[0] = 0 if r.fill else word[0]\n" + RETURNED),
    'shows the flag as bit 0': ("word[0] = bits_of(r.status)[0]", "word[0] = r.irq"),
    'shows the status word without an entry': (RETURNED, "        word = word if r.fill else bits_of(r.status)\n" + RETURNED),
    'shows the status word': (RETURNED, "        word = bits_of(r.status)\n" + RETURNED),
    'shows the status word merged': (RETURNED, "        word = [a | b for a, b in zip(word, bits_of(r.status))]\n" + RETURNED),
    'shows no bits 11 to 15': (OLDEST, "bits_of(r.stack[0])[2:11] + [0] * 5"),
    'shows bit 2 or 3, never both': (RETURNED, "        word[3] = word[3] and 1 - word[2]\n" + RETURNED),
    'removes the oldest': (
        RETURNED, "        if r.fill > 0:\n            r.stack, r.fill = r.stack[1:] + (0,), r.fill - 1\n" + RETURNED),
    'clears the lost mark': (RETURNED, "        r.lost = 0\n" + RETURNED),
    'clears bit 0 of the oldest entry': (RETURNED, "        r.stack = (r.stack[0] % 32768,) + r.stack[1:]\n" + RETURNED),
}
WRONG_DIA = {                                           # what a START does afterwards, so that DIAS would not show it
    'clears bit 0': (RETURNED, "        r.status %= 32768\n" + RETURNED),
    'clears the flag': (RETURNED, "        r.irq = 0\n" + RETURNED),
    'clears the flag without an entry': (RETURNED, "        r.irq = r.irq if r.fill else 0\n" + RETURNED),
    'clears the status word': (RETURNED, "        r.status = 0\n" + RETURNED),
    'sets the flag beside entries': (RETURNED, "        r.irq = int(r.irq or r.fill > 0)\n" + RETURNED),
}

# Wrong STARTs: a piece of the rule and what stands in its place.
MOVES = "            r.stack = r.stack[1:] + (0,)\n            r.fill -= 1\n"
WRONG_STARTS = {
    'removes the newest': (MOVES, "            r.fill -= 1\n            r.stack = with_word(r.stack, r.fill, 0)\n"),
    'empties the stack': (MOVES, "            r.stack, r.fill = EMPTY_STACK, 0\n"),
    'empties a stack that lost one': (
        MOVES, MOVES + "            if r.lost:\n                r.stack, r.fill = EMPTY_STACK, 0\n"),
    'removes none': (MOVES, "            pass\n"),
    'removes two': (
        MOVES, MOVES + "            r.stack, r.fill = (r.stack[1:] + (0,), r.fill - 1) if r.fill else (r.stack, 0)\n"),
    'removes none of one': ("        if r.fill > 0:\n", "        if r.fill > 1:\n"),
    'removes none of 40': ("        if r.fill > 0:\n", "        if 0 < r.fill < STACK:\n"),
    'removes none beside bit 0': ("        r.status = 0\n        if r.fill > 0:\n",
                                  "        tick, r.status = r.status >= 32768, 0\n        if r.fill > 0 and not tick:\n"),
    'removes none without the flag': ("        if r.fill > 0:\n", "        if r.fill > 0 and r.irq:\n"),
    'removes none that lost one': ("        if r.fill > 0:\n", "        if r.fill > 0 and not r.lost:\n"),
    'only counts': ("            r.stack = r.stack[1:] + (0,)\n", ""),
    'only moves': ("            r.fill -= 1\n", ""),
    'leaves the last place': (MOVED, "r.stack[1:] + r.stack[-1:]"),
    'turns the stack round': (MOVED, "r.stack[1:] + r.stack[:1]"),
    'moves the entries alone': (MOVED, "r.stack[1:r.fill] + (0,) + r.stack[r.fill:]"),
    'clears the freed place': (MOVED, "with_word(r.stack[1:] + (0,), r.fill - 1, 0)"),
    'clears every free place': (MOVED, "r.stack[1:r.fill] + (0,) * (STACK + 1 - r.fill)"),
    'moves words without an entry': ("        if r.fill > 0:\n", "        r.stack = r.stack if r.fill else r.stack[1:] + (0,)\n"
                                     "        if r.fill > 0:\n"),
    'clears words without an entry': ("        if r.fill > 0:\n", "        r.stack = r.stack if r.fill else EMPTY_STACK\n"
                                      "        if r.fill > 0:\n"),
    'moves only 39 places': (MOVED, "r.stack[1:39] + (0,) + r.stack[39:]"),
    'turns the flag off while entries remain': (FLAG, "        r.irq = 0\n"),
    'turns the flag off while one remains': (FLAG, "        r.irq = int(r.fill > 1)\n"),
    'leaves the flag on after the last': (
        "        if r.fill > 0:\n            r.stack", "        had = r.fill > 0\n        if r.fill > 0:\n            r.stack",
        FLAG, "        r.irq = int(had)\n"),
    'leaves the flag without an entry': (
        "        if r.fill > 0:\n            r.stack", "        had = r.fill > 0\n        if r.fill > 0:\n            r.stack",
        FLAG, "        r.irq = int(r.fill > 0) if had else r.irq\n"),
    'leaves the flag': (FLAG, ""),
    'turns the flag on always': (FLAG, "        r.irq = 1\n"),
    'leaves a flag that is off': (FLAG, "        r.irq = int(r.fill > 0 and r.irq)\n"),
    'leaves the flag on for bit 0': ("        r.status = 0\n", "        tick, r.status = r.status // 32768, 0\n",
                                     FLAG, "        r.irq = int(r.fill > 0 or tick)\n"),
    'leaves the flag on for a lost one': (FLAG, "        r.irq = int(r.fill > 0 or r.lost)\n"),
    'keeps bit 0': ("r.status = 0\n", "r.status -= r.status % 32768\n"),
    'keeps bit 0 while entries remain': ("r.status = 0\n", "r.status -= r.status % 32768 if r.fill > 1 else r.status\n"),
    'keeps bit 0 beside entries': ("r.status = 0\n", "r.status -= r.status % 32768 if r.fill > 0 else r.status\n"),
    'keeps bit 0 without an entry': ("r.status = 0\n", "r.status -= r.status if r.fill else r.status % 32768\n"),
    'keeps status bits 1 to 15': ("r.status = 0\n", "r.status %= 32768\n"),
    'keeps the status word': ("        r.status = 0\n", ""),
    'always clears the lost mark': (CLEARED, "        r.lost = 0\n"),
    'never clears the lost mark': (CLEARED, ""),
    'clears the lost mark with the last entry alone': (
        CLEARED, "", "            r.fill -= 1\n", "            r.fill -= 1\n            r.lost = r.lost if r.fill else 0\n"),
    'clears the lost mark without an entry alone': (
        CLEARED, "", "        if r.fill > 0:\n            r.stack",
        "        r.lost = r.lost if r.fill else 0\n        if r.fill > 0:\n            r.stack"),
    'clears the lost mark when one entry remains': ("        if r.fill == 0:\n", "        if r.fill <= 1:\n"),
    'clears the lost mark when a place is free': ("        if r.fill == 0:\n", "        if r.fill < STACK:\n"),
    'clears the lost mark when 38 entries remain': ("        if r.fill == 0:\n", "        if r.fill in (0, 38):\n"),
    'makes an EDS-8': ("        r.status = 0\n", "        r.status, r.kind = 0, EDS_8\n"),
}


def put(rule, pieces):
    """A rule with each of these pieces, found once in it, replaced by the one that follows it."""
    for old, new in zip(pieces[::2], pieces[1::2]):
        if rule.count(old) != 1:
            raise ValueError(f'found {rule.count(old)} times, not once: {old!r}')
        rule = rule.replace(old, new)
    return rule


def where(test, wrong, rule):
    """A wrong rule where the test holds, and the right one elsewhere."""
    def inside(text):
        return ''.join('    ' + line for line in text.splitlines(keepends=True))

    return f"        if {test}:\n{inside(wrong)}        else:\n{inside(rule)}"


def by_each(rule, wrongs, tests):
    """Each wrong rule in the rule's place, by each test alone."""
    return [(f'{whose} {name}', rule, where(test, put(rule, pieces), rule))
            for name, pieces in wrongs.items() for whose, test in tests.items()]


BY_SERVICE = {'inputs': "bit == 2", 'outputs': "bit == 3"}
BY_READING = {'DIA': "call == 'dia'", 'DIAS, reading,': "call == 'dias'"}
BY_START = {'START': "call == 'start'", 'DIAS': "call == 'dias'"}

INPUT_DONE = "            memory.put(block, word_of(icw))\n            self.interrupt(p, 2)\n"
OUTPUT_WRITTEN = "        memory.put(block + 1, word_of(ocw))\n        self.hit('output: done'"
OUTPUT_DONE = "            self.interrupt(p, 3)\n"
NOT_RAISED = f"            lost = {FULL}\n{{}}            done = not lost\n"
SERVES = "        if port.held:\n            self.hit('turn: input')"
DIAS_READS = "        value = self.read_status('dias')\n        self.clear_status('dias')\n"
TICKS = "            self.record.irq = 1\n"
TICKS_STATUS = "            self.record.status = word_of(status)\n"
PUSHES = ("            if {} and self.record.fill < STACK:\n"
          "                self.record.stack = with_word(self.record.stack, self.record.fill, {})\n"
          "                self.record.fill += 1\n")
STOPS = "            if answer.raised:\n"
MADE_KIND = "            made.kind = kind\n"
EDS_8_STARTS, EDS_8_READS = "        r.irq = r.status = 0\n", "        return r.status\n"
EDS_8_RAISES = "        r.status = word_of(status)\n        r.irq = 1\n"
IS_MIGHTY = "r.kind == MIGHTY_MUX"                      # where a call asks for the kind
BY_KIND = {what: f"        if {IS_MIGHTY}:\n            {then}\n" for what, then in (
    ('START', "self.remove_oldest(call)"), ('DIA', "return self.oldest(call)"), ('interrupt', "self.queue(p, bit)"))}
REMOVAL = ("self.record.stack, self.record.fill = "
           "(self.record.stack[1:] + (0,), self.record.fill - 1) if self.record.fill else (self.record.stack, 0)")

# Of the forty-deep interrupt stack (02, K6).
STACK_MUTANTS = [
    *by_each(QUEUES, WRONG_QUEUES, BY_SERVICE),
    *by_each(ENTRY, WRONG_ENTRIES, BY_SERVICE),
    *by_each(READS, WRONG_READINGS, BY_READING),
    *by_each(READS, WRONG_DIA, {'DIA': "call == 'dia'"}),
    *by_each(REMOVES, WRONG_STARTS, BY_START),
    ('last in, first out', OLDEST, WRONG_READINGS['shows the newest'][1], MOVES, WRONG_STARTS['removes the newest'][1]),
    ('DIAS does START before reading', DIAS_READS,
     f"        if {MIGHTY}:\n            self.clear_status('dias')\n            value = self.read_status('dias')\n"
     "        else:\n            value = self.read_status('dias')\n            self.clear_status('dias')\n"),
    ('DIAS does no START', DIAS_READS,
     f"        value = self.read_status('dias')\n        if not {MIGHTY}:\n            self.clear_status('dias')\n"),
    ('DIAS does START twice', DIAS_READS, DIAS_READS + f"        if {MIGHTY}:\n            self.clear_status('dias')\n"),

    # The service of an interrupt that is lost.
    ('lost input not raised in the answer', INPUT_DONE, NOT_RAISED.format(INPUT_DONE)),
    ('lost output not raised in the answer', OUTPUT_DONE, NOT_RAISED.format(OUTPUT_DONE)),
    ('lost interrupt not raised in the answer', INPUT_DONE, NOT_RAISED.format(INPUT_DONE),
     OUTPUT_DONE, NOT_RAISED.format(OUTPUT_DONE)),
    ("queued interrupt not raised in a Mighty Mux's answer", INPUT_DONE, INPUT_DONE + f"            done = not {MIGHTY}\n"),
    ("lost input's ICW not written", INPUT_DONE,
     f"            if not {FULL}:\n                memory.put(block, word_of(icw))\n            self.interrupt(p, 2)\n"),
    ("lost input's ICW written without INDONE", INPUT_DONE,
     f"            icw[0] = int(not {FULL})\n" + INPUT_DONE),
    ("lost output's OCW not written", OUTPUT_WRITTEN,
     f"        if not (done and {FULL}):\n            memory.put(block + 1, word_of(ocw))\n        self.hit('output: done'"),
    ("lost output's OCW written without OUTDONE", OUTPUT_WRITTEN,
     f"        ocw[0] = int(done and not {FULL})\n" + OUTPUT_WRITTEN),
    ('service waits while the stack is full', SERVES,
     f"        if {FULL}:\n            return Answer(IDLE, p, 0, 0, 0)\n" + SERVES),
    ('position stays at a lost interrupt', OUTPUT_DONE,
     f"            self.record.pos = p if {FULL} else self.record.pos\n" + OUTPUT_DONE),
    ('character kept at a lost interrupt', INPUT_DONE,
     f"            if {FULL}:\n                self.change(p, held=1, byte=port.byte)\n" + INPUT_DONE),
    ('sweep goes on after a lost interrupt', STOPS, f"            if answer.raised and not (full and {MIGHTY}):\n"),
    ('sweep goes on after a queued interrupt', STOPS, f"            if answer.raised and (full or not {MIGHTY}):\n"),
    ('sweep goes on until the stack is full', STOPS,
     f"            if answer.raised and (self.record.fill == STACK or not {MIGHTY}):\n"),
    ('sweep of a full stack makes none', "        made = used = 0\n",
     f"        made = used = 0\n        n = 0 if {FULL} else n\n"),
    ('sweep counts a lost interrupt twice', "        return 0, made, used\n",
     f"        return 0, made + ({FULL} and self.record.lost), used\n"),
    ('sweep stops where entries wait', STOPS, f"            if answer.raised or ({MIGHTY} and self.record.fill > 1):\n"),

    # The clock, of a Mighty Mux.
    ('tick pushes an entry', TICKS, TICKS + PUSHES.format(MIGHTY, 32768)),
    ('tick pushes an entry of 0', TICKS, TICKS + PUSHES.format(MIGHTY, 0)),
    ('tick at a full stack sets the lost mark', TICKS,
     TICKS + f"            if {FULL}:\n                self.record.lost = 1\n"),
    ('tick does not set the flag', TICKS, f"            self.record.irq = self.record.irq if {MIGHTY} else 1\n"),
    ('tick sets the flag without entries alone', TICKS,
     f"            self.record.irq = self.record.irq if {MIGHTY} and self.record.fill else 1\n"),
    ('tick does not set bit 0', TICKS_STATUS,
     f"            self.record.status = self.record.status if {MIGHTY} else word_of(status)\n"),
    ('tick does not set bit 0 beside entries', TICKS_STATUS,
     f"            self.record.status = self.record.status if {MIGHTY} and self.record.fill else word_of(status)\n"),
    ('tick sets bit 0 of the oldest entry', TICKS_STATUS,
     f"            if {MIGHTY} and self.record.fill:\n"
     "                self.record.stack = (self.record.stack[0] | 32768,) + self.record.stack[1:]\n"
     f"            else:\n    {TICKS_STATUS}"),
    ('tick clears the other status bits', TICKS_STATUS,
     f"            self.record.status = 32768 if {MIGHTY} else word_of(status)\n"),
    ('tick of an EDS-8 pushes an entry', TICKS, TICKS + PUSHES.format("not " + MIGHTY, 32768)),
    ('tick without the clock on a Mighty Mux', "        if self.record.clock:\n",
     f"        if self.record.clock or {MIGHTY}:\n"),

    # Reset.
    ('reset keeps the lost mark', RESETS, "        r.fill = 0 "),
    ('reset keeps the entries', RESETS, "        r.lost = 0 ", RESETS_STACK, ""),
    ('reset keeps the number of entries', RESETS, "        r.lost = 0 "),
    ('reset keeps the words', RESETS_STACK, ""),
    ('reset keeps one entry', RESETS, "        r.fill, r.lost = min(r.fill, 1), 0 ", RESETS_STACK,
     "        r.stack = r.stack[:r.fill] + EMPTY_STACK[r.fill:]\n"),
    ('reset removes one entry', RESETS, "        r.fill, r.lost = max(r.fill - 1, 0), 0 ",
     RESETS_STACK, "        r.stack = r.stack[1:] + (0,)\n"),
    ('reset keeps words past the last entry', RESETS, "        fill, r.lost, r.fill = r.fill, 0, 0 ",
     RESETS_STACK, "        r.stack = EMPTY_STACK[:fill] + r.stack[fill:]\n"),
    ('reset keeps the last place', RESETS_STACK, "        r.stack = EMPTY_STACK[1:] + r.stack[-1:]\n"),
    ('reset keeps the first place', RESETS_STACK, "        r.stack = r.stack[:1] + EMPTY_STACK[1:]\n"),
    ('reset keeps words without an entry', RESETS, "        fill, r.lost, r.fill = r.fill, 0, 0 ",
     RESETS_STACK, "        r.stack = EMPTY_STACK if fill else r.stack\n"),
    *[(f'reset keeps all of the stack, {kind}',
       RESETS, f"        r.lost, r.fill = (r.lost, r.fill) if r.kind == {kind} else (0, 0) ",
       RESETS_STACK, f"        r.stack = r.stack if r.kind == {kind} else EMPTY_STACK\n") for kind in ('EDS_8', 'MIGHTY_MUX')],
    ('reset keeps the lost mark, EDS-8', RESETS, "        r.lost, r.fill = 0 if r.kind else r.lost, 0 "),
    ('reset keeps bit 0', "r.runs = r.clock = r.irq = r.status = r.pos = 0",
     "r.status -= r.status % 32768 if r.kind else r.status\n        r.runs = r.clock = r.irq = r.pos = 0"),
    ('reset keeps the flag', "r.runs = r.clock = r.irq = r.status = r.pos = 0",
     "r.irq = r.irq if r.kind else 0\n        r.runs = r.clock = r.status = r.pos = 0"),
    ('reset keeps the status word', "r.runs = r.clock = r.irq = r.status = r.pos = 0",
     "r.status = r.status if r.kind else 0\n        r.runs = r.clock = r.irq = r.pos = 0"),
    ('reset loses the kind', RESETS, "        r.kind = EDS_8\n" + RESETS),
    ('reset makes a Mighty Mux', RESETS, "        r.kind = MIGHTY_MUX\n" + RESETS),

    # Setup and the kind.
    *[(f'setup gives {name}', MADE_KIND, f"            made.kind = {wrong}\n") for name, wrong in (
        ('an EDS-8', "EDS_8"), ('a Mighty Mux', "MIGHTY_MUX"), ('the kind that the unit has', "self.record.kind"),
        ('the other kind', "1 - kind"), ('an EDS-8 in blocks of 8', "kind and int(b > 8)"),
        ('an EDS-8 in blocks of 32', "kind and int(b < 32)"), ('an EDS-8 of one port', "kind and int(ports > 1)"))],
    *[(f'setup gives {name}', MADE_KIND, MADE_KIND + wrong) for name, wrong in (
        ('the entries of the unit', "            made.stack, made.fill = self.record.stack, self.record.fill\n"),
        ('the lost mark of the unit', "            made.lost = self.record.lost\n"),
        ('the words of the unit', "            made.stack = self.record.stack\n"),
        ('the status word of the unit', "            made.status = self.record.status\n"),
        ('the flag of the unit', "            made.irq = self.record.irq\n"),
        ('a Mighty Mux with its flag on', "            made.irq = kind\n"),
        ('a Mighty Mux with its lost mark set', "            made.lost = kind\n"),
        ('a Mighty Mux that runs', "            made.runs = kind\n"))],
    ('refused setup keeps the kind', MADE, MADE + "        made.kind = kind\n"),
    ('refused setup gives the kind of the unit', MADE, MADE + "        made.kind = self.record.kind\n"),
    ('refused setup gives a Mighty Mux', "self.kind = EDS_8\n", "self.kind = MIGHTY_MUX\n"),
    ('refused setup gives the entries of the unit', MADE,
     MADE + "        made.stack, made.fill = (self.record.stack, self.record.fill) if code else (EMPTY_STACK, 0)\n"),
    ('refused setup changes the kind of the unit', SETUP_ASKS,
     SETUP_ASKS + "        self.record.kind = kind if code else self.record.kind\n"),
    ('refused setup empties the stack of the unit', SETUP_ASKS,
     SETUP_ASKS + "        self.record.fill = 0 if code else self.record.fill\n"),
    ('setup of a Mighty Mux refused', SETUP_ASKS, SETUP_ASKS + "        code = code or (4 if kind else 0)\n"),
    ("setup of a Mighty Mux asks no row 3", SETUP_ASKS, SETUP_ASKS + "        code = 0 if kind and code == 3 else code\n"),
    ('setup asks the old record', SETUP_ASKS, SETUP_ASKS + "        code = code or (4 if self.record.fill > STACK else 0)\n"),
    ('kind kept from setup, whatever the record has since', MADE_KIND, MADE_KIND + "            self.given = kind\n",
     BY_KIND['interrupt'], BY_KIND['interrupt'].replace("r.kind", "getattr(self, 'given', r.kind)")),

    # Soundness.
    *[(name, TOO_MANY, f"        if {wrong}:\n") for name, wrong in (
        ('40 entries unsound', "r.fill >= STACK"), ('41 entries sound', "r.fill > STACK + 1"),
        ('42 entries sound', "r.fill > STACK and r.fill != 42"),
        ('any number of entries sound', "False"), ('all entries sound', "STACK < r.fill < 4294967295"),
        ('too many entries unsound in a Mighty Mux alone', "r.fill > STACK and r.kind == MIGHTY_MUX"),
        ('too many entries unsound in an EDS-8 alone', "r.fill > STACK and r.kind == EDS_8"),
        ('40 entries unsound in an EDS-8', "r.fill > STACK or (r.fill == STACK and r.kind == EDS_8)"),
        ('40 entries unsound in a Mighty Mux', "r.fill > STACK or (r.fill == STACK and r.kind == MIGHTY_MUX)"),
        ('number of entries cut to 8 bits', "r.fill % 256 > STACK"),
        ('number of entries cut to 16 bits', "r.fill % 65536 > STACK"),
        ('number of entries cut to 31 bits', "r.fill % 2147483648 > STACK"),
        ('number of entries taken with a sign', "STACK < r.fill < 2147483648"),
        ('an EDS-8 with an entry unsound', "r.fill > STACK or (r.fill and r.kind == EDS_8)"),
        ('an EDS-8 with a lost mark unsound', "r.fill > STACK or (r.lost and r.kind == EDS_8)"),
        ('an EDS-8 with words in its stack unsound', "r.fill > STACK or (any(r.stack) and r.kind == EDS_8)"),
        ('words past the last entry unsound', "r.fill > STACK or any(r.stack[r.fill:])"),
        ('words past the last entry unsound in a Mighty Mux',
         "r.fill > STACK or (any(r.stack[r.fill:]) and r.kind == MIGHTY_MUX)"),
        ('a lost mark without an entry unsound', "r.fill > STACK or (r.lost and not r.fill and r.kind == MIGHTY_MUX)"),
        ('a lost mark with a free place unsound', "r.fill > STACK or (r.lost and r.fill < STACK and r.kind == MIGHTY_MUX)"),
        ('entries with the flag off unsound', "r.fill > STACK or (r.fill and not r.irq and r.kind == MIGHTY_MUX)"),
        ('status bits 1 to 15 unsound in a Mighty Mux', "r.fill > STACK or (r.status % 32768 and r.kind == MIGHTY_MUX)"),
        ('entries with bit 0 or 1 unsound', "r.fill > STACK or any(word > 16383 for word in r.stack[:r.fill])"),
        ('entries with neither bit 2 nor 3 unsound', "r.fill > STACK or not all(word & 12288 for word in r.stack[:r.fill])"))],
    *[(f'too many entries asked {when}', TOO_MANY, "        if False:\n", row, ASKED_LATE + row) for when, row in (
        ('after the memory', "        if port is not None and port >= self.record.ports:\n"),
        ('after the port', "        if inspections is not None and inspections > 4096:\n"),
        ('after the count', "        if inspections is not None and self.lent_places < inspections:\n"),
        ('last', "        return 0\n\n    def refusal("))],
    *[(f'{call} accepted with too many entries', "        code = self.table(memory, port, inspections)\n",
       f"        fill = self.record.fill\n        if call == '{call}':\n            self.record.fill = 0\n"
       "        code = self.table(memory, port, inspections)\n        self.record.fill = fill if code else min(fill, STACK)\n")
      for call in ('start', 'dia', 'dias', 'tick', 'reset', 'arrival', 'inspect', 'sweep', 'doc')],
    ('too many entries mended by a refused call', "            self.hit(f'unsound: too many",
     "            r.fill = STACK\n            self.hit(f'unsound: too many"),
    *[(f'stack of {places} places', "STACK = 40 ", f"STACK = {places} ") for places in (39, 41, 32, 64)],

    # An EDS-8 leaves the stack alone.
    ('EDS-8 pushes entries', EDS_8_RAISES, EDS_8_RAISES + "        if r.fill < STACK:\n"
     "            r.stack, r.fill = with_word(r.stack, r.fill, self.entry(p, bit)), r.fill + 1\n"),
    ('EDS-8 pushes an entry beside others', EDS_8_RAISES, EDS_8_RAISES + "        if 0 < r.fill < STACK:\n"
     "            r.stack, r.fill = with_word(r.stack, r.fill, self.entry(p, bit)), r.fill + 1\n"),
    ('EDS-8 writes an entry and does not count it', EDS_8_RAISES,
     EDS_8_RAISES + "        r.stack = with_word(r.stack, 0, self.entry(p, bit))\n"),
    ('EDS-8 with 40 entries sets the lost mark', EDS_8_RAISES, EDS_8_RAISES + "        r.lost |= int(r.fill == STACK)\n"),
    ('EDS-8 with 40 entries raises nothing', EDS_8_RAISES,
     "        if r.fill < STACK:\n            r.status = word_of(status)\n            r.irq = 1\n"),
    ('EDS-8 interrupt clears the lost mark', EDS_8_RAISES, EDS_8_RAISES + "        r.lost = 0\n"),
    ('EDS-8 START empties the stack', EDS_8_STARTS,
     EDS_8_STARTS + "        r.fill, r.stack = 0, EMPTY_STACK\n"),
    ('EDS-8 START removes the oldest', EDS_8_STARTS, EDS_8_STARTS + f"        {REMOVAL}\n"),
    ('EDS-8 START clears the lost mark', EDS_8_STARTS, EDS_8_STARTS + "        r.lost = 0\n"),
    ('EDS-8 START clears the lost mark without an entry', EDS_8_STARTS,
     EDS_8_STARTS + "        r.lost = r.lost if r.fill else 0\n"),
    ('EDS-8 flag stays on while entries remain', EDS_8_STARTS,
     "        r.status = 0\n        r.irq = int(r.fill > 0)\n"),
    ('EDS-8 DIA shows an entry', EDS_8_READS,
     "        return r.stack[0] if r.fill else r.status\n"),
    ('EDS-8 DIA shows the lost mark', EDS_8_READS, "        return r.status | 16384 * r.lost\n"),
    ('EDS-8 DIA shows bit 0 alone', EDS_8_READS, "        return r.status // 32768 * 32768\n"),
    ('EDS-8 has the stack', *[text for asks in BY_KIND.values() for text in (asks, asks.replace(IS_MIGHTY, "True"))]),
    ('Mighty Mux has the merged status word',
     *[text for asks in BY_KIND.values() for text in (asks, asks.replace(IS_MIGHTY, "False"))]),
    *[(f'Mighty Mux {what} as an EDS-8', asks, asks.replace(IS_MIGHTY, "False")) for what, asks in BY_KIND.items()],
    ('Mighty Mux interrupt as both', BY_KIND['interrupt'] + "            return\n", BY_KIND['interrupt']),
    ('one stack for every record', "        self.stack = EMPTY_STACK ", "        pass ",
     "class Record:\n", "class Record:\n    stack = EMPTY_STACK\n",
     "            r.stack = with_word(r.stack, r.fill, self.entry(p, bit))\n",
     "            Record.stack = with_word(r.stack, r.fill, self.entry(p, bit))\n"),

    # Every other call keeps the kind, the entries, the words and the lost mark.
    *[(f'{call} {loses}', change, f"{change[:len(change) - len(change.lstrip())]}{wrong}\n{change}")
      for call, change in CHANGES.items() for loses, wrong in (
          ('makes an EDS-8', "self.record.kind = EDS_8"), ('makes a Mighty Mux', "self.record.kind = MIGHTY_MUX"),
          ('drops the entries', "self.record.fill = 0"), ('clears the words', "self.record.stack = EMPTY_STACK"),
          ('clears the lost mark', "self.record.lost = 0"), ('sets the lost mark', "self.record.lost = 1"),
          ('removes an entry', REMOVAL))
      if call != 'reset' and (call, loses) not in (('START', 'makes an EDS-8'), ('interrupt', 'makes an EDS-8'))],
]


# The row of a Mighty Mux's bases (02, K7), and where soundness and a call ask the rows.
ASKS_12 = "kind == MIGHTY_MUX and base % 0o400 != 0"
SOUND_ASKS = "self.setup_refusal(r.block, r.ports, r.base, r.kind)"
FORGETS = "        if code:\n            self.hit(f'unsound: setup"
CALL_ASKS = "        code = self.table(memory, port, inspections)\n"
NOTES_BASE = "                self.note_unsound_base()\n"
BASE_LATE = f"        if {SOUND_ASKS.replace('r.', 'self.record.')} == 12:\n            return 6\n"

# When the other rows do not apply, so that row 12 may stand above them and err beside one of them alone.
PASSES = {1: "b in BLOCKS", 2: "0 < ports <= 128", 3: "b and base % (8 * b) == 0", 11: "base <= 32767"}
CROSSES = "base // (128 * b) != (base + ports * b - 1) // (128 * b)"

# Wrong rules of row 12.
WRONG_12 = {
    'for both kinds': "base % 0o400 != 0",
    'never': "False",
    'for an EDS-8 alone': "kind == EDS_8 and base % 0o400 != 0",
    'for a multiple of octal 400': "kind == MIGHTY_MUX and base % 0o400 == 0",
    'for every Mighty Mux': "kind == MIGHTY_MUX",
    **{f'by {name}': f"kind == MIGHTY_MUX and {wrong} != 0" for name, wrong in (
        ('octal 100', "base % 0o100"), ('octal 200', "base % 0o200"), ('octal 300', "base % 0o300"),
        ('octal 1000', "base % 0o1000"), ('octal 2000', "base % 0o2000"),
        ('octal 40000', "base % 0o40000"), ('decimal 400', "base % 400"), ('octal 377', "base % 0o377"),
        ('octal 401', "base % 0o401"), ('hexadecimal 400', "base % 0x400"),
        ('8b', "base % (8 * b)"), ('8b doubled', "base % (16 * b)"), ('8b four times', "base % (32 * b)"),
        ('8b eight times', "base % (64 * b)"), ('the stretch of 128 blocks', "base % (128 * b)"),
        ('the end of the area', "(base + ports * b) % 0o400"), ('the last block', "(base + ports * b - b) % 0o400"),
        ('the end as well', "(base % 0o400 or (base + ports * b) % 0o400)"),
        ('the end where the base is wrong', "base % 0o400 * ((base + ports * b) % 0o400)"),
        ('the area in words', "(ports * b) % 0o400"),
        ("the base's odd 64", "base & 0o100"), ("the base's odd 128", "base & 0o200"), ("the base's odd 256", "base & 0o400"),
        ('the base in bytes', "2 * base % 0o400"), ('half the base', "base // 2 % 0o400"),
        ('the eight top bits', "base // 0o400"))},
    **{f'only {name}': f"{ASKS_12} and {where}" for name, where in (
        ('above octal 400', "base > 0o400"), ('below octal 400', "base < 0o400"), ('below 1024', "base < 1024"),
        ('below 16384', "base < 16384"), ('above 16384', "base > 16384"), ('below the last base', "base < 32512"),
        ('in blocks of 8', "b == 8"), ('in blocks of 16', "b == 16"), ('of one port', "ports == 1"),
        ('of more ports than one', "ports > 1"), ('of eight ports or more', "ports >= 8"),
        ('of fewer ports than 128', "ports < 128"), ('at odd multiples of 64', "base % 128 != 0"),
        ('at odd multiples of 128', "base % 128 == 0"),
        *((f'elsewhere than at {base}', f"base != {base}") for base in (64, 128, 192, 320, 384, 1600, 3200, 32640, 32704)))},
    **{f'also {name}': f"kind == MIGHTY_MUX and (base % 0o400 != 0 or {where})" for name, where in (
        ('at 0', "base == 0"), ('at octal 400', "base == 256"), ('at 512', "base == 512"), ('at 768', "base == 768"),
        ('at the last base', "base == 32512"), ('at all bases but octal 36000', "base != 0o36000"),
        ('at odd multiples', "base & 0o400"), ('in blocks of 8', "b == 8"), ('in blocks of 16', "b == 16"),
        ('in blocks of 32', "b == 32"), ('of more ports than 32', "ports > 32"), ('of more ports than 64', "ports > 64"))},
    **{f'not before 4 in blocks of {b}': f"{ASKS_12} and not (b == {b} and {CROSSES})" for b in (8, 16)},
}


def row(number, rule):
    """A row of setup's table."""
    return f"    {number}: lambda b, ports, base, kind: {rule},\n"


def of_an_eds_8(number):
    """A row as it stands, for an EDS-8 alone."""
    return row(number, f"kind == EDS_8 and ({ROWS[number].split('kind: ')[1][:-2]})")


# Of the bases of a Mighty Mux (02, K7).
BASE_MUTANTS = [
    *[(f'12 {name}', ROWS[12], row(12, wrong)) for name, wrong in WRONG_12.items()],

    # Its place.
    ('12 asked after 4', ROWS[12] + ROWS[4], ROWS[4] + ROWS[12]),
    ('12 asked before 11', ROWS[11] + ROWS[12], ROWS[12] + ROWS[11]),
    ('12 asked before 3', ROWS[3] + ROWS[11] + ROWS[12], ROWS[12] + ROWS[3] + ROWS[11]),
    ('12 asked before 3, after 11', ROWS[3] + ROWS[11] + ROWS[12], ROWS[11] + ROWS[12] + ROWS[3]),
    ('12 asked before 2', ROWS[2] + ROWS[3] + ROWS[11] + ROWS[12], ROWS[12] + ROWS[2] + ROWS[3] + ROWS[11]),
    ('12 asked before 1', ROWS[1] + ROWS[2] + ROWS[3] + ROWS[11] + ROWS[12], ROWS[12] + ROWS[1] + ROWS[2] + ROWS[3] + ROWS[11]),
    *[(f'12 asked before {number}, after the others', ROWS[1] + ROWS[2] + ROWS[3] + ROWS[11] + ROWS[12],
       row(12, ' and '.join([ASKS_12, *(passes for other, passes in PASSES.items() if other != number)]))
       + ROWS[1] + ROWS[2] + ROWS[3] + ROWS[11]) for number in PASSES],
    ('11 asked after 12 and 4', ROWS[11] + ROWS[12] + ROWS[4], ROWS[12] + ROWS[4] + ROWS[11]),

    # Its number.
    *[(f'12 given as {number}', SETUP_ASKS, SETUP_ASKS + f"        code = {number} if code == 12 else code\n")
      for number in (0, 1, 2, 3, 4, 11)],
    *[(f'12 given as {number}', "    12: lambda", f"    {number}: lambda") for number in (5, 6, 10, 13, 20)],
    *[(f'12 given for {number}', SETUP_ASKS, SETUP_ASKS + f"        code = 12 if kind and code == {number} else code\n")
      for number in (1, 2, 3, 4, 11)],
    *[(f'12 given for {number}, in blocks of 32', SETUP_ASKS,
       SETUP_ASKS + f"        code = 12 if kind and b == 32 and base % 256 and code == {number} else code\n")
      for number in (2, 3)],
    ('12 given for 3, of an EDS-8', SETUP_ASKS, SETUP_ASKS + "        code = 12 if not kind and code == 3 else code\n"),
    ('3 stricter for a Mighty Mux', "base % (8 * b) != 0,", "base % (0o400 if kind == MIGHTY_MUX else 8 * b) != 0,"),
    ('11 and 12 exchanged', ROWS[11] + ROWS[12], ROWS[11].replace("11:", "12:") + ROWS[12].replace("12:", "11:")),

    # The other rows of a Mighty Mux.
    *[(f'{number} not asked of a Mighty Mux', ROWS[number], of_an_eds_8(number)) for number in (1, 2, 3, 11, 4)],
    ('3 of a Mighty Mux by octal 400 alone', "base % (8 * b) != 0,", "base % (8 * b) != 0 and (kind == EDS_8 or b == 32),"),
    ('2 of a Mighty Mux above 64', "ports > 128,", "ports > (64 if kind == MIGHTY_MUX else 128),"),
    ('2 of a Mighty Mux above 256', "ports > 128,", "ports > (256 if kind == MIGHTY_MUX else 128),"),
    ('11 of a Mighty Mux above 65535', "kind: base > 32767", "kind: base > (65535 if kind == MIGHTY_MUX else 32767)"),
    ('11 of a Mighty Mux from its last base on', "kind: base > 32767",
     "kind: base > (32511 if kind == MIGHTY_MUX else 32767)"),
    ('4 of a Mighty Mux by twice the stretch', CROSSES, CROSSES.replace("128 * b", "(128 + 128 * kind) * b")),
    ('4 of a Mighty Mux by half the stretch', CROSSES, CROSSES.replace("128 * b", "(128 - 64 * kind) * b")),
    ('4 of a Mighty Mux one port early', CROSSES, CROSSES.replace("ports * b", "(ports + kind) * b")),
    ('4 of a Mighty Mux one port late', CROSSES, CROSSES.replace("ports * b", "(ports - kind) * b")),

    # Setup.
    ('such a base lowered', SETUP_ASKS, SETUP_ASKS + "        if code == 12:\n            base -= base % 256\n"
     "            code = self.setup_refusal(b, ports, base, kind)\n"),
    ('such a base raised', SETUP_ASKS, SETUP_ASKS + "        if code == 12:\n            base += -base % 256\n"
     "            code = self.setup_refusal(b, ports, base, kind)\n"),
    ('such a unit set up as an EDS-8', SETUP_ASKS, SETUP_ASKS + "        if code == 12:\n            kind = EDS_8\n"
     "            code = self.setup_refusal(b, ports, base, kind)\n"),
    *[(f'setup takes every unit for {name}', SETUP_ASKS, SETUP_ASKS.replace("kind)", f"{wrong})")) for name, wrong in (
        ('an EDS-8', "EDS_8"), ('a Mighty Mux', "MIGHTY_MUX"), ('the other kind', "1 - kind"),
        ('the kind of the one before', "self.record.kind"), ('a Mighty Mux after one', "kind or self.record.kind"),
        ('an EDS-8 after one', "kind and self.record.kind"))],
    ('12 gives a Mighty Mux', MADE, MADE + "        made.kind = kind if code == 12 else EDS_8\n"),
    ('12 gives the sizes', MADE,
     MADE + "        if code == 12:\n            made.block, made.ports, made.base = b, ports, base\n"),
    ('12 gives fresh ports', MADE, MADE + "        if code == 12:\n            made.port = [FRESH_PORT] * ARRAY\n"),
    *[(f'12 {name}', SETUP_ASKS, SETUP_ASKS + f"        if code == 12:\n            {wrong}\n") for name, wrong in (
        ('makes the unit a Mighty Mux', "self.record.kind = MIGHTY_MUX"),
        ('makes the unit an EDS-8', "self.record.kind = EDS_8"),
        ('stops the unit', "self.record.runs = 0"), ('empties the stack of the unit', "self.record.fill = 0"),
        ('moves the unit', "self.record.base = 0"))],

    # Soundness.
    ('soundness forgets row 12', FORGETS, FORGETS.replace("if code:", "if code and code != 12:")),
    *[(f'soundness forgets row 12 {name}', FORGETS, FORGETS.replace("if code:", f"if code and not (code == 12 and {where}):"))
      for name, where in (
          ('in blocks of 8', "r.block == 8"), ('in blocks of 16', "r.block == 16"), ('at 64', "r.base == 64"),
          ('at 192', "r.base == 192"), ('at 128', "r.base == 128"), ('above octal 400', "r.base > 256"),
          ('below octal 400', "r.base < 256"), ('at the last bases', "r.base > 32512"), ('in a stopped unit', "not r.runs"),
          ('in a running unit', "r.runs"), ('with no entry', "not r.fill"), ('with entries', "r.fill"),
          ('with the flag off', "not r.irq"), ('with the flag on', "r.irq"))],
    *[(f'soundness takes every record for {name}', SOUND_ASKS, SOUND_ASKS.replace("r.kind", wrong)) for name, wrong in (
        ('an EDS-8', "EDS_8"), ('a Mighty Mux', "MIGHTY_MUX"), ('the other kind', "1 - r.kind"))],
    ('soundness asks the kind of the last setup', SETUP_ASKS, "        self.given = kind\n" + SETUP_ASKS,
     SOUND_ASKS, SOUND_ASKS.replace("r.kind", "getattr(self, 'given', r.kind)")),
    ('soundness asks the kind of the last setup that was accepted', MADE_KIND, MADE_KIND + "            self.given = kind\n",
     SOUND_ASKS, SOUND_ASKS.replace("r.kind", "getattr(self, 'given', r.kind)")),
    ('soundness asks row 12 alone of a Mighty Mux', FORGETS,
     FORGETS.replace("if code:", "if code and (r.kind == EDS_8 or code == 12):")),
    ('soundness refuses every Mighty Mux', FORGETS, "        code = code or 12 * r.kind\n" + FORGETS),
    ('soundness by octal 200', SOUND_ASKS, SOUND_ASKS.replace("r.base,", "r.base * (2 if r.base < 16384 else 1),")),
    ('base lowered by a refused call', NOTES_BASE, "                r.base -= r.base % 256\n"),
    ('EDS-8 made by a refused call', NOTES_BASE, "                r.kind = EDS_8\n"),
    *[(f'12 of a record asked {when}', FORGETS, FORGETS.replace("if code:", "if code and code != 12:"), line, BASE_LATE + line)
      for when, line in (
          ('after the memory', "        if port is not None and port >= self.record.ports:\n"),
          ('after the port', "        if inspections is not None and inspections > 4096:\n"),
          ('after the count', "        if inspections is not None and self.lent_places < inspections:\n"),
          ('last', "        return 0\n\n    def refusal("))],
    *[(f'{call} accepted of a Mighty Mux at such a base', CALL_ASKS,
       f"        kind = self.record.kind\n        self.record.kind = EDS_8 if call == '{call}' else kind\n{CALL_ASKS}"
       "        self.record.kind = kind\n") for call in mux2.CALLS],
    *[(f'{call} refused of an EDS-8 at such a base', CALL_ASKS,
       f"{CALL_ASKS}        code = 6 if call == '{call}' and self.record.base % 256 else code\n") for call in mux2.CALLS],
]


# Framing (02, K3), as wire2.py has it: how long a frame is, what writing and reading ask, what an arrival is given.
LONG = "return 2 * (1 + form.bits + (form.parity != NONE)) + form.stops"
CUTS, BAUDS = "    data = cut(form, character)\n", "[SPACE] + data + parity_bits(form, data) + [MARK, MARK]"
SOUNDS = "(baud, baud)"
HAS_ROOM = "        if room < length(form):\n"
NO_ROOM = "            return NO_ROOM, 0\n"
WRITTEN = "        cells = frame(form, byte)\n        self.cells[self.first:self.first + len(cells)] = bytes(cells)\n"
USED = "        return 0, len(cells)\n"
LEVEL = "SPACE if cell == 0 else MARK for cell in cells[:length(form)]"
LONG_ENOUGH = "    if len(cells) < length(form):\n        return Reading(TOO_SHORT, 0, 0, 0)\n"
APART = "    start, data, parity, stop = taken_apart(form, cells)\n"
IS_FRAME = "start != (SPACE, SPACE) or any(first != second for first, second in data + parity)"
NOT_FRAME = "        return Reading(NO_FRAME, 0, 0, 0)\n"
FIRST_HALVES = "    bits = [first for first, second in data]\n"
BYTE = "    byte = sum(bit * 2 ** place for place, bit in enumerate(bits))\n"
WRONG_PARITY = "    wrong = [first for first, second in parity] != parity_bits(form, bits)\n"
GIVEN = "    return Reading(0, byte, int(wrong), int(SPACE in stop))\n"
READS_USED = "        return (*reading, 0 if reading.code else length(form))\n"
READS_LENT = "        cells = self.lent()\n        reading = read(form, cells)\n"
NUMBERS = "NO_ROOM, TOO_SHORT, NO_FRAME = 18, 19, 20 "
ITS_FORM = "        form = form_of(mux.record.port[port % mux2.ARRAY].control)\n"
ARRIVES = "            called = mux.arrival(port, reading.byte, reading.parity, reading.brk)\n"
IF_READ = "        if reading.code == 0:\n            called"
ARRIVED = "        return (*reading, called)\n"


def stored(count, cells):
    """A statement that puts so many cells into the list, from its first on."""
    return f"self.cells[self.first:self.first + {count}] = bytes({cells})\n"


# Wrong lengths of a frame, for writing and reading alike.
WRONG_LENGTHS = {
    'one stop cell too few': "form.stops - 1", 'one stop cell too many': "form.stops + 1",
    'one and a half stops as two': "(form.stops if form.stops != 3 else 4)",
    'one and a half stops as one': "(form.stops if form.stops != 3 else 2)",
    'one and a half stops with 5 bits alone': "(4 if form.stops == 3 and form.bits > 5 else form.stops)",
    'two stops as one and a half': "min(form.stops, 3)", 'two stops as one and a half with 5 bits':
    "(3 if form.stops == 4 and form.bits == 5 else form.stops)", 'two stops as one': "(form.stops if form.stops != 4 else 2)",
    'one stop as two': "max(form.stops, 3 if form.stops == 3 else 4)", 'one stop as one and a half': "max(form.stops, 3)",
    'one stop as one cell': "(form.stops if form.stops != 2 else 1)",
    **{f'a cell too few at {bits} bits': f"form.stops - (form.bits == {bits})" for bits in (5, 6, 7, 8)},
}

# Wrong parity bits of `data`, each put in for writing alone and for reading alone.
WRONG_PARITIES = {
    'odd and even exchanged': "[1 - bit for bit in parity_bits(form, data)]",
    'odd always': "parity_bits(form._replace(parity=form.parity and ODD), data)",
    'even always': "parity_bits(form._replace(parity=form.parity and EVEN), data)",
    'always a space': "[0 for _ in parity_bits(form, data)]",
    'always a mark': "[1 for _ in parity_bits(form, data)]",
    'a count of the zeros': "parity_bits(form, [1 - bit for bit in data])",
    'the first bit not counted': "parity_bits(form, data[1:])",
    'the last bit not counted': "parity_bits(form, data[:-1])",
    'the last bit alone counted': "parity_bits(form, data[-1:])",
    'only whether there are ones': "parity_bits(form, [max(data)])",
    'seven bits counted at most': "parity_bits(form, data[:7])",
    'six bits counted at most': "parity_bits(form, data[:6])",
    'wrong of no ones': "[bit ^ (1 not in data) for bit in parity_bits(form, data)]",
    'wrong of ones alone': "[bit ^ (0 not in data) for bit in parity_bits(form, data)]",
    'wrong of more ones than four': "[bit ^ (data.count(1) > 4) for bit in parity_bits(form, data)]",
    **{f'wrong of {parity} at {bits} bits': f"[bit ^ (form[:2] == ({bits}, {parity})) for bit in parity_bits(form, data)]"
       for parity in ('ODD', 'EVEN') for bits in (5, 6, 7, 8)},
    **{f'wrong with {stops} stop cells': f"[bit ^ (form.stops == {stops}) for bit in parity_bits(form, data)]"
       for stops in (2, 3, 4)},
}

# Wrong frames: a piece of the rule and what stands in its place.
WRONG_FRAMES = {
    'highest bit first': (CUTS, "    data = cut(form, character)[::-1]\n"),
    **{f'highest bit first at {bits} bits': (CUTS, f"    data = cut(form, character)[::-1 if form.bits == {bits} else 1]\n")
       for bits in (5, 6, 7, 8)},
    'all eight bits sent': (CUTS, "    data = cut(form._replace(bits=8), character)\n"),
    'the character cut from above': (CUTS, "    data = cut(form, character // 2 ** (8 - form.bits))\n"),
    'the top bit not sent': (CUTS, CUTS + "    data[-1] = 0\n"),
    'bits turned round': (CUTS, CUTS + "    data = [1 - bit for bit in data]\n"),
    'parity over eight bits': (BAUDS, BAUDS.replace("form, data", "form, cut(form._replace(bits=8), character)")),
    'parity over seven bits': (BAUDS, BAUDS.replace("form, data", "form, cut(form._replace(bits=7), character)")),
    'even parity where none is asked for': (BAUDS, BAUDS.replace("(form,", "(form._replace(parity=form.parity or EVEN),")),
    'odd parity where none is asked for': (BAUDS, BAUDS.replace("(form,", "(form._replace(parity=form.parity or ODD),")),
    'no parity bit': (BAUDS, "[SPACE] + data + [MARK, MARK, MARK]"),
    'parity before the data': (BAUDS, "[SPACE] + parity_bits(form, data) + data + [MARK, MARK]"),
    'parity after the first stop': (BAUDS, "[SPACE] + data + [MARK] + parity_bits(form, data) + [MARK]"),
    'a mark for the start': (BAUDS, BAUDS.replace("[SPACE]", "[MARK]")),
    'no start': (BAUDS, BAUDS.replace("[SPACE] + ", "") + " + [MARK]"),
    'two starts': (BAUDS, BAUDS.replace("[SPACE]", "[SPACE, SPACE]")),
    'spaces for the stops': (BAUDS, BAUDS.replace("[MARK, MARK]", "[SPACE, SPACE]")),
    'a space for the first stop': (BAUDS, BAUDS.replace("[MARK, MARK]", "[SPACE, MARK]")),
    'a space for later stops': (BAUDS, BAUDS.replace("[MARK, MARK]", "[MARK, SPACE]")),
    'one cell a bit': (SOUNDS, "(baud,)"),
    'three cells a bit': (SOUNDS, "(baud, baud, baud)"),
    'second halves spaces': (SOUNDS, "(baud, SPACE)"), 'first halves spaces': (SOUNDS, "(SPACE, baud)"),
    'second halves marks': (SOUNDS, "(baud, MARK)"), 'second halves turned round': (SOUNDS, "(baud, 1 - baud)"),
    **{f'marks written as {byte}': (SOUNDS, f"({byte} * baud, {byte} * baud)") for byte in (2, 128, 255)},
    'spaces written as marks of 2': (SOUNDS, "(baud or 2, baud or 2)"),
    'one cell too few written': ("][:length(form)]", "][:length(form) - 1]"),
    'later stops not written': ("][:length(form)]", "][:length(form) - form.stops + 2]"),
    'stops not written': ("][:length(form)]", "][:length(form) - form.stops]"),
    'marks alone written': (WRITTEN, WRITTEN.replace("bytes(cells)", "bytes(map(max, cells, self.lent()))")),
    'spaces alone written': (WRITTEN, WRITTEN.replace("bytes(cells)", "bytes(map(int.__mul__, cells, self.lent()))")),

    # What is lent, and what stays.
    'written one cell on': (WRITTEN, WRITTEN.replace("self.first:self.first +", "self.first + 1:self.first + 1 +")),
    'written from the first cell of the line on': (WRITTEN, WRITTEN.replace("self.first:self.first + ", ":")),
    **{f'a {level.lower()} set past the frame': (
        WRITTEN, WRITTEN.replace("byte)\n", f"byte)\n        cells += [{level}][:room - len(cells)]\n"),
        USED, USED.replace("len(cells)", "length(form)")) for level in ('MARK', 'SPACE')},
    'the list cleared past the frame': (WRITTEN, WRITTEN + "        self.cells[self.first + len(cells):self.first + room] = "
                                        "bytes(room - len(cells))\n"),
    'the list cleared first, where it is longer': (
        WRITTEN, f"        if room > length(form):\n            {stored('room', 'room')}{WRITTEN}"),
    'the cell past the list set': (WRITTEN, WRITTEN + "        self.put(min(self.first + room, CELLS - 1), 0x01010101)\n"),
    'the cell before the frame set': (WRITTEN, WRITTEN + "        self.cells[max(self.first - 1, 0)] = SPACE\n"),
    'the rest of the line cleared': (WRITTEN, WRITTEN + "        self.cells[self.first + len(cells):] = "
                                     "bytes(CELLS - self.first - len(cells))\n"),
    'cells used without the stops': (USED, "        return 0, len(cells) - form.stops\n"),
    'cells used without later stops': (USED, "        return 0, len(cells) - form.stops + 2\n"),
    'bits used for cells': (USED, "        return 0, len(cells) // 2\n"),
    'room for cells used': (USED, "        return 0, room\n"),

    # Refusal 18.
    **{f'18 {name}': (HAS_ROOM, f"        if room < {wrong}:\n", WRITTEN, WRITTEN.replace("form, byte)", "form, byte)[:room]"))
       for name, wrong in (
           ('without the stops', "length(form) - form.stops"), ('without later stops', "length(form) - form.stops + 2"),
           ('one cell late', "length(form) - 1"), ('one cell early', "length(form) + 1"),
           ('by two stops', "length(form._replace(stops=4))"), ('by one stop', "length(form._replace(stops=2))"),
           ('by eight bits', "length(form._replace(bits=8))"), ('by five bits', "length(form._replace(bits=5))"),
           ('with a parity bit always', "length(form._replace(parity=EVEN))"),
           ('without a parity bit', "length(form._replace(parity=NONE))"), ('by the longest frame', "24"),
           ('by the shortest frame', "14"), ('for an empty list alone', "min(1, length(form))"), ('never', "0"),
           ('in bits', "length(form) // 2"), ('without the start', "length(form) - 2"))},
    '18 by the rest of the line': (HAS_ROOM, "        room = CELLS - self.first\n" + HAS_ROOM),
    '18 by the cells asked for': (HAS_ROOM, "        room = self.count\n" + HAS_ROOM),
    **{f'refused writing {name}': (NO_ROOM, f"            cells = {wrong}\n            {stored('len(cells)', 'cells')}{NO_ROOM}")
       for name, wrong in (
           ('writes what fits', "frame(form, byte)[:room]"), ('writes the start', "[SPACE, SPACE][:room]"),
           ('clears the list', "[SPACE] * room"), ('writes past the list', "frame(form, byte)[:CELLS - self.first]"))},
    'refused writing tells the cells': (NO_ROOM, "            return NO_ROOM, length(form)\n"),
    'refused writing tells the room': (NO_ROOM, "            return NO_ROOM, room\n"),
}

# Wrong readings of a frame: a piece of the rule and what stands in its place.
PADDED = "        return Reading(TOO_SHORT, 0, 0, 0)\n    cells = [*cells, *[{}] * 24]\n"
ANY_DIFFER = "any(first != second for first, second in data + parity)"
REFUSED_20 = "return Reading(NO_FRAME, 0, 0, 0)\n"
STOP_CELLS = "cells[length(form) - form.stops:length(form)]"
WRONG_LINE_READINGS = {
    # Levels.
    **{f'a byte read: {name}': (LEVEL, LEVEL.replace("SPACE if cell == 0 else MARK", wrong)) for name, wrong in (
        ('1 alone is a mark', "int(cell == 1)"), ('by its lowest bit', "cell % 2"), ('by its top bit', "cell // 128"),
        ('255 is a space', "int(0 < cell < 255)"), ('2 is a space', "int(cell not in (0, 2))"),
        ('128 and above are spaces', "int(0 < cell < 128)"), ('mark and space exchanged', "int(cell == 0)"),
        ('more than 1 is a mark', "int(cell > 1)"))},
    'halves compared as bytes': (IS_FRAME, IS_FRAME.replace(ANY_DIFFER, "cells[2:2 * len(data + parity) + 2:2] != "
                                                            "cells[3:2 * len(data + parity) + 3:2]")),
    'halves of the parity bit compared as bytes': (IS_FRAME, IS_FRAME.replace(
        ANY_DIFFER, f"{ANY_DIFFER} or (parity and cells[2 + 2 * form.bits] != cells[3 + 2 * form.bits])")),

    # Refusal 19.
    **{f'19 {name}{pad}': (LONG_ENOUGH, f"    if len(cells) < {wrong}:\n" + PADDED.format(level))
       for pad, level in ((', marks for what is missing', 1), (', spaces for what is missing', 0)) for name, wrong in (
           ('without the stops', "length(form) - form.stops"), ('without later stops', "length(form) - form.stops + 2"),
           ('without half a stop', "length(form) - form.stops + 1"), ('one cell late', "length(form) - 1"),
           ('without the parity bit', "length(form._replace(parity=NONE))"), ('by one stop', "length(form._replace(stops=2))"),
           ('by five bits', "length(form._replace(bits=5))"), ('for an empty list alone', "1"), ('never', "0"),
           ('without the start', "length(form) - 2"), ('in bits', "length(form) // 2"))},
    **{f'19 {name}': (LONG_ENOUGH, LONG_ENOUGH.replace("length(form)", wrong)) for name, wrong in (
        ('one cell early', "length(form) + 1"), ('by two stops', "length(form._replace(stops=4))"),
        ('by eight bits', "length(form._replace(bits=8))"), ('with a parity bit always', "length(form._replace(parity=EVEN))"),
        ('by the longest frame', "24"))},
    '20 before 19, by the start': (LONG_ENOUGH, f"    if any(cells[:2]):\n        {REFUSED_20}" + LONG_ENOUGH),
    '20 before 19, by the first cell': (LONG_ENOUGH, f"    if any(cells[:1]):\n        {REFUSED_20}" + LONG_ENOUGH),
    '20 before 19, by halves': (
        LONG_ENOUGH, "    if any(bool(one) != bool(other) for one, other in zip(cells[2:2 * form.bits + 2:2], cells[3::2])):\n"
        f"        {REFUSED_20}" + LONG_ENOUGH),
    '20 for a list that ends in half a bit': (LONG_ENOUGH, "    if len(cells) < length(form) and len(cells) % 2:\n"
                                              f"        {REFUSED_20}" + LONG_ENOUGH),
    '20 for an empty list': (LONG_ENOUGH, f"    if not cells:\n        {REFUSED_20}" + LONG_ENOUGH),
    '20 for a list without its start': (LONG_ENOUGH, f"    if len(cells) < 2:\n        {REFUSED_20}" + LONG_ENOUGH),

    # Refusal 20.
    **{f'start: {name}': (IS_FRAME, IS_FRAME.replace("start != (SPACE, SPACE)", wrong)) for name, wrong in (
        ('first half not looked at', "start[1] != SPACE"), ('second half not looked at', "start[0] != SPACE"),
        ('not looked at', "False"), ('either half will do', "start == (MARK, MARK)"),
        ('halves compared alone', "start[0] != start[1]"),
        ('two marks wanted', "start != (MARK, MARK)"), ('refused where 1 stands alone', "1 in cells[:2]"),
        *((f'not looked at, at {bits} bits', f"form.bits != {bits} and start != (SPACE, SPACE)") for bits in (5, 6, 7, 8)))},
    **{f'halves: {name}': (IS_FRAME, IS_FRAME.replace(ANY_DIFFER, wrong)) for name, wrong in (
        ('not compared', "False"), ('of data not compared', ANY_DIFFER.replace("data + parity", "parity")),
        ('of the parity bit not compared', ANY_DIFFER.replace("data + parity", "data")),
        ('of the first data bit not compared', ANY_DIFFER.replace("data +", "data[1:] +")),
        ('of the last data bit not compared', ANY_DIFFER.replace("data +", "data[:-1] +")),
        ('of the last bit not compared', ANY_DIFFER.replace("data + parity", "(data + parity)[:-1]")),
        ('space and mark let pass', ANY_DIFFER.replace("!=", ">")), ('mark and space let pass', ANY_DIFFER.replace("!=", "<")),
        ('of one bit let pass', f"sum{ANY_DIFFER[3:]} > 1"), ('of all bits must differ', f"all{ANY_DIFFER[3:]}"),
        ('of the first stop compared as well', ANY_DIFFER.replace("parity", "parity + [stop]")),
        ('of the first bit alone compared', ANY_DIFFER.replace("data +", "data[:1] +")),
        *((f'of data bit {place} not compared', ANY_DIFFER.replace("data +", f"data[:{place}] + data[{place + 1}:] +"))
          for place in range(1, 7)),
        *((f'not compared at {bits} bits', f"(form.bits != {bits} and {ANY_DIFFER})") for bits in (5, 6, 7, 8)),
        *((f'not compared with {stops} stop cells', f"(form.stops != {stops} and {ANY_DIFFER})") for stops in (2, 3, 4)))},
    'second halves of data that differ taken': (
        IS_FRAME, IS_FRAME.replace("data + parity", "parity"), FIRST_HALVES, FIRST_HALVES.replace("[first for", "[second for")),
    'marks in either half of data that differ taken': (
        IS_FRAME, IS_FRAME.replace("data + parity", "parity"),
        FIRST_HALVES, FIRST_HALVES.replace("[first for", "[first | second for")),
    'halves of the parity bit that differ are the parity mark': (
        IS_FRAME, IS_FRAME.replace("data + parity", "data"),
        WRONG_PARITY, "    wrong = parity != [(bit, bit) for bit in parity_bits(form, bits)]\n"),
    'halves of the parity bit that differ pass': (
        IS_FRAME, IS_FRAME.replace("data + parity", "data"),
        WRONG_PARITY, WRONG_PARITY.replace("    wrong =", "    wrong = all(one == other for one, other in parity) and")),
    'second half of a parity bit whose halves differ taken': (
        IS_FRAME, IS_FRAME.replace("data + parity", "data"), WRONG_PARITY, WRONG_PARITY.replace("[first for", "[second for")),
    'halves of the parity bit that differ are the break mark': (
        IS_FRAME, IS_FRAME.replace("data + parity", "data"),
        GIVEN, GIVEN.replace("int(SPACE in stop)", "int(SPACE in stop or any(one != other for one, other in parity))")),
    'refused reading gives the character': (
        NOT_FRAME, "        return Reading(NO_FRAME, sum(first * 2 ** place for place, (first, _) in enumerate(data)), 0, 0)\n"),
    'refused reading gives the parity mark': (NOT_FRAME, NOT_FRAME.replace("0, 0)", "1, 0)")),
    'refused reading gives the break mark': (NOT_FRAME, NOT_FRAME.replace("0, 0)", "0, int(SPACE in stop))")),
    'too short a list gives the character': (
        LONG_ENOUGH, LONG_ENOUGH.replace("TOO_SHORT, 0,", "TOO_SHORT, sum(2 ** place for place, cell in "
                                         "enumerate(cells[2:2 * form.bits + 2:2]) if cell),")),
    'too short a list gives the break mark': (LONG_ENOUGH, LONG_ENOUGH.replace("0, 0, 0)", "0, 0, 1)")),

    # The character.
    'highest bit read first': (BYTE, BYTE.replace("enumerate(bits)", "enumerate(bits[::-1])")),
    **{f'highest bit read first at {bits} bits': (
        BYTE, BYTE.replace("enumerate(bits)", f"enumerate(bits[::-1 if form.bits == {bits} else 1])")) for bits in (5, 6, 7, 8)},
    'character read to the left': (BYTE, BYTE.replace("** place", "** (place + 8 - form.bits)")),
    'character cut to seven bits': (BYTE, BYTE + "    byte %= 128\n"),
    'character of seven bits with its top bit 1': (BYTE, BYTE + "    byte += 128 * (form.bits == 7)\n"),
    'character with ones above its length': (BYTE, BYTE + "    byte += 256 - 2 ** form.bits\n"),
    'character with its parity bit': (BYTE, BYTE + "    byte += 2 ** form.bits * sum(first for first, _ in parity)\n"),
    'character turned round': (BYTE, BYTE + "    byte = 2 ** form.bits - 1 - byte\n"),
    'no character where the parity is wrong': (GIVEN, "    byte = 0 if wrong else byte\n" + GIVEN),
    'no character where there is a break': (GIVEN, "    byte = 0 if SPACE in stop else byte\n" + GIVEN),

    # The parity mark.
    'parity mark never': (GIVEN, GIVEN.replace("int(wrong)", "0")),
    'parity mark turned round': (GIVEN, GIVEN.replace("int(wrong)", "int(form.parity != NONE and not wrong)")),
    'parity mark where there is no parity bit': (GIVEN, GIVEN.replace("int(wrong)", "int(wrong or form.parity == NONE)")),
    'parity mark lost where there is a break': (GIVEN, GIVEN.replace("int(wrong)", "int(wrong and SPACE not in stop)")),
    'parity mark where there is a break': (GIVEN, GIVEN.replace("int(wrong)", "int(wrong or SPACE in stop)")),
    'parity mark where there is a break, with parity': (
        GIVEN, GIVEN.replace("int(wrong)", "int(wrong or (form.parity != NONE and SPACE in stop))")),
    'parity mark of a wrong space alone': (GIVEN, GIVEN.replace("int(wrong)", "int(wrong and parity[0] == (SPACE, SPACE))")),
    'parity mark of a wrong mark alone': (GIVEN, GIVEN.replace("int(wrong)", "int(wrong and parity[0] == (MARK, MARK))")),
    'parity mark refused with 20': (GIVEN, f"    if wrong:\n        {REFUSED_20}" + GIVEN),
    'parity bit over the stop': (WRONG_PARITY, "    wrong = form.parity != NONE and [stop[0]] != parity_bits(form, bits)\n"),
    'parity bit read where there is none': (
        "    parity = [next(pairs)] if form.parity != NONE else []\n    return start, data, parity, next(pairs)\n",
        "    parity = [next(pairs)]\n    return start, data, parity, next(pairs, (MARK, MARK))\n",
        WRONG_PARITY, WRONG_PARITY.replace("(form,", "(form._replace(parity=form.parity or EVEN),")),
    'parity bit taken for the stop': (
        "    parity = [next(pairs)] if form.parity != NONE else []\n", "    parity = []\n",
        WRONG_PARITY, "    wrong = False\n"),

    # The break mark.
    **{f'break mark {name}': (GIVEN, GIVEN.replace("int(SPACE in stop)", wrong)) for name, wrong in (
        ('never', "0"), ('always', "1"), ('by the first half alone', "int(stop[0] == SPACE)"),
        ('by the second half alone', "int(stop[1] == SPACE)"), ('by both halves alone', "int(stop == (SPACE, SPACE))"),
        ('by halves that differ alone', "int(stop[0] != stop[1])"), ('by every stop cell', f"int(0 in {STOP_CELLS})"),
        ('by the third stop cell as well', f"int(0 in {STOP_CELLS}[:3])"),
        ('by the fourth stop cell as well', f"int(0 in {STOP_CELLS}[:2] or 0 in {STOP_CELLS}[3:])"),
        ('by the last stop cell', "int(cells[length(form) - 1] == 0)"),
        ('by later stops alone', f"int(0 in ({STOP_CELLS}[2:] or stop))"),
        ('by all stop cells together', f"int(not any({STOP_CELLS}))"),
        ('by the cell past the frame', "int(SPACE in stop or 0 in cells[length(form):length(form) + 1])"),
        ('of no ones alone', "int(SPACE in stop and 1 not in bits)"), ('of ones alone', "int(SPACE in stop and 1 in bits)"),
        ('lost where the parity is wrong', "int(SPACE in stop and not wrong)"),
        ('where the parity is wrong', "int(SPACE in stop or wrong)"), ('turned round', "int(SPACE not in stop)"),
        ('by bytes other than 1', f"int(max({STOP_CELLS}[:2]) != 1 or SPACE in stop)"),
        *((f'not with {stops} stop cells', f"int(SPACE in stop and form.stops != {stops})") for stops in (2, 3, 4)),
        *((f'not at {bits} bits', f"int(SPACE in stop and form.bits != {bits})") for bits in (5, 6, 7, 8)),
        *((f'not of {parity}', f"int(SPACE in stop and form.parity != {parity})") for parity in ('NONE', 'ODD', 'EVEN')))},
    'break mark refused with 20': (GIVEN, f"    if SPACE in stop:\n        {REFUSED_20}" + GIVEN),
    'break with a wrong parity bit refused with 20': (GIVEN, f"    if SPACE in stop and wrong:\n        {REFUSED_20}" + GIVEN),
    'both marks exchanged': (GIVEN, GIVEN.replace("int(wrong), int(SPACE in stop)", "int(SPACE in stop), int(wrong)")),
    'both marks for either': (GIVEN, GIVEN.replace("int(wrong), int(SPACE in stop)", "*[int(wrong or SPACE in stop)] * 2")),

    # What is lent, and what stays.
    'cells read told without later stops': (READS_USED, READS_USED.replace("length(form)", "length(form) - form.stops + 2")),
    'cells read told without the stops': (READS_USED, READS_USED.replace("length(form)", "length(form) - form.stops")),
    'list for cells read': (READS_USED, READS_USED.replace("length(form)", "len(self.lent())")),
    'refused reading tells the cells': (READS_USED, "        return (*reading, length(form))\n"),
    'refused reading with 20 tells the cells': (
        READS_USED, READS_USED.replace("if reading.code", "if reading.code == TOO_SHORT")),
    **{f'reading {name}': (READS_LENT, f"{READS_LENT}        if {when}:\n            {wrong}\n") for name, when, wrong in (
        ('clears the frame', "reading.code == 0", stored('length(form)', 'length(form)')),
        ('clears the list', "True", stored('len(cells)', 'len(cells)')),
        ('writes marks as 1', "True", stored('len(cells)', 'int(cell > 0) for cell in cells')),
        ('marks the start as taken', "reading.code == 0", "self.cells[self.first] = MARK"),
        ('that is refused clears the list', "reading.code", stored('len(cells)', 'len(cells)')),
        ('that is refused sets the first cell', "reading.code and cells", "self.cells[self.first] = SPACE"),
        ('mends a break', "reading.brk", stored('length(form)', '[*cells[:length(form) - form.stops], *[1] * form.stops]')),
        ('sets later stops', "reading.code == 0",
         stored('length(form)', '[*cells[:length(form) - form.stops + 2], *[1] * (form.stops - 2)]')),
        ('takes the list on', "reading.code == 0", "self.lend(self.first + length(form), self.count)"))},
    **{f'reads {name}': (READS_LENT, READS_LENT.replace("self.lent()", wrong)) for name, wrong in (
        ('from the first cell of the line on', "self.cells[:len(self.lent())]"), ('past the list', "self.cells[self.first:]"),
        ('one cell on', "self.cells[self.first + 1:self.first + 1 + self.count]"))},
}

# Wrong forms of control bits: a piece of the rule and what stands in its place.
LENGTH_BITS = "{(0, 0): 5, (0, 1): 6, (1, 0): 7, (1, 1): 8}[bit[10], bit[11]]"
PARITY_BITS, STOP_BIT = "NONE if bit[8] == 1 else {0: ODD, 1: EVEN}[bit[12]]", "{0: ONE, 1: TWO}[bit[9]]"
BY_NUMBER = "dict(enumerate(control, 8))"
WRONG_FORMS = {
    'bit 8 turned round': (PARITY_BITS, PARITY_BITS.replace("bit[8] == 1", "bit[8] == 0")),
    'bit 8 not looked at': (PARITY_BITS, "{0: ODD, 1: EVEN}[bit[12]]"),
    'no parity ever': (PARITY_BITS, "NONE"),
    'bit 12 turned round': (PARITY_BITS, PARITY_BITS.replace("0: ODD, 1: EVEN", "0: EVEN, 1: ODD")),
    'bit 12 not looked at, odd': (PARITY_BITS, "NONE if bit[8] == 1 else ODD"),
    'bit 12 not looked at, even': (PARITY_BITS, "NONE if bit[8] == 1 else EVEN"),
    'even parity wherever bit 12 is 1': (PARITY_BITS, "EVEN if bit[12] else (NONE if bit[8] else ODD)"),
    'bits 8 and 12 exchanged': (PARITY_BITS, "NONE if bit[12] == 1 else {0: ODD, 1: EVEN}[bit[8]]"),
    'parity mode by bit 13': (PARITY_BITS, PARITY_BITS.replace("bit[12]", "bit[13]")),
    'parity mode by bit 11': (PARITY_BITS, PARITY_BITS.replace("bit[12]", "bit[11]")),
    'bits 8 and 9 exchanged': (PARITY_BITS, PARITY_BITS.replace("bit[8]", "bit[9]"),
                               STOP_BIT, STOP_BIT.replace("bit[9]", "bit[8]")),
    'bit 9 turned round': (STOP_BIT, "{0: TWO, 1: ONE}[bit[9]]"),
    'bit 9 not looked at, one stop': (STOP_BIT, "ONE"), 'bit 9 not looked at, two stops': (STOP_BIT, "TWO"),
    'bit 9 is one and a half stops': (STOP_BIT, STOP_BIT.replace("TWO", "ONE_AND_A_HALF")),
    'bit 9 is one and a half stops at 5 bits': (STOP_BIT, "{0: ONE, 1: ONE_AND_A_HALF if bits == 5 else TWO}[bit[9]]"),
    'one and a half stops at 5 bits': (STOP_BIT, "ONE_AND_A_HALF if bits == 5 else " + STOP_BIT),
    'two stops at 110 baud': (STOP_BIT, "TWO if not bit[13] + bit[14] + bit[15] else " + STOP_BIT),
    'two stops where there is no parity': (STOP_BIT, "TWO if parity == NONE else " + STOP_BIT),
    'stops by bit 10': (STOP_BIT, STOP_BIT.replace("bit[9]", "bit[10]")),
    'bits 10 and 11 exchanged': (LENGTH_BITS, LENGTH_BITS.replace("[bit[10], bit[11]]", "[bit[11], bit[10]]")),
    'lengths from 8 to 5': (LENGTH_BITS, "{(0, 0): 8, (0, 1): 7, (1, 0): 6, (1, 1): 5}[bit[10], bit[11]]"),
    'length by bits 9 and 10': (LENGTH_BITS, LENGTH_BITS.replace("[bit[10], bit[11]]", "[bit[9], bit[10]]")),
    'length by bits 11 and 12': (LENGTH_BITS, LENGTH_BITS.replace("[bit[10], bit[11]]", "[bit[11], bit[12]]")),
    'length with the parity bit': (LENGTH_BITS, f"min({LENGTH_BITS} + 1 - bit[8], 8)"),
    'length with the parity bit taken out': (LENGTH_BITS, f"max({LENGTH_BITS} - 1 + bit[8], 5)"),
    'eight bits always': (LENGTH_BITS, "8"),
    'control bits backwards': (BY_NUMBER, "dict(enumerate(control[::-1], 8))"),
    'control bits one place up': (BY_NUMBER, "dict(enumerate(control[1:] + control[:1], 8))"),
    'control bits one place down': (BY_NUMBER, "dict(enumerate(control[-1:] + control[:-1], 8))"),
    'control bits from bit 12 on': (BY_NUMBER, "dict(enumerate(control[4:] + control[:4], 8))"),
}

# Wrong arrivals from the wire: a piece of the rule and what stands in its place.
WITH_MARKS = "reading.byte, reading.parity, reading.brk"
WRONG_ARRIVALS = {
    **{f'given {name}': (ARRIVES, ARRIVES.replace(WITH_MARKS, wrong)) for name, wrong in (
        ('without marks', "reading.byte, 0, 0"), ('without the parity mark', "reading.byte, 0, reading.brk"),
        ('without the break mark', "reading.byte, reading.parity, 0"),
        ('with its marks exchanged', "reading.byte, reading.brk, reading.parity"),
        ('with both marks for either', "reading.byte, *[reading.parity | reading.brk] * 2"),
        ('without the parity mark where there is a break', "reading.byte, reading.parity & (1 - reading.brk), reading.brk"),
        ('without the break mark where the parity is wrong', "reading.byte, reading.parity, reading.brk & (1 - reading.parity)"),
        ('with the parity mark always', "reading.byte, 1, reading.brk"), ('as 0', "0, reading.parity, reading.brk"),
        ('as 0 with a break', "reading.byte * (1 - reading.brk), reading.parity, reading.brk"),
        ('as 0 with a wrong parity bit', "reading.byte * (1 - reading.parity), reading.parity, reading.brk"))},
    **{f'made at {name}': (ARRIVES, ARRIVES.replace("arrival(port,", f"arrival({wrong},")) for name, wrong in (
        ('port 0', "0"), ('the port mod 128', "port % 128"), ('the port mod 256', "port % 256"),
        ('the port mod 65536', "port % 65536"),
        ('the next port', "port + 1"), ('the port mod P', "port % max(mux.record.ports, 1)"),
        ('the position', "mux.record.pos"), ('the last port where there is none', "min(port, max(mux.record.ports, 1) - 1)"))},
    **{f'made {name}': (IF_READ, f"        if {wrong}:\n            called") for name, wrong in (
        ('though the reading is refused', "True"), ('though the list is too short', "reading.code != NO_FRAME"),
        ('though there is no frame', "reading.code != TOO_SHORT"), ('never', "False"),
        ('without a wrong parity bit alone', "reading.code == 0 and not reading.parity"),
        ('without a break alone', "reading.code == 0 and not reading.brk"),
        ('without both marks alone', "reading.code == 0 and not (reading.parity and reading.brk)"),
        ('where no character is held', "reading.code == 0 and not mux.record.port[port % 128].held"),
        ('in a unit that runs', "reading.code == 0 and mux.record.runs"),
        ('of an EDS-8 alone', "reading.code == 0 and mux.record.kind == 0"),
        ('at ports below 128 alone', "reading.code == 0 and port < 128"),
        ('at ports below P alone', "reading.code == 0 and port < mux.record.ports"),
        ('of a character that is not 0', "reading.code == 0 and reading.byte"))},
    **{f'and {name}': (ARRIVES, f"{ARRIVES}            {wrong}\n") for name, wrong in (
        ('made twice', ARRIVES.strip()), ('served at once', "mux.inspect()"),
        ('its overload mark lost', "called or mux.change(port, overload=0)"),
        ('the transmitter emptied', "called or mux.change(port, empty=1)"),
        ('its refusal lost', "called = 0"), ('its refusal 6 lost', "called %= 6"), ('8 given as 6', "called = min(called, 6)"),
        ('nothing told of a character that is refused', "reading = Reading(0, 0, 0, 0) if called else reading"),
        ('its refusal told as the reading', "reading, called = (Reading(called, 0, 0, 0) if called else reading), 0"),
        ('its refusal told as both', "reading = Reading(called, 0, 0, 0) if called else reading"),
        ('what is read not told', "reading = Reading(0, 0, 0, 0)"))},
    **{f'frame read by {name}': (ITS_FORM, ITS_FORM.replace("port % mux2.ARRAY", wrong)) for name, wrong in (
        ('the control bits of port 0', "0"), ('those of the last place', "min(port, 127)"),
        ('those of the port mod 64', "port % 64"), ('those of the next place', "(port + 1) % 128"),
        ('those of the port mod P', "port % max(mux.record.ports, 1)"),
        ('those of the last port', "min(port, max(mux.record.ports, 1) - 1)"),
        ('those of port 0 where there is none', "port if port < mux.record.ports else 0"),
        ('those of the place from the last to the first', "127 - port % 128"))},
    **{f'frame read {name}': (ITS_FORM, ITS_FORM + f"        form = {wrong}\n") for name, wrong in (
        ('with eight bits', "form._replace(bits=8)"), ('without parity', "form._replace(parity=NONE)"),
        ('with one stop', "form._replace(stops=ONE)"), ('with two stops', "form._replace(stops=TWO)"),
        ('with one and a half stops at 5 bits', "form._replace(stops=ONE_AND_A_HALF) if form.bits == 5 else form"),
        ('with even parity', "form._replace(parity=form.parity and EVEN)"))},
    'refusal of a reading told as that of the arrival': (
        ARRIVED, "        return (*reading, called) if reading.code == 0 else (0, 0, 0, 0, reading.code)\n"),
    'refusal of a reading told as both': (ARRIVED, "        return (*reading, called or reading.code)\n"),
    **{f'refused reading {name}': (ARRIVED, f"        if reading.code:\n            {wrong}\n" + ARRIVED) for name, wrong in (
        ('asks for the arrival', "called = mux.table(False, port, None)"),
        ('drops the character that is held', "mux.change(port % 128, held=0, byte=0, parity=0, brk=0, overload=0)"),
        ('marks the character that is held', "mux.change(port % 128, brk=mux.record.port[port % 128].held)"),
        ('stops the unit', "mux.record.runs = 0"), ('sets the overload mark', "mux.change(port % 128, overload=1)"))},
    'refused reading with 20 marks a break': (
        ARRIVED, "        if reading.code == NO_FRAME:\n            mux.arrival(port, 0, 0, 1)\n" + ARRIVED),
    'arrival asked for before the reading': (
        ITS_FORM, "        asked = mux.table(False, port, None)\n        if asked:\n            return 0, 0, 0, 0, asked\n"
        + ITS_FORM),
    'cells cleared once read': (
        ARRIVED, f"        if reading.code == 0:\n            {stored('length(form)', 'length(form)')}{ARRIVED}"),
    'cells cleared once refused': (ARRIVED, "        if reading.code:\n            self.cells[:] = bytes(CELLS)\n" + ARRIVED),
    'list taken on': (ARRIVED, f"        self.first += 0 if reading.code else length(form)\n{ARRIVED}"),
}

# Of frames on the wire (02, K3).
FRAME_MUTANTS = [
    *[(f'frame: {name}', LONG, LONG.replace("form.stops", wrong)) for name, wrong in WRONG_LENGTHS.items()],
    *[(f'written parity: {name}', BAUDS, BAUDS.replace("parity_bits(form, data)", wrong))
      for name, wrong in WRONG_PARITIES.items()],
    *[(f'read parity: {name}', WRONG_PARITY, WRONG_PARITY.replace("parity_bits(form, bits)", wrong.replace("data", "bits")))
      for name, wrong in WRONG_PARITIES.items()],
    ('parity: odd and even exchanged', "{ODD: 1, EVEN: 0}", "{ODD: 0, EVEN: 1}"),
    ('parity: a count of the zeros', "data.count(1) + bit", "data.count(0) + bit"),
    *[(f'written: {name}', *pieces) for name, pieces in WRONG_FRAMES.items()],
    *[(f'read: {name}', *pieces) for name, pieces in WRONG_LINE_READINGS.items()],
    *[(f'refusals {numbers} for 18, 19, 20', NUMBERS, NUMBERS.replace("18, 19, 20", numbers)) for numbers in (
        "19, 19, 20", "18, 18, 20", "19, 18, 20", "18, 20, 19", "18, 19, 19", "18, 20, 20", "20, 19, 18", "10, 19, 20",
        "18, 19, 21", "18, 7, 20")],
]

# Of the control bits' forms, and of characters that come from the wire (02, K3).
ARRIVAL_MUTANTS = [
    *[(f'form: {name}', *pieces) for name, pieces in WRONG_FORMS.items()],
    *[(f'form of order 34: {name}', "form_of(mux2.BYTE_BITS[control])\n", f"form_of(mux2.BYTE_BITS[{wrong}])\n")
      for name, wrong in (
          ('the low seven bits', "control % 128"), ('the high four bits', "control // 16 * 16"), ('bit 12 set', "control | 8"))],
    *[(f'from the wire: {name}', *pieces) for name, pieces in WRONG_ARRIVALS.items()],
]


def changed(right, texts):
    """A program's text with each piece in `texts` replaced by the one that follows it, as a module."""
    source = right
    for old, new in zip(texts[::2], texts[1::2]):
        if right.count(old) != 1:
            raise ValueError(f'found {right.count(old)} times, not once: {old!r}')
        source = source.replace(old, new)
    module = types.ModuleType('mutant')
    exec(compile(source, 'mutant', 'exec'), module.__dict__)
    return module


def program(*texts):
    """The second program, changed."""
    return changed(SOURCE, texts).Mux2


def wire(*texts):
    """The second program's line, changed. It counts no branches, as what it does need not be any of them."""
    mutant = changed(WIRE_SOURCE, texts).Wire
    for name in vars(mutant).copy():
        if name.startswith('note_'):
            setattr(mutant, name, lambda *_: None)
    return mutant


def first_difference(mutant, author, part='program'):
    """The number of the first call that the mutant, in this part's place, answers otherwise, or None."""
    driver = drive.Driver(**{part: mutant})
    printed = iter(author.printed)
    call = 0
    for order in author.orders:
        call += order[0] in drive.CALLS
        line = driver.drive(order)
        if line is not None and line != next(printed):
            return call
    return None


def main():
    began = time.time()
    groups = {'sets': SET_MUTANTS, 'stack': STACK_MUTANTS, 'bases': BASE_MUTANTS, 'frames': FRAME_MUTANTS,
              'arrivals': ARRIVAL_MUTANTS, 'others': MUTANTS}
    parts = dict.fromkeys(('frames', 'arrivals'), 'wire')
    group_of = {name: group for group, wrong in groups.items() for name, *_ in wrong}
    count = sum(map(len, groups.values()))
    if len(group_of) < count:
        sys.exit('two mutants have one name')
    alive = {name: (wire if group in parts else program)(*texts) for group, wrong in groups.items() for name, *texts in wrong}
    for number, (author, _) in enumerate(sessions.fixed_set(), 1):
        group = {'sets': 'sets', sessions.OF_THE_BASES: 'bases', **dict.fromkeys(sessions.OF_THE_STACK, 'stack'),
                 **dict.fromkeys(sessions.OF_FRAMES, 'frames'), **dict.fromkeys(sessions.OF_ARRIVALS, 'arrivals')}.get(
            author.kind, 'others')
        for name in [name for name in alive if group_of[name] == group]:
            call = first_difference(alive[name], author, parts.get(group, 'program'))
            if call is not None:
                del alive[name]
                if '--quiet' not in sys.argv:
                    print(f'session {number:3}, call {call:4} ({author.kind}): {name}', flush=True)
        if not alive:
            break
    print(f'{count - len(alive)} of {count} mutants told apart; {time.time() - began:.1f} s')
    for name in alive:
        print(f'survives: {name}')
    sys.exit(1 if alive else 0)


if __name__ == '__main__':
    main()
