"""What the checkers of programs that answer typed lines share (settings2.py, picture2.py): lines by chance, files by the byte, the
comparison of what was printed with what must be, and the orders. Which answer is right stands in each checker.
"""

import sys
from random import Random

SEED = 1974


class Typist:
    """Lines by chance; only `Random.random` is used, as in sessions.py."""

    def __init__(self):
        self.random = Random(SEED).random

    def below(self, n):
        return int(self.random() * n)

    def one_of(self, choices):
        return choices[self.below(len(choices))]

    def mixed(self, lines):
        """The lines in another order, so that each kind comes after each other kind."""
        keys = [(self.random(), number) for number in range(len(lines))]
        return [lines[number] for _, number in sorted(keys)]


def shown(line):
    """A line so that it can be printed, however long and whatever is in it."""
    return 'nothing' if line is None else ascii(line if len(line) < 200 else line[:200] + '...')


def first_difference(answered, wanted, got, counts, fault):
    """What to say of the first printed line that differs, or None; `counts` gets the kinds of the lines before it. `wanted` gives the
    lines that answer a typed one and their kinds; `fault` is what is wrong with a printed line whatever was expected, or None."""
    *printed, rest = got.split('\n')
    printed = iter(printed)
    for number, line in enumerate(answered, 1):
        lines, kinds = wanted(line)
        for want in lines:
            have = next(printed, None)
            wrong = fault(have)
            if wrong or have != want:
                return (f'line {number}: {shown(line)}\nexpected {shown(want)}\n'
                        f'got      {shown(have)}' + (f'\n{wrong}' if wrong else ''))
        for kind in kinds:
            counts[kind] += 1
    for have in printed:
        return f'after the last line\nexpected nothing\ngot      {shown(have)}'
    return f'a last line without a newline: {shown(rest)}' if rest else None


def compared(every, answered, wanted, got, some, fault=lambda line: None):
    """Whether all lines agree and every kind is reached, or only some need be, and what to say."""
    counts = dict.fromkeys(every, 0)
    difference = first_difference(answered, wanted, got, counts, fault)
    if difference:
        return False, difference
    said = [f'{count:9}  {kind}' for kind, count in counts.items() if count or not some]
    missing = [f'never reached: {kind}' for kind, count in counts.items() if count == 0 and not some]
    agreed = f'{len(answered)} lines typed, {got.count(chr(10))} lines printed, all agree'
    return not missing, '\n'.join(said + [agreed] + missing)


def read(name):
    """A file's bytes, one a character, so that only a newline ends a line."""
    with open(name, 'rb') as file:
        return file.read().decode('latin-1')


def write(name, text):
    """A file with just the text's bytes, so that nothing is put at its end."""
    with open(name, 'wb') as file:
        file.write(text.encode('latin-1'))


def obey(usage, fixed_text, short_texts, check, files):
    """Carries out what the command line orders; `check` is given the texts of so many files, and whether only some kinds need be met."""
    order, *words = [word for word in sys.argv[1:] if word != '--some'] or ['']
    if order == '--write' and len(words) == 1:
        write(words[0], fixed_text())
    elif order == '--last' and not words:
        print(len(short_texts))
    elif order == '--last' and len(words) == 2 and words[0] in map(str, range(len(short_texts))):
        write(words[1], short_texts[int(words[0])])
    elif order == '--check' and len(words) == files:
        agrees, said = check(*map(read, words), '--some' in sys.argv)
        print(said)
        sys.exit(0 if agrees else 1)
    else:
        sys.exit(usage)
