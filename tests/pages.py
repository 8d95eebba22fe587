#!/usr/bin/env python3
"""Are the pages true where a program can tell? Run from anywhere; its last line is `N passed, M failed`.

  pages.py            checks: every name that a page cites stands in the code, the definitions or the tests; every edit that docs/CLAIMS.md cites is
                      there, and every edit that is there is cited; every decision that a page cites has its entry; README.md gives each file of
                      definitions with its length, and leaves none out; docs/CARETAKER.md has setup's numbers in their order with the sentences
                      of the caretakers' program, and its examples are what the second program answers
  pages.py --write    writes the lengths into README.md
"""
import pathlib
import re
import sys

ROOT = pathlib.Path(__file__).resolve().parent.parent
sys.path.insert(0, str(ROOT / 'tests/second'))
import mux2  # noqa: E402
import settings2  # noqa: E402
import wire2  # noqa: E402

ENDINGS = {'.rt', '.antt', '.py', '.sh'}
# Crates whose definitions speak of the programs and not of the multiplexer.
PROGRAMS = {'driver', 'compared', 'watch', 'settings', 'picture', 'telling', 'day'}
# A setting as it is typed, with an m for a Mighty Mux; an example of a number: what was typed, what to type instead.
SETTING = r'\d+ \d+ \d+(?: m\b)?'
EXAMPLE = re.compile(rf' +({SETTING}) +type ({SETTING}): (.*)')
PAGES = ['README.md', 'docs/CLAIMS.md', 'docs/DECISIONS.md', 'docs/CHANGING.md', 'docs/CARETAKER.md']


def read(path):
    return path.read_text(encoding='utf-8')


def sources():
    """The text of every file in which a cited name may stand; what the toolchain leaves in a crate's out/ is none."""
    roots = [*(it for crate in (ROOT / 'crates').iterdir() for it in crate.iterdir() if it.is_dir() and it.name != 'out'), ROOT / 'tests']
    files = [f for root in roots for f in root.rglob('*') if f.suffix in ENDINGS and f.name != 'pages.py']
    return '\n'.join(read(f) for f in files)


def names_stand():
    """Names in backticks that stand nowhere: a name is one word, or a path of such words. The notes of landings may name what is gone."""
    text = sources()
    words = set(re.findall(r'[\w-]+', text)) | {path.name for path in (ROOT / 'crates').iterdir()}
    lost = []
    for page in PAGES:
        for name in sorted(set(re.findall(r'`((?:\w+::)*[A-Za-z][\w-]*)`', read(ROOT / page)))):
            if name.split('::')[-1] not in words and not (ROOT / name).exists():
                lost.append(f'{page} cites {name}, which stands nowhere')
    return lost


def edits_cited():
    """Edits that are cited and not there, or there and not cited."""
    there = {f'{f.parts[-3]}/{f.stem}' for f in (ROOT / 'crates').glob('*/must-fail/*.edit')}
    crates = '|'.join(sorted({name.split('/')[0] for name in there}))
    cited = set(re.findall(rf'(?<![\w/])((?:{crates})/\w+)(?![\w/.])', read(ROOT / 'docs/CLAIMS.md')))
    lost = [f'docs/CLAIMS.md cites the edit {name}, which is not there' for name in sorted(cited - there)]
    return lost + [f'the edit {name} is not in docs/CLAIMS.md' for name in sorted(there - cited)]


def decisions_there():
    """Decisions that a page cites and docs/DECISIONS.md has not."""
    known = set(re.findall(r'^\*\*(D\d+)\.', read(ROOT / 'docs/DECISIONS.md'), re.M))
    lost = []
    for page in [ROOT / 'README.md', *sorted((ROOT / 'docs').rglob('*.md'))]:
        for name in sorted(set(re.findall(r'\b(D\d+)\b', read(page))) - known):
            lost.append(f'{page.relative_to(ROOT)} cites {name}, which has no entry')
    return lost


def entries():
    """The entries of docs/CARETAKER.md that have a sentence, in their order: number, sentence, the lines below."""
    return [(int(number), sentence, rest.splitlines()) for number, sentence, rest in settings2.ENTRY.findall(read(ROOT / 'docs/CARETAKER.md'))]


def sentences():
    """The sentence of each number, as the caretakers' program says it; the numbers are those of the refusals of unit."""
    numbers = dict(re.findall(r'^ {4}(\w+) = (\d+),$', read(ROOT / 'crates/unit/src/refusal.rt'), re.M))
    arms = re.findall(r'^ {8}Refusal::(\w+) => (?:\{\s*)?"([^"]*)"', read(ROOT / 'crates/settings/src/say.rt'), re.M)
    return {int(numbers[name]): sentence for name, sentence in arms}


def sentences_told():
    """Numbers that docs/CARETAKER.md or the caretakers' program leaves out or has in another order than setup, or with different sentences."""
    told, said = [(number, sentence) for number, sentence, _ in entries()], list(sentences().items())
    lost = [f'setup asks {list(mux2.SETUP_ROWS)}; the page has {told}; the program says {said}'] if told != said else []
    if [number for number, _ in told] != list(mux2.SETUP_ROWS):
        lost.append(f'docs/CARETAKER.md has the numbers of setup in another order: {told}')
    others = {number for numbers in mux2.REFUSALS.values() for number in numbers} - set(mux2.SETUP_ROWS)
    others |= {wire2.NO_ROOM, wire2.TOO_SHORT, wire2.NO_FRAME}
    rest = read(ROOT / 'docs/CARETAKER.md').partition('## The other numbers')[2]
    listed = [int(number) for number in re.findall(r'^ {4,5}(\d+) ', rest, re.M)]
    return lost + ([f'docs/CARETAKER.md lists {listed}; the other numbers are {sorted(others)}'] if listed != sorted(others) else [])


def answers(typed, number, instead):
    """Whether the second program refuses what was typed with that number and that advice."""
    return settings2.answer(typed) == [f'refused, {number}:', f'type instead: {instead}']


def accepts(typed):
    return settings2.answer(typed) == ['accepted']


def example_right(number, line):
    """Whether a line below an entry is an example that the second program answers so; what else it offers is accepted."""
    found = EXAMPLE.fullmatch(line)
    return bool(found) and answers(found[1], number, found[2]) and all(accepts(offer) for offer in re.findall(SETTING, found[3]))


def examples_told():
    """Examples of docs/CARETAKER.md that the second program answers otherwise."""
    page = read(ROOT / 'docs/CARETAKER.md')
    lost = [line for number, _, lines in entries() for line in lines if not example_right(number, line)]
    shown = re.findall(rf'^ {{4}}({SETTING})\n {{4}}refused, (\d+): (.*)\n {{4}}type instead: (.*)$', page, re.M)
    lost += [typed for typed, number, sentence, instead in shown if not answers(typed, number, instead) or sentences().get(int(number)) != sentence]
    works = re.findall(r'(\d+) (\d+) (\d+(?: m\b)?)', ''.join(re.findall(r'^Settings that work: (.*)$', page, re.M)))
    lost += [f'{b} {n} {a}' for b, ports, a in works for n in range(1, int(ports) + 1) if not accepts(f'{b} {n} {a}')]
    lost += [] if shown and works else ['the shown answer, or the settings that work']
    return [f'docs/CARETAKER.md is wrong here: {line.strip()}' for line in lost]


def definitions():
    """The files of definitions that contracts of the multiplexer cite, as README.md lists them: crate, name, length."""
    page = read(ROOT / 'README.md')
    for crate, names in re.findall(r'^    crates/(\w+)/specs/ +(.*)$', page, re.M):
        for name, length in re.findall(r'(\w+) (\d+)', names):
            yield crate, name, int(length)


def length_of(crate, name):
    path = ROOT / 'crates' / crate / 'specs' / f'{name}.antt'
    return len(read(path).splitlines()) if path.exists() else None


def lengths_right():
    """Files of definitions whose length README.md has wrong, or that it leaves out."""
    listed = list(definitions())
    lost = [
        f'README.md gives {crate}/{name} {length} lines, and it has {length_of(crate, name)}'
        for crate, name, length in listed
        if length_of(crate, name) != length
    ]
    known = {(crate, name) for crate, name, _ in listed}
    for path in sorted((ROOT / 'crates').glob('*/specs/*.antt')):
        crate, name = path.parts[-3], path.stem
        if name not in ('Lib', 'laws') and crate not in PROGRAMS and (crate, name) not in known:
            lost.append(f'README.md does not list the definitions {crate}/{name}')
    total = sum(length for _, _, length in listed)
    if f'{total:,} in all' not in read(ROOT / 'README.md'):
        lost.append(f'README.md does not say that the definitions have {total:,} lines in all')
    return lost


def write():
    """The lengths in README.md made right."""

    def row(found):
        crate, names = found.group(2), found.group(4)
        renewed = re.sub(r'(\w+) (\d+)', lambda part: f'{part.group(1)} {length_of(crate, part.group(1))}', names)
        return f'{found.group(1)}{crate}{found.group(3)}{renewed}'

    page = re.sub(r'^(    crates/)(\w+)(/specs/ +)(.*)$', row, read(ROOT / 'README.md'), flags=re.M)
    (ROOT / 'README.md').write_text(page, encoding='utf-8')
    total = sum(length for _, _, length in definitions())
    (ROOT / 'README.md').write_text(re.sub(r'[\d,]+ in all', f'{total:,} in all', page), encoding='utf-8')


def main():
    if sys.argv[1:] == ['--write']:
        write()
        return 0
    passed = failed = 0
    for check in (names_stand, edits_cited, decisions_there, lengths_right, sentences_told, examples_told):
        lost = check()
        print('\n'.join(lost + [f'pages, {check.__name__.replace("_", " ")}: {"FAILED" if lost else "ok"}']))
        passed, failed = (passed, failed + 1) if lost else (passed + 1, failed)
    print(f'{passed} passed, {failed} failed')
    return 1 if failed else 0


sys.exit(main())
