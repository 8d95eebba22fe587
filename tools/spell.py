#!/usr/bin/env python3
"""Brings the repository's own definitions, fields and lemmas to snake case, once, after the spelling of the language has been turned.

usage: python3 tools/spell.py [--dry]      at the top of the repository, before any edit by hand

A name of the specs/ and of the lemma files of proofs/ that is in lower camel case, as `storeByte`, or joined by dashes, as `at-or-past`, is
respelled in every file of crates/, the must-fail edits among them. What keeps its spelling: a name with a part in capitals that is joined by a dash,
as `MOST-PORTS`, which stands for a constant of the code and would else have that constant's very name; and a name that the library has itself.
Where two names fall together, the lemma's gets `_lem`. Names that the proofs' own files get from the code are not looked at.
"""
import os
import re
import sys

LIBRARY = "/opt/rattle/rattle"
DECLARED = re.compile(r"\s*(?:(?:pub|abbrev|unfoldable|data|record|open)\s+)*([^\s:(){}λ,;.]+) :(?= |$)")
TOKEN = re.compile(r"(?<![\w'-])([A-Za-z][\w']*(?:-[\w'*+]+)*)(?![\w'-])")


def files(endings):
    for d, ds, fs in os.walk("crates"):
        ds[:] = sorted(x for x in ds if x != "out")
        for f in sorted(fs):
            if f.endswith(endings):
                yield os.path.join(d, f)


def own_names():
    names, fields = set(), set()
    for path in files(".antt"):
        if "/specs/" not in path and os.path.basename(os.path.dirname(path)) != "proofs":
            continue
        inside = None
        for line in open(path, encoding="utf-8"):
            indent = len(line) - len(line.lstrip(" "))
            if inside is not None and line.strip() and indent <= inside:
                inside = None
            if inside is None and re.match(r"\s*(pub )?(record|data) ", line):
                inside = indent
            found = DECLARED.match(line)
            if found:
                names.add(found[1])
                if inside is not None and indent > inside:
                    fields.add(found[1])
    return names, fields


def library_names():
    names = set()
    for d, _, fs in os.walk(LIBRARY):
        for f in fs:
            if f.endswith(".antt"):
                for line in open(os.path.join(d, f), encoding="utf-8", errors="replace"):
                    found = DECLARED.match(line)
                    if found:
                        names.add(found[1])
    return names


def snake(name):
    name = re.sub(r"(?<=[a-z0-9'])(?=[A-Z])", "_", name)
    return name.replace("-", "_").lower()


def table(names, library):
    new = {}
    for name in sorted(names):
        if not name[0].islower() or name in library:
            continue
        camel = re.search(r"[a-z0-9'][A-Z]", name)
        if "-" in name and re.search(r"(^|-)[A-Z]", name):
            continue
        if camel or "-" in name:
            new[name] = snake(name)
    taken = {n for n in names if n not in new}
    for name in sorted(set(new), key=lambda n: ("-" in n, n)):
        if "-" not in name and new[name] in taken:
            lemma = new[name]
            if lemma in names and lemma not in new:
                new[lemma] = lemma + "_lem"
                taken.add(lemma + "_lem")
                continue
        while new[name] in taken:
            new[name] += "_lem"
        taken.add(new[name])
    return new


def main():
    names, fields = own_names()
    library = library_names()
    new = table(names, library)
    for old, now in new.items():
        if now.endswith("_lem") or now in library:
            print(f"look: {old} is {now}" + (", which the library has" if now in library else ""))

    def turn(found):
        name = found[1]
        before = found.string[: found.start()]
        of_value = re.search(r"(?:[)}\]]|(?<![\w'-])[a-zλ][\w'-]*(?:\.[\w'-]+)*)\.$|(^|\s)\.$", before[-120:])
        if name not in new or (of_value and name not in fields) or (new[name] == name + "_lem" and not path.endswith(".antt")):
            return found[0]
        return new[name]

    count = 0
    for path in files((".antt", ".rt", ".edit")):
        text = open(path, encoding="utf-8").read()
        out = TOKEN.sub(turn, text)
        if out != text:
            count += 1
            if "--dry" not in sys.argv:
                with open(path, "w", encoding="utf-8") as f:
                    f.write(out)
    print(f"{len(new)} names respelled in {count} files")


main()
