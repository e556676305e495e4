#!/usr/bin/env python3
"""Brings the repository's own definitions and lemmas to snake case, in definitions, proofs, clauses and pages, and gives the crate
`hex`, which the kit has a library of that name of, the name `hexadecimal`.

usage: respell.py [--list]     run once at the project's root, after the kit's port.py; --list only prints the old and new names

Own names are those that a line 'NAME : TYPE' of specs/ or of a lemma file of proofs/ declares. Names of src/, types, constructors
and modules keep their spelling, and so does a name in a file that imports it from the kit's library.
"""
import pathlib
import re
import sys

ROOT = pathlib.Path('.')
WORDS = {'+': 'add', '*': 'mul', '<': 'lt', '≤': 'le', '≡': 'eq', '≢': 'ne', '++': 'append', 'ℤ': 'z', 'ℕ': 'n', '∷': 'cons'}
TOKEN = re.compile(r"[^\s(){}\[\];,.:\"«»`|]+")
DECLARED = re.compile(r"^ *((?:(?:pub|abbrev|unfoldable) )*)([^\s(){}\[\];,.:\"`|]+) :(?= |$)", re.M)
OWN_CRATES = {p.name for p in (ROOT / 'crates').iterdir() if p.is_dir()}


def snake(name):
    """A name in snake case: a hyphen and a capital begin a word, an operator is a word."""
    for sign in ('++', '+', '*', '<', '≤', '≡', '≢', '∷'):
        name = name.replace(sign, f"_{WORDS[sign]}_")
    name = name.replace('ℤ', '_z').replace('ℕ', '_n')
    name = re.sub(r"(?<=[a-z0-9'])(?=[A-Z])", '_', name)
    name = name.replace('-', '_').lower()
    return re.sub(r'_+', '_', name).strip('_')


def lemma_files():
    """Definitions and lemmas: all of specs/, and of proofs/ what lies in no function's folder."""
    for crate in sorted((ROOT / 'crates').iterdir()):
        yield from sorted(crate.glob('specs/**/*.antt'))
        yield from sorted(crate.glob('proofs/*.antt'))


def names_in_clauses():
    """The names of parameters and fields of src/: in a clause they hide a definition of the same name."""
    found = set()
    for path in (ROOT / 'crates').glob('*/src/**/*.rt'):
        found |= set(re.findall(r'\b([a-z]\w*): ', path.read_text()))
    return found


def declared():
    """The names to be spelled anew, with their new spelling."""
    names = set()
    for path in lemma_files():
        for _, name in DECLARED.findall(path.read_text()):
            names.add(name)
    return names


def kit_names(text):
    """The names that a file imports from a module that isn't the repository's own."""
    found = set()
    for path, items in re.findall(r"use ([^\s{;]+?)\.\{([^}]*)\}", text):
        parts = path.split('.')
        if not (parts[0] == 'Rattle' and len(parts) > 1 and parts[1] in OWN_CRATES):
            found |= {word for item in items.split(',') for word in item.split()}
    return found


def renamed(text, names, keep):
    """A text with its own names in the new spelling."""
    return TOKEN.sub(lambda m: names[m.group()] if m.group() in names and m.group() not in keep else m.group(), text)


def renamed_ticks(text, names):
    """A page with the names between back quotes in the new spelling."""
    return re.sub(r'`[^`\n]+`', lambda m: TOKEN.sub(lambda t: names.get(t.group(), t.group()), m.group()), text)


def spelled():
    """Each own name with its new spelling. One that would fall together with another takes the ending `_of` if it is a definition,
    and keeps its dashes if it is a lemma."""
    all_names = declared()
    old = [n for n in sorted(all_names) if re.match(r'[a-z]', n) and '◌' not in n and snake(n) != n]
    plain = [snake(n) for n in old]
    taken = all_names | names_in_clauses() | {n for n in plain if plain.count(n) > 1}
    names = {}
    for name in old:
        new = snake(name)
        if new in taken:
            new = '-'.join(snake(part) for part in name.split('-')) if '-' in name else new + '_of'
            print('kept apart:', name, new)
        if new != name:
            names[name] = new
    return names


def rename_hex():
    """The crate `hex` as `hexadecimal`, in its folder, crates.txt, paths and imports."""
    (ROOT / 'crates' / 'hex').rename(ROOT / 'crates' / 'hexadecimal')
    listed = ROOT / 'crates.txt'
    listed.write_text(re.sub(r'(?m)^(?!#)(.*)$', lambda m: re.sub(r'\bhex\b', 'hexadecimal', m.group()), listed.read_text()))
    for path in sorted((ROOT / 'crates').glob('**/*')):
        if path.suffix == '.antt' and 'out' not in path.parts:
            path.write_text(re.sub(r'\bRattle\.hex\.', 'Rattle.hexadecimal.', path.read_text()))
        if path.suffix == '.rt' and 'out' not in path.parts:
            text = re.sub(r'\bRattle\.hex\.', 'Rattle.hexadecimal.', path.read_text())
            path.write_text(re.sub(r'\bhex::', 'hexadecimal::', text))


def main():
    names = spelled()
    if '--list' in sys.argv:
        for old, new in sorted(names.items()):
            print(old, new)
        return
    for path in sorted((ROOT / 'crates').glob('**/*')):
        if path.suffix in ('.antt', '.rt') and 'out' not in path.parts:
            text = path.read_text()
            path.write_text(renamed(text, names, kit_names(text)))
    for path in sorted(ROOT.glob('*.md')) + sorted((ROOT / 'docs').glob('**/*.md')) + sorted((ROOT / 'bench').glob('*.md')):
        path.write_text(renamed_ticks(path.read_text(), names))
    rename_hex()
    (ROOT / 'tools' / 'respelled').write_text(''.join(f'{old} {new}\n' for old, new in sorted(names.items())))


main()
