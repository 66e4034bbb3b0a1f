#!/usr/bin/env python3
"""Writes the table of wrong programs at the end of docs/MAP.md, from the edits' own first lines.

usage: python3 tools/edits.py

An edit (crates/NAME/must-fail/LABEL.edit) says in its first line what is wrong with the program that it makes. The table has a
row for each function, constant, type or file that an edit changes. tools/map.py tells when the table is not what this would write.
"""
import collections
import pathlib
import re

ROOT = pathlib.Path(__file__).resolve().parent.parent
CRATES = ROOT / 'crates'
PAGE = ROOT / 'docs' / 'MAP.md'
HEAD = '| What is changed | Wrong programs |\n|---|---|\n'
ITEM = re.compile(r'^( *)(?:pub(?:\(crate\))? )?(?:extern "C" )?(fn|const|static|type|enum|struct) (\w+)(.*)', re.M)
# The head of a block of methods: the type that has them.
BLOCK = re.compile(r'^impl(?:<[^>]*>)? (?:.* for )?(\w+|\(\))', re.M)


def end_of(found):
    """What a function, a constant or a type ends with."""
    indent, kind, _, rest = found.groups()
    if kind in ('const', 'static', 'type') or rest.endswith(';'):
        return re.compile(r';$', re.M)
    return re.compile(rf'^{indent}\}}$|^{indent}    (?:requires|ensures) .*;$', re.M)


def items(text):
    """The functions, constants and types of a source, each with its text; a method with its type."""
    for found in ITEM.finditer(text):
        types = [block[1] for block in BLOCK.finditer(text, 0, found.start())] if found[1] else []
        yield '::'.join([*types[-1:], found[3]]), text[found.start():end_of(found).search(text, found.start()).end()]


def changed(crate, edit):
    """What the first replacement of an edit changes: a function, a constant or a type, else a file."""
    file = re.search(r'^file: (.*)$', edit, re.M)[1]
    old = re.search(r'^old: (.*)$', edit, re.M)[1]
    text = (crate / file).read_text()
    names = [name for name, body in items(text) if old in body] if file.startswith('src/') else []
    return f'{crate.name}::{names[0]}' if names else f'{crate.name}/{file}'


def table():
    """The table's rows, by crate and by what is changed."""
    rows = collections.OrderedDict()
    for path in sorted(CRATES.glob('*/must-fail/*.edit')):
        edit = path.read_text()
        rows.setdefault(changed(path.parent.parent, edit), []).append(f'`{path.stem}`: {edit.splitlines()[0]}'.replace('|', r'\|'))
    return HEAD + ''.join(f'| `{what}` | {"<br>".join(edits)} |\n' for what, edits in sorted(rows.items()))


def split(page):
    """The page before its table, and the table."""
    at = page.index(HEAD)
    return page[:at], page[at:]


def is_current():
    """Whether the table is what the edits say."""
    return split(PAGE.read_text())[1] == table()


if __name__ == '__main__':
    PAGE.write_text(split(PAGE.read_text())[0] + table())
