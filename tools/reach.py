#!/usr/bin/env python3
"""Which definitions the contracts of the entry points reach: what a reader must believe.

usage: python3 tools/reach.py

A contract cites definitions, and a definition cites others. All that is reached so must be in the folder `specs` of some crate,
and nothing else may be there: what inner functions promise each other is in `specs/Inner`, laws are in `proofs/Laws`. The law
`decode_encode` counts as a contract: it says of `image/specs/Decode.antt` all that there is to believe, in terms of `encode` and
`Fits`, so that this file and the layout it reads by need no belief. docs/MAP.md must list just these files, in its reading order.

Prints each file with its lines, then how many need no belief, then `N files, M lines, K wrong` of those that are believed. The
exit status is 1 if something is wrong.
"""
import pathlib
import re
import sys

ROOT = pathlib.Path(__file__).resolve().parent.parent
CRATES = ROOT / 'crates'
# Where each entry point is declared.
ENTRY_POINTS = {
    'read': ['read'], 'decide': ['decide'], 'safety': ['validate_safety'], 'judge': ['judge'], 'print': ['print'],
    'prune': ['prune_read', 'prune_decide', 'prune_check', 'prune_judge', 'prune_print'],
    'read_line': ['reading_line'], 'page': ['report'],
}
# The law that leaves nothing of some files to believe, and those files.
LAW = (CRATES / 'image' / 'proofs' / 'Laws' / 'ImageLaws.antt', 'decode_encode')
PINNED = {CRATES / 'image' / 'specs' / 'Decode.antt', CRATES / 'image' / 'specs' / 'Layout.antt'}
IMPORT = re.compile(r'^(?:ghost )?use Rattle\.(\w+)\.(specs|proofs)\.([\w.+-]+?)(?:\.\{(.*?)\}| as (\w+))?;?$', re.M | re.S)
# The head of a declaration, inside a mutual block too: its kind, if it has one, and its name.
HEAD = re.compile(r'^ *(?:(?:unfoldable|abbrev|pub) )*(data |record )?([^\s(){};,:]+)(?: [({][^:]*:[^)}]*[)}]| \{\w+\})* :')
CONSTRUCTOR = re.compile(r'^ +(\S+) :')
NAME = re.compile(r'[^\s(){}\[\];,."]+')


def module(crate, folder, path):
    """The file of a module; none for the types that the code declares."""
    parts = path.split('.')
    for size in range(len(parts), 0, -1):
        file = CRATES.joinpath(crate, folder, *parts[:size]).with_suffix('.antt')
        if file.exists():
            return file
    return None


def imported(text):
    """The names that a text imports, each with its file and its name there; a whole module under its own name."""
    names = {}
    for crate, folder, path, taken, alias in IMPORT.findall(text):
        file = module(crate, folder, path)
        if file and taken:
            for entry in taken.split(','):
                name, _, new = entry.strip().partition(' as ')
                names[new or name] = (file, name)
        elif file:
            names[alias] = (file, None)
    return names


def declared(file):
    """The declarations of a file: the text of each, and of which one a constructor is."""
    texts, owners, name, kind = {}, {}, None, ''
    for line in file.read_text().splitlines():
        if not line.strip() or line.lstrip().startswith(('--', 'use ', 'unfolding ')):
            continue
        if re.match(r'(unfoldable )?mutual', line):
            name, kind = None, ''
            continue
        head = HEAD.match(line)
        part = kind and line.startswith('  ') and not re.match(r' *(pub )?(data|record) ', line)
        if head and not part and (head[1] or not line.startswith('    ')):
            kind, name = (head[1] or '').strip(), head[2]
            texts[name] = ''
        elif kind == 'data' and CONSTRUCTOR.match(line):
            owners[CONSTRUCTOR.match(line)[1]] = name
        if name:
            texts[name] += line + '\n'
    return texts, owners


def cites(text, names):
    """What a text cites of these names; an operator by its sign."""
    words = set(NAME.findall(text))
    return [place for name, place in names.items() if name in words or (name.strip('◌') in words and '◌' in name)]


def contract(crate, function):
    """The contract of a function, and the names that it may cite."""
    text = (CRATES / crate / 'src' / 'lib.rt').read_text()
    start = re.search(rf'\bfn {function}[<(]', text).start()
    clauses = re.findall(r'^\s*(?:requires|ensures)\*?(?: \w+)? \{(.*?)\}$', text[start:text.index('\n{', start)], re.M | re.S)
    return ' '.join(clauses), imported(text)


def scope(file):
    """The names that a file's declarations may cite: those that it imports, and its own."""
    texts, owners = declared(file)
    return {**imported(file.read_text()), **{name: (file, name) for name in [*texts, *owners]}}


def reached():
    """The declarations that the contracts of the entry points, and the one law, reach: each with what reached it."""
    found = {}
    todo = [(place, f'{crate}::{function}') for crate, functions in ENTRY_POINTS.items() for function in functions
            for place in cites(*contract(crate, function))]
    file, law = LAW
    statement = re.search(rf'^ *pub {law} : .*$', file.read_text(), re.M)[0]
    todo += [(place, law) for place in cites(statement, imported(file.read_text()))]
    while todo:
        (file, name), by = todo.pop()
        texts, owners = declared(file)
        for one in [owners.get(name, name)] if name else texts:
            if (file, one) not in found:
                found[file, one] = by
                todo += [(place, one) for place in cites(texts[one], scope(file))]
    return found


def wrong():
    """Prints what is believed, and what is wrong with it; says how much is wrong."""
    found = reached()
    files = sorted(file for file in CRATES.glob('*/specs/*.antt') if file.name not in ('Lib.antt', 'Inner.antt'))
    page = (ROOT / 'docs' / 'MAP.md').read_text()
    start = page.index('## What a reader must believe')
    listed = set(re.findall(r'`(\w+/specs/\w+\.antt)`', page[start:page.index('\n## ', start + 1)]))
    names = {str(file.relative_to(CRATES)) for file in files}
    faults = [f'{file.relative_to(CRATES)}: {name} is not in specs, but {by} reaches it'
              for (file, name), by in found.items() if file not in files]
    faults += [f'{file.relative_to(CRATES)}: {name} is in specs, but no entry point reaches it'
               for file in files for name in declared(file)[0] if (file, name) not in found]
    faults += [f'docs/MAP.md: {name} is not in its reading order' for name in sorted(names - listed)]
    faults += [f'docs/MAP.md: {name} is in its reading order, but not believed' for name in sorted(listed - names)]
    lines = {file: len(file.read_text().splitlines()) for file in files}
    believed = [file for file in files if file not in PINNED]
    print(*(f'{lines[file]:5} {file.relative_to(CRATES)}' for file in believed), sep='\n')
    print(*(f'{lines[file]:5} {file.relative_to(CRATES)}, which {LAW[1]} leaves nothing of to believe' for file in files if file in PINNED), sep='\n')
    print(*faults, f'{len(believed)} files, {sum(map(lines.get, believed))} lines, {len(faults)} wrong', sep='\n')
    return len(faults)


if __name__ == '__main__':
    sys.exit(1 if wrong() else 0)
