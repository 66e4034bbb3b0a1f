#!/usr/bin/env python3
"""Looks up every name that docs/MAP.md cites, and every sentence of documents 01 and 02 in docs/MAP.md, and says what is missing.

usage: python3 tools/map.py [DOCUMENT_01 [DOCUMENT_02]]

The documents are those given, else $DOCUMENT_01 and $DOCUMENT_02, else ../shared/01-scope.md and ../shared/02-change-requests.md
beside the repository. Of document 02 the jobs count that have a page docs/landings/job-NN.md.

A name is in backticks. One with a slash is a file or a folder, below crates/ or the root, or a must-fail edit; one with
`::` is a function, a method, a constant or a case of a crate, and what follows a type is of that type; any other is a definition,
law, field, function, constant, type or one of its cases, fact of a struct, edit or crate. What a row quotes from a document is no
name. Prints each missing name with its line, then `N names, M missing`.

A sentence ends at a full stop before a blank, or with its line; a row of a table is one sentence; headings and code are none.
A row of docs/MAP.md quotes between straight double quotes in its first cell, and `..` marks what it leaves out. A quote
counts for a sentence only if all its pieces are there, in their order. A sentence has its row if each of its letters and
digits is in such a piece, of one row or of several; a piece of fewer than 8 characters counts only if it is the whole sentence.
Prints each sentence that has none with its line, then of each document `N sentences, M without a row`.

Then it prints what tools/reach.py prints: the files that a reader must believe, which must be those of the reading order. The
table of edits must be what tools/edits.py writes.

The exit status is 1 if a name is missing, a sentence has no row, or a file or the table of edits is wrong. Where no document can be read, the names alone decide.
"""
import os
import pathlib
import re
import sys

import edits
import reach

ROOT = pathlib.Path(__file__).resolve().parent.parent
CRATES = ROOT / 'crates'
WORD = r'[^\s(){}\[\];,.:=]+'
# How antt, Rattle and Rust declare a name.
ANTT = re.compile(rf'^\s*(?:(?:abbrev|unfoldable|pub|data|record|mutual|module)\s+)*({WORD})(?=[\s({{:])', re.M)
# Words in backticks that belong to the language or a command, or mean any name.
PLAIN = {'requires', 'ensures', 'Laws', 'stdout', 'f', '..', 'Option', 'Result'}
CODE = re.compile(r'\b(?:fn|const|struct|enum|mod|trait|static|type|ghost(?! use))\s+(\w+)')
# A type cited with its sort.
KIND = re.compile(r'\b(?:struct|enum) \w+')
# The cases of an enum: its name, and what it has in its braces; there, the name of each.
ENUM = re.compile(r'^(?:pub )?enum (\w+) \{$(.*?)^\}', re.M | re.S)
CASE = re.compile(r'^    (\w+)(?= =|,| \{|\()', re.M)
# What is no sentence of a document: code, headings, the head of a table.
SKIPPED = re.compile(r'^```[\s\S]*?^```|^#.*|^\|.*\n\|-.*', re.M)
# A job of document 02, a line of its own: its number and title, then what it asks for.
JOB = re.compile(r'\*\*Job (\d+)\.[^*]*\*\*\s*(.*)')


def cases(source):
    """The cases of a source's enums, each with its type."""
    return [(name, case) for name, body in ENUM.findall(source) for case in CASE.findall(body)]


def declared():
    """The names that the sources declare."""
    names = set()
    for path in [*CRATES.glob('*/specs/**/*.antt'), *CRATES.glob('*/proofs/**/*.antt')]:
        names.update(ANTT.findall(path.read_text()))
    for path in [*CRATES.glob('*/src/*.rt'), *ROOT.glob('compare/src/*.rs')]:
        text = path.read_text()
        names.update(CODE.findall(text), KIND.findall(text))
        if path.suffix == '.rt':
            names.update(case for _, case in cases(text))
    names.update(path.stem for path in CRATES.glob('*/must-fail/*.edit'))
    names.update(path.name for path in CRATES.iterdir())
    names.update(path.name for path in CRATES.glob('*/proofs/**/*') if path.is_dir())
    return names


def stands(name):
    """Whether there is a file, a folder or an edit at this path, or anywhere under this name where it has no folder."""
    if (ROOT / name).exists():
        return True
    if '/' not in name:
        return any(True for _ in CRATES.glob(f'**/{name}')) or any(True for _ in ROOT.glob(f'compare/**/{name}'))
    crate, _, rest = name.partition('/')
    places = [CRATES / name, CRATES / crate / 'must-fail' / f'{rest}.edit']
    return any(place.exists() for place in places)


def found(name, names):
    """Whether a cited name exists."""
    if name in PLAIN:
        return True
    name = name.split('(')[0].split(' --')[0].strip()
    if name.startswith(('struct ', 'enum ')):
        return name in names
    if '::' in name:
        crate, *rest = name.split('::')
        sources = ''.join(path.read_text() for path in CRATES.glob(f'{crate}/src/*.rt'))
        owned = {*map('::'.join, cases(sources)), *(name for name, _ in edits.items(sources))}
        pairs = [f'{owner}::{part}' for owner, part in zip(rest, rest[1:]) if owner[0].isupper()]
        known = {*CODE.findall(sources), *(case for _, case in cases(sources))}
        return all(part in known for part in rest) and all(pair in owned for pair in pairs)
    if '/' in name or re.search(r'\.(antt|rt|rs|py|md|h)$', name):
        return stands(name.rstrip('/'))
    return name in names or name.split(':')[0] in names


def cells(line):
    """The cells of a row of a table."""
    return re.split(r'(?<!\\)\|', line)[1:-1]


def cited(line):
    """The names that a line of the page cites: of a row of a table with a sentence, those after the sentence."""
    if line.startswith('|'):
        row = cells(line)
        line = ' '.join(row if row[0].strip().startswith('`') else row[1:])
    return re.findall(r'`([^`]+)`', line)


def missing_names(page):
    """Prints the names that are missing, and says how many."""
    names = declared()
    places = [(number, name) for number, line in enumerate(page, 1) for name in cited(line)]
    missing = [f'docs/MAP.md:{number}: {name}' for number, name in places if not found(name, names)]
    print(*missing, f'{len(places)} names, {len(missing)} missing', sep='\n')
    return len(missing)


def plain(text):
    """A text with single blanks and no escapes, so that a quote and what it quotes can be compared."""
    return ' '.join(text.replace(r'\|', '|').split())


def landed(text):
    """Document 02 without the titles of its jobs, and without all that is not a job with a page in docs/landings."""
    def kept(line):
        job = JOB.match(line)
        return job[2] if job and (ROOT / 'docs' / 'landings' / f'job-{int(job[1]):02}.md').exists() else ''
    return '\n'.join(map(kept, text.splitlines()))


def sentences(text):
    """The sentences of a document, each with the number of its line."""
    text = SKIPPED.sub(lambda skipped: '\n' * skipped[0].count('\n'), text)
    for number, line in enumerate(text.splitlines(), 1):
        if line.startswith('|'):
            parts = [line.strip('| ')]
        else:
            parts = re.split(r'(?<=[^.\s]\.)\s+', line.removeprefix('- ').strip())
        yield from ((number, plain(part)) for part in parts if part)


def spans(pieces, sentence):
    """Where the pieces of a quote are in a sentence, one after another; nothing where one is missing."""
    at, places = 0, []
    for piece in pieces:
        start = sentence.find(piece, at)
        if start < 0:
            return []
        at = start + len(piece)
        places.append((start, at))
    return places


def quotes(page, known):
    """What the rows quote, as pieces. A quote may hold marks itself: it extends to the last mark up to which it is one."""
    for line in page:
        first = plain(cells(line)[0]) if line.startswith('|') else ''
        marks = [at for at, sign in enumerate(first) if sign == '"']
        while marks:
            start = marks.pop(0)
            for end in reversed(marks):
                pieces = [piece for piece in re.split(r'\s*\.\.\s*', first[start + 1:end]) if piece]
                if any(spans(pieces, sentence) for _, sentence in known):
                    yield pieces
                    marks = [mark for mark in marks if mark > end]
                    break


def has_row(sentence, quoted):
    """Whether every letter and digit of a sentence is quoted."""
    held = set()
    for start, end in (span for pieces in quoted for span in spans(pieces, sentence)):
        if end - start >= 8 or end - start == len(sentence):
            held.update(range(start, end))
    return all(at in held for at, sign in enumerate(sentence) if sign.isalnum())


def missing_rows(page, path, part):
    """Prints the sentences of that part of a document that have no row, and says how many."""
    try:
        text = path.read_text()
    except OSError:
        print(f'{path.name} could not be read: its sentences were not looked up')
        return 0
    places = list(sentences(part(text)))
    quoted = list(quotes(page, places))
    missing = [f'{path.name}:{number}: {sentence}' for number, sentence in places if not has_row(sentence, quoted)]
    print(*missing, f'{path.name}: {len(places)} sentences, {len(missing)} without a row', sep='\n')
    return len(missing)


def document(number, name):
    """The path of a document."""
    default = os.environ.get(f'DOCUMENT_0{number}', ROOT.parent / 'shared' / name)
    return pathlib.Path(sys.argv[number] if len(sys.argv) > number else default)


def main():
    page = (ROOT / 'docs' / 'MAP.md').read_text().splitlines()
    missing = missing_names(edits.split('\n'.join(page))[0].splitlines())
    missing += missing_rows(page, document(1, '01-scope.md'), lambda text: text)
    missing += missing_rows(page, document(2, '02-change-requests.md'), landed)
    missing += reach.wrong()
    if not edits.is_current():
        print('docs/MAP.md: its table of edits is not what tools/edits.py writes')
        missing += 1
    sys.exit(1 if missing else 0)


if __name__ == '__main__':
    main()
