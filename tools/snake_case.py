#!/usr/bin/env python3
"""Turns this repository's own definitions and lemmas to the spelling of today's Rattle: words in snake case, types and facts in camel case.

usage: python3 tools/snake_case.py [--list]      at the root of the repository, once, after the kit's port.py

A name is turned if a file of specs/ or proofs/ declares it (a definition, a lemma, a constructor or a field), it begins with a small
letter and it has a capital or a dash. Where a lemma would get a definition's name, it gets `_lem` after it. Names of the kit's library,
strings, comments (but for what stands in backticks) and names of goals are left. --list prints the names and turns nothing.
"""
import pathlib
import re
import sys

# Names that port.py has turned in code: they are turned in documents alone.
PORTED = """
add-at add-done add-start add-total after-on all-fit all-from all-read and-left and-same and-step answerOf any-of argumentBy as-many
at-first at-join at-mem at-one at-take atLeast both-true both-ways by-after by-all by-cond by-count by-parts by-ten by-tests byte-put
bytes-of bytes-packed bytes-take cellAt cellOf classOf copied-on count-none count-small countOf countTrue counted-next digits-last
digits-more drop-min either-way end-ge end-on ended-at ends-some endsAt entry-named entryAt false-of fill-end fill-on fill-spec
fill-start find-spec first-below found-at found-none front-length goes-on goes-to has-last has-named has-rest head-small holds-as
imageOf in-bounds in-one in-some is-below is-found is-join is-leaf is-within isSome item-refused join-up joinOf keyOf kindOf last-none
last-step lastOf leBytes left-back leftOf length-from length-more lengthAt lengths-read line-of lines-from list-left list-on list-open
list-written listOf long-after made-table main-spec marked-start mode-of name-in nameOf named-end named-start names-at new-spec
next-le nextOf no-cells no-join no-more no-name no-part no-sign no-word node-at node-at-spec node-made nodeOf none-below none-has
none-here not-ascii not-found not-named nothing-is number-at numberOf of-reader one-cell one-from one-more one-place one-store
opening-of or-left or-same or-step orOf packed-more pageOf part-cut part-end part-length part-none part-small partAt parts-at
parts-last parts-up parts-whole passed-none peek-spec pieces-room push-spec read-answer read-back read-fits read-length read-number
read-spec readOf readOnly readingOf ready-up room-word row-fits row-in row-out row-zero rowOf run-in run-on run-small same-length
same-not same-number same-refl sameName says-all says-any seen-end seen-no seen-start sizeOf standing-here startAt startBy startOf
step-small sub-at table-at tableOf test-on test-read textOf the-end the-last then-same unitAt up-next upTo walk-end walk-start
walks-next within-text written-byte written-none written-thenenum-told
""".split()

# Lemmas that port.py has given the name that a definition gets here: file, name, new name.
FIRST = [
    ('crates/details/proofs/append_node/Proof.antt', 'name_in', 'name_within'),
    ('crates/image/proofs/Laws/RoundTripLaws.antt', 'node_at', 'node_found'),
    ('crates/image/proofs/Laws/FitLaws.antt', 'is_leaf', 'leaf_meant'),
    ('crates/print_text/proofs/Laws/PiecesLaws.antt', 'opening_of', 'opening_of_lem'),
    ('crates/print_text/proofs/Laws/ChildrenLaws.antt', 'opening_of', 'opening_of_lem'),
    ('crates/answers/proofs/Laws/OutcomeLaws.antt', 'read_answer', 'reading_answer'),
    ('crates/prune/proofs/prune_read/Proof.antt', 'read_answer', 'reading_answer'),
]

ROOT = pathlib.Path('.')
NAME = r"[a-zα-ω][\w'₀-₉]*(?:-[\w'₀-₉]+)*"
TOKEN = re.compile(rf"(?<![\w'\-◌₀-₉])({NAME})(?![\w'◌₀-₉])")
SIGNATURE = re.compile(rf"^\s*(?:(?:abbrev|unfoldable|pub|mutual|private)\s+)*({NAME}(?:\s+{NAME})*)(?:\s*\{{[^}}]*\}})?\s*:\s", re.M)
DATA = re.compile(r"^\s*(?:pub\s+)?data\s.*?(?:=|where)(.*?)(?=^\S|\Z)", re.M | re.S)
IMPORT = re.compile(r"^(?:pub )?use (\S+)\.\{([^}]*)\}", re.M)
PATH = re.compile(r'Rattle(?:\.[\w+]+)+')
PIECE = re.compile(r'"(?:[^"\\\n]|\\.)*"|--[^\n]*|//[^\n]*')


def snake(name):
    return re.sub(r'([A-Z])', lambda m: '_' + m[1].lower(), name).replace('-', '_')


def antt():
    return sorted(p for p in ROOT.glob('crates/*/*/**/*.antt') if 'out' not in p.parts[:3])


def blank(text):
    return PIECE.sub('', text)


def first(path):
    """The text of a file, with the lemmas of FIRST renamed."""
    text = path.read_text()
    for file, name, to in FIRST:
        if path == ROOT / file:
            text = re.sub(rf"(?<![\w'.-]){name}(?![\w'-])", to, text)
    return text


def declared():
    """Each name that is declared, and those that come from the kit's library."""
    own, kit = set(), set()
    for path in antt():
        text = blank(first(path))
        for m in IMPORT.finditer(text):
            if not re.match(r'Rattle\.(?:%s)\.' % '|'.join(CRATES), m[1]):
                kit |= {re.split(r'\s+as\s+', n.strip())[0] for n in m[2].split(',')}
        if 'proofs' in path.parts and path.name in ('Proof.antt', 'Answers.antt', 'Invariants.antt'):
            continue
        for m in SIGNATURE.finditer(text):
            own |= set(m[1].split())
        for m in DATA.finditer(text):
            own |= {t for line in re.split(r'[|\n]', m[1]) for t in line.split()[:1] if re.fullmatch(NAME, t)}
    return own, kit


def turned():
    own, kit = declared()
    old = {n for n in own - kit if snake(n) != n}
    used = set()
    for path in antt():
        used |= set(TOKEN.findall(PATH.sub('', blank(first(path)))))
    # the functions of the source that definitions are named after, which stand in goals and paths
    used -= {'is_digit', 'sign_at', 'given_by', 'is_leaf', 'node_at', 'place_of', 'opening_of'}
    plan, taken = {}, {}
    # definitions first, so that a lemma gives way
    for name in sorted(old, key=lambda n: ('-' in n, n)):
        to = snake(name)
        if to in taken or to in kit or (to in used and to not in old):
            taken.setdefault(to, 'used')
            to += '_lem' if '-' in name else '_of'
        taken[to] = name
        plan[name] = to
    return plan


def turn(text, plan, code):
    """The text with its names turned; of a comment what is in backticks, of a string nothing."""
    def name(m):
        return plan.get(m[1], m[1])

    out, at = [], 0
    for m in PIECE.finditer(text) if code else ():
        out.append(TOKEN.sub(name, text[at:m.start()]))
        out.append(m[0] if m[0].startswith('"') else re.sub(r'`[^`\n]*`', lambda q: TOKEN.sub(name, q[0]), m[0]))
        at = m.end()
    rest = text[at:]
    out.append(TOKEN.sub(name, rest) if code else re.sub(r'`[^`\n]*`', lambda q: TOKEN.sub(name, q[0]), rest))
    return ''.join(out)


def clauses(text, plan):
    """A source file: its ghost items and clauses alone."""
    def piece(m):
        return turn(m[0], plan, True)

    text = re.sub(r'^ghost use [^;]*;', piece, text, flags=re.M)
    return re.sub(r'^\s*(?:requires|ensures|ghost)\*?(?: \w+)?:? ?\{.*?\}\s*$', piece, text, flags=re.M | re.S)


CRATES = sorted(p.name for p in ROOT.glob('crates/*') if p.is_dir())

if __name__ == '__main__':
    plan = turned()
    if '--list' in sys.argv:
        for name, to in sorted(plan.items()):
            print(name, to)
        sys.exit()
    for path in antt():
        path.write_text(turn(first(path), plan, True))
    for path in sorted(ROOT.glob('crates/*/src/**/*.rt')):
        path.write_text(clauses(path.read_text(), plan))
    for path in [ROOT / 'README.md', *ROOT.glob('docs/*.md')]:
        path.write_text(turn(path.read_text(), {n: snake(n) for n in PORTED} | plan, False))
    print(len(plan), 'names')
