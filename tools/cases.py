#!/usr/bin/env python3
"""Writes cases that the program `replay` runs, with document 01's answers, as amended by the jobs of document 02 that have landed.

usage: python3 tools/cases.py

`compare/make-list` prints cases with the Rust's own answers, in the same format, and `tools/list.py` makes the program's list from both:
the questions in crates/replay/stdin, and the answers in crates/replay/stdout.

A case is a line. `read TEXT BUFFER ANSWER`: the text in hex (`-` where it is empty), the length of
the lent buffer, and either `no NUMBER PLACE` or `ok IMAGE`, the bytes written in hex.
`decide IMAGE STORES AGE LIST ANSWER`: the image, the table of stores and the confirmed list in hex
(`-` where empty), the age in decimal, and `evict`, `keep` or `no NUMBER PLACE`.
`check IMAGE STORES ANSWER` and `judge TEXT STORES ANSWER`: the image or the text and the table of
stores in hex, and `pass` or `no NUMBER PLACE`. `print IMAGE BUFFER ANSWER`: the image in hex, the
length of the lent buffer, and either `no NUMBER PLACE` or `ok TEXT`, the bytes written in hex (`-`
where there are none). `report TEXT ARGUMENTS ok PAGE`: a text, stores as arguments with a 0 after
each, and the page that `rulejudge` prints, all in hex. The answers, except for the pages, come from the small reader, decider, checker and printer below,
which follow document 01 sentence by sentence. Where document 01 or the list of traps states an
answer itself, they are compared with it first. Where the table is small, a pass, a 21 and a 22 are compared with
what the decisions for every confirmed list and the ages that matter show, by demand 3. Where a
printed text can be read again, it must read as the rule that was printed, as far as a text tells
rules apart. The list is the same bytes on every run.
"""
import sys

SHORT, LONG, FOREIGN, HALF, QUOTE, STRAY, NONE, OPEN = range(1, 9)
TRAILING, UNKNOWN, MISSING, COUNT, DURATION, EMPTY, DEEP = range(9, 16)
BAD_IMAGE, BAD_STORES, TWIN, BAD_LIST = range(16, 20)
UNKNOWN_STORE, UNCONFIRMED, ARCHIVE_ONLY = range(20, 23)

NEED = 26628
LENGTH = 2048
DEPTH = 64


# Reading, as document 01 defines it


class Refused(Exception):
    """A refusal: its number and its place."""

    def __init__(self, number, place):
        super().__init__(number, place)
        self.number, self.place = number, place


BLANKS = (9, 10, 11, 12, 13, 32)
DIGITS = b'0123456789'
WORD = b'abcdefghijklmnopqrstuvwxyzABCDEFGHIJKLMNOPQRSTUVWXYZ0123456789_-.'


def tokens(text):
    """The tokens of a text as (sort, place, word, quoted). Refuses with 4, 5 or 6, the leftmost."""
    found, at = [], 0
    while at < len(text):
        byte, start = text[at], at
        if byte in BLANKS:
            at += 1
        elif byte in b'(),':
            found.append((chr(byte), start, b'', False))
            at += 1
        elif byte in b'&|':
            if text[at + 1:at + 2] != text[at:at + 1]:
                raise Refused(HALF, start)
            found.append((chr(byte), start, b'', False))
            at += 2
        elif byte in b'"\'':
            end = text.find(text[at:at + 1], at + 1)
            if end < 0:
                raise Refused(QUOTE, start)
            found.append(('word', start, text[at + 1:end], True))
            at = end + 1
        elif byte in WORD:
            while at < len(text) and text[at] in WORD:
                at += 1
            word = text[start:at]
            sort = {b'and': '&', b'or': '|'}.get(word.lower(), 'word')
            found.append((sort, start, word, False))
        else:
            raise Refused(STRAY, start)
    return found


def count(word, place):
    """The number that a word is: an optional plus, then digits, at most 2^64 - 1."""
    digits = word[1:] if word[:1] == b'+' else word
    if not digits or any(byte not in DIGITS for byte in digits):
        raise Refused(COUNT, place)
    value = int(digits)
    if value > 2 ** 64 - 1:
        raise Refused(COUNT, place)
    return value


# Job 1 adds w to what is read; "Printing still begins with days."
PRINTED = [(b'd', 86400000), (b'h', 3600000), (b'm', 60000), (b's', 1000), (b'ms', 1)]
UNITS = [(b'w', 604800000)] + PRINTED


def duration(word, place):
    """The milliseconds that a word is: parts of 1 to 9 digits, blanks or none (Job 1) and a unit, from larger units to smaller ones."""
    first, end = 0, len(word)
    while first < end and word[first] in BLANKS:
        first += 1
    while end > first and word[end - 1] in BLANKS:
        end -= 1
    rest, total, left = word[first:end], 0, list(UNITS)
    if not rest:
        raise Refused(DURATION, place)
    while rest:
        size = 0
        while size < len(rest) and rest[size] in DIGITS:
            size += 1
        start = size
        while start < len(rest) and rest[start] in BLANKS:
            start += 1
        letters = start
        while letters < len(rest) and rest[letters] not in DIGITS and rest[letters] not in BLANKS:
            letters += 1
        unit = rest[start:letters]
        while left and left[0][0] != unit:
            left.pop(0)
        if not 1 <= size <= 9 or not left:
            raise Refused(DURATION, place)
        total += int(rest[:size]) * left.pop(0)[1]
        while letters < len(rest) and rest[letters] in BLANKS:
            letters += 1
        rest = rest[letters:]
    return total


# A rule is [kind, argument, children], the argument of a name its bytes.
NAMED, OLDER, READABLE, AT_LEAST, ALL, ANY = range(6)
LISTS = {b'oneof': ANY, b'any': ANY, b'allof': ALL, b'all': ALL, b'at_least': AT_LEAST}


class Parser:
    """The rule of a list of tokens; `length` is the text's, the place of a token that is not there."""

    def __init__(self, found, length):
        self.tokens, self.length, self.at, self.depth = found, length, 0, 0

    def sort(self):
        return self.tokens[self.at][0] if self.at < len(self.tokens) else 'end'

    def place(self):
        return self.tokens[self.at][1] if self.at < len(self.tokens) else self.length

    def take(self, sort, number):
        """The next token where it is of that sort, else the refusal at it."""
        if self.sort() != sort:
            raise Refused(number, self.place())
        self.at += 1
        return self.tokens[self.at - 1]

    def opened(self):
        if self.depth == DEPTH:
            raise Refused(DEEP, self.place())
        self.depth += 1
        self.at += 1

    def closed(self):
        self.take(')', OPEN)
        self.depth -= 1

    def chain(self, sign, kind, below):
        left = below()
        while self.sort() == sign:
            self.at += 1
            right = below()
            if left[0] == kind:
                left[2].append(right)
            else:
                left = [kind, 0, [left, right]]
        return left

    def parse_or(self):
        return self.chain('|', ANY, self.parse_and)

    def parse_and(self):
        return self.chain('&', ALL, self.parse_primary)

    def parse_primary(self):
        if self.sort() == '(':
            self.opened()
            rule = self.parse_or()
            self.closed()
            return rule
        _, place, word, quoted = self.take('word', NONE)
        # Job 2: "A quoted word, whatever follows, now names a store."
        if quoted:
            return [NAMED, word, []]
        if self.sort() == '(':
            self.opened()
            return self.parse_call(place, word.lower())
        if word.lower() == b'readable':
            return [READABLE, 1, []]
        return [NAMED, word, []]

    def parse_call(self, place, name):
        if name == b'older_than':
            _, at, word, _ = self.take('word', MISSING)
            self.closed()
            return [OLDER, duration(word, at), []]
        if name == b'readable':
            _, at, word, _ = self.take('word', MISSING)
            k = count(word, at)
            self.closed()
            return [READABLE, k, []]
        if name not in LISTS:
            raise Refused(UNKNOWN, place)
        k = 0
        if name == b'at_least':
            _, at, word, _ = self.take('word', MISSING)
            k = count(word, at)
            self.take(',', MISSING)
        children = []
        if self.sort() != ')':
            children.append(self.parse_or())
            while self.sort() == ',':
                self.at += 1
                children.append(self.parse_or())
        self.closed()
        if not children:
            raise Refused(EMPTY, place)
        return [LISTS[name], k, children]


def image(rule):
    """The bytes of a rule: children before their parent, in text order."""
    tags, arguments, names = [], [], []

    def put(node):
        kind, argument, children = node
        before = len(tags)
        for child in children:
            put(child)
        if kind == NAMED:
            start = sum(map(len, names))
            names.append(argument)
            argument = start * 65536 + len(argument)
        tags.append(kind + 256 * (len(tags) + 1 - before))
        arguments.append(argument)

    put(rule)
    stored = b''.join(names)
    return b''.join(
        [len(tags).to_bytes(2, 'little'), len(stored).to_bytes(2, 'little')]
        + [tag.to_bytes(4, 'little') for tag in tags]
        + [argument.to_bytes(8, 'little') for argument in arguments]
        + [stored])


def rule_in(text):
    """The rule that a text reads as; refuses with 2 to 15."""
    if len(text) > LENGTH:
        raise Refused(LONG, 0)
    for place, byte in enumerate(text):
        if byte >= 128:
            raise Refused(FOREIGN, place)
    parser = Parser(tokens(text), len(text))
    rule = parser.parse_or()
    if parser.sort() != 'end':
        raise Refused(TRAILING, parser.place())
    return rule


def read(text, room):
    """What reading answers: ('ok', image) or ('no', number, place)."""
    try:
        if room < NEED:
            raise Refused(SHORT, 0)
        return ('ok', image(rule_in(text)))
    except Refused as refused:
        return ('no', refused.number, refused.place)


# Deciding, as document 01 defines it

NODES = 2048
NAME_BYTES = 2048
STORES = 64
MOST = 2 ** 64 - 1


def number(data, at, size):
    return int.from_bytes(data[at:at + size], 'little')


def rule_of(data):
    """The rule that an image holds, as [kind, argument, children]; refuses with 16 where the layout is broken."""
    broken = Refused(BAD_IMAGE, 0)
    if len(data) < 4:
        raise broken
    n, m = number(data, 0, 2), number(data, 2, 2)
    if not 1 <= n <= NODES or m > NAME_BYTES or len(data) != 4 + 12 * n + m:
        raise broken
    names, used = data[4 + 12 * n:], 0
    if any(byte >= 128 for byte in names):
        raise broken
    # The rules that have no parent yet, with their sizes.
    standing = []
    for index in range(n):
        size, kind = divmod(number(data, 4 + 4 * index, 4), 256)
        argument, children = number(data, 4 + 4 * n + 8 * index, 8), []
        if kind > ANY or size < 1:
            raise broken
        if kind in (NAMED, OLDER, READABLE) and size != 1:
            raise broken
        if kind in (AT_LEAST, ALL, ANY) and size == 1:
            raise broken
        left = size - 1
        while left:
            if not standing or standing[-1][0] > left:
                raise broken
            below, child = standing.pop()
            children.insert(0, child)
            left -= below
        if kind in (ALL, ANY) and argument:
            raise broken
        if kind == NAMED:
            start, length = divmod(argument, 65536)
            if start != used:
                raise broken
            used += length
            argument = names[start:used]
        standing.append((size, [kind, argument, children]))
    if used != m or len(standing) != 1:
        raise broken
    return standing[0][1]


def entries_of(data, modes, refusal):
    """The entries (mode, name) of a table or a list with those modes; the refusal where its layout is broken."""
    if len(data) < 4:
        raise refusal
    many, total = number(data, 0, 2), number(data, 2, 2)
    if many > STORES or len(data) != 4 + 2 * many + total:
        raise refusal
    found, lengths, names = data[4:4 + many], data[4 + many:4 + 2 * many], data[4 + 2 * many:]
    if any(mode not in modes for mode in found) or sum(lengths) != total or any(byte >= 128 for byte in names):
        raise refusal
    entries, at = [], 0
    for mode, length in zip(found, lengths):
        entries.append((mode, names[at:at + length]))
        at += length
    return entries


def says(rule, age, ready, confirmed):
    """What a rule says: True for evict."""
    kind, argument, children = rule
    below = [says(child, age, ready, confirmed) for child in children]
    if kind == NAMED:
        return argument in confirmed
    if kind == OLDER:
        return age >= argument
    if kind == READABLE:
        return ready >= argument
    if kind == AT_LEAST:
        return below.count(True) >= argument
    return all(below) if kind == ALL else any(below)


def known_stores(stores):
    """The entries of a table of stores; refuses with 17, then with 18 at the first store whose name an earlier one has."""
    known = entries_of(stores, (0, 1, 2), Refused(BAD_STORES, 0))
    for place, (_, name) in enumerate(known):
        if name in [earlier for _, earlier in known[:place]]:
            raise Refused(TWIN, place)
    return known


def evicts(rule, known, age, confirmed):
    """Whether a rule says evict for those stores, that age and that set of confirmed names."""
    ready = sum(mode in (0, 1) and name in confirmed for mode, name in known)
    return says(rule, age, ready, confirmed)


def decide(data, stores, age, confirmed_list):
    """What deciding answers: 'evict', 'keep' or 'no NUMBER PLACE'."""
    try:
        rule = rule_of(data)
        known = known_stores(stores)
        confirmed = {name for _, name in entries_of(confirmed_list, (0,), Refused(BAD_LIST, 0))}
        return 'evict' if evicts(rule, known, age, confirmed) else 'keep'
    except Refused as refused:
        return 'no %d %d' % (refused.number, refused.place)


# Checking and judging, as document 01 defines them


def in_order(rule):
    """The nodes of a rule by their index: children before their parent, in text order."""
    return [node for child in rule[2] for node in in_order(child)] + [rule]


def verdict(rule, stores):
    """'pass', where none of 17, 18, 20, 21, 22 applies to a rule and a table; else the first of them."""
    known = known_stores(stores)
    if not known:
        return 'pass'
    names = [name for _, name in known]
    for index, (kind, argument, _) in enumerate(in_order(rule)):
        if kind == NAMED and argument not in names:
            raise Refused(UNKNOWN_STORE, index)
    if evicts(rule, known, MOST, set()):
        raise Refused(UNCONFIRMED, 0)
    archive = {name for mode, name in known if mode == 2}
    if archive and evicts(rule, known, MOST, archive):
        raise Refused(ARCHIVE_ONLY, 0)
    return 'pass'


def check(data, stores):
    """What checking answers: 'pass' or 'no NUMBER PLACE'."""
    try:
        return verdict(rule_of(data), stores)
    except Refused as refused:
        return 'no %d %d' % (refused.number, refused.place)


def judge(text, stores):
    """What judging answers: 'pass' or 'no NUMBER PLACE'."""
    try:
        return verdict(rule_in(text), stores)
    except Refused as refused:
        return 'no %d %d' % (refused.number, refused.place)


# Printing, as document 01 defines it


def printed_duration(span):
    """The text of a duration: its nonzero parts, from days down to milliseconds, each part less than one of the unit before it."""
    parts = b''
    for unit, worth in PRINTED:
        many, span = divmod(span, worth)
        if many:
            parts += b'%d%s' % (many, unit)
    return parts or b'0s'


def printed(rule):
    """The text of a rule: brackets only around an any directly under an all."""
    kind, argument, children = rule
    if kind == NAMED:
        return argument
    if kind == OLDER:
        return b'older_than(%s)' % printed_duration(argument)
    if kind == READABLE:
        return b'readable(%d)' % argument
    below = []
    for child in children:
        text = printed(child)
        below.append(b'(%s)' % text if kind == ALL and child[0] == ANY else text)
    if kind == AT_LEAST:
        return b'at_least(%d, %s)' % (argument, b', '.join(below))
    return (b' && ' if kind == ALL else b' || ').join(below)


def printing(data, room):
    """What printing answers: ('ok', text) or ('no', number, place)."""
    try:
        text = printed(rule_of(data))
        if room < len(text):
            raise Refused(SHORT, 0)
        return ('ok', text)
    except Refused as refused:
        return ('no', refused.number, refused.place)


# The list

out, seen, reached = [], set(), set()


def note(words):
    out.append('# ' + words)


def case(text, room=NEED):
    """Adds a case where it is not there yet, and hands back its answer."""
    answer = read(text, room)
    shown = answer[1].hex() if answer[0] == 'ok' else '%d %d' % answer[1:]
    if (text, room) not in seen:
        seen.add((text, room))
        out.append('read %s %d %s %s' % (text.hex() or '-', room, answer[0], shown))
    if answer[0] == 'no':
        reached.add(answer[1])
    return answer


def cases(*texts):
    for text in texts:
        case(text)


def differs(text, answer, stated):
    sys.exit('%.60r: the reader says %.200r, and stated is %r' % (text, answer, stated))


def no(text, number, place, room=NEED):
    """A case whose refusal is stated here."""
    answer = case(text, room)
    if answer != ('no', number, place):
        differs(text, answer, ('no', number, place))


def ok(text, n, m, room=NEED, root=None):
    """A case whose nodes and name bytes are stated here, and the root's kind and argument where given."""
    answer = case(text, room)
    if answer[0] != 'ok':
        differs(text, answer, (n, m))
    got = answer[1]
    if got[:4] != n.to_bytes(2, 'little') + m.to_bytes(2, 'little') or len(got) != 4 + 12 * n + m:
        differs(text, got, (n, m))
    tag = int.from_bytes(got[4 * n:4 * n + 4], 'little')
    argument = int.from_bytes(got[12 * n - 4:12 * n + 4], 'little')
    if tag // 256 != n or root not in (None, (tag % 256, argument)):
        differs(text, (tag, argument), root)


def filled(start, fill, end, size):
    """A text of that size: `fill` again and again between `start` and `end`, cut to fit."""
    middle = size - len(start) - len(end)
    return start + (fill * (middle // len(fill) + 1))[:middle] + end


def sheet():
    note('The proved sheet, and the rules that document 01 and the demands name')
    ok(b'a && b || c', 5, 3, root=(ANY, 0))
    ok(b'a && (b && c)', 5, 3, root=(ALL, 0))
    ok(b'(a && b) && c', 4, 3, root=(ALL, 0))
    no(b'any(a,)', 7, 6)
    no(b'any()', 14, 0)
    no(b'', 7, 0)
    no(b'older_than(1h 30m)', 8, 14)
    ok(b'older_than("1h 30m")', 1, 0, root=(OLDER, 5400000))
    ok(b'older_than("1w 1d")', 1, 0, root=(OLDER, 691200000))
    no(b'readable(x', 12, 9)
    no(b'older_than(x', 8, 12)
    no(b') a &', 4, 4)
    ok(b"'READABLE'", 1, 8, root=(NAMED, 8))
    ok(b'nas || vault', 3, 8, root=(ANY, 0))
    ok(b'at_least(0, nas)', 2, 3, root=(AT_LEAST, 0))
    ok(b'at_least(2, nas, vault)', 3, 8, root=(AT_LEAST, 2))
    ok(b'nas && readable(1)', 3, 3, root=(ALL, 0))
    ok(b'older_than(30d) && readable(1)', 3, 0, root=(ALL, 0))
    ok(b'at_least(2, older_than(30d), vault)', 3, 5, root=(AT_LEAST, 2))
    ok(b'vault && cellar', 3, 11, root=(ALL, 0))


def stated_rows():
    note('Further texts whose answers are stated: tokens, counts, durations and rules')
    ok(b'"it\'s"', 1, 4, root=(NAMED, 4))
    ok(b'a aNd b OR c', 5, 3, root=(ANY, 0))
    ok(b'a\t||\x0bb', 3, 2, root=(ANY, 0))
    no(b'a | b', 4, 2)
    no(b'"a\'', 5, 0)
    ok(b"'\0\x7f'", 1, 2, root=(NAMED, 2))
    no(b'readable(1x)', 12, 9)
    ok(b'readable(000000000000000000007)', 1, 0, root=(READABLE, 7))
    ok(b"older_than(' 30d ')", 1, 0, root=(OLDER, 2592000000))
    no(b'older_than(1h1h)', 13, 11)
    no(b'older_than(30)', 13, 11)
    ok(b"older_than('\t1 \n\x0b\x0c\r w 2 ms')", 1, 0, root=(OLDER, 604800002))
    no(b"older_than('0000000001 w')", 13, 11)
    no(b"older_than('1 0w')", 13, 11)
    ok(b"'nas' || ReadAble", 3, 3, root=(ANY, 0))
    ok(b'any(\'ANY\', "readable")', 3, 11, root=(ANY, 0))
    no(b"('any'(a))", 8, 6)
    no(b"any(b, 'any'(a))", 8, 12)
    no(b'at_least(1, "x" (a))', 8, 16)


def orders():
    note('Orders and places')
    no(b'&', 1, 0, room=26627)
    no(b'a' * 2049, 1, 0, room=26627)
    no(b'\x80', 1, 0, room=0)
    no(b"'\x80'", 3, 1)
    no(b"'a\xffb", 3, 2)
    no(b'& \x80', 3, 2)
    no(b'# " \x80', 3, 4)
    no(b"'a # b", 5, 0)
    no(b"a # '", 6, 2)
    no(b'a &&& b', 4, 4)
    no(b'older_than(x y', 8, 13)
    no(b'any( ', 7, 5)
    no(b"a'b'", 9, 1)
    no(b'any(a,any())', 14, 6)
    no(b'a b &', 4, 4)
    no(b') "', 5, 2)
    no(b'() #', 6, 3)
    no(b'any() #', 6, 6)
    no(b'x(a) |', 4, 5)
    no(b'& "', 4, 0)
    no(b'" &', 5, 0)
    no(b'# &', 6, 0)
    no(b'"\'#&', 5, 0)
    no(b'a && \'b" #', 5, 5)
    no(b'a |& b', 4, 2)
    no(b'a &| b', 4, 2)
    no(b'a & & b', 4, 2)
    no(b'a ||| b', 4, 4)
    no(b'a &&&& b', 7, 4)
    no(b'a |||| b', 7, 4)
    no(b'older_than(x', 8, 12)
    no(b'older_than(x,', 8, 12)
    no(b'older_than(x)', 13, 11)
    no(b'readable(x y', 12, 9)
    no(b'readable(1 x', 8, 11)
    no(b'at_least(x', 12, 9)
    no(b'at_least(x)', 12, 9)
    no(b'at_least(1 x', 11, 11)
    no(b'at_least(1,x()', 10, 11)
    no(b'at_least(1,a b)', 8, 13)
    no(b'at_least(1,)x', 14, 0)
    no(b'any()x', 14, 0)
    no(b'any( ) x', 14, 0)
    no(b'a any()', 9, 2)
    no(b'a || any()', 14, 5)


def depths():
    note('Depth')
    for start, end in ((b'(', b')'), (b'any(', b')'), (b'all(', b')'), (b'oneof(', b')'), (b'AllOf (', b')'),
                       (b'at_least(1,', b')'), (b'(any(', b'))'), (b'a||(', b')')):
        deep = DEPTH // start.count(b'(')
        case(start * deep + b'a' + end * deep)
        no(start * deep + b'(a)' + end * deep, 15, len(start) * deep)
        no(start * deep + b'any(a)' + end * deep, 15, len(start) * deep + 3)
        case(start * (deep - 1) + b'a' + end * (deep - 1))
        case(start * (deep + 1))
    no(b'(' * 65, 15, 64)
    no(b'(' * 65 + b'a' + b')' * 65, 15, 64)
    no(b'any(' * 65 + b'a' + b')' * 65, 15, 259)
    no(b'(' * 64, 7, 64)
    no(b'any(' * 64, 7, 256)
    no(b'(' * 64 + b')' * 64, 7, 64)
    no(b'any(' * 64 + b')' * 64, 14, 252)
    ok(b'(' * 63 + b'older_than(1d)' + b')' * 63, 1, 0)
    ok(b'(' * 63 + b'readable(3)' + b')' * 63, 1, 0)
    ok(b'(' * 64 + b'readable' + b')' * 64, 1, 0)
    no(b'(' * 64 + b'older_than(1d)', 15, 74)
    no(b'(' * 64 + b'readable(1)', 15, 72)
    no(b'(' * 64 + b'x(1)', 15, 65)
    no(b'(' * 64 + b'x (1)', 15, 66)
    no(b'(' * 63 + b'x(1)', 10, 63)
    no(b'(' * 63 + b'older_than((', 11, 74)
    no(b'(' * 63 + b'readable((', 11, 72)
    no(b'(' * 63 + b'at_least((', 11, 72)
    no(b'(' * 63 + b'at_least(1(', 11, 73)
    no(b'(' * 63 + b'any((', 15, 67)
    no(b'(' * 64 + b'at_least(x', 15, 72)
    no(b'(' * 65 + b'&', 4, 65)
    no(b'(' * 65 + b'"', 5, 65)
    no(b'(' * 65 + b'#', 6, 65)
    no(b'(' * 65 + b'\x80', 3, 65)
    no(b') ' + b'(' * 65, 7, 0)
    no(b'a ' + b'(' * 65, 10, 0)
    no(b'a b' + b'(' * 65, 9, 2)
    one = b'(' * 64 + b'a' + b')' * 64
    ok(one + b'&&' + one, 3, 2)
    ok(one + b'||' + one + b'&&' + one, 5, 3)
    no(one + b'&&(' + one + b')', 15, 129 + 2 + 64)
    no(b'(' + one[:-1], 15, 64)
    no(one + b')', 9, 129)
    no(one[:-1], 8, 128)
    case(b'any(' + b','.join([b'readable(1)'] * 70) + b')')
    case(b'&&'.join([b'(a)'] * 100))
    case(b'(' * 63 + b'older_than(1d)||readable(2)||all(a)||(b)' + b')' * 63)
    no(b'(' * 63 + b'(b)&&((c))' + b')' * 63, 15, 63 + 6)
    no(b'(' * 2048, 15, 64)
    no(b'any(' * 512, 15, 259)


def word_cases():
    note('Words: signs and names, quotes, blanks')
    no(b'and(a)', 7, 0)
    no(b"'and'(a)", 9, 5)
    ok(b'a.and.b', 1, 7)
    no(b'a (b)', 10, 0)
    no(b"'a\\'b'", 5, 5)
    no(b'"a\\"b"', 5, 5)
    ok(b"'a\"b'", 1, 3)
    ok(b'"a\'b"', 1, 3)
    ok(b"''", 1, 0, root=(NAMED, 0))
    ok(b'""', 1, 0, root=(NAMED, 0))
    ok(b"'' && ''", 3, 0)
    ok(b"'' || a || ''", 4, 1)
    no(b"''''", 9, 2)
    no(b"'''", 5, 2)
    no(b"''()", 9, 2)
    no(b"''(a)", 9, 2)
    ok(b'2', 1, 1)
    ok(b'30d', 1, 3)
    ok(b'any', 1, 3)
    ok(b'all && oneof || allof', 5, 13)
    ok(b'older_than', 1, 10)
    ok(b'at_least', 1, 8)
    ok(b'AT_LEAST or Older_Than', 3, 18)
    ok(b'-', 1, 1)
    ok(b'_.-', 1, 3)
    ok(b'.', 1, 1)
    ok(b'...', 1, 3)
    ok(b'a and b', 3, 2, root=(ALL, 0))
    ok(b'a AND b', 3, 2, root=(ALL, 0))
    ok(b'a aNd b', 3, 2, root=(ALL, 0))
    ok(b'a or b', 3, 2, root=(ANY, 0))
    ok(b'a OR b', 3, 2, root=(ANY, 0))
    ok(b'a oR b', 3, 2, root=(ANY, 0))
    no(b"a 'and' b", 9, 2)
    no(b'a "or" b', 9, 2)
    ok(b"'and' and 'or'", 3, 5)
    ok(b"'AND' or \"Or\"", 3, 5)
    ok(b'"and"', 1, 3)
    no(b'and', 7, 0)
    no(b'or', 7, 0)
    no(b'OR(a)', 7, 0)
    no(b'"or"(a)', 9, 4)
    ok(b'an', 1, 2)
    ok(b'andy', 1, 4)
    ok(b'and_', 1, 4)
    ok(b'-or', 1, 3)
    ok(b'or.', 1, 3)
    ok(b'a.or||b.and', 3, 9)
    ok(b"a and'b'", 3, 2)
    ok(b"'a'and'b'", 3, 2)
    ok(b'(a)or(b)', 3, 2)
    no(b'a andb', 9, 2)
    ok(b'readable', 1, 0, root=(READABLE, 1))
    ok(b'ReadAble', 1, 0, root=(READABLE, 1))
    ok(b'"readable"', 1, 8, root=(NAMED, 8))
    ok(b"' readable'", 1, 9)
    ok(b'readable_', 1, 9)
    ok(b'readabl', 1, 7)
    ok(b"readable('2')", 1, 0, root=(READABLE, 2))
    ok(b'readable (2)', 1, 0, root=(READABLE, 2))
    ok(b'OLDER_THAN\t(\n1d\r)', 1, 0, root=(OLDER, 86400000))
    ok(b'ANY(a)', 2, 1, root=(ANY, 0))
    ok(b'OneOf(a,b)', 3, 2, root=(ANY, 0))
    ok(b'aLL(a)', 2, 1, root=(ALL, 0))
    ok(b'ALLOF(a,b)', 3, 2, root=(ALL, 0))
    ok(b'At_Least(1,a)', 2, 1, root=(AT_LEAST, 1))
    ok(b' \t\n\x0b\x0c\ra \t\n\x0b\x0c\r', 1, 1)
    ok(b'a&&b||c&&d', 7, 4)
    ok(b'A.b-c_9', 1, 7)
    ok(b"'a b' && 'a,b' && '(' && '&'", 5, 8)
    no(b'a b', 9, 2)
    no(b"'a''b'", 9, 3)
    no(b"a\"b\"", 9, 1)
    ok(b'\ta', 1, 1)
    for byte in list(range(9, 14)) + list(range(28, 33)):
        one = bytes([byte])
        case(b'a' + one + b'&&' + one + b'b')
        case(one)
        case(one + b'a')
        case(b'any(a,' + one)
        case(b'readable' + one + b'(1)')
    for byte in (0, 127, 128, 255):
        one = bytes([byte])
        case(one)
        case(b"'" + one + b"'")
        case(b'"' + one)
        case(b'a' + one)
        case(b"a '" + one + b"'")
        case(b'a || "b' + one + b'c" || d')
        case(one + b'a &')
        case(b'any(' + one + b')')


def quoted_cases():
    note('A quoted word names a store (Job 2): readable, in any case of letters')
    for word in (b"'readable'", b'"readable"', b"'READABLE'", b"'ReadAble'", b' \t"readablE"\n'):
        ok(word, 1, 8, root=(NAMED, 8))
        ok(b'(' + word + b')', 1, 8, root=(NAMED, 8))
        ok(b'readable && ' + word, 3, 8, root=(ALL, 0))
        ok(word + b'||readable', 3, 8, root=(ANY, 0))
        ok(b'any(' + word + b',readable, ' + word + b')', 4, 16, root=(ANY, 0))
        ok(b'at_least(1,' + word + b')', 2, 8, root=(AT_LEAST, 1))
        no(word + b' x', 9, len(word) + 1)
        no(word + b' &&', 7, len(word) + 3)
    ok(b"'nas' && readable", 3, 3, root=(ALL, 0))
    ok(b"nas && 'readable'", 3, 11, root=(ALL, 0))
    ok(b"'readable' && readable(1)", 3, 8, root=(ALL, 0))
    ok(b"'readable' and Readable or 'x'", 5, 9, root=(ANY, 0))
    note('A bracket after a quoted word: 9 at the top, 8 inside brackets or arguments')
    rests = [b'(a)', b'(', b'()', b'(1)', b' (1, a) || b', b'\t\n((a', b'(a,)', b'(x(', b'(1d)']
    names = [b'any', b'ANY', b'all', b'oneof', b'AllOf', b'at_least', b'older_than', b'readable', b'READABLE', b'x', b'and', b'',
             b'field tapes']
    for index, name in enumerate(names):
        word = b'"%s"' % name if index % 2 else b"'%s'" % name
        ok(word, 1, len(name), root=(NAMED, len(name)))
        for way, start in enumerate((b'', b'a || b && ', b'(', b'any(a, ', b'at_least(1,', b'older_than(1d) or(')):
            rest = rests[(index + way) % len(rests)]
            blanks = len(rest) - len(rest.lstrip())
            no(start + word + rest, 9 if way < 2 else 8, len(start) + len(word) + blanks)
    note('The same with a refusal that comes before')
    for word in (b"'any'", b'"readable"', b"''"):
        no(word + b'(a) &', 4, len(word) + 4)
        no(word + b"('", 5, len(word) + 1)
        no(word + b'(#', 6, len(word) + 1)
        no(word + b'(\x80', 3, len(word) + 1)
        no(b') ' + word + b'(', 7, 0)
        no(b'any() ' + word + b'(', 14, 0)
        no(b'b ' + word + b'(', 9, 2)
        no(b'x(' + word + b'(', 10, 0)
        no(b'readable(x) && ' + word + b'(', 12, 9)
    no(b"'any'(a) || b", 9, 5)
    no(b"'readable'(1)", 9, 10)
    no(b"'readable'('2')", 9, 10)
    no(b"(('a')(b))", 8, 6)
    no(b"any('a'('b'))", 8, 7)
    no(b"all(any('a'(b)))", 8, 11)
    note('A quoted word before a bracket opens none: 8, and not 15')
    no(b'(' * 64 + b"'a'(", 8, 67)
    no(b'(' * 64 + b"'any'(b)", 8, 69)
    no(b'(' * 64 + b"'a' (", 8, 68)
    no(b'any(' * 64 + b'"a"(', 8, 259)
    no(b'(' * 63 + b"'a'(", 8, 66)
    no(b'(' * 64 + b'a(', 15, 65)
    no(b'(' * 65 + b"'a'(", 15, 64)
    ok(b'(' * 64 + b"'readable'" + b')' * 64, 1, 8)
    note('Quoted counts and durations, and a bracket after them')
    ok(b'readable("2")', 1, 0, root=(READABLE, 2))
    ok(b"at_least('1','a')", 2, 1, root=(AT_LEAST, 1))
    ok(b"older_than('30d')", 1, 0, root=(OLDER, 30 * 86400000))
    no(b"readable('2'(", 8, 12)
    no(b"readable('2'(a))", 8, 12)
    no(b"at_least('2'(a))", 11, 12)
    no(b"older_than('1d'(a))", 8, 15)
    no(b"readable('readable')", 12, 9)
    no(b"readable('any'(a))", 12, 9)
    no(b"at_least('readable', a)", 12, 9)
    no(b"older_than('readable')", 13, 11)
    no(b"older_than('any'(a))", 8, 16)


def count_cases():
    note('Counts')
    ok(b'readable(0)', 1, 0, root=(READABLE, 0))
    ok(b'readable(18446744073709551615)', 1, 0, root=(READABLE, 2 ** 64 - 1))
    no(b'readable(18446744073709551616)', 12, 9)
    ok(b'at_least(18446744073709551615, a)', 2, 1, root=(AT_LEAST, 2 ** 64 - 1))
    no(b'at_least(18446744073709551616, a)', 12, 9)
    no(b'readable(18446744073709551620)', 12, 9)
    no(b'readable(18446744073709551625)', 12, 9)
    no(b'readable(99999999999999999999)', 12, 9)
    no(b'readable(100000000000000000000)', 12, 9)
    no(b'readable(184467440737095516150)', 12, 9)
    no(b'readable(' + b'9' * 2000 + b')', 12, 9)
    ok(b'readable(018446744073709551615)', 1, 0, root=(READABLE, 2 ** 64 - 1))
    no(b'readable(018446744073709551616)', 12, 9)
    ok(b'readable(' + b'0' * 2000 + b')', 1, 0, root=(READABLE, 0))
    ok(b'readable(' + b'0' * 2000 + b'7)', 1, 0, root=(READABLE, 7))
    ok(b"at_least('+" + b'0' * 2000 + b"18446744073709551615',a)", 2, 1, root=(AT_LEAST, 2 ** 64 - 1))
    ok(b"readable('+1')", 1, 0, root=(READABLE, 1))
    ok(b'readable("+0")', 1, 0, root=(READABLE, 0))
    no(b'readable(+1)', 6, 9)
    no(b"readable('+')", 12, 9)
    no(b"readable('')", 12, 9)
    no(b"readable('++1')", 12, 9)
    no(b"readable('1+')", 12, 9)
    no(b"readable(' 1')", 12, 9)
    no(b"readable('1 ')", 12, 9)
    no(b"readable('+ 1')", 12, 9)
    no(b'readable( "\t1" )', 12, 10)
    no(b'readable(-1)', 12, 9)
    no(b'readable(-0)', 12, 9)
    no(b'readable(-)', 12, 9)
    no(b'readable(1.0)', 12, 9)
    no(b'readable(1_000)', 12, 9)
    no(b'readable(1d)', 12, 9)
    no(b'readable(0x1)', 12, 9)
    no(b"readable('1\x00')", 12, 9)
    no(b"at_least(  'x', a)", 12, 11)
    no(b'at_least("", a)', 12, 9)
    no(b'at_least(a, 1)', 12, 9)
    no(b'any(a, at_least(b, c))', 12, 16)
    no(b'readable(readable)', 12, 9)
    cases(b'readable(4294967295)', b'readable(4294967296)', b'readable(9223372036854775807)',
          b'readable(9223372036854775808)', b'readable(256)', b'readable(65536)', b'readable(10)',
          b'readable(1844674407370955161)', b'readable(18446744073709551609)',
          b'at_least(00, a)', b"at_least('+2', a, b)", b'at_least(3,a)')


def duration_cases():
    note('Durations')
    day, hour, minute = 86400000, 3600000, 60000
    for word, value in ((b'1d', day), (b'1h', hour), (b'1m', minute), (b'1s', 1000), (b'1ms', 1), (b'0s', 0),
                        (b'0d', 0), (b'0ms', 0), (b'30d', 30 * day), (b'1h30m', hour + 30 * minute),
                        (b'1m1ms', minute + 1), (b'1d1ms', day + 1), (b'24h', day), (b'60s', minute),
                        (b'1000ms', 1000), (b'1d2h3m4s5ms', day + 2 * hour + 3 * minute + 4005),
                        (b'999999999d', 999999999 * day), (b'999999999ms', 999999999),
                        (b'999999999d999999999h999999999m999999999s999999999ms',
                         999999999 * (day + hour + minute + 1001)),
                        (b'000000001d', day), (b'0d0h0m0s0ms', 0)):
        ok(b'older_than(' + word + b')', 1, 0, root=(OLDER, value))
        ok(b"older_than('" + word + b"')", 1, 0, root=(OLDER, value))
    for word, value in ((b' 1d ', day), (b'1d 2h', day + 2 * hour), (b'\t1h\n30m\r', hour + 30 * minute),
                        (b'\x0b\x0c1d\t \t1ms\x0b', day + 1), (b'1h  30m', hour + 30 * minute),
                        (b'1d1h 1m1s 1ms', day + hour + minute + 1001)):
        ok(b"older_than('" + word + b"')", 1, 0, root=(OLDER, value))
        ok(b'older_than("' + word + b'")', 1, 0, root=(OLDER, value))
    for word in (b'0000000001d', b'1000000000d', b'0000000000s', b'1d0000000001h', b'1mms', b'1ms1s', b'30D',
                 b'1H', b'1M', b'1S', b'1MS', b'1Ms', b'1mS', b'1', b'd', b'ms', b'1d1', b'1d1d', b'1h1d',
                 b'1s1m', b'1ms1ms', b'1m1m', b'1y', b'1us', b'1ns', b'1min', b'1hr', b'1day', b'1days',
                 b'1.5h', b'1_0d', b'-1d', b'1-d', b'1d-', b'.1d', b'P1D', b'1sm', b'1smm', b'1mss', b'1dh',
                 b'x', b'1dx', b'1d1x', b'0', b'1s1', b'1m1s1m', b'1d.2h', b'older_than'):
        no(b'older_than(' + word + b')', 13, 11)
    for word in (b'', b' ', b'\t\n', b'1m s', b'1d,2h', b'+1d', b'1d +2h', b'1d\x1c2h', b'1d\x1d',
                 b'\x1e1d', b'1d\x00', b'\x7f1d', b'1h 1d', b'1d 1d', b'1m\ts', b'1d and 2h', b"1d'"):
        no(b'older_than("' + word + b'")', 13, 11)
    no(b'older_than(  x)', 13, 13)
    no(b'any(a, older_than("1 D"))', 13, 18)
    no(b'older_than(1d,)', 8, 13)
    no(b'older_than(1d 2h)', 8, 14)
    no(b'older_than(1D 2h)', 8, 14)
    no(b'older_than(1d', 8, 13)
    no(b'older_than(1d  ', 8, 15)
    no(b'older_than()', 11, 11)
    no(b'older_than(', 11, 11)


def week_cases():
    note('Weeks')
    week, day, hour, minute = 604800000, 86400000, 3600000, 60000
    for word, value in ((b'1w', week), (b'2w', 2 * week), (b'0w', 0), (b'52w', 52 * week), (b'1w1d', week + day),
                        (b'1w8d', week + 8 * day), (b'7d', week), (b'1w1ms', week + 1),
                        (b'1w2d3h4m5s6ms', week + 2 * day + 3 * hour + 4 * minute + 5006),
                        (b'000000001w', week), (b'999999999w', 604799999395200000), (b'0w0d0h0m0s0ms', 0),
                        (b'999999999w999999999d999999999h999999999m999999999s999999999ms', 694861000305138999)):
        ok(b'older_than(' + word + b')', 1, 0, root=(OLDER, value))
        ok(b"older_than('" + word + b"')", 1, 0, root=(OLDER, value))
    for word in (b'1W', b'w', b'1ww', b'1wd', b'1dw', b'1w1w', b'1d1w', b'1ms1w', b'1w1d1w', b'1wk', b'1week', b'1weeks', b'2W1d',
                 b'1w1', b'0000000001w', b'1000000000w', b'1w0000000001d', b'-1w', b'1.5w', b'1w-', b'w1'):
        no(b'older_than(' + word + b')', 13, 11)
        no(b'older_than("' + word + b'")', 13, 11)
    note('Blanks between the digits and the unit')
    for word, value in ((b'1w 1d', week + day), (b'2 w', 2 * week), (b'30 d', 30 * day), (b'1 ms', 1), (b'1 d', day),
                        (b'1d 2 h', day + 2 * hour), (b'1 w 1 d', week + day), (b'1 w1 d', week + day), (b'1   h', hour),
                        (b' \t1\t\n\x0b\x0c\r m ', minute), (b'999999999 w', 604799999395200000),
                        (b'1 d 2 h 3 m 4 s 5 ms', day + 2 * hour + 3 * minute + 4005),
                        (b'1\x0bw\x0c2\rd', week + 2 * day), (b'0 s', 0), (b'000000001 s', 1000), (b'1' + b' ' * 2000 + b'd', day)):
        ok(b"older_than('" + word + b"')", 1, 0, root=(OLDER, value))
        ok(b'older_than("' + word + b'")', 1, 0, root=(OLDER, value))
    for word in (b'1 m s', b'1  m\ts', b'1 W', b'1 D', b'1 d 1 w', b'1 w 1 w', b'1 w1w', b'1 ', b' 1 ', b'1 d 2', b'1 2 d', b'1 2d',
                 b'1 d2', b'd 1', b'1 d d', b'1 dd', b'0000000001 d', b'1000000000 s', b'1\x1cd', b'1\x00d', b'1_d', b'1 ,d', b'1 + d',
                 b'1 dh', b'1 \x7fd', b'1 000 ms', b'- 1 d'):
        no(b"older_than('" + word + b"')", 13, 11)
        no(b'older_than("' + word + b'")', 13, 11)
    note('A duration with a blank must be quoted')
    no(b'older_than(30 d)', 8, 14)
    no(b'older_than(2 w)', 8, 13)
    no(b'older_than(1w 1d)', 8, 14)
    no(b'older_than(1 d', 8, 13)
    no(b'older_than("1" d)', 8, 15)
    no(b'older_than(1 "d")', 8, 13)
    note('What the most weeks print as can not be read again; and rules with weeks and blanks in them')
    no(b'older_than(6999999993d)', 13, 11)
    no(b"any(a, older_than('1 m s'))", 13, 18)
    ok(b"any(a, older_than('1 ms'))", 3, 1, root=(ANY, 0))
    ok(b'2w', 1, 2)
    ok(b"'30 d'", 1, 4)


def list_cases():
    note('Lists and brackets')
    no(b'at_least(2)', 11, 10)
    no(b'at_least(2,)', 14, 0)
    no(b'at_least(2, ', 7, 12)
    no(b'any(', 7, 4)
    no(b'()', 7, 1)
    no(b'(a,b)', 8, 2)
    no(b'at_least()', 11, 9)
    no(b'at_least(', 11, 9)
    no(b'at_least( ', 11, 10)
    no(b'at_least(,', 11, 9)
    no(b'at_least(&&', 11, 9)
    no(b'at_least(or', 11, 9)
    no(b'at_least(2', 11, 10)
    no(b'at_least(2 ', 11, 11)
    no(b'at_least(2 a)', 11, 11)
    no(b'at_least(2(', 11, 10)
    no(b'at_least(2 && a)', 11, 11)
    no(b'at_least(2,,', 7, 11)
    no(b'at_least(2,a', 8, 12)
    no(b'at_least(2,a,', 7, 13)
    no(b'at_least(2,a,)', 7, 13)
    no(b'at_least(2,a b', 8, 13)
    no(b'at_least(2,  )', 14, 0)
    no(b' at_least(2,)', 14, 1)
    no(b'AT_LEAST(2,)', 14, 0)
    no(b'readable()', 11, 9)
    no(b'readable(', 11, 9)
    no(b'readable(,', 11, 9)
    no(b'readable( (', 11, 10)
    no(b'readable(||', 11, 9)
    no(b'readable(1', 8, 10)
    no(b'readable(1,', 8, 10)
    no(b'readable(1,2)', 8, 10)
    no(b'readable(1 2)', 8, 11)
    no(b'readable(1(', 8, 10)
    no(b'readable(1  ', 8, 12)
    no(b'older_than(,', 11, 11)
    no(b'older_than((', 11, 11)
    no(b'older_than(and)', 11, 11)
    no(b'older_than(1d(', 8, 13)
    for name in (b'any', b'all', b'oneof', b'allof'):
        size = len(name)
        no(name + b'()', 14, 0)
        no(b' ' + name + b' ( )', 14, 1)
        no(b' "' + name + b'" ( )', 9, size + 4)
        no(name + b'(a', 8, size + 2)
        no(name + b'(a ', 8, size + 3)
        no(name + b'(a b)', 8, size + 3)
        no(name + b'(a,', 7, size + 3)
        no(name + b'(a,)', 7, size + 3)
        no(name + b'(,a)', 7, size + 1)
        no(name + b'(a,,b)', 7, size + 3)
        no(name + b'(&&)', 7, size + 1)
        no(name + b'(a(', 10, size + 1)
        ok(name + b'(a)', 2, 1)
        ok(name + b'( a , b , c )', 4, 3)
        ok(name + b'(a&&b,c||d)', 7, 4)
        ok(name + b'(' + name + b'(a),b)', 4, 2)
    no(b'(', 7, 1)
    no(b'( ', 7, 2)
    no(b'(a', 8, 2)
    no(b'(a ', 8, 3)
    no(b'(a b', 8, 3)
    no(b'(a(', 10, 1)
    no(b'((a)', 8, 4)
    no(b'(a))', 9, 3)
    no(b')', 7, 0)
    no(b',', 7, 0)
    no(b'a,', 9, 1)
    no(b'a)', 9, 1)
    no(b'a(', 10, 0)
    no(b'a()', 10, 0)
    no(b'  a  ()', 10, 2)
    no(b'(a)b', 9, 3)
    no(b'(a)(b)', 9, 3)
    no(b'readable(1)(2)', 9, 11)
    no(b'any(a)any(b)', 9, 6)
    no(b'readable readable', 9, 9)
    no(b'a && ', 7, 5)
    no(b'a || ', 7, 5)
    no(b'a &&', 7, 4)
    no(b'&& a', 7, 0)
    no(b'|| a', 7, 0)
    no(b'a && || b', 7, 5)
    no(b'a and or b', 7, 6)
    no(b'a || && b', 7, 5)
    no(b'a && )', 7, 5)
    no(b'a || ,', 7, 5)
    no(b'a and and', 7, 6)
    no(b' ', 7, 1)
    no(b'   \t\n', 7, 5)
    no(b'older(1d)', 10, 0)
    no(b'anyof(a)', 10, 0)
    no(b'one_of(a)', 10, 0)
    no(b'allo(a)', 10, 0)
    no(b'al(a)', 10, 0)
    no(b'any_(a)', 10, 0)
    no(b"'any '(a)", 9, 6)
    no(b"' any'(a)", 9, 6)
    no(b'atleast(1,a)', 10, 0)
    no(b'at-least(1,a)', 10, 0)
    no(b'older-than(1d)', 10, 0)
    no(b'readables(1)', 10, 0)
    no(b'a && b(c)', 10, 5)
    no(b'any(a,2(b))', 10, 6)
    no(b'not(a)', 10, 0)


def chain_cases():
    note('Chains')
    ok(b'any(a,b) || c', 4, 3)
    ok(b'c || any(a,b)', 5, 3)
    ok(b'at_least(1,a) || b', 4, 2, root=(ANY, 0))
    ok(b'a && a', 3, 2)
    ok(b'a || b || c', 4, 3)
    ok(b'a && b && c', 4, 3)
    ok(b'a || (b || c)', 5, 3)
    ok(b'(a || b) || c', 4, 3)
    ok(b'((a || b)) || c', 4, 3)
    ok(b'(a || b) && c', 5, 3)
    ok(b'a && (b || c)', 5, 3)
    ok(b'a || b && c', 5, 3)
    ok(b'a && b || c && d', 7, 4)
    ok(b'(a && b) || (c && d)', 7, 4)
    ok(b'(a && b || c) || d', 6, 4)
    ok(b'any(a) || b', 3, 2)
    ok(b'oneof(a) or b', 3, 2)
    ok(b'all(a) && b', 3, 2)
    ok(b'allof(a) and b and c', 4, 3)
    ok(b'all(a) || b', 4, 2)
    ok(b'any(a) && b', 4, 2)
    ok(b'a || any(b)', 4, 2)
    ok(b'a && all(b)', 4, 2)
    ok(b'at_least(1,a) && b', 4, 2, root=(ALL, 0))
    ok(b'(all(a,b)) && (all(c,d))', 6, 4)
    ok(b'all(a,b) && c || d', 6, 4)
    ok(b'any(a,b) || c && d', 6, 4)
    ok(b'a && b && c || any(d)', 7, 4)
    ok(b'any(any(a)) || b', 4, 2)
    ok(b'any((a || b), c) || d', 6, 4)
    ok(b'any(a || b) || c', 5, 3)
    ok(b'(any(a || b) || c) || (d || e)', 8, 5)
    ok(b'((a && b) && c) && d', 5, 4)
    ok(b'a && ((b && c) && d)', 6, 4)
    ok(b'a && (b && (c && d))', 7, 4)
    ok(b'nas && vault && nas', 4, 11)
    ok(b'readable && readable(2) || readable', 5, 0)
    ok(b'at_least(2, a && b, c || d, e, older_than(1d), readable(3))', 10, 5)
    ok(b'any(a && b) && all(c || d)', 9, 4)
    ok(b'"long name" && x || ""', 5, 10)


def single_bytes():
    note('Each byte between two names, and between marks')
    for byte in range(256):
        case(b'a' + bytes([byte]) + b'b')
    for byte in range(256):
        case(b"'" + bytes([byte]) + b'"')
        if byte in b'\'"' or byte % 16 == 0:
            case(b'"' + bytes([byte]) + b'"')


PAIRS = [b'a', b'(', b')', b',', b'&&', b'or', b'any(', b'readable(', b'older_than(', b'at_least(', b'1', b"'1d'", b'x(']


def pairs():
    note('Each pair of tokens')
    for first in PAIRS:
        for second in PAIRS:
            case(first + b' ' + second)


def lengths():
    note('Lengths of the text')
    for size in (2046, 2047, 2048, 2049, 2050):
        case(b'a' * size)
        case(b' ' * size)
        case(filled(b"'", b'name of a store ', b"'", size))
        case(filled(b'', b'a&&', b'', size))
        case(filled(b'a||', b' ', b'b', size))
    ok(b'a' * 2048, 1, 2048, root=(NAMED, 2048))
    no(b'a' * 2049, 2, 0)
    ok(b'"' + b'a' * 2046 + b'"', 1, 2046, root=(NAMED, 2046))
    ok(b"'" + bytes(range(1, 39)) + b'x' * 2008 + b"'", 1, 2046)
    no(b'"' + b'a' * 2047, 5, 0)
    no(b'"' + b'a' * 2047 + b'"', 2, 0)
    no(b'a' * 2047 + b'\x80', 3, 2047)
    no(b'a' * 2048 + b'\x80', 2, 0)
    no(b'\xff' * 2049, 2, 0)
    no(b'a' * 2047 + b'&', 4, 2047)
    no(b'a' * 2047 + b'|', 4, 2047)
    no(b'a' * 2047 + b'#', 6, 2047)
    no(b'a' * 2047 + b'"', 5, 2047)
    no(b'a' * 2046 + b'&&', 7, 2048)
    no(b'a' * 2047 + b')', 9, 2047)
    no(b'a' * 2047 + b'(', 10, 0)
    no(b' ' * 2048, 7, 2048)
    no(b'any(' + b' ' * 2044, 7, 2048)
    no(b' ' * 2043 + b'any()', 14, 2043)
    no(b'readable(' + b'1' * 2039, 12, 9)
    no(b'readable(' + b'0' * 2039, 8, 2048)
    no(b' ' * 2042 + b'older_than(1d)', 2, 0)
    ok(b' ' * 2034 + b'older_than(1d)', 1, 0)
    ok(b'older_than(1d)' + b' ' * 2034, 1, 0)
    no(b'a' * 10000, 2, 0)
    no(b'', 7, 0)
    note('Names of 0, 1 and many bytes')
    cases(b"''", b"' '", b'a', b"'' || 'a' || '' || bb || ''", b"'" + b'n' * 255 + b"'", b'n' * 256, b'n' * 1023,
          b"'" + b'n' * 1000 + b"'&&'" + b'o' * 1000 + b"'", b'n' * 1022 + b'||' + b'o' * 1024)
    note('Texts of 2,048 bytes with many nodes')
    ok(filled(b'', b'a&&', b'aa', 2048), 684, 684)
    ok(b'||'.join([b'a'] * 683) + b' ', 684, 683)
    ok(b'any(' + b','.join([b'a'] * 1022) + b')', 1023, 1022)
    ok(b'all(' + b','.join([b'bc'] * 681) + b')', 682, 1362)
    ok(b'at_least(5,' + b','.join([b'a'] * 1018) + b')', 1019, 1018)
    ok(b'any(' + b','.join([b"''"] * 681) + b')', 682, 0)
    ok(b'(a)' + b'&&(a)' * 409, 411, 410)
    ok(b'a' + b'&&a||a' * 341, 1025, 683)
    ok(b'||'.join([b'all(a)'] * 256), 513, 256)
    ok(b'any(a' + b',all(b,c)' * 226 + b')', 680, 453)
    ok(b'&&'.join([b'readable'] * 204), 205, 0)
    ok(b'|| '.join([b'readable(1)'] * 146), 147, 0)
    ok(b' and '.join([b'older_than(1d)'] * 107), 108, 0)
    case(b'any(' * 64 + b','.join([b'a'] * 864) + b')' * 64)
    case(b'&&'.join([b'(' * 20 + b'a||b' + b')' * 20] * 44))
    no(b'any(' + b','.join([b'a'] * 1022), 8, 2047)
    no(b'any(' + b','.join([b'a'] * 1022) + b',', 7, 2048)
    no(b'a&&' * 682 + b'()', 7, 2047)


def rooms():
    note('Lengths of the buffer')
    for room in (0, 1, 4, 16, 19, 26627):
        for text in (b'a', b'', b'&', b'\x80', b'a' * 2048, b'a' * 2049, b'any()'):
            no(text, 1, 0, room=room)
    for room in (26628, 26629, 30000):
        ok(b'a', 1, 1, room=room)
        ok(b'nas && readable(1)', 3, 3, room=room)
        no(b'', 7, 0, room=room)
        no(b'a &', 4, 2, room=room)
        no(b'a' * 2049, 2, 0, room=room)
        no(b'any(a,b', 8, 7, room=room)
        case(b'any(' + b','.join([b'a'] * 300) + b')', room=room)


class Draw:
    """Numbers drawn from a seed: the same on every machine and in every version."""

    def __init__(self, seed):
        self.state = seed

    def below(self, n):
        self.state = (self.state * 6364136223846793005 + 1442695040888963407) % 2 ** 64
        return (self.state >> 33) % n

    def of(self, items):
        return items[self.below(len(items))]


NAMES = [b'a', b'nas', b'vault', b'b-1', b"'x y'", b'""', b'2', b'30d', b'Readable', b'any', b"'and'", b'"OR"']
NUMBERS = [b'0', b'1', b'2', b'007', b"'+3'", b'18446744073709551615']
SPANS = [b'0s', b'30d', b'1h30m', b'"1h 30m"', b"' 2w\t1 d 2\tms '", b'999999999w']
SPACES = [b'', b'', b'', b' ', b' ', b'\n', b'\t ']
CALLS = [b'any', b'all', b'oneof', b'allof', b'All', b'ANY']
FAULTS = [b'&', b'|', b'#', b'"', b"'", b'\x80', b'\x00', b'+', b'\x1f', b'\xff']
MENDS = [b'(', b')', b',', b'&&', b'||', b'and', b'OR', b'a', b'x(', b'any(', b'any()', b'at_least(', b'readable(',
         b'older_than(', b'1', b'1d', b"'q'", b"'any'", b"'READABLE'", b'at_least(2', b'readable(x', b'older_than(1D)',
         b'readable(1x)', b'older_than(1s1m)']


def drawn(draw, depth):
    """The tokens of a text that reads as a rule."""
    pick = draw.below(12) if depth else draw.below(5)
    if pick < 3:
        return [draw.of(NAMES)]
    if pick == 3:
        return [b'readable', b'(', draw.of(NUMBERS), b')']
    if pick == 4:
        return [draw.of([b'older_than', b'OLDER_than']), b'(', draw.of(SPANS), b')']
    if pick == 5:
        return [b'('] + drawn(draw, depth - 1) + [b')']
    if pick < 9:
        found = drawn(draw, depth - 1)
        for _ in range(1 + draw.below(3)):
            found += [draw.of([b'&&', b'||', b' and ', b' Or '])] + drawn(draw, depth - 1)
        return found
    found = [b'at_least', b'(', draw.of(NUMBERS), b','] if pick == 9 else [draw.of(CALLS), b'(']
    found += drawn(draw, depth - 1)
    for _ in range(draw.below(4)):
        found += [b','] + drawn(draw, depth - 1)
    return found + [b')']


def spaced(draw, found):
    return b''.join(draw.of(SPACES) + token for token in found) + draw.of(SPACES)


def random_cases():
    global reached
    before, reached = reached, set()
    draw = Draw(20260801)
    note('Drawn: texts that read as a rule')
    for _ in range(50):
        case(spaced(draw, drawn(draw, 3)))
    note('Drawn: such texts with a token or two left out, put in or put in place of another')
    for _ in range(90):
        found = drawn(draw, 3)
        for _ in range(1 + draw.below(2)):
            at, way = draw.below(len(found)), draw.below(3)
            if way == 0:
                found[at:at + 1] = []
            else:
                found[at:at + way - 1] = [draw.of(MENDS)]
            found = found or [b'a']
        case(spaced(draw, found))
    note('Drawn: such texts with a byte or sign that is out of place')
    for _ in range(30):
        found = drawn(draw, 2)
        found.insert(draw.below(len(found) + 1), draw.of(FAULTS))
        case(spaced(draw, found), room=26628 - (draw.below(8) == 0))
    note('Drawn: tokens in any order')
    for _ in range(40):
        case(spaced(draw, [draw.of(MENDS + NAMES + NUMBERS) for _ in range(1 + draw.below(8))]))
    note('Drawn: long texts')
    for way in range(20):
        found, size = [], 700 + draw.below(1100)
        while sum(map(len, found)) < size:
            found += drawn(draw, 3) + [draw.of([b'&&', b'||', b' or '])]
        found.append(b'a')
        if way % 4 == 1:
            found[draw.below(len(found))] = draw.of(MENDS + FAULTS)
        if way % 4 == 2:
            found = [b'any('] * (56 + draw.below(24)) + found
        case(spaced(draw, found))
    if reached != set(range(1, 16)):
        sys.exit('drawn texts miss %r' % sorted(set(range(1, 16)) - reached))
    reached |= before


# The cases of decide


def decision(data, stores, age, confirmed, stated=None):
    """Adds a case of decide where it is not there yet; its answer must be the stated one, where one is."""
    answer = decide(data, stores, age, confirmed)
    if stated not in (None, answer):
        sys.exit('%.60r %.60r %d %.60r: decided %s, and stated is %s' % (data, stores, age, confirmed, answer, stated))
    given = (data, stores, age, confirmed)
    if given not in seen:
        seen.add(given)
        shown = [part.hex() or '-' for part in (data, stores, confirmed)]
        out.append('decide %s %s %d %s %s' % (shown[0], shown[1], age, shown[2], answer))
    return answer


def of(text):
    """The image of a rule's text."""
    answer = read(text, NEED)
    if answer[0] != 'ok':
        sys.exit('%r is no rule' % text)
    return answer[1]


def packed(nodes, names=b'', n=None, m=None):
    """The bytes of an image from its nodes (kind, size, argument), whether or not they keep the layout."""
    n = len(nodes) if n is None else n
    m = len(names) if m is None else m
    return b''.join(
        [n.to_bytes(2, 'little'), m.to_bytes(2, 'little')]
        + [(kind + 256 * size).to_bytes(4, 'little') for kind, size, _ in nodes]
        + [argument.to_bytes(8, 'little') for _, _, argument in nodes]
        + [names])


def name_at(start, length):
    return (NAMED, 1, start * 65536 + length)


def table(*entries, many=None, total=None):
    """The bytes of a table from its entries (mode, name), whether or not they keep the layout."""
    names = b''.join(name for _, name in entries)
    many = len(entries) if many is None else many
    total = len(names) if total is None else total
    return b''.join(
        [many.to_bytes(2, 'little'), total.to_bytes(2, 'little'), bytes(mode for mode, _ in entries),
         bytes(len(name) for _, name in entries), names])


def confirming(*names):
    return table(*[(0, name) for name in names])


HOME = table((0, b'nas'), (2, b'vault'))
WIDE = table((0, b'nas'), (1, b'mirror'), (2, b'vault'), (0, b'desk'), (2, b'cellar'))
NOTHING = confirming()
DAY = 86400000


def decided_sheet():
    note('Rules that document 01 and the demands name')
    decision(of(b'nas || vault'), HOME, MOST, NOTHING, 'keep')
    decision(of(b'nas || vault'), HOME, MOST, confirming(b'vault'), 'evict')
    decision(of(b'nas || vault'), HOME, 0, confirming(b'nas'), 'evict')
    decision(of(b'at_least(0, nas)'), HOME, 0, NOTHING, 'evict')
    decision(of(b'at_least(2, nas, vault)'), HOME, MOST, confirming(b'vault'), 'keep')
    decision(of(b'at_least(2, nas, vault)'), HOME, 0, confirming(b'vault', b'nas'), 'evict')
    decision(of(b'vault && cellar'), WIDE, MOST, confirming(b'vault', b'cellar'), 'evict')
    decision(of(b'vault && cellar'), WIDE, MOST, confirming(b'vault'), 'keep')
    for age, answer in ((30 * DAY - 1, 'keep'), (30 * DAY, 'evict'), (MOST, 'evict')):
        decision(of(b'older_than(30d) && readable(1)'), HOME, age, confirming(b'nas'), answer)
        decision(of(b'older_than(30d) && readable(1)'), HOME, age, confirming(b'vault'), 'keep')
        decision(of(b'at_least(2, older_than(30d), vault)'), HOME, age, confirming(b'vault'), answer)
    decision(of(b'nas && readable(1)'), HOME, 0, confirming(b'nas'), 'evict')
    decision(of(b'READABLE'), HOME, 0, confirming(b'nas'), 'evict')
    decision(of(b'READABLE'), HOME, MOST, confirming(b'vault'), 'keep')
    note('A store called readable (Job 2)')
    decision(of(b"'readable'"), table((0, b'readable')), 0, confirming(b'readable'), 'evict')
    decision(of(b"'readable'"), table((0, b'readable')), MOST, NOTHING, 'keep')
    decision(of(b"'readable'"), table((2, b'readable'), (0, b'nas')), MOST, confirming(b'nas'), 'keep')
    decision(of(b'readable'), table((2, b'readable'), (0, b'nas')), MOST, confirming(b'readable'), 'keep')
    decision(of(b"'readable'"), table((2, b'readable'), (0, b'nas')), MOST, confirming(b'readable'), 'evict')
    decision(of(b"'any'"), table((0, b'any')), 0, confirming(b'any'), 'evict')


def named_cases():
    note('Names: confirmed or not, of a store or of none')
    decision(of(b'nas'), HOME, 0, confirming(b'nas'), 'evict')
    decision(of(b'nas'), HOME, MOST, NOTHING, 'keep')
    decision(of(b'nas'), HOME, MOST, confirming(b'vault'), 'keep')
    decision(of(b'vault'), HOME, 0, confirming(b'vault'), 'evict')
    decision(of(b'nas'), table(), 0, confirming(b'nas'), 'evict')
    decision(of(b'gone'), HOME, 0, confirming(b'gone'), 'evict')
    decision(of(b'gone'), HOME, 0, confirming(b'nas', b'vault'), 'keep')
    decision(of(b'gone'), table(), 0, NOTHING, 'keep')
    for name in (b'Nas', b'NAS', b'na', b'nass', b'nas ', b' nas', b'as', b'sna', b'nat', b'oas', b'nbs', b''):
        decision(of(b'nas'), HOME, MOST, confirming(name), 'keep')
        decision(of(b"'" + name + b"'"), HOME, MOST, confirming(b'nas'), 'keep')
    decision(of(b'ab'), HOME, 0, confirming(b'a', b'b'), 'keep')
    decision(of(b'a'), HOME, 0, confirming(b'ab', b'ba', b'b'), 'keep')
    decision(of(b'a && b'), HOME, 0, confirming(b'ab'), 'keep')
    decision(of(b'bc'), HOME, 0, confirming(b'ab', b'cd'), 'keep')
    decision(of(b'nas'), HOME, 0, confirming(b'nas', b'nas', b'nas'), 'evict')
    decision(of(b'nas'), HOME, 0, confirming(b'x', b'', b'vault', b'nas'), 'evict')
    decision(of(b"''"), HOME, 0, confirming(b''), 'evict')
    decision(of(b"''"), table((0, b'')), 0, confirming(b'x', b''), 'evict')
    decision(of(b"''"), table((0, b'')), MOST, NOTHING, 'keep')
    decision(of(b"''"), table((0, b'')), MOST, confirming(b'x'), 'keep')
    decision(of(b"'' && nas && ''"), HOME, 0, confirming(b'', b'nas'), 'evict')
    decision(of(b"nas && '' && vault"), HOME, 0, confirming(b'vault', b'nas'), 'keep')
    decision(packed([name_at(0, 2)], b'\x00\x7f'), HOME, 0, confirming(b'\x00\x7f'), 'evict')
    decision(packed([name_at(0, 2)], b'\x00\x7f'), HOME, 0, confirming(b'\x00\x7e'), 'keep')
    decision(packed([name_at(0, 1)], b'\x00'), HOME, 0, confirming(b''), 'keep')
    for size in (7, 8, 9, 15, 16, 17, 31, 33, 254, 255):
        name = filled(b'', b'name of a store ', b'', size)
        decision(of(b'"' + name + b'"'), table((1, name)), 0, confirming(name), 'evict')
        decision(of(b'"' + name + b'"'), table((1, name)), 0, confirming(name[:-1] + b'#'), 'keep')
        decision(of(b'"' + name + b'"'), table((1, name)), 0, confirming(b'#' + name[1:], name[:-1]), 'keep')
    long = filled(b'', b'long-name.', b'', 600)
    for size in (256, 257, 255 + 256, 512, 600):
        decision(of(long[:size]), table((0, long[:255])), 0, confirming(long[:255], long[:size % 256]), 'keep')
    decision(of(long[:255] + b' || ' + long[:256]), HOME, 0, confirming(long[:255]), 'evict')
    decision(of(long[:255] + b' && ' + long[:256]), HOME, 0, confirming(long[:255], long[1:256]), 'keep')


def older_cases():
    note('Ages: one below the duration, at it and above it')
    for span in (0, 1, 2, 255, 256, 65535, 65536, DAY, 30 * DAY, 2 ** 32 - 1, 2 ** 32, 2 ** 63 - 1, 2 ** 63,
                 MOST - 1, MOST):
        for age in (span - 1, span, span + 1):
            if 0 <= age <= MOST:
                decision(packed([(OLDER, 1, span)]), table(), age, NOTHING, 'evict' if age >= span else 'keep')
        for age in (0, MOST):
            decision(packed([(OLDER, 1, span)]), HOME, age, confirming(b'nas'), 'evict' if age >= span else 'keep')
    for text in (b'older_than(999999999d)', b'older_than("1h 30m")', b'older_than(1ms)', b'older_than(0s)', b'older_than(2w)',
                 b'older_than("1w 1d")', b"older_than('30 d')", b'older_than(999999999w)'):
        span = number(of(text), 8, 8)
        for age in (max(span, 1) - 1, span, span + 1):
            decision(of(text), HOME, age, NOTHING, 'evict' if age >= span else 'keep')


def readable_cases():
    note('Readable stores that are confirmed: one below the count, at it and above it')
    sets = ((0, ()), (0, (b'vault',)), (0, (b'vault', b'cellar')), (0, (b'gone', b'', b'NAS')), (1, (b'nas',)),
            (1, (b'mirror',)), (1, (b'nas', b'nas', b'nas')), (1, (b'mirror', b'vault', b'cellar', b'gone')),
            (2, (b'nas', b'desk')), (2, (b'desk', b'mirror', b'desk', b'mirror')), (3, (b'desk', b'nas', b'mirror')),
            (3, (b'desk', b'nas', b'mirror', b'vault', b'cellar', b'gone', b'nas')))
    for ready, names in sets:
        for count_wanted in sorted({0, max(ready, 1) - 1, ready, ready + 1, len(names), MOST}):
            decision(packed([(READABLE, 1, count_wanted)]), WIDE, MOST, confirming(*names),
                     'evict' if ready >= count_wanted else 'keep')
    decision(of(b'readable(0)'), table(), 0, NOTHING, 'evict')
    decision(of(b'readable'), table(), MOST, confirming(b'nas'), 'keep')
    decision(of(b'readable'), table((0, b'')), 0, confirming(b''), 'evict')
    decision(of(b'readable'), table((2, b'')), 0, confirming(b''), 'keep')
    decision(of(b'readable'), table((1, b'')), 0, NOTHING, 'keep')
    decision(of(b'readable(2)'), table((1, b''), (0, b'a')), 0, confirming(b'a', b''), 'evict')
    many = [b's%d' % index for index in range(STORES)]
    for modes, ready in (((0,), 64), ((1,), 64), ((2,), 0), ((0, 1), 64), ((0, 2), 32), ((2, 2, 1), 21), ((0, 1, 2), 43)):
        stores = table(*[(modes[index % len(modes)], name) for index, name in enumerate(many)])
        for count_wanted in sorted({max(ready, 1) - 1, ready, ready + 1}):
            decision(of(b'readable(%d)' % count_wanted), stores, 0, confirming(*reversed(many)),
                     'evict' if ready >= count_wanted else 'keep')


def combined_cases():
    note('Combinators: children that say evict, one below the count, at it and above it')
    for many in (1, 2, 3, 5):
        names = [b'abcde'[index:index + 1] for index in range(many)]
        for yes in range(many + 1):
            # The children that say evict are at the end, then at the front.
            for confirmed in (names[many - yes:], names[:yes]):
                given = confirming(*confirmed)
                for count_wanted in sorted({0, max(yes, 1) - 1, yes, yes + 1, many, many + 1, MOST}):
                    if many in (1, 3) or count_wanted in (yes, yes + 1):
                        decision(of(b'at_least(%d, %s)' % (count_wanted, b', '.join(names))), HOME, 0, given,
                                 'evict' if yes >= count_wanted else 'keep')
                decision(of(b'all(' + b', '.join(names) + b')'), HOME, 0, given, 'evict' if yes == many else 'keep')
                decision(of(b'any(' + b', '.join(names) + b')'), HOME, 0, given, 'evict' if yes else 'keep')
    decision(of(b'at_least(2, a, a)'), HOME, 0, confirming(b'a'), 'evict')
    decision(of(b'at_least(3, a, a, b)'), HOME, 0, confirming(b'a', b'a', b'a'), 'keep')
    decision(of(b'at_least(2, any(a, b, c), d)'), HOME, 0, confirming(b'a', b'b', b'c'), 'keep')
    decision(of(b'at_least(2, all(a, b), any(c, d))'), HOME, 0, confirming(b'a', b'b', b'd'), 'evict')
    decision(of(b'at_least(18446744073709551615, a, b)'), HOME, MOST, confirming(b'a', b'b'), 'keep')


def nested_cases():
    note('Combinators in combinators')
    texts = (b'a && b || c', b'a && (b || c)', b'(a || b) && (c || d)', b'a && b || c && d', b'any(all(a), all(b, c))',
             b'all(any(a, b), any(c))', b'at_least(1, all(a, b), any(all(c, d)), at_least(2, a, c, d))',
             b'all(all(all(all(a))))', b'any(any(any(any(a, b)))) && any(all(any(c)))',
             b'at_least(2, at_least(2, at_least(0, a), b, c), c, d)', b'all(older_than(5ms), any(readable(2), a))')
    for text in texts:
        for names in ((), (b'a',), (b'b', b'c'), (b'c',), (b'a', b'd'), (b'd', b'c', b'b', b'a')):
            decision(of(text), table((0, b'a'), (1, b'b'), (2, b'c'), (0, b'd')), len(names) * 3, confirming(*names))
    for deep in (2, 3, 64, 65):
        for kind, argument in ((ALL, 0), (ANY, 0), (AT_LEAST, 1)):
            nodes = [name_at(0, 1)] + [(kind, 2 + level, argument) for level in range(deep)]
            decision(packed(nodes, b'a'), HOME, 0, confirming(b'a'), 'evict')
            decision(packed(nodes, b'a'), HOME, MOST, confirming(b'b'), 'keep')
    nodes = [name_at(0, 1)] + [(AT_LEAST, 2 + level, 2 if level == 40 else 1) for level in range(64)]
    decision(packed(nodes, b'a'), HOME, 0, confirming(b'a'), 'keep')
    nodes = [name_at(0, 1)] + [(AT_LEAST, 2 + level, 0 if level == 40 else 1) for level in range(64)]
    decision(packed(nodes, b'a'), HOME, 0, NOTHING, 'evict')


MIXED = b'at_least(2, all(nas, older_than(1d)), any(vault, readable(2)), cellar)'


def image_cases():
    note('Images that break the layout')
    held = (HOME, MOST, confirming(b'nas', b'vault'))

    def bad(data):
        decision(data, *held, stated='no 16 0')

    def good(data, answer):
        decision(data, *held, stated=answer)

    yes, no_leaf = (OLDER, 1, 0), (READABLE, 1, 9)
    base = of(MIXED)
    good(base, 'evict')
    note('Too short, too long, empty, too many nodes or name bytes')
    for size in (0, 1, 2, 3, 4, 5, 4 + 4 * 8, 4 + 12 * 8 - 1, 4 + 12 * 8, len(base) - 1):
        bad(base[:size])
    for more in (b'\x00', b'a', b'\x00' * 12, base):
        bad(base + more)
    bad(b'\x00' * 4)
    bad(b'\x00' * 16)
    bad(b'\x01\x00\x00\x00')
    bad(b'\xff' * 4)
    bad(b'\xff' * 64)
    bad(packed([], b'a'))
    good(packed([yes]), 'evict')
    bad(packed([yes], n=0))
    bad(packed([yes], n=2))
    bad(packed([yes], n=257))
    bad(packed([yes], m=1))
    bad(packed([yes], b'a'))
    bad(packed([yes], b'a', m=0))
    bad(packed([yes, yes], n=1))
    bad(packed([name_at(0, 3)], b'nas', m=2))
    bad(packed([name_at(0, 3)], b'nas', m=4))
    bad(packed([name_at(0, 3)], b'nas', m=3 + 256))
    bad(packed([yes], b'x' * 12, m=0))
    bad(packed([(6, 1, 0)] * 2, n=1, m=12))
    note('Kinds')
    for kind in (6, 7, 8, 16, 127, 128, 254, 255):
        bad(packed([(kind, 1, 0)]))
        bad(packed([yes, (kind, 2, 0)]))
        bad(packed([(kind, 1, 0), (ANY, 2, 0)]))
        bad(packed([yes, (kind, 2, 0), (ANY, 3, 0)]))
    note('Sizes of leaves')
    for size in (0, 2, 3, 255, 256, 257, 65537, 2 ** 24 - 1):
        bad(packed([(OLDER, size, 0)]))
        bad(packed([(READABLE, size, 0)]))
        bad(packed([(NAMED, size, 3)], b'nas'))
        bad(packed([yes, (OLDER, size, 0), (ALL, 3, 0)]))
        bad(packed([name_at(0, 3), (NAMED, size, 3 * 65536)], b'nas'))
    note('Sizes of combinators')
    for kind in (AT_LEAST, ALL, ANY):
        good(packed([yes, (kind, 2, 0)]), 'evict')
        for size in (0, 1, 3, 4, 258, 65538, 2 ** 24 - 1, 2 ** 24 - 2):
            bad(packed([yes, (kind, size, 0)]))
        for size in (0, 1):
            bad(packed([(kind, size, 0)]))
            bad(packed([yes, (kind, size, 0), (ANY, 3, 0)]))
            bad(packed([(kind, size, 0), yes, (ANY, 3, 0)]))
            bad(packed([(kind, size, 0), (ANY, 2, 0)]))
        good(packed([yes, no_leaf, yes, (AT_LEAST, 2, 1), (kind, 5, 0)]),
             'keep' if kind == ALL else 'evict')
        for size in (0, 1, 2, 3, 4, 6, 7, 261, 65541):
            bad(packed([yes, no_leaf, yes, (AT_LEAST, 2, 1), (kind, size, 0)]))
        for size in (0, 1, 5, 6, 258, 65538):
            bad(packed([yes, no_leaf, yes, (kind, size, 0), (ANY, 5, 0)]))
        for size in (3, 4):
            decision(packed([yes, no_leaf, yes, (kind, size, 0), (ANY, 5, 0)]), *held)
    note('Sizes that do not tile')
    bad(packed([yes, yes, (ALL, 3, 0), (ANY, 2, 0), (ANY, 5, 0)]))
    bad(packed([yes, yes, (ALL, 3, 0), (ANY, 3, 0), (ANY, 5, 0)]))
    bad(packed([yes, (ALL, 2, 0), (ANY, 2, 0), (ALL, 4, 0)]))
    bad(packed([yes, yes, (ALL, 3, 0), yes, (ANY, 3, 0), (ALL, 6, 0)]))
    for size in (2, 3, 6, 7):
        bad(packed([yes, yes, yes, (ALL, 3, 0), (AT_LEAST, size, 1), (ANY, 6, 0)]))
    good(packed([yes, yes, yes, (ALL, 3, 0), (AT_LEAST, 4, 1), (ANY, 6, 0)]), 'evict')
    good(packed([yes, yes, yes, (ALL, 3, 0), (AT_LEAST, 5, 1), (ANY, 6, 0)]), 'evict')
    good(packed([yes, yes, (ALL, 3, 0), (ANY, 4, 0), (ANY, 5, 0)]), 'evict')
    bad(packed([(ANY, 2, 0), yes]))
    bad(packed([(ANY, 2, 0), yes, (ALL, 3, 0)]))
    bad(packed([(ANY, 3, 0), yes, yes]))
    bad(packed([yes, (ANY, 3, 0), yes, (ALL, 4, 0)]))
    note('More roots than one')
    bad(packed([yes, yes]))
    bad(packed([yes, yes, (ALL, 2, 0)]))
    bad(packed([yes, (ALL, 2, 0), yes]))
    bad(packed([yes, (ALL, 2, 0), yes, (ALL, 2, 0)]))
    bad(packed([yes, yes, (ALL, 3, 0), yes, (ALL, 2, 0)]))
    note('Arguments of all and any')
    for kind in (ALL, ANY):
        for argument in (1, 2, 255, 256, 65536, 2 ** 32, 2 ** 48, 2 ** 56, 2 ** 63, MOST):
            bad(packed([yes, (kind, 2, argument)]))
        bad(packed([yes, (kind, 2, 1), (AT_LEAST, 3, 1)]))
    for argument in (0, 1, 2, 256, 2 ** 32, 2 ** 63, MOST):
        good(packed([yes, (AT_LEAST, 2, argument)]), 'evict' if argument < 2 else 'keep')
    note('Arguments of names')
    good(packed([name_at(0, 3)], b'nas'), 'evict')
    for high in (2 ** 16, 2 ** 17, 2 ** 24, 2 ** 31, 2 ** 32, 2 ** 33, 2 ** 40, 2 ** 47, 2 ** 48, 2 ** 63):
        bad(packed([(NAMED, 1, high + 3)], b'nas'))
        bad(packed([name_at(0, 3), (NAMED, 1, (3 * 65536 + 5) ^ high), (ALL, 3, 0)], b'nasvault'))
    for length in (0, 1, 2, 4, 8, 259, 2048, 32768, 65535):
        bad(packed([name_at(0, length)], b'nas'))
    for first, second, length in ((0, 0, 5), (0, 2, 5), (0, 4, 5), (1, 3, 5), (0, 3, 4), (0, 3, 6), (0, 8, 0), (3, 0, 5)):
        bad(packed([name_at(first, 3), name_at(second, length), (ANY, 3, 0)], b'nasvault'))
    bad(packed([name_at(3, 5), name_at(0, 3), (ANY, 3, 0)], b'nasvault'))
    bad(packed([name_at(0, 3), name_at(0, 3), (ANY, 3, 0)], b'nas'))
    bad(packed([name_at(0, 2), name_at(2, 5), (ANY, 3, 0)], b'nasvault'))
    bad(packed([name_at(0, 2), name_at(3, 5), (ANY, 3, 0)], b'nasvault'))
    bad(packed([name_at(0, 0), name_at(1, 0), (ANY, 3, 0)]))
    bad(packed([name_at(0, 0), name_at(0, 1), (ANY, 3, 0)]))
    bad(packed([name_at(1, 0)]))
    bad(packed([name_at(1, 2)], b'nas'))
    good(packed([name_at(0, 4), name_at(4, 4), (ANY, 3, 0)], b'nasvault'), 'keep')
    good(packed([name_at(0, 3), yes, name_at(3, 0), name_at(3, 5), (AT_LEAST, 5, 3)], b'nasvault'), 'evict')
    note('Name bytes')
    for byte in (127, 128, 129, 192, 255):
        for place in range(3):
            name = b'nas'[:place] + bytes([byte]) + b'nas'[place + 1:]
            answer = 'keep' if byte < 128 else 'no 16 0'
            decision(packed([name_at(0, 3)], name), HOME, 0, confirming(b'nas'), answer)
    bad(packed([name_at(0, 3), name_at(3, 5), (ANY, 3, 0)], b'nasvaul\x80'))


def flipped_cases():
    note('An image, a table and a list with a bit of each byte turned')
    data, stores = of(b'at_least(2, all(nas, older_than(1d)), any(vault, readable))'), HOME
    given = confirming(b'vault', b'nas')
    for mask in (1, 4, 128):
        for at in range(len(data)):
            decision(data[:at] + bytes([data[at] ^ mask]) + data[at + 1:], stores, DAY, given)
        for at in range(len(stores)):
            decision(data, stores[:at] + bytes([stores[at] ^ mask]) + stores[at + 1:], DAY, given)
        for at in range(len(given)):
            decision(data, stores, DAY, given[:at] + bytes([given[at] ^ mask]) + given[at + 1:])


def table_cases():
    note('Tables and lists that keep the layout, and such as break it')
    rule = of(b'readable(1) || nas')
    plain = confirming(b'nas')

    def tables(data, stated=None):
        decision(rule, data, 0, plain, stated)

    def lists(data, stated=None):
        decision(rule, HOME, 0, data, stated)

    def both_bad(data):
        tables(data, 'no 17 0')
        lists(data, 'no 19 0')

    for data in (b'', b'\x00', b'\x00' * 2, b'\x00' * 3, b'\x00' * 5, b'\x01\x00\x00\x00', b'\x01\x00\x00\x00\x00',
                 b'\x00\x00\x01\x00', b'\x00\x00\x01\x00a', b'\xff' * 4, b'\x00\x01\x00\x00', b'\x00\x00\x00\x01',
                 b'\x40\x00\x00\x00', b'\x00\x00\x00\x00\x00\x00'):
        both_bad(data)
    tables(table(), 'evict')
    lists(table(), 'keep')
    lists(table((0, b'')), 'keep')
    tables(table((0, b'')), 'evict')
    for first in range(5):
        for second in (0, 1, 2, 3, 255):
            tables(table((first, b'desk'), (second, b'nas')), 'evict' if first < 3 and second < 3 else 'no 17 0')
            lists(table((first, b'desk'), (second, b'nas')), 'no 19 0' if first or second else 'evict')
    for mode in (1, 2, 3, 128, 255):
        lists(table((mode, b'nas')), 'no 19 0')
        lists(table((mode, b'')), 'no 19 0')
    entries = [(0, b'nas'), (0, b''), (0, b'desk')]
    for total in (0, 1, 6, 8, 7 + 256, 65535):
        both_bad(table(*entries, total=total))
    for many in (0, 1, 2, 4, 5, 64, 65, 3 + 256, 65535):
        both_bad(table(*entries, many=many))
    whole = table(*entries)
    tables(whole, 'evict')
    lists(whole, 'evict')
    for size in range(len(whole)):
        both_bad(whole[:size])
    for more in (b'\x00', b'a', b'\x80', b'\x00' * 4, whole):
        both_bad(whole + more)
    note('Lengths that do not sum to the total, the bytes being there')
    for lengths in ((2, 0, 4), (4, 0, 4), (3, 1, 4), (0, 0, 0), (255, 255, 255), (3, 0, 3), (3, 0, 5), (7, 0, 255), (255, 8, 0)):
        both_bad(whole[:7] + bytes(lengths) + whole[10:])
    for lengths, answer in (((7, 0, 0), 'no 18 2'), ((0, 0, 7), 'no 18 1'), ((0, 7, 0), 'no 18 2'),
                            ((3, 4, 0), 'evict'), ((1, 3, 3), 'evict'), ((3, 2, 2), 'evict')):
        tables(whole[:7] + bytes(lengths) + whole[10:], answer)
        lists(whole[:7] + bytes(lengths) + whole[10:])
    note('Name bytes of 127 and 128')
    for byte in (127, 128, 200, 255):
        for place in range(4):
            name = b'desk'[:place] + bytes([byte]) + b'desk'[place + 1:]
            tables(table((0, b'nas'), (2, name)), 'evict' if byte < 128 else 'no 17 0')
            lists(table((0, b'nas'), (0, name)), 'evict' if byte < 128 else 'no 19 0')
    note('64 and 65 entries')
    many = [b'%d' % index for index in range(66)]
    for size in (1, 2, 63, 64, 65, 66):
        stores, given = table(*[(index % 3, name) for index, name in enumerate(many[:size])]), confirming(*many[:size])
        ready = size - size // 3
        for count_wanted in (ready, ready + 1):
            answer = 'evict' if ready >= count_wanted else 'keep'
            rule_text = b'readable(%d) && %d' % (count_wanted, size - 1)
            decision(of(rule_text), stores, 0, given, answer if size <= 64 else 'no 17 0')
        decision(of(b'%d' % (size - 1)), HOME, 0, given, 'evict' if size <= 64 else 'no 19 0')
        decision(of(b'%d' % size), HOME, 0, given, 'keep' if size <= 64 else 'no 19 0')
    lists(confirming(*[b'nas'] * 64), 'evict')
    lists(confirming(*[b'nas'] * 65), 'no 19 0')
    lists(confirming(*[b''] * 64), 'keep')
    lists(confirming(*[b''] * 65), 'no 19 0')
    tables(table(*[(0, b'')] * 65), 'no 17 0')
    tables(table(*[(0, b'')] * 64), 'no 18 1')
    note('Names of 0 and 255 bytes')
    wide = [filled(b'%02d' % index, b'x', b'', 255) for index in range(STORES)]
    for size in (1, 2):
        decision(of(b'readable(%d)' % size), table(*[(1, name) for name in wide[:size]]), 0, confirming(*wide[:size]), 'evict')
        decision(of(b'readable(%d)' % size), table(*[(1, name) for name in wide[:size]], (0, b'')), 0,
                 confirming(wide[0][:-1], b''), 'evict' if size == 1 else 'keep')
    decision(of(wide[63] + b' && ' + wide[0]), HOME, 0, confirming(*wide), 'evict')
    decision(of(wide[63][:-1] + b'y'), HOME, 0, confirming(*wide), 'keep')
    decision(of(b'readable(2)'), table(*[(0, name) for name in wide]), 0, confirming(wide[63], wide[17]), 'evict')
    decision(of(b'readable(3)'), table(*[(0, name) for name in wide]), 0, confirming(wide[63], wide[17]), 'keep')
    decision(of(b'nas'), table(*[(0, name) for name in wide[:63]], (0, wide[40])), 0, NOTHING, 'no 18 63')
    decision(of(b'nas'), table(*[(0, name) for name in wide[:63]], (0, wide[63][:-1] + b'\x80')), 0, NOTHING, 'no 17 0')
    decision(of(b'nas'), HOME, 0, confirming(*wide[:63], wide[63][:-1] + b'\x80'), 'no 19 0')
    note('Twins')
    for names, place in (((b'a', b'a'), 1), ((b'a', b'b', b'a'), 2), ((b'b', b'a', b'a'), 2), ((b'a', b'a', b'a'), 1),
                         ((b'a', b'b', b'b', b'a'), 2), ((b'a', b'b', b'a', b'b'), 2), ((b'a', b'b', b'c', b'b', b'a'), 3),
                         ((b'', b''), 1), ((b'', b'a', b''), 2), ((b'a', b'', b''), 2), ((b'a', b'', b'b', b'', b'a'), 3),
                         ((b'ab', b'a', b'b', b'ab'), 3), ((b'nas', b'vault', b'nas'), 2)):
        for modes in ((0, 0), (0, 2), (2, 1)):
            stores = table(*[(modes[index % 2], name) for index, name in enumerate(names)])
            decision(rule, stores, MOST, confirming(*names), 'no 18 %d' % place)
    for names in ((b'a', b'A'), (b'a', b'aa', b'aaa'), (b'ab', b'ba'), (b'', b'\x00'), (b'ab', b'a', b'b', b''), (b'a', b'a ')):
        tables(table(*[(0, name) for name in names]), 'evict')
    for first, second in ((0, 63), (62, 63), (31, 32), (0, 1)):
        changed = [name if index != second else many[first] for index, name in enumerate(many[:64])]
        tables(table(*[(index % 3, name) for index, name in enumerate(changed)]), 'no 18 %d' % second)


def refusal_orders():
    note('Each refusal against the others: 16, 17, 18, 19 in that order')
    bad_images = (b'', packed([(OLDER, 1, 0)], n=0), packed([(6, 1, 0)]), of(b'nas')[:-1] + b'\x80')
    bad_stores = (b'', HOME + b'a', table((3, b'nas')), table((0, b'n\x80s')), table((3, b'nas'), (0, b'nas')))
    twins = (table((0, b'nas'), (1, b'x'), (2, b'nas')), table((2, b''), (1, b'')))
    bad_lists = (b'', NOTHING + b'a', table((1, b'nas')), table((0, b'n\x80s')))
    fine = of(b'nas')
    for data in bad_images:
        for stores in (HOME,) + bad_stores[:2] + twins[:1]:
            for given in (NOTHING,) + bad_lists[:2]:
                decision(data, stores, 0, given, 'no 16 0')
    for stores in bad_stores:
        for given in (NOTHING, confirming(b'nas', b'nas')) + bad_lists:
            decision(fine, stores, 0, given, 'no 17 0')
    for stores, place in zip(twins, (2, 1)):
        for given in (NOTHING, confirming(b'nas', b'nas')) + bad_lists:
            decision(fine, stores, MOST, given, 'no 18 %d' % place)
    for given in bad_lists:
        for stores in (HOME, table()):
            decision(fine, stores, 0, given, 'no 19 0')
            decision(of(b'at_least(0, nas)'), stores, MOST, given, 'no 19 0')
    decision(fine, HOME, 0, HOME, 'no 19 0')
    decision(HOME, fine, 0, NOTHING, 'no 16 0')
    decision(fine, fine, 0, NOTHING, 'no 17 0')
    decision(b'', b'', 0, b'', 'no 16 0')


def large_images():
    note('Images of 2,048 nodes, nested and flat, and of 2,048 name bytes')

    def nested(kind, argument, deep, leaf=(READABLE, 1, 1)):
        return packed([leaf] + [(kind, 2 + level, argument) for level in range(deep)])

    decision(nested(ALL, 0, 2047), HOME, 0, confirming(b'nas'), 'evict')
    decision(nested(ALL, 0, 2047), HOME, MOST, confirming(b'vault'), 'keep')
    decision(nested(ANY, 0, 2047, (OLDER, 1, 7)), HOME, 7, NOTHING, 'evict')
    decision(nested(AT_LEAST, 1, 2047, (OLDER, 1, 7)), HOME, 6, NOTHING, 'keep')
    decision(nested(ALL, 0, 2048), HOME, 0, confirming(b'nas'), 'no 16 0')
    broken = [(READABLE, 1, 1)] + [(ALL, 1 + level if level == 1000 else 2 + level, 0) for level in range(2047)]
    decision(packed(broken), HOME, 0, confirming(b'nas'), 'no 16 0')
    flat = [(OLDER, 1, index % 3) for index in range(2047)]
    decision(packed(flat + [(ALL, 2048, 0)]), HOME, 2, NOTHING, 'evict')
    decision(packed(flat + [(AT_LEAST, 2048, 1366)]), HOME, 1, NOTHING, 'keep')
    decision(packed(flat + [(AT_LEAST, 2048, 1365)]), HOME, 1, NOTHING, 'evict')
    decision(packed(flat + [(ANY, 2047, 0)]), HOME, 2, NOTHING, 'no 16 0')
    decision(packed([(OLDER, 1, 0)] + flat + [(ANY, 2049, 0)]), HOME, 2, NOTHING, 'no 16 0')
    names = [name_at(index, 1) for index in range(2046)] + [name_at(2046, 2), (ANY, 2048, 0)]
    decision(packed(names, b'a' * 2047 + b'b'), HOME, 0, confirming(b'ab'), 'evict')
    long = filled(b'', b'long name, ', b'', 2049)
    for size in (2047, 2048):
        decision(packed([name_at(0, size)], long[:size]), HOME, 0, confirming(long[:255]), 'keep')
        ends = [name_at(0, size - 3), name_at(size - 3, 3), (ANY, 3, 0)]
        decision(packed(ends, long[:size - 3] + b'nas'), HOME, 0, confirming(b'nas'), 'evict')
    decision(packed([name_at(0, 2049)], long), HOME, 0, NOTHING, 'no 16 0')
    decision(packed([name_at(0, 2046), name_at(2046, 3), (ANY, 3, 0)], long), HOME, 0, confirming(b'nas'), 'no 16 0')
    decision(packed([name_at(0, 2048)], long[:2047] + b'\x80'), HOME, 0, NOTHING, 'no 16 0')
    pairs_of = []
    for index in range(682):
        pairs_of += [(OLDER, 1, index), (READABLE, 1, index % 2), (AT_LEAST, 3, index % 3)]
    decision(packed(pairs_of + [(AT_LEAST, 2047, 400)]), HOME, 300, confirming(b'nas'))
    decision(packed(pairs_of + [(ALL, 2047, 0)]), HOME, 300, confirming(b'nas'), 'keep')


POOL = [b'nas', b'vault', b'cellar', b'desk', b'', b'a', b'b', b'Nas', b'mirror', b'x y', b'\x00', b'long-name-of-a-store']
COUNTS = [0, 1, 1, 2, 2, 3, 4, MOST]
AGES = [0, 1, 999, 1000, 1001, DAY - 1, DAY, 30 * DAY, 2 ** 32, 2 ** 63, MOST]


def drawn_rule(draw, depth):
    pick = draw.below(9) if depth else draw.below(4)
    if pick < 2:
        return [NAMED, draw.of(POOL), []]
    if pick == 2:
        return [OLDER, draw.of(AGES), []]
    if pick == 3:
        return [READABLE, draw.of(COUNTS), []]
    kind = draw.of([AT_LEAST, ALL, ANY])
    return [kind, draw.of(COUNTS) if kind == AT_LEAST else 0,
            [drawn_rule(draw, depth - 1) for _ in range(1 + draw.below(4))]]


def drawn_decisions():
    note('Drawn: rules, tables and lists that keep the layout')
    draw, answers = Draw(20260802), []
    for _ in range(140):
        rule = drawn_rule(draw, 1 + draw.below(4))
        stores, left = [], list(POOL)
        for _ in range(draw.below(7)):
            stores.append((draw.below(3), left.pop(draw.below(len(left)))))
        given = [draw.of(POOL) for _ in range(draw.below(8))]
        answers.append(decision(image(rule), table(*stores), draw.of(AGES), confirming(*given)))
    if min(answers.count('evict'), answers.count('keep')) < 40 or set(answers) != {'evict', 'keep'}:
        sys.exit('drawn decisions are one-sided: %d evict of %d' % (answers.count('evict'), len(answers)))
    note('Drawn: such cases with a byte or two put in place of others, left out or put in')
    for way in range(60):
        parts = [image(drawn_rule(draw, 2)), table((draw.below(3), b'nas'), (draw.below(3), draw.of(POOL[1:]))),
                 confirming(draw.of(POOL), b'nas')]
        part = way % 3
        for _ in range(1 + draw.below(2)):
            at = draw.below(len(parts[part]))
            put_in = bytes([draw.of([0, 1, 2, 3, 5, 6, 127, 128, 255])]) if draw.below(4) else b''
            parts[part] = parts[part][:at] + put_in + parts[part][at + draw.below(2):]
        decision(parts[0], parts[1], draw.of(AGES), parts[2])


# The cases of check and judge

TRIED = 5
verdicts, held = {}, {}


def shown(rule, stores):
    """What decisions show of a rule that names only stores of a small table, by demand 3: whether it evicts at some age on some
    list without a readable store, over every set of stores and the ages around each duration; and where it does, 21 or 22."""
    data, known = image(rule), known_stores(stores)
    spans = [argument for kind, argument, _ in in_order(rule) if kind == OLDER]
    ages = {0, MOST} | {age for span in spans for age in (span - 1, span, span + 1) if 0 <= age <= MOST}
    harms = False
    for mask in range(2 ** len(known)):
        chosen = [entry for index, entry in enumerate(known) if mask >> index & 1]
        names = [name for _, name in chosen]
        if any(mode != 2 for mode, _ in chosen):
            continue
        for given in (confirming(*names), confirming(b'a store of no table', *names, *names)):
            harms = harms or any(decide(data, stores, age, given) == 'evict' for age in ages)
    if not harms:
        return 'pass'
    if decide(data, stores, MOST, NOTHING) == 'evict':
        return 'no 21 0'
    archive = confirming(*[name for mode, name in known if mode == 2])
    return 'no 22 0' if decide(data, stores, MOST, archive) == 'evict' else 'evicts, but on neither list'


def hold(rule, stores, answer):
    """Holds the verdict on a rule to what decisions show, where the table and the rule are small."""
    if answer not in ('pass', 'no 21 0', 'no 22 0') or not 1 <= number(stores, 0, 2) <= TRIED or len(in_order(rule)) > 40:
        return
    key = (image(rule), stores)
    if key not in held:
        held[key] = shown(rule, stores)
    if held[key] != answer:
        sys.exit('%.200r %.60r: the verdict is %s, and decisions show %s' % (rule, stores, answer, held[key]))


def add(call, given, stores, answer, stated):
    """Adds a case of check or judge where it is not there yet; its answer must be the stated one, where one is."""
    if stated not in (None, answer):
        sys.exit('%s %.200r %.60r: the answer is %s, and stated is %s' % (call, given, stores, answer, stated))
    if (call, given, stores) not in seen:
        seen.add((call, given, stores))
        out.append('%s %s %s %s' % (call, given.hex() or '-', stores.hex() or '-', answer))
        sort = (call, ' '.join(answer.split()[:2]))
        verdicts[sort] = verdicts.get(sort, 0) + 1
    return answer


def checked(data, stores, stated=None):
    answer = check(data, stores)
    if answer != 'no 16 0':
        hold(rule_of(data), stores, answer)
    return add('check', data, stores, answer, stated)


def judged(text, stores, stated=None):
    answer, reading = judge(text, stores), read(text, NEED)
    if reading[0] == 'ok' and check(reading[1], stores) != answer:
        sys.exit('%r %r: reading and then checking is not judging' % (text, stores))
    if reading[0] == 'ok':
        hold(rule_in(text), stores, answer)
    return add('judge', text, stores, answer, stated)


def both(text, stores, stated=None):
    """A text that reads as a rule, judged, and its image checked."""
    checked(of(text), stores, stated)
    return judged(text, stores, stated)


PASS, BARE, ARCHIVE = 'pass', 'no 21 0', 'no 22 0'
LONE = table((2, b'vault'))
TWINS = table((0, b'nas'), (2, b'vault'), (1, b'nas'))
BROKEN = table((0, b'nas'), (3, b'vault'))


def stores_of(**modes):
    """A table from modes by their stores' names."""
    return table(*[(mode, name.encode()) for name, mode in modes.items()])


def verdict_sheet():
    note('The proved sheet, and the rules that document 01 and the demands name')
    both(b'nas || vault', HOME, ARCHIVE)
    both(b'at_least(0, nas)', HOME, BARE)
    both(b'at_least(2, nas, vault)', HOME, PASS)
    both(b'at_least(2, older_than(30d), vault)', HOME, ARCHIVE)
    both(b'older_than(30d) && readable(1)', HOME, PASS)
    both(b'nas && readable(1)', HOME, PASS)
    both(b'READABLE', HOME, PASS)
    both(b'older_than("1h 30m")', HOME, BARE)
    for vault in range(3):
        for cellar in range(3):
            answer = ARCHIVE if vault == cellar == 2 else PASS
            both(b'vault && cellar', stores_of(vault=vault, cellar=cellar), answer)
            both(b'vault && cellar', stores_of(nas=0, cellar=cellar, mirror=1, vault=vault), answer)
    both(b'vault && cellar', WIDE, ARCHIVE)
    for text, place in ((b'a && b || c', 3), (b'a && (b && c)', 2), (b'(a && b) && c', 2)):
        both(text, HOME, 'no 20 0')
        both(text, stores_of(a=0, b=2), 'no 20 %d' % place)
        both(text, stores_of(a=0, b=2, c=1), PASS)
    for text, answer in ((b'any(a,)', 'no 7 6'), (b'any()', 'no 14 0'), (b'', 'no 7 0'), (b'older_than(1h 30m)', 'no 8 14'),
                         (b'readable(x', 'no 12 9'), (b'older_than(x', 'no 8 12'), (b') a &', 'no 4 4')):
        judged(text, HOME, answer)
    note('A store called readable (Job 2)')
    both(b"'READABLE'", HOME, 'no 20 0')
    both(b"'readable'", stores_of(readable=0), PASS)
    both(b"'readable'", stores_of(readable=1, nas=2), PASS)
    both(b"'readable'", stores_of(readable=2), ARCHIVE)
    both(b"'readable' && readable", stores_of(readable=2, nas=0), PASS)
    both(b"'readable' || readable", stores_of(readable=2, nas=0), ARCHIVE)
    both(b"'readable'", stores_of(READABLE=0), 'no 20 0')
    both(b"'any' || \"readable\"", stores_of(any=0, readable=1), PASS)
    judged(b"'readable'(1)", stores_of(readable=0), 'no 9 10')
    judged(b"any('readable'(1))", stores_of(readable=0), 'no 8 14')
    judged(b"'any'(nas)", HOME, 'no 9 5')
    note('Further rules whose verdicts are stated')
    both(b'nas && (mirror || desk)', HOME, 'no 20 1')
    both(b'older_than(1d) || desk', HOME, 'no 20 1')
    both(b'older_than(1d)', HOME, BARE)
    both(b"'Readable'", stores_of(readable=0), 'no 20 0')
    both(b"'readable' || nas", HOME, 'no 20 0')
    both(b'desk || older_than(1d)', stores_of(), PASS)
    both(b'desk', table((0, b'nas'), (2, b'nas'), (0, b'nas')), 'no 18 1')
    both(b'desk', b'', 'no 17 0')
    judged(b'any()', b'', 'no 14 0')


def archive_cases():
    note('Write-only stores: each alone, all of them, and beside others')
    for name, answer in ((b'nas', PASS), (b'mirror', PASS), (b'desk', PASS), (b'vault', ARCHIVE), (b'cellar', ARCHIVE)):
        both(name, WIDE, answer)
        both(name + b' || readable(1)', WIDE, answer)
        both(name + b' && older_than(30d)', WIDE, answer)
        both(name + b' && readable(1)', WIDE, PASS)
        both(name + b' || older_than(30d)', WIDE, BARE)
        both(b'at_least(1, %s, nas)' % name, WIDE, answer)
    for text, answer in ((b'nas && vault', PASS), (b'vault && cellar && nas', PASS), (b'vault && (cellar || nas)', ARCHIVE),
                         (b'(vault || mirror) && (cellar || nas)', ARCHIVE), (b'(vault || mirror) && (desk || nas)', PASS),
                         (b'vault && nas || cellar && desk', PASS), (b'vault && nas || cellar && vault', ARCHIVE),
                         (b'nas || mirror || desk', PASS), (b'nas || mirror || desk || vault', ARCHIVE),
                         (b'all(vault, cellar, older_than(1d), readable(0))', ARCHIVE), (b'all(vault, cellar, readable)', PASS),
                         (b'at_least(3, vault, vault, vault)', ARCHIVE), (b'at_least(4, vault, vault, cellar, nas)', PASS),
                         (b'at_least(3, vault, vault, cellar, nas)', ARCHIVE)):
        both(text, WIDE, answer)
        both(text, stores_of(cellar=2, vault=2, desk=1, nas=1, mirror=0), answer)
    for text in (b'vault', b'readable(0) && vault', b'at_least(1, vault, older_than(999999999d) && readable(1))'):
        both(text, LONE, ARCHIVE)
        both(text, stores_of(vault=0), PASS)
        both(text, stores_of(vault=1), PASS)
    note('Counts of at_least: nothing confirmed reaches up to two, the write-only stores up to four')
    for k in (0, 1, 2, 3, 4, 5, 6, 2 ** 32, MOST):
        both(b'at_least(%d, vault, cellar, nas)' % k, WIDE, BARE if k == 0 else ARCHIVE if k < 3 else PASS)
        both(b'at_least(%d, nas, older_than(5d), vault, readable(0), cellar)' % k, WIDE,
             BARE if k < 3 else ARCHIVE if k < 5 else PASS)
        both(b'at_least(%d, readable(1), nas, mirror, readable(2), desk)' % k, WIDE, BARE if k == 0 else PASS)
    note('Counts of readable: no write-only store is a readable one')
    for k in (0, 1, 2, 3, 64, MOST):
        for stores in (HOME, LONE, WIDE, stores_of(vault=2, cellar=2)):
            both(b'readable(%d)' % k, stores, PASS if k else BARE)
            both(b'readable(%d) && vault' % k, stores, PASS if k else ARCHIVE)
        both(b'readable(%d)' % k, stores_of(vault=0, cellar=1), PASS if k else BARE)
        both(b'readable(%d) && vault' % k, stores_of(vault=0, cellar=1), PASS)
    both(b'readable(1) || vault', HOME, ARCHIVE)
    both(b'readable(1) && vault || readable(0) && nas', HOME, PASS)
    both(b'readable(1) && nas || readable(0) && vault', HOME, ARCHIVE)
    note('Durations: the largest age is at least as large as each')
    for span in (0, 1, DAY, 2 ** 32, 2 ** 63, MOST - 1, MOST):
        leaf = (OLDER, 1, span)
        checked(packed([leaf]), HOME, BARE)
        checked(packed([leaf]), stores_of(nas=0), BARE)
        checked(packed([leaf, name_at(0, 5), (ALL, 3, 0)], b'vault'), HOME, ARCHIVE)
        checked(packed([leaf, name_at(0, 3), (ALL, 3, 0)], b'nas'), HOME, PASS)
        checked(packed([leaf, name_at(0, 3), (ANY, 3, 0)], b'nas'), HOME, BARE)
        checked(packed([leaf, (READABLE, 1, 1), (ALL, 3, 0)]), HOME, PASS)
    for text in (b'0s', b'1ms', b'999999999d', b'"1h 30m"', b'2w', b'"30 d"', b'999999999w'):
        judged(b'older_than(%s)' % text, HOME, BARE)
        judged(b'older_than(%s) and vault' % text, HOME, ARCHIVE)
        judged(b'older_than(%s) and nas' % text, HOME, PASS)


def mode_cases():
    note('All modes of one, two and three stores; what each rule asks is said of the set of write-only stores')
    one = ((b'a', lambda w: b'a' in w), (b'a && readable(1)', lambda w: False), (b'a || readable(2)', lambda w: b'a' in w),
           (b'at_least(2, older_than(1d), a)', lambda w: b'a' in w), (b'all(a, a)', lambda w: b'a' in w))
    two = ((b'a || b', lambda w: b'a' in w or b'b' in w), (b'a && b', lambda w: b'a' in w and b'b' in w),
           (b'at_least(2, b, a, readable(1))', lambda w: b'a' in w and b'b' in w),
           (b'b && (a || readable(1))', lambda w: b'a' in w and b'b' in w))
    three = ((b'any(a, b, c)', lambda w: len(w) > 0), (b'a && b && c', lambda w: len(w) == 3),
             (b'at_least(2, a, b, c)', lambda w: len(w) > 1),
             (b'older_than(30d) && (c || a && b)', lambda w: b'c' in w or b'a' in w and b'b' in w),
             (b'at_least(3, a, older_than(1ms), all(b, c), any(b, c))', lambda w: len(w) > 1))
    for many, rules in ((1, one), (2, one + two), (3, two + three)):
        names = [b'a', b'b', b'c'][:many]
        for code in range(3 ** many):
            entries = [(code // 3 ** index % 3, name) for index, name in enumerate(names)]
            stores, archive = table(*entries), {name for mode, name in entries if mode == 2}
            for text, harms in rules:
                both(text, stores, ARCHIVE if harms(archive) else PASS)
            both(b'readable(0) || ' + names[-1], stores, BARE)
            both(names[0] + b' || d', stores, 'no 20 1')


REFUSED = (
    (b'nas' + b' ' * 2046, 'no 2 0'), (b"'\x80'", 'no 3 1'), (b'nas &', 'no 4 4'), (b'gone &', 'no 4 5'),
    (b'nas || "vault', 'no 5 7'), (b'nas # vault', 'no 6 4'), (b'any(nas,)', 'no 7 8'), (b' \n', 'no 7 2'),
    (b'(gone', 'no 8 5'), (b'readable(0) gone', 'no 9 12'), (b'gone(vault)', 'no 10 0'), (b'at_least(2)', 'no 11 10'),
    (b'gone || readable(1x)', 'no 12 17'), (b'vault && older_than(30D)', 'no 13 20'), (b'vault || any()', 'no 14 9'),
    (b'(' * 65 + b'gone' + b')' * 65, 'no 15 64'))


def damaged():
    """Images that break the layout, each in its own way."""
    yes, base = (OLDER, 1, 0), of(MIXED)
    return (
        b'', b'\x00' * 4, base[:3], base[:4], base[:-1], base + b'\x00', packed([yes], n=0), packed([yes], n=2), packed([yes], m=1),
        packed([yes], b'a'), packed([(6, 1, 0)]), packed([yes, (255, 2, 0)]), packed([(OLDER, 0, 0)]), packed([(READABLE, 2, 1)]),
        packed([yes, (ALL, 1, 0)]), packed([yes, (ANY, 3, 0)]), packed([yes, (ANY, 258, 0)]), packed([(AT_LEAST, 1, 0)]),
        packed([yes, yes]), packed([yes, yes, (ALL, 2, 0)]), packed([yes, yes, (ALL, 3, 0), (ANY, 2, 0), (ANY, 5, 0)]),
        packed([yes, yes, (ALL, 3, 0), (ANY, 3, 0), (ANY, 5, 0)]), packed([(ANY, 2, 0), yes]), packed([yes, (ALL, 2, 1)]),
        packed([yes, (ANY, 2, 2 ** 63)]), packed([name_at(1, 3)], b'nas'), packed([name_at(0, 2)], b'nas'),
        packed([name_at(0, 4)], b'nas'), packed([name_at(0, 3), name_at(0, 3), (ANY, 3, 0)], b'nas'),
        packed([name_at(0, 3)], b'n\x80s'), packed([name_at(0, 3)], b'nas', m=2), packed([(NAMED, 1, 2 ** 48 + 3)], b'nas'))


def broken_tables():
    """Tables that break the layout, each in its own way; some of them without a store, or with a name twice."""
    entries = [(0, b'nas'), (2, b''), (1, b'vault')]
    whole = table(*entries)
    found = [b'', b'\x00', b'\x00' * 3, b'\x00' * 5, table() + b'a', table(total=1), table(many=1), table(many=256), of(b'nas')]
    found += [whole[:-1], whole + b'\x00', whole[:4], whole[:7], whole[:10]]
    found += [table(*entries, total=total) for total in (7, 8 + 256)]
    found += [table(*entries, many=many) for many in (2, 4, 3 + 256)]
    found += [whole[:7] + bytes(lengths) + whole[10:] for lengths in ((3, 0, 4), (3, 1, 5), (255, 255, 10))]
    found += [table((3, b'nas'), (0, b'vault')), table((0, b'nas'), (255, b'vault')), table((4, b'nas'), (0, b'nas'))]
    found += [table((0, b'n\x80s')), table((0, b'nas'), (2, b'vaul\xff')), table((0, b'\x80'), (0, b'\x80'))]
    return found + [table(*[(0, b'%d' % index) for index in range(65)]), table(*[(0, b'')] * 65)]


def stage_cases():
    note('Texts that are no rule, and damaged images: before every table')
    for stores in (HOME, table(), TWINS, BROKEN, b'', table() + b'a'):
        for text, answer in REFUSED:
            judged(text, stores, answer)
    for stores in (HOME, table(), TWINS, BROKEN):
        for data in damaged():
            checked(data, stores, 'no 16 0')
    note('Tables that break the layout: before twins, unknown names and what the rule says')
    for stores in broken_tables():
        for text in (b'nas && vault', b'gone', b'readable(0)'):
            both(text, stores, 'no 17 0')
    note('Twins: before unknown names and what the rule says')
    for names, place in (((b'nas', b'vault', b'nas'), 2), ((b'vault', b'nas', b'nas'), 2),
                         ((b'nas', b'nas', b'vault', b'vault'), 1), ((b'nas', b'vault', b'vault', b'nas'), 2),
                         ((b'', b'nas', b'', b'vault'), 2), ((b'', b''), 1)):
        for modes in ((0, 2), (2, 2), (2, 1)):
            stores = table(*[(modes[index % 2], name) for index, name in enumerate(names)])
            for text in (b'nas', b'gone', b'readable(0)', b'nas || vault'):
                both(text, stores, 'no 18 %d' % place)
    note('Unknown names: before what the rule says')
    for text, place in ((b'at_least(0, gone)', 0), (b'readable(0) || gone', 1), (b'gone || readable(0)', 0), (b'vault || gone', 1),
                        (b'older_than(0s) || vault && gone', 2), (b'gone && vault', 0), (b'readable(1) && gone', 1),
                        (b'at_least(0, vault, vault) || at_least(9, gone)', 3), (b'all(vault, any(vault, gone))', 2)):
        both(text, HOME, 'no 20 %d' % place)
        both(text, LONE, 'no 20 %d' % place)
    both(b'nas && gone', HOME, 'no 20 1')
    both(b'nas && gone', LONE, 'no 20 0')
    both(b'vault || nas', LONE, 'no 20 1')
    note('The first of several unknown names, by its node')
    for text, place in ((b'x', 0), (b'x || y', 0), (b'nas && (x || y)', 1), (b'any(all(nas, vault), x, all(y))', 3),
                        (b'(nas && vault) && x', 2), (b'nas && (vault && x)', 2), (b'nas || vault && x', 2),
                        (b'nas && vault || x || y', 3), (b'any(nas) && any(vault) && x', 4), (b'any(nas) || x', 1),
                        (b'older_than(1d) && readable(2) && x && nas', 2), (b'at_least(1, at_least(1, at_least(1, x)))', 0),
                        (b'all(any(nas), any(all(vault, at_least(1, nas, x))), y)', 4),
                        (b'at_least(0, nas, any(older_than(0s), all(readable(0), y)), x)', 3),
                        (b'nas && nas && nas && nas && Nas', 4), (b'all(all(all(nas)), all(all(x)), y)', 3),
                        (b"any(any(nas, any(nas, any(nas, any(nas, '')))), x)", 4)):
        both(text, HOME, 'no 20 %d' % place)
        both(text, stores_of(vault=2, nas=2), 'no 20 %d' % place)
    for deep in (1, 10, 63, 64):
        both(b'any(nas, ' * deep + b'gone' + b')' * deep, HOME, 'no 20 %d' % deep)
        both(b'any(' * deep + b'nas' + b')' * deep + b' && gone', HOME, 'no 20 %d' % (deep + 1))
        both(b'any(' * deep + b'nas' + b', gone)' * deep, HOME, 'no 20 1')
    note('Unconfirmed: before archive only')
    for text in (b'readable(0) || vault', b'vault || older_than(1d)', b'at_least(0, vault)', b'at_least(1, vault, readable(0))',
                 b'all(readable(0), older_than(0s), any(readable(0), vault))', b'at_least(2, readable(0), vault, older_than(30d))'):
        for stores in (LONE, HOME, stores_of(vault=0), stores_of(vault=1, nas=2)):
            both(text, stores, BARE)


def storeless_cases():
    note('Tables without stores: every rule passes, and every other refusal stands')
    for text in (b'nas', b'gone || nas', b'readable(0)', b'readable(1)', b'at_least(0, gone)', b'older_than(0s)',
                 b'older_than(30d) || vault', b"''", b'at_least(2, older_than(30d), vault)', b'x' * 300):
        both(text, table(), PASS)
    for stores in (table() + b'\x00', b'\x00' * 3, table(total=1), table(many=1), table(many=256)):
        both(b'nas', stores, 'no 17 0')
    checked(packed([name_at(0, 2)], b'\x00\x7f'), table(), PASS)
    checked(packed([name_at(0, 2)], b'\x00\x80'), table(), 'no 16 0')


def store_name_cases():
    note('Names that are nearly a store\'s')
    for name in (b'Nas', b'NAS', b'na', b'nass', b'nas ', b' nas', b'as', b'nat', b'oas', b'nbs', b'', b'nasvault', b'vaul',
                 b'sv', b'\x00'):
        both(b'"%s"' % name, HOME, 'no 20 0')
        both(b'nas && "%s"' % name, HOME, 'no 20 1')
    for text in (b'a', b'b', b'bc', b'abc', b"''", b'a && b', b'd'):
        both(text, stores_of(ab=0, cd=2), 'no 20 0')
    both(b'ab && cd', stores_of(ab=0, cd=2), PASS)
    both(b'a && b', stores_of(ab=2, a=2, b=2), ARCHIVE)
    both(b'a && b', stores_of(ab=2, a=2, b=0), PASS)
    note('Empty names')
    for mode in range(3):
        both(b"''", table((mode, b'')), ARCHIVE if mode == 2 else PASS)
        both(b"'' && nas", table((mode, b''), (2, b'nas')), ARCHIVE if mode == 2 else PASS)
        both(b"nas || ''", table((0, b'nas'), (mode, b''), (0, b'desk')), ARCHIVE if mode == 2 else PASS)
        both(b'nas', table((0, b'nas'), (mode, b'')), PASS)
        both(b'nas', table((mode, b''), (2, b'nas')), ARCHIVE)
    both(b"nas && '' && vault", HOME, 'no 20 1')
    note('Names of 255 bytes and more')
    wide = [filled(b'%02d' % index, b'x', b'', 255) for index in range(STORES)]
    three = table((2, wide[0]), (0, wide[1]), (2, b'x'))
    for text, answer in ((wide[0], ARCHIVE), (wide[1], PASS), (wide[0] + b' && x', ARCHIVE), (wide[1] + b' && ' + wide[0], PASS),
                         (wide[0][:-1], 'no 20 0'), (wide[0][:-1] + b'y', 'no 20 0'), (b'y' + wide[0][1:], 'no 20 0'),
                         (wide[0] + b'x', 'no 20 0'), (wide[1] + b' && x && ' + wide[0] + b'x', 'no 20 2')):
        both(text, three, answer)
    long = filled(b'', b'long-name.', b'', 600)
    for size in (256, 257, 512, 600):
        both(long[:size], table((0, long[:255]), (0, long[:size % 256])), 'no 20 0')
    both(long[:511], table((0, long[:255]), (0, long[256:511])), 'no 20 0')
    judged(wide[63] + b' && ' + wide[1], table(*[(2 if index % 2 else 0, name) for index, name in enumerate(wide)]), ARCHIVE)
    judged(wide[63], table(*[(0, name) for name in wide[:63]], (0, wide[40])), 'no 18 63')
    note('Names of other bytes')
    for name in (b'\x00', b'\x00\x7f', b'x y', b'a,b', b"it's", b'and'):
        for mode in (1, 2):
            both(b'"%s"' % name, table((mode, name)), ARCHIVE if mode == 2 else PASS)
        both(b'"%s"' % name, table((1, name + b'!')), 'no 20 0')
    checked(packed([name_at(0, 2)], b'"\''), table((2, b'"\'')), ARCHIVE)


def full_tables():
    note('64 stores and 65')
    names = [b'%d' % index for index in range(65)]
    modes = [(0, 2, 1, 2)[index % 4] for index in range(65)]
    archive = [name for name, mode in zip(names[:64], modes) if mode == 2]
    stores = table(*zip(modes[:64], names[:64]))
    listed = b', '.join(names[:64])
    for text, answer in ((b'all(%s)' % b', '.join(archive), ARCHIVE), (b'all(%s)' % b', '.join(archive + [b'0']), PASS),
                         (b'all(%s)' % b', '.join([b'62'] + archive), PASS), (b'any(%s)' % listed, ARCHIVE),
                         (b'any(%s)' % b', '.join(names[0:64:2]), PASS), (b'at_least(32, %s)' % listed, ARCHIVE),
                         (b'at_least(33, %s)' % listed, PASS), (b'at_least(0, %s)' % listed, BARE), (b'readable(64)', PASS),
                         (b'63', ARCHIVE), (b'62', PASS), (b'64', 'no 20 0'), (b'any(%s, 64)' % listed, 'no 20 64'),
                         (b'any(0, 64, 65)', 'no 20 1'), (b'readable(1) && 63', PASS), (b'readable(1) || 63', ARCHIVE)):
        both(text, stores, answer)
    for mode, answer in ((0, PASS), (1, PASS), (2, ARCHIVE)):
        both(b'all(%s)' % listed, table(*[(2, name) for name in names[:63]], (mode, b'63')), answer)
        both(b'all(%s)' % listed, table((mode, b'0'), *[(2, name) for name in names[1:64]]), answer)
        both(b'any(%s)' % listed, table(*[(0, name) for name in names[:63]], (mode, b'63')), answer)
    both(b'63', table(*zip(modes, names)), 'no 17 0')
    for first, second in ((0, 63), (62, 63), (31, 32), (0, 1)):
        twins = [name if index != second else names[first] for index, name in enumerate(names[:64])]
        both(b'gone', table(*zip(modes, twins)), 'no 18 %d' % second)
    for size in (1, 2, 62, 63):
        both(b'any(%s)' % b', '.join(names[:size + 1]), table(*[(2, name) for name in names[:size]]), 'no 20 %d' % size)
        both(b'all(%s)' % b', '.join(names[:size]), table(*[(2, name) for name in names[:size]]), ARCHIVE)


def turned_cases():
    note('An image, a text and a table with a bit of each byte turned')
    text = b'at_least(2, all(nas, older_than(1d)), any(vault, readable))'
    data = of(text)
    for mask in (1, 4, 128):
        for at in range(len(data)):
            checked(data[:at] + bytes([data[at] ^ mask]) + data[at + 1:], HOME)
        for at in range(len(text)):
            judged(text[:at] + bytes([text[at] ^ mask]) + text[at + 1:], HOME)
        for at in range(len(HOME)):
            both(text, HOME[:at] + bytes([HOME[at] ^ mask]) + HOME[at + 1:])


def large_rules():
    note('Images of 2,048 nodes, nested and flat')

    def nested(kind, argument, deep, leaf, name=b''):
        return packed([leaf] + [(kind, 2 + level, argument) for level in range(deep)], name)

    checked(nested(ALL, 0, 2047, name_at(0, 3), b'nas'), HOME, PASS)
    checked(nested(ANY, 0, 2047, name_at(0, 5), b'vault'), HOME, ARCHIVE)
    checked(nested(ALL, 0, 2047, (OLDER, 1, MOST)), HOME, BARE)
    checked(nested(AT_LEAST, 1, 2047, name_at(0, 4), b'gone'), HOME, 'no 20 0')
    checked(nested(AT_LEAST, 2, 2047, (READABLE, 1, 0)), HOME, PASS)
    checked(nested(ALL, 0, 2048, name_at(0, 3), b'nas'), HOME, 'no 16 0')
    nodes = [name_at(index, 1) for index in range(2047)]
    checked(packed(nodes + [(ALL, 2048, 0)], b'v' * 2046 + b'n'), stores_of(n=0, v=2), PASS)
    checked(packed(nodes + [(ANY, 2048, 0)], b'n' * 2046 + b'x'), stores_of(n=0, v=2), 'no 20 2046')
    checked(packed(nodes + [(AT_LEAST, 2048, 1023)], (b'nv' * 1024)[:2047]), stores_of(n=0, v=2), ARCHIVE)
    checked(packed(nodes[:600] + [(AT_LEAST, 601, 301)], b'nv' * 300), stores_of(n=0, v=2), PASS)
    checked(packed([name_at(0, 2048)], b'v' * 2048), stores_of(v=2), 'no 20 0')
    note('Texts of 2,048 bytes and 2,049')
    for text, answer in ((b'nas', PASS), (b'vault', ARCHIVE), (b'readable(0)', BARE), (b'nas && gone', 'no 20 1'),
                         (b'nas &', 'no 4 4')):
        judged(filled(text, b' ', b'', 2048), HOME, answer)
    judged(filled(b'nas', b' ', b'', 2049), HOME, 'no 2 0')
    judged(filled(b'gone &', b' ', b'', 2049), HOME, 'no 2 0')
    judged(filled(b'', b' ', b'vault', 2048), HOME, ARCHIVE)
    judged(filled(b'', b' ', b'vault', 2049), HOME, 'no 2 0')
    judged(filled(b'', b'v&&', b'vv', 2048), stores_of(v=2, vv=2, vvv=2), ARCHIVE)
    judged(filled(b'', b'v||', b'nn', 2048), stores_of(v=1, n=0), 'no 20 682')
    judged(b'any(' + b','.join([b'n'] * 1021 + [b'v']) + b')', stores_of(n=0, v=2), ARCHIVE)
    judged(b'all(' + b','.join([b'v'] * 1021 + [b'n']) + b')', stores_of(n=0, v=2), PASS)
    judged(b'any(' + b','.join([b'n'] * 1021 + [b'x']) + b')', stores_of(n=0, v=2), 'no 20 1021')
    judged(b'a' * 2048, HOME, 'no 20 0')
    judged(b'a' * 2049, HOME, 'no 2 0')
    note('64 brackets and 65')
    for start in (b'(', b'any(', b'all(', b'at_least(1,'):
        for text, answer in ((b'nas', PASS), (b'vault', ARCHIVE), (b'gone', 'no 20 0')):
            both(start * 64 + text + b')' * 64, HOME, answer)
            judged(start * 65 + text + b')' * 65, HOME, 'no 15 %d' % (64 * len(start) + start.index(b'(')))
    both(b'(' * 63 + b'readable(0)' + b')' * 63, HOME, BARE)
    judged(b'(' * 64 + b'readable(0)' + b')' * 64, HOME, 'no 15 72')


SPAN_CHOICE = [0, 1, 999, DAY - 1, DAY, 30 * DAY]
QUOTED = [b'a', b'b', b'nas', b'vault', b'cellar', b'', b'x y', b'and', b'Nas']


def drawn_verdict(draw, depth, names):
    """A rule whose leaves are mostly names."""
    pick = draw.below(10) if depth else draw.below(6)
    if pick < 4:
        return [NAMED, draw.of(names), []]
    if pick == 4:
        return [OLDER, draw.of(SPAN_CHOICE), []]
    if pick == 5:
        return [READABLE, draw.of([0, 1, 1, 2, 3]), []]
    kind = draw.of([AT_LEAST, AT_LEAST, ALL, ALL, ANY])
    many = 1 + draw.below(4)
    children = [drawn_verdict(draw, depth - 1, names) for _ in range(many)]
    return [kind, draw.below(many + 2) if kind == AT_LEAST else 0, children]


def text_of(rule):
    """A text that reads as the rule, its names quoted."""
    kind, argument, children = rule
    if kind == NAMED:
        return b'"%s"' % argument
    if kind == OLDER:
        return b'older_than(%dms)' % argument if argument % DAY else b'older_than(%dd)' % (argument // DAY)
    if kind == READABLE:
        return b'readable(%d)' % argument
    start = b'at_least(%d, ' % argument if kind == AT_LEAST else b'all(' if kind == ALL else b'any('
    return start + b', '.join(map(text_of, children)) + b')'


def drawn_verdicts():
    note('Drawn: rules over tables, most of them naming only stores of the table')
    draw, answers = Draw(20260803), []
    for way in range(260):
        stores, left = [], list(QUOTED)
        for _ in range(1 + draw.below(5)):
            stores.append((draw.of([0, 1, 2, 2]), left.pop(draw.below(len(left)))))
        names = [name for _, name in stores] + (left[:1] if way % 4 == 0 else [])
        rule = drawn_verdict(draw, 1 + draw.below(3), names)
        if rule_in(text_of(rule)) != rule:
            sys.exit('%r does not read as %r' % (text_of(rule), rule))
        answers.append(both(text_of(rule), table(*stores))[:5])
    for answer in ('pass', 'no 20', 'no 21', 'no 22'):
        if answers.count(answer) < 15:
            sys.exit('drawn verdicts have too few of %s' % answer)
    note('Drawn: texts, some with a token or two changed, over tables of most of their names')
    words = [b'a', b'nas', b'vault', b'b-1', b'x y', b'', b'2', b'30d', b'any', b'and', b'OR']
    for way in range(120):
        found = drawn(draw, 3)
        for _ in range(draw.below(3) if way % 3 == 0 else 0):
            found[draw.below(len(found))] = draw.of(MENDS + FAULTS)
        entries = [(draw.of([0, 1, 2, 2]), word) for word in words if way % 2 or draw.below(6)]
        if way % 20 == 7:
            entries.append(entries[draw.below(len(entries))])
        judged(spaced(draw, found), table(*entries) + b'\x00' * (way % 25 == 9))


def all_verdicts():
    """Each answer must have its cases, and enough verdicts must have been held to decisions."""
    wanted = [('check', sort) for sort in ['pass'] + ['no %d' % n for n in (16, 17, 18, 20, 21, 22)]]
    wanted += [('judge', sort) for sort in ['pass'] + ['no %d' % n for n in list(range(2, 16)) + [17, 18, 20, 21, 22]]]
    if sorted(wanted) != sorted(verdicts):
        sys.exit('missed or not expected: %r' % sorted(set(wanted) ^ set(verdicts)))
    for answer in (PASS, BARE, ARCHIVE):
        if list(held.values()).count(answer) < 100:
            sys.exit('too few verdicts are held to decisions: %s' % answer)

# The cases of print

# The memory that `replay` lends, and the longest text: 2,046 durations of 39 bytes and a name of 2,048, joined by ` && `.
MEMORY = 131072
LONGEST = 2046 * 39 + 2048 + 2046 * 4
printings, trips = {}, {'read': 0, 'same': 0}


def is_plain(rule):
    """Whether a text can tell the rule's leaves: its names are words, none of them a sign or `readable`, and the days of its
    durations have at most nine digits."""
    for kind, argument, _ in in_order(rule):
        if kind == NAMED and (not argument or any(byte not in WORD for byte in argument)):
            return False
        if kind == NAMED and argument.lower() in (b'and', b'or', b'readable'):
            return False
        if kind == OLDER and argument >= 10 ** 9 * DAY:
            return False
    return True


def most_open(text):
    """How many brackets of a text are open at once, at most."""
    opened, most = 0, 0
    for byte in text:
        opened += (byte == 40) - (byte == 41)
        most = max(most, opened)
    return most


def flat(rule):
    """A rule as far as its text tells: an all or any of one child is that child, and one directly under one of the same kind is part of it."""
    kind, argument, children = rule
    below = []
    for child in children:
        child = flat(child)
        below += child[2] if kind in (ALL, ANY) and child[0] == kind else [child]
    return below[0] if kind in (ALL, ANY) and len(below) == 1 else [kind, argument, below]


def round_trip(rule, text):
    """Reads the text of a rule again, where it can be read. The rule that it reads as must be the one that was printed, as far as a
    text tells; and it must print as the same text, where each all and any has two children or more, so that each bracket is needed."""
    if len(text) > LENGTH or not is_plain(rule) or most_open(text) > DEPTH:
        return
    again = rule_in(text)
    if flat(again) != flat(rule) or printed(again) != printed(flat(rule)):
        sys.exit('%.200r prints as %.200r, which reads as %.200r' % (rule, text, again))
    trips['read'] += 1
    if all(len(children) > 1 for kind, _, children in in_order(rule) if kind in (ALL, ANY)):
        if printed(again) != text:
            sys.exit('%.200r prints as %.200r, and read again as %.200r' % (rule, text, printed(again)))
        trips['same'] += 1


def print_case(data, room):
    """Adds a case of print where it is not there yet, and hands back its answer."""
    answer = printing(data, room)
    if ('print', data, room) not in seen:
        seen.add(('print', data, room))
        shown = answer[1].hex() or '-' if answer[0] == 'ok' else '%d %d' % answer[1:]
        out.append('print %s %d %s %s' % (data.hex() or '-', room, answer[0], shown))
        sort = 'ok' if answer[0] == 'ok' else 'no %d' % answer[1]
        printings[sort] = printings.get(sort, 0) + 1
    return answer


def prints(rule, stated=None, tight=False, rooms=()):
    """Cases of a rule, or of a text's rule: with a buffer of the length of what it prints as, with one byte less, and, unless `tight`,
    with one byte more and with none at all; and the buffers given. Where a text is stated, it must print as that."""
    if isinstance(rule, bytes):
        rule = rule_in(rule)
    data, text = image(rule), printed(rule)
    size = len(text)
    if stated not in (None, text):
        sys.exit('%.200r prints as %.200r, and stated is %.200r' % (rule, text, stated))
    for room in [size, size - 1] + ([] if tight else [size + 1, 0]) + list(rooms):
        if room >= 0 and print_case(data, room) != (('ok', text) if room >= size else ('no', SHORT, 0)):
            sys.exit('%.200r: printing its image into %d bytes differs from printing it' % (rule, room))
    round_trip(rule, text)
    return size


def leaf(name):
    return [NAMED, name, []]


def older(span):
    return [OLDER, span, []]


def printed_sheet():
    note('The proved sheet, and the rules that document 01 and the demands name')
    for text, stated in ((b'a && (b && c)', b'a && b && c'), (b'(a && b) && c', b'a && b && c'), (b'a && b || c', b'a && b || c'),
                         (b'older_than("1h 30m")', b'older_than(1h30m)'), (b"'READABLE'", b'READABLE'), (b'READABLE', b'readable(1)'),
                         (b'nas || vault', b'nas || vault'), (b'at_least(0, nas)', b'at_least(0, nas)'),
                         (b'at_least(2,nas,vault)', b'at_least(2, nas, vault)'), (b'nas and Readable', b'nas && readable(1)'),
                         (b'OLDER_than(30d)&&readable(1)', b'older_than(30d) && readable(1)'),
                         (b'at_least(2, older_than(30d), vault)', b'at_least(2, older_than(30d), vault)'),
                         (b'vault && cellar', b'vault && cellar'), (b'(a || b) and ANY(c, d)', b'(a || b) && (c || d)'),
                         (b'a || (b && (c || d))', b'a || b && (c || d)'),
                         (b'at_least(2, nas, any(a, b), all(c, d))', b'at_least(2, nas, a || b, c && d)'),
                         (b"READABLE && older_than('1h 30m')", b'readable(1) && older_than(1h30m)'),
                         (b"'READABLE' && READABLE", b'READABLE && readable(1)'),
                         (b"older_than(2w) || older_than('30 d')", b'older_than(14d) || older_than(30d)')):
        prints(text, stated, rooms=(NEED, MEMORY))


def printed_counts():
    note('Counts')
    for count_wanted, digits in ((0, b'0'), (1, b'1'), (9, b'9'), (10, b'10'), (99, b'99'), (100, b'100'), (255, b'255'),
                                 (256, b'256'), (4294967295, b'4294967295'), (4294967296, b'4294967296'),
                                 (9999999999999999999, b'9999999999999999999'), (10 ** 19, b'1' + b'0' * 19),
                                 (MOST, b'18446744073709551615')):
        prints([READABLE, count_wanted, []], b'readable(' + digits + b')')
        prints([AT_LEAST, count_wanted, [leaf(b'a')]], b'at_least(' + digits + b', a)')
        prints([AT_LEAST, count_wanted, [leaf(b'a'), leaf(b'b')]], b'at_least(' + digits + b', a, b)', tight=True)
        prints([AT_LEAST, count_wanted, [leaf(b'a'), [READABLE, count_wanted, []], leaf(b'c')]],
               b'at_least(' + digits + b', a, readable(' + digits + b'), c)', tight=True)
    note('Counts of each length')
    for size in range(1, 21):
        prints([READABLE, 10 ** (size - 1), []], b'readable(1' + b'0' * (size - 1) + b')', tight=True)
        if size < 20:
            prints([READABLE, 10 ** size - 1, []], b'readable(' + b'9' * size + b')', tight=True)
            prints([AT_LEAST, 1234567890123456789 // 10 ** (19 - size), [leaf(b'x')]],
                   b'at_least(' + b'1234567890123456789'[:size] + b', x)', tight=True)


def printed_durations():
    note('Durations')
    hour, minute = 3600000, 60000
    for span, stated in ((0, b'0s'), (1, b'1ms'), (9, b'9ms'), (10, b'10ms'), (99, b'99ms'), (100, b'100ms'), (998, b'998ms'),
                         (999, b'999ms'), (1000, b'1s'), (1001, b'1s1ms'), (1999, b'1s999ms'), (2000, b'2s'), (9999, b'9s999ms'),
                         (10000, b'10s'), (59000, b'59s'), (59999, b'59s999ms'), (minute, b'1m'), (minute + 1, b'1m1ms'),
                         (61000, b'1m1s'), (119999, b'1m59s999ms'), (10 * minute, b'10m'), (59 * minute, b'59m'),
                         (hour - 1, b'59m59s999ms'), (hour, b'1h'), (hour + 1, b'1h1ms'), (hour + 1000, b'1h1s'),
                         (hour + minute, b'1h1m'), (2 * hour - 1, b'1h59m59s999ms'), (10 * hour, b'10h'), (23 * hour, b'23h'),
                         (DAY - 1, b'23h59m59s999ms'), (DAY, b'1d'), (DAY + 1, b'1d1ms'), (DAY + 1000, b'1d1s'),
                         (DAY + minute, b'1d1m'), (DAY + hour, b'1d1h'), (2 * DAY - 1, b'1d23h59m59s999ms'), (2 * DAY, b'2d'),
                         (DAY + 2 * hour + 3 * minute + 4005, b'1d2h3m4s5ms'), (30 * DAY, b'30d'),
                         (999999999 * DAY, b'999999999d'), (999999999 * hour, b'41666666d15h'),
                         (999999999 * minute, b'694444d10h39m'), (999999999 * 1000, b'11574d1h46m39s'),
                         (999999999, b'11d13h46m39s999ms'), (10 ** 9 * DAY - 1, b'999999999d23h59m59s999ms'),
                         (10 ** 9 * DAY, b'1000000000d'), (2 ** 32 - 1, b'49d17h2m47s295ms'), (2 ** 32, b'49d17h2m47s296ms'),
                         (2 ** 63, b'106751991167d7h12m55s808ms'), (MOST - 51951615, b'213503982334d'),
                         (MOST - 615, b'213503982334d14h25m51s'), (MOST - 1, b'213503982334d14h25m51s614ms'),
                         (MOST, b'213503982334d14h25m51s615ms')):
        prints(older(span), b'older_than(' + stated + b')')
    note('Durations of a text: as many of a unit as the next one has, one less and one more')
    for word, stated in ((b'23h', b'23h'), (b'24h', b'1d'), (b'25h', b'1d1h'), (b'47h', b'1d23h'), (b'48h', b'2d'),
                         (b'59m', b'59m'), (b'60m', b'1h'), (b'61m', b'1h1m'), (b'1439m', b'23h59m'), (b'1440m', b'1d'),
                         (b'59s', b'59s'), (b'60s', b'1m'), (b'61s', b'1m1s'), (b'3600s', b'1h'), (b'86399s', b'23h59m59s'),
                         (b'999ms', b'999ms'), (b'1000ms', b'1s'), (b'1001ms', b'1s1ms'), (b'86400000ms', b'1d'),
                         (b'23h60m', b'1d'), (b'23h59m60s', b'1d'), (b'23h59m59s1000ms', b'1d'), (b'23h59m59s999ms', b'23h59m59s999ms'),
                         (b'000000001d', b'1d'), (b"' 1d\t2ms '", b'1d2ms'), (b'0d0h0m0s0ms', b'0s'), (b'0ms', b'0s'), (b'0d', b'0s'),
                         (b'1d0h1m', b'1d1m'), (b'999999999d', b'999999999d'),
                         (b'1w', b'7d'), (b'2w', b'14d'), (b"'1w 1d'", b'8d'), (b"'30 d'", b'30d'), (b"'1 w 23 h'", b'7d23h'),
                         (b'0w', b'0s'), (b'142857142w', b'999999994d'), (b'999999999w', b'6999999993d'),
                         (b'999999999w999999999d999999999h999999999m999999999s999999999ms', b'8042372688d17h12m18s999ms'),
                         (b'999999999d999999999h999999999m999999999s999999999ms', b'1042372695d17h12m18s999ms')):
        prints(b'older_than(%s)' % word, b'older_than(%s)' % stated, tight=True)
    note('Durations with each choice of parts')
    for parts in ((7, 6, 5, 4, 3), (999999999, 23, 59, 59, 999)):
        for mask in range(32):
            chosen = [(many, unit, worth) for index, (many, (unit, worth)) in enumerate(zip(parts, PRINTED)) if mask >> index & 1]
            stated = b''.join(b'%d%s' % (many, unit) for many, unit, _ in chosen) or b'0s'
            prints(older(sum(many * worth for many, _, worth in chosen)), b'older_than(%s)' % stated, tight=True)
    note('Days of each length')
    for size in range(12):
        prints(older(10 ** size * DAY), b'older_than(1' + b'0' * size + b'd)', tight=True)
        prints(older(10 ** size * DAY - 1), tight=True)


def printed_names():
    note('Names: bare, whatever their bytes')
    for name in (b'', b'a', b'nas', b' ', b'  ', b'x y', b' x', b'x ', b'\t\n', b"'", b'"', b"''", b'"x"', b"it's", b'\'"', b'(', b')',
                 b'()', b'a && b', b'&&', b'||', b',', b'and', b'OR', b'readable', b'readable(1)', b'any', b'at_least', b'0s', b'0',
                 b'-', b'\x00', b'\x7f', b'\x00\x7f', bytes(range(128)), bytes(range(127, -1, -1))):
        prints(leaf(name), name)
        prints([ALL, 0, [leaf(name), leaf(b'z')]], name + b' && z', tight=True)
        prints([ANY, 0, [leaf(b'z'), leaf(name)]], b'z || ' + name, tight=True)
        prints([AT_LEAST, 1, [leaf(name)]], b'at_least(1, ' + name + b')', tight=True)
    note('Several names, empty ones between them')
    for names in ((b'', b''), (b'', b'', b''), (b'', b'a'), (b'a', b''), (b'a', b'', b'b'), (b'', b'ab', b'', b'', b'c', b''),
                  (b'nas', b'nas'), (b'a', b'bc', b'def', b'ghij'), (b'ghij', b'def', b'bc', b'a'), (b'ab', b'c', b'', b'ab')):
        for kind, sign in ((ALL, b' && '), (ANY, b' || ')):
            prints([kind, 0, [leaf(name) for name in names]], sign.join(names))
        prints([AT_LEAST, 7, [leaf(name) for name in names]], b'at_least(7, ' + b', '.join(names) + b')')
        prints([ALL, 0, [[ANY, 0, [leaf(name)]] for name in names]], b' && '.join(b'(' + name + b')' for name in names))
    note('Names of 255 bytes and more')
    wide = filled(b'', b'long-name.', b'', 2048)
    for size in (254, 255, 256, 257, 511, 512, 600, 2047, 2048):
        prints(leaf(wide[:size]), wide[:size], tight=size > 300)
    prints([ALL, 0, [leaf(wide[:300]), [ANY, 0, [leaf(wide[1:257]), leaf(b''), leaf(wide[2:257])]]]],
           wide[:300] + b' && (' + wide[1:257] + b' ||  || ' + wide[2:257] + b')')


def printed_shapes():
    note('Combinators: of one child, in one another, with their brackets')
    a, b, c, d = [leaf(name) for name in (b'a', b'b', b'c', b'd')]

    def all_of(*children):
        return [ALL, 0, list(children)]

    def any_of(*children):
        return [ANY, 0, list(children)]

    def least(k, *children):
        return [AT_LEAST, k, list(children)]

    empty = leaf(b'')
    for rule, stated in (
            (all_of(a), b'a'), (any_of(a), b'a'), (least(1, a), b'at_least(1, a)'), (all_of(empty), b''), (any_of(empty), b''),
            (least(1, empty), b'at_least(1, )'), (least(1, empty, empty), b'at_least(1, , )'), (all_of(any_of(empty)), b'()'),
            (all_of(any_of(empty), empty), b'() && '), (all_of(any_of(empty, empty)), b'( || )'),
            (all_of(older(1)), b'older_than(1ms)'), (any_of(older(0), [READABLE, 0, []]), b'older_than(0s) || readable(0)'),
            (least(2, older(DAY), [READABLE, 3, []], a), b'at_least(2, older_than(1d), readable(3), a)'),
            (all_of(a, b), b'a && b'), (any_of(a, b), b'a || b'), (all_of(a, b, c), b'a && b && c'), (any_of(a, b, c), b'a || b || c'),
            (all_of(a, all_of(b, c)), b'a && b && c'), (all_of(all_of(a, b), c), b'a && b && c'),
            (any_of(a, any_of(b, c)), b'a || b || c'), (any_of(any_of(a, b), c), b'a || b || c'),
            (all_of(any_of(a, b), c), b'(a || b) && c'), (all_of(c, any_of(a, b)), b'c && (a || b)'),
            (all_of(any_of(a, b), any_of(c, d)), b'(a || b) && (c || d)'), (all_of(a, any_of(b, c), d), b'a && (b || c) && d'),
            (all_of(any_of(a, b)), b'(a || b)'), (all_of(any_of(a)), b'(a)'), (all_of(any_of(a), b), b'(a) && b'),
            (all_of(a, any_of(b)), b'a && (b)'), (all_of(any_of(a), any_of(b)), b'(a) && (b)'),
            (all_of(all_of(any_of(a))), b'(a)'), (any_of(all_of(any_of(a))), b'(a)'), (all_of(any_of(all_of(any_of(a)))), b'((a))'),
            (all_of(any_of(any_of(a, b)), c), b'(a || b) && c'), (all_of(any_of(all_of(a, b)), c), b'(a && b) && c'),
            (any_of(all_of(a, b), c), b'a && b || c'), (any_of(a, all_of(b, c)), b'a || b && c'),
            (any_of(all_of(a, b), all_of(c, d)), b'a && b || c && d'), (any_of(all_of(a), b), b'a || b'),
            (any_of(all_of(any_of(a, b), c), d), b'(a || b) && c || d'), (any_of(d, all_of(c, any_of(a, b))), b'd || c && (a || b)'),
            (any_of(all_of(any_of(a, b)), c), b'(a || b) || c'), (all_of(all_of(any_of(a, b)), c), b'(a || b) && c'),
            (all_of(any_of(all_of(any_of(a, b), c), d), a), b'((a || b) && c || d) && a'),
            (least(1, any_of(a, b)), b'at_least(1, a || b)'), (least(2, any_of(a, b), c), b'at_least(2, a || b, c)'),
            (least(2, c, any_of(a)), b'at_least(2, c, a)'), (least(1, all_of(a, b), any_of(c, d)), b'at_least(1, a && b, c || d)'),
            (least(1, all_of(any_of(a, b))), b'at_least(1, (a || b))'), (least(1, least(2, a), b), b'at_least(1, at_least(2, a), b)'),
            (all_of(least(1, a), b), b'at_least(1, a) && b'), (any_of(a, least(1, b)), b'a || at_least(1, b)'),
            (all_of(least(1, any_of(a, b)), c), b'at_least(1, a || b) && c'),
            (all_of(any_of(least(1, a)), c), b'(at_least(1, a)) && c'), (least(3, a, b, c), b'at_least(3, a, b, c)')):
        prints(rule, stated)
    note('Each three combinators in one another')
    for outer in (AT_LEAST, ALL, ANY):
        for middle in (AT_LEAST, ALL, ANY):
            for inner in (AT_LEAST, ALL, ANY):
                k = [level if kind == AT_LEAST else 0 for level, kind in ((1, outer), (20, middle), (300, inner))]
                prints([outer, k[0], [[middle, k[1], [[inner, k[2], [a, b]], c]], d]], tight=True)
                prints([outer, k[0], [d, [middle, k[1], [c, [inner, k[2], [a, b]]]]]], tight=True)
                prints([outer, k[0], [d, [middle, k[1], [[inner, k[2], [a]]]], c]], tight=True)
                prints([outer, k[0], [[middle, k[1], [[inner, k[2], [a]], [inner, k[2], [b, c]], d]]]], tight=True)
    note('Nested 64 deep, and deeper than a text can be')
    for deep in (2, 64, 65):
        for kinds in ((ALL,), (ANY,), (AT_LEAST,), (ALL, ANY), (ALL, ANY, AT_LEAST), (ANY, AT_LEAST)):
            rule = a
            for level in range(deep):
                kind = kinds[level % len(kinds)]
                rule = [kind, level if kind == AT_LEAST else 0, [rule] if level % 5 else [rule, b]]
            prints(rule, tight=deep > 2)
    for text, stated in ((b'(' * 64 + b'a' + b')' * 64, b'a'), (b'all(any(' * 32 + b'a' + b'))' * 32, b'(' * 32 + b'a' + b')' * 32),
                         (b'at_least(1,' * 64 + b'a' + b')' * 64, b'at_least(1, ' * 64 + b'a' + b')' * 64),
                         (b'a && (b || ' * 64 + b'c' + b')' * 64, b'a && (b || ' * 64 + b'c' + b')' * 64)):
        prints(text, stated)


def printed_bounds():
    note('Buffers: every length about a text, and the whole memory')
    for text in (b'nas', b'older_than(30d) && readable(1)', b'at_least(2, (a || b) && c, vault)'):
        prints(text, rooms=list(range(40)) + [255, 256, NEED - 1, NEED, 65536, LONGEST, MEMORY - 1, MEMORY])
    note('Images with a bit of each byte turned')
    data = of(b'at_least(2, all(nas, older_than(1d)), any(vault, readable))')
    for mask in (1, 4, 128):
        for at in range(len(data)):
            turned = data[:at] + bytes([data[at] ^ mask]) + data[at + 1:]
            if printing(turned, NEED)[0] == 'ok':
                prints(rule_of(turned), tight=True)
            else:
                print_case(turned, NEED)
                print_case(turned, 0)


def printed_damages():
    note('Images that break the layout, those of decide among them: 16 before 1')
    found = [line.split()[1] for line in out if line.startswith('decide ') and line.endswith(' no 16 0')]
    for data in [bytes.fromhex(word if word != '-' else '') for word in found] + list(damaged()):
        # The largest are in one case only, since they make long lines.
        for room in (0, NEED) if len(data) < 10000 else (0,):
            if print_case(data, room) != ('no', BAD_IMAGE, 0):
                sys.exit('%.60r is an image' % data)


def printed_large():
    note('Images of 2,048 nodes, nested and flat, and the longest text')

    def nested(rule, deep, *kinds):
        for level in range(deep):
            kind = kinds[level % len(kinds)]
            rule = [kind, 10 + level % 90 if kind == AT_LEAST else 0, [rule]]
        return rule

    prints(nested([READABLE, 1, []], 2047, ALL), b'readable(1)', tight=True)
    prints(nested(leaf(b'a'), 2047, ANY, ALL), b'(' * 1023 + b'a' + b')' * 1023, tight=True)
    if prints(nested(leaf(b''), 2047, AT_LEAST), tight=True) != 14 * 2047:
        sys.exit('a text of nested at_least has another length than it should')
    name = filled(b'', b'nas, vault; ', b'', 2048)
    prints([ANY, 0, [leaf(name[index:index + 1]) for index in range(2047)]],
           b' || '.join(name[index:index + 1] for index in range(2047)), tight=True)
    longest = [ALL, 0, [older(MOST)] * 2046 + [leaf(name)]]
    if prints(longest, b'older_than(213503982334d14h25m51s615ms) && ' * 2046 + name, tight=True) != LONGEST:
        sys.exit('the longest text has another length than it should')
    note('A text one byte longer than a buffer for reading has to be')
    if prints([ALL, 0, [older(MOST)] * 619 + [leaf(name[:12])]], rooms=(NEED,)) != NEED + 1:
        sys.exit('a text is not as long as it should be')


PLAIN = [b'a', b'b', b'nas', b'vault', b'b-1', b'2', b'30d', b'any', b'at_least', b'Older_Than', b'a.and.b']


def drawn_printings():
    note('Drawn: rules')
    draw = Draw(20260804)
    for way in range(120):
        prints(drawn_rule(draw, 1 + draw.below(4)), tight=way % 4 > 0)
    note('Drawn: rules whose names are words')
    for way in range(80):
        prints(drawn_verdict(draw, 1 + draw.below(4), PLAIN), tight=way % 4 > 0)
    note('Drawn: rules of texts')
    for way in range(60):
        prints(spaced(draw, drawn(draw, 3)), tight=way % 4 > 0)
    note('Drawn: images with a byte or two put in place of others, left out or put in')
    for _ in range(60):
        data = image(drawn_rule(draw, 2))
        for _ in range(1 + draw.below(2)):
            at = draw.below(len(data))
            put_in = bytes([draw.of([0, 1, 2, 3, 4, 5, 6, 127, 128, 255])]) if draw.below(4) else b''
            data = data[:at] + put_in + data[at + draw.below(2):]
        print_case(data, NEED)
        print_case(data, draw.below(40))


def all_printings():
    """Each answer must have its cases, and enough texts must have been read again."""
    if sorted(printings) != ['no 1', 'no 16', 'ok'] or min(printings.values()) < 500:
        sys.exit('missed or too few: %r' % printings)
    if trips['read'] < 400 or trips['same'] < 300:
        sys.exit('too few texts were read again: %r' % trips)


# The pages of `rulejudge`

TWO = (b'nas:read-write', b'vault:write-only')
AGE = b'age: 18446744073709551615 ms, the largest'


def report(text, stores, *lines):
    """A page that is stated here: the text of a rule, stores as arguments, and the lines that a person is shown."""
    given, page = b''.join(store + b'\0' for store in stores), b''.join(line + b'\n' for line in lines)
    out.append('report %s %s ok %s' % (text.hex() or '-', given.hex() or '-', page.hex()))
    seen.add(('report', text, given))


def pages():
    report(b'older_than(30d) && readable(1)', TWO, b'pass',
           b'at any age, the rule says evict only if a readable store has confirmed')
    report(b'at_least(2, older_than(30d), vault)', TWO, b'no 22 0',
           b'archive only: the rule says evict with only write-only stores confirmed', b'confirmed: vault', AGE)
    report(b'caf\xc3\xa9 || nas', TWO, b'no 3 3', b'foreign byte: this byte is not ASCII', b'caf?? || nas', b'   ^')
    report(b'nas & vault', TWO, b'no 4 4', b'half sign: this sign stands alone: write `&&` or `||`', b'nas & vault', b'    ^')
    report(b"nas && 'vault", TWO, b'no 5 7', b'open quote: this quote is not closed', b"nas && 'vault", b'       ^')
    report(b'nas # vault', TWO, b'no 6 4', b'stray character: nothing in a rule begins with this character', b'nas # vault', b'    ^')
    report(b'readable(1 ', TWO, b'no 8 11', b'open bracket: a `)` is expected here', b'readable(1 ', b'          ^')
    report(b'older_than(30d)\n  && readable(1\n', TWO[:1], b'no 8 32', b'open bracket: a `)` is expected here',
           b'  && readable(1', b'               ^')
    report(b'nas && attic', TWO, b'no 20 1', b'unknown store: the rule names a store that is not in the table', b'attic')
    report(b'nas || older_than(1d)', TWO, b'no 21 0', b'unconfirmed: the rule says evict with nothing confirmed',
           b'confirmed: nothing', AGE)
    report(b'nas', (b'nas:read-write', b'nas:read-only'), b'no 18 1', b'twin name: two stores have this name', b'argument 2')
    report(b'nas', (), b'pass', b'the rule reads; no stores are given to check it against')
    report(b'nas', (b'nas',), b'argument 1: no colon; a store is given as name:mode')
    report(b'nas', (b'a:b:write-only', b'nas:rw'), b'argument 2: no such mode; it is read-write, read-only or write-only')
    report(b'nas', [b'nas%d:read-write' % index for index in range(65)], b'more than 64 stores are given')


def main():
    note('Answers of the documents, printed by tools/cases.py')
    note('read TEXT BUFFER: ok IMAGE, or no NUMBER PLACE; the text and the image in hex')
    for part in (sheet, stated_rows, orders, depths, word_cases, quoted_cases, count_cases, duration_cases, week_cases, list_cases, chain_cases,
                 single_bytes, pairs, lengths, rooms, random_cases):
        part()
    # The deepest image has 2,048 nodes, each above the next.
    sys.setrecursionlimit(10000)
    note('decide IMAGE STORES AGE LIST: evict, keep, or no NUMBER PLACE; image, table and list in hex')
    for part in (decided_sheet, named_cases, older_cases, readable_cases, combined_cases, nested_cases,
                 image_cases, flipped_cases, table_cases, refusal_orders, large_images, drawn_decisions):
        part()
    note('check IMAGE STORES, and judge TEXT STORES: pass, or no NUMBER PLACE; all in hex')
    for part in (verdict_sheet, archive_cases, mode_cases, stage_cases, storeless_cases, store_name_cases, full_tables,
                 turned_cases, large_rules, drawn_verdicts, all_verdicts):
        part()
    note('print IMAGE BUFFER: ok TEXT, or no NUMBER PLACE; the image and the text in hex')
    for part in (printed_sheet, printed_counts, printed_durations, printed_names, printed_shapes, printed_bounds,
                 printed_damages, printed_large, drawn_printings, all_printings):
        part()
    note('report TEXT ARGUMENTS: ok PAGE; each argument with a 0 after it, all in hex')
    pages()
    sys.stdout.write('\n'.join(out) + '\n')
    sys.stderr.write('%d cases\n' % len(seen))


if __name__ == '__main__':
    main()
