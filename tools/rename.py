#!/usr/bin/env python3
"""Gives definitions, types, constants, functions, modules and crates new names, as a list says.

usage: python3 tools/rename.py LIST [ROOT]

ROOT is the repository to change, else the folder that this is run in. tools/rename.txt is such a list: it has the names that
were changed, so that a draft with the old ones can follow. A line of a list is one of these; what follows `#` is a comment.

    def CRATE MODULE old new    a definition or a law; MODULE is its file without .antt, as specs/Token
    type CRATE Old New          a type that the code declares
    const CRATE OLD NEW         a constant
    fn CRATE old new            a function, with the folder of its proof
    file CRATE OLD NEW          a module, as specs/Inner/Heads specs/Inner/Starts
    crate old new               a crate

The lines are done in their order, so a later line speaks of what the earlier ones have left. A name is changed where it is
declared and where it is imported from there: another thing of the same name keeps it. In a proof it is also changed where the
prover names a fact after a function that is called. A clause without arguments that is indented is taken for the label of a
field and keeps its name, so look for the old one afterwards. Edits follow, and so do docs/*.md and the readme where a name is in
backticks; there another thing of the same name is changed too, so look those pages over. Prints what each line has changed.

It reads and writes the spelling of the kits before docs/PORT.md, as tools/rename.txt does: a draft with old names follows by this first,
then by the kit's port.py and tools/snake_case.py.
"""
import pathlib
import re
import sys

ROOT = pathlib.Path(sys.argv[2] if len(sys.argv) > 2 else '.')
CRATES = ROOT / 'crates'
# What may not stand before a name of antt, and what may not follow it.
BEFORE = r"(?<![\w'·.\-])"
AFTER = r"(?![\w'\-])"
# A function of a source, with its indentation.
FUNCTION = re.compile(r'^( *)(?:pub(?:\(crate\))? )?(?:extern "C" )?fn (\w+)', re.M)


def antt_files():
    """The specs and the proofs."""
    return sorted(CRATES.glob('**/*.antt'))


def sources():
    """The code."""
    return sorted(CRATES.glob('*/src/*.rt'))


def edits():
    """The must-fail edits."""
    return sorted(CRATES.glob('*/must-fail/*.edit'))


def docs():
    """The pages that name what is declared."""
    return [*sorted(ROOT.glob('docs/*.md')), ROOT / 'README.md']


def crate_of(path):
    """The crate that a file belongs to."""
    return path.relative_to(CRATES).parts[0]


def read(path):
    """The text of a file."""
    return path.read_text(encoding='utf8')


def write(path, old, new):
    """Writes a file's new text if it is another than the old one; says whether it is."""
    if new != old:
        path.write_text(new, encoding='utf8')
    return new != old


def rewrite(paths, change):
    """Changes the text of each file; says how many have changed."""
    count = 0
    for path in paths:
        text = read(path)
        count += write(path, text, change(text))
    return count


def in_replacements(edit, change, applies=lambda line: True):
    """An edit with the lines of its replacements changed, of those that this applies to."""
    return '\n'.join(change(line) if line.startswith(('old:', 'new:')) and applies(line) else line for line in edit.split('\n'))


def outside_imports(text, change):
    """A text with each line changed but those that import."""
    return '\n'.join(line if re.match(r'(ghost )?use ', line) else change(line) for line in text.split('\n'))


def is_label(text, start, end):
    """Whether the name at this place is the label of a field, in the value of a record."""
    before = text[text.rfind('\n', 0, start) + 1:start]
    opens = 'record {' in before or before.rstrip()[-1:] in ('', ';', '{')
    return text.startswith(' = ', end) and before[-1:] in (' ', '{') and opens


def with_name(text, old, new):
    """A text of antt with a name changed, but for labels of fields."""
    return re.sub(BEFORE + re.escape(old) + AFTER,
                  lambda found: found[0] if is_label(text, found.start(), found.end()) else new, text)


def module_name(crate, module, user):
    """How the files of a crate import a module of another or of their own."""
    folder, path = module.split('/', 1)
    path = path.replace('/', '.')
    return f'Rattle·{crate}·{folder}.{folder}.{path}' if user == crate else f'Rattle·{crate}.{folder}.{path}'


def imported_name(text, imported, old, new, is_code):
    """A text with a definition's name changed where it is imported by this start of a line."""
    found = re.search(imported + r'\.\{([^}]*)\}', text, re.M)
    if found:
        names = [name.strip() for name in found[1].split(',')]
        if old in names:
            listed = ', '.join(new if name == old else name for name in names)
            text = text[:found.start(1)] + listed + text[found.end(1):]
            if is_code:
                return outside_imports(text, lambda line: re.sub(
                    r'⌜.*?⌝', lambda clause: with_name(clause[0], old, new), line))
            return outside_imports(text, lambda line: with_name(line, old, new))
        for name in names:
            if name.startswith(old + ' as '):
                text = text[:found.start(1)] + found[1].replace(name, new + name[len(old):]) + text[found.end(1):]
    return text


def rename_def(crate, module, old, new):
    """Changes the name of a definition or of a law."""
    own = CRATES / crate / f'{module}.antt'
    if not own.exists():
        sys.exit(f'no module {own}')
    count = 0
    for path in [*antt_files(), *sources()]:
        before = read(path)
        if path == own:
            text = with_name(before, old, new)
        else:
            imported = r'^(?:ghost )?use ' + re.escape(module_name(crate, module, crate_of(path)))
            text = imported_name(before, imported, old, new, path.suffix == '.rt')
            for found in re.finditer(imported + r' as (\w+)', text, re.M):
                text = re.sub(BEFORE + found[1] + r'\.' + re.escape(old) + AFTER, f'{found[1]}.{new}', text)
        count += write(path, before, text)
    for path in edits():
        edit = read(path)
        of_antt = 'antt' in re.search(r'^file:(.*)$', edit, re.M)[1]
        text = in_replacements(edit, lambda line: with_name(line, old, new),
                               lambda line: of_antt or '⌜' in line or '≡' in line)
        write(path, edit, text)
    rewrite(docs(), lambda page: page.replace(f'`{old}`', f'`{new}`'))
    print(f'def {old} -> {new}: {count} files')


def type_in_source(text, is_own, crate, old, new):
    """A source with the name of a type changed; is_own says whether it is of the type's crate."""
    used = re.search(rf'^use (crate|{crate})::(\w+::)?{old};', text, re.M)
    text = re.sub(rf'\b{crate}::((?:\w+::)?){old}\b', rf'{crate}::\g<1>{new}', text)
    if is_own or used:
        text = re.sub(rf'(?<![\w:.]){old}(?!\w)', new, text)
        text = re.sub(rf'\bcrate::((?:\w+::)?){old}\b', rf'crate::\g<1>{new}', text)
    return text


def type_in_antt(text, is_own, crate, old, new):
    """A spec or a proof with the name of a type changed; is_own says whether it is of the type's crate."""
    declared = re.escape(f'Rattle·{crate}·specs.specs.declared.' if is_own else f'Rattle·{crate}.specs.declared.')
    if not re.search(rf'{declared}(?:\w+\.)?{old}\b', text):
        return text
    text = re.sub(rf'({declared}(?:\w+\.)?){old}(?=[.\s])', rf'\g<1>{new}', text)
    found = re.search(rf'^use {declared}(?:\w+\.)?{new}\.\{{([^}}]*)\}}', text, re.M)
    if found:
        names = [name.strip() for name in found[1].split(',')]
        listed = ', '.join(new + name[len(old):] if name == old or name.startswith(old + ' as ') else name for name in names)
        text = text[:found.start(1)] + listed + text[found.end(1):]
        if old in names:
            text = outside_imports(text, lambda line: with_name(line, old, new))
    return text


def rename_type(crate, old, new):
    """Changes the name of a type that the code declares."""
    count = 0
    for paths, change in [(sources(), type_in_source), (antt_files(), type_in_antt)]:
        for path in paths:
            text = read(path)
            count += write(path, text, change(text, crate_of(path) == crate, crate, old, new))
    users = {crate} | {crate_of(path) for path in sources() if re.search(rf'\b{crate}::(\w+::)?{new}\b', read(path))}
    rewrite([path for path in edits() if crate_of(path) in users], lambda edit: in_replacements(
        edit, lambda line: re.sub(rf'(?<![\w.]){old}(?!\w)', new, line)))
    rewrite(docs(), lambda page: page.replace(f'`{old}`', f'`{new}`'))
    print(f'type {old} -> {new}: {count} files')


def rename_const(crate, old, new):
    """Changes the name of a constant."""
    for path in [*sources(), *edits()]:
        before = read(path)
        text = re.sub(rf'\b{crate}::{old}\b', f'{crate}::{new}', before)
        if crate_of(path) == crate or re.search(rf'^use {crate}::{old};', before, re.M):
            text = re.sub(rf'\b{old}\b', new, text)
        write(path, before, text)
    print(f'const {old} -> {new}')


def dashed(name):
    """How antt writes the name of a function."""
    return name.replace('_', '-')


def calls(text):
    """The functions that a function's text calls."""
    code = re.sub(r'//.*', '', re.sub(r'⌜.*?⌝', '', text, flags=re.S))
    return set(re.findall(r'(?<![\w.])(?:\w+::)*(\w+)\(', code))


def functions(source):
    """The functions of a source, each with its text."""
    for found in FUNCTION.finditer(source):
        yield found[2], source[found.start():source.find(f'\n{found[1]}}}\n', found.start())]


def declares(source, name):
    """Whether a source declares a function."""
    return re.search(rf'\bfn {name}\b', source)


def uses(source, crate, name):
    """Whether a source imports a function of a crate, or of another module of its own."""
    return re.search(rf'^use (?:{crate}|crate)::(?:\w+::)?{name};', source, re.M)


def callers(crate, name):
    """The functions that call a function: each with its crate and with all that it calls."""
    found = []
    for path in sources():
        source = read(path)
        visible = (crate_of(path) == crate and declares(source, name)) or uses(source, crate, name)
        for caller, text in functions(source):
            called = calls(text)
            named = visible or re.search(rf'\b{crate}::(?:\w+::)?{name}\(', text)
            if name in called and named and caller != name:
                found.append((crate_of(path), caller, called))
    return found


def function_in_source(text, is_own, crate, old, new):
    """A source with the name of a function changed; is_own says whether it is of the function's crate."""
    visible = (is_own and declares(text, old)) or uses(text, crate, old)
    text = re.sub(rf'\b{crate}::((?:\w+::)?){old}\b', rf'{crate}::\g<1>{new}', text)
    if visible:
        text = re.sub(rf'(?<![\w.:]){old}(?=\()', new, text)
        text = re.sub(rf'\bfn {old}\b', f'fn {new}', text)
        text = re.sub(rf'^use crate::((?:\w+::)?){old};', rf'use crate::\g<1>{new};', text, flags=re.M)
    return text.replace(f'`{old}`', f'`{new}`') if is_own else text


def function_in_antt(text, is_own, crate, old, new):
    """A spec or a proof with the name of a function's module changed, and with the function's name in comments."""
    proofs = rf'Rattle·{crate}·proofs\.proofs' if is_own else rf'Rattle·{crate}\.proofs'
    text = re.sub(rf'({proofs}\.(?:[a-z_]+\.)?){old}(?=[.\s])', rf'\g<1>{new}', text)
    return re.sub(rf'`{crate}::((?:\w+::)?){old}`', rf'`{crate}::\g<1>{new}`', text)


def fact_in_proof(text, called, old, new):
    """The proof of a caller with the facts renamed that the prover names after the function.

    Names that are imported stay, and so do those of another function that is called and has this one's name in its own.
    """
    old_fact, new_fact = dashed(old), dashed(new)
    longer = [dashed(other) for other in called if other != old and f'-{old_fact}-' in f'-{dashed(other)}-']
    imported = {name.strip().split(' as ')[-1] for names in re.findall(r'^use \S+\.\{(.*)\}$', text, re.M)
                for name in names.split(',')}

    def renamed(found):
        """A name of the proof, changed if it is such a fact."""
        if found[0] in imported or any(other in found[0] for other in longer):
            return found[0]
        return re.sub(rf'(^|-){re.escape(old_fact)}(\d*)(?=-|$)', rf'\g<1>{new_fact}\g<2>', found[0])

    text = outside_imports(text, lambda line: re.sub(r"[\w'·\-]+", renamed, line))
    return re.sub(rf'^use (\S+) as {re.escape(old_fact)}-reads$', rf'use \1 as {new_fact}-reads', text, flags=re.M)


def proofs_of(crate, function):
    """The proofs of a function: its own, and that of the cycle of calls that it is in."""
    paths = set(CRATES.glob(f'{crate}/proofs/**/{function}/Proof.antt'))
    return sorted(paths | {path for path in CRATES.glob(f'{crate}/proofs/**/Proof.antt') if f'+{function}' in str(path)})


def rename_fn(crate, old, new):
    """Changes the name of a function, and of the folder of its proof."""
    count = 0
    calling = callers(crate, old)
    for path in sources():
        text = read(path)
        count += write(path, text, function_in_source(text, crate_of(path) == crate, crate, old, new))
    users = {crate} | {user for user, _, _ in calling}
    rewrite([path for path in edits() if crate_of(path) in users], lambda edit: in_replacements(
        edit, lambda line: re.sub(rf'(?<![\w.]){old}(?=\()', new, line)))
    for folder in sorted(CRATES.glob(f'{crate}/proofs/**/{old}')):
        folder.rename(folder.with_name(new))
    for path in antt_files():
        text = read(path)
        count += write(path, text, function_in_antt(text, crate_of(path) == crate, crate, old, new))
    rewrite(CRATES.glob(f'{crate}/proofs/**/{new}/Proof.antt'), lambda text: re.sub(
        rf'{BEFORE}{re.escape(dashed(old))}-spec{AFTER}', f'{dashed(new)}-spec', text))
    for user, caller, called in calling:
        count += rewrite(proofs_of(user, caller), lambda text: fact_in_proof(text, called, old, new))
    rewrite(docs(), lambda page: function_in_antt(page, False, crate, old, new)
            .replace(f'`{crate}/proofs/{old}`', f'`{crate}/proofs/{new}`').replace(f'`{old}`', f'`{new}`'))
    print(f'fn {crate}::{old} -> {new}: {count} files, callers {[(user, caller) for user, caller, _ in calling]}')


def rename_file(crate, old, new):
    """Changes the name of a module of specs or proofs, which stays in its folder."""
    own = CRATES / crate / f'{old}.antt'
    own.rename(CRATES / crate / f'{new}.antt')
    folder, path = old.split('/', 1)
    parent = own.parent.with_suffix('.antt') if '/' in path else own.parent / 'Lib.antt'
    rewrite([parent], lambda text: re.sub(
        rf'^((?:pub )?mod ){own.stem}$', rf'\g<1>{new.split("/")[-1]}', text, flags=re.M))
    for user in (crate, None):
        name, new_name = module_name(crate, old, user), module_name(crate, new, user)
        rewrite([*antt_files(), *sources(), *edits()], lambda text: re.sub(re.escape(name) + r'(?!\w)', new_name, text))
    rewrite(docs(), lambda page: page.replace(f'{crate}/{old}.antt', f'{crate}/{new}.antt'))
    print(f'file {old} -> {new}')


def rename_crate(old, new):
    """Changes the name of a crate, and of its folder."""
    (CRATES / old).rename(CRATES / new)
    rewrite([*antt_files(), *sources(), *edits()], lambda text: re.sub(
        rf'(?<![\w:.]){old}::', f'{new}::', re.sub(rf'Rattle·{old}(?=[.·])', f'Rattle·{new}', text)))
    rewrite([ROOT / 'crates.txt'], lambda text: re.sub(rf'(?<!\w){old}(?!\w)', new, text))
    rewrite(docs(), lambda page: re.sub(rf'`{old}(?=[`:/])', f'`{new}', page).replace(f'crates/{old}/', f'crates/{new}/'))
    print(f'crate {old} -> {new}')


KINDS = {
    'def': rename_def, 'type': rename_type, 'const': rename_const,
    'fn': rename_fn, 'file': rename_file, 'crate': rename_crate,
}


def rename_all(lines):
    """Does what each line of a list says."""
    for line in lines:
        kind, *names = line.split('#')[0].split() or ['']
        if kind in KINDS:
            KINDS[kind](*names)
        elif kind:
            sys.exit(f'what is {kind}')


if __name__ == '__main__':
    rename_all(read(pathlib.Path(sys.argv[1])).split('\n'))
