#!/usr/bin/env python3
"""Counts the places in src/ that docs/DESIGN-PASS.md speaks of, by its points.

usage: tools/places.py [COMMIT] [--list]

Reads the files of a commit, or those of the checkout where none is given. With --list it prints each place. What the counts
can't tell is read: whether an enum has the shape of Option or Result, whether two functions are twins, whether a loop counts.
"""
import re
import subprocess
import sys

# a point, what is counted there, and the pattern, which is tried at each line
POINTS = [
    (1, "enums", r"^\s*(pub )?enum \w+"),
    (1, "constants that number a kind, a class, a mode, a refusal or a call", r"^\s*(pub )?const [A-Z_]+: (u8|u32) = \d{1,2};"),
    (2, "functions whose name ends in a number", r"^\s*(pub )?fn \w*_(8|16|32|64|512|2048)\b"),
    (2, "functions that make a refusal", r"^\s*(pub )?fn (refuse|half_sign)\b"),
    (2, "functions that answer a packed number", r"^\s*(pub )?(extern \"C\" )?fn (of_\w+)\(.*-> u64"),
    (3, "loops by `while` or `loop`", r"^\s*(while|loop)\b"),
    (3, "lines that step a counter by one", r"^\s*\w+ [+-]= 1;"),
    (4, "functions for equality, case, copies and conversions", r"^\s*(pub )?fn (eq\w*|same_\w+|to_\w+|folded|write_name\w*|shown_byte|digit_of|glyph|value_of)\b"),
    (4, "fields of text filled up with blanks", r"^\s*(word|meaning|name): \*b\""),
    (5, "facts in `requires`", r"requires.*\b(IsClassTable|TableInBounds|IndexedAll|Indexed|Prepared|ValidSubtree|NameInside|ReadRoom|Before)\b"),
    (5, "parameters of a group that travels together", r"^\s*(class|starts|slots|marks|tags|args|names|view): &(mut )?\["),
    (5, "functions with seven parameters or more", None),
    (6, "arrays with a length beside, and parallel arrays", r"^\s*(let mut \w+ = \[0u\d+; \w+\];|pub (name|word|meaning): \[u8; \d+\])"),
    (7, "switches by a flag or a number", r"^\s*if (call|ignore_case|quoted|named|kind|number) ?(==|\{)"),
]


def files(commit):
    if commit is None:
        names = subprocess.run(["git", "ls-files", "crates/*/src/*.rt"], capture_output=True, text=True, check=True)
        for name in names.stdout.split():
            try:
                yield name, open(name).read()
            except FileNotFoundError:
                pass
        return
    names = subprocess.run(["git", "ls-tree", "-r", "--name-only", commit, "crates"], capture_output=True, text=True, check=True)
    for name in names.stdout.split():
        if re.fullmatch(r"crates/\w+/src/.*\.rt", name):
            yield name, subprocess.run(["git", "show", f"{commit}:{name}"], capture_output=True, text=True, check=True).stdout


def parameters(text):
    """Each function's line and how many parameters it has."""
    for m in re.finditer(r"\bfn (\w+)(?:<[^(]*>)?\(([^)]*)\)", text):
        parts = [p for p in re.split(r",(?![^<\[]*[>\]])", m.group(2)) if p.strip()]
        yield text[: m.start()].count("\n") + 1, m.group(1), len(parts)


def main():
    words = [w for w in sys.argv[1:] if w != "--list"]
    all_files = list(files(words[0] if words else None))
    for point, what, pattern in POINTS:
        found = []
        for name, text in all_files:
            if pattern is None:
                found += [f"{name}:{line}: {fn}" for line, fn, n in parameters(text) if n >= 7]
                continue
            for number, line in enumerate(text.split("\n"), 1):
                if re.search(pattern, line):
                    found.append(f"{name}:{number}: {line.strip()}")
        print(f"{point}. {what}: {len(found)}")
        if "--list" in sys.argv:
            for place in found:
                print(f"     {place}")


main()
