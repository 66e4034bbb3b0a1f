#!/usr/bin/env python3
"""Runs what README.md and the pages under docs/ quote, and says where the output differs.

usage: python3 tools/readme.py

Runs each command line `$ ./judge ..` and compares what it prints with the lines quoted below it. Writes README's Rust and C program
into target/example, runs the commands that README gives to build and run them, and compares what each prints with the block
after it. Needs the Rattle kit, rustc and cc on the PATH. Prints each output that differs, then `N outputs, M different`; the
exit status is 1 if one differs, or if no command or no program was found.
"""
import pathlib
import re
import shutil
import subprocess
import sys

ROOT = pathlib.Path(__file__).resolve().parent.parent
EXAMPLE = ROOT / 'target' / 'example'
README = (ROOT / 'README.md').read_text()
PAGES = [README, *(page.read_text() for page in sorted((ROOT / 'docs').glob('*.md')))]


def run(commands):
    """What shell commands print on standard output, run at the root."""
    return subprocess.run(['bash', '-c', commands], cwd=ROOT, stdout=subprocess.PIPE, stderr=subprocess.DEVNULL, text=True).stdout


def judged():
    """Each `$ ./judge ..` of the pages, and the lines quoted below it."""
    for page in PAGES:
        for block in re.findall(r'(?:^    .*\n)+', page, re.M):
            lines = [line[4:] for line in block.splitlines()]
            if lines[0].startswith('$ ./judge '):
                yield lines[0][2:], '\n'.join(lines[1:]) + '\n'


def programs():
    """The two programs: file, source, and what each prints according to README."""
    pattern = r'`([\w.]+)`, which[^\n]*\n+```\w+\n(.*?)^```\n+prints\n+```\n(.*?)^```'
    return re.findall(pattern, README, re.M | re.S)


def build():
    """The commands with which README builds and runs the programs."""
    block = re.search(r'^    tools/staticlib\n(?:    .*\n)+', README, re.M)
    return [line[4:] for line in block[0].splitlines()]


def main():
    judgements = [(command, quoted, run(command)) for command, quoted in judged()]
    EXAMPLE.mkdir(parents=True, exist_ok=True)
    shutil.copy(ROOT / 'compare' / 'src' / 'prune.rs', EXAMPLE)
    library, enter, *steps = build()
    run(library)
    printed_by = []
    for name, source, quoted in programs():
        (EXAMPLE / name).write_text(source)
        step = next(line for line in steps if name in line)
        printed_by.append((name, quoted, run(f'{enter}\n{step}')))
    outputs = judgements + printed_by
    different = [output for output in outputs if output[1] != output[2]]
    for command, quoted, printed in different:
        print(f'{command}\n-- README:\n{quoted}-- printed:\n{printed}', end='')
    print(f'{len(outputs)} outputs, {len(different)} different')
    sys.exit(0 if judgements and printed_by and not different else 1)


main()
