#!/usr/bin/env python3
"""Runs ./judge and the programs as people do, and says where output or exit status is another than expected.

usage: python3 tools/judge_cases.py [ROOT]

ROOT is the repository whose judge is run, else this one; its programs are built first where they are not. Each case is a shell command, the
exit status, what standard output begins with, and a part of standard error. No case may take more than 20 seconds, or 200 where the
program is built again. Prints each case that differs, then `N cases, M different`; the exit status is 1 if one differs.
"""
import os
import pathlib
import shutil
import subprocess
import sys
import tempfile

ROOT = pathlib.Path(sys.argv[1] if len(sys.argv) > 1 else pathlib.Path(__file__).resolve().parent.parent).resolve()
STORES = 'nas:read-write vault:write-only'
PASS = 'pass\nat any age'
LOOK = 'judge: first look, not proved here: '
PROGRAM = 'crates/rulejudge/out/rulejudge'
READER = 'crates/ruleread/out/ruleread'
# The program is older than its source: it is built again, but nothing is left to prove.
OLD = f'touch -t 200001010000 {PROGRAM};'

# With another `rt try`.
TRY = 'PATH="$WORK/rt:$PATH" TRY='

# Command, exit status, how standard output begins, what standard error has in it.
CASES = [
    # The three verdicts.
    (f"./judge 'older_than(30d) && readable(1)' {STORES}", 0, PASS, ''),
    (f"./judge 'nas || vault' {STORES}", 1, 'no 22 0\narchive only', ''),
    (f"./judge 'at_least(0, nas)' {STORES}", 1, 'no 21 0\nunconfirmed', ''),
    (f"./judge 'nas &' {STORES}", 1, 'no 4 4\nhalf sign', ''),
    (f"./judge '' {STORES}", 1, 'no 7 0\nno expression', ''),
    ('./judge nas nas:read-write nas:read-only', 1, 'no 18 1\ntwin name: two stores have this name\nargument 2\n', ''),
    # No stores, no rule: nothing is judged.
    ('./judge nas', 2, '', 'no store is given'),
    ('STORES=; ./judge nas $STORES', 2, '', 'no store is given'),
    ('RULE=; ./judge $RULE nas:read-write', 2, '', 'no store is given'),
    ('./judge', 2, '', 'no rule is given'),
    ('./judge --', 2, '', 'no rule is given'),
    # Words that are no rules.
    ('./judge --help', 0, 'usage: judge', ''),
    ('./judge -h', 0, 'usage: judge', ''),
    ('./judge --version', 0, 'judge ', ''),
    (f'./judge --stores {STORES}', 2, '', 'there is no option --stores'),
    (f'./judge -x {STORES}', 2, '', 'there is no option -x'),
    (f"./judge -- '-x' {STORES}", 1, 'no 20 0\n', ''),
    (f"./judge -- '--help' {STORES}", 1, 'no 20 0\n', ''),
    # The table that is only taken where it is asked for.
    ("./judge --example 'nas && vault'", 0, PASS, ''),
    ("./judge --example -- 'vault'", 1, 'no 22 0\n', ''),
    ("./judge --example nas desk:read-write", 2, '', '--example has its own stores'),
    ('./judge --example', 2, '', 'no rule is given'),
    # Stores that are not in order, named.
    ('./judge nas nas:read-write vault:writeonly', 2, '', 'store 2, `vault:writeonly`: no such mode'),
    ('./judge nas nas', 2, '', 'store 1, `nas`: no colon'),
    ('./judge nas ""', 2, '', 'store 1, ``: no colon'),
    ('./judge nas nas:read-write $(printf "%0256d" 0):read-write', 2, '', 'store 2, `0000'),
    ('./judge nas $(seq -f "s%.0f:read-write" 64)', 1, 'no 20 0\n', ''),
    ('./judge nas $(seq -f "s%.0f:read-write" 65)', 2, '', '65 stores are given'),
    # The rule from standard input.
    (f"printf 'nas && readable' | ./judge - {STORES}", 0, PASS, ''),
    (f"printf 'vault\\n' | ./judge - {STORES}", 1, 'no 22 0\n', ''),
    (f"./judge - {STORES} </dev/null", 1, 'no 7 0\n', ''),
    (f'./judge - {STORES} <.', 3, '', 'standard input'),
    (f'./judge - {STORES} <&-', 3, '', 'standard input'),
    # Descriptors that are closed or full, and a reader that has gone.
    (f'./judge nas {STORES} <&-', 0, PASS, ''),
    (f'./judge nas {STORES} >&-', 3, '', 'could not be written'),
    (f'bash ./judge nas {STORES} <&-', 0, PASS, ''),
    (f'bash ./judge nas {STORES} >&-', 3, '', 'could not be written'),
    (f'bash ./judge nas {STORES} <&- >&- 2>&-', 3, '', ''),
    (f'./judge nas {STORES} <&- >&- 2>&-', 3, '', ''),
    (f'./judge nas {STORES} >/dev/full', 3, '', 'could not be written'),
    (f'./judge nas {STORES} 2>&-', 0, PASS, ''),
    (f'./judge vault {STORES} <&- 2>&-', 1, 'no 22 0\n', ''),
    (f'(sleep 0.2; ./judge nas {STORES}; echo $? >&2) | true', 0, '', '3'),
    # The programs themselves, whose exit status is 0 whatever they print, and 1 where they could not read or write.
    (f'printf vault | {PROGRAM} vault:write-only', 0, 'no 22 0\narchive only', ''),
    (f'printf "nas &" | {READER}', 0, 'no 4 4\n', ''),
    (f'printf nas | {PROGRAM} nas:read-write >/dev/full', 1, '', 'rulejudge: standard output: No space left'),
    (f'printf nas | {PROGRAM} nas:read-write >&-', 1, '', 'rulejudge: standard output: Bad file'),
    (f'{PROGRAM} nas:read-write <.', 1, '', 'rulejudge: standard input: Is a directory'),
    (f'printf nas | {READER} >/dev/full', 1, '', 'ruleread: standard output: No space left'),
    (f'printf nas | {READER} >&-', 1, '', 'ruleread: standard output: Bad file'),
    (f'{READER} <&-', 1, '', 'ruleread: standard input: Bad file'),
    # From anywhere.
    (f'cd / && "$OLDPWD/judge" nas {STORES}', 0, PASS, ''),
    (f'cd crates && ../judge nas {STORES}', 0, PASS, ''),
    (f'sh judge nas {STORES}', 0, PASS, ''),
    (f'sh ./judge vault {STORES}', 1, 'no 22 0\n', ''),
    (f'bash judge nas {STORES}', 0, PASS, ''),
    (f'CDPATH=/:/tmp ./judge nas {STORES}', 0, PASS, ''),
    (f'CDPATH=. sh judge nas {STORES}', 0, PASS, ''),
    (f'ln -s "$PWD/judge" "$WORK/a link" && cd "$WORK" && "./a link" nas {STORES}', 0, PASS, ''),
    (f'mkdir "$WORK/bin" && ln -s "$PWD/judge" "$WORK/bin/judge" && cd / && PATH="$WORK/bin:$PATH" judge nas {STORES}', 0, PASS, ''),
    (f'ln -s "$PWD" "$WORK/repo" && cd "$WORK" && repo/judge nas {STORES}', 0, PASS, ''),
]

# The same, where the program is built again: the first look, which is on standard error alone and settles nothing.
BUILDS = [
    (f'{OLD} ./judge vault {STORES}', 1, 'no 22 0\narchive only',
     f'{LOOK}no 22 0\n{LOOK}archive only: the rule says evict with only write-only stores confirmed\n{LOOK}confirmed: vault\n{LOOK}age: '),
    (f'{OLD} ./judge nas {STORES} <&-', 0, PASS, f'{LOOK}pass\n'),
    (f'{OLD} bash ./judge nas {STORES} <&- >&-', 3, '', f'{LOOK}pass\n'),
    (f'{OLD} ./judge vault {STORES} <&- 2>&-', 1, 'no 22 0\n', ''),
    (f'{OLD} bash ./judge vault {STORES} <&- 2>&-', 1, 'no 22 0\n', ''),
    (f"{OLD} printf 'nas &\\n\\n' | ./judge - {STORES}", 1, 'no 4 4\n', f'{LOOK}nas &\n{LOOK}    ^\n'),
    (f'{OLD} yes | ./judge - {STORES}', 1, 'no 2 0\n', f'{LOOK}no 2 0\n'),
    (f'{OLD} ./judge - {STORES} <.', 3, '', 'the rule could not be read'),
    (f'{OLD} ./judge - {STORES} <&-', 3, '', 'the rule could not be read'),
    (f'{OLD} ./judge nas nas:read-write vault:writeonly', 2, '', f'{LOOK}argument 2: no such mode'),
    (f"{OLD} ./judge nas $'a b\\nc:read-only' nas:read-write", 0, PASS, f'{LOOK}pass\n'),
    (f'{OLD} cd / && "$OLDPWD/judge" vault {STORES}', 1, 'no 22 0\n', f'{LOOK}no 22 0\n'),
    # One that fails, one that says something else, and one that does not end.
    (f"{OLD} {TRY}'exit 1' ./judge vault {STORES}", 1, 'no 22 0\n', ''),
    (f"{OLD} {TRY}'exit 1' ./judge vault {STORES} 2>&1 >/dev/null | grep -c 'first look'", 1, '0\n', ''),
    (f"{OLD} {TRY}'echo pass' ./judge vault {STORES}", 1, 'no 22 0\n', f'{LOOK}pass\n'),
    (f"{OLD} {TRY}'sleep 300' ./judge vault {STORES} 2>&1 >/dev/null | grep -c 'first look'", 1, '0\n', ''),
    # Nothing is left of it, even where it is ended.
    (f'{OLD} ./judge nas {STORES} >/dev/null; ls target | grep -c look', 1, '0\n', ''),
    (f'{OLD} ./judge nas {STORES} & sleep 1; kill $!; wait $!; echo $?; ls target | grep -c look', 1, '3\n0\n', ''),
    # No rt, and a program that was removed.
    (f'{OLD} PATH=/usr/bin:/bin ./judge nas {STORES}', 3, '', 'not on the PATH'),
    (f'rm {PROGRAM}; ./judge vault {STORES}', 1, 'no 22 0\n', f'{LOOK}no 22 0\n'),
]


def run(command, seconds):
    """A command's exit status and what it writes, run at the root with a folder of its own to work in."""
    work = tempfile.mkdtemp()
    rt = pathlib.Path(work, 'rt', 'rt')
    rt.parent.mkdir()
    rt.write_text(f'#!/bin/sh\n[ "$1" = try ] || exec {shutil.which("rt")} "$@"\n'
                  'eval "$TRY"\n')
    rt.chmod(0o755)
    try:
        done = subprocess.run(['bash', '-c', command], cwd=ROOT, env={**os.environ, 'WORK': work, 'OLDPWD': str(ROOT)},
                              stdin=subprocess.DEVNULL, capture_output=True, text=True, timeout=seconds)
        return done.returncode, done.stdout, done.stderr
    except subprocess.TimeoutExpired:
        return 'no end', '', ''
    finally:
        shutil.rmtree(work)


def main():
    subprocess.run([ROOT / 'judge', 'nas', 'nas:read-write'], stdin=subprocess.DEVNULL, stdout=subprocess.DEVNULL)
    subprocess.run(['rt', 'run'], cwd=ROOT / 'crates' / 'ruleread', stdin=subprocess.DEVNULL, stdout=subprocess.DEVNULL, stderr=subprocess.DEVNULL)
    different = 0
    for command, status, begins, said in CASES + BUILDS:
        got, out, err = run(command, 20 if (command, status, begins, said) in CASES else 200)
        if got != status or not out.startswith(begins) or (begins == '' and out) or said not in err:
            different += 1
            print(f'{command}\n  expected {status} {begins!r} {said!r}\n  got {got} {out[:200]!r} {err[:200]!r}')
    print(f'{len(CASES + BUILDS)} cases, {different} different')
    return 1 if different else 0


sys.exit(main())
