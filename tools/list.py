#!/usr/bin/env python3
"""Makes the list of the program `replay` anew: its questions in crates/replay/stdin, their answers in crates/replay/stdout.

usage: python3 tools/list.py [--check]

`tools/cases.py` prints cases with the documents' answers, and `compare/make-list`, which needs rustc and the Rust's source,
prints cases with the Rust's own; none is the program's. Each line of them is a question and its answer (`split`), a comment,
or is refused. With --check nothing is written: the two files are compared with what would be, and the exit status is 1 where
they differ. Both files are the same bytes on every run.
"""
import os
import subprocess
import sys

HERE = os.path.dirname(os.path.dirname(os.path.abspath(__file__)))
FILES = ['crates/replay/stdin', 'crates/replay/stdout']
MAKERS = [['python3', 'tools/cases.py'], ['compare/make-list']]

# How many fields a question of each call has, its name included, and the words that its answer can begin with, each with the
# number of fields of such an answer.
CALLS = {
    'read': (3, {'ok': 2, 'no': 3}),
    'print': (3, {'ok': 2, 'no': 3}),
    'decide': (5, {'evict': 1, 'keep': 1, 'no': 3}),
    'check': (3, {'pass': 1, 'no': 3}),
    'judge': (3, {'pass': 1, 'no': 3}),
    'report': (3, {'ok': 2}),
}


def split(line):
    """The question and the answer of a line with a case; the program ends where it is not in the format."""
    fields = line.split(' ')
    size, answers = CALLS.get(fields[0], (0, {}))
    question, answer = fields[:size], fields[size:]
    if '' in fields or not answer or answers.get(answer[0]) != len(answer):
        sys.exit('not a question and its answer: %.200s' % line)
    return ' '.join(question), ' '.join(answer)


def made():
    """What the two files are to have."""
    questions, answers = ['# Made by python3 tools/list.py, with the answers in stdout'], []
    for maker in MAKERS:
        printed = subprocess.run(maker, cwd=HERE, check=True, stdout=subprocess.PIPE).stdout.decode('ascii')
        for line in printed.splitlines():
            if line and not line.startswith('#'):
                line, answer = split(line)
                answers.append(answer)
            questions.append(line)
    answers.append('%d cases' % len(answers))
    return ['\n'.join(lines) + '\n' for lines in (questions, answers)]


def main():
    if sys.argv[1:] not in ([], ['--check']):
        sys.exit(__doc__)
    for name, text in zip(FILES, made()):
        path = os.path.join(HERE, name)
        if not sys.argv[1:]:
            with open(path, 'w', encoding='ascii') as file:
                file.write(text)
        elif open(path, encoding='ascii').read() != text:
            sys.exit('%s is not what is made' % name)


if __name__ == '__main__':
    main()
