#!/usr/bin/env python3
"""Tests the sizes and the names of the sources.

house.py   fails where a file of code has more than 400 lines, where the body of a function has more than 40 lines and is more than one
           match, where two crates have a definition of one name, or where a file of definitions or proofs does not begin with a line
           that says what it defines or proves. The lines of a contract are not counted.
"""
import re
import sys
from pathlib import Path

ROOT = Path(__file__).resolve().parent.parent
CRATES = ROOT / 'crates'
MOST_FILE = 400
MOST_BODY = 40
FUNCTION = re.compile(r'( *)(?:pub(?:\(\w+\))? )?(?:const )?fn (\w+)')
DEFINITION = re.compile(r"(?:pub )?(?:abbrev|record|data|unfoldable)(?: pub)? ([A-Za-z_][\w']*)|pub ([A-Za-z_][\w']*) :")


def bodies(lines):
    """The name of each function with the lines of its body."""
    at = 0
    while at < len(lines):
        begins = FUNCTION.match(lines[at])
        at += 1
        if not begins:
            continue
        close = begins.group(1) + '}'
        opens = lines[at - 1].endswith('{')
        while at < len(lines) and not opens and not lines[at - 1].endswith(';'):
            opens = lines[at] == begins.group(1) + '{' or lines[at].startswith(begins.group(1) + ')') and lines[at].endswith('{')
            at += 1
        if opens and close in lines[at:]:
            end = lines.index(close, at)
            yield begins.group(2), lines[at:end]
            at = end + 1


def is_one_match(body):
    """The body is one match, whose last line closes what its first line opens."""
    indent = re.match(' *', body[0]).group()
    return body[0].startswith(f'{indent}match ') and all(line.startswith(f'{indent} ') for line in body[1:-1]) and body[-1] == f'{indent}}}'


def long():
    for path in sorted(CRATES.glob('*/src/**/*.rt')):
        lines = path.read_text().splitlines()
        where = path.relative_to(CRATES)
        if len(lines) > MOST_FILE:
            yield f'{where} has {len(lines)} lines'
        for name, body in bodies(lines):
            if len(body) > MOST_BODY and not is_one_match(body):
                yield f'{where}: {name} has {len(body)} lines'


def definitions(text):
    """The names that a file of specs defines, but for fields and cases."""
    around = []
    for line in text.splitlines():
        words = line.strip()
        if not words or words.startswith('--'):
            continue
        indent = len(line) - len(line.lstrip())
        while around and around[-1][0] >= indent:
            around.pop()
        found = DEFINITION.match(words)
        if found and all(module for _, module in around):
            yield found.group(1) or found.group(2)
        around.append((indent, words.startswith(('module', 'pub module'))))


def shared():
    homes = {}
    for path in sorted(CRATES.glob('*/specs/**/*.antt')):
        for name in definitions(path.read_text()):
            homes.setdefault(name, set()).add(path.relative_to(CRATES).parts[0])
    for name, crates in sorted(homes.items()):
        if len(crates) > 1 and name != 'pub':
            yield f'{name} is defined in {" and ".join(sorted(crates))}'


def silent():
    for path in sorted([*CRATES.glob('*/specs/**/*.antt'), *CRATES.glob('*/proofs/**/*.antt')]):
        if path.name != 'Lib.antt' and not path.read_text().startswith('-- '):
            yield f'{path.relative_to(CRATES)} does not say what it holds'


def main():
    wrong = [*long(), *shared(), *silent()]
    print('\n'.join(wrong) or 'house: files and functions are short, a definition has one name in one crate, and files say what they hold')
    return 1 if wrong else 0


if __name__ == '__main__':
    sys.exit(main())
