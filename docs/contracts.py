#!/usr/bin/env python3
"""Lists every public call with the names of its clauses, in docs/CONTRACTS.md.

contracts.py --write   writes the list, and then tests the pages as below
contracts.py           fails where the list is not that of the sources, where a clause that a page names is not in it, where a row of the
                       README's table of promises or a sentence of it on what is proved names no clause, where the pages on crates do not
                       have and draw each crate of crates.txt with what it stands on, where a file of the tables of changes is in none of
                       its crates, or where a name in backquotes on the pages on definitions, crates and decisions stands in no source
"""
import re
import sys
from pathlib import Path

ROOT = Path(__file__).resolve().parent.parent
LIST = ROOT / 'docs' / 'CONTRACTS.md'
MAP = ROOT / 'docs' / 'ARCHITECTURE.md'
PROMISES = ROOT / 'docs' / 'CRATES.md'
AHEAD = ROOT / 'docs' / 'AHEAD.md'
NAMING = [ROOT / 'docs' / page for page in ('MODEL.md', 'CRATES.md', 'CLAIMS.md', 'DECISIONS.md', 'AHEAD.md')]
HEAD = '''# Contracts

Every public call, with the names of its clauses; `returns` stands for a clause that has no name. `docs/contracts.py --write` makes this list from the sources, and the checks compare it. A law is a call without a body: its clauses hold of the definitions that they name.
'''


def stands():
    """Of each crate of crates.txt the crates of this repository that it stands on."""
    lines = (ROOT / 'crates.txt').read_text().splitlines()
    found = {line.split(':')[0]: line.split(':')[1].split() for line in lines if ':' in line and not line.startswith('#')}
    return {crate: [other for other in others if other in found] for crate, others in found.items()}


def crates():
    return list(stands())


def below(crate, known):
    """All crates that a crate stands on, also through others."""
    return set(known[crate]).union(*(below(other, known) for other in known[crate]))


def direct(crate, known):
    """The crates that a crate stands on, but for those that these stand on themselves."""
    through = set().union(*(below(other, known) for other in known[crate]))
    return [other for other in known[crate] if other not in through]


def unmapped():
    """What the pages on crates lack."""
    known = stands()
    drawing, table = MAP.read_text().split('\n## The crates\n')
    table = table.split('\n## ')[0]
    rows = dict(re.findall(r'^\| (vx\w*) \|.*\| ([^|]*) \|$', table, re.M))
    told = re.findall(r'^\*\*(vx\w*)\*\* ', PROMISES.read_text(), re.M)
    for crate in known:
        if rows.get(crate) != (', '.join(direct(crate, known)) or 'none'):
            yield f'docs/ARCHITECTURE.md has no row for {crate} with what it stands on: {", ".join(direct(crate, known)) or "none"}'
        if not re.search(rf'\b{crate}\b', drawing.split('\n## The map\n')[1]):
            yield f'docs/ARCHITECTURE.md does not draw {crate}'
        if told.count(crate) != 1:
            yield f'docs/CRATES.md has no paragraph on {crate}, or more than one'


def exported(lib):
    """The public modules of a crate, and the names that it passes on."""
    modules = set(re.findall(r'^pub mod (\w+);', lib, re.M))
    names = set()
    for use in re.findall(r'^pub use ([^;]*);', lib, re.M):
        names |= set(re.findall(r'(\w+)\s*(?:,|\}|$)', use))
    return modules, names


class Calls:
    """The calls of one file, in its order."""

    def __init__(self, module, modules, names):
        self.open = module in modules or module == 'lib'
        self.names = names
        self.owner = None
        self.shown = False
        self.trait = False
        self.found = []

    def line(self, text):
        block = re.match(r'(?:unsafe )?(impl|pub trait)\b(.*)', text)
        if block:
            self.begin(block.group(1), block.group(2))
        elif text == '}':
            self.owner, self.shown, self.trait = None, False, False
        call = re.match(r'\s*(pub(?:\(\w+\))? )?(?:const )?fn (\w+)', text)
        if call:
            public = call.group(1) == 'pub ' or (self.owner and self.trait)
            seen = self.shown if self.owner else self.open or call.group(2) in self.names
            self.current = [] if public and seen else None
            if self.current is not None:
                name = f'{self.owner}::{call.group(2)}' if self.owner else call.group(2)
                self.found.append((name, self.current))
        clause = re.match(r'\s*(requires|ensures)\*? (?:(\w+) )?\{', text)
        if clause and self.found and self.current is not None:
            self.current.append((clause.group(1), clause.group(2) or 'returns'))

    def begin(self, kind, rest):
        rest = re.sub(r'^<[^>]*(?:<[^>]*>[^>]*)*>', '', rest).strip()
        self.trait = kind == 'pub trait'
        owner = re.search(r'\bfor (\w+)', rest) or re.match(r'(\w+)', rest)
        self.owner = owner.group(1)
        self.shown = (self.open or self.owner in self.names) and (self.trait or ' for ' not in f' {rest}')

    current = None


def calls(crate):
    source = ROOT / 'crates' / crate / 'src'
    top = source / 'lib.rt'
    if not top.exists():
        return []
    modules, names = exported(top.read_text())
    found = []
    for path in sorted(source.rglob('*.rt')):
        if 'tests' in path.parts or path.stem == 'tests':
            continue
        reader = Calls(path.stem, modules, names)
        for text in path.read_text().splitlines():
            reader.line(text)
        found += reader.found
    return found


def listed():
    parts = [HEAD]
    for crate in crates():
        rows = [(name, clauses) for name, clauses in calls(crate) if clauses]
        if not rows:
            continue
        parts.append(f'\n## {crate}\n\n')
        for name, clauses in rows:
            asks = ', '.join(c for kind, c in clauses if kind == 'requires')
            gives = ', '.join(c for kind, c in clauses if kind == 'ensures')
            asked = f' (asks {asks})' if asks else ''
            parts.append(f'- `{name}`{asked}: {gives or "nothing beside"}\n')
    return ''.join(parts)


def moved():
    """The files that the tables of changes name and that stand in no crate of their row."""
    changes = MAP.read_text().split('\n## Five changes, file by file\n')[1]
    for first, second in re.findall(r'^\| (.*?) \| (.*?) \|', changes, re.M):
        homes = [home for home in (ROOT / 'crates' / crate for crate in re.findall(r'\bvx\w*', f'{first} {second}')) if home.exists()]
        for name in re.findall(r'`([\w/]+\.(?:antt|rt))`', second):
            if not any((home / name).exists() or '/' not in name and any(home.glob(f'[ps]*/**/{name}')) for home in homes):
                yield f'docs/ARCHITECTURE.md has the file {name} of {first}, which stands there in no crate'


def names_of(pattern, text):
    return set(re.findall(r"[A-Za-z_]\w{3,}", ' '.join(re.findall(pattern, text))))


def unknown():
    """The names in backquotes on the pages on definitions, crates and decisions that stand in no source."""
    sources = [path for kind in ('src/**/*.rt', 'specs/**/*.antt', 'proofs/**/*.antt') for path in (ROOT / 'crates').glob(f'*/{kind}')]
    known = set().union(*(names_of('(?s).+', f'{path} {path.read_text()}') for path in sources))
    for page in NAMING:
        for name in sorted(names_of('`([^`]+)`', page.read_text()) - known):
            yield f'docs/{page.name} has the name {name}, which no source has'


def cited():
    """The clauses that the pages name, as `crate call clause`."""
    for page in [ROOT / 'README.md', *sorted((ROOT / 'docs').glob('*.md'))]:
        yield from ((page.name, *one) for one in re.findall(r'`(vx_\w+) ([\w:]+) (\w+)`', page.read_text()))


CLAUSE = r'`vx_\w+ [\w:]+ \w+`'


def unrowed():
    """The rows of the tables of promises, and the README's sentences on what is proved, that name no clause.

    Sentences that say what is not proved need none, nor does one that leads to docs/AHEAD.md, whose promises are rows as well.
    """
    told = (ROOT / 'README.md').read_text().split('\n## What is proved\n')
    table = re.findall(r'^\| (.*) \| (.*) \| (.*) \|$', told[1].split('\n## ')[0], re.M)[1:]
    for promise, clauses, holds in table:
        if not re.fullmatch(rf'{CLAUSE}(, {CLAUSE})*', clauses) or not holds:
            yield f'README.md has a promise whose second place is no clause: {promise[:60]}'
    for rows in re.findall(r'^\| promise \| clause \|\n\|.*\n((?:\|.*\n)+)', AHEAD.read_text(), re.M):
        for promise, clauses in re.findall(r'^\| (.*) \| (.*) \|$', rows, re.M):
            if not re.fullmatch(rf'{CLAUSE}(, {CLAUSE})*', clauses):
                yield f'docs/AHEAD.md has a promise whose second place is no clause: {promise[:60]}'
    prose = re.sub(r'^\|.*\|$|^ {4}.*$|^#.*$', '', '\n'.join(told), flags=re.M)
    for sentence in re.split(r'(?<=\.)\s+', prose):
        if re.search(r'\b(is|are) (?:\w+ )?(proved|promised|pinned)\b', sentence) and not re.search(r'\b(not|nothing)\b', sentence):
            if not re.search(CLAUSE, sentence) and 'AHEAD.md' not in sentence:
                yield f'README.md says without a clause: {sentence[:60]}'


def main():
    text = listed()
    if '--write' in sys.argv[1:]:
        LIST.write_text(text)
    wrong = []
    if not LIST.exists() or LIST.read_text() != text:
        wrong.append('docs/CONTRACTS.md is not the list of the sources: run docs/contracts.py --write')
    known = {(crate, name, clause) for crate in crates() for name, clauses in calls(crate) for _, clause in clauses}
    wrong += [f'{page} names {" ".join(one)}, which is no clause' for page, *one in cited() if tuple(one) not in known]
    wrong += [*unrowed(), *unmapped(), *moved(), *unknown()]
    print('\n'.join(wrong) or 'contracts: the list, the clauses and names on the pages and the pages on crates are those of the sources')
    return 1 if wrong else 0


if __name__ == '__main__':
    sys.exit(main())
