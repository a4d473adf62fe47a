#!/usr/bin/env python3
"""Lists the places in crates/*/src that docs/DESIGN-PASS.md counts, point by point; the text is read as it stands, and each line is a place to look at.

places.py [FOLDER]   FOLDER is a checkout; without it, the one that this file is in.
"""
import difflib
import itertools
import pathlib
import re
import sys

ROOT = pathlib.Path(sys.argv[1]) if len(sys.argv) > 1 else pathlib.Path(__file__).resolve().parents[2]
FN = re.compile(r'^( *)(?:pub(?:\([a-z]+\))? )?(?:extern "C" )?fn (\w+)(.*?)\n\1}\n', re.M | re.S)


def sources():
    for file in sorted(ROOT.glob('crates/*/src/**/*.rt')):
        yield file.relative_to(ROOT), re.sub(r'^ *//.*\n', '', file.read_text(), flags=re.M)


def functions():
    """Of each function: its crate and name, its parameters and clauses, and its body."""
    for file, text in sources():
        for found in FN.finditer(text):
            head, _, body = found.group(3).partition('\n' + found.group(1) + '{\n')
            if not body:
                head, _, body = found.group(3).partition(' {\n')
            yield f'{file.parts[1]}::{found.group(2)}', head, body


def lines_with(pattern):
    for file, text in sources():
        for line in text.split('\n'):
            if re.search(pattern, line):
                yield f'{file}: {line.strip()}'


def show(title, places):
    places = list(places)
    print(f'\n{title}: {len(places)}')
    for place in places:
        print('   ', place)


def enums():
    for file, text in sources():
        for found in re.finditer(r'^ *(?:pub )?enum (\w+) \{(.*?)\n *\}', text, re.M | re.S):
            yield f'{file}: {found.group(1)} {{ {" ".join(found.group(2).split())} }}'


def flags():
    """Structs with a field that is a bool or a bare number for a kind beside other fields."""
    for file, text in sources():
        for found in re.finditer(r'^ *(?:pub )?struct (\w+)[^;{]*\{(.*?)\n *\}', text, re.M | re.S):
            if re.search(r'\b(some|found|answer|which|kind): ', found.group(2)):
                yield f'{file}: {found.group(1)} {{ {" ".join(found.group(2).split())} }}'


def numbered():
    """Functions that give a bare number for a case."""
    for name, _, body in functions():
        n = len(re.findall(r'(?:=>|return|which:|answer:) \d+\b', body)) + len(re.findall(r'^ *\d+\n$', body[-8:], re.M))
        if n and not name.startswith(('cases', 'refusals')):
            yield f'{name}: {n}'


def shape(body):
    names = {}
    words = re.findall(r'\w+|[^\w\s]', body)
    return [('#' if w.isdigit() else names.setdefault(w, str(len(names)))) if re.match(r'\w', w) else w for w in words]


def twins():
    all_of = [(name, shape(body)) for name, _, body in functions() if not name.startswith(('cases', 'refusals'))]
    for (a, x), (b, y) in itertools.combinations([f for f in all_of if len(f[1]) >= 12], 2):
        if min(len(x), len(y)) / max(len(x), len(y)) >= 0.8 and difflib.SequenceMatcher(None, x, y, False).ratio() >= 0.9:
            yield f'{a} ~ {b}'


def counted_loops():
    """Loops whose condition has a number that the body counts up or down."""
    for name, _, body in functions():
        for found in re.finditer(r'^( *)while (.*?) \{\n(.*?)\n\1\}', body, re.M | re.S):
            counts = re.findall(r'(\w+) [+-]= 1;', found.group(3))
            if any(re.search(rf'\b{c}\b', found.group(2)) for c in counts):
                yield f'{name}: while {found.group(2)}'


def groups():
    """Parameter names of which three or more stand together in three or more functions: the largest such groups."""
    of = {}
    for name, head, _ in functions():
        asked = head[: head.find(')')] if '->' not in head else head[: head.find('->')]
        of[name] = frozenset(re.findall(r'(\w+): ', asked))
    seen = {}
    for a, b, c in itertools.combinations(of, 3):
        together = of[a] & of[b] & of[c]
        if len(together) >= 3:
            seen.setdefault(together, set()).update((a, b, c))
    for names in sorted(seen, key=lambda n: (-len(n), sorted(n))):
        yield f'{" ".join(sorted(names))}: {", ".join(sorted(seen[names]))}'


def buffers():
    for name, head, body in functions():
        if re.search(r'\[0u?\d*; \w+\]', body) or ('&mut [u' in head and re.search(r'-> usize', head)):
            yield f'{name}: {" ".join(re.findall(r"[0u]*[0-9]+; [0-9]+", body))}'


show('1 enums', enums())
show('1 structs with a flag or a number beside a value', flags())
show('1 functions that give a bare number for a case', numbered())
show('2 functions alike but for names and numbers', twins())
show('3 loops that count an index by hand', counted_loops())
show('3 other loops', lines_with(r'^\s*(while|loop|for|\'\w+:) ?.*\{$'))
show('4 casts', lines_with(r' as (u8|u16|u32|u64|usize|i32)\b'))
show('4 fields compared one by one', lines_with(r'\(\w+\.(\w+)(\.0)? == \w+\.\1(\.0)?\) &'))
show('5 parameters that stand together', groups())
show('6 buffers, and functions that fill one and give a count', buffers())
show('7 matches on which step to run', lines_with(r'Step::'))
answers = [f for f in ROOT.glob('crates/*/proofs/**/*.antt') if 'out' not in f.parts]
bodies = [f for f in answers if f.name in ('Answers.antt', 'Invariants.antt', 'Proof.antt')]
print(f'\n8 files of proofs: {len(answers)}, {sum(len(f.read_text().splitlines()) for f in answers)} lines;'
      f' answers and invariants: {len(bodies)}, {sum(len(f.read_text().splitlines()) for f in bodies)} lines')
