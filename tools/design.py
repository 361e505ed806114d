#!/usr/bin/env python3
"""Counts in crates/*/src, or in those of a revision, the places that docs/DESIGN-PASS.md counts: `tools/design.py [REVISION]`; with `-l` it lists them."""
import os, re, subprocess, sys

ROOT = os.path.dirname(os.path.dirname(os.path.abspath(__file__)))


def git(*words):
    return subprocess.run(['git', '-C', ROOT, *words], capture_output=True, text=True, check=True).stdout


def sources(revision):
    """The text of each file of code, by its path."""
    if revision:
        paths = git('ls-tree', '-r', '--name-only', revision, 'crates').split('\n')
        return {p: git('show', f'{revision}:{p}') for p in paths if re.fullmatch(r'crates/\w+/src/.*\.rt', p)}
    found = {}
    for folder, _, names in os.walk(os.path.join(ROOT, 'crates')):
        for name in names:
            path = os.path.relpath(os.path.join(folder, name), ROOT)
            if re.fullmatch(r'crates/\w+/src/.*\.rt', path):
                with open(os.path.join(ROOT, path)) as f:
                    found[path] = f.read()
    return found


def lines(pattern):
    """The lines of code, comments and clauses left out, in which a pattern stands."""
    asked = re.compile(pattern)

    def count(text):
        return [line for line in text.split('\n') if not re.match(r'\s*(//|ghost |requires |ensures )', line) and asked.search(line)]

    return count


def long_heads(least):
    """The heads of functions with at least so many parameters."""

    def count(text):
        heads = re.findall(r'fn (\w+)(?:<[^>]*>)?\(([^)]*)\)', text)
        return [name for name, inside in heads if len([p for p in inside.split(',') if ':' in p or 'self' in p]) >= least]

    return count


POINTS = [
    ('1 own enums', lines(r'^(pub )?enum ')),
    ('1 fields that say whether another counts', lines(r'^\s+(pub )?(ok|done|some|long|fails|bad): bool')),
    ('1 arms by a number', lines(r'^\s+\d[\d .=|]* =>')),
    ('1 refusals by a number', lines(r'question: \d+|whole\(\d+\)')),
    ('2 functions that differ in a size', lines(r'\bfn (tiny|short|middle|long)_\w+')),
    ('3 loops by hand', lines(r'^\s+while ')),
    ('4 conversions and order by hand', lines(r'\bfn (wide|minus|lower|greater|least|lower_of|bit_of|signed|bits|is_same|copy|at_hand|plus|rotr|or_else|least_of)\b')),
    ('5 functions of seven parameters and more', long_heads(7)),
    ('6 a position beside a buffer', lines(r'at: usize\) -> usize|^\s+at: usize,$')),
    ('6 words of a list between semicolons', lines(r'b"[^"]*;[^"]*;')),
    ('7 a number that says which step', lines(r'\bq: u8\b|question: u8[,)]')),
]

if __name__ == '__main__':
    words = [w for w in sys.argv[1:] if w != '-l']
    texts = sources(words[0] if words else None)
    for name, count in POINTS:
        found = [(path, hit.strip()) for path in sorted(texts) for hit in count(texts[path])]
        print(f'{len(found):5} {name}')
        if '-l' in sys.argv:
            for path, hit in found:
                print(f'        {path}: {hit[:100]}')
