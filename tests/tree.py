"""What the checks of the tree share: its files, the crates by band, and the heading of a file."""
import os, re, subprocess

ROOT = os.path.dirname(os.path.dirname(os.path.abspath(__file__)))


def git(*words):
    """The names that git lists, or none where the folder is no repository of git's."""
    done = subprocess.run(['git', '-c', 'safe.directory=*', 'ls-files', '-z', *words], cwd=ROOT, capture_output=True)
    return [f for f in done.stdout.decode().split('\0') if f]


def walked():
    """The files of the folder, but those under target and those that `rt` makes in a crate's out."""
    for folder, below, names in os.walk(ROOT):
        is_crate = os.path.relpath(folder, ROOT).split('/')[:-1] == ['crates']
        below[:] = [name for name in below if name not in ('.git', 'target') and not (is_crate and name == 'out')]
        yield from (os.path.relpath(os.path.join(folder, name), ROOT) for name in names)


def files():
    """The files that git has, or would take, by their paths from the root."""
    return sorted(f for f in set(git('-co', '--exclude-standard') or walked()) if os.path.isfile(os.path.join(ROOT, f)))


def read(path):
    with open(os.path.join(ROOT, path), encoding='utf8') as f:
        return f.read()


def bands():
    """The lines of crates.txt: (band, crate, crates that it lists), from the ground up; the band is empty above the first one. A static
    library has the word `staticlib` behind its name."""
    band = ''
    for line in read('crates.txt').splitlines():
        if line.startswith('#'):
            band = line[1:].strip()
        elif line.strip():
            crate, _, rest = line.partition(':')
            yield band, crate.split()[0], rest.split()


def heading(text):
    """The first paragraph of the comment that a file begins with, on one line; empty where there is none."""
    words = []
    for line in text.splitlines():
        m = re.match(r'(?://|--)[ \t]*(\S.*)$', line)
        if not m:
            break
        words += m.group(1).split()
    return ' '.join(words)


def has_heading(path):
    """Whether a file is one of code, definitions or laws, which begin with a heading."""
    return bool(re.fullmatch(r'crates/\w+/(src/.+\.rt|specs/.+\.antt|proofs/\w+\.antt)', path)) and not path.endswith('/Lib.antt')


def report(name, what, faults):
    """Prints the line of a check and one for each fault, and ends with its status."""
    print(f'{name}: {what}, {len(faults)} failed')
    for fault in faults:
        print(f'  {fault}')
    raise SystemExit(1 if faults else 0)
