#!/usr/bin/env python3
"""Brings this repository's definitions and lemmas to snake case, once, after the kit's own script.

usage: tools/spelling.py [--dry]      at the top of the repository

Turned: words in camel case of crates/*/specs and crates/*/proofs (definitions, fields, constructors, variables), and names with dashes
that a file of specs/ or a lemma file of proofs/ declares; in these files, in the clauses of src/ and in must-fail edits.
Kept: types, modules, every name of the library, and the names inside proofs/F/ that are made from the source.
"""
import os
import re
import sys

KIT = "/opt/rattle"
WORD = re.compile(r"[A-Za-z0-9_'\-◌μ⊞+*≢≡≤<>ℕℤ·∷∙&|/%^=!?₀-₉αβκσρτδθωε]+")
CAMEL = re.compile(r"^[a-z][a-z0-9_']*[A-Z][A-Za-z0-9_']*(-[a-z0-9_']+)*$")
DASHED = re.compile(r"^\+?[a-z][a-zA-Z0-9_']*(-[a-zA-Z0-9_']+)+$")
TOP = re.compile(r"^\s*(?:(?:abbrev|unfoldable|pub|data|record|ruleset|mutual)\s+)*([^\s:(){}]+)\s*(?:\{[^}]*\}\s*)*:\s")
RULESET = re.compile(r"^\s*(?:pub\s+)?ruleset\s+([^\s:(){}=]+)")


def files(root, kinds):
    for folder, dirs, names in os.walk(os.path.join(root, "crates")):
        dirs[:] = sorted(d for d in dirs if d != "out")
        for n in sorted(names):
            if n.endswith(kinds):
                yield os.path.join(folder, n)


# Lemmas that would have their definition's name: (crate, the lemma's module, its name now, its new name).
LEMMAS = [
    ("arith", "Shifts", "no_shift"),
    ("entry_log", "Backs", "went_back"),
    ("fit_image", "Complete", "held_in"),
    ("fit_image", "Sound", "head_ok"),
    ("fit_state", "Lists", "function_of"),
    ("fit_state", "Values", "is-some"),
    ("run_step", "Levels", "form-of"),
    ("spec_language", "KindLists", "one-of"),
    ("words", "Blocks", "block-at"),
]


def lemma_file(path):
    parts = path.split("/crates/")[1].split("/")
    return parts[1] == "specs" or (parts[1] == "proofs" and len(parts) == 3)


def snake(name):
    name = name.replace("-", "_")
    name = re.sub(r"(?<=[a-z0-9'])([A-Z])", lambda m: "_" + m.group(1).lower(), name)
    return re.sub(r"(?<=_)([A-Z])", lambda m: m.group(1).lower(), name)


def library():
    words = set()
    for folder, dirs, names in os.walk(os.path.join(KIT, "rattle")):
        dirs[:] = [d for d in dirs if d not in ("examples", "docs")]
        for n in names:
            if n.endswith(".antt"):
                with open(os.path.join(folder, n), encoding="utf-8", errors="replace") as f:
                    words |= set(WORD.findall(f.read()))
    return words


def table(root, known):
    found = {}
    for p in files(root, (".antt",)):
        text = open(p, encoding="utf-8").read()
        for w in WORD.findall(re.sub(r"--.*", "", text)):
            if CAMEL.match(w) and "-" not in w and w not in known:
                found[w] = snake(w)
        if lemma_file(p):
            for line in text.split("\n"):
                m = TOP.match(line) or RULESET.match(line)
                if m and DASHED.match(m.group(1)) and m.group(1) not in known:
                    found[m.group(1)] = snake(m.group(1))
    back = {}
    for a, b in found.items():
        back.setdefault(b, []).append(a)
    for b, group in back.items():
        for a in group if len(group) > 1 else ():
            if "-" in a:
                found[a] = b + "_lem"
    return found


def scope(path, text, names):
    """The names of the table that this file may turn: in a proof of a function, a dashed name only where it is imported."""
    names = dict(names)
    for crate, module, name in LEMMAS:
        own = path.endswith(f"/crates/{crate}/proofs/{module}.antt")
        if own or re.search(rf"^use Rattle\.{crate}\.proofs\.{module}\.\{{[^}}]*(?<![\w-]){name}(?![\w-])", text, re.M):
            names[name] = snake(name) + "_lem"
        elif name in names:
            del names[name]
    if not path.endswith(".antt") or lemma_file(path):
        return names
    used = set()
    for m in re.finditer(r"^use [^\n{]*\{([^}]*)\}", text, re.M):
        used |= {w.strip().split(" ")[0] for w in m.group(1).split(",")}
        used |= {w.strip().split(" ")[-1] for w in m.group(1).split(",")}
    return {a: b for a, b in names.items() if "-" not in a or a in used}


def turn(path, text, names):
    here = scope(path, text, names)
    if path.endswith(".rt"):
        return turn_source(text, here)
    made = path.endswith(".antt") and not lemma_file(path)

    def new(m):
        # In a proof of a function a field with a dash is a step of the code, whose name the check makes.
        if made and "-" in m.group(0) and text[m.start() - 1] == ".":
            return m.group(0)
        return here.get(m.group(0), m.group(0))

    return WORD.sub(new, text)


def turn_source(text, names):
    """Only ghost lines and the clauses: from a word of a clause to its closing brace."""
    out, i = [], 0
    start = re.compile(r"(?m)^(\s*)(?:ghost|requires|ensures|also_\w+|decreases)\b")
    while True:
        m = start.search(text, i)
        if not m:
            return "".join(out) + text[i:]
        j = m.end()
        depth, k = 0, j
        while k < len(text):
            c = text[k]
            if c == "{":
                depth += 1
            elif c == "}":
                depth -= 1
                if depth == 0:
                    k += 1
                    break
            elif c == ";" and depth == 0:
                break
            k += 1
        out.append(text[i : m.start()])
        out.append(WORD.sub(lambda w: names.get(w.group(0), w.group(0)), text[m.start() : k]))
        i = k


# Constructors that stand several in a line, or whose name a library's lemma has too: (words, files).
CONSTRUCTORS = [
    ("op-first op-second call-first call-enter", ["spec_machine/specs/Machine.antt", "spec_machine/specs/Next.antt"]),
    (
        "and-true and-false",
        [
            "spec_machine/specs/Machine.antt",
            "spec_machine/specs/Next.antt",
            "spec_machine/proofs/History.antt",
            "spec_machine/proofs/Progress.antt",
            "spec_machine/proofs/One.antt",
            "spec_machine/proofs/Keep.antt",
        ],
    ),
]


def constructors(root):
    for words, paths in CONSTRUCTORS:
        table = {w: snake(w) for w in words.split()}
        for path in paths:
            p = os.path.join(root, "crates", path)
            text = open(p, encoding="utf-8").read()
            lines = [l if "mathlib.Core.Bool" in l else WORD.sub(lambda m: table.get(m.group(0), m.group(0)), l) for l in text.split("\n")]
            open(p, "w", encoding="utf-8").write("\n".join(lines))


def main(dry):
    root = os.getcwd()
    known = library()
    names = table(root, known)
    back = {}
    for a, b in names.items():
        back.setdefault(b, []).append(a)
    for b, a in sorted(back.items()):
        if len(a) > 1:
            print(f"together: {b}: {' '.join(a)}")
    for p in files(root, (".antt", ".rt", ".edit")):
        text = open(p, encoding="utf-8").read()
        here = scope(p, text, names)
        words = set(WORD.findall(re.sub(r"--.*|//.*", "", text)))
        for w in sorted(words):
            if w in here and here[w] in words:
                print(f"clash: {os.path.relpath(p, root)}: {w} {here[w]}")
        new = turn(p, text, names)
        if not dry and new != text:
            open(p, "w", encoding="utf-8").write(new)
    if not dry:
        constructors(root)
    print(f"names: {len(names)}")


if __name__ == "__main__":
    main("--dry" in sys.argv)
