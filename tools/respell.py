#!/usr/bin/env python3
"""Spells this repository's own definitions, lemmas and ghost members as the library does: values in snake case, facts and types in camel case.

    python3 tools/respell.py [FOLDER]

runs once, after the toolchain's port.py, at the top of a repository (or of FOLDER). It collects the names that specs/*.antt and the lemma
files proofs/*.antt define and the ghost members of src/, and rewrites them in .rt and .antt files, must-fail edits and pages. Names that
Rattle makes (goals, invariants, fields of goals) stay, as do the functions of src/. Two names that would fall together stop it before
anything is written; a new name that stands somewhere already is printed, to be looked at.
"""
import os
import re
import sys

LETTER = r"A-Za-z0-9_'·′"
WORD = f"[{LETTER}-]"
DEFINES = re.compile(r"^\s*(?:(?:abbrev|unfoldable|pub|instance)\s+)*(?P<name>[A-Za-z]" + WORD + r"*)\s+:\s")
DECLARES = re.compile(r"^\s*(?:(?:abbrev|unfoldable|pub)\s+)*(?:record|data)\s+(?P<name>[A-Za-z]" + WORD + r"*)")
GHOST = re.compile(r"\bghost (?!fn\b|use\b)(?P<name>[A-Za-z]\w*)\s*[:=]")


# a lemma that would fall together with the definition that it is about
ELSE = {"compartments-of": "compartments_of_number"}


def snake(name):
    """taskStep and task-step become task_step, Task-step TaskStep; length-of stays, since that dash joins two names."""
    if name in ELSE:
        return ELSE[name]
    if name[0].isupper():
        return "".join(p[:1].upper() + p[1:] for p in name.split("-"))
    parts = re.sub(r"(?<=[a-z0-9])([A-Z])", r"_\1", name).lower().split("-")
    return "length-" + "_".join(parts[1:]) if parts[0] == "length" and parts[1:] else "_".join(parts)


def files(root, endings):
    for folder, dirs, names in os.walk(root):
        dirs[:] = sorted(d for d in dirs if d not in ("out", "target", ".git", "tools"))
        for f in sorted(names):
            if f.endswith(endings) and f != "PORT.md":
                yield os.path.join(folder, f)


def lemma_files(root):
    return [p for p in files(os.path.join(root, "crates"), (".antt",)) if os.path.basename(os.path.dirname(p)) in ("specs", "proofs")]


def read(path):
    with open(path, encoding="utf-8") as f:
        return f.read()


def own_names(root):
    """The names of definitions and lemmas, and those of ghost members."""
    names = set()
    for path in lemma_files(root):
        for line in read(path).splitlines():
            found = DEFINES.match(line) or DECLARES.match(line)
            if found:
                names.add(found["name"])
    return names, {m["name"] for p in files(os.path.join(root, "crates"), (".rt",)) for m in GHOST.finditer(read(p))}


def words_of(root):
    """The words that each crate's definitions, proofs and clauses speak, by crate."""
    said = {}
    for p in files(os.path.join(root, "crates"), (".antt", ".rt")):
        crate = os.path.relpath(p, os.path.join(root, "crates")).split(os.sep)[0]
        said.setdefault(crate, set()).update(re.findall(WORD + "+", read(p)))
    return said


def imported(root):
    """What the files import from the library."""
    return {w.strip() for p in lemma_files(root) for use in re.findall(r"(?m)^use Rattle\.std[^{\n]*\{([^}]*)\}", read(p)) for w in use.split(",")}


def choice(names):
    return "(" + "|".join(sorted(map(re.escape, names), key=len, reverse=True)) + ")"


def main(root):
    names, ghosts = own_names(root)
    turned = {n: snake(n) for n in names | ghosts if snake(n) != n}
    fixed = (names - set(turned)) | imported(root)
    together = [(a, b) for a, b in turned.items() if b in fixed]
    together += [(a, b) for a in turned for b in turned if a < b and turned[a] == turned[b]]
    together = [(a, b) for a, b in together if any(a in said and b in said for said in words_of(root).values())]
    for a, b in sorted(together):
        print(f"respell: {a} falls together with {b}", file=sys.stderr)
    if together:
        return 1
    places = list(files(root, (".rt", ".antt", ".edit", ".md")))
    standing = re.compile(f"(?<![{LETTER}.-])" + choice(turned.values()) + f"(?!{WORD})")
    for path in places:
        for word in sorted({m[1] for m in standing.finditer(read(path))}):
            print(f"look: {path}: {word} stood here already")
    plain = re.compile(f"(?<![{LETTER}.-])" + choice(turned) + f"(?!{WORD})")
    member = re.compile(r"(?<=\.)" + choice(g for g in ghosts if g in turned) + f"(?!{WORD})")
    for path in places:
        before = read(path)
        after = member.sub(lambda m: turned[m[1]], plain.sub(lambda m: turned[m[1]], before))
        if after != before:
            with open(path, "w", encoding="utf-8") as f:
                f.write(after)
    print(f"respell: {len(turned)} names")
    return 0


if __name__ == "__main__":
    sys.exit(main(sys.argv[1] if len(sys.argv) > 1 else "."))
