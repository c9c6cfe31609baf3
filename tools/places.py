"""Prints places in src/ that may have an older form, a line each, point by point.

    python3 tools/places.py [ROOT]        every point, with the number of lines of each
    python3 tools/places.py [ROOT] 3      one point

A line printed is a place to look at, not a fault. docs/DESIGN-PASS.md says what was found.
"""
import collections
import difflib
import glob
import os
import re
import sys

ROOT = next((a for a in sys.argv[1:] if not a.isdigit()), ".")
ONLY = [int(a) for a in sys.argv[1:] if a.isdigit()]

# Lines of code that match, by point. Point 2, 5 and 8 are not a matter of one line.
PATTERNS = {
    1: r"Option<\(\)>|Result<Option<|-> \((u8|u32|bool), |\b(fault|role|clearance|kind|code|status): u(8|16|32)\b"
       r"|\b[A-Z][a-z]+\d+\b|fn (number|told)\(self\)|fn of\(number|^\s*(pub )?enum |^\s*(pub|pub\(crate\)) enum ",
    3: r"for \w+ in [^{]*\.\.|\bwhile\b",
    4: r"fn (same|is_pair|number|told|name|title|of|bytes_of|covers|meet|state|text|hex|field|start|finish|header|base)\b"
       r"|fn \w+_(line|text)\b|[\w)] as u(8|16|32|64)\b",
    6: r"\blen: usize|^\s*(pub |pub\(crate\) )?\w+: \[\w+; \w+\],|out: &mut \[|buffer: &mut \[|: Vec<[A-Z]",
    7: r"\}? else if |match (kind|chosen|command|part|place|line) \{|\[fn\(|: fn\(",
}


def files():
    for name in sorted(glob.glob(os.path.join(ROOT, "crates/*/src/**/*.rt"), recursive=True)):
        yield os.path.relpath(name, ROOT), open(name, encoding="utf8").read().splitlines()


def code(line):
    return re.sub(r"//.*", "", line)


def by_line(point):
    for name, lines in files():
        for n, line in enumerate(lines, 1):
            if not code(line).lstrip().startswith("ghost") and re.search(PATTERNS[point], code(line)):
                yield f"{name}:{n}: {line.strip()}"


def functions():
    """Each function with a body, as (file, line, name, body without names, numbers and texts)."""
    for name, lines in files():
        k = 0
        while k < len(lines):
            head = re.match(r"(\s*)(?:pub |pub\(\w+\) )?(?:const )?fn (\w+)", lines[k])
            if not head or lines[k].rstrip().endswith(";"):
                k += 1
                continue
            end = next((j for j in range(k, len(lines)) if lines[j].rstrip() == head[1] + "}"), k)
            text = " ".join(code(x) for x in lines[k:end + 1] if not re.match(r"\s*(ensures|requires)\b", x))
            body = re.findall(r"[A-Za-z_]\w*|\d\w*|b?\"[^\"]*\"|b?'[^']*'|\S", text)
            shape = ["n" if re.match(r"[A-Za-z_0-9b\"']", w) and w not in KEPT else w for w in body]
            yield name, k + 1, head[2], shape
            k = end + 1


KEPT = {"if", "else", "match", "for", "in", "while", "return", "let", "mut", "fn", "Ok", "Err", "Some", "None", "as", "self", "Self"}


def twins():
    every = [f for f in functions() if len(f[3]) >= 30]
    for i, a in enumerate(every):
        for b in every[i + 1:]:
            same = a[2] == b[2]
            if abs(len(a[3]) - len(b[3])) > 0.3 * len(a[3]):
                continue
            close = difflib.SequenceMatcher(None, a[3], b[3], autojunk=False).ratio()
            if close >= (0.85 if same else 0.95):
                yield f"{a[0]}:{a[1]}: {a[2]} ~ {b[0]}:{b[1]}: {b[2]} ({close:.2f})"


def clauses():
    """Words of specs/ put on a parameter or a result, that stand in the clauses of three or more functions of a crate."""
    seen = collections.defaultdict(set)
    for name, lines in files():
        at = None
        for line in lines:
            head = re.search(r"\bfn (\w+)", line)
            at = head[1] if head else at
            if at and re.match(r"\s*(ensures|requires)\b", line):
                crate = name.split("/")[1]
                for word in re.findall(r"\b([A-Za-z_]\w*) \(?(?:self|result|r|w|words|s)(?:\.(?:old|new|now|entry))?\b", line):
                    if word not in ("ensures", "requires", "OnOk", "IfOk", "IfErr", "OnErr", "Reads"):
                        seen[crate, word].add((name, at))
                for word in re.findall(r"\b(?:self|result|w|out)\.(?:old\.|new\.|now\.)?(len|items|left|at)\b", line):
                    seen[crate, "." + word].add((name, at))
    for (crate, word), where in sorted(seen.items()):
        if len(where) >= 3:
            yield f"crates/{crate}: {word} in {len(where)} functions"


def parameters():
    """Pairs of parameters, by name, that three or more functions of a crate take together."""
    seen = collections.defaultdict(set)
    for name, lines in files():
        text = "\n".join(code(x) for x in lines)
        for head in re.finditer(r"\bfn (\w+)(?:<[^(]*>)?\(([^)]*)\)", text):
            names = sorted(re.findall(r"\b([a-z_]\w*): ", head[2]))
            crate = name.split("/")[1]
            for i, a in enumerate(names):
                for b in names[i + 1:]:
                    seen[crate, a, b].add((name, head[1]))
    for (crate, a, b), where in sorted(seen.items()):
        if len(where) >= 3:
            yield f"crates/{crate}: {a}, {b} in {len(where)} functions"


def proofs():
    for crate in sorted(glob.glob(os.path.join(ROOT, "crates/*"))):
        found = glob.glob(os.path.join(crate, "proofs/**/*.antt"), recursive=True)
        answers = [f for f in found if f.endswith("Answers.antt")]
        lines = sum(len(open(f, encoding="utf8").read().splitlines()) for f in found)
        if found:
            yield f"{os.path.relpath(crate, ROOT)}: {len(answers)} files of answers, {lines} lines in proofs/"


def point(n):
    if n in PATTERNS:
        return list(by_line(n))
    return {2: lambda: list(twins()), 5: lambda: list(clauses()) + list(parameters()), 8: lambda: list(proofs())}[n]()


for n in ONLY or range(1, 9):
    rows = point(n)
    print(f"point {n}: {len(rows)}")
    for row in rows:
        print("  " + row)
