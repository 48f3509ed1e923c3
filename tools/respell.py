#!/usr/bin/env python3
"""Respells this repository's own definitions, lemmas, fields and local names: words in snake case, facts and types in camel case.

usage: python3 tools/respell.py [--dry]      at the top of the repository, once, right after /opt/rattle/port/port.py

It looks at crates/*/specs, crates/*/proofs and the clauses in crates/*/src, outside comments and strings, and at names between backticks in README.md and docs/.
A name that a file imports from the library, or that Rattle makes of a function's code, stays. It stops where two names would fall together.
"""

import glob
import re
import sys

# A name of several words, joined by dashes.
NAME = re.compile(r"(?<![\w'-])[A-Za-z_][\w']*(?:-[\w']+)+(?![\w'])")
USE = re.compile(r"^\s*(?:ghost )?use ([\w.·+]+?)(?:\.\{(.*?)\})?(?: as \w+)?;?$")
OWN = re.compile(r"^Rattle[.·](scale|modular|wire|answers|desk)[.·](specs|proofs)\.(?!declared)")

# What Rattle makes of the code of a function: goals, steps and branches.
MADE = {
    "returns-in-Listed", "returns-in-Three", "returns-in-Two", "returns-else-place-bytes",
    "in-Listed", "in-Three", "in-Two",
    "put-in-Listed", "put-in-Three", "put-in-Three-2", "put-in-Three-3", "put-in-Two", "put-in-Two-2",
    "put-number", "put-number-2", "put-number-3", "put-number-in-Listed",
    "invariant-loop-filled", "decreases-loop-filled",
}


def respelled(name):
    """All-different is AllDifferent, so-large is so_large."""
    parts = name.split("-")
    if name[0].isupper():
        return "".join(p[0].upper() + p[1:] for p in parts)
    return "_".join(parts)


def pieces(text, path):
    """The text in turns of code and of what stays: comments and strings."""
    comment = r"--(?= |$).*" if path.endswith(".antt") else r"//.*"
    at = 0
    for m in re.finditer(r'"(?:[^"\\\n]|\\.)*"|' + comment, text, re.M):
        yield text[at : m.start()], True
        yield m.group(), False
        at = m.end()
    yield text[at:], True


def imported(text):
    """The names that a file imports from elsewhere than the repository's own specs and proofs."""
    names = set()
    for line in text.split("\n"):
        m = USE.match(line)
        if m and m.group(2) and not OWN.match(m.group(1)):
            names |= {re.sub(r"^.* as ", "", n.strip()) for n in m.group(2).split(",")}
            names |= {n.strip().split(" ")[0] for n in m.group(2).split(",")}
    return names


def main(dry):
    paths = sorted(p for d in ("specs", "proofs", "src") for p in glob.glob(f"crates/*/{d}/**/*", recursive=True) if p.endswith((".antt", ".rt")))
    texts = {}
    for p in paths:
        with open(p, encoding="utf-8") as f:
            texts[p] = f.read()
    library = set().union(*(imported(t) for t in texts.values()))
    names = set()
    for p, t in texts.items():
        for code, is_code in pieces(t, p):
            if is_code:
                names |= {m.group() for m in NAME.finditer(code)}
    names -= library | MADE
    words = {n: respelled(n) for n in sorted(names)}
    fall = {}
    for n, w in words.items():
        fall.setdefault(w, []).append(n)
    bad = [f"{' and '.join(ns)} are both {w}" for w, ns in fall.items() if len(ns) > 1]
    known = re.compile(r"[A-Za-z_][\w']*")
    for p, t in texts.items():
        code = "".join(c for c, is_code in pieces(t, p) if is_code)
        code = re.sub(r"(?m)^\s*(?:ghost )?use [\w.+]+", "", code)
        here = set(known.findall(code)) if p.endswith(".antt") else set()
        bad += [f"{p}: {n} and {words[n]}" for n in {m.group() for m in NAME.finditer(code)} & names if words[n] in here]
    if bad:
        print("\n".join(bad))
        return 1

    def turn(code):
        return NAME.sub(lambda m: words.get(m.group(), m.group()), code)

    for p, t in texts.items():
        new = "".join(turn(c) if is_code else c for c, is_code in pieces(t, p))
        if new != t and not dry:
            with open(p, "w", encoding="utf-8") as f:
                f.write(new)
    for p in ["README.md", *sorted(glob.glob("docs/*.md"))]:
        with open(p, encoding="utf-8") as f:
            t = f.read()
        new = re.sub(r"`[^`\n]*`", lambda m: turn(m.group()), t)
        if new != t and not dry:
            with open(p, "w", encoding="utf-8") as f:
                f.write(new)
    print(f"{len(words)} names respelled")
    if dry:
        print("\n".join(f"{n} {w}" for n, w in words.items()))
    return 0


if __name__ == "__main__":
    raise SystemExit(main("--dry" in sys.argv[1:]))
