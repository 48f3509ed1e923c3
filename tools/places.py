#!/usr/bin/env python3
"""Lists the places in crates/*/src where older forms may stand: python3 tools/places.py [COMMIT], at the top; without a commit, the files as they are.
docs/DESIGN-PASS.md says what is looked for, and what became of each place. Tests are left out."""
import collections
import re
import subprocess
import sys


def files(commit):
    listed = ["git", "ls-tree", "-r", "--name-only", commit] if commit else ["git", "ls-files"]
    names = subprocess.run(listed, check=True, capture_output=True, text=True).stdout.split()
    for name in names:
        if re.fullmatch(r"crates/\w+/src/.*\.rt", name) and not name.endswith("tests.rt"):
            if commit:
                yield name, subprocess.run(["git", "show", f"{commit}:{name}"], check=True, capture_output=True, text=True).stdout
            else:
                yield name, open(name, encoding="utf-8").read()


def items(text):
    """Each function, with its impl or trait, its clauses and its body; and each enum and struct with the lines above it."""
    text = re.sub(r"//.*", "", text)
    found, owner, start = [], "", re.compile(r"^( *)(?:pub(?:\(\w+\))? )?(?:final )?(?:const )?(fn|enum|struct|const|impl|trait)\b[ <]*(.*)")
    lines = text.split("\n")
    for i, line in enumerate(lines):
        m = start.match(line)
        if not m:
            continue
        indent, kind, rest = m.groups()
        if kind in ("impl", "trait"):
            owner = re.sub(r"^[^>]*> (?=\w)", "", rest) if rest.startswith(("T:", "M:")) else rest
            owner = owner.rstrip(" {")
            found.append((kind, owner, "", lines[i]))
            continue
        end = i
        last = re.compile(indent + r"(\}|\S.*;$)|.*\{\}$| *(requires|ensures).*;$")
        while kind == "fn" and end + 1 < len(lines) and not last.match(lines[end]):
            end += 1
        first = i
        while first > 0 and lines[first - 1].lstrip().startswith("#["):
            first -= 1
        above = "\n".join(lines[first:i])
        name = re.match(r"\w+", rest)
        found.append((kind, (owner + "::" if indent and owner else "") + (name.group() if name else rest), above, "\n".join(lines[i:end + 1])))
    return found


def main():
    commit = sys.argv[1] if len(sys.argv) > 1 else ""
    places = {n: [] for n in range(1, 8)}
    names, clauses, conversions = collections.defaultdict(list), collections.defaultdict(set), collections.defaultdict(set)
    for file, text in files(commit):
        short = file.replace("crates/", "").replace("/src", "")
        for kind, name, above, body in items(text):
            where = f"{short} {name}"
            plain = name.split("::")[-1]
            if kind in ("enum", "struct") and not ("PartialEq" in above or "Debug" in above):
                places[4].append(f"{where}: no derived equality, no Debug")
            if kind == "enum":
                places[1].append(f"{where}: an enum of our own")
            if kind == "impl" and re.search(r"\b(Display|Debug|From|TryFrom|PartialEq|Eq|Ord|PartialOrd|Clone|Copy|Hash|Default)\b.* for ", name):
                places[4].append(f"{short}: impl {name}, by hand")
            if kind == "const":
                names[plain].append(where)
            if kind != "fn":
                continue
            names[plain].append(where)
            if re.search(r"\bbool\b", body):
                places[1].append(f"{where}: a flag")
            arms = len(re.findall(r"^ *[(\[]?\d.*=> ", body, re.M)) + len(re.findall(r"=> \d+,", body)) + len(re.findall(r"\[0\] = \d", body))
            if arms > 1 or re.search(r"\bkind: u8\b|-> u8\b", body) or re.search(r"self as u\d+", body):
                places[1].append(f"{where}: numbers for cases")
            if re.search(r"\b(while|loop)\b|for \w+ in (\d|0\.\.)|\+= ", body):
                places[3].append(f"{where}: a loop")
            if len(re.findall(r"\bbyte_at\(\w+, \d+\)", body)) > 2:
                places[3].append(f"{where}: places one after the other")
            if re.match(r"^ *(pub(\(\w+\))? )?fn (\w+)\((self|\w+: u\d+|bytes: &\[u8\])\) -> ", body) and re.search(r"self as|from_|=> Some\(|\bread\b|to_bytes|number|\bkind\b|\bown\b", body):
                if plain not in ("length", "count"):
                    places[4].append(f"{where}: a conversion by a method")
            for clause in re.findall(r"(?:requires|ensures)(?: \w+)? \{ (.*) \}", body):
                clauses[re.sub(r"\d+", "N", clause)].add(where)
                for word in re.findall(r"\b\w*_of\b|\bas_\w+|\bnon_zero\w+", clause):
                    conversions[word].add(where)
            if re.search(r"&mut \[u8\]", body) and re.search(r"usize", body) or re.search(r"\b(filled|len|count): (usize|u32)\b", body):
                places[6].append(f"{where}: a buffer, and a length")
            if re.search(r"fn\(|dyn ", body) or len(set(re.findall(r"=> (\w+)\(", body)) - {"Some", "Ok", "Err"}) > 1:
                places[7].append(f"{where}: a choice of steps")
    for plain, where in sorted(names.items()):
        if len(where) > 1 and plain not in ("fmt", "new"):
            places[2] += [f"{plain}: {w}" for w in where]
    for clause, where in sorted(clauses.items()):
        if len(where) > 2:
            places[5] += [f"`{clause}`: {w}" for w in sorted(where)]
    for word, where in sorted(conversions.items()):
        if len(where) > 2:
            places[5] += [f"`{word}`: {w}" for w in sorted(where)]
    for n, listed in places.items():
        print(f"point {n}: {len(listed)}")
        for place in sorted(listed):
            print("   ", place)


main()
