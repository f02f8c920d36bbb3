#!/usr/bin/env python3
"""Brings the repository's own definitions and lemmas to today's spelling, in place.

usage: python3 tools/respell.py      at the top of the repository, once, after the toolchain's port.py

A definition, a lemma, a field or a constructor of specs/ and proofs/ whose name has a dash gets it in snake case, or in
upper camel case where it begins with a capital. Names that come from src/ keep their spelling inside the names that
Rattle makes in proofs/, so find-sink-sink becomes find_sink-sink. Functions of src/ keep their names. It says which new
names fall together with another name.
"""
import os
import re
import sys

TOKEN = r"[^\s(){}\[\];,.:\"`⌜⌝«»@|]+"
PART = re.compile("(" + TOKEN + ")")
MADE = ("Answers.antt", "Invariants.antt", "Proof.antt")
KEYWORDS = {"where", "use", "mod", "data", "record", "ruleset", "infix", "infixl", "infixr", "mutual", "elim", "let", "in"}


def files(kinds):
    for folder, dirs, names in os.walk("crates"):
        dirs[:] = sorted(d for d in dirs if d != "out")
        for name in sorted(names):
            if name.endswith(kinds):
                yield os.path.join(folder, name)


def read(path):
    with open(path, encoding="utf-8") as f:
        return f.read()


def new_name(name):
    parts = name.split("-")
    if name[0].isupper():
        return "".join(p[:1].upper() + p[1:] for p in parts)
    return "_".join(parts)


def own_names():
    """Every name that a file of specs/ or proofs/ defines, but for the answers to goals."""
    names = set()
    head = re.compile(r"^(?:(?:pub|abbrev|unfoldable|record|data)\s+)*(%s)\s*(?=[:({])(.*)$" % TOKEN)
    field = re.compile(r"^\s+(?:pub\s+)?(%s)\s*:\s(.*)$" % TOKEN)
    inner = re.compile(r"^\s+(?:(?:pub|abbrev|unfoldable|record|data)\s+)+(%s)\s*(?=[:({])(.*)$" % TOKEN)
    plain = re.compile(r"^  (%s)\s*:\s(.*)$" % TOKEN)
    for path in files(".antt"):
        inside = False
        for line in read(path).splitlines():
            if line.startswith("--"):
                continue
            if re.match(r"^(?:pub\s+)?(?:data|record)\b", line):
                inside = True
                m = head.match(line)
            elif line.strip() and not line[0].isspace():
                inside = False
                m = head.match(line)
            elif inside:
                m = field.match(line)
            else:
                m = inner.match(line) or plain.match(line)
            if m and m.group(1) not in KEYWORDS and not re.match(r"\s*:?\s*goal\.", m.group(2)):
                names.add(m.group(1))
    return names


def source_names():
    """Names of src/ that have an underscore."""
    found = set()
    for path in files(".rt"):
        for line in read(path).splitlines():
            code = line.split("//")[0]
            found.update(re.findall(r"\b[a-z][a-z0-9]*(?:_[a-z0-9]+)+\b", code))
    return found


def from_std(text):
    found = set()
    for m in re.finditer(r"^(?:ghost )?use Rattle\.(?:std|core)[^{\n]*\.\{([^}]*)\}", text, re.M):
        for part in m.group(1).split(","):
            found.add(part.strip().split(" as ")[-1].strip())
    return found


def spell_made(token, sources):
    """The dashes of source names inside a made name become underscores again, the longest names first."""
    parts = token.split("-")
    out, i = [], 0
    while i < len(parts):
        for j in range(len(parts), i + 1, -1):
            whole = "_".join(parts[i:j])
            if whole in sources:
                out.append(whole)
                i = j
                break
        else:
            out.append(parts[i])
            i += 1
    return "-".join(out)


def turn(text, change, comment):
    lines = []
    for line in text.split("\n"):
        code, mark, rest = line.partition(comment) if comment in line else (line, "", "")
        if comment == "--" and mark and code and not code.endswith(" ") and code.strip():
            code, mark, rest = line, "", ""
        lines.append(PART.sub(lambda m: change(m.group(1)), code) + mark + rest)
    return "\n".join(lines)


def main():
    names = own_names()
    table = {n: new_name(n) for n in names if "-" in n and not n.startswith("-")}
    sources = source_names()
    taken = {}
    for old, new in sorted(table.items()):
        taken.setdefault(new, []).append(old)
        if new in names:
            taken[new].append(new)
        if new in sources:
            print(f"look: {new} is also a name of src/")
    for new, olds in sorted(taken.items()):
        if len(set(olds)) > 1:
            print(f"look: {', '.join(sorted(set(olds)))} fall together as {new}")
    count = 0
    for path in files((".antt", ".rt")):
        text = read(path)
        std = from_std(text)
        made = os.path.basename(path) in MADE or "/proofs/" in path

        def change(token):
            if "-" not in token or token in std:
                return token
            if token in table:
                return table[token]
            return spell_made(token, sources) if made else token

        new = turn(text, change, "//" if path.endswith(".rt") else "--")
        if new != text:
            count += 1
            with open(path, "w", encoding="utf-8") as f:
                f.write(new)
    print(f"respell: {len(table)} names, {count} files")


if __name__ == "__main__":
    sys.exit(main())
