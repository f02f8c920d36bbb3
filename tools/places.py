#!/usr/bin/env python3
"""Lists the places in src/ at which each point of docs/DESIGN-PASS.md looks: FILE:LINE: what stands there.

usage: tools/places.py [COMMIT]     (no commit: the files as they lie here)

It goes by the text, so it finds more than there is to change: the page judges each line.
"""
import collections
import re
import subprocess
import sys

COMMIT = sys.argv[1] if len(sys.argv) > 1 else None


def run(*args):
    return subprocess.run(args, capture_output=True, text=True, check=True).stdout


def sources():
    listing = run("git", "ls-tree", "-r", "--name-only", COMMIT, "crates") if COMMIT else run(
        "git", "ls-files", "-co", "--exclude-standard", "crates")
    for name in sorted(listing.split()):
        if re.match(r"crates/\w+/src/.*\.rt$", name):
            yield name, run("git", "show", f"{COMMIT}:{name}") if COMMIT else open(name).read()


def block(text, at):
    """The text between the first brace from `at` on and the one that closes it."""
    begin = text.index("{", at)
    depth = 0
    for i in range(begin, len(text)):
        depth += {"{": 1, "}": -1}.get(text[i], 0)
        if depth == 0:
            return text[begin:i + 1]
    return text[begin:]


FILES = list(sources())
FOUND = collections.OrderedDict()


def find(point, name, text, at, note=""):
    line = text.count("\n", 0, at) + 1
    shown = text[text.rfind("\n", 0, at) + 1:].split("\n", 1)[0].strip()
    FOUND.setdefault(point, []).append(f"{name[7:]}:{line}: {note or shown}")


def each(point, pattern, note=lambda m: ""):
    FOUND.setdefault(point, [])
    for name, text in FILES:
        for m in re.finditer(pattern, text, re.M):
            find(point, name, text, m.start(), note(m))


# 1
FOUND["1a enums with variants that hold a value"] = []
for name, text in FILES:
    for m in re.finditer(r"^ *(pub(\(crate\))? )?enum (\w+)", text, re.M):
        body = re.sub(r"//.*", "", block(text, m.end())[1:-1])
        shape = re.sub(r"\s+", " ", body).strip()
        if "(" in shape or "{" in shape:
            find("1a enums with variants that hold a value", name, text, m.start(), f"enum {m.group(3)}: {shape}")
each("1b flags", r"\b\w+: bool\b|<bool\b")
each("1c arms that turn an enum into a number", r"^ *\S+::\w+(\(\w+\)|( \{ \.\. \}))? => \d+,")
each("1d Option and Result taken apart and built again", r"^ *(None => None|Err\(_?\w*\) => (None|Err|unreach)|Ok\(\w*\) => Some|Some\(.*\) => Some|None => Some)")

# 2
names = collections.defaultdict(list)
for name, text in FILES:
    for m in re.finditer(r"^ *(?:pub(?:\(crate\))? )?(?:fn|struct|enum|trait) (\w+)", text, re.M):
        inside = text.rfind("\nimpl", 0, m.start())
        of_trait = inside >= 0 and " for " in text[inside:text.index("{", inside)] and text.find("\n}\n", inside) > m.start()
        if not of_trait and m.group(1) not in ("new", "main", "run"):
            names[m.group(1)].append((name, text, m.start()))
FOUND["2a names that stand in two files"] = []
for word, at in sorted(names.items()):
    if len({n for n, _, _ in at}) > 1:
        for name, text, start in at:
            find("2a names that stand in two files", name, text, start)
shapes = collections.defaultdict(list)
for name, text in FILES:
    for m in re.finditer(r"^ *(?:pub(?:\(crate\))? )?(?:fn \w+[^;{]*|impl[^{;]*)\{", text, re.M):
        if "fn " not in m.group(0):
            continue
        body = re.sub(r"//.*", "", block(text, m.end() - 1))
        shape = re.sub(r"\b(u8|u32|u64|i64|usize)\b", "N", body)
        shape = re.sub(r"\b[a-z_]\w*\b|\b\d+\b", "x", re.sub(r"\s+", " ", shape))
        if len(shape) > 60:
            shapes[shape].append((name, text, m.start()))
FOUND["2b functions whose bodies have one shape"] = []
for shape, at in shapes.items():
    if len(at) > 1:
        for name, text, start in at:
            find("2b functions whose bodies have one shape", name, text, start)

# 3
for point in ("3a loops over a range whose number is used", "3b loops over a range that repeat", "3c while and loop"):
    FOUND[point] = []
for name, text in FILES:
    for m in re.finditer(r"^ *for (\w+) in [^\n]*\.\.[^\n]*\{$", text, re.M):
        if re.search(r"\b(iter|get|\[)\b", m.group(0).split(" in ")[1]) or re.search(r"\[[^\]]*\.\.", m.group(0)):
            continue
        used = not m.group(1).startswith("_")
        find("3a loops over a range whose number is used" if used else "3b loops over a range that repeat", name, text, m.start())
    for m in re.finditer(r"^ *(while|loop)\b", text, re.M):
        find("3c while and loop", name, text, m.start())

# 4
each("4a impls of equality, order, copying, conversion and printing", r"^ *impl.*\b(PartialEq|Eq|PartialOrd|Ord|Clone|Copy|Default|From|TryFrom|FromStr|Display|Debug)\b.* for ")
each("4b arms that turn an enum into a word", r"^ *\S+::\w+ => \"")
each("4c functions that compare, convert or print by hand", r"^ *(pub(\(crate\))? )?fn (\w*_of|number|value|number_at|is_less|better|together|added|at_most|reply|opposite|out_of_memory|bounded|bound_count|\w*digit\w*|byte_at|push_\w+|show\w*|parts|fault_line|fault_text|word\w*)\b.*")

# 5
facts = collections.defaultdict(list)
pairs = collections.defaultdict(list)
for name, text in FILES:
    crate = name.split("/")[1]
    for m in re.finditer(r"fn (\w+)(?:<[^>]*>)?\(([^{;]*?)\)[^{;]*?\n((?:\s*(?:where|requires|ensures|[A-Z]\w*:)[^\n]*\n)*)", text):
        for clause in re.findall(r"requires(?: \w+)? \{ (.*) \}", m.group(3)):
            for fact in clause.split(" × "):
                facts[crate, fact.strip("() ")].append(m.group(1))
        words = re.findall(r"(\w+): ", m.group(2))
        for i, a in enumerate(words):
            for b in words[i + 1:]:
                pairs[crate, a, b].append(m.group(1))
FOUND["5a facts that three or more functions require"] = [
    f"{k[0]}: {k[1]} [{', '.join(sorted(set(v)))}]" for k, v in facts.items() if len(set(v)) >= 3]
FOUND["5b parameters that travel together through three or more functions"] = [
    f"{k[0]}: {k[1]}, {k[2]} [{', '.join(v)}]" for k, v in pairs.items() if len(v) >= 3]

# 6
each("6a arrays of fixed length", r"^ +(pub(\(crate\))? )?\w+: \[.*; \w+\],?$|^ *let mut \w+ = \[.*; \w+\];")
FOUND["6b structs with two lists"] = []
for name, text in FILES:
    for m in re.finditer(r"^ *(pub(\(crate\))? )?struct (\w+)", text, re.M):
        if text[m.end():].split("\n", 1)[0].rstrip().endswith(";"):
            continue
        body = block(text, m.end())
        if len(re.findall(r": (?:\[.*;|Vec<|&(?:'\w+ )?(?:mut )?\[)", body)) > 1:
            find("6b structs with two lists", name, text, m.start())

# 7
each("7a dyn, function pointers and flags that choose a step", r"\bdyn\b|: fn\(|^ *(pub )?fn \w+.*\b\w+: bool\b")
each("7b matches that choose a step", r"^ *match .*\{$\n(?: *\S.*=> (?:self\.|Self::|\w+\()[^\n]*\n){2,}")

total = 0
for point, lines in FOUND.items():
    print(f"{point}: {len(lines)}")
    for line in lines:
        print(f"    {line}")
