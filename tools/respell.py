#!/usr/bin/env python3
"""Respells the repository's own definitions, lemmas, record fields and constructors in the way that today's Rattle
spells names: words in snake case, types and facts in upper camel case. Run once at the top, after the kit's port.py:

    python3 tools/respell.py [ROOT]

Functions of src/, exported names, strings, inputs and outputs keep their names, and so do names that Rattle makes
(goals, steps): these are turned while the proofs are mended. It refuses to write where two names would fall together.
"""
import glob
import os
import re
import sys

root = sys.argv[1] if len(sys.argv) > 1 else "."
IDENT = r"[^\s(){}\[\].,;:«»⌜⌝`\"]+"
TOKEN = re.compile(IDENT)


def files(*patterns):
    found = []
    for pattern in patterns:
        found += glob.glob(os.path.join(root, "crates", "*", pattern), recursive=True)
    return sorted(found)


# names that would fall together with one of the library's
CHOSEN = {"bit-and": "bit_of_and", "bit-or": "bit_of_or", "bit-xor": "bit_of_xor"}


def spelled(name):
    """The name in today's spelling."""
    if name in CHOSEN:
        return CHOSEN[name]
    if name[0].isupper():
        return "".join(part[0].upper() + part[1:] for part in name.split("-"))
    name = name.replace("-", "_")
    return re.sub(r"([a-z])([A-Z])", lambda m: m.group(1) + "_" + m.group(2).lower(), name)


def is_plain(name):
    """A name of letters, digits, primes and dashes, and not an operator."""
    return re.fullmatch(r"[A-Za-z][A-Za-z0-9']*(?:-[A-Za-z0-9']+)*", name) is not None


def wants_change(name):
    return is_plain(name) and spelled(name) != name


SIGNATURE = re.compile(r"^(\s*)((?:abbrev |pub |unfoldable |opaque )*)(" + IDENT + r") :(?= |$)(.*)")


def declared(text):
    """The names that a file declares, as three sets: words, record fields, and names of Rattle's own goals."""
    words, fields, goals = set(), set(), set()
    block = False
    for line in text.split("\n"):
        if line.startswith("use ") or line.strip().startswith("--"):
            continue
        head = re.match(r"^(?:pub )?(?:record|data) (?:pub )?(" + IDENT + ")", line)
        if head:
            block = True
            words.add(head.group(1))
            continue
        found = SIGNATURE.match(line)
        if found:
            if found.group(1) == "":
                block = False
            name, of = found.group(3), found.group(4).strip()
            if re.match(r"(goal|given|holds|need)\.", of):
                goals.add(name)
            elif block and found.group(1):
                fields.add(name)
            else:
                words.add(name)
        elif line and not line[0].isspace():
            block = False
    return words, fields, goals


def bound(text):
    """Variables of lemmas: those in signatures, lets, lambdas and patterns."""
    names = set()
    for m in re.finditer(r"[({]((?:" + IDENT + r" )+):", text):
        names |= set(m.group(1).split())
    for m in re.finditer(r"\blet (" + IDENT + ")", text):
        names.add(m.group(1))
    for m in re.finditer(r"λ ([^.]*)\.", text):
        names |= set(TOKEN.findall(m.group(1)))
    for m in re.finditer(r"^\s*" + IDENT + r"((?: [^=\n]*)?) =(?: |$)", text, re.M):
        names |= set(TOKEN.findall(m.group(1)))
    return names


def imported(text):
    """The names that a file imports from outside the repository."""
    own = set(os.path.basename(os.path.dirname(p)) for p in glob.glob(os.path.join(root, "crates", "*", "src")))
    names = set()
    for m in re.finditer(r"^\s*(?:ghost |pub )*use ([^;\n{]*)(?:\{([^}]*)\})?", text, re.M):
        parts = m.group(1).split(".")
        if len(parts) > 1 and parts[0] == "Rattle" and parts[1] in own:
            continue
        names |= set(n.split(" as ")[0].strip() for n in (m.group(2) or "").split(","))
    return names


antt = files("specs/**/*.antt", "proofs/**/*.antt")
texts = {path: open(path).read() for path in antt}
words, fields, goals = set(), set(), set()
of_file = {}
for path, text in texts.items():
    w, f, g = declared(text)
    of_file[path] = (w, f, g)
    words |= w
    fields |= f
    goals |= g

word_map = {n: spelled(n) for n in words if wants_change(n)}
field_map = {n: spelled(n) for n in fields if wants_change(n)}

# names that fall together: within the repository, and with what the same file imports from outside
clashes = []
by_new = {}
for old, new in word_map.items():
    by_new.setdefault(new, set()).add(old)
for new, olds in by_new.items():
    if len(olds) > 1:
        clashes.append(f"{sorted(olds)} would all be {new}")
for path, text in texts.items():
    outside = imported(text)
    here = set(TOKEN.findall(text))
    own = of_file[path][0] | set(n for n in here if n in words)
    for old in here & set(word_map):
        if word_map[old] in outside:
            clashes.append(f"{path}: {old} falls together with an imported {word_map[old]}")
        if word_map[old] in own:
            clashes.append(f"{path}: {old} falls together with {word_map[old]}")


def turn(text, locals_map=None, strings=True):
    """Every whole name in the text, but for what follows a dot (a step, or a field, which has its own list)."""
    locals_map = dict(locals_map or {})
    modules = set(re.findall(r"^\s*(?:ghost |pub )*use [^;{}\n]* as (" + IDENT + ")", text, re.M))
    for alias in re.findall(r"[{,] *" + IDENT + " as (" + IDENT + ")", text):
        if wants_change(alias):
            locals_map[alias] = spelled(alias)
    out, last = [], 0
    quoted = [(m.start(), m.end()) for m in re.finditer(r'"(?:[^"\\\n]|\\.)*"', text)] if strings else []

    def in_string(at):
        return any(a < at < b for a, b in quoted)

    for m in TOKEN.finditer(text):
        name = m.group(0)
        new = None
        before = text[m.start() - 1] if m.start() else " "
        if in_string(m.start()):
            continue
        if before == ".":
            of = re.search(r"([A-Za-z0-9_'-]+)\.$", text[:m.start()])
            new = word_map.get(name) if of and of.group(1) in modules else field_map.get(name)
        elif name in locals_map:
            new = locals_map[name]
        elif name in word_map:
            new = word_map[name]
        elif name in field_map and re.match(r"\s*[=:]", text[m.end():]):
            new = field_map[name]
        if new is not None:
            out.append(text[last:m.start()])
            out.append(new)
            last = m.end()
    out.append(text[last:])
    return "".join(out)


results = {}
for path, text in texts.items():
    outside = imported(text)
    here = set(TOKEN.findall(text))
    names = set(n for n in bound(text) if wants_change(n) and n not in outside and n not in word_map and n not in goals)
    local = {}
    for n in sorted(names):
        new = spelled(n)
        if new in here or new in set(word_map.get(h, h) for h in here):
            clashes.append(f"{path}: the variable {n} falls together with {new}")
        else:
            local[n] = new
    results[path] = turn(text, local)

for path in files("src/**/*.rt", "must-fail/*.edit"):
    text = open(path).read()
    results[path] = turn(text)

# in pages: names between backticks
for path in glob.glob(os.path.join(root, "docs", "*.md")) + [os.path.join(root, "README.md")]:
    text = open(path).read()
    results[path] = re.sub(r"`([^`\n]*)`", lambda m: "`" + word_map.get(m.group(1), m.group(1)) + "`", text)

for line in clashes:
    print("clash:", line)
if clashes and "--force" not in sys.argv:
    sys.exit(1)
changed = 0
for path, text in results.items():
    if open(path).read() != text:
        changed += 1
        with open(path, "w") as out:
            out.write(text)
print(f"respell: {len(word_map)} words, {len(field_map)} fields, {changed} files")
