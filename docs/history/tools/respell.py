#!/usr/bin/env python3
"""Respells the repository's own ghost names as the library spells its own.

usage: python3 tools/respell.py [--list]     at the top of the repository; --list only shows the names

Definitions, lemmas, record fields, constructors and local names of specs/ and proofs/ go to snake case, types to camel case.
Names of Rattle source, names that Rattle makes (goals, steps, clauses) and names of the library stay.
"""

import os
import re
import sys

TOKEN = re.compile(r"[^\s(){}\[\].,;«»\"`:|]+")
PLAIN = re.compile(r"^[A-Za-z][A-Za-z0-9_'′-]*$")
OWN_CRATES = sorted(os.listdir("crates"))
MADE = ("Answers.antt", "Invariants.antt", "Proof.antt")


def files(*endings):
    for folder, dirs, names in os.walk("crates"):
        dirs[:] = sorted(d for d in dirs if d != "out")
        for name in sorted(names):
            if name.endswith(endings):
                yield os.path.join(folder, name)


def read(path):
    with open(path, encoding="utf-8") as f:
        return f.read()


def is_ours(path):
    """Does a use line's path name the repository's own definitions and lemmas, and not what Rattle makes of a function?"""
    parts = path.split(".")
    if parts[0] != "Rattle" or len(parts) < 3 or parts[1] not in OWN_CRATES or parts[2] not in ("specs", "proofs"):
        return False
    return "declared" not in parts and "contracts" not in parts and "Goals" not in parts and "Given" not in parts


def imports(text):
    """(own names, other names) that a file's use lines bring in."""
    ours, others = set(), set()
    for m in re.finditer(r"^(?:ghost |pub )*use ([\w.·'-]+?)(?:\.\{([^}]*)\})?(?: as [^\s;]+)?;?$", text, re.M):
        path, items = m.group(1), m.group(2)
        names = re.split(r",\s*", items) if items else []
        for item in names:
            words = item.strip().split(" as ")
            (ours if is_ours(path) else others).add(words[0].strip())
            if len(words) > 1:
                ours.add(words[1].strip())
    return ours, others


# Lemmas that would fall together with the definition that they are of.
LEMMAS = {"escaped-all": "escaped_all_lem", "figure-value": "figure_value_lem", "hex-figure": "hex_figure_lem"}


def new_name(name):
    if name in LEMMAS:
        return LEMMAS[name]
    prime = name.replace("′", "'")
    if prime[0].isupper():
        if "-" not in prime:
            return prime
        return "".join(p[:1].upper() + p[1:] for p in prime.split("-"))
    prime = re.sub(r"(?<=[a-z0-9])([A-Z])", r"_\1", prime)
    return prime.replace("-", "_").lower()


def strip_comments(text):
    return re.sub(r"--[^\n]*", "", text)


def own_names():
    """The names to respell, old to new, and where each is declared."""
    declared = {}

    def add(name, path):
        if PLAIN.match(name) and new_name(name) != name:
            declared.setdefault(name, []).append(path)

    for path in files(".antt"):
        text = strip_comments(read(path))
        made = os.path.basename(path) in MADE
        _, others = imports(text)
        for m in re.finditer(r"^(?:(?:pub|abbrev|unfoldable|record|data|ruleset|open)\s+)*([^\s:(){}.,;]+)(?= ?[:({])(.*)$", text, re.M):
            if not (made and re.match(r"\s*:\s*(goal|given|step)\.", m.group(2))):
                add(m.group(1), path)
        for m in re.finditer(r"^ +(?:(?:pub|abbrev|unfoldable) )*([^\s:(){}.,;]+) : (.*)$", text, re.M):
            if not made or not re.match(r"(goal|given|step)\.", m.group(2)):
                add(m.group(1), path)
            if not made:
                if new_name(m.group(1)) != m.group(1):
                    FIELDS.add(m.group(1))
        for m in re.finditer(r"[({]((?:[^\s(){}:.,;]+ )*[^\s(){}:.,;]+) :", text):
            for name in m.group(1).split():
                if name not in others:
                    add(name, path)
        for m in re.finditer(r"\blet ([^\s:(){}.,;]+) [:=]|λ ((?:[^\s(){}:.,;]+ )*[^\s(){}:.,;]+)\.", text):
            for name in (m.group(1) or m.group(2)).split():
                if name not in others:
                    add(name, path)
    for path in files(".rt"):
        ours, _ = imports(read(path))
        for name in ours:
            add(name, path)
    return declared


def own_variables(text, known):
    """Names bound by the left side of an equation, which occur nowhere as a field, an import or a declaration."""
    found = {}
    _, others = imports(text)
    for m in re.finditer(r"^([^\s:(){}.,;-][^\s:(){}.,;]*)((?: [^=:\n]+)) =(?: |$)", text, re.M):
        for word in re.split(r"[\s(){}\[\],∷]+", m.group(2)):
            if PLAIN.match(word) and "." not in word and word not in others and word not in known and new_name(word) != word and word[0].islower():
                found[word] = new_name(word)
    return found


def respell_line(line, names, skip):
    """The line with its names respelled, outside of string literals and comments."""
    comment = re.search(r"(^|\s)(--|//)\s", line)
    code, rest = (line[: comment.start()], line[comment.start() :]) if comment else (line, "")
    parts = re.split(r'("[^"]*")', code)
    for i in range(0, len(parts), 2):
        out, at = [], 0
        for m in TOKEN.finditer(parts[i]):
            word = m.group(0)
            if word in names and word not in skip:
                out.append(parts[i][at : m.start()])
                out.append(names[word])
                at = m.end()
        out.append(parts[i][at:])
        parts[i] = "".join(out)
    return "".join(parts) + rest


MADE_PATH = re.compile(r"(?<![\w.'-])((?:goal|given|step|c|l|w|g|r)\.[^\s(){}\[\],;]+)")


def respell_made(path, names):
    """A path from a goal's argument: its step keeps its name, and a field of ours behind it is respelled."""
    parts = path.split(".")
    if parts[0] in ("goal", "given", "step"):
        return path
    return ".".join(parts[:2] + [names[p] if p in FIELDS else p for p in parts[2:]])


FIELDS = set()


def clause_lines(text):
    """Which lines of a source file are ghost text."""
    depth, inside, found = 0, False, set()
    for i, line in enumerate(text.split("\n")):
        word = line.strip()
        if not inside and re.match(r"(ghost |requires|ensures|pub ghost )", word):
            inside, depth = True, 0
        if inside:
            found.add(i)
            depth += line.count("{") - line.count("}")
            if depth <= 0:
                inside = False
    return found


def respell(path, text, names):
    ours, others = imports(text)
    skip = others - ours
    table = dict(names)
    made = path.endswith(MADE)
    if path.endswith(".antt"):
        skip |= {m.group(1) for m in re.finditer(r"^(?:(?:pub|abbrev|unfoldable)\s+)*([^\s:(){}.,;]+) : (?:goal|given|step)\.", text, re.M)}
        table.update(own_variables(text, names))
    ghost = clause_lines(text) if path.endswith(".rt") else None
    edits_spec = path.endswith(".edit") and re.search(r"^file: (specs|proofs)/", text, re.M)
    lines = []
    for i, line in enumerate(text.split("\n")):
        if ghost is not None and i not in ghost:
            lines.append(line)
        elif path.endswith(".edit") and not edits_spec and not re.match(r"(old|new): (ghost|requires|ensures)", line):
            lines.append(line)
        elif made:
            parts = MADE_PATH.split(line)
            for k in range(len(parts)):
                parts[k] = respell_made(parts[k], table) if k % 2 else respell_line(parts[k], table, skip)
            lines.append("".join(parts))
        else:
            lines.append(respell_line(line, table, skip))
    return "\n".join(lines)


def fallen_together(path, old, new):
    """Names that were two in this file and are one now."""
    before = set(TOKEN.findall(strip_comments(old)))
    after = {}
    for word in before:
        if PLAIN.match(word):
            after.setdefault(new_name(word) if word not in TOKEN.findall(new) else word, set()).add(word)
    return {n: ws for n, ws in after.items() if len(ws) > 1}


def main():
    declared = own_names()
    names = {n: new_name(n) for n in declared}
    if "--list" in sys.argv:
        for n in sorted(names):
            print(n, names[n], len(declared[n]), declared[n][0], sep="\t")
        return
    changed = 0
    for path in files(".antt", ".rt", ".edit"):
        old = read(path)
        new = respell(path, old, names)
        if path.endswith((".antt", ".rt")):
            for n, words in sorted(fallen_together(path, old, new).items()):
                print("together:", path, n, *sorted(words))
        if new != old and "--dry" not in sys.argv:
            with open(path, "w", encoding="utf-8") as f:
                f.write(new)
            changed += 1
    print(f"{len(names)} names, {changed} files")


if __name__ == "__main__":
    main()
