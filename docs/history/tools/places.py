"""Counts the places in src/ that docs/DESIGN-PASS.md speaks of, point by point.

    python3 tools/places.py             the counts of this tree
    python3 tools/places.py 3           the places of point 3, one a line
    python3 tools/places.py 3 FOLDER    of another tree

Point 8 counts the files and lines of proofs/. It goes by text: what it finds is to be read.
"""

import collections
import pathlib
import re
import sys

ROOT = pathlib.Path(sys.argv[2] if len(sys.argv) > 2 else ".")


def sources():
    for path in sorted(ROOT.glob("crates/*/src/**/*.rt")):
        if path.name != "tests.rt":
            yield path, path.read_text().split("\n")


def code(line):
    """A line without its comment and its clauses."""
    line = line.split("//")[0]
    if re.match(r"\s*(ensures|requires|ghost)\b", line):
        return ""
    return line


def place(path, number, text):
    return f"{path.relative_to(ROOT)}:{number}: {' '.join(text.split())[:110]}"


def by_lines(*patterns):
    found = []
    for path, lines in sources():
        for number, line in enumerate(lines, 1):
            if any(re.search(p, code(line)) for p in patterns):
                found.append(place(path, number, line))
    return found


def blocks(kind):
    """Each `struct` or `enum` with the lines of its body."""
    for path, lines in sources():
        for number, line in enumerate(lines, 1):
            if re.match(rf"(pub(\(crate\))? )?{kind} \w+", line) and line.endswith("{"):
                body = []
                for inner in lines[number:]:
                    if inner.startswith("}"):
                        break
                    body.append(inner)
                yield path, number, line, body


def point_1():
    found = []
    for path, number, line, body in blocks("enum"):
        cases = [b for b in body if re.match(r"    \w", b)]
        bare = [c for c in cases if re.match(r"    \w+,$", c)]
        if bare and len(cases) > len(bare) or any(re.match(r"    (Refused|Err|Failed)\(", c) for c in cases):
            found.append(place(path, number, line))
    for path, number, line, body in blocks("struct"):
        for offset, inner in enumerate(body):
            if re.match(r"    (pub(\(crate\))? )?\w+: bool,", inner):
                found.append(place(path, number + 1 + offset, inner))
    for path, lines in sources():
        for number, line in enumerate(lines, 1):
            if re.search(r"-> .*\bi8\b|\(i8,|0 for (none|all|no )|None,? and 0|54 being", line) and not re.match(r"\s*(ensures|ghost)", line):
                found.append(place(path, number, line))
    return found


def ends(indent, line):
    """Whether a function of this indent ends here, or its declaration in a trait."""
    if line == indent + "}" or line.endswith("{}"):
        return True
    return line.endswith(";") and (line.startswith(indent + "fn ") or bool(re.match(rf"{indent}    (ensures|requires)\b", line)))


def functions():
    """Each function: file, line, name, parameters, contract, body."""
    for path, lines in sources():
        number = 0
        while number < len(lines):
            head = re.match(r"(\s*)(pub(\(crate\))? )?fn (\w+)", lines[number])
            if not head:
                number += 1
                continue
            indent, start = head.group(1), number
            end = start
            while not ends(indent, lines[end]):
                end += 1
            text = lines[start : end + 1]
            opening = next((i for i, l in enumerate(text) if l == indent + "{" or (i == 0 and l.endswith("{") and "ensures" not in l) or l.endswith(") {")), 0)
            yield path, start + 1, head.group(4), text[: opening + 1], text[opening + 1 : -1]
            number = end + 1


def skeleton(body):
    text = " ".join(code(l) for l in body)
    text = re.sub(r'b?"[^"]*"|b\'[^\']*\'|\b0x[0-9A-Fa-f_]+|\b\d[\d_]*', "0", text)
    text = re.sub(r"\b[A-Za-z_]\w*\b", lambda m: m.group(0) if m.group(0) in KEPT else "x", text)
    return " ".join(text.split())


KEPT = set("if else match for in let mut return while loop as Some None Ok Err self Self true false".split())


def point_2():
    groups = collections.defaultdict(list)
    for path, number, name, _, body in functions():
        shape = skeleton(body)
        if len(shape) >= 24:
            groups[shape].append(place(path, number, name))
    return [p for group in groups.values() if len(group) > 1 for p in group]


def point_3():
    return by_lines(r"\bwhile\b(?! let)", r"\bfor \w+ in [\w(][\w.() ]*\.\.")


def point_4():
    found = by_lines(
        r"^impl.* (PartialEq|Eq|PartialOrd|Ord|Clone|Copy|Debug|Default) for ",
        r"\bas (u8|u16|u32|u64|usize|i8|i16|i32|i64)\b",
        r"=> true,|=> false,",
    )
    for path, number, name, _, body in functions():
        text = skeleton(body)
        if re.match(r"match x \{ x::x => 0", text) or text.count("if x(x, 0)") > 1:
            found.append(place(path, number, name))
    return found


def point_5():
    found = []
    terms = collections.defaultdict(set)
    lists = collections.defaultdict(set)
    for path, number, name, head, _ in functions():
        where = place(path, number, name)
        text = " ".join(" ".join(head).split())
        for clause in re.findall(r"(?:ensures|requires)(?: \w+)? \{ (.*?) \}(?= ensures| requires| \{|$)", text):
            fact = re.sub(r"\b(self|device|reply|reader|shelf|memory|out|axis)\b", "x", clause)
            if len(fact) > 12:
                terms[fact].add(where)
        names = re.findall(r"(\w+): ", re.sub(r"(ensures|requires).*", "", text))
        names = [n for n in names if n not in ("self", "f")]
        for size in range(3, len(names) + 1):
            lists[tuple(sorted(names))].add(where)
    for fact, places in terms.items():
        if len(places) > 2:
            found += sorted(places)
    for names, places in lists.items():
        if len(places) > 2:
            found += sorted(places)
    return sorted(set(found))


def point_6():
    found = []
    for path, number, line, body in blocks("struct"):
        arrays = [b for b in body if re.search(r": (\[.*; \w+\]|&'a mut \[u8\]),", b)]
        lengths = [b for b in body if re.search(r"\w+: usize,", b)]
        vectors = [b for b in body if re.search(r": Vec<", b)]
        if arrays and lengths or len(vectors) > 1:
            found.append(place(path, number, line))
    for path, number, name, _, body in functions():
        text = " ".join(body)
        if re.search(r"for .* \{ .*if .*(==|is_\w+_of|find).*return Some", text):
            found.append(place(path, number, name))
    return found


def point_7():
    return by_lines(r": fn\(", r"\bBox<dyn", r"match (self\.)?(state|step|kind|nature|mode)\b")


def point_8():
    return [f"{p.relative_to(ROOT)}: {len(p.read_text().splitlines())} lines" for p in sorted(ROOT.glob("crates/*/proofs/**/*.antt"))]


POINTS = [point_1, point_2, point_3, point_4, point_5, point_6, point_7, point_8]

if len(sys.argv) > 1 and sys.argv[1] != "all":
    print("\n".join(POINTS[int(sys.argv[1]) - 1]()))
else:
    for number, find in enumerate(POINTS, 1):
        found = find()
        lines = f", {sum(int(f.split()[-2]) for f in found)} lines" if number == 8 else ""
        print(f"point {number}: {len(found)}{lines}")
