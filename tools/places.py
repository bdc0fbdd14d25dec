#!/usr/bin/env python3
"""Lists the places in src/ where an older form of the language may stand, point by point, and counts them.

usage: tools/places.py [POINT ..]     at the top of the repository; without a point all of them

What is listed is a place to look at, and not always one to change: docs/DESIGN-PASS.md says what became of each.
"""

import collections
import glob
import re
import sys

# point -> what it is about, and the patterns that find it
PATTERNS = {
    "1": (
        "options and results by hand, flags beside values, numbers for refusals",
        [
            (r"fn number\(self\) -> u8", "the number of a refusal by a method"),
            (r"\bNone => None\b", "a match that retells map or and_then"),
            (r"\bNone => (?!None)", "a match that retells map_or or unwrap_or"),
            (r"Ok\((?:\(\)|_)\) => [^,]*,\s*Err\(_\) =>|Err\(_\) =>", "an error that is dropped or told anew"),
            (r"let Some\([^)]*\) = [^;{]* else \{\s*return (?:None|Err\()", "a let .. else that retells ? or ok_or"),
            (r"\{\s*Some\([^{}]*\)\s*\} else \{\s*None\s*\}", "an if that retells then"),
            (r"\} else \{\s*None\s*\}\s*\n", "an else of None"),
            (r"^\s+(?:pub |pub\(crate\) )?\w+: bool,$", "a flag in a struct"),
        ],
    ),
    "3": (
        "loops over an index or a count, searches and tests by hand",
        [
            (r"\bfor \*?&?\w+ in [^{.]*\{\s*if [^{]*\{\s*return ", "a search or a test by hand"),
            (r"\bfor \w+ in [^{.]*\{\s*if [^{]*\{\s*\w+ \+= 1", "a count by hand"),
        ],
    ),
    "4": (
        "conversions by hand, types without derives",
        [
            (r"\bfn (?:number|void_mark|letter_mark|refusal_at|parts_of_\w+|put_decimal|put_signed|read_i64)\b", "a conversion or a printing by hand"),
            (r"(?:house|worker): \w+\.(?:house|worker),\n\s*(?:number|count): \w+\.(?:number|count),", "a copy field by field"),
            (r"#\[derive\((?!Drop\))(?![^)]*Debug)[^)]*\)\]\s*(?:pub(?:\(crate\))? )?(?:struct|enum) \w+", "a plain type without Debug"),
        ],
    ),
    "6": (
        "buffers with a length beside, parallel arrays",
        [
            (r"^\s+(?:pub |pub\(crate\) )?(?:count|used|len|at): (?:u8|usize),$", "a length or a place in a struct"),
            (r"^\s+(?:pub |pub\(crate\) )?\w+: \[[^\]]*; \w+\],$", "an array in a struct"),
        ],
    ),
    "7": (
        "switches on the number of a step",
        [(r"match \w+ \{\s*\d+ =>", "a match on numbers")],
    ),
}


def sources():
    for path in sorted(glob.glob("crates/*/src/*.rt")):
        with open(path, encoding="utf-8") as f:
            yield path, re.sub(r"//[^\n]*", "", f.read())


def functions(text):
    """Each function with a body: its line, its name, its head and its body."""
    for m in re.finditer(r"\bfn (\w+)", text):
        i = m.end()
        while i < len(text) and text[i] != ";" and not re.match(r"\n?\s*\{\n", text[i : i + 40]):
            i += 1
        if i >= len(text) or text[i] == ";":
            continue
        start = text.index("{", i)
        yield text.count("\n", 0, m.start()) + 1, m.group(1), text[m.start() : start], block(text, start)[1:-1]


def block(text, start):
    """The text from the first brace at or after a place up to the brace that closes it."""
    start = text.index("{", start)
    depth = 0
    for i in range(start, len(text)):
        depth += {"{": 1, "}": -1}.get(text[i], 0)
        if depth == 0:
            return text[start : i + 1]
    return text[start:]


def index_loops(text):
    """Loops whose variable stands in an index, and loops that count a number up by hand."""
    for m in re.finditer(r"\bfor (?:(\w+)|\((\w+), \w+\)) in ([^{]*)\{", text):
        name, counted = m.group(1) or m.group(2), m.group(2) or ".." in m.group(3)
        if counted and re.search(r"\[[^\[\]]*\b" + name + r"\b[^\[\]]*\]", block(text, m.end() - 1)):
            yield m.start(), "a loop that indexes by its variable"
    for m in re.finditer(r"^\s*(?:while|loop)\b[^{]*\{", text, re.M):
        if re.search(r"\b\w+ \+= 1;", block(text, m.end() - 1)):
            yield m.start() + len(m.group(0)) - len(m.group(0).lstrip()), "a while that counts"


def by_pattern(point):
    what, patterns = PATTERNS[point]
    found = []
    for path, text in sources():
        if point == "3":
            found += [(path, text.count("\n", 0, at) + 1, name) for at, name in index_loops(text)]
        for pattern, name in patterns:
            for m in re.finditer(pattern, text, re.M):
                at = m.start() + len(m.group(0)) - len(m.group(0).lstrip())
                found.append((path, text.count("\n", 0, at) + 1, name))
    return what, found


def twins():
    bodies = collections.defaultdict(list)
    for path, text in sources():
        for line, name, _, body in functions(text):
            short = re.sub(r"\s+", " ", body).strip()
            if len(short) > 15:
                bodies[short].append((path, line, name))
    found = []
    for places in bodies.values():
        if len(places) > 1:
            found += [(path, line, f"{name}: one of {len(places)} functions with this body") for path, line, name in places]
    return "functions with the same body", sorted(found)


def together():
    found = []
    for crate in sorted({path.split("/")[1] for path, _ in sources()}):
        params, clauses = collections.defaultdict(set), collections.defaultdict(set)
        for path, text in sources():
            if path.split("/")[1] != crate:
                continue
            for line, name, head, _ in functions(text):
                inside = head[head.index("(") + 1 :].split(")")[0]
                names = [p.strip() for p in inside.split(",") if ":" in p]
                for a in range(len(names)):
                    for b in range(a + 1, len(names)):
                        params[(names[a], names[b])].add((path, line, name))
                for clause in re.findall(r"(?:requires|ensures)(?: \w+)? \{(.*)\}\s*$", head, re.M):
                    clauses[clause.strip()].add((path, line, name))
        for kind, table in (("parameters", params), ("clause", clauses)):
            for key, places in table.items():
                if len(places) >= 3:
                    path, line, _ = min(places)
                    text = ", ".join(key) if isinstance(key, tuple) else key
                    found.append((path, line, f"{kind} in {len(places)} functions: {text}"))
    return "parameters and clauses that stand together in three functions or more", sorted(found)


def proofs():
    found = []
    for path in sorted(glob.glob("crates/*/proofs/**/*.antt", recursive=True)):
        with open(path, encoding="utf-8") as f:
            found.append((path, len(f.read().splitlines()), "lines"))
    return "proof files", found


def main():
    points = sys.argv[1:] or ["1", "2", "3", "4", "5", "6", "7", "8"]
    for point in points:
        what, found = {"2": twins, "5": together, "8": proofs}.get(point, lambda: by_pattern(point))()
        for path, line, name in found:
            print(f"{point} {path}:{line}: {name}" if point != "8" else f"8 {path}: {line} lines")
        total = f", {sum(line for _, line, _ in found)} lines" if point == "8" else ""
        print(f"point {point}, {what}: {len(found)}{total}")


main()
