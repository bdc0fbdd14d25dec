#!/usr/bin/env python3
"""Brings the names of this repository's own definitions and lemmas to today's spelling: words in snake case, types in camel case.

usage: tools/respell.py [FOLDER]     after the kit's port.py, at the top of the repository (or of FOLDER); a second run changes nothing

A word is a definition, a lemma, a field or a constructor of specs/ or of the lemma files of proofs/. A word that begins with a
capital is a type or a statement. Names of src/, names that the check makes (in proofs/F/), strings and Rust code stay as they are.
"""

import os
import re
import sys

# a word that would take the name of another one gets a name of its own: a lemma that of its word with _lem
OTHERWISE = {
    "Calls-at-patience": "AlwaysCallsAtPatience",
    "isOpen": "house_is_open",
    "longest-line": "longest_line_lem",
    "order-at": "order_at_lem",
    "posting-line": "posting_line_lem",
    "lines-in": "lines_in_lem",
    "posting-at": "posting_at_lem",
    "head-text": "head_text_lem",
    "here-with": "here_with_lem",
    "pairs-at": "pairs_at_lem",
    "no-entry": "no_entry_lem",
    "new-round": "new_round_lem",
    "new-house": "new_house_lem",
    "at-end": "at_end_lem",
    "takes-up": "takes_up_lem",
}

# the same for a lemma that port.py respelled: the file below crates/, the lemma, its name, and the word that takes the lemma's
LEMMAS = (
    ("protocol/proofs/TurnsTaken.antt", "each_turn", "each_turn_lem", "eachTurn"),
    ("protocol/proofs/Outcomes.antt", "hand_at", "hand_at_lem", "handAt"),
    ("protocol/proofs/Outcomes.antt", "turn_in", "turn_in_lem", "turnIn"),
)

TOKEN = re.compile(r"[^\s(){}\[\];,.\"λ«»|@]+")
DEFINES = re.compile(r"^\s*(?:(?:abbrev|unfoldable|pub|record|data|let) )*([^\s:(){}]+)(?: [({].*)? :(?: |$)")


def files(root, ending):
    for folder, dirs, names in os.walk(os.path.join(root, "crates")):
        dirs[:] = sorted(d for d in dirs if d not in ("out", ".git"))
        for name in sorted(names):
            if name.endswith(ending):
                yield os.path.join(folder, name)


def of_lemmas(root, path):
    """Whether a file holds definitions or lemmas, and not the answers of one function."""
    parts = os.path.relpath(path, os.path.join(root, "crates")).split(os.sep)
    return parts[1] == "specs" or (parts[1] == "proofs" and len(parts) == 3)


def respelled(word):
    if word[0].isupper():
        return "".join(p[:1].upper() + p[1:] for p in word.split("-"))
    word = re.sub(r"(?<=[a-z0-9])([A-Z])", lambda m: "_" + m.group(1).lower(), word.replace("-", "_"))
    return re.sub(r"(?<=_[a-z])([A-Z])", lambda m: "_" + m.group(1).lower(), word)


def old_spelling(word):
    if not re.fullmatch(r"[A-Za-z][A-Za-z0-9_'-]*", word):
        return False
    return "-" in word if word[0].isupper() else bool(re.search(r"[A-Z]|-", word))


def words(root):
    found = {}
    for path in files(root, ".antt"):
        if not of_lemmas(root, path):
            continue
        with open(path, encoding="utf-8") as f:
            for line in f:
                m = DEFINES.match(line.rstrip("\n"))
                if m and not line.lstrip().startswith("--") and old_spelling(m.group(1)):
                    found[m.group(1)] = OTHERWISE.get(m.group(1), respelled(m.group(1)))
    # another name under which a clause imports a word
    for path in list(files(root, ".antt")) + list(files(root, ".rt")):
        with open(path, encoding="utf-8") as f:
            for line in f:
                if re.match(r"\s*(pub |ghost )*use ", line):
                    for old, new in re.findall(r"(\S+) as ([A-Za-z][A-Za-z0-9_'-]*)", line):
                        if old_spelling(new):
                            found[new] = OTHERWISE.get(new, respelled(new))
    return found


def turned(text, found, comment):
    out = []
    for line in text.split("\n"):
        code, mark, said = line.partition(comment)
        code = TOKEN.sub(lambda m: found.get(m.group(0), m.group(0)), code)
        # in a comment only what can be no word of English
        said = TOKEN.sub(lambda m: found.get(m.group(0), m.group(0)) if "-" not in m.group(0) else m.group(0), said)
        out.append(code + mark + said)
    return "\n".join(out)


def main(root):
    found = words(root)
    for name, old, new, word in LEMMAS:
        path = os.path.join(root, "crates", name)
        if word in found and os.path.exists(path):
            with open(path, encoding="utf-8") as f:
                text = f.read()
            with open(path, "w", encoding="utf-8") as f:
                f.write(turned(text, {old: new}, "--"))
    for ending, comment in ((".antt", "--"), (".rt", "//")):
        for path in files(root, ending):
            with open(path, encoding="utf-8") as f:
                text = f.read()
            new = turned(text, found, comment)
            if new != text:
                with open(path, "w", encoding="utf-8") as f:
                    f.write(new)
    print(f"respell: {len(found)} words")


if __name__ == "__main__":
    main(sys.argv[1] if len(sys.argv) > 1 else ".")
