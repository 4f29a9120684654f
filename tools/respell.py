#!/usr/bin/env python3
"""Brings the definitions and lemmas that port.py left to today's spelling: words in snake case.

usage: tools/respell.py [--dry]      at the top of the repository, once, right after port.py

A name that a file of specs/ or proofs/ declares (of Proof.antt, none) is respelled wherever it stands as a whole word: in
specs/, in proofs/, in clauses and comments of src/, and in must-fail edits. `wordAt` becomes `word_at`, `then-node`
`then_node`; a dash stays where it joins the name of a function, as in `length-words_over`. A name that would meet another
gets the spelling in APART. What changed is written to tools/respelled.tsv.
"""

import collections
import glob
import os
import re
import sys

# A word of antt: what stands between brackets, blanks and separators.
WORD = re.compile(r'[^\s(){}.;,@"«»`]+')
DECLARED = re.compile(r"^\s*(?:(?:abbrev|unfoldable|pub|private) )*(?:(?:record|data) )?([^\s(){}:,;.]+)(?: [({].*[)}])* :(?= |$)")
NO_NAMES = {"let", "use", "module", "where"}
# Lemmas whose first part is a function of lists: the dash stays.
JOINED = re.compile(r"^length-(?!refuses$)")
APART = {
    "at-place": "at_place_lem",
    "bool-byte": "bool_byte_lem",
    "cut-side": "cut_side_lem",
    "getD-bytesOf": "get_or-bytes_of",
    "in-level": "in_level_lem",
    "in-part": "in_part_lem",
    "is-at": "is_at_lem",
    "is-permitted": "permits_it",
    "none-begins": "none_begins_lem",
    "on-side": "on_side_lem",
    "out-after": "after_out",
    "pair-of": "pair_of_lem",
    "pairs-after": "after_pairs",
    "sheet-after": "after_sheet",
    "sheet1-after": "after_sheet1",
    "sheet2-after": "after_sheet2",
    "wrong-root": "wrong_root_lem",
}
OWN = None


def snake(name):
    """The name's new spelling."""
    if name in APART:
        return APART[name]
    camel = re.search(r"[a-z0-9][A-Z]", name)
    to = re.sub(r"(?<=[a-z0-9])[A-Z]", lambda m: "_" + m[0].lower(), name)
    if not camel and not JOINED.match(name):
        to = re.sub(r"(?<=[^-])-(?=[^-])", "_", to)
    return to


def texts():
    for kind in ("specs/**/*.antt", "proofs/**/*.antt", "src/**/*.rt", "must-fail/*.edit"):
        yield from sorted(glob.glob("crates/*/" + kind, recursive=True))


def read(path):
    with open(path, encoding="utf-8") as f:
        return f.read()


def declared():
    """The old names, with their new ones."""
    found = set()
    for path in texts():
        if not path.endswith(".antt") or path.endswith("/Proof.antt"):
            continue
        for line in read(path).splitlines():
            m = DECLARED.match(line)
            if m and not line.lstrip().startswith("--") and m[1] not in NO_NAMES:
                found.add(m[1])
    return {n: snake(n) for n in sorted(found) if n[0].islower() and snake(n) != n}


def borrowed(text):
    """The names that the file imports from a library."""
    names = set()
    for m in re.finditer(r"(?m)^\s*(?:ghost )?use ([^\s{;]+)\{([^}]*)\}", text):
        steps = m[1].split(".")
        if steps[0] != "Rattle" or steps[1] not in OWN:
            names |= {n.strip() for n in m[2].split(",")}
    return names


def comment_of(path):
    return "//" if path.endswith(".rt") else "--"


def respell(path, names):
    text = read(path)
    keep = borrowed(text)
    mark = comment_of(path)
    edit = path.endswith(".edit")

    def word(m, plain):
        w = m[0]
        # In a comment a word with a dash may be English.
        if w not in names or w in keep or (plain and "-" in w and not re.search(r"[a-z0-9][A-Z]", w)):
            return w
        return names[w]

    out = []
    for line in text.split("\n"):
        body, sep, comment = line, "", ""
        m = re.search(r"(?:^|(?<=\s))" + re.escape(mark) + r"(?:\s|$)", line)
        if m:
            body, comment = line[: m.start()], line[m.start() :]
        if edit and not re.match(r"(old|new): ", line):
            body, comment = "", line
        out.append(WORD.sub(lambda m: word(m, False), body) + WORD.sub(lambda m: word(m, True), comment))
    return text, "\n".join(out)


def main(argv):
    global OWN
    OWN = set(os.listdir("crates"))
    names = declared()
    met = collections.defaultdict(set)
    for old, new in names.items():
        met[new].add(old)
    bad = [f"two names become one: {sorted(olds)} -> {new}" for new, olds in met.items() if len(olds) > 1]
    for path in texts():
        words = set(WORD.findall(read(path)))
        kept = borrowed(read(path))
        for w in sorted(words & set(names)):
            if names[w] in words and names[w] != w:
                bad.append(f"look: {path}: {w} meets {names[w]}")
            if w in kept:
                bad.append(f"look: {path}: {w} is a library's, and stays")
    print("\n".join(bad))
    if "--dry" in argv:
        return 0
    for path in texts():
        before, after = respell(path, names)
        if after != before:
            with open(path, "w", encoding="utf-8") as f:
                f.write(after)
    with open("tools/respelled.tsv", "w", encoding="utf-8") as f:
        f.write("".join(f"{a}\t{b}\n" for a, b in sorted(names.items())))
    return 0


if __name__ == "__main__":
    raise SystemExit(main(sys.argv[1:]))
