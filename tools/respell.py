#!/usr/bin/env python3
"""Brings the repository's own definitions and lemmas to snake case, after the kit's port.py, once.

usage: python3 tools/respell.py [--dry]      at the top of the repository

A name is own if a file of specs/ or proofs/ below crates/ declares it. Types keep their camel case; in every other own
name a capital and a dash become an underscore. Names of the library, the answers of a function's proof and the text of
strings stay as they are. NAMES has the names that would fall together with another one, and what they become.
"""
import collections
import os
import re
import sys

# Names that would meet a name of the library, of the source or another own one, or that spell a library's older word.
NAMES = {
    "bit-and": "bit_of_and",
    "bit-or": "bit_of_or",
    "byTests": "erased_or_read",
    "unvoiced-bytes": "unvoiced_to_bytes",
    "voiced-bytes": "voiced_to_bytes",
}
# Lemmas that port.py gave the spelling of a definition, and where they stand.
LEMMAS = {
    "all_seen": ("crates/order/proofs/",),
    "one_bit": ("crates/order/proofs/Seen.antt",),
    "sum_fits": ("crates/codebook_values/proofs/Sums.antt",),
    "frame_step": ("crates/session_claims/proofs/",),
    "last_step": ("crates/session_claims/proofs/",),
    "value_line": ("crates/session_lines/proofs/",),
}

WORD = re.compile(r'[^\s(){}.;,@"«»\[\]]+')
SIGNATURE = re.compile(r'^\s*(?:abbrev |unfoldable |infix[lr]? \d+ )?(?:pub )?([^\s(){}:;,."]+)(?: \{[^{}]*\})* :(?: |$)')
IS_ANSWER = re.compile(r':\s*(?:tie\.|goal\.|\{M : Type 1\} → statement)')


def files(kinds):
    for folder, dirs, names in os.walk("crates"):
        dirs[:] = sorted(d for d in dirs if d != "out")
        for name in sorted(names):
            if name.endswith(kinds):
                yield os.path.join(folder, name)


def read(path):
    with open(path, encoding="utf-8") as f:
        return f.read()


def own_names():
    names = collections.defaultdict(set)
    for path in files((".antt",)):
        for line in read(path).split("\n"):
            if line.lstrip().startswith(("--", "use ", "ghost use ", "open ", "let ")) or IS_ANSWER.search(line):
                continue
            m = SIGNATURE.match(line)
            if m:
                names[m[1]].add(path)
    return names


def snake(name):
    if name in NAMES:
        return NAMES[name]
    if name[:1].isupper():
        return name.replace("-", "_")
    name = name.replace("getD", "get_or")
    name = re.sub(r"(?<=[a-z0-9])([A-Z])", lambda m: "_" + m[1].lower(), name)
    return name.replace("-", "_").replace("′", "'")


def made_names():
    """What a proof calls the calls and the variables of the source, in the older spelling."""
    found = set()
    for path in files((".rt",)):
        for name in re.findall(r"\b(?:fn|let|let mut) (\w+)", read(path)):
            found.add(name.replace("_", "-"))
    return found


IMPORT = re.compile(r"(?m)^(?:ghost )?use ((?:Rattle\.(?:core|std\w*|io|os|libc)|[a-z]\w*|Prim)\b[^\s{]*)\{([^}]*)\}")


def of_libraries(text):
    """The names that a file imports from the library, which stay."""
    return {n.strip().split(" as ")[-1] for m in IMPORT.finditer(text) for n in m[2].split(",")}


def turned(text, table, made, path):
    """The text with each own name in its new spelling, but in strings and where a proof names what Rattle makes."""
    is_proof = path.endswith("/Proof.antt")
    parts = re.split(r'("(?:[^"\\\n]|\\.)*")', text) if path.endswith(".rt") else [text]

    def new(m):
        name = m[0]
        if m.start() and m.string[m.start() - 1] == ".":
            head = re.search(r"[^\s(){};,]*$", m.string[: m.start() - 1])[0]
            if is_proof and not head[:1].isupper() and (name in made or head.startswith(("tie", "goal"))):
                return name
        return table.get(name, name)

    for i in range(0, len(parts), 2):
        parts[i] = WORD.sub(new, parts[i])
    return "".join(parts)


def main(argv):
    names = own_names()
    table = {n: snake(n) for n in names if snake(n) != n}
    back = collections.defaultdict(set)
    for old, new in table.items():
        back[new].add(old)
    for new, olds in back.items():
        # a definition keeps the plain name, and a lemma of that name gets another ending
        lemmas = sorted(o for o in olds if "-" in o)
        if len(olds) > 1 or (new in names and new not in LEMMAS):
            for old in lemmas:
                table[old] = new + "_lem"
    made = made_names()
    for path in files((".antt", ".rt")):
        text = read(path)
        theirs = of_libraries(text)
        mine = {o: n for o, n in table.items() if o not in theirs}
        for lemma, where in LEMMAS.items():
            if path.startswith(where):
                mine[lemma] = lemma + "_lem"
        new = turned(text, mine, made, path)
        words = set(WORD.findall(text))
        for old in sorted(words & mine.keys()):
            if mine[old] in words - mine.keys() and not path.endswith(".rt"):
                print(f"meets: {path}: {old} and {mine[old]}")
        if new != text and "--dry" not in argv:
            with open(path, "w", encoding="utf-8") as f:
                f.write(new)
    print(f"{len(table)} names of {len(names)}")
    return 0


if __name__ == "__main__":
    raise SystemExit(main(sys.argv[1:]))
