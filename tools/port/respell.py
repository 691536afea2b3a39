#!/usr/bin/env python3
"""Spells the repository's own definitions, lemmas, fields and constructors in snake case, and its types in camel case.

usage: python3 tools/port/respell.py        at the top of the repository, once, behind the kit's port.py

It reads what the files of crates/*/specs and crates/*/proofs declare, and respells those names in these files, in the clauses of src/ (and
in its comments), in must-fail edits and, between backticks, in README.md and docs/. A name that a file takes from a library stays there.
Functions of src/, strings, inputs and outputs keep their names. Where two names would fall together, the definition has the plain
name, and the lemma `_lem` behind it. It prints the names that fell together, and for each file a new name that the file had before.
"""

import collections
import glob
import os
import re
import sys

WORD = r"[^\s(){}.;,@\"«»\[\]|`]+"
DECLARED = re.compile(
    r"^( *)((?:(?:pub|abbrev|unfoldable|data|record|private)\s+)*)(" + WORD + r"(?: " + WORD + r")*)((?:\s*[({][^(){}]*[)}])*) : (.*)$"
)
LIBRARY = re.compile(r"^(mathlib|Prim|native|lib|borrow|logic|denote|seplogic|sep|Rattle\.(std|core)\b)")
USE = re.compile(r"\buse ([^\s;{]+)\{([^}]*)\}", re.S)
# names that the rules below would leave a little misleading
CHOSEN = {"ownFirst": "own_first_turn", "addedAll": "all_added", "goodBlock": "block_is_good", "Said-so": "SaidSo"}


def snake(name):
    if name in CHOSEN:
        return CHOSEN[name]
    if name[0].isupper():
        return name.replace("-", "")
    return re.sub(r"(?<=[a-z0-9])[A-Z]+", lambda m: "_" + m[0].lower(), name).replace("-", "_")


def files(*globs):
    found = []
    for g in globs:
        found += [p for p in glob.glob(g, recursive=True) if "/out/" not in p and os.path.isfile(p)]
    return sorted(found)


def read(path):
    with open(path, encoding="utf-8", newline="") as f:
        return f.read()


def write(path, text):
    with open(path, "w", encoding="utf-8", newline="") as f:
        f.write(text)


def declared():
    """Each declared name, with the sorts of places that declare it: 'specs', 'proofs'."""
    found = collections.defaultdict(set)
    for path in files("crates/*/specs/**/*.antt", "crates/*/proofs/**/*.antt"):
        of_function = os.path.basename(path) in ("Proof.antt", "Answers.antt", "Invariants.antt")
        for line in read(path).split("\n"):
            m = DECLARED.match(line)
            if not m or line.lstrip().startswith("--") or (of_function and re.search(r" : tie\.", line)):
                continue
            for name in m[3].split(" "):
                if re.match(r"[A-Za-z]", name):
                    found[name].add(path.split("/")[2])
    return found


def table(found):
    """Old name to new, for the names that change, and what fell together."""
    groups = collections.defaultdict(set)
    for name in found:
        groups[snake(name)].add(name)
    new, met = {}, []
    for spelled, names in groups.items():
        if len(names) == 1:
            (name,) = names
            if name != spelled:
                new[name] = spelled
            continue

        def rank(n):
            return (not re.search(r"[a-z][A-Z]", n), "specs" not in found[n], "-" in n, n)

        order = sorted(names, key=rank)
        met.append((spelled, order))
        for i, name in enumerate(order):
            to = spelled + "_lem" * i
            if to != name:
                new[name] = to
    return new, met


def turned(text, new, keep, pattern):
    def one(m):
        word = m[0]
        return new[word] if word in new and word not in keep else word

    return re.sub(pattern, one, text)


def taken_from_libraries(text):
    keep = set()
    for m in USE.finditer(text):
        if LIBRARY.match(m[1]):
            for item in m[2].split(","):
                keep |= set(item.split(" as ")[-1:]) if " as " in item else {item}
    return {k.strip() for k in keep}


ANTT = re.compile(r"--[^\n]*|\"(?:[^\"\\]|\\.)*\"|(?<!tie\.)" + WORD)
CAMEL = re.compile(r"[a-z][a-z0-9]*[A-Z]\w*")


def in_comment(text, new, keep):
    """Of a comment: names in camel case, and any name between backticks."""
    text = re.sub(r"`[^`]*`", lambda m: turned(m[0], new, keep, WORD), text)
    return turned(text, {k: v for k, v in new.items() if CAMEL.fullmatch(k)}, keep, r"[A-Za-z0-9_-]+")


def antt(text, new):
    keep = taken_from_libraries(text)

    def one(m):
        word = m[0]
        if word.startswith("--"):
            return in_comment(word, new, keep)
        return new.get(word, word) if word not in keep else word

    return ANTT.sub(one, text)


def rust(text, new):
    """Clauses and ghost lines have names in camel case, or with dashes inside; code has neither but in types."""
    keep = taken_from_libraries(text)
    parts = re.split(r"(\"(?:[^\"\\]|\\.)*\"|b'(?:[^'\\]|\\.)'|//[^\n]*)", text)
    for i, part in enumerate(parts):
        if part.startswith("//"):
            parts[i] = in_comment(part, new, keep)
        elif not part.startswith(('"', "b'")):
            parts[i] = turned(part, new, keep, WORD)
    return "".join(parts)


def main():
    if not os.path.isfile("crates.txt"):
        sys.exit("respell: run it at the top of the repository")
    new, met = table(declared())
    for spelled, order in sorted(met):
        print(f"met: {spelled}: " + ", ".join(f"{n} is {new.get(n, n)}" for n in order))
    changed = 0
    every = files("crates/*/specs/**/*.antt", "crates/*/proofs/**/*.antt")
    texts = [(p, antt) for p in every]
    texts += [(p, rust) for p in files("crates/*/src/**/*.rt")]
    texts += [(p, rust) for p in files("crates/*/must-fail/*.edit")]
    texts += [(p, lambda t, n: re.sub(r"`[^`\n]*`", lambda m: turned(m[0], n, set(), WORD), t)) for p in files("README.md", "docs/*.md", "docs/landings/*.md", "python/README.md")]
    targets = set(new.values())
    for path, how in texts:
        before = read(path)
        after = how(before, new)
        if after == before:
            continue
        if path.endswith((".antt", ".rt")):
            words = set(re.findall(WORD, before))
            came = {new[w] for w in words if w in new}
            both = sorted(w for w in words & came & targets if w not in new)
            if both:
                print(f"had: {path}: " + " ".join(both))
        write(path, after)
        changed += 1
    print(f"respell: {len(new)} names, {changed} files")


if __name__ == "__main__":
    main()
