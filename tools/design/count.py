#!/usr/bin/env python3
"""count.py [-l] [TREE]: the places in crates/*/src that the points of docs/DESIGN-PASS.md are about, counted by their form.

With -l each place is listed. What is counted is a form that can be seen in the text; the page says which of them are places of the point."""
import pathlib
import re
import sys

LIST = "-l" in sys.argv
rest = [a for a in sys.argv[1:] if a != "-l"]
TREE = pathlib.Path(rest[0] if rest else ".")
FUNCTION = re.compile(r'^(\s*)(?:pub(?:\([a-z]+\))? )?(?:extern "C" )?fn (\w+)')


def sources():
    for path in sorted(TREE.glob("crates/*/src/**/*.rt")):
        yield path.relative_to(TREE / "crates"), path.read_text().splitlines()


def functions():
    """Each function: file, line, name, header (up to its brace) and body lines."""
    for path, lines in sources():
        i = 0
        while i < len(lines):
            m = FUNCTION.match(lines[i])
            if not m:
                i += 1
                continue
            indent, name, start = m.group(1), m.group(2), i
            while i < len(lines) and lines[i].rstrip() != indent + "{" and not lines[i].rstrip().endswith(" {") and not lines[i].rstrip().endswith(";"):
                i += 1
            head, first = lines[start:i + 1], i + 1
            while i < len(lines) and lines[i].rstrip() != indent + "}":
                i += 1
            yield path, start + 1, name, head, lines[first:i]


def show(title, places):
    print(f"{title}: {len(places)}")
    if LIST:
        for p in places:
            print("    " + p)


def by_line(pattern):
    return [f"{p}:{n}: {t.strip()}" for p, lines in sources() for n, t in enumerate(lines, 1) if re.search(pattern, t)]


def first_words(block):
    return " ".join(t.strip() for t in block if not t.strip().startswith("//"))


def parameters(head):
    text = first_words(head)
    m = re.search(r"\((.*?)\)(?: ->|\s+requires|\s+ensures|\s*\{|$)", text)
    return [a.strip() for a in re.split(r",(?![^\[\(<]*[\]\)>])", m.group(1))] if m else []


KEYWORDS = set("let mut match if else while loop for in return as self Self true false fn pub impl struct enum u8 u16 u32 u64 usize i64 bool".split())


def twins():
    shapes = {}
    for path, line, name, head, body in functions():
        text = first_words(body)
        if text.count(";") + text.count("{") + text.count("=>") < 2:
            continue
        shape = re.sub(r"\b[A-Za-z_]\w*\b", lambda m: m.group(0) if m.group(0) in KEYWORDS else "n", text)
        shape = re.sub(r"\b\d[\d_]*\b|b?\"[^\"]*\"|b'[^']*'", "0", shape)
        shape = re.sub(r"n(::n)+", "n", shape)
        shapes.setdefault(shape, []).append(f"{path}:{line}: {name}")
    return [" | ".join(v) for v in shapes.values() if len(v) > 1]


def literal_matches():
    found = []
    for path, line, name, head, body in functions():
        text = first_words(body)
        m = re.fullmatch(r"match \w+(?:\.\w+)* \{(.*)\}", text)
        if not m:
            continue
        arms = re.findall(r"=>\s*([^,{}]+?)(?:,|$|\})", m.group(1))
        if arms and all(re.fullmatch(r"(true|false|\d[\d_]*|\w+( as u64)?)", a.strip()) for a in arms):
            found.append(f"{path}:{line}: {name}")
    return found


def facts():
    seen = {}
    for path, line, name, head, body in functions():
        text = first_words(head)
        for clause in re.findall(r"requires(?: \w+)? \{ (.*?) \}(?= requires| ensures|\s*\{|$)", text):
            for fact in re.split(r" × ", clause):
                fact = re.sub(r"\.(old|now)\b", "", fact.strip().strip("()"))
                seen.setdefault((str(path).split("/")[0], fact), []).append(name)
    return [f"{c}: {f}: {len(v)} functions" for (c, f), v in sorted(seen.items(), key=lambda x: -len(x[1])) if len(v) > 2]


def together():
    seen = {}
    for path, line, name, head, body in functions():
        ps = [re.sub(r"&mut |&|mut ", "", p) for p in parameters(head) if ":" in p]
        for i in range(len(ps)):
            for k in (2, 3, 4):
                if i + k <= len(ps):
                    seen.setdefault((str(path).split("/")[0], tuple(ps[i:i + k])), set()).add(name)
    groups = {k: v for k, v in seen.items() if len(v) > 2}
    largest = [k for k in groups if not any(o != k and o[0] == k[0] and set(k[1]) < set(o[1]) and groups[o] >= groups[k] for o in groups)]
    return [f"{c}: {', '.join(ps)}: {len(groups[(c, ps)])} functions" for c, ps in sorted(largest, key=lambda k: -len(groups[k]))]


def main():
    show("1 own enums", by_line(r"^\s*(pub )?enum "))
    show("1 flags in structs", by_line(r"^\s+(pub )?\w+: bool,"))
    show("1 fields and parameters that are numbers for kinds", by_line(r"\b(side|tif|mode|reason|response|subscription|shows|status|kind|cash|margin|class|liquidity): u(8|64)\b"))
    show("1 functions that say 0 for none", by_line(r"^\s*//.*\b0 (for none|if (there|it|no|none|every|nothing|the)|where (none|there|it|he|they|each|the))"))
    show("2 functions of one shape", twins())
    loops = by_line(r"^\s*(while|loop)\b")
    show("3 loops by hand", loops)
    show("3 loops over an iterator", by_line(r"^\s*for .* in "))
    show("4 matches that give a literal or a part for each variant", literal_matches())
    show("4 comparisons and conversions by hand", by_line(r"\bfn (same\w*|wide|minus|smaller|room_left|is_absent|is_four|is_none|is_equities|is_canceled|is_copied|highest|\w*number_of|\w+_number)\("))
    show("5 facts in the requires of three functions or more of a crate", facts())
    show("5 parameters side by side in three functions or more of a crate", together())
    show("6 arrays", by_line(r"\[\w+; \w+\]"))
    show("6 arrays with a count beside them", [f"{p}:{l}: {n}" for p, l, n, h, b in functions() if re.search(r"\[\w+; \w+\]", first_words(h).split("ensures")[0].split("requires")[0]) and re.search(r"\b(n|m|held|count|len): usize", first_words(h).split("ensures")[0].split("requires")[0])])
    show("7 function pointers, dyn, closures", by_line(r"\bfn\(|\bdyn\b|\|\w*\| "))


main()
