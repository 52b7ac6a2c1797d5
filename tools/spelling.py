#!/usr/bin/env python3
"""Brings the repository's own definitions and laws to today's spelling, once, behind the toolchain's port script.

Types and modules stay in camel case. Every other name of specs/ and proofs/ is in snake case: `planAnswer` becomes `plan_answer`, and the words of a
law or of a record's field are joined by `_`. In a law's name a dash stays where it joins two names, of a definition, a type or the library
(`padded-take`). A law that would then have its definition's name gets `_lem`. Functions of src/, strings, inputs and outputs keep their names; the
clauses and `ghost use` lines of src/, and the pages, follow the definitions. With --say nothing is written, and what falls together is listed.
"""
import collections
import os
import re
import sys

ID = r"[^\s(){}\[\],;.:=λ→×⌜⌝∙⟨⟩|&+*<>≤≡≢∷!?\"`]+"
CAMEL = re.compile(r"[a-z][a-z0-9]*[A-Z]")
DECL = re.compile(r"(\s*)((?:(?:abbrev|opaque|unfoldable|pub|record|data|private)\s+)*)(" + ID + r")((?:\s[^=]*?)?)\s:\s(.*)")
# words of the library that a dash joins to a name
LIBRARY = set("""length append take drop set map replicate get_or reverse min max cond suc add mul sub div mod pow leb ltb eqb fold sum insert filter
swap rev nil cons zero""".split())


def snake(x):
    return re.sub(r"([a-z0-9])([A-Z])", lambda m: m[1] + "_" + m[2].lower(), x)


def files():
    for root, dirs, names in os.walk("crates"):
        dirs[:] = sorted(d for d in dirs if d != "out")
        for f in sorted(names):
            if f.endswith(".antt"):
                yield os.path.join(root, f)


def is_walk(p):
    parts = p.split(os.sep)
    return parts[2] == "proofs" and len(parts) > 4


def plain(t):
    return "\n".join(re.sub(r"(^|\s)--(\s.*)?$", "", l) for l in t.split("\n"))


def declared():
    """The definitions (of specs/, and what proofs/ abbreviates), all declared names with where they stand, and the fields of records."""
    words, names, fields = set(), {}, set()
    for p in files():
        if is_walk(p):
            continue
        inside = None
        for l in plain(open(p, encoding="utf8").read()).split("\n"):
            block = re.match(r"(\s*)(?:pub |abbrev )*(?:record|data) .*where$", l.rstrip())
            m = DECL.match(l)
            if block:
                inside = len(block[1])
            elif inside is not None and l.strip():
                inside = None if len(l) - len(l.lstrip()) <= inside else inside
                if inside is not None and m:
                    fields.add(m[3])
            if not m or m[3] in ("use", "mod", "module", "let", "where"):
                continue
            if m[3] not in names or os.sep + "specs" + os.sep in p:
                names[m[3]] = p
            if os.sep + "specs" + os.sep in p or "abbrev" in m[2] or "record" in m[2] or "data" in m[2]:
                words.add(snake(m[3]))
    return words, names, fields


def new_name(x, words):
    parts = ["get_or" if q == "getD" else q for q in x.split("-")]
    parts = [snake(q) if not q[:1].isupper() else q for q in parts]
    out = parts[0]
    for q in parts[1:]:
        left = re.split(r"-", out)[-1]
        joins = lambda w: w in words or w in LIBRARY or w[:1].isupper()  # noqa: E731
        out += ("-" if joins(left) and joins(q) else "_") + q
    return out


def mapping():
    words, names, fields = declared()
    turn = {}
    for x in names:
        y = snake(x).replace("-", "_") if x in fields else new_name(x, words)
        if x != y and ("-" in x or CAMEL.match(x)):
            turn[x] = y
    # a law with its definition's name
    taken = {snake(x) for x in names if CAMEL.match(x) and "-" not in x}
    for x, p in names.items():
        y = turn.get(x, x)
        if not CAMEL.match(x) and y in taken and f"{os.sep}proofs{os.sep}" in p:
            turn[x] = y + "_lem"
    return turn


def turned(t, turn, walk):
    def one(m):
        x = m[0]
        if x not in turn:
            return x
        if m.start() and t[m.start() - 1] == "." and (walk and "-" in x or turn[x].endswith("_lem")):
            return x
        if turn[x].endswith("_lem") and t[m.end() : m.end() + 1] == ".":
            return x
        return turn[x]

    return re.sub(ID, one, t)


def clauses(t, turn):
    """The text of a .rt file with its `ghost` items and clauses turned."""
    camel = {x: y for x, y in turn.items() if CAMEL.match(x)}

    def item(m):
        return re.sub(ID, lambda w: camel.get(w[0], w[0]), m[0])

    t = re.sub(r"(?m)^\s*ghost use [^;]*;", item, t)
    out, i = [], 0
    for m in re.finditer(r"\b(?:requires|ensures)\*?(?: \w+)? \{", t):
        if m.start() < i:
            continue
        depth, j = 1, m.end()
        while depth:
            depth += {"{": 1, "}": -1}.get(t[j], 0)
            j += 1
        out += [t[i : m.start()], item(re.match(r"(?s).*", t[m.start() : j]))]
        i = j
    out.append(t[i:])
    return "".join(out)


def main():
    say = "--say" in sys.argv
    turn = mapping()
    met = collections.Counter()
    for p in files():
        t = open(p, encoding="utf8").read()
        u = turned(t, turn, is_walk(p))
        old, new = set(re.findall(ID, plain(t))), collections.defaultdict(set)
        for x in old:
            new[turned(x, turn, False)].add(x)
        for y, xs in new.items():
            if len(xs) > 1:
                met[y, tuple(sorted(xs))] += 1
                if say:
                    print(f"{p}: {' and '.join(sorted(xs))} fall together as {y}")
        if not say:
            open(p, "w", encoding="utf8").write(u)
    for root, dirs, names in os.walk("."):
        dirs[:] = [d for d in dirs if d not in ("out", "target", ".git")]
        for f in names:
            p = os.path.join(root, f)
            t = None
            if f.endswith(".rt"):
                t = open(p, encoding="utf8").read()
                u = clauses(t, turn)
            elif f.endswith(".edit"):
                t = open(p, encoding="utf8").read()
                u = re.sub(ID, lambda w: turn[w[0]] if w[0] in turn and CAMEL.match(w[0]) else w[0], t)
            elif f.endswith(".md") and f not in ("PORT.md", "CHANGELOG.md"):
                t = open(p, encoding="utf8").read()
                u = re.sub(r"`[^`\n]+`", lambda m: re.sub(ID, lambda w: turn.get(w[0], w[0]), m[0]), t)
            if t is not None and u != t and not say:
                open(p, "w", encoding="utf8").write(u)
    print(f"{len(turn)} names; {len(met)} pairs fall together", file=sys.stderr)
    if say:
        for x, y in sorted(turn.items()):
            print("name", x, y)


main()
