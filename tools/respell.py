#!/usr/bin/env python3
"""Brings this repository's own names of specs/ and proofs/ to Rattle's spelling: types, facts and modules in upper camel case, all else in snake case.

usage: python3 tools/respell.py [--list]      at the top of the repository, once, after port.py. --list only prints what it would do.

It renames what an .antt file declares and whose name has a dash (or, for a type, an underscore), wherever that name stands: in .antt files,
in the clauses and ghost items of .rt files, and between backticks in comments, README.md and docs/. Names that Rattle makes (goals, steps),
names of the toolchain's libraries, other words of comments and strings stay. It stops before it changes anything where two names would fall together.
"""

import os
import re
import sys

TOKEN = re.compile(r"[^\W\d][\w'-]*")
WORDS = r"(?:pub |abbrev |unfoldable |record |data |mod |mutual )*"
SIGNATURE = re.compile(r"^\s*(?:let )?" + WORDS + r"((?:[^\W\d][\w'-]*)(?: [^\W\d][\w'-]*)*) :(?= |$)")
HEADED = re.compile(r"^\s*(?:pub |abbrev )*(?:record|data|mod) ([^\W\d][\w'-]*)")
GOAL = re.compile(r": goal\.")
# A lemma that would have a function's name.
LEMMAS = """different-counts machine-ends machine-places machine-remembers machine-room machine-steps machine-valid one-reading order-ends order-kept
overlaps-tell peaks-tell put-parts read-book read-row read-rows sums-worked told-by-pairs""".split()
# A field and two constructors that have a function's name too, which does no harm: functions stand in no .antt file but in paths.
ALIKE = {"few-parts", "go-in", "go-out"}
LET = re.compile(r"\blet ([^\W\d][\w'-]*) [:=]")
CALLED = re.compile(r" as ([^\W\d][\w'-]*)")


def texts(root, *ends):
    for folder, dirs, files in os.walk(root):
        dirs[:] = sorted(d for d in dirs if d not in ("out", ".git"))
        for f in sorted(files):
            if f.endswith(ends):
                yield os.path.join(folder, f)


def read(path):
    with open(path, encoding="utf-8") as f:
        return f.read()


def spelled(name):
    """A type or module in upper camel case, another name in snake case."""
    if name in LEMMAS:
        return name.replace("-", "_") + "_lem"
    if name[0].isupper():
        return "".join(p[:1].upper() + p[1:] for p in re.split(r"[-_]", name))
    return name.replace("-", "_")


def declared():
    names = set()
    for path in texts("crates", ".antt"):
        for line in read(path).splitlines():
            if GOAL.search(line):
                continue
            names.update(LET.findall(line))
            if line.startswith("use "):
                names.update(CALLED.findall(line))
            m = HEADED.match(line)
            if m:
                names.add(m[1])
                continue
            m = SIGNATURE.match(line)
            if m:
                names.update(m[1].split())
        module = os.path.basename(path)[: -len(".antt")]
        if "-" in module:
            names.add(module)
    return {n for n in names if "-" in n or (n[0].isupper() and "_" in n)}


def parts(text, comment):
    """The text as pairs: whether names may be turned there, and the piece; comments and strings are left."""
    for m in re.finditer(r'"(?:[^"\\\n]|\\.)*"|' + comment + r"[^\n]*|.|\n", text):
        yield len(m[0]) == 1, m[0]


def quoted(text, names):
    """The names between backticks."""
    return re.sub(r"`[^`\n]+`", lambda m: TOKEN.sub(lambda t: names.get(t[0], t[0]), m[0]), text)


def turned(text, names, comment):
    out, run = [], []
    for plain, piece in parts(text, comment):
        if plain:
            run.append(piece)
            continue
        out.append(TOKEN.sub(lambda m: names.get(m[0], m[0]), "".join(run)))
        out.append(piece if piece.startswith('"') else quoted(piece, names))
        run = []
    out.append(TOKEN.sub(lambda m: names.get(m[0], m[0]), "".join(run)))
    return "".join(out)


def unaliased(text):
    """An import under another spelling of the same name goes: ghost items could have no dash once."""
    for name, other in re.findall(r"([^\W\d][\w']*) as ([^\W\d]\w*)", text):
        if name == other or spelled(other) == name or name.replace("_", "").lower() == other.lower():
            text = re.sub(rf"\b{name} as {other}\b", name, text)
            text = re.sub(rf"(?<![\w'.]){other}\b", name, text)
    return text


def tokens(text, comment):
    return set(TOKEN.findall("".join(p for plain, p in parts(text, comment) if plain)))


def main():
    names = {n: spelled(n) for n in declared()}
    seen = set()
    for path in texts("crates", ".antt"):
        seen |= tokens(read(path), r"(?<![^\s(])--(?=\s|$|-)")
    made = {}
    bad = False
    for old, new in sorted(names.items()):
        if old not in ALIKE and (new in seen or new in made):
            print(f"falls together: {old} -> {new}" + (f" (with {made[new]})" if new in made else " (stands already)"))
            bad = True
        made[new] = old
    if "--list" in sys.argv:
        for old, new in sorted(names.items()):
            print(old, new)
    if bad or "--list" in sys.argv:
        raise SystemExit(bad)
    for path in texts("crates", ".antt"):
        text = read(path)
        new = turned(text, names, r"(?<![^\s(])--(?=\s|$|-)")
        to = os.path.join(os.path.dirname(path), names.get(os.path.basename(path)[:-5], os.path.basename(path)[:-5]) + ".antt")
        if to != path:
            os.rename(path, to)
        if new != text or to != path:
            with open(to, "w", encoding="utf-8") as f:
                f.write(new)
    for path in texts("crates", ".rt"):
        text = read(path)
        new = unaliased(turned(text, names, "//"))
        if new != text:
            with open(path, "w", encoding="utf-8") as f:
                f.write(new)
    for path in ["README.md"] + list(texts("docs", ".md")):
        text = read(path)
        new = quoted(text, names)
        if new != text:
            with open(path, "w", encoding="utf-8") as f:
                f.write(new)


if __name__ == "__main__":
    main()
