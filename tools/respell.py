#!/usr/bin/env python3
"""Respells the definitions and lemmas of specs/ and proofs/ as std spells its own, everywhere in crates/ and in the pages.

usage: python3 tools/respell.py [--list]    at the top of a repository just turned by the kit's port.py

Words are in snake case; types, facts and modules keep their capitals. In a lemma a dash stays where it joins two names,
and a plain word is added with '_'. Functions of src/ and what the kit makes keep their names.
"""

import collections
import pathlib
import re
import sys

NAME = re.compile(r"(?<![\w'◌-])[a-z][\w'◌₀-₉-]*")
DEFINED = re.compile(r"^(?:abbrev |unfoldable |pub |ruleset )*([a-z][\w'◌-]*) :", re.M)
INSIDE = re.compile(r"^  (?:abbrev |unfoldable |pub )*([a-z][\w'◌-]*) :", re.M)
BLOCK = re.compile(r"^(?:pub )?(data|record|module) .*(?:\n(?:  .*|[ \t]*|--.*)(?=\n))*", re.M)
ALIAS = re.compile(r"\bas ([a-z][a-z0-9]*[A-Z]\w*)")

# names of std that lemmas here speak of
STD = set("""length get_or map take drop append set replicate sum min max pos negsuc suc zero not refl cond eqb ltb leb
 add sub mul div mod pow le lt eq reverse filter bit_and bit_or""".split())
# what std calls now what the older library's word named
OLDER = {"getD": "get_or", "get_d": "get_or"}
# words that are names too, but not where a lemma's name has them
PLAIN = set("same one all none next first last from at in is rest past done words word places place store slot slots kept left".split())
# names that would fall together with another, or that port.py let fall together, by file
ALONE = {
    "meaning/proofs/ByWords.antt": {"live_in": "live-owned"},
    "walk/proofs/WalkLaws.antt": {"live_in": "live-owned"},
    "meaning/proofs/Bitmaps.antt": {"word_at": "get_or-bitmap"},
    "meaning/proofs/ListRoom.antt": {"in_use": "in_use_of"},
    "fixing/proofs/fix_root/Proof.antt": {"is-ref": "is_ref"},
    "words/proofs/Settled.antt": {"is-ref": "is_ref"},
}
# fields that would take a definition's name, and a lemma whose dash port.py took for a plain word
TAKEN = {"is-ref": "holds_ref", "ref_value": "ref-value"}


def snake(part):
    part = OLDER.get(part, part)
    return re.sub(r"(?<=[a-z0-9ℕℤ])([A-Z])", lambda m: "_" + m[1].lower(), part)


def files(root):
    for p in sorted((root / "crates").rglob("*")):
        if p.suffix in (".antt", ".rt", ".edit") and "out" not in p.parts:
            yield p


def is_lemma_file(p):
    """A file of proofs/ itself, not of a function's folder."""
    return p.suffix == ".antt" and p.parent.name == "proofs"


def own_names(root):
    """(functions, fields and constructors; lemmas) of specs/ and proofs/."""
    words, lemmas = set(), set()
    for p in files(root):
        spec = p.suffix == ".antt" and p.parent.name == "specs"
        if not spec and not is_lemma_file(p):
            continue
        t = p.read_text()
        for m in BLOCK.finditer(t):
            if m[1] != "module":
                words |= set(INSIDE.findall(m[0]))
            else:
                (words if spec else lemmas).update(INSIDE.findall(m[0]))
        for m in DEFINED.finditer(t):
            line = t[m.start():t.index("\n", m.start())]
            plain = spec or line.startswith("abbrev") or line.startswith("unfoldable")
            (words if plain else lemmas).add(m[1])
    return words, lemmas - words


def joined(name, names):
    """A lemma's name: parts that make a name together are one; a dash stays between two names, else it becomes '_'."""
    for older, now in OLDER.items():
        name = re.sub(rf"^{older}[_-]", now + "-", name)
    parts, units = [snake(x) for x in name.split("-")], []
    while parts:
        n = next((k for k in range(len(parts), 1, -1) if "_".join(parts[:k]) in names), 1)
        units.append("_".join(parts[:n]))
        parts = parts[n:]
    out, last = units[0], units[0] in names
    for x in units[1:]:
        named = x in names and x not in PLAIN
        out += ("-" if last and named else "_") + x
        last = named
    return out


def source_names(root):
    """Functions of src/."""
    found = set()
    for p in (root / "crates").glob("*/src/*.rt"):
        found |= set(re.findall(r"\bfn (\w+)", p.read_text()))
    return found


def table(root):
    words, lemmas = own_names(root)
    new = {w: "_".join(snake(x) for x in w.split("-")) for w in words}
    names = set(new.values()) | STD | source_names(root)
    for l in lemmas:
        to = joined(l, names)
        # a lemma that would have its function's name
        new[l] = to + "_lem" if to in names and l != to else to
    for p in files(root):
        new |= {a: snake(a) for a in ALIAS.findall(p.read_text())}
    new |= TAKEN
    return {a: b for a, b in new.items() if a != b}


def fallen(root, new):
    """Names that would fall together: two own names turned to one, or one turned to a name that a file already has."""
    turned = collections.defaultdict(set)
    for a, b in new.items():
        turned[b].add(a)
    bad = [f"{sorted(a)} -> {b}" for b, a in sorted(turned.items()) if len(a) > 1]
    for p in files(root):
        if p.suffix == ".antt":
            # a function's name stands behind a dot
            seen = set(re.findall(r"(?<![\w'◌.-])[a-z][\w'◌₀-₉-]*", re.sub(r"--.*", "", p.read_text())))
            bad += [f"{p}: {a} -> {new[a]}, which stands there" for a in sorted(seen & set(new)) if new[a] in seen]
    return bad


def main(argv):
    root = pathlib.Path(".")
    for name, own in ALONE.items():
        p = root / "crates" / name
        if p.exists():
            p.write_text(NAME.sub(lambda m: own.get(m[0], m[0]), p.read_text()))
    new = table(root)
    if "--list" in argv:
        print("\n".join(f"{a} {b}" for a, b in sorted(new.items())))
    bad = fallen(root, new)
    if bad:
        print("\n".join(bad))
        return 1
    if "--list" in argv:
        return 0
    pages = [p for p in sorted((root / "docs").glob("*.md")) if p.name != "LANDINGS.md"]
    for p in [*files(root), *pages]:
        t = p.read_text()
        u = NAME.sub(lambda m: new.get(m[0], m[0]), t)
        if u != t:
            p.write_text(u)
    print(f"respell: {len(new)} names")
    return 0


if __name__ == "__main__":
    raise SystemExit(main(sys.argv[1:]))
