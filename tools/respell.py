#!/usr/bin/env python3
"""Spells the repository's own definitions and lemmas in snake case: run once at the top, after port.py.

firstCorner -> first_corner; no-draw -> no_draw, where a part of the name is a plain word. A dash stays between two names of
definitions. Functions of src/, types, modules and what Rattle makes for proofs keep their names. --list prints what changes.
"""
import glob
import re
import sys

W = r"[^\s(){}.;,:/@\"«»\[\]\\`]+"
DECLARED = re.compile(r"^ *((?:(?:pub|abbrev|unfoldable|data|record) )*)([^\s(){}.;,@\"«»\[\]\\:]+) :(.*)", re.M)
MADE = re.compile(r"(invariant|decreases)-|.*-spec$|.*_spec$")
# names of the library that lemmas of the repository are about
LIBRARY = set(
    "length take drop append map concat flatten reverse set get get_or suc zero replicate count sum range lookup compare"
    " mul div add sub pow mod lt le eq ne min max nan".split()
)
# where the rule would give two things one name, or a name of the library
KEPT = {"in-range": "is_in_range"}
KEPT |= {n: n.replace("-", "_") + "_lem" for n in (
    "clash-only close-first colors-by coordinates-fit corner-at edge-fits edges-in four-touch "
    "kept-apart kept-only merge-first source-loop walk-fuel places-fit"
).split()}


def snake(part):
    if not re.match(r"[a-z]", part) or not re.search(r"[A-Z]", part):
        return part
    part = re.sub(r"(?<=[a-z0-9'])([A-Z])", lambda m: "_" + m.group(1).lower(), part)
    return re.sub(r"[A-Z]", lambda m: m.group(0).lower(), part)


def camel(name):
    name = re.sub(r"(?<![A-Za-z0-9_'])getD(?![A-Za-z0-9_'])", "get_or", name)
    return "-".join(snake(p) for p in name.split("-")) if "/" not in name else name


def declared(texts):
    """Each declared name, with whether it is a definition (not a lemma)."""
    words, dashed = set(), set()
    for path, text in texts.items():
        if not path.endswith(".antt"):
            continue
        for m in DECLARED.finditer(text):
            mods, name, rest = m.groups()
            if path.endswith("Proof.antt") and (MADE.match(name) or re.match(r" *tie\.(Need|invariant|decreases)", rest)):
                continue
            if re.fullmatch(r"[A-Za-z0-9_'-]+", name):
                if "-" in name:
                    dashed.add(name)
                elif "abbrev" in mods or "unfoldable" in mods or path.find("/specs/") >= 0:
                    words.add(camel(name))
    return words, dashed


def joined(name, words):
    """Dashes between two names of definitions stay; the rest become underscores."""
    parts = camel(name).split("-")
    if re.match(r"[A-Z]", parts[0]):
        return "-".join(parts)
    out = parts[0]
    for a, b in zip(parts, parts[1:]):
        both = (a in words or a in LIBRARY) and (b in words or b in LIBRARY) and len(parts) == 2
        out += ("-" if both else "_") + b
    return out


def ghost(text):
    """The parts of a source file that speak of definitions: comments, `ghost use` items and clauses."""
    spans = [m.span() for m in re.finditer(r"//[^\n]*|^ghost use [^;]*;", text, re.M)]
    for m in re.finditer(r"^ *(?:requires|ensures)\b[^{\n]*\{", text, re.M):
        at, depth = m.end(), 1
        while depth and at < len(text):
            depth += {"{": 1, "}": -1}.get(text[at], 0)
            at += 1
        spans.append((m.end(), at))
    return sorted(spans)


def main():
    files = [p for g in ("crates/**/*.antt", "crates/**/*.rt", "crates/**/*.edit", "*.md", "docs/*.md", "docs/changes/*.md", "docs/pictures/*.md",
                         "oracle/**/*.md", "host/**/*.md", "examples/*.md") for p in glob.glob(g, recursive=True) if "/out/" not in p and "/target/" not in p]
    texts = {p: open(p, encoding="utf-8").read() for p in sorted(set(files))}
    words, dashed = declared(texts)
    table = {d: joined(d, words) for d in dashed}
    table.update(KEPT)
    table = {a: b for a, b in table.items() if a != b}
    used = {}

    def one(m):
        t = m.group(0)
        new = table.get(t) or table.get(camel(t)) or camel(t)
        if new != t:
            used[t] = new
        return new

    for p, t in texts.items():
        if p.endswith(".md"):
            new = re.sub(r"`([^`\n]+)`", lambda m: "`" + (re.sub(W, one, m.group(1)) if not re.search(r"[/]|\.(rt|antt|rs)\b", m.group(1)) else m.group(1)) + "`", t)
        elif p.endswith(".rt"):
            new, at = "", 0
            for a, b in ghost(t):
                if a >= at:
                    new += t[at:a] + re.sub(W, one, t[a:b])
                    at = b
            new += t[at:]
        elif p.endswith(".edit") and re.search(r"^file: src/", t, re.M):
            new = re.sub(r"^#.*|^(?:old|new):.*(?:ghost use|requires|ensures).*", lambda m: re.sub(W, one, m.group(0)), t, flags=re.M)
        else:
            new = re.sub(W, one, t)
        if new != t and "--list" not in sys.argv:
            open(p, "w", encoding="utf-8").write(new)
    if "--list" in sys.argv:
        for a, b in sorted(used.items()):
            print(a, b)


main()
