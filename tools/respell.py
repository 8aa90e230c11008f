#!/usr/bin/env python3
"""Brings the repository's own definitions and lemmas to snake case.

usage: python3 tools/respell.py     at the top of the repository, once, after the kit's own port script

A name that is declared in specs/ or proofs/ in camel case with a small first letter, or with a dash, is respelled in each
file of specs/, proofs/ and src/, and between back quotes on a page. A dash stays where it joins, in a lemma, the names
of two definitions, as in `length-drop`. Names that the toolchain makes (goals, steps) and names of functions of src/ stay.
Prints each name that changed, and names that fall together.
"""
import os
import re
import sys

DECLARED = re.compile(r"^(\s*)((?:(?:pub|abbrev|unfoldable|record|data) )*)((?:[^\s(){}\[\]:;,|=λ.]+ )+?)((?:[({].*?)? ?):(?: |$)(.*)")
ALIAS = re.compile(r"(?<=[{ ])as ([a-z]\w*[A-Z]\w*)")
TOKEN = re.compile(r"[^\s(){}\[\];,.:\"`|]+")
SHELF = {"length", "take", "drop", "get_or", "map", "min", "max", "cond", "not", "eqb", "ltb", "leb", "set", "suc", "paste"}


def files(*ends):
    for folder, dirs, names in os.walk("crates"):
        dirs[:] = sorted(d for d in dirs if d != "out")
        for name in sorted(names):
            if name.endswith(ends):
                yield os.path.join(folder, name)


def read(path):
    with open(path, encoding="utf-8") as f:
        return f.read()


def declared():
    """Each own name with the files that declare it, and whether it stands in specs/."""
    found, made = {}, set()
    for path in files(".antt"):
        if path.endswith("Lib.antt"):
            continue
        for line in read(path).split("\n"):
            if line.startswith("use "):
                for name in ALIAS.findall(line):
                    found.setdefault(name, set()).add(path)
            m = DECLARED.match(line)
            if not m or m.group(3).startswith(("--", "let ")):
                continue
            names, of = m.group(3).split(), m.group(5).strip()
            if of.startswith("goal.") or of.startswith("goal "):
                made.update(names)
                continue
            for name in names:
                found.setdefault(name, set()).add(path)
    return found, made


def small(name):
    return re.sub(r"(?<=[a-z0-9'])([A-Z])", lambda m: "_" + m.group(1).lower(), name) if name[0].islower() else name


def respelled(name, words):
    parts = [small(p) for p in name.split("-")]
    return ("-" if len(parts) == 2 and all(p in words for p in parts) else "_").join(parts)


def main():
    found, made = declared()
    specs = {n for n, paths in found.items() if any("/specs/" in p for p in paths)}
    words = {small(n) for n in specs if "-" not in n} | SHELF
    turn = {}
    for name in found:
        if name in made or not re.search(r"[a-z][A-Z]|-", name) or not re.match(r"[A-Za-z]", name):
            continue
        new = respelled(name, set() if name in specs else words)
        if "-" in name and new != name and (new in found or new in words):
            new += "_lem"
        if new != name:
            turn[name] = new
        elif "-" in name:
            print(f"{name} stays")
    old = {}
    for a, b in sorted(turn.items()):
        print(f"{a} -> {b}")
        old.setdefault(b, []).append(a)
    for b, a in sorted(old.items()):
        if len(a) > 1 or b in found:
            print(f"fall together: {b} from {a}" + (f", and {b} stands in {sorted(found[b])}" if b in found else ""))

    def word(m, names):
        t = m.group(0)
        before = m.string[max(0, m.start() - 5) : m.start()]
        if before.endswith("goal."):
            return t
        return names.get(t, t)

    for path in files(".antt", ".rt"):
        text = read(path)
        names = turn if path.endswith(".antt") else {a: b for a, b in turn.items() if a in specs}
        lines = []
        for line in text.split("\n"):
            quiet = line.lstrip().startswith(("--", "//"))
            use = {a: b for a, b in names.items() if "-" not in a} if quiet else names
            lines.append(TOKEN.sub(lambda m: word(m, use), line))
        new = "\n".join(lines)
        if new != text:
            with open(path, "w", encoding="utf-8") as f:
                f.write(new)
    for page in ["README.md"] + [os.path.join("docs", p) for p in sorted(os.listdir("docs")) if p.endswith(".md")]:
        text = read(page)
        new = re.sub(r"`([^`\s]+)`", lambda m: "`" + turn.get(m.group(1), m.group(1)) + "`", text)
        if new != text:
            with open(page, "w", encoding="utf-8") as f:
                f.write(new)


if __name__ == "__main__":
    sys.exit(main())
