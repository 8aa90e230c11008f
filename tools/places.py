#!/usr/bin/env python3
"""Lists places in src/ that have an older form, by the points of docs/DESIGN-PASS.md.

python3 tools/places.py         how many for each point
python3 tools/places.py POINT   which
Run at the top of the repository."""
import difflib, itertools, re, subprocess, sys
from collections import defaultdict


def files(*globs):
    return subprocess.run(["git", "ls-files", *globs], capture_output=True, text=True).stdout.split()


SRC = [f for f in files("crates/*/src/*.rt")]
TEXT = {f: open(f).read().split("\n") for f in SRC}


def code(pattern):
    """Lines of code, without clauses and comments, that match."""
    for f, lines in TEXT.items():
        for i, line in enumerate(lines, 1):
            if re.match(r" *(//|ghost |requires |ensures )", line):
                continue
            if re.search(pattern, line):
                yield f"{f}:{i}: {line.strip()}"


def functions():
    """Each function: file, line, name, parameters, requires, tokens of its body."""
    for f, lines in TEXT.items():
        i = 0
        while i < len(lines):
            m = re.match(r"( *)(?:pub(?:\(crate\))? )?fn (\w+)", lines[i])
            if not m:
                i += 1
                continue
            indent, start = m.group(1), i
            while i < len(lines) and not re.match(indent + r"(\{\}?|.*(\{|;))$", lines[i]) or re.match(r" *(requires|ensures)\b.*\}$", lines[i]):
                i += 1
            head = "\n".join(lines[start:i + 1])
            j = i
            if not re.search(r"(\{\}|;)$", lines[i]):
                while j < len(lines) and lines[j] != indent + "}":
                    j += 1
            signature = re.sub(r"(?m)^ *(requires|ensures).*$", "", head)
            signature = re.sub(r"^.*?\bfn \w+(<.*?>(?=\())?\(", "", signature, count=1, flags=re.S)
            params = re.findall(r"(\w+): ([^,()\n]*(?:\([^)]*\))?[^,()\n]*)", signature)
            params = [(x, re.sub(r"\bmut |'\w+ ?|\) ->.*", "", t)) for x, t in params]
            requires = re.findall(r"(?m)^ *requires\b.*?\{ (.*) \}$", head)
            yield f, start + 1, m.group(2), params, requires, re.findall(r"\w+|[^\w\s]", "\n".join(lines[i:j + 1]))
            i = j + 1


def twins():
    """Two functions, or two structs, whose code is nearly the same but for its names."""
    shape = lambda ts: [t if not re.match(r"\w", t) or t in KEY else "x" for t in ts]
    fs = [(f, n, name, shape(ts)) for f, n, name, _, _, ts in functions() if len(ts) >= 25]
    for a, b in itertools.combinations(fs, 2):
        if a[0].split("/")[1] == b[0].split("/")[1] and abs(len(a[3]) - len(b[3])) <= 0.2 * len(a[3]):
            if difflib.SequenceMatcher(None, a[3], b[3], autojunk=False).ratio() >= 0.9:
                yield f"{a[0]}:{a[1]}: {a[2]} ~ {b[0]}:{b[1]}: {b[2]}"
    structs = [(f, m) for f, ls in TEXT.items() for m in re.findall(r"struct (\w+) \{\n *(?:pub(?:\(crate\))? )?\w+: \[\w+; (\w+)\],\n\}", "\n".join(ls))]
    for (f, a), (g, b) in itertools.combinations(structs, 2):
        if a[1] == b[1]:
            yield f"{f}: struct {a[0]} ~ {g}: struct {b[0]}"


KEY = set("for while loop if else match let mut in return fn as Some None Ok Err true false".split())


def shared():
    """A fact in the requires of three functions or more, or three parameters or more that three functions or more share."""
    facts, groups = defaultdict(set), defaultdict(set)
    for f, n, name, params, requires, _ in functions():
        crate = f.split("/")[1]
        for r in requires:
            for fact in r.split(" × "):
                facts[crate, fact.strip("() ")].add(f"{f}:{n}: {name}")
        names = sorted({f"{x}: {t.strip()}" for x, t in params if x != "rt"})
        for k in range(3, len(names) + 1):
            for g in itertools.combinations(names, k):
                groups[crate, g].add(f"{f}:{n}: {name}")
    for (crate, fact), at in sorted(facts.items()):
        if len(at) >= 3:
            yield f"{crate}: {fact}: {len(at)} functions"
    big = {k: v for k, v in groups.items() if len(v) >= 3}
    for (crate, g), at in sorted(big.items()):
        if not any(c == crate and set(g) < set(h) and at <= v for (c, h), v in big.items()):
            yield f"{crate}: ({', '.join(g)}): {len(at)} functions"


def point(p):
    if p == 1:
        return list(code(r"\bkind [<>=!]=? [0-9]|match (row\.)?(kind|number|trial)\b|\b(kind|first|trial|number|guard): u8|fn kind\b.*u8|\bkind: [0-9]|\brow\([0-9]|\bnumber (==|!=) 0|: u16 = 65535|fn push.*bool|fn write_lines.*u8|-> u8$.*number"))
    if p == 2:
        return list(twins())
    if p == 3:
        return list(code(r"^ *for [a-z_]+ in [^{]*\.\.|^ *while |\bloop \{"))
    if p == 4:
        return list(code(r"^ *(Some|Ok)\((\w+)\) => (Some|Ok)\(|^ *Err\(\w+\) => (None|Err\()|^ *None => (None|\"\"|Err\()|^ *Some\(\w+\) => \w+,$|if (\w+) [<>]=? (\w+) \{ \w+ \} else|^ *let (name|number|value) = \w+\.\w+\(\);|out\.push\(b'0'|buffer\[i\] = |fn (lesser_of|put_digits|has)\b.*text|let Some\(\w+\) = .* else \{$"))
    if p == 5:
        return list(shared())
    if p == 6:
        return list(code(r": \[\w+; (4096|N)\],|\bn: usize,|Kept::new\("))
    if p == 7:
        return list(code(r"if (settles|some|levels == 1|task\.settles) \{"))
    if p == 8:
        return [f"{f}: {sum(1 for _ in open(f))} lines" for f in files("crates/*/proofs/*.antt") if not f.endswith("Lib.antt")]


if len(sys.argv) > 1:
    print("\n".join(point(int(sys.argv[1]))))
else:
    for p in range(1, 9):
        print(f"{p}: {len(point(p))}")
