#!/usr/bin/env python3
"""Brings the definitions and lemmas of this repository to snake case: run once at the top, after port.py.

Names in camel case (`headerOf`) and with dashes (`held-reaches`) become `header_of` and `held_reaches`; a lemma that would
fall together with a definition gets `_lem`; a module's other name becomes camel case (`LogBatch`). A name keeps its spelling
where it comes from the library, where the check makes it (proofs/F/), or where it begins with a type (`Goes-none`).
The crate `log` becomes `metalog`, since the kit has a library of that name. It goes over crates/, crates.txt, README.md and
docs/. With --dry it prints the names alone.
"""
import collections
import os
import re
import sys

TOKEN = re.compile(r"(?<![\w'«◌-])[^\W\d_][\w']*(?:-[\w']+)*(?![\w'])")
USE = re.compile(r"^[ \t]*(?:pub )?(?:open )?(?:ghost )?use ([^\s;{]+?)(?:\.\{([^}]*)\}|(?: as ([\w'-]+))?)[ ;]*$", re.M)
TICKED = re.compile(r"`[^`]*`")
# definitions whose new name a lemma had: that lemma gives way
LEMMAS = {"held_all": "held_all_lem", "set_all": "set_all_lem"}


def segment(s):
    if not s or not s[0].islower():
        return s
    return re.sub(r"(?<=[a-z0-9])([A-Z]+)(?=[a-z0-9]|$)", lambda m: "_" + m.group(1).lower(), s)


def camel(n):
    return "-".join(segment(s) for s in n.split("-"))


def files(root):
    for folder, dirs, names in os.walk(os.path.join(root, "crates")):
        dirs[:] = sorted(d for d in dirs if d != "out")
        for f in sorted(names):
            if f.endswith((".antt", ".rt", ".edit")):
                yield os.path.join(folder, f)


def kind(path):
    parts = path.split(os.sep)
    rest = parts[parts.index("crates") + 2:]
    if path.endswith(".antt"):
        return "made" if rest[0] == "proofs" and len(rest) > 2 else "own"
    return "edit" if path.endswith(".edit") else "rt"


def plain(text):
    return re.sub(r"--.*$", "", USE.sub("", text), flags=re.M)


def names_of(texts, crates):
    library, fns, aliases = set(), set(), {}
    for p, t in texts.items():
        for m in USE.finditer(t):
            path = m.group(1).split(".")
            if not (path[0] == "Rattle" and len(path) > 1 and path[1] in crates):
                library.update(w.split(" as ")[0].strip() for w in (m.group(2) or "").split(","))
            if m.group(3) and "-" in m.group(3):
                aliases[m.group(3)] = "".join(s[0].upper() + s[1:] for s in m.group(3).split("-"))
        if p.endswith(".rt"):
            fns.update(re.findall(r"\bfn (\w+)", t))
    return library, fns, aliases


def table_of(texts, crates):
    library, fns, aliases = names_of(texts, crates)
    every = collections.Counter()
    found = {}
    for p, t in texts.items():
        if kind(p) == "edit":
            continue
        words = TOKEN.findall(plain(t))
        every.update(words)
        for n in words:
            if n in library or not n[0].islower():
                continue
            if kind(p) == "own" and "-" in n:
                found[n] = camel(n).replace("-", "_")
            elif "-" not in n and camel(n) != n:
                found[n] = camel(n)
    to = collections.defaultdict(list)
    for n, new in found.items():
        to[new].append(n)
    for new, olds in to.items():
        there = every[new] and new not in fns and new not in LEMMAS
        for n in olds:
            if "-" in n and (len(olds) > 1 or there):
                found[n] = new + "_lem"
            elif there or [o for o in olds if o != n and "-" not in o]:
                sys.exit(f"respell: {n} and another name fall together as {new}")
    return found | LEMMAS | aliases, aliases


def comment(line, mark, table, declared):
    def ticked(m):
        return TOKEN.sub(lambda k: table.get(k.group(0)) or declared.get(k.group(0), k.group(0)), m.group(0))
    line = TICKED.sub(ticked, line)
    return TOKEN.sub(lambda k: table.get(k.group(0), k.group(0)) if "-" not in k.group(0) and k.group(0) not in LEMMAS else k.group(0), line)


def code(text, table, allowed):
    return TOKEN.sub(lambda k: table[k.group(0)] if k.group(0) in table and allowed(k.group(0)) else k.group(0), text)


def turned(path, text, table, aliases, crates):
    k = kind(path)
    mark = "//" if k == "rt" else "--"
    mine = set(aliases)
    for m in USE.finditer(text):
        if m.group(1).split(".")[:1] == ["Rattle"] and m.group(1).split(".")[1] in crates:
            mine.update(w.strip() for part in (m.group(2) or "").split(",") for w in part.split(" as "))
    if k == "own":
        allowed = lambda n: True
    elif k == "made":
        allowed = lambda n: n in mine or ("-" not in n and n not in LEMMAS)
    elif k == "edit":
        allowed = lambda n: n not in LEMMAS
    else:
        allowed = lambda n: ("-" not in n and n not in LEMMAS) or n in aliases
    out = []
    for line in text.split("\n"):
        at = line.find(mark)
        if k == "edit" or at < 0:
            out.append(code(line, table, allowed))
        else:
            out.append(code(line[:at], table, allowed) + comment(line[at:], mark, table, {}))
    return "\n".join(out)


def crate_log(root):
    """The crate `log` under its new name: folder, crates.txt, paths."""
    if not os.path.isdir(os.path.join(root, "crates", "log")):
        return
    os.rename(os.path.join(root, "crates", "log"), os.path.join(root, "crates", "metalog"))
    for p in list(files(root)) + [os.path.join(root, "crates.txt")]:
        t = open(p, encoding="utf-8").read()
        new = t.replace("Rattle.log.", "Rattle.metalog.").replace("Rattle\u00b7log\u00b7", "Rattle.metalog.").replace("Rattle\u00b7log.", "Rattle.metalog.")
        new = re.sub(r"(?<![\w.])log::", "metalog::", new)
        if p.endswith("crates.txt"):
            new = re.sub(r"\blog\b", "metalog", new)
        if new != t:
            open(p, "w", encoding="utf-8").write(new)
    for p in ("docs/PROOFS.md", "docs/DECISIONS.md", "docs/EXCEPTIONS.md", "README.md"):
        p = os.path.join(root, p)
        t = open(p, encoding="utf-8").read()
        new = t.replace("`log`", "`metalog`").replace(", log ", ", metalog ").replace("page   log   map", "page   metalog   map")
        if new != t:
            open(p, "w", encoding="utf-8").write(new)


def main(root):
    crates = set(os.listdir(os.path.join(root, "crates")))
    texts = {p: open(p, encoding="utf-8").read() for p in files(root)}
    table, aliases = table_of(texts, crates)
    if "--dry" in sys.argv:
        print("\n".join(f"{a} {b}" for a, b in sorted(table.items())))
        return
    changed = 0
    for p, t in texts.items():
        new = turned(p, t, table, aliases, crates)
        if new != t:
            changed += 1
            open(p, "w", encoding="utf-8").write(new)
    # names that port.py had respelled before
    declared = {}
    for p in files(root):
        if kind(p) == "own":
            for n in TOKEN.findall(plain(open(p, encoding="utf-8").read())):
                declared.setdefault(n, n)
    pages = ["README.md"] + sorted(os.path.join("docs", f) for f in os.listdir(os.path.join(root, "docs")) if f.endswith(".md"))
    for p in pages:
        t = open(os.path.join(root, p), encoding="utf-8").read()
        def word(k):
            n = k.group(0)
            if n in table and n not in LEMMAS:
                return table[n]
            new = camel(n).replace("-", "_")
            return new if n[0].islower() and new != n and new in declared and n not in declared else n
        new = TICKED.sub(lambda m: TOKEN.sub(word, m.group(0)), t)
        new = TOKEN.sub(lambda k: word(k) if "-" not in k.group(0) and camel(k.group(0)) != k.group(0) else k.group(0), new)
        if new != t:
            changed += 1
            open(os.path.join(root, p), "w", encoding="utf-8").write(new)
    crate_log(root)
    print(f"respell: {len(table)} names, {changed} files")


main(".")
