#!/usr/bin/env python3
"""Run once, after respell.py. The definition `result` of state's specs/World becomes `after_call`, since in a clause `result` is
what a function returns; and the clauses that port.py left starred for it, `ensures* { λ r. ⌜ P ⌝ }`, become `ensures { P }`."""
import os
import re

USES = re.compile(r"^(?:pub )?(?:ghost )?use Rattle\.state\.specs\.World\.\{[^}]*\bresult\b[^}]*\}", re.M)
WORD = re.compile(r"(?<![\w'.◌-])result(?![\w'-])")
CLAUSE = re.compile(r"ensures\* \{ λ (\w+)\. ⌜(.*?)⌝ \}", re.S)


def files():
    for folder, dirs, names in os.walk("crates"):
        dirs[:] = sorted(d for d in dirs if d != "out")
        for f in sorted(names):
            if f.endswith((".antt", ".rt")):
                yield os.path.join(folder, f)


def plain(m):
    body = re.sub(r"(?<![\w'.◌-])" + m.group(1) + r"(?![\w'-])", "result", m.group(2)) if m.group(1) != "_" else m.group(2)
    return "ensures { " + body.strip() + " }"


changed = 0
for p in files():
    old = open(p, encoding="utf-8").read()
    new = old
    if USES.search(new) or p == os.path.join("crates", "state", "specs", "World.antt"):
        lines = []
        for line in new.split("\n"):
            at = line.find("//" if p.endswith(".rt") else "--")
            head, tail = (line, "") if at < 0 else (line[:at], line[at:])
            lines.append(WORD.sub("after_call", head) + tail)
        new = "\n".join(lines)
    if p.endswith(".rt"):
        new = CLAUSE.sub(plain, new)
    if new != old:
        changed += 1
        open(p, "w", encoding="utf-8").write(new)
print(f"respell_clauses: {changed} files")
