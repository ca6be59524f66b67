#!/usr/bin/env python3
"""Writes `x.old` and `x.new` (`x.now` of a `&`) for `was x` and `is x` in the clauses of .rt files, and drops the two from their imports.

usage: python3 tools/port/borrows.py        at the top of the repository
"""
import glob
import re

FN = re.compile(r"^(?:pub(?:\(crate\))? )?(?:extern \"C\" )?fn \w+(?:<[^>]*>)?\(")

for path in sorted(glob.glob("crates/*/src/*.rt")):
    old = open(path, encoding="utf-8").read()
    lines, i = old.split("\n"), 0
    while i < len(lines):
        if FN.match(lines[i].lstrip()):
            j, sig = i, ""
            while j < len(lines) and lines[j].strip() not in ("{",) and not (j > i and lines[j].rstrip().endswith("{")):
                j += 1
            sig = " ".join(lines[i:j])
            kinds = dict(re.findall(r"(\w+)\s*:\s*(&mut\b|&)", sig.split("requires")[0].split("ensures")[0]))
            for k in range(i, j):
                if not re.match(r"\s*(requires|ensures)\b", lines[k]):
                    continue

                def turned(m):
                    p = m.group(2)
                    if p not in kinds:
                        return m.group(0)
                    end = "now" if kinds[p] == "&" else {"was": "old", "is": "new"}[m.group(1)]
                    return p + "." + end

                lines[k] = re.sub(r"\((was|is) (\w+)\)", turned, lines[k])
                lines[k] = re.sub(r"(?<![\w.])(was|is) (\w+)(?![\w.])", turned, lines[k])
            i = j
        else:
            i += 1
    new = "\n".join(lines)
    if not re.search(r"(?<![\w.\"])(was|is) \w+(?=[) ])", "\n".join(l for l in new.split("\n") if re.match(r"\s*(requires|ensures)\b", l))):
        def trimmed(m):
            names = [n for n in m.group(2).split(", ") if n not in ("was", "is")]
            return m.group(1) + "{" + ", ".join(names) + "};" if names else ""
        new = re.sub(r"(ghost use Rattle\.ir\.specs\.Counted\.)\{([^}]*)\};", trimmed, new)
    if new != old:
        open(path, "w", encoding="utf-8").write(new)
