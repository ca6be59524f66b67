#!/usr/bin/env python3
"""Old and new side by side, as lines of Markdown: sides.py COMMIT, at the top of the checkout. Public signatures of src/, clauses, ghost members and
ghost fields, definitions of specs/, and laws of proofs/ (files that are no proof of one function) that changed or went since that commit, or are new."""
import difflib
import os
import re
import subprocess
import sys

COMMIT = sys.argv[1]


def sh(*a):
    return subprocess.run(a, stdout=subprocess.PIPE, text=True, check=True).stdout


def old_files(part):
    names = [f for f in sh("git", "ls-tree", "-r", "--name-only", COMMIT, "crates").split("\n") if re.match(part, f)]
    return {f: sh("git", "show", f"{COMMIT}:{f}") for f in names}


def new_files(part):
    names = [f for f in sh("git", "ls-files", "crates").split("\n") if re.match(part, f) and os.path.exists(f)]
    return {f: open(f).read() for f in names}


def flat(s):
    return " ".join(re.sub(r"//[^\n]*", "", s).split())


def code(files):
    """(crate, owner, name) of a function -> signature, clauses; and types and ghost members."""
    fns, types = {}, {}
    for f, t in files.items():
        crate, stem = f.split("/")[1], os.path.basename(f)[:-3]
        impls = [(m.start(), " ".join(m.group(1).split())) for m in re.finditer(r"^impl(?:<[^>]*>)? ([^{]*)\{", t, re.M)]
        ends = [(m.start(), "") for m in re.finditer(r"^\}", t, re.M)]
        marks = sorted(impls + ends)
        for m in re.finditer(r"^ *((?:pub(?:\(crate\))? )?(?:extern \"C\" )?fn (\w+).*?)(?=^ *\{$|\{$)", t, re.M | re.S):
            owner = ""
            for at, name in marks:
                if at < m.start():
                    owner = name
            text = re.sub(r"//[^\n]*", "", m.group(1))
            head, *rest = re.split(r"\n\s*(?=requires|ensures)", text)
            fns[crate, stem, owner, m.group(2)] = (" ".join(head.split()), [" ".join(c.split()) for c in rest])
        for m in re.finditer(r"^ *(pub(?:\(crate\))? )?(struct|enum|trait) (\w+)([^{;]*)(\{.*?^\}|;)", t, re.M | re.S):
            types[crate, m.group(3)] = ((m.group(1) or "").strip(), flat(m.group(0)))
        for at, name in impls:
            for g in re.finditer(r"ghost (\w+) = \{(.*?)\};", t[at : t.index("\n}", at)], re.S):
                types[crate, f"{name.strip()} {g.group(1)}"] = ("pub", "ghost " + g.group(1) + " = {" + " ".join(g.group(2).split()) + "}")
    return fns, types


def antt(files):
    """(crate, file, name) -> the declaration, without comments; what stands in a `module _` counts as what stands at the margin."""
    start = re.compile(r"(?:abbrev |unfoldable )*(?:pub )?(?:data |record )?([\w◌][^\s:({]*)[^\n]*?:")
    out = {}
    for f, t in files.items():
        lines = [l for l in t.split("\n") if not re.match(r" *--", l)]
        key, within = None, []
        for l in lines:
            if not l.strip():
                continue
            depth = len(l) - len(l.lstrip(" "))
            while within and depth <= within[-1]:
                within.pop()
            margin = within[-1] + 2 if within else 0
            if l.strip().startswith("module "):
                within.append(depth)
                key = None
                continue
            if re.match(r"(use|mod|pub mod|let|where)\b", l.strip()) and depth == margin:
                key = None
                continue
            name = start.match(l.strip())
            if name and depth == margin and (key is None or name.group(1) != key[2]):
                key = (f.split("/")[1], os.path.basename(f)[:-5], name.group(1))
                out[key] = ""
            if key:
                out[key] += " " + l.strip()
    return {k: " ".join(v.split()) for k, v in out.items()}


def statement(d):
    """What a law says: up to its first clause."""
    m = re.match(r"(?:abbrev |unfoldable )?(?:pub )?(\S+) : (.*)$", d)
    if not m:
        return d
    name, rest = re.escape(m.group(1)), m.group(2)
    cut = re.search(r" (?:unfolding [^=]*? )?" + name + r"(?: [^=]*)? = ", " " + rest)
    return f"{m.group(1)} : " + (rest[: cut.start()].strip() if cut else rest)


def windows(a, b):
    """Where both are long and mostly the same, only what differs, with four words before and behind."""
    if not a or not b or len(a) + len(b) < 500:
        return a, b
    x, y = a.split(" "), b.split(" ")
    left, right, last = [], [], None
    for tag, i, j, k, l in difflib.SequenceMatcher(None, x, y, autojunk=False).get_opcodes():
        if tag == "equal":
            continue
        if last and i - last[0] <= 8:
            left[-1][1], right[-1][1] = j + 4, l + 4
        else:
            left.append([max(i - 4, 0), j + 4])
            right.append([max(k - 4, 0), l + 4])
        last = (j, l)
    cut = lambda t, w: " .. ".join(" ".join(t[p:q]) for p, q in w)
    return f"{x[0]} {x[1]} {x[2]} .. " + cut(x, left), f"{y[0]} {y[1]} {y[2]} .. " + cut(y, right)


def show(title, pairs):
    pairs = [p for p in pairs if p[1] != p[2]]
    print(f"\n### {title}: {len(pairs)}\n")
    for where, a, b in pairs:
        a, b = windows(a, b)
        print(f"- `{where}`")
        print(f"  - old: `{a}`" if a else "  - old: none")
        print(f"  - new: `{b}`" if b else "  - new: none")


def pair(a, b, pick=lambda x: x):
    for k in sorted(set(a) | set(b)):
        yield " ".join(x for x in k if x), pick(a[k]) if k in a else "", pick(b[k]) if k in b else ""


src = r"crates/\w+/src/.*\.rt$"
of, ot = code(old_files(src))
nf, nt = code(new_files(src))
# a function that stands in one file of its crate goes by its name alone, so that one that moved is found again
several = lambda fns: {k[:1] + k[2:] for k in fns if sum(j[:1] + j[2:] == k[:1] + k[2:] for j in fns) > 1}
twice = several(of) | several(nf)
of = {k if k[:1] + k[2:] in twice else k[:1] + k[2:]: v for k, v in of.items()}
nf = {k if k[:1] + k[2:] in twice else k[:1] + k[2:]: v for k, v in nf.items()}
public = lambda s: s.startswith("pub ") or s.startswith("pub(")
both = sorted(set(of) | set(nf))
show("Signatures of functions that other files call", [(" ".join(x for x in k if x), of[k][0] if k in of else "", nf[k][0] if k in nf else "") for k in both if public((of.get(k) or ("",))[0]) or public((nf.get(k) or ("",))[0])])
show("Clauses", [(" ".join(x for x in k if x), " · ".join(of[k][1]) if k in of else "", " · ".join(nf[k][1]) if k in nf else "") for k in both if (of.get(k) or ("", []))[1] or (nf.get(k) or ("", []))[1]])
show("Types and ghost members", [(w, a[1] if a else "", b[1] if b else "") for w, a, b in pair(ot, nt)])
spec = r"crates/\w+/specs/.*\.antt$"
show("Definitions of specs/", list(pair(antt(old_files(spec)), antt(new_files(spec)))))
laws = r"crates/\w+/proofs/[A-Z]\w*\.antt$"
a = {k: statement(v) for k, v in antt(old_files(laws)).items()}
b = {k: statement(v) for k, v in antt(new_files(laws)).items()}
moved = {}
for k, v in b.items():
    moved.setdefault((k[0], v), []).append(k)
for k in list(a):
    if k not in b and moved.get((k[0], a[k])):
        b[k] = a[k]
show("Laws of proofs/", [p for p in pair(a, b) if p[1]])
