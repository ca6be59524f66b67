#!/usr/bin/env python3
"""Turns a crate's Proof.antt files, which answered every need of a function by name, to Invariants.antt and Answers.antt.

usage: answers.py CRATE_FOLDER NAMES.json      (NAMES.json: of `rt check --generated FOLDER --old-names`)

An answer that is only `search rules` goes: the check tries that by itself. A line 'look:' names a place to mend by hand.
"""
import json
import os
import re
import sys

TOK = r"[A-Za-z_\u00c0-\u1fff\u2080-\u209c\u2070-\u207f][A-Za-z0-9_'\-\u00c0-\u1fff\u2080-\u209c\u2070-\u207f\u00b7]*"


def norm(s):
    return s.replace("-", "_")


class Fn:
    def __init__(self, key, d):
        self.key = key
        self.d = d
        self.place = {norm(p[0]): p for p in d["places"]}
        self.newplace = {}
        for p, n in zip(d["places"], d["places_by_name"]):
            self.newplace[norm(p[0])] = n
        self.arm = {}
        for p, a in zip(d["places"], d["arms"]):
            if a:
                self.arm[norm(p[0])] = a
        self.clause = {}
        for p, a in zip(d["places"], d["clauses"]):
            if a:
                self.clause[norm(p[0])] = a
        self.needs = {}
        for (old, new), (po, pn) in zip(d["needs"], d["asked_at"]):
            self.needs[norm(old)] = (new, norm(po))

    def need(self, x):
        n = norm(x)
        if n in self.needs:
            return self.needs[n]
        for p in ("overflow_", "nonzero_", "bounds_", "shape_of_"):
            if n.startswith(p) and n[len(p):] in self.needs:
                return self.needs[n[len(p):]]
        return None

    def armclause(self, q):
        """the clauses of the call whose answer an arm matches, where they have names"""
        while q is not None:
            if q in self.clause:
                return self.clause[q]["fields"]
            if self.place[q][3]:
                return None
            q = self.parent(q)
        return None

    def params_own(self, cycle, f):
        for g in cycle.values():
            for k, v in g.d["params"].items():
                if k.split("::")[-1] == f:
                    return v
        return []

    def parent(self, pl):
        p = self.place.get(pl)
        return norm(p[1]) if p and p[1] else None

    def up(self, pl, n):
        for _ in range(n):
            q = self.parent(pl)
            if q is None:
                return pl
            pl = q
        return pl

    def label(self, pl, lab):
        """the new step and what is left of the path, for old label `lab` at place pl or above"""
        lab = norm(lab).lower()
        q = pl
        while q is not None:
            p = self.place[q]
            if norm(p[2][0]).lower() == lab:
                return q, p[2][1]
            q = self.parent(q)
        return None, None


LABELS = {
    "has_its_text": "has_text", "names_open": "open_names", "functions_listed": "functions_in", "none_found": "no_function",
    "main_checked": "check_main", "call_converted": "convert_call",
}
START = ("requires", "args", "ranges", "type_inv", "well_formed", "lifetimes", "utf8")


class Turn:
    def __init__(self, fn, where, said, by_place=False, counted=None):
        self.fn, self.where, self.said = fn, where, said
        self.goals = []
        self.cyclic = False
        self.by_place = by_place
        self.counted = counted

    def by_fields(self, head, fields, rest):
        """the path below `head` to what stood at `rest` while the clauses were one product; a tuple where that is several"""
        i = 0
        while i < len(fields) - 1:
            if not rest:
                parts = ["c." + ".".join(head + [f]) for f in fields[i:]]
                text = parts[-1]
                for q in parts[-2::-1]:
                    text = "(%s, %s)" % (q, text)
                return text
            if rest[0] == "0":
                return head + [fields[i]] + rest[1:]
            if rest[0] != "1":
                self.said("a clause of %s: %s" % (".".join(head), ".".join(rest)))
                return head + rest
            i, rest = i + 1, rest[1:]
        return head + [fields[i]] + rest

    def here(self, n, lab):
        """the place n steps up, where its step has this label but for a number at the end"""
        q = self.fn.up(self.goal_place, n)
        base = lambda x: re.sub(r"\d+$", "", norm(x).lower())
        return q if base(self.fn.place[q][2][0]) == base(lab) else None

    def path(self, rest, n=None):
        """c.before^n.rest -> the new path without the leading c (a list, or a text where it is no path)"""
        fn = self.fn
        pl = self.goal_place
        lab = rest[0]
        if norm(lab) == "pre":
            lab, rest = "requires", ["requires"] + (["1"] if self.cyclic and len(rest) > 1 and rest[1] != "0" else []) + rest[1:]
        if norm(lab) in START:
            if norm(lab) != "requires":
                return rest
            more = rest[1:]
            if self.cyclic and more and more[0] == "0":
                return ["decreases"] + more[1:]
            if self.cyclic and more and more[0] == "1":
                more = more[1:]
            elif self.cyclic and not more:
                self.said("requires of a cycle, whole")
            pre = fn.d.get("pre")
            if pre:
                return self.by_fields([lab], pre["fields"], more)
            return [lab] + more
        q = self.here(n, lab) if n is not None and self.by_place else None
        if self.counted is not None and n is not None:
            self.counted.append(self.here(n, lab) is not None)
        for name in () if q else (lab, re.sub(r"\d+$", "", lab), lab[:-4] if lab.endswith("_lem") else lab, LABELS.get(lab, lab)):
            q, new = fn.label(pl, name)
            if q is not None:
                break
        if q is not None:
            new = fn.place[q][2][1]
        if q is None:
            self.said("no step %s at %s" % (lab, pl))
            return rest
        arm = fn.arm.get(q)
        if arm:
            for newfield, oldlab, oldpath in arm[2]:
                if norm(oldlab) == norm(lab) and [norm(x) for x in rest[1:1 + len(oldpath)]] == [norm(x) for x in oldpath] and (oldpath or len(rest) == 1):
                    more = rest[1 + len(oldpath):]
                    if newfield == "ensures" and fn.armclause(q):
                        return self.by_fields([arm[0], "ensures"], fn.armclause(q), more)
                    return [arm[0], newfield] + more
            for newfield, oldlab, oldpath in arm[2]:
                if norm(oldlab) == norm(lab) and not oldpath:
                    return [arm[0], newfield] + rest[1:]
            self.said("arm %s: %s" % (json.dumps(arm), ".".join(rest)))
        cl = fn.clause.get(q)
        if cl and len(rest) > 1 and rest[1] == "ensures":
            return self.by_fields([new, "ensures"], cl["fields"], rest[2:])
        tail = rest[1:]
        if tail and tail[0] in ("taken", "left") and new.startswith("if-"):
            tail = [{"taken": "true", "left": "false"}[tail[0]]] + tail[1:]
        return [new] + tail

    def body(self, text, var, pl):
        """the text with each path from the context `var`, at place pl, respelled; a let of a context is `c`"""
        at = {var: 0}
        self.goal_place = pl
        out, i = [], 0
        rx = re.compile(r"(?<![\w.\-'])(" + TOK + r")((?:\.[\w\-'\u2080-\u2089]+)*)")
        pos = 0
        # lets in order of the text: of contexts, and of what stood for several clauses
        known = {}
        for m in rx.finditer(text):
            name, rest = m.group(1), m.group(2)
            if name not in at and name not in known:
                continue
            if m.start() < pos:
                continue
            parts = rest.split(".")[1:]
            n = at[name] if name in at else None
            while name in at and parts and parts[0] == "before":
                parts, n = parts[1:], n + 1
            before, after = text[:m.start()], text[m.end():].lstrip()
            let = re.search(r"let\s+(" + TOK + r")\s*=\s*$", before)
            let = let.group(1) if let and re.match(r"in\b", after) else None
            out.append(text[pos:m.start()])
            if name in at and not parts:
                if let:
                    at[let] = n
                    out.append("c")
                elif before.rstrip().endswith("let"):
                    out.append(name)
                else:
                    if rest or name != var:
                        self.said("a context is passed: %s%s" % (name, rest))
                    out.append(name + rest)
            elif name in known and before.rstrip().endswith("let"):
                out.append(name)
            else:
                full = parts if name in at else known[name] + parts
                new = self.path(full, n)
                if let and isinstance(new, str):
                    known[let] = full
                    out.append("c")
                elif let and name in known:
                    known[let] = full
                    out.append("c." + ".".join(new))
                else:
                    out.append(new if isinstance(new, str) else "c." + ".".join(new))
            pos = m.end()
        out.append(text[pos:])
        text = "".join(out)
        test = r"not[-_](?:true|false) (?:_|\((?:[^()]|\([^()]*\))*\)|[^\s()]+) (c\.(?:if-|loop-)[\w\-]+\.(?:true|false))"
        text = re.sub(r"\(" + test + r"\)", "\x01\\1\x02", text)
        text = re.sub(test, "\x01\\1\x02", text)
        text = re.sub(r"(?<!\x01)(?<![\w.])(c\.if-not-[\w\-]+\.(?:true|false))(?!\x02|[\w\-.])", r"(ap not \1)", text)
        text = text.replace("\x01", "").replace("\x02", "")
        return self.branches(text)

    def chain(self, first):
        """the places from `first` down to the last one of its branch"""
        fn = self.fn
        inside = []
        for p in fn.d["places"]:
            q = norm(p[0])
            r = q
            while r is not None and r != first:
                r = fn.parent(r)
            if r == first:
                inside.append(q)
        last, up = inside[-1], []
        while last != first:
            up.append(last)
            last = fn.parent(last)
        return [first] + up[::-1]

    def branches(self, text):
        """a case split on the branch of a join, of two lambdas, by the branches' names"""
        rx = re.compile(r"⊎_elim\s+\(λ (\w+)\. ")
        while True:
            found = None
            for m in rx.finditer(text):
                i, parts = m.start() + len("⊎_elim"), []
                for _ in range(2):
                    while i < len(text) and text[i].isspace():
                        i += 1
                    if i >= len(text) or text[i] != "(":
                        break
                    depth, j = 0, i
                    while j < len(text):
                        if text[j] == "(":
                            depth += 1
                        elif text[j] == ")":
                            depth -= 1
                            if depth == 0:
                                break
                        j += 1
                    parts.append(text[i + 1:j])
                    i = j + 1
                tail = re.match(r"\s+c\.(if-[\w\-+.]*?|match[\w\-+]*)\.branch", text[i:])
                if len(parts) == 2 and tail:
                    found = (m.start(), i + tail.end(), parts, tail.group(1))
                    break
            if not found:
                return text
            a, b, parts, lab = found
            arms = []
            joins = [norm(p[0]) for p, n in zip(self.fn.d["places"], self.fn.d["places_by_name"]) if p[2][1] == lab and n.startswith("Joined")]
            over = self.fn.parent(joins[0]) if joins else None
            sides = [norm(p[0]) for p, n in zip(self.fn.d["places"], self.fn.d["places_by_name"]) if over and self.fn.parent(norm(p[0])) == over and re.match(r"(Then|Else|In)[-_]", n)]
            if len(sides) != 2:
                self.said("branch of %s: %s" % (lab, sides))
                return text
            for part, side in zip(parts, sides):
                ch = self.chain(side)
                w, bod = re.match(r"λ (\w+)\. (.*)$", part, re.S).groups()
                name = "+".join(self.fn.place[q][2][1] if self.fn.newplace[q].startswith("In") else self.fn.newplace[q][0].lower() + self.fn.newplace[q][1:] for q in ch if re.match(r"(Then|Else|In)[-_]", self.fn.newplace[q]) and not (self.fn.place[q][2][0] != "match" and self.fn.newplace[q].startswith("In")))
                name = self.fn.d.get("stem", "") + name
                steps = [q for q in ch]

                def field(m, steps=steps, w=w):
                    k, rest = int(m.group(1)), m.group(2)
                    if k < len(steps):
                        q = steps[k]
                        arm = self.fn.arm.get(q)
                        if arm:
                            more = rest.split(".")[1:]
                            for newfield, oldlab, oldpath in arm[2]:
                                if norm(oldlab) == norm(self.fn.place[q][2][0]) and [norm(x) for x in more[:len(oldpath)]] == [norm(x) for x in oldpath] and (oldpath or not more):
                                    return "%s.%s.%s" % (w, arm[0], ".".join([newfield] + more[len(oldpath):]))
                        new = self.fn.place[q][2][1]
                        cl = self.fn.clause.get(q)
                        if cl and rest.startswith(".ensures."):
                            got = self.by_fields([new, "ensures"], cl["fields"], rest.split(".")[2:])
                            return w + "." + ".".join(got) if isinstance(got, list) else got.replace("c.", w + ".")
                        rest = {".taken": ".true", ".left": ".false"}.get(rest, rest)
                        return w + "." + new + rest
                    return "%s.VAR%d-is%s" % (w, k - len(steps), rest)

                bod = re.sub(r"(?<![\w.\-'])" + w + r"\.(\d+)((?:\.\w+)*)", field, bod)
                if len(steps) == 1:
                    bod = re.sub(r"(?<![\w.\-'])" + w + r"\.(left|taken)(?![\w.\-'])", lambda m: "%s.%s.%s" % (w, self.fn.place[steps[0]][2][1], {"left": "false", "taken": "true"}[m.group(1)]), bod)
                arms.append("%s %s ↦ %s" % (name, w, bod))
                self.goals.append(name)
            text = text[:a] + "elim c.%s.branch [ %s ]" % (lab, " | ".join(arms)) + text[b:]


def blocks(text):
    """top-level blocks: lists of lines; comments directly above a block belong to it"""
    lines = text.split("\n")
    bs, cur, com = [], [], []
    for l in lines:
        if l.strip() == "":
            if cur:
                bs.append(cur)
                cur = []
            elif com:
                bs.append(com)
                com = []
            continue
        if l.startswith("--") and not cur:
            com.append(l)
            continue
        if not cur:
            cur = com + [l]
            com = []
        else:
            cur.append(l)
    if cur:
        bs.append(cur)
    if com:
        bs.append(com)
    return bs


SIG = re.compile(r"^((?:(?:pub|abbrev|unfoldable)\s+)*)(" + TOK + r")\s*:\s*(.*)$", re.S)


def split_decls(block):
    """a block without blank lines may hold several declarations"""
    ds, cur = [], []
    for l in block:
        if cur and not l.startswith((" ", "\t")) and SIG.match(l) and any(not x.startswith("--") for x in cur):
            ds.append(cur)
            cur = []
        cur.append(l)
    if cur:
        ds.append(cur)
    return ds


def top(text):
    """a text cut at its outermost commas; empty where brackets do not match"""
    parts, depth, cur = [], 0, ""
    for ch in text:
        if ch in "([{":
            depth += 1
        if ch in ")]}":
            depth -= 1
            if depth < 0:
                return []
        if ch == "," and depth == 0:
            parts.append(cur)
            cur = ""
        else:
            cur += ch
    return [q for q in parts + [cur] if q.strip()]


def as_record(body, fields, said, name):
    """the last tuple of an answer, as a record of the clauses"""
    b = body.rstrip()

    def by_parts():
        pos = [m.end() for m in re.finditer(r"\bin(?=\s)", b)]
        pos = [p for p in pos if b[:p].count("(") == b[:p].count(")") and b[:p].count("[") == b[:p].count("]")]
        if pos and b.lstrip().startswith("let"):
            last = b[pos[-1]:].strip()
            said("by parts of what is made: %s" % name)
            return b[:pos[-1]] + " let made = " + last + " in record { " + "; ".join("%s = made%s" % (f, ".1" * i + (".0" if i < len(fields) - 1 else "")) for i, f in enumerate(fields)) + " }"
        if re.search(r"\blet\b|^search|^omega|^grind", b):
            said("a record is asked: %s %s" % (name, fields))
            return body
        return "record { " + "; ".join("%s = (%s)%s" % (f, b, ".1" * i + (".0" if i < len(fields) - 1 else "")) for i, f in enumerate(fields)) + " }"

    if not b.endswith(")"):
        return by_parts()
    depth, i = 0, len(b) - 1
    while i >= 0:
        if b[i] == ")":
            depth += 1
        elif b[i] == "(":
            depth -= 1
            if depth == 0:
                break
        i -= 1
    before, inner = b[:i], b[i + 1:-1]
    if before.strip() and not before.rstrip().endswith(" in"):
        return by_parts()
    parts, depth, cur = [], 0, ""
    for ch in inner:
        if ch in "([{":
            depth += 1
        if ch in ")]}":
            depth -= 1
        if ch == "," and depth == 0:
            parts.append(cur)
            cur = ""
        else:
            cur += ch
    parts.append(cur)
    parts = [q for q in parts if q.strip()]
    n = len(fields)
    while len(parts) < n and parts[-1].strip().startswith("(") and top(parts[-1].strip()[1:-1]) and len(top(parts[-1].strip()[1:-1])) > 1:
        parts = parts[:-1] + top(parts[-1].strip()[1:-1])
    if len(parts) < n:
        said("a record is asked: %s %s" % (name, fields))
        return body
    parts = parts[:n - 1] + ([",".join(parts[n - 1:])] if len(parts) == n else ["(" + ",".join(parts[n - 1:]).strip() + ")"])
    return before + "record { " + "; ".join("%s = %s" % (f, q.strip()) for f, q in zip(fields, parts)) + " }"


def with_lets(body, unf, ctx_helpers):
    """the helpers of a context that the body calls, as lets before it"""
    need, todo = set(), [body]
    while todo:
        x = todo.pop()
        for h in ctx_helpers:
            if h[0] not in need and re.search(r"(?<![\w.\-'])" + re.escape(h[0]) + r"(?![\w\-'])", x):
                need.add(h[0])
                todo += [h[1], h[2]]

    def strip(x):
        for h in ctx_helpers:
            call = re.escape(h[0]) + r" (?!in\b)[a-z]\w*(?:\.before)*"
            x = re.sub(r"\(" + call + r"\)|(?<![\w.\-'])" + call + r"(?![\w.\-'])", h[0], x)
        return x

    lets = ""
    for h in ctx_helpers:
        if h[0] in need:
            lets += "\n    let %s : %s = %s in" % (h[0], strip(h[1]), strip(h[2]))
            unf = unf + [u for u in h[3] if u not in unf]
    if unf:
        words = []
        for u in unf:
            for w in u.split()[1:]:
                if w not in words and w not in [h[0] for h in ctx_helpers]:
                    words.append(w)
        unf = ["unfolding " + " ".join(words)] if words else []
    return (lets + "\n    " + strip(body)) if lets else body, unf


def with_name(uses, module, name):
    for i, u in enumerate(uses):
        m = re.match(r"use %s\.\{(.*)\}$" % re.escape(module), u)
        if m:
            names = [n.strip() for n in m.group(1).split(",")]
            if name in names:
                return uses
            return uses[:i] + ["use %s.{%s}" % (module, ", ".join(names + [name]))] + uses[i + 1:]
    return ["use %s.{%s}" % (module, name)] + uses


def main():
    folder, names = sys.argv[1:3]
    crate = os.path.basename(os.path.normpath(folder))
    d = json.load(open(names, encoding="utf-8"))
    pre = "Rattle-%s-proofs." % crate
    cycles = {}
    for key in sorted(d):
        m = re.match(re.escape(pre) + r"(.*\+[^.]*)\.Lts-(.+)$", key)
        if m:
            cycles.setdefault(m.group(1), {})[m.group(2)] = Fn(key, d[key])
    for path in cycles:
        pf = os.path.join(folder, "proofs", path.replace(".", "/"), "Proof.antt")
        if os.path.isfile(pf):
            turn_file(crate, path, pf, None, cycles[path])
    for key in sorted(d):
        if not key.startswith(pre) or not key.endswith(".Lts"):
            continue
        path = key[len(pre):-len(".Lts")]
        pf = os.path.join(folder, "proofs", path.replace(".", "/"), "Proof.antt")
        if not os.path.isfile(pf):
            continue
        turn_file(crate, path, pf, Fn(key, d[key]))


def turn_file(crate, path, pf, fn, cycle=None):
    """in two passes: whether each step stands as many places up as the file counts is seen in the first"""
    counted, kept, out = [], sys.stdout, open(os.devnull, "w")
    sys.stdout = out
    try:
        turned(crate, path, pf, fn, cycle, False, counted, False)
    finally:
        sys.stdout = kept
    turned(crate, path, pf, fn, cycle, bool(counted) and all(counted), None, True)


def turned(crate, path, pf, fn, cycle, by_place, counted, write):
    def said(t):
        print("look: %s: %s" % (pf, t))

    text = open(pf, encoding="utf-8").read().rstrip("\n")
    text = re.sub(r"^use [^\n{]*\{[^}\n]*\n[^}]*\}", lambda m: re.sub(r",?\s*\}", "}", re.sub(r"\{\s*", "{", re.sub(r"\s*\n\s*", " ", m.group(0)))), text, flags=re.M)
    own = "Rattle.%s.proofs.%s." % (crate, path)
    head, uses, inv, ans, helpers = [], [], [], [], []
    ctx_helpers = []
    aliases = {}
    if cycle is None:
        aliases["tie"] = fn
    else:
        for m in re.finditer(r"^use \S*\.Lts-(\S+) as (\S+)$", text, re.M):
            for f in cycle:
                if norm(f) == norm(m.group(1)):
                    aliases[m.group(2)] = cycle[f]
                    cycle[f].name = f
        order = re.findall(r"^use \S*\.Lts-(\S+) as (\S+)$", text, re.M)
    goals = []
    first = True
    every = {}
    for al, f in aliases.items():
        # loops: old label -> (new label, vars, changed)
        for (lab, vs), ch in zip(f.d["loops"], f.d["changed"]):
            every[(al, norm(lab[0]))] = (lab[1], vs, ch)
    for b in blocks(text):
        if all(l.startswith("--") for l in b):
            if first:
                head += b
            else:
                helpers.append("\n".join(b))
            continue
        while b and (b[0].startswith("--") and first):
            head.append(b.pop(0))
        first = False
        rest = []
        for l in b:
            if l.startswith("use "):
                if re.search(r"\.(Statement\.\{statement\}|Tie as \S+|Reads as \S+|Lts as \S+|Kinds as \S+|Tie|Reads|Lts|Lts-\S+ as \S+|Tie\.\{close\}|\{statement\})$", l) or re.match(r"use borrow\.Fn\.", l):
                    continue
                uses.append(l)
            else:
                rest.append(l)
        if not rest:
            continue
        for dcl in split_decls(rest):
            coms = []
            while dcl and dcl[0].startswith("--"):
                coms.append(dcl.pop(0))
            if not dcl:
                helpers += coms
                continue
            # the signature: up to the line 'unfolding' or the first clause
            if re.match(r"pub \+\S+-spec :", dcl[0]):
                continue
            m = SIG.match(dcl[0])
            if not m:
                said("not read: " + dcl[0])
                helpers.append("\n".join(coms + dcl))
                continue
            name = m.group(2)
            k = 1
            while k < len(dcl) and not dcl[k].startswith("unfolding") and not re.match(re.escape(name) + r"(\s|$)", dcl[k]):
                k += 1
            sig = " ".join(x.strip() for x in dcl[:k])
            unf = []
            while k < len(dcl) and dcl[k].startswith("unfolding"):
                unf.append(dcl[k])
                k += 1
            clause = "\n".join(dcl[k:])
            typ = SIG.match(sig).group(3)
            if re.search(r"\bstatement\b", typ) and "spec" in name:
                continue
            al = "|".join(re.escape(a) for a in aliases)
            mi = re.match(r"(%s)\.(invariant|decreases)-(\S+)" % al, typ)
            mn = re.match(r"(?:\(t : [^()]*\)\s*→\s*)?(%s)\.Need-([^\s()]+)" % al, typ)
            mm = re.match(r"Measures \d+ (\S+)-kinds\.ps (.*)$", typ)
            if mm and cycle is not None:
                f = [g for g in cycle if norm(g) == norm(mm.group(1))][0]
                mc = re.match(re.escape(name) + r"\s+\S+\s+(\w+)\s*=\s*(.*)$", clause, re.S)
                ps = cycle[f].params_own(cycle, f)
                bod = mc.group(2)
                rx = r"(?<![\w.\-'])%s((?:\.1)*)\.0(\.now)?" % mc.group(1)

                def arg(q, ps=ps):
                    k = q.group(1).count(".1")
                    return "l." + (ps[k] if k < len(ps) else "ARG%d" % k) + (q.group(2) or "")

                bod = re.sub(rx, arg, bod)
                nn = "decreases-" + f
                inv.append("\n".join(coms + ["abbrev pub %s : goal.%s" % (nn, nn)] + unf + ["%s l = %s" % (nn, bod)]))
                continue
            if cycle is not None and re.search(r"-kinds\.ps", sig):
                continue
            if mi:
                al_of = mi.group(1)
                lab = every.get((mi.group(1), norm(mi.group(3))))
                mi = re.match(r"(?:%s)\.(invariant|decreases)-(\S+)" % al, typ)
                if not lab:
                    said("no loop " + typ)
                    continue
                mc = re.match(re.escape(name) + r"((?:\s+" + TOK + r")*)\s*=\s*(.*)$", clause, re.S)
                if not mc:
                    said("clause of " + name)
                    continue
                args, body = mc.group(1).split(), mc.group(2)
                new, vs, ch = lab
                want = vs + [v for v, c in zip(vs, ch) if c]
                if len(args) != len(want):
                    said("loop %s has %d arguments, %d wanted: %s / %s" % (name, len(args), len(want), args, want))
                sub = {}
                for i, a in enumerate(args):
                    if i < len(vs):
                        if a == "_":
                            continue
                        sub[a] = ("l.initial." if ch[i] else "l.") + vs[i]
                    elif i < len(want):
                        sub[a] = "l." + want[i]
                binders = set(re.findall(r"λ\s+\(?((?:" + TOK + r"\s*)+)[.:]", body) and sum((x.split() for x in re.findall(r"λ\s+\(?((?:" + TOK + r"\s*)+)[.:]", body)), [])) | set(sum((x.split() for x in re.findall(r"\(((?:" + TOK + r"\s*)+):", body)), []))
                for v in binders & set(sub):
                    said("bound again in %s: %s" % (name, v))
                body = re.sub(r"(?<![\w.\-'])(" + TOK + r")", lambda q: sub.get(q.group(1), q.group(1)), body)
                nn = "%s-%s%s" % (mi.group(1), aliases[al_of].d.get("stem", ""), new)
                inv.append("\n".join(coms + ["abbrev pub %s : goal.%s" % (nn, nn)] + unf + ["%s l = %s" % (nn, body)]))
                continue
            if mn:
                fn = aliases[mn.group(1)]
                t = Turn(fn, pf, said, by_place, counted)
                t.goals = goals
                t.cyclic = cycle is not None
                mn = re.match(r"(?:\(t : [^()]*\)\s*→\s*)?(?:%s)\.Need-([^\s()]+)" % al, typ)
                got = fn.need(mn.group(1))
                if got is None:
                    n = norm(mn.group(1))
                    if re.search(r"=\s*(search rules|omega arith)$", clause.rstrip()):
                        continue
                    said("no goal for %s (settled: %s)" % (mn.group(1), " ".join(fn.d["settled"])))
                    continue
                nn, pl = got
                nn = fn.d.get("stem", "") + nn
                mc = re.match(re.escape(name) + r"((?:\s+" + TOK + r")*)\s*=\s*(.*)$", clause, re.S)
                if not mc:
                    said("clause of " + name)
                    helpers.append("\n".join(coms + dcl))
                    continue
                args, body = mc.group(1).split(), mc.group(2)
                if body.strip() in ("search rules", "omega arith") and not unf:
                    continue
                if args and args[-1] in ("κs", "κ"):
                    args = args[:-1]
                var = (args[1] if cycle is not None and len(args) > 1 else args[0]) if args else "c"
                body = t.body(body, var, pl)
                asked = {norm(k): v for k, v in fn.d["asked"].items()}
                if norm(mn.group(1)) in asked:
                    body = as_record(body, asked[norm(mn.group(1))], said, nn)
                body, unf = with_lets(body, unf, ctx_helpers)
                ans.append("\n".join(coms + ["pub %s : goal.%s" % (nn, nn)] + unf + ["%s %s = %s" % (nn, " ".join(args), body)]))
                continue
            # a helper: contexts in its type
            mt = re.findall(r":\s*\((\S+)\s*:\s*tie\.([^\s()]+)[^()]*\)\s*→", sig)
            if mt:
                var, pl = mt[0][0], norm(mt[0][1])
                mc = re.match(re.escape(name) + r"\s+(" + TOK + r")((?:\s+" + TOK + r")*)\s*=\s*(.*)$", clause, re.S)
                if pl not in fn.place or not mc:
                    said("helper of a context, by hand: " + name)
                else:
                    t = Turn(fn, pf, said, by_place, counted)
                    t.goals = goals
                    typ2 = t.body(sig[sig.index("→") + 1:].strip(), var, pl)
                    bod = t.body(mc.group(3), mc.group(1), pl)
                    if mc.group(2).strip():
                        bod = "λ" + mc.group(2) + ". " + bod
                    ctx_helpers.append((name, typ2, bod, unf))
                    continue
            elif re.search(r"\b(tie|lts|reads)\.", "\n".join(dcl)):
                said("cites tie: " + name)
            helpers.append("\n".join(coms + dcl))
    if not write:
        return
    folder = os.path.dirname(pf)
    hd = "\n".join(head)
    if inv:
        need = "\n\n".join(inv)
        hs = [h for h in helpers if any(re.search(r"(?<![\w.\-'])" + re.escape(SIG.match(l).group(2)) + r"(?![\w\-'])", need) for l in h.split("\n") if SIG.match(l) and not l.startswith((" ", "--")))]
        pubs = []
        for h in hs:
            helpers.remove(h)
        hs2 = []
        for h in hs:
            ls = h.split("\n")
            for j, l in enumerate(ls):
                mm = SIG.match(l)
                if mm and not l.startswith((" ", "--")):
                    pubs.append(mm.group(2))
                    if "pub" not in mm.group(1):
                        ls[j] = mm.group(1) + "pub " + l[len(mm.group(1)):]
                    break
            hs2.append("\n".join(ls))
        with open(os.path.join(folder, "Invariants.antt"), "w", encoding="utf-8") as f:
            f.write((hd + "\n" if hd else "") + "\n".join(uses + ["use %sGiven as goal" % own]) + "\n\n" + "\n\n".join(hs2 + inv) + "\n")
        if pubs:
            uses.append("use %sInvariants.{%s}" % (own, ", ".join(pubs)))
    if any("(ap not " in x for x in ans):
        uses = with_name(with_name(uses, "mathlib.Core.Path", "ap"), "mathlib.Core.Bool", "not")
    if ans:
        with open(os.path.join(folder, "Answers.antt"), "w", encoding="utf-8") as f:
            arms = sorted(set(goals))
            if arms:
                uses = [re.sub(r"^use mathlib.Core.Logic.\{⊎_elim\}$", "", u) for u in uses]
                uses = [u for u in uses if u] + ["use %sGoals.{%s}" % (own, ", ".join(arms))]
            f.write((hd + "\n" if hd else "") + "\n".join(uses + ["use %sGoals as goal" % own]) + "\n\n" + "\n\n".join(helpers + ans) + "\n")
    os.remove(pf)


main()
