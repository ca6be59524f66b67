#!/usr/bin/env python3
"""Counts the places that docs/DESIGN-PASS.md speaks of: count.py [ENUMS|NUMBERS|TWINS|LOOPS|HAND|TRAVEL|FACTS|BUFFERS|ANSWERS ..], at the top of the checkout."""
import collections
import glob
import re
import sys

SOURCES = sorted(f for f in glob.glob("crates/*/src/**/*.rt", recursive=True))
FN = re.compile(
    r"\n( *)((?:pub(?:\(crate\))? )?(?:extern \"C\" )?fn (\w+)(?:<[^>]*>)?\s*\(([^{]*?)\)(?:\s*->\s*[^\n{]+)?)\n?((?:\s*(?:requires|ensures)[^\n]*\n)*)"
)
BODY = re.compile(
    r"\n( *)((?:pub(?:\(crate\))? )?(?:extern \"C\" )?fn (\w+)[^{]*?\n(?:[^\n]*\n)*?)\1\{\n((?:.*\n)*?)\1\}\n"
)


def place(path):
    return path[len("crates/"):].replace("/src/", "/")


def enums():
    """Own enums, with their variants: which are shaped like Option or Result is read."""
    for f in SOURCES:
        for m in re.finditer(r"\benum (\w+)[^{\n]*\{\n(.*?)^\}", open(f).read(), re.M | re.S):
            variants = [v.strip() for v in re.sub(r"//[^\n]*", "", m.group(2)).split(",\n") if v.strip()]
            yield f"{place(f)} {m.group(1)}: {len(variants)} ({', '.join(variants[:4])}{' ..' if len(variants) > 4 else ''})"


def numbers():
    """Groups of numeric constants, file by file: which are numbers for kinds is read."""
    for f in SOURCES:
        found = re.findall(r"^(?:pub(?:\(crate\))? )?const (\w+): (?:u8|u32|usize) = \d+;", open(f).read(), re.M)
        if found:
            yield f"{place(f)} {len(found)}: {', '.join(found[:5])}{' ..' if len(found) > 5 else ''}"


def twins():
    """Functions whose bodies are equal but for names and numbers, of 25 words and more."""
    groups = collections.defaultdict(list)
    for f in SOURCES:
        for m in BODY.finditer(open(f).read()):
            words = re.findall(r"[A-Za-z_]\w*|\d\w*|[^\s\w]", m.group(4))
            if len(words) < 25:
                continue
            names, canon = {}, []
            for w in words:
                if re.match(r"\d", w):
                    canon.append("#")
                elif re.match(r"[A-Za-z_]", w) and w not in ("let", "mut", "if", "else", "while", "return", "match", "for", "in", "loop", "as", "true", "false"):
                    canon.append("v%d" % names.setdefault(w, len(names)))
                else:
                    canon.append(w)
            groups[" ".join(canon)].append(f"{place(f)} {m.group(3)}")
    for g in groups.values():
        if len(g) > 1:
            yield "; ".join(g)


def loops():
    """while and loop: a loop that counts has a line `x += ..` or `x -= ..` of a number in it; one that follows a link has none."""
    for f in SOURCES:
        lines = open(f).read().split("\n")
        for i, l in enumerate(lines):
            m = re.match(r"( *)(while |loop )", l)
            if not m:
                continue
            end = next(j for j in range(i + 1, len(lines)) if lines[j].startswith(m.group(1) + "}"))
            text = "\n".join(lines[i:end])
            head = l[len(m.group(1)):]
            tested = re.findall(r"\w+", head[5:])
            counts = [x for x in re.findall(r"\b(\w+) [+-]= [^;]*;", text) if x in tested or head.startswith("loop")]
            yield f"{'counts' if counts else 'follows'} {place(f)}:{i + 1} {head.rstrip(' {')}"


def hand():
    """Functions whose names are those of a trait's method or say a conversion."""
    for f in SOURCES:
        for m in FN.finditer(open(f).read()):
            if re.match(r"(eq|lt|le|ge|gt|ne|cmp|not|bitand|bitor|bitxor|clone|copy|default|number|least|max|min)$|(from|to|as|wide|index|mark|low|high)(_\w+)?$", m.group(3)):
                yield f"{place(f)} {m.group(3)}"


def travel():
    """How many functions take these parameters together."""
    sets = [("tree", "text"), ("tree", "text", "scratch"), ("tree", "text", "arena", "scratch", "k"), ("arena", "k"), ("offset", "len"),
            ("instructions", "variables", "labels", "functions", "strings", "floats")]
    count = collections.Counter()
    for f in SOURCES:
        for m in FN.finditer(open(f).read()):
            names = {p.split(":")[0].strip().replace("mut ", "") for p in m.group(4).replace("\n", " ").split(", ") if ":" in p}
            for s in sets:
                if set(s) <= names:
                    count[s] += 1
    for s in sets:
        yield f"{count[s]} ({', '.join(s)})"


def facts():
    """Facts that stand in the requires of three functions and more."""
    count = collections.Counter()
    for f in SOURCES:
        for m in FN.finditer(open(f).read()):
            for c in re.findall(r"requires (?:\w+ )?\{ (.*) \}", m.group(5)):
                for part in c.split(" × "):
                    count[re.sub(r"\.(now|old)\b", "", part)] += 1
    for fact, n in count.most_common():
        if n >= 3:
            yield f"{n} {fact}"


def buffers():
    """Parameters that are lent as bytes or words, by name."""
    count = collections.Counter()
    for f in SOURCES:
        for m in FN.finditer(open(f).read()):
            for p in re.findall(r"(\w+): &(?:mut )?\[(?:u8|usize)\]", m.group(4)):
                count[p] += 1
    for name, n in count.most_common():
        yield f"{n} {name}"


def answers():
    """Answers and invariants that proofs give, crate by crate, and lets among them."""
    count = collections.Counter()
    for f in glob.glob("crates/*/proofs/**/Answers.antt", recursive=True):
        text = open(f).read()
        crate = f.split("/")[1]
        count[crate, "answers"] += len(re.findall(r"^pub [\w'-]+ :", text, re.M))
        count[crate, "lets"] += len(re.findall(r"\blet \w+ =", text))
    for crate in sorted({c for c, _ in count}):
        yield f"{crate}: {count[crate, 'answers']} answers, {count[crate, 'lets']} lets"


ALL = {f.__name__.upper(): f for f in (enums, numbers, twins, loops, hand, travel, facts, buffers, answers)}
for name in sys.argv[1:] or ALL:
    found = list(ALL[name]())
    print(f"== {name}: {len(found)}. {ALL[name].__doc__}")
    for line in found:
        print("  " + line)
