#!/usr/bin/env python3
"""Drops the answers of a crate that the check finds alone: trim.py, in the folder of a crate that proves. All answers of functions are put aside,
one check says which goals stay open, and only those answers come back, without the lets that they do not use; a last check shows that the crate proves."""
import glob
import os
import re
import shutil
import subprocess
import sys

ASIDE = "out/answers-aside"


def check(*more):
    r = subprocess.run(["rt", "check", *more], stdout=subprocess.PIPE, stderr=subprocess.STDOUT, text=True)
    return r.returncode, r.stdout


def blocks(text):
    """The head of the file, and then its blocks, each with the names that it declares."""
    parts = re.split(r"\n(?=(?:--|(?:abbrev |unfoldable )?(?:pub )?[\w'-]+ :))", text)
    head, body = [], []
    for p in parts:
        m = re.match(r"(?:--[^\n]*\n)*(?:abbrev |unfoldable )?(?:pub )?([\w'-]+) :", p)
        (body if m else (body if body else head)).append((m.group(1) if m else None, p))
    return head, body


def without_lets(block):
    """Lets whose name is not used behind them go, the last first."""
    lines = block.split("\n")
    for i in range(len(lines) - 1, -1, -1):
        m = re.match(r"\s*let (\w[\w'-]*) = .* in$", lines[i])
        if m and not re.search(r"(?<![\w'-])" + re.escape(m.group(1)) + r"(?![\w'-])", "\n".join(lines[i + 1 :])):
            del lines[i]
    return "\n".join(lines)


def main():
    files = [f for f in glob.glob("proofs/**/Answers.antt", recursive=True) if f != "proofs/Answers.antt"]
    shutil.rmtree(ASIDE, ignore_errors=True)
    for f in files:
        os.makedirs(os.path.join(ASIDE, os.path.dirname(f)), exist_ok=True)
        shutil.move(f, os.path.join(ASIDE, f))
    _, said = check("--allow-holes")
    open("out/trim.log", "w").write(said)
    need = {}
    for m in re.finditer(r"^fn [^\n]*expected answers in \./(\S+?); ([^\n]*)", said, re.M):
        need.setdefault(m.group(1), set()).update(re.findall(r"`([\w'-]+)`", m.group(2)))
    gone = kept = 0
    for f in files:
        text = open(os.path.join(ASIDE, f)).read()
        head, body = blocks(text)
        wanted = need.get(f, set())
        wanted |= {re.sub(r"-clause-.*", "", n) for n in wanted}
        stay = [(n, b) for n, b in body if n in wanted]
        if not stay:
            gone += len(body)
            continue
        while True:  # what the answers that stay cite stays, too
            cited = "\n".join(b for _, b in stay)
            more = [(n, b) for n, b in body if (n, b) not in stay and (n is None or re.search(r"(?<![\w'-])" + re.escape(n) + r"(?![\w'-])", cited))]
            if not more:
                break
            stay = [(n, b) for n, b in body if (n, b) in stay or (n, b) in more]
        gone += len(body) - len(stay)
        kept += len(stay)
        open(f, "w").write("\n".join(p for _, p in head) + "\n" + "\n".join(without_lets(b) for _, b in stay).rstrip("\n") + "\n")
    code, said = check()
    print(f"{len(files)} files, {gone} answers gone, {kept} kept; the crate {'proves' if code == 0 else 'does NOT prove'}")
    if code:
        open("out/trim-after.log", "w").write(said)
        sys.exit(1)


main()
