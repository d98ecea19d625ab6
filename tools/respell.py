#!/usr/bin/env python3
"""Spells the repository's own definitions and lemmas in snake case, once, after the toolchain's port.py.

usage: python3 tools/respell.py        at the top of the repository

A name that an .antt file of crates/ declares and that has a dash between words, or a capital inside, gets underscores:
half-angle becomes half_angle, addTest add_test. A name that begins with a capital is a type, or a type and a name
joined by a dash, and stays. So do a name that a file imports from the library, one that a proof file answers a goal by,
and one whose new spelling a file that has it declares, imports or binds already; these are listed.
It reads crates/*/{specs,proofs,src,must-fail} and, between backticks, README.md and docs/.
"""

import collections
import os
import re
import subprocess
import sys

NAME = r'[^\s(){}.;,@"«»\[\]|`]+'
TOKEN = re.compile(r'--[^\n]*|"(?:[^"\\\n]|\\.)*"|' + NAME)
DECL = re.compile(r"(?m)^[ \t]*(?:(?:abbrev|unfoldable|pub|data|record|mutual)[ \t]+)*((?:" + NAME + r"[ \t]+)*?" + NAME + r")[ \t]*(?:[({][^\n]*[)}][ \t]*)?:(?=[ \t\n])")
USE = re.compile(r"(?m)^[ \t]*(?:pub )?(?:ghost )?use ([^\s{;]+)(?:\.?\{([^}]*)\})?(?: as ([^\s;]+))?")
WORDS = {"abbrev", "unfoldable", "pub", "data", "record", "mutual", "module", "use", "let", "in", "where", "→", "|", "_"}


def files(*suffixes):
    out = subprocess.run(["git", "ls-files", "-z", "--cached", "--others", "--exclude-standard"], capture_output=True, text=True, check=True).stdout
    return sorted({f for f in out.split("\0") if f.endswith(suffixes) and os.path.exists(f)})


def read(f):
    with open(f, encoding="utf-8", newline="") as it:
        return it.read()


def snake(name):
    name = re.sub(r"(?<=[a-z0-9])([A-Z])", lambda m: "_" + m[1].lower(), name)
    return re.sub(r"(?<=[^\W_])-(?=[^\W_]|→)", "_", name)


def own(path):
    return path.startswith("Rattle.") and path.split(".")[1] in CRATES


def turned(text, names):
    """The text with each of names respelled, comments and strings aside."""

    def sub(m):
        w = m[0]
        if w.startswith(("--", '"')):
            return w
        return names.get(w, w)

    return TOKEN.sub(sub, text)


def turned_rt(text, names):
    return "\n".join(l if l.lstrip().startswith("//") else turned(l, names) for l in text.split("\n"))


def turned_edit(text, names):
    return "\n".join(turned(l, names) if re.match(r"(old|new):", l) else l for l in text.split("\n"))


def turned_page(text, names):
    return re.sub(r"`[^`\n]+`", lambda m: re.sub(NAME, lambda w: names.get(w[0], w[0]), m[0]), text)


CRATES = sorted(os.listdir("crates"))
antt = files(".antt")
texts = {f: read(f) for f in antt}
walked = re.compile(r"/proofs/.*/(Proof|Answers|Invariants)\.antt$")
declared = collections.defaultdict(set)
foreign = collections.defaultdict(set)
words_of = {}
for f, t in texts.items():
    words_of[f] = {m[0] for m in TOKEN.finditer(t) if not m[0].startswith(("--", '"')) and t[m.start() - 1 : m.start()] != "."}
    for m in USE.finditer(t):
        if not own(m[1]):
            foreign[f] |= set(re.findall(NAME, m[2] or ""))
    for m in DECL.finditer(t):
        if m[0].lstrip().startswith(("use ", "--", "let ")):
            continue
        answers = re.match(r"\s*(tie\.|goal\.|\{M : Type 1\} → statement)", t[m.end():])
        for w in m[1].split():
            if w not in WORDS and not (walked.search(f) and answers):
                declared[w].add(f)
for f in files(".rt"):
    for m in USE.finditer(read(f)):
        if "ghost use" in m[0] and not own(m[1]):
            foreign[f] |= set(re.findall(NAME, m[2] or ""))

names, stay = {"is-nan": "is_nan_lem"}, []
for w in sorted(declared):
    new = snake(w)
    if w in names or new == w or w[0].isupper() or not re.match(r"[a-z]", w):
        continue
    hits = [f for f, ws in words_of.items() if w in ws and new in ws and w not in foreign[f]]
    if hits or new in declared:
        stay.append((w, "meets " + new + " in " + " ".join(hits)))
        continue
    names[w] = new
if "--list" in sys.argv:
    for w, why in stay:
        print(w, why)
    print(len(names), "turn,", len(stay), "stay")
    sys.exit()
for f in files(".antt", ".rt", ".edit", ".md"):
    t = read(f)
    here = {w: n for w, n in names.items() if w not in foreign[f]}
    if f.endswith(".md"):
        if not (f == "README.md" or f.startswith("docs/")):
            continue
        new = turned_page(t, here)
    elif f.endswith(".rt"):
        new = turned_rt(t, here)
    elif f.endswith(".edit"):
        new = turned_edit(t, here)
    else:
        new = turned(t, here)
    if new != t:
        with open(f, "w", encoding="utf-8", newline="") as it:
            it.write(new)
for w, why in stay:
    print("stays:", w, why)
print(len(names), "names turned,", len(stay), "stay")
