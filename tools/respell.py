#!/usr/bin/env python3
"""tools/respell.py [ROOT]: brings the repository's own names to the spelling of today's Rattle, after port.py has run.

Definitions, fields, lemmas and variables of specs/ and proofs/ are spelled in snake case, in camel case before (`digitRun`, now `digit_run`) or with dashes
(`run-stop`, now `run_stop`); a name in place of a namespace with a middle dot (`Chars·letter`, now `chars_letter`). Where a lemma would have the name of what
it speaks of, it gets `_lem`. Names of src/, of std and of what the prover makes are left. Clauses, comments, pages and must-fail edits cite the new names.
"""
import collections
import glob
import os
import re
import sys

ROOT = sys.argv[1] if len(sys.argv) > 1 else "."
DELIMITERS = " \t\n(){};,.⟧⟦⌜⌝[]`\"'“”"
TOKEN = re.compile(r"[^\s(){};,.⟧⟦⌜⌝\[\]`\"“”?!:]+|:")


def read(path):
    with open(path, encoding="utf-8") as it:
        return it.read()


def write(path, text):
    with open(path, "w", encoding="utf-8") as it:
        it.write(text)


def files(pattern):
    return sorted(glob.glob(f"{ROOT}/crates/{pattern}", recursive=True))


def is_camel(word):
    return bool(re.fullmatch(r"[a-z][a-z0-9]*(?:[A-Z][a-zA-Z0-9]*)+['0-9]*", word))


def snake(word):
    word = word.replace("-", "_")
    word = re.sub(r"(?<=[a-z0-9])([A-Z]+)(?=[A-Z][a-z]|$|_)", r"_\1", word)
    word = re.sub(r"(?<=[a-z0-9A-Z])([A-Z])(?=[a-z0-9])", r"_\1", word)
    word = re.sub(r"(?<=[a-z0-9])([A-Z])", r"_\1", word)
    return re.sub(r"__+", "_", word).lower()


antt = [it for it in files("*/specs/**/*.antt") + files("*/proofs/**/*.antt") if not it.endswith("/Proof.antt")]
walks = [it for it in files("*/proofs/**/*.antt") if it.endswith("/Proof.antt")]
sources = files("*/src/**/*.rt")
edits = files("*/must-fail/*.edit")

# ---- the names, by old spelling

declared = collections.Counter()
lower = set()
DECLARES = re.compile(r"(?m)^[ ]*(?:(?:abbrev|unfoldable|opaque|pub|instance) )*([^\s(){};,.:]+)(?: [^\s(){};,.:]+)* :(?= |$)")
for path in antt:
    bare = re.sub(r"--(?: .*|-*)$", "", read(path), flags=re.M)
    for name in DECLARES.findall(bare):
        declared[name] += 1
    lower |= {it for it in TOKEN.findall(bare) if is_camel(it)}

new = {it: snake(it) for it in lower}
for name in declared:
    if re.fullmatch(r"[a-z][\w'-]*-[\w'-]*", name):
        new[name] = snake(name)
KEPT = {"not_None"}
# what is imported from elsewhere, under these names too
OWN = {os.path.basename(os.path.dirname(os.path.dirname(it))) for it in files("*/src/")}
for path in antt + walks:
    for at, names in re.findall(r"(?m)^\s*use ([\w.+'-]+)\.\{([^}]*)\}", read(path)):
        if not (at.startswith("Rattle.") and at.split(".")[1] in OWN):
            KEPT |= {it.split(" as ")[0].strip() for it in names.split(",")}
new = {old: to for old, to in new.items() if old not in KEPT and old != to}

# a lemma whose name falls together with a definition's (port.py spells some of both)
definitions = {new.get(it, it) for it in lower}
for path in files("*/specs/**/*.antt"):
    definitions |= {new.get(it, it) for it in DECLARES.findall(re.sub(r"--(?: .*|-*)$", "", read(path), flags=re.M))}
lemmas = set()
for path in files("*/proofs/**/*.antt"):
    if not path.endswith("/Proof.antt"):
        lemmas |= {*DECLARES.findall(re.sub(r"--(?: .*|-*)$", "", read(path), flags=re.M))}
lemmas = {it for it in lemmas if not is_camel(it) and re.fullmatch(r"[a-z][\w'-]*", it)}
together = {}
for old in sorted(lemmas):
    if new.get(old, old) in definitions and ("-" in old or any(new[it] == old for it in lower if it in new)):
        together[old] = new[old] = new.get(old, old) + "_lem"
camel = {old: to for old, to in new.items() if old in lower}

if "--show" in sys.argv:
    print("kept:", *sorted(it for it in KEPT if it in declared))
    for old, to in sorted(together.items()):
        print(old, to)
    back = collections.defaultdict(set)
    for old, to in new.items():
        back[to].add(old)
    for to, olds in sorted(back.items()):
        if len(olds) > 1:
            print("falls together:", to, sorted(olds))
    sys.exit()


def respelled(text, names):
    return TOKEN.sub(lambda it: names.get(it[0], it[0]), text)


# ---- by kind of file

for path in antt:
    text = read(path)
    text = re.sub(r"(?<![\w#])([A-Z]\w*)·(\w+)", lambda it: f"{it[1].lower()}_{snake(new.get(it[2], it[2]))}", text)
    write(path, respelled(text, new))

for path in walks:
    # a path behind a dot is the prover's, but in a use line
    lines = []
    for line in read(path).split("\n"):
        if re.match(r"\s*use ", line):
            line = respelled(line, new)
        else:
            line = re.sub(r"(?<!\.)(?<![\w'-])[a-z][\w'-]*(?![\w'-])", lambda it: new.get(it[0], it[0]), line)
        lines.append(line)
    write(path, "\n".join(lines))

STRING = r'"(?:[^"\\\n]|\\.)*"'
for path in sources:
    text = re.sub(r"(?<![\w#])([A-Z]\w*)·(\w+)", lambda it: f"{it[1].lower()}_{snake(it[2])}", read(path))
    parts = re.split(f"(b?{STRING})", text)
    write(path, "".join(part if at % 2 else respelled(part, camel) for at, part in enumerate(parts)))

# must-fail edits and pages, which port.py left: also what it spelled in specs/ and proofs/
today = {new.get(it, it) for it in declared} | {camel.get(it, it) for it in lower}
today |= {word for path in antt for word in TOKEN.findall(read(path))}
source = {word for path in sources for word in re.findall(r"[a-z]\w*-[\w-]+", read(path))}


def cited(word):
    to = new.get(word, word) if word in declared else snake(word)
    return to if to in today and word not in source else word


def is_own(word):
    return is_camel(word) or re.fullmatch(r"[a-z]\w*(?:-\w+)+", word)


EDIT = [
    (r"Rattle·(\w+)(?:·specs)?\.specs\.", r"Rattle.\1.specs."),
    (r"«(\w+)»", r"\1"),
    ("′", "'"),
    (r"(?<![\w#])([A-Z]\w*)·(\w+)", lambda it: f"{it[1].lower()}_{snake(it[2])}"),
    (r"\((row \w+) \.(\w+)\)", r"(\1).\2"),
    (r"(?<!\()\b(row \w+) \.(\w+)", r"(\1).\2"),
    (r"(?<=[\w)]) \.(\w+)", r".\1"),
    (r"(?<![\w.])\((\w+(?:\.\w+)+)\)", r"\1"),
    (r"_(∷|\+\+|&&|\+|-|\*|≤|≡|<)_", r"◌\1◌"),
]
for path in edits:
    text = read(path)
    lines = []
    for line in text.split("\n"):
        if line.startswith(("old:", "new:")) and "file: src/" not in text:
            for one, to in EDIT:
                line = re.sub(one, to, line)
        if not line.startswith("file:"):
            line = re.sub(r"(?<![\w/'])[a-z][\w'-]*(?![\w/-])", lambda it: cited(it[0]) if is_camel(it[0]) else it[0], line)
        lines.append(line)
    write(path, "\n".join(lines))

for path in glob.glob(f"{ROOT}/docs/*.md") + glob.glob(f"{ROOT}/docs/changes/*.md") + [f"{ROOT}/README.md"]:
    parts = re.split(r"(`[^`\n]*`)", read(path))
    for at in range(1, len(parts), 2):
        parts[at] = re.sub(r"(?<![\w/.'-])(?:[A-Z]\w*\.)?[a-z][\w'-]*(?![\w/-])", lambda it: ".".join(cited(w) if is_own(w) else w for w in it[0].split(".")), parts[at])
    write(path, "".join(parts))
