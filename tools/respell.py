#!/usr/bin/env python3
"""Brings the names of the repository's own definitions and lemmas to one spelling: words in snake case, facts and types in camel case.

usage: python3 tools/respell.py        at the top of the repository, once, after the kit's port.py

Turned are the names that specs/ and proofs/ define, the fields of records there, and what a let binds: wherever they stand in
.antt files, .rt files and must-fail edits, and between backticks in .md files. Names that Rattle makes (goals,
invariants, the steps of a proof) stay, as do functions of src/.
"""
import os
import re
import subprocess
import sys

# Where the plain spelling would fall together with another name: a ghost field, a crate, or a definition that a lemma is about.
OTHERWISE = {
    "sureTicks": "sure_tick_count",
}
# The limits of a plan: Bucket and Periodic have ghost fields of the names burst_least, burst_most, period_most and jitter_most.
LIMITS = [
    "text-most", "port-most", "lines-most", "slots-most", "cycle-most", "frame-least", "frame-most", "depth-most", "flows-most",
    "burst-least", "burst-most", "rate-ticks-most", "period-most", "jitter-most", "span-most", "load-most", "numeral-most",
]
for limit in LIMITS:
    words = limit.split("-")
    OTHERWISE[limit] = "_".join([words[-1]] + words[:-1])

WORD = re.compile(r"(?<![\w'.-])([A-Za-z][\w']*(?:-[\w']+)*)(?![\w'-])")
FIELD = re.compile(r"(?<=\.)([A-Za-z][\w']*(?:-[\w']+)*)(?![\w'-])")


def files(root, ends):
    for folder, dirs, names in os.walk(root):
        dirs[:] = sorted(d for d in dirs if d not in ("out", "target", ".git"))
        for name in sorted(names):
            if name.endswith(ends):
                yield os.path.join(folder, name)


def read(path):
    with open(path, encoding="utf-8") as f:
        return f.read()


def is_old(name):
    return bool(name[0].islower() and re.search(r"[a-z0-9][A-Z]", name) or re.search(r"\w-\w", name))


def respelt(name):
    if name in OTHERWISE:
        return OTHERWISE[name]
    if name[0].isupper():
        return "".join(w[0].upper() + w[1:] for w in name.split("-"))
    return re.sub(r"([a-z0-9])([A-Z])", lambda m: m.group(1) + "_" + m.group(2).lower(), name).replace("-", "_")


def own_names(texts):
    """The names that definitions, fields and lets have, each with how it is told from a lemma: a definition has a body that contracts may cite."""
    definitions, lemmas, fields, lets = set(), set(), set(), {}
    for path, text in texts.items():
        record = False
        for line in text.split("\n"):
            if line and not line[0].isspace():
                record = False
            if line.lstrip().startswith(("use ", "--")):
                continue
            m = re.match(r"^\s*(?:pub )?(?:record|data) ([^\s:(){}]+)", line)
            if m:
                definitions.add(m.group(1))
                record = True
                continue
            m = re.match(r"^(\s*)((?:(?:abbrev|unfoldable|pub) )*)([^\s:(){},.\[\]λ=;]+) :(?!=)\s*(.*)$", line)
            if m:
                if m.group(4).startswith("goal."):
                    continue
                if record and m.group(1):
                    fields.add(m.group(3))
                elif "abbrev" in m.group(2) or "unfoldable" in m.group(2):
                    definitions.add(m.group(3))
                else:
                    lemmas.add(m.group(3))
            for name in re.findall(r"\blet ([A-Za-z][\w']*(?:-[\w']+)*) [:=]", line):
                lets.setdefault(path, set()).add(name)
            for name in re.findall(r"^\s+([A-Za-z][\w']*(?:-[\w']+)*) [:=] ", line):
                lets.setdefault(path, set()).add(name)
    return definitions, lemmas, fields, lets


def table(definitions, lemmas):
    """Old names and new ones; a lemma that would have the name of a definition gets _lem behind it."""
    turned = {name: respelt(name) for name in definitions if is_old(name)}
    taken = set(turned.values()) | {name for name in definitions if not is_old(name)}
    for name in lemmas - definitions:
        new = respelt(name) if is_old(name) else name
        if new in taken:
            new += "_lem"
        if new != name:
            turned[name] = new
    return turned


def main():
    root = subprocess.run(["git", "rev-parse", "--show-toplevel"], capture_output=True, text=True, check=True).stdout.strip()
    crates = os.path.join(root, "crates")
    proofs = {p: read(p) for p in files(crates, (".antt",))}
    definitions, lemmas, fields, lets = own_names(proofs)
    turned = table(definitions, lemmas)
    dotted = {name: respelt(name) for name in fields if is_old(name)}
    for path in list(proofs) + list(files(crates, (".rt", ".edit"))) + list(files(root, (".md",))):
        here = dict(turned)
        here.update(dotted)
        for name in lets.get(path, ()):
            if is_old(name) and name not in here:
                here[name] = respelt(name)

        def word(m):
            return here.get(m.group(1), m.group(1))

        def field(m):
            return dotted.get(m.group(1), m.group(1))

        old = read(path)
        if path.endswith(".md"):
            new = re.sub(r"`[^`\n]+`", lambda m: WORD.sub(word, m.group(0)), old)
        else:
            new = "\n".join(FIELD.sub(field, WORD.sub(word, line)) for line in old.split("\n"))
        if new != old:
            with open(path, "w", encoding="utf-8") as f:
                f.write(new)
    for name in sorted(turned):
        print(name, "->", turned[name])
    for name in sorted(dotted):
        print("field", name, "->", dotted[name])


sys.exit(main())
