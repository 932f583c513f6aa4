#!/usr/bin/env python3
"""Spells the repository's own definitions and lemmas as today's Rattle does: in snake case, a type or a fact in camel case. Run once, at the top,
right behind the kit's port.py: python3 tools/port/respell.py [--names]

A name that specs/ or proofs/*.antt declares and that has a capital behind a small letter or a dash becomes plain snake case; one that begins with a
capital keeps its dash. Where a lemma would get the name of a definition, the lemma's name ends in _lem. The names of src/ stay. Cycles of calls get
short names. What a library names keeps its spelling in the files that import it. It writes .antt and .rt files (there `ghost use` lines, clauses and backticks in comments), must-fail edits, and names in backticks in the
.md files. --names prints each old name with its new one, and writes nothing.
"""
import collections
import os
import re
import sys

TOKEN = re.compile(r"[^\s(){}.;,@\"«»`]+")
DECLARED = re.compile(r"(?m)^( *)(?:(?:pub|abbrev|unfoldable|data|record) )*([^\s(){}.;,@\"«»:]+)(?: \{[^{}\n]*\}| \([^()\n]*\))* :(?= |$)")
OPERATOR = re.compile(r"[◌≡≢∷∙×⊎]")
IMPORTED = re.compile(r"use ([\w.'+-]+)\.\{([^}]*)\}")
CYCLES = {"alias_search": "mentions", "counter": "total", "report_walk": "report", "transform": "transform"}


def files(ends):
    for folder, folders, names in os.walk("."):
        folders[:] = sorted(f for f in folders if f not in ("out", "target", ".git"))
        yield from (os.path.join(folder, n)[2:] for n in sorted(names) if n.endswith(ends))


def read(path):
    with open(path, encoding="utf-8") as f:
        return f.read()


def is_own_proof(path):
    """Whether the file is the proof of a function: its own labels keep their spelling."""
    parts = path.split("/")
    return len(parts) > 4 and parts[2] == "proofs"


def snake(name):
    return re.sub(r"(?<=[a-z0-9])[A-Z]", lambda m: "_" + m[0].lower(), name).replace("-", "_")


def names():
    """Returns what each name becomes, and the names of fields."""
    declared, fields = {}, set()
    for path in files(".antt"):
        if is_own_proof(path):
            continue
        for m in DECLARED.finditer(read(path)):
            declared[m[2]] = None
            if m[1]:
                fields.add(m[2])
    turned = {n: snake(n) for n in declared if not n[0].isupper() and not OPERATOR.search(n) and snake(n) != n}
    met = collections.defaultdict(list)
    for n in declared:
        met[turned.get(n, n)].append(n)
    for new, old in met.items():
        if len(old) > 1:
            # the definition has a capital, or else the name that is spelled right; the others are lemmas
            keeps = [n for n in old if re.search(r"[a-z0-9][A-Z]", n)] or [n for n in old if n == new] or old[:1]
            for n in old:
                if n != keeps[0]:
                    turned[n] = new + "_lem"
    return turned, fields, set(declared)


def of_libraries(text):
    """The names that the file imports from a library: they keep its spelling."""
    own = set(os.listdir("crates"))
    lists = [names for path, names in IMPORTED.findall(text) if not (path.startswith("Rattle.") and path.split(".")[1] in own)]
    return {n.split(" as ")[0].strip() for names in lists for n in names.split(",")}


def turned_text(text, turned, fields, leave=()):
    def one(m):
        word = m[0]
        if word in leave or word not in turned:
            return word
        before = text[m.start() - 1 : m.start()]
        if before == "." and word not in fields and not re.search(r"[a-z0-9][A-Z]", word):
            return word
        return turned[word]

    return TOKEN.sub(one, text)


def cycles(text, crate):
    name = CYCLES.get(crate)
    return re.sub(r"#\[cycle\(\w+\)\]", f"#[cycle({name})]", text) if name else text


def turned_source(text, turned, fields):
    """In a .rt file: the lines of `ghost use`, what stands between a clause's braces, and what stands between backticks."""
    part = lambda m: m[1] + turned_text(m[2], turned, fields) + m[3]
    text = re.sub(r"(?s)(ghost use )(.*?)(;)", part, text)
    text = re.sub(r"(?m)^( *(?:requires|ensures)\b[^{\n]*\{)(.*)(\})$", part, text)
    return re.sub(r"(`)([^`\n]*)(`)", part, text)


def main():
    turned, fields, declared = names()
    if "--names" in sys.argv:
        for old, new in sorted(turned.items()):
            print(old, new)
        return
    for path in files((".antt", ".rt", ".edit", ".md")):
        old = read(path)
        crate = path.split("/")[1] if path.startswith("crates/") else ""
        if path.endswith(".antt"):
            leave = of_libraries(old) | ({m[2] for m in DECLARED.finditer(old)} if is_own_proof(path) else set())
            new = turned_text(old, turned, fields, leave)
        elif path.endswith(".rt"):
            new = cycles(turned_source(old, turned, fields), crate)
        elif path.endswith(".edit"):
            spec = "file: specs/" in old or "file: proofs/" in old
            new = turned_text(old, turned, fields) if spec else turned_source(old, turned, fields)
        else:
            # names as they were before port.py, too
            also = dict(turned)
            for m in re.finditer(r"`([^`\s]+)`", old):
                if m[1] not in also and snake(m[1]) in declared:
                    also[m[1]] = snake(m[1])
            new = re.sub(r"(`)([^`\n]*)(`)", lambda m: m[1] + turned_text(m[2], also, fields) + m[3], old)
        if new != old:
            with open(path, "w", encoding="utf-8") as f:
                f.write(new)
    for crate, name in CYCLES.items():
        folder = f"crates/{crate}/proofs"
        for old in os.listdir(folder):
            if old.startswith("+") and old != "+" + name:
                for path in files(".antt"):
                    text = read(path)
                    if old in text:
                        with open(path, "w", encoding="utf-8") as f:
                            f.write(text.replace(old, "+" + name))
                os.rename(f"{folder}/{old}", f"{folder}/+{name}")


if __name__ == "__main__":
    main()
