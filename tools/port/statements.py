#!/usr/bin/env python3
"""Compares the statements of two trees' declarations in specs/ and proofs/*.antt, wherever in the crate they stand, and the bodies of definitions.
usage: statements.py OLD NEW, folders with crates/. Names have to be spelled alike: OLD behind the kit's port.py and tools/port/respell.py.
Prints how many are the same, each that differs (old '-', new '+'), and the names that OLD has not. By text: a reader judges."""
import collections
import os
import re
import sys

HEAD = re.compile(r"^( *)((?:(?:pub|abbrev|unfoldable|data|record|infixl?|infixr|\d+) )*)([^\s(){}.;,@\"«»:]+)((?: \{[^{}\n]*\}| \([^()\n]*\))*) :(?= |$)(.*)")
SECTION = re.compile(r"^( *)module _ (.*)$")


def indent(line):
    return len(line) - len(line.lstrip())


def declarations(root):
    """Of each crate and name: the statements, behind the parameters of the sections around, with the bodies of definitions."""
    found = collections.defaultdict(list)
    for folder, folders, names in os.walk(os.path.join(root, "crates")):
        folders[:] = sorted(f for f in folders if f != "out")
        for name in sorted(names):
            parts = os.path.relpath(os.path.join(folder, name), root).split(os.sep)
            if not name.endswith(".antt") or name == "Lib.antt" or len(parts) < 4 or parts[2] not in ("specs", "proofs"):
                continue
            if parts[2] == "proofs" and len(parts) > 4:
                continue
            with open(os.path.join(folder, name), encoding="utf-8") as f:
                read(parts[1], f.read().split("\n"), found)
    return found


def read(crate, lines, found):
    lines = ["" if l.lstrip().startswith("--") else l for l in lines]
    around, i = [], 0
    while i < len(lines):
        section, head = SECTION.match(lines[i]), HEAD.match(lines[i])
        if section:
            around = [s for s in around if s[0] < len(section[1])]
            text = lines[i].strip()
            while not text.endswith("where") and i + 1 < len(lines):
                i += 1
                text += " " + lines[i].strip()
            around.append((len(section[1]), text))
            i += 1
        elif head and not lines[i].lstrip().startswith("use "):
            deep, name = len(head[1]), head[3]
            around = [s for s in around if s[0] < deep]
            clause = re.compile(r"^" + re.escape(head[1] + name) + r"(?=[\s=]|$)")
            said, j = lines[i].strip(), i + 1
            while j < len(lines) and lines[j].strip() and indent(lines[j]) > deep and not re.match(r"^ *(unfolding|where)\b", lines[j]) and not clause.match(lines[j]):
                said += " " + lines[j].strip()
                j += 1
            body = ""
            if re.search(r"abbrev|unfoldable|data|record", head[2]):
                k = j
                while k < len(lines) and lines[k].strip():
                    body += " " + lines[k].strip()
                    k += 1
            text = " | ".join(s[1] for s in around) + " :: " + said + " == " + body
            found[crate, name].append(re.sub(r"\s+", " ", text.replace("pub ", "")))
            i = j
        else:
            i += 1


def main():
    if len(sys.argv) != 3:
        raise SystemExit(__doc__)
    old, new = declarations(sys.argv[1]), declarations(sys.argv[2])
    lost = {k: collections.Counter(old[k]) - collections.Counter(new.get(k, [])) for k in sorted(old)}
    lost = {k: v for k, v in lost.items() if v}
    total = sum(map(len, old.values()))
    print(f"{total} declarations, {total - sum(sum(v.values()) for v in lost.values())} the same")
    for k, texts in lost.items():
        print(*k)
        for text in texts:
            print("  -", text)
        for text in collections.Counter(new.get(k, [])) - collections.Counter(old[k]):
            print("  +", text)
    print("new:", ", ".join(sorted(f"{c} {n}" for c, n in set(new) - set(old))))


if __name__ == "__main__":
    main()
