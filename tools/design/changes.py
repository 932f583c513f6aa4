#!/usr/bin/env python3
"""Lists what changed between two commits: public functions with their clauses, public types, and the statements of specs/ and of proofs/*.antt.

    tools/design/changes.py OLD [NEW]

Old and new side by side, as the end of docs/DESIGN-PASS.md has them; without NEW, the tree. A statement is found again by its crate and name, wherever
it stands; a private one is told by its name only. By text: a reader judges. Reads, writes nothing.
"""
import collections
import io
import os
import re
import subprocess
import sys
import tarfile
import tempfile

sys.path.insert(0, os.path.join(os.path.dirname(os.path.abspath(__file__)), "..", "port"))
import statements  # noqa: E402

FUNCTION = re.compile(r'^( *)pub (?:extern "C" )?(?:const )?fn (\w+)')
TYPE = re.compile(r"^( *)pub (struct|enum|trait) (\w+)")


def tree(commit, folder):
    """The crates of a commit, in a folder; of the tree where there is none."""
    if not commit:
        return "."
    data = subprocess.check_output(["git", "archive", commit, "crates"])
    tarfile.open(fileobj=io.BytesIO(data)).extractall(folder, filter="data")
    return folder


def code(root):
    """Of each crate and public function or type: its head with its clauses, or its text."""
    found = {}
    for crate in sorted(os.listdir(os.path.join(root, "crates"))):
        src = os.path.join(root, "crates", crate, "src")
        for name in sorted(os.listdir(src)) if os.path.isdir(src) else []:
            if not name.endswith(".rt"):
                continue
            with open(os.path.join(src, name), encoding="utf-8") as f:
                lines = [re.sub(r"\s*//.*", "", l.rstrip("\n")) for l in f]
            owner = ""
            for i, line in enumerate(lines):
                if m := re.match(r"^(?:impl|trait|pub trait)\b(.*?)\{?$", line):
                    owner = re.sub(r"^<[^>]*>\s*", "", m[1].strip()).split(" for ")[-1].strip()
                elif line == "}":
                    owner = ""
                if m := FUNCTION.match(line):
                    head = []
                    for l in lines[i:]:
                        if l.strip() == "{":
                            break
                        head.append(l[len(m[1]):].removesuffix(" {"))
                        if l.endswith(" {") and "requires" not in l and "ensures" not in l:
                            break
                    found[crate, (owner + "::" if owner else "") + m[2]] = [h for h in head if h]
                elif m := TYPE.match(line):
                    text = []
                    for l in lines[i:]:
                        text.append(l[len(m[1]):])
                        if l.endswith((";", "}")) and (l.startswith(m[1] + "}") or len(text) == 1):
                            break
                    found[crate, m[2] + " " + m[3]] = [t for t in text if t]
    return found


def stated(root):
    """Of each crate and name: the statements, each with whether it is public."""
    found = collections.defaultdict(collections.Counter)
    public = set()
    for folder, folders, names in os.walk(os.path.join(root, "crates")):
        folders[:] = sorted(f for f in folders if f != "out")
        for name in sorted(names):
            parts = os.path.relpath(os.path.join(folder, name), root).split(os.sep)
            if not name.endswith(".antt") or name == "Lib.antt" or len(parts) < 4 or parts[2] not in ("specs", "proofs") or parts[2] == "proofs" and len(parts) > 4:
                continue
            with open(os.path.join(folder, name), encoding="utf-8") as f:
                lines = f.read().split("\n")
            of = collections.defaultdict(list)
            statements.read(parts[1], lines, of)
            pubs = {m[3] for l in lines if (m := statements.HEAD.match(l)) and "pub" in m[2].split()}
            for (crate, said), texts in of.items():
                found[crate, said].update(texts)
                if said in pubs:
                    public.add((crate, said))
    return found, public


def block(minus, plus):
    print("```diff")
    for sign, lines in (("-", minus), ("+", plus)):
        for line in lines:
            print(sign, line)
    print("```")


def main():
    if len(sys.argv) not in (2, 3):
        raise SystemExit(__doc__)
    with tempfile.TemporaryDirectory() as a, tempfile.TemporaryDirectory() as b:
        old, new = tree(sys.argv[1], a), tree(sys.argv[2] if len(sys.argv) > 2 else "", b)
        before, after = code(old), code(new)
        print("### Public functions and types\n")
        for key in sorted(set(before) | set(after)):
            if before.get(key) != after.get(key):
                print(f"`{key[0]}`, `{key[1]}`\n")
                block(before.get(key, []), after.get(key, []))
                print()
        said, public = stated(old)
        says, _ = stated(new)
        total = sum(sum(v.values()) for v in said.values())
        lost = {k: v - says.get(k, collections.Counter()) for k, v in said.items()}
        lost = {k: v for k, v in lost.items() if v}
        print("### Statements\n")
        print(f"{total} in the old tree, {total - sum(sum(v.values()) for v in lost.values())} with the same text in the new one.\n")
        private, gone = collections.defaultdict(list), collections.defaultdict(list)
        crate = None
        for key in sorted(lost):
            gained = says.get(key, collections.Counter()) - said[key]
            if not gained:
                gone[key[0]].append(key[1])
            elif key not in public:
                private[key[0]].append(key[1])
            else:
                if key[0] != crate:
                    crate = key[0]
                    print(f"#### {crate}\n")
                show = lambda texts: [re.sub(r"^ *:: *", "", re.sub(r" *== *$", "", t)) for t in texts]
                block(show(lost[key]), show(gained))
                print()
        for title, names in (("Private statements that changed", private), ("Statements that are gone", gone)):
            print(f"### {title}\n")
            for crate in sorted(names):
                print(f"- {crate}: {', '.join(sorted(set(names[crate])))}")
            print()


main()
