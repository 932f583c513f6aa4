#!/usr/bin/env python3
"""Lists the must-fail edits that don't stand in the tree as it is, each with the reason. Run at the top: python3 tools/port/edits.py [NAME..]

An edit has a line 'file: PATH' and behind it pairs of lines 'old: TEXT' and 'new: TEXT'; each old text must stand exactly once in that file of its crate,
after the earlier pairs are applied. With names of crates, only theirs. Its last line is 'N stand, M do not'; it ends with 1 where M isn't 0.
"""
import os
import sys


def fault(path):
    """Returns why an edit can't be applied, or None."""
    crate = os.path.dirname(os.path.dirname(path))
    with open(path, encoding="utf-8") as f:
        lines = f.read().split("\n")
    name, old, pairs, texts, were = "", None, 0, {}, {}
    for line in lines:
        if line.startswith("file: "):
            name = line[len("file: ") :].strip()
            if os.path.normpath(name) != name or not name.startswith(("src/", "specs/", "proofs/")):
                return f"{name} is not below src/, specs/ or proofs/"
        elif line.startswith("old: "):
            if old is not None:
                return "an old text has no new one"
            old = line[len("old: ") :]
        elif line.startswith("new:"):
            new = line[len("new:") :]
            new = new[1:] if new.startswith(" ") else new
            if not name or not old:
                return "a new text with no file or no old text"
            if name not in texts:
                if not os.path.isfile(f"{crate}/{name}"):
                    return f"no file {name}"
                with open(f"{crate}/{name}", encoding="utf-8") as f:
                    texts[name] = were[name] = f.read()
            found = texts[name].count(old)
            if found != 1:
                return f"{found} times in {name}: {old.strip()}"
            texts[name] = texts[name].replace(old, new)
            old, pairs = None, pairs + 1
    if old is not None:
        return "an old text has no new one"
    if not pairs:
        return "no pair of texts"
    return None if texts != were else "it changes nothing"


def main():
    stand, fall = 0, 0
    for crate in sys.argv[1:] or sorted(os.listdir("crates")):
        folder = f"crates/{crate}/must-fail"
        for edit in sorted(os.listdir(folder)) if os.path.isdir(folder) else []:
            if not edit.endswith(".edit"):
                continue
            why = fault(f"{folder}/{edit}")
            stand, fall = stand + (why is None), fall + (why is not None)
            if why:
                print(f"{crate}/{edit}: {why}")
    print(f"{stand} stand, {fall} do not")
    return fall > 0


if __name__ == "__main__":
    sys.exit(main())
