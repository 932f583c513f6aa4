#!/usr/bin/env python3
"""Lists what README.md, docs/*.md (but PORT.md and DESIGN-PASS.md, which speak of what was) and include/ name that isn't in the tree: paths, and words between backticks. Run at the top: python3 tools/port/paths.py

A path counts as it stands from the top, below crates/, or below the crate that the line's file speaks of; {a,b} stands for both. A word counts if it
stands in any file of the tree but the .md ones. Its last line is 'N are not there'; it ends with 1 where N isn't 0.
"""
import glob
import os
import re
import sys

# Made by running something, the kit's own, or JavaScript.
MADE = re.compile(r"^(target|out)/|\.(behaviour|words|names|rewritten|js)$|^rattle-kit|C_1|_a\b")


def braces(path):
    m = re.search(r"\{([^{}]*)\}", path)
    if not m:
        return [path]
    return [it for part in m[1].split(",") for it in braces(path[: m.start()] + part.strip() + path[m.end() :])]


def stands(path):
    path = path.rstrip("/")
    tries = [path, f"crates/{path}", f"crates/*/{path}", f"crates/{path}.antt", f"crates/{path}.edit"]
    parts = path.split("/")
    if len(parts) > 2 and parts[1] == "proofs":
        # a function of a cycle, or a method
        tries += [f"crates/{parts[0]}/proofs/*/{'/'.join(parts[2:])}"]
    return any(glob.glob(it) for it in tries)


def main():
    text = []
    for folder, folders, names in os.walk("."):
        folders[:] = [f for f in folders if f not in ("out", "target", ".git")]
        for name in names:
            path = os.path.join(folder, name)[2:]
            text.append(path)
            if not name.endswith(".md"):
                with open(path, encoding="utf-8", errors="replace") as f:
                    text.append(f.read())
    known = set(re.findall(r"[\w'-]+|[\w']+", "\n".join(text)))
    known |= {w for it in known for w in it.split("-")}
    lost = 0
    for page in ["README.md", *sorted([p for p in glob.glob("docs/*.md") if p not in ("docs/PORT.md", "docs/DESIGN-PASS.md")]), *sorted(glob.glob("include/*"))]:
        with open(page, encoding="utf-8") as f:
            for number, line in enumerate(f, 1):
                for path in re.findall(r"[\w.]+(?:/[\w.+-]+)*/(?:\{[\w, .]+\}|[\w.+*-]+)(?:\.antt)?", line):
                    if re.search(r"/(specs|proofs|src|must-fail)(/|$)", path) or path.split("/")[0] in ("crates", "docs", "tests", "tools", "hosts", "examples"):
                        for it in braces(path.rstrip(".")):
                            if not stands(it) and not MADE.search(it) and "NAME" not in it:
                                lost += 1
                                print(f"{page}:{number}: path {it}")
                for part in re.findall(r"`([^`]+)`", line):
                    for word in re.findall(r"[A-Za-z_][\w']*", part):
                        if word not in known and not MADE.search(part):
                            lost += 1
                            print(f"{page}:{number}: {word} in `{part}`")
    print(f"{lost} are not there")
    return lost > 0


if __name__ == "__main__":
    sys.exit(main())
