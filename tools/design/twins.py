#!/usr/bin/env python3
"""Counts the pairs of places with six or more lines alike that docs/DESIGN-PASS.md speaks of, in the .rt and .antt files of a commit (or of the tree).

    tools/design/twins.py [COMMIT] [-v]

Numbers are folded, and comments, blank lines, imports and lines of fewer than four characters are passed over. Of a run of lines that stands in many
places the first eight are compared. Prints how many pairs there are, and how many of them have both places in src/; with -v the pairs, the longest
first. For looking at: lines alike need not be twins. Reads, writes nothing.
"""
import collections
import itertools
import os
import re
import subprocess
import sys

LENGTH = 6
PLACES = 8
PASSED_OVER = ("--", "//", "use ", "ghost use", "pub mod")


def texts(commit):
    """Each file of crates/ by its name: of the commit, or of the tree without what a check leaves in out/."""
    if commit:
        names = subprocess.check_output(["git", "ls-tree", "-r", "--name-only", commit, "crates"], text=True).splitlines()
    else:
        names = subprocess.check_output(["git", "ls-files", "crates"], text=True).splitlines()
        names = [n for n in names if os.path.exists(n)]
    for name in sorted(n for n in names if n.endswith((".rt", ".antt"))):
        if commit:
            yield name, subprocess.check_output(["git", "show", f"{commit}:{name}"], text=True)
        else:
            with open(name, encoding="utf8") as file:
                yield name, file.read()


def folded(text):
    """The lines that count, each with its number."""
    lines = []
    for number, line in enumerate(text.splitlines(), 1):
        line = " ".join(line.split())
        if len(line) >= 4 and not line.startswith(PASSED_OVER):
            lines.append((number, re.sub(r"\d+", "0", line)))
    return lines


def pairs(files):
    """Each pair of places once, by its longest run: the number of lines, and both places as name, first and last line."""
    starts = collections.defaultdict(list)
    for name, lines in files.items():
        for i in range(len(lines) - LENGTH + 1):
            starts[tuple(line for _, line in lines[i:i + LENGTH])].append((name, i))

    def line(name, i):
        return files[name][i][1] if 0 <= i < len(files[name]) else None

    for places in starts.values():
        for (f, i), (g, j) in itertools.combinations(places[:PLACES], 2):
            before = line(f, i - 1)
            if before is not None and before == line(g, j - 1):
                continue
            length = LENGTH
            while line(f, i + length) is not None and line(f, i + length) == line(g, j + length):
                length += 1
            if f != g or abs(i - j) >= length:
                yield length, [(n, files[n][k][0], files[n][k + length - 1][0]) for n, k in ((f, i), (g, j))]


def main():
    commits = [a for a in sys.argv[1:] if a != "-v"]
    files = {name: folded(text) for name, text in texts(commits[0] if commits else None)}
    found = sorted(pairs(files), reverse=True)
    code = sum(all("/src/" in name for name, _, _ in places) for _, places in found)
    print(f"{len(found)} pairs, {code} of them in src/")
    if "-v" in sys.argv[1:]:
        for length, places in found:
            print(f"{length} lines: " + " ~ ".join(f"{name}:{first}-{last}" for name, first, last in places))


main()
