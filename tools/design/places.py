#!/usr/bin/env python3
"""Counts the places that docs/DESIGN-PASS.md speaks of, by pattern, in the code of a commit (or of the tree).

    tools/design/places.py [COMMIT] [-v]

Prints a line for each pattern: its point, its name, the lines of crates/*/src/*.rt that it finds. With -v the lines themselves. Reads, writes nothing.
"""
import glob
import re
import subprocess
import sys

# point, what is counted, the pattern (over one line of code, without its comment)
PATTERNS = [
    (1, "an enum of the shape of Result, and its uses", r"\bVerdict\b"),
    (1, "a sentinel for a symbol, a stack or a digit that isn't there", r"\bNONE\b|\bNO_ROOM\b|return 10;|d < 10\b"),
    (1, "a refusal as a number: a field, a test, a conversion", r"\bcode: (v|0|8|u32)|\bfault: |\b(v|f) (==|!=) 0|\bverdict_of\b|validation::number\b"),
    (1, "a kind as a number: a test", r"(kind|\bk|kind_at\([^)]*\)|kind_of\([^)]*\)+) (==|!=) \d+"),
    (1, "a kind as a number: an arm of a match", r"^\s+\d+( \| \d+)* => "),
    (1, "a kind as a number: a word that is written", r"\b(put|put_optional|word)\(c, \d+|word_of\(\d+,"),
    (1, "constants in place of an enum's cases", r"^(pub )?const [A-Z_]+: u(8|32) = \d+;"),
    (1, "a flag that says how a value beside it is read", r"\bends: u32|\bended: bool|\bends: [0-2],|\bends == \d"),
    (3, "a loop with its own counter", r"^\s*(while|loop)\b"),
    (4, "a test that returns true or false, case by case", r"return (true|false);"),
    (4, "a value copied field by field", r"^\s+(category|context|left|group|item|at|default|next|live|id|line|reading): (r|s|e|t|run|own|h|f|q|m|key|d|whole)\.\w+,"),
    (4, "bytes and words put together by shifts and masks", r"as u32\) << \d+|>> \d+ & 255|& 255\)"),
    (5, "a function that takes the words and their notes", r"ws: &\[u32\], notes: &|^\s+notes: &"),
    (5, "a clause that says that the notes are right", r"requires \{.*\b(Ends|Planned|Annotated|Ready|Asks|Walks) ws\.now notes\.(now|old)"),
    (5, "state and place taken apart and put together", r"\bCount \{|\bScope \{|\bWent \{|\bReported \{|\bTotal \{|\bCounted \{"),
    (5, "an output and the place in it", r"out: &mut \[u(8|32)\],( at| pos): usize|^\s+pos: usize,"),
    (6, "numbers packed into one another", r"/ 65536|/ 2 % 2 ==|/ 4 % 16384|\* 65536|65536 \*|notes\[[^\]]*\] % 2|\bw % 2\b|/ 2048|/ 137438953472|137438953472 \*"),
    (6, "a stack with its height beside it", r"stack: &(mut )?\[u64\], top: usize|stack: &(mut )?\[u64\]"),
    (6, "parallel arrays", r": \[u32; CAPACITY\],"),
    (7, "a flag that says which function runs", r"report: bool|\bdropped: bool|\bbare: bool|out, (true|false)\)|&text, (true|false)\)"),
]


def lines(commit):
    """The lines of code, each with its file and number; a line's comment is left out."""
    if commit:
        names = subprocess.check_output(["git", "ls-tree", "-r", "--name-only", commit, "crates"], text=True).split()
        names = [n for n in names if re.fullmatch(r"crates/[^/]+/src/[^/]+\.rt", n)]
        texts = [(n, subprocess.check_output(["git", "show", f"{commit}:{n}"], text=True)) for n in names]
    else:
        texts = [(n, open(n).read()) for n in sorted(glob.glob("crates/*/src/*.rt"))]
    for name, text in texts:
        for number, line in enumerate(text.splitlines(), 1):
            yield name, number, re.sub(r"//.*", "", line)


def main():
    verbose = "-v" in sys.argv[1:]
    commits = [a for a in sys.argv[1:] if a != "-v"]
    code = list(lines(commits[0] if commits else None))
    for point, what, pattern in PATTERNS:
        found = [(n, i, l) for n, i, l in code if re.search(pattern, l)]
        print(f"{point}  {len(found):4}  {what}")
        if verbose:
            for n, i, l in found:
                print(f"        {n}:{i}: {l.strip()}")


main()
