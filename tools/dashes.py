#!/usr/bin/env python3
"""Brings the dashes in the repository's own lemmas and fields to the kit's spelling: a plain word is added with `_`.

usage: dashes.py [--list]       at the top of the repository, once, after respell.py; --list only prints old and new names

A dash stays where it joins the names of two functions, the outer call first (`length-stored`, `part-put_after`); everything else
that begins small is in snake case. A lemma that would then have the name of a definition, or of a word that some such file imports
or binds, gets `_lem` (the kit's CONTRACT_STYLE.md, "Names"). It reads which names the .antt files of crates/ declare, but for the
proofs of single functions, whose names Rattle makes, and turns them wherever they stand as a whole word: in .antt and .rt files,
must-fail edits and pages (docs/landings keeps the names of its time). It stops before writing where two names would fall together.
"""
import collections
import glob
import re
import sys

NAME = r"[^\s(){}\[\]:=,;λ.⌜⌝`\"|]+"
DECLARED = re.compile(r"^\s*(?:(?:pub|abbrev|unfoldable|private)\s+)*((?:" + NAME + r"\s+)*" + NAME + r")\s*:\s")
RULESET = re.compile(r"^\s*(?:pub\s+)?ruleset\s+(" + NAME + r")\s*=")
# a word that stands by itself, and not as a field or in a path
FREE = re.compile(r"(?<![\w'◌.-])[\w'◌]+(?:-[\w'◌]+)*")
OUTER = {"length", "view", "drop", "part", "put", "bit", "get_or"}
INNER = {"part", "put", "set_at", "stored", "written", "placed", "arrived", "counted", "queued", "responded", "header", "bytes", "word"}
# where port.py turned a part of a name that is a word of the kit's
MENDED = {"get_d_part": "get_or-part", "get_d": "get_or"}


def paths(*patterns):
    found = {p for pattern in patterns for p in glob.glob(pattern, recursive=True)}
    return sorted(p for p in found if "/out/" not in p and not p.startswith("docs/landings/"))


def read(path):
    with open(path, encoding="utf-8") as file:
        return file.read()


def is_lemmas(path):
    """Whether a file has definitions or lemmas, and is not the proof of a single function."""
    return path.endswith(".antt") and not path.endswith(("/Proof.antt", "/Answers.antt", "/Invariants.antt"))


def declared():
    found = set()
    for path in filter(is_lemmas, paths("crates/**/*.antt")):
        for line in read(path).split("\n"):
            if line.lstrip().startswith("--"):
                continue
            for m in filter(None, (DECLARED.match(line), RULESET.match(line))):
                found.update(m[1].split())
    return {n for n in found if n[0].islower()}


def spelled(name):
    if name in MENDED:
        return MENDED[name]
    parts = [MENDED.get(p, p) for p in name.split("-")]
    if len(parts) > 1 and parts[0] in OUTER:
        # the longest run of parts that is a function's name
        for end in range(len(parts), 1, -1):
            if "_".join(parts[1:end]) in INNER:
                return parts[0] + "-" + "_".join(parts[1:])
    return "_".join(parts)


def main():
    names = declared()
    files = {p: read(p) for p in paths("crates/**/*.antt", "crates/**/*.rt", "crates/*/must-fail/*.edit", "docs/**/*.md", "*.md")}
    turn = {n: spelled(n) for n in names if ("-" in n or n in MENDED) and spelled(n) != n}
    used = collections.Counter(w for p, text in files.items() if is_lemmas(p) for w in FREE.findall(text))
    turn = {n: s + "_lem" if used[s] else s for n, s in turn.items()}
    for n, s in sorted(turn.items()):
        if "--list" in sys.argv:
            print(n, s)
    twice = [s for s, k in collections.Counter(turn.values()).items() if k > 1 or used[s]]
    if twice:
        sys.exit("fall together: " + " ".join(twice))
    if "--list" in sys.argv:
        return
    word = re.compile(r"(?<![\w'◌-])(" + "|".join(map(re.escape, sorted(turn, key=len, reverse=True))) + r")(?![\w'◌-])")
    changed = 0
    for path, old in files.items():
        new = word.sub(lambda m: turn[m[1]], old)
        if new != old:
            with open(path, "w", encoding="utf-8") as file:
                file.write(new)
            changed += 1
    print(f"{len(turn)} names turned in {changed} files")


main()
