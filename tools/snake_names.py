#!/usr/bin/env python3
"""Brings the names that this repository's specs/ and proofs/ declare to snake case, and the types among them to camel case.

usage: python3 tools/snake_names.py        at the top of the repository, once

A name is taken if a line of an .antt file declares it (a definition, a lemma, a field, a constructor, a bound variable) and it has a
dash. What Rattle makes (goals, steps, lines of loops) and what the libraries declare keeps its name, and so does everything in
strings and all Rust names. Prints each renaming, and each new name that stands somewhere already.
"""

import os
import re
import sys

NAME = r"[^\s(){}\[\];,.:⌜⌝↦|\"]+"
MADE = re.compile(r"(goal|given|need)\.")
DECLARED = re.compile(r"^\s*(?:abbrev |unfoldable |pub |private )*(?:data |record )?(" + NAME + r")(?: [({].*)? : (.*)")
BOUND = (re.compile(r"[({]((?:" + NAME + r"\s+)*" + NAME + r")\s+:\s"), re.compile(r"\blet (" + NAME + r")"), re.compile(r"λ ((?:" + NAME + r"\s+)*" + NAME + r")\."))
# names that the scripts of the kit made of two, and names of the old library inside our own
ALSO = {"among-getD": "among_get_or"}


def texts():
    for folder, dirs, files in os.walk("crates"):
        dirs[:] = sorted(d for d in dirs if d not in ("out", "must-fail"))
        for f in sorted(files):
            if f.endswith((".rt", ".antt")):
                yield os.path.join(folder, f)


def without_comment(line):
    return re.sub(r"(^|\s)--(\s.*|$)", "", line)


def dashed(name):
    return re.search(r"[\wℕ]-[\wℕ]", name) is not None


def declared():
    found, made, brought = set(), set(), set()
    for path in texts():
        if not path.endswith(".antt"):
            continue
        with open(path, encoding="utf-8") as f:
            for line in f:
                line = without_comment(line.rstrip("\n"))
                it = re.match(r"\s*use ([\w.+'-]+)\.\{(.*)\}", line)
                if it:
                    if it.group(1).startswith("Rattle.std."):
                        brought |= {w.split(" as ")[-1].strip() for w in it.group(2).split(",")}
                    continue
                it = DECLARED.match(line)
                if it:
                    (made if MADE.match(it.group(2)) else found).add(it.group(1))
                for pattern in BOUND:
                    for it in pattern.finditer(line):
                        found |= set(it.group(1).split())
    return {n for n in found if dashed(n)} - made - brought


def snake(name):
    if name in ALSO:
        return ALSO[name]
    if name[0].isupper() and len(name.split("-")[0]) > 1:
        return "".join(p[0].upper() + p[1:] for p in name.split("-"))
    return name.replace("-", "_")


def outside_strings(text, turn):
    parts = re.split(r'("(?:[^"\\\n]|\\.)*")', text)
    return "".join(p if i % 2 else turn(p) for i, p in enumerate(parts))


def main():
    if not os.path.isdir("crates"):
        sys.exit("run it at the top of the repository")
    new = {n: snake(n) for n in declared()}
    if not new:
        sys.exit("no name to turn")
    edge = r"[\w'ℕ⊎-]"
    pattern = re.compile("(?<!" + edge[:-1] + "])(" + "|".join(sorted(map(re.escape, new), key=len, reverse=True)) + ")(?!" + edge[:-1] + "])")
    stands = {}
    for path in texts():
        with open(path, encoding="utf-8") as f:
            for w in re.findall(r"[\w'ℕ⊎-]+", f.read()):
                stands.setdefault(w, path)
    for n in sorted(new):
        print(n, "->", new[n], "  STANDS in " + stands[new[n]] if new[n] in stands else "")
    for path in texts():
        with open(path, encoding="utf-8") as f:
            text = f.read()
        turned = outside_strings(text, lambda p: pattern.sub(lambda m: new[m.group(1)], p))
        if turned != text:
            with open(path, "w", encoding="utf-8") as f:
                f.write(turned)


if __name__ == "__main__":
    main()
