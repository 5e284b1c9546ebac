#!/usr/bin/env python3
"""Brings the names of goals and steps in the proofs of functions to today's spelling: a name of the source keeps its underscores, and Rattle's words have them too.
Also brings a fact of all elements of a list, defined by recursion, to the library's own name for it: the plain word is kept for the library's fact by index.

usage: python3 tools/respell_steps.py [ROOT]     rewrites the Answers.antt and Invariants.antt of ROOT/crates in place; it can run again
"""
import os
import re
import sys

ROOT = sys.argv[1] if len(sys.argv) > 1 else "."
TOKEN = re.compile(r"[\w'+·-]*-[\w'+·-]*")
# Names of the library with dashes.
LIBRARY = re.compile(
    r"(All|length|add|mul|div|mod|pow|take|drop(?=-(cons|set|append))|get_or|append|le|lt|ltb|leb|eq|eqb|cond|zero|one|digits_value|decimal|sub|bit)-[\w'-]+$"
)
WORDS = [("in-default", "in_default")] + [
    (f"{a}-{b}", f"{a}_{b}")
    for a, bs in {"overflow": "add sub mul shl shr cast step", "nonzero": "div rem", "slice": "bounds known"}.items()
    for b in bs.split()
]


def respell_types():
    """`AllByRecursion` goes by its own name, and a type has no underscore."""
    for folder, dirs, files in os.walk(os.path.join(ROOT, "crates")):
        dirs[:] = [d for d in dirs if d != "out"]
        for f in files:
            p = os.path.join(folder, f)
            if not f.endswith((".rt", ".antt")):
                continue
            text = open(p, encoding="utf-8").read()
            # A type that the kit's script wrote with an underscore.
            new = re.sub(r"(?<![\w'-])Goes_on(?![\w'-])", "GoesOn", text)
            if "AllByRecursion as All" in new:
                new = new.replace("AllByRecursion as All", "AllByRecursion")
                new = re.sub(r"(?<![\w'-])All(?![\w'-])", "AllByRecursion", new)
            if new != text:
                open(p, "w", encoding="utf-8").write(new)
                print(p)


def main():
    respell_types()
    for crate in sorted(os.listdir(os.path.join(ROOT, "crates"))):
        top = os.path.join(ROOT, "crates", crate)
        names = set()
        for folder, _, files in os.walk(os.path.join(top, "src")):
            for f in files:
                if f.endswith(".rt"):
                    names |= set(re.findall(r"\b[A-Za-z]\w*_\w+\b", open(os.path.join(folder, f), encoding="utf-8").read()))
        turns = [(n.replace("_", "-"), n) for n in sorted(names, key=lambda n: (-len(n), n))] + WORDS

        def turn(token):
            if LIBRARY.match(token) or token.strip("-") == "":
                return token
            for old, new in turns:
                token = re.sub(r"(?<![A-Za-z0-9])" + re.escape(old) + r"(?![A-Za-z0-9])", new, token)
            return token

        for folder, dirs, files in os.walk(os.path.join(top, "proofs")):
            dirs[:] = [d for d in dirs if d != "out"]
            for f in files:
                if f not in ("Answers.antt", "Invariants.antt"):
                    continue
                p = os.path.join(folder, f)
                text = open(p, encoding="utf-8").read()
                new = "\n".join(
                    line if line.startswith("use Rattle.std") else TOKEN.sub(lambda m: turn(m.group(0)), line) for line in text.split("\n")
                )
                new = re.sub(r"\.-(\w)", r"._\1", new)
                if new != text:
                    open(p, "w", encoding="utf-8").write(new)
                    print(p)


if __name__ == "__main__":
    main()
