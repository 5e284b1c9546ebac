#!/usr/bin/env python3
"""Brings the definitions and lemmas of this repository to today's spelling: words in snake case, types in camel case.

usage: python3 tools/respell.py [ROOT]     at the top of the repository, or with its path: rewrites the files below ROOT/crates in place, once

A name is the repository's own where a file of specs/ or proofs/ declares it; names that Rattle makes for goals and steps, and the library's names, stay.
"""
import collections
import os
import re
import sys

ROOT = sys.argv[1] if len(sys.argv) > 1 else "."
TOKEN = re.compile(r"[^\s(){}\[\].,;λ→×⌜⌝\"`|↦◌«»]+")
SIGNATURE = re.compile(
    r"\s*(?:abbrev |unfoldable |pub |data |record |private )*([^\s(){}\[\].,;:=]+)"
    r"((?:\s+\([^)]*\)|\s+\{[^}]*\}|\s+[a-z]\w*'?)*)\s*:(\s|$)"
)
LOCAL = re.compile(r"(?:let |λ |\()([a-z][\w']*(?:-[\w']+)+)\s*(?=[:=.)])")
MADE = re.compile(
    r"(returns|loop|invariant|decreases|overflow|bounds|slice_bounds|nonzero|if|in|then|else|match)-|.*-requires(-.*)?$|.*-(then|else|in)-"
)
KEEP = {
    # steps and goals of generated proofs
    "after-wait-state", "max-start", "spoiled-quarter", "clean-quarter", "next-is", "row-is", "finish-is", "job-index", "latest-index",
    "first-late-of-board-late", "given-up-after-given-up", "number-value", "without-bookings",
}


# Names whose plain respelling stands for something else already, and names in mixed case.
BY_HAND = {
    "is-number": "digits_are_number",
    "as-made": "as_made",
    "by-pass": "by_pass",
    "by-rule": "by_rule",
    "jobs-on": "jobs_on",
    "no-earlier": "no_earlier",
    "no-js": "no_js",
    "no-ks": "no_ks",
    "opening-by-letter": "opening_by_letter",
    "refusal-code": "refusal_code",
    "says-text": "says_text",
    "valueOn": "value_on",
    "bookOf": "book_of",
    "byLetter": "by_letter_of",
    "eventParts": "event_parts_of",
    "heardOf": "heard_of",
    "inspectionOf": "inspection_of",
    "letteredOf": "lettered_of",
    "openingOf": "opening_of",
    "overOf": "over_of",
    "passedOf": "passed_of",
    "refusalOf": "refusal_of",
    "replyParts": "reply_parts_of",
    "ruleOf": "rule_of",
    "spoiledOf": "spoiled_of",
    "unheardOf": "unheard_of",
    "withdrawOf": "withdraw_of",
}


def files(ends=(".antt", ".rt")):
    for folder, dirs, names in os.walk(os.path.join(ROOT, "crates")):
        dirs[:] = sorted(d for d in dirs if d != "out")
        for n in sorted(names):
            if n.endswith(ends):
                yield os.path.join(folder, n)


def halves(line, path):
    """A line's code and its comment."""
    if path.endswith(".edit"):
        return line, ""
    m = re.search(r"(^|\s)--(\s|$)" if path.endswith(".antt") else r"//", line)
    return (line[: m.start()], line[m.start():]) if m else (line, "")


def of_function(path):
    """Whether the file is of the proof of one function, whose names are mostly Rattle's."""
    return path.endswith(("Answers.antt", "Invariants.antt", "Proof.antt")) and "/proofs/" in path


def respelled(name):
    if name[0].isupper():
        return "".join(w[0].upper() + w[1:] for w in name.split("-"))
    return name.replace("-", "_")


def declared():
    found = set()
    for p in files():
        if not p.endswith(".antt"):
            continue
        lines = open(p, encoding="utf-8").read().split("\n")
        goals = {m.group(1) for l in lines for m in [re.match(r"(?:pub |abbrev pub )?(\S+) : goal\.", l)] if m}
        for line in lines:
            code, _ = halves(line, p)
            names = []
            m = SIGNATURE.match(code)
            if m and not code.strip().startswith(("use ", "module ", "let ", "λ")):
                names.append(m.group(1))
            m = re.match(r"\s*(?:abbrev )?(?:pub )?(?:record|data)\s+([^\s({]+)", code)
            if m:
                names.append(m.group(1))
            names += LOCAL.findall(code)
            for n in names:
                if not re.search(r"[A-Za-z0-9_']-[A-Za-z0-9]", n) or n in KEEP or n in goals:
                    continue
                if of_function(p) and MADE.match(n):
                    continue
                found.add(n)
    return found


def main():
    own = declared()
    used = collections.Counter()
    for p in files():
        for line in open(p, encoding="utf-8").read().split("\n"):
            used.update(TOKEN.findall(halves(line, p)[0]))
    names, made = {}, collections.defaultdict(list)
    for n in sorted(own | set(BY_HAND)):
        names[n] = BY_HAND.get(n) or respelled(n)
        made[names[n]].append(n)
    for new, olds in sorted(made.items()):
        if len(olds) > 1 or new in used:
            print(f"look: {' and '.join(olds)} become {new}, which stands {used[new]} times already")
    if "--dry" in sys.argv:
        return

    def turn(code):
        return TOKEN.sub(lambda m: names.get(m.group(0), m.group(0)), code)

    changed = 0
    for p in files((".antt", ".rt", ".edit")):
        text = open(p, encoding="utf-8").read()
        out = []
        for line in text.split("\n"):
            code, comment = halves(line, p)
            comment = re.sub(r"`[^`]*`", lambda m: turn(m.group(0)), comment)
            out.append(turn(code) + comment)
        if "\n".join(out) != text:
            changed += 1
            open(p, "w", encoding="utf-8").write("\n".join(out))
    print(f"{len(names)} names respelled in {changed} files")


if __name__ == "__main__":
    main()
