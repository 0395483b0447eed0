#!/usr/bin/env python3
"""Respells the repository's own definitions and lemmas: words are joined by '_', not by '-', and facts are in upper camel case.

usage: python3 tools/respell.py [--list]    at the top of the repository; --list only prints the names

A name is the repository's own if a file of specs/ or proofs/ declares it: by a signature, as a field, as a constructor or by `let`.
The answers to goals, whose names the check makes, keep their spelling, and so do names that a file brings in from a library.
"""

import os
import re
import sys

TOKEN = re.compile(r"[^\s(){}\[\];,.:\"`λ«»|]+")
SIGNATURE = re.compile(r"^\s*(?:abbrev |unfoldable |instance |axiom |mutual )*(?:pub )?(?:abbrev |unfoldable )*(?:pub )?((?:[^\s(){}\[\];,.:\"]+ )+): (.*)$")
LET = re.compile(r"\blet ([^\s(){}\[\];,.:\"]+)(?: :[^=]*)? = ")
BOUND = re.compile(r"[({]((?:[^\s(){}\[\];,.:\"=]+ )+): ")
LAMBDA = re.compile(r"λ ((?:[^\s(){}\[\];,.:\"=]+ )*[^\s(){}\[\];,.:\"=]+)\. ")
OUTSIDE = re.compile(r"^\s*(?:ghost )?use (?:Rattle\.std|lib|native|mathlib|Prim|core)\b[^{]*\.\{([^}]*)\}")
CLAUSE = re.compile(r"\b(?:ghost|requires|ensures|invariant)\b|^\s*\S.*\}$")


def sources(end):
    for folder, dirs, files in os.walk("crates"):
        dirs[:] = sorted(d for d in dirs if d != "out")
        for name in sorted(files):
            if name.endswith(end):
                yield os.path.join(folder, name)


def outside_names(text):
    """The names that a file brings in from a library."""
    found = set()
    for line in text.splitlines():
        m = OUTSIDE.match(line)
        if m:
            found |= {w.strip().split(" as ")[-1] for w in m.group(1).split(",")}
    return found


def own_names():
    found = set()
    for path in sources(".antt"):
        with open(path, encoding="utf-8") as f:
            text = f.read()
        for line in text.splitlines():
            code = line.split("-- ")[0]
            m = SIGNATURE.match(code)
            if m and not m.group(2).startswith("goal."):
                found |= set(m.group(1).split())
            found |= set(LET.findall(code))
            for several in BOUND.findall(code) + LAMBDA.findall(code):
                found |= set(several.split())
    return {n for n in found if "-" in n and re.match(r"^[^\W\d][\w'²³-]*$", n)}


def made_names():
    """The names of goals and of steps, as the answers cite them."""
    found = set()
    for path in sources(".antt"):
        with open(path, encoding="utf-8") as f:
            text = f.read()
        found |= set(re.findall(r"\bgoal\.([^\s(){}\[\];,.:]+)", text))
        found |= set(re.findall(r"\b[cwlg]\.([^\s(){}\[\];,.:]+)", text))
        for m in re.finditer(r"^use \S+\.(?:Goals|Given)\.\{([^}]*)\}", text, re.M):
            found |= {w.strip() for w in m.group(1).split(",")}
    return found


def spelling(name):
    if name in FACTS or (name[0].isupper() and not name.startswith("T-")):
        return "".join(w[0].upper() + w[1:] for w in name.split("-"))
    return name.replace("-", "_")


def respelt(text, names, is_rust):
    kept = outside_names(text)
    lines = []
    for line in text.splitlines(keepends=True):
        code, mark, note = line.partition("-- ") if not is_rust else line.partition("// ")
        if is_rust and not CLAUSE.search(code):
            lines.append(line)
            continue
        swap = lambda m: spelling(m.group(0)) if m.group(0) in names and m.group(0) not in kept else m.group(0)
        note = re.sub(r"`[^`]*`", lambda m: TOKEN.sub(swap, m.group(0)), note)
        code = "".join(p if p.startswith('"') else TOKEN.sub(swap, p) for p in re.split(r'("[^"]*")', code))
        lines.append(code + mark + note)
    return "".join(lines)


def main(argv):
    names = own_names()
    made = made_names()
    clash = sorted(n for n in names if n in made)
    before = {spelling(n) for n in names}
    there = set()
    for path in sources(".antt"):
        with open(path, encoding="utf-8") as f:
            there |= set(TOKEN.findall(f.read()))
    if argv == ["--list"]:
        print("own:", " ".join(sorted(names)))
        print("also made by the check:", " ".join(clash))
        print("fall together:", " ".join(sorted(before & there)))
        return 0
    for end in (".antt", ".rt"):
        for path in sources(end):
            with open(path, encoding="utf-8") as f:
                text = f.read()
            new = respelt(text, names, end == ".rt")
            if new != text:
                with open(path, "w", encoding="utf-8") as f:
                    f.write(new)
    return 0


# Facts, which are types, under names in lower case.
FACTS = ["exists-at", "few-at", "locator-at", "message-at", "zero-column-at", "pivot-at"]

if __name__ == "__main__":
    raise SystemExit(main(sys.argv[1:]))
