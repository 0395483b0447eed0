#!/usr/bin/env python3
"""Lists the places in crates/*/src where an older form may stand, point by point as docs/DESIGN-PASS.md numbers them.

usage: python3 tools/forms.py [--count] [COMMIT]    at the top of the repository; --count prints the numbers only,
                                                    and with a commit it reads that commit in place of the files

A pattern finds more than is meant, and a reader decides. Whatever it finds is changed or has its reason on the page.
"""

import collections
import re
import subprocess
import sys

SIGNATURE = re.compile(r"^[ ]*(?:pub(?:\(crate\))? )?(?:extern \"C\" )?fn (\w+)[^;{]*?(?=\n\s*(?:requires|ensures)|\s*\{|;)", re.M | re.S)
PATTERNS = [
    ("1", "a number for a kind or a refusal", r"\bKind::of\(|\bflaw_number\(|\.number\(\)|\bnumber_of\(res|\b(?:Chain|Code)\(u8\)"),
    ("1", "a match that passes an error on", r"Err\((\w+)\) => Err\(\1\)|Some\((\w+)\) = \S+ \{\s*return Err\(\2\)|Err\(\w+\) => match"),
    ("3", "an index counted by hand", r"\bfor \w+ in [^{\n]*\.\.[^{\n]*\{"),
    ("3", "a recursion that counts rows", r"\b\w+\([^;]*count - 1[^;]*\)"),
    ("3", "a search written out", r"for \w+ in [^{]*\{\s*if [^{]*\{\s*return"),
    ("4", "a conversion, a copy or a filling by hand", r"\bfn of\(|\bfn as_slice\(|\bout\[i\] = (?:x|block\[i\]|message\[i\]);|\barray\[i\] = |\brow\[j\] = |\bas (?:u8|u16|u32|usize)\b"),
    ("6", "a length beside a buffer", r"^\s*(?:count|height|width): usize,|\bcount: usize\b|\bw: usize\b|\bwidth: usize\b"),
    ("6", "a row or a block found by arithmetic", r"\[(?:\w+ \* \w+|at|w|size|\.\.w|\.\.size|start)[^\]]*\.\.[^\]]*\]|\[\.\.(?:w|size)\]|\[(?:\d \* )[^\]]*\]"),
    ("7", "a match on a kind of one's own", r"\bmatch (?:self|kind|name|command|chain|field)\b"),
]


def sources(commit):
    if commit:
        names = subprocess.run(["git", "ls-tree", "-r", "--name-only", commit], capture_output=True, text=True, check=True).stdout.split("\n")
        for name in names:
            if re.match(r"crates/\w+/src/.*\.rt$", name):
                yield name, subprocess.run(["git", "show", f"{commit}:{name}"], capture_output=True, text=True, check=True).stdout
    else:
        names = subprocess.run(["git", "ls-files", "--cached", "--others", "--exclude-standard", "crates"], capture_output=True, text=True, check=True).stdout.split("\n")
        for name in sorted(set(names)):
            if "/src/" in name and name.endswith(".rt"):
                try:
                    with open(name) as f:
                        yield name, f.read()
                except FileNotFoundError:
                    pass


def signatures(texts):
    for name, text in texts:
        for found in SIGNATURE.finditer(text):
            yield name, text.count("\n", 0, found.start()) + 1, found.group(1), " ".join(found.group(0).split())


def places(texts):
    """The places of each point: (point, what it is, file, line, text)."""
    for point, what, pattern in PATTERNS:
        for name, text in texts:
            for found in re.finditer(pattern, text, re.M):
                start = found.start() + len(found.group(0)) - len(found.group(0).lstrip())
                line = text.count("\n", 0, start) + 1
                yield point, what, name, line, text.split("\n")[line - 1].strip()
    for name, line, function, signature in signatures(texts):
        if signature.endswith("-> bool") and "&mut [" in signature:
            yield "1", "a flag beside a value that is written", name, line, signature
    enums = collections.Counter()
    for name, text in texts:
        for found in re.finditer(r"\benum (\w+) \{(.*?)^\}", text, re.M | re.S):
            enums[name] += 1
            line = text.count("\n", 0, found.start()) + 1
            if re.search(r"^\s*(?:Failed\(|NotUnderstood,|PassedOver,|None\b|Missing\b)", found.group(2), re.M):
                yield "1", "an enum of the shape of Option or Result", name, line, f"enum {found.group(1)}"
    bodies = collections.defaultdict(list)
    for name, text in texts:
        for found in re.finditer(r"^( *)(?:pub(?:\(crate\))? )?(?:extern \"C\" )?fn (\w+).*?^\1\{\n(.*?)^\1\}|^( *)fn (\w+)[^;]*?\{\n(.*?)^\4\}", text, re.M | re.S):
            body = found.group(3) or found.group(6) or ""
            shape = re.sub(r"\b\d+\b|\b\w+\b(?=\()|\b[A-Z]\w*\b", "_", " ".join(body.split()))
            if len(shape) > 12:
                bodies[shape].append((name, text.count("\n", 0, found.start()) + 1, found.group(2) or found.group(5)))
    for shape, found in bodies.items():
        if len(found) > 1:
            for name, line, function in found:
                yield "2", "a body that another function has but for names and numbers", name, line, function
    clauses = collections.defaultdict(list)
    for name, text in texts:
        for found in re.finditer(r"^\s*(?:requires|ensures)(?: \w+)? \{ (.*) \}$", text, re.M):
            fact = re.sub(r"\.(?:now|old|new)\b|\b(?:self|result|block|ys|xs|rows|row|out|word|message|others|first|pivot|a|v)\b", "_", found.group(1))
            clauses[(name.split("/")[1], fact)].append((name, text.count("\n", 0, found.start() + len(found.group(0)) - len(found.group(0).lstrip())) + 1))
    for (crate, fact), found in clauses.items():
        if len(found) > 2:
            for name, line in found:
                yield "5", "a fact in three or more clauses of a crate", name, line, fact[:100]
    groups = collections.defaultdict(list)
    for name, line, function, signature in signatures(texts):
        inside = re.search(r"\((.*)\)", signature)
        names = re.findall(r"(\w+): ", inside.group(1)) if inside else []
        for i in range(len(names) - 2):
            groups[(name.split("/")[1], tuple(names[i : i + 3]))].append((name, line, function))
    for (crate, names), found in groups.items():
        if len(found) > 2:
            for name, line, function in found:
                yield "5", "three parameters that travel together", name, line, f"{function}({', '.join(names)})"


def main():
    arguments = [a for a in sys.argv[1:] if a != "--count"]
    texts = list(sources(arguments[0] if arguments else None))
    counts = collections.Counter()
    for point, what, name, line, text in sorted(places(texts)):
        counts[(point, what)] += 1
        if "--count" not in sys.argv:
            print(f"{point}  {name}:{line}: {what}: {text}")
    for (point, what), count in sorted(counts.items()):
        print(f"{point}  {count:3}  {what}")


if __name__ == "__main__":
    main()
