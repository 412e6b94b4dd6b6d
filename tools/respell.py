#!/usr/bin/env python3
"""Spells the repository's own names as today's Rattle does: words joined by `_`, and a fact in camel case.

Run once, at the top, after port.py. It renames each name with a dash that a file of specs/ or proofs/ declares, in
those files and in the clauses of src/, and leaves comments, code and names that Rattle or its library makes.
"""
import glob
import re
import sys

WORD = r"[A-Za-z][A-Za-z0-9_'αβ]*"
DASHED = re.compile(rf"(?<![A-Za-z0-9_'αβ-]){WORD}(?:-[A-Za-z0-9_'αβ+]+)+(?![A-Za-z0-9_'αβ-])")
MARKS = r"^\s*(?:pub\s+|abbrev\s+|unfoldable\s+|record\s+|data\s+)*"
DECLARED = re.compile(MARKS + r"([A-Za-z][^\s:(){}]*)\s*(?:\{[^}]*\}\s*|\([^)]*\)\s*)*:\s*(.*)")


def texts():
    for kind in ("specs", "proofs", "src"):
        for path in sorted(glob.glob(f"crates/*/{kind}/**/*", recursive=True)):
            if path.endswith(".antt") or path.endswith(".rt"):
                yield path


def declared(line):
    found = DECLARED.match(line)
    if found and not re.match(r"(goal|need)\.", found.group(2)) and " as goal" not in line:
        yield found.group(1)
    for found in re.finditer(r"\blet ([A-Za-z][^\s:]*)", line):
        yield found.group(1)
    for found in re.finditer(r"λ ((?:[^\s.()]+ )*[^\s.()]+)\.", line):
        yield from found.group(1).split()
    for found in re.finditer(r"\(((?:[A-Za-z][^\s():]* )+):", line):
        yield from found.group(1).split()


def spelled(name):
    if name[0].isupper():
        return "".join(part[0].upper() + part[1:] for part in name.split("-"))
    return name.replace("-", "_")


def main():
    own = set()
    for path in texts():
        if path.endswith(".antt"):
            for line in open(path, encoding="utf-8"):
                if not line.lstrip().startswith("--"):
                    own.update(name for name in declared(line) if "-" in name and "++" not in name)
    count = 0
    for path in texts():
        lines = open(path, encoding="utf-8").read().split("\n")
        clause = path.endswith(".antt")
        out = []
        for line in lines:
            start = line.lstrip()
            comment = start.startswith("--") if clause else start.startswith("//")
            if not comment and (clause or re.search(r"\b(ghost|requires|ensures)\b|[≡λ→×≤∷]", line)):
                line = DASHED.sub(lambda m: spelled(m.group(0)) if m.group(0) in own else m.group(0), line)
            out.append(line)
        if out != lines:
            count += 1
            open(path, "w", encoding="utf-8").write("\n".join(out))
    print(f"respell: {len(own)} names, {count} files")


if __name__ == "__main__":
    sys.exit(main())
