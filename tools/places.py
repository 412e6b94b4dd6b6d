#!/usr/bin/env python3
"""Lists the places in src/ that may be in an older form, by point, and counts them.

    python3 tools/places.py [POINT ..]      prints the lines of these points, then all counts

It looks for signs in the text, so each line that it prints is to be read: docs/DESIGN-PASS.md says which of them are
places of a point.
"""
import collections
import pathlib
import re
import sys

ROOT = pathlib.Path(__file__).resolve().parent.parent
SOURCES = sorted(ROOT.glob("crates/*/src/**/*.rt"))
PROOFS = sorted(ROOT.glob("crates/*/proofs/**/*.antt"))

SIGNS = {
    "1 options of faults": r"Option<\w*Fault>",
    "1 functions that answer with a u8": r"-> u8$|-> u8 \{",
    "1 answers and refusals as pairs of numbers": r"-> \(u\d+, u|-> Option<\(usize, u8|-> \(u32, u32",
    "3 while": r"\bwhile\b(?! let)",
    "3 while let": r"\bwhile let\b",
    "3 for over a range": r"\bfor \w+ in [^{]*\.\.",
    "4 casts": r"\bas (u8|u16|u32|u64|usize)\b",
    "4 limits by two comparisons": r"\b\w+ < 1 \|\||\b1 <= [a-z_.]+$|\b1 <= [a-z_.]+\b",
    "4 functions that print a value, and their fields read for it": r"fn (print_|write_number|write_text|width)|let (q1|number|party|need|places) = (told|fault|stream|line)\.",
    "6 a length beside": r"^    (pub )?len: usize",
    "6 arrays": r": \[[^\]&]+; *\w+\]|= \[[^\]]+; *\w+\];",
    "7 functions in tables, dyn": r"\bdyn \w|: fn\(|Box<",
    "- the old spelling of what is not reached": r"\bunreachable\(\)",
}

# arms that say that there is nothing, that it went well, or that it did not
ARMS = ("Done", "Agrees", "Nothing", "Refused", "None", "Some", "Ok", "Err", "Missing", "Remark")


def lines(pattern):
    found = []
    for path in SOURCES:
        for number, line in enumerate(path.read_text().split("\n"), 1):
            text = line.split("//")[0]
            if re.search(pattern, text):
                found.append((path.relative_to(ROOT), number, line.strip()))
    return found


def enums():
    """Own enums with an arm like those of Option and Result."""
    found = []
    for path in SOURCES:
        for m in re.finditer(r"\benum (\w+)[^{]*\{(.*?)^\}", path.read_text(), re.S | re.M):
            arms = [a for a in re.findall(r"^    (\w+)", m.group(2), re.M) if a in ARMS]
            if arms:
                found.append(f"{path.relative_to(ROOT)}: {m.group(1)}: {', '.join(arms)}")
    return found


def shape(body):
    """The body with one letter for each name, number and text."""
    words = re.findall(r"[A-Za-z_]\w*|\d[\d_]*|b?\"[^\"]*\"|\S", re.sub(r"//[^\n]*", "", body))
    keep = {"if", "else", "for", "while", "let", "match", "return", "in", "mut", "Some", "None", "Ok", "Err", "true", "false"}
    return " ".join(w if w in keep or not (w[0].isalnum() or w[0] == "_" or w[-1] == '"') else "x" for w in words)


def twins():
    """Functions and impls of one crate whose bodies have one shape."""
    seen = collections.defaultdict(list)
    for path in SOURCES:
        text = path.read_text()
        for m in re.finditer(r"\bfn (\w+)", text):
            start = re.compile(r"(?:\n *\{\n|\) \{\n|\w \{\n|> \{\n)").search(text, m.end())
            end = text.find("\n}", m.end()), text.find("\n    }\n", m.end())
            if start:
                stop = min([e for e in end if e > start.end()], default=len(text))
                body = text[start.end():stop]
                if len(body.split()) > 2:
                    seen[(str(path).split("/crates/")[1].split("/")[0], shape(body))].append(m.group(1))
    return [(crate, names) for (crate, _), names in sorted(seen.items()) if len(names) > 1]


def closing(text):
    """Where the bracket is closed that was opened before the text."""
    depth = 1
    for place, letter in enumerate(text):
        depth += (letter == "(") - (letter == ")")
        if depth == 0:
            return place
    return len(text)


def functions():
    """Each function's place, name, parameters and lines of clauses."""
    for path in SOURCES:
        text = path.read_text()
        for m in re.finditer(r"^ *(?:pub(?:\(\w+\))? )?fn (\w+)(?:<[^(]*>)?\(", text, re.M):
            head = re.search(r"\n *\{\n| \{\n|;\n", text[m.end():])
            signature = text[m.end():m.end() + head.start()] if head else ""
            params = signature[:closing(signature)]
            yield path.relative_to(ROOT), m.group(1), params, re.findall(r"^ *(?:requires|ensures) (.*)$", signature, re.M)


def groups():
    """Pairs of parameters of one name and type that stand in three functions or more of a crate."""
    pairs = collections.defaultdict(set)
    for path, name, params, _ in functions():
        own = sorted({p.strip() for p in re.split(r",\s*(?![^<\[]*[>\]])", params) if ":" in p})
        for i, a in enumerate(own):
            for b in own[i + 1:]:
                pairs[(str(path).split("/")[1], a, b)].add(name)
    return [(k[0], f"{k[1]} and {k[2]}", sorted(v)) for k, v in sorted(pairs.items()) if len(v) >= 3]


def clauses():
    """Premises and promises that stand in three functions or more of a crate, whatever the value is called."""
    seen = collections.defaultdict(set)
    for path, name, _, lines_of in functions():
        for line in lines_of:
            for fact in re.split(r"\)\s*×\s*\(", re.sub(r"^\w* *\{(.*)\}$", r"\1", line).strip()):
                shape = re.sub(r"\b(self|network|journal|rack|draft|all|higher|own|load)\.(old|new|now)\b", "X", fact.strip(" ()"))
                shape = re.sub(r"\b[AB]\.Load\b", "L.Load", shape)
                if "result" not in shape:
                    seen[(str(path).split("/")[1], shape)].add(name)
    return [(k[0], k[1], sorted(v)) for k, v in sorted(seen.items()) if len(v) >= 3]


def answers():
    counts = collections.Counter()
    for path in PROOFS:
        kind = path.stem if path.stem in ("Answers", "Invariants", "Proof") else "lemmas"
        names = {m.group(1) for m in re.finditer(r"^(?:abbrev )?(?:pub )?([^\s:=|{(-][^\s:]*)(?: [^=\n]*)?(?: :| =)", path.read_text(), re.M)}
        counts[kind] += len(names - {"use", "mod", "record", "data", "where"})
    return counts


def main():
    wanted = sys.argv[1:]
    counts = []
    for sign, pattern in SIGNS.items():
        found = lines(pattern)
        counts.append((sign, len(found)))
        if sign[0] in wanted:
            print(f"# {sign}")
            for path, number, line in found:
                print(f"{path}:{number}: {line}")
    listed = {
        "1 own enums with an arm like those of Option and Result": enums(),
        "2 functions of one shape in a crate": [f"{crate}: {', '.join(names)}" for crate, names in twins()],
        "5 parameters that travel together": [f"{crate}: {what}: {', '.join(names)}" for crate, what, names in groups()],
        "5 clauses in three functions": [f"{crate}: {what}: {', '.join(names)}" for crate, what, names in clauses()],
    }
    for sign, found in listed.items():
        counts.append((sign, len(found)))
        if sign[0] in wanted:
            print(f"# {sign}")
            print(*found, sep="\n")
    counts += [(f"8 {kind}", n) for kind, n in answers().items()]
    for sign, n in sorted(counts):
        print(f"{n:5} {sign}")


main()
