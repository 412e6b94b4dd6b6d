#!/usr/bin/env python3
"""Plants bugs, one at a time, and says what refused each.

Usage: tools/plant.py LIST [--only TEXT]

LIST has one bug a block, blocks apart by an empty line:
    crate: arrivals
    file: src/messages.rt
    old: cells * gap > period
    new: cells * gap >= period
    note: optional
`old` stands once in the file; `\\n` in old and new is a line break. Each bug is planted in a copy
of the repository, and the crate is checked there by `rt check`. A row is printed for each: whether it
was refused, and by what (the first line of the check that is no progress report). Work in the
repository goes on meanwhile; the copies lie in a temporary folder.
"""
import os
import re
import shutil
import subprocess
import sys
import tempfile


def blocks(path):
    bug = {}
    with open(path, encoding="utf-8") as lines:
        for line in list(lines) + ["\n"]:
            line = line.rstrip("\n")
            if line.startswith("#"):
                continue
            if not line.strip():
                if bug:
                    yield bug
                bug = {}
                continue
            key, _, text = line.partition(": ")
            bug[key] = text
    if bug:
        yield bug


def first_error(log):
    """What refused the bug: a function's or an impl's unproved need, or an error of the proof text."""
    wanted = re.compile(r"(fn|impl|trait|law) .*: (no proof|not proved|refused)|.*: error[:\[]|error")
    for line in log.splitlines():
        if wanted.match(line) and "waits for" not in line and "prove it first" not in line:
            return re.sub(r"/\S*/crates/", "", line)
    return "(no message)"


def main():
    only = sys.argv[sys.argv.index("--only") + 1] if "--only" in sys.argv else ""
    top = subprocess.run(["git", "rev-parse", "--show-toplevel"], capture_output=True, text=True, check=True).stdout.strip()
    with tempfile.TemporaryDirectory() as work:
        copy = os.path.join(work, "copy")
        shutil.copytree(top, copy, ignore=shutil.ignore_patterns(".git", "must-fail", "out"), symlinks=True)
        refused = 0
        count = 0
        for bug in blocks(sys.argv[1]):
            if only and only not in str(bug):
                continue
            path = os.path.join(copy, "crates", bug["crate"], bug["file"])
            with open(path, encoding="utf-8") as f:
                text = f.read()
            old = bug["old"].replace("\\n", "\n")
            new = bug["new"].replace("\\n", "\n")
            if text.count(old) != 1:
                print(f"UNFIT {bug['crate']} {bug['file']}: `{old}` stands {text.count(old)} times", flush=True)
                continue
            with open(path, "w", encoding="utf-8") as f:
                f.write(text.replace(old, new))
            crate = os.path.join(copy, "crates", bug["crate"])
            run = subprocess.run(["rt", "check", "--jobs", "1"], cwd=crate, capture_output=True, text=True)
            with open(path, "w", encoding="utf-8") as f:
                f.write(text)
            count += 1
            if run.returncode == 0:
                print(f"PROVED {bug['crate']} {bug['file']}: `{old}` -> `{new}`", flush=True)
            else:
                refused += 1
                print(f"refused {bug['crate']} {bug['file']}: `{old}` -> `{new}`\n    {first_error(run.stdout + run.stderr)[:300]}", flush=True)
        print(f"{refused} of {count} refused")


main()
