#!/usr/bin/env python3
"""Looks up every name that docs/PROMISES.md cites, where the page says that it is.

  promises.py [DIR]     DIR is the repository, by default the one that this file is in

`name`, .. (crate/File): each is declared in crates/CRATE/specs/File.antt or crates/CRATE/proofs/File.antt. `name`, .. (crate), in a
column of must-fail edits: each is crates/CRATE/must-fail/NAME.edit. `crate::name`: a public function of that crate, with a contract.
Exit status 1 where something is not found.
"""
import os
import re
import sys

ROOT = sys.argv[1] if len(sys.argv) > 1 else os.path.join(os.path.dirname(os.path.abspath(__file__)), "..")
WORD = r"`[\w'-]+`"
wrong = []


def read(*path):
    path = os.path.join(ROOT, *path)
    return open(path).read() if os.path.exists(path) else ""


def declared(name, text):
    """A definition, theorem, record, data type, field or constructor of that name."""
    start = r"^ *(?:unfoldable |abbrev )?(?:pub )?(?:record |data )?"
    return re.search(start + re.escape(name) + r"\b[^=]*:", text, re.M) or re.search(r"^  [\w ]*\b" + re.escape(name) + r"\b[\w ]* : ", text, re.M)


def theory(names, crate, file):
    text = read("crates", crate, "specs", file + ".antt") + "\n" + read("crates", crate, "proofs", file + ".antt")
    structs = "".join(read("crates", crate, "src", f) for f in os.listdir(os.path.join(ROOT, "crates", crate, "src"))) if os.path.isdir(os.path.join(ROOT, "crates", crate, "src")) else ""
    if not text.strip():
        wrong.append(f"no file {crate}/{file}")
    for name in names:
        if not declared(name, text) and not re.search(rf"pub (?:struct|enum) {re.escape(name)}\b", structs):
            wrong.append(f"`{name}` is not in {crate}/{file}")
    return len(names)


def edits(names, crate):
    for name in names:
        if not read("crates", crate, "must-fail", name + ".edit"):
            wrong.append(f"no must-fail edit {crate}/{name}")
    return len(names)


def function(crate, name):
    folder = os.path.join(ROOT, "crates", crate, "src")
    text = "".join(read("crates", crate, "src", f) for f in sorted(os.listdir(folder))) if os.path.isdir(folder) else ""
    if not re.search(rf"^pub fn {name}\b[^{{]*?\bensures\b", text, re.M | re.S):
        wrong.append(f"no public function {crate}::{name} with a contract")


def main():
    page = read("docs", "PROMISES.md")
    counts = [0, 0, 0]
    for line in page.split("\n"):
        for m in re.finditer(rf"((?:{WORD}(?:, | and )?)+) \((\w+)/([\w/]+)\)", line):
            if m[2] not in ("crate", "CRATE"):
                counts[0] += theory(re.findall(r"[\w'-]+", m[1].replace(" and ", " ")), m[2], m[3])
        if line.startswith("|"):
            for m in re.finditer(rf"((?:{WORD}(?:, )?)+) \((\w+)\)", line.split("|")[3] if line.count("|") > 3 else ""):
                counts[1] += edits(re.findall(r"[\w'-]+", m[1]), m[2])
        for m in re.finditer(r"`(\w+)::(\w+)`", line):
            function(m[1], m[2])
            counts[2] += 1
    for line in wrong:
        print(line)
    print("PROMISES.md: %d names, %d must-fail edits, %d functions; %d not found" % (*counts, len(wrong)))
    return 1 if wrong else 0


sys.exit(main())
