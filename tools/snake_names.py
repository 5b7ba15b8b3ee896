#!/usr/bin/env python3
"""Brings the names of this repository's own definitions and lemmas into snake case.

usage: python3 tools/snake_names.py [--list]     at the top of the repository

A name is renamed where it is declared below crates/*/specs or crates/*/proofs with a dash in it, and no library has it;
where the name in snake case is taken, `_lem` is put behind a lemma. A word of specs/ may have the name of a function.
The names of goals and of their parts, which the check makes from the code, keep their dashes.
--list prints the renamings and writes nothing.
"""

import os
import re
import subprocess
import sys

NAME = re.compile(r"(?<![\w'\-\u2080-\u2089])[^\W\d](?:[\w'\u2080-\u2089]|-(?=[\w]))*")
DECLARED = re.compile(r"^\s*(?:abbrev pub |unfoldable pub |pub data |pub record |abbrev |unfoldable |record |data |pub )?([^\W\d](?:[\w'\u2080-\u2089]|-(?=\w))*) :(?!:)", re.M)
GOAL = re.compile(r"^\s*(?:abbrev pub |pub )?([^\s:]+) : (?:goal|need|given|choices)\.", re.M)
LIBRARY = re.compile(r"^\s*use (?!Rattle\.(%s)\.)[^\n{]*\{([^}]*)\}", re.M)


def files(root, tail):
    out = subprocess.run(["git", "ls-files", "-co", "--exclude-standard", "crates"], cwd=root, capture_output=True, text=True, check=True).stdout
    return [os.path.join(root, f) for f in out.splitlines() if f.endswith(tail) and os.path.exists(os.path.join(root, f))]


def read(path):
    with open(path, encoding="utf-8") as f:
        return f.read()


def renamings(root):
    own = "|".join(sorted(os.listdir(os.path.join(root, "crates"))))
    declared, kept, all_names, words = set(), set(), set(), set()
    for path in files(root, ".antt"):
        text = read(path)
        all_names |= set(NAME.findall(text))
        here = {n for n in DECLARED.findall(text) if "-" in n}
        declared |= here
        words |= here if "/specs/" in path else set()
        kept |= set(GOAL.findall(text))
        for _, names in re.findall(LIBRARY.pattern % own, text, re.M):
            kept |= {n.strip().split(" ")[0] for n in names.split(",")}
    turned = {}
    for name in sorted(declared - kept):
        new = name.replace("-", "_")
        if new in turned.values() or (new in all_names and name not in words):
            new += "_lem"
            if new in all_names or new in turned.values():
                print(f"falls together: {name} and {new}", file=sys.stderr)
                continue
        turned[name] = new
    return turned


def main(argv):
    root = subprocess.run(["git", "rev-parse", "--show-toplevel"], capture_output=True, text=True, check=True).stdout.strip()
    turned = renamings(root)
    if "--list" in argv:
        for old, new in turned.items():
            print(old, new)
        return 0
    changed = 0
    for path in files(root, (".antt", ".rt")):
        text = read(path)
        new = NAME.sub(lambda m: m[0] if re.search(r"(?<![\w'])c\.$", text[max(0, m.start() - 3) : m.start()]) else turned.get(m[0], m[0]), text)
        if new != text:
            changed += 1
            with open(path, "w", encoding="utf-8") as f:
                f.write(new)
    print(f"{len(turned)} names, {changed} files")
    return 0


if __name__ == "__main__":
    raise SystemExit(main(sys.argv[1:]))
