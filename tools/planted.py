#!/usr/bin/env python3
"""Plants bugs in a copy of the repository, one at a time, and asks the prover to refuse each.

usage: python3 tools/planted.py [--list] [--check] [--only WORD] [--first N] [--into FOLDER] [CRATE..]

The bugs are listed in tools/planted/CRATE.txt, a block of lines for each, with an empty line between blocks:

    name: a name of its own within the crate
    kind: one word for the kind of bug
    file: the file, from the crate's folder on (below src/)
    old: TEXT       which stands in that file exactly once, on one line
    new: TEXT       what stands there with the bug; further pairs of old and new apply to what the earlier ones made

Lines that begin with # are not read. The files are copied to a folder below /tmp (--into: another one), which is kept for the next run,
with a crate's bugs in the place of its must-fail edits; `rt must-fail CRATE` then tries them there. For each bug it prints whether the prover
refused it, with the place of the first error, or whether it survived, then the counts. A bug that no contract refuses shows a contract that is
too weak, if it is a bug. One that is refused for a name alone shows little: a proof file cites what the bug took away. Without a CRATE every crate with a list is tried, from the lowest up.

--list prints the bugs and tries none. --check tells which of them cannot be applied, and tries none. --only takes the bugs whose names have WORD,
--first the first N of each crate.
The status is 0 if every bug that was tried was refused.
"""

import argparse
import os
import re
import shutil
import subprocess
import sys

ROOT = os.path.dirname(os.path.dirname(os.path.abspath(__file__)))
LISTS = os.path.join(ROOT, "tools", "planted")
SAID = re.compile(r"must-fail (\w+)/(\w+)\.edit: (.*)", re.S)
PLACE = re.compile(r"(?:note: )?(?:\./)?((src|proofs|specs)/\S+?:\d+)")

SRC, PROOFS, NAMES, LIMIT, SURVIVED, BAD = "refused at src/", "refused at proofs/", "refused for a name alone", "refused by a limit alone", "survived", "not tried"
ENDS = [SRC, PROOFS, NAMES, LIMIT, SURVIVED, BAD]


class Plant:
    def __init__(self, crate, lines, at):
        self.crate, self.at, self.pairs = crate, at, []
        self.name = self.kind = self.file = ""
        for number, line in enumerate(lines, at):
            word, colon, text = line.partition(": ")
            if not colon or word not in ("name", "kind", "file", "old", "new"):
                sys.exit(f"{crate}.txt:{number}: none of name, kind, file, old, new: {line}")
            if word == "old":
                self.pairs.append([text, None])
            elif word == "new":
                self.pairs[-1][1] = text
            else:
                setattr(self, word, text)
        if not (self.name and self.kind and self.file.startswith("src/") and self.pairs) or any(new is None for _, new in self.pairs):
            sys.exit(f"{crate}.txt:{at}: a bug needs a name, a kind, a file below src/, and pairs of old and new")

    def fault(self):
        """Returns why it cannot be applied; none if it can."""
        try:
            with open(os.path.join(ROOT, "crates", self.crate, self.file)) as file:
                text = file.read()
        except OSError:
            return f"there is no {self.file}"
        for old, new in self.pairs:
            if text.count(old) != 1:
                return f"stands {text.count(old)} times: {old}"
            text = text.replace(old, new)
        return ""

    def edit(self):
        return "".join([f"file: {self.file}\n", *[f"old: {old}\nnew: {new}\n" for old, new in self.pairs]])


def plants_of(crate):
    """Reads the list of a crate."""
    with open(os.path.join(LISTS, f"{crate}.txt")) as file:
        lines = file.read().split("\n")
    found, block, at = [], [], 0
    for number, line in enumerate([*lines, ""], 1):
        if line.startswith("#"):
            continue
        if line.strip():
            at = at if block else number
            block.append(line)
        elif block:
            found.append(Plant(crate, block, at))
            block = []
    names = [it.name for it in found]
    for name in names:
        if names.count(name) > 1:
            sys.exit(f"{crate}.txt: two bugs have the name {name}")
    return found


def crates_in_order():
    """Returns the crates of crates.txt, each after those that it uses."""
    needs = {}
    with open(os.path.join(ROOT, "crates.txt")) as file:
        for line in file:
            name, colon, rest = line.split("#")[0].partition(":")
            if colon:
                needs[name.split()[0]] = rest.split()
    order = []

    def visit(name):
        if name in needs and name not in order:
            for below in needs[name]:
                visit(below)
            order.append(name)

    for name in needs:
        visit(name)
    return order


def copied(into):
    """Brings the copy up to date with the files of the repository; what checks left in it stays. The files that are alike keep their times."""
    listed = subprocess.run(["git", "ls-files", "-co", "--exclude-standard", "crates", "crates.txt", "HANDLES"], cwd=ROOT, capture_output=True, text=True, check=True)
    wanted = {it for it in listed.stdout.splitlines() if os.path.isfile(os.path.join(ROOT, it)) and "/must-fail/" not in it}
    for top, folders, names in os.walk(os.path.join(into, "crates")):
        folders[:] = [it for it in folders if it != "out"]
        for name in names:
            path = os.path.relpath(os.path.join(top, name), into)
            if path not in wanted and "/must-fail/" not in path:
                os.remove(os.path.join(into, path))
    for path in sorted(wanted):
        there, here = os.path.join(into, path), os.path.join(ROOT, path)
        os.makedirs(os.path.dirname(there), exist_ok=True)
        with open(here, "rb") as file:
            data = file.read()
        if os.path.isfile(there):
            with open(there, "rb") as file:
                if file.read() == data:
                    continue
        with open(there, "wb") as file:
            file.write(data)


def tried(into, crate, plants):
    """Tries the bugs of a crate in the copy; returns for each how it ended, and what was said."""
    folder = os.path.join(into, "crates", crate, "must-fail")
    shutil.rmtree(folder, ignore_errors=True)
    os.makedirs(folder)
    for it in plants:
        with open(os.path.join(folder, f"{it.name}.edit"), "w") as file:
            file.write(it.edit())
    ran = subprocess.run(["nice", "-n", "19", "rt", "must-fail", crate], cwd=into, stdout=subprocess.PIPE, stderr=subprocess.STDOUT, text=True, errors="replace")
    with open(os.path.join(into, f"{crate}.log"), "w") as file:
        file.write(ran.stdout)
    shutil.rmtree(folder, ignore_errors=True)
    ends = {}
    for line in ran.stdout.split("\n"):
        told = SAID.search(line)
        if not told or told.group(1) != crate:
            continue
        name, text = told.group(2), told.group(3)
        if text.startswith("NOT REFUSED"):
            ends[name] = SURVIVED, ""
        elif text.startswith(("BAD EDIT", "NOT TRIED")):
            ends[name] = BAD, text
        elif text.startswith("refused"):
            # (a remark in brackets may stand before the first error)
            place = PLACE.search(text)
            end = NAMES if "only because a proof file names" in text else LIMIT if "only by a limit" in text else SRC if place and place.group(2) == "src" else PROOFS
            ends[name] = end, text[place.start() :] if place else ""
    return {it.name: ends.get(it.name, (BAD, f"nothing was said of it: see {into}/{crate}.log")) for it in plants}


def main():
    asked = argparse.ArgumentParser(usage=__doc__.split("\n\n")[1].removeprefix("usage: "))
    asked.add_argument("--list", action="store_true")
    asked.add_argument("--check", action="store_true")
    asked.add_argument("--only", default="")
    asked.add_argument("--first", type=int)
    asked.add_argument("--into", default="/tmp/planted")
    asked.add_argument("crates", nargs="*")
    given = asked.parse_args()
    lists = sorted(it.removesuffix(".txt") for it in os.listdir(LISTS) if it.endswith(".txt"))
    for name in given.crates:
        if name not in lists:
            sys.exit(f"there is no tools/planted/{name}.txt")
    crates = given.crates or [it for it in crates_in_order() if it in lists]
    plants = {crate: [it for it in plants_of(crate) if given.only in it.name][: given.first] for crate in crates}
    faults = [f"{crate}/{it.name}: {it.fault()}" for crate in crates for it in plants[crate] if it.fault()]
    if given.list:
        for crate in crates:
            for it in plants[crate]:
                print(f"{crate}/{it.name} ({it.kind}) {it.file}")
                for old, new in it.pairs:
                    print(f"    - {old.strip()}\n    + {new.strip()}")
    if given.list or given.check or faults:
        print("\n".join(faults + [f"{sum(map(len, plants.values()))} planted in {len(crates)} crates, {len(faults)} of them cannot be applied"]))
        return 1 if faults else 0
    copied(given.into)
    counts = {it: 0 for it in ENDS}
    for crate in crates:
        if not plants[crate]:
            continue
        own = {it: 0 for it in ENDS}
        for name, (end, text) in tried(given.into, crate, plants[crate]).items():
            own[end] += 1
            counts[end] += 1
            kind = next(it.kind for it in plants[crate] if it.name == name)
            print(f"{crate}/{name} ({kind}): {end}{': ' + text if text else ''}", flush=True)
        print(f"{crate}: {len(plants[crate])} planted; " + ", ".join(f"{n} {end}" for end, n in own.items() if n), flush=True)
    print(f"all: {sum(counts.values())} planted; " + ", ".join(f"{n} {end}" for end, n in counts.items() if n))
    return 1 if counts[NAMES] or counts[LIMIT] or counts[SURVIVED] or counts[BAD] else 0


if __name__ == "__main__":
    sys.exit(main())
