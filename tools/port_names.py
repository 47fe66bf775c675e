#!/usr/bin/env python3
"""Brings the repository's own definitions and lemmas to snake case, types and facts to camel case.

usage: tools/port_names.py before        once, at the top of the repository, before the port's scripts: an alias that they would take for today's spelling
       tools/port_names.py               once, after the port's scripts

A name is turned where specs/ or a lemma file of proofs/ declares it: in clauses, theorems, proofs, edits and pages. Names of the library, of goals
and of the code keep their spelling. It stops where two names would fall together.
"""
import collections
import os
import re
import subprocess
import sys

NAME = r"[^\s(){};,.\"«»\[\]|@`]+"
DECLARED = re.compile(r"^\s*(?:(?:pub|abbrev|unfoldable|ruleset)\s+)*(" + NAME + r")\s+:(?=\s|$)", re.M)
SORTS = re.compile(r"^\s*(?:(?:pub|abbrev|unfoldable)\s+)*(?:data|record)\s+(" + NAME + r")", re.M)
FIELD = re.compile(r"^\s+pub (" + NAME + r")\s+:", re.M)
# Facts and types, in camel case; two of them have a module's name.
FACTS = {
    "All-fit": "AllResultsFit", "Demand-2": "Demand2", "Demand-3": "Demand3", "Demand-3-whole": "Demand3Whole", "Demand-8": "Demand8",
    "Drawn-to": "DrawnTo", "Equal-when-tightest-agree": "EqualWhenTightestAgree", "Every-accepted": "EveryAccepted",
    "Last-ignored": "LastIgnored", "Not-negative": "NeverNegative", "One-exists": "OneExists", "Read-back": "IsReadBack",
    "Request-1": "Request1", "Room-enough": "RoomEnough", "Rule-2": "Rule2", "Same-as": "SameAs", "Steps-at-most": "StepsAtMost",
    "Those-of-testing": "ThoseOfTesting", "Written-back": "IsWrittenBack",
}
# Names that would fall together with another one.
APART = FACTS | {"bit-and": "bit_of_and", "bit-or": "bit_of_or"}
# Words that were written in camel case; E and S are types, and keep their capital.
PIECES = {
    "bitsFrom": "bits_from", "countIf": "count_if", "countsOf": "counts_of", "fixAt": "fix_at", "forEach": "for_each", "getD": "get_or",
    "lowHas": "low_member", "lowIn": "low_below", "leE": "le_E", "leastE": "least_E", "leqE": "leq_E", "ltE": "lt_E", "ltL": "lt_l",
    "mapL": "map_l", "maskAt": "mask_at", "meantV": "meant_v", "moreV": "more_v", "withinV": "within_v", "pullE": "pull_E",
    "sameList": "same_list", "supL": "sup_l", "walkFrom": "walk_from", "onlyIf": "only_if",
}


def texts(top, ends):
    for folder, folders, files in os.walk(top):
        folders[:] = sorted(f for f in folders if f not in ("out", ".git", "target"))
        for f in sorted(files):
            if f.endswith(ends):
                yield os.path.join(folder, f)


def read(path):
    with open(path, encoding="utf-8") as f:
        return f.read()


def plain(text):
    return re.sub(r"--[^\n]*", "", text)


def of_a_function(path):
    return re.search(r"/proofs/.+/", path) is not None


def turned(name):
    if name in APART:
        return APART[name]
    return "_".join(PIECES.get(piece, piece) for piece in name.split("-"))


def library_names():
    kit = os.path.dirname(subprocess.run(["rt", "doc"], capture_output=True, text=True, check=True).stdout.strip())
    found = set()
    for path in texts(os.path.join(kit, "rattle"), ".antt"):
        found.update(it for it in re.split(r"[\s(){};,.\"«»\[\]|@`]+", read(path)) if "-" in it)
    return found


def main(top):
    crates = os.path.join(top, "crates")
    own, fields = collections.defaultdict(list), set()
    imported = set()
    for path in texts(crates, (".antt", ".rt")):
        text = plain(read(path)) if path.endswith(".antt") else read(path)
        for found in re.finditer(r"use ([\w.·+-]+)\.\{([^}]*)\}", text):
            if not re.match(r"Rattle\.(?!std\.|core\.|io\.|libc\.|os\.|bytes\.)", found[1]):
                imported.update(it.split(" as ")[0].strip() for it in found[2].split(","))
        if not path.endswith(".antt") or of_a_function(path):
            continue
        for found in list(DECLARED.finditer(text)) + list(SORTS.finditer(text)):
            own[found[1]].append(path)
        fields.update(it[1] for it in FIELD.finditer(text))
    names = {it: turned(it) for it in own if turned(it) != it and not it.startswith("-")}
    library = library_names()
    for name in sorted(names):
        if name in imported:
            print(f"kept, since the library has it too: {name}")
            del names[name]
    # Names fall together where both stand in one crate's own text.
    heirs = collections.defaultdict(set)
    for name in own:
        heirs[names.get(name, name)].add(name)
    for heir, several in heirs.items():
        if len(several) > 1:
            print(f"fall together: {sorted(several)} as {heir}")
    for heir in sorted(set(names.values()) & imported):
        print(f"the library has {heir}")
    word = re.compile(NAME)

    def turn(text, here, is_function):
        def one(found):
            name = found[0]
            if name not in names or name in here:
                return name
            before = text[: found.start()]
            if is_function and before.endswith(".") and name not in fields and not re.search(r"\b[A-Z]\w*\.$|^use .*\.$", before[-80:]):
                return name
            return names[name]

        return word.sub(one, text)

    for path in texts(crates, (".antt", ".rt", ".edit")):
        text = read(path)
        is_function = path.endswith(".antt") and of_a_function(path)
        here = set()
        if is_function:
            here = {it[1] for it in re.finditer(r"^(?:pub )?(" + NAME + r") : (?:tie|goal)\.", text, re.M)}
        lines = []
        for line in text.split("\n"):
            mark = "--" if path.endswith(".antt") else "//"
            at = -1
            if path.endswith(".antt"):
                it = re.search(r"(^|\s)--(\s|$)", line)
                at = it.start() if it else -1
            elif path.endswith(".rt"):
                at = line.find(mark)
            code, note = (line, "") if at < 0 else (line[:at], line[at:])
            parts = re.split(r'("(?:[^"\\]|\\.)*")', code) if path.endswith(".rt") else [code]
            code = "".join(it if it.startswith('"') and path.endswith(".rt") else turn(it, here, is_function) for it in parts)
            note = re.sub(r"`[^`]*`", lambda it: turn(it[0], here, False), note)
            lines.append(code + note)
        new = "\n".join(lines)
        if new != text:
            with open(path, "w", encoding="utf-8") as f:
                f.write(new)
    for path in [os.path.join(top, "README.md"), *texts(os.path.join(top, "docs"), ".md")]:
        text = read(path)
        new = re.sub(r"`[^`\n]*`", lambda it: turn(it[0], set(), False), text)
        if new != text:
            with open(path, "w", encoding="utf-8") as f:
                f.write(new)
    print(f"{len(names)} names")


def before():
    path = "crates/cases/proofs/Case.antt"
    text = read(path)
    new = text.replace("kept_table.Reads as kept_table", "kept_table.Reads as keptTable").replace(" kept_table.Learnt ", " keptTable.Learnt ")
    with open(path, "w", encoding="utf-8") as f:
        f.write(new)


if __name__ == "__main__":
    before() if sys.argv[1:] == ["before"] else main(".")
