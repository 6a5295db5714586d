#!/usr/bin/env python3
"""Brings the repository's own definitions and lemmas to one spelling: words in snake case, types and facts in camel case.

usage: tools/respell.py [FOLDER]     FOLDER has crates/ (the checkout by default), as the kit's port.py left it

nextPlace becomes next_place, and head-in head_in. Where a definition and a lemma would fall together, as headAt and head-at, the lemma
gets the ending _lem. Functions of src/, exported names, strings, inputs and outputs keep their names, and so do names of the kit.
It prints each name that falls together with another one, and was run once."""
import collections
import glob
import os
import re
import sys

ROOT = sys.argv[1] if len(sys.argv) > 1 else os.path.dirname(os.path.dirname(os.path.abspath(__file__)))
TOKEN = re.compile(r"[A-Za-z_][\w'-]*")
WORDS = {"pub", "abbrev", "unfoldable"}
USE = re.compile(r"^\s*(?:pub )?(?:ghost )?(?:pub )?use ([^\s{]+?)(?:\.\{([^}]*)\})?(?: as [\w'-]+)?;?\s*$", re.M)


def read(path):
    with open(path, encoding="utf-8") as file:
        return file.read()


def declared(text):
    """The names that a file of specs/ or proofs/ declares: what stands before a colon."""
    for line in text.split("\n"):
        at = (line + " ").find(" : ")
        if at < 0:
            continue
        names = line[:at].strip().split(" ")
        while names and names[0] in WORDS:
            names = names[1:]
        if names and all(TOKEN.fullmatch(n) for n in names):
            yield from names


def snake(name):
    if not re.match("[a-z]", name):
        return name
    parted = re.sub(r"(?<=[a-z0-9'])(?=[A-Z])", "_", name.replace("getD", "get_or"))
    return parted.replace("-", "_").lower()


def spellings(files):
    """Old name to new name, over all files; a lemma yields to a definition."""
    own = {n for path in files if not path.endswith("Proof.antt") for n in declared(read(path))}
    groups = collections.defaultdict(list)
    for name in sorted(own):
        groups[snake(name)].append(name)
    renamed = {}
    for new, olds in groups.items():
        first = [n for n in olds if re.search("[a-z0-9][A-Z]", n)] or [n for n in olds if n == new] or olds
        for old in olds:
            renamed[old] = new if old in first else new + "_lem"
    return {old: new for old, new in renamed.items() if old != new}


def foreign(text, crates):
    """The names that a file has from the kit."""
    names = set()
    for use in USE.finditer(text):
        path, group = use.group(1), use.group(2)
        root = path.split(".")
        if root[0] == "Rattle" and len(root) > 1 and root[1] in crates:
            continue
        names.update(n.split(" as ")[0].strip() for n in (group or "").split(","))
    return names


def turn(text, names):
    return TOKEN.sub(lambda m: names.get(m.group(), m.group()), text)


def turn_antt(text, names):
    out = []
    for line in text.split("\n"):
        at = re.search(r"(?:^|\s)--(?:\s|$)", line)
        cut = at.start() if at else len(line)
        out.append(turn(line[:cut], names) + re.sub(r"`[^`]*`", lambda m: turn(m.group(), names), line[cut:]))
    return "\n".join(out)


CLAUSE = re.compile(r"^\s*(?:requires|ensures|ghost)\b[^{]*\{")


def turn_rt(text, names):
    """Only ghost use lines and clauses: in the code itself no name changes."""
    out, deep = [], 0
    for line in text.split("\n"):
        if deep or CLAUSE.match(line) or line.startswith("ghost use "):
            out.append(turn(line, names))
            if not line.startswith("ghost use "):
                deep += line.count("{") - line.count("}")
        else:
            out.append(line)
    return "\n".join(out)


def main():
    crates = set(os.listdir(os.path.join(ROOT, "crates")))
    antt = sorted(glob.glob(os.path.join(ROOT, "crates/*/specs/**/*.antt"), recursive=True))
    antt += sorted(glob.glob(os.path.join(ROOT, "crates/*/proofs/**/*.antt"), recursive=True))
    names = spellings(antt)
    rust = sorted(glob.glob(os.path.join(ROOT, "crates/*/src/**/*.rt"), recursive=True))
    for path in antt + rust + sorted(glob.glob(os.path.join(ROOT, "crates/*/must-fail/*.edit"))):
        text = read(path)
        kit = foreign(text, crates)
        mine = {old: new for old, new in names.items() if old not in kit}
        seen = collections.defaultdict(set)
        for token in set(TOKEN.findall(text)):
            seen[mine.get(token, token)].add(token)
        for new, olds in seen.items():
            if len(olds) > 1 and not path.endswith((".rt", ".edit")):
                print(f"together: {os.path.relpath(path, ROOT)}: {' '.join(sorted(olds))}")
        if path.endswith(".rt"):
            new = turn_rt(text, mine)
        elif path.endswith(".edit"):
            new = "\n".join(turn(line, mine) if line.startswith(("old: ", "new: ")) else line for line in text.split("\n"))
        else:
            new = turn_antt(text, mine)
        if new != text:
            with open(path, "w", encoding="utf-8") as file:
                file.write(new)


if __name__ == "__main__":
    main()
