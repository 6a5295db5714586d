"""Draws crates.txt, crates by level and family, in docs/ARCHITECTURE.md and README.md. With --check it only exits 1 if one is out of date."""
import pathlib
import sys

ROOT = pathlib.Path(__file__).resolve().parent.parent
PAGE = ROOT / "docs" / "ARCHITECTURE.md"
README = ROOT / "README.md"
MARKS = ("<!-- docs/levels.py draws this -->\n", "<!-- to here -->")
HOLDS = {
    "words": "little-endian words read from bytes",
    "trace": "the writer of trace lines",
    "ring": "two-way rings in a table: their laws, the code that links and unlinks, the judge of rings",
    "model": "a model's counts, the kinds of numbers and the refusals; what lent tables spell, their judge, the fresh model",
    "sheet": "model sheets: what their bytes say, which are accepted, the layout check",
    "axis": "notices in a list and the ring that spells them; an axis with one entry for each tick, its table, procedures and laws",
    "simset": "chapter 14's set procedures on a table of links",
    "simulation": "chapter 14's sequencing procedures, on lists of notices and on tables",
    "accum": "the update of an accumulator, and the public calls of accum",
    "machine": "the plain machine that runs are held to, on lists alone",
    "simula": "the public calls and queries of simset and simulation, lent a whole model",
    "run": "runs of sheets on lent tables, that they follow the machine, and the program behind `./run`",
    "calls": "a program for tests: any public call on any lent tables",
    "host": "the edge for C hosts, `nodbrize_run`",
}
HEAD = """# Architecture

This page is made by `python3 docs/levels.py` from `crates.txt`, and must be made again after `crates.txt` changes; the gate checks it.

A crate is built on crates of lower levels alone: level 0 on nothing, any other stands one above the highest that it is built on. A column
is a family: `_laws` in the column `ring` is the crate `ring_laws`. `_laws` hold definitions and laws, `_judge` and `_check` test what is
lent, and the others, `_axis`, `_step`, `_update` and so on, are parts of code; a family's own name is its code, or all of it.
"""


def drawn():
    lines = [line.split("#")[0] for line in (ROOT / "crates.txt").read_text().splitlines()]
    # a name may have words behind it, as staticlib
    built_on = {name.split()[0]: deps.split() for name, deps in (line.split(":") for line in lines if line.strip())}
    level = {}

    def of(name):
        if name not in level:
            level[name] = max((of(dep) + 1 for dep in built_on[name] if dep in built_on), default=0)
        return level[name]

    cells = {}
    for name in sorted(built_on, key=of):
        family = name.split("_")[0]
        cells.setdefault(family, {}).setdefault(level[name], []).append(name[len(family):] or name)
    width = {f: max(len(s) for s in [f] + sum(at.values(), [])) for f, at in cells.items()}
    rows = ["level  " + "  ".join(f.ljust(width[f]) for f in cells), ""]
    for n in range(max(level.values()), -1, -1):
        for i in range(max(len(at.get(n, [])) for at in cells.values())):
            row = [(at.get(n, [])[i:] or [""])[0].ljust(width[f]) for f, at in cells.items()]
            rows.append(str(n if i == 0 else "").rjust(5) + "  " + "  ".join(row))
    picture = "\n".join(row.rstrip() for row in rows)
    words = "\n".join(f"- `{f}`: {HOLDS.get(f, 'say in docs/levels.py what this family holds')}" for f in cells)
    page = f"{HEAD}\n```\n{picture}\n```\n\nWhat each family holds:\n\n{words}\n"
    before, rest = README.read_text().split(MARKS[0])
    readme = f"{before}{MARKS[0]}```\n{picture}\n```\n{MARKS[1]}{rest.split(MARKS[1])[1]}"
    return {PAGE: page, README: readme}


if sys.argv[1:] == ["--check"]:
    sys.exit(any(not file.exists() or file.read_text() != text for file, text in drawn().items()))
for file, text in drawn().items():
    file.write_text(text)
