#!/usr/bin/env python3
"""Checks that docs/REFUSALS.md lists each public call that returns a `Result`, and that each clause of a row is one of
its call (if the row has several calls, of one of them). A row whose first cell is empty continues the row above it.
Run it at the top of the repository."""
import pathlib, re, sys

CALL = re.compile(r"\s*pub (?:const |extern \"C\" )?fn (\w+)")


def calls():
    """Each public function of a library: its name with its type, what it gives, and its clauses' names."""
    for path in sorted(pathlib.Path("crates").glob("*/src/*.rt")):
        if path.parts[1] in ("vp8", "vp_scripts", "vp_transcripts") or "test" in path.parts[1] + path.name:
            continue
        lines, owner = path.read_text().split("\n"), None
        for at, line in enumerate(lines):
            if impl := re.match(r"impl(?:<[^>]*>)? (?:[\w<>]+ for )?(\w+)", line):
                owner = impl[1]
            elif line == "}":
                owner = None
            elif found := CALL.match(line):
                ends = (k for k in range(at, len(lines)) if lines[k].strip() in ("{", "{}") or lines[k].endswith(";"))
                end = next(ends, at)
                head = "\n".join(lines[at : end + 1])
                gives = re.split(r"\b(?:ensures|requires)\b", head)[0].rpartition("->")[2].strip()
                name = f"{owner}::{found[1]}" if owner and line[0] == " " else found[1]
                yield name, gives, set(re.findall(r"ensures (\w+) \{", head))


def main():
    known, wrong = {}, []
    for name, gives, clauses in calls():
        known.setdefault(name, (gives, set()))[1].update(clauses)
    listed, clauses, calls_of_row = set(), set(), ""
    for line in open("docs/REFUSALS.md"):
        cells = [cell.strip() for cell in line.split("|")[1:-1]]
        if len(cells) != 4 or cells[0] and not cells[0].startswith("`"):
            continue
        if cells[0]:
            names = [name for name in re.findall(r"`([\w:]+)`", cells[0]) if name in known or "::" in name]
            names = names[:1] if " of `" in cells[0] else names
            listed.update(names)
            clauses = set().union(*(known.get(name, ("", set()))[1] for name in names))
            wrong += [f"{name}: no such call" for name in names if name not in known]
        calls_of_row = cells[0] or calls_of_row
        named = re.findall(r"`(\w+)`", cells[3])
        wrong += [f"{calls_of_row}: no clause {word}" for word in named if word not in clauses]
    is_result = {name for name, (gives, _) in known.items() if gives.startswith("Result")}
    wrong += [f"{name}: not listed" for name in is_result - listed]
    print("\n".join(sorted(wrong)) if wrong else f"{len(listed)} calls are listed with clauses that they have")
    return 1 if wrong else 0


sys.exit(main())
