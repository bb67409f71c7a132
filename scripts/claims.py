#!/usr/bin/env python3
"""What the public contracts rest on, a door at a time: how many lines of definitions, in how many files of specs/.

    claims.py [--door NAME [-v | --text]] [--write]

Prints a table of the doors. `--door NAME` prints the functions of one door with their lines, and the files of its
definitions in reading order, each with its number of reached lines and its first comment. `-v` adds their names.
`--text` prints the definitions themselves in that order, with their comments, without what the door doesn't reach, and
with the declarations of the types of Rust that they use. `--write` renews the table in CLAIMS.md.

It fails if CLAIMS.md doesn't have the table, if a public contract reaches a file whose first comment begins with
`Private to the crate`, if no public contract reaches a file without those words, if a law isn't exported, and if a
door's function doesn't exist. Run it at the top of the repository.

Counted are the definitions that a contract names, and all that these name. A contract is the clauses of a function, and
the `ghost Value` of the types in its signature. Comments and blank lines aren't counted, nor are the declared types of
Rust, the standard library and the kit's crates.
"""

import argparse
import pathlib
import re
import signal
import sys
import textwrap

sys.dont_write_bytecode = True
import sources

# Each door, and its functions: CRATE::FUNCTION, CRATE::TYPE for all public methods of a type, CRATE::* for all that a
# crate exports but its laws (of a C library the `extern "C"` functions). A crate that isn't there is skipped.
DOORS = {
    "Decoder": ["vp_decode::Decoder"],
    "decode_all": ["vp_stream::decode_all"],
    "Encoder": ["vp_encode::Encoder"],
    "encode_all": ["vp_encode::encode_all", "vp_encode::encode_all_watched"],
    "Hub": ["vp_hub::Hub"],
    "serve_one": ["vp_hub::serve_one"],
    "server loop": ["vp_serve::*"],
    "C library": ["vp8_c::*"],
    "command": ["vp_app::command"],
}
# What a type is seen as, or gives, without a function: for all public contracts taken together.
GHOSTS = ("Value", "output", "from_gives")
PAGE = pathlib.Path("CLAIMS.md")
BEGIN, END = "<!-- claims.py -->\n", "<!-- end -->"


class Library:
    """All crates with definitions: their items, and what they export."""

    def __init__(self):
        self.crates = [name for name in sources.crates() if self.is_library(name)]
        self.items, self.exports, self.types = {}, {}, {}
        for crate in self.crates:
            self.exports[crate] = sources.exported(crate)
            self.items[crate] = [item for item in sources.items(crate) if "test" not in item.path.name]
            for item in self.items[crate]:
                if item.owner in self.exports[crate] or (item.owner and item.kind == "Value"):
                    self.types.setdefault(item.owner, []).append(item)

    def is_library(self, crate):
        """Whether a crate has definitions, and is no crate of tests."""
        return pathlib.Path(f"crates/{crate}/specs").is_dir() and not crate.endswith("_tests")

    def is_public(self, item):
        """Whether callers of the crate can name an item."""
        if item.kind == "export":
            return True
        if item.kind != "function":
            return item.kind in GHOSTS and item.owner in self.exports[item.crate]
        return item.public and (item.owner or item.name) in self.exports[item.crate]

    def seen_types(self, item):
        """What the types of a signature are seen as; a name is the type that the file uses, or the crate's own."""
        text = item.path.read_text()
        for name in set(re.findall(r"\b[A-Z]\w*", item.signature)) | {item.owner}:
            known = [other for other in self.types.get(name, []) if other.kind == "Value" or other.trait == name]
            used = {other.crate for other in known if re.search(rf"use {other.crate}::[^;]*\b{name}\b", text)}
            yield from (other for other in known if other.crate in (used or {item.crate}))

    def door(self, entries):
        """The items of a door; the entries that aren't there."""
        found, missing = [], []
        for crate, _, name in (entry.partition("::") for entry in entries):
            if crate not in self.items:
                continue
            own = [item for item in self.items[crate] if self.is_public(item) and item.kind in ("function", "export")]
            if name == "*":
                exports = [item for item in own if item.kind == "export"]
                here = exports or [item for item in own if not item.is_law]
            else:
                here = [item for item in own if name in (item.owner, "" if item.owner else item.name)]
            missing += [] if here else [f"{crate}::{name}"]
            found += here
        return found, missing

    def definitions(self, items):
        """What items rest on, each file with its reached definitions."""
        starts = set()
        for item in items:
            for each in [item, *self.seen_types(item)]:
                starts |= each.definitions()
        return sources.reached(starts)

    def reached_by(self, path):
        """The public items whose contracts reach a file."""
        every = (item for items in self.items.values() for item in items if self.is_public(item))
        return ", ".join(f"{item.path}:{item.line}" for item in every if path in self.definitions([item]))

    def show(self, name, found, is_long):
        """Prints a door's functions, and its files in reading order."""
        for item in self.door(DOORS[name])[0]:
            print(f"{item.path}:{item.line}: {item.owner and item.owner + '::'}{item.name}")
        for spec in (spec for crate in self.crates for spec in sources.specs(crate) if spec.path in found):
            print(f"{sum(map(len, found[spec.path].values())):5d}  {spec.path}  {spec.comment}")
            if is_long:
                print("      ", ", ".join(found[spec.path]))
        print("{} lines of definitions in {} files".format(*size(found)))

    def print_text(self, found):
        """Prints the definitions themselves, and before the first use of each type of Rust its declaration."""
        declared = set()
        for spec in (spec for crate in self.crates for spec in sources.specs(crate) if spec.path in found):
            text = "\n\n".join(spec.text(found[spec.path]))
            print(f"==== {spec.path}\n\n" + "\n".join(f"-- {line}" for line in textwrap.wrap(spec.comment, 117)))
            for path, name, body in spec.declared(text):
                if body and (path, name) not in declared:
                    print(f"\n-- {name} of {path}", *(f"--   {line}" for line in body), sep="\n")
                declared.add((path, name))
            print(f"\n{text}\n")


def size(found):
    """The number of lines, and of files."""
    return sum(len(body) for names in found.values() for body in names.values()), len(found)


def beside(found, others):
    """What is found, without the definitions of others."""
    rest = {path: {n: b for n, b in names.items() if n not in others.get(path, {})} for path, names in found.items()}
    return {path: names for path, names in rest.items() if names}


def together(several):
    """All definitions of several findings."""
    found = {}
    for each in several:
        for path, names in each.items():
            found.setdefault(path, {}).update(names)
    return found


def table(doors, public, laws):
    """The table of doors, in Markdown."""
    rows = [(name if " " in name else f"`{name}`", found) for name, found in doors.items()]
    union = together(doors.values())
    rest = beside(public, together([union, laws]))
    rows += [("all doors", union), ("laws alone, beside the doors", beside(laws, union))]
    rows += [("other public functions alone, beside both", rest)]
    lines = [f"| {name} | {lines:,} | {files} |" for name, found in rows for lines, files in [size(found)]]
    return "\n".join(["| door | lines | files |", "|---|---|---|", *lines]) + "\n"


def faults(library, public):
    """What is wrong with the sources."""
    for item in (item for items in library.items.values() for item in items):
        if item.path.name == "laws.rt" and item.public and not item.owner and not library.is_public(item):
            yield f"{item.path}:{item.line}: {item.name} is a law that the crate doesn't export"
    for crate in library.crates:
        for spec in sources.specs(crate):
            if spec.is_inside and spec.path in public:
                names, by = ", ".join(sorted(public[spec.path])), library.reached_by(spec.path)
                yield f"{spec.path} is inside the crate, and public contracts reach {names}: {by}"
            elif not spec.is_inside and spec.path not in public:
                yield f"{spec.path}: no public contract reaches it, and it isn't called `Private to the crate`"


def block_fault(text, write):
    """What is wrong with the table of the page, which is renewed if that is asked for."""
    page = PAGE.read_text() if PAGE.is_file() else ""
    before, begin, rest = page.partition(BEGIN)
    quoted, end, after = rest.partition(END)
    if not begin or not end:
        return [f"{PAGE}: no block between `{BEGIN.strip()}` and `{END}`"]
    if write:
        PAGE.write_text(before + BEGIN + text + END + after)
    return [] if write or quoted == text else [f"{PAGE}: the table isn't what claims.py prints (--write renews it)"]


def main():
    parser = argparse.ArgumentParser(description=__doc__.split("\n")[0])
    parser.add_argument("--door", choices=DOORS)
    parser.add_argument("-v", action="store_true", help="name the definitions too")
    parser.add_argument("--text", action="store_true", help="print the definitions themselves")
    parser.add_argument("--write", action="store_true", help=f"renew the table in {PAGE}")
    words = parser.parse_args()
    library, doors, wrong = Library(), {}, []
    for name, entries in DOORS.items():
        items, missing = library.door(entries)
        wrong += [f"the door {name}: {entry} isn't exported" for entry in missing]
        if items:
            doors[name] = library.definitions(items)
    if words.door and words.text:
        library.print_text(doors.get(words.door, {}))
        return 0
    if words.door:
        library.show(words.door, doors.get(words.door, {}), words.v)
        return 0
    every = [item for items in library.items.values() for item in items if library.is_public(item)]
    laws = library.definitions([item for item in every if item.kind == "function" and item.is_law])
    public = library.definitions(every)
    text = table(doors, public, laws)
    print(text, end="")
    wrong += block_fault(text, words.write) + list(faults(library, public))
    print("\n".join(wrong))
    return 1 if wrong else 0


if __name__ == "__main__":
    signal.signal(signal.SIGPIPE, signal.SIG_DFL)
    sys.exit(main())
