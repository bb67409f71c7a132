#!/usr/bin/env python3
"""dead_lemmas.py: prints each lemma of crates/*/proofs that nothing cites, and each name of another crate's or file's
definitions and lemmas that a `use` line takes and no file declares. Prints nothing and ends with 0 if there is none.

A lemma is cited by its word, in any file of src, specs or proofs but in its own declaration; so a word that also stands
for something else hides one that is dead. Takes two seconds, and proves nothing. Not proved: this script."""
import collections
import pathlib
import re
import sys

CRATES = pathlib.Path(__file__).resolve().parent.parent / "crates"
WORD = re.compile(r"[^\s(){}\[\],.:;]+")
USE = re.compile(r"^\s*(?:pub |ghost )*use ")
TAKEN = re.compile(r"^\s*(?:pub |ghost )*use Rattle\.(vp\w+)\.(proofs|specs)\.([\w.-]+)\.\{([^}]*)\}")
DECLARED = re.compile(r"^(?:abbrev |unfoldable )?(?:pub )?(?:abbrev |unfoldable )?([^\s:()={}]+) : ", re.M)
# The first word of a line that declares a name, or of one of its clauses.
CLAUSE = re.compile(r"^(?:(?:abbrev|unfoldable|pub) )*([^\s(){}\[\],.:;]+)(?=\s)", re.M)
# Files whose names the checker gives, or in which it cites names itself.
GIVEN = ("Answers.antt", "Invariants.antt", "Proof.antt", "Lib.antt")
# Modules that the checker writes.
WRITTEN = re.compile(r"^(declared|contracts)\b|\.(Goals|Given|Statement|Code)$")


def texts():
    """The files of all crates, without comments."""
    files = (it for part in ("src/**/*.rt", "specs/**/*.antt", "proofs/**/*.antt") for it in CRATES.glob(f"*/{part}"))
    return {file: re.sub(r"--.*", "", file.read_text()) for file in files}


def dead(files):
    """The lemmas that nothing cites. An import alone is no citation."""
    bodies = {file: "\n".join(it for it in text.split("\n") if not USE.match(it)) for file, text in files.items()}
    everywhere = collections.Counter(word for text in bodies.values() for word in WORD.findall(text))
    for file, text in sorted(bodies.items()):
        if "/proofs/" in str(file) and file.name not in GIVEN:
            own = collections.Counter(CLAUSE.findall(text))
            lost = (it for it in DECLARED.findall(text) if everywhere[it] <= own[it])
            yield from (f"{file.relative_to(CRATES)}: nothing cites {it}" for it in lost)


def missing(files):
    """The names that are taken from a file which does not declare them."""
    known = collections.defaultdict(frozenset, {file: frozenset(WORD.findall(text)) for file, text in files.items()})
    for file, text in sorted(files.items()):
        for found in filter(None, map(TAKEN.match, text.split("\n"))):
            crate, part, path, names = found.groups()
            source = CRATES / crate / part / (path.replace(".", "/") + ".antt")
            if not WRITTEN.search(path):
                lost = [it for it in (name.split(" as ")[0].strip() for name in names.split(",")) if it not in known[source]]
                yield from (f"{file.relative_to(CRATES)}: {crate}.{part}.{path} has no {it}" for it in lost)


def main():
    files = texts()
    found = [*dead(files), *missing(files)]
    print("\n".join(found), end="\n" if found else "")
    sys.exit(bool(found))


main()
