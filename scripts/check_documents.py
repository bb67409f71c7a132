#!/usr/bin/env python3
"""Checks what the documents quote: README.md, CLAIMS.md, CONTRIBUTING.md, docs/*.md and crates/*/README.md.

A problem, printed with file and line, is: a path, a file or a script that isn't there; `vp_x::name` that the crate
doesn't export; `Type::method` without such a method, variant or field; another name in `code` form that no source has;
a test, a case, a law or a clause of that name that isn't there; a line of a block "antt FILE" that FILE doesn't have;
a line over 120 columns; a document over its length; another version than CHANGELOG.md's newest in a place that names
one; and, if `rt` is on the path, that README.md doesn't name the kit in use. The script fails if there is a problem.
Run it at the top of the repository.

Names of others, as of libvpx or of an older version, are allowed in a document that lists them in a comment:
<!-- names of others: mb_row, ivfdec.c -->
"""

import bisect
import fnmatch
import itertools
import pathlib
import re
import shutil
import subprocess
import sys

sys.dont_write_bytecode = True
import sources

WIDTH = 120
LENGTHS = {
    "README.md": 120,
    "CLAIMS.md": 90,
    "CONTRIBUTING.md": 90,
    "docs/ARCHITECTURE.md": 150,
    "docs/TESTING.md": 110,
    "docs/EMBEDDING.md": 120,
    "docs/SERVER.md": 120,
    "docs/PERFORMANCE.md": 160,
    "docs/DECISIONS.md": 220,
    "crates/*/README.md": 25,
}
# Names of others, which no source of the repository has.
FOREIGN = re.compile(r"vpx_|AddressSanitizer$|GitHub$")
OTHERS = re.compile(r"<!-- names of others: (.*?) -->", re.S)
FOREIGN_TYPES = {"Rc", "Vec", "Box", "Global", "String", "Option", "Result", "TcpStream", "TcpListener", "Command"}
# The places that name the version, each with a pattern of one group.
VERSIONS = {
    "crates/vp_args/src/words.rt": r'\.version\("([^"]*)"\)',
    "man/vp8.1": r'^\.TH .*"vp8 ([^"]*)"',
    "bindings/python/pyproject.toml": r'^version = "([^"]*)"',
    "bindings/rust/Cargo.toml": r'^version = "([^"]*)"',
}
PLACEHOLDERS = {"NAME", "FILE", "FOLDER", "F", "IN", "OUT", "FILM", "N", "PATH", "KIT"}
SOURCES = (".rt", ".antt", ".edit", ".py", ".md", ".h", ".c", ".rs", ".txt", ".packets", ".commands", ".connections")
ONE, SEVERAL = r"(`\w+`)", r"((?:`\w+`(?:,? +and +|, +)?)+)"
TESTS = re.compile(rf"\b(?:test|case) +{ONE}|\b(?:tests|cases) +{SEVERAL}")
LAWS = re.compile(rf"\blaw +{ONE}|\blaws +{SEVERAL}")
CLAUSES = re.compile(rf"(?:`([\w:]+)`,? )?\(?(?:clause +{ONE}|clauses +{SEVERAL})")


class Tree:
    """What the repository has: its files, and the names of its sources."""

    def __init__(self):
        self.files = {
            str(path)
            for path in pathlib.Path(".").rglob("*")
            if not {"out", ".git", "__pycache__"} & set(path.parts) and path.is_file()
        }
        self.folders = {str(parent) for file in self.files for parent in pathlib.Path(file).parents}
        self.top = {file.split("/")[0] for file in self.files if "/" in file}
        self.crates = sources.crates()
        self.words, self.cases, self.tests, self.laws, self.definitions = set(), set(), set(), set(), set()
        self.members, self.clauses, self.exports = {}, {"": set()}, {}
        for file in self.files:
            self.words.update([pathlib.Path(file).stem, pathlib.Path(file).name])
            if pathlib.Path(file).suffix not in (".md", ".ivf", ".y4m") and file != "scripts/check_documents.py":
                self.read(file)
        for crate in self.crates:
            self.exports[crate] = sources.exported(crate)
            self.definitions.update(name for spec in sources.specs(crate) for name in spec.blocks)
            for item in sources.items(crate):
                self.take(item)

    def read(self, file):
        """Takes in the words of a file, its cases, its tests, and the bodies of its types."""
        text = pathlib.Path(file).read_text(errors="replace")
        if file.endswith((".rt", ".antt")):
            text = re.sub(r"^\s*(?:--|//).*", "", text, flags=re.M)
        self.words.update(re.findall(r"[^\W\d]\w*", text))
        if "/data/" in file:
            self.cases.update(re.findall(r"^case (\S+)", text, re.M))
        if file.endswith(".rt") or file.endswith(".rt.txt"):
            self.tests.update(re.findall(r"#\[test\]\s+(?:#\[[^\n]*\s+)*fn (\w+)", text))
            for name, body in re.findall(r"^(?:pub(?:\(crate\))? )?(?:enum|struct) (\w+)(.*?)^\}", text, re.M | re.S):
                self.members.setdefault(name, set()).update(re.findall(r"^    (?:pub )?(\w+)", body, re.M))
            for name, body in re.findall(r"^pub trait (\w+)(.*?)^\}", text, re.M | re.S):
                self.members.setdefault(name, set()).update(re.findall(r"^    ghost (\w+):", body, re.M))

    def take(self, item):
        """Takes in a function: its type's member, its clauses, and the law that it is."""
        if item.kind not in ("function", "export"):
            return
        full = f"{item.owner}::{item.name}" if item.owner else item.name
        self.members.setdefault(item.owner, set()).add(item.name)
        labels = {label for _, label, _ in item.clauses if label}
        self.clauses.setdefault(full, set()).update(labels)
        self.clauses[""].update(labels)
        if item.public and item.is_law:
            self.laws.add(item.name)

    def has_path(self, path, near):
        """Whether a path, or a pattern of paths, is there: from the top, the document's folder, crates/ or docs/."""
        path = re.sub(r"^(\.\./)+|^\./", "", path).rstrip("/")
        if "*" in path:
            known = self.files | self.folders
            return any(fnmatch.fnmatch(file, base + path) for base in ("", "crates/") for file in known)
        bases = ["", "crates/", "docs/", f"{near}/", f"{near}/src/", f"{near}/specs/"]
        if any(base + path in self.files or base + path in self.folders for base in bases):
            return True
        return "/" not in path and path in self.words

    def has_member(self, owner, name):
        """Whether `owner::name` is there: a crate's export, or a method, variant or field of a type."""
        if owner in self.crates:
            exports = self.exports[owner]
            return name in exports or any(name == item.name for item in sources.items(owner) if not exports)
        return name in self.members.get(owner, ()) or owner in FOREIGN_TYPES


def is_path(token, tree):
    """Whether a word of code is meant as a path of the repository."""
    if not re.fullmatch(r"[\w.*][\w.*/-]*|(?:\.\./)+[\w.*/-]+", token) or "out" in token.split("/"):
        return False
    parts = [part for part in token.split("/") if part not in ("", "..", ".")]
    if not parts or {re.sub(r"\..*", "", part) for part in parts} & PLACEHOLDERS:
        return False
    if len(parts) > 1:
        return parts[0] in tree.top or parts[0] in tree.crates or token.endswith(SOURCES)
    return token.endswith(SOURCES) and not token.startswith((".", "*"))


def problems_of_code(code, near, tree):
    """What is wrong with a piece of code in a line."""
    for token in re.split(r"[\s,;()]+", code):
        token = token.rstrip(".:")
        if is_path(token, tree) and not tree.has_path(token, near):
            yield f"{token}: no such path"
    for owner, several, name in re.findall(r"\b([A-Za-z]\w*)::(?:\{([^}]*)\}|(\w+))", code):
        for word in re.split(r"\s*,\s*", several or name):
            is_ours = owner in tree.crates or owner.startswith("vp_") or owner[0].isupper()
            if is_ours and not FOREIGN.match(owner) and not tree.has_member(owner, word.split("(")[0]):
                yield f"{owner}::{word}: no such name"
    word = re.sub(r"\(.*\)$", "", code)
    if re.fullmatch(r"[a-z][a-z0-9]*(?:_[a-z0-9]+)+|(?:[A-Z][a-z0-9]+){2,}", word) and not FOREIGN.match(word):
        if word not in tree.words:
            yield f"{word}: no source has such a name"


def problems_of_text(flat, near, tree):
    """What is wrong with the code, tests, laws and clauses that a text names, each with its place in it."""
    for match in re.finditer(r"`([^`\n]+)`", flat):
        yield from ((match.start(), problem) for problem in problems_of_code(match[1], near, tree))
    for match in TESTS.finditer(flat):
        for name in re.findall(r"`(\w+)`", match[1] or match[2]):
            if name not in tree.tests | tree.cases | tree.definitions and "_" in name:
                yield match.start(), f"{name}: no such test or case"
    for match in LAWS.finditer(flat):
        for name in re.findall(r"`(\w+)`", match[1] or match[2]):
            if name not in tree.laws and name.islower():
                yield match.start(), f"{name}: no such law"
    for match in CLAUSES.finditer(flat):
        owner = match[1] if match[1] in tree.clauses else re.sub(r"^vp\w*::", "", match[1] or "")
        owner = owner if owner in tree.clauses else ""
        for name in re.findall(r"`(\w+)`", match[2] or match[3]):
            if name not in tree.clauses[owner]:
                yield match.start(), f"{name}: no such clause" + (f" of {owner}" if owner else "")


def problems_of_blocks(lines, near, tree):
    """What is wrong in blocks of code, whose lines are emptied here: paths in commands, lines that a file lacks."""
    quoted, is_block = None, False
    for number, line in enumerate(lines):
        fence = re.match(r"\s*```(\w*) ?(\S*)", line)
        if fence:
            is_block, quoted = not is_block, fence[2] if fence[1] == "antt" and not is_block else None
            if quoted and quoted not in tree.files:
                yield number + 1, f"{quoted}: no such path"
        elif quoted in tree.files:
            if line not in pathlib.Path(quoted).read_text().split("\n"):
                yield number + 1, f"{quoted} has no such line"
        elif is_block or line.startswith("    "):
            for token in (token for token in line.split() if "/" in token):
                yield from ((number + 1, problem) for problem in problems_of_code(token, near, tree))
        if fence or is_block or line.startswith("    "):
            lines[number] = ""


def all_problems_of(path, tree):
    """Each problem of a document, with its line."""
    near, lines = str(path.parent), path.read_text().split("\n")
    yield from ((number, f"{len(line)} columns") for number, line in enumerate(lines, 1) if len(line) > WIDTH)
    limit = next((most for name, most in LENGTHS.items() if fnmatch.fnmatch(str(path), name)), None)
    if limit and len(lines) - 1 > limit:
        yield len(lines) - 1, f"{len(lines) - 1} lines, and at most {limit} are wanted"
    yield from problems_of_blocks(lines, near, tree)
    for number, line in enumerate(lines, 1):
        for link in re.findall(r"\]\(([^)#:]+?)(?:#[^)]*)?\)", line):
            if not (path.parent / link).exists():
                yield number, f"{link}: no such path"
    flat = re.sub(r"(?<!\n)\n(?!\n)", " ", "\n".join(lines))
    starts = list(itertools.accumulate((len(line) + 1 for line in lines), initial=0))
    for place, problem in problems_of_text(flat, near, tree):
        yield bisect.bisect(starts, place), problem


def problems_of(path, tree):
    """Each problem of a document, with its line, but for the names that it lists as those of others."""
    others = {word for names in OTHERS.findall(path.read_text()) for word in re.split(r"[\s,]+", names)}
    for number, problem in all_problems_of(path, tree):
        if re.split(r": no (?:source has )?such", problem)[0] not in others:
            yield number, problem


def problems_of_kit(path):
    """Where README.md doesn't name the kit in use among those that it names."""
    if not shutil.which("rt"):
        return
    kit = subprocess.run(["rt", "version"], capture_output=True, text=True).stdout.strip().split("\n")[0]
    text = path.read_text()
    if f"`{kit}`" not in text:
        yield text.count("\n"), f"no line has the kit in use, `{kit}`"


def problems_of_version():
    """Where a place that names the version has another one than CHANGELOG.md's newest."""
    newest = re.search(r"^## (\d+\.\d+\.\d+)", pathlib.Path("CHANGELOG.md").read_text(), re.M)[1]
    for file, pattern in VERSIONS.items():
        named = re.search(pattern, pathlib.Path(file).read_text(), re.M)
        if not named or named[1] != newest:
            yield f"{file}: the version is {named[1] if named else 'missing'}, and CHANGELOG.md's newest is {newest}"


def main():
    tree, count = Tree(), 0
    names = ["README.md", "CLAIMS.md", "CONTRIBUTING.md"]
    documents = [pathlib.Path(name) for name in names if name in tree.files]
    documents += sorted([*pathlib.Path("docs").glob("*.md"), *pathlib.Path("crates").glob("*/README.md")])
    for path in documents:
        found = [*problems_of(path, tree), *(problems_of_kit(path) if str(path) == "README.md" else ())]
        for number, problem in sorted(found):
            print(f"{path}:{number}: {problem}")
        count += len(found)
    for problem in problems_of_version():
        print(problem)
        count += 1
    print(f"{len(documents)} documents, {count} problems")
    return 1 if count else 0


if __name__ == "__main__":
    sys.exit(main())
