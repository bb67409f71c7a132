"""The sources of the repository, as claims.py, definitions.py and check_documents.py read them: the crates in reading
order, the definitions of spec files with what they use, and the functions of .rt files with their clauses.

It reads text by its layout (as `rt fmt` leaves it), not by a grammar. Paths are relative to the top of the repository.
"""

import pathlib
import re
from dataclasses import dataclass, field

WORD = re.compile(r"(?:([^\W\d]\w*)\.)?([^\W\d][\w'-]*)")
USE = re.compile(r"use Rattle\.([\w.]+?)(?:\.\{([^}]*)\})?(?: as (\w+))?;?$")
HEAD = re.compile(r"(?:(?:abbrev|unfoldable) )?(?:pub )?(?:record |data )?(◌[^\s]*◌|[^\W\d][\w'-]*)[ :(]")
INFIX = re.compile(r".* >>= \w+ = ")  # an equation of an operator begins with its left argument
DECLARED = re.compile(r"use Rattle\.(\w+)\.specs\.declared\.([\w.]+)\.(\w+)\.\{\3")
FUNCTION = re.compile(r'( *)(pub(?:\(\w+\))? )?(?:const |unsafe )*(extern "C" )?fn (\w+)')
CLAUSE = re.compile(r"(requires|ensures)\*?(?: (\w+))? \{(.*)", re.S)


def crates():
    """The crates of crates.txt, each after those that it depends on."""
    needs = {}
    for line in open("crates.txt"):
        if line.strip() and not line.startswith("#"):
            name, _, others = line.partition(":")
            needs[name.split()[0]] = others.split()
    return in_order(needs, needs)


def in_order(names, needs):
    """The names in the given order, but each after those that it needs."""
    found = []

    def visit(name):
        if name in names and name not in found and name not in open_names:
            open_names.append(name)
            for other in needs.get(name, ()):
                visit(other)
            found.append(name)

    open_names = []
    for name in names:
        visit(name)
    return found


@dataclass
class Imports:
    """What words mean: those that are imported (with their file and their name there), and modules by their alias."""

    words: dict = field(default_factory=dict)
    modules: dict = field(default_factory=dict)

    def read(self, line):
        """Takes in a line that imports definitions; whether it is one."""
        use = USE.match(line.strip().removeprefix("ghost "))
        if not use:
            return False
        module, names, alias = use.groups()
        crate, _, inner = module.partition(".specs.")
        path = pathlib.Path(f"crates/{crate}/specs/{inner.replace('.', '/')}.antt")
        if not inner or inner.startswith("declared"):
            return True
        if names is None:
            self.modules[alias or inner.rpartition(".")[2]] = path
        for word in (names or "").split(","):
            name, _, other = word.strip().partition(" as ")
            self.words[other or name] = (path, name)
        return True

    def resolve(self, text):
        """Each definition of another file that a text names."""
        for before, word in WORD.findall(text):
            if before in self.modules:
                yield self.modules[before], word
            else:
                yield from (self.words[w] for w in (before, word) if w in self.words)
        if ">>=" in text or re.search(r"\bdo\b", text):
            yield from [self.words["◌>>=◌"]] if "◌>>=◌" in self.words else []


class Spec:
    """A spec file: its first comment, and each definition's lines (without comments and blank lines)."""

    known = {}

    def __init__(self, path):
        self.path, self.blocks, self.imports, self.owners = path, {}, Imports(), {}
        self.lines = path.read_text().split("\n")
        head = next((k for k, line in enumerate(self.lines) if not line.startswith("--")), len(self.lines))
        self.comment = " ".join(line[2:].strip() for line in self.lines[:head])
        block = name = None
        for line in self.lines:
            if not line or line.startswith("--"):
                block = None
            elif self.imports.read(line) or line.startswith(("use ", "infix", "pub mod")):
                continue
            else:
                head = None if line.startswith(" ") else HEAD.match(line)
                if head and (" : " in line or head[1] not in self.blocks and not INFIX.match(line)):
                    name, block = head[1], self.blocks.setdefault(head[1], [])
                if block is not None:
                    block.append(line)
                    variant = re.match(r"  (\w+) :", line)
                    if variant and block[0].startswith(("pub data", "data")):
                        self.owners[variant[1]] = name

    @classmethod
    def at(cls, path):
        """The spec file of a path, read once, or None if there is no such file."""
        if path not in cls.known:
            cls.known[path] = cls(path) if path.is_file() else None
        return cls.known[path]

    @property
    def is_inside(self):
        return self.comment.startswith("Private to the crate")

    def text(self, names):
        """The definitions of these names, with the comments and the heading above each, in the file's order."""
        heading = []
        for part in "\n".join(self.lines).strip().split("\n\n")[1:]:
            heads = {head[1] for head in map(HEAD.match, part.split("\n")) if head}
            heading = [part] if part.startswith("-- ----") and not heads else heading
            if heads & set(names):
                yield "\n\n".join([*heading, part])
                heading = []

    def declared(self, text):
        """The types of Rust that a text of this file names, each with its file and its declaration there."""
        for crate, module, name in DECLARED.findall("\n".join(self.lines)):
            path = pathlib.Path(f"crates/{crate}/src/{module.replace('.', '/')}.rt")
            if path.is_file() and re.search(rf"\b{name}\b", text):
                yield path, name, declaration(path.read_text().split("\n"), name)

    def uses(self, name):
        """The definitions that one definition names, in this file and in others."""
        text = "\n".join(self.blocks[name])
        words = {word for pair in WORD.findall(text) for word in pair if word}
        if ">>=" in text or re.search(r"\bdo\b", text):
            words.add("◌>>=◌")
        own = {self.owners.get(word, word) for word in words} & set(self.blocks)
        return {(self.path, word) for word in own - {name}} | set(self.imports.resolve(text))


def declaration(lines, name):
    """The lines that declare a type of Rust, with the comments above it."""
    at = next((k for k, line in enumerate(lines) if re.match(rf"pub(\(crate\))? (struct|enum) {name}\b", line)), None)
    if at is None:
        return []
    first = next(k for k in range(at, -1, -1) if k == 0 or not lines[k - 1].startswith(("///", "#[")))
    last = next(k for k in range(at, len(lines)) if lines[k] == "}" or lines[k].endswith((";", "{}")))
    return [line for line in lines[first : last + 1] if not line.startswith("#[")]


def specs(crate):
    """The spec files of a crate, each after those of the crate that it imports from; not the list of modules."""
    paths = sorted(pathlib.Path(f"crates/{crate}/specs").glob("*.antt"))
    found = {path: Spec.at(path) for path in paths if path.name != "Lib.antt"}
    needs = {path: sorted(imported(spec)) for path, spec in found.items()}
    return [found[path] for path in in_order(list(found), needs)]


def imported(spec):
    """The files that a spec file imports from."""
    return {path for path, _ in spec.imports.words.values()} | set(spec.imports.modules.values())


def reached(starts):
    """All definitions that some of them rest on, themselves included: those of each file, with their lines."""
    found, waiting = {}, list(starts)
    while waiting:
        path, name = waiting.pop()
        spec = Spec.at(path)
        name = spec.owners.get(name, name) if spec else name
        if spec and name in spec.blocks and name not in found.setdefault(path, {}):
            found[path][name] = spec.blocks[name]
            waiting += spec.uses(name)
    return {path: names for path, names in found.items() if names}


@dataclass
class Item:
    """A function, or a `ghost` of an impl (then `kind` is its name, as `Value`)."""

    crate: str
    path: pathlib.Path
    line: int
    kind: str
    owner: str
    trait: str
    name: str
    public: bool
    signature: str
    clauses: list
    imports: Imports

    @property
    def is_law(self):
        """Whether it gives nothing and takes nothing that it could change: its contract is a law."""
        return self.path.name == "laws.rt" and "->" not in self.signature and "&mut" not in self.signature

    def definitions(self):
        """The definitions that its clauses name."""
        return {found for _, _, text in self.clauses for found in self.imports.resolve(text)}


def parts_of_impl(line):
    """The type and the trait of the first line of an impl."""
    text, depth = line.partition("impl")[2], 0
    if text.startswith("<"):
        for at, letter in enumerate(text):
            depth += {"<": 1, ">": -1}.get(letter, 0)
            if depth == 0:
                text = text[at + 1 :]
                break
    before, _, after = text.partition(" for ")
    first = lambda part: re.match(r"[\s&]*(?:[\w]+::)*(\w*)", part)[1]
    return (first(after), first(before)) if after else (first(before), "")


def clauses_of(head):
    """The clauses of a function's head: each its kind, its label and its words."""
    parts = re.split(r"^\s*(?=(?:requires|ensures)\b)", head, flags=re.M)[1:]
    found = [CLAUSE.match(part) for part in parts]
    return [(m[1], m[2] or "", re.sub(r"//.*", "", m[3])) for m in found if m]


def items(crate):
    """The functions of a crate's .rt files, and the ghosts of its impls."""
    for path in sorted(pathlib.Path(f"crates/{crate}/src").glob("*.rt")):
        lines = path.read_text().split("\n")
        owner = trait = ""
        top, scope, at = Imports(), Imports(), 0
        while at < len(lines):
            line, end = lines[at], at
            if line.startswith(("impl", "unsafe impl", "pub trait", "trait")):
                named = re.match(r"(?:pub )?trait (\w+)", line)
                owner, trait = (named[1], named[1]) if named else parts_of_impl(line)
                scope = Imports(dict(top.words), dict(top.modules))
            elif line == "}":
                owner, trait, scope = "", "", top
            elif not line.startswith(" ") and top.read(line):
                scope = top
            elif line.startswith("    ") and scope.read(line):
                pass
            elif ghost := re.match(r"    ghost (\w+) =", line):
                while "".join(lines[at : end + 1]).count("{") > "".join(lines[at : end + 1]).count("}"):
                    end += 1
                text = "\n".join(lines[at : end + 1]).partition("=")[2]
                yield Item(crate, path, at + 1, ghost[1], owner, trait, "", True, "", [("ghost", "", text)], scope)
            elif function := FUNCTION.match(line):
                stop = re.compile(rf"{function[1]}(\{{|\{{\}}|.*[^\s].* \{{|.*\{{\}}|.*;)$")
                while not stop.match(lines[end]) or clause_is_open(lines[at : end + 1]):
                    end += 1
                head = "\n".join(lines[at : end + 1])
                signature = re.split(r"^\s*(?:requires|ensures)\b", head, flags=re.M)[0]
                kind = "export" if function[3] else "function"
                public = (function[2] or "").startswith("pub ") or bool(trait)
                yield Item(
                    crate, path, at + 1, kind, owner, trait, function[4], public, signature, clauses_of(head), scope
                )
            at = max(at, end) + 1


def clause_is_open(lines):
    """Whether a clause among these lines isn't closed yet: the brace of a body closes later, and is the last letter."""
    text = "\n".join(lines).rstrip()
    text = text[:-1] if text.endswith("{") and not re.search(r"(ensures|requires)\s*\w*\s*\{$", text) else text
    return text.count("{") > text.count("}") or text.count("(") > text.count(")")


def exported(crate):
    """The names that a crate's lib.rt exports."""
    path, names = pathlib.Path(f"crates/{crate}/src/lib.rt"), set()
    text = path.read_text() if path.is_file() else ""
    for _, several, one in re.findall(r"^pub use ([\w:]+)::(?:\{([^}]*)\}|([\w ]+));", text, re.M):
        for word in (several or one).split(","):
            names.add(word.strip().rpartition(" as ")[2])
    return names - {""}
