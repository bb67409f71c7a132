#!/usr/bin/env python3
"""Writes docs/DEFINITIONS.md: what the contracts' definitions are, from the comments of the spec files themselves.

    definitions.py [--check]

Renews the two blocks of the page. `tables` goes from the chapters of RFC 6386 to spec files (by the chapters that their
comments name, as "RFC 6386, chapters 9.3 and 9.4" or "chapter 9.5"), and from the syntax elements of chapter 19 to
definitions (by scripts/syntax_elements.txt). `files` has each spec file in reading order, with its lines of definitions
and its first comment. All else in the page is written by hand.

`--check` writes nothing, and fails if the page isn't up to date. The script always fails if a chapter has neither a
file nor a reason, if a file has no first comment, and if a syntax element's definition isn't in its file. Run it at the
top of the repository.
"""

import pathlib
import re
import sys
import textwrap

sys.dont_write_bytecode = True
import claims
import sources

PAGE = pathlib.Path("docs/DEFINITIONS.md")
ELEMENTS = pathlib.Path("scripts/syntax_elements.txt")
BEGIN, END = "<!-- definitions.py: {} -->\n", "<!-- end -->"
WIDTH = 120

CHAPTERS = """
1 Introduction
2 Format Overview
3 Compressed Frame Types
4 Overview of Compressed Data Format
5 Overview of the Decoding Process
6 Description of Algorithms
7.1 Underlying Theory of Coding
7.2 Practical Algorithm Description
7.3 Actual Implementation
8.1 Tree Coding Implementation
8.2 Tree Coding Example
9.1 Uncompressed Data Chunk
9.2 Color Space and Pixel Type
9.3 Segment-Based Adjustments
9.4 Loop Filter Type and Levels
9.5 Token Partition and Partition Data Offsets
9.6 Dequantization Indices
9.7 Refresh Golden Frame and Altref Frame
9.8 Refresh Last Frame Buffer
9.9 DCT Coefficient Probability Update
9.10 Remaining Frame Header Data (Non-Key Frame)
9.11 Remaining Frame Header Data (Key Frame)
10 Segment-Based Feature Adjustments
11.1 mb_skip_coeff
11.2 Luma Modes
11.3 Subblock Mode Contexts
11.4 Chroma Modes
11.5 Subblock Mode Probability Table
12.1 mb_skip_coeff
12.2 Chroma Prediction
12.3 Luma Prediction
13.1 MB without Non-Zero Coefficient Values
13.2 Coding of Individual Coefficient Values
13.3 Token Probabilities
13.4 Token Probability Updates
13.5 Default Token Probability Table
14.1 Dequantization
14.2 Inverse Transforms
14.3 Implementation of the WHT Inversion
14.4 Implementation of the DCT Inversion
14.5 Summation of Predictor and Residue
15.1 Filter Geometry and Overall Procedure
15.2 Simple Filter
15.3 Normal Filter
15.4 Calculation of Control Parameters
16.1 Intra-Predicted Macroblocks
16.2 Inter-Predicted Macroblocks
16.3 Mode and Motion Vector Contexts
16.4 Split Prediction
17.1 Coding of Each Component
17.2 Probability Updates
18.1 Bounds on, and Adjustment of, Motion Vectors
18.2 Prediction Subblocks
18.3 Sub-Pixel Interpolation
18.4 Filter Properties
19.1 Uncompressed Data Chunk
19.2 Frame Header
19.3 Macroblock Data
20 Attachment One: Reference Decoder Source Code
21 Security Considerations
"""
WITHOUT_DEFINITION = {
    "1": "introduction",
    "3": "introduction to key and inter frames; the rules are in 9.1 and 9.7",
    "4": "overview; the rules are in 7 to 9 and 13",
    "6": "conventions of the text and of its C code",
    "7.1": "theory; what it leads to is 7.2",
    "12.1": "says again what 11.1 says",
    "18.4": "remarks on the filters; the rules are in 18.3",
    "19.1": "a summary of 9.1; see the syntax elements below",
    "20": "the reference decoder's source; definitions follow the text",
    "21": "advice; that no packet does harm is proved of every function",
}

NUMBER = r"\d+(?:\.\d+)?"
CITED = re.compile(rf"(?:RFC (\d+), )?(?:chapters? )({NUMBER}(?:(?:, and |, | and | to ){NUMBER})*)")
SHORT = re.compile(rf"RFC (6386), ({NUMBER}(?:(?:, and |, | and | to ){NUMBER})*)")


def chapters_in(spec):
    """The chapters of RFC 6386 that the comments of a spec file name."""
    text = re.sub(r"\s+", " ", " ".join(line.strip(" -") for line in spec.lines if line.lstrip().startswith("--")))
    found, standard = set(), "6386"
    for match in sorted([*CITED.finditer(text), *SHORT.finditer(text)], key=lambda it: it.start()):
        standard = match[1] or ("6386" if "RFC 6386" in text else standard)
        if standard == "6386":
            for part in re.split(r", and |, | and ", match[2]):
                found |= set(span(*part.split(" to ")))
    return found


def span(first, last=None):
    """The chapters from the first to the last: `9.2 to 9.4` are 9.2, 9.3 and 9.4."""
    if last is None:
        return [first]
    before, _, low = first.rpartition(".")
    high = last.rpartition(".")[2]
    return [f"{before}.{k}" if before else str(k) for k in range(int(low), int(high) + 1)]


def short(spec):
    """A spec file's path below crates/."""
    return str(spec.path.relative_to("crates"))


def rows(cells, last):
    """Rows of a table whose last cell is a list: it continues in further rows if one is too wide."""
    found, line = [], []
    for name in last:
        if line and len(" | ".join(["|", *cells, ", ".join(line + [name])])) + 2 > WIDTH:
            found.append((cells, line))
            cells, line = [""] * len(cells), []
        line.append(name)
    found.append((cells, line))
    return [f"| {' | '.join([*c, ', '.join(names)])} |" for c, names in found]


def chapter_table(specs, wrong):
    """From chapters to files. A chapter that no comment names has the files that name its whole."""
    cited = {}
    for spec in specs:
        for chapter in chapters_in(spec):
            cited.setdefault(chapter, []).append(f"`{short(spec)}`")
    lines = ["| RFC 6386 | title | defined in |", "|---|---|---|"]
    for line in CHAPTERS.strip().split("\n"):
        number, _, title = line.partition(" ")
        files = cited.get(number)
        if not files and number in WITHOUT_DEFINITION:
            lines.append(f"| {number} | {title} | ({WITHOUT_DEFINITION[number]}) |")
        elif files := files or cited.get(number.partition(".")[0]):
            lines += rows([number, title], files)
        else:
            wrong.append(f"RFC 6386, chapter {number}, {title}: no spec file names it")
    return lines


def element_table(wrong):
    """From syntax elements to definitions."""
    lines = ["| chapter | syntax element | definition | file |", "|---|---|---|---|"]
    for number, line in enumerate(ELEMENTS.read_text().split("\n"), 1):
        if line and not line.startswith("#"):
            elements, file, name = line.split(" | ")
            chapter, _, elements = elements.partition(" ")
            spec = sources.Spec.at(pathlib.Path("crates") / file)
            if not spec or name not in spec.blocks:
                wrong.append(f"{ELEMENTS}:{number}: {name} isn't defined in crates/{file}")
            lines.append(f"| {chapter} | {elements} | `{name}` | `{file}` |")
    return lines


def wrapped(text, first, rest):
    """Text in lines of at most 120 columns."""
    return textwrap.wrap(text, WIDTH, initial_indent=first, subsequent_indent=rest, break_on_hyphens=False)


def about(crate):
    """What a crate is, by the first line of its lib.rt."""
    path = pathlib.Path(f"crates/{crate}/src/lib.rt")
    lines = path.read_text().split("\n") if path.is_file() else []
    return " ".join(line[3:].strip() for line in lines if line.startswith("//!"))


def file_list(crates, wrong):
    """Each crate's spec files in reading order, with the lines that public contracts reach."""
    library, lines = claims.Library(), []
    public = library.definitions(item for items in library.items.values() for item in items if library.is_public(item))
    for crate in crates:
        specs = sources.specs(crate)
        if not specs:
            continue
        lines += [f"### {crate}", "", *wrapped(about(crate), "", ""), ""]
        for number, spec in enumerate((spec for spec in specs if not spec.is_inside), 1):
            size = sum(map(len, public.get(spec.path, {}).values()))
            wrong += [] if spec.comment else [f"{spec.path}: no first comment"]
            lines += wrapped(f"{number}. `{short(spec)}` ({size} lines). {spec.comment}", "", "   ")
        inside = ", ".join(f"`{spec.path.name}`" for spec in specs if spec.is_inside)
        lines += wrapped(f"Private to the crate, for its proofs alone: {inside}.", "\n", "") if inside else []
        lines.append("")
    return lines


def with_block(page, name, lines, wrong):
    """The page with the lines of a block renewed."""
    before, begin, rest = page.partition(BEGIN.format(name))
    _, end, after = rest.partition(END)
    if not begin or not end:
        wrong.append(f"{PAGE}: no block between `{BEGIN.format(name).strip()}` and `{END}`")
        return page
    return before + begin + "\n".join(lines) + "\n" + end + after


def main():
    crates, wrong = sources.crates(), []
    specs = [spec for crate in crates for spec in sources.specs(crate) if not spec.is_inside]
    tables = ["### From chapters to files", "", *chapter_table(specs, wrong), ""]
    tables += ["### From syntax elements to definitions", "", *element_table(wrong)]
    old = PAGE.read_text() if PAGE.is_file() else ""
    new = with_block(old, "tables", tables, wrong)
    new = with_block(new, "files", file_list(crates, wrong), wrong)
    if "--check" in sys.argv:
        wrong += [] if new == old else [f"{PAGE}: not up to date; scripts/definitions.py renews it"]
    elif new != old:
        PAGE.write_text(new)
    print("\n".join(wrong) if wrong else f"{PAGE}: {len(specs)} spec files")
    return 1 if wrong else 0


if __name__ == "__main__":
    sys.exit(main())
