#!/usr/bin/env python3
"""Compares every number of the crate of tables with a page of the standard's tables.

    compare_tables.py [PAGE [SOURCES]]

PAGE, else docs/TABLES.md, is the page in Markdown: sections headed "Trees", "Vector probabilities", "Key-frame subblock
probabilities", "Default coefficient probabilities", "Coefficient update probabilities", "Quantisers" and
"Interpolation". SOURCES, else crates/vp_tables/src, is the folder of the crate's `.rt` files. Prints each constant and
how many of its numbers agree; fails at the first that does not.
"""

import pathlib
import re
import sys

LEAVES = {
    "luma": {"B_PRED": "B", "DC": "Dc", "V": "V", "H": "H", "TM": "Tm"},
    "chroma": {"DC": "Dc", "V": "V", "H": "H", "TM": "Tm"},
    "sub": {name: name.capitalize() for name in "DC TM VE HE LD RD VR VL HD HU".split()},
    "vector": {name: name.capitalize() for name in "zero nearest near new split".split()},
    "split": {
        "sixteenths": "Sixteenths",
        "quarters": "Quarters",
        "top_bottom": "TopBottom",
        "left_right": "LeftRight",
    },
    "part": {name: name.capitalize() for name in "left above zero new".split()},
    "token": {"EOB": "EndOfBlock", "0": "Zero", "1": "One", "2": "Two", "3": "Three", "4": "Four"}
    | {f"c{i}": f"Category{i}" for i in range(1, 7)},
    "number": {str(i): str(i) for i in range(8)},
}


def sections(page):
    found = {}
    for part in re.split(r"^## ", page, flags=re.M)[1:]:
        head, body = part.split("\n", 1)
        found[re.sub(r"^\d+\.\s*", "", head)] = body
    return found


def section(found, start):
    return next(body for head, body in found.items() if head.startswith(start))


def numbers(text):
    return [int(word) for word in re.findall(r"\d+", text)]


def line_with(body, start):
    return next(line for line in body.splitlines() if line.startswith(f"- {start}"))


def tree(text, kind):
    """A tree in braces: a number leads on, a word behind a minus is a leaf."""
    entries = re.search(r"\{([^}]*)\}", text).group(1).split(",")
    return [("Leaf", LEAVES[kind][e[1:]]) if e.startswith("-") else ("Pair", int(e)) for e in entries]


def rows(text):
    return [numbers(row) for row in text.strip().rstrip(".").split(";")]


def repeated(text):
    """Numbers, of which `ten 254` stands for ten times 254."""
    text = re.sub(r"ten (\d+)", lambda m: " ".join([m.group(1)] * 10), text)
    return numbers(text)


def runs(text):
    """Numbers and runs such as `29 to 37 by ones`."""
    steps = {"ones": 1, "twos": 2, "threes": 3, "fours": 4, "fives": 5}
    found = []
    for item in text.strip().rstrip(".").split(","):
        run = re.fullmatch(r"\s*(\d+) to (\d+) by (\w+)\s*", item)
        if run:
            found += range(int(run.group(1)), int(run.group(2)) + 1, steps[run.group(3)])
        else:
            found += numbers(item)
    return found


def coefficients(body, missing):
    """Four types of eight bands of three contexts of eleven numbers, where the last ones may be left out."""
    kinds = []
    for line in re.findall(r"^type \d: .*$", body, flags=re.M):
        bands = {}
        for names, text in re.findall(r"((?:b\d(?:, )?)+) ([^b]*)", line[len("type 0: "):]):
            contexts = []
            for group in text.strip().rstrip(".").split(";"):
                group = numbers(group)
                contexts.append(group + [missing] * (11 - len(group)))
            for name in re.findall(r"b(\d)", names):
                bands[int(name)] = contexts
        kinds.append([bands[i] for i in range(8)])
    return kinds


def wanted(page):
    found = sections(page)
    trees = section(found, "Trees")
    luma = line_with(trees, "Key luma")
    key_luma, inter_luma = luma.split("Inter luma")
    chroma = line_with(trees, "Chroma")
    sub = line_with(trees, "Subblock")
    vector = line_with(trees, "Vector mode")
    split = line_with(trees, "Split")
    split, part = split.split("Part", 1)
    token = line_with(trees, "Token")
    after = lambda text: text.split("`")[2]
    bases = re.search(r"bases ([\d ]+);", token).group(1)
    extra = re.search(r"most significant first, by ([^.]*)\.", token).group(1)
    vectors = section(found, "Vector probabilities")
    defaults, updates = vectors.strip().split("Update row:")
    keys = section(found, "Key-frame subblock")
    quantisers = section(found, "Quantisers")
    taps = section(found, "Interpolation")
    tables = {
        "SEGMENT_TREE": tree(line_with(trees, "Segment"), "number"),
        "KEY_LUMA_TREE": tree(key_luma, "luma"),
        "KEY_LUMA_PROBABILITIES": numbers(after(key_luma)),
        "LUMA_TREE": tree(inter_luma, "luma"),
        "LUMA_PROBABILITIES": numbers(after(inter_luma)),
        "CHROMA_TREE": tree(chroma, "chroma"),
        "KEY_CHROMA_PROBABILITIES": numbers(after(chroma).split("default")[0]),
        "CHROMA_PROBABILITIES": numbers(after(chroma).split("default")[1]),
        "SUB_TREE": tree(sub, "sub"),
        "SUB_PROBABILITIES": numbers(after(sub)),
        "VECTOR_MODE_TREE": tree(vector, "vector"),
        "VECTOR_MODE_PROBABILITIES": rows(after(vector).split("row by row:")[1]),
        "SPLIT_TREE": tree(split, "split"),
        "SPLIT_PROBABILITIES": numbers(after(split)),
        "PART_TREE": tree(part, "part"),
        "PART_PROBABILITIES": rows(after(part).split(":")[1]),
        "SHORT_VECTOR_TREE": tree(line_with(trees, "Short vector"), "number"),
        "TOKEN_TREE": tree(token, "token"),
        "CATEGORY_BASES": numbers(bases),
        "BANDS": numbers(re.search(r"Bands by position ([\d ]+)\.", token).group(1)),
        "ZIGZAG": numbers(re.search(r"Zigzag ([\d ]+)\.", token).group(1)),
        "VECTOR_PROBABILITIES": [numbers(line) for line in defaults.split("row:")[1].split("column:")],
        "VECTOR_UPDATES": [repeated(line) for line in updates.split("column:")],
        "KEY_SUB_PROBABILITIES": [
            rows(line.split(":", 1)[1]) for line in re.findall(r"^[A-Z]{2}: .*$", keys, flags=re.M)
        ],
        "COEFFICIENT_PROBABILITIES": coefficients(section(found, "Default coefficient"), 128),
        "COEFFICIENT_UPDATES": coefficients(section(found, "Coefficient update"), 255),
        "DC_FACTORS": runs(re.search(r"^DC: (.*)$", quantisers, flags=re.M).group(1)),
        "AC_FACTORS": runs(re.search(r"^AC: (.*)$", quantisers, flags=re.M).group(1)),
        "SIX_TAPS": [
            [int(n) for n in re.findall(r"-?\d+", row)]
            for row in re.search(r"Six taps at -2\.\.3: ([^.]*)\.", taps).group(1).split(";")
        ],
    }
    for i, row in enumerate(rows(extra), start=1):
        tables[f"CATEGORY_{i}"] = row
    return tables


def given(sources):
    """The constants of the sources, as lists of numbers and entries."""
    tables = {}
    for path in sorted(pathlib.Path(sources).glob("**/*.rt")):
        text = re.sub(r"//.*", "", path.read_text())
        for name, value in re.findall(r"(?:const|static) (\w+): [^=]*= (\[[^;]*\]);", text):
            value = re.sub(r"Leaf\((?:\w+::)?(\w+)\)", r"('Leaf', '\1')", value)
            value = re.sub(r"Pair\((\d+)\)", r"('Pair', \1)", value)
            tables[name] = eval(value, {"__builtins__": {}})
    return tables


def flat(value):
    return [x for item in value for x in flat(item)] if isinstance(value, list) else [value]


def main():
    root = pathlib.Path(__file__).resolve().parent.parent
    page, sources = (sys.argv[1:] + [root / "docs/TABLES.md", root / "crates/vp_tables/src"][len(sys.argv) - 1 :])[:2]
    text = re.sub(r"\n  (?=\S)", " ", pathlib.Path(page).read_text())  # a line indented by two spaces goes on
    want, have = wanted(text), given(sources)
    wrong = sorted(set(want) ^ set(have))
    for name in sorted(set(want) & set(have)):
        if want[name] == have[name]:
            print(f"{name}: {len(flat(have[name]))} agree")
        else:
            pairs = zip(flat(want[name]), flat(have[name]))
            print(f"{name}: differs", [(i, w, h) for i, (w, h) in enumerate(pairs) if w != h][:5])
            wrong.append(name)
    if wrong:
        sys.exit(f"not alike: {', '.join(wrong)}")


if __name__ == "__main__":
    main()
