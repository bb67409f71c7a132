#!/usr/bin/env python3
"""crates.py [--write]: the table of the crates in docs/ARCHITECTURE.md, from crates.txt and the first line of each
crate's README. It fails if the table is another, or with --write renews it. Run it at the top of the repository. Not
proved: this script."""
import pathlib, re, sys

PAGE = pathlib.Path("docs/ARCHITECTURE.md")
PLACE = re.compile(r"(?<=<!-- crates -->\n).*?(?=<!-- end -->)", re.S)


def rows():
    """A line for each crate, in the order of crates.txt, and one for those of tests."""
    lines = pathlib.Path("crates.txt").read_text().splitlines()
    names = [line.split(":")[0].split()[0] for line in lines if ":" in line]
    for name in names:
        title = pathlib.Path("crates", name, "README.md").read_text().splitlines()[0]
        if not title.startswith(f"# {name}: "):
            sys.exit(f"crates/{name}/README.md: its first line is not '# {name}: ..'")
        if not name.endswith("_tests"):
            yield f"| {name} | {title.partition(': ')[2]} |\n"
    yield "| vp_*_tests | tests ([TESTING.md](TESTING.md)) |\n"


def main():
    if sys.argv[1:] not in ([], ["--write"]):
        sys.exit(__doc__)
    text, table = PAGE.read_text(), "| crate | what it holds |\n|---|---|\n" + "".join(rows())
    if "--write" in sys.argv:
        PAGE.write_text(PLACE.sub(lambda _: table, text))
    elif table not in text:
        wrong = "its table of crates is not that of crates.txt and the READMEs"
        sys.exit(f"{PAGE}: {wrong}; scripts/crates.py --write renews it")


main()
