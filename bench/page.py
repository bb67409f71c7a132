"""Tables that a script writes into a page of docs, between `<!-- NAME -->` and `<!-- end -->`. Not proved."""
import pathlib

DOCS = pathlib.Path(__file__).resolve().parent.parent / "docs"


def put(page, name, lines):
    """Puts these lines into the page in place of those that stand there."""
    path, mark, end = DOCS / page, f"<!-- {name} -->\n", "<!-- end -->"
    before, _, rest = path.read_text().partition(mark)
    _, _, after = rest.partition(end)
    if not rest or not after:
        raise SystemExit(f"{page} has no place for the table {name}")
    path.write_text(before + mark + "\n".join(lines) + "\n" + end + after)
