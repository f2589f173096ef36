#!/usr/bin/env python3
"""Holds the links of README.md and docs/*.md to what they link: every relative link points to a file that exists, and
to a heading of it where it names one; where a page says `name` in [file](path), or several names with commas between
them, the file defines each; and in an item that lists definitions, laws or calls no name is without its file.

  python3 docs/check_links.py    prints a line for each link that does not hold and then the counts, and exits with 1
                                 where there is one"""
import pathlib
import re
import sys

ROOT = pathlib.Path(__file__).resolve().parent.parent
LINK = re.compile(r"\]\(([^)\s#]*)(?:#([^)\s]+))?\)")
NAMED = re.compile(r"((?:`[^`]+`(?:,\s+|\s+and\s+|\s+to\s+))*`[^`]+`)\s+in\s+\[[^\]]*\]\(([^)\s#]+)\)")
LISTING = re.compile(r"^- (?:Definition|Laws?|Call|C): .*(?:\n  .*)*", re.M)
DEFINED = {
    ".antt": r"^\s*(?:unfoldable |abbrev )?(?:pub )?(?:record |data )?{}(?=[\s({{])",
    ".rt": r"\b(?:fn|const|struct|enum) {}\b",
    ".h": r"\b{}\b",
}


def slugs(text):
    """The anchors of a page's headings."""
    return {re.sub(r"[^\w\- ]", "", heading.lower()).replace(" ", "-") for heading in re.findall(r"^#+ (.*)$", text, re.M)}


def faults(page, text):
    for target, anchor in LINK.findall(text):
        path = page.parent / target if target else page
        if "://" in target:
            continue
        if not path.exists():
            yield f"there is no {target}"
        elif anchor and anchor not in slugs(path.read_text(encoding="utf-8")):
            yield f"{target} has no heading #{anchor}"
    for names, target in NAMED.findall(text):
        path = page.parent / target
        if path.is_file() and path.suffix in DEFINED:
            source = path.read_text(encoding="utf-8")
            for name in re.findall(r"`([^`]+)`", names):
                if not re.search(DEFINED[path.suffix].format(re.escape(name.split("::")[-1])), source, re.M):
                    yield f"{target} does not define `{name}`"
    for item in LISTING.findall(text):
        for name in re.findall(r"`([^`]+)`", NAMED.sub("", item)):
            yield f"`{name}` is listed without its file"


pages = {page: page.read_text(encoding="utf-8") for page in [ROOT / "README.md", *sorted((ROOT / "docs").rglob("*.md"))]}
found = [f"{page.relative_to(ROOT)}: {fault}" for page, text in pages.items() for fault in faults(page, text)]
for fault in found:
    print(fault)
links = sum(len(LINK.findall(text)) for text in pages.values())
named = sum(names.count("`") // 2 for text in pages.values() for names, _ in NAMED.findall(text))
print(f"{links} links and {named} names in {len(pages)} pages, {len(found)} that do not hold")
sys.exit(bool(found) or not named)
