#!/usr/bin/env python3
"""Holds the documents' numbers to what they count.

- docs/search.md and docs/proofs.md: each `file:line` that they name must hold the code quoted after it (or begin with
  it, where the quotation ends with …), and where they say that a file has a text so many times, or no such text, that
  must be so.
- Numbers in sentences (COUNTED below): each must be the one that the source, a stored output or the last measurement
  has, and no sentence may be gone.

  python3 docs/check_lines.py            prints a line for each thing that does not hold and exits with 1, or a line for
                                         each page with the count of those that do
  python3 docs/check_lines.py --renumber first writes the numbers of the lines where the code quoted stands now"""
import pathlib
import re
import sys

ROOT = pathlib.Path(__file__).resolve().parent.parent
PAGES = ["docs/search.md", "docs/proofs.md"]
LINE = re.compile(r"`([\w/.-]+):(\d+)` \| `([^`]+)`")
COUNT = re.compile(r"`([\w/.-]+)`\s+has\s+(no|\d+)\s+`([^`]+)`")
WORDS = "no one two three four five six seven eight nine ten eleven twelve".split()


def text(name):
    path = ROOT / name
    return path.read_text(encoding="utf-8") if path.is_file() else ""


def source(name):
    return text(name).splitlines()


def stands(name, code):
    """The numbers of the file's lines that are the code."""
    front = code[:-1].rstrip() if code.endswith("…") else None
    return [str(at) for at, line in enumerate(source(name), 1) if (line.strip() == code if front is None else line.strip().startswith(front))]


def renumbered(page):
    """The page with each quoted code at the line where it stands: where it stands at several, each mention in turn."""
    mentions = {}

    def fresh(found):
        name, number, code = found.groups()
        turn = mentions[name, code] = mentions.get((name, code), -1) + 1
        now = stands(name, code)
        return f"`{name}:{now[turn] if turn < len(now) else number}` | `{code}`"

    return LINE.sub(fresh, page)


def faults(page):
    for name, number, code in LINE.findall(page):
        now = stands(name, code)
        if number not in now:
            yield f"{name}:{number} is not `{code}`; " + (f"it stands at line {', '.join(now)}" if now else "no line of the file is")
    for name, times, what in COUNT.findall(page):
        lines = source(name)
        found = sum(line.count(what) for line in lines if not line.startswith("ghost "))
        if not lines or found != (0 if times == "no" else int(times)):
            yield f"{name} has {found} `{what}`, not {times}"


def constant(name, file):
    """A constant's number in the code."""
    return int(re.search(rf"\bconst {name}: \w+ = (\d+);", text(file))[1])


def measured(pattern, page):
    """A number of a report that a page shows."""
    return int(re.search(pattern, text(page))[1])


def calls(names="graha_"):
    """How many calls the header declares; the host's archive exports as many."""
    declared = set(re.findall(rf"^\w+ ({names}\w+)\(", text("include/grahalaghava.h"), re.M))
    exported = re.findall(rf'pub extern "C" fn ({names}\w+)\(', "\n".join(path.read_text(encoding="utf-8") for path in (ROOT / "crates/host/src").glob("*.rt")))
    assert declared == {*exported}, f"the header and the host's crate differ: {', '.join(sorted(declared ^ {*exported}))}"
    return len(declared)


CALLS = calls()
EXAMPLES = text("docs/find.md").split("## What may stand")[0].count("\nprints\n")
STACK = measured(r"deepest stack: search (\d+)", "docs/performance.md")
CORTEX = round(measured(r"cortex-m4: (\d+) bytes of code", "docs/controller.md") / 1000, 1)
KEPT = constant("KEPT", "crates/search/src/lib.rt")
KIB = constant("TOO_LONG", "crates/text/src/lib.rt") // 1024
PIECE = constant("PIECE", "crates/text/src/lib.rt") // 1024
QUERY = constant("QUERY_BYTES", "crates/bridge/src/lib.rt")
PART = constant("PART", "crates/find/src/main.rt")
ENTRIES = constant("MOST_ENTRIES", "crates/sign_sheet/src/lib.rt")
LINE_BYTES = constant("CAPACITY", "crates/text/src/lib.rt")
SAKA, CIVIL = (len(source(f"crates/{name}_cases/stdout")) for name in ("saka", "civil"))
STARRED = len(re.findall(r"\brecord \{ found = ", text("crates/worked/specs/Cases.antt").split("\nstarred =")[1]))
# A page, what stands before a number, what stands behind it, and the number. In the patterns a space is any white
# space.
COUNTED = [
    ("README.md", r"has the", r"calls", CALLS),
    ("docs/contracts.md", r"Each of the", r"calls has", CALLS),
    ("docs/DECISIONS.md", r"\(the", r"calls of `host`", CALLS),
    ("docs/DECISIONS.md", r"would be", r"checks of", 2 * CALLS),
    ("docs/host.md", r"64-bit floats,", r"calls give an order", calls("graha_place_") + calls("graha_follow_") + calls("graha_true_place_") + calls("graha_true_follow_")),
    ("README.md", r"matter of reading", r"examples", EXAMPLES),
    ("docs/README.md", r"torn page, with", r"examples", EXAMPLES),
    ("docs/find.md", r"`target/bin/find`\.", r"examples show", EXAMPLES),
    ("docs/find.md", r"##", r"torn pages", EXAMPLES),
    ("docs/search.md", r"deepest call takes", r"bytes of stack", STACK),
    ("docs/speed-decisions.md", r"deepest call then takes", r"bytes", STACK),
    ("README.md", r"Cortex-M4,", r"KB", CORTEX),
    ("docs/controller.md", r"all calls", r"KB", CORTEX),
    ("docs/host.md", r"where at most", r"days match", KEPT),
    ("docs/host.md", r"goes on from the", r"th match", KEPT + 1),
    ("docs/search.md", r"the first", r"matching days", KEPT),
    ("docs/search.md", r"", r"entries are [\d,]+ bytes", KEPT),
    ("docs/search.md", r"entries are", r"bytes", 4 * KEPT),
    ("docs/speed-decisions.md", r"The first", r"matching days are kept", KEPT),
    ("docs/speed-decisions.md", r"too short\*\*, in", r"bytes of stack", 4 * KEPT),
    ("docs/speed-decisions.md", r"a query has", r"bytes since P1", QUERY),
    ("docs/contracts.md", r"for", r"bytes(?= the search|; else|: the)", QUERY),
    ("docs/DECISIONS.md", r"reads the", r"numbers of a query", QUERY // 4),
    ("docs/DECISIONS.md", r"(?:A page of|An input of|`find` at most)", r"KiB", KIB),
    ("docs/contracts.md", r"(?:below|its own for)", r"KiB", KIB),
    ("docs/find.md", r"A page of", r"KiB", KIB),
    ("docs/DECISIONS.md", r"of at most", r"KiB \(`text::PIECE`\)", PIECE),
    ("docs/signs.md", r"a buffer of", r"KiB", PIECE),
    ("docs/signs.md", r"has fewer than", r"bytes", 1024 * KIB),
    ("docs/DECISIONS.md", r"into a list of", r"entries", PART),
    ("docs/DECISIONS.md", r"part by part,", r"days each", PART),
    ("docs/DECISIONS.md", r"The list has", r"entries", ENTRIES),
    ("docs/contracts.md", r"with a list of", r"entries", ENTRIES),
    ("docs/DECISIONS.md", r"`Line` has", r"bytes", LINE_BYTES),
    ("docs/contracts.md", r"all", r"bytes and len", LINE_BYTES),
    ("docs/contracts.md", r"`civil_cases` runs", r"cases", CIVIL),
    ("docs/contracts.md", r"weekdays 0 to 7,", r"lines", SAKA),
    ("docs/contracts.md", r"Cases\.antt`,", r"entries", STARRED),
]


def number(word):
    word = word.lower()
    return WORDS.index(word) if word in WORDS else float(word.replace(",", "")) if word[0].isdigit() else None


def miscounted():
    for page, before, behind, due in COUNTED:
        pattern = " ".join(part for part in (before, r"([\d,]*\d(?:\.\d)?|\w+)", behind) if part)
        pattern = pattern.replace(" th match", "th match") if behind.startswith("th ") else pattern
        found = [number(word) for word in re.findall(pattern.replace(" ", r"\s+"), text(page))]
        if not found or any(n != due for n in found):
            said = ", ".join(f"{n:g}" if n is not None else "no number" for n in found) or "nothing"
            yield f"{page}: `{before} N {behind}` has {said}, and {due} is right"


failed = False
for name in PAGES:
    page = text(name)
    if "--renumber" in sys.argv[1:]:
        page = renumbered(page)
        (ROOT / name).write_text(page, encoding="utf-8")
    named = len(LINE.findall(page)) + len(COUNT.findall(page))
    found = list(faults(page)) if named else ["it names no line"]
    for fault in found:
        print(f"{name}: {fault}")
    if not found:
        print(f"{name}: all {named} places that it names hold")
    failed = failed or bool(found)
wrong = list(miscounted())
for fault in wrong:
    print(fault)
if not wrong:
    print(f"all {len(COUNTED)} numbers that are counted hold")
sys.exit(failed or bool(wrong))
