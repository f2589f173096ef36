#!/usr/bin/env python3
"""Draws docs/map.svg, the map of the crates: a lane for each who uses them, and in it the crates that the lane's
programs call, from the text that is read over the numbers that are reckoned to the text that is printed. Who calls whom
is read from the crates' sources; the tables below say only which part of the way a crate is, and whose a program is.

  python3 docs/make_map_svg.py            draws it, and says what is missing
  python3 docs/make_map_svg.py --check    draws nothing; exits with 1 where a crate of crates.txt is not in it or not in
                                          README.md's table, or the picture is not what the sources give"""
import fnmatch
import pathlib
import re
import sys

ROOT = pathlib.Path(__file__).resolve().parent.parent
PICTURE = ROOT / "docs/map.svg"

UNDER_ALL = "days integers entries text words names input output".split()
READS = "values page question span_line date_lines".split()
RECKONS = "civil iso saka longitudes panchanga planets older_motions arms records query search lunar_months reasons blocks almanac zodiac".split()
PRINTS = "dated remarks sheet month_sheet almanac_sheet plate messages drift_sheet catalogue explanation lunar_month_sheet sign_sheet reply conversion".split()
# Who, what is asked and answered, and the programs: for the operator calls from C, so numbers and no text.
LANES = [
    ("the reader", "which days, and why not that one", "find why"),
    ("the operator", "a planet table, from C", "host"),
    ("the almanac desk", "a day, and thirty at one go", "day_sheet month records_c"),
    ("the server", "almanac files, and read back", "almanac_write almanac_read"),
    ("calendar printers", "when the Sun enters a sign", "signs"),
    ("who leafs", "the lunar month of a day", "lunar_month"),
    ("engravers", "a plate with thirds", "engraving"),
    ("the scholar", "how far from older books", "drift"),
    ("libraries", "ISO dates to days and back", "dates_to_days days_to_dates"),
]
HELD = ("for comparison", "these hold the rest to the papers", "bridge worked scan_days *_cases")
WIDE, LEFT, GAP, CHIP, LINE = 1150, 204, 14, 22, 28
COLUMNS = [(LEFT, 170), (LEFT + 200, 300), (LEFT + 530, 226), (LEFT + 786, 146)]
INK, SOFT, PAPER = "#222222", "#777777", "#fbfaf6"
COLOURS = {"reads": "#cfe0ee", "reckons": "#f6e3b0", "prints": "#d3e6cd", "under": "#e6e2da", "program": "#4a4a4a"}


def crates():
    """Each crate of crates.txt, in its order."""
    lines = (ROOT / "crates.txt").read_text(encoding="utf-8").splitlines()
    return [line.split(":")[0].split()[0] for line in lines if line and not line.startswith("#")]


def calls(names):
    """The crates that each crate's code names, but for what it names in ghost imports and comments, and for
    constants."""
    found = {}
    for name in names:
        code = "\n".join(path.read_text(encoding="utf-8") for path in sorted((ROOT / "crates" / name / "src").rglob("*.rt")))
        code = re.sub(r"^ghost use .*$|//.*$|(?:requires|ensures) (?:\w+ )?\{.*$", "", code, flags=re.M)
        found[name] = {other for other in re.findall(r"\b(\w+)::(?=\{[^}]*[a-z]|\w*[a-z])", code) if other in names} - {name}
    return found


def reached(programs, called):
    found = list(programs)
    for name in found:
        found += [other for other in sorted(called[name]) if other not in found]
    return found


def text(x, y, words, size=12, fill=INK, anchor="start", weight="normal"):
    return f'<text x="{x}" y="{y}" font-size="{size}" fill="{fill}" text-anchor="{anchor}" font-weight="{weight}">{words}</text>'


def chips(names, kind, x, y, wide):
    """The names in boxes from x, y on, as many to a row as fit; and how many rows they take."""
    drawn, at, row = [], x, 0
    for name in names:
        need = round(7.3 * len(name)) + 12
        if at > x and at + need > x + wide:
            at, row = x, row + 1
        top, fill = y + row * LINE, "white" if kind == "program" else INK
        drawn.append(f'<rect x="{at}" y="{top}" width="{need}" height="{CHIP}" rx="4" fill="{COLOURS[kind]}"/>')
        drawn.append(f'<text class="crate" x="{at + need // 2}" y="{top + 15}" font-size="12" text-anchor="middle" fill="{fill}">{name}</text>')
        at += need + 6
    return drawn, row + 1 if names else 0


def arrow(x, y, wide, label):
    line = f'<line x1="{x}" y1="{y}" x2="{x + wide - 5}" y2="{y}" stroke="{SOFT}" marker-end="url(#head)"/>'
    return [line, text(x + wide / 2 - 2, y - 5, label, 9, SOFT, "middle")]


def lane(y, who, what, programs, called, names):
    """A lane from y on, and where it ends."""
    all_here = reached(programs, called)
    parts = [("reads", READS), ("reckons", RECKONS), ("prints", PRINTS)]
    rows, drawn = 1, []
    for (kind, part), (x, wide) in zip(parts, COLUMNS):
        here, high = chips([name for name in names if name in part and name in all_here], kind, x, y + GAP, wide)
        drawn, rows = drawn + here, max(rows, high)
    here, high = chips(programs, "program", *(COLUMNS[3][0], y + GAP), COLUMNS[3][1])
    rows = max(rows, high)
    middle, in_text = y + GAP + 15, any(name in all_here for name in PRINTS)
    reads = any(name in all_here for name in READS)
    edges = [x for x, _ in COLUMNS]
    if not in_text:
        drawn += arrow(edges[0], middle, 200, "numbers in") + arrow(edges[2], middle, edges[3] - edges[2] - 4, "numbers out")
    else:
        drawn += arrow(edges[1] - 28, middle, 24, "") if reads else arrow(edges[0], middle, 200, "a day&#8217;s number, read by text")
        drawn += arrow(edges[2] - 28, middle, 24, "") + arrow(edges[3] - 28, middle, 24, "")
    end = y + 2 * GAP + rows * LINE - 6
    label = [text(20, y + GAP + 13, who, 14, weight="bold"), text(20, y + GAP + 29, what, 9.5, SOFT)]
    rule = f'<line x1="14" y1="{end}" x2="{WIDE - 14}" y2="{end}" stroke="#dddddd"/>'
    return label + drawn + here + [rule], end


def picture(names):
    called = calls(names)
    drawn, y = [], 62
    for (x, _), title in zip(COLUMNS, ["text is read", "numbers are reckoned", "text is made", "program or archive"]):
        drawn.append(text(x, 50, title, 12, SOFT, weight="bold"))
    drawn.append(text(20, 28, "The crates: whom they serve, and which way text and numbers go", 16, weight="bold"))
    for who, what, programs in LANES:
        here, y = lane(y, who, what, programs.split(), called, names)
        drawn += here
    drawn += [text(20, y + GAP + 13, "under all lanes", 14, weight="bold"), text(20, y + GAP + 29, "days, lists, lines, reading, writing", 9.5, SOFT)]
    here, high = chips([name for name in names if name in UNDER_ALL], "under", LEFT, y + GAP, WIDE - LEFT - 20)
    y, drawn = y + 2 * GAP + max(high * LINE, 38) - 6, drawn + here
    served = set(reached([name for _, _, programs in LANES for name in programs.split()], called)) | set(UNDER_ALL)
    held = [name for name in names if name not in served and any(fnmatch.fnmatch(name, pattern) for pattern in HELD[2].split())]
    drawn += [text(20, y + GAP + 13, HELD[0], 14, weight="bold"), text(20, y + GAP + 29, HELD[1], 9.5, SOFT)]
    here, high = chips(held, "under", LEFT, y + GAP, WIDE - LEFT - 20)
    y, drawn = y + 2 * GAP + max(high * LINE, 38) - 6, drawn + here
    head = '<defs><marker id="head" viewBox="0 0 8 8" refX="7" refY="4" markerWidth="7" markerHeight="7" orient="auto"><path d="M 0 0 L 8 4 L 0 8 z" fill="#777777"/></marker></defs>'
    frame = [f'<svg xmlns="http://www.w3.org/2000/svg" viewBox="0 0 {WIDE} {y + 8}" font-family="DejaVu Sans, Verdana, sans-serif">', head,
             f'<rect width="{WIDE}" height="{y + 8}" fill="{PAPER}"/>']
    return "\n".join(frame + drawn + ["</svg>"]) + "\n"


names = crates()
now = picture(names)
drawn = re.findall(r'class="crate"[^>]*>(\w+)<', now)
faults = [f"{name} is not in the picture: docs/make_map_svg.py does not say what part of the way it is" for name in names if name not in drawn]
readme = re.findall(r"`([\w*]+)`", (ROOT / "README.md").read_text(encoding="utf-8").split("| crate |")[1])
faults += [f"README.md's table has no {name}" for name in names if not any(fnmatch.fnmatch(name, told) for told in readme)]
if "--check" in sys.argv[1:]:
    if not PICTURE.is_file() or PICTURE.read_text(encoding="utf-8") != now:
        faults.append("docs/map.svg is not what the sources give: python3 docs/make_map_svg.py draws it")
else:
    PICTURE.write_text(now, encoding="utf-8")
for fault in faults:
    print(fault)
print(f"{len(names)} crates in {len(LANES)} lanes, {len(faults)} faults")
sys.exit(bool(faults))
