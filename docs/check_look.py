#!/usr/bin/env python3
"""Reads that the search comes to longitudes, panchanga elements and conditions only through the look (paper 01), which
no contract can say. It takes the sources of `search` and of every crate below it apart into functions and their calls
(a method's call counts as one of every method of that name), and holds them to this:

- from the public functions of `search`, without the look, no function of `longitudes` or `planets` is reached, none of
  `panchanga` but the test of an edition's number, none of `query` but the tests of a query's ranges and of whether arcs
  are given, and none of `search` that the look calls;
- `scan` calls the look, the step to the next visit, the list's put and what tells which conditions are asked for, each
  once, and nothing else but the length of its output; it hands the query to the look and to that, and does nothing else
  with it;
- outside the look a query is handed on whole, asked for its refusal, its edition or its first and last day, no more
  (`over_day` copies it for a span of one day, and what tells which conditions are asked for reads which are given);
- the pair of a day is made once, in the look, of the day of the visit that it is given.

  python3 docs/check_look.py    then changes the sources in ways that break this, one by one, and sees that each is
                                refused; prints a line for each complaint, or what was found, and exits with 1 where
                                there is a complaint"""
import collections
import pathlib
import re
import sys

ROOT = pathlib.Path(__file__).resolve().parent.parent
LOOK = "search::examine_day"
SCAN = {LOOK: 1, "search::more_asked": 1, "search::next_visit": 1, "entries::put_entry": 1, ".len": 1}
# What a query's refusal is made of: ranges, which no day enters.
RANGES = {"query::" + name for name in ("Query::check", "conditions_in_range", "elements_in_range", "all_in_range", "Asked::in_range", "Weekdays::in_range", "Arc::in_range", "BodyArcs::in_range")}
# A body's number is its place in the order, and reached because a refusal has a number too.
RANGES |= {"panchanga::is_edition", "panchanga::edition_of", "longitudes::Body::number"}
# What tells which conditions are asked for: it reads which are given, and no day enters it.
ASKED = {"search::more_asked": r"query\.(?:true_)?arcs\b", "search::elements_given": r"query\.\w+\.given\b"}
RANGES |= {"query::BodyArcs::given"}
RECKONED = ("longitudes::", "panchanga::", "planets::", "query::")
COPIES = "search::over_day"
HEAD = re.compile(r"( *)(pub )?(?:extern \"C\" )?(fn|impl|mod) (\w+)")
CALL = re.compile(r"(\.)?\b((?:\w+::)*[a-z_]\w*)\(")
WORDS = {"if", "while", "match", "return", "fn", "for", "loop", "else", "in"}
WRONG = [
    ("scan tests the weekday of a skipped day", "search", "        let next = next_visit(visit, seen);\n", "        let next = next_visit(visit, seen);\n        let weekdays = query.weekdays;\n        weekdays.admit(visit.day + 1);\n"),
    ("scan reads a condition without a call", "search", "        if seen.matches {\n", "        if query.weekdays.set % 2 == 1 {\n"),
    ("scan looks twice", "search", "        let next = next_visit(visit, seen);\n", "        let again = examine_day(query, more, visit);\n        let next = next_visit(visit, again);\n"),
    ("a search reckons the Sun before it scans", "search", "    let mut none = [0u8; 0];\n", "    let mut none = [0u8; 0];\n    longitudes::mean_longitude(Body::Sun, Day::EPOCH);\n"),
    ("a search tests an arc by what the look tests it by", "search", "    let mut none = [0u8; 0];\n", "    let mut none = [0u8; 0];\n    nearer(query.arcs[0], 0);\n"),
    ("the test of the ranges comes to a condition", "query", "    let true_arcs = query.true_arcs;\n    all_in_range(&true_arcs)\n", "    let true_arcs = query.true_arcs;\n    others_met(query, Day::EPOCH);\n    all_in_range(&true_arcs)\n"),
    ("scan tests true arcs on a day that is not looked at", "search", "        let next = next_visit(visit, seen);\n", "        let next = next_visit(visit, seen);\n        query::true_arcs_have(1, TrueBody::Sun, BodyArcs::NONE, Day::EPOCH);\n"),
    ("what is asked comes to a true longitude", "search", "    match given_places(true_arcs) {\n", "    query::true_longitude(query.edition, TrueBody::Moon, Day::EPOCH);\n    match given_places(true_arcs) {\n"),
    ("the look reckons the next day", "search", "    let day = visit.day;\n", "    let day = visit.day + 1;\n"),
]


def crates_below(name):
    """The crate and every crate of the repository below it, from crates.txt."""
    deps = dict(re.findall(r"^(\w+):(.*)$", (ROOT / "crates.txt").read_text(encoding="utf-8"), re.M))
    found = [name]
    for crate in found:
        found += [other for other in deps[crate].split() if other in deps and other not in found]
    return found


def sources(crate):
    return "\n".join(path.read_text(encoding="utf-8") for path in sorted((ROOT / "crates" / crate / "src").rglob("*.rt")))


def functions(crate, text):
    """Of each function, by its crate, its type and its name: whether it is public, and its body. By the layout that
    `rt fmt` holds the files to, what opens at an indent ends with the next `}` of that indent, and a body begins with a
    `{` of that indent, or with the one that ends the line of its name."""
    found, opened, name, body = {}, [], None, None
    for line in text.splitlines():
        line = re.sub(r"//.*", "", line)
        if line.startswith("ghost "):
            continue
        start = HEAD.match(line)
        if start and body is None and not line.rstrip().endswith(";"):
            opened.append((start[1], start[3], start[4]))
            if start[3] == "fn":
                name = "::".join([crate, *(part for _, kind, part in opened if kind == "impl"), start[4]])
                found[name] = [bool(start[2]), ""]
                body = "" if line.rstrip().endswith("{") else None
                if body is None and line.count("{") and line.count("{") == line.count("}"):
                    raise SystemExit(f"check_look: {name} stands in one line")
                continue
        if not opened:
            continue
        indent, kind, _ = opened[-1]
        if kind == "fn" and body is None and line.rstrip() == indent + "{":
            body = ""
        elif line.rstrip() == indent + "}":
            if kind == "fn":
                found[name][1], body = body, None
            opened.pop()
        elif body is not None:
            body += line + "\n"
    return found


def calls(function, body, known):
    """The functions that a body calls, so often; a method of no crate that was read (`.len`) under its own name."""
    crate, found = function.split("::")[0], collections.Counter()
    for dot, path in CALL.findall(body):
        parts = path.split("::")
        if not dot and parts[-1] in WORDS:
            continue
        if dot:
            named = [name for name in known if name.count("::") == 2 and name.endswith("::" + parts[-1])] or ["." + parts[-1]]
        elif len(parts) == 1:
            named = [f"{crate}::{path}"]
        elif parts[-2][0].isupper() or parts[-2] == "Self":
            kind = function.split("::")[1] if parts[-2] == "Self" else parts[-2]
            named = [name for name in known if name.endswith(f"::{kind}::{parts[-1]}")]
        else:
            named = [f"{parts[-2]}::{parts[-1]}"]
        if not named:
            raise SystemExit(f"check_look: {function} calls {path}, which is not found")
        found.update(named)
    return found


def reached(starts, calling, but=()):
    found = [start for start in starts if start not in but]
    for name in found:
        found += [other for other in calling.get(name, ()) if other not in found and other not in but]
    return found


def complaints(texts):
    known = {name: body for crate, text in texts.items() for name, body in functions(crate, text).items()}
    if LOOK not in known or "search::scan" not in known:
        return ["there is no look, or no scan"]
    calling = {name: calls(name, body, known) for name, (_, body) in known.items()}
    public = [name for name, (shown, _) in known.items() if name.startswith("search::") and shown]
    below = [name for name in reached([LOOK], calling) if name.startswith("search::") and not re.match(r"search::[A-Z]", name)]
    outside = reached(public, calling, [LOOK])
    found = [f"without the look the search comes to {name}" for name in outside if name.startswith(RECKONED) and name not in RANGES or name in below]
    if dict(calling["search::scan"]) != SCAN:
        found.append("scan calls " + ", ".join(f"{name} {times} times" for name, times in sorted(calling["search::scan"].items())))
    scan = known["search::scan"][1]
    if re.findall(r"\bquery\b.*", scan) != ["query);", "query, more, visit);"] or "examine_day(query, more, visit)" not in scan:
        found.append("scan uses the query, or looks, otherwise than by one look at its visit")
    for name in [name for name in outside if name.startswith("search::")]:
        body = known[name][1]
        used = body if name != COPIES else re.sub(r"let (\w+) = query\.\1;|edition: query\.edition", "", body)
        used = re.sub(ASKED[name], "", used) if name in ASKED else used
        used = re.sub(r"\bquery(?:\.(?:first|last)\b|\.check\(\)|\.edition(?=\) \{)|(?=[,)]))|\bsearch::\w+|\bquery::\w+", "", used)
        if re.search(r"\bquery\b|\balone\.|\b\w+\.(?:weekdays|tithi|nakshatra|yoga|karana|arcs|true_arcs)\b", used):
            found.append(f"{name} does more with a query than hand it on")
    for crate, most in (("search", 1), ("query", 0)):
        text = re.sub(r"//.*", "", texts[crate])
        if len(re.findall(r"Day::from_number\(", text)) != most or re.search(r"Day::(at|from_pair)\(|\bDay \{|\.next\(", text):
            found.append(f"{crate} makes the pair of a day elsewhere than in the look")
    if "    let day = visit.day;\n    let pair = Day::from_number(day).unwrap();\n" not in known[LOOK][1]:
        found.append("the look makes the pair of another day than its visit's")
    return found


texts = {crate: sources(crate) for crate in crates_below("search")}
faults = complaints(texts)
for what, crate, old, new in WRONG:
    if texts[crate].count(old) < 1:
        faults.append(f"a wrong source cannot be made: {what}")
    elif not complaints({**texts, crate: texts[crate].replace(old, new, 1)}):
        faults.append(f"a wrong source is let pass: {what}")
for fault in faults:
    print(f"check_look: {fault}")
if not faults:
    print(f"the search comes to longitudes and conditions only through the look, {LOOK}; read in {len(texts)} crates, and {len(WRONG)} wrong sources are refused")
sys.exit(bool(faults))
