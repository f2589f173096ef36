#!/usr/bin/env python3
"""Counts the places that docs/DESIGN-PASS.md speaks of, point by point.

  count_places.py [--list POINT] [FOLDER]

Reads each crates/*/src/**/*.rt below FOLDER (this checkout, if none is given) as text and prints how many places of
each kind there are; --list prints those of a point, a line each: file, line, what. A place is what the text shows, and
no verdict on whether another form is plainer."""
import collections, glob, os, re, sys


def clean(text):
    """The text without comments, strings and bytes; newlines stay."""
    text = re.sub(r"//[^\n]*", "", text)
    return re.sub(r'"(?:[^"\\]|\\.)*"|b?\'(?:[^\'\\]|\\.)\'', "''", text)


def block_end(text, at):
    """Where the brace block ends that begins at or behind `at`."""
    at = text.index("{", at)
    depth = 0
    for i in range(at, len(text)):
        depth += {"{": 1, "}": -1}.get(text[i], 0)
        if depth == 0:
            return at, i + 1
    return at, len(text)


FN = re.compile(r"^( *)(pub )?(const )?(extern '' )?fn (\w+)", re.M)


class Source:
    def __init__(self, path, name):
        raw = open(path, encoding="utf-8").read()
        self.name, self.text = name, clean(raw)
        self.functions = []
        for m in FN.finditer(self.text):
            # Clauses stand between the parameters and the body, whose brace begins a line or ends the parameters' line.
            at = m.end()
            body = re.compile(r"^%s\{|(?<=[\w>\])]) \{$" % m.group(1), re.M).search(self.text, at)
            if not body:
                continue
            begin = self.text.index("{", body.start())
            _, end = block_end(self.text, begin)
            head = self.text[m.start():begin]
            self.functions.append((m.group(5), head, self.text[begin:end], self.line(m.start())))

    def line(self, at):
        return self.text.count("\n", 0, at) + 1


def places(sources):
    found = collections.defaultdict(list)

    def put(kind, source, line, what):
        found[kind].append((source.name, line, what))

    clauses = collections.defaultdict(list)
    together = collections.defaultdict(list)
    shapes = collections.defaultdict(list)
    for s in sources:
        for m in re.finditer(r"struct (\w+)[^{;]*\{", s.text):
            _, end = block_end(s.text, m.start())
            fields = re.findall(r"(\w+): ([^,\n]+),", s.text[m.start():end])
            names = [n for n, _ in fields]
            if "refusal" in names:
                put("1 answers: a struct of a refusal beside values", s, s.line(m.start()), m.group(1))
            elif "bool" in [t for _, t in fields] and len(fields) > 1:
                put("1 flags: a struct of a flag beside values", s, s.line(m.start()), m.group(1))
            if "len" in names or [t for _, t in fields if t.startswith("[")][1:]:
                put("6 buffers: a struct of bytes and their length, or of two arrays", s, s.line(m.start()), m.group(1))
        for m in re.finditer(r"enum (\w+)[^{;]*\{", s.text):
            _, end = block_end(s.text, m.start())
            body = s.text[m.start():end]
            variants = re.findall(r"^ {4,8}(\w+)", body, re.M)
            error = re.search(r", %s>" % m.group(1), s.text)
            if not error and re.search(r"Refused|^ +None\b|Nothing|Nowhere", body, re.M) and 2 <= len(variants) <= 3:
                put("1 enums: an enum of the shape of Option or Result", s, s.line(m.start()), m.group(1))
        for m in re.finditer(r"^ *(?:pub )?const (\w+): (?:u32|usize|u8) = (\d+);", s.text, re.M):
            if os.path.basename(s.name) == "refusal.rt" or re.search(r"EDITION|UNKNOWN|BAD_|REPEATED|NOT_ENDED|OTHER_", m.group(1)):
                put("1 numbers: a constant that numbers a kind or a refusal", s, s.line(m.start()), m.group(1))
        for m in re.finditer(r"\brefusal::[A-Z_]+\b|\bNumberAnswer::\w+", s.text):
            put("1 uses: a refusal made or tested by its number", s, s.line(m.start()), m.group(0))
        for name, head, body, line in s.functions:
            for m in re.finditer(r"\bwhile ([^{]*)\{", body):
                counted = re.findall(r"\b([a-z]\w*)\b", m.group(1))
                _, end = block_end(body, m.start())
                inner = body[m.end():end]
                steps = [v for v in counted if re.search(r"\b%s [+-]= (1|\w+)\b" % v, inner)]
                kind = "3 counted: a loop that counts by hand" if steps else "3 others: another `while`"
                put(kind, s, line + body.count("\n", 0, m.start()), name)
            arms = re.findall(r"=> ([^,{}]+|\{[^{}]*\}),?", body)
            plain = re.sub(r"\s+", " ", body).strip()
            if re.match(r"\{ (let \w+ = )?match [\w.]+ \{", plain) and len(arms) > 2 and all(re.match(r"^-?[\w:.']+$", a.strip()) for a in arms):
                put("4 conversions: a match from an enum to a constant, or back", s, line, name)
            if len(re.findall(r"self\.\w+ [!=]= \w+\.\w+|\b(\w+)\.(\w+) == (\w+)\.\2\b", body)) > 1:
                put("4 equality: fields compared one by one", s, line, name)
            for c in re.findall(r"requires(?: \w+)? \{ (.*) \}", head):
                for fact in re.split(r" × ", c):
                    clauses[(s.name.split("/")[0], re.sub(r"[()]", "", fact))].append((s, line, name))
            params = re.search(r"\(([^{]*?)\)(?: ->|\s)", head[head.index("fn "):], re.S)
            given = tuple(re.findall(r"(\w+): (&?(?:mut )?[\w\[\]; :]+)", params.group(1))) if params else ()
            for i in range(len(given) - 1):
                for j in range(i + 2, len(given) + 1):
                    if j - i >= 3:
                        together[(s.name.split("/")[0], given[i:j])].append((s, line, name))
            if re.search(r"\b(keyword|place|kind|step|row) == \d+|\bkeyword ==|match (keyword|place|step)", body) and len(re.findall(r"\} else if|=>|if ", body)) > 2:
                put("7 switches: a choice by number of what to run", s, line, name)
            tokens = re.sub(r"\s+", " ", re.sub(r"\b\d\w*\b|\b[A-Z]\w*\b|''", "#", head[head.index("fn "):].split("requires")[0].split("ensures")[0] + body))
            tokens = re.sub(r"fn \w+", "fn", tokens)
            called = re.sub(r"\b([a-z_]\w*)(::\w+)*\(", "f(", tokens)
            if len(body) > 90:
                shapes[called].append((s, line, name))
    for same in shapes.values():
        if len(same) > 1:
            for s, line, name in same:
                put("2 twins: a function of the same shape as another", s, line, "%s (%d alike)" % (name, len(same)))
    for (_, fact), at in clauses.items():
        if len({n for _, _, n in at}) > 2:
            for s, line, name in at:
                put("5 facts: a clause's fact that three or more functions ask for", s, line, "%s: %s" % (name, fact))
    kept = {}
    for (crate, given), at in together.items():
        if len({n for _, _, n in at}) > 2:
            for s, line, name in at:
                kept.setdefault((s.name, line, name), given)
    for (file, line, name), given in kept.items():
        found["5 parameters: three or more that travel through three or more functions"].append((file, line, "%s(%s)" % (name, ", ".join(n for n, _ in given))))
    return found


def main():
    args = sys.argv[1:]
    point = None
    if args[:1] == ["--list"]:
        point, args = args[1], args[2:]
    top = args[0] if args else os.path.join(os.path.dirname(os.path.abspath(__file__)), "..")
    crates = os.path.join(top, "crates")
    sources = [Source(p, os.path.relpath(p, crates)) for p in sorted(glob.glob(crates + "/*/src/**/*.rt", recursive=True))]
    found = places(sources)
    for kind in sorted(found):
        if point is None:
            print("%5d  %s" % (len(found[kind]), kind))
        elif kind.startswith(point):
            for name, line, what in found[kind]:
                print("%s:%d: %s" % (name, line, what))


main()
