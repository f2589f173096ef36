#!/usr/bin/env python3
"""Turns crates/NAME/proofs/**/Proof.antt of the older form to Invariants.antt and Answers.antt.

usage: turn_proofs.py REPO NAMES CRATE..

NAMES holds what `rt names NAMES` lists, run at the top of REPO: each goal's and each step's old name and new name.
Answers that the check finds by itself are left out. What cannot be turned is said, and is left to be written by
hand."""
import json, os, re, sys, glob

repo, namesdir = sys.argv[1:3]
crates = sys.argv[3:]

def norm(s):
    s = s.replace("_", "-").lower()
    s = re.sub(r"^is(place|refused)", r"\1", s)
    return re.sub(r"-lem(?=\d*$)", "", s)

# ---- clause names of each function: crate::path -> (requires names, ensures names)
def clause_table():
    table = {}
    for cr in sorted(os.listdir(os.path.join(repo, "crates"))):
        src = os.path.join(repo, "crates", cr, "src")
        for f in glob.glob(src + "/**/*.rt", recursive=True):
            rel = os.path.relpath(f, src)[:-3].split("/")
            mod = [m for m in rel if m not in ("lib", "main", "mod")]
            impl = None
            cur = None
            for line in open(f, encoding="utf-8"):
                m = re.match(r"impl(?:<[^>]*>)?\s+(\w+)", line)
                if m and "for" not in line: impl = m[1]
                elif re.match(r"\}", line): impl = None
                m = re.match(r"(\s*)(?:#\[.*\]\s*)?(?:pub(?:\([^)]*\))? )?(?:unsafe )?(?:extern \"C\" )?(?:const )?fn (\w+)", line)
                if m:
                    path = [cr] + mod + ([impl] if impl and m[1] else []) + [m[2]]
                    cur = "::".join(path)
                    table[cur] = ([], [])
                m = re.match(r"\s*(requires|ensures)\*?\s+(\w+)?\s*\{", line)
                if m and cur:
                    table[cur][0 if m[1] == "requires" else 1].append(m[2])
    return table

TABLE = clause_table()
PUBS = {}
for k in TABLE: PUBS.setdefault(k.split("::")[0] + "::" + k.split("::")[-1], k)

def clauses_of(callee, kind):
    if not callee: return []
    t = TABLE.get(callee)
    if t is None:
        c = [k for k in TABLE if k.split("::")[0] == callee.split("::")[0] and k.split("::")[-1] == callee.split("::")[-1]]
        if len(c) != 1: return []
        t = TABLE[c[0]]
    return t[kind]

BLOCK = re.compile(r"^(?=\S)", re.M)

class Fn: pass

def parse(text):
    """head comment, use lines, list of items (text blocks)"""
    lines = text.split("\n")
    items, cur, uses, head = [], [], [], []
    i = 0
    while i < len(lines) and (lines[i].startswith("--") or not lines[i].strip()):
        head.append(lines[i]); i += 1
    body = lines[i:]
    j = 0
    while j < len(body):
        l = body[j]
        if l.startswith("use ") or l.startswith("pub use "):
            uses.append(l); j += 1; continue
        items.append(l); j += 1
    return head, uses, "\n".join(items)

def split_items(text):
    """blocks separated by blank lines at top level; comments stay with the next"""
    blocks = []
    cur = []
    for l in text.split("\n"):
        if l.strip() == "" :
            if cur: cur.append(l)
            continue
        if not l[0].isspace() and cur and any(x.strip() == "" for x in cur[-1:]):
            blocks.append("\n".join(cur).rstrip()); cur = []
        cur.append(l)
    if cur: blocks.append("\n".join(cur).rstrip())
    return blocks

PATHS = r"((?:\.before)*)((?:\.[\w'?-]+)*)"

class Turner:
    def __init__(self, crate, fnpath, info, selfname):
        self.info = info
        self.places = info["places"]
        self.idx = {p[0]: i for i, p in enumerate(self.places)}
        self.names = info["places_by_name"]
        self.arms = info["arms"]
        self.crate = crate
        self.fn = fnpath
        self.selfname = selfname
        self.warn = []
        self.used_places = set()
        self.helper_place = {}

    def up(self, i, k):
        for _ in range(k):
            par = self.places[i][1]
            if par is None: return None
            i = self.idx[par]
        return i

    def place_of(self, old):
        n = norm(old)
        for p in self.places:
            if norm(p[0]) == n: return self.idx[p[0]]
        return None

    def field(self, i, path):
        """new text of c.<path> at place i; path: list of names (no before)"""
        first = path[0]
        if first in ("args", "requires", "pre", "well-formed", "well_formed") or (first in ("ranges", "type_inv", "bounds", "utf8", "fits")):
            while self.places[i][1] is not None: i = self.idx[self.places[i][1]]
            if first in ("well-formed", "well_formed"): return ["well_formed"] + path[1:]
        else:
            best = None
            for which in (0, 1):
                j = i
                while best is None:
                    if norm(first) == norm(self.places[j][2][which]): best = j; break
                    if self.places[j][1] is None: break
                    j = self.idx[self.places[j][1]]
            if best is None:
                # a test at another place with the same branch
                self.warn.append(f"step {first} not found above {self.places[i][0]}")
            else: i = best
        old, oldstep, newstep = self.places[i][0], self.places[i][2][0], self.places[i][2][1]
        rest = path[1:]
        if first in ("args", "ranges", "type_inv", "bounds", "utf8", "fits") and self.places[i][1] is None:
            return [first] + rest
        if first in ("requires", "pre") and self.places[i][1] is None:
            names = TABLE.get(self.fn, ([], []))[0]
            if len(names) > 1 and rest and rest[0].isdigit():
                # A x B x C: .0 and .1(.0)
                r = list(rest); k = 0
                while True:
                    d = r.pop(0)
                    if d == "0": break
                    k += 1
                    if k == len(names) - 1: break
                    if not (r and r[0].isdigit()): break
                rest = [names[k]] + r
            return ["requires"] + rest
        if self.places[i][1] is None:
            self.warn.append(f"at Start: {path}")
            return path
        if norm(first) not in (norm(oldstep), norm(newstep)):
            self.warn.append(f"step {first} at {old}, which has {oldstep}")
        # arms
        arm = self.arms[i]
        if arm:
            best = None
            for fld, step, opath in arm[2]:
                if step == oldstep and rest[: len(opath)] == opath and opath:
                    if best is None or len(opath) > len(best[1]): best = (fld, opath)
            if best:
                return [arm[0], best[0]] + rest[len(best[1]):]
            if rest[:1] == ["ensures"]: return [arm[0]] + rest
        if oldstep in [l[0][0] for l in self.info["loops"]] and rest:
            return [newstep] + rest
        if rest:
            rest = [{"taken": "true", "left": "false"}.get(rest[0], rest[0])] + rest[1:]
        if rest[:1] == ["ensures"] and len(rest) > 1 and rest[1].isdigit():
            names = clauses_of(self.places[i][3], 1)
            if len(names) > 1:
                r = rest[1:]; k = 0
                while True:
                    d = r.pop(0)
                    if d == "0": break
                    k += 1
                    if k == len(names) - 1: break
                    if not (r and r[0].isdigit()): break
                rest = ["ensures", names[k]] + r
        return [newstep] + rest

    def term(self, body, var, place, goal):
        """turns the paths of var (at place) in body"""
        env = {var: place}
        out = []
        pos = 0
        tok = re.compile(r"(?<![\w'.-])([a-z][\w'-]*)" + PATHS + r"(?![\w'-])")
        # let alias
        alias = re.compile(r"let ([\w'-]+) = ([\w'-]+)((?:\.before)+) in[ \n]*")
        while True:
            m = alias.search(body)
            found = None
            for m in alias.finditer(body):
                if m[2] in env:
                    found = m; break
            if not found: break
            k = found[3].count(".before")
            env[found[1]] = env[found[2]]
            body = body[: found.start()] + body[found.end():]
        def sub(m):
            v = m[1]
            if v not in env: return m[0]
            if v != var and re.search(r"let " + re.escape(v) + r"\b", body): return m[0]
            k = m[2].count(".before")
            path = [x for x in m[3].split(".") if x]
            i = env[v]
            if not path:
                nm = self.names[i]
                if goal is None:
                    if i == place and v == var: return "c"
                    self.warn.append(f"helper passes {m[0]}")
                    return f"(goal.at.?? c).{nm}"
                hm = re.search(r"(?<![\w'.-])([\w'-]+) $", body[: m.start()])
                if hm and hm[1] in self.helper_place: nm = self.names[self.helper_place[hm[1]]]
                else: self.warn.append(f"passes {m[0]} to {hm and hm[1]}")
                return f"(goal.at.{goal} c).{nm}"
            return ".".join(["c"] + self.field(i, path))
        out = tok.sub(sub, body)
        return re.sub(r"\(?not-(?:true|false) (?:[\w'.-]+|\([^()]*\)) (c\.if-not-[\w-]+\.(?:true|false))\)?", lambda m: m[1] if m[0].count("(") == m[0].count(")") else m[0].replace(re.search(r"not-(?:true|false) (?:[\w'.-]+|\([^()]*\)) ", m[0])[0], ""), out)

def turn(crate, path, names, dry=False):
    rel = os.path.relpath(path, os.path.join(repo, "crates", crate, "proofs"))
    parts = rel.split("/")[:-1]
    key = f"Rattle-{crate}-proofs.{'.'.join(parts)}.Lts"
    if key not in names:
        print(f"{path}: no names for {key}"); return
    text = open(path, encoding="utf-8").read()
    if ".Tie as tie" not in text:
        print(f"{path}: not the tie form"); return
    info = names[key]
    fnpath = "::".join([crate] + parts)
    t = Turner(crate, fnpath, info, None)
    head, uses, body = parse(text)
    uses = [u for u in uses if not re.search(r"\.(Statement|Tie)\b", u)]
    loops = {l[0][0]: l for l in info["loops"]}
    changed = info.get("changed", [])
    needs = info["needs"]
    bynorm = {norm(n[0]): n for n in needs}
    order = {n[1]: i for i, n in enumerate(needs)}
    answers, invs, helpers = [], [], []
    raw = {}
    for block in split_items(body):
        b = "\n".join(x for x in block.split("\n") if not x.startswith("--"))
        m = re.match(r"(?:pub )?(?:abbrev )?([\w'-]+) : (?:[^\n]*?\(c : )?tie\.([A-Z][\w-]*)", b)
        if m and m[2].startswith("Need-"): m = None
        if m:
            d = re.search(r"^" + re.escape(m[1]) + r" c =\s*(.*)\Z", b, re.M | re.S)
            if d: raw[m[1]] = d[1]
            t.helper_place[m[1]] = t.place_of(m[2])
            if t.helper_place[m[1]] is None: t.warn.append(f"no place for helper {m[1]}: {m[2]}"); t.helper_place[m[1]] = 0
    def inline(s, selfname):
        for _ in range(6):
            hit = None
            for h in raw:
                if h == selfname: continue
                hit = re.search(r"(?<![\w'.-])" + re.escape(h) + r" c((?:\.before)*)(?![.\w'-])", s)
                if hit: break
            if not hit: return s
            r = re.sub(r"(?<![\w'.-])c(?=[.\s),]|$)", "c" + hit[1], raw[h])
            s = s[: hit.start()] + "(" + r.strip() + ")" + s[hit.end():]
        return s
    dropped = 0
    base = f"Rattle.{crate}.proofs.{'.'.join(parts)}"
    for block in split_items(body):
        lines = block.split("\n")
        com = []
        while lines and lines[0].startswith("--"):
            com.append(lines.pop(0))
        if not lines: continue
        b = "\n".join(lines)
        m = re.match(r"(?:abbrev )?(?:pub )?([\w'-]+) : tie\.(invariant|decreases)-([\w-]+)(.*)\n", b)
        if m:
            l = loops.get(m[3]) or next((x for x in info["loops"] if norm(x[0][0]) == norm(m[3])), None)
            if not l: t.warn.append(f"no loop {m[3]}"); continue
            which = info["loops"].index(l)
            flags = changed[which]
            vs = l[1]
            first = [(v, f) for v, f in zip(vs, flags)]
            second = [v for v, f in zip(vs, flags) if f]
            d = re.search(r"^" + re.escape(m[1]) + r" ((?!:)[^\n=]*?) =\s*(.*)\Z", b, re.M | re.S)
            if not d: t.warn.append("inv form " + b[:80]); continue
            pars = d[1].split()
            if len(pars) != len(first) + len(second):
                t.warn.append(f"{m[1]}: {len(pars)} parameters for {len(first)} + {len(second)}")
            term = d[2]
            env = {}
            for p, (v, f) in zip(pars, first): env[p] = f"l.initial.{v}" if f else f"l.{v}"
            for p, v in zip(pars[len(first):], second): env[p] = f"l.{v}"
            tk = re.compile(r"(?<![\w'.₀-])[A-Za-z_][\w'₀₁₂-]*")
            # .now of a reference: l.x is what it points to
            term = tk.sub(lambda w: w[0] if re.match(r"\s*=[^=]", term[w.end():]) and "record" in term[: w.start()] else env.get(w[0], w[0]), term)
            term = re.sub(r"(l(?:\.\w+)+)\.now\b", r"\1", term)
            nm = f"{m[2]}-{l[0][1]}"
            unf = re.search(r"^unfolding .*$", b, re.M)
            sep = "\n    " if "\n" in d[2] or len(term) > 110 else " "
            invs.append("\n".join(com + [f"abbrev pub {nm} : goal.{nm}"] + ([unf[0]] if unf else []) + [f"{nm} l ={sep}{term}"]))
            continue
        m = re.match(r"(?:pub )?([\w'-]+) : tie\.Need-([\w-]+)[^\n]*\n", b)
        if m:
            n = norm(m[2])
            cand = [n, n.replace("overflow-", "", 1), norm(m[1])]
            nd = next((bynorm[x] for x in cand if x in bynorm), None)
            d = re.search(r"^" + re.escape(m[1]) + r" ((?!:)[^\n=]*?) =\s*(.*)\Z", b, re.M | re.S)
            if not d: t.warn.append("answer form " + b[:100]); continue
            if nd is None:
                if d[2].strip() not in ("search rules", "omega arith"): t.warn.append(f"no need for {m[2]}: {d[2][:60]}")
                continue
            if d[2].strip() in ("search rules", "omega arith") and "unfolding" not in b:
                dropped += 1; continue
            i = needs.index(nd)
            place = t.place_of(info["asked_at"][i][0])
            pars = d[1].split()
            term = t.term(d[2], pars[0], place, nd[1])
            for extra in pars[1:]:
                if re.search(r"(?<![\w'])" + re.escape(extra) + r"(?![\w'])", term): t.warn.append(f"{nd[1]} uses {extra}")
            asked = info["asked"].get(nd[0])
            if asked and len(asked) > 1:
                s = term.strip()
                tup = top_tuple(s)
                lead = ""
                rest = s
                while True:
                    lm = re.match(r"let [\w'-]+(?: : [^=]*)? = ", rest)
                    if not lm: break
                    # find matching ' in' at depth 0
                    e = find_in(rest)
                    if e < 0: break
                    lead += rest[:e]; rest = rest[e:]
                tup = top_tuple(rest.strip())
                while tup and len(tup) < len(asked):
                    more = top_tuple(tup[-1])
                    if not more: break
                    tup = tup[:-1] + more
                if tup and len(tup) >= len(asked):
                    vals = tup[: len(asked) - 1] + ([tup[len(asked) - 1]] if len(tup) == len(asked) else ["(" + ", ".join(tup[len(asked)-1:]) + ")"])
                    term = lead + "record { " + "; ".join(f"{a} = {v}" for a, v in zip(asked, vals)) + " }"
                elif tup and len(tup) == 2 and len(asked) > 2:
                    t.warn.append(f"{nd[1]}: nested tuple")
                else:
                    acc = ["both" + ".1" * k + (".0" if k < len(asked) - 1 else "") for k in range(len(asked))]
                    term = lead + f"let both = {rest.strip()} in record {{ " + "; ".join(f"{a} = {v}" for a, v in zip(asked, acc)) + " }"
            unf = re.search(r"^unfolding .*$", b, re.M)
            sep = "\n    " if "\n" in d[2] else " "
            answers.append((order[nd[1]], "\n".join(com + [f"pub {nd[1]} : goal.{nd[1]}"] + ([unf[0]] if unf else []) + [f"{nd[1]} c ={sep}{term}"]), b))
            continue
        if re.match(r"(?:pub )?[\w'-]+ : \{M : Type 1\} → statement M", b): continue
        m = re.match(r"(?:pub )?(?:abbrev )?([\w'-]+) : (?:[^\n]*?)\(c : tie\.([\w-]+)[^)]*\)[^\n]*? →(.*)", b, re.S)
        if m:
            place = t.place_of(m[2])
            if place is None: t.warn.append(f"no place {m[2]}"); continue
            t.used_places.add(t.names[place])
            new = re.sub(r"\(c : tie\.[^)]*\)", f"(c : {t.names[place]})", b, count=1)
            hd, tl = re.match(r"(.*?\(c : [^)]*\))(.*)", new, re.S).groups()
            tl = inline(tl, m[1])
            helpers.append("\n".join(com + [hd + t.term(tl, "c", place, None)]))
            continue
        m = re.match(r"((?:pub )?(?:abbrev )?([\w'-]+) : )tie\.([A-Z][\w-]*)((?: invariant-[\w-]+| decreases-[\w-]+)*) →", b)
        if m and t.place_of(m[3]) is not None:
            place = t.place_of(m[3])
            t.used_places.add(t.names[place])
            lhs = re.search(r"^" + re.escape(m[2]) + r" ([\w']+)", b, re.M)
            v = lhs[1] if lhs else "c"
            tl = inline(b[m.end():], m[2])
            helpers.append("\n".join(com + [m[1] + t.names[place] + " →" + t.term(tl, v, place, None)]))
            continue
        helpers.append("\n".join(com + [b]))
    # helpers used in invariants go into Invariants.antt
    folder = os.path.dirname(path)
    usesof = lambda s: [u for u in uses]
    if invs:
        inv = "\n".join(invs)
        with open(os.path.join(folder, "Invariants.antt"), "w", encoding="utf-8") as f:
            f.write("\n".join([f"-- What each turn of the loop keeps, and what falls."] + pick(uses, inv) + [f"use {base}.Given as goal", ""]) + "\n" + "\n\n".join(invs) + "\n")
    answers.sort(key=lambda a: a[0])
    allt = "\n\n".join(helpers + [a[1] for a in answers])
    if answers:
        imp = [f"use {base}.Goals as goal"] + ([f"use {base}.Goals.{{{', '.join(sorted(t.used_places))}}}"] if t.used_places else [])
        with open(os.path.join(folder, "Answers.antt"), "w", encoding="utf-8") as f:
            f.write("\n".join((head or ["-- Answers."]) ).rstrip() + "\n" + "\n".join(pick(uses, allt) + imp + [""]) + "\n" + allt + "\n")
    elif helpers:
        t.warn.append(f"{len(helpers)} helpers and no answer left")
    os.remove(path)
    if t.warn: print(f"{rel}: " + "; ".join(t.warn))

def find_in(s):
    """index just after ' in' + blank that ends the leading let, at depth 0 and nested lets counted"""
    depth = 0; lets = 0
    for m in re.finditer(r"[(\[{]|[)\]}]|(?<![\w'-])let(?![\w'-])|(?<![\w'-])in(?![\w'-])", s):
        x = m[0]
        if x in "([{": depth += 1
        elif x in ")]}": depth -= 1
        elif depth == 0:
            if x == "let": lets += 1
            else:
                lets -= 1
                if lets == 0:
                    e = m.end()
                    while e < len(s) and s[e] in " \n": e += 1
                    return e
    return -1

def top_tuple(s):
    if not (s.startswith("(") and s.endswith(")")): return None
    depth = 0; parts = []; cur = ""
    for i, ch in enumerate(s):
        if ch in "([{": depth += 1
        if ch in ")]}": depth -= 1
        if depth == 0 and i < len(s) - 1: return None
        if depth == 1 and ch == ",":
            parts.append(cur.strip()); cur = ""; continue
        if not (depth == 1 and ch == "(" and i == 0) and not (depth == 0): cur += ch
    if cur.strip(): parts.append(cur.strip())
    return parts if len(parts) > 1 else None

def pick(uses, text):
    """the use lines that the text needs: by name"""
    out = []
    for u in uses:
        m = re.match(r"((?:pub )?use [\w.'-]+)\.\{(.*)\}$", u)
        if not m:
            out.append(u); continue
        ns = [x.strip() for x in split_commas(m[2])]
        keep = []
        for n in ns:
            w = n.split(" as ")[-1].strip()
            parts = [p for p in w.split("◌") if p]
            if all(p in text for p in parts): keep.append(n)
        if keep: out.append(f"{m[1]}.{{{', '.join(keep)}}}")
    return out

def split_commas(s):
    return s.split(",")

for crate in crates:
    nf = os.path.join(namesdir, "crates", crate, "names.json")
    if not os.path.exists(nf):
        print(crate, "no names"); continue
    names = json.load(open(nf))
    for p in sorted(glob.glob(os.path.join(repo, "crates", crate, "proofs", "**", "Proof.antt"), recursive=True)):
        try: turn(crate, p, names)
        except Exception as e:
            import traceback
            print(f"{p}: {type(e).__name__} {e}"); traceback.print_exc()
