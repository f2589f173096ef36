#!/usr/bin/env python3
"""Holds the must-fail edits to what they are for. An edit may hold several wrong answers, each under a comment of its
own; that the crate is refused says of one of them that it is, and `rt must-fail` tells the first line alone. So each
edit is made in a copy of the crates, `rt check` is run there, and what it says is read for each wrong answer:

- every function that the edit changes is refused, by a fact that fails in that function's own proof (an answer that is
  refused, a goal that has none and that the prover does not find, or one that an answer leaves to a search, where the
  prover found values at which it is false);
- the prover says of each fact of a proof whether it fails, so that a function may be given several wrong answers at
  once: then the comment of each ends with the name of a fact in parentheses, which fails and is no other's (so too for
  several changes of meanings, where the fact may be named with its proof, as `day_of::returns-2`);
- a wrong answer of which what is said of all does not show this (its function calls another that is refused, say, so
  that the prover does not come to its goals) is tried alone, and then any fact of the function will do;
- where the edit changes what a function promises too, or brings a new one, it may be proved: then a fact fails in a
  function that names it, or in one that is called beside it;
- where it changes a constant (or a struct), a fact fails in the proof of a function that names it or a constant made of
  it; where a meaning or a law, in some proof. An edit of an enum or a trait is none.

A proof that no longer fits the code (a name that is not there, a goal of another name, a step that hangs on a refused
one) is no fact. A goal is named after the code (`returns-then-number-le-LAST`), so an edit keeps such names: a goal of
another name that the prover does not find is a fact only where the prover found values at which it is false.
docs/contracts.md must name every edit, and no edit that is not there.

  python3 docs/check_edits.py [CRATE..]    prints a line for each complaint and then the counts, and exits with 1 where
                                           there is a complaint. What a check said is kept in target/must-fail/ and read
                                           again as long as nothing that it stands on changes"""
import concurrent.futures
import fcntl
import hashlib
import os
import pathlib
import re
import shutil
import subprocess
import sys
import tempfile

ROOT = pathlib.Path(__file__).resolve().parent.parent
PAGE = ROOT / "docs/contracts.md"
LOGS = ROOT / "target/must-fail"
COPIES = pathlib.Path(tempfile.gettempdir()) / f"check-edits-{hashlib.sha256(str(ROOT).encode()).hexdigest()[:16]}"
PARTS = ("src", "specs", "proofs")
ITEM = re.compile(r'( *)(?:pub )?(?:extern "C" )?(fn|const|struct|enum|trait|impl|mod)(?:<[^>]*>)? (\w+)')
IMPL = re.compile(r" *impl(?:<[^>]*>)? (\w+)(?:<(\w+)>)? for (\w+)")
ERROR = re.compile(r"(?:\./)?(proofs/\S+\.antt):\d+:\d+: error: (?:`(\S+)`: )?(.*)")
FUNCTION = re.compile(r"fn (\S+): (proved|not proved|no proof)(.*)")
# A goal for which an answer's search found no proof is a fact only where values are found at which it is false.
SOUGHT = "`search` found no proof"
OPEN = re.compile(rf"note: src/\S+: (?:it is not proved that .*?|{SOUGHT}) \(`([^\s`]+)`\)(.*)")
FALSE = "allow values at which this goal is false"
# What the prover says where a proof no longer fits the code.
UNFIT = re.compile(r"can be named from here|has no field|\(nearest: \.|was not admitted|not in scope|is no module|no module is found|which was rejected|differ (only )?where one has `\S+\.Lts\.[A-Z]")
NAME = re.compile(r"`(?:(\w+)/must-fail/)?([a-z]\w*_\w+)(\.edit)?`")


def files(folder, part):
    """The text of each file of a part of a crate's folder."""
    return {str(path.relative_to(folder)): path.read_text(encoding="utf-8") for path in sorted((folder / part).rglob("*.*"))}


def items(crate, sources):
    """The text of each function, by its name in the log, and of each constant, struct, enum and trait, by that word and
    its name; under no name all else but what `ghost use` brings. By the layout that `rt fmt` holds the files to, what
    opens at an indent ends at the next `}` of that indent, and a constant or a struct without fields with a `;`. What a
    trait declares is its own text. The log calls the functions of `impl From<Refusal> for NotPut` by
    `NotPutFromRefusal`. An edit's text is one line, in which a function may stand whole and another begin, and a
    constant of a function's own."""
    texts = {}
    for path, text in sources.items():
        module = [part for part in pathlib.PurePath(path).with_suffix("").parts[1:] if part not in ("lib", "main")]
        opened = []
        for line in re.sub(r"ghost use [^;]*;", "", text).replace("} fn ", "}\nfn ").splitlines():
            start = ITEM.match(line)
            if start and not (start[2] == "mod" and line.endswith(";")) and not (opened and opened[-1][1] in ("fn", "trait")):
                of = IMPL.match(line)
                opened.append((start[1], start[2], "".join([of[3], of[1], of[2] or ""]) if of else start[3]))
            indent, kind, name = opened[-1] if opened else ("", "", "")
            if kind == "fn":
                name = "::".join([crate, *module, *(part for _, _, part in opened)])
            key = name if kind == "fn" else f"{kind} {name}" if kind in ("const", "struct", "enum", "trait") else ""
            texts[key] = texts.get(key, "") + line.rstrip() + "\n"
            whole = start and (line.endswith("}") and line.count("{") == line.count("}") or kind == "struct" and line.endswith(";"))
            if opened and (line.endswith(";") if kind == "const" else whole or line == indent + "}"):
                opened.pop()
    return texts


def clauses(text):
    """What a function promises and asks for: each clause, to the brace that ends it."""
    found = []
    for start in re.finditer(r"\b(?:requires|ensures)\b[\w ]*\{", text):
        depth, end = 1, start.end()
        while depth and end < len(text):
            depth, end = depth + {"{": 1, "}": -1}.get(text[end], 0), end + 1
        found.append(text[start.start() : end])
    return found


def changed(before, after):
    return [name for name in sorted({*before, *after}) if before.get(name) != after.get(name)]


def answers(edit):
    """The wrong answers of an edit, each under its comment: its changes, as a file's path, the old text and the new
    one, and the fact that the comment names at its end."""
    found, path, old, above = [], "", "", False
    for line in edit.read_text(encoding="utf-8").splitlines():
        if not found or line.startswith("#") and not above:
            found.append([[], ""])
        above = line.startswith("#")
        if above:
            found[-1][1] = (re.search(r"\(([^\s()]+)\)$", line) or ["", ""])[1]
        elif line.startswith("file: "):
            path = line[6:]
        elif line.startswith("old: "):
            old = line[5:]
        elif line.startswith("new:"):
            found[-1][0].append((path, old, line[4:].removeprefix(" ")))
    return found


def made(texts, changes):
    """The texts with the changes, made in their order as `rt` makes them, or None where one of them cannot be made."""
    texts = dict(texts)
    for path, old, new in changes:
        if texts.get(path, "").count(old) != 1:
            return None
        texts[path] = texts[path].replace(old, new)
    return texts


def of_part(texts, *parts):
    return {path: text for path, text in texts.items() if path.startswith(tuple(f"{part}/" for part in parts))}


def made_of(name, texts):
    """The name of a constant, and of each constant that is made of it."""
    names = [name]
    for one in names:
        names += [other[6:] for other in texts if other.startswith("const ") and other[6:] not in names and re.search(rf"\b{one}\b", texts[other])]
    return names


def place_of(function):
    """The folder of a function's proof. That of one that calls itself has a + before its last name."""
    return "proofs/" + "/".join(function.split("::")[1:])


def place_in(path):
    folder, _, file = path.rpartition("/")
    return folder.replace("+", "") if file in ("Answers.antt", "Invariants.antt", "Proof.antt") else path.removesuffix(".antt")


def fails(log):
    """Each fact that fails: the place of its proof and the fact's name; and what is said of each function."""
    errors = [error for error in map(ERROR.fullmatch, log) if error]
    unfit = {place_in(error[1]) for error in errors if UNFIT.search(error[3])}
    found = {(place_in(error[1]), error[2]) for error in errors if not UNFIT.search(error[3])}
    said, left = {}, []
    for line in log:
        goal, function = OPEN.fullmatch(line), FUNCTION.fullmatch(line)
        if goal:
            left.append((goal[1], FALSE in goal[2], SOUGHT in line))
        elif function:
            place, said[function[1]] = place_of(function[1]), function[2]
            found |= {(place, fact) for fact, is_false, is_sought in left if is_false or not is_sought and place not in unfit}
            left = []
    return found, said


def names_of(place, fact):
    """A fact's own name, and with that of its proof before it."""
    return [fact, place.removeprefix("proofs/").replace("/", "::") + f"::{fact}"] if fact else []


def judged(crate, texts, edited, log):
    """A complaint for each item that a change alters and that is not refused, by its name, and by the name of each that
    is altered the facts that fail there. `meaning` stands for the meanings and laws, and no name for all else."""
    failing, said = fails(log)
    places = {place for place, _ in failing}
    before, after = (items(crate, of_part(it, "src")) for it in (texts, edited))
    wrong = changed(before, after)
    own = {name: place_of(name) for name in {*before, *after} if name.startswith(crate + "::")}
    found, apart = {}, []
    for name in wrong:
        if name.startswith("struct ") or said.get(name) == "proved" and clauses(before.get(name, "")) != clauses(after[name]):
            apart.append(name)
        elif name in own and said.get(name, "proved") == "proved":
            found[name] = f"{name} is not refused"
        elif name in own and own[name] not in places:
            found[name] = f"no fact fails in {name}"
        elif name.startswith("const "):
            names = "|".join(made_of(name[6:], before))
            users = {own[user] for user in own if user not in wrong and re.search(rf"\b({names})\b", before.get(user, ""))}
            if not users & places:
                found[name] = f"no fact fails in a function that names {name[6:]} and stands as it was"
    reached = [name for name in own if own[name] in places]
    for user in reached:
        reached += [name for name in apart if name not in reached and re.search(rf"\b{re.split('::| ', name)[-1]}\b", after.get(user, ""))]
    for name in apart:
        beside = [user for user in own if re.search(rf"\b{re.split('::| ', name)[-1]}\b", after.get(user, "")) and user != name]
        called = [callee for callee in reached if any(re.search(rf"\b{callee.split('::')[-1]}\(", after[user]) for user in beside)]
        if name not in reached and not called:
            found[name] = f"no fact fails in a function that names {name} or is called beside it"
    altered = {own[name] for name in wrong if name in own}
    meant = of_part(texts, "specs", "proofs") != of_part(edited, "specs", "proofs")
    if meant and not places - altered:
        found["meaning"] = "no fact fails in a proof of what stands as it was"
    others = [name for name in wrong if name.startswith(("enum ", "trait ")) or not name]
    if others or not (wrong or meant):
        found[""] = "it changes something else than functions, constants and structs" if others else "it changes nothing"
    shown = {name: {word for place, fact in failing if place == own.get(name) for word in names_of(place, fact)} for name in wrong if name not in apart}
    if meant:
        shown["meaning"] = {word for place, fact in failing if place not in altered for word in names_of(place, fact)}
    return found, shown


def linked(one, other):
    """What a check keeps: it puts a new file in the place of such a one, and changes none."""
    if str(one).endswith(".oantt"):
        os.link(one, other)
    else:
        shutil.copy2(one, other)


class Copy:
    """A copy of the repository's crates, in which the edits of one of them are made and checked. It stands in a folder
    of the same name each time: `rt` remembers where checks left what they keep."""

    def __init__(self, crate):
        self.name, self.top, self.texts = crate, COPIES / crate, {}
        shutil.rmtree(self.top, ignore_errors=True)
        self.top.mkdir(parents=True)
        for name in ("crates.txt", "HANDLES"):
            if (ROOT / name).is_file():
                shutil.copy2(ROOT / name, self.top / name)
        shutil.copytree(ROOT / "crates", self.top / "crates", ignore=shutil.ignore_patterns("out", "must-fail"))
        self.folder = self.top / "crates" / crate
        for part in PARTS:
            self.texts |= files(self.folder, part)
        self.kept, self.sum, self.is_proved = self.top / "kept", self.sum_of(), None

    def sum_of(self):
        """A sum of all that a check stands on: the kit, and the files of the crate and of those below it."""
        whole = hashlib.sha256(subprocess.run(["rt", "version"], stdout=subprocess.PIPE, check=True).stdout)
        lines = [line.partition("#")[0] for line in (ROOT / "crates.txt").read_text(encoding="utf-8").splitlines()]
        below = {line.partition(":")[0].split()[0]: line for line in lines if ":" in line}
        names = [self.name]
        for name in names:
            names += [it for it in below[name].partition(":")[2].split() if it in below and it not in names]
        for name in sorted(names):
            whole.update(repr((below[name], [files(self.top / "crates" / name, part) for part in PARTS])).encode())
        return whole.hexdigest()

    def checked(self):
        ran = subprocess.run(["rt", "check", "--jobs", "1"], cwd=self.folder, stdin=subprocess.DEVNULL, stdout=subprocess.PIPE, stderr=subprocess.STDOUT, text=True, errors="replace")
        return ran.returncode, ran.stdout.splitlines()

    def log(self, path, edited):
        """What the check says of the crate with these texts, from the file in which an earlier run kept it, or anew."""
        stamp = hashlib.sha256(repr((self.sum, edited)).encode()).hexdigest()
        if path.is_file():
            known = path.read_text(encoding="utf-8").splitlines()
            if known[:1] == [stamp]:
                return known[1:]
        if self.is_proved is None:
            self.is_proved = not self.checked()[0]
            if self.is_proved:
                shutil.copytree(self.folder / "out/incremental", self.kept, symlinks=True, copy_function=linked)
        if not self.is_proved:
            return None
        other = {it: text for it, text in edited.items() if text != self.texts[it]}
        for it, text in other.items():
            (self.folder / it).write_text(text, encoding="utf-8")
        log = self.checked()[1]
        for it in other:
            (self.folder / it).write_text(self.texts[it], encoding="utf-8")
        shutil.rmtree(self.folder / "out/incremental", ignore_errors=True)
        shutil.copytree(self.kept, self.folder / "out/incremental", symlinks=True, copy_function=linked)
        path.parent.mkdir(parents=True, exist_ok=True)
        path.write_text("\n".join([stamp, *log]) + "\n", encoding="utf-8")
        return log


def complaints(copy, label):
    """Each complaint on an edit, and how many wrong answers it holds."""
    given = answers(ROOT / "crates" / copy.name / "must-fail" / f"{label}.edit")
    edited = made(copy.texts, [change for changes, _ in given for change in changes])
    if edited is None:
        return ["it cannot be made"], 0
    log = copy.log(LOGS / copy.name / label / "all", edited)
    if log is None:
        return [f"{copy.name} is not proved as it stands"], 0
    faults, shown = judged(copy.name, copy.texts, edited, log)
    # What each answer alters, which is told by the changes made in their order.
    altered, texts = [], copy.texts
    for changes, _ in given:
        after = made(texts, changes)
        names = changed(*(items(copy.name, of_part(it, "src")) for it in (texts, after)))
        altered.append(names + ["meaning"] * (of_part(texts, "specs", "proofs") != of_part(after, "specs", "proofs")))
        texts = after
    found = [faults[""]] if "" in faults else []
    count = 0
    for number, (changes, fact) in enumerate(given):
        names = [name for name in altered[number] if name in shown or name in faults]
        count += len([name for name in altered[number] if name in shown])
        rivals = [given[other][1] for other in range(len(given)) if other != number and any(name in altered[other] for name in names if name in shown)]
        is_named = fact and fact not in rivals and all(fact in shown[name] for name in names if name in shown)
        if not any(name in faults for name in names) and (is_named or not fact and not rivals):
            continue
        alone = made(copy.texts, changes)
        told = alone and copy.log(LOGS / copy.name / label / f"alone-{number + 1}", alone)
        if not told:
            found += [faults.get(name, f"not every answer of {name} names a fact of its own that fails: {', '.join(sorted(shown.get(name, [])))}") for name in names]
            continue
        own_faults, own_shown = judged(copy.name, copy.texts, alone, told)
        found += [f"{fault} (alone)" for fault in own_faults.values()]
        if fact and not any(fact in own_shown[name] for name in own_shown):
            found.append(f"no fact {fact} fails in {', '.join(names)}, but: {', '.join(sorted({word for name in own_shown for word in own_shown[name]}))}")
    return found, count


def named(page, edits, known):
    """The edits that the page names, each by its label in a section whose heading names its crate or with its crate in
    front, and a complaint for each name that is no edit's there and stands nowhere in the sources."""
    found, faults, about, crates = set(), [], [], []
    for number, line in enumerate(page.splitlines(), 1):
        if line.startswith("#"):
            here = [word for word in re.findall(r"\w+", line) if (ROOT / "crates" / word).is_dir()]
            if line.startswith("## "):
                about = here
            crates = here or about
            continue
        for crate, label, ending in NAME.findall(line):
            there = {(name, label) for name in ([crate] if crate else crates)} & edits
            found |= there
            if not there and (crate or ending or label not in known):
                faults.append(f"docs/contracts.md:{number}: there is no edit `{label}` of {crate or ' or '.join(crates) or 'a crate'}")
    return found, faults


def of_crate(crate, labels):
    copy = Copy(crate)
    told = [(label, *complaints(copy, label)) for label in labels]
    shutil.rmtree(copy.top, ignore_errors=True)
    return told


edits = {(path.parent.parent.name, path.stem) for path in ROOT.glob("crates/*/must-fail/*.edit")}
known = {path.name for path in (ROOT / "crates").iterdir()}
for pattern in ("src/**/*.rt", "specs/**/*.antt", "proofs/**/*.antt"):
    for path in ROOT.glob(f"crates/*/{pattern}"):
        known.update(re.findall(r"\w+", path.read_text(encoding="utf-8")))
in_page, faults = named(PAGE.read_text(encoding="utf-8"), edits, known)
total = 0
LOGS.mkdir(parents=True, exist_ok=True)
turn = (LOGS / "lock").open("w")
fcntl.flock(turn, fcntl.LOCK_EX)
crates = sorted({crate for crate, _ in edits} & {*(sys.argv[1:] or {crate for crate, _ in edits})})
with concurrent.futures.ThreadPoolExecutor(2) as pool:
    for crate, told in zip(crates, pool.map(lambda crate: of_crate(crate, sorted(label for name, label in edits if name == crate)), crates)):
        for label, found, count in told:
            total += count
            faults += [f"{crate}/must-fail/{label}.edit: {fault}" for fault in found]
shutil.rmtree(COPIES, ignore_errors=True)
faults += [f"{crate}/must-fail/{label}.edit: docs/contracts.md does not name it" for crate, label in sorted(edits - in_page)]
for fault in faults:
    print(fault)
print(f"{len(edits)} edits, {total} wrong answers, {len(faults)} complaints")
sys.exit(bool(faults) or not edits)
