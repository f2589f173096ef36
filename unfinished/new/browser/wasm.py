"""A portable module linked for wasm32 with the kit's clang and linker, and what the result is held to: no imports, the
calls that README.md tells and no others, the memory and where it is free, and a limit in bytes."""
import pathlib
import re
import sys

HERE = pathlib.Path(__file__).resolve().parent
sys.path.append(str(HERE.parent / "portable"))
import caught
import module
from caught import Failed, run
from tables import with_tables

MODULE_LIMIT = 64 * 1000
# The stack stands in front of all else in the module's memory: who went below it would leave the memory, which traps.
STACK = 256 * 1024
# All is compiled for size but for these, in which a search spends its time, and the count of a day's lunar months.
FAST = re.compile(r"search::.*|longitudes::.*|panchanga::mean_on|lunar_months::.*")
TARGET = ["--target=wasm32", "-mbulk-memory", "-O2", "-Wno-override-module"]
LINKED = ["--no-entry", "--stack-first", "-z", f"stack-size={STACK}", "--gc-sections", "--strip-all", "--compress-relocations", "--fatal-warnings", "--export=__heap_base"]
HEADER = b"\0asm\1\0\0\0"
IMPORTS, EXPORTS = 2, 7
KINDS = ["function", "table", "memory", "global"]
BESIDE = {("memory", "memory"), ("global", "__heap_base")}


def calls():
    """The calls that the page makes, from the table in README.md."""
    return set(re.findall(r"^\|`(desk_\w+)\(", (HERE / "README.md").read_text(encoding="utf-8"), re.M))


class Reader:
    """The bytes of a module, one part after the other."""

    def __init__(self, contents):
        self.contents, self.at = contents, 0

    def byte(self):
        self.at += 1
        return self.contents[self.at - 1]

    def number(self):
        value = shift = 0
        while True:
            byte = self.byte()
            value |= (byte & 0x7F) << shift
            if byte < 0x80:
                return value
            shift += 7

    def take(self, count):
        self.at += count
        return self.contents[self.at - count:self.at]


def sections(contents):
    """The sections of a module by their numbers."""
    if contents[:8] != HEADER:
        raise Failed("the linker made no module")
    reader, found = Reader(contents), {}
    reader.take(8)
    while reader.at < len(contents):
        number = reader.byte()
        found[number] = reader.take(reader.number())
    return found


def exports(contents):
    """What a module exports, each a kind and a name."""
    reader = Reader(sections(contents).get(EXPORTS, b"\0"))
    found = []
    for _ in range(reader.number()):
        name = reader.take(reader.number()).decode()
        found.append((KINDS[reader.byte()], name))
        reader.number()
    return found


def held(contents, wanted):
    """The faults of a module: it imports nothing, has these calls and no others, and keeps its limit."""
    has = exports(contents)
    functions = {name for kind, name in has if kind == "function"}
    others = {(kind, name) for kind, name in has if kind != "function"}
    faults = ["it imports something"] if IMPORTS in sections(contents) else []
    faults += [f"it lacks {name}" for name in sorted(wanted - functions)]
    faults += [f"it has {name}, which README.md does not tell" for name in sorted(functions - wanted)]
    faults += [] if others == BESIDE else [f"beside the calls it exports {sorted(others)}"]
    faults += [f"it has {len(contents)} bytes, not under {MODULE_LIMIT}"] if len(contents) >= MODULE_LIMIT else []
    return faults


def compiled(portable, made):
    """The object of a portable text, its long constants in tables."""
    text, small = made.with_suffix(".ll"), made.with_suffix(".csv")
    text.write_text(with_tables(portable.read_text(encoding="utf-8")), encoding="utf-8")
    functions = [name.strip('"') for name in module.functions(text.read_text(encoding="utf-8"))[0]]
    small.write_text("".join(f"{name},{mark}\n" for name in functions if not FAST.fullmatch(name) for mark in ("minsize", "optsize")), encoding="utf-8")
    run([caught.clang(), *TARGET, "-mllvm", f"-forceattrs-csv-path={small}", "-x", "ir", "-c", text, "-o", made], "clang refuses the module")
    return made


def linked(compiled, made, names, words=()):
    """The module of an object, with these calls exported. The kit's linker is the one for wasm by its name."""
    linker = made.with_name("wasm-ld")
    linker.unlink(missing_ok=True)
    linker.symlink_to(caught.clang().with_name("ld.lld"))
    run([linker, *LINKED, *words, *(f"--export={name}" for name in sorted(names)), compiled, "-o", made], "the module cannot be linked")
    return made.read_bytes()
