"""Puts the long constants of a portable module into tables of the module.

A constant reaches clang as one store for each of its bytes, and clang makes code of them, more than twice as long as
the constant: the names and messages alone would take a third of the module. Here such a run of stores, at one address
and the bytes behind it with nothing between them, becomes one copy of a table that has these bytes. Each address in the
run but the first is named for its store alone: were it used elsewhere, clang would miss it and refuse the text."""
import re

STORE = re.compile(r"  store i8 (-?\d+), ptr (%\w+), align 1")
ADDRESS = re.compile(r"  (%\w+) = getelementptr i8, ptr (%\w+), i64 (\d+)")
COPY = "  call void @llvm.memmove.p0.p0.i64(ptr {}, ptr {}, i64 {}, i1 false)"
TABLE = '{} = private unnamed_addr constant [{} x i8] c"{}", align 1'
# Shorter constants are no longer as stores.
LEAST = 32


def run_at(lines, at):
    """The address and the bytes that are stored from a line on, one behind another, and how many lines do that."""
    first = STORE.fullmatch(lines[at])
    if not first:
        return None, b"", 0
    stored = [int(first[1])]
    for here in range(at + 1, len(lines) - 1, 2):
        address, store = ADDRESS.fullmatch(lines[here]), STORE.fullmatch(lines[here + 1])
        if not (address and store and address[2] == first[2] and int(address[3]) == len(stored) and store[2] == address[1]):
            break
        stored.append(int(store[1]))
    return first[2], bytes(byte & 0xFF for byte in stored), 2 * len(stored) - 1


def with_tables(text):
    lines, made, tables, at = text.split("\n"), [], {}, 0
    while at < len(lines):
        address, stored, length = run_at(lines, at)
        if len(stored) < LEAST:
            made.append(lines[at])
            at += 1
        else:
            table = tables.setdefault(stored, f"@constant.{len(tables)}")
            made.append(COPY.format(address, table, len(stored)))
            at += length
    return "\n".join([*made, *(TABLE.format(name, len(stored), "".join(f"\\{byte:02X}" for byte in stored)) for stored, name in tables.items()), ""])
