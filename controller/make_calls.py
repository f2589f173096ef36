#!/usr/bin/env python3
"""Writes the part of record.c and replay.c that is one function for each call of the header.

  python3 controller/make_calls.py FOLDER    writes FOLDER/record.inc, FOLDER/replay.inc, FOLDER/real.syms (objcopy's
                                             list of new names) and FOLDER/wrong.calls (a call with a number that it
                                             does not hand back)"""
import pathlib
import sys

sys.dont_write_bytecode = True
import header

WIDTH = {"uint32_t": 4, "uint64_t": 8, "double": 8}


def declaration(call, name):
    return f"{call.result} {name}({', '.join(f'{kind} {word}'.replace('* ', '*') for kind, word in call.parameters)})"


def arguments(call, other=False):
    lists = {bytes_ for bytes_, _ in call.lists()}
    return ", ".join(f"other_{word}" if other and word in lists else word for _, word in call.parameters)


def record(number, call):
    lists = call.lists()
    lines = [f"{declaration(call, 'real_' + call.name)};", "", declaration(call, call.name), "{"]
    lines += [f"    uint8_t *other_{bytes_} = turned({bytes_}, {length});" for bytes_, length in lists]
    lines += [f"    {call.result} result = real_{call.name}({arguments(call)});"]
    if lists:
        lines += [f"    if (real_{call.name}({arguments(call, other=True)}) != result)", '        stop("a result hangs on the bytes of a list");']
    lines += [f"    put_call({number});"]
    lines += [f"    put(&{word}, sizeof {word});" for _, word in call.numbers()]
    lines += [f"    put_read({bytes_}, {length});" for bytes_, length in call.lists(header.READ)]
    lines += ["    put(&result, sizeof result);"]
    lines += [f"    put_written({bytes_}, other_{bytes_}, {length});" for bytes_, length in lists]
    return lines + ["    return result;", "}", ""]


def replay(number, call):
    name, every_day = call.name, call.parameters == [("uint32_t", "day")]
    lists, read = dict(call.lists()), dict(call.lists(header.READ))
    lines = [f"static struct days days_{number};", ""] if every_day else []
    lines += [f"static int make_{number}(void)", "{"]
    for kind, word in call.numbers():
        lines += [f"    double {word} = take_double();" if kind == "double" else f"    {kind} {word} = ({kind})take({WIDTH[kind]});"]
    lines += [f"    const uint8_t *{bytes_} = show({length});" for bytes_, length in read.items()]
    lines += [f"    uint64_t expected = take({WIDTH[call.result]});"]
    if len(lists) > 1 or len(read) > 1:
        raise ValueError(f"{name} has two lists of a kind, and there is memory for one")
    lines += [f"    uint8_t *{bytes_} = lend({length});" for bytes_, length in lists.items()]
    came = f"{name}({arguments(call)})"
    lines += [f"    uint64_t came = {f'bits_of({came})' if call.result == 'double' else came};"]
    if every_day:
        lines += [f"    see(&days_{number}, day);"]
    same = ["same(came, expected)"] + [f"same_list({length})" for length in lists.values()]
    lines += [f"    int holds = {' && '.join(same)};", "    if (!holds)"]
    form = ", ".join({"double": "%a", header.WRITTEN: word, header.READ: word}.get(kind, "%llu") for kind, word in call.parameters)
    values = [word if kind == "double" else f"(unsigned long long){word}" for kind, word in call.numbers()]
    return lines + [f'        printf("in {name}({form})\\n", {", ".join(values)});', "    return holds;", "}", ""]


def table(declared, entries):
    return [f"static {declared} = {{", *(f"    {entry}," for entry in entries), "};", ""]


folder = pathlib.Path(sys.argv[1])
calls = header.calls()
if len(calls) >= 255:
    raise ValueError("more calls than a byte can number")
recorded = [line for number, call in enumerate(calls) for line in record(number, call)]
replayed = [f"enum {{ CALLS = {len(calls)} }};", ""] + [line for number, call in enumerate(calls) for line in replay(number, call)]
replayed += table("int (*const MAKE[CALLS])(void)", (f"make_{number}" for number in range(len(calls))))
replayed += table("const char *const NAMES[CALLS]", (f'"{call.name}"' for call in calls))
replayed += table("struct days *const EVERY_DAY[CALLS]",
                  (f"&days_{number}" if call.parameters == [("uint32_t", "day")] else "NULL" for number, call in enumerate(calls)))
(folder / "record.inc").write_text("\n".join(recorded), encoding="utf-8")
(folder / "replay.inc").write_text("\n".join(replayed), encoding="utf-8")
(folder / "real.syms").write_text("".join(f"{call.name} real_{call.name}\n" for call in calls), encoding="utf-8")
wrong = sum(WIDTH[kind] for kind, _ in calls[0].parameters)
(folder / "wrong.calls").write_bytes(bytes([0] + [0] * wrong + [0xFF] * WIDTH[calls[0].result]))
