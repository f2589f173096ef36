#!/usr/bin/env python3
"""Runs every example of the pages below and compares what is printed, byte for byte, with what the page says. An
example is

- a block whose first line begins with `$ `: each such line is a command, run in the repository's folder, and the lines
  behind it are all that it writes;
- a block, the word `prints` alone, and a second block: the first is a torn page for ./catalogue, or a whole C program
  (```c) for the archives;
- a call and its number in the text, `graha_tithi(33649) = 14`.

Of any other block each line must be a command of this repository, or the block must stand in the file that is linked
right before it; a formula stands in a block marked ```text.

  python3 docs/check_examples.py    after the programs, the archives host and records and the controller's are built:
                                    prints a line for each example that differs, then the counts, and exits with 1 where
                                    one differs or a page has none"""
import os
import pathlib
import re
import subprocess
import sys
import tempfile
import textwrap

ROOT = pathlib.Path(__file__).resolve().parent.parent
PAGES = ["README.md", *(f"docs/{name}.md" for name in "almanac controller drift engraving find host iso lunar-month month rules saka signs why".split())]
ARCHIVES = ["target/staticlib/libhost.a", "target/staticlib/librecords.a"]
BLOCK = re.compile(r"^```(?P<language>\w*)\n(?P<fenced>.*?)^```$|(?P<indented>(?:^ {4}[^\n]*\n(?:\n+(?= {4}))?)+)", re.M | re.S)
CLAIM = re.compile(r"`(graha_\w+\([\w,\s]*\))\s=\s(\d+)`")
LINK = re.compile(r"\]\(([^)#]+)\)")


def run(command, given=""):
    """What a command writes, to standard error too; that it failed is said behind it."""
    try:
        done = subprocess.run(command, cwd=ROOT, input=given.encode(), stdout=subprocess.PIPE, stderr=subprocess.STDOUT, timeout=120)
    except (OSError, subprocess.TimeoutExpired) as error:
        return str(error)
    return done.stdout.decode(errors="replace") + (f"(exit status {done.returncode})" if done.returncode else "")


def run_c(program):
    """What a C program writes that is built against the archives."""
    with tempfile.TemporaryDirectory() as folder:
        source, built = f"{folder}/example.c", f"{folder}/example"
        pathlib.Path(source).write_text(program, encoding="utf-8")
        flags = ["-std=c99", "-Wall", "-Wextra", "-pedantic", "-Werror", "-I", "include"]
        return run(["cc", *flags, "-o", built, source, *ARCHIVES]) or run([built])


def values(calls):
    """What the calls hand back, a line each."""
    prints = "\n".join(f'    printf("%u\\n", (unsigned){call});' for call in calls)
    return run_c(f'#include <stdio.h>\n#include "grahalaghava.h"\n\nint main(void)\n{{\n{prints}\n}}\n')


def stands_in(block, linked):
    """The block's lines stand one after another in the file, however far indented."""
    lines = [line.strip() for line in block.splitlines()]
    source = [line.strip() for line in linked.read_text(encoding="utf-8").splitlines()] if linked.is_file() else []
    return any(source[at:at + len(lines)] == lines for at in range(len(source)))


def blocks(text):
    """Each block: its line, its language, its lines, and the text between it and the block before."""
    end = 0
    for block in BLOCK.finditer(text):
        body = block["fenced"] if block["indented"] is None else textwrap.dedent(block["indented"])
        yield text[:block.start()].count("\n") + 1, block["language"], body.rstrip("\n") + "\n", text[end:block.start()].strip()
        end = block.end()


def difference(printed, said):
    """The first line that differs, or None."""
    printed, said = ([*text.split("\n"), "(the end)"] for text in (printed, said))
    return next((f"`{a}` is printed, and the page says `{b}`" for a, b in zip(printed, said) if a != b), None)


def examples(page, text):
    """For each example its line, what it is, and how it differs, or None."""
    found = list(blocks(text))
    for (line, language, body, before), following in zip(found, [*found[1:], None]):
        if before == "prints" or language == "text":
            continue
        if body.startswith("$ "):
            for shown in re.split(r"^\$ ", body, flags=re.M)[1:]:
                command, said = shown.split("\n", 1)
                yield line, command, difference(run(["bash", "-c", command]), said)
        elif following and following[3] == "prints":
            printed = run_c(body) if language == "c" else run(["./catalogue"], body)
            yield line, "the program" if language == "c" else "the page", difference(printed, following[2])
        else:
            links = LINK.findall(before)
            commands = all(os.access(ROOT / command.split()[0], os.X_OK) for command in body.splitlines() if command)
            held = commands or links and stands_in(body, (ROOT / page).parent / links[-1])
            yield line, "the block", None if held else "it is no example and no command, and no file linked right before it has it"
    claims = list(CLAIM.finditer(text))
    printed = values([claim[1] for claim in claims]).splitlines() if claims else []
    if len(printed) != len(claims):
        yield 1, "the calls in the text", printed[0]
    else:
        for claim, value in zip(claims, printed):
            yield text[:claim.start()].count("\n") + 1, claim[1], difference(value, claim[2])


tried = faults = 0
for page in PAGES:
    here = list(examples(page, (ROOT / page).read_text(encoding="utf-8")))
    differ = [f"{page}:{line}: {what}: {fault}" for line, what, fault in here if fault]
    differ += [] if here else [f"{page}: it has no example"]
    for fault in differ:
        print(fault)
    tried, faults = tried + len(here), faults + len(differ)
print(f"{tried} examples in {len(PAGES)} pages, {faults} that differ")
sys.exit(bool(faults))
