"""The module that rt compiles once it has proved a crate, caught on its way to the kit's clang, and its text without
what names the machine: what controller/ and browser/ compile for machines of their own."""
import os
import pathlib
import platform
import shutil
import subprocess

import module

ROOT = pathlib.Path(__file__).resolve().parent.parent
# Where the kit's clang stands in its folder.
CLANG = ["on", platform.machine(), "toolchain", "bin", "clang"]
# What is made in the folder of whoever catches a module.
CAUGHT, TEXT, PORTABLE, INLINED = "module.bc", "module.ll", "portable.ll", "inlined.csv"


class Failed(Exception):
    pass


def run(words, what, **more):
    """Runs a command whose output matters only where it fails."""
    done = subprocess.run(words, stdout=subprocess.PIPE, stderr=subprocess.STDOUT, text=True, **more)
    if done.returncode:
        raise Failed(f"{what}:\n{done.stdout.rstrip()}")
    return done.stdout.strip()


def kit():
    """The folder of the kit, from the path of its guide."""
    return pathlib.Path(run(["rt", "doc"], "rt does not say where its kit is")).parent.parent


def clang():
    return kit().joinpath(*CLANG)


def link_all(folder, links, but):
    """Links to all that a folder holds, but for one name."""
    links.mkdir()
    for entry in folder.iterdir():
        if entry.name != but:
            (links / entry.name).symlink_to(entry)


def own_root(room):
    """A folder in which rt finds the repository's crates and what is proved of them, and keeps its logs and archives
    apart: so it can run beside an rt in the repository."""
    (room / "target").mkdir(parents=True)
    for name in ("crates", "crates.txt"):
        (room / name).symlink_to(ROOT / name)
    for name in ("rlib", "stamp"):
        (ROOT / "target" / name).mkdir(parents=True, exist_ok=True)
        (room / "target" / name).symlink_to(ROOT / "target" / name)


def proved_module(crate, out):
    """The module that rt compiles once it has proved the crate's library. rt is given a folder of links to its kit, in
    which clang is a script that keeps the module and calls the real one. (The script has an empty environment, so all
    names in it are whole.)"""
    real, room, links, kept = kit(), out / "room", out / "kit", out / CAUGHT
    for made in (room, links):
        shutil.rmtree(made, ignore_errors=True)
    own_root(room)
    for depth, name in enumerate(CLANG):
        link_all(real.joinpath(*CLANG[:depth]), links.joinpath(*CLANG[:depth]), name)
    script = links.joinpath(*CLANG)
    script.write_text(f"""#!/bin/sh
for word; do
    case $word in
    *.bc)
        [ ! -e '{kept}' ] || {{ echo 'a second module' >&2; exit 1; }}
        /bin/cp "$word" '{kept}' || exit 1
        ;;
    esac
done
exec '{real.joinpath(*CLANG)}' "$@"
""", encoding="utf-8")
    script.chmod(0o755)
    try:
        run(["rt", "staticlib", crate], "the library is not proved", cwd=room, env={**os.environ, "RATTLE_HOME": str(links)})
    finally:
        shutil.rmtree(links)
        shutil.rmtree(room)
    if not kept.is_file():
        raise Failed("rt compiled no module")
    return kept


def portable_module(kept, out, inlined):
    """The module as text, without what names the machine that rt compiles for, held to what it may hold; and the list
    of its functions that stand in the crates to be inlined."""
    run([clang(), "-x", "ir", "-S", "-emit-llvm", "-Xclang", "-disable-llvm-passes", kept, "-o", out / TEXT], "the module cannot be read")
    written = module.portable((out / TEXT).read_text(encoding="utf-8"))
    faults = module.faults(written)
    if faults:
        raise Failed("\n".join([f"the module depends on the machine, {len(faults)} times; first:", *faults[:10]]))
    (out / PORTABLE).write_text(written, encoding="utf-8")
    (out / INLINED).write_text("".join(f"{name},alwaysinline\n" for name in module.names_of(written, inlined)), encoding="utf-8")
    return out / PORTABLE, out / INLINED


def caught(crate, out, inlined=frozenset()):
    """A proved crate's module, made anew in a folder: its portable text, and the list of functions to be inlined."""
    out.mkdir(parents=True, exist_ok=True)
    for made in (CAUGHT, TEXT, PORTABLE, INLINED):
        (out / made).unlink(missing_ok=True)
    return portable_module(proved_module(crate, out), out, inlined)
