"""How the controller's archives are made and what they are held to; build is the command."""
import concurrent.futures
import os
import pathlib
import shutil
import subprocess

import header
import module
from objects import Object, total

ROOT = pathlib.Path(__file__).resolve().parent.parent
OUT = ROOT / "target" / "controller"
# Where the kit's clang stands in its folder, and rt, which takes the folder above its own for its kit.
CLANG = ["toolchain", "bin", "clang"]
RT = ["bin", "rt"]


class Failed(Exception):
    pass


class Target:
    """What clang is told, what the archive may want of the compiler's runtime, and its limits: it stays under so many
    bytes of code and constants, and of stack."""

    def __init__(self, words, wants, size, stack):
        self.words, self.wants, self.size, self.stack = words, wants, size, stack


# What the back end may call: memory functions, division of 64 bits, and 64-bit floats where the machine has none.
MEMORY = {"memcpy", "memmove", "memset"}
ARM_MEMORY = {f"__aeabi_{name}{align}" for name in ("memcpy", "memmove", "memset", "memclr") for align in ("", "4", "8")}
ARM = MEMORY | ARM_MEMORY | {"__aeabi_uldivmod", "__aeabi_ldivmod", "__aeabi_uidiv", "__aeabi_uidivmod", "__aeabi_idiv", "__aeabi_idivmod"}
ARM_FLOATS = {f"__aeabi_{name}" for name in ("dadd", "dsub", "dmul", "ddiv", "dcmpeq", "dcmplt", "dcmple", "dcmpge", "dcmpgt", "dcmpun", "i2d", "ui2d", "l2d", "ul2d", "d2iz", "d2uiz", "d2lz", "d2ulz")}
RISCV = MEMORY | {"__udivdi3", "__umoddi3", "__divdi3", "__moddi3"}
RISCV_FLOATS = {f"__{name}" for name in ("adddf3", "subdf3", "muldf3", "divdf3", "eqdf2", "nedf2", "ltdf2", "ledf2", "gedf2", "gtdf2", "unorddf2", "floatsidf", "floatunsidf", "floatdidf",
                                         "floatundidf", "fixdfsi", "fixunsdfsi", "fixdfdi", "fixunsdfdi")}
KIB = 1024
TARGETS = {
    "cortex-m4": Target(["--target=thumbv7em-none-eabihf", "-mcpu=cortex-m4"], ARM | ARM_FLOATS, 24 * KIB, KIB),
    "armv7": Target(["--target=armv7-linux-gnueabihf", "-fPIC"], ARM, 24 * KIB, KIB),
    "aarch64": Target(["--target=aarch64-linux-gnu", "-fPIC"], MEMORY, 24 * KIB, KIB),
    "rv32": Target(["--target=riscv32-unknown-elf", "-march=rv32imac", "-mabi=ilp32"], RISCV | RISCV_FLOATS, 24 * KIB, KIB),
}
FLAGS = ["-Os", "-ffunction-sections", "-fdata-sections", "-fstack-size-section", "-fno-asynchronous-unwind-tables", "-Wno-override-module"]

# Every function of these crates is put into its callers. So the compiler sees that the host's query asks for a Sun arc
# and a weekday alone, and which body's row a mean longitude takes: what the call never comes to falls away, and with it
# the copies of the query and of the table on the stack.
INLINED = {"search", "query", "longitudes"}

# A function of the runtime is not in the archive; so many bytes of stack are reckoned for each. (libgcc's division of
# 64 bits takes 48 on a Cortex-M4.)
RUNTIME_STACK = 128


def run(words, what, **more):
    """Runs a command whose output matters only where it fails."""
    done = subprocess.run(words, stdout=subprocess.PIPE, stderr=subprocess.STDOUT, text=True, **more)
    if done.returncode:
        raise Failed(f"{what}:\n{done.stdout.rstrip()}")
    return done.stdout.strip()


def link_all(folder, links, but):
    """Links to all that a folder holds, but for some names."""
    links.mkdir()
    for entry in folder.iterdir():
        if entry.name not in but:
            (links / entry.name).symlink_to(entry)


def kit():
    """The folder of the kit, from the path of its guide."""
    return pathlib.Path(run(["rt", "doc"], "rt does not say where its kit is")).parent


def proved_module():
    """The module that rt compiles once it has proved the library. rt is run a second time, over what it proved: out of
    a folder of links to its kit, in which clang is a script that keeps the module and calls the real one. (The script
    has an empty environment, so all names in it are whole.)"""
    real, room, kept, crate = kit(), OUT / "room", OUT / "module.bc", ROOT / "crates" / "host"
    links, clang = room / "kit", real.joinpath(*CLANG)
    run(["rt", "lib"], "the library is not proved", cwd=crate)
    shutil.rmtree(room, ignore_errors=True)
    room.mkdir()
    link_all(real, links, [CLANG[0], RT[0]])
    link_all(real / CLANG[0], links / CLANG[0], [CLANG[1]])
    link_all(clang.parent, links / CLANG[0] / CLANG[1], [CLANG[2]])
    own = ["rt", "rtlib.py"]
    link_all(real / RT[0], links / RT[0], own)
    for name in own:
        shutil.copy2(real / RT[0] / name, links / RT[0] / name)
    script = links.joinpath(*CLANG)
    script.write_text(f"""#!/bin/sh
for word; do
    case $word in
    *.bc)
        [ ! -e '{kept}' ] || {{ echo 'controller/build: a second module' >&2; exit 1; }}
        /bin/cp "$word" '{kept}' || exit 1
        ;;
    esac
done
exec '{clang}' "$@"
""", encoding="utf-8")
    script.chmod(0o755)
    try:
        run([links.joinpath(*RT), "lib"], "the library is not proved", cwd=crate)
    finally:
        shutil.rmtree(room)
    if not kept.is_file():
        raise Failed("rt compiled no module")
    return kept


def portable_module(clang, kept):
    """The module as text, without what names the machine that rt compiles for, held to what it may hold; and the list
    of functions to be inlined."""
    text, portable, inlined = OUT / "module.ll", OUT / "portable.ll", OUT / "inlined.csv"
    run([clang, "-x", "ir", "-S", "-emit-llvm", "-Xclang", "-disable-llvm-passes", kept, "-o", text], "the module cannot be read")
    written = module.portable(text.read_text(encoding="utf-8"))
    faults = module.faults(written)
    if faults:
        raise Failed("\n".join([f"the module depends on the machine, {len(faults)} times; first:", *faults[:10]]))
    portable.write_text(written, encoding="utf-8")
    inlined.write_text("".join(f"{name},alwaysinline\n" for name in module.names_of(written, INLINED)), encoding="utf-8")
    return portable, inlined


def held(name, target, host, calls):
    """What is printed of an object, and its faults."""
    sizes, deepest = host.sizes(), host.deepest(RUNTIME_STACK)
    size, stack = sizes["code"] + sizes["constants"], total(deepest)
    lines = [
        f"{name}: {size} bytes of code and constants (under {target.size}), {sizes['data']} of data, {sizes['bss']} of bss",
        f"{name}: at most {stack} bytes of stack (under {target.stack}): " + ", ".join(f"{function} {frame}" for function, frame in deepest),
        f"{name}: wants {', '.join(sorted(host.wanted())) or 'nothing'}",
    ]
    faults = [f"the archive lacks {call}, which the header declares" for call in sorted(calls - host.defined())]
    faults += [f"the archive has {symbol}, which the header does not declare" for symbol in sorted(host.defined() - calls)]
    faults += [f"it wants {symbol}, which is not on the list" for symbol in sorted(host.wanted() - target.wants)]
    faults += [f"it has {sizes[part]} bytes of {part}" for part in ("data", "bss") if sizes[part]]
    faults += [f"its code and constants are not under {target.size} bytes"] if size >= target.size else []
    faults += [f"its stack is not under {target.stack} bytes"] if stack >= target.stack else []
    return lines, [f"{name}: {fault}" for fault in faults]


def compiled(clang, portable, inlined, target, made):
    run([clang, *target.words, *FLAGS, "-mllvm", f"-forceattrs-csv-path={inlined}", "-x", "ir", "-c", portable, "-o", made], "clang refuses the module")
    return Object(made.read_bytes())


def hold_example(clang, target, root):
    """The example for a controller, which has a static assertion on the header, compiles for the target. cc has the
    header files that need no C library."""
    headers = run(["cc", "-print-file-name=include"], "cc does not say where its header files are")
    words = ["-std=c11", "-ffreestanding", "-nostdinc", "-isystem", headers, "-I", root / "include", "-Wall", "-Wextra", "-pedantic", "-Werror", "-fsyntax-only"]
    run([clang, *target.words, *words, root / "examples" / "controller.c"], "examples/controller.c does not compile")


def build(clang, portable, inlined, name):
    """Makes the archive of a target, and hands back what is printed of it. Where anything fails there is none."""
    target, folder = TARGETS[name], OUT / name
    folder.mkdir()
    made = folder / "host.o"
    host = compiled(clang, portable, inlined, target, made)
    lines, faults = held(name, target, host, {call.name for call in header.calls()})
    if faults:
        raise Failed("\n".join(lines + faults))
    hold_example(clang, target, ROOT)
    run([clang.with_name("llvm-ar"), "rcsD", folder / "libhost.a", made], "the archive cannot be made")
    made.unlink()
    return lines


def report(names, lines):
    """The report with the lines of these targets new, and those of the other archives as they were."""
    path = OUT / "report"
    kept = path.read_text(encoding="utf-8").splitlines() if path.is_file() else []
    every = [line for line in kept if line.split(":")[0] not in names] + lines
    order = list(TARGETS)
    every.sort(key=lambda line: order.index(line.split(":")[0]))
    path.write_text("".join(f"{line}\n" for line in every), encoding="utf-8")


def forget(names):
    """Leaves no archive of these targets, and no line of them in the report."""
    for name in names:
        shutil.rmtree(OUT / name, ignore_errors=True)
    report(names, [])


def build_all(names):
    unknown = [name for name in names if name not in TARGETS]
    if unknown:
        raise Failed(f"{unknown[0]} is no target; there are {', '.join(TARGETS)}, and all of them by the word all")
    OUT.mkdir(parents=True, exist_ok=True)
    forget(names)
    for made in ("module.bc", "module.ll", "portable.ll", "inlined.csv"):
        (OUT / made).unlink(missing_ok=True)
    clang = kit().joinpath(*CLANG)
    portable, inlined = portable_module(clang, proved_module())
    try:
        # As many targets at once as there are processors.
        with concurrent.futures.ThreadPoolExecutor(os.cpu_count()) as pool:
            for name, lines in zip(names, pool.map(lambda name: build(clang, portable, inlined, name), names)):
                report([name], lines)
                yield from lines
    except Exception:
        forget(names)
        raise
