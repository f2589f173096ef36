"""How a release is made: what the gate leaves for it, what goes into it, its MANIFEST and its archive. build, sign and
gate are the commands."""
import fnmatch
import hashlib
import os
import pathlib
import re
import shutil
import subprocess

ROOT = pathlib.Path(__file__).resolve().parent.parent
SIGNER = "pierheather-release"
VERSION = re.compile(r"(0|[1-9]\d?)\.(0|[1-9]\d?)\.(0|[1-9]\d?)")
# A file's name in a release, as release/common has it.
PATH = re.compile(r"(?=.{1,60}$)[A-Za-z0-9][A-Za-z0-9._+-]*(?:/[A-Za-z0-9][A-Za-z0-9._+-]*)*")
HEADER = "include/grahalaghava.h"
NUMBER = re.compile(r"^(#define GRAHA_VERSION )(\d+)$", re.M)
RELEASES = "docs/releases.md"
# Of a tar file: what a header and a piece of a file take, and what its length is a multiple of.
BLOCK, RECORD = 512, 10240
# The kind of an ELF file's part that names the loader: a static program has none.
INTERPRETED = 3


class Failed(Exception):
    pass


def said(*words, root=ROOT):
    """What a command says, without the end of its last line."""
    try:
        done = subprocess.run(words, cwd=root, stdin=subprocess.DEVNULL, capture_output=True, text=True)
    except OSError as error:
        raise Failed(f"{words[0]}: {error.strerror}") from error
    if done.returncode:
        raise Failed(f"{words[0]}: {(done.stderr.strip() or 'it failed').splitlines()[-1]}")
    return done.stdout.rstrip("\n")


def hold_program(path):
    """A program is static, so that it runs on any x86-64 Linux. (A script of a rehearsal is no program.)"""
    body = path.read_bytes()
    if body[:4] != b"\x7fELF":
        return
    first, size, count = int.from_bytes(body[32:40], "little"), int.from_bytes(body[54:56], "little"), int.from_bytes(body[56:58], "little")
    kinds = [int.from_bytes(body[at:at + 4], "little") for at in range(first, first + size * count, size)]
    if INTERPRETED in kinds:
        raise Failed(f"{path.parent.name}/{path.name} is not static")


def folder_of(version):
    return f"pierheather-{version}-x86_64-linux"


def commit(root=ROOT):
    """The commit that is checked out, with nothing changed since and no file that it does not know."""
    changed = said("git", "status", "--porcelain", "--untracked-files=all", root=root).splitlines()
    if changed:
        raise Failed(f"the checkout is not clean: {changed[0][3:]}")
    return said("git", "rev-parse", "HEAD", root=root)


def lines(root):
    text = (root / "release" / "files").read_text(encoding="utf-8")
    return [line.split() for line in text.splitlines() if line and not line.startswith("#")]


def listed(root=ROOT):
    """What release/files lists: mode, place, what is taken."""
    return [words for words in lines(root) if words[0] != "build"]


def builders(root=ROOT):
    """The commands by which what the gate builds is built anew."""
    return [words[1:] for words in lines(root) if words[0] == "build"]


def built(taken):
    return taken.startswith("target/")


def sha256(path):
    return hashlib.sha256(path.read_bytes()).hexdigest()


# The gate's file: commit, tree, rt, logic and counts, and a line for each file that it has built for a release.

def logic(root):
    """The sum of the logic that every crate's proof gave."""
    crates = [line.split(":")[0].strip() for line in (root / "crates.txt").read_text(encoding="utf-8").splitlines() if ":" in line.split("#")[0]]
    sums = {}
    for crate in crates:
        log = root / "target" / "log" / f"{crate}.say"
        found = re.findall(r"^logic=proved .*\bsum=([0-9a-f]{16})\b", log.read_text(encoding="utf-8"), re.M) if log.is_file() else []
        if len(found) != 1:
            raise Failed(f"target/log/{crate}.say has no proof's sum")
        sums.setdefault(found[0], crate)
    if len(sums) != 1:
        raise Failed(f"the proofs gave {len(sums)} sums of the logic: {', '.join(f'{crate} {found}' for found, crate in sums.items())}")
    return next(iter(sums))


def leave_gate(begun, counts, root=ROOT):
    """Writes what the gate has passed for: the commit on which it began, nothing changed till now."""
    if not re.fullmatch(r"\d+ passed, 0 failed", counts):
        raise Failed(f"the gate has not passed: {counts}")
    if commit(root) != begun:
        raise Failed("another commit is checked out than the one on which the gate began")
    left = [f"commit {begun}", f"tree {said('git', 'rev-parse', 'HEAD^{tree}', root=root)}", f"rt {said('rt', 'version', root=root)}", f"logic {logic(root)}", f"gate {counts}"]
    left += [f"file {sha256(root / taken)} {taken}" for _, _, taken in listed(root) if built(taken) and (root / taken).is_file()]
    (root / "target" / "gate").write_text("".join(f"{line}\n" for line in left), encoding="utf-8")


def gate(root=ROOT):
    """What the gate has left for the commit that is checked out, and the sums of what it has built."""
    here, path = commit(root), root / "target" / "gate"
    found = [line.split(" ", 1) for line in path.read_text(encoding="utf-8").splitlines()] if path.is_file() else []
    left = {word: rest for word, rest in found if word != "file"}
    if left.get("commit") != here or left.get("tree") != said("git", "rev-parse", "HEAD^{tree}", root=root):
        raise Failed(f"./test has not passed for the commit {here[:12]} in this folder: target/gate does not say so")
    return left, {name: total for total, name in (rest.split(" ", 1) for word, rest in found if word == "file")}


# What goes into a release.

def contents(sums, root=ROOT):
    """Each file of a release: its place, its mode and its bytes; what the gate has built by the sums that it has left.
    What is missing is said, all of it."""
    tracked = {name: blob for mode, blob, name in re.findall(r"(\d+) blob (\w+)\t([^\0]+)\0", said("git", "ls-tree", "-rz", "HEAD", root=root)) if mode in ("100644", "100755")}
    taken, missing = {}, []
    for mode, place, what in listed(root):
        names = [what] if built(what) else [name for name in tracked if fnmatch.fnmatchcase(name, what) and name.count("/") == what.count("/")]
        missing += [what] if not names or built(what) and not (root / what).is_file() else []
        for name in names:
            at = place + name.rsplit("/", 1)[-1] if place.endswith("/") else place
            if at in taken:
                raise Failed(f"release/files names {at} twice")
            if not PATH.fullmatch(at) or mode not in ("0644", "0755"):
                raise Failed(f"release/files: {mode} {at} can be no file of a release")
            taken[at] = (mode, name)
    if missing:
        raise Failed(f"missing: {', '.join(missing)}")
    made = {}
    for place, (mode, name) in sorted(taken.items()):
        if not built(name):
            body = subprocess.run(["git", "cat-file", "blob", tracked[name]], cwd=root, capture_output=True, check=True).stdout
        elif sums.get(name) != sha256(root / name):
            raise Failed(f"{name} is not as the gate has left it")
        else:
            body = (root / name).read_bytes()
        made[place] = (mode, body)
    return made


def header_version(root=ROOT):
    """The version of the header's number: 1.4.2 of 10402."""
    found = NUMBER.search((root / HEADER).read_text(encoding="utf-8"))
    if not found:
        raise Failed(f"missing: GRAHA_VERSION in {HEADER}")
    number = int(found[2])
    return f"{number // 10000}.{number // 100 % 100}.{number % 100}"


def hold_version(version, root=ROOT):
    """The version is the header's own, and has its row in the table of releases."""
    if header_version(root) != version:
        raise Failed(f"GRAHA_VERSION in {HEADER} is that of {header_version(root)}, not of {version}")
    if not re.search(rf"^\| {re.escape(version)} \|", (root / RELEASES).read_text(encoding="utf-8"), re.M):
        raise Failed(f"missing: the row of {version} in {RELEASES}")


def manifest(head, made):
    """MANIFEST: its head, and the files in the order of their names. (No name has a character beyond ASCII.)"""
    made_of = [f"{word} {head[word]}" for word in ("pierheather-release", "version", "commit", "date", "rt", "logic", "gate")]
    made_of += ["", *(f"{hashlib.sha256(body).hexdigest()} {len(body)} {mode} {place}" for place, (mode, body) in sorted(made.items()))]
    return "".join(f"{line}\n" for line in made_of)


def write_folder(folder, text, made):
    """A release's folder, with the modes that it must have whatever the umask is."""
    folder.mkdir()
    for place, (mode, body) in {"MANIFEST": ("0644", text.encode()), **made}.items():
        path = folder / place
        path.parent.mkdir(parents=True, exist_ok=True)
        path.write_bytes(body)
        path.chmod(int(mode, 8))
    for path in (folder, *folder.rglob("*")):
        if path.is_dir():
            path.chmod(0o755)


def members(folder):
    """The names below a release's folder in the archive's order: the folder itself, MANIFEST and its signature, then
    all others as bytes sort them, each folder with / behind it."""
    first = [name for name in ("MANIFEST", "MANIFEST.sig") if (folder / name).is_file()]
    names = [path.relative_to(folder).as_posix() + ("/" if path.is_dir() else "") for path in folder.rglob("*")]
    return ["", *first, *sorted({*names} - {*first})]


def header(name, kind, mode, size, date):
    """A member's header in a ustar archive, the one that release/verify asks for: tar writes others from version to
    version."""
    front = name.encode().ljust(100, b"\0") + b"%07o\0%07o\0%07o\0%011o\0%011o\0" % (mode, 0, 0, size, date)
    back = kind + bytes(100) + b"ustar\00000" + bytes(64) + b"%07o\0%07o\0" % (0, 0) + bytes(167)
    return front + b"%06o\0 " % (sum(front) + sum(back) + 8 * ord(" ")) + back


def packed(folder):
    """The bytes of the folder's archive: the same for the same files, whoever packs them and when."""
    date = int(re.search(r"^date (\d+)$", (folder / "MANIFEST").read_text(encoding="utf-8"), re.M)[1])
    plain = b""
    for name in members(folder):
        path = folder / name
        kind, body = (b"5", b"") if path.is_dir() else (b"0", path.read_bytes())
        plain += header(f"{folder.name}/{name}", kind, path.stat().st_mode & 0o7777, len(body), date) + body.ljust(-(-len(body) // BLOCK) * BLOCK, b"\0")
    plain += bytes(2 * BLOCK)
    environment = {name: value for name, value in os.environ.items() if name != "GZIP"}
    return subprocess.run(["gzip", "-9nc"], input=plain.ljust(-(-len(plain) // RECORD) * RECORD, b"\0"), stdout=subprocess.PIPE, env=environment, check=True).stdout


def pack(folder):
    """Writes the folder's archive beside it."""
    archive = folder.with_name(folder.name + ".tar.gz")
    archive.write_bytes(packed(folder))
    archive.chmod(0o644)
    return archive


def build(version, root=ROOT):
    """target/release/pierheather-VERSION-x86_64-linux, a folder and an archive, not signed yet."""
    if not VERSION.fullmatch(version):
        raise Failed(f"{version} is no version: three numbers below 100, as 1.0.0")
    folder = root / "target" / "release" / folder_of(version)
    remove(folder)
    left, sums = gate(root)
    made = contents(sums, root)
    hold_version(version, root)
    text = manifest({"pierheather-release": 1, "version": version, "date": said("git", "log", "-1", "--format=%ct", root=root), **left}, made)
    folder.parent.mkdir(parents=True, exist_ok=True)
    try:
        write_folder(folder, text, made)
        hold_program(folder / "bin" / "pierheather")
        words = said(str(folder / "bin" / "pierheather"), "--version", root=root).split()
        unsaid = [word for word in (version, left["commit"], left["logic"]) if word not in words]
        if unsaid:
            raise Failed(f"bin/pierheather --version does not say {unsaid[0]}")
        return pack(folder)
    except BaseException:
        remove(folder)
        raise


def remove(folder):
    """Leaves neither a release's folder nor its archive."""
    shutil.rmtree(folder, ignore_errors=True)
    folder.with_name(folder.name + ".tar.gz").unlink(missing_ok=True)


# Signing.

def public_key(key):
    """The public key of a key file, which may be the public one itself where an agent or a device has the other."""
    for path in (key, key.with_name(key.name + ".pub")):
        if path.is_file():
            text = path.read_text(encoding="utf-8", errors="replace").strip()
            if re.match(r"(ssh|ecdsa|sk)-\S+ \S+", text):
                return text
    return said("ssh-keygen", "-y", "-f", str(key))


def verified(release, signers):
    done = subprocess.run([ROOT / "release" / "verify", release, signers], stdin=subprocess.DEVNULL, capture_output=True, text=True)
    if done.returncode:
        raise Failed(done.stderr.strip())


def sign(folder, key):
    """Signs a release's MANIFEST and packs the archive with it. Both are verified, or there is neither."""
    signature, signers = folder / "MANIFEST.sig", folder.with_name(folder.name + ".signers")
    with (folder / "MANIFEST").open("rb") as text:
        done = subprocess.run(["ssh-keygen", "-q", "-Y", "sign", "-n", SIGNER, "-f", key], stdin=text, stdout=subprocess.PIPE)
    if done.returncode:
        raise Failed(f"ssh-keygen does not sign with {key}")
    archive = folder.with_name(folder.name + ".tar.gz")
    try:
        signature.write_bytes(done.stdout)
        signature.chmod(0o644)
        signers.write_text(f"{SIGNER} {public_key(key)}\n", encoding="utf-8")
        verified(folder, signers)
        verified(pack(folder), signers)
    except BaseException:
        for made in (signature, archive):
            made.unlink(missing_ok=True)
        raise
    finally:
        signers.unlink(missing_ok=True)
    return archive
