"""Releases to try the commands on: a tree with small files where the gate's stand, and a key. What is tried here is
what release/ does, not the programs that it packs; nothing of it is ever part of the repository."""
import os
import pathlib
import shutil
import subprocess

import make

# git is asked about the trees made here, also where a hook of another repository runs this.
for name in [name for name in os.environ if name.startswith("GIT_")]:
    del os.environ[name]

LOGIC = "0123456789abcdef"
# What a tree has of the repository.
PARTS = ("release", "docs", "include", "examples", "man", "crates.txt", ".gitignore")
TOOLS = ("git", "ssh-keygen", "tar", "gzip", "sh")
RT = "#!/bin/sh\necho rehearsal\n"
PROGRAM = "#!/bin/sh\necho pierheather {version} {commit} {logic}\n"


def missing():
    """The tools that are needed here and are not on the PATH."""
    return [tool for tool in TOOLS if not shutil.which(tool)]


def run(*words, **more):
    subprocess.run(words, check=True, stdin=subprocess.DEVNULL, stdout=subprocess.DEVNULL, **more)


def key(path):
    """A new key, and the line for it in a file of allowed signers."""
    run("ssh-keygen", "-q", "-t", "ed25519", "-N", "", "-C", make.SIGNER, "-f", path)
    return f"{make.SIGNER} {path.with_name(path.name + '.pub').read_text(encoding='utf-8')}"


def written(path, text, mode=0o644):
    path.parent.mkdir(parents=True, exist_ok=True)
    path.write_text(text, encoding="utf-8")
    path.chmod(mode)


def tree(root, version):
    """A clean checkout of a version, committed on one day, and no gate yet."""
    root.mkdir(parents=True)
    for part in PARTS:
        source = make.ROOT / part
        if source.is_dir():
            shutil.copytree(source, root / part, ignore=shutil.ignore_patterns("__pycache__"))
        elif source.is_file():
            shutil.copy(source, root / part)
    major, minor, patch = map(int, version.split("."))
    header, releases = root / make.HEADER, root / make.RELEASES
    written(header, make.NUMBER.sub(rf"\g<1>{10000 * major + 100 * minor + patch}", header.read_text(encoding="utf-8")))
    written(releases, f"{releases.read_text(encoding='utf-8')}\n| {version} | rehearsed |\n")
    for _, _, taken in make.listed(root):
        if not make.built(taken) and not any(root.glob(taken)):
            written(root / taken.replace("*", "rehearsal"), f"stands for {taken}\n")
    day = {"GIT_AUTHOR_DATE": "2020-02-29T12:00:00Z", "GIT_COMMITTER_DATE": "2020-02-29T12:00:00Z", "GIT_CONFIG_NOSYSTEM": "1", "GIT_CONFIG_GLOBAL": os.devnull}
    for words in (["init", "-q"], ["add", "-A"], ["-c", "user.name=rehearsal", "-c", "user.email=", "commit", "-q", "-m", version]):
        run("git", *words, cwd=root, env={**os.environ, **day})


def build_parts(root, version):
    """What the gate would have built, and the logs of its proofs."""
    commit = make.commit(root)
    for _, _, taken in make.listed(root):
        if make.built(taken):
            written(root / taken, f"stands for {taken}\n")
    written(root / "target" / "bin" / "pierheather", PROGRAM.format(version=version, commit=commit, logic=LOGIC), 0o755)
    for line in (root / "crates.txt").read_text(encoding="utf-8").splitlines():
        if ":" in line.split("#")[0]:
            written(root / "target" / "log" / f"{line.split(':')[0].strip()}.say", f"logic=proved functions=1 sum={LOGIC} native=nat\n")
    return commit


def with_rt(folder):
    """An environment whose rt is one that only says its version."""
    written(folder / "rt", RT, 0o755)
    return {**os.environ, "PATH": f"{folder}{os.pathsep}{os.environ['PATH']}"}


def passed(root, version, tools):
    """A tree whose gate has passed."""
    tree(root, version)
    commit = build_parts(root, version)
    run(root / "release" / "gate", "end", commit, "1 passed, 0 failed", env=with_rt(tools))


def rehearse(folder):
    """For docs/release.md: the tree of 1.1.0, whose gate has passed, and a home in which 1.0.0 is installed, signed
    with an older key. Hands back the tree and its environment."""
    home, tools = folder / "home", folder / "tools"
    (home / ".ssh").mkdir(parents=True, mode=0o700)
    old, before = folder / "old-key", folder / "before"
    written(home / "allowed_signers", key(old))
    passed(before, "1.0.0", tools)
    run(before / "release" / "build", "1.0.0")
    made = before / "target" / "release" / make.folder_of("1.0.0")
    run(before / "release" / "sign", made, old)
    run(before / "release" / "install", f"{made}.tar.gz", home / "allowed_signers", home / "pierheather", "1.0.0")
    passed(folder / "tree", "1.1.0", tools)
    return folder / "tree", {**os.environ, "HOME": str(home)}
