#!/usr/bin/env python3
"""Make, repeat and test the archive of the version that stands in release/.

    release.py make             make the archive from a clean clone of HEAD, and put it into release/
    release.py same             make it anew from the commit that it tells, and compare byte for byte
    release.py test [PROGRAM]   its checksum, its version, what it says of itself, and the first run of its program; with
                                PROGRAM also that this is of the version in bindings/library.mk

A version that ends with -dev is none of a release: the archive is then that of the release before, and no other is made.

release/ holds one archive, SHA256SUMS and MADE-FROM, which tells the version, the commit and the line of `rt version`.
Where it holds no archive, `test` says so and passes.
"""
import contextlib
import hashlib
import pathlib
import re
import shutil
import subprocess
import sys
import tarfile
import tempfile

ROOT = pathlib.Path(__file__).resolve().parent.parent
RELEASE = ROOT / "release"
SEVEN, FOUR = bytes([0x98, 2, 0x18, 1, 0x58, 1, 0x61]), bytes([0x82, 1, 0x41, 0x61])


def out_of(*words, **how):
    return subprocess.run(words, stdout=subprocess.PIPE, check=True, text=True, **how).stdout.strip()


def git(*words):
    return out_of("git", "-C", str(ROOT), *words)


def version():
    """The version that the rules tell."""
    return re.search(r"^VERSION := ([\d.]+(?:-dev)?)$", (ROOT / "bindings/library.mk").read_text(), re.MULTILINE)[1]


def released():
    """The version of the archive: what follows a release, and says so by -dev, has that of the last chapter of the CHANGELOG."""
    if not version().endswith("-dev"):
        return version()
    return re.search(r"^## ([\d.]+) \(", (ROOT / "CHANGELOG.md").read_text(), re.MULTILINE)[1]


def archives():
    return sorted(RELEASE.glob("*.tar.gz")) if RELEASE.is_dir() else []


def made_from():
    """What MADE-FROM tells, by its words."""
    return dict(line.split(": ", 1) for line in (RELEASE / "MADE-FROM").read_text().splitlines())


@contextlib.contextmanager
def built(commit):
    """The archive that `make dist` gives in a clean clone of a commit."""
    with tempfile.TemporaryDirectory(prefix="cborn-release-") as folder:
        clone = pathlib.Path(folder, "cborn")
        subprocess.run(["git", "clone", "--quiet", "--no-checkout", str(ROOT), str(clone)], check=True)
        subprocess.run(["git", "-C", str(clone), "checkout", "--quiet", "--detach", commit], check=True)
        subprocess.run(["make", "-C", str(clone), "dist"], check=True)
        (made,) = clone.glob("build/*.tar.gz")
        yield made


def sum_of(path):
    return hashlib.sha256(path.read_bytes()).hexdigest()


def make():
    if git("status", "--porcelain", "--", ".", ":!release"):
        print("there are changes that aren't committed: the archive is made from a commit", file=sys.stderr)
        return 1
    if version().endswith("-dev"):
        print(f"the version {version()} is that of no release", file=sys.stderr)
        return 1
    commit, kit = git("rev-parse", "HEAD"), out_of("rt", "version")
    with built(commit) as made:
        RELEASE.mkdir(exist_ok=True)
        for old in archives():
            old.unlink()
        archive = RELEASE / made.name
        shutil.copyfile(made, archive)
    RELEASE.joinpath("SHA256SUMS").write_text(f"{sum_of(archive)}  {archive.name}\n")
    RELEASE.joinpath("MADE-FROM").write_text(f"version: {version()}\ncommit: {commit}\nkit: {kit}\n")
    return test()


def members(archive):
    """Each member of an archive, with what it says of itself and the sum of its bytes."""
    with tarfile.open(archive) as it:
        for member in it:
            data = hashlib.sha256(it.extractfile(member).read()).hexdigest() if member.isfile() else member.linkname
            yield member.name, (member.type, member.mode, member.mtime, member.uid, member.gid, data)


def same():
    (archive,) = archives()
    told = made_from()
    kit = out_of("rt", "version")
    if kit != told["kit"]:
        print(f"the archive was made with {told['kit']}, and this kit is {kit}", file=sys.stderr)
        return 1
    with built(told["commit"]) as made:
        if made.read_bytes() == archive.read_bytes():
            print(f"{archive.name}: made anew from {told['commit']}, byte for byte the same")
            return 0
        ours, theirs = dict(members(archive)), dict(members(made))
        differing = sorted(name for name in {*ours, *theirs} if ours.get(name) != theirs.get(name))
        print(f"{archive.name}: made anew it differs in {', '.join(differing) or 'its compression alone'}")
        return 1


def is_known(commit):
    """Whether HEAD has a commit in its past; none where the clone doesn't reach so far back."""
    if not ROOT.joinpath(".git").exists() or git("rev-parse", "--is-shallow-repository") == "true":
        return None
    asked = ["git", "-C", str(ROOT), "merge-base", "--is-ancestor", commit, "HEAD"]
    return subprocess.run(asked, stderr=subprocess.DEVNULL, check=False).returncode == 0


def wrong_members(archive):
    """What of an archive hangs on when and by whom it was made, or lies outside of its folder."""
    top = archive.name.removesuffix(".tar.gz")
    names = []
    with tarfile.open(archive) as it:
        for member in it:
            names.append(member.name)
            if member.name != top and not member.name.startswith(f"{top}/"):
                yield f"{member.name} is outside of {top}"
            if (member.mtime, member.uid, member.gid) != (0, 0, 0):
                yield f"{member.name} has a time or an owner"
    if names != sorted(names, key=lambda name: name.encode().split(b"/")):
        yield "the members aren't sorted"


def wrong_runs(archive, program):
    """What is wrong with the first run of the unpacked program, with its version, and with the kit that it tells."""
    with tempfile.TemporaryDirectory(prefix="cborn-release-") as folder:
        subprocess.run(["tar", "xf", str(archive), "-C", folder], check=True)
        top = pathlib.Path(folder, archive.name.removesuffix(".tar.gz"))
        ours = str(top / "bin/cborn")
        if subprocess.run([ours, "normalise"], input=SEVEN, stdout=subprocess.PIPE, check=False).stdout != FOUR:
            yield "its program doesn't normalise seven bytes to four"
        told = out_of(ours, "--version")
        if told != f"cborn {released()}":
            yield f"its program is {told!r}, and the version is {released()}"
        if program and out_of(program, "--version") != f"cborn {version()}":
            yield f"{program} is {out_of(program, '--version')!r}, and the version is {version()}"
        if top.joinpath("PROVED-WITH").read_text().strip() != made_from()["kit"]:
            yield "MADE-FROM tells another kit than the archive"


def wrong(archive, program):
    told = made_from()
    if archive.name != f"cborn-{released()}-linux-x86_64.tar.gz":
        yield f"its name isn't that of version {released()}"
    if (RELEASE / "SHA256SUMS").read_text() != f"{sum_of(archive)}  {archive.name}\n":
        yield "SHA256SUMS tells another checksum"
        return
    if told["version"] != released():
        yield f"MADE-FROM tells version {told['version']}"
    if is_known(told["commit"]) is False:
        yield f"the commit {told['commit']} isn't in the history"
    yield from wrong_members(archive)
    yield from wrong_runs(archive, program)


def test(program=None):
    found = archives()
    if not found:
        print("LEFT OUT: release/ holds no archive ('make release' makes it)")
        return 0
    faults = list(wrong(found[0], program)) if len(found) == 1 else [f"release/ holds {len(found)} archives"]
    for fault in faults:
        print(f"{found[0].name}: {fault}")
    print(f"{found[0].name}: {'WRONG' if faults else 'as it should'}")
    return 1 if faults else 0


if __name__ == "__main__":
    sys.exit({"make": make, "same": same, "test": test}[sys.argv[1]](*sys.argv[2:]))
