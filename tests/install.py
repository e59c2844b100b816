#!/usr/bin/env python3
"""What ./install installs, and how it ends where it cannot.

A copy of it stands in a checkout of its own, with a stand-in for rt that proves nothing and leaves a library of one
line. tests/host/run installs the library itself. Whatever ./install does wrong, it writes below one temporary folder:
each prefix lies there, or has a DESTDIR there.
"""
import os
import pathlib
import shutil
import stat
import subprocess
import sys
import tempfile

ROOT = pathlib.Path(__file__).resolve().parent.parent
FILES = ["include/dogrzewin.h", "lib/libdogrzewin.a", "lib/pkgconfig/dogrzewin.pc"]
RT = """#!/bin/sh
[ "${PWD##*/} $*" = "host_c lib" ] || exit 2
cd ../..
[ ! -e fails ] || { echo 'rt: the library host did not build'; exit 1; }
mkdir -p crates/host_c/out && cat library >crates/host_c/out/libhost_c.a
"""
TOOLS = "bash cat chmod dirname mkdir mktemp mv rm sed sh".split()
wrong = []


def expect(what, got, wanted):
    if got != wanted:
        wrong.append(f"{what}: {got!r} in place of {wanted!r}")


def write(path, text, mode=0o644):
    path.parent.mkdir(parents=True, exist_ok=True)
    path.write_text(text)
    path.chmod(mode)


def mode(path):
    return stat.S_IMODE(path.stat().st_mode)


def lines_of(path):
    return path.read_text().splitlines() if path.exists() else []


class StandIn:
    """A checkout, a folder with all tools, and a prefix."""

    def __init__(self, folder, machine="x86_64"):
        self.home, self.tools, self.prefix = (folder / name for name in ("home", "tools", "prefix"))
        for name in "install", "tests/tools.sh", "include/dogrzewin.h":
            (self.home / name).parent.mkdir(parents=True, exist_ok=True)
            shutil.copy(ROOT / name, self.home / name)
        write(self.home / "library", "the library\n")
        write(self.home / "crates" / "host_c" / "src" / "lib.rt", "")
        write(self.tools / "rt", RT, 0o755)
        write(self.tools / "uname", f"#!/bin/sh\necho {machine}\n", 0o755)
        for tool in TOOLS:
            (self.tools / tool).symlink_to(shutil.which(tool))

    def install(self, *words, **more):
        """The status, standard output and standard error of ./install."""
        got = subprocess.run([self.home / "install", *words], env={"PATH": str(self.tools), **more}, cwd=self.home,
                             stdin=subprocess.DEVNULL, capture_output=True, text=True, timeout=60)
        return got.returncode, got.stdout, got.stderr

    def found(self, top=None):
        """All files below the prefix."""
        top = top or self.prefix
        return sorted(str(path.relative_to(top)) for path in top.rglob("*") if not path.is_dir())

    def refused(self, what, got, said):
        """It fails, says why, and leaves what stood there."""
        status, out, err = got
        expect(what, (status, out, said in err, err.startswith("install: ")), (2, "", True, True))


def test_installed(place):
    old = os.umask(0o077)
    status, out, _ = place.install(f"{place.prefix}//")
    os.umask(old)
    expect("its status", status, 0)
    expect("the files that it names", sorted(out.splitlines()), [f"{place.prefix}/{name}" for name in FILES])
    expect("the files that are there", place.found(), FILES)
    header, library, package = (place.prefix / name for name in FILES)
    if place.found() != FILES:
        return
    expect("the header", header.read_text(), (ROOT / FILES[0]).read_text())
    expect("the library", library.read_text(), "the library\n")
    expect("the rights to them", [mode(path) for path in (header, library, package)], [0o644] * 3)
    expect("the rights to their folders", [mode(path.parent) for path in (header, library, package)], [0o755] * 3)
    version = header.read_text().split('#define GRID_VERSION "')[1].split('"')[0]
    expect("the version", f"\nVersion: {version}\n" in package.read_text(), True)
    expect("the prefix", package.read_text().startswith(f"prefix={place.prefix}\n"), True)
    expect("other places for it", package.read_text().count(str(place.prefix)), 1)


def test_again(place):
    write(place.home / "library", "another\n")
    expect("over an older one", place.install(str(place.prefix))[0], 0)
    expect("its files", (place.found(), (place.prefix / FILES[1]).read_text()), (FILES, "another\n"))


def test_kept(place):
    """What was installed stays where it fails."""
    def kept(what, got, said):
        place.refused(what, got, said)
        expect(f"{what}: the files", (place.found(), (place.prefix / FILES[1]).read_text()), (FILES, "another\n"))

    write(place.home / "library", "a third\n")
    prefix = str(place.prefix)
    write(place.home / "fails", "")
    said = "rt: the library host did not build\ninstall: the library was not built\n"
    kept("a proof that fails", place.install(prefix), said)
    (place.home / "fails").unlink()
    (place.tools / "rt").rename(place.tools / "other")
    kept("no rt", place.install(prefix), "rt is not on the PATH")
    (place.tools / "other").rename(place.tools / "rt")
    (place.prefix / FILES[2]).rename(place.prefix / "package")
    (place.prefix / FILES[2]).mkdir()
    place.refused("a folder in a file's place", place.install(prefix), "dogrzewin.pc is a folder")
    expect("the files beside it", place.found(), ["include/dogrzewin.h", "lib/libdogrzewin.a", "package"])
    expect("the library beside it", (place.prefix / FILES[1]).read_text(), "another\n")


def test_prefix(place):
    top = str(place.home / "refused")
    for words in [], [f"{top}/a", f"{top}/b"], [""], ["here"], ["./here"], ["/"], ["//"]:
        place.refused(f"PREFIX as {words}", place.install(*words, DESTDIR=top), "PREFIX")
    for name in "with space", "with$dollar", "with#mark", "with\nline", "with'quote", "wíth":
        place.refused(f"PREFIX {name!r}", place.install(f"{top}/{name}"), "pkg-config")
    place.refused("a file in the prefix", place.install(f"{place.home}/library"), "folder")
    expect("what these leave", place.found(place.home / "refused"), [])
    expect("help", [place.install(word)[0::2] for word in ("help", "-h", "--help")], [(0, "")] * 3)


def test_destination(place):
    prefix, staging = place.home / "later", place.home / "staging"
    expect("with DESTDIR", place.install(str(prefix), DESTDIR=str(staging))[0], 0)
    staged = pathlib.Path(f"{staging}{prefix}")
    expect("its files", (place.found(staged), place.found(prefix)), (FILES, []))
    expect("its prefix", [line for line in lines_of(staged / FILES[2]) if "/home/" in line], [f"prefix={prefix}"])


def test_machine(folder):
    for machine, said in ("x86_64", 0), ("aarch64", 1):
        place = StandIn(folder / machine, machine)
        status, _, err = place.install(str(place.prefix))
        expect(f"on {machine}", (status, err.count("x86-64 programs only")), (0, said))


with tempfile.TemporaryDirectory() as name:
    stand_in = StandIn(pathlib.Path(name).resolve())
    test_installed(stand_in)
    test_again(stand_in)
    test_kept(stand_in)
    test_prefix(stand_in)
    test_destination(stand_in)
    test_machine(pathlib.Path(name).resolve())
for line in wrong:
    print(f"tests/install.py: {line}")
if wrong:
    sys.exit(1)
print("install: what it leaves, where it succeeds and where it fails, is as it says")
