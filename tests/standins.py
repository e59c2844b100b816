"""What tests/plot.py, tests/sweep.py, tests/cells.py and tests/chart.py share: a checkout of its own for ./plot,
./sweep, ./cells and ./chart, with a toolkit whose rt only says that it proves, and a stand-in for the program; and how
these are run, there or as they are."""
import os
import pathlib
import shutil
import signal
import subprocess
import sys
import tempfile

ROOT = pathlib.Path(__file__).resolve().parent.parent
NO_ERROR = {"stderr": None, "preexec_fn": lambda: os.close(2)}
wrong = []


def expect(what, got, wanted):
    if got != wanted:
        wrong.append(f"{what}: {got!r} in place of {wanted!r}")


def verdict(name, right):
    for line in wrong:
        print(f"tests/{name}.py: {line}")
    if wrong:
        sys.exit(1)
    print(f"{name}: {right}")


# ---- the stand-ins

# rt counts its runs, reads what it is given, says what it proves, and leaves a program. While the file waits is in the
# checkout it stays in the middle of a line, for some ten seconds; changes makes it change the source, fails fail.
RT = """#!/bin/sh
crate=${PWD##*/}
case "$crate $*" in "plot_main run" | "sweep_main run -- 2 text quiet" | "cells_main run") ;; *) exit 2 ;; esac
cd ../..
echo run >>runs
head -c 1 >/dev/null
exec >&2
printf 'only=0 '
waited=0
while [ -e waits ] && [ "$waited" -lt 200 ]; do sleep 0.05; waited=$((waited + 1)); done
echo 'proved=0'
[ ! -e changes ] || echo changed >>crates/console/src/lib.rt
echo 'rt: chose --jobs 2 for console'
echo 'what the prover says'
echo 'logic=proved functions=9'
echo "rt: chose --jobs 1 for $crate"
[ ! -e fails ] || { echo "fn $crate::main: not proved"; echo "rt: the library other did not build"; exit 1; }
echo 'logic=proved functions=1'
mkdir -p "crates/$crate/out" && cp program "crates/$crate/out/$crate"
echo "rt: running out/$crate; to give it other input, run that file yourself"
"""

CRATES = "plot_main: console # the program\nsweep_main: console\ncells_main: console\nconsole: lines\nlines:\nother:\n"
LOADER = '#!/bin/sh\nshift 2\nexec "$@"\n'
EMULATOR = '#!/bin/sh\n[ -z "$QEMU_STRACE" ] || echo traced\nexec "$@"\n'
TOOLS = (
    "awk bash cat cmp cp cut dirname find flock head mkdir mktemp mv od readlink rm sed sha256sum sh sleep sort tail "
    "tee tr xargs"
).split()
SCRIPTS = "programs.sh", "chart.awk", "chart.html"
CRATE = {"plot": "plot_main", "chart": "plot_main", "sweep": "sweep_main", "cells": "cells_main"}


def write(path, text, mode=0o644):
    path.parent.mkdir(parents=True, exist_ok=True)
    path.write_text(text)
    path.chmod(mode)


class StandIn:
    """A checkout and a toolkit, in a folder of their own, on a kind of machine. Nothing else is on the PATH. The script
    of the root by this name is run there, with this program; the example that it is held to is the files beside its
    source."""

    def __init__(self, name, program, example, machine="x86_64"):
        self.folder = pathlib.Path(tempfile.mkdtemp(prefix=f"{name}-"))
        self.folder.chmod(0o755)
        self.home, self.kit, self.tools = (self.folder / part for part in ("checkout", "kit", "tools"))
        for script in "plot", "sweep", "cells", "chart", *(f"scripts/{part}" for part in SCRIPTS):
            write(self.home / script, (ROOT / script).read_text(), 0o755)
        write(self.home / "program", program, 0o755)
        write(self.home / "crates.txt", CRATES)
        for crate in "lines", "console", "plot_main", "sweep_main", "cells_main", "other":
            write(self.home / "crates" / crate / "src" / "lib.rt", crate)
        shutil.copy(ROOT / "crates" / "plot_main" / "stdout", self.home / "crates" / "plot_main")
        self.source = self.home / "crates" / CRATE[name]
        for part, text in example.items():
            write(self.source / part, text)
        write(self.kit / "KIT-ID", "a stand-in\n")
        write(self.kit / "bin" / "rt", RT, 0o755)
        self.loader = self.kit / "toolchain" / "lib" / "ld-linux-x86-64.so.2"
        write(self.loader, LOADER, 0o755)
        write(self.tools / "qemu-x86_64", EMULATOR, 0o755)
        write(self.tools / "uname", f"#!/bin/sh\necho {machine}\n", 0o755)
        for tool in TOOLS:
            (self.tools / tool).symlink_to(shutil.which(tool))
        self.script = self.home / name
        self.environment = {"PATH": f"{self.kit}/bin:{self.tools}"}

    def __enter__(self):
        return self

    def __exit__(self, *_):
        self.writable(True)
        shutil.rmtree(self.folder)

    def writable(self, is_writable):
        for folder, _, files in os.walk(self.home):
            for path in [folder, *(os.path.join(folder, name) for name in files)]:
                os.chmod(path, os.stat(path).st_mode | 0o200 if is_writable else os.stat(path).st_mode & ~0o222)

    def runs(self):
        """How often rt was run."""
        counted = self.home / "runs"
        return len(counted.read_text().splitlines()) if counted.exists() else 0


class Built:
    """The script of the root by this name itself, with the program that it builds."""

    def __init__(self, name):
        self.script = ROOT / name
        self.environment = dict(os.environ)


# ---- running a script

def start(place, *words, **how):
    how = {"stdin": subprocess.DEVNULL, "stdout": subprocess.PIPE, "stderr": subprocess.PIPE, "text": True,
           "env": place.environment, **how}
    return subprocess.Popen([how.pop("script", place.script), *words], start_new_session=True, **how)


def end(process, given=None):
    """The status, standard output and standard error of a script, which is ended where it hangs."""
    try:
        out, err = process.communicate(given, timeout=900 if "--built" in sys.argv else 60)
    except subprocess.TimeoutExpired:
        os.killpg(process.pid, signal.SIGKILL)
        out, err = process.communicate()
    return process.returncode, out, err


def run(place, *words, given=None, **how):
    """The same of a script that is started so, with `given` on its standard input."""
    if given is not None:
        how["stdin"] = subprocess.PIPE
    return end(start(place, *words, **how), given)


def quietly(place, *words, **how):
    """The same where the program may have to be built first."""
    status, out, err = run(place, *words, **how)
    return status, out, "".join(line for line in err.splitlines(True) if "prov" not in line)


# ---- standard output and input that take or give nothing

def each_lost(place, words, given, unwritten):
    """A standard output that takes nothing: what it is, what came of it, and what was to come."""
    def lost(what, err=unwritten, **how):
        return what, run(place, *words, given=given, **how), (3, None, err)

    with open("/dev/full", "w") as full:
        yield lost("output full", stdout=full)
        yield lost("output and standard error full", stdout=full, stderr=full, err=None)
        yield lost("output full, standard error closed", stdout=full, err=None, **NO_ERROR)
    yield lost("output closed", stdout=None, preexec_fn=lambda: os.close(1))
    reading, writing = os.pipe()
    os.close(reading)
    yield lost("pipe closed", stdout=writing)
    yield lost("pipe closed and SIGPIPE ignored", stdout=writing, restore_signals=False)
    os.close(writing)


def after_first(place, words, given):
    """As `| head -1`: the first line of standard output, and how the script ends when no more is read."""
    with tempfile.TemporaryFile("w+") as file:
        file.write(given)
        file.seek(0)
        process = start(place, *words, stdin=file)
        first = process.stdout.readline()
        process.stdout.close()
        process.stdout = None
        return first, end(process)


def from_folder(place, *words):
    folder = os.open("/", os.O_RDONLY)
    got = run(place, *words, stdin=folder)
    os.close(folder)
    return got


def without_input(place, *words):
    return run(place, *words, stdin=None, preexec_fn=lambda: os.close(0))
