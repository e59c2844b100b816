#!/usr/bin/env python3
"""How ./plot is used and how it ends: its statuses and messages, when it builds the console, and which one it runs.

The gate proves and builds last, so that no console is there yet. Here a copy of ./plot stands in a checkout of its own,
with a toolkit whose rt only says that it proves, and a console that knows three calls. `tests/plot.py --built` holds
./plot itself, with the console that it builds, to what needs no such stand-ins.
"""
import faulthandler
import os
import pathlib
import pty
import re
import select
import subprocess
import sys
import tempfile

sys.dont_write_bytecode = True
import standins
from standins import NO_ERROR, ROOT, Built, end, expect, quietly, run, start, write

ANSWERS = {
    "file 2 0 0 1": "10003 0x208C000000000000",
    "file 25 0 0 1": "refused 1: a degree, as field or argument, is above 24",
    "corner 200 2": "error: no such call; help shows them",
}
MANY = "file 2 0 0 1\n" * 6000  # More answers than a pipe holds.
UNWRITTEN = "plot: the answers could not be written\n"
UNREAD = "plot: the calls could not be read\n"

# The console stops as the real one does. `mute` and `dies` are ways in which that one never ends.
CONSOLE = """#!/usr/bin/env bash
[ ! -d /dev/stdin ] || { echo 'plot: the calls could not be read' >&2; exit; }
while IFS= read -r line || [ -n "$line" ]; do
    answer=
    case $line in
    'file 2 0 0 1') answer='10003 0x208C000000000000' ;;
    'file 25 0 0 1') answer='refused 1: a degree, as field or argument, is above 24' ;;
    'corner 200 2') answer='error: no such call; help shows them' ;;
    help) answer=$(cat help.txt) ;;
    mute) exit ;;
    dies) exit 9 ;;
    esac
    printf '%s\\n' "$answer" 2>/dev/null || { echo 'plot: the answers could not be written' >&2; exit; }
done
"""


# What the console is held to: all of help, which lies in the folder where it runs, and a call.
HELP = re.match(r"(?s).*?^help .*?\n", (ROOT / "crates" / "plot_main" / "stdout").read_text(), re.M)[0]
EXAMPLE = {"stdin": "help\nfile 2 0 0 1\n", "stdout": f"{HELP}{ANSWERS['file 2 0 0 1']}\n", "data/help.txt": HELP}


def stand_in(machine="x86_64"):
    return standins.StandIn("plot", CONSOLE, EXAMPLE, machine)


# ---- what ./plot answers, and its statuses

def test_calls(place):
    for status, (call, answer) in enumerate(ANSWERS.items()):
        expect(call, quietly(place, *call.split()), (status, answer + "\n", ""))
        expect(f"{call} as one argument", run(place, call), (status, answer + "\n", ""))
    expect("a remark", run(place, "#", "remark"), (0, "\n", ""))


def test_lines(place):
    asked, answered = "\n".join(ANSWERS), "\n".join(ANSWERS.values()) + "\n"
    error = ANSWERS["corner 200 2"] + "\n"
    expect("calls on standard input", run(place, given=asked + "\n"), (0, answered, ""))
    expect("a last line without its end", run(place, given=asked), (0, answered, ""))
    expect("no calls", run(place, given=""), (0, "", ""))
    expect("standard error closed", run(place, given=asked, **NO_ERROR), (0, answered, None))
    expect("a call, standard error closed", run(place, "corner 200 2", **NO_ERROR), (2, error, None))
    expect("a call beside other input", run(place, "corner 200 2", given=asked), (2, error, ""))


def test_line_end(place):
    status, out, err = run(place, "file", "2 0\n0 1")
    expect("a line end in an argument", (status, out, err.count("\n"), "line end" in err), (2, "", 1, True))


def test_lost(place):
    for what, words, calls in (("a call", ["file 2 0 0 1"], None), ("calls", [], MANY)):
        for how, got, wanted in standins.each_lost(place, words, calls, UNWRITTEN):
            expect(f"{what}, {how}", got, wanted)


def test_head(place):
    expect("the first of many answers, and those after it", standins.after_first(place, [], MANY),
           (ANSWERS["file 2 0 0 1"] + "\n", (3, None, UNWRITTEN)))


def test_unread(place):
    expect("calls from a folder", standins.from_folder(place), (3, "", UNREAD))
    expect("calls, input closed", standins.without_input(place), (3, "", UNREAD))
    expect("a call, input closed", standins.without_input(place, "file 2 0 0 1"),
           (0, ANSWERS["file 2 0 0 1"] + "\n", ""))


def test_link(place):
    with tempfile.TemporaryDirectory() as folder:
        link = pathlib.Path(folder) / "plot"
        link.symlink_to(os.path.relpath(place.script, os.path.realpath(folder)))
        answer = ANSWERS["file 2 0 0 1"] + "\n"
        expect("a link to ./plot", run(place, "file 2 0 0 1", script=link, cwd="/"), (0, answer, ""))


def test_help(place):
    shown = (ROOT / "crates" / "replies" / "src" / "help.rt").read_text().split('*b"')[1].split('";')[0]
    status, out, err = run(place, "--help")
    expect("--help", (status, out.endswith("\n\n" + shown + "\n"), err), (0, True, ""))
    expect("-h", run(place, "-h"), (status, out, err))
    documented = (ROOT / "docs" / "CONSOLE.md").read_text()
    statuses, same = (re.findall(r"^    \d    .*$", text, re.M) for text in (out, documented))
    expect("the statuses of --help", [line.split()[0] for line in statuses], list("01234"))
    expect("the statuses of docs/CONSOLE.md", same, statuses)
    with open("/dev/full", "w") as full:
        expect("--help, output full", run(place, "--help", stdout=full), (3, None, UNWRITTEN))


# ---- what needs the stand-ins

def test_console_fails(place):
    expect("a call without an answer", run(place, "mute")[:2], (3, ""))
    expect("a console that dies at a call", run(place, "dies")[:2], (4, ""))
    expect("a console that dies", run(place, given="dies\n")[:2], (4, ""))


def one_line(what, got, *parts):
    """Status 4, and one line that says why."""
    status, out, err = got
    found = (status, out, err.count("\n"), err.startswith("plot: "), [part for part in parts if part not in err])
    expect(f"{what} ({err!r})", found, (4, "", 1, True, []))


def test_toolkit(place):
    def with_environment(**changed):
        return run(place, "file 2 0 0 1", env={**place.environment, **changed})

    one_line("no rt", with_environment(PATH=str(place.tools)), "rt", "PATH")
    expect("--help without rt", run(place, "--help", env={"PATH": str(place.tools)})[0], 0)
    one_line("a wrong RATTLE_HOME", with_environment(RATTLE_HOME="/nonsense"), "/nonsense", "RATTLE_HOME")
    expect("the right RATTLE_HOME", with_environment(RATTLE_HOME=str(place.kit))[0], 0)
    (place.tools / "qemu-x86_64").unlink()
    expect("x86-64 without an emulator", run(place, "file 2 0 0 1")[0], 0)
    place.loader.unlink()
    one_line("no loader", run(place, "file 2 0 0 1"), "loader", "ld-linux-x86-64.so.2")
    place.loader.parent.rmdir()
    one_line("a toolkit without a C library", run(place, "file 2 0 0 1"), "toolkit", str(place.kit))


def test_emulator():
    with stand_in("aarch64") as place:
        for more in {}, {"QEMU_STRACE": "1"}:
            got = run(place, "file 2 0 0 1", env={**place.environment, **more})
            expect(f"by the emulator {more}", got[:2], (0, ANSWERS["file 2 0 0 1"] + "\n"))
        (place.tools / "qemu-x86_64").unlink()
        one_line("no emulator", run(place, "file 2 0 0 1"), "emulator", "qemu-x86_64", "aarch64")


def test_progress():
    said = "plot: proving and building the console first, which can take some minutes\n"
    with stand_in() as place:
        status, _, err = run(place, "file 2 0 0 1")
        plain = said + "plot: crate 2 of 3: console proved (N s)\nplot: crate 3 of 3: plot_main proved (N s)\n"
        expect("a build in plain lines", (status, re.sub(r"\(\d+ s\)\n", "(N s)\n", err)),
               (0, plain + "plot: the console is proved and built (N s)\n"))
        log = place.home / "target" / "plot" / "build.log"
        expect("its log", log.exists() and "what the prover says\n" in log.read_text(), True)
    with stand_in() as place:
        answered = (0, ANSWERS["file 2 0 0 1"] + "\n", None)
        expect("calls before a build", run(place, given="file 2 0 0 1\n", **NO_ERROR), answered)
    with stand_in() as place:
        (place.home / "waits").touch()
        terminal, other_end = pty.openpty()
        process = start(place, "file 2 0 0 1", stderr=other_end)
        shown = ""
        while shown.count("crate 1 of 3") < 2 and select.select([terminal], [], [], 10)[0]:
            shown += os.read(terminal, 10000).decode()
        (place.home / "waits").unlink()
        status = end(process)[0]
        while select.select([terminal], [], [], 0)[0]:
            shown += os.read(terminal, 10000).decode()
        os.close(other_end)
        os.close(terminal)
        lines = [re.sub(r" \(\d+ s\)$", "", line) for line in shown.replace("\r\n", "\n").split("\r\033[K")]
        first = "plot: proving crate 1 of 3: lines"
        expect("the seconds on a terminal", lines.count(first) >= 2, True)
        expect("a build on a terminal", (status, list(dict.fromkeys(lines))), (0, [
            said, first, "plot: proving crate 2 of 3: console", "plot: proving crate 3 of 3: plot_main",
            "plot: running the console on its examples", "plot: the console is proved and built\n"]))


def test_staleness():
    with stand_in() as place:
        def runs_after(what, wanted):
            status, out, _ = run(place, "file 2 0 0 1")
            expect(what, (status, out, place.runs()), (0, ANSWERS["file 2 0 0 1"] + "\n", wanted))

        runs_after("the first call builds", 1)
        runs_after("the second does not", 1)
        source = place.home / "crates" / "lines" / "src" / "lib.rt"
        os.utime(source, (4000000000, 4000000000))
        runs_after("a later date builds nothing", 1)
        source.write_text("other")
        os.utime(source, (0, 0))
        runs_after("other contents under an old date are built", 2)
        source.write_text("lines")
        runs_after("the contents of before have their console", 2)
        write(place.home / "crates" / "other" / "src" / "lib.rt", "changed")
        runs_after("a crate that the console does not rest on changes nothing", 2)
        write(place.source / "stdin", "help\nfile 2 0 0 1")
        runs_after("other stored calls are compared", 3)
        write(place.kit / "KIT-ID", "another\n")
        runs_after("another toolkit builds", 4)


def test_failed_build():
    with stand_in() as place:
        log = str(place.home / "target" / "plot" / "build.log")
        (place.home / "fails").touch()
        for what in "a failed proof", "the console that failed is not used":
            status, out, err = run(place, "file 2 0 0 1")
            said = "plot: fn plot_main::main: not proved\nplot: rt: the library other did not build\n"
            expect(what, (status, out, said in err, log in err), (4, "", True, True))
        expect("it is built again", place.runs(), 2)
        (place.home / "fails").unlink()
        others = {"stdin": "file 2 0 0 1\n", "stdout": "help\n", "data/help.txt": "help", "status": "1\n"}
        for part, text in others.items():
            write(place.source / part, text)
            for what in f"another {part}", f"another {part}, again":
                status, out, err = run(place, "file 2 0 0 1")
                expect(what, (status, out, " its examples" in err, log in err), (4, "", True, True))
            write(place.source / part, EXAMPLE.get(part, "0\n"))
        expect("they are compared each time", place.runs(), 10)
        (place.home / "changes").touch()
        status, out, err = run(place, "file 2 0 0 1")
        expect("a source that changes meanwhile", (status, out, "changed" in err), (4, "", True))


def test_two_at_a_time():
    with stand_in() as place:
        (place.home / "waits").touch()
        first = start(place, "file 2 0 0 1")
        expect("the first of two", first.stderr.readline().split()[1:2], ["proving"])
        second = start(place, "file 2 0 0 1")
        expect("the second waits", second.stderr.readline().split()[-3:-2], ["waiting"])
        (place.home / "waits").unlink()
        answered = (0, ANSWERS["file 2 0 0 1"] + "\n")
        expect("two at a time", (end(first)[:2], end(second), place.runs()), (answered, (*answered, ""), 1))


def test_open_console():
    """A console at which somebody still writes keeps nobody from building another."""
    with stand_in() as place:
        first = start(place, stdin=subprocess.PIPE)
        first.stdin.write("file 2 0 0 1\n")
        first.stdin.flush()
        expect("an open console", first.stdout.readline(), ANSWERS["file 2 0 0 1"] + "\n")
        write(place.home / "crates" / "lines" / "src" / "lib.rt", "changed")
        second = start(place, "file 2 0 0 1")
        expect("a build beside it", second.stderr.readline().split()[1:2], ["proving"])
        end(first)
        end(second)


def test_read_only():
    """Root may write where nobody else may, so root runs this as nobody."""
    nobody = {"user": 65534, "group": 65534, "extra_groups": []} if os.geteuid() == 0 else {}
    with stand_in() as place:
        place.writable(False)
        one_line("read-only, not built", run(place, "file 2 0 0 1", **nobody), "target/plot", "written")
        place.writable(True)
        expect("built", run(place, "file 2 0 0 1")[0], 0)
        place.writable(False)
        expect("read-only, built", run(place, "file 2 0 0 1", **nobody), (0, ANSWERS["file 2 0 0 1"] + "\n", ""))
        place.writable(True)
        (place.tools / "flock").unlink()
        write(place.home / "crates" / "lines" / "src" / "lib.rt", "changed")
        one_line("no flock", run(place, "file 2 0 0 1"), "flock")


def test_answering(place):
    for test in test_calls, test_lines, test_line_end, test_lost, test_head, test_unread, test_link, test_help:
        test(place)


if sys.argv[1:] == ["--built"]:
    test_answering(Built("plot"))
else:
    faulthandler.dump_traceback_later(300, exit=True)
    with stand_in() as checkout:
        test_answering(checkout)
        test_console_fails(checkout)
        test_toolkit(checkout)
    test_emulator()
    test_progress()
    test_staleness()
    test_failed_build()
    test_two_at_a_time()
    test_open_console()
    test_read_only()
standins.verdict("plot", "its statuses are as documented, and it builds what it must")
