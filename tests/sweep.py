#!/usr/bin/env python3
"""How ./sweep is used and how it ends: its arguments, statuses and messages, what it tells on a terminal, and how it
builds the program.

As in tests/plot.py a copy of it stands in a checkout of its own, with stand-ins for the toolkit and the program, which
knows three directions. What ./plot and ./sweep share, scripts/programs.sh, is tested there.

    sweep.py                             ./sweep with the stand-ins
    sweep.py --built                     ./sweep itself, with the program that it builds, where no stand-in is needed
    sweep.py --cases FOLDER PROGRAM ..   ./sweep with the stand-in for the toolkit, and the program that is run by these
                                         words, on each case that `tests/second.py --sweep FOLDER` wrote, and on the
                                         example of docs/SWEEP.md
    sweep.py --cases FOLDER --built      the same of ./sweep itself, with the program that it builds
"""
import faulthandler
import os
import pathlib
import pty
import re
import select
import shlex
import socket
import subprocess
import sys
import tempfile
import tty

sys.dont_write_bytecode = True
import standins
from standins import NO_ERROR, ROOT, Built, end, expect, quietly, run, start, write

UP = "0x208C000000000000\n"
ZERO = "refused 7\n"
UNREAD_LINE = "not read\n"
FIRST_ZERO = "the first at place {} with 7: the direction is (0, 0, 0)"
MANY = "0 0 1\n" * 6000  # More codes than a pipe holds.
USAGE = "sweep: write it as ./sweep [--packed] DEGREE\n"
DEEP = "sweep: refused 1: a degree, as field or argument, is above 24\n"
UNWRITTEN = "sweep: the codes could not be written\n"
UNREAD = "sweep: the directions could not be read\n"
LINES = {"0 0 1": UP, "0 0 0": ZERO, "1 0": UNREAD_LINE}
EXAMPLE = ROOT / "crates" / "sweep_main"
CLEAR = "\r\033[K"

# The program stops as the real one does, with its status on descriptor 3. Degree 1001 and 1002 are ways in which that
# one never ends.
PROGRAM = r"""#!/usr/bin/env bash
finish() {
    printf '%s\n' "$2" >&2 2>/dev/null
    { printf %s "$1" >&3; } 2>/dev/null
    exit 0
}
case $1 in
25) finish 1 'sweep: refused 1: a degree, as field or argument, is above 24' ;;
1001) exit ;;
1002) exit 9 ;;
'' | *[!0-9]*) finish 2 'sweep: write it as ./sweep [--packed] DEGREE' ;;
esac
[ "$1" = 2 ] && [[ $2 == text || $2 == packed ]] && [[ $3 == watch || $3 == quiet ]] && [ $# = 3 ] || exit 9
count=0 refused= unread= place= gap=
watch() { [ "$1" = quiet ] || printf '\r\033[K%s' "$2" >&2; }
words() { if [ "$1" = 1 ]; then echo '1 direction'; else echo "$1 directions"; fi; }
lines() { if [ "$1" = text ]; then cat; else od -An -v -tx1 -w12; fi 2>/dev/null || echo lost; }
while IFS= read -r line || [ -n "$line" ]; do
    case $line in
    *lost) finish 3 'sweep: the directions could not be read' ;;
    '0 0 1' | ' 00 00 00 00 00 00 00 00 00 00 00 01') text=0x208C000000000000 ;;
    '0 0 0' | ' 00 00 00 00 00 00 00 00 00 00 00 00')
        text='refused 7' refused=$((refused + 1)) place=${place:-$count}
        ;;
    *) text='not read' unread=$((unread + 1)) gap=${gap:-$count} ;;
    esac
    count=$((count + 1))
    printf '%s\n' "$text" 2>/dev/null || finish 3 'sweep: the codes could not be written'
done < <(lines "$2")
[ "$count" = 0 ] || watch "$3" "sweep: $(words "$count") so far, ${refused:-0} refused"
watch "$3" ''
text="sweep: $(words "$count"), ${refused:-0} refused"
[ -z "$place" ] || text+=", the first at place $place with 7: the direction is (0, 0, 0)"
[ -z "$gap" ] || text+="; $unread not read, the first at place $gap"
status=0
[ -z "$place" ] || status=1
[ -z "$gap" ] || status=2
finish "$status" "$text"
"""


def stand_in(program=PROGRAM):
    return standins.StandIn("sweep", program, {"args": "2\ntext\nquiet\n", "stdin": "0 0 1\n", "stdout": UP})


# ---- what ./sweep writes, and its statuses

def closing(text):
    return f"sweep: {text}\n"


def test_directions(place):
    # The first may have to build the program.
    expect("all filed", quietly(place, "2", given="0 0 1\n0 0 1\n"), (0, UP * 2, closing("2 directions, 0 refused")))
    expect("a last line without its end", run(place, "2", given="0 0 1"), (0, UP, closing("1 direction, 0 refused")))
    expect("no directions", run(place, "2", given=""), (0, "", closing("0 directions, 0 refused")))
    expect("some refused", run(place, "2", given="0 0 1\n0 0 0\n0 0 0\n"),
           (1, UP + ZERO * 2, closing("3 directions, 2 refused, " + FIRST_ZERO.format(1))))
    expect("some not read", run(place, "2", given="0 0 1\n0 0 1\n1 0\n"),
           (2, UP * 2 + UNREAD_LINE, closing("3 directions, 0 refused; 1 not read, the first at place 2")))
    text = closing("3 directions, 1 refused, " + FIRST_ZERO.format(1) + "; 1 not read, the first at place 0")
    expect("refused and not read", run(place, "2", given="\n0 0 0\n0 0 1\n"), (2, UNREAD_LINE + ZERO + UP, text))
    packed = "\0" * 11 + "\1" + "\0" * 12
    expect("packed", run(place, "--packed", "2", given=packed),
           (1, UP + ZERO, closing("2 directions, 1 refused, " + FIRST_ZERO.format(1))))
    expect("packed, and 11 bytes", run(place, "--packed", "2", given=packed[:23]),
           (2, UP + UNREAD_LINE, closing("2 directions, 0 refused; 1 not read, the first at place 1")))
    expect("standard error closed", run(place, "2", given="0 0 0\n", **NO_ERROR), (1, ZERO, None))


def test_arguments(place):
    # Those that ./sweep itself does not take are refused before there is a program, or a toolkit for one.
    for words in ([], ["2", "3"], ["--text", "2"], ["--packed"], ["2", "--packed"], ["--packed", "2", "3"], ["2", ""],
                  ["2", "--help"]):
        got = run(place, *words, given="0 0 1\n", env={"PATH": os.defpath})
        expect(f"arguments {words}", got, (2, "", USAGE))
    for words in ([""], ["x"], ["-1"], ["--packed", "--packed"], ["2 "], ["2\n"]):
        expect(f"degree {words}", run(place, *words, given="0 0 1\n"), (2, "", USAGE))


def test_degree(place):
    """A degree above 24 is refused, and nothing is read."""
    for words in ["25"], ["--packed", "25"]:
        with tempfile.TemporaryFile("w+") as file:
            file.write("0 0 1\n")
            file.seek(0)
            expect(f"degree {words}", run(place, *words, stdin=file), (1, "", DEEP))
            expect(f"what degree {words} reads", os.lseek(file.fileno(), 0, os.SEEK_CUR), 0)
    expect("degree 25, input closed", standins.without_input(place, "25"), (1, "", DEEP))


def test_follow(place):
    """What has been filed is written before more is read."""
    process = start(place, "2", stdin=subprocess.PIPE)
    for line, written in LINES.items():
        process.stdin.write(line + "\n")
        process.stdin.flush()
        expect(f"{line}, while there may be more", process.stdout.readline(), written)
    text = closing("3 directions, 1 refused, " + FIRST_ZERO.format(1) + "; 1 not read, the first at place 2")
    expect("after the last", end(process), (2, "", text))


def test_pieces(place):
    """However the input is cut: each read of such a socket brings what one call of send took."""
    text, packed = b"0 0 1\n0 0 0\n0 0 1", bytes(11) + b"\1" + bytes(23) + b"\1"
    wanted = 1, UP + ZERO + UP, closing("3 directions, 1 refused, " + FIRST_ZERO.format(1))
    for words, given in ((["2"], text), (["--packed", "2"], packed)):
        for size in (1, 2, 5, 7, 13):
            ours, its = socket.socketpair(socket.AF_UNIX, socket.SOCK_SEQPACKET)
            process = start(place, *words, stdin=its.fileno())
            its.close()
            for at in range(0, len(given), size):
                ours.send(given[at : at + size])
            ours.close()
            expect(f"{words} in pieces of {size} bytes", end(process), wanted)


def test_lost(place):
    for how, got, wanted in standins.each_lost(place, ["2"], MANY, UNWRITTEN):
        expect(f"directions, {how}", got, wanted)
    with open("/dev/full", "w") as full:
        expect("standard error full", run(place, "2", given="0 0 1\n", stderr=full), (0, UP, None))
    expect("the first of many codes, and those after it", standins.after_first(place, ["2"], MANY),
           (UP, (3, None, UNWRITTEN)))


def test_unread(place):
    expect("directions from a folder", standins.from_folder(place, "2"), (3, "", UNREAD))
    expect("directions, input closed", standins.without_input(place, "2"), (3, "", UNREAD))
    # What a terminal has shown can be read at its other end, and after that nothing, where it is gone.
    other_end, terminal = pty.openpty()
    tty.setraw(terminal)
    os.write(terminal, b"0 0 1\n0 0 0\n0 0")
    process = start(place, "2", stdin=other_end)
    os.close(terminal)
    expect("a read that fails after others", end(process), (3, UP + ZERO, UNREAD))
    os.close(other_end)


def test_link(place):
    with tempfile.TemporaryDirectory() as folder:
        link = pathlib.Path(folder) / "sweep"
        link.symlink_to(os.path.relpath(place.script, os.path.realpath(folder)))
        got = run(place, "2", given="0 0 1\n", script=link, cwd="/")
        expect("a link to ./sweep", got, (0, UP, closing("1 direction, 0 refused")))


def test_help(place):
    status, out, err = run(place, "--help")
    expect("--help", (status, out.startswith("./sweep DEGREE "), err), (0, True, ""))
    expect("-h", run(place, "-h"), (status, out, err))
    expect("--help, input closed", standins.without_input(place, "--help"), (status, out, err))
    documented = (ROOT / "docs" / "SWEEP.md").read_text()
    statuses, same = (re.findall(r"^    \d    .*$", text, re.M) for text in (out, documented))
    expect("the statuses of --help", [line.split()[0] for line in statuses], list("01234"))
    expect("the statuses of docs/SWEEP.md", same, statuses)
    for how, got, wanted in standins.each_lost(place, ["--help"], None, UNWRITTEN):
        expect(f"--help, {how}", got, wanted)


# ---- what is told on a terminal

def shown_on(terminal):
    shown = ""
    while select.select([terminal], [], [], 0)[0]:
        shown += os.read(terminal, 10000).decode()
    return shown.replace("\r\n", "\n")


def test_terminal(place):
    given, last = "0 0 1\n0 0 0\n", closing("2 directions, 1 refused, " + FIRST_ZERO.format(1))
    told = f"{CLEAR}sweep: 2 directions so far, 1 refused{CLEAR}{last}"
    terminal, other_end = pty.openpty()
    expect("standard error is a terminal", (*run(place, "2", given=given, stderr=other_end), shown_on(terminal)),
           (1, UP + ZERO, None, told))
    expect("no directions", (*run(place, "2", given="", stderr=other_end), shown_on(terminal)),
           (0, "", None, CLEAR + closing("0 directions, 0 refused")))
    got = run(place, "2", given=given, stdout=other_end, stderr=other_end)
    expect("both are a terminal", (*got, shown_on(terminal)), (1, None, None, UP + ZERO + last))
    expect("standard output is a terminal", (*run(place, "2", given=given, stdout=other_end), shown_on(terminal)),
           (1, None, last, UP + ZERO))
    expect("a degree on a terminal", (*run(place, "25", stderr=other_end), shown_on(terminal)), (1, "", None, DEEP))
    os.close(other_end)
    os.close(terminal)


# ---- what needs the stand-ins

def test_program_fails(place):
    for degree, ended in (("1001", 0), ("1002", 9)):
        expect(f"a program that ends with no status, and {ended}", run(place, degree, given="0 0 1\n"),
               (4, "", f"sweep: the program could not be run to its end (status {ended})\n"))


def test_toolkit(place):
    status, out, err = run(place, "2", given="0 0 1\n", env={"PATH": str(place.tools)})
    expect("no rt", (status, out, err.count("\n"), "rt is not on the PATH" in err), (4, "", 1, True))
    expect("--help without rt", run(place, "--help", env={"PATH": str(place.tools)})[0], 0)
    (place.home / "scripts" / "programs.sh").unlink()
    status, out, err = run(place, "2", given="0 0 1\n")
    expect("no scripts/programs.sh", (status, out, "programs.sh" in err), (4, "", True))


def test_build():
    with stand_in() as place:
        status, out, err = run(place, "2", given="0 0 1\n")
        wanted = ("sweep: proving and building the program first, which can take some minutes\n"
                  "sweep: crate 2 of 3: console proved (N s)\nsweep: crate 3 of 3: sweep_main proved (N s)\n"
                  "sweep: the program is proved and built (N s)\nsweep: 1 direction, 0 refused\n")
        expect("a build", (status, out, re.sub(r"\(\d+ s\)", "(N s)", err)), (0, UP, wanted))
        run(place, "2", given="0 0 1\n")
        expect("the second run builds nothing", place.runs(), 1)
        write(place.home / "crates" / "plot_main" / "src" / "lib.rt", "changed")
        run(place, "2", given="0 0 1\n")
        expect("a change of the console's crate builds nothing", place.runs(), 1)
        write(place.source / "stdin", "0 0 1")
        expect("another stored example is compared", (run(place, "2", given="0 0 1\n")[0], place.runs()), (0, 2))
    with stand_in() as place:
        (place.home / "fails").touch()
        status, out, err = run(place, "2", given="0 0 1\n")
        log = str(place.home / "target" / "sweep" / "build.log")
        said = "sweep: fn sweep_main::main: not proved\n" in err, log in err
        expect("a failed build", (status, out, *said), (4, "", True, True))


def test_beside_plot():
    """./plot and ./sweep wait for each other, so that what both rest on is proved once."""
    with stand_in() as place:
        (place.home / "waits").touch()
        first = start(place, "file 2 0 0 1", script=place.home / "plot")
        expect("./plot builds", first.stderr.readline().split()[1:2], ["proving"])
        second = start(place, "2", stdin=subprocess.PIPE)
        expect("./sweep waits", second.stderr.readline(),
               "sweep: another ./plot is building the console: waiting for it\n")
        (place.home / "waits").unlink()
        end(first)
        expect("then it builds", (end(second, "0 0 1\n")[:2], place.runs()), ((0, UP), 2))


# ---- the example of docs/SWEEP.md, and the cases of tests/second.py

def page_example(page="docs/SWEEP.md"):
    """The words and the input of its call, and what is written to standard output and standard error."""
    block = re.search(r"^    \$ \./sweep (.*) <(.*)\n((?:    .*\n)+)", (ROOT / page).read_text(), re.M)
    *lines, last = block[3].replace("    ", "").splitlines(True)
    return block[1].split(), (ROOT / block[2]).read_text(), "".join(lines), last


def test_stored_example():
    """What `rt ci` holds the program to is that example."""
    words, given, out, _ = page_example()
    expect("the example of README.md", page_example("README.md"), page_example())
    expect("crates/sweep_main/args", (EXAMPLE / "args").read_text().split(), [*words, "text", "quiet"])
    expect("crates/sweep_main/stdin", (EXAMPLE / "stdin").read_text(), given)
    expect("crates/sweep_main/stdout", (EXAMPLE / "stdout").read_text(), out)


def compare(what, place, words, given, wanted):
    """Byte by byte. Of what is wrong, which may be long, the first line."""
    for part, *texts in zip(("status", "standard output", "standard error"),
                            run(place, *words, given=given, text=False), wanted):
        lines = [text.split(b"\n") if isinstance(text, bytes) else [text] for text in texts]
        at = next((k for k, (one, other) in enumerate(zip(*lines)) if one != other), min(map(len, lines)))
        expect(f"{what}, {part}, line {at + 1}", *(some[at : at + 1] for some in lines))


def test_cases(place, folder):
    words, given, out, err = page_example()
    expect("the example of docs/SWEEP.md", quietly(place, *words, given=given), (2, out, err))
    cases = sorted(folder.glob("*.args"))
    expect(f"whether there are cases in {folder}", bool(cases), True)
    for case in cases:
        words = case.read_bytes().split(b"\n")[:-1]
        given, out, err, status = (case.with_suffix(f".{part}").read_bytes() for part in ("in", "out", "err", "status"))
        compare(f"case {case.stem}", place, words, given, (int(status), out, err))
    return len(cases)


def test_filing(place):
    for test in (test_directions, test_arguments, test_degree, test_follow, test_pieces, test_lost, test_unread,
                 test_link, test_help, test_terminal):
        test(place)


built = Built("sweep")
if sys.argv[1:2] == ["--cases"] and len(sys.argv) > 3:
    where, command = pathlib.Path(sys.argv[2]), sys.argv[3:]
    if command == ["--built"]:
        compared = test_cases(built, where)
    else:
        with stand_in(f'#!/bin/sh\nexec {shlex.join(command)} "$@"\n') as checkout:
            compared = test_cases(checkout, where)
    right = f"its output, messages and statuses are those of {compared} cases, and of the example of docs/SWEEP.md"
elif sys.argv[1:] == ["--built"]:
    test_filing(built)
    right = "its statuses are as documented"
elif not sys.argv[1:]:
    faulthandler.dump_traceback_later(300, exit=True)
    test_stored_example()
    with stand_in() as checkout:
        test_filing(checkout)
        test_program_fails(checkout)
        test_toolkit(checkout)
    test_build()
    test_beside_plot()
    right = "its statuses are as documented, and it builds what it must"
else:
    sys.exit(__doc__)
standins.verdict("sweep", right)
