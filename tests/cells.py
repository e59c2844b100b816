#!/usr/bin/env python3
"""How ./cells is used and how it ends: its arguments, statuses and messages, and how it builds the program.

As in tests/plot.py a copy of it stands in a checkout of its own, with stand-ins for the toolkit and the program, which
knows some lists. What ./plot, ./sweep and ./cells share, scripts/programs.sh, is tested there.

    cells.py                             ./cells with the stand-ins
    cells.py --built                     ./cells itself, with the program that it builds, where no stand-in is needed
    cells.py --cases FOLDER --built      ./cells itself on each case that `tests/second.py --cells FOLDER` wrote, and on
                                         the examples of docs/CELLS.md; and the program alone, as ./cells runs it
"""
import faulthandler
import os
import pathlib
import re
import shlex
import subprocess
import sys
import tempfile

sys.dont_write_bytecode = True
import standins
from standins import NO_ERROR, ROOT, Built, end, expect, quietly, run, start, write

GOOD, INSIDE, DAMAGED = (ROOT / "examples" / "cells" / name for name in ("good", "inside", "damaged"))
USAGE = "cells: write it as ./cells check [-v] [--] FILE .. or ./cells mend [-n] [--] FILE\n"
UNWRITTEN = "cells: the lines could not be written\n"
UNREAD = "cells: the list could not be read\n"
LOST_LIST = "cells: the list could not be written\n"
SECOND = "  10012 0x2098000000000000 is inside an earlier one, 1001 0x2050000000000000\n"
DROPPED = "place 1: 10012 0x2098000000000000 is dropped: inside another word\n"
COUNTS = "words in {}, words out {}; dropped: invalid 0, equal to an earlier word 0, inside another word {}; merges 0\n"
EXAMPLE = ROOT / "crates" / "cells_main"
SEVEN = "\0" * 7

# The program writes what the real one does for the two examples, for seven bytes and for none. `dies` and `cut` are
# ways in which that one never ends.
PROGRAM = r"""#!/usr/bin/env bash
given=$(od -An -v -tx1 2>/dev/null | tr -d ' \n'; echo "${PIPESTATUS[0]}")
case $given in
*[!0]) echo 'cells: the list could not be read' >&2; exit ;;
esac
given=${given%0} inside=0
case $given in
64696573) echo 'what it says' >&2; exit 9 ;;
637574) echo 'place 0: cut' >&2; exit ;;
esac
put_list() { printf "$(sed 's/../\\x&/g' <<<"$list")" 2>/dev/null; }
if [ "${1-}" = mend ]; then
    list=$given text=
    case $given in
    00000000000000) echo 'bad length' >&2; exit ;;
    20500000000000002098000000000000) list=2050000000000000 inside=1
        text=$'place 1: 10012 0x2098000000000000 is dropped: inside another word\n' ;;
    esac
    [ "${2-}" = -n ] || put_list || { echo 'cells: the list could not be written' >&2; exit; }
    text+="words in $((${#given} / 16)), words out $((${#list} / 16)); dropped: invalid 0, equal to an earlier word 0"
    echo "$text, inside another word $inside; merges 0" >&2
    exit
fi
case $given in
20500000000000002098000000000000) text='place 1 reason 4'
    more='  10012 0x2098000000000000 is inside an earlier one, 1001 0x2050000000000000' ;;
00000000000000) text='bad length' more='  its length is not a multiple of 8' ;;
*) text=accepted more= ;;
esac
[ "${1-}" = -v ] && [ -n "$more" ] && text+=$'\n'$more
printf '%s\n' "$text" 2>/dev/null || echo 'cells: the line could not be written' >&2
"""


def stand_in(program=PROGRAM):
    return standins.StandIn("cells", program, {"stdin": "any list", "stdout": "accepted\n"})


def line_of(path, text):
    return f"{path}: {text}\n"


def mend(place, *words, **how):
    """The status of ./cells mend, its list, in bytes, and its report."""
    status, out, err = run(place, "mend", *words, text=False, **how)
    return status, out, err if err is None else err.decode(errors="replace")


def counts(many, left):
    """The closing line of the report where what is dropped is inside another word."""
    return COUNTS.format(many, left, many - left)


# ---- what ./cells check writes, and its statuses

def test_lists(place):
    # The first may have to build the program.
    expect("accepted", quietly(place, "check", GOOD), (0, line_of(GOOD, "accepted"), ""))
    expect("not accepted", run(place, "check", INSIDE), (1, line_of(INSIDE, "place 1 reason 4"), ""))
    both = line_of(INSIDE, "place 1 reason 4") + line_of(GOOD, "accepted")
    expect("two files", run(place, "check", INSIDE, GOOD), (1, both, ""))
    expect("the same twice", run(place, "check", GOOD, GOOD), (0, line_of(GOOD, "accepted") * 2, ""))
    expect("-v, accepted", run(place, "check", "-v", GOOD), (0, line_of(GOOD, "accepted"), ""))
    expect("-v", run(place, "check", "-v", INSIDE, GOOD),
           (1, line_of(INSIDE, "place 1 reason 4") + SECOND + line_of(GOOD, "accepted"), ""))
    expect("standard input", run(place, "check", given=SEVEN), (1, "bad length\n", ""))
    expect("standard input, -v", run(place, "check", "-v", given=SEVEN),
           (1, "bad length\n  its length is not a multiple of 8\n", ""))
    expect("nothing on standard input", run(place, "check", given=""), (0, "accepted\n", ""))
    with open(INSIDE) as file:
        expect("a file on standard input", run(place, "check", stdin=file), (1, "place 1 reason 4\n", ""))
    expect("standard error closed", run(place, "check", INSIDE, **NO_ERROR),
           (1, line_of(INSIDE, "place 1 reason 4"), None))


def test_names(place):
    """Any name of a file is taken as it is."""
    with tempfile.TemporaryDirectory() as folder:
        for name in "-v", "check", "a b", "*", "-", "--", "é":
            (pathlib.Path(folder) / name).write_bytes(GOOD.read_bytes())
            expect(f"a file {name}", run(place, "check", "--", name, cwd=folder), (0, line_of(name, "accepted"), ""))
        both = run(place, "check", "-v", "--", "-v", cwd=folder)
        expect("-v and a file -v", both, (0, line_of("-v", "accepted"), ""))
        expect("a file without --", run(place, "check", "a b", cwd=folder), (0, line_of("a b", "accepted"), ""))
        (pathlib.Path(folder) / "a: accepted\nb").write_bytes(INSIDE.read_bytes())
        expect("a name with a line end", run(place, "check", "a: accepted\nb", cwd=folder),
               (1, "$'a: accepted\\nb': place 1 reason 4\n", ""))
        (pathlib.Path(folder) / "-v").unlink()
        expect("-v after a file is a file", run(place, "check", "a b", "-v", cwd=folder),
               (3, line_of("a b", "accepted"), "cells: -v could not be read\n"))


def test_descriptors(place):
    """Names of open files, and of ones that are closed."""
    with open(INSIDE) as file:
        expect("/dev/stdin", run(place, "check", "/dev/stdin", stdin=file),
               (1, line_of("/dev/stdin", "place 1 reason 4"), ""))
    expect("/dev/stdin closed", standins.without_input(place, "check", "/dev/stdin"),
           (3, "", "cells: /dev/stdin could not be read\n"))
    with open(GOOD) as file:
        expect("/dev/fd", run(place, "check", f"/dev/fd/{file.fileno()}", pass_fds=[file.fileno()]),
               (0, line_of(f"/dev/fd/{file.fileno()}", "accepted"), ""))
    strict = {**place.environment, "POSIXLY_CORRECT": "1"}
    expect("by POSIX", run(place, "check", "none", GOOD, env=strict),
           (3, line_of(GOOD, "accepted"), "cells: none could not be read\n"))


def test_arguments(place):
    # They are refused before there is a program, or a toolkit for one.
    for words in ([], [""], ["amend"], ["check", "-x"], ["check", "-v", "-v"], ["check", "--"], ["check", "-v", "--"],
                  ["-v", "check"], ["check", "-"], ["check", "--help"], [GOOD], ["check", "-n"], ["mend", "-v"],
                  ["mend", "-n", "-n"], ["mend", "--"], ["mend", "-n", "--"], ["-n", "mend"], ["mend", "-"],
                  ["mend", "--help"], ["mend", GOOD, GOOD], ["mend", "-n", GOOD, INSIDE], ["mend", "--", GOOD, GOOD],
                  ["mend", GOOD, "-n"]):
        got = run(place, *words, given="", env={"PATH": os.defpath})
        expect(f"arguments {words}", got, (2, "", USAGE))


def test_unread(place):
    with tempfile.TemporaryDirectory() as folder:
        none = pathlib.Path(folder) / "none"
        said = f"cells: {none} could not be read\n"
        expect("no such file", run(place, "check", none), (3, "", said))
        expect("the others are checked", run(place, "check", none, INSIDE, GOOD),
               (3, line_of(INSIDE, "place 1 reason 4") + line_of(GOOD, "accepted"), said))
        expect("a folder", run(place, "check", folder), (3, "", f"cells: {folder} could not be read\n"))
        # One that can be opened, and not read.
        expect("a file that no read takes from", run(place, "check", "/proc/self/mem", GOOD),
               (3, line_of(GOOD, "accepted"), "cells: /proc/self/mem could not be read\n"))
    expect("standard input is a folder", standins.from_folder(place, "check"), (3, "", UNREAD))
    expect("standard input closed", standins.without_input(place, "check"), (3, "", UNREAD))


def test_lost(place):
    for how, got, wanted in standins.each_lost(place, ["check", GOOD], None, UNWRITTEN):
        expect(f"a line, {how}", got, wanted)


def test_pieces(place):
    """However the input is cut: each read brings what one write took."""
    given = INSIDE.read_bytes()
    for size in (1, 3, 8, 15):
        process = start(place, "check", stdin=subprocess.PIPE, text=False, bufsize=0)
        for at in range(0, len(given), size):
            process.stdin.write(given[at : at + size])
        process.stdin.close()
        process.stdin = None
        expect(f"in pieces of {size} bytes", end(process), (1, b"place 1 reason 4\n", b""))


# ---- what ./cells mend writes, and its statuses

def test_mended(place):
    good, inside = GOOD.read_bytes(), INSIDE.read_bytes()
    report = DROPPED + counts(2, 1)
    expect("nothing to mend", mend(place, GOOD), (0, good, counts(4, 4)))
    expect("mended", mend(place, INSIDE), (0, inside[:8], report))
    expect("-n", mend(place, "-n", INSIDE), (0, b"", report))
    expect("mend, standard input", mend(place, given=inside), (0, inside[:8], report))
    expect("-n, standard input", mend(place, "-n", given=inside), (0, b"", report))
    with open(INSIDE) as file:
        expect("mend, /dev/stdin", mend(place, "/dev/stdin", stdin=file), (0, inside[:8], report))
    expect("mend, nothing on standard input", mend(place, given=b""), (0, b"", counts(0, 0)))
    for words in [], ["-n"]:
        expect(f"bad length {words}", mend(place, *words, given=b"\0" * 7), (1, b"", "bad length\n"))
    expect("mended again", mend(place, given=inside[:8]), (0, inside[:8], counts(1, 1)))


def test_names_to_mend(place):
    with tempfile.TemporaryDirectory() as folder:
        for name in "-n", "mend", "a b", "*", "-", "--", "é", "a\nb":
            (pathlib.Path(folder) / name).write_bytes(GOOD.read_bytes())
            expect(f"to mend, a file {name}", mend(place, "--", name, cwd=folder), (0, GOOD.read_bytes(), counts(4, 4)))
        expect("-n and a file -n", mend(place, "-n", "--", "-n", cwd=folder), (0, b"", counts(4, 4)))
        expect("no such file to mend", mend(place, "c\nd", cwd=folder), (3, b"", "cells: $'c\\nd' could not be read\n"))
        expect("to mend, a folder", mend(place, folder), (3, b"", f"cells: {folder} could not be read\n"))
    expect("to mend, a file that no read takes from", mend(place, "/proc/self/mem"),
           (3, b"", "cells: /proc/self/mem could not be read\n"))
    expect("to mend, standard input is a folder", standins.from_folder(place, "mend"), (3, "", UNREAD))
    expect("to mend, standard input closed", standins.without_input(place, "mend"), (3, "", UNREAD))


def test_lost_list(place):
    for how, got, wanted in standins.each_lost(place, ["mend", INSIDE], None, LOST_LIST):
        expect(f"a mended list, {how}", got, wanted)
    # Nothing of it is to be written.
    for how, got, (_, *wanted) in standins.each_lost(place, ["mend", "-n", GOOD], None, counts(4, 4)):
        expect(f"-n, {how}", got, (3 if wanted[-1] is None else 0, *wanted))
    with open("/dev/full", "w") as full:
        expect("no word to write, output full", mend(place, given=b"", stdout=full), (0, None, counts(0, 0)))
        expect("a lost report", mend(place, INSIDE, stderr=full), (3, INSIDE.read_bytes()[:8], None))
    expect("no standard error", mend(place, INSIDE, **NO_ERROR), (3, INSIDE.read_bytes()[:8], None))
    reading, writing = os.pipe()
    os.close(reading)
    expect("nobody reads the report", mend(place, INSIDE, stderr=writing), (3, INSIDE.read_bytes()[:8], None))
    os.close(writing)


def test_no_output(place):
    with tempfile.TemporaryDirectory() as folder:
        path = pathlib.Path(folder) / "list"
        path.write_bytes(INSIDE.read_bytes())
        same = "cells: the list cannot be written to the file that it is read from\n"
        with open(path, "ab") as out:
            expect("mended over itself", mend(place, path, stdout=out), (2, None, same))
            with open(path) as file:
                expect("standard input over itself", mend(place, stdin=file, stdout=out), (2, None, same))
            expect("-n, over itself", mend(place, "-n", path, stdout=out), (0, None, DROPPED + counts(2, 1)))
        expect("what stood there", path.read_bytes(), INSIDE.read_bytes())
    leader, terminal = os.openpty()
    shown = "standard output is a terminal: write the list to a file, or ask with -n for the report alone"
    expect("to a terminal", mend(place, INSIDE, stdout=terminal), (2, None, f"cells: {shown}\n"))
    expect("-n, to a terminal", mend(place, "-n", INSIDE, stdout=terminal), (0, None, DROPPED + counts(2, 1)))
    os.close(terminal)
    os.close(leader)


# ---- the help

def documented_statuses():
    """The statuses of docs/CELLS.md: of check, and of mend."""
    checking, mending = (ROOT / "docs" / "CELLS.md").read_text().split("## The status")[1].split("## Mending")
    return checking + mending.split("The status is")[1]


def test_help(place):
    status, out, err = run(place, "--help")
    expect("--help", (status, out.startswith("./cells check "), err), (0, True, ""))
    expect("-h", run(place, "-h"), (status, out, err))
    expect("--help, input closed", standins.without_input(place, "--help"), (status, out, err))
    statuses, same = (re.findall(r"^    \d    .*$", text, re.M) for text in (out, documented_statuses()))
    expect("the statuses of --help", [line.split()[0] for line in statuses], list("0123401234"))
    expect("the statuses of docs/CELLS.md", same, statuses)
    for how, got, wanted in standins.each_lost(place, ["--help"], None, UNWRITTEN):
        expect(f"--help, {how}", got, wanted)


def test_calls(place):
    for test in (test_lists, test_names, test_descriptors, test_arguments, test_unread, test_lost, test_pieces,
                 test_mended, test_names_to_mend, test_lost_list, test_no_output, test_help):
        test(place)


# ---- what needs the stand-ins

def test_program_fails(place):
    died = "cells: the program could not be run to its end (status 9): what it says\n"
    expect("a program that dies", run(place, "check", given="dies"), (4, "", died))
    expect("a program that dies, mending", run(place, "mend", given="dies"), (4, "", died))
    expect("a report that is cut short", run(place, "mend", given="cut"),
           (3, "", "cells: the report has no closing line: place 0: cut\n"))


def test_toolkit(place):
    status, out, err = run(place, "check", GOOD, env={"PATH": str(place.tools)})
    expect("no rt", (status, out, err.count("\n"), "rt is not on the PATH" in err), (4, "", 1, True))
    expect("--help without rt", run(place, "--help", env={"PATH": str(place.tools)})[0], 0)
    (place.home / "scripts" / "programs.sh").unlink()
    status, out, err = run(place, "check", GOOD)
    expect("no scripts/programs.sh", (status, out, "programs.sh" in err), (4, "", True))


def test_build():
    with stand_in() as place:
        status, out, err = run(place, "check", GOOD)
        wanted = ("cells: proving and building the program first, which can take some minutes\n"
                  "cells: crate 2 of 3: console proved (N s)\ncells: crate 3 of 3: cells_main proved (N s)\n"
                  "cells: the program is proved and built (N s)\n")
        expect("a build", (status, out, re.sub(r"\(\d+ s\)", "(N s)", err)),
               (0, line_of(GOOD, "accepted"), wanted))
        run(place, "check", GOOD, GOOD)
        expect("the second run builds nothing", place.runs(), 1)
        write(place.source / "stdin", "other")
        expect("another stored example is compared", (run(place, "check", GOOD)[0], place.runs()), (0, 2))


# ---- the examples of docs/CELLS.md, and the cases of tests/second.py

def page_examples(page):
    """Each call of the page, as a line for the shell, with what is written."""
    blocks = re.findall(r"^    \$ (\./cells .*)\n((?:    .*\n)+)", (ROOT / page).read_text(), re.M)
    return [(line, re.sub(r"^    ", "", text, flags=re.M)) for line, text in blocks]


def bytes_of(code):
    """A code as document 01 writes it, or a word as a number, in eight bytes."""
    if code.startswith("0x"):
        return int(code, 16).to_bytes(8, "big")
    side, digits = 4 * int(code[0]) + int(code[1:3], 2), code[3:]
    word = side << 59 | len(digits) << 54 | int("0" + digits, 4) << 54 - 2 * len(digits)
    return word.to_bytes(8, "big")


def named_bytes(what):
    """The list whose words the page names after these words."""
    named = re.search(rf"{what} ((?:\w+, )*\w+\sand\s\w+)\.", (ROOT / "docs" / "CELLS.md").read_text())[1]
    return b"".join(map(bytes_of, re.findall(r"\b\d\w*", named)))


def test_stored_example():
    """What `rt ci` holds the program to is an example of the page; those of README.md are others."""
    expect("crates/cells_main/stdin", (EXAMPLE / "stdin").read_bytes(), INSIDE.read_bytes())
    stored = (EXAMPLE / "stdout").read_text()
    expect("crates/cells_main/stdout", any(f"examples/cells/inside: {stored}" in text for _, text in
                                           page_examples("docs/CELLS.md")), True)
    for example in page_examples("README.md"):
        expect(f"the example {example} of README.md", example in page_examples("docs/CELLS.md"), True)
    expect("whether README.md has an example", bool(page_examples("README.md")), True)
    expect("examples/cells/damaged", DAMAGED.read_bytes(), named_bytes("The file has"))


def program_words():
    """What ./cells runs, and how: its program is named by its source, and what stands before it by the machine."""
    told = subprocess.run(
        ["bash", "-c", f"home={shlex.quote(str(ROOT))} me=cells crate=cells_main called='the program' unwritten=; "
         ". scripts/programs.sh; find_kit; name_program; printf '%s\\n' \"${run[@]}\" \"$program\""],
        cwd=ROOT, capture_output=True, text=True, check=True)
    return told.stdout.splitlines()


def test_examples(place):
    """The calls of the page, one after the other, in a folder where ./cells and the examples stand."""
    with tempfile.TemporaryDirectory() as name:
        folder = pathlib.Path(name)
        for part in "cells", "examples":
            (folder / part).symlink_to(ROOT / part)
        for line, text in page_examples("docs/CELLS.md"):
            _, out, err = quietly(place, "-c", line, script="bash", cwd=folder)
            expect(f"the example {line}", out + err, text)
        expect("the mended list of the page", (folder / "mended").read_bytes(), named_bytes("mended list is"))


def parts_of(case):
    """What must be written for a case: its line, the second one, the mended list and the report."""
    return [case.with_suffix(f".{part}").read_bytes() for part in ("line", "more", "mended", "report")]


def test_program(program, case):
    """The program alone, as ./cells runs it."""
    line, more, mended, report = parts_of(case)
    for words, out, err in (([], line, b""), (["-v"], line + more, b""), (["mend"], mended, report),
                            (["mend", "-n"], b"", report)):
        with case.open("rb") as file:
            got = subprocess.run([*program, *words], stdin=file, capture_output=True)
        expect(f"the program {words} on case {case.stem}", (got.stdout, got.stderr, got.returncode), (out, err, 0))


def test_mend_cases(place, cases):
    """./cells mend on the first case, and the one with the longest report, of each kind."""
    for kind, status in (b"words in ", 0), (b"bad length", 1), (b"too long", 1):
        some = [case for case in cases if parts_of(case)[3].splitlines()[-1].startswith(kind)]
        expect(f"whether a report ends with {kind}", bool(some), True)
        for case in some[:1] + sorted(some, key=lambda case: len(parts_of(case)[3]))[-1:]:
            _, _, mended, report = parts_of(case)
            expect(f"./cells mend on case {case.stem}", mend(place, case), (status, mended, report.decode()))


def test_cases(place, folder):
    test_examples(place)
    program = program_words()
    cases = sorted(folder.glob("*.bin"))
    expect(f"whether there are cases in {folder}", bool(cases), True)
    all_lines, all_more = "", ""
    for case in cases:
        test_program(program, case)
        line, more = (part.decode() for part in parts_of(case)[:2])
        all_lines += line_of(case.name, line[:-1])
        all_more += line_of(case.name, line[:-1]) + more
    names = [case.name for case in cases]
    expect("./cells on all cases", run(place, "check", *names, cwd=folder), (1, all_lines, ""))
    expect("./cells -v on all cases", run(place, "check", "-v", *names, cwd=folder), (1, all_more, ""))
    test_mend_cases(place, cases)
    return len(cases)


built = Built("cells")
if sys.argv[1:2] == ["--cases"] and sys.argv[3:] == ["--built"]:
    compared = test_cases(built, pathlib.Path(sys.argv[2]))
    right = f"its lines, mended lists and reports are those of {compared} cases, and of the examples of docs/CELLS.md"
elif sys.argv[1:] == ["--built"]:
    test_calls(built)
    right = "its statuses are as documented"
elif not sys.argv[1:]:
    faulthandler.dump_traceback_later(300, exit=True)
    test_stored_example()
    with stand_in() as checkout:
        test_calls(checkout)
        test_program_fails(checkout)
        test_toolkit(checkout)
    test_build()
    right = "its statuses are as documented, and it builds what it must"
else:
    sys.exit(__doc__)
standins.verdict("cells", right)
