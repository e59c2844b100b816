#!/usr/bin/env python3
"""How ./chart is used and how it ends, and that what a page shows is what the console answers.

As in tests/plot.py a copy of it stands in a checkout of its own, with stand-ins for the toolkit and the console. The
stand-in answers calls on the grid as tests/second.py does, for degree 0 and 1, and calls on the table from the file.

    chart.py                        ./chart with the stand-ins: arguments, names, statuses, messages, wrong answers
    chart.py --built [--deepest]    ./chart itself, with the console, on tables that it makes: each number of a page
                                    is held to other calls than those that it was made by; then, where chromium is on
                                    the PATH, pages are opened, pointed at and compared, in words and in pixels. With
                                    --deepest a page of degree 6 is made too, and its time and size told
    chart.py --picture FILE         the example of docs/CHART.md as a picture, by chromium
"""
import faulthandler
import html
import itertools
import json
import os
import pathlib
import random
import re
import shutil
import struct
import subprocess
import sys
import tempfile
import time
import urllib.parse

sys.dont_write_bytecode = True
import standins
from standins import NO_ERROR, ROOT, Built, expect, quietly, run, write

USAGE = "chart: write it as ./chart [--] FILE [X Y Z] >PAGE\n"
UNWRITTEN = "chart: the page could not be written\n"
OPENING = '<script type="text/plain" id="table">\n'
PAGE = ROOT / "docs" / "CHART.md"


def codes(degree):
    """All of a degree, in rising order."""
    sides = ("".join(side) for side in itertools.product("12345", "01", "01"))
    return [side + "".join(digits) for side in sides for digits in itertools.product("0123", repeat=degree)]


def reading_text(mm):
    """As `get` says it."""
    return "no reading" if int(mm) < 0 else f"{mm} mm"


def step_of(crossed):
    """Code, word and edge of what `cross` answers."""
    words = crossed.split()
    return [words[0], words[1], words[3]]


def grid_calls(code):
    """The calls on the grid that a page's triangle is held to. `parent` shows its word: that of a child's parent."""
    return [f"parent {code}0", *(f"{call} {code} {k}" for call in ("drawn", "name", "cross") for k in (1, 2, 3))]


def told_by(known, code, owner, reading):
    """What a page must have of a triangle, by the answers to these calls."""
    return {"code": code, "word": known[f"parent {code}0"].split()[1], "owner": owner, "reading": reading,
            "drawn": [known[f"drawn {code} {k}"] for k in (1, 2, 3)],
            "names": [known[f"name {code} {k}"].split()[0] for k in (1, 2, 3)],
            "steps": [step_of(known[f"cross {code} {k}"]) for k in (1, 2, 3)]}


# ---- the data of a page

class Data:
    """What the lines of a page's block say."""

    def __init__(self, page):
        expect("how many blocks the page has", page.count(OPENING), 1)
        expect("the end of the page", page.endswith("\nend\n</script>\n</body>\n</html>\n"), True)
        self.lines = page.split(OPENING)[1].split("</script>")[0].splitlines()
        lines = iter(self.lines)
        self.source, self.degree, self.calls = (self.field(next(lines), w) for w in ("source", "degree", "calls"))
        self.direction, line = None, next(lines)
        if line.startswith("direction "):
            self.direction, self.filed = self.field(line, "direction"), self.field(next(lines), "filed")
            self.holders = [next(lines) for _ in range(int(self.field(next(lines), "holders")))]
            line = next(lines)
        self.corners = [next(lines).split() for _ in range(int(self.field(line, "corners")))]
        self.triangles = [next(lines).split() for _ in range(int(self.field(next(lines), "triangles")))]
        expect("the last line of the block", list(lines), ["end"])

    @staticmethod
    def field(line, word):
        expect(f"a line {word}", line.split(" ")[0], word)
        return line[len(word) + 1 :]

    def told(self, place):
        """What the page has of a triangle, as the console says it."""
        code, word, owner, reading, *rest = self.triangles[place]
        own = [self.corners[int(c)] for c in rest[:3]]
        steps = [step.split(".") for step in rest[3:]]
        return {"code": code, "word": word, "owner": owner, "reading": reading_text(reading.replace("-", "-1")),
                "drawn": ["x {} y {} z {}".format(*corner[1:]) for corner in own],
                "names": [corner[0] for corner in own],
                "steps": [[*self.triangles[int(other)][:2], edge] for other, edge in steps]}


# ---- the stand-in for the console

# It knows the answers of tests/second.py to calls on the grid. A file beside them has answers to give in their place,
# and may say after how many answers it dies, or that it says one more.
CONSOLE = r"""#!%(python)s -IS
import json, struct, sys
place = %(place)r
known = json.load(open(place + "/answers"))
wrong = json.load(open(place + "/wrong"))
table = None

def opened(name):
    global table
    try:
        data = open(name.encode("utf-8", "surrogateescape"), "rb").read()
    except OSError:
        return "error: the file could not be read"
    degree = int.from_bytes(data[:8], "big") if len(data) >= 8 else 0
    if degree > 24:
        return "refused 1: a degree, as field or argument, is above 24"
    if degree > 6:
        return "refused 20: wrong degree"
    n = 20 * 4 ** degree
    if len(data) != 8 + 16 * n:
        return "refused 22: the list's length isn't 20*4^degree"
    readings, owners = struct.unpack(">%%dq" %% n, data[8:8 + 8 * n]), struct.unpack(">%%dQ" %% n, data[8 + 8 * n:])
    for at, mm in enumerate(readings):
        if not -1 <= mm <= 100000:
            return "refused 23: the list holds a number that is neither a reading nor -1; place %%d" %% at
    if max(owners) > 2:
        return "refused 25: owner list malformed (wrong length or another number)"
    codes = known["codes"][degree]
    table = dict(zip(codes, readings)), dict(zip(codes, owners))
    return "degree %%d, %%d places" %% (degree, n)

def answer(line):
    words = line.split()
    if words[0] == "open":
        return opened(line[5:])
    if words[0] == "owners":
        owned = ["%%s desk %%d" %% pair for pair in table[1].items() if pair[1]]
        return "%%d owned" %% len(owned) + (": " + ", ".join(owned) if owned else "")
    if words[0] == "get":
        return "no reading" if table[0][words[1]] < 0 else "%%d mm" %% table[0][words[1]]
    if words[0] == "mark":
        return "nothing" if table[0][words[1]] < 0 else "dot " + known["drawn %%s 1" %% words[1]]
    if words[0] == "edge-mark":
        ends = [known["drawn %%s %%d" %% (words[1], k)] for k in (1, 2, 3) if k != int(words[2])]
        return "segment %%s to %%s" %% tuple(ends)
    return known[line]

count = 0
for line in sys.stdin:
    count += 1
    if count > wrong.get("dies after", count):
        sys.exit(9)
    if count > wrong.get("stops after", count):
        sys.exit()
    text = line.rstrip("\n")
    try:
        right = answer(text)
    except (KeyError, TypeError):
        right = "error: the stand-in has no answer"
    try:
        print(wrong.get(text) or wrong.get(text.split()[0]) or right, flush=True)
    except OSError:
        sys.stderr.write("plot: the answers could not be written\n")
        sys.exit()
if "says more" in wrong and count > 1:
    print("more")
"""

DIRECTIONS = "0 0 1", "1 1 1", "-3 2 -1", "0 0 0", "1000000001 0 0", "99999999999 0 0"


def second_answers():
    """What tests/second.py answers to all that a chart of degree 0 or 1 asks of the grid."""
    calls = [call for n in (0, 1) for code in codes(n) for call in grid_calls(code)]
    calls += [f"{call} {n} {direction}" for n in (0, 1) for call in ("file", "list") for direction in DIRECTIONS]
    told = subprocess.run([sys.executable, ROOT / "tests" / "second.py", "--answer"], input="\n".join(calls) + "\n",
                          capture_output=True, text=True, check=True)
    return {**dict(zip(calls, told.stdout.splitlines())), "codes": [codes(n) for n in (0, 1)]}


class StandIn(standins.StandIn):
    """With the stand-in for the console. A table is made by its name, readings and owners."""

    def __init__(self):
        self.answers = pathlib.Path(tempfile.mkdtemp(prefix="chart-answers-"))
        self.known = second_answers()
        write(self.answers / "answers", json.dumps(self.known))
        self.answer_wrongly({})
        example = {"stdin": "file 1 0 0 1\n", "stdout": self.known["file 1 0 0 1"] + "\n"}
        console = CONSOLE % {"python": os.path.realpath(sys.executable), "place": str(self.answers)}
        super().__init__("chart", console, example)

    def __exit__(self, *which):
        super().__exit__(*which)
        shutil.rmtree(self.answers)

    def answer_wrongly(self, answers):
        write(self.answers / "wrong", json.dumps(answers))

    def table(self, name, degree=1, readings=(), owners=()):
        path = self.folder / name
        path.write_bytes(table_bytes(degree, readings, owners))
        return path


def table_bytes(degree, readings=(), owners=()):
    """As `save` writes it: readings and owners by their places."""
    n = 20 * 4**degree
    lists = [dict(readings).get(k, -1) for k in range(n)], [dict(owners).get(k, 0) for k in range(n)]
    return struct.pack(f">Q{n}q{n}Q", degree, *lists[0], *lists[1])


READINGS, OWNERS = {0: 0, 1: 1250, 79: 100000, 40: 7}, {1: 1, 2: 1, 40: 2}


# ---- the page, with the stand-ins

def test_page(place):
    for degree, readings, owners in (1, READINGS, OWNERS), (0, {3: 5}, {3: 2}), (1, {}, {}):
        path = place.table("table", degree, readings, owners)
        status, page, err = quietly(place, path)
        expect(f"a page of degree {degree}", (status, err), (0, ""))
        data = Data(page)
        expect("degree and source", (data.degree, data.source, data.direction), (str(degree), str(path), None))
        check_known(place.known, data, degree, readings, owners)
        template = (ROOT / "scripts" / "chart.html").read_text()
        expect("the page but for its data", page.replace("\n".join(data.lines) + "\n", "", 1), template)
    outside = re.findall("https?:|//[a-z]|src=|href=|@import|url\\(", template)
    expect("what the page asks for elsewhere", outside, [])


def check_known(known, data, degree, readings, owners):
    n = 20 * 4**degree
    counted = f"mark {n}, get {n}, edge-mark {3 * n}, name {3 * n}, cross {3 * n}"
    expect("the calls told", data.calls, f"{11 * n + 2}: open 1, owners 1, {counted}")
    expect("corners and triangles", (len(data.corners), len(data.triangles)), (n // 2 + 2, n))
    expect("the codes", [line[0] for line in data.triangles], codes(degree))
    for at, code in enumerate(codes(degree)):
        owner, reading = str(dict(owners).get(at, 0)), reading_text(dict(readings).get(at, -1))
        expect(f"triangle {code}", data.told(at), told_by(known, code, owner, reading))


def test_direction(place):
    path = place.table("table", 1, READINGS, OWNERS)
    for direction, count in ("0 0 1", 6), ("1 1 1", 1), ("-3 2 -1", 1):
        status, page, err = run(place, path, *direction.split())
        data = Data(page)
        listed = place.known[f"list 1 {direction}"]
        expect(f"direction {direction}", (status, data.direction, data.filed, err),
               (0, direction, place.known[f"file 1 {direction}"], ""))
        expect(f"holders of {direction}", (count, f"{count}: " + ", ".join(data.holders)), (len(data.holders), listed))
        expect("the calls told", data.calls.startswith("884: open 1, owners 1, file 1, list 1, mark 80, "), True)
    for direction, no in ("0 0 0", 1), ("1000000001 0 0", 1), ("99999999999 0 0", 2):
        told = "is refused" if no == 1 else "cannot be read"
        said = f"chart: the direction {direction} {told} by the console: {place.known[f'file 1 {direction}']}\n"
        expect(f"direction {direction}", run(place, path, *direction.split()), (no, "", said))


def test_refused(place):
    whole = table_bytes(1, READINGS, OWNERS)
    for what, data, no in (
        ("degree 25", (25).to_bytes(8, "big") + whole[8:], 1), ("degree 7", (7).to_bytes(8, "big") + whole[8:], 20),
        ("nothing", b"", 22), ("seven bytes", whole[:7], 22), ("one byte less", whole[:-1], 22),
        ("one byte more", whole + b"\0", 22), ("far too many", whole + bytes(2_000_000), 22),
        ("a reading too great", table_bytes(1, {5: 100001}), 23), ("one below -1", table_bytes(1, {5: -2}), 23),
        ("a third desk", table_bytes(1, {}, {5: 3}), 25),
    ):
        path = place.folder / "refused"
        path.write_bytes(data)
        status, out, err = run(place, path)
        expect(f"a table with {what}", (status, out, err.split(":")[:3], err.count("\n")),
               (1, "", ["chart", f" {path} is refused by the console", f" refused {no}"], 1))
    expect("standard error closed", run(place, place.folder / "refused", **NO_ERROR), (1, "", None))


def test_names(place):
    """Any name of a file is taken as it is, but for a line end; it does no harm in the page."""
    with tempfile.TemporaryDirectory() as name:
        folder = pathlib.Path(name)
        (folder / "<").mkdir()
        for name in ("-h", "a b", " a", "a ", "\t", "*", "-", "--", "é", "</script><b>", "%41", "a\\n", "&amp;", "'",
                     '"', "\udcff", "0x1", "x" * 200):
            (folder / name).write_bytes(table_bytes(0))
            status, page, err = run(place, "--", name, cwd=folder, errors="surrogateescape")
            expect(f"a file {name!r}", (status, err), (0, ""))
            told = Data(page).source
            expect(f"the source of {name!r}", urllib.parse.unquote(told, errors="surrogateescape"), name)
            expect(f"what {name!r} is in the page", re.findall(r"[^A-Za-z0-9 .,:;_+=@~/()%-]", told), [])
        expect("a name with a line end", run(place, "a\nb", cwd=folder),
               (2, "", "chart: the name of the file has a line end\n"))
        expect("a name with a bell", run(place, "a\ab", cwd=folder), (3, "", "chart: $'a\\ab' could not be read\n"))
        with open(folder / "a b") as file:
            expect("/dev/stdin", run(place, "/dev/stdin", stdin=file)[::2], (0, ""))
        deep = folder / "/".join(["d" * 200] * 6)
        deep.mkdir(parents=True)
        (deep / "table").write_bytes(table_bytes(0))
        expect("a name of more bytes than a line has", run(place, deep / "table")[::2], (0, ""))


def test_arguments(place):
    # They are refused before there is a console, or a toolkit for one.
    path = place.table("table")
    for words in ([], ["-x"], ["--"], ["-"], [path, "1"], [path, "1", "2"], [path, "1", "2", "3", "4"], ["-v", path],
                  ["--", path, "1"]):
        expect(f"arguments {words}", run(place, *words, env={"PATH": os.defpath}), (2, "", USAGE))
    for number in "", "x", "1.5", "0x1", "+1", "--1", "1 ", "1\n", "1" * 21:
        said = f"chart: the direction is three whole numbers, and '{number}' is none\n"
        got = run(place, path, "1", number, "0", env={"PATH": os.defpath})
        expect(f"a direction with {number!r}", got, (2, "", said))


def test_unread(place):
    with tempfile.TemporaryDirectory() as folder:
        none = pathlib.Path(folder) / "none"
        expect("no such file", run(place, none), (3, "", f"chart: {none} could not be read\n"))
        expect("an empty name", run(place, ""), (3, "", "chart:  could not be read\n"))
        for unread in folder, "/proc/self/mem":
            status, out, err = run(place, unread)
            expect(f"reading {unread}", (status, out, err.count("\n")), (3, "", 1))
            expect(f"what is said of {unread}", err.startswith(f"chart: {unread} could not be read"), True)
    status, out, err = standins.without_input(place, "/dev/stdin")
    expect("/dev/stdin closed", (status, out, err.startswith("chart: /dev/stdin could not be read")), (3, "", True))


def test_lost(place):
    path = place.table("table", 1, READINGS, OWNERS)
    for how, got, wanted in standins.each_lost(place, [path], None, UNWRITTEN):
        expect(f"a page, {how}", got, wanted)
    first, (status, _, err) = standins.after_first(place, [path], "")
    expect("as | head -1", (first, status in (0, 3), err in ("", UNWRITTEN)), ("<!DOCTYPE html>\n", True, True))


def test_no_output(place):
    path = place.table("table", 1, READINGS, OWNERS)
    before = path.read_bytes()
    with open(path, "ab") as out:
        expect("over the table", run(place, path, stdout=out),
               (2, None, "chart: the page cannot be written to the file that the table is read from\n"))
    expect("what stood there", path.read_bytes(), before)
    leader, terminal = os.openpty()
    shown = "standard output is a terminal: write the page to a file, as ./chart FILE >chart.html"
    expect("to a terminal", run(place, path, stdout=terminal), (2, None, f"chart: {shown}\n"))
    os.close(terminal)
    os.close(leader)


def documented_statuses():
    return re.findall(r"^    \d    .*$", PAGE.read_text(), re.M)


def test_help(place):
    status, out, err = run(place, "--help")
    expect("--help", (status, out.startswith("./chart "), err), (0, True, ""))
    expect("-h", run(place, "-h"), (status, out, err))
    statuses = re.findall(r"^    \d    .*$", out, re.M)
    expect("the statuses of --help", [line.split()[0] for line in statuses], list("01234"))
    expect("the statuses of docs/CHART.md", documented_statuses(), statuses)
    for how, got, wanted in standins.each_lost(place, ["--help"], None, "chart: the lines could not be written\n"):
        expect(f"--help, {how}", got, wanted)


# ---- answers that are not as they should be: no page is written

AT_1001 = "x 0 y 1 z 1.61803436279296875"
WRONG = [
    {"open": "degree 2, 320 places"}, {"open": "degree 1, 81 places"}, {"open": "ok"},
    {"owners": "1 owned"}, {"owners": "2 owned: 1001 desk 1, 1001 desk 1"}, {"owners": "1 owned: 1001 desk 3"},
    {"owners": "1 owned: 1001 holds 7"}, {"owners": "1 owned: 10011 desk 1"},
    {"mark 1001": "nothing"}, {"mark 1002": f"dot {AT_1001}"}, {"mark 1001": "dot"}, {"mark 1001": f"dot {AT_1001}x"},
    {"mark 1001": "dot x 0 y 1 z 1.6180343627929687"},
    {"get 1001": "no reading"}, {"get 1002": "0 mm"}, {"get 1001": "-1 mm"}, {"get 1001": "100001 mm"},
    {"get 1001": "1250"}, {"get 1001": "-1"}, {"get": "error: no table is open; table DEGREE opens one"},
    {"edge-mark 1001 1": f"segment {AT_1001} to {AT_1001}"}, {"edge-mark 1001 3": "nothing"},
    {"edge-mark 1001 2": f"segment {AT_1001} to x 1 y 1 z NaN"},
    {"name 1001 1": "0x2050000000000001"}, {"name 1001 1": "0x2050000000000002 corner 2 of 1001"},
    {"name 1001 1": "0x2040000000000001 corner 1 of 1000"}, {"name 1001 1": "0x205 corner 1 of 1001"},
    {"name 1001 1": "0x2060000000000001 corner 1 of 1001"},
    {"cross 1001 2": "2001 0x4050000000000000 edge 2 corners 1 2"},
    {"cross 1001 2": "2001 0x4050000000000000 edge 3 corners 2 1"},
    {"cross 1001 2": "2001 0x4051000000000000 edge 3 corners 1 2"},
    {"cross 1001 2": "1001 0x2050000000000000 edge 2 corners 1 3"},
    {"cross 1001 2": "2002 0x4060000000000000 edge 3 corners 1 2"},
    {"cross 1001 2": "20011 0x4090000000000000 edge 3 corners 1 2"}, {"cross 1001 2": "refused 5: an edge"},
    {"file 1 0 0 1": "1001 0x2050000000000000"}, {"list 1 0 0 1": "1: 1001 0x2050000000000000"},
    {"list 1 0 0 1": "0: "}, {"list 1 0 0 1": "2: 1000 0x2040000000000000"},
    {"stops after": 500}, {"stops after": 1}, {"says more": 1},
]


def test_wrong_answers(place):
    path = place.table("table", 1, READINGS, OWNERS)
    for wrong in WRONG:
        place.answer_wrongly(wrong)
        status, out, err = run(place, path, "0", "0", "1")
        expect(f"the wrong answer {wrong}", (status, out, err.count("\n")), (4, "", 1))
        expect(f"what is said of {wrong}", err.startswith("chart: the console"), True)
    place.answer_wrongly({"dies after": 500})
    status, out, err = run(place, path)
    expect("a console that dies", (status, out, err.splitlines()[-1].startswith("chart: the console ")), (4, "", True))
    place.answer_wrongly({"open": "error: no such call; help shows them"})
    expect("a console without the calls", run(place, path),
           (4, "", "chart: the console answers open by 'error: no such call; help shows them'\n"))
    place.answer_wrongly({})


def test_toolkit(place):
    path = place.table("table")
    status, out, err = run(place, path, env={"PATH": str(place.tools)})
    expect("no rt", (status, out, "rt is not on the PATH" in err, err.splitlines()[-1]),
           (4, "", True, "chart: the console could not be built or run"))
    expect("--help without rt", run(place, "--help", env={"PATH": str(place.tools)})[0], 0)
    nowhere = {**place.environment, "TMPDIR": str(place.folder / "none")}
    expect("no folder for what is being made", run(place, path, env=nowhere),
           (3, "", f"chart: no folder could be made in {place.folder}/none\n"))
    for name in " t t", "t\n":
        (place.folder / name).mkdir()
        status, out, err = run(place, path, env={**place.environment, "TMPDIR": name}, cwd=place.folder)
        said = "chart: the name of the folder for temporary files has a line end\n"
        expect(f"a folder {name!r} for it", (status, err), (0, "") if name == " t t" else (3, said))
        expect(f"what is left in {name!r}", list((place.folder / name).iterdir()), [])
    for part in "chart.html", "chart.awk", "programs.sh":
        (place.home / "scripts" / part).unlink()
        status, out, err = run(place, path)
        expect(f"no scripts/{part}", (status, out, part in err), (4, "", True))


# ---- ./chart itself, with the console

class Asked:
    """What the console answers: to the lines that make a table, and to calls on it and on the grid. Each call once."""

    def __init__(self, folder, degree, lines, direction, share):
        self.degree, self.direction, self.file = degree, direction, folder / "soundings"
        self.codes = codes(degree)[::share]
        calls = ["readings", "owners"]
        for code in self.codes:
            calls += [f"get {code}", *grid_calls(code)]
        if direction:
            calls += [f"file {degree} {direction}", f"list {degree} {direction}"]
        given = [*lines, f"save {self.file}", *calls]
        status, out, err = quietly(Built("plot"), given="\n".join(given) + "\n")
        expect("./plot", (status, err), (0, ""))
        answers = out.splitlines()
        bad = [text for text in answers[: len(lines) + 1] if text.startswith(("refused", "error"))]
        expect(f"what is not answered of {lines}", bad, [])
        self.known = dict(zip(calls, answers[len(lines) + 1 :]))
        self.readings = dict(part.split(" ", 1) for part in parts_of(self.known["readings"]))
        self.owners = dict(part.split(" desk ") for part in parts_of(self.known["owners"]))

    def told(self, code):
        return told_by(self.known, code, self.owners.get(code, "0"), self.known[f"get {code}"])


def parts_of(text):
    return text.split(": ", 1)[1].split(", ") if ": " in text else []


def made_lines(degree, seed):
    """The lines that make a table with a reading of 0, one of 100000 and some others, and with owners of some."""
    dice, n = random.Random(seed), 20 * 4**degree
    places = dice.sample(range(n), min(n // 2, 60))
    values = [0, 100000, *(dice.randrange(100001) for _ in places[2:])]
    readings = " ".join(f"{place} {value}" for place, value in zip(places, values))
    owners = " ".join(f"{place} {dice.choice('12')}" for place in dice.sample(range(n), min(n // 3, 60)))
    return [f"table {degree} {n} -1 {readings}", "work-out", f"owners {n} 0 {owners}"]


BY_DESKS = ["table 1", "take 1 1001", "set 1 1001 1250", "take 1 1002", "take 2 5113", "set 2 5113 100000",
            "take 2 1011", "set 2 1011 0"]
CASES = [  # the degree, the lines that make the table, a direction, and of how many triangles one is compared
    (0, made_lines(0, 1), "0 0 1", 1), (1, BY_DESKS, None, 1), (1, ["table 1"], "1 0 0", 1),
    (1, ["table 1 80 500", "work-out"], None, 1), (2, made_lines(2, 2), "0 0 1", 1),
    (2, made_lines(2, 3), "-7 11 5", 1), (3, made_lines(3, 4), "1 0 0", 7),
]


def make_page(asked, folder):
    words = [asked.file, *(asked.direction or "").split()]
    status, page, err = quietly(Built("chart"), *words, cwd=folder)
    expect(f"./chart of degree {asked.degree}", (status, err), (0, ""))
    (folder / "chart.html").write_text(page)
    return Data(page)


def compare_page(asked, data):
    what, all_codes = f"degree {asked.degree}, direction {asked.direction}", codes(asked.degree)
    expect(f"{what}: the degree", data.degree, str(asked.degree))
    expect(f"{what}: the codes", [line[0] for line in data.triangles], all_codes)
    expect(f"{what}: corners", len(data.corners), len(all_codes) // 2 + 2)
    for code in asked.codes:
        expect(f"{what}: triangle {code}", data.told(all_codes.index(code)), asked.told(code))
    # Every reading and owner, whatever share is compared.
    expect(f"{what}: readings", {line[0]: f"{line[3]} mm" for line in data.triangles if line[3] != "-"}, asked.readings)
    expect(f"{what}: owners", {line[0]: line[2] for line in data.triangles if line[2] != "0"}, asked.owners)
    expect(f"{what}: direction", data.direction, asked.direction)
    if asked.direction:
        listed = f"{len(data.holders)}: " + ", ".join(data.holders)
        wanted = [asked.known[f"{call} {asked.degree} {asked.direction}"] for call in ("file", "list")]
        expect(f"{what}: holders", [data.filed, listed], wanted)


def test_built(folder):
    compared = 0
    for degree, lines, direction, share in CASES:
        asked = Asked(folder, degree, lines, direction, share)
        compare_page(asked, make_page(asked, folder))
        compared += len(asked.codes)
    return compared


# ---- the examples of docs/CHART.md

def example(page=PAGE):
    """The example of the page: the lines of ./plot with their answers, and the line of ./chart."""
    form = r"^    \$ \./plot <<END\n((?:    [^$].*\n)+?)    END\n((?:    [^$].*\n)+)    \$ (\./chart .*)\n"
    text = re.search(form, page.read_text(), re.M)
    lines, answers = (re.sub(r"^    ", "", part, flags=re.M) for part in text.groups()[:2])
    return lines, answers, text[3]


def shown_lines():
    """The data lines that docs/CHART.md shows, each as far as it shows it."""
    block = re.search(r"^    source .*\n(?:    .*\n)*?    end\n", PAGE.read_text(), re.M)[0]
    lines = [line[4:].split("  ")[0] for line in block.splitlines() if not line.startswith("     ")]
    return [line.removesuffix("..").rstrip() for line in lines if line != ".."]


def make_example(folder):
    """Runs it in a folder, and answers the page's name there."""
    lines, answers, command = example()
    for name in "plot", "chart":
        (folder / name).symlink_to(ROOT / name)
    got = quietly(Built("plot"), given=lines, cwd=folder)
    expect("the example's answers", got, (0, answers, ""))
    expect("the example's page", quietly(Built("chart"), "-c", command, script="bash", cwd=folder), (0, "", ""))
    page = folder / command.split(">")[1]
    data = Data(page.read_text()).lines
    for line in shown_lines():
        expect(f"the line {line!r} of docs/CHART.md", any(text.startswith(line) for text in data), True)
    return page


# ---- pages in a browser

INK, YELLOW = "16 21 27 255", "255 210 31 255"
STOPS, STEPS = ((214, 230, 244), (158, 202, 225), (90, 160, 206), (33, 102, 172), (8, 40, 94)), 64


def colours():
    """The colours of the scale, as docs/CHART.md has them."""
    for step in range(STEPS):
        at = step / (STEPS - 1) * (len(STOPS) - 1)
        k = min(int(at), len(STOPS) - 2)
        yield tuple(int(x + (y - x) * (at - k) + 0.5) for x, y in zip(STOPS[k], STOPS[k + 1]))


SCALE = list(colours())

# Turns the globe to each triangle, and once more by some keys, points at it where its corners are then drawn, clicks,
# and keeps what the panel says and which colours the canvas has inside. Where things are is worked out here, from the
# lines of the block and the view that the page tells.
SCRIPT = r"""
addEventListener("load", () => {
  const asked = %(asked)s, results = [], by = (id) => document.getElementById(id), globe = by("globe");
  const lines = by("table").textContent.trim().split("\n"), first = lines.findIndex((x) => x.startsWith("corners "));
  const count = Number(lines[first].split(" ")[1]), points = lines.slice(first + 1, first + 1 + count)
    .map((line) => line.split(" ").slice(1).map(Number));
  const own = new Map(lines.slice(first + 2 + count, -1).map((line) => line.split(" "))
    .map((words) => [words[0], words.slice(4, 7)]));
  const painted = () => window.dispatchEvent(new Event("beforeprint"));  // Draws at once what else waits for a frame.
  const key = (name) => globe.dispatchEvent(new KeyboardEvent("keydown", { key: name, bubbles: true }));
  const turned = ([x, y, z]) => {
    const [turn, tilt, scale, width, height] = globe.dataset.view.split(" ").map(Number);
    const ahead = x * Math.cos(turn) + y * Math.sin(turn), aside = y * Math.cos(turn) - x * Math.sin(turn);
    return [width / 2 + scale * aside, height / 2 - scale * (z * Math.cos(tilt) - ahead * Math.sin(tilt))];
  };
  const mix = (code, shares) => {
    const three = own.get(code).map((c) => turned(points[c]));
    return [0, 1].map((axis) => three.reduce((sum, p, k) => sum + shares[k] * p[axis], 0));
  };
  const send = (kind, [x, y], more) => {
    const box = globe.getBoundingClientRect();
    globe.dispatchEvent(new PointerEvent(kind, { bubbles: true, pointerId: 1, ...more,
      clientX: box.left + x * box.width / globe.width, clientY: box.top + y * box.height / globe.height }));
  };
  const tick = (id, on) => { if (by(id).checked !== on) by(id).click(); };
  const text = (element) => element.textContent.replace(/\s+/g, " ").trim();
  const panel = () => ({ title: text(by("triangle").querySelector("h2")), code: by("triangle").dataset.code,
    facts: [...by("triangle").querySelectorAll("dd")].map(text),
    corners: [...by("triangle").querySelectorAll(".corners li")].map(text),
    neighbours: [...by("triangle").querySelectorAll(".neighbours li")].map(text) });
  const colours = (code) => {
    const pen = globe.getContext("2d"), seen = new Set();
    for (let i = 2; i <= 6; i++) for (let k = 2; i + k <= 8; k++) for (const shift of [0, 1, 2, 3]) {
      const [x, y] = mix(code, [i / 10, k / 10, 1 - (i + k) / 10]);
      seen.add([...pen.getImageData(Math.floor(x) + shift, Math.floor(y), 1, 1).data].join(" "));
    }
    return [...seen];
  };
  tick("owners", false);
  tick("dots", false);
  for (const code of asked) {
    const result = { code };
    by("code").value = code;
    by("find").requestSubmit();
    result.found = panel();
    key("Escape");
    result.empty = panel().title;
    send("pointermove", mix(code, [0.6, 0.2, 0.2]));
    result.over = panel();
    for (const name of ["ArrowLeft", "ArrowUp", "ArrowUp", "+"]) key(name);
    send("pointermove", mix(code, [0.2, 0.3, 0.5]));
    result.turned = panel();
    send("pointerdown", mix(code, [0.3, 0.4, 0.3]), { button: 0 });
    send("pointerup", mix(code, [0.3, 0.4, 0.3]), { button: 0 });
    send("pointermove", [3, 3]);
    result.pinned = panel();
    painted();
    result.colours = colours(code);
    tick("dots", true);
    painted();
    const [x, y] = mix(code, [1, 0, 0]);
    result.dot = [...globe.getContext("2d").getImageData(Math.floor(x), Math.floor(y), 1, 1).data].join(" ");
    tick("dots", false);
    by("first").click();
    key("Escape");
    results.push(result);
  }
  const report = { results, direction: [...by("direction").querySelectorAll("h2, p, dd, li")].map(text),
    summary: [...by("summary").querySelectorAll("dd")].map(text), range: text(by("range")),
    data: by("data").textContent, layer: layerColours() };
  // The colours over the globe where the direction leaves it, with the layer and without.
  function layerColours() {
    const given = lines.find((line) => line.startsWith("direction "));
    if (!given) return null;
    const d = given.split(" ").slice(1).map(Number), filed = lines.find((x) => x.startsWith("filed ")).split(" ")[1];
    const [a, b, c] = own.get(filed).map((k) => points[k]);
    const u = b.map((x, k) => x - a[k]), v = c.map((x, k) => x - a[k]);
    const n = [u[1] * v[2] - u[2] * v[1], u[2] * v[0] - u[0] * v[2], u[0] * v[1] - u[1] * v[0]];
    const along = (p) => n[0] * p[0] + n[1] * p[1] + n[2] * p[2], exit = d.map((x) => x * along(a) / along(d));
    const near = () => {
      const [x, y] = turned(exit), seen = new Set(), pen = by("over").getContext("2d");
      const bytes = pen.getImageData(Math.floor(x) - 3, Math.floor(y) - 3, 7, 7).data;
      for (let k = 0; k < bytes.length; k += 4) seen.add([...bytes.slice(k, k + 4)].join(" "));
      return [...seen];
    };
    // From the side, where a point too near or too far would be drawn elsewhere.
    by("first").click();
    for (let k = 0; k < 3; k++) for (const name of ["ArrowLeft", "ArrowDown"]) key(name);
    painted();
    const on = near();
    tick("layer", false);
    painted();
    return [on, near()];
  }
  const told = document.createElement("pre");
  told.id = "results";
  told.textContent = JSON.stringify(report);
  document.body.append(told);
});
"""


def browser():
    return shutil.which("chromium")


def open_page(path, *words, fragment=""):
    """What chromium has of a page when its script is done, or what else the words ask for."""
    with tempfile.TemporaryDirectory() as profile:
        return subprocess.run(
            [browser(), "--headless", "--no-sandbox", "--disable-gpu", "--hide-scrollbars", "--window-size=1400,1000",
             f"--user-data-dir={profile}", *(words or ["--virtual-time-budget=20000", "--dump-dom"]),
             path.as_uri() + fragment], capture_output=True, text=True, timeout=300).stdout


def tried(page, asked_codes):
    """What the script tells of a page."""
    copy = page.with_name("tried.html")
    text = page.read_text()
    script = f"<script>{SCRIPT % {'asked': json.dumps(asked_codes)}}</script>\n</body>"
    copy.write_text(script.join(text.rsplit("</body>", 1)))
    told = re.search(r'<pre id="results">(.*?)</pre>', open_page(copy), re.S)
    if not told:
        expect("whether the script of the test came to its end", False, True)
        return None
    return json.loads(html.unescape(told[1]))


def panel_of(asked, code, pinned):
    """What the panel must say of a triangle."""
    told, known = asked.told(code), asked.known
    owner = ["nobody", "ice desk (1)", "pilotage desk (2)"][int(told["owner"])]
    mark = "nothing" if told["reading"] == "no reading" else "a dot at corner 1"
    return {"title": f"Triangle {code}" + ", pinned" * pinned, "code": code,
            "facts": [code, told["word"], told["reading"], mark, owner],
            "corners": [f"{k}: " + known[f"name {code} {k}"] + told["drawn"][k - 1] for k in (1, 2, 3)],
            "neighbours": [f"across edge {k}: {other}, edge {edge} there"
                           for k, (other, _, edge) in enumerate(told["steps"], 1)]}


def colour_of(asked, reading):
    """The step's colour for a reading, by the least and the greatest."""
    all_mm = [int(text.split()[0]) for text in asked.readings.values()]
    low, high, mm = min(all_mm), max(all_mm), int(reading.split()[0])
    step = STEPS // 2 if low == high else int((mm - low) / (high - low) * (STEPS - 1) + 0.5)
    return SCALE[step]


def compare_colours(asked, what, code, seen):
    told = [tuple(map(int, text.split())) for text in seen]
    expect(f"{what}: whether all is opaque in {code}", {colour[3] for colour in told}, {255})
    plain, reading = {colour[:3] for colour in told}, asked.known[f"get {code}"]
    if reading == "no reading":
        expect(f"{what}: whether {code} is hatched", len(plain) > 1, True)
        expect(f"{what}: colours of the scale in {code}", plain & set(SCALE), set())
    else:
        expect(f"{what}: the colour of {code}, {reading}", plain, {colour_of(asked, reading)})


def compare_dot(asked, what, code, seen):
    """At corner 1 is a dot where the triangle, or another with the same corner 1, has a reading."""
    name = asked.known[f"name {code} 1"]
    dotted = [other for other in asked.codes if asked.known[f"name {other} 1"] == name and other in asked.readings]
    if dotted or len(asked.codes) == 20 * 4**asked.degree:
        expect(f"{what}: whether a dot is at corner 1 of {code}", seen == INK, bool(dotted))


def compare_summary(asked, what, report):
    n, read = 20 * 4**asked.degree, [int(text.split()[0]) for text in asked.readings.values()]
    desks = [list(asked.owners.values()).count(desk) for desk in "12"]
    ends = [f"{min(read)} mm", f"{max(read)} mm"] if read else ["none", "none"]
    numbers = [asked.degree, n, len(read), n - len(read), *ends, *desks, n - sum(desks)]
    expect(f"{what}: the summary", [text.replace(",", "") for text in report["summary"]], list(map(str, numbers)))
    ends = f"{min(read)} the least, {max(read)} the greatest" if read else ""
    expect(f"{what}: the legend", report["range"],
           f"Readings in millimetres: {ends}." if read else "No triangle has a reading.")


def compare_direction(asked, what, report):
    if not asked.direction:
        expect(f"{what}: how a direction is given", report["direction"][-1], "./chart FILE X Y Z >PAGE")
        return
    filed, listed = (asked.known[f"{call} {asked.degree} {asked.direction}"] for call in ("file", "list"))
    holders = parts_of(listed)
    shown = ["Direction", f"({', '.join(asked.direction.split())})", filed, str(len(holders)), *holders]
    expect(f"{what}: the layer's panel", report["direction"], shown)
    on, off = report["layer"]
    expect(f"{what}: whether the layer is drawn", YELLOW in on, True)
    expect(f"{what}: what is drawn without the layer", off, ["0 0 0 0"])


def some_codes(asked):
    """Some dozen: of all sides, on seams, with a reading and without, owned, holders."""
    chosen = [code for k, code in enumerate(asked.codes) if k % (max(1, len(asked.codes) // 20)) == 0]
    for some in asked.readings, asked.owners:
        chosen += [code for code in asked.codes if code in some][:6]
    seams = [code for code in asked.codes if any(step[0][:3] != code[:3] for step in asked.told(code)["steps"])]
    if asked.direction:
        listed = parts_of(asked.known[f"list {asked.degree} {asked.direction}"])
        chosen += [text.split()[0] for text in listed if text.split()[0] in asked.codes]
    return list(dict.fromkeys(chosen + seams[::9]))[:48]


def test_in_browser(folder):
    looked_at = 0
    for degree, lines, direction, share in CASES:
        asked = Asked(folder, degree, lines, direction, share)
        make_page(asked, folder)
        chosen, what = some_codes(asked), f"degree {degree}, direction {direction}"
        report = tried(folder / "chart.html", chosen)
        for result in report["results"] if report else []:
            code = result["code"]
            for how, pinned in ("found", True), ("over", False), ("turned", False), ("pinned", True):
                expect(f"{what}: the panel of {code}, {how}", result[how], panel_of(asked, code, pinned))
            expect(f"{what}: the panel after Escape", result["empty"], "Triangle")
            compare_colours(asked, what, code, result["colours"])
            compare_dot(asked, what, code, result["dot"])
            looked_at += 1
        if report:
            compare_summary(asked, what, report)
            compare_direction(asked, what, report)
    return looked_at


def cut_pages(whole):
    """A page of which a part is lost, or changed."""
    yield "in its triangles", whole[: whole.rindex("\n511")]
    yield "in its corners", whole[: whole.index("\ntriangles ") - 9]
    yield "before its end", whole[: whole.rindex("\nend\n")]
    yield "before its data", whole[: whole.index(OPENING)]
    yield "nowhere, and changed", whole.replace("degree 1\n", "degree 2\n", 1)


def test_fragment(folder):
    page = make_example(folder)
    text = open_page(page, fragment="#1002")
    shown = re.findall(r'<section id="triangle"[^>]*data-code="(\d+)"', text)
    expect("the triangle of the fragment", shown, ["1002"])
    text = open_page(page, fragment="#10003")
    expect("a fragment that is no triangle", "There is no triangle 10003 of degree 1." in text, True)
    for what, part in cut_pages(page.read_text()):
        cut = folder / "cut.html"
        cut.write_text(part)
        text = open_page(cut)
        expect(f"a page that is cut off {what}", "This page cannot be shown: " in text, True)
        expect(f"whether a globe is hidden, cut off {what}", '<main id="chart" hidden=""' in text, True)


def time_deepest(folder):
    path, page = folder / "deepest", folder / "deepest.html"
    dice = random.Random(6)
    readings = {place: dice.randrange(100001) for place in range(20 * 4**6) if dice.random() < 0.8}
    path.write_bytes(table_bytes(6, readings, {place: 1 + place % 2 for place in range(0, 81920, 3)}))
    start = time.monotonic()
    with open(page, "w") as out:
        expect("./chart of degree 6", quietly(Built("chart"), path, "1", "2", "3", stdout=out)[::2], (0, ""))
    took = time.monotonic() - start
    print(f"chart: degree 6, 81,920 triangles: {took:.1f} s, {page.stat().st_size:,} bytes")


def picture(path):
    with tempfile.TemporaryDirectory() as name:
        page = make_example(pathlib.Path(name))
        open_page(page, "--window-size=1400,1560", "--timeout=3000", f"--screenshot={path.resolve()}", fragment="#1002")
    expect(f"whether {path} is there", path.exists(), True)


def main():
    words = sys.argv[1:]
    if not words:
        faulthandler.dump_traceback_later(300, exit=True)
        expect("the example of README.md", example(ROOT / "README.md"), example())
        with StandIn() as place:
            for test in (test_page, test_direction, test_refused, test_names, test_arguments, test_unread, test_lost,
                         test_no_output, test_help, test_wrong_answers, test_toolkit):
                test(place)
        return f"its statuses are as documented, and of {len(WRONG)} wrong answers it makes no page"
    with tempfile.TemporaryDirectory() as name:
        folder = pathlib.Path(name)
        if words in (["--built"], ["--built", "--deepest"]):
            right = f"{test_built(folder)} triangles are on its pages as the console answers"
            if browser():
                right += f", and {test_in_browser(folder)} in the browser"
                test_fragment(folder)
            else:
                make_example(folder)
                print("chart: no chromium, the page was not opened")
            if "--deepest" in words:
                time_deepest(folder)
            return right
        if words[:1] == ["--picture"] and len(words) == 2:
            picture(pathlib.Path(words[1]))
            return f"the picture is {words[1]}"
    sys.exit(__doc__)


standins.verdict("chart", main())
