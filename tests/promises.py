#!/usr/bin/env python3
"""What the documents cite is there: files, the names in them, must-fail edits, crates, numbers of edits and calls.

A place is `crate/path: name, name`, or `crate/path`: `name`, `name`, with the path of a file of Rattle (.rt) or of antt
(.antt). What a name may be:

    in .antt    a declaration at the left margin, a `pub` one of an anonymous module, or `Record.field` (a constructor
                of a `data` too), where the field is that very record's; what is local to a `where` or `let`, a bound
                variable, an imported name and a word of a comment are none
    in .rt      a function, struct, enum or const of the file, `Type::method`, or `Struct.field`

After a record, struct or type the names without a dot may be its own fields or methods: `Bounds.word_0, word_0_name`.
Instead of a path DECISIONS.md also has a crate, whose src/ is meant.

In the tables of PROMISES.md a name without a file is one of a file that stands in the same cell; in the section 'The
demands' it may be one of grid/specs/Demands.antt, and above its table one that is imported there. In the table of wrong
answers the second column has fields of records `Mistakes`, those of grid/specs/Mistakes.antt by their names and others
as places, all of them, and the last one must-fail edits, as `crate/edit`; a crate holds for the edits after it in its
row. In the table by calls each call of document 01 (a method of words/src/lib.rt's TriangleCode, or what
grid/src/lib.rt hands on), each call of a table, each of a sweep, each on a cell list, each on the small form (a method
of harbour/src/lib.rt's SmallCode, or a function of that crate, which is written with its name), each of the opposites,
each on the paper's codes, each for marks and each exported to C has its row, with two edits or more of code. Every edit
stands in a row. Each of these calls has its row where contracts are held to promises, under the name that its promise
has.

The crates in the tables of README.md and ARCHITECTURE.md are the libraries of crates.txt, and the modules that
ARCHITECTURE.md names stand in their crates. LANDINGS.md tells what was, and is not read.

    python3 tests/promises.py               # a line for each thing that is wrong; status 1 if there is one
    python3 tests/promises.py --self-test   # plants falsifications, in memory, and sees that each is reported
"""
import functools
import pathlib
import re
import sys

ROOT = pathlib.Path(__file__).resolve().parent.parent
CRATES = ROOT / "crates"
README, PROMISES, DECISIONS = "README.md", "docs/PROMISES.md", "docs/DECISIONS.md"
ARCHITECTURE = "docs/ARCHITECTURE.md"
DOCS = (README, PROMISES, DECISIONS, ARCHITECTURE, "docs/FILING.md", "docs/CONSOLE.md", "docs/CELLS.md")
DOCS += ("docs/PERFORMANCE.md", "docs/HARBOUR.md", "docs/OPPOSITES.md", "docs/PAPER.md", "docs/CHART.md")
DEMANDS, MISTAKES = "grid/specs/Demands.antt", "grid/specs/Mistakes.antt"
CONTRACTS, HOST_CONTRACTS = "crates/grid/specs/CallContracts.antt", "crates/contracts/specs/Host.antt"
HOST_PROMISES = ("exports/specs/Promises.antt", "host_sweeps/specs/Promises.antt", "host_cells/specs/Promises.antt")
HOST_PROMISES += ("host_harbour/specs/Promises.antt", "host_opposites/specs/Promises.antt")
TABLE_CONTRACTS = "crates/contracts/specs/Soundings.antt"
TABLE_PROMISES = ("tables/specs/Promises.antt", "coarse/specs/Promises.antt")
SWEEP_CONTRACTS, SWEEP_PROMISES = "crates/contracts/specs/Sweeps.antt", "sweeps/specs/Promises.antt"
CELLS_CONTRACTS, CELLS_PROMISES = "crates/contracts/specs/Cells.antt", "cells/specs/Promises.antt"
MENDING_CONTRACTS, MENDING_PROMISES = "crates/contracts/specs/Mending.antt", "mending/specs/Promises.antt"
HARBOUR_CONTRACTS, HARBOUR_PROMISES = "crates/contracts/specs/Harbour.antt", "harbour/specs/Promises.antt"
OPPOSITE_CONTRACTS, OPPOSITE_PROMISES = "crates/contracts/specs/Opposites.antt", "opposites/specs/Promises.antt"
PAPER_CONTRACTS, PAPER_PROMISES = "crates/contracts/specs/Paper.antt", "paper/specs/Promises.antt"
MARK_CONTRACTS, MARK_PROMISES = "crates/contracts/specs/Marks.antt", "marks/specs/Promises.antt"
ASKED = "The demands"
WRONG_ANSWERS = "Wrong answers that are ruled out, as theorems"
BY_CALL = "Wrong programs and definitions, call by call"

CODE = re.compile(r"`([^`\n]+)`")
FILE = r"[a-z_]+/(?:specs|proofs|src)/[\w/]+\.(?:antt|rt)"
PLACE = re.compile(rf"({FILE})(?:: (.+))?")
THEN_NAMES = re.compile(rf"`({FILE}|[a-z_]+)`: ((?:`[^`\n]+`(?:, )?)+)")
NAME = r"[^\s,.:`/()]+(?:(?:\.|::)[^\s,.:`/()]+)?"
NAMES = re.compile(rf"{NAME}(?:, {NAME})*")
KEYWORDS = {"requires", "ensures"}
NUMBERS = (
    "zero one two three four five six seven eight nine ten eleven twelve thirteen fourteen fifteen sixteen seventeen"
    " eighteen nineteen twenty"
).split()


# ---- the names that a file declares


class Names:
    """The names of a file: `tops`, for each record, struct or type its own fields and methods, and what is imported."""

    def __init__(self):
        self.tops, self.parts, self.imported = set(), {}, set()

    def find(self, names, owner=None):
        """What is wrong with these cited names, and the record or type whose own the names after them may be."""
        wrong = []
        for name in names:
            head, dot, part = re.match(r"(.*?)(\.|::|$)(.*)", name).groups()
            if dot and head not in self.parts:
                wrong.append(f"{name} (no record or type {head})")
            elif dot:
                owner = head
                if (dot, part) not in self.parts[head]:
                    wrong.append(f"{name} ({head} has no {part})")
            elif name in self.tops:
                owner = name if name in self.parts else owner
            elif not any(p == name for _, p in self.parts.get(owner, ())):
                wrong.append(name)
        return wrong, owner

    def add(self, other):
        self.tops |= other.tops
        for owner, parts in other.parts.items():
            self.parts.setdefault(owner, set()).update(parts)


def margin(line):
    return len(line) - len(line.lstrip())


def items(lines):
    """The items of a block of antt: the lines with the least indentation, each with the lines below it."""
    lines = [line for line in lines if line.strip()]
    least = min(map(margin, lines), default=0)
    one = []
    for line in lines:
        if margin(line) == least and one:
            yield one
            one = []
        one.append(line)
    if one:
        yield one


def below_where(item):
    """What stands below the head of a record, data or module, which ends with `where`."""
    at = next((k for k, line in enumerate(item) if line.split()[-1] == "where"), len(item))
    return item[at + 1 :]


def antt_block(lines, names, only_pub):
    for item in items(lines):
        marks, word, rest = re.match(r"\s*((?:(?:pub|abbrev|unfoldable) )*)(\S*)(.*)", item[0]).groups()
        if word == "module" and rest.split()[:1] == ["_"]:
            antt_block(below_where(item), names, True)
        elif only_pub and "pub" not in marks:
            continue
        elif word in ("record", "data"):
            name = rest.split()[0]
            names.tops.add(name)
            parts = names.parts.setdefault(name, set())
            for field in items(below_where(item)):
                m = re.match(r"\s*(?:pub )?([^:]+?) :(?:\s|$)", field[0])
                parts.update((".", f) for f in (m[1].split() if m else ()))
        elif word == "use":
            names.imported.update(re.findall(r"[^\s,{}]+", " ".join(item).partition("{")[2]))
        elif word not in ("mod", "unfolding"):
            # a name, or several, and a colon; a clause has an `=` or a bracket before its first colon
            m = re.match(r"([^(){}=;,:]+?) :(?:\s|$)", word + rest)
            names.tops.update(m[1].split() if m else ())


def antt_names(text):
    names = Names()
    antt_block([re.sub(r"(^|\s)--.*", "", line) for line in text.splitlines()], names, False)
    return names


def rt_names(text):
    names, owner = Names(), None
    for line in text.splitlines():
        line = re.sub(r"//.*", "", line).rstrip()
        if m := re.match(r"(?:pub )?(?:extern \"C\" )?(?:fn|const|type) (\w+)", line):
            names.tops.add(m[1])
        elif m := re.match(r"(?:pub )?(struct|enum|impl) (\w+)", line):
            if m[1] != "impl":
                names.tops.add(m[2])
            names.parts.setdefault(m[2], set())
            owner = (m[2], "." if m[1] == "struct" else "::") if line.endswith("{") else None
        elif line == "}":
            owner = None
        elif owner and (m := re.match(r"    (?:pub )?(?:fn )?(\w+)[:(,<]", line)):
            names.parts[owner[0]].add((owner[1], m[1]))
    return names


@functools.cache
def file_names(place):
    """The names of a file below crates/, or None where there is no such file."""
    path = CRATES / place
    if not path.is_file():
        return None
    return (antt_names if path.suffix == ".antt" else rt_names)(path.read_text(encoding="utf-8"))


@functools.cache
def crate_names(crate):
    """The names of all code of a crate, and its text."""
    names, text = Names(), ""
    for path in sorted((CRATES / crate / "src").rglob("*.rt")):
        names.add(file_names(path.relative_to(CRATES).as_posix()))
        text += path.read_text(encoding="utf-8")
    return names, text


@functools.cache
def edits():
    """Each must-fail edit, as crate/edit, and whether it changes code."""
    return {
        f"{e.parent.parent.name}/{e.stem}": "\nfile: src/" in "\n" + e.read_text(encoding="utf-8")
        for e in CRATES.glob("*/must-fail/*.edit")
    }


@functools.cache
def calls():
    """The calls of document 01: the methods of a triangle code, and the functions that grid hands on."""
    methods = sorted(name for _, name in file_names("words/src/lib.rt").parts["TriangleCode"])
    lib = (CRATES / "grid/src/lib.rt").read_text(encoding="utf-8")
    used = re.findall(r"^pub use \w+::(?:\{([^}]*)\}|(\w+));", lib, re.MULTILINE)
    handed_on = [name for several, one in used for name in re.findall(r"\w+", several or one)]
    return [f"TriangleCode::{m}" for m in methods] + [name for name in handed_on if name[0].islower()]


@functools.cache
def exported():
    """The calls for a program in C."""
    lib = (CRATES / "host_c/src/lib.rt").read_text(encoding="utf-8")
    return re.findall(r'^pub extern "C" fn (\w+)\(', lib, re.MULTILINE)


@functools.cache
def of_table():
    """The calls of a table of soundings."""
    lib = (CRATES / "soundings/src/lib.rt").read_text(encoding="utf-8")
    return re.findall(r"^pub fn (\w+)\(", lib, re.MULTILINE)


@functools.cache
def of_sweep():
    """The calls of a sweep: the functions that need nothing asked and promise a whole result."""
    lib = (CRATES / "sweeper/src/lib.rt").read_text(encoding="utf-8")
    return re.findall(r"^pub fn (\w+)\([^{]*\n    ensures (?:\w+ )?\{ \w+Result ", lib, re.MULTILINE)


def on_list(crate):
    """The functions of a crate that others can call on any list of words: nothing is asked of it."""
    lib = (CRATES / crate / "src/lib.rt").read_text(encoding="utf-8")
    return re.findall(r"^pub fn (\w+)\(\s*\w+: &\[u64\][^{]*\n    ensures ", lib, re.MULTILINE)


@functools.cache
def of_cells():
    """The call that checks a cell list."""
    return on_list("cells")


@functools.cache
def of_mending():
    """The call that mends one."""
    return on_list("mender")


@functools.cache
def on_small():
    """The calls on the small form: the methods of a small code, and the functions of the crate."""
    methods = sorted(name for _, name in file_names("harbour/src/lib.rt").parts["SmallCode"])
    lib = (CRATES / "harbour/src/lib.rt").read_text(encoding="utf-8")
    functions = re.findall(r"^pub fn (\w+)\(", lib, re.MULTILINE)
    return [f"SmallCode::{m}" for m in methods] + [f"harbour::{f}" for f in functions]


@functools.cache
def of_opposites():
    """The opposites of a triangle and of a corner."""
    lib = (CRATES / "opposites/src/lib.rt").read_text(encoding="utf-8")
    return re.findall(r"^pub fn (\w+)\(", lib, re.MULTILINE)


@functools.cache
def on_paper():
    """The calls on the paper's codes."""
    lib = (CRATES / "paper/src/lib.rt").read_text(encoding="utf-8")
    return re.findall(r"^pub fn (\w+)\(", lib, re.MULTILINE)


@functools.cache
def of_marks():
    """The calls for marks."""
    lib = (CRATES / "marks/src/lib.rt").read_text(encoding="utf-8")
    return re.findall(r"^pub fn (\w+)\(", lib, re.MULTILINE)


@functools.cache
def contracts():
    """Where calls are held to their promises: the file with a row for each, the files that have the record of promises,
    a later one for calls that a request changed or brought, and the calls."""
    return (
        (CONTRACTS, (DEMANDS,), "Demand1", calls()),
        (HOST_CONTRACTS, HOST_PROMISES, "OneAnswer", exported()),
        (TABLE_CONTRACTS, TABLE_PROMISES, "OneAnswer", of_table()),
        (SWEEP_CONTRACTS, (SWEEP_PROMISES,), "OneAnswer", of_sweep()),
        (CELLS_CONTRACTS, (CELLS_PROMISES,), "OneAnswer", of_cells()),
        (MENDING_CONTRACTS, (MENDING_PROMISES,), "OneAnswer", of_mending()),
        (HARBOUR_CONTRACTS, (HARBOUR_PROMISES,), "OneAnswer", on_small()),
        (OPPOSITE_CONTRACTS, (OPPOSITE_PROMISES,), "OneAnswer", of_opposites()),
        (PAPER_CONTRACTS, (PAPER_PROMISES,), "OneAnswer", on_paper()),
        (MARK_CONTRACTS, (MARK_PROMISES,), "OneAnswer", of_marks()),
    )


@functools.cache
def mistakes():
    """The fields of each record `Mistakes`, by file."""
    files = sorted(str(f.relative_to(CRATES)) for f in CRATES.glob("*/specs/*.antt"))
    found = {f: {name for _, name in file_names(f).parts.get("Mistakes", ())} for f in files}
    return {f: fields for f, fields in found.items() if fields}


@functools.cache
def modules(crate):
    return {f.stem for part in ("specs", "proofs") for f in (CRATES / crate / part).rglob("*.antt")}


@functools.cache
def exists(pattern):
    return any(ROOT.glob(pattern.rstrip("/")))


@functools.cache
def original(path):
    return (ROOT / path).read_text(encoding="utf-8")


# ---- the documents, of which some may be falsified


class Documents:
    def __init__(self, falsified=()):
        self.falsified, self.wrong = dict(falsified), []
        lines = self.text("crates.txt").splitlines()
        self.crates = [line.split(":")[0].split()[0] for line in lines if line.strip() and not line.startswith("#")]

    def text(self, path):
        return self.falsified.get(path) or original(path)

    def say(self, doc, what):
        self.wrong.append(f"{doc}: {what}")

    # ---- places

    def check_names(self, doc, place, cited):
        if "/" in place:
            names = file_names(place)
        else:
            names, text = crate_names(place)
            # a function may be cited with its arguments, which are then those that it has
            whole = [c for c in cited if c.endswith(")")]
            for c in whole:
                if f"fn {c}" not in text:
                    self.say(doc, f"crates/{place} has no fn {c}")
            cited = [c for c in cited if c not in whole]
        if names is None:
            self.say(doc, f"no file crates/{place}")
        else:
            for name in names.find(cited)[0]:
                self.say(doc, f"crates/{place} has no {name}")

    def check_places(self, doc):
        for code in CODE.findall(self.text(doc)):
            if place := PLACE.fullmatch(code):
                self.check_names(doc, place[1], place[2].split(", ") if place[2] else ())
            elif re.fullmatch(r"(?:tests|docs|crates)/[\w./*-]+", code):
                if not exists(code):
                    self.say(doc, f"no file {code}")
            elif re.match(r"\w+/\S*\.(?:antt|rt)(?::|$)", code):
                self.say(doc, f"`{code}` is no place: crate/path, or crate/path: name, name")
            elif re.fullmatch(r"\w+\.(?:antt|rt)", code):
                if not exists(f"crates/**/{code}"):
                    self.say(doc, f"no file {code}")
            elif re.fullmatch(r"\w+\.md", code):
                if not exists(f"docs/{code}"):
                    self.say(doc, f"no file docs/{code}")
            elif m := re.fullmatch(r"\./(\w+)(?: .*)?", code):
                if not exists(m[1]):
                    self.say(doc, f"no command ./{m[1]}")
        for place, names in THEN_NAMES.findall(self.text(doc)):
            if "/" in place or place in self.crates:
                self.check_names(doc, place, CODE.findall(names))

    # ---- the tables of PROMISES.md

    def sections(self, doc):
        """Each section: its title, the rows of its table without the head, as lists of cells, and its other lines."""
        title, rows, other, found = None, [], [], []
        for line in self.text(doc).splitlines() + ["## "]:
            if line.startswith("## "):
                found.append((title, rows[2:], other))
                title, rows, other = line[3:], [], []
            elif line.startswith("|"):
                rows.append([cell.strip() for cell in re.split(r"(?<!\\)\|", line)[1:-1]])
            else:
                other.append(line)
        return found

    def check_bare(self, doc, cell, default=(), imported=()):
        """The names of a cell that have no file of their own: of a file of the cell, of `default`, or `imported`."""
        codes = CODE.findall(cell)
        files = [m[1] for c in codes if (m := PLACE.fullmatch(c))] + list(default)
        place, owner = None, None
        for code in codes:
            if m := PLACE.fullmatch(code):
                place, names = m[1], file_names(m[1])
                owner = names.find(m[2].split(", "))[1] if names and m[2] else None
            elif not NAMES.fullmatch(code) or code.endswith(".md") or code in (*KEYWORDS, *self.crates, *imported):
                continue
            else:
                # the file before it first, where it may be of the record before it
                for file in sorted(filter(file_names, files), key=lambda f: f != place):
                    wrong, last = file_names(file).find(code.split(", "), owner if file == place else None)
                    if not wrong:
                        place, owner = file, last
                        break
                else:
                    self.say(doc, f"`{code}` is in no file that its cell speaks of")

    def row_edits(self, doc, cell):
        crate, found = None, []
        for code in CODE.findall(cell):
            crate, label = code.split("/", 1) if "/" in code else (crate, code)
            if f"{crate}/{label}" in edits():
                found.append(f"{crate}/{label}")
            else:
                self.say(doc, f"no edit {crate}/{label}")
        return found

    def refuted(self, cell):
        """The fields of records `Mistakes` that a cell names, each with its file."""
        found = set()
        for code in CODE.findall(cell):
            place = PLACE.fullmatch(code)
            file = place[1] if place else MISTAKES
            for name in ((place[2] or "") if place else code).removeprefix("Mistakes.").split(", "):
                if name in mistakes().get(file, ()):
                    found.add((file, name))
                else:
                    self.say(PROMISES, f"Mistakes has no {name}")
        return found

    def check_promises(self):
        refuted, named, titles = set(), set(), set()
        plain = calls() + of_table() + of_sweep() + of_cells() + of_mending() + on_small() + of_opposites()
        plain += on_paper() + of_marks()
        of_call = {c: set() for c in plain + exported()}
        for title, rows, other in self.sections(PROMISES):
            titles.add(title)
            width = 3 if title == WRONG_ANSWERS else 2
            for row in rows:
                if len(row) != width:
                    self.say(PROMISES, f"a row of '{title}' has {len(row)} cells and not {width}")
                elif title == WRONG_ANSWERS:
                    refuted.update(self.refuted(row[1]))
                    named.update(self.row_edits(PROMISES, row[2]))
                elif title == BY_CALL:
                    found = self.row_edits(PROMISES, row[1])
                    named.update(found)
                    for call in CODE.findall(row[0]):
                        if call in of_call:
                            of_call[call].update(e for e in found if edits()[e])
                        elif not call.startswith("./"):
                            self.say(PROMISES, f"{call} is no call of document 01, of a request or for C")
                else:
                    self.check_bare(PROMISES, row[1], [DEMANDS] if title == ASKED else [])
            if title == ASKED:
                for line in other:
                    self.check_bare(PROMISES, line, [DEMANDS], file_names(DEMANDS).imported)
        for title in (ASKED, WRONG_ANSWERS, BY_CALL):
            if title not in titles:
                self.say(PROMISES, f"no section '{title}'")
        for file, name in sorted({(f, name) for f, fields in mistakes().items() for name in fields} - refuted):
            self.say(PROMISES, f"no row for Mistakes.{name} of {file}")
        for edit in sorted(set(edits()) - named):
            self.say(PROMISES, f"no row for the must-fail edit {edit}")
        for call, found in of_call.items():
            if len(found) < 2:
                self.say(PROMISES, f"{call} has fewer than two edits of code")

    # ---- crates, modules, numbers

    def check_crates(self):
        libraries = [c for c in self.crates if exists(f"crates/{c}/src/lib.rt")]
        layers = self.text(README).partition("## The layers")[2].partition("\n## ")[0]
        table = next(rows for title, rows, other in self.sections(ARCHITECTURE) if title is None)
        for doc, shown in (
            (README, re.findall(r"^    ([a-z_]+) ", layers, re.MULTILINE)),
            (ARCHITECTURE, [row[0].strip("`") for row in table]),
        ):
            for crate in libraries:
                if crate not in shown:
                    self.say(doc, f"its table of crates has no {crate}")
            for crate in shown:
                if crate not in libraries:
                    self.say(doc, f"{crate} of its table is no library of crates.txt")

    def check_modules(self):
        """The modules that ARCHITECTURE.md names for a crate, or for several together."""
        owned = self.text(ARCHITECTURE).partition("## What each crate owns")[2].partition("\n## ")[0]
        for paragraph in re.split(r"\n\s*\n", owned):
            if m := re.match(r"\*\*([a-z_, ]+)\.\*\*", paragraph.strip()):
                have = set().union(*map(modules, m[1].split(", ")))
                for module in re.findall(r"`([A-Z]\w*)`", paragraph):
                    if module not in have:
                        self.say(ARCHITECTURE, f"{m[1]}: no module {module}")

    def check_numbers(self, doc):
        for what, many in (("must-fail edits", len(edits())), ("calls of document 01", len(calls()))):
            for said in re.findall(rf"\b(\d[\d,]*|{'|'.join(NUMBERS)}) {what}\b", self.text(doc), re.IGNORECASE):
                value = NUMBERS.index(said.lower()) if said.lower() in NUMBERS else int(said.replace(",", ""))
                if value != many:
                    self.say(doc, f"it says {said} {what}, and there are {many}")

    def check_contracts(self):
        """Each call has one row of Contracts, and the rows have the names of those of its record of promises."""
        for file, promises, record, of_file in contracts():
            text = self.text(file)
            rows = set(re.findall(r"^  pub (\w+) :", text, re.MULTILINE))
            promised = {name for each in promises for _, name in file_names(each).parts[record]}
            for name in sorted(rows ^ promised):
                self.say(file, f"{name} is a row of Contracts or of {record}, and not of both")
            asked = re.findall(r"Says \((\w+)_call\.Asked ", text)
            for call in of_file:
                if asked.count(call.rpartition("::")[2]) != 1:
                    self.say(file, f"{call} has not one row")

    def check(self, docs=DOCS):
        for doc in docs:
            self.check_places(doc)
            self.check_numbers(doc)
        self.check_promises()
        self.check_contracts()
        self.check_crates()
        self.check_modules()
        return self.wrong


# ---- that it can fail

# What is false; the section of PROMISES.md and a row more of its table; words of what must be reported.
ROWS = (
    ("a field that there is not", "Document 01", "`grid/specs/Examples.antt: Bounds.word_1`", "Bounds has no word_1"),
    ("another record's field", "Document 01", "`grid/specs/Examples.antt: Points.word_0`", "Points has no word_0"),
    ("a field without its record", "Document 01", "`grid/specs/Examples.antt: word_0`", "no word_0"),
    ("a field after another record", "Document 01", "`grid/specs/Examples.antt: Bounds.word_0, five`", "no five"),
    ("a record that there is not", "Document 01", "`grid/specs/Examples.antt: Limits.word_0`", "no record or type"),
    ("a name local to a `where`", "Document 01", "`frame/proofs/Refusing.antt: go`", "no go"),
    ("a name of a module, not pub", "Document 01", "`net/proofs/Names.antt: low`", "no low"),
    ("a bound variable", "Document 01", "`frame/specs/Answers.antt: zeros`", "no zeros"),
    ("a word of a comment", "Document 01", "`frame/specs/Refusals.antt: several`", "no several"),
    ("an imported name", "Document 01", "`grid/specs/Demands.antt: Keeps`", "no Keeps"),
    ("a misspelt file", "Document 01", "`net/specs/Step.antt: Across`", "no file crates/net/specs/Step.antt"),
    ("a misspelt folder", "Document 01", "`net/spec/Steps.antt: Across`", "`net/spec/Steps.antt: Across`"),
    ("a name of another file", "Document 01", "`net/specs/Steps.antt: divide`", "no divide"),
    ("a name of no file", "Document 02", "`Across`", "`Across`"),
    ("a name of no file of its cell", "Document 02", "`Across` by `net/specs/Division.antt: divide`", "`Across`"),
    ("a method without its type", "Document 01", "`golden/src/lib.rt: at_least_zero`", "no at_least_zero"),
    ("another type's method", "Document 01", "`words/src/lib.rt: CornerName::parent`", "CornerName has no parent"),
    ("a local of a function", "Document 01", "`knots/src/back.rt: left`", "no left"),
    ("another struct's field", "Document 01", "`corners/src/lib.rt: Step.number`", "Step has no number"),
    ("a clause that a demand has not", ASKED, "`Demand3`: `one_other, all_distinct`", "all_distinct"),
    ("a demand that there is not", ASKED, "`Demand4`", "`Demand4`"),
    ("a mistake that there is not", WRONG_ANSWERS, "`edge_lost` | `corners/cross_itself`", "Mistakes has no edge_lost"),
    ("another record's mistake", WRONG_ANSWERS, "`reversed` | `corners/cross_itself`", "Mistakes has no reversed"),
    ("an edit that there is not", WRONG_ANSWERS, "`edge_kept` | `corners/cross_all`", "no edit corners/cross_all"),
    ("an edit of another crate", WRONG_ANSWERS, "`edge_kept` | `net/cross_itself`", "no edit net/cross_itself"),
    ("an edit without its crate", BY_CALL, "`cross_itself`", "no edit None/cross_itself"),
)

# What is false; a document, a line of it, and what is put below it; words of what must be reported.
LINES = (
    ("a name in a decision", DECISIONS, "## Document 01", "`net/specs/Steps.antt`: `Turn`, `Bend`", "no Bend"),
    ("a field in a decision", DECISIONS, "## Document 01", "`grid/specs/Mistakes.antt`: `raised`", "no raised"),
    ("a function of a crate", DECISIONS, "## Document 01", "`words`: `nephew`", "no nephew"),
    ("a function's arguments", DECISIONS, "## Document 01", "`words`: `child(self, digit: u32)`", "no fn child"),
    ("a file of the tests", README, "## The layers", "`tests/third.py`", "no file tests/third.py"),
    ("a command", README, "## The layers", "`./chekc`", "no command ./chekc"),
    ("a crate", README, "## The layers", "    gutters      rain", "gutters of its table"),
    ("another crate's module", ARCHITECTURE, "## What each crate owns", "**golden.** `Refusing`\n", "no module"),
    ("a number of edits", README, "## The layers", "There are 12 must-fail edits.", "12 must-fail edits"),
    ("a number of calls", README, "## The layers", "The seventeen calls of document 01.", "seventeen calls"),
    ("a call in the table by calls", PROMISES, "|---|---|", "| `uncle` | `knots/sum_may_wrap` |", "uncle is no call"),
)

# What is missing; a document, and what is taken out of it; words of what must be reported.
TAKEN = (
    ("an edit's row", PROMISES, "`words/check_degree_25`", "no row for the must-fail edit words/check_degree_25"),
    ("a mistake's row", PROMISES, "`edge_kept`", "no row for Mistakes.edge_kept"),
    ("a call's row", PROMISES, "`name_back`", "name_back has fewer than two"),
    ("a crate's line", README, "\n    golden ", "no golden"),
    ("a section", PROMISES, "## " + BY_CALL, "no section"),
    ("a call's contract", CONTRACTS, "Says (ring_call.Asked", "ring has not one row"),
    ("a row of Demand1", CONTRACTS, "  pub ring :", "ring is a row of Contracts or of Demand1"),
    ("an exported call's contract", HOST_CONTRACTS, "Says (grid_list_call.Asked", "grid_list has not one row"),
    ("an exported call's row", PROMISES, "`grid_cross`", "grid_cross has fewer than two"),
    ("a table call's contract", TABLE_CONTRACTS, "Says (clear_call.Asked", "clear has not one row"),
    ("a table call's row", PROMISES, "`clear`", "clear has fewer than two"),
    ("a cell list's contract", CELLS_CONTRACTS, "Says (check_call.Asked", "check has not one row"),
    ("a cell list's row", PROMISES, "`check`", "check has fewer than two"),
    ("a small call's contract", HARBOUR_CONTRACTS, "Says (write_call.Asked", "harbour::write has not one row"),
    ("a small call's row", PROMISES, "`SmallCode::read`", "SmallCode::read has fewer than two"),
    ("an opposite's contract", OPPOSITE_CONTRACTS, "Says (opposite_name_call.Asked", "opposite_name has not one row"),
    ("an opposite's row", PROMISES, "`opposite`", "opposite has fewer than two"),
    ("a paper call's contract", PAPER_CONTRACTS, "Says (to_vertex_call.Asked", "to_vertex has not one row"),
    ("a paper call's row", PROMISES, "`from_domain`", "from_domain has fewer than two"),
    ("a mark's contract", MARK_CONTRACTS, "Says (edge_mark_call.Asked", "edge_mark has not one row"),
    ("a mark's row", PROMISES, "`table_mark`", "table_mark has fewer than two"),
    ("a mistake's row of another file", PROMISES, "Mistakes.reversed", "no row for Mistakes.reversed"),
)

# Rows that are right, and bring no report.
RIGHT = (
    ("Document 01", "`grid/specs/Examples.antt: Bounds.word_0, word_0_name, Points`"),
    ("Document 01", "`words/src/lib.rt: TriangleCode::check, parent, power`"),
    ("Document 01", "`frame/proofs/Answering.antt: refusing, answer_one`"),
    ("Document 01", "`corners/src/lib.rt: Step.first, second, cross`"),
    ("Document 01", "`net/specs/Steps.antt: Across`; `Turn`"),
    ("Document 01", "`net/specs/Steps.antt`: `Across`, `Turn`"),
    ("Document 01", "`golden/specs/Numbers.antt: ◌*φ◌`"),
    (ASKED, "`Demand3`: `one_other, crossed`"),
)


def self_test():
    """What it does not report of what it should, or reports of what it should not."""
    usual, missed = set(Documents().check()), []

    def reports(doc, text):
        return [w for w in Documents({doc: text}).check((doc,)) if w not in usual]

    def below(doc, start, line):
        """The document with a line more after `start`; the last such place, since the table by calls is the last."""
        head, mark, rest = original(doc).rpartition(start + "\n")
        return head + mark + line + "\n" + rest if mark else ""

    def with_row(title, cells):
        head = re.compile(rf"(\n## {re.escape(title)}\n(?:[^|].*\n|\n)*\|.*\n\|.*\n)")
        return head.sub(lambda m: f"{m[1]}| x | {cells} |\n", original(PROMISES))

    for what, title, cells, words in ROWS:
        if not any(words in w for w in reports(PROMISES, with_row(title, cells))):
            missed.append(f"not reported: {what}: {cells}")
    for what, doc, start, line, words in LINES:
        if not any(words in w for w in reports(doc, below(doc, start, line))):
            missed.append(f"not reported: {what}: {line}")
    for what, doc, taken, words in TAKEN:
        if not any(words in w for w in reports(doc, original(doc).replace(taken, ""))):
            missed.append(f"not reported: {what}: no {taken}")
    for title, cells in RIGHT:
        missed += [f"reported, and right: {cells}: {w}" for w in reports(PROMISES, with_row(title, cells))]
    return missed


def main():
    if sys.argv[1:] == ["--self-test"]:
        wrong, many = self_test(), len(ROWS) + len(LINES) + len(TAKEN)
        good = f"promises: {many} falsifications are reported, and {len(RIGHT)} rows that are right are not"
    elif not sys.argv[1:]:
        wrong, good = Documents().check(), "docs: every place named is there, every must-fail edit has its row"
    else:
        sys.exit("promises: usage: python3 tests/promises.py [--self-test]")
    print("\n".join(wrong) or good)
    return 1 if wrong else 0


if __name__ == "__main__":
    sys.exit(main())
