#!/usr/bin/env python3
"""include/dogrzewin.h says in C what crates/host_c exports in Rattle. Nothing else holds the one to the other, nor
crates/host_c to crates/host, whose functions are held to the promises.

Every line of the header is read by one of a few forms, and what fits none is an error. So is an exported function of
crates/host_c/src/ that cannot be read. Held together are: the calls' names, their parameters with names, types and
order, and the type of what is returned; the refusal numbers, each under the sentence that crate texts has for it:
document 01's, and of document 02's those that a call names; the order of refusals (frame/specs/Refusals.antt, with what
harbour/specs/Refusals.antt puts into it and host_cells/specs/Refusals.antt before it), in which each call names its
own. Each exported function has the parameters, the result and the clauses of the one by its name in crates/host, whose
names mean the same there, and only calls it.

    python3 tests/header.py                         a line for each thing that is wrong; status 1 if there is one
    python3 tests/header.py --seen CALLS ANSWERS    the refusals that each call names, and the bytes that it needs, are
                                                    just those that occur in the answers; the lines are those of
                                                    tests/host/bench.c
    python3 tests/header.py --self-test             plants falsifications, in memory, and sees that each is reported

The status is 2 where the arguments are other ones.
"""
import pathlib
import re
import sys

ROOT = pathlib.Path(__file__).resolve().parent.parent
HEADER = ROOT / "include" / "dogrzewin.h"
EXPORTS, LIBRARY = (ROOT / "crates" / crate / "src" for crate in ("host_c", "host"))
REASONS = ROOT / "crates" / "texts" / "src" / "lib.rt"
ORDER = ROOT / "crates" / "frame" / "specs" / "Refusals.antt"
INTO = ROOT / "crates" / "harbour" / "specs" / "Refusals.antt"
FIRST = ROOT / "crates" / "host_cells" / "specs" / "Refusals.antt"

# What a number of Rattle is in C, and what a slice is: a pointer, and then a length.
NUMBERS = {"u64": "uint64_t", "u32": "uint32_t", "i32": "int32_t"}
SLICES = {"&mut [u8]": "uint8_t *", "&[u8]": "const uint8_t *"}


class Unreadable(Exception):
    pass


def spaced(text):
    """The text with one space wherever it has some white space."""
    return " ".join(text.split())


def numbers(text):
    return [int(n) for n in re.findall(r"\d+", text)]


# ---- Rattle: NAME to (result, [(type, name), ..]), in the types of C

def parameter_in_c(text):
    name, colon, kind = (part.strip() for part in text.partition(":"))
    kind = spaced(kind)
    if re.fullmatch(r"\w+", name) and kind in NUMBERS:
        return [(NUMBERS[kind], name)]
    if re.fullmatch(r"\w+", name) and kind in SLICES:
        return [(SLICES[kind], name), ("size_t", f"{name}_length")]
    raise Unreadable(f"crates/host_c: the parameter '{spaced(text)}'")


def exported(source):
    code = re.sub(r"//.*", "", source)
    form = r'#\[unsafe\(no_mangle\)\]\s*pub extern "C" fn (\w+)\(([^()]*)\)\s*->\s*(\w+)\s+(?=requires|ensures|\{)'
    functions = {}
    for name, parameters, result in re.findall(form, code):
        if result not in NUMBERS or name in functions:
            raise Unreadable(f"crates/host_c: {name} returns {result}, or stands there twice")
        parts = [part for part in parameters.split(",") if part.strip()]
        functions[name] = NUMBERS[result], [c for part in parts for c in parameter_in_c(part)]
    for word in "no_mangle", "extern":
        if len(re.findall(rf"\b{word}\b", code)) != len(functions):
            raise Unreadable(f"crates/host_c: not every '{word}' is that of a function that could be read")
    return functions


def all_of(folder):
    """All source of a crate."""
    return "\n".join(path.read_text() for path in sorted(folder.glob("**/*.rt")))


def functions_of(crate, source):
    """Each function's head, parameters with their types, and body; and what the clauses' names stand for."""
    code = re.sub(r"//.*", "", source)
    form = r'fn (\w+)\(([^()]*)\)\s*(->\s*\w+\s+(?:requires|ensures)[^\n]*\n(?:    [^\n]*\n)*)\{\n(.*?)\n\}'
    found = {name: (spaced(parameters).rstrip(","), spaced(clauses), spaced(body))
             for name, parameters, clauses, body in re.findall(form, code, re.S)}
    if len(found) != len(re.findall(r"\bfn\b", code)):
        raise Unreadable(f"crates/{crate}: not every function could be read, or one stands there twice")
    return found, sorted(re.findall(r"^ghost use (.*)", code, re.M))


# ---- the header

COMMENT = r"/\*(?P<comment>(?:(?!\*/).)*)\*/"
FORMS = {
    "comment": COMMENT,
    "guard": r"#ifndef DOGRZEWIN_H\n#define DOGRZEWIN_H\n",
    "include": r"#include <std(?:def|int)\.h>\n",
    "version": r'#define GRID_VERSION "\d+\.\d+\.\d+"\n',
    "opening": r'#ifdef __cplusplus\nextern "C" \{\n#endif\n',
    "closing": r"#ifdef __cplusplus\n\}\n#endif\n",
    "end": r"#endif\n",
    "enum": r"enum (?P<enum>\w+) \{(?P<rows>[^{}]*)\};",
    "number": r"static inline uint(?:64_t grid|32_t grid_small)_number\(const uint8_t \*bytes\) \{\n.*?\n\}",
    "call": r"(?P<result>\w+) (?P<name>\w+)\((?P<parameters>[^(){};]*)\);",
}
# The forms follow each other in this order; comments stand anywhere before the last.
ORDERLY = r"guard include include version opening enum enum number number( call)+ closing end"


def scan(text):
    """The forms of the header, each with its match and the comment that stands right before it."""
    found, comment, at = [], "", 0
    while text[at:].strip():
        at += len(text[at:]) - len(text[at:].lstrip())
        matches = ((kind, re.compile(form, re.S).match(text, at)) for kind, form in FORMS.items())
        kind, match = next((pair for pair in matches if pair[1]), (None, None))
        if not match:
            raise Unreadable(f"the header's line '{text[at:].splitlines()[0]}'")
        if kind == "comment":
            comment = spaced(re.sub(r"^ \*", "", match["comment"], flags=re.M))
        else:
            found.append((kind, match, comment))
            comment = ""
        at = match.end()
    kinds = " ".join(kind for kind, _, _ in found)
    if not re.fullmatch(ORDERLY, kinds):
        raise Unreadable(f"the header's parts, which come in the order: {kinds}")
    return found


def parameter(text):
    match = re.fullmatch(r"\s*((?:const )?\w+ \*?)(\w+)\s*", text)
    if not match:
        raise Unreadable(f"the header's parameter '{spaced(text)}'")
    return match[1] if match[1].endswith("*") else match[1].strip(), match[2]


def rows(match):
    """A constant's number, and the comment before it."""
    found = {}
    for part in match["rows"].split(",\n"):
        row = re.fullmatch(rf"\s*(?:{COMMENT})?\s*(GRID_\w+) = (\d+)\s*", part, re.S)
        if not row or row[2] in found:
            raise Unreadable(f"the header's constant '{spaced(part)}'")
        found[row[2]] = int(row[3]), spaced(row["comment"] or "")
    return found


class Header:
    def __init__(self, text):
        found = scan(text)
        self.calls, self.refusals = {}, {}
        for _, match, comment in (part for part in found if part[0] == "call"):
            name, listed = match["name"], re.findall(r"Refusals: (\d+(?:, \d+)*)\.", comment)
            if name in self.calls or len(listed) != 1 or comment.count("Writes: ") != 1:
                raise Unreadable(f"the header's call {name}, or its comment: one 'Writes: ', one 'Refusals: N, N.'")
            self.calls[name] = match["result"], [parameter(part) for part in match["parameters"].split(",")]
            self.refusals[name] = numbers(listed[0])
        first, second = [part for part in found if part[0] == "enum"]
        self.reasons = {number: sentence for number, sentence in rows(first[1]).values()}
        self.named = [number for number, _ in rows(first[1]).values()]
        self.order = numbers(re.search(r"in the order ([\d, ]+) is given|$", first[2])[0])
        self.unused = numbers(re.search(r"No call here gives ([\d, or]+)\.|$", first[2])[0])
        self.bytes = {name: number for name, (number, _) in rows(second[1]).items()}


def size_name(call):
    return call.upper() + "_BYTES"


# ---- what is wrong

def sentences(table, first):
    """A table of crate texts, by number."""
    rows_of = re.search(rf'const {table}: \[&str; \d+\] = \[(.*?)\];', REASONS.read_text(), re.S)[1]
    return dict(enumerate(re.findall(r'^    "(.*)",$', rows_of, re.M), first))


def reasons(given):
    """Document 01's sentences, from 1, as the console has them, and document 02's of the numbers that are given."""
    later = sentences("REASONS_FROM_20", 20)
    return {**sentences("REASONS", 1), **{number: later.get(number) for number in sorted(given) if number >= 20}}


def order():
    first = re.search(r"first_of \(((?:\d+ ∷ )+)order\)", FIRST.read_text())[1]
    base = numbers(re.search(r"^order = (.*)$", ORDER.read_text(), re.M)[1])
    # numbers put into it, each directly after another, the innermost first
    into = re.search(r"^harbour_order = ((?:directly_after \d+ \d+ \(?)+)order\)*$", INTO.read_text(), re.M)[1]
    for new, after in reversed(re.findall(r"directly_after (\d+) (\d+)", into)):
        base.insert(base.index(int(after)) + 1, int(new))
    return numbers(first) + base


def in_c(call):
    result, parameters = call
    shown = ", ".join(kind + ("" if kind.endswith("*") else " ") + name for kind, name in parameters)
    return f"{result} ..({shown})"


def wrong_calls(header, functions):
    for name in sorted(header.calls.keys() ^ functions.keys()):
        yield f"{name} stands in {'the header' if name in header.calls else 'crates/host_c'} alone"
    for name in sorted(header.calls.keys() & functions.keys()):
        if header.calls[name] != functions[name]:
            yield f"{name} is {in_c(header.calls[name])} in the header, and exported as {in_c(functions[name])}"


def wrong_exports(source, library):
    (exports, uses), (calls, own_uses) = functions_of("host_c", source), functions_of("host", library)
    for name in sorted(exports.keys() ^ calls.keys()):
        yield f"{name} stands in crates/{'host_c' if name in exports else 'host'} alone"
    for name in sorted(exports.keys() & calls.keys()):
        parameters, clauses, body = exports[name]
        if (parameters, clauses) != calls[name][:2]:
            yield f"{name} has other parameters or clauses in crates/host_c than in crates/host"
        given = ", ".join(re.findall(r"(\w+):", parameters))
        if body != f"host::{name}({given})":
            yield f"{name} of crates/host_c is not the call of crates/host alone"
    if uses != own_uses:
        yield "the clauses of crates/host_c have their names from other places than those of crates/host"


def wrong_refusals(header):
    given = {number for listed in header.refusals.values() for number in listed}
    for number, sentence in {0: "answered", **reasons(given)}.items():
        if header.reasons.get(number) != sentence:
            yield f"the constant of {number} stands under '{header.reasons.get(number)}', not under '{sentence}'"
    if sorted(header.named) != sorted({0, *reasons(given)}):
        yield f"the constants have the numbers {header.named}"
    if header.order != order():
        yield f"the order of refusals is {header.order}"
    for name, listed in header.refusals.items():
        if listed != [number for number in order() if number in listed]:
            yield f"{name} names its refusals in another order: {listed}"
    if header.unused != [number for number in order() if number not in given]:
        yield f"the refusals that no call gives are said to be {header.unused}"


def wrong_sizes(header):
    lent = {size_name(name) for name, (_, parameters) in header.calls.items() if "size_t" in dict(parameters)}
    if header.bytes.keys() != lent:
        yield f"the numbers of bytes are {sorted(header.bytes)}, and not {sorted(lent)}"


def wrong_header(text, functions):
    try:
        header = Header(text)
    except Unreadable as what:
        return [f"cannot be read: {what}"]
    return [*wrong_calls(header, functions), *wrong_refusals(header), *wrong_sizes(header)]


# ---- what occurs in the answers

def lent_lengths(words):
    """The lengths of the lent slices of a call, which are its last words: each is 'LENGTH FIRST' or 'null'."""
    lengths = []
    while words:
        lengths.append(0 if words[0] == "null" else int(words[0]))
        words = words[1:] if words[0] == "null" else words[2:]
    return lengths


def given_length(word):
    """The length of a slice that is only read."""
    return 0 if word in ("null", "empty") else len(word) // 2


def out_length(words):
    """The length of a call's out; None where it has none, or where another slice of the call is refused by 9."""
    if words[0] == "sweep":
        given, (codes, out) = given_length(words[2]), lent_lengths(words[3:])
        return out if given % 12 == 0 and 8 * (given // 12) <= codes else None
    if words[0] in ("check-cells", "mend-cells"):
        given, (*lists, out) = given_length(words[1]), lent_lengths(words[2:])
        return out if given % 8 == 0 and all(given <= length for length in lists) else None
    lent = {"cross": 3, "file": 5, "list": 5, "small": 2, "large": 2, "cross-small": 3, "file-small": 5,
            "opposite": 2, "opposite-name": 2}.get(words[0])
    return lent_lengths(words[lent:])[0] if lent else None


def seen(calls, answers):
    """Of each call its refusals, and of each of them the lengths of out."""
    found = {}
    if len(calls) != len(answers):
        raise Unreadable(f"{len(calls)} calls with {len(answers)} answers")
    for call, answer in zip(calls, answers):
        words = call.split()
        name, length = "grid_" + words[0].replace("-", "_"), out_length(words)
        lengths = found.setdefault(name, {}).setdefault(int(answer.split()[0]), set())
        lengths |= {length} - {None}
    return found


def wrong_seen(text, calls, answers):
    header, found = Header(text), seen(calls, answers)
    for name in sorted(header.calls.keys() | found.keys()):
        listed, occurs = {0, *header.refusals.get(name, [])}, found.get(name, {})
        if listed != occurs.keys():
            yield f"{name}: the header has the refusals {sorted(listed)}, and the answers {sorted(occurs)}"
        elif 9 in listed:
            short, enough = max(occurs[9]), min(occurs[0])
            needed = header.bytes[size_name(name)]
            if (short, enough) != (needed - 1, needed):
                yield f"{name} needs {needed} bytes, and of the answers {short} are too short, {enough} enough"


# ---- the test of the test

CHECK_NAME = "uint64_t grid_check_name(uint64_t word);"
MORE = "/* Writes: nothing. Refusals: 1. */\nuint64_t grid_more(uint64_t word);\n"
# What stands in the header, and what is put in its place.
PLANTED = [
    ("a result's type", "uint64_t grid_check_name(", "uint32_t grid_check_name("),
    ("a parameter's type", "grid_file(uint64_t degree", "grid_file(uint32_t degree"),
    ("a parameter without its sign", "grid_list(uint64_t degree, int32_t x", "grid_list(uint64_t degree, uint32_t x"),
    ("a pointer to what may not be written", "edge, uint8_t *out", "edge, const uint8_t *out"),
    ("a length of another type", "edge, uint8_t *out, size_t out_length", "edge, uint8_t *out, uint32_t out_length"),
    ("two parameters exchanged", "grid_cross(uint64_t code, uint64_t edge", "grid_cross(uint64_t edge, uint64_t code"),
    ("a pointer to what is only read", "const uint8_t *dirs", "uint8_t *dirs"),
    ("a length before its pointer", "edge, uint8_t *out, size_t out_length", "edge, size_t out_length, uint8_t *out"),
    ("a parameter missing", "grid_file(uint64_t degree, int32_t x, ", "grid_file(uint64_t degree, "),
    ("a parameter too many", "grid_check_triangle(uint64_t word", "grid_check_triangle(uint64_t word, uint64_t more"),
    ("a call of another name", "grid_cross(uint64_t code", "grid_step(uint64_t code"),
    ("a call missing", CHECK_NAME, ""),
    ("a call in a comment", CHECK_NAME, f"/* {CHECK_NAME} */"),
    ("a call that nobody sees", CHECK_NAME, f"#if 0\n{CHECK_NAME}\n#endif"),
    ("a call twice", CHECK_NAME, f"{CHECK_NAME}\n{MORE.replace('more', 'check_name')}"),
    ("a call too many", "#ifdef __cplusplus\n}", f"{MORE}#ifdef __cplusplus\n}}"),
    ("two of five slices exchanged", "words_length, uint8_t *reasons,", "reasons_length, uint8_t *words,"),
    ("a call that C++ alone sees", 'extern "C" {\n', f'extern "C" {{\n{MORE}'),
    ("a macro in place of a call", "enum grid_bytes", "#define grid_cross grid_step\n\nenum grid_bytes"),
    ("names of C++", 'extern "C" {', "namespace grid {"),
    ("a wrong number", "GRID_TOO_SHORT = 9", "GRID_TOO_SHORT = 12"),
    ("a number twice", "GRID_ZERO_DIRECTION = 7,", "GRID_ZERO_DIRECTION = 8,"),
    ("a constant missing", "    /* a is 0, 6 or 7 */\n    GRID_NO_SUCH_SIDE = 2,\n", ""),
    ("a constant of no number", "GRID_NO_SUCH_SIDE = 2", "GRID_NO_SUCH_SIDE"),
    ("a constant of the same number", "GRID_ANSWERED = 0,", "GRID_ANSWERED = 0,\n    /* answered */\n    GRID_OK = 0,"),
    ("a wrong sentence", "/* a is 0, 6 or 7 */", "/* a is 0 or 7 */"),
    ("a sentence missing", "/* a is 0, 6 or 7 */\n", ""),
    ("another order", "31, 10, 5, 6, 8, 7, 9, 11 is given", "31, 5, 6, 7, 8, 9, 10, 11 is given"),
    ("30 after 2", "1, 30, 2, 3, 4, 31, 10", "1, 2, 30, 3, 4, 31, 10"),
    ("31 before 4", "1, 30, 2, 3, 4, 31, 10", "1, 30, 2, 3, 31, 4, 10"),
    ("31 before 3 at a call", "Refusals: 30, 2, 3, 31, 5, 9.", "Refusals: 30, 2, 31, 3, 5, 9."),
    ("a word of 64 bits", "grid_check_small(uint32_t word", "grid_check_small(uint64_t word"),
    ("one way to read numbers alone", "static inline uint32_t grid_small_number(",
     "static inline int grid_small_number("),
    ("refusals in another order", "Refusals: 1, 2, 3, 4, 10.", "Refusals: 1, 2, 3, 10, 4."),
    ("refusals in another form", "Refusals: 1, 2, 3, 4, 10.", "Refusals: 1 to 4 and 10."),
    ("no refusals", " * Refusals: 1, 2, 3, 4, 10. */", " */"),
    ("32 not first", "32, 1, 30, 2, 3, 4, 31, 10, 5, 6, 8, 7, 9, 11 is",
     "1, 30, 2, 3, 4, 31, 10, 5, 6, 8, 7, 9, 11, 32 is"),
    ("an order without 32", "32, 1, 30, 2, 3, 4, 31, 10, 5,", "1, 30, 2, 3, 4, 31, 10, 5,"),
    ("9 before 32", "Refusals: 32, 9.", "Refusals: 9, 32."),
    ("a wrong sentence of document 02", "more than 4,096 words */", "more than 4,095 words */"),
    ("a wrong number of document 02", "GRID_TOO_LONG = 32", "GRID_TOO_LONG = 31"),
    ("a constant that no call gives", "GRID_TOO_LONG = 32", "GRID_TOO_LONG = 32,\n    GRID_NO_DESK = 24"),
    ("other refusals that no call gives", "gives 6 or 11.", "gives 6."),
    ("a number of bytes missing", "    GRID_FILE_BYTES = 8,\n", ""),
]
# What the answers show to be wrong.
PLANTED_FOR_ANSWERS = [
    ("a refusal less", "Refusals: 1, 2, 3, 4, 10.", "Refusals: 1, 2, 3, 4."),
    ("a refusal more", "Refusals: 1, 2, 3, 4.", "Refusals: 1, 2, 3, 4, 10."),
    ("another refusal", "Refusals: 1, 2, 3, 4, 5, 9.", "Refusals: 1, 2, 3, 4, 6, 9."),
    ("too many bytes", "GRID_LIST_BYTES = 56", "GRID_LIST_BYTES = 57"),
    ("too few bytes", "GRID_CROSS_BYTES = 16", "GRID_CROSS_BYTES = 15"),
    ("too many bytes of a sweep", "GRID_SWEEP_BYTES = 24", "GRID_SWEEP_BYTES = 30"),
    ("too few bytes of a verdict", "GRID_CHECK_CELLS_BYTES = 16", "GRID_CHECK_CELLS_BYTES = 8"),
    ("too many bytes of two counts", "GRID_MEND_CELLS_BYTES = 16", "GRID_MEND_CELLS_BYTES = 24"),
    ("mending without 32", "Refusals: 32, 9.", "Refusals: 9."),
    ("too many bytes of a small word", "GRID_SMALL_BYTES = 4", "GRID_SMALL_BYTES = 8"),
    ("too many bytes of a crossing", "GRID_CROSS_SMALL_BYTES = 12", "GRID_CROSS_SMALL_BYTES = 16"),
    ("reading with 1", "Refusals: 30, 2, 3, 31, 9.", "Refusals: 1, 30, 2, 3, 31, 9."),
    ("checking with 32", "Refusals: 9.", "Refusals: 32, 9."),
]
PLANTED_IN_RATTLE = [
    ("a type that C has no name for here", "word: u64", "word: u128"),
    ("a slice of other numbers", "edge: u64, out: &mut [u8]", "edge: u64, out: &mut [u64]"),
    ("a function with no result", " -> u64\n", "\n"),
    ("a function exported otherwise", "#[unsafe(no_mangle)]\n", ""),
    ("an order of parameters", "code: u64, edge: u64", "edge: u64, code: u64"),
    ("another clause", "CrossBytes (code_of code) edge out.old", "CrossBytes (code_of code) edge out.new"),
    ("no clause", "    ensures { CrossBytes (code_of code) edge out.old result out.new }\n", ""),
    ("a clause too many", "ensures { CrossBytes", "requires { edge ≤ 3 }\n    ensures { CrossBytes"),
    ("a clause's name from another place", "ghost use Rattle.net.specs.Corners.{name_of}",
     "ghost use Rattle.words.specs.Family.{name_of}"),
    ("another call", "host::grid_opposite(code, out)", "host::grid_small(code, out)"),
    ("an argument for another", "host::grid_cross(code, edge, out)", "host::grid_cross(edge, code, out)"),
    ("more than the call", "    host::grid_small(code, out)", "    out[0] = 0;\n    host::grid_small(code, out)"),
    ("a function that is no call of host", "pub extern \"C\" fn grid_small(", "pub extern \"C\" fn grid_less("),
]
# Pairs of call and answer that the true header agrees with.
PAIRS = [
    *((f"check-triangle 0x{n}", str(n)) for n in (0, 1, 2, 3, 4)),
    *((f"check-name 0x{n}", str(n)) for n in (0, 1, 2, 3, 4, 10)),
    *((f"cross 0x{n} 1 16 0", f"{n} 00") for n in (0, 1, 2, 3, 4, 5)),
    *((f"file {n} 0 0 1 8 0", f"{n} 00") for n in (0, 1, 7, 8)),
    *((f"list {n} 0 0 1 56 0", f"{n} 00") for n in (0, 1, 7, 8)),
    *((f"sweep {n} empty null 24 0", f"{n} 00") for n in (0, 1)),
    *((f"{call} 0", "9 00") for call in ("cross 0x1 1 15", "file 1 0 0 1 7", "list 1 0 0 1 55")),
    ("sweep 1 empty null 23 0", "9 00"),
    *((f"{call} null", "9") for call in ("cross 0x1 1", "file 1 0 0 1", "list 1 0 0 1", "sweep 1 empty 8 0")),
    ("sweep 1 00 8 0 30 0", "9 00"),
    ("check-cells empty 16 0", "0 00"),
    ("check-cells null 15 0", "9 00"),
    ("check-cells 00 30 0", "9 00"),
    ("mend-cells empty null null null 16 0", "0 00"),
    ("mend-cells empty null null null 15 0", "9 00"),
    ("mend-cells 00 1 0 1 0 1 0 30 0", "9 00"),
    ("mend-cells 0000000000000000 8 0 8 0 7 0 30 0", "9 00"),
    (f"mend-cells {'00' * 32776} null null null null", "32"),
    *((f"small 0x{n} 4 0", f"{n} 00") for n in (0, 1, 30, 2, 3, 4)),
    *((f"large 0x{n} 8 0", f"{n} 00") for n in (0, 30, 2, 3, 31)),
    *((f"check-small 0x{n}", str(n)) for n in (0, 30, 2, 3, 31)),
    *((f"cross-small 0x{n} 1 12 0", f"{n} 00") for n in (0, 30, 2, 3, 31, 5)),
    *((f"file-small {n} 0 0 1 4 0", f"{n} 00") for n in (0, 1, 30, 8, 7)),
    *((f"{call} 0", "9 00") for call in ("small 0x1 3", "large 0x1 7", "cross-small 0x1 1 11", "file-small 1 0 0 1 3")),
    *((f"opposite 0x{n} 8 0", f"{n} 00") for n in (0, 1, 2, 3, 4)),
    *((f"opposite-name 0x{n} 8 0", f"{n} 00") for n in (0, 1, 2, 3, 4, 10)),
    *((f"{call} 0", "9 00") for call in ("opposite 0x1 7", "opposite-name 0x1 7")),
]


def put(text, old, new):
    if old not in text:
        raise SystemExit(f"tests/header.py: nothing to falsify: {old!r}")
    return text.replace(old, new, 1)


def reported(text, source, pairs):
    """What is said of a header, of the source and of calls with their answers."""
    try:
        wrong = [*wrong_header(text, exported(source)), *wrong_seen(text, *pairs)]
        return wrong + list(wrong_exports(source, all_of(LIBRARY)))
    except Unreadable as what:
        return [f"cannot be read: {what}"]


def self_test():
    text, source, pairs = HEADER.read_text(), all_of(EXPORTS), list(zip(*PAIRS))
    yield from reported(text, source, pairs)
    for what, old, new in PLANTED:
        if not wrong_header(put(text, old, new), exported(source)):
            yield f"not reported: {what}"
    for what, old, new in PLANTED_FOR_ANSWERS:
        if not reported(put(text, old, new), source, pairs):
            yield f"not reported: {what}"
    for what, old, new in PLANTED_IN_RATTLE:
        if not reported(text, put(source, old, new), pairs):
            yield f"not reported: {what}"


def ask(words):
    """What is wrong, and what is said where nothing is."""
    if words == ["--self-test"]:
        count = len(PLANTED) + len(PLANTED_FOR_ANSWERS) + len(PLANTED_IN_RATTLE)
        return list(self_test()), f"{count} falsifications, each reported"
    if words:
        calls, answers = (pathlib.Path(word).read_text().splitlines() for word in words[1:])
        return list(wrong_seen(HEADER.read_text(), calls, answers)), "each call gives just the refusals that it names"
    source = all_of(EXPORTS)
    wrong = [*wrong_header(HEADER.read_text(), exported(source)), *wrong_exports(source, all_of(LIBRARY))]
    return wrong, "its calls and refusals are those of Rattle"


def main(words):
    if words not in ([], ["--self-test"]) and (len(words) != 3 or words[0] != "--seen"):
        print(__doc__.strip())
        return 0 if words in (["help"], ["-h"], ["--help"]) else 2
    try:
        wrong, fine = ask(words)
    except Unreadable as what:
        wrong = [f"cannot be read: {what}"]
    for line in wrong:
        print(f"tests/header.py: {line}")
    if not wrong:
        print(f"header: {fine}")
    return 1 if wrong else 0


sys.exit(main(sys.argv[1:]))
