#!/usr/bin/env python3
"""Every example of README.md, of CONSOLE.md, DESKS.md, COARSE.md, HARBOUR.md, OPPOSITES.md and PAPER.md in docs/, and
of the console's help is compared by the gate.

`rt ci` runs the console on the calls of crates/plot_main/stdin and holds what it writes to crates/plot_main/stdout. The
first call is help; every line after it has one line as its answer. Here each example must stand there with just that
answer, or, where a document cuts the answer short by ` ..`, with one that begins so. Calls on a table of soundings work
on what the calls before them left: those of one example must stand there one after the other, and so must all calls of
docs/DESKS.md and all of docs/COARSE.md. Each call must have one form, in the console's table, in the help and in the
table of docs/CONSOLE.md, and all but help an example in the help.
"""
import pathlib
import re
import sys

ROOT = pathlib.Path(__file__).resolve().parent.parent
CRATES = ROOT / "crates"
PAIR = CRATES / "plot_main"
wrong = []


def constant(file, name):
    """The text of a constant of the console."""
    return re.search(rf'const {name}: \[u8; \d+\] = \*b"(.*?)";', (CRATES / file).read_text(), re.S)[1]


HELP = constant("replies/src/help.rt", "HELP")
FORMS = re.findall(r'^    \(Call::\w+, "(.*)"\),$', (CRATES / "texts/src/lib.rt").read_text(), re.M)
NAMES = [form.split()[0] for form in FORMS]
# How a document may write a form that has optional parts: without them, and with them.
SPELLED = {form.split(" [")[0] for form in FORMS} | {form.replace("[", "").replace("]", "") for form in FORMS}
ON_TABLE = NAMES[NAMES.index("table") : NAMES.index("check-cells")]


def stored():
    """The calls of the pair with their answers, but for help."""
    calls = (PAIR / "stdin").read_text().splitlines()
    text = (PAIR / "stdout").read_text()
    answers = text[len(HELP) + 1 :].splitlines()
    if calls[:1] != ["help"] or "help" in calls[1:] or not text.startswith(HELP + "\n"):
        wrong.append("plot_main: stdin begins with its one call help, stdout with all of HELP of replies/src/help.rt")
    if len(calls) != len(answers) + 1:
        wrong.append(f"plot_main: stdin has {len(calls) - 1} lines after help, and stdout {len(answers)}")
    return list(zip(calls[1:], answers))


STORED = stored()


def compare(place, call, answer):
    known = [text for line, text in STORED if line == call]
    cut = answer.endswith(" ..")
    if not known:
        wrong.append(f"{place}: plot_main/stdin has no line {call!r}")
    elif not any(text.startswith(answer[:-2]) if cut else text == answer for text in known):
        shown = " or ".join(map(repr, dict.fromkeys(known)))
        wrong.append(f"{place}: {call!r} is said to answer {answer!r}, and in plot_main/stdout its answer is {shown}")


def compare_row(place, examples):
    """Calls with their answers that must stand there one after the other."""
    starts = range(len(STORED) - len(examples) + 1)
    if not examples or not any(STORED[k : k + len(examples)] == examples for k in starts):
        wrong.append(f"{place}: plot_main has these nowhere in a row: {examples}")


def compare_forms(place, forms):
    for form in sorted(set(forms) ^ set(FORMS)):
        wrong.append(f"{place}: the form {form!r} is {'not in texts/src/lib.rt' if form in forms else 'missing'}")
    if len(forms) != len(set(forms)):
        wrong.append(f"{place}: a form stands there twice")


# ---- the help: a paragraph for each call, which begins with its form; an example is indented by two

def check_help():
    paragraphs = [p.splitlines() for p in HELP.split("\n\n") if p.split()[0] in NAMES]
    compare_forms("help", [lines[0].split("  ")[0] for lines in paragraphs])
    count, on_table = 0, []
    for lines in paragraphs:
        name = lines[0].split()[0]
        examples = [re.fullmatch(r"  (\S.*?)  +(\S.*)", line) for line in lines[1:]]
        examples = [(found[1], found[2]) for found in examples if found]
        if not examples and name != "help":
            wrong.append(f"help: {name} has no example")
        if name in ON_TABLE:
            on_table += examples
        else:
            for call, answer in examples:
                compare("help", call, answer)
        count += len(examples)
    compare_row("help", on_table)
    return count


# ---- calls that are made one after the other, indented by four: a call and its answer to a line

def check_lines(place, lines):
    examples = [re.fullmatch(r"    (\S.*?)  +(\S.*)", line) for line in lines]
    if None in examples:
        wrong.append(f"{place}: {lines[examples.index(None)]!r} is not a call with its answer")
        return 0
    compare_row(place, [(found[1], found[2]) for found in examples])
    return len(examples)


# ---- docs/CONSOLE.md: `CALL` answers `ANSWER`; the forms in the first column of the table; the day at the ice desk

def check_console():
    place = "docs/CONSOLE.md"
    text = (ROOT / place).read_text()
    rows = [row.split("|")[1] for row in text.splitlines() if row.startswith("| `")]
    compare_forms(place, [form for row in rows for form in re.findall(r"`([^`]+)`", row)])
    examples = re.findall(r"`([^`\n]+)`\s+answers\s+`([^`\n]+)`", text)
    for call, answer in examples:
        compare(place, call, answer)
    # No call and no answer stands there in another way, where nothing would compare it.
    compared = {part for example in examples for part in example} | {text for _, text in STORED}
    compared |= set(FORMS) | SPELLED
    for code in re.findall(r"`([^`\n]+)`", text):
        is_call = code.split()[:1] and code.split()[0] in NAMES
        is_answer = re.match(r"(refused|error:) .", code) and not code.endswith(" ")
        if (is_call or is_answer) and code not in compared:
            wrong.append(f"{place}: nothing compares {code!r}")
    day = text.split("A day at the ice desk", 1)[1].split("\n\n", 2)[1]
    return len(examples) + check_lines(place, day.splitlines())


# ---- docs/DESKS.md and docs/COARSE.md: calls in several blocks. What is indented by more than four is a picture.

def check_row(place):
    return check_lines(place, re.findall(r"^    \S.*", (ROOT / place).read_text(), re.M))


# ---- docs/HARBOUR.md, OPPOSITES.md and PAPER.md: among pictures, calls that have arguments, each with its answer

def check_calls(place):
    lines = re.findall(r"^    (\S+(?: \S+)+) {2,}(\S.*)$", (ROOT / place).read_text(), re.M)
    examples = [(call, answer) for call, answer in lines if call.split()[0] in NAMES]
    for call, answer in examples:
        compare(place, call, answer)
    return len(examples)


# ---- README.md: `$ ./plot CALL`, a remark after #, and the answer in the next line that is no remark; or
# ---- `$ ./plot <<END`, calls, END, and as many answers

def check_readme():
    place = "README.md"
    lines = [line.strip() for line in (ROOT / place).read_text().splitlines()]
    count = 0
    for k, line in enumerate(lines):
        if line == "$ ./plot <<END":
            calls = lines[k + 1 : lines.index("END", k)]
            answers = lines[k + len(calls) + 2 :][: len(calls)]
            compare_row(place, list(zip(calls, answers)))
            count += len(calls)
        elif line.startswith("$ ./plot "):
            call = line[len("$ ./plot ") :].split("#")[0].strip()
            compare(place, call, next(after for after in lines[k + 1 :] if not after.startswith("#")))
            count += 1
    return count


# ---- the console's own table: a call that cannot be read is answered by its form

def check_table():
    for name, form in zip(NAMES, FORMS):
        # A call that can be read without arguments cannot be read with its own name as one.
        needs_none = form[len(name) :].lstrip()[:1] in ("", "[")
        compare("texts/src/lib.rt", f"{name} {name}" if needs_none else name, f"error: write it as {form}")


counts = {
    "help": check_help(),
    "docs/CONSOLE.md": check_console(),
    "docs/DESKS.md": check_row("docs/DESKS.md"),
    "docs/COARSE.md": check_row("docs/COARSE.md"),
    "docs/HARBOUR.md": check_calls("docs/HARBOUR.md"),
    "docs/OPPOSITES.md": check_calls("docs/OPPOSITES.md"),
    "docs/PAPER.md": check_calls("docs/PAPER.md"),
    "README.md": check_readme(),
}
check_table()
for place, count in counts.items():
    if count == 0:
        wrong.append(f"{place}: no example was found")
for line in wrong:
    print(f"tests/examples.py: {line}")
if wrong:
    sys.exit(1)
told = ", ".join(f"{count} of {place}" for place, count in counts.items())
print(f"examples: all stand in what the console is held to ({told})")
