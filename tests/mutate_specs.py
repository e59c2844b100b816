#!/usr/bin/env python3
"""Tries wrong definitions: each must be refused by some proof.

What a reader must believe stands in crates/*/specs/*.antt. A definition there that could be changed with every proof
still passing would be tied to nothing. So each entry of the table spec_mutations.txt, beside this program, changes one
operand of one definition; the changed repository is then proved again, and some proof has to refuse it. An entry that
survives shows a gap: no contract, law or example depends on that operand.

The table. A line `crate:` or `file:` holds for all entries after it; the file stands in the crate's specs/. An entry is
a line `old:` and a line `new:`; the text of `old:` must stand exactly once in the file. In both, \\n is the end of a
line. Lines that begin with `#` are comments; one above an entry says what the wrong definition would mean, where that
is not plain. An entry changes what is meant: one that says the same in other words has no place here. What stands in
specs/Means/ is only a means of proof, and has no entries.

How an entry is tried. The crates of the entries, those above them and those that they rest on are copied to a temporary
folder, with what earlier runs kept in their out/; nothing is written to the repository itself. There the entry is
applied and `rt check` run in the crate's folder. If the crate is still proved, `rt check` is run in the folder of each
crate above it, in dependency order, until one is refused (no program is run). Then the copy is made as it was: the
file, and the out/ of each crate that was asked.

What is printed. A line for each entry, with its number, the place of the change, and one of
    refused by CRATE at FILE:LINE    the place of the first error
    SURVIVED                         the crate and every crate above it are still proved
    BAD: ..                          no proof was asked: the changed definition does not type-check (an error in
                                     specs/), proofs only name what is gone with it, `old:` is not in the file once,
                                     or the prover gave no verdict; the entry has to be mended
and a last line 'N tried, M refused, K survived', with the number of BAD ones if there are any.

Exit status: 0 if every entry was refused; 1 if one survived; else 2: one is BAD, the table cannot be read, or the
crates are not proved to begin with.

It takes from seconds to two minutes an entry, so it is run by hand and is no part of the gate. A copy of all crates
takes up to 3 GB of the disk, and there is one more than --jobs says:

    python3 tests/mutate_specs.py                         # all
    python3 tests/mutate_specs.py golden net/Sides.antt   # the entries of a crate, of a file
    python3 tests/mutate_specs.py --range 40-60,7         # entries by number, in this order; also 40- and -60
    python3 tests/mutate_specs.py --without console       # that crate, and those above it, are neither proved nor asked
    python3 tests/mutate_specs.py --jobs 2                # two copies at a time
    python3 tests/mutate_specs.py --list                  # the entries, and nothing is tried
    python3 tests/mutate_specs.py --keep DIR              # what the prover said of entry N goes to DIR/N.out

Needs `rt` on the PATH, and Python 3 with nothing besides its standard library.
"""

import argparse
import os
import queue
import re
import shutil
import signal
import subprocess
import sys
import tempfile
import threading
from pathlib import Path

ROOT = Path(__file__).resolve().parent.parent
TABLE = Path(__file__).resolve().parent / "spec_mutations.txt"
PARTS = ("src", "specs", "proofs")
ERROR = re.compile(r"^(?:note: )?(\S+?):(\d+):\d+: error(.*)", re.MULTILINE)
REFUSED_CRATE = re.compile(r"^rt: the library (\w+) did not build", re.MULTILINE)
# an error of a proof file that names what is not there, and the errors that only follow from others
GONE = re.compile(r"is not in scope|is not a field of|is not a constructor of|has no field|has no `|is no name")
FOLLOWS = re.compile(r": \d+ declarations? that depends? on ")
RUNNING = set()  # the process groups that this program has started and that have not ended


def fail(why):
    print(f"mutate_specs: {why}", file=sys.stderr)
    sys.exit(2)


class Entry:
    """One wrong definition: in crates/CRATE/specs/FILE, `old` becomes `new`."""

    def __init__(self, number, crate, file, old, new):
        self.number, self.crate, self.file, self.old, self.new = number, crate, file, old, new

    def path(self, root):
        return root / "crates" / self.crate / "specs" / self.file

    def fault(self, root):
        """Why it cannot be applied, or None."""
        path = self.path(root)
        if not path.is_file():
            return f"there is no crates/{self.crate}/specs/{self.file}"
        times = path.read_text(encoding="utf-8").count(self.old)
        if times != 1:
            return f"its `old:` stands {times} times in the file"
        if self.old == self.new:
            return "its `new:` is its `old:`"
        return None

    def place(self, root):
        """crate/file:line of the first changed character."""
        if self.fault(root):
            return f"{self.crate}/{self.file}"
        text = self.path(root).read_text(encoding="utf-8")
        at = text.index(self.old) + len(os.path.commonprefix([self.old, self.new]))
        return f"{self.crate}/{self.file}:{text.count(chr(10), 0, at) + 1}"


def read_table(path):
    """The entries of the table, in order, numbered from 1."""
    entries, crate, file, old = [], None, None, None
    for at, line in enumerate(path.read_text(encoding="utf-8").splitlines(), 1):
        if not line.strip() or line.startswith("#"):
            continue
        word, colon, rest = line.partition(":")
        rest = rest.removeprefix(" ").replace("\\n", "\n")
        if word == "crate" and old is None:
            crate, file = rest.strip(), None
        elif word == "file" and old is None:
            file = rest.strip()
        elif word == "old" and crate and file and old is None and rest:
            old = rest
        elif word == "new" and old is not None:
            entries.append(Entry(len(entries) + 1, crate, file, old, rest))
            old = None
        else:
            fail(f"{path.name}:{at}: not a line that can stand here: {line}")
    if old is not None:
        fail(f"{path.name}: the last entry has no `new:`")
    return entries


def read_crates(root):
    """The crates of crates.txt: the name of each, and those that it rests on."""
    crates = {}
    for line in (root / "crates.txt").read_text(encoding="utf-8").splitlines():
        head, colon, rest = line.partition("#")[0].partition(":")
        if head.strip():
            # after the name may stand staticlib
            crates[head.split()[0]] = re.split(r"[\s,]+", rest.strip()) if rest.strip() else []
    return crates


def left_out(crates, named):
    """Of these crates those that are named, and those that rest on one of them at any depth."""
    out = set(named)
    while more := {c for c in crates if c not in out and any(d in out for d in crates[c])}:
        out |= more
    return out


def needed(crates, wanted):
    """The crates that rest on a wanted one at any depth, and all that they rest on."""
    found = left_out(crates, wanted)
    while more := {d for c in found for d in crates[c] if d in crates and d not in found}:
        found |= more
    return {c: rests_on for c, rests_on in crates.items() if c in found}


def size(folder):
    return sum(f.stat().st_size for part in PARTS for f in (folder / part).rglob("*") if f.is_file())


def crates_above(root, crates, crate):
    """The crates that rest on `crate`, at any depth, each after all that it rests on; the smallest that can be next."""
    above, left = [], [c for c in crates if c != crate]
    while left:
        ready = [c for c in left if not any(d in left for d in crates[c])]
        c = min(ready, key=lambda c: size(root / "crates" / c))
        left.remove(c)
        if any(d == crate or d in above for d in crates[c]):
            above.append(c)
    return above


def run(folder, limit, *words):
    """Runs rt in the folder: its exit status, None after `limit` seconds, and all that it said."""
    with subprocess.Popen(
        ["rt", *words], cwd=folder, stdout=subprocess.PIPE, stderr=subprocess.STDOUT, stdin=subprocess.DEVNULL,
        text=True, errors="replace", start_new_session=True,
    ) as process:
        RUNNING.add(process.pid)
        try:
            said, _ = process.communicate(timeout=limit)
            return process.returncode, said
        except subprocess.TimeoutExpired:
            os.killpg(process.pid, signal.SIGKILL)
            return None, process.communicate()[0]
        except BaseException:
            os.killpg(process.pid, signal.SIGKILL)
            raise
        finally:
            RUNNING.discard(process.pid)


def verdict(root, crate, status, said):
    """Of a run for `crate`: None if it is still proved, else what to print."""
    if status == 0:
        return None
    if status is None:
        return f"BAD: {crate} took too long"
    refused = REFUSED_CRATE.search(said)
    if refused:
        crate = refused.group(1)
    errors = [(shown(root, crate, path), line, why) for path, line, why in ERROR.findall(said)]
    for path, line, _ in errors:
        if "specs" in path.parts:
            return f"BAD: {crate}: the definition does not type-check, at {path}:{line}"
    if status != 1:
        return f"BAD: {crate}: rt ended with status {status}"
    if not errors:
        return f"refused by {crate}"
    first = [e for e in errors if not FOLLOWS.match(e[2])]
    if first and all("proofs" in path.parts and GONE.search(why) for path, _, why in first):
        return f"BAD: {crate}: a proof only names what is gone, at {first[0][0]}:{first[0][1]}"
    path, line, _ = errors[0]
    return f"refused by {crate} at {path}:{line}"


def shown(root, crate, path):
    """A file that rt names in the folder of the crate, as CRATE/FILE."""
    path = Path(os.path.normpath(root / "crates" / crate / path))
    try:
        return path.relative_to(root / "crates")
    except ValueError:
        return path


def copy_tree(source, to):
    if to.exists():
        shutil.rmtree(to)
    if source.exists():
        shutil.copytree(source, to, symlinks=True)


def copy_crates(source, to, crates):
    """Copies these crates, with what earlier runs kept of them, and a crates.txt of them alone."""
    to.mkdir(parents=True, exist_ok=True)
    lines = (source / "crates.txt").read_text(encoding="utf-8").splitlines()
    kept = [line for line in lines if re.split(r"[\s:]", line, maxsplit=1)[0] in crates]
    (to / "crates.txt").write_text("".join(f"{line}\n" for line in kept), encoding="utf-8")
    for crate in crates:
        for part in (*PARTS, "out"):
            copy_tree(source / "crates" / crate / part, to / "crates" / crate / part)


def try_entry(entry, clean, room, crates, limit):
    """Tries an entry in the copy `room`, and makes it as `clean` again. The verdict, and what the prover said."""
    fault = entry.fault(room)
    if fault:
        return f"BAD: {fault}", ""
    path = entry.path(room)
    text = path.read_text(encoding="utf-8")
    answer, said, asked = None, "", []
    try:
        path.write_text(text.replace(entry.old, entry.new), encoding="utf-8")
        for crate in (entry.crate, *crates_above(room, crates, entry.crate)):
            asked.append(crate)
            status, more = run(room / "crates" / crate, limit, "check", "--jobs", "1")
            said += f"== {crate}\n{more}"
            answer = verdict(room, crate, status, more)
            if answer:
                break
        return answer or "SURVIVED", said
    finally:
        path.write_text(text, encoding="utf-8")
        for crate in asked:
            part = Path("crates") / crate / "out"
            copy_tree(clean / part, room / part)


def prepare(clean, crates, jobs):
    """Copies the crates to `clean` and proves them there, so that each entry's check begins from what is proved."""
    copy_crates(ROOT, clean, crates)
    status, said = run(clean, None, "all", "check", "--jobs", str(jobs))
    if status != 0:
        print(said[-3000:], file=sys.stderr)
        fail("the repository is not proved as it stands, so nothing can be tried")


def selected(entries, only, ranges):
    """The entries of these crates or files, in the order of the ranges."""
    numbers = []
    for span in (ranges or "-").split(","):
        m = re.fullmatch(r"(\d*)(-?)(\d*)", span)
        if not m or span == "":
            fail("--range is FROM-TO, FROM-, -TO or one number, or several of these with commas between them")
        low = int(m.group(1) or 1)
        high = int(m.group(3) or len(entries)) if m.group(2) else low
        numbers += range(max(low, 1), min(high, len(entries)) + 1)
    chosen = (entries[k - 1] for k in numbers)
    return [e for e in chosen if not only or e.crate in only or f"{e.crate}/{e.file}" in only]


def main():
    parser = argparse.ArgumentParser(description="Tries wrong definitions: each must be refused by some proof.")
    parser.add_argument("only", nargs="*", metavar="CRATE[/FILE]", help="only the entries of this crate or file")
    parser.add_argument("--range", metavar="FROM-TO", help="only the entries of these numbers, in this order")
    parser.add_argument("--without", metavar="CRATE,..", help="neither prove nor ask these crates and those above them")
    parser.add_argument("--jobs", type=int, default=1, metavar="N", help="how many copies at a time (default 1)")
    parser.add_argument(
        "--limit", type=float, default=900, metavar="SECONDS", help="the longest time for one run of rt (default 900)"
    )
    parser.add_argument("--keep", type=Path, metavar="DIR", help="a folder for what the prover said of each entry")
    parser.add_argument("--list", action="store_true", help="print the entries, and try none")
    options = parser.parse_args()

    crates = read_crates(ROOT)
    entries = selected(read_table(TABLE), options.only, options.range)
    if options.list:
        for e in entries:
            fault = e.fault(ROOT)
            print(f"{e.number} {e.place(ROOT)}\n    {e.old!r}\n    {e.new!r}")
            if fault:
                print(f"    BAD: {fault}")
        return 0
    named = options.without.split(",") if options.without else []
    for crate in named:
        if crate not in crates:
            fail(f"--without: there is no crate {crate}")
    out = left_out(crates, named)
    crates = {c: rests_on for c, rests_on in crates.items() if c not in out}
    entries = [e for e in entries if e.crate not in out]
    crates = needed(crates, {e.crate for e in entries})
    if not entries:
        fail("no entry of the table is meant")
    if not shutil.which("rt"):
        fail("the Rattle toolchain's command rt is not on the PATH")
    if options.keep:
        options.keep.mkdir(parents=True, exist_ok=True)

    waiting = queue.Queue()
    for e in entries:
        waiting.put(e)
    tally = {"refused": 0, "SURVIVED": 0, "BAD": 0}
    lock = threading.Lock()
    failures, ended = [], threading.Semaphore(0)

    def work(clean, room):
        try:
            copy_crates(clean, room, crates)
            while not failures:
                try:
                    e = waiting.get_nowait()
                except queue.Empty:
                    return
                answer, said = try_entry(e, clean, room, crates, options.limit)
                if failures:
                    return
                with lock:
                    tally[re.match(r"\w+", answer).group()] += 1
                    print(f"{e.number} {e.place(clean)}: {answer}", flush=True)
                    if options.keep:
                        (options.keep / f"{e.number}.out").write_text(said, encoding="utf-8")
        except BaseException as error:
            failures.append(error)
            raise
        finally:
            ended.release()

    def stop(number, frame):
        raise KeyboardInterrupt

    signal.signal(signal.SIGINT, stop)
    signal.signal(signal.SIGTERM, stop)
    with tempfile.TemporaryDirectory(prefix="mutate_specs.") as folder:
        clean = Path(folder).resolve() / "clean"
        prepare(clean, crates, max(1, options.jobs))
        workers = [
            threading.Thread(target=work, args=(clean, Path(folder).resolve() / f"copy{k}"))
            for k in range(max(1, min(options.jobs, len(entries))))
        ]
        for w in workers:
            w.start()
        left = len(workers)
        while left:
            try:
                ended.acquire()
                left -= 1
            except KeyboardInterrupt as stopped:
                # a worker ends with what it runs; then the temporary folder goes
                failures.append(stopped)
                for group in list(RUNNING):
                    os.killpg(group, signal.SIGKILL)

    bad = f", {tally['BAD']} BAD" if tally["BAD"] else ""
    asked = f" (without {', '.join(sorted(out))})" if out else ""
    print(f"{sum(tally.values())} tried, {tally['refused']} refused, {tally['SURVIVED']} survived{bad}{asked}")
    if failures:
        return 2
    if tally["SURVIVED"]:
        return 1
    return 2 if tally["BAD"] else 0


if __name__ == "__main__":
    try:
        sys.exit(main())
    except KeyboardInterrupt:
        fail("stopped")
