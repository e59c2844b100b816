#!/usr/bin/env python3
"""Brings the names that this repository declares in specs/ and proofs/ to the spelling of today's library.

usage: python3 tools/port_names.py           rewrites the .antt files, and the clauses of the .rt files, in place
       python3 tools/port_names.py --list    prints each old name with its new one, and writes nothing

At the top of the repository, once, right after the kit's port.py. A name that is a type keeps its capital. Any other is in
snake case. Where two names would meet in a file, the one that had a dash, a lemma, gets `_lem`.
"""

import os
import re
import sys

WORD = r"[^\s(){}.;,@\"«»]+"
HEAD = r"(?:abbrev |unfoldable |pub |data |record )*"
DECLARED = re.compile(rf"(?m)^ *{HEAD}({WORD})(?: (?:\([^()\n]*\)|\{{[^{{}}\n]*\}}))* :(?= |$)")
# What is imported from a library, by its name or as another.
IMPORTED = re.compile(r"(?m)^(?:pub |ghost )?use ([^\s{]+)\.\{([^}]*)\}")
ALIAS = re.compile(rf"(?m)^use \S+ as ({WORD})$")
# Goals that the toolchain names, and what a proof of a function calls its own.
MADE = re.compile(r" : (?:\(c : )?tie\.|: \{M : Type 1\} → statement M")
# Lemmas and aliases that the kit's script spelled as a definition of the file that they stand in is spelled now.
LEMMAS = {
    "crates/filing/proofs/AllHolders.antt": ["all_words"],
    "crates/filing/proofs/HeldCodes.antt": ["digits_of"],
    "crates/filing/proofs/OnePoint.antt": ["same_point"],
    "crates/grid/proofs/Demands.antt": ["same_point"],
    "crates/harbour/proofs/Promises.antt": ["last_bit", "same_digits"],
    "crates/harbour/proofs/SmallWords.antt": ["same_digits"],
    "crates/net/proofs/": ["digits_of", "non_zero", "some_below"],
    "crates/notation/proofs/Computing.antt": ["digits_of"],
    "crates/notation/proofs/Spelling.antt": ["digits_of"],
    "crates/notation/proofs/Vertices.antt": ["kept_by"],
    "crates/paper/proofs/VertexNames.antt": ["digits_of"],
}
# What a contract is called in the files that speak of contracts.
CONTRACTS = re.compile(r"crates/(grid/specs/Contracts|contracts/specs/\w+)\.antt")


def texts():
    for folder, dirs, files in os.walk("crates"):
        dirs[:] = sorted(name for name in dirs if name != "out")
        for name in sorted(files):
            if name.endswith((".antt", ".rt")):
                path = os.path.join(folder, name)
                with open(path, encoding="utf-8") as file:
                    yield path, file.read()


def without_comments(text):
    return re.sub(r"(?m)^(\s*)(?:--|//).*$", r"\1", text)


def snake(part):
    return re.sub(r"(?<=[A-Za-z0-9])([A-Z])", lambda found: "_" + found[1].lower(), part)


def declared_in(path, text):
    """The names that a file of specs/ or proofs/ declares, but for the goals of a function's proof."""
    names = set()
    for line in text.split("\n"):
        found = DECLARED.match(line)
        if found and not MADE.search(line) and "◌" not in found[1]:
            names.add(found[1])
    return names


def new_name(name):
    if re.search(r"[^\w'\-₀-₉φ′ℤμκ]", name) or "" in name.split("-"):
        return name
    parts = [part if part[:1].isupper() else snake(part) for part in name.split("-")]
    first = "-" if parts[0][:1].isupper() else "_"
    return first.join([parts[0], "_".join(parts[1:])]) if parts[1:] else parts[0]


def table():
    declared, imported = set(), set()
    for path, text in texts():
        text = without_comments(text)
        for module, names in IMPORTED.findall(text):
            if not module.startswith("Rattle.") or module.startswith(("Rattle.std.", "Rattle.core.")):
                imported |= set(re.findall(WORD, names))
        if path.endswith(".antt"):
            declared |= declared_in(path, text)
            declared |= set(ALIAS.findall(text)) - {"tie"}
    new, files = {}, {}
    for path, text in texts():
        # A clause names no function of the code, and a path's modules meet no other name.
        if path.endswith(".antt"):
            text = prepared(path, without_comments(text))
            text = re.sub(r"(?m)^((?:pub )?use )[^\s{]+?(?=\.\{| as )", r"\1", text)
            for word in set(re.findall(rf"(?<!\.){WORD}", text)):
                files.setdefault(word, set()).add(path)
    spelled_as = {}
    for name in sorted(files, key=lambda it: ("-" in it, it != snake(it), it)):
        turns = name in declared and name not in imported
        spelled = new_name(name) if turns else name
        meets = [other for other in spelled_as.get(spelled, []) if files[other] & files[name]]
        if turns and spelled != name and meets:
            if "-" not in name:
                print(f"falls together: {name}, {meets}: {sorted(files[name] & files[meets[0]])[:3]}", file=sys.stderr)
            spelled += "_lem"
        spelled_as.setdefault(spelled, []).append(name)
        if spelled != name:
            new[name] = spelled
    return new


def prepared(path, text):
    """The text with `_lem` after each of LEMMAS, and `_call` after what a contract is called."""
    for start, names in LEMMAS.items():
        for name in names if path.startswith(start) else []:
            text = re.sub(rf"(?<![^\s(){{}};,]){name}(?![^\s(){{}}.;,])(?!\.\w+\.|\.\{{)", name + "_lem", text)
    if path.startswith("crates/notation/proofs/"):
        text = re.sub(r"(?<=\bpub )is_base(?= :)|(?<=\b[xt]\.)is_base\b|\bis_base(?= =)", "based", text)
    if CONTRACTS.fullmatch(path):
        text = re.sub(r"(?m)^(use \S+ as )(\S+)$", r"\1\2_call", text)
        text = re.sub(r"(?<![\w.])(\w+)(?=\.(?:Asked|Learnt))", r"\1_call", text)
    return text


def turned(text, new):
    def word(found):
        return new.get(found[0], found[0])

    out = []
    for line in text.split("\n"):
        if re.match(r"\s*(?:--|//)", line):
            line = re.sub(r"`[^`]*`", lambda code: re.sub(WORD, word, code[0].strip("`")).join("``"), line)
        else:
            line = re.sub(rf"(?<!tie\.)(?<!goal\.){WORD}", word, line)
        out.append(line)
    return "\n".join(out)


def main():
    new = table()
    if sys.argv[1:] == ["--list"]:
        for name in sorted(new):
            print(name, new[name])
        return
    for path, text in list(texts()):
        after = turned(prepared(path, text), new)
        if after != text:
            with open(path, "w", encoding="utf-8") as file:
                file.write(after)


main()
