#!/usr/bin/env python3
"""Spells the repository's own definitions and lemmas as today's Rattle does: snake case, types in camel case.

usage: tools/respell.py [--check] [TOP]

Run once, after /opt/rattle/port/port.py, which respells the libraries' names alone. It goes over crates/*/specs and
crates/*/proofs, and over the clauses in crates/*/src. A name that a file takes from a library stays, and so does each
that Rattle makes (fields and modules of a proof's goals), each function of src/ and each string. With --check it
writes nothing, and prints the names that would fall together.
"""

import glob
import os
import re
import sys

NAME = r"[^\s(){}.;,@\"]+"
MARKS = r"(?:(?:pub|abbrev|unfoldable|pattern|axiom) +)*"
DECLARED = re.compile(rf"(?m)^[ |]*{MARKS}({NAME})(?: \{{[^{{}}\n]*\}})*(?: \([^()\n]*\))* *:(?: |$)")
BLOCK = re.compile(rf"(?m)^ *{MARKS}(?:record|data) ({NAME})")
LET = re.compile(rf"\blet ({NAME}) (?:=|:)")
USE = re.compile(r"(?m)^ *(?:pub +)?(?:ghost +)?use ([^\s;{]+?)\.?(?:\{([^}]*)\}|(?: as (\S+?)))?;?[ \t]*$")
TOKEN = re.compile(r'"(?:\\.|[^"\\])*"|«[^»]*»|[^\s(){}.;,@"«»]+|.|\n', re.S)
DASHED = re.compile(r"◌?[a-z][\w']*(?:-[\w']*[a-z][\w']*)+◌?")
COMMENT = re.compile(r"--[^\n]*|//[^\n]*")

# Names that would meet another in one place, and the word that stands for each.
BY_HAND = {it: it.replace("-", "_") for it in "rule-named rule-name numeric-words flag-words question-mark is-reference form-mark".split()}
BY_HAND["one_more"] = "one_more"


def snake(name):
    words = re.sub(r"(?<=[a-z0-9'₀-₉])[A-Z]+", lambda m: "_" + m[0].lower(), name)
    return words.replace("-", "_").replace("·", "_")


def camel(name):
    return re.sub(r"-(.)", lambda m: m[1].upper(), name)


def is_constant(name):
    return re.fullmatch(r"[A-Z0-9'_-]+", name) and re.search(r"[A-Z]", name)


def spelled(name, types):
    if name in BY_HAND:
        return BY_HAND[name]
    if name.startswith("«") or not re.search(r"[A-Za-z]", name) or "◌" in name and "-" not in name:
        return name
    if is_constant(name):
        return name.replace("-", "_")
    if name in types or name[0].isupper() and "-" not in name:
        return camel(name)
    return snake(name)


def table_of(names, types):
    """The new names, of which no two are one: a lemma that would have its function's name ends in _lem."""
    table = {it: spelled(it, types) for it in sorted(names)}
    functions = {new for old, new in table.items() if "-" not in old and new != old or is_constant(old)}
    settled = {new for old, new in table.items() if "-" not in old}
    for old, new in table.items():
        if is_constant(old) or is_constant(new):
            continue
        if "-" in old and new in settled:
            table[old] = new + "_lem"
        if new == old and new in functions:
            # A lemma that port.py has respelled.
            table[old] = new + "_lem"
            LEMMAS.add(old)
    return {old: new for old, new in table.items() if old != new}


def texts(top):
    for path in sorted(glob.glob(os.path.join(top, "crates/*/**/*.antt"), recursive=True)):
        if "/out/" not in path:
            yield path


def bare(text):
    return COMMENT.sub("", text)


def own_names(paths):
    names, types = set(), set()
    for path in paths:
        if OF_FUNCTION.search(path):
            continue
        code = bare(open(path, encoding="utf-8").read())
        types.update(BLOCK.findall(code))
        names.update(DECLARED.findall(code))
        names.update(LET.findall(code))
        # Constructors that share a line, parameters of a clause, modules' short names and operators' words.
        names.update({it for it in TOKEN.findall(code) if DASHED.fullmatch(it)} - from_library(code))
    names = {it for it in names | types if it not in ("_", "where", "module")}
    return names, types


def from_library(code):
    """The names that a file takes from a module that is not the repository's, and those of the modules' short names."""
    taken = set()
    for path, items, alias in USE.findall(code):
        steps = path.split(".")
        own = steps[0] == "Rattle" and len(steps) > 1 and steps[1] in OWN
        if not own:
            for it in items.split(","):
                taken.update(it.strip().split(" as ")[-1:])
    return taken


OWN = set()
# Names that are those of functions of src/ too: behind a dot and before one they stay.
LEMMAS = set()
# The proof of a function of src/: its own names are mostly those of Rattle's goals.
OF_FUNCTION = re.compile(r"/proofs/.+/[^/]+\.antt$")
COMMENTED = re.compile(r"`[^`\n]*`")


def turn(text, table, kept, source):
    """The text with its names respelled, but for those of kept; in comments what stands between backticks."""

    def names(code):
        out, words = [], TOKEN.findall(code)
        for i, word in enumerate(words):
            beside = "." in words[max(i - 1, 0) : i] + words[i + 1 : i + 2]
            stays = word in kept or word in LEMMAS and (beside or source)
            out.append(word if stays else table.get(word, word))
        return "".join(out)

    parts, at = [], 0
    for m in COMMENT.finditer(text):
        parts += [names(text[at : m.start()]), COMMENTED.sub(lambda c: names(c[0]), m[0])]
        at = m.end()
    return "".join(parts + [names(text[at:])])


def main(argv):
    check = "--check" in argv
    rest = [it for it in argv if it != "--check"]
    top = rest[0] if rest else "."
    OWN.update(os.listdir(os.path.join(top, "crates")))
    paths = list(texts(top))
    names, types = own_names(paths)
    table = table_of(names, types)
    files = paths + sorted(glob.glob(os.path.join(top, "crates/*/src/**/*.rt"), recursive=True))
    for path in files:
        text = open(path, encoding="utf-8").read()
        code = bare(text)
        kept = from_library(code)
        if check:
            lone = re.sub(rf"\.{NAME}|{NAME}(?=\.)|\b(?:fn|mod) \w+|\b\w+(?=\()", " ", code) if path.endswith(".rt") else re.sub(rf"\.{NAME}|{NAME}(?=\.)", " ", code)
            here = set(TOKEN.findall(code))
            alone = set(TOKEN.findall(lone))
            made = {}
            for old in sorted(here):
                if old in table and old not in kept and not (old in LEMMAS and path.endswith(".rt")):
                    made.setdefault(table[old], []).append(old)
            for new, olds in made.items():
                if len(olds) > 1 or new in alone and new not in table:
                    print(f"{path}: {new}: {' '.join(olds)}{' beside itself' if new in alone and new not in table else ''}")
            continue
        if OF_FUNCTION.search(path):
            own = re.escape(os.path.basename(os.path.dirname(path)).replace("_", "-"))
            text = re.sub(rf"(?<![^\s(){{}}.;,]){own}-spec(?![^\s(){{}}.;,])", os.path.basename(os.path.dirname(path)) + "_spec", text)
        turned = turn(text, table, kept, path.endswith(".rt"))
        if turned != open(path, encoding="utf-8").read():
            open(path, "w", encoding="utf-8").write(turned)
    if check:
        print(len(table), "names")
        return
    for path in [os.path.join(top, "README.md")] + sorted(glob.glob(os.path.join(top, "docs/*.md"))):
        if os.path.basename(path).startswith("PORT"):
            continue
        text = open(path, encoding="utf-8").read()
        turned = COMMENTED.sub(lambda c: turn(c[0][1:-1], table, LEMMAS, True).join("``"), text)
        if turned != text:
            open(path, "w", encoding="utf-8").write(turned)


if __name__ == "__main__":
    main(sys.argv[1:])
