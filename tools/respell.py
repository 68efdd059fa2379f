#!/usr/bin/env python3
"""Respells the repository's own definitions and lemmas, once, after the kit's port.py: run it at the top of the repository.

Words become snake case, families of types camel case. What a lent buffer holds is said by the language's own `x.now`, `x.old` and
`x.new` where the older text said `before x` and `after x`. Functions of src/, exported names, strings and outputs keep their names.
"""
import os
import re
import sys

ROOT = os.path.dirname(os.path.dirname(os.path.realpath(__file__)))
CRATES = os.path.join(ROOT, "crates")

# Families of types that begin with a small letter.
TYPES = {"in_word": "InWord", "inThree": "InThree"}
# The library's word is get_or where the older one was getD; the others would fall together with a name that stands beside them.
SPECIAL = {
    "getD-in": "get_or-in",
    "getD-member": "get_or-member",
    "sameBool": "bools_agree",
    "joinedTo": "joined_onto",
    "lowMask": "low_mask_at",
    "highMask": "high_mask_at",
    "isOpen": "is_open_at",
}

DECLARED = re.compile(r"^\s*((?:abbrev |unfoldable |pub |opaque )*)([^\s:(){}]+(?:\s+[^\s:(){}]+)*)\s*:\s")
DATA = re.compile(r"^\s*(?:pub )?([a-z][A-Za-z0-9']*)\s*:\s")
CAMEL = re.compile(r"^[a-z][a-z0-9]*[A-Z]")


def files(*endings):
    for folder, dirs, names in os.walk(CRATES):
        dirs[:] = sorted(d for d in dirs if d not in ("out", "target"))
        for name in sorted(names):
            if name.endswith(endings):
                yield os.path.join(folder, name)


def read(path):
    with open(path, encoding="utf-8") as f:
        return f.read()


def write(path, text):
    if read(path) != text:
        with open(path, "w", encoding="utf-8") as f:
            f.write(text)


def snake(name):
    if name in TYPES:
        return TYPES[name]
    if name in SPECIAL:
        return SPECIAL[name]
    return re.sub(r"([a-z0-9])([A-Z])", lambda m: m.group(1) + "_" + m.group(2).lower(), name)


def declared():
    found = set()
    for path in files(".antt"):
        for line in read(path).split("\n"):
            if line.strip().startswith("--"):
                continue
            m = DECLARED.match(line)
            if m:
                for name in m.group(2).split():
                    if CAMEL.match(name):
                        found.add(name)
    return found


PART = r"[\w'₀-₉-]"


def renamer(names):
    table = {n: snake(n) for n in names if snake(n) != n}
    table.update(TYPES)
    pattern = re.compile(r"(?<!" + PART + r")(" + "|".join(re.escape(n) for n in sorted(table, key=len, reverse=True)) + r")(?!" + PART + r")")
    return table, lambda text: pattern.sub(lambda m: table[m.group(1)], text)


# ---- what is lent
SIGNATURE = re.compile(r"^(\s*)(?:pub )?(?:unsafe )?(?:extern \"C\" )?fn \w+")


def lent(text):
    """`before x` and `after x` of a function's clauses, by the type of its parameter x."""
    out = []
    lines = text.split("\n")
    k = 0
    kinds = {}
    while k < len(lines):
        line = lines[k]
        if SIGNATURE.match(line):
            # the parameters, up to the closing bracket
            depth, whole, j = 0, "", k
            while True:
                whole += lines[j] + "\n"
                depth += lines[j].count("(") - lines[j].count(")")
                if depth == 0 and "(" in whole:
                    break
                j += 1
            kinds = {}
            for m in re.finditer(r"(\w+)\s*:\s*(&(?:'\w+ )?(?:mut )?)", whole):
                kinds[m.group(1)] = "mut" if "mut" in m.group(2) else "shared"

        def one(m):
            word, name = m.group("word"), m.group("name")
            kind = kinds.get(name)
            if kind is None:
                return m.group(0)
            end = "new" if word == "after" and kind == "mut" else "old" if kind == "mut" else "now"
            return f"{name}.{end}"

        clause = re.match(r"\s*(requires|ensures)\b", line) or (out and in_clause)
        if re.match(r"\s*(requires|ensures)\b", line):
            in_clause = True
        elif re.match(r"^\s*\{\s*$", line) or re.match(r"^[^\s]", line):
            in_clause = False
        if clause and not line.strip().startswith("//"):
            line = re.sub(r"\((?P<word>before|after) (?P<name>\w+)\)", one, line)
            line = re.sub(r"\b(?P<word>before|after) (?P<name>\w+)\b", one, line)
        out.append(line)
        k += 1
    text = "\n".join(out)
    # what is no longer named leaves the imports
    def used(m):
        names = [n.strip() for n in m.group(2).split(",")]
        keep = [n for n in names if n not in ("before", "after")]
        return f"{m.group(1)}{{{', '.join(keep)}}};" if keep else ""
    text = re.sub(r"(ghost use Rattle\.subsumption\.specs\.Lent\.)\{([^}]*)\};", used, text)
    return re.sub(r"\n\n\n+", "\n\n", text)


LENT = """-- The tables that an operation is lent, as its contract reads them: as one.
use Rattle.std.specs.Prelude.{ℕ, List}
use Rattle.std.specs.Borrow.{Bor}
use denote.Triple.Both.{Both}
use Rattle.subsumption.specs.Tables.{Tables, tables}

-- A slice of numbers, at the call and at the return.
abbrev pub Slices : Type 0
Slices = Both (Bor (List ℕ)) (Bor (List ℕ))

-- The tables that an operation is lent, as they were at the call.
abbrev pub lent : Slices → Slices → Slices → Slices → ℕ → Tables
lent concepts inclusions questions roles variables =
    tables concepts.entry.now inclusions.entry.now questions.entry.now roles.entry.now variables
"""


def main():
    names = declared()
    table, rename = renamer(names)
    news = {}
    for old, new in table.items():
        news.setdefault(new, []).append(old)
    bad = [f"{new}: {olds}" for new, olds in news.items() if len(olds) > 1]
    taken = set()
    for path in files(".antt"):
        for word in re.findall(PART + "+", read(path)):
            if word in news:
                taken.add((word, os.path.relpath(path, CRATES)))
    for line in bad:
        print("falls together:", line)
    for word, path in sorted(taken):
        print("stands already:", word, path)
    if "--dry" in sys.argv:
        return
    for path in files(".antt"):
        write(path, rename(read(path)))
    for path in files(".rt"):
        write(path, lent(rename(read(path))))
    for path in files(".edit"):
        write(path, rename(read(path)))
    write(os.path.join(CRATES, "subsumption/specs/Lent.antt"), LENT)
    path = os.path.join(CRATES, "settings/specs/Settings.antt")
    text = read(path)
    text = text.replace("settings (before permitted) (before largest)", "settings permitted.entry.now largest.entry.now")
    text = re.sub(r"(use Rattle\.subsumption\.specs\.Lent\.)\{[^}]*\}", r"\1{Slices}", text)
    write(path, text)


main()
