#!/usr/bin/env python3
"""Turns the Proof.antt files of a crate into Invariants.antt and Answers.antt, by the names that `rt check --generated DIR --old-names` lists.

usage: answers.py CRATE NAMES.json [FUNCTION..]

Answers that only say to search are left out: the check searches by itself. What it can't place it leaves as it was and prints.
"""
import json
import os
import re
import sys

PART = r"[\w'₀-₉-]"
PURE = re.compile(r"^\(?\s*(search rules|search \(rules, tests\)|omega arith|tt|cc|refl|search arith|search \(rules\)|omega \(arith\))\s*\)?$")


def norm(name):
    name = name.replace("_", "-")
    for word in ("overflow-",):
        if name.startswith(word):
            name = name[len(word):]
    return name


def blocks(text):
    """The top-level declarations: (kind, name, lines)."""
    found = []
    lines = text.rstrip("\n").split("\n")
    k = 0
    pending = []
    while k < len(lines):
        line = lines[k]
        if not line.strip():
            k += 1
            continue
        if line.startswith("--"):
            pending.append(line)
            k += 1
            continue
        if line.startswith(("use ", "pub use ")):
            found.append(("use", None, [line]))
            k += 1
            continue
        j = k + 1
        while j < len(lines) and (not lines[j].strip() or lines[j][0] in " \t)"):
            j += 1
        chunk = lines[k:j]
        while chunk and not chunk[-1].strip():
            chunk.pop()
        found.append(["line", None, pending + chunk])
        pending = []
        k = j
    # a signature, its unfolding line and its equations stand together
    out = []
    for it in found:
        if it[0] == "use":
            out.append({"kind": "use", "lines": it[2]})
            continue
        head = [l for l in it[2] if not l.startswith("--")][0]
        m = re.match(r"^((?:abbrev |unfoldable |pub |opaque )*)([^\s:=()]+)((?:\s+[^\s:=()]+)*)\s*:\s", head + " ")
        if head.startswith("module ") or head.startswith("pub record") or head.startswith("record") or head.startswith("data"):
            out.append({"kind": "other", "name": None, "lines": it[2]})
        elif m and not head.startswith("unfolding"):
            out.append({"kind": "decl", "name": m.group(2), "sig": it[2], "body": [], "unfolding": [], "mods": m.group(1)})
        elif head.startswith("unfolding"):
            out[-1]["unfolding"] += it[2]
        elif out and out[-1]["kind"] == "decl":
            out[-1]["body"] += it[2]
        else:
            out.append({"kind": "other", "name": None, "lines": it[2]})
    return out


def spec_args(text):
    """The arguments of tie.spec in a text."""
    at = text.find("tie.spec")
    if at < 0:
        return None
    depth = 0
    i = at + len("tie.spec")
    args, cur = [], ""
    while i < len(text):
        c = text[i]
        if c in "([{":
            depth += 1
            cur += c
        elif c in ")]}":
            if depth == 0:
                break
            depth -= 1
            cur += c
        elif c.isspace() and depth == 0:
            if cur.strip():
                args.append(cur.strip())
            cur = ""
        else:
            cur += c
        i += 1
    if cur.strip():
        args.append(cur.strip())
    return args


def strip_parens(text):
    text = text.strip()
    while text.startswith("(") and text.endswith(")"):
        depth = 0
        for k, c in enumerate(text):
            depth += c in "([{"
            depth -= c in ")]}"
            if depth == 0 and k < len(text) - 1:
                return text
        text = text[1:-1].strip()
    return text


def split_tuple(text):
    """The parts of a tuple in brackets, or None."""
    text = text.strip()
    if not (text.startswith("(") and text.endswith(")")):
        return None
    depth = 0
    parts, cur = [], ""
    for k, c in enumerate(text):
        if c in "([{":
            depth += 1
            if depth == 1:
                continue
        elif c in ")]}":
            depth -= 1
            if depth == 0:
                if k != len(text) - 1:
                    return None
                break
        elif c == "," and depth == 1:
            parts.append(cur.strip())
            cur = ""
            continue
        cur += c
    if cur.strip():
        parts.append(cur.strip())
    return parts if len(parts) > 1 else None


class Fn:
    def __init__(self, names, own):
        self.n = names
        self.own = own
        self.cycle = False
        self.index = {p[0]: k for k, p in enumerate(names["places"])}
        self.notes = []

    def chain(self, place):
        out = []
        while place is not None:
            out.append(place)
            place = self.n["places"][self.index[place]][1]
        return out

    def path(self, place, ups, fields):
        """The new path of c.before^ups.fields read at that place; the number of fields that it covers."""
        chain = self.chain(place)
        if fields[0].endswith(("_lem", "-lem")):
            fields = [fields[0][:-4]] + fields[1:]
        head = fields[0]
        if head == "args":
            return "c.args", 1
        if head == "requires" and self.cycle:
            if len(fields) > 1 and fields[1] == "0":
                return "c.decreases", 2
            if len(fields) > 1 and fields[1] == "1":
                got, used = self.of_requires(["requires"] + fields[2:])
                return got, used + 1 if got else 0
            self.notes.append("cycle requires " + ".".join(fields))
            return None, 0
        if head == "requires":
            return self.of_requires(fields)
        if head == "ranges":
            return "c.ranges", 1
        if head in ("well-formed", "well_formed"):
            return "c.well_formed", 1
        if head == "type-inv":
            return "c.type_inv", 1
        return self.of_step(place, ups, fields, chain)

    def of_requires(self, fields):
            pre = self.n["pre"]
            if not pre or len(fields) == 1:
                return "c.requires", 1
            names = pre["fields"]
            k, used = 0, 1
            while k < len(names) - 1 and used < len(fields) and fields[used] == "1":
                k += 1
                used += 1
            if k < len(names) - 1:
                if used < len(fields) and fields[used] == "0":
                    used += 1
                else:
                    self.notes.append("requires " + ".".join(fields))
                    return None, 0
            return f"c.requires.{names[k]}", used

    def of_step(self, place, ups, fields, chain):
        head = fields[0]
        want = norm(head)
        order = []
        if ups < len(chain):
            order.append(chain[ups])
        order += [p for p in chain if p not in order]
        for p in order:
            k = self.index[p]
            old, new = self.n["places"][k][2]
            if norm(old) != want:
                continue
            # what a type says of a variable
            if len(fields) > 1 and fields[1] == "given" and "known" in old and "enum" not in old:
                for at in (place, p):
                    for var, label in self.n["typed"][self.index[at]]:
                        if norm(label) == want:
                            return f"c.type_inv.{var}", 2
            return self.arm(place, p, k, old, new, fields)
        # facts of an arm by their old place
        for p in chain:
            arm = self.n["arms"][self.index[p]]
            if arm:
                got = self.by_arm(arm, fields)
                if got:
                    return got
        if ups < len(chain):
            k = self.index[chain[ups]]
            old, new = self.n["places"][k][2]
            if self.n["places"][k][3]:
                self.notes.append("step " + ".".join(fields) + " taken for " + new)
                return self.arm(place, chain[ups], k, old, new, fields)
        self.notes.append("no step " + ".".join(fields))
        return None, 0

    def by_arm(self, arm, fields):
        for new, label, path in arm[2]:
            full = [norm(label)] + path
            if [norm(fields[0])] + fields[1:len(full)] == full:
                return f"c.{arm[0]}.{new}", len(full)
        return None

    def arm(self, place, p, k, old, new, fields):
        for q in self.chain(place):
            arm = self.n["arms"][self.index[q]]
            if arm:
                got = self.by_arm(arm, fields)
                if got:
                    return got
            if q == p:
                break
        names = self.n["clauses"][k] if "clauses" in self.n else None
        used = 1
        path = f"c.{new}"
        callee = self.n["places"][k][3]
        if len(fields) > 2 and fields[1] == "new" and callee in self.n["params"] and fields[2] in "01":
            j = 2
            while j < len(fields) and fields[j] == "1":
                j += 1
            at = j - 2
            if j < len(fields) and fields[j] == "0":
                j += 1
            given = self.n["params"][callee]
            if at < len(given):
                return f"{path}.new.{given[at]}", j
        if len(fields) > 1 and fields[1] == "ensures" and names:
            cl = names["fields"]
            j, used = 0, 2
            while j < len(cl) - 1 and used < len(fields) and fields[used] == "1":
                j += 1
                used += 1
            if j < len(cl) - 1:
                if used < len(fields) and fields[used] == "0":
                    used += 1
                else:
                    if j == 0:
                        return f"{path}.ensures", 2
                    self.notes.append("ensures " + ".".join(fields))
                    return None, 0
            return f"{path}.ensures.{cl[j]}", used
        return path, used

    def body(self, text, place):
        def one(m):
            ups = m.group(1).count(".before")
            fields = m.group(2).strip(".").split(".")
            got, used = self.path(place, ups, fields)
            if got is None:
                return m.group(0)
            rest = fields[used:]
            return got + "".join("." + r for r in rest)

        return re.sub(r"(?<![\w.'-])c((?:\.before)*)((?:\.[\w'₀-₉-]+)+)", one, text)

    def goal(self, old):
        for k, (o, new) in enumerate(self.n["needs"]):
            if norm(o) == norm(old):
                return k
        return None


def invariant(fn, loop, args, body, param="l"):
    """The text of an invariant or a measure as a function of l."""
    label, names = None, None
    for k, (labels, vs) in enumerate(fn.n["loops"]):
        if norm(labels[0]) == norm(loop):
            label, names, changed = labels[1], vs, fn.n["changed"][k]
    if label is None:
        return None
    want = len(names) + sum(1 for c in changed if c)
    if len(args) != want:
        fn.notes.append(f"loop {loop}: {len(args)} arguments, {want} wanted: {args} {names} {changed}")
        return None
    table = {}
    for k, v in enumerate(names):
        table[args[k]] = f"{param}.initial.{v}" if changed[k] else f"{param}.{v}"
    k = len(names)
    for v, c in zip(names, changed):
        if c:
            table[args[k]] = f"{param}.{v}"
            k += 1
    table.pop("_", None)

    def one(m):
        word = m.group(0)
        return table.get(word, word)

    new = re.sub(r"(?<![\w.'-])[^\W\d][\w'₀-₉]*(?:-[\w'₀-₉]+)*(?![\w'-])", one, body)
    return label, new


def as_record(fn, new, b, asked):
    """A tuple of clauses as a record with their names."""
    lead, parts = "", split_tuple(b)
    if not parts:
        m = re.match(r"^((?:let\b|subst\b|rw\b).*\sin\s*)(\(.*\))\s*$", b.strip(), re.S)
        if m and split_tuple(m.group(2)):
            lead, parts = m.group(1).rstrip() + " ", split_tuple(m.group(2))
    if parts:
        while len(parts) < len(asked) and split_tuple(parts[-1]):
            parts = parts[:-1] + split_tuple(parts[-1])
        if len(parts) > len(asked):
            parts = parts[:len(asked) - 1] + ["(" + ", ".join(parts[len(asked) - 1:]) + ")"]
        if len(parts) == len(asked):
            return lead + "record { " + "; ".join(f"{f} = {v}" for f, v in zip(asked, parts)) + " }"
        fn.notes.append(f"{new}: {len(parts)} parts for {asked}")
        return b
    if re.match(r"^(search|grind|elim|omega|absurd|let)\b", b.strip()):
        fn.notes.append(f"{new}: whole for {asked}")
        return b
    return f"let all = {b.strip()} in record {{ " + "; ".join(f"{f} = all.{i}" for i, f in enumerate(asked)) + " }"


def turn_cycle(crate, names, folder, path):
    text = open(os.path.join(folder, "Proof.antt"), encoding="utf-8").read()
    keys = {k.split(".Lts-")[1]: k for k in names if k.startswith(f"Rattle-{crate}-proofs.{path}.Lts-")}
    many = len(keys) > 1
    uses, decls = [], {}
    for it in blocks(text):
        if it["kind"] == "use":
            line = it["lines"][0]
            if re.search(r"\.(Tie|Lts-\w+|Kinds|Reads)\b", line) or ".{statement}" in line or "borrow.Fn." in line:
                continue
            uses.append(line)
        elif it["kind"] == "decl":
            decls[it["name"]] = "\n".join(it["body"])
            if it["unfolding"]:
                print(path, it["name"], "unfolds")
    whole = next(v for k, v in decls.items() if k.endswith("-spec"))
    invs, answers = [], []
    pre = {f: (names[k]["pre"] or {}).get("fields") for f, k in keys.items()}
    for f, key in keys.items():
        n = names[key]
        n.setdefault("clauses", [None] * len(n["places"]))
        n.setdefault("arms", [None] * len(n["places"]))
        fn = Fn(n, path)
        fn.cycle = True
        dash = f.replace("_", "-")
        at = whole.index(f"{dash}-lts.spec")
        args = spec_args("tie.spec" + whole[at + len(f"{dash}-lts.spec"):])
        if args[0].startswith("(") and "-lts" not in args[0]:
            pass
        k = next(i for i, a in enumerate(args) if a.endswith(".Post"))
        rest = args[k + 1:]
        loops = n["loops"]
        names_of_loops = rest[:2 * len(loops)]
        rest = rest[2 * len(loops):2 * len(loops) + len(n["needs"])]
        prefix = f"{f}-" if many else ""
        mu = decls.get(f"μ-{dash}")
        invs.append(f"abbrev pub decreases-{f} : goal.decreases-{f}\ndecreases-{f} l = {mu.split('=', 1)[1].strip()}")
        for name in names_of_loops:
            body = decls[name]
            eq = re.match(r"^(\S+)((?:\s+[^\s=]+)*)\s*=\s*", body)
            which = "decreases" if "-μ-" in name else "invariant"
            got = invariant(fn, name.split("-")[-1], eq.group(2).split(), body[eq.end():])
            label = f"{which}-{prefix}{got[0]}"
            invs.append(f"abbrev pub {label} : goal.{label}\n{label} l =\n    {got[1].strip()}")
        for (old, new), arg, places in zip(n["needs"], rest, n["asked_at"]):
            inner = strip_parens(arg)
            if inner.endswith(" t") and inner[:-2] in decls:
                body = decls[inner[:-2]]
                eq = re.match(r"^(\S+)((?:\s+[^\s=]+)*)\s*=\s*", body)
                body = body[eq.end():]
            else:
                m = re.match(r"^λ\s+([^.]*?)\.\s+", inner + " ")
                body = inner[m.end():]
            if PURE.match(body.strip()):
                continue
            b = fn.body(body, places[0])
            b = re.sub(r"not-(?:true|false) _ c(\.if-not[\w.-]*)", r"c@\1", b)
            b = re.sub(r"(?<![\w.'-])(c\.if-not[\w-]*\.(?:true|false))(?![\w'-])", r"(ap not \1)", b)
            b = b.replace("c@.", "c.")
            base = re.sub(r"-\d+$", "", old)
            asked = None
            for a, v in (n.get("asked") or {}).items():
                if norm(a) == norm(old) or (norm(a) == norm(base) and not a.startswith("returns")):
                    asked = v
            parts = split_tuple(b)
            own = next((g for g in keys if norm(base) == norm(f"{g}-requires")), None)
            if not own and asked and len(asked) > 1:
                b = as_record(fn, new, b, asked)
            answers.append(f"pub {prefix}{new} : goal.{prefix}{new}\n{prefix}{new} t c =\n    {b.strip()}")
        if fn.notes:
            print(path, f, fn.notes)
    here = f"Rattle.{crate}.proofs.{path}"
    os.remove(os.path.join(folder, "Proof.antt"))
    with open(os.path.join(folder, "Invariants.antt"), "w", encoding="utf-8") as out:
        out.write("\n".join(uses + [f"use {here}.Given as goal"]) + "\n\n" + "\n\n".join(invs) + "\n")
    with open(os.path.join(folder, "Answers.antt"), "w", encoding="utf-8") as out:
        out.write("\n".join(uses + [f"use {here}.Goals as goal"]) + "\n\n" + "\n\n".join(answers) + "\n")


def turn(crate, names, only):
    root = f"crates/{crate}/proofs"
    for folder, dirs, files in sorted(os.walk(root)):
        if "Proof.antt" not in files:
            continue
        path = os.path.relpath(folder, root).replace("/", ".")
        if only and not any(path == o or path.endswith("." + o) for o in only):
            continue
        if path.split(".")[-1].startswith("+"):
            turn_cycle(crate, names, folder, path)
            continue
        key = f"Rattle-{crate}-proofs.{path}.Lts"
        if key not in names:
            print(f"{path}: no names")
            continue
        n = names[key]
        n.setdefault("clauses", [None] * len(n["places"]))
        n.setdefault("arms", [None] * len(n["places"]))
        fn = Fn(n, path)
        text = open(os.path.join(folder, "Proof.antt"), encoding="utf-8").read()
        uses, helpers, invs, answers, spec = [], [], [], {}, None
        named = {}
        bad = False
        for it in blocks(text):
            if it["kind"] == "use":
                line = it["lines"][0]
                if ".Statement.{statement}" in line or re.search(r"\.Tie as tie$", line) or re.search(r"\.Reads as ", line) or ".Statement" in line or ".Met" in line:
                    continue
                uses.append(line)
                continue
            if it["kind"] == "other":
                helpers.append("\n".join(it["lines"]))
                continue
            sig = " ".join(l.strip() for l in it["sig"] if not l.startswith("--"))
            m = re.search(r":\s*tie\.(Need-)?([\w'-]+)", sig)
            whole = "\n".join(it["body"])
            if "tie.spec" in whole:
                spec = spec_args(whole)
                continue
            if m and m.group(1):
                named[it["name"]] = (m.group(2), it)
                continue
            if m:
                kind = m.group(2)
                eq = re.match(r"^(\S+)((?:\s+[^\s=]+)*)\s*=\s*", whole)
                if not eq:
                    print(path, 'no equation', whole[:300])
                    bad = True
                    continue
                args = eq.group(2).split()
                body = whole[eq.end():]
                which = "invariant" if kind.startswith("invariant") else "decreases"
                loop = kind[len(which) + 1:]
                got = invariant(fn, loop, args, body)
                if got is None:
                    bad = True
                    continue
                comments = [l for l in it["sig"] if l.startswith("--")]
                unf = [u for u in it["unfolding"]]
                if unf:
                    fn.notes.append("invariant unfolds")
                label = f"{which}-{got[0]}"
                param = "l"
                if re.search(r"(?<![\w.'-])l(?![\w'-])", body):
                    param = "live"
                    got = (got[0], invariant(fn, loop, args, body, "live")[1])
                sep = "\n    " if "\n" in got[1] and not got[1].startswith("\n") else " "
                invs.append("\n".join(comments + [f"abbrev pub {label} : goal.{label}", f"{label} {param} ={sep}{got[1].strip()}" if sep == " " else f"{label} {param} =\n    {got[1].strip()}"]))
                continue
            lines = it["sig"] + it["unfolding"] + it["body"]
            helpers.append("\n".join(lines))

        def put(k, unfolding, params, body, comments=()):
            old, new = n["needs"][k]
            place = n["asked_at"][k][0]
            body = strip_parens(body) if PURE.match(body.strip()) else body
            body = re.sub(r",\s*c(?:\.before)*\.[\w'-]+\.auto(?:\.\d+)+(?=\s*[,)])", "", body)
            if PURE.match(body.strip()) and not unfolding:
                return
            asked = n.get("asked", {}).get(new) or n.get("asked", {}).get(re.sub(r"-\d+$", "", old)) or n.get("asked", {}).get(old)
            if asked is None:
                for a, b in (n.get("asked") or {}).items():
                    if norm(a) == norm(re.sub(r"-\d+$", "", old)):
                        asked = b
            b = fn.body(body, place)
            b = re.sub(r"not-(?:true|false) _ c(\.if-not[\w.-]*)", r"c@\1", b)
            b = re.sub(r"(?<![\w.'-])(c\.if-not[\w-]*\.(?:true|false))(?![\w'-])", r"(ap not \1)", b)
            b = b.replace("c@.", "c.")
            if asked and re.match(r"^(c\.[\w.-]+)$", b.strip()) and ".before" not in body:
                return
            if re.match(r"^(c\.[\w-]*requires|c\.requires|c\.[\w-]+\.ensures)$", b.strip()) and asked:
                return
            if asked and len(asked) > 1:
                b = as_record(fn, new, b, asked)
            lines = list(comments) + [f"pub {new} : goal.{new}"] + list(unfolding)
            lines.append(f"{new} {params} =" + (" " if "\n" not in b else "\n    ") + b.strip())
            answers[k] = "\n".join(lines)

        def put_named(k, name):
            old, it = named[name]
            whole = "\n".join(it["body"])
            eq = re.match(r"^(\S+)((?:\s+[^\s=]+)*)\s*=\s*", whole)
            if not eq:
                fn.notes.append(f"{name}: no equation")
                return
            params = [p for p in eq.group(2).split() if not p.startswith("κs")]
            comments = [l for l in it["sig"] if l.startswith("--")]
            put(k, it["unfolding"], " ".join(params), whole[eq.end():], comments)

        loops = len(n["loops"])
        done = set()
        if spec is not None and len(spec) == 2 * loops + len(n["needs"]):
            for k, arg in enumerate(spec[2 * loops:]):
                if arg in named:
                    put_named(k, arg)
                    done.add(arg)
                elif arg.startswith("("):
                    inner = strip_parens(arg)
                    m = re.match(r"^λ\s+([^.]*?)\.\s+", inner + " ")
                    if m:
                        params = [p for p in m.group(1).split() if not p.startswith("κs")]
                        put(k, [], " ".join(params), inner[m.end():])
                    else:
                        fn.notes.append("argument " + arg[:60])
                else:
                    fn.notes.append("argument " + arg[:60])
        else:
            fn.notes.append(f"spec has {len(spec) if spec else None} arguments, {2 * loops + len(n['needs'])} wanted")
        for name, (old, it) in named.items():
            if name in done:
                continue
            k = fn.goal(old)
            if k is None:
                if not any(norm(old) == norm(s) for s in n["settled"]) and not norm(old).startswith(("enum-known", "enum-told", "nonzero")):
                    fn.notes.append(f"no goal {old}")
                continue
            put_named(k, name)
        if bad:
            print(f"{path}: NOT TURNED: {fn.notes}")
            continue
        prefix = f"Rattle.{crate}.proofs.{path}"
        os.remove(os.path.join(folder, "Proof.antt"))
        if invs:
            with open(os.path.join(folder, "Invariants.antt"), "w", encoding="utf-8") as f:
                f.write("\n".join(uses + [f"use {prefix}.Given as goal"]) + "\n\n" + "\n\n".join(invs) + "\n")
        if answers:
            with open(os.path.join(folder, "Answers.antt"), "w", encoding="utf-8") as f:
                f.write("\n".join(uses + [f"use {prefix}.Goals as goal"]) + "\n\n" + "\n\n".join(helpers + [answers[k] for k in sorted(answers)]) + "\n")
        elif helpers:
            fn.notes.append("helpers without answers")
        if fn.notes:
            print(f"{path}: {fn.notes}")


def main():
    crate, names = sys.argv[1], json.load(open(sys.argv[2]))
    turn(crate, names, sys.argv[3:])


main()
