#!/usr/bin/env python3
"""Turns the proofs of functions, proofs/F/Proof.antt, to Invariants.antt and Answers.antt, by the names that Rattle gives.

usage: tools/answers.py CRATE_FOLDER NAMES.json [--check]

NAMES.json is what `rt check --generated DIR --old-names` writes in the crate's folder. A goal that was answered by
`search rules` alone gets no answer: the check tries that by itself. What it cannot turn it leaves, and says so.
"""

import glob
import json
import os
import re
import sys

NAME = r"[^\s(){}.;,@\"]+"
TOKEN = re.compile(r'"(?:\\.|[^"\\])*"|«[^»]*»|[^\s(){}.;,@"«»]+|.|\n', re.S)
TRIVIAL = {"search rules", "tt"}


CLAUSES, REQUIRES = {}, {}


def norm(label):
    label = re.sub(r"_lem$", "", label)
    return re.sub(r"[-_]", "", label).lower()


def norm_goal(label):
    label = label.replace("_", "-")
    label = re.sub(r"^(overflow|nonzero|slice-bounds|offset-bounds|bounds)-", "", label)
    return re.sub(r"-", "", label)


def blocks(text):
    """Top-level blocks: comments and uses, then each declaration with its clauses."""
    head, decls, cur = [], [], None
    comment = []
    for line in text.split("\n"):
        if line.startswith("use ") or line.startswith("--"):
            if line.startswith("--") and decls or cur:
                comment.append(line)
                if cur:
                    decls.append(cur)
                    cur = None
            else:
                head.append(line)
            continue
        m = re.match(rf"((?:pub |abbrev |unfoldable )*)({NAME})(?: \{{[^}}]*\}})* :(?: |$)(.*)", line)
        if m and not line.startswith(" "):
            if cur:
                decls.append(cur)
            cur = {"marks": m[1], "name": m[2], "lines": [line], "comment": comment}
            comment = []
        elif cur is not None:
            cur["lines"].append(line)
        elif line.strip():
            raise ValueError("stray line: " + line)
    if cur:
        decls.append(cur)
    for d in decls:
        while d["lines"] and not d["lines"][-1].strip():
            d["lines"].pop()
    return head, decls


def split_args(text):
    out, depth, cur = [], 0, ""
    for ch in text.strip():
        if ch.isspace() and depth == 0:
            if cur:
                out.append(cur)
            cur = ""
            continue
        depth += ch in "([{"
        depth -= ch in ")]}"
        cur += ch
    if cur:
        out.append(cur)
    return out


def spec_args(decl):
    text = "\n".join(decl["lines"][1:])
    i = text.find("tie.spec")
    if i < 0:
        return None
    rest = text[i + len("tie.spec") :].rstrip()
    if text[:i].rstrip().endswith("("):
        rest = rest[: rest.rindex(")")]
    return split_args(rest)


CLAUSE = re.compile(r"^ *(requires|ensures) (?:(\w+) )?\{", re.M)
FN = re.compile(r"^( *)(?:pub )?(?:extern \"C\" )?fn (\w+)", re.M)


def clauses_of(top):
    """For each function of src/, by its path, the names of its clauses, where it has two or more of a kind."""
    found = {}
    for path in glob.glob(os.path.join(top, "*/src/**/*.rt"), recursive=True):
        crate, inner = os.path.relpath(path, top).split("/src/")
        steps = [crate] + [it for it in inner[:-3].split("/") if it not in ("lib", "main", "mod")]
        text = open(path, encoding="utf-8").read()
        starts = list(FN.finditer(text))
        for m, n in zip(starts, starts[1:] + [None]):
            part = text[m.end() : n.start() if n else len(text)]
            kinds = {"requires": [], "ensures": []}
            for kind, name in CLAUSE.findall(part):
                kinds[kind].append(name)
            found["::".join(steps + [m[2]])] = {k: v for k, v in kinds.items() if len(v) > 1}
    return found


class Function:
    def __init__(self, row, path):
        self.path = path
        self.places = {}
        for (name, parent, (old, new), callee, _), arm in zip(row["places"], row["arms"]):
            self.places[name] = (parent, old, new, callee, arm)
        self.loops = [(old, new, variables) for (old, new), variables in row["loops"]]
        self.changed = row["changed"]
        self.goals = {}
        self.at = {}
        for (old, new), (place, _) in zip(row["needs"], row["asked_at"]):
            self.goals.setdefault(norm_goal(old), new)
            self.at[new] = place
        for _, new in row["needs"]:
            self.goals.setdefault(norm_goal(new), new)
        self.order = [new for _, new in row["needs"]]
        self.needs = row["needs"]
        self.settled = {norm_goal(it) for it in row["settled"]}
        self.args = {}
        for old, new in row["args"]:
            if old.startswith(".args ."):
                self.args[old[7:]] = new[7:]

    def labels(self, place):
        """The labels that can be named at a place, the nearest first."""
        found = {}
        while place:
            parent, old, new, callee, arm = self.places[place]
            if old:
                found.setdefault(norm(old), (new, callee, arm))
            place = parent
        return found


def by_names(names, text):
    """.1.0 of three clauses is the second."""
    parts = text.split(".")
    k = 0
    while parts and parts[0] in ("0", "1"):
        if len(names) - k < 2:
            break
        step = int(parts.pop(0))
        k += step
        if step == 0 or len(names) - k == 1:
            return ".".join([names[k]] + parts)
    return None


FIELD = re.compile(r"(?:\.(?:0|1))+")


def paths(body, fn, said, place):
    """Drops .before, and respells the labels behind c and behind each name that is let to stand for a place."""
    labels = fn.labels(place) if place else {}
    if not place:
        for name in fn.places:
            labels = {**fn.labels(name), **labels}
    places, lets = {"c"}, {}
    own = CLAUSES.get(fn.path, {})
    words = TOKEN.findall(body)
    out, i = [], 0

    def ahead(j):
        """The fields behind the word j."""
        fields = []
        while j + 2 < len(words) and words[j + 1] == ".":
            fields.append(words[j + 2])
            j += 2
        return fields, j

    def clause_fields(names, fields):
        if not names or not fields or fields[0] not in ("0", "1"):
            return fields
        got = by_names(names, ".".join(fields))
        return got.split(".") if got else fields

    while i < len(words):
        word = words[i]
        if word.startswith("«") or (i and words[i - 1] == "."):
            out.append(word[:-4] if i and words[i - 1] == "." and word.endswith("_lem") else word)
            i += 1
            continue
        named = None
        fields, end = ahead(i)
        if word in places:
            while fields and fields[0] == "before":
                fields.pop(0)
            kind = "place"
            if fields:
                label = fields.pop(0)
                if label == "requires":
                    fields = ["requires"] + clause_fields(own.get("requires"), fields)
                    kind = ("names", own.get("requires")) if fields == ["requires"] else None
                elif label == "args":
                    if fields:
                        name = re.sub(r"_lem$", "", fields[0])
                        fields[0] = fn.args.get(name, name)
                    kind = "args" if not fields else None
                    fields = ["args"] + fields
                elif norm(label) in labels:
                    new, callee, arm = labels[norm(label)]
                    names = CLAUSES.get(callee, {}).get("ensures") if callee else None
                    done = False
                    if label == "match" and arm and fields:
                        for field, old, olds in arm[2]:
                            if old == "match" and fields[0] in olds:
                                fields = [arm[0], field] + fields[1:]
                                done = True
                                break
                            if old == "match" and not olds:
                                fields = [arm[0], field] + fields
                                done = True
                                break
                    if not done:
                        if fields and fields[0] == "ensures":
                            rest = clause_fields(names, fields[1:])
                            kind = ("names", names) if not rest else None
                            fields = [new, "ensures"] + rest
                        elif fields:
                            kind = None
                            fields = [new] + fields
                        else:
                            kind = ("call", names)
                            fields = [new]
                else:
                    label = label.replace("-", "_") if norm(label) in ("typeinv", "wellformed") else label
                    if label not in ("lifetimes", "ranges", "well_formed", "type_inv"):
                        said.append(f"label {label}")
                    fields = [label] + fields
                    kind = None
            named = kind
        elif word in lets:
            kind = lets[word]
            if kind == "args" and fields:
                name = re.sub(r"_lem$", "", fields[0])
                fields[0] = fn.args.get(name, name)
                named = None
            elif isinstance(kind, tuple) and kind[0] == "call" and fields and fields[0] == "ensures":
                fields = ["ensures"] + clause_fields(kind[1], fields[1:])
                named = ("names", kind[1]) if fields == ["ensures"] else None
            elif isinstance(kind, tuple) and kind[0] == "names":
                fields = clause_fields(kind[1], fields)
                named = kind if not fields else None
            else:
                named = kind if not fields else None
        else:
            out.append(word)
            i += 1
            continue
        # is it `let V = this in`?
        m = re.search(rf"let ({NAME}) = $", "".join(out[-6:]))
        if m and named and re.match(r"\s+in\b", "".join(words[end + 1 : end + 4])):
            if named == "place":
                places.add(m[1])
            else:
                lets[m[1]] = named
        fields = [it[:-4] if it.endswith("_lem") else it for it in fields]
        out.append(".".join([word] + fields))
        i = end + 1
    return "".join(out)


def parts_of(text):
    """The parts of a tuple, or None."""
    text = text.strip()
    if not text.startswith("("):
        return None
    depth, out, cur = 0, [], ""
    for k, ch in enumerate(text):
        depth += ch in "([{"
        depth -= ch in ")]}"
        if depth == 0 and k < len(text) - 1:
            return None
        if ch == "," and depth == 1:
            out.append(cur)
            cur = ""
        elif k not in (0, len(text) - 1):
            cur += ch
    out.append(cur)
    out = [it for it in out if it.strip()]
    return out if len(out) > 1 else None


def last_expression(body):
    """Where the body's last expression begins: behind its last `in` outside brackets."""
    depth, at = 0, 0
    for m in re.finditer(r"[()\[\]{}]|(?<![\w'-])in(?=\s)", body):
        if m[0] in "([{":
            depth += 1
        elif m[0] in ")]}":
            depth -= 1
        elif depth == 0:
            at = m.end()
    return at


def as_record(body, names):
    at = last_expression(body)
    text = body[at:]
    m = re.match(r"\s*(?:rw|simp) ", text)
    if m and text.rstrip().endswith(")"):
        # rw L (a, b): its last argument is the tuple
        end, depth = len(text.rstrip()) - 1, 0
        for k in range(end, -1, -1):
            depth += text[k] in ")]}"
            depth -= text[k] in "([{"
            if depth == 0:
                break
        if k > m.end() and parts_of(text[k : end + 1]):
            inner = as_record(text[k : end + 1], names)
            return body[:at] + text[:k] + "(" + inner.strip() + ")"
    parts, k = [], text
    while len(parts) < len(names) - 1:
        two = parts_of(k)
        if two is None:
            break
        if len(two) == len(names) - len(parts):
            parts += two
            k = None
            break
        parts.append(two[0])
        k = "(" + ",".join(two[1:]) + ")" if len(two) > 2 else two[1]
    if k is not None:
        if len(parts) == len(names) - 1:
            parts.append(k)
        elif not parts:
            if re.match(r"\s*(search|omega|rw|simp|cc|grind)\b", text):
                return body
            fields = [f"{n} = it{'.1' * min(j, len(names) - 2) + ('.0' if j < len(names) - 1 else '.1')}" for j, n in enumerate(names)]
            return f"{body[:at]} let it = {text.strip()} in record {{ {'; '.join(fields)} }}"
        else:
            return body
    fields = "; ".join(f"{n} = {p.strip()}" for n, p in zip(names, parts))
    return f"{body[:at]} record {{ {fields} }}"


def uses(head, *bodies):
    """The use lines, with the names that the bodies have."""
    have = set()
    for body in bodies:
        have.update(TOKEN.findall(body))
    out = []
    for line in head:
        m = re.match(r"use ([^\s{]+)\.\{(.*)\}$", line)
        if not m:
            m2 = re.match(r"use (\S+) as (\S+)$", line)
            if m2 and m2[2] in have and ".Tie" not in m2[1]:
                out.append(line)
            continue
        if m[1].endswith(".Statement") or m[1].endswith(".Tie"):
            continue
        names = []
        for it in m[2].split(", "):
            own = it.split(" as ")[-1]
            parts = [p for p in own.split("◌") if p]
            if own in have or ("◌" in own and all(p in have for p in parts)):
                names.append(it)
        if names:
            out.append(f"use {m[1]}.{{{', '.join(names)}}}")
    return out


def invariant(decl, fn, said):
    """An invariant or a measure of a loop: its variables are fields of l."""
    name = decl["name"]
    kind = "invariant" if name.startswith("invariant") else "decreases"
    loop = name.split("-", 1)[1]
    found = [(k, it) for k, it in enumerate(fn.loops) if norm(it[0]) == norm(loop)]
    if not found:
        said.append(f"no loop {loop}")
        return None
    k, (old, new, variables) = found[0]
    changed = fn.changed[k]
    text = "\n".join(decl["lines"][1:])
    m = re.search(rf"^{re.escape(name)} ([^=]*?) =", text, re.M)
    unfolding = text[: m.start()]
    params = m[1].split()
    body = text[m.end() :]
    firsts = params[: len(variables)]
    lasts = params[len(variables) :]
    table = {}
    whole = [v for v, c in zip(variables, changed) if c]
    if len(lasts) != len(whole):
        said.append(f"loop {loop}: {params} for {variables} {changed}")
        return None
    for v, c, p in zip(variables, changed, firsts):
        table[p] = f"l.initial.{v}" if c else f"l.{v}"
    for v, p in zip(whole, lasts):
        table[p] = f"l.{v}"
    words = TOKEN.findall(body)
    out = []
    for i, w in enumerate(words):
        out.append(table[w] if w in table and (i == 0 or words[i - 1] != ".") else w)
    new_name = f"{kind}-{new}"
    return f"abbrev pub {new_name} : goal.{new_name}\n{unfolding}{new_name} l ={''.join(out)}"


def clausal(text, goal, fn):
    """The text of an answer, as a record where its clauses have names."""
    names = None
    if goal.startswith("returns"):
        names = CLAUSES.get(fn.path, {}).get("ensures")
    elif "-requires" in goal:
        names = REQUIRES.get(goal.split("-")[0])
    if not names or not all(names):
        return text
    m = re.search(r" c =", text)
    return text[: m.end()] + as_record(text[m.end() :], names)


def answer(name, text, fn, goal):
    """text: the clauses, 'NAME c κs = body'."""
    text = re.sub(rf"(?m)^{re.escape(name)} c κs =", f"{name} c =", text)
    text = re.sub(rf"(?m)^{re.escape(name)}(?= )", goal, text)
    return text


def older(text):
    """A file that port.py left with names that were old then: .pre, .taken and .left."""
    if re.search(r"\.taken\b|\.pre\b", text):
        text = re.sub(r"\.pre\b", ".requires", re.sub(r"\.taken\b", ".true", text))
        text = re.sub(r"\b(if\d+)\.left\b", r"\1.false", text)
    return text


def inline_answers(args, by_name, fn, said):
    """The goals that the terms behind tie.spec answer, where these are not trivial."""
    items = []
    for it in args:
        if it in by_name:
            sig = by_name[it]["lines"][0]
            if re.search(r"tie\.(invariant|decreases)-", sig):
                continue
            m = re.search(rf"tie\.Need-({NAME})", sig)
            items.append((None, it, fn.goals.get(norm_goal(m[1])) if m else None, False))
            continue
        m = re.match(r"^\(λ c( κs)?\.\s+(.*)\)$", it, re.S)
        body = m[2].strip() if m else it
        items.append((bool(m and m[1]), body, None, body in TRIVIAL))
    skips = len(items) - len(fn.order)
    if skips < 0:
        if any(not t and k is not None for k, _, _, t in items):
            said.append(f"{len(items)} terms for {len(fn.order)} goals")
        return []
    kinds = [bool(re.search(r"requires(-\d+)?$", old)) for old, _ in fn.needs]

    def fits(item, j):
        kind, _, goal, _ = item
        if kind is None:
            return goal is None or goal == fn.order[j]
        return kind == kinds[j]

    n, m = len(items), len(fn.order)
    can = [[False] * (m + 1) for _ in range(n + 1)]
    can[n][m] = True
    for i in range(n - 1, -1, -1):
        for j in range(m, -1, -1):
            loose = items[i][3] or (items[i][0] is None and items[i][2] is None)
            can[i][j] = (j < m and fits(items[i], j) and can[i + 1][j + 1]) or (loose and can[i + 1][j])
    if not can[0][0]:
        said.append(f"the terms do not go with the goals: {n} for {m}")
        return []
    out, i, j = [], 0, 0
    while i < n:
        if j < m and fits(items[i], j) and can[i + 1][j + 1]:
            if items[i][0] is not None and not items[i][3]:
                out.append((fn.order[j], items[i][1]))
            i, j = i + 1, j + 1
        else:
            i += 1
    return out


def turn(path, fn, crate):
    said = []
    text = older(open(path, encoding="utf-8").read().rstrip("\n"))
    head, decls = blocks(text)
    spec = [d for d in decls if d["name"].endswith("_spec")]
    if not spec or spec_args(spec[0]) is None:
        return None, ["no tie.spec"]
    args = spec_args(spec[0])
    by_name = {d["name"]: d for d in decls}
    invariants, answers, helpers = [], [], []
    for d in decls:
        if d is spec[0]:
            continue
        sig = d["lines"][0].split(" : ", 1)[1] if " : " in d["lines"][0] else ""
        m = re.match(rf"tie\.(invariant|decreases)-({NAME})", sig)
        if m:
            got = invariant(d, fn, said)
            if got:
                invariants.append("\n".join(d["comment"] + [got]))
            continue
        m = re.match(rf"tie\.Need-({NAME})", sig)
        if m:
            goal = fn.goals.get(norm_goal(m[1]))
            body = "\n".join(d["lines"][1:])
            plain = re.sub(rf"^{re.escape(d['name'])}(?: c)?(?: κs)? =\s*", "", body).strip()
            if plain in TRIVIAL:
                continue
            if goal is None:
                if norm_goal(m[1]) not in fn.settled:
                    said.append(f"goal {m[1]} not found: {plain[:60]}")
                continue
            got = paths(answer(d["name"], body, fn, goal), fn, said, fn.at[goal])
            got = clausal(got, goal, fn)
            answers.append("\n".join(d["comment"] + [f"pub {goal} : goal.{goal}", got]))
            continue
        if "tie." in "\n".join(d["lines"]):
            said.append(f"helper {d['name']} names tie")
        helpers.append("\n".join(d["comment"] + [paths("\n".join(d["lines"]), fn, said, None)]))
    opened = "".join(l + "\n" for l in spec[0]["lines"] if l.strip().startswith("unfolding "))
    opens = [l.strip() for l in spec[0]["lines"][1:] if l.strip().startswith("unfolding ")]
    for goal, body in inline_answers(args, by_name, fn, said):
        if goal.startswith("shape_of"):
            said.append(f"left to the check: {goal} ({body[:60]})")
            continue
        text = clausal(paths(f"{goal} c =\n    {body}" if "\n" in body else f"{goal} c = {body}", fn, said, fn.at[goal]), goal, fn)
        answers.append("\n".join([f"pub {goal} : goal.{goal}"] + opens + [text]))
    folder = os.path.dirname(path)
    module = "Rattle." + crate + ".proofs." + os.path.relpath(folder, os.path.join(CRATE, "proofs")).replace("/", ".")
    comments = [l for l in head if l.startswith("--")]
    out = {}
    if invariants:
        mine = [h for h in helpers if re.match(rf"(?:abbrev |unfoldable |pub )*({NAME})", h) and any(re.match(r"(?:abbrev |unfoldable |pub )*(\S+)", h)[1] in TOKEN.findall(i) for i in invariants)]
        text = "\n\n".join(mine + invariants)
        out["Invariants.antt"] = "\n".join((comments if not answers and not helpers else comments) + uses(head, text) + [f"use {module}.Given as goal", "", text, ""])
    if answers or helpers:
        text = "\n\n".join(helpers + answers)
        # the fact of a test `if !x` is now about x itself
        text = re.sub(rf"(?<![\w'-])not-(?:true|false) (?:_|\([^()]*\)|{NAME}(?:\.{NAME})*) ((?:{NAME}\.)*if-not-{NAME}\.(?:true|false))", r"\1", text)
        if answers:
            out["Answers.antt"] = "\n".join(comments + uses(head, text) + [f"use {module}.Goals as goal", "", text, ""])
    return out, said


def measure(text, params, name):
    """The measure of a function in a cycle: its arguments are parts of the nested pair a."""

    def field(m):
        steps = m[1].split(".")[1:]
        k = 0
        while steps and steps[0] == "1" and k < len(params) - 1:
            k, steps = k + 1, steps[1:]
        if steps and steps[0] == "0":
            steps = steps[1:]
        return ".".join([f"l.{params[k]}"] + steps)

    m = re.search(rf"^{re.escape(name)} κs a =", text, re.M)
    return re.sub(rf"(?<![\w.])a((?:\.{NAME})+)", field, text[m.end() :])


def turn_cycle(path, rows, stem, crate, inner):
    """proofs/+name/Proof.antt: functions that call one another, or themselves."""
    said = []
    text = older(open(path, encoding="utf-8").read().rstrip("\n"))
    head, decls = blocks(text)
    module, _, _ = inner.rpartition(".")
    fns = {k[len(stem) + 1 :]: row for k, row in rows.items() if k.startswith(stem + "-")}
    fns = {f: Function(row, "::".join([crate] + [it for it in module.split(".") if it] + [f])) for f, row in fns.items()}
    params = {f: next((v for k, v in rows[f"{stem}-{f}"]["params"].items() if k.split("::")[-1] == f), []) for f in fns}
    invariants, answers, helpers = [], [], []
    prefix = lambda f: f + "-" if len(fns) > 1 else ""
    for d in decls:
        sig = d["lines"][0].split(" : ", 1)[1] if " : " in d["lines"][0] else ""
        body = "\n".join(d["lines"][1:])
        m = re.match(rf"\(t : ℕ\) → ({NAME})-lts\.Need-({NAME})", sig)
        if m:
            fn = fns[m[1].replace("-", "_")] if m[1] not in fns else fns[m[1]]
            f = fn.path.split("::")[-1]
            goal = fn.goals.get(norm_goal(m[2]))
            plain = re.sub(rf"^{re.escape(d['name'])}(?: t)?(?: c)?(?: κs)? =\s*", "", body).strip()
            if plain in TRIVIAL:
                continue
            if goal is None:
                said.append(f"{f}: goal {m[2]} not found: {plain[:60]}")
                continue
            if goal.startswith("shape_of"):
                said.append(f"left to the check: {f} {goal} ({plain[:60]})")
                continue
            name = prefix(f) + goal
            got = re.sub(rf"(?m)^{re.escape(d['name'])} t c κs =", f"{d['name']} t c =", body)
            got = re.sub(rf"(?m)^{re.escape(d['name'])}(?= )", name, got)
            got = paths(got, fn, said, fn.at[goal])
            # `.requires` has no measure before the contract's own any more
            got = re.sub(r"\(arith, (?:pre|c\.requires)\.0, ", "(arith, ", re.sub(r"omega \(arith, (?:pre|c\.requires)\.0\)", "omega arith", got))
            got = re.sub(r"(?<![\w.])(pre|c\.requires)\.1(?=\.[0-9])", r"\1", got)
            answers.append("\n".join(d["comment"] + [f"pub {name} : goal.{name}", clausal(got, goal, fn)]))
            continue
        m = re.match(rf"({NAME})-lts\.(invariant|decreases)-({NAME})", sig)
        if m:
            f = m[1] if m[1] in fns else m[1].replace("-", "_")
            name = f"{m[2]}-{m[3]}"
            got = invariant({"name": name, "lines": [d["lines"][0], re.sub(rf"(?m)^{re.escape(d['name'])}(?= )", name, body)], "comment": []}, fns[f], said)
            if got:
                got = re.sub(rf"(?<![\w-]){m[2]}-(?={re.escape(fns[f].loops[0][1].split('-')[0])})", f"{m[2]}-{prefix(f)}", got)
                invariants.append(got)
            continue
        m = re.match(rf"Measures \d+ ({NAME})-kinds\.ps", sig)
        if m:
            f = m[1] if m[1] in fns else m[1].replace("-", "_")
            invariants.insert(0, f"abbrev pub decreases-{f} : goal.decreases-{f}\ndecreases-{f} l ={measure(body, params[f], d['name'])}")
            continue
        if d["name"].endswith("_spec") or re.search(r"-lts\.Claims|: ℕ → In \d", d["lines"][0]):
            continue
        helpers.append("\n".join(d["comment"] + ["\n".join(d["lines"])]))
    comments = [l for l in head if l.startswith("--")]
    where = f"Rattle.{crate}.proofs.{inner}"
    out = {}
    text = "\n\n".join(invariants)
    out["Invariants.antt"] = "\n".join(comments + uses(head, text) + [f"use {where}.Given as goal", "", text, ""])
    if answers or helpers:
        text = "\n\n".join(helpers + answers)
        text = re.sub(rf"(?<![\w'-])not-(?:true|false) (?:_|\([^()]*\)|{NAME}(?:\.{NAME})*) ((?:{NAME}\.)*if-not-{NAME}\.(?:true|false))", r"\1", text)
        out["Answers.antt"] = "\n".join(comments + uses(head, text) + [f"use {where}.Goals as goal", "", text, ""])
    return out, said


def main(argv):
    global CRATE
    check = "--check" in argv
    CRATE, names = [a for a in argv if a != "--check"][:2]
    crate = os.path.basename(os.path.abspath(CRATE))
    rows = json.load(open(names))
    CLAUSES.update(clauses_of(os.path.dirname(os.path.abspath(CRATE))))
    for path, kinds in CLAUSES.items():
        if "requires" in kinds:
            REQUIRES[path.split("::")[-1]] = kinds["requires"]
    for path in sorted(glob.glob(os.path.join(CRATE, "proofs/**/Proof.antt"), recursive=True)):
        folder = os.path.dirname(path)
        inner = os.path.relpath(folder, os.path.join(CRATE, "proofs")).replace("/", ".")
        key = f"Rattle-{crate}-proofs.{inner}.Lts"
        cycle = any(k.startswith(key + "-") for k in rows)
        if key not in rows and not cycle:
            print(f"{inner}: no names")
            continue
        try:
            if cycle:
                out, said = turn_cycle(path, rows, key, crate, inner)
            else:
                out, said = turn(path, Function(rows[key], "::".join([crate] + inner.split("."))), crate)
        except (ValueError, AttributeError, IndexError) as e:
            print(f"{inner}: {type(e).__name__} {e}")
            continue
        for it in said:
            print(f"{inner}: {it}")
        if out is None or check:
            continue
        os.remove(path)
        for name, text in out.items():
            open(os.path.join(folder, name), "w", encoding="utf-8").write(text)


if __name__ == "__main__":
    main(sys.argv[1:])
