#!/usr/bin/env python3
"""Turns a Proof.antt over a function's Tie into Invariants.antt and Answers.antt.

usage: python3 tools/convert_proofs.py NAMES CRATE [FUNCTION..]     at the top of the repository

NAMES is the names.json that `rattle check --generated DIR --old-names` writes for the crate. What a file has that it
can't turn is said, and is mended by hand; the check decides what holds.
"""

import json
import os
import re
import sys

WORD = r"[A-Za-zΑ-ωτ_][\w'₀-₉ᵢ]*(?:-[\w'₀-₉]+)*"
PATH = re.compile(rf"(?<![\w.'◌«-])({WORD})((?:\.(?:«\w+»|[\w'₀-₉]+(?:-[\w'₀-₉]+)*))*)")
# What a test of `!x` says is now said of x.
NOT = re.compile(r"not-(?:true|false) (?:_|[\w.'-]+|\([^()]*\)) (c\.if-not-[\w.-]+|\(c\.if-not-[\w.-]+\))")
LET = re.compile(rf"let ({WORD}) =\s+({WORD}(?:\.[\w'-]+)*) in(?![\w-])\s*")


def plain(word):
    return word.replace("-", "_")


def alike(a, b):
    """Whether two labels are one, as the scripts may have spelt them."""
    return bare(a) == bare(b)


def bare(word):
    return re.sub("_+", "_", plain(word)).strip("«»").lower().removesuffix("_lem")


class Function:
    def __init__(self, crate, path, names):
        self.crate, self.path, self.names = crate, path, names
        self.places = names["places"]
        self.at = {p[0]: i for i, p in enumerate(self.places)}
        self.parents = [self.at[p[1]] if p[1] else None for p in self.places]
        self.needs = {}
        for (old, new), (place, _) in zip(names["needs"], names["asked_at"]):
            self.needs[plain(old)] = (new, self.at[place])
        self.said = []
        self.bottom = None

    def need(self, word):
        word = plain(word)
        for it in (word, word.removeprefix("overflow_"), word.removeprefix("slice_bounds_"), word.removeprefix("bounds_")):
            if it in self.needs:
                return self.needs[it]
        return None

    def is_field(self, path):
        """Whether the test `!x` of c.if-not-x is of a field of x."""
        word = path.strip("()").split(".")[1].removeprefix("if-not-").split("-")[0]
        return bool(re.search(rf"!{word}\.\w+\b(?!\()", whole(self.crate, self.path.split(".")[-1])))

    def place(self, word):
        for name, i in self.at.items():
            if plain(name) == plain(word):
                return i
        return None

    def chain(self, p):
        while p is not None:
            yield p
            p = self.parents[p]

    def field(self, p, parts):
        """The text of c.LABEL.. for parts that begin with a label of place p, and the place of a known call."""
        label, rest = bare(parts[0]), parts[1:]
        if label == "args":
            return "c.args" + "".join("." + (plain(x) if i == 0 else x) for i, x in enumerate(rest))
        for q in self.chain(p):
            old, new = self.places[q][2]
            if old and alike(old, label) and q == p:
                return self.step(q, new, rest)
        found = self.told(p, label, rest)
        if found:
            return found
        depth = {q: i for i, q in enumerate(self.chain(self.bottom if self.bottom is not None else p))}
        fits = [q for q in depth if self.places[q][2][0] and alike(self.places[q][2][0], label)]
        if fits:
            q = min(fits, key=lambda q: abs(depth[q] - depth.get(p, 0)))
            return self.step(q, self.places[q][2][1], rest)
        if self.bottom is not None:
            found = self.told(self.bottom, label, rest)
            if found:
                return found
        if re.search(r"\d$", label):
            return self.field(p, [re.sub(r"_?\d+$", "", label)] + rest)
        if label not in ("requires", "lifetimes", "ranges", "type_inv", "well_formed"):
            self.said.append(f"no label {label} at {self.places[p][0]}")
        return ".".join(["c", label] + rest)

    def told(self, p, label, rest):
        for q in self.chain(p):
            for var, step in self.names["typed"][q]:
                if alike(step, label):
                    if rest and rest[0] == "given":
                        rest = rest[1:]
                    return ".".join(["c.type_inv", var] + rest)
        best = None
        for q in self.chain(p):
            arm = self.names["arms"][q]
            if not arm:
                continue
            for name, step, path in arm[2]:
                if alike(step, label) and path == rest[: len(path)] and path:
                    if best is None or len(path) > best[0]:
                        best = (len(path), ".".join(["c", arm[0], name] + rest[len(path):]))
        return best and best[1]

    def step(self, q, new, rest):
        found = self.told(q, plain(self.places[q][2][0]), rest)
        if found:
            return found
        clauses = self.names["clauses"][q]
        if rest and rest[0] == "ensures" and clauses and clauses.get("fields"):
            rest = ["ensures"] + clause_path(clauses["fields"], rest[1:])
        if rest and new.startswith("loop") and rest[0] not in ("invariant", "auto", "initial", "true", "false"):
            rest = [plain(rest[0])] + rest[1:]
        if rest and rest[0] == "new" and len(rest) > 1:
            at = plain(rest[1])
            if at.isdigit():
                lent = lent_by(self.places[q][3])
                at = lent[int(at)] if int(at) < len(lent) else at
            rest = ["new", at] + rest[2:]
        return ".".join(["c", new] + rest)

    def resolve(self, p, parts):
        """('place', q) or ('text', t, q, label)."""
        parts = list(parts)
        while parts and parts[0] == "before":
            p = self.parents[p] if self.parents[p] is not None else p
            parts = parts[1:]
        return ("place", p) if not parts else ("field", p, parts)


def sources(crate):
    for folder, _, files in os.walk(f"crates/{crate}/src"):
        for name in sorted(files):
            with open(os.path.join(folder, name), encoding="utf-8") as f:
                yield f.read()


def heading(crate, fn):
    """A function's signature and clauses, or nothing."""
    for text in sources(crate):
        m = re.search(rf"\bfn {re.escape(fn)}\b.*?\n\s*\{{\n|\bfn {re.escape(fn)}\b[^\n]*\{{\n", text, re.S)
        if m:
            return m.group()
    return ""


def whole(crate, fn):
    """A function's text to its end."""
    head = heading(crate, fn)
    for text in sources(crate):
        if head and head in text:
            rest = text[text.index(head) :]
            m = re.search(r"\n( *)\}\n", rest)
            return rest[: m.end()] if m else rest
    return head


def lent_by(callee):
    """The parameters that a function takes as &mut."""
    if not callee:
        return []
    crate, _, fn = callee.partition("::")
    return re.findall(r"(\w+): &(?:'\w+ )?mut ", heading(crate, fn.split("::")[-1]))


def recorded(body, fields):
    """A body that ends in nested pairs, with a record of the clauses in their place."""
    done = paired(body, fields)
    if done:
        return done
    at = last_term(body)
    term = body[at:].strip()
    if re.match(r"(rw|simp|elim|omega|search|grind|cc|let|λ|\()(?![\w-])", term):
        return None
    path, shown = "both", []
    for k, f in enumerate(fields):
        shown.append(f"{f} = {path}.0" if k < len(fields) - 1 else f"{f} = {path}")
        path += ".1"
    return body[:at] + f"let both = {term} in\n    record {{ " + "; ".join(shown) + " }"


def last_term(body):
    """Where the term begins behind the body's last `let .. in`."""
    depth, at = 0, 0
    for m in re.finditer(r"[(){}\[\]]|(?<![\w-])in(?=\s)", body):
        x = m.group()
        if x in "({[":
            depth += 1
        elif x in ")}]":
            depth -= 1
        elif depth == 0:
            at = m.end()
    while at < len(body) and body[at].isspace():
        at += 1
    return at


def paired(body, fields):
    if not body.endswith(")"):
        return None
    depth, i = 0, len(body) - 1
    while i >= 0:
        depth += {")": 1, "(": -1}.get(body[i], 0)
        if depth == 0:
            break
        i -= 1
    before, inner = body[:i].rstrip(), body[i + 1 : -1]
    if before and not before.endswith(" in") and not before.endswith("\nin"):
        return None
    parts = []
    for k in range(len(fields) - 1):
        depth = 0
        for j, ch in enumerate(inner):
            depth += {"(": 1, ")": -1, "{": 1, "}": -1, "[": 1, "]": -1}.get(ch, 0)
            if ch == "," and depth == 0:
                break
        else:
            return None
        parts.append(inner[:j].strip())
        inner = inner[j + 1 :].strip().removesuffix(",").strip()
        if k < len(fields) - 2:
            if not (inner.startswith("(") and inner.endswith(")")):
                return None
            inner = inner[1:-1].strip().removesuffix(",").strip()
    parts.append(inner)
    rec = "record { " + "; ".join(f"{f} = {x}" for f, x in zip(fields, parts)) + " }"
    return body[:i] + rec


def clause_path(fields, rest):
    i = 0
    n = len(fields)
    rest = list(rest)
    while rest and rest[0] in ("0", "1"):
        if n - i == 1:
            return [fields[i]] + rest
        if rest[0] == "0":
            return [fields[i]] + rest[1:]
        rest = rest[1:]
        i += 1
    if n - i == 1:
        return [fields[i]] + rest
    return rest


def blocks(text):
    """The file's head comment, use lines and declarations, each a list of lines."""
    head, uses, decls, cur, notes = [], [], [], None, []
    for line in text.split("\n"):
        if line.startswith("use "):
            uses.append(line)
            continue
        if not uses and not decls and cur is None and (line.startswith("--") or not line.strip()):
            head.append(line)
            continue
        if not line.strip():
            if cur:
                decls.append(cur)
                cur = None
            continue
        if line.startswith("--") and cur is None:
            notes.append(line)
            continue
        if cur is None:
            cur = notes + [line]
            notes = []
        else:
            cur.append(line)
    if cur:
        decls.append(cur)
    return head, uses, decls


class Decl:
    def __init__(self, lines):
        self.notes = [l for l in lines if l.startswith("--")]
        lines = [l for l in lines if not l.startswith("--")]
        m = re.match(rf"((?:abbrev |unfoldable |pub )*)({WORD}|\+?[\w+-]+) :(.*)$", lines[0])
        self.ok = bool(m)
        self.lines = lines
        if not m:
            return
        self.mods, self.name = m.group(1), m.group(2)
        sig, i = [m.group(3)], 1
        while i < len(lines) and lines[i][:1].isspace():
            sig.append(lines[i])
            i += 1
        self.type = "\n".join(sig).strip()
        self.unfolding = []
        while i < len(lines) and lines[i].startswith("unfolding"):
            self.unfolding += lines[i].split()[1:]
            i += 1
        self.clauses = []
        for l in lines[i:]:
            if l[:1].isspace() and self.clauses:
                self.clauses[-1].append(l)
            else:
                self.clauses.append([l])
        self.tie = re.match(r"tie\.([\w-]+)", self.type)

    def clause(self):
        """The arguments and the body of the only clause."""
        if len(self.clauses) != 1:
            return None
        text = "\n".join(self.clauses[0])
        m = re.match(rf"{re.escape(self.name)}((?:\s+(?:[\w'₀-₉κᵢ-]+|\{{[^}}]*\}}|_))*)\s*=", text)
        if not m:
            return None
        return m.group(1).split(), text[m.end():].strip()


def rewrite(f, text, env, helpers, used):
    """Respells the paths of a term; env: name -> place, or (place, label) of a let that names a step."""
    out, i, env = [], 0, dict(env)
    while i < len(text):
        m = LET.match(text, i)
        if m and not re.match(r"[\w.'-]", text[i - 1] if i else " "):
            name, path = m.group(1), m.group(2).split(".")
            if path[0] in env and isinstance(env[path[0]], int):
                r = f.resolve(env[path[0]], path[1:])
                if r[0] == "place":
                    env[name] = r[1]
                    i = m.end()
                    continue
                env[name] = ("step", r[1], r[2])
                if r[2][0] == "args" or len(r[2]) > 1 or f.told(r[1], plain(r[2][0]), r[2][1:]) is None:
                    shown = f.field(r[1], r[2])
                    out.append(f"let {name} = {shown} in" + text[i + len(text[i:m.end()].rstrip()): m.end()])
                    i = m.end()
                    continue
            elif path[0] in env:
                _, p, parts = env[path[0]]
                env[name] = ("step", p, parts + path[1:])
                out.append(f"let {name} = {shown_step(f, env, path[0], path[1:])} in" + text[i + len(text[i:m.end()].rstrip()): m.end()])
                i = m.end()
                continue
        m = PATH.match(text, i)
        if not m:
            out.append(text[i])
            i += 1
            continue
        word, rest = m.group(1), m.group(2)
        parts = [x for x in rest.split(".") if x]
        if word in helpers:
            used.append(word)
            j = re.compile(rf"\s+(\(?)({WORD})((?:\.[\w'-]+)*)(\)?)").match(text, m.end())
            if not rest and j and j.group(2) in env:
                out.append(word)
                i = j.end() if j.group(1) == "(" or j.group(4) != ")" else j.end() - 1
                continue
        if word in env:
            got = env[word]
            if isinstance(got, int):
                r = f.resolve(got, parts)
                if r[0] == "place":
                    f.said.append(f"a place is handed on: {word}{rest}")
                    out.append("c")
                else:
                    out.append(f.field(r[1], r[2]))
            else:
                out.append(shown_step(f, env, word, parts))
            i = m.end()
            continue
        out.append(m.group())
        i = m.end()
    return NOT.sub(lambda m: m.group() if f.is_field(m.group(1)) else m.group(1), "".join(out))


def shown_step(f, env, word, parts):
    _, p, label = env[word]
    if not parts:
        return word
    whole = f.field(p, label + parts)
    short = f.field(p, label)
    if whole.startswith(short + "."):
        return word + whole[len(short):]
    return whole


def invariant(f, decl, old):
    got = decl.clause()
    for (o, new), vars_, changed in zip([l[0] for l in f.names["loops"]], [l[1] for l in f.names["loops"]], f.names["changed"]):
        if plain(o) == plain(old):
            break
    else:
        return None
    if not got:
        return None
    args, body = got
    texts = [("l." + v) if not ch else ("l.initial." + v) for v, ch in zip(vars_, changed)] + ["l." + v for v, ch in zip(vars_, changed) if ch]
    if len(texts) != len(args):
        f.said.append(f"loop {old}: {len(args)} arguments for {len(texts)}: {args} {texts}")
        return None
    env = dict(zip(args, texts))

    def one(m):
        if m.group(1) in env:
            return env[m.group(1)] + m.group(2)
        return m.group()

    return new, PATH.sub(one, body)


def turn(crate, fn, names, text):
    f = Function(crate, fn, names)
    head, uses, decls = blocks(text)
    decls = [Decl(d) for d in decls]
    for d in decls:
        if not d.ok:
            f.said.append("not read: " + d.lines[0])
    decls = [d for d in decls if d.ok]
    mod = f"Rattle.{crate}.proofs." + fn
    uses = [u for u in uses if not u.startswith(f"use {mod}.Statement") and not u.startswith(f"use {mod}.Tie")]
    helpers, invs, answers, free = {}, [], [], []
    for d in decls:
        if d.tie and d.tie.group(1).startswith("Need-"):
            answers.append(d)
        elif d.tie:
            invs.append(d)
        elif plain(d.name).endswith("_spec") and "statement" in d.type:
            continue
        elif "tie." in d.type:
            helpers[d.name] = d
        else:
            free.append(d)
    ready = {}
    for name, d in helpers.items():
        m = re.match(rf"\((\w+) : tie\.([\w-]+)(?: [\w-]+)*\)\s*→\s*(.*)$", d.type, re.S)
        got = d.clause()
        if not m or not got:
            f.said.append(f"helper {name} by hand: {d.type[:80]}")
            continue
        place = f.place(m.group(2))
        if place is None:
            f.said.append(f"helper {name}: no place {m.group(2)}")
            continue
        used = []
        f.bottom = place
        typ = rewrite(f, m.group(3), {m.group(1): place}, helpers, used)
        args, body = got
        body = rewrite(f, body, {args[0]: place}, helpers, used)
        if len(args) > 1:
            body = "λ " + " ".join(args[1:]) + ". " + body
        ready[name] = (typ, body, used, d.unfolding)
    out_i, out_a = [], []
    for d in invs:
        kind, _, old = d.tie.group(1).partition("-")
        got = invariant(f, d, old)
        if not got:
            f.said.append(f"{d.name} by hand")
            out_i.append("\n".join(["-- by hand"] + d.lines))
            continue
        new, body = got
        out_i.append("\n".join(d.notes + [f"abbrev pub {kind}-{new} : goal.{kind}-{new}", f"{kind}-{new} l = {body}"]))
    for d in answers:
        need = f.need(d.tie.group(1)[5:])
        got = d.clause()
        if not need or not got:
            f.said.append(f"answer {d.name} by hand: {d.tie.group(1)}")
            out_a.append("\n".join(["-- by hand"] + d.lines))
            continue
        new, place = need
        args, body = got
        used = []
        f.bottom = place
        body = rewrite(f, body, {args[0]: place}, ready, used)
        own = re.findall(r"^\s*ensures (\w+) \{", heading(crate, fn.split(".")[-1]), re.M)
        if new.startswith("returns") and len(own) > 1:
            wrapped = recorded(body, own)
            if wrapped is None:
                f.said.append(f"{new}: wants a record of {own}")
            else:
                body = wrapped
        more = "".join(" " + a for a in args[1:] if a != "κs")
        order, unf = [], list(d.unfolding)

        def add(h):
            if h in order or h not in ready:
                return
            for k in ready[h][2]:
                add(k)
            order.append(h)

        for h in used:
            add(h)
        lets = []
        for h in order:
            t, b, _, u = ready[h]
            lets.append(f"    let {h} : {t} =\n    {b} in")
            unf += [x for x in u if x not in unf]
        head_line = f"{new} c{more} ="
        if lets:
            term = head_line + "\n" + "\n".join(lets) + "\n    " + body
        else:
            term = head_line + ("\n    " if "\n" in body else " ") + body
        if body == "search rules":
            continue
        out_a.append("\n".join(d.notes + [f"pub {new} : goal.{new}"] + ([("unfolding " + " ".join(unf))] if unf else []) + [term]))
    where = f"crates/{crate}/proofs/{fn.replace('.', '/')}"
    used_free = "\n".join(out_i)
    both = [d for d in free if re.search(rf"(?<![\w'-]){re.escape(d.name)}(?![\w'-])", used_free)]
    lead = [l for l in head if l.strip()]
    os.makedirs(where, exist_ok=True)
    if out_i:
        body = ["\n".join(d.notes + d.lines) for d in both] + out_i
        write(where + "/Invariants.antt", lead, uses + [f"use {mod}.Given as goal"], body)
    rest = [d for d in free if d not in both]
    if out_a:
        write(where + "/Answers.antt", lead, uses + [f"use {mod}.Goals as goal"], ["\n".join(d.notes + d.lines) for d in rest] + out_a)
    for s in dict.fromkeys(f.said):
        print(f"{crate}::{fn}: {s}")


def write(path, lead, uses, body):
    text = "\n".join(lead + uses) + "\n\n" + "\n\n".join(body) + "\n"
    kept = []
    rest = re.sub(r"(?m)^use .*$", "", text)
    for line in text.split("\n"):
        m = re.match(r"use (\S+)\.\{(.*)\}$", line)
        if m:
            names = [n for n in m.group(2).split(", ") if cited(n, rest)]
            if not names:
                continue
            line = f"use {m.group(1)}.{{{', '.join(names)}}}"
        else:
            m = re.match(r"use (\S+) as (\S+)$", line)
            if m and m.group(2) not in rest:
                continue
        kept.append(line)
    with open(path, "w", encoding="utf-8") as f:
        f.write("\n".join(kept))


def cited(name, text):
    word = name.split(" as ")[-1].strip()
    for part in word.split("◌"):
        if part and not re.search(r"(?<![\w'])" + re.escape(part) + r"(?![\w'])" if re.match(r"\w", part) else re.escape(part), text):
            return False
    return True


def main():
    with open(sys.argv[1]) as f:
        names = json.load(f)
    crate, only = sys.argv[2], sys.argv[3:]
    top = f"crates/{crate}/proofs"
    for folder, folders, files in sorted(os.walk(top)):
        if "Proof.antt" not in files:
            continue
        fn = os.path.relpath(folder, top).replace("/", ".")
        if only and fn not in only:
            continue
        key = f"Rattle-{crate}-proofs.{fn}.Lts"
        with open(os.path.join(folder, "Proof.antt"), encoding="utf-8") as f:
            text = f.read()
        if key not in names or ".Tie as tie" not in text:
            print(f"{crate}::{fn}: left: {'no names' if key not in names else 'no Tie'}")
            continue
        turn(crate, fn, names[key], text)
        os.remove(os.path.join(folder, "Proof.antt"))


main()
