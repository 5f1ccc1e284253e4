#!/usr/bin/env python3
"""Turns each proof of a crate that walks the code by hand, proofs/F/Proof.antt, into Invariants.antt and Answers.antt.

usage: rt check --generated NAMES --old-names     in the crate's folder, which lists old and new names
       python3 tools/answers.py NAMES/names.json CRATE [F..]     at the top of the repository

Answers that only search go, since the check searches by itself. Paths '.before' are followed on the list's places. What it leaves is printed.
"""
import json
import os
import re
import sys

IDENT = r"[^\s(){}.;,@\"«»]+"


# Steps that had the name of a lemma, which has another now.
STEPS = {"is_of_file": "of_file"}


def canon(name):
    name = re.sub(r"^(overflow[-_])", "", name)
    return name.replace("_", "-").lower()


def clauses():
    """For each function of the crates the names of its clauses, by kind."""
    found = {}
    for folder, _, names in os.walk("crates"):
        for name in names:
            if not name.endswith(".rt") or "/out/" in folder:
                continue
            crate = folder.split("/")[1]
            with open(os.path.join(folder, name), encoding="utf-8") as f:
                text = re.sub(r"//[^\n]*", "", f.read())
            for m in re.finditer(r"\bfn (\w+)", text):
                end = re.compile(r"\n\{|\bfn ").search(text, m.end())
                head = text[m.end():end.start() if end else len(text)]
                kinds = {}
                for kind, label in re.findall(r"\n\s*(requires|ensures) (?:(\w+) )?\{", head):
                    kinds.setdefault(kind, []).append(label)
                found[f"{crate}::{m[1]}"] = kinds
    return found


CLAUSES = {}


def by_label(digits, labels):
    """The path below clauses that had no names and stood in pairs, by their names; None for what is several of them."""
    i = 0
    digits = list(digits)
    while digits and digits[0] == "1" and i < len(labels) - 1:
        digits, i = digits[1:], i + 1
    if i < len(labels) - 1:
        if not digits or digits[0] != "0":
            return None
        digits = digits[1:]
    return "." + ".".join([labels[i]] + digits)


def labelled(text, head, labels):
    """The text with the numbered clauses below a head by their names."""
    if len(labels) < 2 or None in labels:
        return text
    lets = re.compile(r"let (" + IDENT + r") = " + re.escape(head) + r"((?:\.\d+)*) in[ \n]*")
    at = 0
    while m := lets.search(text, at):
        digits = [d for d in m[2].split(".") if d]
        new = by_label(digits, labels)
        name = m[1]
        below = re.compile(rf"(?<![\w.′'₀-₉-]){re.escape(name)}((?:\.\d+)+)(?!\d)")
        rest = text[m.end():]
        if new is None:
            rest = below.sub(lambda k: (lambda b: head + b if b else k[0])(by_label(digits + k[1].split(".")[1:], labels)), rest)
            # the name stays where the whole of it is meant
            keep = re.search(rf"(?<![\w.′'₀-₉-]){re.escape(name)}(?![\w′'₀-₉-])", rest)
            text = text[:m.start()] + (m[0] if keep else "") + rest
            at = m.start() + (len(m[0]) if keep else 0)
        else:
            text = text[:m.start()] + f"let {name} = {head}{new} in" + m[0][m[0].index(" in") + 3:] + rest
            at = m.end()
    return re.sub(re.escape(head) + r"((?:\.\d+)+)(?!\d)", lambda k: (lambda b: head + b if b else k[0])(by_label(k[1].split(".")[1:], labels)), text)


class Fn:
    def __init__(self, crate, name, table):
        self.crate, self.name, self.table = crate, name, table
        self.places = {p[0]: p for p in table["places"]}
        self.goal, self.at = {}, {}
        for k, (old, new) in enumerate(table["needs"]):
            self.goal.setdefault(canon(old), new)
            self.at.setdefault(canon(old), table["asked_at"][k][0])
        self.loops = {old: new for (old, new), _ in table["loops"]}
        self.loop_vars = {old: names for (old, _), names in table["loops"]}
        self.said = []

    def say(self, text):
        self.said.append(f"{self.crate}/{self.name}: {text}")

    def path(self, place, fields, start, head="c"):
        """The new text of head.FIELDS, begun at a place; or the place where only 'before' stands."""
        k = 0
        while k < len(fields) and fields[k] == "before":
            up = self.places[place][1] if place in self.places else None
            place, k = (place if up is None else up), k + 1
        rest = fields[k:]
        if not rest:
            return place, head
        one = rest[0]
        if one in ("args", "requires", "lifetimes", "ranges", "well_formed", "auto", "utf8"):
            return None, ".".join([head] + rest)
        if one in ("well-formed",):
            return None, ".".join([head, "well_formed"] + rest[1:])
        # the step of this place, or else the nearest on the way to the start that has the name
        want, chain, up = canon(STEPS.get(one, one.removesuffix("_lem"))), [], start
        while up is not None:
            chain.append(up)
            up = self.places[up][1]
        where = chain.index(place) if place in chain else len(chain) - 1
        named = [p for p in chain if re.fullmatch(re.escape(want) + r"\d*", canon(self.places[p][2][0])) or canon(self.places[p][2][1]) == want]
        if not named:
            self.say(f"no step {one} at {place} ({self.places[place][2]}) for {'.'.join(fields)}")
            return None, ".".join([head] + rest)
        at = min(named, key=lambda p: abs(chain.index(p) - where))
        if at != place:
            self.say(f"step {one}: {at} for {place}, in {'.'.join(fields)}")
        p = self.places[at]
        tail = rest[1:]
        arm = self.table["arms"][self.table["places"].index(p)]
        if arm:
            for new, old, path in arm[2]:
                if canon(old) == want and tail[:len(path)] == path:
                    return None, ".".join([head, arm[0], new] + tail[len(path):])
        if tail and tail[0] in ("new", "auto") and p[3] and len(tail) > 1 and re.fullmatch(r"\d", tail[1]):
            n, j = 0, 1
            names = self.table["params"].get(p[3], [])
            while j < len(tail) and tail[j] == "1":
                n, j = n + 1, j + 1
            if j < len(tail) and tail[j] == "0":
                j += 1
            if n < len(names):
                tail = [tail[0], names[n]] + tail[j:]
            else:
                self.say(f"parameter {n} of {p[3]} in {'.'.join(fields)}")
        return None, ".".join([head, p[2][1]] + tail)

    def turn(self, text, place):
        """The answer's text with each path turned, and the names of bare places gone."""
        alias = {"c": place}
        chain = re.compile(r"(?<![\w.′'₀-₉-])(" + IDENT + r")((?:\.(?:" + IDENT + r"))*)")
        out, at = "", 0
        let = re.compile(r"let (" + IDENT + r") = (c|" + IDENT + r")((?:\.before)*) in[ \n]*")
        while at < len(text):
            m = let.match(text, at)
            if m and m[2] in alias:
                fields = m[3].split(".")[1:]
                where, _ = self.path(alias[m[2]], fields, place)
                if where is not None:
                    alias[m[1]] = where
                    at = m.end()
                    # keep the indentation of what follows
                    continue
            m = chain.match(text, at)
            if m and (at == 0 or not re.match(r"[\w.′'₀-₉-]", text[at - 1])):
                if m[1] in alias:
                    fields = [f for f in m[2].split(".") if f]
                    where, new = self.path(alias[m[1]], fields, place)
                    out += new
                else:
                    out += m[0]
                at = m.end()
                continue
            out += text[at]
            at += 1
        # a step that has a name of the answer's own
        for name, step in re.findall(r"let (" + IDENT + r") = c\.([^\s.]+) in", out):
            callee = next((p[3] for p in self.places.values() if p[2][1] == step and p[3]), None)
            names = self.table["params"].get(callee, [])
            out = re.sub(rf"(?<![\w.]){re.escape(name)}\.new((?:\.1)*)\.0(?!\d)", lambda m: f"{name}.new.{names[len(m[1]) // 2]}" if len(m[1]) // 2 < len(names) else m[0], out)
        # clauses that have names now
        if not CLAUSES:
            CLAUSES.update(clauses())
        own = CLAUSES.get(f"{self.crate}::{self.name.split('/')[-1].lstrip('+')}", {})
        out = labelled(out, "c.requires", own.get("requires", []))
        heads = {p[2][1]: p[3] for p in self.places.values() if p[3]}
        for step, callee in heads.items():
            labels = CLAUSES.get(callee.split("::")[0] + "::" + callee.split("::")[-1], {}).get("ensures", [])
            out = labelled(out, f"c.{step}.ensures", labels)
            for name in re.findall(r"let (" + IDENT + r") = c\." + re.escape(step) + r" in", out):
                out = labelled(out, f"{name}.ensures", labels)
        # what the library says of a sum that wraps is a clause with a name
        out = re.sub(r"(c\.wrapping_add_u64\S*?\.ensures)(?![\w.-])", r"\1.value", out)
        # the variants that are left
        out = re.sub(r"(?<![\w.])(c\.\S+-own\.keys\d+)", r"(opened \1)", out)
        # the test of a branch on '!x' is the fact of x itself
        return re.sub(r"not-(?:true|false) \S+ (\S*\.if-not-[^\s.()]+\.(?:true|false))", r"\1", out)


def atom(text, at):
    """The end of the bracketed or plain word that begins at a place, after spaces."""
    while at < len(text) and text[at] in " \n":
        at += 1
    start = at
    if at < len(text) and text[at] == "(":
        depth = 0
        while at < len(text):
            depth += (text[at] == "(") - (text[at] == ")")
            at += 1
            if not depth:
                break
    else:
        m = re.compile(r"[^\s(){};,]+").match(text, at)
        at = m.end() if m else at
    return start, at


def by_cases(text, said):
    """Each '⊎_elim (λ w. A) (λ w. B) c.if-X.branch' as an 'elim', with a mark for each numbered field of w."""
    at = 0
    while (at := text.find("⊎_elim", at)) >= 0:
        end = at + len("⊎_elim")
        parts = []
        for _ in range(3):
            start, end = atom(text, end)
            parts.append(text[start:end])
        one, two = (re.fullmatch(r"\(λ (\S+?)\.\s(.*)\)", q, re.S) for q in parts[:2])
        step = re.fullmatch(r"\S*?\.if-(\S+)\.branch", parts[2])
        if not (one and two and step):
            said.append(f"cases by hand: {parts[2][:60]}")
            at += 1
            continue
        arms = []
        for side, m in (("then", one), ("else", two)):
            v = re.escape(m[1])
            body = re.sub(rf"(?<![\w.′'₀-₉-]){v}\.(\d+)\.(taken|left)(?![\w-])", lambda k: f"{m[1]}.field-{k[1]}." + {"taken": "true", "left": "false"}[k[2]], m[2])
            body = re.sub(rf"(?<![\w.′'₀-₉-]){v}\.(\d+)(?![\w-])", lambda k: f"{m[1]}.field-{k[1]}", body)
            arms.append(f"{side}-{step[1]} {m[1]} ↦ {by_cases(body, said)}")
        new = f"elim {parts[2]} [\n      {arms[0]}\n      | {arms[1]} ]"
        text = text[:at] + new + text[end:]
        at += len(new)
    return text


def blocks(text):
    return [b for b in re.split(r"\n\n+", text.strip("\n")) if b.strip()]


def turn_invariant(fn, block, said):
    m = re.match(r"abbrev (?:pub )?(" + IDENT + r") : tie\.(" + IDENT + r")\n", block)
    kind, loop = re.match(r"(invariant|decreases)-(.*)", m[2]).groups()
    body = block[m.end():]
    unfold = ""
    mm = re.match(r"(unfolding [^\n]*\n)", body)
    if mm:
        unfold, body = mm[1], body[mm.end():]
    m2 = re.match(re.escape(m[1]) + r"((?: [^\s=]+)*) =", body)
    args, rest = m2[1].split(), body[m2.end():]
    names = fn.loop_vars.get(loop)
    new = fn.loops.get(loop)
    if new is None:
        keys = [k for k in fn.loops if canon(k) == canon(loop)]
        if keys:
            new, names = fn.loops[keys[0]], fn.loop_vars[keys[0]]
    if new is None:
        fn.say(f"no loop {loop}")
        new, names = loop, []
    # the variables in order, those that change as they were at first, and then those that change as they are now
    changed = next((c for (o, n), c in zip([l[0] for l in fn.table["loops"]], fn.table["changed"]) if n == new), [])
    now = [n for n, c in zip(names, changed) if c]
    fields = [("l.initial." if c else "l.") + n for n, c in zip(names, changed)] + ["l." + n for n in now]
    if len(fields) != len(args):
        fn.say(f"{len(args)} variables of {loop}: {names}")
        fields = ["l.initial." + a.strip("«»₀") if a.strip("«»").endswith("₀") else "l." + a.strip("«»") for a in args]
    turned = dict(zip(args, fields))
    turned.update({f"«{a}»": f for a, f in zip(args, fields) if not a.startswith("«")})
    rest = re.sub(r"(?<![\w.′'₀-₉«»-])(" + "|".join(sorted(map(re.escape, turned), key=len, reverse=True)) + r")(?![\w′'₀-₉»-])", lambda m: turned[m[1]], rest)
    return f"abbrev pub {kind}-{new} : goal.{kind}-{new}\n{unfold}{kind}-{new} l ={rest}"


def convert_cycle(crate, name, tables, path):
    """The answers and the measures of a cycle of calls; the invariants of its loops are written by hand."""
    text = open(path, encoding="utf-8").read()
    bs = blocks(text)
    uses = [l for b in bs for l in b.split("\n") if l.startswith("use ")]
    lts = {m[2]: m[1] for u in uses for m in [re.match(r"use \S+\.Lts-(\S+) as (\S+)", u)] if m}
    fns = {alias: Fn(crate, f"{name}/{f}", tables[f]) for alias, f in lts.items()}
    answers, measures = [], []
    for b in bs:
        m = re.match(r"abbrev μ-(\S+) : Measures[^\n]*\nμ-\S+ κs a =(\s.*)", b, re.S)
        if m:
            f = next(f for f in tables if canon(f) == canon(m[1]))
            names = next(v for k, v in fns[next(a for a, g in lts.items() if g == f)].table["params"].items() if k.endswith("::" + f))
            term = re.sub(r"(?<![\w.])a((?:\.1)*)\.0(?!\d)", lambda k: "l." + names[len(k[1]) // 2], m[2])
            stem = f
            measures.append(f"abbrev pub decreases-{stem} : goal.decreases-{stem}\ndecreases-{stem} l ={term}")
            continue
        m = re.match(r"((?:--[^\n]*\n)*)(" + IDENT + r") : \(t : ℕ\) → (" + IDENT + r")\.Need-(" + IDENT + r")([^\n]*)\n", b)
        if not m:
            continue
        fn, need = fns[m[3]], canon(m[4])
        if need not in fn.goal:
            fn.say(f"no goal {need}: {sorted(fn.goal)}")
            continue
        body = b[m.end():]
        mm = re.match(r"((?:unfolding [^\n]*\n)*)", body)
        unfold, body = mm[1], body[mm.end():]
        m2 = re.match(re.escape(m[2]) + r"((?: [^\s=]+)*) =[ \n]*", body)
        term = body[m2.end():]
        if not unfold and re.fullmatch(r"\s*search rules\s*", term):
            continue
        term = by_cases(fn.turn(term, fn.at[need]), fn.said)
        stem = fn.table["stem"]
        new = stem + fn.goal[need]
        # what is required stands beside the measure no more, and a way into a join has the function's name
        term = term.replace("omega (arith, c.requires.0)", "omega arith").replace(", c.requires.0)", ")").replace("c.requires.1", "c.requires").replace("args.requires.1", "args.requires")
        term = re.sub(r"(?<![\w-])((?:then|else)-\S+ \S+ ↦)", lambda k: stem + k[1], term)
        gap = "\n    " if "\n" in term or len(term) > 120 else " "
        answers.append(f"{m[1]}pub {new} : goal.{new}\n{unfold}{new} t c ={gap}{term}")
    ref = "\n".join(answers)
    keep = [u for u in uses if f".proofs.{name}." not in u and ".Reads as" not in u and ".Kinds as" not in u]
    folder = os.path.dirname(path)
    with open(os.path.join(folder, "Answers.antt"), "w", encoding="utf-8") as f:
        f.write("\n".join([l for l in bs[0].split("\n") if l.startswith("--")] + needed(keep, ref) + [f"use Rattle.{crate}.proofs.{name}.Goals as goal"] + cases_of(f"Rattle.{crate}.proofs.{name}", ref)) + "\n\n" + "\n\n".join(answers) + "\n")
    ref = "\n".join(measures)
    with open(os.path.join(folder, "Invariants.antt"), "w", encoding="utf-8") as f:
        f.write("\n".join(needed(keep, ref) + [f"use Rattle.{crate}.proofs.{name}.Given as goal"]) + "\n\n" + "\n\n".join(measures) + "\n")
    os.remove(path)
    return [s for fn in fns.values() for s in fn.said]


def convert(crate, name, table, path):
    fn = Fn(crate, name, table)
    text = open(path, encoding="utf-8").read()
    bs = blocks(text)
    head = bs[0].split("\n")
    comments = [l for l in head if l.startswith("--")]
    uses = []
    for b in bs:
        for l in b.split("\n"):
            if l.startswith("use ") and ".Tie as " not in l and ".Statement." not in l:
                uses.append(l)
    rest = []
    for b in bs:
        lines = [l for l in b.split("\n") if not (l.startswith("use "))]
        if b is bs[0]:
            lines = [l for l in lines if not l.startswith("--")]
        if any(l.strip() for l in lines):
            rest.append("\n".join(lines))
    invariants, answers, helpers = [], [], []
    module = "Rattle.%s.proofs.%s" % (crate, name.replace("/", "."))
    for b in rest:
        if re.match(r"abbrev (?:pub )?" + IDENT + r" : tie\.(invariant|decreases)-", b):
            invariants.append(turn_invariant(fn, b, fn.said))
            continue
        if re.search(r"^ *tie\.close|= *tie\.close|tie\.close", b):
            continue
        m = re.match(r"((?:--[^\n]*\n)*)(" + IDENT + r") : tie\.Need-(" + IDENT + r")([^\n]*)\n", b)
        if not m:
            helpers.append(b)
            continue
        local, need = m[2], canon(m[3])
        need = need if need in fn.goal else canon(local)
        if need not in fn.goal:
            fn.say(f"no goal {need}: {sorted(fn.goal)}")
            continue
        new = fn.goal[need]
        body = b[m.end():]
        unfold = ""
        mm = re.match(r"((?:unfolding [^\n]*\n)*)", body)
        unfold, body = mm[1], body[mm.end():]
        m2 = re.match(re.escape(local) + r"((?: [^\s=]+)*) =[ \n]*", body)
        if not m2:
            fn.say(f"answer {local} has another form")
            helpers.append(b)
            continue
        args = m2[1].split()
        term = body[m2.end():]
        if not unfold and re.fullmatch(r"\s*search rules\s*", term):
            continue
        if not args or args[0] != "c":
            fn.say(f"answer {local} takes {args}")
        term = by_cases(fn.turn(term, fn.at[need]), fn.said)
        gap = "\n    " if "\n" in term or len(term) > 120 else " "
        answers.append(f"{m[1]}pub {new} : goal.{new}\n{unfold}{new} c ={gap}{term}")
    if any("(opened c." in a for a in answers):
        uses.append("use borrow.Enum.Refused.{opened}")
    folder = os.path.dirname(path)
    if invariants:
        # what the invariants say by a name of the file stands with them
        shared = []
        for b in list(helpers):
            m = re.match(r"(?:--[^\n]*\n)*(abbrev |unfoldable )(?:pub )?(" + IDENT + r") ", b)
            if m and re.search(rf"(?<![\w.-]){re.escape(m[2])}(?![\w-])", "\n".join(invariants)):
                helpers.remove(b)
                shared.append(b.replace(m[1] + m[2], m[1] + "pub " + m[2], 1))
                uses.append(f"use {module}.Invariants.{{{m[2]}}}")
        invariants = shared + invariants
        ref = "\n".join(invariants)
        with open(os.path.join(folder, "Invariants.antt"), "w", encoding="utf-8") as f:
            f.write("\n".join(comments + [u for u in needed(uses, ref) if f"{module}.Invariants" not in u] + [f"use {module}.Given as goal"]) + "\n\n" + "\n\n".join(invariants) + "\n")
    if answers or helpers:
        ref = "\n".join(answers + helpers)
        with open(os.path.join(folder, "Answers.antt"), "w", encoding="utf-8") as f:
            f.write("\n".join(comments + needed(uses, ref) + [f"use {module}.Goals as goal"] + cases_of(module, ref)) + "\n\n" + "\n\n".join(helpers + answers) + "\n")
    os.remove(path)
    return fn.said


def cases_of(module, text):
    names = sorted(set(re.findall(r"(?<![\w-])((?:[a-z_]+-)?(?:then|else)-\S+) \S+ ↦", text)))
    return [f"use {module}.Goals.{{{', '.join(names)}}}"] if names else []


def needed(uses, text):
    """The use lines with the names that the text has."""
    words = set(re.findall(r"[^\s(){}.;,@\"«»]+", text))
    out = []
    for u in uses:
        m = re.match(r"use (\S+?)\.\{(.*)\}$", u)
        if not m:
            out.append(u)
            continue
        keep = []
        for n in re.split(r", *", m[2]):
            base = n.split(" as ")[-1]
            parts = [p for p in base.split("◌") if p]
            if base in words or (("◌" in base) and all(p in words for p in parts)):
                keep.append(n)
        if keep:
            out.append(f"use {m[1]}.{{{', '.join(keep)}}}")
    return out


def main():
    data = json.load(open(sys.argv[1], encoding="utf-8"))
    crate, only = sys.argv[2], sys.argv[3:]
    cycles = {}
    for key, table in data.items():
        if m := re.fullmatch(rf"Rattle-{crate}-proofs\.(\+\S+)\.Lts-(\S+)", key):
            cycles.setdefault(m[1], {})[m[2]] = table
    for name, tables in cycles.items():
        path = f"crates/{crate}/proofs/{name}/Proof.antt"
        if os.path.exists(path) and (not only or name in only):
            print("\n".join(convert_cycle(crate, name, tables, path)))
    for key, table in data.items():
        m = re.fullmatch(rf"Rattle-{crate}-proofs\.(.+)\.Lts", key)
        if not m or not isinstance(table, dict):
            continue
        name = m[1].replace(".", "/")
        path = f"crates/{crate}/proofs/{name}/Proof.antt"
        if not os.path.exists(path) or (only and name not in only):
            continue
        for s in convert(crate, name, table, path):
            print(s)


main()
