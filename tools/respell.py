#!/usr/bin/env python3
"""Brings the names of this repository's own definitions and lemmas to one spelling: words in snake case, types and facts in camel case.

usage: python3 tools/respell.py TABLE      at the top of the repository, after the port: writes the table of old and new names, and turns no file
       the kit's script then turns the files by that table: snake.py --table TABLE crates

A definition, a field and a constructor are words joined by '_'. In a lemma a dash stays where it joins the names of two definitions, as in
'inside-packed', and every other one becomes '_'. A name that the library has too stays.
"""
import collections
import functools
import os
import re
import sys

WORD = re.compile(r'[^\s(){}.;,@"«»]+')
HEAD = re.compile(r"^( *)((?:(?:pub|abbrev|unfoldable|data|record|ruleset) +)*)([^\s(){}:.;,]+)((?: +[({].*?)?) *:(?: +(.*))?$")
STD = set("""length append map take drop sum reverse replicate keep all any filter concat zip min max get set index count sort
none some true false not cond leb ltb eqb zero suc refl sym fold head tail last mod div bit_and bit_or""".split())


# Names that would fall together with a field of src/, a label of the check's or one another.
BY_HAND = {
    "onTime": "on_time_of",
    "notArrived": "not_arrived_of",
    "nextRow": "next_row_of",
    "enteringLong": "entering_long",
    "entering-long": "entering_long",
    "heldLong": "held_long",
    "held-long": "held_long",
    "lastMinute": "last_minute",
    "last-minute": "last_minute",
    "is-other": "is_other_track",
    "of-file": "is_of_file",
    "in_place": "stands_in_place",
    "on-way": "is_on_way",
    "per-train": "each_train",
    "next_row": "next_row",
}


def files():
    for folder, dirs, names in os.walk("crates"):
        dirs[:] = sorted(d for d in dirs if d != "out")
        for name in sorted(names):
            if name.endswith(".antt"):
                yield os.path.join(folder, name)


def declared():
    """Every name that a file of specs/ or proofs/ declares at the head of a line, and whether one of its declarations is no lemma."""
    words, lemmas = set(), set()
    tokens = collections.Counter()
    for path in files():
        with open(path, encoding="utf-8") as f:
            text = f.read()
        code = re.sub(r"(?<![^\s(){}.;,])--[^\n]*", "", text)
        tokens.update(WORD.findall(code))
        if path.endswith("/Proof.antt"):
            continue
        block = None
        for line in code.split("\n"):
            m = HEAD.match(line)
            bare = line.strip()
            indent = len(line) - len(line.lstrip())
            if block is not None and bare and indent <= block:
                block = None
            if m and not bare.startswith(("use ", "let ", "module ", "where", "in ")):
                kinds, name = m[2].split(), m[3]
                if {"data", "record"} & set(kinds):
                    block = indent
                    continue
                if block is not None or {"abbrev", "unfoldable"} & set(kinds):
                    words.add(name)
                elif not {"ruleset"} & set(kinds):
                    lemmas.add(name)
            elif re.match(r"^ *(?:pub )?(?:data|record) ", line):
                block = indent
            elif several := re.match(r"^ *(?:pub )?((?:[a-z][^\s(){}:.;,]* +)+[a-z][^\s(){}:.;,]*) *: ", line):
                words.update(several[1].split())
    return words, lemmas - words, tokens


def imported():
    """The names that some file takes from the library or the logic."""
    names = set()
    for path in files():
        with open(path, encoding="utf-8") as f:
            for m in re.finditer(r"^use (?!Rattle\.(?!std\.))[^\s{]*\{([^}]*)\}", f.read(), re.M):
                names.update(re.split(r"[\s,]+", m[1]))
    return names


@functools.cache
def functions():
    names = set()
    for folder, _, fs in os.walk("crates"):
        for name in fs:
            if name.endswith(".rt"):
                with open(os.path.join(folder, name), encoding="utf-8") as f:
                    names.update(re.findall(r"\bfn (\w+)", f.read()))
    return names


def snake(piece):
    """A piece that begins with a small letter, with '_' before each hump."""
    if not piece or not piece[0].islower():
        return piece
    return re.sub(r"(?<=[a-z0-9′'₀-₉])([A-Z])", lambda m: "_" + m[1].lower(), piece)


def main():
    words, lemmas, tokens = declared()
    table = dict(BY_HAND)
    named = {w: snake(w).replace("-", "_") for w in words if re.match(r"[a-z]", w)}
    capital = {w for w in words if re.match(r"[A-Z]", w)}
    known = set(named) | capital | STD

    def lemma(name):
        pieces = name.split("-")
        out, at, before = "", 0, None
        while at < len(pieces):
            for end in range(len(pieces), at, -1):
                one = "-".join(pieces[at:end])
                if one in known or end == at + 1:
                    break
            is_name = one in known or snake(one) in known or one.replace("_", "-") in known
            spelled = named.get(one, snake(one).replace("-", "_"))
            if before is None:
                out = spelled
            else:
                out += ("-" if is_name and before else "_") + spelled
            before, at = is_name, end
        return out

    for w, new in named.items():
        if new != w and w not in BY_HAND:
            table[w] = new
    for w in lemmas:
        if re.match(r"[a-zA-Z]", w) and (new := lemma(w)) != w:
            table[w] = new
    # a definition's new name is its own: a lemma that would have it, or has it, gets '_lem'
    spelled = {table.get(w, w) for w in words}
    for w in sorted(lemmas):
        new = table.get(w, w)
        if new in spelled and re.match(r"[a-z]", w) and w not in BY_HAND:
            table[w] = new + "_lem"
    outside = imported()
    for new, n in collections.Counter(table.get(w, w) for w in words | lemmas).items():
        if n > 1 and new not in BY_HAND.values():
            olds = sorted(w for w in words | lemmas if table.get(w, w) == new)
            keep = [w for w in olds if w in words] or olds[:1]
            for w in olds:
                if w not in keep[:1]:
                    table[w] = new + ("_lem" if w in lemmas else "_of")
                    print(f"falls together: {olds} -> {new}; {w} -> {table[w]}")
    for w, new in list(table.items()):
        if new in outside or new in tokens and new not in words | lemmas and new not in functions():
            print(f"taken: {w} -> {new}, {tokens[new]} times, {'outside' if new in outside else ''}")
    table = {w: new for w, new in table.items() if w != new and w not in outside}
    with open(sys.argv[1], "w", encoding="utf-8") as f:
        for w in sorted(table):
            f.write(f"{w}\t{table[w]}\n")
    print(len(table), "names")


main()
