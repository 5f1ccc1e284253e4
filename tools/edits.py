#!/usr/bin/env python3
"""Brings the must-fail edits of an older commit to today's spelling, and says which of them don't fit the files of today.

usage: python3 tools/edits.py turn COMMIT      at the top of the repository, after the port: writes each edit of that commit anew, under its name
       python3 tools/edits.py check            writes nothing

An edit is a file below crates/CRATE/must-fail/ with lines 'file:', 'old:' and 'new:'; those below crates/theory_demands/bites/ apply to crates/rules.
In a text for a file of specs/ the names are turned by tools/respell.tsv, and a projection is written tight: 'f x .p' becomes '(f x).p'. A text for a
file of src/ stays. A pair for a file of proofs/ goes where the edit has another: the proofs of the older commit walk the code, and today's don't. Its comment
then says nothing of the proof.
The lines 'wrong:', 'refused:', 'counter:', 'demand 2:', 'demand 3:' and 'free again:' are turned as the texts for specs/ are, and so is
crates/theory_demands/bites/words, whose own names become words joined by '_'.

The check prints each 'old:' that doesn't stand in its file just once, after the earlier pairs of its edit were put.
"""
import glob
import os
import re
import subprocess
import sys

TOKEN = re.compile(r'\s+|[(){};,]|\.(?=\s|$)|[^\s(){};,]*[^\s(){};,.]|\.')
OPERATORS = set("≡ ≤ && || ++ ∷ + - * / % ^ × → = λ . : when then in let ↦ | ,".split())
# The library's imports of bites/words, as the kit's script turns them.
IMPORTS = re.compile(r"(use (mathlib|Prim|lib)\.[^\n]*\n)+")
IMPORTED = """use Rattle.std.specs.Prelude.{◌≡◌, refl, Bool, true, false, ◌&&◌, List, [], ◌∷◌, map, ℕ, ◌+◌, length, ltb, eqb}
use Rattle.std.proofs.Math.Option.{Option, none, some}
"""
# What a comment says of the pairs for proofs/.
PROOF = re.compile(r"(;|, and) the (lines of the )?proof .*$")
EQUATIONS = ("refused: ", "counter: ", "demand 2: ", "demand 3: ", "free again: ")


def table():
    with open("tools/respell.tsv", encoding="utf-8") as f:
        return dict(line.rstrip("\n").split("\t") for line in f)


def words_of_today():
    """Every word of the definitions, to tell which names the kit's script has turned by itself."""
    words = set()
    for path in glob.glob("crates/*/specs/*.antt"):
        with open(path, encoding="utf-8") as f:
            words.update(re.findall(r"[^\s(){}.;,]+", f.read()))
    return words


def snake(word):
    return re.sub(r"(?<=[a-z0-9])([A-Z])", lambda m: "_" + m[1].lower(), word)


def name(word, names, today):
    if word in names:
        return names[word]
    new = snake(word)
    return new if word[:1].islower() and word not in today and new in today else word


def spelled(text, names, today):
    """The text with today's names, and today's paths."""
    text = text.replace("specs.specs.", "specs.")
    text = re.sub(r"Rattle·(\w+)[·.]", r"Rattle.\1.", text)
    text = re.sub(r"(?<![^\s{,])_(\w+|[^\s\w]+)_(?![^\s},])", r"◌\1◌", text)
    return re.sub(r"[^\s(){}.;,]+", lambda m: name(m[0], names, today), text)


def group(tokens, i):
    """The tokens up to the bracket that closes this group, as items: a text, or a list for a group in brackets."""
    items = []
    while i < len(tokens) and tokens[i] != ")":
        if tokens[i] == "(":
            inner, i, closed = group(tokens, i + 1)
            items.append((inner, closed))
        else:
            items.append(tokens[i])
        i += 1
    return items, i, i < len(tokens)


def tight(items, in_brackets):
    """The text of the items with its projections tight. A group that is a projection and nothing else needs no brackets: it comes back as (text, True)."""
    out = []  # (text, is an atom)
    for item in items:
        if isinstance(item, tuple):
            inner, closed = item
            text, bare = tight(inner, closed)
            out.append((text if bare else "(" + text + (")" if closed else ""), True))
        elif re.fullmatch(r"\.[a-z]\w*", item) and out and out[-1][0].isspace():
            out.pop()
            start = len(out)
            while start and (out[start - 1][1] or out[start - 1][0].isspace() and start > 1 and out[start - 2][1]):
                start -= 1
            spine = "".join(t for t, _ in out[start:])
            one = start == len(out) - 1
            del out[start:]
            out.append(((spine if one else "(" + spine + ")") + item, True))
        else:
            atom = not item.isspace() and item not in OPERATORS and item not in ";,{}" and not re.fullmatch(r"[•]", item)
            out.append((item, atom))
    text = "".join(t for t, _ in out)
    return text, in_brackets and len(out) == 1 and bool(re.search(r"\.[a-z]\w*$", text)) and bool(re.fullmatch(r"[^\s(]+|\(.*\)\.\w+", text))


def turned(text, names, today):
    tokens = TOKEN.findall(spelled(text, names, today))
    out = ""
    i = 0
    while i < len(tokens):
        items, i, closed = group(tokens, i)
        out += tight(items, False)[0] + (")" if closed else "")
        i += 1
    return out


def pairs(lines):
    file, old = None, None
    for line in lines:
        if line.startswith("file: "):
            file = line[6:]
        elif line.startswith("old: "):
            old = line[5:]
        elif re.match(r"new:( |$)", line):
            yield file, old, line[5:]


def edits():
    return sorted(glob.glob("crates/*/must-fail/*.edit") + glob.glob("crates/theory_demands/bites/*.edit"))


def landed(commit, path):
    return subprocess.run(["git", "show", f"{commit}:{path}"], check=True, capture_output=True, text=True).stdout


def turn(commit):
    names, today = table(), words_of_today()
    words = "crates/theory_demands/bites/words"
    before = landed(commit, words)
    names.update((w, snake(w)) for w in re.findall(r"^abbrev (\w+)", before, re.M))
    with open(words, "w", encoding="utf-8") as f:
        f.write("\n".join(line if line.startswith("--") else turned(line, names, today) for line in IMPORTS.sub(IMPORTED, before, 1).split("\n")))
    for path in edits():
        before = landed(commit, path).split("\n")
        other = any(not f.startswith("proofs/") for f, _, _ in pairs(before))
        after, file = [], None
        for line in before:
            if line.startswith("file: "):
                file = line[6:]
            if line.startswith("# ") and other and any(f.startswith("proofs/") for f, _, _ in pairs(before)):
                line = PROOF.sub("", line)
            if file and file.startswith("proofs/") and other and re.match(r"(file|old|new):( |$)", line):
                continue
            if file and file.startswith("specs/") and re.match(r"(old|new): ", line):
                line = line[:5] + turned(line[5:], names, today)
            elif line.startswith(EQUATIONS):
                head, text = line.split(": ", 1)
                line = head + ": " + (spelled if head == "refused" else turned)(text, names, today)
            elif line.startswith("wrong: ") and not re.search(rf"\bfn {re.escape(line.split('::')[-1])}\b", sources(path.split("/")[1])):
                line = re.sub(r"[^:]+$", lambda m: spelled(m[0], names, today), line)
            after.append(line)
        with open(path, "w", encoding="utf-8") as f:
            f.write("\n".join(after))


def sources(crate):
    text = ""
    for path in glob.glob(f"crates/{crate}/src/*.rt"):
        with open(path, encoding="utf-8") as f:
            text += f.read()
    return text


def check():
    n, bad = 0, 0
    for path in edits():
        crate = "rules" if "/bites/" in path else path.split("/")[1]
        n += 1
        texts = {}
        with open(path, encoding="utf-8") as f:
            lines = f.read().split("\n")
        for file, old, new in pairs(lines):
            at = f"crates/{crate}/{file}"
            if at not in texts:
                if not os.path.exists(at):
                    print(f"{path}: there is no {file}")
                    bad += 1
                    break
                with open(at, encoding="utf-8") as f:
                    texts[at] = f.read()
            if texts[at].count(old) != 1:
                print(f"{path}: stands {texts[at].count(old)} times in {file}: {old}")
                bad += 1
                break
            texts[at] = texts[at].replace(old, new)
    print(f"{n} edits, {bad} that don't fit")
    return 1 if bad else 0


if sys.argv[1:2] == ["turn"] and len(sys.argv) == 3:
    turn(sys.argv[2])
    raise SystemExit(check())
if sys.argv[1:] == ["check"]:
    raise SystemExit(check())
print(__doc__)
raise SystemExit(2)
