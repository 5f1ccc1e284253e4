#!/usr/bin/env python3
"""Counts the places of docs/DESIGN-PASS.md in the sources, by a rule for each point.

  python3 tools/places.py [COMMIT] [--list]

Without COMMIT it reads the files as they lie here. With --list each place has a line of its own.
"""
import difflib
import re
import subprocess
import sys

KEYWORDS = set(
    "fn pub let mut if else while for in loop match return as use impl struct enum const mod self Self "
    "Some None Ok Err true false".split()
)
TOKEN = re.compile(r"[A-Za-z_][A-Za-z_0-9]*|[0-9][0-9a-fx_]*|[^\sA-Za-z_0-9]")


def sources(commit):
    """The path and text of each source file."""
    if commit is None:
        names = subprocess.check_output(["git", "ls-files", "-co", "--exclude-standard", "crates/*/src/*.rt"], text=True).split()
        return [(n, open(n, encoding="utf-8").read()) for n in sorted(set(names))]
    names = subprocess.check_output(["git", "ls-tree", "-r", "--name-only", commit, "crates"], text=True).split()
    wanted = sorted(n for n in names if re.fullmatch(r"crates/\w+/src/.*\.rt", n))
    return [(n, subprocess.check_output(["git", "show", f"{commit}:{n}"], text=True)) for n in wanted]


def without_comments(text):
    return "\n".join("" if line.lstrip().startswith("//") else line for line in text.split("\n"))


def functions(path, text):
    """Each function: its name, the comment above it, its parameters, its clauses, its body."""
    out = []
    lines = text.split("\n")
    i = 0
    crate = path.split("/")[1]
    while i < len(lines):
        m = re.match(r'(\s*)(?:pub )?(?:extern "C" )?fn (\w+)', lines[i])
        if not m:
            i += 1
            continue
        indent = m.group(1)
        end = i
        while end < len(lines) and lines[end] != indent + "}" and not (lines[end].rstrip().endswith("}") and "{" in lines[end] and end == i and "requires" not in lines[end]):
            end += 1
        first = i
        while first > 0 and lines[first - 1].lstrip().startswith("//"):
            first -= 1
        whole = "\n".join(lines[i : end + 1])
        head, _, body = whole.partition("\n" + indent + "{\n")
        if not body:
            head, _, body = whole.partition(" {\n")
        depth = 0
        start = head.find("(", head.find(m.group(2)))
        stop = start
        for stop in range(start, len(head)):
            depth += {"(": 1, ")": -1}.get(head[stop], 0)
            if depth == 0:
                break
        comment = " ".join(line.strip() for line in lines[first:i])
        out.append(
            {
                "name": f"{crate}::{m.group(2)}",
                "comment": comment,
                "params": [p for p in split_top(head[start + 1 : stop]) if p.strip()],
                "clauses": head[stop + 1 :],
                "body": body,
                "line": f"{path}:{i + 1}",
            }
        )
        i = end + 1
    return out


def split_top(text):
    """Splits at commas that stand in no bracket."""
    parts, depth, last = [], 0, 0
    for i, c in enumerate(text):
        if c in "([{<":
            depth += 1
        elif c in ")]}>":
            depth -= 1
        elif c == "," and depth == 0:
            parts.append(text[last:i])
            last = i + 1
    parts.append(text[last:])
    return parts


def shape(body):
    """The body's tokens with its names and numbers all alike."""
    out = []
    for t in TOKEN.findall(without_comments(body)):
        if t in KEYWORDS or not re.match(r"[A-Za-z_0-9]", t):
            out.append(t)
        else:
            out.append("0" if t[0].isdigit() else "x")
    return out


def facts(clauses):
    """The facts that the requires-clauses of a function name."""
    found = []
    for clause in re.findall(r"requires[^{]*\{(.*?)\}\s*(?=requires|ensures|$)", clauses, re.S):
        for fact in clause.split("×"):
            fact = re.sub(r"\s+", " ", fact).strip().strip("()")
            fact = re.sub(r"\b(\w+)\.(now|old|new)\b", r"\1", fact)
            if fact and "λ" not in fact:
                found.append(fact)
    return found


SENTINEL = re.compile(
    r"(, or n\b|or n\.|where there is none|if there is none|or 66|0 where|0 for none|for none by|65,535 for none|1,025 for refusal"
    r"|or the length of the (lent )?rows|where (it has|it is|he has) none|where it has none|length where there)"
)


def main():
    args = [a for a in sys.argv[1:] if not a.startswith("--")]
    listing = "--list" in sys.argv
    files = sources(args[0] if args else None)
    places = {}

    def add(key, what):
        places.setdefault(key, []).append(what)

    funcs = []
    for path, text in files:
        bare = without_comments(text)
        for n, line in enumerate(bare.split("\n"), 1):
            at = f"{path}:{n}"
            if re.match(r"\s*(pub )?enum \w+", line):
                add("1a own enums", f"{at} {line.strip()}")
            if re.search(r"\b\w+: usize = \d+;", line) and "refusals" in path:
                add("1b numbers for refusals: constants", f"{at} {line.strip()}")
            if re.match(r"\s*while ", line):
                add("3 loops by `while`", f"{at} {line.strip()}")
        funcs += functions(path, text)
    for f in funcs:
        result = f["clauses"].split("\n")[0]
        if f["name"].endswith("verdict") and "-> usize" in result:
            add("1c functions that answer a refusal's number", f"{f['line']} {f['name']}")
        if SENTINEL.search(f["comment"]) and "Option<" not in result and "Result<" not in result and "->" in result:
            add("1d functions with a number for none or for a refusal", f"{f['line']} {f['name']}")
        squeezed = re.sub(r"\s+", " ", without_comments(f["body"])).strip(" }")
        if re.fullmatch(r"\(?\w+( % 256)?\)? as \w+", squeezed):
            add("4 conversions, orders and copies by hand", f"{f['line']} {f['name']}: {squeezed}")
        elif re.fullmatch(r"if [^{}]*(<|<=|==)[^{}]* \{ return [^{}]*; \} [^{};]+", squeezed) and f["name"].split("::")[1] in (
            "less", "later", "either", "wide", "capped_sum", "weight", "byte", "word", "at", "pairs", "pairs_in", "index", "within"):
            add("4 conversions, orders and copies by hand", f"{f['line']} {f['name']}")
        elif f["name"].split("::")[1] in ("copy", "flat", "put_word", "get_word", "put_bytes", "clear", "put_cover", "nearer", "index", "within", "number_of", "value_of"):
            add("4 conversions, orders and copies by hand", f"{f['line']} {f['name']}")
        if len(f["params"]) >= 7:
            add("5a functions with seven parameters or more", f"{f['line']} {f['name']} {len(f['params'])}")
        if any(re.match(r"\s*which: ", p) for p in f["params"]):
            add("7a parameters `which`", f"{f['line']} {f['name']}")
        if len(re.findall(r"if (?:tag|which|p|e) (?:==|<) ", f["body"])) >= 3:
            add("7b chains of ifs on one number", f"{f['line']} {f['name']}")
        for p, q in zip(f["params"], f["params"][1:]):
            if re.search(r": &(?:'\w+ )?(mut )?\[\w+\]$", p.strip()) and re.match(r"\s*(n|w|m|at|d): (usize|u64)$", q):
                add("6 slices with a length or a place beside them", f"{f['line']} {f['name']}({p.strip()}, {q.strip()})")
    seen = {}
    for f in funcs:
        for fact in set(facts(f["clauses"])):
            seen.setdefault(fact, []).append(f["name"])
    for fact, names in sorted(seen.items(), key=lambda x: -len(x[1])):
        if len(names) >= 3:
            add("5b facts in the requires-clauses of three functions or more", f"{len(names)} {fact}")
    shapes = [(f, shape(f["body"])) for f in funcs]
    shapes = [(f, s) for f, s in shapes if len(s) >= 28 and "desk_c" not in f["name"]]
    for i, (f, s) in enumerate(shapes):
        for g, t in shapes[:i]:
            if min(len(s), len(t)) / max(len(s), len(t)) > 0.85:
                m = difflib.SequenceMatcher(None, s, t, autojunk=False)
                if m.quick_ratio() >= 0.93 and m.ratio() >= 0.93:
                    add("2 twins: pairs of bodies alike but for names and numbers", f"{g['name']} {f['name']}")
    for key in sorted(places):
        print(f"{len(places[key]):4}  {key}")
        if listing:
            for place in places[key]:
                print(f"          {place}")


if __name__ == "__main__":
    main()
