#!/usr/bin/env python3
"""Names the fields that tools/answers.py marked by their number, from what a check says of them.

usage: rt check > LOG 2>&1; python3 tools/fields.py LOG     in the crate's folder; exit status 1 if nothing changed
"""
import re
import sys

log = open(sys.argv[1], encoding="utf-8").read()
done = 0
SAID = re.compile(r"^\./(\S+?):(\d+):(\d+): error: (?:(?!error:).)*?has no field `field-(\d+)`.*?the fields that can be named here are ((?:`[^`]+`(?:, )?)+)", re.M | re.S)
for path, line, col, _, names in SAID.findall(log):
    names = re.findall(r"`([^`]+)`", names)
    with open(path, encoding="utf-8") as f:
        lines = f.read().split("\n")
    at = int(line) - 1
    text = "\n".join(lines)
    start = sum(len(x) + 1 for x in lines[:at]) + int(col) - 1
    # the arm that the place stands in, and its variable
    head = [m for m in re.finditer(r"(?:then|else)-\S+ (\S+) ↦", text) if m.end() <= start + 2][-1]
    v, depth, end = head[1], 0, head.end()
    while end < len(text):
        depth += (text[end] in "([{") - (text[end] in ")]}")
        if depth < 0 or depth == 0 and re.match(r"\| (\S+-)?else-", text[end:end + 200]):
            break
        end += 1
    body = text[head.end():end]

    def one(m):
        n = int(m[1])
        return f"{v}.{names[n]}" if n < len(names) else m[0]

    new = re.sub(rf"(?<![\w.′'₀-₉-]){re.escape(v)}\.field-(\d+)(?![\w-])", one, body)
    if new != body:
        done += 1
        with open(path, "w", encoding="utf-8") as f:
            f.write(text[:head.end()] + new + text[end:])


def place(text, line, col):
    lines = text.split("\n")
    return sum(len(x) + 1 for x in lines[:int(line) - 1]) + int(col) - 1


def split(text, at):
    """The parts of the tuple that begins at a place, and its end."""
    depth, parts, start, end = 0, [], at + 1, at
    while end < len(text):
        ch = text[end]
        depth += (ch in "([{") - (ch in ")]}")
        if depth == 1 and ch == "," or depth == 0:
            parts.append(text[start:end].strip())
            start = end + 1
        end += 1
        if depth == 0:
            break
    return [p for p in parts if p], end


# a field by its number, of a record whose fields have names
NUMBER = re.compile(r"^\./(\S+?):(\d+):(\d+): error: (?:(?!error:).)*?has no field `(\d+)`(?:(?!error:).)*?the fields that can be named here are ((?:`[^`]+`(?:, )?)+)", re.M | re.S)
LABEL = re.compile(r"^\./(\S+?):(\d+):(\d+): error: (?:(?!error:).)*?has no field `(\d+)`\s+its fields are ((?:`[^`]+`(?:, )?)+)", re.M | re.S)
# a tuple in place of a record
TUPLE = re.compile(r"^\./(\S+?):(\d+):(\d+): error: (?:(?!error:).)*?is built with `record \{ ([^`]*?) \}`, not as a tuple", re.M | re.S)
edits = []
for path, line, col, n, names in NUMBER.findall(log):
    with open(path, encoding="utf-8") as f:
        text = f.read()
    names, at = re.findall(r"`([^`]+)`", names), place(text, line, col)
    near = [m for m in re.finditer(rf"(?<=\.){n}(?![\w-])", text) if text.count("\n", 0, m.start()) == int(line) - 1]
    n = 0 if len(names) == 1 else int(n)
    if near and n < len(names):
        m = min(near, key=lambda k: abs(k.start() - at))
        edits.append((path, m.start(), m.end(), names[n]))
for path, line, col, n, names in LABEL.findall(log):
    with open(path, encoding="utf-8") as f:
        text = f.read()
    names, at = re.findall(r"`([^`]+)`", names), place(text, line, col)
    # clauses that had no name stood in pairs: the second of three was .1.0
    near = [m for m in re.finditer(rf"(?<=\.)({n}(?:\.\d+)*)(?![\w-])", text) if text.count("\n", 0, m.start()) == int(line) - 1]
    if near:
        m = min(near, key=lambda k: abs(k.start() - at))
        digits, i = m[1].split("."), 0
        while digits and digits[0] == "1" and i < len(names) - 1:
            digits, i = digits[1:], i + 1
        if i < len(names) - 1 and digits:
            digits = digits[1:]
        edits.append((path, m.start(), m.end(), ".".join([names[i]] + digits)))
for path, line, col, fields in TUPLE.findall(log):
    with open(path, encoding="utf-8") as f:
        text = f.read()
    at = place(text, line, col)
    at = text.find("(", at)
    names = [x.split("=")[0].strip() for x in fields.split(";")]
    parts, end = split(text, at)
    while len(parts) < len(names) and parts[-1].startswith("("):
        parts = parts[:-1] + split(parts[-1], 0)[0]
    parts = [p for p in parts if p]
    if len(parts) == len(names):
        edits.append((path, at, end, "record { " + "; ".join(f"{n} = {p}" for n, p in zip(names, parts)) + " }"))
for path, a, b, new in sorted(set(edits), key=lambda e: -e[1]):
    with open(path, encoding="utf-8") as f:
        text = f.read()
    with open(path, "w", encoding="utf-8") as f:
        f.write(text[:a] + new + text[b:])
    done += 1
sys.exit(0 if done else 1)
