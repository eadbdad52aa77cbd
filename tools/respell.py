#!/usr/bin/env python3
"""Brings the repository's own names in specs/ and proofs/ to today's spelling: words in snake case, facts and types in camel case.

    python3 tools/respell.py        at the top of the repository, once, on what port.py made of it

The names stand in tools/respell.txt, a line for each: OLD NEW, or OLD NEW PATH where only the files whose path begins so have the new name (the
first line that fits a file counts). Two names that would fall together are kept apart there: a lemma or a field that would have its function's
name ends in _lem, and in the outcomes in _outcome.

It goes through the .antt files, the clauses and comments of the .rt files, the must-fail edits and the other edits (tests/), and the names in backquotes
in README.md and docs/. What stands in a string, a path of a module or a step of a generated proof (c.STEP) keeps its spelling.
"""
import os
import re
import sys

HERE = os.path.dirname(os.path.abspath(__file__))
TOKEN = re.compile(r"[^\s(){}\[\].,;:\"λ`«»|]+")
STRING = re.compile(r'"(?:[^"\\]|\\.)*"')


def table():
    rows = []
    with open(f"{HERE}/respell.txt", encoding="utf-8") as lines:
        for line in lines:
            words = line.split()
            if words:
                rows.append((words[0], words[1], words[2] if len(words) > 2 else ""))
    return rows


def names_of(rows, path):
    names = {}
    for old, new, prefix in rows:
        if path.startswith(prefix):
            names.setdefault(old, new)
    return names


def respelled(text, names, steps=False, dashes=True, plain=True):
    """The names of a piece of text. With `steps`, what follows c. or w. is a step of a generated proof."""
    strings = [(m.start(), m.end()) for m in STRING.finditer(text)]

    def one(m):
        word = m.group(0)
        new = names.get(word)
        if new is None or any(a < m.start() < b for a, b in strings):
            return word
        if not dashes and "-" in word:
            return word
        before = text[: m.start()]
        if re.search(r"[A-Z_a-z]", word) and before.endswith("."):
            if not re.search(r"[A-Z-]", word):
                return word
            root = re.search(r"(?:^|[\s(){}\[\],;:λ`])([^\s(){}\[\],;:λ`]*)\.$", before)
            first = root.group(1).split(".")[0] if root else ""
            if steps and first in ("c", "w", "l"):
                return word
        elif not plain and not re.search(r"[A-Z-]", word):
            return word
        return new

    return TOKEN.sub(one, text)


def antt(text, names, steps):
    lines = []
    for line in text.split("\n"):
        code, dash, comment = line, "", ""
        at = re.search(r"(?:^|\s)--(?:\s|$)", line)
        if at:
            code, comment = line[: at.start()], line[at.start():]
        code = respelled(code, names, steps)
        if comment:
            comment = quoted(comment, names)
            comment = respelled(comment, names, dashes=False, plain=False)
        lines.append(code + comment)
    return "\n".join(lines)


def rust(text, names):
    lines = []
    for line in text.split("\n"):
        lines.append(respelled(line, names, dashes=False, plain=False))
    return "\n".join(lines)


def quoted(text, names):
    return re.sub(r"`[^`\n]*`", lambda m: respelled(m.group(0), names, plain=False), text)


# What port.py renamed, which it doesn't in edits.
BEFORE = {
    "getD": "get_or", "at-last": "at_last", "_||_": "◌||◌", "_&&_": "◌&&◌", "_≡_": "◌≡◌",
}
for _word in """answerOf bitAt byteCount firstOf formOf imageOf isOver kindOf lastOf linesOf lookOf nameOf numberOf pageOf placeIn placeOf plainByte readBy
        rowIn runFrom runOf seenAt startOf stepOf tableOf takenOf valueOf wordAt""".split():
    BEFORE[_word] = re.sub(r"([A-Z])", lambda m: "_" + m.group(1).lower(), _word)

FIELDS = r"((?: \.[\w-]+)+)"
INNER = r"((?:[^()]|\((?:[^()]|\([^()]*\))*\))*?)"


def tight(text):
    """Projections as they are written today: (x .f) is x.f, and (g x .f) is (g x).f."""

    def bracketed(m):
        inner, fields = m.group(1), m.group(2).replace(" ", "")
        return f"{inner}{fields}" if re.fullmatch(r"[^\s()]+", inner) else f"({inner}){fields}"

    last = None
    while last != text:
        last = text
        text = re.sub(r"\(" + INNER + FIELDS + r"\)", bracketed, text, count=1)
    # outside brackets: a variable alone, or a call from the operator before it on
    text = re.sub(r"(?:(?<=^)|(?<=[(,;] )|(?<=[(]))([a-z]\w*)" + FIELDS, lambda m: m.group(1) + m.group(2).replace(" ", ""), text)
    text = re.sub(r"(?<=[=≡≤+*→&] )([a-z]\w*)" + FIELDS, lambda m: m.group(1) + m.group(2).replace(" ", ""), text)
    text = re.sub(
        r"(?:(?<=^)|(?<=[=≡≤+*→&(] ))((?:[a-z]\w*)(?: (?:[a-z0-9]\w*|\([^()]*\)))+)" + FIELDS,
        lambda m: f"({m.group(1)})" + m.group(2).replace(" ", ""), text)
    return text


def edit(text, names, folder):
    """Lines file:, old:, new:; what is not one of these is a comment."""
    out, name = [], ""
    for line in text.split("\n"):
        if line.startswith("file: "):
            name = line[6:]
        m = re.match(r"(old: |new: )(.*)", line)
        if m:
            path = name if name.startswith("crates/") else f"crates/{folder}/{name}"
            if not name.startswith("crates/") and re.match(r"[a-z0-9_]+/(src|specs|proofs)/", name):
                path = f"crates/{name}"
            own = names(path)
            if name.endswith(".antt"):
                words = re.sub(r"\bRattle·(\w+)(·specs)?\.specs\.(?:specs\.)?", r"Rattle.\1.specs.", m.group(2))
                words = tight(respelled(words, {**BEFORE, **{k: own.get(v, v) for k, v in BEFORE.items()}}))
                line = m.group(1) + respelled(words, own, "/proofs/" in path)
            else:
                line = m.group(1) + rust(m.group(2), own)
        else:
            line = quoted(line, names(f"crates/{folder}/"))
        out.append(line)
    return "\n".join(out)


def main():
    rows = table()
    changed = 0
    for root, folders, files in os.walk("."):
        folders[:] = [f for f in folders if f not in (".git", "out", "target", "tools")]
        for name in files:
            path = os.path.relpath(os.path.join(root, name), ".")
            if not name.endswith((".antt", ".rt", ".edit", ".md")):
                continue
            with open(path, encoding="utf-8") as handle:
                text = handle.read()
            names = names_of(rows, path)
            if name.endswith(".antt"):
                new = antt(text, names, "/proofs/" in path)
            elif name.endswith(".rt"):
                new = rust(text, names)
            elif name.endswith(".md"):
                new = quoted(text, names)
            else:
                parts = path.split("/")
                folder = parts[1] if parts[0] == "crates" else parts[-2]
                new = edit(text, lambda p: names_of(rows, p), folder)
            if new != text:
                with open(path, "w", encoding="utf-8") as handle:
                    handle.write(new)
                changed += 1
    print(f"respell: {changed} files changed", file=sys.stderr)


main()
