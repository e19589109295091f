#!/usr/bin/env python3
"""Brings the repository's own definitions and lemmas to the spelling of today's Rattle: words in snake case.

    python3 tools/respell.py        at the top, once, after the kit's port.py

`camelCase` becomes `camel_case`, also between the dashes of a name; types, modules, fields with a dash, functions of src/,
exported names, strings and outputs keep theirs. Pages, tests and must-fail edits follow.
"""
import os
import re

TOKEN = re.compile(r"[A-Za-z_][A-Za-z0-9_'-]*")
CAMEL = re.compile(r"^[a-z][a-z0-9]*(?:[A-Z][a-z0-9]*)+'?$")

# Lemmas that would fall together with a definition of their crate: (folder of proofs, name) and what they are called then.
LEMMAS = {
    ("crates/requests/proofs", "of_number"): "of_number_lem",
    ("crates/lines/proofs", "goes_on"): "goes_on_lem",
    ("crates/listing/proofs", "line_read"): "line_read_lem",
}


def snake(part):
    return re.sub(r"[A-Z]", lambda m: "_" + m.group().lower(), part) if CAMEL.match(part) else part


def respelled(name):
    return "-".join(snake(part) for part in name.split("-"))


def files_of(*tops):
    for top in tops:
        if os.path.isfile(top):
            yield top
        for folder, _, names in os.walk(top):
            if not {"out", "target"} & set(folder.split("/")):
                for name in names:
                    yield os.path.join(folder, name)


def is_source(path):
    return path.endswith((".antt", ".rt", ".edit"))


# `--     NAME ARGUMENTS    words`, and the lines that go on with the words
ENTRY = re.compile(r"^--     (\S.*?)  +(\S.*)$")
GOES_ON = re.compile(r"^--      {6,}(\S.*)$")


def column(line):
    """Where the words of a line begin."""
    return ENTRY.match(line).start(2) if not GOES_ON.match(line) else GOES_ON.match(line).start(1)


def aligned(lines, was):
    """The lists of names at the heads of files: their words in the column that most of them had, or further right where names grew."""
    out = list(lines)
    i = 0
    while i < len(was):
        j = i
        while j < len(was) and (ENTRY.match(was[j]) or (j > i and GOES_ON.match(was[j]))):
            j += 1
        if j > i and lines[i:j] != was[i:j]:
            columns = [column(line) for line in was[i:j]]
            common = max(columns, key=columns.count)
            inside = [k for k in range(i, j) if abs(columns[k - i] - common) <= 1]
            names = [len("--     " + ENTRY.match(lines[k]).group(1)) for k in inside if not GOES_ON.match(was[k])]
            place = max([common] + [length + 2 for length in names])
            for k in inside:
                head = "--" if GOES_ON.match(was[k]) else "--     " + ENTRY.match(lines[k]).group(1)
                words = GOES_ON.match(lines[k]).group(1) if GOES_ON.match(was[k]) else ENTRY.match(lines[k]).group(2)
                out[k] = head.ljust(place) + words
        i = max(j, i + 1)
    return out


def main():
    sources = [path for path in files_of("crates") if is_source(path)]
    own = set()
    for path in sources:
        with open(path, encoding="utf-8") as file:
            own |= {name for name in TOKEN.findall(file.read()) if respelled(name) != name}
    pages = [path for path in files_of("README.md", "docs", "tests", "tools", "examples") if path.endswith((".md", "/test", "/wrong", "/run", ".py", ".sh"))]
    pages += [path for path in files_of("crates") if path.endswith(".md")]
    for path in sources + pages:
        if path == "tools/respell.py":
            continue
        with open(path, encoding="utf-8") as file:
            old = file.read()
        lemmas = {name: new for (folder, name), new in LEMMAS.items() if path.startswith(folder + "/")} if path.endswith(".antt") else {}

        def turned(m):
            name = m.group()
            return lemmas.get(name) or (respelled(name) if name in own else name)

        new = TOKEN.sub(turned, old)
        if path.endswith(".antt"):
            new = "\n".join(aligned(new.split("\n"), old.split("\n")))
        if new != old:
            with open(path, "w", encoding="utf-8") as file:
                file.write(new)


main()
