#!/usr/bin/env python3
"""Brings the repository's own definitions, lemmas and variables to snake case, where the kit's port.py left them
with dashes or in camel case. Types and facts keep their capital, and the library's names stay as they are.

usage: python3 tools/respell.py          at the top, once, after port.py
       python3 tools/respell.py --list   prints old and new names instead

Functions, strings, inputs and outputs are left alone: what is renamed is what the .antt files of crates/ declare, in them, in the
clauses and imports of .rt files, in the lines of edits, and between backticks in pages.
"""

import os
import re
import sys

# What splits names from one another.
BREAK = re.compile(r"([\s(){}\[\].,;:λ\"«»→|`⌜⌝@]+)")
NAME = r"[A-Za-z][^\s(){}\[\].,;:λ\"«»→|`⌜⌝@]*"
DECLARED = re.compile(rf"^\s*(?:(?:abbrev|unfoldable|opaque|pub) )*({NAME}) :(?=\s)")
CAMEL_NAME = re.compile(r"^[a-z][a-z0-9_']*[A-Z][A-Za-z0-9_'-]*$")
CAMEL = re.compile(r"(?<=[a-z0-9])(?=[A-Z])")
# Lemmas that would have a definition's name.
LEMMAS = {"read_at", "listed_by", "held_by", "held_on", "head_at"}
# The library's names, which some files declare a like of, and names that the check makes of goals.
STAY = re.compile(r"^(and-false|drop-append-le|get_or-set_other|leb-true|length-take-le|returns-\d|.*-requires|(decreases|invariant)-loop.*)$")
# Words of a page's code that are no names of definitions.
PAGES = ("README.md", "CONTRIBUTING.md", "SECURITY.md", "docs/PROVED.md", "docs/DECISIONS.md", "docs/LAYOUT.md", "docs/REFUSALS.md", "docs/SPEED.md")


def files(*ends):
    for folder, dirs, names in os.walk("crates"):
        dirs[:] = sorted(d for d in dirs if d != "out")
        for n in sorted(names):
            if n.endswith(ends):
                yield os.path.join(folder, n)


def read(path):
    with open(path, encoding="utf-8") as f:
        return f.read()


def snake(name):
    joined = "_".join(CAMEL.sub("_", p) for p in name.split("-"))
    return joined[0] + re.sub(r"(?<=_)[A-Z]", lambda m: m.group().lower(), joined[1:])


def names():
    """Each name that is to change, with the new one."""
    declared, camel = set(), set()
    for path in files(".antt"):
        by_hand = path.endswith("/Proof.antt")
        for line in read(path).split("\n"):
            if line.lstrip().startswith("--"):
                continue
            m = DECLARED.match(line)
            if m and not by_hand:
                declared.add(m.group(1))
            camel.update(w for w in BREAK.split(line) if CAMEL_NAME.match(w) and "-" not in w)
    for path in files(".rt"):
        for line in read(path).split("\n"):
            if not line.lstrip().startswith("//"):
                camel.update(w for w in BREAK.split(line) if CAMEL_NAME.match(w) and "-" not in w)
    camel = {w for w in camel if w not in LIBRARY}
    new = {w: snake(w) for w in camel}
    taken = set(new.values()) | {w for w in declared if "-" not in w}
    for w in sorted(declared):
        if "-" in w and not STAY.match(w):
            to = snake(w)
            new[w] = to + "_lem" if to in taken else to
    for w in LEMMAS:
        new[w] = w + "_lem"
    return new


# What the library has in camel case.
LIBRARY = {"getD"}


def turned(text, new):
    parts = BREAK.split(text)
    for i in range(0, len(parts), 2):
        if parts[i] in new:
            # beside a dot stands a function's name, which stays
            dotted = parts[i - 1].endswith(".") if i else False
            dotted = dotted or (i + 1 < len(parts) and parts[i + 1].startswith("."))
            if not (parts[i] in LEMMAS and dotted):
                parts[i] = new[parts[i]]
    return "".join(parts)


def antt(text, new):
    out = []
    for line in text.split("\n"):
        code, mark, comment = line, "", ""
        at = 0 if line.startswith("--") else line.find(" --")
        if at >= 0:
            code, comment = line[:at], line[at:]
        in_comment = {a: b for a, b in new.items() if "-" not in a and a not in LEMMAS}
        comment = re.sub(r"`[^`]*`", lambda m: turned(m.group(), new), turned(comment, in_comment))
        out.append(turned(code, new) + comment)
    return "\n".join(out)


def rt(text, new):
    out = []
    for line in text.split("\n"):
        at = line.find("//")
        code, comment = (line, "") if at < 0 else (line[:at], line[at:])
        pieces = re.split(r'("(?:[^"\\]|\\.)*")', code)
        pieces = [p if p.startswith('"') else turned(p, new) for p in pieces]
        in_comment = {a: b for a, b in new.items() if "-" not in a and a not in LEMMAS}
        out.append("".join(pieces) + turned(comment, in_comment))
    return "\n".join(out)


def main():
    new = names()
    if "--list" in sys.argv[1:]:
        for a, b in sorted(new.items()):
            print(a, b)
        return
    # in .rt code a name is a function's or a variable's, which stays: lemmas that lose their name to a definition are not named there
    in_source = {a: b for a, b in new.items() if a not in LEMMAS}
    changed = 0
    for path in files(".antt", ".rt", ".edit"):
        text = read(path)
        if path.endswith(".antt"):
            made = antt(text, new)
        elif path.endswith(".rt"):
            made = rt(text, in_source)
        else:
            made = "\n".join(line if line.startswith(("#", "file:")) else turned(line, in_source) for line in text.split("\n"))
        if made != text:
            changed += 1
            with open(path, "w", encoding="utf-8") as f:
                f.write(made)
    for path in PAGES:
        if not os.path.exists(path):
            continue
        text = read(path)
        made = re.sub(r"`[^`\n]*`", lambda m: turned(m.group(), in_source), text)
        if made != text:
            changed += 1
            with open(path, "w", encoding="utf-8") as f:
                f.write(made)
    print(f"respell: {len(new)} names, {changed} files")


if __name__ == "__main__":
    main()
