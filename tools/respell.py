#!/usr/bin/env python3
"""Brings the names of definitions and lemmas of crates/ to the spelling of today's library: words in snake case, a dash only between
the names of two definitions. Run once, right after port.py. Names of src/, strings and what programs read and write stay.

usage: tools/respell.py          respells in place
       tools/respell.py --map    prints the old and new names
"""
import glob
import os
import re
import sys

TOKEN = re.compile(r"[^\W\d][\w'·◌-]*")
DEFINED = re.compile(r"(?m)^(\s*)(pub |abbrev |unfoldable )*([^\W\d][\w'·-]*)\s*:(?!:)\s*(.*)$")
IMPORT = re.compile(r"(?m)^(?:ghost )?use ([\w.·+-]+)\.\{([^}]*)\}")
# words of the library that name a definition there
LIBRARY = set("""length take drop map set replicate append get_or filter sum reverse cons cond eqb leb ltb min max add mul sub div mod pow
suc zero eq le lt nil and or not flat_map""".split())
# names that port.py took apart
MENDED = {"get_d_front": "get_or-front", "in_order": "in_reordered", "rowBack": "row_put_back", "day-floor-is": "day_floor_is",
          "first-tags": "first_tags_lem", "netBefore": "net_before", "net-before": "net_before_lem",
          "planLists": "plan_lists"}


def parts(name):
    return [p for p in re.split(r"-", name) if p]


def snake(word):
    word = word.replace("getD", "get_or")
    if word[:1].isupper():
        return word
    return re.sub(r"(?<=[a-z0-9])([A-Z])", lambda m: "_" + m.group(1).lower(), word)


def texts():
    for pattern in ("crates/*/specs/*.antt", "crates/*/proofs/**/*.antt"):
        yield from sorted(glob.glob(pattern, recursive=True))


def defined():
    """Every name that is defined: in specs/, in lemmas, and the helpers of proofs; and which of them are definitions, not lemmas."""
    names, functions = {}, set()
    for path in texts():
        with open(path, encoding="utf-8") as f:
            text = f.read()
        for m in DEFINED.finditer(text):
            name, kind = m.group(3), m.group(4)
            if kind.startswith("tie.") or kind.startswith("goal."):
                continue
            names.setdefault(name, set()).add(path)
            if "/specs/" in path and re.search("abbrev|unfoldable", m.group(0).split(":")[0]):
                functions.add(name)
    return names, functions


def joined(ps, words, whole):
    """The parts with a dash between two that are names of definitions; a name may be several parts long."""
    runs = []
    while ps:
        n = next((n for n in range(len(ps), 1, -1) if "_".join(ps[:n]) in words), 1)
        runs.append("_".join(ps[:n]))
        ps = ps[n:]
    new = runs[0]
    for a, b in zip(runs, runs[1:]):
        new += ("-" if a in words and b in words and not whole else "_") + b
    return new


def renamed(names, functions):
    words = {snake(f) for f in functions} | LIBRARY
    out = {}
    for name in names:
        new = MENDED.get(name) or joined([snake(p) for p in parts(name)], words, name.endswith("-spec"))
        if name != new:
            out[name] = new
    # a lemma that would have the name of a definition
    for name, new in list(out.items()):
        if new in names or any(n != name and out.get(n) == new for n in names):
            if name not in functions:
                out[name] = new + "_lem"
    return out


def foreign(text):
    """Names that a file takes from the library."""
    out = set()
    for m in IMPORT.finditer(text):
        if not (m.group(1).startswith("Rattle.") and m.group(1).split(".")[1] in CRATES):
            out |= set(TOKEN.findall(m.group(2)))
    return out


CRATES = set(os.listdir("crates"))


def swap(piece, table):
    return TOKEN.sub(lambda m: table.get(m.group(0), m.group(0)), piece)


def camel(table):
    return {k: v for k, v in table.items() if re.search(r"[a-z][A-Z]", k)}


def respell(path, text, table):
    table = {k: v for k, v in table.items() if k not in foreign(text)}
    mark = "//" if path.endswith(".rt") else "--"
    lines = []
    for line in text.split("\n"):
        # an antt comment begins with two dashes and a blank; a string of a program stays
        m = re.search(r"(?:^|(?<=\s))" + mark + r"(?=\s|$|-)", line)
        code, comment = (line[: m.start()], line[m.start():]) if m else (line, "")
        if path.endswith(".rt"):
            bits = re.split(r'("(?:[^"\\]|\\.)*")', code)
            code = "".join(b if b.startswith('"') else swap(b, table) for b in bits)
        else:
            code = swap(code, table)
        comment = re.sub(r"`[^`]*`", lambda q: swap(q.group(0), table), comment)
        lines.append(code + swap(comment, camel(table)))
    return "\n".join(lines)


def main():
    names, functions = defined()
    table = renamed(names, functions) | {"planLists": MENDED["planLists"]}
    back = {}
    for old, new in table.items():
        back.setdefault(new, []).append(old)
    for new, olds in sorted(back.items()):
        if len(olds) > 1 or new in names:
            print("falls together:", new, olds, "(is defined)" if new in names else "", file=sys.stderr)
    if "--map" in sys.argv:
        for old, new in sorted(table.items()):
            print(old, new)
        return
    paths = list(texts()) + sorted(glob.glob("crates/*/src/**/*.rt", recursive=True))
    for path in paths:
        with open(path, encoding="utf-8") as f:
            text = f.read()
        new = respell(path, text, table)
        if new != text:
            with open(path, "w", encoding="utf-8") as f:
                f.write(new)


if __name__ == "__main__":
    main()
