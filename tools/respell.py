#!/usr/bin/env python3
"""Spells the repository's own definitions, laws and fields in antt as today's library spells its own: words in snake case, a dash only between the
names that a law joins. It reads and writes crates/*/specs, proofs and src, and what it turned is printed. It is run once, after the kit's own port.

    tools/respell.py          at the top of the repository
    tools/respell.py --list   prints what would be turned, and writes nothing

What it turns: `divDown` to `div_down`, `ownGear-fits` to `own_gear-fits`, and the dashes of a record's field, of a definition or of a constructor to underscores.
What stays: names of Rust, of the library and of generated modules, text in quotation marks of src/, and every name that would meet another one
(those are in LAWS, where the law gets another name)."""

import pathlib
import re
import sys

WORD = r"[^\s(){}.;,@\"«»\[\]\\]+"
# Names that are made by Rattle, from a loop's or a function's own.
MADE = re.compile(r"(invariant|decreases|ghost)-")
# Laws that would have the name of the definition they are about, by file; and names that are bound and not declared.
LAWS = {
    "crates/live_row/proofs/OneFault.antt": {"close_at": "close_at_lem"},
    "crates/lane_runs/proofs/Standing.antt": {"goes_on": "goes_on_lem"},
    "crates/draft/proofs/Gaps.antt": {"left_open": "left_open_lem"},
    "crates/draft/": {"listed_by": "listed_by_lem"},
    "crates/row/": {"not_first": "not_first_lem"},
    "crates/claims/proofs/Contained.antt": {"no_third": "no_third_lem"},
    "crates/claims/proofs/ShiftTenths.antt": {"in_order": "in_order_lem"},
    "crates/own/": {"in_order": "in_order_lem"},
    "crates/tenths/proofs/Marks.antt": {"in_order": "in_order_lem"},
}
BOUND = {"changedRoom", "gasRead", "hasNmhc", "inAir", "inBag", "openRoom", "partRead"}
DECLARED = re.compile(rf"(?m)^( *)((?:(?:abbrev|unfoldable|pub) )*)({WORD})(?: \{{[^{{}}\n]*\}})* :(?= |$)")
GROUP = re.compile(rf"^( *)(?:pub )?(record|data) ({WORD})")
HUMP = re.compile(r"(?<=[a-z0-9])[A-Z]+")


def snake(name):
    """The parts between dashes that begin small, with their humps turned."""
    parts = name.split("-")
    return "-".join(HUMP.sub(lambda m: "_" + m[0].lower(), p) if p[:1].islower() else p for p in parts)


def code_lines(text):
    """The lines without their remarks."""
    return "\n".join(line.split("--", 1)[0] if line.lstrip().startswith("--") else line for line in text.split("\n"))


def declared(text):
    """Each declared name, and what it is: a field of a record or a constructor, a word that is defined, or a law."""
    group = None
    for line in code_lines(text).split("\n"):
        if not line.strip():
            continue
        indent = len(line) - len(line.lstrip())
        if group is not None and indent <= group:
            group = None
        head = GROUP.match(line)
        if head:
            group = len(head[1])
            continue
        it = DECLARED.match(line)
        if it:
            word = "abbrev" in it[2] or "unfoldable" in it[2]
            yield it[3], "field" if group is not None else "word" if word else "law"


def turned(names):
    """A new spelling for each name that gets one: none that two names would share, or that stands already as anything but a field."""
    table = {}
    for name, kind in names.items():
        new = snake(name)
        if kind != "law" and name[:1].islower() and not MADE.match(name):
            new = new.replace("-", "_")
        if new != name:
            table[name] = new
    taken = {name for name, kind in names.items() if name not in table and kind != "field"}
    for name, new in sorted(table.items()):
        rivals = [other for other, it in table.items() if it == new and other != name and names[other] == names[name]]
        if new in taken and names[name] != "field" or rivals:
            print(f"stays: {name}, since {new} is there")
            del table[name]
    return table | {name: snake(name) for name in BOUND}


TOKEN = re.compile(rf"\"(?:[^\"\\\n]|\\.)*\"|{WORD}")


def spelled(text, table):
    return TOKEN.sub(lambda m: table.get(m[0], m[0]), text)


def main():
    root = pathlib.Path(".")
    antt = sorted(root.glob("crates/*/specs/**/*.antt")) + sorted(root.glob("crates/*/proofs/**/*.antt"))
    source = sorted(root.glob("crates/*/src/**/*.rt"))
    laws = {path: {old: new for head, table in LAWS.items() if str(path).startswith(head) for old, new in table.items()} for path in antt}
    texts = {path: spelled(path.read_text(encoding="utf-8"), laws[path]) for path in antt}
    names = {}
    for path, text in texts.items():
        for name, kind in declared(text):
            if kind != "law" and path.parts[2] == "proofs" and len(path.parts) > 4:
                kind = "law"
            if names.get(name, "law") == "law":
                names[name] = kind
    table = turned(names)
    for old, new in sorted(table.items()):
        print(f"{old}\t{new}")
    if sys.argv[1:] == ["--list"]:
        return
    for path in source:
        texts[path] = path.read_text(encoding="utf-8")
    for path, text in texts.items():
        path.write_text(spelled(text, table), encoding="utf-8")


main()
