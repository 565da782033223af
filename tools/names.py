#!/usr/bin/env python3
"""Gives the repository's own definitions today's spelling, below crates/: words in snake case.

Run once, at the top, after the toolchain's own script (docs/PORT.md names the commits). A word of the definitions that has a capital inside gets an
underscore there (`rowSound`, `row_sound`), wherever it stands: definitions, clauses, proofs, comments. So does what had a dash, of the repository's own: fields of records, lemmas and the
variables that they are stated of (`full-length`, `full_length`); where the new name was another thing's, it ends in `_lem`. Names in code, in strings, in numbers, of the library, and those
that the check makes of code, as goals' names, keep theirs.
"""

import os
import re

WORD = re.compile(r"[^\W\d][\w'-]*")
HUMP = re.compile(r"(?<=[A-Za-z0-9])([A-Z])")
# names that would fall together with another one, or with a field of a declared struct
OTHER = {
    "deviceControl": "device_control_register",
    "linkControl": "link_control_register",
    "passedOn": "passes_on",
    "oneEntry": "one_entry_table",
    "is_Known": "is_known",
    "mCFG": "mCFG",
    "getD": "get_or",
}
# the library's
KEPT = {"uint_Makes", "uint_Tells", "uint_Lawful", "bool_Makes", "bool_Tells", "bool_Lawful", "mut_Tells", "mut_slice_Tells", "mut_slice_Lawful", "shr_slice_Tells", "shr_slice_Lawful"}
FIELD = re.compile(r"^ +(?:pub )?([a-z]\w*(?:-\w+)+) :")
RECORD = re.compile(r"^pub record |^record ")


def snake(part):
    if part in OTHER:
        return OTHER[part]
    if part in KEPT or not re.match(r"[a-z]", part):
        return part
    return HUMP.sub(lambda m: "_" + m.group(1).lower(), part)


def word(m, fields):
    name, before = m.group(0), m.string[: m.start()]
    if re.match(r"x[0-9A-F_]+$", name) and before.endswith("0"):
        return name
    if name in fields:
        return fields[name]
    return "-".join(snake(p) for p in name.split("-"))


def files():
    for folder, inside, names in os.walk("crates"):
        inside[:] = sorted(d for d in inside if d != "out")
        for name in sorted(names):
            if name.endswith((".antt", ".rt")):
                yield os.path.join(folder, name)


def fields_of(text):
    """The fields, with a dash, of the records that a file of specs/ declares."""
    found, inside = set(), False
    for line in text.splitlines():
        if line and not line.startswith((" ", "-")):
            inside = bool(RECORD.match(line))
        m = FIELD.match(line)
        if inside and m:
            found.add(m.group(1))
    return found


DECLARED = re.compile(r"^ *(?:(?:pub|abbrev|unfoldable)\s+)*([a-z][\w']*(?:-[\w']+)+)(?:\s*(?:\{[^}]*\}|\([^)]*\)))*\s*:(?!:)(?! *goal\.)", re.M)
BOUND = re.compile(r"[({]((?:[\w'-]+ )*[a-z][\w']*(?:-[\w']+)+(?: [\w'-]+)*) :")
IMPORTED = re.compile(r"use ([\w.\u00b7]+)\.\{([^}]*)\}")
# what the check calls a goal, a loop, a step
MADE = re.compile(r"^(returns|loop|invariant|decreases|slice|element|mul|add|cast|entry|overflow|bounds)-|-(requires|spec)(-\d+)?$|^[a-z_]+-[a-z_]*-?t\d+$")


def of_code(path):
    """Whether the file is a function's proof, whose own names follow the code."""
    return path.endswith(("/Proof.antt", "/Given.antt"))


def lemmas_of(texts):
    """The names with a dash that the repository declares or binds, each with its new one."""
    own, library, words = set(), set(), set()
    for path, text in texts.items():
        words.update(m.group(0) for m in WORD.finditer(text))
        for m in IMPORTED.finditer(text):
            if not m.group(1).startswith("Rattle") or m.group(1).startswith(("Rattle.std", "Rattle.core")):
                library.update(n.strip().split(" as ")[0] for n in m.group(2).split(","))
        if path.endswith(".antt") and not of_code(path):
            own.update(m.group(1) for m in DECLARED.finditer(text))
            for m in BOUND.finditer(text):
                own.update(n for n in m.group(1).split() if "-" in n)
    new = {}
    for name in sorted(own - library):
        if not MADE.search(name) and not name.startswith("map-map"):
            plain = "-".join(snake(p) for p in name.split("-")).replace("-", "_")
            new[name] = plain + "_lem" if plain in words else plain
    return new


def respelled(path, text, new):
    if path.endswith(".antt"):
        return WORD.sub(lambda m: word(m, new), text)
    # of code, the clauses' words alone have capitals inside; byte and text literals stay
    parts = re.split(r"""(b?"(?:[^"\\]|\\.)*"|b'(?:[^'\\]|\\.)')""", text)
    return "".join(p if i % 2 else WORD.sub(lambda m: word(m, new), p) for i, p in enumerate(parts))


def main():
    old = {}
    for path in files():
        with open(path, encoding="utf-8") as f:
            old[path] = f.read()
    fields = {}
    for path, text in old.items():
        if "/specs/" in path:
            for name in fields_of(text):
                fields[name] = name.replace("-", "_")
    # the operator, whose declaration kept its dash
    fields["at-most"] = "at_most"
    # two claims have a definition's name
    fields["record-part"] = "record_part_lem"
    fields["image-part"] = "image_part_lem"
    new = {path: respelled(path, text, fields) for path, text in old.items()}
    # a lemma may not take a definition's new name, so lemmas come second
    lemmas = lemmas_of(new)
    for path, text in new.items():
        text = respelled(path, text, lemmas)
        if text != old[path]:
            with open(path, "w", encoding="utf-8") as f:
                f.write(text)


if __name__ == "__main__":
    main()
