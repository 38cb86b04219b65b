#!/usr/bin/env python3
"""Spells this repository's own definitions, lemmas and record fields in snake case, once, after the kit's own script.

usage: snake_names.py FOLDER [--names]     (FOLDER has crates/; --names prints the table and changes nothing)

Only names that specs/ and proofs/ declare are turned: `valuationFault` and `valuation-fault` become `valuation_fault`, and a
prime becomes an apostrophe. Types, modules and constructors keep their capitals, functions of src/ their names, and the
names that Rattle makes (a goal, a step of `c`) their spelling. It stops where two names would fall together.
"""
import pathlib
import re
import sys

WORD = r"[^\s(){}\[\].;,:@\"«»|]+"
DECLARED = re.compile(rf"(?m)^ *(?:(?:pub|abbrev|unfoldable) +)*({WORD}) (?:\{{[^{{}}\n]*\}} )*: ")
FIELD = re.compile(rf"(?m)^ +(?:pub +)?({WORD}) : ")
GOALS = re.compile(r"(?m)^ *(?:(?:abbrev|pub) +)*(\S+) : goal\.")
# Lemmas whose plain spelling is a definition's already.
OVERRIDES = {
    "entry_place": "entry_place_is",
    "entry-right": "entry_right_is",
    "in-force": "in_force_is",
    "loss-part": "loss_part_is",
    "same-numbers": "same_numbers_decides",
}


def snake(name):
    name = re.sub(r"(?<=[a-z0-9])[A-Z]", lambda m: "_" + m[0].lower(), name)
    return name.replace("-", "_").replace("′", "'")


def turns(name):
    return re.match(r"[a-z]", name) and snake(name) != name


def main():
    top = pathlib.Path(sys.argv[1])
    files = sorted(f for kind in ("antt", "rt") for f in top.glob(f"crates/*/**/*.{kind}") if "/out/" not in str(f))
    texts = {f: f.read_text() for f in files}
    declared, goals, fields = set(), set(), set()
    for f, text in texts.items():
        if f.suffix == ".antt":
            goals |= set(GOALS.findall(text))
            declared |= set(DECLARED.findall(text))
            for record in re.split(r"(?m)^ *(?:pub )?record ", text)[1:]:
                fields |= set(FIELD.findall(re.split(r"(?m)^\S", record.split("\n", 1)[1])[0]))
    names = {n: snake(n) for n in declared if turns(n) and n not in goals}
    for text in texts.values():
        names |= {n: snake(n) for n in re.findall(r"[A-Za-z]\w*′+", text)}
    names |= OVERRIDES
    back = {}
    for old, new in sorted(names.items()):
        back.setdefault(new, []).append(old)
    if "--names" in sys.argv:
        for old, new in sorted(names.items()):
            print(f"{old}\t{new}")
        return
    fallen = [(new, olds) for new, olds in back.items() if len(olds) > 1 or new in declared and new not in names]
    if fallen:
        sys.exit(f"these names would fall together: {fallen}")
    word = re.compile(WORD)
    for f, text in texts.items():

        def turn(match):
            name = match[0]
            if f.suffix == ".rt" and name in OVERRIDES:
                return name
            # behind a dot stands a field of ours, or a step that Rattle named
            if match.start() and text[match.start() - 1] == "." and name not in fields:
                return name
            return names.get(name, name)

        new = word.sub(turn, text)
        if new != text:
            f.write_text(new)


if __name__ == "__main__":
    main()
