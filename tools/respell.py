#!/usr/bin/env python3
"""Spells this repository's own antt names as today's Rattle does: words in snake case, types and modules in camel case.

usage: python3 tools/respell.py [FOLDER]

Run once, after port.py, at the top of the repository. It rewrites crates/*/specs, crates/*/proofs, the clauses and comments of
crates/*/src and the texts of crates/*/must-fail. Text in double quotes stays. Files and folders keep their names.
"""

import os
import re
import sys

TOP = sys.argv[1] if len(sys.argv) > 1 else "."
TOKEN = re.compile(r"(?<![\w'⁺-])[a-z][\w'⁺-]*[A-Z][\w'⁺-]*")
HUMP = re.compile(r"(?<=[a-z0-9])([A-Z]+)(?![a-zA-Z]*-Inv)")
QUOTED = re.compile(r'"(?:[^"\\\n]|\\.)*"')

# A lemma that would have its function's name gets `_lem`; a name of the library gets another word.
FIRST = {
    "crates/kind/proofs/Law/Sets.antt": {"every_of": "every_of_lem"},
    "crates/style/proofs/Law/Answers.antt": {"on_fine": "on_fine_lem"},
    "crates/style/proofs/Lines.antt": {"on_fine": "on_fine_lem"},
    "crates/style/proofs/Items.antt": {"on_fine": "on_fine_lem"},
    "crates/value/proofs/Law/Values.antt": {"joined_at": "joined_at_lem"},
    "crates/feature/proofs/Law/Lines.antt": {"stored_floats": "stored_floats_lem"},
    "crates/text/proofs/Law/Parts.antt": {"parts_from": "parts_from_lem"},
}


def snake(name):
    return "is_nan" if name == "isNaN" else HUMP.sub(lambda m: "_" + m.group(1).lower(), name)


def outside_quotes(text, turn):
    parts, at = [], 0
    for m in QUOTED.finditer(text):
        parts += [turn(text[at:m.start()]), m.group(0)]
        at = m.end()
    return "".join(parts + [turn(text[at:])])


def texts():
    for folder, dirs, files in os.walk(os.path.join(TOP, "crates")):
        dirs[:] = sorted(d for d in dirs if d != "out")
        for name in sorted(files):
            if name.endswith((".antt", ".rt", ".edit")):
                yield os.path.join(folder, name)


def main():
    for path in texts():
        with open(path, encoding="utf-8") as f:
            text = f.read()
        new = text
        for old, to in FIRST.get(os.path.relpath(path, TOP), {}).items():
            new = re.sub(rf"(?<![\w'-]){old}(?![\w'-])", to, new)
        new = outside_quotes(new, lambda t: TOKEN.sub(lambda m: snake(m.group(0)), t))
        if new != text:
            with open(path, "w", encoding="utf-8") as f:
                f.write(new)


if __name__ == "__main__":
    main()
