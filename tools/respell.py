#!/usr/bin/env python3
"""Spells the repository's own definitions, lemmas and fields as today's Rattle does: words in snake case, facts like types.

usage: python3 tools/respell.py          at the top, once, after the kit's port.py: rewrites crates/ in place
       python3 tools/respell.py --dry    says what it would rename, and writes nothing

A name with a dash that a file of specs/ or proofs/ defines gets underscores: 'call-number' is 'call_number'. One whose type
ends in 'Type 0' on the line of its name, and a record, is a fact or a type, and gets capitals: 'Line-law' is 'LineLaw'. Names that
Rattle makes (goals, steps) and the library's keep their dashes, unless one of the repository's is spelled alike. Text in string
literals of .rt files is left alone. Where two names would fall together it stops with 1 and writes nothing.
"""

import os
import re
import sys

WORD = r"[^\s(){}\[\],;.:@\"`]"
DEFINED = re.compile(r"^(\s*)(?:abbrev |unfoldable |pub )*(" + WORD + r"+) : (.*)$")
RECORD = re.compile(r"^\s*(?:pub )?(?:record|data) (?:pub )?(" + WORD + r"+)")
# where the plain respelling is a name that the library has
OTHER = {"bit-and": "bit_of_and", "bit-or": "bit_of_or"}
STRING = re.compile(r'"(?:[^"\\]|\\.)*"')


def files(endings):
    for folder, dirs, names in os.walk("crates"):
        dirs[:] = sorted(d for d in dirs if d != "out")
        for name in sorted(names):
            if name.endswith(endings):
                yield os.path.join(folder, name)


def camel(name):
    return "".join(part[:1].upper() + part[1:] for part in name.split("-"))


def renamed():
    """The new name of each name with a dash that is defined here."""
    new = {}
    for path in files((".antt",)):
        with open(path, encoding="utf-8") as f:
            for line in f:
                if line.lstrip().startswith(("--", "use ", "pub use ")):
                    continue
                record, defined = RECORD.match(line), DEFINED.match(line)
                if record and "-" in record[1]:
                    new[record[1]] = camel(record[1])
                elif defined and "-" in defined[2] and "goal." not in defined[3]:
                    name, kind = defined[2], defined[3].rstrip()
                    new[name] = camel(name) if kind.endswith("Type 0") else OTHER.get(name, name.replace("-", "_"))
    return new


def main(argv):
    new = renamed()
    if not new:
        print("respell: no name to respell")
        return 0
    token = re.compile(r"(?<![^\s(){}\[\],;.:@\"`])(" + "|".join(re.escape(n) for n in sorted(new, key=len, reverse=True)) + r")(?![^\s(){}\[\],;.:@\"`'])")
    there = re.compile(r"[^\W\d][\w']*")
    before = set()
    changed = {}
    for path in files((".antt", ".rt", ".edit")):
        with open(path, encoding="utf-8") as f:
            text = f.read()
        before |= {(w, path) for w in there.findall(text)}
        if path.endswith(".rt"):
            parts, at = [], 0
            for s in STRING.finditer(text):
                parts += [token.sub(lambda m: new[m[1]], text[at : s.start()]), s[0]]
                at = s.end()
            turned = "".join(parts) + token.sub(lambda m: new[m[1]], text[at:])
        else:
            turned = token.sub(lambda m: new[m[1]], text)
        if turned != text:
            changed[path] = turned
    targets = set(new.values())
    for w, path in sorted(before):
        if w in targets:
            print(f"look: {w} stands already in {path}")
    if len(targets) != len(new):
        print("respell: two names fall together")
        return 1
    for old in sorted(new):
        print(f"{old} -> {new[old]}")
    if "--dry" not in argv:
        for path, text in changed.items():
            with open(path, "w", encoding="utf-8") as f:
                f.write(text)
    print(f"respell: {len(new)} names in {len(changed)} files")
    return 0


if __name__ == "__main__":
    raise SystemExit(main(sys.argv[1:]))
