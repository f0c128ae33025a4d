#!/usr/bin/env python3
"""Respells this repository's own names in specs, proofs, clauses and edits, once, after the kit's port.py.

usage: python3 tools/respell.py [--dry]     at the top of the repository

Functions of specs/, lemmas, fields and variables are in snake case, facts and types in upper camel case. In a lemma's
name a dash stays where it joins the names of two definitions, as in length-held; elsewhere it becomes an underscore.
A lemma that would so get the name of another definition gets _lem. Strings and the code of src/ keep their names.
--dry prints the names, old and new, and writes nothing.
"""

import os
import re
import sys

WORD = r"[\w'·₀-₉-]+"
PART = re.compile(r"(?<![\w'·-])(" + WORD + r")(?![\w'·-])")
DEFINED = re.compile(r"^([ \t]*)((?:(?:abbrev|unfoldable|pub|record|data)[ \t]+)*)(" + WORD + r")[ \t]*((?:[{(][^=]*?[})][ \t]*)*):(?!=)(.*)$", re.M)
LOWER_CAMEL = re.compile(r"^[a-zα-ω_][\w']*[A-Z]")
# words of the library that a lemma's name may join, beside this repository's own
LIBRARY = set("length take drop map filter append cons set insert remove reverse replicate count count_by get_or sum min max".split())
# where the rules above would give a name that is taken or that reads badly
GIVEN = {"layout-error-type": "LayoutErrorType", "layout-error": "LayoutError", "layout-law": "LayoutLaw", "nodeRecords": "bill_node_records"}


def files():
    for folder, dirs, names in os.walk("crates"):
        dirs[:] = sorted(d for d in dirs if d != "out")
        for name in sorted(names):
            if name.endswith((".antt", ".rt", ".edit")):
                yield os.path.join(folder, name)


def read(path):
    with open(path, encoding="utf-8") as f:
        return f.read()


def bare(text):
    """The text without its comments, for reading definitions."""
    return re.sub(r"^[ \t]*--.*$", "", text, flags=re.M)


def snake(part):
    if not LOWER_CAMEL.match(part):
        return part
    return re.sub(r"(?<=[a-z0-9'])([A-Z])", lambda m: "_" + m.group(1).lower(), part)


def camel(name):
    return "".join(p[:1].upper() + p[1:] for p in re.split(r"[-_]", name))


def gather():
    """What the files define: facts and types, functions (fields and constructors too), and lemmas."""
    facts, functions, lemmas, std, words = set(), set(), set(), set(), set()
    for path in files():
        text = bare(read(path))
        words |= set(PART.findall(text))
        if not path.endswith(".antt"):
            continue
        for names in re.findall(r"use Rattle\.std[^\n{]*\{([^}]*)\}", text):
            std |= {n.split(" as ")[0].strip() for n in names.split(",")}
        answers = os.path.basename(path) in ("Answers.antt", "Invariants.antt", "Proof.antt")
        for indent, kind, name, _, ty in DEFINED.findall(text):
            if "goal." in ty or answers and "-" in name and not kind:
                continue
            if name[0].isupper():
                facts.add(name)
            elif "abbrev" in kind or "unfoldable" in kind:
                (facts if re.search(r"Type 0\s*$", ty) else functions).add(name)
            elif indent and kind:
                functions.add(name)
            else:
                lemmas.add(name)
    return facts, functions, lemmas, std, words


def lemma_name(name, known):
    parts = [snake(p) for p in name.split("-")]
    out = parts[0]
    for left, right in zip(parts, parts[1:]):
        out += ("-" if left in known and right in known else "_") + right
    return out


def renaming():
    facts, functions, lemmas, std, words = gather()
    own = facts | functions | lemmas
    renames = {}
    taken = {snake(n).replace("-", "_") for n in functions} | facts
    known = {snake(n).replace("-", "_") for n in functions} | LIBRARY
    for name in sorted(words | own):
        if name in GIVEN:
            renames[name] = GIVEN[name]
        elif name in facts and "-" in name:
            renames[name] = camel(name)
        elif name in functions and name not in std:
            renames[name] = "-".join(snake(p) for p in name.split("-")).replace("-", "_")
        elif name in lemmas and name not in std:
            new = lemma_name(name, known)
            renames[name] = new + "_lem" if new in taken and new != name else new
        elif LOWER_CAMEL.match(name) and "-" not in name and not re.match(r"b'.'$|nA$", name):
            renames[name] = snake(name)
    return {a: b for a, b in renames.items() if a != b}, words | std


def main(argv):
    renames, words = renaming()
    together = {}
    for old, new in renames.items():
        together.setdefault(new, []).append(old)
    for new, olds in sorted(together.items()):
        if len(olds) > 1 or new in words and new not in renames:
            print(f"falls together: {', '.join(sorted(olds))} -> {new}" + (" (a name already)" if new in words else ""))
    if "--dry" in argv:
        for old, new in sorted(renames.items()):
            print(f"{old} -> {new}")
        return 0
    for path in files():
        text = read(path)
        # strings of the code are left as they are
        parts = re.split(r'("(?:[^"\\\n]|\\.)*")', text) if path.endswith(".rt") else [text]
        new = "".join(p if i % 2 else PART.sub(lambda m: renames.get(m.group(1), m.group(1)), p) for i, p in enumerate(parts))
        if new != text:
            with open(path, "w", encoding="utf-8") as f:
                f.write(new)
    return 0


if __name__ == "__main__":
    raise SystemExit(main(sys.argv[1:]))
