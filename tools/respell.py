#!/usr/bin/env python3
"""Brings this repository's own definitions and lemmas to today's spelling: words in snake case, types and facts in camel case.

usage: tools/respell.py [--list]     at the top of the repository, once, after port.py

Every name that a file of specs/ or proofs/ declares is looked at: definitions, constructors, fields, lemmas. `aName` becomes `a_name`. A dash stays in a
lemma's name between two words that are definitions themselves, as in `length-each`, and becomes `_` elsewhere. A type keeps its capital; one with a small
first letter gets a capital. A name is turned wherever it stands in crates/, in .antt and .rt files and in must-fail edits, as a whole word; names that a
source file declares (functions, variables, fields) and the library's names stay. Two names that would fall together are listed, and both stay.
"""

import collections
import os
import re
import sys

# A word of antt's: letters, digits, _, ', -, and the letters of no alphabet that names here have.
WORD = re.compile(r"[^\s(){}.:;,\[\]\"`|]+")
DECLARED = re.compile(r"(?m)^\s*(?:(?:abbrev|unfoldable|pub|data|record)\s+)*([^\s(){}.:;,\[\]]+)((?:\s+[({][^\n]*?[)}])*)\s+:(?!:)\s*(.*)$")
# Facts whose name with a capital another definition has, and lemmas with the name of a word that proofs/ defines.
NAMED = {
    "admitted": "IsAdmitted",
    "landed": "HasLanded",
    "constraint-part": "constraint_part_lem",
    "equation-part": "equation_part_lem",
    "is_true": "is_true_lem",
    "text_at": "text_at_lem",
    "v-line": "v_line_lem",
    "variable-of": "variable_of_lem",
}
KEEPS = {"use", "as", "where", "module", "open", "let", "in", "elim", "infix", "infixr", "infixl", "unfolding"}


def files(ending):
    for folder, dirs, names in os.walk("crates"):
        dirs[:] = sorted(d for d in dirs if d not in ("out", "target"))
        for it in sorted(names):
            if it.endswith(ending):
                yield os.path.join(folder, it)


def text(path):
    with open(path, encoding="utf-8") as f:
        return f.read()


def shared(path):
    """Whether the file has definitions or lemmas of a crate, and is not the proof of one function."""
    parts = path.split(os.sep)
    return parts[2] == "specs" or (parts[2] == "proofs" and len(parts) == 4)


def snake(word):
    """aName, aNAME -> a_name, a_name; a word that begins with a capital is a type or a fact and stays."""
    if not word or not re.search(r"[a-z0-9][A-Z]", word) or word[0].isupper():
        return word
    return re.sub(r"(?<=[a-z0-9])([A-Z]+)", lambda m: "_" + m[1].lower(), word)


def main():
    words, types, specs, fields = collections.Counter(), set(), set(), set()
    lemmas_of, fields_of = collections.defaultdict(set), collections.defaultdict(set)
    for path in files(".antt"):
        if not shared(path):
            continue
        t = re.sub(r"--[^\n]*", "", text(path))
        for m in DECLARED.finditer(t):
            name = m[1]
            if name in KEEPS or not re.match(r"[A-Za-z]", name):
                continue
            words[name] += 1
            if re.search(r"(?:→|^)\s*Type \d(?:\s+where)?\s*$", m[3].strip()):
                types.add(name)
            if os.sep + "specs" + os.sep in path:
                specs.add(name)
        # constructors and fields: the lines below `data .. where` and `record .. where`
        for m in re.finditer(r"(?m)^( *)(?:abbrev |pub |unfoldable )*(?:data|record)\b[^\n]*\bwhere\n((?:\1 +[^\n]*\n|\s*\n)*)", t):
            for k in re.finditer(r"(?m)^\s+(?:pub )?([A-Za-z][^\s(){}.:;,]*) :", m[2]):
                fields.add(k[1])
                fields_of[k[1]].add(path)
        for name in {m[1] for m in DECLARED.finditer(t)}:
            if path not in fields_of[name]:
                lemmas_of[name].add(path)
    rust = set()
    for path in files(".rt"):
        code = re.sub(r"//[^\n]*|\"[^\"\n]*\"", "", text(path))
        rust |= set(re.findall(r"[A-Za-z_][A-Za-z0-9_]*", re.sub(r"(?m)^\s*(requires|ensures|ghost use|ghost)\b[^\n]*", "", code)))
    used = set()
    for path in files(".antt"):
        used |= set(WORD.findall(re.sub(r"--[^\n]*", "", text(path))))
    defined = set(specs) | {"length", "take", "drop", "map", "set", "get_or", "replicate", "append", "reverse"}
    turned = {}
    for name in words:
        if name in rust and "-" not in name:
            continue
        if name in NAMED:
            new = NAMED[name]
        elif name in types and name not in fields and (name[0].islower() or "-" in name):
            new = "".join(p[:1].upper() + p[1:] for p in re.split(r"[-_]", name))
        else:
            parts = name.split("-")
            new = snake(parts[0])
            plain = name in specs or name in fields
            for before, after in zip(parts, parts[1:]):
                dash = not plain and before in defined and after in defined
                new += ("-" if dash else "_") + snake(after)
        if new != name:
            turned[name] = new
    # Two names that would fall together: a lemma that would have a definition's name gets `_lem` behind it.
    back = collections.defaultdict(set)
    for name, new in turned.items():
        back[new].add(name)
    for new, olds in sorted(back.items()):
        group = olds | ({new} if new in words else set())
        if len(group) < 2:
            continue
        lemmas = {it for it in group if it not in specs and it not in fields}
        if len(lemmas) == len(group):
            print(f"falls together: {', '.join(sorted(group))} -> {new}", file=sys.stderr)
            continue
        for it in lemmas:
            turned[it] = new + "_lem"
        if len(group - lemmas) > 1:
            print(f"two definitions: {', '.join(sorted(f'{it}{chr(42) if it in fields else str()}' for it in group - lemmas))} -> {new}", file=sys.stderr)
    for name, new in turned.items():
        if new.endswith("_lem") and (new in words or new in used):
            print(f"falls together: {name} -> {new}", file=sys.stderr)
        if new in used and new not in words:
            print(f"in use: {name} -> {new}{' in a source too' if new in rust else ''}", file=sys.stderr)
    # A field and a lemma of one name, where a definition has it too: the field gets the name, and the lemma `_lem` behind it.
    both = {}
    for name, new in turned.items():
        defs = {it for it in words if turned.get(it, it) == new and it in specs and it not in fields}
        if name in fields and any(os.sep + "proofs" + os.sep in it for it in lemmas_of[name]) and defs:
            both[name] = new + "_lem"
    print("fields and lemmas: " + ", ".join(sorted(both)), file=sys.stderr)
    if "--list" in sys.argv:
        for a in sorted(turned):
            print(a, turned[a], "type" if a in types else "")
        return
    n = 0
    for path in list(files(".antt")) + list(files(".rt")) + list(files(".edit")):
        old = text(path)
        def turn(m):
            it = m[0]
            if it in both and path.endswith(".antt") and os.sep + "specs" + os.sep not in path and path not in fields_of[it]:
                before, after = old[: m.start()].rstrip(), old[m.end() :].lstrip()
                if not old[: m.start()].endswith(".") and not (before[-1:] in "{;" and after.startswith("=")):
                    return both[it]
            now = turned.get(it, it)
            # behind a dot in the proof of a function stands a step that is named after a function of src/
            if now.endswith("_lem") and path.endswith(".antt") and not shared(path) and old[: m.start()].endswith("."):
                return now[:-4]
            # sources and their edits cite no lemma: there it is a function's name; and a clause keeps its label
            if not path.endswith(".antt") and (now.endswith("_lem") or re.search(r"(?:requires|ensures)\*? $", old[: m.start()])):
                return it
            return now

        new = WORD.sub(turn, old)
        if new != old:
            n += 1
            with open(path, "w", encoding="utf-8") as f:
                f.write(new)
    print(f"{len(turned)} names, {n} files")


main()
