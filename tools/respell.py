#!/usr/bin/env python3
"""Brings the definitions and lemmas of specs/ and proofs/ to one spelling.

usage: tools/respell.py [--list]      at the top of the repository; --list writes nothing and prints the table

Words are in snake case. A dash joins the names of two definitions, one of them a word of KNOWN, as in `length-over`. Functions, fields and
constants of src/ keep their names, and so do modules and types. A lemma that would have a definition's name gets `_lem`; a name that would
fall together with another otherwise gets a row in APART.
A second run writes nothing more.
"""

import os
import re
import sys

WORD = re.compile(r'[^\s(){}.;,@"«»\[\]|\x60]+')
SIGNATURE = re.compile(r"^ *((?:abbrev |unfoldable |pub |ruleset )*)([^\s(){}.;,@\"]+) :(?= |$)", re.M)
TYPE = re.compile(r"^ *(?:pub )?(?:record|data) ([^\s(){}.;,@\"]+)", re.M)
QUIET = re.compile(r'"(?:[^"\\\n]|\\.)*"|(?<!\S)--[^\n]*|//[^\n]*')
CLAUSE = re.compile(r"\b(?:requires|ensures)\*?\s*(?:\w+\s*)?\{|\bghost use\b")
SPAN = re.compile(r"\x60[^\x60\n]+\x60")
# The library's words for lists, tests and numbers that lemmas here are about.
KNOWN = {
    "length", "take", "drop", "set", "get_or", "append", "replicate", "map", "sum", "cond", "min", "max", "add", "sub", "mul", "div", "mod",
    "eqb", "ltb", "leb", "reverse", "elem", "get_elem", "fold",
}
PARTS = {"getD": "get_or"}
# A name beside one that comes to be spelled like it, and the name that it gets.
APART = {("parts_from", "partsFrom"): "parts_from_lem"}
# Modules of specs/ whose names Rattle takes for its own.
MODULES = {"Contracts": "Clauses"}


def files(*ends):
    for top in ("crates",):
        for folder, dirs, names in os.walk(top):
            dirs[:] = sorted(d for d in dirs if d not in ("out", "target"))
            for name in sorted(names):
                if name.endswith(ends):
                    yield os.path.join(folder, name)


def own(path):
    """Whether a file declares definitions or lemmas of the repository: one right in specs/ or proofs/, and not the proof of one function."""
    return os.path.basename(os.path.dirname(path)) in ("specs", "proofs")


def snake(part):
    part = PARTS.get(part, part)
    if re.match(r"[A-Z]", part):
        return part
    return re.sub(r"(?<=[a-z0-9])([A-Z])(?=[a-z]|$|[0-9])", lambda m: "_" + m[1].lower(), part)


def joined(words, known):
    """Words as one name: by a dash where they are the names of two definitions, one of them of KNOWN, and else by underscores."""
    for at in range(1, len(words)):
        left, right = "_".join(words[:at]), "_".join(words[at:])
        if left in known and right in known and (left in KNOWN or right in KNOWN):
            return left + "-" + right
    return "_".join(words)


def respelled(name, known):
    words = [w for p in name.split("-") for w in snake(p).split("_")]
    if "" in words:
        return name
    return joined(words, known)


def imported(text):
    """The names that a file takes from a library."""
    for line in re.findall(r"^(?:ghost )?use (?!Rattle\.(?!std\.))[^{;\n]*\{([^}]*)\}", text, re.M):
        yield from (item.split(" as ")[0].strip() for item in line.split(","))


def table():
    names, definitions, theirs = set(), set(), set()
    for path in files(".antt"):
        with open(path, encoding="utf-8") as f:
            text = f.read()
        theirs |= set(imported(text))
        if not own(path):
            continue
        for marks, name in SIGNATURE.findall(text):
            names.add(name)
            if "abbrev" in marks or "unfoldable" in marks:
                definitions.add(name)
        definitions |= set(TYPE.findall(text))
    known = KNOWN | {snake(n) for n in definitions if "-" not in n}
    rows = {n: respelled(n, known - KNOWN if n in definitions else known) for n in sorted(names - theirs) if "◌" not in n}
    for (old, other), new in APART.items():
        if other in names:
            rows[old] = new
    taken = {}
    for old, new in rows.items():
        taken.setdefault(new, []).append(old)
    for new, olds in taken.items():
        lemmas = [o for o in olds if o not in definitions]
        if len(olds) > 1 and len(lemmas) == 1:
            rows[lemmas[0]] = new + "_lem"
        elif len(olds) > 1:
            print(f"respell: {', '.join(olds)} fall together", file=sys.stderr)
    return {old: new for old, new in rows.items() if old != new}


def turn(text, rows):
    text = WORD.sub(lambda m: rows.get(m[0], m[0]), text)
    for old, new in MODULES.items():
        text = re.sub(rf"\b(specs[./]|mod ){old}\b", rf"\g<1>{new}", text)
    return text


def turn_code(text, rows):
    """Code outside quoted text; of a comment the spans between backticks."""
    out, at = [], 0
    for m in QUIET.finditer(text):
        out.append(turn(text[at:m.start()], rows))
        quiet = m[0]
        out.append(quiet if quiet.startswith('"') else SPAN.sub(lambda s: turn(s[0], rows), quiet))
        at = m.end()
    out.append(turn(text[at:], rows))
    return "".join(out)


def turn_source(text, rows):
    """Of a source file the clauses and the lines of `ghost use`: the code's own names stay. Of a comment the spans between backticks."""
    out, at = [], 0
    for m in CLAUSE.finditer(text):
        if m.start() < at or "//" in text[text.rfind("\n", 0, m.start()) + 1:m.start()]:
            continue
        if m[0].startswith("ghost"):
            end = text.index(";", m.end())
        else:
            end, deep = m.end(), 1
            while deep:
                deep += (text[end] == "{") - (text[end] == "}")
                end += 1
        out += [comments(text[at:m.start()], rows), turn_code(text[m.start():end], rows)]
        at = end
    return "".join(out) + comments(text[at:], rows)


def comments(text, rows):
    return re.sub(r"//[^\n]*", lambda m: SPAN.sub(lambda s: turn(s[0], rows), m[0]), text)


def turn_edit(text, rows):
    """The lines of an edit are code; of its comments the place of a refusal."""
    lines = []
    for line in text.split("\n"):
        if line.startswith("#"):
            line = turn(line, rows) if line.startswith("# refused at ") else SPAN.sub(lambda s: turn(s[0], rows), line)
        else:
            line = turn_code(line, rows)
        lines.append(line)
    return "\n".join(lines)


def pages():
    yield "README.md"
    for folder, _, names in os.walk("docs"):
        for name in sorted(names):
            if name.endswith(".md"):
                yield os.path.join(folder, name)


def main(argv):
    rows = table()
    if argv == ["--list"]:
        for old in sorted(rows):
            print(f"{old}\t{rows[old]}")
        return 0
    jobs = [(p, turn_code) for p in files(".antt")] + [(p, turn_source) for p in files(".rt")] + [(p, turn_edit) for p in files(".edit")]
    jobs += [(p, lambda t, r: SPAN.sub(lambda s: turn(s[0], r), t)) for p in pages()]
    for path, how in jobs:
        with open(path, encoding="utf-8") as f:
            old = f.read()
        new = how(old, rows)
        if new != old:
            with open(path, "w", encoding="utf-8") as f:
                f.write(new)
    for path in list(files(".antt")):
        stem = os.path.basename(path)[:-5]
        if own(path) and stem in MODULES:
            os.rename(path, os.path.join(os.path.dirname(path), MODULES[stem] + ".antt"))
    print(f"respell: {len(rows)} names")
    return 0


if __name__ == "__main__":
    sys.exit(main(sys.argv[1:]))
