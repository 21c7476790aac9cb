#!/usr/bin/env python3
"""Respells this repository's own names of definitions, lemmas, fields and constructors: run once, by the port to rattle-kit-13f.

  tools/snake_names.py [--list]        at the top; --list prints the table of old and new names, and changes nothing

The rule: words in snake case, types in camel case. A dash stays only where it joins two names (a definition of specs/ or of the library,
as in `widths-length`); every other dash becomes `_`. Names of src/ (functions, fields, exported names), strings, goals and steps of the
generated proofs, which the files proofs/F/ cite, keep their spelling. Fails, and changes nothing, where two names would fall together.
"""
import pathlib
import re
import sys

root = pathlib.Path(__file__).resolve().parent.parent
# Names of the library that a lemma's name joins with a dash.
LIBRARY = {"length", "take", "drop", "append", "map", "sets", "slice", "mod"}
# Lemmas whose name, respelled, would be that of the function they are about.
SAME_AS_ITS_FUNCTION = ["unless-refused", "tail-takes", "tail-copied", "eights-from", "shortest-by-zeros", "same_of", "upper-pairs", "full-pairs", "column-widths", "tight-run"]
head = re.compile(r"^(\s*)((?:abbrev |pub |unfoldable )*)(record |data )?([^\s:(){}]+)(?: \{[^}]*\})*(?: \(.*)? : ")
field = re.compile(r"^  (?:pub )?([a-z][\w'-]*) : ")
several = re.compile(r"^  ((?:[A-Za-z][\w'-]* )+): [A-Z]\w*$")


def own_files():
    return sorted(root.glob("crates/*/specs/*.antt")) + sorted(root.glob("crates/*/proofs/*.antt"))


def proof_files():
    return sorted(root.glob("crates/*/proofs/*/**/*.antt"))


def declared(path):
    """Each name that a file declares, with whether it is a definition (and so a name that a dash may join)."""
    found = {}
    for line in path.read_text().splitlines():
        if line.lstrip().startswith(("use ", "--")):
            continue
        m = head.match(line)
        if m and not m.group(1):
            found[m.group(4)] = bool(m.group(2).strip()) or bool(m.group(3))
        m = field.match(line)
        if m:
            found[m.group(1)] = False
        m = several.match(line)
        if m:
            for name in m.group(1).split():
                found[name] = False
    return found


def snake(part):
    return re.sub(r"(?<=[a-z0-9])([A-Z])", lambda m: "_" + m.group(1).lower(), part)


def respelled(name, names):
    parts = name.split("-")
    if parts[0][:1].isupper() or not re.match(r"[a-z]", parts[0]):
        return name
    out = left = snake(parts[0])
    for part in parts[1:]:
        part = snake(part)
        out += ("-" if left in names and part in names else "_") + part
        left = part if part in names else left + "_" + part
    return out


def table():
    every, names = {}, set(LIBRARY)
    for path in own_files():
        for name, definition in declared(path).items():
            every[name] = path
            if definition and "-" not in name and name not in ("at", "most"):
                names.add(snake(name))
    for path in proof_files():
        for line in path.read_text().splitlines():
            m = head.match(line)
            # what a function's proof has of its own, and is no goal of it
            if m and not m.group(1) and "tie." not in line and not m.group(4).endswith(("-spec", "_spec")):
                every.setdefault(m.group(4), path)
    # Binders of records, as `r-read`, are names too.
    for path in own_files():
        for line in path.read_text().splitlines():
            if re.match(r"\s*((abbrev|pub|unfoldable) )*record ", line):
                for name in re.findall(r"\b(r[-_][\w-]+)", line):
                    every.setdefault(name, path)
    new = {name: respelled(name, names) for name in every}
    new.update({name: re.sub("[-_]", "_", name) + "_lem" for name in SAME_AS_ITS_FUNCTION})
    turned = {a: b for a, b in new.items() if a != b}
    taken, together = {}, []
    for a, b in new.items():
        if taken.setdefault(b, a) != a:
            together.append("two names fall together: %s (%s) and %s (%s), as %s" % (a, every[a], taken[b], every[taken[b]], b))
    if together:
        sys.exit("\n".join(together))
    return turned


word = re.compile(r"(?<![\w'·-])[A-Za-z][\w'-]*(?![\w'·-])")


def turn(text, turned):
    return word.sub(lambda m: turned.get(m.group(0), m.group(0)), text)


def turn_goals(text, turned):
    """A function's proof: its goals (lines with `tie.`, and the names that they declare) and the steps of its code stay."""
    goals = set(re.findall(r"^(?:abbrev |pub )*(\S+) : tie\.", text, re.M)) | set(re.findall(r"tie\.([\w'-]+)", text))
    return turn(text, {a: b for a, b in turned.items() if a not in goals})


def turn_clauses(text, turned):
    """Of a .rt file only what is antt: `ghost use` and clauses."""
    out = []
    for line in text.split("\n"):
        if re.match(r"\s*(ghost |requires|ensures)", line):
            line = turn(line, turned)
        out.append(line)
    return "\n".join(out)


def main():
    turned = table()
    if "--list" in sys.argv:
        for a, b in sorted(turned.items()):
            print(a, b)
        return
    for path in own_files():
        path.write_text(turn(path.read_text(), turned))
    for path in proof_files():
        path.write_text(turn_goals(path.read_text(), turned))
    for path in root.glob("crates/*/src/**/*.rt"):
        path.write_text(turn_clauses(path.read_text(), turned))
    for path in [root / "README.md", *root.glob("docs/*.md")]:
        path.write_text(re.sub(r"(`[^`\n]*\.antt:|`)([A-Za-z][\w'-]*)`", lambda m: m.group(1) + turned.get(m.group(2), m.group(2)) + "`", path.read_text()))


main()
