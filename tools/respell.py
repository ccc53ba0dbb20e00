#!/usr/bin/env python3
"""Brings the names of this repository's own definitions and lemmas to today's spelling, after port.py: words in snake case, a dash only
between two names. Run once, at the top: tools/respell.py [--list]. Functions of src/, types, modules and text in quotes keep their names."""
import os
import re
import sys

SIGNATURE = re.compile(r"^\s*(?:(?:unfoldable|abbrev|pub|private|pattern)\s+)*([^\s(){}.,;:\"◌]+)(?:\s+\{[^}]*\})?\s+:\s+(.*)")
TOKEN = re.compile(r"[^\s(){}\[\].,;:\"`→λ]+")
# names of the library that a lemma's name may join
LIBRARY = set("length take drop set get_or append cons snoc replicate map reverse zero suc add sub mul div mod pow le lt eq ne cond and or not min max bits sqrt gcd ⊎ nil".split())
# a name whose new spelling would fall together with another, and what it takes instead
OTHER = {
    "curve-in": "curve_inside", "knots-in": "knots_inside", "line-in": "line_inside", "point-in": "point_inside", "poles-in": "poles_inside",
    "refined-in": "refined_inside", "row-in": "row_inside", "rows_in": "rows_inside", "flatIn": "flat_region", "u-knots": "u_knots_out",
    "v-knots": "v_knots_out", "whole-root": "whole_root_is", "laid-over": "laid_again", "fit_on": "fit_on_is", "is-nan": "nan_is",
    "one_more": "one_digit_more", "rowPoles": "row_poles", "deviationsOf": "deviations_of",
}


def files(ending):
    for folder, dirs, names in os.walk("crates"):
        dirs[:] = sorted(d for d in dirs if d not in ("out", "target"))
        for name in sorted(names):
            if name.endswith(ending):
                yield os.path.join(folder, name)


def snake(word):
    word = {"getD": "get_or"}.get(word, word)
    if not word[:1].islower():
        return word
    word = re.sub(r"(?<=[a-z0-9])([A-Z])(?=[a-z])", lambda m: "_" + m.group(1).lower(), word)
    return re.sub(r"(?<=[a-z0-9])([A-Z]+)", lambda m: "_" + m.group(1).lower(), word)


def defined():
    """Names that specs/ defines, and those that proofs/ does (but for the goals of a function's own proof)."""
    specs, proofs = set(), set()
    for path in files(".antt"):
        for line in open(path, encoding="utf-8"):
            m = SIGNATURE.match(line)
            if not m or m.group(2).startswith(("tie.", "(tie.")) or "statement M" in m.group(2):
                continue
            if m.group(1) in ("let", "where", "module", "--", "abbrev", "pub") or not m.group(1)[0].isalpha():
                continue
            (specs if "/specs/" in path else proofs).add(m.group(1))
    return specs, proofs


def renaming():
    specs, proofs = defined()
    new = {}
    for name in specs:
        if name[0].islower():
            new[name] = "_".join(snake(part) for part in name.split("-"))
    words = {n for n in new.values()} | LIBRARY
    for name in proofs - specs:
        if not name[0].islower():
            continue
        parts = [snake(part) for part in name.split("-")]
        made = parts[0]
        for part in parts[1:]:
            bare = part.rstrip("'")
            made += ("-" if bare in words or bare[:1].isupper() else "_") + part
        new[name] = made
    new |= OTHER
    return {k: v for k, v in new.items() if k != v}


def turn(text, new):
    return TOKEN.sub(lambda m: new.get(m.group(0), m.group(0)), text)


def collisions(new):
    back = {}
    for old, name in new.items():
        back.setdefault(name, []).append(old)
    seen, rust = {}, {}
    for path in files(".antt"):
        for token in TOKEN.findall(open(path, encoding="utf-8").read()):
            seen.setdefault(token, path)
    for path in files(".rt"):
        text = re.sub(r"//[^\n]*|\"[^\"]*\"", "", open(path, encoding="utf-8").read())
        for token in re.findall(r"[A-Za-z_]\w*", text):
            rust.setdefault(token, path)
    for name, olds in sorted(back.items()):
        if len(olds) > 1:
            print("together:", name, olds)
        elif name in seen and name not in new:
            print("there:", name, olds, seen[name], "RUST " + rust[name] if name in rust else "")
        elif name in rust:
            print("rust:", name, olds, rust[name])


def main():
    new = renaming()
    if "--list" in sys.argv:
        for old, name in sorted(new.items()):
            print(old, name)
        return
    if "--collisions" in sys.argv:
        return collisions(new)
    for ending in (".antt", ".rt", ".edit"):
        for path in files(ending):
            text = open(path, encoding="utf-8").read()
            made = turn(text, new)
            if made != text:
                open(path, "w", encoding="utf-8").write(made)


main()
