#!/usr/bin/env python3
"""Brings the repository's own definitions and lemmas to today's spelling: words in snake case, types in upper camel case.

usage: python3 tools/respell.py [--dry]     at the top of the repository, once, after port.py

A name is the repository's own where a file of specs/ or proofs/ declares it: as a definition, a lemma, a record, a field or a
constructor. Names of a library, of generated goals and of steps of the code keep their dashes, and so do strings and the
functions of src/. It prints each new name that falls together with another one.
"""

import pathlib
import re
import sys

NAME = r"[^\W\d_][\w']*"
DASHED = re.compile(rf"(?<![\w'·-])(?:{NAME}(?:-[\w']+)+|[A-Z][a-z]+(?:_[a-z]+)+)(?![\w'-])")
DECLARED = re.compile(rf"^[ \t]*(?:(?:abbrev|unfoldable|pub|record|data|\|)[ \t]+)*({NAME}(?:-[\w']+)+)(?=[ \t]*(?:[:({{]))(?P<rest>.*)$", re.M)
# A type that was left half way, in two words with a line between them.
HALF = re.compile(r"^[ \t]*(?:pub[ \t]+)*(?:record|data|(?:abbrev|unfoldable)(?:[ \t]+pub)?)[ \t]+([A-Z][a-z]+(?:_[a-z]+)+)(?=[ \t]*[:({])", re.M)
LIBRARY = re.compile(r"^[ \t]*(?:pub )?(?:ghost )?use (?:Rattle\.std|Rattle\.core|lib|borrow|Prim|denote|mathlib|bundle)\b[^{\n]*\.\{([^}]*)\}", re.M)
ALIAS = re.compile(rf"^[ \t]*(?:pub )?(?:ghost )?use Rattle\.(?!std\b|core\b)[^{{\n]*\.\{{([^}}]*)\}}", re.M)
STRING = re.compile(r'"(?:[^"\\]|\\.)*"')


def spelled(name):
    if name[0].isupper():
        return "".join(part[:1].upper() + part[1:] for part in re.split("[-_]", name))
    return re.sub("(?<=[a-z])[A-Z]", lambda found: "_" + found.group(0).lower(), name.replace("-", "_"))


# A name that a file gives to a definition of this repository where it imports it.
def aliases(text):
    for found in ALIAS.finditer(text):
        for item in found.group(1).split(","):
            if " as " in item:
                yield item.split(" as ")[1].strip()


def files():
    for pattern in ("crates/*/src/**/*.rt", "crates/*/specs/**/*.antt", "crates/*/proofs/**/*.antt"):
        yield from sorted(pathlib.Path(".").glob(pattern))


def declared():
    names = {}
    for path in files():
        for name in aliases(path.read_text()):
            if "-" in name:
                names.setdefault(name, set()).add(str(path))
        if path.suffix != ".antt":
            continue
        for found in HALF.finditer(path.read_text()):
            names.setdefault(found.group(1), set()).add(str(path))
        for found in DECLARED.finditer(path.read_text()):
            if re.match(r"\s*:\s*(goal|given)\.", found.group("rest")):
                continue
            names.setdefault(found.group(1), set()).add(str(path))
    return names


def of_library(text):
    names = set()
    for found in LIBRARY.finditer(text):
        for item in found.group(1).split(","):
            names.add(item.split(" as ")[0].strip())
            names.add(item.split(" as ")[-1].strip())
    return names


def turned(text, names, kept, rust):
    def turn(found):
        name = found.group(0)
        return spelled(name) if name in names and name not in kept else name

    if not rust:
        return DASHED.sub(turn, text)
    out, at = [], 0
    for string in STRING.finditer(text):
        out.append(DASHED.sub(turn, text[at : string.start()]))
        out.append(string.group(0))
        at = string.end()
    out.append(DASHED.sub(turn, text[at:]))
    return "".join(out)


def main():
    dry = "--dry" in sys.argv
    names = declared()
    whole = {path: path.read_text() for path in files()}
    words = {}
    for path, text in whole.items():
        for word in re.findall(rf"(?<![\w'-]){NAME}(?![\w'-])", text):
            words.setdefault(word, set()).add(str(path))
    new = {}
    for name in names:
        new.setdefault(spelled(name), set()).add(name)
    for name, olds in sorted(new.items()):
        if len(olds) > 1:
            print(f"falls together: {sorted(olds)} as {name}")
        if name in words:
            print(f"stands already: {name} (from {sorted(olds)}, declared in {sorted(set().union(*(names[o] for o in olds)))}) in {sorted(words[name])[:6]}")
    for path, text in whole.items():
        done = turned(text, names, of_library(text), path.suffix == ".rt")
        if done != text and not dry:
            path.write_text(done)
    left = {}
    for path in files():
        for name in DASHED.findall(path.read_text()):
            left.setdefault(name, set()).add(str(path))
    print("renamed: " + " ".join(sorted(names)))
    print("left: " + " ".join(sorted(left)))


main()
