#!/usr/bin/env python3
"""Which files of definitions the headline rests on.

Follows the imports of the clauses of `run` from file to file, and compares what it finds with the list under
'What the headline rests on' in docs/DEFINITIONS.md: the same files, each behind those that it imports, and none
of them under specs/inside/. With the word `list` it prints the files in an order that can be read. Its status is 0
where all is as it should be.
"""
import os
import re
import sys

TOP = os.path.join(os.path.dirname(os.path.abspath(__file__)), "..")
ROOT = "crates/session_desk/src/top.rt"
LIST = "docs/DEFINITIONS.md"
HEAD = "## What the headline rests on"
USE = re.compile(r"^\s*(?:ghost |pub )?use Rattle\.(\w+)\.specs\.([\w.]+?)(?:\.\{|\.?\s*$|\s+as\s|;)", re.M)


def read(path):
    with open(os.path.join(TOP, path), encoding="utf-8") as file:
        return file.read()


def imports(path):
    """The files of definitions of this repository that a file imports, in its order."""
    found = []
    for crate, module in USE.findall(read(path)):
        file = f"crates/{crate}/specs/{module.replace('.', '/')}.antt"
        # What stands under `declared` is a type of the code, and other crates are the toolchain's.
        if not module.startswith("declared") and os.path.exists(os.path.join(TOP, file)):
            if file not in found:
                found.append(file)
    return found


def below(path, order, open_files):
    """Puts the files that a file rests on into the order, each behind its own."""
    for file in imports(path):
        if file not in order and file not in open_files:
            open_files.add(file)
            below(file, order, open_files)
            order.append(file)


def listed():
    """The files that the document lists, in its order."""
    text = read(LIST)
    if HEAD not in text:
        return []
    part = text.split(HEAD, 1)[1].split("\n## ", 1)[0]
    return [f"crates/{crate}/specs/{name}.antt" for crate, name in re.findall(r"`(\w+)/specs/([\w/]+)\.antt`", part)]


def faults(order, names):
    """What is wrong with the list."""
    for file in order:
        if file not in names:
            yield f"{file} is not in the list of {LIST}"
        if "/specs/inside/" in file:
            yield f"the headline rests on {file}, which is of the code alone"
    for place, file in enumerate(names):
        if file not in order:
            yield f"{file} is in the list, and the headline doesn't rest on it"
            continue
        if file in names[:place]:
            yield f"{file} is in the list twice"
        for other in imports(file):
            if other in names and names.index(other) > place:
                yield f"{file} is in the list before {other}, which it imports"


def main():
    order = []
    below(ROOT, order, set())
    if sys.argv[1:] == ["list"]:
        print("\n".join(order))
        return 0
    found = list(faults(order, listed()))
    for fault in found:
        print("headline definitions:", fault)
    if not found:
        print(f"headline definitions: the list has all {len(order)} files, in an order that can be read")
    return 1 if found else 0


sys.exit(main())
