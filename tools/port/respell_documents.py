#!/usr/bin/env python3
"""Respells the definitions and lemmas that the documents name: usage: respell_documents.py FOLDER

A name is turned where it is the whole of a text between backticks, or where it follows the last :: of one, if it is in
respelled.json, or else if the crates have it no more but have its snake case in specs/ or proofs/, as for the names that
port.py turned. A lemma that got _lem is left: its older name is a definition's or a function's too. What is left in an
older spelling is printed. It may be run again.
"""

import json
import os
import re
import sys

HERE = os.path.dirname(os.path.abspath(__file__))
BECOMES = json.load(open(os.path.join(HERE, "respelled.json"), encoding="utf-8"))
NAME = re.compile(r"[A-Za-z][\w'-]*")


def documents(root):
    yield from (os.path.join(root, it) for it in ("README.md", "CONTRIBUTING.md", "CHANGELOG.md"))
    for folder in ("docs", "docs/changes"):
        for it in sorted(os.listdir(os.path.join(root, folder))):
            if it.endswith(".md") and it != "PORT.md":
                yield os.path.join(root, folder, it)


def words(root, endings, folders):
    """The words of the crates' files that have one of the endings and stand in one of the folders."""
    found = set()
    for folder, dirs, files in os.walk(os.path.join(root, "crates")):
        dirs[:] = sorted(it for it in dirs if it not in ("out", "must-fail"))
        for it in files:
            path = os.path.join(folder, it)
            if it.endswith(endings) and any(f"/{at}/" in path for at in folders):
                found |= set(re.findall(r"[\w'-]+", open(path, encoding="utf-8").read()))
    return found


def snake(name):
    return re.sub(r"(?<=[a-z0-9])([A-Z]+)", lambda m: "_" + m[1].lower(), name) if name[:1].islower() else name


def main(argv):
    root = argv[0]
    everywhere = words(root, (".antt", ".rt"), ("specs", "proofs", "src"))
    defined = words(root, (".antt",), ("specs", "proofs"))
    turned, left = 0, {}

    def respelled(name, at):
        new = BECOMES.get(name, "")
        if new and not new.endswith("_lem"):
            return new
        if name in everywhere or not re.search(r"[a-z][A-Z]|-", name):
            return name
        for new in (snake(name), snake(name).replace("-", "_")):
            if new != name and new in defined:
                return new
        left.setdefault(name, at)
        return name

    for path in documents(root):
        text = open(path, encoding="utf-8").read()

        def turn(m):
            nonlocal turned
            head, colons, last = m[1].rpartition("::")
            if not NAME.fullmatch(last) or (colons and not re.fullmatch(r"[\w:]+", head)):
                return m[0]
            new = respelled(last, os.path.relpath(path, root))
            turned += new != last
            return "`" + head + colons + new + "`"

        new = re.sub(r"`([^`\n]+)`", turn, text)
        if new != text:
            with open(path, "w", encoding="utf-8") as it:
                it.write(new)
    print(f"{turned} names turned")
    for name, at in left.items():
        print("left:", name, "in", at)
    return 0


if __name__ == "__main__":
    raise SystemExit(main(sys.argv[1:]))
