#!/usr/bin/env python3
"""Respells the definitions and lemmas of the crates: usage: respell.py FOLDER

The new names stand in respelled.json beside this file. Where it is not there, it is made of what FOLDER declares.

A function, a lemma or a constructor is in snake case, and a dash stays only between two words that are definitions
themselves. Types, facts and modules keep their capitals. What the sources declare (functions, fields, constants,
exported names), fields of records and what the prover makes keep their names. A name that would fall together with
another keeps its dash, or gets _lem where it has none. A file's own names and those that it imports from a crate of
this repository are renamed, and no others.
"""

import collections
import json
import os
import re
import sys

WORD = r"[^\s(){},.;:=|«»\[\]⌜⌝λ\"]+"
TOKEN = re.compile(r"(?:" + WORD + r")")
DECLARES = re.compile(r"^( *)((?:(?:abbrev|opaque|unfoldable|pub|instance)\s+)*)(?:(record|data|ruleset)\s+)?(" + WORD + r")\s*(.*?)\s?[:=](?:\s|$)")
NOT_NAMES = {"use", "mod", "open", "module", "infixl", "infixr", "infix", "prefix", "let", "λ", "record", "in", "where", "unfolding", "elim", "rw", "simp", "|", "_", "?"}
IMPORT = re.compile(r"\buse\s+(Rattle(?:\.[\w+'-]+)+)(?:\.\{([^}]*)\})?(?:\s+as\s+([^\s;]+))?")


def files(root):
    for folder, dirs, names in os.walk(os.path.join(root, "crates")):
        dirs[:] = sorted(d for d in dirs if d not in ("out", "must-fail"))
        for name in sorted(names):
            if name.endswith((".antt", ".rt")):
                yield os.path.join(folder, name)


def module(root, path):
    """The path under which others import the file: Rattle.crate.specs.M"""
    parts = os.path.relpath(path, os.path.join(root, "crates"))[: -len(".antt")].split(os.sep)
    return ".".join(["Rattle"] + parts)


def blank(text):
    """The text with its comments blanked, of the same length."""
    return re.sub(r"--[ -].*|--$", lambda m: " " * len(m[0]), text, flags=re.M)


def declared(text):
    """The names that a file declares at the head of a line, with what each is: word, type, field or constructor."""
    found, inside, depth = {}, None, 0
    for line in blank(text).split("\n"):
        if not line.strip():
            continue
        indent = len(line) - len(line.lstrip())
        if inside and indent <= depth:
            inside = None
        m = DECLARES.match(line + " ")
        if not m or m[4] in NOT_NAMES or m[4].startswith("--"):
            continue
        if line.strip().startswith(("use ", "pub use ", "mod ", "pub mod ", "open ", "module ", "unfolding ", "infix", "let ", "in ")):
            continue
        name = m[4]
        if inside and indent > depth:
            found.setdefault(name, "field" if inside == "record" else "constructor")
            continue
        found.setdefault(name, "type" if m[3] in ("record", "data") else "word")
        if m[3] in ("record", "data"):
            inside, depth = m[3], indent
    return found


def snake(name):
    if not name[:1].islower():
        return name
    return re.sub(r"(?<=[a-z0-9])([A-Z]+)", lambda m: "_" + m[1].lower(), name)


def main(argv):
    root = argv[0]
    texts = {p: open(p, encoding="utf-8").read() for p in files(root)}
    names = {p: declared(t) for p, t in texts.items() if p.endswith(".antt")}
    of_module = {module(root, p): p for p in names}
    generated = re.compile(r"/proofs/.*/(Proof|Answers|Invariants)\.antt$")

    def keeps(p, n, kind):
        if kind in ("field", "type") or not re.match(r"^[a-zA-Z0-9_'-]+$", n):
            return True
        if n.endswith("-spec") or n.startswith(("Inv-", "μ", "invariant-", "decreases-")):
            return True
        return False

    own = {}  # (file, name) -> kind
    for p, found in names.items():
        made = set()
        if generated.search(p):
            made = set(re.findall(r"^(?:abbrev |pub )*(" + WORD + r")\s*:\s*(?:tie|goal)\.", texts[p], re.M))
        for n, kind in found.items():
            if n not in made and not keeps(p, n, kind):
                own[p, n] = kind
    # Names that a module passes on from another.
    for _ in range(3):
        for p in names:
            for m in re.finditer(r"pub use (Rattle(?:\.[\w+'-]+)+)\.\{([^}]*)\}", texts[p]):
                at = of_module.get(m[1])
                for item in m[2].split(","):
                    if at and " as " not in item and (at, item.strip()) in own:
                        own[p, item.strip()] = own[at, item.strip()]
    fields = {n for found in names.values() for n, kind in found.items() if kind == "field"}
    words = {n for (p, n) in own if "/specs/" in p and "-" not in n}
    words |= set(json.load(open(os.path.join(os.path.dirname(os.path.abspath(__file__)), "words.json"))))
    words |= {snake(n) for n in words}

    def dashes(name):
        """Keeps a dash between two words that are definitions, and writes the others as _."""
        parts = name.split("-")
        out = parts[0]
        for a, b in zip(parts, parts[1:]):
            out += ("-" if a in words and b in words else "_") + b
        return out

    everything = collections.Counter(n for found in names.values() for n in found)
    taken = {n for n in everything}
    table = os.path.join(os.path.dirname(os.path.abspath(__file__)), "respelled.json")
    # What each name becomes, the same in every file. The first two would hide behind parameters of the same name.
    becomes = {"codePoint": "is_code_point", "codePoints": "code_points_of"}
    all_own = sorted({n for _, n in own})
    for n in all_own:
        if n in fields:
            continue
        if n in becomes:
            continue
        new = snake(n) if "-" not in n else n
        if new != n:
            becomes[n] = new
    clashes = []
    for n, new in list(becomes.items()):
        if new in taken:
            clashes.append((n, new))
    for n in all_own:
        if "-" not in n or n in fields:
            continue
        new = dashes("-".join(snake(q) for q in n.split("-")))
        if new != n and new not in taken and new not in becomes.values():
            becomes[n] = new
    # A lemma that bears the name of a definition that is respelled gets _lem.
    for n, new in clashes:
        kinds = {k for (p, q), k in own.items() if q == new}
        if kinds:
            becomes[new] = new + "_lem"
        print("falls together:", n, new, "->", becomes.get(new, "(a field or a type has it)"))
    if os.path.isfile(table):
        becomes = json.load(open(table, encoding="utf-8"))
    else:
        json.dump(becomes, open(table, "w", encoding="utf-8"), indent=1, ensure_ascii=False, sort_keys=True)
    source_fields = {f for p, t in texts.items() if p.endswith(".rt") for f in re.findall(r"^\s+(?:pub )?(\w+): ", t, re.M)}
    changed = 0
    captured = []
    for p, text in texts.items():
        mine = {n for (q, n) in own if q == p}
        aliases = {}
        spans = []
        whole = blank(text) if p.endswith(".antt") else re.sub(r"//.*", lambda m: " " * len(m[0]), text)
        brought = {}
        for m in IMPORT.finditer(whole):
            at = of_module.get(m[1])
            if m[2] is not None and at:
                for item in m[2].split(","):
                    item = item.strip()
                    if not item:
                        continue
                    name = item.split(" as ")[0].strip()
                    if (at, name) in own:
                        brought[name] = item
            if m[2] is None and at:
                alias = m[3] or m[1].split(".")[-1]
                aliases[alias] = at
        visible = {n for n in mine | set(brought) if n in becomes}
        kept = set(re.findall(WORD, whole))
        for n in visible:
            if becomes[n] in kept and p.endswith(".antt") and re.search(r"(?<![\w.'-])" + re.escape(becomes[n]) + r"(?![\w'-])", whole):
                captured.append((os.path.relpath(p, root), n, becomes[n]))

        def turn(m):
            n, at = m[0], m.start()
            before = whole[at - 1] if at else " "
            # a field of a record of the sources, in a record that is made
            if n in source_fields and re.match(r"\s=\s", whole[m.end() : m.end() + 3]) and re.search(r"(?:[{;(]|^)\s*$", whole[max(0, at - 60) : at], re.M):
                return n
            if before == ".":
                head = re.search(r"([\w.+'·-]+)\.$", whole[max(0, at - 200) : at])
                if head:
                    q = of_module.get(head[1]) or aliases.get(head[1])
                    if q and (q, n) in own and n in becomes:
                        return becomes[n]
                return n
            if n in visible:
                return becomes[n]
            return n

        if p.endswith(".rt"):
            # only in clauses and imports: the braces behind requires and ensures, and ghost lines
            parts, last = [], 0
            for m in re.finditer(r"^ *ghost use [^;]*;|\b(?:requires|ensures)\*?(?: \w+)? \{", whole, re.M):
                if m.start() < last:
                    continue
                end = m.end()
                if whole[end - 1] == "{":
                    deep, k = 1, end
                    while deep:
                        deep += (whole[k] == "{") - (whole[k] == "}")
                        k += 1
                    end = k
                parts.append((m.start(), end))
                last = end
            out, last = [], 0
            for a, b in parts:
                out.append(text[last:a])
                out.append(TOKEN.sub(lambda m, a=a: turn_at(m, a, whole, visible, becomes, own, of_module, aliases), whole[a:b]))
                last = b
            out.append(text[last:])
            new = "".join(out)
        else:
            out, last = [], 0
            for m in TOKEN.finditer(whole):
                out.append(text[last : m.start()])
                out.append(turn(m))
                last = m.end()
            out.append(text[last:])
            new = "".join(out)
        if new != text:
            changed += 1
            with open(p, "w", encoding="utf-8") as f:
                f.write(new)
    print(len(becomes), "names respelled in", changed, "files")
    for row in captured:
        print("look:", *row)
    return 0


def turn_at(m, base, whole, visible, becomes, own, of_module, aliases):
    n, at = m[0], base + m.start()
    if at and whole[at - 1] == ".":
        head = re.search(r"([\w.+'·-]+)\.$", whole[max(0, at - 200) : at])
        if head:
            q = of_module.get(head[1]) or aliases.get(head[1])
            if q and (q, n) in own and n in becomes:
                return becomes[n]
        return n
    return becomes[n] if n in visible else n


if __name__ == "__main__":
    raise SystemExit(main(sys.argv[1:]))
