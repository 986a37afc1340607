#!/usr/bin/env python3
"""Brings the must-fail edits over to today's text: usage: turn_edits.py [COMMIT]

COMMIT is the last one in the older form. Each edit is read as it stands there; its old and its new texts are turned by the same
rules, and are written where each turned old text stands exactly once in today's file. An edit whose texts stand today already is
left as it is, so that what was mended by hand stays. What is left to do by hand is printed.

The names are those of respelled.json. A projection is written tight, `(f x .a .b)` as `(f x).a.b`, and brackets round a single
projection go. An import is turned to its place in the Prelude, and a name is added to the line as it reads now.
"""

import json
import os
import re
import subprocess
import sys

HERE = os.path.dirname(os.path.abspath(__file__))
ROOT = os.path.dirname(os.path.dirname(HERE))
BECOMES = json.load(open(os.path.join(HERE, "respelled.json"), encoding="utf-8"))
BECOMES["getD"] = "get_or"
TOKEN = re.compile(r"\s+|[()\[\]{}]|[,;]|\.?[^\s()\[\]{},;]+")
BREAKS = set("= && || ∷ ++ + - % ^ * ⇒ → ≡ ≤ < ↦ | : ; , λ as in let elim cond_".split())
CLOSES = {"(": ")", "[": "]", "{": "}"}
PATHS = [
    (r"Rattle·(\w+)·specs\.specs\.", r"Rattle.\1.specs."),
    (r"Rattle·(\w+)\.specs\.", r"Rattle.\1.specs."),
    (r"\bthe-variants\b", "TheVariants"),
    (r"«(\w+)»", r"\1"),
    (r"mathlib\.Core\.(?:Bool|List)\.", "Rattle.std.specs.Prelude."),
    (r"Prim\.Native\.Nat\.", "Rattle.std.specs.Prelude."),
    (r"(?<![\w'])_(\|\||&&|\+\+|[-+%^∷])_(?![\w'])", r"◌\1◌"),
]


class Item:
    def __init__(self, space, text, tight=False):
        self.space, self.text, self.tight = space, text, tight


def today():
    """The words of today's specs."""
    words = set()
    for crate in os.listdir(os.path.join(ROOT, "crates")):
        folder = os.path.join(ROOT, "crates", crate, "specs")
        for it in os.listdir(folder) if os.path.isdir(folder) else []:
            words |= set(re.findall(r"[\w'-]+", open(os.path.join(folder, it), encoding="utf-8").read()))
    return words


TODAY = today()


def name(word):
    """The word with its last part in today's spelling."""
    head, dot, last = word.rpartition(".")
    if word.startswith(".") or not last:
        return word
    if last not in BECOMES and last not in TODAY:
        new = re.sub(r"(?<=[a-z0-9])([A-Z]+)", lambda m: "_" + m[1].lower(), last)
        last = new if new in TODAY else last
    return head + dot + BECOMES.get(last, last)


def level(tokens, at, close):
    """The items up to the closing bracket, with each projection written tight, and where they end."""
    out, begin, space = [], 0, ""
    while at < len(tokens):
        token = tokens[at]
        at += 1
        if token.isspace():
            space += token
            continue
        if token == close:
            return out, at, space
        if token in CLOSES:
            inside, at, last = level(tokens, at, CLOSES[token])
            shut = CLOSES[token] if at and tokens[at - 1] == CLOSES[token] and last is not None else ""
            if token == "(" and shut and len(inside) == 1 and inside[0].tight:
                out.append(Item(space, inside[0].text, True))
            else:
                out.append(Item(space, token + shown(inside) + (last or "") + shut))
        elif re.fullmatch(r"\.\w+", token) or re.fullmatch(r"\.«\w+»", token):
            spine = out[begin:]
            if not spine:
                out.append(Item(space, token))
            elif len(spine) == 1:
                spine[0].text, spine[0].tight = spine[0].text + token, True
            else:
                first = spine[0].space
                spine[0].space = ""
                out[begin:] = [Item(first, "(" + shown(spine) + ")" + token, True)]
        else:
            out.append(Item(space, name(token)))
            if token in BREAKS or token.endswith("."):
                begin = len(out)
        space = ""
    return out, at, space if close is None else (space or None)


def shown(items):
    return "".join(it.space + it.text for it in items)


def turned(text):
    """A text of specs/ in today's spelling."""
    for old, new in PATHS:
        text = re.sub(old, new, text)
    tokens = TOKEN.findall(text)
    items, _, last = level(tokens, 0, None)
    return shown(items) + (last or "")


def read(text):
    file = re.search(r"^file: (.*)$", text, re.M)[1].strip()
    return file, re.findall(r"^old: ?(.*)\nnew: ?(.*)$", text, re.M)


def stands(source, pairs):
    """Whether each old text stands once, after the earlier pairs."""
    for old, new in pairs:
        if source.count(old) != 1:
            return False
        source = source.replace(old, new)
    return True


def older(commit, path):
    return subprocess.run(["git", "-C", ROOT, "show", f"{commit}:{path}"], capture_output=True, text=True, check=True).stdout


def turned_pair(source, old, new):
    """The pair in today's text, or None where its old text is not in today's file."""
    a, b = turned(old), turned(new)
    for x, y in ((a, b), (a.strip(), b.strip())):
        if source.count(x) == 1:
            return x, y
    # an import: the names that are new are put first in the line that brings one of the others today
    if "use " in old or ".{" in old or re.fullmatch(r"\{[^{}]*[,}]", old):
        names, more = ([it.strip() for it in re.search(r"\{([^}]*)", x)[1].split(",") if it.strip()] for x in (a, b))
        added = [it for it in more if it not in names]
        for at in reversed(names):
            here = [it for it in re.findall(r"^use [^{]*\{[^}]*\}", source, re.M) if re.search(r"[{ ]" + re.escape(at) + r"[,}]", it)]
            if len(here) == 1:
                have = [it.strip() for it in re.search(r"\{([^}]*)\}", here[0])[1].split(",")]
                lacks = [it for it in added if it not in have]
                front = re.match(r"use [^{]*\{[^,}]*[,}]", here[0])[0]
                if not lacks:
                    return ()
                return front, front.replace("{", "{" + "".join(it + ", " for it in lacks), 1)
    return None


def main(argv):
    commit = argv[0] if argv else "eaf27616"
    left, done, kept = 0, 0, 0
    for crate in sorted(os.listdir(os.path.join(ROOT, "crates"))):
        folder = os.path.join(ROOT, "crates", crate, "must-fail")
        for edit in sorted(os.listdir(folder)) if os.path.isdir(folder) else []:
            path = os.path.join(folder, edit)
            today = open(path, encoding="utf-8").read()
            file, pairs = read(today)
            source = open(os.path.join(ROOT, "crates", crate, file), encoding="utf-8").read()
            text = older(commit, f"crates/{crate}/must-fail/{edit}")
            if stands(source, pairs):
                # its new texts may still be in the older spelling
                if text == today and file.endswith(".antt"):
                    for old, new in pairs:
                        text = text.replace(f"old: {old}\nnew: {new}", f"old: {old}\nnew: {turned(new)}", 1)
                    with open(path, "w", encoding="utf-8") as it:
                        it.write(text)
                kept += 1
                continue
            file, pairs = read(text)
            now, made = source, []
            for old, new in pairs:
                pair = turned_pair(now, old, new)
                if pair == ():
                    # what it brings is there today
                    made.append(pair)
                    continue
                if not pair:
                    print(f"{crate}/{edit}: by hand: {old!r} -> {turned(old)!r} stands {now.count(turned(old))} times in {file}")
                    left += 1
                    break
                made.append(pair)
                now = now.replace(*pair)
            else:
                for (old, new), pair in zip(pairs, made):
                    was = f"old: {old}\nnew: {new}"
                    text = text.replace(was, f"old: {pair[0]}\nnew: {pair[1]}", 1) if pair else text.replace(was + "\n", "", 1)
                with open(path, "w", encoding="utf-8") as it:
                    it.write(text)
                done += 1
    print(f"{done} turned, {kept} stand already, {left} by hand")


if __name__ == "__main__":
    main(sys.argv[1:])
