#!/usr/bin/env python3
"""Counts the places of each point of docs/DESIGN-PASS.md in crates/*/src, by the text alone.

    tools/design/count.py           the counts
    tools/design/count.py POINT     the places of one point, a line each (loops, enums, flags, twins, hand, many, counted, steps)
"""
import collections
import glob
import os
import re
import sys

os.chdir(os.path.join(os.path.dirname(os.path.abspath(__file__)), "..", ".."))
FILES = sorted(glob.glob("crates/*/src/**/*.rt", recursive=True))
TEXTS = {file: open(file, encoding="utf-8").read() for file in FILES}
HEAD = re.compile(r"(?m)^( *)(?:pub(?:\(crate\))? )?fn (\w+)(?:<[^>]*>)?\(([^)]*)\)")


def lines(pattern):
    """The lines of code, no comments, that the pattern is found in."""
    for file, text in TEXTS.items():
        for at, line in enumerate(text.split("\n"), 1):
            if not line.lstrip().startswith("//") and re.search(pattern, line):
                yield f"{file}:{at}: {line.strip()}"


def functions():
    """Each function: its file, its name, its parameters and its body."""
    for file, text in TEXTS.items():
        for m in HEAD.finditer(text):
            end = text.find(f"\n{m.group(1)}}}\n", m.end())
            whole = text[m.start() : end if end >= 0 else len(text)]
            start = re.search(r"(?m)^%s\{$|\{$" % m.group(1), whole)
            params = [it.strip() for it in m.group(3).split(",") if it.strip()]
            yield file, m.group(2), params, whole[start.end() :] if start else ""


def loops():
    return list(lines(r"^\s*(?:while\b|loop \{)"))


def enums():
    """Enums of which one variant at most holds a value, or one holds a refusal: the shape of an Option or a Result."""
    found = []
    for file, text in TEXTS.items():
        for m in re.finditer(r"(?m)^(?:pub(?:\(crate\))? )?enum (\w+) \{\n(.*?)^\}", text, re.S):
            body = re.sub(r"//.*", "", m.group(2))
            variants = re.findall(r"(?m)^    (\w+)(\(|\s*\{|,)", body)
            holding = [name for name, mark in variants if mark != ","]
            if holding and (len(holding) == 1 or any(re.search(r"%s\((?:Refusal|Answer)\)" % it, body) for it in holding)):
                found.append(f"{file}: {m.group(1)}: {', '.join(name for name, _ in variants)}")
    return found


def flags():
    """Structs with a bool or an answer beside a value."""
    found = []
    for file, text in TEXTS.items():
        for m in re.finditer(r"(?m)^(?:pub(?:\(crate\))? )?struct (\w+)(?:<\w+>)? \{\n(.*?)^\}", text, re.S):
            fields = re.findall(r"(?m)^    (?:pub(?:\(crate\))? )?(\w+): ([^,]+),", m.group(2))
            if len(fields) > 1 and any(kind in ("bool", "Verdict", "LoadAnswer", "Judged", "Sent") for _, kind in fields):
                found.append(f"{file}: {m.group(1)}: {', '.join(name for name, _ in fields)}")
    return found


def twins():
    """Pairs of functions whose bodies are the same but for types, sizes and names of constants."""
    seen = collections.defaultdict(list)
    for file, name, _, body in functions():
        text = re.sub(r"//.*", "", body)
        text = re.sub(r"\b(?:u8|u16|u32|u64|usize|i32)\b", "T", text)
        text = re.sub(r"\b[A-Z][A-Z_]+\b|\b\d+\b", "N", text)
        text = re.sub(r"\s+", " ", text).strip()
        if len(text) > 60:
            seen[text].append(f"{file}: {name}")
    return [" = ".join(them) for them in seen.values() if len(them) > 1]


def hand():
    """Functions that do what a derive or a method of the library does: equality, order, copying, maxima and minima."""
    names = r"same_id|same_bytes|larger|lesser|earlier|copy|wide|both|either|put_(?:characters|toggles|pending|heads|links)|is_digit"
    return [f"{file}: {name}" for file, name, _, _ in functions() if re.fullmatch(names, name)]


def many():
    return [f"{file}: {name}: {len(params)}" for file, name, params, _ in functions() if len(params) >= 5]


def counted():
    """Parameters that are a count beside the slice that it counts in."""
    found = []
    for file, name, params, _ in functions():
        kinds = [it.split(":", 1) for it in params if ":" in it]
        slices = [it for it in kinds if re.search(r"\[(?:u8|u16|u32|u64|usize|T)\]", it[1])]
        counts = [it[0] for it in kinds if re.fullmatch(r"n|w|count|m|slots|length|waiting", it[0]) and "usize" in it[1]]
        if slices and counts:
            found.append(f"{file}: {name}: {', '.join(counts)}")
    return found


def steps():
    return list(lines(r"\bmatch (?:kind|version|rows|from|to|change)\b"))


POINTS = [("enums", enums), ("flags", flags), ("twins", twins), ("loops", loops), ("hand", hand), ("many", many), ("counted", counted), ("steps", steps)]


def main():
    wanted = sys.argv[1:]
    for name, find in POINTS:
        if wanted:
            if name in wanted:
                print("\n".join(find()))
        else:
            print(f"{name}\t{len(find())}")
    if not wanted:
        proofs = [it for it in glob.glob("crates/*/proofs/**/*.antt", recursive=True)]
        print(f"proof files\t{len(proofs)}")
        print(f"proof lines\t{sum(open(it, encoding='utf-8').read().count(chr(10)) for it in proofs)}")


main()
