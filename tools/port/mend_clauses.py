#!/usr/bin/env python3
"""Writes the clauses of impossible cases that a check asks for: usage: mend_clauses.py ROOT/crates/CRATE LOG"""
import os
import re
import sys

base, log = sys.argv[1:3]
L = open(log, encoding="utf-8", errors="replace").read().split("\n")
todo = {}
i = 0
while i < len(L):
    m = re.match(r"(?:so far: )?(?:\.\./(\w+)/|\./)?([\w/+.-]*\.antt):(\d+):(\d+): error: `([^`]+)`: write the clauses?", L[i])
    if not m:
        i += 1
        continue
    f = os.path.join(base, m[2]) if not m[1] else os.path.join(os.path.dirname(base), m[1], m[2])
    clauses = re.findall(r"write the clause `([^`]+)`", L[i])
    j = i + 1
    while j < len(L) and L[j].startswith("  "):
        if re.match(r"  \S+ .*= ", L[j]) and not L[j].startswith("  no clause"):
            clauses.append(L[j].strip())
        elif clauses and L[j].startswith("      "):
            clauses[-1] += " " + L[j].strip()
        j += 1
    if clauses:
        todo.setdefault(f, {})[int(m[3]), m[5]] = clauses
    i = j
n = 0
for f, items in todo.items():
    t = open(f, encoding="utf-8").read().split("\n")
    for (line, name), clauses in sorted(items.items(), reverse=True):
        head = clauses[0].split()[0]
        sig = re.compile(r"\s*(?:(?:abbrev|pub|unfoldable|opaque)\s+)*" + re.escape(head) + r"(\s.*)?:(\s|$)|\s*(?:(?:abbrev|pub|unfoldable|opaque)\s+)*" + re.escape(head) + r"\s*$")
        k = line - 1
        if head == name:
            while k >= 0 and not sig.match(t[k]):
                k -= 1
        else:
            # a function of a where block, above or below the place
            up = next((q for q in range(line - 1, max(-1, line - 80), -1) if sig.match(t[q])), None)
            down = next((q for q in range(line - 1, min(len(t), line + 80)) if sig.match(t[q])), None)
            k = up if down is None or (up is not None and line - up < down - line) else down
        if k is None or k < 0:
            print("not placed:", f, name)
            continue
        ind = re.match(r"\s*", t[k])[0]
        # in front of the first clause
        e = k + 1
        while e < len(t) and not re.match(re.escape(ind) + re.escape(head) + r"(\s|$)", t[e]):
            e += 1
        t[e:e] = [ind + c for c in clauses]
        n += len(clauses)
    open(f, "w", encoding="utf-8").write("\n".join(t))
print("clauses written", n, {os.path.relpath(f, os.path.dirname(base)): len(v) for f, v in todo.items()})
