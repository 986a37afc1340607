#!/usr/bin/env python3
"""Turns a Proof.antt that answers goals one by one into Invariants.antt and Answers.antt.

usage: turn_proofs.py ROOT NAMES CRATE..   NAMES has CRATE/names.json, as rt check --generated --old-names writes it
"""
import json, os, re, sys

ID = r"[^\s(){}\[\],;.:=|\"⌜⌝λ]+"
SIG = re.compile(r"^( *)((?:(?:abbrev|opaque|unfoldable|pub|record|data)\s+)*)(" + ID + r")\s*((?:[({].*)?)\s*:(?:\s|$)")


def norm(s):
    return s.replace("_", "-")


def bare(s):
    return re.sub(r"_lem$", "", s).replace("_", "").replace("-", "").lower()


def closing(t, i):
    pair = {"(": ")", "{": "}", "[": "]"}
    stack = []
    k = i
    while k < len(t):
        ch = t[k]
        if t.startswith("--", k) and (k + 2 >= len(t) or t[k + 2] in " -\n"):
            k = t.find("\n", k)
            if k < 0:
                return len(t)
        elif ch in "([{":
            stack.append(pair[ch])
        elif ch in ")]}":
            stack.pop()
            if not stack:
                return k + 1
        k += 1
    return len(t)


def split_args(t):
    """The arguments of an application, without the head."""
    out, k = [], 0
    while k < len(t):
        if t[k].isspace():
            k += 1
            continue
        start = k
        while k < len(t) and not t[k].isspace():
            if t[k] in "([{":
                k = closing(t, k)
            else:
                k += 1
        out.append(t[start:k])
    return out


def split_top(t, sep=","):
    out, k, start = [], 0, 0
    while k < len(t):
        if t[k] in "([{":
            k = closing(t, k)
            continue
        if t[k] == sep:
            out.append(t[start:k].strip())
            start = k + 1
        k += 1
    last = t[start:].strip()
    if last:
        out.append(last)
    return out


class Names:
    def __init__(self, d):
        self.d = d
        self.places = d["places"]
        self.index = {norm(p[0]): i for i, p in enumerate(self.places)}
        self.by_name = d["places_by_name"]
        self.needs = d["needs"]
        self.asked_at = d["asked_at"]
        self.clauses = d["clauses"]
        self.params = d["params"]
        self.arms = d["arms"]
        self.pre = d["pre"]
        self.asked = {norm(k): v for k, v in d["asked"].items()}

    def chain(self, i):
        """The places from i up to the start."""
        out = []
        while i is not None:
            out.append(i)
            parent = self.places[i][1]
            i = self.index[norm(parent)] if parent else None
        return out


def clause_path(fields, nums, offset=0):
    """A path of numbers into nested pairs of clauses, as (name, rest), or (None, how many were taken)."""
    k, i = 0, offset
    n = len(fields)
    while i < n - 1:
        if k >= len(nums):
            return None, i
        if nums[k] == "0":
            return fields[i], nums[k + 1 :]
        if nums[k] != "1":
            return None, i
        i += 1
        k += 1
    return fields[n - 1], nums[k:]


class Turner:
    def __init__(self, names, said):
        self.n = names
        self.said = said
        self.targets = {}  # helper -> the places of its typed arguments, in order
        self.used = set()
        self.goal = None
        self.alias = set()  # names of a section that stand for an earlier place of its variable

    def distance(self, low, high):
        k = 0
        for i in self.n.chain(low):
            if i == high:
                return k
            k += 1
        return None

    def find(self, low, old):
        for i in self.n.chain(low):
            if bare(self.n.places[i][2][0]) == bare(old) and self.n.places[i][1]:
                return i
        return None

    def resolve(self, kind, path):
        """What a variable with a path stands for: (sort, .., text)."""
        if kind[0] == "place":
            _, low, text, view = kind
            while path and path[0] == "before":
                path = path[1:]
            if not path:
                return kind
            first = norm(path[0])
            if first == "pre" and self.find(low, "pre") is None:
                first, path = "requires", ["requires"] + path[1:]
            if first == "requires":
                pre = self.n.pre
                if pre and pre.get("fields"):
                    return self.resolve(("clauses", pre["fields"], 0, text + ".requires"), path[1:])
                return ("text", text + "." + ".".join(path))
            if first in ("args", "ranges", "well-formed", "lifetimes", "type-inv") and self.find(low, path[0]) is None:
                if len(path) == 1:
                    return ("value", text + "." + path[0])
                return ("text", text + "." + ".".join(path))
            i = self.find(low, path[0])
            if i is None:
                self.said(f"no step {path[0]} at {self.n.places[low][0]}")
                return ("text", text + "." + ".".join(path))
            return self.resolve(("step", i, low, text, f"{text}.{self.n.places[i][2][1]}"), path[1:])
        if kind[0] == "step":
            _, i, low, text, shown = kind
            place = self.n.places[i]
            old, new = place[2]
            best = None
            for j in self.n.chain(low):
                arm = self.n.arms[j]
                for field, step, steps in arm[2] if arm else []:
                    if norm(step) == norm(old) and steps and path[: len(steps)] == steps and (best is None or len(steps) > best[0]):
                        best = (len(steps), f"{text}.{arm[0]}.{field}", field)
            if best:
                c = self.n.clauses[i]
                if best[2] == "ensures" and c and c.get("fields"):
                    return self.resolve(("clauses", c["fields"], 0, best[1]), path[best[0] :])
                return ("text", best[1] + "".join("." + p for p in path[best[0] :]))
            if not path:
                return kind
            if path[0] == "ensures":
                c = self.n.clauses[i]
                if c and c.get("fields"):
                    return self.resolve(("clauses", c["fields"], 0, shown + ".ensures"), path[1:])
            if path[0] == "last" and self.n.params.get(place[3]) is not None:
                return self.resolve(("last", self.n.params[place[3]], 0, shown), path[1:])
            if path[0] == "given":
                for j in self.n.chain(low):
                    for var, step in self.n.d["typed"][j]:
                        if norm(step) == norm(old):
                            return ("text", f"{text}.type_inv.{var}" + "".join("." + p for p in path[1:]))
                self.said(f"given of {old} at {place[0]}: {'.'.join(path)}")
            head = path[0]
            for x, y in place[4]:
                if norm(head) == norm(x):
                    head = y
                    break
            return ("text", f"{shown}.{head}" + "".join("." + p for p in path[1:]))
        if kind[0] == "clauses":
            _, fields, at, text = kind
            if not path:
                return kind
            name, rest = clause_path(fields, path, at)
            if name is None:
                return ("clauses", fields, rest, text)
            return ("text", f"{text}.{name}" + "".join("." + p for p in rest))
        if kind[0] == "last":
            _, params, at, text = kind
            k = 0
            while k < len(path) and path[k] == "1":
                at += 1
                k += 1
            if k < len(path) and path[k] == "0" and at < len(params):
                return ("text", f"{text}.new.{params[at]}" + "".join("." + p for p in path[k + 1 :]))
            return ("last", params, at, text)
        if kind[0] == "value":
            return ("text", kind[1] + "".join("." + p for p in path)) if path else kind
        return ("text", kind[1])

    def show(self, r):
        if r[0] in ("text", "value"):
            return r[1]
        if r[0] == "place":
            return r[2]
        if r[0] == "step":
            return r[4]
        if r[0] == "clauses":
            if r[2]:
                self.said(f"part of clauses {r[3]} from {r[2]}")
            return r[3]
        if r[0] == "last":
            if r[2]:
                self.said(f"part of last {r[3]}")
            return r[3] + ".new"

    def coerced(self, r, before):
        """A goal's record, or a helper's, as the record of the place that the helper in front of it takes."""
        _, low, text, view = r
        helper = None
        for m in re.finditer(r"(?<![\w.'-])(" + ID + r")(?![\w'-])", before[-160:]):
            if m[1] in self.targets:
                helper = m[1]
        if helper is None:
            return text
        for t in self.targets[helper]:
            d = self.distance(low, t)
            if d is None:
                self.said(f"{helper} takes {self.n.places[t][0]}, which is not before {self.n.places[low][0]}")
                return text
            self.used.add(self.n.by_name[t])
            if view:
                return f"(goal.at.{self.goal} {text}).{self.n.by_name[t]}"
            if d:
                self.said(f"{helper} takes {self.n.by_name[t]} in a helper at {self.n.by_name[low]}")
            return text
        return text

    def body(self, text, env):
        """Turns the references of a term. env: var -> what it stands for."""
        env = dict(env)
        out, k = [], 0
        for name in self.alias:
            text = re.sub(r"\(" + re.escape(name) + r"\s+(" + ID + r")\)", lambda m: m[1] if m[1] in env or re.search(r"\blet\s+" + re.escape(m[1]) + r"\s*=", text) else m[0], text)
        pattern = re.compile(r"(?<![\w.'₀-₉-])(" + ID + r")((?:\.[^\s(){}\[\],;.]+)*)")
        let = re.compile(r"\blet\s+(" + ID + r")\s*=\s*$")
        while k < len(text):
            m = pattern.search(text, k)
            if not m:
                out.append(text[k:])
                break
            out.append(text[k : m.start()])
            k = m.end()
            var, path = m[1], [p for p in m[2].split(".") if p]
            if var not in env:
                out.append(m[0])
                continue
            r = self.resolve(env[var], path)
            so_far = "".join(out)
            bound = let.search(so_far[-200:])
            if bound and re.match(r"\s+in\b", text[k : k + 12]):
                name = bound[1]
                shown = self.show(r) if not (r[0] == "clauses" and r[2]) and not (r[0] == "last") else r[3] + (".new" if r[0] == "last" else "")
                if r[0] == "place":
                    # the variable stands for the whole record, whose fields include the earlier steps
                    env[name] = r
                    whole = "".join(out)
                    out = [whole[: whole.rindex("let")]]
                    k += re.match(r"\s+in\b[ ]*(?:\n[ ]*)?", text[k:]).end()
                    continue
                if r[0] == "step":
                    env[name] = ("step", r[1], r[2], r[3], name)
                elif r[0] == "clauses":
                    env[name] = ("clauses", r[1], r[2], name)
                elif r[0] == "last":
                    env[name] = ("last", r[1], r[2], r[3])
                else:
                    env.pop(name, None)
                out.append(shown)
                continue
            if r[0] == "place":
                out.append(self.coerced(r, so_far))
            else:
                out.append(self.show(r))
        return "".join(out)


def record_of(term, fields, said):
    """A term for nested pairs of facts, as a record with the fields' names."""
    t = term.strip()
    m = re.match(r"(let\b[\s\S]*)$", t)
    if t.startswith("let "):
        # find the matching top-level 'in' of the last let
        k, depth_let, pos = 0, 0, None
        i = 0
        n = len(t)
        words = []
        while i < n:
            if t[i] in "([{":
                i = closing(t, i)
                continue
            w = re.match(r"[^\s(){}\[\]]+", t[i:])
            if w:
                words.append((w[0], i))
                i += len(w[0])
            else:
                i += 1
        depth = 0
        for w, at in words:
            if w == "let":
                depth += 1
            elif w == "in":
                depth -= 1
                if depth == 0:
                    pos = at + 2
                    rest = t[pos:].lstrip()
                    if not rest.startswith("let "):
                        break
        if pos is None:
            said("let without in")
            return term
        return t[:pos] + "\n    " + record_of(t[pos:], fields, said)
    if t.startswith("elim"):
        k = t.find("[")
        # the cases stand in the last bracket
        i, last = 0, None
        while i < len(t):
            if t[i] == "[":
                last = i
                i = closing(t, i)
                continue
            if t[i] in "({":
                i = closing(t, i)
                continue
            i += 1
        if last is None:
            said("elim without cases")
            return term
        end = closing(t, last)
        inner = t[last + 1 : end - 1]
        cases = split_top(inner, "|")
        turned = []
        for case in cases:
            if "↦" in case:
                a, b = case.split("↦", 1)
                turned.append(a + "↦ " + record_of(b, fields, said))
            else:
                turned.append(case)
        return t[:last] + "[ " + " | ".join(turned) + " ]" + t[end:]
    parts = []
    cur = t
    n = len(fields)
    while len(parts) < n - 1:
        if cur.startswith("(") and closing(cur, 0) == len(cur):
            items = split_top(cur[1:-1])
            if len(items) == 2:
                parts.append(items[0])
                cur = items[1]
                continue
            if len(items) == 1:
                cur = items[0]
                continue
            if len(items) == n - len(parts):
                parts += items
                cur = None
                break
        if re.match(r"search rules$|cc$|omega arith$", cur):
            parts += [cur] * (n - len(parts) - 1)
            break
        whole = cur if re.match(r"^[^\s(]+$", cur) or (cur.startswith("(") and closing(cur, 0) == len(cur)) else f"({cur})"
        if re.match(r"^(rw|simp|search|grind|omega|subst|λ|elim|record)\b", cur):
            said("a tactic for several clauses: " + cur[:80])
        left = n - len(parts)
        for j in range(left - 1):
            parts.append(whole + ".1" * j + ".0")
        cur = whole + ".1" * (left - 1)
        break
    if cur is not None:
        parts.append(cur)
    return "record {\n" + "".join(f"      {f} = {p};\n" for f, p in zip(fields, parts)) + "    }"


def decls(text):
    """The declarations of a file, as (indent, head line index, text), with what stands between them."""
    lines = text.split("\n")
    out, cur = [], []
    for l in lines:
        starts = False
        if l.strip() and not l.strip().startswith("--"):
            m = SIG.match(l)
            ind = len(l) - len(l.lstrip())
            if m and m[3] not in ("use", "module", "let", "open", "mod", "in") and cur is not None:
                starts = True
            if l.lstrip().startswith(("module ", "use ", "pub use ")) :
                starts = True
            if cur and any(x.strip() for x in cur):
                first = next((x for x in cur if x.strip() and not x.strip().startswith("--")), "")
                find = len(first) - len(first.lstrip())
                if starts and first and ind > find and not first.lstrip().startswith("module "):
                    starts = False
        if l.strip().startswith("--") and cur and any(x.strip() and not x.strip().startswith("--") for x in cur) and not cur[-1].strip():
            out.append(cur)
            cur = []
        elif starts and any(x.strip() and not x.strip().startswith("--") for x in cur):
            out.append(cur)
            cur = []
        cur.append(l)
    out.append(cur)
    return ["\n".join(c) for c in out]


def turn_file(root, crate, rel, names, log):
    base = os.path.join(root, "crates", crate)
    folder = os.path.join(base, "proofs", rel)
    path = os.path.join(folder, "Proof.antt")
    text = open(path, encoding="utf-8").read()
    said_list = []

    def said(s):
        said_list.append(s)

    n = Names(names)
    tr = Turner(n, said)
    mod = f"Rattle.{crate}.proofs.{rel.replace(os.sep, '.')}"
    chunks = decls(text)
    uses, rest = [], []
    head = []
    for ch in chunks:
        body = "\n".join(l for l in ch.split("\n") if l.strip() and not l.strip().startswith("--"))
        if body.startswith(("use ", "pub use ")):
            for l in ch.split("\n"):
                if l.strip().startswith("--") and not uses:
                    head.append(l)
                elif l.strip():
                    uses.append(l)
        else:
            rest.append(ch)
    uses = [u for u in uses if ".Statement." not in u and not u.rstrip().endswith(".Tie as tie") and ".Statement.{" not in u]
    # the last declaration
    final = None
    for i in range(len(rest) - 1, -1, -1):
        if "tie.spec" in rest[i]:
            final = rest.pop(i)
            break
    if final is None:
        return False, ["no tie.spec"]
    k = final.find("tie.spec")
    # the enclosing parenthesis
    depth = 0
    j = k
    while j > 0 and not (final[j] == "(" and closing(final, j) > k):
        j -= 1
    inner = final[k + len("tie.spec") : closing(final, j) - 1]
    args = split_args(inner)
    loops = names["loops"]
    nl = len(loops)
    expected = 2 * nl + len(n.needs)
    by_arg = {}
    lambdas = []
    invs = {}
    if len(args) != expected:
        said(f"tie.spec has {len(args)} arguments, {expected} are asked")
    else:
        for a in range(nl):
            invs[args[2 * a]] = (a, "invariant")
            invs[args[2 * a + 1]] = (a, "decreases")
        for a, need in zip(args[2 * nl :], n.needs):
            idx = n.needs.index(need)
            if re.match(r"^" + ID + r"$", a):
                by_arg[a] = idx
            else:
                lambdas.append((a, idx))
    fuzzy = {}
    for i, (old, new) in enumerate(n.needs):
        fuzzy[norm(old)] = i

    def goal_of(name, need):
        if name in by_arg:
            return by_arg[name]
        key = norm(need)
        key2 = re.sub(r"^overflow-", "", key)
        for q in (key, key2):
            if q in fuzzy:
                return fuzzy[q]
        return None

    def place_env(var, i):
        return ("place", i, var, True)

    for ch in rest:
        for l in ch.split("\n"):
            m = SIG.match(l)
            if m and ("tie.Need-" not in l) and "module" not in l:
                places = [n.index[norm(q)] for q in re.findall(r"[({]" + ID + r"(?:\s+" + ID + r")*\s*:\s*\(?tie\.([^\s(){}]+)", l) if norm(q) in n.index]
                if places:
                    tr.targets[m[3]] = places

    inv_chunks, ans_chunks = [], []
    section_places = {}
    later = []
    section_stack = []  # (indent, env)

    def typed_vars(sig):
        """Variables of a signature that are bound to a place's record, by name."""
        found = {}
        for m in re.finditer(r"[({](" + ID + r"(?:\s+" + ID + r")*)\s*:\s*\(?tie\.([^\s(){}]+)", sig):
            for v in m[1].split():
                if norm(m[2]) in n.index:
                    found[v] = n.index[norm(m[2])]
        return found

    def turn_types(t):
        def sub(m):
            name = norm(m[1])
            if name in n.index:
                new = n.by_name[n.index[name]]
                tr.used.add(new)
                return new
            said("no place " + m[1])
            return m[0]

        return re.sub(r"tie\.([A-Z][^\s(){}]*)((?:\s+(?:invariant|decreases)[-\w]*)*)", sub, t)

    for ch in rest:
        lines = ch.split("\n")
        code = [l for l in lines if l.strip() and not l.strip().startswith("--")]
        if not code:
            continue
        first = code[0]
        indent = len(first) - len(first.lstrip())
        while section_stack and indent <= section_stack[-1][0]:
            section_stack.pop()
        env = {}
        for _, e in section_stack:
            env.update(e)
        if first.lstrip().startswith("module "):
            e = {}
            for v, i in typed_vars(ch).items():
                e[v] = ("place", i, v, False)
            section_stack.append((indent, e))
            ans_chunks.append(tr.body(turn_types(ch), env))
            section_places[indent] = list(typed_vars(ch).values())
            continue
        m = SIG.match(first)
        if not m:
            ans_chunks.append(ch)
            said("not read: " + first[:60])
            continue
        name = m[3]
        need = re.search(r":\s*tie\.Need-([^\s()]+)", first)
        if name in invs or re.search(r":\s*tie\.(invariant|decreases)-", first):
            if name not in invs:
                said("an invariant that is not in tie.spec: " + name)
                continue
            a, what = invs[name]
            loop = loops[a][0][1]
            vars_ = loops[a][1]
            changed = names["changed"][a]
            # the clause
            sig_end = ch.find(first) + len(first)
            clause = ch[sig_end:].strip("\n")
            comment = ch[: ch.find(first)]
            mm = re.match(r"\s*((?:unfolding[^\n]*\n\s*)?)" + re.escape(name) + r"\s+(.*?)=(?=\s)", clause, re.S)
            if not mm:
                said("invariant without a clause: " + name)
                continue
            params = mm[2].split()
            bodytext = clause[mm.end() :].strip("\n")
            sub = {}
            order = [(v, "l.initial." + v if c else "l." + v) for v, c in zip(vars_, changed)] + [(v, "l." + v) for v, c in zip(vars_, changed) if c]
            if len(params) != len(order):
                said(f"{name}: {len(params)} variables for {len(order)}")
            for p, (v, tx) in zip(params, order):
                sub[p] = tx

            def subst(mt):
                return sub[mt[0]] if mt[0] in sub else mt[0]

            bodytext = re.sub(r"(?<![\w.'₀-₉-])" + ID, subst, bodytext)
            unf = mm[1].strip()
            inv_chunks.append(
                f"{comment}abbrev pub {what}-{loop} : goal.{what}-{loop}\n" + (unf + "\n" if unf else "") + f"{what}-{loop} l =" + (" " if not bodytext.startswith((" ", "\n")) else "") + bodytext.rstrip() + "\n"
            )
            continue
        if need:
            idx = goal_of(name, need[1])
            if idx is None:
                said(f"no goal for {name} : Need-{need[1]}")
                ans_chunks.append(ch)
                continue
            old, new = n.needs[idx]
            place = n.index[norm(n.asked_at[idx][0])]
            sig_end = ch.find(first) + len(first)
            comment = ch[: ch.find(first)]
            clause = ch[sig_end:].strip("\n")
            mm = re.match(r"\s*((?:unfolding[^\n]*(?:\n\s+[^\n=]*)*?\n\s*)*)" + re.escape(name) + r"\s+(.*?)=(?=\s)", clause, re.S)
            if not mm:
                said("an answer without a clause: " + name)
                ans_chunks.append(ch)
                continue
            params = mm[2].split()
            bodytext = clause[mm.end() :]
            env2 = dict(env)
            if params:
                env2[params[0]] = place_env(params[0], place)
            more = [p for p in params[1:] if not p.startswith("κ")]
            tr.goal = new
            bodytext = tr.body(bodytext, env2).strip()
            if re.match(r"^(search rules|omega arith|cc)$", bodytext):
                continue
            fields = n.asked.get(norm(old))
            if fields:
                bodytext = record_of(bodytext, fields, lambda s: said(f"{new}: {s}"))
            unf = mm[1].rstrip()
            ind = " " * indent
            ans_chunks.append(
                f"{comment}{ind}pub {new} : goal.{new}\n" + (ind + unf.strip() + "\n" if unf.strip() else "") + f"{ind}{new} {' '.join([params[0]] + more) if params else 'c'} =" + ("\n    " if "\n" in bodytext or len(bodytext) > 90 else " ") + bodytext + "\n"
            )
            continue
        # a helper
        env2 = dict(env)
        vars_ = typed_vars(ch)
        order = []
        sigtext = ch
        # named arguments of the signature are the clause's arguments in order
        mm = re.search(r"\n\s*" + re.escape(name) + r"\s+([^=\n]*?)=(?=\s)", ch)
        if mm:
            params = mm[1].split()
            types = re.findall(r"[({]([^(){}:]*?):\s*(tie\.[^\s(){}]+)?", first)
        for v, i in vars_.items():
            env2[v] = ("place", i, v, False)
        if section_stack:
            inside = [p for ind, _ in section_stack for p in section_places.get(ind, [])]
            if inside:
                tr.targets.setdefault(name, inside)
        t = turn_types(ch)
        a = re.search(r":\s*tie\.([A-Z][^\s]*)\s*$", first)
        if "tie." in ch or any(re.search(r"(?<![\w.'-])" + re.escape(v) + r"(?![\w'-])", ch) for v in env2):
            t = tr.body(t, env2)
        if a and norm(a[1]) in n.index and section_stack and "abbrev" in first:
            # an abbreviation for an earlier place: the section's variable shows all that it has
            v = next((v for v, q in section_stack[-1][1].items() if q[0] == "place"), None)
            if v:
                low = section_stack[-1][1][v][1]
                section_stack[-1][1][name] = ("place", low, v, False)
                tr.alias.add(name)
                continue
        if name in by_arg:
            i = by_arg[name]
            new = n.needs[i][1]
            place = n.index[norm(n.asked_at[i][0])]
            tr.goal = new
            later.append(f"pub {new} : goal.{new}\n{new} c = {name} {tr.coerced(('place', place, 'c', True), name + ' ')}\n")
        ans_chunks.append(t)
    ans_chunks += later
    for a, idx in lambdas:
        old, new = n.needs[idx]
        inner = a[1:-1].strip() if a.startswith("(") else a
        mm = re.match(r"λ\s+([^.]*?)\.\s+([\s\S]*)$", inner)
        if not mm:
            if not re.match(r"^search rules$", inner):
                said("argument not read: " + a[:80])
            continue
        params = mm[1].split()
        place = n.index[norm(n.asked_at[idx][0])]
        tr.goal = new
        bodytext = tr.body(mm[2], {params[0]: place_env(params[0], place)}).strip()
        if re.match(r"^(search rules|omega arith|cc)$", bodytext):
            continue
        fields = n.asked.get(norm(old))
        if fields:
            bodytext = record_of(bodytext, fields, lambda s: said(f"{new}: {s}"))
        ans_chunks.append(f"pub {new} : goal.{new}\n{new} {params[0]} = {bodytext}\n")
    heads = "\n".join(head).strip("\n")
    use_text = "\n".join(uses)

    def helper_names(chs):
        out = {}
        for c in chs:
            for l in c.split("\n"):
                m = SIG.match(l)
                if m and len(l) - len(l.lstrip()) == 0 and m[3] not in ("use", "module", "let"):
                    out[m[3]] = c
        return out

    wrote = []
    if inv_chunks:
        pool = {k: c for k, c in helper_names(ans_chunks).items() if "goal." not in c.split("\n")[0] and not re.search(r":\s*goal\.", c)}
        need_names, todo = [], list(inv_chunks)
        seen = set()
        while todo:
            c = todo.pop()
            for w in set(re.findall(ID, c)):
                if w in pool and w not in seen:
                    seen.add(w)
                    need_names.append(w)
                    todo.append(pool[w])
        moved = [c for c in ans_chunks if any(pool.get(w) is c for w in seen)]
        ans_chunks = [c for c in ans_chunks if c not in moved]
        pubbed = []
        for c in moved:
            ls = c.split("\n")
            for i, l in enumerate(ls):
                m = SIG.match(l)
                if m and m[3] in seen:
                    if "pub" not in m[2]:
                        ls[i] = (m[2] + "pub " + l[len(m[1]) + len(m[2]) :]) if not l.startswith(("record", "data")) else "pub " + l
                    if "record" in m[2]:
                        for j in range(i + 1, len(ls)):
                            f = re.match(r"( +)(" + ID + r" :.*)", ls[j])
                            if f:
                                ls[j] = f"{f[1]}pub {f[2]}"
                    break
            pubbed.append("\n".join(ls))
        out = (heads + "\n" if heads else "") + use_text + f"\nuse {mod}.Given as goal\n\n" + "\n".join(c.strip("\n") + "\n" for c in pubbed + inv_chunks)
        open(os.path.join(folder, "Invariants.antt"), "w", encoding="utf-8").write(out)
        wrote.append("Invariants.antt")
        if seen:
            uses_more = f"\nuse {mod}.Invariants.{{{', '.join(sorted(seen))}}}"
        else:
            uses_more = ""
    else:
        uses_more = ""
    real = [c for c in ans_chunks if any(l.strip() and not l.strip().startswith("--") for l in c.split("\n"))]
    if any(re.search(r":\s*goal\.", c) for c in real):
        places = sorted(q for q in tr.used if any(re.search(r"(?<![\w.'-])" + re.escape(q) + r"(?![\w'-])", c) for c in real))
        tie_use = (f"\nuse {mod}.Tie as tie" if any("tie." in c for c in real) else "") + (f"\nuse {mod}.Goals.{{{', '.join(places)}}}" if places else "")
        out = (heads + "\n" if heads else "") + use_text + uses_more + tie_use + f"\nuse {mod}.Goals as goal\n\n" + "\n".join(c.strip("\n") + "\n" for c in real)
        open(os.path.join(folder, "Answers.antt"), "w", encoding="utf-8").write(out)
        wrote.append("Answers.antt")
    os.remove(path)
    return True, said_list


def main(argv):
    root, names_dir = argv[0], argv[1]
    for crate in argv[2:]:
        d = json.load(open(os.path.join(names_dir, crate, "names.json")))
        for key, x in d.items():
            if not key.endswith(".Lts"):
                continue
            rel = re.match(r"Rattle-" + crate + r"-proofs\.(.*)\.Lts$", key)[1].replace(".", os.sep)
            if not os.path.exists(os.path.join(root, "crates", crate, "proofs", rel, "Proof.antt")):
                continue
            try:
                ok, said = turn_file(root, crate, rel, x, None)
            except Exception as e:
                import traceback

                print(f"{crate}/{rel}: FAILED {e!r} {traceback.format_exc().splitlines()[-3:]}")
                continue
            for s in said:
                print(f"{crate}/{rel}: {s}")
    return 0


if __name__ == "__main__":
    raise SystemExit(main(sys.argv[1:]))
