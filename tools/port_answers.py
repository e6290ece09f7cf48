#!/usr/bin/env python3
"""Turns a function's Proof.antt of the older Rattle to Invariants.antt and Answers.antt.

usage: tools/port_answers.py NAMES.json CRATE_FOLDER     NAMES.json is what `rt names OUT` writes for that crate

An answer that says only `search rules` goes, since the check tries that by itself. The old file moves to proofs-old/ beside proofs/.
"""
import json
import os
import re
import sys

WORD = r"[^\s(){}.;,@\"«»]+"
TOKEN = re.compile(WORD)


def norm(s):
    return s.replace("-", "_")


def balanced(text, at):
    """The end of the parenthesis that opens at `at`."""
    deep = 0
    for i in range(at, len(text)):
        if text[i] == "(":
            deep += 1
        elif text[i] == ")":
            deep -= 1
            if deep == 0:
                return i + 1
    raise ValueError("unbalanced: " + text[at:at + 60])


def operand(text, at):
    """The end of the application operand that begins at `at`: a path, or a parenthesis with a path behind it."""
    if text[at] == "(":
        at = balanced(text, at)
    m = re.compile(r"[^\s(){};,]*").match(text, at)
    return m.end()


class Function:
    def __init__(self, key, row):
        self.row = row
        self.places = {}
        for (old, parent, step, callee, fields), new, arm, clause in zip(row["places"], row["places_by_name"], row["arms"], row["clauses"]):
            self.places[old] = dict(parent=parent, step=step, fields=fields, new=new, arm=arm, clause=clause)
        self.needs = [(o, n, at[0]) for (o, n), at in zip(row["needs"], row["asked_at"])]

    def place(self, name):
        for k in self.places:
            if norm(k) == norm(name):
                return k
        return None

    def chain(self, place):
        out = []
        while place is not None and place in self.places:
            out.append(place)
            place = self.places[place]["parent"]
        return out


def split_blocks(text):
    head, body = [], []
    blocks = re.split(r"\n\s*\n", text.strip("\n"))
    return blocks


def parse(block):
    """Of a block: its comment lines, its signature, its unfolding lines, its equations."""
    lines = block.split("\n")
    comments = []
    while lines and lines[0].startswith("--"):
        comments.append(lines.pop(0))
    return comments, "\n".join(lines)


def strip_let(body):
    """Drops `let x = c in` and says c for x."""
    while True:
        m = re.search(r"let (" + WORD + r") = c in\s*", body)
        if not m:
            return body
        name = m[1]
        body = body[:m.start()] + body[m.end():]
        body = re.sub(r"(?<![^\s(){};,])" + re.escape(name) + r"(?=[\s.(){};,]|$)", "c", body)


def flatten(body, aliases):
    changed = True
    while changed:
        changed = False
        new = re.sub(r"(?<=[^\s(])\.before(?=[\s.(){};,]|$)", "", body)
        for a in aliases:
            at = 0
            while True:
                m = re.compile(r"(?<![^\s(){};,])" + re.escape(a) + r"\s+").search(new, at)
                if not m or m.end() >= len(new):
                    break
                end = operand(new, m.end())
                if end == m.end():
                    at = m.end()
                    continue
                new = new[:m.start()] + new[m.end():end] + new[end:]
        new = re.sub(r"\((" + r"[a-z][^\s(){};,]*" + r")\)(?=[.\s)};,]|$)", r"\1", new)
        new = strip_let(new)
        if new != body:
            changed = True
            body = new
    return body


def steps(body, fn, place, head="c"):
    """Turns the old steps of paths that begin with head to the new ones, on the way from a place to the start."""
    chain = fn.chain(place)
    table = {}
    for p in chain:
        d = fn.places[p]
        old, new = d["step"]
        if old and norm(old) not in table:
            table[norm(old)] = (new, dict(d["fields"] or []), d["clause"], d["arm"])
    arms = []
    for p in chain:
        d = fn.places[p]
        if d["arm"]:
            name, _, rows = d["arm"]
            for field, step, path in rows:
                arms.append((name, field, step, path))

    def turn(m):
        parts = m[0].split(".")
        for name, field, step, path in arms:
            if norm(parts[1]) == norm(step) and [norm(x) for x in parts[2:2 + len(path)]] == [norm(x) for x in path] and path:
                return ".".join([head, name, field] + parts[2 + len(path):])
        key = norm(parts[1])
        if key in table:
            new, fields, clause, arm = table[key]
            parts[1] = new
            if len(parts) > 2 and fields:
                parts[2] = fields.get(parts[2], parts[2])
            if clause and len(parts) > 3 and parts[2] == "ensures" and parts[3].isdigit():
                parts[3] = clause["fields"][int(parts[3])] if int(parts[3]) < len(clause["fields"]) else parts[3]
        out = ".".join(parts)
        return out

    body = re.sub(r"(?<![^\s(){};,])" + head + r"(?:\.[^\s(){}.;,]+)+", turn, body)
    body = re.sub(r"(?<=\.)inv(?=[\s.(){};,]|$)", "invariant", body)
    body = re.sub(r"(?<=c\.)pre(?=[\s.(){};,]|$)", "requires", body)
    return body


def convert(fn, text, module):
    uses, blocks, head = [], [], []
    raw = split_blocks(text)
    for b in raw:
        comments, code = parse(b)
        if code.startswith("use ") or "\nuse " in code:
            head += comments
            for line in re.findall(r"(?m)^use .*(?:\n +.*)*", code):
                uses.append(line)
        elif not code:
            head += comments
        else:
            blocks.append((comments, code))
    invariants, answers, helpers, aliases, finals = [], [], [], [], []
    for comments, code in blocks:
        first = code.split("\n")[0]
        m = re.match(r"(?:abbrev )?(?:pub )?(" + WORD + r") : tie\.(invariant|decreases)-?([^\s]*)", first)
        if m:
            invariants.append((comments, code, m[1], m[2], m[3]))
            continue
        m = re.match(r"(?:abbrev )(?:pub )?(" + WORD + r") : (?:[^→]*→ *)?tie\.", first)
        joined = re.sub(r"\s+", " ", code)
        m = re.match(r"abbrev (?:pub )?(" + WORD + r") : tie\.[^→]*→ tie\.[^→]* \1 (\S+) = (.*)$", joined)
        if m:
            aliases.append(m[1])
            continue
        m = re.match(r"(?:pub )?(" + WORD + r") : tie\.Need-(" + WORD + r")", first)
        if m:
            answers.append((comments, code, m[1], m[2]))
            continue
        if re.search(r"tie\.close|statement M|tie\.spec", code):
            finals.append((comments, code))
            continue
        helpers.append((comments, code))
    return uses, head, invariants, answers, helpers, aliases, finals


def equation(code, name):
    """The unfolding lines and the equation's parameters and body."""
    m = re.search(r"(?m)^" + re.escape(name) + r"((?: [^=\n]+)?) =(?=\s)", code)
    if not m:
        return None
    unfolding = re.findall(r"(?m)^unfolding .*$", code[:m.start()])
    return unfolding, m[1].split(), code[m.end():].lstrip(" ")


def goal_of(fn, old):
    for o, n, at in fn.needs:
        if norm(o) == norm(old):
            return n, at
    plain = re.sub(r"^(overflow|slice_bounds|nonzero)[-_]", "", norm(old))
    for o, n, at in fn.needs:
        if norm(o) == plain:
            return n, at
    return None, None


def loop_of(fn, rest):
    """The loop that an old name ends in, with its number."""
    loops = fn.row["loops"]
    for i, ((old, new), names) in enumerate(loops):
        if norm(rest) in (norm(old), norm(new)) or rest == "" and i == 0:
            return i, new, names
    return None, None, None


def main(argv):
    names, crate = argv
    with open(names) as f:
        data = json.load(f)
    name = os.path.basename(os.path.normpath(crate))
    for key, row in sorted(data.items()):
        m = re.match(r"Rattle-" + re.escape(name) + r"-proofs\.(.*)\.Lts$", key)
        if not m:
            continue
        path = m[1].replace(".", "/")
        folder = os.path.join(crate, "proofs", path)
        file = os.path.join(folder, "Proof.antt")
        if not os.path.exists(file):
            continue
        with open(file) as f:
            text = f.read()
        fn = Function(key, row)
        module = f"Rattle.{name}.proofs.{m[1]}"
        try:
            uses, head, invariants, answers, helpers, aliases, finals = convert(fn, text, module)
        except Exception as e:
            print("left:", path, e)
            continue
        problems = []
        uses = [u for u in uses if not re.search(r"\.(Statement|Tie)\b", u)]
        # helpers over places
        helper_lets = []
        plain_helpers = []
        for comments, code in helpers:
            sig = re.match(r"(?:abbrev )?(" + WORD + r") : \((c) : tie\.(" + WORD + r")[^()]*\)\s*→\s*(.*)", code, re.S)
            if not sig:
                if "tie." in code:
                    problems.append("helper: " + code.split("\n")[0])
                plain_helpers.append((comments, code))
                continue
            hname = sig[1]
            m2 = re.search(r"(?m)^" + re.escape(hname) + r" c =(?=\s)", code)
            if not m2:
                problems.append("helper: " + hname)
                continue
            htype = code[sig.start(4):m2.start()]
            htype = re.sub(r"(?m)^unfolding .*$", "", htype).strip()
            place = fn.place(sig[3])
            helper_lets.append((hname, place, htype, code[m2.end():].strip(), comments))

        def turned(body, place):
            b = flatten(body, aliases)
            used = []
            again = True
            while again:
                again = False
                for hname, hplace, htype, hbody, hc in helper_lets:
                    pat = re.compile(r"(?<![^\s(){};,])" + re.escape(hname) + r"\s+(?=[c(])")
                    mm = pat.search(b)
                    if mm:
                        end = operand(b, mm.end())
                        b = b[:mm.start()] + "the_" + norm(hname) + b[end:]
                        if hname not in [u[0] for u in used]:
                            used.append((hname, flatten(htype, aliases), flatten(hbody, aliases), hplace))
                        again = True
            lets = ""
            done, todo = [], list(used)
            ready = []

            def add(h):
                nonlocal b
                hname, t, x, hp = h
                for other in helper_lets:
                    pat = re.compile(r"(?<![^\s(){};,])" + re.escape(other[0]) + r"\s+(?=[c(])")
                    for part in (0, 1):
                        while True:
                            s = (t, x)[part]
                            mm = pat.search(s)
                            if not mm:
                                break
                            end = operand(s, mm.end())
                            s = s[:mm.start()] + "the_" + norm(other[0]) + s[end:]
                            t, x = (s, x) if part == 0 else (t, s)
                            if other[0] not in [r[0] for r in ready]:
                                add((other[0], flatten(other[2], aliases), flatten(other[3], aliases), other[1]))
                if hname not in [r[0] for r in ready]:
                    ready.append((hname, steps(t, fn, hp or place), steps(x, fn, hp or place)))

            for h in used:
                add(h)
            b = steps(b, fn, place)
            for hname, t, x in ready:
                lets += "let the_" + norm(hname) + " : " + re.sub(r"\s+", " ", t) + " =\n    " + x + " in\n    "
            return lets + b

        out = []
        seen = set()
        for comments, code, mine, old in answers:
            new, place = goal_of(fn, old)
            eq = equation(code, mine)
            if new is None or eq is None:
                if eq is not None and eq[2].strip() == "search rules":
                    continue
                problems.append(f"no goal for {old}")
                out.append("\n".join(comments + ["-- LEFT " + l for l in code.split("\n")]))
                continue
            unfolding, params, body = eq
            if body.strip() == "search rules" and not unfolding:
                continue
            if len([p for p in params if p != "κs"]) != 1:
                problems.append(f"parameters of {mine}: {params}")
            head_c = [p for p in params if p != "κs"][0]
            if head_c != "c":
                body = re.sub(r"(?<![^\s(){};,])" + re.escape(head_c) + r"(?=[\s.(){};,]|$)", "c", body)
            b = turned(body, place)
            seen.add(new)
            out.append("\n".join(comments + [f"pub {new} : goal.{new}"] + unfolding + [f"{new} c =" + ("\n    " if "\n" in b and not b.startswith("\n") else " " if not b.startswith("\n") else "") + b]))
        # answers written in the last list
        for comments, code in finals:
            m2 = re.search(r"tie\.spec", code)
            if not m2:
                continue
            args, at = [], m2.end()
            while at < len(code):
                while at < len(code) and code[at] in " \n":
                    at += 1
                if at >= len(code) or code[at] == ")":
                    break
                end = operand(code, at)
                args.append(code[at:end])
                at = end
            rest = args[2 * len(fn.row["loops"]):]
            lam = [(i, a) for i, a in enumerate(rest) if a.startswith("(") and not re.match(r"\(λ [^.]*\. search rules\)$", a)]
            if lam:
                if len(rest) == len(fn.needs):
                    for i, a in lam:
                        o, n, place = fn.needs[i]
                        mm = re.match(r"\(λ ([^.]*)\. (.*)\)$", a, re.S)
                        if mm and n not in seen:
                            b = turned(re.sub(r"(?<![^\s(){};,])" + re.escape(mm[1].split()[0]) + r"(?=[\s.(){};,]|$)", "c", mm[2]), place)
                            out.append(f"pub {n} : goal.{n}\n{n} c = {b}")
                            seen.add(n)
                        elif not mm:
                            problems.append(f"in the list: {a[:60]}")
                else:
                    problems.append(f"the list has {len(rest)} answers and {len(fn.needs)} goals: " + " | ".join(a[:80] for i, a in lam))
        inv = []
        for comments, code, mine, kind, rest in invariants:
            i, new, vars_ = loop_of(fn, rest)
            eq = equation(code, mine)
            if i is None or eq is None:
                problems.append(f"loop of {mine}")
                inv.append("\n".join("-- LEFT " + l for l in code.split("\n")))
                continue
            unfolding, params, body = eq
            changed = fn.row["changed"][i]
            want = len(vars_) + sum(changed)
            if len(params) != want:
                problems.append(f"{mine}: {len(params)} names for {want} of {vars_}")
            table = {}
            for p, v, ch in zip(params, vars_, changed):
                table[p] = f"l.initial.{v}" if ch else f"l.{v}"
            cur = [v for v, ch in zip(vars_, changed) if ch]
            for p, v in zip(params[len(vars_):], cur):
                table[p] = f"l.{v}"
            body = re.sub(r"(?<![^\s(){};,])(" + WORD + r")(?=[\s.(){};,]|$)", lambda m3: table.get(m3[1], m3[1]), body)
            label = f"{kind}-{new}"
            inv.append("\n".join(comments + [f"abbrev pub {label} : goal.{label}"] + unfolding + [f"{label} l =" + (" " if not body.startswith("\n") else "") + body]))
        old_to = os.path.join(crate, "proofs-old", path)
        os.makedirs(old_to, exist_ok=True)
        os.rename(file, os.path.join(old_to, "Proof.antt.txt"))
        heads = "\n".join(head)
        if inv:
            with open(os.path.join(folder, "Invariants.antt"), "w") as f:
                f.write(heads + "\n" + "\n".join(uses) + f"\nuse {module}.Given as goal\n\n" + "\n\n".join(inv) + "\n")
        if out or plain_helpers:
            hs = ["\n".join(c + [h]) for c, h in plain_helpers]
            with open(os.path.join(folder, "Answers.antt"), "w") as f:
                f.write((heads + "\n" if not inv else "-- Answers to the goals of this function. Assumes nothing.\n") + "\n".join(uses) + f"\nuse {module}.Goals as goal\n\n" + "\n\n".join(hs + out) + "\n")
        if not inv and not out and not plain_helpers:
            try:
                os.removedirs(folder)
            except OSError:
                pass
        for p in problems:
            print(f"{name}/{path}: {p}")


if __name__ == "__main__":
    raise SystemExit(main(sys.argv[1:]))
