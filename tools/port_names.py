#!/usr/bin/env python3
"""Spells the repository's own definitions and lemmas as today's Rattle does, behind port.py.

usage: tools/port_names.py [--check] [ROOT]

A word that is declared in specs/ or proofs/ of a crate turns, wherever it stands in .antt, .rt and .edit files below crates/ and in
README.md and docs/*.md: camelCase to snake_case; a word whose type ends in Type to CamelCase; a prime to an apostrophe; a dash to an
underscore, but between two names of definitions. A word that would meet another one is shown on a line 'meets:' and stays.
--check writes nothing.
"""
import collections
import glob
import os
import re
import sys

# A field whose new name a definition of another crate has, which the crates with the field do not cite.
FIXED = {"are-digits": "are_digits"}

WORD = r"[^\s(){}.;,@\"«»`]+"
HEAD = re.compile(
    r"(?m)^( *)((?:(?:abbrev|unfoldable|pub|opaque|instance|ruleset|let) +)*)(record +|data +)?(" + WORD + r")((?:\s*[({][^(){}]*(?:\([^()]*\)[^(){}]*)*[)}])*)\s*:(?=\s)([^\n]*(?:\n +(?:→|->)[^\n]*)*)")
STD_NAMES = """length drop take map reverse append get_or set sum and or not add mul div mod pow suc zero eq lt le ones
has any every first word pick over digit odd check filter head concat some none all bit_and bit_or elem member""".split()


def files(root):
    for pattern in ("crates/*/specs/**/*.antt", "crates/*/proofs/**/*.antt", "crates/*/src/**/*.rt", "crates/*/must-fail/*.edit"):
        yield from sorted(glob.glob(os.path.join(root, pattern), recursive=True))


def declared(root):
    kinds = collections.defaultdict(set)
    for p in files(root):
        if not p.endswith(".antt") or p.endswith("/Proof.antt"):
            continue
        with open(p) as f:
            text = re.sub(r"(?m)--.*$", "", f.read())
        for m in HEAD.finditer(text):
            name = m[4]
            if name in ("record", "data", "pub", "abbrev", "λ", "let", "in", "where", ":", "=") or m[2].strip().endswith("let"):
                continue
            is_type = bool(m[3]) or re.search(r"(^|→ *|\s)Type [0-9]( where)?\s*$", m[6].strip()) is not None
            kinds[name].add("type" if is_type else "word")
            if m[1] and "pub" in m[2] and "/specs/" in p or m[1] and name in fields(text):
                kinds[name].add("field")
            elif "/proofs/" in p and not p.endswith("/Proof.antt"):
                kinds[name].add("lemma")
    return kinds


def fields(text):
    """The names of a text's record fields."""
    found = set()
    for m in re.finditer(r"(?m)^( *)(?:pub )?record [^\n]*(?:\n[^\n]*)*? where\n((?:\1 +[^\n]*\n|\n)*)", text):
        found |= set(re.findall(r"(?m)^ +(?:pub )?(" + WORD + r") :", m[2]))
    return found


def snake(part):
    if part[:1].isupper():
        return part
    return re.sub(r"(?<=[a-z0-9])([A-Z])", lambda m: "_" + m[1].lower(), part)


def camel(name):
    parts = re.split(r"[_-]", name)
    return "".join(p[:1].upper() + p[1:] for p in parts)


def spelled(name, kinds, words):
    name = name.replace("′", "'")
    if "type" in kinds and "word" not in kinds:
        return camel(name) if name[:1].islower() and name[:1].isascii() else name
    parts = [snake(p) for p in name.split("-")] if name[:1] not in "◌" else [name]
    out = parts[0]
    for p in parts[1:]:
        left = re.sub(r"['0-9]+$", "", out.split("-")[-1])
        right = re.sub(r"['0-9]+$", "", p)
        both = (left in words or left[:1].isupper()) and (right in words or right[:1].isupper())
        out += ("-" if both or not p[:1].isalpha() or not out[-1:].isalnum() and out[-1:] != "'" else "_") + p
    return out


def main(argv):
    check = "--check" in argv
    rest = [a for a in argv if a != "--check"]
    root = rest[0] if rest else "."
    kinds = declared(root)
    words = set(STD_NAMES)
    for n in kinds:
        if "-" not in n:
            words.add(snake(n))
    table = {}
    for n, k in kinds.items():
        new = spelled(n, k, words)
        if new != n:
            table[n] = new
    # a lemma beside a definition of its name keeps its dash, or gets _lem where it has none
    lems = {}
    for n, new in list(table.items()):
        if "-" in n and (new in kinds or any(m != n and new == v for m, v in table.items())):
            table[n] = re.sub(r"(?<=[a-z0-9])([A-Z])", lambda m: "_" + m[1].lower(), n.replace("′", "'"))
            if table[n] == n:
                del table[n]
        elif new in kinds and "lemma" in kinds[new]:
            lems[new] = new + "_lem"
    for n, new in FIXED.items():
        if n in kinds:
            table[n] = new
    if check:
        for n, new in sorted(table.items()):
            print("row:", n, new, "/".join(sorted(kinds[n])))
    word = re.compile(WORD)
    imported = re.compile(r"(?m)^(?:ghost )?use [^\n]*\{([^}]*)\}")
    for p in files(root):
        with open(p) as f:
            text = f.read()
        names = set()
        for m in imported.finditer(text):
            names |= {w.strip() for w in m[1].split(",")}
        own = set(re.findall(r"(?m)^ *pub (" + WORD + r")(?= [:({])", text)) if "/proofs/" in p else set()
        function = p.endswith("/Proof.antt")

        def turned(m, spans=None):
            w, before, behind = m[0], text[:m.start()][-4:], text[m.end():][:3]
            if w in lems and (w in names or w in own) and not before.endswith(".") and not behind.startswith(" ="):
                return lems[w]
            if w not in table:
                return w
            if before.endswith(".") and "-" in w and function and "field" not in kinds[w]:
                return w
            if check and table[w] in words_of(text, p):
                print("meets:", w, table[w], p)
            return table[w]

        new = word.sub(turned, text)
        if new != text and not check:
            with open(p, "w") as f:
                f.write(new)
    if check:
        print("lems:", lems)
        return 0
    pages = [os.path.join(root, "README.md")] + sorted(glob.glob(os.path.join(root, "docs/*.md"))) + sorted(glob.glob(os.path.join(root, "crates/*/README.md")))
    spans = re.compile(r"`[^`\n]+`")
    for p in pages:
        if not os.path.exists(p):
            continue
        with open(p) as f:
            text = f.read()
        new = spans.sub(lambda s: word.sub(lambda m: table.get(m[0], m[0]) if re.search(r"[a-z][A-Z]", m[0]) else m[0], s[0]), text)
        if new != text:
            with open(p, "w") as f:
                f.write(new)
    return 0


CACHE = {}


def words_of(text, path):
    """The words of a text that are names of values: behind no dot, no fn, and not called as a Rust function."""
    if path not in CACHE:
        bare = re.sub(r"(?m)(//|--).*$|^use .*$", "", text)
        found = set()
        for m in re.finditer(WORD, bare):
            before, behind = bare[:m.start()][-4:], bare[m.end():][:2]
            if before.endswith((".", "fn ", "mod ", "::")) or behind.startswith((".", "(", "::")) and path.endswith(".rt") or behind.startswith("."):
                continue
            found.add(m[0])
        CACHE[path] = found
    return CACHE[path]


if __name__ == "__main__":
    raise SystemExit(main(sys.argv[1:]))
