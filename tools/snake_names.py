#!/usr/bin/env python3
"""Respells the repository's own definitions and lemmas: words in snake case, and a dash only between two names.

usage: tools/snake_names.py [--check]      at the top of the repository, once, right behind port.py

A name that is declared in specs/ or proofs/, or brought in by 'as', turns where it has a capital behind a small letter (dataKey, data_key) or a
dash between parts that are no names (masked-twice, masked_twice; length-blocks stays). Types, modules, labels that Rattle makes and the code itself stay.
In src/ it turns ghost use lines and clauses alone. --check writes nothing, and prints each row and each name that falls together with another.
"""

import os
import re
import sys

WORD = re.compile(r"""[^\s(){}.;,@"«»]+""")
DECLARED = re.compile(r'^\s*(?:unfoldable |abbrev )?(?:pub )?(?:record |data |ruleset )?([^\s(){}.;,@"«»:]+)((?: [^:]*)?) :(?: (.*))?$')
GENERATED = re.compile(r"^(?:goal|need)\.")
CLAUSE = re.compile(r"\b(?:requires|ensures|ghost)\b\s*\*?\s*(?:\w+\s*)?[:=]?\s*\{")
GHOST_USE = re.compile(r"ghost use [^;]*;")
KEYWORDS = {"use", "mod", "let", "where", "module", "in", "open", "unfolding"}
# names of the library that lemmas are called after
OTHERS = set("length take drop append map replicate reverse xor and or not lt le suc cond getD get_or leb ++ refl nil comm".split())

# lemmas that would have their function's name, and a word of std that a lemma hid
LEMMAS = {
    "data-key": "data_key_lem",
    "tweak-key": "tweak_key_lem",
    "keys-by": "keys_by_lem",
    "second-keys": "second_keys_lem",
    "state-of": "state_of_lem",
    "four_bytes": "four_bytes_lem",
    "digit_value": "digit_value_lem",
    "digitValue": "digit_value",
}


def files(root):
    for folder, dirs, names in os.walk(root):
        dirs[:] = sorted(d for d in dirs if d not in ("out", "must-fail"))
        for name in sorted(names):
            if name.endswith((".antt", ".rt")):
                yield os.path.join(folder, name)


def read(path):
    with open(path, encoding="utf-8") as f:
        return f.read()


def code(text):
    return re.sub(r"--.*", "", text)


def declared(root):
    found = set()
    for path in files(root):
        text = read(path)
        if path.endswith(".antt"):
            for line in code(text).splitlines():
                m = DECLARED.match(line)
                if m and m[1] not in KEYWORDS and not GENERATED.match(m[3] or ""):
                    found.add(m[1])
                    # the parameters of a definition by cases are no names; those of one signature for several are
                    found.update(w for w in m[2].split() if re.fullmatch(r"[a-z][\w-]*", w) and re.match(r"\s*pub [\w-]+ [\w-]+ :", line))
        for m in re.finditer(r" as ([A-Za-z][\w'-]*)", text):
            found.add(m[1])
    return found


def snake(word):
    word = re.sub(r"(?<=[a-z0-9])([A-Z])(?![a-z])", lambda m: "_" + m[1].lower(), word)
    return re.sub(r"(?<=[a-z0-9])([A-Z])", lambda m: "_" + m[1].lower(), word)


def spelled(name, names):
    """The name in today's spelling: a dash stays where every part is a name."""
    parts = name.split("-")
    turned = [snake(p) if p[:1].islower() else p for p in parts]
    joins = all(p.rstrip("'") in names or p.rstrip("'") in OTHERS or not re.match(r"\w", p) for p in parts)
    return ("-" if joins else "_").join(turned)


def table(root):
    names = declared(root)
    heads = {n for n in names if "-" not in n}
    rows = {}
    for name in sorted(names | set(LEMMAS)):
        if name[:1].isupper() and "-" not in name:
            continue
        if name.startswith(("returns-", "invariant-loop", "loop-")):
            continue
        new = LEMMAS.get(name) or spelled(name.replace("getD", "get_or"), heads)
        if new != name:
            rows[name] = new
    return names, rows


def turn(text, rows):
    text = re.sub(r"\bdigit_value as digitValue\b", "digitValue", text)
    return WORD.sub(lambda m: rows.get(m[0].rstrip("'"), m[0].rstrip("'")) + m[0][len(m[0].rstrip("'")) :], text)


def clause_end(text, start):
    depth = 0
    for i in range(start, len(text)):
        depth += {"{": 1, "}": -1}.get(text[i], 0)
        if depth == 0:
            return i + 1
    return len(text)


def turn_source(text, rows):
    out, at = [], 0
    spans = [(m.start(), m.end()) for m in GHOST_USE.finditer(text)]
    spans += [(m.start(), clause_end(text, m.end() - 1)) for m in CLAUSE.finditer(text)]
    for start, end in sorted(spans):
        if start < at:
            continue
        out += [text[at:start], turn(text[start:end], rows)]
        at = end
    return "".join(out) + text[at:]


def main():
    names, rows = table("crates")
    together = {}
    for old, new in rows.items():
        together.setdefault(new, set()).add(old)
    for name in names - set(rows):
        if name in together:
            together[name].add(name)
    clashes = {new: olds for new, olds in together.items() if len(olds) > 1}
    if "--check" in sys.argv:
        for old, new in rows.items():
            print(f"{old}\t{new}")
        for new, olds in clashes.items():
            print(f"falls together: {new}: {' '.join(sorted(olds))}")
        return
    if clashes:
        raise SystemExit(f"these fall together: {clashes}")
    count = 0
    for path in files("crates"):
        text = read(path)
        new = turn(text, rows) if path.endswith(".antt") else turn_source(text, rows)
        if new != text:
            count += 1
            with open(path, "w", encoding="utf-8") as f:
                f.write(new)
    print(f"{len(rows)} names, {count} files")


main()
