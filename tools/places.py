#!/usr/bin/env python3
"""Places in src/ that may have a plainer form in today's Rattle, by text alone.

    python3 tools/places.py [--list] [FOLDER]

FOLDER is a checkout (this one by default). Prints a count for each point, and with --list each place. It goes by the shape
of the text, so a place that it finds may well stand as it is: docs/DESIGN-PASS.md says which do, and why.
"""
import difflib
import itertools
import re
import sys
from collections import defaultdict
from pathlib import Path

POINTS = {
    1: "flags beside values, numbers for kinds, Option and Result taken apart by hand",
    2: "twins: functions or types that differ in a type, a size or a constant",
    3: "loops that count or move on by hand",
    4: "equality, conversion and printing by hand",
    5: "facts in the contracts of three functions or more; parameters that travel together",
    6: "buffers with a length or a place beside them, parallel arrays",
    7: "switches on which step to run",
    8: "answers and lemmas in proofs/",
}
TOKEN = re.compile(r"""b?"(?:\\.|[^"\\])*"|b'(?:\\.|[^'\\])'|'[a-z]+\b|0x[0-9a-fA-F_]+|\d[\d_]*|[A-Za-z_]\w*|\S""")
WORDS = set("fn let mut for in if else match return self Self pub impl as while const ref move".split())


def stripped(text):
    """The text without comments, keeping lines."""
    return re.sub(r"(?m)//.*$", "", text)


def closing(text, at):
    """The place behind the bracket that closes the one at `at`."""
    pairs = {"{": "}", "(": ")", "[": "]"}
    opened, shut, depth = text[at], pairs[text[at]], 0
    for i in range(at, len(text)):
        depth += (text[i] == opened) - (text[i] == shut)
        if depth == 0:
            return i + 1
    return len(text)


class Function:
    def __init__(self, file, name, line, head, clauses, body):
        self.file, self.name, self.line = file, name, line
        self.head, self.clauses, self.body = head, clauses, body

    def where(self):
        return f"{self.file}:{self.line} {self.name}"

    def parameters(self):
        at = self.head.index("(")
        inside = self.head[at + 1 : closing(self.head, at) - 1]
        parts = re.split(r",(?![^<\[(]*[>\])])", inside)
        return [re.sub(r"\s+", " ", p).strip() for p in parts if p.strip()]


def functions(file, text):
    for found in re.finditer(r"\bfn\s+(\w+)", text):
        at = text.index("(", found.end())
        end = closing(text, at)
        # the result, then clauses, then a body or a semicolon
        clause = re.compile(r"\s*(requires|ensures)\b[^{;]*\{")
        body_or_clause = re.compile(r"[^{;]*?(?=\s*(?:requires|ensures)\b|\s*\{|;)", re.S)
        head_end = body_or_clause.match(text, end).end()
        head, clauses, i = text[found.start() : head_end], [], head_end
        while (m := clause.match(text, i)) is not None:
            stop = closing(text, m.end() - 1)
            clauses.append(text[m.end() : stop - 1].strip())
            i = stop
        rest = re.compile(r"\s*([{;])").match(text, i)
        body = text[rest.start(1) : closing(text, rest.start(1))] if rest and rest.group(1) == "{" else ""
        yield Function(file, found.group(1), text.count("\n", 0, found.start()) + 1, head, clauses, body)


def shape(text):
    """Tokens with names, numbers and strings told apart by kind alone."""
    out = []
    for token in TOKEN.findall(text):
        if token in WORDS:
            out.append(token)
        elif re.match(r"[A-Za-z_]", token) and token[1:2] not in "'\"":
            out.append("name")
        elif re.match(r"\d", token):
            out.append("number")
        elif token[:1] in "b\"'":
            out.append("text")
        else:
            out.append(token)
    return out


def lines_with(files, pattern, point, note, found):
    for file, text in files:
        for m in re.finditer(pattern, text):
            found[point].append(f"{file}:{text.count(chr(10), 0, m.start()) + 1} {note}: {' '.join(m.group(0).split())[:70]}")


def loops(files, found):
    for file, text in files:
        for m in re.finditer(r"for \(?(\w+)(?:, \w+\))? in ([^{]*)\{", text):
            variable, over = m.group(1), m.group(2).strip()
            body = text[m.end() : closing(text, m.end() - 1)]
            where = f"{file}:{text.count(chr(10), 0, m.start()) + 1}"
            if (".." in over or "enumerate" in over) and re.search(rf"\[[^\]]*\b{variable}\b|\* {variable}\b", body):
                found[3].append(f"{where} a loop over indices: for {variable} in {over}")
            elif ".." in over and re.fullmatch(r"\s*\w+\.push\([^;]*;\s*\}", body):
                found[3].append(f"{where} a fill by hand: for {variable} in {over}")


def twins(all_functions, found):
    shaped = [(f, shape(f.head + f.body)) for f in all_functions if f.body and len(TOKEN.findall(f.body)) >= 14]
    group = {i: i for i in range(len(shaped))}

    def first(i):
        return i if group[i] == i else first(group[i])

    for (i, (f, a)), (j, (g, b)) in itertools.combinations(enumerate(shaped), 2):
        if abs(len(a) - len(b)) > 0.15 * max(len(a), len(b)):
            continue
        match = difflib.SequenceMatcher(None, a, b, autojunk=False)
        if match.quick_ratio() < 0.93 or match.ratio() < 0.93:
            continue
        # names that the two share: twins speak of the same things
        x, y = set(TOKEN.findall(f.head + f.body)), set(TOKEN.findall(g.head + g.body))
        if len(x & y) / len(x | y) >= 0.5:
            group[first(j)] = first(i)
    members = defaultdict(list)
    for i, (f, _) in enumerate(shaped):
        members[first(i)].append(f.where())
    for same in members.values():
        # each one beyond the first is a place
        found[2].extend(f"{other} ~ {same[0]}" for other in same[1:])


def constants(files, found):
    seen = defaultdict(list)
    for file, text in files:
        for m in re.finditer(r"(?:const|static)\s+(\w+)\s*:[^=;]+=\s*([^;]+);", text):
            value = "".join(m.group(2).split())
            if len(value) > 5:
                seen[value].append(f"{file}:{text.count(chr(10), 0, m.start()) + 1} {m.group(1)}")
    for value, places in seen.items():
        if len(places) > 1:
            found[2].append("the same constant: " + " ~ ".join(places))


def contracts(all_functions, found):
    clauses, pairs = defaultdict(set), defaultdict(set)
    for f in all_functions:
        for clause in f.clauses:
            words = re.sub(r"\.(?:old|new|now|entry|exit)\b", "", clause).replace("(", " ").replace(")", " ").split()
            for size in range(3, 9):
                for i in range(len(words) - size + 1):
                    fact = " ".join(words[i : i + size])
                    if len(fact) > 24 and "≡" not in fact and "→" not in fact:
                        clauses[fact].add(f.where())
        ps = [p for p in f.parameters() if ":" in p and "self" not in p.split(":")[0]]
        for pair in itertools.combinations(ps, 2):
            pairs[pair].add(f.where())
    # one place for each set of functions, by the longest phrase that they share
    longest = {}
    for fact, where in clauses.items():
        if len(where) >= 3 and len(fact) > len(longest.get(frozenset(where), "")):
            longest[frozenset(where)] = fact
    for where, fact in longest.items():
        found[5].append(f"{len(where)} contracts say {fact[:90]}: {sorted(where)[0]} ..")
    for pair, where in pairs.items():
        if len(where) >= 3:
            found[5].append(f"{len(where)} functions take {pair[0]}, {pair[1]}: {sorted(where)[0]} ..")


def shapes_of_functions(all_functions, found):
    for f in all_functions:
        body = " ".join(f.body.split())
        if re.fullmatch(r"\{ \*?&?\w+(?:\.\w+)* == \*?&?[^;{}]+ \}", body):
            found[4].append(f"{f.where()}: equality under a name")
        arms = re.fullmatch(r"\{ match \*?\w+ \{ (.*) \} \}", body)
        if arms and re.fullmatch(r"(?:[^=]+ => (?:Some\()?\*?(?:[A-Z]\w*::\w+|b?\"[^\"]*\"|\d+|None|\w+\.\w+)\)?,? ?)+", arms.group(1)):
            found[4].append(f"{f.where()}: a table of cases")
        if re.fullmatch(r"\{ .{0,90}(?:from|to)_[bl]e_bytes\(.*\}", body):
            found[4].append(f"{f.where()}: bytes and numbers")
        if "String" in f.head.split("->")[-1] and "format!" in body:
            found[4].append(f"{f.where()}: a line as a String")
        if re.search(r"-> u(?:8|16|32)\s*$", f.head) and re.search(r"\{ match \w+ \{ \w+::\w+(?: \| \w+::\w+)* => \d+", body):
            found[1].append(f"{f.where()}: a number for each case")
        parameters = f.parameters()
        arrays = [p.split(":", 1)[1].strip() for p in parameters if re.search(r":\s*&(?:'\w+ )?(?:mut )?\[", p)]
        if any(arrays.count(a) >= 2 and "; " in a for a in arrays):
            found[6].append(f"{f.where()}: two arrays of one size")
        if arrays and any(re.fullmatch(r"(?:at|i|used|count|len|end|slot): usize", p) for p in parameters):
            found[6].append(f"{f.where()}: a buffer and a place")
        if (arms := re.search(r"match \*?(?:self|\w+) \{ ((?:\w+::\w+ => [^{}]*?\(.*?\),? ?)+)\}", body)) and body.startswith("{ match"):
            if not re.search(r"=> (?:Some|Ok|Err|\w+::)\(?", arms.group(1)):
                found[7].append(f"{f.where()}: a step for each case")


def structs(files, found):
    for file, text in files:
        for m in re.finditer(r"\bstruct\s+(\w+)[^{;(]*\{", text):
            inside = text[m.end() : closing(text, m.end() - 1) - 1]
            fields = re.findall(r"(?m)^\s*(?:pub(?:\(\w+\))? )?(\w+): ([^,{]+),$", inside)
            where = f"{file}:{text.count(chr(10), 0, m.start()) + 1} {m.group(1)}"
            kinds = [kind for _, kind in fields]
            if "bool" in kinds:
                found[1].append(f"{where}: a flag among its fields")
            if any(k.startswith("[") for k in kinds) and any(k in ("usize", "bool") for k in kinds):
                found[6].append(f"{where}: an array and its length")
        for m in re.finditer(r"\benum\s+(\w+)[^{;]*\{", text):
            inside = " ".join(text[m.end() : closing(text, m.end() - 1) - 1].split())
            variants = [v for v in re.split(r",(?![^(]*\))", inside) if v.strip()]
            if len(variants) == 2 and any("(" in v for v in variants):
                found[1].append(f"{file}:{text.count(chr(10), 0, m.start()) + 1} {m.group(1)}: two cases with values")


def main():
    arguments = [a for a in sys.argv[1:] if a != "--list"]
    top = Path(arguments[0]) if arguments else Path(__file__).resolve().parent.parent
    paths = [p for p in sorted(top.glob("crates/*/src/*.rt")) if p.name != "table.rt"]
    files = [(str(p.relative_to(top / "crates")), stripped(p.read_text())) for p in paths]
    all_functions = [f for file, text in files for f in functions(file, text)]
    found = {point: [] for point in POINTS}

    structs(files, found)
    lines_with(files, r"return (?:ACCEPTED|[A-Z]+_[A-Z]+);", 1, "a number for a refusal", found)
    lines_with(files, r"Ok\(\w+\) => [\w:()]+,\s*Err\(\w+\) => [\w:()]+,", 1, "a Result taken apart", found)
    lines_with(files, r"let (?:Some|Ok)\(.*?\) = [^;]*?else \{\s*return (?:Err|None)[^;]*;", 1, "a `?` by hand", found)
    lines_with(files, r"if let Err\(_\) = ", 1, "an error let go by hand", found)
    twins(all_functions, found)
    constants(files, found)
    loops(files, found)
    lines_with(files, r"while [^{]*\{", 3, "a while", found)
    lines_with(files, r"\b[\w.]+ \+= 1;|\b(?:self\.)?\w+ = (?:self\.)?\w+\.saturating_add\(1\)", 3, "a count by hand", found)
    lines_with(files, r"for \w+ in \w+ \{\s*if [^{]*\{\s*return (?:true|false);", 3, "a search by hand", found)
    lines_with(files, r"\brest = \w+;", 3, "a rest moved on by hand", found)
    shapes_of_functions(all_functions, found)
    contracts(all_functions, found)
    for answers in sorted(top.glob("crates/*/proofs/**/*.antt")):
        text = answers.read_text()
        goals = len(re.findall(r"(?m)^(?:abbrev )?(?:pub )?(?:abbrev )?(?:pub )?[\w-]+ : ", text))
        if answers.name != "Lib.antt" and "/out/" not in str(answers):
            found[8].extend([f"{answers.relative_to(top / 'crates')}"] * goals)

    for point, name in POINTS.items():
        print(f"{point}. {name}: {len(found[point])}")
        if "--list" in sys.argv and point != 8:
            for place in found[point]:
                print(f"   {place}")


if __name__ == "__main__":
    main()
