#!/usr/bin/env python3
"""Places in src/ that may be written in a newer form, by kind: `python3 tools/places.py [KIND..]`, at the top.

It reads text and proves nothing: what it prints are candidates, and docs/DESIGN-PASS.md says which of them are places.
1 enums, and answers that are a flag or a number   2 functions and types of the same shape   3 loops
4 conversions, comparisons and printing by hand    5 clauses and parameters that stand three times or more
6 arrays, lengths and numbers that point           7 matches that only pick a call, dyn and pointers
8 answers and lemmas in proofs/
"""
import collections
import pathlib
import re
import sys

KINDS = "12345678"


class Function:
    def __init__(self, place, head, clauses, body):
        self.place, self.head, self.clauses, self.body = place, head, clauses, body


def sources():
    for path in sorted(pathlib.Path("crates").glob("*/src/**/*.rt")):
        yield path, path.read_text()


def place(path, text, at):
    return f"{path.parts[1]}/{path.name}:{text.count(chr(10), 0, at) + 1}"


def block(text, at):
    """The end of the block that opens at `at`."""
    depth = 0
    for i in range(at, len(text)):
        depth += {"{": 1, "}": -1}.get(text[i], 0)
        if depth == 0:
            return i + 1
    return len(text)


def functions():
    for path, text in sources():
        for found in re.finditer(r"^ *(?:pub(?:\(crate\))? )?fn (\w+)", text, re.M):
            at, clauses = found.end(), []
            while at < len(text) and text[at] not in "{;":
                at += 1
            head = text[found.start() : at].strip()
            # clauses: `requires NAME { .. }`, each a block before the body
            names = re.split(r"\b(?:requires|ensures)\b", head)
            clausal = len(names) > 1
            while clausal and at < len(text) and text[at] == "{":
                end = block(text, at)
                clauses.append(" ".join(text[at + 1 : end - 1].split()))
                rest = re.match(r"\s*(requires|ensures)\b[^{]*", text[end:])
                if not rest:
                    at = end + re.match(r"\s*", text[end:]).end()
                    break
                at = end + rest.end()
            body = text[at : block(text, at)] if at < len(text) and text[at] == "{" else ""
            where = f"{place(path, text, found.start() + 1)} {found.group(1)}"
            yield Function(where, names[0], clauses, body)


def say(lines):
    lines = list(lines)
    print("\n".join(lines))
    print(f"-- {len(lines)}\n")


def shape(code):
    """The code with every name, number and text replaced, and no comments."""
    code = re.sub(r"//.*", "", code)
    words = re.findall(r"b?'[^']*'|\"[^\"]*\"|\w+|[^\w\s]", code)
    keep = {"match", "if", "else", "for", "in", "while", "let", "return", "mut", "as", "true", "false", "None", "Some", "Ok", "Err", "self"}
    return tuple(w if w in keep or not re.match(r"[\w'\"]", w) else "_" for w in words)


def kind_1():
    for path, text in sources():
        for found in re.finditer(r"^ *(?:pub(?:\(crate\))? )?enum (\w+)[^{]*\{", text, re.M):
            inside = text[found.end() : block(text, found.end() - 1) - 1]
            cases = re.findall(r"^ *([A-Z]\w*)", re.sub(r"//.*", "", inside), re.M)
            yield f"{place(path, text, found.start())} enum {found.group(1)}: {', '.join(cases)}"
    for f in functions():
        if re.search(r"-> (bool|Option<\(\)>|Result<bool|Result<[^<>]*, u\d+>)", f.head):
            yield f"{f.place} {f.head[f.head.rfind('->'):].split(' where ')[0].strip()}"


def kind_2():
    groups = collections.defaultdict(list)
    for f in functions():
        if len(shape(f.body)) > 12:
            groups["fn", shape(f.body)].append(f.place)
    for path, text in sources():
        for found in re.finditer(r"\b(enum|struct) (\w+)[^{;(]*\{", text):
            inside = text[found.end() : block(text, found.end() - 1) - 1]
            inside = re.sub(r"//.*|ghost .*", "", inside)
            names = tuple(re.findall(r"^\s*(?:pub(?:\(crate\))? )?(\w+)", inside, re.M))
            groups[found.group(1), names].append(f"{place(path, text, found.start())} {found.group(2)}")
    for key, places in groups.items():
        if len(places) > 1:
            yield f"{key[0]}: " + ", ".join(places)


def kind_3():
    for path, text in sources():
        for found in re.finditer(r"^.*\b(for\b(?! *<)[^;\n]* in |while |loop ).*$", text, re.M):
            line = found.group(0).strip()
            if not line.startswith(("//", "impl", "ghost")):
                yield f"{place(path, text, found.start())} {line}"


def kind_4():
    for path, text in sources():
        for found in re.finditer(r"^impl.* (From|TryFrom|PartialEq|Eq|PartialOrd|Ord|Display|Debug|Clone|Copy|Default|Drop)\b.* for .*$", text, re.M):
            yield f"{place(path, text, found.start())} {found.group(0).rstrip(' {')}"
    for f in functions():
        if re.search(r"fn (same|eq|number|is|new|told|placed|carried|passed|ranged|form|on|at|byte|kind_named|colour_named|class_of)\b", f.head):
            yield f"{f.place} {' '.join(f.head.split())}"


def kind_5():
    clauses, groups = collections.defaultdict(set), collections.defaultdict(set)
    for f in functions():
        for clause in f.clauses:
            clauses[clause].add(f.place)
            for premise in clause.split(" → ")[:-1]:
                if "λ" not in premise or premise.count("(") == premise.count(")"):
                    clauses[re.sub(r"\b\w+((?:\.\w+)*)\.(old|now)\b", r"_\1", premise) + " → .."].add(f.place)
            if len(shape(clause)) > 15:
                clauses["shape " + " ".join(shape(clause))].add(f.place)
        inside = f.head[f.head.find("(") + 1 : f.head.rfind(")")]
        pairs = re.findall(r"(\w+): ([^,]+)", inside)
        for i in range(len(pairs)):
            for j in range(i + 2, len(pairs) + 1):
                groups[tuple(pairs[i:j])].add(f.place)
    for clause, places in clauses.items():
        if len(places) > 2:
            yield f"{len(places)} times {{ {clause} }}: " + ", ".join(sorted(places))
    for group, places in groups.items():
        if len(places) > 2:
            yield f"{len(places)} times ({', '.join(': '.join(p) for p in group)}): " + ", ".join(sorted(places))


def kind_6():
    for path, text in sources():
        for found in re.finditer(r"\bstruct (\w+)[^{;(]*\{", text):
            inside = text[found.end() : block(text, found.end() - 1) - 1]
            fields = re.findall(r"^\s*(?:pub(?:\(crate\))? )?(\w+): (.*(?:Vec|\[).*),$", inside, re.M)
            if fields:
                yield f"{place(path, text, found.start())} {found.group(1)}: " + ", ".join(": ".join(f) for f in fields)
        for found in re.finditer(r"\w+\[[^\];]*[a-z][^\];]*\]", text):
            line = text[text.rfind("\n", 0, found.start()) + 1 : text.find("\n", found.start())].strip()
            if not line.startswith(("//", "ghost", "ensures", "requires", "#")) and ".." not in found.group(0):
                yield f"{place(path, text, found.start())} {found.group(0)}"


def kind_7():
    for f in functions():
        arms = re.findall(r"=> (.*?),?\n", f.body)
        if len(arms) > 1 and all(re.match(r"[\w:.]+\(.*", a) and not re.match(r"(Some|Ok|Err|[A-Z]\w+::[A-Z]\w*)\(", a) for a in arms):
            yield f"{f.place} {len(arms)} arms, each a call"
    for path, text in sources():
        for found in re.finditer(r"\bdyn \w+|\bfn\(", text):
            yield f"{place(path, text, found.start())} {found.group(0)}"


def kind_8():
    for crate in sorted(pathlib.Path("crates").iterdir()):
        answers = sum(len(re.findall(r"^pub ", p.read_text(), re.M)) for p in crate.glob("proofs/**/Answers.antt"))
        lemmas = sum(len(re.findall(r"^(?:abbrev )?pub (?!mod)", p.read_text(), re.M)) for p in crate.glob("proofs/*.antt"))
        lines = sum(p.read_text().count("\n") for p in crate.glob("proofs/**/*.antt"))
        yield f"{crate.name}: {answers} answers, {lemmas} lemmas, {lines} lines of proofs"


for kind in sys.argv[1:] or KINDS:
    print(f"== {kind}")
    say(globals()[f"kind_{kind}"]())
