#!/usr/bin/env python3
"""Respells the repository's own definitions and lemmas: words in snake case, facts and records in camel case.

usage: python3 tools/respell.py [--list]      at the top of the repository, once

It reads which names the files of specs/ and proofs/ define, and renames these, as whole words, in every .antt file and
in the clauses of every .rt file. Names that Rattle makes for a proof (in Answers.antt and Invariants.antt), functions,
strings and std's names stay. --list prints the names, and what falls together, and changes nothing.
"""

import collections
import os
import re
import sys

# Lemmas that would get the name of a definition, or of another lemma of the same file.
APART = {
    "carried-at": "carried_at_lem",
    "carried-key": "carried_key_lem",
    "charged-as": "charged_as_lem",
    "class-number": "class_number_lem",
    "is-mark": "is_mark_lem",
    "left-all": "left_all_lem",
    "meter-at": "meter_at_lem",
    "node-room": "node_room_lem",
    "node-terms": "node_terms_lem",
    "rule-room": "rule_room_lem",
    "two-of": "two_of_lem",
}
# The same, for a name that port.py had turned already.
APART_IN = {"crates/policy_text": {"room_of": "room_of_lem"}}
MADE = ("Answers.antt", "Invariants.antt", "Proof.antt")
SIGNATURE = re.compile(
    r"^(\s*)(?:(?:abbrev|unfoldable|irreducible)\s+)*(?:pub\s+)?(?:(?:abbrev|unfoldable|record|data)\s+)?(?:pub\s+)?"
    r"([^\s(){}:;,.=\"]+)(?:\s*[({][^:]*(?::[^:]*)*[)}])?\s+:(?:\s|$)"
)
RECORD = re.compile(r"^\s*(?:pub\s+)?(?:record|data)\s+(?:pub\s+)?([^\s(){}:;,.]+)")
WORD = r"A-Za-z0-9_'+*≤<≡∷-"


def texts(suffix):
    for folder, dirs, files in os.walk("crates"):
        dirs[:] = sorted(d for d in dirs if d != "out")
        for name in sorted(files):
            if name.endswith(suffix):
                yield os.path.join(folder, name)


def defined():
    """Each name that a file of definitions or lemmas defines, with the files."""
    names = collections.defaultdict(set)
    for path in texts(".antt"):
        made = os.path.basename(path) in MADE
        with open(path, encoding="utf-8") as f:
            for line in f:
                for pattern, at in ((SIGNATURE, 2), (RECORD, 1)):
                    m = pattern.match(line)
                    # what Rattle makes stands at the left edge of its files, a lemma of the file's own behind a where
                    if m and not (made and pattern is SIGNATURE and "goal." in line):
                        names[m.group(at)].add(path)
    return names


def spelled(name):
    if name in APART:
        return APART[name]
    if name[0].isupper():
        head, *rest = name.split("-")
        return head + "".join(r[:1].upper() + r[1:] for r in rest)
    words = re.sub(r"(?<=[a-z0-9A-Z])[A-Z](?=[a-z])|(?<=[a-z0-9])[A-Z]", lambda m: "_" + m.group(0).lower(), name)
    return re.sub(r"(?<=[A-Za-z0-9])-(?=[A-Za-z0-9])", "_", words)


def clauses(text):
    """The parts of a .rt file that are clauses: ghost use lines, and what stands in braces behind a clause's word."""
    spans = []
    for m in re.finditer(r"^\s*(?:pub )?ghost use [^;]*;", text, re.M):
        spans.append(m.span())
    for m in re.finditer(r"^\s*(?:pub )?(?:ensures|requires|ghost)\*?(?: [\w«»]+)?(?::| =)? \{", text, re.M):
        depth, at = 1, m.end()
        while depth:
            depth += {"{": 1, "}": -1}.get(text[at], 0)
            at += 1
        spans.append((m.end(), at))
    return sorted(spans)


def main():
    names = defined()
    turned = {n: spelled(n) for n in names if n[0].isalpha() and spelled(n) != n}
    word = re.compile(r"(?<![%s])(%s)(?![%s])" % (WORD, "|".join(sorted(map(re.escape, turned), key=len, reverse=True)), WORD))
    if "--list" in sys.argv:
        back = collections.defaultdict(set)
        for old, new in turned.items():
            back[new].add(old)
        seen = collections.defaultdict(set)
        token = re.compile("[%s]+" % WORD)
        for path in [*texts(".antt"), *texts(".rt")]:
            with open(path, encoding="utf-8") as f:
                for t in token.findall(f.read()):
                    if t in back:
                        seen[t].add(path)
        for old, new in sorted(turned.items()):
            print(old, new)
        for new, olds in sorted(back.items()):
            if len(olds) > 1 or new in seen:
                print("falls together:", new, sorted(olds), sorted({p for o in olds for p in names[o]}), "|", sorted(seen.get(new, ())))
        return
    for path in texts(".antt"):
        with open(path, encoding="utf-8") as f:
            text = f.read()
        apart = next((a for c, a in APART_IN.items() if path.startswith(c + "/")), {})
        new = re.sub(r"(?<![%s])(%s)(?![%s])" % (WORD, "|".join(apart), WORD), lambda m: apart[m.group(1)], text) if apart else text
        new = word.sub(lambda m: turned[m.group(1)], new)
        if new != text:
            with open(path, "w", encoding="utf-8") as f:
                f.write(new)
    for path in texts(".rt"):
        with open(path, encoding="utf-8") as f:
            text = f.read()
        out, at = [], 0
        for start, end in clauses(text):
            if start < at:
                continue
            out += [text[at:start], word.sub(lambda m: turned[m.group(1)], text[start:end])]
            at = end
        new = "".join([*out, text[at:]])
        if new != text:
            with open(path, "w", encoding="utf-8") as f:
                f.write(new)


if __name__ == "__main__":
    main()
