#!/usr/bin/env python3
"""Spells the house's own definitions and lemmas in snake case: 'opAt' and 'op-at' become 'op_at'. Run once, at the top, after port.py.

A name turns if an .antt file of the house declares it: in a signature, as a field or as a constructor. It turns wherever it stands as a whole
word, in .antt files and in the clauses and 'ghost use' items of .rt files; not in comments and not in strings. A name that begins with a capital
keeps its dashes and is listed. Two names that would fall together in one file are listed; where one is a law, it gets '_law' behind it.
A must-fail edit's texts follow the files that they are taken from.
usage: respell.py [--check]
"""
import re
import sys
from pathlib import Path

ROOT = Path(__file__).resolve().parent.parent
# Laws that have a definition's name, or a library's, but for the spelling.
LAWS = "in-second word-at bit-and bit-or step-own done-by held-byte last-count sum-before picture-after skip-unless skip-if change-sound key-sound depth-sound held-sound others-from three-digits step-dark step-copied".split()
WORD = re.compile(r"[^\s(){}.;,@\"«»\[\]]+")
DECLARED = re.compile(r"^\s*(?:(?:pub|abbrev|unfoldable|opaque|private)\s+)*((?:[^\s:(){}=.,;\[\]]+\s+)+)(?:\{[^{}\n]*\}\s*)*:(?:\s|$)", re.M)
CONSTRUCTOR = re.compile(r"^\s*(?:pub\s+)?\|?\s*([a-z][\w'-]*)\s*:\s", re.M)
ITEM = re.compile(r"\b(?:const|static|struct|enum|type|trait|fn|mod|let|let mut) (\w+)")
GHOST = re.compile(r"ghost use [^;]*;|(?:requires|ensures)\*?\s*(?:\w+\s*)?\{", re.S)
QUIET = re.compile(r'"(?:[^"\\\n]|\\.)*"|(?:(?<=\s)|^)--[^\n]*', re.M)


def snake(name):
    return re.sub(r"(?<=[a-z0-9])[A-Z]", lambda m: "_" + m[0].lower(), name).replace("-", "_")


def words(text):
    return set(WORD.findall(QUIET.sub(" ", text)))


def turned(text, table):
    def one(m):
        return table.get(m[0], m[0])

    parts, at = [], 0
    for quiet in QUIET.finditer(text):
        parts += [WORD.sub(one, text[at : quiet.start()]), quiet[0]]
        at = quiet.end()
    return "".join(parts) + WORD.sub(one, text[at:])


def clause_end(text, at):
    """The end of a clause whose brace opens just before at."""
    depth = 1
    while depth:
        depth += {"{": 1, "}": -1}.get(text[at], 0)
        at += 1
    return at


def turned_code(text, table):
    """The clauses and ghost items of a .rt file turned; comments and code stay."""
    parts, at = [], 0
    for found in GHOST.finditer(re.sub(r"//[^\n]*", lambda m: " " * len(m[0]), text)):
        if found.start() < at:
            continue
        end = found.end() if found[0].startswith("ghost") else clause_end(text, found.end())
        parts += [text[at : found.start()], turned(text[found.start() : end], table)]
        at = end
    return "".join(parts) + text[at:]


def main():
    check = "--check" in sys.argv
    antt = sorted(ROOT.glob("crates/**/*.antt"))
    code = sorted(ROOT.glob("crates/*/src/**/*.rt"))
    texts = {f: f.read_text() for f in antt + code}
    declared = set()
    for f in antt:
        bare = QUIET.sub(" ", texts[f])
        for names in DECLARED.findall(bare):
            declared.update(names.split())
    # In a function's proof, a name that the check makes keeps its dashes.
    for f in antt:
        declared.difference_update(re.findall(r"\b(?:tie|goal)\.([a-z][\w'-]*)", texts[f]))
    odd = re.compile(r"[a-z][\w'-]*")
    table = {n: snake(n) + ("_law" if n in LAWS else "") for n in declared if odd.fullmatch(n) and snake(n) != n}
    for n in sorted(n for n in declared if n[0].isupper() and "-" in n):
        print("capital:", n)
    # A name stays if, in some file, its new spelling stands already or comes from another name too.
    for f in antt + code:
        found = words(texts[f])
        after = {}
        for w in found:
            after.setdefault(table.get(w, w), []).append(w)
        for new, olds in after.items():
            if len(olds) > 1:
                print(f"together: {f.relative_to(ROOT)}: {new}: {sorted(olds)}")
    for f in code:
        items = set(ITEM.findall(texts[f]))
        ghost = {table.get(w, w) for m in re.findall(r"ghost use [^;]*;", texts[f]) for w in WORD.findall(m) if w in table}
        for n in sorted(items & ghost):
            print(f"beside code: {f.relative_to(ROOT)}: {n}")
    if check:
        return
    for f in antt:
        f.write_text(turned(texts[f], table))
    for f in code:
        f.write_text(turned_code(texts[f], table))
    for edit in sorted(ROOT.glob("crates/*/must-fail/*.edit")):
        lines, source = [], ""
        for line in edit.read_text().split("\n"):
            if line.startswith("file: "):
                source = line[6:]
            elif line.startswith(("old: ", "new: ")) and source.endswith(".antt"):
                line = line[:5] + turned(line[5:], table)
            lines.append(line)
        edit.write_text("\n".join(lines))
    print(len(table), "names turned")


main()
