#!/usr/bin/env python3
"""Spells the repository's own antt names in snake case: 'agentMatroid' as 'agent_matroid', 'size-within' as 'size_within'.

usage: respell.py [--check]        at the top, after port.py, once

It collects what specs/ and proofs/ declare (definitions, lemmas, fields, constructors, also local ones), and turns each whole word in the
.antt files, in .rt files outside strings and comments' prose, in must-fail edits and in docs/*.md and README.md between back-quotes.
Names that begin with a capital stay: they are types, facts and modules. Answers and statements in proofs/F/ that the prover named stay too.
A lemma that would meet its function's name gets _lem; any other name that would meet one is listed.
"""
import collections
import os
import re
import sys

WORD = re.compile(r'[^\s(){}.;,@"«»`]+')
DECLARED = re.compile(r"^\s*(?:(?:pub|abbrev|unfoldable|where)\s+)*((?:[^\s(){}.;,@\"«»:]+\s+)*?[^\s(){}.;,@\"«»:]+)\s+:(?:\s|$)")
FIELD = re.compile(r"^\s*(?:pub\s+)?([^\s(){}.;,@\"«»:]+)\s+:(?:\s|$)")
STRING = re.compile(r'(b?"(?:[^"\\\n]|\\.)*")')
OWN = re.compile(r"\btie\.|\bgoal\.|\bstatement\b|Need-")


def files(kinds):
    for top in ("crates",):
        for folder, dirs, names in os.walk(top):
            dirs[:] = sorted(d for d in dirs if d not in ("out", "target"))
            for name in sorted(names):
                if name.endswith(kinds):
                    yield os.path.join(folder, name)


def read(path):
    with open(path, encoding="utf-8") as f:
        return f.read()


def new_name(old):
    if old[0].isupper():
        return old
    name = old.replace("-", "_")
    name = re.sub(r"(?<=[a-z0-9₀-₉])([A-Z])(?=[a-z0-9_₀-₉']|$)", lambda m: "_" + m[1].lower(), name)
    name = re.sub(r"(?<=[a-z0-9₀-₉])([A-Z]+)", lambda m: "_" + m[1].lower(), name)
    return name


def declared():
    found = collections.Counter()
    for path in files((".antt",)):
        for line in read(path).splitlines():
            code = line.split("--")[0] if line.lstrip().startswith("--") else line
            m = DECLARED.match(code)
            if not m or OWN.search(code.split(" : ", 1)[1] if " : " in code else ""):
                continue
            words = m[1].split()
            if words[0] in ("let", "use", "data", "record", "module", "axiom", "infix", "infixl", "infixr", "=", "λ"):
                continue
            if len(words) == 1:
                found[words[0]] += 1
    return found


def in_rt(text, turn):
    out = []
    for line in text.split("\n"):
        parts = STRING.split(line)
        out.append("".join(p if STRING.fullmatch(p) else turn(p) for p in parts))
    return "\n".join(out)


def main():
    check = "--check" in sys.argv
    names = declared()
    table = {n: new_name(n) for n in names if new_name(n) != n}
    words = collections.Counter()
    for path in files((".antt", ".rt")):
        words.update(WORD.findall(read(path)))
    table["share-test"] = "share_passes"  # a definition beside shareTest
    taken = collections.defaultdict(list)
    for old, new in table.items():
        taken[new].append(old)
    # A lemma that would have its function's name gets _lem.
    for new, olds in sorted(taken.items()):
        lemmas = [o for o in olds if "-" in o and o != "share-test"]
        if len(olds) > 1 or (names[new] and new not in table):
            for o in lemmas:
                table[o] = new + "_lem"
    back = collections.defaultdict(list)
    for old, new in table.items():
        back[new].append(old)
    for new, olds in sorted(back.items()):
        if len(olds) > 1 or (names[new] and new not in table):
            print("meets:", new, "<-", ", ".join(olds), f"(declared {names[new]} times already)")

    fields = set()
    for path in files((".antt",)):
        if "/specs/" in path or path.count("/") == 3:
            fields.update(m[1] for line in read(path).splitlines() if line.startswith("  ") for m in [FIELD.match(line)] if m)

    # Lemmas that port.py turned from a dashed name, and that would now have their function's name.
    lemmas = {"crates/plan/proofs/Table.antt": "own_read", "crates/checker/proofs/Acceptance.antt": "share_holds"}

    own = "|".join(sorted(c for c in os.listdir("crates")))
    imported = re.compile(r"(?m)^(?:ghost )?use (?!Rattle\.(?:" + own + r")\.)[^{;\n]*\{([^}]*)\}")

    # Behind a dot a walk in proofs/F/ has the prover's names, and fields.
    def turn(text, path=""):
        walk = path.endswith("/Proof.antt")
        # What a file imports from a library keeps its name there.
        library = {w for m in imported.finditer(text) for w in WORD.findall(m[1])}

        def one(m):
            if walk and m.start() and text[m.start() - 1] == "." and m[0] not in fields:
                return m[0]
            if m[0] in library:
                return m[0]
            if m[0] == lemmas.get(path):
                return m[0] + "_lem"
            return table.get(m[0], m[0])

        return WORD.sub(one, text)

    def prose(text):
        return re.sub(r"`[^`\n]+`", lambda m: turn(m[0]), text)

    changed = 0
    for path in [*files((".antt", ".rt", ".edit")), "README.md", *("docs/" + d for d in sorted(os.listdir("docs")) if d.endswith(".md"))]:
        old = read(path)
        new = in_rt(old, turn) if path.endswith(".rt") else prose(old) if path.endswith(".md") else turn(old, path)
        if new != old:
            changed += 1
            if not check:
                with open(path, "w", encoding="utf-8") as f:
                    f.write(new)
    print(len(table), "names,", changed, "files")
    if check:
        for old in sorted(table):
            print(old, table[old])


main()
