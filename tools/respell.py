#!/usr/bin/env python3
"""Spells this repository's own definitions, lemmas, fields and variables of antt as the kit's CONTRACT_STYLE.md does.

usage: tools/respell.py [--dry]    at the top of the repository, once, right after the kit's port.py

Definitions, constructors, fields, variables and lemmas get snake case; a lemma that would have a definition's name gets
`_lem`. Types, modules and facts keep their capital; names of the kit's libraries, and those that the toolchain makes of
code, stay.
The clauses and `ghost use` lines of the .rt files follow. --dry prints the table and writes nothing.
"""
import collections
import glob
import os
import re
import subprocess
import sys

KIT = os.path.join(os.path.dirname(subprocess.check_output(["rt", "doc"], text=True).strip()), "rattle")
NAME = re.compile(r"[^\s(){}\[\];,.λ∀⌜⌝@\"«»`]+")
DECLARED = re.compile(r"^(\s*)((?:(?:pub|abbrev|unfoldable|data|record) )*)([^\s(){}\[\].;,\"]+)((?: \{[^{}]*\})*) :(?=\s|$)")
# A field whose snake case would hide the definition that its record's types name.
SPECIAL = {"answered-so": "so_answered"}
MADE = re.compile(r"^(Need|After|In|At|Then|Else|Goes|Known|Before|Own)-|_spec$|-spec$|^(mut_slice|shr_slice|uint)_|^res-")


def text_of(path):
    with open(path, encoding="utf-8") as file:
        return file.read()


def kit_names():
    names = set()
    for root, _, files in os.walk(KIT):
        for file in files:
            if file.endswith(".antt") and "/examples/" not in root and "/tests/" not in root:
                for line in open(os.path.join(root, file), encoding="utf-8", errors="replace"):
                    found = DECLARED.match(line)
                    if found:
                        names.add(found[3])
    return names


def snake(name):
    """A part in snake case; a type's name in it keeps its capital at the front."""
    return re.sub(r"(?<=[a-z0-9])([A-Z])(?=[a-z0-9]|$)", lambda m: "_" + m[1].lower(), name).replace("′", "'")


def odd(name):
    if not name[0].isalpha() or "Rattle" in name:
        return False
    return bool(re.match(r"^[a-z].*[a-z0-9][A-Z]", name) or re.match(r"^\w[^\s]*-", name) or "′" in name)


def split_comment(line):
    found = re.search(r"(^|\s)--(\s|$)", line)
    return (line[: found.start()], line[found.start():]) if found else (line, "")


def is_function_proof(path):
    return path.endswith("/Proof.antt")


def collect(paths):
    """The odd names: lemmas at the top level, and all others."""
    lemmas, others, plain = set(), set(), set()
    for path in paths:
        for line in text_of(path).split("\n"):
            head = split_comment(line)[0]
            found = DECLARED.match(head)
            if found:
                name = found[3]
                if is_function_proof(path) and ("tie." in head or name.endswith(("-spec", "_spec"))):
                    pass
                elif odd(name):
                    words = found[2]
                    is_lemma = "abbrev" not in words and "unfoldable" not in words and "data" not in words
                    (lemmas if is_lemma and "-" in name else others).add(name)
                if not odd(name):
                    plain.add(name)
            for bound in re.findall(r"[({]((?:[^\s(){}:]+ )+):", head):
                others.update(n for n in bound.split() if odd(n))
            others.update(n for n in re.findall(r"\blet ([^\s(){}:=]+)", head) if odd(n))
            for bound in re.findall(r"λ ((?:[^\s(){}.]+ )*[^\s(){}.]+)\.", head):
                others.update(n for n in bound.split() if odd(n))
            others.update(n for n in re.findall(r" as ([^\s(){},]+)$", head) if odd(n))
    return lemmas, others - lemmas, plain


def fields_of(paths):
    """Fields of records: declared deeper than their record."""
    names = set()
    for path in paths:
        inside = False
        for line in text_of(path).split("\n"):
            if re.match(r"^\s*(pub )?record [A-Z]", line):
                inside = True
                continue
            if inside:
                found = re.match(r"^\s+(?:pub )?([^\s:(){}]+) :", line)
                if found:
                    names.add(found[1])
                elif line.strip() == "":
                    inside = False
    return names


def table_of(paths):
    lemmas, others, plain = collect(paths)
    fields = {n for n in fields_of(paths) if odd(n)}
    lemmas -= fields
    others |= fields
    table = {}
    for name in others:
        if not MADE.search(name):
            table[name] = snake(name).replace("-", "_")
    defined = set(table.values()) | plain
    for name in lemmas:
        if MADE.search(name):
            continue
        new = snake(name).replace("-", "_")
        if new in defined:
            new += "_lem"
        table[name] = new
    table.update(SPECIAL)
    return {old: new for old, new in table.items() if old != new}, lemmas


def imported_elsewhere(text):
    """Names that a file imports from the kit."""
    names = set()
    for module, inside in re.findall(r"use ([^\s;{]+)\.\{([^{}]*)\}", text):
        if not module.startswith("Rattle.") or module.startswith("Rattle.std."):
            names.update(re.split(r" as ", n.strip())[0] for n in inside.replace("\n", " ").split(","))
    return names


def turn_antt(text, table):
    away = imported_elsewhere(text)

    def word(found):
        return found[0] if found[0] in away else table.get(found[0], found[0])

    out = []
    for line in text.split("\n"):
        head, comment = split_comment(line)
        head = NAME.sub(word, head)
        comment = re.sub(r"`[^`]*`", lambda q: NAME.sub(word, q[0]), comment)
        comment = re.sub(r"\b[a-z][a-z0-9]*(?:[A-Z][a-z0-9]*)+\b", word, comment)
        out.append(head + comment)
    return "\n".join(out)


def turn_rt(text, table):
    away = imported_elsewhere(text)

    def camel(found):
        return found[0] if found[0] in away else table.get(found[0], found[0])

    def whole(line):
        return NAME.sub(lambda m: m[0] if m[0] in away else table.get(m[0], m[0]), line)

    out = []
    for line in text.split("\n"):
        if re.match(r"\s*(ghost use|requires|ensures|ghost )", line):
            line = whole(line)
        else:
            line = re.sub(r"\b[a-z][a-z0-9]*(?:[A-Z][a-z0-9]*)+\b", camel, line)
        out.append(line)
    return "\n".join(out)


def main():
    paths = sorted(glob.glob("crates/**/*.antt", recursive=True))
    table, lemmas = table_of(paths)
    kit = kit_names()
    back = collections.defaultdict(list)
    for old, new in table.items():
        back[new].append(old)
    together = {new: olds for new, olds in back.items() if len(olds) > 1}
    if "--dry" in sys.argv:
        for old, new in sorted(table.items()):
            print("lemma" if old in lemmas else "word", old, new, "KIT" if old in kit else "", "KITNEW" if new in kit else "")
        for new, olds in sorted(together.items()):
            print("together", new, olds)
        return
    for path in paths:
        text = text_of(path)
        turned = turn_antt(text, table)
        if turned != text:
            open(path, "w", encoding="utf-8").write(turned)
    for path in sorted(glob.glob("crates/*/src/**/*.rt", recursive=True)):
        text = text_of(path)
        turned = turn_rt(text, table)
        if turned != text:
            open(path, "w", encoding="utf-8").write(turned)


if __name__ == "__main__":
    main()
