#!/usr/bin/env python3
"""Counts the places of src/ that docs/DESIGN-PASS.md goes through, at a commit: tools/forms.py COMMIT [POINT ..]

It reads crates/*/src/*.rt of the commit alone. A place is a line, a function, a pair of functions or a clause, as each
point says. The patterns find the old forms by how they are written; a reader has to judge each.
"""
import collections
import difflib
import re
import subprocess
import sys


def said(*words):
    return subprocess.run(["git", *words], check=True, capture_output=True, text=True).stdout


def texts(commit, pattern):
    """Each file of the commit whose path is of the pattern, with its text."""
    for name in said("ls-tree", "-r", "--name-only", commit, "crates").split():
        if re.fullmatch(pattern, name):
            yield name, said("show", f"{commit}:{name}")


def sources(commit):
    return texts(commit, r"crates/\w+/src/.*\.rt")


def lines(files, pattern):
    """Lines of code (no comments, no clauses, no uses) in which the pattern stands."""
    found = []
    for name, text in files:
        clause = 0
        for number, line in enumerate(text.split("\n"), 1):
            code = line.split("//")[0]
            head = code.strip()
            if clause or re.match(r"(requires|ensures)\b", head):
                clause += code.count("{") - code.count("}")
                continue
            if head.startswith(("ghost", "use ", "pub use ")):
                continue
            if re.search(pattern, code):
                found.append((f"{name}:{number}", head))
    return found


def functions(files):
    """Each function: its place, its name, its parameters, its clauses, its body."""
    for name, text in files:
        text = re.sub(r"//.*", "", text)
        for match in re.finditer(r"(?:pub )?(?:extern \"C\" )?fn (\w+)[^(]*\(", text):
            at, depth = match.end(), 1
            while depth:
                depth += {"(": 1, ")": -1}.get(text[at], 0)
                at += 1
            parameters = text[match.end():at - 1]
            start = re.compile(r"\n\s*\{\n|\s\{\n").search(text, at)
            if not start:
                continue
            clauses = text[at:start.start()]
            end, depth = start.end(), 1
            while depth and end < len(text):
                depth += {"{": 1, "}": -1}.get(text[end], 0)
                end += 1
            place = f"{name}:{text.count(chr(10), 0, match.start()) + 1}"
            yield place, match.group(1), parameters, clauses, text[start.end():end - 1]


def shape(body):
    """A body as the sequence of its signs, with every name and number hidden."""
    return [
        "n" if sign[0].isdigit() else sign if sign in KEPT or not sign[0].isalpha() else "x"
        for sign in re.findall(r"\w+|[^\w\s]", body)
    ]


KEPT = {"if", "else", "while", "loop", "for", "in", "match", "return", "let", "mut", "as"}


def twins(files, least=24, alike=0.9):
    """Pairs of functions whose bodies have nearly the same shape, of so many signs at least."""
    every = [(place, name, shape(body)) for place, name, _, _, body in functions(files)]
    every = [one for one in every if len(one[2]) >= least]
    found = []
    for i, one in enumerate(every):
        for other in every[:i]:
            if abs(len(one[2]) - len(other[2])) <= 0.2 * len(one[2]):
                ratio = difflib.SequenceMatcher(None, one[2], other[2], autojunk=False).ratio()
                if ratio >= alike:
                    found.append((f"{other[0]} {other[1]}", f"{one[0]} {one[1]} ({ratio:.2f})"))
    return found


def facts(files):
    """Facts that are required by three functions or more."""
    count = collections.defaultdict(set)
    for place, name, _, clauses, _ in functions(files):
        for clause in re.findall(r"requires(?: \w+)?\s*\{(.*?)\}\s*(?=requires|ensures|$)", clauses, re.S):
            for fact in re.split(r"\)\s*×\s*\(", clause.strip()):
                fact = re.sub(r"\.(old|now)\b", "", re.sub(r"\s+", " ", fact)).strip("() ")
                count[fact].add(f"{place} {name}")
    return [(fact, f"{len(where)} functions") for fact, where in sorted(count.items()) if len(where) >= 3]


def together(files):
    """Two parameters or more that stand together in three functions or more (the longest lists alone)."""
    count = collections.Counter()
    for _, _, parameters, _, _ in functions(files):
        named = [re.sub(r"\s+", " ", p).strip() for p in parameters.split(",") if ":" in p]
        for i in range(len(named)):
            for j in range(i + 2, len(named) + 1):
                count[tuple(named[i:j])] += 1
    often = {names: n for names, n in count.items() if n >= 3}
    longest = [
        names for names in often
        if not any(len(other) > len(names) and often[other] >= often[names]
                   and any(other[k:k + len(names)] == names for k in range(len(other))) for other in often)
    ]
    return [(", ".join(names), f"{often[names]} functions") for names in sorted(longest)]


def proofs(commit):
    """The lines of each answer and invariant."""
    for name, text in texts(commit, r"crates/\w+/proofs/.+/(Answers|Invariants)\.antt"):
        yield name, f"{text.count(chr(10))} lines"


def grep(pattern):
    return lambda files: lines(files, pattern)


POINTS = {
    "1 enums of the shape of Option or Result": grep(r"^\s+(Refused\(Refusal\)|Bad),"),
    "1 a flag or a refusal beside a value": grep(r"^\s+(pub )?\w+: (bool|Done|Input|Result<\(\), Refusal>),$"),
    "1 numbers for kinds": grep(
        r"match phase|phase (==|!=) \d|phase: \d|to_phase\(.*\d\)|answered\(.*\d\)|mark (==|<=) \d|mark: (u8|\d)"
        r"|n: u8|mark_of|=> 16,|< 16\b|4097|=> \d,|number_done"
    ),
    "2 pairs of functions of one shape": twins,
    "3 loops that count by hand": grep(r"^\s*(while|loop)\b"),
    "4 conditions by branches": grep(r"\{ (true|false) \}|^\s+(true|false)$"),
    "4 conversions by hand": grep(r"\bas (u8|u16|u32|u64|usize)\b|% 256|/ 256|\bbit_of\(|\bwide\("),
    "4 comparisons by a field": grep(r"\.0 (==|!=|<|<=|>|>=) "),
    "4 printing by hand": grep(r"\b(48|55) \+|- (48|55|87)\b|= (69|10);|\bglyph\(|\bdigit\("),
    "5 facts required by three functions or more": facts,
    "5 parameters that travel together": together,
    "6 a length beside a buffer, parallel arrays": grep(
        r"(held|filled|wrote|count|numbers|serving): (usize|\[usize; 16\])|\[Task; 16\]|\[u8; 512\]"
    ),
    "7 switches on which step to run": grep(r"^\s*match (phase|stage|length|s\.input)\b"),
}


def main():
    commit, wanted = sys.argv[1], sys.argv[2:]
    files = list(sources(commit))
    for point, find in POINTS.items():
        found = find(files)
        print(f"{point}: {len(found)}")
        if any(point.startswith(w) for w in wanted):
            for where, what in found:
                print(f"    {where}  {what}")
    found = list(proofs(commit))
    print(f"8 files of answers and invariants: {len(found)}, {sum(int(what.split()[0]) for _, what in found)} lines")


if __name__ == "__main__":
    main()
