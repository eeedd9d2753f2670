#!/usr/bin/env python3
"""Prints, from the log of one or more runs of rt ci or rt must-fail, the fact that refuses each planted mistake first.

usage: tools/facts.py LOG..    rows for the table in docs/PROMISES.md, in the order of crates.txt; a later log goes over an earlier
"""
import re
import sys

SAID = re.compile(r"rt: must-fail (\w+)/(\w+)\.edit: ([^\n]*)")
ERROR = re.compile(r"\./(\S+?):\d+:\d+: error: `([^`]+)`")
NOTE = re.compile(r"note: (\S+?):\d+:\d+: .*\(`([^`]+)`")


def where(path):
    """A function's module path, or a file's name."""
    if path.endswith("/Answers.antt"):
        return "::".join(path.split("/")[1:-1])
    return path.split("/")[-1].rsplit(".", 1)[0]


def main():
    facts = {}
    for path in sys.argv[1:]:
        for crate, name, said in SAID.findall(open(path, encoding="utf-8").read()):
            if not said.startswith("refused"):
                facts[crate, name] = ("NOT REFUSED", said[:60])
                continue
            found = ERROR.search(said) or NOTE.search(said)
            facts[crate, name] = (found[2], where(found[1])) if found else ("?", said[:80])
    order = [line.split(":")[0].split()[0] for line in open("crates.txt") if line.strip() and line[0] != "#"]
    for crate, name in sorted(facts, key=lambda it: (order.index(it[0]), it[1])):
        fact, at = facts[crate, name]
        print(f"| {crate}/{name} | `{fact}` | `{at}` |")


if __name__ == "__main__":
    main()
