#!/usr/bin/env python3
"""Respells the names of definitions, fields and relations as today's Rattle spells them. Run once, at the top, after the port.

A function of specs/ and a field or constructor is in snake case, a type or relation in upper camel case; lemmas keep their
dashes, which part the words of their left side. Names go by whole words of antt, in specs/, proofs/ and the clauses of src/.
It stops, and writes nothing, where a new name stands already.
"""
import glob
import re
import sys

WORD = re.compile(r"[^\s(){}\[\].,;:\"«»=@|]+(?:'[^\s(){}\[\].,;:\"«»=@|]*)*")
# lemmas that stand in specs/ because contracts lean on what they show
LEMMAS = {"held-filled", "held-lawful", "latest-none", "latest-runs", "latest-step", "no-and", "has-finite", "whole-finite"}


# lemmas whose names a definition gets, with the names that they get first, file by file
MOVED = {
    "crates/table/proofs/Loops.antt": {"place_at": "place_at-laid", "position_at": "position_at-laid"},
    "crates/table/proofs/Positions.antt": {"position_at": "position-order"},
    "crates/table/proofs/Placing.antt": {"position_at": "position-order"},
}
# names that a function of src/ or a label of a clause has too, which stand apart from those of definitions
APART = {"equation_rows", "fault_fields", "hex_digit", "in_run", "infix_row", "prefix_level", "prefix_row", "result_within", "table_rows", "unknown_in"}


def snake(name):
    return re.sub(r"(?<=[a-z0-9])([A-Z])", lambda m: "_" + m.group(1).lower(), name).replace("-", "_")


def camel(name):
    return "".join(part[0].upper() + part[1:] for part in name.split("-"))


def declared(path):
    """Each declared name with whether it is a field of a record or a constructor, and whether it is a relation."""
    top = ""
    for line in open(path, encoding="utf-8"):
        if line.strip() and not line.startswith((" ", "--")):
            top = line.strip()
        m = re.match(r"^(\s*)((?:(?:abbrev|unfoldable|pub|record|data)\s+)*)([^\s(){}:,;.=]+)((?:\s+[({][^=]*)?)\s*:\s", line)
        if m and not line.startswith("use "):
            yield m.group(3), bool(m.group(1)) and bool(re.match(r"(pub )?(record|data) ", top))


def main():
    antt = sorted(glob.glob("crates/*/specs/**/*.antt", recursive=True) + glob.glob("crates/*/proofs/**/*.antt", recursive=True))
    rust = sorted(glob.glob("crates/*/src/**/*.rt", recursive=True))
    renamed = {}
    for path in antt:
        answers = path.endswith(("Answers.antt", "Invariants.antt", "Proof.antt"))
        for name, member in declared(path):
            new = name
            if answers and not member:
                continue
            if name[0].isupper():
                new = camel(name) if "-" in name else name
            elif re.search(r"[a-z][A-Z]", name):
                new = snake(name)
            elif "-" in name and (member or ("/specs/" in path and name not in LEMMAS)):
                new = snake(name)
            if new != name:
                renamed[name] = new
    words = {}
    for path in antt + rust:
        for line in open(path, encoding="utf-8"):
            for word in WORD.findall(line.split("--")[0] if path.endswith(".antt") else line):
                if word not in MOVED.get(path, {}):
                    words.setdefault(word, set()).add(path)
    clash = [(old, new, sorted(words[new])[:3]) for old, new in sorted(renamed.items()) if new in words and new not in APART]
    twice = [new for new in set(renamed.values()) if sum(n == new for n in renamed.values()) > 1]
    for old, new, where in clash:
        print(f"{old} -> {new} stands already: {' '.join(where)}")
    for new in twice:
        print(f"two names become {new}")
    if clash or twice:
        return 1
    for path in antt + rust:
        text = open(path, encoding="utf-8").read()
        moved = MOVED.get(path, {})
        new = WORD.sub(lambda m: moved.get(m.group(0)) or renamed.get(m.group(0), m.group(0)), text)
        if new != text:
            open(path, "w", encoding="utf-8").write(new)
    for old, new in sorted(renamed.items()):
        print(old, new)
    return 0


if __name__ == "__main__":
    sys.exit(main())
