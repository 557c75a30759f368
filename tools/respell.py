#!/usr/bin/env python3
"""Brings the repository's own definitions and lemmas to one spelling.

usage: python3 tools/respell.py [--list] [ROOT]

A word that specs/ or proofs/ declare and that is written with dashes or with humps is written with
underscores, as `few_states` for `few-states` and `set_of` for `setOf`; a type or a module with humps
alone, as `ReadsBack`. What the toolchain names (goals, invariants, measures, the steps of a proof)
keeps its spelling, and so does a name in a file that imports it from a library. The names of src/,
strings, inputs and outputs keep theirs too. --list writes the table and changes nothing.
It was run once, straight after the toolchain's own script.
"""

import collections
import os
import re
import sys

DECLARED = re.compile(
    r"(?m)^( *)((?:abbrev |pub |unfoldable |data |record )*)([^\s(){}.;,@\"«»:]+)"
    r"((?: +[({][^\n]*?)?) :(?: +(goal\.\S+)|(?= |$))"
)
WORD = r"[^\s(){}.;,@\"«»\[\]`]+"
IMPORT = re.compile(r"\buse ([^\s;{]+)\.\{([^}]*)\}")
# files of one function's answers: what stands there at a goal's type is the toolchain's name
ANSWERS = re.compile(r"/(Answers|Invariants)\.antt$")
# the first name behind one of these is the toolchain's
HEADS = ("goal", "c", "w", "l", "g", "branch")


# where the plain spelling is taken, by a function of src/ or by another word
CHOSEN = {
    "comesAfter": "came_after",
    "copyOf": "row_copy",
    "dualOf": "row_dual",
    "fileLen": "file_len_of",
    "hasOne": "has_such",
    "inPlace": "stands_in_place",
    "lastRow": "last_row_of",
    "layerName": "layer_name_of",
    "leastMove": "least_move_of",
    "next-number": "next_number_is",
    "nextThree": "next_three_of",
    "pairHeading": "pair_heading_of",
    "pairLine": "pair_line_of",
    "pairTables": "pair_tables_of",
    "payloadLen": "payload_len_of",
    "refusedLine": "refused_line_of",
    "rowBytes": "row_bytes_of",
    "rowCount": "row_count_of",
    "rowValue": "row_value_of",
    "stateCount": "state_count_of",
}
GLOSS = re.compile(r"^-- (\S.*?) {2,}(\S.*)$")
GOES_ON = re.compile(r"^-- {5,}(\S.*)$")


def files(root, endings):
    for folder, dirs, names in os.walk(os.path.join(root, "crates")):
        dirs[:] = sorted(d for d in dirs if d not in ("out", "data"))
        for name in sorted(names):
            if name.endswith(endings):
                yield os.path.join(folder, name)


def spelled(name):
    if name in CHOSEN:
        return CHOSEN[name]
    if name[0].isupper():
        return "".join(w[:1].upper() + w[1:] for w in name.split("-"))
    words = re.sub(r"(?<=[a-z0-9])[A-Z]", lambda m: "_" + m[0].lower(), name)
    return words.replace("-", "_").replace("′", "'")


def needs(name):
    return name != spelled(name) and re.match(r"[A-Za-z]", name)


def declared(root):
    found = collections.defaultdict(set)
    for path in files(root, ".antt"):
        with open(path, encoding="utf-8") as f:
            text = f.read()
        for m in DECLARED.finditer(text):
            if m[5] and ANSWERS.search(path):
                continue
            if m[3].startswith(("invariant-", "decreases-")) and ANSWERS.search(path):
                continue
            found[m[3]].add(os.path.relpath(path, root))
    return found


def outside(text):
    """The names that a file imports from a library."""
    names = set()
    for m in IMPORT.finditer(text):
        steps = m[1].split(".")
        own = steps[0] == "Rattle" and len(steps) > 2 and steps[1] in OWN
        if not own:
            names.update(n.strip().split(" as ")[0] for n in m[2].split(","))
    return names


def turn(text, table, inside):
    stay = outside(text)

    def one(m):
        word = m[0]
        if word not in table or word in stay:
            return word
        head = re.search(r"(?<![^\s(){};,])(\w+)\.$", text[max(0, m.start() - 40) : m.start()])
        if head and head[1] in HEADS and inside:
            return word
        return table[word]

    return re.sub(WORD, one, text)


def aligned(text):
    """The glossary at the head of a file of specs/, its meanings one below the other."""
    lines = text.split("\n")
    end = next((i for i, x in enumerate(lines) if not x.startswith("--")), len(lines))
    rows = [GLOSS.match(x) for x in lines[:end]]
    width = max((len(m[1]) for m in rows if m), default=0)
    for i, m in enumerate(rows):
        on = GOES_ON.match(lines[i])
        if m:
            lines[i] = f"-- {m[1]:<{width}}   {m[2]}"
        elif on:
            lines[i] = "-- " + " " * (width + 3) + on[1]
    return "\n".join(lines)


def main():
    listing = "--list" in sys.argv
    roots = [a for a in sys.argv[1:] if not a.startswith("--")]
    root = roots[0] if roots else os.path.join(os.path.dirname(os.path.abspath(__file__)), "..")
    global OWN
    OWN = set(os.listdir(os.path.join(root, "crates")))
    found = declared(root)
    table = {n: spelled(n) for n in sorted(found) if needs(n)}
    # two names that would fall together
    meet = collections.Counter(list(table.values()))
    for name in sorted(table):
        if meet[table[name]] > 1 or table[name] in found:
            print("fall together:", name, table[name], sorted(found[name])[:2], sorted(found.get(table[name], ()))[:2])
    if listing:
        for name in sorted(table):
            print(f"{name}\t{table[name]}")
        return
    for path in files(root, (".antt", ".rt", ".edit")):
        with open(path, encoding="utf-8") as f:
            text = f.read()
        new = turn(text, table, bool(ANSWERS.search(path)))
        if "/specs/" in path and path.endswith(".antt"):
            new = aligned(new)
        if new != text:
            with open(path, "w", encoding="utf-8") as f:
                f.write(new)


main()
