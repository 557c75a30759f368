#!/usr/bin/env python3
"""Lists places in crates/*/src that a form of today's Rattle may serve better, point by point.

  python3 tools/places.py        a line with the counts of each point
  python3 tools/places.py -l     and each place, as file:line

A place behind a comment line that begins with `// Stays: ` is counted as kept, too. What is found is a place to look
at: whether it is one in truth is for a reader to say.
"""
import collections
import glob
import itertools
import re
import sys

FILES = sorted(glob.glob("crates/*/src/**/*.rt", recursive=True))
TEXT = {f: open(f).read() for f in FILES}
LINES = {f: t.split("\n") for f, t in TEXT.items()}


def crate(f):
    return f.split("/")[1]


def grep(pattern):
    return [(f, n) for f in FILES for n, line in enumerate(LINES[f], 1)
            if re.search(pattern, line) and not line.lstrip().startswith(("//", "ghost"))]


def grep_text(pattern):
    return [(f, TEXT[f].count("\n", 0, m.start()) + 1) for f in FILES for m in re.finditer(pattern, TEXT[f])]


def functions():
    """Every function: file, line, name, parameters, body."""
    out = []
    for f in FILES:
        lines = LINES[f]
        for n, line in enumerate(lines):
            m = re.match(r"(\s*)(pub(\(crate\))? )?(extern \"C\" )?fn (\w+)", line)
            if not m:
                continue
            indent, name = m.group(1), m.group(5)
            end = n
            while end < len(lines) and lines[end] != indent + "}" and not lines[end].endswith(";"):
                end += 1
            head = n
            while head < end and not lines[head].rstrip().endswith("{"):
                head += 1
            text = "\n".join(lines[n:head + 1])
            start = text.index("(") + 1
            depth, at = 1, start
            while depth and at < len(text):
                depth += {"(": 1, ")": -1}.get(text[at], 0)
                at += 1
            params = [p.split(":")[0].replace("mut ", "").strip()
                      for p in re.split(r",\s*(?![^<(\[]*[>)\]])", text[start:at - 1]) if ":" in p]
            body = lines[head + 1:end]
            out.append((f, n + 1, name, params, body))
    return out


FUNCTIONS = functions()


def shape(body):
    """The body with its names and numbers numbered by their first use."""
    seen = {}
    text = re.sub(r"//.*", "", "\n".join(body))
    return re.sub(r"\b[A-Za-z_]\w*\b|\b\d[\d_]*\b", lambda m: str(seen.setdefault(m.group(0), len(seen))), text)


def twins():
    groups = collections.defaultdict(list)
    for f, n, name, params, body in FUNCTIONS:
        if len(body) >= 2:
            groups[shape(body)].append((f, n))
    return [g for group in groups.values() if len(group) > 1 for g in group]


def facts():
    groups = collections.defaultdict(list)
    for f in FILES:
        for n, line in enumerate(LINES[f], 1):
            m = re.match(r"\s*requires (?:\w+ )?(\{.*\})$", line)
            if m:
                groups[crate(f), m.group(1)].append((f, n))
    return [g[0] for g in groups.values() if len(g) >= 3]


def parties():
    out = []
    for name in sorted({crate(f) for f in FILES}):
        fs = [(f, n, set(p)) for f, n, _, p, _ in FUNCTIONS if crate(f) == name]
        alone = collections.Counter(p for _, _, ps in fs for p in ps)
        both = collections.Counter(pair for _, _, ps in fs for pair in itertools.combinations(sorted(ps), 2))
        for (a, b), count in both.items():
            if count >= 4 and count >= 0.75 * min(alone[a], alone[b]) and "rt" not in (a, b):
                f, n, _ = next(x for x in fs if a in x[2] and b in x[2])
                out.append((f, n, f"{a} and {b}, {count} functions"))
    return out


POINTS = {
    "1 numbers for kinds": grep(r"\brow::(FALSE|TRUE|STATE|SIGNAL|AND|OR|NOT)\b|^pub const (FALSE|TRUE|STATE|SIGNAL|AND|OR|NOT): u8"),
    "1 own Option or Result": grep(r"^\s+(Unmade|Passed|Absent|Nothing|Done|Failed\(.*\)|Refused\(.*\)),$"),
    "1 numbers for outcomes": grep(r'extern "C" fn'),
    "2 twins": twins(),
    "3 loops over an index": grep(r"^\s*('\w+: )?(for \w+ in .*\.\.|while .*[<>])"),
    "3 searches by a loop": grep_text(r"for \(\w+, \w+\) in [^\n]*enumerate\(\) \{\n[^\n]*if [^\n]*\{\n\s*return Some"),
    "4 conversions by hand": grep(r"(256|65_536|4_294_967_296) \* "),
    "4 empty rows by hand": grep_text(r"operation: (row::FALSE|Operation::False as u8),\n\s*left: 0,\n\s*right: 0"),
    "4 text by hand": grep_text(r"(?<!fn )(format!\(in|write!\(text)"),
    "5 facts in three contracts": facts(),
    "5 parameters together": parties(),
    "6 fixed buffers": grep(r"let mut \w+ = \[.*; [A-Z_]+\];|^\s*\}; [A-Z_]+\];"),
    "6 counts beside rows": grep(r"^\s+(pub |pub\(crate\) )?(len|used|size): usize,"),
    "7 switches on a step": grep(r"match call\b|\bdyn \b|: fn\("),
}


def stays(place):
    f, n = place[0], place[1]
    return any("// Stays: " in line for line in LINES[f][max(0, n - 9):n + 1])


def main():
    for name, places in POINTS.items():
        kept = [p for p in places if stays(p)]
        print(f"{name}: {len(places)} found, {len(kept)} of them beside a reason")
        if "-l" in sys.argv:
            for p in places:
                print("   ", f"{p[0]}:{p[1]}", *p[2:], "(stays)" if p in kept else "")


main()
