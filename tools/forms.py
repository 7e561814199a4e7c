#!/usr/bin/env python3
"""Lists the places in src/ that an older form of the language may have left, by the points of docs/DESIGN-PASS.md.

    python3 tools/forms.py            how many for each point
    python3 tools/forms.py POINT      each place of a point: file, line, text

Tests are not counted. The lists are of candidates: docs/DESIGN-PASS.md says of each what became of it.
"""
import glob
import re
import sys
from collections import defaultdict

TITLES = {
    1: "own enums, kinds or refusals as numbers, a refusal in an Option",
    2: "functions of one name or one body",
    3: "loops over a range of indices, while, loop",
    4: "equality, order, conversion and printing by hand",
    5: "requires that three or more functions share",
    6: "arrays with counts beside them",
    7: "a match on which step to run, functions as values",
}

PATTERNS = {
    1: r"\benum \w+|^pub const [A-Z_]+: u32 = \d+;|-> Option<Refusal>|kind_number\(words|-> Option<usize>",
    3: r"\bfor \w+ in [^{]*\.\.|\bwhile \b|\bloop \{",
    4: r"\bas u32\b|\bas i32\b|\bfn (eq|cmp|level|number)\b|impl(<[^>]*>)? fmt::Display|\.number\(\)|\.level\(\)|\bRank::|\bSign::|-\w+ <= \w+ &&|< -\w+ \|\|",
    6: r"\[[iu]\d+; [A-Z]\w+\]|\blen: usize\b",
    7: r"\bdyn \b|\bfn\(|match order\b",
}


def files():
    return [f for f in sorted(glob.glob("crates/*/src/**/*.rt", recursive=True)) if not f.endswith("tests.rt")]


def by_pattern(pattern):
    for name in files():
        for number, line in enumerate(open(name), 1):
            code = line.split("//")[0].rstrip()
            if not code.startswith("ghost use") and re.search(pattern, code):
                yield f"{name}:{number}: {code.strip()}"


def functions():
    for name in files():
        text = open(name).read()
        for found in re.finditer(r"\bfn (\w+)[^{;]*?(?:\{|requires|ensures)", text):
            yield name, found.group(1), found.start(), text


def body(text, start):
    """The body of the function that begins at `start`: the last block before the next item, with spaces squeezed and names of types and constants left out."""
    depth, begin = 0, None
    for place in range(start, len(text)):
        letter = text[place]
        if letter == "\n" and text[place + 1:place + 2] == "{" or re.match(r"\n    \{\n", text[place:place + 7]):
            begin = place
        if begin is not None:
            depth += (letter == "{") - (letter == "}")
            if letter == "}" and depth == 0:
                return re.sub(r"\s+", " ", text[begin:place])
    return ""


def twins():
    bodies = defaultdict(list)
    for name, function, start, text in functions():
        code = re.sub(r"\b[a-z_]+\b", "x", body(text, start))
        if len(code) > 40:
            bodies[code].append(f"{name}: {function}")
    for places in bodies.values():
        if len(places) > 1:
            yield from places


def shared_requires():
    clauses = defaultdict(list)
    for name in files():
        function = None
        for line in open(name):
            found = re.search(r"\bfn (\w+)", line)
            function = found.group(1) if found else function
            found = re.match(r"\s*requires\s*\w*\s*\{(.*)\}\s*$", line)
            if found:
                clauses[found.group(1).strip()].append(f"{name.split('/')[1]}.{function}")
    for clause, places in sorted(clauses.items(), key=lambda item: -len(item[1])):
        if len(places) >= 3:
            for place in places:
                yield f"{clause}: {place}"


def places(point):
    if point == 2:
        return list(twins())
    if point == 5:
        return list(shared_requires())
    return list(by_pattern(PATTERNS[point]))


if len(sys.argv) > 1:
    print("\n".join(places(int(sys.argv[1]))))
else:
    for point, title in TITLES.items():
        print(f"{point}  {len(places(point)):4}  {title}")
