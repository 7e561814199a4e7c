#!/usr/bin/env python3
"""Respells the definitions and lemmas of this repository: facts and types in upper camel case, all other names in snake case.

usage: python3 tools/respell_names.py [--dry]      at the top of the repository, once, after port.py

It collects the names that specs/ and proofs/ declare, and writes the new names into the .antt files, the clauses of the .rt files and the texts of the
must-fail edits. Names that Rattle makes (answers, invariants, the fields of a goal's record) are not declared by this repository and stay as they are.
"""
import collections
import os
import re
import sys

TOKEN = re.compile(r"[^\s(){}\[\].,;:\"`|⌜⌝∥]+")
DECLARED = re.compile(r"^(\s*)((?:pub |abbrev |unfoldable |record |data |axiom )*)([^\s(){}\[\]:]+)\s+(?:[({].*)?:(?:\s|$)")
LONG = re.compile(r"^(\s*)((?:pub |abbrev |unfoldable |record |data )+)([^\s(){}\[\]:]+)\s+[({]")
BOUND = re.compile(r"\blet ([^\s(){}\[\]:]+) [:=]")
ALIAS = re.compile(r" as ([^\s(){}\[\]:;,]+)")

# Names that would fall together with another one.
CHOSEN = {
    "In-width": "TableauInWidth",
    "Laid_out": "LaidOut",
    "Span-of": "span_of",
    "Counts-of": "counts_of",
    "width_of_lem": "width_of",
    "First-below": "IsFirstBelow",
    "Lowest-terms": "IsInLowestTerms",
    "No-command": "HasNoCommand",
    "No-row": "HasNoRow",
    "Not-begun": "IsNotBegun",
    "One-verdict": "HasOneVerdict",
    "Same-limits": "HasSameLimits",
    "artificial-left": "some_artificial_left",
    "artificial-number": "number_if_artificial",
    "back-T": "back_T",
    "corner-words": "words_of_corner",
    "mask-across": "mask_of_across",
    "payload-bits": "bits_of_payload",
    "reading-number": "number_of_reading",
}


def files(*endings):
    for root, dirs, names in os.walk("crates"):
        dirs[:] = sorted(d for d in dirs if d != "out")
        for n in sorted(names):
            if n.endswith(endings):
                yield os.path.join(root, n)


def is_goal_file(path):
    return "/proofs/" in path and os.path.basename(path) in ("Answers.antt", "Invariants.antt", "Choices.antt", "Proof.antt")


def spelled(name):
    if name in CHOSEN:
        return CHOSEN[name]
    if name[0].isupper():
        return "".join(p[:1].upper() + p[1:] for p in name.split("-"))
    return re.sub(r"(?<=[a-z])(?=[A-Z][a-z])", "_", name).replace("-", "_").lower() if re.fullmatch(r"[A-Za-z0-9_'\-]+", name) else name.replace("-", "_")


def declared():
    names, fields = collections.defaultdict(set), set()
    for path in files(".antt", ".rt"):
        with open(path, encoding="utf-8") as f:
            lines = f.read().split("\n")
        if path.endswith(".rt"):
            for line in lines:
                for b in ALIAS.findall(line) if line.lstrip().startswith("ghost use") else []:
                    names[b].add(path)
            continue
        record = None
        for line in lines:
            m = DECLARED.match(line) or LONG.match(line)
            if m:
                indent, words, name = m.groups()
                if "record" in words.split() or "data" in words.split():
                    record = len(indent)
                elif record is not None and len(indent) <= record:
                    record = None
                if is_goal_file(path) and "pub" in words.split():
                    continue
                names[name].add(path)
                if record is not None and len(indent) > record:
                    fields.add(name)
            for b in ALIAS.findall(line) if line.startswith(("use ", "pub use ")) else BOUND.findall(line):
                names[b].add(path)
    return names, fields


def plan(names):
    new = {}
    for n in names:
        if not n or ("-" not in n[1:] and n not in CHOSEN and not re.fullmatch(r"[a-z0-9_']+[a-z][A-Z][a-z].*", n)):
            continue
        if not re.match(r"[A-Za-zα-ωΑ-Ω_]", n) or any(not p[:1].isalnum() for p in n.split("-")):
            continue  # an operator, or a name that a dash joins to one
        s = spelled(n)
        if s != n:
            new[n] = s
    return new


def main(argv):
    names, fields = declared()
    new = plan(names)
    every = collections.defaultdict(set)
    for path in files(".antt", ".rt"):
        with open(path, encoding="utf-8") as f:
            for t in TOKEN.findall(f.read()):
                every[t].add(path)
    back = collections.defaultdict(list)
    for n, s in new.items():
        back[s].append(n)
    for s, ns in sorted(back.items()):
        if len(ns) > 1 or s in every:
            print(f"falls together: {ns} -> {s}", sorted(every.get(s, []))[:4])
    if argv == ["--dry"]:
        for n, s in sorted(new.items()):
            print(n, s)
        return
    for path in files(".antt", ".rt", ".edit"):
        with open(path, encoding="utf-8") as f:
            text = f.read()
        goal = is_goal_file(path)

        def put(m):
            t, before = m.group(0), text[max(0, m.start() - 5) : m.start()]
            if before == "NatL." or goal and before.endswith(".") and t not in fields:
                return t
            return new.get(t, t)

        turned = TOKEN.sub(put, text)
        if turned != text:
            with open(path, "w", encoding="utf-8") as f:
                f.write(turned)


if __name__ == "__main__":
    main(sys.argv[1:])
