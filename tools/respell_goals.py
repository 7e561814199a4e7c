#!/usr/bin/env python3
"""Respells the names of goals and of their facts in proofs/*/Answers.antt and Invariants.antt as today's Rattle makes them.

usage: python3 tools/respell_goals.py [PATH..]     at the top of the repository, once; default: all of crates/

A word of Rattle's own is in snake case (overflow_mul, in_default, in_ok), and a name from the source keeps its underscores (part_at, _taken).
"""
import os
import re
import sys

TOKEN = re.compile(r"[^\s(){}\[\],;:\"`|.⌜⌝∥]+")
SOURCE = re.compile(r"\b[A-Za-z0-9]*_[A-Za-z0-9_]*\b")
STD = "unsigned_abs is_some is_none as_slice as_str unwrap_or from_residual checked_add to_le_bytes from_le_bytes with_capacity copy_from_slice trailing_zeros leading_zeros split_at split_at_mut get_mut as_mut".split()


def files():
    for root, dirs, names in os.walk("crates"):
        dirs[:] = sorted(d for d in dirs if d != "out")
        for n in sorted(names):
            yield os.path.join(root, n)


def source_names():
    found = set(STD)
    for path in files():
        if path.endswith(".rt"):
            with open(path, encoding="utf-8") as f:
                for line in f:
                    if not line.lstrip().startswith(("//", "ghost", "requires", "ensures")):
                        found |= set(SOURCE.findall(line))
    return sorted((n for n in found if n.strip("_") and len(n) > 2), key=len, reverse=True)


def main(paths):
    names = source_names()
    turns = [(re.compile(r"(?<![A-Za-z0-9_])" + re.escape(n.replace("_", "-")).replace("\\-", "-") + r"(?![A-Za-z0-9_])"), n) for n in names if "-" in n.replace("_", "-").strip("-") or n.startswith("_")]
    own = [
        (re.compile(r"\boverflow-(add|sub|mul|cast|step|shl|shr|neg|div|rem)\b"), r"overflow_\1"),
        (re.compile(r"\b(nonzero|bounds|slice-bounds)-(div|rem)\b"), r"\1_\2"),
        (re.compile(r"\bslice-bounds\b"), "slice_bounds"),
        (re.compile(r"\boffset-bounds\b"), "offset_bounds"),
        (re.compile(r"\b([Ii])n-default\b"), r"\1n_default"),
        (re.compile(r"\b([Ii])n-(ok|err)(?=-|$)"), r"\1n_\2"),
        (re.compile(r"\binvariant-of-"), "invariant_of-"),
        (re.compile(r"\btype-inv\b"), "type_inv"),
        (re.compile(r"\bwell-formed\b"), "well_formed"),
        (re.compile(r"\bstruct-known\b"), "struct_known"),
    ]

    def put(m):
        t = m.group(0)
        if "-" not in t:
            return t
        for pattern, new in turns:
            t = pattern.sub(new, t)
        for pattern, new in own:
            t = pattern.sub(new, t)
        return t

    for path in files():
        if not path.endswith(("Answers.antt", "Invariants.antt", "Proof.antt")) or "/proofs/" not in path:
            continue
        if paths and not any(path.startswith(p) for p in paths):
            continue
        with open(path, encoding="utf-8") as f:
            text = f.read()
        turned = "\n".join(l if re.match(r"use (Rattle\.(std|core)|lib|native|mathlib|Prim|borrow)\b", l) else TOKEN.sub(put, l) for l in text.split("\n"))
        if turned != text:
            with open(path, "w", encoding="utf-8") as f:
                f.write(turned)


if __name__ == "__main__":
    main(sys.argv[1:])
