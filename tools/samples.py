#!/usr/bin/env python3
"""Packs the listings samples/*.txt into samples/*.words, lowest byte first.

A line of a listing is a place, a word as eight hexadecimal digits and what the word says; other lines are comments.
Run it from the repository's root.
"""
import glob
import re
import struct

for name in sorted(glob.glob("samples/*.txt")):
    words = []
    for text in open(name):
        found = re.match(r"\s*(\d+)\s+([0-9A-F]{8})\b", text)
        if found:
            if int(found[1]) != len(words):
                raise SystemExit(f"{name}: place {found[1]} stands where {len(words)} is due")
            words.append(int(found[2], 16))
    with open(name[:-4] + ".words", "wb") as out:
        out.write(struct.pack("<%dI" % len(words), *words))
