#!/usr/bin/env python3
"""Makes the cases of crates/judged_cases: many inputs, right and damaged, with the line that is due for each.

The lines come from this second reading of docs/words.md, in whole numbers; it shares no code with the library.
Run it from the repository's root: it writes crates/judged_cases/stdin and crates/judged_cases/stdout.
"""
import glob
import random
import struct

MOST_COMMANDS, MOST_LIMITS, MOST_READINGS, LARGEST, MOST_WORDS = 4, 16, 3, 10_000, 16_384
HEAD, GAIN, COEFFICIENT, CONSTANT, SLOPE, CLOSE, RANGE, READING = range(1, 9)


def word(kind, number):
    return kind << 28 | number & 0x0FFFFFFF


def kind(w):
    return w >> 28


def payload(w):
    low = w & 0x0FFFFFFF
    return low - (1 << 28) if low >= 1 << 27 else low


class Refused(Exception):
    """Carries number, layer and place."""


def kinds_due(m, n, d):
    return [HEAD] + [GAIN] * m + ([COEFFICIENT] * m + [CONSTANT] + [SLOPE] * d) * n + [CLOSE]


def load(ws):
    """The counts of the plant that the words describe."""
    if not ws:
        raise Refused(1, 1, 0)
    if kind(ws[0]) != HEAD:
        raise Refused(2, 1, 0)
    head = ws[0] & 0x0FFFFFFF
    n, m, d, spare = head & 255, head >> 8 & 255, head >> 16 & 255, head >> 24
    if spare or not (1 <= m <= MOST_COMMANDS and 1 <= n <= MOST_LIMITS and d <= MOST_READINGS):
        raise Refused(3, 1, 0)
    due = kinds_due(m, n, d)
    for k, w in enumerate(ws):
        if k == len(due):
            raise Refused(5, 1, k)
        if kind(w) != due[k]:
            raise Refused(2, 1, k)
        if due[k] == CLOSE and payload(w) != k:
            raise Refused(5, 1, k)
        if due[k] not in (HEAD, CLOSE) and abs(payload(w)) > LARGEST:
            raise Refused(4, 1, k)
    if len(ws) < len(due):
        raise Refused(1, 1, len(ws))
    return m, n, d


def range_over(m, n, lows, highs):
    for numbers in (lows, highs):
        for i, x in enumerate(numbers):
            if abs(x) > LARGEST:
                raise Refused(4, 1, i + 1)
    if n + 2 * m > MOST_LIMITS:
        raise Refused(6, 2, 0)
    for i in range(m):
        if lows[i] > highs[i]:
            raise Refused(6, 2, i + 1)


def judge(ws):
    closes = [k for k, w in enumerate(ws) if kind(w) == CLOSE]
    end = closes[0] + 1 if closes else len(ws)
    m, n, d = load(ws[:end])
    if end < len(ws) and kind(ws[end]) == RANGE:
        for k in range(end, end + 2 * m):
            if k >= len(ws):
                raise Refused(1, 1, len(ws))
            if kind(ws[k]) != RANGE:
                raise Refused(2, 1, k)
        numbers = [payload(w) for w in ws[end:end + 2 * m]]
        range_over(m, n, numbers[:m], numbers[m:])
        n += 2 * m
    return m, n, d


def line(data):
    count = min(len(data) // 4, MOST_WORDS)
    ws = struct.unpack("<%dI" % count, data[:4 * count])
    try:
        return "plant %d %d %d" % judge(list(ws))
    except Refused as refused:
        return "none %d %d %d" % refused.args


def plant_words(rng, m, n, d):
    number = lambda: rng.choice([rng.randint(-9, 9), rng.randint(-LARGEST, LARGEST), LARGEST, -LARGEST])
    ws = [word(HEAD, n + 256 * m + 65536 * d)]
    ws += [word(k, number()) for k in kinds_due(m, n, d)[1:-1]]
    return ws + [word(CLOSE, len(ws))]


def bytes_of(ws):
    return struct.pack("<%dI" % len(ws), *ws)


def places(ws):
    """First, last and some middle places."""
    return sorted({0, 1, 2, len(ws) // 3, len(ws) // 2, len(ws) - 2, len(ws) - 1} & set(range(len(ws))))


def cases(rng):
    for name in sorted(glob.glob("samples/*.words")):
        yield open(name, "rb").read()
    yield b""
    yield b"\x01\x02\x03"
    for m in range(1, MOST_COMMANDS + 1):
        for n in (1, 2, m, MOST_LIMITS):
            for d in range(MOST_READINGS + 1):
                yield bytes_of(plant_words(rng, m, n, d))
    # counts at and past their bounds, and spare bits
    for m in (0, 1, 4, 5, 255):
        for n in (0, 1, 16, 17, 255):
            for d in (0, 3, 4, 255):
                yield bytes_of([word(HEAD, n + 256 * m + 65536 * d)])
    for bit in range(24, 28):
        yield bytes_of([word(HEAD, 5 + 256 * 2 + 65536 | 1 << bit)])
    for m, n, d in ((1, 1, 0), (2, 5, 1), (3, 4, 2), (4, 16, 3)):
        right = plant_words(rng, m, n, d)
        for k in places(right):
            yield bytes_of(right[:k])
            for other in {0, 15, HEAD, GAIN, COEFFICIENT, CONSTANT, SLOPE, CLOSE, RANGE, READING} - {kind(right[k])}:
                yield bytes_of(right[:k] + [word(other, payload(right[k]))] + right[k + 1:])
            for z in (LARGEST, LARGEST + 1, -LARGEST, -LARGEST - 1, (1 << 27) - 1, -(1 << 27)):
                yield bytes_of(right[:k] + [word(kind(right[k]), z)] + right[k + 1:])
            # a wrong kind and a wrong value on one word: the kind is judged first
            yield bytes_of(right[:k] + [word(READING, LARGEST + 1)] + right[k + 1:])
            # two faults: the first is told
            yield bytes_of(right[:k] + [word(RANGE, 0)] + right[k + 1:-1])
        for z in (len(right) - 2, len(right), 0, -1):
            yield bytes_of(right[:-1] + [word(CLOSE, z)])
        yield bytes_of(right) + b"\x01\x02"
        yield bytes_of(right + [word(READING, 0)] * d)
        # ranges: right, short, of another kind, out of bounds, crossed
        ranges = [word(RANGE, -i) for i in range(m)] + [word(RANGE, i) for i in range(m)]
        for k in range(2 * m + 1):
            yield bytes_of(right + ranges[:k])
        for k in range(2 * m):
            yield bytes_of(right + ranges[:k] + [word(READING, 0)] + ranges[k + 1:])
            for z in (LARGEST, LARGEST + 1, -LARGEST, -LARGEST - 1, 5, -5):
                yield bytes_of(right + ranges[:k] + [word(RANGE, z)] + ranges[k + 1:])
        yield bytes_of(right + ranges + [word(READING, 1)])
    # room for ranges: exactly 16 limits, and one more
    for m in range(1, MOST_COMMANDS + 1):
        for n in (MOST_LIMITS - 2 * m, MOST_LIMITS - 2 * m + 1):
            yield bytes_of(plant_words(rng, m, n, 1) + [word(RANGE, 0)] * (2 * m))
    # words of any content
    for _ in range(60):
        yield rng.randbytes(rng.randint(0, 60))
    for _ in range(60):
        ws = plant_words(rng, rng.randint(1, 4), rng.randint(1, 6), rng.randint(0, 3))
        for _ in range(rng.randint(1, 3)):
            ws[rng.randrange(len(ws))] = rng.getrandbits(32)
        yield bytes_of(ws)


def main():
    rng = random.Random(20261117)
    with open("crates/judged_cases/stdin", "wb") as inputs, open("crates/judged_cases/stdout", "w") as lines:
        for data in cases(rng):
            inputs.write(struct.pack("<I", len(data)) + data)
            lines.write(line(data) + "\n")


if __name__ == "__main__":
    main()
