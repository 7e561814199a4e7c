#!/usr/bin/env python3
"""Prints the lines that the program owes for a file of words, computed a second time from the definitions.

Every basis gets its own inverse, by elimination in exact fractions; no tableau is made from another. docs/method.md has the
definitions, docs/words.md the words and docs/refusals.md the refusals.

    tools/map_lines.py FILE.words
"""
import struct
import sys
from fractions import Fraction
from math import gcd

MOST_WORDS = 16_384
RECORDS = 128
LARGEST_VALUE = 10_000
LARGEST_READING = 30_000
LARGEST_NUMBER = 2**27 - 1
MOST_COMMANDS, MOST_LIMITS, MOST_READINGS = 4, 16, 3
HEAD, GAIN, COEFFICIENT, CONSTANT, SLOPE, CLOSE, RANGE, READING = 1, 2, 3, 4, 5, 6, 7, 8


class Refused(Exception):
    """A refusal: its number, its layer and its place."""

    def line(self):
        return "none %d %d %d" % self.args


def kind(word):
    return word >> 28


def payload(word):
    low = word & (2**28 - 1)
    return low - 2**28 if low >= 2**27 else low


class Plant:
    def __init__(self, gains, columns, rates):
        self.gains, self.columns, self.rates = gains, columns, rates
        self.m, self.n, self.d = len(gains), len(columns), len(rates[0]) - 1

    def all_columns(self):
        """The columns of the limits, and behind them those of the artificial limits."""
        units = [[(-1 if g < 0 else 1) if c == i else 0 for c in range(self.m)] for i, g in enumerate(self.gains)]
        return self.columns + units

    def all_rates(self):
        return self.rates + [[0] * (self.d + 1)] * self.m


def load(words):
    """The plant that the words describe."""
    due = [HEAD]
    numbers = []
    for place, word in enumerate(words):
        if place >= len(due):
            raise Refused(5, 1, place)
        if kind(word) != due[place]:
            raise Refused(2, 1, place)
        value = payload(word)
        if place == 0:
            bits = word & (2**28 - 1)
            n, m, d = bits & 255, bits >> 8 & 255, bits >> 16 & 255
            if bits >> 24 or not (1 <= m <= MOST_COMMANDS and 1 <= n <= MOST_LIMITS and d <= MOST_READINGS):
                raise Refused(3, 1, 0)
            due += [GAIN] * m + ([COEFFICIENT] * m + [CONSTANT] + [SLOPE] * d) * n + [CLOSE]
        elif due[place] == CLOSE:
            if value != place:
                raise Refused(5, 1, place)
        elif abs(value) > LARGEST_VALUE:
            raise Refused(4, 1, place)
        numbers.append(value)
    if len(words) < len(due) or not words:
        raise Refused(1, 1, len(words))
    limits = [numbers[1 + m + j * (m + 1 + d):1 + m + (j + 1) * (m + 1 + d)] for j in range(n)]
    return Plant(numbers[1:1 + m], [x[:m] for x in limits], [x[m:] for x in limits])


def with_range(plant, lows, highs):
    for numbers in lows, highs:
        for i, number in enumerate(numbers):
            if abs(number) > LARGEST_VALUE:
                raise Refused(4, 1, i + 1)
    if plant.n + 2 * plant.m > MOST_LIMITS:
        raise Refused(6, 2, 0)
    for i in range(plant.m):
        if lows[i] > highs[i]:
            raise Refused(6, 2, i + 1)
    units = [[int(c == i) for c in range(plant.m)] for i in range(plant.m)]
    columns = plant.columns + units + [[-x for x in u] for u in units]
    flat = [0] * plant.d
    rates = plant.rates + [[h] + flat for h in highs] + [[-l] + flat for l in lows]
    return Plant(plant.gains, columns, rates)


def inverse(columns):
    """The inverse of the matrix whose columns these are, by rows, in fractions; None for a singular matrix."""
    m = len(columns)
    rows = [[Fraction(columns[c][r]) for c in range(m)] + [Fraction(int(c == r)) for c in range(m)] for r in range(m)]
    for c in range(m):
        pivot = next((r for r in range(c, m) if rows[r][c] != 0), None)
        if pivot is None:
            return None
        rows[c], rows[pivot] = rows[pivot], rows[c]
        rows[c] = [x / rows[c][c] for x in rows[c]]
        for r in range(m):
            if r != c:
                rows[r] = [x - rows[r][c] * y for x, y in zip(rows[r], rows[c])]
    return [row[m:] for row in rows]


def dot(x, y):
    return sum(a * b for a, b in zip(x, y))


class Basis:
    """A basis, by its limits in ascending order, with all numbers of its tableau."""

    def __init__(self, plant, limits, columns, rates):
        self.plant, self.limits, self.columns, self.rates = plant, sorted(limits), columns, rates
        solved = inverse([columns[j] for j in self.limits])
        assert solved is not None
        self.D = 1
        for row in solved:
            for x in row:
                self.D = self.D * x.denominator // gcd(self.D, x.denominator)
        self.U = [[int(x * self.D) for x in row] for row in solved]
        self.values = [[dot(plant.gains, row)] + row for row in self.U]
        assert all(next(x for x in list_ if x != 0) > 0 for list_ in self.values)
        self.L = [[sum(rates[j][k] * row[i] for j, row in zip(self.limits, self.U)) for i in range(plant.m)] for k in range(plant.d + 1)]

    def T(self, r, j):
        return dot(self.columns[j], self.U[r])

    def S(self, k, j):
        return self.D * self.rates[j][k] - dot(self.columns[j], self.L[k])

    def in_width(self):
        p = self.plant
        numbers = [self.D] + [x for values in self.values for x in values] + [self.T(r, j) for r in range(p.m) for j in range(p.n)]
        numbers += [dot(p.gains, law) for law in self.L] + [x for law in self.L for x in law]
        numbers += [self.S(k, j) for k in range(p.d + 1) for j in range(p.n)]
        return all(abs(x) <= LARGEST_NUMBER for x in numbers)

    def leaving(self, j):
        """The row with T > 0 and the lexicographically least value list over T, or None."""
        rows = [r for r in range(self.plant.m) if self.T(r, j) > 0]
        return min(rows, key=lambda r: [Fraction(x, self.T(r, j)) for x in self.values[r]], default=None)

    def across(self, r, j):
        return Basis(self.plant, [x for s, x in enumerate(self.limits) if s != r] + [j], self.columns, self.rates)

    def slack(self, reading, j):
        return dot([1] + reading, [self.S(k, j) for k in range(self.plant.d + 1)])

    def willing(self, reading, j):
        slack = self.slack(reading, j)
        if slack != 0:
            return slack < 0
        return next((self.T(r, j) > 0 for r, i in enumerate(self.limits) if i < j and self.T(r, j) != 0), False)

    def mask(self):
        return sum(2**j for j in self.limits)

    def command(self, reading):
        """Numerators and denominator in lowest terms, and the gain over the denominator."""
        p = [dot([1] + reading, [law[i] for law in self.L]) for i in range(self.plant.m)]
        common = gcd(self.D, *p)
        p = [x // common for x in p]
        return p + [self.D // common, dot(self.plant.gains, p)]


def start(plant):
    """The first corner and the exchanges of its search."""
    basis = Basis(plant, range(plant.n, plant.n + plant.m), plant.all_columns(), plant.all_rates())
    exchanges = 0
    while True:
        artificial = [row for j, row in zip(basis.limits, basis.U) if j >= plant.n]
        direction = [sum(column) for column in zip(*artificial)] or [0] * plant.m
        enters = next((j for j in range(plant.n) if dot(plant.columns[j], direction) > 0), None)
        if enters is None:
            break
        basis = basis.across(basis.leaving(enters), enters)
        exchanges += 1
        if not basis.in_width():
            raise Refused(12, 3, enters + 1)
    if artificial:
        raise Refused(13, 3, 0)
    return Basis(plant, basis.limits, plant.columns, plant.rates), exchanges


def grow(plant, first):
    """The corners and pairs of the grown map."""
    corners, pairs = [first], 0
    masks = {first.mask()}
    for corner in corners:
        for j in range(plant.n):
            if j in corner.limits:
                continue
            row = corner.leaving(j)
            if row is not None:
                new = corner.across(row, j)
                if new.mask() not in masks:
                    if len(corners) == RECORDS:
                        raise Refused(11, 4, j + 1)
                    if not new.in_width():
                        raise Refused(12, 3, j + 1)
                    corners.append(new)
                    masks.add(new.mask())
            pairs += 1
    return len(corners), pairs


def solve(plant, first, reading):
    for k, number in enumerate(reading):
        if abs(number) > LARGEST_READING:
            raise Refused(9, 4, k + 1)
    basis, exchanges = first, 0
    while True:
        enters = next((j for j in range(plant.n) if basis.willing(reading, j)), None)
        if enters is None:
            return basis.command(reading) + [basis.mask(), exchanges]
        row = basis.leaving(enters)
        if row is None:
            raise Refused(14, 3, enters + 1)
        basis = basis.across(row, enters)
        if not basis.in_width():
            raise Refused(12, 3, enters + 1)
        exchanges += 1


def ranged_plant(words):
    """The plant with its range, and the place of the first word behind them."""
    end = next((k + 1 for k, word in enumerate(words) if kind(word) == CLOSE), len(words))
    plant = load(words[:end])
    if end < len(words) and kind(words[end]) == RANGE:
        behind = end + 2 * plant.m
        for place in range(end, behind):
            if place >= len(words):
                raise Refused(1, 1, place)
            if kind(words[place]) != RANGE:
                raise Refused(2, 1, place)
        numbers = [payload(word) for word in words[end:behind]]
        plant, end = with_range(plant, numbers[:plant.m], numbers[plant.m:]), behind
    return plant, end


def groups(words, place, d):
    """Each reading, with a refusal as the last where the words are wrong."""
    if d == 0:
        yield []
        if place < len(words):
            yield Refused(2, 1, place)
        return
    while place < len(words):
        group = words[place:place + d]
        for k, word in enumerate(group):
            if kind(word) != READING:
                yield Refused(2, 1, place + k)
                return
        if len(group) < d:
            yield Refused(9, 4, 0)
            return
        yield [payload(word) for word in group]
        place += d


def lines(words):
    try:
        plant, place = ranged_plant(words)
        first, exchanges = start(plant)
    except Refused as refusal:
        yield refusal.line()
        return
    yield "first %d %d" % (first.mask(), exchanges)
    try:
        yield "map %d %d" % grow(plant, first)
    except Refused as refusal:
        yield refusal.line()
    for group in groups(words, place, plant.d):
        try:
            if isinstance(group, Refused):
                raise group
            yield "best " + " ".join(str(x) for x in solve(plant, first, group))
        except Refused as refusal:
            yield refusal.line()


def main():
    data = open(sys.argv[1], "rb").read()
    count = min(len(data) // 4, MOST_WORDS)
    for line in lines(struct.unpack("<%dI" % count, data[:4 * count])):
        print(line)


if __name__ == "__main__":
    main()
