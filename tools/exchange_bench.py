#!/usr/bin/env python3
"""Makes the two tableaus of crates/exchange_bench, for its code, its proof and bench/exchange.c, and the line due for each.

Each is the tableau of a corner of a plant of 4 commands, 16 limits and 3 readings, and an exchange from it. One exchange divides by 1,
the other by a greater number. All numbers are computed from the definitions, by inverting matrices of fractions; no tableau is made
from another. Run it from the repository's root. With the argument `count` it only counts how often the divisor is 1 in nine random plants.
"""
import itertools
import math
import random
import sys
from fractions import Fraction

COMMANDS, LIMITS, READINGS, WIDTH = 4, 16, 3, 134_217_727
ROW, FIRST_ROW = 1 + COMMANDS + LIMITS, 1 + COMMANDS
COUNT = 1000


def dot(x, y):
    return sum(a * b for a, b in zip(x, y))


def inverse(matrix):
    size = len(matrix)
    rows = [[Fraction(x) for x in row] + [Fraction(i == j) for j in range(size)] for i, row in enumerate(matrix)]
    for c in range(size):
        pivot = next((r for r in range(c, size) if rows[r][c]), None)
        if pivot is None:
            return None
        rows[c], rows[pivot] = rows[pivot], rows[c]
        rows[c] = [x / rows[c][c] for x in rows[c]]
        for r in range(size):
            if r != c:
                rows[r] = [x - rows[r][c] * y for x, y in zip(rows[r], rows[c])]
    return [row[size:] for row in rows]


class Plant:
    def __init__(self, seed, largest):
        pick = random.Random(seed).randint
        self.gains = [pick(1, 9) for _ in range(COMMANDS)]
        self.columns = [[pick(-largest, largest) for _ in range(COMMANDS)] for _ in range(LIMITS)]
        self.rates = [[pick(0, 100)] + [pick(-5, 5) for _ in range(READINGS)] for _ in range(LIMITS)]

    def words(self, basis):
        """The words of the tableau of a basis; None if it has none, or it is out of width."""
        whole = inverse([[self.columns[j][i] for j in basis] for i in range(COMMANDS)])
        if whole is None:
            return None
        least = math.lcm(*(x.denominator for row in whole for x in row))
        rows = [[int(x * least) for x in row] for row in whole]
        words = [least, *basis]
        for u in rows:
            words += [dot(self.gains, u), *u, *(dot(a, u) for a in self.columns)]
        for k in range(1 + READINGS):
            law = [sum(self.rates[j][k] * u[i] for j, u in zip(basis, rows)) for i in range(COMMANDS)]
            words += [-dot(self.gains, law), *(-x for x in law)]
            words += [least * e[k] - dot(a, law) for a, e in zip(self.columns, self.rates)]
        return words if max(map(abs, words)) <= WIDTH else None


def row(words, r):
    return words[FIRST_ROW + r * ROW:FIRST_ROW + (r + 1) * ROW]


def is_corner(words):
    return all(next((x > 0 for x in row(words, r)[:FIRST_ROW] if x), False) for r in range(COMMANDS))


def leaving(words, limit):
    """The row that leaves, by ratios of fractions."""
    column = FIRST_ROW + limit
    rows = [r for r in range(COMMANDS) if row(words, r)[column] > 0]
    return min(rows, key=lambda r: [Fraction(x, row(words, r)[column]) for x in row(words, r)[:FIRST_ROW]], default=None)


def exchanges(plant):
    """Words, row, limit, divisor and the words across, of every exchange between corners in width."""
    for basis in itertools.combinations(range(LIMITS), COMMANDS):
        words = plant.words(basis)
        if words is None or not is_corner(words):
            continue
        for limit in set(range(LIMITS)) - set(basis):
            r = leaving(words, limit)
            if r is None:
                continue
            across = plant.words([limit if s == r else j for s, j in enumerate(basis)])
            if across is not None:
                yield words, r, limit, words[0] * row(words, r)[FIRST_ROW + limit] // across[0], across


def listed(words):
    return ", ".join(map(str, words))


def main():
    small = next(e for e in exchanges(Plant(0, 3)) if e[3] == 1)
    common = next(e for e in exchanges(Plant(0, 9)) if e[3] == e[0][0] > 1000)
    cases = [("DIVISOR_1", "divisor_1", "divisor 1", small), ("COMMON_DIVISOR", "common_divisor", "common divisor", common)]
    code = "// Made by tools/exchange_bench.py: two corners and an exchange from each.\n"
    proof = ("-- Made by tools/exchange_bench.py: the words of the two corners, as the code has them.\n"
             "use Rattle.std.proofs.Common.{List, [], ◌∷◌, ℤ, pos, negsuc}\n")
    header = "/* Made by tools/exchange_bench.py: two corners and an exchange from each. */\n"
    with open("crates/exchange_bench/stdout", "w") as out:
        for name, term, label, (words, r, limit, divisor, across) in cases:
            code += f"\npub const {name}: [i64; SIZE] = [{listed(words)}];\n"
            code += f"\npub const {name}_ROW: usize = {r};\n\npub const {name}_LIMIT: usize = {limit};\n"
            numbers = " ∷ ".join(f"pos {x}" if x >= 0 else f"negsuc {-x - 1}" for x in words)
            proof += f"\nabbrev pub {term} : List ℤ\n{term} = {numbers} ∷ []\n"
            header += f"static const int64_t {name}[SIZE] = {{{listed(words)}}};\n"
            header += f"enum {{ {name}_ROW = {r}, {name}_LIMIT = {limit} }};\n"
            total = sum(across[k % len(across)] for k in range(COUNT))
            out.write(f"{label}: {COUNT} exchanges, sum {total}\n")
            print(f"{label}: denominator {words[0]}, divisor {divisor}, denominator across {across[0]}")
    code = code.replace("\n\npub const DIVISOR_1:", f"\n\n// The words of a tableau of these counts.\npub const SIZE: usize = {len(small[0])};\n\npub const DIVISOR_1:", 1)
    open("crates/exchange_bench/src/corners.rt", "w").write(code)
    open("crates/exchange_bench/proofs/Literals.antt", "w").write(proof)
    open("bench/corners.h", "w").write(header)


def count():
    divisors = [e[3] for seed in range(3) for largest in (3, 9, 20) for e in exchanges(Plant(seed, largest))]
    print(f"{divisors.count(1)} of {len(divisors)} exchanges have the divisor 1")


count() if sys.argv[1:] == ["count"] else main()
