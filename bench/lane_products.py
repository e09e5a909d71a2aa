#!/usr/bin/env python3
"""Counts the products of 16 lanes that Koetter's iteration takes for its steps, from the numbers and the points alone.

usage: bench/lane_products.py K,T,H ..

For each K,T,H it goes through the iteration on the points that bench/decoder.sh takes (few of them agree), and counts as
the loops of crates/gs_interpolate do: `Step::change` visits in row j of y the powers of x below reach - t * j, and
`add_held_multiple` (`add_multiple` where there are more than 32 lanes) takes one product for each 16 lanes where the pivot's own
coefficient isn't 0. The line ends with the ratio to C * C / 2 * ceil(n / 16), for C conditions and n polynomials.
"""
import sys


def byte_product(a, b):
    product = 0
    while b:
        if b & 1:
            product ^= a
        a = a << 1 ^ (0x11B if a & 0x80 else 0)
        b >>= 1
    return product


PRODUCTS = [bytes(byte_product(a, b) for b in range(256)) for a in range(256)]
INVERSES = [0] + [PRODUCTS[a].index(1) for a in range(1, 256)]


def add(p, q):
    size = max(len(p), len(q))
    return (int.from_bytes(p, "little") ^ int.from_bytes(q, "little")).to_bytes(size, "little")


def expanded(row, a, m):
    """The first m coefficients of the row about a."""
    made = []
    for _ in range(m):
        rest, quotient = 0, []
        for c in reversed(row):
            rest = PRODUCTS[a][rest] ^ c
            quotient.append(rest)
        made.append(rest)
        row = quotient[:-1][::-1]
    return made


def window_of(rows, a, b, m):
    """The derivatives of order (u, v) of one polynomial at (a, b): row v has those with u + v < m."""
    columns = zip(*(expanded(row, a, m) for row in rows))
    return [list(orders) for orders in zip(*(expanded(column, b, m) for column in columns))]


def rows_of_y(conditions, t, d):
    """How many rows of monomials outnumber the conditions (`row_lengths`)."""
    missing, longest, rows = conditions + 1, d + 1, 0
    while missing > 0:
        missing -= min(missing, longest)
        longest = max(longest - t, 0)
        rows += 1
    return rows


def count(k, t, h):
    m = t * (k - h) // (h * h - k * t) + 1
    d = h * m - 1
    conditions = k * m * (m + 1) // 2
    n = rows_of_y(conditions, t, d)
    lanes = (n + 15) // 16
    family = [[b"\1" if j == g else b"" for j in range(n)] for g in range(n)]
    weights = [t * g for g in range(n)]
    products = 0
    for a in range(1, k + 1):
        b = (a * a * 73 + a * 151 + 29) % 251
        windows = [window_of(rows, a, b, m) for rows in family]
        for v in range(m):
            for u in range(m - v):
                values = [window[v][u] for window in windows]
                if not any(values):
                    continue
                p = min((g for g in range(n) if values[g]), key=lambda g: (weights[g], g))
                if weights[p] > d:
                    continue
                reach = min(weights[p] + 1, d) + 1
                for j in range(n):
                    products += lanes * sum(c != 0 for c in family[p][j][: max(reach - t * j, 0)])
                step(family, windows, values, p, a)
                weights[p] += 1
    formula = conditions * conditions / 2 * lanes
    print(f"{k},{t},{h}: {conditions} conditions, {n} polynomials, {products} products, {products / formula:.3f} of {formula:.0f}")


def step(family, windows, values, p, a):
    """Takes the multiples of the pivot off the others, and multiplies it by x - a."""
    inverse = INVERSES[values[p]]
    for g, value in enumerate(values):
        if g == p or value == 0:
            continue
        factor = PRODUCTS[PRODUCTS[value][inverse]]
        family[g] = [add(row, own.translate(factor)) if own else row for row, own in zip(family[g], family[p])]
        windows[g] = [[c ^ factor[own] for c, own in zip(row, pivot)] for row, pivot in zip(windows[g], windows[p])]
    family[p] = [add(b"\0" + row, row.translate(PRODUCTS[a])) if row else row for row in family[p]]
    windows[p] = [[0] + row[:-1] for row in windows[p]]


for word in sys.argv[1:]:
    count(*map(int, word.split(",")))
