#!/usr/bin/env python3
"""bounds.py: cases of sessions on whose answers as many blocks are agreed as Johnson's count allows.

It finds such sessions by trying numbers, and lists the agreed blocks by interpolating every choice of t + 1 answers. It shares
nothing with the decoder that is tested. Nothing runs it but a person who wants more of them:

    python3 bounds.py >data/bounds.cases
"""
import itertools
import random


def times(a, b):
    """The product in the field of FIPS 197."""
    product = 0
    while b:
        if b & 1:
            product ^= a
        a = (a << 1) ^ (0x11B if a & 0x80 else 0)
        b >>= 1
    return product


INVERSE = {a: b for a in range(1, 256) for b in range(1, 256) if times(a, b) == 1}


def at(points, x):
    """The value at x of the polynomial of least degree through the points (Lagrange 1795)."""
    total = 0
    for place, value in points:
        term = value
        for other, _ in points:
            if other != place:
                term = times(times(term, x ^ other), INVERSE[place ^ other])
        total ^= term
    return total


def blocks(points, degree, agreement):
    """The constants of the polynomials that so many of the points lie on."""
    found = set()
    for chosen in itertools.combinations(points, degree + 1):
        if sum(at(chosen, x) == y for x, y in points) >= agreement:
            found.add(at(chosen, 0))
    return sorted(found)


def any_values(places, chance):
    return [(x, chance.randrange(256)) for x in places]


def all_but_one(degree, chance):
    """Of degree + 2 answers every choice of one fewer agrees."""
    return any_values(range(1, degree + 3), chance)


def four_lines(chance):
    """The six points in which four lines meet, where they lie at six servers."""
    while True:
        lines = [(chance.randrange(256), chance.randrange(256)) for _ in range(4)]
        points = {}
        for (a, b), (c, d) in itertools.combinations(lines, 2):
            if a == c:
                break
            x = times(b ^ d, INVERSE[a ^ c])
            points[x] = times(a, x) ^ b
        if len(points) == 6 and all(1 <= x <= 32 for x in points):
            return sorted(points.items())


def plane_of_seven(chance):
    """The seven points of the least projective plane, each three on a line, where they lie at seven servers (Fano 1892)."""
    while True:
        weights = [chance.randrange(1, 256) for _ in range(3)]
        corners = [chance.randrange(1, 33) for _ in range(3)]
        heights = [chance.randrange(256) for _ in range(3)]
        points = {}
        for which in range(1, 8):
            weight = x = y = 0
            for i in range(3):
                if which >> i & 1:
                    weight ^= weights[i]
                    x ^= times(weights[i], corners[i])
                    y ^= times(weights[i], heights[i])
            if weight == 0:
                break
            points[times(x, INVERSE[weight])] = times(y, INVERSE[weight])
        if len(points) == 7 and all(1 <= x <= 32 for x in points):
            return sorted(points.items())


def session(make, degree, agreement, chance):
    """Points with as many blocks as Johnson's count allows, that count, and the blocks."""
    while True:
        points = make(chance)
        k = len(points)
        most = k * (agreement - degree) // (agreement * agreement - k * degree)
        listed = blocks(points, degree, agreement)
        if len(listed) == most:
            return points, most, listed


def tell(name, make, degree, agreement, chance):
    points, most, listed = session(make, degree, agreement, chance)
    values = dict(points)
    payloads = " ".join(f"{values[x]:02x}" if x in values else "-" for x in range(1, max(values) + 1))
    print(f"\ncase {name}")
    print("words replay -")
    print(f"port input (session {degree} {agreement} 1 {payloads})")
    print("status several")
    print(f'output "blocks {most}\\n{"".join(f"{block:02x}{chr(92)}n" for block in listed)}"')


def main():
    chance = random.Random(1)
    print("# Sessions on whose answers as many blocks are agreed as Johnson's count allows, `k * (h - t)` over `h * h - k * t`. They come")
    print("# from bounds.py, which interpolates every choice of answers.")
    for degree in (1, 2, 3, 4, 6, 10):
        k = degree + 2
        tell(f"each {k - 1} of {k} servers agree on a block of their own", lambda c, t=degree: all_but_one(t, c), degree, degree + 1, chance)
    tell("two lines that meet at one of five servers", lambda c: two_lines(c), 1, 3, chance)
    tell("four lines that meet at six servers", four_lines, 1, 3, chance)
    tell("seven lines through seven servers, three on each", plane_of_seven, 1, 3, chance)


def two_lines(chance):
    """Five points on two lines that share one of them."""
    a, b, c = (chance.randrange(256) for _ in range(3))
    places = chance.sample(range(1, 9), 5)
    shared = places[0]
    d = times(a ^ c, shared) ^ b
    return sorted((x, times(a, x) ^ b if i < 3 else times(c, x) ^ d) for i, x in enumerate(places))


if __name__ == "__main__":
    main()
