#!/usr/bin/env python3
"""tried.py: cases of small sessions, and the verdict on each by trying every choice of answers.

The sessions have up to eight servers, degree up to three and rows of up to three bytes. Some servers agree, in one group or in
several, which may share answers or whole columns; others answer anyhow, in all columns or in the last alone, answer too few
bytes, or are silent. Last come sessions, some of more servers, on whose answers as many blocks are agreed as Johnson's count
allows. The agreed blocks are listed by interpolating every choice of t + 1 answers, which shares nothing with the decoder that
is tested. Nothing runs it but a person who wants more of them:

    python3 tried.py >data/tried.cases
"""
import collections
import itertools
import random

from bounds import INVERSE, all_but_one, at, four_lines, plane_of_seven, times, two_lines

# How many sessions there are of each kind of verdict.
WANTED = {"too few": 8, "too weak": 12, "none": 40, "one": 80, "two": 60, "more": 30}

# What is said behind the name of a case by how many there are of that name so far.
AGAIN = {1: "", 2: ", once more", 3: ", a third time", 4: ", a fourth time"}


def value(polynomial, x):
    """The value at x of a polynomial, by its coefficients, the constant first."""
    total, power = 0, 1
    for coefficient in polynomial:
        total ^= times(coefficient, power)
        power = times(power, x)
    return total


def bytes_of(count, chance):
    """So many random bytes."""
    return [chance.randrange(256) for _ in range(count)]


def with_shared(polynomial, shared, chance):
    """A polynomial that has the values of another at these places."""
    added = [chance.randrange(1, 256)]
    for place in shared:
        added = [times(place, a) ^ b for a, b in zip(added + [0], [0] + added)]
    return [a ^ b for a, b in zip(polynomial, added + [0] * len(polynomial))]


def group(first, degree, width, servers, chance):
    """A polynomial for each column: anyhow, or with values or columns of the first group's."""
    if first is None or chance.random() < 0.3:
        return [bytes_of(degree + 1, chance) for _ in range(width)]
    shared = chance.sample(range(1, servers + 1), chance.randrange(degree + 1))
    alike = chance.randrange(width)
    return [first[c] if c < alike else with_shared(first[c], shared, chance) for c in range(width)]


def answered(degree, width, servers, chance):
    """A payload for each server, None for a silent one."""
    groups = []
    for _ in range(chance.choice([1, 1, 2, 2, 3])):
        groups.append(group(groups[0] if groups else None, degree, width, servers, chance))
    payloads = []
    for x in range(1, servers + 1):
        payload = [value(polynomial, x) for polynomial in chance.choice(groups)]
        kind = chance.random()
        if kind < 0.06:
            payload = None
        elif kind < 0.09:
            payload = payload[:-1]
        elif kind < 0.17:
            payload = bytes_of(width, chance)
        elif kind < 0.22:
            payload[-1] ^= chance.randrange(1, 256)
        payloads.append(payload)
    return payloads


def groups_of(payloads, degree, width):
    """The servers whose answers are usable, and for each block the most of them that agree on it, by trying every choice."""
    usable = {x: p for x, p in enumerate(payloads, 1) if p is not None and len(p) == width}
    found = {}
    for chosen in itertools.combinations(sorted(usable), degree + 1):

        def values(x):
            return [at([(i, usable[i][c]) for i in chosen], x) for c in range(width)]

        agreeing = [x for x, payload in usable.items() if values(x) == payload]
        block = bytes(values(0))
        found[block] = max(found.get(block, []), agreeing, key=len)
    return list(usable), found


def verdict(payloads, degree, agreement, width):
    """The kind of the verdict, its status and its text, how many blocks there may be, and what is tried."""
    usable, found = groups_of(payloads, degree, width)
    k, groups = len(usable), {block: found[block] for block in sorted(found) if len(found[block]) >= agreement}
    shape = f"degree {degree}, {width} byte{'s' * (width > 1)}"
    if k < agreement:
        tried = f"{named([usable])} of {len(payloads)} answer{'s' * (k == 1)}, where {agreement} have to agree, {shape}"
        return "too few", f"too-few {k} {agreement}", f"too few {k} {agreement}\\n", 0, tried
    if agreement * agreement <= k * degree:
        tried = f"an agreement of {agreement} among {named([usable])} of {len(payloads)}, {shape}"
        return "too weak", f"too-weak {k} {degree} {agreement}", f"too weak {k} {degree} {agreement}\\n", 0, tried
    most = k * (agreement - degree) // (agreement * agreement - k * degree)
    assert len(groups) <= most
    text = f"blocks {len(groups)}\\n" + "".join(f"{block.hex()}\\n" for block in groups)
    kind = ["none", "one", "two", "more"][min(len(groups), 3)]
    tried = f"{named(groups.values() or [max(found.values(), key=len)])} of {len(payloads)} agree, where {agreement} have to, {shape}"
    return kind, {"none": "no-block", "one": "one"}.get(kind, "several"), text, most, tried


def named(groups):
    """Groups of servers, as the name of a case tells them."""
    several = any(len(group) > 1 for group in groups)
    return f"server{'s' * several} {' and '.join(' '.join(map(str, group)) for group in groups)}"


def spelled(payload):
    """A payload as a case spells it."""
    return "-" if payload is None else bytes(payload).hex()


def tell(payloads, degree, agreement, width, told, before):
    """Prints the case; `before` counts those whose names say the same."""
    _, status, text, _, tried = told
    before[tried] += 1
    print(f"\ncase {tried}{AGAIN[before[tried]]}")
    print("words replay -")
    print(f"port input (session {degree} {agreement} {width} {' '.join(map(spelled, payloads))})")
    print(f"status {status}")
    print(f'output "{text}"')


def drawn(chance):
    """A session in which each payload has a byte, since a case spells none as a silent server."""
    while True:
        degree, width = chance.choice([1, 1, 2, 2, 3]), chance.randrange(1, 4)
        servers = chance.randrange(degree + 2, 9)
        agreement = chance.randrange(degree + 1, servers + 1)
        payloads = answered(degree, width, servers, chance)
        if all(p is None or p for p in payloads):
            return payloads, degree, agreement, width


def turned(points, width, chance):
    """The points of one column in several: their values times a factor, with a line added, so that what lay on lines does still."""
    payloads = [None] * max(x for x, _ in points)
    turns = [(chance.randrange(1, 256), chance.randrange(256), chance.randrange(256)) for _ in range(width)]
    for x, y in points:
        payloads[x - 1] = [times(a, y) ^ times(b, x) ^ c for a, b, c in turns]
    return payloads


def main():
    chance = random.Random(2)
    print("# Small sessions, and the verdict on each by trying every choice of answers. They come from tried.py.")
    left, before = dict(WANTED), collections.Counter()
    while any(left.values()):
        session = drawn(chance)
        told = verdict(*session)
        if left[told[0]]:
            left[told[0]] -= 1
            tell(*session, told, before)
    print("\n# As many blocks as Johnson's count allows, in two columns and in three.")
    for degree, agreement, make in [
        (1, 2, lambda c: all_but_one(1, c)),
        (2, 3, lambda c: all_but_one(2, c)),
        (3, 4, lambda c: all_but_one(3, c)),
        (1, 3, two_lines),
        (1, 3, four_lines),
        (1, 3, plane_of_seven),
    ]:
        for width in (2, 3):
            while True:
                payloads = turned(make(chance), width, chance)
                told = verdict(payloads, degree, agreement, width)
                if told[2].startswith(f"blocks {told[3]}\\"):
                    break
            tell(payloads, degree, agreement, width, told, before)


main()
