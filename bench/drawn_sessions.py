#!/usr/bin/env python3
"""Replays small drawn sessions, and compares each text and status with what the definition says.

    bench/drawn_sessions.py [COUNT [PROGRAM]]     (10000, and crates/pir/out/pir, where none is named)

Each session is replayed with --report and without. What is expected is worked out from the session's bytes by
docs/SPECIFICATION.md and nothing else: which answers are usable, the verdict, and for the listing every choice of t + 1
answers, through which there is one polynomial in each column; where all columns hold at h answers or more, the
constants are a block, and those answers agree on it. So nothing is decoded column by column, and no column has a list.

The sessions have up to nine usable answers, and some up to twelve, of servers 1 to 9 or of any, with one to three blocks of
one to three bytes; silent servers and answers of every other kind are among them. What the servers answer is drawn in several
ways: noise of few values, polynomials that share answers, columns in which all but a few agree, columns in each of which
more are off, values of a small field, long lists. Some are of the XOR scheme, and some are refused.

It prints what the sessions were, and the first that went otherwise, and then ends with 1. It needs Python 3.8."""
import collections
import functools
import itertools
import os
import random
import struct
import subprocess
import sys
import tempfile

TOP = os.path.dirname(os.path.dirname(os.path.abspath(__file__)))
COUNT = int(sys.argv[1]) if len(sys.argv) > 1 else 10000
PROGRAM = os.path.abspath(sys.argv[2] if len(sys.argv) > 2 else os.environ.get("PIR", f"{TOP}/crates/pir/out/pir"))

MOST_COST = 32768
SHAMIR, XOR = 1, 2
NUMBER = 0x0102030405060708
Answer = collections.namedtuple("Answer", "index payload")


# ---- The field.


def byte_product(a, b):
    """The product of the polynomials that the bytes are, modulo x^8 + x^4 + x^3 + x + 1."""
    product = 0
    for bit in range(8):
        if b >> bit & 1:
            product ^= a << bit
    for bit in range(14, 7, -1):
        if product >> bit & 1:
            product ^= 0x11B << bit - 8
    return product


PRODUCTS = [bytes(byte_product(a, b) for b in range(256)) for a in range(256)]
INVERSES = [0] + [PRODUCTS[a].index(1) for a in range(1, 256)]


@functools.lru_cache(1 << 16)
def weights_at(indices, x):
    """By Lagrange: what the value at each index counts for in the value at x of the polynomial through them."""
    weights = []
    for own in indices:
        weight = 1
        for other in indices:
            if other != own:
                weight = PRODUCTS[weight][PRODUCTS[x ^ other][INVERSES[own ^ other]]]
        weights.append(weight)
    return weights


def value(weights, values):
    total = 0
    for weight, byte in zip(weights, values):
        total ^= PRODUCTS[weight][byte]
    return total


# ---- What the specification says of a session.


def usable_answers(data):
    """The numbers of a session, and its usable answers."""
    version, scheme, t, h, n, blocks = data[4:10]
    width = struct.unpack(">I", data[24:28])[0]
    count = blocks if version == 2 else 1
    answers, at = [], 28
    for index in range(1, n + 1):
        own, present, length = struct.unpack(">BBI", data[at : at + 6])
        frame = data[at + 6 : at + 6 + length]
        at += 6 + length
        header = b"PIRA" + bytes([version, scheme, index, 0]) + data[12:28]
        if own == index and present and len(frame) == 24 + count * width and frame.startswith(header):
            answers.append(Answer(index, frame[24:]))
    assert data[:4] == b"PIRS" and at == len(data)
    return scheme, t, h, n, answers


def agreements(answers, t, h):
    """Each block on which h or more agree, with all who agree on it by one vector of polynomials."""
    found = set()
    for chosen in itertools.combinations(answers, t + 1):
        indices = tuple(it.index for it in chosen)
        weights = {x: weights_at(indices, x) for x in [0] + [it.index for it in answers]}
        agreeing, block = answers, []
        for column in range(len(answers[0].payload)):
            values = [it.payload[column] for it in chosen]
            agreeing = [it for it in agreeing if value(weights[it.index], values) == it.payload[column]]
            block.append(value(weights[0], values))
            if len(agreeing) < h:
                break
        else:
            found.add((bytes(block), bytes(it.index for it in agreeing)))
    return sorted(found)


def refusal(t, h, k):
    """The text where nothing is listed, whatever was answered, and its status."""
    if k < h:
        return f"too few {k} {h}\n", 5
    if h * h <= k * t:
        return f"too weak {k} {t} {h}\n", 6
    m = t * (k - h) // (h * h - k * t) + 1
    cost = k * m * (m + 1) // 2
    return (f"too costly {cost}\n", 7) if cost > MOST_COST else None


def listing(blocks):
    text = f"blocks {len(blocks)}\n" + "".join(block.hex() + "\n" for block in blocks)
    return text, 0 if len(blocks) == 1 else 4 if blocks else 3


def expected(data):
    """The text of a replay, what --report has behind it, and the status."""
    scheme, t, h, n, answers = usable_answers(data)
    k = len(answers)
    if scheme == XOR:
        if k < n:
            return f"too few {k} {h}\n", "", 5
        total = 0
        for answer in answers:
            total ^= int.from_bytes(answer.payload, "big")
        text, status = listing([total.to_bytes(len(answers[0].payload), "big")])
        return text, "", status
    if refusal(t, h, k):
        text, status = refusal(t, h, k)
        return text, "", status
    found = agreements(answers, t, h)
    blocks = sorted({block for block, _ in found})
    report = "".join("agree " + " ".join([block.hex(), *map(str, indices)]) + "\n" for block, indices in found)
    if len(blocks) == 1 and 2 * h > k + t:
        report += " ".join(["liars", *(str(it.index) for it in answers if it.index not in found[0][1])]) + "\n"
    text, status = listing(blocks)
    return text, report, status


# ---- Drawn sessions.


def field_of(size):
    """The bytes x with x^size = x."""
    members = []
    for x in range(256):
        power = 1
        for _ in range(size):
            power = PRODUCTS[power][x]
        if power == x:
            members.append(x)
    return members


SMALL_FIELDS = [field_of(4), field_of(16)]


def drawn_polynomial(rng, indices, t, values):
    """The values at these indices of a polynomial through t + 1 drawn values; with few values it is often a constant."""
    degree = rng.randint(0, min(t, len(indices) - 1))
    through = rng.sample(indices, degree + 1)
    drawn = [rng.choice(values) for _ in through]
    return {x: value(weights_at(tuple(through), x), drawn) for x in indices}


def noise(rng, indices, t, h, values, column):
    return {x: rng.choice(values) for x in indices}


def groups(rng, indices, t, h, values, column):
    """Polynomials, each through t answers or so that lie on earlier ones and through h or so in all."""
    made, left = {}, rng.sample(indices, len(indices))
    while left:
        through = rng.sample(sorted(made), min(len(made), t, rng.randint(0, t + 1)))
        own = left[: max(1, h + rng.randint(-1, 1) - len(through))]
        left = left[len(own) :]
        free = own[: t + 1 - len(through)]
        points = {**{x: made[x] for x in through}, **{x: rng.choice(values) for x in free}}
        for x in own:
            made[x] = value(weights_at(tuple(points), x), points.values())
    return made


def chain(rng, indices, t, h, values, column):
    """All but the first few lie on a polynomial, and in each column one or two answers more are off."""
    made = drawn_polynomial(rng, indices, t, values)
    for x in indices[: rng.randint(1, 2) * (column + 1)]:
        made[x] = rng.choice(values)
    return made


def close(rng, indices, t, h, values, column):
    """All but a few lie on a polynomial; those are on another, or anywhere."""
    made, other = drawn_polynomial(rng, indices, t, values), drawn_polynomial(rng, indices, t, values)
    for x in rng.sample(indices, min(len(indices), rng.randint(0, max(h - t, 1)))):
        made[x] = rng.choice([other[x], rng.choice(values)])
    return made


def followers(rng, indices, t, h, values, column):
    """Each answer follows one of two or three polynomials, the same in all columns but for a few."""
    ways = [drawn_polynomial(rng, indices, t, values) for _ in range(3)]
    return {x: rng.choice(ways)[x] if rng.random() < 0.1 else ways[place % 5 % 3][x] for place, x in enumerate(indices)}


MANNERS = [noise, groups, chain, close, followers]


def drawn_numbers(rng):
    """t, h and the indices of the answers that are meant to be usable; mostly such that there is a listing."""
    while True:
        k = rng.randint(3, 9)
        t = rng.choice([1, 1, 1, 2, 2, 3, 4])
        if t >= k:
            continue
        h = rng.randint(min(t + rng.choice([1, 2, 2, 2]), k), k)
        if refusal(t, h, k) is None or rng.random() < 0.02:
            break
    within = rng.choice([range(1, k + 1), range(1, k + 1), range(1, 256), SMALL_FIELDS[1][1:]])
    return t, h, sorted(rng.sample(within, k))


# Values of which many sets of h lie on a polynomial of degree t: two lines, one of three and one of more; eight lines of
# three through eight points; seven cubics of five.
LONG_LISTS = [
    (1, 3, {1: 16, 2: 16, 3: 16, 4: 23, 5: 22}),
    (1, 3, {5: 104, 85: 6, 106: 86, 140: 5, 157: 159, 167: 158, 211: 125, 245: 131}),
    (3, 5, {8: 1, 9: 2, 10: 4, 11: 7, 12: 7, 13: 5, 14: 0, 15: 2}),
]


def drawn_long_list(rng):
    """t, h and values with a long list: those above, or points of the plane over four elements, whose lines are lines here."""
    if rng.random() < 0.3:
        return rng.choice(LONG_LISTS)
    field, h = SMALL_FIELDS[0], rng.choice([3, 4])
    unit = next(x for x in iter(lambda: rng.randrange(1, 256), None) if x not in field)
    points = {u ^ PRODUCTS[unit][v] ^ 3: v for u in field for v in field}
    points.pop(0, None)
    return 1, h, {x: points[x] for x in rng.sample(sorted(points), 8 if h == 3 else rng.randint(8, 12))}


def varied(rng, values, t, width):
    """In each column a multiple of the values and a polynomial, so that the same answers agree; one byte may be another."""
    columns = []
    for _ in range(width):
        factor, more = rng.randrange(256), drawn_polynomial(rng, sorted(values), t, range(256))
        columns.append({x: PRODUCTS[factor][y] ^ more[x] for x, y in values.items()})
    if rng.random() < 0.3:
        rng.choice(columns)[rng.choice(sorted(values))] = rng.randrange(256)
    return {x: bytes(column[x] for column in columns) for x in values}


def drawn_payloads(rng, indices, t, h, width):
    values = rng.choice([[0, 1], [0, 1, 2, 3], rng.sample(range(256), 3), range(256), *SMALL_FIELDS])
    order = rng.sample(indices, len(indices))
    manner = rng.choice(MANNERS)
    columns = []
    for column in range(width):
        if column and rng.random() < 0.5:
            # As the one before, but for a factor and a polynomial: the same answers agree.
            factor, more = rng.randrange(256), drawn_polynomial(rng, order, t, values)
            columns.append({x: PRODUCTS[factor][columns[-1][x]] ^ more[x] for x in order})
            continue
        columns.append((manner if rng.random() < 0.8 else rng.choice(MANNERS))(rng, order, t, h, values, column))
    if rng.random() < 0.2:
        rng.choice(columns)[rng.choice(order)] = rng.choice(values)
    return {x: bytes(column[x] for column in columns) for x in indices}


def spoiled(rng, frame, room):
    """A frame that isn't usable."""
    way = rng.randrange(4)
    if way == 0:
        return frame[: rng.randrange(len(frame))]
    if way == 1:
        return rng.randbytes(rng.randint(0, room))
    place = rng.randrange(24)
    return frame[:place] + bytes([frame[place] ^ rng.randrange(1, 256)]) + frame[place + 1 :]


def written(rng, scheme, t, h, n, payloads, width, blocks):
    """The bytes of a session; some answers are lost or spoiled."""
    version = 2 if blocks else 1
    numbers = struct.pack(">QII", NUMBER, rng.choice([1, 2, 1 << 10]), width)
    data = b"PIRS" + bytes([version, scheme, t, h, n, blocks, 0, 0]) + numbers
    lost = rng.choice([0, 0, 0, 0.1, 0.2])
    for index in range(1, n + 1):
        frame = b"PIRA" + bytes([version, scheme, index, 0]) + numbers + payloads.get(index, b"")
        present = index in payloads and rng.random() >= lost
        if present and rng.random() < lost or index not in payloads and rng.random() < 0.1:
            frame, present = spoiled(rng, frame, 24 + width * max(blocks, 1)), True
        frame = frame if present else b""
        data += struct.pack(">BBI", index, present, len(frame)) + frame
    return data


def drawn_refusal(rng):
    """A session that many servers answered, and no list is made of: too weak or too costly."""
    wanted = rng.choice([6, 7])
    while True:
        t, k = rng.randint(1, 60), rng.randint(20, 255)
        h = rng.randint(t + 1, 255)
        if h <= k:
            data = written(rng, SHAMIR, t, h, k, {x: rng.randbytes(1) for x in range(1, k + 1)}, 1, 0)
            refused = refusal(t, h, len(usable_answers(data)[4]))
            if refused and refused[1] == wanted:
                return data


def drawn(rng):
    blocks, width = rng.choice([0, 0, 0, 1, 2, 3]), rng.choice([1, 1, 2, 3])
    kind = rng.random()
    if kind < 0.02:
        return drawn_refusal(rng)
    if kind < 0.05:
        n = rng.randint(2, 9)
        payloads = {x: rng.randbytes(width * max(blocks, 1)) for x in range(1, n + 1)}
        return written(rng, XOR, n - 1, n, n, payloads, width, blocks)
    if kind < 0.2:
        t, h, values = drawn_long_list(rng)
        payloads = varied(rng, values, t, width * max(blocks, 1))
    else:
        t, h, indices = drawn_numbers(rng)
        payloads = drawn_payloads(rng, indices, t, h, width * max(blocks, 1))
    n = max(max(payloads), h, rng.choice([0, 9]))
    return written(rng, SHAMIR, t, h, n, payloads, width, blocks)


# ---- The comparison.


def replayed(path, *words):
    ran = subprocess.run([PROGRAM, "replay", *words, path], stdout=subprocess.PIPE, stderr=subprocess.DEVNULL, text=True)
    return ran.stdout, ran.returncode


def kind_of(text, report):
    """The words under which a session is counted."""
    lines = report.splitlines()
    if not text.startswith("blocks "):
        return [" ".join(text.split()[:2])]
    count = int(text.split()[1])
    names = [["no block", "one block", "two blocks", "three blocks or more"][min(count, 3)]]
    agreeing = sum(line.startswith("agree") for line in lines)
    if agreeing > count:
        names.append("a block on which they agree in two ways")
    if agreeing < len(lines):
        names.append("the liars are named")
    return names


def main():
    seen, wrong, longest = collections.Counter(), 0, 0
    with tempfile.TemporaryDirectory() as folder:
        path = f"{folder}/session"
        for number in range(COUNT):
            data = drawn(random.Random(number))
            text, report, status = expected(data)
            with open(path, "wb") as file:
                file.write(data)
            for words, wanted in [((), text), (("--report",), text + report)]:
                got = replayed(path, *words)
                if got != (wanted, status):
                    wrong += 1
                    print(f"session {number} {' '.join(words)}: {data.hex()}")
                    print(f"expected {status}:\n{wanted}got {got[1]}:\n{got[0]}", flush=True)
            seen.update(kind_of(text, report) if data[5] == SHAMIR else ["of the XOR scheme"])
            longest = max(longest, report.count("agree"))
            if wrong >= 3:
                break
    print(f"{number + 1} sessions, {wrong} replays otherwise; at most {longest} agreements in a report")
    for name, count in sorted(seen.items()):
        print(f"{count:6} {name}")
    sys.exit(1 if wrong else 0)


main()
