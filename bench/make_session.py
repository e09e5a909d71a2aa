#!/usr/bin/env python3
"""Writes a recorded session with honest and lying servers to standard output.

usage: make_session.py DEGREE AGREEMENT SERVERS WIDTH LIARS SEED

The answers of the honest servers lie, in each column, on a random polynomial of the degree; the last LIARS servers
answer random bytes. The field is GF(256) modulo 0x11B.
"""
import random
import struct
import sys

powers = [1]
for _ in range(254):
    last = powers[-1]
    doubled = (last << 1) ^ (0x11B if last & 0x80 else 0)
    powers.append(doubled ^ last)
logarithms = {value: exponent for exponent, value in enumerate(powers)}


def product(a, b):
    if a == 0 or b == 0:
        return 0
    return powers[(logarithms[a] + logarithms[b]) % 255]


tables = [bytes(product(a, b) for b in range(256)) for a in range(256)]


def answers(degree, servers, width, liars, first, seed):
    """The payloads of the servers in order; the last so many lie in the columns from the first on."""
    rng = random.Random(seed)
    coefficients = [rng.randbytes(width) for _ in range(degree + 1)]
    for index in range(1, servers + 1):
        total = bytes(width)
        factor = 1
        for row in coefficients:
            scaled = row.translate(tables[factor])
            total = bytes(x ^ y for x, y in zip(total, scaled))
            factor = product(factor, index)
        if index > servers - liars:
            total = total[:first] + rng.randbytes(width - first)
        yield total


def session(degree, agreement, width, payloads, blocks=0):
    """The parts of a recorded session with these payloads in order, None of a server that was silent; a number of blocks
    makes it one of version 2, with so many of the width."""
    version = 2 if blocks else 1
    numbers = struct.pack(">QII", 7, 1, width)
    yield b"PIRS" + bytes([version, 1, degree, agreement, len(payloads), blocks, 0, 0]) + numbers
    for index, payload in enumerate(payloads, 1):
        frame = b"" if payload is None else b"PIRA" + bytes([version, 1, index, 0]) + numbers + payload
        yield struct.pack(">BBI", index, payload is not None, len(frame)) + frame


def main():
    degree, agreement, servers, width, liars, seed = map(int, sys.argv[1:7])
    payloads = list(answers(degree, servers, width, liars, 0, seed))
    sys.stdout.buffer.writelines(session(degree, agreement, width, payloads))


if __name__ == "__main__":
    main()
