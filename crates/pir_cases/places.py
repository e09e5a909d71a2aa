#!/usr/bin/env python3
"""places.py SESSION: the `at` lines of a case `each byte of input`, for the session whose bytes these hexadecimal digits are.

For each byte of the session, and each byte that is put in its place, it prints the place at which the bytes stop to begin a
session, or `-` where they are one. It goes by the table of the session format in docs/SPECIFICATION.md, as plainly as it goes,
and shares nothing with the reader that is tested. Nothing runs it but a person who has changed the format or its limits.
"""
import sys

MOST_DEGREE, MOST_SERVERS, MOST_BLOCKS = 254, 255, 16
MOST_ROWS, MOST_WIDTH, MOST_CELLS = 1 << 20, 1 << 16, 1 << 30
BYTES = [0, 1, 2, 3, 4, 16, 26, 27, 31, 32, 33, 64, 128, 254, 255]


class Wrong(Exception):
    """The byte at this place is wrong, or there is none."""


def place(data):
    """The place at which the bytes stop to begin a session; None where they are one."""
    at = 0

    def number(width, least, most):
        """A number of so many bytes in this range. A front of it is right where some number in the range begins so."""
        nonlocal at
        value = 0
        for i in range(width):
            shift = 8 * (width - 1 - i)
            if at == len(data):
                raise Wrong
            value = value * 256 + data[at]
            if not least >> shift <= value <= most >> shift:
                raise Wrong
            at += 1
        return value

    try:
        number(4, 0x50495253, 0x50495253)
        version = number(1, 1, 2)
        scheme = number(1, 1, 2)
        degree = number(1, 1, MOST_DEGREE)
        agreement = number(1, degree + 1, degree + 1 if scheme == 2 else MOST_SERVERS)
        servers = number(1, agreement, agreement if scheme == 2 else MOST_SERVERS)
        blocks = number(1, 0, 0) + 1 if version == 1 else number(1, 1, MOST_BLOCKS)
        number(2, 0, 0)
        number(8, 0, 2**64 - 1)
        rows = number(4, 1, MOST_ROWS)
        width = number(4, 1, min(MOST_WIDTH // blocks, MOST_CELLS // rows))
        for index in range(1, servers + 1):
            number(1, index, index)
            present = number(1, 0, 1)
            length = number(4, 0, 24 + blocks * width if present else 0)
            for _ in range(length):
                number(1, 0, 255)
        if at < len(data):
            raise Wrong
    except Wrong:
        return at
    return None


def main():
    session = bytes.fromhex("".join(sys.argv[1:]))
    for at in range(len(session)):
        words = []
        for byte in BYTES:
            refused = place(session[:at] + bytes([byte]) + session[at + 1:])
            words.append(f"{byte:02x}:{'-' if refused is None else refused}")
        print("at", at, *words)


main()
