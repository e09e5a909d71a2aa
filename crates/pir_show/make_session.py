#!/usr/bin/env python3
"""Writes data/causes.session, which the gate shows, and stdout, what has to be shown: by the table below, which has each
thing that a server can have answered and what is said of it, by docs/SPECIFICATION.md.

    crates/pir_show/make_session.py"""
import os

HERE = os.path.dirname(os.path.abspath(__file__))
ROWS, WIDTH, SESSION = 5, 3, bytes.fromhex("00f1e2d3c4b5a697")


def answer(index, payload=b"row", magic=b"PIRA", version=1, scheme=1, status=0, session=SESSION, rows=ROWS, width=WIDTH):
    """The answer of a server, with fields that may be others than it was asked."""
    return magic + bytes([version, scheme, index, status]) + session + rows.to_bytes(4, "big") + width.to_bytes(4, "big") + payload


# By the index of the server: what it answered, or None where a call failed.
TABLE = [
    (lambda i: answer(i), "usable"),
    (lambda i: None, "silent"),
    (lambda i: answer(i, b"", status=1), "refused, status 1: bad query"),
    (lambda i: answer(i, b"", status=2), "refused, status 2: other rows or width"),
    (lambda i: answer(i, b"", status=3), "refused, status 3: other scheme"),
    (lambda i: answer(i, b"\x02", status=4), "refused, status 4: a shard is lost"),
    (lambda i: answer(i, b"", status=5), "refused, with an unknown status"),
    (lambda i: answer(i, b"row", status=255), "refused, with an unknown status"),
    (lambda i: answer(i, magic=b"PIRQ"), "unusable, it doesn't begin with PIRA"),
    (lambda i: answer(i, version=2), "unusable, its version is another"),
    (lambda i: answer(i, scheme=2), "unusable, its scheme is another"),
    (lambda i: answer(i - 1), "unusable, its index is another"),
    (lambda i: answer(i, session=SESSION[:7] + b"\x96"), "unusable, its session number is another"),
    (lambda i: answer(i, session=b"\x01" + SESSION[1:]), "unusable, its session number is another"),
    (lambda i: answer(i, rows=ROWS + 1), "unusable, its number of rows is another"),
    (lambda i: answer(i, width=WIDTH + 1), "unusable, its width is another"),
    (lambda i: answer(i, b"ro"), "unusable, its payload has another length"),
    (lambda i: answer(i, b""), "unusable, its payload has another length"),
    (lambda i: b"", "unusable, it has fewer bytes than a header"),
    (lambda i: answer(i, b"")[:23], "unusable, it has fewer bytes than a header"),
    (lambda i: b"HTTP/1.1 400 Bad Request\r\n", "unusable, it doesn't begin with PIRA"),
    # Of several fields that are others the first is told, and a status only where no field is.
    (lambda i: answer(i, version=0, rows=1), "unusable, its version is another"),
    (lambda i: answer(i, b"", status=2, rows=1, width=1), "unusable, its number of rows is another"),
]


def record(index, taken):
    if taken is None:
        return bytes([index, 0]) + bytes(4)
    return bytes([index, 1]) + len(taken).to_bytes(4, "big") + taken


def main():
    degree, agreement, servers = 2, 4, len(TABLE)
    header = b"PIRS\x01\x01" + bytes([degree, agreement, servers, 0, 0, 0]) + SESSION
    header += ROWS.to_bytes(4, "big") + WIDTH.to_bytes(4, "big")
    told = f"scheme shamir\ndegree {degree}\nagreement {agreement}\nservers {servers}\nrows {ROWS}\nwidth {WIDTH}\nblocks 1\n"
    os.makedirs(f"{HERE}/data", exist_ok=True)
    with open(f"{HERE}/data/causes.session", "wb") as file:
        file.write(header + b"".join(record(i, made(i)) for i, (made, _) in enumerate(TABLE, 1)))
    with open(f"{HERE}/stdout", "w", encoding="utf-8") as file:
        file.write(told + "".join(f"server {i}: {said}\n" for i, (_, said) in enumerate(TABLE, 1)))


main()
