#!/usr/bin/env python3
"""Fetches one row from servers behind TLS, all asked at once, and writes it to standard output.

    PYTHONPATH=python examples/fetch_tls.py --rows R --width W --block B --degree T --agree H [--ca FILE] HOST:PORT HOST:PORT ..

The servers are those of `pir serve`, each behind a TLS proxy (docs/OPERATING.md); --ca is the certificate that theirs are checked
by, else it is the system's. Its status is the code of the verdict, as that of `pir fetch`."""
import argparse
import asyncio
import ssl
import sys
from typing import Optional

import pir

PATIENCE = 10


async def ask(address: str, frame: bytes, most: int, context: ssl.SSLContext) -> Optional[bytes]:
    """What a server answers to a frame; None where it is silent."""
    host, _, port = address.rpartition(":")
    try:
        reader, writer = await asyncio.open_connection(host, int(port), ssl=context)
        writer.write(frame)
        await writer.drain()
        answer = b""
        while len(answer) < most:
            piece = await reader.read(most - len(answer))
            if not piece:
                break
            answer += piece
        writer.close()
        return answer
    except (OSError, ValueError):
        return None


async def ask_patiently(*words) -> Optional[bytes]:
    try:
        return await asyncio.wait_for(ask(*words), PATIENCE)
    except asyncio.TimeoutError:
        return None


async def main() -> int:
    words = argparse.ArgumentParser(description=__doc__.partition("\n")[0])
    for name in ("rows", "width", "block", "degree", "agree"):
        words.add_argument(f"--{name}", type=int, required=True)
    words.add_argument("--ca")
    words.add_argument("servers", nargs="+")
    said = words.parse_args()
    context = ssl.create_default_context(cafile=said.ca)
    client = pir.Client(said.rows, said.width, said.degree, said.agree, len(said.servers))
    query = client.ask(said.block)
    asked = [
        ask_patiently(address, frame, query.answer_size, context) for address, frame in zip(said.servers, query.frames)
    ]
    verdict = query.judge(await asyncio.gather(*asked))
    if verdict.code:
        print(f"no row: {verdict.text}", file=sys.stderr)
    else:
        sys.stdout.buffer.write(verdict.block)
    return verdict.code


if __name__ == "__main__":
    try:
        sys.exit(asyncio.run(main()))
    except pir.PirError as error:
        print(f"no fetch: {error}", file=sys.stderr)
        sys.exit(2)
