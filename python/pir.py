"""Private look-ups in a list that several servers hold: which bytes to send, and what the answers agree on.

The caller brings the sockets. A fetch of row 17 from four servers, of which one alone learns nothing and one may lie:

    client = Client(rows=1000, width=32, degree=1, agree=3, servers=4)
    query = client.ask(17)
    links = [send(server, frame) for server, frame in zip(servers, query.frames)]
    answers = [read(link, query.answer_size) for link in links]
    verdict = query.judge(answers)
    verdict.block                    # the row, as bytes: the right one where 3 servers are honest

All servers are sent to before an answer is awaited. `read` gives back the bytes that come, so many at most, or None where the
server was silent. It stands on libpir.so, which is proved; this module hands bytes on to it. PIR_LIBRARY names the file, if it
isn't beside this module or where the system looks for libraries. It needs Python 3.8, and nothing else."""
import ctypes
import json
import os
import re
import secrets
from typing import List, NamedTuple, Optional, Sequence, Union

__all__ = ["Client", "KeyList", "Query", "Verdict", "PirError", "NoBlock", "SeveralBlocks", "BadCatalog", "BrokenRow", "BadSession"]
__all__ += ["reply", "replay", "SHAMIR", "XOR"]

SHAMIR = 1
XOR = 2
INTERFACE = 1
# Of a catalog: its most bytes, the hexadecimal digits of its texts, and the ranges of its numbers.
MOST_CATALOG = 65536
DIGITS = {"list": 16, "salt": 32, "sha256": 64}
RANGES = {"digest": (8, 32), "entries": (1, 1 << 26), "format": (1, 1), "rows": (1, 1 << 20), "value": (0, 16384), "width": (1, 65536)}


class _Plan(ctypes.Structure):
    _fields_ = [(it, ctypes.c_uint32) for it in ("scheme", "degree", "agreement", "servers", "tau", "rows", "width")]


class _Listing(ctypes.Structure):
    _fields_ = [
        (it, ctypes.c_uint64) for it in ("blocks", "block_size", "needed", "answers", "degree", "agreement", "cost")
    ]


class _List(ctypes.Structure):
    _fields_ = [(it, ctypes.c_uint32) for it in ("digest_bytes", "value_bytes", "rows")]


class PirError(Exception):
    """A call was refused, or the answers have no listing. `code` is that of include/pir.h."""

    def __init__(self, code: int, text: str):
        super().__init__(text)
        self.code = code


class NoBlock(PirError):
    """No block has so many answers that agree."""


class SeveralBlocks(PirError):
    """Several blocks have; they are in `Verdict.blocks`."""


class BadCatalog(PirError):
    """The file is no catalog of a list."""

    def __init__(self, text: str):
        super().__init__(-7, text)


class BrokenRow(PirError):
    """The row is none of the list, so that nothing is known of the key."""


class BadSession(PirError):
    """The bytes are no session. `place` is the length of their longest prefix that begins one."""

    def __init__(self, code: int, place: int):
        super().__init__(code, f"no session from byte {place} on")
        self.place = place


REFUSALS = {
    -1: "the numbers are those of no plan",
    -2: "no block is asked for, too many, or one that isn't a row",
    -3: "the index is that of no server",
    -4: "there are too few coins",
    -5: "there is too little room",
    -6: "the answers aren't those of so many servers",
    -7: "the numbers are those of no list, or the row is too long",
    -8: "the bytes are no whole rows of a database, or the scheme is none",
    12: "there is no memory",
}


def _load() -> ctypes.CDLL:
    here = os.path.join(os.path.dirname(os.path.abspath(__file__)), "libpir.so")
    library = ctypes.CDLL(os.environ.get("PIR_LIBRARY") or (here if os.path.exists(here) else "libpir.so"))
    size, plan = ctypes.c_size_t, ctypes.POINTER(_Plan)
    library.pir_version.restype = ctypes.c_uint32
    for name in ("pir_coins", "pir_query_size", "pir_answer_size"):
        getattr(library, name).restype = ctypes.c_int64
        getattr(library, name).argtypes = [plan, size]
    library.pir_list_row.restype = ctypes.c_int64
    library.pir_list_row.argtypes = [ctypes.POINTER(_List), ctypes.c_char_p, ctypes.c_char_p, size]
    library.pir_list_find.restype = ctypes.c_int32
    library.pir_list_find.argtypes = [
        *(ctypes.POINTER(_List), ctypes.c_char_p, ctypes.c_char_p, ctypes.c_char_p, size, ctypes.c_char_p, size),
        *(ctypes.POINTER(ctypes.c_char), size, ctypes.POINTER(size)),
    ]
    library.pir_reply.restype = ctypes.c_int32
    library.pir_reply.argtypes = [
        *(ctypes.c_char_p, size, ctypes.c_uint32, ctypes.c_uint32, ctypes.c_char_p, size),
        *(ctypes.POINTER(ctypes.c_char), size, ctypes.POINTER(size), ctypes.POINTER(ctypes.c_uint32)),
    ]
    library.pir_replay.restype = ctypes.c_int32
    library.pir_replay.argtypes = [ctypes.c_char_p, size, ctypes.POINTER(ctypes.c_char), size, ctypes.POINTER(size)]
    library.pir_query.restype = library.pir_liars.restype = ctypes.c_int32
    library.pir_query.argtypes = [
        *(plan, ctypes.POINTER(ctypes.c_uint32), size, ctypes.c_char_p, size),
        *(ctypes.c_uint32, ctypes.POINTER(ctypes.c_char), size, ctypes.POINTER(size)),
    ]
    library.pir_liars.argtypes = [
        *(plan, size, ctypes.c_uint64, ctypes.c_char_p, size, ctypes.POINTER(size), size, ctypes.c_char_p, size),
        *(ctypes.POINTER(ctypes.c_char), size, ctypes.POINTER(ctypes.c_char), size, ctypes.POINTER(_Listing)),
    ]
    if library.pir_version() != INTERFACE:
        raise ImportError(f"libpir has interface {library.pir_version()}, and this module is for {INTERFACE}")
    return library


_LIBRARY = _load()


def _checked(code: int) -> int:
    if code < 0 or code == 12:
        raise PirError(code, REFUSALS.get(code, f"code {code}"))
    return code


def _number(number: int) -> int:
    """A size or a row, which any number from 0 on is."""
    return number if number >= 0 else _checked(number)


class Verdict(NamedTuple):
    """What the answers agree on."""

    code: int
    """0 for one block, 3 for none, 4 for several, 5 for too few usable answers, 6 for too weak an agreement, 7 for too high a cost."""
    blocks: List[bytes]
    """The listed blocks, ascending. Each has the rows that were asked for, one behind another."""
    text: str
    """The verdict in words."""
    servers: Optional[List[int]]
    """Of each server 0 where it was silent or its answer isn't usable, 1 where it agrees, 2 where it lied; None where that can't be told.
    It holds where `agree` servers are honest: more liars, who work together, can have honest ones told as liars."""

    @property
    def block(self) -> bytes:
        """The one block. Raises `NoBlock`, `SeveralBlocks` or `PirError` where there isn't exactly one."""
        if self.code:
            raise {3: NoBlock, 4: SeveralBlocks}.get(self.code, PirError)(self.code, self.text)
        return self.blocks[0]


class Query:
    """What the servers are sent for some rows. Each query is for one fetch: its coins are used once."""

    frames: List[bytes]
    """The bytes that each server is sent, in order."""
    answer_size: int
    """How many bytes a whole answer has: read so many of each server."""

    def __init__(self, client: "Client", rows: Sequence[int], coins: bytes):
        self._client, self._count = client, len(rows)
        plan, numbers = ctypes.byref(client._plan), (ctypes.c_uint32 * len(rows))(*rows)
        size = _number(_LIBRARY.pir_query_size(plan, len(rows)))
        self.answer_size = _number(_LIBRARY.pir_answer_size(plan, len(rows)))
        self.session = int.from_bytes(coins[:8], "big")
        self.frames = []
        out, used = ctypes.create_string_buffer(size), ctypes.c_size_t()
        for index in range(1, client.servers + 1):
            _checked(_LIBRARY.pir_query(plan, numbers, len(rows), coins, len(coins), index, out, size, ctypes.byref(used)))
            self.frames.append(out.raw[: used.value])

    def judge(self, answers: Sequence[Optional[bytes]]) -> Verdict:
        """The verdict on what each server answered, in order; None for a server that was silent."""
        joined, n = b"".join(it or b"" for it in answers), len(answers)
        lengths = (ctypes.c_size_t * max(n, 1))(*(len(it or b"") for it in answers))
        present = bytes(it is not None for it in answers)
        room, told, who = self.answer_size, _Listing(), ctypes.create_string_buffer(b"\xff" * n, n)
        while True:
            out = ctypes.create_string_buffer(room)
            code = _LIBRARY.pir_liars(
                *(ctypes.byref(self._client._plan), self._count, self.session, joined, len(joined), lengths, n),
                *(present, n, out, room, who, n, ctypes.byref(told)),
            )
            if code != -5:
                break
            room = told.needed
        said = None if b"\xff" in who.raw else list(who.raw)
        return Verdict(_checked(code), self._blocks(out.raw, told), self._text(code, told), said)

    @staticmethod
    def _blocks(written: bytes, told: _Listing) -> List[bytes]:
        return [written[i * told.block_size : (i + 1) * told.block_size] for i in range(told.blocks)]

    @staticmethod
    def _text(code: int, told: _Listing) -> str:
        return {
            5: f"{told.answers} answers are usable, and {told.agreement} have to agree",
            6: f"an agreement of {told.agreement} is too weak for {told.answers} answers of degree {told.degree}",
            7: f"the decoding costs {told.cost}, which is too much",
        }.get(code, f"{told.blocks} block{'s' * (told.blocks != 1)}")


class Client:
    """A database that several servers hold, and how it is asked.

    `degree` servers together learn nothing of the row; `agree` answers have to agree. Take 2 * agree > servers + degree + tau:
    then a verdict has one block at most, and it is the right one where `agree` servers are honest. `tau` is that of a database
    that is shared among the servers. In the scheme XOR all servers have to answer: leave `degree` and `agree` out there."""

    def __init__(
        self,
        rows: int,
        width: int,
        degree: Optional[int] = None,
        agree: Optional[int] = None,
        servers: int = 0,
        scheme: int = SHAMIR,
        tau: int = 0,
    ):
        if scheme == XOR:
            degree, agree = servers - 1 if degree is None else degree, servers if agree is None else agree
        numbers = (scheme, degree, agree, servers, tau, rows, width)
        if not all(isinstance(it, int) and 0 <= it < 1 << 32 for it in numbers):
            raise PirError(-1, REFUSALS[-1])
        self._plan, self.servers = _Plan(*numbers), servers
        self.coins_size(1)

    def coins_size(self, count: int) -> int:
        """How many coins a query for so many rows takes."""
        if not 0 <= count < 1 << 64:
            raise PirError(-2, REFUSALS[-2])
        return _number(_LIBRARY.pir_coins(ctypes.byref(self._plan), count))

    def ask(self, block: Union[int, Sequence[int]], coins: Optional[bytes] = None) -> Query:
        """The query for a row, or for up to 16 rows at once. The coins are random bytes of the system, if none are given."""
        rows = [block] if isinstance(block, int) else list(block)
        if not all(0 <= it < 1 << 32 for it in rows):
            raise PirError(-2, REFUSALS[-2])
        needed = self.coins_size(len(rows))
        return Query(self, rows, secrets.token_bytes(needed) if coins is None else bytes(coins))


def _lines(text: str) -> dict:
    """The members of a text of the form that `pir_list build` writes, where Python has no reader of TOML (before 3.11)."""
    said: dict = {}
    members = said
    for line in filter(None, map(str.strip, text.splitlines())):
        name, found, value = line.partition("=")
        if line == "[servers]" and "servers" not in said:
            members = said["servers"] = {}
        elif found and name.strip() not in members:
            members[name.strip()] = json.loads(value)
        else:
            raise ValueError(f"not understood: {line}")
    return said


def _catalog(text: bytes) -> dict:
    """The members of a catalog, each in its range (docs/SPECIFICATION.md, "The catalog of a list")."""
    try:
        if len(text) > MOST_CATALOG:
            raise ValueError("too long")
        try:
            from tomllib import loads
        except ImportError:
            loads = _lines
        said = loads(text.decode())
    except ValueError as error:
        raise BadCatalog(f"no catalog: {error}") from None
    wrong = [it for it in said if it not in (*DIGITS, *RANGES, "servers")] + [it for it in (*DIGITS, *RANGES) if it not in said]
    wrong += [it for it in DIGITS if not (isinstance(said.get(it), str) and re.fullmatch(f"[0-9a-fA-F]{{{DIGITS[it]}}}", said[it]))]
    wrong += [it for it in RANGES if not (type(said.get(it)) is int and RANGES[it][0] <= said[it] <= RANGES[it][1])]
    if not wrong:
        entry = said["digest"] + (said["value"] and 2 + said["value"])
        fitting = (said["width"] - 10) // entry * said["rows"]
        holds = {"width": 10 + entry <= said["width"], "rows": said["rows"] * said["width"] <= 1 << 30, "entries": said["entries"] <= fitting}
        wrong = [it for it in holds if not holds[it]]
    if wrong:
        raise BadCatalog(f"no catalog of this format: {wrong[0]}")
    return said


class KeyList:
    """What a client knows of a list of keys, as its catalog has it: where a key stands, and what its row says of it.

        keys = KeyList.read("leaked.toml")
        query = keys.client(degree=1, agree=3, servers=4).ask(keys.row_of(b"password123"))
        ..
        keys.look_in(query.judge(answers).block, b"password123")      # its value, or None where the list hasn't the key
    """

    def __init__(self, salt: bytes, tag: bytes, digest: int, value: int, rows: int, width: int):
        if len(salt) != 16 or len(tag) != 8 or not all(0 <= it < 1 << 32 for it in (digest, value, rows, width)):
            raise PirError(-7, REFUSALS[-7])
        self.salt, self.tag, self.rows, self.width = salt, tag, rows, width
        self._list = _List(digest, value, rows)
        self.row_of(b"")

    @classmethod
    def read(cls, path: str) -> "KeyList":
        """That of a catalog's file, as `pir_list build` writes it. Raises `BadCatalog` where it is none. What it says of servers is
        passed over."""
        with open(path, "rb") as it:
            said = _catalog(it.read(MOST_CATALOG + 1))
        return cls(bytes.fromhex(said["salt"]), bytes.fromhex(said["list"]), *(said[it] for it in ("digest", "value", "rows", "width")))

    def client(self, degree: int, agree: int, servers: int) -> Client:
        """The client of the list's table."""
        return Client(self.rows, self.width, degree, agree, servers)

    def row_of(self, key: bytes) -> int:
        """The row that a key belongs to."""
        key = bytes(key)
        return _number(_LIBRARY.pir_list_row(ctypes.byref(self._list), self.salt, key, len(key)))

    def look_in(self, row: bytes, key: bytes) -> Optional[bytes]:
        """The key's value by its row, empty where keys have none; None where the list hasn't the key. Raises `BrokenRow` where the row
        is none of the list: then nothing is known of the key. A row is looked at for its form alone: take it from a verdict."""
        row, key = bytes(row), bytes(key)
        if len(row) != self.width:
            raise BrokenRow(10, f"a row of the list has {self.width} bytes, and this one {len(row)}")
        room, used = max(self._list.value_bytes, 1), ctypes.c_size_t()
        out = ctypes.create_string_buffer(room)
        words = (row, len(row), key, len(key), out, room, ctypes.byref(used))
        code = _checked(_LIBRARY.pir_list_find(ctypes.byref(self._list), self.salt, self.tag, *words))
        if code == 10:
            raise BrokenRow(code, "the row is none of the list")
        return None if code == 14 else out.raw[: used.value]


class Reply(NamedTuple):
    """What a server replies to a guest."""

    frame: bytes
    """The bytes to send; none where the guest's end before its query does."""
    met: int
    """0 where its query is answered, 1 to 3 where it is refused with that status, 4 where the guest is gone."""


def reply(database: bytes, width: int, guest: bytes, scheme: int = SHAMIR) -> Reply:
    """What a server of these rows, each of `width` bytes, replies to the bytes of a guest, as `pir serve` does. Where `met` is 4 of what
    came so far, read on and ask again; a refusal is known after 24 bytes. Then send, and read on till the guest closes."""
    if not all(0 <= it < 1 << 32 for it in (width, scheme)):
        raise PirError(-8, REFUSALS[-8])
    guest = bytes(guest)
    room, used, met = 24, ctypes.c_size_t(), ctypes.c_uint32()
    while True:
        out = ctypes.create_string_buffer(room)
        words = (database, len(database), scheme, width, guest, len(guest), out, room, ctypes.byref(used), ctypes.byref(met))
        code = _LIBRARY.pir_reply(*words)
        if code != -5:
            break
        room = used.value
    _checked(code)
    return Reply(out.raw[: used.value], met.value)


class Replayed(NamedTuple):
    """What a recorded session comes to."""

    code: int
    """That of `Verdict`."""
    text: str
    """The lines that `pir replay` prints."""


def replay(session: bytes) -> Replayed:
    """The verdict on a recorded session, as `pir replay` gives it. Raises `BadSession` where the bytes are none."""
    session = bytes(session)
    # (a text is longer than its session only where several blocks are listed)
    room, used = max(len(session), 1), ctypes.c_size_t()
    while True:
        out = ctypes.create_string_buffer(room)
        code = _LIBRARY.pir_replay(session, len(session), out, room, ctypes.byref(used))
        if code != -5:
            break
        room = used.value
    if _checked(code) == 10:
        raise BadSession(code, used.value)
    return Replayed(code, out.raw[: used.value].decode())
