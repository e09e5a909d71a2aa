#!/usr/bin/env python3
"""shared_out.py: cases of databases that are split into shares, as the specification has them.

Each share is worked out position by position, as the value of a polynomial by its powers, in the field of FIPS 197; nothing is
shared with the program that is tested. Nothing runs it but a person who wants more of them:

    python3 shared_out.py >data/split.cases
"""
from bounds import times

HEAD = """# Databases that are split into shares: what shared_out.py prints. A byte's share for server a is the value at a of the
# polynomial with that byte as its constant and the next tau coins behind it."""


def shown(data):
    return "".join(f"{byte:02x}" for byte in data)


def power(a, e):
    return 1 if e == 0 else times(a, power(a, e - 1))


def share(cells, coins, tau, index):
    """The share of the server with this index."""
    values = []
    for i, byte in enumerate(cells):
        value = byte
        for e in range(1, tau + 1):
            value ^= times(coins[i * tau + e - 1], power(index, e))
        values.append(value)
    return values


class Splitting:
    """A database, and how it is split."""

    def __init__(self, data, width, servers, tau, coins=None):
        self.data, self.width, self.servers, self.tau = data, width, servers, tau
        self.rows = -(-len(data) // width)
        self.cells = data + bytes(self.rows * width - len(data))
        need = len(self.cells) * tau
        self.coins = [(17 * i + 1) % 256 for i in range(need)] if coins is None else coins
        assert len(self.coins) >= need

    def words(self, coins=" --coins C"):
        return (f"words split --database F --width {self.width} --servers {self.servers} --tau {self.tau} --into d{coins}\n"
                f"port database {shown(self.data)}\nport coins {shown(self.coins)}")

    def shares(self):
        for a in range(1, self.servers + 1):
            print(f"opened share {a} d.{a}\ntook share {a} {shown(share(self.cells, self.coins, self.tau, a))}")

    def line(self):
        print(f'output "split {self.servers} {self.rows} {self.width}\\n"')


def whole(name, splitting, pieces="", coins=" --coins C", opened="C"):
    """A case in which all shares are written."""
    print(f"\ncase {name}\n{splitting.words(coins)}")
    if pieces:
        print(f"pieces {pieces}")
    splitting.shares()
    rest = splitting.coins[len(splitting.cells) * splitting.tau:]
    print(f"opened database F\nopened coins {opened}\nleft database\nleft coins {shown(rest)}".rstrip())
    print("status one")
    splitting.line()


def failing(name, splitting, each, status):
    """A case in which each call of a port fails, or it has too little room: what was taken before it is whole."""
    print(f"\ncase {name}\n{splitting.words()}\npieces 1\n{each}")
    splitting.shares()
    print(f"opened database F\nopened coins C\nstatus {status}")
    splitting.line()


def refused(name, words, database, coins, status, opened_coins, more=""):
    """A case in which no share's file is opened."""
    print(f"\ncase {name}\nwords split {words} --into d --coins C\nport database {database}\nport coins {coins}".rstrip())
    if more:
        print(more)
    print(f"opened database F\nopened coins{opened_coins}\nopened share 1\ntook share 1\nopened share 2\ntook share 2\nstatus {status}")


def main():
    print(HEAD)
    worked = Splitting(b"ABCD", 2, 3, 1, coins=[1, 2, 3, 4])
    whole("three servers, of which one learns nothing", worked, pieces="1 7 1000")
    whole("two of five learn nothing", Splitting(b"ABCDEF", 3, 5, 2), pieces="5 1000")
    whole("all but one of four learn nothing", Splitting(b"\x00\xff\x80", 1, 4, 3))
    whole("two servers", Splitting(b"A", 1, 2, 1))
    whole("the last row is filled up", Splitting(b"ABCDE", 2, 3, 1))
    whole("a row that is longer than the file", Splitting(b"A", 5, 3, 2))
    whole("more coins than it takes", Splitting(b"ABCD", 2, 3, 1, coins=[1, 2, 3, 4, 5, 6]))
    whole("coins that are all zero: each share is the database", Splitting(b"ABCD", 2, 3, 1, coins=[0] * 4))
    whole("one more than sixteen rows of a share at once", Splitting(bytes(range(33)), 11, 3, 2))
    whole("coins of the system", worked, coins="", opened="/dev/urandom")
    failing("each call on the database fails", worked, "each call on database fails", "read-fault")
    failing("each call on the coins fails", worked, "each call on coins fails", "read-fault")
    for a in (1, 2, 3):
        failing(f"each call on the file of share {a} fails", worked, f"each call on share {a} fails", "write-fault")
    failing("each call on Output fails", worked, "each call on output fails", "write-fault")
    for a in (1, 2, 3):
        print(f"\ncase the disk is full at share {a}\n{worked.words()}\npieces 1\neach room of share {a}")
        for b in range(1, a + 1):
            print(f"opened share {b} d.{b}\ntook share {b} {shown(share(worked.cells, worked.coins, 1, b))}")
        for b in range(a + 1, 4):
            print(f"opened share {b}\ntook share {b}")
        print("status write-fault")
    print(f"\ncase each room of Output that is too small\n{worked.words()}\npieces 1\neach room of output")
    worked.shares()
    print("status write-fault")
    worked.line()
    shape = "--database F --width 2 --servers 3 --tau 1"
    refused("coins that end", shape, "41424344", "01020304", "bad-input coins-ended front", " C", "each front of coins 0..4")
    refused("coins that end, of which each byte takes two", "--database F --width 2 --servers 3 --tau 2", "41424344", "01020304050607",
            "bad-input coins-ended 7", " C")
    refused("a last row that is filled up takes coins too", "--database F --width 2 --servers 3 --tau 1", "414243", "010203",
            "bad-input coins-ended 3", " C")
    refused("an empty database", shape, "", "01020304", "bad-input empty-file", "")
    refused("a database with one byte more than the coins may be for", "--database F --width {MOST_WIDTH} --servers 255 --tau 254",
            f"43*{65536 * 64 + 1}", "01", f"bad-input too-big {65536 * 64}", "")
    refused("a database with one byte more than any may have", "--database F --width 1 --servers 3 --tau 1", f"43*{2**20 + 1}", "01",
            f"bad-input too-big {2**20}", "")


if __name__ == "__main__":
    main()
