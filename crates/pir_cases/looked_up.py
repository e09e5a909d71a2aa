#!/usr/bin/env python3
"""looked_up.py: cases of look-ups by key, over three servers that hold a few rows, as the specification has them.

Each look-up is a binary search, here by the places of the rows alone. What each server is sent and answers is worked out from
the polynomials of the coins, by values, in the field of FIPS 197, and the blocks of a wrong turn by every two answers; nothing
is shared with the program that is tested. Nothing runs it but a person who wants more of them:

    python3 looked_up.py >data/lookup.cases
"""
from itertools import combinations

from bounds import INVERSE, times

HEAD = """# Look-ups by key: what looked_up.py prints. Three servers hold a few rows, in Shamir's sharing of degree 1; two have to
# agree. In each fetch the coins are the number of the session, from 7 on, and one for each row."""
THREE = ["10aa", "20bb", "30cc"]
FOUR = THREE + ["40dd"]


def header(letter, index, session, rows, status=0):
    """The header of a query (letter `51`) or of an answer (`41`)."""
    return f"504952{letter} 0101{index:02x}{status:02x} {session:016x} {rows:08x} 00000002"


def shown(data):
    return "".join(f"{byte:02x}" for byte in data)


def query(row, coins, index):
    """The payload of a query: at the server's index the values of a polynomial of degree 1 for each row."""
    return [(1 if j == row else 0) ^ times(coin, index) for j, coin in enumerate(coins)]


def answer(payload, rows):
    """The payload times the rows."""
    sums = [0, 0]
    for factor, row in zip(payload, rows):
        sums = [a ^ times(factor, int(row[c:c + 2], 16)) for a, c in zip(sums, (0, 2))]
    return sums


def listing(answers):
    """The text of the blocks on which two answers agree."""
    blocks = set()
    for (i, a), (j, b) in combinations(answers.items(), 2):
        blocks.add(shown(times(times(x, j) ^ times(y, i), INVERSE[i ^ j]) for x, y in zip(a, b)))
    return f"blocks {len(blocks)}\\n" + "".join(block + "\\n" for block in sorted(blocks))


class Servers:
    """What three servers answer in each turn: from their rows, but for a turn in which they have others, lie, or refuse."""

    def __init__(self, rows, other=None, lies=(), refuse=()):
        self.rows, self.other, self.lies, self.refuse = rows, other or {}, lies, refuse

    def answers(self, turn, coins, row):
        """What each answers, and a refusal as None."""
        rows = self.other.get(turn, self.rows)
        given = {i: answer(query(row, coins, i), rows) for i in (1, 2, 3)}
        if turn in self.lies:
            given[3][1] ^= 0x5A
        if turn in self.refuse:
            given[2] = given[3] = None
        return given

    def block(self, turn, row):
        """The block that is listed alone, if one is."""
        if turn in self.lies or turn in self.refuse:
            return None
        return self.other.get(turn, self.rows)[row]


def looked_up(servers, key):
    """The row that each turn asks for, and what the look-up comes to: a row, None, or the first turn without a block."""
    low, high, found, lost, asked = 0, len(servers.rows), None, None, []
    for turn in range(len(servers.rows).bit_length()):
        middle = low + (high - low) // 2
        row = 0 if found or lost is not None or low >= high else middle
        asked.append(row)
        block = servers.block(turn, row)
        if block is None:
            lost = turn if lost is None else lost
        elif block.startswith(key):
            found = found or block
        elif low < high and block < key:
            low = middle + 1
        elif low < high:
            high = middle
    return asked, found, lost


def case(name, servers, key, pieces=None, coins_left=None):
    """A case. With `coins_left` there are so many coins too few."""
    rows = len(servers.rows)
    asked, found, lost = looked_up(servers, key)
    coins = [[5 + 2 * turn + 16 * j for j in range(rows)] for turn in range(len(asked))]
    given = [servers.answers(turn, coins[turn], row) for turn, row in enumerate(asked)]
    held = "".join(f"{7 + turn:016x}{shown(coin)}" for turn, coin in enumerate(coins))
    done = len(asked)
    if coins_left is not None:
        held = held[:2 * coins_left]
        done = coins_left // (8 + rows)
    print(f"\ncase {name}\nwords lookup --rows {rows} --width 2 --key {key} --degree 1 --agree 2 --coins C a b c")
    if pieces:
        print(f"pieces {pieces}")
    print(f"port coins {held}")
    for i, address in zip((1, 2, 3), "abc"):
        print(f"port link {i}" + "".join(
            f" {header('41', i, 7 + turn, rows, 0 if answers[i] else 1)} {shown(answers[i] or [0, 0])}"
            for turn, answers in enumerate(given)))
        print(f"opened link {i}" + f" {address}" * done)
        print(f"took link {i}" + "".join(
            f" {header('51', i, 7 + turn, rows)} {shown(query(asked[turn], coins[turn], i))}" for turn in range(done)))
    print("opened coins C\nleft coins")
    if coins_left is not None:
        print(f"status bad-input coins-ended {coins_left % (8 + rows)}")
    elif lost in servers.refuse:
        print('status too-few 1 2\noutput "too few 1 2\\n"')
    elif lost is not None:
        print(f'status several\noutput "{listing(given[lost])}"')
    elif found:
        print(f'status one\noutput "found {found}\\n"')
    else:
        print('status absent\noutput "absent\\n"')


def main():
    print(HEAD)
    one, three, four = Servers(["10aa"]), Servers(THREE), Servers(FOUR)
    case("the one row", one, "10", pieces="1 7 1000")
    case("another key than the one row's", one, "11")
    case("the last of three rows", three, "30", pieces="1 7 1000")
    case("the middle row, found in the first of two turns, which are both taken", three, "20")
    case("the first of three rows", three, "10")
    case("a key of a whole row", three, "30cc")
    case("a key between two rows", three, "25")
    case("a key before all rows", three, "05")
    case("a key behind all rows", three, "31")
    case("a row's first byte, and another second", three, "30cd")
    for row in FOUR:
        case(f"key {row[:2]} of four rows", four, row[:2])
    case("key 41 of four rows", four, "41")
    case("a key that is met when no row is left", Servers(FOUR, other={2: ["25ee"] + FOUR[1:]}), "25")
    case("a lie in the first turn", Servers(THREE, lies=(0,)), "30")
    case("a lie in the turn after the key is found", Servers(THREE, lies=(1,)), "20")
    case("a lie in both turns, of which the first is told", Servers(THREE, lies=(0, 1)), "30")
    case("two servers refuse in the second turn", Servers(THREE, refuse=(1,)), "30")
    case("two servers refuse in the first turn, and one lies in the second", Servers(THREE, refuse=(0,), lies=(1,)), "30")
    for held in (0, 1, 10, 11, 12, 21):
        case(f"{held} coins of 22", three, "30", coins_left=held)


if __name__ == "__main__":
    main()
