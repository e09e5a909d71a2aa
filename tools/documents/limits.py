"""The numbers in tables of limits, frames and sessions are the constants of the code, and the program takes just those."""
import ast
import re
import subprocess

from documents.repository import crates, files_below, found, lines_of, read, table_rows


def constants():
    """Returns the constants of the code with a value that can be read, and the numbers of variants, by name, each with its file."""
    texts, known = {}, {}
    for crate in crates():
        for name in files_below(f"crates/{crate}/src", ".rt"):
            if "test" not in name:
                path = f"crates/{crate}/src/{name}"
                for constant, value in re.findall(r"\bconst ([A-Z][A-Z0-9_]*): [ui]\w+ = ([^;]+);", read(path)):
                    texts.setdefault(constant, []).append((path, re.sub(r"\s+as\s+\w+", "", value)))
                for kind, variants in re.findall(r"\benum (\w+) \{(.*?)\n\}", read(path), re.S):
                    for variant, value in re.findall(r"^    (\w+) = (\d+),", variants, re.M):
                        texts.setdefault(f"{kind}::{variant}", []).append((path, value))

    def value_of(node):
        if isinstance(node, ast.Constant) and isinstance(node.value, int):
            return node.value
        if isinstance(node, ast.Name) and node.id in texts:
            return value_of(ast.parse(texts[node.id][0][1], mode="eval").body)
        if isinstance(node, ast.BinOp):
            one, other = value_of(node.left), value_of(node.right)
            by = {ast.Add: int.__add__, ast.Sub: int.__sub__, ast.Mult: int.__mul__, ast.LShift: int.__lshift__, ast.Pow: int.__pow__}
            if type(node.op) in by and (not isinstance(node.op, (ast.LShift, ast.Pow)) or 0 <= other < 200):
                return by[type(node.op)](one, other)
        raise ValueError

    for name, places in texts.items():
        for path, text in places:
            try:
                known.setdefault(name, {})[path] = value_of(ast.parse(text.strip(), mode="eval").body)
            except (ValueError, SyntaxError, RecursionError):
                pass
    return known


def numbers_in(text):
    """Returns the numbers that stand in a text, powers as one number."""
    text = re.sub(r"(?<=\d),(?=\d{3}\b)", "", text)
    return {int(base) ** int(power) if power else int(base) for base, power in re.findall(r"(?<![\w.])(?<![\w^])(\d+)(?:\^(\d+))?(?![\w^])", text.replace("..", " .. "))}


# Which quantity a row is of, the constant that bounds it, and words that have it at a value and touch no server.
FETCH = "fetch --rows {rows} --width {width} --block 0 --degree {degree} --agree {agree} --coins /dev/null"


def fetch_words(rows=1, width=1, degree=1, agree=2, servers=2, more=()):
    return FETCH.format(rows=rows, width=width, degree=degree, agree=agree).split() + [*more, *(f"127.0.0.1:{1 + it}" for it in range(servers))]


def cells_words(cells):
    """Rows and a width whose product is so many, or as few more as can be."""
    width = 1
    while cells // width >= 1 << 20 and width < 1 << 16:
        width *= 2
    return fetch_words(rows=-(-cells // width), width=width)


def serve_words(name, value):
    more = {"conns": 1, name: value}
    return ["serve", "--database", "/dev/null", "--width", "1", "--listen", "127.0.0.1:1", *[it for key in more for it in (f"--{key}", str(more[key]))]]


def front_words(n):
    # (there can be no guest at the address `-`, so that a front which is taken ends at once)
    return ["front", *f"--rows {n} --width 1 --shard 1 --conns 1 --listen -".split(), *("a" for _ in range(n))]


QUANTITIES = {
    "servers": (["MOST_SERVERS"], lambda n: fetch_words(servers=n)),
    "degree": (["MOST_DEGREE"], lambda t: fetch_words(degree=t, agree=t + 1, servers=t + 1)),
    "tau": (["MOST_TAU"], lambda u: fetch_words(agree=u + 2, servers=u + 2, more=[f"--tau={u}"])),
    "rows": (["MOST_ROWS"], lambda r: fetch_words(rows=r)),
    "width": (["MOST_WIDTH"], lambda s: fetch_words(width=s)),
    "bytes of a database": (["MOST_CELLS"], cells_words),
    "guests": (["MOST_GUESTS"], lambda n: serve_words("conns", n)),
    "shards": (["MOST_SHARDS"], front_words),
    "workers": (["MOST_WORKERS"], lambda n: serve_words("workers", n)),
    "port of": (["LEAST_PORT", "MOST_PORT"], lambda p: ["demo", "--port", str(p), *"--database /nowhere --rows 1 --width 1 --block 0 --servers 2 --degree 1 --agree 2".split()]),
}


def limit_rows():
    """Returns each row that says the range of a quantity: where, the quantity, and the text of the range."""
    for path in ("docs/SPECIFICATION.md", "README.md"):
        for number, cells in table_rows(path, "Limits"):
            if cells[0] != "Quantity":
                yield f"{path}:{number}", cells[0], cells[1]
    for number, line in lines_of("docs/pir.1"):
        row = re.match(r"\.It (.+) Ta (.+)", line)
        if row:
            yield f"docs/pir.1:{number}", row[1], row[2]


def is_taken(program, words):
    """Returns whether the program takes the words as a command."""
    try:
        ran = subprocess.run([program, *words], stdin=subprocess.DEVNULL, stdout=subprocess.DEVNULL, stderr=subprocess.DEVNULL, timeout=30)
    except subprocess.TimeoutExpired:
        return True
    return ran.returncode != 2


def look_at_limits(program):
    known, seen, tried = constants(), set(), {}
    for where, quantity, text in limit_rows():
        of = next((it for it in QUANTITIES if quantity.startswith(it)), None)
        span = re.search(r"(\d+(?:\^\d+)?)\.\.(\d+(?:\^\d+)?)", text)
        if of is None or not span:
            if not re.match(r"scheme|agreement|blocks", quantity):
                found.bad(where, f"docs/check knows no quantity {quantity}, or the row has no range like 1..7")
            continue
        seen.add((where.partition(":")[0], of))
        names, words = QUANTITIES[of]
        least, most = (max(numbers_in(it)) for it in span.groups())
        for name, value in zip(names[-2:], (least, most) if len(names) == 2 else (most,)):
            values = set(known.get(name, {}).values())
            if not values:
                found.bad(where, f"the code has no constant {name}")
            elif values != {value}:
                found.bad(where, f"{quantity}: {value} stands here, and {name} is {', '.join(map(str, sorted(values)))}")
        if program:
            for value, wanted in ((least - 1, False), (least, True), (most, True), (most + 1, False)):
                if (of, value) not in tried:
                    tried[of, value] = is_taken(program, words(value))
                if tried[of, value] != wanted:
                    found.bad(where, f"{quantity}: the program {'takes' if tried[of, value] else 'refuses'} {value}")
    for path in ("docs/SPECIFICATION.md", "docs/pir.1"):
        for of in QUANTITIES:
            if (path, of) not in seen:
                found.bad(path, f"its table of limits has no row for: {of}")
    rows = [it for section in ("Limits", "Time limits") for it in table_rows("docs/SPECIFICATION.md", section)]
    for number, cells in rows:
        if len(cells) < 3 or cells[0] == "Quantity":
            continue
        names, places = re.findall(r"`([A-Z][A-Z0-9_]*)`", cells[2]), re.findall(r"`([\w./]+/[\w./]+)`", cells[2])
        for name in names:
            if not any(it in known.get(name, {}) for it in places):
                found.bad(f"docs/SPECIFICATION.md:{number}", f"{name} doesn't stand in {' or '.join(places) or 'a file that is named'}")
            elif not numbers_in(cells[1]) & set(known[name].values()):
                found.bad(f"docs/SPECIFICATION.md:{number}", f"{cells[0]}: the range hasn't the value of {name}")
    look_at_frames(known)
    found.note(f"{len(known)} constants; {len(tried)} values were tried" + ("" if program else "; skipped: the tries, since the program isn't built"))


FIELDS = {"r": {"MOST_ROWS"}, "s": {"MOST_WIDTH", "MOST_CELLS"}, "t": {"MOST_DEGREE"}, "h": {"MOST_SERVERS"}, "n": {"MOST_SERVERS"}, "version": {"Version::Single", "Version::Several"}, "blocks": {"MOST_BLOCKS"}, "scheme": {"SHAMIR", "XOR"}}


def look_at_frames(known):
    """Compares the fields of frames and session files with the constants of the code."""
    path = "docs/SPECIFICATION.md"
    magic = {it for name, values in known.items() if "MAGIC" in name for it in values.values()}
    for number, line in lines_of(path):
        for text, digits in re.findall(r"`([A-Z]{4})` = `([0-9a-f]{8})`", line):
            if text.encode().hex() != digits or int(digits, 16) not in magic:
                found.bad(f"{path}:{number}", f"{text} is {text.encode().hex()}, and the code has {', '.join(f'{it:08x}' for it in sorted(magic))}")
    for number, cells in table_rows(path):
        if len(cells) != 3 or not re.match(r"\d", cells[0]) or cells[1] not in FIELDS:
            continue
        allowed = {it for name in FIELDS[cells[1]] for it in known.get(name, {}).values()}
        # (1 and 2 are least numbers and schemes)
        wrong = {it for it in numbers_in(cells[2]) if it > 2} - allowed
        lacking = {it for it in allowed if it > 2} - numbers_in(cells[2])
        if wrong or lacking or not allowed:
            told = ", ".join(map(str, sorted(wrong))) or "no such number"
            found.bad(f"{path}:{number}", f"{cells[1]}: {told} stands here, and the code has {', '.join(map(str, sorted(allowed)))}")
