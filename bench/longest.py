#!/usr/bin/env python3
"""Searches, as an enemy would, for the sessions within the limits that keep a replay longest or take most memory.

    bench/longest.py [--quick] [--only KIND] [--seconds LIMIT] [PROGRAM]     (crates/pir/out/pir where none is named)

Of each kind below it takes the k answers, the degree t and the agreement h for which a model of the costs of the decoder
promises most, makes sessions, replays them, and goes on from the worst to its neighbours. A replay may take LIMIT
processor seconds (60, and 20 with --quick) and 2 GB, and a kind three times LIMIT, or once with --quick; a kind ends
where a replay is cut off. First come the sessions of `KNOWN`. For each kind it prints the session that took longest and the
one that took most memory beside its size: k, t, h, width, processor seconds, greatest memory and the session's size.

    none        no two answers agree more than by chance, in one column
    agree       h agree in one column
    but-one     all but one agree in one column
    chain       in each column one answer more is off
    far         in each column as many more are off as make a list proper necessary, or two or four times as many
    groups      the answers part into two groups or three, each of which goes on as `far`
    last        as `far`, in the last of 65536 columns
    blocks      as `far`, in a session of sixteen blocks
    shared      as many groups of h as can share t answers, 65536 columns wide, and each is listed
    planes      lists near Johnson's bound, from planes and spaces over small fields, in all of 65536 columns or in the last
    degree      as `chain`, until h are left, who agree in all of 65536 columns, where the factors of interpolation cost most

It ends with 1 where a replay did not list. It needs Linux and Python 3.8, one processor and 40 MB of disk."""
import argparse
import collections
import fcntl
import math
import os
import random
import resource
import subprocess
import sys
import tempfile
import time

sys.dont_write_bytecode = True
from make_session import logarithms, powers, session, tables  # noqa: E402

TOP = os.path.dirname(os.path.dirname(os.path.abspath(__file__)))

# The limits of the program (docs/SPECIFICATION.md).
MOST_SERVERS, MOST_WIDTH, MOST_BLOCKS, MOST_COST = 255, 65536, 16, 32768
MOST_MEMORY = 1 << 31
PIPE_SIZE = 1031  # F_SETPIPE_SZ
# A model's promise counts from so many products on; below it is less than a tenth of a second.
LEAST_PROMISE = 1e7

Shape = collections.namedtuple("Shape", "k t h")
Trial = collections.namedtuple("Trial", "kind shape variant report")
Run = collections.namedtuple("Run", "trial width size seconds memory status listed")
# What a session is made of: columns at the front or at the end of a random block, and values that every column has a multiple of.
Layout = collections.namedtuple("Layout", "columns width blocks late pattern", defaults=(1, 0, False, None))

# Power e of each byte, a row for each e.
POWERS = [bytes([e == 0] + [powers[logarithms[x] * e % 255] for x in range(1, 256)]) for e in range(256)]


# ---- The model.


def list_products(k, t, h):
    """How many products of 16 lanes the list of a column takes, where few of k answers agree (Koetter's iteration), or None
    where the list is too costly."""
    m = t * (k - h) // (h * h - k * t) + 1
    cost = k * m * (m + 1) // 2
    if cost > MOST_COST:
        return None
    half = h * m + t / 2
    rows = int((half - math.sqrt(max(half * half - 2 * t * cost, 0))) / t) + 1
    return cost * cost / 2 * -(-rows // 16)


def bound(k, t, h):
    return k * (h - t) // (h * h - k * t)


def least_misses(p, t, h):
    """How many of p answers have to be off each polynomial so that the list of a column isn't seen without interpolation."""
    return min(h - t, p // (t + 1))


def possible(k, t, h, products):
    """What all lists take that Johnson's count leaves room for."""
    step = min(h - t, h // (t + 1))
    sizes = range(h + step, k + 1, step)
    return sum(bound(k, t, a) * products[min(k, a + step - 1)] for a in sizes)


def promises(k, t, h, products, one, far):
    """What each kind is promised to take at these numbers, in products of 16 lanes."""
    groups = (k - t) // (h - t)
    yield "none", products[k]
    yield "possible", possible(k, t, h, products) if products[k] > LEAST_PROMISE else 0
    yield "chain", one[k]
    yield "far", far[k]
    for count in (2, 3):
        size = t + (k - t) // count
        if size >= h:
            yield "groups", products[k] + count * far[size]
    if groups > 1:
        yield "shared", products[k] + groups * (h - t) * t * MOST_WIDTH / 16
        yield "walk", groups * (h - t) * t
    yield "degree", (k - h) * (k - t) * t * t


def ranked():
    """For each model its best shapes, from the best on: one for each t and each 32 values of k."""
    best = collections.defaultdict(dict)
    for t in range(1, MOST_SERVERS):
        for h in range(t + 1, MOST_SERVERS + 1):
            products, one, far = ([0.0] * (MOST_SERVERS + 1) for _ in range(3))
            for k in range(h, min(MOST_SERVERS, (h * h - 1) // t) + 1):
                taken = list_products(k, t, h)
                if taken is None:
                    break
                products[k], one[k], far[k] = taken, taken + one[k - 1], taken + far[k - least_misses(k, t, h)]
                for name, promise in promises(k, t, h, products, one, far):
                    place = t, k // 32
                    if promise > best[name].get(place, (0,))[0]:
                        best[name][place] = promise, Shape(k, t, h)
    return {name: [shape for _, shape in sorted(places.values(), reverse=True)] for name, places in best.items()}


def is_listed(shape):
    k, t, h = shape
    return 1 <= t < h <= k <= MOST_SERVERS and h * h > k * t and list_products(k, t, h) is not None


def neighbours(shape):
    """Shapes close by that are listed, those with the most costly lists first."""
    k, t, h = shape
    near = [(k + a, t, h) for a in (1, -1, 2, -2, 4, -4)]
    near += [it for a in (1, -1) for it in ((k, t, h + a), (k + a, t + a, h + a))]
    return sorted((Shape(*it) for it in near if is_listed(it)), key=lambda it: -list_products(*it))


# ---- Columns: bytes of which place x is the answer of the server with index x.


def plus(a, b):
    return (int.from_bytes(a, "little") ^ int.from_bytes(b, "little")).to_bytes(len(a), "little")


def polynomial(t, rng):
    """The values of a random polynomial of degree t or less."""
    column = bytes(256)
    for row in POWERS[: t + 1]:
        column = plus(column, row.translate(tables[rng.randrange(256)]))
    return column


def with_off(column, off, rng):
    """The column, in which these answers are others."""
    column = bytearray(column)
    for x in off:
        column[x] ^= rng.randrange(1, 256)
    return bytes(column)


def none_columns(shape, rng, variant):
    return [rng.randbytes(256)]


def agree_columns(shape, rng, variant):
    return [with_off(polynomial(shape.t, rng), range(shape.h + 1, shape.k + 1), rng)]


def but_one_columns(shape, rng, variant):
    return [with_off(polynomial(shape.t, rng), [shape.k], rng)]


def chain_columns(shape, rng, variant):
    off = range(shape.k, max(shape.h - 2, 0), -1)
    return [with_off(polynomial(shape.t, rng), off[: i + 1], rng) for i in range(len(off))]


def narrowed(kept, t, h, times):
    """The answers that are left where in each group of t + 1, or the first h - t of these, so many are off."""
    misses = least_misses(len(kept), t, h)
    off = {x for i in range(misses) for x in kept[i * (t + 1) : (i + 1) * (t + 1)][:times]}
    return [x for x in kept if x not in off]


def far_parts(kept, t, h, times):
    """The answers that agree in one column after the other; none in the last."""
    parts = []
    while len(kept) >= h + least_misses(len(kept), t, h):
        kept = narrowed(kept, t, h, times)
        parts.append(kept if len(kept) >= h else [])
    return parts


def far_columns(shape, rng, variant):
    k, t, h = shape
    everyone = range(1, k + 1)
    parts = far_parts(list(everyone), t, h, (1, 2, 4)[variant])
    return [with_off(polynomial(t, rng), set(everyone) - set(kept), rng) for kept in parts] or none_columns(shape, rng, 0)


def flower(k, t, count, rng):
    """A column in which so many groups of answers, which share the first t, lie on a polynomial each; and the groups."""
    shared, others = list(range(1, t + 1)), list(range(t + 1, k + 1))
    column = bytearray(rng.randbytes(256))
    size = len(others) // count
    groups = [others[i * size : (i + 1) * size] for i in range(count)]
    for x in shared:
        column[x] = 0
    for factor, group in zip(rng.sample(range(1, 256), count), groups):
        for x in group:
            value = factor
            for root in shared:
                value = tables[value][x ^ root]
            column[x] = value
    return bytes(column), [shared + group for group in groups]


def groups_columns(shape, rng, variant):
    k, t, h = shape
    column, groups = flower(k, t, 2 + variant, rng)
    columns, ways = [column], [far_parts(group, t, h, 1) for group in groups]
    for i in range(max(map(len, ways))):
        made = bytearray(rng.randbytes(256))
        for parts in reversed(ways):
            values = polynomial(t, rng)
            for x in parts[i] if i < len(parts) else []:
                made[x] = values[x]
        columns.append(bytes(made))
    return columns


# ---- Planes: in the space of dimension r over GF(q), the values x^(q^(r-1)) agree with a polynomial of degree q^(r-2) on each
# hyperplane: a linear form is c x^(q^(r-1)) and terms of lower degree, and it is constant there.

PLANES = {}


def plane_of(q, r):
    """The shape, and the indices, of what is left of the space where points are taken out until the list is cheap enough."""
    field = sorted(x for x in range(256) if POWERS[q][x] == x)
    if q == 16:
        field.sort(key=lambda x: POWERS[4][x] != x)
    points = [((), 0)]
    for i in range(r):
        points = [(way + (j,), point ^ tables[powers[i]][x]) for way, point in points for j, x in enumerate(field)]
    points.sort(key=lambda it: (max(it[0]), it[0]))
    space = {point for _, point in points}
    shift = next((x for x in range(1, 256) if x not in space), 0)
    indices = [point ^ shift for _, point in points]
    h, t = q ** (r - 1), q ** (r - 2)
    for first in range(1, len(indices)):
        shape = Shape(len(indices) - first, t, h)
        if is_listed(shape):
            return shape, [x for x in indices[first:] if x]


def planes():
    for q, r in [(2, 3), (2, 4), (2, 5), (2, 6), (2, 7), (2, 8), (4, 2), (4, 3), (16, 2)]:
        shape, indices = plane_of(q, r)
        PLANES[shape] = sorted(indices), POWERS[q ** (r - 1)]
    return sorted(PLANES, key=lambda it: -list_products(*it))


# ---- Sessions.


def layout_of(trial, rng):
    kind, shape, variant = trial.kind, trial.shape, trial.variant
    if kind in COLUMNS:
        return Layout(COLUMNS[kind](shape, rng, variant))
    if kind == "last":
        return Layout(far_columns(shape, rng, variant), MOST_WIDTH, late=True)
    if kind == "blocks":
        return Layout(far_columns(shape, rng, variant), MOST_WIDTH // MOST_BLOCKS, MOST_BLOCKS)
    if kind == "degree":
        return Layout(chain_columns(shape, rng, variant)[: shape.k - shape.h], MOST_WIDTH)
    if kind == "shared":
        values, _groups = flower(shape.k, shape.t, (shape.k - shape.t) // (shape.h - shape.t), rng)
    else:
        values = PLANES[shape][1]
    return Layout([values], MOST_WIDTH, late=True) if variant else Layout([], MOST_WIDTH, pattern=values)


def payloads(indices, layout, rng):
    """What each server answers, None of those between these indices."""
    width = max(layout.width * max(layout.blocks, 1), len(layout.columns))
    base, factors = rng.randbytes(width), rng.randbytes(width)
    made = [None] * max(indices)
    for x in indices:
        own = bytes(column[x] for column in layout.columns)
        row = plus(base, factors.translate(tables[layout.pattern[x]])) if layout.pattern else base
        made[x - 1] = row[: width - len(own)] + own if layout.late else own + row[len(own) :]
    return made


def write(trial, path):
    """Writes the session, and returns its width."""
    rng = random.Random(str(trial[:3]))
    layout = layout_of(trial, rng)
    indices = PLANES[trial.shape][0] if trial.kind == "planes" else range(1, trial.shape.k + 1)
    answers = payloads(indices, layout, rng)
    width = len(answers[-1]) // max(layout.blocks, 1)
    with open(path, "wb") as file:
        file.writelines(session(trial.shape.t, trial.shape.h, width, answers, layout.blocks))
    return width * max(layout.blocks, 1)


# ---- Replays.


def peak(pid):
    """The greatest memory of the process, in bytes, once it waits for its text to be taken, or has ended. It takes no memory for
    its text, so that is all."""
    memory, waited, pause = 0, 0, 0.001
    while True:
        with open(f"/proc/{pid}/status") as status:
            lines = dict(line.split(":", 1) for line in status)
        memory = int(lines.get("VmHWM", f"{memory >> 10} kB").split()[0]) << 10
        state = lines["State"].split()[0]
        waited = waited + 1 if state == "S" else 0
        if state == "Z" or waited == 2:
            return memory
        time.sleep(pause)
        pause = 0.001 if waited else min(2 * pause, 0.05)


def replay(program, path, report, limit):
    """Replays the session, and returns the processor seconds, the greatest memory, the status, negative of a signal, and how many
    blocks are listed."""
    out, into = os.pipe()
    fcntl.fcntl(into, PIPE_SIZE, 4096)
    os.write(into, bytes(4096))  # the text finds no room, so the program waits with it until it was looked at
    words = [program, "replay", *(["--report"] if report else []), path]
    with subprocess.Popen(words, stdout=into, stderr=subprocess.DEVNULL) as process:
        os.close(into)
        resource.prlimit(process.pid, resource.RLIMIT_CPU, (limit, limit + 1))
        resource.prlimit(process.pid, resource.RLIMIT_AS, (MOST_MEMORY, MOST_MEMORY))
        memory = peak(process.pid)
        text = b""
        while taken := os.read(out, 65536):
            text = (text + taken)[:4200]
        os.close(out)
        _, status, used = os.wait4(process.pid, 0)
        process.returncode = -os.WTERMSIG(status) if os.WIFSIGNALED(status) else os.WEXITSTATUS(status)
    listed = text[4096:].split()[1:2] if text[4096:].startswith(b"blocks ") else [b"0"]
    return used.ru_utime + used.ru_stime, memory, process.returncode, int(listed[0])


class Search:
    """Runs trials, each once, and keeps what they took."""

    def __init__(self, program, folder, limit, budget, often):
        self.program, self.path, self.limit, self.budget, self.often = program, f"{folder}/session", limit, budget, often
        self.runs, self.spent, self.wrong = {}, collections.Counter(), 0

    def run(self, trial):
        if trial in self.runs:
            return self.runs[trial]
        width = write(trial, self.path)
        ran = Run(trial, width, os.path.getsize(self.path), *replay(self.program, self.path, trial.report, self.limit))
        self.runs[trial] = ran
        self.spent[trial.kind] += ran.seconds
        if ran.status not in (0, 3, 4, 12) and not self.is_over(ran):
            self.wrong += 1
            print(f"WRONG: status {ran.status} at {trial}", flush=True)
        return ran

    def is_over(self, ran):
        return ran.status < 0

    def is_done(self, kind):
        return self.spent[kind] >= self.budget or any(self.is_over(ran) for ran in self.of(kind))

    def of(self, kind):
        return [ran for ran in self.runs.values() if ran.trial.kind == kind]

    def longest(self, kind):
        return max(self.of(kind), key=lambda ran: ran.seconds)

    def try_all(self, trials):
        for trial in trials:
            if self.is_done(trial.kind):
                return
            self.run(trial)

    def search(self, kind, shapes, variants):
        """Tries the shapes, then all variants of the longest, then its neighbours as long as one takes longer, then a report."""
        self.try_all(Trial(kind, shape, 0, False) for shape in shapes[: self.often])
        self.try_all(self.longest(kind).trial._replace(variant=variant) for variant in range(len(variants)))
        start = None
        while start != self.longest(kind) and kind != "planes":
            start = self.longest(kind)
            self.try_all(start.trial._replace(shape=shape) for shape in neighbours(start.trial.shape)[: self.often])
        self.try_all([self.longest(kind).trial._replace(report=True)])

    def say(self, ran):
        trial, (k, t, h) = ran.trial, ran.trial.shape
        name = " ".join(filter(None, [trial.kind, KINDS[trial.kind][1][trial.variant], "--report" if trial.report else ""]))
        took = f"over {ran.seconds:.0f} s" if self.is_over(ran) else f"{ran.seconds:.3f} s"
        end = "no memory" if ran.status == 12 else f"{ran.listed} listed"
        print(
            f"{name:<32} k {k:3}, t {t:3}, h {h:3}, width {ran.width:5}: {took:>10}, {ran.memory / 1e6:5.1f} MB, "
            f"session {ran.size / 1e6:6.3f} MB, {end}",
            flush=True,
        )

    def say_kind(self, kind):
        longest = self.longest(kind)
        self.say(longest)
        greatest = max(self.of(kind), key=lambda ran: ran.memory - ran.size)
        if greatest is not longest:
            self.say(greatest)


# The columns of the kinds whose sessions are as wide as these.
COLUMNS = {"none": none_columns, "agree": agree_columns, "but-one": but_one_columns, "chain": chain_columns, "far": far_columns,
           "groups": groups_columns}
# The models that choose the shapes of each kind, and the words for its variants.
TIMES = ["", "two times", "four times"]
WHERE = ["in all columns", "in the last"]
KINDS = {
    "none": (["none"], [""]),
    "agree": (["none"], [""]),
    "but-one": (["none"], [""]),
    "chain": (["chain", "possible"], [""]),
    "far": (["far", "possible"], TIMES),
    "groups": (["groups", "possible"], ["two", "three"]),
    "last": (["far", "possible"], TIMES),
    "blocks": (["far", "possible"], TIMES),
    "shared": (["shared", "walk"], WHERE),
    "planes": ([], WHERE),
    "degree": (["degree"], [""]),
}
# Sessions that took long once, always tried first.
KNOWN = [
    Trial(kind, Shape(k, t, h), 0, False)
    for k, t, h in [(213, 1, 15), (255, 1, 17), (47, 1, 7), (47, 3, 12)]
    for kind in ("agree", "but-one")
] + [Trial("chain", Shape(213, 1, 15), 0, False)]


def in_turn(lists):
    """The first of each list, then the second of each, and so on, each once."""
    longest = max(map(len, lists), default=0)
    return list(dict.fromkeys(one[i] for i in range(longest) for one in lists if i < len(one)))


def main():
    parser = argparse.ArgumentParser(description=__doc__, formatter_class=argparse.RawDescriptionHelpFormatter)
    parser.add_argument("--quick", action="store_true")
    parser.add_argument("--only", choices=KINDS)
    parser.add_argument("--seconds", type=int)
    parser.add_argument("program", nargs="?", default=os.environ.get("PIR", f"{TOP}/crates/pir/out/pir"))
    words = parser.parse_args()
    limit = words.seconds or (20 if words.quick else 60)
    models, kinds = ranked(), [words.only] if words.only else list(KINDS)
    with tempfile.TemporaryDirectory() as folder:
        budget, often = (limit, 3) if words.quick else (3 * limit, 10)
        search = Search(os.path.abspath(words.program), folder, limit, budget, often)
        print("Sessions that took long once:", flush=True)
        for trial in KNOWN:
            search.say(search.run(trial))
        print("The longest of each kind, and the one that took most memory beside its session:", flush=True)
        search.spent.clear()
        for kind in kinds:
            names, variants = KINDS[kind]
            search.search(kind, in_turn([models[name] for name in names]) if names else planes(), variants)
            search.say_kind(kind)
    sys.exit(1 if search.wrong else 0)


if __name__ == "__main__":
    main()
