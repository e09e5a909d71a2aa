"""Runs our program and its peers in turn, keeps the best time of each, checks that their results agree, and prints the
ratios to ISA-L, for a product, and to the machine's limit of reading, with the same number of threads.
usage: product.py product|answer ROUNDS FOLDER ROWSxWIDTH .., where FOLDER has the programs ours, ours-avx2 (which may be left out) and peers"""
import os
import subprocess
import sys

WORKERS = {"product": ["1", "2", "4"], "answer": ["1"]}
TITLES = {
    "product": "the best rate, its ratio to ISA-L's gf_vect_mad (polynomial 0x11D), and its ratio to reading in four streams",
    "answer": "the best rate over the rows whose bit is set, and its ratio to reading as many bytes in four streams",
}


def lines_of(folder, program, words):
    """Yields (name, bytes, workers, nanoseconds, checksum or None) for each line of a program."""
    text = subprocess.run([f"{folder}/{program}", *words], check=True, capture_output=True, text=True).stdout
    for line in text.splitlines():
        name, rows, width, workers, time, checksum = line.split()
        if program != "peers":
            name = program
        yield name, int(rows) * int(width), workers, int(time), None if checksum == "-" else checksum


def measured(what, folder, rounds, shape):
    """The best time of each name at each number of workers, how many bytes are read, and the set of checksums."""
    rows, width = shape.split("x")
    calls = str(min(2000, max(8, (1 << 32) // (int(rows) * int(width)))))
    times, checksums, read = {}, set(), 0
    for _ in range(rounds):
        for program in filter(lambda it: os.path.exists(f"{folder}/{it}"), ["ours", "ours-avx2", "peers"]):
            for name, size, workers, time, checksum in lines_of(folder, program, [what, rows, width, calls, *WORKERS[what]]):
                best = times.setdefault(name, {})
                best[workers] = min(time, best.get(workers, time))
                if name == "reading":
                    read = size
                if checksum:
                    checksums.add(checksum)
    return times, read, checksums


def report(what, shape, times, read, checksums):
    """Prints a line for each name, and says whether the results agree."""
    rows, width = shape.split("x")
    agree = len(checksums) == 1
    print(f"{rows} x {width}: the checksums {'agree' if agree else 'DIFFER'}")
    print(f"  {'':<12}" + "".join(f"{f'{w} thread' + 's' * (w != '1'):<36}" for w in WORKERS[what]).rstrip())
    for name, best in times.items():
        line = f"  {name:<12}"
        for workers in WORKERS[what]:
            rate = f"{read / best[workers]:.2f} GB/s"
            if "isal" in times:
                rate += f", {times['isal'][workers] / best[workers]:.2f} of ISA-L"
            rate += f", {times['reading'][workers] / best[workers]:.2f}"
            line += f"{rate:<36}"
        print(line.rstrip(), flush=True)
    return agree


def main():
    what, rounds, folder, *shapes = sys.argv[1:]
    print(TITLES[what])
    agree = [report(what, shape, *measured(what, folder, int(rounds), shape)) for shape in shapes]
    sys.exit(0 if all(agree) else 1)


main()
