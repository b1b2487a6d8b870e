#!/usr/bin/env python3
"""Times what pages and the store's file cost: a flush of the redo log on a real file beside the two writes and two syncs that it is
made of, and the pieces of a LOB in pages in memory, built, read, and pushed and popped, in LOBs of 160 and of 642 pieces (10.5 MB).
Then reads by events, of 160 and 642 pieces beside a copy of as many bytes, and over 1,000 and 10,000 records that aren't seen. Then
rows put, read and removed, and undo records appended and popped, in pages in memory: rounds of 100,000 beside as many in all in
rounds of 408 and of 100. These two in processor time.

The kernels of page_bench run in turns; the figures are medians. Build it first: `rt run -- flush 1 100` in crates/page_bench.
"""
import argparse
import pathlib
import statistics
import subprocess
import tempfile

ROOT = pathlib.Path(__file__).resolve().parent.parent
PROGRAM = ROOT / "crates/page_bench/out/page_bench"


def run(kernel, rounds, size, folder):
    """Microseconds a round."""
    store = pathlib.Path(folder) / "page_bench.lob"
    store.unlink(missing_ok=True)
    words = [str(PROGRAM), kernel, str(rounds), str(size)]
    done = subprocess.run(words, cwd=folder, capture_output=True, text=True, check=True)
    store.unlink()
    return int(done.stderr.split()[0]) / rounds / 1000


def pieces(repeat, folder):
    """Prints the time a piece in LOBs of two lengths."""
    for kernel in ("lob-build", "lob-read", "lob-push"):
        found = {}
        for _ in range(repeat):
            for count in (160, 642):
                words = [str(PROGRAM), kernel, "1", str(count)]
                done = subprocess.run(words, cwd=folder, capture_output=True, text=True, check=True)
                found.setdefault(count, []).append(int(done.stderr.split()[0]) / count / 1000)
        figures = ", ".join(f"{statistics.median(times):.1f} us of {count}" for count, times in found.items())
        print(f"{kernel}, a piece: {figures}")


def rows(repeat, folder):
    """Prints the processor time a row or record among many, among as many as a row page has, and among few."""
    for kernel in ("row-put", "row-read", "row-remove", "undo-append", "undo-pop"):
        found = {}
        for _ in range(repeat):
            for rounds, count in ((5, 100_000), (1_225, 408), (5_000, 100)):
                words = [str(PROGRAM), kernel, str(rounds), str(count)]
                done = subprocess.run(words, cwd=folder, capture_output=True, text=True, check=True)
                found.setdefault(count, []).append(int(done.stderr.split()[0]) / rounds / count)
        many, page, few = (statistics.median(found[count]) for count in (100_000, 408, 100))
        print(f"{kernel}, each: {many:.0f} ns of 100,000, {page:.0f} ns of 408, {few:.0f} ns of 100; ratio {many / few:.2f}")


def reads(repeat, folder):
    """Prints the processor time a piece of a read beside that of a copy, and the time a record that isn't seen."""
    found = {}
    for _ in range(repeat):
        for kernel, rounds, size in (
            ("copy", 20, 642), ("read-pieces", 20, 642), ("copy", 80, 160), ("read-pieces", 80, 160),
            ("read-records", 50, 1_000), ("read-records", 5, 10_000),
        ):
            words = [str(PROGRAM), kernel, str(rounds), str(size)]
            done = subprocess.run(words, cwd=folder, capture_output=True, text=True, check=True)
            found.setdefault((kernel, size), []).append(int(done.stderr.split()[0]) / rounds / size / 1000)
    for size in (642, 160):
        copy, read = (statistics.median(found[kernel, size]) for kernel in ("copy", "read-pieces"))
        print(f"a read of {size} pieces: {read:.2f} us a piece; a copy {copy:.2f} us; ratio {read / copy:.2f}")
    few, many = (statistics.median(found["read-records", size]) for size in (1_000, 10_000))
    print(f"a read over records that aren't seen: {few:.2f} us each of 1,000, {many:.2f} us of 10,000; ratio {many / few:.2f}")


def main():
    words = argparse.ArgumentParser(description=__doc__)
    words.add_argument("--rounds", type=int, default=200)
    words.add_argument("--size", type=int, default=4096)
    words.add_argument("--repeat", type=int, default=5)
    words.add_argument("--folder", default=str(ROOT))
    given = words.parse_args()
    times = {"flush": [], "raw": []}
    with tempfile.TemporaryDirectory(dir=given.folder) as folder:
        for _ in range(given.repeat):
            for kernel, found in times.items():
                found.append(run(kernel, given.rounds, given.size, folder))
        pieces(given.repeat, folder)
        reads(given.repeat, folder)
        rows(given.repeat, folder)
    flush, raw = (statistics.median(times[kernel]) for kernel in ("flush", "raw"))
    print(f"a flush of {given.size} bytes: {flush:.1f} us; its writes and syncs alone: {raw:.1f} us; ratio {flush / raw:.2f}")


if __name__ == "__main__":
    main()
