#!/usr/bin/env python3
"""Time of binary JSON, as ratios to Python's `json` on the same document in the same run, and of what is refused.

Usage: bench/binary_times.py [PROGRAM] [--rounds N] [--inputs N]

PROGRAM is the built `lob_bench` (by default the one that `rt run` leaves in crates/lob_bench/out). The document is an array of
200,000 objects of three members, whose text has about 10.5 MB; it is made here and there by the same generator. Encoding stands
beside `json.dumps`, decoding beside `json.loads`. Each runs N times (by default 5), in turns; the best counts. Only ratios are
comparable between machines.
"""
import argparse
import json
import os
import subprocess
import sys
import time

HERE = os.path.dirname(os.path.abspath(__file__))
PROGRAM = os.path.join(HERE, "..", "crates", "lob_bench", "out", "lob_bench")
OBJECTS = 200_000
# How many keys a round of `member` looks up.
KEYS = 1_024


class Pcg32:
    """PCG-XSH-RR of 32 bits, seeded as the program seeds its own."""

    def __init__(self, state, stream):
        self.increment = (stream << 1 | 1) & (1 << 64) - 1
        self.state = state + self.increment
        self.step()

    def step(self):
        self.state = (self.state * 6364136223846793005 + self.increment) & (1 << 64) - 1

    def word(self):
        state = self.state
        self.step()
        shifted = ((state >> 18 ^ state) >> 27) & 0xFFFFFFFF
        turn = state >> 59
        return (shifted >> turn | shifted << (32 - turn)) & 0xFFFFFFFF


def made_objects(count, rng):
    items = []
    for _ in range(count):
        number, item, tags = rng.word() % 1_000_000_000, rng.word() % 100_000, rng.word() % 1_000
        items.append({"id": number, "name": "item %d" % item, "tags": tags})
    return items


def encoded_length(items):
    """The bytes of the document: a large array of small objects."""
    length = 1 + 8
    for item in items:
        behind = (4 if item["id"] > 32767 else 0) + 1 + len(item["name"])
        length += 5 + 4 + 3 * (4 + 3) + len("idnametags") + behind
    return length


def kernel(program, name, rounds, size):
    """What it counted, and the seconds of one round."""
    run = subprocess.run([program, name, str(rounds), str(size)], stdout=subprocess.PIPE, stderr=subprocess.PIPE, text=True)
    if run.returncode != 0:
        sys.exit("%s %s ended with status %d: %s" % (program, name, run.returncode, run.stderr))
    words = run.stdout.split()
    return int(words[words.index("checksum") - 1]), int(run.stderr.split()[0]) / 1e9 / max(rounds, 1)


def timed(work):
    start = time.perf_counter()
    work()
    return time.perf_counter() - start


def coding(program, rounds):
    items = made_objects(OBJECTS, Pcg32(42, 54))
    text = json.dumps(items)
    count, _ = kernel(program, "encode", 1, OBJECTS)
    if count != encoded_length(items):
        sys.exit("the documents differ: %d bytes, not %d" % (count, encoded_length(items)))
    print("document: %d objects, text of %d bytes, encoding of %d bytes" % (OBJECTS, len(text), count))
    runs = []
    for _ in range(rounds):
        runs.append((
            kernel(program, "encode", 3, OBJECTS)[1],
            kernel(program, "decode", 3, OBJECTS)[1],
            kernel(program, "used", 3, OBJECTS)[1],
            timed(lambda: json.dumps(items)),
            timed(lambda: json.loads(text)),
        ))
    encode, decode, used, dumps, loads = [min(column) for column in zip(*runs)]
    print("%-8s %8.1f ms   dumps %8.1f ms   ratio %.2f" % ("encode", encode * 1e3, dumps * 1e3, encode / dumps))
    print("%-8s %8.1f ms   loads %8.1f ms   ratio %.2f" % ("decode", decode * 1e3, loads * 1e3, decode / loads))
    print("%-8s %8.1f ms   both  %8.1f ms   ratio %.2f" % ("both", (encode + decode) * 1e3, (dumps + loads) * 1e3, (encode + decode) / (dumps + loads)))
    print("%-8s %8.1f ms" % ("used", used * 1e3))


def members(program, rounds):
    for size in (100, 10_000, 100_000):
        seconds = min(kernel(program, "member", 1_000, size)[1] for _ in range(rounds)) / KEYS
        print("member of an object of %6d: %6.0f ns" % (size, seconds * 1e9))


def refusals(program, inputs):
    for size in (1, 20):
        refused, seconds = kernel(program, "refuse", inputs, size)
        print("%d inputs, every second one a document of %d objects with changes: %d refused, %.1f s, %.0f ns each"
              % (inputs, size, refused, seconds * inputs, seconds * 1e9))


def main():
    words = argparse.ArgumentParser()
    words.add_argument("program", nargs="?", default=PROGRAM)
    words.add_argument("--rounds", type=int, default=5)
    words.add_argument("--inputs", type=int, default=1_000_000)
    words = words.parse_args()
    coding(words.program, words.rounds)
    members(words.program, words.rounds)
    refusals(words.program, words.inputs)


if __name__ == "__main__":
    main()
