#!/usr/bin/env python3
"""Time of reading and printing JSON, as ratios to Python's `json` on the same input in the same run.

Usage: bench/json_times.py [PROGRAM] [--rounds N] [--only NAME]

PROGRAM is the built `lobstore` (by default the one that `rt run` leaves in crates/lobstore/out). For each input it runs a script
that inserts each of its documents and then gets each, and beside it a Python that loads the same texts from a file, a line each,
and dumps them again. Each runs N times (by default 3), in turns; the best counts. Only ratios are comparable between machines.
"""
import argparse
import json
import multiprocessing
import os
import random
import subprocess
import sys
import tempfile
import time

HERE = os.path.dirname(os.path.abspath(__file__))
PROGRAM = os.path.join(HERE, "..", "crates", "lobstore", "out", "lobstore")
LOADS_AND_DUMPS = "import json,sys; sys.stdout.writelines(json.dumps(json.loads(line)) + '\\n' for line in open(sys.argv[1]))"
MEBI = 1024 * 1024


def objects_of_three(rng, size):
    """An array of objects of three members each, with about `size` bytes."""
    items, length = [], 0
    while length < size:
        item = {"id": rng.randrange(1 << 32), "name": "item %d" % rng.randrange(100000), "tags": rng.randrange(1000)}
        items.append(item)
        length += len(json.dumps(item)) + 2
    return json.dumps(items)


def tiny_objects(size):
    """An array of objects of one member each."""
    return "[" + ", ".join(['{"a":1}'] * (size // 9)) + "]"


def wide_object(rng, keys):
    """One object whose keys stand in no order."""
    names = ["k%d" % n for n in range(keys)]
    rng.shuffle(names)
    return json.dumps({name: n for n, name in enumerate(names)})


def long_text(rng, size, escapes):
    """One text; with `escapes`, one byte in twenty is one that is escaped."""
    plain = "abcdefghijklmnopqrstuvwxyz0123456789 "
    special = '"\\\n\t\b\f\r\x01'
    pieces = []
    for _ in range(size // 20):
        pieces.append("".join(rng.choices(plain, k=19)))
        pieces.append(rng.choice(special) if escapes else "x")
    return json.dumps("".join(pieces))


def numbers(rng, size):
    """An array of whole numbers."""
    return json.dumps([rng.randrange(-(1 << 62), 1 << 63) for _ in range(size // 20)])


def nested(depth):
    return "[" * depth + "]" * depth


def small(rng, count):
    """Many documents of a few members."""
    return [json.dumps({"id": n, "name": "item %d" % rng.randrange(100000), "tags": ["a", "b"]}) for n in range(count)]


# The documents of each input, by name.
INPUTS = {
    "objects of 3 members, 10 MB": lambda rng: [objects_of_three(rng, 10 * MEBI)],
    "objects of 1 member, 10 MB": lambda rng: [tiny_objects(10 * MEBI)],
    "one object of 500,000 keys": lambda rng: [wide_object(rng, 500_000)],
    "one text of 10 MB": lambda rng: [long_text(rng, 10 * MEBI, False)],
    "one text of 10 MB, escapes": lambda rng: [long_text(rng, 10 * MEBI, True)],
    "numbers, 10 MB": lambda rng: [numbers(rng, 10 * MEBI)],
    "20,000 small documents": lambda rng: small(rng, 20_000),
    "depth 100": lambda rng: [nested(100)],
}


def run(words, stdin):
    """Seconds of wall and of processor, and the peak of memory in MB."""
    with open(stdin, "rb") as source, open(os.devnull, "wb") as sink:
        start = time.perf_counter()
        process = subprocess.Popen(words, stdin=source, stdout=sink)
        _, status, usage = os.wait4(process.pid, 0)
        wall = time.perf_counter() - start
    if status != 0:
        sys.exit("%s ended with status %d" % (words[0], status))
    return wall, usage.ru_utime + usage.ru_stime, usage.ru_maxrss / 1024


def by_key(pairs):
    """The members in our key order: by length in bytes, then by bytes."""
    return dict(sorted(pairs, key=lambda pair: (len(pair[0].encode()), pair[0].encode())))


def prepare(name, program, folder):
    """Makes the files of an input, and checks that our answer is Python's dump of the members in key order."""
    texts = INPUTS[name](random.Random(1))
    with open(os.path.join(folder, "script"), "w") as out:
        out.writelines("s1 insert %d %s\n" % (n, text) for n, text in enumerate(texts, 1))
        out.writelines("s1 get %d\n" % n for n in range(1, len(texts) + 1))
    with open(os.path.join(folder, "document"), "w") as out:
        out.writelines(text + "\n" for text in texts)
    with open(os.path.join(folder, "script"), "rb") as source:
        out = subprocess.run([program, os.path.join(folder, "store"), "run"], stdin=source, stdout=subprocess.PIPE, check=True).stdout
    answers = [line.split(b" doc ", 1)[1] for line in out.splitlines() if b" doc " in line]
    if answers != [json.dumps(json.loads(text, object_pairs_hook=by_key)).encode() for text in texts]:
        sys.exit("the answers differ from Python's")


def best(runs):
    return [min(column) for column in zip(*runs)]


def main():
    words = argparse.ArgumentParser()
    words.add_argument("program", nargs="?", default=PROGRAM)
    words.add_argument("--rounds", type=int, default=3)
    words.add_argument("--only", default="")
    words = words.parse_args()
    print("%-30s %8s %8s %10s %10s" % ("input", "wall", "cpu", "our MB", "Python MB"))
    with tempfile.TemporaryDirectory() as folder:
        for name in INPUTS:
            if words.only not in name:
                continue
            # In a process of its own: what it takes would count as the peak of what is started here.
            made = multiprocessing.Process(target=prepare, args=(name, words.program, folder))
            made.start()
            made.join()
            if made.exitcode != 0:
                sys.exit(made.exitcode)
            ours, theirs = [], []
            for _ in range(words.rounds):
                ours.append(run([words.program, os.path.join(folder, "store"), "run"], os.path.join(folder, "script")))
                theirs.append(run([sys.executable, "-I", "-c", LOADS_AND_DUMPS, os.path.join(folder, "document")], os.devnull))
            a, b = best(ours), best(theirs)
            print("%-30s %8.2f %8.2f %10.0f %10.0f" % (name, a[0] / b[0], a[1] / b[1], a[2], b[2]), flush=True)


if __name__ == "__main__":
    main()
