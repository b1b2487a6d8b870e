#!/usr/bin/env python3
"""Time of reading scripts and of edits, as ratios in one run of the built program.

Usage: bench/edit_times.py [PROGRAM] [--rounds N] [--sets N]

PROGRAM is the built `lobstore` (by default the one that `rt run` leaves in crates/lobstore/out).

- reading: a script of 100,000 statements against one of 10,000 of the same form, whose last line is bad, so that nothing runs.
  Linear in the bytes is a ratio of 10.
- sets: N sets of one number (by default 10,000) in a document of 10 MB against as many in one of 10 KB of the same shape, each less the
  time of its insert alone.
- pairs and removals: 1,000 statements that set two numbers each, and 1,000 that remove by one path, in the same 10 MB, each less the
  time of the insert alone: the first copies the stored bytes once.
- SQLite: M sets (by default 20) of that number in the same 10 MB by `json_set` in one UPDATE each, in memory, by its command line, less
  the time of the insert alone; for each of them, against ours. Left out where there is no `sqlite3`.
- growing: as many sets of one text that is a letter longer each time, so that it has no room and the document is encoded anew, in the
  same 10 MB and 10 KB, each less the insert alone; beside `json_set` of that text.
- gets: 5 reads of the same 10 MB, less the insert alone, beside Python's `json.dumps` of the same tree.

Each runs several rounds (by default 3), in turns; the best counts.
"""
import argparse
import json
import os
import shutil
import subprocess
import sys
import tempfile
import time

HERE = os.path.dirname(os.path.abspath(__file__))
PROGRAM = os.path.join(HERE, "..", "crates", "lobstore", "out", "lobstore")


def document(size):
    """An object of one number and a list of small objects, of about `size` bytes."""
    item = '{"id":%d,"name":"item","tags":[1,2,3]}'
    items, length = [], 0
    while length < size:
        items.append(item % len(items))
        length += len(items[-1]) + 1
    return '{"n":0,"items":[%s]}' % ",".join(items)


def insert_only(size):
    return "s1 insert 1 %s\n" % document(size)


def with_sets(size, count):
    return insert_only(size) + "".join('s1 set 1 ["$.n",%d]\n' % (n + 1) for n in range(count))


def with_pairs(size, count):
    return insert_only(size) + "".join('s1 set 1 ["$.n",%d,"$.items[last].id",%d]\n' % (n + 1, n) for n in range(count))


def with_removals(size, count):
    return insert_only(size) + "".join('s1 remove 1 ["$.items[%d].name"]\n' % n for n in range(count))


def with_growth(size, count):
    return insert_only(size) + "".join('s1 set 1 ["$.items[5].name","item%s"]\n' % ("x" * (n + 1)) for n in range(count))


def with_gets(size, count):
    return insert_only(size) + "s1 get 1\n" * count


def sqlite_script(size, updates):
    """A table with the document, and updates of it, each of a path and a value."""
    yield "CREATE TABLE docs(id INTEGER PRIMARY KEY, doc TEXT);\n"
    yield "INSERT INTO docs VALUES(1, '%s');\n" % document(size)
    for path, value in updates:
        yield "UPDATE docs SET doc = json_set(doc, '%s', %s) WHERE id = 1;\n" % (path, value)


def dumps_seconds(size, rounds):
    tree = json.loads(document(size))
    times = []
    for _ in range(rounds):
        begin = time.perf_counter()
        json.dumps(tree)
        times.append(time.perf_counter() - begin)
    return min(times)


def statements(count):
    return "".join('s1 set %d ["$.a[2]",%d,"$.b",{"c":[1,2]}]\n' % (n + 1, n) for n in range(count)) + "bad\n"


def seconds(command, script, status):
    with tempfile.NamedTemporaryFile("w") as file:
        file.write(script)
        file.flush()
        with open(file.name) as source:
            begin = time.perf_counter()
            run = subprocess.run(command, stdin=source, stdout=subprocess.DEVNULL, stderr=subprocess.DEVNULL)
            end = time.perf_counter()
    if run.returncode != status:
        sys.exit("status %d where %d was due" % (run.returncode, status))
    return end - begin


def best(command, scripts, rounds, status):
    """The best time of each script, run in turns."""
    times = [[] for _ in scripts]
    for _ in range(rounds):
        for index, script in enumerate(scripts):
            times[index].append(seconds(command, script, status))
    return [min(each) for each in times]


def main():
    parser = argparse.ArgumentParser(description=__doc__, formatter_class=argparse.RawDescriptionHelpFormatter)
    parser.add_argument("program", nargs="?", default=PROGRAM)
    parser.add_argument("--rounds", type=int, default=3)
    parser.add_argument("--sets", type=int, default=10_000)
    parser.add_argument("--sqlite-sets", type=int, default=20)
    args = parser.parse_args()

    ours = [args.program, "store.lob", "run"]
    few, many = best(ours, [statements(10_000), statements(100_000)], args.rounds, 2)
    print("reading: 10,000 statements %.3f s, 100,000 statements %.3f s, ratio %.1f" % (few, many, many / few))

    large, small = 10_000_000, 10_000
    scripts = [insert_only(small), with_sets(small, args.sets), insert_only(large), with_sets(large, args.sets)]
    base, sets, large_base, large_sets = best(ours, scripts, args.rounds, 0)
    print("%d sets: 10 KB %.4f s, 10 MB %.4f s, ratio %.1f"
          % (args.sets, sets - base, large_sets - large_base, (large_sets - large_base) / max(sets - base, 1e-6)))

    count = 1_000
    scripts = [with_pairs(large, count), with_removals(large, count)]
    pairs, removals = best(ours, scripts, args.rounds, 0)
    print("in 10 MB: a set of two numbers %.3f ms, a removal %.3f ms" % ((pairs - large_base) * 1e3 / count, (removals - large_base) * 1e3 / count))

    count = args.sqlite_sets
    scripts = [insert_only(large), with_growth(large, count), with_gets(large, 5)]
    alone, grown, shown = best(ours, scripts, args.rounds, 0)
    growth, read = (grown - alone) / count, (shown - alone) / 5
    dumps = dumps_seconds(large, args.rounds)
    print("a get of 10 MB: %.1f ms, json.dumps %.1f ms, ratio %.2f" % (read * 1e3, dumps * 1e3, read / dumps))
    scripts = [insert_only(small), with_growth(small, 1_000)]
    alone, grown = best(ours, scripts, args.rounds, 0)
    print("a text that grows: in 10 MB %.1f ms, in 10 KB %.4f ms" % (growth * 1e3, (grown - alone)))

    if shutil.which("sqlite3"):
        numbers = [("$.n", n + 1) for n in range(count)]
        texts = [("$.items[5].name", "'item%s'" % ("x" * (n + 1))) for n in range(count)]
        scripts = ["".join(sqlite_script(large, updates)) for updates in ([], numbers, texts)]
        alone, updated, grown = best(["sqlite3", ":memory:"], scripts, args.rounds, 0)
        each, our_each = (updated - alone) / count, (large_sets - large_base) / args.sets
        print("a set in 10 MB: SQLite %.1f ms, ours %.4f ms, ratio %.0f" % (each * 1e3, our_each * 1e3, each / max(our_each, 1e-9)))
        each = (grown - alone) / count
        print("a text that grows in 10 MB: SQLite %.1f ms, ours %.1f ms, ratio %.2f" % (each * 1e3, growth * 1e3, growth / each))


if __name__ == "__main__":
    main()
