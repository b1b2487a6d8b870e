#!/usr/bin/env python3
"""Compares what `lob_bench refuse` answers with a second reader of binary JSON, written here after docs/FORMATS.md alone.

Usage: bench/binary_refusals.py [PROGRAM] [--inputs N]

Both make the same inputs by the same generator: random bytes, and documents with changes. The program prints how many it refuses,
and a checksum over the kind and the place of each refusal; both have to agree. Every run is the same.
"""
import argparse
import struct
import subprocess
import sys
from collections import Counter

import binary_times
from binary_times import Pcg32

TRUNCATED, BAD_TYPE, BAD_OFFSET, BAD_UTF8, KEY_ORDER, UNSUPPORTED, DEEP, TRAILING = range(1, 9)
WIDTHS = {5: 2, 6: 2, 7: 4, 8: 4, 9: 8, 10: 8}


class Refused(Exception):
    def __init__(self, fault, place):
        super().__init__(fault, place)
        self.fault, self.place = fault, place


class Reader:
    def __init__(self, data):
        self.data = data

    def number(self, at, width, signed=False):
        return int.from_bytes(self.data[at:at + width], "little", signed=signed)

    def document(self):
        if not self.data:
            raise Refused(TRUNCATED, 0)
        tree, end = self.value(self.type_at(0), 1, len(self.data), 0)
        if end != len(self.data):
            raise Refused(TRAILING, end)
        return tree

    def type_at(self, place):
        code = self.data[place]
        if code in (11, 15):
            raise Refused(UNSUPPORTED, code)
        if code > 12:
            raise Refused(BAD_TYPE, place)
        return code

    def value(self, code, at, window, around):
        """The value of that type, and the place behind it."""
        if code <= 3:
            return self.container(code, at, window, around)
        if code == 12:
            return self.text(at, window)
        width = WIDTHS.get(code, 1)
        if at + width > window:
            raise Refused(TRUNCATED, at)
        if code != 4:
            return self.number(at, width, signed=code % 2 == 1), at + width
        if self.data[at] > 2:
            raise Refused(BAD_TYPE, at)
        return [None, True, False][self.data[at]], at + 1

    def text(self, at, window):
        length, place, last = 0, at, False
        while not last:
            if place >= window or place - at == 5:
                raise Refused(TRUNCATED, at)
            length |= (self.data[place] & 127) << 7 * (place - at)
            last = self.data[place] < 128
            place += 1
        if length >= 1 << 32 or place + length > window:
            raise Refused(TRUNCATED, at)
        return self.utf8(place, place + length), place + length

    def utf8(self, start, end):
        try:
            return self.data[start:end].decode()
        except UnicodeDecodeError:
            raise Refused(BAD_UTF8, start) from None

    def container(self, code, at, window, around):
        if around == 100:
            raise Refused(DEEP, at)
        word, keyed = 4 if code in (1, 3) else 2, code in (0, 1)
        if at + 2 * word > window:
            raise Refused(TRUNCATED, at)
        count, end = self.number(at, word), at + self.number(at + word, word)
        values_at = at + 2 * word + (count * (word + 2) if keyed else 0)
        floor = values_at + count * (word + 1)
        if end > window or floor > end:
            raise Refused(TRUNCATED, at)
        if not keyed:
            return self.values(at, word, values_at, count, floor, end, around), end
        keys, floor = self.keys(at, word, count, floor, end)
        return dict(zip(keys, self.values(at, word, values_at, count, floor, end, around))), end

    def keys(self, at, word, count, floor, end):
        keys = []
        for entry in range(at + 2 * word, at + 2 * word + count * (word + 2), word + 2):
            start = at + self.number(entry, word)
            stop = start + self.number(entry + word, 2)
            if start < floor or stop > end:
                raise Refused(BAD_OFFSET, entry)
            key = self.utf8(start, stop).encode()
            if keys and (len(keys[-1]), keys[-1]) >= (len(key), key):
                raise Refused(KEY_ORDER, entry)
            keys.append(key)
            floor = stop
        return keys, floor

    def values(self, at, word, values_at, count, floor, end, around):
        values = []
        for entry in range(values_at, values_at + count * (word + 1), word + 1):
            code = self.type_at(entry)
            if code == 4 or WIDTHS.get(code, 8) <= word:
                values.append(self.value(code, entry + 1, end, around + 1)[0])
                continue
            place = at + self.number(entry + 1, word)
            if place < floor or place > end:
                raise Refused(BAD_OFFSET, entry)
            value, floor = self.value(code, place, end, around + 1)
            values.append(value)
        return values


def scalar(value):
    if isinstance(value, str):
        return 12, bytes([len(value)]) + value.encode()
    return (5, struct.pack("<h", value)) if value < 1 << 15 else (7, struct.pack("<i", value))


def small_object(item):
    keys = sorted(item, key=lambda key: (len(key), key))
    at = 4 + 7 * len(keys)
    key_entries, value_entries, behind = b"", b"", b""
    for key in keys:
        key_entries += struct.pack("<HH", at, len(key))
        at += len(key)
    for key in keys:
        code, value = scalar(item[key])
        value_entries += bytes([code]) + (value if code == 5 else struct.pack("<H", at))
        if code != 5:
            at += len(value)
            behind += value
    return struct.pack("<HH", len(keys), at) + key_entries + value_entries + "".join(keys).encode() + behind


def small_array(items):
    at = 4 + 3 * len(items)
    entries, behind = b"", b""
    for item in items:
        value = small_object(item)
        entries += b"\0" + struct.pack("<H", at)
        at += len(value)
        behind += value
    return b"\2" + struct.pack("<HH", len(items), at) + entries + behind


def made_input(rng, turn, document):
    if turn % 2 == 0:
        bound = 16 if rng.word() % 2 == 0 else 256
        first = rng.word() % bound
        return bytes([first] + [rng.word() % 256 for _ in range(rng.word() % 256)])
    changed = bytearray(document)
    for _ in range(1 + rng.word() % 8):
        at = rng.word() % 0xFFFFFFFF % len(changed)
        changed[at] = rng.word() % 256
    if rng.word() % 8 == 0:
        del changed[rng.word() % 0xFFFFFFFF % len(document):]
    return bytes(changed)


def mixed(checksum, value):
    return (checksum ^ value) * 0x100000001B3 & (1 << 64) - 1


def refusals(inputs, size):
    """How many inputs of each fault there are, and the checksum of all."""
    rng = Pcg32(42, 54)
    document = small_array(binary_times.made_objects(size, rng))
    faults, checksum = Counter(), 0xCBF29CE484222325
    for turn in range(inputs):
        try:
            Reader(made_input(rng, turn, document)).document()
        except Refused as refused:
            faults[refused.fault] += 1
            checksum = mixed(checksum, mixed(refused.fault, refused.place))
    return faults, checksum


def main():
    words = argparse.ArgumentParser()
    words.add_argument("program", nargs="?", default=binary_times.PROGRAM)
    words.add_argument("--inputs", type=int, default=20_000)
    words = words.parse_args()
    for size in (0, 1, 2, 20):
        run = subprocess.run([words.program, "refuse", str(words.inputs), str(size)], stdout=subprocess.PIPE, stderr=subprocess.DEVNULL, text=True, check=True)
        faults, checksum = refusals(words.inputs, size)
        wanted = "refuse rounds %d size %d refused %d checksum %d" % (words.inputs, size, sum(faults.values()), checksum)
        if run.stdout.strip() != wanted:
            sys.exit("the program prints %s, not %s" % (run.stdout.strip(), wanted))
        print("%s: agreed; by fault %s" % (wanted, dict(sorted(faults.items()))))


if __name__ == "__main__":
    main()
