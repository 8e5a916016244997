#!/usr/bin/env python3
"""The model's explain (L1) against tables so small that every address can be looked at, and against what MAP and COPY answer.

    reasons.py [--tables 400]

Every reason of each command has to be met, and every kind of run.
"""
import struct
import sys
from collections import Counter

from model import (ATTACHED, Mapping, NEW_SPACE, Object, REASONS, RELEASED, Refused, TOP, Table, UNMAPPED, charge, explain, faults, model_copy,
                   model_map, padded)
from randomplans import Dice

MAP, COPY = 0x3B85, 0x3B83
WANTED = {MAP: set(REASONS) - {'SourcePasses', 'NoSourceSpace', 'NoSource', 'NotWriteable'}, COPY: set(REASONS) - {'MemoryPasses', 'OverLimit'}}
RUNS = {'none', 'lowest of equals', 'up to the last address', 'ends off the alignment', 'begins above its gap', 'allowed range ends it',
        'record not of the lowest address', 'object not of the lowest address'}


# ---- small tables
def some_ranges(dice, most, base):
    starts = [base + dice.pick(60) for _ in range(dice.pick(most + 1))]
    return [(s, min(s + dice.pick(6), TOP)) for s in starts]


def device(space, bitmap, ranges):
    starts, lasts = zip(*ranges) if ranges else ((), ())
    return Object(ATTACHED, space, bitmap, len(ranges), padded(starts, 4), padded(lasts, 4), 0, (0,) * 8, (0,) * 8)


def some_table(dice):
    """Spaces 1 and 3; of space 1 everything is reserved but the small addresses, or but the last 64, at most tables."""
    top = dice.chance(4)
    base = TOP - 63 if top else 0
    rest = [(0, TOP - 64)] if top else [(64, TOP)]
    lows = some_ranges(dice, 3, base) if dice.chance(3) else []
    space = NEW_SPACE._replace(size=len(lows), lows=padded([a for a, _ in lows], 8), highs=padded([b for _, b in lows], 8))
    first = device(1, dice.one_of(1, 2, 4, 8), some_ranges(dice, 3, base) + ([] if dice.chance(6) else rest))
    second = device(1, dice.one_of(1, 2, 4), some_ranges(dice, 4, base))
    objects = (space, first, NEW_SPACE, second) if dice.chance(2) else (space, RELEASED, NEW_SPACE, first)
    mappings = tuple(some_mapping(dice, 1 + k, base) for k in range(dice.pick(7)))
    full = dice.chance(8)
    if full:
        mappings += tuple(Mapping(3, 2, 0, 1 + k, 16 * k, 4, 0) for k in range(len(mappings), 128))
    order = sorted(range(128), key=lambda _: dice.pick(1000))
    records = padded_mappings(mappings)
    t = Table(len(mappings) + dice.pick(3), objects + (RELEASED,) * (32 - len(objects)), tuple(records[k] for k in order))
    return t


def some_mapping(dice, backing, base):
    write = dice.chance(2)
    return Mapping(dice.one_of(1, 1, 1, 3), 2 + write, int(write), backing, base + dice.one_of(1, 2, 4) * dice.pick(15), 1 + dice.pick(8), 0)


def padded_mappings(given):
    return given + (UNMAPPED,) * (128 - len(given))


def some_command(dice, t):
    flags = dice.one_of(5, 5, 5, 4, 4, 4, 6, 7, 1, 12)
    length = dice.one_of(0, 2**40 + 1, 2**40) if dice.chance(12) else dice.one_of(1, 2, 4, 8, 16, 24) if dice.chance(2) else 1 + dice.pick(20)
    near = TOP - dice.pick(70) if dice.chance(4) else dice.pick(70)
    space = dice.one_of(0, 2, 33) if dice.chance(10) else dice.one_of(1, 1, 1, 3)
    if dice.chance(2):
        memory = TOP - dice.pick(9) if dice.chance(6) else 4095 * dice.pick(3)
        request, cmd = MAP, struct.pack('<IIIIQQQ', 40, flags, space, int(dice.chance(20)), memory, length, near)
    else:
        used = [m for m in t.mappings if m != UNMAPPED] or [UNMAPPED]
        m = dice.one_of(*used)
        source = dice.one_of(0, 4) if dice.chance(12) else m.space
        origin = TOP - dice.pick(3) if dice.chance(12) else m.address
        request, cmd = COPY, struct.pack('<IIIIQQQ', 40, flags, space, source, length if dice.chance(4) else m.length, near, origin)
    if dice.chance(8):
        cmd = dice.one_of(cmd[:3], cmd[:39], struct.pack('<I', 39) + cmd[4:], struct.pack('<I', 48) + cmd[4:] + bytes(8),
                          struct.pack('<I', 48) + cmd[4:] + bytes(7) + b'\1', cmd + b'\1')
    return request, cmd


# ---- the same by looking at each address
class Looked:
    """Space s of a table, address by address where it is not all reserved."""

    def __init__(self, t, s):
        devices = [o for o in t.objects if o.kind == ATTACHED and o.home == s]
        self.a = max([o.bitmap & -o.bitmap for o in devices] + [1])
        self.by_object = {i + 1: list(zip(o.starts, o.lasts))[:o.count] for i, o in enumerate(t.objects) if o in devices}
        self.by_record = {k + 1: (m.address, m.address + m.length - 1) for k, m in enumerate(t.mappings) if m.space == s}
        self.lists = [(p, q) for p, q in list(zip(t.objects[s - 1].lows, t.objects[s - 1].highs))[:t.objects[s - 1].size]]

    def objects_at(self, x):
        return [i for i, ranges in self.by_object.items() if any(p <= x <= q for p, q in ranges)]

    def records_at(self, x):
        return [k for k, (p, q) in self.by_record.items() if p <= x <= q]

    def beginnings(self):
        return [p for ranges in self.by_object.values() for p, _ in ranges] + [p for p, _ in self.by_record.values()]

    def windows(self):
        return self.lists or [(0, TOP)]

    def runs(self):
        """Every run that cannot be longer, from each multiple: its start and its length. Only addresses near an end are worth a look."""
        ends = {0, TOP} | {x for ranges in self.by_object.values() for r in ranges for x in r}
        worth = sorted(x for x in {e + d for e in ends for d in range(-70, 71)} if 0 <= x <= TOP)
        found = []
        for low, high in self.windows():
            for x in worth:
                if x % self.a == 0 and low <= x <= high:
                    y = x
                    while y <= high and not self.objects_at(y) and not self.records_at(y):
                        y += 1
                        if y - x > 200:
                            return None                                # a place for anything that is asked here
                    if y > x:
                        found.append((x, y - x))
        return found


def bits_of(flags):
    return flags & 1, flags & 2, flags & 4


def looked_at(t, request, cmd):
    """The reason's name and what it names, by hand."""
    if len(cmd) < 4:
        return 'NoSizeField', 14, 0, 0, 0
    size = int.from_bytes(cmd[:4], 'little')
    for fails, name, errno in ((size < 40, 'SizeTooSmall', 22), (size > len(cmd), 'SizePastBytes', 14), (any(cmd[40:size]), 'TailNotZero', 7)):
        if fails:
            return name, errno, 0, 0, 0
    _, flags, space, field, one, two, three = struct.unpack('<IIIIQQQ', cmd[:40])
    fixed, write, read = bits_of(flags)
    memory, length, address = (one, two, three) if request == MAP else (three, one, two)
    spaces = [i + 1 for i, o in enumerate(t.objects) if o.kind == 1]
    early = [(flags >= 8 or (request == MAP and field != 0), 'Flags', 95), (not write and not read, 'NoRight', 22),
             (not 1 <= length <= 2**40, 'WrongLength', 22),
             (memory + length > TOP + 1, 'MemoryPasses' if request == MAP else 'SourcePasses', 75),
             (fixed and address + length > TOP + 1, 'AddressPasses', 75), (space not in spaces, 'NoSpace', 2)]
    if request == COPY:
        sources = [m for m in t.mappings if m.space == field and field and (m.address, m.length) == (memory, length)]
        early += [(field not in spaces, 'NoSourceSpace', 2), (not sources, 'NoSource', 2),
                  (bool(write) and bool(sources) and sources[0].founder == 0, 'NotWriteable', 1)]
    for fails, name, errno in early:
        if fails:
            return name, errno, 0, 0, 0
    at = Looked(t, space)
    asked = range(address, address + length)
    if fixed:
        if address % at.a or asked.stop % at.a:
            return 'Misaligned', 22, 0, 0, 0
        few = asked if length < 200 else [address] + [x for x in at.beginnings() if x in asked]
        objects = {i for x in few for i in at.objects_at(x)}
        if objects:
            return 'TouchesReserved', 22, min(objects), 0, 0
        records = {k for x in few for k in at.records_at(x)}
        if records:
            return 'TouchesMapping', 17, min(records), 0, 0
    else:
        if length % at.a:
            return 'LengthMisaligned', 22, 0, 0, 0
        runs = at.runs()
        if runs is not None and not any(n >= length for _, n in runs):
            return ('NoPlace', 28, 0) + min(runs, key=lambda r: (-r[1], r[0]), default=(0, 0))
    if UNMAPPED not in t.mappings:
        return 'NoRecord', 12, 0, 0, 0
    if request == MAP and charge(t) + (memory + length - 1) // 4096 - memory // 4096 + 1 > t.limit:
        return 'OverLimit', 12, 0, 0, 0
    return 'Accepted', 0, 0, 0, 0


def kinds(t, request, cmd, told):
    """What is worth to be met of a reason."""
    if told.code == REASONS.index('NoPlace'):
        at, last = Looked(t, int.from_bytes(cmd[8:12], 'little')), told.start + told.length - 1
        runs = at.runs()
        if not runs:
            return {'none'}
        return {kind for kind, holds in (
            ('lowest of equals', sum(n == told.length for _, n in runs) > 1), ('up to the last address', last == TOP),
            ('ends off the alignment', (last + 1) % at.a), ('begins above its gap', told.start and not at.objects_at(told.start - 1)
                                                            and not at.records_at(told.start - 1)),
            ('allowed range ends it', at.lists and last < TOP and not at.objects_at(last + 1) and not at.records_at(last + 1))) if holds}
    if told.code in (16, 17):
        at = Looked(t, int.from_bytes(cmd[8:12], 'little'))
        length, address = (int.from_bytes(cmd[k:k + 8], 'little') for k in ((24, 32) if request == MAP else (16, 24)))
        asks = at.objects_at if told.code == 16 else at.records_at
        first = next(asks(x) for x in range(address, address + length) if asks(x))
        if told.named not in first:
            return {'object not of the lowest address' if told.code == 16 else 'record not of the lowest address'}
    return set()


def errno_of(t, request, cmd):
    try:
        (model_map if request == MAP else model_copy)(t, cmd)
        return 0
    except Refused as refused:
        return refused.errno


def refusals(t):
    """The tool's own: 117 before 25, and 25 for UNMAP too."""
    bad = t._replace(limit=2**36 + 1)
    for table, request, errno in ((bad, MAP, 117), (bad, 0, 117), (t, 0x3B86, 25), (t, 0, 25), (t, 0x3B84, 25)):
        try:
            explain(table, request, b'')
            assert False, (request, errno)
        except Refused as refused:
            assert refused.errno == errno, (request, errno)


def main():
    tables = int(sys.argv[2]) if sys.argv[1:2] == ['--tables'] else 400
    dice, met, runs, good = Dice(5), Counter(), Counter(), 0
    while good < tables:
        t = some_table(dice)
        if faults(t):
            continue
        good += 1
        for _ in range(24):
            request, cmd = some_command(dice, t)
            told, seen = explain(t, request, cmd), looked_at(t, request, cmd)
            assert (REASONS[told.code],) + told[1:] == seen, (request, cmd.hex(), told, seen)
            assert told.errno == errno_of(t, request, cmd)
            met[request, REASONS[told.code]] += 1
            runs.update(kinds(t, request, cmd, told))
    refusals(t)
    missing = [(request, name) for request, names in WANTED.items() for name in names if not met[request, name]]
    assert not missing and set(met) <= {(r, n) for r, names in WANTED.items() for n in names}, missing
    assert not RUNS - set(runs), RUNS - set(runs)
    print('reasons.py: %d tables, %d commands; each reason of MAP and COPY, %d kinds of what is told' % (good, 24 * good, len(RUNS)))


if __name__ == '__main__':
    main()
