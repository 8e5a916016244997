#!/usr/bin/env python3
"""Runs of the calls that place no mapping, with the answers of the model.

    tablevectors.py           write crates/test_table/stdin and crates/test_table/stdout
    tablevectors.py --check   fail where the stored files differ from what this script makes
"""
import struct

from model import (ATTACHED, NEW_SPACE, RELEASED, TOP, UNMAPPED, model_alloc, model_allow, model_attach, model_bind, model_destroy, model_detach,
                   model_ranges, model_reach, model_unknown, object_of)
from atrandom import (one_of, random_alloc, random_allow, random_attach, random_bind, random_destroy, random_detach, random_mapping, random_object,
                      random_ranges, random_reach)
from order import pinned
from runs import (ALL, MSI, alloc, allow, attach, bad, badly_opened, bind, call_in_turn, destroy, detach, device, errnos_are, fresh, good, limit,
                  listed, mapping, now, other, page, pairs, ranges, reach, record, sized, store, stored, told_counts)

# ==== by hand: a fresh table
fresh(0, want=0)
alloc(want=0, i=1)
for most in (1, 2**36 - 1, 2**36):
    fresh(most, want=0)
for most in (2**36 + 1, 2**37, 2**63, TOP):
    fresh(most, want=-22)
    call_in_turn(most, want=-117)
record(99, b'', ['unknown operation'], now())

# ==== K8, K9
fresh(4)
alloc(want=0, i=1)
bind(4096, [MSI], want=2)
attach(2, 1, want=0)
ranges(1, 2, want=0, gives=[(0, 0xFEDFFFFF), (0xFEF00000, TOP)], a=4096)
ranges(1, 1, want=-90, gives=[(0, 0xFEDFFFFF)], a=4096)

# ==== opening a command, O1 to O8, by each of the four
for known, call in ((12, alloc), (8, destroy), (24, allow), (32, ranges)):
    badly_opened(known, call)
for cmd in (b'', bytes(3), bytes(4), sized(40, 40), sized(40, 48, 1)):
    other(cmd, want=-25)                                               # O2: before bytes
fresh()
ok = struct.pack('<III', 20, 0, 7)
alloc(cmd=ok + bytes(8), want=0, i=1)                                  # a tail of zeros
alloc(cmd=struct.pack('<III', 12, 0, 7) + b'\xff' * 8, want=0, i=2)    # O4: bytes past the size are ignored and stay
alloc(cmd=ok + bytes(8) + b'\xff', want=0, i=3)
alloc(cmd=ok + bytes(7) + b'\x01', want=-7)
destroy(cmd=struct.pack('<II', 12, 3) + bytes(4) + b'\xff', want=0)
destroy(cmd=struct.pack('<II', 8, 2) + b'\xff' * 4, want=0)
for pointer in (0, 1, TOP):                                            # O8
    allow(1, [(0, 4095)], pointer=pointer, want=0)
allow(cmd=struct.pack('<IIIIQ', 32, 1, 1, 0, 9) + bytes(8) + b'\xff', area=pairs([(5, 6)]), want=0)
allow(cmd=struct.pack('<IIIIQ', 24, 1, 1, 0, 9) + b'\xff' * 8, area=pairs([(7, 8)]), want=0)
ranges(cmd=struct.pack('<IIIIQQ', 40, 1, 1, 0, 9, 9) + bytes(8) + b'\xff', area=b'\xaa' * 17, want=0, gives=[ALL], a=1)
ranges(cmd=struct.pack('<IIIIQQ', 32, 1, 0, 0, TOP, TOP) + b'\xff' * 8, area=b'', want=-90, gives=[], a=1)

# ==== ALLOW_IOVAS
fresh()
alloc(i=1)
alloc(i=2)
bind(4096, [(0x10000, 0x1FFFF), (0x40000, 0x40FFF)], want=3)
bind(4096, [(0x80000, 0x8FFFF)], want=4)
bind(4096, [(0xC0000, 0xCFFFF)], want=5)
attach(3, 1, want=0)
attach(4, 2, want=0)
allow(9, [], count=9, field=1, area=b'', want=-95)                     # A1: the order
allow(1, [(0, 1)], field=2**31, want=-95)
allow(9, [], count=9, area=b'', want=-2)
allow(0, [], want=-2)
allow(33, [], want=-2)
allow(2**32 - 1, [], want=-2)
allow(3, [], want=-2)                                                  # D5: a device is no space
allow(1, [], count=9, area=b'', want=-12)
allow(1, [(k, k) for k in range(9)], want=-12)
allow(1, [], count=2**32 - 1, area=b'', want=-12)
allow(1, [], count=2**28, area=b'', want=-12)
allow(1, [(5, 4)] * 8, area=pairs([(5, 4)] * 8)[:127], want=-14)
allow(1, [], count=1, area=b'', want=-14)
allow(1, [(0x10000, 0x10000)], count=2, want=-14)
allow(1, [(5, 9), (9, 9)], count=3, want=-14)
allow(1, [(0x10000, 0x10000), (1, 0)], want=-22)                       # A2: all are asked the first question first
allow(1, [(1, 0), (0x10000, 0x10000)], want=-22)
allow(1, [(0x10000, 0x10000), (7, 9), (9, 9)], want=-22)
allow(1, [(0x10000, 0x10000)], want=-98)
allow(1, [(0, 1), (0x1FFFF, 0x20000)], want=-98)
allow(1, [(0x20000, 0x3FFFF), (0, 0xFFFF), (0x41000, TOP)], want=0)    # A8: stored in the order given
allow(1, [(0x20000, 0x40000)], want=-98)                               # A9: the old list stays
allow(1, [(0x0, 0x10000)], want=-98)
allow(1, ranges=[ALL], want=-98)
allow(1, [(3, 3)], area=pairs([(3, 3), (9, 2)]) + b'\xff' * 5, want=0)  # A3: what is past count is not read
allow(1, [(0, 9), (10, 19)], want=0)                                   # A4
allow(1, [(0, 9), (9, 19)], want=-22)
allow(1, [(0, 9), (0, 9)], want=-22)
allow(1, [(2, 2), (1, 3)], want=-22)
allow(1, [(TOP, TOP), (0, 0)], want=0)
allow(1, [(TOP, TOP), (0x41000, TOP)], want=-22)
allow(1, [(TOP, 0)], want=-22)
allow(1, [], area=b'\xff' * 32, want=0)                                # A5
allow(1, [(0, 9)], want=0)
allow(1, [], area=b'', want=0)
allow(1, [(0x80000, 0x8FFFF), (0xC0000, 0xC0000)], want=0)             # A7: others' reserved ranges, a loose device's
allow(2, [(0x10000, 0x1FFFF)], want=0)
allow(2, [(0x80000, 0x80000)], want=-98)
allow(1, [(8 * k, 8 * k + 7) for k in (3, 1, 5, 7, 2, 4, 6, 0)], want=0)
allow(1, [(8 * k, 8 * k + 8) for k in (3, 1, 5, 7, 2, 4, 6, 0)], want=-22)
allow(1, [(10 * k, 10 * k) for k in range(7)] + [(60, 60)], want=-22)
mapping(0, page(1, 0x100000, 1))                                       # A6: mappings stay
allow(1, [(0x20000, 0x2FFFF)], want=0)
allow(1, [], want=0)
good()

# ==== IOVA_RANGES
ranges(1, 3, want=0, gives=[(0, 0xFFFF), (0x20000, 0x3FFFF), (0x41000, TOP)], a=4096)   # R7: a mapping plays no part
ranges(1, 3, field=1, want=-95)
ranges(9, 3, field=2**31, area=b'', want=-95)
ranges(9, 3, area=b'', want=-2)
for i in (0, 3, 5, 33, 2**32 - 1):                                     # D5, D2
    ranges(i, 0, want=-2)
ranges(1, 3, area=b'\xaa' * 47, want=-14)                              # R1: about count, not about the ranges there are
ranges(1, 4, area=b'\xaa' * 48, want=-14)
ranges(1, 1, area=b'', want=-14)
for count in (2**28, 2**28 + 1, 2**31, 2**32 - 1):
    ranges(1, count, area=b'\xaa' * 48, want=-14)
ranges(1, 5, area=b'\xaa' * 83, want=0)                                # R2: count shrinks, unused room is not written
ranges(1, 0, want=-90, gives=[], a=4096)                               # R3, R8
ranges(1, 1, want=-90, gives=[(0, 0xFFFF)], a=4096)
ranges(1, 2, area=b'\xaa' * 48, want=-90, gives=[(0, 0xFFFF), (0x20000, 0x3FFFF)], a=4096)
ranges(2, 2, want=0, gives=[(0, 0x7FFFF), (0x90000, TOP)], a=4096)     # R9
allow(1, [(0x20000, 0x2FFFF)], want=0)
ranges(1, 3, want=0, gives=[(0, 0xFFFF), (0x20000, 0x3FFFF), (0x41000, TOP)], a=4096)
detach(4, want=0)
ranges(2, 1, want=0, gives=[ALL], a=1)
detach(3, want=0)
ranges(1, 1, want=0, gives=[ALL], a=1)


def reserving(*devices):
    """A fresh space 1 with attached devices of these ranges."""
    fresh()
    alloc(i=1)
    for k, given in enumerate(devices, 2):
        bind(2**12 | 2**20, given, want=k)
        attach(k, 1, want=0)


reserving([ALL])                                                       # R4
ranges(1, 2, want=0, gives=[], a=4096)
ranges(1, 0, want=0, gives=[], a=4096)
allow(1, [(7, 7)], want=-98)
reserving([(0, 0x7FFF)], [(0x8000, TOP)])
ranges(1, 0, want=0, gives=[], a=4096)
reserving([(0, 0)])                                                    # R6
ranges(1, 1, want=0, gives=[(1, TOP)])
reserving([(TOP, TOP)])
ranges(1, 1, want=0, gives=[(0, TOP - 1)])
reserving([(TOP - 1, TOP), (0, 1), (TOP, TOP), (0, 0)])
ranges(1, 1, want=0, gives=[(2, TOP - 2)])
ranges(1, 0, want=-90)
reserving([(1, TOP - 1)])
ranges(1, 2, want=0, gives=[(0, 0), (TOP, TOP)])
ranges(1, 1, want=-90, gives=[(0, 0)])
reserving([(50, 59), (10, 19), (20, 29), (15, 24)], [(60, 60), (0, 4), (6, 6), (52, 54)])   # R5
ranges(1, 4, want=0, gives=[(5, 5), (7, 9), (30, 49), (61, TOP)])
reserving([(10, 10), (10, 10), (10, 10), (10, 10)], [(12, 12), (10, 12), (11, 11)])
ranges(1, 2, want=0, gives=[(0, 9), (13, TOP)])
reserving([(100, 199), (120, 130), (90, 110), (190, 250)])
ranges(1, 2, want=0, gives=[(0, 89), (251, TOP)])
reserving(*[[(64 * (4 * d + k) + 16, 64 * (4 * d + k) + 31) for k in (2, 0, 3, 1)] for d in range(31)])   # all 32 records
ranges(1, 125, want=0, gives=[(64 * k - 32 if k else 0, 64 * k + 15 if k < 124 else TOP) for k in range(125)])
ranges(1, 3, want=-90, gives=[(0, 15), (32, 79), (96, 143)], a=4096)
detach(32, want=0)
ranges(1, 0, want=-90, gives=[])

# ==== a full table of objects: D1, D2, D4, H4
alloc(want=-12)
alloc(1, want=-95)
alloc(2**31, want=-95)
bind(4096, want=-12)
bind(TOP, [MSI], want=-12)
bind(0, want=-22)
bind(8192, want=-22)
bind(4096, [(0, 0)] * 4, count=5, want=-22)
bind(4096, [(1, 0)], want=-22)
destroy(1, want=-16)                                                   # a space with a device
destroy(5, want=-16)                                                   # an attached device
for i in (1, 5):
    destroy(cmd=struct.pack('<III', 12, i, 1), want=-7)                # the tail before either
for i in (0, 33, 34, 2**16 + 1, 2**31 + 5, 2**32 - 1):
    destroy(i, want=-2)
destroy(32, want=0)                                                    # a loose device
destroy(32, want=-2)
alloc(want=0, i=32)                                                    # a released record, for any kind
alloc(want=-12)
destroy(32, want=0)
bind(1, want=32)
detach(7, want=0)
destroy(7, want=0)
detach(3, want=0)
destroy(3, want=0)
bind(1, want=3)                                                        # the lowest
alloc(want=0, i=7)
attach(3, 7, want=0)
attach(32, 7, want=0)
ranges(7, 1, want=0, gives=[ALL], a=1)
destroy(7, want=-16)
detach(3, want=0)
destroy(7, want=-16)                                                   # the other is still there
detach(32, want=0)
destroy(7, want=0)

# ==== objects: D1 to D5
fresh()
alloc(2, want=-95)
alloc(want=0, i=1)
bind(4096, want=2)
alloc(want=0, i=3)
destroy(2, want=0)
attach(2, 1, want=-2)
alloc(want=0, i=2)
destroy(2, want=0)
bind(4096, want=2)
attach(1, 3, want=-2)                                                  # D5
attach(2, 2, want=-2)
detach(1, want=-2)
reach(1, 0, 1, want=-2)
attach(2, 3, want=0)
destroy(3, want=-16)
destroy(2, want=-16)
destroy(1, want=0)
detach(2, want=0)
destroy(3, want=0)
destroy(2, want=0)
limit(0)
good()
fresh(3)                                                               # D3
alloc(i=1)
alloc(i=2)
mapping(0, page(1, 0, 1))
mapping(5, page(1, 8192, 2))
mapping(127, page(2, 4096, 2))
mapping(3, page(2, 0, 7, memory=4096))
good()
bind(4096, want=3)
destroy(1, want=0)                                                     # backing 2 stays charged with space 2
attach(3, 2, want=0)
reach(3, 4096, 4096, want=0, at=0)
limit(2)
good()
limit(1)
bad('limit below the charge')
limit(2)
detach(3, want=0)
destroy(2, want=0)
limit(0)
good()

# ==== bind: H1 to H4
fresh()
for bitmap, want in ((0, -22), (1, 1), (4096, 2), (8192, -22), (2**63, -22), (2**63 | 4096, 3), (0x6000, -22), (0x7000, 4), (TOP, 5),
                     (TOP - 4095, 6), (TOP - 8191, -22), (2**63 | 8192, -22), (2048, 7)):
    bind(bitmap, want=want)                                            # H2
bind(4096, [(5, 9), (9, 5), (1, 0), (TOP, 0)], count=1, want=8)        # H1: places past the count are stored as zero
bind(4096, [(5, 9), (7, 7), (3, 3), (4, 4)], count=0, want=9)
bind(4096, [(5, 9), (7, 7), (3, 3), (4, 4)], count=3, want=10)
bind(4096, [(5, 9), (9, 5)], want=-22)
bind(4096, [(0, 0), (0, 0), (0, 0), (1, 0)], want=-22)
bind(4096, [(0, 0)] * 4, count=2**32 - 1, want=-22)
bind(0, [(1, 0)], count=9, want=-22)
bind(4096, [(5, 9), (5, 9), (10, 20), (7, 15)], want=11)               # H3
bind(4096, [ALL, ALL, ALL, ALL], want=12)
good()

# ==== attach and detach: H5 to H7, H11
fresh()
alloc(i=1)
alloc(i=2)
bind(1024, want=3)
bind(4096, [(0x10000, 0x10FFF)], want=4)
bind(2048, [(0x20000, 0x20FFF), (0, 0xFFF)], want=5)
attach(9, 9, want=-2)                                                  # H5
attach(3, 9, want=-2)
attach(3, 0, want=-2)
attach(0, 1, want=-2)
attach(33, 1, want=-2)
attach(3, 33, want=-2)
attach(2**32 - 1, 1, want=-2)
attach(4, 2**32 - 1, want=-2)
detach(0, want=-2)
detach(9, want=-2)
detach(33, want=-2)
detach(3, want=-22)
attach(3, 1, want=0)
attach(3, 9, want=-2)
attach(3, 4, want=-2)
attach(3, 1, want=-16)
attach(3, 2, want=-16)
ranges(1, 1, want=0, gives=[ALL], a=1024)
mapping(0, page(1, 0x10400, 1, length=0x400))
mapping(1, page(2, 0x10000, 2, length=1))
attach(5, 1, want=-98)                                                 # H6: 2048 does not suit 0x10400
attach(4, 1, want=-98)                                                 # H11: touches a mapping
mapping(0, page(1, 0x11000, 1, length=0x400))
attach(4, 1, want=-98)                                                 # the end is off 4096
mapping(0, page(1, 0x11000, 1))
attach(4, 2, want=-98)
mapping(1, page(2, 0xF000, 2, length=0x1000))
attach(4, 2, want=0)
detach(4, want=0)
allow(1, [(0x10FFF, 0x10FFF)], want=0)
attach(4, 1, want=-98)                                                 # H11: touches the allow list
allow(1, [(0xFFFF, 0xFFFF), (0x11000, 0x11FFF)], want=0)
attach(4, 1, want=0)                                                   # neighbours are fine
ranges(1, 2, want=0, gives=[(0, 0xFFFF), (0x11000, TOP)], a=4096)
attach(5, 1, want=0)                                                   # H6: the higher of old and new
mapping(9, page(2, 0, 9))
attach(5, 2, want=-16)                                                 # 16 before 98
mapping(9, page(2, 0x1400, 9, length=0x400))
attach(5, 2, want=-16)                                                 # likewise: 2048 would not suit it
mapping(9)
ranges(1, 2, want=-90, a=4096)
destroy(1, want=-16)
detach(4, want=0)                                                      # H7
ranges(1, 3, want=0, gives=[(0x1000, 0x1FFFF), (0x21000, TOP)], a=2048)
mapping(2, page(1, 0x30800, 3, length=0x800))
good()
attach(4, 1, want=-98)
mapping(2)
detach(5, want=0)
ranges(1, 1, want=0, gives=[ALL], a=1024)
detach(5, want=-22)
detach(3, want=0)
ranges(1, 1, want=0, gives=[ALL], a=1)
mapping(2, page(1, TOP, 3, length=1))                                  # the last address
bind(1, [(TOP, TOP)], want=6)
attach(6, 1, want=-98)
attach(3, 1, want=-98)
bind(1, [(0, 0), (5, 6), (TOP - 9, TOP - 1), (4, 4)], want=7)
attach(7, 1, want=0)
mapping(2, page(1, TOP - 1023, 3, length=1024))
bad('touches reserved')
detach(7, want=-117)
mapping(2)
detach(7, want=0)
mapping(2, page(1, TOP - 1023, 3, length=1024))                        # the sum 2^64 is a multiple
attach(3, 1, want=0)
attach(4, 1, want=-98)
attach(5, 1, want=-98)
mapping(2, page(1, TOP - 4095, 3))
attach(4, 1, want=0)
good()

# ==== reach: H8 to H10
fresh()
alloc(i=1)
alloc(i=2)
bind(1, want=3)
bind(1, want=4)
attach(3, 1, want=0)
mapping(0, page(1, 0x1000, 1, memory=0x5000))
mapping(1, page(1, 0x2000, 2, memory=0x6000, rights=3, founder=1))
mapping(2, page(2, 0x1000, 3, memory=0x9000, rights=1, founder=1))
mapping(3, page(1, TOP - 4095, 4, memory=TOP - 4095))
mapping(4, page(1, 0x8000, 5, rights=1, founder=1, length=1, memory=TOP))
mapping(127, page(1, 0, 128, length=2, memory=0x7000))
good()
reach(9, 0, 0, want=-2)                                                # H9
reach(0, 0, 1, want=-2)
reach(33, 0, 1, want=-2)
reach(2**32 - 1, 0, 1, want=-2)
reach(1, 0x1000, 1, want=-2)
reach(4, TOP, 0, want=-22)
reach(4, TOP, 2, want=-22)
reach(4, 0x1000, 1, want=-22)
reach(3, TOP, 0, want=-22)
reach(3, TOP, 2, want=-75)
reach(3, 1, TOP, want=-14)
reach(3, 2, TOP, want=-75)
reach(3, 0, TOP, want=-14)
reach(3, 0x1000, 0x1001, want=-14)                                     # H8: two neighbours do not add up
reach(3, 0x1FFF, 2, want=-14)
reach(3, 0x1000, 0x2000, write=True, want=-14)
reach(3, 0xFFF, 1, want=-14)
reach(3, 0x3000, 1, want=-14)
reach(3, 2, 1, want=-14)
reach(3, 0x1000, 1, write=True, want=-1)
reach(3, 0x8000, 1, want=-1)
reach(3, 0x8000, 1, write=True, want=0, at=TOP)
reach(3, 0x8000, 2, write=True, want=-14)
reach(3, 0x1000, 0x1000, want=0, at=0x5000)
reach(3, 0x1FFF, 1, want=0, at=0x5FFF)
reach(3, 0x2800, 0x800, want=0, at=0x6800)
reach(3, 0x2800, 0x800, write=True, want=0, at=0x6800)
reach(3, 0, 2, want=0, at=0x7000)
reach(3, 1, 1, want=0, at=0x7001)
reach(3, TOP, 1, want=0, at=TOP)                                       # H10
reach(3, TOP - 4095, 4096, want=0, at=TOP - 4095)
reach(3, TOP - 4095, 4096, write=True, want=-1)
reach(3, TOP - 4096, 2, want=-14)
attach(4, 2, want=0)
reach(4, 0x1000, 1, want=-1)
reach(4, 0x1000, 1, write=True, want=0, at=0x9000)
reach(4, 0x2000, 1, write=True, want=-14)
limit(0)
reach(4, 0x1000, 1, want=-117)                                         # 117 before 1
limit(2**36)
detach(3, want=0)
reach(3, 0x1000, 1, want=-22)

# ==== the bad table: each clause alone, then any call is 117, then repaired
fresh(2**36)
alloc(i=1)
alloc(i=2)
bind(4096, [MSI, (0x10000, 0x1FFFF)], want=3)
attach(3, 1, want=0)
bind(2048, [(0, 0)], want=4)
home = device(4096, [MSI, (0x10000, 0x1FFFF)], home=1)
loose = device(2048, [(0, 0)])
for k in range(8):                                                     # all eight, 117 before all
    limit(2**36 + 1)
    call_in_turn(k, want=-117)
alloc(cmd=b'', want=-117)
destroy(cmd=b'\x01', want=-117)
allow(cmd=bytes(24), want=-117)
allow(cmd=b'', want=-117)
ranges(cmd=b'', want=-117)
bind(0, want=-117)
bind(8192, want=-117)
bind(4096, [(0, 0)] * 4, count=5, want=-117)
bind(4096, [(1, 0)], want=-117)
for cmd in (b'', bytes(40)):                                           # O3: for unknown requests too
    other(cmd, want=-117)
limit(TOP)
bad('limit above 2^36')
limit(2**36)
good()


def wrong(place, m, *clauses, **changed):
    """A mapping that makes the table bad, and that is taken away again."""
    before = now().mappings[place]
    mapping(place, m, **changed)
    bad(*clauses)
    mapping(place, before)
    good()


def fine(place, m, **changed):
    before = now().mappings[place]
    mapping(place, m, **changed)
    good()
    mapping(place, before)


def wrong_object(i, o, *clauses, **changed):
    before = object_of(now(), i)
    stored(i, o, **changed)
    bad(*clauses)
    stored(i, before)
    good()


def fine_object(i, o, **changed):
    before = object_of(now(), i)
    stored(i, o, **changed)
    good()
    stored(i, before)


P = page(2, 0, 1)
for s in (3, 4, 5, 32, 33, 2**32 - 1):                                 # names no space
    wrong(0, page(s, 0x5000, 1), 'mapping of no space')
for s in (0, 3, 4, 5, 33, 2**32 - 1):
    wrong_object(5, device()._replace(kind=ATTACHED, home=s), 'device of no space')
mapping(1, page(2, 0x3000, 2))                                         # two share an address
wrong(0, page(2, 0x3FFF, 1, length=1), 'mappings overlap')
wrong(127, page(2, 0x2FFF, 1, length=2), 'mappings overlap')
wrong(2, page(2, 0x3000, 1), 'mappings overlap')
wrong(2, page(2, 0x3001, 1, length=2), 'mappings overlap')
wrong(126, page(2, 0, 1, length=2**40), 'mappings overlap')
fine(0, page(2, 0x4000, 1, length=1))
fine(0, page(2, 0x2FFF, 1, length=1))
fine(127, page(1, 0x3000, 1))                                          # B4: two spaces may map the same
mapping(127, page(2, TOP, 3, length=1))
wrong(126, page(2, TOP, 1, length=1), 'mappings overlap')
wrong(126, page(2, TOP - 1, 1, length=2), 'mappings overlap')
mapping(127)
wrong(0, P, 'length 0', length=0)
wrong(0, page(2, 0x5001, 1, length=0), 'length 0')
wrong(0, page(2, 2**41, 1), 'length over 2^40', length=2**40 + 1)
fine(0, page(2, 2**41, 1), length=2**40)
wrong(0, P, 'no right', rights=0)
wrong(0, P, 'no right', rights=0, founder=1)
wrong(0, P, 'no right', 'bits of a field that no rule uses', rights=4)
wrong(0, P, 'bits of a field that no rule uses', rights=6)
wrong(0, P, 'bits of a field that no rule uses', rights=2**31 + 2)
wrong(0, P, 'bits of a field that no rule uses', founder=2)
wrong(0, P, 'past the top', address=TOP, length=2)
wrong(0, P, 'past the top', address=TOP - 4094)
wrong(0, P, 'past the top of memory', memory=TOP, length=2)
wrong(0, P, 'past the top of memory', memory=TOP - 4094)
fine(0, P, address=TOP, length=1, memory=TOP)
fine(0, P, address=TOP - 4095, memory=TOP - 4095)
wrong(0, page(1, MSI[0], 1), 'touches reserved')
wrong(0, page(1, MSI[1] - 4095, 1), 'touches reserved')
wrong(0, page(1, 0x10000, 1), 'touches reserved')
wrong(0, page(1, 0xF000, 1), 'touches reserved', length=0x2000)
wrong(0, page(1, 0, 1), 'touches reserved', length=2**40)
fine(0, page(1, 0xF000, 1))
fine(0, page(1, 0x20000, 1))
fine(0, page(1, MSI[1] + 1, 1))
wrong(0, page(1, 0x400, 1), 'misaligned')
wrong(0, page(1, 0x800, 1), 'misaligned', length=0x800)
wrong(0, page(1, 0x1000, 1), 'misaligned', length=0x800)
wrong(0, page(1, 0x1800, 1), 'misaligned', length=0x1000)
wrong(0, page(1, TOP, 1), 'misaligned', length=1)
fine(0, page(1, TOP - 4095, 1))                                        # M5: the sum 2^64 is a multiple
fine(0, page(1, 0x1000, 1, memory=0x123))
mapping(2, page(1, 0x3000, 5, memory=0x7000, rights=1, founder=1))
wrong(0, page(2, 0, 5, memory=0x7001, founder=1), 'backing differs in memory')
wrong(127, page(2, 0, 5, memory=0x7000, founder=1, length=4095), 'backing differs in length')
wrong(0, page(2, 0, 5, memory=0x7000), 'backing differs in founder')
wrong(1, page(1, 0, 5), 'backing differs in founder', 'backing differs in memory')
fine(0, page(2, 0, 5, memory=0x7000, founder=1))                       # B4: rights may differ
fine(0, page(1, 0, 5, memory=0x7000, founder=1, rights=3))
fine(0, page(2, 0, 6, memory=0x7000))                                  # two backings of the same memory
wrong(0, P, 'writes without the founding right', rights=1)             # B5
wrong(0, P, 'writes without the founding right', rights=3)
fine(0, P, founder=1)
fine(0, P, backing=128)                                                # B3
wrong(0, P, 'backing number', backing=0)
wrong(0, P, 'backing number', backing=129)
wrong(0, P, 'backing number', backing=2**32 - 1)
wrong(0, P, 'backing number', backing=257)
mapping(0, UNMAPPED, memory=1)                                         # a released record
bad('released mapping not zero')
mapping(127, UNMAPPED, rights=2)
bad('released mapping not zero')
for field in ('rights', 'founder', 'backing', 'address', 'length'):
    mapping(127)
    mapping(0, UNMAPPED, **{field: 1})
    bad('released mapping not zero')
mapping(0)
good()
mapping(2)
for i, o in ((4, loose), (3, home)):                                   # B2: loose devices are judged too
    wrong_object(i, o, 'bitmap 0', bitmap=0)
    wrong_object(i, o, 'lowest page above 4096', bitmap=8192)
    wrong_object(i, o, 'over 4 reserved ranges', count=5)
    wrong_object(i, o, 'reserved start above last', count=4, starts=(1, 2, 3, 4), lasts=(1, 2, 3, 3))
    wrong_object(i, o, 'unused reserved place not zero', count=1, starts=(0, 0, 0, 1), lasts=(0, 0, 0, 0))
    wrong_object(i, o, 'device with a field of a space', size=1)
    fine_object(i, o, count=4, starts=(9, 9, 0, 9), lasts=(9, 9, 9, 9))
wrong_object(4, loose, 'lowest page above 4096', bitmap=2**63)
wrong_object(4, loose, 'over 4 reserved ranges', count=2**32 - 1)
wrong_object(4, loose, 'reserved start above last', count=1, starts=(1, 0, 0, 0), lasts=(0, 0, 0, 0))
wrong_object(4, loose, 'unused reserved place not zero', count=1, starts=(0, 0, 0, 0), lasts=(0, 1, 0, 0))
wrong_object(4, loose, 'unused reserved place not zero', count=3, starts=(0, 0, 0, 0), lasts=(0, 0, 0, 2**63))
wrong_object(4, loose, 'device with a field of a space', lows=(0,) * 7 + (1,))
wrong_object(4, loose, 'device with a field of a space', highs=(1,) + (0,) * 7)
wrong_object(4, loose, 'device of no space', kind=ATTACHED, home=7)
wrong_object(1, listed(NEW_SPACE, []), 'over 8 allowed ranges', size=9, highs=(0, 1, 2, 3, 4, 5, 6, 7), lows=(0, 1, 2, 3, 4, 5, 6, 7))
wrong_object(2, listed(NEW_SPACE, []), 'over 8 allowed ranges', size=2**32 - 1, highs=(0, 1, 2, 3, 4, 5, 6, 7), lows=(0, 1, 2, 3, 4, 5, 6, 7))
wrong_object(1, listed(NEW_SPACE, [(5, 4)]), 'allowed start above last')
wrong_object(1, listed(NEW_SPACE, [(k, k) for k in range(7)] + [(9, 8)]), 'allowed start above last')
wrong_object(1, listed(NEW_SPACE, [(5, 9), (9, 10)]), 'allowed ranges overlap')
wrong_object(1, listed(NEW_SPACE, [(k, k) for k in range(7)] + [(0, 0)]), 'allowed ranges overlap')
wrong_object(1, listed(NEW_SPACE, [(9, 9), (0, TOP - 1)]), 'allowed ranges overlap', 'allowed touches reserved')
wrong_object(1, listed(NEW_SPACE, [(0xFFFF, 0x10000)]), 'allowed touches reserved')   # B1
wrong_object(1, listed(NEW_SPACE, [(1, 1), MSI]), 'allowed touches reserved')
wrong_object(1, listed(NEW_SPACE, [ALL]), 'allowed touches reserved')
fine_object(2, listed(NEW_SPACE, [ALL]))
fine_object(1, listed(NEW_SPACE, [(0xFFFF, 0xFFFF), (0x20000, 0x20000)]))
fine_object(2, listed(NEW_SPACE, [(9, 9), (0, 0), (TOP, TOP)]))        # B6: the mapping of space 2 lies outside
wrong_object(1, listed(NEW_SPACE, [(5, 6)]), 'unused allowed place not zero', lows=(5, 0, 0, 0, 0, 0, 0, 1))
wrong_object(1, listed(NEW_SPACE, [(5, 6)]), 'unused allowed place not zero', highs=(6, 7, 0, 0, 0, 0, 0, 0))
wrong_object(1, NEW_SPACE, 'unused allowed place not zero', highs=(1,) + (0,) * 7)
wrong_object(1, NEW_SPACE, 'space with a field of a device', bitmap=4096)
wrong_object(1, NEW_SPACE, 'space with a field of a device', count=1)
wrong_object(2, NEW_SPACE, 'space with a field of a device', starts=(0, 0, 0, 1))
wrong_object(2, NEW_SPACE, 'space with a field of a device', lasts=(1, 0, 0, 0))
wrong_object(5, RELEASED, 'released object not zero', bitmap=1)
wrong_object(32, RELEASED, 'released object not zero', bitmap=2**63)
wrong_object(32, RELEASED, 'released object not zero', count=2)
wrong_object(32, RELEASED, 'released object not zero', starts=(0, 1, 0, 0))
wrong_object(32, RELEASED, 'released object not zero', lasts=(0, 0, 1, 0))
wrong_object(32, RELEASED, 'released object not zero', size=1)
wrong_object(5, RELEASED, 'released object not zero', lows=(0, 0, 0, 1, 0, 0, 0, 0))
wrong_object(5, RELEASED, 'released object not zero', highs=(0,) * 7 + (2**63,))
wrong_object(2, RELEASED, 'mapping of no space')                       # the space of a mapping, of a device
wrong_object(1, RELEASED, 'device of no space')
wrong_object(1, device(), 'device of no space')
wrong_object(2, device(), 'mapping of no space')
mapping(0, page(1, 0x3000, 9, length=0x800))                           # a device that comes past the calls
bad('misaligned')
stored(3, loose)
good()
stored(3, home)
mapping(0, page(2, 0x3000, 9, length=2, memory=4095))
mapping(1)
for most in (2, 3, 2**36):                                             # the limit against the charge: two pages are touched
    limit(most)
    good()
for most in (1, 0):
    limit(most)
    bad('limit below the charge')
mapping(1, page(1, 0x3000, 9, length=0x1000))
bad('backing differs in length', 'backing differs in memory')
mapping(1, page(2, 0x5000, 9, length=2, memory=4095))                  # a backing is charged once
limit(2)
good()
mapping(2, page(1, 0x5000, 10, length=0x1000, memory=0x1000))
bad('limit below the charge')
limit(3)
good()
mapping(2, page(2, 0x10000000000, 10, length=2**40, memory=1))
bad('limit below the charge')
limit(2**28 + 3)
good()
limit(2**28 + 2)
bad('limit below the charge')

# ==== the last places: object 32, mapping record 127, the fourth reserved range, the eighth allowed one
four = [(0x2000 * k, 0x2000 * k + 0xFFF) for k in range(4)]
eight = [(0x8000 + 2 * k, 0x8000 + 2 * k) for k in range(7)] + [(0x6FFF, 0x7000)]
fresh()
stored(32, NEW_SPACE)
bind(4096, four, want=1)
mapping(127, page(32, 0x6000, 128))
attach(1, 32, want=-98)
mapping(127, page(32, 0x7000, 128, length=0x800))
attach(1, 32, want=-98)
mapping(127, page(32, 0x7000, 128))
allow(32, eight, want=0)
attach(1, 32, want=-98)
allow(32, [], want=0)
attach(1, 32, want=0)
allow(32, eight, want=-98)
ranges(32, 4, want=0, gives=[(0x2000 * k + 0x1000, 0x2000 * k + 0x1FFF) for k in range(3)] + [(0x7000, TOP)], a=4096)
reach(1, 0x7000, 4096, want=0, at=0)
reach(1, 0x7000, 4096, write=True, want=-1)
wrong(127, page(32, 0x6000, 128), 'touches reserved')
wrong(127, page(32, 0x7800, 128, length=0x800), 'misaligned')
wrong_object(32, listed(NEW_SPACE, eight), 'allowed touches reserved')
destroy(32, want=-16)
detach(1, want=0)
destroy(32, want=0)
limit(0)
good()

# ==== all 128 mapping records
fresh(128)
alloc(i=1)
alloc(i=2)
bind(4096, want=3)
attach(3, 2, want=0)
for k in range(128):
    mapping(k, page(1 + k % 2, 4096 * (127 - k), 1 + 5 * k % 128))
good()
limit(127)
bad('limit below the charge')
limit(128)
reach(3, 0, 4096, want=0, at=0)
reach(3, 4096, 1, want=-14)
reach(3, 4096 * 126, 4096, want=0, at=0)
reach(3, 4096 * 126, 4097, want=-14)
bind(8, [(4096 * 127, 4096 * 127)], want=4)
attach(4, 1, want=-98)                                                 # record 0
bind(8, [(0, 0)], want=5)
attach(5, 2, want=-98)                                                 # record 127
attach(5, 1, want=0)
destroy(1, want=-16)
detach(5, want=0)
destroy(1, want=0)
limit(64)
good()
limit(63)
bad('limit below the charge')
limit(64)
detach(3, want=0)
destroy(2, want=0)
limit(0)
good()

# ==== at random
CALLS = [random_bind] * 2 + [random_attach] * 4 + [random_detach] * 2 + [random_reach] * 5 + [random_alloc] * 2 + [random_destroy] * 2 \
    + [random_allow] * 4 + [random_ranges] * 3


def random_call():
    one_of(*CALLS)()


for most in (2**36, 6, 2**36, 12, 3, 24):
    fresh(most)
    for _ in range(2):
        alloc()
    for _ in range(4):
        random_bind()
    for _ in range(4):
        random_mapping(random_call)
        random_attach()
    for _ in range(44):
        step = one_of(*[random_call] * 14, random_mapping, random_mapping, random_object)
        step() if step == random_call else step(random_call)

# ==== every errno that each call can give, at least twice, and no other
OPENING = {14, 22, 7}
CAN = {
    'fresh': {22}, 'bind': {22, 12}, 'attach': {2, 16, 98}, 'detach': {2, 22}, 'reach': {2, 22, 75, 14, 1}, 'alloc': {95, 12} | OPENING,
    'destroy': {2, 16} | OPENING, 'allow': {95, 2, 12, 14, 22, 98} | OPENING, 'ranges': {95, 2, 14, 90} | OPENING,
}
errnos_are({'other': {25, 117}, **{name: can | {0} | ({117} if name != 'fresh' else set()) for name, can in CAN.items()}})
ordered = pinned('tablevectors.py', {'other': model_unknown, 'bind': model_bind, 'attach': model_attach, 'detach': model_detach, 'reach': model_reach,
                                     'alloc': model_alloc, 'destroy': model_destroy, 'allow': model_allow, 'ranges': model_ranges})
store('tablevectors', 'test_table')
told_counts([*CAN, 'other'])
print('\n'.join(ordered))
