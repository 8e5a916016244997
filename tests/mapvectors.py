#!/usr/bin/env python3
"""Runs of MAP, COPY and UNMAP among the other calls, with the answers of the model.

    mapvectors.py           write crates/test_mapping/stdin and crates/test_mapping/stdout
    mapvectors.py --check   fail where the stored files differ from what this script makes
"""
import struct

from model import READ, SPACE, TOP, UNMAPPED, WRITE, faults, live, model_copy, model_map, model_unmap
from atrandom import (chance, damaged, id_of, one_of, pick, random_alloc, random_allow, random_attach, random_bind, random_destroy, random_detach,
                      random_mapping, random_object, random_reach, some_address, some_ranges)
from order import pinned
from runs import (MSI, alloc, allow, attach, badly_opened, bind, broken, charged, checks, copy, destroy, detach, device, errnos_are, fresh, good, limit,
                  map_, mapping, now, page, reach, store, stored, told_counts, unmap)

PAGE, MOST = 4096, 2**40
BOTH = READ | WRITE
NO_SPACE = (0, 5, 32, 33, 2**31 + 1, 2**32 - 1)


def places(*wanted):
    """The records in use are exactly these, each with its backing number."""
    assert [(k, m.backing) for k, m in enumerate(now().mappings) if m != UNMAPPED] == list(wanted), now().mappings


def spaces(n, most=2**36):
    """A fresh table with n spaces."""
    fresh(most)
    for i in range(1, n + 1):
        alloc(want=0, i=i)


def with_device(bitmap, given=(), most=2**36):
    """A fresh table with space 1 and device 2 attached to it."""
    spaces(1, most)
    bind(bitmap, given, want=2)
    attach(2, 1, want=0)


def stairs(call, wrong, *steps):
    """Everything is wrong at first; each step mends a part, so that the next check answers."""
    for mended, want in steps:
        wrong = {**wrong, **mended}
        call(**wrong, want=want)


# ==== opening a command: K1, K2, K3, O1 to O7
spaces(1)
for known, call in ((40, map_), (40, copy), (24, unmap)):
    badly_opened(known, call)
with_tail = struct.pack('<IIIIQQQ', 48, 4, 1, 0, 0, 1, TOP)
map_(cmd=with_tail + bytes(8), want=0, gives=0)                        # the tail, its ends
for tail in (b'\x01' + bytes(7), bytes(7) + b'\x01', bytes(7) + b'\x80\0'):
    map_(cmd=with_tail + tail, want=-7)
map_(cmd=with_tail + bytes(8) + b'\xff' * 3, want=0, gives=1)          # bytes past the size are ignored and stay
map_(cmd=struct.pack('<IIIIQQQ', 40, 4, 1, 0, 0, 1, TOP) + b'\xff' * 8, want=0, gives=2)
with_tail = struct.pack('<IIIIQQQ', 41, 4, 1, 1, 1, TOP, 2)
copy(cmd=with_tail + b'\0\xff', want=0, gives=3)
copy(cmd=with_tail + b'\x10', want=-7)
copy(cmd=struct.pack('<IIIIQQQ', 40, 4, 1, 1, 1, TOP, 2) + b'\xff' * 9, want=0, gives=4)
unmap(cmd=struct.pack('<IIQQ', 32, 1, 1, 3) + bytes(8) + b'\xff', want=0, gives=3)
unmap(cmd=struct.pack('<IIQQ', 32, 1, 0, 1) + bytes(7) + b'\x01', want=-7)
unmap(cmd=struct.pack('<IIQQ', 32, 1, TOP, 2) + bytes(7) + b'\x01', want=-7)
unmap(cmd=struct.pack('<IIQQ', 24, 1, 0, TOP) + b'\xff' * 8, want=0, gives=2)

# ==== K4 to K7, K10 to K12, and the bench program's plan
spaces(1)
map_(length=2, memory=4095, want=0, gives=0)                           # K4
charged(2)
spaces(1)
map_(at=TOP, length=1, want=0, gives=TOP)                              # K5
map_(at=TOP, length=2, want=-75)
spaces(1)
map_(length=MOST, want=0, gives=0)                                     # K6
charged(2**28)
map_(length=MOST + 1, want=-22)
spaces(1)
map_(at=0, want=0)                                                     # K7
map_(at=4096, want=0)
unmap(1, 0, 6000, want=-2)
places((0, 1), (1, 2))
unmap(1, 0, 8192, want=0, gives=8192)
unmap(1, 0, 8192, want=-2)
unmap(1, 0, TOP, want=0, gives=0)
spaces(1)
allow(1, [(0x100000, 0x1FFFFF)], want=0)                               # K10
map_(length=0x100001, want=-28)
map_(length=0x100000, want=0, gives=0x100000)
map_(length=1, want=-28)
map_(at=0, length=1, want=0)
spaces(2)
map_(1, want=0, gives=0)                                               # K11
copy(2, 1, want=0, gives=0)
charged(1)
unmap(1, 0, PAGE, want=0, gives=PAGE)
charged(1)
unmap(2, 0, PAGE, want=0, gives=PAGE)
charged(0)
spaces(2)
map_(1, want=0)                                                        # K12
copy(2, 1, rights=WRITE, want=-1)
copy(2, 1, rights=BOTH, want=-1)
with_device(4096, [MSI], most=4)                                       # the plan
map_(memory=0x10000, length=0x2000, want=0, gives=0)
map_(at=0x1000, want=-17)
map_(at=0xFEE00000, want=-22)
map_(memory=0x20800, want=0, gives=0x2000)
charged(4)
unmap(1, 0, 0x3000, want=0, gives=0x3000)
charged(0)

# ==== every check in order, on a table with all records used and the charge at its limit
with_device(4096, [(0x10000, 0x1FFFF)], most=128)
for k in range(128):
    map_(at=0x30000 + 4096 * k, want=0)
charged(128)
stairs(map_, dict(flags=9, field=1, space=9, length=MOST + 1, memory=TOP, at=TOP),
       ({}, -95), (dict(flags=1), -95), (dict(field=0), -22), (dict(flags=5), -22), (dict(length=0), -22), (dict(length=0x801), -75),
       (dict(memory=0), -75), (dict(at=0x10001), -2), (dict(space=1), -22), (dict(at=0x10000), -22), (dict(length=0x21000), -22),
       (dict(at=0x30000), -17), (dict(at=0x20000, length=PAGE), -12))
stairs(copy, dict(flags=9, target=9, source=8, length=MOST + 1, origin=TOP, at=TOP),
       ({}, -95), (dict(flags=1), -22), (dict(flags=3), -22), (dict(length=0), -22), (dict(length=0x801), -75), (dict(origin=0x30000), -75),
       (dict(at=0x10001), -2), (dict(target=1), -2), (dict(source=1), -2), (dict(length=PAGE), -1), (dict(flags=5), -22), (dict(at=0x10000), -22),
       (dict(at=0x31000), -17), (dict(at=0x20000), -12))
for call in (map_, copy):
    call(flags=12, length=0, want=-95)                                 # 95 before 22
    call(flags=1, at=TOP, length=2, want=-22)                          # 22 before 75
map_(field=1, length=0, want=-95)
copy(flags=0, origin=TOP, length=2, want=-22)
map_(at=0x30001, length=0xFFF, want=-22)                               # 22 before 17: the address, the end
map_(at=0x30000, length=0x801, want=-22)
map_(at=TOP, length=2, want=-75)                                       # 75 before 22
map_(memory=TOP, length=0x801, want=-75)
copy(source=8, origin=TOP, length=2, want=-75)                         # 75 before 2
copy(origin=0x30000, length=0x801, want=-2)                            # 2 before 22
copy(9, origin=0x30000, rights=WRITE, want=-2)                         # 2 before 1
allow(1, [(0x30000, 0x3FFFF)], want=0)
stairs(map_, dict(flags=8, field=0, space=9, length=MOST + 1, memory=TOP, at=TOP),
       ({}, -95), (dict(flags=0), -22), (dict(flags=4), -22), (dict(length=0x801), -75), (dict(memory=0), -2), (dict(space=1), -22),
       (dict(length=PAGE), -28))                                       # 28 before 12
copy(origin=0x30000, want=-28)
copy(origin=0x30000, flags=6, want=-1)
unmap(9, TOP, 0, want=-22)                                             # UNMAP's order
unmap(9, TOP, 2, want=-75)
unmap(9, 0, TOP, want=-2)
unmap(1, 0x30001, 0x2000, want=-2)
unmap(1, 0x20000, 0x10000, want=-2)
allow(1, [], want=0)
map_(length=PAGE, want=-12)                                            # a candidate, and no record
copy(origin=0x30000, want=-12)
unmap(1, 0x35000, PAGE, want=0, gives=PAGE)                            # one record, one page
map_(length=2 * PAGE, want=-12)                                        # the charge would pass the limit
map_(at=0x30000, length=2 * PAGE, want=-17)                            # 17 before that
map_(at=0x20000, memory=1, want=-12)
copy(origin=0x30000, at=0x20000, want=0)                               # COPY asks for no charge
assert now().mappings[5] == page(1, 0x20000, 1)
map_(length=PAGE, want=-12)
unmap(1, 0x30000, PAGE, want=0)                                        # the copy keeps backing 1
map_(length=PAGE, want=0, gives=0)
assert now().mappings[0] == page(1, 0, 6)                              # the lowest record, the lowest number
map_(length=PAGE, want=-12)
unmap(1, 0x20000, 0x90000, want=0, gives=127 * PAGE)
map_(at=0x20000, length=0x7F000, want=0)                               # the charge is the limit again
charged(128)
map_(length=PAGE, want=-12)

# ==== MAP: numbers, M1 to M4, M18
spaces(1)
bind(4096, want=2)
for flags in (8, 12, 0x10004, 2**31 + 4, 2**32 - 1):
    map_(flags=flags, want=-95)
for field in (1, 2**31, 2**32 - 1):
    map_(field=field, want=-95)
for flags in (0, 1):
    map_(flags=flags, want=-22)
for length in (0, MOST + 1, 2**63, TOP):
    map_(length=length, memory=TOP, want=-22)
for memory, length, want in ((TOP, 2, -75), (TOP - 4094, PAGE, -75), (TOP - MOST + 2, MOST, -75), (TOP, 1, 0), (TOP - 4095, PAGE, 0),
                             (TOP - MOST + 1, MOST, 0)):
    map_(memory=memory, length=length, want=want)
for at, length, want in ((TOP, 2, -75), (TOP - 4094, PAGE, -75), (TOP - MOST + 2, MOST, -75), (TOP - MOST + 1, MOST, 0), (TOP, 1, -17)):
    map_(at=at, length=length, want=want)
unmap(1, TOP - MOST + 1, MOST, want=0, gives=MOST)
map_(at=TOP, length=1, want=0, gives=TOP)
map_(at=TOP - 4095, length=4095, want=0)
map_(9, at=TOP, length=2, want=-75)                                    # M3: the sum before the space
map_(9, flags=4, at=TOP, length=2, want=-2)                            # M4: an automatic MAP's address is no input
map_(flags=4, at=TOP, length=2, want=0)
for i in NO_SPACE + (2,):                                              # a device is no space
    map_(i, want=-2)
    map_(i, at=0x7000, want=-2)
for rights in (READ, WRITE, BOTH):
    map_(rights=rights, length=7, want=0)
map_(rights=BOTH, at=2**50, memory=0x123, want=0)                      # M21
assert [(m.rights, m.founder) for m in live(now())[-4:]] == [(2, 0), (1, 1), (3, 1), (3, 1)]

# ==== MAP: charge, M8 to M10
spaces(1, 0)
map_(length=1, want=-12)
map_(at=5, length=1, want=-12)
limit(1)
map_(length=2, memory=4095, want=-12)
map_(length=1, memory=4095, want=0)
map_(length=1, memory=4095, want=-12)                                  # the same memory is another backing
limit(2)
map_(length=1, memory=4095, want=0)
limit(9)
for memory, length, n in ((1, 4096, 2), (0, 4097, 2), (4095, 4098, 3), (TOP, 1, 1), (0x5000, 0x2000, 2), (0x5001, 0x1FFF, 2), (0x5FFF, 2, 2)):
    map_(memory=memory, length=length, want=0)
    charged(2 + n)
    unmap(1, 2, TOP - 2, want=0, gives=length)
limit(2**28)
map_(length=MOST, want=-12)
unmap(1, want=0, gives=2)
map_(length=MOST, memory=1, want=-12)
map_(length=MOST, want=0, gives=0)
map_(length=1, want=-12)

# ==== MAP: the alignment, M5, M6, M12, M19
with_device(4096, [(0x8000, 0x8FFF)])
for at, length, want in ((0x400, PAGE, -22), (0x1000, 0x800, -22), (0x1800, 0x800, -22), (0x1001, 0xFFF, -22), (TOP, 1, -22), (1, 1, -22),
                         (0x7000, 0x2000, -22), (0x8000, PAGE, -22), (0x6000, 0x4000, -22), (0x7000, PAGE, 0), (0x9000, PAGE, 0),
                         (0x6000, 0x2000, -17), (0x6000, 0x4000, -22), (0x9000, 0x2000, -17), (TOP - 4095, PAGE, 0), (TOP - 8191, 0x2000, -17),
                         (TOP - 8191, PAGE, 0)):
    map_(at=at, length=length, want=want)
for length in (1, 4095, 4097, MOST - 1):
    map_(length=length, want=-22)
allow(1, [(0x7000, 0x7FFF)], want=0)
map_(length=4095, want=-22)                                            # M12: 22 before 28
map_(length=4096, want=-28)
bind(1024, [(0, 0x3FF)], want=3)
bind(2048, want=4)
alloc(want=0, i=5)
attach(3, 5, want=0)
map_(5, at=0x800, length=0x400, want=0)                                # others' devices have no say
map_(5, at=0xC00, length=0x200, want=-22)
map_(5, at=0x8000, length=0x400, want=0)
map_(5, length=0x400, want=0, gives=0x400)
map_(5, length=0x400, want=0, gives=0xC00)
attach(4, 5, want=-98)
unmap(5, want=0, gives=0x1000)
attach(4, 5, want=0)                                                   # the highest of the two
map_(5, length=0x400, want=-22)
map_(5, length=0x800, want=0, gives=0x800)
detach(4, want=0)
map_(5, length=0x400, want=0, gives=0x400)
detach(3, want=0)
map_(5, length=1, want=0, gives=0)                                     # no longer reserved, no longer aligned
map_(5, length=0x400, want=0, gives=0x1000)

# ==== MAP: the lowest candidate, M11, M13 to M17
spaces(1)
for at in (0x5000, 0x2000, 0):
    map_(at=at, want=0)
map_(length=0x1001, want=0, gives=0x3000)                              # gaps of 0x1000, 0x2000
map_(length=0x1000, want=0, gives=0x1000)
map_(length=0x1000, want=0, gives=0x6000)
map_(length=0xFFF, want=0, gives=0x4001)
map_(length=1, want=0, gives=0x7000)
unmap(1, 0x2000, 0x1000, want=0)
map_(length=0x1001, want=0, gives=0x7001)
map_(length=0x1000, want=0, gives=0x2000)
spaces(1)
allow(1, [(0x9000, 0x9FFF), (0x3000, 0x3FFF), (0x6000, 0x7FFF)], want=0)   # M14: the lowest, not the first
map_(length=0x1001, want=0, gives=0x6000)
map_(length=0x1000, want=0, gives=0x3000)
map_(length=0x1000, want=0, gives=0x9000)
map_(length=0x1000, want=-28)
map_(length=0xFFF, want=0, gives=0x7001)
map_(length=1, want=-28)
map_(at=0xA000, length=1, want=0)                                      # M13: no say over a fixed address
spaces(1)
allow(1, [(4096, 8191), (0, 4095)], want=0)                            # neighbours are not joined
map_(length=4097, want=-28)
map_(at=4095, length=2, want=0)
map_(length=4096, want=-28)
map_(length=4095, want=0, gives=0)
map_(length=4095, want=0, gives=4097)
map_(length=1, want=-28)
allow(1, [(200 * k, 200 * k + 9 + k) for k in (97, 94, 96, 90, 95, 93, 91, 92)], want=0)
map_(length=102, want=0, gives=200 * 92)                               # the eighth place
map_(length=107, want=0, gives=200 * 97)                               # the first
map_(length=107, want=-28)
map_(length=100, want=0, gives=200 * 90)
allow(1, [], want=0)
map_(length=4096, want=0, gives=0x2000)
with_device(4096)
for low, high, gives in ((0x1001, 0x2FFF, 0x2000), (0x1001, 0x2FFE, None), (0x4FFF, 0x5FFF, 0x5000), (0x7000, 0x7FFE, None), (0x9000, 0x9FFF, 0x9000),
                         (0xB001, 0xC000, None), (TOP - 5000, TOP, TOP - 4095), (TOP - 4094, TOP, None), (0x10, 0x20, None)):   # M15
    allow(1, [(low, high)], want=0)
    map_(want=-28 if gives is None else 0, gives=gives)
allow(1, [(0x20801, 0x23FFF), (0x10801, 0x12000)], want=0)
map_(want=0, gives=0x11000)
map_(want=0, gives=0x21000)
map_(length=0x2000, want=0, gives=0x22000)
with_device(4096, [(0, TOP - 4096)])                                   # M17: only the last page
map_(length=0x2000, want=-28)
map_(want=0, gives=TOP - 4095)
map_(want=-28)
with_device(4096, [(0, TOP - 4095)])                                   # not even that
map_(want=-28)
with_device(4096, [(0, TOP - 100)])
map_(want=-28)
with_device(4096, [(PAGE, TOP)])                                       # only the first
map_(length=0x2000, want=-28)
map_(want=0, gives=0)
map_(want=-28)
with_device(4096, [(TOP - 4095, TOP), (0, 0xFFF), (0x3000, TOP - 8192)])
map_(at=TOP - 4095, length=0x2000, want=-75)                           # 75 before reserved
map_(at=0, memory=TOP, want=-75)
map_(length=0x3000, want=-28)
map_(length=0x2000, want=0, gives=0x1000)
map_(want=0, gives=TOP - 8191)
map_(want=-28)
with_device(4096, [(0, TOP)])
map_(want=-28)
map_(at=0, want=-22)
with_device(1, [(0, TOP - 1)])                                         # the last address
map_(length=2, want=-28)
map_(length=1, want=0, gives=TOP)
map_(length=1, want=-28)
spaces(1)
allow(1, [(TOP, TOP)], want=0)
map_(length=2, want=-28)
map_(length=1, want=0, gives=TOP)
allow(1, [(TOP - 9, TOP)], want=0)
map_(length=10, want=-28)
map_(length=9, want=0, gives=TOP - 9)
with_device(4096, [(0x1801, 0x27FF), (0x4000, 0x4000), (0, 0)])        # ends off the alignment
map_(want=0, gives=0x3000)
map_(want=0, gives=0x5000)
unmap(1, 0x3000, PAGE, want=0)
map_(length=0x2000, want=0, gives=0x6000)
bind(4096, [(0x3000, 0x3FFF), (0x8001, 0x8FFF)], want=3)
attach(3, 1, want=0)
map_(want=0, gives=0x9000)
detach(2, want=0)
map_(length=0x2000, want=0, gives=0)                                   # the other's range alone
map_(length=0x2000, want=0, gives=0xA000)

# ==== records and backing numbers are used again, M20
spaces(3)
for k in range(3):
    map_(1, memory=0x1000 * k, want=0, gives=0x1000 * k)
unmap(1, 0x1000, PAGE, want=0)
copy(2, 1, origin=0, want=0)                                           # record 1 with backing 1
map_(1, memory=0x9000, want=0, gives=0x1000)
places((0, 1), (1, 1), (2, 3), (3, 2))
unmap(1, 0, PAGE, want=0)
map_(3, want=0)
places((0, 4), (1, 1), (2, 3), (3, 2))
destroy(1, want=0)
places((0, 4), (1, 1))
map_(3, want=0, gives=PAGE)
map_(2, rights=BOTH, want=0, gives=PAGE)
places((0, 4), (1, 1), (2, 2), (3, 3))
charged(4)
alloc(want=0, i=1)                                                     # the id again, with nothing in it
unmap(1, want=0, gives=0)
map_(1, at=0x1000, want=0)

# ==== COPY: numbers, C1, C2, C9, C11
spaces(3)
bind(4096, want=4)
map_(1, at=0x1000, length=0x2000, rights=BOTH, want=0)
map_(1, at=0x3000, length=0x1000, want=0)
for flags in (8, 12, 0x10004, 2**31 + 4, 2**32 - 1):
    copy(2, 1, 0x2000, 0x1000, flags=flags, want=-95)
for flags in (0, 1):
    copy(2, 1, 0x2000, 0x1000, flags=flags, want=-22)
for length in (0, MOST + 1, 2**63, TOP):
    copy(2, 1, length, TOP, want=-22)
for i in NO_SPACE + (4,):
    copy(i, 1, 0x2000, 0x1000, want=-2)
    copy(2, i, 0x2000, 0x1000, want=-2)
copy(33, 33, want=-2)
for origin, length in ((0x1000, 0x1000), (0x1000, 0x1FFF), (0x1000, 0x3000), (0x2000, 0x1000), (0x1001, 0x1FFF), (0, 0x2000), (0x3000, 0x2000)):
    copy(2, 1, length, origin, want=-2)                                # no part of a mapping, no two joined
copy(1, 2, 0x2000, 0x1000, want=-2)                                    # target and source are not confused
for origin, length in ((TOP, 2), (TOP - 4094, PAGE)):
    copy(9, 1, length, origin, want=-75)                               # the sum before the space
    copy(2, 1, length, 0x1000, at=origin, want=-75)
copy(2, 1, 0x2000, 0x1000, flags=4, at=TOP, want=0, gives=0)           # an automatic COPY's address is no input
copy(2, 1, 0x2000, 0x1000, at=TOP - 0x1FFF, want=0)
map_(1, at=TOP, length=1, want=0)
copy(3, 1, 1, TOP, want=0, gives=0)
copy(3, 1, 1, TOP, at=TOP, want=0)
copy(3, 1, 1, TOP - 1, want=-2)
map_(1, at=2**50, length=MOST, want=0)
copy(3, 1, MOST, 2**50, want=0, gives=1)
copy(3, 1, MOST, 2**50, at=TOP - MOST, want=0)

# ==== COPY: rights, C3 to C6
spaces(3)
map_(1, at=0, want=0)                                                  # a readable founder
map_(1, at=0x1000, rights=WRITE, want=0)                               # a writeable one
map_(1, at=0x2000, rights=BOTH, want=0)
for rights in (WRITE, BOTH):
    copy(2, 1, origin=0, rights=rights, want=-1)
    copy(1, 1, origin=0, rights=rights, at=0x2000, want=-1)            # 1 before 17
copy(2, 1, origin=0, want=0, gives=0)
copy(2, 2, origin=0, rights=WRITE, want=-1)                            # its copy neither
copy(2, 1, origin=0x1000, rights=READ, want=0, gives=0x1000)           # readable of a write-only founder
copy(3, 2, origin=0x1000, rights=WRITE, want=0, gives=0)               # the founder counts, not the source
copy(3, 2, origin=0x1000, rights=BOTH, want=0, gives=0x1000)
copy(3, 1, origin=0x2000, rights=READ, want=0, gives=0x2000)
unmap(1, want=0, gives=0x3000)                                         # the founders go
copy(1, 3, origin=0x2000, rights=BOTH, at=0x2000, want=0)
copy(1, 2, origin=0, rights=WRITE, want=-1)
charged(3)
bind(1, want=4)
attach(4, 1, want=0)
reach(4, 0x2000, PAGE, write=True, want=0, at=0)
copy(1, 2, origin=0, want=0, gives=0)
reach(4, 0, PAGE, write=True, want=-1)

# ==== reach asks the mapping's own rights, not the founder's
spaces(2)
for i in (1, 2):
    bind(1, want=2 + i)
    attach(2 + i, i, want=0)
map_(1, memory=0x5000, rights=BOTH, want=0, gives=0)
copy(1, 1, want=0, gives=PAGE)                                         # read-only, in the same space and in another
copy(2, 1, want=0, gives=0)
for i, at in ((3, PAGE), (4, 0)):
    reach(i, at + 8, 8, write=True, want=-1)
    reach(i, at + 8, 8, want=0, at=0x5008)
reach(3, 8, 8, write=True, want=0, at=0x5008)                          # the original
reach(3, 8, 8, want=0, at=0x5008)
copy(2, 1, rights=WRITE, want=0, gives=PAGE)                           # the other way round: a right to write, and none to read
map_(1, memory=0x7000, rights=WRITE, want=0, gives=2 * PAGE)
for i, at, memory in ((4, PAGE, 0x5000), (3, 2 * PAGE, 0x7000)):
    reach(i, at + 8, 8, want=-1)
    reach(i, at + 8, 8, write=True, want=0, at=memory + 8)
copy(2, 1, origin=2 * PAGE, want=0, gives=2 * PAGE)                    # a copy may read where its founder may not: C4
reach(4, 2 * PAGE + 8, 8, want=0, at=0x7008)

# ==== COPY: places and charge, C7, C8, C10
spaces(2, 2)
map_(1, rights=BOTH, want=0)
copy(1, 1, rights=WRITE, want=0, gives=PAGE)
copy(2, 1, want=0, gives=0)
assert [(m.rights, m.founder, m.backing) for m in live(now())] == [(BOTH, 1, 1), (WRITE, 1, 1), (READ, 1, 1)]
map_(2, want=0, gives=PAGE)                                            # a backing is charged once
map_(2, want=-12)
spaces(2, 2)
map_(1, at=0x400, length=0x800, want=0)
map_(1, at=0, length=0x400, want=0)
map_(1, length=1, want=-12)
copy(1, 1, 0x800, 0x400, want=0, gives=0xC00)                          # within one space, the charge at its limit
copy(1, 1, 0x800, 0x400, at=0x400, want=-17)
copy(1, 1, 0x800, 0x400, at=0x13FF, want=-17)
copy(1, 1, 0x800, 0x400, at=0x1400, want=0)
copy(1, 1, 0x800, 0x1400, want=0, gives=0x1C00)                        # a copy of a copy
charged(2)
unmap(1, 0x400, 0x1000, want=0, gives=0x1000)
charged(2)
unmap(1, 0x1400, 0x800, want=0)
unmap(1, 0x1C00, 0x800, want=0)
charged(1)
map_(1, length=0x800, want=0, gives=0x400)
bind(4096, [(0x5000, 0x5FFF)], want=3)
attach(3, 2, want=0)
copy(2, 1, 0x800, 0x400, want=-22)                                     # the target's alignment, not the source's
copy(2, 1, 0x800, 0x400, rights=WRITE, want=-1)                        # 1 before that
copy(2, 1, 0x800, 0x400, at=0x1000, want=-22)
copy(2, 1, 0x800, 0x400, at=0x1800, want=-22)
copy(2, 1, 0x800, 0x400, at=0, want=-22)
copy(2, 1, 0x800, 0x400, at=TOP - 0xFFF, want=-22)
limit(99)
map_(1, at=0x10000, want=0)
copy(2, 1, PAGE, 0x10000, at=0x5000, want=-22)
copy(2, 1, PAGE, 0x10000, at=0x1800, want=-22)
copy(2, 1, PAGE, 0x10000, at=0x4800, want=-22)
allow(1, [(0, 0)], want=0)                                             # the target's list, not the source's
copy(2, 1, PAGE, 0x10000, want=0, gives=0)
copy(2, 1, 0x800, 0x400, at=0x800, want=-22)                           # 22 before 17: the address, the end
copy(2, 1, 0x800, 0x400, at=0, want=-22)
allow(2, [(0x4800, 0x4FFF), (0x2801, 0x4000), (0x6000, 0x6FFF)], want=0)
copy(2, 1, PAGE, 0x10000, want=0, gives=0x3000)
copy(2, 1, PAGE, 0x10000, want=0, gives=0x6000)
copy(2, 1, PAGE, 0x10000, want=-28)
copy(2, 1, 0x800, 0x400, want=-22)                                     # 22 before 28
copy(2, 1, PAGE, 0x10000, at=0x6000, want=-17)
map_(1, at=0x20000, length=0x2000, want=0)
copy(2, 1, 0x2000, 0x20000, at=0x5000, want=-22)                       # reserved before 17
unmap(1, 0x20000, 0x2000, want=0)
copy(2, 1, PAGE, 0x10000, at=0x4000, want=0)
copy(1, 2, PAGE, 0, want=-28)
copy(1, 2, PAGE, 0, at=0x11000, want=0)
destroy(1, want=0)                                                     # the copies stay, and their charge
charged(1)

# ==== UNMAP: U1 to U6
spaces(3)
bind(4096, want=4)
for i in NO_SPACE + (4,):                                              # a device is no space
    unmap(i, 0, 1, want=-2)
    unmap(i, 0, TOP, want=-2)
unmap(4, TOP, 0, want=-22)
unmap(1, TOP, 2, want=-75)
unmap(1, 2, TOP, want=-75)
unmap(1, 1, TOP, want=-2)
unmap(1, TOP, 1, want=-2)
unmap(1, 0, TOP, want=0, gives=0)
unmap(1, 0, TOP - 1, want=-2)
map_(1, at=0x1000, want=0)
map_(1, at=0x2000, length=0x10, want=0)
map_(1, at=0x4000, want=0)
map_(2, at=0x1000, want=0)
for address, length in ((0x1001, 1), (0x1000, 0xFFF), (0x1001, 0xFFF), (0x1FFF, 1), (0x1FFF, 0x11), (0x1000, 0x1001), (0x1000, 0x100F), (0, 0x1001),
                        (0x1800, 0x4000), (0, 0x4FFF), (0x4FFF, TOP - 0x4FFE), (0x1001, TOP - 0x1000)):
    unmap(1, address, length, want=-2)                                 # one is cut: all stay
for address, length in ((0, 0x1000), (0x2010, 0x1FF0), (0x5000, 1), (0x5000, TOP - 0x4FFF), (0x3000, 0x1000), (0xFFF, 1)):
    unmap(1, address, length, want=-2)                                 # none inside
charged(4)
unmap(1, 0x2000, 0x10, want=0, gives=0x10)
unmap(1, 0xFFF, 0x4001, want=0, gives=0x2000)                          # U5: the mappings' bytes, not the range's
unmap(1, want=0, gives=0)
places((3, 4))                                                         # U6
map_(1, at=TOP, length=1, want=0)
map_(1, at=0, length=1, want=0)
unmap(1, 0, TOP - 1, want=0, gives=1)                                  # the last address is not in it
unmap(1, 0, TOP - 1, want=-2)
unmap(1, 0, TOP, want=0, gives=1)                                      # U1: all
map_(1, at=0, length=2, want=0)
map_(1, at=TOP - 1, length=2, want=0)
unmap(1, TOP, 2, want=-75)                                             # 75 before 2: it would be cut
unmap(1, 1, TOP, want=-2)
unmap(1, 0, TOP - 1, want=0, gives=2)
map_(1, at=TOP - 2, length=1, want=0)
unmap(1, 1, TOP, want=0, gives=3)
map_(1, at=TOP - 2, length=2, want=0)
unmap(1, 0, TOP - 1, want=-2)
unmap(1, 0, TOP - 2, want=-2)
for k in range(5):
    map_(1, length=MOST, memory=k, want=0, gives=MOST * k)
    copy(2, 1, MOST, MOST * k, at=MOST * k + MOST, want=0)
unmap(1, MOST, 3 * MOST, want=0, gives=3 * MOST)                       # more than 32 bits
unmap(1, 0, TOP, want=0, gives=2 * MOST + 2)
unmap(2, MOST, TOP - MOST + 1, want=0, gives=5 * MOST)
charged(1)
unmap(2, 0, TOP, want=0, gives=PAGE)
map_(3, want=0)
charged(1)


# ==== a bad table is 117 before everything
def refuses(*clauses):
    assert faults(now()) == set(clauses), faults(now())
    broken.update(clauses)
    map_(1, at=0x8000, want=-117)
    copy(2, 1, want=-117)
    unmap(1, want=-117)


spaces(2)
bind(4096, [MSI], want=3)
attach(3, 1, want=0)
map_(1, memory=0x1000, want=0)
copy(2, 1, want=0)
limit(2**36 + 1)
refuses('limit above 2^36')
for call, size in ((map_, 40), (copy, 40), (unmap, 24)):
    for cmd in (b'', bytes(3), bytes(size), struct.pack('<I', size + 8) + bytes(size - 4) + b'\x01' * 8, struct.pack('<I', size) + b'\xff' * (size - 4)):
        call(cmd=cmd, want=-117)
limit(0)
refuses('limit below the charge')
limit(2**36)
for m, clauses in ((page(2, 0xFFF, 2), ['mappings overlap']), (page(5, 0x4000, 2), ['mapping of no space']), (page(1, 0x4001, 2), ['misaligned']),
                   (page(1, MSI[0], 2), ['touches reserved']), (page(2, 0x4000, 1), ['backing differs in memory']),
                   (page(2, 0x4000, 129), ['backing number']), (page(2, 0x4000, 2, length=0), ['length 0']),
                   (page(2, 0x4000, 2, rights=0), ['no right']), (page(2, 0x4000, 2, rights=1), ['writes without the founding right']),
                   (page(2, TOP, 2), ['past the top']), (page(0, 1, 0, rights=0, length=0), ['released mapping not zero'])):
    mapping(127, m)
    refuses(*clauses)
mapping(127)
stored(32, device(bitmap=8192))
refuses('lowest page above 4096')
stored(32)
map_(1, at=0x8000, want=0)
good()

# ==== at random
ODD = (1, 0x3FF, 0x401, 0, MOST, MOST + 1, TOP)


def some_length():
    return one_of(*ODD) if chance(12) else 0x400 * (1 + pick(6))


def some_flags():
    return one_of(0, 1, 8, 2**31 + 4) if chance(24) else one_of(2, 4, 4, 6) + pick(2)


def maybe(cmd, known):
    return damaged(cmd, known) if chance(24) else cmd


def near():
    """An address at or beside a mapping, or any."""
    if chance(2) or not live(now()):
        return some_address() + (1 if chance(20) else 0)
    m = one_of(*live(now()))
    return min(one_of(m.address, m.address + m.length, max(m.address - 0x400, 0)), TOP)


def random_map():
    memory = TOP - 0x400 * pick(3) if chance(20) else 0x100 * pick(64)
    field = one_of(1, 2**31) if chance(40) else 0
    map_(cmd=maybe(struct.pack('<IIIIQQQ', 40, some_flags(), id_of(SPACE), field, memory, some_length(), near()), 40))


def random_copy():
    source, origin, length = id_of(SPACE), near(), some_length()
    if live(now()) and not chance(6):
        m = one_of(*live(now()))
        source, origin, length = m.space, m.address, m.length
    copy(cmd=maybe(struct.pack('<IIIIQQQ', 40, some_flags(), id_of(SPACE), source, length, near(), origin), 40))


def random_unmap():
    space, address, length = id_of(SPACE), near(), some_length()
    if live(now()) and not chance(4):
        m, n = one_of(*live(now())), one_of(*live(now()))
        space, address = m.space, min(m.address, n.address)
        length = max(m.address + m.length, n.address + n.length) - address if chance(2) else m.length
        length += one_of(-1, 1, 0x400) if chance(5) else 0
    if chance(12):
        address, length = 0, one_of(TOP, TOP, TOP - 1)
    unmap(cmd=maybe(struct.pack('<IIQQ', 24, space, address, length % 2**64), 24))


CALLS = [random_map] * 12 + [random_copy] * 8 + [random_unmap] * 7 + [random_allow] * 2 + [random_attach] * 2 \
    + [random_detach, random_destroy, random_alloc, random_bind, random_reach, random_reach]


def random_call():
    one_of(*CALLS)()


for most in (2**36, 12, 2**36, 24, 5, 60, 2**36, 16):
    spaces(3, most)
    for i in (1, 2):
        bind(one_of(1024, 2048, 2048), some_ranges(3, 4))
        attach(3 + i, i)
    random_allow()
    for _ in range(64):
        step = one_of(*[random_call] * 30, random_mapping, random_object)
        step() if step == random_call else step(random_call)

# ==== every check of the three commands, with its errno
OPENING = {'no size field': 14, 'size below': 22, 'size above': 14, 'tail': 7, 'bad table': 117}
PLACING = {'address off the alignment': 22, 'end off the alignment': 22, 'touches reserved': 22, 'touches a mapping': 17, 'length off the alignment': 22,
           'no candidate': 28, 'no record': 12, 'fixed': 0, 'automatic': 0}
ASKED = {'unknown flag': 95, 'no right': 22, 'length 0': 22, 'length over 2^40': 22}
CHECKS = {
    model_map: {**OPENING, **ASKED, 'reserved field': 95, 'memory past the top': 75, 'address past the top': 75, 'no space': 2, **PLACING, 'charge': 12},
    model_copy: {**OPENING, **ASKED, 'source past the top': 75, 'target past the top': 75, 'no target space': 2, 'no source space': 2, 'no source': 2,
                 'founder not writeable': 1, **PLACING},
    model_unmap: {**OPENING, 'length 0': 22, 'past the top': 75, 'no space': 2, 'cuts a mapping': 2, 'none inside': 2, 'all': 0, 'those inside': 0},
}
for call, named in CHECKS.items():
    seen = {(check, errno): n for (c, check, errno), n in checks.items() if c == call}
    assert set(seen) == set(named.items()) and min(seen.values()) >= 2, (call, seen, set(named.items()) ^ set(seen))
NAMES = {'map': model_map, 'copy': model_copy, 'unmap': model_unmap}
errnos_are({name: set(CHECKS[call].values()) for name, call in NAMES.items()})
ordered = pinned('mapvectors.py', NAMES)
store('mapvectors', 'test_mapping')
told_counts(NAMES)
for name, call in NAMES.items():
    print(name + ': ' + '; '.join('%s %d' % (check, checks[call, check, errno]) for check, errno in CHECKS[call].items()))
print('\n'.join(ordered))
