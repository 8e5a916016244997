#!/usr/bin/env python3
"""Why a MAP or a COPY is refused, asked of tables made for each reason, with the answers of the model.

    reasonvectors.py           write crates/test_reasons/stdin and crates/test_reasons/stdout
    reasonvectors.py --check   fail where the stored files differ from what this script makes
"""
import struct

from model import REASONS, TOP
from runs import alloc, allow, attach, bind, checks, explained, fresh, limit, map_, mapping, page, store, why

PAGE, MOST = 4096, 2**40
MAP, COPY, UNMAP, DESTROY = 0x3B85, 0x3B83, 0x3B86, 0x3B80


def spaces(n, most=2**36):
    fresh(most)
    for i in range(1, n + 1):
        alloc(want=0, i=i)


def ask(want, space=1, length=PAGE, at=None, memory=0, flags=None, field=0):
    flags = (5 if at is not None else 4) if flags is None else flags
    why(struct.pack('<IIIIQQQ', 40, flags, space, field, memory, length, 0 if at is None else at), MAP, want)


def ask_copy(want, target=1, source=1, length=PAGE, origin=0, at=None, flags=None):
    flags = (5 if at is not None else 4) if flags is None else flags
    why(struct.pack('<IIIIQQQ', 40, flags, target, source, length, 0 if at is None else at, origin), COPY, want)


# ==== the opening, of both
spaces(1)
for request in (MAP, COPY):
    for n in range(4):
        why(bytes([40, 0, 0, 0])[:n], request, 'NoSizeField')
    why(struct.pack('<I', 39) + bytes(36), request, 'SizeTooSmall')
    why(struct.pack('<I', 0), request, 'SizeTooSmall')
    why(struct.pack('<I', 41) + bytes(36), request, 'SizePastBytes')
    why(struct.pack('<I', 2**32 - 1) + bytes(36), request, 'SizePastBytes')
    why(struct.pack('<I', 48) + bytes(43) + b'\x01', request, 'TailNotZero')
    why(struct.pack('<I', 41) + bytes(36) + b'\x01', request, 'TailNotZero')
    why(struct.pack('<IIIIQQQ', 40, 0, 0, 0, 0, 0, 0) + b'\xff' * 8, request, 'NoRight')   # bytes past the size are not looked at
for request in (UNMAP, DESTROY, 0x3B81, 0x3B82, 0x3B84, 0x3B7F, 0x3B87, 0, 2**32 - 1):
    why(b'', request, 25)
    why(struct.pack('<IIQQ', 24, 1, 0, TOP), request, 25)

# ==== the numbers of a MAP, one after another: everything is wrong at first
wrong = dict(flags=9, field=1, space=9, length=MOST + 1, memory=TOP, at=TOP)
for mended, want in (({}, 'Flags'), (dict(flags=1), 'Flags'), (dict(field=0), 'NoRight'), (dict(flags=5), 'WrongLength'), (dict(length=0), 'WrongLength'),
                     (dict(length=2), 'MemoryPasses'), (dict(memory=0), 'AddressPasses'), (dict(at=7), 'NoSpace'), (dict(space=1), 'Accepted')):
    wrong.update(mended)
    ask(want, **wrong)
ask('Accepted', length=2, memory=4095)
ask('Accepted', length=1, at=TOP)
ask('AddressPasses', length=2, at=TOP)
for space in (0, 2, 33, 2**32 - 1):
    ask('NoSpace', space=space)

# ==== of a COPY
spaces(3)
map_(1, length=2 * PAGE, at=0x8000, want=0)
wrong = dict(flags=9, target=9, source=9, length=MOST + 1, origin=TOP, at=TOP)
for mended, want in (({}, 'Flags'), (dict(flags=1), 'NoRight'), (dict(flags=7), 'WrongLength'), (dict(length=0), 'WrongLength'), (dict(length=PAGE), 'SourcePasses'),
                     (dict(origin=0x8000), 'AddressPasses'), (dict(at=0x8000), 'NoSpace'), (dict(target=2), 'NoSourceSpace'), (dict(source=3), 'NoSource'),
                     (dict(source=1), 'NoSource'), (dict(length=2 * PAGE, origin=0x7000), 'NoSource'), (dict(origin=0x8000), 'NotWriteable'),
                     (dict(flags=5), 'Accepted')):
    wrong.update(mended)
    ask_copy(want, **wrong)
ask_copy(('TouchesMapping', 1), length=2 * PAGE, origin=0x8000, at=0x9000)
ask_copy('Accepted', length=2 * PAGE, origin=0x8000, at=0xA000)
map_(2, flags=6, want=0)
ask_copy('Accepted', source=2, flags=2)
ask_copy('NotWriteable', target=2, length=2 * PAGE, origin=0x8000, flags=2)

# ==== a fixed place: the lowest object and the lowest record, whichever address is lower
spaces(2)
bind(4096, [(0x30000, 0x3FFFF)], want=3)
bind(4096, [(0x20000, 0x2FFFF), (0x50000, 0x5FFFF)], want=4)
bind(4096, [(0x10000, 0x1FFFF)], want=5)
attach(3, 1, want=0)
attach(4, 1, want=0)
attach(5, 2, want=0)
ask('Misaligned', at=0x800)
ask('Misaligned', at=0, length=0x801)
ask(('TouchesReserved', 3), at=0x20000, length=0x20000)
ask(('TouchesReserved', 4), at=0x20000)
ask(('TouchesReserved', 4), at=0x5F000)
ask(('TouchesReserved', 3), at=0, length=2**20)
ask('Accepted', at=0x10000, length=0x10000)
ask(('TouchesReserved', 5), space=2, at=0, length=2**20)
mapping(9, page(1, 0x8000, 1))
mapping(40, page(1, 0x2000, 2))
mapping(127, page(1, 0, 3))
mapping(3, page(2, 0x2000, 4))
ask(('TouchesMapping', 10), at=0, length=0x10000)
ask(('TouchesMapping', 41), at=0, length=0x8000)
ask(('TouchesMapping', 128), at=0, length=0x2000)
ask(('TouchesReserved', 3), at=0, length=0x40000)                      # reserved is asked before what is mapped
ask('Accepted', at=0x1000)
ask_copy(('TouchesMapping', 4), target=2, at=0x2000)
ask_copy(('TouchesReserved', 5), target=2, at=0x10000, origin=0x8000)
ask_copy('Misaligned', target=2, at=0x10001, origin=0x8000)

# ==== an automatic place: the longest run
alloc(want=0, i=6)
map_(6, length=0x801, want=0)
ask_copy('LengthMisaligned', source=6, length=0x801)
ask_copy('Accepted', target=6, source=6, length=0x801)
ask('LengthMisaligned', length=0x801)
ask_copy('NoSource', length=0x801)
spaces(1)
allow(1, [(0x2000, 0x2FFF), (0x1000, 0x1FFF)], want=0)                 # neighbours are not joined; the lower of equals, though it is given last
ask(('NoPlace', 0x1000, 0x1000), length=0x1001)
map_(1, length=1, at=0x1000, want=0)
ask(('NoPlace', 0x2000, 0x1000), length=0x1001)
map_(1, length=1, at=0x2800, want=0)
ask(('NoPlace', 0x1001, 0xFFF), length=0x1001)                         # past a mapping
spaces(1)
bind(4096, [(0x3800, 0x3FFF), (0x10000, TOP)], want=2)
attach(2, 1, want=0)
ask(('NoPlace', 0x4000, 0xC000), length=0x10000)                       # cut by what is reserved
map_(1, length=0x8000, at=0x8000, want=0)
ask(('NoPlace', 0x4000, 0x4000), length=0x8000)                        # by a mapping
map_(1, length=0x2000, at=0x5000, want=0)
ask(('NoPlace', 0, 0x3800), length=0x8000)                             # it need not end on a multiple
map_(1, length=0x1000, at=0x0, want=0)
ask(('NoPlace', 0x1000, 0x2800), length=0x8000)
ask_copy(('NoPlace', 0x1000, 0x2800), length=0x8000, origin=0x8000)
map_(1, length=0x1000, at=0x2000, want=0)
ask(('NoPlace', 0x1000, 0x1000), length=0x2000)                        # of three that are as long the lowest
map_(1, length=0x1000, at=0x1000, want=0)
ask(('NoPlace', 0x4000, 0x1000), length=0x2000)
map_(1, length=0x1000, at=0x4000, want=0)
ask(('NoPlace', 0x7000, 0x1000), length=0x2000)
map_(1, length=0x1000, at=0x7000, want=0)
ask(('NoPlace', 0x3000, 0x800), length=0x1000)                         # shorter than a page
spaces(1)
bind(4096, [(0, TOP - 0x1000)], want=2)
attach(2, 1, want=0)
ask(('NoPlace', TOP - 0xFFF, 0x1000), length=0x2000)                   # up to the last address
ask('Accepted', length=0x1000)
spaces(1)
bind(1, [(0, TOP)], want=2)
attach(2, 1, want=0)
ask(('NoPlace', 0, 0), length=1)
spaces(1)
bind(4096, [], want=2)
attach(2, 1, want=0)
allow(1, [(0x1800, 0x47FF)], want=0)
ask(('NoPlace', 0x2000, 0x2800), length=0x3000)                        # an allowed range cuts at both ends
allow(1, [(0x1001, 0x1FFF)], want=0)
ask(('NoPlace', 0, 0), length=0x1000)                                  # addresses are free, but no multiple is

# ==== the room: no record, then the charge
spaces(1, 128)
for k in range(127):
    map_(1, length=1, at=2 * k, memory=4096 * k, want=0)
ask('OverLimit', length=2 * PAGE)
ask('Accepted', length=PAGE)
map_(1, length=1, at=TOP, memory=4096 * 127, want=0)
ask('NoRecord', length=PAGE)
ask('NoRecord', length=1, at=1)
ask(('TouchesMapping', 128), length=1, at=TOP)
ask(('TouchesMapping', 1), length=3, at=0)
ask_copy('NoRecord', length=1, at=1)
ask_copy(('TouchesMapping', 2), length=1, at=2)
limit(127)
ask(117)
why(b'', UNMAP, 117)
limit(2**36 + 1)
why(b'', 0, 117)
limit(128)
mapping(5, page(1, 0, 6))
ask(117)
ask_copy(117)

# ==== each reason of each command
WANTED = {MAP: set(REASONS) - {'SourcePasses', 'NoSourceSpace', 'NoSource', 'NotWriteable'}, COPY: set(REASONS) - {'MemoryPasses', 'OverLimit'}}
for request, names in WANTED.items():
    seen = {name for (call, asked, name) in checks if call is explained and asked == request}
    assert seen == names, (hex(request), seen ^ names)
store('reasonvectors', 'test_reasons')
