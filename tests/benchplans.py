#!/usr/bin/env python3
"""Plans that reach every refusal of the bench program, with the lines of the model in tests/bench.py.

    benchplans.py           write crates/test_plans/stdin and crates/test_plans/stdout
    benchplans.py --check   fail where the stored files differ from what this script makes

The input is one plan after another, each after its length as a u32. The output is for each plan the line `plan N`, N from 0, and then what
the bench program writes for it. In a plan by hand each command has beside it the result that it must give, and where it matters the charge.
"""
import ast
import inspect
import struct
import sys
from collections import Counter

import bench
import model
from bench import BAD, CALLS, HEADER, MANY, MOST, NoPlan, Plan, bytes_of, from_root, long_plan, promised, store
from model import TOP
from randomplans import Dice, SIZES, STRANGE, bytes_for, ends_of_parts, recounted, some_case

sys.path.insert(0, from_root('plans'))
from plan import ALLOC, ALLOW, COPY, DESTROY, MAP, RANGES, UNMAP, Wrong, assemble, disassemble  # noqa: E402

plans, texts = [], []
reached, results = Counter(), Counter()                                # refusals by call and line of the model, errnos by request
NAMES = {DESTROY: 'destroy', ALLOC: 'alloc', ALLOW: 'allow', COPY: 'copy', RANGES: 'ranges', MAP: 'map', UNMAP: 'unmap'}
ONES = b'\xff' * 5                                                     # bytes that nobody may look at


# ---- keeping a plan, and what it reached
def calls_of(refused):
    """The lines of the model that led to a refusal, outermost first. The last is need itself."""
    frames, trace = [], refused.__traceback__
    while trace:
        frames.append((trace.tb_frame.f_code.co_name, trace.tb_lineno))
        trace = trace.tb_next
    return frames


def note(request, why):
    """Of a refused command, or of a bad plan, whose request is None."""
    if isinstance(why, NoPlan):
        reached['plan', 'no whole plan'] += 1
        return
    path = calls_of(why)
    call = next((name for name, _ in path if name.startswith('model_')), 'plan')
    reached['setup ' + call if request is None else call, path[-2]] += 1


def keep(data):
    said = bench.run(data, note)
    for line in said.split('\n')[1:-1]:
        _, request, result, _ = map(int, line.split())
        results[request, -result] += 1
    plans.append(data)
    texts.append(said)
    return said


def keep_bad(data):
    said = keep(data)
    assert said == BAD, 'plan %d: %s' % (len(plans) - 1, said)


def keep_good(data, want):
    """want: of each command the result, and the charge or None."""
    said = keep(data)
    got = [tuple(map(int, line.split()[2:])) for line in said.split('\n')[1:-1]]
    where = 'plan %d: ' % (len(plans) - 1)
    assert said.startswith(HEADER) and len(got) == len(want), where + '%d results, %d wanted' % (len(got), len(want))
    for k, ((result, charge), (r, c)) in enumerate(zip(got, want)):
        assert result == r and c in (charge, None), where + 'step %d gives %d and %d' % (k, result, charge)


# ---- plans as text. In one line, ; parts what else stands in lines of its own
def in_lines(text):
    return text.replace(';', '\n')


def plan(text):
    keep_good(assemble(text), promised(text))


def setup(text):
    """No command, and nothing to refuse."""
    keep_good(assemble(in_lines(text)), [])


def bad(text):
    keep_bad(assemble(in_lines(text)))


def steps(given, before='limit 9;space'):
    """Commands that are all refused, each with its errno."""
    text = in_lines(before) + '\n' + '\n'.join('%s # -%d charge 0' % step for step in given)
    keep_good(assemble(text), promised(text))


def raw(request, cmd=b'', area=b''):
    return 'raw %#x command=%s area=%s' % (request, cmd.hex(), area.hex())


def fields(form, *numbers):
    return struct.pack('<' + form, *numbers)


def pairs(*ranges):
    return b''.join(struct.pack('<QQ', *r) for r in ranges)


def times(n, line):
    return '\n'.join([line] * n)


# ==== document 01's plan, the examples, and almost nothing
for name in ('first', 'cameras', 'allow', 'limit'):
    plan(open(from_root('plans', name + '.plan')).read())
keep_bad(b'')
keep_good(bytes(24), [])
keep_bad(bytes(23))
keep_bad(bytes(25))
setup('limit 2^36;spaces 32')
setup('limit 0;device 4096')
setup('limit 0;space;device 4096;attach 2 1')
plan('limit 0\nraw 0 # -25 charge 0')
plan('limit 0\nalloc # 0 charge 0\nalloc # 0 charge 0')

# ==== damaged plans: cut at every part and inside one, too long, counts too large. P1, P2
SMALL = Plan(8, 2, ((4096, ((0, 4095), (8192, 12287))), (1, ())), ((3, 1), (4, 2)), ((7, b'12345', b'abc'), (8, b'6', b'')))
DATA = bytes_of(SMALL)
keep_good(DATA, [(-25, 0), (-25, 0)])
ENDS = ends_of_parts(SMALL)
DEVICES, ATTACHMENTS, COMMANDS = 12, ENDS[5], ENDS[8]                  # where their counts stand
INSIDE = [1, 7, 11, 15]
INSIDE += [DEVICES + n for n in (4 + 7, 4 + 11, 16 + 1, 16 + 8, 16 + 15, 16 + 16, 16 + 31)]
INSIDE += [ATTACHMENTS + n for n in (3, 4 + 4, 4 + 15)]
INSIDE += [COMMANDS + n for n in (3, 4 + 1, 4 + 4, 4 + 8, 4 + 11, 4 + 12, 4 + 16, 4 + 17, 4 + 19)]
for n in sorted({*INSIDE, *ENDS[:-1], len(DATA) - 1}):
    keep_bad(DATA[:n])
for tail in (b'\0', b'\1', bytes(4), bytes(12), DATA):
    keep_bad(DATA + tail)
for at in (DEVICES, DEVICES + 4 + 8, ATTACHMENTS, COMMANDS, COMMANDS + 4 + 4, COMMANDS + 4 + 8):
    here = struct.unpack_from('<I', DATA, at)[0]
    for value in (here - 1, here + 1, 2**16, 2**28, 2**31, 2**32 - 1):
        keep_bad(recounted(at, value)[0](DATA))                        # of devices, ranges, attachments, commands, bytes of either kind
keep_bad(recounted(COMMANDS + 8, 2**32 - 3)[0](DATA))                  # the two lengths of a command make 2^32
keep_bad(recounted(DEVICES + 4 + 8, 2**28 + 2)[0](DATA))               # 16 times that passes 2^32 by the two ranges that are there
keep_bad(recounted(ATTACHMENTS, 2**29 + 2)[0](DATA))                   # 8 times that likewise
keep_bad(recounted(8, 33)[0](DATA))
keep_bad(recounted(8, 1)[0](DATA))                                     # a space less: the attachments name other ids

# ==== refused setups. P3, P5: also with commands behind them
for limit in (2**36 + 1, 2**37, 2**63, TOP):
    bad('limit %d' % limit)
bad('limit %d;space;alloc' % (2**36 + 1))
setup('limit %d' % (2**36 - 1))
for spaces in (33, 34, 2**31, 2**32 - 1):
    bad('limit 1;spaces %d' % spaces)
bad('limit 1;spaces 33;alloc')
bad('limit 1;spaces 32;device 1')
bad('limit 1;spaces 31;device 1;device 1')
setup('limit 1\n' + times(32, 'device 1'))
bad('limit 1\n' + times(33, 'device 1'))
for bitmap in (0, 8192, 0x6000, 2**63, 2**32):
    bad('limit 1;device %d' % bitmap)
for bitmap in (1, 4096, 0x3000, 2**63 + 4096, TOP):
    setup('limit 1;device %d' % bitmap)
bad('limit 1;device 4096 0-0 1-1 2-2 3-3 4-4')
bad('limit 1;device 4096 0-0 1-1 2-2 3-3 4-4 5-5')
setup('limit 1;device 4096 9-9 0-%d 2-2 2-2' % TOP)                    # H3: they may overlap
for ranges in ('1-0', '%d-0' % TOP, '0-0 5-4', '0-0 1-1 2-2 3-2'):
    bad('limit 1;device 4096 ' + ranges)
bad('limit 1;device 4096;device 0')
for device in (0, 1, 3, 32, 33, 2**31 + 2, 2**32 - 1):
    bad('limit 1;space;device 1;attach %d 1' % device)
for space in (0, 2, 3, 33, 2**32 - 1):
    bad('limit 1;space;device 1;attach 2 %d' % space)
bad('limit 1;space;device 1;attach 2 1;attach 2 1')
bad('limit 1;spaces 2;device 1;attach 3 1;attach 3 2')
bad('limit 1;spaces 2;device 1;attach 3 2;attach 9 9;map space=1 flags=read memory=0 length=1')
setup('limit 1;space;device 1 0-9;device 4096 5-20;attach 3 1;attach 2 1')

# ==== opening, by each of the seven commands: O1 to O8
def sized(size, n, fill=0):
    """n bytes that begin with this size."""
    return (struct.pack('<I', size) + bytes([fill]) * n)[:n]


for request, known in SIZES.items():
    steps([
        (raw(request), 14),
        (raw(request, sized(known, 3)), 14),
        (raw(request, sized(0, 4)), 22),
        (raw(request, sized(known - 1, 4)), 22),                       # O1: the size before the bytes
        (raw(request, sized(known - 1, known)), 22),
        (raw(request, sized(known - 1, known + 8, 1)), 22),
        (raw(request, sized(known, known - 1)), 14),
        (raw(request, sized(known + 1, known)), 14),
        (raw(request, sized(known + 8, known) + b'\1'), 14),           # though what is lent of the tail is not zero
        (raw(request, sized(2**32 - 1, known + 8)), 14),               # O7
        (raw(request, sized(2**32 - known, known)), 14),
        (raw(request, sized(known + 8, known, 1) + bytes(7) + b'\x80'), 7),                     # O5: before any field
        (raw(request, sized(known + 1, known) + b'\1'), 7),
    ])
plan(f'''
    limit 9
    space
    {raw(ALLOC, fields('III', 20, 0, 9) + bytes(8))}                   # 0: a tail of zeros
    {raw(ALLOC, fields('III', 12, 0, 9) + ONES)}                       # 0: bytes past the size
    {raw(DESTROY, fields('II', 12, 2) + bytes(4) + ONES)}              # 0
    {raw(MAP, fields('IIIIQQQ', 48, 4, 1, 0, 0, 1, TOP) + bytes(8))}   # 0 charge 1: K3
    {raw(MAP, fields('IIIIQQQ', 45, 4, 1, 0, 0, 1, TOP) + ONES)}       # -7 charge 1
    {raw(COPY, fields('IIIIQQQ', 41, 4, 3, 1, 1, TOP, 0) + bytes(1) + ONES)}                    # 0 charge 1
    {raw(UNMAP, fields('IIQQ', 24, 1, 0, 1) + ONES)}                   # 0 charge 1
    {raw(ALLOW, fields('IIIIQ', 32, 1, 1, 0, TOP) + bytes(8), pairs((5, 6)) + ONES)}            # 0 charge 1: O8, the pointer
    {raw(RANGES, fields('IIIIQQ', 40, 1, 1, 0, TOP, TOP) + bytes(8), bytes(16) + ONES)}         # 0 charge 1
''')

# ==== unknown requests: whatever their bytes, and not by a part of the number
for request in STRANGE + (0x3B79, 0x3B88, 0x3BFF, 0x3C00, 0x3C85, 0x10003B85, 0x853B, 2**31 + 0x3B85):
    steps([(raw(request), 25)] if request % 2 else [(raw(request, fields('IIIIQQQ', 40, 4, 1, 0, 0, 1, 0)), 25)])

# ==== ids that are no space, by every command that names one: 2 is a device, 3 a free record
for i in (0, 2, 3, 32, 33, 2**32 - 1):
    steps([
        ('map space=%d flags=read memory=0 length=1' % i, 2),
        ('map space=%d flags=fixed,read memory=0 length=1 address=1' % i, 2),
        ('unmap space=%d all' % i, 2),
        ('unmap space=%d address=0 length=1' % i, 2),
        ('copy source=1 from=0 target=%d flags=read length=1' % i, 2),
        ('copy source=%d from=0 target=1 flags=read length=1' % i, 2),
        ('allow space=%d' % i, 2),
        ('ranges space=%d count=0' % i, 2),
    ], before='limit 4;space;device 4096')

# ==== MAP: its numbers, in the order of its checks
plan(f'''
    limit 2^36
    space
    map space=1 flags=read,8 memory=0 length=1                         # -95
    map space=9 flags=2^31 memory=0 length=0                           # -95: before everything else
    {raw(MAP, fields('IIIIQQQ', 40, 4, 1, 1, 0, 1, 0))}                # -95: the reserved field
    {raw(MAP, fields('IIIIQQQ', 40, 0, 9, 2**31, 0, 0, 0))}            # -95
    map space=1 flags=0 memory=0 length=1                              # -22
    map space=9 flags=fixed memory=0 length=0 address=0                # -22: fixed is no right
    map space=1 flags=read memory=0 length=0                           # -22
    map space=1 flags=read memory=0 length={2**40 + 1}                 # -22
    map space=9 flags=fixed,read memory={TOP} length={TOP} address=2   # -22: the length before the sums
    map space=1 flags=read memory={TOP} length=2                       # -75
    map space=9 flags=read memory={TOP - 2**40 + 2} length=2^40        # -75
    map space=9 flags=fixed,read memory=0 length=2 address={TOP}       # -75: K5, the sum before the space
    map space=1 flags=read memory={TOP} length=1 address={TOP}         # 0 charge 1
    map space=1 flags=fixed,read memory=0 length=1 address={TOP}       # 0 charge 2
    map space=1 flags=fixed,write memory=0 length=1 address={TOP}      # -17 charge 2
    map space=1 flags=read memory=0 length=2^40                        # 0 charge {2**28 + 2}: K6
    map space=1 flags=read memory=4095 length=2                        # 0 charge {2**28 + 4}: K4
''')

# ==== MAP: where it may land
plan(f'''
    limit 2^36
    space
    device 0x1000 0x3000-0x3fff {TOP - 0x1FFF}-{TOP - 0x1000}
    attach 2 1
    map space=1 flags=fixed,read memory=0 length=0xfff address=1       # -22: off the alignment
    map space=1 flags=fixed,read memory=0 length=0x1000 address=0x800  # -22
    map space=1 flags=fixed,read memory=0 length=0x1001 address=0      # -22: its end is
    map space=1 flags=fixed,read memory=0 length=1 address=0x1000      # -22
    map space=1 flags=fixed,read memory=0 length=0x1000 address=0x3000 # -22: reserved
    map space=1 flags=fixed,read memory=0 length=0x2000 address=0x2000 # -22
    map space=1 flags=fixed,read memory=0 length=0x1000 address={TOP - 0x1FFF}                  # -22
    map space=1 flags=fixed,read memory=0 length=0x1000 address={TOP - 0xFFF}                   # 0 charge 1: M5, its end is 2^64
    map space=1 flags=fixed,read memory=0 length=0x1000 address={TOP - 0xFFF}                   # -17
    map space=1 flags=fixed,read memory=0 length=0x2000 address={TOP - 0x1FFF}                  # -22: 22 before 17
    map space=1 flags=read memory=0 length=1                           # -22
    map space=1 flags=read memory=0 length=0x1800                      # -22
    map space=1 flags=read memory=0 length=0x1000                      # 0 charge 2: at 0
    map space=1 flags=fixed,read memory=0 length=0x3000 address=0      # -17
    map space=1 flags=read memory=0 length=0x2000                      # 0 charge 4: at 0x1000
    map space=1 flags=read memory=1 length=0x1000                      # 0 charge 6: at 0x4000
    map space=1 flags=fixed,read memory=0 length=0x1000 address=0x4000 # -17
''')
plan(f'''
    limit 9
    space
    device 4096 0-{TOP}
    attach 2 1
    map space=1 flags=read memory=0 length=4096                        # -28
    map space=1 flags=read memory=0 length=1                           # -22: 22 before 28
    map space=1 flags=fixed,read memory=0 length=4096 address=0        # -22
''')
plan(f'''
    limit 9
    space
    device 4096 0-{TOP - 4096}
    attach 2 1
    map space=1 flags=read memory=0 length=8192                        # -28
    map space=1 flags=read memory=0 length=4096                        # 0 charge 1: M17, the last page
    map space=1 flags=read memory=0 length=4096                        # -28
''')
plan(f'''
    limit 9
    space
    device 1 0-{TOP - 1}
    attach 2 1
    map space=1 flags=read memory=0 length=2                           # -28
    map space=1 flags=read memory=0 length=1                           # 0 charge 1: the last address
    map space=1 flags=read memory=0 length=1                           # -28
''')
plan(f'''
    limit 9
    space
    device 4096 0-4095
    device 512 {TOP}-{TOP}
    device 8
    attach 3 1
    attach 2 1
    map space=1 flags=read memory=0 length=512                         # -22: the higher alignment of two
    map space=1 flags=read memory=0 length=4096                        # 0 charge 1
    destroy 2                                                          # -16 charge 1
    destroy 3                                                          # -16
    destroy 1                                                          # -16
    destroy 4                                                          # 0: a loose one
''')

# ==== MAP: the charge. M8 to M10
plan('''
    limit 0
    space
    map space=1 flags=read memory=0 length=1                           # -12 charge 0
    map space=1 flags=fixed,read memory=0 length=1 address=7           # -12 charge 0
''')
plan('''
    limit 3
    space
    map space=1 flags=read memory=4095 length=4098                     # 0 charge 3: exactly the limit
    map space=1 flags=read memory=0 length=1                           # -12 charge 3
    map space=1 flags=fixed,read memory=0 length=1 address=0           # -17 charge 3: 17 before 12
''')
plan(f'''
    limit 2^28
    space
    map space=1 flags=read memory=1 length=2^40                        # -12 charge 0: one page more than its length has
    map space=1 flags=read memory=0 length=2^40                        # 0 charge {2**28}
    map space=1 flags=read memory=0 length=1                           # -12
''')
plan('''
    limit 2
    space
    map space=1 flags=read memory=0 length=1                           # 0 charge 1
    map space=1 flags=read memory=0 length=1                           # 0 charge 2: the same memory is charged again
    map space=1 flags=read memory=0 length=1                           # -12 charge 2
''')

# ==== COPY: its numbers, in the order of its checks
plan(f'''
    limit 3
    spaces 2
    map space=1 flags=fixed,read memory=0 length=0x1000 address=0x1000 # 0 charge 1
    map space=1 flags=write memory=4095 length=2                       # 0 charge 3: at 0
    copy source=1 from=0 target=2 flags=read,8 length=2                # -95
    copy source=9 from=0 target=9 flags=2^31 length=0                  # -95
    copy source=1 from=0 target=2 flags=0 length=2                     # -22
    copy source=1 from=0 target=2 flags=fixed length=2 to=0            # -22
    copy source=1 from=0 target=2 flags=read length=0                  # -22
    copy source=1 from=0 target=2 flags=read length={2**40 + 1}        # -22
    copy source=9 from={TOP} target=9 flags=read length={TOP}          # -22: the length before the sums
    copy source=1 from={TOP} target=9 flags=read length=2              # -75: the sums before the spaces
    copy source=1 from=0 target=9 flags=fixed,read length=2 to={TOP}   # -75
    copy source=1 from=0 target=9 flags=read length=2 to={TOP}         # -2: not fixed, so no sum
    copy source=2 from=0 target=2 flags=read length=2                  # -2: no such mapping there
    copy source=1 from=0 target=2 flags=read length=1                  # -2: a part of one
    copy source=1 from=1 target=2 flags=read length=1                  # -2
    copy source=1 from=0x1000 target=2 flags=read length=0x800         # -2
    copy source=1 from=0x1000 target=2 flags=write length=0x1000       # -1: K12
    copy source=1 from=0x1000 target=1 to=0 flags=fixed,read,write length=0x1000                # -1: 1 before 17
    copy source=1 from=0x1000 target=2 to={TOP} flags=read length=0x1000                        # 0 charge 3: at 0
    copy source=2 from=0 target=2 flags=write length=0x1000            # -1: nor of the copy
    copy source=2 from=0 target=2 to=0xfff flags=fixed,read length=0x1000                       # -17
    copy source=1 from=0 target=2 to=0x1000 flags=fixed,read length=2  # 0 charge 3
    copy source=2 from=0x1000 target=2 flags=write length=2            # 0 charge 3: C5, the founder counts
    copy source=2 from=0x1002 target=1 to={TOP - 1} flags=fixed,write length=2                  # 0 charge 3
    copy source=1 from={TOP - 1} target=1 flags=read length=2          # 0 charge 3: C8, within a space
''')

# ==== COPY: where it may land is the target's matter
plan(f'''
    limit 3
    spaces 2
    device 0x1000 0x2000-{TOP}
    attach 3 2
    map space=1 flags=read memory=0 length=0x1000                      # 0
    map space=1 flags=read memory=0 length=0x800                       # 0: at 0x1000
    copy source=1 from=0x1000 target=2 flags=read length=0x800         # -22: its length is off the alignment
    copy source=1 from=0 target=2 to=0x800 flags=fixed,read length=0x1000                       # -22
    copy source=1 from=0x1000 target=2 to=0 flags=fixed,read length=0x800                       # -22: its end is
    copy source=1 from=0 target=2 to=0x2000 flags=fixed,read length=0x1000                      # -22: reserved
    copy source=1 from=0 target=2 flags=read length=0x1000             # 0: at 0
    copy source=1 from=0 target=2 to=0 flags=fixed,read length=0x1000  # -17
    copy source=1 from=0 target=2 flags=read length=0x1000             # 0: at 0x1000
    copy source=1 from=0 target=2 flags=read length=0x1000             # -28
    copy source=1 from=0 target=1 to={TOP - 0xFFF} flags=fixed,read length=0x1000               # 0 charge 2
''')
plan('''
    limit 1
    spaces 2
    map space=1 flags=read memory=0 length=9                           # 0 charge 1
    allow space=1 0-0                                                  # 0
    copy source=1 from=0 target=2 flags=read length=9                  # 0: the source's list has no say
    copy source=2 from=0 target=1 flags=read length=9                  # -28
    copy source=2 from=0 target=1 to=9 flags=fixed,read length=9       # 0 charge 1
''')

# ==== UNMAP
plan(f'''
    limit 9
    spaces 2
    map space=1 flags=read memory=0 length=0x1000                      # 0
    map space=1 flags=read memory=0 length=0x1000                      # 0
    map space=2 flags=read memory=0 length=1                           # 0 charge 3
    unmap space=1 address=0 length=0                                   # -22
    unmap space=9 address={TOP} length=0                               # -22
    unmap space=9 address={TOP} length=2                               # -75: the sum before the space
    unmap space=1 address=2 length={TOP}                               # -75
    unmap space=1 address=0 length=6000                                # -2 charge 3: K7
    unmap space=1 address=0x1001 length=0x2000                         # -2
    unmap space=1 address=1 length={TOP}                               # -2
    unmap space=1 address=0x2000 length=5                              # -2 charge 3: none there
    unmap space=1 address=0 length=0x2000                              # 0 charge 1
    unmap space=1 address=0 length=0x2000                              # -2
    unmap space=1 all                                                  # 0 charge 1: none, and of this space only
    unmap space=2 address=0 length={TOP - 1}                           # 0 charge 0
    unmap space=2 all                                                  # 0
''')
plan(f'''
    limit 9
    space
    map space=1 flags=fixed,read memory=0 length=1 address={TOP}       # 0 charge 1
    map space=1 flags=read memory=0 length=1                           # 0 charge 2
    unmap space=1 address=0 length={TOP - 1}                           # 0 charge 1
    unmap space=1 address=0 length={TOP - 1}                           # -2 charge 1
    unmap space=1 all                                                  # 0 charge 0: U1, also the last address
    map space=1 flags=fixed,read memory=0 length=1 address={TOP - 1}   # 0 charge 1
    unmap space=1 address=1 length={TOP}                               # 0 charge 0
''')
plan('''
    limit 9
    spaces 2
    map space=1 flags=read memory=0 length=0x2000                      # 0 charge 2
    copy source=1 from=0 target=2 flags=read length=0x2000             # 0 charge 2: K11
    unmap space=1 all                                                  # 0 charge 2
    unmap space=2 all                                                  # 0 charge 0
''')

# ==== ALLOW_IOVAS, and what it leaves to MAP
NINE = ' '.join('%d-%d' % (k, k) for k in range(9))
EIGHT = ' '.join(NINE.split()[1:])
plan(f'''
    limit 9
    spaces 2
    device 1 0x1000-0x1fff
    device 1 0x8000-0x8fff
    attach 3 1
    attach 4 2
    {raw(ALLOW, fields('IIIIQ', 24, 9, 9, 1, 0))}                      # -95
    {raw(ALLOW, fields('IIIIQ', 24, 1, 0, 2**31, 0))}                  # -95
    {raw(ALLOW, fields('IIIIQ', 24, 9, 9, 0, 0))}                      # -2
    allow space=1 {NINE}                                               # -12
    {raw(ALLOW, fields('IIIIQ', 24, 1, 9, 0, 0))}                      # -12: before the area
    {raw(ALLOW, fields('IIIIQ', 24, 1, 2**32 - 1, 0, 0), bytes(16))}   # -12
    {raw(ALLOW, fields('IIIIQ', 24, 1, 2, 0, 0), bytes(31))}           # -14
    {raw(ALLOW, fields('IIIIQ', 24, 1, 1, 0, 0))}                      # -14
    allow space=1 0x1000-0x1000 5-4                                    # -22: A2, before 98
    allow space=1 {TOP}-0                                              # -22
    allow space=1 0-5 5-9                                              # -22
    allow space=1 7-7 1-1 7-7                                          # -22
    allow space=1 0x1000-0x2000 0-0x1000                               # -22
    allow space=1 0-0xfff 0x1fff-0x2000                                # -98
    allow space=1 0-0x1000                                             # -98
    allow space=2 0x8fff-0x8fff                                        # -98
    allow space=1 0x8000-0x8fff                                        # 0: the other space's device
    allow space=1 0-0xfff 0x2000-{TOP}                                 # 0
    allow space=1 {EIGHT}                                              # 0
    allow space=1                                                      # 0
''')
plan(f'''
    limit 999
    space
    allow space=1 0x100000-0x1fffff                                    # 0
    map space=1 flags=read memory=0 length=0x100001                    # -28: K10
    map space=1 flags=read memory=0 length=0x100000                    # 0 charge 256
    map space=1 flags=read memory=0 length=1                           # -28
    map space=1 flags=fixed,read memory=0 length=1 address=0           # 0 charge 257
    allow space=1 9-18 0-8                                             # 0
    map space=1 flags=read memory=0 length=11                          # -28: M13, neighbours are not joined
    map space=1 flags=read memory=0 length=10                          # 0
    map space=1 flags=read memory=0 length=8                           # 0 charge 259
    map space=1 flags=read memory=0 length=1                           # -28
    {raw(ALLOW, fields('IIIIQ', 24, 1, 0, 0, 0), ONES)}                # 0: A5
    map space=1 flags=read memory=0 length=0x800                       # 0 charge 260
''')

# ==== IOVA_RANGES
plan(f'''
    limit 9
    spaces 2
    device 4096 0xfee00000-0xfeefffff
    attach 3 1
    {raw(RANGES, fields('IIIIQQ', 32, 9, 9, 1, 0, 0))}                 # -95
    {raw(RANGES, fields('IIIIQQ', 32, 1, 0, 2**31, 0, 0))}             # -95
    {raw(RANGES, fields('IIIIQQ', 32, 9, 9, 0, 0, 0))}                 # -2
    {raw(RANGES, fields('IIIIQQ', 32, 1, 1, 0, 0, 0), bytes(15))}      # -14
    {raw(RANGES, fields('IIIIQQ', 32, 1, 3, 0, 0, 0), bytes(47))}      # -14: R1, though two would do
    {raw(RANGES, fields('IIIIQQ', 32, 1, 2**28, 0, 0, 0), bytes(32))}  # -14: 16 times that passes 32 bits
    {raw(RANGES, fields('IIIIQQ', 32, 1, 2**32 - 1, 0, 0, 0))}         # -14
    ranges space=1 count=0                                             # -90
    ranges space=1 count=1                                             # -90: K9
    ranges space=1 count=2                                             # 0: K8
    ranges space=1 count=5                                             # 0
    {raw(RANGES, fields('IIIIQQ', 32, 1, 1, 0, 0, 0), bytes(40))}      # -90: room, but not asked for
    ranges space=2 count=0                                             # -90
    ranges space=2 count=1                                             # 0
''')
plan(f'''
    limit 9
    space
    device 1 0-{TOP}
    attach 2 1
    ranges space=1 count=0                                             # 0: R4
    allow space=1                                                      # 0
    allow space=1 0-0                                                  # -98
''')
plan(f'''
    limit 9
    space
    device 1 0-{TOP - 1}
    attach 2 1
    ranges space=1 count=0                                             # -90: the last address is left
    ranges space=1 count=1                                             # 0
    allow space=1 {TOP}-{TOP}                                          # 0
''')
plan(f'''
    limit 9
    space
    device 1 0-0 {TOP}-{TOP} 5-6 7-9
    device 1 20-29 30-39 0-3 15-25
    attach 2 1
    attach 3 1
    ranges space=1 count=2                                             # -90: R5, R6: 4, 10 to 14, 40 to the last but one
    ranges space=1 count=3                                             # 0
    allow space=1 4-4 10-14 40-{TOP - 1}                               # 0
''')

# ==== IOAS_ALLOC, DESTROY; ids are used again
plan(f'''
    limit 9
    spaces 2
    device 1
    device 1 0-9
    attach 4 2
    {raw(ALLOC, fields('III', 12, 1, 0))}                              # -95
    {raw(ALLOC, fields('III', 12, 2**31, 0))}                          # -95
    destroy 0                                                          # -2
    destroy 5                                                          # -2
    destroy 32                                                         # -2
    destroy 33                                                         # -2
    destroy {2**31 + 1}                                                # -2
    destroy 0xffffffff                                                 # -2
    destroy 4                                                          # -16: attached
    destroy 2                                                          # -16: has a device
    map space=1 flags=read memory=0 length=9                           # 0 charge 1
    copy source=1 from=0 target=2 to=10 flags=fixed,read length=9      # 0 charge 1
    destroy 1                                                          # 0 charge 1: D3, the copy stays
    destroy 1                                                          # -2
    destroy 3                                                          # 0
    alloc                                                              # 0: 1
    alloc                                                              # 0: 3, a device before
    alloc                                                              # 0: 5
    unmap space=1 address=0 length=9                                   # -2: nothing is left in it
    map space=3 flags=read memory=0 length=1                           # 0 charge 2
    map space=5 flags=read memory=0 length=1                           # 0 charge 3
    map space=6 flags=read memory=0 length=1                           # -2
''')

# ==== full tables
plan(f'''
    limit 1
    spaces 30
    device 1
    alloc                                                              # 0: 32
    alloc                                                              # -12
    {raw(ALLOC, fields('III', 12, 1, 0))}                              # -95: before 12
    destroy 31                                                         # 0
    destroy 9                                                          # 0
    alloc                                                              # 0: 9
    alloc                                                              # 0: 31
    alloc                                                              # -12
    map space=31 flags=read memory=0 length=1                          # 0 charge 1
    destroy 32                                                         # 0
    destroy 32                                                         # -2
''')
plan('limit 130\nspaces 2\n' + times(127, 'map space=1 flags=read memory=0 length=1 # 0') + '''
    copy source=1 from=5 target=2 flags=read length=1                  # 0 charge 127: the last record
    map space=1 flags=read memory=0 length=1                           # -12 charge 127
    map space=1 flags=fixed,read memory=0 length=1 address=999         # -12
    map space=1 flags=fixed,read memory=0 length=1 address=3           # -17: 17 before 12
    map space=9 flags=read memory=0 length=1                           # -2
    copy source=1 from=5 target=2 flags=read length=1                  # -12
    copy source=1 from=5 target=2 flags=fixed,read length=1 to=7       # -12
    copy source=1 from=5 target=2 flags=write length=1                 # -1
    copy source=1 from=500 target=2 flags=read length=1                # -2
    allow space=2 0-0                                                  # 0
    copy source=1 from=5 target=2 flags=read length=1                  # -28: M11, before 12
    unmap space=1 address=5 length=1                                   # 0 charge 127: the copy has its page
    map space=1 flags=read memory=0 length=1                           # 0 charge 128
    unmap space=2 all                                                  # 0 charge 127
    map space=1 flags=read memory=4095 length=2                        # 0 charge 129
    map space=1 flags=read memory=0 length=1                           # -12 charge 129
    destroy 1                                                          # 0 charge 0
''')
plan('limit 127\nspaces 2\n' + times(127, 'map space=2 flags=write memory=0 length=1 # 0') + '''
    map space=2 flags=write memory=0 length=1                          # -12 charge 127: the charge, not the records
    copy source=2 from=126 target=1 flags=write length=1               # 0 charge 127
''')

# ==== at random
dice = Dice(7)
while sum(len(p) + 4 for p in plans) < 58000:
    data = bytes_for(some_case(dice))
    if len(data) < 1000:
        keep(data)


# ==== as long as a plan may be, with one long area or with as many commands as fit, and one byte more
keep_good(long_plan(MOST, 1), [(-25, 0)])
keep_good(long_plan(MOST, MANY), [(-25, 0)] * MANY)
keep_bad(long_plan(MOST + 1, 1))


# ==== every check of every command that a plan can reach
def function_of(name):
    return getattr(model, name, None)


def checks_of(name, known=None):
    """The checks of a call and of what it uses, by function and line, read off the model's own text."""
    known = set() if known is None else known
    lines, first = inspect.getsourcelines(function_of(name))
    found = set()
    for node in ast.walk(ast.parse(''.join(lines))):
        if isinstance(node, ast.Call) and isinstance(node.func, ast.Name):
            used = node.func.id
            if used == 'need':
                found.add((name, first + node.lineno - 1))
            elif inspect.isfunction(function_of(used)) and used not in known:
                known.add(used)
                found |= checks_of(used, known)
    return found


def line_of(check):
    lines, first = inspect.getsourcelines(function_of(check[0]))
    return lines[check[1] - first].strip()


def in_words(check):
    """The errno of a check and its name in the model."""
    _, errno, name = ast.parse(line_of(check)).body[0].value.args
    return '%d %s' % (errno.value, name.value)


# A plan's setup comes before its commands, so an attachment finds neither a mapping nor an allow list: its two 98s are for other tests.
NOT_BY_A_PLAN = {'98 reserved range touched', '98 mapping misfits'}
# IOAS_ALLOC is asked for a plan's spaces with a command that is well formed.
SETUPS = {'setup model_alloc': {c for c in checks_of('model_alloc') if c[0] == 'new_id'}, 'setup model_bind': checks_of('model_bind'),
          'setup model_attach': {c for c in checks_of('model_attach') if in_words(c) not in NOT_BY_A_PLAN}}
REACHABLE = {**{'model_' + name: checks_of('model_' + name) for name in NAMES.values()}, **SETUPS}


def all_reached():
    for call, checks in REACHABLE.items():
        seen = {check for c, check in reached if c == call}
        assert seen == checks, (call, [line_of(c) for c in seen ^ checks])
    assert reached['plan', 'no whole plan'] and any(c == 'setup plan' for c, _ in reached)
    assert {request for request, errno in results if errno == 0} == set(CALLS) and results[0x3B84, 90]


def told_checks():
    for request, name in NAMES.items():
        refusals = sorted('%s x%d' % (in_words(check), n) for (call, check), n in reached.items() if call == 'model_' + name)
        refusals += ['90 x%d' % results[request, 90]] if request == RANGES else []
        print('%s: 0 x%d; ' % (name, results[request, 0]) + '; '.join(refusals))
    for call in SETUPS:
        print(call + ': ' + '; '.join(sorted('%s x%d' % (in_words(check), n) for (c, check), n in reached.items() if c == call)))
    print('setup limit: 22 x%d; no whole plan x%d' % (sum(n for (c, _), n in reached.items() if c == 'setup plan'), reached['plan', 'no whole plan']))


def back_and_forth():
    """Each whole plan comes back from its text; each other has none."""
    for data in plans:
        try:
            assert assemble(disassemble(data)) == data
        except Wrong:
            assert bench.run(data) == BAD


all_reached()
back_and_forth()
INPUT = b''.join(struct.pack('<I', len(p)) + p for p in plans)
OUTPUT = ''.join('plan %d\n%s' % (k, text) for k, text in enumerate(texts)).encode()
assert len(INPUT) <= 2**18, len(INPUT)                                 # what crates/test_plans reads
store('test_plans', 'benchplans.py', {'stdin': INPUT, 'stdout': OUTPUT},
      '%d plans, %d of them bad, %d commands, %d bytes' % (len(plans), texts.count(BAD), sum(results.values()), len(INPUT)))
if sys.argv[1:] == []:
    told_checks()
