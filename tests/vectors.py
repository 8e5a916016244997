#!/usr/bin/env python3
"""Boundary inputs for the ground crates, and the answers worked out here, apart from the Rattle code.

    vectors.py           write crates/test_ground/stdin and crates/test_ground/stdout
    vectors.py --check   fail where the stored files differ from what this script makes

A record is a u32 operation, a u32 count of bytes and so many bytes; each gives one line. Rules: document 01.
"""
import struct
import sys

TOP = 2**64 - 1
records, lines = [], []


def case(operation, body, line):
    records.append(struct.pack('<II', operation, len(body)) + body)
    lines.append(line)


def words(*numbers):
    return b''.join(struct.pack('<Q', n) for n in numbers)


# Addresses as Python ranges, so that nothing is computed as the Rattle code computes it.
def addresses(start, last):
    return range(start, last + 1)


def meet(p, q):
    """Whether two runs of addresses have a common one: an end of one lies in the other."""
    return bool(p) and bool(q) and (p[0] in q or q[0] in p)


def within(p, q):
    return p[0] in q and p[-1] in q


def truth(b):
    return '1' if b else '0'


# ---- 1, 2: share an address, lie inside
PAIRS = [
    (0, 0, 0, 0), (0, 0, 1, 1), (1, 1, 0, 0), (0, 4095, 4096, 8191), (0, 4096, 4096, 8191), (4096, 8191, 0, 4095),
    (4096, 8191, 0, 4096), (TOP, TOP, TOP, TOP), (0, TOP - 1, TOP, TOP), (0, TOP, TOP, TOP), (TOP, TOP, 0, TOP - 1),
    (TOP - 1, TOP, 0, TOP - 1), (0, TOP, 0, TOP), (10, 20, 12, 15), (12, 15, 10, 20), (10, 20, 15, 25), (10, 20, 21, 30),
    (10, 20, 20, 20), (10, 20, 9, 9), (10, 20, 9, 10), (5, 3, 0, 10), (0, 10, 5, 3), (TOP, 0, 0, TOP), (5, 3, 4, 4),
]
for a, b, c, d in PAIRS:
    case(1, words(a, b, c, d), 'share ' + truth(meet(addresses(a, b), addresses(c, d))))
    if a <= b:  # a range with no address is in no rule asked whether it lies inside
        case(2, words(a, b, c, d), 'inside ' + truth(within(addresses(a, b), addresses(c, d))))

# ---- 3: last address, past the top
BIG = 2**40
for start in (0, 1, 4095, 4096, 2**63, TOP - BIG, TOP - BIG + 1, TOP - BIG + 2, TOP - 1, TOP):
    for length in (1, 2, 4096, BIG, BIG + 1, TOP):
        end = start + length - 1
        case(3, words(start, length), 'last %s %d %d' % (truth(end > TOP), start, min(end, TOP)))
    case(3, words(start, 0), 'last 0 %d %d' % (start, start))

# ---- 4: pages that hold one of the bytes
for memory in (0, 1, 4094, 4095, 4096, 0x20800, 2**63 - 1, TOP - 4096, TOP - 4095, TOP):
    for length in (0, 1, 2, 4095, 4096, 4097, 8192, BIG, BIG + 1):
        if memory + length - 1 <= TOP:
            count = len(range(memory - memory % 4096, memory + length, 4096)) if length else 0
            case(4, words(memory, length), 'pages %d' % count)
case(4, words(4095, 2), 'pages 2')
case(4, words(0, BIG), 'pages %d' % 2**28)
case(4, words(1, BIG), 'pages %d' % (2**28 + 1))

# ---- 5, 6: multiples
for a in (1, 2, 3, 4096, 2**63):
    for start in (0, 1, 4095, 4096, 2**63, TOP - 4095, TOP):
        for length in (1, 4095, 4096, BIG):
            if start + length <= TOP + 1:
                fits = start in range(0, TOP + 1, a) and start + length in range(0, TOP + 1 + a, a)
                case(5, words(a, start, length), 'fit ' + truth(fits))
    for x in (0, 1, a - 1, a, a + 1, 4095, 4096, 4097, 2**63 - 1, 2**63, 2**63 + 1, TOP - 4096, TOP - 4095, TOP - 4094, TOP - 1, TOP):
        above = -(-x // a) * a
        case(6, words(a, x), 'multiple ' + ('none' if above > TOP else str(above)))
for x in (0, 1, TOP):
    case(5, words(0, x, 0), 'fit ' + truth(x == 0))
    case(6, words(0, x), 'multiple ' + ('0' if x == 0 else 'none'))

# ---- 7: lowest set bit
for k in (0, 1, 11, 12, 13, 31, 32, 62, 63):
    for rest in (0, 2**63, (2**64 - 1) ^ (2 ** (k + 1) - 1) & TOP):
        bitmap = (2**k | rest >> (k + 1) << (k + 1)) & TOP
        low = next(2**i for i in range(64) if bitmap // 2**i % 2)
        case(7, words(bitmap), 'page %d' % low)
case(7, words(0), 'page 1')
case(7, words(0x40201000), 'page 4096')
case(7, words(TOP), 'page 1')


# ---- 8, 9: lists of ranges
def listed(operation, name, room, query, count, ranges):
    starts = [s for s, _ in ranges] + [0] * (room - len(ranges))
    lasts = [l for _, l in ranges] + [0] * (room - len(ranges))
    used = [addresses(s, l) for s, l in list(zip(starts, lasts))[:count]]
    hit = next((str(i) for i, r in enumerate(used) if meet(addresses(*query), r)), 'none')
    parts = [name, truth(all(used))]
    if room == 8:
        parts.append(truth(any(meet(used[i], used[j]) for i in range(len(used)) for j in range(i))))
    case(operation, words(*query, count, *starts, *lasts), ' '.join(parts + [hit]))


MSI = (0xFEE00000, 0xFEEFFFFF)
for operation, name, room in ((8, 'reserved', 4), (9, 'allowed', 8)):
    def ask(query, count, ranges):
        listed(operation, name, room, query, count, ranges)
    ask((0, TOP), 0, [])
    ask((0, TOP), 0, [MSI])
    ask((0, 0xFEDFFFFF), 1, [MSI])
    ask((0, 0xFEE00000), 1, [MSI])
    ask((0xFEEFFFFF, TOP), 1, [MSI])
    ask((0xFEF00000, TOP), 1, [MSI])
    ask((5, 5), 3, [(0, 4), (6, 9), (5, 5)])
    ask((5, 6), 3, [(0, 4), (6, 9), (5, 5)])
    ask((5, 6), 2, [(0, 4), (7, 9), (5, 5)])
    ask((TOP, TOP), 2, [(0, 0), (TOP, TOP)])
    ask((0, 0), 2, [(TOP, TOP), (0, 0)])
    ask((0, TOP), 2, [(9, 8), (7, 7)])
    ask((0, 0), 4, [(10, 20), (20, 30), (40, 50), (60, 70)])
    ask((0, 0), 4, [(10, 19), (20, 30), (31, 50), (60, 70)])
    ask((65, 65), 2**32 - 1, [(10, 19), (20, 30), (31, 50), (60, 70)])
    ask((0, 0), 4, [(1, 1), (2, 2), (3, 3), (1, 1)])
listed(9, 'allowed', 8, (80, 80), 8, [(10 * k, 10 * k + 9) for k in (3, 1, 5, 7, 2, 4, 6, 8)])
listed(9, 'allowed', 8, (80, 80), 7, [(10 * k, 10 * k + 9) for k in (3, 1, 5, 7, 2, 4, 6, 8)])
listed(9, 'allowed', 8, (0, 0), 8, [(10 * k, 10 * k + 10) for k in (3, 1, 5, 7, 2, 4, 6, 8)])
listed(9, 'allowed', 8, (0, 0), 9, [(10 * k, 10 * k + 9) for k in (3, 1, 5, 7, 2, 4, 6, 8)])

# ---- 10: opening a command
SIZES = {0x3B80: 8, 0x3B81: 12, 0x3B82: 24, 0x3B83: 40, 0x3B84: 32, 0x3B85: 40, 0x3B86: 24}


def opening(request, lent):
    if request not in SIZES:
        return 25
    if len(lent) < 4:
        return 14
    size = int.from_bytes(lent[:4], 'little')
    if size < SIZES[request]:
        return 22
    if size > len(lent):
        return 14
    return 7 if any(lent[SIZES[request]:size]) else 0


def opens(request, lent):
    errno = opening(request, lent)
    case(10, struct.pack('<I', request) + lent, 'open ' + ('-%d' % errno if errno else '0'))


def sized(size, n, fill=0):
    return struct.pack('<I', size) + bytes([fill]) * (n - 4)


for request, k in sorted(SIZES.items()):
    for n in range(4):
        opens(request, bytes(n))
    for size in (0, 1, 3, 4, k - 1, k, k + 1, 2**31, 2**32 - k, 2**32 - 4, 2**32 - 1):
        for n in (4, k - 1, k, k + 1, k + 8):
            opens(request, sized(size, n))
    opens(request, sized(k, k + 8, 1))                       # bytes past the size are ignored
    opens(request, sized(k + 8, k + 8))                      # a tail of zeros
    for place in range(8):                                   # a tail with one byte set, and bytes past it
        tail = bytearray(8)
        tail[place] = 128
        opens(request, sized(k + 8, k) + bytes(tail))
        opens(request, sized(k + place, k) + bytes(tail))
for request in (0, 1, 0x3B00, 0x3B7F, 0x3B87, 0x3B88, 0x3B8E, 0x3A85, 0x103B85, 2**32 - 1):
    for n in (0, 3, 4, 40):
        opens(request, bytes(n))
    opens(request, sized(40, 40))

# ---- 11: flags
for f in list(range(17)) + [2**k for k in range(5, 32)] + [2**32 - 8, 2**32 - 1]:
    bits = bin(f)[2:].rjust(32, '0')
    case(11, words(f), 'flags %s %s %s %s' % (truth('1' in bits[:-3]), bits[-1], bits[-2], bits[-3]))

# ---- 12: numbers on the wire
for x, y in ((0, 0), (TOP, 2**32 - 1), (0x0123456789ABCDEF, 0x89ABCDEF), (2**63, 2**31), (255, 256), (2**32 - 1, 65535), (2**32, 65536)):
    buffer = bytearray(b'\xaa' * 16)
    buffer[1:9] = x.to_bytes(8, 'little')
    buffer[11:15] = y.to_bytes(4, 'little')
    case(12, words(x, y), 'bytes %s %d %d' % (buffer.hex(), x, y))

# ---- 13: bind's result
for n in (1, 2, 32):
    case(13, words(n), 'id %d' % n)

# ---- a word whose last bytes are missing counts as 0
cut = struct.pack('<I', 1)
case(8, words(0, TOP) + cut, 'reserved 1 none')
case(9, words(0, TOP) + cut, 'allowed 1 0 none')
case(11, cut, 'flags 0 0 0 0')
case(12, words(TOP) + cut, 'bytes aa%saaaa%saa %d 0' % ('ff' * 8, '00' * 4, TOP))
case(99, b'', 'unknown operation')

FILES = {
    'crates/test_ground/stdin': b''.join(records),
    'crates/test_ground/stdout': ''.join(line + '\n' for line in lines).encode(),
}
assert len(FILES['crates/test_ground/stdin']) <= 65536, len(FILES['crates/test_ground/stdin'])
if sys.argv[1:] == ['--check']:
    stale = [p for p, made in FILES.items() if open(p, 'rb').read() != made]
    for p in stale:
        print('vectors.py: %s is not what this script makes' % p)
    print('vectors.py: %d cases' % len(lines))
    sys.exit(1 if stale else 0)
for p, made in FILES.items():
    open(p, 'wb').write(made)
print('vectors.py: wrote %d cases, %d bytes' % (len(lines), len(FILES['crates/test_ground/stdin'])))
