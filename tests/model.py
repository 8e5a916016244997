"""The table and its calls as document 01 says them, written apart from the Rattle code.

Addresses are Python ranges, so that nothing is computed as the Rattle code computes it. A call is a function of a good table; what it
refuses is raised with its errno and the name of the check. A table is a value here, as plans and stored runs have it: the index that stands
beside one in a caller's memory is not part of it (tests/outside has that).
"""
import struct
from collections import namedtuple

TOP = 2**64 - 1
FREE, SPACE, LOOSE, ATTACHED = range(4)

Object = namedtuple('Object', 'kind home bitmap count starts lasts size lows highs')
Mapping = namedtuple('Mapping', 'space rights founder backing address length memory')
Table = namedtuple('Table', 'limit objects mappings')

RELEASED = Object(FREE, 0, 0, 0, (0,) * 4, (0,) * 4, 0, (0,) * 8, (0,) * 8)
NEW_SPACE = RELEASED._replace(kind=SPACE)
UNMAPPED = Mapping(0, 0, 0, 0, 0, 0, 0)
WRITE, READ = 1, 2                                                     # the bits of a mapping's rights


# ---- what document 01 says of a table
def addresses(start, last):
    return range(start, last + 1)


def run(start, length):
    return range(start, start + length)


def meet(p, q):
    return bool(p) and bool(q) and (p[0] in q or q[0] in p)


def touched(p, ranges):
    return any(meet(p, r) for r in ranges)


def within(p, q):
    """p has an address, and all of them are in q."""
    return p[0] in q and p[-1] in q


def lowest_bit(bitmap):
    return next(2**k for k in range(64) if bitmap // 2**k % 2)


def reserved(o):
    return [addresses(*r) for r in list(zip(o.starts, o.lasts))[:o.count]]


def allowed(o):
    return [addresses(*r) for r in list(zip(o.lows, o.highs))[:o.size]]


def object_of(t, i):
    return t.objects[i - 1] if i in range(1, 33) else RELEASED


def is_space(t, i):
    return object_of(t, i).kind == SPACE


def is_device(t, i):
    return object_of(t, i).kind in (LOOSE, ATTACHED)


def devices_of(t, space):
    return [o for o in t.objects if o.kind == ATTACHED and o.home == space]


def reserved_of(t, space):
    return [r for o in devices_of(t, space) for r in reserved(o)]


def alignment_of(t, space):
    return max((lowest_bit(o.bitmap) for o in devices_of(t, space) if o.bitmap), default=1)


def live(t):
    return [m for m in t.mappings if m.space != 0]


def mappings_of(t, space):
    return [m for m in live(t) if m.space == space]


def covered(m):
    return run(m.address, m.length)


def aligned(m, a):
    return m.address % a == 0 and (m.address + m.length) % a == 0


def pages(memory, length):
    return len(range(memory - memory % 4096, memory + length, 4096))


def charge(t):
    """Each backing once. Mappings of one backing agree in a good table, so it does not matter which is asked."""
    return sum({m.backing: pages(m.memory, m.length) for m in live(t)}.values())


def overlapping(runs):
    """Whether two of them share an address: after sorting, whether one begins before the one before it has ended."""
    runs = sorted((p for p in runs if p), key=lambda p: p[0])
    return any(q[0] <= p[-1] for p, q in zip(runs, runs[1:]))


def device_faults(o):
    """What bind would refuse, its 22s."""
    found = set()
    if o.bitmap == 0:
        found.add('bitmap 0')
    elif lowest_bit(o.bitmap) > 4096:
        found.add('lowest page above 4096')
    if o.count > 4:
        found.add('over 4 reserved ranges')
    if not all(reserved(o)):
        found.add('reserved start above last')
    return found


def list_faults(t, i, o):
    """What ALLOW_IOVAS would refuse of the list it has: 12, 22 and 98."""
    found = set()
    if o.size > 8:
        found.add('over 8 allowed ranges')
    if not all(allowed(o)):
        found.add('allowed start above last')
    if overlapping(allowed(o)):
        found.add('allowed ranges overlap')
    if any(touched(p, reserved_of(t, i)) for p in allowed(o)):
        found.add('allowed touches reserved')
    return found


def object_faults(t, i, o):
    """Of the object with id i."""
    found = set()
    no_device = o.bitmap == 0 and o.count == 0 and not any(o.starts + o.lasts)
    no_list = o.size == 0 and not any(o.lows + o.highs)
    if o.kind == FREE and not (no_device and no_list):
        found.add('released object not zero')
    if o.kind == SPACE and not no_device:
        found.add('space with a field of a device')
    if o.kind in (LOOSE, ATTACHED) and not no_list:
        found.add('device with a field of a space')
    if o.kind in (LOOSE, ATTACHED):
        found |= device_faults(o)
        if any(o.starts[o.count:] + o.lasts[o.count:]):
            found.add('unused reserved place not zero')
    if o.kind == ATTACHED and not is_space(t, o.home):
        found.add('device of no space')
    if o.kind == SPACE:
        found |= list_faults(t, i, o)
        if any(o.lows[o.size:] + o.highs[o.size:]):
            found.add('unused allowed place not zero')
    return found


def mapping_faults(t, m):
    """Of a mapping in use, for itself."""
    found = set()
    if not is_space(t, m.space):
        found.add('mapping of no space')
    if m.length == 0:
        found.add('length 0')
    if m.length > 2**40:
        found.add('length over 2^40')
    if m.rights % 4 == 0:
        found.add('no right')
    if m.address + m.length - 1 > TOP:
        found.add('past the top')
    if m.memory + m.length - 1 > TOP:
        found.add('past the top of memory')
    if touched(covered(m), reserved_of(t, m.space)):
        found.add('touches reserved')
    if not aligned(m, alignment_of(t, m.space)):
        found.add('misaligned')
    if m.rights % 2 and m.founder != 1:
        found.add('writes without the founding right')
    if not 1 <= m.backing <= 128:
        found.add('backing number')
    if m.rights > 3 or m.founder > 1:
        found.add('bits of a field that no rule uses')  # our reading: part of "a field its kind does not use"
    return found


def faults(t):
    """Every clause of "A table is bad" that holds, by name. That the mapping records are 128 is the type's doing here."""
    found = set()
    for i, o in enumerate(t.objects, 1):
        found |= object_faults(t, i, o)
    for m in t.mappings:
        if m.space != 0:
            found |= mapping_faults(t, m)
        elif m != UNMAPPED:
            found.add('released mapping not zero')
    if any(overlapping(covered(m) for m in mappings_of(t, s)) for s in {m.space for m in live(t)}):
        found.add('mappings overlap')
    for field in ('memory', 'length', 'founder'):
        if len({(m.backing, getattr(m, field)) for m in live(t)}) != len({m.backing for m in live(t)}):
            found.add('backing differs in ' + field)
    if t.limit > 2**36:
        found.add('limit above 2^36')
    if not found and t.limit < charge(t):
        found.add('limit below the charge')
    return found


# ---- the calls
class Refused(Exception):
    def __init__(self, errno, check):
        self.errno, self.check = errno, check


def need(holds, errno, check):
    """A check, by its name: the answer is the errno if it does not hold.

    tests/order.py puts another in its place, which notes the check and goes on. So a call computes as much as it can before it needs what a check
    has shown, and each check fails by its own fault and not by that of an earlier one.
    """
    if not holds:
        raise Refused(errno, check)


def u32(b, at):
    return int.from_bytes(b[at:at + 4], 'little')


def u64(b, at):
    return int.from_bytes(b[at:at + 8], 'little')


def put_object(t, i, o):
    """The object with id i becomes o."""
    return t._replace(objects=t.objects[:i - 1] + (o,) + t.objects[i:])


def put_mapping(t, place, m):
    return t._replace(mappings=t.mappings[:place] + (m,) + t.mappings[place + 1:])


def without(t, gone):
    """The records of these mappings are released. In a good table no two mappings are alike."""
    return t._replace(mappings=tuple(UNMAPPED if m in gone else m for m in t.mappings))


def padded(numbers, room):
    return tuple(numbers) + (0,) * (room - len(numbers))


def new_id(t):
    free = [i for i in range(1, 33) if object_of(t, i).kind == FREE]
    need(free, 12, 'no record')
    return min(free)


def has_size(cmd):
    need(len(cmd) >= 4, 14, 'no size field')


def opened(cmd, known):
    has_size(cmd)
    need(u32(cmd, 0) >= known, 22, 'size below')
    need(u32(cmd, 0) <= len(cmd), 14, 'size above')
    need(not any(cmd[known:u32(cmd, 0)]), 7, 'tail')


def model_unknown(t, cmd):
    """A request that is none of the seven."""
    need(False, 25, 'unknown request')
    has_size(cmd)


def model_bind(t, bitmap, count, starts, lasts):
    o = Object(LOOSE, 0, bitmap, count, padded(starts[:count], 4), padded(lasts[:count], 4), 0, (0,) * 8, (0,) * 8)
    need(bitmap != 0, 22, 'bitmap 0')
    need(bitmap == 0 or lowest_bit(bitmap) <= 4096, 22, 'lowest bit above 4,096')
    need(count <= 4, 22, 'over 4 ranges')
    need(all(reserved(o)), 22, 'start above last')
    i = new_id(t)
    return i, put_object(t, i, o)


def model_attach(t, device, space):
    need(is_device(t, device), 2, 'no device')
    need(is_space(t, space), 2, 'no space')
    o = object_of(t, device)
    need(o.kind != ATTACHED, 16, 'already attached')
    taken = [covered(m) for m in mappings_of(t, space)] + allowed(object_of(t, space))
    need(not any(touched(r, taken) for r in reserved(o)), 98, 'reserved range touched')
    after = put_object(t, device, o._replace(kind=ATTACHED, home=space))
    need(all(aligned(m, alignment_of(after, space)) for m in mappings_of(t, space)), 98, 'mapping misfits')
    return 0, after


def model_detach(t, device):
    need(is_device(t, device), 2, 'no device')
    o = object_of(t, device)
    need(o.kind == ATTACHED, 22, 'not attached')
    return 0, put_object(t, device, o._replace(kind=LOOSE, home=0))


def model_reach(t, device, address, length, write):
    need(is_device(t, device), 2, 'no device')
    need(object_of(t, device).kind == ATTACHED, 22, 'not attached')
    need(length != 0, 22, 'length 0')
    need(address + length - 1 <= TOP, 75, 'past the top')
    asked = run(address, length)
    around = [m for m in mappings_of(t, object_of(t, device).home) if within(asked, covered(m))]
    need(around, 14, 'not inside one mapping')
    m, = around
    need(m.rights in ((1, 3) if write else (2, 3)), 1, 'right missing')
    return m.memory + (address - m.address)


def model_alloc(t, cmd):
    opened(cmd, 12)
    need(u32(cmd, 4) == 0, 95, 'flags')
    i = new_id(t)
    return put_object(t, i, NEW_SPACE), cmd[:8] + struct.pack('<I', i) + cmd[12:]


def model_destroy(t, cmd):
    opened(cmd, 8)
    i = u32(cmd, 4)
    o = object_of(t, i)
    need(o.kind != FREE, 2, 'no object')
    need(o.kind != ATTACHED, 16, 'attached device')
    need(o.kind != SPACE or not devices_of(t, i), 16, 'space with a device')
    t = put_object(t, i, RELEASED)
    if o.kind == SPACE:
        t = without(t, mappings_of(t, i))
    return t


def model_allow(t, cmd, area):
    opened(cmd, 24)
    space, count = u32(cmd, 4), u32(cmd, 8)
    need(u32(cmd, 12) == 0, 95, 'reserved field')
    need(is_space(t, space), 2, 'no space')
    need(count <= 8, 12, 'over 8 ranges')
    need(len(area) >= 16 * count, 14, 'area short')
    given = area[:16 * count]
    lows = [u64(given, at) for at in range(0, len(given), 16)]
    highs = [u64(given, at + 8) for at in range(0, len(given), 16)]
    listed = [addresses(*r) for r in zip(lows, highs)]
    need(all(listed), 22, 'start above last')
    need(not overlapping(listed), 22, 'ranges overlap')
    need(not any(touched(p, reserved_of(t, space)) for p in listed), 98, 'touches reserved')
    return put_object(t, space, object_of(t, space)._replace(size=count, lows=padded(lows, 8), highs=padded(highs, 8)))


def not_reserved(taken):
    """Cut all addresses at every end of a range and keep the pieces that are in none. No two adjoin: a reserved range ends or begins at each cut."""
    ends = sorted({0, TOP + 1} | {x for r in taken for x in (r.start, r.stop)})
    return [range(a, b) for a, b in zip(ends, ends[1:]) if not any(a in r for r in taken)]


def model_ranges(t, cmd, area):
    opened(cmd, 32)
    space, count = u32(cmd, 4), u32(cmd, 8)
    need(u32(cmd, 12) == 0, 95, 'reserved field')
    need(is_space(t, space), 2, 'no space')
    need(len(area) >= 16 * count, 14, 'area short')
    full = not_reserved(reserved_of(t, space))
    told = b''.join(struct.pack('<QQ', r[0], r[-1]) for r in full[:count])
    cmd = cmd[:8] + struct.pack('<I', len(full)) + cmd[12:24] + struct.pack('<Q', alignment_of(t, space)) + cmd[32:]
    return 90 if len(full) > count else 0, cmd, told + area[len(told):]


# ---- the calls that place and remove mappings
def candidate(t, space, x, length):
    """Whether an automatic mapping may begin at the address x."""
    asked, lists = run(x, length), allowed(object_of(t, space))
    return (x % alignment_of(t, space) == 0 and asked[-1] <= TOP and not touched(asked, reserved_of(t, space))
            and not touched(asked, map(covered, mappings_of(t, space))) and (not lists or any(within(asked, p) for p in lists)))


def likely(t, space):
    """The multiples of the alignment that can be the lowest candidate, ascending. One alignment below such a multiple there is no candidate,
    so it is 0, or the first from the end of a range that is taken on, or the first in an allowed range."""
    a = alignment_of(t, space)
    taken = reserved_of(t, space) + [covered(m) for m in mappings_of(t, space)]
    edges = {0} | {r.stop for r in taken} | {p.start for p in allowed(object_of(t, space))}
    return sorted(-(-x // a) * a for x in edges)


def placed(t, space, fixed, length, address):
    """The address of a new mapping, by the checks from MAP's alignment check on."""
    a, asked = alignment_of(t, space), run(address, length)
    if fixed:
        need(address % a == 0, 22, 'address off the alignment')
        need((address + length) % a == 0, 22, 'end off the alignment')
        need(not touched(asked, reserved_of(t, space)), 22, 'touches reserved')
        need(not touched(asked, map(covered, mappings_of(t, space))), 17, 'touches a mapping')
        return address
    need(length % a == 0, 22, 'length off the alignment')
    lowest = next((x for x in likely(t, space) if candidate(t, space, x, length)), None)
    need(lowest is not None, 28, 'no candidate')
    return lowest


def free_record(t):
    free = [k for k, m in enumerate(t.mappings) if m == UNMAPPED]
    need(free, 12, 'no record')
    return free[0]


def lowest_backing(t):
    return min(set(range(1, 129)) - {m.backing for m in live(t)})


def asked_for(flags):
    """Fixed, writeable, readable."""
    return [flags // 2**k % 2 == 1 for k in range(3)]


def good_length(length):
    need(length != 0, 22, 'length 0')
    need(length <= 2**40, 22, 'length over 2^40')


def model_map(t, cmd):
    opened(cmd, 40)
    flags, space, field, memory, length, address = struct.unpack_from('<IIIQQQ', cmd, 4)
    fixed, write, read = asked_for(flags)
    need(flags < 8, 95, 'unknown flag')
    need(field == 0, 95, 'reserved field')
    need(write or read, 22, 'no right')
    good_length(length)
    need(memory + length - 1 <= TOP, 75, 'memory past the top')
    if fixed:
        need(address + length - 1 <= TOP, 75, 'address past the top')
    need(is_space(t, space), 2, 'no space')
    address = placed(t, space, fixed, length, address)
    place = free_record(t)
    need(charge(t) + pages(memory, length) <= t.limit, 12, 'charge')
    m = Mapping(space, WRITE * write + READ * read, int(write), lowest_backing(t), address, length, memory)
    return put_mapping(t, place, m), cmd[:32] + struct.pack('<Q', address) + cmd[40:]


def model_copy(t, cmd):
    opened(cmd, 40)
    flags, target, source, length, address, origin = struct.unpack_from('<IIIQQQ', cmd, 4)
    fixed, write, read = asked_for(flags)
    need(flags < 8, 95, 'unknown flag')
    need(write or read, 22, 'no right')
    good_length(length)
    need(origin + length - 1 <= TOP, 75, 'source past the top')
    if fixed:
        need(address + length - 1 <= TOP, 75, 'target past the top')
    need(is_space(t, target), 2, 'no target space')
    need(is_space(t, source), 2, 'no source space')
    found = [m for m in mappings_of(t, source) if (m.address, m.length) == (origin, length)]
    need(found, 2, 'no source')
    need(not write or all(m.founder == 1 for m in found), 1, 'founder not writeable')
    address = placed(t, target, fixed, length, address)
    place = free_record(t)
    m, = found
    m = m._replace(space=target, address=address, rights=WRITE * write + READ * read)
    return put_mapping(t, place, m), cmd[:24] + struct.pack('<Q', address) + cmd[32:]


def model_unmap(t, cmd):
    opened(cmd, 24)
    space, address, length = struct.unpack_from('<IQQ', cmd, 4)
    need(length != 0, 22, 'length 0')
    need(address + length - 1 <= TOP, 75, 'past the top')
    need(is_space(t, space), 2, 'no space')
    gone = mappings_of(t, space)
    if (address, length) != (0, TOP):
        asked = run(address, length)
        gone = [m for m in gone if meet(covered(m), asked)]
        need(all(within(covered(m), asked) for m in gone), 2, 'cuts a mapping')
        need(gone, 2, 'none inside')
    return without(t, gone), cmd[:16] + struct.pack('<Q', sum(m.length for m in gone)) + cmd[24:]


# ---- L1's tool: the first check of a MAP or a COPY that fails
REASONS = ('Accepted', 'NoSizeField', 'SizeTooSmall', 'SizePastBytes', 'TailNotZero', 'Flags', 'NoRight', 'WrongLength', 'MemoryPasses', 'SourcePasses',
           'AddressPasses', 'NoSpace', 'NoSourceSpace', 'NoSource', 'NotWriteable', 'Misaligned', 'TouchesReserved', 'TouchesMapping', 'LengthMisaligned',
           'NoPlace', 'NoRecord', 'OverLimit')                         # the code of each is its place here

# The reason that each check above is. Two sentences of document 01 have two checks each above, so that tests/order.py sees both sides.
REASON_OF = {
    'no size field': 'NoSizeField', 'size below': 'SizeTooSmall', 'size above': 'SizePastBytes', 'tail': 'TailNotZero',
    'unknown flag': 'Flags', 'reserved field': 'Flags', 'no right': 'NoRight', 'length 0': 'WrongLength', 'length over 2^40': 'WrongLength',
    'memory past the top': 'MemoryPasses', 'source past the top': 'SourcePasses', 'address past the top': 'AddressPasses',
    'target past the top': 'AddressPasses', 'no space': 'NoSpace', 'no target space': 'NoSpace', 'no source space': 'NoSourceSpace',
    'no source': 'NoSource', 'founder not writeable': 'NotWriteable', 'address off the alignment': 'Misaligned',
    'end off the alignment': 'Misaligned', 'touches reserved': 'TouchesReserved', 'touches a mapping': 'TouchesMapping',
    'length off the alignment': 'LengthMisaligned', 'no candidate': 'NoPlace', 'no record': 'NoRecord', 'charge': 'OverLimit',
}

# What is explained: the call, and where its bytes have the space that it lands in, the length and the address.
EXPLAINED = {0x3B83: (model_copy, 8, 16, 24), 0x3B85: (model_map, 8, 24, 32)}

Reason = namedtuple('Reason', 'code errno named start length')


def reserving(t, space, asked):
    """The ids of the objects that reserve an address of the range in a space."""
    return [i for i, o in enumerate(t.objects, 1) if o.kind == ATTACHED and o.home == space and touched(asked, reserved(o))]


def mapped_at(t, space, asked):
    """The numbers, from 1, of the mapping records of a space that have an address of the range."""
    return [n for n, m in enumerate(t.mappings, 1) if m.space == space and meet(asked, covered(m))]


def likely_lasts(t, space):
    """The addresses that can be the last of a run that is as long as can be: one more would be past the top, taken, or out of an allowed range."""
    taken = reserved_of(t, space) + [covered(m) for m in mappings_of(t, space)]
    return {TOP} | {r.start - 1 for r in taken} | {p[-1] for p in allowed(object_of(t, space))}


def longest_run(t, space):
    """The longest run in which an automatic mapping may begin, though it need not end on a multiple: the lowest of equals, without an address
    where no multiple is free. A longest one cannot begin a multiple earlier and cannot end later, so those between likely ends are enough."""
    runs = [addresses(x, last) for x in set(likely(t, space)) for last in likely_lasts(t, space) if x <= last]
    runs = [r for r in runs if candidate(t, space, r.start, r.stop - r.start)]
    return min(runs, key=lambda r: (r.start - r.stop, r.start), default=range(0))


def explain(t, request, cmd):
    """Why a MAP or a COPY with these bytes would be refused: the code of the reason, the errno, the lowest object or mapping record in the way, and
    start and length of the longest run. All 0 for one that would be accepted. What the tool itself refuses is raised."""
    need(not faults(t), 117, 'bad table')
    need(request in EXPLAINED, 25, 'neither MAP nor COPY')
    call, *places = EXPLAINED[request]
    try:
        call(t, cmd)
        return Reason(0, 0, 0, 0, 0)
    except Refused as refused:
        errno, name = refused.errno, REASON_OF[refused.check]
    named, longest = 0, range(0)
    if name in ('TouchesReserved', 'TouchesMapping', 'NoPlace'):
        space, length, address = (read(cmd, at) for read, at in zip((u32, u64, u64), places))
        if name == 'TouchesReserved':
            named = min(reserving(t, space, run(address, length)))
        if name == 'TouchesMapping':
            named = min(mapped_at(t, space, run(address, length)))
        if name == 'NoPlace':
            longest = longest_run(t, space)
    return Reason(REASONS.index(name), errno, named, longest.start, longest.stop - longest.start)
