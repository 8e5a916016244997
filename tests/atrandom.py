"""Calls at random, from a fixed seed, over few ids and addresses."""
import struct

from model import ATTACHED, LOOSE, Mapping, SPACE, TOP, faults, live, mappings_of, object_of, put_mapping
from runs import alloc, allow, attach, bind, broken, destroy, detach, mapping, now, pairs, ranges, reach, stored

seed = 1


def pick(n):
    """A number below n. The generator is written out, so that every Python makes the same."""
    global seed
    seed = (seed * 6364136223846793005 + 1442695040888963407) % 2**64
    return (seed >> 33) % n


def one_of(*choices):
    return choices[pick(len(choices))]


def chance(n):
    return pick(n) == 0


def some_id():
    return one_of(0, 33, 2**32 - 1) if chance(16) else 1 + pick(7)


def id_of(*kinds):
    """Mostly the id of an object of this kind."""
    having = [i for i in range(1, 33) if object_of(now(), i).kind in kinds]
    return some_id() if chance(6) or not having else one_of(*having)


def some_address():
    return TOP + 1 - 0x400 * (1 + pick(8)) if chance(6) else 0x400 * pick(48)


def some_range(most):
    start = some_address()
    last = min(start + 0x400 * (1 + pick(most)) - 1, TOP)
    return (last, start) if chance(24) else (start, last - pick(2)) if chance(6) else (start, last)


def some_ranges(most, longest):
    return [some_range(longest) for _ in range(pick(most + 1))]


def damaged(cmd, known):
    """Another size, a tail, or fewer bytes lent."""
    size = one_of(known - 1, known + 4, known + 8, known + 8, 2**32 - 1, 0)
    cmd = struct.pack('<I', size) + cmd[4:] + one_of(bytes(8), bytes(8), bytes(5) + b'\x01' + bytes(2))
    return cmd[:one_of(3, known - 1, known, known + 5, known + 8, known + 8, known + 8)]


def maybe(cmd, known):
    return damaged(cmd, known) if chance(5) else cmd


def random_bind():
    given = some_ranges(4, 4)
    bitmap = one_of(1024, 2048, 4096, 4096 + 2**20, 0x3000, 0, 8192) if chance(3) else one_of(1, 512, 1024)
    bind(bitmap, given, count=one_of(5, 2, 2**31) if chance(10) else None)


def random_attach():
    attach(id_of(LOOSE), id_of(SPACE))


def random_detach():
    detach(id_of(ATTACHED))


def random_reach():
    d = id_of(ATTACHED)
    near = mappings_of(now(), object_of(now(), d).home) if object_of(now(), d).kind == ATTACHED else []
    if near and not chance(8):
        m = one_of(*near)
        address = min(m.address + one_of(0, 0, 0, 1, m.length - 1, m.length), TOP)
        length = one_of(1, m.address + m.length - address, m.address + m.length - address, m.length, m.length + 1, 0, TOP)
    else:
        address, length = some_address(), one_of(1, 0x400, 0x401, 0, 2**13)
    reach(d, address, length, write=chance(3))


def random_alloc():
    alloc(cmd=maybe(struct.pack('<III', 12, one_of(1, 2**31) if chance(6) else 0, pick(2**20)), 12))


def random_destroy():
    destroy(cmd=maybe(struct.pack('<II', 8, id_of(SPACE, LOOSE, ATTACHED)), 8))


def random_allow():
    given = some_ranges(3, 6)
    count = one_of(9, 5, 2**28) if chance(10) else len(given)
    cmd = maybe(struct.pack('<IIIIQ', 24, id_of(SPACE), count, one_of(1, 2**31) if chance(12) else 0, pick(2**20)), 24)
    allow(cmd=cmd, area=pairs(given)[:-1] if chance(10) else pairs(given) + bytes(pick(3)))


def random_ranges():
    count = pick(6)
    cmd = maybe(struct.pack('<IIIIQQ', 32, id_of(SPACE), count, one_of(1, 2**31) if chance(12) else 0, pick(2**20), 0), 32)
    ranges(cmd=cmd, area=b'\x55' * (max(16 * count - 1, 0) if chance(10) else 16 * count + pick(3)))


def some_mapping():
    length = 0x400 * (1 + pick(6)) if chance(2) else one_of(1, 0x400, 0x1000)
    sources = live(now())
    if sources and chance(4):                                          # as COPY would
        m = one_of(*sources)
        return m._replace(space=id_of(SPACE), address=some_address(), rights=1 + pick(3) if m.founder else 2)
    founder = pick(2)
    return Mapping(id_of(SPACE), 1 + pick(3) if founder else 2, founder, 1 + pick(9), some_address(), length, 0x100 * pick(64))


def random_mapping(call):
    """A mapping stored as it is: mostly one that suits the table, else a call that is refused, and the old one again."""
    place = pick(12)
    before, proposals = now().mappings[place], [some_mapping() for _ in range(20)]
    fitting = [m for m in proposals if not faults(put_mapping(now(), place, m))]
    if fitting and not chance(8):
        return mapping(place, fitting[0])
    mapping(place, proposals[0])
    if faults(now()):
        broken.update(faults(now()))
        call()
        mapping(place, before)


def random_object(call):
    """An object with another number in one field; if the table is bad then, a call and the old one again."""
    i = 1 + pick(8)
    before = object_of(now(), i)
    field = one_of('bitmap', 'count', 'size', 'starts', 'lasts', 'lows', 'highs', 'kind')
    value = getattr(before, field)
    if isinstance(value, tuple):
        k = pick(len(value))
        value = value[:k] + (value[k] + one_of(1, 0x400, 2**63) & TOP,) + value[k + 1:]
    else:
        value = pick(3) if field == 'kind' else value + 1 + pick(3)
    stored(i, before, **({'kind': value, 'home': 0} if field == 'kind' else {field: value}))
    if faults(now()):
        broken.update(faults(now()))
        call()
        stored(i, before)
