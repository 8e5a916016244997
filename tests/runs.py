"""A run of calls on one table: the records that the program reads, and the lines that the model gives for them.

A record is a u32 operation, a u32 count of bytes and so many bytes; each gives one line: the operation, the result, what
the call wrote, 1 if the table is good after it, and two sums over every number of the table.
"""
import os
import struct
import sys
from collections import Counter

from model import (ATTACHED, LOOSE, Mapping, Object, READ, REASONS, RELEASED, Reason, Refused, TOP, Table, UNMAPPED, alignment_of, candidate, explain,
                   faults, model_alloc,
                   model_allow, model_attach, model_bind, model_copy, model_destroy, model_detach, model_map, model_ranges, model_reach,
                   model_unknown, model_unmap, need, padded, put_mapping, put_object, u32, u64)

records, lines = [], []
errnos, checks, broken = Counter(), Counter(), Counter()               # how often a call gave an errno, a check refused, a clause was broken
called = []                                                            # each call of the model, with the table and what else it was given
table = Table(0, (RELEASED,) * 32, (UNMAPPED,) * 128)


def now():
    """The table as it is."""
    return table


def numbers(t):
    yield t.limit
    for o in t.objects:
        yield from (o.kind, o.home, o.bitmap, o.count, *o.starts, *o.lasts, o.size, *o.lows, *o.highs)
    for m in t.mappings:
        yield from m


def sums(t):
    plain, ordered = 1, 0
    for x in numbers(t):
        plain = (plain + x) % (2**32 - 5)
        ordered = (ordered + plain) % (2**32 - 5)
    return '%08x%08x' % (plain, ordered)


def packed(form, *given):
    """Numbers, without the words at the end that are zero."""
    body = struct.pack('<' + form, *given).rstrip(b'\0')
    return body + bytes(-len(body) % 8)


def alternating(starts, lasts):
    return [x for r in zip(starts, lasts) for x in r]


def record(operation, body, parts, after):
    global table
    edit = operation in (1, 10, 11, 12)
    assert edit or faults(table) or not faults(after)                  # no call makes a bad table out of a good one
    table = after
    assert operation not in (6, 13, 14, 15, 16) or len(body) <= 64     # the room that the program has for a command that is changed
    records.append(struct.pack('<II', operation, len(body)) + body)
    lines.append(' '.join([str(p) for p in parts] + ['0' if faults(table) else '1', sums(table)]))


def outcome(call, *given):
    """What a call on the table gives: its errno, and its answer where that is 0. A bad table is 117 before all."""
    called.append((call, table, given))
    try:
        need(not faults(table), 117, 'bad table')
        return 0, call(table, *given)
    except Refused as refused:
        checks[call, refused.check, refused.errno] += 1
        return refused.errno, None


def told(name, errno, value, want):
    """The result. A case by hand says what it wants."""
    result = -errno if errno else value
    errnos[name, errno] += 1
    assert want is None or want == result, 'line %d, %s: %d, wanted %d' % (len(lines) + 1, name, result, want)
    return result


def lent(b):
    return '[%s]' % b.hex()


def fresh(limit=2**36, want=None):
    """Above 2^36 there is no table; one that every call refuses stands in for it."""
    result = told('fresh', 22 if limit > 2**36 else 0, 0, want)
    record(1, packed('Q', limit), ['fresh', result], Table(limit, (RELEASED,) * 32, (UNMAPPED,) * 128))


def bind(bitmap, ranges=(), count=None, want=None):
    count = len(ranges) if count is None else count
    starts, lasts = padded([s for s, _ in ranges], 4), padded([l for _, l in ranges], 4)
    errno, given = outcome(model_bind, bitmap, count, starts, lasts)
    i, after = given or (0, table)
    body = packed('QII8Q', bitmap, count, 0, *alternating(starts, lasts))
    record(2, body, ['bind', told('bind', errno, i, want)], after)


def attach(device, space, want=None):
    errno, given = outcome(model_attach, device, space)
    record(3, packed('II', device, space), ['attach', told('attach', errno, 0, want)], given[1] if given else table)


def detach(device, want=None):
    errno, given = outcome(model_detach, device)
    record(4, packed('I', device), ['detach', told('detach', errno, 0, want)], given[1] if given else table)


def reach(device, address, length, write=False, want=None, at=None):
    errno, memory = outcome(model_reach, device, address, length, write)
    assert at is None or at == memory, 'reach: %d, wanted %d' % (memory, at)
    record(5, packed('IIQQ', device, write, address, length), ['reach', told('reach', errno, 0, want), memory or 0], table)


def alloc(flags=0, cmd=None, want=None, i=None):
    cmd = struct.pack('<III', 12, flags, 0xAAAAAAAA) if cmd is None else cmd
    errno, given = outcome(model_alloc, cmd)
    after, reply = given or (table, cmd)
    assert i is None or i == u32(reply, 8), 'alloc: %d, wanted %d' % (u32(reply, 8), i)
    record(6, cmd, ['alloc', told('alloc', errno, 0, want), lent(reply)], after)


def destroy(i=0, cmd=None, want=None):
    cmd = struct.pack('<II', 8, i) if cmd is None else cmd
    errno, after = outcome(model_destroy, cmd)
    record(7, cmd, ['destroy', told('destroy', errno, 0, want)], after or table)


def pairs(ranges):
    return b''.join(struct.pack('<QQ', *r) for r in ranges)


def allow(space=0, ranges=(), count=None, field=0, area=None, cmd=None, pointer=0, want=None):
    count = len(ranges) if count is None else count
    area = pairs(ranges) if area is None else area
    cmd = struct.pack('<IIIIQ', 24, space, count, field, pointer) if cmd is None else cmd
    errno, after = outcome(model_allow, cmd, area)
    record(8, struct.pack('<Q', len(cmd)) + cmd + area, ['allow', told('allow', errno, 0, want)], after or table)


def ranges(space=0, count=0, field=0, area=None, cmd=None, want=None, gives=None, a=None):
    """gives: the ranges written; a: the alignment written."""
    area = b'\xaa' * (16 * count) if area is None else area
    cmd = struct.pack('<IIIIQQ', 32, space, count, field, 0xBBBBBBBBBBBBBBBB, 0xCCCCCCCCCCCCCCCC) if cmd is None else cmd
    errno, given = outcome(model_ranges, cmd, area)
    if given:
        errno, reply, written = given
    else:
        reply, written = cmd, area
    result = told('ranges', errno, 0, want)
    if gives is not None:
        assert written == pairs(gives) + area[16 * len(gives):], 'ranges: %s, wanted %s' % (written.hex(), gives)
    assert a is None or a == u64(reply, 24), 'ranges: alignment %d, wanted %d' % (u64(reply, 24), a)
    record(9, struct.pack('<Q', len(cmd)) + cmd + area, ['ranges', result, lent(reply), lent(written)], table)


def lowest(space, length, address):
    """That no candidate is below, by trying every multiple, where they are few."""
    a = alignment_of(table, space)
    return address // a > 5000 or not any(candidate(table, space, x, length) for x in range(0, address, a))


def mapped(name, model, operation, cmd, length_at, address_at, want, gives):
    """A MAP or a COPY: its length and its address at these offsets."""
    errno, given = outcome(model, cmd)
    after, reply = given or (table, cmd)
    if given:
        checks[model, 'fixed' if u32(cmd, 4) % 2 else 'automatic', 0] += 1
        assert u32(cmd, 4) % 2 or lowest(u32(cmd, 8), u64(cmd, length_at), u64(reply, address_at))
    result = told(name, errno, 0, want)
    assert gives is None or given and gives == u64(reply, address_at), '%s: %#x, wanted %#x' % (name, u64(reply, address_at), gives)
    record(operation, cmd, [name, result, lent(reply)], after)


def asked(at, rights, flags):
    """Flags and address field: `at` is a fixed address."""
    return ((at is not None) + 2 * rights if flags is None else flags), 0xCCCCCCCCCCCCCCCC if at is None else at


def map_(space=1, length=4096, at=None, memory=0, rights=READ, flags=None, field=0, cmd=None, want=None, gives=None):
    """at: a fixed address. gives: the address written."""
    flags, at = asked(at, rights, flags)
    cmd = struct.pack('<IIIIQQQ', 40, flags, space, field, memory, length, at) if cmd is None else cmd
    mapped('map', model_map, 13, cmd, 24, 32, want, gives)


def copy(target=1, source=1, length=4096, origin=0, at=None, rights=READ, flags=None, cmd=None, want=None, gives=None):
    """origin: the address in the source; at and gives as for a MAP, in the target."""
    flags, at = asked(at, rights, flags)
    cmd = struct.pack('<IIIIQQQ', 40, flags, target, source, length, at, origin) if cmd is None else cmd
    mapped('copy', model_copy, 14, cmd, 16, 24, want, gives)


def unmap(space=1, address=0, length=TOP, cmd=None, want=None, gives=None):
    """gives: the bytes removed."""
    cmd = struct.pack('<IIQQ', 24, space, address, length) if cmd is None else cmd
    errno, given = outcome(model_unmap, cmd)
    after, reply = given or (table, cmd)
    if given:
        checks[model_unmap, 'all' if (u64(cmd, 8), u64(cmd, 16)) == (0, TOP) else 'those inside', 0] += 1
    result = told('unmap', errno, 0, want)
    assert gives is None or given and gives == u64(reply, 16), 'unmap: %d, wanted %d' % (u64(reply, 16), gives)
    record(15, cmd, ['unmap', result, lent(reply)], after)


def why(cmd, request=0x3B85, want=None):
    """What the tool says of a command. want: the name of the reason, with the object or the record, or start and length of the run; or the errno of the tool."""
    errno, given = outcome(explained, request, cmd)
    given = given or Reason(0, 0, 0, 0, 0)
    name = (REASONS[given.code], given.named) if given.named else (REASONS[given.code], given.start, given.length) if REASONS[given.code] == 'NoPlace' \
        else REASONS[given.code]
    assert want is None or want == (errno or name), 'line %d, why: %s, wanted %s' % (len(lines) + 1, errno or name, want)
    parts = ['why', -errno]
    if not errno:
        checks[explained, request, name[0] if isinstance(name, tuple) else name] += 1
        parts += [given.code, given.errno, given.named]
        parts += [given.start, given.length - 1] if given.length else ['none']   # of a run the program knows one less than its length
    record(17, struct.pack('<I', request) + cmd, parts, table)


def explained(t, request, cmd):
    return explain(t, request, cmd)


def other(cmd=b'', want=None):
    """A request that is none of the seven."""
    errno, _ = outcome(model_unknown, cmd)
    record(16, cmd, ['other', told('other', errno, 0, want), lent(cmd)], table)


def mapping(place, m=UNMAPPED, **changed):
    """The mapping record is stored as it is."""
    m = m._replace(**changed)
    body = packed('6I3Q', place, m.space, m.rights, m.founder, m.backing, 0, m.address, m.length, m.memory)
    record(10, body, ['mapping'], put_mapping(table, place, m))


def stored(i, o=RELEASED, **changed):
    """The object record with id i is stored as it is."""
    o = o._replace(**changed)
    body = packed('6I25Q', i - 1, o.kind, o.home, o.count, o.size, 0, o.bitmap, *alternating(o.starts, o.lasts), *alternating(o.lows, o.highs))
    record(11, body, ['object'], put_object(table, i, o))


def limit(most):
    record(12, packed('Q', most), ['limit'], table._replace(limit=most))


def good():
    assert not faults(table), faults(table)


def charged(n):
    """The charge is exactly n: a limit of n is good, and of one less is bad."""
    before = table.limit
    limit(n)
    good()
    if n:
        limit(n - 1)
        assert faults(table) == {'limit below the charge'}, faults(table)
    limit(before)


turn = 0


def bad(*clauses):
    """The table is bad by exactly these clauses, and the next call in turn is refused."""
    global turn
    assert faults(table) == set(clauses), faults(table)
    broken.update(clauses)
    turn += 1
    call_in_turn(turn, want=-117)


def call_in_turn(k, want):
    """One of the eight calls."""
    [lambda: bind(4096, want=want), lambda: attach(2, 1, want=want), lambda: detach(2, want=want), lambda: reach(2, 0, 1, want=want),
     lambda: alloc(want=want), lambda: destroy(1, want=want), lambda: allow(1, [], want=want), lambda: ranges(1, 1, want=want)][k % 8]()


MSI = (0xFEE00000, 0xFEEFFFFF)
ALL = (0, TOP)


def listed(o, given):
    """The object with this allow list."""
    return o._replace(size=len(given), lows=padded([s for s, _ in given], 8), highs=padded([l for _, l in given], 8))


def device(bitmap=4096, given=(), home=0):
    return Object(ATTACHED if home else LOOSE, home, bitmap, len(given), padded([s for s, _ in given], 4), padded([l for _, l in given], 4),
                  0, (0,) * 8, (0,) * 8)


def page(space, address, backing, **changed):
    """One readable page of memory 0."""
    return Mapping(space, 2, 0, backing, address, 4096, 0)._replace(**changed)


def sized(size, n, fill=0):
    return (struct.pack('<I', size) + bytes([fill]) * n)[:n]


def badly_opened(known, call):
    """The refusals of opening a command whose known size is this, on a good table."""
    for n in range(4):
        call(cmd=sized(known, n), want=-14)
    call(cmd=bytes(3), want=-14)
    call(cmd=sized(0, 4), want=-22)                                    # O1: size before bytes
    call(cmd=sized(known - 1, known), want=-22)
    call(cmd=sized(known - 1, known, 1), want=-22)
    call(cmd=sized(known - 1, 4), want=-22)                            # O1: though fewer are lent
    call(cmd=sized(known, known - 1), want=-14)
    call(cmd=sized(known + 1, known), want=-14)
    call(cmd=sized(known + 8, known) + b'\x01', want=-14)              # before the tail, of which one byte is lent
    for size in (2**31, 2**32 - known, 2**32 - 4, 2**32 - 1):          # O7
        call(cmd=sized(size, known + 8), want=-14)
    call(cmd=sized(known + 8, known) + bytes(7) + b'\x80', want=-7)    # O5: before any field
    call(cmd=sized(known + 8, known, 1) + b'\x01' + bytes(7), want=-7)
    call(cmd=sized(known + 7, known, 1) + bytes(6) + b'\x01\x01', want=-7)


def errnos_are(can):
    """Each call gave each errno that it can give at least twice, and no other."""
    for name, able in can.items():
        seen = {e: n for (call, e), n in sorted(errnos.items()) if call == name}
        assert set(seen) == able and min(seen.values()) >= 2, (name, seen, able)


def told_counts(names):
    for name in names:
        print('%-8s' % name, ' '.join('%d:%d' % (e, n) for (call, e), n in sorted(errnos.items()) if call == name))
    total = Counter()
    for (_, e), n in errnos.items():
        total[e] += n
    print('all      ' + ' '.join('%d:%d' % p for p in sorted(total.items())))
    print('broken   ' + '; '.join('%s %d' % p for p in sorted(broken.items())))


def store(script, crate):
    """Write the files of this script's program; with --check, say which differ and end. From the root of the repository or anywhere else."""
    folder = os.path.join(os.path.dirname(os.path.abspath(__file__)), '..', 'crates', crate)
    files = {'stdin': b''.join(records), 'stdout': ''.join(line + '\n' for line in lines).encode()}
    assert len(files['stdin']) <= 65536, len(files['stdin'])
    if sys.argv[1:] == ['--check']:
        stale = [p for p, made in files.items() if open(os.path.join(folder, p), 'rb').read() != made]
        for p in stale:
            print('%s.py: crates/%s/%s is not what this script makes' % (script, crate, p))
        print('%s.py: %d cases' % (script, len(lines)))
        sys.exit(1 if stale else 0)
    for p, made in files.items():
        open(os.path.join(folder, p), 'wb').write(made)
    print('%s.py: wrote %d cases, %d bytes' % (script, len(lines), len(files['stdin'])))
