#!/usr/bin/env python3
"""The bench program as document 01 says it, on the model of the table and apart from the Rattle code.

    bench.py           write crates/bench/stdin and crates/bench/stdout: document 01's plan and its lines
    bench.py --check   fail where the stored files, or plans/first.plan, differ from what this script makes
"""
import os
import re
import struct
import sys
from collections import namedtuple

from model import (RELEASED, Refused, Table, UNMAPPED, charge, model_alloc, model_allow, model_attach, model_bind, model_copy, model_destroy,
                   model_map, model_ranges, model_unknown, model_unmap, need)

ROOT = os.path.join(os.path.dirname(os.path.abspath(__file__)), '..')
MOST = 65536
HEADER = 'step request result charge\n'
BAD = 'bad plan\n'
SETUP = ('limit', 'space', 'spaces', 'device', 'attach')

# devices: (bitmap, ranges); attachments: (device, space); commands: (request, command, area)
Plan = namedtuple('Plan', 'limit spaces devices attachments commands')
EMPTY = Plan(0, 0, (), (), ())


class NoPlan(Exception):
    """The bytes are no whole plan: too many, or cut, or some are left over."""


# ---- reading
def split(data, *sizes):
    """The first bytes by their sizes, and the rest."""
    parts = []
    for n in sizes:
        if n > len(data):
            raise NoPlan
        parts.append(data[:n])
        data = data[n:]
    return parts + [data]


def number(b):
    return sum(x * 256**k for k, x in enumerate(b))


def numbers(data, *sizes):
    *parts, rest = split(data, *sizes)
    return [number(p) for p in parts] + [rest]


def read_many(data, read_one):
    """A section: its count, then so many."""
    count, data = numbers(data, 4)
    found = []
    while len(found) < count:
        one, data = read_one(data)
        found.append(one)
    return tuple(found), data


def read_range(data):
    start, last, rest = numbers(data, 8, 8)
    return (start, last), rest


def read_device(data):
    bitmap, data = numbers(data, 8)
    ranges, data = read_many(data, read_range)
    return (bitmap, ranges), data


def read_attachment(data):
    device, space, rest = numbers(data, 4, 4)
    return (device, space), rest


def read_command(data):
    request, length, room, data = numbers(data, 4, 4, 4)
    command, area, rest = split(data, length, room)
    return (request, command, area), rest


def read(data):
    if len(data) > MOST:
        raise NoPlan
    limit, spaces, data = numbers(data, 8, 4)
    devices, data = read_many(data, read_device)
    attachments, data = read_many(data, read_attachment)
    commands, data = read_many(data, read_command)
    if data:
        raise NoPlan
    return Plan(limit, spaces, devices, attachments, commands)


# ---- the other way, for scripts that make plans
def device_bytes(device):
    bitmap, ranges = device
    return struct.pack('<QI', bitmap, len(ranges)) + b''.join(struct.pack('<QQ', *r) for r in ranges)


def command_bytes(command):
    request, cmd, area = command
    return struct.pack('<III', request, len(cmd), len(area)) + cmd + area


def parts_of(plan):
    """The bytes of each part of a plan, in order: limit and spaces, then each section's count and each of its things."""
    yield struct.pack('<Q', plan.limit)
    yield struct.pack('<I', plan.spaces)
    for things, packed in ((plan.devices, device_bytes), (plan.attachments, lambda a: struct.pack('<II', *a)), (plan.commands, command_bytes)):
        yield struct.pack('<I', len(things))
        yield from map(packed, things)


def bytes_of(plan):
    return b''.join(parts_of(plan))


def long_plan(size, commands):
    """The bytes of a plan, so many: unknown commands without bytes, and the last one's area fills what is left."""
    last = (0, b'', bytes(size - 24 - 12 * commands))
    return bytes_of(Plan(0, 0, (), (), ((0, b'', b''),) * (commands - 1) + (last,)))


MANY = (MOST - 24) // 12                                               # commands, as many as fit


# ---- running
def set_up(plan):
    """The table before the first command, or Refused."""
    need(plan.limit <= 2**36, 22, 'limit')
    t = Table(plan.limit, (RELEASED,) * 32, (UNMAPPED,) * 128)
    for _ in range(plan.spaces):
        t, _ = model_alloc(t, struct.pack('<III', 12, 0, 0))
    for bitmap, ranges in plan.devices:
        _, t = model_bind(t, bitmap, len(ranges), [s for s, _ in ranges], [l for _, l in ranges])
    for device, space in plan.attachments:
        _, t = model_attach(t, device, space)
    return t


def unknown(t, cmd, area):
    return 0, model_unknown(t, cmd)


def ranges(t, cmd, area):
    """The one call whose errno comes with an answer."""
    return model_ranges(t, cmd, area)[0], t


CALLS = {
    0x3B80: lambda t, cmd, area: (0, model_destroy(t, cmd)),
    0x3B81: lambda t, cmd, area: (0, model_alloc(t, cmd)[0]),
    0x3B82: lambda t, cmd, area: (0, model_allow(t, cmd, area)),
    0x3B83: lambda t, cmd, area: (0, model_copy(t, cmd)[0]),
    0x3B84: ranges,
    0x3B85: lambda t, cmd, area: (0, model_map(t, cmd)[0]),
    0x3B86: lambda t, cmd, area: (0, model_unmap(t, cmd)[0]),
}


def step(t, request, cmd, area, seen=None):
    """The errno of a command and the table after it. seen is told of what is refused, and why."""
    try:
        return CALLS.get(request, unknown)(t, cmd, area)
    except Refused as refused:
        if seen:
            seen(request, refused)
        return refused.errno, t


def run(data, seen=None):
    """What the program writes for these bytes."""
    try:
        plan = read(data)
        t = set_up(plan)
    except (NoPlan, Refused) as why:
        if seen:
            seen(None, why)
        return BAD
    lines = [HEADER]
    for k, (request, cmd, area) in enumerate(plan.commands):
        errno, t = step(t, request, cmd, area, seen)
        lines.append('%d %d %d %d\n' % (k, request, -errno, charge(t)))
    return ''.join(lines)


# ---- document 01's plan, byte by byte, and the lines that it prints there
def readable_map(memory, length, fixed=None):
    return 0x3B85, struct.pack('<IIIIQQQ', 40, 4 + (fixed is not None), 1, 0, memory, length, fixed or 0), b''


FIRST = bytes_of(Plan(4, 1, [(4096, [(0xFEE00000, 0xFEEFFFFF)])], [(2, 1)], [
    readable_map(0x10000, 0x2000), readable_map(0, 0x1000, fixed=0x1000), readable_map(0, 0x1000, fixed=0xFEE00000), readable_map(0x20800, 0x1000),
    (0x3B86, struct.pack('<IIQQ', 24, 1, 0, 0x3000), b''), (0x3B7F, b'', b'')]))
FIRST_LINES = HEADER + '0 15237 0 2\n1 15237 -17 2\n2 15237 -22 2\n3 15237 0 4\n4 15238 0 0\n5 15231 -25 0\n'


def promised(text):
    """What a plan in the readable form says of its commands: `# -17 charge 2` beside one is its result and the charge after it. The charge may
    be left out."""
    begins = [(line.split('#')[0].split() + [''])[0] for line in text.split('\n')]
    commands = [line for line, word in zip(text.split('\n'), begins) if word and word not in SETUP]
    found = [re.search(r'# (-?\d+)(?: charge (\d+))?', line).groups() for line in commands]
    return [(int(result), None if after is None else int(after)) for result, after in found]


def from_root(*path):
    return os.path.join(ROOT, *path)


def store(name, script, files, told):
    """Write the files of a program; with --check, say which differ and end."""
    if sys.argv[1:] == ['--check']:
        stale = [p for p, made in files.items() if open(from_root('crates', name, p), 'rb').read() != made]
        for p in stale:
            print('%s: crates/%s/%s is not what this script makes' % (script, name, p))
        print('%s: %s' % (script, told))
        if stale:
            sys.exit(1)
        return
    for p, made in files.items():
        open(from_root('crates', name, p), 'wb').write(made)
    print('%s: wrote %s' % (script, told))


def main():
    sys.path.insert(0, from_root('plans'))
    from plan import assemble
    assert run(FIRST) == FIRST_LINES, run(FIRST)
    assert run(FIRST + b'\0') == BAD and run(FIRST[:-1]) == BAD
    if assemble(open(from_root('plans', 'first.plan')).read()) != FIRST:
        sys.exit("bench.py: plans/first.plan is not document 01's plan")
    store('bench', 'bench.py', {'stdin': FIRST, 'stdout': FIRST_LINES.encode()}, "document 01's plan, %d bytes" % len(FIRST))


if __name__ == '__main__':
    main()
