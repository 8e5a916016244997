#!/usr/bin/env python3
"""Plans at random, many of them at a boundary or damaged, run by the built bench program and by the model in tests/bench.py.

    randomplans.py [--program crates/bench/out/bench] [--seed 1] [--plans 3000]

Ends with status 0 if all are alike, 1 with the shortest plan that differs, 2 without a program.
"""
import argparse
import os
import struct
import subprocess
import sys
from collections import Counter, namedtuple

import bench
from bench import BAD, EMPTY, MANY, MOST, Plan, bytes_of, from_root
from model import ATTACHED, LOOSE, Refused, SPACE, TOP, faults, live, object_of

sys.path.insert(0, from_root('plans'))
from plan import disassemble                                           # noqa: E402

DESTROY, ALLOC, ALLOW, COPY, RANGES, MAP, UNMAP = range(0x3B80, 0x3B87)
SIZES = {DESTROY: 8, ALLOC: 12, ALLOW: 24, COPY: 40, RANGES: 32, MAP: 40, UNMAP: 24}
STRANGE = (0, 0x3B7F, 0x3B87, 0x3B00, 0x80, 0x85, 0x3A85, 0x13B85, 0x3B850000, 2**31, 2**32 - 1)
WAIT = 20                                                              # seconds, after which a program counts as stuck

# A plan, the bytes that it is filled up to (0: it is not), and what is done to them then, also in words. Filling and damage stand
# apart from the plan, so that it can be made shorter and be filled and damaged again.
Case = namedtuple('Case', 'plan total damage how')


class Dice:
    """The generator is written out, so that a seed makes the same plans with every Python."""

    def __init__(self, seed):
        self.seed = seed * 2 + 1

    def pick(self, n):
        """A number below n, which is at most 2^31."""
        self.seed = (self.seed * 6364136223846793005 + 1442695040888963407) % 2**64
        return (self.seed >> 33) % n

    def one_of(self, *choices):
        return choices[self.pick(len(choices))]

    def chance(self, n):
        return self.pick(n) == 0

    def bytes(self, n):
        return bytes(self.pick(256) for _ in range(n))


# ---- numbers over few places, so that ranges meet often
def some_address(dice):
    if dice.chance(6):
        return TOP + 1 - 0x400 * (1 + dice.pick(8))
    return 0x400 * dice.pick(48) + (1 if dice.chance(20) else 0)


def some_range(dice, longest):
    start = some_address(dice)
    last = min(start + 0x400 * (1 + dice.pick(longest)) - 1, TOP)
    if dice.chance(40):
        return last, start
    if dice.chance(30):
        return dice.one_of((0, TOP), (0, 0), (TOP, TOP), (0, TOP - 1), (1, TOP))
    return start, last - (dice.pick(2) if dice.chance(6) else 0)


def some_ranges(dice, most, longest):
    return tuple(some_range(dice, longest) for _ in range(dice.pick(most + 1)))


def some_id(dice, t, *kinds):
    """Mostly of an object of this kind."""
    having = [i for i in range(1, 33) if object_of(t, i).kind in kinds]
    if having and not dice.chance(8):
        return dice.one_of(*having)
    return dice.one_of(0, 33, 2**32 - 1, 32) if dice.chance(4) else 1 + dice.pick(7)


def some_length(dice):
    return dice.one_of(1, 0x3FF, 0x401, 0, 2**40, 2**40 + 1, TOP) if dice.chance(12) else 0x400 * (1 + dice.pick(6))


def some_flags(dice):
    return dice.one_of(0, 1, 8, 2**31 + 4, 2**32 - 1) if dice.chance(24) else dice.one_of(2, 4, 4, 6) + dice.pick(2)


def some_memory(dice):
    return TOP - 0x400 * dice.pick(3) if dice.chance(20) else 0x100 * dice.pick(64)


def some_field(dice):
    """A reserved field."""
    return dice.one_of(1, 2**31) if dice.chance(30) else 0


def unread(dice):
    """A field that no command reads: mostly 0, so that the readable form has a name for the command."""
    return dice.pick(2**20) if dice.chance(6) else 0


def beyond(dice):
    """Bytes behind a range area that is long enough."""
    return dice.bytes(1 + dice.pick(20)) if dice.chance(8) else b''


def near(dice, t):
    """At or beside a mapping, or anywhere."""
    if dice.chance(2) or not live(t):
        return some_address(dice)
    m = dice.one_of(*live(t))
    return min(dice.one_of(m.address, m.address + m.length, max(m.address - 0x400, 0)), TOP)


# ---- commands, each with a range area
def a_map(dice, t):
    flags, space, field = some_flags(dice), some_id(dice, t, SPACE), some_field(dice)
    return struct.pack('<IIIIQQQ', 40, flags, space, field, some_memory(dice), some_length(dice), near(dice, t)), b''


def a_copy(dice, t):
    source, origin, length = some_id(dice, t, SPACE), near(dice, t), some_length(dice)
    if live(t) and not dice.chance(6):
        m = dice.one_of(*live(t))
        source, origin, length = m.space, m.address, m.length
    return struct.pack('<IIIIQQQ', 40, some_flags(dice), some_id(dice, t, SPACE), source, length, near(dice, t), origin), b''


def an_unmap(dice, t):
    space, address, length = some_id(dice, t, SPACE), near(dice, t), some_length(dice)
    if live(t) and not dice.chance(4):
        m, n = dice.one_of(*live(t)), dice.one_of(*live(t))
        space, address = m.space, min(m.address, n.address)
        length = max(m.address + m.length, n.address + n.length) - address if dice.chance(2) else m.length
        length += dice.one_of(-1, 1, 0x400) if dice.chance(5) else 0
    if dice.chance(14):
        address, length = 0, dice.one_of(TOP, TOP, TOP - 1)
    return struct.pack('<IIQQ', 24, space, address, length % 2**64), b''


def an_alloc(dice, t):
    return struct.pack('<III', 12, some_field(dice), unread(dice)), b''


def a_destroy(dice, t):
    return struct.pack('<II', 8, some_id(dice, t, *dice.one_of((SPACE,), (LOOSE,), (ATTACHED,)))), b''


def an_allow(dice, t):
    given = some_ranges(dice, dice.one_of(3, 3, 3, 9), 6)
    area = b''.join(struct.pack('<QQ', *r) for r in given)
    count = dice.one_of(9, 8, 5, 2**28, 2**32 - 1) if dice.chance(12) else len(given)
    area = area[:-1] if dice.chance(12) else area + beyond(dice)
    return struct.pack('<IIIIQ', 24, some_id(dice, t, SPACE), count, some_field(dice), unread(dice)), area


def a_listing(dice, t):
    count = dice.pick(6)
    area = bytes(max(16 * count - 1, 0) if dice.chance(10) else 16 * count) + beyond(dice)
    count = dice.one_of(2**28, 2**32 - 1, 2**28 + 1) if dice.chance(20) else count
    return struct.pack('<IIIIQQ', 32, some_id(dice, t, SPACE), count, some_field(dice), unread(dice), unread(dice)), area


MAKERS = {MAP: a_map, COPY: a_copy, UNMAP: an_unmap, ALLOC: an_alloc, DESTROY: a_destroy, ALLOW: an_allow, RANGES: a_listing}
OFTEN = [MAP] * 9 + [COPY] * 6 + [UNMAP] * 5 + [ALLOW] * 3 + [RANGES] * 2 + [ALLOC] * 2 + [DESTROY]


def misfit(dice, cmd, known):
    """Another size, a tail, or fewer bytes lent."""
    size = dice.one_of(known - 1, known + 4, known + 8, known + 8, 2**32 - 1, 0)
    cmd = struct.pack('<I', size) + cmd[4:] + dice.one_of(bytes(8), bytes(8), bytes(5) + b'\x01' + bytes(2))
    return cmd[:dice.one_of(0, 3, known - 1, known, known + 5, known + 8, known + 8, known + 8)]


def some_command(dice, t):
    request = dice.one_of(*OFTEN)
    cmd, area = MAKERS[request](dice, t)
    if dice.chance(20):
        cmd = misfit(dice, cmd, SIZES[request])
    if dice.chance(60):
        area += dice.bytes(dice.pick(40))
    if dice.chance(30):
        request = dice.one_of(*STRANGE)
    return request, cmd, area


# ---- plans
def some_device(dice):
    bitmap = dice.one_of(2048, 4096, 4096 + 2**20, 0x3000, 8192, 0, 2**63, TOP) if dice.chance(4) else dice.one_of(1, 512, 1024, 1024)
    return bitmap, some_ranges(dice, 5 if dice.chance(20) else 3, 4)


def some_setup(dice):
    limit = dice.one_of(2**36, 2**36 - 1, 2**28, 2**36 + 1, TOP, 2**63) if dice.chance(8) else dice.one_of(0, 1, 3, 8, 16, 64, 2**36, 2**36)
    spaces = dice.one_of(0, 31, 32, 33, 2**32 - 1, 2**31) if dice.chance(10) else 1 + dice.pick(4)
    devices = tuple(some_device(dice) for _ in range(dice.one_of(0, 1, 1, 2, 3, 4)))
    attachments = []
    for k in range(len(devices)):
        if not dice.chance(5):
            attachments.append((spaces + 1 + k, 1 + dice.pick(min(spaces, 3) or 1)))
    if dice.chance(20):
        attachments.append((dice.pick(9), dice.pick(9)))
    return Plan(limit, spaces, devices, tuple((d % 2**32, s) for d, s in attachments), ())


def table_of(plan):
    """The table after the setup, or None."""
    try:
        return bench.set_up(plan)
    except Refused:
        return None


def some_commands(dice, t, n):
    """A row of commands that keep an eye on the table as it is then."""
    made = []
    for _ in range(n):
        made.append(some_command(dice, t))
        _, t = bench.step(t, *made[-1])
    assert not faults(t), faults(t)                                    # the model's own: no command makes a bad table
    return tuple(made)


def crowded(dice, t):
    """So many small mappings and spaces that records run out, then any commands."""
    spaces = [i for i in range(1, 33) if object_of(t, i).kind == SPACE] or [1]
    made = [(MAP, struct.pack('<IIIIQQQ', 40, 6, dice.one_of(*spaces), 0, 0, 4096, 0), b'') for _ in range(120 + dice.pick(16))]
    made += [(ALLOC, struct.pack('<III', 12, 0, 0), b'') for _ in range(dice.one_of(0, 0, 34))]
    for command in made:
        _, t = bench.step(t, *command)
    return tuple(made) + some_commands(dice, t, 20)


def some_plan(dice):
    """Mostly one whose setup is accepted."""
    plan = some_setup(dice)
    while table_of(plan) is None and not dice.chance(6):
        plan = some_setup(dice)
    t = table_of(plan)
    if t is None:
        return plan._replace(commands=some_commands(dice, table_of(EMPTY), dice.pick(3)))
    if dice.chance(60):
        return plan._replace(limit=2**36, commands=crowded(dice, t._replace(limit=2**36)))
    return plan._replace(commands=some_commands(dice, t, dice.one_of(0, 1, 4, 12, 24, 40)))


def filled(plan, total):
    """The plan with one more command, of a size that makes it so many bytes."""
    room = total - len(bytes_of(plan)) - 12
    return plan._replace(commands=plan.commands + ((0, b'', bytes(room)),)) if room >= 0 else plan


# ---- damage
WHOLE = (lambda data: data), ''


def cut(n):
    return (lambda data: data[:n]), 'cut there'


def longer(tail):
    return (lambda data: data + tail), 'the last %d too many: %s' % (len(tail), tail[:32].hex())


def recounted(at, value):
    return (lambda data: data[:at] + struct.pack('<I', value) + data[at + 4:]), 'with the number %d put in at byte %d' % (value, at)


def ends_of_parts(plan):
    ends = [0]
    for part in bench.parts_of(plan):
        ends.append(ends[-1] + len(part))
    return ends


def counts_at(plan):
    """Where each section's count stands."""
    after_devices = 16 + sum(len(bench.device_bytes(d)) for d in plan.devices)
    return [8, 12, after_devices, after_devices + 4 + 8 * len(plan.attachments)]


def some_damage(dice, plan):
    kind, size = dice.pick(4), len(bytes_of(plan))
    if kind == 0:
        return cut(dice.one_of(*ends_of_parts(plan)[:-1]))
    if kind == 1:
        return cut(dice.pick(size))
    if kind == 2:
        return longer(dice.bytes(dice.one_of(1, 1, 4, 12, 40)))
    return recounted(dice.one_of(*counts_at(plan)), dice.one_of(0, 1, 2, 5, 33, 2**31, 2**32 - 1))


def some_case(dice):
    plan = some_plan(dice)
    total = MOST + dice.one_of(-1, 0, 0, 1, 2, 4464) if dice.chance(60) else 0
    return Case(plan, total, *(some_damage(dice, filled(plan, total)) if dice.chance(8) else WHOLE))


def boundary_cases(dice):
    """The sizes that a program may get wrong by one, whatever the seed."""
    plan = Plan(64, 2, ((4096, ()),), ((3, 1),), ())
    plan = plan._replace(commands=some_commands(dice, table_of(plan), 12))
    for total in (MOST - 1, MOST, MOST + 1, MOST + 2, 2 * MOST, 2 * MOST + 1, 3 * MOST):
        yield Case(plan, total, *WHOLE)
        yield Case(plan, total, *cut(total - 1))
        yield Case(plan, total, *cut(MOST))
        yield Case(plan, total, *longer(b'\0'))
    yield Case(plan, 0, *longer(bytes(2 * MOST)))                      # a whole plan, and far too much behind it
    for n in ends_of_parts(plan):
        yield Case(plan, 0, *cut(n))
    nothing = tuple((0x3B7F, b'', b'') for _ in range(MANY))
    yield Case(EMPTY._replace(commands=nothing), 0, *WHOLE)            # as many commands as fit: 5,459
    yield Case(EMPTY._replace(commands=nothing + nothing[:1]), 0, *WHOLE)
    yield Case(EMPTY, 0, *WHOLE)


def before_damage(case):
    return bytes_of(filled(case.plan, case.total))


def bytes_for(case):
    return case.damage(before_damage(case))


# ---- comparing
STUCK = 'no end within %d seconds\n' % WAIT


def said_by(written, status):
    """What a program wrote, and how it ended if not by itself."""
    return written.decode(errors='replace') + ('ended by signal %d\n' % -status if status < 0 else '')


def answer(program, data):
    """What the program writes for these bytes."""
    try:
        ended = subprocess.run([program], input=data, stdout=subprocess.PIPE, stderr=subprocess.DEVNULL, timeout=WAIT)
    except subprocess.TimeoutExpired:
        return STUCK
    return said_by(ended.stdout, ended.returncode)


def differs(program, case):
    data = bytes_for(case)
    return answer(program, data) != bench.run(data)


def fewer(things, still):
    """As few of the things as still hold: large pieces are left out first, then single ones."""
    size = len(things)
    while size:
        at = 0
        while at < len(things):
            rest = things[:at] + things[at + size:]
            if still(rest):
                things = rest
            else:
                at += size
        size //= 2
    return things


def shortened(program, case):
    """The case with every command, then every setup line left out that the difference does not need."""
    def with_(**changed):
        return case._replace(plan=case.plan._replace(**changed))
    for part in ('commands', 'attachments', 'devices'):
        things = fewer(getattr(case.plan, part), lambda rest: differs(program, with_(**{part: rest})))
        case = with_(**{part: things})
    for spaces in range(min(case.plan.spaces, 33)):
        if differs(program, with_(spaces=spaces)):
            return with_(spaces=spaces)
    return case


def first_difference(wanted, given):
    wanted, given = wanted.split('\n'), given.split('\n')
    k = next((k for k, (w, g) in enumerate(zip(wanted, given)) if w != g), min(len(wanted), len(given)))
    line = [lines[k] if k < len(lines) and lines[k] else '(nothing)' for lines in (wanted, given)]
    return 'line %d\n  model:   %s\n  program: %s' % (k + 1, *line)


def report(program, case):
    case = shortened(program, case)
    data = bytes_for(case)
    print('The shortest plan found that still differs, %d bytes%s:\n' % (len(data), ', ' + case.how if case.how else ''))
    print(disassemble(before_damage(case)))
    print(first_difference(bench.run(data), answer(program, data)))


def cases(seed, plans):
    """So many, the boundary ones first."""
    dice = Dice(seed)
    made = list(boundary_cases(dice))[:plans]
    yield from made
    for _ in range(plans - len(made)):
        yield some_case(dice)


def counted(said, results):
    if said == BAD:
        results['bad plan'] += 1
    for line in said.split('\n')[1:-1]:
        results[int(line.split()[2])] += 1


def given_arguments(does, **numbers):
    """The program, and numbers with what they are if not given. Without a program the script ends."""
    parser = argparse.ArgumentParser(description=does)
    parser.add_argument('--program', default=from_root('crates', 'bench', 'out', 'bench'), help='the built program (crates/bench/out/bench)')
    for name, number in numbers.items():
        parser.add_argument('--' + name, type=int, default=number)
    given = parser.parse_args()
    if not os.access(given.program, os.X_OK):
        print('%s: there is no program %s; rt run in crates/bench builds it' % (parser.prog, os.path.relpath(given.program)))
        sys.exit(2)
    given.program = os.path.abspath(given.program)
    return given


def main():
    given = given_arguments('Runs random plans by the bench program and by its model, and compares what they write.', seed=1, plans=3000)
    results = Counter()
    for k, case in enumerate(cases(given.seed, given.plans)):
        data = bytes_for(case)
        said = bench.run(data)
        if answer(given.program, data) != said:
            print('randomplans.py: plan %d of seed %d differs' % (k, given.seed))
            report(given.program, case)
            return 1
        counted(said, results)
    bad = results.pop('bad plan', 0)
    print('randomplans.py: %d plans alike, %d of them bad plans, %d commands' % (given.plans, bad, sum(results.values())))
    print('results  ' + ' '.join('%d:%d' % p for p in sorted(results.items(), reverse=True)))
    return 0


if __name__ == '__main__':
    sys.exit(main())
