#!/usr/bin/env python3
"""Plans of the bench program, as a text for people and as the bytes that it reads.

    plan.py assemble FILE.plan > plan.bin     FILE may be - for standard input
    plan.py disassemble < plan.bin
    plan.py explain FILE.plan                 with what refused each command

One thing a line; # begins a comment. The order is limit, spaces, devices,
attachments, commands. Ids count from 1, first the spaces, then the devices.

    limit N                           pages that all mappings may charge
    space, or spaces N                one space, or so many
    device BITMAP [A-B ..]            its page sizes, the ranges it reserves
    attach DEVICE SPACE
    map space=N flags=F memory=N length=N [address=N]
    copy source=N from=N target=N [to=N] flags=F length=N
    unmap space=N address=N length=N, or unmap space=N all
    alloc, or destroy ID              one more space, or one thing less
    allow space=N [A-B ..]            no range at all takes the list away
    ranges space=N count=N            with room for so many ranges
    raw REQUEST [command=HEX] [area=HEX]      for any other bytes

N is 4096, 0x1000 or 2^12. A-B is a range, B its last address. F is some of
fixed,write,read or a number: read,0x8; a fixed map or copy needs its address
(address=, to=). HEX is 280000ff, or in parts 28,00*38,ff with 38 bytes 00.
"""
import re
import struct
import sys

DESTROY, ALLOC, ALLOW, COPY, RANGES, MAP, UNMAP = range(0x3B80, 0x3B87)
FLAGS = {'fixed': 1, 'write': 2, 'read': 4}
TOP = 2**64 - 1
MOST = 65536                                                           # bytes that the program reads
ONE_NUMBER = r'(?:0x[0-9a-fA-F]+|2\^[0-9]+|[0-9]+)'


class Wrong(Exception):
    """What cannot be read, and why."""


def expect(holds, why, *given):
    if not holds:
        raise Wrong(why % given)


# ---- the words of a line
def number(word, bits):
    expect(re.fullmatch(ONE_NUMBER, word), '%s is not a number', word)
    expect(len(word) <= 80, 'a number of %d figures does not fit in %d bits', len(word), bits)
    if word.startswith('2^'):
        expect(len(word) < 5, '%s does not fit in %d bits', word, bits)
        value = 2**int(word[2:])
    else:
        value = int(word, 16 if word.startswith('0x') else 10)
    expect(value < 2**bits, '%s does not fit in %d bits', word, bits)
    return value


def a_range(word):
    ends = re.fullmatch('(%s)-(%s)' % (ONE_NUMBER, ONE_NUMBER), word)
    expect(ends, '%s is not a range A-B', word)
    return struct.pack('<QQ', number(ends[1], 64), number(ends[2], 64))


def flags_of(word):
    """The bits of a list of names and numbers."""
    bits = 0
    for part in word.split(','):
        expect(part in FLAGS or re.fullmatch(ONE_NUMBER, part), '%s is no flag: fixed, write, read or a number', part)
        bits |= FLAGS[part] if part in FLAGS else number(part, 32)
    return bits


def bytes_of(word):
    """Hexadecimal bytes in parts; a part may be one byte and how often it stands there."""
    made = b''
    for part in word.split(','):
        repeated = re.fullmatch(r'([0-9a-fA-F]{2})\*([0-9]{1,6})', part)
        expect(repeated or re.fullmatch('(?:[0-9a-fA-F]{2})*', part), '%s is not a row of hexadecimal bytes', part)
        made += bytes.fromhex(repeated[1]) * int(repeated[2]) if repeated else bytes.fromhex(part)
    return made


def fields(words, needed, optional=''):
    """The values of the words key=value, as text. Each needed key once, each optional one at most once, no other."""
    found = {}
    for word in words:
        key, equals, value = word.partition('=')
        expect(equals and key in needed.split() + optional.split(), '%s has no place here', word)
        expect(key not in found, '%s= stands here twice', key)
        found[key] = value
    for key in needed.split():
        expect(key in found, '%s= is missing', key)
    return found


def exactly(words, n, form):
    expect(len(words) == n, 'the form is: %s', form)
    return words


# ---- a line's bytes: how many things they are, and the bytes
def limit_line(words):
    return 1, struct.pack('<Q', number(*exactly(words, 1, 'limit N'), 64))


def space_line(words):
    exactly(words, 0, 'space')
    return 1, b''


def spaces_line(words):
    return number(*exactly(words, 1, 'spaces N'), 32), b''


def device_line(words):
    expect(words, 'the form is: device BITMAP [A-B ..]')
    return 1, struct.pack('<QI', number(words[0], 64), len(words) - 1) + b''.join(map(a_range, words[1:]))


def attach_line(words):
    device, space = exactly(words, 2, 'attach DEVICE SPACE')
    return 1, struct.pack('<II', number(device, 32), number(space, 32))


def command(request, cmd, area=b''):
    return 1, struct.pack('<III', request, len(cmd), len(area)) + cmd + area


def landing(found, key, flags):
    """Where a map or copy is to land. The program takes no notice of it unless it is fixed, so then alone it must be there."""
    expect(key in found or not flags & FLAGS['fixed'], '%s= is missing, and flags has fixed', key)
    return number(found.get(key, '0'), 64)


def map_line(words):
    found = fields(words, 'space flags memory length', 'address')
    flags, space = flags_of(found['flags']), number(found['space'], 32)
    memory, length = number(found['memory'], 64), number(found['length'], 64)
    return command(MAP, struct.pack('<IIIIQQQ', 40, flags, space, 0, memory, length, landing(found, 'address', flags)))


def copy_line(words):
    found = fields(words, 'source from target flags length', 'to')
    flags, target, source = flags_of(found['flags']), number(found['target'], 32), number(found['source'], 32)
    length, origin = number(found['length'], 64), number(found['from'], 64)
    return command(COPY, struct.pack('<IIIIQQQ', 40, flags, target, source, length, landing(found, 'to', flags), origin))


def unmap_line(words):
    if words.count('all') == 1:
        words = [w for w in words if w != 'all'] + ['address=0', 'length=%d' % TOP]
    found = fields(words, 'space address length')
    return command(UNMAP, struct.pack('<IIQQ', 24, number(found['space'], 32), number(found['address'], 64), number(found['length'], 64)))


def alloc_line(words):
    exactly(words, 0, 'alloc')
    return command(ALLOC, struct.pack('<III', 12, 0, 0))


def destroy_line(words):
    return command(DESTROY, struct.pack('<II', 8, number(*exactly(words, 1, 'destroy ID'), 32)))


def allow_line(words):
    keyed = [w for w in words if '=' in w]
    ranges = [a_range(w) for w in words if '=' not in w]
    space = number(fields(keyed, 'space')['space'], 32)
    return command(ALLOW, struct.pack('<IIIIQ', 24, space, len(ranges), 0, 0), b''.join(ranges))


def ranges_line(words):
    found = fields(words, 'space count')
    space, count = number(found['space'], 32), number(found['count'], 32)
    expect(16 * count <= MOST, 'room for %d ranges does not fit into a plan; raw can ask for them without', count)
    return command(RANGES, struct.pack('<IIIIQQ', 32, space, count, 0, 0, 0), bytes(16 * count))


def raw_line(words):
    expect(words, 'the form is: raw REQUEST [command=HEX] [area=HEX]')
    found = fields(words[1:], '', 'command area')
    return command(number(words[0], 32), bytes_of(found.get('command', '')), bytes_of(found.get('area', '')))


SECTIONS = ('limit', 'spaces', 'devices', 'attachments', 'commands')
LINES = {
    'limit': (0, limit_line), 'space': (1, space_line), 'spaces': (1, spaces_line), 'device': (2, device_line), 'attach': (3, attach_line),
    'map': (4, map_line), 'copy': (4, copy_line), 'unmap': (4, unmap_line), 'alloc': (4, alloc_line), 'destroy': (4, destroy_line),
    'allow': (4, allow_line), 'ranges': (4, ranges_line), 'raw': (4, raw_line),
}


def line_bytes(words):
    """The section of a line, how many things it has of it, and their bytes."""
    expect(words[0] in LINES, '%s begins no line; plan.py --help has the forms', words[0])
    section, form = LINES[words[0]]
    return (section,) + form(words[1:])


def assemble(text):
    """The bytes of a plan. What is wrong is raised with its line."""
    counts, bodies, now = [0] * 5, [b''] * 5, 0
    for n, line in enumerate(text.split('\n'), 1):
        words = line.split('#')[0].split()
        if not words:
            continue
        try:
            section, count, body = line_bytes(words)
            expect(section == 0 or counts[0], 'a plan begins with its limit')
            expect(section != 0 or not counts[0], 'a plan has one limit')
            expect(section >= now, '%s come before %s', SECTIONS[section], SECTIONS[now])
            counts[section], bodies[section], now = counts[section] + count, bodies[section] + body, section
            expect(counts[section] < 2**32, 'too many %s', SECTIONS[section])
        except Wrong as wrong:
            raise Wrong('line %d: %s' % (n, wrong)) from None
    expect(counts[0], 'line %d: the text ends without a limit', text.count('\n') + 1)
    return bodies[0] + b''.join(struct.pack('<I', counts[k]) + bodies[k] for k in range(1, 5))


# ---- back to text
def said_flags(flags):
    names = [name for name, bit in FLAGS.items() if flags & bit]
    rest = flags & ~7
    return ','.join(names + (['%#x' % rest] if rest or not names else []))


def said_range(area):
    return '%#x-%#x' % struct.unpack('<QQ', area)


def said_ranges(area):
    return ''.join(' ' + said_range(area[k:k + 16]) for k in range(0, len(area) - 15, 16))


def said_landing(key, flags, address):
    return ' %s=%#x' % (key, address) if address or flags & FLAGS['fixed'] else ''


def said_map(cmd, area):
    _, flags, space, _, memory, length, address = struct.unpack('<IIIIQQQ', cmd)
    return 'map space=%d flags=%s memory=%#x length=%#x' % (space, said_flags(flags), memory, length) + said_landing('address', flags, address)


def said_copy(cmd, area):
    _, flags, target, source, length, address, origin = struct.unpack('<IIIIQQQ', cmd)
    to = said_landing('to', flags, address)
    return 'copy source=%d from=%#x target=%d%s flags=%s length=%#x' % (source, origin, target, to, said_flags(flags), length)


def said_unmap(cmd, area):
    _, space, address, length = struct.unpack('<IIQQ', cmd)
    return 'unmap space=%d ' % space + ('all' if (address, length) == (0, TOP) else 'address=%#x length=%#x' % (address, length))


def said_destroy(cmd, area):
    return 'destroy %d' % struct.unpack('<II', cmd)[1]


def said_allow(cmd, area):
    return 'allow space=%d' % struct.unpack('<IIIIQ', cmd)[1] + said_ranges(area)


def said_listing(cmd, area):
    return 'ranges space=%d count=%d' % struct.unpack('<IIIIQQ', cmd)[1:3]


SAID = {MAP: (40, said_map), COPY: (40, said_copy), UNMAP: (24, said_unmap), ALLOC: (12, lambda cmd, area: 'alloc'), DESTROY: (8, said_destroy),
        ALLOW: (24, said_allow), RANGES: (32, said_listing)}


def said_bytes(b):
    """Hexadecimal bytes, a long run of one byte told by its number, so that a large area is still one line to read."""
    parts, at = [], 0
    for run in re.finditer(rb'(.)\1{15,}', b, re.S):
        parts += [b[at:run.start()].hex(), '%s*%d' % (run[1].hex(), len(run[0]))]
        at = run.end()
    return ','.join(p for p in parts + [b[at:].hex()] if p)


def said_raw(request, cmd, area):
    parts = ['raw %#x' % request]
    parts += ['command=' + said_bytes(cmd)] if cmd else []
    parts += ['area=' + said_bytes(area)] if area else []
    return ' '.join(parts)


def said_command(request, cmd, area):
    """Its named form, if that stands for exactly these bytes; else as raw bytes."""
    size, say = SAID.get(request, (None, None))
    if len(cmd) == size:
        line = say(cmd, area)
        try:
            if line_bytes(line.split())[1:] == command(request, cmd, area):
                return line
        except Wrong:
            pass                                                       # a number of ranges that the named form does not have
    return said_raw(request, cmd, area)


class Reader:
    """Takes numbers and bytes off a plan from its beginning."""

    def __init__(self, data):
        self.data, self.at, self.part = data, 0, 'limit'

    def take(self, n):
        expect(self.at + n <= len(self.data), 'not a whole plan: it is cut among its %s, at byte %d', self.part, len(self.data))
        self.at += n
        return self.data[self.at - n:self.at]

    def u32(self):
        return struct.unpack('<I', self.take(4))[0]

    def u64(self):
        return struct.unpack('<Q', self.take(8))[0]

    def count(self, part):
        """Of the section that begins here."""
        self.part = part
        return self.u32()


def read_device(reader):
    bitmap, count = reader.u64(), reader.u32()
    return 'device %#x' % bitmap + said_ranges(reader.take(16 * count))


def read_command(reader):
    request, length, room = reader.u32(), reader.u32(), reader.u32()
    return said_command(request, reader.take(length), reader.take(room))


def noted(line, width, note):
    return '%s # %s' % (line.ljust(width), note)


def disassemble(data):
    """The text of a whole plan, with the id or the step beside each line."""
    reader = Reader(data)
    lines = ['limit %d' % reader.u64()]
    spaces = reader.count('spaces')
    lines += [noted('space', 36, 'id %d' % (k + 1)) for k in range(spaces)] if spaces <= 32 else ['spaces %d' % spaces]
    lines += [noted(read_device(reader), 36, 'id %d' % (spaces + k + 1)) for k in range(reader.count('devices'))]
    lines += ['attach %d %d' % (reader.u32(), reader.u32()) for _ in range(reader.count('attachments'))]
    lines += [noted(read_command(reader), 76, 'step %d' % k) for k in range(reader.count('commands'))]
    expect(reader.at == len(data), 'not a whole plan: it ends at byte %d, and %d are there', reader.at, len(data))
    return '\n'.join(lines) + '\n'


# ---- running
def refused(running, words):
    """The things of a line are done; what is said of a refused one, or nothing."""
    section, count, body = line_bytes(words)
    reader = Reader(body)
    if section == 0:
        return running.fresh(reader.u64())
    if section == 1:
        return next(filter(None, (running.space() for _ in range(count))), None)
    if section == 2:
        bitmap, many = reader.u64(), reader.u32()
        return running.device(bitmap, [(reader.u64(), reader.u64()) for _ in range(many)])
    if section == 3:
        return running.attach(reader.u32(), reader.u32())
    request, length, room = reader.u32(), reader.u32(), reader.u32()
    return running.command(request, reader.take(length), reader.take(room))


def explained(text, running):
    """The text of a plan, and below each command that is refused why, as a comment: it is still the same plan. A setup that is refused ends it."""
    short_enough(assemble(text))                                       # what cannot be read is told with its line
    made = []
    for line in text.rstrip('\n').split('\n'):
        words = line.split('#')[0].split()
        said = refused(running, words) if words else None
        made += [line] + (['    # ' + said] if said else [])
        if said and words[0] in LINES and LINES[words[0]][0] < 4:
            made.append('    # bad plan: nothing is run')
            break
    return '\n'.join(made) + '\n'


# ---- the three commands
def text_of(name):
    """Read as bytes: a comment may hold anything."""
    if name == '-':
        return sys.stdin.buffer.read().decode(errors='replace')
    with open(name, 'rb') as file:
        return file.read().decode(errors='replace')


def short_enough(data):
    expect(len(data) <= MOST, '%d bytes; a plan has at most %d', len(data), MOST)
    return data


def main(given):
    if given in (['--help'], ['-h'], ['help']):
        print(__doc__.strip())
        return 0
    if given[:1] in (['assemble'], ['explain']) and len(given) == 2:
        name = given[1]
    elif given[:2] == ['explain', '--model'] and len(given) == 3:
        name = given[2]
    elif given == ['disassemble']:
        name = 'standard input'
    else:
        print('plan.py assemble FILE.plan > plan.bin, or disassemble < plan.bin, or explain [--model] FILE.plan, or --help', file=sys.stderr)
        return 2
    try:
        if given[0] == 'assemble':
            sys.stdout.buffer.write(short_enough(assemble(text_of(name))))
        elif given[0] == 'explain':
            from explain import Running
            running = Running(model='--model' in given)
            text = explained(text_of(name), running)
            print('plan.py: run ' + running.engine.said, file=sys.stderr)
            sys.stdout.write(text)
        else:
            sys.stdout.write(disassemble(short_enough(sys.stdin.buffer.read())))
    except (Wrong, OSError) as wrong:
        print('plan.py: %s: %s' % (name, wrong.strerror if isinstance(wrong, OSError) else wrong), file=sys.stderr)
        return 1
    return 0


if __name__ == '__main__':
    sys.exit(main(sys.argv[1:]))
