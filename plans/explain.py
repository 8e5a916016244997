"""Why commands of a plan are refused, for plan.py explain: the plan is run, and what refused a MAP or a COPY is said in a sentence.

It is run by the proved entries where the archive for this machine is built and has iommufd_explain: a shared object is made of it. Else the model in
tests/ stands in for them. Both are asked the same things, and the sentences are made here.
"""
import ctypes
import os
import platform
import re
import struct
import subprocess
import sys
import tempfile

ROOT = os.path.join(os.path.dirname(os.path.abspath(__file__)), '..')
ALLOC, COPY, RANGES, MAP = 0x3B81, 0x3B83, 0x3B84, 0x3B85
NAMES = {MAP: 'a map', COPY: 'a copy'}
FRESH, BIND, ATTACH, CHARGE = 0, 1, 2, 5                               # kinds of host calls
HEAD, OBJECT, RECORD = 865, 216, 40                                    # words of a head; bytes of an object and of a mapping record


def archive():
    """In the folder that IOMMUFD_LIB names, or in this repository's build for the machine."""
    folder = os.environ.get('IOMMUFD_LIB') or os.path.join(ROOT, 'target', 'archives', platform.machine())
    return os.path.join(folder, 'libiommufd.a')


def has_entry(path):
    """Whether the archive can explain."""
    if not os.path.exists(path):
        return False
    told = subprocess.run(['nm', path], stdout=subprocess.PIPE, stderr=subprocess.DEVNULL, text=True)
    return bool(re.search(r' T iommufd_explain$', told.stdout, re.M))


def at(b, place, form):
    return struct.unpack_from('<' + form, b, place)


class Entries:
    """A table in memory, and the archive's entries on it."""
    said = 'by the entries of libiommufd.a'

    def __init__(self, path):
        with tempfile.TemporaryDirectory() as folder:
            made = os.path.join(folder, 'iommufd.so')
            subprocess.run(['gcc', '-shared', '-o', made, '-Wl,--whole-archive', path, '-Wl,--no-whole-archive'], check=True)
            self.library = ctypes.CDLL(made)
        self.head, self.records, self.index = ((ctypes.c_uint64 * n)() for n in (HEAD, 128 * RECORD // 8, 128))

    def enter(self, name, *rest):
        """An entry on the table; behind it come its own arguments: numbers of 32 bits, and buffers each with its size in bytes or words."""
        given = [ctypes.byref(self.head), ctypes.byref(self.records), ctypes.c_size_t(128), ctypes.byref(self.index), ctypes.c_size_t(128)]
        return getattr(self.library, name)(*given, *rest)

    def host(self, kind, *numbers):
        words = (ctypes.c_uint64 * 10)(*numbers)
        result = self.enter('iommufd_host', ctypes.c_uint32(kind), ctypes.byref(words), ctypes.c_size_t(10))
        return result, words[0]

    def fresh(self, limit):
        return self.host(FRESH, limit)[0]

    def bind(self, bitmap, ranges):
        starts, lasts = ([r[k] for r in ranges[:4]] for k in (0, 1))
        return self.host(BIND, bitmap, len(ranges), *(starts + [0] * 4)[:4], *(lasts + [0] * 4)[:4])[0]

    def attach(self, device, space):
        return self.host(ATTACH, device, space)[0]

    def charge(self):
        return self.host(CHARGE)[1]

    def call(self, request, cmd, area, entry='iommufd_call'):
        """The result, and the command afterwards."""
        lent, room = ((ctypes.c_char * max(len(b), 1)).from_buffer_copy(b or b'\0') for b in (cmd, area))
        sizes = [ctypes.c_size_t(len(b)) for b in (cmd, area)]
        result = self.enter(entry, ctypes.c_uint32(request), ctypes.byref(lent), sizes[0], ctypes.byref(room), sizes[1])
        return result, bytes(lent)[:len(cmd)]

    def explain(self, request, cmd):
        lent = (ctypes.c_char * max(len(cmd), 1)).from_buffer_copy(cmd or b'\0')
        words = (ctypes.c_uint64 * 5)()
        result = self.enter('iommufd_explain', ctypes.c_uint32(request), ctypes.byref(lent), ctypes.c_size_t(len(cmd)), ctypes.byref(words))
        return tuple(words) if result == 0 else None

    def alignment(self, space):
        """Asked by IOVA_RANGES, which tells it also where there is no room for a range."""
        return at(self.call(RANGES, struct.pack('<IIIIQQ', 32, space, 0, 0, 0, 0), b'', 'iommufd_preview')[1], 24, 'Q')[0]

    def record(self, number):
        address, length = at(bytes(self.records), RECORD * (number - 1) + 16, 'QQ')
        return address, address + length - 1

    def reserved(self, number):
        count, = at(bytes(self.head), 8 + OBJECT * (number - 1) + 16, 'I')
        ends = at(bytes(self.head), 8 + OBJECT * (number - 1) + 24, '8Q')
        return list(zip(ends[:4], ends[4:]))[:count]


class Model:
    """A table by value, and the model in tests/ on it."""
    said = 'by the model in tests/'

    def __init__(self):
        sys.path.insert(0, os.path.join(ROOT, 'tests'))
        import bench
        import model
        self.bench, self.model, self.table = bench, model, None

    def made(self, call, *given):
        """Of a call that gives a result and a table."""
        try:
            result, self.table = call(self.table, *given)
            return result
        except self.model.Refused as refused:
            return -refused.errno

    def fresh(self, limit):
        self.table = self.model.Table(limit, (self.model.RELEASED,) * 32, (self.model.UNMAPPED,) * 128)
        return -22 if limit > 2**36 else 0

    def bind(self, bitmap, ranges):
        return self.made(self.model.model_bind, bitmap, len(ranges), [a for a, _ in ranges], [b for _, b in ranges])

    def attach(self, device, space):
        return self.made(self.model.model_attach, device, space)

    def charge(self):
        return self.model.charge(self.table)

    def call(self, request, cmd, area):
        errno, self.table = self.bench.step(self.table, request, cmd, area)
        return -errno, cmd

    def explain(self, request, cmd):
        return tuple(self.model.explain(self.table, request, cmd)) if request in NAMES else None

    def alignment(self, space):
        return self.model.alignment_of(self.table, space)

    def record(self, number):
        m = self.table.mappings[number - 1]
        return m.address, m.address + m.length - 1

    def reserved(self, number):
        return [(r[0], r[-1]) for r in self.model.reserved(self.table.objects[number - 1])]


# ---- sentences
def errno_texts():
    """What each errno means, as the header has it."""
    with open(os.path.join(ROOT, 'include', 'iommufd.h')) as file:
        header = file.read()
    numbers = dict(re.findall(r'#define (IOMMUFD_E\w+) (\d+)', header))
    return {int(numbers[name]): text for name, text in re.findall(r'case (IOMMUFD_E\w+): return "([^"]*)";', header)}


def span(ends):
    return '%#x to %#x' % ends


def of_length(start, length):
    return start, start + length - 1


class Asked:
    """The numbers of a MAP or a COPY with all its bytes."""

    def __init__(self, request, cmd):
        self.size, self.flags, self.space, self.other, one, two, three = at(cmd, 0, 'IIIIQQQ')
        self.memory, self.length, self.address = (one, two, three) if request == MAP else (three, one, two)
        self.range = of_length(self.address, self.length)
        self.source = of_length(self.memory, self.length)


def of_bytes(request, cmd, code):
    """The reasons that the bytes as a whole give."""
    if code == 1:
        return '%d bytes are lent, and the size field alone has 4' % len(cmd)
    size = at(cmd, 0, 'I')[0]
    if code == 2:
        return 'the size field says %d, and %s has 40 bytes' % (size, NAMES[request])
    if code == 3:
        return 'the size field says %d, and %d bytes are lent' % (size, len(cmd))
    first = next(k for k in range(40, size) if cmd[k])
    return 'byte %d is not zero, and %s has 40 bytes' % (first, NAMES[request])


def of_flags(asked):
    if asked.flags > 7:
        return 'flags %#x has an unknown one' % asked.flags
    return 'the reserved field is %#x' % asked.other


def met(ranges, asked):
    """The first of them that shares an address with the range."""
    return next(r for r in ranges if r[0] <= asked[1] and asked[0] <= r[1])


def longest(asked, start, length):
    if length == 0:
        return '%#x bytes asked; no multiple of the alignment is free' % asked.length
    return '%#x bytes asked; the longest free run is %#x bytes at %#x' % (asked.length, length, start)


def over_limit(engine, asked, limit):
    pages = asked.source[1] // 4096 - asked.source[0] // 4096 + 1
    return 'a charge of %d and %d more for its pages pass the limit of %d' % (engine.charge(), pages, limit)


def reason(engine, limit, request, cmd, words):
    """The sentence for what was told of a MAP or a COPY."""
    code, _, named, start, length = words
    if code <= 4:
        return of_bytes(request, cmd, code)
    a = Asked(request, cmd)
    return {
        5: lambda: of_flags(a),
        6: lambda: 'neither the right to read nor to write is asked',
        7: lambda: '%#x bytes asked; a length is from 1 to 2^40' % a.length,
        8: lambda: '%#x bytes from memory %#x on pass the last address' % (a.length, a.memory),
        9: lambda: '%#x bytes from the source %#x on pass the last address' % (a.length, a.memory),
        10: lambda: '%#x bytes from %#x on pass the last address' % (a.length, a.address),
        11: lambda: 'there is no space %d' % a.space,
        12: lambda: 'there is no source space %d' % a.other,
        13: lambda: 'space %d has no mapping of exactly %s' % (a.other, span(a.source)),
        14: lambda: 'the map that %s of space %d goes back to was not writeable' % (span(a.source), a.other),
        15: lambda: '%s does not begin and end at the alignment %#x of space %d' % (span(a.range), engine.alignment(a.space), a.space),
        16: lambda: '%s touches what device %d reserves (%s)' % (span(a.range), named, span(met(engine.reserved(named), a.range))),
        17: lambda: '%s touches mapping record %d (%s)' % (span(a.range), named, span(engine.record(named))),
        18: lambda: '%#x bytes asked; the alignment of space %d is %#x' % (a.length, a.space, engine.alignment(a.space)),
        19: lambda: longest(a, start, length),
        20: lambda: 'all 128 mapping records are in use',
        21: lambda: over_limit(engine, a, limit),
    }[code]()


# ---- a plan's things, one after the other
def engine_for(model):
    """The entries where they can be had. gcc says itself why no shared object can be made of an archive."""
    if not model and has_entry(archive()):
        try:
            return Entries(archive())
        except (OSError, subprocess.CalledProcessError) as wrong:
            print('explain.py: %s' % wrong, file=sys.stderr)
    return Model()


class Running:
    """A plan on a table, thing by thing. Each gives the sentence of what is refused, or nothing."""

    def __init__(self, model=False):
        self.engine = engine_for(model)
        self.texts, self.limit = errno_texts(), 0

    def told(self, result):
        return None if result >= 0 else '%d: %s' % (result, self.texts[-result])

    def fresh(self, limit):
        self.limit = limit
        return self.told(self.engine.fresh(limit))

    def space(self):
        return self.told(self.engine.call(ALLOC, struct.pack('<III', 12, 0, 0), b'')[0])

    def device(self, bitmap, ranges):
        return self.told(self.engine.bind(bitmap, ranges))

    def attach(self, device, space):
        return self.told(self.engine.attach(device, space))

    def command(self, request, cmd, area):
        words = self.engine.explain(request, cmd) if request in NAMES else None
        said = reason(self.engine, self.limit, request, cmd, words) if words and words[0] else None
        result = self.engine.call(request, cmd, area)[0]
        if words and words[1] != -result:
            raise RuntimeError('%d was told of a command that was answered with %d' % (-words[1], result))
        return '%d: %s' % (result, said) if said else self.told(result)
