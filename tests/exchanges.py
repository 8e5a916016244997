#!/usr/bin/env python3
"""Whether an exchange in include/iommufd.h would be noticed.

  exchanges.py               copies of the header with one exchange each; every one has to be noticed: by the compiler, by tests/header/pins.c, or by the check below
  exchanges.py --all         the same with more exchanges: also of parts with different types, of the parameters of a table's functions, of the texts, of two
                             reasons that are no neighbours
  exchanges.py --entries     only the check of the header as it stands: its prototypes have the names, types and order of the proved entries' parameters
                             (crates/boundary/src/lib.rt), and pins.c uses every name of the header

With --each the first two name every exchange and what noticed it. They need target/archives/x86_64/libiommufd.a. Status 0 if every exchange was noticed, else 1.
"""
import os
import re
import subprocess
import sys
import tempfile
from collections import Counter, namedtuple
from itertools import combinations

ROOT = os.path.dirname(os.path.dirname(os.path.abspath(__file__)))
HEADER = os.path.join(ROOT, 'include', 'iommufd.h')
PINS = os.path.join(ROOT, 'tests', 'header', 'pins.c')
ENTRIES = os.path.join(ROOT, 'crates', 'boundary', 'src', 'lib.rt')
ARCHIVE = os.path.join(ROOT, 'target', 'archives', 'x86_64', 'libiommufd.a')
COMPILE = ['gcc', '-std=c11', '-O0', '-Wall', '-Wextra', '-Wpedantic', '-Werror']

# What nothing that is linked or run can tell, each with its reason.
BY_NAME = 'no entry takes it: the inline functions hand on its fields by their names, so their order is the caller\'s own'
BOTH_128 = 'each has to be 128 or the table is bad, so that no answer tells one from the other'
EXEMPT = {
    'fields: iommufd_table: head, mappings': BY_NAME,
    'fields: iommufd_table: head, index': BY_NAME,
    'fields: iommufd_table: mappings, index': BY_NAME,
    'fields: iommufd_reserved: count, spare': BY_NAME,
    'fields: iommufd_reserved: count, starts': BY_NAME,
    'fields: iommufd_reserved: starts, lasts': BY_NAME,
    'fields: iommufd_number: result, value': BY_NAME,
}
for _of in ('fresh', 'call', 'preview', 'explain', 'bind', 'attach', 'detach', 'reach', 'charge', 'next'):
    EXEMPT[f'handed on: iommufd_table_{_of}: IOMMUFD_MAPPINGS, IOMMUFD_INDEX_WORDS'] = BOTH_128
# Constants that stand for nothing an entry does: the guard, the checks of size and alignment, and the stack, which tests/archive.py measures.
ASIDE = {'IOMMUFD_H', 'IOMMUFD_SIZE', 'IOMMUFD_ALIGN', 'IOMMUFD_STACK'}

# `wide` are those that only --all tries.
Exchange = namedtuple('Exchange', 'name text wide')
# A part of the header: its name, where it stands, and its type; two of one type are easily taken for one another.
Part = namedtuple('Part', 'name start end type')


class Fault(Exception):
    pass


def read(path):
    with open(path) as f:
        return f.read()


# ---- the parts of the header

def split(text, start, end):
    """What stands between commas, from start to end: (words, start, end) of each."""
    at = start
    for words in text[start:end].split(','):
        left = at + len(words) - len(words.lstrip())
        yield words.strip(), left, left + len(words.strip())
        at += len(words) + 1


def structs(text):
    """The fields of each struct."""
    for s in re.finditer(r'^struct (\w+) \{\n(.*?)^\};', text, re.M | re.S):
        fields = []
        for f in re.finditer(r'^\t((?:struct )?\w+) (\w+)(\[\w+\])?;', s[2], re.M):
            fields.append(Part(f[2], s.start(2) + f.start(1), s.start(2) + f.end() - 1, f[1] + (f[3] or '')))
        if len(fields) != s[2].count('\n'):
            raise Fault(f'struct {s[1]} has a line that is no field')
        yield s[1], fields


def constants(text):
    """The values of the constants, in the groups in which they stand: lines one after another, or one enum."""
    found = set()
    for block in re.finditer(r'(?:^#define \w+ \S+(?: +/\*.*\*/)?\n)+', text, re.M):
        group = [Part(d[1], block.start() + d.start(2), block.start() + d.end(2), '')
                 for d in re.finditer(r'^#define (\w+) (\S+)', block[0], re.M) if d[1] not in ASIDE]
        found |= {c.name for c in group}
        yield group
    for block in re.finditer(r'^enum \w+ \{\n(.*?)^\};', text, re.M | re.S):
        yield [Part(c[1], block.start(1) + c.start(2), block.start(1) + c.end(2), '') for c in re.finditer(r'^\t(\w+) = (\w+),', block[1], re.M)]
    every = set(re.findall(r'^#define (IOMMUFD_\w+)', text, re.M)) - ASIDE
    if found != every:
        raise Fault(f'no value was found for {sorted(every - found)}')


def texts(text):
    """The texts of the errnos and of the reasons."""
    return [Part(c[1], c.start(2), c.end(2), '') for c in re.finditer(r'^\tcase (\w+): return (".*");$', text, re.M)]


def typed(words):
    """The type of a parameter: all but its name."""
    return re.sub(r'\w+$', '', words).strip()


PROTOTYPE = r'^[a-z][\w ]*\b(iommufd_\w+)\(([^)]*)\);'


def parameters(text, start, end):
    return [Part(re.search(r'\w+$', w)[0], a, b, typed(w)) for w, a, b in split(text, start, end)]


def prototypes(text):
    """The parameters of each entry."""
    for p in re.finditer(PROTOTYPE, text, re.M):
        yield p[1], parameters(text, *p.span(2))


# What an inline function is made of: its name, its parameters, what it hands on to which function, its list of words, and where it reads the first of them.
Inline = namedtuple('Inline', 'name parameters given words answers')
INLINE = r'^static inline [^;{]*?\b(iommufd_\w+)\(([^)]*)\)\n\{\n(.*?)^\}'


def inlines(text):
    found = list(re.finditer(INLINE, text, re.M | re.S))
    if len(found) != text.count('static inline'):
        raise Fault('an inline function was not found')
    types = {name: [p.type for p in of] for name, of in prototypes(text)} | {f[1]: [p.type for p in parameters(text, *f.span(2))] for f in found}
    for f in found:
        given, words, answers = [], [], []
        body = slice(*f.span(3))
        for call in re.compile(r'\b(iommufd_\w+)\((.*?)\);', re.S).finditer(text, body.start, body.stop):
            given += [Part(v, a, b, t) for (v, a, b), t in zip(split(text, *call.span(2)), types[call[1]], strict=True)]
        for listed in re.compile(r'uint64_t words\[IOMMUFD_HOST_WORDS\] = \{(.*?)\};', re.S).finditer(text, body.start, body.stop):
            words += [Part(v, a, b, '') for v, a, b in split(text, *listed.span(1)) if v]
        for answer in re.compile(r'\bwords\[0\]').finditer(text, body.start, body.stop):
            answers.append(Part('words[0]', *answer.span(), ''))
        yield Inline(f[1], parameters(text, *f.span(2)), given, words, answers)


# ---- the exchanges

def exchanged(text, one, other):
    """The text with two parts in each other's place."""
    one, other = sorted((one, other), key=lambda part: part.start)
    return text[:one.start] + text[other.start:other.end] + text[one.end:other.start] + text[one.start:one.end] + text[other.end:]


# Of more parts than these only neighbours are tried without --all: all pairs of the 22 reasons would be a third of all exchanges.
LONG = 16


def pairs(text, name, parts, wide=False):
    for (i, one), (k, other) in combinations(enumerate(parts), 2):
        if one.name != other.name and text[one.start:one.end] != text[other.start:other.end]:
            far = len(parts) > LONG and k > i + 1
            yield Exchange(f'{name}: {one.name}, {other.name}', exchanged(text, one, other), wide or far or one.type != other.type)


def further(text, of):
    """The words of an inline function one place further, and its answer from the next word; those of charge are none, those of bind fill their places."""
    if 0 < len(of.words) < 10 and of.words[0].name != '0':
        yield Exchange(f'one further: words of {of.name}', text[:of.words[0].start] + '0, ' + text[of.words[0].start:], False)
    for a in of.answers:
        yield Exchange(f'one further: answer of {of.name}', text[:a.start] + 'words[1]' + text[a.end:], False)


def exchanges(text):
    for of, fields in structs(text):
        yield from pairs(text, 'fields: ' + of, fields)
    for group in constants(text):
        yield from pairs(text, 'values', group)
        for c in group:
            value, suffix = re.fullmatch(r'(\w+?)(u?)', text[c.start:c.end]).groups()
            yield Exchange(f'one more: {c.name}', text[:c.start] + f'{int(value, 0) + 1}{suffix}' + text[c.end:], False)
    for of in inlines(text):
        yield from pairs(text, 'words: ' + of.name, of.words)
        yield from further(text, of)
        yield from pairs(text, 'handed on: ' + of.name, of.given)
        yield from pairs(text, 'parameters: ' + of.name, of.parameters, of.name.startswith('iommufd_table_'))
    for of, named in prototypes(text):
        yield from pairs(text, 'prototypes: ' + of, named)
    yield from pairs(text, 'texts', texts(text), True)


# ---- the check of the header as it stands

# Head and explanation are structs in C and their words in the proofs: that they are the same memory is what pins.c shows of each field.
C_TYPES = {
    '&mut [u64; 865]': 'struct iommufd_head *', '&[u64; 865]': 'const struct iommufd_head *',
    '&mut [Mapping]': 'struct iommufd_mapping *', '&[Mapping]': 'const struct iommufd_mapping *',
    '&mut [u64]': 'uint64_t *', '&[u64]': 'const uint64_t *', '&mut [u8]': 'void *', '&[u8]': 'const void *', 'u32': 'uint32_t ', 'i32': 'int32_t ',
    '&mut [u64; 5]': 'struct iommufd_explanation *',
}
# The header's names where they are longer; a slice is an address and a length.
NAMES = {'h': ['head'], 'ms': ['mappings', 'count'], 'beside': ['beside', 'beside_count'], 'cmd': ['command', 'command_size'], 'area': ['area', 'area_size'],
         'words': ['words', 'words_count']}


def proved():
    """The prototypes of the proved entries."""
    for e in re.finditer(r'#\[unsafe\(no_mangle\)\]\npub extern "C" fn (\w+)(?:<\'\w+>)?\(([^)]*)\) -> (\w+)', re.sub(r"&'\w+ ", '&', read(ENTRIES))):
        given = []
        for name, kind in re.findall(r'(\w+): ([^,]+?)\s*(?:,|$)', e[2]):
            names = ['explanation'] if kind == '&mut [u64; 5]' else NAMES.get(name, [name])
            given += [C_TYPES[kind] + names[0]] + ['size_t ' + n for n in names[1:]]
        yield f'{C_TYPES[e[3]]}{e[1]}({", ".join(given)});'


def entries_differ(text):
    """How the prototypes differ from those of the proved entries, or None."""
    said = [re.sub(r'\s+', ' ', p[0]) for p in re.finditer(PROTOTYPE, text, re.M)]
    for s in said:
        if s not in PROVED:
            return f'no proved entry is {s}'
    for p in PROVED:
        if p not in said:
            return f'no prototype says {p}'


def unused(text):
    """The names of the header that pins.c does not use."""
    names = {f.name for _, fields in structs(text) for f in fields} | {c.name for group in constants(text) for c in group}
    names |= set(re.findall(r'\b(iommufd_\w+)\(', text)) | set(re.findall(r'^extern .*?\b(\w+)(?:\[\])?;', text, re.M))
    return sorted(names - set(re.findall(r'\w+', read(PINS))))


PROVED = list(proved())

# ---- noticing

# How the compiler may refuse an exchange. Anything else means that the copy is no C any more, and the exchange no test.
REFUSALS = ['static assertion failed', 'duplicate case value', 'incompatible pointer type', 'makes pointer from integer', 'makes integer from pointer',
            'incompatible type for argument', 'discards .* qualifier']


def noticed(text, at):
    """What notices a header, with its words, or None. `at` is a folder to work in."""
    if told := entries_differ(text):
        return 'the proved entries', told
    with open(os.path.join(at, 'iommufd.h'), 'w') as f:
        f.write(text)
    program = os.path.join(at, 'pins')
    built = subprocess.run(COMPILE + ['-I', at, PINS, ARCHIVE, '-o', program], capture_output=True, text=True, env=dict(os.environ, LC_ALL='C'))
    if built.returncode:
        told = (re.findall(r'error: (.*)', built.stderr) or [built.stderr])[0]
        if not any(re.search(r, told) for r in REFUSALS):
            raise Fault(f'the compiler says: {told}')
        return 'the compiler', told
    try:
        ran = subprocess.run([program], capture_output=True, text=True, timeout=60)
    except subprocess.TimeoutExpired:
        return 'pins.c', 'no end within a minute'
    if ran.returncode < 0:
        return 'pins.c', f'ended by signal {-ran.returncode}'
    if ran.returncode:
        return 'pins.c', ran.stdout.splitlines()[-1]
    return None


def try_all(every, each):
    text = read(HEADER)
    kinds, noticers, wrong, exempt = Counter(), Counter(), [], set()
    with tempfile.TemporaryDirectory() as at:
        if by := noticed(text, at):
            raise Fault(f'the header as it stands is noticed by {by[0]}: {by[1]}')
        for x in exchanges(text):
            if x.wide and not every:
                continue
            try:
                by = noticed(x.text, at)
            except Fault as fault:
                raise Fault(f'{x.name}: {fault}')
            if each:
                print(f'{x.name}: ' + (f'noticed by {by[0]}: {by[1]}' if by else 'not noticed'), flush=True)
            if x.name in EXEMPT:
                exempt.add(x.name)
                if by:
                    wrong.append(f'exempt, and noticed all the same: {x.name}')
                continue
            kinds[x.name.split(':')[0]] += 1
            if by:
                noticers[by[0]] += 1
            else:
                wrong.append(f'not noticed: {x.name}')
    if every:
        wrong += [f'exempt, and never tried: {name}' for name in EXEMPT if name not in exempt]
    for reason in dict.fromkeys(EXEMPT[name] for name in sorted(exempt)):
        print(f'exchanges: exempt: {reason}: ' + '; '.join(name for name in sorted(exempt) if EXEMPT[name] == reason))
    print(f'exchanges: {sum(kinds.values())} tried: ' + ', '.join(f'{n} {kind}' for kind, n in kinds.items()))
    print(f'exchanges: {sum(noticers.values())} noticed: ' + ', '.join(f'{n} by {by}' for by, n in noticers.items()))
    for words in wrong:
        print(f'exchanges: {words}')
    return 1 if wrong else 0


def main():
    words = sys.argv[1:]
    if words == ['--entries']:
        text = read(HEADER)
        if told := entries_differ(text):
            raise Fault(told)
        if names := unused(text):
            raise Fault(f'pins.c does not use {", ".join(names)}')
        print(f'exchanges: {len(PROVED)} prototypes are those of the proved entries, and pins.c uses every name of the header')
    elif set(words) <= {'--all', '--each'}:
        sys.exit(try_all('--all' in words, '--each' in words))
    else:
        sys.exit(__doc__)


if __name__ == '__main__':
    try:
        main()
    except Fault as fault:
        sys.exit(f'exchanges: {fault}')
