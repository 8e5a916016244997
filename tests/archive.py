#!/usr/bin/env python3
"""What a kernel has to know of an archive, read off its machine code.

  archive.py ARCH ARCHIVE     fails on an access below the stack pointer, a vector or floating register, a symbol that is needed beside memcpy, memmove and memset, a
                              global name that is none of the header's, and a stack deeper than the header states; prints what was measured. ARCH: x86_64, aarch64, riscv64
  archive.py --faults         small pieces of machine code with one such fault each, for every architecture: each has to be told, and the piece without a fault has to pass

The stack of a call: of each function what it takes from the stack pointer, and along every path of calls the sum. What a function takes in several steps is added up, also
where the steps stand on two paths. memcpy, memmove and memset are the caller's and not counted. An instruction that changes the stack pointer in a way that is not known
here is a fault. A piece of memory below the stack pointer is seen by its offset or by the address that is made for it; with an offset in a register it would not be.
"""
import re
import subprocess
import sys
import tempfile
from collections import namedtuple

ENTRIES = ['iommufd_call', 'iommufd_explain', 'iommufd_host', 'iommufd_preview']
NOTES = ['iommufd_archive_version', 'iommufd_archive_commit']
NEEDED = {'memcpy', 'memmove', 'memset'}
PAGE = 4096
# what one probe of a large frame goes over, as the kit's compiler is told ("stack-probe-size")
PROBE = 3072

# The prefix of binutils and gcc, the bytes that a call itself takes from the stack, the most that the header may state.
Machine = namedtuple('Machine', 'tools call limit reader')


class Fault(Exception):
    pass


def run(*words, **more):
    return subprocess.run(words, check=True, capture_output=True, text=True, **more).stdout


def number(text):
    return int(text, 0)


class Code:
    """A function as it is read, instruction by instruction. `taken` are the bytes of its frame, `goal` those that a loop of probes takes."""

    def __init__(self, name):
        self.name = name
        self.taken = 0
        self.calls = set()
        self.constants = {}
        self.goal = 0

    def fault(self, what, word, given):
        raise Fault(f'{self.name}: {what}: {word} {given}')

    def takes(self, size):
        """A step of the stack pointer. Inside a loop of probes it is one probe, which the loop's goal counts already."""
        if self.goal and size == PROBE:
            self.goal = 0
        else:
            self.taken += size


def read_x86_64(code, word, given):
    if re.search(r'%([xyz]?mm\d|st\b)', given) or (word.startswith('f') and word != 'fence'):
        code.fault('a vector or floating register', word, given)
    if re.search(r'-0x[0-9a-f]+\(%rsp', given):
        code.fault('an access below the stack pointer', word, given)
    if word.startswith('call') and given.startswith('*'):  # a jump through a register is a `match`: Rattle has no function pointers
        code.fault('a call that cannot be followed', word, given)
    if word == 'push':
        code.takes(8)
    elif m := re.fullmatch(r'\$(0x[0-9a-f]+),%(rsp|r11)', given):
        if (word, m[2]) == ('sub', 'r11'):
            code.taken += number(m[1])
            code.goal = number(m[1])
        elif word == 'sub':
            code.takes(number(m[1]))
        elif word != 'add' and m[2] == 'rsp':
            code.fault('the stack pointer is changed', word, given)
    elif given.endswith(',%rsp') and not word.startswith(('cmp', 'test')):
        code.fault('the stack pointer is changed', word, given)


def read_aarch64(code, word, given):
    if re.search(r'\b[vqdshb]([12]?\d|3[01])\b', given):
        code.fault('a vector or floating register', word, given)
    if word == 'blr':
        code.fault('a call that cannot be followed', word, given)
    by = r'#(-?(?:0x)?[0-9a-f]+)(, lsl #12)?'
    if re.search(r'\[sp, #-\w+\](?!!)', given):
        code.fault('an access below the stack pointer', word, given)
    if m := re.search(r'\[sp(?:, #-(\w+)\]!|\], #-(\w+))', given):
        code.takes(number(m[1] or m[2]))
    elif m := re.fullmatch(rf'(\w+), sp, {by}', given):
        size = number(m[2]) * (PAGE if m[3] else 1)
        if word == 'sub' and m[1] == 'sp':
            code.takes(size)
        elif word == 'sub':
            code.fault('an access below the stack pointer', word, given)
        elif word != 'add' and m[1] == 'sp':
            code.fault('the stack pointer is changed', word, given)
    elif re.match(r'sp, ', given) and word != 'cmp':
        code.fault('the stack pointer is changed', word, given)


def read_riscv64(code, word, given):
    if re.search(r'\b(f[ast]\d+|ft\d+|v\d+)\b', given):
        code.fault('a vector or floating register', word, given)
    if word in ('jalr', 'c.jalr') and not given.startswith('ra'):
        code.fault('a call that cannot be followed', word, given)
    if re.search(r'-\d+\(sp\)', given):
        code.fault('an access below the stack pointer', word, given)
    known = code.constants
    if m := re.fullmatch(r'(\w+),sp,(-?\d+)', given):
        if m[1] != 'sp' and number(m[2]) < 0:
            code.fault('an access below the stack pointer', word, given)
        if m[1] == 'sp':
            code.takes(max(0, -number(m[2])))
    elif m := re.fullmatch(r'(\w+),sp,(\w+)', given):
        if word == 'sub' and m[2] not in known:
            code.fault('the stack pointer is changed by a number that is not known', word, given)
        if word == 'sub' and m[1] == 'sp':
            code.takes(known[m[2]])
        elif word == 'sub':
            code.taken += known[m[2]]
            code.goal = known[m[2]]
        elif m[1] == 'sp' and word != 'add':
            code.fault('the stack pointer is changed', word, given)
    elif re.match(r'sp,', given) and word not in ('bne', 'beq'):
        code.fault('the stack pointer is changed', word, given)
    # small constants, as far as frames are made of them
    if m := re.fullmatch(r'(\w+),(-?\w+)', given):
        known.pop(m[1], None)
        if word in ('lui', 'li') and re.fullmatch(r'-?(0x[0-9a-f]+|\d+)', m[2]):
            known[m[1]] = number(m[2]) * (PAGE if word == 'lui' else 1)
    elif m := re.fullmatch(r'(\w+),(\w+),(-?\w+)', given):
        if word in ('add', 'addi', 'addiw') and m[1] == m[2] and m[1] in known and re.fullmatch(r'-?\d+', m[3]):
            known[m[1]] += number(m[3])
        elif word in ('sll', 'slli') and m[1] == m[2] and m[1] in known and re.fullmatch(r'0x[0-9a-f]+|\d+', m[3]):
            known[m[1]] <<= number(m[3])
        else:
            known.pop(m[1], None)


MACHINES = {
    'x86_64': Machine('', 8, 32 * 1024, read_x86_64),
    'aarch64': Machine('aarch64-linux-gnu-', 0, 40 * 1024, read_aarch64),
    'riscv64': Machine('riscv64-linux-gnu-', 0, 40 * 1024, read_riscv64),
}


def symbols(machine, archive):
    """The undefined and the global names of the archive."""
    needed, given = set(), set()
    for line in run(machine.tools + 'nm', archive).splitlines():
        parts = line.split()
        if len(parts) == 2 and parts[0] == 'U':
            needed.add(parts[1])
        if len(parts) == 3 and parts[1] in 'TDBRVW':
            given.add(parts[2])
    return needed, given


def functions(machine, archive):
    """The functions by their names. A fault in one is raised."""
    found, code = {}, None
    for line in run(machine.tools + 'objdump', '-dr', '--no-show-raw-insn', archive).splitlines():
        if m := re.match(r'^[0-9a-f]+ <(.+)>:$', line):
            if not m[1].startswith('.L'):
                code = found.setdefault(m[1], Code(m[1]))
        elif m := re.match(r'^\s+[0-9a-f]+: (R_\w+)\s+(.+)$', line):
            target = re.sub(r'^\.text\.|[+-]0x[0-9a-f]+$', '', m[2])
            if not m[1].endswith('RELAX') and not target.startswith('.'):
                code.calls.add(target)
        elif m := re.match(r'^\s+[0-9a-f]+:\t(\S+)\s*(.*)$', line):
            given = re.sub(r'\s*(//|#(?= )).*$', '', m[2])
            if t := re.search(r'\b[0-9a-f]+ <([^>+]+)>$', given):
                code.calls.add(t[1])
            given = re.sub(r'\b[0-9a-f]+ <[^>]*>$', '', given).strip()
            machine.reader(code, m[1], given)
    return found


def deepest(code, call, name, on=()):
    """The bytes of the deepest path from a function on, and the path."""
    if name in on:
        raise Fault(f'{name} calls itself, so its stack has no bound')
    below = (deepest(code, call, c, on + (name,)) for c in code[name].calls if c in code and c != name)
    rest = max(below, default=(0, ()))
    return code[name].taken + call + rest[0], (name,) + rest[1]


def stated(machine):
    """IOMMUFD_STACK as a compiler of that machine reads the header."""
    text = run(machine.tools + 'gcc', '-E', '-dM', '-ffreestanding', 'include/iommufd.h')
    return number(re.search(r'#define IOMMUFD_STACK (\d+)', text)[1])


def measured(machine, archive, entries, notes, limit):
    """The deepest call of each entry with its path, after all else was asked."""
    needed, given = symbols(machine, archive)
    if needed - NEEDED:
        raise Fault(f'it needs {sorted(needed - NEEDED)} beside {sorted(NEEDED)}')
    if given != {*entries, *notes}:
        raise Fault(f'its global names are {sorted(given)}')
    code = functions(machine, archive)
    depths = {}
    for entry in entries:
        depths[entry] = deepest(code, machine.call, entry)
        if depths[entry][0] > limit:
            raise Fault(f'{entry} takes {depths[entry][0]} bytes of stack, stated are {limit}')
    return needed, code, depths


def measure(arch, archive):
    machine = MACHINES[arch]
    limit = stated(machine)
    if limit > machine.limit:
        raise Fault(f'the header states {limit} bytes of stack, the limit is {machine.limit}')
    needed, code, depths = measured(machine, archive, ENTRIES, NOTES, limit)
    for entry, (depth, path) in depths.items():
        print(f'archive: {arch}: {entry}: {depth} bytes of stack: ' + ', '.join(f'{n} {code[n].taken}' for n in path))
    worst = max(depth for depth, _ in depths.values())
    print(f'archive: {arch}: needs {sorted(needed)}; no access below the stack pointer, general registers only; deepest call {worst} bytes, stated {limit}')


# ---- pieces with a fault each; `entry` is the one function, and 256 bytes are stated for it
PIECES = {
    'x86_64': [
        (None, 'push %rbx; sub $0x40,%rsp; mov %rax,8(%rsp); call memcpy@PLT; add $0x40,%rsp; pop %rbx; ret'),
        ('below the stack pointer', 'mov %rax,-8(%rsp); ret'),
        ('below the stack pointer', 'lea -16(%rsp),%rax; ret'),
        ('vector or floating', 'sub $24,%rsp; movaps %xmm0,(%rsp); add $24,%rsp; ret'),
        ('vector or floating', 'fldz; ret'),
        ('it needs', 'jmp abort@PLT'),
        ('bytes of stack', 'sub $0x100,%rsp; add $0x100,%rsp; ret'),
        ('bytes of stack', 'mov %rsp,%r11; sub $0x6000,%r11; 1: sub $0xc00,%rsp; movq $0,(%rsp); cmp %r11,%rsp; jne 1b; add $0x6000,%rsp; ret'),
        ('calls itself', 'sub $8,%rsp; call other; add $8,%rsp; ret; .globl other; other: jmp entry'),
        ('cannot be followed', 'call *%rax; ret'),
        ('stack pointer is changed', 'and $-16,%rsp; ret'),
        ('global names', 'ret; .globl more; more: ret'),
    ],
    'aarch64': [
        (None, 'stp x29, x30, [sp, #-32]!; sub sp, sp, #64; str x0, [sp, #8]; bl memcpy; add sp, sp, #64; ldp x29, x30, [sp], #32; ret'),
        ('below the stack pointer', 'stur x0, [sp, #-8]; ret'),
        ('below the stack pointer', 'sub x1, sp, #16; str x0, [x1]; ret'),
        ('vector or floating', 'fmov d0, xzr; ret'),
        ('vector or floating', 'ldr q1, [x0]; ret'),
        ('it needs', 'b abort'),
        ('bytes of stack', 'sub sp, sp, #1, lsl #12; add sp, sp, #1, lsl #12; ret'),
        ('bytes of stack', 'sub sp, sp, #240; str xzr, [sp], #-32; add sp, sp, #272; ret'),
        ('cannot be followed', 'blr x1; ret'),
        ('stack pointer is changed', 'mov sp, x1; ret'),
    ],
    'riscv64': [
        (None, 'addi sp,sp,-64; sd ra,56(sp); call memcpy; ld ra,56(sp); addi sp,sp,64; ret'),
        ('below the stack pointer', 'sd a0,-8(sp); ret'),
        ('below the stack pointer', 'addi a1,sp,-16; sd a0,0(a1); ret'),
        ('vector or floating', 'fmv.d.x fa0,a0; ret'),
        ('vector or floating', 'fsd fs0,0(a0); ret'),
        ('it needs', 'tail abort'),
        ('bytes of stack', 'addi sp,sp,-272; addi sp,sp,272; ret'),
        ('bytes of stack', 'lui t0,2; sub t1,sp,t0; li t2,3; slli t2,t2,10; 1: sub sp,sp,t2; sd zero,0(sp); bne sp,t1,1b; lui t0,2; add sp,sp,t0; ret'),
        ('is not known', 'sub sp,sp,a0; ret'),
        ('cannot be followed', 'jalr a1; ret'),
        ('stack pointer is changed', 'mv sp,a0; ret'),
    ],
}


def told(machine, text):
    """The fault of a piece, or None."""
    with tempfile.TemporaryDirectory() as at:
        source = '.text\n.globl entry\nentry:\n' + text.replace(';', '\n') + '\n'
        run(machine.tools + 'gcc', '-c', '-x', 'assembler', '-', '-o', at + '/piece.o', input=source)
        run(machine.tools + 'ar', 'rcs', at + '/piece.a', at + '/piece.o')
        try:
            measured(machine, at + '/piece.a', ['entry'] + (['other'] if 'other:' in text else []), [], 256)
        except Fault as fault:
            return str(fault)


def faults():
    for arch, pieces in PIECES.items():
        for wanted, text in pieces:
            got = told(MACHINES[arch], text)
            if (wanted is None) != (got is None) or (wanted and wanted not in got):
                raise Fault(f'{arch}: of the piece {text!r} it says {got!r} and not {wanted!r}')
        print(f'archive: {arch}: {len(pieces) - 1} pieces with a fault are told, the one without passes')


def main():
    try:
        if sys.argv[1:] == ['--faults']:
            faults()
        elif len(sys.argv) == 3 and sys.argv[1] in MACHINES:
            measure(*sys.argv[1:])
        else:
            sys.exit(__doc__)
    except Fault as fault:
        sys.exit(f'archive: {" ".join(sys.argv[1:])}: {fault}')


if __name__ == '__main__':
    main()
