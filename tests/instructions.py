#!/usr/bin/env python3
"""The archive's own instructions in a call on each architecture, as markdown.

  instructions.py     runs tests/instructions.c with the archives of x86_64, aarch64 and riscv64 step by step in QEMU's user mode

memcpy and memset are the caller's and not counted, nor are the inline functions of the header around an entry. On x86-64 callgrind has to count the same: that tells that the steps are counted well.
"""
import re
import subprocess
import sys
import tempfile

from archive import MACHINES, run

# as in tests/replay.sh: no floating number passes between Debian's libc and the archive
MORE = {'riscv64': ['-Wl,--no-warn-mismatch']}


def built(arch, program):
    """Builds the program; gives the names of the archive's functions, and where each function lies in the program."""
    tools, archive = MACHINES[arch].tools, f'target/archives/{arch}/libiommufd.a'
    run(tools + 'gcc', '-std=c11', '-O2', '-Wall', '-Wextra', '-Werror', '-static', '-Iinclude', 'tests/instructions.c', archive, '-o', program, *MORE.get(arch, []))
    own = {words[2] for line in run(tools + 'nm', archive).splitlines() if len(words := line.split()) == 3 and words[1] in 'tT'}
    places = {}
    for line in run(tools + 'nm', '-S', program).splitlines():
        if len(words := line.split()) == 4:
            start = int(words[0], 16)
            places[words[3]] = range(start, start + int(words[1], 16))
    return own, places


def steps(log):
    """The addresses of the instructions that were executed, in their order. One that repeats itself comes once for each time."""
    with open(log) as lines:
        for line in lines:
            if line.startswith('Trace '):
                yield int(line.split('/')[1], 16)


def counted(pcs, own, places):
    """The instructions of the archive in each call, and those of `measured` around all of them."""
    inside = {pc for name in own for pc in places[name]}
    counts, around, counting, last, repeating = [], 0, False, None, False
    for pc in pcs:
        if pc == places['measured'].start:
            counts.append(0)
            counting = True
        elif pc in places['calls']:  # which prepares the next call by calls of its own
            counting = False
        steps_here = 2 if pc == last and not repeating else 1  # callgrind counts also the look that ends a `rep`
        if counting and pc in inside:
            counts[-1] += steps_here
        elif counting:
            around += steps_here
        repeating = pc == last
        last = pc
    return counts, around


def by_callgrind(program, own, at):
    """What callgrind counts in `measured` and the archive, in all calls together."""
    dump = at + '/callgrind'
    run('valgrind', '--tool=callgrind', '--skip-plt=no', '--toggle-collect=measured', '--callgrind-out-file=' + dump, program)
    found = re.findall(r'^ *([\d,]+) \([^)]*\) +[^:]*:(\S+) \[', run('callgrind_annotate', '--threshold=100', dump), re.M)
    return sum(int(count.replace(',', '')) for count, name in found if name in own | {'measured'})


def measured(arch, at):
    """The names of the calls, and the archive's own instructions in each."""
    program, log = f'{at}/{arch}', f'{at}/{arch}.log'
    own, places = built(arch, program)
    seen = [places[name] for name in own | {'measured', 'calls'}]
    names = run('qemu-' + arch, '-singlestep', '-d', 'exec,nochain', '-dfilter', ','.join(f'{p.start:#x}..{p.stop - 1:#x}' for p in seen), '-D', log, program).splitlines()
    counts, around = counted(steps(log), own, places)
    if len(counts) != len(names):
        sys.exit(f'instructions: {arch}: {len(counts)} calls were counted, {len(names)} made')
    if arch == 'x86_64' and (other := by_callgrind(program, own, at)) != sum(counts) + around:
        sys.exit(f'instructions: {arch}: {sum(counts) + around} in steps, {other} by callgrind')
    return names, counts


def main():
    if len(sys.argv) > 1:
        sys.exit(__doc__)
    subprocess.run(['archives/build.sh', '--ready'], check=True)
    with tempfile.TemporaryDirectory() as at:
        columns = [measured(arch, at) for arch in MACHINES]
    print('| Call | Mappings | ' + ' | '.join(MACHINES) + ' |')
    print('|---|---:|' + '---:|' * len(columns))
    for i, name in enumerate(columns[0][0]):
        print(f'| {name} | ' + ' | '.join(f'{counts[i]:,}' for _, counts in columns) + ' |')


if __name__ == '__main__':
    main()
