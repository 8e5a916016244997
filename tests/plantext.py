#!/usr/bin/env python3
"""The readable form of plans: the examples in plans/ give what their comments say, thousands of plans come back from their text as they were,
and what is wrong in a text is told with its line.

    plantext.py [--plans 2000]
    plantext.py --entries [--plans 400]     what plan.py explain says by the archive's entries, beside what it says by the model
"""
import glob
import re
import subprocess
import sys

import bench
from bench import bytes_of, from_root, promised
from randomplans import Dice, before_damage, bytes_for, some_case

sys.path.insert(0, from_root('plans'))
from explain import Running                                            # noqa: E402
from plan import Wrong, assemble, disassemble, explained               # noqa: E402

TOOL = [sys.executable, from_root('plans', 'plan.py')]

# ---- texts with a fault: the line, and words of what is said
FAULTY = [
    ('', 1, 'ends without a limit'),
    ('# nothing\n\n', 3, 'ends without a limit'),
    ('space', 1, 'begins with its limit'),
    ('\n# a\nlimit 4\nlimit 5', 4, 'one limit'),
    ('limit', 1, 'the form is: limit N'),
    ('limit 4 5', 1, 'the form is'),
    ('limit four', 1, 'four is not a number'),
    ('limit -1', 1, 'not a number'),
    ('limit 0x', 1, 'not a number'),
    ('limit 1_000', 1, 'not a number'),
    ('limit 2^64', 1, 'does not fit in 64 bits'),
    ('limit 2^999999999', 1, 'does not fit'),
    ('limit 18446744073709551616', 1, 'does not fit in 64 bits'),
    ('limit ' + '9' * 9999, 1, 'does not fit in 64 bits'),
    ('limit 4\nspace 2', 2, 'the form is: space'),
    ('limit 4\nspaces', 2, 'the form is'),
    ('limit 4\nspaces 2^32', 2, 'does not fit in 32 bits'),
    ('limit 4\nspaces 0xffffffff\nspace', 3, 'too many spaces'),
    ('limit 4\ndevice 1\nspace', 3, 'spaces come before devices'),
    ('limit 4\nspace\nalloc\nattach 2 1', 4, 'attachments come before commands'),
    ('limit 4\ndevice', 2, 'the form is: device'),
    ('limit 4\ndevice 0x1000 0xfee00000', 2, 'not a range'),
    ('limit 4\ndevice 0x1000 0x1-0x2-0x3', 2, 'not a range'),
    ('limit 4\ndevice 0x1000 0-2^64', 2, 'does not fit'),
    ('limit 4\nattach 2', 2, 'attach DEVICE SPACE'),
    ('limit 4\nattach 2 2^32', 2, 'does not fit in 32 bits'),
    ('limit 4\nmapp space=1', 2, 'mapp begins no line'),
    ('limit 4\nMAP space=1', 2, 'MAP begins no line'),
    ('limit 4\nmap space=1 flags=read memory=0', 2, 'length= is missing'),
    ('limit 4\nmap space=1 flags=read memory=0 length=1 length=1', 2, 'length= stands here twice'),
    ('limit 4\nmap space=1 flags=read memory=0 length=1 to=4', 2, 'to=4 has no place here'),
    ('limit 4\nmap space=1 flags=read memory=0 length=1 fixed', 2, 'fixed has no place here'),
    ('limit 4\nmap space=1 flags=fixed,read memory=0 length=1', 2, 'address= is missing'),
    ('limit 4\nmap space=1 flags=read,exec memory=0 length=1', 2, 'exec is no flag'),
    ('limit 4\nmap space=1 flags= memory=0 length=1', 2, 'is no flag'),
    ('limit 4\nmap space= flags=read memory=0 length=1', 2, 'not a number'),
    ('limit 4\ncopy source=1 from=0 target=2 flags=fixed,read length=1', 2, 'to= is missing'),
    ('limit 4\nunmap space=1 all length=4', 2, 'length= stands here twice'),
    ('limit 4\nunmap space=1', 2, 'address= is missing'),
    ('limit 4\nalloc 3', 2, 'the form is: alloc'),
    ('limit 4\ndestroy', 2, 'the form is: destroy ID'),
    ('limit 4\nallow 0-1', 2, 'space= is missing'),
    ('limit 4\nallow space=1 0-', 2, 'not a range'),
    ('limit 4\nranges space=1 count=4097', 2, 'does not fit into a plan'),
    ('limit 4\nraw', 2, 'raw REQUEST'),
    ('limit 4\nraw 1 command=123', 2, '123 is not a row of hexadecimal bytes'),
    ('limit 4\nraw 1 command=0g', 2, 'hexadecimal'),
    ('limit 4\nraw 1 area=0000*3', 2, 'hexadecimal'),
    ('limit 4\nraw 1 area=00*9999999', 2, 'hexadecimal'),
    ('limit 4\nraw 1 area=00 area=01', 2, 'area= stands here twice'),
]

# ---- texts that say the same in other words
ALIKE = [
    ('limit 2^36', 'limit 68719476736'),
    ('limit 4;space;space', 'limit 0x4;spaces 2'),
    ('limit 4;spaces 0', 'limit 4'),
    ('  limit\t4 # four;;#;\r', 'limit 4'),
    ('limit 0;unmap space=1 all', 'limit 0;unmap length=0xffffffffffffffff address=0 space=1'),
    ('limit 0;map length=1 memory=2 flags=read,fixed address=3 space=4', 'limit 0;map space=4 flags=5 memory=2 length=1 address=3'),
    ('limit 0;map space=1 flags=4 memory=0 length=1', 'limit 0;map space=1 flags=read memory=0 length=1 address=0'),
    ('limit 0;allow 0-1 space=1 2-3', 'limit 0;allow space=1 0-1 2-3'),
    ('limit 0;raw 9 area=ff*3,00', 'limit 0;raw 0x9 area=FFFFff00 command='),
    ('limit 0;alloc', 'limit 0;raw 0x3b81 command=0c,00*11'),
    ('limit 0;ranges space=1 count=2', 'limit 0;raw 0x3b84 command=20000000010000000200,00*22 area=00*32'),
]

# ---- a plan in which each refusal of a MAP and of a COPY is met, and what is said of it; nothing is said of what is accepted
SETUP = '''limit 6
spaces 2
device 0x1000 0xfee00000-0xfeefffff
device 0x400 0x100000-0x1fffff
device 0x1000 0x140000-0xffffffffffffffff
attach 3 1
attach 4 1
'''
WHY = [
    ('raw 0x3b85 command=280000', '-14: 3 bytes are lent, and the size field alone has 4'),
    ('raw 0x3b83 command=27000000', '-22: the size field says 39, and a copy has 40 bytes'),
    ('raw 0x3b85 command=28000000', '-14: the size field says 40, and 4 bytes are lent'),
    ('raw 0x3b85 command=2a000000,00*37,01', '-7: byte 41 is not zero, and a map has 40 bytes'),
    ('map space=1 flags=read,8 memory=0 length=1', '-95: flags 0xc has an unknown one'),
    ('raw 0x3b85 command=28000000,00*8,07000000,00*24', '-95: the reserved field is 0x7'),
    ('copy source=1 from=0 target=2 flags=8 length=1', '-95: flags 0x8 has an unknown one'),
    ('map space=1 flags=fixed memory=0 length=1 address=0', '-22: neither the right to read nor to write is asked'),
    ('map space=1 flags=read memory=0 length=0', '-22: 0x0 bytes asked; a length is from 1 to 2^40'),
    ('copy source=1 from=0 target=2 flags=read length=0x10000000001', '-22: 0x10000000001 bytes asked; a length is from 1 to 2^40'),
    ('map space=9 flags=read memory=0xffffffffffffffff length=2', '-75: 0x2 bytes from memory 0xffffffffffffffff on pass the last address'),
    ('copy source=1 from=0xffffffffffffffff target=2 flags=read length=2', '-75: 0x2 bytes from the source 0xffffffffffffffff on pass the last address'),
    ('map space=9 flags=fixed,read memory=0 length=3 address=0xfffffffffffffffe', '-75: 0x3 bytes from 0xfffffffffffffffe on pass the last address'),
    ('map space=3 flags=read memory=0 length=1', '-2: there is no space 3'),
    ('copy source=1 from=0 target=0 flags=read length=1', '-2: there is no space 0'),
    ('copy source=33 from=0 target=2 flags=read length=1', '-2: there is no source space 33'),
    ('copy source=1 from=0 target=2 flags=read length=1', '-2: space 1 has no mapping of exactly 0x0 to 0x0'),
    ('map space=1 flags=read memory=0 length=0x2000', None),
    ('copy source=1 from=0 target=2 flags=write length=0x2000', '-1: the map that 0x0 to 0x1fff of space 1 goes back to was not writeable'),
    ('map space=1 flags=fixed,read memory=0 length=0x1000 address=1', '-22: 0x1 to 0x1000 does not begin and end at the alignment 0x1000 of space 1'),
    ('map space=1 flags=fixed,read memory=0 length=0x1000 address=0x1ff000',
     '-22: 0x1ff000 to 0x1fffff touches what device 4 reserves (0x100000 to 0x1fffff)'),
    ('map space=1 flags=fixed,read memory=0 length=0xfee00000 address=0x1000',
     '-22: 0x1000 to 0xfee00fff touches what device 3 reserves (0xfee00000 to 0xfeefffff)'),
    ('map space=1 flags=fixed,read memory=0 length=0x1000 address=0x1000', '-17: 0x1000 to 0x1fff touches mapping record 1 (0x0 to 0x1fff)'),
    ('copy source=1 from=0 target=1 to=0x1000 flags=fixed,read length=0x2000', '-17: 0x1000 to 0x2fff touches mapping record 1 (0x0 to 0x1fff)'),
    ('map space=1 flags=read memory=0 length=0x1001', '-22: 0x1001 bytes asked; the alignment of space 1 is 0x1000'),
    ('allow space=1 0-0x4fff', None),
    ('map space=1 flags=read memory=0 length=0x4000', '-28: 0x4000 bytes asked; the longest free run is 0x3000 bytes at 0x2000'),
    ('allow space=1 1-0xfff', None),
    ('copy source=1 from=0 target=1 flags=read length=0x2000', '-28: 0x2000 bytes asked; no multiple of the alignment is free'),
    ('map space=2 flags=read memory=4095 length=4098', None),
    ('map space=2 flags=read memory=0 length=0x2001', '-12: a charge of 5 and 3 more for its pages pass the limit of 6'),
    ('unmap space=2 address=0 length=1', '-2: no such object, mapping or source'),
    ('allow space=1 0x100000-0x100000', '-98: a reserved range stands against what is mapped or allowed'),
    ('raw 7', '-25: no such request'),
] + [('copy source=1 from=0 target=2 flags=read length=0x2000', None)] * 126 + [
    ('copy source=1 from=0 target=2 flags=read length=0x2000', '-12: all 128 mapping records are in use'),
]


def refusals_are_explained(*runnings):
    text = SETUP + '\n'.join(line for line, _ in WHY) + '\n'
    wanted = SETUP + ''.join(line + '\n' + ('    # %s\n' % said if said else '') for line, said in WHY)
    assert assemble(wanted) == assemble(text)
    for running in runnings:
        made = explained(text, running)
        assert made == wanted, next((a, b) for a, b in zip(made.split('\n'), wanted.split('\n')) if a != b)
        setups_are_explained(running)
    return sum(said is not None for _, said in WHY)


def setups_are_explained(running):
    for line, said in (('attach 3 1', '-16: the object is in use, or the device is attached already'), ('attach 5 7', '-2: no such object, mapping or source')):
        made = explained(SETUP + line + '\nraw 7\n', running)
        assert made == SETUP + line + '\n    # %s\n    # bad plan: nothing is run\n' % said, made


def both_explain(plans):
    """By the entries and by the model: the refusals by hand, and those of plans at random."""
    entries, model = Running(), Running(model=True)
    if type(entries.engine) is type(model.engine):
        sys.exit('plantext.py: no archive that explains; build it first')
    by_hand = refusals_are_explained(entries, model)
    dice, said = Dice(12), 0
    for _ in range(plans):
        data = before_damage(some_case(dice))
        if len(data) > bench.MOST:
            continue
        text = disassemble(data)
        one, other = explained(text, entries), explained(text, model)
        assert one == other, next((a, b) for a, b in zip(one.split('\n'), other.split('\n')) if a != b)
        said += one.count('\n    # -')
    print('plantext.py: by the entries as by the model: %d refusals by hand, %d of %d plans at random' % (by_hand, said, plans))


def fault(text):
    """What is said of a text, or None."""
    try:
        assemble(text)
    except Wrong as wrong:
        return str(wrong)


def faults_are_told():
    for text, line, words in FAULTY:
        said = fault(text)
        assert said and said.startswith('line %d: ' % line) and words in said, (text[:80], said)


def alike():
    for one, other in ALIKE:
        one, other = (assemble(text.replace(';', '\n')) for text in (one, other))
        assert one == other, (one.hex(), other.hex())


def examples_keep_their_word():
    """Beside each command of an example stand its result and the charge after it."""
    files = sorted(glob.glob(from_root('plans', '*.plan')))
    for name in files:
        text = open(name).read()
        given = [tuple(map(int, line.split()[2:])) for line in bench.run(assemble(text)).split('\n')[1:-1]]
        assert promised(text) == given, (name, promised(text), given)
    return len(files)


def back_and_forth(plans):
    """Whole plans come back as they were. Of damaged ones, those that are still whole do, and the others are refused."""
    dice, named, raw = Dice(11), 0, 0
    for _ in range(plans):
        case = some_case(dice)
        text = disassemble(before_damage(case))
        assert assemble(text) == before_damage(case), text
        named += len(re.findall('^(?:map|copy|unmap|alloc|destroy|allow|ranges) ', text, re.M))
        raw += len(re.findall('^raw ', text, re.M))
        try:
            assert assemble(disassemble(bytes_for(case))) == bytes_for(case)
        except Wrong as wrong:
            assert 'not a whole plan' in str(wrong), wrong
    return named, raw


def any_text(plans):
    """Whatever stands in a text, it is a plan that comes back or it has a fault in a line."""
    dice, faulty = Dice(12), 0
    for _ in range(plans // 4):
        text = disassemble(bytes_of(some_case(dice).plan))[:3000]
        for _ in range(1 + dice.pick(3)):
            at = dice.pick(len(text))
            put_in = dice.one_of('', ' ', '\n', '#', '=', '-', ',', '*', '0', 'x', '9', '\0', '\u2028', 'limit 4\n')
            text = text[:at] + put_in + text[at + dice.pick(3):]
        said = fault(text)
        if said is None:
            assert assemble(disassemble(assemble(text))) == assemble(text)
        else:
            assert re.match(r'line \d+: ', said), said
            faulty += 1
    return faulty


def called(given, data=b''):
    ended = subprocess.run(TOOL + given, input=data, stdout=subprocess.PIPE, stderr=subprocess.PIPE)
    return ended.returncode, ended.stdout, ended.stderr.decode()


def the_tool_itself():
    first = from_root('plans', 'first.plan')
    assert called(['assemble', first]) == (0, bench.FIRST, '')
    status, text, _ = called(['disassemble'], bench.FIRST)
    assert status == 0 and called(['assemble', '-'], text) == (0, bench.FIRST, '')
    status, _, said = called(['disassemble'], bench.FIRST[:-3])
    assert (status, said) == (1, 'plan.py: standard input: not a whole plan: it is cut among its commands, at byte 313\n')
    assert called(['disassemble'], bench.FIRST + b'\0')[0] == 1
    assert called(['assemble', '-'], b'limit 1\n\nspace x')[::2] == (1, 'plan.py: -: line 3: the form is: space\n')
    assert called(['assemble', '-'], b'limit 1 # \xff\xfe')[0] == 0
    assert called(['assemble', from_root('plans', 'no.plan')])[0] == 1
    assert called(['assemble', '-'], b'limit 1\nraw 0 area=00*65500')[0] == 0                   # 65,536 bytes
    assert called(['assemble', '-'], b'limit 1\nraw 0 area=00*65501')[0] == 1
    assert called(['disassemble'], bytes(20) + b'\1\0\0\0' + bytes(8) + b'\xdd\xff\0\0' + bytes(65501))[0] == 1
    assert called([])[0] == called(['assemble'])[0] == called(['dump', first])[0] == called(['explain'])[0] == 2
    status, text, _ = called(['explain', '--model', first])
    assert status == 0 and b'\n    # -17: 0x1000 to 0x1fff touches mapping record 1 (0x0 to 0x1fff)\n' in text and called(['assemble', '-'], text)[1] == bench.FIRST
    assert called(['explain', '--model', '-'], b'limit 1\n\nspace x')[::2] == (1, 'plan.py: -: line 3: the form is: space\n')
    status, text, _ = called(['--help'])
    lines = text.decode().split('\n')
    assert status == 0 and len(lines) <= 25 and max(map(len, lines)) <= 80


def main():
    given = sys.argv[1:]
    entries = given[:1] == ['--entries']
    given = given[1:] if entries else given
    plans = int(given[1]) if given[:1] == ['--plans'] else 400 if entries else 2000
    if entries:
        return both_explain(plans)
    faults_are_told()
    alike()
    the_tool_itself()
    refusals = refusals_are_explained(Running(model=True))
    examples = examples_keep_their_word()
    named, raw = back_and_forth(plans)
    faulty = any_text(plans)
    print('plantext.py: %d examples; %d refusals explained; %d plans back and forth, %d commands by name and %d raw; %d faults by hand, %d of %d changed texts faulty'
          % (examples, refusals, plans, named, raw, len(FAULTY), faulty, plans // 4))


if __name__ == '__main__':
    main()
