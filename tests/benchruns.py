#!/usr/bin/env python3
"""The built bench program at the limit of a plan's size, and with input that comes in pieces, against the model in tests/bench.py.

    benchruns.py [--program crates/bench/out/bench]

The proofs speak of the bytes that the program hands on; how many it reads is seen by running it. One that read no more than 65,536 would take the
first 65,536 of a longer input for a plan. Ends with status 0 if all are alike, 1 if some differ, 2 without a program.
"""
import fcntl
import os
import struct
import subprocess
import sys
import tempfile
import termios
import time

import bench
from bench import BAD, FIRST, HEADER, MANY, MOST, Plan, bytes_of, command_bytes, long_plan
from randomplans import Dice, STUCK, WAIT, answer, filled, first_difference, given_arguments, said_by, some_commands, table_of


# ---- inputs
def full_plan():
    """Commands of all kinds, so many that one more can fill it up to the limit."""
    plan = Plan(64, 2, ((4096, ()),), ((3, 1),), ())
    commands, room = (), MOST - 12 - len(bytes_of(plan))
    for command in some_commands(Dice(3), table_of(plan), 1400):
        room -= len(command_bytes(command))
        if room < 0:
            return plan._replace(commands=commands)
        commands += command,
    raise AssertionError('%d bytes of room are left' % room)


FULL = full_plan()
WHOLE = bytes_of(filled(FULL, MOST))
assert len(WHOLE) == MOST and len(FULL.commands) > 1000, len(FULL.commands)


def inputs():
    """In words, the bytes, and how many commands are to run; None: it is a bad plan."""
    yield 'nothing', b'', None
    for plan, commands in ((WHOLE, len(FULL.commands) + 1), (long_plan(MOST, MANY), MANY)):
        yield 'a plan with %d commands' % commands, plan, commands
        for tail in (b'\0', b'\x01', b'\xff', bytes(70000 - MOST), bytes(200000 - MOST), plan):
            yield 'a plan with %d commands, and more' % commands, plan + tail, None
    for size in (MOST + 1, 70000, 200000):
        yield 'a plan but for its size', bytes_of(filled(FULL, size)), None


def in_pieces():
    """The same, and the size of the pieces."""
    for size in (1, 7):
        yield "document 01's plan", FIRST, 6, size
    for size in (1000, 4095, MOST - 1, MOST):                          # the last two: the byte that tells comes alone, or with one other
        yield 'a plan', WHOLE, len(FULL.commands) + 1, size
        yield 'a plan, and a byte', WHOLE + b'\0', None, size
        yield 'a plan, and more', WHOLE + bytes(70000 - MOST), None, size


# ---- feeding
def waiting(pipe):
    """The bytes in a pipe that nobody has read yet."""
    return struct.unpack('i', fcntl.ioctl(pipe, termios.FIONREAD, bytes(4)))[0]


def feed(program, data, size):
    """Each piece goes into the pipe once the one before it has been taken, so no read gives more than a piece. None has more bytes than a pipe holds."""
    pipe, end = program.stdin.fileno(), time.monotonic() + WAIT
    for at in range(0, len(data), size):
        os.write(pipe, data[at:at + size])
        while waiting(pipe) and program.poll() is None and time.monotonic() < end:
            time.sleep(0.0001)


def answer_to_pieces(path, data, size):
    with tempfile.TemporaryFile() as written:
        with subprocess.Popen([path], bufsize=0, stdin=subprocess.PIPE, stdout=written, stderr=subprocess.DEVNULL) as program:
            try:
                feed(program, data, size)
            except BrokenPipeError:
                pass                                                   # it has read enough
            program.stdin.close()
            try:
                status = program.wait(WAIT)
            except subprocess.TimeoutExpired:
                program.kill()
                return STUCK
        written.seek(0)
        return said_by(written.read(), status)


# ---- comparing
def expected(data, commands):
    """The model's lines, held to what is known of them beforehand."""
    said = bench.run(data)
    assert said == BAD if commands is None else said.startswith(HEADER) and said.count('\n') == 1 + commands, said[:200]
    return said


def alike(words, data, commands, given):
    wanted = expected(data, commands)
    if wanted != given:
        print('benchruns.py: %s, %d bytes: %s' % (words, len(data), first_difference(wanted, given)))
    return wanted == given


def main():
    path = given_arguments('Runs the bench program on inputs at the limit of their size and in pieces, and compares it with its model.').program
    results = [alike(words, data, commands, answer(path, data)) for words, data, commands in inputs()]
    results += [alike('%s, in pieces of %d' % (words, size), data, commands, answer_to_pieces(path, data, size))
                for words, data, commands, size in in_pieces()]
    print('benchruns.py: %d of %d inputs alike' % (sum(results), len(results)))
    return 0 if all(results) else 1


if __name__ == '__main__':
    sys.exit(main())
