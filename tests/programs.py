#!/usr/bin/env python3
"""programs.py [BIN]: runs the built programs and compares what they print with what document 01 says, byte by byte.

BIN is the folder of the programs (target/bin, where tools/build puts them). `list` gets each file of machines/ and must print
tests/list/NAME.out. `step` gets machines/NAME.machine and tests/step/NAME.WHAT.in and must print tests/step/NAME.WHAT.out. The cases
below have inputs that are too long, or too slow, to be stored.
"""
import os
import subprocess
import sys
import time

ROOT = os.path.dirname(os.path.dirname(os.path.abspath(__file__)))
BIN = os.path.abspath(sys.argv[1]) if len(sys.argv) > 1 else os.path.join(ROOT, 'target', 'bin')
LIST, STEP = os.path.join(BIN, 'list'), os.path.join(BIN, 'step')
results = {True: 0, False: 0}


def machine(name):
    return os.path.join(ROOT, 'machines', name + '.machine')


def content(*path):
    with open(os.path.join(ROOT, *path), 'rb') as source:
        return source.read()


def run(command, stdin):
    return subprocess.run(command, input=stdin, stdout=subprocess.PIPE, timeout=120).stdout


def expect(what, got, want):
    results[got == want] += 1
    if got != want:
        print(f'{what}: printed {repr(got)[:200]}, not {repr(want)[:200]}')


def stored():
    made = subprocess.run([sys.executable, os.path.join(ROOT, 'machines', 'make.py'), '--check'], stdout=subprocess.DEVNULL)
    expect('the machine files', made.returncode, 0)
    for name in sorted(os.listdir(os.path.join(ROOT, 'tests', 'list'))):
        name = name[:-len('.out')]
        expect(f'list {name}', run([LIST], content('machines', name + '.machine')), content('tests', 'list', name + '.out'))
    for name in sorted(os.listdir(os.path.join(ROOT, 'tests', 'step'))):
        if name.endswith('.in'):
            name = name[:-len('.in')]
            calls, answers = content('tests', 'step', name + '.in'), content('tests', 'step', name + '.out')
            expect(f'step {name}', run([STEP, machine(name.split('.')[0])], calls), answers)


def files():
    """Files of any length, and arguments that name none."""
    thirty_two = content('machines', 'refusal-12.machine')[:320]
    most = thirty_two + b'CN\0\1\0' * 64
    expect('list of an empty file', run([LIST], b''), b'refused 13 0\n')
    expect('list of one byte', run([LIST], b'T'), b'refused 11 0\n')
    expect('list of a file that goes on', run([LIST], most + b'EN' + b'EN' * 100000), b'refused 13 642\n')
    expect('list of the longest file', run([LIST], most + b'EN').count(b'\n'), 33)
    expect('list of a 65th connection', run([LIST], most + b'CN\0\1\0EN'), b'refused 12 640\n')
    for what, arguments in (('no argument', []), ('no such file', ['/nowhere/at/all']), ('a folder', [ROOT]), ('a long name', ['x' * 5000]),
                            ('an empty name', [''])):
        expect(f'step with {what}', run([STEP] + arguments, b't\n'), b'refused 13 0\n')


def pieces():
    """Input in pieces: a byte at a time; the answer must come before the next call is written."""
    calls, answers = content('tests', 'step', 'session.twenty-ticks.in'), content('tests', 'step', 'session.twenty-ticks.out')
    with subprocess.Popen([STEP, machine('session')], stdin=subprocess.PIPE, stdout=subprocess.PIPE) as step:
        got = b''
        for call in calls.splitlines(True):
            for at in range(len(call)):
                step.stdin.write(call[at:at + 1])
                step.stdin.flush()
            got += step.stdout.readline()
        step.stdin.close()
        got += step.stdout.read()
    expect('step, byte by byte', got, answers)
    with subprocess.Popen([STEP, machine('session')], stdin=subprocess.PIPE, stdout=subprocess.PIPE) as step:
        step.stdout.close()
        for _ in range(100):
            try:
                step.stdin.write(b't\n' * 1000)
                step.stdin.flush()
            except BrokenPipeError:
                break
        try:
            step.stdin.close()
        except BrokenPipeError:
            pass
        expect('step, with nobody reading', step.wait(60) is not None, True)


def amounts():
    """A million lines, and a line of 50 million bytes."""
    cycle = [(b't', b'running 0'), (b'c 11', b'running 1'), (b'c 21', b'running 2'), (b'c 31', b'idle')] + [(b't', b'idle')] * 4
    cycle += [(b't', b'running 0'), (b'c 12', b'idle')] + [(b't', b'idle')] * 4
    cycle += [(b't', b'running 0'), (b'c 13', b'running 2'), (b'c 33', b'idle')] + [(b't', b'idle')] * 4
    cycle += [(b't', b'running 0'), (b'c 14', b'idle')] + [(b't', b'idle')] * 4
    many = 1000000 // len(cycle)
    begin = time.time()
    got = run([STEP, machine('session')], b''.join(call + b'\n' for call, _ in cycle) * many)
    lines = time.time() - begin
    expect('step, a million lines', got, b''.join(answer + b'\n' for _, answer in cycle) * many)
    begin = time.time()
    expect('step, a long line', run([STEP, machine('session')], b'c ' + b'1' * 50000000 + b'\nt\n'), b'bad line\nrunning 0\n')
    print(f'{many * len(cycle)} lines: {lines:.2f} s; a line of 50,000,000 bytes: {time.time() - begin:.2f} s')


stored()
files()
pieces()
amounts()
print(f'{results[True]} passed, {results[False]} failed')
sys.exit(1 if results[False] else 0)
