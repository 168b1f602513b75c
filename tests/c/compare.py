#!/usr/bin/env python3
"""Runs programs made of examples/c/check_batch.c on files and compares what they print and write with what is due.

    compare.py ROOT WORK PROGRAM..

ROOT is the repository's. A stored file is NAME.batch, with the line due in NAME.batch.line and, in tests/c/samples, the log of an
accepted one in NAME.batch.log, in hexadecimal; the second program wrote them. What is due for a damaged file follows from the stored line
and from document 01's section on the program. The meanings are those of texts.txt.

WORK/other_version-* were compiled with a header of another version, and WORK/other_size-* with one that gives a state another size.
"""
import os
import pathlib
import re
import struct
import subprocess
import sys

root, work, programs = pathlib.Path(sys.argv[1]), pathlib.Path(sys.argv[2]), sys.argv[3:]
stored = sorted((root / 'tests/c/samples').glob('*.batch')) + sorted((root / 'samples').glob('*.batch'))
texts = dict(re.findall(r'^(\d+|buffer \d+) (.*)$', (root / 'tests/c/texts.txt').read_text(), re.M))
runs = 0


def fail(why):
    sys.exit(f'tests/c/run: {why}')


def run(*arguments, **how):
    global runs
    runs += 1
    return subprocess.run(arguments, stderr=subprocess.PIPE, text=True, **({'stdout': subprocess.PIPE} | how))


def report(how, line):
    """What is printed about one answer: the number, the place, the meaning, and the buffers' windows if the line has them."""
    word, *numbers = line.split()
    number, place, reported = ('0', '0', numbers) if word == 'accept' else (numbers[0], numbers[1], numbers[2:])
    short = f' ({texts["buffer " + place]})' if number == '13' else ''
    yield f'{how}: number {number}, place {place}: {texts[number]}{short}'
    for buffer, (length, first) in enumerate(zip(map(int, reported[:4]), reported[4:8])):
        window = f'{length} bytes needed, touched from byte {first} to byte {length - 1}' if length else 'not touched'
        yield f'  {texts[f"buffer {buffer}"]}: {window}'


def output(line):
    """The lines that are printed, the records apart."""
    yield line
    for how in ['file'] if line.startswith('refuse 16 ') else ['in parts', 'whole']:
        yield from report(how, line)


def records(log):
    """The records of a log as they are printed."""
    for column, row, _, kind, skip, pattern, _, _, quantiser, _, *v in struct.iter_unpack('<3H7B3x4h', log):
        name = ('intra', 'forward', 'backward', 'both')[kind] + (', skipped' if skip else '')
        yield (f'  column {column}, row {row}: {name}, pattern {pattern}, quantiser {quantiser}, '
               f'forward ({v[0]}, {v[1]}), backward ({v[2]}, {v[3]})')


def expect(program, file, line, log=None, **how):
    """The answer to a file, once with its records printed and once with them in a file; `log` holds them where they are stored."""
    written = work / 'log'
    for more in [], [written]:
        written.unlink(missing_ok=True)
        done = run(program, file, *more, **how)
        given = done.stdout.splitlines()
        due = list(output(line))
        accepted = line.startswith('accept')
        if given[:len(due)] != due or done.returncode != (0 if accepted else 1) or done.stderr:
            fail(f'{file} by {program}: due {due}, given {given} {done.stderr!r} and status {done.returncode}')
        if log is not None:
            due += [f'decoded: {len(log) // 24} records', *([] if more else records(log))]
        if (log is not None or not accepted) and given != due:
            fail(f'{file} by {program}: due {due}, given {given}')
        if written.exists() != bool(more and accepted) or log is not None and more and written.read_bytes() != log:
            fail(f'{file} by {program}: the log is another')


def expect_nothing(program, *arguments, printed='', **how):
    """Status 2, and something on standard error."""
    done = run(program, *arguments, **how)
    if done.returncode != 2 or not done.stderr or (done.stdout or '') != printed:
        fail(f'{arguments} by {program}: given {done.stdout!r}, {done.stderr!r} and status {done.returncode}')


def damaged(whole, line):
    """Files made of a stored one, with the line that each gets."""
    words = (len(whole) - 32) // 4
    for more in b'\0', b'\7\0', b'\0\0\1':
        yield whole + more, f'refuse 1 {words}' if line.startswith('accept') else line
    for given in 0, 1, 31:
        yield whole[:given], f'refuse 16 {given}'
    yield whole[:32], 'refuse 1 0'
    if line.startswith('accept'):
        yield whole[:-1], f'refuse 1 {words - 1}'


def check_stored(program):
    for batch in stored:
        line = batch.with_suffix('.batch.line').read_text().rstrip('\n')
        log = batch.with_suffix('.batch.log')
        expect(program, batch, line, bytes.fromhex(log.read_text()) if log.exists() else None)
        for content, due in damaged(batch.read_bytes(), line):
            (work / 'damaged').write_bytes(content)
            expect(program, work / 'damaged', due)


def check_files(program):
    """Files that cannot be read or written, a file that cannot be read twice, and a header that does not fit the library."""
    p1, refused = root / 'samples/p1.batch', root / 'samples/vector_below.batch'
    line = p1.with_suffix('.batch.line').read_text().rstrip('\n')
    for arguments in [], [p1, work / 'log', 'more'], [work / 'none'], [work]:
        expect_nothing(program, *arguments)
    with open('/dev/full', 'w') as full:
        for file in p1, refused, os.devnull:
            expect_nothing(program, file, stdout=full)
    for log in work / 'none' / 'log', '/dev/full':
        expect_nothing(program, p1, log, printed='\n'.join([*output(line), 'decoded: 1 records', '']))
    piped = run('sh', '-c', 'cat "$0" | "$1" /dev/stdin', p1, program)
    if piped.returncode != 0 or piped.stdout.split('\n')[0] != line:
        fail(f'from a pipe {program} gives {piped.stdout!r}')
    for other in 'other_version-', 'other_size-':
        expect_nothing(program.replace('check_batch-', other), p1)


for program in programs:
    check_stored(program)
    check_files(program)
if len(stored) < 26 + 4 or len(programs) != 2:
    fail('there are no samples, or no programs')
print(f'tests/c: {runs} runs of check_batch as due')
