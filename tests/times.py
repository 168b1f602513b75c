#!/usr/bin/env python3
"""Passes rt ci's output on, keeps it in a file, and then prints a table of it:

    rt ci 2>&1 | python3 tests/times.py LOG

For each crate: the second at which it was proved, counted from the start, or that an earlier run on this machine had proved the same; how
many must-fail edits were refused, and the wrong answers that they try. Several crates and edits run beside each other, and rt says of none
how long it took. Ends with 1 where a crate of crates.txt is not proved or no edit was refused.
"""
import pathlib
import re
import sys
import time


def kept_lines(source, log):
    """Each line with the second at which it came; it is written to the log and printed at once."""
    began, found = time.monotonic(), []
    for line in source:
        log.write(line)
        log.flush()
        print(line, end='', flush=True)
        found.append((int(time.monotonic() - began), line.rstrip('\n')))
    return found


def listed(text):
    """The crates that crates.txt lists."""
    return [line.split(':')[0].split()[0] for line in (line.partition('#')[0] for line in text.split('\n')) if line.strip()]


def answers(edit):
    return max(1, len(re.findall(r'^name: ', edit.read_text(), re.M)))


def table(lines, crates, root):
    """The table's rows, a crate each, and the crates that are not among them."""
    done, refused = {}, {}
    for second, line in lines:
        if proved := re.match(r'rt: (\w+) proved$', line):
            done[proved[1]] = str(second)
        elif kept := re.match(r'rt: (\w+) is kept: ', line):
            done[kept[1]] = 'earlier'
        elif edit := re.match(r'rt: must-fail (\w+)/([\w.-]+\.edit): refused, as it must be', line):
            refused.setdefault(edit[1], set()).add(edit[2])
    rows = []
    for name in filter(done.get, crates):
        edits = [root / 'crates' / name / 'must-fail' / edit for edit in refused.get(name, ())]
        rows.append((name, done[name], len(edits), sum(map(answers, edits))))
    return rows, [name for name in crates if name not in done]


def main(log):
    sys.stdin.reconfigure(errors='surrogateescape')
    sys.stdout.reconfigure(errors='surrogateescape')
    with open(log, 'w', errors='surrogateescape') as kept:
        lines = kept_lines(sys.stdin, kept)
    root = pathlib.Path()
    rows, lacking = table(lines, listed((root / 'crates.txt').read_text()), root)
    rows.append(('all', f'{lines[-1][0] if lines else 0}', sum(row[2] for row in rows), sum(row[3] for row in rows)))
    print('| Crate | proved at second | edits refused | wrong answers |\n|---|---|---|---|')
    for row in rows:
        print('| ' + ' | '.join(map(str, row)) + ' |')
    for name in lacking:
        print(f'times: {name} is not proved')
    return 1 if lacking or rows[-1][2] == 0 else 0


if __name__ == '__main__':
    sys.exit(main(sys.argv[1]))
