"""A case of a script, and how it is run. tests/check/run and tests/mounts/run read this file.

command  what is tried, in bash, in the room's place (room.py)
status   what it has to end with
out      what it has to print
err      what it has to say: a regular expression for all of it
before   what is done first. `says TEXT` has later builds make a program that prints TEXT; `no_reader` makes descriptor 4 a pipe that nobody
         reads; `wait_for COMMAND` tries until it succeeds
builds   how often rt is called to build something
after    what has to hold at the end, in bash
kit      fake: stubs/rt and stubs/rattle in place of the kit's; none: there is no rt; real: the kit's own rt, and the copy of the real case before
"""
import argparse
import dataclasses
import hashlib
import os
import pathlib
import pty
import re
import signal
import subprocess
import tempfile
import time

from room import made_from, remove, root

SECONDS = 20
SECONDS_REAL = 3600  # rt takes what it has kept on this machine, and else proves every crate
PRELUDE = r'''
says() {
    printf '#!/bin/sh\nprintf "%%b\\n" "%s"\n' "$1" > "$ROOM/other"
    chmod +x "$ROOM/other"
    export FAKE_PRODUCT=$ROOM/other
}
wait_for() {
    until "$@" 2> /dev/null; do sleep 0.02; done
}
no_reader() {
    mkfifo "$ROOM/fifo" && exec 3<> "$ROOM/fifo" 4> "$ROOM/fifo" 3>&-
    rm "$ROOM/fifo"
}
'''


@dataclasses.dataclass
class Case:
    name: str
    command: str
    status: int
    out: str = ''
    err: str = ''
    before: str = ''
    builds: int = 0
    after: str = ''
    kit: str = 'fake'
    terminal: bool = False


def sources_of(repo, crate):
    """What --version has to print for the sources: taken from its hash's definition, file by file."""
    files = [f for f in [repo / 'crates.txt', repo / 'HANDLES'] if f.exists()]
    for name in made_from(crate):
        for part in ['src', 'specs', 'proofs', 'stdin', 'stdout', 'args', 'status', 'data']:
            files += [f for f in [repo / 'crates' / name / part, *(repo / 'crates' / name / part).rglob('*')] if f.is_file()]
    lines = sorted((str(f.relative_to(repo)), hashlib.sha256(f.read_bytes()).hexdigest()) for f in files)
    return hashlib.sha256(''.join(f'{digest}  {name}\n' for name, digest in lines).encode()).hexdigest()[:12]


def default_signals():
    """What is started in the background may ignore these, and all that it starts as well."""
    for name in [signal.SIGINT, signal.SIGQUIT, signal.SIGTERM, signal.SIGHUP]:
        signal.signal(name, signal.SIG_DFL)


def end_session(leader):
    """Ends a process and all that it started, also what has a process group of its own."""
    for name in filter(str.isdigit, os.listdir('/proc')):
        try:
            if os.getsid(int(name)) == leader:
                os.kill(int(name), signal.SIGKILL)
        except ProcessLookupError:
            pass


def finish(process, seconds):
    """What a process prints and says, and whether it ended in time."""
    try:
        return *process.communicate(timeout=seconds), True
    except subprocess.TimeoutExpired:
        end_session(process.pid)
        return *process.communicate(), False


def run(case, room):
    """What is wrong with a case, a line each."""
    repo, log = room.prepare(case), room.folder / 'log'
    place, environment = room.place(repo), room.environment | {'PATH': room.path(case)}
    script = PRELUDE + room.prelude + f'{{ {case.before or ":"}\n}} > /dev/null 2>&1\n: > "$FAKE_LOG"\n{case.command}\n'
    controller, terminal = pty.openpty() if case.terminal else (None, subprocess.DEVNULL)
    process = subprocess.Popen(['bash', '-c', script], cwd=place, env=environment, stdin=terminal, stdout=subprocess.PIPE,
                               stderr=subprocess.PIPE, text=True, errors='surrogateescape', start_new_session=True, preexec_fn=default_signals)
    out, err, ended = finish(process, SECONDS_REAL if case.kit == 'real' else SECONDS)
    if case.terminal:
        os.close(controller)
        os.close(terminal)
    due = case.err.replace('{repo}', re.escape(str(repo)))
    builds = log.read_text().count('\n')
    faults = []
    if not ended:
        faults.append('it did not end')
    if process.returncode != case.status:
        faults.append(f'status {process.returncode}, due {case.status}')
    due_out = case.out.replace('REPO', str(repo))
    if 'SOURCES' in due_out:
        due_out = due_out.replace('SOURCES', sources_of(repo, room.crate))
    if out != due_out:
        faults.append(f'printed {out!r}, due {due_out!r}')
    if not re.fullmatch(due, err):
        faults.append(f'said {err!r}, due {due!r}')
    if case.kit != 'real' and builds != case.builds:
        faults.append(f'{builds} builds, due {case.builds}')
    if case.after and subprocess.run(['bash', '-c', room.prelude + case.after], cwd=place, env=environment, capture_output=True).returncode:
        faults.append(f'this does not hold: {case.after}')
    room.used = bool(case.before or builds or faults)
    return faults


def run_all(self, product, all_cases, make_room, more_faults=lambda: []):
    """Builds a product (tests/build) if it has to be, and runs the cases. Prints what is wrong with each that fails, then how many ran.
    With --script another script is tried in place of the repository's; with words only the cases whose names have one of them."""
    parser = argparse.ArgumentParser()
    parser.add_argument('--script', type=pathlib.Path)
    parser.add_argument('words', nargs='*')
    options = parser.parse_args()
    began = time.monotonic()
    subprocess.run([root / 'tests' / 'build', product], check=True)
    chosen = [case for case in all_cases() if not options.words or any(word in case.name for word in options.words)]
    folder = pathlib.Path(tempfile.mkdtemp()).resolve()
    failed = []
    try:
        room = make_room(folder, options.script)
        for case in chosen:
            faults = run(case, room)
            if faults:
                failed.append(case.name)
                print(f'{self}: {case.name}: ' + '; '.join(faults), flush=True)
    finally:
        remove(folder)
    for fault in more_faults():
        failed.append(fault)
        print(f'{self}: {fault}')
    print(f'{self}: {len(chosen)} cases, {len(failed)} failed, {time.monotonic() - began:.0f} s')
    return bool(failed) or not chosen


def version():
    """The version that the header has."""
    return re.search(r'HROMULICE_VERSION_TEXT\s+"(.*)"', (root / 'include' / 'hromulice.h').read_text())[1]


def wanted_kit():
    """The kit that is asked for where there is none."""
    return re.search(r"^wanted_kit='(.*)'$", (root / 'scripts' / 'build.bash').read_text(), re.M)[1]


def building(why, crates, self, what):
    """What is said during a build that ends well."""
    lines = [rf'{self}: building {what} \({why}\)\. Every crate is proved first, which can take some minutes\n']
    return ''.join(lines + [f'{self}: {i}/{len(crates)} {name}\n' for i, name in enumerate(crates, 1)])
