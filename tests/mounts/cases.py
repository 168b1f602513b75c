"""The cases of ./mounts and of the program behind it. A case has a new folder, in which `book` has boat 7's editions 1 (starboard) and 2 (port)
and boat 8's edition 1 (port), and `kept` is a copy of it. Unless a case says otherwise, book has to be the same afterwards."""
import functools
import re

import running
from running import Case as AnyCase

SAME = 'cmp book kept'
ADDED = '{ cat kept; sheet 7 3 1; } | cmp - book'
Case = functools.partial(AnyCase, after=SAME)
Adding = functools.partial(AnyCase, after=ADDED)

# In a repository where nothing is built, and nothing is then.
UNBUILT = 'mv "$REPO/target" t; {}; s=$?; [[ ! -e $REPO/target ]] && mv t "$REPO/target" && exit $s'

# What is printed.
STAYS, BECOMES = 'a shift (x, y) stays (x, y)', 'a shift (x, y) becomes (-x, y)'
THIRD = f'added: boat 7 edition 3 port, {BECOMES}; 4 sheets in book\n'
FIRST = f'boat 7 edition 1: starboard, {STAYS}\n'
LIST = 'boat 7 edition 1 starboard\nboat 7 edition 2 port\nboat 8 edition 1 port\n'
FULL = 'is full: 65536 sheets, 1048576 bytes, are the most'
CHANGED_NOT = '; nothing was changed'
# What is said.
USAGE = r'usage: \./mounts FILE add (.*\n)+'
PROGRAM_USAGE = 'mount_sheets: the arguments are FILE ask BOAT EDITION, .*\n'
UNWRITTEN = 'mounts: standard output cannot be written\n'
ADDED_UNWRITTEN = 'mounts: the sheet was added, but standard output cannot be written\n'
UNREAD = 'mounts: {} cannot be read: {}\n'
LONGER = 'mounts: over: the file is longer than 1048576 bytes, the most that is taken\n'
UNOPENED = 'mounts: {}: nothing was added, since the file cannot be opened for writing: {}\n'
PART = 'nothing was added, since only a part of the sheet could be written: the disk may be full\n'
FAILED = 'nothing was added, since the sheet could not be written: '
CUT = 'the file was cut back to its old length\n'
UNCUT = 'the file cannot be cut back to its old length, and may now end with a part of a sheet: Input/output error\n'
UNSURE = 'the sheet was added, but may not be on the disk: Input/output error\n'
GREW = 'nothing was added, since the file has another length than when it was read: something else writes to it\n'


def said(*sentences, name='book'):
    """Sentences of the program as the script passes them on."""
    return ''.join(f'mounts: {name}: {sentence}' for sentence in sentences)


def answers():
    return [
        Case('ask', 'mounts book ask 7 1', 0, FIRST),
        Case('ask, port', 'mounts book ask 8 1', 0, f'boat 8 edition 1: port, {BECOMES}\n'),
        Case('ask above the newest', 'mounts book ask 7 9', 0, f'boat 7 edition 2, the newest not above 9: port, {BECOMES}\n'),
        Case('ask for the highest edition', 'mounts book ask 7 4294967295', 0, f'boat 7 edition 2, the newest not above 4294967295: port, {BECOMES}\n'),
        Case('ask for edition 0', 'mounts book ask 7 0', 1, 'refuse 19 0: boat 7 has no sheet of edition 0 or before\n'),
        Case('ask for another boat', 'mounts book ask 9 2', 1, 'refuse 19 0: boat 9 has no sheet of edition 2 or before\n'),
        Case('ask for the highest boat', 'mounts book ask 4294967295 1', 1, 'refuse 19 0: boat 4294967295 has no sheet of edition 1 or before\n'),
        Case('ask an empty file', ': > none; mounts none ask 7 1; s=$?; cmp none /dev/null; exit $s', 1, 'refuse 19 0: boat 7 has no sheet of edition 1 or before\n'),
        Case('list', 'mounts book list', 0, LIST),
        Case('list a boat', 'mounts book list 7', 0, 'boat 7 edition 1 starboard\nboat 7 edition 2 port\n'),
        Case('list another boat', 'mounts book list 9', 0),
        Case('list an empty file', ': > none; mounts none list', 0),
        Adding('add', 'mounts book add 7 3 port', 0, THIRD),
        Case('add to starboard', 'mounts book add 8 2 starboard', 0, f'added: boat 8 edition 2 starboard, {STAYS}; 4 sheets in book\n',
             after='{ cat kept; sheet 8 2 0; } | cmp - book'),
        Case('add a new boat', 'mounts book add 4294967295 1 port && mounts book add 0 1 starboard && mounts book list 4294967295 && mounts book list 0', 0,
             f'added: boat 4294967295 edition 1 port, {BECOMES}; 4 sheets in book\nadded: boat 0 edition 1 starboard, {STAYS}; 5 sheets in book\n'
             'boat 4294967295 edition 1 port\nboat 0 edition 1 starboard\n', after='{ cat kept; sheet 4294967295 1 1; sheet 0 1 0; } | cmp - book'),
        Case('what was asked for stays when more is added', 'mounts book ask 7 2 > a; mounts book add 7 3 starboard; mounts book ask 7 2 | cmp - a', 0,
             f'added: boat 7 edition 3 starboard, {STAYS}; 4 sheets in book\n', after='[[ -s a ]]'),
        Case('add to an empty file', ': > none; mounts none add 1 1 port', 0, f'added: boat 1 edition 1 port, {BECOMES}; 1 sheet in none\n',
             after='sheet 1 1 1 | cmp - none'),
        Case('add to a missing file', 'umask 022; mounts none add 1 1 port', 0, f'added: boat 1 edition 1 port, {BECOMES}; 1 sheet in none\n',
             after='sheet 1 1 1 | cmp - none && [[ $(stat -c %a none) == 644 ]]'),
        Case('add to a missing file, refused', 'mounts none add 1 2 port', 1, 'refuse 21 0: boat 1 has no sheet yet and begins with edition 1, not 2\n',
             after='[[ ! -e none ]]'),
        Case('add an edition too far', 'mounts book add 7 4 port', 1, 'refuse 21 0: boat 7 goes on with edition 3, not 4\n'),
        Case('add an edition that is there', 'mounts book add 7 1 port', 1, 'refuse 21 0: boat 7 has edition 1 already and goes on with edition 3\n'),
        Case('add edition 0', 'mounts book add 7 0 port', 1, 'refuse 21 0: boat 7 goes on with edition 3, not 0\n'),
        Case('add edition 0 of a new boat', 'mounts book add 9 0 port', 1, 'refuse 21 0: boat 9 has no sheet yet and begins with edition 1, not 0\n'),
        Case('add the highest edition', 'mounts book add 7 4294967295 port', 1, 'refuse 21 0: boat 7 goes on with edition 3, not 4294967295\n'),
        Case('started by sh', 'sh "$REPO/mounts" book ask 7 1', 0, FIRST),
        Case('POSIX mode', 'POSIXLY_CORRECT=1 mounts book ask 7 1', 0, FIRST),
    ]


def shifts():
    for words, out in [('starboard 12 -3', '12 -3'), ('port 12 -3', '-12 -3'), ('port -12 3', '12 3'), ('port 0 0', '0 0'), ('port 32767 -32768', '-32767 -32768'),
                       ('port -32767 32767', '32767 32767'), ('starboard -32768 -32768', '-32768 -32768'), ('starboard 32767 32767', '32767 32767'),
                       ('port -1 -1', '1 -1'), ('port 1 1', '-1 1')]:
        yield Case(f'shift {words}', f'mounts shift {words}', 0, f'vector {out}\n')
    for y in ['0', '-32768', '32767']:
        yield Case(f'shift port -32768 {y}', f'mounts shift port -32768 {y}', 1, 'refuse 23 0: on port x = -32768 would become 32768, and 32767 is the most\n')


def sizes():
    """The largest file has 65536 sheets, here of one boat."""
    filled = 'cp "$ROOM/full" f; '
    return [
        Case('the largest file', filled + 'mounts f ask 7 65536; mounts f ask 7 1; mounts f list > l; s=$?; wc -l < l; head -n 1 l; tail -n 1 l; exit $s', 0,
             f'boat 7 edition 65536: port, {BECOMES}\n{FIRST}65536\nboat 7 edition 1 starboard\nboat 7 edition 65536 port\n', after='cmp f "$ROOM/full"'),
        Case('the largest file, all of it listed', filled + 'mounts f list | uniq | wc -l; mounts f list 8', 0, '65536\n'),
        Case('no room', filled + 'mounts f add 7 65537 port', 1, f'refuse 14 0: f {FULL}\n', after='cmp f "$ROOM/full"'),
        Case('no room for a new boat', filled + 'mounts f add 9 1 port', 1, f'refuse 14 0: f {FULL}\n', after='cmp f "$ROOM/full"'),
        Case('no room, and not the next edition', filled + 'mounts f add 7 65536 port', 1,
             'refuse 21 0: boat 7 has edition 65536 already and goes on with edition 65537\n', after='cmp f "$ROOM/full"'),
        Case('room for one', 'head -c 1048560 "$ROOM/full" > f; mounts f add 7 65536 port; mounts f add 7 65537 port', 1,
             f'added: boat 7 edition 65536 port, {BECOMES}; 65536 sheets in f\nrefuse 14 0: f {FULL}\n', after='cmp f "$ROOM/full"'),
        *(Case(f'a file that is too long: {words}', f'cp "$ROOM/over" over; mounts over {words}', 2, err=LONGER, after='cmp over "$ROOM/over"')
          for words in ['ask 7 1', 'list', 'add 7 65538 port', 'add 7 1 port']),
        Case('a file of one byte too many', '{ cat "$ROOM/full"; printf x; } > over; mounts over ask 7 1', 2, err=LONGER),
        Case('a file without an end', 'program /dev/zero list', 0, err='mount_sheets: the file is longer than 1048576 bytes, the most that is taken\n'),
    ]


def damages():
    """Damaged files, of which asking, listing and adding refuse the first bad sheet, and none is touched."""
    every = 'cp {0} {0}.kept; mounts {0} ask 7 1; mounts {0} list; mounts {0} add 7 3 port; s=$?; cmp {0} {0}.kept; exit $s'
    for name, place, records in [
        ('a side above 1', 0, 'sheet 7 1 2'),
        ('the highest side', 1, 'sheet 7 1 0; sheet 7 2 255'),
        *((f'byte {9 + n} set', 1, f'sheet 7 1 0; sheet 7 2 {(256 << 8 * n) + 1}') for n in range(3)),
        *((f'byte {12 + n} set', 1, f'sheet 7 1 0; sheet 7 2 1 {1 << 8 * n}') for n in range(4)),
        ('edition 0', 0, 'sheet 7 0 0'),
        ('an edition that does not begin at 1', 0, 'sheet 7 2 0'),
        ('an edition twice', 2, 'sheet 7 1 0; sheet 7 2 0; sheet 7 2 0'),
        ('an edition left out', 2, 'sheet 8 1 0; sheet 7 1 0; sheet 7 3 0'),
        ('editions in another order', 0, 'sheet 7 2 0; sheet 7 1 0'),
        ('two that are bad', 1, 'sheet 7 1 0; sheet 7 1 0; sheet 7 9 9'),
        ('all bytes set', 0, 'sheet 4294967295 4294967295 4294967295 4294967295'),
        ('text in place of sheets', 0, 'printf "boat 7 port....."'),
    ]:
        line = f'refuse 20 {place}: sheet {place}, counted from 0, is damaged: bytes {16 * place} to {16 * place + 15}{CHANGED_NOT}\n'
        yield Case(f'damage: {name}', f'{{ {records}; }} > bad; ' + every.format('bad'), 1, 3 * line)
    for whole, begin in [(3, 'cp book bad'), (0, ': > bad'), (1, 'sheet 7 9 9 > bad')]:
        lines = [f'refuse 20 {whole}: left over behind the last whole sheet: {n} byte{"s" * (n > 1)}, from byte {16 * whole} on{CHANGED_NOT}\n' for n in range(1, 16)]
        grow = begin + '; for n in {1..15}; do head -c 1 "$ROOM/full" >> bad; '
        left = f'[[ $(stat -c %s bad) == {16 * whole + 15} ]]'
        yield Case(f'damage: 1 to 15 bytes behind {whole} sheets', grow + 'for w in "ask 7 1" "add 7 3 1" list; do program bad $w; done; done', 0,
                   45 * f'refuse 20 {whole}\n', after=left)
        yield Case(f'damage: 5 bytes behind {whole} sheets', f'{begin}; printf 12345 >> bad; ' + every.format('bad'), 1, 3 * lines[4])
        if whole == 3:
            yield Case('damage: 1 to 15 bytes, explained', grow + 'mounts bad ask 7 1; done', 1, ''.join(lines), after=left)
    yield Case('damage: 15 bytes less than the largest file', 'head -c 1048561 "$ROOM/full" > bad; ' + every.format('bad'), 1,
               3 * f'refuse 20 65535: left over behind the last whole sheet: 1 byte, from byte 1048560 on{CHANGED_NOT}\n')


def files():
    """Files that cannot be read or written. Root may read and write any, so that some are tried as another user, and a disk that does not
    give its bytes is tried by /proc/self/mem, which cannot be read at its beginning, and by calls that fail (faults.c)."""
    nobody = '$NOBODY "$REPO/mounts"'
    no_file, denied, a_folder = 'No such file or directory', 'Permission denied', 'it is a directory'
    return [
        Case('a missing file: ask', 'mounts none ask 7 1', 2, err=UNREAD.format('none', no_file), after='[[ ! -e none ]]'),
        Case('a missing file: list', 'mounts none list', 2, err=UNREAD.format('none', no_file), after='[[ ! -e none ]]'),
        Case('a missing folder', 'mounts d/none add 7 1 port', 2, err='mounts: d/none cannot be made: No such file or directory\n', after='[[ ! -e d ]]'),
        Case('a file for a folder', 'mounts book/none add 7 1 port', 2, err='mounts: book/none cannot be made: Not a directory\n'),
        *(Case(f'a directory: {words}', f'mkdir d; mounts d {words}', 2, err=UNREAD.format('d', a_folder)) for words in ['ask 7 1', 'list', 'add 7 1 port']),
        Case('a directory, asked of the program', 'program . list', 0, err='mount_sheets: the file cannot be read: Is a directory\n'),
        *(Case(f'no ordinary file: {file}', f'mkfifo pipe; mounts {file} add 7 1 port', 2, err=UNREAD.format(file, 'it is no ordinary file'))
          for file in ['/dev/null', '/dev/full', 'pipe']),
        *(Case(f'an unreadable file: {words}', f'chmod 0 book; {nobody} book {words}; s=$?; chmod 644 book; exit $s', 2, err=UNREAD.format('book', denied))
          for words in ['ask 7 1', 'list', 'add 7 3 port']),
        Case('an unreadable file, asked of the program', 'chmod 0 book; $NOBODY "$REPO/target/bin/mount_sheets" book list; chmod 644 book', 0,
             err='mount_sheets: the file cannot be read: Permission denied\n'),
        Case('a folder that may not be searched', f'mkdir d; cp book d/f; chmod 0 d; {nobody} d/f ask 7 1; s=$?; chmod 700 d; exit $s', 2,
             err=UNREAD.format('d/f', denied)),
        Case('a folder that may not be listed', f'mkdir d; cp book d/f; chmod a+r d/f; chmod 111 d; {nobody} d/f ask 7 1', 2,
             err='mounts: .*/d/ cannot be read, which locking needs\n'),
        Case('a read-only file', f'chmod 444 book; {nobody} book ask 7 1; {nobody} book add 7 3 port', 2, FIRST, UNOPENED.format('book', denied)),
        Case('a read-only folder', f'chmod 555 .; {nobody} none add 7 1 port', 2, err=UNOPENED.format('none', denied), after='[[ ! -e none ]]'),
        Adding('a link', 'ln -s book link; mounts link add 7 3 port; mounts link ask 7 1', 0, THIRD.replace('in book', 'in link') + FIRST),
        Case('a link to nothing', 'ln -s none link; mounts link add 7 1 port', 2, err=UNREAD.format('link', no_file), after='[[ ! -e none ]]'),
        Case('a disk that does not give its bytes', 'program /proc/self/mem list', 0, err='mount_sheets: the file cannot be read: Input/output error\n'),
        *(Case(f'reading fails: {words}', f'FAULT_read="-5 *" faulty "$REPO/mounts" book {words}', 2, err=said('the file cannot be read: Input/output error\n'))
          for words in ['ask 7 1', 'list', 'add 7 3 port']),
        Case('reading fails behind a sheet', 'FAULT_read="16 -5 *" faulty "$REPO/mounts" book ask 7 1', 2, err=said('the file cannot be read: Input/output error\n')),
        Case('reading fails once', 'FAULT_read="16 -5" faulty "$REPO/mounts" book add 7 3 port', 2, err=said('the file cannot be read to its end\n')),
        Case('reading fails at the end', 'FAULT_read="48 -5 *" faulty "$REPO/mounts" book ask 7 1', 2, err=said('the file cannot be read: Input/output error\n')),
        Adding('reading takes few bytes at a time', 'FAULT_read="7 *" faulty "$REPO/mounts" book add 7 3 port', 0, THIRD),
        Case('reading takes few bytes at a time, the largest file', 'FAULT_read="4095 *" faulty "$REPO/mounts" "$ROOM/full" ask 7 65535', 0,
             f'boat 7 edition 65535: starboard, {STAYS}\n'),
    ]


def writes():
    """Sheets that cannot be written. A limit on a file's length stops a write as a full disk does: the system takes 8 bytes of 16, or none.
    /dev/full is no file that a sheet could stand in, and a disk that is really full is tried by --disk."""
    add = '"$REPO/mounts" book add 7 3 port'
    own = '"$REPO/target/bin/mount_sheets" book add 7 3 1'
    partly = 'cat kept; sheet 7 3 1 | head -c 8'
    return [
        Case('a part of a sheet', f'prlimit --fsize=56 {add}', 2, err=said(PART, CUT)),
        *(Case(f'{n} bytes of a sheet', f'prlimit --fsize={48 + n} {own}', 0, err=f'mount_sheets: {PART}mount_sheets: {CUT}') for n in [1, 8, 15]),
        Case('nothing of a sheet', f'prlimit --fsize=48 {add}', 2, err=said(FAILED + 'File too large\n', CUT)),
        Case('nothing of a sheet, the program alone', f'prlimit --fsize=48 {own}; exit $?', 153, err='(.*File size limit exceeded.*\n)?'),
        Adding('a sheet that just fits', f'prlimit --fsize=64 {add}', 0, THIRD),
        Case('a part of the first sheet', 'prlimit --fsize=8 "$REPO/mounts" none add 7 1 port', 2, err=said(PART, CUT, name='none'), after='cmp none /dev/null'),
        Case('a part of the first sheet, in a file of bytes that are no letters', """prlimit --fsize=8 "$REPO/mounts" $'\\xff' add 7 1 port""", 2,
             err=said(PART, CUT, name='\udcff'), after="cmp $'\\xff' /dev/null && [[ ! -e $(echo .mounts-*) ]]"),
        Case('a refused first sheet, in a file of bytes that are no letters', "mounts $'\\xff' add 7 2 port", 1,
             'refuse 21 0: boat 7 has no sheet yet and begins with edition 1, not 2\n', after="[[ ! -e $'\\xff' && ! -e $(echo .mounts-*) ]]"),
        Case('a full disk', f'FAULT_write=-28 faulty {add}', 2, err=said(FAILED + 'No space left on device\n', CUT)),
        Case('a full disk, and a part', f'FAULT_write=8 faulty {add}', 2, err=said(PART, CUT)),
        Case('writing takes nothing', f'FAULT_write=0 faulty {add}', 2, err=said(PART, CUT)),
        Adding('after a part was cut back', f'FAULT_write=8 faulty {add} 2> /dev/null; {add}', 0, THIRD),
        Case('a part that cannot be cut back', f'FAULT_write=8 FAULT_ftruncate=-5 faulty {add}; mounts book add 7 3 port', 1,
             f'refuse 20 3: left over behind the last whole sheet: 8 bytes, from byte 48 on{CHANGED_NOT}\n', said(PART, UNCUT), after=f'{{ {partly}; }} | cmp - book'),
        Adding('the disk does not say that it has it', f'FAULT_fsync=-5 faulty {add}', 2, err=said(UNSURE)),
        Adding('the file cannot be closed', f'FAULT_close=-5 faulty {add}', 0, THIRD),
        Adding('the program is ended after writing', f'FAULT_fsync=kill faulty {add}', 2,
               err='(.*Killed.*\n)?mounts: book: the program .* ended with status 137 and no answer: .*; list FILE to see whether the sheet was added\n'),
        Case('the program is ended before writing', f'FAULT_write=kill faulty {add} 2> /dev/null', 2),
        Case('the file grows meanwhile', f'FAULT_lseek=grow faulty {add}', 2, err=said(GREW), after='head -c 48 book | cmp - kept && [[ $(stat -c %s book) == 64 ]]'),
        Case('the end of the file cannot be found', f'FAULT_lseek=-5 faulty {add}', 2, err=said(GREW)),
        Case('a refused sheet, and a disk that cannot be written', 'FAULT_write=kill FAULT_lseek=kill faulty "$REPO/mounts" book add 7 9 port', 1,
             'refuse 21 0: boat 7 goes on with edition 3, not 9\n'),
    ]


def full_disk():
    """A disk of one page, full of sheets, by --disk alone: who runs it has to be allowed to mount one."""
    inside = 'unshare --mount --map-root-user'
    mount = "mkdir d; mount -t tmpfs -o size=4k none d; head -c 4096 \"$ROOM/full\" > d/book; "
    return [Case(name, f"{inside} bash -c '{mount}\"$REPO/mounts\" {command}; s=$?; head -c 4096 \"$ROOM/full\" | cmp - d/book; exit $s'", 2, err=err)
            for name, command, err in [('a disk that is full', 'd/book add 7 257 port', said(FAILED + 'No space left on device\n', CUT, name='d/book')),
                                       ('a disk that is full, a new file', 'd/none add 7 1 port', said(FAILED + 'No space left on device\n', CUT, name='d/none'))]]


def several_at_once():
    """wait in a call of the program makes it wait until there is `go`."""
    bad_disk = 'LD_PRELOAD=$ROOM/faults.so FAULT_GO=$PWD/go '
    slow = f'{bad_disk} FAULT_lseek=wait "$REPO/mounts" book add 7 3 port > one & p=$!; wait_for test -e go.waits; '
    seen = 'sleep 0.3; [[ ! -s two ]] || echo "it did not wait"; touch go; wait $p; wait $q; s=$?; cat one two; exit $s'
    many = 'for n in {20..29}; do mounts book add $n 1 port > /dev/null & done; wait; mounts book list > l; wc -l < l; grep -c "edition 1 port" l'
    return [
        Case('ten at once', many, 0, '13\n11\n', after='head -c 48 book | cmp - kept && [[ $(stat -c %s book) == 208 ]]'),
        Adding('ten at once that add the same', 'for n in {1..10}; do mounts book add 7 3 port & done > l; wait; sort l | uniq -c | sed "s/^ *//"', 0,
               f'1 {THIRD}9 refuse 21 0: boat 7 has edition 3 already and goes on with edition 4\n'),
        Case('one adds while another adds', slow + 'mounts book add 8 2 starboard > two & q=$!; ' + seen, 0,
             THIRD + f'added: boat 8 edition 2 starboard, {STAYS}; 5 sheets in book\n', after='{ cat kept; sheet 7 3 1; sheet 8 2 0; } | cmp - book'),
        Adding('one asks while another adds', slow + 'mounts book ask 7 3 > two & q=$!; ' + seen, 0, THIRD + f'boat 7 edition 3: port, {BECOMES}\n'),
        Adding('one adds through a link in another folder while another adds', 'mkdir d; ln -s ../book d/link; ' + slow + 'mounts d/link add 7 3 port > two & q=$!; ' + seen,
               1, THIRD + 'refuse 21 0: boat 7 has edition 3 already and goes on with edition 4\n'),
        Case('one asks while another asks', bad_disk + 'FAULT_read=wait "$REPO/mounts" book ask 7 1 > one & wait_for test -e go.waits; mounts book ask 8 1; touch go; wait; cat one', 0,
             f'boat 8 edition 1: port, {BECOMES}\n{FIRST}'),
        Adding('the script is ended while it adds', slow.replace('> one', '> one 2> /dev/null') + 'kill -KILL $p; wait $p 2> /dev/null; mounts book ask 7 3 > two & q=$!; ' + seen, 0,
               f'boat 7 edition 3: port, {BECOMES}\n'),
        # the shell of the case may tell that its job was interrupted
        Adding('interrupted while it adds', 'set -m; ' + slow + 'kill -INT -- -$p; touch go; wait $p 2> /dev/null; set +m; mounts book list 7 | tail -n 1', 0,
               'boat 7 edition 3 port\n', r'(\[1\].*Interrupt.*\n)?'),
        Case('another that does not end', 'exec 9< .; flock -x 9; mounts book ask 7 1', 2,
             err='mounts: .*/work/ is locked by another ./mounts that has not ended: call again\n'),
        Case('no flock', 'mkdir tools; for f in "$ROOM"/tools/*; do [[ $f == */flock ]] || ln -s "$f" tools; done; PATH=$PWD/tools mounts book add 7 3 port', 2,
             err='mounts: flock is missing, and without it two calls at once could spoil FILE\n'),
    ]


def descriptors():
    return [
        *(Case(f'standard output full: {words}', f'mounts {words} > /dev/full', 2, err=UNWRITTEN)
          for words in ['book ask 7 1', 'book list', 'book ask 9 1', 'book add 7 9 port', 'shift port 1 2', '--help', '--version']),
        Adding('standard output full: add', 'mounts book add 7 3 port > /dev/full', 2, err=ADDED_UNWRITTEN),
        Adding('nobody reads standard output: add', 'no_reader; mounts book add 7 3 port >&4', 2, err=ADDED_UNWRITTEN),
        Case('nobody reads standard output: list', 'no_reader; mounts "$ROOM/full" list >&4', 2, err=UNWRITTEN),
        Case('standard output closed: add', 'mounts book add 7 3 port >&-', 2, err='mounts: standard output is closed\n'),
        Case('standard output closed: --help', 'mounts --help >&-', 2, err='mounts: standard output is closed\n'),
        Adding('standard error closed', 'mounts book add 7 3 port 2>&-', 0, THIRD),
        Case('standard error closed, a missing file', 'mounts none ask 7 1 2>&-', 2),
        Adding('standard input closed', 'mounts book add 7 3 port <&-', 0, THIRD),
        Adding('standard input and error closed', 'mounts book add 7 3 port <&- 2>&-', 0, THIRD),
        Case('all closed', 'mounts book add 7 3 port <&- >&- 2>&-', 2),
        Adding('the program, standard output full', 'program book add 7 3 1 > /dev/full', 0,
               err='mount_sheets: the sheet was added, but standard output cannot be written: No space left on device\n'),
        Case('the program, standard output full: list', 'program "$ROOM/full" list > /dev/full', 0,
             err='mount_sheets: standard output cannot be written: No space left on device\n'),
        Case('the program, standard output closed: ask', 'program book ask 7 1 >&-', 0, err='mount_sheets: standard output cannot be written: Bad file descriptor\n'),
    ]


def names():
    def called(name, shown):
        """A file of this name, as bash writes it, is added to and asked; shown is how it is named."""
        return f'f={name}; cp book "$f"; mounts "$f" add 7 3 port && mounts "$f" ask 7 1', THIRD.replace('book', shown) + FIRST

    long_name = 'n' * 300
    return [
        *(Case(f'a name with {what}', command, 0, out) for what, (command, out) in {
            'a blank and quotes': called('''$'a "b\\' c' ''', '''a "b' c'''), 'a line feed': called(r"$'a\nb'", r"$'a\nb'"), 'a star': called("'*'", '*'),
            'letters beyond ASCII': called('Přístav⚓', 'Přístav⚓'), 'bytes that are no letters': called(r"$'\xff\xfe'", '\udcff\udcfe'),
            'a blank alone': called("' '", ' '), 'a tilde': called("'~'", '~'), 'a percent sign': called("'%s%n'", '%s%n'), 'a backslash': called(r"'a\nb'", r'a\nb'),
        }.items()),
        *(Case(f'called {name}', f'cp book {name}; mounts {name} add 7 3 port; mounts {name} ask 7 1', 0, THIRD.replace('book', name) + FIRST)
          for name in ['./-x', './shift', './--help', './-', '-', 'list', 'ask', 'refuse']),
        *(Case(f'called {name}, behind --', f'cp book ./{name}; mounts -- {name} ask 7 1', 0, FIRST) for name in ['-x', 'shift', '--help', '--', '-']),
        Case('a dash in front alone', 'cp book ./-x; mounts -x list', 2, err='mounts: -x is no option; a FILE of this name is given behind --\n' + USAGE),
        Case('a link to the script', 'ln -s "$REPO/mounts" "$ROOM/link"; "$ROOM/link" book ask 7 1', 0, FIRST),
        Case('found on the PATH', 'PATH=$REPO:$PATH; command mounts book ask 7 1', 0, FIRST),
        Case('another folder', 'mkdir d; cd d; mounts ../book ask 7 1', 0, FIRST),
        Case('the whole path', 'cd /; mounts "$OLDPWD/book" ask 7 1', 0, FIRST),
        Case('CDPATH', 'mkdir d; CDPATH=$PWD:/ mounts d/../book ask 7 1', 0, FIRST),
        Case('an empty name', "mounts '' add 7 1 port", 2, err='mounts: FILE has no name\n' + USAGE),
        Case('an empty name, of the program', "program '' add 7 1 1", 0, err='mount_sheets: nothing was added, since the file cannot be opened .*: No such file or directory\n'),
        Case('a name that is too long', f'mounts {long_name} add 7 1 port', 2, err=f'mounts: {long_name} cannot be made: File name too long\n'),
        Case('a path that is too long', 'p=.; for n in {1..2100}; do p+=/.; done; program "$p/book" list', 0, err=PROGRAM_USAGE),
        Case('a missing name with a line feed', r"mounts $'a\nb' list", 2, err=r"mounts: \$'a\\nb' cannot be read: No such file or directory\n"),
    ]


def bad_words():
    """Words that are no number, no side and no command; nothing is looked at and nothing is built."""
    u32, i16 = 'a whole number from 0 to 4294967295', 'a whole number from -32768 to 32767'
    words = ['x', '-1', '4294967296', '99999999999999999999', '00012', '01', '+5', '1e3', '1.0', '0x10', ' 1', '1 ', '', '-', '-0', '１', '٣', '²', '1\n', '1;2', '$n', '*']
    for word in words:
        shown = {'': "''", '1\n': r"\$'1\\n'"}.get(word) or ''.join('\\' + c if c in '+*.$' else c for c in word)
        given = "$'1\\n'" if word == '1\n' else f"'{word}'"
        err = ''.join(f'mounts: {name} is {shown}, which is no {{}} .*\n' for name in ['BOAT', 'BOAT', 'BOAT', 'EDITION', 'EDITION']).format(*5 * [u32[2:]])
        err += ''.join(f'mounts: {name} is {shown}, which is no {{}} .*\n' for name in ['X', 'Y']).format(*2 * [i16[2:]]) if word != '-1' else ''
        asked = [f'book add {given} 3 port', f'book ask {given} 1', f'book list {given}', f'book add 7 {given} port', f'book ask 7 {given}']
        asked += [f'shift port {given} 1', f'shift port 1 {given}'] if word != '-1' else []
        yield Case(f'no number: {word!r}', '; '.join(f'mounts {words}' for words in asked), 2, err=err)
    for word in ['32768', '-32769', '-99999999999']:
        yield Case(f'no shift: {word}', f'mounts shift starboard {word} 0; mounts shift starboard 0 {word}', 2,
                   err=f'mounts: X is {word}, which is no {i16[2:]} .*\nmounts: Y is {word}, which is no {i16[2:]} .*\n')
    for word in ['left', 'Port', 'PORT', '0', '1', '', 'starboard ', 'starboard|port', 'p']:
        shown = word.replace('|', r'\|') or "''"
        yield Case(f'no side: {word!r}', f"mounts book add 7 3 '{word}'; mounts shift '{word}' 1 2", 2,
                   err=2 * f'mounts: the side is {shown}, which is neither starboard nor port\n')
    for words, sentence in [('', ''), ('--', ''), ('book', 'it is not said what to do with FILE: add, ask or list'), ('book frob', 'frob is none of add, ask and list'),
                            ('book Add 7 3 port', 'Add is none of add, ask and list'), ("book ''", 'it is not said .*'), ('add 7 3 port', '7 is none of add, ask and list'),
                            *((f'book add {words}', r'the words are to be: FILE add BOAT EDITION starboard\|port') for words in ['', '7', '7 3', '7 3 port 1']),
                            *((f'book ask {words}', 'the words are to be: FILE ask BOAT EDITION') for words in ['', '7', '7 1 1', '7 1 port']),
                            ('book list 7 1', r'the words are to be: FILE list \[BOAT\]'), ('--frobnicate', '--frobnicate is no option; .*'), ('-h', '-h is no option; .*'),
                            *((f'shift {words}', r'the words are to be: shift starboard\|port X Y') for words in ['', 'port', 'port 1', 'port 1 2 3', 'list'])]:
        yield Case(f'misused: {words}', f'mounts {words}', 2, err=(f'mounts: {sentence}\n' if sentence else '') + USAGE)
    yield Case('bad words, nothing built', UNBUILT.format('mounts book add 7 3 left; mounts none list; mounts shift port 1; mounts'), 2, err='(?s)mounts: the side is left.*')


def options(crates, version):
    return [
        Case('--help', 'mounts --help > help; s=$?; grep -c -e "(x, y) becomes (-x, y)" -e "never changed" -e "65536" -e "nothing but this program" -e "Keep a copy" '
             '-e "^Status: 0 .* 1 .* 2 " help; exit $s', 0, '5\n'),
        Case('--help, nothing built', UNBUILT.format('mounts --help > /dev/null'), 0),
        Case('--help has lines that fit', 'mounts --help | grep -c "^.\\{96\\}"', 1, '0\n'),
        Case('--version', 'mounts --version', 0, f'hromulice {version}\nkit fake kit 1\nsources SOURCES\n'),
        Case('--version without rt', 'mounts --version', 0, f'hromulice {version}\nkit fake kit 1\nsources SOURCES\n', kit='none'),
        Adding('without rt', 'mounts book add 7 3 port', 0, THIRD, kit='none'),
        Adding('to be built', 'mounts book add 7 3 port', 0, THIRD, running.building('the sources changed since it was built', crates, 'mounts', 'the program for mount sheets'),
               'echo "// changed" >> "$REPO/crates/mounts_code/src/lib.rt"', 1),
        Case('a read-only repository', '$NOBODY "$REPO/mounts" book ask 7 1', 0, FIRST, before='chmod -R a-w "$REPO"', after=SAME + ' && chmod -R u+w "$REPO"'),
    ]


def own_lines():
    """The program itself: what it prints is what the script reads, and it takes any words."""
    for words, out in [('book ask 7 1', 'found 1 0'), ('book ask 7 4294967295', 'found 2 1'), ('book ask 9 1', 'refuse 19 0'), ('book list', '7 1 0\n7 2 1\n8 1 1\nlisted 3'),
                       ('book list 8', '8 1 1\nlisted 1'), ('book list 4294967295', 'listed 0'), ('book add 7 9 1', 'refuse 21 0'), ('book add 7 3 2', 'refuse 22 0'),
                       ('book add 7 9 4294967295', 'refuse 22 0'), ('none add 7 1 2', 'refuse 22 0'), ('shift 0 -32768 32767', 'vector -32768 32767'),
                       ('shift 1 32767 -32768', 'vector -32767 -32768'), ('shift 1 -32768 0', 'refuse 23 0'), ('shift 2 -32768 0', 'refuse 22 0'),
                       ('shift 4294967295 0 0', 'refuse 22 0'), ('shift 0 -0 00000', 'vector 0 0')]:
        yield Case(f'program {words}', f'program {words}', 0, out + '\n', after=SAME + ' && [[ ! -e none ]]')
    yield Adding('program book add', 'program book add 7 3 1', 0, 'added 4\n')
    yield Case('program ./shift', 'cp book shift; program ./shift ask 7 1; program shift ask 7 1', 0, 'found 1 0\n', PROGRAM_USAGE)
    words = ['', 'book', 'book ask', 'book ask 7', 'book ask 7 1 1', 'book add 7 3', 'book add 7 3 1 1', 'book list 7 7', 'book frob 7 3 1', 'book aska 7 1', 'book as 7 1',
             'shift', 'shift 0', 'shift 0 1', 'shift 0 1 2 3', 'shift 0 1 x', 'shift 0 32768 0', 'shift 0 0 -32769', 'shift -1 0 0', 'shift 0 - 0', 'shift 0 -- 0', "shift 0 '' 0",
             *(f'book ask {word} 1' for word in ['x', '-1', '+1', '4294967296', '10000000000', '99999999999999999999999999', "''", '1x', '１'])]
    for word in [*words, *(line.replace('ask', 'add', 1) + ' 1' for line in words[-9:])]:
        yield Case(f'program, bad words: {word}', f'program {word}', 0, err=PROGRAM_USAGE)


def wrong_lines():
    """What the program may not print. None of it is passed on. The program of these cases prints what SAYS has."""
    built = """echo "// changed" >> "$REPO/crates/mounts_code/src/lib.rt"; says x; printf '#!/bin/sh\\nprintf "%%b\\\\n" "$SAYS"\\n' > "$FAKE_PRODUCT"; mounts shift port 1 2"""

    def tried(asked, lines):
        return '; '.join(f"SAYS='{line}' mounts {asked}" for line in lines)

    yield Case('the program says what it may', "SAYS='found 5 1' mounts book ask 7 9; SAYS='added 9' mounts book add 7 3 port; SAYS='7 1 0\\nlisted 1' mounts book list", 0,
               f'boat 7 edition 5, the newest not above 9: port, {BECOMES}\n' + THIRD.replace('4', '9') + 'boat 7 edition 1 starboard\n', before=built)
    for asked, lines in [('book ask 7 1', ['found 1', 'found 1 2', 'found 01 1', 'found -1 1', 'found 1 1 ', 'found  1 1', 'added 4', 'listed 0', 'vector 1 1', 'refuse 22 0',
                                           'refuse 19 1', 'refuse 14 0', 'refuse 20', 'refuse 20 x', 'ok', r'x\nfound 1 1', r'found 1 1\nfound 1 1', '']),
                         ('book add 7 3 port', ['added', 'added 04', 'added 4 4', 'found 1 1', 'refuse 19 0', 'refuse 21 1', 'refuse 22 0', '']),
                         ('shift port 1 2', ['vector 1', 'vector 1 2 3', 'vector +1 2', 'refuse 22 0', 'refuse 20 0', ''])]:
        yield Case(f'the program says something else to {asked}', tried(asked, lines), 2, before=built,
                   err=len(lines) * 'mounts: .*the program target/bin/mount_sheets ended with status 0 and no answer: .*\n')
    lines = [r'7 1 0\nlisted 2', r'7 1 2\nlisted 1', r'7 1 0\nlisted 0', r'7 01 0\nlisted 1', r'x\n7 1 0\nlisted 2', r'listed 1']
    yield Case('the program lists something else', tried('book list', lines), 2, before=built,
               err=len(lines) * 'mounts: book: the program target/bin/mount_sheets did not list as many sheets as it says\n')


def comparing():
    """tests/mounts/compare on lines that are right, and on wrong ones."""
    right = 'mkdir d; cp book d/0.sheets; printf "%s\\n" "ask 7 1 -> found 1 0" "add 7 3 1 -> added 4" "add 7 3 2 -> refuse 22 0" > d/0.asks; '
    right += 'printf 123 > d/1.sheets; echo "add 7 1 0 -> refuse 20 0" > d/1.asks; : > d/2.sheets; echo "add 7 1 0 -> added 1" > d/2.asks; '
    program = '"$REPO/target/bin/mount_sheets"'
    silent = """printf '#!/bin/sh\\necho "found 1 0"\\n' > p; chmod +x p; """
    return [
        Case('compare', right + f'"$COMPARE" d {program}', 0, 'compare: 8 lines, 0 faults\n'),
        Case('compare, another answer', right + f'sed -i "s/found 1 0/found 1 1/" d/0.asks; "$COMPARE" d {program}', 1,
             "compare: 0.asks: ask 7 1: printed 'found 1 0', due 'found 1 1'; said ''; status 0\ncompare: 8 lines, 1 faults\n"),
        Case('compare, a file that has to change', right + f'sed -i "s/refuse 22 0/added 4/" d/0.asks; "$COMPARE" d {program} | tail -n 2', 0,
             'compare: 0.asks: add 7 3 2: the file is not what it has to be\ncompare: 8 lines, 2 faults\n'),
        Case('compare, another program', right + silent + '"$COMPARE" d ./p | tail -n 1', 0, 'compare: 8 lines, 9 faults\n'),
        Case('compare, nothing', f'mkdir d; "$COMPARE" d {program}', 1, 'compare: 0 lines, 0 faults\n'),
    ]


def readme():
    """The commands that README.md shows, and what it says that they print."""
    blocks = re.search(r'^((?:    \./mounts .*\n)+)\nprint\n\n((?:    .*\n)+)', (running.root / 'README.md').read_text(), re.M)
    commands, printed = (re.sub('^    ', '', block, flags=re.M) for block in blocks.groups())
    return [Case("README.md's commands", commands.replace('./mounts', 'mounts'), 0, printed)]


def all_cases(crates, version):
    """crates: what the program is made from, in order. version: the one that the header has."""
    return [*answers(), *shifts(), *sizes(), *damages(), *files(), *writes(), *several_at_once(), *descriptors(), *names(), *bad_words(),
            *own_lines(), *comparing(), *wrong_lines(), *readme(), *options(crates, version)]
