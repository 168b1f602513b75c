"""The cases of ./check (running.py). A case has a copy of the repository, built, and stubs/rt and stubs/rattle in place of the kit's."""
import running
from running import Case

P1, BELOW = 'accept 384 384 0 0 0 0 0 0\n', 'refuse 10 50\n'
# What other programs say.
ONES, SEVENS = 'accept 1 1 1 1 1 1 1 1', 'accept 7 7 7 7 7 7 7 7'
USAGE = r'usage: \./check .*\n'
UNWRITTEN = 'check: standard output cannot be written\n'
CHANGED = 'the sources changed since it was built'
ADD = 'echo "// changed" >> '
SHEETS = 'the program for mount sheets'
NO_RECORD = '[[ ! -e target/bin/checker.built ]]'


def building(why, crates, self='check', what='the checker'):
    return running.building(why, crates, self, what)


def some(crates):
    """What is said of each crate, in any order."""
    return '(check: [0-9]+/' + str(len(crates)) + r' \w+\n)' + '{' + str(len(crates)) + '}'


def answers():
    several = 'samples/p1.batch: ' + P1
    return [
        Case('a file', './check samples/p1.batch', 0, P1),
        Case('a file that is refused', './check samples/vector_below.batch', 1, BELOW),
        Case('number 13', './check samples/short_reference.batch', 1, 'refuse 13 2 896 896 882 0 0 0 1 0\n'),
        Case('standard input', './check < samples/p1.batch', 0, P1),
        Case('standard input by name', './check - < samples/vector_below.batch', 1, BELOW),
        Case('a pipe', 'cat samples/p1.batch | ./check', 0, P1),
        Case('a pipe as a file', './check <(cat samples/p1.batch)', 0, P1),
        Case('empty input', './check < /dev/null', 1, 'refuse 16 0\n'),
        Case('several, accepted', './check samples/p1.batch samples/b_picture.batch', 0, several + 'samples/b_picture.batch: accept 5376 5376 5236 5344 0 0 0 32\n'),
        Case('several, one refused', './check samples/vector_below.batch samples/p1.batch', 1, 'samples/vector_below.batch: ' + BELOW + several),
        Case('several, all statuses', './check samples/p1.batch none samples/vector_below.batch samples samples/p1.batch', 2,
             several + 'samples/vector_below.batch: ' + BELOW + several,
             'check: none cannot be read: No such file or directory\ncheck: samples cannot be read: it is a directory\n'),
        Case('several, standard input among them', './check samples/p1.batch - < samples/vector_below.batch', 1, several + '-: ' + BELOW),
        Case('standard input twice', './check - - < samples/p1.batch', 2, err='check: standard input can be read once.*\n'),
        Case('started by sh', 'sh ./check samples/p1.batch', 0, P1),
        Case('POSIX mode', 'POSIXLY_CORRECT=1 ./check samples/p1.batch none', 2, several, 'check: none cannot be read: .*\n'),
    ]


def options(version):
    numbered = r"""sed -i 's/^\(#define HROMULICE_VERSION_TEXT\) .*/\1 "9.8.7"/' include/hromulice.h"""
    return [
        Case('--version, as the header has it', './check --version > v; s=$?; head -n 1 v; exit $s', 0, f'hromulice {version}\n'),
        Case('no argument on a terminal', './check', 2, err=USAGE, terminal=True),
        Case('an unknown option', './check --frobnicate samples/p1.batch', 2, err='check: --frobnicate is no option\n' + USAGE),
        Case('an unknown option behind a file', './check samples/p1.batch -x', 2, err='check: -x is no option\n' + USAGE),
        Case('--help', './check --help > help; s=$?; grep -c -e "accept, and" -e "layout and the buffers alone" -e little-endian -e "^Status: 0 .* 1 .* 2 " help; exit $s',
             0, '4\n'),
        Case('--help, nothing built', './check --help > /dev/null', 0, before='rm -r target', after='[[ ! -e target ]]'),
        Case('--help, full', './check --help > /dev/full', 2, err=UNWRITTEN),
        Case('--help, closed', './check --help >&-', 2, err='check: standard output is closed\n'),
        Case('--version', './check --version', 0, 'hromulice 9.8.7\nkit fake kit 1\nsources SOURCES\n',
             before=numbered),
        Case('--version without rt', './check --version', 0, 'hromulice 9.8.7\nkit fake kit 1\nsources SOURCES\n', before=numbered, kit='none'),
        Case('--version of no version', './check --version', 2, err='check: {repo}/include/hromulice.h names no version\n',
             before="sed -i '/HROMULICE_VERSION_TEXT/d' include/hromulice.h"),
        Case('--version, full', './check --version > /dev/full', 2, err=UNWRITTEN),
    ]


def descriptors(crates):
    changed = ADD + 'crates/fields/src/lib.rt'
    return [
        Case('standard input closed', './check <&-', 2, err='check: standard input cannot be read: it is closed\n'),
        Case('standard input closed, nothing built', './check - <&-', 2, err='check: standard input cannot be read: it is closed\n', before='rm -r target'),
        Case('standard input closed and a file', './check samples/p1.batch <&-', 0, P1),
        Case('standard input closed and reached by its path', './check /dev/stdin <&-', 2, err='check: /dev/stdin cannot be read: .*\n'),
        Case('standard output closed', './check samples/p1.batch >&-', 2, err='check: standard output is closed\n'),
        Case('standard output full', './check samples/p1.batch > /dev/full', 2, err=UNWRITTEN),
        Case('standard output full, several files', './check samples/p1.batch samples/vector_below.batch > /dev/full', 2, err=UNWRITTEN),
        Case('standard output full, refused', './check samples/vector_below.batch > /dev/full', 2, err=UNWRITTEN),
        Case('nobody reads standard output', './check samples/p1.batch >&4', 2, err=UNWRITTEN, before='no_reader'),
        Case('standard error closed', './check samples/p1.batch 2>&-', 0, P1),
        Case('standard error closed, refused', './check none samples/vector_below.batch 2>&-', 2, 'samples/vector_below.batch: ' + BELOW),
        Case('standard error closed, to be built', './check samples/p1.batch 2>&-', 0, P1, before=changed, builds=1),
        Case('nobody reads standard error, to be built', './check samples/p1.batch 2>&4', 0, P1, before='no_reader; ' + changed, builds=1),
        Case('all closed', './check samples/p1.batch <&- >&- 2>&-', 2),
        Case('standard input that may only be written', './check 0> written', 2, err='check: standard input cannot be read\n'),
        Case('a directory as standard input', './check < samples', 2, err='check: standard input cannot be read: it is a directory\n'),
        Case('standard input, to be built', './check < samples/vector_below.batch', 1, BELOW, building(CHANGED, crates), changed, builds=1),
    ]


def names():
    return [
        Case('another folder', 'cd samples && ../check p1.batch', 0, P1),
        Case('the root folder', 'here=$PWD; cd / && "$here/check" "$here/samples/p1.batch"', 0, P1),
        Case('a link', 'ln -s "$PWD/check" "$ROOM/link"; cd / && "$ROOM/link" "$OLDPWD/samples/p1.batch"', 0, P1),
        Case('relative links in a chain', 'cd "a b" && c/first ../samples/p1.batch', 0, P1,
             before='mkdir -p "a b/c"; ln -s ../../samples/up "a b/c/first"; ln -s ../check samples/up'),
        Case('found on the PATH', 'mkdir on; ln -s ../check on/check-batch; cd samples && PATH=$PATH:$PWD/../on check-batch p1.batch', 0, P1),
        Case('CDPATH', 'CDPATH=$PWD:/ bash samples/../check samples/p1.batch', 0, P1),
        Case('CDPATH, to be built', 'CDPATH=$PWD:/ bash samples/../check samples/p1.batch 2> /dev/null', 0, P1, before=ADD + 'crates/rows/src/lib.rt', builds=1),
        Case('a repository whose name has a blank, quotes and a line feed', '"$ROOM/$odd/check" "$ROOM/$odd/samples/p1.batch" 2> /dev/null', 0, P1,
             before='''odd=$'a "b\\' c\\n'; rm -rf "$ROOM/$odd"; cp -a . "$ROOM/$odd"; echo >> "$ROOM/$odd/crates.txt"''', builds=1),
        Case('a blank and quotes', '''cp samples/p1.batch $'a "b\\' c'; ./check $'a "b\\' c' samples/p1.batch''', 0,
             '''a "b' c: ''' + P1 + 'samples/p1.batch: ' + P1),
        Case('a line feed', rf'''f=$'a: {ONES}\nb'; cp samples/vector_below.batch "$f"; ./check "$f"''', 1, BELOW),
        Case('a line feed, among several', rf'''f=$'a: {ONES}\nb'; cp samples/vector_below.batch "$f"; ./check "$f" "$f" none''', 2,
             2 * (rf"$'a: {ONES}\nb': " + BELOW), 'check: none cannot be read: .*\n'),
        Case('a line feed in a missing name', r'''./check $'a\nb' ''', 2, err=r"check: \$'a\\nb' cannot be read: No such file or directory\n"),
        Case('a dash in front, behind --', 'cp samples/p1.batch ./-x.batch; ./check -- -x.batch', 0, P1),
        Case('a dash in front, with a folder', 'cp samples/p1.batch ./-x.batch; ./check ./-x.batch', 0, P1),
        Case('a dash in front alone', 'cp samples/p1.batch ./-x.batch; ./check -x.batch', 2, err='check: -x.batch is no option\n' + USAGE),
        Case('a file called -', 'cp samples/p1.batch ./-; ./check ./- < samples/vector_below.batch', 0, P1),
        Case('a directory', './check samples', 2, err='check: samples cannot be read: it is a directory\n'),
        Case('a missing file', './check none', 2, err='check: none cannot be read: No such file or directory\n'),
        Case('a missing file, to be built', './check none', 2, err='check: none cannot be read: No such file or directory\n', before='rm -r target'),
        Case('an empty name', "./check ''", 2, err="check: '' cannot be read: No such file or directory\n"),
        Case('a link to nothing', 'ln -s none link; ./check link', 2, err='check: link cannot be read: No such file or directory\n'),
        Case('an unreadable file', 'cp samples/p1.batch f; chmod 0 f; $NOBODY ./check f', 2, err='check: f cannot be read: Permission denied\n'),
        Case('a folder that may not be searched', 'mkdir d; cp samples/p1.batch d/f; chmod 0 d; $NOBODY ./check d/f; s=$?; chmod 700 d; exit $s', 2,
             err='check: d/f cannot be read: Permission denied\n'),
    ]


def old_products(crates):
    """Each state in which the program that is there must not be believed, with the reason that is given. The new one says SEVENS."""
    other = rf"printf '#!/bin/sh\necho {ONES}\n'"
    not_built = r'target/bin/checker is not the file that was built'
    unknown = r'nothing says what target/bin/checker was built from'
    states = [
        ("the program's source changed", ADD + 'crates/checker/src/main.rt', CHANGED),
        ("a lower crate's source changed", ADD + 'crates/fields/src/lib.rt', CHANGED),
        ("a lower crate's spec changed", ADD + '"$(find crates/picture/specs -type f | sort | head -n 1)"', CHANGED),
        ("a lower crate's proof changed", ADD + '"$(find crates/answers/proofs -type f | sort | tail -n 1)"', CHANGED),
        ('a file came', 'touch crates/rows/proofs/New.antt', CHANGED),
        ('a file went', 'rm "$(find crates/rows/proofs -type f | sort | head -n 1)"', CHANGED),
        ('a file has another name', 'mv crates/input/src/lib.rt crates/input/src/lib2.rt', CHANGED),
        ('two files are exchanged', 'cd crates/batch_code/src; set -- *.rt; mv $1 x; mv $2 $1; mv x $2; cd ../../..', CHANGED),
        ("the program's input changed", 'printf x >> crates/checker/stdin', CHANGED),
        ('crates.txt changed', 'echo "# changed" >> crates.txt', CHANGED),
        ('a date was put back', 'touch -r crates/rows/src/lib.rt t; ' + ADD + 'crates/rows/src/lib.rt; touch -r t crates/rows/src/lib.rt', CHANGED),
        ('another kit', 'export FAKE_KIT="fake kit 2"', 'it was built by another kit, fake kit 1'),
        ('the program is a script', other + ' > target/bin/checker', not_built),
        ('the program is true', 'cat "$(type -P true)" > target/bin/checker', not_built),
        ('the program is damaged', 'printf x >> target/bin/checker', not_built),
        ('the program is missing', 'rm target/bin/checker', 'target/bin/checker is missing'),
        ('the program may not be run', 'chmod a-x target/bin/checker', 'target/bin/checker may not be run'),
        ('no record', 'rm target/bin/checker.built', unknown),
        ('half a record', 'sed -i 2q target/bin/checker.built', unknown),
        ('neither program nor record', 'rm target/bin/checker*', 'it is not built yet'),
        ('nothing', 'rm -r target', 'it is not built yet'),
        ('built from changed sources, which were put back together with the record',
         'cp crates/checker/src/main.rt k; cp target/bin/checker.built r; ' + ADD + f'crates/checker/src/main.rt; says "{ONES}"; '
         './check samples/p1.batch; mv k crates/checker/src/main.rt; mv r target/bin/checker.built', not_built),
    ]
    yield Case('a crate changed that another one needs', './check samples/p1.batch; ./check samples/p1.batch', 0, 2 * (SEVENS + '\n'), building(CHANGED, []) + some(crates),
               "sed -i 's/^checker:.*/checker: input_code/' crates.txt; ./check samples/p1.batch; " + ADD + f"crates/fields/src/lib.rt; says '{SEVENS}'", 1)
    for name, before, why in states:
        yield Case(name, './check samples/p1.batch; ./check samples/p1.batch', 0, 2 * (SEVENS + '\n'), building(why, crates), before + f"; says '{SEVENS}'", 1)


def kept_products():
    for name, before in [
        ('a document changed', ADD + 'README.md'),
        ('a must-fail edit changed', ADD + '"$(find crates/fields/must-fail -type f | head -n 1)"'),
        ('a crate changed that the program is not made from', ADD + 'crates/hromulice/src/lib.rt'),
        ('dates alone changed', 'find crates -type f -exec touch {} +'),
        ('the repository was moved', 'cp -a . "$ROOM/moved"; cd "$ROOM/moved"'),
    ]:
        yield Case(name, './check samples/p1.batch', 0, P1, before=before + f"; says '{SEVENS}'")


def failing_builds(crates):
    changed, again = ADD + 'crates/fields/src/lib.rt; ', '; ./check samples/p1.batch 2> /dev/null'
    start = building(CHANGED, [])
    all_but_last = building(CHANGED, crates)[:-len(f'check: {len(crates)}/{len(crates)} checker\n')]
    not_built = 'check: the checker was not built from the sources as they are; all that rt said is in {repo}/target/log/checker.build\n'
    return [
        Case('not proved', './check samples/p1.batch', 2, err=all_but_last + '((rt:|==) .*\n)+rt: FAILED: checker\n1 passed, 1 failed\n' + not_built, builds=1,
             before=changed + 'export FAKE_DOES=fails', after=NO_RECORD),
        Case('not proved, several files', './check none samples/p1.batch samples/p1.batch 2> /dev/null', 2, builds=1,
             before=changed + 'export FAKE_DOES=fails', after=NO_RECORD),
        Case('not proved, then put right', 'FAKE_DOES=fails ./check samples/p1.batch 2> /dev/null' + again, 0, P1, before=changed, builds=2),
        Case('the sources change during the build', 'FAKE_DOES=edits ./check samples/p1.batch', 2, before=changed, builds=1, after=NO_RECORD,
             err=building(CHANGED, crates) + 'check: the sources changed while the checker was built from them: call again\n'),
        Case('the sources change during the build, and back', 'FAKE_DOES=edits_back ./check samples/p1.batch', 2, before=changed, builds=1,
             err=building(CHANGED, crates) + 'check: the sources changed while the checker was built from them: call again\n',
             after=NO_RECORD),
        Case('the sources change during the build, then not', 'FAKE_DOES=edits ./check samples/p1.batch 2> /dev/null' + again, 0, P1, before=changed, builds=2),
        Case('rt leaves a crate out', 'FAKE_DOES=omits ./check samples/p1.batch 2> /dev/null', 2, before=changed, builds=1, after=NO_RECORD),
        Case('rt links nothing', 'FAKE_DOES=links_nothing ./check samples/p1.batch 2> /dev/null', 2, before=changed, builds=1, after=NO_RECORD),
        Case('a link among the sources', './check samples/p1.batch', 2,
             before='mv crates/rows/src/lib.rt lib.rt; ln -s ../../../lib.rt crates/rows/src/lib.rt; ' + ADD + 'lib.rt',
             err=start + 'check: crates/rows/src/lib.rt is a symbolic link, and rt follows none: .*\n'),
        Case('a lock that cannot be opened, POSIX mode', 'POSIXLY_CORRECT=1 ./check samples/p1.batch', 2,
             before=changed + 'rm -f target/build.lock; mkdir target/build.lock', err='check: {repo}/target/build.lock cannot be written\n'),
        Case('an unreadable source', '$NOBODY ./check samples/p1.batch', 2, before='chmod 0 crates/rows/src/lib.rt',
             err='check: the sources in {repo}/crates cannot be read\n'),
        Case('no crates.txt', './check samples/p1.batch', 2, before='rm crates.txt', err='check: {repo}/crates.txt cannot be read\n'),
    ]


def wrong_lines():
    """What a program may not say. None of it is passed on."""
    for said in ['accept 1 1 1 1', 'accept 1 1 1 1 1 1 1', f'{ONES} 1', 'accept 01 1 1 1 1 1 1 1', 'accept -1 1 1 1 1 1 1 1', 'accept  1 1 1 1 1 1 1 1',
                 f'{ONES} ', 'accepted 1 1 1 1 1 1 1 1', 'accept', 'refuse', 'refuse 10', 'refuse 10 50 1', 'refuse 13 2', 'refuse 13 2 1 1 1 1',
                 'refuse 13 2 1 1 1 1 1 1 1', 'refuse 13 2 1 1 1 1 1 1 1 1 1', 'refuse 0 0', f'{ONES}\\n{ONES}', '']:
        yield Case(f'the program says: {said}', './check samples/p1.batch', 2, err='check: samples/p1.batch: the program .* ended with status 0 and no answer: .*\n',
                   before=f"{ADD}crates/fields/src/lib.rt; says '{said}'; ./check samples/p1.batch")
    for name, said in [('no line feed', f'printf "{ONES}"'), ('status 1', f'echo {ONES}; exit 1'), ('a signal', f'echo {ONES}; kill -9 $$'),
                       ('a complaint beside the line', f'echo {ONES}; echo so >&2')]:
        yield Case(f'the program ends with {name}', './check samples/p1.batch', 2, err='(?s)(.*\n)?check: samples/p1.batch: the program .* no answer: [^\n]*\n',
                   before=f"{ADD}crates/fields/src/lib.rt; says x; printf '#!/bin/sh\\n%s\\n' '{said}' > $FAKE_PRODUCT; ./check samples/p1.batch")


def several_at_once(crates):
    """The stand-in for rt waits until the other ./check has been seen to wait."""
    changed = ADD + 'crates/fields/src/lib.rt; '
    waits = 'export FAKE_DOES=waits; '
    two = './check samples/p1.batch 2> one & p=$!; ./check samples/p1.batch 2> two & q=$!; {} touch "$ROOM/go"; wait $p && wait $q; s=$?; cat one two >&2; exit $s'
    once = '(?s)(?!(.*building the checker){2})(?=.*building the checker)(?=.*waiting for another build to end).*'
    second = './check samples/p1.batch 2> said & wait_for grep -q waiting said; touch "$ROOM/go"; wait $!; s=$?; cat said >&2; exit $s'
    stopped = 'set -m; ./check samples/p1.batch 2> /dev/null & wait_for test -s "$FAKE_LOG"; kill -{} -- {}$!; wait $! 2> /dev/null; set +m; '
    again = '[[ -e target/bin/checker.built ]] || FAKE_DOES= ./check samples/p1.batch 2> /dev/null'
    waited = 'check: waiting for another build to end\n'
    return [
        Case('two at once', two.format('wait_for grep -q waiting one two;'), 0, 2 * P1, once, changed + waits, 1),
        Case('two at once, nothing built', two.format('wait_for grep -q waiting one two;'), 0, 2 * P1, once, 'rm -r target; ' + waits, 1),
        Case('two at once that are built', two.format(''), 0, 2 * P1),
        Case('interrupted', stopped.format('INT', '-') + again, 0, P1, before=changed + waits, builds=2),
        Case('terminated', stopped.format('TERM', '-') + again, 0, P1, before=changed + waits, builds=2),
        Case('killed, and rt goes on', stopped.format('KILL', '') + 'FAKE_DOES= ' + second, 0, P1,
             waited + building('nothing says what target/bin/checker was built from', crates), changed + waits, 2),
        Case('rt has failed, and what it started goes on', 'FAKE_DOES=lingers ./check samples/p1.batch 2> /dev/null; ' + second, 0, P1,
             waited + building('it is not built yet', crates), changed, 2),
    ]


def without(kit):
    needs = r'check: the checker has to be built \({why}\), which needs the Rattle kit, ' + kit + ': no rt that runs is on the PATH\n'
    unwritable = r'check: the checker has to be built \({why}\), and {repo}/target cannot be written: copy the repository to a folder that you can write, .*\n'
    return [
        Case('no rt, built', './check samples/p1.batch', 0, P1, kit='none'),
        Case('no rt, nothing built', './check samples/p1.batch', 2, kit='none', before='rm -r target', err=needs.replace('{why}', 'it is not built yet')),
        Case('no rt, sources changed', './check samples/p1.batch', 2, kit='none', before=ADD + 'crates/fields/src/lib.rt', err=needs.replace('{why}', CHANGED)),
        Case('no rt, another program', './check samples/p1.batch', 2, kit='none', before='printf x >> target/bin/checker', err=needs.replace('{why}', '.*')),
        Case('an rt that does not run', './check samples/p1.batch', 2, kit='none', err=needs.replace('{why}', CHANGED),
             before=ADD + 'crates/fields/src/lib.rt; mkdir bad; printf "#!/bin/sh\\nexit 2\\n" > bad/rt; chmod +x bad/rt; PATH=$PWD/bad:$PATH'),
        Case('read-only, built', '$NOBODY ./check samples/p1.batch', 0, P1, before='chmod -R a-w .'),
        Case('read-only, several files', '$NOBODY ./check samples/p1.batch - < samples/vector_below.batch', 1, 'samples/p1.batch: ' + P1 + '-: ' + BELOW,
             before='chmod -R a-w .'),
        Case('read-only, to be built', '$NOBODY ./check samples/p1.batch', 2, before=ADD + 'crates/fields/src/lib.rt; chmod -R a-w .',
             err=unwritable.replace('{why}', CHANGED)),
        Case('read-only, nothing built', '$NOBODY ./check samples/p1.batch', 2, before='rm -r target; chmod -R a-w .',
             err=unwritable.replace('{why}', 'it is not built yet')),
    ]


def left(crate, source='"$FAKE_PRODUCT"'):
    """Puts a program where rt ci leaves it, and removes the record of the one before."""
    return f'rm -f target/bin/{crate}.built; mkdir -p crates/{crate}/out; cp {source} crates/{crate}/out/{crate}; sleep 0.05; '


def recorded():
    here = left('checker')
    then = './check --built && ./check samples/p1.batch'
    made = 'check: crates/checker/out/checker was not built from these sources: {} changed after it\n'
    return [
        Case('--built', then, 0, P1, before=here, after='cmp "$FAKE_PRODUCT" target/bin/checker'),
        Case('--built, another program before', then, 0, P1, before=here + 'cat "$(type -P true)" > target/bin/checker'),
        Case('--built, nothing before', then, 0, P1, before=here + 'rm -r target'),
        Case('--built, sources changed', then, 2, before=here + ADD + 'crates/fields/src/lib.rt', after=NO_RECORD,
             err=made.format('crates/fields/src/lib.rt')),
        Case('--built, sources changed and back', then, 2, before=here + 'cp crates/fields/src/lib.rt k; ' + ADD + 'crates/fields/src/lib.rt; cp k crates/fields/src/lib.rt',
             after=NO_RECORD, err=made.format('crates/fields/src/lib.rt')),
        Case('--built, a file came', then, 2, before=here + 'touch crates/rows/proofs/New.antt', after=NO_RECORD, err=made.format('crates/rows/proofs')),
        Case('--built, a file went', then, 2, before=here + 'rm "$(find crates/rows/proofs -type f | sort | head -n 1)"', after=NO_RECORD,
             err=made.format('crates/rows/proofs.*')),
        Case('--built, crates.txt changed', then, 2, before=here + 'echo "# changed" >> crates.txt', after=NO_RECORD, err=made.format('crates.txt')),
        Case('--built, another crate changed', then, 0, P1, before=here + ADD + 'crates/hromulice/src/lib.rt'),
        Case('--built, another program', then, 2, before=left('checker', '"$(type -P true)"'), after=NO_RECORD,
             err='check: target/bin/checker does not print what crates/checker/stdout has\n'),
        Case('--built, no program', then, 2, before=here + 'rm crates/checker/out/checker', after=NO_RECORD, err='check: rt ci has left no crates/checker/out/checker\n'),
        Case('--built without rt', then, 2, kit='none', err='check: .* needs the Rattle kit.*\n', before=here, after=NO_RECORD),
    ]


def second_program(mounts):
    """What ./mounts has of the build: its own program and record, and nothing of the checker's. `says` stands for its answer."""
    vector = 'vector 1 2'
    call = './mounts shift starboard 1 2'
    here = f"says '{vector}'; tests/build mounts; "
    new = "says 'vector 3 4'; "
    stored = """says x; printf '#!/bin/sh\\n[ "$*" != "sheets list" ] || cat ../stdout\\n' > "$FAKE_PRODUCT"; """
    no_record = '[[ ! -e target/bin/mount_sheets.built && -e target/bin/checker.built ]]'

    def made(why):
        return building(why, mounts, 'mounts', SHEETS)

    return [
        Case('mounts: nothing built', f'{call}; {call}', 0, 2 * (vector + '\n'), made('it is not built yet'), f"says '{vector}'", 1),
        Case('mounts: built', call, 0, vector + '\n', before=here + new),
        Case('mounts: its source changed', call, 0, 'vector 3 4\n', made(CHANGED), here + new + ADD + 'crates/mount_sheets/src/main.rt', 1),
        Case('mounts: what it prints for rt changed', call, 0, 'vector 3 4\n', made(CHANGED), here + new + 'echo >> crates/mount_sheets/data/sheets', 1),
        Case("mounts: a lower crate's source changed", call, 0, 'vector 3 4\n', made(CHANGED), here + new + ADD + 'crates/mounts_code/src/lib.rt', 1),
        Case("mounts: the checker's source changed", call, 0, vector + '\n', before=here + new + ADD + 'crates/checker/src/main.rt'),
        Case('mounts: its source changed, and the checker', './check samples/p1.batch', 0, P1, before=here + new + ADD + 'crates/mount_sheets/src/main.rt'),
        Case('mounts: another program', call, 0, 'vector 3 4\n', made('target/bin/mount_sheets is not the file that was built'),
             here + new + 'cp target/bin/checker target/bin/mount_sheets', 1),
        Case('mounts: may not be run', call, 0, 'vector 3 4\n', made('target/bin/mount_sheets may not be run'), here + new + 'chmod a-x target/bin/mount_sheets', 1),
        Case('mounts: not proved', call, 2, err='(?s).*mounts: the program for mount sheets was not built from the sources as they are; .*', builds=1,
             before='export FAKE_DOES=fails', after=no_record),
        Case('mounts: no rt', call, 2, err='mounts: the program for mount sheets has to be built .*: no rt that runs is on the PATH\n', kit='none'),
        Case('mounts: --built', './mounts --built', 0, before=stored + left('mount_sheets'), after='[[ -e target/bin/mount_sheets.built ]]'),
        Case('mounts: --built, sources changed', './mounts --built', 2, before=stored + left('mount_sheets') + ADD + 'crates/mount_sheets/src/main.rt', after=no_record,
             err='mounts: crates/mount_sheets/out/mount_sheets was not built from these sources: crates/mount_sheets/src/main.rt changed after it\n'),
        Case('mounts: --built, another program', './mounts --built', 2, before=f"says '{vector}'; " + left('mount_sheets'), after=no_record,
             err='mounts: target/bin/mount_sheets does not print what crates/mount_sheets/stdout has\n'),
        Case('mounts: --version', './mounts --version > v; s=$?; head -n 2 v; exit $s', 0, 'hromulice 9.8.7\nkit fake kit 1\n',
             before=r"""sed -i 's/^\(#define HROMULICE_VERSION_TEXT\) .*/\1 "9.8.7"/' include/hromulice.h"""),
    ]


def products(crates, mounts, library):
    made_mounts = building('it is not built yet', mounts, 'build', SHEETS)
    made = made_mounts + building('it is not built yet', library, 'build', 'the library for C')
    copied = 'for f in bin/checker bin/mount_sheets staticlib/libhromulice.a; do cmp target/$f "$FAKE_PRODUCT" && [[ -e target/$f.built ]] || exit; done'
    return [
        Case('tests/build', 'tests/build && tests/build', 0, err=made, builds=2, after=copied),
        Case('tests/build, nothing built', 'cd samples && ../tests/build && ../tests/build', 0, err=building('it is not built yet', crates, 'build') + made,
             before='rm -r target', builds=3, after=copied),
        Case('tests/build program', 'tests/build program', 0, after='[[ ! -e target/staticlib/libhromulice.a && ! -e target/bin/mount_sheets ]]'),
        Case('tests/build mounts', 'tests/build mounts && tests/build mounts', 0, err=made_mounts, builds=1, after='[[ ! -e target/staticlib/libhromulice.a ]]'),
        Case('tests/build library, sources changed', 'tests/build library', 0, err=building(CHANGED, library, 'build', 'the library for C'), builds=1,
             before='tests/build; ' + ADD + 'crates/memory/src/lib.rt'),
        Case('tests/build library, another file', 'tests/build library', 0, err='(?s)build: building .*is not the file that was built.*', builds=1,
             before='tests/build; echo >> target/staticlib/libhromulice.a', after='cmp target/staticlib/libhromulice.a "$FAKE_PRODUCT"'),
        Case('tests/build library, not proved', 'FAKE_DOES=fails tests/build library', 2, err='(?s).*build: the library for C was not built.*', builds=1),
        Case('tests/build of something else', 'tests/build kettle', 2, err='build: kettle is none of program, mounts and library\n'),
    ]


def runners(crates, library):
    """The tests that build what they run on, in a repository where nothing is built, with stubs/cargo and stubs/clang."""
    made_library = building('it is not built yet', library, 'build', 'the library for C')
    made = building('it is not built yet', crates, 'build') + made_library
    lib = 'cargo: HROMULICE_LIB_DIR={}\n'
    nothing = 'rm -r target; PATH=$ROOM/compilers:$PATH; '
    asked = '--seed {} --count {} --program REPO/target/bin/checker --runs {} --books {}\n'
    return [
        Case('tests/differential/run', 'cd samples && ../tests/differential/run', 0, asked.format(1, 100000, 4000, 20000), made + lib.format(''), nothing, 2),
        Case('tests/differential/run with numbers', 'tests/differential/run 3 4 5 6', 0, asked.format(3, 4, 5, 6), made + lib.format(''), nothing, 2),
        Case('tests/differential/run, library and program given', 'cd samples && HROMULICE_LIB_DIR=.. HROMULICE_CHECKER=given ../tests/differential/run 3 4 5', 0,
             asked.format(3, 4, 5, 20000).replace('target/bin/checker', 'samples/given'), lib.format('{repo}'),
             nothing + 'touch libhromulice.a; cp "$FAKE_PRODUCT" samples/given'),
        Case('tests/differential/run, no such library', 'HROMULICE_LIB_DIR=samples tests/differential/run', 1,
             err='differential: HROMULICE_LIB_DIR: there is no samples/libhromulice.a\n', before=nothing),
        Case('tests/differential/run, words', 'tests/differential/run three', 1, err='differential: usage: .*\n', before=nothing),
        Case('tests/differential/run without cargo', 'tests/differential/run', 1, err='differential: cargo is missing\n', before='rm -r target'),
        Case('tests/differential/run, not proved', 'FAKE_DOES=fails tests/differential/run 2> said; s=$?; tail -n 1 said; exit $s', 1,
             'differential: there is nothing to compare\n', before=nothing, builds=1),
        Case('tests/fuzz/run', 'cd samples && ../tests/fuzz/run 7 3', 0, 'Done -seed=3 -max_total_time=7\n',
             made_library + 2 * lib.format('{repo}/target/staticlib'), nothing, 1),
        Case('tests/fuzz/run, library given', 'cd samples && HROMULICE_LIB_DIR=.. ../tests/fuzz/run', 0, 'Done -seed=1 -max_total_time=60\n', 2 * lib.format('{repo}'),
             nothing + 'touch libhromulice.a'),
        Case('tests/fuzz/run, words', 'tests/fuzz/run long', 1, err='fuzz: usage: .*\n', before=nothing),
        Case('tests/fuzz/run without clang', 'tests/fuzz/run', 1, err='fuzz: clang is missing .*\n',
             before=nothing + 'PATH=$PWD/on:${PATH#*:}; mkdir on; ln -s "$ROOM/compilers/cargo" on'),
        Case('tests/fuzz/run without libFuzzer', 'tests/fuzz/run', 1, err='fuzz: clang has no libFuzzer .*\n',
             before=nothing + 'mkdir on; PATH=$PWD/on:$PATH; printf "#!/bin/sh\\necho none\\n" > on/clang; chmod +x on/clang'),
    ]


def real(crates):
    """With the kit's own rt, one after the other on one copy."""
    main, said = 'crates/checker/src/main.rt', "target/bin/checker 0> written 2>&1 | cat"
    change = f"sed -i 's/checker: cannot read standard input/checker: cannot READ standard input/' {main}; "
    return [
        Case('real: recorded as rt left it', './check --built && ./check samples/p1.batch', 0, P1, kit='real', before=left('checker', 'target/bin/checker')),
        Case('real: does not compile', './check samples/p1.batch', 2, kit='real',
             err='(?s)check: building .*rt: checker NOT PROVED.*\ncheck: the checker was not built .*\n',
             before=f'cp -a {main} target/bin/checker target/bin/checker.built "$ROOM"; echo "fn (" >> {main}', after=NO_RECORD),
        Case('real: sources changed', f'./check samples/p1.batch; ./check samples/p1.batch; {said}', 0, 2 * P1 + 'checker: cannot READ standard input\n',
             building('it is not built yet', []) + some(crates), kit='real', before=f'cp "$ROOM/main.rt" {main}; {change}'),
        Case('real: built from changed sources, which were put back together with the record', f'./check samples/p1.batch; {said}', 0, P1 + 'checker: cannot read standard input\n',
             building('target/bin/checker is not the file that was built', []) + some(crates), kit='real',
             before=f'cp "$ROOM/main.rt" {main}; cp "$ROOM/checker.built" target/bin/', after='cmp "$ROOM/checker" target/bin/checker'),
    ]


def all_cases(crates, mounts, library, kit, version):
    """crates, mounts and library: what the program, the one for mount sheets and the library for C are made from, in order. kit: the one that
    is asked for, as a regular expression. version: the one that the header has."""
    return [*answers(), *options(version), *descriptors(crates), *names(), *old_products(crates), *kept_products(), *failing_builds(crates), *wrong_lines(),
            *several_at_once(crates), *without(kit), *recorded(), *second_program(mounts), *products(crates, mounts, library),
            *runners(crates, library), *real(crates)]
