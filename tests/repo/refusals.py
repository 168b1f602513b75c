"""What the prover says of the wrong answers: each was refused at a fact, and not because a proof no longer fits. rt ci says of each edit, in its
output, the first error alone, cut at 160 characters; the whole of what is said of an edit is read by tests/refusals, which tries it again."""
import re

from .edits import changed_functions, edits

# What the prover says where a fact does not hold, beside what it quotes: of two types, of a function, and by omega, search, cc and simp. Whatever
# else it says, as of a name or a field that is not there or of a law that was not admitted, only shows that a proof does not fit.
FACTS = (
    r'expected type `_`,? but this has type',
    r'the two (?:types|sides) (?:differ only|first differ|are) |`_` ≟ `_` does not hold',
    r'it is not proved that',
    r'does not follow from what it read',
    r'no proof of `_` was found|found no proof',
    r'the equations do not join|before the equations had joined',
    r'no equation of the list (?:has an instance|can be applied)',
    r'must be a path whose two ends are equal',
)


# A place in a crate and what is said there. A note counts as an error does: so the prover says what is not proved of a function.
ERROR = r'(?:note: )?(?:\./)?((?:src|specs|proofs)/\S+?):(\d+):\d+: (.*'


def errors_in(log):
    """(file, line, message) of each error of a check's whole output, in its order. The prover wraps long messages: what is indented goes on."""
    found = re.findall(rf'^{ERROR}(?:\n[ \t].*)*)', log, re.M)
    return [(file, int(line), ' '.join(message.split())) for file, line, message in found if not message.startswith('note:')]


# Those that may be cut in their words, since what stands before these is long.
BEHIND = tuple(start + words[:n] for start, words in (
    ('expected type `_`', ', but this has type'), ('expected type `_`', ' but this has type'), ('`_` ≟ `_`', ' does not hold'),
    ('no proof of `_`', ' was found')) for n in range(len(words)))


# Of what `simp` or `rw` leaves the prover says this first, and further on that it must be a path whose two ends are equal.
LEFT = 'give a proof of that as the last argument'


def is_fact(message, cut=False):
    words = re.sub(r'`[^`]*(`|$)', '`_`', message)
    return any(re.search(fact, words) for fact in FACTS) or (cut and (LEFT in words or words.endswith(BEHIND)))


def in_function(f, file, line):
    """Whether a place is in a function or in its proof."""
    proof = 'proofs/' + '/'.join([*f.module, *filter(None, [f.owner]), f.name]) + '/'
    return file.startswith(proof) or (file == f.file and f.first <= line <= f.last)


def refused_by_law(found, edit):
    """The law itself is refused at a fact, and not only because another one was."""
    where, _, law = edit.fields['law'].partition(' ')
    own = [message for file, _, message in found if file == where and message.startswith(f'error: `{law}`:')]
    return bool(own) and is_fact(own[0])


def refused_in_function(found, edit, log):
    """The first error in the proof of a function that is changed is a fact, and the function is not proved."""
    for f in changed_functions(edit):
        own = [message for file, line, message in found if in_function(f, file, line)]
        path = '::'.join([edit.crate.name, *f.module, *filter(None, [f.owner]), f.name])
        verdict = re.search(rf'^fn {re.escape(path)}: (.*)$', log, re.M)
        if own and is_fact(own[0]) and verdict and not verdict[1].startswith('proved'):
            return True
    return False


def fault_of(edit, log):
    """What keeps a wrong answer from being refused at a fact, in the whole output of a check of its crate with the edit in it."""
    if not re.search(r'^logic=not-proved', log, re.M):
        return 'the prover did not refuse it'
    found = errors_in(log)
    if not found or not is_fact(found[0][2]):
        return f'the prover names no fact first: {found[0] if found else ""}'
    if 'law' in edit.fields and not refused_by_law(found, edit):
        return f'{edit.fields["law"]} did not refuse it'
    if 'law' not in edit.fields and not refused_in_function(found, edit, log):
        return 'not refused at a fact in the proof of the function that it changes'
    return None


def said_by(log):
    """What rt ci's output says of each edit, by (crate, file)."""
    return {(crate, file): said for crate, file, said in re.findall(r'^rt: must-fail (\w+)/([\w.-]+): (.*)$', log, re.M)}


def fault_in(parts, said):
    """What is wrong with an edit by what rt ci says of it."""
    how, _, first = said.partition('refused, as it must be')
    if how or first.startswith(' ('):
        return f'rt ci says of it: {said[:200]}'
    error = re.fullmatch(rf': {ERROR})', first)
    if not error or error[3].startswith('note:') or not is_fact(error[3], cut=True):
        return f'rt ci names no fact first: {first[2:]}'
    if 'law' in parts[0].fields:
        where = parts[0].fields['law'].partition(' ')[0]
        if not error[1].startswith('proofs/') and error[1] != where:
            return f'was refused in {error[1]}, and not by a law'
    elif not any(in_function(f, error[1], int(error[2])) for edit in parts for f in changed_functions(edit)):
        return f'was refused in {error[1]}, line {error[2]}, and not in the proof of a function that it changes'
    return None


def exclusive(parts, faults):
    """No two wrong programs that are tried together change one function."""
    tried = set()
    for edit in parts:
        own = {(f.file, f.called()) for f in changed_functions(edit)} if 'law' not in edit.fields else set()
        if own & tried:
            faults.append(f'{edit.where()}: another wrong program of this edit changes the same function')
        tried |= own


def edit_files(root):
    """The wrong answers of each edit, by (crate, file)."""
    found = {}
    for crate in sorted(root.glob('crates/*')):
        for edit in edits(crate):
            found.setdefault((crate.name, edit.file.name), []).append(edit)
    return found


def check_refusals(root, faults, log):
    """By rt ci's output: it says of every edit that it was refused at a fact, and counts them all as refused and none as bad."""
    said, count, files = said_by(log), 0, edit_files(root)
    for at, parts in files.items():
        if at not in said:
            faults.append(f'{parts[0].where()}: rt ci says nothing of it')
            continue
        count += len(parts)
        exclusive(parts, faults)
        if fault := fault_in(parts, said[at]):
            faults.append(f'{parts[0].where()}: {fault}')
    for crate, file in sorted(set(said) - set(files)):
        faults.append(f'crates/{crate}/must-fail/{file}: rt ci says something of it, and it is not there')
    counted = re.findall(r'^rt: ok; .*?; must-fail edits: (\d+) refused(, \d+ of them only by a limit)?(?:, (\d+) bad)?;', log, re.M)
    if counted != [(str(len(files)), '', '')]:
        faults.append(f'rt ci counts its edits as {counted}, and {len(files)} are to be refused, none of them by a limit and none bad')
    return count
