"""Crates of definitions and crates of functions; what public functions promise, and that something guards each."""
import pathlib
import re
import subprocess

from . import antt, rattle
from .edits import aside, changed, edits, has_definitions, libraries, listed
from .text import code_of, same_code


def check_storeys(root, faults):
    """Types, definitions and laws stand below; functions, their proofs and the laws of their loops above."""
    for crate in libraries(root):
        faults.extend(f'crates/{crate.name}/{file}: a function there is not written as the others are' for file in rattle.unread(crate))
        if any(True for _ in rattle.functions(crate)) == has_definitions(crate):
            faults.append(f'{crate.name}: has functions beside its definitions, or neither')


def signatures(text, suffix):
    """What a wrong answer leaves as it is: names and contracts of functions; names of definitions and what they are defined on."""
    code = code_of(text, suffix)
    if suffix == '.rt':
        return [(f.called(), ' '.join(f.contract.split())) for f in rattle.functions_in(code, '', [])]
    return [(d.name, '' if d.kind == 'field' else ' '.join(d.statement.split())) for d in antt.declarations(code)]


def faults_of(edit):
    """What keeps a wrong answer from being one."""
    definition = has_definitions(edit.crate)
    folder, suffix = ('specs/', '.antt') if definition else ('src/', '.rt')
    if not edit.changes or any(not where.startswith(folder) for where, _, _ in edit.changes):
        yield f'a wrong answer of this crate changes a text in {folder}, in a file that it names'
        return
    for n, (where, old, _) in enumerate(edit.changes):
        _, texts = changed(edit.crate, edit.changes[:n] + [(where, '', '')])  # rt applies each to what the earlier ones made
        if texts.get(where, '').count(old) != 1:
            yield f'does not stand once in {where}: {old.strip()}'
            return
    for change in edit.changes:
        before, after = changed(edit.crate, [change])
        if all(same_code(before[where], after[where], suffix) for where in before):
            yield f'changes nothing but comments and marks: {change[1].strip()}'
    before, after = changed(edit.crate, edit.changes)
    if any(signatures(before[where], suffix) != signatures(after[where], suffix) for where in before):
        yield 'changes a contract or a signature, by which others could be refused'
    if definition != ('law' in edit.fields):
        yield 'a wrong definition names the law that refuses it, and a wrong program none'
    elif definition:
        path, _, law = edit.fields['law'].partition(' ')
        if not path.startswith('proofs/') or not antt.is_law(edit.crate / path, law):
            yield f'there is no law {law} in {path}'


def arguments(contract):
    """The parameters' names, from a function's name to the end of its parameters."""
    return re.findall(r'(\w+)\s*:(?!:)', contract[contract.index('('):contract.index(')')])


def words_of(text):
    """A text without its blanks, and without the comma that the layout puts behind the last parameter of a long list."""
    return re.sub(r',(?=\))', '', re.sub(r'\s+', '', text))


def check_exports(root, faults):
    """A library for C exports functions that stand in a crate below it: under the same name, with the same contract, and by one call that hands
    every argument on. Returns the function that each of them stands for."""
    known = {f'{crate.name}::{f.called()}': f for crate in libraries(root) for f in rattle.functions(crate) if f.public}
    stands_for = {}
    for crate in libraries(root):
        if 'staticlib' not in listed(root).get(crate.name, ([],))[0]:
            continue
        for f in rattle.functions(crate):
            name, call = f'{crate.name}::{f.called()}', re.fullmatch(r'\{\s*(\w+)::(\w+)\(([^()]*)\)\s*\}', f.body)
            own = call and known.get(f'{call[1]}::{call[2]}')
            if not f.public or not own or f.name != own.name or words_of(f.contract) != words_of(own.contract):
                faults.append(f'{name} is no call of a function below with its name and its contract')
            elif [word.strip() for word in call[3].split(',') if word.strip()] != arguments(f.contract):
                faults.append(f'{name} does not hand its arguments on as they are')
            else:
                stands_for[name] = f'{call[1]}::{own.called()}'
    return stands_for


def check_contracts(root, faults):
    guards = {True: set(), False: set()}  # by whether a definition is wrong or a program
    seen, alone, names = set(), set(), set()
    for crate in libraries(root):
        for f in rattle.functions(crate):
            if f.public:
                name = f'{crate.name}::{f.called()}'
                names.add(name)
                if re.search(r'\brequires\b', f.contract):
                    faults.append(f'{name} has a requires')
                if not re.search(r'\bensures\b', f.contract):
                    faults.append(f'{name} says nothing of its answer')
    for crate in libraries(root):
        for edit in edits(crate):
            guards[has_definitions(crate)].update(edit.guarded())
            if (crate, edit.name) in seen:
                faults.append(f'{edit.where()} stands there twice')
            seen.add((crate, edit.name))
            if has_definitions(crate) and edit.file in alone:
                faults.append(f'{edit.where()}: a wrong definition is tried alone')
            alone.add(edit.file)
            if 'why' not in edit.fields or not edit.guarded() or set(edit.guarded()) - names:
                faults.append(f'{edit.where()} says not which public function it guards, or not why')
            faults.extend(f'{edit.where()}: {fault}' for fault in faults_of(edit))
            faults.extend(f'{edit.where()}: {name} has nothing to do with it' for name in aside(root, edit) if name in names)
    stands_for = check_exports(root, faults)
    for name in sorted(names):
        for wrong, kind in ((True, 'definition'), (False, 'program')):
            if name not in guards[wrong] and not (wrong and stands_for.get(name) in guards[wrong]):
                faults.append(f'{name} has no must-fail edit with a wrong {kind}')
    return len(names)


# Between a vector word and its two components: every function of a file, or those that are named.
HALVES = {
    'crates/fields_code/src/word.rt': None,
    'crates/prediction_code/src/vectors.rt': None,
    'crates/prediction_code/src/spans.rt': {'biased'},
}


def std_bodies(name, signed):
    """What std's method of a name does to the integers that a word is taken apart into, as the kit's own source says: to those without a sign, and
    where a component may be meant to those with one too, since a text shows no type."""
    kit = pathlib.Path(subprocess.run(['rt', 'doc'], capture_output=True, text=True, check=True).stdout.strip()).parent
    bodies = []
    for kind in ('u8', 'u16', 'u32', *(('i16',) if signed else ())):
        code = code_of((kit / 'rattle/core/src/int' / f'{kind}.rt').read_text(), '.rt')
        if found := re.search(rf'\bfn {name}\(', code):
            start = rattle.body_of(code, found.end())
            bodies.append(code[start:rattle.closing(code, start)])
    return bodies


# What takes a word apart or makes a number of a component: what it is handed has to stand there already.
HANDED = re.compile(r'\b(halves_of|vector_of|biased)\(([^()]*)')

# The crates that have a whole word's bytes of std, which are quotients and remainders: a record's words are put into it by their halves.
WHOLE_WORDS = {'fields_code', 'mounts_code'}


def handed_fault(call, body):
    """What speaks against a call of one of these: something else than a word or a component by its name, a name that is bound to something that is
    computed with a product, a quotient or a remainder, or one of these in the statement around the call."""
    name, _, component = call[2].strip().partition('.')
    statement = re.split(r'[;{}]', body[:call.start()])[-1] + re.split(r'[;{}]', body[call.start():])[0]
    bound = re.findall(rf'\b{name}\b[^=;]*=(?!=)\s*([^;]*);', body) if re.fullmatch(r'\w+', name) else ['/']
    known = component in ('x', 'y') if call[1] == 'biased' else not component
    if not known or re.search(r'[*/%]', statement) or any(re.search(r'[*/%]', value) for value in bound):
        return True
    return call[1] == 'biased' and any(not re.fullmatch(r'vector_of\(\w+\)', value) for value in bound)


def check_handed(root, faults):
    """Document 02, R-2, where a vector's word or its components are used: `halves_of` and `vector_of` are handed a word as it stands and `biased` a
    component of a vector, which is a parameter or what `vector_of` gave; no vector is made by hand on the way, and nothing is computed with them in
    the same statement. A whole word's bytes are std's, and asked for where no vector is."""
    count = 0
    for crate in libraries(root):
        for f in rattle.functions(crate):
            where = f'crates/{crate.name}/{f.file}: {f.called()}'
            calls = list(HANDED.finditer(f.body))
            count += len(calls)
            faults.extend(f'{where} hands {call[1]} something else than stands there: {call[2].strip()}' for call in calls if handed_fault(call, f.body))
            if calls and re.search(r'\bVector \{', f.body) and f'crates/{crate.name}/{f.file}' not in HALVES:
                faults.append(f'{where} makes a vector by hand')
            if 'bytes32(' in f.body and crate.name not in WHOLE_WORDS:
                faults.append(f'{where} has the bytes of a whole word')
    return count


def check_halves(root, faults, halves=HALVES):
    """Document 02, R-2: shifts and masks only. The compiler turns a division by a power of two into a shift, so that only the text shows it."""
    between, signed = [], set()
    for path, wanted in halves.items():
        code = code_of((root / path).read_text(), '.rt')
        found = [f for f in rattle.functions_in(code, path, []) if wanted is None or f.name in wanted]
        if not found or (wanted or set()) - {f.name for f in found}:
            faults.append(f'{path}: a function between a vector word and its components was not found')
        between.extend(found)
        if re.search(r'\b(?:i16|Vector)\b', code):
            signed.add(path)
    for f in between:
        if sign := re.search(r'[*/%]', f.body):
            faults.append(f'{f.file}: {f.name} has a {sign[0]}')
        for called in sorted(set(re.findall(r'(\w+)\(', f.body)) - {other.name for other in between}):
            bodies = std_bodies(called, f.file in signed) if f'.{called}(' in f.body else []
            if not bodies or any(re.search(r'\w\(', body) for body in bodies):
                faults.append(f'{f.file}: {f.name} calls {called}, which is not looked at')
            elif sign := re.search(r'[*/%]', ''.join(bodies)):
                faults.append(f'{f.file}: {f.name} calls {called}, which has a {sign[0]}')
    return len(between)
