"""Who may cite and who may unfold what."""
import re

from . import antt
from .text import read_code

# Worked examples: files of closed statements, which compute. Only such a statement may unfold what `prediction` keeps to itself.
WORKED = {
    f'crates/{path}.antt' for path in (
        'lists/proofs/Worked', 'answers/proofs/Worked', 'fields/proofs/Worked', 'headers/proofs/Worked', 'prediction/proofs/Worked',
        'macroblock/proofs/Worked', 'picture/proofs/Worked', 'progress/proofs/Worked', 'placement/proofs/Worked', 'records/proofs/Worked',
        'mounts/proofs/Worked', 'sequence/proofs/Worked', 'batch/proofs/Batches', 'decoding/proofs/Cases', 'input/proofs/Worked')
}


def check_worked(root, faults):
    """Every file that may unfold is there: a name that is left over would serve a file to come."""
    for path in sorted(WORKED):
        if not (root / path).is_file():
            faults.append(f'{path}: is listed as worked examples and is not there')
    return len(WORKED)


def check_borders(root, faults):
    """What stands in `proofs/Lib.antt` behind '-- for its functions alone' is cited by the crate of these functions only."""
    private = {}
    for lib in sorted(root.glob('crates/*/proofs/Lib.antt')):
        if section := re.search(r'^-- for its functions alone\n((?:pub mod \w+\n)+)', lib.read_text(), re.M):
            private[lib.parent.parent.name] = set(re.findall(r'pub mod (\w+)', section[1]))
    for file in sorted(file for suffix in ('antt', 'rt') for file in root.glob(f'crates/*/*/**/*.{suffix}')):
        crate = file.relative_to(root / 'crates').parts[0]
        code = read_code(file)
        where = file.relative_to(root)
        cited = re.findall(r'\bRattle\.(\w+)\.proofs\.(\w+)', code) + re.findall(r'\b(\w+)::proofs::(\w+)', code)
        for name, law in sorted(set(cited)):
            if crate not in (name, f'{name}_code') and law in private.get(name, ()):
                faults.append(f'{where}: cites {law} of {name}, which is for {name}_code alone')
        for line in re.findall(r'^.*\buse Rattle(?:\.\w+(?:\.(?:specs|proofs))?)?(?:;|\s.*|\.\{.*)?$', code, re.M):
            faults.append(f'{where}: brings in a whole crate, so that it cannot be told what it cites: {line.strip()}')
        if file.suffix == '.antt' and (passed := re.search(r'^.*\bpub use .*', code, re.M)):
            faults.append(f'{where}: passes on what another file declares: {passed[0].strip()}')
    return sum(map(len, private.values()))


# The abbreviations of `prediction` that are used above it: they unfold everywhere.
OPEN = {'still', 'Occupies', 'InPicture'}


def check_open(root, faults):
    """Above `prediction` and its code no other abbreviation of it is named, so that nothing above sees through what it keeps to itself."""
    opened = set()
    for file in root.glob('crates/prediction/specs/**/*.antt'):
        opened.update(f'{antt.module_of(root, file)}.{d.name}' for d in antt.declared_in(file) if 'abbrev' in d.marks)
    for file in sorted(file for suffix in ('antt', 'rt') for file in root.glob(f'crates/*/*/**/*.{suffix}')):
        if file.relative_to(root / 'crates').parts[0] in ('prediction', 'prediction_code'):
            continue
        code = re.sub(r'^ghost (use [^;]*);', r'\1', read_code(file), flags=re.M)
        known = antt.uses(code)
        for name in sorted({antt.whole(name, known) for name in [*known, *antt.words(code)]} & opened):
            if name.split('.')[-1] not in OPEN:
                faults.append(f'{file.relative_to(root)}: uses {name}, which unfolds everywhere')
    return len(opened)


def worked(declaration):
    """A closed statement that is proved by computing it."""
    proof = re.search(rf'^ *{re.escape(declaration.name)} = (.*)\Z', declaration.body, re.M | re.S)
    return antt.closed(declaration) and proof is not None and re.fullmatch(r'refl|\(refl(?:, refl)+\)', proof[1].strip()) is not None


def check_unfolding(root, faults):
    """Worked numbers compute; every other law above `prediction` cites what it promises."""
    count = 0
    for file in sorted(file for folder in ('specs', 'proofs') for file in root.glob(f'crates/*/{folder}/**/*.antt')):
        path = str(file.relative_to(root))
        above = path.split('/')[1] not in ('prediction', 'prediction_code')
        count += above and '/proofs/' in path
        code = read_code(file)
        known = antt.uses(code)
        declared = antt.declarations(code)
        for d in declared if path in WORKED else ():
            if d.kind == 'law' and re.search(r'≡|≤|<|⊎|×', d.statement) and not antt.closed(d):
                faults.append(f'{path}: {d.name} is a law over variables, in a file of worked examples')
        for d in declared if above else ():
            names = {name for name in d.unfolded() if antt.whole(name, known).startswith('Rattle.prediction.specs.')}
            if not (path in WORKED and worked(d)):
                faults.extend(f'{path}: {d.name} unfolds {name} of prediction' for name in sorted(names))
    for file in sorted(root.glob('crates/*/src/**/*.rt')):
        code = read_code(file)
        hints = re.findall(r'#!?\[tactic\b[^\]]*\]', code)
        if re.search(r'\bunfold(?:ing)?\b', re.sub(r'#!?\[tactic\b[^\]]*\]', '', code)):
            faults.append(f'{file.relative_to(root)}: a contract unfolds a definition')
        if file.relative_to(root / 'crates').parts[0] not in ('prediction', 'prediction_code'):
            for name in sorted({name for hint in hints for name in re.findall(r'\bprediction::specs(?:::\w+)*', hint)}):
                faults.append(f'{file.relative_to(root)}: a proof unfolds {name}, of prediction')
    return count
