"""docs/CLAIMS.md: what it cites is declared there; what a cited law states stands in specs/; and specs/ says what has to be believed."""
import re

from . import antt, rattle
from .edits import edits, libraries
from .laws import WORKED
from .text import read_code

CITED = re.compile(r'`([^`\s]+)` \(`([^`\s]+)`\)')


def declares(file, name):
    if file.suffix == '.antt':
        return any(d.name == name for d in antt.declared_in(file))
    code = read_code(file)
    return any(name == f.called() for f in rattle.functions_in(code, '', [])) \
        or re.search(rf'^ *(?:pub(?:\(crate\))? )?(?:struct|enum|const) {re.escape(name)}\b', code, re.M) is not None


def check_claims(root, faults):
    """A claim is cited as `name` (`path`), an edit as `crate/edit`."""
    text = (root / 'docs' / 'CLAIMS.md').read_text()
    cited = CITED.findall(text)
    for name, path in cited:
        file = root / path
        if file.suffix not in ('.antt', '.rt') or not file.is_file() or not declares(file, name):
            faults.append(f'docs/CLAIMS.md: {name} does not stand in {path}')
    tried = re.findall(r'`(\w+)/(\w+)`', text)
    known = {crate.name: {edit.name for edit in edits(crate)} for crate in libraries(root)}
    for crate, edit in tried:
        if edit not in known.get(crate, ()):
            faults.append(f'docs/CLAIMS.md: there is no edit {crate}/{edit}')
    return len(cited) + len(tried)


def check_statements(root, faults):
    """A theorem's reader reads its statement and specs/: no name of its statement is declared in proofs/."""
    inside = set()
    for file in root.glob('crates/*/proofs/**/*.antt'):
        names = {spelling for d in antt.declared_in(file) if d.kind != 'field' for spelling in antt.spellings(d.name)}
        inside.update(f'{antt.module_of(root, file)}.{name}' for name in names)
    text = (root / 'docs' / 'CLAIMS.md').read_text()
    cited = {(root / path, name) for name, path in CITED.findall(text) if re.match(r'crates/\w+/proofs/.*\.antt$', path)}
    count = 0
    for file in sorted({file for file, _ in cited if file.is_file()}):
        code = read_code(file)
        known, module = antt.uses(code), antt.module_of(root, file)
        for law in antt.declarations(code):
            if (file, law.name) not in cited or (str(file.relative_to(root)) in WORKED and antt.closed(law)):
                continue
            count += 1
            where = f'{file.relative_to(root)}: {law.name}'
            if law.kind != 'law':
                faults.append(f'{where} is cited and is no law: a definition stands in specs/')
            for name in sorted(antt.named(law.context + ' ' + law.statement)):
                if {antt.whole(name, known), f'{module}.{name}'} & inside:
                    faults.append(f'{where} states something by {name}, which is declared in proofs/')
    crates = '|'.join(sorted(re.escape(folder.name) for folder in root.glob('crates/*')))
    for file in sorted(file for part in ('src/**/*.rt', 'specs/**/*.antt') for file in root.glob(f'crates/*/{part}')):
        if by := re.search(rf'\bRattle\.(?:{crates})\.proofs\b[\w.]*', read_code(file)):
            faults.append(f'{file.relative_to(root)}: names {by[0]}; what a contract or a definition uses stands in specs/')
    return count


def check_specs(root, faults):
    """Each file of definitions says, before its first line of antt, whether a reader has to believe it or which laws hold it against others."""
    count = 0
    for file in sorted(root.glob('crates/*/specs/**/*.antt')):
        if file.name == 'Lib.antt':
            continue
        count += 1
        where = file.relative_to(root)
        head = re.match(r'(?:--.*\n|\s*\n)*', file.read_text())[0]
        if not re.search(r'^-- (?:To be believed|Proved): \S', head, re.M):
            faults.append(f'{where}: says not whether it has to be believed or is proved')
        laws = re.findall(r'`([^`\s]+)` \(`?((?:crates/\w+/)?proofs/[^`\s()]+\.antt)`?\)', re.sub(r'\n-- *', ' ', head))
        if re.search(r'^-- Proved: ', head, re.M) and not laws:
            faults.append(f'{where}: is proved, and names no law as `name` (proofs/File.antt)')
        for name, path in laws:
            law = root / path if path.startswith('crates/') else root / 'crates' / where.parts[1] / path
            if not antt.is_law(law, name):
                faults.append(f'{where}: there is no law {name} in {path}')
    return count


# Used behind a name of its own alone (`places.row`), so that its names cannot be taken for others.
QUALIFIED = {'crates/memory/specs/Places.antt'}


def check_names(root, faults):
    """No two files of definitions declare the same public name."""
    declared = {}
    for file in sorted(root.glob('crates/*/specs/**/*.antt')):
        where = str(file.relative_to(root))
        for d in antt.declarations(read_code(file)) if where not in QUALIFIED else ():
            if 'pub' in d.marks.split() and d.kind in ('definition', 'record', 'data'):
                if d.name in declared:
                    faults.append(f'{where}: {d.name} is declared in {declared[d.name]} too')
                declared[d.name] = where
    return len(declared)
