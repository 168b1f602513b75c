"""The wrong answers of must-fail/*.edit, read as rt reads them."""
import dataclasses
import pathlib
import re

from . import rattle


@dataclasses.dataclass
class Edit:
    crate: pathlib.Path
    file: pathlib.Path
    name: str
    fields: dict
    changes: list  # (file below the crate, old text, new text)

    def guarded(self):
        """crate::function of all that it guards; a wrong program names the function alone."""
        return [name if '::' in name else f'{self.crate.name}::{name}' for name in self.fields.get('guards', '').split()]

    def where(self):
        return f'crates/{self.crate.name}/must-fail/{self.file.name}: {self.name}'


def libraries(root):
    return sorted(p.parent.parent for p in root.glob('crates/*/src/lib.rt'))


def has_definitions(crate):
    return (crate / 'specs').is_dir()


def listed(root):
    """The crates of crates.txt: the words behind a crate's name, and the names of what it depends on."""
    lines = (line.partition('#')[0].partition(':') for line in (root / 'crates.txt').read_text().split('\n'))
    return {head.split()[0]: (head.split()[1:], below.split()) for head, colon, below in lines if colon and head.strip()}


def edits(crate):
    """Every wrong answer of a crate; one that is tried alone has its file's name."""
    for file in sorted(crate.glob('must-fail/*.edit')):
        text = file.read_text()
        parts = re.split(r'^(?=name: )', text, flags=re.M) if re.search(r'^name: ', text, re.M) else [f'name: {file.stem}\n{text}']
        for part in filter(str.strip, parts):
            fields = dict(re.findall(r'^(name|guards|why|law): (.+)$', part, re.M))
            yield Edit(crate, file, fields.get('name', ''), fields, changes_of(part))


def changes_of(part):
    changes, where, old = [], '', ''
    for key, value in re.findall(r'^(file: |old: |new: ?)(.*)$', part, re.M):
        if key == 'file: ':
            where = value
        elif key == 'old: ':
            old = value
        else:
            changes.append((where, old, value))
    return changes


def changed(crate, changes):
    """The files of a crate that changes touch, before and after."""
    before = {where: (crate / where).read_text() for where, _, _ in changes if (crate / where).is_file()}
    after = dict(before)
    for where, old, new in changes:
        if where in after and old:
            after[where] = after[where].replace(old, new, 1)
    return before, after


def changed_functions(edit):
    """The functions that a wrong program changes; where it changes a constant, those that it guards."""
    everything = list(rattle.functions(edit.crate))
    before, _ = changed(edit.crate, edit.changes)
    lines = {(where, before[where].count('\n', 0, before[where].find(old)) + 1) for where, old, _ in edit.changes if where in before}
    own = [f for f in everything if any(f.file == where and f.first <= line <= f.last for where, line in lines)]
    return own or [f for f in everything if f.called() in edit.fields.get('guards', '').split()]


def reached(start, next_of):
    """All that is reached from a start, itself too."""
    seen, left = set(), [start]
    while left:
        at = left.pop()
        if at not in seen:
            seen.add(at)
            left.extend(next_of.get(at, ()))
    return seen


def aside(root, edit):
    """The functions that an edit names and cannot guard: those of a crate that does not stand above the wrong definition, or that do not call the
    wrong program, within its crate."""
    if has_definitions(edit.crate):
        below = {name: crates for name, (_, crates) in listed(root).items()}
        return [name for name in edit.guarded() if edit.crate.name not in reached(name.split('::')[0], below)]
    calls = {}
    for f in rattle.functions(edit.crate):
        calls.setdefault(f.name, set()).update(re.findall(r'(\w+)\(', f.body))
    wrong = {f.name for f in changed_functions(edit)}
    return [name for name in edit.guarded() if not wrong & reached(name.split('::')[-1], calls)]
