#!/usr/bin/env python3
"""Brings the names of the repository's own definitions and lemmas to today's spelling: words in snake case, facts and types in camel case.

usage: python3 tools/respell.py [FOLDER]    FOLDER has crates/; without it the repository that this file stands in

Run once, after the kit's port.py. It reads which names crates/*/specs/*.antt and crates/*/proofs/*.antt declare (definitions, laws,
fields, constructors), and writes each in its new spelling wherever the name stands: in those files, in proofs of functions and in clauses and
comments of src/. Names of Rust's functions, strings, inputs and outputs stay. It prints names that fall together; with --names it only prints
each old name beside the new one.
"""
import pathlib
import re
import sys

IDENT = r"[^\s(){}\[\];,.\"|⟦⟧λ∥]+"
TOKEN = re.compile(r'"(?:\\.|[^"\\])*"|' + IDENT)
DECLARED = re.compile(r"^(?:(?:abbrev|unfoldable|opaque|private|inline) )*(?:pub )?(?:(?:record|data) )?(" + IDENT + r")(?: [^:]*)? :(?: |$)")
MEMBER = re.compile(r"^\s+(?:pub )?(" + IDENT + r") :(?: |$)")
WORDS = {'use', 'where', 'let', 'in', 'pub', 'mod', 'abbrev', 'record', 'data', 'unfolding', 'λ', 'with', '--'}


def snake(name):
    """The new spelling of a name, or the name itself."""
    if '-' in name and name[0].isupper():
        head, _, rest = name.partition('-')
        return head + '-' + lower(rest)
    return lower(name)


def lower(name):
    if name[:1].isupper() and '-' not in name:
        return name
    return '_'.join(re.sub(r'(?<=[a-z0-9])([A-Z])', lambda m: '_' + m.group(1).lower(), part[:1].lower() + part[1:]) for part in name.split('-'))


def flat_files(root):
    for crate in sorted((root / 'crates').iterdir()):
        for part in ('specs', 'proofs'):
            yield from sorted((crate / part).glob('*.antt'))


def declared_in(text):
    """The names that a file declares, at its margin, in modules with parameters and as members of a record or a data type."""
    names, members, inside, module = set(), set(), False, False
    for line in text.split('\n'):
        if line.startswith('--') or not line.strip():
            continue
        if module and re.match(r'  \S', line):
            m = DECLARED.match(line[2:])
            if m and m.group(1) not in WORDS:
                names.add(m.group(1))
            continue
        if module and re.match(r'\s+pub ', line):
            m = MEMBER.match(line)
            if m:
                names.add(m.group(1))
            continue
        if not line[0].isspace():
            inside = False
            module = line.startswith('module ')
            m = DECLARED.match(line)
            if m and m.group(1) not in WORDS:
                names.add(m.group(1))
                inside = bool(re.match(r'(?:\w+ )*(record|data) ', line)) and line.rstrip().endswith('where')
            elif re.match(r'(?:pub )?(record|data) ', line):
                names.add(re.match(r'(?:pub )?(?:record|data) (' + IDENT + ')', line).group(1))
                inside = True
            if line.rstrip().endswith('where') and re.match(r'(?:\w+ )*(record|data) ', line):
                inside = True
        elif inside:
            m = MEMBER.match(line)
            if m:
                members.add(m.group(1))
    return names, members


def own_crates(root):
    return {c.name for c in (root / 'crates').iterdir() if c.is_dir()}


def foreign(text, crates):
    """The names that a file imports from a library."""
    out, own = set(), set()
    for m in re.finditer(r'^\s*(?:pub )?(?:ghost )?use ([^\s{;]+)\.\{([^}]*)\}', text, re.M):
        path = m.group(1).split('.')
        mine = path[0] == 'Rattle' and path[1] in crates
        for name in re.split(r',\s*', m.group(2).replace('\n', ' ')):
            name = name.strip()
            if name:
                (own if mine else out).add(name)
    return out, own


def survey(root):
    names, members = {}, {}
    for file in flat_files(root):
        n, m = declared_in(file.read_text())
        for x in n:
            names.setdefault(x, []).append(file)
        for x in m:
            members.setdefault(x, []).append(file)
    return names, members


def replaced(text, table, allowed, where):
    def one(m):
        t = m.group(0)
        if t.startswith('"'):
            return t
        return table[t] if t in table and allowed(t, m) else t
    return TOKEN.sub(one, text)


def code_line(line, table):
    """A line with its names in backquotes in the new spelling."""
    return re.sub(r'`([^`]+)`', lambda m: '`' + TOKEN.sub(lambda t: table.get(t.group(0), t.group(0)), m.group(1)) + '`', line)


def main(argv):
    only_names = '--names' in argv
    argv = [a for a in argv if a != '--names']
    root = pathlib.Path(argv[0]) if argv else pathlib.Path(__file__).resolve().parent.parent
    crates = own_crates(root)
    names, members = survey(root)
    table = {}
    for x in list(names) + list(members):
        new = snake(x)
        if new != x:
            table[x] = new
    # A law whose new name is another thing's in a file that has both gets _lem, as the library's laws do.
    together = {}
    for x in table:
        together.setdefault(table[x], []).append(x)
    files = {f: {t.group(0) for t in TOKEN.finditer(f.read_text())} for f in sorted((root / 'crates').rglob('*.antt')) if 'out' not in f.relative_to(root).parts}
    for new, xs in together.items():
        laws = [x for x in xs if '-' in x and x in names]
        xs = xs + [new]
        if laws and any(len(here & set(xs)) > 1 for here in files.values()):
            for x in laws:
                table[x] = new + '_lem'
    if only_names:
        for x in sorted(table):
            print(f'{x} {table[x]}')
        return 0
    taken = set(names) | set(members)
    for x, new in sorted(table.items()):
        if new in taken and {f for f in names.get(x, []) + members.get(x, [])} & {f for f in names.get(new, []) + members.get(new, [])}:
            print(f'falls together in its file: {x} and {new}')
    twice = {}
    for x, new in table.items():
        twice.setdefault(new, []).append(x)
    for new, xs in twice.items():
        if len(xs) > 1:
            print(f'falls together: {" ".join(sorted(xs))} as {new}')
    changed = 0
    for file in sorted((root / 'crates').rglob('*')):
        if file.suffix not in ('.antt', '.rt') or 'out' in file.relative_to(root).parts:
            continue
        text = file.read_text()
        libs, mine = foreign(text, crates)
        flat = file.suffix == '.antt' and file.parent.name in ('specs', 'proofs')
        here = {t.group(0) for t in TOKEN.finditer(text)}
        for x in sorted(here & set(table)):
            if x not in libs and table[x] in here and (flat or file.suffix == '.rt' or x in mine):
                print(f'look: {file.relative_to(root)}: {x} becomes {table[x]}, which stands there too')
        if file.suffix == '.antt':
            def allowed(t, m, libs=libs, mine=mine, flat=flat, text=text):
                field = m.start() > 0 and text[m.start() - 1] == '.'
                if flat:
                    return t not in libs
                return t in mine or (field and t in members)
            new = replaced(text, table, allowed, file)
            new = '\n'.join(code_line(l, table) if l.lstrip().startswith('--') else l for l in new.split('\n'))
        else:
            camel = {x: y for x, y in table.items() if '-' not in x}
            dashed = {x: y for x, y in table.items() if '-' in x}
            new = replaced(text, camel, lambda t, m: t not in libs, file)
            new = '\n'.join(code_line(l, dashed) if '//' in l else l for l in new.split('\n'))
            new = replaced(new, dashed, lambda t, m: t in mine or (t in members and new[m.start() - 1] == '.'), file)
        if new != text:
            file.write_text(new)
            changed += 1
    print(f'respell: {len(table)} names, {changed} files')
    return 0


if __name__ == '__main__':
    sys.exit(main(sys.argv[1:]))
