"""What a file of definitions or laws brings in, declares, states and unfolds."""
import dataclasses
import re

from .text import read_code

MARKS = r'((?:(?:unfoldable|abbrev|opaque|axiom|pub) )*)'
HEADER = re.compile(r'^(?:unfoldable )?(?:pub )?use\s+([^\s{}]+?)(?:\.\{([^}]*)\})?(?:\s+as\s+(\S+))?[ \t]*$', re.M)
NO_SIGNATURE = {'=', 'use', 'mod', 'open', 'module', 'unfolding', 'infix', 'infixl', 'infixr', 'mutual', 'deriving'}


@dataclasses.dataclass
class Declaration:
    name: str
    kind: str  # law, definition, record, data, field or constructor; a law is what has no mark of a definition
    marks: str
    context: str  # the parameters of the modules around it
    statement: str
    body: str = ''

    def unfolded(self):
        """The names that its body unfolds."""
        lines = [m[2] for m in re.finditer(r'^( *)unfolding (.*(?:\n\1 {4,}\S.*)*)', self.body, re.M)]
        terms = re.findall(r'\bunfold\s+([^()=]*?)\s+in\b', self.statement + '\n' + self.body)
        return {name for names in lines + terms for name in names.split()}


def module_of(root, file):
    """A file's module, as any crate names it."""
    return '.'.join(['Rattle', *file.relative_to(root / 'crates').with_suffix('').parts])


def uses(code):
    """The whole path of each module and item that a file brings in, by the name that it has there."""
    known = {}
    for path, items, alias in HEADER.findall(code):
        path = whole(path, known)
        if not items:
            known[alias or path.split('.')[-1]] = path
        for item in filter(None, (part.strip() for part in items.split(','))):
            name, _, other = item.partition(' as ')
            for spelling in spellings(other.strip() or name.split('.')[-1]):
                known[spelling] = f'{path}.{name.strip()}'
    return known


def spellings(name):
    """How a name is written at a use: as it is, and an operator also by its parts."""
    return {name, *filter(None, name.split('◌'))} if '◌' in name and '«' not in name else {name}


def whole(name, known):
    """The whole path of a name."""
    head, dot, rest = name.partition('.')
    return known.get(head, head) + dot + rest


def members(code):
    """Yields (block, parameters around, text) of whatever stands at the top, in a module or in a type: its first line and those indented below it."""
    blocks = [(0, 'top', '')]
    held, opening = [], None
    for line in [*code.split('\n'), '.']:
        if not line.strip():
            continue
        indent = len(line) - len(line.lstrip(' '))
        if opening and indent > opening[0]:
            blocks.append((indent, *opening[1:]))
        if opening or not held or indent <= blocks[-1][0]:
            if held:
                yield (*held[0], '\n'.join(held[1:]))
            while indent < blocks[-1][0]:
                blocks.pop()
            held, opening = [blocks[-1][1:]], None
        held.append(line)
        text = '\n'.join(held[1:])
        if m := re.match(rf"\s*{MARKS}(module|record|data|mutual)\b(?![·'-])", text):
            if m[2] == 'mutual' or re.search(r'\bwhere\s*$', text):
                kind = held[0][0] if m[2] == 'mutual' else m[2]
                opening = (blocks[-1][0], 'top' if kind == 'module' else kind, held[0][1] + (text if m[2] == 'module' else ''))


def declarations(code):
    """Every declaration of a file, with what follows it until the next one."""
    found = []
    for block, context, text in members(code):
        if m := re.match(rf'\s*{MARKS}(record|data) ([^\s(){{}}]+)(.*)', text, re.S):
            found.append(Declaration(m[3], m[2], m[1], context, m[4]))
            continue
        m = re.match(rf'\s*{MARKS}([^\s(){{}}:][^(){{}}:]*?)(?: \{{[^}}]*\}})? :\s(.*)', text, re.S)
        if m and not set(m[2].split()) & NO_SIGNATURE:
            kind = {'record': 'field', 'data': 'constructor'}.get(block, 'definition' if re.search('unfoldable|abbrev', m[1]) else 'law')
            found.extend(Declaration(name, kind, m[1], context, m[3]) for name in m[2].split())
        elif found:
            found[-1].body += text + '\n'
    return found


def bound(text):
    """The names that binders of a statement give."""
    return {name for group in re.findall(r'[({]([^(){}:]+) :\s|λ\s+([^.(]+)\.', text) for name in ' '.join(group).split()}


def words(text):
    return {word.rstrip('.') for word in re.findall(r'[^\s(){};,]+', text)}


def named(text):
    """The names that a statement uses, as they are written there, but for those that it binds."""
    return words(text) - bound(text)


def closed(declaration):
    """A statement without a variable; functions that it only maps over a list do not count."""
    text = re.sub(r'λ\s*(?:\([^()]*\)\s*|[^.\s()]+\s*)*\.', '', declaration.statement)
    return not declaration.context and not re.search(r'→|∀|[({][^(){}:]+ :\s', text)


def declared_in(file):
    return declarations(read_code(file))


def is_law(file, name):
    return file.is_file() and any(d.name == name and d.kind == 'law' for d in declared_in(file))
