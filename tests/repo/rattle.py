"""The functions of a crate, as its .rt files declare them."""
import dataclasses
import re

from .text import read_code

FN = re.compile(r'^( *)((?:#\[[^\]]*\]\s*)*)(pub(?:\(crate\))? )?(?:extern "C" )?fn (\w+)', re.M)


# A module, or the methods of a type, which stands behind the trait that they may be of.
BLOCK = re.compile(r'^ *(?:pub(?:\(crate\))? )?(?:mod (\w+)\s*\{|impl\b(?:\s*<[^{;\n]*?>)?\s+(?:[^{;\n]*?\bfor )?(?:\w+::)*(\w+)[^{;\n]*\{)', re.M)


@dataclasses.dataclass
class Function:
    file: str  # below the crate
    module: list  # the modules that it stands in
    owner: str  # the type that it is a method of, or ''
    name: str
    public: bool
    contract: str  # from its name to its body
    body: str
    first: int  # its lines, from its attributes on
    last: int

    def called(self):
        return f'{self.owner}::{self.name}' if self.owner else self.name


def closing(code, at):
    """The place behind the brace that closes the one at a place."""
    depth = 0
    for brace in re.finditer(r'[{}]', code[at:]):
        depth += 1 if brace[0] == '{' else -1
        if depth == 0:
            return at + brace.end()
    return len(code)


def body_of(code, at):
    """The first brace behind a place that opens no contract. A clause may have a name."""
    while (at := code.find('{', at)) >= 0 and re.search(r'\b(?:ensures|requires)\*?(?:\s+\w+)?\s*\Z', code[max(0, at - 200):at]):
        at = closing(code, at)
    return at if at >= 0 else len(code)


def functions_in(code, file, module):
    blocks = [('mod' if m[1] else 'impl', m[1] or m[2], m.start(), closing(code, m.end() - 1)) for m in BLOCK.finditer(code)]
    for m in FN.finditer(code):
        around = [(kind, name) for kind, name, start, end in blocks if start < m.start() < end]
        start = body_of(code, m.end())
        end = closing(code, start)
        modules = module + [name for kind, name in around if kind == 'mod']
        owner = ''.join(name for kind, name in around if kind == 'impl')
        lines = [code.count('\n', 0, place) + 1 for place in (m.start(), end)]
        yield Function(file, modules, owner, m[4], m[3] == 'pub ', code[m.start(4):start], code[start:end], *lines)


def functions(crate):
    for file in sorted(crate.glob('src/**/*.rt')):
        path = file.relative_to(crate / 'src').with_suffix('').parts
        yield from functions_in(read_code(file), str(file.relative_to(crate)), [] if path[-1] in ('lib', 'main') else list(path))


def unread(crate):
    """The files that declare a function which is not read here."""
    count = {}
    for f in functions(crate):
        count[f.file] = count.get(f.file, 0) + 1
    for file in sorted(crate.glob('src/**/*.rt')):
        name = str(file.relative_to(crate))
        if len(re.findall(r'\bfn\b', read_code(file))) != count.get(name, 0):
            yield name
