#!/usr/bin/env python3
"""Compares what is declared of the library in several places, and fails on any difference.

    declarations.py [ROOT]        ROOT is the repository's, the one that holds this file unless it is named
    declarations.py --self-test   each of several wrong declarations, in a copy of the files, has to be found

include/hromulice.h is compared with
- the library itself: its exported functions (crates/hromulice_c) and the layout of their structs, the words of a state, and its version;
- the Rust crate: functions, structs, the words of a state, numbers, sizes of record, command and mount sheet, version (rust/hromulice);
- the comparison with the second program, which declares the functions that it calls once more (rust/differential);
- the examples' sizes of a record (examples/c/check_batch.c) and of a mount sheet (examples/c/mounts.c).
What this reads of a file it reads whole: a declaration in a form that it does not know is a difference.
"""
import pathlib
import re
import shutil
import sys
import tempfile

HEADER = 'include/hromulice.h'
CRATE = 'rust/hromulice/src/ffi.rs'
COMPARISON = 'rust/differential/src/interface.rs'
REASONS = 'rust/hromulice/src/reason.rs'
SIZES = 'rust/hromulice/src/lib.rs'
MOUNTS = 'rust/hromulice/src/mounts.rs'
CARGO = 'rust/hromulice/Cargo.toml'
EXAMPLE = 'examples/c/check_batch.c'
MOUNTS_EXAMPLE = 'examples/c/mounts.c'
EXPORTS = 'crates/hromulice_c/src/lib.rt'
VERSION = 'crates/hromulice/src/version.rt'
STRUCTS = ['crates/interface/src/lib.rt', 'crates/batch/src/lib.rt']
MEMORY = 'crates/memory/src/lib.rt'
FILES = [HEADER, CRATE, COMPARISON, REASONS, SIZES, MOUNTS, CARGO, EXAMPLE, MOUNTS_EXAMPLE, EXPORTS, VERSION, *STRUCTS, MEMORY]

# C's types as Rust's. A struct of C is named by the word behind hromulice_.
SCALARS = {'uint8_t': 'u8', 'uint16_t': 'u16', 'uint32_t': 'u32', 'uint64_t': 'u64', 'int16_t': 'i16', 'size_t': 'usize'}
# The library's own names for C's structs.
OWN_STRUCTS = {'Summary': 'report', 'Outcome': 'answer', 'Lengths': 'lengths', 'Mount': 'mount', 'Mounts': 'mounts', 'MountShift': 'shift'}
STATE = '[u64; STATE_WORDS]'
# Names of the header's numbers in the Rust crate. 0 is no reason there, and 16 is given by programs alone.
REASON_NAMES = {
    'WORDS_RUN_OUT': 'WordsRunOut', 'UNKNOWN_HEADER': 'UnknownHeader', 'OUT_OF_SEQUENCE': 'OutOfSequence', 'FIXED_BIT': 'FixedBit',
    'FIELD': 'FieldNotPermitted', 'POSITION': 'WrongPosition', 'FLAG': 'SliceOrGroupFlag', 'VECTOR_COPY': 'MissingVectorNotCopy',
    'VECTOR_RANGE': 'VectorBeyondFCode', 'VECTOR_OUTSIDE': 'OutsidePicture', 'SKIP': 'SkipRule', 'AFTER_END': 'WordAfterEnd',
    'BUFFER_SHORT': 'BufferTooShort', 'ROOM_SHORT': 'RoomTooSmall', 'RECORD': 'RecordNotLegal', 'NO_SHEET': 'NoSheet',
    'SHEETS': 'SheetsDamaged', 'EDITION': 'NotNextEdition', 'SIDE': 'SideNotPermitted', 'SHIFT': 'ShiftNotTurned',
    'TOO_MANY_WORDS': 'TooManyWords',
}
APART = {'ACCEPTED': 0, 'NO_LENGTHS': 16}
# What the header's preprocessor lines may define, each once, by compiler, and include.
DEFINED = ['H', 'STATE_WORDS', 'VERSION', 'VERSION_MAJOR', 'VERSION_MINOR', 'VERSION_PATCH', 'VERSION_TEXT']
BY_COMPILER = {'MUST_USE', 'LAYOUT'}
INCLUDED = {'<stddef.h>', '<stdint.h>'}


class Difference(Exception):
    pass


def need(fact, what):
    if not fact:
        raise Difference(what)


def same(given, due, what):
    need(given == due, f'{what}: {given}, where the header has {due}')


def only(pattern, text, what, flags=re.M):
    """The one place where a pattern matches."""
    found = re.findall(pattern, text, flags)
    need(len(found) == 1, f'{what} is not found once')
    return found[0]


def spaced(text):
    return ' '.join(text.split())


def take(pattern, text):
    """All matches of a pattern, and the text without them."""
    found = [m.groups() for m in re.finditer(pattern, text, re.S)]
    return found, re.sub(pattern, ' ', text, flags=re.S)


def c_type(text):
    """A type of C, as Rust has it; structs by the word behind hromulice_."""
    m = re.fullmatch(r'(const )?(\w+)( \*)?', spaced(text))
    need(m and (m[3] or not m[1]), f'{HEADER}: the type {text}')
    name = SCALARS.get(m[2]) or m[2].removeprefix('hromulice_')
    need(m[2] in SCALARS or m[2].startswith('hromulice_'), f'{HEADER}: the type {text}')
    return f'*{"const" if m[1] else "mut"} {name}' if m[3] else name


def c_declared(text, array_size):
    """(type, name) of a field or an argument of C."""
    m = re.fullmatch(r'(.*?)(\w+)(?:\[(\w+)\])?', spaced(text))
    need(m and m[3] in (None, array_size), f'{HEADER}: {text}')
    kind = c_type(m[1].strip())
    return (f'[{kind}; STATE_WORDS]' if m[3] else kind), m[2]


def header_directives(text):
    """The constants of the header; nothing else may be defined or included."""
    defines = re.findall(r'^#define HROMULICE_(\w+)(?:\([^)]*\))?(.*)$', text, re.M)
    lines = re.findall(r'^[ \t]*#[ \t]*(\w+)', text, re.M)
    need(lines.count('define') == len(defines), f'{HEADER}: it defines other names')
    need(sorted(name for name, _ in defines if name not in BY_COMPILER) == DEFINED, f'{HEADER}: it defines other names, or one twice')
    need(set(re.findall(r'^#undef (.*)$', text, re.M)) == {'HROMULICE_LAYOUT'}, f'{HEADER}: it has another #undef')
    need(set(re.findall(r'^#include (\S+)$', text, re.M)) == INCLUDED and lines.count('include') == len(INCLUDED), f'{HEADER}: it includes others')
    unknown = set(lines) - {'define', 'undef', 'include', 'if', 'ifdef', 'ifndef', 'elif', 'else', 'endif', 'error'}
    need(not unknown, f'{HEADER}: it has a line #{unknown}')
    need(not re.search(r'\\$', text, re.M), f'{HEADER}: a line goes on in the next')
    return {name: value.strip() for name, value in defines}


def read_header(root):
    whole = (root / HEADER).read_text()
    text = re.sub(r'/\*.*?\*/', ' ', whole, flags=re.S)
    constants = header_directives(text)
    rest = re.sub(r'^[ \t]*#.*$', '', text, flags=re.M)
    enums, rest = take(r'\benum \{(.*?)\};', rest)
    need(len(enums) == 1, f'{HEADER}: the numbers')
    numbers = {}
    for item in enums[0][0].split(','):
        m = re.fullmatch(r'HROMULICE_(\w+) = (\d+)', item.strip())
        need(m and m[1] not in numbers, f'{HEADER}: the number {item.strip()}')
        numbers[m[1]] = int(m[2])
    structs, rest = take(r'\btypedef struct \{(.*?)\} hromulice_(\w+);', rest)
    fields = {name: [c_declared(field, 'HROMULICE_STATE_WORDS') for field in body.split(';')[:-1]] for body, name in structs}
    need(len(fields) == len(structs), f'{HEADER}: a struct stands there twice')
    _, rest = take(r'\bHROMULICE_LAYOUT\([^;]*\);()', rest)
    functions, rest = take(r'(?:\bHROMULICE_MUST_USE\s+)?\b(\w[\w ]*?\b)(hromulice_\w+)\(([^)]*)\);', rest)
    need(spaced(rest) == 'extern "C" { }', f'{HEADER}: {spaced(rest)}')
    prototypes = {}
    for answer, name, arguments in functions:
        need(name not in prototypes, f'{HEADER}: {name} stands there twice')
        given = [] if arguments == 'void' else [c_declared(argument, '') for argument in arguments.split(',')]
        prototypes[name] = (None if answer.strip() == 'void' else c_type(answer), given)
    return {'text': whole, 'constants': constants, 'numbers': numbers, 'structs': fields, 'functions': prototypes}


def without_comments(text):
    return re.sub(r'//.*', '', text)


def rust_fields(body):
    return [(kind, name) for name, kind in re.findall(r'(?:pub )?(\w+): ([^,]+?),', spaced(body) + ',')]


def rust_structs(text, rename):
    """The structs of C's layout, by C's names."""
    found = re.findall(r'#\[repr\(C\)\]\n(?:#\[derive\([^]]*\)\]\n)?(?:pub )?struct (\w+) \{\n(.*?)\n\}', text, re.S)
    need(len(found) == text.count('#[repr(C)]'), 'a struct of C layout is not read')
    return {rename(name): [(rename(kind), field) for kind, field in rust_fields(body)] for name, body in found}


def rust_type(text, rename):
    m = re.fullmatch(r'(\*(?:const|mut) )?(.*)', text)
    return (m[1] or '') + rename(m[2])


def rust_functions(text, rename, path):
    """What one extern block declares."""
    block = only(r'^extern "C" \{\n(.*?)^\}', text, f'{path}: the declarations', re.M | re.S)
    found, rest = take(r'\bfn (\w+)\(([^)]*)\)(?: -> (\w+))?;', block)
    need(not rest.strip() and len({name for name, _, _ in found}) == len(found), f'{path}: {spaced(rest)}')
    return {name: (answer and rename(answer), [(rust_type(kind, rename), argument) for kind, argument in rust_fields(arguments)])
            for name, arguments, answer in found}


def compare_rust(header, root, path, prefix, whole, state):
    """The declarations of a Rust crate. `state` is what it lends a pointer to; `whole` if it declares every function and struct."""
    text = without_comments((root / path).read_text())
    lower = {f'{prefix}{name.capitalize()}': name for name in header['structs']}

    def rename(kind):
        return lower.get(kind, kind)

    def due(kind):
        return kind.replace(' state', f' {state}') if kind else kind

    structs, functions = rust_structs(text, rename), rust_functions(text, rename, path)
    for name, fields in structs.items():
        same(fields, header['structs'].get(name), f'{path}: the struct {name}')
    for name, (answer, arguments) in functions.items():
        need(name in header['functions'], f'{path}: {name} is not in the header')
        answer_due, arguments_due = header['functions'][name]
        same((answer or None, arguments), (answer_due, [(due(kind), argument) for kind, argument in arguments_due]), f'{path}: {name}')
    if whole:
        same(set(structs), set(header['structs']), f'{path}: the structs')
        same(set(functions), set(header['functions']), f'{path}: the functions')
    same(only(r'^pub const STATE_WORDS: usize = (\d+);$', text, f'{path}: STATE_WORDS'), header['constants']['STATE_WORDS'], f'{path}: STATE_WORDS')


def compare_numbers(header, root):
    text = without_comments((root / REASONS).read_text())
    body = only(r'^#\[repr\(u8\)\]\npub enum Reason \{\n(.*?)^\}', text, f'{REASONS}: the reasons', re.M | re.S)
    found, rest = take(r'\b(\w+) = (\d+),', body)
    need(not rest.strip(), f'{REASONS}: {spaced(rest)}')
    reasons = {name: int(number) for name, number in found}
    numbers = {REASON_NAMES.get(name, name): number for name, number in header['numbers'].items() if name not in APART}
    same(reasons, numbers, f'{REASONS}: the numbers')
    same(APART, {name: header['numbers'].get(name) for name in APART}, 'the numbers that are no reasons')
    need(len(set(header['numbers'].values())) == len(header['numbers']), f'{HEADER}: two names have one number')


def compare_sizes(header, root):
    """The place of 14, which is the bytes of a record and the words of a command; and the bytes of a mount sheet."""
    for name, function in ('RECORD_BYTES', 'read_command'), ('COMMAND_WORDS', 'write_command'):
        comment = only(rf'/\*((?:(?!\*/).)*)\*/\s*HROMULICE_MUST_USE\s+\w+ hromulice_{function}\(', header['text'], f'{HEADER}: {function}', re.S)
        place = only(r'14, with place (\d+)', spaced(comment.replace('\n *', ' ')), f'{HEADER}: the place of 14 by {function}')
        same(only(rf'^pub const {name}: usize = (\d+);$', (root / SIZES).read_text(), f'{SIZES}: {name}'), place, f'{SIZES}: {name}')
        if name == 'RECORD_BYTES':
            same(only(rf'^#define {name} (\d+)$', (root / EXAMPLE).read_text(), f'{EXAMPLE}: {name}'), place, f'{EXAMPLE}: {name}')
    size = only(r'^/\* Mount sheets\. A sheet has (\d+) bytes,', header['text'], f'{HEADER}: the bytes of a mount sheet')
    for path, pattern in (MOUNTS, r'^pub const SHEET_BYTES: usize = (\d+);$'), (MOUNTS_EXAMPLE, r'^#define SHEET_BYTES (\d+)$'):
        same(only(pattern, (root / path).read_text(), f'{path}: SHEET_BYTES'), size, f'{path}: SHEET_BYTES')


def compare_versions(header, root):
    constants = header['constants']
    parts = [constants[f'VERSION_{part}'] for part in ('MAJOR', 'MINOR', 'PATCH')]
    version = '.'.join(parts)
    same(constants['VERSION_TEXT'], f'"{version}"', f'{HEADER}: the text of the version')
    need(re.search(rf'^ \* {re.escape(version)}: ', header['text'], re.M), f'{HEADER}: its history does not tell of {version}')
    same(only(r'^version = "(.*)"$', (root / CARGO).read_text(), f'{CARGO}: the version'), version, f'{CARGO}: the version')
    own = (root / VERSION).read_text()
    same([only(rf'^const {part}: u32 = (\d+);$', own, f'{VERSION}: {part}') for part in ('MAJOR', 'MINOR', 'PATCH')], parts, VERSION)


def lent(kind, name):
    """The arguments of C for one argument of an exported function: a slice is a pointer and a count."""
    if m := re.fullmatch(r'&(mut )?\[(\w+)\]', kind):
        return [(f'*{"mut" if m[1] else "const"} {m[2]}', name), ('usize', None)]
    if m := re.fullmatch(r'&(mut )?\[u64; memory::WORDS\]', kind):
        return [(f'*{"mut" if m[1] else "const"} state', 'state')]
    return [(OWN_STRUCTS.get(kind, kind), name)]


def compare_library(header, root):
    structs = {}
    for path in STRUCTS:
        structs |= rust_structs(without_comments((root / path).read_text()), lambda name: OWN_STRUCTS.get(name, name))
    structs['state'] = [(STATE, 'words')]
    same(structs, header['structs'], 'the structs of the library')
    words = only(r'^pub const WORDS: usize = (\d+);$', (root / MEMORY).read_text(), f'{MEMORY}: WORDS')
    same(words, header['constants']['STATE_WORDS'], f'{MEMORY}: WORDS')
    functions = {}
    text = without_comments((root / EXPORTS).read_text())
    found = re.findall(r'^#\[unsafe\(no_mangle\)\]\npub extern "C" fn (\w+)\(([^)]*)\)(?: -> (\w+))?$', text, re.M)
    need(len(found) == text.count('extern "C"') == text.count('no_mangle'), f'{EXPORTS}: an exported function is not read')
    need(not re.search(r'^ *(?:pub )?mod\b', text, re.M), f'{EXPORTS}: it has other files')
    for name, arguments, answer in found:
        given = re.findall(r'(\w+): ([^,]+)', arguments)
        functions[name] = (OWN_STRUCTS.get(answer, answer) or None, [c for argument, kind in given for c in lent(kind, argument)])
    same(set(functions), set(header['functions']), 'the functions of the library')
    for name, (answer, arguments) in functions.items():
        due = header['functions'][name]
        same([kind for kind, _ in arguments], [kind for kind, _ in due[1]], f'the arguments of {name} in the library')
        named = [(argument, of_header) for (_, argument), (_, of_header) in zip(arguments, due[1]) if argument]
        same([a for a, _ in named], [b for _, b in named], f'the names of the arguments of {name} in the library')
        same(answer, due[0], f'the answer of {name} in the library')


def compare(root):
    header = read_header(root)
    compare_library(header, root)
    compare_rust(header, root, CRATE, '', True, 'state')
    compare_rust(header, root, COMPARISON, 'C', False, 'u64')
    compare_numbers(header, root)
    compare_sizes(header, root)
    compare_versions(header, root)
    return len(header['functions']), len(header['structs']), len(header['numbers'])


# (what is wrong, file, pattern, what stands there instead)
WRONG = [
    ('fewer words of a state', HEADER, r'STATE_WORDS 128', 'STATE_WORDS 50'),
    ('two numbers exchanged', HEADER, r'(HROMULICE_FIXED_BIT = )4(.*?HROMULICE_FIELD = )5', r'\g<1>5\g<2>4'),
    ('one number twice', HEADER, r'HROMULICE_NO_LENGTHS = 16', 'HROMULICE_NO_LENGTHS = 15'),
    ('a number that no answer has', HEADER, r'(HROMULICE_TOO_MANY_WORDS = 27)', r'\1, HROMULICE_OTHER = 28'),
    ('a number is missing', HEADER, r' *HROMULICE_SKIP = 11,', ''),
    ('two fields exchanged', HEADER, r'(uint64_t )forward(;\n *uint64_t )backward', r'\1backward\2forward'),
    ('a field wider', HEADER, r'uint8_t number', 'uint32_t number'),
    ('a field more', HEADER, r'(uint64_t backward;)', r'\1 uint64_t other;'),
    ('first bytes before lengths', HEADER, r'(hromulice_lengths )lengths(;\n *hromulice_lengths )firsts', r'\1firsts\2lengths'),
    ('an argument of another type', HEADER, r'(hromulice_check\(const )uint32_t', r'\1uint64_t'),
    ('a count of another type', HEADER, r'(hromulice_check\(const uint32_t \*words, )size_t', r'\1uint32_t'),
    ('words that may be written', HEADER, r'hromulice_check\(const ', 'hromulice_check('),
    ('words that may not', HEADER, r'(hromulice_write_command\(.*?, )(uint32_t \*words)', r'\1const \2'),
    ('two arguments exchanged', HEADER, r'(hromulice_read_command\()(.*?count), (.*?bytes)\)', r'\1\3, \2)'),
    ('an answer of another type', HEADER, r'uint32_t (hromulice_version\()', r'uint64_t \1'),
    ('no answer', HEADER, r'hromulice_report (hromulice_report_of\()', r'void \1'),
    ('a function is missing', HEADER, r'void hromulice_begin\(.*?\);', ''),
    ('a function that is not there', HEADER, r'(void hromulice_begin\()', r'void hromulice_end(hromulice_state *state);\n\1'),
    ('a name for another function', HEADER, r'(#ifdef __cplusplus\nextern)', r'#define hromulice_check hromulice_decode\n\1'),
    ('two sizes of a state', HEADER, r'(#define HROMULICE_STATE_WORDS )', r'#define HROMULICE_STATE_WORDS 50\n#undef HROMULICE_STATE_WORDS\n\1'),
    ('a struct twice', HEADER, r'(typedef struct \{\n *uint8_t)', r'typedef struct { uint8_t number; } hromulice_report;\n\1'),
    ('fields packed', HEADER, r'(typedef struct \{\n *uint8_t)', r'#pragma pack(1)\n\1'),
    ('a type named anew', HEADER, r'(typedef struct \{\n *uint8_t)', r'typedef uint32_t word;\n\1'),
    ('another version', HEADER, r'(VERSION_MINOR) (\d+)', r'\1 2\2'),
    ('another text of the version', HEADER, r'VERSION_TEXT "', 'VERSION_TEXT "1'),
    ('another place of 14', HEADER, r'with place 24', 'with place 32'),
    ('another size of a sheet', HEADER, r'A sheet has 16 bytes', 'A sheet has 24 bytes'),
    ('x and y exchanged', HEADER, r'(int16_t )x(;\n *int16_t )y', r'\1y\2x'),
    ('a shift without its sign', HEADER, r'int16_t x;', 'uint16_t x;'),
    ('a side in place of the edition', HEADER, r'(uint32_t edition;)\n *(uint8_t side;)', r'\2 \1'),
    ('boat and edition exchanged', HEADER, r'(hromulice_ask_mount\(.*?uint32_t )boat(, uint32_t )edition', r'\1edition\2boat'),
    ('a side too narrow to be refused', HEADER, r'(hromulice_mount_vector\()uint32_t', r'\1uint8_t'),
    ('sheets that may not be written', HEADER, r'(hromulice_add_mount\()', r'\1const '),
    ('two numbers exchanged', HEADER, r'(HROMULICE_EDITION = )21(.*?HROMULICE_SIDE = )22', r'\g<1>22\g<2>21'),
    ('fewer words of a state', CRATE, r'(STATE_WORDS: usize = )128', r'\g<1>99'),
    ('a function is missing', CRATE, r' *fn hromulice_hand_over\(.*?;\n', ''),
    ('a function that is not there', CRATE, r'( *fn hromulice_hand_over\()', r'    fn hromulice_end();\n\1'),
    ('an argument of another type', CRATE, r'(fn hromulice_check\(words: \*const )u32', r'\1u8'),
    ('two arguments exchanged', CRATE, r'(fn hromulice_hand_over\()(state: \*mut State), (.*?count: usize)', r'\1\3, \2'),
    ('an answer of another type', CRATE, r'(fn hromulice_version\(\) -> )u32', r'\1u64'),
    ('two fields exchanged', CRATE, r'(pub )number: u8(,\n *pub )place: u64', r'\1place: u64\2number: u8'),
    ('no first bytes', CRATE, r' *pub firsts: Lengths,\n', ''),
    ('x and y exchanged', CRATE, r'(pub )x(: i16,\n *pub )y', r'\1y\2x'),
    ('side and edition exchanged', CRATE, r'(fn hromulice_add_mount\(.*?)edition: u32, side: u32', r'\1side: u32, edition: u32'),
    ('sheets that may be written', CRATE, r'(fn hromulice_ask_mount\(sheets: \*)const', r'\1mut'),
    ("a struct of Rust's layout", CRATE, r'#\[repr\(C\)\]\n(pub struct Answer)', r'\1'),
    ('two numbers exchanged', REASONS, r'(SkipRule = )11(.*?WordAfterEnd = )12', r'\g<1>12\g<2>11'),
    ('two numbers exchanged', REASONS, r'(NotNextEdition = )21(.*?SideNotPermitted = )22', r'\g<1>22\g<2>21'),
    ('another size of a record', SIZES, r'RECORD_BYTES: usize = 24', 'RECORD_BYTES: usize = 32'),
    ('another size of a command', SIZES, r'COMMAND_WORDS: usize = 9', 'COMMAND_WORDS: usize = 8'),
    ('another size of a sheet', MOUNTS, r'SHEET_BYTES: usize = 16', 'SHEET_BYTES: usize = 24'),
    ('another version', CARGO, r'(\nversion = ")', r'\g<1>1'),
    ('another size of a record', EXAMPLE, r'RECORD_BYTES 24', 'RECORD_BYTES 32'),
    ('another size of a sheet', MOUNTS_EXAMPLE, r'SHEET_BYTES 16', 'SHEET_BYTES 24'),
    ('fewer words of a state', COMPARISON, r'(STATE_WORDS: usize = )128', r'\g<1>99'),
    ('an argument of another type', COMPARISON, r'(fn hromulice_begin\(lengths: CLengths, state: \*)mut', r'\1const'),
    ('first bytes before lengths', COMPARISON, r'lengths(: CLengths,\n *)firsts', r'firsts\1lengths'),
    ('x and y exchanged', COMPARISON, r'x(: i16,\n *)y', r'y\1x'),
    ('more words of a state', MEMORY, r'(WORDS: usize = )128', r'\g<1>129'),
    ('two fields exchanged', STRUCTS[1], r'(pub )source(: u64,\n *pub )reconstructed', r'\1reconstructed\2source'),
    ('a field narrower', STRUCTS[0], r'place: u64', 'place: u32'),
    ('no first bytes', STRUCTS[0], r' *pub firsts: Lengths,\n', ''),
    ('x and y exchanged', STRUCTS[0], r'(pub )x(: i16,\n *pub )y', r'\1y\2x'),
    ('a shift without its sign', STRUCTS[0], r'x: i16', 'x: u16'),
    ('a function is not exported', EXPORTS, r'#\[unsafe\(no_mangle\)\]\n', ''),
    ('an argument of another type', EXPORTS, r'words: &\[u32\]', 'words: &[u64]'),
    ('an argument that is written', EXPORTS, r'(report_of\(memory: &)', r'\1mut '),
    ('boat and edition exchanged', EXPORTS, r'(hromulice_ask_mount\(.*?)boat: u32, edition: u32', r'\1edition: u32, boat: u32'),
    ('edition and side exchanged', EXPORTS, r'(hromulice_add_mount\(.*?)edition: u32,\s+side: u32', r'\1side: u32, edition: u32'),
    ('sheets that are not written', EXPORTS, r'(hromulice_add_mount\(\s*sheets: &)mut ', r'\1'),
    ('another version', VERSION, r'(MAJOR: u32 = )', r'\g<1>1'),
]


def self_test(root):
    compare(root)
    for what, path, pattern, instead in WRONG:
        with tempfile.TemporaryDirectory() as folder:
            copy = pathlib.Path(folder)
            for name in FILES:
                (copy / name).parent.mkdir(parents=True, exist_ok=True)
                shutil.copy(root / name, copy / name)
            text = (copy / path).read_text()
            wrong = re.sub(pattern, instead, text, count=1, flags=re.S)
            need(wrong != text, f'{path}: {what}: there is nothing to change')
            (copy / path).write_text(wrong)
            try:
                compare(copy)
            except Difference:
                continue
        raise Difference(f'{path}: {what}: not found')
    print(f'tests/c: {len(WRONG)} wrong declarations found')


def main(arguments):
    root = pathlib.Path(__file__).resolve().parent.parent.parent
    try:
        if arguments == ['--self-test']:
            self_test(root)
        else:
            functions, structs, numbers = compare(pathlib.Path(arguments[0]) if arguments else root)
            print(f'tests/c: {functions} functions, {structs} structs and {numbers} numbers are declared alike')
    except Difference as difference:
        sys.exit(f'tests/c/declarations.py: {difference}')


if __name__ == '__main__':
    main(sys.argv[1:])
