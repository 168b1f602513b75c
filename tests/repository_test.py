#!/usr/bin/env python3
"""Tries the checks of tests/repo/ on small trees that are made up here: one that passes, and those that have to be refused."""
import contextlib
import io
import pathlib
import re
import subprocess
import sys
import tempfile
import unittest

sys.dont_write_bytecode = True
import repository
from repo import antt, claims, contracts, documents, edits, laws, rattle, refusals, text

BASE = {
    'crates.txt': '# crates\none:\none_code: one\n',
    'crates/one/src/lib.rt': '',
    'crates/one/specs/Lib.antt': 'pub mod Twice\n',
    'crates/one/specs/Twice.antt': '''-- Twice a number.
-- Proved: against a sum, by `twice-sum` (proofs/Laws.antt).
use Rattle.std.specs.Prelude.{ℕ, ◌+◌}

-- two of it
unfoldable pub twice : ℕ → ℕ
twice n = n + n

pub record Pair (n : ℕ) : Type 0 where
  pub other : ℕ
  pub same : other ≡ n
''',
    'crates/one/proofs/Laws.antt': '''-- What twice a number is.
use Rattle.one.specs.Twice.{twice}

abbrev thrice : ℕ → ℕ
thrice n = n + twice n

pub twice-sum : (n : ℕ) → twice n ≡ n + n
unfolding twice
twice-sum n = by n
  where
    by : (m : ℕ) → m + m ≡ m + m
    by m = refl

module _ (n : ℕ)
    (small : n < 4) where
  pub twice-small : twice n < 8
  twice-small = omega arith
''',
    'crates/one/must-fail/three.edit': '''guards: one_code::twice
why: three times
law: proofs/Laws.antt twice-sum
file: specs/Twice.antt
old: twice n = n + n
new: twice n = n + n + n
''',
    'crates/one_code/src/lib.rt': '''// Twice, by a sum.
ghost use Rattle.one.specs.Twice.{twice};

pub const MOST: u32 = 7;

// two of it
#[inline]
pub fn twice(n: u8) -> u32
    ensures { result ≡ twice n }
{
    // it requires nothing
    let m = wide(n);
    m + wide(n)
}

fn wide(n: u8) -> u32
    requires { n < 256 }
    ensures exact {
        result ≡ n
    }
    ensures again { result + 0 ≡ n }
{
    n as u32
}
''',
    'crates/one_code/must-fail/wrong_1.edit': '''name: twice_once
guards: twice
why: one of it alone
file: src/lib.rt
old:     m + wide(n)
new:     m + 0
''',
    'docs/CLAIMS.md': '''# Claims

| Claim | Said by | Edits |
|---|---|---|
| Twice | `twice` (`crates/one/specs/Twice.antt`), `same` (`crates/one/specs/Twice.antt`), `twice-sum` (`crates/one/proofs/Laws.antt`) | `one/three` |
| Small | `twice-small` (`crates/one/proofs/Laws.antt`) | |
| In code | `twice` (`crates/one_code/src/lib.rt`), `MOST` (`crates/one_code/src/lib.rt`) | `one_code/twice_once` |
''',
    'README.md': 'A text.\n',
}
# What a check says of a crate with a wrong answer in it.
LAW_LOG = '''./proofs/Laws.antt:8:1: error: `twice-sum`: expected type `twice n ≡ n + n`
  but this has type `n ≡ n`
logic=not-proved
'''
CODE_LOG = '''./proofs/twice/Answers.antt:8:1: error: `returns`: `omega`: the goal does not follow from what it read. It fails at `a long name`
  = 1, and 0 for every other atom
fn one_code::twice: no proof: expected answers in ./proofs/twice/Answers.antt
fn one_code::wide: proved
logic=not-proved
'''
# What rt ci says of the two edits.
CI_LOG = '''rt: one is kept: an earlier run on this machine proved the same files over the same libraries
rt: one_code proved
rt: must-fail one/three.edit: refused, as it must be: ./proofs/Laws.antt:8:1: error: `twice-sum`: expected type `twice n ≡ n + n`, but this ha
rt: must-fail one_code/wrong_1.edit: refused, as it must be: note: src/lib.rt:8:1: it is not proved that what the function ensures holds when it returns (`returns`)
rt: ok; handles allowed: none; must-fail edits: 2 refused; every proof and must-fail edit was done in this run
4 passed, 0 failed
'''


class Tree(unittest.TestCase):
    def setUp(self):
        held = tempfile.TemporaryDirectory()
        self.addCleanup(held.cleanup)
        self.root = pathlib.Path(held.name).resolve()
        for path, content in BASE.items():
            self.write(path, content)

    def write(self, path, content):
        file = self.root / path
        file.parent.mkdir(parents=True, exist_ok=True)
        file.write_text(content)

    def change(self, path, old, new):
        content = (self.root / path).read_text()
        self.assertEqual(content.count(old), 1, f'{old!r} in {path}')
        self.write(path, content.replace(old, new))

    def passes(self, check, count=None):
        faults = []
        found = check(self.root, faults)
        self.assertEqual(faults, [])
        if count is not None:
            self.assertEqual(found, count)

    def refuses(self, check, *words):
        """One fault, that has these words."""
        faults = []
        check(self.root, faults)
        self.assertEqual(len(faults), 1, faults)
        for word in words:
            self.assertIn(word, faults[0])


class Texts(unittest.TestCase):
    def test_comments_are_blank_and_texts_stay(self):
        self.assertEqual(text.code_of('a // b\nc /* d /* e */ f */ g b"//" h', '.rt').split(), ['a', 'c', 'g', 'b"//"', 'h'])
        self.assertEqual(text.code_of('a -- b\nc-d {- e {- f -} -} g (-- h\n"--" i', '.antt').split(), ['a', 'c-d', 'g', '(', '"--"', 'i'])

    def test_what_differs_in_comments_and_marks_is_the_same(self):
        self.assertTrue(text.same_code('abbrev pub f : A -- b', 'pub f :  A', '.antt'))
        self.assertFalse(text.same_code('f = 1', 'f = 2', '.antt'))


class Said(Tree):
    """By rt ci's output, which has one line of each edit."""

    def check(self, log):
        return lambda root, faults: refusals.check_refusals(root, faults, log)

    def of(self, file, said):
        """rt ci's output with something else said of an edit."""
        return re.sub(rf'(?m)^(rt: must-fail \w+/{file}\.edit: ).*', lambda m: m[1] + said, CI_LOG)

    def test_passes(self):
        self.passes(self.check(CI_LOG), 2)
        self.passes(self.check(CI_LOG.replace('every proof', 'done in this run: 0 of the 2 proofs; the others')), 2)
        for place in ('./proofs/twice/Proof.antt:3:1: error: `returns`', 'proofs/twice/Answers.antt:3:1: error: `x`', 'src/lib.rt:13:5: error: `x`'):
            self.passes(self.check(self.of('wrong_1', f'refused, as it must be: {place}: found no proof')), 2)

    def test_nothing_is_said(self):
        self.refuses(self.check(CI_LOG.replace('rt: must-fail one/three', 'rt: one/three')), 'three: rt ci says nothing of it')

    def test_not_refused(self):
        for said in ('BAD EDIT: an \'old:\' text is in src/lib.rt 0 times, and not once', 'NOT REFUSED: the crate is still proved with this edit',
                     'NOT TRIED: its check was killed', 'refused, as it must be (only by a limit of the prover): ./proofs/Laws.antt:8:1: error: antt ran out of stack',
                     'refused, as it must be (only because a proof file names what the edit took away): ./proofs/Laws.antt:1:1: error: `x` is not in scope'):
            self.refuses(self.check(self.of('three', said)), 'three: rt ci says of it')

    def test_no_fact(self):
        for said in ('', ': ./proofs/Laws.antt:3:1: error: `thrice`: record `Pair` has no field `n`', ': ./proofs/Laws.antt:3:1: note: the name is idle',
                     ': ./proofs/Laws.antt:3:1: error: `it is not proved that` is not in scope', ': ./proofs/Laws.antt:3:1: error: `twice-sum` was not admitted, so `found no proof'):
            self.refuses(self.check(self.of('three', f'refused, as it must be{said}')), 'three: rt ci names no fact first')

    def test_cut_in_what_is_quoted(self):
        self.passes(self.check(self.of('three', 'refused, as it must be: ./proofs/Laws.antt:8:1: error: `twice-sum`: expected type `twice n ≡ it is')), 2)
        self.passes(self.check(self.of('three', 'refused, as it must be: ./proofs/Laws.antt:8:1: error: `twice-sum`: `twice n` ≟ `n + (n +')), 2)
        self.assertFalse(refusals.is_fact('error: `twice-sum`: `twice n` ≟ `n`'))
        self.refuses(self.check(self.of('three', 'refused, as it must be: ./proofs/Laws.antt:8:1: error: `twice-sum`: a `, it is not proved that')), 'names no fact')

    def test_elsewhere(self):
        self.refuses(self.check(self.of('three', 'refused, as it must be: src/lib.rt:8:1: error: found no proof')), 'three: was refused in src/lib.rt, and not by a law')
        for place in ('src/lib.rt:17:1', 'src/lib.rt:4:1', './proofs/wide/Answers.antt:3:1', './proofs/Laws.antt:3:1'):
            self.refuses(self.check(self.of('wrong_1', f'refused, as it must be: {place}: error: `x`: found no proof')), 'twice_once: was refused in', 'and not in the proof')

    def test_two_wrong_programs_of_one_function(self):
        edit = BASE['crates/one_code/must-fail/wrong_1.edit']
        again = edit.replace('twice_once', 'again').replace('m + wide(n)', 'let m = wide(n);').replace('m + 0', 'let m = 0;')
        self.write('crates/one_code/must-fail/wrong_1.edit', f'{edit}\n{again}')
        self.refuses(self.check(CI_LOG), 'again: another wrong program of this edit changes the same function')

    def test_counted_otherwise(self):
        for counted in ('1 refused', '3 refused', '2 refused, 1 of them only by a limit', '2 refused, 1 bad', '2 refused, 0 bad'):
            self.refuses(self.check(CI_LOG.replace('2 refused', counted)), 'rt ci counts its edits as')
        for without in (CI_LOG.replace('rt: ok', 'rt: FAILED'), CI_LOG.replace('; must-fail edits: 2 refused', '')):
            self.refuses(self.check(without), 'rt ci counts its edits as []')

    def test_an_edit_that_is_not_there(self):
        self.refuses(self.check(CI_LOG.replace('rt: ok', 'rt: must-fail one/four.edit: refused, as it must be: x\nrt: ok')), 'four.edit: rt ci says something of it')


class Refusals(Tree):
    """By the whole output of a check, which tests/refusals reads."""

    def fault(self, crate, log):
        (edit,) = edits.edits(self.root / 'crates' / crate)
        return refusals.fault_of(edit, log)

    def test_wrapped_facts_are_facts(self):
        self.assertIsNone(self.fault('one', LAW_LOG))
        self.assertIsNone(self.fault('one_code', CODE_LOG))
        self.assertIsNone(self.fault('one_code', CODE_LOG.replace('Answers.antt:8', 'Proof.antt:8')))

    def test_note_of_a_function(self):
        note = 'note: src/lib.rt:8:1: it is not proved that what the function ensures holds when it returns (`returns`)\n'
        self.assertIsNone(self.fault('one_code', note + CODE_LOG[CODE_LOG.index('fn one_code'):]))

    def test_law_that_is_only_unfit_in_the_second_line(self):
        unfit = '`twice-sum`: module `Rattle.one.specs.Twice` has no `twice`\n  that can be named from here\n'
        fact = './proofs/Other.antt:3:1: error: `other`: expected type `1 ≡ 2`, but this has type `1 ≡ 1`\n'
        for after in ('logic=not-proved\n', LAW_LOG):
            self.assertIn('twice-sum did not refuse it', self.fault('one', f'{fact}./proofs/Laws.antt:8:1: error: {unfit}{after}'))

    def test_output_that_is_unfit_first(self):
        unfit = './proofs/Laws.antt:3:1: error: `thrice`: record `Rattle.one.specs.Twice.Pair`\n  has no field `n`\n'
        self.assertIn('names no fact first', self.fault('one', unfit + LAW_LOG))

    def test_function_whose_proof_is_unfit_first(self):
        unfit = './proofs/twice/Answers.antt:4:1: error: `wide-requires`: module `Goals` has no `wide-requires`\n  that can be named from here\n'
        fact = './proofs/wide/Answers.antt:3:1: error: `returns`: expected type `1 ≡ 2`, but this has type `1 ≡ 1`\n'
        self.assertIn('not refused at a fact in the proof of the function', self.fault('one_code', fact + unfit + CODE_LOG))

    def test_function_that_is_proved(self):
        for proved in ('proved', 'proved, may abort'):
            log = re.sub(r'twice: no proof.*', f'twice: {proved}', CODE_LOG)
            self.assertIn('not refused at a fact', self.fault('one_code', log))

    def test_crate_that_is_proved(self):
        self.assertIn('did not refuse it', self.fault('one', LAW_LOG.replace('logic=not-proved', 'logic=proved')))

    def test_facts_that_are_cut(self):
        left = 'error: `a`: give a proof of that as the last argument, `simp L t` (`simp L ?` shows it as a hole'
        for message in (left, 'error: `a`: `search`: no proof of `b ≡ c', 'error: `a`: `search`: no proof of `b` was'):
            self.assertTrue(refusals.is_fact(message, cut=True))
            self.assertFalse(refusals.is_fact(message))

    def test_quoted_words_count_for_nothing(self):
        self.assertTrue(refusals.is_fact('error: `a`: the two types are `b was not admitted` (expected) and `c` (found)'))
        self.assertFalse(refusals.is_fact('error: `a`: `it is not proved that` is not in scope'))
        self.assertFalse(refusals.is_fact('error: `)` cannot continue the declaration here'))

    def test_notes_are_no_errors(self):
        self.assertIsNone(self.fault('one', './proofs/Laws.antt:8:1: note: the name is idle\n' + LAW_LOG))


class Contracts(Tree):
    def test_passes(self):
        self.passes(contracts.check_storeys)
        self.passes(contracts.check_contracts, 1)

    def test_requires_behind_a_wrapped_contract(self):
        self.change('crates/one_code/src/lib.rt', '≡ twice n }\n', '≡ twice n }\n    requires small {\n        n < 4\n    }\n')
        self.refuses(contracts.check_contracts, 'one_code::twice has a requires')

    def test_ensures_in_a_comment_alone(self):
        self.change('crates/one_code/src/lib.rt', '    ensures { result ≡ twice n }\n', '    // ensures { .. }\n')
        self.refuses(contracts.check_contracts, 'says nothing of its answer')

    def test_public_function_with_an_attribute_in_its_line_or_in_a_module(self):
        self.change('crates/one_code/src/lib.rt', '#[inline]\npub fn', '#[inline] pub fn')
        self.passes(contracts.check_contracts, 1)
        code = (self.root / 'crates/one_code/src/lib.rt').read_text()
        self.write('crates/one_code/src/lib.rt', code + '\nmod inner {\n    pub fn hidden() -> u32\n    {\n        3\n    }\n}\n')
        faults = []
        self.assertEqual(contracts.check_contracts(self.root, faults), 2)
        self.assertIn('one_code::hidden says nothing of its answer', faults)

    def test_function_that_is_not_read(self):
        self.change('crates/one_code/src/lib.rt', 'fn wide(n: u8)', 'unsafe fn wide(n: u8)')
        self.refuses(contracts.check_storeys, 'not written as the others')

    def test_function_beside_definitions(self):
        self.write('crates/one/src/lib.rt', 'fn f() {\n}\n')
        self.refuses(contracts.check_storeys, 'one: has functions beside its definitions')

    def test_unguarded(self):
        self.change('crates/one/must-fail/three.edit', 'one_code::twice', 'one_code::other')
        faults = []
        contracts.check_contracts(self.root, faults)
        self.assertEqual(len(faults), 2, faults)
        self.assertIn('three says not which public function it guards', faults[0])
        self.assertEqual(faults[1], 'one_code::twice has no must-fail edit with a wrong definition')

    def test_guards_what_does_not_stand_above(self):
        self.write('crates.txt', 'one:\nother: one\none_code: # other\n')
        self.refuses(contracts.check_contracts, 'three: one_code::twice has nothing to do with it')
        self.write('crates.txt', 'one:\nother: one\none_code: other\n')
        self.passes(contracts.check_contracts, 1)

    def test_guards_what_does_not_call_it(self):
        self.change('crates/one_code/must-fail/wrong_1.edit', 'old:     m + wide(n)\nnew:     m + 0', 'old:     n as u32\nnew:     0')
        self.passes(contracts.check_contracts, 1)
        self.change('crates/one_code/src/lib.rt', 'let m = wide(n);\n    m + wide(n)', 'n as u64 as u32')
        self.refuses(contracts.check_contracts, 'twice_once: one_code::twice has nothing to do with it')

    def test_edit_of_a_comment(self):
        edit = 'crates/one_code/must-fail/wrong_1.edit'
        self.change(edit, 'old:     m + wide(n)\nnew:     m + 0', 'old: it requires nothing\nnew: nothing')
        self.refuses(contracts.check_contracts, 'twice_once', 'nothing but comments and marks')

    def test_edit_of_a_text_that_is_not_there_once(self):
        for old in ('twice m', 'n'):
            self.write('crates/one/must-fail/three.edit', BASE['crates/one/must-fail/three.edit'].replace('old: twice n = n + n', f'old: {old}'))
            self.refuses(contracts.check_contracts, f'does not stand once in specs/Twice.antt: {old}')

    def test_edit_of_marks(self):
        edit = 'crates/one/must-fail/three.edit'
        self.change(edit, 'old: twice n = n + n\nnew: twice n = n + n + n', 'old: unfoldable pub twice\nnew: pub twice')
        self.refuses(contracts.check_contracts, 'three', 'nothing but comments and marks')

    def test_edit_of_a_signature(self):
        self.change('crates/one/must-fail/three.edit', 'old: twice n', 'old: pub twice : ℕ → ℕ\nnew: pub twice : ℕ → ℕ → ℕ\nold: twice n')
        self.refuses(contracts.check_contracts, 'changes a contract or a signature')

    def test_edit_of_a_contract_in_its_second_line(self):
        self.change('crates/one_code/must-fail/wrong_1.edit', 'old: ', 'old:         result ≡ n\nnew:         result ≡ 1\nold: ')
        self.refuses(contracts.check_contracts, 'changes a contract or a signature')

    def test_edit_of_a_proof(self):
        edit = 'crates/one/must-fail/three.edit'
        self.change(edit, 'specs/Twice.antt\nold: twice n = n + n\nnew: twice n = n + n + n', 'proofs/Laws.antt\nold: omega arith\nnew: refl')
        self.refuses(contracts.check_contracts, 'changes a text in specs/')

    def test_law_that_is_not_there(self):
        for name in ('by', 'thrice', 'twice'):
            self.write('crates/one/must-fail/three.edit', BASE['crates/one/must-fail/three.edit'].replace('twice-sum', name))
            self.refuses(contracts.check_contracts, f'there is no law {name} in proofs/Laws.antt')

    def test_edit_without_a_file_or_a_law(self):
        self.write('crates/one/must-fail/three.edit', BASE['crates/one/must-fail/three.edit'].replace('file: specs/Twice.antt\n', ''))
        self.refuses(contracts.check_contracts, 'in a file that it names')
        self.write('crates/one/must-fail/three.edit', BASE['crates/one/must-fail/three.edit'].replace('law: proofs/Laws.antt twice-sum\n', ''))
        self.refuses(contracts.check_contracts, 'names the law that refuses it')

    def test_two_wrong_definitions_in_one_edit(self):
        edit = BASE['crates/one/must-fail/three.edit']
        self.write('crates/one/must-fail/three.edit', f'name: a\n{edit}\nname: b\n{edit}')
        self.refuses(contracts.check_contracts, ': b: a wrong definition is tried alone')

    def test_halves(self):
        halves = {'crates/one_code/src/lib.rt': {'twice', 'wide'}}

        def check(root, faults):
            return contracts.check_halves(root, faults, halves)

        self.passes(check, 2)
        def write(body):
            self.write('crates/one_code/src/lib.rt', BASE['crates/one_code/src/lib.rt'].replace('    n as u32', f'    {body}'))

        for wrong, fault in (
            ('n as u32 / 1', 'wide has a /'),
            ('num::wrapping_mul_u32(1, n as u32)', 'wide calls wrapping_mul_u32'),
            ('n.saturating_mul(1) as u32', 'wide calls saturating_mul, which has a'),
            ('n.rotate_left(1) as u32', 'wide calls rotate_left, which'),
            ('min(n, 1) as u32', 'wide calls min, which is not looked at'),
        ):
            write(wrong)
            self.refuses(check, fault)
        write('n.saturating_sub(1) as u32')
        self.passes(check, 2)
        # Where a component may be meant, what the method does to one counts: of an i16 it calls what is not looked at.
        write('{ let x: i16 = 1; x.saturating_sub(n as i16) as u32 }')
        self.refuses(check, 'wide calls saturating_sub, which is not looked at')
        halves['crates/one_code/src/lib.rt'] = {'wide'}
        self.write('crates/one_code/src/lib.rt', 'fn wide(n: u8) -> u32 {\n    n as u32 % 9\n}\n\nfn other()\n{\n}\n')
        self.refuses(check, 'wide has a %')
        self.write('crates/one_code/src/lib.rt', '// fn wide(n: u8)\n')
        self.refuses(check, 'was not found')

    def test_handed(self):
        def write(body):
            self.write('crates/one_code/src/lib.rt', BASE['crates/one_code/src/lib.rt'].replace('    n as u32', f'    {body}'))

        for right in ('let vector = vector_of(word); biased(vector.x)', 'biased(vector.y)', 'vector_of(n)', 'halves_of(n)'):
            write(right)
            self.passes(contracts.check_handed, right.count('('))
        for wrong in (
            'vector_of(word / 1)',
            'let vector = vector_of(word); biased(vector.x / 1)',
            'let vector = vector_of(word); let vector = turned(vector); biased(vector.x)',
            'biased(halves.low)',
            'biased(f(vector.x))',
            'biased(vector.x) / 1',
            'let word = word / 1; vector_of(word)',
            'halves_of(word % 9)',
        ):
            write(wrong)
            self.refuses(contracts.check_handed, 'something else than stands there')
        for wrong, fault in (
            ('let v = vector_of(word); new(Vector { x: v.x / 1, y: v.y })', 'makes a vector by hand'),
            ('put(bytes32(n))', 'has the bytes of a whole word'),
        ):
            write(wrong)
            self.refuses(contracts.check_handed, fault)


class Exports(Tree):
    CODE = 'crates/one_c/src/lib.rt'

    def setUp(self):
        super().setUp()
        self.write('crates.txt', '# crates\none:\none_code: one\none_c staticlib: one one_code\n')
        added = 'pub fn sum(\n    n: u8,\n    m: &[u8; rows::MOST],\n) -> u32\n    ensures { result ≡ n }\n{\n    sum_of(n)\n}\n\n'
        self.change('crates/one_code/src/lib.rt', 'fn wide(n: u8)', added + 'fn wide(n: u8)')
        head = '#[unsafe(no_mangle)]\npub extern "C" fn'
        self.write(self.CODE, f'''// Twice, for C.
{head} twice(n: u8) -> u32
    ensures {{ result ≡ twice n }}
{{
    one_code::twice(n)
}}

{head} sum(n: u8, m: &[u8; rows::MOST]) -> u32
    ensures {{ result ≡ n }}
{{
    one_code::sum(n, m)
}}
''')
        for crate, name, old in (('one_code', 'sum', 'sum_of(n)'), ('one_c', 'twice', 'one_code::twice(n)'), ('one_c', 'sum', 'one_code::sum(n, m)')):
            self.write(f'crates/{crate}/must-fail/{name}.edit', f'guards: {name}\nwhy: one\nfile: src/lib.rt\nold: {old}\nnew: 1\n')
        self.change('crates/one/must-fail/three.edit', 'guards: one_code::twice', 'guards: one_code::twice one_code::sum')

    def test_passes(self):
        self.passes(contracts.check_contracts, 4)
        faults = []
        due = {'one_c::twice': 'one_code::twice', 'one_c::sum': 'one_code::sum'}
        self.assertEqual((contracts.check_exports(self.root, faults), faults), (due, []))

    def test_what_it_stands_for_is_guarded(self):
        self.change('crates/one/must-fail/three.edit', ' one_code::sum', '')
        faults = []
        contracts.check_contracts(self.root, faults)
        self.assertEqual(faults, [f'{crate}::sum has no must-fail edit with a wrong definition' for crate in ('one_c', 'one_code')])

    def test_its_own_wrong_program(self):
        (self.root / 'crates/one_c/must-fail/sum.edit').unlink()
        self.refuses(contracts.check_contracts, 'one_c::sum has no must-fail edit with a wrong program')

    def test_no_library_for_c(self):
        self.write('crates.txt', 'one:\none_code: one\none_c: one one_code\n')
        faults = []
        contracts.check_contracts(self.root, faults)
        self.assertEqual(faults, [f'one_c::{name} has no must-fail edit with a wrong definition' for name in ('sum', 'twice')])

    def test_no_call_of_the_same(self):
        code = (self.root / self.CODE).read_text()
        for old, new in (('result ≡ n }', 'result ≡ n + 0 }'), ('    ensures { result ≡ n }\n', ''), ('sum(n: u8', 'sum(n: u16'), ('C" fn sum', 'C" fn add'), ('pub extern "C" fn sum', 'fn sum'),
                         ('one_code::sum(n, m)', 'one_code::add(n, m)'), ('one_code::sum(n, m)', 'let k = n; one_code::sum(k, m)'), ('one_code::sum(n, m)', '0')):
            self.write(self.CODE, code.replace(old, new))
            self.refuses(lambda root, faults: contracts.check_exports(root, faults), 'is no call of a function below with its name and its contract')

    def test_other_arguments(self):
        for call in ('sum(m, n)', 'sum(n)', 'sum(n, n)'):
            self.write(self.CODE, (self.root / self.CODE).read_text().replace('one_code::sum(n, m)', f'one_code::{call}'))
            self.refuses(lambda root, faults: contracts.check_exports(root, faults), 'one_c::sum does not hand its arguments on')
            self.setUp()


class Claims(Tree):
    def cite(self, name, path):
        self.write('docs/CLAIMS.md', f'`{name}` (`{path}`)\n')

    def test_passes(self):
        self.passes(claims.check_claims, 8)

    def test_what_is_no_declaration(self):
        wrong = {
            'crates/one/proofs/Laws.antt': ('unfolding', 'twice', 'by', 'n', 'small'),
            'crates/one/specs/Twice.antt': ('two', 'Prim'),
            'crates/one_code/src/lib.rt': ('it', 'n', 'm', 'u32', 'fn'),
            'crates/one/proofs/None.antt': ('twice',),
            'README.md': ('text',),
        }
        for path, name in ((path, name) for path, names in wrong.items() for name in names):
            with self.subTest(path=path, name=name):
                self.cite(name, path)
                self.refuses(claims.check_claims, f'{name} does not stand in {path}')

    def test_name_in_an_unfolding_list_a_comment_or_a_clause(self):
        lines = ('unfolding\n    lost twice', 'unfolding lost', '-- lost : ℕ', '{-\nlost : ℕ\n-}', 'lost = 3', '  lost : ℕ', '    let lost : ℕ = 3 in')
        for line in lines:
            with self.subTest(line=line):
                self.write('crates/one/proofs/Laws.antt', BASE['crates/one/proofs/Laws.antt'].replace('unfolding twice', line))
                self.cite('lost', 'crates/one/proofs/Laws.antt')
                self.refuses(claims.check_claims, 'lost does not stand in')

    def test_function_in_a_comment(self):
        lost = '\n// pub fn lost()\n/*\nfn lost() {}\nstruct lost;\n*/\n'
        self.write('crates/one_code/src/lib.rt', BASE['crates/one_code/src/lib.rt'] + lost)
        self.cite('lost', 'crates/one_code/src/lib.rt')
        self.refuses(claims.check_claims, 'lost does not stand in')

    def test_edit_that_is_not_there(self):
        self.write('docs/CLAIMS.md', '`one/four`\n')
        self.refuses(claims.check_claims, 'there is no edit one/four')


class Statements(Tree):
    def test_passes(self):
        self.passes(claims.check_statements, 2)

    def test_definition_of_the_same_file(self):
        self.change('crates/one/proofs/Laws.antt', '→ twice n ≡ n + n\n', '→ thrice n ≡ n + n\n')
        self.refuses(claims.check_statements, 'twice-sum states something by thrice')

    def test_parameter_of_a_module(self):
        self.change('crates/one/proofs/Laws.antt', '(small : n < 4)', '(small : thrice n < 6)')
        self.refuses(claims.check_statements, 'twice-small states something by thrice')

    def test_definition_of_another_file_by_each_way_of_naming_it(self):
        record = 'pub record Small (n : ℕ) : Type 0 where\n  pub below : n < 4\n'
        self.write('crates/two/proofs/Defs.antt', f'-- Sizes.\n{record}\nplain : ℕ → Type 0\nplain n = n ≡ n\n')
        ways = (
            ('.{Small}', 'Small'), ('.{Small as S}', 'S'), (' as d', 'd.Small'), ('', 'Defs.Small'), ('', 'Rattle.two.proofs.Defs.Small'),
            ('.{plain}', 'plain'))
        for use, name in ways:
            with self.subTest(use=use, name=name):
                content = BASE['crates/one/proofs/Laws.antt'].replace('→ twice n', f'→ {name} n → twice n')
                self.write('crates/one/proofs/Laws.antt', content.replace('use Rattle', f'use Rattle.two.proofs.Defs{use}\nuse Rattle', 1))
                self.refuses(claims.check_statements, f'states something by {name}')

    def test_operator(self):
        self.write('crates/two/proofs/Defs.antt', '-- Sizes.\nabbrev pub ◌fits◌ : ℕ → ℕ → Type 0\na fits b = a < b\n')
        for use, name in (('◌fits◌', 'fits'), ('◌fits◌ as ◌in◌', 'in')):
            content = BASE['crates/one/proofs/Laws.antt'].replace('→ twice n', f'→ n {name} 4 → twice n')
            self.write('crates/one/proofs/Laws.antt', content.replace('use Rattle', f'use Rattle.two.proofs.Defs.{{{use}}}\nuse Rattle', 1))
            self.refuses(claims.check_statements, f'states something by {name}')

    def test_law_over_variables_among_worked_examples(self):
        self.write('crates/placement/proofs/Worked.antt', '-- Numbers.\nabbrev two : ℕ\ntwo = 2\n\nlaw : two ≡ 2\nlaw = refl\n')
        self.write('docs/CLAIMS.md', '`law` (`crates/placement/proofs/Worked.antt`), `twice-sum` (`crates/one/proofs/Laws.antt`)\n')
        self.passes(claims.check_statements, 1)
        self.change('crates/placement/proofs/Worked.antt', 'law : two ≡ 2', 'law : (n : ℕ) → Small n two')
        self.refuses(claims.check_statements, 'law states something by two')

    def test_contract_or_definition_by_what_stands_in_proofs(self):
        ways = {'crates/one_code/src/lib.rt': 'ghost use Rattle.one.proofs.Laws.{thrice};', 'crates/one/specs/Twice.antt': 'use Rattle.one.proofs.Laws as l'}
        for path, line in ways.items():
            self.write(path, line + '\n' + BASE[path])
            self.refuses(claims.check_statements, f'{path}: names Rattle.one.proofs.Laws')
            self.write(path, BASE[path])

    def test_bound_names_and_fields_are_no_uses(self):
        for statement in ('(thrice : ℕ) → thrice ≡ 3', '(x : ℕ) → x .thrice ≡ 3', '(λ thrice. thrice) ≡ 3', 'held ≡ 3'):
            with self.subTest(statement=statement):
                content = BASE['crates/one/proofs/Laws.antt'].replace('(n : ℕ) → twice n ≡ n + n', statement)
                self.write('crates/one/proofs/Laws.antt', content + '\nrecord Holds : Type 0 where\n  held : ℕ\n')
                self.passes(claims.check_statements, 2)

    def test_definition_that_is_cited_in_proofs(self):
        self.write('docs/CLAIMS.md', '`thrice` (`crates/one/proofs/Laws.antt`)\n')
        self.refuses(claims.check_statements, 'thrice is cited and is no law')


class Specs(Tree):
    def test_passes(self):
        self.passes(claims.check_specs, 1)
        self.change('crates/one/specs/Twice.antt', '-- Proved: against a sum, by `twice-sum` (proofs/Laws.antt).', '-- To be believed: twice is a sum.')
        self.passes(claims.check_specs, 1)

    def test_says_nothing(self):
        self.change('crates/one/specs/Twice.antt', '-- Proved:', '-- It is proved:')
        self.refuses(claims.check_specs, 'says not whether')

    def test_says_it_too_late(self):
        self.change('crates/one/specs/Twice.antt', '-- Proved: against a sum, by `twice-sum` (proofs/Laws.antt).\n', '')
        self.change('crates/one/specs/Twice.antt', '-- two of it', '-- To be believed: all of it')
        self.refuses(claims.check_specs, 'says not whether')

    def test_law_that_is_not_there(self):
        for law in ('thrice', 'by', 'lost'):
            self.write('crates/one/specs/Twice.antt', BASE['crates/one/specs/Twice.antt'].replace('twice-sum', law))
            self.refuses(claims.check_specs, f'there is no law {law}')

    def test_proved_by_no_law(self):
        self.change('crates/one/specs/Twice.antt', 'by `twice-sum` (proofs/Laws.antt)', 'somewhere')
        self.refuses(claims.check_specs, 'names no law')


class Names(Tree):
    def test_passes(self):
        self.write('crates/two/specs/Other.antt', '-- Other.\n\nabbrev pub thrice : ℕ → ℕ\nthrice n = n\n\nabbrev twice : ℕ → ℕ\ntwice n = n\n')
        self.passes(claims.check_names)

    def test_a_name_twice(self):
        for declaration in ('abbrev pub twice : ℕ → ℕ', 'unfoldable pub twice : ℕ → ℕ', 'pub record twice : Type 0 where', 'pub data twice : Type 0 where'):
            self.write('crates/two/specs/Other.antt', f'-- Other.\n\n{declaration}\n')
            self.refuses(claims.check_names, 'twice is declared in')


class Worked(Tree):
    def setUp(self):
        super().setUp()
        for path in laws.WORKED:
            self.write(path, '-- Numbers.\n')

    def test_passes(self):
        self.passes(laws.check_worked, len(laws.WORKED))

    def test_a_file_that_is_gone(self):
        (self.root / min(laws.WORKED)).unlink()
        self.refuses(laws.check_worked, 'is not there')


class Unfolding(Tree):
    LAW = 'crates/one/proofs/Laws.antt'
    WORKED = 'crates/placement/proofs/Worked.antt'

    def unfold(self, path, use, line, statement='pub law : (n : ℕ) → b n ≡ n', proof='law n = refl'):
        self.write(path, f'-- A law.\nuse Rattle.prediction.specs.Blocks{use}\n\n{statement}\n{line}\n{proof}\n')

    def test_passes(self):
        self.unfold(self.LAW, '.{blockAt}', '-- unfolding blockAt')
        self.passes(laws.check_unfolding, 1)

    def test_each_way_of_naming_it(self):
        ways = (
            ('.{blockAt}', 'blockAt'), ('.{other, blockAt as b}', 'b'), (' as x', 'x.blockAt'), ('', 'Blocks.blockAt'),
            ('.{other}', 'Rattle.prediction.specs.Blocks.blockAt'), ('.{blockAt}', 'other\n    more blockAt'),
            ('.{\n    other,\n    blockAt\n  }', 'blockAt'), (' as x\nuse x.{blockAt}', 'blockAt'))
        for use, names in ways:
            with self.subTest(use=use, names=names):
                self.unfold(self.LAW, use, f'unfolding {names}')
                self.refuses(laws.check_unfolding, 'law unfolds', 'of prediction')

    def test_in_a_term(self):
        for use, name in (('.{blockAt}', 'blockAt'), (' as x', 'other x.blockAt')):
            self.unfold(self.LAW, use, '-- none', proof=f'law n = rw e (unfold {name} in refl)')
            self.refuses(laws.check_unfolding, 'law unfolds', 'of prediction')

    def test_in_a_helper_and_in_a_definition(self):
        helper = 'by : (n : ℕ) → n ≡ n\n    unfolding blockAt\n    by n = refl'
        self.unfold(self.LAW, '.{blockAt}', '-- none', proof=f'law n = by n\n  where\n    {helper}')
        self.refuses(laws.check_unfolding, 'law unfolds blockAt')
        self.unfold(self.LAW, '.{blockAt}', '-- none')
        self.unfold('crates/one/specs/Twice.antt', '.{blockAt}', 'unfolding blockAt', 'abbrev pub law : ℕ → ℕ')
        self.refuses(laws.check_unfolding, 'specs/Twice.antt: law unfolds blockAt')

    def test_in_a_contract(self):
        self.change('crates/one_code/src/lib.rt', 'result ≡ twice n', 'unfold twice in (result ≡ twice n)')
        self.refuses(laws.check_unfolding, 'a contract unfolds')

    def test_in_a_hint(self):
        hint = '#[tactic(auto, using(a::b), unfolding(crate::specs::Twice::twice, prediction::specs::Blocks::blockAt))]\n'
        self.write('crates/prediction_code/src/lib.rt', hint)
        self.change('crates/one_code/src/lib.rt', 'fn wide', hint.replace(', prediction::specs::Blocks::blockAt', '') + 'fn wide')
        self.passes(laws.check_unfolding)
        self.change('crates/one_code/src/lib.rt', 'Twice::twice)', 'Twice::twice, prediction::specs::Blocks::blockAt)')
        self.refuses(laws.check_unfolding, 'one_code/src/lib.rt: a proof unfolds prediction::specs::Blocks::blockAt')

    def test_own_laws_and_code_may(self):
        for crate in ('prediction', 'prediction_code'):
            self.unfold(f'crates/{crate}/proofs/Laws.antt', '.{blockAt}', 'unfolding blockAt')
        self.passes(laws.check_unfolding, 1)

    def test_closed_statement_of_a_listed_file(self):
        statement = 'law : map (λ (n : ℕ). blockAt n) (1 ∷ 2 ∷ []) ≡ 3 ∷ 4 ∷ []'
        for pair, proof in (('', 'refl'), (' × (blockAt 1 ≡ 3)', '(refl, refl)')):
            self.unfold(self.WORKED, '.{blockAt}', 'unfolding blockAt', statement + pair, f'law = {proof}')
            self.passes(laws.check_unfolding, 2)

    def test_file_of_that_name_that_is_not_listed(self):
        for path in ('crates/one/proofs/Worked.antt', 'crates/one/proofs/Cases.antt', 'crates/placement/proofs/more/Worked.antt'):
            with self.subTest(path=path):
                self.unfold(path, '.{blockAt}', 'unfolding blockAt', 'law : blockAt 1 ≡ 3', 'law = refl')
                self.refuses(laws.check_unfolding, f'{path}: law unfolds blockAt')
                (self.root / path).unlink()

    def test_law_over_variables_in_a_listed_file(self):
        for statement in ('law : (n : ℕ) → blockAt n ≡ n', 'law : {n : ℕ} → blockAt n ≡ n', 'law : 1 ≡ 1 → blockAt 1 ≡ 2'):
            with self.subTest(statement=statement):
                self.unfold(self.WORKED, '.{blockAt}', '-- none', statement)
                self.refuses(laws.check_unfolding, 'is a law over variables')

    def test_what_only_looks_closed_in_a_listed_file(self):
        self.unfold(self.WORKED, '.{blockAt}', '  unfolding blockAt', 'module _ (n : ℕ) where\n  law : blockAt n ≡ n', '  law = refl')
        faults = []
        laws.check_unfolding(self.root, faults)
        self.assertEqual(len(faults), 2, faults)
        self.assertIn('law is a law over variables', faults[0])
        self.assertIn('law unfolds blockAt of prediction', faults[1])
        ways = (
            ('abbrev law : (n : ℕ) → blockAt n ≡ n', 'law n = refl'), ('abbrev law : Type 0', 'law = (n : ℕ) → blockAt n ≡ n'),
            ('law : All', 'law = λ n. refl'))
        for statement, proof in ways:
            with self.subTest(statement=statement):
                self.unfold(self.WORKED, '.{blockAt}', 'unfolding blockAt', statement, proof)
                self.refuses(laws.check_unfolding, 'law unfolds blockAt')


    def test_abbreviations_that_are_used_above(self):
        self.write('crates/prediction/specs/Blocks.antt', '-- Blocks.\npub blockAt : ℕ → ℕ\nblockAt n = n\n\nabbrev pub still : ℕ\nstill = 0\n')
        self.unfold(self.LAW, '.{blockAt, still}', '-- none')
        self.unfold('crates/prediction_code/proofs/Laws.antt', '.{blockAt}', '-- none')
        self.passes(laws.check_open, 1)
        self.change('crates/prediction/specs/Blocks.antt', 'pub blockAt', 'unfoldable abbrev pub blockAt')
        self.refuses(laws.check_open, 'Laws.antt: uses Rattle.prediction.specs.Blocks.blockAt')
        for use, name in (('.{other}', 'Rattle.prediction.specs.Blocks.blockAt'), (' as x', 'x.blockAt'), ('.{blockAt as b}', 'b')):
            self.unfold(self.LAW, use, '-- none', f'pub law : {name} 1 ≡ 1')
            self.refuses(laws.check_open, 'Laws.antt: uses Rattle.prediction.specs.Blocks.blockAt')
        self.unfold(self.LAW, '.{still}', '-- none')
        self.change('crates/one_code/src/lib.rt', 'ghost use', 'ghost use Rattle.prediction.specs.Blocks.{blockAt};\nghost use')
        self.refuses(laws.check_open, 'lib.rt: uses Rattle.prediction.specs.Blocks.blockAt')


class Borders(Tree):
    def setUp(self):
        super().setUp()
        self.write('crates/one/proofs/Lib.antt', 'pub mod Laws\n-- for its functions alone\npub mod Bridge\n')

    def use(self, path, line):
        self.write(path, f'-- A law.\n{line}\n')

    def test_passes(self):
        self.use('crates/one_code/proofs/twice/Proof.antt', 'use Rattle.one.proofs.Bridge.{law}')
        self.use('crates/two/proofs/Laws.antt', 'use Rattle.one.proofs.Laws.{law}\n-- Rattle.one.proofs.Bridge')
        self.use('crates/one/proofs/Bridge.antt', 'use Rattle.one.proofs.Bridge as b')
        self.passes(laws.check_borders, 1)

    def test_each_way_of_naming_it(self):
        module = 'Rattle.one.proofs.Bridge'
        for line in (f'use {module}.{{law}}', f'use {module} as b', f'law = {module}.law'):
            with self.subTest(line=line):
                self.use('crates/two/proofs/Laws.antt', line)
                self.refuses(laws.check_borders, 'cites Bridge of one')
        self.use('crates/two/proofs/Laws.antt', '')
        self.write('crates/two/src/lib.rt', '#[tactic(auto, using(one::proofs::Bridge::law))]\nfn f() {\n}\n')
        self.refuses(laws.check_borders, 'crates/two/src/lib.rt: cites Bridge of one')

    def test_whole_crates_and_what_is_passed_on(self):
        for line in ('use Rattle.one.proofs as p', 'use Rattle.one', 'use Rattle.one.specs', 'use Rattle as r', 'use Rattle.one.{proofs.Bridge.law}'):
            with self.subTest(line=line):
                self.use('crates/two/proofs/Laws.antt', line)
                self.refuses(laws.check_borders, 'brings in a whole crate')
        self.use('crates/two/proofs/Laws.antt', 'unfoldable pub use Rattle.one.specs.Twice.{twice}')
        self.refuses(laws.check_borders, 'passes on')


class Documents(Tree):
    def test_passes(self):
        self.write('README.md', 'Text\n\n| a | b |\n|---|---|\n| `x \\| y` | z |\n\n```\n| no table\n```\n')
        self.passes(documents.check_tables, 2)

    def test_blank_line_inside(self):
        self.change('docs/CLAIMS.md', '\n| Small', '\n\n| Small')
        self.refuses(documents.check_tables, 'docs/CLAIMS.md:7', 'no blank line divides a table')

    def test_row_of_another_width(self):
        for row in ('| a |', '| a | b | c |', '| `a | b` | c |', '| a | b | c'):
            with self.subTest(row=row):
                self.write('README.md', f'| a | b |\n|---|---|\n{row}\n')
                self.refuses(documents.check_tables, 'README.md:3', 'in a table of 2')

    def test_paths(self):
        for command in (['init', '-q'], ['add', 'README.md']):
            subprocess.run(['git', *command], cwd=self.root, check=True)
        self.passes(documents.check_paths, 1)
        self.write('README.md', 'see /' + 'home/me\n')
        self.refuses(documents.check_paths, 'names a path of one machine')


class Reports(unittest.TestCase):
    def test_what_was_not_checked_is_a_fault(self):
        for counts, faults, status in (({'files': 3}, [], 0), ({'files': 0}, [], 1), ({'files': 3}, ['a fault'], 1)):
            with contextlib.redirect_stdout(io.StringIO()) as out:
                self.assertEqual(repository.report(counts, faults), status)
            self.assertIn(f'files, {status} faults', out.getvalue())


class Reading(unittest.TestCase):
    def test_functions_with_named_clauses_and_of_types(self):
        code = '''pub fn f(n: u8) -> u8
    requires small { n < 4 }
    requires* held
    {
        at n
    }
    ensures* { result ≡ f { n } }
    ensures low { result < 4 }
{
    n
}

mod inner {
    impl<T: Copy> fmt::Display for Rows<T> {
        fn fmt(&self) -> u8 {
            1
        }
    }

    impl Rows<u8> {
        pub fn new() -> u8 { 2 }
    }
}

pub(crate) fn last() {}
'''
        found = [(f.called(), f.module, f.public, f.body.split()) for f in rattle.functions_in(code, '', [])]
        due = [('f', [], True, ['{', 'n', '}']), ('Rows::fmt', ['inner'], False, ['{', '1', '}']), ('Rows::new', ['inner'], True, ['{', '2', '}']), ('last', [], False, ['{}'])]
        self.assertEqual(found, due)

    def test_crates_that_are_listed(self):
        with tempfile.TemporaryDirectory() as root:
            (pathlib.Path(root) / 'crates.txt').write_text('# a: b\na:\nb staticlib: a c # d\n\nc status=3 : a\n')
            self.assertEqual(edits.listed(pathlib.Path(root)), {'a': ([], []), 'b': (['staticlib'], ['a', 'c']), 'c': (['status=3'], ['a'])})

    def test_members_of_types_and_modules(self):
        code = 'pub data P : Type 0 where\n  a b : P\n\nmutual\n  f : P → P\n  f x = x\n\ng {A : Type 0} : A\n'
        found = [(d.name, d.kind) for d in antt.declarations(code)]
        self.assertEqual(found, [('P', 'data'), ('a', 'constructor'), ('b', 'constructor'), ('f', 'law'), ('g', 'law')])


if __name__ == '__main__':
    unittest.main()
