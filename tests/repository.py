#!/usr/bin/env python3
"""Checks what rt ci does not, and what rt ci says of the must-fail edits:

    python3 tests/repository.py LOG

LOG is what rt ci printed. tests/repo/ has the checks, a file for each subject, and tests/repository_test.py tries each on a small tree.

- A crate with definitions declares no function, and a crate with functions no definition: two storeys.
- Every public function of a library has an ensures and no requires, and two wrong answers name it: one of its code, and one of a definition
  below (guards: crate::function). What a library for C exports is a function below it, called with the same arguments, name and contract.
- Every wrong answer says what it guards and why, and changes what is computed and no contract or signature; what it guards stands above the wrong
  definition or calls the wrong program. A must-fail edit tries one, or several (name: ..), each in another function; rt ci refused each edit as it
  stands now, and first at a fact, not because the proof no longer fits the code: a wrong definition in a proof, a wrong program in the proof of a
  function that it changes. tests/refusals, which tries them again, asks for more: the law that a wrong definition names is among what was refused,
  and each wrong program was refused in the proof of the very function that it changes.
- Every name that docs/CLAIMS.md cites is declared in the file that it cites, and every edit that it cites is there.
- What a cited law states is declared in specs/, worked examples apart, and each file of specs/ says whether it has to be believed or which law
  proves it. No two of them declare the same public name.
- Laws that a crate of definitions has for its functions alone (`proofs/Lib.antt`) are cited by nobody else.
- No law above `prediction` unfolds one of its definitions, closed statements in the files of worked examples apart; its code may. Of its
  abbreviations, which unfold everywhere, only those that are listed are used above.
- No function between a vector word and its components divides, takes a remainder or multiplies.
- No table of a document is broken, and nothing names a path of one machine.
"""
import pathlib
import sys

sys.dont_write_bytecode = True
from repo import claims, contracts, documents, laws, refusals


def main(root, log):
    faults = []
    contracts.check_storeys(root, faults)
    counts = {
        'public functions': contracts.check_contracts(root, faults),
        'refused wrong answers': refusals.check_refusals(root, faults, log),
        'citations': claims.check_claims(root, faults),
        'statements of cited laws': claims.check_statements(root, faults),
        'files of definitions': claims.check_specs(root, faults),
        'public definitions': claims.check_names(root, faults),
        'files of laws for functions alone': laws.check_borders(root, faults),
        'files of worked examples': laws.check_worked(root, faults),
        'laws and proofs above prediction': laws.check_unfolding(root, faults),
        'abbreviations of prediction': laws.check_open(root, faults),
        'functions between a word and its components': contracts.check_halves(root, faults),
        'words and components handed on': contracts.check_handed(root, faults),
        'tables': documents.check_tables(root, faults),
        'files': documents.check_paths(root, faults),
    }
    return report(counts, faults)


def report(counts, faults):
    for what, count in counts.items():
        if count == 0:
            faults.append(f'nothing was checked: no {what} were found')
    for fault in faults:
        print(f'repository: {fault}')
    print('repository: ' + ', '.join(f'{count} {what}' for what, count in counts.items()) + f', {len(faults)} faults')
    return 1 if faults else 0


if __name__ == '__main__':
    if len(sys.argv) != 2:
        sys.exit('usage: python3 tests/repository.py LOG, which is what rt ci printed')
    sys.exit(main(pathlib.Path(__file__).resolve().parent.parent, pathlib.Path(sys.argv[1]).read_text(errors='surrogateescape')))
