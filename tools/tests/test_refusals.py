"""By what a wrong body was refused, from lines as the gate prints them."""
from __future__ import annotations

import importlib.machinery
import importlib.util
import os
import unittest
from types import ModuleType

from working import TOOLS


def tool() -> ModuleType:
    loader = importlib.machinery.SourceFileLoader('refusals', os.path.join(TOOLS, 'refusals'))
    module = importlib.util.module_from_spec(importlib.util.spec_from_loader('refusals', loader))
    loader.exec_module(module)
    return module


REFUSALS = tool()
ASKED = 'must-fail grid_index/all_is_looked_at_before_a_question.edit: refused, as it must be'
GOAL = 'error: it is not proved that what the function ensures holds when it returns'


def line_of(path: str, text: str) -> int:
    """The first line of a source of grid_index that has this text, from 1."""
    with open(os.path.join(os.path.dirname(TOOLS), 'crates', 'grid_index', path), encoding='utf-8') as file:
        return next(i for i, line in enumerate(file, 1) if text in line)


class Causes(unittest.TestCase):
    def cause(self, line: str) -> str:
        [found] = REFUSALS.verdicts(iter([line + '\n']))
        return found.cause

    def at(self, path: str, text: str, goal: str) -> str:
        return self.cause('rt: %s: %s:%d:9: %s (`%s`)' % (ASKED, path, line_of(path, text), GOAL, goal))

    def test_its_own_clause(self) -> None:
        self.assertEqual(self.at('src/questions.rt', 'once_each(alloc, &mut found)?', 'returns-clause-steps'), 'aimed')

    def test_a_goal_that_the_prover_gave_up(self) -> None:
        line = line_of('src/questions.rt', 'pub fn query_about')
        said = 'note: src/questions.rt:%d:5: it is not proved that what the function ensures holds when it returns' % line
        self.assertEqual(self.cause('%s: %s (`returns-clause-steps`); `search` gave up at one of its limits' % (ASKED, said)), 'aimed')

    def test_another_clause_of_the_function(self) -> None:
        self.assertEqual(self.at('src/questions.rt', 'once_each(alloc, &mut found)?', 'returns-clause-near'), 'own')

    def test_a_loop_of_another_function(self) -> None:
        self.assertEqual(self.at('src/walk.rt', 'let node = nodes.look(i, meter);', 'loop-i-preserved'), 'elsewhere')

    def test_what_a_call_there_requires(self) -> None:
        self.assertEqual(self.at('src/questions.rt', 'once_each(alloc, &mut found)?', 'once_each-requires'), 'loop')

    def test_a_proof_file_that_names_what_is_gone(self) -> None:
        said = 'only because a proof file names what the edit took away, so this says little of the contract: change a value and keep the names'
        self.assertEqual(self.cause('rt: %s (%s): proofs/Steps.antt:3:1: error: `x` is not in scope' % (ASKED, said)), 'proof')

    def test_a_lemma(self) -> None:
        self.assertEqual(self.cause('%s: ./proofs/Steps.antt:3:1: error: type mismatch' % ASKED), 'proof')

    def test_no_verdict(self) -> None:
        self.assertEqual(self.cause('%s (only by a limit of the prover, which gave no verdict): src/walk.rt:3:1: error: x' % ASKED), 'limit')

    def test_proved(self) -> None:
        self.assertEqual(self.cause(ASKED.replace('refused, as it must be', 'NOT REFUSED: the crate is still proved')), 'open')


if __name__ == '__main__':
    unittest.main()
