#!/usr/bin/env python3
"""Tests of what bodies.py makes of the prover's words, which are written here by hand in their forms."""
import os
import sys
import unittest

sys.dont_write_bytecode = True
sys.path.insert(0, os.path.dirname(os.path.abspath(__file__)))
import bodies

ENDED = "only=2 proved=1"


class Crate:
    name = "low"


def edit(*goals):
    """A wrong body of the function `f` that must be refused at these goals."""
    named = "".join(f"# goal: {goal}\n" for goal in goals)
    return bodies.Edit("some.edit", Crate, "f", f"# refused by `f`: so it is\n# only: f\n{named}")


def proof_line(goal, fault, folder="f"):
    return f"./proofs/{folder}/Answers.antt:2:4: error: `{goal}`: {fault}"


class Verdicts(unittest.TestCase):
    def refused(self, edit, *lines):
        """Whether the prover, which says these lines, refuses the edit, and at which goals that count."""
        return bodies.verdict(edit, [*lines, ENDED])[:2]

    def test_a_goal_that_search_did_not_prove(self):
        said = "fn low::m::f: no proof: expected answers in ./x; `search` did not prove `a`, `b-2`; it calls `low::g`"
        self.assertEqual(self.refused(edit("b-2"), said), (True, ["a", "b-2"]))
        self.assertEqual(self.refused(edit("g"), said), (False, ["a", "b-2"]))
        self.assertEqual(self.refused(edit(), said), (True, ["a", "b-2"]))

    def test_a_goal_in_a_note_above_the_function(self):
        note = "note: src/m.rt:7:9: it is not proved that the sum fits (at `..=n`, `n + 1`) (`overflow_add`); {}"
        above = ["fn low::g: proved", note.format("`search` gave up at one of its limits"), "fn low::f: not proved"]
        self.assertEqual(self.refused(edit("overflow_add"), *above), (True, ["overflow_add"]))
        self.assertEqual(self.refused(edit(), above[1], above[0], above[2]), (False, []))

    def test_a_goal_whose_proof_does_not_fit(self):
        for folder, function in (("f", "low::f"), ("+f", "low::f"), ("m/f", "low::m::f"), ("m/T/+f", "low::m::T::f")):
            with self.subTest(folder):
                lines = [proof_line("a", "the types differ", folder), f"fn {function}: not proved"]
                self.assertEqual(self.refused(edit("a"), *lines), (True, ["a"]))

    def test_goals_of_other_functions_do_not_count(self):
        said = "fn low::f: no proof: it calls `low::g`, which is not proved"
        lines = [proof_line("a", "the types differ", "g"), said]
        self.assertEqual(self.refused(edit("a"), *lines), (False, []))

    def test_a_function_that_is_proved_or_not_spoken_of(self):
        self.assertEqual(self.refused(edit(), "fn low::f: proved"), (False, []))
        self.assertEqual(self.refused(edit(), "fn low::g: not proved"), (False, []))
        self.assertEqual(self.refused(edit(), "fn other::f: no proof: `search` did not prove `a`"), (False, []))

    def test_a_name_that_is_gone_does_not_count(self):
        for fault in ("`loop-k` has no field `x`", "`x` is not in scope", "`lemma` was not admitted"):
            with self.subTest(fault):
                lines = [proof_line("a", fault), "fn low::f: not proved"]
                self.assertEqual(self.refused(edit(), *lines), (False, []))
                lines.insert(0, proof_line("b", "the types differ"))
                self.assertEqual(self.refused(edit("b"), *lines), (True, ["b"]))
                self.assertEqual(self.refused(edit("a"), *lines), (False, ["b"]))

    def test_a_limit_does_not_count(self):
        limit = "antt ran out of the {} that the check of one declaration may {}"
        for fault in (limit.format("steps", "take"), limit.format("memory", "use"), "antt ran out of stack"):
            with self.subTest(fault):
                self.assertEqual(self.refused(edit(), proof_line("a", fault), "fn low::f: not proved"), (False, []))

    def test_a_proof_that_cannot_be_read_does_not_count(self):
        line = "./proofs/f/Answers.antt:2:4: error: expected the end of the line"
        self.assertEqual(self.refused(edit(), line, "fn low::f: not proved"), (False, []))
        lines = [line, proof_line("a", "the types differ"), "fn low::f: not proved"]
        self.assertEqual(self.refused(edit("b"), *lines), (False, ["a"]))

    def test_a_check_that_comes_to_no_end(self):
        refused = "fn low::f: no proof: `search` did not prove `a`"
        for lines in ([refused, "rattle: no verdict"], [refused], ["error[E0308]: mismatched types", refused, ENDED]):
            with self.subTest(lines):
                self.assertEqual(bodies.verdict(edit(), lines)[:2], (False, []))


class Controls(unittest.TestCase):
    def test_all_is_proved(self):
        self.assertEqual(bodies.fault_of_control(["fn low::f: proved", "fn low::g: proved", "only=2 proved=2"]), "")

    def test_something_is_not(self):
        for lines in (
            ["fn low::f: not proved", "fn low::g: proved", "only=2 proved=1"],
            ["fn low::f: no proof: `search` did not prove `a`", "only=1 proved=1"],
            ["fn low::f: proved", "only=2 proved=1"],
            ["only=0 proved=0"],
            ["fn low::f: proved", "rattle: no verdict"],
            ["error[E0308]: mismatched types", "fn low::f: proved", "only=1 proved=1"],
        ):
            with self.subTest(lines):
                self.assertNotEqual(bodies.fault_of_control(lines), "")


if __name__ == "__main__":
    unittest.main()
