#!/usr/bin/python3
"""Tests tools/edits.py without the prover: each edit can be made, its function and clause exist, each promise has a
body, and what a check prints is judged right."""
import glob
import re
import types
import unittest

import edits as tool

# What a check prints for bodies that clauses refuse, and for bodies that only an index or a missing name refuses.
NOT_PROVED = "note: src/word.rt:27:1: it is not proved that what the function ensures holds when it returns"
BY_CLAUSES = f"""\
fn seqno::word::number: proved
{NOT_PROVED} (`returns-then-clause-reads`)
{NOT_PROVED} (`returns-else-clause-reads`)
{NOT_PROVED} (`returns-else`); the facts
fn seqno::word::read_near: not proved
"""
BY_ANSWER = """\
./proofs/word/read_near/Answers.antt:6:52: error: `returns-clause-found`: the two types differ
fn seqno::word::read_near: not proved
"""
BY_SEARCH = ("fn seqno::word::read_near: no proof: expected answers; `search` did not prove `returns-clause-reads`, "
             "`returns-clause-only`; it calls `x`\n")
BY_NAME = """\
./proofs/word/read_near/Answers.antt:6:52: error: `returns-clause-found`: record `In` has no field `named`
fn seqno::word::read_near: not proved
"""
BY_LEMMA = """\
./proofs/NearLemmas.antt:6:52: error: `near`: the two types differ
fn seqno::word::read_near: not proved
"""
BY_INDEX = """\
note: src/word.rt:27:1: it is not proved that the index is in bounds (`index-in-bounds`)
fn seqno::word::read_near: not proved
"""
BY_CALLED = "fn seqno::word::read_near: no proof: it calls `number`, which is not proved\n"
PROVED = "fn seqno::word::read_near: proved\n"


def clauses(edit):
    """The clauses of the function that an edit changes."""
    path = next(value for key, value in edit.lines if key == "file")
    name = edit.function.split("::")[-1]
    text = tool.read(f"{tool.TOP}/crates/{edit.crate}/{path}")
    head = re.search(rf"\bfn {name}\b.*?\n *\{{\n", text, re.S)
    return [name or "result" for name in re.findall(r"\bensures (\w*) ?\{", head[0])] if head else []


def is_function(crate, name):
    """Whether a source of a crate has a function of this name."""
    sources = glob.glob(f"{tool.TOP}/crates/{crate}/src/**/*.rt", recursive=True)
    return any(re.search(rf"\bfn {name}\b", tool.read(path)) for path in sources)


def judged(told, clause="", accepted=False, definition=False):
    """What the tool says of a read_near that is edited, if a check prints this."""
    edit = types.SimpleNamespace(function="word::read_near", clause=clause, is_accepted=accepted,
                                 is_of_definition=definition)
    return tool.judge(edit, tool.functions_in(told))[0]


class Files(unittest.TestCase):
    def test_each_edit_can_be_made(self):
        for edit in tool.edits_of([]):
            with self.subTest(edit.name):
                self.assertTrue(edit.changed(f"{tool.TOP}/crates/{edit.crate}"))
                self.assertTrue(is_function(edit.crate, edit.function.split("::")[-1]))
                self.assertEqual(edit.is_body, bool(edit.clause))
                if edit.is_body:
                    self.assertIn(edit.clause, clauses(edit))
                    self.assertEqual(edit.name.split("/")[1].split(".")[0], edit.function.split("::")[-1])

    def test_each_promise_has_a_body(self):
        promises, bodies = tool.promises(), [edit for edit in tool.edits_of([]) if edit.is_body]
        self.assertEqual(tool.untried(bodies), [])
        self.assertLessEqual({edit.promise for edit in bodies}, set(promises))
        self.assertIn("checker::check", promises)
        self.assertIn("parallel_check::check_many_plain", promises)

    def test_one_body_of_each_promise_is_tried_and_each_other_edit(self):
        edits = tool.edits_of([])
        chosen = [edit.promise for edit in tool.one_each(edits)]
        self.assertEqual(chosen.count(""), sum(not edit.promise for edit in edits))
        self.assertEqual({name: 1 for name in chosen if name}, {name: chosen.count(name) for name in chosen if name})
        self.assertEqual({edit.promise for edit in edits}, set(chosen))

    def test_some_edits_have_to_be_accepted(self):
        self.assertGreaterEqual(sum(edit.is_accepted for edit in tool.edits_of([])), 2)

    def test_each_body_has_a_row(self):
        bodies = [edit for edit in tool.edits_of([]) if edit.is_body]
        head, *rows = tool.rows(bodies)
        self.assertEqual(len(set(rows)), len(bodies))
        for edit in bodies:
            with self.subTest(edit.name):
                words = edit.name.split(".", 1)[1].replace("_", " ")
                row = f"| `{edit.promise}` | {words} | `{edit.crate}::{edit.function}`: {edit.clause} |"
                self.assertIn(row, rows)
                self.assertEqual(row.count(" | "), head.count(" | "))

    def test_laws_need_none(self):
        self.assertFalse(tool.has_result("checker::explained_is_yes"))
        self.assertTrue(tool.has_result("tcpwit_c::tcpwit_check"))


class Judged(unittest.TestCase):
    def test_the_line_of_the_function_decides(self):
        self.assertTrue(judged(BY_CLAUSES))
        self.assertTrue(judged(BY_INDEX))
        self.assertTrue(judged(BY_SEARCH))
        self.assertFalse(judged(BY_NAME))
        self.assertFalse(judged(PROVED))
        self.assertIsNone(judged(BY_CALLED))
        self.assertFalse(judged("fn seqno::word::number: not proved\n"))
        self.assertFalse(judged("fn seqno::word::read_near: error: the proof is too long\n"))

    def test_the_clause_decides_if_there_is_one(self):
        self.assertTrue(judged(BY_CLAUSES, "reads"))
        self.assertTrue(judged(BY_CLAUSES, "result"))
        self.assertTrue(judged(BY_SEARCH, "only"))
        self.assertFalse(judged(BY_CLAUSES, "only"))
        self.assertFalse(judged(BY_INDEX, "reads"))
        self.assertTrue(judged(BY_ANSWER, "found"))
        self.assertTrue(judged(BY_ANSWER.replace("/read_near", "/+read_near"), "found"))
        self.assertFalse(judged(BY_NAME, "found"))
        self.assertFalse(judged(PROVED, "reads"))

    def test_what_means_the_same_has_to_be_proved(self):
        self.assertTrue(judged(PROVED, accepted=True))
        self.assertFalse(judged(BY_CLAUSES, accepted=True))

    def test_lemmas_about_a_definition_decide(self):
        self.assertTrue(judged(BY_LEMMA, definition=True))
        self.assertFalse(judged(BY_LEMMA))
        self.assertFalse(judged(BY_NAME, definition=True))

    def test_a_function_is_tried_once_in_a_round(self):
        one, two, other, definition, law = (
            types.SimpleNamespace(function=name, is_of_definition=name >= "a::h")
            for name in ("a::f", "a::f", "a::g", "a::h", "a::i"))
        self.assertEqual(tool.next_round([definition, one, two, other, law]), [one, other])
        self.assertEqual(tool.next_round([definition, law]), [definition])

    def test_what_cannot_be_read_is_found_by_halves(self):
        good, bad = (types.SimpleNamespace(function=name, clause="", is_accepted=False, is_of_definition=False)
                     for name in "fg")
        refused = "fn a::f: no proof: expected answers; `search` did not prove `returns`\nonly=1 proved=0\n"
        unread = "src/a.rt:1:1: error[unexpected-token]\n"
        room = types.SimpleNamespace(check=lambda chosen: unread if bad in chosen else refused)
        self.assertIsNone(tool.Room.tried(room, [good, bad]))
        self.assertEqual(tool.Room.tried(room, [good])[0][1], True)
        self.assertEqual(tool.Room.tried(room, [bad])[0][1:],
                         (False, "NO VERDICT: src/a.rt:1:1: error[unexpected-token]"))


if __name__ == "__main__":
    unittest.main()
