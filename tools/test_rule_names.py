#!/usr/bin/python3
"""Compares the lists of rules in bindings/ with the one that they are made from, and that with the definitions."""
import re
import sys
import unittest

import rule_names

# A part of the source: three rules, the second with its name first.
SOURCE = """pub enum Rule {
    /// It is first.
    FirstOne,
    /// It is second.
    Second,
    /// It comes after a gap.
    Later,
}

            Rule::Second => "second",
            Rule::FirstOne => "first-one",
            Rule::Later => "later",
"""

# Their numbers.
NUMBERS = """rule_number : Rule → ℕ
rule_number rules.FirstOne = 1
rule_number rules.Second = 2
rule_number rules.Later = 5
"""


class Names(unittest.TestCase):
    def test_the_bindings_have_the_rules_of_the_code(self):
        self.assertEqual(list(rule_names.differing()), [], "run tools/rule_names.py")

    def test_the_code_has_the_rules_of_the_definitions(self):
        defined = re.findall(r'rule_name rules\.(\w+) = codes "([\w-]+)"',
                             rule_names.read("crates/verdict/specs/Rules.antt"))
        code = rule_names.rules_in(rule_names.read(rule_names.SOURCE), rule_names.read(rule_names.NUMBERS))
        self.assertEqual([(rule.variant, rule.name) for rule in code], defined)

    def test_the_numbers_are_those_of_the_definitions(self):
        rules = rule_names.rules_in(SOURCE, NUMBERS)
        self.assertEqual([(rule.variant, rule.about, rule.name, rule.number) for rule in rules],
                         [("FirstOne", "It is first.", "first-one", 1), ("Second", "It is second.", "second", 2),
                          ("Later", "It comes after a gap.", "later", 5)])
        python, rust = rule_names.files(rules).values()
        self.assertIn('\n    FIRST_ONE = "first-one"\n    SECOND = "second"\n    LATER = "later"\n\n', python)
        self.assertIn("NUMBERS = (*range(1, 3), 5,)\n", python)
        self.assertIn("number: 1, 2 or 5.", python)
        self.assertIn("{\n    /// It is first.\n    FirstOne = 1,\n    /// It is second.\n    Second = 2,\n",
                      rust)
        self.assertIn("ALL: [Rule; 3] = [\n        Rule::FirstOne,\n        Rule::Second,\n        Rule::Later,\n",
                      rust)
        self.assertIn('{\n            Rule::FirstOne => "first-one",\n            Rule::Second => "second",\n',
                      rust)

    def test_numbers_in_words(self):
        self.assertEqual(rule_names.said([*range(1, 53), 56, 57]), "1 to 52, 56 or 57")
        self.assertEqual(rule_names.said([1, 2, 3]), "1 to 3")


if __name__ == "__main__":
    sys.exit(unittest.main())
