#!/usr/bin/env python3
"""Writes the lists of rules in bindings/ from the one in crates/verdict/src/rule.rt, with their numbers.

    tools/rule_names.py          writes bindings/python/tcpwit/rules.py and bindings/rust/src/rule.rs
    tools/rule_names.py --check  only names the files that differ; the status is 1 if there are any

C and Go have no list: they ask the library for the name of a rule's number. The contract of `Rule::name` says that the
names are those of crates/verdict/specs/Rules.antt, which has the numbers, too.
"""
import argparse
import os
import re
import sys

TOP = os.path.dirname(os.path.dirname(os.path.abspath(__file__)))
SOURCE = "crates/verdict/src/rule.rt"
NUMBERS = "crates/verdict/specs/Rules.antt"

PYTHON = '''\
"""The rules that a no names. tools/rule_names.py writes this file."""
from __future__ import annotations

import enum

# The numbers of the rules, in their order.
NUMBERS = ({numbers},)


class Rule(enum.Enum):
    """A rule that a no names; the value is its name. docs/reference/rules.md explains them."""

{members}

    @property
    def number(self) -> int:
        """The rule's number: {range}."""
        return NUMBERS[list(Rule).index(self)]
'''

RUST = '''\
//! The rules that a no names. `tools/rule_names.py` writes this file.

use core::fmt;

/// A rule that a no names. `docs/reference/rules.md` explains them.
#[derive(Clone, Copy, Debug, PartialEq, Eq, Hash)]
pub enum Rule {{
{variants}
}}

impl Rule {{
    /// All rules, in the order of their numbers.
    pub const ALL: [Rule; {count}] = [
{all}
    ];

    /// The rule with this number: {range}.
    pub fn numbered(number: u32) -> Option<Rule> {{
        Self::ALL.into_iter().find(|rule| rule.number() == number)
    }}

    /// Its number: {range}.
    pub fn number(self) -> u32 {{
        self as u32
    }}

    /// The name under which `tcpwit check` prints it.
    pub fn name(self) -> &'static str {{
        match self {{
{names}
        }}
    }}
}}

impl fmt::Display for Rule {{
    fn fmt(&self, f: &mut fmt::Formatter<'_>) -> fmt::Result {{
        f.write_str(self.name())
    }}
}}
'''


class Listed:
    """A rule: its variant in the code, what the code says about it, its name, and its number."""

    def __init__(self, variant, about, name, number):
        self.variant, self.about, self.name, self.number = variant, about, name, number


def rules_in(code, definitions):
    """The rules in the code of SOURCE, with the numbers of NUMBERS, in the order of these."""
    variants = re.findall(r"(?m)^    /// (.*)\n    (\w+),$", code[code.index("pub enum Rule {"):])
    names = dict(re.findall(r'Rule::(\w+) => "([\w-]+)"', code))
    numbers = dict(re.findall(r"(?m)^rule_number rules\.(\w+) = (\d+)$", definitions))
    rules = [Listed(variant, about, names[variant], int(numbers[variant])) for about, variant in variants]
    return sorted(rules, key=lambda rule: rule.number)


def runs(numbers):
    """The first and the last number of each run of numbers that follow one another."""
    found = []
    for number in numbers:
        if found and number == found[-1][1] + 1:
            found[-1][1] = number
        else:
            found.append([number, number])
    return found


def said(numbers):
    """The numbers in words, such as `1 to 52, 56 or 57`."""
    words = []
    for first, last in runs(numbers):
        words += [f"{first} to {last}"] if first + 1 < last else sorted({first, last})
    *others, last = map(str, words)
    return f"{', '.join(others)} or {last}" if others else last


def spanned(numbers):
    """The numbers as a tuple of Python."""
    return ", ".join(str(first) if first == last else f"*range({first}, {last + 1})" for first, last in runs(numbers))


def files(rules):
    """The text of each file, by its path."""
    numbers = [rule.number for rule in rules]
    members = "\n".join(f'    {rule.name.upper().replace("-", "_")} = "{rule.name}"' for rule in rules)
    variants = "\n".join(f"    /// {rule.about}\n    {rule.variant} = {rule.number}," for rule in rules)
    every = "\n".join(f"        Rule::{rule.variant}," for rule in rules)
    names = "\n".join(f'            Rule::{rule.variant} => "{rule.name}",' for rule in rules)
    words = said(numbers)
    return {"bindings/python/tcpwit/rules.py": PYTHON.format(members=members, numbers=spanned(numbers), range=words),
            "bindings/rust/src/rule.rs": RUST.format(variants=variants, all=every, names=names, count=len(rules),
                                                     range=words)}


def read(path):
    """The text of a file of the repository."""
    with open(os.path.join(TOP, path), encoding="utf-8") as file:
        return file.read()


def differing():
    """The texts that the files should have, by path, of those that have another one."""
    return {path: text for path, text in files(rules_in(read(SOURCE), read(NUMBERS))).items() if read(path) != text}


def main():
    words = argparse.ArgumentParser(description=__doc__.splitlines()[0])
    words.add_argument("--check", action="store_true", help="only name the files that differ")
    words = words.parse_args()
    found = differing()
    for path, text in found.items():
        if words.check:
            print(f"{path} differs from {SOURCE} or {NUMBERS}: run tools/rule_names.py")
            continue
        with open(os.path.join(TOP, path), "w", encoding="utf-8") as file:
            file.write(text)
    return 1 if words.check and found else 0


if __name__ == "__main__":
    sys.exit(main())
