#!/usr/bin/python3
"""Compares the rules in the code with docs/reference/rules.md: each rule's number, name, words, causes and RFC
sections, and which rules depend on the level."""
import os
import re
import unittest

import rule_names

TOP = os.path.dirname(os.path.dirname(os.path.abspath(__file__)))
NAMES = "crates/verdict/src/rule.rt"
TABLE = "crates/plain_words/src/rules.rt"
CAUSES = "crates/plain_words/src/causes.rt"
PAGE = "docs/reference/rules.md"

STRING = r'"((?:[^"\\]|\\.)*)"'
# A text in the code is a string or a constant.
TEXT = rf"(?:{STRING}|([A-Z_]+))"
# The beginning of an arm of the table, what may follow it, and an arm of the causes.
MEANING = re.compile(rf"&Meaning \{{\s*refused:\s*{TEXT},\s*usual:\s*{TEXT},", re.S)
FURTHER = re.compile(rf"\b(captured|rfc):\s*{TEXT},", re.S)
CAUSE = re.compile(rf"((?:\|?\s*Known::\w+\s*)+)=>\s*{TEXT}", re.S)
CAPTURED = ". In a capture: "
# The end of each cause of an entry, which the page says once, after them.
SHARED = re.compile(r'^Each of these may also be: "(.*)"\.$')


def read(name):
    """The text of a file of the repository."""
    with open(os.path.join(TOP, name), encoding="utf-8") as file:
        return file.read()


def levels_in_table(names, table):
    """The numbers of the rules that depend on the level, in the code."""
    listed = table[table.index("pub const LEVEL_RULES") :].split("];")[0]
    headings = numbered(names)
    return {int(headings[variant].split()[0]) for variant in re.findall(r"Rule::(\w+), Control::", listed)}


def levels_in_page(page):
    """The same in the section of the page."""
    section = re.search(r"(?ms)^## What each level checks\n(.*?)(?=^## |\Z)", page)[1]
    return {int(number) for number in re.findall(r"\b\d\d\b", section)}


def value_of(string):
    """The value of a string literal, whose lines may be continued."""
    return re.sub(r"\\\n\s*", "", string).replace('\\"', '"')


def plain(text):
    """A text with a small letter at the beginning, without the period at the end."""
    return text[:1].lower() + text[1:].removesuffix(".")


def numbered(code):
    """The heading of each rule, such as `2 line-again`, by its variant in the enum."""
    rules = rule_names.rules_in(code, read(rule_names.NUMBERS))
    return {rule.variant: f"{rule.number} {rule.name}" for rule in rules}


def text_in(string, constant, constants):
    """The text of a string literal or of a constant."""
    return plain(constants[constant] if constant else value_of(string))


def special_causes(code, constants):
    """The causes for what may be known at a step, by variant of `Known`: a usual text, and one for captures, which may
    be empty."""
    texts = []
    for part in code[code.index("pub fn usual(") :].split("pub fn captured("):
        arms = [(re.findall(r"Known::(\w+)", names), text_in(*text, constants)) for names, *text in CAUSE.findall(part)]
        texts.append({name: text for names, text in arms for name in names})
    usual, captured = texts
    return {name: (text, captured.get(name, "")) for name, text in usual.items()}


def in_table(code, causes, headings):
    """What the code says of each rule, by heading. Causes are pairs of a usual text and one for captures, which may be
    empty."""
    constants = {name: value_of(text) for name, text in re.findall(rf"const (\w+): &str =\s*{STRING};", causes, re.S)}
    special = special_causes(causes, constants)
    arms = re.split(r"Rule::(\w+) =>", code)
    rules = {}
    for variant, arm in zip(arms[1::2], arms[2::2]):
        words = MEANING.search(arm).groups()
        further = {name: text_in(*text, constants) for name, *text in FURTHER.findall(arm)}
        rules[headings.get(variant, variant)] = {
            "words": text_in(*words[:2], constants),
            "causes": [
                (text_in(*words[2:], constants), further.get("captured", "")),
                *(special[name] for name in re.findall(r"Known::(\w+)", arm)),
            ],
            "RFC sections": further.get("rfc", ""),
        }
    return rules


def cause_in(sentences, lead, shared):
    """The causes in these sentences after their lead; without a text for captures, the shared one."""
    usual, _, captured = sentences.removesuffix(".").partition(CAPTURED)
    return plain(re.sub(lead, "", usual, count=1)), plain(captured) or shared


def causes_in(paragraphs):
    """The causes in the paragraphs of an entry: those at any step, and those of each list item."""
    ends = "".join(f"; {found[1]}" for found in map(SHARED.match, paragraphs) if found)
    for place, paragraph in enumerate(paragraphs):
        if paragraph.startswith("Causes: "):
            first = cause_in(paragraph, "^Causes: ", "")
            rest = paragraphs[place + 1]
            items = re.split(r"(?:^| )- (?=[A-Z])", rest)[1:] if rest.startswith("- ") else []
            causes = (first, *(cause_in(item, "^.*?: ", first[1]) for item in items))
            return [(usual + ends, captured) for usual, captured in causes]
    return []


def in_page(page):
    """What the page says of each rule, by heading."""
    rules = {}
    for heading, entry in re.findall(r"(?ms)^### (\d+ [\w-]+)\n(.*?)(?=^###? |\Z)", page):
        paragraphs = [" ".join(paragraph.split()) for paragraph in entry.split("\n\n")] + [""]
        words = re.match(r"\s*\*([^*]+)\.\*\n\n", entry)
        rules[heading] = {
            "words": plain(" ".join(words[1].split())) if words else "",
            "causes": causes_in(paragraphs),
            "RFC sections": "".join(plain(paragraph[5:]) for paragraph in paragraphs if paragraph.startswith("RFC: ")),
        }
    return rules


def faults(names, table, causes, page):
    """A line for each difference between these texts."""
    headings = numbered(names)
    wanted = list(headings.values())
    code, told = in_table(table, causes, headings), in_page(page)
    found = []
    for name, rules in ((TABLE, code), (PAGE, told)):
        found += [f"{heading}: {name} doesn't have it" for heading in wanted if heading not in rules]
        found += [f"{heading}: {name} has it, but {NAMES} doesn't" for heading in rules if heading not in wanted]
    for heading in [heading for heading in wanted if heading in code and heading in told]:
        for part, one in code[heading].items():
            another = told[heading][part]
            is_list = isinstance(one, list) and len(one) == len(another)
            pairs = zip(one, another) if is_list else [(one, another)]
            found += [f"{heading}: the {part} differ:\n  {TABLE}: {left}\n  {PAGE}: {right}" for left, right in pairs
                      if left != right]
    return found


class Rules(unittest.TestCase):
    def setUp(self):
        self.texts = {name: read(name) for name in (NAMES, TABLE, CAUSES, PAGE)}

    def faults_with(self, name, old, new):
        """The faults if one text has other words in the place of these."""
        self.assertTrue(old in self.texts[name], f"{name} doesn't have {old!r}")
        return faults(*(text.replace(old, new, 1) if name == at else text for at, text in self.texts.items()))

    def test_the_page_has_the_texts_of_the_code(self):
        found = faults(*self.texts.values())
        self.assertFalse(found, "\n" + "\n".join(found))

    def test_the_page_has_the_rules_that_depend_on_the_level(self):
        page = self.texts[PAGE]
        code = levels_in_table(self.texts[NAMES], self.texts[TABLE])
        self.assertEqual(code, {20, 22, 33, 37, 50, 51})
        self.assertEqual(levels_in_page(page), code)
        # The entry of a rule that a level leaves out says so.
        for heading, level in (("50 resent", "not at the level `none`"),
                               ("51 resent-beyond", "only at the level `full`")):
            entry = re.search(rf"(?ms)^### {heading}\n(.*?)^### ", page)[1]
            self.assertIn(level, " ".join(entry.split()))

    def test_what_differs_is_found(self):
        for name, old, new, fault in (
            (TABLE, "the listen queue is full", "the listen queue was full", "32 queue-full: the words differ"),
            (TABLE, "a round trip was measured", "no round trip was measured", "34 sample: the causes differ"),
            (TABLE, 'captured: "the capture lost', 'rfc: "the capture lost', "31 ack-range: the causes differ"),
            (TABLE, "Known::NothingOutstanding,", "", "37 recovery: the causes differ"),
            (CAUSES, "skips positions that it", "skips what it", "20 old-data: the causes differ"),
            (CAUSES, "lost the segments before", "lost some segments before", "20 old-data: the causes differ"),
            (CAUSES, "coarser than `grain`", "finer than `grain`", "20 old-data: the causes differ"),
            (TABLE, '"6298, 3"', '"6298, 4"', "34 sample: the RFC sections differ"),
            (TABLE, "Rule::Sample =>", "Rule::Samples =>", f"34 sample: {TABLE} doesn't have it"),
            (PAGE, "*The listen queue is full.*", "*The listen queue is empty.*", "32 queue-full: the words differ"),
            (PAGE, "witness ends too early", "witness ends too late", "39 unplaced: the causes differ"),
            (PAGE, "- For `recv`: the", "For `recv`: the", "12 call-answer: the causes differ"),
            (PAGE, "clock is coarser than", "clock is finer than", "20 old-data: the causes differ"),
            (PAGE, "RFC: 6298, 3.\n", "", "34 sample: the RFC sections differ"),
            (PAGE, "### 34 sample\n", "### 33 sample\n", f"34 sample: {PAGE} doesn't have it"),
            (NAMES, '"sample"', '"samples"', f"34 samples: {PAGE} doesn't have it"),
        ):
            found = self.faults_with(name, old, new)
            self.assertTrue(found and found[0].startswith(fault), (name, old, found))


if __name__ == "__main__":
    unittest.main()
