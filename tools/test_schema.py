"""Tests that docs/reference/tcpwit_lab.schema.json is a JSON Schema whose references exist. This needs no program."""
import json
import os
import unittest

try:
    import jsonschema
except ImportError:
    jsonschema = None

TOP = os.path.dirname(os.path.dirname(os.path.abspath(__file__)))


def references(value):
    """The places that a schema refers to."""
    for key, inner in value.items() if isinstance(value, dict) else enumerate(value) if isinstance(value, list) else ():
        if key == "$ref":
            yield inner
        yield from references(inner)


class Schema(unittest.TestCase):
    def setUp(self):
        with open(f"{TOP}/docs/reference/tcpwit_lab.schema.json", encoding="utf-8") as file:
            self.schema = json.load(file)

    @unittest.skipIf(jsonschema is None, "needs python3-jsonschema")
    def test_it_is_a_schema(self):
        jsonschema.validators.validator_for(self.schema).check_schema(self.schema)

    def test_each_reference_exists(self):
        for reference in references(self.schema):
            at = self.schema
            for word in reference.removeprefix("#/").split("/"):
                self.assertIn(word, at, reference)
                at = at[word]


if __name__ == "__main__":
    unittest.main()
