"""The models beside docs/openapi.yaml: each schema of an object is a class with the same members."""
import collections.abc
import dataclasses
import json
import typing
import unittest

import places
from dss_client import errors, models
from dss_client.pool import Response

try:
    import yaml
except ModuleNotFoundError:
    yaml = None

TYPES = {"string": str, "integer": int, "boolean": bool}


@unittest.skipIf(yaml is None, "there is no python3-yaml")
class Models(unittest.TestCase):
    @classmethod
    def setUpClass(cls):
        cls.document = yaml.safe_load((places.TOP / "docs" / "openapi.yaml").read_text())
        cls.schemas = cls.document["components"]["schemas"]

    def test_each_object_is_a_class(self):
        objects = {name for name, it in self.schemas.items() if it.get("type") == "object"}
        self.assertGreater(len(objects), 20)
        for name in objects:
            with self.subTest(name):
                self.compare(getattr(models, name), self.schemas[name])

    def test_each_class_is_of_an_object(self):
        made = {name for name, it in vars(models).items() if dataclasses.is_dataclass(it)}
        parts = {"Subscriber", "SubscriptionIndex", "AvailabilityStatus"}
        self.assertLessEqual(parts, made)
        self.assertLessEqual(made - parts, set(self.schemas))

    def compare(self, kind, schema):
        """Compares a type with a schema, and those of the members of both."""
        while "$ref" in schema:
            schema = self.schemas[schema["$ref"].rpartition("/")[2]]
        if schema["type"] == "object":
            hints = typing.get_type_hints(kind)
            self.assertEqual(set(hints), set(schema["properties"]))
            needed = {it.name for it in dataclasses.fields(kind) if it.default is dataclasses.MISSING}
            self.assertEqual(needed, set(schema["required"]))
            for name, part in schema["properties"].items():
                member = hints[name]
                is_optional = typing.get_origin(member) is typing.Union
                self.assertEqual(is_optional, name not in needed, name)
                self.compare(typing.get_args(member)[0] if is_optional else member, part)
        elif schema["type"] == "array":
            self.assertIs(typing.get_origin(kind), collections.abc.Sequence)
            self.compare(typing.get_args(kind)[0], schema["items"])
        elif typing.get_origin(kind) is typing.Literal:
            self.assertEqual(set(typing.get_args(kind)), set(schema["enum"]))
        else:
            self.assertIs(kind, TYPES[schema["type"]])

    def test_each_example_is_read_and_written(self):
        """The bodies in the document have their forms, and the messages are errors of their kind."""
        seen = set()
        for path in self.document["paths"].values():
            for operation in (it for it in path.values() if "responses" in it):
                for status, response in operation["responses"].items():
                    content = response.get("content", {}).get("application/json")
                    for example in content["examples"].values() if content else ():
                        name = content["schema"]["$ref"].rpartition("/")[2]
                        if status in ("200", "201"):
                            seen.add(name)
                            read = models.decode(getattr(models, name), example["value"])
                            self.assertEqual(models.encode(read), example["value"])
        self.assertGreater(len(seen), 8)

    def test_each_failure_is_an_error(self):
        """Each message is an error of its kind, which knows whether the change is open."""
        for name, example in self.document["components"]["examples"].items():
            status, is_open = errors.MESSAGES[example["value"]["message"]]
            error = errors.error_of(Response(status, {}, json.dumps(example["value"]).encode()))
            wanted = errors.ProxyError if "x-of-proxy" in example else errors.FAILURES.get(name, errors.Denial)
            self.assertIs(type(error), wanted)
            self.assertEqual((getattr(error, "rule", name), error.maybe_made), (name, example.get("x-made") == "open"))
            self.assertEqual(is_open, error.maybe_made)

    def test_other_forms_are_refused(self):
        good = {"status": {"availability": "Down", "uss": "uss-b"}, "version": ""}
        self.assertEqual(models.decode(models.AvailabilityTold, {**good, "more": 1}).status.availability, "Down")
        for bad in ([], None, {}, {**good, "version": 1}, {**good, "status": {"availability": "Up", "uss": "uss-b"}}):
            with self.assertRaises(models.BadForm):
                models.decode(models.AvailabilityTold, bad)
        with self.assertRaises(models.BadForm):
            models.decode(models.SubscriptionIndex, {"notification_index": True, "subscription_id": "x"})


if __name__ == "__main__":
    unittest.main()
