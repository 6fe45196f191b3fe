"""Validators of Python's `jsonschema`, where it is installed."""
import concurrent.futures
import copy
import pickle
import unittest

from patchsard import Registry, Unresolvable
from patchsard.jsonschema import DRAFT7, validator_for

try:
    import referencing
    import jsonschema
except ImportError:
    jsonschema = None


@unittest.skipUnless(jsonschema, "jsonschema 4.18 or later isn't installed")
class Validators(unittest.TestCase):
    def test_references_in_the_schema(self):
        validator = validator_for({"$defs": {"name": {"type": "string"}}, "items": {"$ref": "#/$defs/name"}})
        self.assertIsInstance(validator, jsonschema.Draft202012Validator)
        self.assertTrue(validator.is_valid(["a"]))
        (error,) = validator.iter_errors(["a", 1])
        self.assertEqual(error.message, "1 is not of type 'string'")
        self.assertEqual(list(error.absolute_path), [1])

    def test_registries_of_both_kinds(self):
        schema = {"$id": "https://example.com/a", "$ref": "b#name"}
        part = {"$defs": {"name": {"$anchor": "name", "type": "string"}}}
        for registry in (
            Registry().with_resource("https://example.com/b", part),
            Registry().with_resource("https://example.com/b", part).crawl(),
            Registry(retrieve=lambda uri: part),
            referencing.Registry().with_resource("https://example.com/b", referencing.jsonschema.DRAFT202012.create_resource(part)),
        ):
            validator = validator_for(schema, registry=registry)
            self.assertEqual([validator.is_valid("a"), validator.is_valid(1)], [True, False])
        validator = validator_for(schema, retrieve=lambda uri: part)
        self.assertEqual([validator.is_valid("a"), validator.is_valid(1)], [True, False])

    def test_drafts(self):
        old = {"$schema": DRAFT7.uri, "definitions": {"a": {"$id": "#name", "type": "string"}}, "$ref": "#name"}
        self.assertEqual([validator_for(old).is_valid(it) for it in ("a", 1)], [True, False])
        del old["$schema"]
        self.assertEqual([validator_for(old, default=jsonschema.Draft7Validator).is_valid(it) for it in ("a", 1)], [True, False])
        with self.assertRaises(ValueError):
            validator_for({"$schema": "http://json-schema.org/draft-03/schema#"})

    def test_the_draft_of_what_is_retrieved(self):
        part = {"definitions": {"a": {"$id": "#name", "type": "string"}}, "$ref": "#name"}
        old = {"$schema": DRAFT7.uri, "$id": "https://example.com/a", "$ref": "b"}
        self.assertEqual([validator_for(old, retrieve=lambda uri: part).is_valid(it) for it in ("a", 1)], [True, False])

    def test_meta_schemas(self):
        for uri in ("https://json-schema.org/draft/2020-12/schema", "https://json-schema.org/draft/2019-09/schema", "http://json-schema.org/draft-07/schema#"):
            validator = validator_for({"$schema": uri, "allOf": [{"$ref": uri}]})
            self.assertEqual([validator.is_valid({"items": {"type": it}}) for it in ("string", "text")], [True, False], uri)

    def test_dynamic_references(self):
        tree = {"$id": "https://example.com/tree", "$dynamicAnchor": "node", "type": "object", "properties": {"children": {"items": {"$dynamicRef": "#node"}}}}
        strict = {"$id": "https://example.com/strict", "$dynamicAnchor": "node", "$ref": "tree", "unevaluatedProperties": False}
        validator = validator_for(strict, retrieve={"https://example.com/tree": tree}.__getitem__)
        self.assertEqual([validator.is_valid({"children": [it]}) for it in ({"children": []}, {"daat": 1})], [True, False])

    def test_a_reference_that_finds_nothing(self):
        validator = validator_for({"$ref": "#/$defs/nothing"})
        with self.assertRaises(referencing.exceptions.Unresolvable) as raised:
            validator.is_valid(1)
        self.assertIsInstance(raised.exception.__cause__.__cause__, Unresolvable)
        self.assertEqual(raised.exception.ref, "#/$defs/nothing")

    def test_a_document_that_is_not_there(self):
        validator = validator_for({"properties": {"a": {"$ref": "https://example.com/nowhere"}}})
        self.assertTrue(validator.is_valid({"b": 1}))
        with self.assertRaises(referencing.exceptions.Unresolvable):
            validator.is_valid({"a": 1})

    def test_a_dialect_of_ones_own(self):
        schema = {"$schema": "https://example.com/dialect", "$defs": {"a": {"type": "string"}}, "$ref": "#/$defs/a"}
        validator = validator_for(schema, default=jsonschema.Draft202012Validator)
        self.assertEqual([validator.is_valid(it) for it in ("a", 1)], [True, False])

    def test_texts_that_are_no_uri_references(self):
        """What plain jsonschema decides of schemas as they are found: faults that nothing follows don't matter."""
        texts = ("My Schema", "https://e/{version}/s", "https://e/my schema.json", "https://m\u00fcller.de/s", "https://e/a|b", "C:\\schemas\\a.json")
        found = [{"$id": text, "properties": {"a": {"type": "integer"}}} for text in texts]
        found += [{"$schema": "http://json-schema.org/draft-04/schema#", "id": text, "properties": {"a": {"type": "integer"}}} for text in texts]
        sound = {"$defs": {"x y": {"type": "integer"}}, "properties": {"a": {"$ref": "#/$defs/x%20y"}}}
        for text in ("my file.json", "${REF}"):
            found.append({**sound, "properties": {**sound["properties"], "b": {"$ref": text}}})
            found.append({**sound, "properties": {**sound["properties"], "b": {"$id": text}}})
        for schema in found:
            validator = validator_for(schema)
            plain = jsonschema.validators.validator_for(schema, default=jsonschema.Draft202012Validator)(schema)
            for instance in ({"a": 1}, {"a": "x"}, {}):
                self.assertEqual(validator.is_valid(instance), plain.is_valid(instance), (schema, instance))

    def test_a_reference_that_is_no_uri_reference(self):
        validator = validator_for({"properties": {"a": {"$ref": "my file.json"}, "b": {"type": "null"}}})
        self.assertEqual([validator.is_valid(it) for it in ({"b": None}, {"b": 1})], [True, False])
        with self.assertRaises(referencing.exceptions.Unresolvable):
            validator.is_valid({"a": 1})

    def test_a_registry_with_a_text_that_is_no_uri_reference(self):
        registry = Registry({"https://example.com/a": {"$id": "a b", "$defs": {"n": {"type": "null"}}}})
        validator = validator_for({"$ref": "https://example.com/a#/$defs/n"}, registry=registry)
        self.assertEqual([validator.is_valid(it) for it in (None, 1)], [True, False])

    def test_the_identifier_is_the_base(self):
        """Files that are given under `file:` URIs, with identifiers of their own: references in them are taken against those."""
        document = {"$id": "http://other/b/n", "$defs": {"x": {"$ref": "rel"}, "y": {"$id": "sub/q", "$ref": "#/$defs/z", "$defs": {"z": {"type": "integer"}}}}, "$ref": "rel"}
        registry = Registry({"file:///a/d1": document, "file:///a/rel": {"type": "integer"}, "http://other/b/rel": {"type": "string"}})
        for ref, decided in (("", [True, False]), ("#", [True, False]), ("#/$defs/x", [True, False]), ("#/$defs/y", [False, True])):
            validator = validator_for({"$ref": "file:///a/d1" + ref}, registry=registry)
            self.assertEqual([validator.is_valid(it) for it in ("a", 1)], decided, ref)

    def test_copies(self):
        validator = validator_for({"$id": "https://example.com/a", "$ref": "b"}, registry=Registry({"https://example.com/b": {"type": "string"}}))
        self.assertTrue(validator.is_valid("a"))
        for copied in (copy.copy(validator), copy.deepcopy(validator), pickle.loads(pickle.dumps(validator)), pickle.loads(pickle.dumps(validator, 0))):
            self.assertEqual([copied.is_valid(it) for it in ("a", 1)], [True, False])
        plain = jsonschema.Draft202012Validator({"type": "string"})
        for copied in (copy.copy(plain), copy.deepcopy(plain)):
            self.assertEqual([copied.is_valid(it) for it in ("a", 1)], [True, False])

    def test_pickled_options(self):
        schema = {"properties": {"a": {"format": "ipv4"}, "b": {"$ref": "gone"}, "c": {"$ref": "#/$defs/n"}}, "$defs": {"n": {"type": "null"}}}
        validator = validator_for(schema, default=jsonschema.Draft201909Validator, format_checker=jsonschema.FormatChecker())
        copied = pickle.loads(pickle.dumps(validator))
        self.assertIsInstance(copied, jsonschema.Draft201909Validator)
        self.assertEqual([copied.is_valid({"a": it}) for it in ("127.0.0.1", "127.0.0")], [True, False])
        self.assertEqual([copied.is_valid({"c": it}) for it in (None, 1)], [True, False])
        with self.assertRaises(referencing.exceptions.Unresolvable):
            copied.is_valid({"b": 1})

    def test_a_pool_of_processes(self):
        validator = validator_for({"items": {"$ref": "https://example.com/b"}}, registry=Registry({"https://example.com/b": {"type": "string"}}))
        with concurrent.futures.ProcessPoolExecutor(2) as pool:
            jobs = [pool.submit(validator.is_valid, it) for it in (["a"], [1], [])]
            self.assertEqual([it.result(300) for it in jobs], [True, False, True])

    def test_a_registry_that_is_given_to_jsonschema(self):
        with self.assertRaisesRegex(TypeError, "validator_for"):
            jsonschema.Draft202012Validator({"$ref": "#"}, registry=Registry()).is_valid(1)

    def test_an_older_jsonschema(self):
        """One before 4.18 lacks what references are resolved by."""
        kept = jsonschema.validators._RefResolver
        del jsonschema.validators._RefResolver
        try:
            with self.assertRaisesRegex(ImportError, r"jsonschema 4\.18 or later is needed .*; this is \d"):
                validator_for({})
        finally:
            jsonschema.validators._RefResolver = kept

    def test_deep_instances(self):
        """Dynamic references at a depth at which the program keeps scopes."""
        tree = {"$id": "https://example.com/tree", "$dynamicAnchor": "node", "type": "object", "properties": {"next": {"$dynamicRef": "#node"}}}
        strict = {"$id": "https://example.com/strict", "$dynamicAnchor": "node", "$ref": "tree", "unevaluatedProperties": False}
        registry = {it["$id"]: it for it in (tree, strict)}
        validator = validator_for(strict, registry=Registry(registry))
        plain = jsonschema.Draft202012Validator(strict, registry=referencing.Registry().with_contents(registry.items(), default_specification=referencing.jsonschema.DRAFT202012))
        for innermost in ({}, {"other": 1}):
            value = innermost
            for _ in range(60):
                value = {"next": value}
            self.assertEqual(validator.is_valid(value), plain.is_valid(value))
            self.assertEqual(validator.is_valid(value), not innermost)

    def test_options(self):
        validator = validator_for({"format": "ipv4"}, format_checker=jsonschema.FormatChecker())
        self.assertEqual([validator.is_valid(it) for it in ("127.0.0.1", "127.0.0")], [True, False])


if __name__ == "__main__":
    unittest.main()
