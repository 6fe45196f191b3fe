"""What registries and resolvers answer."""
import datetime
import gc
import importlib.util
import os
import subprocess
import sys
import unittest
import urllib.parse
from unittest import mock

import patchsard
from patchsard import Registry, Resource, _process
from patchsard.jsonschema import DRAFT4, DRAFT7, DRAFT201909, DRAFT202012, lookup_recursive_ref, specification_with

BASE = "https://example.com/order"
TOP = os.path.dirname(os.path.dirname(os.path.abspath(__file__)))


def order():
    return {
        "$id": BASE,
        "properties": {"item": {"$ref": "#/$defs/item"}},
        "$defs": {"item": {"type": "string"}, "a/b~c": {"$anchor": "odd"}, "é ": {"$id": "sub/part", "$defs": {"inner": {}}}, "none": True},
        "allOf": [{"not": {}}, {"$id": "other", "items": {"type": "null"}}],
    }


class Lookups(unittest.TestCase):
    def setUp(self):
        self.order = order()
        self.registry = Registry().with_resource(BASE, self.order)
        self.resolver = self.registry.resolver(BASE)

    def test_values_are_the_callers_own(self):
        found = self.resolver.lookup("#/$defs/item")
        self.assertIs(found.contents, self.order["$defs"]["item"])
        self.assertEqual(found.specification, DRAFT202012)
        self.assertIs(self.resolver.lookup("#").contents, self.order)
        self.assertIs(self.resolver.lookup("").contents, self.order)
        self.assertIs(self.resolver.lookup("#odd").contents, self.order["$defs"]["a/b~c"])
        self.assertIs(self.resolver.lookup("#/$defs/a~1b~0c").contents, self.order["$defs"]["a/b~c"])
        self.assertIs(self.resolver.lookup("#/$defs/%C3%A9%20").contents, self.order["$defs"]["é "])
        self.assertIs(self.resolver.lookup("#/allOf/1/items").contents, self.order["allOf"][1]["items"])
        self.assertIs(self.resolver.lookup("#/$defs/none").contents, True)

    def test_every_place_of_a_document(self):
        odd = {key: {"const": key, "enum": [[], [{"": [None]}], key, 10**30, 1.5e300]} for key in ("", "/", "~", "~1", "%25", "%", "#", "é", "0", "-1", " ", '"', "\\", "\n", "a/b~c")}
        document = {"$defs": odd, "properties": odd["/"], "allOf": [odd[""], True], "examples": (odd["~"], ({"a": {}},))}
        places = [("", document)]
        for pointer, value in places:
            if isinstance(value, dict):
                places += [(f"{pointer}/{key.replace('~', '~0').replace('/', '~1')}", below) for key, below in value.items()]
            elif isinstance(value, (list, tuple)):
                places += [(f"{pointer}/{number}", below) for number, below in enumerate(value)]
        resolver = Registry().with_resource("u:a", document).resolver("u:a")
        found = resolver.lookup_all("#" + urllib.parse.quote(pointer, safe="/~") for pointer, _ in places)
        self.assertGreater(len(places), 200)
        for (pointer, value), it in zip(places, found):
            self.assertIs(it.contents, value, pointer)

    def test_a_resolver_goes_on_at_what_it_found(self):
        found = self.resolver.lookup("sub/part")
        self.assertEqual(found.resolver.base_uri, "https://example.com/sub/part")
        self.assertIs(found.resolver.lookup("#/$defs/inner").contents, self.order["$defs"]["é "]["$defs"]["inner"])
        self.assertIs(found.resolver.lookup("../order#/$defs/item").contents, self.order["$defs"]["item"])
        self.assertEqual([uri for uri, _ in found.resolver.dynamic_scope()], [BASE])

    def test_what_is_not_found(self):
        for ref, kind in [
            ("#/$defs/itme", patchsard.PointerToNowhere),
            ("#nothing", patchsard.NoSuchAnchor),
            ("#a/b", patchsard.InvalidAnchor),
            ("nowhere", patchsard.Unretrievable),
        ]:
            with self.subTest(ref), self.assertRaises(kind) as raised:
                self.resolver.lookup(ref)
            self.assertIsInstance(raised.exception, patchsard.Unresolvable)
            self.assertEqual(raised.exception.ref, ref)
            self.assertIn(ref, str(raised.exception))

    def test_faults_of_references(self):
        for ref, kind in [("#/allOf/x", patchsard.InvalidArrayIndex), ("#/%FF", patchsard.InvalidPercentEncoding), ("http://[", patchsard.InvalidUri)]:
            with self.subTest(ref), self.assertRaises(kind):
                self.resolver.lookup(ref)
        for lookup in (self.resolver.lookup, lambda ref: self.resolver.lookup_all(["#", ref])):
            with self.assertRaises(patchsard.InvalidUri) as raised:
                lookup("#\ud800")
            self.assertEqual(raised.exception.ref, "#\ud800")
        found = self.resolver.lookup_all(["#odd", "#\ud800", "#"], return_exceptions=True)
        self.assertEqual([type(it) for it in found], [patchsard.Resolved, patchsard.InvalidUri, patchsard.Resolved])
        self.assertIs(found[2].contents, self.order)

    def test_several_at_once(self):
        refs = ["#/$defs/item", "#odd", "#/$defs/itme"]
        found = self.resolver.lookup_all(iter(refs), return_exceptions=True)
        self.assertIs(found[0].contents, self.order["$defs"]["item"])
        self.assertIs(found[1].contents, self.order["$defs"]["a/b~c"])
        self.assertIsInstance(found[2], patchsard.PointerToNowhere)
        self.assertEqual(found[2].ref, "#/$defs/itme")
        with self.assertRaises(patchsard.PointerToNowhere):
            self.resolver.lookup_all(refs)
        self.assertEqual(self.resolver.lookup_all([]), [])
        self.assertEqual(self.resolver.lookup_all(refs[:2])[1], self.resolver.lookup(refs[1]))

    def test_in_subresource(self):
        part = self.order["$defs"]["é "]
        inner = self.resolver.in_subresource(Resource(part, DRAFT202012))
        self.assertEqual(inner.base_uri, "https://example.com/sub/part")
        self.assertIs(inner.lookup("#").contents, part)
        self.assertIs(self.resolver.in_subresource(self.order["$defs"]["item"]), self.resolver)
        self.assertIs(self.resolver.in_subresource(True), self.resolver)
        self.assertEqual(self.resolver.in_subresource(DRAFT4.create_resource({"$id": "x"})), self.resolver)
        self.assertEqual(self.resolver.in_subresource(DRAFT4.create_resource({"id": "x"})).base_uri, "https://example.com/x")

    def test_contents(self):
        self.assertIs(self.registry.contents(BASE), self.order)
        self.assertIs(self.registry.contents(BASE + "#"), self.order)
        self.assertIs(self.registry.contents("https://example.com/other"), self.order["allOf"][1])
        self.assertIs(self.registry[BASE].contents, self.order)
        with self.assertRaises(patchsard.NoSuchResource):
            self.registry.contents("https://example.com/nowhere")
        self.assertEqual((list(self.registry), len(self.registry), BASE in self.registry, "x" in self.registry), ([BASE], 1, True, False))


class Registries(unittest.TestCase):
    def test_they_do_not_change(self):
        first = Registry()
        second = first.with_resource("https://example.com/a", {"$anchor": "n"})
        third = second.with_resource("https://example.com/a", {"$anchor": "m"})
        self.assertEqual([len(first), len(second), len(third)], [0, 1, 1])
        self.assertEqual(second.resolver("https://example.com/a").lookup("#n").contents, {"$anchor": "n"})
        self.assertEqual(third.resolver("https://example.com/a").lookup("#m").contents, {"$anchor": "m"})
        with self.assertRaises(patchsard.NoSuchAnchor):
            third.resolver("https://example.com/a").lookup("#n")

    def test_texts_that_mean_one_uri(self):
        documents = {"a": {"const": 1}, "b": {"const": 2}, "json-schema:///a": {"const": 3}, "c": {"$ref": "d"}}
        resolver = Registry(documents, retrieve=lambda uri: {"const": uri}).resolver("")
        self.assertEqual([resolver.lookup(it).contents["const"] for it in "abd"], [3, 2, "json-schema:///d"])
        self.assertIs(resolver.lookup("a").contents, documents["json-schema:///a"])

    def test_texts_that_mean_one_uri_and_an_identifier_that_is_anothers(self):
        documents = {"http://a/x": {"$defs": {"k": {"$id": "http://a/k"}}}, "http://a/y": {"$defs": {"q": {"$id": "http://a/x"}}}, "http://a/z": {}, "HTTP://a/z": {"const": 1}}
        for order in (list(documents), list(reversed(documents))):
            given = {uri: documents[uri] for uri in order}
            resolver = Registry(given).resolver()
            self.assertIs(resolver.lookup("http://a/k").contents, documents["http://a/x"]["$defs"]["k"])
            self.assertIs(resolver.lookup("http://a/y").contents, documents["http://a/y"])
            self.assertIs(resolver.lookup("http://a/z").contents, documents[order[max(order.index("http://a/z"), order.index("HTTP://a/z"))]])

    def test_names_of_referencing(self):
        registry = Registry({"u:a": {"not": {"$anchor": "n"}}, "u:b": {}}, retrieve={"u:c": {"const": 1}}.__getitem__)
        self.assertEqual(list(registry.remove("u:b#")), ["u:a"])
        with self.assertRaises(patchsard.NoSuchResource):
            registry.remove("u:c")
        found = registry.get_or_retrieve("u:c")
        self.assertEqual((found.value.contents, list(found.registry)), ({"const": 1}, ["u:a", "u:b", "u:c"]))
        self.assertIs(registry.get_or_retrieve("u:a").registry, registry)
        with self.assertRaises(patchsard.Unretrievable):
            registry.get_or_retrieve("u:d")
        with self.assertRaises(patchsard.NoSuchResource):
            Registry().get_or_retrieve("u:d")
        self.assertEqual(registry.anchor("u:a", "n").value.resource.contents, {"$anchor": "n"})
        with self.assertRaises(patchsard.NoSuchAnchor):
            registry.anchor("u:a", "m")
        added = [Resource({"$id": "u:e"}), {"$id": "u:f"}] @ registry
        self.assertEqual(list(added), ["u:a", "u:b", "u:e", "u:f"])
        self.assertEqual(list(Resource({"$id": "u:e"}) @ Registry()), ["u:e"])
        with self.assertRaises(patchsard.NoInternalID):
            Resource({}) @ registry
        self.assertTrue("u:a#" in registry and "u:x" not in registry)
        self.assertTrue("https://example.com/sub/part#" in Registry({BASE: order()}) and 1 not in registry)
        self.assertIs(patchsard.jsonschema.SchemaRegistry, Registry)
        self.assertEqual(len(patchsard.jsonschema.EMPTY_REGISTRY), 0)
        self.assertEqual(patchsard.__version__, "0.1.0")

    def test_wrong_use(self):
        for schema in ({"$id": "u:a", "type": "string"}, {"$ref": "#"}, {"type": "object", "properties": {}}):
            with self.assertRaisesRegex(TypeError, "each under a URI"):
                Registry(schema)
        resolver = Registry({"u:a": True}).resolver("u:a")
        for wrong in (["#"], 1, None, b"#"):
            with self.assertRaisesRegex(TypeError, "A reference is a str"):
                resolver.lookup(wrong)
            with self.assertRaisesRegex(TypeError, "A reference is a str"):
                resolver.lookup_all(["#", wrong])
        # Where another document can't be opened, that is said.
        with self.assertRaises(patchsard.Unretrievable) as raised:
            Registry({"u:a": True, "u:b": {"$ref": "u:c"}})["u:d"]
        self.assertEqual(raised.exception.document, "u:b")

    def test_documents_behind_an_open_registry(self):
        documents = {f"https://example.com/{number}": {"const": number} for number in range(30)}
        registry = Registry()
        for uri, document in documents.items():
            registry = registry.with_resource(uri, document).crawl()
        resolver = registry.resolver("https://example.com/")
        for uri, document in documents.items():
            self.assertIs(resolver.lookup(uri).contents, document)
        self.assertEqual(list(registry), list(documents))

    def test_with_contents_and_combine(self):
        old = {"definitions": {"a": {"$id": "#n"}}}
        left = Registry().with_contents([("https://example.com/old", old)], default_specification=DRAFT7)
        new = {"$defs": {"a": {"$anchor": "n"}}}
        both = Registry([("https://example.com/new", new)]).combine(left)
        resolver = both.resolver("https://example.com/")
        found = resolver.lookup("old#n")
        self.assertIs(found.contents, old["definitions"]["a"])
        self.assertEqual(found.specification, DRAFT7)
        self.assertIs(resolver.lookup("new#n").contents, new["$defs"]["a"])
        with self.assertRaises(ValueError):
            Registry(retrieve=lambda uri: {}).combine(Registry(retrieve=lambda uri: True))

    def test_meta_schemas_as_a_parent(self):
        uri = "https://example.com/meta"
        meta = {"$id": uri, "$schema": "https://json-schema.org/draft/2020-12/schema", "$defs": {"a": {"$anchor": "it"}}}
        schema = {"$schema": uri, "$ref": f"{uri}#it"}
        with self.assertRaises(patchsard.UnknownSpecification):
            Registry({"u:a": {"$schema": uri}}).crawl()
        registry = Registry({"u:a": schema}, parent={uri: meta})
        self.assertIs(registry.resolver("u:a").lookup(f"{uri}#it").contents, meta["$defs"]["a"])
        self.assertIs(registry.contents(uri), meta)
        self.assertEqual(list(registry), ["u:a"])
        for more in (registry.with_resource("u:b", {"$ref": "u:a"}), registry.combine(Registry({"u:b": {"$ref": "u:a"}})), Registry({"u:b": {"$ref": "u:a"}}).combine(registry)):
            self.assertEqual(more.dangling(), [])
            self.assertIs(more.resolver("u:b").lookup(uri).contents, meta)
        with self.assertRaises(patchsard.Unretrievable) as raised:
            Registry(parent=[(uri, {"$ref": "part"})]).crawl()
        self.assertEqual(raised.exception.uri, "https://example.com/part")

    def test_a_registry_as_a_parent(self):
        part = {"$anchor": "part"}
        parent = Registry({"u:part": part})
        first, second = Registry({"u:a": {"$ref": "u:part"}}, parent=parent), Registry({"u:a": {"$ref": "u:part#part"}}, parent=parent)
        for registry in (first, second):
            self.assertIs(registry.resolver("u:a").lookup("u:part#part").contents, part)
        self.assertEqual(first.bundle("u:a"), {"$ref": "u:part"})
        with self.assertRaises(ValueError):
            first.combine(Registry(parent=Registry()))
        above = Registry({"u:b": {"$ref": "u:a"}}, parent=first)
        self.assertIs(above.resolver("u:b").lookup("u:part").contents, part)
        self.assertIs(Registry(parent=Registry()).with_resource("u:a", part).resolver("u:a").lookup("#part").contents, part)

    def test_the_draft_of_documents(self):
        schema = {"definitions": {"a": {"id": "#n"}}}
        self.assertIs(Registry(draft=DRAFT4).with_resource("u:a", schema).resolver("u:a").lookup("#n").contents, schema["definitions"]["a"])
        self.assertIs(Registry().with_resource("u:a", DRAFT4.create_resource(schema)).resolver("u:a").lookup("#n").contents, schema["definitions"]["a"])
        with self.assertRaises(patchsard.NoSuchAnchor):
            Registry().with_resource("u:a", schema).resolver("u:a").lookup("#n")
        named = {"$schema": DRAFT4.uri, **schema}
        self.assertIs(Registry().with_resource("u:a", named).resolver("u:a").lookup("#n").contents, schema["definitions"]["a"])

    def test_resources(self):
        self.assertEqual(Resource.from_contents({"$schema": DRAFT7.uri}).specification, DRAFT7)
        self.assertEqual(Resource.from_contents({}, default_specification=DRAFT4).specification, DRAFT4)
        with self.assertRaises(patchsard.CannotDetermineSpecification):
            Resource.from_contents({})
        self.assertEqual(DRAFT7.detect({"$schema": DRAFT4.uri}), DRAFT4)
        self.assertEqual(specification_with("http://json-schema.org/draft-07/schema"), DRAFT7)
        with self.assertRaises(KeyError):
            specification_with("https://example.com/dialect")
        self.assertEqual(Resource({"$id": "https://example.com/a#"}).id(), "https://example.com/a")
        self.assertIsNone(Resource({"$id": "#a"}, DRAFT7).id())
        self.assertIsNone(Resource(True).id())
        self.assertEqual(len({Resource({"$id": "u:a"}), Resource({"$id": "u:a"}), Resource({"$id": "u:b"}), Resource([])}), 3)
        with self.assertRaises(AttributeError):
            Resource({}).contents = 1
        self.assertEqual([(it.name, it.is_dynamic) for it in Resource({"$anchor": "a", "$dynamicAnchor": "b"}).anchors()], [("a", False), ("b", True)])
        self.assertEqual([it.name for it in Resource({"$anchor": "a", "$dynamicAnchor": "b"}, DRAFT201909).anchors()], ["a"])
        self.assertEqual([it.name for it in Resource({"$id": "#a"}, DRAFT7).anchors()], ["a"])
        self.assertEqual(list(Resource({"$id": "#/a"}, DRAFT7).anchors()) + list(Resource(True).anchors()), [])
        old = {"allOf": [{"not": {}}, True], "properties": {"a": {"items": {}}}, "const": {"not": {}}, "$defs": {"b/c": {"$schema": DRAFT7.uri}}}
        below = list(Resource(old).subresources())
        self.assertEqual(sorted(map(repr, below)), sorted(map(repr, [Resource({"not": {}}, DRAFT202012), Resource(True, DRAFT202012), Resource({"items": {}}, DRAFT202012), Resource({"$schema": DRAFT7.uri}, DRAFT7)])))
        root = Resource({"$defs": {"a/b é": {"$id": "u:x"}}})
        self.assertEqual(root.pointer("/$defs/a~1b é", Registry().resolver_with_root(root)).contents, {"$id": "u:x"})

    def test_resolver_with_root(self):
        shared = {"$id": "https://example.com/shared"}
        registry = Registry().with_resource("https://example.com/shared", shared).crawl()
        root = {"$id": "https://example.com/root", "$defs": {"a": {}}}
        resolver = registry.resolver_with_root(Resource(root, DRAFT202012))
        self.assertEqual(resolver.base_uri, "https://example.com/root")
        self.assertIs(resolver.lookup("#/$defs/a").contents, root["$defs"]["a"])
        self.assertIs(resolver.lookup("shared").contents, shared)
        nameless = {"$defs": {"a": {}}}
        self.assertIs(registry.resolver_with_root(nameless).lookup("#/$defs/a").contents, nameless["$defs"]["a"])

    def test_recursive_references(self):
        tree = {"$schema": DRAFT201909.uri, "$id": "https://example.com/tree", "$recursiveAnchor": True, "items": {"$recursiveRef": "#"}}
        strict = {"$schema": DRAFT201909.uri, "$id": "https://example.com/strict", "$recursiveAnchor": True, "$ref": "tree"}
        registry = Registry([("https://example.com/tree", tree), ("https://example.com/strict", strict)])
        resolver = registry.resolver("https://example.com/strict").lookup("tree").resolver
        self.assertIs(lookup_recursive_ref(resolver).contents, strict)
        self.assertIs(lookup_recursive_ref(registry.resolver("https://example.com/tree")).contents, tree)

    def test_dynamic_references(self):
        tree = {"$id": "https://example.com/tree", "$dynamicAnchor": "node", "items": {"$dynamicRef": "#node"}}
        strict = {"$id": "https://example.com/strict", "$dynamicAnchor": "node", "$ref": "tree"}
        registry = Registry([("https://example.com/tree", tree), ("https://example.com/strict", strict)])
        resolver = registry.resolver("https://example.com/strict").lookup("tree").resolver
        self.assertIs(resolver.lookup("#node").contents, strict)
        self.assertIs(registry.resolver("https://example.com/tree").lookup("#node").contents, tree)

    def test_dangling(self):
        schema = {"$ref": "#/$defs/a", "$defs": {"a": {}, "b": {"$ref": "#/$defs/c"}}}
        registry = Registry().with_resource("https://example.com/a", schema)
        (found,) = registry.dangling()
        self.assertIs(found.contents, schema["$defs"]["b"])
        self.assertEqual((found.pointer, type(found.error)), ("/$defs/b", patchsard.PointerToNowhere))
        more = registry.crawl().with_resource("https://example.com/b", {"$ref": "a#x"})
        self.assertEqual([type(it.error) for it in more.dangling()], [patchsard.PointerToNowhere, patchsard.NoSuchAnchor])

    def test_compare(self):
        before = Registry({"https://h/a": {"$ref": "b#/$defs/x"}, "https://h/b": {"$defs": {"x": {"items": {"$ref": "#/$defs/x"}}}}})
        after = Registry({"https://h/a": {"$ref": "c#/$defs/y"}, "https://h/c": {"$defs": {"y": {"items": {"$ref": "#/$defs/y"}}}}})
        renamed = [(("https://h/b", "/$defs/x"), ("https://h/c", "/$defs/y"))]
        self.assertIsNone(before.compare(before))
        self.assertIsNone(before.compare(after, renamed))
        self.assertIsNone(after.compare(before, [(to, of) for of, to in renamed]))
        told = before.compare(after)
        self.assertEqual(told, ("https://h/a", "", "OtherReference", "$ref", "b#/$defs/x", "c#/$defs/y", ("https://h/b", "/$defs/x"), ("https://h/c", "/$defs/y")))
        forgotten = Registry({"https://h/a": {"$ref": "c#/$defs/y"}, "https://h/c": {"$defs": {"y": {"items": {"$ref": "#/$defs/x"}}}}})
        told = before.compare(forgotten, renamed)
        self.assertEqual((told.uri, told.pointer, told.what, told.now, told.leads), ("https://h/b", "/$defs/x/items", "OtherReference", "#/$defs/x", None))
        # A reference into a document that isn't there counts as none.
        without = Registry({"https://h/a": {"$ref": "b#/$defs/x"}, "https://h/c": {"$defs": {"y": {"items": {"$ref": "#/$defs/y"}}}}}, allow_missing=True)
        self.assertEqual(before.compare(without, renamed)[:4], ("https://h/a", "", "OtherText", "$ref"))
        with self.assertRaises(patchsard.NoSuchResource):
            before.compare(after, [(("https://h/none", ""), ("https://h/c", ""))])
        # Where the two are open in two processes, both are opened anew.
        before._open().process.stop()
        self.assertIsNone(before.compare(after, renamed))

    def test_bundle(self):
        registry = Registry([("https://example.com/a", {"$id": "https://example.com/a", "$ref": "b"}), ("https://example.com/b", {"type": "string"})])
        bundle = registry.bundle("https://example.com/a")
        self.assertEqual(bundle["$defs"], {"https://example.com/b": {"$id": "https://example.com/b", "type": "string"}})
        with self.assertRaises(patchsard.NoSuchResource):
            registry.bundle("https://example.com/c")
        grouped = Registry([("https://example.com/a", {"$ref": "#/x/y", "x": {"y": {"$ref": "b"}}}), ("https://example.com/b", {"type": "string"})])
        self.assertEqual(grouped.bundle("https://example.com/a")["$defs"], {"https://example.com/b": {"$id": "https://example.com/b", "type": "string"}})
        with self.assertRaises(patchsard.NotBundled) as raised:
            Registry([("https://example.com/a", {"$ref": "b"}), ("https://example.com/b", True)]).bundle("https://example.com/a")
        self.assertTrue(raised.exception.reason)

    def test_what_is_no_json(self):
        for value, kind in [
            ({"a": float("nan")}, ValueError),
            ({"a": [float("inf")]}, ValueError),
            ({1: 2}, TypeError),
            ({"a": [{None: 2}]}, TypeError),
            ({"a": object()}, TypeError),
            ({"a": b"x"}, TypeError),
            ({"a": "\ud800"}, ValueError),
        ]:
            with self.subTest(repr(value)), self.assertRaises(kind):
                Registry().with_resource("u:a", value).crawl()
        deep = {}
        for _ in range(200):
            deep = {"not": deep}
        with self.assertRaises(ValueError):
            Registry().with_resource("u:a", deep).crawl()
        for _ in range(100000):
            deep = {"not": deep}
        with self.assertRaises(ValueError):
            Registry().with_resource("u:a", deep).crawl()
        while deep:
            deep = deep["not"]
        for value, pointer in (({"a": [{1: 2}]}, "/a/0"), ({"b/": {"c": float("nan")}}, "/b~1/c"), ({"a": {"d": datetime.date(2026, 1, 1)}}, "/a/d")):
            with self.assertRaises((TypeError, ValueError)) as raised:
                Registry().with_resource("u:a", value).crawl()
            self.assertIn(f"document 'u:a', at {pointer!r}", str(raised.exception))
        circle = []
        circle.append(circle)
        with self.assertRaises(ValueError):
            Registry().with_resource("u:a", circle).crawl()
        # Parts that are shared are written out where they are, as long as there aren't too many.
        shared = {"const": [1, 2]}
        resolver = Registry().with_resource("u:a", {"$defs": {str(it): shared for it in range(30)}, "allOf": [shared] * 3}).resolver("u:a")
        for ref in ("#/$defs/7", "#/allOf/2"):
            self.assertIs(resolver.lookup(ref).contents, shared)
        for _ in range(60):
            shared = {"allOf": [shared, shared]}
        with self.assertRaisesRegex(TypeError, "document 'u:a', at '/not/allOf"):
            Registry().with_resource("u:a", {"not": shared}).crawl()
        self.assertEqual(Registry().with_resource("u:a", {"a": ({"b": 1.5}, None, "\n\u2028é")}).resolver("u:a").lookup("#/a/0/b").contents, 1.5)

    def test_a_closed_registry_is_opened_anew(self):
        schema = {"$defs": {"a": {}}}
        with Registry().with_resource("u:a", schema) as registry:
            self.assertIs(registry.resolver("u:a").lookup("#/$defs/a").contents, schema["$defs"]["a"])
        resolver = registry.resolver("u:a")
        self.assertIs(resolver.lookup("#/$defs/a").contents, schema["$defs"]["a"])
        registry.close()
        self.assertIs(resolver.lookup("#/$defs/a").contents, schema["$defs"]["a"])
        child = registry.with_resource("u:b", {"$ref": "u:a"})
        child.crawl()
        registry.close()
        del registry, resolver
        gc.collect()
        self.assertIs(child.resolver("u:b").lookup("u:a").contents, schema)


class Retrieval(unittest.TestCase):
    def setUp(self):
        self.files = {"https://example.com/b": {"$ref": "c"}, "https://example.com/c": {"$defs": {"d": {}}}, "https://example.com/later": {"$ref": "c"}}
        self.asked = []

    def retrieve(self, uri):
        self.asked.append(uri)
        return self.files[uri]

    def test_what_references_want(self):
        registry = Registry(retrieve=self.retrieve).with_resource("https://example.com/a", {"$ref": "b"})
        self.assertEqual(self.asked, [])
        found = registry.resolver("https://example.com/a").lookup("c#/$defs/d")
        self.assertIs(found.contents, self.files["https://example.com/c"]["$defs"]["d"])
        self.assertEqual(self.asked, ["https://example.com/b", "https://example.com/c"])
        registry.close()
        registry.crawl()
        self.assertEqual(len(self.asked), 2)

    def test_what_a_look_up_wants(self):
        resolver = Registry(retrieve=self.retrieve).with_resource("https://example.com/a", {}).resolver("https://example.com/a")
        found = resolver.lookup("later")
        self.assertIs(found.contents, self.files["https://example.com/later"])
        self.assertIs(found.resolver.lookup("c").contents, self.files["https://example.com/c"])
        self.assertEqual(self.asked, ["https://example.com/later", "https://example.com/c"])
        self.assertIs(resolver.lookup_all(["#", "later"])[1].contents, self.files["https://example.com/later"])
        with self.assertRaises(patchsard.Unretrievable) as raised:
            resolver.lookup("nowhere")
        self.assertIsInstance(raised.exception.__cause__, KeyError)

    def test_a_document_in_place_of_a_retrieved_one(self):
        registry = Registry(retrieve=self.retrieve).with_resource("https://example.com/a", {"$ref": "b"}).crawl()
        given = {"const": 1}
        for other in (registry.with_resource("https://example.com/b", given), registry.with_resource("https://example.com/a", {"$ref": "b"})):
            other = other.with_resource("https://example.com/b", given)
            self.assertIs(other.resolver("https://example.com/a").lookup("b").contents, given)
        self.assertIs(registry.resolver("https://example.com/a").lookup("b").contents, self.files["https://example.com/b"])

    def test_what_is_not_there(self):
        for registry in (Registry(), Registry(retrieve=self.retrieve), Registry(retrieve=self.files.get)):
            with self.assertRaises(patchsard.Unretrievable) as raised:
                registry.with_resource("https://example.com/a", {"$ref": "nowhere#/x"}).crawl()
            self.assertEqual(raised.exception.uri, "https://example.com/nowhere")

    def test_what_may_be_missing(self):
        schema = {"$ref": "nowhere#/x", "$defs": {"a": {"$schema": "https://example.com/nothing", "$ref": "b"}}}
        registry = Registry(retrieve=self.retrieve, allow_missing=True).with_resource("https://example.com/a", schema)
        resolver = registry.resolver("https://example.com/a")
        self.assertIs(resolver.lookup("b").contents, self.files["https://example.com/b"])
        self.assertIs(resolver.lookup("#/$defs/a").contents, schema["$defs"]["a"])
        with self.assertRaises(patchsard.Unretrievable):
            resolver.lookup("nowhere")
        self.assertIsInstance(resolver.lookup_all(["nowhere"], return_exceptions=True)[0], patchsard.Unretrievable)
        ((document, pointer, error),) = registry.dangling()
        self.assertIs(document, schema)
        self.assertEqual((pointer, type(error), error.ref, error.uri), ("", patchsard.Unretrievable, "nowhere#/x", "https://example.com/nowhere"))

    def test_a_missing_document_is_unretrievable_with_any_fragment(self):
        schema = {"properties": {"p": {"$ref": "nowhere"}, "q": {"$ref": "nowhere#/x"}, "r": {"$ref": "nowhere#a"}, "s": {"$ref": "#/$defs/no"}}}
        for options in ({}, {"retrieve": self.retrieve}, {"retrieve": self.files.get}):
            registry = Registry({"https://example.com/a": schema, "https://example.com/other": {"$anchor": "n"}}, allow_missing=True, **options)
            resolver = registry.resolver("https://example.com/a")
            for ref in ("nowhere", "nowhere#", "nowhere#/x", "nowhere#a", "https://EXAMPLE.com/./nowhere#/y"):
                with self.assertRaises(patchsard.Unretrievable) as raised:
                    resolver.lookup(ref)
                self.assertEqual(raised.exception.uri, "https://example.com/nowhere")
                if not options:
                    self.assertEqual(raised.exception.ref, ref)
            self.assertEqual(resolver.lookup("other#n").contents, {"$anchor": "n"})

    def test_many_that_are_missing(self):
        """Every other document of a chain of 40 isn't there, with a function to retrieve and without."""
        documents = {f"https://example.com/{number}": {"allOf": [{"$ref": str(number + 1)}, {"$ref": f"gone{number}#/x"}]} for number in range(40)}
        del documents["https://example.com/20"]
        wanted = sorted(["20", *(f"gone{number}#/x" for number in range(40) if number != 20), "40"])
        for registry in (
            Registry(documents, allow_missing=True),
            Registry({"https://example.com/0": documents["https://example.com/0"]}, retrieve=documents.get, allow_missing=True),
            Registry(documents),
        ):
            found = registry.dangling()
            reached = wanted if registry._retrieve is None else sorted(["20", *(f"gone{number}#/x" for number in range(20))])
            self.assertEqual(sorted(it.contents["$ref"] for it in found), reached)
            self.assertEqual({type(it.error) for it in found}, {patchsard.Unretrievable})
            for it in found:
                self.assertEqual(it.error.ref, it.contents["$ref"])

    def test_what_is_missing_is_told_at_once(self):
        documents = {f"https://example.com/{number}": {"allOf": [{"$ref": f"gone{number}"}, {"$ref": f"g h{number}"}, {"$id": f"i j{number}"}]} for number in range(40)}
        files = {f"https://example.com/gone{number}": {"not": {"$ref": f"away{number}"}} for number in range(0, 40, 2)}
        asked, ask = [], patchsard._process.Process.ask

        def seen(process, line, timeout=None):
            asked.append(line)
            return ask(process, line, timeout)

        for retrieve, missing, most in ((None, 40, 2), (files.get, 40, 3)):
            with mock.patch.object(patchsard._process.Process, "ask", seen):
                registry = Registry(documents, retrieve=retrieve, allow_missing=True).crawl()
            told = [it.error for it in registry.dangling()]
            self.assertEqual([sum(isinstance(it, kind) for it in told) for kind in (patchsard.Unretrievable, patchsard.InvalidUri)], [missing, 40])
            self.assertLessEqual(sum(b'"call":"open"' in it[:40] for it in asked), most + 1)
            asked.clear()

    def test_faults_of_what_is_retrieved(self):
        a, b = {"$id": "https://example.com/a", "$ref": "b"}, {"not": {"$ref": "gone"}, "items": {"$id": "c d"}}
        registry = Registry({"https://example.com/a": a}, retrieve={"https://example.com/b": b}.get, allow_missing=True)
        self.assertEqual(registry.bundle("https://example.com/a"), {**a, "$defs": {"https://example.com/b": {**b, "$id": "https://example.com/b"}}})
        ((document, pointer, error),) = registry.dangling()
        self.assertIs(document, b)
        self.assertEqual((pointer, error.uri), ("/not", "https://example.com/gone"))

    def test_the_limit_where_some_are_missing(self):
        chain = Registry(retrieve=lambda uri: {"$ref": uri + "x", "not": {"$ref": "a b"}}, limit=3, allow_missing=True).with_resource("https://example.com/a", {"$ref": "b"})
        with self.assertRaises(patchsard.RetrievalLimit) as raised:
            chain.crawl()
        self.assertEqual(raised.exception.uri, "https://example.com/bxxx")

    def test_what_a_parent_has_is_not_missing(self):
        parent = Registry({"https://example.com/p": {"$anchor": "n", "$defs": {"i": {"$id": "inner"}}}})
        schema = {"allOf": [{"$ref": "p#n"}, {"$ref": "inner"}, {"$ref": "p#/no"}, {"$ref": "nowhere"}]}
        registry = Registry({"https://example.com/a": schema}, parent=parent, allow_missing=True)
        self.assertEqual([(it.pointer, type(it.error)) for it in registry.dangling()], [("/allOf/2", patchsard.PointerToNowhere), ("/allOf/3", patchsard.Unretrievable)])
        self.assertEqual(registry.resolver("https://example.com/a").lookup("p#n").contents["$anchor"], "n")

    def test_bundle_where_something_is_missing(self):
        a = {"$id": "https://example.com/a", "allOf": [{"$ref": "b"}, {"$ref": "nowhere#/x"}, {"$ref": "c d"}]}
        b = {"$id": "https://example.com/b", "not": {"$ref": "gone"}, "items": {"$id": "e f", "type": "null"}}
        registry = Registry({"https://example.com/a": a, "https://example.com/b": b}, allow_missing=True)
        self.assertEqual(registry.bundle("https://example.com/a"), {**a, "$defs": {"https://example.com/b": b}})
        # The root of an embedded document gets the identifier under which it is asked for.
        c, named = {"$id": "My Schema", "$ref": "b"}, {"$id": "Other Schema", "type": "null"}
        registry = Registry({"https://example.com/c": c, "https://example.com/b": named}, allow_missing=True)
        self.assertEqual(registry.bundle("https://example.com/c"), {**c, "$defs": {"https://example.com/b": {**named, "$id": "https://example.com/b"}}})
        self.assertEqual(registry.bundle("https://example.com/b"), named)
        self.assertIs(registry.resolver("https://example.com/c").lookup("b").contents, named)
        with self.assertRaises(patchsard.Unresolvable):
            Registry({"https://example.com/a": a, "https://example.com/b": b}).bundle("https://example.com/a")

    def test_meta_schemas_that_are_wanted(self):
        dialect = {"$schema": DRAFT202012.uri, "$id": "https://example.com/dialect"}
        self.files["https://example.com/dialect"] = dialect
        schema = {"$schema": "https://example.com/dialect"}
        registry = Registry(retrieve=self.retrieve).with_resource("https://example.com/a", schema)
        self.assertIs(registry.resolver("https://example.com/a").lookup("#").contents, schema)
        self.assertEqual(self.asked, ["https://example.com/dialect"])
        with self.assertRaises(patchsard.UnknownSpecification):
            Registry().with_resource("https://example.com/a", schema).crawl()

    def test_a_resource_is_retrieved(self):
        schema = {"definitions": {"a": {"$id": "#n"}}}
        registry = Registry(retrieve=lambda uri: Resource(schema, DRAFT7)).with_resource("https://example.com/a", {"$ref": "b#n"})
        self.assertIs(registry.resolver("https://example.com/a").lookup("b#n").contents, schema["definitions"]["a"])

    def test_many_are_retrieved_once_each(self):
        base = "https://example.com/files/"
        for number in range(60):
            refs = [{"$ref": str(it)} for it in (number + 1, number // 2) if it < 60]
            self.files[base + str(number)] = {"allOf": refs, "$defs": {"a": {"$id": f"inner{number}"}, "b": {"$ref": f"inner{max(number - 1, 0)}"}}}
        root = {"$ref": "0", "$defs": {"own": {"$id": "inner"}, "used": {"$ref": "inner"}}}
        registry = Registry(retrieve=self.retrieve).with_resources([(base + "root", root), (base + "other", {"$ref": "root"})])
        resolver = registry.resolver(base + "root")
        self.assertIs(resolver.lookup("59").contents, self.files[base + "59"])
        self.assertIs(resolver.lookup("inner31").contents, self.files[base + "31"]["$defs"]["a"])
        self.assertEqual(sorted(self.asked), sorted(base + str(number) for number in range(60)))

    def test_many_where_one_is_missing(self):
        base = "https://example.com/files/"
        for number in range(20):
            self.files[base + str(number)] = {"$ref": str(number + 1)}
        with self.assertRaises(patchsard.Unretrievable) as raised:
            Registry(retrieve=self.retrieve).with_resource(base + "root", {"$ref": "0"}).crawl()
        self.assertEqual(raised.exception.uri, base + "20")
        found = Registry(retrieve=self.retrieve, allow_missing=True).with_resource(base + "root", {"$ref": "0"}).resolver(base).lookup("19")
        self.assertIs(found.contents, self.files[base + "19"])

    def test_the_limit(self):
        chain = Registry(retrieve=lambda uri: {"$ref": uri + "x"}, limit=3).with_resource("https://example.com/a", {"$ref": "b"})
        with self.assertRaises(patchsard.RetrievalLimit) as raised:
            chain.crawl()
        error = raised.exception
        self.assertEqual((error.uri, error.document, error.pointer), ("https://example.com/bxxx", "https://example.com/bxx", ""))


class Identified(unittest.TestCase):
    """A document whose identifier is another URI than the one that it was given under: the identifier is the base (RFC 3986, 5.1.1 goes before 5.1.3)."""

    GIVEN, NAMED = "http://w/a/d1", "http://other/b/n"

    def setUp(self):
        self.document = {
            "$id": self.NAMED,
            "$anchor": "m",
            "properties": {"p": {"$ref": "rel"}},
            "$defs": {"x": {"$id": "sub/q", "$ref": "#/$defs/z", "$defs": {"z": {"$anchor": "k"}}}, "y": {"$dynamicAnchor": "n"}},
        }
        self.registry = Registry({self.GIVEN: self.document, "http://w/a/rel": {"const": "given"}, "http://other/b/rel": {"const": "named"}, "http://w/r": {"$ref": "a/d1"}})

    def test_from_where_it_was_given(self):
        for ref, base, pointer in (
            ("a/d1", self.NAMED, ()),
            ("a/d1#", self.NAMED, ()),
            ("HTTP://w/a/d1#/$defs", self.NAMED, ("$defs",)),
            ("a/d1#m", self.NAMED, ()),
            ("a/d1#n", self.NAMED, ("$defs", "y")),
            ("a/d1#/$defs/x", "http://other/b/sub/q", ("$defs", "x")),
            ("http://other/b/sub/q", "http://other/b/sub/q", ("$defs", "x")),
            ("http://other/b/sub/q#k", "http://other/b/sub/q", ("$defs", "x", "$defs", "z")),
            (self.NAMED, self.NAMED, ()),
        ):
            value = self.document
            for key in pointer:
                value = value[key]
            resolver = self.registry.resolver("http://w/r")
            for found in (resolver.lookup(ref), resolver.lookup(ref), resolver.lookup_all([ref])[0]):
                self.assertIs(found.contents, value, ref)
                self.assertEqual((found.resolver.base_uri, [uri for uri, _ in found.resolver.dynamic_scope()]), (base, ["http://w/r"]), ref)
        self.assertEqual(self.registry.resolver("http://w/r").lookup("a/d1#/$defs/x").resolver.lookup("#/$defs/z").contents, {"$anchor": "k"})
        for uri in (self.GIVEN, "HTTP://w/a/./d1"):
            self.assertEqual(Registry({uri: self.document, "http://other/b/rel": {"const": "named"}}).resolver(uri).lookup("rel").contents, {"const": "named"})

    def test_behind_another(self):
        above = Registry({"http://w/s": {"$ref": "a/d1#m"}}, parent=self.registry)
        self.assertEqual(above.resolver("http://w/s").lookup("a/d1").resolver.lookup("rel").contents, {"const": "named"})

    def test_dynamic_anchors(self):
        document = {"$id": "http://w/n18", "not": {"$dynamicAnchor": "n"}}
        found = Registry({"http://w/d1": document}).resolver("http://w/d1").lookup("n18#n")
        self.assertIs(found.contents, document["not"])
        self.assertEqual(found.resolver.base_uri, "http://w/n18")

    def test_others_are_left(self):
        """An identifier that another document has, a relative one that means the same URI, and one in an older draft that is an anchor."""
        documents = {"u:a": {"$id": "u:b", "const": 1}, "u:b": {"const": 2}, "http://w/c": {"$id": "c", "const": 3}, "u:d": {"$schema": DRAFT7.uri, "$id": "#d", "const": 4}}
        registry = Registry(documents)
        for uri in documents:
            found = registry.resolver("u:z").lookup(uri)
            self.assertEqual((found.contents, found.resolver.base_uri), (documents[uri], uri))
        self.assertEqual(registry._open().identified, {})


class Asked(unittest.TestCase):
    """Which calls the program gets."""

    def setUp(self):
        self.lines = []
        exchange = _process.Process._exchange

        def counted(process, line, until=None):
            self.lines.append(line)
            return exchange(process, line, until)

        patch = mock.patch.object(_process.Process, "_exchange", counted)
        patch.start()
        self.addCleanup(patch.stop)

    def calls(self, name):
        return [line for line in self.lines if f'"call":"{name}"'.encode() in line]

    def test_what_was_looked_up_is_not_asked_again(self):
        document = {"$id": BASE, "$defs": {"a": {"$anchor": "n"}, "b": {"$id": "b", "$defs": {"c": True}}}}
        resolver = Registry({BASE: document}).resolver(BASE)
        for ref, value in (("#/$defs/a", document["$defs"]["a"]), ("#n", document["$defs"]["a"]), ("b#/$defs/c", True), ("#", document)):
            for start in (resolver, resolver.lookup("#").resolver):
                before = len(self.calls("lookup"))
                for _ in range(3):
                    self.assertIs(start.lookup(ref).contents, value)
                self.assertLessEqual(len(self.calls("lookup")) - before, 1)
        before = len(self.calls("lookup"))
        found = resolver.lookup_all(["#/$defs/a", "#", "#n", "#/$defs/b", "#/$defs/a"])
        self.assertEqual([it.contents for it in found], [document["$defs"]["a"], document, document["$defs"]["a"], document["$defs"]["b"], document["$defs"]["a"]])
        self.assertEqual(resolver.lookup_all(["#/$defs/b", "#n", "#"]), [found[3], found[2], found[1]])
        self.assertEqual(len(self.calls("lookup")), before + 1)
        self.assertEqual(resolver.lookup("b").resolver.base_uri, "https://example.com/b")
        for _ in range(3):
            self.assertEqual(resolver.in_subresource({"$id": "x"}).base_uri, "https://example.com/x")
        self.assertEqual(len(self.calls("enter")), 1)
        for _ in range(2):
            with self.assertRaises(patchsard.PointerToNowhere):
                resolver.lookup("#/nowhere")

    def test_dynamic_anchors_by_their_scope(self):
        def list_of(name, kind):
            return {"$id": f"https://example.com/{name}", "$ref": "list", "$defs": {"n": {"$dynamicAnchor": "n", "type": kind}}}

        documents = {it["$id"]: it for it in (list_of("texts", "string"), list_of("numbers", "number"))}
        documents["https://example.com/list"] = {"items": {"$dynamicRef": "#n"}, "$defs": {"n": {"$dynamicAnchor": "n"}}}
        registry = Registry(documents)
        for _ in range(3):
            for name, kind in (("texts", "string"), ("numbers", "number"), ("texts", "string")):
                inside = registry.resolver(f"https://example.com/{name}").lookup("list").resolver
                self.assertEqual(inside.lookup("#n").contents["type"], kind)
            self.assertNotIn("type", registry.resolver("https://example.com/list").lookup("#n").contents)

    def test_deep_scopes(self):
        """A resolver at a depth answers as the program does that is given all of its scope; a pointer is asked with the innermost of it alone."""
        documents = {f"https://example.com/{it}": {"$defs": {"n": {"$dynamicAnchor": "n", "const": it}, "p": {"$anchor": "p"}, "i": {"$id": f"i{it}"}}} for it in range(40)}
        registry = Registry(documents)
        resolver = registry.resolver("https://example.com/0")
        opened = registry._open()
        for it in (*range(1, 40), 39, 38, 0):
            for ref in (str(it), f"{it}#", f"{it}#/$defs/n", f"{it}#p", f"{it}#n", f"i{it}", "#/$defs/i", "#n", "", "#"):
                found = resolver.lookup(ref)
                answer = opened.ask(ref, "lookup", resolver._members(opened, resolver._scope) + f',"reference":"{ref}"')
                self.assertIs(found.contents, opened.value(answer))
                self.assertEqual((found.resolver.base_uri, [uri for uri, _ in found.resolver.dynamic_scope()]), (answer["base"], answer["scope"]))
            (found,) = resolver.lookup_all([f"{it}#/$defs/n"])
            self.assertEqual(found, resolver.lookup(f"{it}#/$defs/n"))
            resolver = resolver.lookup(str(it)).resolver
        self.assertGreater(len(resolver._scope), 39)
        before = len(self.lines)
        resolver.lookup("17#/$defs")
        self.assertLess(len(self.lines[before]), 200)

    def test_dynamic_anchors_in_deep_scopes(self):
        """A deep scope is asked with by the number under which the program keeps its end: each answer is that to the whole scope, and lines stay short."""
        uris = [f"https://example.com/{it}" for it in range(120)]
        documents = {uri: {"$defs": {"n": {"$dynamicAnchor": "n", "const": it}}} for it, uri in enumerate(uris) if it % 7 == 3}
        documents.update({uri: {"$defs": {"p": {"$anchor": "p"}}} for uri in uris if uri not in documents})
        with Registry(documents) as registry:
            opened = registry._open()
            resolver = registry.resolver(uris[3])
            for it in range(4, 120):
                resolver = resolver.lookup(uris[it]).resolver
                inside = resolver.lookup(f"{uris[3]}#n")
                whole = f',"base":"{resolver.base_uri}","scope":{patchsard._core._encode(list(resolver._scope))},"reference":"{uris[3]}#n"'
                answer = opened.ask("", "lookup", whole)
                self.assertIs(inside.contents, opened.value(answer))
                self.assertEqual((inside.resolver.base_uri, list(inside.resolver._scope)), (answer["base"], answer["scope"]))
            self.assertGreater(len(resolver._scope), 110)
            self.assertLess(len(self.calls("scope")), 10)
            before = len(self.lines)
            self.assertEqual(resolver.lookup(f"{uris[10]}#n").contents["const"], 3)
            self.assertEqual(resolver.lookup_all([f"{uris[17]}#n", f"{uris[4]}#p"])[0].contents["const"], 3)
            self.assertEqual(resolver.lookup(f"{uris[10]}#n").contents["const"], 3)
            self.assertLess(sum(map(len, self.lines[before:])), 4000)
            # Another way to the same scope has the same number, and a copy its own program's.
            again = registry.resolver(uris[3])
            for it in range(4, 120):
                again = again.lookup(uris[it]).resolver
            count = len(self.calls("scope"))
            self.assertEqual(again, resolver)
            self.assertEqual(again.lookup(f"{uris[24]}#n").contents["const"], 3)
            self.assertLessEqual(len(self.calls("scope")), count + 1)
        self.assertEqual(resolver.lookup(f"{uris[10]}#n").contents["const"], 3)
        with mock.patch.object(patchsard._core, "_MOST_SCOPES", 0):
            registry.close()
            self.assertEqual(resolver.lookup(f"{uris[31]}#n").contents["const"], 3)

    def test_recursive_references_in_deep_scopes(self):
        documents = {f"u:{it}": {"$schema": DRAFT201909.uri, "$recursiveAnchor": True, "const": it} for it in range(60)}
        registry = Registry(documents)
        resolver = registry.resolver("u:0")
        for it in range(1, 60):
            resolver = resolver.lookup(f"u:{it}").resolver
        found = resolver.lookup_recursive_ref()
        self.assertEqual(found.contents["const"], 0)
        self.assertEqual([uri for uri, _ in found.resolver.dynamic_scope()], [f"u:{it}" for it in range(59, -1, -1)])

    def test_a_missing_document_costs_the_others_nothing(self):
        """Of a registry that can't be opened as a whole the documents are sent as often as there are ways to open it, and not for each validator."""
        documents = {f"https://example.com/{it}": {"$defs": {"t": {"const": "x" * 200}}} for it in range(50)}
        documents["https://example.com/0"]["not"] = {"$ref": "gone.json"}
        registry = Registry(documents)
        for _ in range(10):
            resolver = registry.resolver_with_root({"$ref": "https://example.com/7#/$defs/t"})
            self.assertEqual(resolver.lookup("https://example.com/7#/$defs/t").contents, documents["https://example.com/7"]["$defs"]["t"])
        self.assertLess(sum(len(line) for line in self.lines if b"x" * 200 in line), 5 * 50 * 300)

    def test_what_stands_beside_is_asked_with_the_others(self):
        """Look-ups of what stands side by side, one after another, take few lines, and each has its own answer."""
        odd = ["a/b", "~", "%", "é ", "", "x-1", "#", "9"]
        defs = {**{f"p{it}": {"$anchor": f"n{it}"} for it in range(300)}, **{key: {"$anchor": f"o{it}", "const": key} for it, key in enumerate(odd)}, "inner": {"$id": "inner", "$anchor": "n7"}}
        document = {"$id": BASE, "$defs": defs, "allOf": [{"$dynamicAnchor": f"d{it}", "$anchor": f"a{it}"} for it in range(40)]}
        with Registry({BASE: document, "https://example.com/2": {"$ref": "order#/$defs/p0"}}) as registry:
            fragments = ["#/$defs/" + urllib.parse.quote(key.replace("~", "~0").replace("/", "~1"), safe="~") for key in defs]
            pointers = [(it, defs[key]) for it, key in zip(fragments, defs)]
            anchors = [(f"#n{it}", defs[f"p{it}"]) for it in range(300)] + [(f"#o{it}", defs[key]) for it, key in enumerate(odd)]
            items = [(f"#/allOf/{it}", value) for it, value in enumerate(document["allOf"])] + [(f"#a{it}", value) for it, value in enumerate(document["allOf"])]
            for start in (registry.resolver(BASE), registry.resolver("https://example.com/2").lookup("order").resolver, registry.resolver("https://example.com/2")):
                prefix = "" if start.base_uri == BASE else "order"
                for pairs, most in ((pointers, 20), (list(reversed(pointers[:100])), 0), (anchors, 20), (items, 20), ([(f"#d{it}", value) for it, value in enumerate(document["allOf"])], 80)):
                    before = len(self.calls("lookup"))
                    for ref, value in pairs:
                        found = start.lookup(prefix + ref)
                        self.assertIs(found.contents, value, ref)
                        (asked,) = patchsard.Resolver(registry, start.base_uri, start._scope).lookup_all([prefix + ref])
                        self.assertEqual(found, asked)
                    self.assertLessEqual(len(self.calls("lookup")) - before, most)
            opened = registry._open()
            for (base, ref, is_first), (value, found_base, in_front, draft) in [it for it in opened.kept.items() if isinstance(it[0][2], bool)]:
                scope = [] if is_first else ["https://example.com/2"]
                answer = opened.ask(ref, "lookup", f',"base":"{base}","scope":{patchsard._core._encode(scope)},"reference":{patchsard._core._encode(ref)}')
                self.assertIs(opened.value(answer), value)
                self.assertEqual((answer["base"], answer["draft"], answer["scope"]), (found_base, draft, [*in_front, *scope]))
            self.assertGreater(len(opened.kept), 1000)

    def test_what_is_kept_has_an_end(self):
        resolver = Registry({"u:a": {"$defs": {str(it): {"const": it} for it in range(200)}}}).resolver("u:a")
        with mock.patch.object(patchsard._core, "_MOST_KEPT", 50):
            for it in (*range(200), *range(200)):
                self.assertEqual(resolver.lookup(f"#/$defs/{it}").contents, {"const": it})
                self.assertLessEqual(len(resolver._registry._open().kept), 50)


class MetaSchemas(unittest.TestCase):
    """The drafts' meta-schemas are imported where they are asked."""

    def done(self, code):
        done = subprocess.run([sys.executable, "-B", "-c", code], cwd=TOP, stdin=subprocess.DEVNULL, stdout=subprocess.PIPE, stderr=subprocess.PIPE, check=False)
        self.assertEqual((done.returncode, done.stderr), (0, b""))

    def test_they_are_not_imported_for_others(self):
        self.done(
            "import sys, patchsard\n"
            "schema = {'$schema': 'http://json-schema.org/draft-07/schema#', '$ref': '#/definitions/a', 'definitions': {'a': True}}\n"
            "registry = patchsard.Registry({'u:a': schema})\n"
            "assert registry.resolver('u:a').lookup('#/definitions/a').contents is True\n"
            "assert registry.dangling() == []\n"
            "assert 'jsonschema_specifications' not in sys.modules\n"
        )

    @unittest.skipUnless(importlib.util.find_spec("jsonschema_specifications"), "jsonschema-specifications isn't installed")
    def test_they_are_there_where_they_are_wanted(self):
        begin = "import sys, patchsard\nuri = 'https://json-schema.org/draft/2020-12/schema'\n"
        for code in (
            "found = patchsard.Registry({'u:a': True}).resolver('u:a').lookup(uri + '#/$id')\nassert found.contents == uri\n",
            "found = patchsard.Registry({'u:a': {'$ref': uri}}).resolver('u:a').lookup(uri)\nassert found.contents['$id'] == uri\n",
            "found = patchsard.Registry({'u:a': True}).resolver('u:a').lookup_all(['#', uri])\nassert found[1].contents['$id'] == uri\n",
            "parent = patchsard.Registry({'u:p': True}).crawl()\nregistry = patchsard.Registry({'u:a': {'not': {'$ref': uri}}}, parent=parent, retrieve={}.__getitem__)\n"
            "assert registry.resolver('u:a').lookup(uri).contents['$id'] == uri and registry.dangling() == []\n"
            "assert registry.resolver('u:a').lookup('u:p').contents is True\n",
            "registry = patchsard.Registry({'u:a': True}).crawl().with_resource('u:b', {'$ref': uri}).crawl()\nassert registry[uri].contents['$id'] == uri and registry['u:a'].contents is True\n",
            "schema = {'allOf': [{'$ref': 'gone'}, {'$ref': 'https://json-schema.org/draft/2020-12/meta/core'}, {'$ref': uri}]}\n"
            "assert [it.pointer for it in patchsard.Registry({'u:a': schema}).dangling()] == ['/allOf/0']\n",
            "files = {**{f'u:{n}': {'$ref': f'u:{n + 1}'} for n in range(9)}, 'u:9': {'$ref': uri}}\nregistry = patchsard.Registry({'u:a': {'$ref': 'u:0'}}, retrieve=files.__getitem__)\n"
            "assert registry.dangling() == [] and registry[uri].contents['$id'] == uri\n",
        ):
            self.done(begin + code + "assert 'jsonschema_specifications' in sys.modules\n")


class Faults(unittest.TestCase):
    """Where the fault is of documents that can't be opened."""

    SOUND = {f"https://example.com/{number}": {"$defs": {"a": {"type": "null"}}} for number in range(20)}

    def refused(self, schema, **options):
        with self.assertRaises(patchsard.PatchsardError) as raised:
            Registry({**self.SOUND, "https://example.com/faulty": schema}, **options).crawl()
        self.assertEqual(raised.exception.document, "https://example.com/faulty")
        return raised.exception

    def test_where(self):
        for schema, kind, pointer in (
            ({"properties": {"q": {"$ref": "my file.json"}}}, patchsard.InvalidUri, "/properties/q"),
            ({"not": {"$id": "a b"}}, patchsard.InvalidUri, "/not"),
            ({"items": {"$ref": "nowhere"}}, patchsard.Unretrievable, "/items"),
            ({"$schema": "https://example.com/meta"}, patchsard.UnknownSpecification, ""),
        ):
            error = self.refused(schema)
            self.assertEqual((type(error), error.pointer), (kind, pointer))
            self.assertIn("https://example.com/faulty", str(error))

    def test_where_in_a_retrieved_document(self):
        retrieved = {"https://example.com/r": {"not": {"$ref": "a b"}}, "https://example.com/s": {"items": {"$ref": "nowhere"}}}
        for uri, kind, pointer in (("https://example.com/r", patchsard.InvalidUri, "/not"), ("https://example.com/s", patchsard.Unretrievable, "/items")):
            with self.assertRaises(kind) as raised:
                Registry({**self.SOUND, "https://example.com/q": {"$ref": uri}}, retrieve=retrieved.get).crawl()
            self.assertEqual((raised.exception.document, raised.exception.pointer), (uri, pointer))

    def test_what_can_not_be_sent(self):
        deep = True
        for _ in range(125):
            deep = {"not": deep}
        for schema, reason in ((deep, "depth"), ({"const": 10**400}, "number"), ({"pattern": "[\ud800-\udbff]"}, "surrogate")):
            error = self.refused(schema)
            self.assertEqual((type(error), error.name, error.reason), (patchsard.CallRefused, "NotJson", reason))

    def test_the_document_of_each_number(self):
        documents = {"http://a/x": {"$defs": {"k": {"$id": "http://a/k"}}}, "http://a/y": {"$defs": {"q": {"$id": "http://a/x"}}}, "http://a/z": {"const": 1}, "HTTP://a/z": {"const": 2}}
        resolver = Registry(documents).resolver()
        self.assertIs(resolver.lookup("http://a/k").contents, documents["http://a/x"]["$defs"]["k"])
        self.assertIs(resolver.lookup("http://a/z").contents, documents["HTTP://a/z"])

    def test_tolerance(self):
        documents = {"https://example.com/a": {"$id": "a b", "properties": {"p": {"$ref": "c d"}, "q": {"$ref": "#/$defs/e"}}, "$defs": {"e": {"$id": "f g", "const": 1}}}}
        resolver = Registry(documents, allow_missing=True).resolver("https://example.com/a")
        self.assertIs(resolver.lookup("#/$defs/e").contents, documents["https://example.com/a"]["$defs"]["e"])
        with self.assertRaises(patchsard.InvalidUri):
            resolver.lookup("c d")
        self.assertEqual(resolver.in_subresource({"$id": "f g"}), resolver)

    def test_yaml(self):
        registry = Registry().with_yaml(BASE, "properties:\n  item: {$ref: 'other#/a'}\n").with_yaml("https://example.com/other", "a: {type: string}")
        found = registry.resolver(BASE).lookup("other#/a")
        self.assertEqual(found.contents, {"type": "string"})
        self.assertIs(found.contents, registry.contents("https://example.com/other")["a"])
        self.assertEqual(patchsard.from_yaml("200: [~, 0o17, 'é', no]"), {"200": [None, 15, "é", "no"]})
        retrieved = Registry({BASE: {"$ref": "other"}}, retrieve=lambda uri: patchsard.from_yaml("$anchor: x"))
        self.assertEqual(retrieved.resolver(BASE).lookup("other#x").contents, {"$anchor": "x"})

    def test_no_yaml(self):
        with self.assertRaises(patchsard.NotYaml) as caught:
            Registry().with_yaml(BASE, "é: 1\nb:\n  ü: {c: 1, c: 2}\n")
        error = caught.exception
        self.assertEqual((error.reason, error.document, error.line, error.column), ("same-key", BASE, 3, 13))
        self.assertIn("; ", str(error))
        self.assertIsInstance(error, patchsard.PatchsardError)
        with self.assertRaises(patchsard.NotYaml) as caught:
            patchsard.from_yaml("a: \ud800")
        self.assertEqual(caught.exception.reason, "character")
        with self.assertRaises(TypeError):
            patchsard.from_yaml(b"a: 1")


if __name__ == "__main__":
    unittest.main()
