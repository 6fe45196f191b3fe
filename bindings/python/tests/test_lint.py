"""What lint finds in files, and what it raises."""
import concurrent.futures
import copy
import dataclasses
import json
import os
import pathlib
import pickle
import subprocess
import sys
import tempfile
import time
import unittest
from unittest import mock

import patchsard
from patchsard import Finding, Findings, Place, _process, lint

BASE = "https://example.com/schemas"
FOLDER = os.path.join(os.path.dirname(os.path.dirname(os.path.dirname(os.path.dirname(os.path.abspath(__file__))))), "examples", "folder")


class Files(unittest.TestCase):
    def setUp(self):
        room = tempfile.TemporaryDirectory(prefix="lint-")
        self.addCleanup(room.cleanup)
        self.room = room.name

    def write(self, path, value):
        path = os.path.join(self.room, path)
        os.makedirs(os.path.dirname(path), exist_ok=True)
        with open(path, "w", encoding="utf-8") as file:
            file.write(value if isinstance(value, str) else json.dumps(value))
        return path

    def program(self, text):
        """A program in place of patchsard."""
        path = self.write("program", f"#!/bin/sh\n{text}\n")
        os.chmod(path, 0o755)
        return mock.patch.dict(os.environ, PATCHSARD=path)


class Found(Files):
    def test_as_the_program_prints_it(self):
        program = _process.find_program()
        done = subprocess.run([program, "lint", "--format", "json", "--base", BASE, "folder"], cwd=os.path.dirname(FOLDER), stdout=subprocess.PIPE, check=False)
        expected = [json.loads(line) for line in done.stdout.decode("utf-8").splitlines()]
        found = lint("folder", base=BASE, directory=os.path.dirname(FOLDER))

        def members(value):
            return {key: members(it) if isinstance(it, dict) else it for key, it in value.items() if it is not None}

        self.assertEqual([members(dataclasses.asdict(it)) for it in found], expected)
        self.assertGreater(len(found), 15)
        self.assertEqual(found.status, done.returncode)
        self.assertRegex(found.summary, r"^\d+ files, \d+ places, \d+ references, \d+ errors, ")
        first = next(it for it in found if it.code == "duplicate-anchor")
        self.assertEqual(first.first, Place("folder/anchors.json", "/$defs/first", 3, 26))
        self.assertEqual(str(first), "folder/anchors.json:4:27: error[duplicate-anchor]: Two schemas of 'https://example.com/schemas/anchors.json' have the anchor 'node'")
        self.assertIn("--draft", next(it for it in found if it.code == "guessed-draft").help)

    def test_nothing_is_wrong(self):
        self.write("a.json", {"$ref": "#/$defs/a", "$defs": {"a": {}}})
        found = lint(self.room)
        self.assertEqual((list(found), found.status), ([], 0))
        self.assertIn("1 file, 2 places, 1 reference, 0 errors", found.summary)

    def test_no_file(self):
        found = lint(self.room)
        self.assertEqual((list(found), found.status), ([], 1))
        self.assertIn("no file was found", found.summary)

    def test_paths(self):
        wrong = {"$ref": "#/no"}
        names = ["a b.json", "-a.json", "é\u2028.json", "--yaml", "-"]
        for name in names:
            self.write(name if name.endswith(".json") else f"{name}/in.json", wrong)
        for name in names:
            for given in (name, os.fsencode(name), pathlib.Path(name), [name], iter([name])):
                found = lint(given, directory=self.room)
                self.assertEqual([(it.code, it.pointer) for it in found], [("pointer-to-nowhere", "")], name)
                self.assertEqual(os.path.normpath(found[0].file), name if name.endswith(".json") else f"{name}/in.json")
        self.assertEqual(len(lint(names, directory=self.room)), len(names))

    def test_options(self):
        wanting = self.write("own/a.json", {"$ref": "https://example.com/b.json#/no"})
        there = self.write("other/b.json", {"$id": "https://example.com/b.json"})
        other = os.path.dirname(there)

        def codes(*paths, **options):
            return [it.code for it in lint(paths, **options)]

        self.assertEqual(codes(wanting), ["missing-document"])
        for given in (there, [there], pathlib.Path(other)):
            self.assertEqual(codes(wanting, with_=given), ["pointer-to-nowhere"])
        for given in ({"https://example.com/": other}, {"https://example.com/": pathlib.Path(other)}, f"https://example.com/={other}", [f"https://example.com/={other}"]):
            self.assertEqual(codes(wanting, map=given), ["pointer-to-nowhere"])
        self.assertEqual(codes(self.room), ["pointer-to-nowhere"])
        self.assertEqual(codes(self.room, exclude=there), ["missing-document"])
        self.assertIn("leaves out nothing", lint(wanting, exclude=f"{self.room}/no").summary)
        for given in ({"missing-document": "warning"}, "missing-document=warning", ["missing-document=off", "missing-document=warning"]):
            found = lint(wanting, rule=given)
            self.assertEqual(([it.level for it in found], found.status), (["warning"], 0))
            self.assertEqual(codes(wanting, rule=given, level="error"), [])
        self.assertEqual(codes(wanting, rule={"missing-document": "off"}), [])
        old = self.write("own/old.json", {"id": "https://example.com/b.json", "definitions": {"a": {"id": "c.json"}}, "not": {"$ref": "c.json"}})
        for draft, expected in (("4", []), (patchsard.jsonschema.DRAFT4, []), ("2019-09", ["missing-document"]), (None, ["missing-document"])):
            self.assertEqual(codes(old, draft=draft, level="error"), expected)
        self.write("yaml/a.yaml", "not: {$ref: '#/no'}\n")
        self.assertEqual(codes(f"{self.room}/yaml"), [])
        self.assertEqual(codes(f"{self.room}/yaml", yaml=True), ["pointer-to-nowhere"])
        meta = self.write("meta/a.json", {"$ref": "https://json-schema.org/draft/2020-12/schema#/x"})
        self.assertEqual((codes(meta), codes(meta, verbose=True)), ([], ["unchecked-reference"]))

    def test_they_are_values(self):
        found = lint("folder", base=BASE, directory=os.path.dirname(FOLDER))
        self.assertEqual(len(set(found)), len(found))
        for other in (pickle.loads(pickle.dumps(found)), copy.copy(found), copy.deepcopy(found)):
            self.assertIs(type(other), Findings)
            self.assertEqual((other, other.status, other.summary), (found, found.status, found.summary))
            self.assertEqual([hash(it) for it in other], [hash(it) for it in found])
        with self.assertRaises(dataclasses.FrozenInstanceError):
            found[0].line = 1
        self.assertNotEqual(found[0], dataclasses.replace(found[0], line=found[0].line + 1))
        self.assertEqual((Findings(), Findings().status, Findings().summary), ([], 0, ""))

    def test_members_that_are_new(self):
        finding = '{"file":"a","line":1,"column":2,"pointer":"","level":"note","code":"new","message":"m","first":{"file":"b","pointer":"/c","new":[]},"new":{}}'
        with self.program(f"echo '{finding}'; echo '1 file, 0 references in 0.00 s' >&2"):
            self.assertEqual(lint("a"), [Finding("a", 1, 2, "", "note", "new", "m", first=Place("b", "/c"))])

    def test_in_processes_of_a_pool(self):
        folders = []
        for number in range(6):
            self.write(f"{number}/a.json", {"$ref": f"#/{number}"})
            folders.append(f"{self.room}/{number}")
        with concurrent.futures.ProcessPoolExecutor(2) as pool:
            found = list(pool.map(lint, folders))
        self.assertEqual(found, [lint(it) for it in folders])
        self.assertEqual([it[0].reference for it in found], [f"#/{number}" for number in range(6)])


class Refused(Files):
    def test_what_cannot_be_read(self):
        wrong = self.write("a.json", {"$ref": "#/no"})
        with self.assertRaisesRegex(patchsard.NotLinted, "nowhere: No such file or directory") as raised:
            lint([wrong, f"{self.room}/nowhere"])
        for error in (raised.exception, pickle.loads(pickle.dumps(raised.exception))):
            self.assertIsInstance(error, patchsard.PatchsardError)
            self.assertEqual([it.code for it in error.findings], ["pointer-to-nowhere"])
            self.assertEqual(str(error), str(raised.exception))

    def test_wrong_options(self):
        path = self.write("a.json", {})
        cases = [
            ([], {}, "PATH"), (path, {"draft": "5"}, "--draft"), (path, {"level": "all"}, "--level"), (path, {"base": "a b"}, "--base a b: "), (path, {"rule": "x=y"}, "--rule x=y: "),
            (path, {"rule": {"x": "off"}}, "there is no rule 'x'"), (path, {"map": {"https://example.com/": f"{self.room}/no"}}, "--map https://example.com/="), (path, {"directory": f"{self.room}/no"}, "no"),
        ]
        for paths, options, expected in cases:
            with self.assertRaisesRegex(patchsard.NotLinted, expected):
                lint(paths, **options)
        self.assertEqual(patchsard.NotLinted("it").findings, ())

    def test_too_many_paths(self):
        with self.assertRaisesRegex(patchsard.NotLinted, "too many"):
            lint([self.room + "/" + "x" * 200] * 40000)

    def test_a_program_that_is_not_there(self):
        with mock.patch.dict(os.environ, PATCHSARD="/nowhere/patchsard"), self.assertRaises(patchsard.ProgramNotFound):
            lint(self.room)
        program = self.write("no-program", "\x7fELF")
        os.chmod(program, 0o755)
        with mock.patch.dict(os.environ, PATCHSARD=program), self.assertRaisesRegex(patchsard.ProgramNotFound, "can't be started"):
            lint(self.room)

    def test_a_program_that_is_another(self):
        # What ends well, or with a status that means findings, and says nothing, has found nothing out.
        for text in ("exit 0", "exit 1", "echo x; echo '1 file, 1 reference in 0.00 s' >&2", "echo '{}'", "echo 1", "exit 3", "kill -9 $$"):
            with self.program(text), self.assertRaises(patchsard.ProcessEnded):
                lint(self.room)

    def test_time_that_runs_out(self):
        with self.program("exec sleep 600"):
            begin = time.monotonic()
            with self.assertRaises(patchsard.CallTimedOut) as raised:
                lint(self.room, timeout=0.3)
        self.assertIsInstance(raised.exception, TimeoutError)
        self.assertTrue(0.25 < time.monotonic() - begin < 300)

    def test_standard_input_is_not_read(self):
        self.write("a.json", {})
        code = f"import patchsard; print(patchsard.lint({self.room!r}).status); print(input())"
        done = subprocess.run([sys.executable, "-B", "-c", code], input=b"left\n", stdout=subprocess.PIPE, timeout=300, check=False)
        self.assertEqual(done.stdout, b"0\nleft\n")


if __name__ == "__main__":
    unittest.main()
