"""One process for all registries: threads, its end, forks, and where the program is."""
import concurrent.futures
import copy
import gc
import importlib.util
import os
import pickle
import re
import shutil
import signal
import subprocess
import sys
import tempfile
import threading
import time
import unittest
from unittest import mock

import patchsard
from patchsard import Registry, _command, _process
from patchsard.exceptions import from_answer

# So many seconds no step of a test takes, also where the machine is slow and does much else.
LONG = 300
SCHEMA = {"$defs": {str(number): {"const": number} for number in range(50)}}


def registry():
    return Registry().with_resource("https://example.com/a", SCHEMA)


def looked_up(reference):
    """What a job of a pool does: a number is a document that is no JSON for the program."""
    if isinstance(reference, int):
        return Registry({"u:a": {"const": reference}}).crawl()
    return registry().resolver("https://example.com/a").lookup(reference).contents


class OneProcess(unittest.TestCase):
    def test_it_is_shared(self):
        registry().crawl()
        pid = _process.shared().pid
        registry().crawl()
        self.assertEqual(_process.shared().pid, pid)

    def test_where_an_error_is(self):
        opened = _process.shared().ask(b'{"call":"open","documents":[]}\n')["result"]["registry"]
        follow = '{"call":"follow","registry":%d,"base":"a","steps":[null,1]}\n' % opened
        cases = [
            ("{\n", patchsard.CallRefused, None, None, 1),
            ('{"call":"lookup","steps":[]}\n', patchsard.CallRefused, "steps", None, None),
            (follow, patchsard.CallRefused, "steps", 1, None),
            ('{"call":"open","documents":[["a",{}],["b c",{}]]}\n', patchsard.InvalidUri, "documents", 1, None),
        ]
        for line, kind, field, index, offset in cases:
            error = from_answer(_process.shared().ask(line.encode("utf-8"))["error"], "")
            self.assertIs(type(error), kind)
            self.assertEqual((error.field, error.index, getattr(error, "offset", None)), (field, index, offset))
        _process.shared().close_later(opened)

    def test_threads(self):
        resolver = registry().resolver("https://example.com/a")
        wrong = []

        def ask(start):
            for number in range(start, start + 40):
                key = str(number % 50)
                own = registry().resolver("https://example.com/a") if number % 10 == 0 else resolver
                if own.lookup("#/$defs/" + key).contents is not SCHEMA["$defs"][key]:
                    wrong.append(key)

        threads = [threading.Thread(target=ask, args=(start,)) for start in range(8)]
        for thread in threads:
            thread.start()
        for thread in threads:
            thread.join()
        self.assertEqual(wrong, [])

    def test_a_killed_process(self):
        held = registry()
        resolver = held.resolver("https://example.com/a")
        resolver.lookup("#/$defs/7")
        pid = _process.shared().pid
        os.kill(pid, signal.SIGKILL)
        # Asking changes nothing, so it is done once more, by another process.
        self.assertIs(resolver.lookup("#/$defs/7").contents, SCHEMA["$defs"]["7"])
        self.assertIs(registry().resolver("https://example.com/a").lookup("#/$defs/7").contents, SCHEMA["$defs"]["7"])
        self.assertNotEqual(_process.shared().pid, pid)
        self.assertIs(resolver.lookup("#/$defs/8").contents, SCHEMA["$defs"]["8"])

    def test_a_process_that_was_killed_unseen(self):
        registry().crawl()
        os.kill(_process.shared().pid, signal.SIGKILL)
        self.assertIs(registry().resolver("https://example.com/a").lookup("#/$defs/7").contents, SCHEMA["$defs"]["7"])

    def test_an_interrupted_call(self):
        resolver = registry().resolver("https://example.com/a")
        resolver.lookup("#/$defs/1")
        with mock.patch.object(_process.os, "read", side_effect=KeyboardInterrupt):
            with self.assertRaises(KeyboardInterrupt):
                resolver.lookup("#/$defs/2")
        self.assertIs(resolver.lookup("#/$defs/3").contents, SCHEMA["$defs"]["3"])

    def test_a_call_that_is_interrupted_twice(self):
        resolver = registry().resolver("https://example.com/a")
        resolver.lookup("#/$defs/1")
        with mock.patch.object(_process.os, "read", side_effect=KeyboardInterrupt), mock.patch.object(_process.Process, "_end", side_effect=KeyboardInterrupt):
            with self.assertRaises(KeyboardInterrupt):
                resolver.lookup("#/$defs/2")
        self.assertIs(resolver.lookup("#/$defs/3").contents, SCHEMA["$defs"]["3"])
        self.assertIs(resolver.lookup("#/$defs/4").contents, SCHEMA["$defs"]["4"])

    def test_an_answer_to_another_call(self):
        resolver = registry().resolver("https://example.com/a")
        resolver.lookup("#/$defs/1")
        process, exchange = _process.shared(), _process.Process._exchange
        stale = exchange(process, b'{"id":0,"call":"hello"}\n')

        def late(self, line, until=None):
            return exchange(self, line, until) if self is not process else stale

        with mock.patch.object(_process.Process, "_exchange", late):
            self.assertIs(resolver.lookup("#/$defs/2").contents, SCHEMA["$defs"]["2"])
        self.assertTrue(process.ended)
        self.assertIs(resolver.lookup("#/$defs/3").contents, SCHEMA["$defs"]["3"])

    def test_what_is_closed_and_asked_between_a_call_and_its_answer(self):
        """The garbage collector may close a registry, and a signal handler ask, right after an answer was read: it is still the answer to its call."""
        resolver = registry().resolver("https://example.com/a")
        resolver.lookup("#/$defs/1")
        process, exchange, between = _process.shared(), _process.Process._exchange, []

        def amid(self, line, until=None):
            answer = exchange(self, line, until)
            if between:
                between.pop()()
            return answer

        other = registry().crawl()
        with mock.patch.object(_process.Process, "_exchange", amid):
            for key, does in (("11", other.close), ("12", lambda: resolver.lookup("#/$defs/9")), ("45", lambda: registry().crawl())):
                between.append(does)
                self.assertIs(resolver.lookup("#/$defs/" + key).contents, SCHEMA["$defs"][key])
                self.assertEqual(between, [])
        self.assertFalse(process.ended)

    def test_an_answer_without_the_number_of_its_call(self):
        asked = []
        exchange = _process.Process._exchange

        def seen(self, line, until=None):
            answer = exchange(self, line, until)
            asked.append((line, answer))
            return answer

        with mock.patch.object(_process.Process, "_exchange", seen):
            broken = b'{"call":"lookup","base":\n'
            self.assertEqual(_process.shared().ask(broken)["error"]["name"], "NotJson")
            resolver = registry().resolver("https://example.com/a")
            resolver.lookup("#/$defs/1")
        (without,) = [answer for line, answer in asked if line.endswith(broken[1:])]
        self.assertNotIn(b'"id"', without)
        others = [answer for line, answer in asked if answer != without and b'"call":"close"' not in line]
        self.assertGreater(len(others), 1)
        for answer in others:
            self.assertRegex(answer.decode(), r'^{"id":\d+,"result":')

    def test_a_process_that_is_killed_at_each_call(self):
        asked = []

        def killed(self, line, until=None):
            asked.append(line)
            self._popen.kill()
            self._end()
            raise patchsard.ProcessEnded("killed")

        resolver = registry().resolver("https://example.com/a")
        resolver.lookup("#/$defs/1")
        with mock.patch.object(_process.Process, "_exchange", killed), self.assertRaises(patchsard.ProcessEnded):
            resolver.lookup("#/$defs/2")
        self.assertLess(len(asked), 5)
        self.assertIs(resolver.lookup("#/$defs/3").contents, SCHEMA["$defs"]["3"])

    def test_every_call_that_only_reads_is_asked_once_more(self):
        held = Registry({"u:a": {"$id": "u:a", "$defs": {"b": {"$ref": "#/no"}, "c": {"$id": "u:c"}}}})
        resolver = held.resolver("u:a")
        for asks in (
            lambda: resolver.lookup("#/$defs/b"),
            lambda: resolver.lookup_all(["#", "#/$defs/b"]),
            lambda: resolver.in_subresource({"$id": "u:c"}),
            lambda: resolver.lookup_recursive_ref(),
            lambda: held.dangling(),
            lambda: held.bundle("u:a"),
            lambda: held["u:c"],
        ):
            asks()
            os.kill(_process.shared().pid, signal.SIGKILL)
            asks()

    def hurried(self, held):
        """As though a registry had been made with the limit of two seconds: it was opened with one that no call that is answered comes near, however busy the machine is."""
        return mock.patch.object(held._open(), "timeout", 2)

    def test_a_call_that_takes_too_long(self):
        held = Registry({"u:a": SCHEMA}, timeout=LONG)
        resolver = held.resolver("u:a")
        resolver.lookup("#/$defs/1")
        for asks in (lambda: resolver.lookup("#/$defs/2"), lambda: Registry({"u:b": {"enum": ["x" * 1_000_000]}}, timeout=2).crawl()):
            with self.hurried(held):
                pid = _process.shared().pid
                os.kill(pid, signal.SIGSTOP)
                begin = time.monotonic()
                with self.assertRaises(patchsard.CallTimedOut) as raised:
                    asks()
            self.assertIsInstance(raised.exception, TimeoutError)
            self.assertTrue(1.9 < time.monotonic() - begin < LONG, time.monotonic() - begin)
            self.assertIs(resolver.lookup("#/$defs/3").contents, SCHEMA["$defs"]["3"])
            self.assertNotEqual(_process.shared().pid, pid)

    def test_each_call_has_the_limit_of_time(self):
        """Also those by which a registry is opened: of what is retrieved, of texts of YAML and of the drafts' meta-schemas."""
        asked = []
        ask = _process.Process.ask

        def seen(process, line, timeout=None):
            asked.append((re.match(rb'{"call":"(\w+)"', line)[1].decode(), timeout))
            return ask(process, line, timeout)

        chain = {f"u:{it}": {"$ref": f"u:{it + 1}", "not": {"$ref": f"u:gone{it}"}} for it in range(12)}
        chain["u:12"] = {"$ref": patchsard.jsonschema.DRAFT7.uri} if importlib.util.find_spec("jsonschema_specifications") else {}
        chain["u:11"]["$id"] = "a b"
        with mock.patch.object(_process, "_shared", None), mock.patch.object(_process.Process, "ask", seen):
            held = Registry({"u:0": chain["u:0"]}, retrieve=chain.get, allow_missing=True, timeout=LONG).with_yaml("u:y", "$dynamicAnchor: n")
            resolver = held.resolver("u:0")
            resolver.lookup("u:9")
            resolver.lookup_all(["#", "u:8"])
            resolver.in_subresource({"$id": "u:7"})
            resolver.lookup_recursive_ref()
            patchsard.Resolver(held, "u:0", [f"u:{it % 13}" for it in range(40)]).lookup("u:y#n")
            held.dangling(), held.survey(), held.bundle("u:0")
            _process.shared().stop()
        self.assertEqual({timeout for _, timeout in asked}, {LONG})
        self.assertEqual({name for name, _ in asked}, {"yaml", "open", "places", "lookup", "enter", "recursive", "scope", "dangling", "survey", "bundle"})

    def test_a_call_that_waits_too_long_for_another(self):
        held = Registry({"u:a": SCHEMA}, timeout=LONG)
        resolver = held.resolver("u:a")
        resolver.lookup("#/$defs/1")
        with self.hurried(held), _process.shared()._lock:
            raised = []

            def asks():
                try:
                    resolver.lookup("#/$defs/2")
                except patchsard.CallTimedOut as error:
                    raised.append(error)

            thread = threading.Thread(target=asks)
            thread.start()
            thread.join(LONG)
        self.assertEqual(len(raised), 1)
        self.assertIs(resolver.lookup("#/$defs/3").contents, SCHEMA["$defs"]["3"])

    def test_close_beside_look_ups(self):
        held = registry()
        resolver, wrong, done = held.resolver("https://example.com/a"), [], threading.Event()

        def asks():
            while not done.is_set():
                try:
                    if resolver.lookup("#/$defs/7").contents is not SCHEMA["$defs"]["7"]:
                        wrong.append("another value")
                except Exception as error:
                    wrong.append(error)

        threads = [threading.Thread(target=asks) for _ in range(4)]
        for thread in threads:
            thread.start()
        for _ in range(200):
            held.close()
        done.set()
        for thread in threads:
            thread.join()
        self.assertEqual(wrong, [])

    def test_copies(self):
        held = Registry({"u:a": {"$ref": "u:a#n", "$anchor": "n"}}, parent={"u:m": {}}).crawl()
        held = held.with_resource("u:c", patchsard.jsonschema.DRAFT7.create_resource({"$id": "#x"}))
        resolver = held.resolver("u:a")
        found = resolver.lookup("#n")
        for copied in (copy.deepcopy, lambda it: pickle.loads(pickle.dumps(it))):
            other = copied(held)
            self.assertEqual(list(other), list(held))
            self.assertEqual(other.resolver("u:a").lookup("u:c#x").specification, patchsard.jsonschema.DRAFT7)
            self.assertEqual(copied(resolver).lookup("#n").contents, found.contents)
            self.assertEqual(copied(found).resolver.lookup("#").contents, found.contents)

    def test_a_pool_of_processes(self):
        with concurrent.futures.ProcessPoolExecutor(2) as pool:
            jobs = [pool.submit(looked_up, it) for it in ("#/$defs/1", "#/$defs/none", 10**400, "#/$defs/2")]
            self.assertEqual(jobs[0].result(LONG), {"const": 1})
            self.assertIsInstance(jobs[1].exception(LONG), patchsard.PointerToNowhere)
            self.assertIsInstance(jobs[2].exception(LONG), Exception)
            self.assertEqual(jobs[3].result(LONG), {"const": 2})

    def amid(self, does):
        """The answer to a look-up while which `does` is called, as a signal handler or the garbage collector would."""
        resolver = registry().resolver("https://example.com/a")
        resolver.lookup("#/$defs/1")
        read, done = os.read, []

        def interrupted(file, size):
            if not done:
                done.append(file)
                does(resolver)
            return read(file, size)

        with mock.patch.object(_process.os, "read", interrupted):
            self.assertIs(resolver.lookup("#/$defs/2").contents, SCHEMA["$defs"]["2"])
        self.assertTrue(done)
        self.assertIs(resolver.lookup("#/$defs/3").contents, SCHEMA["$defs"]["3"])

    def test_a_signal_handler_that_asks(self):
        def asks(resolver):
            with self.assertRaisesRegex(RuntimeError, "signal handler"):
                resolver.lookup("#/$defs/4")

        self.amid(asks)

    def test_the_garbage_collector_amid_a_call(self):
        other = registry().crawl()

        def closes(_):
            other.close()

        self.amid(closes)
        self.assertEqual(len(_process.shared()._to_close), 0)

    def test_no_wait_is_without_end(self):
        resolver = registry().resolver("https://example.com/a")
        resolver.lookup("#/$defs/1")
        ended = []

        def interrupted():
            with mock.patch.object(_process.os, "read", side_effect=KeyboardInterrupt), self.assertRaises(KeyboardInterrupt):
                resolver.lookup("#/$defs/2")
            ended.append(True)

        with _process.shared()._popen._waitpid_lock:
            thread = threading.Thread(target=interrupted, daemon=True)
            thread.start()
            thread.join(LONG)
        self.assertEqual(ended, [True])
        self.assertIs(resolver.lookup("#/$defs/3").contents, SCHEMA["$defs"]["3"])

    def test_exceptions_go_to_other_processes(self):
        errors = [
            patchsard.CallRefused("NotJson", "The line is no JSON"), patchsard.CannotDetermineSpecification({"a": 1}), patchsard.InvalidUri("a b", "no URI"), patchsard.NoSuchResource("u:a"),
            patchsard.NotBundled("no"), patchsard.ProcessEnded("ended"), patchsard.ProgramNotFound("none"), patchsard.RetrievalLimit("10"), patchsard.Unretrievable("u:b", "not there"),
        ]
        for error in errors:
            error.uri, error.offset = "u:c", 3
            other = pickle.loads(pickle.dumps(error))
            self.assertIs(type(other), type(error))
            self.assertIsInstance(other, patchsard.PatchsardError)
            self.assertEqual((str(other), other.args, vars(other)), (str(error), error.args, vars(error)))
        kinds = [it for it in vars(patchsard.exceptions).values() if isinstance(it, type) and issubclass(it, Exception)]
        self.assertEqual([it for it in kinds if not issubclass(it, patchsard.PatchsardError)], [])

    @unittest.skipUnless(hasattr(os, "fork"), "no fork")
    def test_what_closed_parents_held_is_given_back(self):
        """A registry to which a document is added a hundred times: what the program holds of closed registries has a bound, and those that are open answer as before."""
        other = registry().crawl()
        seen = {}
        with mock.patch.object(_process, "_MOST_HELD", 20000):
            growing = Registry({f"https://example.com/{it}": {"$defs": {"text": {"const": "x" * 500}}} for it in range(10)}).crawl()
            for it in range(10, 110):
                growing = growing.with_resource(f"https://example.com/{it}", {"$defs": {"text": {"const": it}}})
                self.assertEqual(growing.resolver(f"https://example.com/{it}").lookup("#/$defs/text").contents, {"const": it})
                self.assertEqual(growing.resolver("https://example.com/3").lookup("#/$defs/text").contents["const"], "x" * 500)
                self.assertEqual(other.resolver("https://example.com/a").lookup(f"#/$defs/{it % 50}").contents, {"const": it % 50})
                process = _process.shared()
                seen[process.pid] = process
                self.assertLess(process._kept_bytes, 20000 + process._open_bytes + 20000)
        self.assertGreater(len(seen), 2)
        self.assertEqual([it for it in seen.values() if not it.ended], [_process.shared()])
        for it in seen.values():
            if it.ended:
                self.assertIsNotNone(it._popen.wait(LONG))
        self.assertTrue(_process.shared().is_alive())

    def test_a_program_that_held_much_ends_where_nothing_is_open(self):
        with mock.patch.object(_process, "_MOST_HELD", 20000):
            large = Registry({"u:a": {"$defs": {str(it): {"const": it} for it in range(3000)}}}).crawl()
            process = _process.shared()
            gc.collect()
            with registry() as small:
                self.assertEqual(small.resolver("https://example.com/a").lookup("#/$defs/1").contents, {"const": 1})
            self.assertFalse(process.ended)
            others = process._open_count - (1 if process.meta else 0) - 1
            large.close()
            self.assertEqual(process.ended, others == 0)
            self.assertEqual(large.resolver("u:a").lookup("#/$defs/7").contents, {"const": 7})
            if others == 0:
                self.assertIsNotNone(process._popen.wait(LONG))
                self.assertNotEqual(_process.shared().pid, process.pid)

    def test_a_fork_has_its_own(self):
        resolver = registry().resolver("https://example.com/a")
        resolver.lookup("#/$defs/1")
        pid = _process.shared().pid
        child = os.fork()
        if child == 0:
            is_right = resolver.lookup("#/$defs/2").contents is SCHEMA["$defs"]["2"] and _process.shared().pid != pid
            _process._stop()
            os._exit(0 if is_right else 1)
        self.assertEqual(os.waitpid(child, 0)[1], 0)
        self.assertIs(resolver.lookup("#/$defs/3").contents, SCHEMA["$defs"]["3"])
        self.assertEqual(_process.shared().pid, pid)

    def test_the_garbage_collector_closes(self):
        asked = []
        exchange = _process.Process._exchange

        def seen(self, line, until=None):
            asked.append(line)
            return exchange(self, line, until)

        with mock.patch.object(_process.Process, "_exchange", seen):
            resolver = registry().resolver("https://example.com/a")
            resolver.lookup("#")
            number = resolver._registry._open().number
            del resolver
            gc.collect()
        self.assertEqual(asked[-1], b'{"call":"close","registry":%d}\n' % number)

    def test_it_ends_with_python(self):
        code = "import patchsard; from patchsard import _process; patchsard.Registry().with_resource('u:a', {}).crawl(); print(_process.shared().pid)"
        pid = int(subprocess.run([sys.executable, "-c", code], stdout=subprocess.PIPE, check=True, timeout=LONG).stdout)
        # It was told to end before Python did, and ends when it gets to it.
        until = time.monotonic() + LONG
        with self.assertRaises(ProcessLookupError):
            while time.monotonic() < until:
                os.kill(pid, 0)
                time.sleep(0.1)


class WhereTheProgramIs(unittest.TestCase):
    def test_named(self):
        with mock.patch.dict(os.environ, PATCHSARD=sys.executable):
            self.assertEqual(_process.find_program(), sys.executable)
        with mock.patch.dict(os.environ, PATCHSARD="/nowhere/patchsard"):
            with self.assertRaisesRegex(patchsard.ProgramNotFound, "PATCHSARD names '/nowhere/patchsard'"):
                _process.find_program()

    def test_on_the_path_or_nowhere(self):
        with tempfile.TemporaryDirectory() as room, mock.patch.dict(os.environ, PATH=room), mock.patch.object(_process, "__file__", f"{room}/a/b/c/d/e.py"):
            os.environ.pop("PATCHSARD", None)
            with self.assertRaisesRegex(patchsard.ProgramNotFound, "./build patchsard"):
                _process.find_program()
            with open(f"{room}/patchsard", "w") as file:
                file.write("#!/bin/sh\n")
            os.chmod(f"{room}/patchsard", 0o755)
            self.assertEqual(_process.find_program(), f"{room}/patchsard")

    def test_in_the_package(self):
        with tempfile.TemporaryDirectory() as room, mock.patch.dict(os.environ, PATH=room), mock.patch.object(_process, "__file__", f"{room}/patchsard/_process.py"):
            os.environ.pop("PATCHSARD", None)
            for path in (f"{room}/patchsard", f"{room}/patchsard/bin"):
                os.mkdir(path)
            with open(f"{room}/patchsard/bin/patchsard", "w") as file:
                file.write("#!/bin/sh\necho $0 $*\nexit 7\n")
            self.assertIsNone(_process.program_beside())
            with mock.patch("sys.stderr"):
                self.assertEqual(_command.main(), 2)
            os.chmod(f"{room}/patchsard/bin/patchsard", 0o755)
            self.assertEqual(_process.find_program(), f"{room}/patchsard/bin/patchsard")
            os.environ["PATCHSARD"] = sys.executable
            self.assertEqual(_process.find_program(), sys.executable)
            code = f"import sys; from patchsard import _command, _process; _process.__file__ = {_process.__file__!r}; sys.argv = ['x', 'lint', 'a b']; _command.main()"
            done = subprocess.run([sys.executable, "-c", code], stdout=subprocess.PIPE, timeout=LONG, check=False)
            self.assertEqual((done.returncode, os.fsdecode(done.stdout)), (7, f"{room}/patchsard/bin/patchsard lint a b\n"))

    def test_built_in_the_repository(self):
        with tempfile.TemporaryDirectory() as room, mock.patch.dict(os.environ), mock.patch.object(_process, "__file__", f"{room}/a/b/c/d.py"):
            os.environ.pop("PATCHSARD", None)
            os.mkdir(f"{room}/scripts")
            for ends, expected in (("echo /built/$1", "/built/patchsard"), ("exit 1", shutil.which("patchsard"))):
                with open(f"{room}/scripts/built", "w") as file:
                    file.write(f"#!/bin/sh\n{ends}\n")
                os.chmod(f"{room}/scripts/built", 0o755)
                if expected:
                    self.assertEqual(_process.find_program(), expected)

    def test_a_program_that_knows_no_serve(self):
        with mock.patch.dict(os.environ, PATCHSARD="false"), mock.patch.object(_process, "_shared", None):
            with self.assertRaisesRegex(patchsard.ProcessEnded, "has ended, with status 1"):
                registry().crawl()

    def test_a_program_of_another_protocol(self):
        for answer in ('{"result":{}}', '{"result":[]}', '{"result":{"registry":0}}', '{"id":1,"result":{"registry":0}}', "{}", "[]", "null"):
            with tempfile.TemporaryDirectory() as room:
                path = os.path.join(room, "other")
                with open(path, "w", encoding="utf-8") as file:
                    file.write(f"#!/bin/sh\nwhile read -r line; do echo '{answer}'; done\n")
                os.chmod(path, 0o755)
                # (without the meta-schemas, which would be opened first)
                with mock.patch.dict(os.environ, PATCHSARD=path), mock.patch.object(_process, "_shared", None), mock.patch.object(patchsard._core, "_meta_schemas", list):
                    with self.assertRaisesRegex(patchsard.ProgramNotFound, "answers"):
                        registry().crawl()
                    _process.shared().stop()


if __name__ == "__main__":
    unittest.main()
