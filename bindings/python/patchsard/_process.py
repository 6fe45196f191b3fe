"""The running program: one for a Python process, started at its first use, asked by one thread at a time."""
from __future__ import annotations

import atexit
import collections
import json
import os
import select
import shutil
import subprocess
import threading
import time
from typing import Any, Deque, Dict, Optional, Tuple

from patchsard.exceptions import CallTimedOut, ProcessEnded, ProgramNotFound

_MOST = 1 << 16
# As many bytes of documents of closed registries a process may hold for nothing, which is some twenty times that in memory.
_MOST_HELD = 4 << 20
# As json.loads, but for what it asks of a text that is known to be one line.
_decoded = json.JSONDecoder().scan_once


def _has_members(line: bytes) -> bool:
    """Whether a line is a call, to which an `id` can be added."""
    return line[:7] == b'{"call"'


def program_beside() -> Optional[str]:
    """The path of the program that a wheel with the program has in the package."""
    path = os.path.join(os.path.dirname(os.path.abspath(__file__)), "bin", "patchsard")
    return path if os.access(path, os.X_OK) else None


def find_program() -> str:
    """The path of the program: what PATCHSARD names; else the one that was installed with the package; else what was built in the repository that this file is
    in; else the one on PATH."""
    named = os.environ.get("PATCHSARD")
    if named:
        found = shutil.which(named)
        if found is None:
            raise ProgramNotFound(f"The environment variable PATCHSARD names {named!r}, which is no program")
        return found
    beside = program_beside()
    if beside is not None:
        return beside
    top = os.path.dirname(os.path.dirname(os.path.dirname(os.path.dirname(os.path.abspath(__file__)))))
    built = os.path.join(top, "scripts", "built")
    if os.access(built, os.X_OK):
        done = subprocess.run([built, "patchsard"], stdin=subprocess.DEVNULL, stdout=subprocess.PIPE, check=False)
        if done.returncode == 0:
            return os.fsdecode(done.stdout).strip()
    found = shutil.which("patchsard")
    if found is None:
        raise ProgramNotFound(
            "The program patchsard isn't built and isn't on PATH: run ./build patchsard in a clone of its repository, and name what it builds in the environment "
            "variable PATCHSARD, unless this package is in that clone"
        )
    return found


class Share:
    """What a registry has of a process: the bytes of its documents, and whether others were opened behind it."""

    __slots__ = ("size", "is_parent")

    def __init__(self, size: int) -> None:
        self.size = size
        self.is_parent = False


class Process:
    """A running `patchsard serve`."""

    def __init__(self) -> None:
        self._program = find_program()
        try:
            self._popen = subprocess.Popen([self._program, "serve"], stdin=subprocess.PIPE, stdout=subprocess.PIPE, bufsize=0, start_new_session=True)
        except OSError as error:
            raise ProgramNotFound(f"{self._program} can't be started: {error.strerror}") from error
        assert self._popen.stdin is not None and self._popen.stdout is not None
        self._input = self._popen.stdin.fileno()
        self._output = self._popen.stdout.fileno()
        os.set_blocking(self._input, False)
        self._lock = threading.RLock()
        # The thread that asks.
        self._asking: Optional[int] = None
        # Whether a call was begun whose answer isn't read whole yet.
        self._is_amid = False
        self._to_close: Deque[Tuple[int, Optional[Share]]] = collections.deque()
        # The bytes of documents in registries that are open, and in closed ones: of those that were parents, which the program keeps, and of others. And how many are open.
        self._open_bytes = self._kept_bytes = self._freed_bytes = 0
        self._open_count = 0
        self._to_count: Deque[int] = collections.deque()
        # The number of the last call, which its answer gives back.
        self._number = 0
        self.asked = False
        self.ended = False
        self.meta: Any = None

    @property
    def program(self) -> str:
        """The path of the program."""
        return self._program

    @property
    def pid(self) -> int:
        """The number of the process."""
        return self._popen.pid

    def is_alive(self) -> bool:
        """Whether it runs still, as far as one can know without asking it."""
        if self.ended or self._is_nested():
            return not self.ended
        if self._popen.poll() is not None:
            with self._lock:
                if not self.ended:
                    self._end()
        return not self.ended

    def _is_nested(self) -> bool:
        """Whether this thread is amid a call already: so in a signal handler, and in what the garbage collector calls."""
        return self._is_amid and self._asking == threading.get_ident()

    def ask(self, line: bytes, timeout: Optional[float] = None) -> Dict[str, Any]:
        """The answer to a line, within so many seconds from now, other threads' calls before it among them. A `RuntimeError` where a signal handler asks while the
        call that it interrupted waits for its answer."""
        thread = threading.get_ident()
        if self._is_amid and self._asking == thread:
            raise RuntimeError("A signal handler asks the program patchsard, while the call that it interrupted waits for its answer")
        if timeout is None:
            until = None
            self._lock.acquire()
        else:
            until = time.monotonic() + timeout
            if not self._lock.acquire(timeout=max(timeout, 0)):
                raise CallTimedOut(f"Other threads' calls took the {timeout} seconds that a call may take")
        try:
            before, self._asking = self._asking, thread
            try:
                if self._to_close or self._to_count:
                    self._close_waiting(until)
                line, number = self._numbered(line)
                answer = self._exchange(line, until)
            finally:
                self._asking = before
        finally:
            self._lock.release()
        try:
            decoded = _decoded(answer.decode(), 0)[0]
        except (ValueError, StopIteration):
            raise ProcessEnded(f"{self._program} answers what is no JSON") from None
        if not isinstance(decoded, dict) or "result" not in decoded and "error" not in decoded:
            raise ProgramNotFound(f"{self._program} answers what is no answer of `patchsard serve`")
        if decoded.get("id") != number:
            self._has_answered(decoded)
        return decoded

    def _numbered(self, line: bytes) -> Tuple[bytes, Optional[int]]:
        """A call with the next number, and the number; what is no call has none. Between a call and its answer the garbage collector may close registries, and a signal handler ask."""
        if not _has_members(line):
            return line, None
        number = self._number = self._number + 1
        return b"".join((b'{"id":%d,' % number, memoryview(line)[1:])), number

    def _has_answered(self, decoded: Dict[str, Any]) -> None:
        """Whether an answer without the number of its call is one to it: where memory ran out there is none, and where a line is no JSON. Else the program is ended, so that no
        call gets the answer to another."""
        if "id" not in decoded and "error" in decoded:
            return
        self.stop()
        if "id" not in decoded:
            raise ProgramNotFound(f"{self._program} answers without the id of the call, as `patchsard serve` doesn't")
        raise ProcessEnded(f"{self._program} answered another call than the last, and was ended")

    def opened(self, size: int) -> Share:
        """What a registry has that was opened, of so many bytes of documents."""
        self._to_count.append(size)
        return Share(size)

    def _count(self) -> None:
        """Counts what was opened; by the thread that has the lock."""
        while self._to_count:
            self._open_count += 1
            self._open_bytes += self._to_count.popleft()

    def end_if_worn(self) -> None:
        """Ends it where it holds so much of closed parents that opening the open registries anew costs less, which are where they are used; unless it is asked now."""
        if self._kept_bytes > max(_MOST_HELD, self._open_bytes) and not self._is_nested() and self._lock.acquire(blocking=False):
            try:
                if not self.ended:
                    self._end()
            finally:
                self._lock.release()

    def _is_idle(self) -> bool:
        """Whether nothing is open but the meta-schemas, and much was: its memory goes back to the system if it ends."""
        self._count()
        return self._open_count == (1 if self.meta else 0) and self._freed_bytes + self._kept_bytes > _MOST_HELD

    def close_later(self, number: int, share: Optional[Share] = None) -> None:
        """Closes a registry: now where nobody asks, else before the next call. Never waits for a lock, since the garbage collector calls it."""
        self._to_close.append((number, share))
        if not self.ended and not self._is_nested() and self._lock.acquire(blocking=False):
            before, self._asking = self._asking, threading.get_ident()
            try:
                self._close_waiting()
                if self._is_idle():
                    self._end()
            except ProcessEnded:
                pass
            finally:
                self._asking = before
                self._lock.release()

    def _close_waiting(self, until: Optional[float] = None) -> None:
        self._count()
        while self._to_close:
            number, share = self._to_close.popleft()
            if share is not None:
                self._open_count -= 1
                self._open_bytes -= share.size
                if share.is_parent:
                    self._kept_bytes += share.size
                else:
                    self._freed_bytes += share.size
            self._exchange(b'{"call":"close","registry":%d}\n' % number, until)

    def _wait(self, file: int, event: int, until: Optional[float]) -> None:
        """Waits until a pipe can be read or written, or the time of a call is over."""
        poll = select.poll()
        poll.register(file, event)
        if not poll.poll(None if until is None else max(0, int(1000 * (until - time.monotonic())) + 1)):
            raise CallTimedOut("The program patchsard took longer than a call may take, and was ended")

    def _write_on(self, rest: memoryview, until: Optional[float]) -> None:
        while rest:
            try:
                rest = rest[os.write(self._input, rest) :]
            except BlockingIOError:
                self._wait(self._input, select.POLLOUT, until)

    def _exchange(self, line: bytes, until: Optional[float] = None) -> bytes:
        if self._is_amid and not self.ended:
            # A call before this one was interrupted, and its answer would be taken for that of this one.
            self._end(is_answering=True)
        if self.ended:
            raise ProcessEnded("The program patchsard has ended")
        try:
            self._is_amid = self.asked = True
            try:
                written = os.write(self._input, line)
            except BlockingIOError:
                written = 0
            if written < len(line):
                self._write_on(memoryview(line)[written:], until)
            if until is not None:
                self._wait(self._output, select.POLLIN, until)
            answer = os.read(self._output, _MOST)
            if not answer.endswith(b"\n"):
                answer = self._read_on(answer, until)
            self._is_amid = False
            return answer
        except BaseException as error:
            # What is half written or unread would be taken for part of the next call.
            has_ended = isinstance(error, (OSError, EOFError)) and not isinstance(error, CallTimedOut)
            self._end(is_answering=not has_ended)
            if has_ended:
                raise ProcessEnded(f"{self._program} has ended, with status {self._popen.returncode}, while it was asked") from error
            raise

    def _read_on(self, first: bytes, until: Optional[float]) -> bytes:
        parts = [first]
        while parts[-1][-1:] != b"\n":
            if not parts[-1]:
                raise EOFError
            if until is not None:
                self._wait(self._output, select.POLLIN, until)
            parts.append(os.read(self._output, _MOST))
        return b"".join(parts)

    def _end(self, is_answering: bool = False) -> None:
        self.ended = True
        if is_answering:
            # It would say on standard error that its answer can't be written.
            self._popen.kill()
        self._close_pipes()
        for seconds in (0.2, 2):
            # Each wait has an end, also where an interrupt left a lock of `Popen` taken.
            try:
                self._popen.wait(seconds)
                return
            except subprocess.TimeoutExpired:
                self._popen.kill()

    def _close_pipes(self) -> None:
        for pipe in (self._popen.stdin, self._popen.stdout):
            try:
                if pipe is not None:
                    pipe.close()
            except OSError:
                pass

    def stop(self) -> None:
        """Ends the process: a thread that asks it gets `ProcessEnded`."""
        if self._is_nested():
            self._popen.kill()
            return
        if not self._lock.acquire(timeout=0.2):
            self._popen.kill()
            if not self._lock.acquire(timeout=2):
                return
        try:
            if not self.ended:
                self._end()
        finally:
            self._lock.release()

    def forget(self) -> None:
        """In a fork of the Python process, which must not write into the pipe of the one that it comes from."""
        self.ended = True
        self._close_pipes()
        self._popen.returncode = 0


_shared: Optional[Process] = None
_starting = threading.Lock()


def shared() -> Process:
    """The process that all registries use; a new one where there is none, or it has ended."""
    global _shared
    with _starting:
        if _shared is not None:
            _shared.end_if_worn()
        if _shared is None or not _shared.is_alive():
            _shared = Process()
        return _shared


def _stop() -> None:
    if _shared is not None and not _shared.ended:
        _shared.stop()


def _forget() -> None:
    global _shared, _starting
    _starting = threading.Lock()
    if _shared is not None:
        _shared.forget()
        _shared = None


atexit.register(_stop)
if hasattr(os, "register_at_fork"):
    os.register_at_fork(after_in_child=_forget)
