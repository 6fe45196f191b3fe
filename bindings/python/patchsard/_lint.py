"""What is wrong with the references of files: one process `patchsard lint` for a call."""
from __future__ import annotations

import errno
import json
import os
import re
import subprocess
from dataclasses import dataclass, fields
from typing import Any, Dict, Iterable, Iterator, List, Mapping, Optional, Union

from patchsard import _process
from patchsard._core import Draft
from patchsard.exceptions import CallTimedOut, NotLinted, ProcessEnded, ProgramNotFound

Path = Union[str, bytes, "os.PathLike[Any]"]
Paths = Union[Path, Iterable[Path]]

# The line of standard error with which each run ends that has looked at its files.
_COUNTS = re.compile(r"^\d+ files?, .* in [0-9.]+ s$", re.M)


@dataclass(frozen=True)
class Place:
    """A place of a file: `line` and `column` count from 1, in characters, and are `None` where they aren't known."""

    file: str
    pointer: str
    line: Optional[int] = None
    column: Optional[int] = None


@dataclass(frozen=True)
class Finding:
    """One thing that is wrong, as `patchsard lint --format json` has it. `pointer` leads to the schema, `level` is `"error"`, `"warning"` or `"note"`, and `code` the name
    of the rule. Where they are known, `reference` is the text under `keyword` and `resolved` the URI that it means; `suggestion` is what may be meant, `help` what to do, and
    `first` the place that this one clashes with. It doesn't change, has a hash, and can be pickled.
    """

    file: str
    line: int
    column: int
    pointer: str
    level: str
    code: str
    message: str
    keyword: Optional[str] = None
    reference: Optional[str] = None
    resolved: Optional[str] = None
    suggestion: Optional[str] = None
    help: Optional[str] = None
    first: Optional[Place] = None

    def __str__(self) -> str:
        return f"{self.file}:{self.line}:{self.column}: {self.level}[{self.code}]: {self.message}"


class Findings(List[Finding]):
    """The findings of a call, in the order of the program. `status` is its exit status: 1 where one is an error, listed or not, or where no file was found or nothing was looked at
    in any; else 0. `summary` is what it said on standard error: a line that counts files and findings, and what else it had to say.
    """

    status: int
    summary: str

    def __init__(self, found: Iterable[Finding] = (), status: int = 0, summary: str = "") -> None:
        super().__init__(found)
        self.status = status
        self.summary = summary


def lint(
    paths: Paths,
    *,
    with_: Paths = (),
    exclude: Paths = (),
    base: Optional[str] = None,
    draft: Union[str, Draft, None] = None,
    map: Union[Mapping[str, Path], Paths] = (),
    yaml: bool = False,
    rule: Union[Mapping[str, str], str, Iterable[str]] = (),
    level: Optional[str] = None,
    verbose: bool = False,
    directory: Optional[Path] = None,
    timeout: Optional[float] = None,
) -> Findings:
    """What is wrong with the references of files and folders, by one process `patchsard lint`, whose options have the same names: `map` is
    `{"https://example.com/": "schemas"}` and `rule` `{"missing-document": "warning"}`, or texts as on the command line; `directory` is the folder to run in.

    >>> import tempfile
    >>> with tempfile.TemporaryDirectory() as folder:
    ...     with open(f"{folder}/order.json", "w") as file:
    ...         _ = file.write('{"$ref": "#/$defs/itme", "not": {"$ref": "#/$defs/item"}, "$defs": {"item": {}}}')
    ...     found = lint(".", directory=folder)
    >>> print(*found)
    order.json:1:10: error[pointer-to-nowhere]: Pointer '/$defs/itme' does not exist
    >>> found[0].suggestion, found[0].keyword, found.status
    ('/$defs/item', '$ref', 1)

    `NotLinted` where a path can't be read or an option is wrong; it has what was found all the same. `ProgramNotFound` where the program can't be run, `ProcessEnded` where it
    doesn't get to its end, and `CallTimedOut` where it takes more than `timeout` seconds, after which it is killed.
    """
    words: List[Path] = [_process.find_program()]
    if directory is not None:
        words += ["-C", directory]
    words += ["lint", "--format=json"]
    for name, given in (("with", with_), ("exclude", exclude), ("map", _pairs(map)), ("rule", _pairs(rule))):
        words += [b"--%s=%s" % (name.encode(), os.fsencode(it)) for it in _several(given)]
    for name, text in (("base", base), ("draft", draft.name if isinstance(draft, Draft) else draft), ("level", level)):
        if text is not None:
            words.append(f"--{name}={text}")
    words += [f"--{name}" for name, is_wanted in (("yaml", yaml), ("verbose", verbose)) if is_wanted]
    # A path is one, also where it begins with a dash; standard input isn't read.
    words += ["--", *("./-" if os.fsencode(it) == b"-" else it for it in _several(paths))]
    return _run([os.fsencode(word) for word in words], timeout)


def _run(words: List[bytes], timeout: Optional[float]) -> Findings:
    program = os.fsdecode(words[0])
    try:
        done = subprocess.run(words, stdin=subprocess.DEVNULL, stdout=subprocess.PIPE, stderr=subprocess.PIPE, timeout=timeout, check=False)
    except subprocess.TimeoutExpired:
        raise CallTimedOut(f"{program} took longer than the {timeout} seconds that it may take, and was ended") from None
    except OSError as error:
        if error.errno == errno.E2BIG:
            raise NotLinted("The paths are too many for one command line: give folders, or fewer of them a call") from None
        raise ProgramNotFound(f"{program} can't be started: {error.strerror}") from error
    said = done.stderr.decode("utf-8", "replace").strip()
    if done.returncode not in (0, 1, 2):
        raise ProcessEnded(f"{program} has ended, with status {done.returncode}, before it had looked at the files{': ' if said else ''}{said}")
    try:
        found = Findings((_finding(json.loads(line)) for line in done.stdout.decode("utf-8").split("\n") if line), done.returncode, said)
    except (ValueError, TypeError, AttributeError):
        raise ProcessEnded(f"{program} prints what is no finding") from None
    if done.returncode == 2:
        refused = NotLinted(said)
        refused.findings = found
        raise refused
    if not _COUNTS.search(said):
        raise ProcessEnded(f"{program} has ended, with status {done.returncode}, without its line that counts the files{': ' if said else ''}{said}")
    return found


def _finding(answer: Dict[str, Any]) -> Finding:
    """The finding that an object is; members that this package doesn't know are left out."""
    members = {it.name: answer[it.name] for it in fields(Finding) if it.name in answer}
    if "first" in members:
        members["first"] = Place(**{it.name: members["first"].get(it.name) for it in fields(Place)})
    return Finding(**members)


def _several(given: Paths) -> Iterator[Path]:
    """One that is given by itself, or each of several."""
    if isinstance(given, (str, bytes, os.PathLike)):
        yield given
    else:
        yield from given


def _pairs(given: Any) -> Any:
    """The items of a mapping as texts of the command line."""
    return [b"%s=%s" % (os.fsencode(key), os.fsencode(value)) for key, value in given.items()] if isinstance(given, Mapping) else given
