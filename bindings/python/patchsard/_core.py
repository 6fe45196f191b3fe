"""Registries, resolvers and what they answer."""
from __future__ import annotations

import json
import re
import sys
import weakref
from typing import Any, Callable, Dict, Iterable, Iterator, List, Literal, Mapping, NamedTuple, Optional, Sequence, Set, Tuple, TypeVar, Union, overload

from patchsard import _process
from patchsard.exceptions import CallRefused, CannotDetermineSpecification, InvalidUri, NoInternalID, NoSuchAnchor, NoSuchResource, NotYaml, ProcessEnded, ProgramNotFound, RetrievalLimit, Unresolvable, Unretrievable, from_answer

Schema = Any
Pairs = Iterable[Tuple[str, Any]]
_T = TypeVar("_T")

_encode = json.JSONEncoder(separators=(",", ":"), allow_nan=False, ensure_ascii=False).encode
# The same of a text.
_encode_text = json.encoder.encode_basestring
# After as many documents that were retrieved one at a time, they are looked for ahead.
_ROUNDS = 4
# The member of a call of `open` by which faults are kept.
_KEEPS = ',"faults":"keep"'
# In place of a meta-schema that isn't there.
_MISSING = object()
# How the URIs of the drafts' meta-schemas begin.
_OF_DRAFTS = ("http://json-schema.org/", "https://json-schema.org/")
# As many registries may stand behind one another; a longer row is opened as one.
_DEPTH = 8
# As many references are asked in one line.
_MOST_AT_ONCE = 1000
# A scope that is longer is asked with by the number under which the program keeps it, where it keeps no more than so many for a registry.
_FRONT = 16
_MOST_SCOPES = 1000
# As many values a document may have whose parts are shared, since each is written out where it is.
_MOST_VALUES = 10_000_000
# After so many look-ups, one after another, of what stands side by side in a document, others that stand there are asked with the next: so many, and twice as many each time up to
# the most, where no more than so many stand there.
_RUN = 4
_BESIDE = 8
_MOST_BESIDE = 256
_MOST_NAMES = 5000
# By anchors only with a scope that isn't longer, since each answer has it.
_SHORT_SCOPE = 4
# Names that are the same in a pointer and in a fragment.
_is_plain = re.compile(r"[A-Za-z0-9._-]+").fullmatch
# As many beginnings of the lines of look-ups are kept for a registry.
_MOST_HEADS = 1000
# As many answers of a registry are kept; a dynamic anchor's only where the scope isn't longer.
_MOST_KEPT = 10000
_LONG_SCOPE = 32


class Draft(NamedTuple):
    """A draft of JSON Schema. `name` is its name in the program's protocol, `uri` its meta-schema's URI."""

    name: str
    uri: str

    def create_resource(self, contents: Schema) -> "Resource":
        """A document that is read by this draft, whatever it says itself."""
        return Resource(contents, self)

    def detect(self, contents: Schema) -> "Draft":
        """The draft that the document names; this one where it names none that is known."""
        return _named(contents) or self


DRAFT4 = Draft("4", "http://json-schema.org/draft-04/schema#")
DRAFT6 = Draft("6", "http://json-schema.org/draft-06/schema#")
DRAFT7 = Draft("7", "http://json-schema.org/draft-07/schema#")
DRAFT201909 = Draft("2019-09", "https://json-schema.org/draft/2019-09/schema")
DRAFT202012 = Draft("2020-12", "https://json-schema.org/draft/2020-12/schema")
DRAFTS = (DRAFT4, DRAFT6, DRAFT7, DRAFT201909, DRAFT202012)
_BY_URI = {draft.uri.rstrip("#"): draft for draft in DRAFTS}
_BY_NAME = {draft.name: draft for draft in DRAFTS}
# The names that specifications have in Python's `referencing`.
_BY_SPECIFICATION = {"draft-04": DRAFT4, "draft-06": DRAFT6, "draft-07": DRAFT7, "draft2019-09": DRAFT201909, "draft2020-12": DRAFT202012}


def _named(contents: Schema) -> Optional[Draft]:
    uri = contents.get("$schema") if isinstance(contents, dict) else None
    return _BY_URI.get(uri.rstrip("#")) if isinstance(uri, str) else None


class Anchor(NamedTuple):
    """The name that a schema gives itself. `is_dynamic` says whether it is a dynamic anchor's."""

    name: str
    resource: "Resource"
    is_dynamic: bool = False


class Resource:
    """A document, and the draft by which it is read. Where `specification` is `None`, the document's `$schema` says it, or else the registry. It doesn't change.

    >>> Resource({"$id": "https://example.com/a"}).id()
    'https://example.com/a'
    """

    __slots__ = ("contents", "specification")
    contents: Schema
    specification: Optional[Draft]

    def __init__(self, contents: Schema, specification: Optional[Draft] = None) -> None:
        object.__setattr__(self, "contents", contents)
        object.__setattr__(self, "specification", specification)

    def __setattr__(self, name: str, value: object) -> None:
        raise AttributeError(f"A Resource doesn't change: {name} can't be set")

    def __delattr__(self, name: str) -> None:
        raise AttributeError(f"A Resource doesn't change: {name} can't be deleted")

    def __reduce__(self) -> Tuple[Any, ...]:
        return Resource, (self.contents, self.specification)

    @classmethod
    def from_contents(cls, contents: Schema, default_specification: Optional[Draft] = None) -> "Resource":
        """The document by the draft that its `$schema` names, or the default one; where there is neither, `CannotDetermineSpecification`."""
        draft = _named(contents) or default_specification
        if draft is None:
            raise CannotDetermineSpecification(contents)
        return cls(contents, draft)

    def id(self, default: Draft = DRAFT202012) -> Optional[str]:
        """The identifier that the document gives itself; by the default draft, where nothing says its own."""
        draft = self.specification or _named(self.contents) or default
        if not isinstance(self.contents, dict):
            return None
        found = self.contents.get("id" if draft == DRAFT4 else "$id")
        is_old = draft in (DRAFT4, DRAFT6, DRAFT7)
        if not isinstance(found, str) or is_old and ("$ref" in self.contents or found.startswith("#")):
            return None
        return found.rstrip("#")

    def anchors(self) -> Iterator[Anchor]:
        """The names that the schema gives itself, not those of schemas in it.

        >>> [it.name for it in Resource({"$anchor": "a", "not": {"$anchor": "b"}}).anchors()]
        ['a']
        """
        draft, contents = self._draft(), self.contents
        if not isinstance(contents, dict):
            return
        if draft in (DRAFT4, DRAFT6, DRAFT7):
            found = contents.get("id" if draft == DRAFT4 else "$id")
            if isinstance(found, str) and "$ref" not in contents and len(found) > 1 and found[:1] == "#" and found[1] != "/":
                yield Anchor(found[1:], self)
            return
        for keyword in ("$anchor", "$dynamicAnchor")[: 1 if draft == DRAFT201909 else 2]:
            name = contents.get(keyword)
            if isinstance(name, str):
                yield Anchor(name, self, keyword == "$dynamicAnchor")

    def subresources(self) -> "Iterator[Resource]":
        """The schemas right below this one, by the keywords of its draft, each by its own draft. The program lists them.

        >>> [it.contents for it in Resource({"not": {"not": True}}).subresources()]
        [{'not': True}]
        """
        registry = Registry({"": self}, allow_missing=True)
        opened = registry._open()
        below: List[str] = []
        for it in opened.ask("", "places"):
            pointer = it["pointer"]
            if it["document"] == 0 and pointer and not any(pointer.startswith(above + "/") for above in below):
                below.append(pointer)
                yield Resource(_at(self.contents, pointer), _BY_NAME.get(it["draft"]))

    def pointer(self, pointer: str, resolver: "Resolver") -> "Resolved":
        """What a JSON Pointer (RFC 6901) leads to in the document, where `resolver` is at the document.

        >>> resource = Resource({"$defs": {"a": {"type": "string"}}})
        >>> resource.pointer("/$defs/a", Registry().resolver_with_root(resource)).contents
        {'type': 'string'}
        """
        return resolver.lookup("#" + _fragment(pointer))

    def _draft(self) -> Draft:
        return self.specification or _named(self.contents) or DRAFT202012

    def __eq__(self, other: object) -> bool:
        return isinstance(other, Resource) and (self.contents, self.specification) == (other.contents, other.specification)

    def __hash__(self) -> int:
        """Equal ones have equal hashes: those of the draft and of the identifier."""
        return hash((self.specification, self.id()))

    def __repr__(self) -> str:
        return f"Resource({self.contents!r}, {self.specification and self.specification.name!r})"


def _is_schema(given: Mapping[str, Any]) -> bool:
    """Whether what is given as documents is a schema by itself: no URI is one of these keywords."""
    return any(keyword in given for keyword in ("$schema", "$id", "$ref", "$defs", "$anchor")) or isinstance(given.get("type"), (str, list))


def _resource(given: Any) -> Resource:
    """A document that is given as a `Resource`, as one of Python's `referencing`, or by itself."""
    if isinstance(given, Resource):
        return given
    specification = getattr(given, "_specification", None)
    if specification is not None and hasattr(given, "contents"):
        return Resource(given.contents, _BY_SPECIFICATION.get(specification.name))
    return Resource(given)


def _text(uri: str, resource: Resource) -> str:
    """The document as JSON. One that is read by a draft which it doesn't name says so in the text, at the end, where the last mention counts."""
    contents, draft = resource.contents, resource.specification
    try:
        has_texts = _has_text_keys(uri, contents)
        text = _encode(contents)
    except RecursionError:
        raise ValueError(f"The document {uri!r} nests too deep") from None
    except (TypeError, ValueError) as error:
        raise _located(uri, contents) or error from None
    if not has_texts:
        raise _located(uri, contents) or TypeError(f"The document {uri!r} has a key that is no text")
    if draft is not None and isinstance(contents, dict) and contents and _named(contents) != draft:
        return f'{text[:-1]},"$schema":"{draft.uri}"}}'
    return text


def _has_text_keys(uri: str, contents: Schema) -> bool:
    """Whether the keys of all objects are texts: `json` would make some others texts. Each part is looked at once, also where it is shared."""
    waiting, seen, again = [contents], set(), 0
    for value in waiting:
        kind = type(value)
        if kind is str:
            continue
        if kind is dict or isinstance(value, dict):
            if id(value) in seen:
                again += 1
                continue
            seen.add(id(value))
            for key in value:
                if type(key) is not str and not isinstance(key, str):
                    return False
            waiting += value.values()
        elif kind is list or isinstance(value, (list, tuple)):
            if id(value) in seen:
                again += 1
                continue
            seen.add(id(value))
            waiting += value
    # A part that is met again is at most in as many places as two to the number of those before it.
    if again and len(waiting) << min(again * (again + 1) // 2, 64) > _MOST_VALUES:
        _refuse_many(uri, contents)
    return True


def _refuse_many(uri: str, contents: Schema) -> None:
    """Refuses a document that has too many values once its shared parts are written out. One that has itself as a part is left to `json`, which refuses it."""
    # How many values are written for each part; and the parts that others were gone into from, the innermost last, with what is left of each and how many values were met.
    sizes: Dict[int, int] = {}
    stack: List[List[Any]] = [[contents, iter([contents]), 0]]
    above = {0}
    while stack:
        frame = stack[-1]
        for it in frame[1]:
            if not isinstance(it, (dict, list, tuple)):
                frame[2] += 1
            elif id(it) in sizes:
                frame[2] += sizes[id(it)]
            elif id(it) in above:
                return
            else:
                above.add(id(it))
                stack.append([it, iter(it.values() if isinstance(it, dict) else it), 1])
                break
        else:
            value, _, size = stack.pop()
            above.discard(id(value))
            sizes[id(value)] = size
            if size > _MOST_VALUES:
                raise TypeError(f"document {uri!r}, at {_pointer_to(contents, value)!r}: with its shared parts written out it has more than {_MOST_VALUES:,} values")
            if stack:
                stack[-1][2] += size


def _pointer_to(contents: Schema, part: Schema) -> str:
    """A JSON Pointer that leads to a part of a document."""
    waiting, seen = [("", contents)], {id(contents)}
    for pointer, value in waiting:
        if value is part:
            return pointer
        pairs = value.items() if isinstance(value, dict) else enumerate(value)
        for key, below in pairs:
            if isinstance(below, (dict, list, tuple)) and id(below) not in seen:
                seen.add(id(below))
                waiting.append((f"{pointer}/{str(key).replace('~', '~0').replace('/', '~1')}", below))
    return ""


def _located(uri: str, contents: Schema) -> Optional[Exception]:
    """The first value of a document that is no JSON, as an exception that says where it is."""
    waiting, seen = [("", contents)], set()
    for pointer, value in waiting:
        where = f"document {uri!r}, at {pointer!r}: "
        if isinstance(value, (dict, list, tuple)):
            if id(value) in seen:
                continue
            seen.add(id(value))
        if isinstance(value, dict):
            for key, below in value.items():
                if not isinstance(key, str):
                    return TypeError(f"{where}the keys of JSON objects are texts, not {key!r}")
                waiting.append((f"{pointer}/{key.replace('~', '~0').replace('/', '~1')}", below))
        elif isinstance(value, (list, tuple)):
            waiting += [(f"{pointer}/{number}", below) for number, below in enumerate(value)]
        elif isinstance(value, float) and (value != value or value in (float("inf"), float("-inf"))):
            return ValueError(f"{where}JSON has no number {value!r}")
        elif value is not None and not isinstance(value, (str, int, float)):
            return TypeError(f"{where}a value of type {type(value).__name__} is no JSON")
    return None


def _fragment(text: str) -> str:
    """A pointer or a name as a fragment of a URI."""
    from urllib.parse import quote

    return quote(text, safe="/~!$&'()*+,;=:@?")


def _at(value: Schema, pointer: str) -> Schema:
    """The value below another by a JSON Pointer that the program answered."""
    if not pointer:
        return value
    if "~" in pointer:
        tokens = [token.replace("~1", "/").replace("~0", "~") for token in pointer[1:].split("/")]
    else:
        tokens = pointer[1:].split("/")
    for token in tokens:
        value = value[token] if isinstance(value, dict) else value[int(token)]
    return value


class _MetaWanted(Exception):
    """A meta-schema is wanted, and the registry is to be opened with the meta-schemas."""


class _Closed(ProcessEnded):
    """The registry was closed in the program, by another thread, since it was opened."""


class _Run:
    """Look-ups, one after another, of what stands side by side in a document: members of one object, items of one list, or schemas there with an anchor. What it has is a guess at what is
    asked next, which other threads may change: nothing that is answered depends on it."""

    __slots__ = ("key", "count", "answer", "stands", "at", "window", "kept")

    def __init__(self) -> None:
        self.begin(None)

    def begin(self, key: Any) -> None:
        """Begins with a look-up: from which base, what is before the last name of its reference, and whether it is the first."""
        self.key, self.count, self.window = key, 1, _BESIDE
        self.answer: Optional[Dict[str, Any]] = None
        # What they stand in, with the names there, those after that of the answer first; up to which of these were asked, and how many answers were kept then.
        self.stands: Optional[Tuple[Any, List[str]]] = None
        self.at = self.kept = 0


class _Opened:
    """A registry as the program has it, until nothing refers to it."""

    __slots__ = ("process", "number", "documents", "parent", "timeout", "share", "uris", "unmet", "identified", "kept", "heads", "run", "scopes", "close", "__weakref__")

    def __init__(self, process: _process.Process, number: int, documents: List[Schema], parent: Optional["_Opened"], timeout: Optional[float] = None, size: int = 0) -> None:
        self.process = process
        self.share = process.opened(size)
        if parent is not None:
            parent.share.is_parent = True
        # The URIs of the documents, and the texts that the program was given `null` in place of.
        self.uris: List[str] = []
        self.unmet: List[_Unmet] = []
        # By the URIs that documents were given under, here and in the parents, the identifiers that they give themselves, where those are others.
        self.identified: Dict[str, str] = {} if parent is None else dict(parent.identified)
        # Answers that were had before: an open registry doesn't change.
        self.kept: Dict[Any, Any] = {}
        # How the lines of look-ups begin, by the base and the scope that is sent.
        self.heads: Dict[Any, str] = {}
        self.run = _Run()
        # The numbers of the scopes that the program keeps for it.
        self.scopes: Dict[Tuple[str, ...], int] = {}
        self.timeout = timeout
        self.number = number
        self.documents = documents
        self.parent = parent
        self.close = weakref.finalize(self, process.close_later, number, self.share)
        self.close.atexit = False

    def value(self, answer: Dict[str, Any]) -> Schema:
        """The caller's value at the place that an answer names."""
        number = answer["registry"]
        document = (self if number == self.number else self.layer(number)).documents[answer["document"]]
        if document is _MISSING:
            error = Unretrievable(answer["base"], "The document isn't there")
            error.uri = answer["base"]
            raise error
        return _at(document, answer["pointer"])

    def identify(self, identifiers: Dict[int, str]) -> None:
        """Finds what the identifiers mean that documents give themselves, by their numbers."""
        numbers = [number for number, text in identifiers.items() if text != self.uris[number]]
        if numbers:
            asked = [[self.uris[number], [], identifiers[number]] for number in numbers]
            answers = self.ask("", "lookup", f',"base":"json-schema:///","reference":{_encode(asked)}')
            # Where another document has the identifier, it doesn't mean this one.
            found = {self.uris[it["document"]]: it["base"] for it, number in zip(answers, numbers) if it.get("registry") == self.number and it["document"] == number and not it["pointer"]}
            self.identified = {**self.identified, **{uri: base for uri, base in found.items() if uri != base}}

    def layer(self, number: int) -> "_Opened":
        """The registry with a number: this one or a parent."""
        opened = self
        while opened.number != number:
            assert opened.parent is not None
            opened = opened.parent
        return opened

    def uri_of(self, answer: Dict[str, Any]) -> str:
        """The URI of the document that an answer names, where this or a parent may have identified it."""
        if not self.identified:
            return ""
        uris = self.layer(answer["registry"]).uris
        return uris[answer["document"]] if uris else ""

    def room_for(self, count: int) -> Dict[Any, Any]:
        """What was found and is kept, with room for so much more."""
        if len(self.kept) + count > _MOST_KEPT:
            self.kept.clear()
        return self.kept

    def keep(self, key: Any, found: Any) -> None:
        """Keeps what was found for the next time."""
        kept = self.kept
        if len(kept) >= _MOST_KEPT:
            kept.clear()
        kept[key] = found

    def beside(self, base: str, ref: str, is_first: bool) -> List[str]:
        """References to what stands beside the target of one that is asked now and wasn't before, to be asked with it: none but where several before it led there too."""
        run = self.run
        head = ref[: max(ref.rfind("#"), ref.rfind("/")) + 1]
        key = (base, head, is_first)
        if run.key != key or "#" not in head:
            run.begin(key)
            return []
        run.count += 1
        answer, stands = run.answer, run.stands
        if run.count < _RUN or answer is None:
            return []
        if stands is None or len(self.kept) < run.kept:
            stands = run.stands = self._standing(answer)
            run.at = 0
        value, names = stands
        begin, end = run.at, run.at + min(run.window, _MOST_KEPT // 4)
        run.at, run.window, run.kept = end, min(2 * run.window, _MOST_BESIDE), len(self.kept)
        refs = [it for name in names[begin:end] for it in _refs_to(head, value, name)]
        return [it for it in refs if it != ref and (base, it, is_first) not in self.kept]

    def _standing(self, answer: Dict[str, Any]) -> Tuple[Any, List[str]]:
        """What the value of an answer stands in, with the names there, those after its own first; none of more than can be gone through in little time."""
        above, _, last = answer["pointer"].rpartition("/")
        document = self.layer(answer["registry"]).documents[answer["document"]]
        value = None if document is _MISSING or not answer["pointer"] else _at(document, above)
        if not isinstance(value, (dict, list, tuple)) or len(value) > _MOST_NAMES:
            return None, []
        if isinstance(value, dict):
            names = list(value)
            after = names.index(last) + 1 if last in value else 0
        else:
            names = [str(it) for it in range(len(value))]
            after = int(last) + 1
        return value, names[after:] + names[:after]

    def scope_number(self, scope: Tuple[str, ...], sent: Sequence[Union[str, int]]) -> Optional[int]:
        """The number under which the program keeps a scope, which is sent so where it doesn't yet; none where it keeps many already."""
        number = self.scopes.get(scope)
        if number is None and len(self.scopes) < _MOST_SCOPES:
            number = self.scopes[scope] = self.ask("", "scope", f',"scope":{_encode(sent)}')["scope"]
        return number

    def ask(self, ref: str, call: str, members: str = "") -> Any:
        """What the program answers, or the exception for its error."""
        return self.answer(ref, f'{{"call":"{call}","registry":{self.number}{members}}}\n')

    def looked_up(self, base: str, scope: Tuple[Union[str, int], ...], ref: str) -> Any:
        """What the program answers to a look-up of one reference."""
        head = self.heads.get((base, scope))
        if head is None:
            head = f'{{"call":"lookup","registry":{self.number}{self.members(base, scope)},"reference":'
            if len(scope) <= 1:
                if len(self.heads) >= _MOST_HEADS:
                    self.heads.clear()
                self.heads[base, scope] = head
        return self.answer(ref, f"{head}{_encode_text(ref)}}}\n")

    def members(self, base: str, scope: Sequence[Union[str, int]]) -> str:
        """The base and the scope as members of a call."""
        return f',"base":{_encode_text(self.identified.get(base, base))},"scope":{_encode(scope)}'

    def answer(self, ref: str, line: str) -> Any:
        """What the program answers to a line, or the exception for its error."""
        try:
            sent = line.encode()
        except UnicodeEncodeError:
            raise _half_pair(ref) from None
        answer = self.process.ask(sent, self.timeout)
        if "error" in answer:
            if answer["error"]["name"] == "UnknownRegistry":
                raise _Closed(answer["error"]["message"])
            raise from_answer(answer["error"], ref)
        return answer["result"]


def _refs_to(head: str, value: Any, name: str) -> List[str]:
    """The references that begin so and lead to the member or the item with a name: by a pointer, or by the anchors there."""
    if head[-1] == "/":
        return [head + (name if _is_plain(name) else _fragment(name.replace("~", "~0").replace("/", "~1")))]
    found = value.get(name) if isinstance(value, dict) else value[int(name)]
    if not isinstance(found, dict):
        return []
    anchor, own = found.get("$anchor"), found.get("$id", found.get("id"))
    texts = [anchor] if isinstance(anchor, str) else [own[1:]] if isinstance(own, str) and own[:1] == "#" else []
    return [head + it for it in texts if _is_plain(it)]


class _Unmet(NamedTuple):
    """A text that is no URI reference, or that refers to a document which isn't there: where it is, by the number of its document, and the program's error."""

    document: int
    pointer: str
    keyword: str
    text: str
    error: Dict[str, Any]


def _listed(texts: Dict[str, str]) -> str:
    """Documents as members of a list in a call."""
    return ",".join(f"[{_encode(uri)},{text}]" for uri, text in texts.items())


def _is_sendable(text: str) -> bool:
    """Whether a text has no half of a surrogate pair, which can't be sent."""
    try:
        text.encode("utf-8")
    except UnicodeEncodeError:
        return False
    return True


def _half_pair(ref: str) -> InvalidUri:
    """The error of a reference that can't be sent."""
    return InvalidUri(ref, "Invalid URI reference: half of a surrogate pair is no character")


def _sent(line: str, *documents: Dict[str, str]) -> bytes:
    """A line as it is sent. Half of a surrogate pair can't be."""
    try:
        return line.encode("utf-8")
    except UnicodeEncodeError:
        raise _refused(CallRefused("NotJson", "A text has half of a surrogate pair, which is no character"), *documents) from None


def _refused(error: CallRefused, *documents: Dict[str, str]) -> CallRefused:
    """The error of a line that is no JSON, with the document that can't be sent, and why."""
    if error.name != "NotJson":
        return error
    for texts in documents:
        for uri, text in texts.items():
            reason = _reason(text)
            if reason is not None:
                found = CallRefused(error.name, f"The document {uri!r} {_REASONS[reason]}")
                found.offset, found.document, found.reason = error.offset, uri, reason
                return found
    return error


def _at_place(error: Exception, told: Dict[str, Any], texts: Dict[str, str], remote: Dict[str, str]) -> Exception:
    """The exception for an error of `open`, with the document and the place that the program tells."""
    if isinstance(error, Unresolvable) and "pointer" in told:
        among = remote if told.get("field") == "remote" else texts
        error.document, error.pointer = list(among)[told["document"]], told["pointer"]
    return error


_REASONS = {
    "depth": "nests more than 124 levels",
    "number": "has a number beyond the range of a double",
    "surrogate": "has half of a surrogate pair, which is no character",
}


def _reason(text: str) -> Optional[str]:
    """Why the program doesn't take a document that Python writes as JSON."""
    if any("\ud800" <= character <= "\udfff" for character in text):
        return "surrogate"
    depth = most = 0
    numbers = []
    for token in re.finditer(r'"(?:[^"\\]|\\.)*"|[\[{]|[\]}]|-?\d[\d.eE+-]*', text):
        found = token.group()
        if found in "[{":
            depth += 1
            most = max(most, depth)
        elif found in "]}":
            depth -= 1
        elif found[0] != '"':
            numbers.append(found)
    if most > 124:
        return "depth"
    return "number" if any(float(number) in (float("inf"), float("-inf")) for number in numbers) else None


def _meta_schemas() -> List[Tuple[str, Schema]]:
    """The meta-schemas of the drafts, where `jsonschema-specifications` is installed."""
    try:
        from jsonschema_specifications import REGISTRY
    except ImportError:
        return []
    return [(uri, resource.contents) for uri, resource in REGISTRY.items() if _named(resource.contents)]


def _meta(process: _process.Process, is_wanted: bool, timeout: Optional[float] = None) -> Optional[_Opened]:
    """The registry of the meta-schemas, which is the parent of every other, opened once in a process; none where they are not wanted and would have to be imported,
    which takes longer than all else."""
    if process.meta is None:
        if not is_wanted and "jsonschema_specifications" not in sys.modules:
            return None
        documents = _meta_schemas()
        if not documents:
            process.meta = ()
        else:
            line = f'{{"call":"open","documents":{_encode(documents)}}}\n'.encode("utf-8")
            answer = process.ask(line, timeout)
            if "error" in answer:
                raise from_answer(answer["error"], "")
            process.meta = _Opened(process, answer["result"]["registry"], [contents for _, contents in documents], None, None, len(line))
    return process.meta or None


def from_yaml(text: str) -> Schema:
    """The value of a text of YAML: of one document of YAML 1.2 with the core schema, whose keys are texts. `NotYaml` where the text isn't read as one.

    >>> from_yaml("type: [string, 'null']")
    {'type': ['string', 'null']}
    """
    return _from_yaml(text, None, None)


def _from_yaml(text: str, uri: Optional[str], timeout: Optional[float]) -> Schema:
    if not isinstance(text, str):
        raise TypeError(f"A text of YAML is a str; this is {type(text).__name__}")
    try:
        line = f'{{"call":"yaml","text":{_encode(text)}}}\n'.encode("utf-8")
    except UnicodeEncodeError:
        raise _not_yaml("A text has half of a surrogate pair, which is no character", "character", text, None, uri) from None
    try:
        answer = _process.shared().ask(line, timeout)
    except ProcessEnded:
        # Asking changes nothing, so it is done once more, by another process.
        answer = _process.shared().ask(line, timeout)
    if "error" not in answer:
        return answer["result"]["value"]
    error = answer["error"]
    if error["name"] != "NotYaml":
        raise from_answer(error, "")
    raise _not_yaml(error["message"], error["reason"], text, error["offset"], uri)


def _not_yaml(message: str, reason: str, text: str, offset: Optional[int], uri: Optional[str]) -> NotYaml:
    """The exception for a text that isn't YAML, with the place of an offset in its bytes."""
    error = NotYaml(message if uri is None else f"{uri!r}: {message}")
    error.reason, error.document = reason, uri
    if offset is not None:
        before = text.encode("utf-8")[:offset].decode("utf-8", "ignore")
        error.line, error.column = before.count("\n") + 1, len(before) - (before.rfind("\n") + 1) + 1
    return error


class Registry(Mapping[str, Resource]):
    """Documents, each under a URI.

    A registry doesn't change: `with_resource` and its like answer another. The program gets its documents when a reference is first looked up, or by
    `crawl`, and with them all documents that they refer to: what is not in the registry is asked of `retrieve`, a function from a URI to a document,
    which raises an exception or answers `None` where it has none. Values in answers are those of the documents that were given, not copies, so they must not change.

    `parent` is a registry whose documents are seen where this one has none, or meta-schemas, each under its URI, which are made such a registry.
    `draft` is the draft of documents that name none, `limit` says how many documents may be retrieved, and `timeout` how many seconds a call to the program may take, after
    which it is ended and `CallTimedOut` raised. A document that can't be had, and an identifier or a reference that is no URI reference, are errors as soon as the
    program gets the documents. With `allow_missing` they are only where such a reference is looked up, and such an identifier counts as none. The meta-schemas of the drafts are there where the package
    `jsonschema-specifications` is installed.
    """

    __slots__ = ("_documents", "_retrieve", "_draft", "_limit", "_allow_missing", "_timeout", "_retrieved", "_base", "_parent", "_tolerant", "_with_meta", "_opened", "__weakref__")

    def __init__(
        self,
        resources: Union[Mapping[str, Any], Pairs] = (),
        retrieve: Optional[Callable[[str], Any]] = None,
        *,
        parent: Union["Registry", Mapping[str, Any], Pairs, None] = None,
        draft: Draft = DRAFT202012,
        limit: Optional[int] = None,
        allow_missing: bool = False,
        timeout: Optional[float] = None,
    ) -> None:
        if isinstance(resources, dict) and _is_schema(resources):
            raise TypeError("A Registry takes documents, each under a URI, as {'https://example.com/a': schema}; this is a schema by itself")
        pairs = resources.items() if isinstance(resources, Mapping) else resources
        self._documents: Dict[str, Resource] = {uri.rstrip("#"): _resource(given) for uri, given in pairs}
        self._retrieve = retrieve
        self._draft = draft
        self._limit = limit
        self._allow_missing = allow_missing
        self._timeout = timeout
        self._retrieved: Dict[str, Resource] = {}
        # The same registry with `allow_missing`, once one of its documents was missing.
        self._tolerant: Optional[Registry] = None
        # Whether a meta-schema was wanted of it.
        self._with_meta = False
        # The parent that the caller gave; `_parent` is the registry that this one was made from, where it is opened behind that.
        self._base: Optional[Registry] = parent if parent is None or isinstance(parent, Registry) else Registry(parent)
        self._parent: Optional[Registry] = None
        self._opened: Optional[_Opened] = None

    def with_resource(self, uri: str, resource: Any) -> "Registry":
        """A registry with one document more: a `Resource`, or a schema by itself."""
        return self.with_resources([(uri, resource)])

    def with_resources(self, pairs: Pairs) -> "Registry":
        """A registry with more documents. One under the URI of another takes its place."""
        added = {uri.rstrip("#"): _resource(given) for uri, given in pairs}
        depth, registry = 1, self
        while registry._parent is not None:
            depth, registry = depth + 1, registry._parent
        if self._is_open() and depth < _DEPTH and not any(self._has_given(uri) for uri in added):
            return self._evolved(added, {}, self)
        return self._evolved({**self._all(), **added}, self._all_retrieved(), None)

    def with_contents(self, pairs: Pairs, default_specification: Optional[Draft] = None) -> "Registry":
        """A registry with more documents, each by the draft that it names, or the default one, or that of the registry.

        >>> registry = Registry().with_contents([("u:a", {"definitions": {"b": {"id": "#c"}}})], default_specification=DRAFT4)
        >>> registry.resolver("u:a").lookup("#c").contents
        {'id': '#c'}
        """
        return self.with_resources((uri, Resource(contents, None if _named(contents) else default_specification)) for uri, contents in pairs)

    def with_yaml(self, uri: str, text: str) -> "Registry":
        """A registry with one document more, which is given as a text of YAML. `NotYaml` where the text isn't read as one.

        >>> registry = Registry().with_yaml("u:a", "properties:\\n  item: {$ref: '#/$defs/item'}\\n$defs:\\n  item: {type: string}")
        >>> registry.resolver("u:a").lookup("#/$defs/item").contents
        {'type': 'string'}
        """
        return self.with_resource(uri, Resource(_from_yaml(text, uri, self._timeout)))

    def remove(self, uri: str) -> "Registry":
        """A registry without the document under a URI. `NoSuchResource` where there is none.

        >>> list(Registry({"u:a": True, "u:b": False}).remove("u:a"))
        ['u:b']
        """
        documents = self._all()
        if documents.pop(uri.rstrip("#"), None) is None:
            raise NoSuchResource(uri)
        return self._evolved(documents, self._all_retrieved(), None)

    def get_or_retrieve(self, uri: str) -> "Retrieved":
        """The document under a URI, or the schema with that identifier, or else what `retrieve` answers; with the registry that has it. `NoSuchResource` where there is none,
        `Unretrievable` where `retrieve` refuses.

        >>> Registry({"u:a": {"type": "null"}}).get_or_retrieve("u:a").value.contents
        {'type': 'null'}
        """
        try:
            return Retrieved(self[uri], self)
        except NoSuchResource:
            if self._retrieve is None:
                raise
        error = Unretrievable(uri, "The document isn't there")
        error.uri = uri
        resource = self._asked_for(error)
        return Retrieved(resource, self.with_resource(uri, resource))

    def anchor(self, uri: str, name: str) -> "Retrieved":
        """The anchor with a name in the resource under a URI, with the registry. `NoSuchAnchor` where no schema has it.

        >>> Registry({"u:a": {"not": {"$anchor": "n"}}}).anchor("u:a", "n").value.resource.contents
        {'$anchor': 'n'}
        """
        resolved = self.resolver(uri).lookup("#" + _fragment(name))
        resource = Resource(resolved.contents, resolved.specification)
        for anchor in resource.anchors():
            if anchor.name == name:
                return Retrieved(anchor, self)
        raise NoSuchAnchor(name, f"Anchor {name!r} does not exist")

    def __rmatmul__(self, new: Any) -> "Registry":
        """A registry with a document, or several, under their own identifiers: `resource @ registry`. `NoInternalID` for one without.

        >>> list([Resource({"$id": "u:a"}), Resource({"$id": "u:b"})] @ Registry())
        ['u:a', 'u:b']
        """
        resources = [_resource(it) for it in (new if isinstance(new, (list, tuple)) else [new])]
        pairs = []
        for resource in resources:
            uri = resource.id()
            if uri is None:
                raise NoInternalID(resource)
            pairs.append((uri, resource))
        return self.with_resources(pairs)

    @property
    def _resources(self) -> Any:
        raise TypeError("Validators of jsonschema take registries of `referencing` alone: ask patchsard.jsonschema.validator_for(schema, registry=..) for one with this registry")

    def combine(self, *registries: "Registry") -> "Registry":
        """A registry with the documents of all. Only one of them may have a `retrieve` of its own, and only one a parent.

        >>> list(Registry({"u:a": True}).combine(Registry({"u:b": True}), Registry({"u:c": True})))
        ['u:a', 'u:b', 'u:c']
        """
        documents, retrieved, retrieve, base = self._all(), self._all_retrieved(), self._retrieve, self._base
        for registry in registries:
            documents.update(registry._all())
            retrieved.update(registry._all_retrieved())
            if registry._retrieve is not None and registry._retrieve is not retrieve:
                if retrieve is not None:
                    raise ValueError("The registries have different functions to retrieve")
                retrieve = registry._retrieve
            if registry._base is not None and registry._base is not base:
                if base is not None:
                    raise ValueError("The registries have different parents")
                base = registry._base
        new = self._evolved(documents, retrieved, None)
        new._retrieve, new._base = retrieve, base
        return new

    def crawl(self) -> "Registry":
        """This registry, after the program has got its documents; so what is wrong with them shows here."""
        self._open()
        return self

    def resolver(self, base_uri: str = "") -> "Resolver":
        """A resolver of references that stand in the document with that URI."""
        return Resolver(self, base_uri, ())

    def resolver_with_root(self, resource: Any) -> "Resolver":
        """A resolver of references that stand in a document, which needs no URI, and is added to the registry.

        >>> Registry({"u:b": {"const": 1}}).resolver_with_root(Resource({"$ref": "u:b"})).lookup("u:b").contents
        {'const': 1}
        """
        resource = _resource(resource)
        return self._with_root(resource).resolver("").in_subresource(resource)

    def contents(self, uri: str) -> Schema:
        """The document under a URI, or the schema with that identifier."""
        return self[uri].contents

    def dangling(self) -> "List[Dangling]":
        """The references by `$ref` of the registry's documents, and of those that they wanted, that find nothing, each with the exception that a look-up of it raises. A document
        that isn't there, and a text that is no URI reference, keep none of the others from being listed.

        >>> [(it.pointer, str(it.error)) for it in Registry({"u:a": {"not": {"$ref": "u:b#/c"}, "items": {"$ref": "#/d"}}}).dangling()]
        [('/items', "'#/d': Pointer '/d' does not exist"), ('/not', "'u:b#/c': Resource 'u:b' is not present in a registry and retrieving it failed: Retrieving external resources is not supported once the registry is populated")]
        """

        def listed(opened: _Opened) -> List[Dangling]:
            told = [(it["document"], it["pointer"], it["error"]) for it in opened.ask("", "dangling")]
            told += [(it.document, it.pointer, it.error) for it in opened.unmet if it.keyword == "$ref"]
            told.sort(key=lambda it: it[:2])
            documents = opened.documents
            return [Dangling(documents[number], pointer, from_answer(error, _at(documents[number], pointer)["$ref"])) for number, pointer, error in told]

        return self._as_one()._opened_as_far()._again(listed)

    def survey(self) -> "List[Surveyed]":
        """What `patchsard lint` looks at beside what keywords lead to: the objects of descriptions of OpenAPI and Swagger, what their references lead to, and what references of
        schemas lead to where no keyword does, each once.

        >>> [(it.pointer, it.kind, it.version) for it in Registry({"u:a": {"openapi": "3.0.3", "paths": {"/a": {"$ref": "#/x-a"}}, "x-a": {}}}).survey()]
        [('', 'description', '3.0'), ('/paths', 'paths object', '3.0'), ('/paths/~1a', 'path item', '3.0'), ('/x-a', 'path item', '3.0')]
        """

        def listed(opened: _Opened) -> List[Surveyed]:
            documents = opened.documents
            return [
                Surveyed(documents[it["document"]], it["pointer"], it["base"], it["kind"], it.get("version"), _BY_NAME.get(it.get("draft", "")))
                for it in opened.ask("", "survey")
            ]

        return self._as_one()._opened_as_far()._again(listed)

    def compare(self, after: "Registry", moves: "Iterable[Tuple[Tuple[str, str], Tuple[str, str]]]" = ()) -> "Optional[Difference]":
        """What differs first where these documents are changed to those of `after`, which has them in the same order; or `None` where each reference keeps leading where it led, under
        every dynamic scope. `moves` says which values are elsewhere then, by the URIs of their documents and JSON Pointers there; what is in such a value moves along.
        With `allow_missing`, a reference into a document that isn't there counts as none.

        >>> before = Registry({"u:a": {"$ref": "#/$defs/b", "$defs": {"b": {}}}})
        >>> after = Registry({"u:a": {"$ref": "#/$defs/c", "$defs": {"c": {}}}})
        >>> before.compare(after, [(("u:a", "/$defs/b"), ("u:a", "/$defs/c"))]) is None
        True
        >>> told = before.compare(after)
        >>> told.pointer, told.what, told.keyword, told.led, told.leads
        ('', 'OtherReference', '$ref', ('u:a', '/$defs/b'), ('u:a', '/$defs/c'))
        """
        one, other, pairs = self._as_one(), after._as_one(), list(moves)
        try:
            return _compared(*_side_by_side(one, other), pairs)
        except ProcessEnded:
            # Asking changes nothing, so it is asked once more.
            one._opened = other._opened = None
            return _compared(*_side_by_side(one, other), pairs)

    def bundle(self, uri: str) -> Schema:
        """A document with all others that it needs in it, as a new value. With `allow_missing` references to documents that aren't there stay as they are.

        >>> Registry({"u:a": {"$ref": "u:b"}, "u:b": {"const": 1}}).bundle("u:a")
        {'$defs': {'u:b': {'$id': 'u:b', 'const': 1}}, '$ref': 'u:b'}
        """

        def bundled(opened: _Opened) -> Schema:
            try:
                found = opened.ask(uri, "lookup", f',"base":{_encode(uri)},"reference":"#"')
            except Unresolvable:
                raise NoSuchResource(uri) from None
            if found["registry"] != opened.number or found["pointer"]:
                raise NoSuchResource(uri)
            number = found["document"]
            bundle = opened.ask(uri, "bundle", f',"document":{number}')["bundle"]
            for it in opened.unmet:
                document = bundle if it.document == number else _embedded(bundle, opened.uris[it.document])
                # The identifier of an embedded document is the bundle's.
                if document is not None and (it.document == number or it.pointer or it.keyword == "$ref"):
                    _at(document, it.pointer)[it.keyword] = it.text
            return bundle

        return self._as_one()._again(bundled)

    def close(self) -> None:
        """Gives back the memory that the program has for this registry. It is opened anew where it is used again."""
        opened, self._opened = self._opened, None
        if opened is not None:
            opened.close()

    def __enter__(self) -> "Registry":
        return self

    def __exit__(self, *_: object) -> None:
        self.close()

    def __getitem__(self, uri: str) -> Resource:
        registry: Optional[Registry] = self
        while registry is not None:
            found = registry._documents.get(uri.rstrip("#"))
            if found is not None:
                return found
            registry = registry._parent
        try:
            resolved = self.resolver(uri.rstrip("#"))._lookup("#", may_retrieve=False)
        except Unresolvable as error:
            if error.document is not None:
                # Another document can't be opened.
                raise
            raise NoSuchResource(uri) from None
        return Resource(resolved.contents, resolved.specification)

    def __contains__(self, uri: object) -> bool:
        """Whether a document or an identifier has this URI."""
        if not isinstance(uri, str):
            return False
        if self._has_given(uri):
            return True
        try:
            self[uri]
        except (NoSuchResource, Unresolvable):
            return False
        return True

    def _has_given(self, uri: str) -> bool:
        """Whether a document was added under this URI."""
        own = uri.rstrip("#")
        return own in self._documents or self._parent is not None and self._parent._has_given(own)

    def __iter__(self) -> Iterator[str]:
        """The URIs that documents were added under."""
        return iter(self._all())

    def __len__(self) -> int:
        return len(self._all())

    def __eq__(self, other: object) -> bool:
        return self is other

    def __hash__(self) -> int:
        return id(self)

    def __repr__(self) -> str:
        return f"<Registry of {len(self)} documents>"

    def __reduce__(self) -> Tuple[Any, ...]:
        """A registry is copied and pickled without what the program has of it."""
        state = (self._documents, self._retrieve, self._draft, self._limit, self._allow_missing, self._timeout, self._retrieved, self._base, self._parent)
        return type(self), (), state

    def __setstate__(self, state: Tuple[Any, ...]) -> None:
        self._documents, self._retrieve, self._draft, self._limit, self._allow_missing, self._timeout, self._retrieved, self._base, self._parent = state

    def _again(self, does: Callable[[_Opened], _T]) -> _T:
        """What is done with the opened registry; once more where the program ended meanwhile, since asking changes nothing."""
        try:
            return does(self._open())
        except ProcessEnded:
            self._opened = None
            return does(self._open())

    def _evolved(self, documents: Dict[str, Resource], retrieved: Dict[str, Resource], parent: Optional["Registry"]) -> "Registry":
        new = type(self)((), self._retrieve, draft=self._draft, limit=self._limit, allow_missing=self._allow_missing, timeout=self._timeout)
        new._documents, new._retrieved, new._base, new._parent, new._with_meta = documents, retrieved, self._base, parent, self._with_meta
        return new

    def _opened_as_far(self) -> "Registry":
        """This registry, opened; or where it can't be as a whole, the same with `allow_missing`: opened once as far as it goes, for all that ask."""
        shared = self._tolerant or self
        try:
            shared._open()
        except (Unretrievable, InvalidUri):
            shared = self._evolved(self._all(), self._all_retrieved(), None)
            shared._allow_missing, self._tolerant = True, shared
            shared._open()
        return shared

    def _with_root(self, resource: Resource) -> "Registry":
        """A registry with a document that has no URI, behind which this one stays open for the next."""
        return (self._opened_as_far() if self._documents else self._tolerant or self).with_resource("", resource)

    def _adds_meta_schemas(self, uri: str) -> bool:
        """Whether this is the URI of a meta-schema, and meta-schemas weren't wanted so far: then they are there from now on."""
        chain: List[Registry] = []
        below: Optional[Registry] = self
        while below is not None:
            chain.append(below)
            below = below._parent if below._parent is not None else below._base
        if not uri.startswith(_OF_DRAFTS) or chain[-1]._with_meta:
            return False
        chain[-1]._with_meta = True
        for registry in chain:
            registry._opened = None
        return True

    def _all(self) -> Dict[str, Resource]:
        return {**(self._parent._all() if self._parent is not None else {}), **self._documents}

    def _all_retrieved(self) -> Dict[str, Resource]:
        return {**(self._parent._all_retrieved() if self._parent is not None else {}), **self._retrieved}

    def _as_one(self) -> "Registry":
        """This registry as one of the program's, with all documents that it needs."""
        return self if self._parent is None else self._evolved(self._all(), self._all_retrieved(), None)

    def _is_open(self) -> bool:
        return self._opened is not None and not self._opened.process.ended

    def _open(self) -> _Opened:
        opened = self._opened
        if opened is not None and not opened.process.ended:
            return opened
        process = _process.shared()
        was_asked = process.asked
        try:
            opened = self._open_in(process)
        except ProcessEnded:
            # One that ran before may have ended since its last answer.
            if not was_asked:
                raise
            opened = self._open_in(_process.shared())
        self._opened = opened
        return opened

    def _open_in(self, process: _process.Process) -> _Opened:
        while True:
            try:
                return self._opened_in(process)
            except _MetaWanted:
                continue

    def _opened_in(self, process: _process.Process) -> _Opened:
        below = self._parent if self._parent is not None else self._base
        parent = below._open() if below is not None else _meta(process, self._with_meta, self._timeout)
        texts = {uri: _text(uri, resource) for uri, resource in self._documents.items()}
        retrieved = dict(self._retrieved)
        remote = {uri: _text(uri, resource) for uri, resource in retrieved.items()}
        head = self._members(parent)
        rounds = 0
        # The documents that aren't there; and whether faults are kept, which is asked for once there is one.
        missing: Set[str] = set()
        keeps = False
        while True:
            line = _sent(f'{head}{_KEEPS if keeps else ""},"documents":[{_listed(texts)}],"remote":[{_listed(remote)}]}}\n', texts, remote)
            answer = process.ask(line, self._timeout)
            if "error" in answer:
                error = _at_place(from_answer(answer["error"], answer["error"].get("uri", "")), answer["error"], texts, remote)
                if isinstance(error, CallRefused):
                    raise _refused(error, texts, remote)
                is_dialect = answer["error"].get("kind") == "meta-schema"
                if self._allow_missing and not keeps and isinstance(error, (InvalidUri, Unretrievable)) and not is_dialect:
                    keeps = True
                    continue
                if not isinstance(error, Unretrievable) or error.uri is None or error.uri in remote:
                    raise error
                if self._adds_meta_schemas(error.uri):
                    raise _MetaWanted
                if self._retrieve is None and not self._allow_missing:
                    raise error
                found = self._retrieved_unless_missing(error)
                # In place of a meta-schema that isn't there the program wants some document.
                retrieved[error.uri], remote[error.uri] = found or (Resource(_MISSING), f'{{"$schema":"{self._draft.uri}"}}')
            elif keeps and self._retrieve_kept(answer["result"].get("faults", []), retrieved, remote, missing):
                _Opened(process, answer["result"]["registry"], [], parent, self._timeout, len(line)).close()
            else:
                break
            rounds += 1
            if rounds == _ROUNDS:
                self._retrieve_ahead(process, parent, texts, retrieved, remote, missing)
        result = answer["result"]
        if not isinstance(result, dict) or not {"registry", "documents", "given"} <= result.keys():
            raise ProgramNotFound(f"{process.program} answers by another protocol than this package asks by: install the program of the same version")
        documents = [retrieved[uri].contents if uri in retrieved else None for uri in result["documents"]]
        # Of those whose URIs mean the same the last takes the place of the others.
        for number, resource in zip(result["given"], self._documents.values()):
            documents[number] = resource.contents
        opened = _Opened(process, result["registry"], documents, parent, self._timeout, len(line))
        opened.uris = result["documents"]
        # The numbers of the documents that were given, and of those that were used besides, which come after them.
        numbers = result["given"] + list(range(len(set(result["given"])), len(opened.uris)))
        opened.unmet = [_Unmet(numbers[it["document"]], it["pointer"], it["keyword"], it["text"], it["error"]) for it in result.get("faults", [])]
        self._retrieved = {uri: resource for uri, resource in retrieved.items() if resource.contents is not _MISSING}
        nulls = {it.document for it in opened.unmet if not it.pointer and it.keyword in ("$id", "id")}
        resources = {**{number: retrieved[uri] for number, uri in enumerate(opened.uris) if uri in retrieved}, **dict(zip(result["given"], self._documents.values()))}
        named = {number: resource.id(self._draft) for number, resource in resources.items() if number not in nulls}
        opened.identify({number: text for number, text in named.items() if text})
        # Also by the texts that the caller gave.
        opened.identified.update({text: opened.identified[opened.uris[it]] for text, it in zip(texts, result["given"]) if opened.uris[it] in opened.identified})
        return opened

    def _retrieve_kept(self, faults: List[Dict[str, Any]], retrieved: Dict[str, Resource], remote: Dict[str, str], missing: Set[str]) -> bool:
        """Retrieves the documents that kept faults name and that weren't asked for; whether there is one of them now. Where there is no function to retrieve, none is."""
        wanted = dict.fromkeys(it["error"]["uri"] for it in faults if it["error"]["name"] == "Unretrievable" and it["error"]["uri"] not in missing)
        if any(self._adds_meta_schemas(uri) for uri in wanted):
            raise _MetaWanted
        has_more = False
        for uri in wanted if self._retrieve is not None else ():
            error = Unretrievable(uri, "The document isn't there")
            error.uri = uri
            found = self._retrieved_unless_missing(error)
            if found is None:
                missing.add(uri)
                continue
            if len(remote) >= self._most():
                limited = RetrievalLimit("", f"More than {self._most()} documents are wanted")
                limited.uri = uri
                raise limited
            retrieved[uri], remote[uri] = found
            has_more = True
        return has_more

    def _most(self) -> int:
        """How many documents may be retrieved."""
        return 10000 if self._limit is None else self._limit

    def _members(self, parent: Optional[_Opened]) -> str:
        """The begin of a call `open`."""
        members = f'{{"call":"open","draft":"{self._draft.name}"'
        if parent is not None:
            members += f',"parent":{parent.number}'
        if self._limit is not None:
            members += f',"limit":{self._limit}'
        return members

    def _retrieve_ahead(
        self, process: _process.Process, parent: Optional[_Opened], texts: Dict[str, str], retrieved: Dict[str, Resource], remote: Dict[str, str], missing: Set[str]
    ) -> None:
        """Retrieves what documents want, asking about each by itself, and then about what was retrieved. By `open` of all together each would be sent again for
        each that is retrieved. What can't be had is left to that `open`, which decides."""
        answer = process.ask(f'{self._members(parent)},"documents":[{_listed(dict.fromkeys(texts, "true"))}]}}\n'.encode("utf-8"), self._timeout)
        if "error" in answer:
            return
        stubs = _Opened(process, answer["result"]["registry"], [], parent, self._timeout)
        known = {*answer["result"]["documents"], *remote}
        most = self._most()
        level = {**texts, **remote}
        while level:
            wanted: Dict[str, Unretrievable] = {}
            for uri, text in level.items():
                wants, identifiers = self._wants(stubs, uri, text)
                wanted.update(wants)
                known |= identifiers
            level = {}
            for uri, error in wanted.items():
                if uri in known or len(remote) > most:
                    continue
                if self._adds_meta_schemas(uri):
                    raise _MetaWanted
                known.add(uri)
                try:
                    found = self._retrieved_unless_missing(error)
                except Unretrievable:
                    continue
                if found is None:
                    missing.add(uri)
                else:
                    retrieved[uri], remote[uri] = found
                    level[uri] = remote[uri]

    def _wants(self, stubs: _Opened, uri: str, text: str) -> Tuple[Dict[str, Unretrievable], Set[str]]:
        """The documents that a document wants, beside those that there are stubs of, and the base URIs in it."""
        wants: Dict[str, Unretrievable] = {}
        head = f'{self._members(stubs)},"documents":[{_listed({uri: text})}],"remote":['
        while True:
            stub = f'{{"$schema":"{self._draft.uri}"}}'
            answer = stubs.process.ask(f"{head}{_listed(dict.fromkeys(wants, stub))}]}}\n".encode("utf-8"), self._timeout)
            if "error" not in answer:
                opened = _Opened(stubs.process, answer["result"]["registry"], [], stubs, self._timeout)
                return wants, {it["base"] for it in opened.ask("", "places") if it["document"] == 0}
            error = from_answer(answer["error"], answer["error"].get("uri", ""))
            if not isinstance(error, Unretrievable) or error.uri is None or error.uri in wants:
                return wants, set()
            wants[error.uri] = error

    def _asked_for(self, error: Unretrievable) -> Resource:
        """What the caller's function retrieves."""
        if self._retrieve is None or error.uri is None:
            raise error
        try:
            given = self._retrieve(error.uri)
        except Exception as cause:
            raise error from cause
        if given is None:
            raise error
        return _resource(given)

    def _retrieved_unless_missing(self, error: Unretrievable) -> Optional[Tuple[Resource, str]]:
        """What the caller's function retrieves, with its text; or none where it isn't there and may be missing."""
        try:
            resource = self._asked_for(error)
        except Unretrievable:
            if not self._allow_missing:
                raise
            return None
        return resource, _text(error.uri or "", resource)


def _embedded(bundle: Schema, uri: str) -> Optional[Schema]:
    """The document with a URI in a bundle."""
    for keyword in ("$defs", "definitions"):
        among = bundle.get(keyword) if isinstance(bundle, dict) else None
        if isinstance(among, dict) and uri in among:
            return among[uri]
    return None


class Retrieved(NamedTuple):
    """A document or an anchor, and the registry that has it."""

    value: Any
    registry: Registry


class Resolved:
    """What a reference leads to: `contents`, the caller's own value, and `resolver`, which resolves the references that stand in it."""

    __slots__ = ("contents", "resolver", "_draft")

    def __init__(self, contents: Schema, resolver: "Resolver", draft: str) -> None:
        self.contents = contents
        self.resolver = resolver
        self._draft = draft

    @property
    def specification(self) -> Optional[Draft]:
        """The draft by which the value is read, or `None` for an unknown one."""
        return _BY_NAME.get(self._draft)

    def __eq__(self, other: object) -> bool:
        return isinstance(other, Resolved) and self.contents is other.contents and self.resolver == other.resolver

    def __hash__(self) -> int:
        return hash((id(self.contents), self.resolver._base_uri))

    def __repr__(self) -> str:
        return f"Resolved({self.contents!r}, {self.resolver!r})"


class Dangling(NamedTuple):
    """A reference that finds nothing: the document it stands in, the pointer to its schema there, and the exception that a look-up of it raises."""

    document: Schema
    pointer: str
    error: Exception

    @property
    def contents(self) -> Schema:
        """The schema whose reference it is."""
        return _at(self.document, self.pointer)


class Difference(NamedTuple):
    """What differs of a subschema: the URI of its document before and the pointer to it there, and what, by the name that `docs/PROTOCOL.md` gives it. Of a reference also its keyword, its
    texts before and after, and where each leads, as the URI of a document and a pointer."""

    uri: str
    pointer: str
    what: str
    keyword: Optional[str] = None
    reference: Optional[str] = None
    now: Optional[str] = None
    led: Optional[Tuple[str, str]] = None
    leads: Optional[Tuple[str, str]] = None


def _side_by_side(one: Registry, other: Registry) -> Tuple[_Opened, _Opened]:
    """Two registries, opened in one process."""
    opened, then = one._open(), other._open()
    if opened.process is not then.process:
        one.close()
        other.close()
        opened, then = one._open(), other._open()
    return opened, then


def _compared(opened: _Opened, then: _Opened, moves: Sequence[Tuple[Tuple[str, str], Tuple[str, str]]]) -> Optional[Difference]:
    sent = [[_address(opened, of), _address(then, to)] for of, to in moves]
    told = opened.ask("", "compare", f',"after":{then.number},"moves":{_encode(sent)}')["difference"]
    if told is None:
        return None
    before, now = told.get("before"), told.get("after")
    texts = (None, None) if before is None else (before["reference"], now["reference"])
    ends = (None, None) if before is None else (_end(opened, before), _end(then, now))
    return Difference(opened.uris[told["document"]], told["pointer"], told["what"], told.get("keyword"), *texts, *ends)


def _address(opened: _Opened, address: Tuple[str, str]) -> List[Any]:
    uri, pointer = address
    try:
        found = opened.ask(uri, "lookup", f',"base":{_encode(uri)},"reference":"#"')
    except Unresolvable:
        raise NoSuchResource(uri) from None
    if found["registry"] != opened.number or found["pointer"]:
        raise NoSuchResource(uri)
    return [found["document"], pointer]


def _end(opened: _Opened, told: Dict[str, Any]) -> Optional[Tuple[str, str]]:
    if "document" not in told:
        return None
    return opened.layer(told["registry"]).uris[told["document"]], told["pointer"]


class Surveyed(NamedTuple):
    """A place of a document: the document, the pointer to the place there, its base URI, the kind of object that it is (`"schema"`, `"path item"`, ..), the version of the
    description that it is in, and of a schema that is read by a draft of JSON Schema the draft."""

    document: Schema
    pointer: str
    base_uri: str
    kind: str
    version: Optional[str]
    specification: Optional[Draft]

    @property
    def contents(self) -> Schema:
        """What is there."""
        return _at(self.document, self.pointer)


class _End(NamedTuple):
    """The end of a scope that the program keeps: of which opened registry, its number, and how many URIs it has."""

    opened: "weakref.ReferenceType[_Opened]"
    number: int
    length: int


# An answer to a look-up: the value, the base there, the scope in front of the one that was asked with, and the draft.
_Found = Tuple[Schema, str, Tuple[str, ...], str]


def _fragment_of(ref: str) -> str:
    """The fragment of a reference, as the program has it: what is after a `#` in front, or else after the last."""
    at = 0 if ref[:1] == "#" else ref.rfind("#")
    return "" if at < 0 else ref[at + 1 :]


def _is_by_scope(ref: str) -> bool:
    """Whether a reference may be to a dynamic anchor, whose meaning is by the whole scope: one with a fragment that is no JSON Pointer."""
    if ref[:1] == "#":
        return ref[1:2] not in ("", "/")
    at = ref.rfind("#")
    return at >= 0 and ref[at + 1 : at + 2] not in ("", "/")


def _is_dynamic(found: Schema, ref: str) -> bool:
    """Whether an anchor may be a dynamic one, where this schema was found under it."""
    name = _fragment_of(ref)
    return "%" in name or isinstance(found, dict) and found.get("$dynamicAnchor") == name


class Resolver:
    """Looks references up from a base URI. It is made by a registry, and doesn't change."""

    __slots__ = ("_registry", "_base_uri", "_scope", "_end")

    def __init__(self, registry: Registry, base_uri: str, scope: Sequence[str], end: "Optional[_End]" = None) -> None:
        self._registry = registry
        self._base_uri = base_uri
        self._scope = tuple(scope)
        # The end of the scope that the program keeps, where it keeps one.
        self._end = end

    def __reduce__(self) -> Tuple[Any, ...]:
        return Resolver, (self._registry, self._base_uri, self._scope)

    @property
    def base_uri(self) -> str:
        """The URI that references are resolved against."""
        return self._base_uri

    def dynamic_scope(self) -> Iterator[Tuple[str, Registry]]:
        """The URIs of the dynamic scope, the innermost first, each with the registry."""
        return ((uri, self._registry) for uri in self._scope)

    def lookup(self, ref: str) -> Resolved:
        """Where a reference leads. Raises `Unresolvable`, or a class below it, where it finds nothing."""
        if not isinstance(ref, str):
            raise TypeError(f"A reference is a str; this is {type(ref).__name__}")
        opened = self._registry._opened
        if opened is not None and not opened.process.ended:
            found = opened.kept.get((self._base_uri, ref, not self._scope))
            if found is not None:
                return self._from(found)
        return self._lookup(ref)

    @overload
    def lookup_all(self, refs: Iterable[str], return_exceptions: Literal[False] = False) -> List[Resolved]: ...

    @overload
    def lookup_all(self, refs: Iterable[str], return_exceptions: bool) -> List[Union[Resolved, Unresolvable]]: ...

    def lookup_all(self, refs: Iterable[str], return_exceptions: bool = False) -> List[Any]:
        """Where each of several references leads, asked at once. The first that finds nothing is raised, or with `return_exceptions` stands in its place.

        >>> resolver = Registry({"u:a": {"$defs": {"b": True}}}).resolver("u:a")
        >>> [it.contents for it in resolver.lookup_all(["#/$defs/b", "#/$defs"])]
        [True, {'b': True}]
        """
        refs = list(refs)
        for ref in refs:
            if not isinstance(ref, str):
                raise TypeError(f"A reference is a str; this is {type(ref).__name__}")
        found: List[Any] = []
        # A longer list is asked in parts: the program answers one while its reader takes the one before.
        for start in range(0, len(refs), _MOST_AT_ONCE):
            found += self._registry._again(lambda opened: self._looked_up(opened, refs[start : start + _MOST_AT_ONCE], return_exceptions))
        return found

    def _looked_up(self, opened: _Opened, refs: List[str], return_exceptions: bool) -> List[Any]:
        # What was looked up before isn't asked again.
        kept, base, is_first = opened.kept, self._base_uri, not self._scope
        found: List[Any] = [None] * len(refs)
        left = []
        for number, ref in enumerate(refs):
            before = kept.get((base, ref, is_first))
            if before is None:
                left.append(number)
            else:
                found[number] = self._from(before)
        if left and not _is_sendable("".join(refs)):
            for number in [it for it in left if not _is_sendable(refs[it])]:
                found[number] = _half_pair(refs[number])
                if not return_exceptions:
                    raise found[number]
                left.remove(number)
        if left:
            asked = [refs[number] for number in left]
            for number, it in zip(left, self._all_asked(opened, asked, return_exceptions)):
                found[number] = it
        return found

    def _all_asked(self, opened: _Opened, refs: List[str], return_exceptions: bool) -> Iterator[Any]:
        by_scope = [_is_by_scope(ref) for ref in refs]
        value, identified, scope = opened.value, opened.identified, self._sent_scope(opened, any(by_scope))
        is_first, base = not self._scope, self._base_uri
        kept = opened.room_for(len(refs))
        last_base, last_scope, last = None, None, self
        for ref, may_be_dynamic, answer in zip(refs, by_scope, opened.ask("", "lookup", self._members(opened, scope) + ',"reference":' + _encode(refs))):
            try:
                if "error" in answer:
                    yield self._retried(ref, from_answer(answer["error"], ref))
                elif identified and opened.uri_of(answer) in identified:
                    yield self._found(opened, ref)
                else:
                    contents = value(answer)
                    if answer["base"] != last_base or answer["scope"] != last_scope:
                        # Most of a list lead to places with the same base and scope.
                        last_base, last_scope = answer["base"], answer["scope"]
                        in_front = tuple(last_scope[: len(last_scope) - len(scope)])
                        last = Resolver(self._registry, last_base, in_front + self._scope, self._end)
                    if not may_be_dynamic or not _is_dynamic(contents, ref):
                        kept[base, ref, is_first] = (contents, last_base, in_front, answer["draft"])
                    yield Resolved(contents, last, answer["draft"])
            except Unresolvable as error:
                if not return_exceptions:
                    raise
                yield error

    def in_subresource(self, subresource: Any) -> "Resolver":
        """The resolver inside of a subschema, whose identifier changes the base URI where it has one. A schema without an identifier isn't sent."""
        contents = getattr(subresource, "contents", subresource)
        if not isinstance(contents, dict) or "$id" not in contents and "id" not in contents:
            return self
        specification = getattr(subresource, "_specification", None)
        resource = _resource(subresource)
        contents = resource.contents
        if specification is not None and resource.specification is None:
            return self
        # Nothing else of the schema matters to its identifier.
        members = {key: contents[key] for key in ("$id", "id", "$ref", "$schema") if key in contents}
        draft = resource.specification or self._registry._draft
        if resource.specification is not None:
            members["$schema"] = draft.uri
        more = f',"draft":"{draft.name}","schema":{_encode(members)}'

        def entered(opened: _Opened) -> str:
            key = (self._base_uri, more, None)
            base = opened.kept.get(key)
            if base is None:
                base = opened.ask("", "enter", self._members(opened, ()) + more)["base"]
                opened.keep(key, base)
            return base

        try:
            base = self._registry._again(entered)
        except InvalidUri:
            if not self._registry._allow_missing:
                raise
            # An identifier that is no URI reference counts as none.
            return self
        return self if base == self._base_uri else Resolver(self._registry, base, self._scope, self._end)

    def lookup_recursive_ref(self) -> Resolved:
        """Where `$recursiveRef` leads, in 2019-09."""

        def found(opened: _Opened) -> Resolved:
            sent = self._sent_scope(opened, True)
            answer = opened.ask("#", "recursive", self._members(opened, sent))
            return self._from((opened.value(answer), answer["base"], tuple(answer["scope"][: len(answer["scope"]) - len(sent)]), answer["draft"]))

        return self._registry._again(found)

    def __eq__(self, other: object) -> bool:
        return isinstance(other, Resolver) and (self._registry, self._base_uri, self._scope) == (other._registry, other._base_uri, other._scope)

    def __hash__(self) -> int:
        return hash((self._registry, self._base_uri))

    def __repr__(self) -> str:
        return f"<Resolver at {self._base_uri!r}>"

    def _members(self, opened: _Opened, scope: Sequence[Union[str, int]]) -> str:
        return opened.members(self._base_uri, scope)

    def _sent_scope(self, opened: _Opened, is_by_scope: bool) -> Tuple[Union[str, int], ...]:
        """As much of the scope as matters: all of it to a dynamic anchor; to others whether it is empty, so that the innermost is enough. Of a long one the program keeps the end."""
        if not is_by_scope:
            return self._scope[:1]
        scope, end = self._scope, self._end
        if end is not None and end.opened() is not opened:
            self._end = end = None
        front: Tuple[Union[str, int], ...] = scope if end is None else (*scope[: len(scope) - end.length], end.number)
        if len(front) > _FRONT:
            number = opened.scope_number(scope, front)
            if number is not None:
                self._end, front = _End(weakref.ref(opened), number, len(scope)), (number,)
        return front

    def _found(self, opened: _Opened, ref: str) -> Resolved:
        """Where a reference leads in the opened registry."""
        base, scope = self._base_uri, self._scope
        key: Any = (base, ref, not scope)
        found = opened.kept.get(key)
        if found is not None:
            return self._from(found)
        is_by_scope = _is_by_scope(ref)
        sent = self._sent_scope(opened, True) if is_by_scope and scope else scope[:1]
        if is_by_scope and len(sent) <= _LONG_SCOPE:
            found = opened.kept.get((base, ref, sent))
            if found is not None:
                return self._from(found)
        beside = opened.beside(base, ref, not scope) if not is_by_scope or len(sent) <= _SHORT_SCOPE else []
        answer = self._looked_up_with(opened, sent, ref, beside) if beside else opened.looked_up(base, sent, ref)
        opened.run.answer = answer
        in_front = answer["scope"]
        before = tuple(in_front[: len(in_front) - len(sent)] if sent else in_front)
        if opened.identified:
            answer = self._identified(opened, ref, self._members(opened, sent), answer)
        contents = opened.value(answer)
        found = (contents, answer["base"], before, answer["draft"])
        if not is_by_scope or not _is_dynamic(contents, ref):
            opened.keep(key, found)
        elif len(sent) <= _LONG_SCOPE:
            opened.keep((base, ref, sent), found)
        return self._from(found)

    def _looked_up_with(self, opened: _Opened, sent: Tuple[Union[str, int], ...], ref: str, others: List[str]) -> Dict[str, Any]:
        """What the program answers to a look-up, with which others are asked, whose answers are kept."""
        base, is_first, kept = self._base_uri, not self._scope, opened.room_for(len(others) + 1)
        first, *answers = opened.ask(ref, "lookup", f'{self._members(opened, sent)},"reference":{_encode([ref, *others])}')
        for other, answer in zip(others, answers):
            if "error" in answer or opened.identified and opened.uri_of(answer) in opened.identified:
                continue
            try:
                contents = opened.value(answer)
            except Unretrievable:
                continue
            if not _is_by_scope(other) or not _is_dynamic(contents, other):
                kept[base, other, is_first] = (contents, answer["base"], tuple(answer["scope"][: len(answer["scope"]) - len(sent)]), answer["draft"])
        if "error" in first:
            raise from_answer(first["error"], ref)
        return first

    def _from(self, found: _Found) -> Resolved:
        """What was found, from here."""
        contents, base, in_front, draft = found
        return Resolved(contents, Resolver(self._registry, base, in_front + self._scope if in_front else self._scope, self._end), draft)

    def _identified(self, opened: _Opened, ref: str, members: str, answer: Dict[str, Any]) -> Dict[str, Any]:
        """The answer to a look-up, with the base that a document's own identifier gives (RFC 3986, 5.1.1 goes before 5.1.3), also where the reference names the document by the
        URI that it was given under."""
        fragment = _fragment_of(ref)
        document = ref[: len(ref) - len(fragment)]
        document = document[:-1] if document[-1:] == "#" else document
        uri = opened.uri_of(answer)
        if not document or uri not in opened.identified:
            return answer
        whole = answer if document == ref else opened.ask(ref, "lookup", members + ',"reference":' + _encode(document))
        if whole["base"] != uri or whole["pointer"]:
            return answer
        return opened.ask(ref, "lookup", f',"base":{_encode(opened.identified[uri])},"scope":{_encode(self._scope)},"reference":{_encode("#" + fragment)}')

    def _lookup(self, ref: str, may_retrieve: bool = True) -> Resolved:
        registry = self._registry
        try:
            try:
                return self._found(registry._open(), ref)
            except ProcessEnded:
                # Asking changes nothing, so it is done once more, by another process.
                registry._opened = None
                return self._found(registry._open(), ref)
        except Unretrievable as error:
            return self._retried(ref, error, may_retrieve)

    def _retried(self, ref: str, error: Exception, may_retrieve: bool = True) -> Resolved:
        """What a reference finds in a registry with the document that wasn't there, where it can be retrieved."""
        if not isinstance(error, Unretrievable) or error.uri is None:
            raise error
        if self._registry._adds_meta_schemas(error.uri):
            return self._lookup(ref, may_retrieve)
        if not may_retrieve or self._registry._retrieve is None:
            raise error
        registry = self._registry.with_resource(error.uri, self._registry._asked_for(error))
        return Resolver(registry, self._base_uri, self._scope)._lookup(ref, may_retrieve=False)
