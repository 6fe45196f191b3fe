"""What can go wrong. The classes of the program's errors have the names that its protocol gives them."""
from __future__ import annotations

from typing import Any, Dict, Optional, Sequence, Type


class PatchsardError(Exception):
    """What every exception of this package is."""


class Unresolvable(PatchsardError):
    """A reference finds no value.

    `ref` is the reference, or the URI of the document that isn't there; `message` is a sentence for people. Where documents can't be opened, `document` is the URI of the one
    that is at fault, and `pointer` leads to the schema there, as far as they are known.
    """

    document: Optional[str] = None
    pointer: Optional[str] = None

    def __init__(self, ref: str, message: str = "") -> None:
        super().__init__(ref, message)
        self.ref = ref
        self.message = message

    def __str__(self) -> str:
        where = "" if self.document is None else f", in the document {self.document!r}, at {self.pointer!r}"
        if not self.ref:
            return (self.message or repr(self.ref)) + where
        return (f"{self.ref!r}: {self.message}" if self.message else repr(self.ref)) + where


class PointerToNowhere(Unresolvable):
    """A JSON Pointer leads to no value of the document."""


class InvalidArrayIndex(PointerToNowhere):
    """A JSON Pointer goes into an array by what is no index."""


class InvalidPercentEncoding(PointerToNowhere):
    """The fragment that holds a JSON Pointer has a broken percent-encoding."""


class NoSuchAnchor(Unresolvable):
    """No schema of the resource has this anchor."""


class InvalidAnchor(Unresolvable):
    """The fragment is neither a JSON Pointer nor the name of an anchor."""


class InvalidUri(Unresolvable):
    """The reference is no URI reference. `field` is the member of the call whose text is none, and `index` the number of the item there, where the program says them."""

    field: Optional[str] = None
    index: Optional[int] = None


class Unretrievable(Unresolvable):
    """A document that a reference names isn't there. `uri` is its URI, where it is known."""

    uri: Optional[str] = None


class UnknownSpecification(Unretrievable):
    """A meta-schema that a `$schema` names isn't there."""


class RetrievalLimit(Unresolvable):
    """The documents want more documents than the registry's `limit` allows. `uri` is the first that is wanted beyond it, where it is known; `ref` is empty: it is no one reference's fault."""

    uri: Optional[str] = None


class NotBundled(PatchsardError):
    """The document can't be written as one with all that it needs. `reason` is the name of what is in the way."""

    reason: Optional[str] = None


class NotLinted(PatchsardError, ValueError):
    """Files can't be linted as asked: a path can't be read, or an option is wrong. The text is what the program said; `findings` are those of the files that it read all the same."""

    findings: Sequence[Any] = ()


class NotYaml(PatchsardError, ValueError):
    """A text isn't read as YAML of one document. `reason` is the name of what is wrong, as `same-key`, `line` and `column` say where, counted from 1, and `document` is its URI,
    where it has one.
    """

    reason: Optional[str] = None
    document: Optional[str] = None
    line: Optional[int] = None
    column: Optional[int] = None


class NoSuchResource(PatchsardError, KeyError):
    """No document and no identifier of a registry has this URI. A caller's `retrieve` may raise it too."""

    def __init__(self, ref: str) -> None:
        super().__init__(ref)
        self.ref = ref


class NoInternalID(PatchsardError):
    """A document that is added by its own identifier has none. `resource` is the document."""

    def __init__(self, resource: Any) -> None:
        super().__init__(resource)
        self.resource = resource


class CannotDetermineSpecification(PatchsardError):
    """A document names no draft that is known, and no default was given. `contents` is the document."""

    def __init__(self, contents: Any) -> None:
        super().__init__(contents)
        self.contents = contents


class ProcessEnded(PatchsardError, RuntimeError):
    """The program ended while it was asked. The next registry starts another, and those that were open are opened in it anew."""


class CallTimedOut(PatchsardError, TimeoutError):
    """The program took longer for a call than the `timeout` of the registry, or of `lint`, and was ended. The next call starts another."""


class ProgramNotFound(PatchsardError, RuntimeError):
    """The program `patchsard` isn't there."""


class CallRefused(PatchsardError, ValueError):
    """The program takes a call, or a document in it, for malformed. `name` is the name of the error in the protocol; `field` is the member of the call that it is about,
    `index` the number of the item there, `offset` the byte of the line, and `reason` why a line is no JSON, where the program says them. Where a document can't be sent, `document` is its
    URI and `reason` is `"depth"`, `"number"` or `"surrogate"`.
    """

    document: Optional[str] = None
    reason: Optional[str] = None

    field: Optional[str] = None
    index: Optional[int] = None
    offset: Optional[int] = None

    def __init__(self, name: str, message: str) -> None:
        super().__init__(name, message)
        self.name = name
        self.message = message

    def __str__(self) -> str:
        return f"{self.name}: {self.message}"


_OF_REFERENCES: Dict[str, Type[Unresolvable]] = {
    it.__name__: it
    for it in (PointerToNowhere, InvalidArrayIndex, InvalidPercentEncoding, NoSuchAnchor, InvalidAnchor, InvalidUri, Unretrievable, UnknownSpecification)
}


def from_answer(error: Dict[str, Any], ref: str) -> Exception:
    """The exception for an error of the protocol."""
    name, message = error["name"], error["message"]
    if name in _OF_REFERENCES:
        found = _OF_REFERENCES[name](ref, message)
        if isinstance(found, Unretrievable):
            found.uri = error.get("uri")
        if isinstance(found, InvalidUri):
            found.field, found.index = error.get("field"), error.get("index")
        return found
    if name == "RetrievalLimit":
        limited = RetrievalLimit("", message)
        limited.uri = error.get("uri")
        return limited
    if name == "NotBundled":
        refused = NotBundled(message)
        refused.reason = error.get("reason")
        return refused
    if name == "OutOfMemory":
        return MemoryError(message)
    malformed = CallRefused(name, message)
    malformed.field, malformed.index, malformed.offset, malformed.reason = error.get("field"), error.get("index"), error.get("offset"), error.get("reason")
    return malformed
