"""References of JSON Schema, resolved by the program patchsard, with the names of Python's `referencing`."""
from typing import TYPE_CHECKING, Any

from patchsard import exceptions, jsonschema
from patchsard._core import Anchor, Dangling, Difference, Draft, Registry, Resolved, Resolver, Resource, Retrieved, Surveyed, from_yaml
from patchsard.exceptions import (
    CallRefused,
    CallTimedOut,
    CannotDetermineSpecification,
    InvalidAnchor,
    InvalidArrayIndex,
    InvalidPercentEncoding,
    InvalidUri,
    NoInternalID,
    NoSuchAnchor,
    NoSuchResource,
    NotBundled,
    NotLinted,
    NotYaml,
    PatchsardError,
    PointerToNowhere,
    ProcessEnded,
    ProgramNotFound,
    RetrievalLimit,
    UnknownSpecification,
    Unresolvable,
    Unretrievable,
)

if TYPE_CHECKING:
    from patchsard._lint import Finding, Findings, Place, lint

__version__ = "0.1.0"


def __getattr__(name: str) -> Any:
    """What `lint` needs is imported where it is asked for."""
    if name in ("Finding", "Findings", "Place", "lint"):
        from patchsard import _lint

        return getattr(_lint, name)
    raise AttributeError(f"module 'patchsard' has no attribute {name!r}")


__all__ = [
    "Anchor",
    "CallRefused",
    "CallTimedOut",
    "CannotDetermineSpecification",
    "Dangling",
    "Difference",
    "Draft",
    "Finding",
    "Findings",
    "InvalidAnchor",
    "InvalidArrayIndex",
    "InvalidPercentEncoding",
    "InvalidUri",
    "NoInternalID",
    "NoSuchAnchor",
    "NoSuchResource",
    "NotBundled",
    "NotLinted",
    "NotYaml",
    "PatchsardError",
    "Place",
    "PointerToNowhere",
    "ProcessEnded",
    "ProgramNotFound",
    "Registry",
    "Resolved",
    "Resolver",
    "Resource",
    "RetrievalLimit",
    "Retrieved",
    "Surveyed",
    "UnknownSpecification",
    "Unresolvable",
    "Unretrievable",
    "exceptions",
    "from_yaml",
    "jsonschema",
    "lint",
]
