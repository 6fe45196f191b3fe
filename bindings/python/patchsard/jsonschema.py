"""The drafts of JSON Schema, and validators of Python's `jsonschema` whose references the program resolves.

>>> SchemaRegistry is Registry, SchemaResource is Resource, len(EMPTY_REGISTRY)
(True, True, 0)
"""
from __future__ import annotations

import copyreg
from typing import Any, Callable, Iterator, NamedTuple, Optional, Tuple

from patchsard._core import DRAFT4, DRAFT6, DRAFT7, DRAFT201909, DRAFT202012, Draft, Registry, Resolved, Resolver, Resource, _BY_URI
from patchsard.exceptions import Unresolvable

__all__ = ["DRAFT4", "DRAFT6", "DRAFT7", "DRAFT201909", "DRAFT202012", "EMPTY_REGISTRY", "SchemaRegistry", "SchemaResource", "lookup_recursive_ref", "specification_with", "validator_for"]

# As `referencing.jsonschema` names them.
SchemaRegistry = Registry
SchemaResource = Resource
EMPTY_REGISTRY = Registry()


def specification_with(dialect_id: str, default: Optional[Draft] = None) -> Draft:
    """The draft whose meta-schema has this URI; the default one where none has, or a `KeyError` without a default.

    >>> specification_with("http://json-schema.org/draft-07/schema").name
    '7'
    """
    found = _BY_URI.get(dialect_id.rstrip("#"), default)
    if found is None:
        raise KeyError(dialect_id)
    return found


def lookup_recursive_ref(resolver: Resolver) -> Resolved:
    """Where `$recursiveRef` leads, in 2019-09.

    >>> lookup_recursive_ref(Registry({"u:a": {"const": 1}}, draft=DRAFT201909).resolver("u:a")).contents
    {'const': 1}
    """
    return resolver.lookup_recursive_ref()


def validator_for(schema: Any, *, registry: Any = None, retrieve: Optional[Callable[[str], Any]] = None, default: Any = None, **options: Any) -> Any:
    """A validator of Python's `jsonschema`, version 4.18 or later, whose references the program resolves.

    `registry` is a `Registry` or one of Python's `referencing`, `retrieve` a function as a `Registry` takes it, whose documents without `$schema` have the draft of the
    validator, `default` the class for a schema without
    `$schema`, and further options, such as `format_checker`, are those of the class. A reference to a document that isn't there is an error where it is followed.
    A validator can be copied, and pickled where its class, its registry and its options can: a function to retrieve is pickled by its name, and a registry of `referencing` isn't.
    """
    import jsonschema.validators

    if not hasattr(jsonschema.validators, "_RefResolver"):
        from importlib.metadata import version

        raise ImportError(f"jsonschema 4.18 or later is needed for validators whose references the program resolves; this is {version('jsonschema')}")
    if default is None:
        kind = jsonschema.validators.validator_for(schema)
    else:
        kind = jsonschema.validators.validator_for(schema, default=default)
    dialect = (kind.ID_OF(kind.META_SCHEMA) or "").rstrip("#")
    if dialect == "http://json-schema.org/draft-03/schema":
        raise ValueError("Draft 3 isn't known")
    draft = specification_with(dialect, DRAFT202012)
    if registry is None:
        registry = Registry(retrieve=retrieve, draft=draft)
    elif retrieve is not None:
        raise ValueError("Either registry or retrieve: a registry has its own function to retrieve")
    elif not isinstance(registry, Registry):
        held = registry
        registry = Registry(retrieve=lambda uri: held.get_or_retrieve(uri).value)
    resource = Resource(schema, draft)
    own = registry._with_root(resource)
    own._allow_missing = True
    # `jsonschema` holds what can't be pickled in each of its validators.
    copyreg.pickle(kind, _reduced)
    return kind(schema, _resolver=_Resolver(own.resolver("").in_subresource(resource)), **options)


def _reduced(validator: Any) -> Tuple[Any, ...]:
    """How a validator is copied and pickled; one of `jsonschema` itself as without this."""
    if isinstance(validator._resolver, _Resolver):
        return _validator, (type(validator), validator.schema, validator._resolver, validator.format_checker)
    return object.__reduce_ex__(validator, 4)  # type: ignore[return-value]


def _validator(kind: Any, schema: Any, resolver: "_Resolver", format_checker: Any) -> Any:
    return kind(schema, _resolver=resolver, format_checker=format_checker)


class _Resolved(NamedTuple):
    contents: Any
    resolver: "_Resolver"


class _Resolver:
    """A resolver as validators of `jsonschema` ask it: what it raises is of `referencing`."""

    __slots__ = ("_resolver",)

    def __init__(self, resolver: Resolver) -> None:
        self._resolver = resolver

    def __reduce__(self) -> Tuple[Any, ...]:
        return _Resolver, (self._resolver,)

    def lookup(self, ref: str) -> _Resolved:
        try:
            resolved = self._resolver.lookup(ref)
        except Unresolvable as error:
            import referencing.exceptions

            raise referencing.exceptions.Unresolvable(ref=ref) from error
        return _Resolved(resolved.contents, _Resolver(resolved.resolver))

    def in_subresource(self, subresource: Any) -> "_Resolver":
        try:
            inner = self._resolver.in_subresource(subresource)
        except Unresolvable as error:
            import referencing.exceptions

            raise referencing.exceptions.Unresolvable(ref=error.ref) from error
        return self if inner is self._resolver else _Resolver(inner)

    def dynamic_scope(self) -> Iterator[Tuple[str, Any]]:
        return self._resolver.dynamic_scope()
