#!/usr/bin/env python3
"""Answers a request of the suite by Python's package `referencing`: reads it on standard input, and writes its report.

    suite/run --answers python3 suite/adapters/python-referencing.py

The package has no limit of retrieved documents, and no list of the references that lead nowhere: these two fields are read and not used.
The draft that is printed is that of the resource under the base at the end, or else that of the request. A document is retrieved when a
reference to it is looked up. suite/PEERS.md lists what it answers otherwise.
"""
import json
import sys

from referencing import Registry, Resource
from referencing.exceptions import NoSuchResource
from referencing.jsonschema import DRAFT4, DRAFT6, DRAFT7, DRAFT201909, DRAFT202012, lookup_recursive_ref

DRAFTS = {"4": DRAFT4, "6": DRAFT6, "7": DRAFT7, "2019-09": DRAFT201909, "2020-12": DRAFT202012}
NAMES = {specification.name: name for name, specification in DRAFTS.items()}
FIELDS = {"documents", "base", "steps", "remote", "meta", "draft", "limit", "lint"}


class Refused(Exception):
    """The line of a request that isn't answered, with its exit status."""


def no_float(text):
    raise Refused("bad request float", 2)


def no_constant(text):
    raise ValueError("no number of JSON")


def whole(text):
    """A whole number of 64 bits."""
    number = int(text)
    if not -(2**63) <= number < 2**64 or text == "-0":
        no_float(text)
    return number


def are_pairs(value):
    return isinstance(value, list) and all(isinstance(pair, list) and len(pair) == 2 and isinstance(pair[0], str) for pair in value)


def read(content):
    """A request, or why it is none."""
    try:
        request = json.loads(content.decode(), parse_float=no_float, parse_int=whole, parse_constant=no_constant)
    except (ValueError, RecursionError):
        raise Refused("bad request not JSON", 2) from None
    if not isinstance(request, dict):
        raise Refused("bad request not an object", 2)
    if not set(request) <= FIELDS:
        raise Refused("bad request unknown field", 2)
    limit = request.get("limit", 0)
    checks = (
        ("documents", are_pairs(request.get("documents"))),
        ("base", isinstance(request.get("base"), str)),
        ("steps", isinstance(request.get("steps"), list) and all(step is None or isinstance(step, (str, dict)) for step in request["steps"])),
        ("remote", are_pairs(request.get("remote", []))),
        ("meta", are_pairs(request.get("meta", []))),
        ("draft", request.get("draft", "2020-12") in list(DRAFTS)),
        ("limit", type(limit) is int and limit >= 0),
        ("lint", isinstance(request.get("lint", False), bool)),
    )
    for name, is_good in checks:
        if not is_good:
            raise Refused(f"bad request {name}", 2)
    return request


def fault(where, error):
    """A refusal: the exceptions of the package, and those that Python raises inside of it."""
    return Refused(f"fault {where} {type(error).__name__}: {error}".replace("\n", " "), 1)


def registry_of(request, specification):
    """The documents of a request, walked."""
    remote = dict(map(tuple, request.get("remote", [])))

    def retrieve(uri):
        if uri not in remote:
            raise NoSuchResource(ref=uri)
        return Resource.from_contents(remote[uri], default_specification=specification)

    registry = Registry(retrieve=retrieve)
    for where, pairs, default in (("meta", request.get("meta", []), DRAFT202012), ("prepare", request["documents"], specification)):
        try:
            for uri, schema in pairs:
                registry = registry.with_resource(uri, Resource.from_contents(schema, default_specification=default))
            registry = registry.crawl()
        except Exception as error:
            raise fault(where, error) from None
    return registry


def draft_of(resolver, specification):
    """The draft of the resource under the base, or else that of the request."""
    resource = resolver._registry.get(resolver._base_uri)
    return NAMES.get((resource._specification if resource else specification).name, "unknown")


def answer(request):
    """The lines of a report."""
    specification = DRAFTS[request.get("draft", "2020-12")]
    resolver = registry_of(request, specification).resolver(base_uri=request["base"])
    resolved = None
    for number, step in enumerate(request["steps"]):
        try:
            if isinstance(step, dict):
                resolver = resolver.in_subresource(Resource.from_contents(step, default_specification=specification))
                continue
            resolved = lookup_recursive_ref(resolver) if step is None else resolver.lookup(step)
            resolver = resolved.resolver
        except Exception as error:
            raise fault(number, error) from None
    lines = ["no value"]
    if resolved is not None:
        value = json.dumps(resolved.contents, ensure_ascii=False, sort_keys=True, separators=(",", ":"))
        lines = [f"value {value}", f"draft {draft_of(resolver, specification)}"]
    scope = [uri for uri, _ in resolver.dynamic_scope()]
    return lines + [f"base {resolver._base_uri}", " ".join(["scope", *scope])]


def main():
    try:
        lines, status = answer(read(sys.stdin.buffer.read())), 0
    except Refused as refused:
        lines, status = [refused.args[0]], refused.args[1]
    sys.stdout.buffer.write("".join(line + "\n" for line in lines).encode(errors="replace"))
    sys.exit(status)


main()
