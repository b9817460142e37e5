"""The shared library: its place, and its calls as ctypes declares them. include/mquerier.h describes each call."""

from __future__ import annotations

import ctypes
import functools
import os
from ctypes import POINTER, c_bool, c_char_p, c_size_t, c_uint8, c_uint32, c_uint64, c_void_p
from ipaddress import IPv4Address, IPv6Address
from typing import Any, Dict, List, Tuple, Type

from ._types import FamilyName

VERSION = 3
NONE, LATEST = 2**64 - 1, 2**53
VARIABLES = (
    "robustness", "query_interval", "response_interval", "last_member_interval", "groups", "group_sources", "sources", "scheduled",
)  # fmt: skip
# Those of a link, in the order of the header.
LINK_VARIABLES = (*VARIABLES[:4], "last_member_query_count", *VARIABLES[4:])
COUNTERS, UNIT, RANGES = 30, 16, 16
# The rules of ranges of groups; 0 is an unused place.
ALLOW, DENY = 1, 2
NATIVE = os.path.join(os.path.dirname(os.path.abspath(__file__)), "native")


def found(name: str) -> str:
    """Returns the path of a library in the folder MQUERIER_LIB, or if that is not set in the package, or else its name, for the system's
    loader."""
    folder = os.environ.get("MQUERIER_LIB")
    path = os.path.join(folder or NATIVE, name)
    return path if folder or os.path.exists(path) else name


def loaded(name: str) -> Any:
    """Loads a library."""
    try:
        return ctypes.CDLL(found(name))
    except OSError as why:
        raise ImportError(f"{why}. Install the wheel, or set MQUERIER_LIB to the folder of {name}", name=name) from None


def call_of(library: Any, name: str) -> Any:
    """Returns a function of a library."""
    try:
        return library[name]
    except AttributeError:
        raise ImportError(f"{library._name} has no {name}: it is of another version than this package, {VERSION}") from None


class Units(ctypes.Structure):
    """Memory in whole units of 16 bytes."""

    _fields_ = [("first", c_void_p), ("units", c_size_t)]


class RawAnswer(ctypes.Structure):
    _fields_ = [(name, c_uint32) for name in ("status", "dropped", "applied", "ignored", "refused", "sent", "unsent")] + [
        ("written", c_uint64)
    ]


class Page(ctypes.Structure):
    _fields_ = [("groups", c_uint32), ("sources", c_uint32)]


class Handle(ctypes.Structure):
    """A link, or a workspace."""

    _fields_ = [("it", c_void_p)]


def structure(name: str, fields: List[Tuple[str, Any]]) -> Type[Any]:
    return type(name, (ctypes.Structure,), {"_fields_": fields})


def signatures(family: Family) -> Dict[str, Tuple[Any, List[Any]]]:
    """Returns the result and the arguments of each call of a family, by the call's name without the prefix."""
    config, handle, buffer, address = family.Config, POINTER(Handle), c_void_p, c_char_p
    envelope: List[Any] = [address] if family.width == 4 else [address, address, c_uint8, c_bool]
    ends = [] if family.width == 4 else [address, address]
    return {
        "defaults": (config, [address]),
        "size": (c_size_t, [config]),
        "workspace_size": (c_size_t, [config]),
        "init_units": (c_uint32, [config, c_uint64, Units, handle]),
        "workspace_init_units": (c_uint32, [config, Units, handle]),
        "configure": (c_uint32, [handle, config]),
        "outlet_bytes": (c_size_t, [config, c_uint32]),
        "receive": (RawAnswer, [handle, handle, *envelope, c_char_p, c_size_t, c_uint64, buffer, c_size_t]),
        "tick": (RawAnswer, [handle, handle, c_uint64, buffer, c_size_t]),
        "next_deadline": (c_uint64, [handle]),
        "forwards": (c_bool, [handle, address, address]),
        "changed": (c_uint32, [handle, c_uint32, buffer, c_size_t]),
        "group_at": (Page, [handle, address, buffer, buffer, c_size_t]),
        "len": (c_uint32, [handle]),
        "groups": (Page, [handle, c_uint32, buffer, c_size_t, buffer, c_size_t]),
        "is_querier": (c_bool, [handle]),
        "other_querier": (c_uint64, [handle, buffer, c_size_t]),
        "counters": (c_size_t, [handle, buffer, c_size_t]),
        "line": (c_size_t, [*ends, c_char_p, c_size_t, buffer, c_size_t]),
        "json": (c_size_t, [*ends, c_char_p, c_size_t, buffer, c_size_t]),
    }


class Family:
    """The addresses, structs and calls of a family. The calls are attributes."""

    def __init__(self, library: Any, name: FamilyName, width: int, address: Any) -> None:
        self.name, self.width, self.address = name, width, address
        octets = c_uint8 * width
        numbers = [(it, c_uint32) for it in LINK_VARIABLES]
        self.RawRange = structure("RawRange", [("address", octets), ("length", c_uint8), ("rule", c_uint8)])
        flags = [("source_specific", c_uint8), ("ranges", self.RawRange * RANGES)]
        self.Config = structure("Config", [*numbers, ("own", octets), *flags])
        hosts = [("v1", c_uint64), ("v2", c_uint64)][: 2 if width == 4 else 1]
        self.RawGroup = structure("RawGroup", [("address", octets), ("sources", c_uint32), ("deadline", c_uint64), *hosts])
        self.RawSource = structure("RawSource", [("address", octets), ("deadline", c_uint64)])
        for call, (result, arguments) in signatures(self).items():
            function = call_of(library, f"mq_{name}_{call}")
            function.restype, function.argtypes = result, arguments
            setattr(self, call, function)

    def __getattr__(self, call: str) -> Any:
        raise AttributeError(call)


@functools.lru_cache(None)
def families() -> Dict[str, Family]:
    library = loaded(f"libmquerier.so.{VERSION}")
    version = call_of(library, "mq_version")()
    if version != VERSION:
        raise ImportError(f"{library._name} has version {version}, and this package is for version {VERSION}")
    return {"igmp": Family(library, "igmp", 4, IPv4Address), "mld": Family(library, "mld", 16, IPv6Address)}
