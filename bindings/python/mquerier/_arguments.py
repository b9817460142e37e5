"""Converts arguments to those of the library, or raises a fault that names the wrong one."""

from __future__ import annotations

import ctypes
import ipaddress
import operator
from typing import Any, Dict, Iterable, Literal, Mapping, Tuple, Union

from ._library import ALLOW, DENY, LATEST, LINK_VARIABLES, RANGES, Family, Handle, Units, families
from ._types import Address
from .faults import MEMORY, Fault

AddressLike = Union[str, bytes, Address]
NetworkLike = Union[str, ipaddress.IPv4Network, ipaddress.IPv6Network]
Ranges = Iterable[Tuple[Literal["allow", "deny"], NetworkLike]]
RULES = {"allow": ALLOW, "deny": DENY}


def not_a(field: str, wanted: str, value: Any) -> TypeError:
    return TypeError(f"{field}: expected {wanted}, and it is {type(value).__name__}")


def family_named(name: str) -> Family:
    if not isinstance(name, str):
        raise not_a("family", "'igmp' or 'mld'", name)
    if name not in families():
        raise Fault("family", f"expected 'igmp' or 'mld', and it is {name!r}")
    return families()[name]


def any_address(field: str, value: AddressLike) -> Address:
    if not isinstance(value, (str, bytes, ipaddress.IPv4Address, ipaddress.IPv6Address)):
        raise not_a(field, "an address", value)
    try:
        return ipaddress.ip_address(value)
    except ValueError as why:
        raise Fault(field, str(why)) from None


def packed(family: Family, field: str, value: AddressLike) -> bytes:
    """Returns the bytes of an address of this family."""
    address = any_address(field, value)
    if len(address.packed) != family.width:
        raise Fault(field, f"{address} is not an address of {family.name}")
    return address.packed


def whole(field: str, value: Any) -> int:
    """Returns a whole number. A bool is none."""
    if isinstance(value, bool) or not hasattr(value, "__index__"):
        raise not_a(field, "a whole number", value)
    return operator.index(value)


def within(field: str, value: Any, most: int) -> int:
    """Returns a whole number from 0 to `most`."""
    number = whole(field, value)
    if not 0 <= number <= most:
        raise Fault(field, f"it is not from 0 to {most}")
    return number


def moment(field: str, value: Any) -> int:
    return within(field, value, LATEST)


def flag(field: str, value: Any) -> bool:
    if not isinstance(value, bool):
        raise not_a(field, "True or False", value)
    return value


def octets(field: str, value: Any, wanted: str = "bytes") -> bytes:
    """Returns a copy of the bytes of any object with a buffer."""
    try:
        return bytes(memoryview(value))
    except TypeError:
        raise not_a(field, wanted, value) from None


def fitting(number: int) -> int:
    """Returns a number for a field of the configuration. The greatest stands for those that no field holds, since it too is out of each
    range."""
    return number if 0 <= number < 2**32 else 2**32 - 1


def given(arguments: Mapping[str, Any]) -> Dict[str, Any]:
    """Returns the variables of a querier among the arguments of a call. None stands for the default."""
    names = (*LINK_VARIABLES, "source_specific", "ranges")
    return {name: arguments[name] for name in names if arguments.get(name) is not None}


def range_of(family: Family, value: Any) -> Any:
    """Returns a range of groups: a rule and a network of this family."""
    if not isinstance(value, tuple) or len(value) != 2 or value[0] not in RULES:
        raise Fault("ranges", f"expected ('allow', network) or ('deny', network), and it is {value!r}")
    try:
        network = ipaddress.ip_network(value[1], strict=False)
    except ValueError as why:
        raise Fault("ranges", str(why)) from None
    address = packed(family, "ranges", network.network_address)
    return family.RawRange(type(family.RawRange().address)(*address), network.prefixlen, RULES[value[0]])


def ranges_of(family: Family, value: Any) -> Any:
    """Returns the ranges of a configuration, in their order."""
    if isinstance(value, (str, bytes)) or not hasattr(value, "__iter__"):
        raise not_a("ranges", "a list of ranges", value)
    listed = [range_of(family, it) for it in value]
    if len(listed) > RANGES:
        raise Fault("ranges", f"there are more than {RANGES}")
    return (family.RawRange * RANGES)(*listed)


def set_variables(family: Family, config: Any, variables: Mapping[str, Any]) -> None:
    for name, value in variables.items():
        if name == "ranges":
            config.ranges = ranges_of(family, value)
        else:
            setattr(config, name, flag(name, value) if name == "source_specific" else fitting(whole(name, value)))


def config_of(family: Family, field: str, own: AddressLike, variables: Mapping[str, Any]) -> Any:
    """Returns the configuration with these variables. To check it, this makes a link without memory. That call always fails, and its
    status names the first fault of the configuration, if there is one."""
    config = family.defaults(packed(family, field, own))
    set_variables(family, config, variables)
    status = family.init_units(config, 0, Units(16, 0), ctypes.byref(Handle()))
    if status != MEMORY:
        fault = Fault.of_status(status)
        raise fault if fault.field != "own" else Fault(field, "no router may send queries from this address")
    return config
