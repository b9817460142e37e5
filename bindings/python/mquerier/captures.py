"""Captures: listed, replayed to a querier, checked, converted."""

from __future__ import annotations

from typing import Any, Dict, Iterator, List, Mapping, Optional, Union

from ._arguments import AddressLike, any_address, config_of, family_named, flag, given, moment, within
from ._files import Capture
from ._library import VARIABLES
from ._program import Conversion, objects
from ._types import FamilyName
from .faults import Fault
from .objects import Event, Finding, Packet, Skipped, Summary, Taken

LONGEST_NAME = 16
# The program's options for the variables and the limits of a querier.
OPTIONS = dict(zip(VARIABLES, ("--rv", "--qi", "--qri", "--lmqi", "--groups", "--group-sources", "--sources", "--scheduled")))
# An address for each family, to check variables before the capture has named the querier.
ANY: Dict[str, AddressLike] = {"igmp": "10.0.0.1", "mld": "fe80::1"}


def options(variables: Mapping[str, Any], until: Optional[int], flags: Mapping[str, Any]) -> List[str]:
    """Returns the words for variables, an end, and flags that are set."""
    words = [word for name, option in OPTIONS.items() if name in variables for word in (option, str(variables[name]))]
    words += ["--ssm"] if variables.get("source_specific") else []
    words += [] if until is None else ["--until", str(moment("until", until))]
    return words + [f"--{name}" for name, value in flags.items() if flag(name, value)]


def querier_of(field: str, own: AddressLike, variables: Mapping[str, Any]) -> List[str]:
    """Returns the words for a querier at an address, of the family of that address. Raises a fault that no querier may have."""
    address = any_address(field, own)
    family = family_named("igmp" if address.version == 4 else "mld")
    config_of(family, field, address, variables)
    return [family.name, f"--{field}", str(address)]


def show(capture: Capture) -> Iterator[Union[Packet, Skipped]]:
    """Lists a capture: a `Packet` for each packet with a message, and `Skipped` for any other."""
    return objects(["show"], capture)


def replay(
    capture: Capture,
    own: AddressLike,
    *,
    until: Optional[int] = None,
    changes: bool = False,
    robustness: Optional[int] = None,
    query_interval: Optional[int] = None,
    response_interval: Optional[int] = None,
    last_member_interval: Optional[int] = None,
    groups: Optional[int] = None,
    group_sources: Optional[int] = None,
    sources: Optional[int] = None,
    scheduled: Optional[int] = None,
    source_specific: Optional[bool] = None,
) -> Iterator[Event]:
    """Replays a capture to a querier at the address `own`, of the family of that address. With `changes`, a `Change` follows each
    event for each group whose filter it changed. The variables are those of a `Link`. `until` is the end of the replay in milliseconds
    after the first packet, by default the time of the last one."""
    variables = given(locals())
    querier = querier_of("own", own, variables)
    return objects(["replay", *querier, *options(variables, until, {"changes": changes})], capture)


def check(
    capture: Capture,
    querier: Optional[AddressLike] = None,
    *,
    auto: Optional[FamilyName] = None,
    until: Optional[int] = None,
    tolerance: int = 100,
    began: bool = False,
    strict: bool = False,
    possible: bool = False,
    interface: Union[int, str, None] = None,
    vlan: Optional[int] = None,
    once: bool = False,
    robustness: Optional[int] = None,
    query_interval: Optional[int] = None,
    response_interval: Optional[int] = None,
    last_member_interval: Optional[int] = None,
    groups: Optional[int] = None,
    group_sources: Optional[int] = None,
    sources: Optional[int] = None,
    scheduled: Optional[int] = None,
    source_specific: Optional[bool] = None,
) -> Iterator[Union[Finding, Summary, Taken]]:
    """Checks the querier at an address: a `Finding` for each difference from the standards that exceeds the tolerance in milliseconds, and
    a `Summary` at the end. With `auto`, a family, the capture names the querier and its variables, and `Taken` follows with these. If
    nothing came from the querier, but another router sends queries, or no router does with `auto`, it raises `NothingJudged`.

    `possible` adds findings that another reading or a state from before the capture may explain. With `began` the capture begins before the
    querier. With `strict` only one reading of the standards is accepted. The variables are those of a `Link`,
    but limits are the greatest by default. `until` is the end of the check in milliseconds after the first packet, by default the time of the
    last one. The capture may be of any kind that `convert` reads. `interface`, `vlan` and `once` choose packets, as for `convert`: a capture
    with messages of several networks has a fault without them."""
    variables = given(locals())
    if (querier is None) == (auto is None):
        raise TypeError("querier: expected either it or auto")
    if auto is None and querier is not None:
        words = querier_of("querier", querier, variables)
    else:
        family = family_named(str(auto))
        config_of(family, "querier", ANY[family.name], variables)
        words = [family.name, "--querier", "auto"]
    flags = {"began": began, "strict": strict, "possible": possible}
    words += ["--within", str(within("tolerance", tolerance, 2**32 - 1)), *options(variables, until, flags)]
    return objects(["check", *words, *choice_of(interface, vlan, once)], capture)


def choice_of(interface: Union[int, str, None], vlan: Optional[int], once: bool) -> List[str]:
    """Returns the words for the chosen packets."""
    words: List[str] = []
    if isinstance(interface, str):
        if not 0 < len(interface.encode("utf-8", "surrogateescape")) <= LONGEST_NAME or not interface.isprintable():
            raise Fault("interface", f"a name has 1 to {LONGEST_NAME} bytes of UTF-8")
        words += ["--interface", interface]
    elif interface is not None:
        words += ["--interface", str(within("interface", interface, 2**64 - 1))]
    words += [] if vlan is None else ["--vlan", str(within("vlan", vlan, 4095))]
    return words + (["--once"] if flag("once", once) else [])


def convert(capture: Capture, *, interface: Union[int, str, None] = None, vlan: Optional[int] = None, once: bool = False) -> Conversion:
    """Returns the packets of a capture of any kind, pcapng too, as one classic capture of Ethernet: a file to read from, which the other
    calls take.

    By default these are all packets. `interface` is the number or the name of one interface, and `vlan` the ID of one network. `once`
    leaves out packets that come again within 5 ms. Numbers count the interfaces from 0. In Linux cooked captures of version 2 they are the
    indexes in the headers of packets. A name of digits alone is taken as a number."""
    return Conversion(choice_of(interface, vlan, once), capture)
