# SPDX-License-Identifier: BSD-3-Clause
"""Entries of Cisco's access lists as rules: what they say of protocols, addresses and ports, as boxes.

A service is a protocol with what it compares of source ports and of destination ports, None where it compares none.
"""
from collections import namedtuple

from aclc_tools import boxes
from aclc_tools.cisco_words import (COMPARED, ICMP, ICMP6, any_of, compares, host, of_family, option_reason, ports,
                                    prefix, protocol, wildcard)
from aclc_tools.lists import ACCEPT, DROP, CantSay, Rule

VERDICTS = {"permit": ACCEPT, "deny": DROP}
Service = namedtuple("Service", "protocols source destination")
# What differs between devices: names of protocols by family and of ports, the words of groups, and whether an address
# may stand with a prefix, whether many ports may stand after eq, and the options that decide nothing, each with how
# many words follow it, or None where one may.
Dialect = namedtuple("Dialect", "protocols ports service_group address_group port_group prefixes many passing")


def sides(words, family, dialect, groups):
    """The addresses and the ports of one side of an entry."""
    return addresses(words, family, dialect, groups), side_ports(words, dialect, groups)


def addresses(words, family, dialect, groups):
    """What stands for addresses: `any`, a host, a group, a prefix, or an address with its wildcard mask."""
    word = words.next("an address")
    if word == "any":
        return any_of(family)
    if word == "host":
        text = words.next("an address")
        of_family(text, family)
        return host(text)
    if word == dialect.address_group:
        return groups.addresses(words.next("a group"), family)
    if "/" in word and (dialect.prefixes or family == 6):
        of_family(word.partition("/")[0], family)
        return prefix(word)
    of_family(word, family)
    if family == 6:
        raise CantSay(f"{word} stands without the length of its prefix")
    return wildcard(word, words.next("a wildcard mask"))


def side_ports(words, dialect, groups):
    """The ports of one side, or None where it compares none."""
    if dialect.port_group and words.peek() == dialect.port_group:
        words.next()
        return groups.ports(words.next("a group"))
    if words.peek() not in ("eq", "neq", "gt", "lt", "range"):
        return None
    return ports(words, dialect.ports, dialect.many)


def services(words, family, dialect, groups):
    """What stands for protocols: one, or a group with its own ports."""
    word = words.next("a protocol")
    if dialect.service_group and word == dialect.service_group:
        return groups.services(words.next("a group"))
    return [Service(protocol(word, dialect.protocols[family], family), None, None)]


def skip_options(words, dialect, found):
    """Passes over the options that decide nothing, and refuses all others."""
    protocols = found[0].protocols if len(found) == 1 else boxes.PROTOCOLS
    while words.peek():
        word = words.next()
        if word not in dialect.passing:
            raise CantSay(option_reason(word, protocols))
        cookie = dialect.passing[word] is None and len(words.words) == 1 and words.peek() not in COMPARED
        if cookie and protocols not in (ICMP, ICMP6):
            words.next()
        for _ in range(dialect.passing[word] or 0):
            words.next(f"what {word} says")


def once(parts):
    """The services of all parts, each once."""
    return list(dict.fromkeys(service for part in parts for service in part))


def merged(found):
    """The services with the destination ports of those together that differ in nothing else."""
    by_rest = {}
    for service in found:
        key = service.protocols, boxes.PORTS if service.source is None else service.source
        by_rest.setdefault(key, []).extend(boxes.PORTS if service.destination is None else service.destination)
    return [(protocols, source, boxes.union(destination)) for (protocols, source), destination in by_rest.items()]


def check_ports(found):
    """Only packets with ports have any: a service that compares ports has to name protocols that have some."""
    for service in found:
        compared = (service.source, service.destination) != (None, None)
        if compared and boxes.both(service.protocols, boxes.PORTED) != service.protocols:
            raise CantSay(compares("ports of a protocol other than TCP, UDP and SCTP"))


def boxes_of(sources, destinations, found):
    """The boxes of an entry."""
    check_ports(found)
    made = []
    for family in (4, 6):
        for protocols, source_ports, destination_ports in merged(found):
            near = sources.get(family), destinations.get(family), source_ports, destination_ports, protocols
            if all(near):
                made.append(boxes.Box(family, *near))
    return made


def read(number, text, words, family, dialect, groups):
    """The rule of an entry that begins with permit or deny; its reason where it can't be said."""
    verdict, known = VERDICTS[words.next()], []
    try:
        grouped = bool(dialect.service_group) and words.peek() == dialect.service_group
        found = services(words, family, dialect, groups)
        source, source_ports = sides(words, family, dialect, groups)
        destination, destination_ports = sides(words, family, dialect, groups)
        if grouped and (source_ports, destination_ports) != (None, None):
            raise CantSay("ports stand after a group of services, which has its own")
        found = found if grouped else [Service(found[0].protocols, source_ports, destination_ports)]
        known = boxes_of(source, destination, found)
        skip_options(words, dialect, found)
        return Rule(number, text, known, verdict, None, None)
    except CantSay as said:
        # An option that compares something more leaves fewer packets; what another word does isn't known.
        narrows = said.reason.startswith("it compares ")
        return Rule(number, text, known if narrows else [], verdict, None, said.reason)
