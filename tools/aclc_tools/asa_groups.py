# SPDX-License-Identifier: BSD-3-Clause
"""Objects and object groups of Cisco's ASA: addresses, services, protocols and ports."""
from aclc_tools import boxes, cisco_groups
from aclc_tools.asa_words import PORTED_BY, PORTS, PROTOCOLS, ANY
from aclc_tools.cisco_entries import Service, once
from aclc_tools.cisco_words import (ICMP, ICMP6, OPERATORS, Words, address_range, compares, host, netmask, ports,
                                    prefix, protocol, union)
from aclc_tools.lists import CantSay

NETWORK, SERVICE = "object network", "object service"
NETWORKS, SERVICES = "object-group network", "object-group service"
PROTOCOLS_GROUP = "object-group protocol"
TCP_UDP = ((6, 6), (17, 17))


def kind_of(words):
    """The kind of an object or a group by the words of its first line, or None."""
    kind = " ".join([words[0], words[1], *words[3:]])
    return kind if kind in PORTED_BY or len(words) == 3 else None


class ObjectGroup(cisco_groups.Group):
    """An object or a group; the translation of an object's addresses says nothing of a list."""

    def add(self, number, text, words):
        """One more line."""
        if words[0] != "nat":
            super().add(number, text, words)


class Groups(cisco_groups.Groups):
    """All objects and groups, and the names of addresses."""

    group_class = ObjectGroup

    def __init__(self):
        super().__init__(member, join)
        self.names = {}

    def name(self, number, text, words):
        """A line that gives an address a name."""
        if self.names.setdefault(words[2], words[1]) != words[1]:
            raise CantSay(f"the name {words[2]} is that of {self.names[words[2]]} already", number, text)

    def named(self, word):
        """An address by its name, or as it stands."""
        return self.names.get(word, word)


def member(groups, kind, words, path):
    """What one line of an object or a group holds."""
    words = Words(words)
    word = words.next()
    if word == "group-object" and kind.startswith("object-group"):
        value = groups.value(words.next("a group"), (kind,), path)
    elif kind in (NETWORK, NETWORKS):
        value = network_member(groups, kind, word, words, path)
    elif kind in (SERVICE, SERVICES):
        value = service_member(groups, kind, word, words, path)
    elif kind == PROTOCOLS_GROUP and word == "protocol-object":
        value = [Service(protocol(words.next("a protocol"), PROTOCOLS), None, None)]
    elif kind in PORTED_BY and word == "port-object":
        value = ports(words, PORTS)
    else:
        raise CantSay(f"{word} is no word of a group of the kind {kind}")
    words.end()
    return value


def network_member(groups, kind, word, words, path):
    """The addresses of a line of an object or of a group."""
    if kind == NETWORKS:
        if word != "network-object":
            raise CantSay(f"{word} is no word of a group of networks")
        word = words.next("an address")
        if word == "object":
            return groups.value(words.next("an object"), (NETWORK,), path)
        if word != "host":
            words.words.insert(0, word)
            word = "subnet"
    if word == "host":
        return host(groups.named(words.next("an address")))
    if word == "range" and kind == NETWORK:
        return address_range(groups.named(words.next("an address")), groups.named(words.next("an address")))
    if word == "subnet":
        return network(groups, words)
    raise CantSay(f"{word} says addresses that don't stand in this file" if word == "fqdn"
                  else f"{word} is no word of an object")


def network(groups, words):
    """A network with its mask, or of IPv6 with the length of its prefix."""
    word = words.next("an address")
    if word in ANY:
        return ANY[word]
    return prefix(word) if ":" in word else netmask(groups.named(word), groups.named(words.next("a mask")))


def service_member(groups, kind, word, words, path):
    """The services of a line: a protocol, with its ports of the source, and of the destination with or without that
    word."""
    if word != ("service" if kind == SERVICE else "service-object"):
        raise CantSay(f"{word} is no word of services")
    word = words.next("a protocol")
    if word == "object" and kind == SERVICES:
        return groups.value(words.next("an object"), (SERVICE,), path)
    protocols = TCP_UDP if word == "tcp-udp" and kind == SERVICES else protocol(word, PROTOCOLS)
    if protocols in (ICMP, ICMP6) and words.peek():
        raise CantSay(compares("a type of ICMP"))
    source = destination = None
    if words.peek() == "source":
        words.next()
        source = ports(words, PORTS)
    if words.peek() == "destination":
        words.next()
        destination = ports(words, PORTS)
    elif words.peek() in OPERATORS and source is None and kind == SERVICES:
        destination = ports(words, PORTS)
    return [Service(protocols, source, destination)]


def join(kind, parts):
    """What the lines of an object or a group hold together; an object has one line."""
    if kind in (NETWORK, SERVICE) and len(parts) > 1:
        raise CantSay(f"an {kind} stands with more than one value")
    if kind in (NETWORK, NETWORKS):
        return union(parts)
    return boxes.union([one for part in parts for one in part]) if kind in PORTED_BY else once(parts)
