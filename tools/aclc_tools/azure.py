# SPDX-License-Identifier: BSD-3-Clause
"""Network security groups of Azure, as `az network nsg show` and `az network nsg rule list` print them.

Source: Azure CLI reference, "az network nsg"; Azure Virtual Network documentation, "Network security groups". The
lowest priority decides, and a rule's number is its priority. Each group ends with default rules, which name tags of
services.
"""
from aclc_tools import boxes
from aclc_tools.cisco_words import address_range, any_of, compares, host, prefix, union
from aclc_tools.json_lists import chosen, direction, load, number, only, part, sided
from aclc_tools.lists import ACCEPT, DROP, PASS, CantSay, Chain, Rule

DIRECTIONS = ("Inbound", "Outbound")
VERDICTS = {"allow": ACCEPT, "deny": DROP}
PROTOCOLS = {"*": boxes.PROTOCOLS, "tcp": ((6, 6),), "udp": ((17, 17),), "icmp": ((1, 1),), "esp": ((50, 50),),
             "ah": ((51, 51),)}
RULE = ("access", "description", "destinationAddressPrefix", "destinationAddressPrefixes",
        "destinationApplicationSecurityGroups", "destinationPortRange", "destinationPortRanges", "direction", "etag",
        "id", "name", "priority", "protocol", "provisioningState", "resourceGroup", "sourceAddressPrefix",
        "sourceAddressPrefixes", "sourceApplicationSecurityGroups", "sourcePortRange", "sourcePortRanges", "type")
# The priorities of default rules begin here.
DEFAULTS = 65000


def plural(name):
    """The name for many values."""
    return f"{name}es" if name.endswith("Prefix") else f"{name}s"


def values(rule, name):
    """The values of a name and of its plural, of which one is given."""
    one, many = part(rule, name, str, ""), part(rule, plural(name), list, [])
    if bool(one) == bool(many):
        raise CantSay(f"the rule has not exactly one of {name} and its plural")
    if not all(isinstance(value, str) for value in many):
        raise CantSay(f"a value of {name} isn't a text")
    return many or [one]


def addresses(text):
    """The addresses of one value."""
    if text in ("*", "Any"):
        return any_of(4, 6)
    if text[:1].isalpha() and ":" not in text:
        raise CantSay(f"it names the service tag {text}, whose addresses don't stand in this file")
    if "-" in text:
        return address_range(*(end.strip() for end in text.split("-", 1)))
    return prefix(text) if "/" in text else host(text)


def ports(text):
    """The interval of one value."""
    if text in ("*", "Any"):
        return boxes.PORTS[0]
    low, dash, high = text.partition("-")
    first = number(low, 0xFFFF, "port")
    last = number(high, 0xFFFF, "port") if dash else first
    if first > last:
        raise CantSay(f"no port lies from {first} to {last}")
    return first, last


def side(rule, name):
    """The addresses and the ports of one side."""
    if part(rule, f"{name}ApplicationSecurityGroups", list, []):
        raise CantSay("it names a group of applications, whose addresses don't stand in this file")
    return (union([addresses(text) for text in values(rule, f"{name}AddressPrefix")]),
            boxes.union([ports(text) for text in values(rule, f"{name}PortRange")]))


def boxes_of(rule):
    """The boxes of a rule."""
    name = part(rule, "protocol", str)
    if name.lower() not in PROTOCOLS:
        raise CantSay(f"{name} is no protocol that is known here")
    protocols = PROTOCOLS[name.lower()]
    (source, source_ports), (destination, destination_ports) = side(rule, "source"), side(rule, "destination")
    compared = (source_ports, destination_ports) != (boxes.PORTS, boxes.PORTS)
    if compared and boxes.both(protocols, boxes.PORTED) != protocols:
        raise CantSay(compares("ports of a protocol other than TCP, UDP and SCTP"))
    return [sided(family, source[family], source_ports, destination_ports, protocols,
                  True)._replace(destination=destination[family])
            for family in (4, 6) if source.get(family) and destination.get(family)]


def told(rule):
    """A rule on one line, whatever its values are."""
    shown = []
    for name in ("sourceAddressPrefix", "sourcePortRange", "destinationAddressPrefix", "destinationPortRange"):
        value = rule.get(name) or rule.get(plural(name))
        shown.append(",".join(map(str, value)) if isinstance(value, list) else str(value))
    head = f"{part(rule, 'name', str)}: {part(rule, 'access', str)} {part(rule, 'protocol', str)}"
    return f"{head} {shown[0]} {shown[1]} to {shown[2]} {shown[3]}"


def rule_of(rule):
    """One rule of a group."""
    priority = part(rule, "priority", int)
    try:
        text, verdict = told(only(rule, RULE)), VERDICTS.get(part(rule, "access", str).lower())
        if verdict is None or not 0 < priority <= 65535:
            raise CantSay("the access is neither Allow nor Deny, or the priority isn't from 1 to 65535")
    except CantSay as said:
        raise CantSay(said.reason, max(priority, 0)) from None
    try:
        return Rule(priority, text, boxes_of(rule), verdict, None, None)
    except CantSay as said:
        return Rule(priority, text, [], verdict, None, said.reason)


def group_of(value, options):
    """The name and the rules of the group that is meant: of one group, of a list of groups, or of a list of rules."""
    if isinstance(value, list) and value and all(isinstance(it, dict) and "priority" in it for it in value):
        return "rules", value
    groups = value if isinstance(value, list) else [value]
    if not all(isinstance(group, dict) and "securityRules" in group for group in groups):
        raise CantSay("it isn't what az network nsg show or az network nsg rule list prints")
    found = chosen([([part(group, "name", str)], group) for group in groups], options.list, "network security group")
    return found["name"], part(found, "securityRules", list) + part(found, "defaultSecurityRules", list, [])


def convert(lines, options):
    """The chain of the group that is meant, its name, and both families."""
    name, listed = group_of(load(lines), options)
    asked = DIRECTIONS[direction(options, DIRECTIONS)]
    for rule in listed:
        if part(rule, "direction", str).lower() not in ("inbound", "outbound"):
            raise CantSay(f"the direction {rule['direction']} is neither Inbound nor Outbound")
    rules = sorted((rule_of(rule) for rule in listed if rule["direction"].lower() == asked.lower()),
                   key=lambda rule: rule.number)
    for rule, after in zip(rules, rules[1:]):
        if rule.number == after.number:
            raise CantSay("the priority stands twice in one direction", rule.number, after.text)
    if not rules or rules[-1].number < DEFAULTS:
        reason = "the default rules, with which each group ends, don't stand in this file: --include-default lists them"
        rules.append(Rule(DEFAULTS, f"default rules of {asked}", [], DROP, None, reason))
    chain = Chain(name, rules, Rule(0, "", [], PASS, None, None))
    return {name: chain}, name, [options.family] if options.family else [4, 6]
