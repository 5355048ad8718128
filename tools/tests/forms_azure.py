# SPDX-License-Identifier: BSD-3-Clause
"""A drawer of network security groups of Azure, and a walker over them that shares no code with the converter."""
import ipaddress
import json
from functools import lru_cache

from forms_aws import once
from routers import Unknown

FORM, GIVEN, FAMILIES = "azure", {"chain": "Inbound"}, (4, 6)
PROTOCOLS = {"*": None, "tcp": 6, "udp": 17, "icmp": 1, "esp": 50, "ah": 51}


@lru_cache(8)
def read(text):
    """The rules of a group in one direction, by priority."""
    value = json.loads(text, object_pairs_hook=once)
    rules = [rule for rule in value["securityRules"] + (value.get("defaultSecurityRules") or [])
             if rule["direction"].lower() == "inbound"]
    if len({rule["priority"] for rule in rules}) < len(rules):
        raise Unknown("priorities")
    return sorted(rules, key=lambda rule: rule["priority"])


def either(rule, one, many):
    """The values of a name or of its plural."""
    if bool(rule.get(one)) == bool(rule.get(many)) or rule.get(many) and not isinstance(rule[many], list):
        raise Unknown(rule)
    return rule.get(many) or [rule[one]]


def at(text, family, value):
    """Whether an address is one that a text says."""
    if text in ("*", "Any"):
        return True
    try:
        if "-" in text:
            low, high = (ipaddress.ip_address(end.strip()) for end in text.split("-"))
            if low.version != high.version or low > high:
                raise Unknown(text)
            return low.version == family and int(low) <= value <= int(high)
        network = ipaddress.ip_network(text, strict=False)
    except (ValueError, TypeError):
        raise Unknown(text) from None
    return network.version == family and int(network[0]) <= value <= int(network[-1])


def near(text, value):
    """Whether a port is one that a text says."""
    if text in ("*", "Any"):
        return True
    low, _, high = text.partition("-")
    if not (low.isdigit() and (high or low).isdigit() and int(low) <= int(high or low) < 65536):
        raise Unknown(text)
    return int(low) <= value <= int(high or low)


def matches(rule, packet):
    """Whether a rule matches; all its parts are looked at."""
    family, source, destination, ports, protocol = packet
    name = rule["protocol"].lower()
    if name not in PROTOCOLS or rule["access"].lower() not in ("allow", "deny"):
        raise Unknown(rule)
    found = [PROTOCOLS[name] in (None, protocol)]
    for side, value, port in (("source", source, ports[0]), ("destination", destination, ports[1])):
        if rule.get(f"{side}ApplicationSecurityGroups"):
            raise Unknown(rule)
        listed = either(rule, f"{side}PortRange", f"{side}PortRanges")
        if name not in ("tcp", "udp") and not {"*", "Any", "0-65535"} & set(listed):
            raise Unknown(rule)
        found.append(any([at(text, family, value)
                          for text in either(rule, f"{side}AddressPrefix", f"{side}AddressPrefixes")]))
        found.append(any([near(text, port) for text in listed]))
    return all(found)


def decide(text, packet):
    """The priority of the rule that decides a packet."""
    return next((rule["priority"] for rule in read(text) if matches(rule, packet)), 0)


def rule(name, priority, access, direction, protocol, sides):
    """One rule as the command prints it; a side is its addresses and its ports."""
    made = {"access": access, "description": None, "direction": direction, "name": name, "priority": priority,
            "protocol": protocol,
            "provisioningState": "Succeeded", "resourceGroup": "shop"}
    for side, (addresses, ports) in zip(("source", "destination"), sides):
        for key, many, values in ((f"{side}AddressPrefix", "es", addresses), (f"{side}PortRange", "s", ports)):
            made[key], made[key + many] = (values[0], []) if len(values) == 1 else (None, values)
        made[f"{side}ApplicationSecurityGroups"] = None
    return made


def draw(draw):
    """A group with rules in both directions and its default rules."""
    rules = []
    for place in range(draw.randrange(2, 7)):
        low = draw.randrange(12)
        protocol = draw.choice(["Tcp", "Tcp", "Udp", "Icmp", "*", "Esp"])
        sides = [(draw.choice([["*"], [f"10.0.0.{low & 12}/30"], [f"10.0.0.{low}", "10.1.0.0/16"],
                               ["2001:db8::/126", "10.0.0.0/29"]]),
                  draw.choice([["*"], ["443"], ["22", "80-443"], ["1023-65535"]]) if protocol in ("Tcp", "Udp")
                  else ["*"]) for _ in "sd"]
        rules.append(rule(f"rule{place}", 100 + 10 * place, draw.choice(["Allow", "Deny"]),
                          draw.choice(["Inbound", "Inbound", "Outbound"]),
                          protocol, sides))
    rules.append(rule("rest", 4096, "Deny", "Inbound", "*", [(["*"], ["*"])] * 2))
    vnet = rule("AllowVnetInBound", 65000, "Allow", "Inbound", "*", [(["VirtualNetwork"], ["*"])] * 2)
    default = rule("DenyAllInBound", 65500, "Deny", "Inbound", "*", [(["*"], ["*"])] * 2)
    return json.dumps({"name": "shop-nsg", "securityRules": draw.sample(rules, len(rules)),
                       "defaultSecurityRules": [vnet, default]}, indent=2)
