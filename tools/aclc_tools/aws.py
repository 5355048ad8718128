# SPDX-License-Identifier: BSD-3-Clause
"""Security groups and network ACLs of AWS, as `aws ec2 describe-security-groups` and `describe-network-acls` print
them.

Source: AWS CLI Command Reference, "describe-security-groups" and "describe-network-acls"; Amazon VPC User Guide,
"Security group rules" and "Network ACL rules". A group only allows, and the rest is dropped. Its rules have no numbers
in this form: they are counted from 1, in the order of the file, each range of addresses as one. Those of an ACL have
numbers of their own.
"""
from aclc_tools import boxes
from aclc_tools.cisco_words import compares, of_family, prefix
from aclc_tools.json_lists import EGRESS, INGRESS, chosen, direction, load, number, only, part, short, sided
from aclc_tools.lists import ACCEPT, DROP, PASS, CantSay, Chain, Rule

PROTOCOLS = {"tcp": 6, "udp": 17, "icmp": 1, "icmpv6": 58}
PERMISSION = ("IpProtocol", "FromPort", "ToPort", "IpRanges", "Ipv6Ranges", "PrefixListIds", "UserIdGroupPairs")
ENTRY = ("CidrBlock", "Ipv6CidrBlock", "Egress", "Protocol", "RuleAction", "RuleNumber", "PortRange", "IcmpTypeCode")
# The last entries of an ACL, which no one writes, are 32767 and 32768.
MOST_NUMBER = 32768
BLOCKS = ((4, "CidrBlock"), (6, "Ipv6CidrBlock"))
RANGES = ((4, "IpRanges", "CidrIp"), (6, "Ipv6Ranges", "CidrIpv6"))


def network(text, family):
    """The addresses of a prefix."""
    of_family(text.partition("/")[0], family)
    return prefix(text)[family]


def protocols_of(text):
    """The intervals of a protocol; -1 is all of them."""
    if text == "-1":
        return boxes.PROTOCOLS
    value = PROTOCOLS[text] if text in PROTOCOLS else number(text, 0xFF, "protocol")
    return ((value, value),)


def ports_of(protocols, low, high):
    """The ports from one to another, of protocols that have ports; of ICMP the two are a type and a code, -1 for
    all."""
    if protocols in (((1, 1),), ((58, 58),)):
        if (low, high) not in ((None, None), (-1, -1)):
            raise CantSay(compares("a type of ICMP"))
        return boxes.PORTS
    if protocols not in (((6, 6),), ((17, 17),)):
        if (low, high) not in ((None, None), (-1, -1), (0, 65535), (0, 0)):
            raise CantSay(compares("ports of a protocol other than TCP and UDP"))
        return boxes.PORTS
    if low is None or high is None or not 0 <= low <= high <= 0xFFFF:
        raise CantSay(f"no port lies from {low} to {high}")
    return ((low, high),)


def of_permission(permission, inward, count):
    """The rules of one permission, one for each range of addresses, counted on from a number."""
    only(permission, PERMISSION)
    name = part(permission, "IpProtocol", str)
    low, high = (part(permission, end, int, "") for end in ("FromPort", "ToPort"))
    ends = None if low == "" else low, None if high == "" else high
    told = f"{name} {'' if None in ends else f'{low} to {high} '}{'from' if inward else 'to'}"
    rules = []
    for family, ranges, key in RANGES:
        for one in part(permission, ranges, list, []):
            only(one, (key, "Description"))
            text, note = part(one, key, str), part(one, "Description", str, "")
            text = f"{told} {text}{f' ({note})' if note else ''}"
            rules.append(said(count + len(rules) + 1, text, lambda one=one, key=key, family=family: [
                box_of(network(part(one, key, str), family), family, name, ends, inward)]))
    for ranges, key, what in (("PrefixListIds", "PrefixListId", "a list of prefixes"),
                              ("UserIdGroupPairs", "GroupId", "a group")):
        for one in part(permission, ranges, list, []):
            reason = f"it names {what} whose addresses don't stand in this file"
            rules.append(Rule(count + len(rules) + 1, f"{told} {part(one, key, str, short(one))}", [], ACCEPT,
                              None, reason))
    if not rules:
        raise CantSay(f"the permission {told} no address stands with no range of addresses", count + 1)
    return rules


def said(count, text, read, verdict=ACCEPT):
    """A rule of the boxes that are read, or one with the reason why they can't be."""
    try:
        return Rule(count, text, read(), verdict, None, None)
    except CantSay as error:
        return Rule(count, text, [], verdict, None, error.reason)


def box_of(near, family, protocol, ends, inward):
    """The box of a range of addresses with its protocol and ports."""
    protocols = protocols_of(protocol)
    return sided(family, near, boxes.PORTS, ports_of(protocols, *ends), protocols, inward)


def of_group(group, inward):
    """The rules of a security group in one direction."""
    rules = []
    for permission in part(group, "IpPermissions" if inward else "IpPermissionsEgress", list):
        try:
            rules += of_permission(permission, inward, len(rules))
        except CantSay as error:
            raise CantSay(error.reason, error.number or len(rules) + 1, error.text) from None
    return rules


def of_entry(entry, inward):
    """The rule of an entry of a network ACL."""
    only(entry, ENTRY)
    count, action = part(entry, "RuleNumber", int), part(entry, "RuleAction", str)
    if not 0 < count <= MOST_NUMBER:
        raise CantSay(f"{count} is no number of an entry, which go from 1 to {MOST_NUMBER}")
    if action not in ("allow", "deny"):
        raise CantSay(f"the action {action} is neither allow nor deny", count)
    blocks = [(family, part(entry, key, str)) for family, key in BLOCKS if entry.get(key)]
    if len(blocks) != 1:
        raise CantSay("the entry has not exactly one range of addresses", count)
    (family, block), name = blocks[0], part(entry, "Protocol", str)
    span, kind = part(entry, "PortRange", dict, {}), part(entry, "IcmpTypeCode", dict, {})
    ends = [part(only(span, ("From", "To")), end, int) for end in ("From", "To")] if span else [None, None]
    told = f"{action} {name} {f'{ends[0]} to {ends[1]} ' if span else ''}{'from' if inward else 'to'} {block}"

    def read():
        """The box of the entry."""
        types = [part(only(kind, ("Type", "Code")), key, int) for key in ("Type", "Code")] if kind else [-1, -1]
        if types != [-1, -1]:
            raise CantSay(compares("a type of ICMP"))
        return [box_of(network(block, family), family, name, ends, inward)]
    return said(count, told, read, ACCEPT if action == "allow" else DROP)


def of_acl(acl, inward):
    """The rules of a network ACL in one direction, in the order of their numbers."""
    entries = [entry for entry in part(acl, "Entries", list) if part(entry, "Egress", bool) != inward]
    rules = sorted((of_entry(entry, inward) for entry in entries), key=lambda rule: rule.number)
    for rule, after in zip(rules, rules[1:]):
        if rule.number == after.number:
            raise CantSay("the number stands twice in the ACL", rule.number, after.text)
    return rules


def convert(lines, options):
    """The chain of the group or ACL that is meant, its name, and both families. The rest is dropped: the answer is
    0."""
    value = load(lines)
    groups, acls = part(value, "SecurityGroups", list, []), part(value, "NetworkAcls", list, [])
    if bool(groups) == bool(acls):
        raise CantSay("it isn't what aws ec2 describe-security-groups or describe-network-acls prints")
    only(value, ("SecurityGroups", "NetworkAcls", "NextToken"))
    if value.get("NextToken"):
        raise CantSay("the file ends before the last group: NextToken stands in it")
    named = [([part(group, "GroupId", str), part(group, "GroupName", str, "")], group) for group in groups]
    named += [([part(acl, "NetworkAclId", str)], acl) for acl in acls]
    found = chosen(named, options.list, "security group" if groups else "network ACL")
    inward = direction(options, (INGRESS, EGRESS)) == 0
    rules = of_group(found, inward) if groups else of_acl(found, inward)
    if not rules:
        raise CantSay(f"the list has no rules for {INGRESS if inward else EGRESS}, and drops all")
    name = found["GroupId"] if groups else found["NetworkAclId"]
    chain = Chain(name, rules, Rule(0, "", [], PASS, None, None))
    return {name: chain}, name, [options.family] if options.family else [4, 6]
