# SPDX-License-Identifier: BSD-3-Clause
"""A drawer of security groups of AWS, and a walker over them that shares no code with the converter."""
import ipaddress
import json
from functools import lru_cache

from routers import Unknown

FORM, GIVEN, FAMILIES = "aws", {"list": "sg-0001", "chain": "ingress"}, (4, 6)
PROTOCOLS = {"tcp": 6, "udp": 17, "icmp": 1, "icmpv6": 58}
PERMISSION = {"IpProtocol", "FromPort", "ToPort", "IpRanges", "Ipv6Ranges", "PrefixListIds", "UserIdGroupPairs"}


def once(pairs):
    """An object whose names differ."""
    if len({name for name, _ in pairs}) < len(pairs):
        raise Unknown(pairs)
    return dict(pairs)


@lru_cache(8)
def read(text):
    """The permissions of the group, in order, each with its ranges."""
    groups = [it for it in json.loads(text, object_pairs_hook=once)["SecurityGroups"]
              if "sg-0001" in (it["GroupId"], it.get("GroupName"))]
    if len(groups) != 1:
        raise Unknown("groups")
    return groups[0]["IpPermissions"]


def carried(permission, ports, protocol):
    """Whether a permission is for a protocol and a port."""
    if set(permission) - PERMISSION:
        raise Unknown(permission)
    name = permission["IpProtocol"]
    number = PROTOCOLS.get(name) or int(name)
    low, high = permission.get("FromPort"), permission.get("ToPort")
    if number in (6, 17):
        if not (isinstance(low, int) and isinstance(high, int) and 0 <= low <= high <= 65535):
            raise Unknown(permission)
        return protocol == number and low <= ports[1] <= high
    every = ((None, None), (-1, -1)) if number in (1, 58) else ((None, None), (-1, -1), (0, 0), (0, 65535))
    if (low, high) not in every or not -1 <= number < 256:
        raise Unknown(permission)
    return number == -1 or protocol == number


def decide(text, packet):
    """The number of the range that allows a packet, or 0."""
    family, source, _, ports, protocol = packet
    count = 0
    for permission in read(text):
        for version, ranges, key in ((4, "IpRanges", "CidrIp"), (6, "Ipv6Ranges", "CidrIpv6")):
            for one in permission.get(ranges) or []:
                count += 1
                network = ipaddress.ip_network(one[key], strict=False)
                if network.version != version or "/" not in one[key] or set(one) - {key, "Description"}:
                    raise Unknown(one)
                near = version == family and int(network[0]) <= source <= int(network[-1])
                if carried(permission, ports, protocol) and near:
                    return count
        if permission.get("PrefixListIds") or permission.get("UserIdGroupPairs"):
            raise Unknown(permission)
    return 0


def permission(draw):
    """One permission as the command prints it."""
    low = draw.randrange(12)
    near = draw.sample([f"10.0.0.{low & 12}/30", f"10.0.0.{low}/32", "10.1.0.0/16", "0.0.0.0/0"], draw.randrange(1, 3))
    protocol = draw.choice(["tcp", "tcp", "udp", "icmp", "-1", "50"])
    made = {"IpProtocol": protocol, "IpRanges": [{"CidrIp": it} for it in near],
            "Ipv6Ranges": [{"CidrIpv6": "2001:db8::/125"}] if draw.random() < 0.4 else [], "PrefixListIds": [],
            "UserIdGroupPairs": []}
    if protocol in ("tcp", "udp"):
        made["FromPort"], made["ToPort"] = sorted(draw.choices([22, 53, 80, 443, 1023, 0, 65535], k=2))
    elif protocol == "icmp":
        made["FromPort"] = made["ToPort"] = -1
    made["IpRanges"][0].update({"Description": "the office"} if draw.random() < 0.3 else {})
    return made


def draw(draw):
    """Two security groups."""
    groups = [{"Description": "servers", "GroupName": name,
               "IpPermissions": [permission(draw) for _ in range(draw.randrange(1, 4))],
               "OwnerId": "123456789012", "GroupId": group, "IpPermissionsEgress": [permission(draw)],
               "VpcId": "vpc-1a2b3c4d"}
              for name, group in (("web", "sg-0001"), ("database", "sg-0002"))]
    return json.dumps({"SecurityGroups": groups}, indent=4)
