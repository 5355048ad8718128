# SPDX-License-Identifier: BSD-3-Clause
"""Files for the tests of the page: captures with times, and texts and names that would be markup."""
import random
import struct

HOSTILE = "<img src=x onerror=document.title='pwned'>"
ENDING = "</script><script>document.title='pwned'</script>"
# An hour's traffic begins here.
START = 1_764_000_000


def packet(protocol, source, destination, ports):
    """A packet of IPv4 in an Ethernet frame."""
    body = struct.pack(">HHHH", *ports, 8, 0) + bytes(12) if protocol in (6, 17) else bytes(8)
    head = struct.pack(">BBHHHBBH4s4s", 0x45, 0, 20 + len(body), 0, 0, 64, protocol, 0, source, destination)
    return bytes(12) + b"\x08\x00" + head + body


def steady(times, ports=(443, 80, 22)):
    """A savefile with a packet at each of these times, which are nanoseconds since 1970, to one port after the other."""
    parts = [struct.pack("<IHHIIII", 0xA1B23C4D, 2, 4, 0, 0, 262144, 1)]
    for number, time in enumerate(times):
        frame = packet(6, bytes([10, 0, 0, 1]), bytes([192, 0, 2, 1]), (1024, ports[number % len(ports)]))
        parts.append(struct.pack("<IIII", *divmod(time, 10 ** 9), len(frame), len(frame)) + frame)
    return b"".join(parts)


def simple_packets(count):
    """So many simple packets of pcapng, little-endian."""
    frame = packet(6, bytes([10, 0, 0, 1]), bytes([192, 0, 2, 1]), (1024, 443))
    body = frame + bytes(-len(frame) % 4)
    length = len(body) + 16
    return count * (struct.pack("<III", 3, length, len(frame)) + body + struct.pack("<I", length))


def capture(count, seed=1, hosts=40):
    """A savefile of so many packets in an hour, of some hosts and services, more in its middle than at its ends."""
    draw = random.Random(seed)
    parts = [struct.pack("<IHHIIII", 0xA1B2C3D4, 2, 4, 0, 0, 262144, 1)]
    services = [(6, 443)] * 5 + [(6, 80)] * 2 + [(17, 53)] * 3 + [(6, 22), (17, 123), (1, 0)]
    for second in sorted(draw.triangular(0, 3600) for _ in range(count)):
        protocol, port = draw.choice(services)
        source = bytes([10, draw.randrange(4), 0, draw.randrange(1, hosts)])
        destination = draw.choice([bytes([192, 0, 2, draw.randrange(1, 9)]), bytes([203, 0, 113, draw.randrange(1, hosts)])])
        frame = packet(protocol, source, destination, (draw.randrange(1024, 1024 + hosts), port))
        whole = int(second)
        parts.append(struct.pack("<IIII", START + whole, int((second - whole) * 1e6), len(frame), len(frame)) + frame)
    return b"".join(parts)


RULES = """# what the office may do
@10.0.0.0/16 192.0.2.0/24 0 : 65535 443 : 443 6/0xFF data=1
@10.0.0.0/15 192.0.2.0/24 0 : 65535 80 : 80 6/0xFF data=1
@10.0.0.0/8 0.0.0.0/0 0 : 65535 22 : 22 6/0xFF data=2
@10.1.0.0/16 0.0.0.0/0 0 : 65535 22 : 22 6/0xFF data=1
@10.0.0.0/8 0.0.0.0/0 0 : 65535 53 : 53 17/0xFF data=1
@10.0.0.0/8 192.0.2.0/24 0 : 65535 0 : 65535 1/0xFF data=1
@10.0.0.0/8 192.0.2.0/24 0 : 65535 7 : 7 1/0xFF data=3
@172.16.0.0/12 0.0.0.0/0 0 : 65535 0 : 65535 0/0 data=1
@0.0.0.0/0 203.0.113.0/24 0 : 65535 0 : 65535 0/0 data=2
"""
# The same with two lines changed.
OLD_RULES = RULES.replace("@10.0.0.0/16 192.0.2.0/24", "@10.0.0.0/14 192.0.2.0/24").replace("53 : 53", "53 : 54")
