// SPDX-License-Identifier: BSD-3-Clause
// Rule lists, captures and damage, as drawn numbers say: the same for each run.

// Numbers below a bound, from a seed (xorshift of 32 bits).
export function draws(seed) {
  let state = seed;
  return (bound) => {
    state ^= state << 13;
    state ^= state >>> 17;
    state ^= state << 5;
    return (state >>> 0) % bound;
  };
}

export const pick = (draw, all) => all[draw(all.length)];

const bytes = (...parts) => Uint8Array.from(parts.flatMap((part) => [...part]));
const pair = (number) => [number >> 8 & 255, number & 255];
const four = (number) => [...pair(number >>> 16), ...pair(number)];

// An address of few, so that rules meet packets.
const address4 = (draw) => [10, draw(4), draw(4), draw(256)];
const address6 = (draw) => [0x20, 1, 0x0d, 0xb8, 0, draw(4), 0, draw(4), 0, 0, 0, 0, 0, 0, draw(4), draw(256)];
const text6 = (address) => Array.from({ length: 8 }, (_, at) => (address[2 * at] << 8 | address[2 * at + 1]).toString(16)).join(':');

// A rule's network: its address with the bits after the prefix cleared or not.
function network(draw, six) {
  const bits = pick(draw, six ? [0, 32, 48, 64, 112, 128] : [0, 8, 16, 24, 30, 32]);
  return (six ? text6(address6(draw)) : address4(draw).join('.')) + '/' + bits;
}

function ports(draw) {
  const low = pick(draw, [0, 0, 22, 53, 80, 443, 1024, draw(65536)]), high = pick(draw, [65535, low, low + draw(65536 - low)]);
  return `${low} : ${Math.max(low, high)}`;
}

function attributes(draw) {
  const all = [];
  if (draw(2)) all.push(`pri=${draw(9)}`);
  if (draw(3) === 0) all.push(`cat=${1 + draw(65535)}`);
  if (draw(4)) all.push(`data=${draw(100)}`);
  return all.map((it) => '\t' + it).join('');
}

function rule(draw, six) {
  const protocol = pick(draw, ['0x06/0xFF', '0x11/0xFF', '0x00/0x00', '0x01/0xFF']);
  return `@${network(draw, six)}\t${network(draw, six)}\t${ports(draw)}\t${ports(draw)}\t${protocol}${attributes(draw)}`;
}

// A list of so many rules of both families.
export function rules(draw, count) {
  const lines = Array.from({ length: count }, () => draw(8) ? rule(draw, draw(3) === 0) : pick(draw, ['# a comment', '', rule(draw, false)]));
  return new TextEncoder().encode(lines.map((it) => it + '\n').join(''));
}

// A list as a firewall has it: so many rules of hosts, networks and services, the last of which lets nothing else pass.
export function firewall(draw, count) {
  const any = '0.0.0.0/0', all = '0 : 65535', place = () => `10.${draw(4)}.${draw(4)}.${draw(256)}/${pick(draw, [24, 32, 32])}`;
  const service = () => pick(draw, [22, 25, 53, 80, 123, 443, 1024 + draw(20000)]), protocol = () => pick(draw, ['0x06/0xFF', '0x11/0xFF']);
  const lines = Array.from({ length: count - 1 }, (_, at) => {
    const port = service();
    return `@${draw(4) ? any : place()}\t${place()}\t${all}\t${port} : ${port}\t${protocol()}\tpri=${count - at}\tdata=${at + 1}`;
  });
  return new TextEncoder().encode([...lines, `@${any}\t${any}\t${all}\t${all}\t0x00/0x00\tpri=1\tdata=${count}`].join('\n') + '\n');
}

// A packet, and the row that tells of it: its class and key.
function packet(draw) {
  const protocol = pick(draw, [6, 17, 1, 132, 47]), from = draw(65536), to = pick(draw, [22, 53, 80, 443, draw(65536)]);
  const has_ports = protocol === 6 || protocol === 17 || protocol === 132, last = has_ports ? bytes(pair(from), pair(to)) : [0, 0, 0, 0];
  const six = draw(3) === 0, payload = bytes(pair(from), pair(to), new Array(16).fill(0));
  const ends = six ? [address6(draw), address6(draw)] : [address4(draw), address4(draw)];
  const header = six ? bytes([0x60, 0, 0, 0], pair(payload.length), [protocol, 64], ...ends)
    : bytes([0x45, 0], pair(20 + payload.length), [0, 0, 0, 0, 64, protocol, 0, 0], ...ends);
  const frame = bytes(new Array(12).fill(2), six ? [0x86, 0xdd] : [8, 0], header, payload);
  return { frame, row: bytes([six ? 6 : 4, protocol], ...ends, last) };
}

const ARP = bytes(new Array(12).fill(2), [8, 6], new Array(28).fill(0));

// A frame of any class.
function frame(draw) {
  const kind = draw(12), whole = packet(draw);
  if (kind === 0) return { frame: ARP, row: bytes([0]) };
  if (kind === 1) return { frame: whole.frame.slice(0, draw(14)), row: bytes([1]) };
  return whole;
}

const HEADER = bytes(four(0xa1b2c3d4), pair(2), pair(4), four(0), four(0), four(65535), four(1));

// A savefile of so many records, in the network's order, and the rows that tell of them: 38 bytes each.
export function capture(draw, count) {
  const parts = [HEADER], rows = new Uint8Array(38 * count);
  for (let number = 0; number < count; number++) {
    const { frame: captured, row } = frame(draw);
    parts.push(bytes(four(1700000000 + number), four(draw(1000000)), four(captured.length), four(captured.length)), captured);
    rows.set(row, 38 * number);
  }
  return { bytes: Uint8Array.from(Buffer.concat(parts)), rows };
}

// The bytes with some of them changed, cut off or doubled.
export function damaged(draw, whole) {
  const changed = Uint8Array.from(whole);
  if (whole.length === 0) return changed;
  const kind = draw(3), at = draw(whole.length);
  if (kind === 0) return changed.slice(0, at);
  if (kind === 1) return Uint8Array.from(Buffer.concat([changed.slice(0, at), changed.slice(at > 40 ? at - 40 : 0)]));
  for (let times = 1 + draw(4); times > 0; times--) changed[draw(whole.length)] = draw(256);
  return changed;
}
