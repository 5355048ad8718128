// SPDX-License-Identifier: BSD-3-Clause
// Which packets are shown: by entry, address, port, answer, time, and whether the answer changed.

export const everything = () => ({ entry: '', address: '', port: '', answer: '', from: null, to: null, changed: false, pair: null });

export const isEverything = (filter) => Object.entries(everything()).every(([name, value]) => filter[name] === value);

// The bytes and the length of a network or an address, or null where the text is none.
export function networkOf(text) {
  const [address, length, rest] = text.trim().split('/');
  const bytes = address.includes(':') ? bytesOf6(address) : bytesOf4(address);
  const most = bytes && bytes.length * 8;
  if (!bytes || rest !== undefined) return null;
  if (length === undefined) return { bytes, length: most };
  return /^[0-9]{1,3}$/.test(length) && Number(length) <= most ? { bytes, length: Number(length) } : null;
}

function bytesOf4(text) {
  const parts = text.split('.');
  const good = parts.length === 4 && parts.every((it) => /^[0-9]{1,3}$/.test(it) && Number(it) < 256);
  return good ? parts.map(Number) : null;
}

function bytesOf6(text) {
  const sides = text.split('::');
  if (sides.length > 2) return null;
  const [left, right] = sides.map((it) => (it ? it.split(':') : []));
  const missing = 8 - left.length - (right?.length ?? 0);
  if (right ? missing < 1 : missing !== 0) return null;
  const groups = [...left, ...Array(right ? missing : 0).fill('0'), ...(right ?? [])];
  if (!groups.every((it) => /^[0-9a-fA-F]{1,4}$/.test(it))) return null;
  return groups.flatMap((it) => [parseInt(it, 16) >> 8, parseInt(it, 16) & 255]);
}

function isWithin(keys, at, { bytes, length }) {
  const whole = length >> 3;
  for (let place = 0; place < whole; place++) if (keys[at + place] !== bytes[place]) return false;
  const rest = length & 7;
  return !rest || (keys[at + whole] ^ bytes[whole]) >> (8 - rest) === 0;
}

// Whether a packet's source or destination is in a network.
function hasAddress(packets, at, network) {
  const size = packets.kind[at] === 4 ? 4 : 16;
  if (packets.kind[at] < 4 || network.bytes.length !== size) return false;
  const from = packets.key[at] + 1;
  return isWithin(packets.keys, from, network) || isWithin(packets.keys, from + size, network);
}

function hasPort(packets, at, port) {
  if (packets.kind[at] < 4) return false;
  const from = packets.key[at] + (packets.kind[at] === 4 ? 9 : 33);
  const { keys } = packets;
  return ((keys[from] << 8) | keys[from + 1]) === port || ((keys[from + 2] << 8) | keys[from + 3]) === port;
}

// The outcomes that a filter keeps, as an array of 0 and 1.
function keptOutcomes(report, filter, category, isChanged) {
  const { packets } = report;
  const list = packets.lists - 1;
  return Uint8Array.from(packets.outcomes, ({ kind }, place) => {
    const entry = kind < 4 ? null : packets.decider(place, list, category);
    if (filter.entry !== '' && entry !== Number(filter.entry)) return 0;
    if (filter.answer !== '' && (entry === null || report.answerText(report.list, entry) !== filter.answer)) return 0;
    if (filter.pair && !filter.pair.outcomes.has(place)) return 0;
    return filter.changed && !isChanged[place] ? 0 : 1;
  });
}

// How many packets of the captures a filter keeps, of those that aren't held too; null where that isn't known.
export function totalBy(report, filter, category, isChanged) {
  if (filter.address.trim() || filter.port.trim() || filter.from !== null) return null;
  const kept = keptOutcomes(report, filter, category, isChanged);
  return report.packets.outcomes.reduce((sum, { total }, place) => sum + kept[place] * total, 0);
}

// The places of the packets that are shown, in their order; what can't be read is said.
export function shownBy(report, filter, category, isChanged) {
  const { packets } = report;
  const network = filter.address.trim() ? networkOf(filter.address) : null;
  const port = filter.port.trim() === '' ? null : Number(filter.port);
  if (filter.address.trim() && !network) return { fault: 'write an address as 10.0.0.5 or 2001:db8::1, or a network as 10.0.0.0/8' };
  if (port !== null && !(/^[0-9]+$/.test(filter.port.trim()) && port <= 65535)) return { fault: 'write a port as a number of at most 65535' };
  const kept = keptOutcomes(report, filter, category, isChanged);
  const places = new Uint32Array(packets.held);
  let count = 0;
  for (let at = 0; at < packets.held; at++) {
    if (!kept[packets.outcome[at]]) continue;
    if (filter.from !== null && (packets.time[at] < filter.from || packets.time[at] >= filter.to)) continue;
    if (network && !hasAddress(packets, at, network)) continue;
    if (port !== null && !hasPort(packets, at, port)) continue;
    places[count++] = at;
  }
  return { places: places.subarray(0, count) };
}
