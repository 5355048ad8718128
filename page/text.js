// SPDX-License-Identifier: BSD-3-Clause
// Elements whose texts are text nodes, and keys, times and counts in words.

// An element with attributes, properties of functions (`onclick`), and children: elements or texts.
export function make(name, attributes = {}, ...children) {
  const space = ['svg', 'rect', 'g', 'line', 'text', 'title', 'pattern', 'path'].includes(name);
  const it = space ? document.createElementNS('http://www.w3.org/2000/svg', name) : document.createElement(name);
  for (const [key, value] of Object.entries(attributes)) {
    if (typeof value === 'function') it.addEventListener(key.slice(2), value);
    else if (value === true) it.setAttribute(key, '');
    else if (value !== false && value !== null && value !== undefined) it.setAttribute(key, value);
  }
  it.append(...children.flat(9).filter((child) => child !== null && child !== undefined && child !== false));
  return it;
}

// A text without what turns its direction or can't be seen, but for TABs and ends of lines.
export const shown = (text) => text.replace(
  /[\u0000-\u0008\u000b-\u001f\u007f-\u009f\u00ad\u061c\u200b-\u200f\u2028-\u202e\u2060-\u206f\ufeff]/g,
  (it) => `\\u${it.charCodeAt(0).toString(16).padStart(4, '0')}`);

const GROUPED = new Intl.NumberFormat('en-GB');
export const count = (number) => GROUPED.format(number);

// A word in the singular or the plural, after its count.
export const many = (number, word, plural = `${word}s`) => `${count(number)} ${number === 1 ? word : plural}`;

// A part of a whole in per cent.
export function share(part, whole) {
  if (!whole || !part) return '';
  const percent = (100 * part) / whole;
  return percent < 0.1 ? '< 0.1 %' : `${percent.toFixed(percent < 10 ? 1 : 0)} %`;
}

export const WITH_PORTS = { 6: 'tcp', 17: 'udp', 132: 'sctp' };
const NAMES = { 1: 'icmp', 2: 'igmp', 47: 'gre', 50: 'esp', 51: 'ah', 58: 'icmpv6', 89: 'ospf', 112: 'vrrp' };

export const protocolName = (number) => WITH_PORTS[number] ?? NAMES[number] ?? `protocol ${number}`;

// The address of 4 or 16 bytes in hexadecimal digits, as RFC 5952 has it.
export function addressText(digits) {
  if (digits.length === 8) return digits.match(/../g).map((it) => parseInt(it, 16)).join('.');
  const groups = digits.match(/..../g).map((it) => parseInt(it, 16).toString(16));
  let best = [0, 0];
  for (let at = 0; at < 8; at++) {
    let end = at;
    while (end < 8 && groups[end] === '0') end++;
    if (end - at > best[1]) best = [at, end - at];
  }
  if (best[1] < 2) return groups.join(':');
  return `${groups.slice(0, best[0]).join(':')}::${groups.slice(best[0] + best[1]).join(':')}`;
}

// The fields of a key in hexadecimal digits: protocol, source, destination and both ports.
export function fieldsOf(key) {
  const width = key.length === 26 ? 8 : 32;
  const at = 2 + 2 * width;
  return {
    family: width === 8 ? 4 : 6,
    protocol: parseInt(key.slice(0, 2), 16),
    source: key.slice(2, 2 + width),
    destination: key.slice(2 + width, at),
    ports: [parseInt(key.slice(at, at + 4), 16), parseInt(key.slice(at + 4), 16)],
    numbers: [key.slice(2, 2 + width), key.slice(2 + width, at), key.slice(at, at + 4), key.slice(at + 4), key.slice(0, 2)],
  };
}

// Whether a packet may have the key: without ports both count as 0.
export function isOfPacket(key) {
  const { protocol, ports } = fieldsOf(key);
  return protocol in WITH_PORTS || (ports[0] === 0 && ports[1] === 0);
}

// An address with its port, if it has one.
export function endText(address, port) {
  if (port === null) return address;
  return address.includes(':') ? `[${address}]:${port}` : `${address}:${port}`;
}

// A key in words.
export function keyText(key) {
  const { protocol, source, destination, ports } = fieldsOf(key);
  const has = protocol in WITH_PORTS || ports[0] > 0 || ports[1] > 0;
  const [from, to] = [source, destination].map((it, at) => endText(addressText(it), has ? ports[at] : null));
  return `${protocolName(protocol)} ${from} → ${to}`;
}

// A number of nanoseconds since 1970 as a time of Greenwich, to so many digits of a second. Where it has no date of four
// digits for the year, it is a number of seconds.
export function timeText(nanoseconds, digits = 3) {
  const rest = ((nanoseconds % 1000000000n) + 1000000000n) % 1000000000n;
  const seconds = (nanoseconds - rest) / 1000000000n;
  const part = rest.toString().padStart(9, '0').slice(0, digits);
  const date = new Date(Number(seconds) * 1000);
  const year = date.getUTCFullYear();
  if (!(year >= 0 && year <= 9999)) return `${secondsText(nanoseconds)} s`;
  return `${date.toISOString().slice(0, 19).replace('T', ' ')}${digits ? '.' : ''}${part}`;
}

// All digits of a number of nanoseconds as seconds.
function secondsText(nanoseconds) {
  const [sign, digits] = [nanoseconds < 0n ? '-' : '', String(nanoseconds).replace('-', '').padStart(10, '0')];
  return `${sign}${digits.slice(0, -9)}.${digits.slice(-9)}`;
}

// The same to as few digits as tell it exactly.
export const exactText = (nanoseconds) => timeText(nanoseconds, [3, 6, 9].find((it) => !(nanoseconds % 10n ** BigInt(9 - it))));

// The end of a range of times, without the date if that is the day of its start.
export function endTimeText(start, end, text = timeText) {
  const [from, to] = [text(start), text(end)];
  return from[10] === ' ' && from.slice(0, 11) === to.slice(0, 11) ? to.slice(11) : to;
}

// A range of times, told exactly.
export const rangeText = (start, end) => `${exactText(start)} to ${endTimeText(start, end, exactText)}`;

// A length of time in nanoseconds, in the unit that suits it.
export function lengthText(nanoseconds) {
  const units = [[86400e9, 'd'], [3600e9, 'h'], [60e9, 'min'], [1e9, 's'], [1e6, 'ms'], [1e3, 'µs'], [1, 'ns']];
  const length = Number(nanoseconds);
  const [size, unit] = units.find(([it]) => length >= it) ?? [1, 'ns'];
  return `${Number((length / size).toPrecision(3))} ${unit}`;
}

// A number of bytes.
export function sizeText(bytes) {
  if (bytes < 1024) return many(bytes, 'byte');
  return bytes < 1 << 20 ? `${(bytes / 1024).toFixed(1)} KiB` : `${(bytes / (1 << 20)).toFixed(1)} MiB`;
}
