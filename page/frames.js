// SPDX-License-Identifier: BSD-3-Clause
// A packet of a key, in an Ethernet frame, as a capture of one record.
import { WITH_PORTS } from './text.js';

const IP4 = [0x45, 0, 0, 28, 0, 0, 0, 0, 64];
// Headers of IPv6 that are passed over, of which a protocol can have the number in a later fragment alone.
const EXTENSIONS = [0, 43, 44, 60];

function payloadOf(key, protocol) {
  return protocol in WITH_PORTS ? [...key.slice(-4), 0, 0, 0, 0] : [0, 0, 0, 0, 0, 0, 0, 0];
}

function packetOf(key) {
  const [protocol, ...rest] = key;
  const addresses = rest.slice(0, rest.length - 4);
  const body = payloadOf(key, protocol);
  if (key.length === 13) return [0x08, 0x00, ...IP4, protocol, 0, 0, ...addresses, ...body];
  const isPassed = EXTENSIONS.includes(protocol);
  const fragment = isPassed ? [protocol, 0, 0, 8, 0, 0, 0, 0] : [];
  return [0x86, 0xdd, 0x60, 0, 0, 0, 0, fragment.length + body.length, isPassed ? 44 : protocol, 64, ...addresses, ...fragment, ...body];
}

const number = (value) => [value & 255, (value >> 8) & 255, (value >> 16) & 255, (value >>> 24) & 255];

// The capture of a key in hexadecimal digits, or of no packet.
export function captureOf(digits) {
  const head = [0xd4, 0xc3, 0xb2, 0xa1, 2, 0, 4, 0, ...number(0), ...number(0), ...number(262144), ...number(1)];
  if (!digits) return Uint8Array.from(head);
  const frame = [...Array(12).fill(0), ...packetOf(digits.match(/../g).map((it) => parseInt(it, 16)))];
  return Uint8Array.from([...head, ...number(0), ...number(0), ...number(frame.length), ...number(frame.length), ...frame]);
}
