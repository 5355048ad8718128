// SPDX-License-Identifier: BSD-3-Clause
// Times of records, in nanoseconds since 1970. The proved readers pass them over, so that the page reads them itself. They are
// shown only if it sees as many records as the program.

const SECTION = 0x0a0d0d0a;
const UNITS = { 0xa1b2c3d4: 1000n, 0xa1b23c4d: 1n };
const UNIT_OPTION = 9;
const OFFSET_OPTION = 14;

// The nanoseconds of a pcap file's records: of seconds and a part of them.
function ofPcap(view, little, unit, most) {
  const times = [];
  for (let at = 24; at + 16 <= view.byteLength && times.length < most;) {
    times.push(BigInt(view.getUint32(at, little)) * 1000000000n + BigInt(view.getUint32(at + 4, little)) * unit);
    at += 16 + view.getUint32(at + 8, little);
  }
  return times;
}

// How many units a second has on an interface, and what is added to its times in seconds.
function interfaceOf(view, from, to, little) {
  let [perSecond, offset] = [1000000n, 0n];
  for (let at = from; at + 4 <= to;) {
    const [code, length] = [view.getUint16(at, little), view.getUint16(at + 2, little)];
    const isWhole = at + 4 + length <= to;
    if (!code) break;
    if (code === UNIT_OPTION && length === 1 && isWhole) {
      const exponent = view.getUint8(at + 4);
      perSecond = (exponent & 128 ? 2n : 10n) ** BigInt(exponent & 127);
    }
    if (code === OFFSET_OPTION && length === 8 && isWhole) offset = view.getBigInt64(at + 4, little);
    at += 4 + ((length + 3) & ~3);
  }
  return { perSecond, offset };
}

// The nanoseconds of a pcapng file's enhanced packets.
function ofPcapng(view, most) {
  const times = [];
  let [little, interfaces] = [false, []];
  for (let at = 0; at + 12 <= view.byteLength && times.length < most;) {
    if (view.getUint32(at) === SECTION) {
      little = view.getUint32(at + 8) !== 0x1a2b3c4d;
      interfaces = [];
    }
    const [kind, total] = [view.getUint32(at, little), view.getUint32(at + 4, little)];
    if (total < 12 || at + total > view.byteLength) break;
    if (kind === 1) interfaces.push(interfaceOf(view, at + 16, at + total - 4, little));
    if (kind === 6) {
      const { perSecond, offset } = interfaces[view.getUint32(at + 8, little)];
      const units = (BigInt(view.getUint32(at + 12, little)) << 32n) | BigInt(view.getUint32(at + 16, little));
      times.push(offset * 1000000000n + (units * 1000000000n) / perSecond);
    }
    at += total;
  }
  return times;
}

const MOST_TIME = 1n << 63n;
// Blocks of packets that the program doesn't read: those of the obsolete form, and simple packets.
const PASSED_OVER = [2, 3];

// How many packets of a capture stand in blocks that aren't read.
export function passedOver(capture) {
  const view = new DataView(capture.buffer, capture.byteOffset, capture.byteLength);
  let [little, count] = [false, 0];
  if (view.byteLength < 12 || view.getUint32(0) !== SECTION) return 0;
  for (let at = 0; at + 12 <= view.byteLength;) {
    if (view.getUint32(at) === SECTION) little = view.getUint32(at + 8) !== 0x1a2b3c4d;
    const [kind, total] = [view.getUint32(at, little), view.getUint32(at + 4, little)];
    if (total < 12 || total % 4 || at + total > view.byteLength) break;
    if (PASSED_OVER.includes(kind)) count++;
    at += total;
  }
  return count;
}

// The times of so many records, or why they aren't told: the page sees another number of records, or one without a date.
export function timesOf(capture, count) {
  const view = new DataView(capture.buffer, capture.byteOffset, capture.byteLength);
  const times = view.byteLength < 24 ? [] : allOf(view, count);
  if (times.length !== count) return { times: null, why: `the page reads ${times.length} records, and the program ${count}` };
  const odd = times.findIndex((it) => it <= -MOST_TIME || it >= MOST_TIME);
  return odd < 0 ? { times } : { times: null, why: `that of packet ${odd + 1} is before 1678 or after 2262` };
}

function allOf(view, count) {
  const [big, small] = [view.getUint32(0), view.getUint32(0, true)];
  if (big === SECTION) return ofPcapng(view, count);
  return big in UNITS || small in UNITS ? ofPcap(view, small in UNITS, UNITS[small] ?? UNITS[big], count) : [];
}
