// SPDX-License-Identifier: BSD-3-Clause
// Parts of all keys, so that a list whose table is too large is looked at part by part, as tools/dead looks at it.
//
// A part matches keys as a rule does: {protocol: [value, mask], sides: four intervals of numbers}. The first two are
// networks. A rule is clipped to it. Parts are cut until the program takes their tables.
import { addressText } from './text.js';

const MOST_RUNS = 200;
const MOST_PORT = 0xffff;
const MOST_PRIORITY = 536870911;
const PORTED = [6, 17, 132];
const BITS = { 4: 32, 6: 128 };

// Addresses of IPv4 are Numbers and those of IPv6 are BigInts; what goes over both calculates by these.
const [ZERO, LAST] = [{ 4: 0, 6: 0n }, { 4: 0xffffffff, 6: (1n << 128n) - 1n }];
const halfOf = (size) => (typeof size === 'bigint' ? size >> 1n : Math.floor(size / 2));
const numberOf = (family, digits) => (family === 4 ? parseInt(digits, 16) : BigInt(`0x${digits}`));

// All keys of a family.
export function wholeOf(family) {
  const network = [ZERO[family], LAST[family]];
  return { protocol: [0, 0], sides: [network, network, [0, MOST_PORT], [0, MOST_PORT]] };
}

// The part of all keys that a rule matches.
export function partOf({ family, sides, protocol }) {
  const numberAt = (at) => (it) => (at < 2 ? numberOf(family, it) : parseInt(it, 16));
  return { protocol, sides: sides.map((side, at) => side.map(numberAt(at))) };
}

const agree = ([value, mask], [other, its]) => ((value ^ other) & mask & its) === 0;

function meets(one, other) {
  if (!agree(one.protocol, other.protocol)) return false;
  for (let at = 0; at < 4; at++) {
    const [side, its] = [one.sides[at], other.sides[at]];
    if (side[0] > its[1] || its[0] > side[1]) return false;
  }
  return true;
}

const greater = (one, other) => (one > other ? one : other);
const less = (one, other) => (one < other ? one : other);

// The part that two parts have in common, which is something.
function common(one, other) {
  const [[value, mask], [otherValue, otherMask]] = [one.protocol, other.protocol];
  return { protocol: [(value & mask) | (otherValue & otherMask), mask | otherMask],
    sides: one.sides.map(([low, high], at) => [greater(low, other.sides[at][0]), less(high, other.sides[at][1])]) };
}

// What is left in a part of rules that were clipped before.
const clip = (rules, part) => rules.filter((it) => meets(it.part, part))
  .map((it) => ({ ...it, part: common(it.part, part) }));

const withSide = (part, at, side) => ({ ...part, sides: part.sides.map((it, place) => (place === at ? side : it)) });

// A part cut in two by a bit of the protocol.
function byBit(part, bit) {
  const [value, mask] = part.protocol;
  return mask & bit ? [] : [0, bit].map((it) => ({ ...part, protocol: [(value & mask) | it, mask | bit] }));
}

// A part cut by the bits of a network down to the first that separates rules: both halves, and what was cut off.
function byNetwork(rules, part, at) {
  let [low, high] = part.sides[at];
  const sides = rules.map((it) => it.part.sides[at]);
  const cutOff = [];
  while (low < high) {
    const middle = low + halfOf(high - low);
    const next = middle + (typeof low === 'bigint' ? 1n : 1);
    const halves = [[low, middle], [next, high]];
    const narrow = sides.filter((it) => it[0] >= low && it[1] <= high && !(it[0] <= low && it[1] >= high));
    const right = narrow.filter((it) => it[0] >= next).length;
    if (right && right < narrow.length) return [...cutOff, ...halves].map((it) => withSide(part, at, it));
    if (!narrow.length) return [];
    cutOff.push(halves[right ? 0 : 1]);
    [low, high] = halves[right ? 1 : 0];
  }
  return [];
}

// A part cut in two where ranges of rules begin or end: at that of these ports that stands in the middle.
function byPorts(rules, part, at) {
  const [low, high] = part.sides[at];
  const all = rules.flatMap((it) => [it.part.sides[at][0], it.part.sides[at][1] + 1]);
  const ends = new Set(all.filter((it) => it > low && it <= high));
  if (!ends.size) return [];
  const middle = [...ends].sort((one, other) => one - other)[ends.size >> 1];
  return [[low, middle - 1], [middle, high]].map((it) => withSide(part, at, it));
}

// The cut of a part that leaves the fewest rules in the fullest of its pieces, or nothing where none helps.
function cut(rules, part) {
  const choices = Array.from({ length: 8 }, (_, it) => byBit(part, 1 << it));
  for (const at of [0, 1]) choices.push(byNetwork(rules, part, at));
  for (const at of [2, 3]) choices.push(byPorts(rules, part, at));
  let best = null;
  for (const pieces of choices.filter((it) => it.length)) {
    const counts = pieces.map((piece) => rules.reduce((sum, it) => sum + (meets(it.part, piece) ? 1 : 0), 0));
    const [most, all] = [Math.max(...counts), counts.reduce((sum, it) => sum + it, 0)];
    const isLess = !best || most < best.most || (most === best.most && all < best.all);
    if (Math.min(...counts) < rules.length && isLess) best = { most, all, pieces };
  }
  return best?.pieces ?? [];
}

function networkText(family, [low, high]) {
  const free = low === high ? 0 : (high - low).toString(2).length;
  return `${addressText(low.toString(16).padStart(BITS[family] / 4, '0'))}/${BITS[family] - free}`;
}

// A line of a rule file.
function lineOf(family, { protocol: [value, mask], sides }, { data, priority, categories }) {
  const networks = sides.slice(0, 2).map((it) => networkText(family, it)).join(' ');
  const ports = sides.slice(2).map(([low, high]) => `${low}:${high}`).join(' ');
  return `@${networks} ${ports} ${value & mask}/${mask} pri=${priority} cat=${categories} data=${data}\n`;
}

// Protocols without ports from a value on, so many as a number of bits has, each as a value and a mask.
function withoutPorts(value, bits) {
  const count = 1 << bits;
  if (!PORTED.some((it) => it >= value && it < value + count)) return [[value, 256 - count]];
  return bits ? [...withoutPorts(value, bits - 1), ...withoutPorts(value + count / 2, bits - 1)] : [];
}

// Lines for the keys of a part that no packet has, above all others: ports of protocols that have none.
function ofNoPacket(family, part) {
  const [rest, every, none] = [[1, MOST_PORT], [0, MOST_PORT], [0, 0]];
  const odd = withoutPorts(0, 8).flatMap((protocol) => [[rest, every], [none, rest]].map(
    (ports) => ({ protocol, sides: [...wholeOf(family).sides.slice(0, 2), ...ports] })));
  const first = { data: 0, priority: MOST_PRIORITY, categories: 0xffff };
  return odd.filter((it) => meets(it, part)).map((it) => lineOf(family, common(it, part), first));
}

// The bytes of a rule file of what is left of rules in a part, of which each has its `data`, priority and categories.
export function ruleFile(family, part, rules, isOfPackets) {
  const lines = isOfPackets ? ofNoPacket(family, part) : [];
  for (const it of rules) lines.push(lineOf(family, it.part, it));
  return new TextEncoder().encode(lines.join(''));
}

// A part in words.
export function words(family, part) {
  const [value, mask] = part.protocol;
  const protocol = [value & mask, mask].map((it) => `0x${it.toString(16).padStart(2, '0')}`).join('/');
  const [source, destination] = part.sides.slice(0, 2).map((it) => networkText(family, it));
  const [from, to] = part.sides.slice(2).map(([low, high]) => `${low}:${high}`);
  return `IPv${family}, protocol ${protocol}, ${source} to ${destination}, ports ${from} to ${to}`;
}

// What the program says as it refuses a part whose table is too large.
export class TooLarge extends Error {}

// Looks at all keys of a family, in parts where the program refuses the whole. It gives the count of parts, and those
// that couldn't be looked at, each with its rules and what the program said. `look` gets a part, the rules that are
// left in it, and whether keys that no packet has are left out. It says whether to look once more without these keys.
export function search(family, rules, look) {
  const waiting = rules.length ? [{ part: wholeOf(family), rules, isOfPackets: false }] : [];
  const found = { left: [], parts: 0 };
  let [runs, message] = [0, ''];
  while (waiting.length) {
    const it = waiting.pop();
    if (runs === MOST_RUNS) {
      found.left.push({ part: it.part, rules: it.rules, message });
      continue;
    }
    runs++;
    try {
      if (look(it.part, it.rules, it.isOfPackets) && !it.isOfPackets) waiting.push({ ...it, isOfPackets: true });
      else found.parts++;
    } catch (fault) {
      if (!(fault instanceof TooLarge)) throw fault;
      message = fault.message;
      const pieces = cut(it.rules, it.part);
      const narrowed = pieces.map((part) => ({ part, rules: clip(it.rules, part), isOfPackets: it.isOfPackets }));
      waiting.push(...narrowed.reverse().filter((its) => its.rules.length));
      if (!pieces.length) found.left.push({ part: it.part, rules: it.rules, message });
    }
  }
  return { ...found, parts: runs > 2 ? found.parts : 0 };
}
