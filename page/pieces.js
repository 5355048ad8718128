// SPDX-License-Identifier: BSD-3-Clause
// Sets of keys as pieces: each has a bit for each protocol, and an interval of each side.

const MOST_PIECES = 20000;
export const PORTED = [6, 17, 132].reduce((bits, it) => bits | (1n << BigInt(it)), 0n);

export class TooMany extends Error {}

const protocolSets = new Map();

// A bit for each protocol that agrees with a value in the bits of a mask.
function protocolsOf(value, mask) {
  const name = `${value}/${mask}`;
  if (!protocolSets.has(name)) {
    let bits = 0n;
    for (let it = 0; it < 256; it++) if (((it ^ value) & mask) === 0) bits |= 1n << BigInt(it);
    protocolSets.set(name, bits);
  }
  return protocolSets.get(name);
}

// The number of a side's digits. Addresses of IPv6 are BigInts, all other numbers are Numbers.
const numberOf = (family, digits, at) => (family === 6 && at < 2 ? BigInt(`0x${digits}`) : parseInt(digits, 16));

// What a rule matches.
export function pieceOf({ family, protocol: [value, mask], sides }) {
  const numbers = (side, at) => side.map((it) => numberOf(family, it, at));
  return { protocols: protocolsOf(value, mask), sides: sides.map(numbers) };
}

// The pieces of the keys that packets have: those of protocols without ports have ports 0.
export function ofPackets({ protocols, sides }) {
  const found = [{ protocols: protocols & PORTED, sides }];
  if (sides[2][0] === 0 && sides[3][0] === 0) {
    found.push({ protocols: protocols & ~PORTED, sides: [sides[0], sides[1], [0, 0], [0, 0]] });
  }
  return found.filter((it) => it.protocols);
}

const greater = (one, other) => (one > other ? one : other);
const less = (one, other) => (one < other ? one : other);
export const oneLike = (number) => (typeof number === 'bigint' ? 1n : 1);

// Whether two pieces have a key in common.
export function meets(one, other) {
  for (let at = 0; at < 4; at++) {
    const [side, its] = [one.sides[at], other.sides[at]];
    if (side[0] > its[1] || its[0] > side[1]) return false;
  }
  return (one.protocols & other.protocols) !== 0n;
}

// What two pieces have in common, which is something.
export const both = (one, other) => ({ protocols: one.protocols & other.protocols,
  sides: one.sides.map(([low, high], at) => [greater(low, other.sides[at][0]), less(high, other.sides[at][1])]) });

// What is left of a piece without another one.
export function without(piece, other) {
  if (!meets(piece, other)) return [piece];
  const found = [];
  const sides = [...piece.sides];
  sides.forEach(([low, high], at) => {
    const [first, last] = other.sides[at];
    const cut = (side) => {
      found.push({ protocols: piece.protocols, sides: sides.map((it, place) => (place === at ? side : it)) });
    };
    if (low < first) cut([low, first - oneLike(first)]);
    if (last < high) cut([last + oneLike(last), high]);
    sides[at] = [greater(low, first), less(high, last)];
  });
  const rest = piece.protocols & ~other.protocols;
  return rest ? [...found, { protocols: rest, sides }] : found;
}

// What others leave of some pieces.
export function leftBy(pieces, others) {
  let left = pieces;
  for (const other of others) {
    if (!left.length) break;
    left = left.flatMap((it) => without(it, other));
    if (left.length > MOST_PIECES) throw new TooMany();
  }
  return left;
}

// Whether a piece has all keys of another one.
export const holds = (piece, other) => (other.protocols & ~piece.protocols) === 0n
  && piece.sides.every(([low, high], at) => low <= other.sides[at][0] && other.sides[at][1] <= high);

// All keys of a family.
export function wholeOf(family) {
  const network = family === 4 ? [0, 0xffffffff] : [0n, (1n << 128n) - 1n];
  return { protocols: (1n << 256n) - 1n, sides: [network, network, [0, 0xffff], [0, 0xffff]] };
}

// The pieces of a box of a chain: its family, and the intervals of each side, those of the protocols last.
export function piecesOfBox([family, ...sides]) {
  const protocols = sides[4].reduce((bits, [low, high]) => bits | bitsOf(parseInt(low, 16), parseInt(high, 16)), 0n);
  let found = [[]];
  sides.slice(0, 4).forEach((side, at) => {
    const intervals = side.map((interval) => interval.map((it) => numberOf(family, it, at)));
    found = found.flatMap((it) => intervals.map((interval) => [...it, interval]));
  });
  return found.map((it) => ({ protocols, sides: it }));
}

// A bit for each protocol of an interval.
const bitsOf = (low, high) => ((1n << BigInt(high - low + 1)) - 1n) << BigInt(low);

// Whether a piece has the key of these digits' fields.
export function hasKey({ protocols, sides }, { family, protocol, numbers }) {
  const isIn = ([low, high], number) => low <= number && number <= high;
  const isOfProtocol = ((protocols >> BigInt(protocol)) & 1n) === 1n;
  return isOfProtocol && sides.every((it, at) => isIn(it, numberOf(family, numbers[at], at)));
}
