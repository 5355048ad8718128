// SPDX-License-Identifier: BSD-3-Clause
// Pieces in words: protocols by name, prefixes of addresses, and ports.
import { addressText, protocolName } from './text.js';
import { oneLike, PORTED, wholeOf } from './pieces.js';

const MOST_NAMED = 6;
const EVERY = (1n << 256n) - 1n;
const DIGITS = { 4: 8, 6: 32 };
const ANY_PORT = [0, 0xffff];

const isSame = ([low, high], [first, last]) => low === first && high === last;

function protocolsText(bits) {
  if (bits === EVERY) return 'any protocol';
  const some = Array.from({ length: 256 }, (_, it) => it);
  const [own, others] = [1n, 0n].map((bit) => some.filter((it) => ((bits >> BigInt(it)) & 1n) === bit));
  if (own.length <= MOST_NAMED) return own.map(protocolName).join(', ');
  if (others.length <= MOST_NAMED) return `any protocol but ${others.map(protocolName).join(', ')}`;
  const starts = own.filter((it, at) => own[at - 1] !== it - 1);
  const ends = own.filter((it, at) => own[at + 1] !== it + 1);
  return `protocols ${starts.map((it, at) => (it === ends[at] ? it : `${it}–${ends[at]}`)).join(', ')}`;
}

function networkText(family, side) {
  const [low, high] = side;
  if (isSame(side, wholeOf(family).sides[0])) return 'any address';
  const text = (number) => addressText(number.toString(16).padStart(DIGITS[family], '0'));
  if (low === high) return text(low);
  const [first, size] = [BigInt(low), BigInt(high) - BigInt(low) + 1n];
  const isPrefix = (size & (size - 1n)) === 0n && first % size === 0n;
  const length = DIGITS[family] * 4 + 1 - size.toString(2).length;
  return isPrefix ? `${text(low)}/${length}` : `${text(low)} – ${text(high)}`;
}

function portsText(protocols, [low, high]) {
  if ((protocols & PORTED) === 0n || isSame([low, high], ANY_PORT)) return '';
  return low === high ? ` port ${low}` : ` ports ${low}–${high}`;
}

// A piece of a family in words.
export function pieceText({ family, protocols, sides }) {
  const textAt = (at) => networkText(family, sides[at]) + portsText(protocols, sides[at + 2]);
  const [source, destination] = [textAt(0), textAt(1)];
  const any = source === destination && source === 'any address' ? `any address of IPv${family}` : null;
  return `${protocolsText(protocols)}: ${any ?? `${source} → ${destination}`}`;
}

// Two pieces as one, or nothing where no piece has all of both and no more.
function united(one, other) {
  const differ = [0, 1, 2, 3].filter((at) => !isSame(one.sides[at], other.sides[at]));
  if (one.family !== other.family || differ.length > 1) return null;
  if (!differ.length) return { ...one, protocols: one.protocols | other.protocols };
  const [at] = differ;
  const [first, last] = one.sides[at][0] < other.sides[at][0] ? [one, other] : [other, one];
  const [[low, end], [start, high]] = [first.sides[at], last.sides[at]];
  if (one.protocols !== other.protocols || end + oneLike(end) !== start) return null;
  const side = [low, high];
  return { ...one, sides: one.sides.map((it, place) => (place === at ? side : it)) };
}

// Pieces without ports as if they had any, since no packet has others.
function widened(piece) {
  return piece.protocols & PORTED ? piece : { ...piece, sides: [piece.sides[0], piece.sides[1], ANY_PORT, ANY_PORT] };
}

// The same keys of packets as fewer pieces, where two are one.
export function fewer(pieces) {
  const found = [];
  for (const piece of pieces.map(widened)) {
    let own = piece;
    for (let at = 0; at < found.length;) {
      const whole = united(own, found[at]);
      if (!whole) at++;
      else {
        found.splice(at, 1);
        [own, at] = [whole, 0];
      }
    }
    found.push(own);
  }
  return found;
}
