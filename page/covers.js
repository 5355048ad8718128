// SPDX-License-Identifier: BSD-3-Clause
// Which earlier rules cover one that can never decide: the fewest that are found. It is the page's own reading, after
// tools/aclc_tools/covers.py. Rules near others are found by their networks and ports, without a look at each.
import { both, leftBy, meets, ofPackets, oneLike, pieceOf, TooMany } from './pieces.js';

const MOST_PAIRS = 60;
const MOST_CATEGORIES = 16;
const PORT_BITS = 16;

// The first place in a sorted array at which a number isn't below a limit.
function firstFrom(sorted, limit) {
  let [low, high] = [0, sorted.length];
  while (low < high) {
    const middle = (low + high) >> 1;
    if (sorted[middle][0] < limit) low = middle + 1;
    else high = middle;
  }
  return low;
}

function add(map, name, place) {
  if (!map.has(name)) map.set(name, []);
  map.get(name).push(place);
}

// Pieces, each with its place, by their network on one side.
class Networks {
  constructor(at, pieces) {
    this.places = new Map();
    const networks = new Map();
    for (const [place, { sides }] of pieces) {
      add(this.places, sides[at].join(), place);
      networks.set(sides[at].join(), sides[at]);
    }
    this.networks = [...networks.values()].sort((one, other) => (one[0] < other[0] ? -1 : one[0] > other[0] ? 1 : 0));
    this.sizes = [...new Set(this.networks.map(([low, high]) => high - low))];
    // How many places the networks before each one have.
    this.before = [0];
    this.networks.forEach((it, at) => this.before.push(this.before[at] + this.places.get(it.join()).length));
  }

  // The networks that begin before a number and may hold it, each with its places.
  around(low) {
    const around = this.sizes.map((size) => [low - (low % (size + oneLike(size))), size]);
    const earlier = around.filter(([base]) => base !== low);
    return earlier.map(([base, size]) => this.places.get([base, base + size].join()) ?? []);
  }

  count([low, high]) {
    const [from, to] = [low, high + oneLike(high)].map((it) => this.before[firstFrom(this.networks, it)]);
    return this.around(low).reduce((sum, it) => sum + it.length, to - from);
  }

  // The places of the networks that hold an interval's least number, or begin within the interval.
  near([low, high]) {
    const within = this.networks.slice(firstFrom(this.networks, low), firstFrom(this.networks, high + oneLike(high)));
    return [...this.around(low).flat(), ...within.flatMap((it) => this.places.get(it.join()))];
  }
}

// Pieces, each with its place, by their ports on one side, in blocks 1, 2, 4 and so on long.
class Ranges {
  constructor(at, pieces) {
    this.places = new Map();
    for (const [place, { sides: { [at]: [low, high] } }] of pieces) {
      for (let start = low; start <= high;) {
        let free = 0;
        while (free < PORT_BITS && start % (2 << free) === 0 && start + (2 << free) - 1 <= high) free++;
        add(this.places, `${start}/${free}`, place);
        start += 1 << free;
      }
    }
    this.starts = pieces.map(([place, { sides }]) => [sides[at][0], place]).sort((one, other) => one[0] - other[0]);
  }

  // The blocks that hold a number, each with its places.
  around(number) {
    const blocks = Array.from({ length: PORT_BITS + 1 }, (_, free) => `${(number >> free) << free}/${free}`);
    return blocks.map((it) => this.places.get(it) ?? []);
  }

  count([low, high]) {
    const within = firstFrom(this.starts, high + 1) - firstFrom(this.starts, low + 1);
    return this.around(low).reduce((sum, it) => sum + it.length, within);
  }

  // The places of the ranges that hold an interval's least number, or begin within the interval.
  near([low, high]) {
    const within = this.starts.slice(firstFrom(this.starts, low + 1), firstFrom(this.starts, high + 1));
    return [...this.around(low).flat(), ...within.map(([, place]) => place)];
  }
}

// Pieces, each with its place, so that those near others are found.
class Near {
  constructor(pieces) {
    this.sides = [new Networks(0, pieces), new Networks(1, pieces), new Ranges(2, pieces), new Ranges(3, pieces)];
  }

  // The places of those that may have a key in common with some pieces, in order.
  of(pieces) {
    const found = new Set();
    for (const piece of pieces) {
      const counts = this.sides.map((side, at) => side.count(piece.sides[at]));
      const at = counts.indexOf(Math.min(...counts));
      this.sides[at].near(piece.sides[at]).forEach((it) => found.add(it));
    }
    return [...found].sort((one, other) => one - other);
  }
}

// One or two of the near rules that match all of the pieces, or nothing.
function few(pieces, near) {
  const one = near.find((it) => !leftBy(pieces, [it.piece]).length);
  if (one) return [one];
  for (let at = 0; near.length <= MOST_PAIRS && at < near.length; at++) {
    const left = leftBy(pieces, [near[at].piece]);
    const other = near.slice(at + 1).find((it) => !leftBy(left, [it.piece]).length);
    if (other) return [near[at], other];
  }
  return null;
}

// How many keys some pieces have that have none in common.
function sizeOf(pieces) {
  let size = 0n;
  for (const { protocols, sides } of pieces) {
    const count = BigInt(protocols.toString(2).replaceAll('0', '').length);
    size += sides.reduce((product, [low, high]) => product * (BigInt(high) - BigInt(low) + 1n), count);
  }
  return size;
}

// Rules with their shares: what those before them leave of some pieces, and they match. It is null where something of
// the pieces is left by all.
function shared(pieces, near) {
  const index = new Near(near.map(({ piece }, place) => [place, piece]));
  const needed = new Map();
  let left = sizeOf(pieces);
  for (const [place, it] of near.entries()) {
    const own = pieces.filter((piece) => meets(piece, it.piece)).map((piece) => both(piece, it.piece));
    const before = index.of(own).filter((other) => other < place && needed.has(other));
    const share = leftBy(own, before.map((other) => near[other].piece));
    if (share.length) needed.set(place, { ...it, share });
    left -= sizeOf(share);
    if (!left) return [...needed.values()];
  }
  return null;
}

// Those that can't be left out of some rules that match all together; the last ones are tried first. All before it are
// still there when one is tried.
function thinned(needed) {
  const index = new Near(needed.map(({ piece }, place) => [place, piece]));
  const kept = new Set();
  for (let place = needed.length - 1; place >= 0; place--) {
    const { share } = needed[place];
    const later = index.of(share).filter((it) => kept.has(it)).map((it) => needed[it].piece);
    if (leftBy(share, later).length) kept.add(place);
  }
  return needed.filter((_, place) => kept.has(place));
}

// The fewest near rules that are found to match all of some pieces together, or null where all of them don't.
function coverOf(pieces, near) {
  const some = few(pieces, near);
  if (some) return some;
  const needed = shared(pieces, near);
  return needed && thinned(needed);
}

// The covers of a list's rules.
export class Covers {
  constructor(entries) {
    this.entries = entries;
    this.ranked = entries.map((_, place) => place)
      .sort((one, other) => entries[other].match.priority - entries[one].match.priority || one - other);
    this.rank = new Map(this.ranked.map((place, rank) => [place, rank]));
    this.hasCategories = entries.some((it) => it.match.hasCategories);
    this.pieces = null;
  }

  // Of rules that match the same in the same categories the first one is told.
  begin() {
    this.pieces = this.entries.map((it) => pieceOf(it.match));
    const kept = new Map();
    this.ranked.forEach((place, rank) => {
      const { family, categories, protocol: [value, mask], sides } = this.entries[place].match;
      const name = [family, categories, value & mask, mask, sides].join();
      if (!kept.has(name)) kept.set(name, [rank, place]);
    });
    const ofFamily = (family) => [...kept.values()].filter(([, place]) => this.entries[place].match.family === family);
    this.near = Object.fromEntries([4, 6].map((family) => [family,
      new Near(ofFamily(family).map(([rank, place]) => [rank, this.pieces[place]]))]));
  }

  // The places of the rules that cover one, and a sentence where they can't be told.
  of(place) {
    if (!this.pieces) this.begin();
    const pieces = ofPackets(this.pieces[place]);
    if (!pieces.length) return { why: 'it matches no packet', by: [] };
    try {
      return { why: null, by: [...this.coversOf(place, pieces)].sort((one, other) => one - other) };
    } catch (fault) {
      if (!(fault instanceof TooMany)) throw fault;
      return { why: 'earlier lines cover it together, too many to tell which', by: [] };
    }
  }

  coversOf(place, pieces) {
    const { match } = this.entries[place];
    const own = this.rank.get(place);
    const before = this.near[match.family].of(pieces).filter((rank) => rank < own).map((rank) => this.ranked[rank])
      .map((it) => ({ place: it, piece: this.pieces[it], categories: this.entries[it].match.categories }))
      .filter((it) => pieces.some((piece) => meets(piece, it.piece)));
    const found = new Set();
    for (let category = 0; category < (this.hasCategories ? MOST_CATEGORIES : 1); category++) {
      if (!((match.categories >> category) & 1)) continue;
      const some = coverOf(pieces, before.filter((it) => (it.categories >> category) & 1));
      if (!some) throw new Error(`By the program ${this.entries[place].place} decides nothing, and the page finds a key`);
      some.forEach((it) => found.add(it.place));
    }
    return found;
  }
}
