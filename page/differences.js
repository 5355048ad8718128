// SPDX-License-Identifier: BSD-3-Clause
// All packets that two lists answer differently, by the pairs of lines that decide them. It is the page's own reading.
// All keys of packets are parted by the rules of both lists, until one rule of each decides a part.
import { both, holds, leftBy, meets, ofPackets, pieceOf, piecesOfBox, TooMany, wholeOf, without } from './pieces.js';

// How many looks at a rule the search takes, and how many parts of a pair it keeps.
export const MOST_LOOKS = 3_000_000;
const MOST_PARTS = 100;
// Above so many lines that one list alone has, or so many parts of their keys, all keys are looked at.
const MOST_ODD = 60;
const MOST_REGION = 1000;
// The label of lines that were left out: what they answer isn't known.
const OPEN = -1;

// The rules of a rule file in the order in which they decide.
function ofFile({ entries }, family, category) {
  const found = entries.map((entry, place) => ({ match: entry.match, place }))
    .filter(({ match }) => match.family === family && (match.categories >> category) & 1);
  return found.sort((one, other) => other.match.priority - one.match.priority || one.place - other.place)
    .map(({ match, place }) => ({ piece: pieceOf(match), place }));
}

// The rules of chains in the order in which they decide: what leads to a rule, and what it matches.
function ofChains({ chains, start }, family, look) {
  const found = [];
  const metOf = (it, others) => others.filter((other) => meets(it, other)).map((other) => both(it, other));
  const follow = (name, before) => {
    let pieces = before;
    for (const [verdict, target, place, boxes] of chains[name] ?? []) {
      const own = boxes.filter((it) => it[0] === family).flatMap(piecesOfBox);
      const met = pieces.flatMap((it) => metOf(it, own));
      look(1 + pieces.length * own.length);
      if (!met.length) continue;
      if (verdict === 'jump' || verdict === 'go') follow(target, met);
      else if (verdict !== 'return' && place >= 0) found.push(...met.map((piece) => ({ piece, place })));
      if (verdict === 'return' || verdict === 'go') pieces = leftBy(pieces, own);
    }
  };
  follow(start, [wholeOf(family)]);
  return found;
}

// The rules of a list, and the place of what decides where none of them matches.
function readOf(list, family, category, look) {
  if (!list.chains) return { rules: ofFile(list, family, category), last: -1 };
  if (!list.chains.families.includes(family)) return { rules: [], last: -1 };
  return { rules: ofChains(list.chains, family, look), last: list.entries.findIndex((it) => it.end) };
}

// The longest growing subsequence of some numbers: its places.
function growing(numbers) {
  const [ends, before] = [[], []];
  numbers.forEach((number, at) => {
    let [low, high] = [0, ends.length];
    while (low < high) {
      const middle = (low + high) >> 1;
      if (numbers[ends[middle]] < number) low = middle + 1;
      else high = middle;
    }
    before[at] = low ? ends[low - 1] : -1;
    ends[low] = at;
  });
  const found = [];
  for (let at = ends.at(-1) ?? -1; at >= 0; at = before[at]) found.push(at);
  return found.reverse();
}

// The rules of two lists that aren't the same in both, in the same order: lists decide alike what none of them matches.
function oddOf(one, other) {
  const nameOf = ({ piece, label }) => [piece.protocols, ...piece.sides, label].join();
  const places = new Map();
  other.forEach((it, place) => places.set(nameOf(it), [...(places.get(nameOf(it)) ?? []), place]));
  const met = one.map((it, place) => [place, it.label === OPEN ? undefined : places.get(nameOf(it))?.shift()]);
  const found = met.filter((it) => it[1] !== undefined);
  const kept = growing(found.map((it) => it[1])).map((it) => found[it]);
  const [own, its] = [0, 1].map((at) => new Set(kept.map((it) => it[at])));
  return [...one.filter((_, at) => !own.has(at)), ...other.filter((_, at) => !its.has(at))];
}

// The parts of all keys in which two lists may differ, without a key in common; all keys where these would be many.
function regionOf(one, other, family, look) {
  const whole = ofPackets(wholeOf(family));
  if (one.last.label !== other.last.label || one.last.label === OPEN) return whole;
  const odd = oddOf(one.rules, other.rules);
  if (odd.length > MOST_ODD) return whole;
  const found = [];
  for (const { piece } of odd) {
    let left = ofPackets(piece);
    for (const it of found) {
      look(left.length);
      left = left.flatMap((own) => without(own, it));
    }
    found.push(...left);
    if (found.length > MOST_REGION) return whole;
  }
  return found;
}

// The differences of a report's two lists, in the category at a place: `pairs` of lines, each with its first parts and
// how many it has; whether the search was cut, so that there may be more; how many parts a left-out line may decide.
export class Differences {
  constructor(report, place) {
    Object.assign(this, { report, category: report.categories[place], isCut: false, looks: 0, open: 0 });
    this.labels = new Map();
    this.pairs = new Map();
    try {
      for (const family of [4, 6]) this.search(family);
    } catch (fault) {
      if (!(fault instanceof TooMany)) throw fault;
      this.isCut = true;
    }
  }

  look(count) {
    this.looks += count;
    if (this.looks > MOST_LOOKS) throw new TooMany();
  }

  // An entry with a number for what its list answers by it, the same for equal answers.
  labelled(list, place) {
    if (list.entries[place]?.leftOut) return { place, label: OPEN };
    const answer = this.report.answer(list, place);
    if (!this.labels.has(answer)) this.labels.set(answer, this.labels.size);
    return { place, label: this.labels.get(answer) };
  }

  search(family) {
    const lists = [this.report.old, this.report.list].map((list) => {
      const { rules, last } = readOf(list, family, this.category, (count) => this.look(count));
      const labelled = rules.map(({ piece, place }) => ({ piece, ...this.labelled(list, place) }));
      return { rules: labelled, last: this.labelled(list, last) };
    });
    const waiting = regionOf(...lists, family, (count) => this.look(count)).map((piece) => [piece, lists]);
    while (waiting.length) waiting.push(...this.parted(family, ...waiting.pop()));
  }

  // Takes a part that one rule of each list decides, or none; another one is parted by a rule of either list.
  parted(family, piece, lists) {
    const near = lists.map(({ rules, last }) => ({ rules: this.nearOf(rules, piece), last }));
    const isWhole = (rules) => rules.length > 0 && holds(rules.at(-1).piece, piece);
    const may = near.flatMap(({ rules, last }) => (isWhole(rules) ? rules : [...rules, last]));
    if (may.every(({ label }) => label === may[0].label && label !== OPEN)) return [];
    const first = near.map(({ rules }) => rules[0]).find((it) => it && !holds(it.piece, piece));
    if (first) return [both(piece, first.piece), ...without(piece, first.piece)].map((it) => [it, near]);
    this.take(family, piece, near.map(({ rules, last }) => rules[0] ?? last));
    return [];
  }

  // The rules that meet a piece, up to the first one that has all of it.
  nearOf(rules, piece) {
    const found = [];
    let at = 0;
    while (at < rules.length) {
      const it = rules[at++];
      if (!meets(it.piece, piece)) continue;
      found.push(it);
      if (holds(it.piece, piece)) break;
    }
    this.look(at + 1);
    return found;
  }

  // Takes a part with the entries that decide it.
  take(family, piece, [old, now]) {
    if (old.label === OPEN || now.label === OPEN) this.open++;
    else if (old.label !== now.label) {
      const name = `${old.place}.${now.place}`;
      if (!this.pairs.has(name)) this.pairs.set(name, { name, old: old.place, now: now.place, parts: [], count: 0 });
      const pair = this.pairs.get(name);
      if (pair.count++ < MOST_PARTS) pair.parts.push({ family, ...piece });
    }
  }
}
