// SPDX-License-Identifier: BSD-3-Clause
// Which entries of a list match a key, in the order in which they would decide. This reading is the page's own. It is
// compared with what the program answered.
import { addressText, fieldsOf, protocolName } from './text.js';

// Numbers are hexadecimal digits of one width, which sort as numbers.
const isBetween = (digits, [low, high]) => low <= digits && digits <= high;

function ruleMatches(match, key, category) {
  const [value, mask] = match.protocol;
  return match.family === key.family && ((match.categories >> category) & 1) === 1 && ((value ^ key.protocol) & mask) === 0
    && match.sides.every((side, at) => isBetween(key.numbers[at], side));
}

const boxMatches = ([family, ...sides], key) => family === key.family
  && sides.every((side, at) => side.some((interval) => isBetween(key.numbers[at], interval)));

// Follows a chain to its end, or to where the packet leaves it.
function follow(chains, name, key, found) {
  for (const [verdict, target, entry, boxes] of chains[name] ?? []) {
    if (!boxes.some((box) => boxMatches(box, key))) continue;
    if (verdict === 'return') return;
    if (verdict === 'jump' || verdict === 'go') {
      follow(chains, target, key, found);
      if (verdict === 'go') return;
    } else if (entry >= 0) found.add(entry);
  }
}

// The places of the entries that match a key in a category, the one that decides first.
export function matching(list, keyDigits, category) {
  const key = fieldsOf(keyDigits);
  if (list.chains) {
    const found = new Set();
    if (!list.chains.families.includes(key.family)) return [];
    follow(list.chains.chains, list.chains.start, key, found);
    list.entries.forEach((entry, place) => entry.end && found.add(place));
    return [...found];
  }
  const found = [];
  list.entries.forEach((entry, place) => ruleMatches(entry.match, key, category) && found.push(place));
  return found.sort((one, other) => list.entries[other].match.priority - list.entries[one].match.priority || one - other);
}

// The entries of a rule file that come before one in the order in which they decide, or all.
export function ahead(list, place) {
  const before = (one, other) => list.entries[other].match.priority - list.entries[one].match.priority || one - other;
  return list.entries.map((_, it) => it).sort(before).filter((it) => place < 0 || before(it, place) < 0);
}

const SIDES = ['its source doesn’t hold', 'its destination doesn’t hold', 'its source ports don’t hold', 'its destination ports don’t hold'];

// Which field of an entry of a rule file keeps it from matching a key.
export function missed({ match }, keyDigits, category) {
  const key = fieldsOf(keyDigits);
  const [value, mask] = match.protocol;
  const shown = [addressText(key.source), addressText(key.destination), ...key.ports];
  if (match.family !== key.family) return `it is of IPv${match.family}`;
  if (!((match.categories >> category) & 1)) return `it isn’t of category ${category}`;
  const at = match.sides.findIndex((side, place) => !isBetween(key.numbers[place], side));
  if (at >= 0) return `${SIDES[at]} ${shown[at]}`;
  return ((value ^ key.protocol) & mask) === 0 ? 'it matches' : `it isn’t of ${protocolName(key.protocol)}`;
}

// Why an entry that matches doesn't decide.
export function reason(list, loser, winner) {
  const [entry, first] = [list.entries[loser], list.entries[winner]];
  if (!entry.match) return `packets come to it after ${first.place}`;
  const byPriority = entry.match.byPriority || first.match.byPriority;
  if (byPriority && entry.match.priority !== first.match.priority) {
    return `its priority ${entry.match.priority} is less than ${first.match.priority}`;
  }
  return `it stands after ${first.place}${byPriority ? ' and has the same priority' : ''}`;
}
