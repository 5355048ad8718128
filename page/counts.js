// SPDX-License-Identifier: BSD-3-Clause
// Counts over the outcomes of all packets.
import { isKeyed } from './data.js';

// How many packets each entry of a list decides in a category, and when; under -1 those that no rule matches.
export function hitsOf(packets, list, category) {
  const found = new Map();
  packets?.outcomes.forEach((outcome, place) => {
    if (!isKeyed(outcome.kind)) return;
    const entry = packets.decider(place, list, category);
    const hits = found.get(entry);
    if (!hits) found.set(entry, { total: outcome.total, first: outcome.first, last: outcome.last });
    else {
      hits.total += outcome.total;
      if (outcome.first < hits.first) hits.first = outcome.first;
      if (outcome.last > hits.last) hits.last = outcome.last;
    }
  });
  return found;
}

// How many packets there are of each kind.
export function kindsOf(packets) {
  const found = { 4: 0, 6: 0, 0: 0, 1: 0 };
  for (const { kind, total } of packets.outcomes) found[kind] += total;
  return found;
}

// How many packets a line may decide that was left out of a list.
export function openOf(report) {
  const { packets } = report;
  const isOpen = (place, list) => report.categories.some((_, category) => report.lists[list].entries[packets.decider(place, list, category)]?.leftOut);
  return packets?.outcomes.reduce((sum, { kind, total }, place) => sum + (isKeyed(kind) && report.lists.some((_, list) => isOpen(place, list)) ? total : 0), 0) ?? 0;
}

// The first category in which two lists answer an outcome's packets differently, or -1. What a line may decide that was left out isn't known.
export function changedIn(report, outcome) {
  const { packets } = report;
  if (!report.old || !isKeyed(packets.outcomes[outcome].kind)) return -1;
  return report.categories.findIndex((_, category) => {
    const [one, other] = [packets.decider(outcome, 0, category), packets.decider(outcome, 1, category)];
    if (report.old.entries[one]?.leftOut || report.list.entries[other]?.leftOut) return false;
    return report.answer(report.old, one) !== report.answer(report.list, other);
  });
}

// The packets that get another answer, by the pair of entries that decide them in the first category that differs.
export function pairsOf(report) {
  const found = new Map();
  report.packets?.outcomes.forEach((outcome, place) => {
    const category = changedIn(report, place);
    if (category < 0) return;
    const [old, now] = [0, 1].map((list) => report.packets.decider(place, list, category));
    const name = `${category} ${old} ${now}`;
    const pair = found.get(name) ?? { category, old, now, total: 0, outcomes: new Set() };
    pair.total += outcome.total;
    pair.outcomes.add(place);
    found.set(name, pair);
  });
  return [...found.values()].sort((one, other) => other.total - one.total);
}
