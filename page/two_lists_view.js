// SPDX-License-Identifier: BSD-3-Clause
// Two lists: whether they decide all packets alike, which pairs of lines don't, which packets of the captures get
// another answer, and which lines only one of them has.
import { count, isOfPacket, keyText, make, many } from './text.js';
import { pairsOf } from './counts.js';
import { Table, widthOf } from './table.js';
import { differencesOf, differencesSection } from './differences_view.js';

function sideOf(report, list, place, what) {
  const entry = place < 0 ? null : list.entries[place];
  return make('div', { class: 'decision' }, make('span', { class: 'what' }, what), make('span', { class: 'answer' }, report.answerText(list, place)),
    make('span', { class: 'code' }, entry ? `${entry.place}: ${entry.text}` : 'no rule matches'));
}

function familyOf(report, told) {
  const name = `IPv${told.family}`;
  if (told.same === null && told.open) {
    return make('section', { class: 'card differ' }, make('h3', {}, `${name}: couldn’t tell`), make('p', {}, 'Lines were left out that may decide otherwise in one list.'));
  }
  if (told.same === null) return make('section', { class: 'card' }, make('h3', {}, `${name}: a part couldn’t be compared`));
  if (told.same) {
    return make('section', { class: 'card same' }, make('h3', {}, `${name}: the same`),
      make('p', { class: 'note' }, told.odd ? 'Every packet gets the same answer. They differ at keys alone that no packet has.' : 'Every packet gets the same answer.'));
  }
  const category = report.categories.length > 1 ? `, category ${told.category}` : '';
  return make('section', { class: 'card differ' }, make('h3', {}, `${name}: some packets get another answer`),
    make('p', {}, 'The least one is ', make('span', { class: 'code' }, keyText(told.key)), category, '.',
      isOfPacket(told.key) ? null : make('span', { class: 'mark' }, 'no packet has this key')),
    sideOf(report, report.old, told.decides[0], 'old'), sideOf(report, report.list, told.decides[1], 'new'));
}

function pairsTable(page, pairs) {
  const { report } = page;
  const text = (list, place) => (place < 0 ? 'no rule matches' : `${list.entries[place].place}: ${list.entries[place].text}`);
  const widest = (list, side) => `minmax(${widthOf(pairs.reduce((most, it) => Math.max(most, text(list, it[side]).length), 20))}, 1fr)`;
  const code = (title, width, kind = 'code') => ({ title, width, kind, wide: true });
  const table = new Table({
    label: 'Packets that get another answer, by the lines that decide', fit: 10,
    columns: [{ title: 'Packets', width: '6rem', end: true, kind: 'number' }, ...(report.categories.length > 1 ? [code('Category', '5rem', 'number')] : []),
      code('Old answer', '6.5rem', 'number'), code('Old line', widest(report.old, 'old')), code('New answer', '6.5rem', 'number'), code('New line', widest(report.list, 'now'))],
    cells: (at) => {
      const { total, category, old, now } = pairs[at];
      return [count(total), ...(report.categories.length > 1 ? [String(report.categories[category])] : []), report.answerText(report.old, old),
        text(report.old, old), report.answerText(report.list, now), text(report.list, now)];
    },
    open: (at) => page.showPair(pairs[at]),
  });
  table.show(pairs.length);
  table.element.classList.add('short');
  return table.element;
}

function changes(page) {
  const { packets } = page.report;
  if (!packets?.total) return [];
  const pairs = pairsOf(page.report);
  const total = pairs.reduce((sum, it) => sum + it.total, 0);
  return [make('h2', {}, `${count(total)} of ${many(packets.total, 'packet')} get${total === 1 ? 's' : ''} another answer`),
    pairs.length ? make('p', { class: 'note' }, 'A row shows its packets.') : null, pairs.length ? pairsTable(page, pairs) : null];
}

function onlyIn(list, places, which) {
  if (!places.length) return [make('p', { class: 'note' }, `Each line of the ${which} list is in the other one too.`)];
  const table = new Table({
    label: `Lines of the ${which} list alone`, fit: 10,
    columns: [{ title: list.what, width: '5rem', end: true, kind: 'number' }, { title: `Only in the ${which} list, ${list.name}`,
      width: `minmax(${widthOf(places.reduce((most, it) => Math.max(most, list.entries[it].text.length), 30))}, 1fr)`, kind: 'code', wide: true }],
    cells: (at) => [list.entries[places[at]].number === null ? 'end' : String(list.entries[places[at]].number), list.entries[places[at]].text],
  });
  table.show(places.length);
  table.element.classList.add('short');
  return [table.element];
}

// Why the comparison isn't complete, as the first sentence of the view; nothing where it is.
function incompleteText({ compare }, found) {
  if (!compare) return 'The program couldn’t compare the two lists over all packets: nothing here is confirmed by it.';
  if (compare.notCompared.length) return 'The comparison isn’t complete: a part of all packets couldn’t be compared.';
  const isOpen = found.open || compare.families.some((it) => it.open);
  if (isOpen) return 'The comparison isn’t complete: lines were left out that may decide packets.';
  return found.isCut ? 'The pairs of lines below may not be all: the search for them ended at its limit.' : '';
}

// What is known of two lists in a sentence.
function answerText({ compare, list, old }) {
  const families = compare?.families ?? [];
  const [name, other] = [list.name, `the old list ${old.name}`];
  if (families.some((it) => it.same === false)) return `${name} answers some packets otherwise than ${other}.`;
  if (families.length && families.every((it) => it.same)) return `${name} answers every packet that there is as ${other} does.`;
  return `Whether ${name} answers each packet as ${other} does isn’t known.`;
}

export function twoListsView(page) {
  const { report } = page;
  const { compare } = report;
  const lead = `${incompleteText(report, differencesOf(page))} ${answerText(report)}`.trim();
  const said = [make('p', { class: 'lead' }, lead)];
  if (!compare) return [...said, ...differencesSection(page), ...changes(page)];
  const { remark } = compare;
  return [...said, make('div', { class: 'cards' }, compare.families.map((it) => familyOf(report, it))),
    remark ? make('p', { class: 'told' }, `${remark[0].toUpperCase()}${remark.slice(1)}.`) : null,
    compare.notCompared.map((it) => make('p', { class: 'told' }, `Not compared: ${it}`)),
    ...differencesSection(page), ...changes(page), make('h2', {}, 'Lines that only one list has'),
    ...onlyIn(report.old, compare.onlyOld, 'old'), ...onlyIn(report.list, compare.onlyNew, 'new')];
}
