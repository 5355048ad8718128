// SPDX-License-Identifier: BSD-3-Clause
// The rules: what each decides of these packets, and which can never decide.
import { count, isOfPacket, keyText, make, many, share, timeText } from './text.js';
import { answerOf } from './sentence.js';
import { Table, widthOf } from './table.js';
import { copyButtons } from './copy.js';

// Which rows are shown.
const CHOICES = { all: 'all', used: 'decide packets', idle: 'decide none of these', dead: 'can never decide' };
const OF_PACKETS = ['used', 'idle'];
const ORDERS = { line: 'their order', packets: 'packets' };
const COUNTED = [{ title: 'Packets', width: '5.5rem', end: true, kind: 'number' },
  { title: 'Share', width: '4.5rem', end: true, kind: 'number' }, { title: '', width: '5rem' }];
// On a phone the share of a rule is left to its details.
const isNarrow = () => globalThis.innerWidth < 640;
// Beside the text of a rule stands its verdict.
const VERDICT = 8;

function isShown(entry, hits, choice) {
  if (choice === 'dead') return !!entry.dead;
  if (choice === 'used') return !!hits;
  return choice === 'all' || (!hits && !entry.dead);
}

// The least key of a category at which an entry decides, or nothing.
export const leastOf = (entry, category) => entry.least.find(([, categories]) => (categories >> category) & 1)?.[0];

export function deadText(list, entry) {
  const places = entry.dead.by.map((it) => list.entries[it].place);
  if (entry.dead.why) return `can never decide: ${entry.dead.why}`;
  const all = places.length > 3 ? `${places.slice(0, 3).join(', ')} and ${many(places.length - 3, 'more line')}` : places.join(' and ');
  return `can never decide: ${all} ${places.length === 1 ? 'matches' : 'together match'} all that it matches`;
}

// The second line of a row: why the rule can't decide, or its least key.
export function belowText(list, entry, category) {
  if (entry.leftOut) return `left out, so that packets which come to it aren’t decided: ${entry.leftOut}`;
  if (entry.notHere) return `can’t decide under what is assumed (${list.assumed}): ${deadText(list, { dead: entry.notHere })}`;
  if (entry.dead) return deadText(list, entry);
  if (entry.unknown) return 'it isn’t known whether it can decide';
  const key = leastOf(entry, category);
  if (!key) return entry.end ? 'the end of the list' : 'decides nothing in this category';
  return `least key: ${keyText(key)}`;
}

function below(list, entry, category) {
  const text = belowText(list, entry, category);
  if (!text.startsWith('least key: ') || isOfPacket(leastOf(entry, category))) return make('span', { class: entry.leftOut ? 'mark' : 'note' }, text);
  return make('span', { class: 'note' }, text, make('span', { class: 'mark', title: 'Its protocol has no ports' }, 'no packet has this key'));
}

function bar(part, whole) {
  const fill = make('div', { class: 'fill' });
  fill.style.width = whole ? `${Math.max(part ? 1 : 0, (100 * part) / whole)}%` : '0';
  return make('div', { class: 'bar', 'aria-hidden': 'true' }, fill);
}

function whenOf(packets, hits) {
  if (!packets?.hasTimes) return [];
  if (!hits) return [''];
  const [first, last] = [hits.first, hits.last].map((it) => timeText(it, packets.timeDigits()));
  return [make('div', { class: 'two' }, make('span', {}, first), make('span', { class: 'note' }, first === last ? '' : last))];
}

export const numberText = (entry) => (entry.number === null ? 'end' : String(entry.number));

function cellsOf(page, row, total) {
  const { list, packets } = page.report;
  if (row.place < 0) {
    return ['–', count(row.hits.total), share(row.hits.total, total), bar(row.hits.total, total),
      make('span', { class: 'note' }, 'no rule matches'), ...whenOf(packets, row.hits)];
  }
  const entry = list.entries[row.place];
  const verdict = entry.verdict ? make('span', { class: `verdict ${entry.verdict}` }, entry.verdict) : null;
  const text = make('div', { class: 'two' }, make('span', { class: 'code', title: entry.text }, verdict, make('span', { class: 'words' }, entry.text)),
    below(list, entry, page.category));
  const hits = row.hits?.total ?? 0;
  const counted = packets ? [count(hits), share(hits, total), bar(hits, total)] : [];
  return [numberText(entry), ...counted, text, ...whenOf(packets, row.hits)];
}

function kindOf(page, row) {
  if (row.place < 0) return '';
  if (page.report.list.entries[row.place].dead) return 'dead';
  return page.report.packets && !row.hits ? 'idle' : '';
}

// The rows that are shown: of a choice, with a text in them, in an order.
function rowsOf(page, { choice, order, search }) {
  const { list, packets } = page.report;
  const hits = page.hits(packets ? packets.lists - 1 : 0);
  const text = search.trim().toLowerCase();
  let rows = list.entries.map((_, place) => ({ place, hits: hits.get(place) })).filter((it) => isShown(list.entries[it.place], it.hits, choice));
  if (hits.has(-1) && choice !== 'dead' && choice !== 'idle') rows.push({ place: -1, hits: hits.get(-1) });
  if (text) rows = rows.filter(({ place }) => wordsOf(list, place).toLowerCase().includes(text));
  return order === 'line' ? rows : rows.sort((one, other) => (other.hits?.total ?? 0) - (one.hits?.total ?? 0));
}

const wordsOf = (list, place) => (place < 0 ? 'no rule matches' : `${list.entries[place].place}: ${list.entries[place].verdict ?? ''} ${list.entries[place].text}`);

// How wide the text of the longest rule is.
function widthOfRules({ list, packets }, category) {
  const its = list.entries.map((it) => Math.max(it.text.length + (it.verdict ? VERDICT : 0), belowText(list, it, category).length));
  return `minmax(${widthOf(its.reduce((most, it) => Math.max(most, it), packets ? 20 : 30))}, 1fr)`;
}

// What is shown as rows of texts, the names of the columns first.
function textsOf(page, rows) {
  const { list, packets } = page.report;
  const rowOf = ({ place, hits }) => [place < 0 ? '' : numberText(list.entries[place]), ...(packets ? [String(hits?.total ?? 0)] : []),
    ...(place < 0 ? ['', 'no rule matches', ''] : [list.entries[place].verdict ?? '', list.entries[place].text, belowText(list, list.entries[place], page.category)])];
  return [[list.what, ...(packets ? ['packets'] : []), 'verdict', 'rule', 'remark'], ...rows.map(rowOf)];
}

function field(id, text, input) {
  return make('div', { class: 'field' }, make('label', { for: id }, text), input);
}

function select(id, choices, value, does) {
  const it = make('select', { id, onchange: (event) => does(event.target.value) }, choices.map(([name, text]) => make('option', { value: name }, text)));
  it.value = value;
  return it;
}

export function rulesView(page) {
  let rows = [];
  const total = page.keyed;
  const { list, list: { what }, packets } = page.report;
  const counted = isNarrow() ? COUNTED.slice(0, 1) : COUNTED;
  const table = new Table({
    label: 'Rules', height: 48,
    columns: [{ title: `${what[0].toUpperCase()}${what.slice(1)}`, width: '4.5rem', end: true, kind: 'number' }, ...(packets ? counted : []),
      { title: 'Rule', width: widthOfRules(page.report, page.category) },
      ...(packets?.hasTimes ? [{ title: 'First and last (UTC)', width: widthOf(20 + packets.timeDigits()), kind: 'number' }] : [])],
    cells: (at) => cellsOf(page, rows[at], total).filter((_, column) => !packets || column < 2 || column > 3 || counted === COUNTED),
    kind: (at) => kindOf(page, rows[at]),
    open: (at) => page.openRule(rows[at].place),
    chosen: (at) => page.follow(() => rows[at].place >= 0 && page.openRule(rows[at].place)),
  });
  const state = page.rules;
  const told = make('span', { class: 'note', role: 'status' });
  const again = (changed) => {
    Object.assign(state, changed);
    rows = rowsOf(page, state);
    told.textContent = `${count(rows.length)} shown`;
    table.show(rows.length);
    page.remember(false);
  };
  const choices = Object.entries(CHOICES).filter(([value]) => packets || !OF_PACKETS.includes(value));
  const search = make('input', { id: 'search', type: 'search', size: 20, spellcheck: 'false', autocomplete: 'off', oninput: (event) => again({ search: event.target.value }) });
  search.value = state.search;
  again({});
  return [make('p', { class: 'lead' }, answerOf(page).join(' ')),
    list.assumed ? make('p', { class: 'told' }, `Assumed of all packets: ${list.assumed}.`) : null,
    make('div', { class: 'tools' }, field('rows', 'Lines that', select('rows', choices, state.choice, (choice) => again({ choice }))),
      packets ? field('order', 'Sorted by', select('order', Object.entries(ORDERS), state.order, (order) => again({ order }))) : null,
      field('search', 'Search', search), copyButtons(() => textsOf(page, rows)), told), table.element];
}
