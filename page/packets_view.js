// SPDX-License-Identifier: BSD-3-Clause
// The packets, filtered, each with what decides it.
import { addressText, count, endText, fieldsOf, make, many, protocolName, rangeText, timeText, WITH_PORTS } from './text.js';
import { everything, isEverything, shownBy, totalBy } from './filters.js';
import { KINDS } from './data.js';
import { Table, widthOf } from './table.js';

const MOST_CHOICES = 2000;
// The characters of an address of IPv4 with a port, and what brackets and a port add to one of IPv6.
const IP4_END = 21;
const PORT_END = 8;

// The categories that have columns: the one that is chosen, and those that are asked for.
const shownCategories = (page) => page.categories.map((_, place) => place).filter((it) => it === page.category || page.columns.has(it));

// The answer of a list in a category.
function answerText(report, at, list, category) {
  const { packets } = report;
  return packets.isOfKey(at) ? report.answerText(report.lists[list], packets.decider(packets.outcome[at], list, category)) : '';
}

// What a packet is, and its two ends.
function fields(packets, at) {
  const kind = KINDS[packets.kind[at]];
  const key = packets.keyOf(at);
  if (!key) return [kind, '', ''];
  const { protocol, source, destination, ports } = fieldsOf(key);
  const has = protocol in WITH_PORTS;
  return [`${kind} ${protocolName(protocol)}`, ...[source, destination].map((it, end) => endText(addressText(it), has ? ports[end] : null))];
}

function rowOf(page, at) {
  const { report } = page;
  const { packets } = report;
  const list = packets.lists - 1;
  const entry = packets.isOfKey(at) ? packets.decider(packets.outcome[at], list, page.category) : null;
  let by = 'no rule is asked: the packet has no key';
  if (entry !== null) by = entry < 0 ? 'no rule matches' : `${report.list.entries[entry].place}: ${report.list.entries[entry].text}`;
  const number = page.captures.length > 1 ? `${packets.capture[at] + 1}#${packets.number[at]}` : String(packets.number[at]);
  const time = packets.hasTimes ? [timeText(packets.time[at], packets.timeDigits())] : [];
  const cells = [number, ...(report.old ? [page.isChanged[packets.outcome[at]] ? '≠' : ''] : []), ...time, ...fields(packets, at)];
  for (const category of shownCategories(page)) {
    for (let its = 0; its <= list; its++) cells.push(answerText(report, at, its, category));
  }
  return [...cells, by];
}

// How many characters the longest address of IPv6 has that is held, with brackets and a port, or one more.
function longestEnd({ kind, key, keys, held }) {
  let longest = IP4_END;
  for (let at = 0; at < held; at++) {
    if (kind[at] !== 6) continue;
    for (const from of [key[at] + 1, key[at] + 17]) longest = Math.max(longest, addressLength(keys, from) + PORT_END);
  }
  return longest;
}

// How many characters an address of IPv6 has, or one more: a run of zeros is written as `::`.
function addressLength(keys, from) {
  let [length, run, best] = [7, 0, 1];
  for (let at = from; at < from + 16; at += 2) {
    const group = (keys[at] << 8) | keys[at + 1];
    length += group > 0xfff ? 4 : group > 0xff ? 3 : group > 0xf ? 2 : 1;
    run = group ? 0 : run + 1;
    best = Math.max(best, run);
  }
  return best > 1 ? length - 2 * best + 2 : length;
}

const longest = (texts) => texts.reduce((most, it) => Math.max(most, it.length), 0);

function columnsOf(page) {
  const { report } = page;
  const { packets, old, lists, list } = report;
  const code = (title, width, isEnd) => ({ title, width, end: isEnd, kind: 'number', wide: true });
  page.longestEnd ??= longestEnd(packets);
  const end = widthOf(page.longestEnd);
  const places = (its, category) => [...new Set(packets.outcomes.map((_, outcome) => packets.decider(outcome, its, category)))];
  const answers = shownCategories(page).flatMap((category) => lists.map((listed, its) => {
    const name = old ? `${its ? 'New' : 'Old'} answer` : 'Answer';
    const title = page.categories.length > 1 ? `${name}, category ${page.categories[category]}` : name;
    return code(title, widthOf(Math.max(title.length, longest(places(its, category).map((it) => report.answerText(listed, it))))));
  }));
  const by = longest(places(packets.lists - 1, page.category).map((it) => (it < 0 ? '' : `${list.entries[it].place}: ${list.entries[it].text}`)));
  const isOne = page.categories.length < 2;
  return [code('Number', '5.6rem', true), ...(old ? [code('Changed', widthOf(8))] : []), ...(packets.hasTimes ? [code('Time (UTC)', widthOf(20 + packets.timeDigits()))] : []),
    code('Class', widthOf(17)), code('Source', end), code('Destination', end), ...answers,
    { ...code(isOne ? 'Decided by' : `Decided by in category ${page.categories[page.category]}`, `minmax(${widthOf(Math.max(25, by))}, 1fr)`), kind: 'code' }];
}

// The entries that decide packets, the most first.
function entryChoices(page) {
  const { list, packets } = page.report;
  const all = [...page.hits(packets.lists - 1)].sort((one, other) => other[1].total - one[1].total);
  const chosen = all.filter(([place], at) => at < MOST_CHOICES || String(place) === page.filter.entry);
  return chosen.map(([place, { total }]) => {
    const text = place < 0 ? 'no rule matches' : `${list.entries[place].place}: ${list.entries[place].text}`;
    return make('option', { value: place }, `${text.slice(0, 80)} (${count(total)})`);
  });
}

function answerChoices(page) {
  const { list, packets } = page.report;
  const found = new Set([...page.hits(packets.lists - 1).keys()].map((place) => page.report.answerText(list, place)));
  const chosen = [...found].sort().filter((it, at) => at < MOST_CHOICES || it === page.filter.answer);
  return chosen.map((it) => make('option', { value: it }, it));
}

function labelled(text, id, input) {
  return make('div', { class: 'field' }, make('label', { for: id }, text), input);
}

function inputs(page, again) {
  const { filter } = page;
  const set = (name) => (event) => {
    page.filter = { ...page.filter, [name]: event.target.value };
    again();
  };
  const choice = (name, text, options) => {
    const select = make('select', { id: `by-${name}`, onchange: set(name) }, make('option', { value: '' }, 'any'), options);
    select.value = filter[name];
    return labelled(text, `by-${name}`, select);
  };
  const typed = (name, text, hint, size) => {
    const input = make('input', { id: `by-${name}`, type: 'search', size, placeholder: hint, spellcheck: 'false', autocomplete: 'off', oninput: set(name) });
    input.value = filter[name];
    return labelled(text, `by-${name}`, input);
  };
  return [choice('entry', 'Rule', entryChoices(page)), typed('address', 'Address', '10.0.0.5 or 10.0.0.0/8', 22),
    typed('port', 'Port', '443', 7), choice('answer', 'Answer', answerChoices(page))];
}

function changedBox(page, again) {
  const box = make('input', { type: 'checkbox', id: 'by-changed', onchange: (event) => {
    page.filter = { ...page.filter, changed: event.target.checked };
    again();
  } });
  box.checked = page.filter.changed;
  return make('div', { class: 'field' }, make('label', { for: 'by-changed' }, 'Another answer'), box);
}

// Which categories have columns, if there are several.
function columnBoxes(page) {
  if (page.categories.length < 2) return null;
  const boxes = page.categories.map((name, place) => {
    const box = make('input', { type: 'checkbox', id: `column-${place}`, disabled: place === page.category, onchange: (event) => {
      if (event.target.checked) page.columns.add(place);
      else page.columns.delete(place);
      page.go('packets');
      document.getElementById('columns').open = true;
      document.getElementById(`column-${place}`).focus();
    } });
    box.checked = place === page.category || page.columns.has(place);
    return make('span', { class: 'field' }, box, make('label', { for: `column-${place}` }, String(name)));
  });
  return make('details', { id: 'columns' }, make('summary', {}, 'Columns of categories'), make('div', { class: 'tools' }, boxes));
}

// What is filtered by that has no input of its own, each with a button that ends it.
function chips(page, again) {
  const { filter, report } = page;
  const chip = (text, without) => make('button', { type: 'button', class: 'chip', title: 'Take this filter away', onclick: () => {
    page.filter = { ...page.filter, ...without };
    again(true);
  } }, text, make('span', { 'aria-hidden': 'true' }, ' ×'));
  const found = [];
  if (filter.from !== null) found.push(chip(`from ${rangeText(filter.from, filter.to)}`, { from: null, to: null }));
  if (filter.pair) found.push(chip(`old ${placeText(report.old, filter.pair.old)}, new ${placeText(report.list, filter.pair.now)}`, { pair: null }));
  return found;
}

const placeText = (list, place) => (place < 0 ? 'no rule' : list.entries[place].place);

function lead(page) {
  const { packets } = page.report;
  if (packets.allHeld) return null;
  return make('p', { class: 'told' }, `There are ${many(packets.total, 'packet')}, and all are counted. ${count(packets.held)} are in this file: `
    + `the first ${count(packets.most)}, and after them up to ${packets.firstOfEach} of each outcome that has fewer.`);
}

// How many packets are shown, and where not all are held, of how many.
function shownText(page, shown) {
  const { held, allHeld } = page.report.packets;
  if (allHeld) return `${count(shown)} of ${many(held, 'packet')}`;
  const total = totalBy(page.report, page.filter, page.category, page.isChanged);
  const all = total === null ? '' : `; in the captures there are ${count(total)}`;
  return `${count(shown)} of the ${many(held, 'packet')} that are in this file${all}`;
}

export function packetsView(page) {
  let places = [];
  const table = new Table({
    label: 'Packets', columns: columnsOf(page), cells: (at) => rowOf(page, places[at]),
    kind: (at) => (page.isChanged[page.report.packets.outcome[places[at]]] ? 'changed' : ''),
    open: (at) => page.openPacket(places[at]),
    chosen: (at) => page.follow(() => page.openPacket(places[at])),
  });
  const told = make('span', { class: 'note', role: 'status' });
  const tools = make('form', { class: 'tools', onsubmit: (event) => event.preventDefault() });
  const again = (anew) => {
    if (anew) fill();
    all.disabled = isEverything(page.filter);
    const { places: found, fault } = shownBy(page.report, page.filter, page.category, page.isChanged);
    if (fault) {
      told.textContent = fault;
      return;
    }
    places = found;
    page.remember(false);
    told.textContent = shownText(page, places.length);
    table.show(places.length);
  };
  const all = make('button', { type: 'button', onclick: () => {
    page.filter = everything();
    again(true);
  } }, 'Show all');
  const fill = () => tools.replaceChildren(...inputs(page, again), ...(page.report.old ? [changedBox(page, again)] : []), ...chips(page, again),
    all, told);
  fill();
  again();
  return [lead(page), tools, columnBoxes(page), table.element];
}
