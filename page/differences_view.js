// SPDX-License-Identifier: BSD-3-Clause
// The packets that two lists answer differently, as a table of pairs of lines: for which packets it is so, both
// answers, and a packet of the captures if there is one.
import { count, fieldsOf, make, many } from './text.js';
import { isKeyed } from './data.js';
import { pairsOf } from './counts.js';
import { Differences, MOST_LOOKS } from './differences.js';
import { hasKey } from './pieces.js';
import { fewer, pieceText } from './piece_text.js';
import { Table, widthOf } from './table.js';
import { copyButtons } from './copy.js';

const MOST_NAMED = 2;

// The packets of the captures by the entries that decide them in the chosen category: how many, and the first one.
function packetsBy(page) {
  const { report, category } = page;
  const [found, names] = [new Map(), new Map()];
  report.packets?.outcomes.forEach(({ kind, total }, outcome) => {
    if (!isKeyed(kind)) return;
    const [old, now] = [0, 1].map((list) => report.packets.decider(outcome, list, category));
    const name = `${old}.${now}`;
    if (!found.has(name)) found.set(name, { name, old, now, total: 0, first: -1 });
    found.get(name).total += total;
    names.set(outcome, name);
  });
  for (let at = (report.packets?.held ?? 0) - 1; at >= 0; at--) {
    const its = found.get(names.get(report.packets.outcome[at]));
    if (its) its.first = at;
  }
  return found;
}

// Whether both lists are known to answer differently by two entries.
function isChange(report, old, now) {
  if (report.old.entries[old]?.leftOut || report.list.entries[now]?.leftOut) return false;
  return report.answer(report.old, old) !== report.answer(report.list, now);
}

// The pairs that the program knows of by its own answers: at a least key, or of a packet.
function knownPairs(page, packets) {
  const { report } = page;
  const own = page.categories[page.category];
  const least = (report.compare?.families ?? []).filter((it) => it.same === false && it.category === own);
  return [...least.map(({ key, decides: [old, now] }) => ({ name: `${old}.${now}`, old, now, key })),
    ...[...packets.values()].filter((it) => isChange(report, it.old, it.now))];
}

// What the page finds otherwise than the program, as sentences.
function faultsOf(page, found, known) {
  const families = page.report.compare?.families ?? [];
  const same = families.filter((it) => it.same).map((it) => it.family);
  const pairs = [...found.pairs.values()];
  const lost = known.filter((it) => !found.pairs.has(it.name));
  const odd = pairs.filter(({ parts }) => parts.some((it) => same.includes(it.family)));
  const elsewhere = known.filter(({ name, key }) => {
    const pair = key && found.pairs.get(name);
    const isWhole = pair && pair.count === pair.parts.length && !found.isCut;
    return isWhole && !pair.parts.some((it) => it.family === fieldsOf(key).family && hasKey(it, fieldsOf(key)));
  });
  return [...(found.isCut || !lost.length ? [] : ['it misses a pair of lines that the program’s answers show']),
    ...(odd.length ? ['it finds a difference where the program says that every packet gets the same answer'] : []),
    ...(elsewhere.length ? ['it finds other packets for a pair than the program’s least one'] : [])];
}

const counted = (its) => (its ? { total: its.total, first: its.first } : {});

// The differences in the category that is chosen: the page's own search, and what the program's answers say of it.
export function differencesOf(page) {
  const name = `differences ${page.category}`;
  if (page.known.has(name)) return page.known.get(name);
  const [found, packets] = [new Differences(page.report, page.category), packetsBy(page)];
  const known = knownPairs(page, packets);
  const faults = faultsOf(page, found, known);
  const pairs = new Map(known.map(({ name: its, old, now }) => [its, { name: its, old, now, parts: [], count: 0 }]));
  for (const it of found.pairs.values()) pairs.set(it.name, it);
  const seen = { isCut: found.isCut, total: 0, first: -1 };
  const rows = [...pairs.values()].map((it) => ({ ...it, ...seen, ...counted(packets.get(it.name)) }));
  rows.sort((one, other) => other.total - one.total || one.old - other.old || one.now - other.now);
  page.known.set(name, { rows, faults, isCut: found.isCut, open: found.open });
  return page.known.get(name);
}

// For which packets two lines decide so: the first few parts in words, and whether there are more.
function partsOf({ parts, count: all, isCut }, most) {
  if (!all) return ['not known: the search ended before'];
  const its = fewer(parts);
  const shown = its.slice(0, most).map(pieceText);
  if (all > parts.length) return [...shown, 'and more'];
  if (its.length > most) shown.push(`and ${many(its.length - most, 'more part')}`);
  return isCut ? [...shown, 'maybe more: the search ended before'] : shown;
}

// A packet by its number, and its capture where there are several.
function numberOf(page, at) {
  const { capture, number } = page.report.packets;
  return page.captures.length > 1 ? `${capture[at] + 1}#${number[at]}` : String(number[at]);
}

function lineText(list, place) {
  return place < 0 ? 'no rule matches' : `${list.entries[place].place}: ${list.entries[place].text}`;
}

// The texts of a row, in the order of the columns.
export function textsOf(page, row) {
  const { report } = page;
  const sides = [[report.old, row.old], [report.list, row.now]];
  const counted = report.packets ? [count(row.total), row.first < 0 ? '' : numberOf(page, row.first)] : [];
  return [...sides.flatMap(([list, place]) => [lineText(list, place), report.answerText(list, place)]),
    partsOf(row, MOST_NAMED).join('; '), ...counted];
}

function columnsOf(page, texts) {
  const width = (at) => widthOf(texts.reduce((most, it) => Math.max(most, it[at].length), 16));
  const code = (title, at) => ({ title, width: `minmax(${width(at)}, 1fr)`, kind: 'code', wide: true });
  const answer = (title) => ({ title, width: '6.5rem', kind: 'number', wide: true });
  const number = (title) => ({ title, width: '6rem', end: true, kind: 'number' });
  return [code('Old line', 0), answer('Old answer'), code('New line', 2), answer('New answer'),
    code('For which packets', 4), ...(page.report.packets ? [number('Packets'), number('First')] : [])];
}

// What is said of the pairs before the table of them.
export function saidOf(page, { rows, isCut, open }) {
  const which = page.categories.length > 1 ? ` in category ${page.categories[page.category]}` : '';
  const told = [];
  const limit = `its limit of ${count(MOST_LOOKS)} looks at a rule`;
  if (isCut) told.push(`These may not be all pairs: the search ended at ${limit}.`);
  if (open) told.push('Packets that a left-out line may decide aren’t told: what they get isn’t known.');
  const verb = rows.length === 1 ? 'answers' : 'answer';
  const isKnown = !isCut && !open;
  const pairs = `${isKnown ? '' : 'At least '}${many(rows.length, 'pair')} of lines`;
  if (rows.length) told.push(`${pairs} ${verb} some packets differently${which}.`);
  else told.push(`No pair of lines ${isKnown ? 'answers' : 'was found that answers'} packets differently${which}.`);
  return told.join(' ');
}

const OWN = 'The packets of a pair are the page’s own reading of both lists, compared with the program’s answers. '
  + 'A row shows what is known of them.';

// The table of pairs, with what is said of it.
export function differencesSection(page) {
  const found = differencesOf(page);
  const { rows, faults, isCut, open } = found;
  const wrong = faults.map((it) => `A fault of this page: ${it}. The program’s answers count.`);
  const said = [make('h2', {}, 'Which lines answer differently'),
    make('p', { class: isCut || open ? 'told' : null }, saidOf(page, found)),
    ...wrong.map((it) => make('p', { class: 'wrong', role: 'alert' }, it))];
  if (!rows.length) return said;
  const texts = rows.map((it) => textsOf(page, it));
  const columns = columnsOf(page, texts);
  const show = (at) => page.openLines(rows[at].name);
  const table = new Table({ label: 'Pairs of lines that answer packets differently', fit: 12, columns,
    cells: (at) => texts[at], open: show, chosen: (at) => page.follow(() => show(at)) });
  table.show(rows.length);
  table.element.classList.add('short');
  const copied = copyButtons(() => [columns.map((it) => it.title.toLowerCase()), ...texts]);
  return [...said, make('p', { class: 'note' }, OWN), make('div', { class: 'tools' }, copied), table.element];
}

function sideOf(report, list, place, which) {
  const entry = place < 0 ? null : list.entries[place];
  const verdict = entry?.verdict ? make('span', { class: `verdict ${entry.verdict}` }, entry.verdict) : null;
  const name = make('strong', {}, `${which}: ${entry ? entry.place : 'no rule matches'}`);
  if (!entry) return make('li', {}, name);
  const answer = ` answers ${report.answerText(list, place)} `;
  return make('li', {}, make('div', {}, name, answer, verdict), make('div', { class: 'code' }, entry.text));
}

// What the captures have of a pair's packets.
function packetsOf(page, { old, now, first, total }) {
  const { packets } = page.report;
  if (!packets) return [];
  if (!total) return [make('p', { class: 'note' }, 'No packet of the captures is one of these.')];
  const name = `Packet ${packets.number[first]} of ${page.captures[packets.capture[first]]?.name}`;
  const open = () => page.openPacket(first);
  const link = first < 0 ? null : make('button', { type: 'button', class: 'link', onclick: open }, name);
  const own = pairsOf(page.report).find((it) => it.category === page.category && it.old === old && it.now === now);
  return [make('p', {}, `${many(total, 'packet')} of the captures. `, link),
    own ? make('button', { type: 'button', onclick: () => page.showPair(own) }, 'Show its packets') : null];
}

// A pair of lines by its name: both lines, for which packets they decide, and a packet of the captures; or nothing.
export function pairDetails(page, name) {
  const { old: one, list } = page.report;
  const row = differencesOf(page).rows.find((it) => it.name === name);
  if (!row) return null;
  const named = (its, place) => (place < 0 ? 'no rule' : its.entries[place].place);
  const parts = partsOf(row, Infinity).map((it) => make('li', { class: 'code' }, it));
  return [make('h2', {}, `Before ${named(one, row.old)}, now ${named(list, row.now)}`),
    make('ol', { class: 'why' }, sideOf(page.report, one, row.old, 'old'), sideOf(page.report, list, row.now, 'new')),
    make('h3', {}, 'For which packets'), make('ul', { class: 'prose' }, parts), packetsOf(page, row)];
}
