// SPDX-License-Identifier: BSD-3-Clause
// What is printed: all rules, a bounded number of packets, and what is told of lists and files. The tables of the page
// draw the rows that are seen alone, so that others are made for paper, each with a head line that every page repeats.
import { addressText, count, endText, fieldsOf, keyText, many, make, protocolName, share, timeText, WITH_PORTS } from './text.js';
import { KINDS } from './data.js';
import { pairsOf } from './counts.js';
import { shownBy } from './filters.js';
import { answerOf } from './sentence.js';
import { differencesOf, saidOf, textsOf } from './differences_view.js';
import { aboutView } from './about_view.js';
import { refusalsView, remarksOf } from './refusals_view.js';
import { belowText, numberText } from './rules_view.js';

const MOST_PACKETS = 500;
const MOST_PAIRS = 500;

// A table with a head line and names of columns on each page.
function tableOf(page, title, names, rows) {
  const head = make('tr', {}, make('th', { class: 'line', colspan: names.length }, `${page.title} · ${title}`));
  return make('table', { class: 'paper' }, make('thead', {}, head, make('tr', {}, names.map((it) => make('th', { scope: 'col' }, it)))),
    make('tbody', {}, rows.map((row) => make('tr', {}, row.map((it) => make('td', {}, it))))));
}

function rulesOf(page) {
  const { list, packets } = page.report;
  const hits = page.hits(packets ? packets.lists - 1 : 0);
  const counted = (its) => (packets ? [count(its?.total ?? 0), share(its?.total ?? 0, page.keyed)] : []);
  const rows = list.entries.map((entry, place) => [numberText(entry), ...counted(hits.get(place)),
    [entry.verdict ? make('strong', {}, `${entry.verdict} `) : null, make('span', { class: 'code' }, entry.text),
      make('div', {}, belowText(list, entry, page.category))]]);
  if (hits.has(-1)) rows.push(['–', ...counted(hits.get(-1)), 'no rule matches']);
  const names = [list.what, ...(packets ? ['packets', 'share'] : []), 'rule'];
  return [make('p', {}, answerOf(page).join(' ')), tableOf(page, 'rules', names, rows)];
}

function packetRow(page, at) {
  const { report } = page;
  const { packets } = report;
  const key = packets.keyOf(at);
  const { protocol, source, destination, ports } = key ? fieldsOf(key) : {};
  const ends = key ? [source, destination].map((it, end) => endText(addressText(it), protocol in WITH_PORTS ? ports[end] : null)) : ['', ''];
  const answers = report.lists.map((list, its) => (key ? report.answerText(list, packets.decider(packets.outcome[at], its, page.category)) : ''));
  const place = key ? packets.decider(packets.outcome[at], packets.lists - 1, page.category) : null;
  const by = place === null ? '' : place < 0 ? 'no rule' : report.list.entries[place].place;
  const number = page.captures.length > 1 ? `${packets.capture[at] + 1}#${packets.number[at]}` : String(packets.number[at]);
  return [number, ...(packets.hasTimes ? [timeText(packets.time[at], packets.timeDigits())] : []),
    `${KINDS[packets.kind[at]]}${key ? ` ${protocolName(protocol)}` : ''}`, ...ends, ...answers, by];
}

function packetsOf(page) {
  const { report } = page;
  const { packets } = report;
  if (!packets) return [];
  const places = shownBy(report, page.filter, page.category, page.isChanged).places ?? [];
  const rows = [...places.subarray(0, MOST_PACKETS)].map((at) => packetRow(page, at));
  const names = ['number', ...(packets.hasTimes ? ['time (UTC)'] : []), 'class', 'source', 'destination',
    ...(report.old ? ['old answer', 'new answer'] : ['answer']), 'decided by'];
  const which = `packets: the first ${count(rows.length)} of ${count(places.length)} that are shown, of ${many(packets.total, 'packet')}`;
  return rows.length ? [tableOf(page, which, names, rows)] : [];
}

// The pairs of lines that answer packets differently, and what is said of them.
function pairsTable(page) {
  const found = differencesOf(page);
  const { rows } = found;
  const names = ['old line', 'old answer', 'new line', 'new answer', 'for which packets',
    ...(page.report.packets ? ['packets', 'first'] : [])];
  const first = rows.slice(0, MOST_PAIRS);
  const title = `pairs of lines: ${first.length < rows.length ? `the first ${count(first.length)} of ` : ''}${count(rows.length)}`;
  return [make('p', {}, saidOf(page, found)), rows.length ? tableOf(page, title, names, first.map((it) => textsOf(page, it))) : null];
}

function listsOf(page) {
  const { old, list, compare } = page.report;
  if (!old) return [];
  const text = (its, place) => (place < 0 ? 'no rule' : `${its.entries[place].place}: ${its.entries[place].text}`);
  const said = (compare?.families ?? []).map((it) => {
    const what = it.same === null ? 'a part couldn’t be compared' : it.same ? 'every packet gets the same answer' : `another answer, first at ${keyText(it.key)}`;
    return make('p', {}, `IPv${it.family}: ${what}.`);
  });
  const pairs = pairsOf(page.report).map((it) => [count(it.total), text(old, it.old), text(list, it.now)]);
  const only = [[old, compare?.onlyOld ?? [], 'old'], [list, compare?.onlyNew ?? [], 'new']].flatMap(([its, places, which]) => (places.length
    ? [tableOf(page, `only in the ${which} list, ${its.name}`, [its.what, 'rule'], places.map((it) => [numberText(its.entries[it]), its.entries[it].text]))] : []));
  return [...said, ...pairsTable(page), pairs.length ? tableOf(page, 'packets that get another answer', ['packets', 'old line', 'new line'], pairs) : null, ...only];
}

// All that is printed of a report.
export function printed(page) {
  const { report } = page;
  const bad = report.refusals.length || remarksOf(report).length;
  return make('div', { id: 'print' }, make('h1', {}, page.title), make('p', {}, page.summary()),
    report.list ? [...rulesOf(page), ...packetsOf(page), ...listsOf(page)] : null, bad ? refusalsView(page) : null, aboutView(page));
}

// Has the page made for paper while it is printed.
export function startPrinting(page) {
  const end = () => document.getElementById('print')?.remove();
  addEventListener('beforeprint', () => {
    end();
    if (page.report) document.body.append(printed(page));
  });
  addEventListener('afterprint', end);
}
