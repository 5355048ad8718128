// SPDX-License-Identifier: BSD-3-Clause
// Details of a rule, and why a packet has its answer.
import { count, isOfPacket, keyText, lengthText, make, many, share, timeText } from './text.js';
import { KINDS } from './data.js';
import { matching, reason } from './why.js';
import { deadText } from './rules_view.js';

const MOST_SHOWN = 200;

function fact(name, ...value) {
  return [make('dt', {}, name), make('dd', {}, value)];
}

function linkTo(page, list, place) {
  const entry = list.entries[place];
  return make('li', {}, make('button', { type: 'button', class: 'link', onclick: () => page.openRule(place) }, entry.place), ' ', make('span', { class: 'code' }, entry.text));
}

function leastFacts(page, entry) {
  return entry.least.map(([key, categories]) => {
    const which = page.report.list.hasCategories ? ` in ${categoriesText(categories)}` : '';
    return fact(`Least key${which}`, make('span', { class: 'code' }, keyText(key)),
      isOfPacket(key) ? null : make('span', { class: 'mark' }, 'no packet has this key: its protocol has no ports'));
  });
}

function categoriesText(bits) {
  const found = Array.from({ length: 16 }, (_, it) => it).filter((it) => (bits >> it) & 1);
  return found.length === 16 ? 'all categories' : `categor${found.length === 1 ? 'y' : 'ies'} ${found.join(', ')}`;
}

// What is known of a rule.
export function ruleDetails(page, place) {
  const { list, packets } = page.report;
  const entry = list.entries[place];
  const hits = packets && page.hits(packets.lists - 1).get(place);
  const facts = [entry.verdict ? fact('Verdict', entry.verdict) : fact('Userdata', String(entry.match?.userdata ?? entry.answer)),
    packets ? fact('Decides', `${many(hits?.total ?? 0, 'packet')} of ${count(page.keyed)} ${share(hits?.total ?? 0, page.keyed)}`.trim()) : []];
  if (hits && packets.hasTimes) {
    facts.push(...['first', 'last'].map((it) => fact(it === 'first' ? 'First' : 'Last', `${timeText(hits[it], packets.timeDigits())} UTC`)),
      fact('Over', lengthText(hits.last - hits.first)));
  }
  const covers = entry.dead?.by.length ? [make('h3', {}, 'What covers it'), make('ol', { class: 'plain' }, entry.dead.by.map((it) => linkTo(page, list, it)))] : [];
  return [make('h2', {}, entry.place), make('pre', {}, entry.text), entry.dead ? make('p', { class: 'told' }, `It ${deadText(list, entry)}.`) : null,
    make('dl', { class: 'facts' }, facts, leastFacts(page, entry)), covers,
    hits ? make('button', { type: 'button', onclick: () => page.showRule(place) }, 'Show its packets') : null];
}

// The lines that match, and what the program says of them.
function whyList(page, list, which, key, decider) {
  const found = matching(list, key, page.categories[page.category]);
  const title = make('h3', {}, `Lines${which ? ` of the ${which} list` : ''} that match, in their order`);
  const own = found[0] ?? -1;
  const text = (place) => (place < 0 ? 'no rule' : list.entries[place].place);
  if (own !== decider) {
    return [title, make('p', { class: 'wrong', role: 'alert' }, `A fault of this page: the program answers by ${text(decider)}, and the page finds ${text(own)}. The program’s answer counts.`)];
  }
  if (!found.length) return [title, make('p', {}, 'No line matches.')];
  const rows = found.slice(0, MOST_SHOWN).map((place, at) => {
    const entry = list.entries[place];
    const verdict = entry.verdict ? make('span', { class: `verdict ${entry.verdict}` }, entry.verdict) : null;
    return make('li', { class: at ? 'loses' : 'decides' }, make('div', {}, make('strong', {}, entry.place), at ? ' loses: ' : ' decides ', verdict,
      at ? make('span', { class: 'note' }, reason(list, place, own)) : null), make('div', { class: 'code' }, entry.text));
  });
  const more = found.length > MOST_SHOWN ? make('p', { class: 'note' }, `and ${count(found.length - MOST_SHOWN)} more`) : null;
  return [title, make('ol', { class: 'why' }, rows), more, make('p', { class: 'note' }, 'Which lines match is worked out by this page. Which one decides is the program’s answer, and both agree here.')];
}

// Why a packet has its answer.
export function packetDetails(page, at) {
  const { report } = page;
  const { packets } = report;
  const capture = page.captures[packets.capture[at]];
  const head = [make('h2', {}, `Packet ${packets.number[at]}`), make('p', { class: 'note' }, capture?.name ?? '')];
  const time = packets.hasTimes ? fact('Time', `${timeText(packets.time[at], packets.timeDigits())} UTC`) : [];
  if (!packets.isOfKey(at)) {
    return [...head, make('dl', { class: 'facts' }, fact('Class', KINDS[packets.kind[at]]), time),
      make('p', {}, packets.kind[at] === 1 ? 'The packet was cut before the end of its key, so no rule is asked.' : 'It is no packet of IPv4 or IPv6, so no rule is asked.')];
  }
  const key = packets.keyOf(at);
  const lists = report.old ? [[report.old, 'old', 0], [report.list, 'new', 1]] : [[report.list, '', 0]];
  const answers = lists.map(([list, which, place]) => fact(which ? `Answer of the ${which} list` : 'Answer',
    make('strong', {}, report.answerText(list, packets.decider(packets.outcome[at], place, page.category)))));
  return [...head, make('p', { class: 'key code' }, keyText(key)), make('dl', { class: 'facts' }, fact('Class', KINDS[packets.kind[at]]), time, answers, fact('Key', make('span', { class: 'code' }, key))),
    lists.reverse().map(([list, which, place]) => whyList(page, list, which, key, packets.decider(packets.outcome[at], place, page.category)))];
}
