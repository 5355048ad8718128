// SPDX-License-Identifier: BSD-3-Clause
// What is looked at stands in the address of the page: a link opens it, and the browser goes back to it.
import { everything } from './filters.js';
import { pairsOf } from './counts.js';

const TEXTS = ['entry', 'address', 'port', 'answer'];
const RULES = { choice: 'all', order: 'line', search: '' };
const ALLOWED = { choice: /^(all|used|idle|dead)$/, order: /^(line|packets)$/, search: /^/ };

// The part of the address behind `#`.
export function addressOf(page) {
  const words = new URLSearchParams({ view: page.view });
  const { filter, rules, opened } = page;
  if (page.category) words.set('category', page.category);
  for (const name of TEXTS) if (filter[name] !== '') words.set(name, filter[name]);
  if (filter.from !== null) words.set('time', `${filter.from}-${filter.to}`);
  if (filter.changed) words.set('changed', '1');
  if (filter.pair) words.set('pair', nameOf(filter.pair));
  for (const [name, usual] of Object.entries(RULES)) if (rules[name] !== usual) words.set(name, rules[name]);
  for (const [name, place] of Object.entries(opened ?? {})) words.set(name, place);
  return `#${words}`;
}

const nameOf = ({ category, old, now }) => `${category}.${old}.${now}`;

// A number of an address below a limit, or null.
function placeOf(words, name, limit) {
  const text = words.get(name) ?? '';
  return /^[0-9]{1,10}$/.test(text) && Number(text) < limit ? Number(text) : null;
}

// Shows what an address says, and leaves what it doesn't say as it is at first. Whether it names a view.
export function restore(page, address) {
  const words = new URLSearchParams(address.slice(1));
  const { report } = page;
  if (!words.has('view') || !report) return false;
  page.category = placeOf(words, 'category', page.categories.length) ?? 0;
  page.filter = everything();
  for (const name of TEXTS) page.filter[name] = words.get(name) ?? '';
  if (!/^(-1|[0-9]{1,7})?$/.test(page.filter.entry)) page.filter.entry = '';
  const time = words.get('time')?.match(/^(-?[0-9]{1,20})-(-?[0-9]{1,20})$/);
  if (time) Object.assign(page.filter, { from: BigInt(time[1]), to: BigInt(time[2]) });
  page.filter.changed = words.get('changed') === '1' && !!report.old;
  page.filter.pair = words.has('pair') ? pairsOf(report).find((it) => nameOf(it) === words.get('pair')) ?? null : null;
  for (const [name, usual] of Object.entries(RULES)) page.rules[name] = ALLOWED[name].test(words.get(name)) ? words.get(name) ?? usual : usual;
  page.head();
  page.go(words.get('view'));
  const rule = placeOf(words, 'rule', report.list?.entries.length ?? 0);
  const packet = placeOf(words, 'packet', report.packets?.held ?? 0);
  if (rule !== null) page.openRule(rule);
  else if (packet !== null) page.openPacket(packet);
  else if (words.has('lines') && report.old && report.list) page.openLines(words.get('lines'));
  return true;
}
