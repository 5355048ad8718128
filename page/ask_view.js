// SPDX-License-Identifier: BSD-3-Clause
// A packet that is thought of: which line decides it, and why each earlier one doesn't. It is the page's own reading.
import { count, keyText, make, protocolName, WITH_PORTS } from './text.js';
import { networkOf } from './filters.js';
import { ahead, matching, missed } from './why.js';

const MOST_SHOWN = 500;
const MOST_PORT = 65535;
const PROTOCOLS = [6, 17, 1, 58, 132, 47, 50];
const EXAMPLES = { source: '10.0.0.5 or 2001:db8::1', destination: '192.0.2.1', from: '0', to: '443', protocol: '6' };

const hex = (bytes) => Array.from(bytes, (it) => it.toString(16).padStart(2, '0')).join('');

function numberOf(text, most) {
  const value = text.trim() === '' ? 0 : Number(text);
  return /^[0-9]*$/.test(text.trim()) && value <= most ? value : null;
}

// The key that was typed in hexadecimal digits, or what can't be read.
function keyOf({ protocol, source, destination, from, to }) {
  const ends = [source, destination].map((it) => (it.includes('/') ? null : networkOf(it)));
  const number = numberOf(protocol, 255);
  const ports = [from, to].map((it) => numberOf(it, MOST_PORT));
  if (protocol.trim() === '' || number === null) return { fault: 'Write the protocol as a number of at most 255, as 6 for TCP.' };
  if (ends.includes(null)) return { fault: 'Write both addresses, as 10.0.0.5 or 2001:db8::1.' };
  if (ends[0].length !== ends[1].length) return { fault: 'Both addresses have to be of IPv4, or both of IPv6.' };
  if (ports.includes(null)) return { fault: 'Write a port as a number of at most 65535.' };
  const told = number in WITH_PORTS ? ports : [0, 0];
  return { key: hex([number, ...ends.flatMap((it) => it.bytes), ...told.flatMap((it) => [it >> 8, it & 255])]) };
}

function lineOf(list, place, said, kind) {
  const entry = list.entries[place];
  const verdict = entry.verdict ? make('span', { class: `verdict ${entry.verdict}` }, entry.verdict) : null;
  return make('li', { class: kind }, make('div', {}, make('strong', {}, entry.place), said, verdict), make('div', { class: 'code' }, entry.text));
}

// What decides a key, and what stands before it.
function answerOf(page, key) {
  const { list } = page.report;
  const category = page.categories[page.category];
  const [winner = -1] = matching(list, key, category);
  const text = winner < 0 ? 'No line matches' : `${list.entries[winner].place} decides`;
  const before = list.chains ? [] : ahead(list, winner);
  const lines = before.slice(0, MOST_SHOWN).map((place) => lineOf(list, place, ` doesn’t match: ${missed(list.entries[place], key, category)}`, 'loses'));
  const more = before.length > MOST_SHOWN ? `and ${count(before.length - MOST_SHOWN)} more earlier lines that don’t match` : '';
  const isOpen = winner >= 0 && list.entries[winner].leftOut;
  return [make('p', { class: 'told' }, 'The program wasn’t asked: this is the page’s own reading of the list.'),
    make('h2', {}, `${text}${isOpen ? ', but it was left out, so that this isn’t known' : ''}`), make('p', { class: 'code' }, keyText(key)),
    make('ol', { class: 'why' }, winner < 0 ? null : lineOf(list, winner, ' decides ', 'decides')),
    list.chains ? make('p', { class: 'note' }, 'Which earlier lines don’t match isn’t told of lists with chains.') : null,
    before.length ? make('h3', {}, 'Earlier lines') : null, make('ol', { class: 'why' }, lines), make('p', { class: 'note' }, more)];
}

export function askView(page) {
  const { asked } = page;
  const place = make('div', { id: 'asked', 'aria-live': 'polite' });
  const tell = (event) => {
    event?.preventDefault();
    const { key, fault } = keyOf(asked);
    place.replaceChildren(...(fault ? [make('p', { class: 'wrong' }, fault)] : answerOf(page, key)).filter(Boolean));
  };
  const typed = (name, text, size) => {
    const input = make('input', { id: `ask-${name}`, size, placeholder: EXAMPLES[name], list: name === 'protocol' ? 'protocols' : null,
      spellcheck: 'false', autocomplete: 'off', oninput: (event) => { asked[name] = event.target.value; } });
    input.value = asked[name];
    return make('div', { class: 'field' }, make('label', { for: `ask-${name}` }, text), input);
  };
  const names = make('datalist', { id: 'protocols' }, PROTOCOLS.map((it) => make('option', { value: it }, protocolName(it))));
  if (asked.source) tell();
  return [make('p', { class: 'lead' }, 'Which line decides a packet of these fields, and why each earlier one doesn’t.'),
    make('form', { class: 'tools', onsubmit: tell }, typed('protocol', 'Protocol', 4), names, typed('source', 'Source', 24), typed('from', 'Port', 6),
      typed('destination', 'Destination', 24), typed('to', 'Port', 6), make('button', { id: 'ask' }, 'Tell')), place];
}
