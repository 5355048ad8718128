// SPDX-License-Identifier: BSD-3-Clause
// Which program answered, of which files, and what of this page is proved.
import { count, make, many, sizeText } from './text.js';

function fact(name, ...value) {
  return [make('dt', {}, name), make('dd', {}, value)];
}

function programOf({ made }) {
  const version = made.version ? `aclc ${made.version}` : 'aclc, of a version that isn’t told';
  return make('dl', { class: 'facts' }, fact('Program', version, make('br'), make('span', { class: 'code' }, made.program)),
    fact('Its SHA-256', make('span', { class: 'code' }, made.checksum ?? 'not known')),
    fact('What proved it', made.proof ? make('span', { class: 'code' }, made.proof) : make('strong', {}, `Not known: ${made.unproved}.`)),
    fact('Asked at', `${made.when} UTC`));
}

function filesOf(report) {
  const what = { list: 'list', 'old list': 'old list', capture: 'capture' };
  return make('div', { class: 'scroll' }, make('table', { class: 'plain' }, make('thead', {}, make('tr', {}, ['File', 'As', 'Size', 'Packets', 'SHA-256'].map((it) => make('th', { scope: 'col' }, it)))),
    make('tbody', {}, report.files.map((it) => make('tr', {}, make('td', { class: 'code' }, it.name), make('td', {}, what[it.role] ?? it.role),
      make('td', {}, it.bytes === null ? '' : sizeText(it.bytes)), make('td', {}, it.packets === undefined ? '' : count(it.packets)),
      make('td', { class: 'code' }, it.checksum ?? ''))))));
}

// Where the keys of packets come from.
function keysText({ made, packets }) {
  if (made.isModule) return 'Keys of packets come from the readers of the program.';
  return `Keys of packets: read by the tool that made this page. The program confirmed ${many(packets?.confirmed ?? 0, 'packet')}: it got a list of exact keys, and answered each packet by the rule of its own key.`;
}

const OF_MODULE = 'The module: proved is its code as the compiler was given it. Its change to WebAssembly, its heap, the engine of the browser and the script of this page aren’t. It was compared with the program by 1,000 commands.';

const OF_PAIRS = 'The pairs of lines that answer packets differently, and for which packets: the page’s own reading. '
  + 'It is compared with what the program says of each family, with its least keys, and with its answers to the packets.';

export function aboutView(page) {
  const { report } = page;
  return [make('h2', {}, 'What answered'), programOf(report), make('h2', {}, 'The files'), filesOf(report), make('h2', {}, 'What is whose'),
    make('ul', { class: 'prose' },
      make('li', {}, 'Which line decides a packet, which lines can never decide, the least keys, and whether two lists decide alike: the program’s answers. If the note above names a proof, they are proved.'),
      report.made.isModule ? make('li', {}, OF_MODULE) : '', make('li', {}, keysText(report)),
      make('li', {}, 'Times of packets, counts, and which earlier lines cover one: worked out by the tool or the page, and not proved.'),
      report.old ? make('li', {}, OF_PAIRS) : '',
      make('li', {}, 'The list of matching lines under “why”: the page’s own reading. Its first line is compared with the program’s answer, and a difference is shown as a fault of this page.')),
    report.list && report.list.notLooked.length ? make('p', { class: 'told' }, `Not looked at: ${report.list.notLooked.join('; ')}`) : null];
}
