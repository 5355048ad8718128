// SPDX-License-Identifier: BSD-3-Clause
// Files that are chosen in the page: nothing of them leaves it. A worker asks the module, and can be stopped.
import { make, shown, sizeText } from './text.js';
import { contentOf, reportOf } from './data.js';

// What the module can hold beside its tables.
const MOST_BYTES = 1_300_000_000;
const MOST_WORDS = 67108864;
// The first bytes of captures.
const CAPTURES = ['a1b2c3d4', 'd4c3b2a1', 'a1b23c4d', '4d3cb2a1', '0a0d0d0a'];
const $ = (id) => document.getElementById(id);

// The module's bytes, the text of the worker where it stands in the page, and the note of what was proved.
async function parts() {
  const note = (text) => {
    const [version, proof, sum] = text.split('\n');
    return { version: version.replace(/^aclc /, '') || null, proof: proof || null, sum: sum || null };
  };
  if ($('module')) {
    const [module, worker, told] = await Promise.all(['module', 'worker', 'note'].map((name) => contentOf($(name))));
    return { module, worker: new Blob([worker], { type: 'text/javascript' }), note: note(new TextDecoder().decode(told)) };
  }
  const [module, told] = await Promise.all(['aclc_page.wasm', 'aclc_page.note'].map((name) => fetch(name)));
  if (!module.ok || !told.ok) throw new Error('The module of the program isn’t beside this page: packaging/page makes it');
  return { module: new Uint8Array(await module.arrayBuffer()), worker: null, note: note(await told.text()) };
}

async function checksum(bytes) {
  if (!globalThis.crypto?.subtle) return null;
  return Array.from(new Uint8Array(await crypto.subtle.digest('SHA-256', bytes)), (it) => it.toString(16).padStart(2, '0')).join('');
}

// Which program answers: what its note says, if that is of this module.
async function madeBy(module, note) {
  const sum = await checksum(module);
  const isOwn = note.sum !== null && (sum === null || sum === note.sum);
  const unproved = isOwn ? 'its note names no proof' : 'the note beside the module is of another one';
  return { when: new Date().toISOString().slice(0, 19).replace('T', ' '), program: 'the module in this page', isModule: true, checksum: sum,
    version: note.version, proof: isOwn ? note.proof : null, unproved };
}

class Live {
  constructor(page) {
    this.page = page;
    this.chosen = { list: null, old: null, captures: [] };
    this.worker = null;
    this.told = this.words = '';
  }

  tell(text) {
    this.told = shown(text);
    if ($('told')) $('told').textContent = this.told;
    this.showWork();
    if ($('stop')) $('stop').disabled = !this.worker;
    if ($('go')) $('go').disabled = !!this.worker;
  }

  // Work is shown in each view, and its end is said.
  showWork() {
    const isHidden = !this.worker || this.page.view === 'files';
    const stop = make('button', { type: 'button', onclick: () => this.stop('Stopped') }, 'Stop');
    $('work').hidden = isHidden;
    if (isHidden) $('work').replaceChildren();
    else if ($('work').firstChild) $('work').firstChild.textContent = this.told;
    else $('work').replaceChildren(make('span', {}, this.told), stop);
    if (!this.worker) $('said').textContent = this.told;
  }

  // How many words a table may have, or 0 if that isn't said.
  maxWords() {
    if ($('words')?.validity.badInput) this.words = 'no number';
    if (this.words === '') return 0;
    if (/^[0-9]+$/.test(this.words) && Number(this.words) >= 1 && Number(this.words) <= MOST_WORDS) return Number(this.words);
    throw new Error(`max-words is a whole number from 1 to ${MOST_WORDS}`);
  }

  // Takes files that were dropped: on a card under its name, and elsewhere captures as such and others as lists.
  async drop(files, role) {
    for (const file of files) {
      const to = role ?? await roleOf(file, this.chosen);
      if (to === 'captures') this.chosen.captures = role && file === files[0] ? [file] : [...this.chosen.captures, file];
      else this.chosen[to] = file;
    }
    this.page.go('files');
  }

  // The files that are chosen, which the worker reads one after the other.
  files() {
    const { list, old, captures } = this.chosen;
    if (!list) throw new Error('Choose a list of rules first');
    const large = [list, old, ...captures].find((it) => it?.size > MOST_BYTES);
    if (large) throw new Error(`${shown(large.name)} has ${sizeText(large.size)}, and a page has room for some ${sizeText(MOST_BYTES)}: aclc report takes captures of any length`);
    return { list, old, captures, maxWords: this.maxWords() };
  }

  // Begins the work; what was begun before is stopped.
  async begin() {
    this.stop('');
    try {
      const files = this.files();
      const { module, worker, note } = await parts();
      const made = await madeBy(module, note);
      this.worker = worker ? new Worker(URL.createObjectURL(worker)) : new Worker('worker.js', { type: 'module' });
      this.worker.addEventListener('message', ({ data }) => this.take(data));
      this.worker.addEventListener('error', (event) => this.stop(`The worker ended: ${event.message ?? 'its script can’t be read'}`));
      this.tell('Starting');
      this.worker.postMessage({ module, files, made });
    } catch (fault) {
      this.stop(`${fault.message}.`);
    }
  }

  take({ progress, memory, fault, told, columns }) {
    if (progress) this.tell(`${progress} (the module has ${sizeText(memory)})`);
    else if (fault) this.stop(fault);
    else {
      this.stop(`Done; the module had ${sizeText(memory)}`);
      this.page.take(reportOf(told, columns));
    }
  }

  stop(text) {
    this.worker?.terminate();
    this.worker = null;
    this.tell(text);
  }
}

// What a file that is dropped beside the cards is: a capture by its first bytes, or a list.
async function roleOf(file, chosen) {
  const first = new Uint8Array(await file.slice(0, 4).arrayBuffer().catch(() => new ArrayBuffer(0)));
  if (CAPTURES.includes(Array.from(first, (it) => it.toString(16).padStart(2, '0')).join(''))) return 'captures';
  return chosen.list ? 'old' : 'list';
}

// A card for files of a role: an input, what is chosen, and a button that takes it back.
function picker(live, name, text, note, isMany) {
  const again = (files) => {
    live.chosen[name] = isMany ? files : files[0] ?? null;
    card.replaceWith(picker(live, name, text, note, isMany));
    $(`file-${name}`).focus();
  };
  const chosen = [live.chosen[name]].flat().filter(Boolean);
  const input = make('input', { type: 'file', id: `file-${name}`, multiple: isMany, onchange: (event) => {
    if (event.target.files.length) again([...event.target.files]);
  } });
  const back = make('button', { type: 'button', id: `back-${name}`, onclick: () => again([]) }, 'Take back');
  const card = make('div', { class: 'card', 'data-role': name }, make('label', { for: `file-${name}` }, make('strong', {}, text)),
    make('p', { class: 'note' }, note), input,
    chosen.length ? make('p', { class: 'chosen' }, `Chosen: ${chosen.map((it) => shown(it.name)).join(', ')} `, back) : null);
  return card;
}

export function filesView(page) {
  const { live } = page;
  const words = make('input', { id: 'words', type: 'number', min: 1, max: MOST_WORDS, step: 1, placeholder: '2097152', size: 10,
    oninput: (event) => { live.words = event.target.value; } });
  words.value = live.words;
  const pickers = [['list', 'List of rules', 'A rule file. aclc convert makes one of lists of other programs.', false],
    ['captures', 'Captures', 'pcap or pcapng; several may be chosen.', true],
    ['old', 'Old list', 'To see what the list does otherwise.', false]];
  return [make('p', { class: 'lead' }, 'Choose files of this machine, or drop them here. Nothing of them leaves this page: it asks for its own files alone.'),
    make('div', { class: 'cards' }, pickers.map((it) => picker(live, ...it))),
    make('div', { class: 'tools' },
      make('button', { type: 'button', id: 'go', disabled: !!live.worker, onclick: () => live.begin() }, 'Show what it does'),
      make('button', { type: 'button', id: 'stop', disabled: !live.worker, onclick: () => live.stop('Stopped') }, 'Stop'),
      make('div', { class: 'field' }, make('label', { for: 'words' }, 'max-words'), words),
      make('span', { id: 'told', class: 'note', role: 'status' }, live.told))];
}

// Files that are dropped anywhere are taken: the browser would leave the page for them.
function catchDrops(live) {
  document.addEventListener('dragover', (event) => event.preventDefault());
  document.addEventListener('drop', (event) => {
    event.preventDefault();
    const files = [...event.dataTransfer.files];
    if (files.length) live.drop(files, event.target.closest?.('[data-role]')?.dataset.role ?? null);
  });
}

export function startLive(page) {
  page.live = new Live(page);
  catchDrops(page.live);
  page.go('files');
}
