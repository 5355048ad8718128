// SPDX-License-Identifier: BSD-3-Clause
// What the page shows of files that were chosen, made of the module's answers: the same that aclc report puts into a page.
import { ROW } from './engine.js';
import { acceptedList, compareData, listData, Refused } from './asked.js';
import { passedOver, timesOf } from './times.js';
import { many, shown, sizeText } from './text.js';

const KINDS = { ip4: 4, ip6: 6, other: 0, short: 1 };
// The exit codes of a capture that is faulty, and of memory that is too small.
const FAULTY = 5;
const NO_MEMORY = 9;
const CATEGORIES = Array.from({ length: 16 }, (_, it) => it);

async function checksumOf(bytes) {
  if (!globalThis.crypto?.subtle) return null;
  const sum = new Uint8Array(await crypto.subtle.digest('SHA-256', bytes));
  return Array.from(sum, (it) => it.toString(16).padStart(2, '0')).join('');
}

// A file that was chosen, with its bytes.
async function read(file) {
  try {
    return { name: shown(file.name), bytes: new Uint8Array(await file.arrayBuffer()) };
  } catch (fault) {
    throw new Error(`${shown(file.name)} can’t be read: ${fault.message}`);
  }
}

async function fileData(role, { name, bytes }) {
  return { role, name, bytes: bytes.length, checksum: await checksumOf(bytes) };
}

// The texts of the lines of the records, without their numbers; the last line is left out.
function answersIn(out) {
  const lines = new TextDecoder().decode(out).split('\n');
  while (lines.length && !/^[0-9]/.test(lines[lines.length - 1])) lines.pop();
  return lines.map((it) => it.slice(it.indexOf(' ') + 1));
}

// Packets of captures as columns, with their outcomes.
class Columns {
  constructor(lists, categories) {
    Object.assign(this, { lists, categories, outcomes: [], places: new Map(), decides: [], parts: [], count: 0, start: null });
  }

  // The outcome of a packet: of the texts of the lines by each list.
  outcomeOf(texts) {
    const name = texts.join('|');
    if (this.places.has(name)) return this.places.get(name);
    const place = this.outcomes.length;
    const answers = texts.map((it) => it.split(' '));
    if (answers.some((it) => it[0] !== answers[0][0])) throw new Error('By two lists the program sees packets of other kinds.');
    const decides = answers.flatMap(([kind, ...its]) => CATEGORIES.slice(0, this.categories).map((at) => (kind in KINDS && KINDS[kind] >= 4 && its[at] !== '-' ? Number(its[at]) - 1 : -1)));
    this.outcomes.push([KINDS[answers[0][0]], 0, null, null]);
    this.decides.push(...decides);
    this.places.set(name, place);
    return place;
  }

  // Takes the packets of a capture, of which each list has answered; what the original list printed has to be the same.
  add(capture, texts, { count, rows }, times, originals) {
    if (texts.some((it) => it.length !== count)) throw new Error(`The program answers ${texts[0].length} packets, and its reader sees ${count}.`);
    const part = { capture, count, rows, times, outcome: new Uint32Array(count) };
    const known = new Map();
    for (let at = 0; at < count; at++) {
      const outcome = this.outcomeOf(texts.map((it) => it[at]));
      if (!known.has(outcome)) known.set(outcome, this.expected(outcome));
      known.get(outcome).forEach((text, list) => { if (text !== originals[list][at]) throw new Error(`Packet ${at + 1}: the page reads the list in another way than the program.`); });
      if (this.outcomes[outcome][0] !== rows[ROW * at]) throw new Error(`Packet ${at + 1}: the program prints another class than its reader gives.`);
      part.outcome[at] = outcome;
      this.outcomes[outcome][1]++;
    }
    this.count += count;
    this.parts.push(part);
  }

  // What the program has to print of an outcome by the lists as they are written.
  expected(outcome) {
    return this.lists.map((list, at) => {
      const [kind] = this.outcomes[outcome];
      const from = (outcome * this.lists.length + at) * this.categories;
      const name = Object.keys(KINDS).find((it) => KINDS[it] === kind);
      if (kind < 4) return `${name} -`;
      return [name, ...this.decides.slice(from, from + this.categories).map((it) => (it < 0 ? '-' : String(list.rules[it].match.userdata)))].join(' ');
    });
  }

  // The columns, and what is told of them.
  whole() {
    const columns = { number: new Uint32Array(this.count), capture: new Uint16Array(this.count), time: new BigInt64Array(this.count), kind: new Uint8Array(this.count),
      key: new Uint32Array(this.count), outcome: new Uint32Array(this.count), decides: Int32Array.from(this.decides), keys: new Uint8Array(ROW * this.count) };
    const all = this.parts.flatMap((it) => (it.times ? [it.times] : []));
    const start = all.reduce((least, times) => times.reduce((own, it) => (it < own ? it : own), least ?? times[0]), undefined) ?? 0n;
    let at = 0;
    for (const part of this.parts) {
      columns.keys.set(part.rows, ROW * at);
      for (let place = 0; place < part.count; place++, at++) this.fill(columns, part, place, at, start);
    }
    const told = { count: this.count, held: this.count, allHeld: true, most: this.count, first: 0, width: 1, buckets: [], outcomes: this.outcomes };
    return { columns, told };
  }

  fill(columns, part, place, at, start) {
    const time = part.times ? part.times[place] : start;
    const outcome = this.outcomes[part.outcome[place]];
    columns.number[at] = place + 1;
    columns.capture[at] = part.capture;
    columns.time[at] = time;
    columns.kind[at] = part.rows[ROW * place];
    columns.key[at] = ROW * at + 1;
    columns.outcome[at] = part.outcome[place];
    if (outcome[2] === null || time < outcome[2]) outcome[2] = time;
    if (outcome[3] === null || time > outcome[3]) outcome[3] = time;
  }
}

// Asks about one capture. One that is refused keeps the packets before its fault.
function addCapture(engine, columns, place, file, told, asked) {
  const { bytes, name } = file;
  const runs = columns.lists.map((list) => [engine.classify(list.copy, bytes, asked), engine.classify(list.bytes, bytes, asked)]);
  const [first] = runs[0];
  if (first.code === NO_MEMORY) throw new Error(`${name} is too large for the memory of this page, of which the module has ${sizeText(engine.memory())}: aclc report takes captures of any length.`);
  if (first.code && first.code !== FAULTY) throw new Refused('list', columns.lists[0].name, first);
  if (first.code) told.refusals.push(new Refused('capture', name, first).told);
  const texts = runs.map(([copy]) => answersIn(copy.out));
  const rows = engine.records(bytes, texts[0].length + 1);
  const passed = passedOver(bytes);
  if (passed) told.notes.push(`${name}: ${many(passed, 'packet')} passed over, in simple or obsolete packet blocks: no rule was asked`);
  const { times, why } = timesOf(bytes, rows.count);
  if (!times && rows.count) told.notes.push(`${name}: its times aren’t shown: ${why}`);
  columns.add(place, texts, rows, times, runs.map(([, original]) => answersIn(original.out)));
  return rows.count;
}

// What the page shows of the files: what is told, and the columns.
export async function assemble(engine, { list, old, captures, maxWords }, made, progress) {
  const told = { form: 1, made, files: [], refusals: [], notes: [], answers: 'data', categories: [0], lists: [], packets: null, compare: null };
  const roles = [...(old ? [['old list', old]] : []), ['list', list]];
  const asked = { ...(maxWords ? { maxWords } : {}), marks: 1 };
  const lists = [];
  try {
    for (const [role, chosen] of roles) {
      progress(`Reading ${shown(chosen.name)}`);
      const file = await read(chosen);
      told.files.push(await fileData(role, file));
      lists.push(acceptedList(engine, role, file, asked));
    }
    const count = lists.some((it) => it.hasCategories) ? 16 : 1;
    told.categories = CATEGORIES.slice(0, count);
    progress('Looking at each rule');
    told.lists = lists.map((it, at) => listData(engine, it, asked, told.files[at].checksum, progress));
    if (old) {
      progress('Comparing the lists');
      told.compare = compareData(engine, ...lists, asked);
    }
    const refused = captures.length ? lists.find((it) => it.refused) : null;
    if (refused) throw refused.refused;
    const columns = new Columns(lists, count);
    for (const [place, chosen] of captures.entries()) {
      const which = `${shown(chosen.name)}, capture ${place + 1} of ${captures.length}`;
      progress(`Reading ${which}`);
      const file = await read(chosen);
      progress(`Asking about ${which}`);
      const data = await fileData('capture', file);
      told.files.push({ ...data, packets: addCapture(engine, columns, place, file, told, { ...asked, categories: count }) });
    }
    const { columns: made_of, told: packets } = columns.whole();
    return { told: { ...told, packets }, columns: made_of };
  } catch (fault) {
    if (!(fault instanceof Refused)) throw fault;
    told.refusals.push(fault.told);
    return { told, columns: {} };
  }
}
