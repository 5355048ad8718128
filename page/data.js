// SPDX-License-Identifier: BSD-3-Clause
// What the page shows, whichever way it came: inside a report, or from the module.
//
//   made        which program answered: version, checksum, what proved it, and when
//   files       each file's role, name, checksum and length; of a capture how many packets
//   refusals    what was refused: role, file, message, kind, faulty lines, a sentence
//   answers     what counts as an answer: verdict, data, line or text
//   categories  the categories that are looked at
//   lists       the list, after the old one where there are two; each with its entries
//   compare     of two lists: each family, and the entries that only one of them has
//   packets     the columns of the packets, and their outcomes: what decides them in each list and category
//
// An entry is a line of a list. Where a place is -1, no rule decides.

import { shown } from './text.js';

const ARRAYS = { B: Uint8Array, H: Uint16Array, I: Uint32Array, i: Int32Array, q: BigInt64Array };

const bytesOf = (base64) => Uint8Array.from(atob(base64), (it) => it.charCodeAt(0));

// The bytes that an element holds, unpacked.
export async function contentOf(element) {
  const stream = new Blob([bytesOf(element.textContent)]).stream().pipeThrough(new DecompressionStream('deflate'));
  return new Uint8Array(await new Response(stream).arrayBuffer());
}

// A report of its bytes: a length, a text of JSON, and the columns that it names.
export function unpacked(content) {
  const length = Number(new DataView(content.buffer).getBigUint64(0, true));
  const told = JSON.parse(new TextDecoder().decode(content.subarray(8, 8 + length)));
  const columns = {};
  for (const [name, code, at, size] of told.columns) {
    columns[name] = new ARRAYS[code](content.buffer, 8 + length + at, size / ARRAYS[code].BYTES_PER_ELEMENT);
  }
  return reportOf(told, columns);
}

// The same value with each text in it as it can be shown.
function allShown(value) {
  if (typeof value === 'string') return shown(value);
  if (Array.isArray(value)) return value.map(allShown);
  if (!value || typeof value !== 'object') return value;
  return Object.fromEntries(Object.entries(value).map(([name, it]) => [name, allShown(it)]));
}

// A report of what is told and the columns. Names and texts of files are as they can be shown. It has packets if a capture has one that is told.
export function reportOf(told, columns) {
  const hasPackets = told.packets?.count && told.files.some((it) => it.role === 'capture');
  return new Report(told, hasPackets ? new Packets(told.packets, columns, told) : null);
}

export class Report {
  constructor(told, packets) {
    const { files, refusals, notes, lists, compare } = told;
    Object.assign(this, told, { files: allShown(files), refusals: allShown(refusals), notes: allShown(notes), packets });
    this.compare = allShown(compare);
    this.lists = lists.map((it) => ({ ...it, name: shown(it.name), notLooked: allShown(it.notLooked),
      entries: it.entries.map((entry) => ({ ...entry, place: shown(entry.place), text: shown(entry.text) })) }));
    this.list = this.lists[this.lists.length - 1] ?? null;
    this.old = this.lists.length > 1 ? this.lists[0] : null;
  }

  // What a list answers by an entry, or where no rule matches.
  answer(list, place) {
    return place < 0 ? list.none : list.entries[place].answer;
  }

  // The same as it is shown.
  answerText(list, place) {
    if (place < 0) return 'no rule';
    const answer = this.answer(list, place);
    return this.answers === 'text' ? list.entries[place].place : String(answer ?? 'no answer');
  }
}

export class Packets {
  // `told` is {count, held, allHeld, most, first, outcomes, buckets, width}; a column has a number for each packet held.
  // Times are nanoseconds since 1970, as BigInts.
  constructor(told, columns, { lists, categories }) {
    Object.assign(this, columns);
    this.total = told.count;
    this.held = told.held;
    this.allHeld = told.allHeld;
    this.confirmed = told.confirmed;
    this.most = told.most;
    this.firstOfEach = told.first;
    this.width = BigInt(told.width);
    this.buckets = told.buckets.map(([time, outcome, total]) => [BigInt(time), outcome, total]);
    this.outcomes = told.outcomes.map(([kind, total, first, last]) => ({ kind, total, first: BigInt(first), last: BigInt(last) }));
    this.lists = lists.length;
    this.categories = categories.length;
    this.start = this.outcomes.reduce((least, it) => (it.first < least ? it.first : least), this.outcomes[0].first);
    this.end = this.outcomes.reduce((most, it) => (it.last > most ? it.last : most), this.start);
    this.hasTimes = this.start !== 0n || this.end !== 0n;
    this.digits = null;
  }

  // The entry that decides the packets of an outcome.
  decider(outcome, list, category) {
    return this.decides[(outcome * this.lists + list) * this.categories + category];
  }

  isOfKey(at) {
    return this.kind[at] >= 4;
  }

  // A packet's key in hexadecimal digits, or nothing.
  keyOf(at) {
    if (!this.isOfKey(at)) return '';
    const from = this.key[at];
    let text = '';
    for (const byte of this.keys.subarray(from, from + (this.kind[at] === 4 ? 13 : 37))) text += HEX[byte];
    return text;
  }

  // How many digits of a second tell all times exactly: 3, 6 or 9.
  timeDigits() {
    if (this.digits) return this.digits;
    this.digits = 3;
    const its = this.outcomes.flatMap(({ first, last }) => [first, last]);
    for (const times of [its, this.time]) {
      for (const it of times) {
        while (this.digits < 9 && it % (this.digits === 3 ? 1000000n : 1000n)) this.digits += 3;
        if (this.digits === 9) return 9;
      }
    }
    return this.digits;
  }
}

const HEX = Array.from({ length: 256 }, (_, it) => it.toString(16).padStart(2, '0'));
export const KINDS = { 4: 'IPv4', 6: 'IPv6', 0: 'other', 1: 'short' };
export const isKeyed = (kind) => kind >= 4;
