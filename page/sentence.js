// SPDX-License-Identifier: BSD-3-Clause
// The answer in sentences: what the list decides of the packets, and whether each of its lines can decide some packet.
import { count, many } from './text.js';

const MOST_NAMED = 3;
const verb = (number, one, more) => (number === 1 ? one : more);

// How the packets were decided, in the category that is chosen.
function ofPackets(page, lines) {
  const { list, packets } = page.report;
  let [used, decided, byEnd, open] = [0, 0, 0, 0];
  for (const [place, { total }] of page.hits(packets.lists - 1)) {
    if (place < 0) continue;
    if (list.entries[place].leftOut) open += total;
    else if (list.entries[place].end) byEnd += total;
    else [used, decided] = [used + 1, decided + total];
  }
  const parts = [`${count(decided)} decided by ${count(used)} of ${many(lines, list.what)}`];
  if (byEnd) parts.push(`${count(byEnd)} by the end of the list`);
  parts.push(`${count(page.keyed - decided - byEnd - open)} by none`);
  if (open) parts.push(`${count(open)} not decided, since lines were left out`);
  const keyless = packets.total - page.keyed;
  if (keyless) parts.push(`${count(keyless)} not asked about: no IP packet, or cut`);
  return `${many(packets.total, 'packet')}: ${parts.join(', ')}.`;
}

// Why no packet was looked at, if captures were named.
function ofNoPackets(page) {
  if (!page.captures.length) return [];
  const { refusals } = page.report;
  const refused = refusals.filter((it) => it.role === 'capture');
  if (!refused.length) return [refusals.length ? 'No packet was looked at: the list is refused.' : 'The capture has no packets that are read.'];
  const names = refused.slice(0, MOST_NAMED).map((it) => it.file).join(', ');
  const more = refused.length > MOST_NAMED ? ` and ${count(refused.length - MOST_NAMED)} more` : '';
  return [`No packet was looked at: ${names}${more} ${verb(refused.length, 'is', 'are')} refused at the first record.`];
}

// Whether each line can decide: each can, some never can, or it isn't known of some, and why.
function ofLines(list, lines) {
  const dead = list.entries.filter((it) => it.dead).length;
  const unknown = list.entries.filter((it) => it.unknown).length;
  if (!lines) return ['The list has no rules, so it decides no packet.'];
  const notHere = list.entries.filter((it) => it.notHere).length;
  const leftOut = list.entries.filter((it) => it.leftOut).length;
  if (!dead && !unknown && !notHere && !leftOut) return [`${verb(lines, 'The line', `Each ${list.what}`)} can decide some packet.`];
  const parts = dead ? [`${many(dead, list.what)} can never decide a packet.`] : [];
  if (notHere) parts.push(`${many(notHere, list.what)} can’t decide a packet under what is assumed.`);
  if (leftOut) parts.push(`${many(leftOut, list.what)} ${verb(leftOut, 'is', 'are')} left out, so packets that come to ${verb(leftOut, 'it', 'them')} aren’t decided.`);
  if (unknown) {
    const why = list.notLooked[0] ?? 'the list couldn’t be looked at';
    const more = list.notLooked.length > 1 ? `, and ${many(list.notLooked.length - 1, 'more part')}` : '';
    const lead = `Of ${many(unknown, list.what)} it isn’t known whether ${verb(unknown, 'it', 'they')} can`;
    parts.push(`${lead}. Not looked at: ${why}${more}.`);
  }
  return parts;
}

// The sentences that begin the view of rules.
export function answerOf(page) {
  const { list, packets } = page.report;
  const lines = list.entries.filter((it) => !it.end).length;
  const first = packets ? [ofPackets(page, lines)] : ofNoPackets(page);
  return [...first, ...ofLines(list, lines)];
}
