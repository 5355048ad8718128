// SPDX-License-Identifier: BSD-3-Clause
// What was refused, as the program says it, with the line of the file, and what to do about it.
import { count, make, many } from './text.js';
import { MISTAKES } from './mistakes.js';

const ROLES = { list: 'the list', 'old list': 'the old list', capture: 'the capture' };

function faultOf(fault) {
  const [before, part, after] = fault.parts;
  return make('div', { class: 'fault' }, make('p', {}, fault.line ? `Line ${fault.line}: ` : '', make('strong', {}, fault.kind)),
    fault.line ? make('pre', {}, before, part ? make('mark', {}, part) : null, after) : null, fault.sentence ? make('p', { class: 'advice' }, fault.sentence) : null);
}

// The rows of docs/MISTAKES.md that stand under a kind.
export function adviceOf(kind) {
  const rows = MISTAKES[kind];
  if (!rows) return null;
  return make('details', { open: true }, make('summary', {}, `What “${kind}” usually is`),
    make('dl', {}, rows.map(([what, to]) => [make('dt', {}, what), make('dd', {}, to)])));
}

function refusalOf(refusal) {
  return make('section', { class: 'card differ' }, make('h3', {}, `${refusal.file} is refused`),
    make('p', { class: 'note' }, `It was named as ${ROLES[refusal.role] ?? refusal.role}; exit code ${refusal.code}.`),
    make('pre', {}, refusal.message), refusal.sentence ? make('p', { class: 'advice' }, refusal.sentence) : null, refusal.faults.map(faultOf),
    refusal.more ? make('p', {}, `${many(refusal.more, 'more line')} ${refusal.more === 1 ? 'is' : 'are'} faulty.`) : null, adviceOf(refusal.kind));
}

// What was told beside the answers, such as lines that were left out.
export const remarksOf = (report) => report.notes.filter((it) => it.trim());

export function refusalsView(page) {
  const { report } = page;
  const remarks = remarksOf(report);
  return [make('p', { class: 'lead' }, report.refusals.length ? `${many(report.refusals.length, 'file')} ${report.refusals.length === 1 ? 'is' : 'are'} refused. What stands before a fault of a capture is shown in the other views.`
    : 'Nothing was refused.'), report.refusals.map(refusalOf),
  remarks.length ? make('section', { class: 'card' }, make('h3', {}, `What was told beside the answers (${count(remarks.length)})`), make('pre', {}, remarks.join('\n'))) : null];
}
