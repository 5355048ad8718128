// SPDX-License-Identifier: BSD-3-Clause
// Buttons that copy what a table shows, as a text with TABs or as CSV.
import { make } from './text.js';

const quoted = (text) => (/[",\n\r]/.test(text) ? `"${text.replaceAll('"', '""')}"` : text);
const textOf = (rows) => rows.map((row) => row.map((it) => it.replaceAll('\t', ' ')).join('\t')).join('\n');
const csvOf = (rows) => rows.map((row) => row.map(quoted).join(',')).join('\r\n');

// Where the clipboard can't be reached by a call, the text is marked and copied as by a key.
async function copy(text) {
  try {
    await navigator.clipboard.writeText(text);
    return true;
  } catch {
    const area = make('textarea', { class: 'hidden', 'aria-hidden': 'true' });
    area.value = text;
    document.body.append(area);
    area.select();
    const isDone = document.execCommand('copy');
    area.remove();
    return isDone;
  }
}

export function copyButtons(rowsOf) {
  const told = document.getElementById('said');
  const button = (title, id, form) => make('button', { type: 'button', id, onclick: async (event) => {
    const rows = rowsOf();
    const isDone = await copy(`${form(rows)}\n`);
    told.textContent = isDone ? `${rows.length - 1} rows copied` : 'The browser doesn’t let this page copy';
    event.target.focus();
  } }, title);
  return [button('Copy', 'copy-text', textOf), button('Copy as CSV', 'copy-csv', csvOf)];
}
