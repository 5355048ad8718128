// SPDX-License-Identifier: BSD-3-Clause
// A table that draws the rows that are seen: it holds a million of them as quickly as ten.
import { make } from './text.js';

// Browsers limit how high an element may be; a higher table scrolls by more than a row for each pixel.
const MOST_HEIGHT = 12_000_000;
// No screen is higher.
const MOST_SEEN = 6000;
const SPARE = 6;
// Texts longer than this are followed by scrolling.
const MOST_CHARACTERS = 220;
let tables = 0;

// How wide a column is that shows texts of so many characters in full.
export const widthOf = (characters) => `${(Math.min(MOST_CHARACTERS, characters) / 2 + 1.4).toFixed(1)}rem`;

export class Table {
  // `columns` have a title, a width of grid columns, and `end` where they stand at the right. `cells` gives the contents
  // of a row's cells, texts or elements, `open` is called for the row that is opened, and `chosen` for one that the keys
  // lead to. With `fit` the table is as high
  // as its rows, and at most as that many.
  constructor({ label, columns, height = 28, cells, open, chosen, kind, fit = 0 }) {
    Object.assign(this, { columns, rowHeight: height, cells, open, chosen, kind, fit });
    this.id = `table${++tables}`;
    this.count = 0;
    this.active = -1;
    this.rows = new Map();
    this.widths = columns.map((it) => it.width).join(' ');
    this.head = this.headOf();
    this.space = make('div', { class: 'space', role: 'presentation' });
    this.body = make('div', { class: 'body', role: 'rowgroup', onscroll: () => this.draw() }, this.head, this.space);
    this.element = make('div', {
      class: 'table', role: 'grid', 'aria-label': label, 'aria-colcount': columns.length, tabindex: 0,
      onkeydown: (event) => this.key(event), onclick: (event) => this.click(event), onfocus: () => this.enter(),
    }, this.body);
    new ResizeObserver(() => this.fitRows() || this.draw()).observe(this.body);
  }

  headOf() {
    const head = make('div', { class: 'row head', role: 'row', 'aria-rowindex': 1 }, this.columns.map((it) => make(
      'div', { role: 'columnheader', class: it.end ? 'cell end' : 'cell' }, it.title)));
    head.style.gridTemplateColumns = this.widths;
    return head;
  }

  // Makes the table as high as its rows, and a bar below them if it scrolls to the side. Whether its height changed.
  fitRows() {
    if (!this.fit) return false;
    const bar = this.body.offsetHeight - this.body.clientHeight;
    const height = `${36 + bar + Math.min(this.fit, Math.max(1, this.count)) * this.rowHeight}px`;
    const isOther = this.element.style.height !== height;
    this.element.style.height = height;
    return isOther;
  }

  // Shows so many rows, from the first one on.
  show(count) {
    this.count = count;
    this.active = Math.min(this.active, count - 1);
    this.height = Math.min(count * this.rowHeight, MOST_HEIGHT);
    this.space.style.height = `${this.height}px`;
    this.fitRows();
    this.element.setAttribute('aria-rowcount', count + 1);
    this.clear();
    this.body.scrollTop = 0;
    this.draw();
  }

  clear() {
    for (const row of this.rows.values()) row.remove();
    this.rows.clear();
  }

  // How many pixels are seen, and how many rows lie before them.
  seen() {
    const pixels = Math.max(0, Math.min(MOST_SEEN, this.body.clientHeight - this.head.offsetHeight));
    const scrolled = Math.max(1, this.height - pixels);
    const rows = Math.max(0, this.count * this.rowHeight - pixels) / this.rowHeight;
    return { pixels, before: Math.min(rows, (this.body.scrollTop / scrolled) * rows) };
  }

  draw() {
    const { pixels, before } = this.seen();
    const first = Math.max(0, Math.floor(before) - SPARE);
    const last = Math.min(this.count, Math.ceil(before + pixels / this.rowHeight) + SPARE);
    for (const [place, row] of this.rows) {
      if (place < first || place >= last) {
        row.remove();
        this.rows.delete(place);
      }
    }
    const shift = this.body.scrollTop - before * this.rowHeight;
    for (let place = first; place < last; place++) {
      const row = this.rows.get(place) ?? this.add(place);
      row.style.transform = `translateY(${shift + place * this.rowHeight}px)`;
    }
  }

  add(place) {
    const cells = this.cells(place).map((it, at) => make('div', {
      role: 'gridcell', class: `cell ${this.columns[at].end ? 'end ' : ''}${this.columns[at].kind ?? ''}`,
      title: typeof it === 'string' && this.columns[at].wide ? it : null,
    }, it));
    const row = make('div', {
      class: `row ${this.kind?.(place) ?? ''}`, role: 'row', id: `${this.id}-${place}`, 'aria-rowindex': place + 2,
      'aria-selected': place === this.active ? 'true' : 'false',
    }, cells);
    row.style.gridTemplateColumns = this.widths;
    row.style.height = `${this.rowHeight}px`;
    this.rows.set(place, row);
    this.space.append(row);
    return row;
  }

  enter() {
    if (this.active < 0 && this.count) this.choose(0);
  }

  // Makes a row the active one, and scrolls to it where it isn't seen.
  choose(place) {
    this.rows.get(this.active)?.setAttribute('aria-selected', 'false');
    this.active = Math.max(0, Math.min(this.count - 1, place));
    const { pixels, before } = this.seen();
    const fits = Math.max(1, Math.floor(pixels / this.rowHeight));
    if (this.active < before) this.scrollTo(this.active);
    else if (this.active + 1 > before + pixels / this.rowHeight) this.scrollTo(this.active + 1 - fits);
    this.draw();
    this.rows.get(this.active)?.setAttribute('aria-selected', 'true');
    this.element.setAttribute('aria-activedescendant', `${this.id}-${this.active}`);
  }

  scrollTo(row) {
    const { pixels } = this.seen();
    const rows = Math.max(1, (this.count * this.rowHeight - pixels) / this.rowHeight);
    this.body.scrollTop = (Math.min(row, rows) / rows) * Math.max(1, this.height - pixels);
  }

  key(event) {
    const page = Math.max(1, Math.floor(this.seen().pixels / this.rowHeight) - 1);
    const steps = { ArrowDown: 1, ArrowUp: -1, PageDown: page, PageUp: -page, Home: -Infinity, End: Infinity };
    if (event.target !== this.element || event.altKey || event.metaKey || !this.count) return;
    this.enter();
    if (event.key in steps) {
      this.choose(this.active + steps[event.key]);
      this.chosen?.(this.active);
    }
    else if ((event.key === 'Enter' || event.key === ' ') && this.active >= 0) this.open?.(this.active);
    else return;
    event.preventDefault();
  }

  // A click chooses a row; one that ends the marking of a text doesn't.
  click(event) {
    const row = event.target.closest?.('.row:not(.head)');
    if (!row || event.target.closest('button, a') || String(document.getSelection())) return;
    this.choose(Number(row.getAttribute('aria-rowindex')) - 2);
    this.open?.(this.active);
  }
}
